// What m17core's files lean on and is not at hand. The CRC has its table as a constant, one byte a step: the best that the `crc` crate's default can do.
pub mod crc {
    pub struct Algorithm<W> {
        pub width: u8,
        pub poly: W,
        pub init: W,
        pub refin: bool,
        pub refout: bool,
        pub xorout: W,
        pub check: W,
        pub residue: W,
    }

    const fn table() -> [u16; 256] {
        let mut t = [0u16; 256];
        let mut i = 0;
        while i < 256 {
            let mut v = (i as u16) << 8;
            let mut k = 0;
            while k < 8 {
                v = if v & 0x8000 != 0 { (v << 1) ^ 0x5935 } else { v << 1 };
                k += 1;
            }
            t[i] = v;
            i += 1;
        }
        t
    }
    static TABLE: [u16; 256] = table();

    pub struct Crc<W>(W);
    pub struct Digest(u16);

    impl Crc<u16> {
        pub fn new(a: &'static Algorithm<u16>) -> Self {
            let _ = (a.width, a.poly, a.refin, a.refout, a.xorout, a.check, a.residue);
            Crc(a.init)
        }
        pub fn digest(&self) -> Digest {
            Digest(self.0)
        }
    }

    impl Digest {
        pub fn update(&mut self, input: &[u8]) {
            for b in input {
                self.0 = TABLE[((self.0 >> 8) as u8 ^ b) as usize] ^ (self.0 << 8);
            }
        }
        pub fn finalize(self) -> u16 {
            self.0
        }
    }
}

pub use crate::leaned_on::{bits, log};

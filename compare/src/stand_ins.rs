// What m17core's files lean on and is not at hand: the `crc` and `log` crates, as far as these files use them, and bits.rs.

pub mod crc {
    use std::marker::PhantomData;

    #[allow(dead_code)]
    pub struct Algorithm<W> {
        pub width: u8,
        pub poly: W,
        pub init: W,
        pub refin: bool,
        pub refout: bool,
        pub xorout: W,
        pub check: W,
        pub residue: W,
    }

    pub struct Crc<W>(&'static Algorithm<u16>, PhantomData<W>);

    pub struct Digest<'a>(&'a Algorithm<u16>, u16);

    impl Crc<u16> {
        pub fn new(algorithm: &'static Algorithm<u16>) -> Self {
            assert!(!algorithm.refin && !algorithm.refout && algorithm.width == 16);
            Crc(algorithm, PhantomData)
        }

        pub fn digest(&self) -> Digest<'_> {
            Digest(self.0, self.0.init)
        }
    }

    impl Digest<'_> {
        pub fn update(&mut self, input: &[u8]) {
            for b in input {
                self.1 ^= (*b as u16) << 8;
                for _ in 0..8 {
                    let top = self.1 & 0x8000 != 0;
                    self.1 <<= 1;
                    if top {
                        self.1 ^= self.0.poly;
                    }
                }
            }
        }

        pub fn finalize(self) -> u16 {
            self.1 ^ self.0.xorout
        }
    }
}

pub use crate::leaned_on::{bits, log};

// Stand-ins that compare/ and compare/bench share: the `log` crate's macro, and bits.rs.

pub mod log {
    macro_rules! debug {
        ($($t:tt)*) => {{ let _ = format_args!($($t)*); }};
    }
    pub(crate) use debug;
}

pub mod bits {
    // Bit 0 is the high bit of the first byte.
    pub struct BitsMut<'a>(&'a mut [u8]);

    impl<'a> BitsMut<'a> {
        pub fn new(bytes: &'a mut [u8]) -> Self {
            BitsMut(bytes)
        }

        pub fn set_bit(&mut self, at: usize, value: u8) {
            let mask = 0x80 >> (at % 8);
            if value == 0 {
                self.0[at / 8] &= !mask;
            } else {
                self.0[at / 8] |= mask;
            }
        }
    }
}

//! STAND-IN for the crate leb128fmt: what the crate's encode.rs calls. That file
//! serves only the dylink.0 custom section, which document 01 leaves out, so
//! nothing that the oracle writes passes through here.

macro_rules! unsigned {
    ($f:ident $t:ty, $n:literal) => {
        pub fn $f(mut x: $t) -> Option<([u8; $n], usize)> {
            let mut out = [0; $n];
            let mut i = 0;
            loop {
                let low = (x & 0x7f) as u8;
                x >>= 7;
                if x == 0 {
                    out[i] = low;
                    return Some((out, i + 1));
                }
                out[i] = low | 0x80;
                i += 1;
            }
        }
    };
}
macro_rules! signed {
    ($f:ident $t:ty, $n:literal) => {
        pub fn $f(mut x: $t) -> Option<([u8; $n], usize)> {
            let mut out = [0; $n];
            let mut i = 0;
            loop {
                let low = (x & 0x7f) as u8;
                x >>= 7;
                if (x == 0 && low & 0x40 == 0) || (x == -1 && low & 0x40 != 0) {
                    out[i] = low;
                    return Some((out, i + 1));
                }
                out[i] = low | 0x80;
                i += 1;
            }
        }
    };
}
unsigned!(encode_u32 u32, 5);
unsigned!(encode_u64 u64, 10);
signed!(encode_s32 i32, 5);
signed!(encode_s64 i64, 10);

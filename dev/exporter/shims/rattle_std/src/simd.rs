//! Rows of bytes, compared side by side, as loops: Rust's own are not stable.

/// What programs import.
pub mod prelude {
    pub use super::{mask8x32, u8x32};
}

/// 32 bytes.
#[allow(non_camel_case_types)]
#[derive(Clone, Copy)]
pub struct u8x32([u8; 32]);

/// 32 answers.
#[allow(non_camel_case_types)]
#[derive(Clone, Copy)]
pub struct mask8x32([bool; 32]);

impl u8x32 {
    /// The first 32 bytes of a slice.
    #[inline(always)]
    pub fn from_slice(bytes: &[u8]) -> u8x32 {
        let mut row = [0; 32];
        row.copy_from_slice(&bytes[..32]);
        u8x32(row)
    }

    /// 32 times this byte.
    #[inline(always)]
    pub fn splat(byte: u8) -> u8x32 {
        u8x32([byte; 32])
    }

    /// Which bytes are the same.
    #[inline(always)]
    pub fn simd_eq(self, other: u8x32) -> mask8x32 {
        let mut same = [false; 32];
        for (k, answer) in same.iter_mut().enumerate() {
            *answer = self.0[k] == other.0[k];
        }
        mask8x32(same)
    }
}

impl mask8x32 {
    /// Bit k is answer k.
    #[inline(always)]
    pub fn to_bitmask(self) -> u64 {
        let mut bits = 0;
        for (k, answer) in self.0.iter().enumerate() {
            bits |= u64::from(*answer) << k;
        }
        bits
    }
}

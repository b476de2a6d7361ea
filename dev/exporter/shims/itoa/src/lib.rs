//! Numbers in decimal, after the crate itoa: as much of it as these crates use.
#![no_std]

/// Room for the digits of a number.
pub struct Buffer {
    digits: [u8; 20],
}

/// A number that can be written.
pub trait Integer: Copy {
    /// Its size.
    fn magnitude(self) -> u64;

    /// Whether it is below 0.
    fn is_negative(self) -> bool;
}

macro_rules! unsigned {
    ($($t:ty)*) => {$(
        impl Integer for $t {
            fn magnitude(self) -> u64 {
                self as u64
            }

            fn is_negative(self) -> bool {
                false
            }
        }
    )*};
}

macro_rules! signed {
    ($($t:ty)*) => {$(
        impl Integer for $t {
            fn magnitude(self) -> u64 {
                self.unsigned_abs() as u64
            }

            fn is_negative(self) -> bool {
                self < 0
            }
        }
    )*};
}

unsigned!(u8 u16 u32 u64 usize);
signed!(i8 i16 i32 i64 isize);

impl Buffer {
    /// Room.
    pub const fn new() -> Buffer {
        Buffer { digits: [0; 20] }
    }

    /// The text of a number.
    pub fn format<I: Integer>(&mut self, number: I) -> &str {
        let mut rest = number.magnitude();
        let mut at = self.digits.len();
        loop {
            at -= 1;
            self.digits[at] = b'0' + (rest % 10) as u8;
            rest /= 10;
            if rest == 0 {
                break;
            }
        }
        if number.is_negative() {
            at -= 1;
            self.digits[at] = b'-';
        }
        // SAFETY: digits and a sign are ASCII.
        unsafe { core::str::from_utf8_unchecked(&self.digits[at..]) }
    }
}

impl Default for Buffer {
    fn default() -> Buffer {
        Buffer::new()
    }
}

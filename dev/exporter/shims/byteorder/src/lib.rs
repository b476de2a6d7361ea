//! Numbers as bytes, after the crate byteorder: as much of it as these crates use, and the like of it.
#![no_std]

macro_rules! orders {
    ($(($number:ident, $read:ident, $read_into:ident, $write:ident, $count:literal))*) => {
        /// An order of bytes.
        pub trait ByteOrder {
            $(
                /// The number of the first bytes.
                fn $read(bytes: &[u8]) -> $number;

                /// The numbers of as many bytes as they need.
                fn $read_into(bytes: &[u8], numbers: &mut [$number]);

                /// Writes a number to the first bytes.
                fn $write(bytes: &mut [u8], number: $number);
            )*
        }

        impl ByteOrder for LittleEndian {
            $(
                fn $read(bytes: &[u8]) -> $number {
                    let mut first = [0; $count];
                    first.copy_from_slice(&bytes[..$count]);
                    $number::from_le_bytes(first)
                }

                fn $read_into(bytes: &[u8], numbers: &mut [$number]) {
                    assert_eq!(bytes.len(), $count * numbers.len());
                    for (piece, number) in bytes.chunks_exact($count).zip(numbers) {
                        *number = Self::$read(piece);
                    }
                }

                fn $write(bytes: &mut [u8], number: $number) {
                    bytes[..$count].copy_from_slice(&number.to_le_bytes());
                }
            )*
        }
    };
}

/// The least byte first.
pub enum LittleEndian {}

orders! {
    (u16, read_u16, read_u16_into, write_u16, 2)
    (u32, read_u32, read_u32_into, write_u32, 4)
    (u64, read_u64, read_u64_into, write_u64, 8)
}

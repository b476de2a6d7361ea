use byteorder::{ByteOrder, LittleEndian};

#[test]
fn the_least_byte_comes_first() {
    let mut bytes = [0; 9];
    LittleEndian::write_u32(&mut bytes[1..], 0x04030201);
    LittleEndian::write_u16(&mut bytes[5..], 0x0605);
    assert_eq!(bytes, [0, 1, 2, 3, 4, 5, 6, 0, 0]);
    assert_eq!(LittleEndian::read_u64(&bytes[1..]), 0x0000060504030201);
    let mut words = [0; 2];
    LittleEndian::read_u32_into(&bytes[..8], &mut words);
    assert_eq!(words, [0x03020100, 0x00060504]);
}

#[test]
#[should_panic]
fn a_slice_of_another_length_is_refused() {
    LittleEndian::read_u32_into(&[0; 7], &mut [0; 2]);
}

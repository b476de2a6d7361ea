use itoa::Buffer;

#[test]
fn numbers_are_written_as_rust_writes_them() {
    let mut room = Buffer::new();
    for number in [0, 1, 9, 10, 4294967295, u64::MAX] {
        assert_eq!(room.format(number), number.to_string());
    }
    for number in [i64::MIN, -10, -1, 0, i64::MAX] {
        assert_eq!(room.format(number), number.to_string());
    }
}

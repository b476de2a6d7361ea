use rattle_std::alloc::Global;
use rattle_std::collections::{BTreeMap, HashMap};
use rattle_std::io::{Read, Write};
use rattle_std::simd::u8x32;
use rattle_std::vec::Vec;

// Keys in three orders: up, down, and mixed.
fn orders() -> [std::vec::Vec<u32>; 3] {
    [(0..1000).collect(), (0..1000).rev().collect(), (0..1000).map(|k| k * 387 % 1000).collect()]
}

#[test]
fn a_map_by_hashes_keeps_each_pair_while_it_grows() {
    for keys in orders() {
        let mut map = HashMap::new(Global);
        for key in keys {
            assert_eq!(map.insert(key, key + 1).unwrap(), None);
        }
        assert_eq!(map.insert(7, 0).unwrap(), Some(8));
        for key in 0..1000 {
            assert_eq!(map.get(&key), Some(&if key == 7 { 0 } else { key + 1 }));
        }
        assert_eq!(map.get(&1000), None);
    }
}

#[test]
fn a_map_by_order_keeps_each_pair_while_it_grows() {
    for keys in orders() {
        let mut map = BTreeMap::new(Global);
        for key in keys {
            assert_eq!(map.insert(key, key + 1).unwrap(), None);
        }
        assert_eq!((map.insert(7, 0).unwrap(), map.len()), (Some(8), 1000));
        for key in 0..1000 {
            assert_eq!(map.get(&key), Some(&if key == 7 { 0 } else { key + 1 }));
        }
        assert_eq!(map.get(&1000), None);
    }
}

#[test]
fn a_vector_refuses_what_no_memory_holds() {
    assert!(Vec::<u64>::with_capacity(Global, usize::MAX / 2).is_err());
    let mut all = Vec::<u8>::new(Global);
    assert!(all.resize(usize::MAX, 0).is_err());
    assert!(all.as_slice().is_empty());
}

#[test]
fn a_row_says_which_bytes_are_the_same() {
    let mut bytes = [0; 40];
    bytes[3] = 10;
    bytes[31] = 10;
    bytes[32] = 10;
    let same = u8x32::from_slice(&bytes).simd_eq(u8x32::splat(10));
    assert_eq!(same.to_bitmask(), 1 << 3 | 1 << 31);
}

#[test]
fn slices_are_read_and_written_to_their_ends() {
    let mut source: &[u8] = b"abc";
    let mut two = [0; 2];
    assert_eq!((source.read(&mut two).unwrap(), two), (2, *b"ab"));
    assert_eq!((source.read(&mut two).unwrap(), two[0], source), (1, b'c', &b""[..]));
    let mut room = [0; 3];
    let mut rest = &mut room[..];
    assert_eq!((rest.write(b"xy").unwrap(), rest.write(b"zz").unwrap(), rest.write(b"z").unwrap()), (2, 1, 0));
    assert_eq!(&room, b"xyz");
}

use arrayvec::{ArrayString, ArrayVec};
use std::rc::Rc;

#[test]
fn a_full_vector_refuses_and_gives_back() {
    let mut all = ArrayVec::<u8, 2>::new();
    assert!(all.try_push(1).is_ok() && all.try_push(2).is_ok());
    assert_eq!(all.try_push(3).unwrap_err().element(), 3);
    assert_eq!(all.as_slice(), [1, 2]);
}

#[test]
#[should_panic]
fn push_panics_where_it_is_full() {
    ArrayVec::<u8, 0>::new().push(1);
}

#[test]
fn each_item_is_dropped_once() {
    let item = Rc::new(());
    let mut all = ArrayVec::<Rc<()>, 3>::new();
    all.push(item.clone());
    all.push(item.clone());
    let copy = all.clone();
    assert_eq!(Rc::strong_count(&item), 5);
    drop(all.pop());
    assert_eq!(Rc::strong_count(&item), 4);
    drop((all, copy));
    assert_eq!(Rc::strong_count(&item), 1);
}

#[test]
fn a_text_keeps_whole_characters() {
    let mut text = ArrayString::<8>::new();
    text.push('a');
    text.push('\u{20ac}');
    text.push_str("bc");
    assert_eq!(text.as_str(), "a\u{20ac}bc");
    text.clear();
    assert_eq!(text.as_str(), "");
}

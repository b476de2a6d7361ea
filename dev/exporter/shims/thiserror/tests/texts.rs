use thiserror::Error;

#[derive(Debug, Error)]
#[error("line {line} {why}")]
struct Named {
    line: u32,
    why: &'static str,
}

#[derive(Debug, Error)]
#[allow(dead_code)]
enum Each {
    #[error("none")]
    None,
    #[error("word {0} of {1:x}")]
    Two(u32, u32),
    #[error("at {at}")]
    Field { at: u8, other: u8 },
}

#[test]
fn texts_show_the_fields() {
    assert_eq!(Named { line: 3, why: "ends" }.to_string(), "line 3 ends");
    assert_eq!(Each::None.to_string(), "none");
    assert_eq!(Each::Two(1, 255).to_string(), "word 1 of ff");
    assert_eq!(Each::Field { at: 2, other: 3 }.to_string(), "at 2");
    let error: Box<dyn std::error::Error> = Box::new(Each::None);
    assert!(error.source().is_none());
}

"""The crates as ordinary Rust."""

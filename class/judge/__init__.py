"""The judge of the exercises: it is written in Rust, in src, and building.py builds it."""

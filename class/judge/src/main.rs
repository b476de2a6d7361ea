//! The judge as a program: a request from standard input, its answer to standard output.

use std::io::{Read, Write, stdin, stdout};

fn main() -> std::io::Result<()> {
    let mut request = Vec::new();
    stdin().lock().read_to_end(&mut request)?;
    stdout().lock().write_all(pip_judge::answer(&request).as_bytes())
}

//! Lists standard input as the Rust lexer reads it.

use std::io::{Read, Write, stdin, stdout};

fn main() -> std::io::Result<()> {
    let mut input = Vec::new();
    stdin().read_to_end(&mut input)?;
    stdout().write_all(&driver::listing(&input))
}

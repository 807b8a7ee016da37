//! The program of document 01 by the second loader: frames from standard
//! input, the outline or the refusal to standard output.

use std::io::{Read, Write};

fn main() -> std::io::Result<()> {
    let mut input = Vec::new();
    std::io::stdin().read_to_end(&mut input)?;
    std::io::stdout().write_all(&second::program::dump(&input))
}

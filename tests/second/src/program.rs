//! The programs as processes.

use std::io::{self, Read, Write};

/// Standard input, whole, to standard output by a program on bytes.
pub fn run(program: fn(&[u8]) -> Vec<u8>) -> io::Result<()> {
    let mut text = Vec::new();
    io::stdin().lock().read_to_end(&mut text)?;
    let mut output = io::stdout().lock();
    output.write_all(&program(&text))?;
    output.flush()
}

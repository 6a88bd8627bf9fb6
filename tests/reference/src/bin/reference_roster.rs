//! The roster program: a ward file on standard input, the roster on standard output.

use std::io::{self, Read, Write};

fn main() -> io::Result<()> {
    let mut file = Vec::new();
    io::stdin().read_to_end(&mut file)?;
    io::stdout().write_all(reference::program::run(&file).as_bytes())
}

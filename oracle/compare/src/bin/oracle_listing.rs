//! The oracle's own listing of standard input, for trying comparisons of files where no listing program is built.

use std::io::{self, Read, Write};

fn main() -> io::Result<()> {
    let mut file = Vec::new();
    io::stdin().read_to_end(&mut file)?;
    io::stdout().write_all(&oracle::batch::listing(&file))
}

//! Reads one sheet from standard input and prints what document 01 says.

use std::io::{self, BufWriter, Read, Write};

use second::play::play;
use second::sheet::LONGEST_SHEET;

fn main() -> io::Result<()> {
    // One byte over the limit is enough to know that the sheet is too long.
    let mut bytes = Vec::new();
    io::stdin()
        .lock()
        .take(LONGEST_SHEET as u64 + 1)
        .read_to_end(&mut bytes)?;
    let mut out = BufWriter::new(io::stdout().lock());
    play(&bytes, &mut out)?;
    out.flush()
}

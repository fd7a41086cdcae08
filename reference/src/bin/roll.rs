//! Reads an input from standard input and prints its roll.

use std::io::{self, BufWriter, Read, Write};

use reference::roll::{write_roll, INPUT_LIMIT};

fn main() -> io::Result<()> {
    // One byte more than the limit is enough to refuse.
    let mut input = Vec::new();
    io::stdin()
        .lock()
        .take(INPUT_LIMIT as u64 + 1)
        .read_to_end(&mut input)?;
    let mut out = BufWriter::with_capacity(64 * 1024, io::stdout().lock());
    write_roll(&input, &mut out)?;
    out.flush()
}

//! Reads a list of calls from standard input and prints their answers.

use std::io::{self, BufWriter, Read, Write};

fn main() -> io::Result<()> {
    let mut list = Vec::new();
    let most = schedule::calls::INPUT_LIMIT as u64 + 1;
    io::stdin().lock().take(most).read_to_end(&mut list)?;
    let mut out = BufWriter::new(io::stdout().lock());
    schedule::calls::run(&list, &mut out)?;
    out.flush()
}

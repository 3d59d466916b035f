//! Reads a journal from standard input, replays it and prints the answers.

use std::io::{self, BufWriter, Read, Write};

fn main() -> io::Result<()> {
    let mut journal = Vec::new();
    let most = schedule::replay::INPUT_LIMIT as u64 + 1;
    io::stdin().lock().take(most).read_to_end(&mut journal)?;
    let mut out = BufWriter::new(io::stdout().lock());
    schedule::replay::run(&journal, &mut out)?;
    out.flush()
}

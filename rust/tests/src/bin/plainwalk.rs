//! The reference's walk as a program: it reads lines from standard input and writes their answers to
//! standard output, as `slicewalk` does.

use std::io::{self, BufRead, BufReader, Write};

use hiwalgam_reference::walk::{without_end, Walk};

/// The bytes of a piece of input, and about those of a piece of output.
const PIECE: usize = 64 * 1024;

fn main() -> io::Result<()> {
    let mut input = BufReader::with_capacity(PIECE, io::stdin().lock());
    let mut output = io::stdout().lock();
    let mut walk = Walk::new();
    let mut line = Vec::new();
    let mut out = Vec::new();
    // A line that a piece leaves unfinished is read on from the next.
    while input.read_until(b'\n', &mut line)? > 0 {
        walk.line(without_end(&line), &mut out);
        line.clear();
        if out.len() >= PIECE {
            output.write_all(&out)?;
            out.clear();
        }
    }
    output.write_all(&out)?;
    output.flush()
}

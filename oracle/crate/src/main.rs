//! The oracle: operations on standard input, answers on standard output (the text protocol).
use std::io::{BufRead, BufWriter, Result, Write, stdin, stdout};

fn main() -> Result<()> {
    let mut oracle = transforms::protocol::Oracle::default();
    let mut out = BufWriter::new(stdout().lock());
    for line in stdin().lock().split(b'\n') {
        if let Some(answer) = oracle.answer(&line?) {
            writeln!(out, "{answer}")?;
        }
    }
    out.flush()
}

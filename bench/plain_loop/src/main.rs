//! Reads standard input line by line by `serde_json` and drops what it read: what a program in Rust
//! that reads its lines does at least. It prints how many lines had what it looks for.
//!
//! `plain_loop` reads each line into a `serde_json::Value` and counts the objects; `plain_loop
//! derived` reads of each line only the members that an audit judges, into structs whose readers
//! `serde` derives, and counts the envelopes that it knows.
mod envelope;

use envelope::Envelope;
use std::io::{self, BufRead};

/// Whether a line is an object.
fn is_object(line: &[u8]) -> serde_json::Result<bool> {
    Ok(serde_json::from_slice::<serde_json::Value>(line)?.is_object())
}

/// Whether a line is an envelope of a kind that an audit judges.
fn is_judged(line: &[u8]) -> serde_json::Result<bool> {
    Ok(serde_json::from_slice::<Envelope>(line)?.is_judged())
}

fn main() -> io::Result<()> {
    let counts = match std::env::args().nth(1).as_deref() {
        None | Some("value") => is_object,
        Some("derived") => is_judged,
        Some(other) => return Err(io::Error::other(format!("no such mode: {other}"))),
    };
    let mut input = io::stdin().lock();
    let mut line = Vec::new();
    let mut counted = 0u64;
    while input.read_until(b'\n', &mut line)? != 0 {
        counted += u64::from(counts(&line)?);
        line.clear();
    }
    println!("{counted}");
    Ok(())
}

//! A reference console in plain Rust: the same lines and the same answers as `surtitle`, unproved, written for speed.
//! It shares no code with the crates of this repository. `bench/run` runs the two beside each other.

mod book;
mod console;
mod device;
mod hex;
mod player;
mod protocol;
mod script;
mod text;
mod words;

use console::Console;
use std::fs::File;
use std::io::{self, BufRead, Read, Write};
use std::os::fd::AsFd;

/// Output is handed on in pieces of about this many bytes.
const PIECE: usize = 1 << 16;

fn main() -> io::Result<()> {
    let mut input = Vec::new();
    File::from(io::stdin().as_fd().try_clone_to_owned()?).read_to_end(&mut input)?;
    let mut output = File::from(io::stdout().as_fd().try_clone_to_owned()?);
    let mut console = Console::new();
    let mut said = Vec::with_capacity(2 * PIECE);
    let mut rest = &input[..];
    let mut number = 0;
    while !rest.is_empty() {
        let from = rest;
        let length = rest.skip_until(b'\n')?;
        let line = &from[..length];
        number += 1;
        console.answer(number, line.strip_suffix(b"\n").unwrap_or(line), &mut said);
        if said.len() >= PIECE {
            output.write_all(&said)?;
            said.clear();
        }
    }
    output.write_all(&said)
}

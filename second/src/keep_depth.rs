//! The program `keep_depth`: lines of `aisle` on standard input, and the same lines with their depths on standard output.

use crate::line::{copy_with_depths, Copied};
use crate::output::Output;
use std::io::{self, ErrorKind, Read, Write};

/// How much is read at a time. A line that may still become well formed is far shorter, so there is always room for more.
pub const PART: usize = 1 << 16;

/// Copies line by line, part by part, up to the end or the first malformed line; answers that line's number, from 1.
pub fn copy(mut input: impl Read, mut output: impl Write) -> io::Result<Option<u64>> {
    let mut part = vec![0; PART];
    let mut written = Vec::with_capacity(2 * PART);
    // How many bytes of a line that isn't ended the part begins with, and which line that is.
    let (mut unended, mut line) = (0, 1);
    loop {
        let read = match input.read(&mut part[unended..]) {
            Err(error) if error.kind() == ErrorKind::Interrupted => continue,
            read => read?,
        };
        let filled = unended + read;
        let Copied { lines, length, malformed } = copy_with_depths(&part[..filled], &mut written);
        output.write_all(&written)?;
        written.clear();
        line += lines;
        if malformed || read == 0 {
            output.flush()?;
            return Ok((malformed || filled > length).then_some(line));
        }
        part.copy_within(length..filled, 0);
        unended = filled - length;
    }
}

/// What is told on standard error.
pub fn told(refused: Option<u64>) -> String {
    refused.map_or(String::new(), |line| format!("refused 3 {line}\n"))
}

/// All that is written for a whole input.
pub fn answer(input: &[u8]) -> Output {
    let mut out = Vec::new();
    // Reading a slice and writing to a list can't fail.
    let refused = copy(input, &mut out).unwrap_or_default();
    Output { out, err: told(refused).into_bytes() }
}

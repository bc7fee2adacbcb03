//! The line of `aisle`: how it is written, what stands for the numbers that it leaves out, and how it keeps the depth that stood
//! for them before document 02.

use crate::checks::put;
use crate::refusal::Refusal;

/// The depth of a line that leaves it out.
const DEPTH: u64 = 4;

/// What a line that leaves its depth out gets ahead of its LF: the depth that was left out until document 02.
const KEPT_DEPTH: &[u8] = b" 1";

const MOST_DIGITS: usize = 7;
const MOST_NUMBERS: usize = 7;

/// A line's numbers; those left out have their stated values.
pub struct Line {
    pub start: u64,
    pub goal: u64,
    pub depth: u64,
    pub p: u64,
    pub q: u64,
    pub quota: u64,
    pub trials: u64,
}

/// What the bytes from the beginning of a line on are.
#[derive(Clone, Copy, Debug, PartialEq, Eq)]
pub enum Scan {
    /// They begin with a well-formed line of so many numbers, this long with its LF.
    Line { length: usize, numbers: usize },
    /// They end within a line that may still become well formed.
    Unended,
    /// However they go on, the line is malformed.
    Malformed,
}

/// The form of a line: 2, 3, 5, 6 or 7 numbers of 1 to 7 digits, one space apart, and an LF. Ranges aren't judged.
pub fn scan(bytes: &[u8]) -> Scan {
    let (mut numbers, mut digits) = (1, 0);
    for (at, &byte) in bytes.iter().enumerate() {
        match byte {
            b'0'..=b'9' if digits < MOST_DIGITS => digits += 1,
            b' ' if digits > 0 && numbers < MOST_NUMBERS => (numbers, digits) = (numbers + 1, 0),
            b'\n' if digits > 0 && !matches!(numbers, 1 | 4) => {
                return Scan::Line { length: at + 1, numbers }
            }
            _ => return Scan::Malformed,
        }
    }
    Scan::Unended
}

/// The line that an input begins with, and what comes after it; none where it is malformed.
pub fn read(input: &[u8]) -> Option<(Line, &[u8])> {
    let Scan::Line { length, .. } = scan(input) else { return None };
    let (line, rest) = input.split_at(length);
    let number = |word: &[u8]| word.iter().fold(0, |number, digit| number * 10 + u64::from(digit - b'0'));
    let numbers: Vec<u64> = line[..length - 1].split(|&byte| byte == b' ').map(number).collect();
    let or = |index: usize, left_out: u64| numbers.get(index).copied().unwrap_or(left_out);
    let line = Line {
        start: numbers[0],
        goal: numbers[1],
        depth: or(2, DEPTH),
        p: or(3, 1),
        q: or(4, 1),
        quota: or(5, 1_000_000),
        trials: or(6, 10),
    };
    Some((line, rest))
}

/// What was copied of some bytes.
pub struct Copied {
    /// How many lines, and how many bytes they were.
    pub lines: u64,
    pub length: usize,
    /// Whether the line behind them is malformed, whatever comes after the bytes.
    pub malformed: bool,
}

/// Copies the well-formed lines that some bytes begin with behind what is written already. Two numbers become three, any other
/// line stays as it is.
pub fn copy_with_depths(bytes: &[u8], written: &mut Vec<u8>) -> Copied {
    // What is copied stands ahead of `length`, and what of it is written ahead of `at`.
    let (mut lines, mut length, mut at) = (0, 0, 0);
    loop {
        match scan(&bytes[length..]) {
            Scan::Line { length: more, numbers } => {
                (lines, length) = (lines + 1, length + more);
                if numbers == 2 {
                    written.extend_from_slice(&bytes[at..length - 1]);
                    written.extend_from_slice(KEPT_DEPTH);
                    at = length - 1;
                }
            }
            end => {
                written.extend_from_slice(&bytes[at..length]);
                return Copied { lines, length, malformed: end == Scan::Malformed };
            }
        }
    }
}

/// The public call, one line with its depth into a buffer: judges 3 and 17, and answers how many bytes it wrote.
pub fn keep_depth(line: &[u8], buffer: &mut [u8]) -> Result<usize, Refusal> {
    let mut written = Vec::new();
    let Copied { lines, length, .. } = copy_with_depths(line, &mut written);
    if (lines, length) != (1, line.len()) {
        return Err(Refusal::plain(3));
    }
    put(&written, buffer)
}

//! Lines of `aisle`: the depth that they leave out, call 16, and the program `keep_depth`.

use second::keep_depth::{answer, copy, PART};
use second::line::keep_depth;
use second::output::Output;
use second::refusal::Refusal;
use std::io::Read;

/// A good line, and what it is with its depth.
const LINES: [(&str, &str); 12] = [
    ("6 0\n", "6 0 1\n"),
    ("0006 0000000\n", "0006 0000000 1\n"),
    ("9999999 9999999\n", "9999999 9999999 1\n"),
    ("4095 0\n", "4095 0 1\n"),
    ("6 0 1\n", "6 0 1\n"),
    ("6 0 4\n", "6 0 4\n"),
    ("6 0 0000009\n", "6 0 0000009\n"),
    ("6 0 2 3 4\n", "6 0 2 3 4\n"),
    // No range is judged: p above q, depth and trials 0, a quota above the most.
    ("6 0 0 17 16 9999999\n", "6 0 0 17 16 9999999\n"),
    ("6 0 1 1 1 0 10\n", "6 0 1 1 1 0 10\n"),
    ("006 00 01 001 1 0 0\n", "006 00 01 001 1 0 0\n"),
    (
        "1234567 1234567 1234567 1234567 1234567 1234567 1234567\n",
        "1234567 1234567 1234567 1234567 1234567 1234567 1234567\n",
    ),
];

/// Lines that are malformed, with what stands for their LF.
const MALFORMED: [&[u8]; 32] = [
    b"\n",
    b"6\n",
    b"6 0 1 1\n",
    b"6 0 1 1 1 0 10 0\n",
    b"6 0 1 1 1 0 10 \n",
    b"1234567 1234567 1234567 1234567 1234567 1234567 1234567 \n",
    b"12345678 0\n",
    b"6 00000000\n",
    b"6 0 1 1 1 0 12345678\n",
    b"6  0\n",
    b" 6 0\n",
    b"6 0 \n",
    b"6 0 1 \n",
    b" \n",
    b"6 0\r\n",
    b"6\t0\n",
    b"6 0\t\n",
    b"\xEF\xBB\xBF6 0\n",
    b"6 x\n",
    b"6 0x\n",
    b"-6 0\n",
    b"+6 0\n",
    b"6,0\n",
    b"6 1.0\n",
    b"6 0\0\n",
    b"\0\n",
    b"6 /\n",
    b"6 :\n",
    b"6 0",
    b"6 0 1",
    b"6 0 1 1 1 0 10",
    b"6 0 ",
];

#[test]
fn the_depth_that_is_left_out_is_4() {
    let floor = "type octile\nheight 3\nwidth 3\nmap\n...\n@@.\n...\n";
    let aisle =
        |line: &str| String::from_utf8(second::aisle::answer(format!("{line}{floor}").as_bytes())).unwrap();
    assert_eq!(aisle("6 0\n"), aisle("6 0 4\n"));
    // The rings from 6 on are 7, 8, 5 and 2, with 34, 48, 54 and 60: the figure of 6 rises by 40 at once, from 20 to the truth.
    assert_eq!(aisle("6 0\n"), "220066 2 40 60 60\n220066 2 0 60 60\nsettled 2\n");
    // What it printed before document 02 it prints with its depth.
    let before =
        "220066 6 40 60 60\n220066 6 26 60 60\n220066 6 12 60 60\n220066 6 6 60 60\n220066 6 0 60 60\nsettled 5\n";
    assert_eq!(aisle("6 0 1\n"), before);
    let kept = String::from_utf8(answer(b"6 0\n").out).unwrap();
    assert_eq!(aisle(&kept), before);
    assert_ne!(aisle("6 0\n"), before);
}

#[test]
fn a_line_gets_its_depth() {
    for (line, due) in LINES {
        let mut buffer = [0xEE; 60];
        assert_eq!(keep_depth(line.as_bytes(), &mut buffer), Ok(due.len()));
        assert_eq!((&buffer[..due.len()], buffer[due.len()]), (due.as_bytes(), 0xEE));
        assert_eq!(keep_depth(line.as_bytes(), &mut buffer[..due.len()]), Ok(due.len()));
        for room in 0..due.len() {
            let mut short = vec![0xEE; room];
            assert_eq!(keep_depth(line.as_bytes(), &mut short), Err(Refusal::plain(17)));
            assert_eq!(short, vec![0xEE; room]);
        }
        assert_eq!(answer(line.as_bytes()), Output::plain(due.into()));
    }
}

#[test]
fn a_malformed_line_is_3_whatever_the_room() {
    let none = |line: &[u8]| {
        for room in [0, 60] {
            let mut buffer = vec![0xEE; room];
            assert_eq!(keep_depth(line, &mut buffer), Err(Refusal::plain(3)), "{line:?}");
            assert_eq!(buffer, vec![0xEE; room]);
        }
    };
    none(b"");
    MALFORMED.into_iter().for_each(none);
    // One line and no more: an LF inside, or anything behind it.
    for behind in ["\n", "6 0\n", "6", " ", "\0"] {
        none(format!("6 0\n{behind}").as_bytes());
    }
    none(b"\n6 0\n");
    none(b"6\n0\n");
}

fn refused(out: &str, line: u64) -> Output {
    Output { out: out.into(), err: format!("refused 3 {line}\n").into() }
}

#[test]
fn the_program_stops_at_the_first_malformed_line() {
    assert_eq!(answer(b""), Output::plain(Vec::new()));
    let [lines, due] = [LINES.map(|(line, _)| line).concat(), LINES.map(|(_, due)| due).concat()];
    assert_eq!(answer(lines.as_bytes()), Output::plain(due.clone().into()));
    for malformed in MALFORMED {
        assert_eq!(answer(malformed), refused("", 1), "{malformed:?}");
        let later = [lines.as_bytes(), malformed].concat();
        assert_eq!(answer(&later), refused(&due, 13), "{malformed:?}");
        // Of two the first is told, and what comes after it isn't looked at.
        if malformed.ends_with(b"\n") {
            let both = [b"6 0\n", malformed, lines.as_bytes(), malformed].concat();
            assert_eq!(answer(&both), refused("6 0 1\n", 2), "{malformed:?}");
        }
    }
}

/// Hands out its bytes so many at a time.
struct Pieces<'a>(&'a [u8], usize);

impl Read for Pieces<'_> {
    fn read(&mut self, buffer: &mut [u8]) -> std::io::Result<usize> {
        let length = self.1.min(buffer.len()).min(self.0.len());
        let (piece, rest) = self.0.split_at(length);
        buffer[..length].copy_from_slice(piece);
        self.0 = rest;
        Ok(length)
    }
}

#[test]
fn lines_come_in_whatever_pieces() {
    let lines = LINES.map(|(line, _)| line).concat().repeat(800);
    let due = LINES.map(|(_, due)| due).concat().repeat(800);
    assert!(lines.len() > 2 * PART);
    for size in [1, 2, 7, 55, 56, 57, 4_096, PART - 1, PART, PART + 1] {
        for (end, line) in
            [("", None), ("6 0", Some(9_601)), ("\n6 0\n", Some(9_601)), ("6 0\n6\n", Some(9_602))]
        {
            let mut out = Vec::new();
            let input = lines.clone() + end;
            assert_eq!(copy(Pieces(input.as_bytes(), size), &mut out).unwrap(), line);
            let more = if line == Some(9_602) { "6 0 1\n" } else { "" };
            assert_eq!(out, (due.clone() + more).into_bytes());
        }
    }
}

/// A line without end.
struct Endless(u8, u64);

impl Read for Endless {
    fn read(&mut self, buffer: &mut [u8]) -> std::io::Result<usize> {
        buffer.fill(self.0);
        self.1 += buffer.len() as u64;
        Ok(buffer.len())
    }
}

#[test]
fn a_line_without_end_is_refused_and_not_kept() {
    for byte in *b"07 x\0\n" {
        let mut out = Vec::new();
        let mut endless = Endless(byte, 0);
        assert_eq!(copy(b"6 0\n".chain(&mut endless), &mut out).unwrap(), Some(2));
        assert_eq!((out.as_slice(), endless.1 <= PART as u64), (&b"6 0 1\n"[..], true));
    }
}

//! Floor texts, good and spoiled: every fault of the header, of a row, and of what comes after.

use super::dice::Dice;
use crate::floor::{FREE, SLOW};

/// A good floor text of a floor.
pub fn text(floor: &[u8], width: usize, height: usize, dice: &mut Dice) -> Vec<u8> {
    let mut text = format!("type octile\nheight {height}\nwidth {width}\nmap\n").into_bytes();
    let plain = dice.chance(60);
    for row in floor.chunks(width) {
        for &byte in row {
            text.push(match (byte, plain) {
                (FREE, true) => b'.',
                (FREE, false) => dice.pick(b".G"),
                (SLOW, _) => b'S',
                (_, true) => b'@',
                (_, false) => dice.pick(b"@OT"),
            });
        }
        text.push(b'\n');
    }
    text
}

/// How long the text of a floor is.
pub fn length(width: usize, height: usize) -> usize {
    format!("type octile\nheight {height}\nwidth {width}\nmap\n").len() + height * (width + 1)
}

/// Spoils a floor text in one way; now and then it stays good.
pub fn spoil(text: &mut Vec<u8>, dice: &mut Dice) {
    match dice.weighted(&[30, 6, 6, 4, 24, 8, 4, 8, 3, 7]) {
        0 => spoil_header_line(text, dice),
        1 => change_lines(text, dice, |lines, dice| {
            let at = dice.index(lines.len());
            lines.remove(at);
        }),
        2 => change_lines(text, dice, |lines, dice| {
            let at = dice.index(lines.len());
            let line = if dice.chance(50) { Vec::new() } else { lines[at].clone() };
            lines.insert(at, line);
        }),
        3 => change_lines(text, dice, |lines, dice| {
            // Swapped lines; the header's sizes most of the time.
            let (a, b) =
                if dice.chance(60) { (1, 2) } else { (dice.index(lines.len()), dice.index(lines.len())) };
            if a.max(b) < lines.len() {
                lines.swap(a, b);
            }
        }),
        4 => change_lines(text, dice, spoil_row),
        5 => {
            let ends: [&[u8]; 9] = [b"\n", b".", b"x", b"\0", b" ", b"...\n", b"\r\n", b"@@\n@@\n", b"map\n"];
            text.extend_from_slice(dice.pick(&ends));
        }
        6 => {
            text.pop();
        }
        7 => {
            let length = dice.index(text.len() + 1);
            text.truncate(length);
        }
        8 => change_lines(text, dice, |lines, _| lines.iter_mut().for_each(|line| line.push(b'\r'))),
        _ => {
            if !text.is_empty() {
                let at = dice.index(text.len());
                text[at] = dice.byte();
            }
        }
    }
}

/// Takes a text apart at its LFs, changes the lines, and puts it together again.
fn change_lines(text: &mut Vec<u8>, dice: &mut Dice, change: impl FnOnce(&mut Vec<Vec<u8>>, &mut Dice)) {
    let mut lines: Vec<Vec<u8>> = text.split(|&byte| byte == b'\n').map(<[u8]>::to_vec).collect();
    // A text that ends by LF splits into one empty line too many.
    let ended = lines.len() > 1 && lines.last().is_some_and(Vec::is_empty);
    if ended {
        lines.pop();
    }
    change(&mut lines, dice);
    *text = lines.join(&b'\n');
    if ended {
        text.push(b'\n');
    }
}

fn spoil_header_line(text: &mut Vec<u8>, dice: &mut Dice) {
    change_lines(text, dice, |lines, dice| {
        let at = dice.pick(&[0, 1, 1, 2, 2, 3]).min(lines.len() - 1);
        let line = String::from_utf8_lossy(&lines[at]).into_owned();
        let (name, value) = line.split_once(' ').unwrap_or((&line, ""));
        let number: i64 = value.parse().unwrap_or(1);
        let sizes = at == 1 || at == 2;
        let new = match dice.below(if sizes { 22 } else { 9 }) {
            0 => format!("{line} "),
            1 => format!(" {line}"),
            2 => format!("{line}\r"),
            3 => line.replace(' ', "  "),
            4 => line.replace(' ', ""),
            5 => line.replace(' ', "\t"),
            6 => line.to_uppercase(),
            7 => String::new(),
            8 => dice
                .pick(&["type octal", "type", "octile", "map", "maps", "height 3", "width 3", "type octile"])
                .into(),
            9 | 20 | 21 => format!("{name} 0{value}"),
            10 => format!("{name} 00{value}"),
            11 => format!("{name} 0"),
            12 => format!("{name} 65"),
            13 => format!("{name} 64"),
            14 => format!("{name} {}", number + 1),
            15 => format!("{name} {}", number - 1),
            16 => format!("{name} -{value}"),
            17 => format!("{name} +{value}"),
            18 => format!(
                "{name} {}",
                dice.pick(&["", "x", "1x", "x1", "1.", "100", "640", "99", "0x4", "\u{0663}"])
            ),
            _ => format!(
                "{name} {}",
                dice.pick(&[256 + number, 65_536 + number, (1 << 32) + number, i64::MAX])
            ),
        };
        lines[at] = new.into_bytes();
    });
}

fn spoil_row(lines: &mut Vec<Vec<u8>>, dice: &mut Dice) {
    if lines.len() <= 4 {
        lines.push(b".".to_vec());
        return;
    }
    // Now and then two rows are faulty; the first is to be named.
    for _ in 0..dice.from_to(1, 2) {
        let at = 4 + dice.index(lines.len() - 4);
        let row = &mut lines[at];
        match dice.below(9) {
            0 => {
                row.pop();
            }
            1 => row.push(dice.pick(b".@G \r")),
            2 => row.clear(),
            3 => row.insert(0, b' '),
            _ => {
                if !row.is_empty() {
                    let letter = dice.index(row.len());
                    let any = dice.byte();
                    row[letter] = dice.pick(&[
                        b'S', b'W', b's', b'W', b'g', b'o', b't', b'#', b' ', b'0', 0, 255, b'\r', any,
                    ]);
                }
            }
        }
    }
}

//! Lines of `aisle`, good and spoiled: what the form of a line allows and what not.

use super::dice::Dice;

/// A good line of any numbers, two of them more often than others.
pub fn line(dice: &mut Dice) -> Vec<u8> {
    let mut words: Vec<String> = (0..dice.pick(&[2, 2, 2, 3, 5, 6, 7])).map(|_| number(dice)).collect();
    if dice.chance(30) {
        zeros_in_front(&mut words, dice);
    }
    whole(&words)
}

/// Words as a line.
pub fn whole(words: &[String]) -> Vec<u8> {
    (words.join(" ") + "\n").into_bytes()
}

/// How long a good line is with its depth.
pub fn length_with_depth(line: &[u8]) -> usize {
    let spaces = line.iter().filter(|&&byte| byte == b' ').count();
    line.len() + if spaces == 1 { 2 } else { 0 }
}

/// A number of up to seven digits.
fn number(dice: &mut Dice) -> String {
    let most = dice.pick(&[10, 10, 100, 4_096, 1_000_000, 10_000_000]);
    dice.below(most).to_string()
}

/// Zeros in front of some words, up to seven digits.
pub fn zeros_in_front(words: &mut [String], dice: &mut Dice) {
    for word in words {
        if dice.chance(50) {
            *word = format!("{word:0>width$}", width = dice.from_to(1, 7) as usize);
        }
    }
}

/// Spoils a line in one way; now and then it stays good.
pub fn spoil(line: &mut Vec<u8>, dice: &mut Dice) {
    let ended = line.strip_suffix(b"\n").unwrap_or(line);
    let mut words: Vec<String> =
        ended.split(|&byte| byte == b' ').map(|word| String::from_utf8_lossy(word).into_owned()).collect();
    match dice.weighted(&[25, 30, 45]) {
        0 => words.resize(dice.pick(&[1, 4, 8, 8, 9, 2, 7]), number(dice)),
        1 => spoil_one_word(&mut words, dice),
        _ => return spoil_whole_line(line, dice),
    }
    *line = whole(&words);
}

pub fn spoil_one_word(words: &mut [String], dice: &mut Dice) {
    if words.is_empty() {
        return;
    }
    let at = dice.index(words.len());
    let word = words[at].clone();
    words[at] = match dice.below(9) {
        0 => format!("{word:0>8}"),
        1 => format!("{word:0>7}"),
        2 => format!("-{word}"),
        3 => format!("+{word}"),
        4 => format!("{word}x"),
        5 => String::new(),
        6 => "12345678".into(),
        7 => "10000000000000000000000".into(),
        _ => format!("{word}."),
    };
}

pub fn spoil_whole_line(line: &mut Vec<u8>, dice: &mut Dice) {
    match dice.below(13) {
        0 => line.insert(0, b' '),
        1 => line.insert(line.len().saturating_sub(1), b' '),
        2 => line.insert(line.len().saturating_sub(1), b'\r'),
        3 => {
            if let Some(space) = line.iter().position(|&byte| byte == b' ') {
                line.insert(space, dice.pick(b" \t"));
            }
        }
        4 => {
            if let Some(space) = line.iter().position(|&byte| byte == b' ') {
                line[space] = b'\t';
            }
        }
        5 => line.clear(),
        6 => {
            line.pop();
        }
        7 => *line = b"\n".to_vec(),
        8 => {
            // Any byte, those beside the digits, and those that are often taken for blanks or ends.
            let any = dice.byte();
            let place = dice.index(line.len());
            line.splice(place..(place + 1).min(line.len()), [dice.pick(&[any, any, b'/', b':', 0, b'x'])]);
        }
        9 => line.insert(0, b'\n'),
        // Longer than any good line, and than any floor text.
        10 => drop(line.splice(0..0, vec![b'0'; dice.pick(&[60, 6_000])])),
        // Two lines in place of one.
        11 => line.insert(dice.index(line.len()), b'\n'),
        _ => line.extend_from_within(..),
    }
}

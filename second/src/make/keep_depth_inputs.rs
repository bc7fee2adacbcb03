//! Inputs of the program `keep_depth`: lists of lines, good and with a spoiled one, from nothing to a few times what is read at once.

use super::dice::Dice;
use super::lines;
use crate::keep_depth::PART;

pub fn input(dice: &mut Dice) -> Vec<u8> {
    let mut list = match dice.weighted(&[45, 25, 30]) {
        0 => few(dice.pick(&[0, 1, 1, 2, 3, 5]), dice),
        1 => few(dice.from_to(6, 400), dice),
        _ => {
            let mark = dice.pick(&[PART, PART, 2 * PART, PART * 2 / 3, 4_096]);
            as_long_as(mark - 3 + dice.index(8), dice)
        }
    };
    // Now and then two lines are spoiled; the first is to be told.
    for _ in 0..[0, 1, 2][dice.weighted(&[55, 37, 8])] {
        if let Some(last) = list.len().checked_sub(1) {
            let any = dice.index(list.len());
            let at = dice.pick(&[0, last, last.saturating_sub(1), any, any]);
            lines::spoil(&mut list[at], dice);
        }
    }
    let mut input = list.concat();
    if dice.chance(15) {
        spoil_end(&mut input, dice);
    }
    input
}

fn few(count: u64, dice: &mut Dice) -> Vec<Vec<u8>> {
    (0..count).map(|_| lines::line(dice)).collect()
}

/// Good lines of a whole length, which is more than three.
fn as_long_as(length: usize, dice: &mut Dice) -> Vec<Vec<u8>> {
    let mut list = Vec::new();
    let mut left = length;
    loop {
        let line = lines::line(dice);
        if line.len() + 4 > left {
            break;
        }
        left -= line.len();
        list.push(line);
    }
    // Two numbers take 4 to 16 bytes, so what is left is used up.
    while left > 0 {
        let digits = [left, 8, 16][usize::from(left > 16) + usize::from(left > 20)] - 2;
        let first = (digits - 1).min(7);
        list.push(lines::whole(&["7".repeat(first), "5".repeat(digits - first)]));
        left -= digits + 2;
    }
    list
}

/// The last line without its LF, or something behind it.
fn spoil_end(input: &mut Vec<u8>, dice: &mut Dice) {
    match dice.below(6) {
        0 => drop(input.pop()),
        1 => input.truncate(dice.index(input.len())),
        2 => input.push(b'\n'),
        3 => {
            input.extend(dice.pick::<&[u8]>(&[b"7", b" ", b"1 2", b"1 2 ", b"\0", b"\r\n", b"1 2 3 4 5 6 7"]))
        }
        _ => {
            // A line that is longer than all that is read at once.
            let word = dice.pick::<&[u8]>(&[b"0", b"1 ", b" ", b"1234567 ", b"\0", b"x"]);
            input.extend(word.repeat(dice.pick(&[9, PART, 3 * PART]) / word.len()));
            input.extend(dice.pick::<&[u8]>(&[b"", b"\n", b"\n1 2\n"]));
        }
    }
}

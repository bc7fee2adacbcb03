//! The floor text: reads and writes a floor in the octile grid benchmark format.

use crate::checks;
use crate::floor::{BLOCKED, FREE, SLOW};
use crate::refusal::Refusal;

/// The line of the first row; the header's four lines come before it.
const FIRST_ROW_LINE: usize = 5;

/// The header's faults are all one number.
fn header_fault() -> Refusal {
    Refusal::plain(11)
}

/// Reads a floor into the front of the buffer and answers width and height.
/// The header is judged first (11), then the buffer's room (2), then the rows (12).
pub fn read(text: &[u8], buffer: &mut [u8]) -> Result<(usize, usize), Refusal> {
    let rest = text.strip_prefix(b"type octile\n").ok_or(header_fault())?;
    let (height, rest) = size(rest, b"height ")?;
    let (width, rest) = size(rest, b"width ")?;
    let rows = rest.strip_prefix(b"map\n").ok_or(header_fault())?;
    let cells = width * height;
    if buffer.len() < cells {
        return Err(Refusal::plain(2));
    }

    // The buffer stays as lent until every row is known to be good.
    let mut floor = Vec::with_capacity(cells);
    let mut rest = rows;
    for row in 0..height {
        let fault = Refusal::at_line(12, FIRST_ROW_LINE + row);
        if rest.len() <= width || rest[width] != b'\n' {
            return Err(fault);
        }
        for &letter in &rest[..width] {
            floor.push(match letter {
                b'.' | b'G' => FREE,
                b'@' | b'O' | b'T' => BLOCKED,
                b'S' => SLOW,
                _ => return Err(fault),
            });
        }
        rest = &rest[width + 1..];
    }
    if !rest.is_empty() {
        return Err(Refusal::at_line(12, FIRST_ROW_LINE + height));
    }
    buffer[..cells].copy_from_slice(&floor);
    Ok((width, height))
}

/// The public writer: judges 1 and 17, writes from the buffer's first byte on, and answers how many bytes it wrote.
pub fn write(width: u64, height: u64, floor: &[u8], buffer: &mut [u8]) -> Result<usize, Refusal> {
    checks::floor_sizes(width, height, floor)?;
    let mut text = format!("type octile\nheight {height}\nwidth {width}\nmap\n").into_bytes();
    for row in floor.chunks(width as usize) {
        text.extend(row.iter().map(|&byte| match byte {
            FREE => b'.',
            SLOW => b'S',
            _ => b'@',
        }));
        text.push(b'\n');
    }
    checks::put(&text, buffer)
}

/// One header line that holds a size from 1 to 64 with no zero in front; answers it and what follows the line.
fn size<'a>(text: &'a [u8], name: &[u8]) -> Result<(usize, &'a [u8]), Refusal> {
    let rest = text.strip_prefix(name).ok_or(header_fault())?;
    let (digits, rest) = match rest {
        [a, b'\n', rest @ ..] => ([b'0', *a], rest),
        [a @ b'1'..=b'9', b, b'\n', rest @ ..] => ([*a, *b], rest),
        _ => return Err(header_fault()),
    };
    if !digits.iter().all(u8::is_ascii_digit) {
        return Err(header_fault());
    }
    let size = usize::from(digits[0] - b'0') * 10 + usize::from(digits[1] - b'0');
    if !(1..=64).contains(&size) {
        return Err(header_fault());
    }
    Ok((size, rest))
}

#[cfg(test)]
mod tests {
    use super::*;
    use crate::make::dice::Dice;
    use crate::make::{floors, slow};

    fn written(width: usize, height: usize, floor: &[u8]) -> Vec<u8> {
        let mut buffer = vec![0; 5_000];
        let length = write(width as u64, height as u64, floor, &mut buffer).unwrap();
        buffer.truncate(length);
        buffer
    }

    /// What is written reads back the same, but that bytes above 2 read back as 1; and it needs all its room.
    #[test]
    fn what_is_written_reads_back() {
        for seed in 0..500u64 {
            let mut dice = Dice::new(seed);
            let (width, height) = floors::larger_sizes(&mut dice);
            let mut floor = floors::floor(floors::kind(&mut dice), width, height, &mut dice);
            match seed % 3 {
                0 => slow::lay(&mut floor, width, &mut dice),
                1 => floor.iter_mut().for_each(|byte| *byte = dice.byte()),
                _ => {}
            }
            let text = written(width, height, &floor);
            let mut read_back = vec![9; floor.len() + 1];
            assert_eq!(read(&text, &mut read_back), Ok((width, height)));
            let expected: Vec<u8> = floor.iter().map(|&byte| if byte > 2 { 1 } else { byte }).collect();
            assert_eq!((&read_back[..floor.len()], read_back[floor.len()]), (&expected[..], 9));

            let mut exact = vec![9; text.len()];
            assert_eq!(write(width as u64, height as u64, &floor, &mut exact), Ok(text.len()));
            assert_eq!(exact, text);
            let mut short = vec![9; text.len() - 1];
            assert_eq!(write(width as u64, height as u64, &floor, &mut short), Err(Refusal::plain(17)));
            assert!(short.iter().all(|&byte| byte == 9));
        }
    }

    /// A text of `.`, `S` and `@` alone, read and written again, is that text.
    #[test]
    fn a_plain_text_is_written_again() {
        for seed in 0..500u64 {
            let mut dice = Dice::new(seed);
            let (width, height) = floors::larger_sizes(&mut dice);
            let mut text = format!("type octile\nheight {height}\nwidth {width}\nmap\n").into_bytes();
            for _ in 0..height {
                text.extend((0..width).map(|_| dice.pick(b"..S@")));
                text.push(b'\n');
            }
            let mut floor = vec![9; width * height];
            assert_eq!(read(&text, &mut floor), Ok((width, height)));
            assert_eq!(written(width, height, &floor), text);
        }
    }
}

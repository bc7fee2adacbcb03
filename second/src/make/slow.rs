//! Slow cells: charging lanes, blocks, short stretches, single cells and whole floors of them.

use super::dice::Dice;
use crate::floor::{is_free_byte, SLOW};

/// Lays slow cells on about a third of the floors.
pub fn now_and_then(floor: &mut [u8], width: usize, dice: &mut Dice) {
    if dice.chance(32) {
        lay(floor, width, dice);
    }
}

/// Lays slow cells in one of several patterns, on cells that are free.
pub fn lay(floor: &mut [u8], width: usize, dice: &mut Dice) {
    let height = floor.len() / width;
    match dice.weighted(&[25, 15, 25, 15, 12, 5, 3]) {
        0 => {
            // Whole rows or columns, here and there.
            for _ in 0..dice.from_to(1, 3) {
                let (across, row, column) = (dice.chance(50), dice.index(height), dice.index(width));
                lay_where(floor, width, |x, y| if across { y == row } else { x == column });
            }
        }
        1 => {
            // Every so many rows or columns.
            let (across, pitch) = (dice.chance(50), dice.from_to(2, 5) as usize);
            let first = dice.index(pitch);
            lay_where(floor, width, |x, y| if across { y } else { x } % pitch == first);
        }
        2 => {
            let percent = dice.pick(&[3, 10, 25, 50, 80]);
            lay_where(floor, width, |_, _| dice.chance(percent));
        }
        3 => {
            for _ in 0..dice.from_to(1, 4) {
                let (left, above) = (dice.index(width), dice.index(height));
                let (wide, high) = (dice.from_to(1, 5) as usize, dice.from_to(1, 5) as usize);
                lay_where(floor, width, |x, y| {
                    (left..left + wide).contains(&x) && (above..above + high).contains(&y)
                });
            }
        }
        4 => {
            // Short straight stretches, round which a cart may save.
            for _ in 0..width * height / 14 + 1 {
                let (left, above) = (dice.index(width), dice.index(height));
                let (wide, high) = if dice.chance(50) { (dice.from_to(2, 8) as usize, 1) } else { (1, 4) };
                lay_where(floor, width, |x, y| {
                    (left..left + wide).contains(&x) && (above..above + high).contains(&y)
                });
            }
        }
        5 => {
            let cell = dice.index(floor.len());
            lay_where(floor, width, |x, y| y * width + x == cell);
        }
        _ => lay_where(floor, width, |_, _| true),
    }
}

fn lay_where(floor: &mut [u8], width: usize, mut chosen: impl FnMut(usize, usize) -> bool) {
    for (cell, byte) in floor.iter_mut().enumerate() {
        if is_free_byte(*byte) && chosen(cell % width, cell / width) {
            *byte = SLOW;
        }
    }
}

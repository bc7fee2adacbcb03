//! Floors with two ways, of which the cheaper one has more moves: round a block, where past corners they are too rare to be
//! met by chance, or round slow cells.

use super::dice::Dice;
use crate::floor::{BLOCKED, FREE, SLOW};

/// Rows, `1` or, on a slow cell, `s` being the start and `2` the end; the depth at which the end is on the last ring; and
/// how often the plan is taken.
#[derive(Clone, Copy)]
struct Plan {
    rows: &'static [&'static str],
    depth: u64,
    weight: u64,
}

/// In the first, six moves, four of them diagonal (76), or seven, one of them diagonal (74). In the second, eight
/// moves, six of them diagonal (104), or ten straight ones (100), of which the ninth leaves a window of eight rings.
/// Past slow cells: three moves through them (60) or five round them (58); five (100) or nine (98); eight diagonal ones
/// (224) or fifteen along the edge (154); and two moves or three at one cost (48).
const PLANS: [Plan; 6] = [
    Plan { rows: &["......@", "...@...", "1.@@@.2", "......@"], depth: 6, weight: 3 },
    Plan { rows: &["@@@.....@", "@@...@...", "@...@@@.2", "...@@@@@.", "1........"], depth: 8, weight: 3 },
    Plan { rows: &["....", ".SS.", "1SS2"], depth: 3, weight: 1 },
    Plan { rows: &["......", ".SSSS.", ".SSSS.", "1SSSS2"], depth: 5, weight: 1 },
    Plan {
        rows: &[
            "1........",
            "SSSSSSSS.",
            "SSSSSSSS.",
            "SSSSSSSS.",
            "SSSSSSSS.",
            "SSSSSSSS.",
            "SSSSSSSS.",
            "SSSSSSSS.",
            "SSSSSSSS2",
        ],
        depth: 8,
        weight: 1,
    },
    Plan { rows: &[".2.", ".SS", "..s"], depth: 2, weight: 1 },
];

pub struct Bend {
    pub width: usize,
    pub height: usize,
    pub floor: Vec<u8>,
    pub start: usize,
    pub end: usize,
    pub depth: u64,
}

/// One of them, turned, mirrored, and put somewhere on a floor that is blocked around it.
pub fn bend(dice: &mut Dice) -> Bend {
    let plan = &PLANS[dice.weighted(&PLANS.map(|plan| plan.weight))];
    let turned = dice.chance(50);
    let (mirrored_x, mirrored_y) = (dice.chance(50), dice.chance(50));
    let (rows, columns) = (plan.rows.len(), plan.rows[0].len());
    let (wide, high) = if turned { (rows, columns) } else { (columns, rows) };
    let (left, above) = (dice.index(4), dice.index(4));
    let (width, height) = (left + wide + dice.index(4), above + high + dice.index(4));
    let mut bend =
        Bend { width, height, floor: vec![1; width * height], start: 0, end: 0, depth: plan.depth };
    for (row, letters) in plan.rows.iter().enumerate() {
        for (column, letter) in letters.bytes().enumerate() {
            let (x, y) = if turned { (row, column) } else { (column, row) };
            let x = left + if mirrored_x { wide - 1 - x } else { x };
            let y = above + if mirrored_y { high - 1 - y } else { y };
            let cell = y * width + x;
            match letter {
                b'1' | b's' => bend.start = cell,
                b'2' => bend.end = cell,
                _ => {}
            }
            bend.floor[cell] = match letter {
                b'@' => BLOCKED,
                b'S' | b's' => SLOW,
                _ => FREE,
            };
        }
    }
    bend
}

//! Jobs on which a cart that went by the lowest cells alone would weave: on floors littered with slow cells, routes of one
//! cost often differ in their number of moves.

use super::dice::Dice;
use super::jobs::{self, Kit};
use crate::floor::{Floor, BLOCKED, FREE, MOVES_BY_CELL, SLOW};
use crate::lookahead::Window;
use crate::opening;
use crate::trial::{Cart, Leg};

/// Whether going back by the lowest cells alone would take more moves than the route to a cell of the window has.
pub fn weaves(floor: &Floor, window: &mut Window, cell: usize) -> bool {
    if !floor.has_slow() {
        return false;
    }
    let (mut moves, mut x) = (0, cell);
    while let Some(way) = MOVES_BY_CELL.into_iter().find(|&way| window.comes_from(floor, x, way)) {
        x = floor.after(x, way);
        moves += 1;
    }
    moves > window.fewest_moves(floor, cell)
}

/// Which of some legs are such: of those gone forward, and of those gone back.
#[derive(Clone, Copy, Default)]
pub struct Woven {
    pub forward: bool,
    pub back: bool,
}

impl Woven {
    pub fn note(&mut self, leg: Leg) {
        if weaves(leg.floor, leg.window, leg.end) {
            self.forward |= !leg.back;
            self.back |= leg.back;
        }
    }
}

/// A job of one goal with such a leg in its first trials, gone forward or gone back, if one is found in time.
pub fn kit(dice: &mut Dice) -> Kit {
    let back = dice.chance(50);
    let mut kit = one_goal_kit(back, dice);
    for _ in 0..1_000 {
        let Woven { forward, back: gone_back } = woven_legs(&kit);
        if back && gone_back || !back && forward {
            break;
        }
        kit = one_goal_kit(back, dice);
    }
    kit
}

fn one_goal_kit(backs_out: bool, dice: &mut Dice) -> Kit {
    let mut kit = littered_kit(backs_out, dice);
    kit.keep_nearest_goal();
    kit
}

/// A floor littered with slow cells and a few blocked ones, a lookahead of more than one ring, and a small quota for
/// backing out.
pub fn littered_kit(backs_out: bool, dice: &mut Dice) -> Kit {
    let (width, height) = (dice.from_to(4, 16) as usize, dice.from_to(4, 16) as usize);
    let (blocked, slow) = (dice.pick(&[0, 0, 5, 12]), dice.from_to(25, 65));
    let floor = (0..width * height)
        .map(|_| match (dice.chance(blocked), dice.chance(slow)) {
            (true, _) => BLOCKED,
            (_, true) => SLOW,
            _ => FREE,
        })
        .collect();
    let mut kit = jobs::kit_on(floor, width, height, dice);
    kit.depth = if dice.chance(50) { dice.from_to(2, 3) } else { dice.from_to(2, 8) };
    if backs_out {
        kit.quota = dice.from_to(0, 60);
    }
    kit
}

/// The legs of some trials from the opening table.
fn woven_legs(kit: &Kit) -> Woven {
    let mut woven = Woven::default();
    let mut table = kit.opening_table();
    if let Ok(opened) = opening::open(&kit.job(), kit.start as u64, &table) {
        let (mut cart, mut path) = (Cart::new(opened), vec![0u16; kit.cells()]);
        for _ in 0..kit.trials.min(4) {
            if cart.trial(&mut table, &mut path, Some(&mut |leg| woven.note(leg)), 200).is_none() {
                break;
            }
        }
    }
    woven
}

//! States that a decision is asked about: from the middle of a trial, or made up.

use super::dice::Dice;
use super::jobs::{self, Kit, TableKind};
use crate::decision::{decide, Answer, State};
use crate::floor::is_free_byte;
use crate::lookahead::MOST_MOVES;

/// What a decision will be.
#[derive(Clone, Copy, PartialEq, Eq)]
enum Next {
    Arrived,
    Forward,
    Cut,
    BackedOut,
    Stayed,
}

/// A state that a trial comes to, chosen by what its next decision will be. The kit gets the table of that moment.
pub fn middle_of_a_trial(kit: &mut Kit, path: &mut [u16], dice: &mut Dice) -> State {
    let wanted = dice.pick(&[
        Next::Arrived,
        Next::Forward,
        Next::Cut,
        Next::Cut,
        Next::BackedOut,
        Next::BackedOut,
        Next::Stayed,
    ]);
    let first_path = path.to_vec();
    let mut state = State { current: kit.start as u64, u: 0, length: 0 };
    // Settings and table are made to suit the wish, and changed until it comes true or patience ends.
    for _ in 0..8 {
        let kind = dice.pick(&[TableKind::Opening, TableKind::Learned, TableKind::Sound, TableKind::Zeros]);
        kit.set_table(kind, dice);
        kit.quota = match wanted {
            Next::BackedOut | Next::Stayed => dice.from_to(0, 60),
            Next::Cut => dice.from_to(0, 1_000),
            Next::Arrived | Next::Forward => jobs::settings_quota(dice),
        };
        let first_table = kit.table.clone();
        let nexts = decisions_of_a_trial(kit, path, dice.pick(&[20, 60, 300]));
        let places: Vec<usize> = (0..nexts.len()).filter(|&place| nexts[place] == wanted).collect();
        // From the beginning again, as far as the chosen place.
        kit.table = first_table;
        path.copy_from_slice(&first_path);
        if !places.is_empty() {
            for _ in 0..dice.pick(&places) {
                one_decision(kit, &mut state, path);
            }
            return state;
        }
        kit.depth = jobs::settings_depth(dice);
    }
    for _ in 0..dice.below(20) {
        one_decision(kit, &mut state, path);
    }
    state
}

/// What the decisions of a trial are, its arriving included, up to so many. Table and path are left as they then are.
fn decisions_of_a_trial(kit: &mut Kit, path: &mut [u16], most: usize) -> Vec<Next> {
    let mut state = State { current: kit.start as u64, u: 0, length: 0 };
    let mut nexts = Vec::new();
    while nexts.len() < most && nexts.last() != Some(&Next::Arrived) {
        match one_decision(kit, &mut state, path) {
            Some(next) => nexts.push(next),
            None => break,
        }
    }
    nexts
}

/// Makes a decision on the kit's table; answers what it was, or none if it was refused.
fn one_decision(kit: &mut Kit, state: &mut State, path: &mut [u16]) -> Option<Next> {
    let mut table = std::mem::take(&mut kit.table);
    let mut moves = [0u8; MOST_MOVES];
    let length = state.length;
    let answer = decide(&kit.job(), state, &mut table, path, &mut moves, 0);
    kit.table = table;
    match answer {
        Answer::Arrived => Some(Next::Arrived),
        Answer::Forward { .. } if state.length <= length => Some(Next::Cut),
        Answer::Forward { .. } => Some(Next::Forward),
        Answer::BackedOut { .. } => Some(Next::BackedOut),
        Answer::Stayed { .. } => Some(Next::Stayed),
        Answer::Refused(_) => None,
    }
}

/// A state that no trial need come to: any free cells for current cell and path.
pub fn made_up_state(kit: &mut Kit, path: &mut [u16], dice: &mut Dice) -> State {
    if dice.chance(70) {
        kit.quota = dice.from_to(0, 20);
    }
    let free = kit.free_cells();
    if free.is_empty() {
        return State { current: 0, u: 0, length: 0 };
    }
    let current = dice.pick(&free);
    let mut length = 0;
    for _ in 0..dice.pick(&[0, 1, 1, 2, 3, 8, 40]) {
        let cell = if dice.chance(60) { near(kit, current, dice) } else { dice.pick(&free) };
        let used = path[..length].iter().any(|&other| usize::from(other) == cell);
        if is_free_byte(kit.floor[cell]) && !kit.goals.contains(&cell) && cell != current && !used {
            path[length] = cell as u16;
            length += 1;
        }
    }
    let most = kit.q * kit.quota;
    let any = dice.from_to(0, most);
    let u = dice.pick(&[most, most, most.saturating_sub(5), 0, any]);
    State { current: current as u64, u, length: length as u64 }
}

/// A cell at about the depth's distance from another, so that the one is often on the other's last ring.
fn near(kit: &Kit, cell: usize, dice: &mut Dice) -> usize {
    let (column, row) = ((cell % kit.width) as i64, (cell / kit.width) as i64);
    let reach = kit.depth as i64;
    let along = dice.from_to(0, 2 * kit.depth) as i64 - reach;
    let edge = dice.pick(&[reach, -reach, reach, -reach, reach - 1]);
    let (right, down) = if dice.chance(50) { (along, edge) } else { (edge, along) };
    let x = (column + right).clamp(0, kit.width as i64 - 1) as usize;
    let y = (row + down).clamp(0, kit.height as i64 - 1) as usize;
    y * kit.width + x
}

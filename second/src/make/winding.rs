//! Decisions with telling routes: windows where the cheapest walk needs more moves than the ring, or where walks tie.

use super::bends;
use super::dice::Dice;
use super::floors::{self, Kind};
use super::jobs::{self, Kit, TableKind};
use super::slow;
use super::weaving;
use crate::decision::State;
use crate::floor::Floor;
use crate::lookahead::Window;

#[derive(Clone, Copy, PartialEq, Eq)]
enum Wish {
    /// The cheapest walk to the cell needs more moves than the cell's ring.
    MoreMoves,
    /// The cell can be come to from west and from east at one cost.
    WestAndEast,
    /// The cell can be come to from several cells at one cost.
    Tie,
    /// Cheapest walks to the cell differ in their number of moves, which takes slow cells.
    MixedMoves,
    /// And of these the lowest cells alone don't give the fewest.
    Weaving,
}

/// A kit and a state whose next decision takes such a route, forward or back, if one is found in time.
pub fn kit_and_state(dice: &mut Dice) -> (Kit, State, Option<u16>) {
    if dice.chance(45) {
        return bent(dice);
    }
    let wish = dice.pick(&[Wish::MoreMoves, Wish::MoreMoves, Wish::WestAndEast, Wish::Tie, Wish::MixedMoves]);
    search(wish, dice)
}

/// The same for a route where a cart that went by the lowest cells alone would weave.
pub fn weaving_kit_and_state(dice: &mut Dice) -> (Kit, State, Option<u16>) {
    search(Wish::Weaving, dice)
}

fn search(wish: Wish, dice: &mut Dice) -> (Kit, State, Option<u16>) {
    let mut kit = kit_for(wish, dice);
    let mut window = Window::new();
    for tries in 0..400 {
        if tries % 8 == 7 {
            kit = kit_for(wish, dice);
        }
        let from = dice.pick(&kit.free_cells());
        let floor = Floor::new(kit.width, kit.height, &kit.floor);
        if kit.goals.contains(&from) || !window.look(&floor, from, &kit.goals, kit.depth as usize) {
            continue;
        }
        let mixed = if wish == Wish::MixedMoves { mixed_moves(&floor, &window) } else { Vec::new() };
        let mut targets: Vec<usize> = window.cells().iter().map(|&cell| usize::from(cell)).collect();
        targets
            .retain(|&cell| window.on_last_ring(cell) && comes_true(wish, &floor, &mut window, &mixed, cell));
        if !targets.is_empty() {
            let target = dice.pick(&targets);
            return point_at(kit, from, target, dice);
        }
    }
    let current = dice.pick(&kit.free_cells()) as u64;
    (kit, State { current, u: 0, length: 0 }, None)
}

/// A decision on one of two ways, mostly at the depth that tells them apart.
fn bent(dice: &mut Dice) -> (Kit, State, Option<u16>) {
    let bend = bends::bend(dice);
    let mut kit = jobs::kit_on(bend.floor, bend.width, bend.height, dice);
    kit.depth = if dice.chance(70) { bend.depth } else { dice.from_to(3, 8) };
    let floor = Floor::new(kit.width, kit.height, &kit.floor);
    let mut window = Window::new();
    let looked =
        !kit.goals.contains(&bend.start) && window.look(&floor, bend.start, &kit.goals, kit.depth as usize);
    if !looked || !window.on_last_ring(bend.end) {
        kit.set_goals(vec![bend.end]);
    }
    point_at(kit, bend.start, bend.end, dice)
}

/// A kit for the wish whose floor has free cells.
fn kit_for(wish: Wish, dice: &mut Dice) -> Kit {
    loop {
        let kit = match wish {
            Wish::Weaving => weaving::littered_kit(false, dice),
            _ => winding_kit(wish, dice),
        };
        if !kit.free_cells().is_empty() {
            return kit;
        }
    }
}

/// A littered floor or one with short walls, with or without slow cells, and a deep lookahead.
fn winding_kit(wish: Wish, dice: &mut Dice) -> Kit {
    let (width, height) = (dice.from_to(7, 17) as usize, dice.from_to(7, 17) as usize);
    let mut floor: Vec<u8> = if dice.chance(40) {
        floors::floor(Kind::Walls, width, height, dice)
    } else {
        let percent = dice.from_to(30, 50);
        (0..width * height).map(|_| u8::from(dice.chance(percent))).collect()
    };
    if wish == Wish::MixedMoves {
        slow::lay(&mut floor, width, dice);
    } else {
        slow::now_and_then(&mut floor, width, dice);
    }
    let mut kit = jobs::kit_on(floor, width, height, dice);
    kit.depth = dice.from_to(3, 8);
    kit
}

fn comes_true(wish: Wish, floor: &Floor, window: &mut Window, mixed: &[bool], cell: usize) -> bool {
    let before = |way: usize| window.comes_from(floor, cell, way);
    match wish {
        Wish::MoreMoves => window.cost(cell) < cost_in_fewest_moves(floor, window, cell),
        Wish::WestAndEast => before(6) && before(2),
        Wish::Tie => (0..8).filter(|&way| before(way)).count() > 1,
        Wish::MixedMoves => mixed[cell],
        Wish::Weaving => weaving::weaves(floor, window, cell),
    }
}

/// For each cell, whether cheapest walks to it differ in their number of moves.
fn mixed_moves(floor: &Floor, window: &Window) -> Vec<bool> {
    let mut cells: Vec<usize> = window.cells().iter().map(|&cell| usize::from(cell)).collect();
    cells.sort_unstable_by_key(|&cell| window.cost(cell));
    // The fewest and the most moves of a cheapest walk.
    let mut span = vec![(0, 0); floor.cells()];
    for &cell in &cells[1..] {
        let spans =
            (0..8).filter(|&way| window.comes_from(floor, cell, way)).map(|way| span[floor.after(cell, way)]);
        let (fewest, most) =
            spans.fold((usize::MAX, 0), |(a, b), (fewest, most)| (a.min(fewest), b.max(most)));
        span[cell] = (fewest + 1, most + 1);
    }
    span.iter().map(|&(fewest, most)| fewest < most).collect()
}

/// The least cost of a walk that takes no more moves than the cell's ring.
fn cost_in_fewest_moves(floor: &Floor, window: &Window, target: usize) -> u32 {
    let mut cost = vec![u32::MAX; floor.cells()];
    for (index, &x) in window.cells().iter().enumerate() {
        let x = usize::from(x);
        if index == 0 {
            cost[x] = 0;
        }
        for way in (0..8).filter(|way| floor.exits(x) & (1 << way) != 0) {
            let y = floor.after(x, way);
            if window.ring(y) > window.ring(x) {
                cost[y] = cost[y].min(cost[x] + floor.price(x, way));
            }
        }
    }
    cost[target]
}

/// A table that makes this target the least of its ring, or a path that leads back along its route.
fn point_at(mut kit: Kit, from: usize, target: usize, dice: &mut Dice) -> (Kit, State, Option<u16>) {
    kit.set_table(TableKind::Rough, dice);
    if !kit.goals.contains(&target) && dice.chance(40) {
        kit.table[target] = 0;
        kit.quota = 0;
        return (kit, State { current: target as u64, u: 0, length: 1 }, Some(from as u16));
    }
    let more = 5_000;
    for figure in &mut kit.table {
        *figure += more;
    }
    kit.table[target] = 0;
    kit.table[from] = dice.pick(&[0, more]);
    kit.quota = 1_000_000;
    (kit, State { current: from as u64, u: 0, length: 0 }, None)
}

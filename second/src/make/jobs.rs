//! Jobs and their tables: a floor with start, goals and settings, and a table that is good or spoiled.

use super::dice::Dice;
use super::floors;
use super::slow;
use crate::checks::{Goals, Job, CEILING, MOST_QUOTA};
use crate::floor::{is_free_byte, Floor, SLOW};
use crate::opening::{self, distances, NO_WAY};
use crate::trial::Cart;

#[derive(Clone)]
pub struct Kit {
    pub width: usize,
    pub height: usize,
    pub floor: Vec<u8>,
    pub start: usize,
    /// Rising; at least one.
    pub goals: Vec<usize>,
    pub depth: u64,
    pub p: u64,
    pub q: u64,
    pub quota: u64,
    pub trials: u64,
    /// The true distance of each cell to the nearest goal.
    pub distance: Vec<u32>,
    pub table: Vec<u32>,
}

#[derive(Clone, Copy, Debug, PartialEq, Eq)]
pub enum TableKind {
    Opening,
    Learned,
    Sound,
    Zeros,
    AboveTruth,
    AboveCeiling,
    NearCeiling,
    /// Small figures without sense, which an opening seldom takes but a decision does.
    Rough,
    /// The true figures for one goal alone: too high where another is nearer.
    OneGoals,
}

impl Kit {
    pub fn cells(&self) -> usize {
        self.floor.len()
    }

    pub fn job(&self) -> Job<'_> {
        Job {
            width: self.width as u64,
            height: self.height as u64,
            goals: self.goals_as_told(),
            depth: self.depth,
            p: self.p,
            q: self.q,
            quota: self.quota,
            floor: &self.floor,
        }
    }

    pub fn goals_as_told(&self) -> Goals {
        let goals: Vec<u64> = self.goals.iter().map(|&goal| goal as u64).collect();
        Goals::named(&goals)
    }

    /// Gives the kit other goals, in any order, and with them its distances.
    pub fn set_goals(&mut self, mut goals: Vec<usize>) {
        goals.sort_unstable();
        goals.dedup();
        self.distance = distances(&Floor::new(self.width, self.height, &self.floor), &goals);
        self.goals = goals;
    }

    /// Leaves the kit one goal, for `aisle`: one that is nearest to the start.
    pub fn keep_nearest_goal(&mut self) {
        let floor = Floor::new(self.width, self.height, &self.floor);
        let distance = |&goal: &usize| distances(&floor, &[goal])[self.start];
        if let Some(nearest) = self.goals.iter().copied().min_by_key(distance) {
            self.set_goals(vec![nearest]);
        }
    }

    pub fn free_cells(&self) -> Vec<usize> {
        (0..self.cells()).filter(|&cell| is_free_byte(self.floor[cell])).collect()
    }

    pub fn blocked_cells(&self) -> Vec<usize> {
        (0..self.cells()).filter(|&cell| !is_free_byte(self.floor[cell])).collect()
    }

    /// One of some cells; more often than by chance a slow one, where there is one.
    fn often_slow(&self, cells: &[usize], dice: &mut Dice) -> usize {
        let slow: Vec<usize> = cells.iter().copied().filter(|&cell| self.floor[cell] == SLOW).collect();
        if !slow.is_empty() && dice.chance(30) {
            dice.pick(&slow)
        } else {
            dice.pick(cells)
        }
    }

    pub fn opening_figure(&self, cell: usize) -> u32 {
        opening::opening_figure(self.width, cell, &self.goals, self.q as u32)
    }

    pub fn true_figure(&self, cell: usize) -> Option<u32> {
        let distance = *self.distance.get(cell)?;
        (distance != NO_WAY).then(|| distance * self.q as u32)
    }

    /// Gives the kit a table of a kind.
    pub fn set_table(&mut self, kind: TableKind, dice: &mut Dice) {
        self.table = match kind {
            TableKind::Opening => self.opening_table(),
            TableKind::Learned => self.learned_table(dice),
            TableKind::Sound => self.sound_table(dice),
            TableKind::Zeros => vec![0; self.cells()],
            TableKind::AboveTruth => self.table_above_truth(dice),
            TableKind::AboveCeiling => self.table_above_ceiling(dice),
            TableKind::NearCeiling => self.table_near_ceiling(dice),
            TableKind::Rough => self.rough_table(dice),
            TableKind::OneGoals => self.one_goals_table(dice),
        };
    }

    pub fn opening_table(&self) -> Vec<u32> {
        (0..self.cells()).map(|cell| self.opening_figure(cell)).collect()
    }

    /// A table in the middle of learning: trials from several starts, each broken off after some decisions.
    fn learned_table(&self, dice: &mut Dice) -> Vec<u32> {
        let mut table = self.opening_table();
        let Ok(opened) = opening::open(&self.job(), self.start as u64, &table) else {
            return table;
        };
        let mut cart = Cart::new(opened);
        let starts: Vec<usize> = (0..self.cells()).filter(|&cell| self.true_figure(cell).is_some()).collect();
        let mut path = vec![0u16; self.cells()];
        for _ in 0..dice.from_to(1, 4) {
            if dice.chance(50) {
                cart.job.start = dice.pick(&starts);
            }
            let most = dice.from_to(1, 300);
            cart.trial(&mut table, &mut path, None, most);
        }
        table
    }

    /// Any figure up to the true one; where no goal can be reached, anything up to the ceiling.
    fn sound_table(&self, dice: &mut Dice) -> Vec<u32> {
        let style = dice.below(3);
        (0..self.cells())
            .map(|cell| {
                let most = self.true_figure(cell).unwrap_or(CEILING);
                match style {
                    0 => dice.from_to(0, u64::from(most)) as u32,
                    1 if dice.chance(70) => most,
                    1 => dice.from_to(0, u64::from(most)) as u32,
                    _ => most.saturating_sub(dice.below(30) as u32),
                }
            })
            .collect()
    }

    fn table_above_truth(&self, dice: &mut Dice) -> Vec<u32> {
        let mut table = if dice.chance(50) { self.opening_table() } else { self.sound_table(dice) };
        for _ in 0..dice.from_to(1, 2) {
            let cell = dice.index(self.cells());
            if let Some(figure) = self.true_figure(cell) {
                table[cell] = figure + 1;
            }
        }
        table
    }

    fn table_above_ceiling(&self, dice: &mut Dice) -> Vec<u32> {
        let mut table = self.opening_table();
        for _ in 0..dice.from_to(1, 2) {
            let cell = dice.index(self.cells());
            let random = dice.roll() as u32;
            table[cell] = dice.pick(&[CEILING / 2 + 1, CEILING, CEILING + 1, CEILING + 1, u32::MAX, random]);
        }
        table
    }

    fn table_near_ceiling(&self, dice: &mut Dice) -> Vec<u32> {
        if dice.chance(50) {
            // As far below the ceiling as one or two moves cost, so that a new figure may just meet it.
            let below = self.p as u32 * dice.pick(&[10, 14, 20, 24, 28, 40, 56]);
            let mut table = vec![CEILING - below + dice.pick(&[0, 0, 1]); self.cells()];
            table[self.start] -= dice.pick(&[0, 1, 100]);
            return table;
        }
        let spread = dice.pick(&[0, 5, 40, 400]);
        (0..self.cells()).map(|_| CEILING - dice.from_to(0, spread) as u32).collect()
    }

    /// Figures that outweigh the differences of w, so that any cell of the last ring may be the target.
    fn rough_table(&self, dice: &mut Dice) -> Vec<u32> {
        let most = self.p * dice.pick(&[10, 40, 120]);
        (0..self.cells()).map(|_| dice.from_to(0, most) as u32).collect()
    }

    /// As it is learned before the other goals open.
    fn one_goals_table(&self, dice: &mut Dice) -> Vec<u32> {
        let goal = dice.pick(&self.goals);
        let distance = distances(&Floor::new(self.width, self.height, &self.floor), &[goal]);
        let figure = |cell: usize| match distance[cell] {
            NO_WAY => self.opening_figure(cell),
            distance => distance * self.q as u32,
        };
        (0..self.cells()).map(figure).collect()
    }
}

pub fn settings_depth(dice: &mut Dice) -> u64 {
    if dice.chance(50) {
        dice.from_to(1, 3)
    } else {
        dice.from_to(1, 8)
    }
}

/// p and q.
pub fn settings_weight(dice: &mut Dice) -> (u64, u64) {
    match dice.below(3) {
        0 => (1, 1),
        1 => {
            let q = dice.from_to(1, 4);
            (dice.from_to(1, q), q)
        }
        _ => {
            let q = dice.from_to(1, 16);
            (dice.from_to(1, q), q)
        }
    }
}

pub fn settings_quota(dice: &mut Dice) -> u64 {
    match dice.weighted(&[12, 40, 20, 18, 10]) {
        0 => 0,
        1 => dice.from_to(0, 60),
        2 => dice.from_to(0, 1_000),
        3 => MOST_QUOTA,
        _ => dice.from_to(0, MOST_QUOTA),
    }
}

/// A job with start and goals free where the floor has free cells, and a table of any kind.
pub fn kit(dice: &mut Dice) -> Kit {
    let (width, height) = floors::sizes(dice);
    kit_on(any_floor(width, height, dice), width, height, dice)
}

/// A floor of any kind, with slow cells now and then.
fn any_floor(width: usize, height: usize, dice: &mut Dice) -> Vec<u8> {
    let kind = floors::kind(dice);
    let mut floor = floors::floor(kind, width, height, dice);
    slow::now_and_then(&mut floor, width, dice);
    floor
}

/// A job whose trials take some decisions: a larger floor, a start far from all goals, mostly a short lookahead.
pub fn long_kit(dice: &mut Dice) -> Kit {
    let (width, height) = floors::larger_sizes(dice);
    let mut kit = kit_on(any_floor(width, height, dice), width, height, dice);
    let far =
        (0..kit.cells()).filter(|&cell| kit.distance[cell] != NO_WAY).max_by_key(|&cell| kit.distance[cell]);
    if let Some(far) = far {
        kit.start = far;
    }
    if dice.chance(60) {
        kit.depth = dice.from_to(1, 2);
    }
    if dice.chance(50) {
        kit.quota = dice.from_to(0, 300);
    }
    let kind = dice.pick(&[TableKind::Opening, TableKind::Opening, TableKind::Learned, TableKind::Sound]);
    kit.set_table(kind, dice);
    kit
}

/// Mostly one goal, in four of ten jobs several.
fn how_many_goals(dice: &mut Dice) -> usize {
    1 + dice.weighted(&[60, 20, 10, 10])
}

/// A job on a given floor.
pub fn kit_on(floor: Vec<u8>, width: usize, height: usize, dice: &mut Dice) -> Kit {
    let (p, q) = settings_weight(dice);
    let mut kit = Kit {
        width,
        height,
        floor,
        start: 0,
        goals: vec![0],
        depth: settings_depth(dice),
        p,
        q,
        quota: settings_quota(dice),
        trials: if dice.chance(90) { dice.from_to(1, 12) } else { dice.from_to(1, 1_000) },
        distance: Vec::new(),
        table: Vec::new(),
    };
    let free = kit.free_cells();
    if free.is_empty() {
        kit.distance = vec![NO_WAY; kit.cells()];
    } else {
        let count = how_many_goals(dice);
        kit.set_goals((0..count).map(|_| kit.often_slow(&free, dice)).collect());
        let (reached, cut_off): (Vec<usize>, Vec<usize>) =
            free.iter().partition(|&&cell| kit.distance[cell] != NO_WAY);
        let starts = if !cut_off.is_empty() && dice.chance(25) { cut_off } else { reached };
        kit.start = kit.often_slow(&starts, dice);
    }
    let kinds = [
        TableKind::Opening,
        TableKind::Learned,
        TableKind::Sound,
        TableKind::Zeros,
        TableKind::AboveTruth,
        TableKind::AboveCeiling,
        TableKind::NearCeiling,
        TableKind::OneGoals,
    ];
    let mut kind = kinds[dice.weighted(&[29, 30, 18, 6, 6, 4, 4, 3])];
    // No way and an unsound table at once: which is told?
    if kit.true_figure(kit.start).is_none() && dice.chance(30) {
        kind = TableKind::AboveTruth;
    }
    kit.set_table(kind, dice);
    kit
}

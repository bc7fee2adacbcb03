//! A call's arguments by name, and how each of them is spoiled.

use super::dice::Dice;
use super::files;
use super::jobs::Kit;
use super::lines;
use super::texts;
use crate::calls::{BYTE_ROOM, CELL_ROOM, GOAL_ROOM, MOVE_ROOM, REPORT_ROOM};
use crate::checks::{CEILING, MOST_GOALS};
use crate::lookahead::MOST_MOVES;

#[derive(Clone, Copy, Debug, PartialEq, Eq)]
pub enum Scalar {
    Width,
    Height,
    Start,
    Current,
    Depth,
    P,
    Q,
    Quota,
    Trials,
    U,
    Length,
    From,
}

#[derive(Clone, Copy, Debug, PartialEq, Eq)]
pub enum List {
    Goals,
    Floor,
    Table,
    Path,
    Moves,
    /// Four entries make one report.
    Reports,
    Text,
    File,
    /// The buffer that a floor text is read into.
    FloorBuffer,
    /// The buffer that a table file is written into.
    FileBuffer,
    /// The buffer that a floor text is written into.
    TextBuffer,
    /// The buffer that a renewed table file is written into.
    RenewedBuffer,
    Line,
    /// The buffer that a line with its depth is written into.
    LineBuffer,
}

#[derive(Clone, Debug)]
pub enum Argument {
    Number(Scalar, u64),
    Entries(List, Vec<u64>),
}

/// A call and its arguments in the order in which they are told.
pub struct Draft {
    pub call: u64,
    pub arguments: Vec<Argument>,
}

const LARGEST: u64 = u32::MAX as u64;

impl Draft {
    fn get(&self, name: Scalar) -> u64 {
        let value = |argument: &Argument| match argument {
            Argument::Number(scalar, value) if *scalar == name => Some(*value),
            _ => None,
        };
        self.arguments.iter().find_map(value).unwrap_or(0)
    }

    fn list(&self, name: List) -> &[u64] {
        self.lists().into_iter().find(|(_, list, _)| *list == name).map_or(&[], |(_, _, entries)| entries)
    }

    /// The lists, each with the place of its length among the words.
    pub fn lists(&self) -> Vec<(usize, List, &[u64])> {
        let mut at = 1;
        let mut lists = Vec::new();
        for argument in &self.arguments {
            if let Argument::Entries(list, entries) = argument {
                lists.push((at, *list, entries.as_slice()));
                at += entries.len();
            }
            at += 1;
        }
        lists
    }

    /// The draft as numbers in decimal.
    pub fn words(&self) -> Vec<String> {
        let mut words = vec![self.call.to_string()];
        for argument in &self.arguments {
            match argument {
                Argument::Number(_, value) => words.push(value.to_string()),
                Argument::Entries(list, entries) => {
                    let length = if *list == List::Reports { entries.len() / 4 } else { entries.len() };
                    words.push(length.to_string());
                    words.extend(entries.iter().map(u64::to_string));
                }
            }
        }
        words
    }

    /// Spoils one argument in one way; now and then it stays good, at the edge of its range.
    pub fn spoil(&mut self, kit: &Kit, dice: &mut Dice) {
        // Number 1 hides all that comes after it, so the sides are spoiled less often than the rest; goals can be spoiled in
        // most ways.
        let weight = |argument: &Argument| match argument {
            Argument::Number(Scalar::Width | Scalar::Height, _) => 1,
            Argument::Number(..) | Argument::Entries(List::Floor, _) => 3,
            Argument::Entries(List::Table, _) => 5,
            Argument::Entries(List::Goals, _) => 12,
            Argument::Entries(..) => 7,
        };
        let weights: Vec<u64> = self.arguments.iter().map(weight).collect();
        let at = dice.weighted(&weights);
        self.arguments[at] = match self.arguments[at].clone() {
            Argument::Number(name, value) => {
                Argument::Number(name, self.spoiled_scalar(name, value, kit, dice).min(LARGEST))
            }
            Argument::Entries(name, entries) => {
                Argument::Entries(name, self.spoiled_list(name, entries, kit, dice))
            }
        };
    }

    fn spoiled_scalar(&self, name: Scalar, value: u64, kit: &Kit, dice: &mut Dice) -> u64 {
        let cells = kit.cells() as u64;
        let less = value.saturating_sub(1);
        match name {
            Scalar::Width | Scalar::Height => {
                let other = self.get(if name == Scalar::Width { Scalar::Height } else { Scalar::Width });
                // The last two would give the right number of cells if products or numbers were cut off.
                let choices = [0, 65, 64, 1, value + 1, less, other, LARGEST, 256 + value, (1 << 31) + value];
                dice.pick(&choices)
            }
            Scalar::Start | Scalar::Current => self.spoiled_cell(value, kit, dice),
            Scalar::Depth => dice.pick(&[0, 1, 8, 9, 256 + value, LARGEST]),
            Scalar::P => {
                let q = self.get(Scalar::Q);
                dice.pick(&[0, 1, q, q + 1, 17, 256 + value, LARGEST])
            }
            Scalar::Q => {
                let p = self.get(Scalar::P);
                dice.pick(&[0, p.saturating_sub(1), p.max(1), 16, 17, 256 + value, LARGEST])
            }
            Scalar::Quota => dice.pick(&[0, 999_999, 1_000_000, 1_000_001, LARGEST]),
            Scalar::Trials => {
                let reports = self.list(List::Reports).len() as u64 / 4;
                dice.pick(&[0, 1, 1_000, 1_001, reports, reports + 1, LARGEST])
            }
            Scalar::U => {
                let most = self.get(Scalar::Q) * self.get(Scalar::Quota);
                dice.pick(&[0, most, most + 1, most + 1, most.saturating_sub(1), LARGEST])
            }
            Scalar::Length => {
                let path = self.list(List::Path).len() as u64;
                dice.pick(&[0, less, value + 1, value + 2, cells, cells + 1, path, LARGEST])
            }
            Scalar::From => {
                let moves = self.list(List::Moves).len() as u64;
                let last = moves.saturating_sub(MOST_MOVES as u64);
                dice.pick(&[0, last, last + 1, last + 1, moves, moves + 1, LARGEST])
            }
        }
    }

    /// A cell off the floor, blocked, or just another.
    fn spoiled_cell(&self, value: u64, kit: &Kit, dice: &mut Dice) -> u64 {
        let blocked = kit.blocked_cells();
        if !blocked.is_empty() && dice.chance(50) {
            return dice.pick(&blocked) as u64;
        }
        let cells = kit.cells() as u64;
        let (any, goal) = (dice.below(cells), self.a_goal(dice));
        dice.pick(&[cells, cells + 1, cells - 1, 65_536 + value, LARGEST, goal, any])
    }

    /// One of the goals as they are told.
    fn a_goal(&self, dice: &mut Dice) -> u64 {
        let goals = self.list(List::Goals);
        goals.get(dice.index(goals.len())).copied().unwrap_or(0)
    }

    /// Goals that are none or too many, equal, out of order, off the floor or blocked; or just others.
    fn spoil_goals(&self, goals: &mut Vec<u64>, kit: &Kit, dice: &mut Dice) {
        let free: Vec<u64> = kit.free_cells().iter().map(|&cell| cell as u64).collect();
        let a_free_cell = |dice: &mut Dice| free.get(dice.index(free.len())).copied().unwrap_or(0);
        let at = dice.index(goals.len());
        match dice.below(8) {
            0 => goals.clear(),
            1 | 2 => {
                // Four or more, mostly rising; often one of them, perhaps past the first four, is no free cell.
                let count = dice.from_to(MOST_GOALS as u64, GOAL_ROOM as u64) as usize;
                while goals.len() < count {
                    goals.push(a_free_cell(dice));
                }
                goals.sort_unstable();
                if dice.chance(40) {
                    let at = dice.index(goals.len());
                    goals[at] = self.spoiled_cell(goals[at], kit, dice);
                }
            }
            3 => {
                if let Some(&goal) = goals.get(at) {
                    goals.insert(at, goal);
                }
            }
            4 => {
                goals.push(a_free_cell(dice));
                goals.reverse();
            }
            5 => goals.push(a_free_cell(dice)),
            _ => {
                if let Some(&goal) = goals.get(at) {
                    goals[at] = self.spoiled_cell(goal, kit, dice);
                }
            }
        }
        goals.truncate(GOAL_ROOM);
    }

    fn spoiled_list(&self, name: List, mut entries: Vec<u64>, kit: &Kit, dice: &mut Dice) -> Vec<u64> {
        match name {
            List::Goals => self.spoil_goals(&mut entries, kit, dice),
            List::Floor => match dice.below(6) {
                0 => one_off(&mut entries, CELL_ROOM, dice),
                1 => set_cell(&mut entries, self.a_goal(dice), 1),
                2 => set_cell(&mut entries, self.get(Scalar::Start), dice.pick(&[2, 3, 255])),
                3 => set_cell(&mut entries, self.get(Scalar::Current), dice.pick(&[2, 3, 255])),
                4 => {
                    let cell = dice.below(entries.len() as u64);
                    set_cell(&mut entries, cell, u64::from(kit.floor.get(cell as usize) == Some(&0)));
                }
                _ => {
                    let cell = dice.below(entries.len() as u64);
                    set_cell(&mut entries, cell, dice.pick(&[0, 1, 2, 2, 3, 254, 255]));
                }
            },
            List::Table if dice.chance(20) => one_off(&mut entries, CELL_ROOM, dice),
            List::Table => {
                let cell = dice.below(entries.len() as u64);
                let opening = u64::from(kit.opening_figure(cell as usize % kit.cells()));
                let truth = u64::from(kit.true_figure(cell as usize).unwrap_or(0));
                let ceiling = u64::from(CEILING);
                let figures = [
                    truth,
                    truth + 1,
                    truth + 1,
                    opening.saturating_sub(1),
                    opening + 1,
                    ceiling,
                    ceiling / 2 + 1,
                    ceiling + 1,
                    LARGEST,
                ];
                set_cell(&mut entries, cell, dice.pick(&figures));
            }
            List::Path => self.spoil_path(&mut entries, kit, dice),
            List::Moves => {
                let from = self.get(Scalar::From).min(MOVE_ROOM as u64) as usize;
                let length = dice.pick(&[from + MOST_MOVES - 1, from + MOST_MOVES, from, 0]);
                entries.resize(length.min(MOVE_ROOM), 7);
            }
            List::Reports => {
                let trials = self.get(Scalar::Trials).min(REPORT_ROOM as u64) as usize;
                let reports =
                    dice.pick(&[trials, trials.saturating_sub(1), trials.saturating_sub(1), 0, trials + 1]);
                entries.resize(4 * reports.min(REPORT_ROOM), 3);
            }
            List::Text | List::Line => {
                let mut text = as_bytes(&entries);
                let spoil = if name == List::Text { texts::spoil } else { lines::spoil };
                spoil(&mut text, dice);
                text.truncate(BYTE_ROOM);
                entries = text.into_iter().map(u64::from).collect();
            }
            List::File => {
                let mut file = files::Draft::new(kit, dice);
                for _ in 0..dice.pick(&[1, 1, 2]) {
                    match dice.below(5) {
                        0 | 1 => file.spoil_trailer(kit, dice),
                        2 | 3 => file.spoil_record(kit, dice),
                        _ => file.add_older(kit, dice),
                    }
                }
                entries = file.bytes_within(BYTE_ROOM).into_iter().map(u64::from).collect();
            }
            List::FloorBuffer => {
                let cells = kit.cells();
                entries.resize(dice.pick(&[0, cells - 1, cells - 1, cells, cells + 1]), 9);
            }
            List::FileBuffer => {
                let records = (0..kit.cells())
                    .filter(|&cell| {
                        kit.table.get(cell).is_some_and(|&figure| figure != kit.opening_figure(cell))
                    })
                    .count();
                let enough = 24 + 6 * records;
                let length = dice.pick(&[enough, enough - 1, enough - 1, 0, 23, enough - 8, enough - 24]);
                entries.resize(length.min(BYTE_ROOM), 9);
            }
            List::TextBuffer => {
                let enough = texts::length(kit.width, kit.height);
                entries.resize(dice.pick(&[enough, enough - 1, enough - 1, 0, kit.cells(), enough + 1]), 9);
            }
            List::RenewedBuffer => {
                let file = as_bytes(self.list(List::File));
                let enough = files::renewed_length(&file);
                let length = dice.pick(&[enough, enough - 1, enough - 1, 0, 23, enough - 8, file.len()]);
                entries.resize(length.min(BYTE_ROOM), 9);
            }
            List::LineBuffer => {
                let line = as_bytes(self.list(List::Line));
                let enough = lines::length_with_depth(&line);
                let length = dice.pick(&[enough, enough.saturating_sub(1), 0, line.len(), line.len() + 1]);
                entries.resize(length.min(BYTE_ROOM), 9);
            }
        }
        entries
    }

    fn spoil_path(&self, entries: &mut Vec<u64>, kit: &Kit, dice: &mut Dice) {
        let cells = kit.cells();
        let length = self.get(Scalar::Length).min(entries.len() as u64) as usize;
        if length == 0 || dice.chance(25) {
            let lengths = [cells - 1, cells - 1, 0, cells + 1, CELL_ROOM];
            entries.resize(dice.pick(&lengths), 1);
            return;
        }
        let at = dice.index(length);
        let blocked = kit.blocked_cells();
        let mut choices = vec![self.a_goal(dice), self.get(Scalar::Current), cells as u64, 65_535];
        choices.extend([entries[dice.index(length)], entries[0], dice.below(cells as u64)]);
        if !blocked.is_empty() {
            choices.push(dice.pick(&blocked) as u64);
        }
        entries[at] = dice.pick(&choices).min(65_535);
    }
}

fn as_bytes(entries: &[u64]) -> Vec<u8> {
    entries.iter().map(|&entry| entry as u8).collect()
}

/// A list one entry too short or too long, empty, or much too long.
fn one_off(entries: &mut Vec<u64>, room: usize, dice: &mut Dice) {
    let length = entries.len();
    let new = dice.pick(&[
        length.saturating_sub(1),
        length + 1,
        length + 1,
        0,
        length + 64,
        length.saturating_sub(7),
    ]);
    entries.resize(new.min(room), 0);
}

fn set_cell(entries: &mut [u64], cell: u64, value: u64) {
    if let Some(entry) = entries.get_mut(cell as usize) {
        *entry = value;
    }
}

//! Table files of both editions, good and spoiled: older bytes ahead, every fault of the trailer, every fault of a record.

use super::dice::Dice;
use super::jobs::Kit;
use crate::checks::{CEILING, MOST_GOALS};
use crate::floor::is_free_byte;
use crate::table_file;

/// A file by its parts, so that each can be made faulty by itself.
pub struct Draft {
    older: Vec<u8>,
    records: Vec<(u16, u32)>,
    /// Whether the trailer is laid out as edition 1's, which has the first place alone.
    first_edition: bool,
    width: u8,
    height: u8,
    goal_count: u8,
    zero: u8,
    places: [u16; MOST_GOALS],
    q: u8,
    edition: u8,
    count: u16,
    back: u32,
    letters: [u8; 4],
    /// How many bytes of the whole are left out, at the end or at the front.
    cut_end: usize,
    cut_front: usize,
}

impl Draft {
    /// A good file of a job, which begins with its first record: some of its cells at figures above their opening figures.
    pub fn new(kit: &Kit, dice: &mut Dice) -> Draft {
        let from_table = dice.chance(50);
        let percent = dice.pick(&[0, 5, 30, 100]);
        let mut records = Vec::new();
        for cell in kit.free_cells() {
            let opening = kit.opening_figure(cell);
            let figure = match (from_table, dice.chance(percent)) {
                (true, _) => kit.table[cell],
                (false, true) => dice.from_to(u64::from(opening) + 1, u64::from(opening) + 60) as u32,
                (false, false) => opening,
            };
            if figure > opening && figure <= CEILING {
                records.push((cell as u16, figure));
            }
        }
        // Edition 1 can't tell of several goals; that it is tried with them shows that it is refused.
        let first_edition = dice.chance(if kit.goals.len() == 1 { 45 } else { 10 });
        let mut draft = Draft {
            older: Vec::new(),
            records,
            first_edition,
            width: kit.width as u8,
            height: kit.height as u8,
            goal_count: kit.goals.len() as u8,
            zero: 0,
            places: places(&kit.goals),
            q: kit.q as u8,
            edition: 0,
            count: 0,
            back: 0,
            letters: *b"PDLT",
            cut_end: 0,
            cut_front: 0,
        };
        draft.set_edition();
        draft.recount();
        draft
    }

    /// Sets the edition by the layout.
    fn set_edition(&mut self) {
        self.edition = if self.first_edition { 1 } else { 2 };
    }

    /// Sets count and back by the records.
    fn recount(&mut self) {
        self.count = self.records.len() as u16;
        self.point_back();
    }

    /// Sets back by the count.
    fn point_back(&mut self) {
        self.back = self.trailer_length() as u32 + 6 * u32::from(self.count);
    }

    fn trailer_length(&self) -> usize {
        if self.first_edition {
            16
        } else {
            24
        }
    }

    pub fn bytes(&self) -> Vec<u8> {
        let mut bytes = self.older.clone();
        for (cell, figure) in &self.records {
            bytes.extend(cell.to_be_bytes());
            bytes.extend(figure.to_be_bytes());
        }
        bytes.extend([self.width, self.height]);
        if self.first_edition {
            bytes.extend(self.places[0].to_be_bytes());
        } else {
            bytes.extend([self.goal_count, self.zero]);
            bytes.extend(self.places.iter().flat_map(|place| place.to_be_bytes()));
        }
        bytes.extend([self.q, self.edition]);
        bytes.extend(self.count.to_be_bytes());
        bytes.extend(self.back.to_be_bytes());
        bytes.extend(self.letters);
        bytes.truncate(bytes.len().saturating_sub(self.cut_end));
        bytes.drain(..self.cut_front.min(bytes.len()));
        bytes
    }

    /// The same where there is no more room than this: of a longer file its last part.
    pub fn bytes_within(&self, room: usize) -> Vec<u8> {
        let mut bytes = self.bytes();
        bytes.drain(..bytes.len().saturating_sub(room));
        bytes
    }

    /// Puts older material ahead of the first record.
    pub fn add_older(&mut self, kit: &Kit, dice: &mut Dice) {
        self.older = match dice.below(6) {
            // A whole table, of this job or of other goals, now and then with bytes between it and the last one.
            0 | 1 => {
                let mut older = Draft::new(kit, dice);
                if dice.chance(40) {
                    older.set_goals(other_goals(kit, dice));
                }
                let between = dice.pick(&[0, 0, 0, 1, 7]);
                let mut bytes = older.bytes();
                bytes.resize(bytes.len() + between, 0);
                bytes
            }
            // A trailer, or an end of one.
            2 => {
                let mut bytes = self.bytes();
                let length = dice.pick(&[self.trailer_length(), 4, 12]);
                bytes.drain(..bytes.len().saturating_sub(length));
                bytes
            }
            // As many bytes as make a record, or as the trailers differ by.
            3 => vec![0; dice.pick(&[6, 8, 12, 16, 24])],
            _ => (0..dice.from_to(1, 40)).map(|_| dice.byte()).collect(),
        };
    }

    /// Older material in place of what there is.
    pub fn set_older(&mut self, older: Vec<u8>) {
        self.older = older;
    }

    /// Makes it a table of this many records, whatever they say.
    pub fn set_records(&mut self, count: u16, dice: &mut Dice) {
        let figure = dice.roll() as u32;
        self.records = (0..count).map(|cell| (cell, figure.wrapping_add(u32::from(cell)))).collect();
        self.recount();
    }

    /// Spoils a record, the trailer, both or neither, by chances in a hundred.
    pub fn spoil(&mut self, kit: &Kit, record: u64, trailer: u64, dice: &mut Dice) {
        if dice.chance(record) {
            self.spoil_record(kit, dice);
        }
        if dice.chance(trailer) {
            self.spoil_trailer(kit, dice);
        }
    }

    /// Spoils the trailer or the file's length.
    pub fn spoil_trailer(&mut self, kit: &Kit, dice: &mut Dice) {
        match dice.below(21) {
            0 => self.letters[dice.index(4)] ^= dice.pick(&[0x20, 1, 0xFF]),
            // The other edition too, whose trailer would be laid out otherwise.
            1 | 18 => self.edition = dice.pick(&[0, 1, 2, 3, 3, 255]),
            2 | 19 => {
                self.back = dice.pick(&[
                    self.back.wrapping_add(1),
                    self.back.wrapping_sub(1),
                    self.back.wrapping_add(8),
                    self.back.wrapping_sub(8),
                    self.back.wrapping_sub(8),
                    0,
                    16,
                    24,
                    self.back ^ 6,
                    u32::MAX,
                ])
            }
            3 => self.count = dice.pick(&[self.count.wrapping_add(1), self.count.wrapping_sub(1), u16::MAX]),
            4 => {
                // Count and back agree, and point before the file's start or into older material.
                self.count = self.count.wrapping_add(dice.pick(&[1, 2, 7, 1000]));
                self.point_back();
                if dice.chance(70) {
                    self.older.clear();
                }
            }
            5 => {
                // One record fewer is told than there is: the first becomes older material.
                self.count = self.count.saturating_sub(1);
                self.point_back();
            }
            6 => self.width = dice.pick(&[0, self.width.wrapping_add(1), self.height, 65, 255]),
            7 => self.height = dice.pick(&[0, self.height.wrapping_add(1), self.width, 65, 255]),
            8 => {
                let at = if self.first_edition { 0 } else { dice.index(MOST_GOALS) };
                let place = self.places[at];
                let choices =
                    [place ^ 1, 0, kit.cells() as u16, place.swap_bytes(), self.places[0], u16::MAX];
                self.places[at] = dice.pick(&choices);
            }
            9 => self.q = dice.pick(&[0, self.q.wrapping_add(1), 16, 17, 255]),
            10 => self.cut_end = dice.from_to(1, 25) as usize,
            11 => self.cut_front = self.older.len() + 6 * self.records.len() + dice.index(25),
            12 => self.zero = dice.pick(&[1, 1, self.goal_count, 255]),
            13 => {
                let count = self.goal_count;
                let choices = [0, 1, 2, 3, 4, 5, count.wrapping_add(1), count.wrapping_sub(1), 255];
                self.goal_count = dice.pick(&choices);
            }
            14 => self.places.swap(0, 1),
            15 | 16 => self.set_goals(other_goals(kit, dice)),
            17 => {
                // The other edition throughout, whatever it can tell of; or its layout alone, with edition and back kept.
                self.first_edition = !self.first_edition;
                if dice.chance(50) {
                    self.set_edition();
                    self.point_back();
                }
            }
            _ => self.cut_front = self.older.len() + dice.from_to(1, 6) as usize,
        }
    }

    /// Makes it the file of another set of goals.
    fn set_goals(&mut self, goals: Vec<usize>) {
        self.goal_count = goals.len() as u8;
        self.places = places(&goals);
    }

    /// Spoils one record: it gets one fault of 18 to 22 or two of them, so that their order shows; or it is moved, or just good.
    pub fn spoil_record(&mut self, kit: &Kit, dice: &mut Dice) {
        if self.records.is_empty() {
            let cell = dice.index(kit.cells());
            self.records.push((cell as u16, kit.opening_figure(cell) + dice.below(2) as u32));
            self.recount();
        }
        let at = dice.index(self.records.len());
        match dice.below(10) {
            0 => {
                let other = dice.index(self.records.len());
                self.records.swap(at, other);
            }
            1 => self.add_blocked(kit, dice),
            2 => {
                let random = dice.roll() as u32;
                self.records[at].1 = dice.pick(&[CEILING, CEILING / 2 + 1, random]);
            }
            3..=6 => self.give_fault(kit, at, dice.from_to(18, 22), dice),
            _ => {
                // The cell's fault first: a figure is low or high beside the opening figure of the cell that it ends with.
                let first = dice.from_to(18, 21);
                let second = dice.from_to(first + 1, 22);
                self.give_fault(kit, at, first, dice);
                self.give_fault(kit, at, second, dice);
            }
        }
    }

    /// A record of a blocked cell in its rising place, so that being blocked is its only fault.
    fn add_blocked(&mut self, kit: &Kit, dice: &mut Dice) {
        let blocked = kit.blocked_cells();
        if !blocked.is_empty() {
            let cell = dice.pick(&blocked) as u16;
            self.records.push((cell, kit.opening_figure(usize::from(cell)) + 1));
            self.records.sort_unstable();
            self.recount();
        }
    }

    /// Gives a record the fault of a number, where the floor and the records before it allow that.
    fn give_fault(&mut self, kit: &Kit, at: usize, number: u64, dice: &mut Dice) {
        let before = at.checked_sub(1).map(|before| self.records[before].0);
        let (cell, figure) = &mut self.records[at];
        let opening = kit.opening_figure(usize::from(*cell) % kit.cells());
        match number {
            18 => {
                let cells = kit.cells() as u16;
                *cell = dice.pick(&[cells, cells + 1, u16::MAX, 256 + *cell % 256]);
            }
            19 => {
                let blocked = kit.blocked_cells();
                if !blocked.is_empty() {
                    *cell = dice.pick(&blocked) as u16;
                }
            }
            20 => match before {
                Some(before) => {
                    // A blocked cell stays blocked where one lies low enough, so that it has both faults.
                    let is_blocked =
                        |low: u16| kit.floor.get(usize::from(low)).is_some_and(|&byte| !is_free_byte(byte));
                    let kept = is_blocked(*cell);
                    let low: Vec<u16> = (0..=before).filter(|&low| is_blocked(low) == kept).collect();
                    *cell = if low.is_empty() { before } else { dice.pick(&low) };
                }
                None => {
                    let again = self.records[at];
                    self.records.insert(at, again);
                    self.recount();
                }
            },
            21 => *figure = dice.pick(&[opening, opening, opening.saturating_sub(1), 0]),
            _ => *figure = dice.pick(&[CEILING + 1, CEILING + 1, u32::MAX]),
        }
    }
}

/// How much room renewing a file takes; of a file that is refused, a table without records.
pub fn renewed_length(file: &[u8]) -> usize {
    table_file::renewed(file).map_or(24, |renewed| renewed.len())
}

/// The four places as the writer gives them.
fn places(goals: &[usize]) -> [u16; MOST_GOALS] {
    let mut places = [u16::MAX; MOST_GOALS];
    for (place, &goal) in places.iter_mut().zip(goals) {
        *place = goal as u16;
    }
    places
}

/// The kit's goals with one more, one fewer or one in another place.
fn other_goals(kit: &Kit, dice: &mut Dice) -> Vec<usize> {
    let mut goals = kit.goals.clone();
    if goals.len() > 1 && dice.chance(40) || goals.len() == MOST_GOALS {
        goals.remove(dice.index(goals.len()));
    }
    if goals.len() == kit.goals.len() || dice.chance(40) {
        goals.push(dice.index(kit.cells()));
    }
    goals.sort_unstable();
    goals.dedup();
    goals
}

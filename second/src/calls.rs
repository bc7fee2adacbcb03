//! The program `calls`: one public call told in decimal numbers, and everything it answered and left behind.

use crate::checks::{Goals, Job};
use crate::decision::{decide, Answer, State};
use crate::floor_text;
use crate::line;
use crate::opening;
use crate::refusal::{Halt, Place, Refusal};
use crate::table_file;
use crate::trial::{self, Counts, Ran};

/// More input than this is malformed.
pub const MOST_INPUT: usize = 262_144;

/// A number above this is malformed.
const MOST_NUMBER: u64 = u32::MAX as u64;

/// Room for floor, table and path.
pub const CELL_ROOM: usize = 4_096 + 64;
pub const MOVE_ROOM: usize = 1_024;
pub const REPORT_ROOM: usize = 1_001;
/// Room for the goals that are told, more than a job may name.
pub const GOAL_ROOM: usize = 8;
/// Room for files and texts, and for every buffer of bytes.
pub const BYTE_ROOM: usize = 32_768;

/// The numbers of the calls.
pub const CALLS: [usize; 13] = [1, 2, 3, 4, 5, 6, 7, 8, 9, 10, 11, 12, 16];

/// Why there is no line of numbers to print.
enum NoLine {
    Malformed,
    TooLong,
}

/// The whole output for a whole input.
pub fn answer(input: &[u8]) -> Vec<u8> {
    answer_within(input, u64::MAX).unwrap_or_default()
}

/// The same, or none when the call would take more than `most` decisions.
pub fn answer_within(input: &[u8], most: u64) -> Option<Vec<u8>> {
    match call(input, most) {
        Ok(line) => Some(line.ended()),
        Err(NoLine::Malformed) => Some(b"malformed\n".to_vec()),
        Err(NoLine::TooLong) => None,
    }
}

/// All numbers of an input, or none where it isn't decimal numbers between blanks.
pub fn numbers(input: &[u8]) -> Option<Vec<u64>> {
    if input.len() > MOST_INPUT {
        return None;
    }
    let mut numbers = Vec::new();
    let mut open: Option<u64> = None;
    for &byte in input {
        match byte {
            b' ' | b'\n' => numbers.extend(open.take()),
            b'0'..=b'9' => {
                let number = open.unwrap_or(0) * 10 + u64::from(byte - b'0');
                if number > MOST_NUMBER {
                    return None;
                }
                open = Some(number);
            }
            _ => return None,
        }
    }
    numbers.extend(open);
    Some(numbers)
}

/// Hands out the numbers of an input one after the other.
struct Arguments {
    numbers: std::vec::IntoIter<u64>,
}

impl Arguments {
    fn scalar(&mut self) -> Result<u64, NoLine> {
        self.numbers.next().ok_or(NoLine::Malformed)
    }

    fn length(&mut self, room: usize) -> Result<usize, NoLine> {
        let length = self.scalar()?;
        if length > room as u64 {
            return Err(NoLine::Malformed);
        }
        Ok(length as usize)
    }

    /// A list of a type; an entry that the type can't hold is malformed.
    fn list<T: TryFrom<u64>>(&mut self, room: usize) -> Result<Vec<T>, NoLine> {
        let length = self.length(room)?;
        (0..length).map(|_| T::try_from(self.scalar()?).map_err(|_| NoLine::Malformed)).collect()
    }

    fn goals(&mut self) -> Result<Goals, NoLine> {
        Ok(Goals::named(&self.list(GOAL_ROOM)?))
    }

    fn reports(&mut self) -> Result<Vec<Counts>, NoLine> {
        let length = self.length(REPORT_ROOM)?;
        (0..length)
            .map(|_| {
                Ok(Counts {
                    decisions: self.scalar()?,
                    learned: self.scalar()?,
                    kept: self.scalar()?,
                    travel: self.scalar()?,
                })
            })
            .collect()
    }

    fn end(mut self) -> Result<(), NoLine> {
        match self.numbers.next() {
            None => Ok(()),
            Some(_) => Err(NoLine::Malformed),
        }
    }
}

/// The line that is printed.
#[derive(Default)]
struct Line {
    text: String,
}

impl Line {
    fn number(&mut self, number: u64) {
        if !self.text.is_empty() {
            self.text.push(' ');
        }
        self.text.push_str(&number.to_string());
    }

    fn list<T: Copy + Into<u64>>(&mut self, list: &[T]) {
        self.number(list.len() as u64);
        for &entry in list {
            self.number(entry.into());
        }
    }

    fn counts(&mut self, counts: Counts) {
        for number in [counts.decisions, counts.learned, counts.kept, counts.travel] {
            self.number(number);
        }
    }

    /// The three numbers of a refusal, 0 0 0 for done.
    fn refusal(&mut self, refusal: Option<Refusal>) {
        let (kind, place) = match refusal.map(|refusal| refusal.place) {
            None | Some(Place::None) => (0, 0),
            Some(Place::Cell(cell)) => (1, cell),
            Some(Place::Line(line)) => (2, line),
            Some(Place::Record(record)) => (3, record),
        };
        self.number(refusal.map_or(0, |refusal| u64::from(refusal.number)));
        self.number(kind);
        self.number(place as u64);
    }

    fn ended(mut self) -> Vec<u8> {
        self.text.push('\n');
        self.text.into_bytes()
    }
}

/// Tells a refusal from what the call answers when it is done.
fn split<T: Default>(result: Result<T, Refusal>) -> (Option<Refusal>, T) {
    match result {
        Ok(value) => (None, value),
        Err(refusal) => (Some(refusal), T::default()),
    }
}

/// The same for a trial or run, which may also have been given up.
fn split_halt<T: Default>(result: Result<T, Halt>) -> Result<(Option<Refusal>, T), NoLine> {
    match result {
        Ok(value) => Ok((None, value)),
        Err(Halt::Refused(refusal)) => Ok((Some(refusal), T::default())),
        Err(Halt::TooLong) => Err(NoLine::TooLong),
    }
}

fn call(input: &[u8], most: u64) -> Result<Line, NoLine> {
    let numbers = numbers(input).ok_or(NoLine::Malformed)?;
    let mut arguments = Arguments { numbers: numbers.into_iter() };
    match arguments.scalar()? {
        1 => call_open(arguments),
        2 => call_decide(arguments),
        3 => call_trial(arguments, most),
        4 => call_run(arguments, most),
        5 => call_read_floor_text(arguments),
        6 => call_write_table_file(arguments),
        7 => call_read_table_file(arguments),
        8 => call_find_records(arguments),
        9 => call_check_trailer(arguments),
        10 => call_opening_table(arguments),
        11 => call_write_floor_text(arguments),
        12 => call_renew(arguments),
        16 => call_keep_depth(arguments),
        _ => Err(NoLine::Malformed),
    }
}

/// The numbers that calls 1, 3 and 4 begin with.
struct JobNumbers {
    width: u64,
    height: u64,
    start: u64,
    goals: Goals,
    depth: u64,
    p: u64,
    q: u64,
    quota: u64,
}

impl JobNumbers {
    fn read(arguments: &mut Arguments) -> Result<JobNumbers, NoLine> {
        Ok(JobNumbers {
            width: arguments.scalar()?,
            height: arguments.scalar()?,
            start: arguments.scalar()?,
            goals: arguments.goals()?,
            depth: arguments.scalar()?,
            p: arguments.scalar()?,
            q: arguments.scalar()?,
            quota: arguments.scalar()?,
        })
    }

    fn job<'a>(&self, floor: &'a [u8]) -> Job<'a> {
        let JobNumbers { width, height, goals, depth, p, q, quota, .. } = *self;
        Job { width, height, goals, depth, p, q, quota, floor }
    }
}

fn call_open(mut arguments: Arguments) -> Result<Line, NoLine> {
    let numbers = JobNumbers::read(&mut arguments)?;
    let floor: Vec<u8> = arguments.list(CELL_ROOM)?;
    let table: Vec<u32> = arguments.list(CELL_ROOM)?;
    arguments.end()?;

    let refusal = opening::open(&numbers.job(&floor), numbers.start, &table).err();
    let mut line = Line::default();
    line.refusal(refusal);
    Ok(line)
}

fn call_decide(mut arguments: Arguments) -> Result<Line, NoLine> {
    let (width, height) = (arguments.scalar()?, arguments.scalar()?);
    let mut state =
        State { current: arguments.scalar()?, u: arguments.scalar()?, length: arguments.scalar()? };
    let (goals, depth) = (arguments.goals()?, arguments.scalar()?);
    let (p, q, quota) = (arguments.scalar()?, arguments.scalar()?, arguments.scalar()?);
    let from = arguments.scalar()?;
    let floor: Vec<u8> = arguments.list(CELL_ROOM)?;
    let mut table: Vec<u32> = arguments.list(CELL_ROOM)?;
    let mut path: Vec<u16> = arguments.list(CELL_ROOM)?;
    let mut moves: Vec<u8> = arguments.list(MOVE_ROOM)?;
    arguments.end()?;

    let job = Job { width, height, goals, depth, p, q, quota, floor: &floor };
    let answer = decide(&job, &mut state, &mut table, &mut path, &mut moves, from);
    let (kind, refusal, target, rise, count) = match answer {
        Answer::Arrived => (0, None, 0, 0, 0),
        Answer::Forward { target, rise, moves } => (1, None, target, rise, moves),
        Answer::BackedOut { target, rise, moves } => (2, None, target, rise, moves),
        Answer::Stayed { rise } => (3, None, 0, rise, 0),
        Answer::Refused(refusal) => (4, Some(refusal), 0, 0, 0),
    };
    let mut line = Line::default();
    line.number(kind);
    line.refusal(refusal);
    for number in [target as u64, u64::from(rise), count as u64, state.current, state.u, state.length] {
        line.number(number);
    }
    line.list(&table);
    line.list(&path);
    line.list(&moves);
    Ok(line)
}

fn call_trial(mut arguments: Arguments, most: u64) -> Result<Line, NoLine> {
    let numbers = JobNumbers::read(&mut arguments)?;
    let floor: Vec<u8> = arguments.list(CELL_ROOM)?;
    let mut table: Vec<u32> = arguments.list(CELL_ROOM)?;
    let mut path: Vec<u16> = arguments.list(CELL_ROOM)?;
    arguments.end()?;

    let result = trial::trial(&numbers.job(&floor), numbers.start, &mut table, &mut path, most);
    let (refusal, counts) = split_halt(result)?;
    let mut line = Line::default();
    line.refusal(refusal);
    line.counts(counts);
    line.list(&table);
    line.list(&path);
    Ok(line)
}

fn call_run(mut arguments: Arguments, most: u64) -> Result<Line, NoLine> {
    let numbers = JobNumbers::read(&mut arguments)?;
    let trials = arguments.scalar()?;
    let floor: Vec<u8> = arguments.list(CELL_ROOM)?;
    let mut table: Vec<u32> = arguments.list(CELL_ROOM)?;
    let mut path: Vec<u16> = arguments.list(CELL_ROOM)?;
    let mut reports = arguments.reports()?;
    arguments.end()?;

    let job = numbers.job(&floor);
    let result = trial::run(&job, numbers.start, trials, &mut table, &mut path, &mut reports, most);
    let (refusal, Ran { trials, settled }) = split_halt(result)?;
    let mut line = Line::default();
    line.refusal(refusal);
    line.number(trials as u64);
    line.number(u64::from(settled));
    line.list(&table);
    line.list(&path);
    line.number(reports.len() as u64);
    for report in reports {
        line.counts(report);
    }
    Ok(line)
}

fn call_read_floor_text(mut arguments: Arguments) -> Result<Line, NoLine> {
    let text: Vec<u8> = arguments.list(BYTE_ROOM)?;
    let mut buffer: Vec<u8> = arguments.list(BYTE_ROOM)?;
    arguments.end()?;

    let (refusal, (width, height)) = split(floor_text::read(&text, &mut buffer));
    let mut line = Line::default();
    line.refusal(refusal);
    line.number(width as u64);
    line.number(height as u64);
    line.list(&buffer);
    Ok(line)
}

fn call_write_table_file(mut arguments: Arguments) -> Result<Line, NoLine> {
    let (width, height) = (arguments.scalar()?, arguments.scalar()?);
    let (goals, q) = (arguments.goals()?, arguments.scalar()?);
    let floor: Vec<u8> = arguments.list(CELL_ROOM)?;
    let table: Vec<u32> = arguments.list(CELL_ROOM)?;
    let mut buffer: Vec<u8> = arguments.list(BYTE_ROOM)?;
    arguments.end()?;

    let (refusal, length) = split(table_file::write(width, height, &goals, q, &floor, &table, &mut buffer));
    let mut line = Line::default();
    line.refusal(refusal);
    line.number(length as u64);
    line.list(&buffer);
    Ok(line)
}

fn call_read_table_file(mut arguments: Arguments) -> Result<Line, NoLine> {
    let (width, height) = (arguments.scalar()?, arguments.scalar()?);
    let (goals, q) = (arguments.goals()?, arguments.scalar()?);
    let floor: Vec<u8> = arguments.list(CELL_ROOM)?;
    let file: Vec<u8> = arguments.list(BYTE_ROOM)?;
    let mut table: Vec<u32> = arguments.list(CELL_ROOM)?;
    arguments.end()?;

    let refusal = table_file::read(width, height, &goals, q, &floor, &file, &mut table).err();
    let mut line = Line::default();
    line.refusal(refusal);
    line.list(&table);
    Ok(line)
}

fn call_find_records(mut arguments: Arguments) -> Result<Line, NoLine> {
    let file: Vec<u8> = arguments.list(BYTE_ROOM)?;
    arguments.end()?;

    let mut line = Line::default();
    line.list(table_file::find_records(&file));
    Ok(line)
}

fn call_check_trailer(mut arguments: Arguments) -> Result<Line, NoLine> {
    let file: Vec<u8> = arguments.list(BYTE_ROOM)?;
    arguments.end()?;

    let mut line = Line::default();
    line.refusal(table_file::check_trailer(&file).err());
    Ok(line)
}

fn call_opening_table(mut arguments: Arguments) -> Result<Line, NoLine> {
    let (width, height) = (arguments.scalar()?, arguments.scalar()?);
    let (goals, q) = (arguments.goals()?, arguments.scalar()?);
    let floor: Vec<u8> = arguments.list(CELL_ROOM)?;
    let mut table: Vec<u32> = arguments.list(CELL_ROOM)?;
    arguments.end()?;

    let refusal = opening::opening_table(width, height, &goals, q, &floor, &mut table).err();
    let mut line = Line::default();
    line.refusal(refusal);
    line.list(&table);
    Ok(line)
}

fn call_write_floor_text(mut arguments: Arguments) -> Result<Line, NoLine> {
    let (width, height) = (arguments.scalar()?, arguments.scalar()?);
    let floor: Vec<u8> = arguments.list(CELL_ROOM)?;
    let mut buffer: Vec<u8> = arguments.list(BYTE_ROOM)?;
    arguments.end()?;

    let (refusal, length) = split(floor_text::write(width, height, &floor, &mut buffer));
    let mut line = Line::default();
    line.refusal(refusal);
    line.number(length as u64);
    line.list(&buffer);
    Ok(line)
}

fn call_renew(mut arguments: Arguments) -> Result<Line, NoLine> {
    let file: Vec<u8> = arguments.list(BYTE_ROOM)?;
    let mut buffer: Vec<u8> = arguments.list(BYTE_ROOM)?;
    arguments.end()?;

    let (refusal, length) = split(table_file::renew(&file, &mut buffer));
    let mut line = Line::default();
    line.refusal(refusal);
    line.number(length as u64);
    line.list(&buffer);
    Ok(line)
}

fn call_keep_depth(mut arguments: Arguments) -> Result<Line, NoLine> {
    let given: Vec<u8> = arguments.list(BYTE_ROOM)?;
    let mut buffer: Vec<u8> = arguments.list(BYTE_ROOM)?;
    arguments.end()?;

    let (refusal, length) = split(line::keep_depth(&given, &mut buffer));
    let mut line = Line::default();
    line.refusal(refusal);
    line.number(length as u64);
    line.list(&buffer);
    Ok(line)
}

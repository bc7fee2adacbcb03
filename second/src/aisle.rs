//! The program `aisle`: a line of numbers and a floor text in, a line for each trial out.

use crate::checks::{self, Goals, Job};
use crate::floor::MOST_CELLS;
use crate::floor_text;
use crate::line;
use crate::opening::{self, opening_table};
use crate::refusal::{Halt, Place, Refusal};
use crate::trial::{Cart, Counts, Leg};
use std::io::Write;

/// The whole output for a whole input.
pub fn answer(input: &[u8]) -> Vec<u8> {
    answer_within(input, u64::MAX).unwrap_or_default()
}

/// The same, or none when the job would take more than `most` decisions.
pub fn answer_within(input: &[u8], most: u64) -> Option<Vec<u8>> {
    match lines(input, most) {
        Ok(lines) => Some(lines),
        Err(Halt::TooLong) => None,
        Err(Halt::Refused(refusal)) => Some(refused(refusal).into_bytes()),
    }
}

fn refused(refusal: Refusal) -> String {
    let number = refusal.number;
    match refusal.place {
        Place::None => format!("refused {number}\n"),
        Place::Cell(place) | Place::Line(place) | Place::Record(place) => {
            format!("refused {number} {place}\n")
        }
    }
}

/// An accepted input's run, trial after trial.
struct Run {
    cart: Cart,
    table: Vec<u32>,
    path: Vec<u16>,
    trials: u64,
    made: u64,
    settled: bool,
}

impl Run {
    fn open(input: &[u8]) -> Result<Run, Refusal> {
        let (line, text) = line::read(input).ok_or(Refusal::plain(3))?;
        checks::settings(line.depth, line.p, line.q, line.quota)?;
        checks::trials(line.trials)?;

        let mut buffer = vec![0u8; MOST_CELLS];
        let (width, height) = floor_text::read(text, &mut buffer)?;
        let job = Job {
            width: width as u64,
            height: height as u64,
            goals: Goals::named(&[line.goal]),
            depth: line.depth,
            p: line.p,
            q: line.q,
            quota: line.quota,
            floor: &buffer[..width * height],
        };
        // A start off the floor and a goal off the floor are the same number, so the order of the two doesn't show.
        let mut table = vec![0u32; width * height];
        opening_table(job.width, job.height, &job.goals, job.q, job.floor, &mut table)?;
        let cart = Cart::new(opening::open(&job, line.start, &table)?);
        let path = vec![0u16; width * height];
        Ok(Run { cart, table, path, trials: line.trials, made: 0, settled: false })
    }

    fn is_over(&self) -> bool {
        self.settled || self.made == self.trials
    }

    fn trial(&mut self, show: &mut dyn FnMut(Leg), most: u64) -> Result<Counts, Halt> {
        let Run { cart, table, path, .. } = self;
        let counts = cart.trial(table, path, Some(show), most).ok_or(Halt::TooLong)?;
        self.made += 1;
        self.settled = counts.learned == 0;
        Ok(counts)
    }
}

fn lines(input: &[u8], most: u64) -> Result<Vec<u8>, Halt> {
    let mut run = Run::open(input)?;
    let (mut text, mut left) = (Vec::new(), most);
    while !run.is_over() {
        let mut moves = Vec::new();
        let counts = run.trial(&mut |mut leg| leg.add_moves(&mut moves), left)?;
        left -= counts.decisions;
        if moves.is_empty() {
            text.push(b'-');
        }
        text.extend(moves.iter().map(|&way| b'0' + way));
        // Writing to a list can't fail.
        let _ = writeln!(text, " {} {} {} {}", counts.decisions, counts.learned, counts.kept, counts.travel);
    }
    let _ = writeln!(text, "{} {}", if run.settled { "settled" } else { "unsettled" }, run.made);
    Ok(text)
}

/// Shows each leg of an accepted input's run.
pub fn show_legs(input: &[u8], show: &mut dyn FnMut(Leg)) {
    if let Ok(mut run) = Run::open(input) {
        while !run.is_over() && run.trial(show, u64::MAX).is_ok() {}
    }
}

//! Trial and run: decisions until a goal is reached, and trials until one learns nothing.

use crate::checks::Job;
use crate::decision::reverse;
use crate::floor::Floor;
use crate::lookahead::{Window, MOST_MOVES};
use crate::opening::{open_with, Opened};
use crate::refusal::Halt;

/// The four counts of a trial; a report holds one of these.
#[derive(Clone, Copy, Debug, Default, PartialEq, Eq)]
pub struct Counts {
    pub decisions: u64,
    /// All rises, backing out included.
    pub learned: u64,
    /// The legs along the path at the end, the last one into a goal included.
    pub kept: u64,
    /// Every move.
    pub travel: u64,
}

/// What a run answers beside its reports.
#[derive(Clone, Copy, Debug, Default, PartialEq, Eq)]
pub struct Ran {
    pub trials: usize,
    pub settled: bool,
}

/// A leg that a cart takes, as it is shown to whoever wants its moves.
pub struct Leg<'a> {
    pub floor: &'a Floor,
    /// The window of the cell whose leg it is.
    pub window: &'a mut Window,
    /// The leg's other end.
    pub end: usize,
    /// Whether the cart backs out over it.
    pub back: bool,
}

impl Leg<'_> {
    /// Adds the moves that the cart makes.
    pub fn add_moves(&mut self, moves: &mut Vec<u8>) {
        let mut route = [0u8; MOST_MOVES];
        let count = self.window.route(self.floor, self.end, &mut route);
        if self.back {
            reverse(&mut route[..count]);
        }
        moves.extend_from_slice(&route[..count]);
    }
}

/// A place that no path has.
const OFF_PATH: u16 = u16::MAX;

/// A cart on an opened job, with the room it needs so that a decision allocates nothing.
pub struct Cart {
    pub job: Opened,
    window: Window,
    /// Where on the path each cell stands.
    place: Vec<u16>,
    /// The cost of the leg that left each path cell. A leg depends on floor, goals and depth alone,
    /// so it holds for as long as the cell is on the path, and going back along it costs the same.
    legs: Vec<u32>,
}

impl Cart {
    pub fn new(job: Opened) -> Cart {
        let cells = job.floor.cells();
        Cart { job, window: Window::new(), place: vec![OFF_PATH; cells], legs: vec![0; cells] }
    }

    /// One trial from the job's start. Its table and path have been judged by the opening, after which no decision
    /// can be refused, so nothing is checked again. Each leg is shown to whoever asks. Answers none when `most` decisions
    /// didn't suffice.
    pub fn trial(
        &mut self,
        table: &mut [u32],
        path: &mut [u16],
        mut show: Option<&mut dyn FnMut(Leg)>,
        most: u64,
    ) -> Option<Counts> {
        let Cart { job, window, place, legs } = self;
        let Opened { floor, start, goals, depth, p, q, quota } = job;
        let (depth, p) = (*depth, *p);
        let most_learned = u64::from(*q) * *quota;
        place.fill(OFF_PATH);
        let mut counts = Counts::default();
        let (mut current, mut u, mut length) = (*start, 0u64, 0usize);
        while !goals.contains(&current) {
            if counts.decisions == most {
                return None;
            }
            counts.decisions += 1;
            window.look(floor, current, goals, depth);
            let best = window.best(table, p);
            let rise = best.figure.saturating_sub(table[current]);
            table[current] += rise;
            counts.learned += u64::from(rise);
            if u + u64::from(rise) <= most_learned {
                u += u64::from(rise);
                let leg = window.cost(best.target);
                counts.travel += u64::from(leg);
                if let Some(show) = &mut show {
                    show(Leg { floor, window, end: best.target, back: false });
                }
                path[length] = current as u16;
                legs[length] = leg;
                place[current] = length as u16;
                length += 1;
                let cut = place[best.target];
                if cut != OFF_PATH {
                    for cell in &path[usize::from(cut)..length] {
                        place[usize::from(*cell)] = OFF_PATH;
                    }
                    length = usize::from(cut);
                }
                current = best.target;
            } else if length > 0 {
                length -= 1;
                let taken_off = usize::from(path[length]);
                place[taken_off] = OFF_PATH;
                counts.travel += u64::from(legs[length]);
                if let Some(show) = &mut show {
                    window.look(floor, taken_off, goals, depth);
                    show(Leg { floor, window, end: current, back: true });
                }
                current = taken_off;
            }
        }
        counts.kept = legs[..length].iter().map(|&leg| u64::from(leg)).sum();
        Some(counts)
    }
}

/// The public trial call; `most` is `u64::MAX` for every caller but the generator.
pub fn trial(job: &Job, start: u64, table: &mut [u32], path: &mut [u16], most: u64) -> Result<Counts, Halt> {
    let opened = open_with(job, start, table, |cells| path.len() >= cells, None)?;
    Cart::new(opened).trial(table, path, None, most).ok_or(Halt::TooLong)
}

/// The public run call; `most` bounds the decisions of all its trials together.
pub fn run(
    job: &Job,
    start: u64,
    trials: u64,
    table: &mut [u32],
    path: &mut [u16],
    reports: &mut [Counts],
    most: u64,
) -> Result<Ran, Halt> {
    let lists = |cells: usize| path.len() >= cells && reports.len() as u64 >= trials;
    let opened = open_with(job, start, table, lists, Some(trials))?;
    let mut cart = Cart::new(opened);
    let mut ran = Ran::default();
    let mut left = most;
    while (ran.trials as u64) < trials && !ran.settled {
        let counts = cart.trial(table, path, None, left).ok_or(Halt::TooLong)?;
        left -= counts.decisions;
        reports[ran.trials] = counts;
        ran.trials += 1;
        ran.settled = counts.learned == 0;
    }
    Ok(ran)
}

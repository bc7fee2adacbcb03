//! The seeded generator: an input of each program for every seed, the same each time.

pub mod aisle_inputs;
pub mod bends;
pub mod call_inputs;
pub mod dice;
pub mod drafts;
pub mod files;
pub mod floors;
pub mod jobs;
pub mod keep_depth_inputs;
pub mod lines;
pub mod renew_inputs;
pub mod slow;
pub mod states;
pub mod texts;
pub mod weaving;
pub mod winding;

use crate::output::Output;
use crate::{aisle, calls, keep_depth, renew};
use dice::Dice;

#[derive(Clone, Copy, Debug, PartialEq, Eq)]
pub enum Program {
    Aisle,
    Calls,
    Renew,
    KeepDepth,
}

pub const PROGRAMS: [Program; 4] = [Program::Aisle, Program::Calls, Program::Renew, Program::KeepDepth];

impl Program {
    pub fn name(self) -> &'static str {
        match self {
            Program::Aisle => "aisle",
            Program::Calls => "calls",
            Program::Renew => "renew",
            Program::KeepDepth => "keep_depth",
        }
    }

    pub fn named(name: &str) -> Option<Program> {
        PROGRAMS.into_iter().find(|program| program.name() == name)
    }

    /// What this program itself writes.
    pub fn answer(self, input: &[u8]) -> Output {
        match self {
            Program::Aisle => Output::plain(aisle::answer(input)),
            Program::Calls => Output::plain(calls::answer(input)),
            Program::Renew => renew::answer(input),
            Program::KeepDepth => keep_depth::answer(input),
        }
    }

    /// Whether the papers say what stands on standard error.
    pub fn tells_on_error(self) -> bool {
        matches!(self, Program::Renew | Program::KeepDepth)
    }

    fn answers_within(self, input: &[u8], most: u64) -> bool {
        match self {
            Program::Aisle => aisle::answer_within(input, most).is_some(),
            Program::Calls => calls::answer_within(input, most).is_some(),
            Program::Renew | Program::KeepDepth => true,
        }
    }
}

/// The program that a seed is for: of a hundred about seven are for `renew` and five for `keep_depth`, and of the others one in
/// four is for `aisle`.
pub fn program_of(seed: u64) -> Program {
    PROGRAMS[Dice::new(!seed).weighted(&[22, 66, 7, 5])]
}

/// The input of a seed. A job that would take too many decisions is passed over for another of the same seed.
pub fn input(program: Program, seed: u64) -> Vec<u8> {
    let mut dice = Dice::new(seed);
    for _ in 0..50 {
        let input = match program {
            Program::Aisle => aisle_inputs::input(&mut dice),
            Program::Calls => call_inputs::input(&mut dice),
            Program::Renew => renew_inputs::input(&mut dice),
            Program::KeepDepth => keep_depth_inputs::input(&mut dice),
        };
        // Mostly short jobs, so that many can be compared in a short time.
        let most = [3_000, 30_000, 200_000][dice.weighted(&[80, 17, 3])];
        if program.answers_within(&input, most) {
            return input;
        }
    }
    Vec::new()
}

//! Timing for the benches: decisions per second of this program's `run` and `aisle`, and the time of an opening.

use crate::aisle;
use crate::floor::{is_free_byte, Floor};
use crate::make::dice::Dice;
use crate::make::floors::{self, Kind};
use crate::make::jobs::Kit;
use crate::make::texts;
use crate::opening::{self, distances, NO_WAY};
use crate::trial::{self, Counts};
use std::time::{Duration, Instant};

/// A job is repeated for at least this long, so that short ones are measured too.
const LEAST: Duration = Duration::from_millis(1_000);

impl Kit {
    /// A floor of a kind by seed, with the goal in its larger part and the start as far away as can be.
    pub fn timed(kind: Kind, width: usize, height: usize, seed: u64) -> Option<Kit> {
        let mut dice = Dice::new(seed);
        let floor = floors::floor(kind, width, height, &mut dice);
        let free: Vec<usize> = (0..floor.len()).filter(|&cell| is_free_byte(floor[cell])).collect();
        let map = Floor::new(width, height, &floor);
        for _ in 0..100 {
            if free.is_empty() {
                return None;
            }
            let goal = dice.pick(&free);
            let distance = distances(&map, &[goal]);
            let reached = free.iter().filter(|&&cell| distance[cell] != NO_WAY);
            let start = reached.clone().copied().max_by_key(|&cell| distance[cell])?;
            if reached.count() * 2 >= free.len() {
                return Some(Kit {
                    width,
                    height,
                    floor,
                    start,
                    goals: vec![goal],
                    depth: 1,
                    p: 1,
                    q: 1,
                    quota: 1_000_000,
                    trials: 10,
                    distance,
                    table: Vec::new(),
                });
            }
        }
        None
    }

    /// The job as an input of `aisle`, so that another program can be timed on it.
    pub fn as_aisle(&self) -> Vec<u8> {
        let Kit { start, goals, depth, p, q, quota, trials, .. } = self;
        let goal = goals[0];
        let mut input = format!("{start} {goal} {depth} {p} {q} {quota} {trials}\n").into_bytes();
        input.extend(texts::text(&self.floor, self.width, self.height, &mut Dice::new(0)));
        input
    }

    /// The job as a run for `calls`, from a table.
    pub fn as_calls(&self, table: &[u32]) -> String {
        let Kit { width, height, start, goals, depth, p, q, quota, trials, .. } = self;
        let (goal, cells) = (goals[0], self.floor.len());
        let mut words =
            vec![format!("4 {width} {height} {start} 1 {goal} {depth} {p} {q} {quota} {trials} {cells}")];
        words.extend(self.floor.iter().map(u8::to_string));
        words.push(cells.to_string());
        words.extend(table.iter().map(u32::to_string));
        words.push(cells.to_string());
        words.extend(vec![String::from("0"); cells]);
        words.push(trials.to_string());
        words.extend(vec![String::from("0"); 4 * *trials as usize]);
        words.join(" ") + "\n"
    }

    /// Runs the job again and again from its opening table.
    pub fn time_run(&self) -> String {
        let opening_table = self.opening_table();
        let mut path = vec![0u16; self.floor.len()];
        let mut reports = vec![Counts::default(); self.trials as usize];
        let (mut decisions, mut times, mut trials) = (0u64, 0u64, 0usize);
        let begun = Instant::now();
        while begun.elapsed() < LEAST {
            let mut table = opening_table.clone();
            let result = trial::run(
                &self.job(),
                self.start as u64,
                self.trials,
                &mut table,
                &mut path,
                &mut reports,
                u64::MAX,
            );
            match result {
                Ok(ran) => {
                    trials = ran.trials;
                    decisions += reports[..ran.trials].iter().map(|report| report.decisions).sum::<u64>();
                }
                Err(halt) => return format!("refused: {halt:?}"),
            }
            times += 1;
        }
        let each = decisions / times.max(1);
        rate(decisions, begun.elapsed())
            + &format!(" ({times} runs of {trials} trials, {each} decisions each)")
    }

    /// Opens the job again and again.
    pub fn time_open(&self) -> String {
        let table = self.opening_table();
        let mut times = 0u64;
        let begun = Instant::now();
        while begun.elapsed() < LEAST {
            if let Err(refusal) = opening::open(&self.job(), self.start as u64, &table) {
                return format!("refused: {refusal:?}");
            }
            times += 1;
        }
        let seconds = begun.elapsed().as_secs_f64();
        format!(
            "{times} openings, {seconds:.3} seconds, {:.1} microseconds each",
            seconds * 1e6 / times as f64
        )
    }
}

/// Answers an `aisle` input again and again; decisions are those of its trial lines.
pub fn time_aisle(input: &[u8]) -> String {
    let mut decisions = 0u64;
    let begun = Instant::now();
    while begun.elapsed() < LEAST {
        let output = aisle::answer(input);
        let text = String::from_utf8_lossy(&output);
        if text.starts_with("refused") {
            return text.trim_end().to_string();
        }
        let counts =
            text.lines().filter_map(|line| line.split(' ').nth(1).filter(|_| line.split(' ').count() == 5));
        decisions += counts.filter_map(|count| count.parse::<u64>().ok()).sum::<u64>();
    }
    rate(decisions, begun.elapsed())
}

fn rate(decisions: u64, time: Duration) -> String {
    let seconds = time.as_secs_f64();
    format!("{decisions} decisions, {seconds:.3} seconds, {:.0} decisions/second", decisions as f64 / seconds)
}

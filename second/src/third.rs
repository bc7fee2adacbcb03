//! Counts jobs that need a third trial: with quota 0 the second one learns nothing by Theorem 7.8 of source document 003; here
//! that holds at depth 1 and with p = q, and not of every other job.

use crate::floor::{Floor, BLOCKED, FREE};
use crate::make::dice::Dice;
use crate::make::jobs::Kit;
use crate::opening::{self, distances, NO_WAY};
use crate::settling::first_two;
use crate::trial::Cart;

/// Makes the jobs of the seeds and tells how many need a third trial, and of the first its seed and its run for `calls`.
pub fn count(depth: u64, opening: bool, from: u64, count: u64) -> String {
    let (mut need, mut need_with_equal) = (0, 0);
    let mut first = None;
    for seed in from..from.saturating_add(count) {
        let kit = kit(depth, opening, seed);
        if needs_third(&kit) {
            need += 1;
            need_with_equal += u64::from(kit.p == kit.q);
            first.get_or_insert((seed, kit));
        }
    }
    let told = format!("{count} jobs, {need} need a third trial, {need_with_equal} of them with p = q");
    match first {
        None => format!("{told}\n"),
        Some((seed, kit)) => format!("{told}, the first is seed {seed}\n{}", kit.as_calls(&kit.table)),
    }
}

/// Whether the second of two trials learns something. A job of `kit` is always accepted.
pub fn needs_third(kit: &Kit) -> bool {
    let opened = opening::open(&kit.job(), kit.start as u64, &kit.table);
    let learned = opened.ok().and_then(|opened| first_two(&mut Cart::new(opened), &kit.table, u64::MAX));
    learned.is_some_and(|[_, second]| second > 0)
}

/// The job of a seed: quota 0, one goal, a small floor, and the opening table or a random sound one.
pub fn kit(depth: u64, opening: bool, seed: u64) -> Kit {
    let mut dice = Dice::new(seed);
    loop {
        if let Some(mut kit) = small_kit(depth, &mut dice) {
            kit.table = if opening { kit.opening_table() } else { sound_table(&kit, &mut dice) };
            return kit;
        }
    }
}

/// A job without its table, on 9 to 36 cells; none where no other cell can reach the goal.
fn small_kit(depth: u64, dice: &mut Dice) -> Option<Kit> {
    let (width, height) = (dice.from_to(3, 8) as usize, dice.from_to(3, 8) as usize);
    if width * height > 36 {
        return None;
    }
    let percent = dice.from_to(5, 50);
    let floor: Vec<u8> =
        (0..width * height).map(|_| if dice.chance(percent) { BLOCKED } else { FREE }).collect();
    let goal = dice.index(floor.len());
    if floor[goal] == BLOCKED {
        return None;
    }
    let distance = distances(&Floor::new(width, height, &floor), &[goal]);
    let starts: Vec<usize> =
        (0..floor.len()).filter(|&cell| cell != goal && distance[cell] != NO_WAY).collect();
    if starts.is_empty() {
        return None;
    }
    // Half of the weights are 1/q, since with small ones more jobs need a third trial.
    let q = dice.from_to(1, 16);
    let p = if dice.chance(50) { 1 } else { dice.from_to(1, q) };
    let (start, goals) = (dice.pick(&starts), vec![goal]);
    Some(Kit {
        width,
        height,
        floor,
        start,
        goals,
        depth,
        p,
        q,
        quota: 0,
        trials: 10,
        distance,
        table: Vec::new(),
    })
}

/// Of each cell that can reach the goal 0, the opening figure, the true one, or anything up to that.
fn sound_table(kit: &Kit, dice: &mut Dice) -> Vec<u32> {
    let figure = |cell: usize| match kit.true_figure(cell) {
        None => kit.opening_figure(cell),
        Some(truth) => {
            let any = dice.from_to(0, u64::from(truth)) as u32;
            dice.pick(&[0, kit.opening_figure(cell), truth, any])
        }
    };
    (0..kit.cells()).map(figure).collect()
}

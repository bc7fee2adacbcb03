//! The self-check of settling: what is promised of trials made one after another from an accepted job, tried on random jobs.

use crate::checks::{Job, MOST_TRIALS};
use crate::make::jobs::Kit;
use crate::opening;
use crate::promises::{holds, MOST_DECISIONS};
use crate::refusal::Halt;
use crate::trial::{self, Cart, Counts, Leg};

/// A job that has not settled after so many trials is left there; it says nothing against the promise.
const MOST_TRIED: usize = 200;

/// A trial with all that it did and left.
struct Made {
    counts: Counts,
    /// Where each leg ends, and whether the cart backs out over it. A trial that learns nothing has one for each decision.
    legs: Vec<(usize, bool)>,
    moves: Vec<u8>,
    table: Vec<u32>,
    path: Vec<u16>,
}

/// Tries each promise on an accepted job.
pub fn check(kit: &Kit) -> Result<(), String> {
    for kit in [kit, &one_below(kit)] {
        check_trials(kit)?;
        check_run(kit)?;
    }
    check_second(&Job { depth: 1, quota: 0, ..kit.job() }, kit)?;
    check_second(&Job { p: kit.q, quota: 0, ..kit.job() }, kit)
}

/// The job with p = q and the true figures, but the start's one too low. One trial learns that, so that R and R + 1 are met.
fn one_below(kit: &Kit) -> Kit {
    let mut table: Vec<u32> =
        (0..kit.cells()).map(|cell| kit.true_figure(cell).unwrap_or(kit.table[cell])).collect();
    table[kit.start] = table[kit.start].saturating_sub(1);
    Kit { p: kit.q, table, ..kit.clone() }
}

/// What is left to learn: true figure less stored figure, over all cells that can reach a goal.
pub fn left_to_learn(kit: &Kit, table: &[u32]) -> u128 {
    let left = |cell: usize| Some(u128::from(kit.true_figure(cell)? - table[cell]));
    (0..kit.cells()).filter_map(left).sum()
}

/// Makes trials until one learns nothing, and some more.
fn check_trials(kit: &Kit) -> Result<(), String> {
    let r = left_to_learn(kit, &kit.table);
    let mut cart = open(&kit.job(), kit)?;
    let (mut table, mut path) = (kit.table.clone(), vec![0u16; kit.cells()]);
    let mut learned = Vec::new();
    let mut decisions = 0;
    while learned.len() < MOST_TRIED {
        let Some(made) = make(&mut cart, &table, &path, MOST_DECISIONS - decisions) else { break };
        learned.push(made.counts.learned);
        judge_learning(&learned, r)?;
        if made.counts.learned == 0 {
            judge_settled(kit, made.counts)?;
            return check_repeats(&mut cart, &made);
        }
        decisions += made.counts.decisions;
        (table, path) = (made.table, made.path);
    }
    Ok(())
}

fn open(job: &Job, kit: &Kit) -> Result<Cart, String> {
    let opened = opening::open(job, kit.start as u64, &kit.table);
    opened.map(Cart::new).map_err(|refusal| format!("refused: {refusal:?}"))
}

/// One trial from a table and a path list; none when it takes more than `most` decisions.
fn make(cart: &mut Cart, table: &[u32], path: &[u16], most: u64) -> Option<Made> {
    let (mut table, mut path) = (table.to_vec(), path.to_vec());
    let (mut legs, mut moves) = (Vec::new(), Vec::new());
    let mut show = |mut leg: Leg| {
        legs.push((leg.end, leg.back));
        leg.add_moves(&mut moves);
    };
    let counts = cart.trial(&mut table, &mut path, Some(&mut show), most)?;
    Some(Made { counts, legs, moves, table, path })
}

/// By what each trial so far learned, with R as at the first one's start: at most R learn, and one of the first R + 1 doesn't.
fn judge_learning(learned: &[u64], r: u128) -> Result<(), String> {
    let learners = learned.iter().filter(|&&amount| amount > 0).count() as u128;
    let in_all: u128 = learned.iter().map(|&amount| u128::from(amount)).sum();
    holds(learners <= r, "more than R trials learned")?;
    holds(in_all <= r, "the trials learned more than R")?;
    holds(learned.len() as u128 <= r || learned.contains(&0), "each of the first R + 1 trials learned")
}

/// By the counts of a trial that learned nothing: it keeps all its way, which costs what the weight allows.
fn judge_settled(kit: &Kit, counts: Counts) -> Result<(), String> {
    let distance = u64::from(kit.distance[kit.start]);
    holds(counts.kept == counts.travel, "a settled trial's kept way isn't its travel")?;
    holds(counts.travel >= distance, "a settled trial travels less than the cheapest distance")?;
    holds(kit.p != kit.q || counts.travel == distance, "with p = q a settled trial isn't a cheapest one")?;
    holds(kit.p * counts.travel <= kit.q * distance, "a settled trial travels too far for its weight")
}

/// From what a settled trial left, the same trial is made again and again.
fn check_repeats(cart: &mut Cart, settled: &Made) -> Result<(), String> {
    let (mut table, mut path) = (settled.table.clone(), settled.path.clone());
    for _ in 0..2 {
        let again = make(cart, &table, &path, settled.counts.decisions)
            .ok_or("after a settled trial one makes more decisions")?;
        judge_same(settled, &again)?;
        (table, path) = (again.table, again.path);
    }
    Ok(())
}

fn judge_same(settled: &Made, again: &Made) -> Result<(), String> {
    holds(again.counts == settled.counts, "after a settled trial one has other counts")?;
    holds(again.legs == settled.legs, "after a settled trial one has other decisions")?;
    holds(again.moves == settled.moves, "after a settled trial one has other moves")?;
    holds(again.table == settled.table, "after a settled trial one leaves another table")?;
    holds(again.path == settled.path, "after a settled trial one leaves another path list")
}

/// A run for which R + 1 trials are asked answers that it has settled.
fn check_run(kit: &Kit) -> Result<(), String> {
    let trials = left_to_learn(kit, &kit.table) + 1;
    if trials > u128::from(MOST_TRIALS) {
        return Ok(());
    }
    let (mut table, mut path) = (kit.table.clone(), vec![0u16; kit.cells()]);
    let mut reports = vec![Counts::default(); trials as usize];
    let (job, start) = (kit.job(), kit.start as u64);
    match trial::run(&job, start, trials as u64, &mut table, &mut path, &mut reports, MOST_DECISIONS) {
        Ok(ran) => holds(ran.settled, "a run of R + 1 trials didn't settle"),
        Err(Halt::TooLong) => Ok(()),
        Err(Halt::Refused(refusal)) => Err(format!("refused: {refusal:?}")),
    }
}

/// With quota 0 the second trial learns nothing at depth 1, and at every depth with p = q.
fn check_second(job: &Job, kit: &Kit) -> Result<(), String> {
    let learned = first_two(&mut open(job, kit)?, &kit.table, MOST_DECISIONS);
    holds(learned.is_none_or(|[_, second]| second == 0), "with quota 0 a third trial is needed")
}

/// What the first two trials from a table learn; none when one takes more than `most` decisions.
pub fn first_two(cart: &mut Cart, table: &[u32], most: u64) -> Option<[u64; 2]> {
    let (mut table, mut path) = (table.to_vec(), vec![0u16; table.len()]);
    let mut learned = || Some(cart.trial(&mut table, &mut path, None, most)?.learned);
    Some([learned()?, learned()?])
}

#[cfg(test)]
mod tests {
    use super::*;
    use crate::make::dice::Dice;
    use crate::make::jobs;

    #[test]
    fn wrong_counts_of_learners_are_noticed() {
        assert!(judge_learning(&[1, 1, 0], 2).is_ok());
        assert!(judge_learning(&[1, 1, 0], 1).is_err());
        assert!(judge_learning(&[0], 0).is_ok());
        assert!(judge_learning(&[1], 0).is_err());
        assert!(judge_learning(&[2, 1], 2).is_err());
        assert!(judge_learning(&[0, 0, 0], 0).is_ok());
    }

    /// Settled trials of random jobs, each with its kit and the cart that made it.
    fn settled_trials() -> Vec<(Kit, Cart, Made)> {
        let settled = |seed: u64| {
            let kit = jobs::kit(&mut Dice::new(seed));
            let mut cart = open(&kit.job(), &kit).ok()?;
            let mut made = make(&mut cart, &kit.table, &vec![0; kit.cells()], MOST_DECISIONS)?;
            while made.counts.learned > 0 {
                made = make(&mut cart, &made.table, &made.path, MOST_DECISIONS)?;
            }
            Some((kit, cart, made))
        };
        (0..300).filter_map(settled).filter(|(_, _, made)| made.counts.travel > 0).collect()
    }

    #[test]
    fn wrong_costs_of_a_settled_trial_are_noticed() {
        let (mut cheapest, mut dearer) = (0, 0);
        for (kit, _, made) in settled_trials() {
            assert_eq!(judge_settled(&kit, made.counts), Ok(()));
            let Counts { kept, travel, .. } = made.counts;
            let with = |kept: u64, travel: u64| judge_settled(&kit, Counts { kept, travel, ..made.counts });
            assert!(with(kept, travel + 10).is_err() && with(kept - 10, travel).is_err());
            let distance = u64::from(kit.distance[kit.start]);
            assert!(with(distance - 2, distance - 2).is_err());
            let most = kit.q * distance / kit.p;
            assert!(with(most, most).is_ok() && with(most + 2, most + 2).is_err());
            cheapest += usize::from(kit.p == kit.q);
            dearer += usize::from(travel > distance);
        }
        assert!(cheapest > 20 && dearer > 2, "{cheapest} {dearer}");
    }

    #[test]
    fn a_trial_that_isnt_the_settled_one_is_noticed() {
        for (_, mut cart, made) in settled_trials() {
            assert_eq!(check_repeats(&mut cart, &made), Ok(()));
            let changes: [fn(&mut Made); 5] = [
                |made| made.counts.decisions += 1,
                |made| made.legs[0].1 = true,
                |made| made.moves[0] ^= 1,
                |made| made.table[0] += 1,
                |made| made.path[0] ^= 1,
            ];
            for change in changes {
                let mut other = make(&mut cart, &made.table, &made.path, MOST_DECISIONS).unwrap();
                assert_eq!(judge_same(&made, &other), Ok(()));
                change(&mut other);
                assert!(judge_same(&made, &other).is_err());
            }
        }
    }
}

//! Settling: R on the worked floor and what its trips learn, a row that needs R + 1 trials, settled trials that repeat, and jobs
//! that need a third trial though their quota is 0, found and counted.

use second::checks::{Goals, Job};
use second::floor::Floor;
use second::opening::{distances, open, opening_table, NO_WAY};
use second::trial::{run, trial, Counts, Ran};
use second::{calls, third};

/// A floor of rows with its start, goals and settings, and the table and the path list that its trials change.
struct Trips<'a> {
    rows: &'a [&'a str],
    floor: Vec<u8>,
    start: u64,
    goals: Vec<u64>,
    depth: u64,
    weight: (u64, u64),
    quota: u64,
    table: Vec<u32>,
    path: Vec<u16>,
}

impl<'a> Trips<'a> {
    /// From the opening table, at depth 1 with weight 1/1 and all the quota there is.
    fn new(rows: &'a [&'a str], start: u64, goals: &[u64]) -> Trips<'a> {
        let floor: Vec<u8> = rows.concat().bytes().map(|letter| u8::from(letter != b'.')).collect();
        let (table, path) = (vec![0; floor.len()], vec![0; floor.len()]);
        let (depth, quota) = (1, 1_000_000);
        Trips { rows, floor, start, goals: goals.to_vec(), depth, weight: (1, 1), quota, table, path }
            .weighted(1, 1)
    }

    /// Another weight, and with it the opening table in its units.
    fn weighted(mut self, p: u64, q: u64) -> Trips<'a> {
        self.weight = (p, q);
        let Job { width, height, goals, .. } = self.job();
        opening_table(width, height, &goals, q, &self.floor, &mut self.table).unwrap();
        self
    }

    fn job(&self) -> Job<'_> {
        Job {
            width: self.rows[0].len() as u64,
            height: self.rows.len() as u64,
            goals: Goals::named(&self.goals),
            depth: self.depth,
            p: self.weight.0,
            q: self.weight.1,
            quota: self.quota,
            floor: &self.floor,
        }
    }

    /// True figures, and none where no goal can be reached.
    fn truth(&self) -> Vec<Option<u32>> {
        let goals: Vec<usize> = self.goals.iter().map(|&goal| goal as usize).collect();
        let distance = distances(&Floor::new(self.rows[0].len(), self.rows.len(), &self.floor), &goals);
        let figure = |&distance: &u32| (distance != NO_WAY).then(|| distance * self.weight.1 as u32);
        distance.iter().map(figure).collect()
    }

    /// R: what is left to learn.
    fn left(&self) -> u32 {
        self.truth().iter().zip(&self.table).filter_map(|(truth, figure)| Some((*truth)? - figure)).sum()
    }

    fn trial(&mut self) -> Counts {
        let (mut table, mut path) = (self.table.clone(), self.path.clone());
        let counts = trial(&self.job(), self.start, &mut table, &mut path, u64::MAX).unwrap();
        (self.table, self.path) = (table, path);
        counts
    }

    /// A run: what it answers, and the records of its trials.
    fn run(&mut self, trials: u64) -> (Ran, Vec<Counts>) {
        let (mut table, mut path) = (self.table.clone(), self.path.clone());
        let mut reports = vec![Counts::default(); trials as usize];
        let ran =
            run(&self.job(), self.start, trials, &mut table, &mut path, &mut reports, u64::MAX).unwrap();
        reports.truncate(ran.trials);
        (self.table, self.path) = (table, path);
        (ran, reports)
    }

    /// What each trial of a run learns, until one learns nothing.
    fn learned(&mut self) -> Vec<u64> {
        let (ran, reports) = self.run(1_000);
        assert!(ran.settled);
        reports.iter().map(|report| report.learned).collect()
    }
}

const WORKED: [&str; 3] = ["...", "@@.", "..."];

#[test]
fn on_the_worked_floor_r_is_84() {
    let mut trips = Trips::new(&WORKED, 6, &[0]);
    assert_eq!(trips.left(), 84);
    let (ran, reports) = trips.run(85);
    assert_eq!(ran, Ran { trials: 5, settled: true });
    let learned: Vec<u64> = reports.iter().map(|report| report.learned).collect();
    assert_eq!((learned, trips.left()), (vec![40, 26, 12, 6, 0], 0));
    assert_eq!((reports[4].kept, reports[4].travel), (60, 60));
    // With quota 0 the first trip learns all of it.
    let mut trips = Trips { quota: 0, ..Trips::new(&WORKED, 6, &[0]) };
    assert_eq!(trips.learned(), [84, 0]);
}

#[test]
fn a_row_that_needs_r_and_one_trials() {
    // Every figure is one below the truth, and each trip learns the one next to what is known.
    let row = || Trips { table: vec![0, 9, 19, 29], ..Trips::new(&["...."], 3, &[0]) };
    assert_eq!(row().left(), 3);
    assert_eq!(row().learned(), [1, 1, 1, 0]);
    assert_eq!(row().run(3).0, Ran { trials: 3, settled: false });
    assert_eq!(row().run(4).0, Ran { trials: 4, settled: true });
}

#[test]
fn a_settled_trial_is_repeated() {
    let worked = Trips::new(&WORKED, 6, &[0]);
    let two_goals = Trips::new(&TWO_GOALS, 8, &[0, 3]);
    let dearer = Trips::new(&DEARER, 12, &[3]).weighted(1, 2);
    let third = Trips { depth: 2, quota: 0, ..after_a_trip_from_6() };
    for mut trips in [worked, two_goals, dearer, third] {
        let (ran, reports) = trips.run(1_000);
        assert!(ran.settled && ran.trials > 2);
        let (table, path) = (trips.table.clone(), trips.path.clone());
        for _ in 0..3 {
            assert_eq!(trips.trial(), reports[ran.trials - 1]);
            assert_eq!((&trips.table, &trips.path), (&table, &path));
        }
    }
}

const TWO_GOALS: [&str; 3] = ["....", "@...", "...@"];

#[test]
fn with_two_goals_the_cheapest_to_any() {
    // The first trip ends at 0 for 40; 3 is nearer.
    let mut trips = Trips::new(&TWO_GOALS, 8, &[0, 3]);
    assert_eq!(trips.truth()[8], Some(38));
    let travel: Vec<u64> = trips.run(10).1.iter().map(|report| report.travel).collect();
    assert_eq!(travel, [40, 38, 38, 38]);
}

const DEARER: [&str; 4] = ["@.@.", "....", ".@..", "...."];

#[test]
fn with_weight_one_half_at_most_twice_the_cheapest() {
    // The second trip is a cheapest one, and the cart settles for a dearer one.
    let mut trips = Trips::new(&DEARER, 12, &[3]).weighted(1, 2);
    assert_eq!(trips.truth()[12], Some(2 * 54));
    let travel: Vec<u64> = trips.run(10).1.iter().map(|report| report.travel).collect();
    assert_eq!(travel, [60, 54, 60, 60]);
}

const HOOK: [&str; 3] = [".@..", ".@..", "...."];

/// The hook in thirds, after one trip from 6 by another depth and another weight.
fn after_a_trip_from_6() -> Trips<'static> {
    let mut trips = Trips { depth: 5, ..Trips::new(&HOOK, 6, &[0]).weighted(3, 3) };
    trips.trial();
    Trips { depth: 1, start: 3, weight: (1, 3), ..trips }
}

#[test]
fn a_third_trial_is_needed_though_the_quota_is_0() {
    let trips = after_a_trip_from_6();
    assert_eq!(trips.table, [0, 30, 60, 90, 30, 42, 150, 102, 60, 72, 84, 114]);
    assert_eq!(trips.truth()[6], Some(150));
    assert!(open(&trips.job(), trips.start, &trips.table).is_ok());

    let mut trips = Trips { depth: 2, quota: 0, ..trips };
    assert_eq!(trips.learned(), [74, 4, 0]);
    assert_eq!(trips.table, [0, 30, 116, 112, 30, 42, 150, 102, 60, 72, 84, 114]);
    // Not at depth 1, and not with p = q.
    assert_eq!(Trips { quota: 0, ..after_a_trip_from_6() }.learned().len(), 2);
    assert_eq!(Trips { depth: 2, quota: 0, weight: (3, 3), ..after_a_trip_from_6() }.learned().len(), 2);
}

#[test]
fn a_third_trial_is_needed_from_an_opening_table() {
    let rows = ["...@@@", ".@@@@@", "...@..", "@@...."];
    let trips = |depth: u64, p: u64| Trips { depth, quota: 0, ..Trips::new(&rows, 17, &[2]).weighted(p, 10) };
    assert_eq!(trips(2, 1).learned(), [210, 14, 0]);
    assert_eq!(trips(1, 1).learned().len(), 2);
    assert_eq!(trips(2, 10).learned().len(), 2);
}

#[test]
fn jobs_that_need_a_third_trial_are_counted() {
    let told = third::count(2, false, 0, 1_000);
    assert_eq!(told, third::count(2, false, 0, 1_000));
    let (line, input) = told.split_once('\n').unwrap();
    let needed: u64 = line.split(' ').nth(2).unwrap().parse().unwrap();
    assert!(needed > 0 && line.ends_with(" 0 of them with p = q, the first is seed 192"), "{line}");
    // Told to `calls`, the first of them is accepted and settles, in three trials or more.
    let answer = calls::numbers(&calls::answer(input.as_bytes())).unwrap();
    assert!(answer[..3] == [0, 0, 0] && answer[3] > 2 && answer[4] == 1, "{answer:?}");
    assert_eq!(third::count(1, false, 0, 1_000), "1000 jobs, 0 need a third trial, 0 of them with p = q\n");
}

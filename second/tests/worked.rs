//! Every case that document 01 works out, worked again with document 02's corners and ceiling, and cases with slow cells, with
//! routes of one cost, with several goals and with bytes ahead of a table, tried on the library and on the programs.

use second::checks::{Goals, Job};
use second::decision::{decide, Answer, State};
use second::floor::Floor;
use second::opening::{distances, open, opening_figure, opening_table};
use second::output::Output;
use second::refusal::{Halt, Refusal};
use second::trial::{run, trial, Counts, Ran};
use second::{aisle, calls, floor_text, renew, table_file};

/// The floor `...`, `@@.`, `...`.
const FLOOR: [u8; 9] = [0, 0, 0, 1, 1, 0, 0, 0, 0];
const START: u64 = 6;

fn one(goal: u64) -> Goals {
    Goals::named(&[goal])
}

fn job(depth: u64, p: u64, q: u64, quota: u64) -> Job<'static> {
    Job { width: 3, height: 3, goals: one(0), depth, p, q, quota, floor: &FLOOR }
}

fn opening(q: u64) -> Vec<u32> {
    let mut table = vec![0; 9];
    opening_table(3, 3, &one(0), q, &FLOOR, &mut table).unwrap();
    table
}

struct Walk {
    state: State,
    table: Vec<u32>,
    path: Vec<u16>,
    moves: Vec<u8>,
}

impl Walk {
    fn new(q: u64) -> Walk {
        let state = State { current: START, u: 0, length: 0 };
        Walk { state, table: opening(q), path: vec![0; 9], moves: vec![9; 288] }
    }

    fn decide(&mut self, job: &Job) -> Answer {
        decide(job, &mut self.state, &mut self.table, &mut self.path, &mut self.moves, 0)
    }

    /// How many decisions a trial makes until it has arrived.
    fn decisions(&mut self, job: &Job) -> u64 {
        let mut decisions = 0;
        while self.decide(job) != Answer::Arrived {
            decisions += 1;
        }
        decisions
    }
}

#[test]
fn true_distances() {
    let distance = distances(&Floor::new(3, 3, &FLOOR), &[0]);
    let worked = [(0, 0), (1, 10), (2, 20), (5, 30), (7, 50), (6, 60), (8, 40)];
    assert!(worked.iter().all(|&(cell, expected)| distance[cell] == expected));
}

#[test]
fn p1_opening_figures() {
    assert_eq!([6, 7, 8].map(|cell| opening_figure(3, cell, &[0], 1)), [20, 24, 28]);
}

#[test]
fn p2_and_p3_first_decisions_at_depth_1() {
    let job = job(1, 1, 1, 1_000);
    let mut walk = Walk::new(1);
    assert_eq!(walk.decide(&job), Answer::Forward { target: 7, rise: 14, moves: 1 });
    assert_eq!(walk.table[6], 34);
    assert_eq!(walk.state, State { current: 7, u: 14, length: 1 });
    assert_eq!((walk.moves[0], walk.moves[1]), (2, 9));
    // At 7 the cell 5 would tie with 8 at 38, but 4 stands beside that diagonal.
    assert_eq!((14 + walk.table[5], 10 + walk.table[8]), (38, 38));
    assert_eq!(walk.decide(&job), Answer::Forward { target: 8, rise: 14, moves: 1 });
}

#[test]
fn p4_quota_13_stays() {
    let mut walk = Walk::new(1);
    assert_eq!(walk.decide(&job(1, 1, 1, 13)), Answer::Stayed { rise: 14 });
    assert_eq!(walk.table[6], 34);
    assert_eq!(walk.state, State { current: 6, u: 0, length: 0 });
}

#[test]
fn p5_quota_14_goes_forward() {
    let mut walk = Walk::new(1);
    assert_eq!(walk.decide(&job(1, 1, 1, 14)), Answer::Forward { target: 7, rise: 14, moves: 1 });
    assert_eq!(walk.state.u, 14);
}

#[test]
fn p6_quota_27_takes_9_decisions() {
    assert_eq!(Walk::new(1).decisions(&job(1, 1, 1, 27)), 9);
    let counts = trial(&job(1, 1, 1, 27), START, &mut opening(1), &mut [0; 9], u64::MAX).unwrap();
    assert_eq!(counts.decisions, 9);
}

#[test]
fn p7_quota_28_takes_18_decisions() {
    assert_eq!(Walk::new(1).decisions(&job(1, 1, 1, 28)), 18);
    let counts = trial(&job(1, 1, 1, 28), START, &mut opening(1), &mut [0; 9], u64::MAX);
    assert_eq!(counts, Ok(Counts { decisions: 18, learned: 84, kept: 60, travel: 160 }));
}

#[test]
fn p8_depth_2() {
    let mut walk = Walk::new(1);
    assert_eq!(walk.decide(&job(2, 1, 1, 1_000)), Answer::Forward { target: 8, rise: 28, moves: 2 });
    assert_eq!(walk.table[6], 48);
    assert_eq!(walk.moves[..3], [2, 2, 9]);
}

#[test]
fn p9_weight_one_half() {
    let mut walk = Walk::new(2);
    assert_eq!(walk.table[6], 40);
    walk.decide(&job(1, 1, 2, 1_000));
    assert_eq!(walk.table[6], 58);
}

#[test]
fn p10_and_p11_a_figure_above_the_truth() {
    let mut table = opening(1);
    table[7] = 51;
    assert_eq!(open(&job(1, 1, 1, 0), START, &table).err(), Some(Refusal::at_cell(7, 7)));
    table[7] = 50;
    assert!(open(&job(1, 1, 1, 0), START, &table).is_ok());
}

#[test]
fn p12_no_way() {
    let floor = [0, 0, 0, 1, 1, 1, 0, 0, 0];
    let job = Job { floor: &floor, ..job(1, 1, 1, 0) };
    assert_eq!(open(&job, START, &opening(1)).err(), Some(Refusal::plain(6)));
}

/// The ways from a cell, by number, on a floor of rows.
fn ways(rows: &[&str], cell: usize) -> Vec<usize> {
    let bytes: Vec<u8> = rows.concat().bytes().map(|letter| u8::from(letter != b'.')).collect();
    let floor = Floor::new(rows[0].len(), rows.len(), &bytes);
    (0..8).filter(|way| floor.exits(cell) & (1 << way) != 0).collect()
}

#[test]
fn corners() {
    // None blocked, on the edge and off it; one, each of the four; two; and straight moves between walls.
    assert_eq!(ways(&["..", ".."], 0), [2, 3, 4]);
    assert_eq!(ways(&["...", "...", "..."], 4), [0, 1, 2, 3, 4, 5, 6, 7]);
    assert_eq!(ways(&[".@.", "...", "..."], 4), [2, 3, 4, 5, 6]);
    assert_eq!(ways(&["...", "..@", "..."], 4), [0, 4, 5, 6, 7]);
    assert_eq!(ways(&["...", "...", ".@."], 4), [0, 1, 2, 6, 7]);
    assert_eq!(ways(&["...", "@..", "..."], 4), [0, 1, 2, 3, 4]);
    assert_eq!(ways(&["@..", "...", "..."], 4), [0, 1, 2, 3, 4, 5, 6]);
    assert_eq!(ways(&[".@.", "@.@", ".@."], 4), []);
    assert_eq!(ways(&["@@@", "...", "@@@"], 4), [2, 6]);
}

#[test]
fn a_cell_shut_in_by_corners_alone() {
    let floor = [0, 1, 0, 1, 0, 1, 0, 1, 0];
    let job = Job { floor: &floor, ..job(1, 1, 1, 0) };
    assert_eq!(open(&job, 4, &opening(1)).err(), Some(Refusal::plain(6)));
    let mut state = State { current: 4, u: 0, length: 0 };
    let (mut table, mut path, mut moves) = (opening(1), vec![5; 9], vec![9; 288]);
    let answer = decide(&job, &mut state, &mut table, &mut path, &mut moves, 0);
    assert_eq!(answer, Answer::Refused(Refusal::plain(9)));
}

#[test]
fn number_9_in_a_closed_pocket() {
    let job = Job { width: 3, height: 1, goals: one(2), floor: &[0, 1, 0], ..job(1, 1, 1, 0) };
    let mut state = State { current: 0, u: 0, length: 0 };
    let (mut table, mut path, mut moves) = (vec![20, 10, 0], vec![5; 3], vec![9; 288]);
    let answer = decide(&job, &mut state, &mut table, &mut path, &mut moves, 0);
    assert_eq!(answer, Answer::Refused(Refusal::plain(9)));
    assert_eq!((table, path, moves), (vec![20, 10, 0], vec![5; 3], vec![9; 288]));
}

#[test]
fn number_10_above_the_ceiling() {
    let job = Job { width: 4, height: 1, goals: one(3), floor: &[0, 0, 1, 0], ..job(1, 1, 1, 0) };
    let mut state = State { current: 0, u: 0, length: 0 };
    let (mut table, mut path, mut moves) = (vec![1_834_560, 1_834_560, 10, 0], vec![5; 4], vec![9; 288]);
    let answer = decide(&job, &mut state, &mut table, &mut path, &mut moves, 0);
    assert_eq!(answer, Answer::Refused(Refusal::plain(10)));
    assert_eq!(table, [1_834_560, 1_834_560, 10, 0]);
    // Ten less is met, one more is passed.
    table = vec![1_834_550, 1_834_550, 10, 0];
    let answer = decide(&job, &mut state, &mut table, &mut path, &mut moves, 0);
    assert_eq!((answer, table[0]), (Answer::Stayed { rise: 10 }, 1_834_560));
    table = vec![1_834_550, 1_834_551, 10, 0];
    let answer = decide(&job, &mut state, &mut table, &mut path, &mut moves, 0);
    assert_eq!(answer, Answer::Refused(Refusal::plain(10)));
    table[1] = 1_834_561;
    let answer = decide(&job, &mut state, &mut table, &mut path, &mut moves, 0);
    assert_eq!(answer, Answer::Refused(Refusal::at_cell(5, 1)));
}

/// The bytes of a floor of rows.
fn bytes(rows: &[&str]) -> Vec<u8> {
    let byte = |letter: u8| match letter {
        b'.' => 0,
        b'S' => 2,
        _ => 1,
    };
    rows.concat().bytes().map(byte).collect()
}

/// The least cost from start to goal on a floor of rows, as the opening finds it: met by a figure, and passed by one more.
fn cost(rows: &[&str], start: u64, goal: u64) -> u32 {
    let floor = bytes(rows);
    let (width, height) = (rows[0].len() as u64, rows.len() as u64);
    let distance =
        distances(&Floor::new(rows[0].len(), rows.len(), &floor), &[goal as usize])[start as usize];
    let job = Job { width, height, goals: one(goal), depth: 1, p: 1, q: 1, quota: 0, floor: &floor };
    let mut table = vec![0; floor.len()];
    table[start as usize] = distance;
    assert!(open(&job, start, &table).is_ok());
    table[start as usize] = distance + 1;
    assert_eq!(open(&job, start, &table).err(), Some(Refusal::at_cell(7, start as usize)));
    distance
}

/// The first decision on a floor of rows with its opening table: answer and moves.
fn first_decision(rows: &[&str], start: u64, goal: u64, depth: u64) -> (Answer, Vec<u8>) {
    let floor = bytes(rows);
    let (width, height) = (rows[0].len() as u64, rows.len() as u64);
    let job = Job { width, height, goals: one(goal), depth, p: 1, q: 1, quota: 1_000, floor: &floor };
    let mut state = State { current: start, u: 0, length: 0 };
    let (mut table, mut path, mut moves) = (vec![0; floor.len()], vec![0; floor.len()], vec![9; 288]);
    opening_table(width, height, &one(goal), 1, &floor, &mut table).unwrap();
    let answer = decide(&job, &mut state, &mut table, &mut path, &mut moves, 0);
    let count = moves.iter().position(|&way| way == 9).unwrap();
    (answer, moves[..count].to_vec())
}

#[test]
fn a_move_that_begins_or_ends_in_a_slow_cell_costs_double() {
    assert_eq!(
        [cost(&[".."], 0, 1), cost(&["S."], 0, 1), cost(&[".S"], 0, 1), cost(&["SS"], 0, 1)],
        [10, 20, 20, 20]
    );
    assert_eq!(cost(&["S.", "..", ".."], 0, 3), 28);
    assert_eq!(cost(&["..", ".S", ".."], 0, 3), 28);
    assert_eq!(cost(&["S.", ".S", ".."], 0, 3), 28);
    // Slow cells beside a diagonal don't count; a blocked one closes it.
    assert_eq!(cost(&[".S", "S."], 0, 3), 14);
    assert_eq!(cost(&[".@", "S."], 0, 3), 40);
}

#[test]
fn round_a_slow_cell_through_it_and_along_it() {
    assert_eq!(cost(&["...", ".S."], 3, 5), 28);
    assert_eq!(
        first_decision(&["...", ".S."], 3, 5, 2),
        (Answer::Forward { target: 5, rise: 8, moves: 2 }, vec![1, 3])
    );
    assert_eq!(cost(&["@@@", ".S."], 3, 5), 40);
    assert_eq!(
        first_decision(&["@@@", ".S."], 3, 5, 2),
        (Answer::Forward { target: 5, rise: 20, moves: 2 }, vec![2, 2])
    );
    assert_eq!(cost(&["SSSS"], 0, 3), 60);
    // Leaving a lane and coming back costs 28 each time: for three moves it doesn't pay (60 and 66), for four it does.
    assert_eq!(cost(&["....", "SSSS"], 4, 7), 60);
    assert_eq!(cost(&[".....", "SSSSS"], 5, 9), 76);
    assert_eq!(cost(&["S...S"], 0, 4), 60);
}

#[test]
fn a_longer_walk_round_slow_cells() {
    // Three moves through cost 60, five round cost 58; five and 100, nine and 98; eight diagonal ones 224, fifteen 154.
    assert_eq!(cost(&["....", ".SS.", ".SS."], 8, 11), 58);
    let rows = [".SSSS.", ".SSSS.", ".SSSS.", "......"];
    assert_eq!(cost(&rows, 0, 5), 98);
    let (answer, moves) = first_decision(&rows, 0, 5, 5);
    assert_eq!(answer, Answer::Forward { target: 5, rise: 48, moves: 9 });
    assert_eq!(moves, [4, 4, 3, 2, 2, 2, 1, 0, 0]);
    let mut rows = vec!["SSSSSSSS."; 9];
    rows[0] = ".........";
    assert_eq!(cost(&rows, 0, 80), 154);
}

#[test]
fn of_routes_of_one_cost_the_one_with_fewest_moves() {
    // To 1 at 48 by 4, or by 7 and 3, of which 3 is the lower.
    let (answer, moves) = first_decision(&["..@", ".S.", "..S"], 8, 1, 2);
    assert_eq!(answer, Answer::Forward { target: 1, rise: 24, moves: 2 });
    assert_eq!(moves, [7, 0]);
}

#[test]
fn of_routes_with_fewest_moves_the_one_by_the_lowest_cell() {
    // To 1 at 48 by 4 or by 5 in two moves; by 7 and 3 in three.
    let (answer, moves) = first_decision(&["...", ".SS", "..S"], 8, 1, 2);
    assert_eq!(answer, Answer::Forward { target: 1, rise: 24, moves: 2 });
    assert_eq!(moves, [7, 0]);
    // To 7 at 58 by 6 in three moves, by 2 in four; and to 6 by 5 or by 9 in two, by 1 in three.
    let (answer, moves) = first_decision(&["....", ".S..", "SSS."], 8, 7, 3);
    assert_eq!(answer, Answer::Forward { target: 7, rise: 24, moves: 3 });
    assert_eq!(moves, [1, 2, 2]);
    // Without slow cells all cheapest routes have as many moves.
    let (answer, moves) = first_decision(&["....", "...."], 4, 3, 3);
    assert_eq!(answer, Answer::Forward { target: 3, rise: 0, moves: 3 });
    assert_eq!(moves, [1, 2, 2]);
}

#[test]
fn a_trial_forward_and_back_by_fewest_moves() {
    let floor = bytes(&["S.S", ".SS", "S.S"]);
    let job = Job { floor: &floor, ..job(2, 1, 1, 0) };
    let first = [0, 0, 40, 20, 0, 0, 40, 0, 0];
    let mut walk = Walk { state: State { current: 8, u: 0, length: 0 }, ..Walk::new(1) };
    walk.table = first.to_vec();
    let answers = [
        (Answer::Stayed { rise: 48 }, vec![]),
        // To 1 at 48 by 4 or by 5 in two moves, by 7 and 3 in three; and back by the reverse.
        (Answer::Forward { target: 1, rise: 0, moves: 2 }, vec![7, 0]),
        (Answer::BackedOut { target: 8, rise: 20, moves: 2 }, vec![4, 3]),
        (Answer::Stayed { rise: 6 }, vec![]),
        (Answer::Forward { target: 0, rise: 0, moves: 3 }, vec![6, 7, 0]),
        (Answer::Arrived, vec![]),
    ];
    for (answer, moves) in answers {
        walk.moves.fill(9);
        assert_eq!(walk.decide(&job), answer);
        assert_eq!(walk.moves[..moves.len()], moves);
        assert!(walk.moves[moves.len()..].iter().all(|&way| way == 9));
    }
    assert_eq!(walk.table, [0, 20, 40, 20, 0, 0, 40, 0, 54]);
    assert_eq!((walk.state, walk.path[0]), (State { current: 0, u: 0, length: 1 }, 8));

    let counts = trial(&job, 8, &mut first.to_vec(), &mut [0; 9], u64::MAX);
    assert_eq!(counts, Ok(Counts { decisions: 5, learned: 74, kept: 54, travel: 150 }));
}

#[test]
fn bytes_above_2_are_blocked() {
    for (byte, refusal) in [(0, None), (1, Some(6)), (2, None), (3, Some(6)), (255, Some(6))] {
        let floor = [0, byte, 0];
        let job = Job { width: 3, height: 1, goals: one(2), floor: &floor, ..job(1, 1, 1, 0) };
        assert_eq!(open(&job, 0, &[0, 0, 0]).err(), refusal.map(Refusal::plain));
        assert_eq!(open(&job, 1, &[0, 0, 0]).err(), refusal.map(|_| Refusal::plain(4)));
    }
}

#[test]
fn records_of_slow_cells_and_the_ceiling() {
    let floor = [0, 2, 3, 2];
    let table = [0, 1_834_560, 20, 31];
    let mut file = [0; 36];
    assert_eq!(table_file::write(4, 1, &one(0), 1, &floor, &table, &mut file), Ok(36));
    let mut again = [7; 4];
    assert_eq!(table_file::read(4, 1, &one(0), 1, &floor, &file, &mut again), Ok(()));
    assert_eq!(again, table);
    let mut high = file;
    high[5] += 1;
    let refusal = table_file::read(4, 1, &one(0), 1, &floor, &high, &mut again);
    assert_eq!(refusal, Err(Refusal::at_record(22, 0)));
    let refusal = table_file::read(4, 1, &one(0), 1, &[0, 2, 2, 3], &file, &mut again);
    assert_eq!(refusal, Err(Refusal::at_record(19, 1)));
}

#[test]
fn a_floor_text_is_written() {
    let text = b"type octile\nheight 2\nwidth 4\nmap\n.@S@\n@S..\n";
    let floor = [0, 1, 2, 3, 255, 2, 0, 0];
    let mut buffer = [7; 50];
    assert_eq!(floor_text::write(4, 2, &floor, &mut buffer), Ok(text.len()));
    assert_eq!(buffer[..text.len()], *text);
    assert!(buffer[text.len()..].iter().all(|&byte| byte == 7));
    let mut read = [9; 9];
    assert_eq!(floor_text::read(text, &mut read), Ok((4, 2)));
    assert_eq!(read, [0, 1, 2, 1, 1, 2, 0, 0, 9]);

    let mut short = [7; 42];
    assert_eq!(text.len(), 43);
    assert_eq!(floor_text::write(4, 2, &floor, &mut short), Err(Refusal::plain(17)));
    assert_eq!(short, [7; 42]);
    for (width, height) in [(0, 2), (4, 0), (65, 2), (4, 65), (4, 3), (2, 2), (1 << 32, 2)] {
        assert_eq!(floor_text::write(width, height, &floor, &mut short), Err(Refusal::plain(1)));
    }
    assert_eq!(floor_text::write(4, 2, &floor[1..], &mut []), Err(Refusal::plain(1)));
}

/// What an opening of the worked floor answers, from its start.
fn opened(goals: &[u64], table: &[u32]) -> Option<Refusal> {
    open(&Job { goals: Goals::named(goals), ..job(1, 1, 1, 0) }, START, table).err()
}

#[test]
fn number_27_stands_between_4_and_5() {
    let table = opening(1);
    for goals in [&[] as &[u64], &[0, 0], &[8, 0], &[0, 1, 5, 2], &[0, 1, 2, 5, 8], &[0, 1, 2, 5, 9]] {
        assert_eq!(opened(goals, &table), Some(Refusal::plain(27)));
        assert_eq!(opened(goals, &[1_834_561; 9]), Some(Refusal::plain(27)));
    }
    for goals in [&[3u64] as &[u64], &[9], &[8, 3], &[0, 1, 2, 3], &[8, 3, 0, 1, 2], &[1 << 32]] {
        assert_eq!(opened(goals, &table), Some(Refusal::plain(4)));
    }
    for goals in [&[0u64] as &[u64], &[0, 8], &[0, 2, 8], &[0, 1, 2, 5]] {
        assert_eq!(opened(goals, &[0; 9]), None);
        assert_eq!(opened(goals, &[1_834_561; 9]), Some(Refusal::at_cell(5, 0)));
    }
}

#[test]
fn every_call_that_takes_goals_judges_27() {
    let goals = Goals::named(&[8, 0]);
    let fault = Refusal::plain(27);
    let job = Job { goals, ..job(1, 1, 1, 0) };
    let (mut table, mut path, mut moves) = (opening(1), vec![5; 9], vec![9; 288]);
    let mut state = State { current: 0, u: 0, length: 1 };
    // Also where the cart stands at one of them, and where the path has the other.
    path[0] = 8;
    assert_eq!(decide(&job, &mut state, &mut table, &mut path, &mut moves, 0), Answer::Refused(fault));
    assert_eq!(trial(&job, START, &mut table, &mut path, u64::MAX), Err(Halt::Refused(fault)));
    let mut reports = [Counts::default(); 1];
    let ran = run(&job, START, 1, &mut table, &mut path, &mut reports, u64::MAX);
    assert_eq!(ran, Err(Halt::Refused(fault)));
    assert_eq!(opening_table(3, 3, &goals, 1, &FLOOR, &mut table), Err(fault));
    assert_eq!(table_file::write(3, 3, &goals, 1, &FLOOR, &table, &mut [0; 99]), Err(fault));
    assert_eq!(table_file::read(3, 3, &goals, 1, &FLOOR, &[], &mut table), Err(fault));
    assert_eq!(table, opening(1));
}

#[test]
fn figures_and_distances_are_of_the_nearest_goal() {
    let mut table = [7; 9];
    assert_eq!(opening_table(3, 3, &Goals::named(&[0, 8]), 1, &FLOOR, &mut table), Ok(()));
    assert_eq!(table, [0, 10, 20, 10, 14, 10, 20, 10, 0]);
    let distance = distances(&Floor::new(3, 3, &FLOOR), &[0, 8]);
    let worked = [(0, 0), (1, 10), (2, 20), (5, 10), (6, 20), (7, 10), (8, 0)];
    assert!(worked.iter().all(|&(cell, expected)| distance[cell] == expected));
    assert_eq!(opened(&[0, 8], &table), None);
    table[6] = 21;
    assert_eq!(opened(&[0, 8], &table), Some(Refusal::at_cell(7, 6)));
    // What was learned for one bench is too high when a nearer one opens, and never when one closes.
    let learned = [0, 10, 20, 10, 14, 30, 60, 50, 40];
    assert_eq!(opened(&[0], &learned), None);
    assert_eq!(opened(&[0, 8], &learned), Some(Refusal::at_cell(7, 5)));
    assert_eq!(opened(&[0], &[0, 10, 20, 10, 14, 10, 20, 10, 0]), None);
}

#[test]
fn number_6_where_no_goal_can_be_reached() {
    let opened = |floor: &[u8], goals: &[u64]| {
        let job = Job { width: 5, height: 1, goals: Goals::named(goals), floor, ..job(1, 1, 1, 0) };
        open(&job, 2, &[0; 5]).err()
    };
    assert_eq!(opened(&[0, 1, 0, 1, 0], &[0, 4]), Some(Refusal::plain(6)));
    assert_eq!(opened(&[0, 1, 0, 0, 0], &[0, 4]), None);
    assert_eq!(opened(&[0, 0, 0, 1, 0], &[0, 4]), None);
    assert_eq!(opened(&[0, 1, 0, 0, 0], &[0]), Some(Refusal::plain(6)));
}

/// A decision on one row of seven with the benches 0 and 6 at its ends, from the opening table or one of zeros: the answer, the
/// state after it, and the moves.
fn in_a_row(current: u64, path: &[u16], depth: u64, quota: u64, zeros: bool) -> (Answer, State, Vec<u8>) {
    let goals = Goals::named(&[0, 6]);
    let job = Job { width: 7, height: 1, goals, depth, p: 1, q: 1, quota, floor: &[0; 7] };
    let mut table = vec![0; 7];
    if !zeros {
        opening_table(7, 1, &goals, 1, &[0; 7], &mut table).unwrap();
    }
    let mut state = State { current, u: 0, length: path.len() as u64 };
    let (mut list, mut moves) = (vec![0; 7], vec![9; 288]);
    list[..path.len()].copy_from_slice(path);
    let answer = decide(&job, &mut state, &mut table, &mut list, &mut moves, 0);
    let count = moves.iter().position(|&way| way == 9).unwrap();
    (answer, state, moves[..count].to_vec())
}

#[test]
fn the_last_ring_is_the_nearest_goals() {
    let forward = |target, rise, moves| Answer::Forward { target, rise, moves };
    let at = |current, u| State { current, u, length: 1 };
    assert_eq!(in_a_row(2, &[], 8, 1_000, false), (forward(0, 0, 2), at(0, 0), vec![6, 6]));
    assert_eq!(in_a_row(4, &[], 8, 1_000, false), (forward(6, 0, 2), at(6, 0), vec![2, 2]));
    assert_eq!(in_a_row(3, &[], 8, 1_000, true), (forward(0, 30, 3), at(0, 30), vec![6, 6, 6]));
    assert_eq!(in_a_row(3, &[], 2, 1_000, false), (forward(1, 0, 2), at(1, 0), vec![6, 6]));
}

#[test]
fn arrived_8_and_9_are_of_any_goal() {
    let state = |current, length| State { current, u: 0, length };
    assert_eq!(in_a_row(6, &[], 1, 0, false), (Answer::Arrived, state(6, 0), vec![]));
    assert_eq!(in_a_row(6, &[5], 1, 0, false), (Answer::Arrived, state(6, 1), vec![]));
    let fault = Answer::Refused(Refusal::plain(8));
    assert_eq!(in_a_row(4, &[6], 1, 0, false), (fault, state(4, 1), vec![]));
    // From 5 the last ring is that of 6 beside it: 4 is on it, 3 isn't, though it is as far as the depth.
    let backed_out = Answer::BackedOut { target: 5, rise: 20, moves: 1 };
    assert_eq!(in_a_row(4, &[5], 2, 0, true), (backed_out, state(5, 0), vec![2]));
    assert_eq!(in_a_row(3, &[5], 2, 0, true), (fault, state(3, 1), vec![]));

    let in_a_pocket = |floor: &[u8], goals: &[u64]| {
        let goals = Goals::named(goals);
        let job = Job { width: 4, height: 1, goals, depth: 8, floor, ..job(1, 1, 1, 1_000) };
        let mut state = State { current: 3, u: 0, length: 0 };
        decide(&job, &mut state, &mut [0, 0, 0, 10], &mut [0; 4], &mut [0; 288], 0)
    };
    assert_eq!(in_a_pocket(&[0, 0, 1, 0], &[0, 1]), Answer::Refused(Refusal::plain(9)));
    let forward = Answer::Forward { target: 2, rise: 0, moves: 1 };
    assert_eq!(in_a_pocket(&[0, 1, 0, 0], &[0, 2]), forward);
}

/// Runs a job of rows from its opening table, or from a table that is given: its reports and the table that it leaves.
fn run_on(rows: &[&str], start: u64, goals: &[u64], table: Option<&[u32]>) -> (Vec<[u64; 4]>, Vec<u32>) {
    let floor = bytes(rows);
    let (width, height, goals) = (rows[0].len() as u64, rows.len() as u64, Goals::named(goals));
    let job = Job { width, height, goals, depth: 1, p: 1, q: 1, quota: 1_000_000, floor: &floor };
    let mut filled = vec![0; floor.len()];
    opening_table(width, height, &goals, 1, &floor, &mut filled).unwrap();
    let mut table = table.map_or(filled, <[u32]>::to_vec);
    let mut reports = [Counts::default(); 100];
    let ran = run(&job, start, 100, &mut table, &mut vec![0; floor.len()], &mut reports, u64::MAX).unwrap();
    assert!(ran.settled);
    let counts = |report: &Counts| [report.decisions, report.learned, report.kept, report.travel];
    (reports[..ran.trials].iter().map(counts).collect(), table)
}

#[test]
fn a_cart_learns_which_bench_is_nearer() {
    // By its opening figures bench 0 is the nearer one from 6, 20 and 24; behind the wall it is 60 away, and bench 5 is 30.
    let (reports, table) = run_on(&["...", "@@.", "..."], 6, &[0, 5], None);
    assert_eq!(reports, [[3, 10, 30, 30], [3, 6, 30, 30], [3, 0, 30, 30]]);
    assert_eq!(table, [0, 10, 10, 10, 10, 0, 30, 20, 10]);

    // Bench 3 is 20 away by its opening figure and 80 in truth, bench 12 is 34 away by both.
    let rows = ["....", ".@@@", "....", "...."];
    assert_eq!([cost(&rows, 11, 3), cost(&rows, 11, 12)], [80, 34]);
    let (reports, table) = run_on(&rows, 11, &[3, 12], None);
    assert_eq!(reports, [[3, 14, 34, 34], [3, 0, 34, 34]]);
    assert_eq!(run_on(&rows, 11, &[3], Some(&table)).0.last(), Some(&[8, 0, 80, 80]));

    // Bench 4 is 20 away by its opening figure and 100 in truth, bench 20 is 48 away by both.
    let rows = [".....", ".@@@@", ".....", ".....", "....."];
    assert_eq!([cost(&rows, 14, 4), cost(&rows, 14, 20)], [100, 48]);
    let (reports, table) = run_on(&rows, 14, &[4, 20], None);
    assert_eq!(reports, [[4, 28, 48, 48], [5, 20, 54, 54], [4, 8, 48, 48], [4, 0, 48, 48]]);
    assert_eq!([table[12], table[13], table[14], table[19]], [28, 38, 48, 44]);
    // Bench 4 closes: nothing is left to learn. Bench 20 closes: what was learned is sound, and the cart learns on.
    assert_eq!(run_on(&rows, 14, &[20], Some(&table)).0, [[4, 0, 48, 48]]);
    let (reports, alone) = run_on(&rows, 14, &[4], Some(&table));
    assert_eq!(reports.last(), Some(&[10, 0, 100, 100]));
    // Bench 20 opens again: that table is refused.
    let goals = Goals::named(&[4, 20]);
    let floor = bytes(&rows);
    let job = Job { width: 5, height: 5, goals, floor: &floor, ..job(1, 1, 1, 0) };
    assert_eq!(open(&job, 14, &table).err(), None);
    assert_eq!(open(&job, 14, &alone).err(), Some(Refusal::at_cell(7, 5)));
}

/// The worked records of a two-bench table and a trailer of edition 2, of which a part may be another.
fn file_of_two(spoil: impl FnOnce(&mut Vec<u8>)) -> Vec<u8> {
    let mut file = vec![0, 6, 0, 0, 0, 30, 0, 7, 0, 0, 0, 20];
    file.extend([3, 3, 2, 0, 0, 0, 0, 5, 255, 255, 255, 255, 1, 2, 0, 2, 0, 0, 0, 36]);
    file.extend(b"PDLT");
    spoil(&mut file);
    file
}

#[test]
fn a_file_of_several_goals() {
    let table = [0, 10, 10, 10, 10, 0, 30, 20, 10];
    let goals = Goals::named(&[0, 5]);
    let mut file = [9; 40];
    assert_eq!(table_file::write(3, 3, &goals, 1, &FLOOR, &table, &mut file), Ok(36));
    assert_eq!(file[..36], file_of_two(|_| {}));
    assert_eq!(file[36..], [9; 4]);
    let refusal = table_file::write(3, 3, &goals, 1, &FLOOR, &table, &mut file[..35]);
    assert_eq!(refusal, Err(Refusal::plain(17)));
    // For one bench the opening figures are higher: the table can't be written for it.
    let refusal = table_file::write(3, 3, &one(0), 1, &FLOOR, &table, &mut file);
    assert_eq!(refusal, Err(Refusal::at_cell(16, 2)));

    let mut four = [0; 24];
    assert_eq!(
        table_file::write(2, 2, &Goals::named(&[0, 1, 2, 3]), 16, &[0; 4], &[0; 4], &mut four),
        Ok(24)
    );
    assert_eq!(four[..14], [2, 2, 4, 0, 0, 0, 0, 1, 0, 2, 0, 3, 16, 2]);

    let read = |file: &[u8], goals: &[u64]| {
        let mut again = [7; 9];
        let read = table_file::read(3, 3, &Goals::named(goals), 1, &FLOOR, file, &mut again);
        assert_eq!(again == table, read.is_ok());
        assert_eq!(again == [7; 9], read.is_err());
        read.err().map(|refusal| refusal.number)
    };
    assert_eq!(read(&file_of_two(|_| {}), &[0, 5]), None);
    assert_eq!(read(&file_of_two(|file| drop(file.splice(0..0, [1, 2, 3]))), &[0, 5]), Some(28));
    for goals in [&[0u64] as &[u64], &[5], &[0, 8], &[1, 5], &[0, 5, 8]] {
        assert_eq!(read(&file_of_two(|_| {}), goals), Some(14));
    }
    // Width, height, goal count, the places, used and unused, and q.
    for at in [12, 13, 14, 16, 17, 18, 19, 20, 21, 22, 23, 24] {
        assert_eq!(read(&file_of_two(|file| file[at] ^= 1), &[0, 5]), Some(14), "{at}");
    }
    // The zero byte, edition, count, back and letters; and a file that is cut.
    for at in [15, 25, 26, 27, 28, 29, 30, 31, 32, 33, 34, 35] {
        assert_eq!(read(&file_of_two(|file| file[at] ^= 1), &[0, 5]), Some(13), "{at}");
    }
    for edition in [0, 1, 3, 255] {
        assert_eq!(read(&file_of_two(|file| file[25] = edition), &[0, 5]), Some(13));
    }
    for length in 0..36 {
        assert_eq!(read(&file_of_two(|_| {})[36 - length..], &[0, 5]), Some(13));
    }
    // `back` as edition 1 has it, and an edition 1 trailer of the first goal.
    assert_eq!(read(&file_of_two(|file| file[31] = 28), &[0, 5]), Some(13));
    let first = file_of_two(|file| {
        drop(file.splice(14..24, [0, 0]));
        (file[17], file[23]) = (1, 28);
    });
    assert_eq!(table_file::check_trailer(&first), Ok(()));
    assert_eq!(table_file::find_records(&first), &first[..12]);
    assert_eq!(read(&first, &[0, 5]), Some(14));
}

#[test]
fn numbers_3_and_1() {
    for (depth, p, q) in [(0, 1, 1), (9, 1, 1), (1, 2, 1)] {
        assert_eq!(open(&job(depth, p, q, 0), START, &opening(1)).err(), Some(Refusal::plain(3)));
    }
    let wide = Job { width: 65, ..job(1, 1, 1, 0) };
    assert_eq!(open(&wide, START, &opening(1)).err(), Some(Refusal::plain(1)));
}

/// The worked run's records, and the trailers of both editions for them.
const RECORDS: [u8; 24] = [
    0x00, 0x05, 0x00, 0x00, 0x00, 0x1E, 0x00, 0x06, 0x00, 0x00, 0x00, 0x3C, 0x00, 0x07, 0x00, 0x00, 0x00,
    0x32, 0x00, 0x08, 0x00, 0x00, 0x00, 0x28,
];
const FIRST_TRAILER: [u8; 16] =
    [0x03, 0x03, 0x00, 0x00, 0x01, 0x01, 0x00, 0x04, 0x00, 0x00, 0x00, 0x28, 0x50, 0x44, 0x4C, 0x54];
const TRAILER: [u8; 24] = [
    0x03, 0x03, 0x01, 0x00, 0x00, 0x00, 0xFF, 0xFF, 0xFF, 0xFF, 0xFF, 0xFF, 0x01, 0x02, 0x00, 0x04, 0x00,
    0x00, 0x00, 0x30, 0x50, 0x44, 0x4C, 0x54,
];

#[test]
fn the_run_and_its_table_file() {
    let (mut table, mut path) = (opening(1), vec![0; 9]);
    let mut reports = vec![Counts { decisions: 9, ..Counts::default() }; 10];
    let ran = run(&job(1, 1, 1, 0), START, 10, &mut table, &mut path, &mut reports, u64::MAX);
    assert_eq!(ran, Ok(Ran { trials: 2, settled: true }));
    assert_eq!(reports[0], Counts { decisions: 22, learned: 84, kept: 60, travel: 180 });
    assert_eq!(reports[1], Counts { decisions: 6, learned: 0, kept: 60, travel: 60 });
    assert_eq!(reports[2].decisions, 9);

    let mut file = vec![0xEE; 50];
    let length = table_file::write(3, 3, &one(0), 1, &FLOOR, &table, &mut file);
    assert_eq!(length, Ok(48));
    assert_eq!(file[..48], [RECORDS, TRAILER].concat());
    assert_eq!(file[48..], [0xEE; 2]);
    for file in [[RECORDS, TRAILER].concat(), [&RECORDS[..], &FIRST_TRAILER].concat()] {
        assert_eq!(table_file::find_records(&file), RECORDS);
        assert_eq!(table_file::check_trailer(&file), Ok(()));
        let mut again = vec![0; 9];
        assert_eq!(table_file::read(3, 3, &one(0), 1, &FLOOR, &file, &mut again), Ok(()));
        assert_eq!(again, table);
    }
}

/// The worked table's files of both editions, with bytes ahead.
fn files_after(older: &[u8]) -> [Vec<u8>; 2] {
    [[older, &RECORDS, &FIRST_TRAILER].concat(), [older, &RECORDS, &TRAILER].concat()]
}

#[test]
fn number_28_stands_between_13_and_14() {
    let read = |file: &[u8], goals: &[u64], q: u64| {
        let mut table = [7; 9];
        let read = table_file::read(3, 3, &Goals::named(goals), q, &FLOOR, file, &mut table);
        assert_eq!(table == [7; 9], read.is_err());
        read.err()
    };
    let [of_28, of_13, of_14] = [28, 13, 14].map(|number| Some(Refusal::plain(number)));
    for (at, file) in files_after(&[]).iter().enumerate() {
        assert_eq!(read(file, &[0], 1), None);
        assert_eq!(read(file, &[1], 1), of_14);
        for older in [&[0u8] as &[u8], &[9; 6], &RECORDS, b"PDLT", &files_after(&[])[0], &files_after(&[])[1]]
        {
            let after = &files_after(older)[at];
            assert_eq!(read(after, &[0], 1), of_28);
            // The trailer's check and the finder pass it.
            assert_eq!(table_file::check_trailer(after), Ok(()));
            assert_eq!(table_file::find_records(after), RECORDS);
            // Before another job and before a faulty record; after a faulty trailer and after a faulty job.
            assert_eq!(read(after, &[1], 1), of_28);
            assert_eq!(read(after, &[0], 2), of_28);
            let mut faulty = after.clone();
            faulty[older.len() + 1] = 9;
            assert_eq!(read(&faulty, &[0], 1), of_28);
            assert_eq!(read(&faulty[older.len()..], &[0], 1), Some(Refusal::at_record(18, 0)));
            faulty.push(0);
            assert_eq!(read(&faulty, &[0], 1), of_13);
            assert_eq!(read(after, &[3], 1), Some(Refusal::plain(4)));
            assert_eq!(read(after, &[0, 0], 1), Some(Refusal::plain(27)));
            assert_eq!(read(after, &[0], 17), Some(Refusal::plain(3)));
        }
    }
    // One record fewer than there are: the first is ahead of the table.
    let [mut first, mut file] = files_after(&[]);
    (first[31], first[35]) = (3, 34);
    (file[39], file[43]) = (3, 42);
    assert_eq!([read(&first, &[0], 1), read(&file, &[0], 1)], [of_28, of_28]);
}

#[test]
fn a_file_is_renewed() {
    let [first, file] = files_after(&[]);
    assert_eq!((first.len(), file.len()), (40, 48));
    for older in [&[] as &[u8], &[0], b"older", &RECORDS, &first, &file] {
        for old in files_after(older) {
            let mut buffer = [0xEE; 50];
            assert_eq!(table_file::renew(&old, &mut buffer), Ok(48));
            assert_eq!((&buffer[..48], &buffer[48..]), (&file[..], &[0xEE; 2][..]));
            assert_eq!(table_file::renew(&old, &mut buffer[..48]), Ok(48));
            let mut short = [0xEE; 47];
            assert_eq!(table_file::renew(&old, &mut short), Err(Refusal::plain(17)));
            assert_eq!(short, [0xEE; 47]);
            assert_eq!(renew::answer(&old), Output::plain(file.clone()));
        }
    }
}

#[test]
fn a_renewal_judges_13_and_17_alone() {
    let refused = Output { out: Vec::new(), err: b"refused 13\n".to_vec() };
    let none = |file: &[u8], room: usize| {
        assert_eq!(table_file::renew(file, &mut vec![0; room]), Err(Refusal::plain(13)));
        assert_eq!(renew::answer(file), refused);
    };
    let [first, file] = files_after(&[]);
    for room in [0, 99] {
        (0..40).for_each(|length| none(&first[40 - length..], room));
        (0..48).for_each(|length| none(&file[48 - length..], room));
        // Edition, count, back and letters of the first; of the other also the zero byte.
        for at in 29..40 {
            none(&[&first[..at], &[first[at] ^ 8], &first[at + 1..]].concat(), room);
        }
        for at in (37..48).chain([27]) {
            none(&[&file[..at], &[file[at] ^ 8], &file[at + 1..]].concat(), room);
        }
        none(b"type octile\nheight 3\nwidth 3\nmap\n", room);
    }
    // Nothing else is judged: whatever the records and the trailer say of cells, sides, goals and q stands as it stood.
    let lettered = |bytes: &[u8]| [bytes, b"PDLT"].concat();
    let renewed = |file: &[u8]| renew::answer(&[b"older", file].concat());
    let odd_records = [255, 255, 255, 255, 255, 255, 0, 0, 0, 0, 0, 0];
    let odd_trailer = [0, 255, 7, 0, 9, 9, 0, 0, 9, 9, 255, 254, 0, 2, 0, 2, 0, 0, 0, 36];
    let odd = lettered(&[&odd_records[..], &odd_trailer].concat());
    assert_eq!(renewed(&odd), Output::plain(odd));
    let odd_first = lettered(&[0, 255, 255, 254, 0, 1, 0, 0, 0, 0, 0, 16]);
    let now = lettered(&[0, 255, 1, 0, 255, 254, 255, 255, 255, 255, 255, 255, 0, 2, 0, 0, 0, 0, 0, 24]);
    assert_eq!(renewed(&odd_first), Output::plain(now));
}

#[test]
fn the_longest_table_is_renewed() {
    let records = [1, 2, 3, 4, 5, 6].repeat(65_535);
    let first = [&records[..], &[3, 3, 0, 1, 16, 1, 255, 255, 0, 6, 0, 10], b"PDLT"].concat();
    let file = renew::answer(&first).out;
    assert_eq!(file.len(), 393_234);
    assert_eq!(file[..393_210], records);
    assert_eq!(file[393_210..393_224], [3, 3, 1, 0, 0, 1, 255, 255, 255, 255, 255, 255, 16, 2]);
    assert_eq!(file[393_224..393_230], [255, 255, 0, 6, 0, 18]);
    assert_eq!(renew::answer(&[&[0][..], &first].concat()).out, file);
    assert_eq!(renew::answer(&first[1..]).err, b"refused 13\n");
    assert_eq!(renew::answer(&file[1..]).err, b"refused 13\n");
}

const TEXT: &str = "type octile\nheight 3\nwidth 3\nmap\n...\n@@.\n...\n";

fn aisle(line: &str) -> String {
    String::from_utf8(aisle::answer(format!("{line}\n{TEXT}").as_bytes())).unwrap()
}

#[test]
fn the_program_aisle() {
    let worked = "262266220466220066 22 84 60 180\n220066 6 0 60 60\nsettled 2\n";
    assert_eq!(aisle("6 0 1 1 1 0 10"), worked);
    assert_eq!(aisle("0000006 00 1 1 1 000 10"), worked);
    assert_eq!(aisle("6 6"), "- 0 0 0 0\nsettled 1\n");
    assert_eq!(aisle("6 0 1 1 1 0 1"), "262266220466220066 22 84 60 180\nunsettled 1\n");
    assert_eq!(aisle("6 0 1 1"), "refused 3\n");
    assert_eq!(aisle("6  0"), "refused 3\n");
    assert_eq!(aisle("6 00000000"), "refused 3\n");
    assert_eq!(aisle("6 0 9"), "refused 3\n");
    assert_eq!(aisle("6 3"), "refused 4\n");
    assert_eq!(aisle("9 0"), "refused 4\n");
    assert_eq!(aisle::answer(b"6 0"), b"refused 3\n");
    assert_eq!(aisle::answer(b"6 0\n"), b"refused 11\n");
    assert_eq!(aisle::answer(format!("6 3\n{TEXT}x").as_bytes()), b"refused 12 8\n");
    assert_eq!(aisle::answer(format!("6 3\n{}", TEXT.replace("@@.", "@W.")).as_bytes()), b"refused 12 6\n");
    assert_eq!(aisle::answer(format!("6 3\n{}", TEXT.replace("@@.", "@S.")).as_bytes()), b"refused 4\n");
    // Through the slow cell 4 by 10, 20, 20 and 10, since the walls beside it close the diagonals.
    let through = aisle::answer(format!("6 0 8 1 1 1000000 2\n{}", TEXT.replace("@@.", "@S@")).as_bytes());
    assert_eq!(String::from_utf8(through).unwrap(), "2006 1 40 60 60\n2006 1 0 60 60\nsettled 2\n");
}

fn call(input: &str) -> String {
    String::from_utf8(calls::answer(input.as_bytes())).unwrap()
}

#[test]
fn the_program_calls() {
    let floor = "9 0 0 0 1 1 0 0 0 0";
    let table = "9 0 10 20 10 14 24 20 24 28";
    assert_eq!(call(&format!("1 3 3 6 1 0 1 1 1 0 {floor} {table}\n")), "0 0 0\n");
    assert_eq!(call(&format!("1 3 3 6 1 0 1 1 1 0 {floor} 9 0 10 20 10 14 24 20 51 28")), "7 1 7\n");
    assert_eq!(call(&format!("10 3 3 1 0 1 {floor} 9 7 7 7 7 7 7 7 7 7")), format!("0 0 0 {table}\n"));
    let ran =
        call(&format!("4 3 3 6 1 0 1 1 1 0 10 {floor} {table} 9 8 8 8 8 8 8 8 8 8 10{}", " 5".repeat(40)));
    let kept = "9 0 10 20 10 14 30 60 50 40 9 6 7 8 5 2 1 8 8 8 10 22 84 60 180 6 0 60 60";
    assert_eq!(ran, format!("0 0 0 2 1 {kept}{}\n", " 5".repeat(32)));
    let nines = " 9".repeat(288);
    let decided =
        call(&format!("2 3 3 6 0 0 1 0 2 1 1 1000 0 {floor} {table} 9 8 8 8 8 8 8 8 8 8 288{nines}"));
    let after = "9 0 10 20 10 14 24 48 24 28 9 6 8 8 8 8 8 8 8 8 288 2 2";
    assert_eq!(decided, format!("1 0 0 0 8 28 2 8 28 1 {after}{}\n", " 9".repeat(286)));
    let text = "116 121 112 101 32 111 99 116 105 108 101 10 104 101 105 103 104 116 32 49 10 119 105 100 116 104 32 51 10 109 97 112 10 46 83 64 10";
    assert_eq!(call(&format!("11 3 1 3 0 2 3 38{}", " 7".repeat(38))), format!("0 0 0 37 38 {text} 7\n"));
    assert_eq!(
        call(&format!("11 3 1 3 0 2 3 36{}", " 7".repeat(36))),
        format!("17 0 0 0 36{}\n", " 7".repeat(36))
    );
    assert_eq!(call("11 3 1 2 0 2 2 7 7"), "1 0 0 0 2 7 7\n");
    assert_eq!(call(&format!("5 37 {text} 4 9 9 9 9")), "0 0 0 3 1 4 0 2 1 9\n");
    assert_eq!(call("8 16 3 3 0 0 1 1 0 0 0 0 0 16 80 68 76 84"), "0\n");
    assert_eq!(call("9 16 3 3 0 0 1 1 0 0 0 0 0 16 80 68 76 84"), "0 0 0\n");
    assert_eq!(call("9 15 3 0 0 1 1 0 0 0 0 0 16 80 68 76 84"), "13 0 0\n");
    let renewed = "3 3 1 0 0 2 255 255 255 255 255 255 1 2 0 0 0 0 0 24 80 68 76 84";
    let nines = " 9".repeat(25);
    assert_eq!(
        call(&format!("12 18 7 7 3 3 0 2 1 1 0 0 0 0 0 16 80 68 76 84 25{nines}")),
        format!("0 0 0 24 25 {renewed} 9\n")
    );
    assert_eq!(call(&format!("12 24 {renewed} 2 5 6")), "17 0 0 0 2 5 6\n");
    assert_eq!(call("12 0 2 5 6"), "13 0 0 0 2 5 6\n");
    assert_eq!(call("16 4 54 32 48 10 7 9 9 9 9 9 9 9"), "0 0 0 6 7 54 32 48 32 49 10 9\n");
    assert_eq!(call("16 6 54 32 48 32 56 10 6 9 9 9 9 9 9"), "0 0 0 6 6 54 32 48 32 56 10\n");
    assert_eq!(call("16 4 54 32 48 10 5 9 9 9 9 9"), "17 0 0 0 5 9 9 9 9 9\n");
    assert_eq!(call("16 4 54 32 48 13 2 5 6"), "3 0 0 0 2 5 6\n");
    assert_eq!(call(&format!("1 3 3 6 2 0 8 1 1 1 0 {floor} 9 0 10 20 10 14 30 60 50 40")), "7 1 5\n");
    assert_eq!(call(&format!("1 3 3 6 0 1 1 1 0 {floor} {table}")), "27 0 0\n");
    assert_eq!(call(&format!("10 3 3 8 0 1 2 5 4 4 4 4294967295 1 {floor} 1 7")), "1 0 0 1 7\n");
    assert_eq!(
        call(&format!("10 3 3 8 0 1 2 5 4 4 4 4294967295 1 {floor} {table}")),
        format!("27 0 0 {table}\n")
    );
    assert_eq!(call(&format!("10 3 3 9 0 1 2 5 4 4 4 4 4 1 {floor} {table}")), "malformed\n");
    for malformed in [
        "",
        "\n",
        "0",
        "11",
        "12",
        "12 0",
        "13 0 0",
        "14 0 0",
        "15 0 0",
        "16",
        "16 0",
        "16 0 0 0",
        "16 1 256 0",
        "17 0 0",
        "8",
        "8 1",
        "8 1 256",
        "8 0 0",
        "8\t0",
        "8 -0",
        "8 4294967296",
        "9 32769",
    ] {
        assert_eq!(call(malformed), "malformed\n");
    }
}

#[test]
fn a_limit_of_decisions_is_told_apart_from_a_refusal() {
    let halt = trial(&job(1, 1, 1, 28), START, &mut opening(1), &mut [0; 9], 3);
    assert_eq!(halt, Err(Halt::TooLong));
}

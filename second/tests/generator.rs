//! The generator and the promises: every number occurs, nothing panics, and demand 3 and the rest hold on random jobs.

use second::make::dice::Dice;
use second::make::{input, program_of, Program, PROGRAMS};
use second::tally::Tally;
use second::{aisle, calls, keep_depth, promises, renew};

#[test]
fn every_number_and_call_occurs() {
    let mut tally = Tally::default();
    for seed in 0..3_000 {
        let program = program_of(seed);
        let input = input(program, seed);
        tally.add(program, &input, &program.answer(&input));
    }
    assert_eq!(tally.missing(), Vec::<String>::new());
    // About a third of the floors have slow cells.
    assert!((700..1_100).contains(&tally.slow), "{}", tally.slow);
    // Of the calls that take goals, about four in ten name several.
    assert!((500..750).contains(&tally.several), "{}", tally.several);
    // Files that are read stay more than those with bytes ahead.
    let sum = |counts: [u64; 2]| counts.iter().sum::<u64>();
    assert!(sum(tally.read) > sum(tally.by_28) && tally.by_28.iter().all(|&count| count > 5));
    // And on some the fewest moves are others than the lowest cells alone would give.
    let woven = [tally.woven_decisions, tally.woven_aisle].concat();
    assert!(woven.iter().all(|&count| count > 5), "{woven:?}");
}

#[test]
fn a_seed_always_gives_the_same_input() {
    for seed in 0..50 {
        for program in PROGRAMS {
            assert_eq!(input(program, seed), input(program, seed));
        }
    }
}

#[test]
fn no_input_is_too_strange() {
    for seed in 0..3_000u64 {
        let mut dice = Dice::new(seed);
        let program = program_of(seed);
        let mut bytes = input(program, seed);
        for _ in 0..dice.from_to(1, 4) {
            let at = dice.index(bytes.len() + 1);
            let end = (at + dice.index(9)).min(bytes.len());
            let new: Vec<u8> = (0..dice.below(9)).map(|_| dice.pick(b"0123456789 \n\r-.@GS\0\xFF")).collect();
            bytes.splice(at..end, new);
        }
        // Ending without a panic is all that is asked; a long job may be given up.
        let _ = match program {
            Program::Aisle => aisle::answer_within(&bytes, 5_000),
            Program::Calls => calls::answer_within(&bytes, 5_000),
            Program::Renew => Some(renew::answer(&bytes).out),
            Program::KeepDepth => Some(keep_depth::answer(&bytes).out),
        };
    }
}

#[test]
fn demand_3_holds_on_random_jobs() {
    // More of them: `second promises`.
    let accepted = promises::check_seeds(0, 500).unwrap();
    assert!(accepted > 300);
}

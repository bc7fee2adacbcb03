//! Inputs of the program `aisle`: a line and a floor text, good and spoiled.

use super::dice::Dice;
use super::jobs;
use super::lines;
use super::texts;
use super::weaving;

pub fn input(dice: &mut Dice) -> Vec<u8> {
    let mut kit = match dice.weighted(&[37, 54, 9]) {
        0 => jobs::long_kit(dice),
        1 => jobs::kit(dice),
        _ => weaving::kit(dice),
    };
    kit.keep_nearest_goal();
    if dice.chance(4) {
        kit.goals = vec![kit.start];
    }
    let mut numbers = vec![
        kit.start as u64,
        kit.goals[0] as u64,
        kit.depth,
        kit.p,
        kit.q,
        kit.quota,
        if dice.chance(95) { kit.trials.min(60) } else { kit.trials },
    ];
    let mut text = texts::text(&kit.floor, kit.width, kit.height, dice);
    let mut length = dice.pick(&[2, 3, 5, 6, 7, 7, 7, 7]);
    let mut spoil_words = false;
    let mut spoil_line = false;
    for _ in 0..[0, 1, 2, 3][dice.weighted(&[50, 25, 16, 9])] {
        match dice.below(8) {
            0 => {
                let blocked = kit.blocked_cells();
                let cells = kit.cells() as u64;
                numbers[dice.index(2)] = if blocked.is_empty() || dice.chance(40) {
                    dice.pick(&[cells, cells + 1, 65_536, 9_999_999])
                } else {
                    dice.pick(&blocked) as u64
                };
            }
            1 => {
                let which = dice.from_to(2, 6) as usize;
                numbers[which] = match which {
                    2 => dice.pick(&[0, 1, 8, 9, 257, 9_999_999]),
                    3 => dice.pick(&[0, numbers[4] + 1, numbers[4], 17]),
                    4 => dice.pick(&[0, numbers[3].saturating_sub(1), 16, 17]),
                    5 => dice.pick(&[0, 1_000_000, 1_000_001, 9_999_999]),
                    _ => dice.pick(&[0, 1, 1_000, 1_000, 1_001]),
                };
            }
            2 => length = dice.pick(&[0, 1, 4, 8, 2, 3, 5, 6]),
            3 => spoil_words = true,
            4 => spoil_line = true,
            5 => {
                let short = dice.from_to(1, 9_000) as usize;
                text.resize(
                    text.len() + dice.pick(&[short, short, short, 70_000, 300_000]),
                    dice.pick(b".@\nx"),
                );
            }
            _ => texts::spoil(&mut text, dice),
        }
    }
    numbers.resize(length, 1);
    let mut words: Vec<String> = numbers.iter().map(u64::to_string).collect();
    if dice.chance(10) {
        lines::zeros_in_front(&mut words, dice);
    }
    if spoil_words {
        lines::spoil_one_word(&mut words, dice);
    }
    let mut input = lines::whole(&words);
    if spoil_line {
        lines::spoil_whole_line(&mut input, dice);
    }
    if dice.chance(99) {
        input.extend(text);
    }
    input
}

//! The self-check of demand 3: its promises of figures, decisions, kept cost and travel, tried on random jobs of one goal
//! and of several; and what is promised of settling, of distances, of goals that close, and of table files and their renewal.

use crate::checks::{Goals, Job};
use crate::decision::{decide, Answer, State};
use crate::floor::{is_free_byte, Floor, FREE, SLOW};
use crate::lookahead::MOST_MOVES;
use crate::make::dice::Dice;
use crate::make::files::Draft;
use crate::make::jobs::{self, Kit};
use crate::opening::{self, distances, NO_WAY};
use crate::refusal::Refusal;
use crate::settling::{self, left_to_learn};
use crate::table_file;
use crate::trial::{Cart, Counts};

/// A trial that takes longer than this in a self-check is passed over; it says nothing against the promise.
pub const MOST_DECISIONS: u64 = 20_000;

/// Tries the seeds; answers how many jobs were accepted, or what went wrong first.
pub fn check_seeds(from: u64, count: u64) -> Result<u64, String> {
    let mut accepted = 0;
    for seed in from..from.saturating_add(count) {
        let mut dice = Dice::new(seed);
        let kit = if seed % 2 == 0 { jobs::long_kit(&mut dice) } else { jobs::kit(&mut dice) };
        let told = |fault: String| format!("seed {seed}: {fault}");
        if opening::open(&kit.job(), kit.start as u64, &kit.table).is_ok() {
            accepted += 1;
            check_job(&kit).map_err(told)?;
        }
        check_renewal(&kit, &mut dice).map_err(told)?;
    }
    Ok(accepted)
}

pub fn holds(promise: bool, words: &str) -> Result<(), String> {
    if promise {
        Ok(())
    } else {
        Err(words.into())
    }
}

/// Runs an accepted job trial by trial and decision by decision, and tries each promise.
pub fn check_job(kit: &Kit) -> Result<(), String> {
    let job = kit.job();
    let mut table = kit.table.clone();
    let mut path = vec![0u16; kit.cells()];
    check_distances(kit)?;
    check_file(kit, &table)?;
    for _ in 0..kit.trials.min(20) {
        let Some(counts) = check_trial(kit, &job, &mut table, &mut path)? else { break };
        check_file(kit, &table)?;
        if counts.learned == 0 {
            break;
        }
    }
    check_closing(kit, &table)?;
    settling::check(kit)
}

/// One trial; none when it was too long for a self-check.
fn check_trial(kit: &Kit, job: &Job, table: &mut [u32], path: &mut [u16]) -> Result<Option<Counts>, String> {
    let largest = (0..kit.cells()).filter_map(|cell| kit.true_figure(cell)).max().map_or(0, u64::from);
    let k = u128::from(1 + largest / (10 * kit.p));
    let r = left_to_learn(kit, table);

    // The trial once as a whole, and once decision by decision, which must be the same.
    let opened =
        opening::open(job, kit.start as u64, table).map_err(|refusal| format!("refused: {refusal:?}"))?;
    let (mut whole_table, mut whole_path, mut whole_moves) = (table.to_vec(), path.to_vec(), Vec::new());
    let whole = Cart::new(opened).trial(
        &mut whole_table,
        &mut whole_path,
        Some(&mut |mut leg| leg.add_moves(&mut whole_moves)),
        MOST_DECISIONS,
    );
    let Some(whole) = whole else { return Ok(None) };

    let mut counts = Counts::default();
    let mut all_moves = Vec::new();
    let mut state = State { current: kit.start as u64, u: 0, length: 0 };
    loop {
        let current = state.current as usize;
        let mut before = table.to_vec();
        let mut moves = [0u8; MOST_MOVES];
        let (rise, count) = match decide(job, &mut state, table, path, &mut moves, 0) {
            Answer::Arrived => break,
            Answer::Forward { rise, moves, .. } | Answer::BackedOut { rise, moves, .. } => (rise, moves),
            Answer::Stayed { rise } => (rise, 0),
            Answer::Refused(refusal) => return Err(format!("a decision was refused: {refusal:?}")),
        };
        counts.decisions += 1;
        counts.learned += u64::from(rise);
        let (walked, cost) = walk(kit, current, &moves[..count]).ok_or("a move isn't allowed")?;
        holds(walked as u64 == state.current, "the moves don't lead to where the cart then stands")?;
        counts.travel += cost;
        all_moves.extend_from_slice(&moves[..count]);
        holds(u128::from(counts.decisions) < k * (r + 1), "too many decisions")?;
        holds(table[current] >= before[current], "a figure fell")?;
        before[current] = table[current];
        holds(table == before, "another cell's figure changed")?;
        let truth = kit.true_figure(current).ok_or("the cart stands where no way leads from")?;
        holds(table[current] <= truth, "a figure passed the true one")?;
    }
    counts.kept = whole.kept;
    holds(counts == whole, "a trial's counts aren't those of its decisions")?;
    holds(table == whole_table, "a trial's table isn't that of its decisions")?;
    holds(path == whole_path, "a trial's path isn't that of its decisions")?;
    holds(all_moves == whole_moves, "a trial's moves aren't those of its decisions")?;
    holds(kit.goals.contains(&(state.current as usize)), "the moves don't lead to a goal")?;

    let distance = u64::from(kit.distance[kit.start]);
    holds(kit.p * counts.kept <= kit.q * (distance + kit.quota), "the kept way costs too much")?;
    holds(counts.kept >= distance, "the kept way is cheaper than any way")?;
    holds(
        counts.learned > 0 || kit.p * counts.travel <= kit.q * distance,
        "a trial that learned nothing travels too far",
    )?;
    Ok(Some(counts))
}

/// Where the moves lead from a cell and what they cost, found plainly by columns and rows; none when one isn't allowed.
fn walk(kit: &Kit, from: usize, moves: &[u8]) -> Option<(usize, u64)> {
    let byte = |x: i64, y: i64| {
        let on_floor = x >= 0 && y >= 0 && x < kit.width as i64 && y < kit.height as i64;
        on_floor.then(|| kit.floor[y as usize * kit.width + x as usize])
    };
    let (mut x, mut y) = ((from % kit.width) as i64, (from / kit.width) as i64);
    let mut cost = 0;
    for &way in moves {
        let to_x = x + [0, 1, 1, 1, 0, -1, -1, -1][usize::from(way)];
        let to_y = y + [-1, -1, 0, 1, 1, 1, 0, -1][usize::from(way)];
        // Of a diagonal move the whole square is to be free, of a straight one these are its two ends.
        for cell in [(x, y), (to_x, y), (x, to_y), (to_x, to_y)] {
            byte(cell.0, cell.1).filter(|&byte| is_free_byte(byte))?;
        }
        let slow = byte(x, y) == Some(SLOW) || byte(to_x, to_y) == Some(SLOW);
        cost += if way % 2 == 0 { 10 } else { 14 } * if slow { 2 } else { 1 };
        (x, y) = (to_x, to_y);
    }
    Some((y as usize * kit.width + x as usize, cost))
}

/// A table that is sound for some goals is sound where one of them closes, since no distance falls by that.
fn check_closing(kit: &Kit, table: &[u32]) -> Result<(), String> {
    for &closed in kit.goals.iter().filter(|_| kit.goals.len() > 1) {
        let left: Vec<u64> =
            kit.goals.iter().filter(|&&goal| goal != closed).map(|&goal| goal as u64).collect();
        let job = Job { goals: Goals::named(&left), ..kit.job() };
        match opening::open(&job, kit.start as u64, table) {
            Ok(_) | Err(Refusal { number: 6, .. }) => {}
            Err(refusal) => return Err(format!("refused where a goal closes: {refusal:?}")),
        }
    }
    Ok(())
}

/// A distance is the least of those to each goal. Slow cells close no way; they make a distance no less, and at most twice, what it is with them as ordinary free cells.
fn check_distances(kit: &Kit) -> Result<(), String> {
    let floor = Floor::new(kit.width, kit.height, &kit.floor);
    let to_each: Vec<Vec<u32>> = kit.goals.iter().map(|&goal| distances(&floor, &[goal])).collect();
    let nearest = |cell: usize| to_each.iter().map(|distance| distance[cell]).min();
    holds(
        (0..kit.cells()).all(|cell| nearest(cell) == Some(kit.distance[cell])),
        "a distance isn't to the nearest goal",
    )?;
    let ordinary: Vec<u8> = kit.floor.iter().map(|&byte| if byte == SLOW { FREE } else { byte }).collect();
    let ordinary = distances(&Floor::new(kit.width, kit.height, &ordinary), &kit.goals);
    let fits = |(&slow, &plain): (&u32, &u32)| match plain {
        NO_WAY => slow == NO_WAY,
        _ => (plain..=2 * plain).contains(&slow),
    };
    holds(kit.distance.iter().zip(&ordinary).all(fits), "slow cells change a distance too much")
}

/// Reads a file for a kit's job: the verdict, and the table that is left.
fn read(kit: &Kit, file: &[u8]) -> (Result<(), Refusal>, Vec<u32>) {
    let mut table = vec![7u32; kit.cells()];
    let (width, height) = (kit.width as u64, kit.height as u64);
    let verdict = table_file::read(width, height, &kit.goals_as_told(), kit.q, &kit.floor, file, &mut table);
    (verdict, table)
}

/// A file, good or spoiled, that is renewed reads as its last table alone; with bytes ahead it doesn't read itself; and renewed
/// again it is the same.
fn check_renewal(kit: &Kit, dice: &mut Dice) -> Result<(), String> {
    let mut file = Draft::new(kit, dice);
    if dice.chance(50) {
        file.add_older(kit, dice);
    }
    file.spoil(kit, 30, 30, dice);
    let file = file.bytes();
    let renewed = table_file::renewed(&file);
    holds(
        renewed.as_ref().err() == table_file::check_trailer(&file).err().as_ref(),
        "a file is renewed that its trailer's check refuses, or the other way round",
    )?;
    let Ok(renewed) = renewed else { return Ok(()) };
    let back = u32::from_be_bytes([8, 7, 6, 5].map(|before_end| file[file.len() - before_end]));
    let last = &file[file.len() - back as usize..];
    holds(read(kit, &renewed) == read(kit, last), "a renewed file reads differently")?;
    // Where the job itself is at fault an empty file isn't refused by 13 either.
    if last.len() < file.len() && read(kit, b"").0 == Err(Refusal::plain(13)) {
        holds(read(kit, &file).0 == Err(Refusal::plain(28)), "a file with bytes ahead is read")?;
    }
    holds(table_file::renewed(&renewed).as_ref() == Ok(&renewed), "renewed again it is another file")
}

/// A table that can be written reads back the same and writes the same bytes again.
fn check_file(kit: &Kit, table: &[u32]) -> Result<(), String> {
    let (width, height, goals) = (kit.width as u64, kit.height as u64, kit.goals_as_told());
    let mut file = vec![0xAA; 24 + 6 * kit.cells() + 3];
    let Ok(length) = table_file::write(width, height, &goals, kit.q, &kit.floor, table, &mut file) else {
        return Ok(());
    };
    holds(file[length..].iter().all(|&byte| byte == 0xAA), "the writer touched bytes beyond its length")?;
    file.truncate(length);
    let (verdict, again) = read(kit, &file);
    verdict.map_err(|refusal| format!("a written table is refused: {refusal:?}"))?;
    holds(again == table, "a written table reads back differently")?;
    let mut file_again = vec![0u8; length];
    let written = table_file::write(width, height, &goals, kit.q, &kit.floor, &again, &mut file_again);
    holds(written == Ok(length) && file_again == file, "a read table writes other bytes")?;
    check_first_edition(kit, table, &file)
}

/// The same records with a trailer of edition 1 read as the same table where there is one goal, and renew to the file of
/// edition 2; they are refused by 14 where there are several.
fn check_first_edition(kit: &Kit, table: &[u32], now: &[u8]) -> Result<(), String> {
    let records = &now[..now.len() - 24];
    let mut file = records.to_vec();
    file.extend([kit.width as u8, kit.height as u8]);
    file.extend((kit.goals[0] as u16).to_be_bytes());
    file.extend([kit.q as u8, 1]);
    file.extend((records.len() as u16 / 6).to_be_bytes());
    file.extend((records.len() as u32 + 16).to_be_bytes());
    file.extend(b"PDLT");
    let (verdict, again) = read(kit, &file);
    if kit.goals.len() == 1 {
        holds(verdict == Ok(()) && again == table, "an edition 1 file reads differently")?;
        holds(
            table_file::renewed(&file).as_deref() == Ok(now),
            "an edition 1 file isn't renewed to edition 2",
        )
    } else {
        holds(verdict == Err(Refusal::plain(14)), "an edition 1 file is taken for several goals")
    }
}

//! Inputs of the program `calls`: every call good, spoiled in up to three arguments, or malformed as text.

use super::dice::Dice;
use super::drafts::Argument::{Entries, Number};
use super::drafts::{Argument, Draft, List, Scalar};
use super::files;
use super::floors;
use super::jobs::{self, Kit, TableKind};
use super::lines;
use super::slow;
use super::states;
use super::texts;
use super::winding;
use crate::calls::{BYTE_ROOM, CALLS, CELL_ROOM, GOAL_ROOM, MOST_INPUT, MOVE_ROOM, REPORT_ROOM};
use crate::lookahead::MOST_MOVES;

pub fn input(dice: &mut Dice) -> Vec<u8> {
    let call = CALLS[dice.weighted(&[10, 37, 11, 12, 7, 8, 17, 3, 4, 4, 5, 6, 6])] as u64;
    let long = match call {
        2 => dice.chance(50),
        3 | 4 => dice.chance(70),
        _ => false,
    };
    let mut kit = if long { jobs::long_kit(dice) } else { jobs::kit(dice) };
    let mut draft = match call {
        1 => open(&kit),
        2 => decision(&mut kit, dice),
        3 => trial(&kit, dice),
        4 => run(&kit, dice),
        5 => read_floor_text(&kit, dice),
        6 => write_table_file(&mut kit, dice),
        7 => read_table_file(&kit, dice),
        8 | 9 => records_or_trailer(&kit, call, dice),
        10 => opening_table(&kit, dice),
        11 => write_floor_text(&mut kit, dice),
        12 => renew(&kit, dice),
        _ => keep_depth(dice),
    };
    // Several faults at once show the order in which they are judged.
    let weights = if long { [80, 12, 5, 3] } else { [55, 27, 11, 7] };
    for _ in 0..[0, 1, 2, 3][dice.weighted(&weights)] {
        draft.spoil(&kit, dice);
    }
    let words = draft.words();
    if dice.chance(6) {
        malformed(&draft, words, dice)
    } else {
        text(&words, dice)
    }
}

/// Words between blanks; mostly single spaces, sometimes any blanks and zeros in front.
fn text(words: &[String], dice: &mut Dice) -> Vec<u8> {
    let blanks: &[&str] = match dice.below(10) {
        0 => &[" ", "\n", "  ", " \n", "\n\n   "],
        1 => &["\n"],
        _ => &[" "],
    };
    let zeros = dice.chance(3);
    let mut text = String::new();
    if dice.chance(5) {
        text.push_str(blanks[0]);
    }
    for (index, word) in words.iter().enumerate() {
        if index > 0 {
            text.push_str(dice.pick(blanks));
        }
        if zeros && dice.chance(20) {
            text.push_str("00");
        }
        text.push_str(word);
    }
    text.push_str(dice.pick(&["\n", "\n", "\n", "", " ", "\n\n"]));
    text.into_bytes()
}

/// Something that isn't the call's shape, or just still is.
fn malformed(draft: &Draft, mut words: Vec<String>, dice: &mut Dice) -> Vec<u8> {
    let at = dice.index(words.len());
    // The goals, where a call takes any, are its first list; by chance alone they would seldom be too many.
    let lists = draft.lists();
    let (length_at, name, entries) = if dice.chance(25) { lists[0] } else { dice.pick(&lists) };
    match dice.below(23) {
        0 => {
            words.pop();
        }
        1 => words.push("0".into()),
        2 => {
            words.remove(at);
        }
        3 => words.insert(at, "1".into()),
        4 => {
            words[at] = dice
                .pick(&[
                    "4294967296",
                    "4294967295",
                    "04294967295",
                    "18446744073709551616",
                    "99999999999999999999999",
                ])
                .into();
        }
        // Entries that their lists' types can't hold, or just can.
        5 | 6 | 17 => {
            if !entries.is_empty() {
                let choices: &[&str] = match name {
                    List::Path => &["65536", "65535", "4294967295"],
                    List::Goals | List::Table | List::Reports => &["4294967296", "4294967295"],
                    _ => &["256", "255", "65536", "4294967295"],
                };
                words[length_at + 1 + dice.index(entries.len())] = dice.pick(choices).into();
            }
        }
        // Lists as long as the room, or longer.
        7 | 8 | 18..=22 => {
            let (room, width) = match name {
                List::Goals => (GOAL_ROOM, 1),
                List::Moves => (MOVE_ROOM, 1),
                List::Reports => (REPORT_ROOM, 4),
                // CALLS.md doesn't say how much room this buffer has, only that it's bytes: too long by any reading.
                List::FloorBuffer => (BYTE_ROOM + 1, 1),
                List::Floor | List::Table | List::Path => (CELL_ROOM, 1),
                List::Text | List::File | List::Line => (BYTE_ROOM, 1),
                List::FileBuffer | List::TextBuffer | List::RenewedBuffer | List::LineBuffer => {
                    (BYTE_ROOM, 1)
                }
            };
            let new = (room + dice.index(2)) * width;
            let end = length_at + 1 + entries.len();
            let more = vec![String::from("0"); new.saturating_sub(entries.len())];
            words.splice(end..end, more);
            words[length_at] = (new / width).to_string();
        }
        9 => words[length_at] = "4294967295".into(),
        10 => {
            // No calls; the last would be this one if numbers were cut off.
            let cut = (256 + draft.call).to_string();
            words[0] = dice.pick(&["0", "13", "14", "15", "17", "4294967295", "256", "x", &cut]).into();
        }
        11 => {
            return dice
                .pick::<&[u8]>(&[b"", b" ", b"\n", b"\n\n", b"7", b"malformed\n", b"8 0", b"9 0\n"])
                .to_vec()
        }
        12 | 13 => {
            let mut text = text(&words, dice);
            let place = dice.index(text.len() + 1);
            let any = dice.byte();
            text.insert(place, dice.pick(&[b'\t', b'\r', b'-', b'+', b'.', b',', b'x', 0, 0xFF, 0x0B, any]));
            return text;
        }
        14 => {
            let mut text = text(&words, dice);
            let length = dice.index(text.len() + 1);
            text.truncate(length);
            return text;
        }
        15 => words[at].insert(0, '-'),
        // Blanks up to the most bytes that are read, or one more.
        _ => {
            let mut text = text(&words, dice);
            let length = dice.pick(&[MOST_INPUT, MOST_INPUT + 1, MOST_INPUT + 1_000]);
            text.resize(length.max(text.len()), dice.pick(b" \n"));
            return text;
        }
    }
    text(&words, dice)
}

fn bytes_as_entries(bytes: &[u8]) -> Vec<u64> {
    bytes.iter().map(|&byte| u64::from(byte)).collect()
}

/// Entries that nobody should touch or look at.
fn junk(length: usize, bound: u64, dice: &mut Dice) -> Vec<u64> {
    let fixed = dice.chance(50).then(|| dice.below(bound));
    (0..length).map(|_| fixed.unwrap_or_else(|| dice.below(bound))).collect()
}

/// A call on a job: what tells where the cart is, the goals, the settings, and what comes after them.
fn job_call(call: u64, kit: &Kit, cart: &[(Scalar, u64)], rest: Vec<Argument>) -> Draft {
    let mut arguments = sides(kit);
    arguments.extend(cart.iter().map(|&(name, value)| Number(name, value)));
    arguments.push(goal_list(kit));
    let settings =
        [(Scalar::Depth, kit.depth), (Scalar::P, kit.p), (Scalar::Q, kit.q), (Scalar::Quota, kit.quota)];
    arguments.extend(settings.map(|(name, value)| Number(name, value)));
    arguments.extend(rest);
    Draft { call, arguments }
}

/// A call on a table alone.
fn table_call(call: u64, kit: &Kit, rest: Vec<Argument>) -> Draft {
    let mut arguments = sides(kit);
    arguments.extend([goal_list(kit), Number(Scalar::Q, kit.q), floor_list(kit)]);
    arguments.extend(rest);
    Draft { call, arguments }
}

fn sides(kit: &Kit) -> Vec<Argument> {
    vec![Number(Scalar::Width, kit.width as u64), Number(Scalar::Height, kit.height as u64)]
}

fn goal_list(kit: &Kit) -> Argument {
    Entries(List::Goals, kit.goals.iter().map(|&goal| goal as u64).collect())
}

fn floor_list(kit: &Kit) -> Argument {
    Entries(List::Floor, bytes_as_entries(&kit.floor))
}

fn table_list(kit: &Kit) -> Argument {
    Entries(List::Table, kit.table.iter().map(|&figure| u64::from(figure)).collect())
}

/// A path list with room to spare now and then, and old entries all over.
fn path_list(kit: &Kit, dice: &mut Dice) -> Vec<u64> {
    let more = if dice.chance(25) { dice.index(65) } else { 0 };
    junk(kit.cells() + more, dice.pick_bound(kit), dice)
}

impl Dice {
    /// Junk cells are sometimes cells of the floor and sometimes anything.
    fn pick_bound(&mut self, kit: &Kit) -> u64 {
        self.pick(&[kit.cells() as u64, 65_536])
    }
}

fn open(kit: &Kit) -> Draft {
    job_call(1, kit, &[(Scalar::Start, kit.start as u64)], vec![floor_list(kit), table_list(kit)])
}

fn trial(kit: &Kit, dice: &mut Dice) -> Draft {
    let rest = vec![floor_list(kit), table_list(kit), Entries(List::Path, path_list(kit, dice))];
    job_call(3, kit, &[(Scalar::Start, kit.start as u64)], rest)
}

fn run(kit: &Kit, dice: &mut Dice) -> Draft {
    let more = match dice.below(40) {
        0 => REPORT_ROOM as u64 - kit.trials,
        1..=20 => dice.below(4),
        _ => 0,
    };
    let reports = junk(4 * (kit.trials + more) as usize, 100, dice);
    let rest = vec![
        Number(Scalar::Trials, kit.trials),
        floor_list(kit),
        table_list(kit),
        Entries(List::Path, path_list(kit, dice)),
        Entries(List::Reports, reports),
    ];
    job_call(4, kit, &[(Scalar::Start, kit.start as u64)], rest)
}

fn read_floor_text(kit: &Kit, dice: &mut Dice) -> Draft {
    let text = texts::text(&kit.floor, kit.width, kit.height, dice);
    let more = if dice.chance(50) { dice.index(65) } else { 0 };
    let buffer = junk(kit.cells() + more, 256, dice);
    let arguments = vec![Entries(List::Text, bytes_as_entries(&text)), Entries(List::FloorBuffer, buffer)];
    Draft { call: 5, arguments }
}

fn write_table_file(kit: &mut Kit, dice: &mut Dice) -> Draft {
    // Mostly tables that can be written: blocked cells at their opening figures, free ones not below.
    if dice.chance(60) {
        let kind = dice.pick(&[TableKind::Opening, TableKind::Learned, TableKind::NearCeiling]);
        kit.set_table(kind, dice);
        for cell in kit.blocked_cells() {
            kit.table[cell] = kit.opening_figure(cell);
        }
    }
    if dice.chance(10) {
        // One figure that can't be written, or just can.
        let cell = dice.index(kit.cells());
        let opening = kit.opening_figure(cell);
        kit.table[cell] = dice.pick(&[opening.saturating_sub(1), opening + 1]);
    }
    let records = (0..kit.cells()).filter(|&cell| kit.table[cell] != kit.opening_figure(cell)).count();
    let more = if dice.chance(60) { dice.index(40) } else { 0 };
    let fewer = usize::from(dice.chance(10));
    let buffer = junk(24 + 6 * records + more * (1 - fewer) - fewer, 256, dice);
    table_call(6, kit, vec![table_list(kit), Entries(List::FileBuffer, buffer)])
}

fn read_table_file(kit: &Kit, dice: &mut Dice) -> Draft {
    let mut file = files::Draft::new(kit, dice);
    // The general spoiling seldom hits the file, so some are spoiled here. Few have bytes ahead, which hide the faults of records;
    // of these more have a faulty trailer too, so that the order shows.
    let ahead = dice.chance(18);
    if ahead {
        file.add_older(kit, dice);
    }
    file.spoil(kit, 45, if ahead { 50 } else { 20 }, dice);
    let table = junk(kit.cells(), dice.pick_bound(kit), dice);
    let file = bytes_as_entries(&file.bytes_within(BYTE_ROOM));
    table_call(7, kit, vec![Entries(List::File, file), Entries(List::Table, table)])
}

fn records_or_trailer(kit: &Kit, call: u64, dice: &mut Dice) -> Draft {
    let mut file = files::Draft::new(kit, dice);
    if dice.chance(40) {
        file.add_older(kit, dice);
    }
    if dice.chance(30) {
        file.spoil_trailer(kit, dice);
    }
    Draft { call, arguments: vec![Entries(List::File, bytes_as_entries(&file.bytes_within(BYTE_ROOM)))] }
}

fn renew(kit: &Kit, dice: &mut Dice) -> Draft {
    let mut file = files::Draft::new(kit, dice);
    if dice.chance(50) {
        file.add_older(kit, dice);
    }
    // Records that no reader takes are kept as they stand.
    file.spoil(kit, 15, 25, dice);
    let file = file.bytes_within(BYTE_ROOM);
    let enough = files::renewed_length(&file);
    let length = match dice.below(16) {
        0 | 1 => enough - 1,
        // As much as the file itself takes, or as an edition 1 trailer would.
        2 => file.len(),
        3 => enough - 8,
        4 => 0,
        5..=10 => enough + dice.index(65),
        _ => enough,
    };
    let buffer = junk(length.min(BYTE_ROOM), 256, dice);
    let arguments = vec![Entries(List::File, bytes_as_entries(&file)), Entries(List::RenewedBuffer, buffer)];
    Draft { call: 12, arguments }
}

fn keep_depth(dice: &mut Dice) -> Draft {
    let mut line = lines::line(dice);
    let enough = lines::length_with_depth(&line);
    let length = match dice.below(16) {
        0 | 1 => enough - 1,
        // As much as the line itself takes.
        2 => line.len(),
        3 => 0,
        4..=8 => enough + dice.index(65),
        _ => enough,
    };
    // The general spoiling hits the buffer as often as the line.
    if dice.chance(15) {
        lines::spoil(&mut line, dice);
    }
    let buffer = junk(length, 256, dice);
    let arguments = vec![Entries(List::Line, bytes_as_entries(&line)), Entries(List::LineBuffer, buffer)];
    Draft { call: 16, arguments }
}

fn opening_table(kit: &Kit, dice: &mut Dice) -> Draft {
    let table = junk(kit.cells(), dice.pick_bound(kit), dice);
    table_call(10, kit, vec![Entries(List::Table, table)])
}

fn write_floor_text(kit: &mut Kit, dice: &mut Dice) -> Draft {
    // Sometimes any bytes at all: this call asks for no free cell.
    if dice.chance(40) {
        let any = dice.byte();
        let bytes = [0, 1, 2, 3, 4, 254, 255, any];
        kit.floor.iter_mut().for_each(|byte| *byte = dice.pick(&bytes));
    }
    let enough = texts::length(kit.width, kit.height);
    let mut length = match dice.below(8) {
        0 => enough - 1,
        1..=4 => enough + dice.index(65),
        _ => enough,
    };
    if dice.chance(8) {
        // Wrong sizes and no room at once: which is told?
        kit.floor.push(0);
        length = dice.pick(&[0, 10, enough - 1]);
    }
    let mut arguments = sides(kit);
    arguments.extend([floor_list(kit), Entries(List::TextBuffer, junk(length, 256, dice))]);
    Draft { call: 11, arguments }
}

fn decision(kit: &mut Kit, dice: &mut Dice) -> Draft {
    let mut path: Vec<u16> = path_list(kit, dice).iter().map(|&entry| entry as u16).collect();
    let state = match dice.weighted(&[56, 15, 5, 7, 19, 6]) {
        0 => states::middle_of_a_trial(kit, &mut path, dice),
        1 => states::made_up_state(kit, &mut path, dice),
        2 => {
            kit.set_table(TableKind::NearCeiling, dice);
            states::made_up_state(kit, &mut path, dice)
        }
        3 => {
            // Pockets closed in on all sides, and a lookahead deeper than they are.
            let (width, height) = floors::sizes(dice);
            let mut floor: Vec<u8> = (0..width * height).map(|_| u8::from(dice.chance(60))).collect();
            slow::now_and_then(&mut floor, width, dice);
            *kit = jobs::kit_on(floor, width, height, dice);
            kit.depth = dice.from_to(1, 8);
            path = path_list(kit, dice).iter().map(|&entry| entry as u16).collect();
            states::made_up_state(kit, &mut path, dice)
        }
        winding => {
            let (winding_kit, state, last) = match winding {
                4 => winding::kit_and_state(dice),
                _ => winding::weaving_kit_and_state(dice),
            };
            *kit = winding_kit;
            path = path_list(kit, dice).iter().map(|&entry| entry as u16).collect();
            path[0] = last.unwrap_or(path[0]);
            state
        }
    };
    // A goal on the path, whichever of them: the general spoiling seldom makes that.
    let length = path.len().min(state.length as usize);
    if length > 0 && dice.chance(5) {
        path[dice.index(length)] = dice.pick(&kit.goals) as u16;
    }
    let from = if dice.chance(60) { 0 } else { dice.index(300) };
    let more = if dice.chance(50) { dice.index(100) } else { 0 };
    let length = if dice.chance(4) { MOVE_ROOM } else { from + MOST_MOVES + more };
    let moves = junk(length, 256, dice);
    let cart = [(Scalar::Current, state.current), (Scalar::U, state.u), (Scalar::Length, state.length)];
    let rest = vec![
        Number(Scalar::From, from as u64),
        floor_list(kit),
        table_list(kit),
        Entries(List::Path, path.iter().map(|&cell| u64::from(cell)).collect()),
        Entries(List::Moves, moves),
    ];
    job_call(2, kit, &cart, rest)
}

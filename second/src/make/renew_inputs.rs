//! Inputs of the program `renew`: table files of both editions, good and spoiled, with older material of any length ahead.

use super::dice::Dice;
use super::files::Draft;
use super::jobs::{self, Kit};
use super::texts;
use crate::table_file::LONGEST;

pub fn input(dice: &mut Dice) -> Vec<u8> {
    let kit = jobs::kit(dice);
    let mut file = Draft::new(&kit, dice);
    match dice.weighted(&[30, 40, 8, 8, 10, 4]) {
        0 => {}
        1 => file.add_older(&kit, dice),
        2 => file.set_older(older_tables(&file, dice)),
        3 => file.set_older(texts::text(&kit.floor, kit.width, kit.height, dice)),
        4 => return no_table(&kit, &file.bytes(), dice),
        _ => return long(file, dice),
    }
    file.spoil(&kit, 15, 25, dice);
    let mut bytes = file.bytes();
    if dice.chance(4) {
        // Bytes behind the trailer: it isn't the end any more.
        bytes.extend(dice.pick::<&[u8]>(&[b"\n", b"\0", b"T", b"PDLT"]));
    }
    bytes
}

/// Some nights' tables one after the other, all alike; now and then one lacks its last byte.
fn older_tables(file: &Draft, dice: &mut Dice) -> Vec<u8> {
    let mut older = Vec::new();
    for _ in 0..dice.from_to(2, 5) {
        older.extend(file.bytes());
        if dice.chance(20) {
            older.pop();
        }
    }
    older
}

/// Nothing, some last bytes of a file, any bytes, or text.
fn no_table(kit: &Kit, file: &[u8], dice: &mut Dice) -> Vec<u8> {
    let length = dice.from_to(10, 25) as usize;
    match dice.below(6) {
        0 => Vec::new(),
        1..=3 => file[file.len() - length.min(file.len())..].to_vec(),
        4 => (0..dice.pick(&[1, 9, length])).map(|_| dice.byte()).collect(),
        _ => texts::text(&kit.floor, kit.width, kit.height, dice),
    }
}

/// A few hundred kilobytes: a table behind long older material, so that the whole is about as long as the longest file or about
/// twice that; or the longest table itself, whole, cut or behind other bytes.
fn long(mut file: Draft, dice: &mut Dice) -> Vec<u8> {
    if dice.chance(40) {
        let whole = dice.pick(&[LONGEST / 2, LONGEST, LONGEST, 2 * LONGEST]) - 2 + dice.index(5);
        let (byte, length) = (dice.byte(), whole.saturating_sub(file.bytes().len()));
        file.set_older((0..length).map(|at| byte ^ (at % 251) as u8).collect());
        return file.bytes();
    }
    file.set_records(dice.pick(&[u16::MAX, u16::MAX, u16::MAX, u16::MAX - 1]), dice);
    let mut bytes = file.bytes();
    match dice.below(4) {
        0 => drop(bytes.remove(0)),
        1 => bytes.insert(0, dice.byte()),
        2 => drop(bytes.splice(0..0, vec![dice.byte(); dice.index(100_000)])),
        _ => {}
    }
    bytes
}

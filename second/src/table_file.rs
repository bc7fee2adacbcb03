//! The table file: its trailer in both editions, the finder of its records, its reader, its writer and its renewal.

use crate::checks::{self, put, Goals, CEILING, MOST_GOALS};
use crate::floor::is_free_byte;
use crate::opening::opening_figure;
use crate::refusal::Refusal;

const RECORD: usize = 6;
const LETTERS: &[u8; 4] = b"PDLT";

/// Both editions end alike: edition (1), count (2), back (4), letters (4). Ahead of that stands the job.
const ENDING: usize = 11;

/// The job of an edition 1 trailer: width, height, its one goal (2) and q.
const FIRST_EDITION: u8 = 1;
const FIRST_JOB: usize = 5;

/// The job of an edition 2 trailer, which is the one written: width, height, goal count, a zero, four places (2 each) and q.
const EDITION: u8 = 2;
const JOB: usize = 5 + 2 * MOST_GOALS;
const ZERO_AT: usize = 3;

/// The longest file that a trailer can tell of. No more than that is needed of a file with bytes ahead.
pub const LONGEST: usize = JOB + ENDING + RECORD * u16::MAX as usize;

/// The place of a goal that the job doesn't have.
const NO_GOAL: u16 = u16::MAX;

/// A file whose trailer holds, by its parts.
struct Parts<'a> {
    /// The bytes ahead of the first record.
    older: &'a [u8],
    records: &'a [u8],
    job: &'a [u8],
    edition: u8,
}

/// Judges a file by 13.
fn parts(file: &[u8]) -> Result<Parts<'_>, Refusal> {
    let fault = Refusal::plain(13);
    let (ahead, ending) = file.split_at(file.len().checked_sub(ENDING).ok_or(fault)?);
    let edition = ending[0];
    let job_length = match edition {
        FIRST_EDITION => FIRST_JOB,
        EDITION => JOB,
        _ => return Err(fault),
    };
    let (ahead, job) = ahead.split_at(ahead.len().checked_sub(job_length).ok_or(fault)?);
    let count = usize::from(u16::from_be_bytes([ending[1], ending[2]]));
    let back = u32::from_be_bytes([ending[3], ending[4], ending[5], ending[6]]);
    let back_fits = back as usize == job_length + ENDING + RECORD * count;
    let zero_fits = edition == FIRST_EDITION || job[ZERO_AT] == 0;
    if &ending[7..] != LETTERS || !back_fits || !zero_fits {
        return Err(fault);
    }
    let (older, records) = ahead.split_at(ahead.len().checked_sub(RECORD * count).ok_or(fault)?);
    Ok(Parts { older, records, job, edition })
}

/// What a trailer of edition 2 tells of a job.
fn told_now(width: usize, height: usize, goals: &[usize], q: u32) -> Vec<u8> {
    let mut job = vec![width as u8, height as u8, goals.len() as u8, 0];
    for at in 0..MOST_GOALS {
        let place = goals.get(at).map_or(NO_GOAL, |&goal| goal as u16);
        job.extend(place.to_be_bytes());
    }
    job.push(q as u8);
    job
}

/// What a trailer of an edition tells of a job; none of a job that the edition can't tell of.
fn told(edition: u8, width: usize, height: usize, goals: &[usize], q: u32) -> Option<Vec<u8>> {
    match (edition, goals) {
        (FIRST_EDITION, &[goal]) => {
            let [high, low] = (goal as u16).to_be_bytes();
            Some(vec![width as u8, height as u8, high, low, q as u8])
        }
        (FIRST_EDITION, _) => None,
        _ => Some(told_now(width, height, goals, q)),
    }
}

/// A whole file of edition 2, from its records and what its trailer tells of the job.
fn whole(mut records: Vec<u8>, job: &[u8]) -> Vec<u8> {
    let count = records.len() / RECORD;
    let back = records.len() + JOB + ENDING;
    records.extend_from_slice(job);
    records.push(EDITION);
    records.extend((count as u16).to_be_bytes());
    records.extend((back as u32).to_be_bytes());
    records.extend(LETTERS);
    records
}

/// The public check of a file's trailer.
pub fn check_trailer(file: &[u8]) -> Result<(), Refusal> {
    parts(file).map(|_| ())
}

/// The records of a file, trailer left off; the empty part when the trailer is faulty by 13.
pub fn find_records(file: &[u8]) -> &[u8] {
    parts(file).map_or(&[], |parts| parts.records)
}

fn record(bytes: &[u8]) -> (usize, u32) {
    let cell = u16::from_be_bytes([bytes[0], bytes[1]]);
    let figure = u32::from_be_bytes([bytes[2], bytes[3], bytes[4], bytes[5]]);
    (usize::from(cell), figure)
}

/// The first fault of a record, in the order of document 02. `byte` is the floor's at its cell, if the cell is on the floor.
fn record_fault(
    byte: Option<&u8>,
    before: Option<usize>,
    cell: usize,
    figure: u32,
    opening: u32,
) -> Option<u8> {
    match byte {
        None => Some(18),
        Some(&byte) if !is_free_byte(byte) => Some(19),
        Some(_) if before.is_some_and(|before| cell <= before) => Some(20),
        Some(_) if figure <= opening => Some(21),
        Some(_) if figure > CEILING => Some(22),
        Some(_) => None,
    }
}

/// The public reader: judges 1, 3, 4, 27, 13, 28, 14 and 18 to 22, and fills the table only when all is well.
pub fn read(
    width: u64,
    height: u64,
    goals: &Goals,
    q: u64,
    floor: &[u8],
    file: &[u8],
    table: &mut [u32],
) -> Result<(), Refusal> {
    let goals = checks::table_job(width, height, goals, q, floor, table)?;
    let (width, height, q) = (width as usize, height as usize, q as u32);
    let Parts { older, records, job, edition } = parts(file)?;
    if !older.is_empty() {
        return Err(Refusal::plain(28));
    }
    if told(edition, width, height, &goals, q).as_deref() != Some(job) {
        return Err(Refusal::plain(14));
    }

    let mut before = None;
    for (number, bytes) in records.chunks_exact(RECORD).enumerate() {
        let (cell, figure) = record(bytes);
        let opening = opening_figure(width, cell, &goals, q);
        if let Some(fault) = record_fault(floor.get(cell), before, cell, figure, opening) {
            return Err(Refusal::at_record(fault, number));
        }
        before = Some(cell);
    }
    crate::opening::fill(width, &goals, q, table);
    for bytes in records.chunks_exact(RECORD) {
        let (cell, figure) = record(bytes);
        table[cell] = figure;
    }
    Ok(())
}

/// The public writer, of edition 2: judges 1, 3, 4, 27, 5, 16 and 17, and answers how many bytes it wrote.
pub fn write(
    width: u64,
    height: u64,
    goals: &Goals,
    q: u64,
    floor: &[u8],
    table: &[u32],
    buffer: &mut [u8],
) -> Result<usize, Refusal> {
    let goals = checks::table_job(width, height, goals, q, floor, table)?;
    checks::ceiling(table)?;
    let opening = |cell: usize| opening_figure(width as usize, cell, &goals, q as u32);
    let mut records = Vec::new();
    for (cell, &figure) in table.iter().enumerate() {
        let blocked = !is_free_byte(floor[cell]);
        if figure < opening(cell) || (blocked && figure != opening(cell)) {
            return Err(Refusal::at_cell(16, cell));
        }
        if figure != opening(cell) {
            records.extend((cell as u16).to_be_bytes());
            records.extend(figure.to_be_bytes());
        }
    }
    let job = told_now(width as usize, height as usize, &goals, q as u32);
    put(&whole(records, &job), buffer)
}

/// The last table of a file of either edition as a file of edition 2, which begins with its first record: judges 13.
pub fn renewed(file: &[u8]) -> Result<Vec<u8>, Refusal> {
    let Parts { records, job, .. } = parts(file)?;
    // An edition 2 trailer is kept as it stands, whatever it tells of the job.
    Ok(match *job {
        [width, height, high, low, q] => {
            let goal = usize::from(u16::from_be_bytes([high, low]));
            let job = told_now(usize::from(width), usize::from(height), &[goal], u32::from(q));
            whole(records.to_vec(), &job)
        }
        _ => whole(records.to_vec(), job),
    })
}

/// The public renewal into a buffer: judges 13 and 17, and answers how many bytes it wrote.
pub fn renew(file: &[u8], buffer: &mut [u8]) -> Result<usize, Refusal> {
    put(&renewed(file)?, buffer)
}

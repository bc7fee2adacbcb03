//! The checks that several calls share, each for one number of the papers, and the job they judge.

use crate::floor::{is_free_byte, MOST_SIDE};
use crate::lookahead::MOST_DEPTH;
use crate::refusal::Refusal;

/// The greatest figure that a table may hold.
pub const CEILING: u32 = 1_834_560;

pub const MOST_QUOTA: u64 = 1_000_000;
pub const MOST_TRIALS: u64 = 1_000;
pub const MOST_Q: u64 = 16;
pub const MOST_GOALS: usize = 4;

/// The goals that a job names, as they are told: how many, and the first four of them.
#[derive(Clone, Copy, Debug)]
pub struct Goals {
    pub count: u64,
    /// Places past the count mean nothing.
    pub places: [u64; MOST_GOALS],
}

impl Goals {
    pub fn named(goals: &[u64]) -> Goals {
        let mut places = [0; MOST_GOALS];
        for (place, &goal) in places.iter_mut().zip(goals) {
            *place = goal;
        }
        Goals { count: goals.len() as u64, places }
    }
}

/// A job as it is told, before anything of it has been judged.
#[derive(Clone, Copy, Debug)]
pub struct Job<'a> {
    pub width: u64,
    pub height: u64,
    pub goals: Goals,
    pub depth: u64,
    pub p: u64,
    pub q: u64,
    pub quota: u64,
    pub floor: &'a [u8],
}

/// 1: the sides, and the floor's length. Answers how many cells there are.
pub fn floor_sizes(width: u64, height: u64, floor: &[u8]) -> Result<usize, Refusal> {
    let side = 1..=MOST_SIDE;
    if !side.contains(&width) || !side.contains(&height) {
        return Err(Refusal::plain(1));
    }
    let cells = (width * height) as usize;
    if floor.len() != cells {
        return Err(Refusal::plain(1));
    }
    Ok(cells)
}

/// The same with the table's length.
pub fn sizes(width: u64, height: u64, floor: &[u8], table: &[u32]) -> Result<usize, Refusal> {
    let cells = floor_sizes(width, height, floor)?;
    if table.len() != cells {
        return Err(Refusal::plain(1));
    }
    Ok(cells)
}

/// 3: depth, weight and quota.
pub fn settings(depth: u64, p: u64, q: u64, quota: u64) -> Result<(), Refusal> {
    let depth_fits = (1..=MOST_DEPTH as u64).contains(&depth);
    let weight_fits = 1 <= p && p <= q && q <= MOST_Q;
    if depth_fits && weight_fits && quota <= MOST_QUOTA {
        Ok(())
    } else {
        Err(Refusal::plain(3))
    }
}

/// 3 for the number of trials.
pub fn trials(trials: u64) -> Result<(), Refusal> {
    if (1..=MOST_TRIALS).contains(&trials) {
        Ok(())
    } else {
        Err(Refusal::plain(3))
    }
}

/// 3 for the calls that take q alone.
fn q_alone(q: u64) -> Result<(), Refusal> {
    if (1..=MOST_Q).contains(&q) {
        Ok(())
    } else {
        Err(Refusal::plain(3))
    }
}

/// 4: the cell is on the floor and free. The floor's length has been judged before.
pub fn free_cell(floor: &[u8], cell: u64) -> Result<usize, Refusal> {
    let index = usize::try_from(cell).map_err(|_| Refusal::plain(4))?;
    match floor.get(index) {
        Some(&byte) if is_free_byte(byte) => Ok(index),
        _ => Err(Refusal::plain(4)),
    }
}

/// 4 for the goals, of which the first four are judged, then 27: there are 1 to 4, and they rise. Answers their cells.
pub fn goal_cells(floor: &[u8], goals: &Goals) -> Result<Vec<usize>, Refusal> {
    let held = goals.count.min(MOST_GOALS as u64) as usize;
    let cells: Vec<usize> =
        goals.places[..held].iter().map(|&goal| free_cell(floor, goal)).collect::<Result<_, _>>()?;
    let rising = cells.windows(2).all(|pair| pair[0] < pair[1]);
    if (1..=MOST_GOALS as u64).contains(&goals.count) && rising {
        Ok(cells)
    } else {
        Err(Refusal::plain(27))
    }
}

/// 1, 3, 4 and 27 as the table calls judge them. Answers the goals' cells.
pub fn table_job(
    width: u64,
    height: u64,
    goals: &Goals,
    q: u64,
    floor: &[u8],
    table: &[u32],
) -> Result<Vec<usize>, Refusal> {
    sizes(width, height, floor, table)?;
    q_alone(q)?;
    goal_cells(floor, goals)
}

/// 5: no figure is above the ceiling.
pub fn ceiling(table: &[u32]) -> Result<(), Refusal> {
    match table.iter().position(|&figure| figure > CEILING) {
        Some(cell) => Err(Refusal::at_cell(5, cell)),
        None => Ok(()),
    }
}

/// Fills a buffer from its first byte, or answers 17. Answers how many bytes were written.
pub fn put(bytes: &[u8], buffer: &mut [u8]) -> Result<usize, Refusal> {
    buffer.get_mut(..bytes.len()).ok_or(Refusal::plain(17))?.copy_from_slice(bytes);
    Ok(bytes.len())
}

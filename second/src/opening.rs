//! Opening a job: the opening figures, the true distances, and the checks 1 to 7 and 27.

use crate::checks::{self, Goals, Job};
use crate::floor::Floor;
use crate::refusal::Refusal;

/// The distance of a cell from which no walk leads to a goal.
pub const NO_WAY: u32 = u32::MAX;

/// The opening figure of a cell, blocked or free: the least over the goals.
pub fn opening_figure(width: usize, cell: usize, goals: &[usize], q: u32) -> u32 {
    let figure = |&goal: &usize| {
        let dx = (cell % width).abs_diff(goal % width) as u32;
        let dy = (cell / width).abs_diff(goal / width) as u32;
        q * (14 * dx.min(dy) + 10 * dx.abs_diff(dy))
    };
    goals.iter().map(figure).min().unwrap_or(0)
}

/// The opening figures of all cells, into a table as long as the floor.
pub fn fill(width: usize, goals: &[usize], q: u32, table: &mut [u32]) {
    for (cell, figure) in table.iter_mut().enumerate() {
        *figure = opening_figure(width, cell, goals, q);
    }
}

/// The public call that fills a table with opening figures; judges 1, 3, 4 and 27.
pub fn opening_table(
    width: u64,
    height: u64,
    goals: &Goals,
    q: u64,
    floor: &[u8],
    table: &mut [u32],
) -> Result<(), Refusal> {
    let goals = checks::table_job(width, height, goals, q, floor, table)?;
    fill(width as usize, &goals, q as u32, table);
    Ok(())
}

/// The true distance of every cell, which is to the nearest goal: by Dijkstra from all goals at once. `NO_WAY` where there
/// is none.
pub fn distances(floor: &Floor, goals: &[usize]) -> Vec<u32> {
    if floor.has_slow() {
        distances_by::<true>(floor, goals)
    } else {
        distances_by::<false>(floor, goals)
    }
}

fn distances_by<const HAS_SLOW: bool>(floor: &Floor, goals: &[usize]) -> Vec<u32> {
    let mut distance = vec![NO_WAY; floor.cells()];
    // Every move costs an even number and at most 28, so all waiting cells lie within 14 steps of two from the cost in
    // hand, and 16 buckets used in turn do.
    let mut buckets: [Vec<u16>; 16] = Default::default();
    let mut waiting = goals.len();
    let mut cost = 0u32;
    for &goal in goals {
        distance[goal] = 0;
        buckets[0].push(goal as u16);
    }
    while waiting > 0 {
        let bucket = cost as usize / 2 % 16;
        let mut cells = std::mem::take(&mut buckets[bucket]);
        waiting -= cells.len();
        for x in cells.drain(..) {
            let x = x as usize;
            if distance[x] != cost {
                continue; // it was reached more cheaply since it was put here
            }
            let prices = floor.prices::<HAS_SLOW>(x);
            let mut exits = floor.exits(x);
            while exits != 0 {
                let way = exits.trailing_zeros() as usize;
                exits &= exits - 1;
                // Moves between free cells go both ways at one cost, so walking from the goals measures walks to them.
                let y = floor.after(x, way);
                let new = cost + prices[way & 7];
                if new < distance[y] {
                    distance[y] = new;
                    buckets[new as usize / 2 % 16].push(y as u16);
                    waiting += 1;
                }
            }
        }
        buckets[bucket] = cells; // handed back for its room
        cost += 2;
    }
    distance
}

/// 6 and 7: a walk from start to some goal exists, and no cell that can reach one is above its true figure.
fn judge_ways(floor: &Floor, start: usize, goals: &[usize], q: u32, table: &[u32]) -> Result<(), Refusal> {
    let distance = distances(floor, goals);
    if distance[start] == NO_WAY {
        return Err(Refusal::plain(6));
    }
    let above = (0..table.len()).find(|&cell| distance[cell] != NO_WAY && table[cell] > q * distance[cell]);
    match above {
        Some(cell) => Err(Refusal::at_cell(7, cell)),
        None => Ok(()),
    }
}

/// A job that has been accepted: its numbers are in range and its ways are known to exist.
pub struct Opened {
    pub floor: Floor,
    pub start: usize,
    pub goals: Vec<usize>,
    pub depth: usize,
    pub p: u32,
    pub q: u32,
    pub quota: u64,
}

/// Judges 1 to 4, 27 and 5 to 7, in this order. `lists` is the caller's number 2 (path list, reports), `trials` its own part of 3.
pub fn open_with(
    job: &Job,
    start: u64,
    table: &[u32],
    lists: impl FnOnce(usize) -> bool,
    trials: Option<u64>,
) -> Result<Opened, Refusal> {
    let cells = checks::sizes(job.width, job.height, job.floor, table)?;
    if !lists(cells) {
        return Err(Refusal::plain(2));
    }
    checks::settings(job.depth, job.p, job.q, job.quota)?;
    if let Some(trials) = trials {
        checks::trials(trials)?;
    }
    let start = checks::free_cell(job.floor, start)?;
    let goals = checks::goal_cells(job.floor, &job.goals)?;
    checks::ceiling(table)?;
    let floor = Floor::new(job.width as usize, job.height as usize, job.floor);
    judge_ways(&floor, start, &goals, job.q as u32, table)?;
    Ok(Opened {
        floor,
        start,
        goals,
        depth: job.depth as usize,
        p: job.p as u32,
        q: job.q as u32,
        quota: job.quota,
    })
}

/// The public call that opens a job. It takes no lists but floor and table.
pub fn open(job: &Job, start: u64, table: &[u32]) -> Result<Opened, Refusal> {
    open_with(job, start, table, |_| true, None)
}

#[cfg(test)]
mod tests {
    use super::*;
    use crate::floor::is_free_byte;
    use crate::lookahead::tests::plain_move;
    use crate::make::dice::Dice;
    use crate::make::{floors, slow};

    /// True distances by the papers' words, lowered move by move until none falls, on many small floors, half of them with slow cells.
    #[test]
    fn distances_are_the_ones_of_the_papers() {
        let (mut tried, mut several, mut doubled) = (0, 0, 0);
        for seed in 0..600u64 {
            let mut dice = Dice::new(seed);
            let (width, height) = (dice.from_to(1, 10) as usize, dice.from_to(1, 10) as usize);
            let mut bytes = floors::floor(floors::kind(&mut dice), width, height, &mut dice);
            if seed % 2 == 0 {
                slow::lay(&mut bytes, width, &mut dice);
            }
            let cells = bytes.len();
            let mut goals: Vec<usize> = (0..dice.from_to(1, 4)).map(|_| dice.index(cells)).collect();
            goals.retain(|&goal| is_free_byte(bytes[goal]));
            goals.sort_unstable();
            goals.dedup();
            if goals.is_empty() {
                continue;
            }
            let pairs: Vec<(usize, usize, u32)> = (0..cells * cells)
                .filter_map(|pair| {
                    let (x, y) = (pair / cells, pair % cells);
                    Some((x, y, plain_move(width, &bytes, x, y)?.1))
                })
                .collect();
            let mut plain = vec![NO_WAY; cells];
            goals.iter().for_each(|&goal| plain[goal] = 0);
            let mut falls = true;
            while falls {
                falls = false;
                for &(x, y, cost) in &pairs {
                    let over = plain[y].saturating_add(cost);
                    falls |= over < plain[x];
                    plain[x] = plain[x].min(over);
                }
            }
            let floor = Floor::new(width, height, &bytes);
            assert_eq!(distances(&floor, &goals), plain);
            assert!(pairs.iter().all(|&(x, y, cost)| {
                (0..8).any(|way| {
                    floor.exits(x) & (1 << way) != 0
                        && floor.after(x, way) == y
                        && floor.price(x, way) == cost
                })
            }));
            tried += 1;
            several += usize::from(goals.len() > 1);
            doubled += usize::from(pairs.iter().any(|&(_, _, cost)| cost >= 20));
        }
        assert!(tried > 300 && several > 150 && doubled > 150, "{tried} {several} {doubled}");
    }
}

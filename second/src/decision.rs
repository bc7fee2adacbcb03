//! One decision: its checks 1 to 5, 27 and 8 to 10, and what it does to state, table, path and moves.

use crate::checks::{self, Job, CEILING};
use crate::floor::{is_free_byte, opposite, Floor};
use crate::lookahead::{Window, MOST_MOVES};
use crate::refusal::Refusal;

#[derive(Clone, Copy, Debug, PartialEq, Eq)]
pub struct State {
    pub current: u64,
    /// The learned amount of this trial.
    pub u: u64,
    /// The path's length.
    pub length: u64,
}

#[derive(Clone, Copy, Debug, PartialEq, Eq)]
pub enum Answer {
    Arrived,
    Forward { target: usize, rise: u32, moves: usize },
    BackedOut { target: usize, rise: u32, moves: usize },
    Stayed { rise: u32 },
    Refused(Refusal),
}

/// Makes one decision and checks everything for itself. A refusal changes nothing.
pub fn decide(
    job: &Job,
    state: &mut State,
    table: &mut [u32],
    path: &mut [u16],
    moves: &mut [u8],
    from: u64,
) -> Answer {
    judge_and_decide(job, state, table, path, moves, from).unwrap_or_else(Answer::Refused)
}

fn judge_and_decide(
    job: &Job,
    state: &mut State,
    table: &mut [u32],
    path: &mut [u16],
    moves: &mut [u8],
    from: u64,
) -> Result<Answer, Refusal> {
    let cells = checks::sizes(job.width, job.height, job.floor, table)?;
    // `from` past the end leaves no places at all.
    let places = usize::try_from(from).ok().and_then(|from| moves.get_mut(from..));
    let places: &mut [u8] = places.unwrap_or_default();
    if path.len() < cells || places.len() < MOST_MOVES {
        return Err(Refusal::plain(2));
    }
    checks::settings(job.depth, job.p, job.q, job.quota)?;
    let current = checks::free_cell(job.floor, state.current)?;
    let goals = checks::goal_cells(job.floor, &job.goals)?;
    checks::ceiling(table)?;
    let length = judge_state(job, state, current, &goals, path, cells)?;
    if goals.contains(&current) {
        return Ok(Answer::Arrived);
    }

    let floor = Floor::new(job.width as usize, job.height as usize, job.floor);
    let depth = job.depth as usize;
    let mut window = Window::new();
    if !window.look(&floor, current, &goals, depth) {
        return Err(Refusal::plain(9));
    }
    let best = window.best(table, job.p as u32);
    let rise = best.figure.saturating_sub(table[current]);
    if rise > 0 && best.figure > CEILING {
        return Err(Refusal::plain(10));
    }

    let mut route = [0u8; MOST_MOVES];
    if state.u + u64::from(rise) <= job.q * job.quota {
        store(table, current, rise);
        let count = window.route(&floor, best.target, &mut route);
        places[..count].copy_from_slice(&route[..count]);
        path[length] = current as u16;
        // The length is cut at the target where the target is already on the path.
        let cut = path[..=length].iter().position(|&cell| usize::from(cell) == best.target);
        state.length = cut.unwrap_or(length + 1) as u64;
        state.u += u64::from(rise);
        state.current = best.target as u64;
        return Ok(Answer::Forward { target: best.target, rise, moves: count });
    }
    if length == 0 {
        store(table, current, rise);
        return Ok(Answer::Stayed { rise });
    }
    let taken_off = usize::from(path[length - 1]);
    if !window.look(&floor, taken_off, &goals, depth) || !window.on_last_ring(current) {
        return Err(Refusal::plain(8));
    }
    store(table, current, rise);
    let count = window.route(&floor, current, &mut route);
    reverse(&mut route[..count]);
    places[..count].copy_from_slice(&route[..count]);
    state.length = length as u64 - 1;
    state.current = taken_off as u64;
    Ok(Answer::BackedOut { target: taken_off, rise, moves: count })
}

/// The first part of 8. Answers the path's length.
fn judge_state(
    job: &Job,
    state: &State,
    current: usize,
    goals: &[usize],
    path: &[u16],
    cells: usize,
) -> Result<usize, Refusal> {
    let fault = Refusal::plain(8);
    if state.u > job.q * job.quota || state.length > cells as u64 {
        return Err(fault);
    }
    let length = state.length as usize;
    let mut seen = vec![false; cells];
    for &cell in goals.iter().chain([&current]) {
        seen[cell] = true;
    }
    for &cell in &path[..length] {
        let cell = usize::from(cell);
        if !job.floor.get(cell).is_some_and(|&byte| is_free_byte(byte)) || seen[cell] {
            return Err(fault);
        }
        seen[cell] = true;
    }
    Ok(length)
}

fn store(table: &mut [u32], cell: usize, rise: u32) {
    table[cell] += rise;
}

/// Turns a route round: the last move first, each undone.
pub fn reverse(route: &mut [u8]) {
    route.reverse();
    for way in route {
        *way = opposite(usize::from(*way)) as u8;
    }
}

// Nanoseconds for a whole lookahead (window, new figure, target, route): the proved one beside the second program's own, in one run.
// Build and run: bench/lookahead/run
use std::time::Instant;

#[allow(dead_code)]
#[path = "../../second/src/floor.rs"]
mod floor;
#[allow(dead_code)]
#[path = "../../second/src/lookahead.rs"]
mod lookahead;

use floor::Floor;
use lookahead::{Window, MOST_MOVES};

extern "C" {
    fn probe_plan(
        width: usize, height: usize, count: usize, goal: usize, other: usize, depth: usize, p: usize,
        floor: *const u8, floor_len: usize, s: usize, table: *const u32, table_len: usize,
        base: u32, mark: *mut u32, mark_len: usize, cost: *mut u16, cost_len: usize,
        list: *mut u16, list_len: usize, out: *mut u8, out_len: usize,
    ) -> usize;
}

// How long the lists are that the proved lookahead is lent: those with a place a cell, and the list of the window's cells.
const PLACES: usize = 4096;
const LISTED: usize = 2 * PLACES;

// The bytes of cells that are no ordinary free ones.
const BLOCKED: u8 = 1;
const SLOW: u8 = 2;

struct Job<'a> {
    side: usize,
    goals: &'a [usize],
    depth: usize,
    p: usize,
    bytes: &'a [u8],
    table: &'a [u32],
}

// Both answer the new figure, the target and the number of moves in one number, as `probe_plan` does; 0 where a ring is empty.
fn packed(figure: usize, target: usize, moves: usize) -> usize {
    figure % 1048576 * 1048576 + target % 4096 * 256 + moves % 256
}

// The second program's lookahead, with what it keeps from one lookahead to the next.
struct Plain<'a> {
    floor: &'a Floor,
    window: Window,
    out: [u8; MOST_MOVES],
}

impl Plain<'_> {
    fn look(&mut self, j: &Job, s: usize) -> usize {
        if !self.window.look(self.floor, s, j.goals, j.depth) {
            return 0;
        }
        let best = self.window.best(j.table, j.p as u32);
        let moves = self.window.route(self.floor, best.target, &mut self.out);
        packed(best.figure as usize, best.target, moves)
    }
}

// The proved lookahead, with the lists that it is lent and that are never cleared.
struct Proved {
    base: u32,
    mark: Vec<u32>,
    cost: Vec<u16>,
    list: Vec<u16>,
    out: [u8; MOST_MOVES],
}

impl Proved {
    fn look(&mut self, j: &Job, s: usize) -> usize {
        let answer = unsafe {
            probe_plan(
                j.side, j.side, j.goals.len(), j.goals[0], *j.goals.last().unwrap(), j.depth, j.p, j.bytes.as_ptr(), j.bytes.len(), s, j.table.as_ptr(), j.table.len(),
                self.base, self.mark.as_mut_ptr(), self.mark.len(), self.cost.as_mut_ptr(), self.cost.len(),
                self.list.as_mut_ptr(), self.list.len(), self.out.as_mut_ptr(), self.out.len(),
            )
        };
        self.base += 16;
        answer
    }
}

// The mean time of a lookahead, over all the starts.
fn time(mut look: impl FnMut(usize) -> usize, depth: usize, starts: &[usize]) -> f64 {
    let rounds = 1 + 40000 / (starts.len() * depth * depth);
    let begun = Instant::now();
    let mut sum = 0usize;
    for _ in 0..rounds {
        for &s in starts {
            sum = sum.wrapping_add(look(s));
        }
    }
    std::hint::black_box(sum);
    begun.elapsed().as_nanos() as f64 / (rounds * starts.len()) as f64
}

fn main() {
    let mut seed = 12345u64;
    let mut random = move || {
        seed = seed.wrapping_mul(6364136223846793005).wrapping_add(1442695040888963407);
        (seed >> 33) as usize
    };
    let small = vec![0u8; 64];
    let open = vec![0u8; 4096];
    let racks: Vec<u8> = (0..4096).map(|c| (c % 64 % 3 == 1 && c / 64 % 8 != 0) as u8).collect();
    let mixed: Vec<u8> = (0..4096).map(|_| (random() % 3 == 0) as u8).collect();
    // the same racks with every other aisle across a charging lane
    let lanes: Vec<u8> = (0..4096).map(|c| if c / 64 % 16 == 0 { SLOW } else { racks[c] }).collect();
    println!("{:31} {:>5} {:>10} {:>10} {:>6}", "floor", "depth", "proved ns", "plain ns", "ratio");
    for (name, side, bytes, benches, depths) in [
        ("open 8 x 8", 8, &small, 1, &[1][..]),
        ("open 64 x 64", 64, &open, 1, &[1, 4, 8]),
        ("racks 64 x 64", 64, &racks, 1, &[1, 4, 8]),
        ("random 64 x 64, a third blocked", 64, &mixed, 1, &[1, 4, 8]),
        ("lanes 64 x 64", 64, &lanes, 1, &[1, 4, 8]),
        ("racks 64 x 64, two benches", 64, &racks, 2, &[1, 4, 8]),
    ] {
        let cells = side * side;
        // the last free cell is a bench, and where there are two the first free one too
        let plain = |c: &usize| bytes[*c] == 0;
        let both = [(0..cells).find(plain).unwrap(), (0..cells).rev().find(plain).unwrap()];
        let goals = &both[2 - benches..];
        let table: Vec<u32> = (0..cells).map(|c: usize| goals.iter().map(|goal| {
            let (dx, dy) = ((c % side).abs_diff(goal % side), (c / side).abs_diff(goal / side));
            (16 * (14 * dx.min(dy) + 10 * dx.abs_diff(dy))) as u32
        }).min().unwrap()).collect();
        // The list of exits is made once for a floor, as the second program does.
        let floor = Floor::new(side, side, bytes);
        for &depth in depths {
            let j = Job { side, goals, depth, p: 16, bytes, table: &table };
            let mut ours =
                Proved { base: 1, mark: vec![0; PLACES], cost: vec![0; PLACES], list: vec![0; LISTED], out: [0; MOST_MOVES] };
            let mut plain = Plain { floor: &floor, window: Window::new(), out: [0; MOST_MOVES] };
            let mut starts = vec![];
            for s in (0..cells).filter(|&s| bytes[s] != BLOCKED && !goals.contains(&s)) {
                let (x, y) = (ours.look(&j, s), plain.look(&j, s));
                let moves = x % 256;
                assert!(x == y && ours.out[..moves] == plain.out[..moves], "{name} {depth} {s}: {x} {y}");
                if x != 0 {
                    starts.push(s);
                }
            }
            let (mut p, mut q) = (f64::MAX, f64::MAX);
            for _ in 0..5 {
                p = p.min(time(|s| ours.look(&j, s), depth, &starts));
                q = q.min(time(|s| plain.look(&j, s), depth, &starts));
            }
            println!("{name:31} {depth:5} {p:10.0} {q:10.0} {:6.2}", p / q);
        }
    }
}

// Microseconds for opening a 64 × 64 job: the proved call beside an opening in plain Rust by the same search, and one by Dijkstra with a binary heap, in one run.
use std::cmp::Reverse;
use std::collections::BinaryHeap;
use std::time::Instant;

// The exports of crates/probe and crates/probe_search; a slice is its first entry and its length.
extern "C" {
    fn probe_open(width: usize, height: usize, start: usize, count: usize, goal: usize, q: usize, floor: *const u8, floor_len: usize, table: *const u32, table_len: usize) -> usize;
    fn probe_distances(width: usize, height: usize, count: usize, goal: usize, other: usize, floor: *const u8, floor_len: usize, dist: *mut u32, dist_len: usize) -> usize;
}

const SIDE: usize = 64;
const CELLS: usize = SIDE * SIDE;
const Q: usize = 16;
const CEILING: u32 = 1_834_560;
const FAR: u32 = CEILING;
const FARTHEST: u32 = 28 * (CELLS as u32 - 1);

// The bytes of free cells: an ordinary one, and a slow one, at which a move costs double.
const FREE: u8 = 0;
const SLOW: u8 = 2;

// An entry of the search in rising order: the distance above, the next cell of the queue below.
const LINK: u32 = 13;
const END: usize = (1 << LINK) - 1;
const NONE: u32 = u32::MAX >> LINK;
// What moves cost: straight and diagonal, and the same doubled, which a floor without slow cells has no use for.
const COSTS: [u32; 4] = [10, 14, 20, 28];

// Lists without a test of their bounds: the proved code has none either.
struct Bare<'a, T>(&'a mut [T]);

impl<T: Copy> Bare<'_, T> {
    #[inline(always)]
    fn at(&self, i: usize) -> T {
        unsafe { *self.0.get_unchecked(i) }
    }

    #[inline(always)]
    fn set(&mut self, i: usize, value: T) {
        unsafe { *self.0.get_unchecked_mut(i) = value }
    }
}

#[inline(always)]
fn byte(floor: &[u8], cell: usize) -> u8 {
    unsafe { *floor.get_unchecked(cell) }
}

// Here and below, `HAS_SLOW` says whether the floor has slow cells; one without them pays nothing for them.
#[inline(always)]
fn free<const HAS_SLOW: bool>(floor: &[u8], cell: usize) -> bool {
    let byte = byte(floor, cell);
    byte == FREE || HAS_SLOW && byte == SLOW
}

// Which of the straight cells beside a cell are free: north, east, south, west.
#[inline(always)]
fn sides<const HAS_SLOW: bool>(width: usize, height: usize, floor: &[u8], cell: usize) -> [bool; 4] {
    let (x, y) = (cell % width, cell / width);
    [
        y > 0 && free::<HAS_SLOW>(floor, cell - width),
        x + 1 < width && free::<HAS_SLOW>(floor, cell + 1),
        y + 1 < height && free::<HAS_SLOW>(floor, cell + width),
        x > 0 && free::<HAS_SLOW>(floor, cell - 1),
    ]
}

// The same search, tuned by hand in plain Rust: one list, the queue linked inside it, a place for each cost in use.
fn rising(width: usize, height: usize, floor: &[u8], goal: usize, list: &mut [u32]) {
    if floor.contains(&SLOW) {
        rising_by::<true, 4>(width, height, floor, goal, list)
    } else {
        rising_by::<false, 2>(width, height, floor, goal, list)
    }
}

fn rising_by<const HAS_SLOW: bool, const USED: usize>(width: usize, height: usize, floor: &[u8], goal: usize, list: &mut [u32]) {
    list.fill(u32::MAX);
    let mut search = Rising::<HAS_SLOW, USED> { width, height, floor, list: Bare(list), places: [goal; USED], last: goal };
    search.list.set(goal, END as u32);
    while search.step() {}
    for entry in search.list.0 {
        *entry = if *entry >> LINK < NONE { *entry >> LINK } else { FAR };
    }
}

struct Rising<'a, const HAS_SLOW: bool, const USED: usize> {
    width: usize,
    height: usize,
    floor: &'a [u8],
    list: Bare<'a, u32>,
    places: [usize; USED],
    last: usize,
}

impl<const HAS_SLOW: bool, const USED: usize> Rising<'_, HAS_SLOW, USED> {
    #[inline(always)]
    fn offer(&self, k: usize) -> u32 {
        if self.places[k] == END { NONE } else { (self.list.at(self.places[k]) >> LINK) + COSTS[k] }
    }

    // Goes on from the place with the least offer, by a branch for each cost: a branch can be foreseen. False where no place is left.
    #[inline(always)]
    fn step(&mut self) -> bool {
        let (straight, diagonal) = (self.offer(0), self.offer(1));
        if HAS_SLOW {
            let (slow_straight, slow_diagonal) = (self.offer(2), self.offer(3));
            let slow = slow_straight.min(slow_diagonal);
            if slow < straight.min(diagonal) {
                return if slow_straight == slow { self.follow::<2>(slow) } else { self.follow::<3>(slow) };
            }
        }
        if diagonal < straight {
            self.follow::<1>(diagonal)
        } else {
            self.follow::<0>(straight)
        }
    }

    #[inline(always)]
    fn follow<const K: usize>(&mut self, v: u32) -> bool {
        if v == NONE {
            return false;
        }
        let (cell, before) = (self.places[K], self.last);
        let slow = HAS_SLOW && byte(self.floor, cell) == SLOW;
        let doubled = K > 1;
        let leads_on = if slow { doubled } else { !doubled || self.may_meet_slow::<K>(cell) };
        if leads_on {
            let (width, up) = (self.width, cell.wrapping_sub(self.width));
            let [north, east, south, west] = sides::<HAS_SLOW>(width, self.height, self.floor, cell);
            let moves = if K % 2 == 0 {
                [(north, up), (east, cell + 1), (south, cell + width), (west, cell.wrapping_sub(1))]
            } else {
                [(north && east, up.wrapping_add(1)), (south && east, cell + width + 1), (south && west, cell + width - 1), (north && west, up.wrapping_sub(1))]
            };
            for (clear, to) in moves {
                // a doubled cost leads from a slow cell to any free one and from an ordinary one to slow ones; a plain cost between ordinary ones
                let fits = || if slow { free::<HAS_SLOW>(self.floor, to) } else { byte(self.floor, to) == if doubled { SLOW } else { FREE } };
                if clear && (!HAS_SLOW && K == 0 || fits()) {
                    self.reach(to, v);
                }
            }
        }
        for place in &mut self.places {
            if *place == END {
                *place = self.list.at(before) as usize & END;
            }
        }
        self.places[K] = self.list.at(cell) as usize & END;
        true
    }

    // Whether a move of the cost K may lead to a slow cell: tested ahead of all else, and so roughly that past an edge the next row is looked at.
    #[inline(always)]
    fn may_meet_slow<const K: usize>(&self, cell: usize) -> bool {
        let (up, down) = (cell.wrapping_sub(self.width), cell + self.width);
        let straight = [up, cell.wrapping_sub(1), cell + 1, down];
        let diagonal = [up.wrapping_sub(1), up.wrapping_add(1), down - 1, down + 1];
        let ways = if K % 2 == 0 { straight } else { diagonal };
        ways.iter().any(|&to| to < self.floor.len() && byte(self.floor, to) == SLOW)
    }

    #[inline(always)]
    fn reach(&mut self, to: usize, v: u32) {
        if self.list.at(to) >> LINK == NONE {
            self.list.set(self.last, self.list.at(self.last) & !(END as u32) | to as u32);
            self.list.set(to, v << LINK | END as u32);
            self.last = to;
        }
    }
}

// Dijkstra as the textbooks have it: a heap of distances, and what was reached more cheaply since is passed over.
fn heap(width: usize, height: usize, floor: &[u8], goal: usize, dist: &mut [u32]) {
    if floor.contains(&SLOW) {
        heap_by::<true>(width, height, floor, goal, dist)
    } else {
        heap_by::<false>(width, height, floor, goal, dist)
    }
}

fn heap_by<const HAS_SLOW: bool>(width: usize, height: usize, floor: &[u8], goal: usize, dist: &mut [u32]) {
    dist.fill(FAR);
    let mut dist = Bare(dist);
    dist.set(goal, 0);
    let mut heap = BinaryHeap::from([Reverse((0, goal as u32))]);
    while let Some(Reverse((d, cell))) = heap.pop() {
        let cell = cell as usize;
        if dist.at(cell) < d {
            continue;
        }
        let [north, east, south, west] = sides::<HAS_SLOW>(width, height, floor, cell);
        let up = cell.wrapping_sub(width);
        let slow = HAS_SLOW && byte(floor, cell) == SLOW;
        let mut reach = |clear: bool, to: usize, cost: u32| {
            if !clear || !free::<HAS_SLOW>(floor, to) {
                return;
            }
            let cost = if slow || HAS_SLOW && byte(floor, to) == SLOW { 2 * cost } else { cost };
            if d + cost < dist.at(to) {
                dist.set(to, d + cost);
                heap.push(Reverse((d + cost, to as u32)));
            }
        };
        reach(north, up, 10);
        reach(north && east, up.wrapping_add(1), 14);
        reach(east, cell + 1, 10);
        reach(south && east, cell + width + 1, 14);
        reach(south, cell + width, 10);
        reach(south && west, cell + width - 1, 14);
        reach(west, cell.wrapping_sub(1), 10);
        reach(north && west, up.wrapping_sub(1), 14);
    }
}

type Search = fn(usize, usize, &[u8], usize, &mut [u32]);

// A plain opening, by either search: places, figures, a walk from the start, no figure above the truth. The number that it answers.
fn plain_open(search: Search, width: usize, height: usize, floor: &[u8], start: usize, goal: usize, table: &[u32]) -> usize {
    if !free::<true>(floor, start) || !free::<true>(floor, goal) {
        return 4;
    }
    if table.iter().any(|&figure| figure > CEILING) {
        return 5;
    }
    let mut room = [0u32; CELLS];
    let dist = &mut room[..floor.len()];
    search(width, height, floor, goal, dist);
    if dist[start] >= FAR {
        return 6;
    }
    7 * usize::from(dist.iter().zip(table).any(|(&d, &figure)| d < FAR && Q as u32 * d < figure))
}

// The least of seven means over many calls, in microseconds.
fn micros(mut call: impl FnMut() -> usize) -> f64 {
    let mean = |_| {
        let begun = Instant::now();
        for _ in 0..200 {
            std::hint::black_box(call());
        }
        begun.elapsed().as_secs_f64() * 1e6 / 200.0
    };
    (0..7).map(mean).fold(f64::MAX, f64::min)
}

fn cells(blocked: impl Fn(usize, usize) -> bool) -> Vec<u8> {
    (0..CELLS).map(|cell| blocked(cell % SIDE, cell / SIDE) as u8).collect()
}

fn racks() -> Vec<u8> {
    cells(|x, y| x % 3 != 0 && y % 8 != 0)
}

// The same racks with every other aisle across a charging lane.
fn lanes() -> Vec<u8> {
    let mut floor = racks();
    for row in (0..SIDE).step_by(16) {
        floor[row * SIDE..][..SIDE].fill(SLOW);
    }
    floor
}

// A corridor one cell wide that winds inward from the first cell, clockwise, with walls one cell thick; and its last cell.
fn spiral() -> (Vec<u8>, usize) {
    let mut floor = vec![1u8; CELLS];
    floor[0] = 0;
    let (mut x, mut y, mut turn, mut stuck) = (0i32, 0i32, 0, 0);
    while stuck < 2 {
        let (dx, dy) = [(1, 0), (0, 1), (-1, 0), (0, -1)][turn % 4];
        let on = |x: i32, y: i32| (0..SIDE as i32).contains(&x) && (0..SIDE as i32).contains(&y);
        let free = |x: i32, y: i32| on(x, y) && floor[y as usize * SIDE + x as usize] == 0;
        if on(x + dx, y + dy) && !free(x + dx, y + dy) && !free(x + 2 * dx, y + 2 * dy) {
            (x, y, stuck) = (x + dx, y + dy, 0);
            floor[y as usize * SIDE + x as usize] = 0;
        } else {
            (turn, stuck) = (turn + 1, stuck + 1);
        }
    }
    (floor, y as usize * SIDE + x as usize)
}

// A third of the cells blocked, by a fixed sequence: the first such floor on which half of the cells can be reached from the first one.
fn random() -> Vec<u8> {
    let mut state = 1u64;
    loop {
        let mut floor: Vec<u8> = (0..CELLS)
            .map(|_| {
                state = state.wrapping_mul(6364136223846793005).wrapping_add(1442695040888963407);
                ((state >> 33) % 3 == 0) as u8
            })
            .collect();
        floor[0] = 0;
        let mut dist = vec![0; CELLS];
        heap(SIDE, SIDE, &floor, 0, &mut dist);
        if dist.iter().filter(|&&d| d < FAR).count() > CELLS / 2 {
            return floor;
        }
    }
}

// Bands of four rows, in each a corridor that goes up and down every two columns, joined at their ends.
fn comb() -> Vec<u8> {
    cells(|x, y| {
        let joined = x == if y / 4 % 2 == 0 { SIDE - 1 } else { 0 };
        !(joined || y % 4 < 3 && (x % 2 == 0 || y % 4 == 2 * usize::from(x % 4 == 1)))
    })
}

fn main() {
    let (spiral, centre) = spiral();
    let floors = [
        ("open", cells(|_, _| false), CELLS - 1),
        ("racks", racks(), CELLS - 1),
        ("random", random(), CELLS - 1),
        ("snake", cells(|x, y| y % 2 == 1 && x != if y % 4 == 1 { SIDE - 1 } else { 0 }), CELLS - 2 * SIDE),
        ("spiral", spiral, centre),
        ("comb", comb(), CELLS - 1),
        ("lanes", lanes(), CELLS - 1),
    ];
    println!("opening a 64 x 64 job: us    ns a free cell    same search in plain Rust: us, ratio    binary heap: us, ratio");
    for (name, floor, far) in floors {
        // the goal is the last cell up to `far` that the first cell can reach
        let mut dist = vec![0u32; CELLS];
        heap(SIDE, SIDE, &floor, 0, &mut dist);
        let goal = (0..=far).rev().find(|&cell| dist[cell] < FAR).unwrap();
        let (mut a, mut b) = (vec![0u32; CELLS], vec![0u32; CELLS]);
        unsafe { probe_distances(SIDE, SIDE, 1, goal, goal, floor.as_ptr(), CELLS, a.as_mut_ptr(), CELLS) };
        // where there is none, the proved search writes a number of its own, above every distance
        a.iter_mut().filter(|d| **d > FARTHEST).for_each(|d| *d = FAR);
        rising(SIDE, SIDE, &floor, goal, &mut b);
        heap(SIDE, SIDE, &floor, goal, &mut dist);
        assert!(a == dist && b == dist, "{name}: the distances differ");
        // a table that every check passes: each figure at the truth, and the ceiling where there is none
        let table: Vec<u32> = dist.iter().map(|&d| if d < FAR { Q as u32 * d } else { CEILING }).collect();
        let (side, floor) = std::hint::black_box((SIDE, &floor));
        let proved = || unsafe { probe_open(side, side, 0, 1, goal, Q, floor.as_ptr(), CELLS, table.as_ptr(), CELLS) };
        let plain = |search| plain_open(search, side, side, floor, 0, goal, &table);
        assert!(proved() == 0 && plain(rising) == 0 && plain(heap) == 0, "{name}: refused");
        let (ours, same, other) = (micros(proved), micros(|| plain(rising)), micros(|| plain(heap)));
        let free = (0..CELLS).filter(|&cell| free::<true>(floor, cell)).count();
        println!("{name:8} {ours:9.1} {:9.1} {same:9.1} {:6.2} {other:9.1} {:6.2}", ours * 1e3 / free as f64, ours / same, ours / other);
    }
}

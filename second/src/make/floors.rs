//! Floors of every kind: open, racks and aisles, rooms with doors, mazes, snakes, short walls, posts, random ones, and
//! racks with charging lanes. Of these only the last has slow cells; `slow` lays them on any.

use super::dice::Dice;
use crate::floor::{BLOCKED, FREE, SLOW};

#[derive(Clone, Copy, Debug, PartialEq, Eq)]
pub enum Kind {
    Open,
    Racks,
    Rooms,
    Maze,
    Snake,
    Walls,
    Posts,
    Random,
    Lanes,
}

pub const KINDS: [(&str, Kind); 9] = [
    ("open", Kind::Open),
    ("racks", Kind::Racks),
    ("rooms", Kind::Rooms),
    ("maze", Kind::Maze),
    ("snake", Kind::Snake),
    ("walls", Kind::Walls),
    ("posts", Kind::Posts),
    ("random", Kind::Random),
    ("lanes", Kind::Lanes),
];

/// A grid while it is made: its bytes are free, blocked or slow.
struct Grid {
    width: usize,
    height: usize,
    bytes: Vec<u8>,
}

impl Grid {
    fn filled(width: usize, height: usize, blocked: bool) -> Grid {
        Grid { width, height, bytes: vec![free_or_blocked(blocked); width * height] }
    }

    fn set(&mut self, x: usize, y: usize, blocked: bool) {
        self.bytes[y * self.width + x] = free_or_blocked(blocked);
    }

    fn is_blocked(&self, x: usize, y: usize) -> bool {
        self.bytes[y * self.width + x] == BLOCKED
    }

    fn turned(self) -> Grid {
        let mut grid = Grid::filled(self.height, self.width, false);
        for y in 0..self.height {
            for x in 0..self.width {
                grid.bytes[x * self.height + y] = self.bytes[y * self.width + x];
            }
        }
        grid
    }
}

fn free_or_blocked(blocked: bool) -> u8 {
    if blocked {
        BLOCKED
    } else {
        FREE
    }
}

/// Width and height: mostly small, so that every rule is exercised, now and then the largest.
pub fn sizes(dice: &mut Dice) -> (usize, usize) {
    sizes_by([8, 54, 20, 4, 2], dice)
}

/// Width and height that leave a cart some way to go.
pub fn larger_sizes(dice: &mut Dice) -> (usize, usize) {
    sizes_by([0, 30, 50, 14, 6], dice)
}

fn sizes_by(weights: [u64; 5], dice: &mut Dice) -> (usize, usize) {
    let (low, high) = [(1, 3), (2, 9), (6, 20), (20, 64), (64, 64)][dice.weighted(&weights)];
    let mut width = dice.from_to(low, high) as usize;
    let mut height = dice.from_to(low, high) as usize;
    if dice.chance(6) {
        width = dice.from_to(1, 3) as usize;
        height = dice.from_to(1, 64) as usize;
    }
    if dice.chance(10) {
        std::mem::swap(&mut width, &mut height);
    }
    (width, height)
}

pub fn kind(dice: &mut Dice) -> Kind {
    KINDS[dice.weighted(&[10, 14, 12, 12, 10, 9, 9, 24, 5])].1
}

/// The bytes of a floor. A blocked byte is mostly 1, sometimes anything but 0 and 2, often 3 or 255.
pub fn floor(kind: Kind, width: usize, height: usize, dice: &mut Dice) -> Vec<u8> {
    let mut grid = if kind != Kind::Open && dice.chance(40) {
        grid(kind, height, width, dice).turned()
    } else {
        grid(kind, width, height, dice)
    };
    if dice.chance(8) {
        let cell = dice.index(grid.bytes.len());
        grid.bytes[cell] = free_or_blocked(grid.bytes[cell] != BLOCKED);
    }
    if dice.chance(20) {
        for byte in grid.bytes.iter_mut().filter(|byte| **byte == BLOCKED) {
            *byte = match dice.from_to(1, 255) as u8 {
                2..=63 => 3,
                192..=255 => 255,
                any => any,
            };
        }
    }
    grid.bytes
}

fn grid(kind: Kind, width: usize, height: usize, dice: &mut Dice) -> Grid {
    match kind {
        Kind::Open => Grid::filled(width, height, false),
        Kind::Racks => racks(width, height, dice),
        Kind::Rooms => rooms(width, height, dice),
        Kind::Maze => maze(width, height, dice),
        Kind::Snake => snake(width, height, dice),
        Kind::Walls => walls(width, height, dice),
        Kind::Posts => posts(width, height, dice),
        Kind::Random => random(width, height, dice),
        Kind::Lanes => lanes(width, height, dice),
    }
}

fn racks(width: usize, height: usize, dice: &mut Dice) -> Grid {
    let pitch = dice.from_to(2, 4) as usize;
    racks_by(pitch, width, height, dice)
}

/// Racks with every other aisle a charging lane.
fn lanes(width: usize, height: usize, dice: &mut Dice) -> Grid {
    let pitch = dice.from_to(2, 4) as usize;
    let mut grid = racks_by(pitch, width, height, dice);
    for y in (0..height).step_by(2 * pitch) {
        grid.bytes[y * width..][..width].fill(SLOW);
    }
    grid
}

/// An aisle row, then rows of racks, which only the cross aisles interrupt; the next aisle is `pitch` rows on.
fn racks_by(pitch: usize, width: usize, height: usize, dice: &mut Dice) -> Grid {
    let cross = dice.from_to(2, 10) as usize;
    let first_cross = dice.index(cross);
    let mut grid = Grid::filled(width, height, false);
    for y in (0..height).filter(|y| y % pitch != 0) {
        for x in (0..width).filter(|x| x % cross != first_cross) {
            grid.set(x, y, true);
        }
    }
    grid
}

/// Square rooms; most walls between two rooms have one door.
fn rooms(width: usize, height: usize, dice: &mut Dice) -> Grid {
    let side = dice.from_to(3, 8) as usize;
    let mut grid = Grid::filled(width, height, false);
    for y in 0..height {
        for x in 0..width {
            grid.set(x, y, x % side == side - 1 || y % side == side - 1);
        }
    }
    for y in (0..height).step_by(side) {
        for x in (0..width).step_by(side) {
            let (right, below) = (x + side - 1, y + side - 1);
            let (door_x, door_y) = (x + dice.index(side - 1), y + dice.index(side - 1));
            if dice.chance(85) && right < width && door_y < height {
                grid.set(right, door_y, false);
            }
            if dice.chance(85) && below < height && door_x < width {
                grid.set(door_x, below, false);
            }
        }
    }
    grid
}

/// A maze with one way between any two of its even cells, carved depth first.
fn maze(width: usize, height: usize, dice: &mut Dice) -> Grid {
    let mut grid = Grid::filled(width, height, true);
    grid.set(0, 0, false);
    let mut stack = vec![(0usize, 0usize)];
    while let Some(&(x, y)) = stack.last() {
        let mut ways = Vec::new();
        for (dx, dy) in [(2i64, 0i64), (0, 2), (-2, 0), (0, -2)] {
            let (to_x, to_y) = (x as i64 + dx, y as i64 + dy);
            let on_grid = to_x >= 0 && to_y >= 0 && to_x < width as i64 && to_y < height as i64;
            if on_grid && grid.is_blocked(to_x as usize, to_y as usize) {
                ways.push((to_x as usize, to_y as usize));
            }
        }
        if ways.is_empty() {
            stack.pop();
        } else {
            let (to_x, to_y) = dice.pick(&ways);
            grid.set((x + to_x) / 2, (y + to_y) / 2, false);
            grid.set(to_x, to_y, false);
            stack.push((to_x, to_y));
        }
    }
    grid
}

/// One long way: every other row is a wall with a gap at alternating ends.
fn snake(width: usize, height: usize, dice: &mut Dice) -> Grid {
    let first_right = dice.chance(50);
    let mut grid = Grid::filled(width, height, false);
    for y in (1..height).step_by(2) {
        let gap = if (y / 2 % 2 == 0) == first_right { width - 1 } else { 0 };
        for x in (0..width).filter(|&x| x != gap) {
            grid.set(x, y, true);
        }
    }
    grid
}

/// Short straight walls on an open floor, round which two ways often cost the same.
fn walls(width: usize, height: usize, dice: &mut Dice) -> Grid {
    let mut grid = Grid::filled(width, height, false);
    for _ in 0..width * height / 14 + 1 {
        let (mut x, mut y) = (dice.index(width), dice.index(height));
        let (right, down) = dice.pick(&[(1, 0), (0, 1)]);
        for _ in 0..dice.from_to(1, 5) {
            if x < width && y < height {
                grid.set(x, y, true);
            }
            (x, y) = (x + right, y + down);
        }
    }
    grid
}

/// Posts that stand corner to corner in slanting lines, which no cart passes between, and single ones, which it goes round.
fn posts(width: usize, height: usize, dice: &mut Dice) -> Grid {
    let mut grid = Grid::filled(width, height, false);
    for _ in 0..width * height / 20 + 1 {
        let (mut x, mut y) = (dice.index(width), dice.index(height));
        let left = dice.chance(50);
        for _ in 0..dice.from_to(1, 6) {
            if x < width && y < height {
                grid.set(x, y, true);
            }
            (x, y) = (if left { x.wrapping_sub(1) } else { x + 1 }, y + 1);
        }
    }
    grid
}

fn random(width: usize, height: usize, dice: &mut Dice) -> Grid {
    let percent = dice.from_to(0, 45);
    let mut grid = Grid::filled(width, height, false);
    for byte in &mut grid.bytes {
        *byte = free_or_blocked(dice.chance(percent));
    }
    grid
}

//! The floor: its cells, its eight moves, which of them are allowed from each cell, and what they cost.

pub const MOST_SIDE: u64 = 64;
pub const MOST_CELLS: usize = 64 * 64;

/// Masking a cell number with this keeps it inside an array of `MOST_CELLS` without a bounds check.
pub const CELL_MASK: usize = MOST_CELLS - 1;

/// The byte of a free cell.
pub const FREE: u8 = 0;
/// The byte of a blocked cell; every byte without a name here means blocked too.
pub const BLOCKED: u8 = 1;
/// The byte of a slow cell, which is free: a move that begins or ends there costs double.
pub const SLOW: u8 = 2;

/// Whether a floor byte means a free cell, slow or not: both are asked for by one test.
pub fn is_free_byte(byte: u8) -> bool {
    byte & !SLOW == FREE
}

/// The cost of each move, clockwise from north, where neither of its ends is slow.
const MOVE_COST: [u32; 8] = [10, 14, 10, 14, 10, 14, 10, 14];

/// The same by which moves of a cell are slow, one bit each: those cost double.
static PRICES: [[u32; 8]; 256] = {
    let mut prices = [MOVE_COST; 256];
    let mut at = 0;
    while at < 256 * 8 {
        let (slow, way) = (at / 8, at % 8);
        prices[slow][way] <<= slow >> way & 1;
        at += 1;
    }
    prices
};

/// Columns and rows that each move goes, clockwise from north.
const MOVE_BY: [(i64, i64); 8] = [(0, -1), (1, -1), (1, 0), (1, 1), (0, 1), (-1, 1), (-1, 0), (-1, -1)];

/// The moves ordered by the number of the cell they lead to: NW, N, NE, W, E, SW, S, SE.
pub const MOVES_BY_CELL: [usize; 8] = [7, 0, 1, 6, 2, 5, 4, 3];

/// The move that undoes a move.
pub fn opposite(way: usize) -> usize {
    (way + 4) % 8
}

/// Of the moves from a cell that lead to a free cell, those that pass no corner: a diagonal one is kept where
/// the straight moves before and after it, clockwise, lead to free cells too.
fn past_no_corner(ways: u8) -> u8 {
    let straight = ways & 0b0101_0101;
    let beside = straight.rotate_left(1) & straight.rotate_right(1);
    ways & (straight | beside)
}

/// For each cell, which of its moves lead to a marked cell, one bit each.
fn ways_into(width: usize, height: usize, marked: &[bool]) -> Vec<u8> {
    let mut into_marked = vec![0u8; marked.len()];
    for (way, &(right, down)) in MOVE_BY.iter().enumerate() {
        // The columns and rows from which this move stays on the floor, and where it then leads.
        let columns = usize::from(right < 0)..width - usize::from(right > 0);
        let first = (columns.start as i64 + right) as usize;
        for row in usize::from(down < 0)..height - usize::from(down > 0) {
            let from = &mut into_marked[row * width..][columns.clone()];
            let into = &marked[(row as i64 + down) as usize * width..][first..first + from.len()];
            for (ways, &marked) in from.iter_mut().zip(into) {
                *ways |= u8::from(marked) << way;
            }
        }
    }
    into_marked
}

pub struct Floor {
    pub width: usize,
    pub height: usize,
    /// For each cell, bit k is set when move k is allowed from it.
    exits: Vec<u8>,
    /// For each cell, bit k is set when move k from it begins or ends in a slow cell; empty where no cell is slow.
    slow_ways: Vec<u8>,
    /// What each move adds to a cell number, wrapping for the moves that lower it.
    step: [usize; 8],
}

impl Floor {
    /// The caller has checked the sizes: sides 1 to 64, and as many bytes as cells.
    pub fn new(width: usize, height: usize, bytes: &[u8]) -> Floor {
        let free: Vec<bool> = bytes.iter().map(|&byte| is_free_byte(byte)).collect();
        let mut exits = ways_into(width, height, &free);
        for ways in &mut exits {
            *ways = past_no_corner(*ways);
        }
        let mut slow_ways = Vec::new();
        if bytes.contains(&SLOW) {
            let slow: Vec<bool> = bytes.iter().map(|&byte| byte == SLOW).collect();
            slow_ways = ways_into(width, height, &slow);
            for (ways, &slow) in slow_ways.iter_mut().zip(&slow) {
                *ways |= if slow { u8::MAX } else { 0 };
            }
        }
        let step = MOVE_BY.map(|(right, down)| (down * width as i64 + right) as usize);
        Floor { width, height, exits, slow_ways, step }
    }

    pub fn cells(&self) -> usize {
        self.exits.len()
    }

    /// The moves allowed from a cell, one bit each.
    #[inline(always)]
    pub fn exits(&self, cell: usize) -> u8 {
        self.exits[cell]
    }

    /// Whether any cell is slow.
    pub fn has_slow(&self) -> bool {
        !self.slow_ways.is_empty()
    }

    /// What each move from a cell costs. `HAS_SLOW` is what `has_slow` answers, asked once for many cells: a floor
    /// without slow cells then pays nothing for them.
    #[inline(always)]
    pub fn prices<const HAS_SLOW: bool>(&self, cell: usize) -> &'static [u32; 8] {
        if HAS_SLOW {
            &PRICES[usize::from(self.slow_ways[cell])]
        } else {
            &MOVE_COST
        }
    }

    /// What a move from a cell costs; the way back costs the same.
    pub fn price(&self, cell: usize, way: usize) -> u32 {
        let slow = self.slow_ways.get(cell).map_or(0, |&ways| usize::from(ways));
        PRICES[slow][way & 7]
    }

    /// The cell that an allowed move leads to.
    #[inline(always)]
    pub fn after(&self, cell: usize, way: usize) -> usize {
        cell.wrapping_add(self.step[way & 7])
    }
}

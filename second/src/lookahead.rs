//! The lookahead: rings, window, w, new figure, target and route of one cell, worked out in its window only.

use crate::floor::{opposite, Floor, CELL_MASK, MOST_CELLS, MOVES_BY_CELL};

/// The ring of a cell outside the window.
const OUTSIDE: u8 = u8::MAX;

/// The fewest moves to a cell for which they aren't counted.
const UNCOUNTED: u8 = u8::MAX;

/// The deepest lookahead that the settings allow.
pub const MOST_DEPTH: usize = 8;

/// A window has at most 17 x 17 cells and a route visits none twice.
pub const MOST_MOVES: usize = 288;

/// What a table makes of a window.
#[derive(Clone, Copy, Debug, PartialEq, Eq)]
pub struct Best {
    pub figure: u32,
    pub target: usize,
}

/// A window, kept from one lookahead to the next so that nothing is allocated or cleared for the whole floor.
pub struct Window {
    ring: Box<[u8; MOST_CELLS]>,
    cost: Box<[u32; MOST_CELLS]>,
    /// The window's cells ring by ring; ring k is `cells[begin[k]..begin[k + 1]]`.
    cells: Vec<u16>,
    begin: [usize; MOST_DEPTH + 2],
    last_ring: usize,
    /// Cells whose w became less after their moves had been followed.
    again: Vec<u16>,
    /// The fewest moves of a cheapest walk, of the cells that are listed in `counted`.
    fewest: Box<[u8; MOST_CELLS]>,
    counted: Vec<u16>,
}

impl Default for Window {
    fn default() -> Window {
        Window::new()
    }
}

impl Window {
    pub fn new() -> Window {
        Window {
            ring: Box::new([OUTSIDE; MOST_CELLS]),
            cost: Box::new([0; MOST_CELLS]),
            cells: Vec::with_capacity(MOST_MOVES + 1),
            begin: [0; MOST_DEPTH + 2],
            last_ring: 0,
            again: Vec::new(),
            fewest: Box::new([UNCOUNTED; MOST_CELLS]),
            counted: Vec::new(),
        }
    }

    /// Works out rings and w from `from`, which is free and no goal.
    /// Answers false when a ring up to the depth is empty and no goal is in one before it.
    pub fn look(&mut self, floor: &Floor, from: usize, goals: &[usize], depth: usize) -> bool {
        if floor.has_slow() {
            self.look_by::<true>(floor, from, goals, depth)
        } else {
            self.look_by::<false>(floor, from, goals, depth)
        }
    }

    fn look_by<const HAS_SLOW: bool>(
        &mut self,
        floor: &Floor,
        from: usize,
        goals: &[usize],
        depth: usize,
    ) -> bool {
        for &cell in &self.cells {
            self.ring[cell as usize & CELL_MASK] = OUTSIDE;
        }
        self.cells.clear();
        self.again.clear();
        self.cells.push(from as u16);
        self.ring[from & CELL_MASK] = 0;
        self.cost[from & CELL_MASK] = 0;

        // Rings grow by breadth; w is followed in the same pass, and is nearly always right at once,
        // because the cheapest walk seldom needs more moves than the ring. Where it does, `settle` mends it.
        let mut last_ring = depth.min(MOST_DEPTH);
        let mut next = 0;
        let mut k = 0;
        loop {
            let end = self.cells.len();
            if next == end {
                self.last_ring = 0;
                return false;
            }
            self.begin[k] = next;
            self.begin[k + 1] = end;
            let grows = k < last_ring;
            while next < end {
                let x = self.cells[next] as usize;
                next += 1;
                let w = self.cost[x & CELL_MASK];
                let prices = floor.prices::<HAS_SLOW>(x);
                let mut exits = floor.exits(x);
                while exits != 0 {
                    let way = exits.trailing_zeros() as usize;
                    exits &= exits - 1;
                    let y = floor.after(x, way);
                    let new = w + prices[way & 7];
                    let ring = self.ring[y & CELL_MASK];
                    if ring == OUTSIDE {
                        if grows {
                            self.ring[y & CELL_MASK] = k as u8 + 1;
                            self.cost[y & CELL_MASK] = new;
                            self.cells.push(y as u16);
                        }
                    } else if new < self.cost[y & CELL_MASK] {
                        self.cost[y & CELL_MASK] = new;
                        if ring as usize <= k {
                            self.again.push(y as u16);
                        }
                    }
                }
            }
            if k == last_ring {
                break;
            }
            k += 1;
            // The ring that has just grown is the first that can hold a goal, and then it is the last.
            if goals.iter().any(|&goal| self.ring[goal & CELL_MASK] != OUTSIDE) {
                last_ring = k;
            }
        }
        self.last_ring = last_ring;
        self.settle::<HAS_SLOW>(floor);
        true
    }

    /// Follows the moves of every cell whose w became less, until none does.
    fn settle<const HAS_SLOW: bool>(&mut self, floor: &Floor) {
        let mut next = 0;
        while next < self.again.len() {
            let x = self.again[next] as usize;
            next += 1;
            let w = self.cost[x & CELL_MASK];
            let prices = floor.prices::<HAS_SLOW>(x);
            let mut exits = floor.exits(x);
            while exits != 0 {
                let way = exits.trailing_zeros() as usize;
                exits &= exits - 1;
                let y = floor.after(x, way);
                let new = w + prices[way & 7];
                if self.ring[y & CELL_MASK] != OUTSIDE && new < self.cost[y & CELL_MASK] {
                    self.cost[y & CELL_MASK] = new;
                    self.again.push(y as u16);
                }
            }
        }
    }

    /// The new figure and the target, by this table and weight.
    pub fn best(&self, table: &[u32], p: u32) -> Best {
        let mut best = Best { figure: 0, target: 0 };
        for k in 1..=self.last_ring {
            let mut least = u32::MAX;
            let mut target = usize::MAX;
            for &cell in &self.cells[self.begin[k]..self.begin[k + 1]] {
                let cell = cell as usize;
                let value = p * self.cost[cell & CELL_MASK] + table[cell];
                if value < least || (value == least && cell < target) {
                    least = value;
                    target = cell;
                }
            }
            best.figure = best.figure.max(least);
            best.target = target;
        }
        best
    }

    /// w of a cell of the window.
    pub fn cost(&self, cell: usize) -> u32 {
        self.cost[cell & CELL_MASK]
    }

    /// The window's cells ring by ring, which the generator looks at.
    pub fn cells(&self) -> &[u16] {
        &self.cells
    }

    /// The ring of a cell of the window.
    pub fn ring(&self, cell: usize) -> Option<u8> {
        self.ring.get(cell).copied().filter(|&ring| ring != OUTSIDE)
    }

    /// Whether a cell is on the last ring.
    pub fn on_last_ring(&self, cell: usize) -> bool {
        self.ring[cell & CELL_MASK] as usize == self.last_ring
    }

    /// Whether a cheapest walk to a cell of the window may come from where this way leads.
    #[inline(always)]
    pub fn comes_from(&self, floor: &Floor, cell: usize, way: usize) -> bool {
        let y = floor.after(cell, way);
        floor.exits(cell) & (1 << way) != 0
            && self.ring[y & CELL_MASK] != OUTSIDE
            && self.cost(y) + floor.price(cell, way) == self.cost(cell)
    }

    /// The fewest moves of a cheapest walk to a cell of the window.
    pub fn fewest_moves(&mut self, floor: &Floor, cell: usize) -> u8 {
        for cell in self.counted.drain(..) {
            self.fewest[usize::from(cell) & CELL_MASK] = UNCOUNTED;
        }
        self.count_moves(floor, cell)
    }

    /// The same, counted once for every cell that a cheapest walk to this one may come through.
    fn count_moves(&mut self, floor: &Floor, cell: usize) -> u8 {
        if self.fewest[cell & CELL_MASK] == UNCOUNTED {
            let mut before = UNCOUNTED;
            for way in 0..8 {
                if self.comes_from(floor, cell, way) {
                    before = before.min(self.count_moves(floor, floor.after(cell, way)));
                }
            }
            // Only where the cart stands does no walk come from anywhere: that is 0 moves.
            self.fewest[cell & CELL_MASK] = before.wrapping_add(1);
            self.counted.push(cell as u16);
        }
        self.fewest[cell & CELL_MASK]
    }

    /// The route to a cell of the window, put in walking order at the front of `moves`; answers how many moves.
    pub fn route(&mut self, floor: &Floor, target: usize, moves: &mut [u8; MOST_MOVES]) -> usize {
        // The lowest cells alone give the route where they give the fewest moves: where these are as few as the ring,
        // and on floors without slow cells, since with costs 10 and 14 alone walks of one cost below 140 have equally
        // many moves, and no leg costs more than 112.
        let mut count = self.trace(floor, target, moves, |_, _| true);
        if floor.has_slow() && count > usize::from(self.ring[target & CELL_MASK]) {
            self.fewest_moves(floor, target);
            let fewest = |cell: usize| self.fewest[cell & CELL_MASK];
            count = self.trace(floor, target, moves, |before, cell| fewest(before) + 1 == fewest(cell));
        }
        moves[..count].reverse();
        count
    }

    /// Goes back from a cell, each time to the lowest-numbered of those that a cheapest walk may come from and that
    /// `may` be before the cell reached; puts down the moves, the last one first, and answers how many.
    fn trace(
        &self,
        floor: &Floor,
        target: usize,
        moves: &mut [u8; MOST_MOVES],
        may: impl Fn(usize, usize) -> bool,
    ) -> usize {
        let mut count = 0;
        let mut x = target;
        while self.cost(x) != 0 && count < MOST_MOVES {
            let before = MOVES_BY_CELL
                .iter()
                .find(|&&way| self.comes_from(floor, x, way) && may(floor.after(x, way), x));
            let Some(&way) = before else { break };
            moves[count] = opposite(way) as u8;
            count += 1;
            x = floor.after(x, way);
        }
        count
    }
}

#[cfg(test)]
pub(crate) mod tests {
    use super::*;
    use crate::floor::{is_free_byte, FREE, SLOW};
    use crate::make::dice::Dice;
    use crate::make::{bends, floors, slow, weaving};

    /// The moves of a floor and their costs, found plainly by columns and rows.
    pub(crate) fn plain_move(width: usize, bytes: &[u8], x: usize, y: usize) -> Option<(u8, u32)> {
        let right = (y % width) as i64 - (x % width) as i64;
        let down = (y / width) as i64 - (x / width) as i64;
        let by = [(0, -1), (1, -1), (1, 0), (1, 1), (0, 1), (-1, 1), (-1, 0), (-1, -1)];
        let way = by.iter().position(|&by| by == (right, down))?;
        // The cells where the rows and columns of both meet: of a diagonal its whole square, of a straight move its ends.
        let (rows, columns) = ([x / width, y / width], [x % width, y % width]);
        let free = |cell: usize| bytes[cell] == 0 || bytes[cell] == 2;
        let clear = rows.iter().all(|row| columns.iter().all(|column| free(row * width + column)));
        let cost = if right != 0 && down != 0 { 14 } else { 10 };
        let doubled = bytes[x] == 2 || bytes[y] == 2;
        clear.then_some((way as u8, if doubled { 2 * cost } else { cost }))
    }

    /// A lookahead by the words of documents 01 and 02, worked out over all pairs of cells.
    struct Plain {
        from: usize,
        /// From, to, the move's number and what it costs.
        pairs: Vec<(usize, usize, u8, u32)>,
        ring: Vec<usize>,
        last: usize,
        /// For each number of moves and each cell, the least cost of a walk in the window of just so many moves to it.
        by_moves: Vec<Vec<u32>>,
        w: Vec<u32>,
        n: Vec<usize>,
    }

    /// A walk in the window that costs w costs at most 8 x 28, and each of its moves at least 10.
    const MOST_MOVES_OF_W: usize = 22;

    impl Plain {
        fn new(width: usize, bytes: &[u8], from: usize, goals: &[usize], depth: usize) -> Plain {
            let cells = bytes.len();
            let mut pairs = Vec::new();
            for (x, y) in (0..cells).flat_map(|x| (0..cells).map(move |y| (x, y))) {
                if let Some((way, cost)) = plain_move(width, bytes, x, y) {
                    pairs.push((x, y, way, cost));
                }
            }
            let mut ring = vec![usize::MAX; cells];
            ring[from] = 0;
            for k in 0..cells {
                for &(x, y, _, _) in &pairs {
                    if ring[x] == k && ring[y] == usize::MAX {
                        ring[y] = k + 1;
                    }
                }
            }
            let last = goals.iter().map(|&goal| ring[goal]).fold(depth, usize::min);
            let mut plain =
                Plain { from, pairs, ring, last, by_moves: Vec::new(), w: Vec::new(), n: Vec::new() };
            plain.find_walks();
            plain
        }

        /// Finds w, and n: the fewest moves of a walk in the window that costs w.
        fn find_walks(&mut self) {
            let cells = self.ring.len();
            let mut costs = vec![u32::MAX; cells];
            costs[self.from] = 0;
            for _ in 0..=MOST_MOVES_OF_W {
                let mut next = vec![u32::MAX; cells];
                for &(x, y, _, cost) in self.pairs.iter().filter(|&&(_, y, _, _)| self.ring[y] <= self.last) {
                    next[y] = next[y].min(costs[x].saturating_add(cost));
                }
                self.by_moves.push(std::mem::replace(&mut costs, next));
            }
            let of = |cell: usize| self.by_moves.iter().map(move |costs| costs[cell]);
            self.w = (0..cells).map(|cell| of(cell).min().unwrap()).collect();
            self.n = (0..cells).map(|cell| of(cell).position(|cost| cost == self.w[cell]).unwrap()).collect();
        }

        fn on_ring(&self, k: usize) -> Vec<usize> {
            (0..self.ring.len()).filter(|&cell| self.ring[cell] == k).collect()
        }

        fn best(&self, table: &[u32], p: u32) -> Best {
            let value = |cell: usize| p * self.w[cell] + table[cell];
            let bests = (1..=self.last).map(|k| self.on_ring(k).into_iter().map(value).min().unwrap());
            let target = self.on_ring(self.last).into_iter().min_by_key(|&cell| (value(cell), cell));
            Best { figure: bests.max().unwrap(), target: target.unwrap() }
        }

        /// The window cells from which one move, added to their w, gives w of a cell, and those moves; lowest cell first.
        fn before(&self, x: usize) -> Vec<(usize, u8)> {
            let fits = |&&(y, to, _, cost): &&(usize, usize, u8, u32)| {
                to == x && self.ring[y] <= self.last && self.w[y] + cost == self.w[x]
            };
            self.pairs.iter().filter(fits).map(|&(y, _, way, _)| (y, way)).collect()
        }

        /// Of these the ones that leave a fewest-move route.
        fn fewest_before(&self, x: usize) -> Vec<(usize, u8)> {
            self.before(x).into_iter().filter(|&(y, _)| self.n[y] + 1 == self.n[x]).collect()
        }

        /// Backward from a cell, each time to the first of those before it.
        fn route(&self, target: usize, before: impl Fn(usize) -> Vec<(usize, u8)>) -> Vec<u8> {
            let mut route = Vec::new();
            let mut x = target;
            while x != self.from {
                let (y, way) = before(x)[0];
                route.insert(0, way);
                x = y;
            }
            route
        }

        /// Document 02's rule.
        fn route_of_fewest(&self, target: usize) -> Vec<u8> {
            self.route(target, |x| self.fewest_before(x))
        }

        /// Document 01's rule alone.
        fn route_of_lowest(&self, target: usize) -> Vec<u8> {
            self.route(target, |x| self.before(x))
        }

        /// Where a route leads in the window and what it costs.
        fn walk(&self, route: &[u8]) -> (usize, u32) {
            route.iter().fold((self.from, 0), |(x, sum), way| {
                let by = |&&(y, to, number, _): &&(usize, usize, u8, u32)| {
                    y == x && number == *way && self.ring[to] <= self.last
                };
                let &(_, to, _, cost) = self.pairs.iter().find(by).unwrap();
                (to, sum + cost)
            })
        }
    }

    /// A floor with a place to look from, goals and a depth.
    struct Case {
        width: usize,
        bytes: Vec<u8>,
        from: usize,
        goals: Vec<usize>,
        depth: usize,
    }

    impl Case {
        /// Floors of every kind, wide and littered ones, and ones with two ways, of which the cheaper has more moves.
        fn any(seed: u64) -> Case {
            let mut dice = Dice::new(seed);
            let (mut width, mut height) = (dice.from_to(1, 9) as usize, dice.from_to(1, 9) as usize);
            let mut bytes = floors::floor(floors::kind(&mut dice), width, height, &mut dice);
            let mut depth = dice.from_to(1, 8) as usize;
            if seed % 2 == 0 {
                (width, height, depth) = (12, 12, 8);
                bytes = (0..width * height).map(|_| u8::from(dice.chance(45))).collect();
            }
            if seed / 2 % 2 == 0 {
                slow::lay(&mut bytes, width, &mut dice);
            }
            let from = dice.index(bytes.len());
            // In any order, since a lookahead doesn't ask for one.
            let mut goals: Vec<usize> =
                (0..dice.pick(&[1, 1, 2, 3, 4])).map(|_| dice.index(bytes.len())).collect();
            goals.retain(|&goal| is_free_byte(bytes[goal]));
            if seed % 5 == 0 {
                let bend = bends::bend(&mut dice);
                let (from, goals, depth) = (bend.start, vec![bend.end], bend.depth as usize);
                return Case { width: bend.width, bytes: bend.floor, from, goals, depth };
            }
            Case { width, bytes, from, goals, depth }
        }

        /// Floors where cheapest walks of more and of fewer moves are common.
        fn littered(seed: u64) -> Case {
            let mut dice = Dice::new(seed);
            let kit = weaving::littered_kit(false, &mut dice);
            let from = dice.index(kit.cells());
            Case { width: kit.width, bytes: kit.floor, from, goals: kit.goals, depth: kit.depth as usize }
        }

        fn is_good(&self) -> bool {
            !self.goals.is_empty()
                && !self.goals.contains(&self.from)
                && self.goals.iter().chain([&self.from]).all(|&cell| is_free_byte(self.bytes[cell]))
        }

        fn floor(&self) -> Floor {
            Floor::new(self.width, self.bytes.len() / self.width, &self.bytes)
        }

        fn plain(&self) -> Plain {
            Plain::new(self.width, &self.bytes, self.from, &self.goals, self.depth)
        }
    }

    fn route_to(window: &mut Window, floor: &Floor, target: usize) -> Vec<u8> {
        let mut moves = [0u8; MOST_MOVES];
        let count = window.route(floor, target, &mut moves);
        moves[..count].to_vec()
    }

    #[test]
    fn lookahead_is_the_one_of_the_papers() {
        let (mut looks, mut slows, mut longer, mut empty, mut by_another) = (0, 0, 0, 0, 0);
        let mut window = Window::new();
        for seed in 0..1_500 {
            let case = Case::any(seed);
            if !case.is_good() {
                continue;
            }
            let (floor, plain) = (case.floor(), case.plain());
            let looked = window.look(&floor, case.from, &case.goals, case.depth);
            let nearest = case.goals.iter().map(|&goal| plain.ring[goal]).min().unwrap();
            by_another += usize::from(plain.ring[case.goals[0]] > nearest && nearest < case.depth);
            let some_empty = (1..=case.depth).any(|k| plain.on_ring(k).is_empty() && nearest >= k);
            assert_eq!(looked, !some_empty);
            if !looked {
                empty += 1;
                continue;
            }
            looks += 1;
            slows += usize::from(floor.has_slow());
            let cells = 0..floor.cells();
            let in_window = |cell: &usize| plain.ring[*cell] <= plain.last;
            let takes_more = |cell: usize| plain.w[cell] < plain.by_moves[plain.ring[cell]][cell];
            longer += usize::from(cells.clone().filter(in_window).any(takes_more));

            let mut dice = Dice::new(seed);
            let table: Vec<u32> = cells.clone().map(|_| dice.below(60) as u32).collect();
            let p = dice.from_to(1, 16) as u32;
            let best = plain.best(&table, p);
            assert_eq!(window.best(&table, p), best);
            assert_eq!(window.cost(best.target), plain.w[best.target]);
            assert_eq!(route_to(&mut window, &floor, best.target), plain.route_of_fewest(best.target));
            assert!(cells.clone().all(|cell| window.on_last_ring(cell) == (plain.ring[cell] == plain.last)));
        }
        // Doc 01's "errors that look right": some w needs more moves than the ring.
        assert!(looks > 300 && slows > 150 && longer > 50 && empty > 20, "{looks} {slows} {longer} {empty}");
        // And some last ring is a nearer goal's than the first one's.
        assert!(by_another > 50, "{by_another}");
    }

    #[test]
    fn a_route_costs_w_and_no_walk_of_that_cost_has_fewer_moves() {
        let (mut routes, mut woven, mut ties) = (0, 0, 0);
        let mut window = Window::new();
        for case in (0..3_000).map(Case::littered).filter(Case::is_good) {
            let (floor, plain) = (case.floor(), case.plain());
            if !window.look(&floor, case.from, &case.goals, case.depth) {
                continue;
            }
            for target in plain.on_ring(plain.last) {
                let route = route_to(&mut window, &floor, target);
                assert_eq!(plain.walk(&route), (target, plain.w[target]));
                assert!((0..route.len()).all(|fewer| plain.by_moves[fewer][target] > plain.w[target]));
                assert_eq!(usize::from(window.fewest_moves(&floor, target)), route.len());
                assert_eq!(route, plain.route_of_fewest(target));

                let lowest = plain.route_of_lowest(target);
                assert_eq!(weaving::weaves(&floor, &mut window, target), lowest.len() > route.len());
                // Where the lowest cells alone give as few moves, they give the route.
                assert!(lowest == route || lowest.len() > route.len());
                routes += 1;
                woven += usize::from(lowest != route);
                ties += usize::from(lowest != route && plain.fewest_before(target).len() > 1);
            }
        }
        assert!(routes > 10_000 && woven > 100 && ties > 50, "{routes} {woven} {ties}");
    }

    #[test]
    fn without_slow_cells_the_lowest_cells_give_the_fewest_moves() {
        let (mut routes, mut longer) = (0, 0);
        let mut window = Window::new();
        for mut case in (0..1_000).map(Case::any).filter(Case::is_good) {
            case.bytes.iter_mut().filter(|byte| **byte == SLOW).for_each(|byte| *byte = FREE);
            let (floor, plain) = (case.floor(), case.plain());
            if !window.look(&floor, case.from, &case.goals, case.depth) {
                continue;
            }
            for target in plain.on_ring(plain.last) {
                let route = plain.route_of_fewest(target);
                assert_eq!(route, plain.route_of_lowest(target));
                assert_eq!(route, route_to(&mut window, &floor, target));
                routes += 1;
                longer += usize::from(route.len() > plain.last);
            }
        }
        assert!(routes > 2_000 && longer > 20, "{routes} {longer}");
    }
}

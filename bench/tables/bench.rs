// Microseconds for reading, writing and renewing a table of 4,096 records, and for filling one with opening figures, the proved calls beside plain Rust in one run.
use std::time::Instant;

extern "C" {
    fn probe_read(
        width: usize, height: usize, count: usize, goal: usize, q: usize, floor: *const u8, floor_len: usize,
        file: *const u8, file_len: usize, table: *mut u32, table_len: usize,
    ) -> usize;
    fn probe_fill(width: usize, height: usize, count: usize, goal: usize, q: usize, floor: *const u8, floor_len: usize, table: *mut u32, table_len: usize) -> usize;
    fn probe_write(
        width: usize, height: usize, count: usize, goal: usize, q: usize, floor: *const u8, floor_len: usize,
        table: *const u32, table_len: usize, buffer: *mut u8, buffer_len: usize,
    ) -> usize;
    fn probe_renew(file: *const u8, file_len: usize, buffer: *mut u8, buffer_len: usize) -> usize;
}

const SIDE: usize = 64;
const CELLS: usize = SIDE * SIDE;
const CEILING: u32 = 1_834_560;
const TRAILER: usize = 24;
const FIRST_TRAILER: usize = 16;

/// Byte 0 is free, 2 is slow and free, every other is blocked.
fn is_free(byte: u8) -> bool {
    byte & !2 == 0
}

#[inline(always)]
fn octile(goal: usize, q: usize, x: usize) -> u32 {
    let (dx, dy) = ((x % SIDE).abs_diff(goal % SIDE), (x / SIDE).abs_diff(goal / SIDE));
    (q * (14 * dx.min(dy) + 10 * dx.abs_diff(dy))) as u32
}

/// The least over the goals.
#[inline(always)]
fn opening(goals: &[usize], q: usize, x: usize) -> u32 {
    let mut least = octile(goals[0], q, x);
    for &goal in &goals[1..] {
        least = least.min(octile(goal, q, x));
    }
    least
}

/// What a trailer says of the goals: how many, a zero byte, and four places, FF FF where there is none.
fn named(goals: &[usize]) -> [u8; 10] {
    let mut bytes = [255; 10];
    bytes[0] = goals.len() as u8;
    bytes[1] = 0;
    for (i, &goal) in goals.iter().enumerate() {
        bytes[2 + 2 * i..4 + 2 * i].copy_from_slice(&(goal as u16).to_be_bytes());
    }
    bytes
}

// The writer as one would write it in Rust: it judges, then stores.
fn plain_write(goals: &[usize], q: usize, floor: &[u8], table: &[u32], buffer: &mut [u8]) -> usize {
    let mut count = 0;
    for x in 0..CELLS {
        let o = opening(goals, q, x);
        if table[x] > CEILING || (is_free(floor[x]) && table[x] < o) || (!is_free(floor[x]) && table[x] != o) {
            return 0;
        }
        count += (table[x] != o) as usize;
    }
    let length = TRAILER + 6 * count;
    if length > buffer.len() {
        return 0;
    }
    let mut at = 0;
    for x in 0..CELLS {
        if table[x] != opening(goals, q, x) {
            buffer[at..at + 2].copy_from_slice(&(x as u16).to_be_bytes());
            buffer[at + 2..at + 6].copy_from_slice(&table[x].to_be_bytes());
            at += 6;
        }
    }
    let t = &mut buffer[at..at + TRAILER];
    t[0] = SIDE as u8;
    t[1] = SIDE as u8;
    t[2..12].copy_from_slice(&named(goals));
    t[12] = q as u8;
    t[13] = 2;
    t[14..16].copy_from_slice(&(count as u16).to_be_bytes());
    t[16..20].copy_from_slice(&(length as u32).to_be_bytes());
    t[20..24].copy_from_slice(b"PDLT");
    length
}

// The number of a faulty record's first fault: asked only where there is one.
#[cold]
fn fault(floor: &[u8], low: usize, x: usize, y: u32, opening: u32) -> usize {
    match x {
        _ if x >= CELLS => 18,
        _ if !is_free(floor[x]) => 19,
        _ if x < low => 20,
        _ if y <= opening => 21,
        _ => 22,
    }
}

// The reader the same way: it judges every record, then fills.
fn plain_read(goals: &[usize], q: usize, floor: &[u8], file: &[u8], table: &mut [u32]) -> usize {
    if file.len() < TRAILER {
        return 13;
    }
    let t = &file[file.len() - TRAILER..];
    let count = u16::from_be_bytes([t[14], t[15]]) as usize;
    let back = u32::from_be_bytes([t[16], t[17], t[18], t[19]]) as usize;
    if &t[20..] != b"PDLT" || t[13] != 2 || t[3] != 0 || back != TRAILER + 6 * count || back > file.len() {
        return 13;
    }
    if back < file.len() {
        return 28;
    }
    if t[0] as usize != SIDE || t[1] as usize != SIDE || t[2..12] != named(goals) || t[12] as usize != q {
        return 14;
    }
    let records = &file[file.len() - back..file.len() - TRAILER];
    let mut low = 0;
    for r in records.chunks_exact(6) {
        let (x, y) = (u16::from_be_bytes([r[0], r[1]]) as usize, u32::from_be_bytes([r[2], r[3], r[4], r[5]]));
        if x >= CELLS || !is_free(floor[x]) || x < low || y <= opening(goals, q, x) || y > CEILING {
            return fault(floor, low, x, y, opening(goals, q, x % CELLS));
        }
        low = x + 1;
    }
    for x in 0..CELLS {
        table[x] = opening(goals, q, x);
    }
    for r in records.chunks_exact(6) {
        table[u16::from_be_bytes([r[0], r[1]]) as usize] = u32::from_be_bytes([r[2], r[3], r[4], r[5]]);
    }
    0
}

// A file of edition 1 renewed the same way: the length, or 0 where it is refused.
fn plain_renew(file: &[u8], buffer: &mut [u8]) -> usize {
    if file.len() < FIRST_TRAILER {
        return 0;
    }
    let t = &file[file.len() - FIRST_TRAILER..];
    let count = u16::from_be_bytes([t[6], t[7]]) as usize;
    let back = u32::from_be_bytes([t[8], t[9], t[10], t[11]]) as usize;
    let length = TRAILER + 6 * count;
    if &t[12..] != b"PDLT" || t[5] != 1 || back != FIRST_TRAILER + 6 * count || back > file.len() || length > buffer.len() {
        return 0;
    }
    let (records, new) = buffer[..length].split_at_mut(6 * count);
    records.copy_from_slice(&file[file.len() - back..file.len() - FIRST_TRAILER]);
    new.copy_from_slice(&[255; TRAILER]);
    new[..2].copy_from_slice(&t[..2]);
    new[2..4].copy_from_slice(&[1, 0]);
    new[4..6].copy_from_slice(&t[2..4]);
    new[12..14].copy_from_slice(&[t[4], 2]);
    new[14..16].copy_from_slice(&t[6..8]);
    new[16..20].copy_from_slice(&(length as u32).to_be_bytes());
    new[20..].copy_from_slice(b"PDLT");
    length
}

fn plain_fill(goals: &[usize], q: usize, floor: &[u8], table: &mut [u32]) -> usize {
    if goals.iter().any(|&goal| !is_free(floor[goal])) {
        return 4;
    }
    for x in 0..CELLS {
        table[x] = opening(goals, q, x);
    }
    0
}

// The least of seven means over many calls, in microseconds.
fn micros(mut call: impl FnMut() -> usize) -> f64 {
    let mut best = f64::MAX;
    for _ in 0..7 {
        let begun = Instant::now();
        for _ in 0..50 {
            std::hint::black_box(call());
        }
        best = best.min(begun.elapsed().as_secs_f64() * 1e6 / 50.0);
    }
    best
}

fn main() {
    let (goal, q) = (CELLS - 1, 16);
    let goals = std::hint::black_box(vec![goal]);
    let goals = &goals[..];
    let open = vec![0u8; CELLS];
    let table: Vec<u32> = (0..CELLS).map(|x| opening(goals, q, x) + 1).collect();
    let (mut a, mut b) = (vec![0u8; 32768], vec![0u8; 32768]);
    let n = unsafe { probe_write(SIDE, SIDE, goals.len(), goal, q, open.as_ptr(), CELLS, table.as_ptr(), CELLS, a.as_mut_ptr(), a.len()) };
    assert!(n == TRAILER + 6 * CELLS && n == plain_write(goals, q, &open, &table, &mut b) && a == b);
    let (mut c, mut d) = (vec![0u32; CELLS], vec![0u32; CELLS]);
    let file = a[..n].to_vec();
    assert!(unsafe { probe_read(SIDE, SIDE, goals.len(), goal, q, open.as_ptr(), CELLS, file.as_ptr(), n, c.as_mut_ptr(), CELLS) } == 0);
    assert!(plain_read(goals, q, &open, &file, &mut d) == 0 && c == d && c == table);
    let ours = micros(|| unsafe { probe_write(SIDE, SIDE, goals.len(), goal, q, open.as_ptr(), CELLS, table.as_ptr(), CELLS, a.as_mut_ptr(), a.len()) });
    let plain = micros(|| plain_write(goals, q, &open, &table, &mut b));
    println!("write 4,096 records    proved {ours:7.1} us  plain {plain:7.1} us  ratio {:.2}", ours / plain);
    let ours = micros(|| unsafe { probe_read(SIDE, SIDE, goals.len(), goal, q, open.as_ptr(), CELLS, file.as_ptr(), n, c.as_mut_ptr(), CELLS) });
    let plain = micros(|| plain_read(goals, q, &open, &file, &mut d));
    println!("read 4,096 records     proved {ours:7.1} us  plain {plain:7.1} us  ratio {:.2}", ours / plain);
    // the same records in edition 1, behind older material
    let mut old = vec![7u8; 10_000];
    old.extend(&file[..6 * CELLS]);
    old.extend([SIDE as u8, SIDE as u8, (goal >> 8) as u8, goal as u8, q as u8, 1]);
    old.extend((CELLS as u16).to_be_bytes());
    old.extend(((FIRST_TRAILER + 6 * CELLS) as u32).to_be_bytes());
    old.extend(b"PDLT");
    let ours = micros(|| unsafe { probe_renew(old.as_ptr(), old.len(), a.as_mut_ptr(), a.len()) });
    let plain = micros(|| plain_renew(&old, &mut b));
    assert!(a[..n] == file && b[..n] == file);
    println!("renew 4,096 records    proved {ours:7.2} us  plain {plain:7.2} us  ratio {:.2}", ours / plain);
    // opening figures, for one goal and for four side by side
    let open = std::hint::black_box(open);
    for count in [1, 4] {
        let goals: Vec<usize> = (0..count).map(|i| CELLS - 4 + i).collect();
        let goals = std::hint::black_box(goals);
        let ours = micros(|| unsafe { probe_fill(SIDE, SIDE, goals.len(), goals[0], q, open.as_ptr(), CELLS, c.as_mut_ptr(), CELLS) });
        let plain = micros(|| plain_fill(&goals, q, &open, &mut d));
        assert!(c == d);
        println!("fill for {count} goals        proved {ours:7.1} us  plain {plain:7.1} us  ratio {:.2}", ours / plain);
    }
}

// Bytes of stack that each public call needs on a 64 × 64 floor at depth 8, and the search for true distances, measured on a painted stack; the greatest over the cases named.
use std::ffi::c_void;

// The exports of crates/probe and crates/probe_search; a slice is its first entry and its length.
extern "C" {
    fn probe_nothing() -> usize;
    fn probe_open(width: usize, height: usize, start: usize, count: usize, goal: usize, q: usize, floor: *const u8, floor_len: usize, table: *const u32, table_len: usize) -> usize;
    fn probe_distances(width: usize, height: usize, count: usize, goal: usize, other: usize, floor: *const u8, floor_len: usize, dist: *mut u32, dist_len: usize) -> usize;
    fn probe_decide(
        width: usize, height: usize, current: usize, learned: usize, length: usize, count: usize, goal: usize, depth: usize, p: usize, q: usize, quota: usize,
        floor: *const u8, floor_len: usize, table: *mut u32, table_len: usize, path: *mut u16, path_len: usize, moves: *mut u8, moves_len: usize,
    ) -> usize;
    fn probe_trial(
        width: usize, height: usize, start: usize, count: usize, goal: usize, depth: usize, p: usize, q: usize, quota: usize,
        floor: *const u8, floor_len: usize, table: *mut u32, table_len: usize, path: *mut u16, path_len: usize,
    ) -> usize;
    fn probe_run(
        width: usize, height: usize, start: usize, count: usize, goal: usize, depth: usize, p: usize, q: usize, quota: usize, trials: usize,
        floor: *const u8, floor_len: usize, table: *mut u32, table_len: usize, path: *mut u16, path_len: usize, counts: *mut u64, counts_len: usize, n: usize,
    ) -> usize;
    fn probe_floor(text: *const u8, text_len: usize, buffer: *mut u8, buffer_len: usize) -> usize;
    fn probe_write_floor(width: usize, height: usize, floor: *const u8, floor_len: usize, buffer: *mut u8, buffer_len: usize) -> usize;
    fn probe_fill(width: usize, height: usize, count: usize, goal: usize, q: usize, floor: *const u8, floor_len: usize, table: *mut u32, table_len: usize) -> usize;
    fn probe_read(
        width: usize, height: usize, count: usize, goal: usize, q: usize, floor: *const u8, floor_len: usize,
        file: *const u8, file_len: usize, table: *mut u32, table_len: usize,
    ) -> usize;
    fn probe_write(
        width: usize, height: usize, count: usize, goal: usize, q: usize, floor: *const u8, floor_len: usize,
        table: *const u32, table_len: usize, buffer: *mut u8, buffer_len: usize,
    ) -> usize;
    fn probe_renew(file: *const u8, file_len: usize, buffer: *mut u8, buffer_len: usize) -> usize;
    fn probe_depth(line: *const u8, line_len: usize, buffer: *mut u8, buffer_len: usize) -> usize;
    fn probe_find(file: *const u8, file_len: usize) -> usize;
    fn probe_trailer(file: *const u8, file_len: usize) -> usize;

    // The threads of POSIX, whose stack may be lent.
    fn pthread_attr_init(attributes: *mut c_void) -> i32;
    fn pthread_attr_setstack(attributes: *mut c_void, low: *mut c_void, bytes: usize) -> i32;
    fn pthread_create(thread: *mut usize, attributes: *const c_void, body: extern "C" fn(*mut c_void) -> *mut c_void, given: *mut c_void) -> i32;
    fn pthread_join(thread: usize, answer: *mut *mut c_void) -> i32;
}

const SIDE: usize = 64;
const CELLS: usize = SIDE * SIDE;
const DEPTH: usize = 8;
const Q: usize = 16;
const STACK: usize = 4 << 20;
const PAINT: u64 = 0xA5C3_960F_5AF0_3C69;

extern "C" fn body(given: *mut c_void) -> *mut c_void {
    let call = unsafe { &mut *given.cast::<&mut dyn FnMut()>() };
    call();
    std::ptr::null_mut()
}

// How deep the stack of a thread of its own is touched while the call is made.
fn touched(mut call: impl FnMut()) -> usize {
    let mut room = vec![PAINT; (STACK + 4096) / 8];
    let low = room.as_mut_ptr() as usize + 4095 & !4095;
    let mut given: &mut dyn FnMut() = &mut call;
    unsafe {
        let (mut attributes, mut thread) = ([0u64; 16], 0);
        assert!(pthread_attr_init(attributes.as_mut_ptr().cast()) == 0);
        assert!(pthread_attr_setstack(attributes.as_mut_ptr().cast(), low as *mut c_void, STACK) == 0);
        assert!(pthread_create(&mut thread, attributes.as_ptr().cast(), body, (&raw mut given).cast()) == 0);
        assert!(pthread_join(thread, std::ptr::null_mut()) == 0);
    }
    let first = room.iter().skip((low - room.as_ptr() as usize) / 8).position(|&word| word != PAINT).unwrap();
    STACK - 8 * first
}

// What a call needs beyond one that does nothing.
fn need(call: impl FnMut()) -> usize {
    touched(call) - touched(|| assert!(unsafe { probe_nothing() } == 0))
}

// A floor with its job: from the first free cell to the last.
struct Map {
    floor: Vec<u8>,
    goal: usize,
    table: Vec<u32>,
}

fn map(blocked: impl Fn(usize, usize) -> bool) -> Map {
    let floor: Vec<u8> = (0..CELLS).map(|c| blocked(c % SIDE, c / SIDE) as u8).collect();
    let goal = floor.iter().rposition(|&byte| byte == 0).unwrap();
    let mut table = vec![0; CELLS];
    assert!(unsafe { probe_fill(SIDE, SIDE, 1, goal, Q, floor.as_ptr(), CELLS, table.as_mut_ptr(), CELLS) } == 0);
    Map { floor, goal, table }
}

fn fill(map: &Map) -> usize {
    let mut table = vec![0; CELLS];
    need(|| assert!(unsafe { probe_fill(SIDE, SIDE, 1, map.goal, Q, map.floor.as_ptr(), CELLS, table.as_mut_ptr(), CELLS) } == 0))
}

fn open(map: &Map) -> usize {
    need(|| assert!(unsafe { probe_open(SIDE, SIDE, 0, 1, map.goal, Q, map.floor.as_ptr(), CELLS, map.table.as_ptr(), CELLS) } == 0))
}

// The search for true distances alone, its list lent.
fn distances(map: &Map) -> usize {
    let mut dist = vec![0; CELLS];
    need(|| assert!(unsafe { probe_distances(SIDE, SIDE, 1, map.goal, map.goal, map.floor.as_ptr(), CELLS, dist.as_mut_ptr(), CELLS) } > 0))
}

// The first decision of a trial and, with a path of one cell behind it, a second one: the quota decides whether that goes forward or backs out.
fn decide(map: &Map, quota: usize) -> usize {
    let (mut table, mut path, mut moves) = (map.table.clone(), vec![0; CELLS], vec![0; 288]);
    let mut current = 0;
    let mut step = |length, quota| {
        need(|| {
            current = unsafe {
                probe_decide(
                    SIDE, SIDE, current, 0, length, 1, map.goal, DEPTH, Q, Q, quota, map.floor.as_ptr(), CELLS,
                    table.as_mut_ptr(), CELLS, path.as_mut_ptr(), CELLS, moves.as_mut_ptr(), moves.len(),
                )
            }
        })
    };
    step(0, 1_000_000).max(step(1, quota))
}

// A trial; of no width it is refused at once, and needs its own frame alone.
fn trial(map: &Map, width: usize, quota: usize) -> usize {
    let (mut table, mut path) = (map.table.clone(), vec![0; CELLS]);
    need(|| {
        let floor = map.floor.as_ptr();
        let made = unsafe { probe_trial(width, SIDE, 0, 1, map.goal, DEPTH, Q, Q, quota, floor, CELLS, table.as_mut_ptr(), CELLS, path.as_mut_ptr(), CELLS) };
        assert!((made > 0) == (width > 0));
    })
}

// A run of at most 16 trials, its 1,001 records held by value.
fn counted(map: &Map, width: usize, quota: usize) -> usize {
    let (mut table, mut path, mut counts) = (map.table.clone(), vec![0; CELLS], vec![0; 64]);
    need(|| {
        let (floor, counts) = (map.floor.as_ptr(), counts.as_mut_ptr());
        let made = unsafe {
            probe_run(width, SIDE, 0, 1, map.goal, DEPTH, Q, Q, quota, 16, floor, CELLS, table.as_mut_ptr(), CELLS, path.as_mut_ptr(), CELLS, counts, 64, 16)
        };
        assert!((made > 0) == (width > 0));
    })
}

// A run alone: what it needs past the frame that has the records, and the frame of a trial, which makes the same calls.
fn run(map: &Map, quota: usize) -> usize {
    counted(map, SIDE, quota) - counted(map, 0, quota) + trial(map, 0, quota)
}

fn read_floor(map: &Map) -> usize {
    let mut text = b"type octile\nheight 64\nwidth 64\nmap\n".to_vec();
    for row in map.floor.chunks(SIDE) {
        text.extend(row.iter().map(|&byte| if byte == 0 { b'.' } else { b'@' }));
        text.push(b'\n');
    }
    let mut buffer = vec![0; CELLS];
    need(|| assert!(unsafe { probe_floor(text.as_ptr(), text.len(), buffer.as_mut_ptr(), CELLS) } == SIDE))
}

fn write_floor(map: &Map) -> usize {
    let mut buffer = vec![0; 4195];
    need(|| assert!(unsafe { probe_write_floor(SIDE, SIDE, map.floor.as_ptr(), CELLS, buffer.as_mut_ptr(), buffer.len()) } == buffer.len()))
}

// A table whose every figure is learned, 4,096 records as a file.
fn file(map: &Map) -> (Vec<u32>, Vec<u8>) {
    let learned: Vec<u32> = map.table.iter().map(|figure| figure + 1).collect();
    let mut buffer = vec![0; 24 + 6 * CELLS];
    assert!(write(map, &learned, &mut buffer) == buffer.len());
    (learned, buffer)
}

fn write(map: &Map, learned: &[u32], buffer: &mut [u8]) -> usize {
    let (floor, room) = (map.floor.as_ptr(), buffer.len());
    unsafe { probe_write(SIDE, SIDE, 1, map.goal, Q, floor, CELLS, learned.as_ptr(), CELLS, buffer.as_mut_ptr(), room) }
}

fn write_table(map: &Map) -> usize {
    let (learned, mut buffer) = file(map);
    need(|| assert!(write(map, &learned, &mut buffer) > 24))
}

fn read_table(map: &Map) -> usize {
    let (_, file) = file(map);
    let mut table = vec![0; CELLS];
    need(|| assert!(unsafe { probe_read(SIDE, SIDE, 1, map.goal, Q, map.floor.as_ptr(), CELLS, file.as_ptr(), file.len(), table.as_mut_ptr(), CELLS) } == 0))
}

// The file renewed: of edition 1, so that its trailer is made anew, or of edition 2, so that it is copied.
fn renew_file(map: &Map) -> usize {
    let (_, second) = file(map);
    let mut first = second[..6 * CELLS].to_vec();
    first.extend([SIDE as u8, SIDE as u8, (map.goal >> 8) as u8, map.goal as u8, Q as u8, 1]);
    first.extend((CELLS as u16).to_be_bytes());
    first.extend(((16 + 6 * CELLS) as u32).to_be_bytes());
    first.extend(b"PDLT");
    let mut buffer = vec![0; second.len()];
    let mut renewed = |file: &[u8]| need(|| assert!(unsafe { probe_renew(file.as_ptr(), file.len(), buffer.as_mut_ptr(), buffer.len()) } == second.len()));
    renewed(&first).max(renewed(&second))
}

// A line of two numbers, into which its depth is written, or of seven, which is copied; both as long as they can be.
fn with_depth() -> usize {
    let two = b"0001234 0000567\n";
    let seven = b"0001234 0000567 0000004 0000001 0000002 1000000 0001000\n";
    let mut buffer = [0; 64];
    let mut made = |line: &[u8], length| need(|| assert!(unsafe { probe_depth(line.as_ptr(), line.len(), buffer.as_mut_ptr(), buffer.len()) } == length));
    made(two, two.len() + 2).max(made(seven, seven.len()))
}

fn main() {
    let bare = map(|_, _| false);
    let snake = map(|x, y| y % 2 == 1 && x != if y % 4 == 1 { SIDE - 1 } else { 0 });
    let racks = map(|x, y| x % 4 != 0 && y % 4 != 0);
    let all = [&bare, &snake, &racks];
    // the greatest over the three floors, and with two quotas: one that is never passed and one that is passed at once
    let most = |call: &dyn Fn(&Map) -> usize| all.iter().map(|map| call(map)).max().unwrap();
    let either = |call: &dyn Fn(&Map, usize) -> usize| most(&|map| call(map, 0).max(call(map, 1_000_000)));
    let whole = file(&bare).1;
    println!("call            bytes of stack, {} ({SIDE} x {SIDE}, depth {DEPTH})", std::env::consts::ARCH);
    for (name, bytes) in [
        ("open", most(&open)),
        ("decide", either(&decide)),
        ("trial", either(&|map, quota| trial(map, SIDE, quota))),
        ("run", either(&run)),
        ("read_floor", most(&read_floor)),
        ("write_floor", most(&write_floor)),
        ("write_table", write_table(&bare)),
        ("read_table", read_table(&bare)),
        ("renew_file", renew_file(&bare)),
        ("with_depth", with_depth()),
        ("find_records", need(|| assert!(unsafe { probe_find(whole.as_ptr(), whole.len()) } == 6 * CELLS))),
        ("check_trailer", need(|| assert!(unsafe { probe_trailer(whole.as_ptr(), whole.len()) } == 0))),
        ("fill_opening", most(&fill)),
        ("find_distances", most(&distances)),
        ("run_counts", either(&|map, quota| counted(map, SIDE, quota))),
    ] {
        println!("{name:15}{bytes:7}");
    }
}

//! The handover of all free pages: in one call, and by calls in turn with small buffers;
//! then how the time of one call grows with the number of free runs.

use crate::library::Library;
use crate::sides::{call_both, number, pages_both, Block, Call, Side, PAGES, PIECE};
use crate::time::{clock, median, nanoseconds};
use std::hint::black_box;
use std::time::Instant;

const PAGE: u64 = 4096;
/// From one free run to the next, in pages, and the first page of the first run: not a
/// multiple of anything.
const STEP: u64 = 64;
const FIRST: u64 = 5;

/// A block, and how many free runs it has.
pub struct Board {
    pub name: &'static str,
    pub runs: u64,
    pub block: Block,
}

/// `records` memory records, each with as many free runs of so many pages, apart by what is
/// taken.
fn board<Other: Side>(name: &'static str, records: u64, each: u64, pages: u64) -> Board {
    let mut block = Block::fresh();
    let begin = |run: u64| (run * STEP + FIRST) * PAGE;
    let end = |run: u64| begin(run) + pages * PAGE;
    for record in 0..records {
        let (first, last) = (record * each, record * each + each - 1);
        let memory = Call::Add(begin(first), end(last) - begin(first), 0, 0);
        let taken = (first..last).map(|run| Call::Reserve(end(run), begin(run + 1) - end(run)));
        for call in std::iter::once(memory).chain(taken) {
            assert_eq!(call_both::<Other>(call, &mut block), 0);
        }
    }
    Board {
        name,
        runs: records * each,
        block,
    }
}

/// Runs of 21 pages are 5 pieces each.
pub fn boards<Other: Side>() -> [Board; 4] {
    let tebibyte = (1 << 40) / PAGE;
    [
        board::<Other>("one run of 1 TiB", 1, 1, tebibyte),
        board::<Other>("127 memory records", 127, 1, 21),
        board::<Other>("512 taken in 1 record", 1, 513, 21),
        board::<Other>("512 taken in 128 records", 128, 5, 21),
    ]
}

/// The lengths of buffers: room for every piece, for 1,000, for one.
pub const ROOMS: [(&str, usize); 3] = [
    ("in one call", 300_000 * PIECE),
    ("by 1,000 pieces", 1000 * PIECE),
    ("by 1 piece", PIECE),
];

/// Calls in turn from page 0 on until no piece is left.
pub fn hand_over<S: Side>(block: &Block, buffer: &mut [u8]) -> u32 {
    let mut slip = [0; 16];
    let mut page = 0;
    while page != PAGES {
        let number = S::pages(black_box(block), page, buffer, &mut slip);
        if number != 0 {
            return number;
        }
        page = self::number(&slip, 8);
    }
    0
}

/// The same on both sides, compared call by call; how many pieces there are.
fn compared<Other: Side>(block: &Block, room: usize) -> u64 {
    let (mut page, mut pieces) = (0, 0);
    while page != PAGES {
        let (answer, slip, _) = pages_both::<Other>(block, page, room);
        assert_eq!(answer, 0);
        pieces += number(&slip, 0);
        page = number(&slip, 8);
    }
    pieces
}

/// How long each side's calls on one board may take in all, in nanoseconds, nearly.
const LONG: f64 = 3e8;

/// Nanoseconds of a handover, of both sides in turn.
fn times<Other: Side>(block: &Block, room: usize, clock: f64) -> (f64, f64) {
    let mut buffer = vec![0; room];
    let once = time::<Library>(block, &mut buffer);
    let turns = ((LONG / once) as usize).clamp(9, 1001);
    let (mut library, mut other) = (Vec::new(), Vec::new());
    for turn in 0..turns + turns / 10 + 1 {
        let pair = (
            time::<Library>(block, &mut buffer) - clock,
            time::<Other>(block, &mut buffer) - clock,
        );
        if turn > turns / 10 {
            library.push(pair.0);
            other.push(pair.1);
        }
    }
    (median(&library), median(&other))
}

fn time<S: Side>(block: &Block, buffer: &mut [u8]) -> f64 {
    let start = Instant::now();
    let number = hand_over::<S>(block, black_box(buffer));
    let time = nanoseconds(start);
    assert_eq!(black_box(number), 0);
    time
}

/// The numbers of runs whose time is compared.
const RUNS: [u64; 4] = [64, 128, 256, 512];

/// Pages of a run, and runs of a memory record; 0: all of them.
const SHAPES: [(&str, u64, u64); 3] = [
    ("of 1 page", 1, 0),
    ("of 21 pages", 21, 0),
    ("of 21 pages, 4 to a record", 21, 4),
];

/// Prints what `measure` gives for both sides on each board by each buffer.
pub fn print<Other: Side>(what: &str, measure: impl Fn(&Block, usize) -> (f64, f64)) {
    println!(
        "bench: all free pages handed over, {what}, library/{} and ratio; then the library's \
         for each piece and for each run in one call",
        Other::NAME
    );
    print!("{:24} {:>5} {:>7}", "", "runs", "pieces");
    for (name, _) in ROOMS {
        print!(" {name:>26}");
    }
    println!(" {:>8} {:>10}", "a piece", "a run");
    for board in boards::<Other>() {
        let pieces = compared::<Other>(&board.block, ROOMS[0].1);
        print!("{:24} {:>5} {pieces:>7}", board.name, board.runs);
        let mut whole = 0.0;
        for (_, room) in ROOMS {
            assert_eq!(compared::<Other>(&board.block, room), pieces);
            let (library, other) = measure(&board.block, room);
            let figures = format!("{library:.0}/{other:.0} {:.2}", library / other);
            print!(" {figures:>26}");
            if room == ROOMS[0].1 {
                whole = library;
            }
        }
        let (piece, run) = (whole / pieces as f64, whole / board.runs as f64);
        println!(" {piece:>8.1} {run:>10.1}");
    }
}

/// Prints what `measure` gives for one call by the number of runs.
pub fn print_growth<Other: Side>(what: &str, measure: impl Fn(&Block, usize) -> (f64, f64)) {
    println!(
        "bench: all free pages in one call by the number of runs, {what}, library/{} and ratio; \
         then the library's for a run at the most runs over that at the fewest",
        Other::NAME
    );
    print!("{:28}", "");
    for runs in RUNS {
        print!(" {:>20}", format!("{runs} runs"));
    }
    println!();
    for (name, pages, of_record) in SHAPES {
        print!("{name:28}");
        let mut each = Vec::new();
        for runs in RUNS {
            let of_record = if of_record == 0 { runs } else { of_record };
            let board = board::<Other>(name, runs / of_record, of_record, pages);
            compared::<Other>(&board.block, ROOMS[0].1);
            let (library, other) = measure(&board.block, ROOMS[0].1);
            let figures = format!("{library:.0}/{other:.0} {:.2}", library / other);
            print!(" {figures:>20}");
            each.push(library / runs as f64);
        }
        println!(" {:>6.2}", each[RUNS.len() - 1] / each[0]);
    }
}

/// Prints the times.
pub fn table<Other: Side>() {
    if !Other::PAGES {
        println!("bench: pages left out: the archive beside has no function for them");
        return;
    }
    let clock = clock();
    let measure = |block: &Block, room: usize| times::<Other>(block, room, clock);
    print::<Other>("ns", measure);
    print_growth::<Other>("ns", measure);
}

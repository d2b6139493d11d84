//! Request E14: boards with many free pages, handed over whole and in parts; and on which
//! side of buffers, pieces and runs the calls were, so that a whole run can say that each
//! was met.

use crate::blocks::{get_u32, get_u64, put_u32, put_u64, read_recs, some_flags, Draft, Rec};
use crate::call::{Call, Command};
use crate::desk::Desk;
use crate::numbers::slip;
use crate::rng::Rng;
use model::layout::*;
use model::{Board, Direction, Run};
use std::collections::BTreeSet;

const PAGE: u64 = PAGE_LEN as u64;
/// The page that is answered where no piece is left.
const NONE_LEFT: u64 = PAGES as u64;
/// The most pieces of a list that is handed over to the end.
const LIST: usize = 4000;

/// A page and an order.
type Piece = (u64, u32);

/// The whole pages of a run, from the first up to, not including, `past`.
#[derive(Clone, Copy)]
struct Span {
    first: u64,
    past: u64,
}

impl Span {
    fn of(lo: u64, hi: u64) -> Span {
        Span {
            first: lo.div_ceil(PAGE),
            past: hi / PAGE,
        }
    }

    fn of_run(run: &Run) -> Span {
        Span::of(run.lo as u64, run.hi as u64)
    }

    fn holds(&self, page: u64) -> bool {
        self.first <= page && page < self.past
    }

    /// The piece around a page: the largest that begins at a multiple of its size and lies
    /// in the span.
    fn around(&self, page: u64) -> Piece {
        (0..=LARGEST_ORDER)
            .rev()
            .map(|order| (page >> order << order, order))
            .find(|&(begins, order)| self.first <= begins && begins + (1 << order) <= self.past)
            .expect("the page itself")
    }
}

/// The spans of what is free by the records of a good block.
fn spans(block: &[u8]) -> Vec<Span> {
    let taken = read_recs(block, &TAKEN);
    let mut spans = Vec::new();
    for rec in read_recs(block, &MEMORY) {
        if rec.flags & NO_MAP != 0 {
            continue;
        }
        let mut at = rec.base;
        for t in &taken {
            if t.end() <= at || t.base >= rec.end() {
                continue;
            }
            if at < t.base {
                spans.push(Span::of(at, t.base));
            }
            at = t.end();
        }
        if at < rec.end() {
            spans.push(Span::of(at, rec.end()));
        }
    }
    spans
}

/// The pieces that begin at a page or above it, `most` at most.
fn pieces_from(spans: &[Span], from: u64, most: usize) -> Vec<Piece> {
    let mut list = Vec::new();
    for span in spans {
        let mut page = span.first.max(from);
        while page < span.past && list.len() < most {
            let (begins, order) = span.around(page);
            if begins >= from {
                list.push((begins, order));
            }
            page = begins + (1 << order);
        }
    }
    list
}

/// Writes pieces to the front of a buffer that has room for them.
fn write(pieces: &[Piece], buffer: &mut [u8]) {
    for (place, &(page, order)) in buffer.chunks_exact_mut(PIECE_LEN).zip(pieces) {
        put_u64(place, 0, page);
        put_u32(place, 8, order);
    }
}

/// The pieces that stand in the front of a buffer.
fn read(buffer: &[u8], count: usize) -> Vec<Piece> {
    let pieces = buffer.chunks_exact(PIECE_LEN).take(count);
    pieces.map(|at| (get_u64(at, 0), get_u32(at, 8))).collect()
}

/// A page at an end of a run or inside it, often where a large piece may begin.
pub fn some_page(rng: &mut Rng, run: &Run) -> u64 {
    let Span { first, past } = Span::of_run(run);
    let inside = first + rng.below(past.saturating_sub(first).max(1));
    let order = rng.pick(&[1, 3, 6, 8, 9, 9, 10, 11]);
    match rng.below(8) {
        0 | 1 => rng.beside(first),
        2 => rng.beside(past),
        3 => inside,
        4 | 5 => inside >> order << order,
        6 => rng.beside(inside >> order << order),
        _ => past.saturating_sub(rng.below(2048)),
    }
}

/// A buffer with any content, often at an edge of what one or two pieces need.
pub fn some_buffer(rng: &mut Rng) -> Vec<u8> {
    let length = some_length(rng);
    some_bytes(rng, length)
}

fn some_length(rng: &mut Rng) -> usize {
    let pieces = match rng.below(16) {
        0..=2 => return rng.pick(&[0, 11, 12, 13, 23, 24]),
        3 => return rng.index(PIECE_LEN),
        4..=10 => rng.index(10),
        11..=14 => rng.index(40),
        _ => rng.index(300),
    };
    pieces * PIECE_LEN + rng.pick(&[0, 0, 1, 11])
}

fn some_bytes(rng: &mut Rng, length: usize) -> Vec<u8> {
    match rng.below(4) {
        0 => vec![0; length],
        1 => vec![0xFF; length],
        _ => rng.bytes(length),
    }
}

/// A good block whose records have many pages, from one to many thousands each, some of
/// their ends inside a page.
fn some_board(rng: &mut Rng) -> Draft {
    let (records, cuts) = match rng.below(16) {
        0 => (MEMORY.capacity, TAKEN.capacity),
        1 => (MEMORY.capacity - rng.index(3), rng.index(16)),
        2 => (1 + rng.index(4), TAKEN.capacity - rng.index(3)),
        3 => (1, 0),
        _ => (rng.index(10), rng.index(8)),
    };
    let most = match rng.below(8) {
        0 => 2,
        1 | 2 => 40,
        3..=6 => 3000,
        _ => 1 << rng.below(40),
    };
    let memory = some_memory(rng, records, most);
    let taken = some_taken(rng, cuts, &memory);
    let somewhere = |rng: &mut Rng| match memory.is_empty() {
        true => rng.any_size(),
        false => {
            let rec = rng.pick(&memory);
            rec.base + rng.below(rec.size)
        }
    };
    let limit = match rng.below(3) {
        0 => rng.pick(&[u64::MAX, 0, 4096]),
        _ => somewhere(rng),
    };
    let image_end = match rng.below(3) {
        0 => rng.pick(&[NO_IMAGE, u64::MAX, 4096]),
        _ => somewhere(rng),
    };
    Draft {
        layout: &CURRENT,
        memory,
        taken,
        limit,
        direction: rng.below(2) as u32,
        image_end,
    }
}

/// An address of a page; of 8 so many inside it.
fn in_page(rng: &mut Rng, page: u64, ragged: u64) -> u64 {
    let anywhere = 1 + rng.below(PAGE - 1);
    let inside = match rng.below(8) < ragged {
        true => rng.pick(&[1, PAGE - 1, anywhere]),
        false => 0,
    };
    page * PAGE + inside
}

/// So many memory records of `most` pages at most.
fn some_memory(rng: &mut Rng, count: usize, most: u64) -> Vec<Rec> {
    let ragged = rng.pick(&[0, 2, 6]);
    let touching = rng.pick(&[0, 4, 8]);
    let nodes = rng.pick(&[1, 2, NODES]);
    let mut list: Vec<Rec> = Vec::with_capacity(count);
    let mut at = rng.pick(&[0, 0, 1, PAGE]);
    for _ in 0..count {
        let mut tag = (some_flags(rng), rng.below(nodes.into()) as u32);
        if rng.below(8) < touching {
            // Of another tag than the one it touches.
            if let Some(last) = list.last() {
                if (last.flags, last.node) == tag {
                    tag.0 ^= rng.pick(&[HOTPLUG, MIRROR, NO_MAP]);
                }
            }
        } else {
            let page = at / PAGE + rng.below(4);
            at = in_page(rng, page, ragged).max(at + 1);
        }
        let pages = match rng.below(8) {
            0 => rng.below(2),
            1 => 1 + rng.below(most).min(1 + rng.below(8)),
            _ => 1 + rng.below(most),
        };
        let end = in_page(rng, at / PAGE + pages, ragged).max(at + 1);
        list.push(Rec {
            base: at,
            size: end - at,
            flags: tag.0,
            node: tag.1,
        });
        at = end;
    }
    // Near page 0, at the top, near where a large piece may begin, or anywhere.
    let free = (u64::MAX - at) / PAGE;
    let up = match rng.below(8) {
        0..=2 => 0,
        3 | 4 => free,
        5 | 6 => (rng.below(1 << 20) << LARGEST_ORDER) + rng.below(3),
        _ => rng.any_size(),
    };
    for rec in &mut list {
        rec.base += up.min(free) * PAGE;
    }
    if let Some(last) = list.last_mut() {
        if up >= free && rng.one_in(2) {
            last.size = u64::MAX - last.base;
        }
    }
    list
}

/// So many taken records, at the ends of memory, of pages and anywhere in memory.
fn some_taken(rng: &mut Rng, count: usize, memory: &[Rec]) -> Vec<Rec> {
    let ragged = rng.pick(&[0, 2, 6]);
    // Sometimes the last memory stays free.
    let memory = match rng.below(3) {
        0 if !memory.is_empty() => &memory[..1 + rng.index(memory.len())],
        _ => memory,
    };
    let mut points = BTreeSet::new();
    while points.len() < 2 * count {
        if memory.is_empty() || rng.one_in(8) {
            points.insert(rng.below(256 * PAGE));
            continue;
        }
        let rec = rng.pick(memory);
        let address = rec.base + rng.below(rec.size);
        let order = rng.below(12);
        let point = match rng.below(8) {
            0 => rec.base,
            1 => rec.end(),
            2 => address,
            _ => in_page(rng, (address / PAGE) >> order << order, ragged),
        };
        points.insert(point);
        // Often little is taken.
        if rng.one_in(2) {
            points.insert(point.saturating_add(rng.pick(&[1, PAGE, 4 * PAGE])));
        }
    }
    let points: Vec<u64> = points.into_iter().take(2 * count).collect();
    let pairs = points.chunks_exact(2);
    pairs
        .map(|two| Rec {
            base: two[0],
            size: two[1] - two[0],
            flags: 0,
            node: 0,
        })
        .collect()
}

/// The pages around the last taken record of a full table, after memory was put there and
/// the record made longer.
pub fn at_the_last_taken(desk: &mut Desk, rng: &mut Rng, block: &[u8]) {
    let taken = read_recs(block, &TAKEN);
    let Some(last) = taken.last() else {
        return;
    };
    let mut block = block.to_vec();
    let (base, end) = (last.base, last.end());
    let size = (16 + rng.below(16)) * PAGE;
    let (flags, node) = (0, 0);
    let add = Call::Add {
        base,
        size,
        flags,
        node,
    };
    let reserve = Call::Range {
        command: Command::Reserve,
        base: end,
        size: (2 + rng.below(8)) * PAGE,
    };
    let pages = Call::Pages {
        from: (base / PAGE).saturating_sub(rng.below(3)),
        buffer: some_buffer(rng).into(),
    };
    for call in [add, reserve, pages] {
        desk.call(&call, &mut block, &mut slip(rng, 0));
    }
}

/// What was handed over.
#[derive(Default)]
pub struct Tally {
    /// Boards with more pieces than are handed over to the end, and with full tables.
    pub long: u64,
    pub full: u64,
    /// Lists handed over to the end, of these in more than one call, and their calls and
    /// pieces.
    pub lists: u64,
    pub in_parts: u64,
    pub resumed: u64,
    pub pieces: u64,
    /// Starts at, in and beside pieces, and at pages that are none.
    pub starts: u64,
    pub above: u64,
}

/// A board and its pages.
struct Made {
    block: Vec<u8>,
    spans: Vec<Span>,
}

/// Hands boards over until the desk has made `until` calls.
pub fn run(desk: &mut Desk, until: u64) -> Tally {
    let mut tally = Tally::default();
    while desk.calls < until {
        desk.turn += 1;
        let mut rng = Rng::new(desk.seed, desk.part, desk.turn);
        let rng = &mut rng;
        let draft = some_board(rng);
        let block = draft.bytes();
        if Board::read(&block).is_none() {
            desk.fail("the model takes a board of many pages for a bad block");
        }
        let spans = spans(&block);
        let made = Made { block, spans };
        tally.full +=
            u64::from((draft.memory.len(), draft.taken.len()) == (MEMORY.capacity, TAKEN.capacity));
        // The whole list, or the end of one that is too long.
        let all = pieces_from(&made.spans, 0, LIST + 1);
        let start = match (made.spans.last(), all.len() > LIST) {
            (Some(last), true) => {
                tally.long += 1;
                last.past.saturating_sub(rng.below(8192))
            }
            _ => 0,
        };
        to_the_end(desk, rng, &made, start, &mut tally);
        around_pieces(desk, rng, &made, &all, &mut tally);
    }
    tally
}

/// One call from a page with a buffer of so many bytes, held against the pieces that the
/// records say; gives how many it wrote and the page it answered.
fn hand_over(
    desk: &mut Desk,
    rng: &mut Rng,
    made: &Made,
    from: u64,
    length: usize,
) -> (usize, u64) {
    let mut wanted = some_bytes(rng, length);
    let buffer = wanted.clone().into();
    let call = Call::Pages { from, buffer };
    let mut slip = slip(rng, 0);
    let mut block = made.block.clone();
    let number = desk.call(&call, &mut block, &mut slip);
    let room = length / PIECE_LEN;
    let pieces = pieces_from(&made.spans, from, room + 1);
    let count = pieces.len().min(room);
    let next = pieces.get(room).map_or(NONE_LEFT, |piece| piece.0);
    write(&pieces[..count], &mut wanted);
    let mut told = [0; SLIP_LEN];
    put_u64(&mut told, 0, count as u64);
    put_u64(&mut told, 8, next);
    if (number, &slip[..]) != (0, &told[..]) {
        desk.fail(&format!(
            "{} answers {number}, {:#x} pieces and {:#x}, the records say {count:#x} and {next:#x}",
            call.text(),
            get_u64(&slip, 0),
            get_u64(&slip, 8)
        ));
    }
    if desk.buffer != wanted {
        let got = read(&desk.buffer, count);
        let differs = got.iter().zip(&pieces).find(|two| two.0 != two.1);
        desk.fail(&format!(
            "{} writes other bytes than the records say; pieces (page, order): {differs:x?}",
            call.text()
        ));
    }
    if block != made.block {
        desk.fail(&format!("{} changes the block", call.text()));
    }
    (count, next)
}

/// Calls from a page on, each from the page that the last one answered, until none is left,
/// give the list of that page.
fn to_the_end(desk: &mut Desk, rng: &mut Rng, made: &Made, start: u64, tally: &mut Tally) {
    let all = pieces_from(&made.spans, start, usize::MAX);
    let mut list = vec![0; all.len() * PIECE_LEN];
    write(&all, &mut list);
    // Pieces for one call, few of long lists seldom; or all at once.
    let most = match rng.below(4) {
        0 => all.len() + 1,
        _ => 1 + all.len() / (1 + rng.index(6)),
    };
    let least = 1 + all.len() / 16;
    let mut got = Vec::new();
    let mut from = start;
    let mut calls = 0;
    loop {
        if rng.one_in(8) {
            // A buffer that takes none: the page of the first piece from here on.
            let first = all.iter().find(|piece| piece.0 >= from);
            let first = first.map_or(NONE_LEFT, |piece| piece.0);
            let length = rng.pick(&[0, 1, 11]);
            if hand_over(desk, rng, made, from, length) != (0, first) {
                desk.fail("a buffer that takes no piece does not name the first");
            }
        }
        let room = least + rng.index(most);
        let length = room * PIECE_LEN + rng.pick(&[0, 0, 1, 11]);
        let (count, next) = hand_over(desk, rng, made, from, length);
        got.extend_from_slice(&desk.buffer[..count * PIECE_LEN]);
        calls += 1;
        from = next;
        if from == NONE_LEFT {
            break;
        }
        if calls > all.len() {
            desk.fail("the calls do not come to an end");
        }
    }
    if got != list {
        desk.fail("the parts of the list are not the list");
    }
    tally.lists += 1;
    tally.in_parts += u64::from(calls > 1);
    tally.resumed += calls as u64;
    tally.pieces += all.len() as u64;
}

/// Calls from pages at, in and beside pieces, and from pages that are none, with buffers of
/// all edges; and one that is refused.
fn around_pieces(desk: &mut Desk, rng: &mut Rng, made: &Made, all: &[Piece], tally: &mut Tally) {
    if !all.is_empty() {
        for length in [0, 11, 12, 13, 23, 24, some_length(rng)] {
            let (page, order) = rng.pick(all);
            let past = page + (1 << order);
            let from = match rng.below(7) {
                0 | 1 => page,
                2 => page + rng.below(1 << order),
                3 => page + (1 << rng.below(u64::from(order) + 1)),
                4 => past - 1,
                5 => past,
                _ => page.wrapping_sub(1),
            };
            hand_over(desk, rng, made, from, length);
            tally.starts += 1;
        }
    }
    let from = match rng.below(4) {
        0 => NONE_LEFT,
        1 => NONE_LEFT + 1 + rng.below(1024),
        2 => rng.pick(&[NONE_LEFT - 1, 1 << 63, u64::MAX]),
        _ => NONE_LEFT.saturating_mul(1 + rng.below(4096)) + rng.below(64),
    };
    let length = some_length(rng);
    hand_over(desk, rng, made, from, length);
    tally.above += u64::from(from >= NONE_LEFT);
    if rng.one_in(8) {
        refused(desk, rng, made);
    }
}

/// A slip of another length gets 8, also beside a bad block; a bad block 1 and a slip all
/// zero. The buffer is as it was.
fn refused(desk: &mut Desk, rng: &mut Rng, made: &Made) {
    let mut bad = made.block.clone();
    bad[rng.index(40)] ^= 1 << rng.below(8);
    for (block, slip_length, wanted) in [
        (&made.block, rng.index(SLIP_LEN), number::BAD_SLIP),
        (&bad, SLIP_LEN + 1 + rng.index(16), number::BAD_SLIP),
        (&bad, SLIP_LEN, number::NOT_GOOD),
    ] {
        let buffer = some_buffer(rng);
        let mut slip = some_bytes(rng, slip_length);
        let slip_wanted = match wanted {
            number::NOT_GOOD => vec![0; SLIP_LEN],
            _ => slip.clone(),
        };
        let from = rng.pick(&[0, NONE_LEFT]);
        let call = Call::Pages {
            from,
            buffer: buffer.clone().into(),
        };
        let mut lent = block.clone();
        let number = desk.call(&call, &mut lent, &mut slip);
        if (number, &lent, slip, &desk.buffer) != (wanted, block, slip_wanted, &buffer) {
            desk.fail(&format!("{} is not refused as it should", call.text()));
        }
    }
}

/// Lengths of a buffer,
const LENGTHS: [&str; 8] = [
    "0 bytes",
    "1 to 10 bytes",
    "11 bytes",
    "12 bytes",
    "13 to 22 bytes",
    "23 bytes",
    "24 bytes",
    "more bytes",
];
/// and what a call with it came to.
const ENDS: [&str; 3] = ["no piece left", "all that are left", "some left"];

/// Where a call begins.
const STARTS: [&str; 11] = [
    "from page 0, which is free",
    "from page 0, which is not",
    "from where a piece begins",
    "from inside a piece",
    "from where a run's pages end",
    "from another page below the last piece",
    "from above all pieces, below 2^52 - 1",
    "from 2^52 - 1",
    "from 2^52",
    "from above 2^52",
    "from 2^64 - 1",
];

/// What can be among the pages from the one that is named up to the one that is answered.
const BETWEEN: [&str; 8] = [
    "a run that begins inside a page, with whole pages",
    "a run that ends inside a page, with whole pages",
    "a run within one page",
    "a run in two pages, none of them whole",
    "a page that lies in two runs that touch",
    "two runs that touch, which as one would have a larger piece there",
    "whole pages of no-map memory",
    "whole pages that are taken",
];

/// What can hold of a piece that is written.
const OF_PIECES: [&str; 16] = [
    "a piece that ends at page 2^52 - 1",
    "a piece no larger for where its run ends",
    "a piece no larger for where it begins",
    "two pieces of order 10 in a row",
    "hotplug memory, not mirror",
    "mirror memory, not hotplug",
    "hotplug mirror memory",
    "memory of a node above 0",
    "a piece at or above the limit",
    "a piece that the limit is in",
    "a piece below the image end",
    "a piece that the image end is in",
    "a piece of a top-down block",
    "a piece of a bottom-up block",
    "a piece of the last record of a full memory table",
    "a piece above the last record of a full taken table",
];

/// The place of a length in `LENGTHS`.
fn length_of(length: usize) -> usize {
    match length {
        0 => 0,
        1..=10 => 1,
        11 => 2,
        12 => 3,
        13..=22 => 4,
        23 => 5,
        24 => 6,
        _ => 7,
    }
}

/// Whether there can be such a call: a buffer under 12 bytes takes nothing.
fn can_be(length: usize, end: usize) -> bool {
    length > 2 || end != 1
}

/// Calls that were done.
#[derive(Default)]
pub struct Pages {
    /// By length of the buffer and end.
    ends: [[u64; ENDS.len()]; LENGTHS.len()],
    /// Pieces written, by order.
    orders: [u64; LARGEST_ORDER as usize + 1],
    starts: [u64; STARTS.len()],
    between: [u64; BETWEEN.len()],
    of_pieces: [u64; OF_PIECES.len()],
}

impl Pages {
    /// A call on a block as it was `before`, with what it wrote.
    pub fn note(&mut self, call: &Call, before: &[u8], buffer: &[u8], slip: &[u8]) {
        let Call::Pages { from, .. } = *call else {
            return;
        };
        let (count, next) = (get_u64(slip, 0), get_u64(slip, 8));
        let pieces = read(buffer, count as usize);
        let end = match (count, next) {
            (0, NONE_LEFT) => 0,
            (_, NONE_LEFT) => 1,
            _ => 2,
        };
        self.ends[length_of(buffer.len())][end] += 1;
        for piece in &pieces {
            self.orders[piece.1 as usize] += 1;
        }
        let board = Board::read(before).expect("the call has taken it for good");
        let runs = board.free_runs();
        let spans: Vec<Span> = runs.iter().map(Span::of_run).collect();
        let first = pieces.first().map_or(next, |piece| piece.0);
        count_in(&mut self.starts, starts(&spans, from, first));
        count_in(&mut self.between, between(&board, &runs, from, next));
        count_in(&mut self.of_pieces, of_pieces(&board, &runs, &pieces));
    }

    /// How often the sides were met, or which were not.
    pub fn told(&self) -> Result<String, String> {
        let mut met: Vec<(String, u64)> = Vec::new();
        for (length, ends) in self.ends.iter().enumerate() {
            for (end, &count) in ends.iter().enumerate() {
                if can_be(length, end) {
                    let side = format!("a buffer of {}, {}", LENGTHS[length], ENDS[end]);
                    met.push((side, count));
                }
            }
        }
        for (order, &count) in self.orders.iter().enumerate() {
            met.push((format!("a piece of order {order}"), count));
        }
        let sides = [
            (&STARTS[..], &self.starts[..]),
            (&BETWEEN, &self.between),
            (&OF_PIECES, &self.of_pieces),
        ];
        for (names, counts) in sides {
            met.extend(
                names
                    .iter()
                    .map(|name| name.to_string())
                    .zip(counts.to_vec()),
            );
        }
        let sides = sides_met(&met, "buffers, pieces and runs")?;
        let pieces: u64 = self.orders.iter().sum();
        Ok(format!("{sides}; {pieces} pieces written"))
    }
}

/// How many sides were met and how often the rarest, or which were not.
pub fn sides_met(met: &[(String, u64)], of: &str) -> Result<String, String> {
    let never: Vec<&str> = (met.iter().filter(|side| side.1 == 0))
        .map(|side| &side.0[..])
        .collect();
    if !never.is_empty() {
        return Err(format!("never met: {}", never.join("; ")));
    }
    let (rarest, count) = met.iter().min_by_key(|side| side.1).expect("some");
    Ok(format!(
        "{} sides of {of}, the rarest ({rarest}) met {count} times",
        met.len()
    ))
}

pub fn count_in<const N: usize>(counts: &mut [u64; N], holds: [bool; N]) {
    for (count, holds) in counts.iter_mut().zip(holds) {
        *count += u64::from(holds);
    }
}

/// Which of `STARTS` hold; `first` is where the first piece begins from there on.
fn starts(spans: &[Span], from: u64, first: u64) -> [bool; STARTS.len()] {
    let free = spans.iter().any(|span| span.holds(from));
    let whole = || spans.iter().filter(|span| span.first < span.past);
    let past_all = whole().next_back().map_or(0, |span| span.past);
    [
        from == 0 && free,
        from == 0 && !free,
        from > 0 && free && first == from,
        free && first > from,
        !free && whole().any(|span| span.past == from),
        from > 0 && !free && from < past_all,
        from > 0 && past_all <= from && from < NONE_LEFT - 1,
        from == NONE_LEFT - 1,
        from == NONE_LEFT,
        from > NONE_LEFT,
        from == u64::MAX,
    ]
}

/// Which of `BETWEEN` hold.
fn between(board: &Board, runs: &[Run], from: u64, next: u64) -> [bool; BETWEEN.len()] {
    // In addresses.
    let (lo, hi) = (u128::from(from) * PAGE_LEN, u128::from(next) * PAGE_LEN);
    let whole = |lo: u128, hi: u128| lo.div_ceil(PAGE_LEN) < hi / PAGE_LEN;
    let ragged = |x: u128| !x.is_multiple_of(PAGE_LEN);
    let mut holds = [false; BETWEEN.len()];
    for (i, run) in runs.iter().enumerate() {
        if run.lo < lo || run.hi > hi {
            continue;
        }
        let has_pages = whole(run.lo, run.hi);
        let pages = (run.hi - 1) / PAGE_LEN - run.lo / PAGE_LEN;
        holds[0] |= has_pages && ragged(run.lo);
        holds[1] |= has_pages && ragged(run.hi);
        holds[2] |= !has_pages && pages == 0;
        holds[3] |= !has_pages && pages == 1;
        let behind = runs.get(i + 1);
        let Some(behind) = behind.filter(|next| next.lo == run.hi && next.hi <= hi) else {
            continue;
        };
        let page = run.hi / PAGE_LEN * PAGE_LEN;
        holds[4] |= ragged(run.hi) && run.lo <= page && page + PAGE_LEN <= behind.hi;
        if !ragged(run.hi) && has_pages && whole(behind.lo, behind.hi) {
            let span = Span::of_run(behind);
            let joined = Span {
                first: Span::of_run(run).first,
                past: span.past,
            };
            holds[5] |= joined.around(span.first) != span.around(span.first);
        }
    }
    let mut memory = board.memory.stretches();
    holds[6] = memory.any(|(a, b, tag)| {
        let (a, b) = (a.max(lo), b.min(hi));
        tag.is_some_and(|tag| tag.no_map) && whole(a, b) && !board.taken.at(a)
    });
    let mut taken = board.taken.stretches();
    holds[7] = taken.any(|(a, b, taken)| {
        let (a, b) = (a.max(lo), b.min(hi));
        taken && whole(a, b) && board.memory.at(a).is_some_and(|tag| !tag.no_map)
    });
    holds
}

/// Which of `OF_PIECES` hold of some piece.
fn of_pieces(board: &Board, runs: &[Run], pieces: &[Piece]) -> [bool; OF_PIECES.len()] {
    let (limit, image_end) = (u128::from(board.limit), u128::from(board.image_end));
    let memory: Vec<u128> = (board.memory.stretches().filter(|s| s.2.is_some()))
        .map(|stretch| stretch.0)
        .collect();
    let taken: Vec<u128> = (board.taken.stretches().filter(|s| s.2))
        .map(|stretch| stretch.1)
        .collect();
    let full = |list: &[u128], body: &Body| list.len() == body.capacity;
    let top_down = board.direction == Direction::TopDown;
    let mut holds = [false; OF_PIECES.len()];
    let mut runs = runs.iter().peekable();
    let mut before = None;
    for &(page, order) in pieces {
        let (a, b) = (
            u128::from(page) * PAGE_LEN,
            u128::from(page + (1 << order)) * PAGE_LEN,
        );
        while runs.next_if(|run| run.hi < b).is_some() {}
        let run = runs.peek().expect("a piece lies in a run");
        let tag = run.tag;
        let largest = order == LARGEST_ORDER;
        let aligned = page.is_multiple_of(2 << order);
        let longer = a + (PAGE_LEN << (order + 1)) <= run.hi;
        let now = [
            b == (PAGES - 1) * PAGE_LEN,
            !largest && aligned && !longer,
            !largest && !aligned && longer,
            largest && before == Some((a, order)),
            tag.hotplug && !tag.mirror,
            tag.mirror && !tag.hotplug,
            tag.hotplug && tag.mirror,
            tag.node > 0,
            limit <= a,
            a < limit && limit < b,
            b <= image_end,
            a < image_end && image_end < b,
            top_down,
            !top_down,
            full(&memory, &MEMORY) && memory[memory.len() - 1] <= a,
            full(&taken, &TAKEN) && taken[taken.len() - 1] <= a,
        ];
        for (holds, now) in holds.iter_mut().zip(now) {
            *holds |= now;
        }
        before = Some((b, order));
    }
    holds
}

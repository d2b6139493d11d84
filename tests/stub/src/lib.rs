//! A stand-in archive to try the comparison on, and to show that it can fail.
//!
//! It exports the same C functions as the library and walks its tables the
//! plain way: lists of records, gaps between them, 64-bit sums. The variable
//! STUB_MUTANT names one planted fault by its number; each fault is one line
//! `// mutant N: what is wrong` beside the code it changes.

mod plan;
mod tree;

use std::sync::atomic::{AtomicU32, AtomicU64, Ordering};
use std::sync::{Mutex, MutexGuard, OnceLock};

/// What differs from edition to edition.
struct Edition {
    number: u32,
    len: usize,
    capacity: [usize; 2],
}

const NOW: Edition = Edition {
    number: 2,
    len: 15440,
    capacity: [128, 512],
};
const OLD: Edition = Edition {
    number: 1,
    len: 6224,
    capacity: [128, 128],
};
const OFFSETS: [usize; 2] = [80, 3152];
const ANY: u32 = u32::MAX;
const HOTPLUG: u32 = 1;
const MIRROR: u32 = 2;
const NO_MAP: u32 = 4;
const ENTRY_LEN: usize = 20;
const ENTRIES: usize = 128;
const PAGE: u64 = 4096;
const PAGE_NUMBERS: u64 = 1 << 52;

fn mutant(k: u32) -> bool {
    static CHOSEN: OnceLock<u32> = OnceLock::new();
    *CHOSEN.get_or_init(|| {
        std::env::var("STUB_MUTANT")
            .ok()
            .and_then(|text| text.parse().ok())
            .unwrap_or(0)
    }) == k
}

#[derive(Clone, Copy, PartialEq)]
struct Rec {
    base: u64,
    end: u64,
    flags: u32,
    node: u32,
}

impl Rec {
    fn same_tag(&self, other: &Rec) -> bool {
        self.flags == other.flags && self.node == other.node
    }
}

struct Block {
    memory: Vec<Rec>,
    taken: Vec<Rec>,
    limit: u64,
    direction: u32,
    image_end: u64,
}

fn u32_at(b: &[u8], at: usize) -> u32 {
    u32::from_le_bytes([b[at], b[at + 1], b[at + 2], b[at + 3]])
}

fn u64_at(b: &[u8], at: usize) -> u64 {
    u64::from(u32_at(b, at)) | u64::from(u32_at(b, at + 4)) << 32
}

fn parse(b: &[u8]) -> Option<Block> {
    parse_as(b, &NOW)
}

fn parse_as(b: &[u8], edition: &Edition) -> Option<Block> {
    if b.len() != edition.len {
        return None;
    }
    let words = [
        (0, edition.number),
        (4, 2),
        (8, 1),
        (12, 80),
        (20, edition.capacity[0] as u32),
        (24, 2),
        (28, 3152),
        (36, edition.capacity[1] as u32),
        (52, 0),
    ];
    // mutant 1: the word at 52 may hold anything
    // mutant 69: the edition may be any
    // mutant 70: the taken capacity may be any
    let skip = match () {
        _ if mutant(1) => 52,
        _ if mutant(69) => 0,
        _ if mutant(70) => 36,
        _ => usize::MAX,
    };
    if words
        .iter()
        .any(|&(at, x)| at != skip && u32_at(b, at) != x)
        || u32_at(b, 48) > 1
    {
        return None;
    }
    let image_end = u64_at(b, 72);
    // mutant 111: a block with an image end is bad
    // mutant 112: convert takes an old block with an image end
    let imageless = match edition.number {
        1 => !mutant(112),
        _ => mutant(111),
    };
    if imageless && image_end != 0 {
        return None;
    }
    // mutant 113: of the image end only the low half is read
    let image_end = match mutant(113) {
        true => image_end & u64::from(u32::MAX),
        false => image_end,
    };
    Some(Block {
        memory: parse_table(b, 0, edition)?,
        taken: parse_table(b, 1, edition)?,
        limit: u64_at(b, 40),
        direction: u32_at(b, 48),
        image_end,
    })
}

fn parse_table(b: &[u8], table: usize, edition: &Edition) -> Option<Vec<Rec>> {
    let count = u32_at(b, 16 + 16 * table) as usize;
    let capacity = edition.capacity[table];
    if count > capacity {
        return None;
    }
    let mut list: Vec<Rec> = Vec::with_capacity(count);
    let mut total = 0u64;
    for i in 0..count {
        let at = OFFSETS[table] + 24 * i;
        let (base, size) = (u64_at(b, at), u64_at(b, at + 8));
        let (flags, node) = (u32_at(b, at + 16), u32_at(b, at + 20));
        // mutant 2: a record may end at 2^64
        let end = match base.checked_add(size) {
            Some(end) => end,
            None if mutant(2) && base.wrapping_add(size) == 0 => u64::MAX,
            None => return None,
        };
        // mutant 3: taken records may have a tag
        let legal = match table {
            // mutant 71: convert takes an old block with flags 1 to 7
            0 if !mutant(71) && edition.number == OLD.number => {
                (flags == 0 || flags == NO_MAP) && node < 64
            }
            // mutant 95: flags 8 are legal in a block
            0 => (flags < 8 || mutant(95) && flags == 8) && node < 64,
            _ => mutant(3) || (flags == 0 && node == 0),
        };
        if size == 0 || !legal {
            return None;
        }
        let rec = Rec {
            base,
            end,
            flags,
            node,
        };
        if let Some(last) = list.last() {
            // mutant 4: touching records with equal tags pass for good
            if base < last.end || (!mutant(4) && base == last.end && last.same_tag(&rec)) {
                return None;
            }
        }
        total = total.wrapping_add(size);
        list.push(rec);
    }
    let past = OFFSETS[table] + 24 * count;
    // mutant 5: bytes past the count are not looked at
    // mutant 72: of the bytes past the count only as many as edition 1 had are looked at
    let looked_at = if mutant(72) {
        OLD.capacity[table].max(count)
    } else {
        capacity
    };
    let clean = b[past..OFFSETS[table] + 24 * looked_at]
        .iter()
        .all(|&x| x == 0);
    (total == u64_at(b, 56 + 8 * table) && (clean || mutant(5))).then_some(list)
}

fn put_table(b: &mut [u8], table: usize, list: &[Rec], keep_total: bool) {
    let mut total = 0u64;
    let start = OFFSETS[table];
    b[start..start + 24 * NOW.capacity[table]].fill(0);
    for (i, rec) in list.iter().enumerate() {
        let at = start + 24 * i;
        let size = rec.end.wrapping_sub(rec.base);
        total = total.wrapping_add(size);
        b[at..at + 8].copy_from_slice(&rec.base.to_le_bytes());
        b[at + 8..at + 16].copy_from_slice(&size.to_le_bytes());
        b[at + 16..at + 20].copy_from_slice(&rec.flags.to_le_bytes());
        b[at + 20..at + 24].copy_from_slice(&rec.node.to_le_bytes());
    }
    let count_at = 16 + 16 * table;
    b[count_at..count_at + 4].copy_from_slice(&(list.len() as u32).to_le_bytes());
    if !keep_total {
        let total_at = 56 + 8 * table;
        b[total_at..total_at + 8].copy_from_slice(&total.to_le_bytes());
    }
}

/// The shortest list for pieces in rising order.
fn shortest(pieces: &[Rec]) -> Vec<Rec> {
    let mut list: Vec<Rec> = Vec::with_capacity(pieces.len());
    for piece in pieces.iter().filter(|piece| piece.base < piece.end) {
        match list.last_mut() {
            // mutant 6: merges whatever touches, without looking at the tags
            Some(last) if last.end == piece.base && (mutant(6) || last.same_tag(piece)) => {
                last.end = piece.end;
            }
            _ => list.push(*piece),
        }
    }
    list
}

/// Stores pieces in rising order as the shortest list, or answers 6.
fn store(b: &mut [u8], table: usize, pieces: &[Rec]) -> u32 {
    let mut list = shortest(pieces);
    let unmerged = pieces.iter().filter(|piece| piece.base < piece.end).count();
    // mutant 7: 6 is decided before merging
    let count = if mutant(7) { unmerged } else { list.len() };
    // mutant 73: both tables are full at 128 records
    // mutant 74: the taken table is full at 511 records
    let capacity = match NOW.capacity[table] {
        _ if mutant(73) => 128,
        512 if mutant(74) => 511,
        capacity => capacity,
    };
    if count > capacity {
        // mutant 8: a refusal 6 leaves the cut list behind
        if mutant(8) {
            list.truncate(capacity);
            put_table(b, table, &list, false);
        }
        return 6;
    }
    put_table(b, table, &list, false);
    0
}

/// The end of a table range, cut at the top.
fn cut(base: u64, size: u64) -> u64 {
    // mutant 9: cut one address too low
    let top = if mutant(9) { u64::MAX - 1 } else { u64::MAX };
    base.saturating_add(size).min(top).max(base)
}

/// All records, with the part of each inside the range changed or dropped.
fn split(list: &[Rec], base: u64, end: u64, change: impl Fn(&mut Rec) -> bool) -> Vec<Rec> {
    let mut pieces = Vec::new();
    for rec in list {
        let lo = rec.base.max(base);
        let hi = rec.end.min(end);
        if lo >= hi {
            pieces.push(*rec);
            continue;
        }
        let mut middle = Rec {
            base: lo,
            end: hi,
            ..*rec
        };
        pieces.push(Rec { end: lo, ..*rec });
        if change(&mut middle) {
            pieces.push(middle);
        }
        pieces.push(Rec { base: hi, ..*rec });
    }
    pieces
}

/// All records, and new ones in the gaps of the range between them.
fn fill(list: &[Rec], base: u64, end: u64, flags: u32, node: u32) -> Vec<Rec> {
    let mut pieces = Vec::new();
    let mut at = base;
    for rec in list {
        if at < rec.base.min(end) {
            pieces.push(Rec {
                base: at,
                end: rec.base.min(end),
                flags,
                node,
            });
        }
        pieces.push(*rec);
        // mutant 10: add gives its tag to addresses already there
        if mutant(10) && rec.base >= base && rec.end <= end {
            let last = pieces.len() - 1;
            pieces[last].flags = flags;
            pieces[last].node = node;
        }
        at = at.max(rec.end);
    }
    if at < end {
        pieces.push(Rec {
            base: at,
            end,
            flags,
            node,
        });
    }
    pieces
}

fn round_up(x: u64, alignment: u64) -> Option<u64> {
    let mask = alignment - 1;
    // mutant 11: rounding up goes past the top and lands near 0
    if mutant(11) {
        return Some(x.wrapping_add(mask) & !mask);
    }
    Some(x.checked_add(mask)? & !mask)
}

/// Each record's base rounded up and its end rounded down.
fn trimmed(list: &[Rec], alignment: u64) -> Vec<Rec> {
    let mut shorter = Vec::new();
    for rec in list {
        let end = rec.end & !(alignment - 1);
        match round_up(rec.base, alignment) {
            Some(base) if base < end => shorter.push(Rec { base, end, ..*rec }),
            _ => {}
        }
    }
    shorter
}

/// The gaps of the taken list inside one record.
fn gaps(rec: &Rec, taken: &[Rec]) -> Vec<(u64, u64)> {
    let mut gaps = Vec::new();
    let mut at = rec.base;
    for t in taken {
        if t.end <= at || t.base >= rec.end {
            continue;
        }
        if at < t.base {
            gaps.push((at, t.base));
        }
        at = t.end;
    }
    if at < rec.end {
        gaps.push((at, rec.end));
    }
    gaps
}

/// Whether a wish grants memory of these flags.
fn granted(flags: u32, wish: u32) -> bool {
    // mutant 96: a wish of 3 does not allow hotplug memory
    // mutant 97: a wish of 1 is passed over
    // mutant 98: a wish of 2 allows hotplug memory too
    let allowed = match wish {
        _ if mutant(96) => wish == 1,
        _ if mutant(97) => wish == 3,
        _ if mutant(98) => wish > 0,
        _ => wish & 1 == 1,
    };
    // mutant 99: a wish of 2 gives memory without mirror
    let demanded = wish & 2 == 2 && !mutant(99);
    // mutant 12: no-map memory is offered
    (flags & NO_MAP == 0 || mutant(12))
        && (allowed || flags & HOTPLUG == 0)
        && (!demanded || flags & MIRROR == MIRROR)
}

fn offered(rec: &Rec, node: u32, wish: u32) -> bool {
    // mutant 13: any node means node 0
    let any = node == ANY && (!mutant(13) || rec.node == 0);
    granted(rec.flags, wish) && (any || rec.node == node)
}

/// The records a search walks over.
fn walked(memory: &[Rec], wish: u32) -> Vec<Rec> {
    let mut list: Vec<Rec> = Vec::new();
    for rec in memory {
        match list.last_mut() {
            // mutant 14: a run goes on across two tags
            Some(last) if mutant(14) && last.end == rec.base => last.end = rec.end,
            // mutant 101: a run goes on across flags that the wish grants alike
            Some(last)
                if mutant(101)
                    && last.end == rec.base
                    && last.node == rec.node
                    && granted(last.flags, wish)
                    && granted(rec.flags, wish) =>
            {
                last.end = rec.end;
            }
            _ => list.push(*rec),
        }
    }
    list
}

/// Whether the node and the wish of a search may be asked for.
fn may_ask(node: u32, wish: u32) -> bool {
    // mutant 102: of a wish only the two low bits are looked at
    // mutant 103: the wish is checked after the alignment
    let wish_known = wish <= 3 || mutant(102) || mutant(103);
    (node <= 63 || node == ANY) && wish_known
}

struct Query {
    size: u64,
    alignment: u64,
    start: u64,
    end: u64,
    node: u32,
    wish: u32,
    /// What is found is to be reserved.
    takes: bool,
}

/// The address that find gives, and the end of the gap that holds it.
fn search(block: &Block, query: &Query) -> Option<(u64, u64)> {
    if query.node != ANY && gives_up_at_once(block, query) {
        return None;
    }
    // mutant 15: start is not raised to 4096
    let lowest = if mutant(15) { 0 } else { 4096 };
    let start = query.start.max(lowest);
    let mut end = match query.end {
        0 => block.limit,
        named => named.min(block.limit),
    };
    // mutant 16: a named end above the limit is taken as given
    // mutant 60: allocate takes a named end above the limit as given
    // mutant 61: a limit below the start cuts no named end
    // mutant 62: a limit of 0 cuts no named end
    // mutant 63: a limit of 1 to 4095 cuts no named end
    // mutant 440: of a named node: the limit cuts no named end where another node's memory is the last
    let is_anothers = |rec: &Rec| query.node != ANY && rec.node != query.node;
    let as_given = mutant(16)
        || mutant(440) && block.memory.last().is_some_and(is_anothers)
        || mutant(60) && query.takes
        || mutant(61) && block.limit < start
        || mutant(62) && block.limit == 0
        || mutant(63) && (1..4096).contains(&block.limit);
    // mutant 64: a named end passes the limit by one address
    let past_by_one = mutant(64) && block.limit < query.end;
    // mutant 65: an end of 0 is cut like any other
    // mutant 66: a named end below the limit is passed over
    let as_limit = mutant(66) && query.end < block.limit;
    if query.end != 0 && as_given {
        end = query.end;
    } else if past_by_one {
        end = block.limit + 1;
    } else if mutant(65) {
        end = query.end.min(block.limit);
    } else if as_limit {
        end = block.limit;
    }
    // mutant 17: the limit of the call before is used
    static LAST: AtomicU64 = AtomicU64::new(u64::MAX);
    let last = LAST.swap(block.limit, Ordering::Relaxed);
    if mutant(17) && query.end == 0 {
        end = last;
    }
    let end = end.max(start);
    // mutant 18: the direction is taken the wrong way round
    let bottom_up = (block.direction == 1) != mutant(18);
    // mutant 114: an image end at or above the window's end counts as none
    // mutant 115: the image end is rounded up to a page
    // mutant 116: an address at the image end is not given, only one above it
    // mutant 117: an address counts as above the image where its range ends above it
    // mutant 441: of a named node: the image end counts only where all memory is the node's
    let image_end = match block.image_end {
        _ if mutant(441) && block.memory.iter().any(is_anothers) => 0,
        image_end if mutant(114) && image_end >= end => 0,
        image_end if mutant(115) => round_up(image_end, PAGE).unwrap_or(u64::MAX),
        image_end if mutant(116) => image_end.saturating_add(1),
        image_end if mutant(117) => image_end.saturating_sub(query.size - 1),
        image_end => image_end,
    };
    let above = start.max(image_end);
    if bottom_up {
        // mutant 118: a bottom-up block answers 5 where all is below the image
        // mutant 119: allocate answers 5 there
        // mutant 442: of a named node: 5 there where another node's memory is above the image
        let others_above = |rec: &Rec| is_anothers(rec) && rec.end > image_end;
        let gives_up = mutant(118)
            || mutant(119) && query.takes
            || mutant(442) && block.memory.iter().any(others_above);
        // mutant 120: the other way gives the lowest
        // mutant 121: the other way gives no range that ends above the image
        let to = if mutant(121) { end.min(above) } else { end };
        walk(block, query, above, end, true).or_else(|| match gives_up {
            true => None,
            false => walk(block, query, start, to, mutant(120)),
        })
    } else {
        // mutant 122: top-down gives nothing below the image
        let from = if mutant(122) { above } else { start };
        walk(block, query, from, end, false)
    }
}

/// Whether a search for a named node looks no further.
fn gives_up_at_once(block: &Block, query: &Query) -> bool {
    let total = |list: &[Rec]| list.iter().map(|rec| rec.end - rec.base).sum::<u64>();
    // mutant 438: of a named node: 5 for a size above the memory total less the taken total
    let free = || total(&block.memory).saturating_sub(total(&block.taken));
    // mutant 439: of a named node: find answers 5 where the taken table is full
    let full = block.taken.len() == NOW.capacity[1];
    mutant(438) && query.size > free() || mutant(439) && full && !query.takes
}

/// What is taken, as a search for a named node sees it in one of its records.
fn seen(block: &Block, rec: &Rec) -> Vec<Rec> {
    let mut taken = block.taken.clone();
    let before = |m: &&Rec| m.end <= rec.base;
    match () {
        // mutant 432: of a named node: as many taken records are looked at as there are memory records
        _ if mutant(432) => taken.truncate(block.memory.len()),
        // mutant 433: of a named node: what is taken is rounded out to pages
        _ if mutant(433) => taken.iter_mut().for_each(|t| {
            t.base &= !(PAGE - 1);
            t.end = round_up(t.end, PAGE).unwrap_or(u64::MAX);
        }),
        // mutant 434: of a named node: a taken record that begins below the memory record is passed over
        _ if mutant(434) => taken.retain(|t| t.base >= rec.base),
        // mutant 435: of a named node: a taken record that ends above the memory record is passed over
        _ if mutant(435) => taken.retain(|t| t.end <= rec.end),
        // mutant 436: of a named node: a taken record counts in the first memory record it meets alone
        _ if mutant(436) => taken.retain(|t| {
            let mut met = block.memory.iter().take_while(before);
            !met.any(|m| m.base < t.end && t.base < m.end)
        }),
        _ => {}
    }
    taken
}

/// The end of a run that ends with its record, as a search for a named node tells it.
fn told_end(block: &Block, rec: &Rec) -> u64 {
    let behind = block.memory.iter().find(|m| m.base >= rec.end);
    match behind {
        // mutant 430: of a named node: the run's end is that of memory of its flags that touches
        Some(m) if mutant(430) && m.base == rec.end && m.flags == rec.flags => m.end,
        // mutant 431: of a named node: the run's end is where the next memory record begins
        Some(m) if mutant(431) => m.base,
        _ => rec.end,
    }
}

/// The first address that fits between start and end, going up or down, and the end of
/// the gap that holds it.
fn walk(block: &Block, query: &Query, start: u64, end: u64, bottom_up: bool) -> Option<(u64, u64)> {
    let named = query.node != ANY;
    let mut memory = walked(&block.memory, query.wish);
    // mutant 429: of a named node: memory that touches is one run by its flags alone
    if mutant(429) && named {
        memory.dedup_by(|b, a| {
            let one = a.end == b.base && a.flags == b.flags;
            a.end = if one { b.end } else { a.end };
            one
        });
    }
    if !bottom_up {
        memory.reverse();
    }
    let mut met = false;
    for rec in &memory {
        // mutant 437: of a named node: the walk ends at another node's memory behind the node's
        if mutant(437) && named && met && rec.node != query.node {
            break;
        }
        met |= rec.node == query.node;
        if !offered(rec, query.node, query.wish) {
            continue;
        }
        let mut gaps = match named {
            true => gaps(rec, &seen(block, rec)),
            false => gaps(rec, &block.taken),
        };
        if !bottom_up {
            gaps.reverse();
        }
        for (lo, run_end) in gaps {
            // mutant 137: a run that begins below the image gives nothing above it
            if mutant(137) && bottom_up && lo < block.image_end {
                continue;
            }
            let lo = lo.max(start);
            let hi = run_end.min(end);
            // mutant 88: bottom-up the run's end is cut to the window
            // mutant 89: top-down the run's end is cut to the window
            // mutant 90: the run's end is cut to the limit
            // mutant 91: find and allocate answer the end of the record, not of the run
            // mutant 123: a run that the image ends in is said to end there
            let run_end = match () {
                _ if mutant(123) && lo < block.image_end => run_end.min(block.image_end),
                _ if mutant(88) && bottom_up => hi,
                _ if mutant(89) && !bottom_up => hi,
                _ if mutant(90) => run_end.min(block.limit),
                _ if mutant(91) => rec.end,
                _ if named && run_end == rec.end => told_end(block, rec),
                _ => run_end,
            };
            if bottom_up {
                // mutant 138: an address at the image end need not be aligned
                let aligned = match mutant(138) && lo == block.image_end {
                    true => Some(lo),
                    false => round_up(lo, query.alignment),
                };
                let Some(a) = aligned else {
                    continue;
                };
                if a < hi && hi - a >= query.size {
                    return Some((a, run_end));
                }
            } else {
                // mutant 19: end minus size without asking which is smaller
                if hi < query.size && !mutant(19) {
                    continue;
                }
                let a = hi.wrapping_sub(query.size) & !(query.alignment - 1);
                if a >= lo && lo < hi {
                    return Some((a, run_end));
                }
            }
        }
    }
    None
}

/// The checks of find, in their order, up to the address and its run's end.
fn look(block: &[u8], query: &Query) -> Result<(Block, u64, u64), u32> {
    let block = parse(block).ok_or(1u32)?;
    // mutant 443: a node above all that have memory gets 2
    // mutant 444: 5 where there is no memory comes first
    let all_below = block.memory.iter().all(|rec| rec.node < query.node);
    if mutant(443) && query.node != ANY && all_below {
        return Err(2);
    }
    if mutant(444) && block.memory.is_empty() {
        return Err(5);
    }
    if !may_ask(query.node, query.wish) {
        return Err(2);
    }
    // mutant 20: size 0 is seen before a bad alignment
    if mutant(20) && query.size == 0 {
        return Err(4);
    }
    if !query.alignment.is_power_of_two() {
        return Err(3);
    }
    if mutant(103) && query.wish > 3 {
        return Err(2);
    }
    if query.size == 0 {
        return Err(4);
    }
    let (a, run_end) = search(&block, query).ok_or(5u32)?;
    // mutant 92: find and allocate answer a + size, not the run's end
    // mutant 93: allocate answers a + size, not the run's end
    if mutant(92) || mutant(93) && query.takes {
        return Ok((block, a, a + query.size));
    }
    Ok((block, a, run_end))
}

fn tell(slip: &mut [u8], answer: Result<(u64, u64), u32>) -> u32 {
    match answer {
        Ok((a, b)) => {
            slip[..8].copy_from_slice(&a.to_le_bytes());
            slip[8..].copy_from_slice(&b.to_le_bytes());
            0
        }
        Err(number) => {
            // mutant 21: the slip is not zeroed on a refusal
            if !mutant(21) {
                slip.fill(0);
            }
            number
        }
    }
}

unsafe fn lent<'a>(p: *const u8, len: usize) -> &'a [u8] {
    std::slice::from_raw_parts(p, len)
}

unsafe fn lent_mut<'a>(p: *mut u8, len: usize) -> &'a mut [u8] {
    std::slice::from_raw_parts_mut(p, len)
}

/// # Safety
/// The pointer and the length name one lent buffer; so for all below.
#[no_mangle]
pub unsafe extern "C" fn memblock_fresh(block: *mut u8, len: usize) -> u32 {
    let b = lent_mut(block, len);
    // mutant 75: fresh is done on the bytes of an edition 1 block too
    if mutant(75) && len == OLD.len {
        b.fill(0);
        return 0;
    }
    if len != NOW.len {
        return 1;
    }
    let image_end = u64_at(b, 72);
    write_empty(b);
    // mutant 124: fresh leaves what stands in the place of the image end
    if mutant(124) {
        put_image_end(b, image_end);
    }
    // mutant 22: the limit of a fresh block is 2^63 - 1
    let limit = if mutant(22) { u64::MAX >> 1 } else { u64::MAX };
    b[40..48].copy_from_slice(&limit.to_le_bytes());
    0
}

fn put_image_end(b: &mut [u8], end: u64) {
    b[72..80].copy_from_slice(&end.to_le_bytes());
}

/// A block with both tables empty, limit, direction and image end 0.
fn write_empty(b: &mut [u8]) {
    b.fill(0);
    // mutant 76: the taken capacity is stored as 511
    let taken = NOW.capacity[1] as u32 - u32::from(mutant(76));
    for (at, x) in [
        (0, NOW.number),
        (4, 2),
        (8, 1),
        (12, 80),
        (20, NOW.capacity[0] as u32),
        (24, 2),
        (28, 3152),
        (36, taken),
    ] {
        b[at..at + 4].copy_from_slice(&x.to_le_bytes());
    }
}

/// # Safety
/// As above; the two share no byte.
#[no_mangle]
pub unsafe extern "C" fn memblock_convert(
    old: *const u8,
    old_len: usize,
    block: *mut u8,
    len: usize,
) -> u32 {
    let o = lent(old, old_len);
    let b = lent_mut(block, len);
    // mutant 77: the lent bytes are cleared before the old block is judged
    if mutant(77) {
        b.fill(0);
    }
    // mutant 78: convert judges the old block by the current layout
    let judged_by = if mutant(78) { &NOW } else { &OLD };
    let Some(tables) = parse_as(o, judged_by) else {
        return 1;
    };
    // mutant 79: convert wants a good block to write over
    if mutant(79) && parse(b).is_none() {
        return 1;
    }
    // mutant 80: convert writes over the first bytes of a longer block
    if len < NOW.len || (len > NOW.len && !mutant(80)) {
        return 1;
    }
    let b = &mut b[..NOW.len];
    // mutant 81: what stood behind an edition 1 block's end stays
    let behind = b[OLD.len..].to_vec();
    let image_end = u64_at(b, 72);
    write_empty(b);
    // mutant 125: convert leaves what stands in the place of the image end
    if mutant(125) {
        put_image_end(b, image_end);
    }
    put_table(b, 0, &tables.memory, false);
    put_table(b, 1, &tables.taken, false);
    if mutant(81) {
        b[OLD.len..].copy_from_slice(&behind);
    }
    // mutant 82: convert drops the limit
    // mutant 83: convert drops the direction
    if !mutant(82) {
        b[40..48].copy_from_slice(&tables.limit.to_le_bytes());
    }
    if !mutant(83) {
        b[48..52].copy_from_slice(&tables.direction.to_le_bytes());
    }
    // mutant 84: convert drops the last of 128 taken records
    if mutant(84) && tables.taken.len() == 128 {
        put_table(b, 1, &tables.taken[..127], false);
    }
    // mutant 85: the old block's edition is written
    if mutant(85) {
        old.cast_mut().write(2);
    }
    0
}

/// # Safety
/// As above.
#[no_mangle]
pub unsafe extern "C" fn memblock_set(
    block: *mut u8,
    len: usize,
    limit: u64,
    direction: u32,
) -> u32 {
    let b = lent_mut(block, len);
    // mutant 86: set is done on an edition 1 block
    let let_through = mutant(86) && parse_as(b, &OLD).is_some();
    if parse(b).is_none() && !let_through {
        return 1;
    }
    // mutant 23: set writes the limit before it refuses the direction
    if direction > 1 && !mutant(23) {
        return 7;
    }
    b[40..48].copy_from_slice(&limit.to_le_bytes());
    if direction > 1 {
        return 7;
    }
    b[48..52].copy_from_slice(&direction.to_le_bytes());
    // mutant 126: set clears the image end
    if mutant(126) {
        put_image_end(b, 0);
    }
    0
}

/// # Safety
/// As above.
#[no_mangle]
pub unsafe extern "C" fn memblock_set_image_end(block: *mut u8, len: usize, end: u64) -> u32 {
    let b = lent_mut(block, len);
    // mutant 127: the image end is set in any bytes of a block's length
    let let_through = mutant(127) && len == NOW.len;
    let limit = match parse(b) {
        Some(tables) => tables.limit,
        None if let_through => u64::MAX,
        None => return 1,
    };
    // mutant 128: an image end of 0 is refused
    // mutant 129: an image end of 2^64 - 1 is refused
    // mutant 130: an image end above the limit is refused
    if mutant(128) && end == 0 || mutant(129) && end == u64::MAX || mutant(130) && end > limit {
        return 1;
    }
    put_image_end(b, end);
    // mutant 131: the image end turns the block bottom-up
    if mutant(131) {
        b[48] = 1;
    }
    0
}

/// # Safety
/// As above.
#[no_mangle]
pub unsafe extern "C" fn memblock_add(
    block: *mut u8,
    len: usize,
    base: u64,
    size: u64,
    flags: u32,
    node: u32,
) -> u32 {
    let b = lent_mut(block, len);
    let Some(tables) = parse(b) else { return 1 };
    // mutant 24: a size of 0 hides a bad tag
    if mutant(24) && size == 0 {
        return 0;
    }
    // mutant 104: flags 8 are legal in add
    let most = if mutant(104) { 8 } else { 7 };
    if flags > most || node > 63 {
        return 2;
    }
    let pieces = fill(&tables.memory, base, cut(base, size), flags, node);
    // mutant 132: add clears the image end
    if mutant(132) {
        put_image_end(b, 0);
    }
    store(b, 0, &pieces)
}

unsafe fn change_memory(
    block: *mut u8,
    len: usize,
    base: u64,
    size: u64,
    change: impl Fn(&mut Rec) -> bool,
) -> u32 {
    let b = lent_mut(block, len);
    let Some(tables) = parse(b) else { return 1 };
    let end = cut(base, size);
    // mutant 139: remove, mark and unmark answer 12 where no memory is
    if mutant(139) && base < end && !tables.memory.iter().any(|r| r.base < end && base < r.end) {
        return 12;
    }
    let pieces = split(&tables.memory, base, end, change);
    let number = store(b, 0, &pieces);
    // mutant 34: remove, mark and unmark free the range too
    if mutant(34) && number == 0 {
        let rest = split(&tables.taken, base, cut(base, size), |_| false);
        store(b, 1, &rest);
    }
    number
}

/// # Safety
/// As above.
#[no_mangle]
pub unsafe extern "C" fn memblock_remove(block: *mut u8, len: usize, base: u64, size: u64) -> u32 {
    change_memory(block, len, base, size, |_| false)
}

/// Whether a mark may name this.
fn is_flag(flag: u32) -> bool {
    // mutant 105: a mark of several flags is done
    // mutant 106: a mark of no flag is done
    [HOTPLUG, MIRROR, NO_MAP].contains(&flag)
        || mutant(105) && (1..=7).contains(&flag)
        || mutant(106) && flag == 0
}

/// Sets or clears a flag where there is memory.
unsafe fn change_flag(
    block: *mut u8,
    len: usize,
    base: u64,
    size: u64,
    flag: u32,
    set: bool,
) -> u32 {
    if parse(lent(block, len)).is_none() {
        return 1;
    }
    // mutant 107: a size of 0 hides a wrong flag
    if mutant(107) && size == 0 {
        return 0;
    }
    if !is_flag(flag) {
        return 2;
    }
    // mutant 108: mark and unmark always mean no-map
    let flag = if mutant(108) { NO_MAP } else { flag };
    change_memory(block, len, base, size, |rec| {
        // mutant 109: mark drops the other flags
        // mutant 110: unmark clears all flags
        rec.flags = match set {
            true if mutant(109) => flag,
            true => rec.flags | flag,
            false if mutant(110) => 0,
            false => rec.flags & !flag,
        };
        true
    })
}

/// # Safety
/// As above.
#[no_mangle]
pub unsafe extern "C" fn memblock_mark(
    block: *mut u8,
    len: usize,
    base: u64,
    size: u64,
    flag: u32,
) -> u32 {
    // mutant 25: every hundredth mark answers without doing it
    static MARKS: AtomicU32 = AtomicU32::new(0);
    if mutant(25) && MARKS.fetch_add(1, Ordering::Relaxed) % 100 == 99 {
        return match parse(lent(block, len)) {
            None => 1,
            Some(_) if !is_flag(flag) => 2,
            Some(_) => 0,
        };
    }
    change_flag(block, len, base, size, flag, true)
}

/// # Safety
/// As above.
#[no_mangle]
pub unsafe extern "C" fn memblock_unmark(
    block: *mut u8,
    len: usize,
    base: u64,
    size: u64,
    flag: u32,
) -> u32 {
    change_flag(block, len, base, size, flag, false)
}

/// # Safety
/// As above.
#[no_mangle]
pub unsafe extern "C" fn memblock_reserve(block: *mut u8, len: usize, base: u64, size: u64) -> u32 {
    let b = lent_mut(block, len);
    let Some(tables) = parse(b) else { return 1 };
    let end = cut(base, size);
    // mutant 140: reserve answers 12 where all is taken already
    if mutant(140) && base < end && holder(&tables.taken, base, end).is_some() {
        return 12;
    }
    *last_reserve() = (base, end);
    store(b, 1, &fill(&tables.taken, base, end, 0, 0))
}

/// The range of the last reserve, for mutant 150.
fn last_reserve() -> MutexGuard<'static, (u64, u64)> {
    static LAST: Mutex<(u64, u64)> = Mutex::new((0, 0));
    LAST.lock().expect("never poisoned")
}

/// The record that has the whole range.
fn holder(list: &[Rec], base: u64, end: u64) -> Option<&Rec> {
    list.iter().find(|r| r.base <= base && end <= r.end)
}

/// Whether free must answer 12 on a good block.
fn not_taken(tables: &Block, base: u64, size: u64) -> bool {
    let (taken, end) = (&tables.taken, cut(base, size));
    let has = |x: u64| taken.iter().any(|r| r.base <= x && x < r.end);
    // mutant 141: a size of 0 gets 12 where the address is not taken
    // mutant 142: a range that the cut leaves nothing of gets 12
    if base >= end {
        return mutant(141) && size == 0 && !has(base) || mutant(142) && size > 0;
    }
    let passed = base.checked_add(size).is_none();
    let full = taken.len() == NOW.capacity[1];
    let (first, last) = (has(base), has(end - 1));
    let some = taken.iter().any(|r| r.base < end && base < r.end);
    let whole = holder(taken, base, end);
    match whole {
        // mutant 143: all of a record gets 12
        Some(r) if mutant(143) => r.base == base && r.end == end,
        // mutant 144: a range that begins where its record does gets 12
        Some(r) if mutant(144) => r.base == base && end < r.end,
        // mutant 145: a range that ends where its record does gets 12
        Some(r) if mutant(145) => r.base < base && end == r.end,
        // mutant 146: the inside of a record of a full table gets 12
        Some(r) if mutant(146) => full && r.base < base && end < r.end,
        // mutant 147: a range whose sum goes past the top gets 12, taken or not
        Some(_) if mutant(147) => passed,
        // mutant 148: taken addresses that are no memory get 12
        Some(_) if mutant(148) => holder(&tables.memory, base, end).is_none(),
        // mutant 149: the last taken record counts as not taken
        Some(r) if mutant(149) => taken.last() == Some(r),
        // mutant 150: two reserves that touch, freed as one, get 12
        Some(_) if mutant(150) => {
            let (from, to) = *last_reserve();
            from < end && base < to && (base < from && end == to || base == from && to < end)
        }
        Some(_) => false,
        // mutant 151: what is not taken is freed as before
        None if mutant(151) => false,
        // mutant 152: only the first address is looked at
        None if mutant(152) => !first,
        // mutant 153: only the last address is looked at
        None if mutant(153) => !last,
        // mutant 154: only the first and the last address are looked at
        None if mutant(154) => !first || !last,
        // mutant 155: 12 is for a range of which nothing is taken
        None if mutant(155) => !some,
        // mutant 156: a range that ends one past a record is freed
        None if mutant(156) => holder(taken, base, end - 1).is_none() || end - base == 1,
        // mutant 157: a range that begins one before a record is freed
        None if mutant(157) => holder(taken, base + 1, end).is_none() || end - base == 1,
        // mutant 158: a range whose sum goes past the top is not looked at
        None if mutant(158) => !passed,
        None => true,
    }
}

/// # Safety
/// As above.
#[no_mangle]
pub unsafe extern "C" fn memblock_free(block: *mut u8, len: usize, base: u64, size: u64) -> u32 {
    let b = lent_mut(block, len);
    let Some(tables) = parse(b) else {
        // mutant 159: 12 comes before 1
        let early = mutant(159) && len == NOW.len && base < cut(base, size);
        return if early { 12 } else { 1 };
    };
    let end = cut(base, size);
    if not_taken(&tables, base, size) {
        // mutant 160: a free that gets 12 frees what is taken of its range
        if mutant(160) {
            store(b, 1, &split(&tables.taken, base, end, |_| false));
        }
        // mutant 161: a full table gives 6 for what is not taken
        let full = tables.taken.len() == NOW.capacity[1];
        return if mutant(161) && full { 6 } else { 12 };
    }
    // mutant 35: a free that ends inside a record leaves the record
    if mutant(35) && tables.taken.iter().any(|r| r.base < end && end < r.end) {
        return 0;
    }
    // mutant 133: free clears the image end
    if mutant(133) {
        put_image_end(b, 0);
    }
    store(b, 1, &split(&tables.taken, base, end, |_| false))
}

/// # Safety
/// As above.
#[no_mangle]
pub unsafe extern "C" fn memblock_trim(block: *mut u8, len: usize, alignment: u64) -> u32 {
    let b = lent_mut(block, len);
    let Some(tables) = parse(b) else { return 1 };
    if !alignment.is_power_of_two() {
        return 3;
    }
    // mutant 26: trim keeps the old total
    put_table(b, 0, &trimmed(&tables.memory, alignment), mutant(26));
    0
}

/// # Safety
/// As above.
#[no_mangle]
pub unsafe extern "C" fn memblock_next_free(
    block: *const u8,
    len: usize,
    from: u64,
    node: u32,
    wish: u32,
    slip: *mut u8,
    slip_len: usize,
) -> u32 {
    let b = lent(block, len);
    // mutant 27: a bad block is seen before a bad slip
    if mutant(27) && parse(b).is_none() {
        return 1;
    }
    if slip_len != 16 {
        return 8;
    }
    let slip = lent_mut(slip, slip_len);
    // mutant 87: next free reads an edition 1 block too
    let old = parse_as(b, &OLD).filter(|_| mutant(87));
    let Some(tables) = parse(b).or(old) else {
        return tell(slip, Err(1));
    };
    if !may_ask(node, wish) || mutant(103) && wish > 3 {
        return tell(slip, Err(2));
    }
    tell(slip, next_run(&tables, from, node, wish).ok_or(5))
}

/// The lowest free address at or above one, and the end of its gap.
fn next_run(tables: &Block, from: u64, node: u32, wish: u32) -> Option<(u64, u64)> {
    // mutant 100: next free takes no notice of the wish
    let wish = if mutant(100) { 1 } else { wish };
    // mutant 134: next free gives nothing below the image
    let from = if mutant(134) {
        from.max(tables.image_end)
    } else {
        from
    };
    for rec in &walked(&tables.memory, wish) {
        if !offered(rec, node, wish) {
            continue;
        }
        for (lo, hi) in gaps(rec, &tables.taken) {
            if hi <= from {
                continue;
            }
            let a = lo.max(from);
            // mutant 28: an address of 0 means failure
            if mutant(28) && a == 0 {
                return None;
            }
            // mutant 29: next free answers the end of the record, not of the run
            let end = if mutant(29) { rec.end } else { hi };
            // mutant 67: next free gives nothing above the limit
            if mutant(67) && tables.limit <= a {
                return None;
            }
            // mutant 68: next free ends a run at the limit
            let end = if mutant(68) {
                end.min(tables.limit.max(a))
            } else {
                end
            };
            return Some((a, end));
        }
    }
    None
}

/// # Safety
/// As above.
#[no_mangle]
pub unsafe extern "C" fn memblock_find(
    block: *const u8,
    len: usize,
    size: u64,
    alignment: u64,
    start: u64,
    end: u64,
    node: u32,
    wish: u32,
    slip: *mut u8,
    slip_len: usize,
) -> u32 {
    if slip_len != 16 {
        return 8;
    }
    let query = Query {
        size,
        alignment,
        start,
        end,
        node,
        wish,
        takes: false,
    };
    let answer = look(lent(block, len), &query).map(|(_, a, end)| (a, end));
    // mutant 445: find writes the memory total beside 5
    if mutant(445) && answer == Err(5) {
        let total = u64_at(lent(block, len), 56);
        tell(lent_mut(slip, slip_len), Ok((0, total)));
        return 5;
    }
    // mutant 30: find writes one byte past the slip
    if mutant(30) && answer.is_ok() {
        slip.add(16).write(0);
    }
    // mutant 31: find never ends on one size
    while mutant(31) && size == 3 {
        std::hint::spin_loop();
    }
    // mutant 32: find stops the program on one size
    if mutant(32) && size == 3 {
        std::process::abort();
    }
    tell(lent_mut(slip, slip_len), answer)
}

/// # Safety
/// As above.
#[no_mangle]
pub unsafe extern "C" fn memblock_allocate(
    block: *mut u8,
    len: usize,
    size: u64,
    alignment: u64,
    start: u64,
    end: u64,
    node: u32,
    wish: u32,
    slip: *mut u8,
    slip_len: usize,
) -> u32 {
    if slip_len != 16 {
        return 8;
    }
    let query = Query {
        size,
        alignment,
        start,
        end,
        node,
        wish,
        takes: true,
    };
    let b = lent_mut(block, len);
    let slip = lent_mut(slip, slip_len);
    let (tables, a, mut end) = match look(b, &query) {
        Ok(found) => found,
        Err(number) => return tell(slip, Err(number)),
    };
    let pieces = fill(&tables.taken, a, cut(a, size), 0, 0);
    let number = store(b, 1, &pieces);
    // mutant 94: allocate looks for the run's end after the call
    if mutant(94) && number == 0 {
        let after = parse(b).and_then(|tables| next_run(&tables, a, ANY, wish));
        end = after.map_or(a, |run| run.1);
    }
    // mutant 135: allocate moves the image end past what it gave
    if mutant(135) && number == 0 {
        put_image_end(b, a + size);
    }
    // mutant 33: allocate shows the address found when it refuses 6
    if number == 0 || mutant(33) {
        tell(slip, Ok((a, end)));
    } else {
        tell(slip, Err(number));
    }
    number
}

/// The free gaps whose pages are handed over.
fn handed_gaps(tables: &Block) -> Vec<(u64, u64)> {
    let mut list: Vec<Rec> = Vec::new();
    for rec in &tables.memory {
        let joined = match list.last() {
            Some(last) if last.end == rec.base => {
                // mutant 343: pages: runs of two tags that touch are one
                // mutant 344: pages: runs of one node that touch are one
                // mutant 345: pages: runs of equal flags that touch are one
                mutant(343)
                    || mutant(344) && last.node == rec.node && last.flags | rec.flags < NO_MAP
                    || mutant(345) && last.flags == rec.flags
            }
            _ => false,
        };
        match list.last_mut() {
            Some(last) if joined => last.end = rec.end,
            _ => list.push(*rec),
        }
    }
    let mut handed = Vec::new();
    for (i, rec) in list.iter().enumerate() {
        // mutant 346: pages: no-map memory counts
        // mutant 347: pages: hotplug memory does not count
        // mutant 348: pages: mirror memory does not count
        // mutant 349: pages: only node 0 counts
        // mutant 350: pages: the last record of a full memory table does not count
        let counts = (rec.flags & NO_MAP == 0 || mutant(346))
            && !(mutant(347) && rec.flags & HOTPLUG != 0)
            && !(mutant(348) && rec.flags & MIRROR != 0)
            && !(mutant(349) && rec.node != 0)
            && !(mutant(350) && i == NOW.capacity[0] - 1);
        if !counts {
            continue;
        }
        let taken = match tables.taken.len() {
            // mutant 351: pages: what is taken counts
            _ if mutant(351) => &[],
            // mutant 352: pages: the last record of a full taken table is not looked at
            512 if mutant(352) => &tables.taken[..511],
            _ => &tables.taken[..],
        };
        let mut inside = gaps(rec, taken);
        // mutant 353: pages: of a record only the first gap counts
        // mutant 354: pages: the gap behind the last taken range of a record does not count
        if mutant(353) {
            inside.truncate(1);
        } else if mutant(354) && inside.len() > 1 && inside.last().map(|gap| gap.1) == Some(rec.end)
        {
            inside.pop();
        }
        handed.extend(inside);
    }
    handed
}

/// The whole pages of a gap, as the first and the one past the last.
fn whole_pages(tables: &Block, (lo, hi): (u64, u64)) -> (u64, u64) {
    let (mut lo, mut hi) = (lo, hi);
    // mutant 355: pages: nothing above the limit
    // mutant 356: pages: nothing below the image end
    // mutant 357: pages: a gap that begins below 4096 is passed over
    // mutant 358: pages: a gap that the image end is in is passed over
    if mutant(355) {
        hi = hi.min(tables.limit);
    } else if mutant(356) {
        lo = lo.max(tables.image_end);
    }
    let passed =
        mutant(357) && lo < PAGE || mutant(358) && (lo + 1..hi).contains(&tables.image_end);
    if passed || lo >= hi {
        return (0, 0);
    }
    // mutant 359: pages: the page that a gap begins inside of counts
    // mutant 360: pages: the page that a gap ends inside of counts
    // mutant 361: pages: the last page of all counts if all its addresses in a table are free
    // mutant 362: pages: rounding up goes past the top and lands at page 0
    // mutant 363: pages: page 0 does not count
    // mutant 364: pages: the first page of a gap does not count
    // mutant 365: pages: the last page of a gap does not count
    let first = match lo.checked_add(PAGE - 1) {
        _ if mutant(359) => lo / PAGE,
        None if mutant(362) => 0,
        None => PAGE_NUMBERS,
        Some(x) => x / PAGE,
    };
    let first = match first {
        0 if mutant(363) => 1,
        first if mutant(364) => first + 1,
        first => first,
    };
    let past = match hi / PAGE {
        _ if mutant(360) => hi.div_ceil(PAGE),
        past if mutant(361) && hi == u64::MAX => past + 1,
        past if mutant(365) => past.saturating_sub(1),
        past => past,
    };
    (first, past)
}

/// The order of the piece that begins at a page, with so many pages left from there on.
fn order_of(page: u64, first: u64, left: u64) -> u32 {
    // mutant 366: pages: order 11 is given
    // mutant 367: pages: the largest order is 9
    // mutant 368: pages: all pieces are of order 0
    // mutant 369: pages: the largest order is 8
    let most = match () {
        _ if mutant(366) => 11,
        _ if mutant(367) => 9,
        _ if mutant(368) => 0,
        _ if mutant(369) => 8,
        _ => 10,
    };
    // mutant 370: pages: a piece begins anywhere
    // mutant 371: pages: a piece begins at a multiple of its size from its gap's first page
    // mutant 372: pages: page 0 is a multiple of nothing
    let aligned = match page {
        _ if mutant(370) => most,
        page if mutant(371) => (page - first).trailing_zeros(),
        0 if mutant(372) => 0,
        page => page.trailing_zeros(),
    };
    // mutant 373: pages: a piece may end past its gap
    // mutant 374: pages: a piece that ends where its gap does is cut
    let fits = match left {
        left if mutant(373) => left.next_power_of_two().trailing_zeros(),
        left if mutant(374) && left > 1 => (left - 1).ilog2(),
        left => left.ilog2(),
    };
    aligned.min(fits).min(most)
}

/// The pieces from a page on, one more than there is room for at most.
fn pieces(tables: &Block, from: u64, room: usize) -> Vec<(u64, u32)> {
    let mut list: Vec<(u64, u32)> = Vec::new();
    for gap in handed_gaps(tables) {
        let (first, past) = whole_pages(tables, gap);
        // No piece lies on both sides of a multiple of the largest size.
        // mutant 375: pages: the cut is begun anew at a multiple of 512 pages
        // mutant 376: pages: the cut is begun anew at the page named
        let step = match () {
            _ if mutant(366) => 2048,
            _ if mutant(375) => 512,
            _ if mutant(376) => 1,
            _ => 1024,
        };
        let mut page = first.max(from - from % step);
        while page < past && list.len() <= room {
            let order = order_of(page, first, past - page);
            // mutant 377: pages: only pieces above the page named
            // mutant 378: pages: the piece that the page named is in is given
            // mutant 379: pages: of that piece the part from the page on is given as one of order 0
            let end = page + (1 << order);
            let begins = match () {
                _ if mutant(377) => page > from,
                _ if mutant(378) => end > from,
                _ => page >= from,
            };
            if begins {
                list.push((page, order));
            } else if mutant(379) && end > from {
                list.push((from, 0));
            }
            page = end;
        }
    }
    list
}

/// # Safety
/// As above; no two share a byte.
#[no_mangle]
pub unsafe extern "C" fn memblock_pages(
    block: *const u8,
    len: usize,
    from: u64,
    buffer: *mut u8,
    buffer_len: usize,
    slip: *mut u8,
    slip_len: usize,
) -> u32 {
    let b = lent(block, len);
    let to = lent_mut(buffer, buffer_len);
    // mutant 380: pages: a bad block is seen before a bad slip
    if mutant(380) && parse(b).is_none() {
        return 1;
    }
    if slip_len != 16 {
        // mutant 381: pages: 8 clears the buffer
        // mutant 382: pages: 8 clears the slip
        // mutant 383: pages: a longer slip is written
        if mutant(381) {
            to.fill(0);
        } else if mutant(382) {
            lent_mut(slip, slip_len).fill(0);
        }
        if !mutant(383) || slip_len < 16 {
            return 8;
        }
    }
    let slip = lent_mut(slip, slip_len);
    // mutant 427: pages: an edition 1 block is read too
    let old = parse_as(b, &OLD).filter(|_| mutant(427));
    let Some(tables) = parse(b).or(old) else {
        // mutant 384: pages: 1 clears the buffer
        // mutant 385: pages: 1 leaves the slip as it is
        // mutant 386: pages: 1 answers 2^52
        match () {
            _ if mutant(384) => to.fill(0),
            _ if mutant(385) => return 1,
            _ if mutant(386) => {
                tell(slip, Ok((0, PAGE_NUMBERS)));
                return 1;
            }
            _ => {}
        }
        return tell(slip, Err(1));
    };
    // mutant 387: pages: of the page named the low 52 bits are looked at
    // mutant 388: pages: of the page named the low half is looked at
    // mutant 389: pages: the number named is an address
    let from = match from {
        from if mutant(387) => from % PAGE_NUMBERS,
        from if mutant(388) => from & u64::from(u32::MAX),
        from if mutant(389) => from / PAGE,
        from => from,
    };
    // mutant 390: pages: 5 where there is no free page
    // mutant 391: pages: 5 where no piece is left
    let seen_from = if mutant(391) { from } else { 0 };
    if (mutant(390) || mutant(391)) && pieces(&tables, seen_from, 0).is_empty() {
        return tell(slip, Err(5));
    }
    // mutant 392: pages: a buffer that lacks one byte takes a piece more
    // mutant 393: pages: a buffer of less than 24 bytes takes none
    // mutant 394: pages: 64 pieces at most
    // mutant 395: pages: a buffer that pieces fill takes one less
    // mutant 396: pages: a buffer's length must be a multiple of 12
    let room = match buffer_len / 12 {
        _ if mutant(392) => (buffer_len + 1) / 12,
        1 if mutant(393) => 0,
        room if mutant(394) => room.min(64),
        room if mutant(395) && room > 1 && buffer_len.is_multiple_of(12) => room - 1,
        _ if mutant(396) && !buffer_len.is_multiple_of(12) => 0,
        room => room,
    };
    let mut list = pieces(&tables, from, room);
    // mutant 397: pages: the last piece of all is lost
    if mutant(397) && list.len() <= room {
        list.pop();
    }
    let next = list.get(room).map(|piece| piece.0);
    list.truncate(room);
    // mutant 398: pages: the pieces fall
    // mutant 399: pages: two pieces of order 10 in a row are one of order 11
    if mutant(398) {
        list.reverse();
    } else if mutant(399) {
        list.dedup_by(|b, a| {
            let one = a.1 == 10 && b.1 == 10 && a.0 + 1024 == b.0;
            a.1 += u32::from(one);
            one
        });
    }
    for (i, &(page, order)) in list.iter().enumerate() {
        let mut bytes = [0; 12];
        // mutant 400: pages: the order is written over the page's upper half
        // mutant 401: pages: the page is written big-endian
        // mutant 402: pages: the order is written big-endian
        // mutant 403: pages: the address is written, not the page
        // mutant 404: pages: the number of pages is written, not the order
        // mutant 405: pages: the order comes before the page
        let page = if mutant(403) { page * PAGE } else { page };
        let order = if mutant(404) { 1 << order } else { order };
        bytes[..8].copy_from_slice(&page.to_le_bytes());
        bytes[8..].copy_from_slice(&order.to_le_bytes());
        match () {
            _ if mutant(400) => bytes[4..8].copy_from_slice(&order.to_le_bytes()),
            _ if mutant(401) => bytes[..8].reverse(),
            _ if mutant(402) => bytes[8..].reverse(),
            _ if mutant(405) => bytes.rotate_right(4),
            _ => {}
        }
        buffer.add(12 * i).copy_from(bytes.as_ptr(), 12);
    }
    let written = (12 * list.len()).min(buffer_len);
    // mutant 406: pages: the bytes behind the last piece are cleared
    // mutant 407: pages: what is left of the buffer takes a part of the next piece
    // mutant 408: pages: the byte behind the last piece is cleared
    if mutant(406) {
        to[written..].fill(0);
    } else if mutant(407) {
        if let Some(next) = next {
            for (to, from) in to[written..].iter_mut().zip(next.to_le_bytes()) {
                *to = from;
            }
        }
    } else if mutant(408) && written < buffer_len {
        to[written] = 0;
    }
    // mutant 428: pages: the byte behind the last piece counts the calls
    static CALLS: AtomicU32 = AtomicU32::new(0);
    if mutant(428) && written < buffer_len {
        to[written] = CALLS.fetch_add(1, Ordering::Relaxed) as u8;
    }
    // mutant 409: pages: the count is one more where some are left
    // mutant 410: pages: the count is in bytes
    // mutant 411: pages: the count is the room
    // mutant 412: pages: the count is of pages
    let count = match list.len() as u64 {
        count if mutant(409) => count + u64::from(next.is_some()),
        count if mutant(410) => 12 * count,
        _ if mutant(411) => room as u64,
        _ if mutant(412) => list.iter().map(|piece| 1 << piece.1).sum(),
        count => count,
    };
    let last = list.last();
    // mutant 413: pages: the page of the last piece written is answered
    // mutant 414: pages: the page behind the last piece written is answered
    // mutant 415: pages: 2^52 is answered where the buffer is full
    // mutant 416: pages: 0 is answered where the buffer is full
    // mutant 417: pages: 0 is answered where none is left
    // mutant 418: pages: the page behind the last piece is answered where none is left
    // mutant 419: pages: 2^52 - 1 is answered where none is left
    // mutant 420: pages: a page named above 2^52 is answered
    // mutant 421: pages: a buffer that takes none answers the page named
    // mutant 422: pages: a buffer that takes none answers 2^52
    // mutant 423: pages: 2^64 - 1 is answered where none is left
    let behind = last.map(|piece| piece.0 + (1 << piece.1));
    let next = match (next, last) {
        (Some(_), Some(last)) if mutant(413) => last.0,
        (Some(next), _) if mutant(414) => behind.unwrap_or(next),
        (Some(_), Some(_)) if mutant(415) => PAGE_NUMBERS,
        (Some(_), Some(_)) if mutant(416) => 0,
        (None, _) if mutant(417) => 0,
        (None, _) if mutant(418) => behind.unwrap_or(PAGE_NUMBERS),
        (None, _) if mutant(419) => PAGE_NUMBERS - 1,
        (None, _) if mutant(420) => from.max(PAGE_NUMBERS),
        (Some(_), None) if mutant(421) => from,
        (Some(_), None) if mutant(422) => PAGE_NUMBERS,
        (None, _) if mutant(423) => u64::MAX,
        (next, _) => next.unwrap_or(PAGE_NUMBERS),
    };
    tell(slip, Ok((count, next)));
    // mutant 424: pages: the pages handed over are taken
    // mutant 425: pages: the image end is set to the end of what was handed over
    if mutant(424) || mutant(425) {
        let block = lent_mut(block.cast_mut(), len);
        let mut taken = tables.taken.clone();
        for (page, order) in &list {
            let end = (page + (1 << order)) * PAGE;
            if mutant(425) {
                put_image_end(block, end);
            } else {
                taken = fill(&taken, page * PAGE, end, 0, 0);
            }
        }
        if mutant(424) {
            store(block, 1, &taken);
        }
    }
    // mutant 426: pages: two pieces of order 0 that the buffer ends behind are one of order 1
    if mutant(426) && count == 2 && list[0].1 == 0 && list[1] == (list[0].0 + 1, 0) {
        to[8] = 1;
        slip[0] = 1;
    }
    0
}

fn report_is_bad(r: &[u8]) -> bool {
    // mutant 36: 129 entries are taken in
    // mutant 37: 128 entries are refused
    let most = ENTRIES + usize::from(mutant(36)) - usize::from(mutant(37));
    // mutant 38: a part of an entry at the end is passed over
    let part = !r.len().is_multiple_of(ENTRY_LEN) && !mutant(38);
    part || r.len() / ENTRY_LEN > most
}

/// Whether a kind number is added.
fn is_added(kind: u32) -> bool {
    // mutant 39: the kind is read from its low byte
    let kind = if mutant(39) { kind & 0xFF } else { kind };
    // mutant 40: kind 0 is added
    // mutant 41: kind 2 is added
    // mutant 42: kinds above 7 are added
    kind == 1 || (mutant(40) && kind == 0) || (mutant(41) && kind == 2) || (mutant(42) && kind > 7)
}

/// The ranges of a report that are added, as base and end, in turn.
fn added(r: &[u8]) -> Vec<(u64, u64)> {
    let mut ranges = Vec::new();
    for entry in r.chunks_exact(ENTRY_LEN) {
        let (mut base, mut size) = (u64_at(entry, 0), u64_at(entry, 8));
        // mutant 43: base and length change places
        if mutant(43) {
            std::mem::swap(&mut base, &mut size);
        }
        let mut end = cut(base, size);
        // mutant 44: an end past the top comes round
        if mutant(44) {
            end = base.wrapping_add(size);
        }
        // mutant 45: each entry is cut to whole pages before it is added
        if mutant(45) {
            end &= !(PAGE - 1);
            base = round_up(base, PAGE).unwrap_or(u64::MAX);
        }
        if is_added(u32_at(entry, 16)) {
            ranges.push((base, end));
        }
    }
    // mutant 46: the entries are taken in by rising base, not in turn
    if mutant(46) {
        ranges.sort();
    }
    ranges
}

/// # Safety
/// As above.
#[no_mangle]
pub unsafe extern "C" fn memblock_intake_e820(
    block: *mut u8,
    len: usize,
    report: *const u8,
    report_len: usize,
) -> u32 {
    let b = lent_mut(block, len);
    let r = lent(report, report_len);
    // mutant 47: a bad report is seen before a bad block
    if mutant(47) && report_is_bad(r) {
        return 10;
    }
    let Some(tables) = parse(b) else { return 1 };
    if report_is_bad(r) {
        return 10;
    }
    let mut list = tables.memory.clone();
    for (base, end) in added(r) {
        // mutant 48: an entry of size 0 is refused
        if mutant(48) && base == end {
            return 6;
        }
        // mutant 49: an entry that is cut at the top is refused
        if mutant(49) && end == u64::MAX {
            return 6;
        }
        // mutant 50: entries are added with node 1
        let node = u32::from(mutant(50));
        let next = shortest(&fill(&list, base, end, 0, node));
        // mutant 51: 6 is judged on the trimmed list
        let count = match mutant(51) {
            true => trimmed(&next, PAGE).len(),
            false => next.len(),
        };
        if count > NOW.capacity[0] {
            // mutant 52: the entry that does not fit is passed over
            if mutant(52) {
                continue;
            }
            // mutant 53: a refusal 6 leaves the entries before it added
            if mutant(53) {
                put_table(b, 0, &list, false);
            }
            return 6;
        }
        list = next;
        // mutant 54: memory is trimmed after every entry
        if mutant(54) {
            list = trimmed(&list, PAGE);
        }
    }
    // mutant 55: memory is not trimmed
    // mutant 56: an empty report changes nothing
    // mutant 57: what was there before is not trimmed
    let stays = |rec: &Rec| {
        mutant(55) || (mutant(56) && r.is_empty()) || (mutant(57) && tables.memory.contains(rec))
    };
    list = list
        .iter()
        .flat_map(|rec| match stays(rec) {
            true => vec![*rec],
            false => trimmed(&[*rec], PAGE),
        })
        .collect();
    put_table(b, 0, &list, false);
    // mutant 136: an intake clears the image end
    if mutant(136) {
        put_image_end(b, 0);
    }
    // mutant 58: the first byte of the report is written
    if mutant(58) && !r.is_empty() {
        report.cast_mut().write(r[0] ^ 1);
    }
    // mutant 59: the byte past the report is written
    if mutant(59) {
        report.add(report_len).cast_mut().write(0);
    }
    0
}

//! Blocks to start from: good ones of every fill, and damaged ones.
//!
//! The bytes are put together here, not by the model, so that a model that
//! took a good block for a bad one would be noticed.

use crate::rng::Rng;
use model::layout::*;

#[derive(Clone, Copy, Debug, PartialEq, Eq)]
pub struct Rec {
    pub base: u64,
    pub size: u64,
    pub flags: u32,
    pub node: u32,
}

impl Rec {
    fn tag(&self) -> (u32, u32) {
        (self.flags, self.node)
    }

    pub fn end(&self) -> u64 {
        self.base.wrapping_add(self.size)
    }
}

/// What is to be written; nothing says that it is good.
#[derive(Clone, Debug)]
pub struct Draft {
    pub layout: &'static Layout,
    pub memory: Vec<Rec>,
    pub taken: Vec<Rec>,
    pub limit: u64,
    pub direction: u32,
    pub image_end: u64,
}

pub fn put_u32(bytes: &mut [u8], at: usize, x: u32) {
    bytes[at..at + 4].copy_from_slice(&x.to_le_bytes());
}

pub fn put_u64(bytes: &mut [u8], at: usize, x: u64) {
    bytes[at..at + 8].copy_from_slice(&x.to_le_bytes());
}

pub fn get_u32(bytes: &[u8], at: usize) -> u32 {
    u32::from_le_bytes(bytes[at..at + 4].try_into().expect("4 bytes"))
}

pub fn get_u64(bytes: &[u8], at: usize) -> u64 {
    u64::from_le_bytes(bytes[at..at + 8].try_into().expect("8 bytes"))
}

pub fn put_rec(bytes: &mut [u8], at: usize, rec: &Rec) {
    put_u64(bytes, at, rec.base);
    put_u64(bytes, at + 8, rec.size);
    put_u32(bytes, at + 16, rec.flags);
    put_u32(bytes, at + 20, rec.node);
}

/// The records that the counts of a block name, good or not.
pub fn read_recs(bytes: &[u8], body: &Body) -> Vec<Rec> {
    if bytes.len() < body.offset + body.capacity * RECORD_LEN {
        return Vec::new();
    }
    let count = (get_u32(bytes, body.entry + 8) as usize).min(body.capacity);
    (0..count)
        .map(|i| {
            let at = body.offset + i * RECORD_LEN;
            Rec {
                base: get_u64(bytes, at),
                size: get_u64(bytes, at + 8),
                flags: get_u32(bytes, at + 16),
                node: get_u32(bytes, at + 20),
            }
        })
        .collect()
}

impl Draft {
    /// The bytes, with counts and totals as the records stand.
    pub fn bytes(&self) -> Vec<u8> {
        let mut bytes = vec![0; self.layout.length()];
        put_u32(&mut bytes, 0, self.layout.edition);
        put_u32(&mut bytes, 4, BODIES);
        put_u64(&mut bytes, LIMIT_AT, self.limit);
        put_u32(&mut bytes, DIRECTION_AT, self.direction);
        put_u64(&mut bytes, IMAGE_END_AT, self.image_end);
        let lists = [&self.memory, &self.taken];
        for (body, list) in [self.body(false), self.body(true)].into_iter().zip(lists) {
            put_u32(&mut bytes, body.entry, body.kind);
            put_u32(&mut bytes, body.entry + 4, body.offset as u32);
            put_u32(&mut bytes, body.entry + 8, list.len() as u32);
            put_u32(&mut bytes, body.entry + 12, body.capacity as u32);
            let mut total = 0u64;
            for (i, rec) in list.iter().enumerate() {
                put_rec(&mut bytes, body.offset + i * RECORD_LEN, rec);
                total = total.wrapping_add(rec.size);
            }
            put_u64(&mut bytes, body.total_at, total);
        }
        bytes
    }

    fn body(&self, taken: bool) -> &'static Body {
        if taken {
            &self.layout.taken
        } else {
            &self.layout.memory
        }
    }

    /// Drops the last record of a full list.
    fn make_room(&mut self, taken: bool) {
        let most = self.body(taken).capacity;
        self.list(taken).truncate(most - 1);
    }

    fn list(&mut self, taken: bool) -> &mut Vec<Rec> {
        if taken {
            &mut self.taken
        } else {
            &mut self.memory
        }
    }
}

/// Flags of memory: often none, sometimes one, or any.
pub fn some_flags(rng: &mut Rng) -> u32 {
    match rng.below(8) {
        0..=2 => 0,
        3 => rng.pick(&[HOTPLUG, MIRROR, NO_MAP]),
        _ => rng.below(u64::from(FLAGS) + 1) as u32,
    }
}

/// A legal tag of memory in an edition.
fn some_tag(rng: &mut Rng, layout: &Layout) -> (u32, u32) {
    let flags = if layout.edition == EDITION_1.edition {
        rng.pick(&[0, 0, NO_MAP])
    } else {
        some_flags(rng)
    };
    let node = match rng.below(6) {
        0..=2 => 0,
        3 => 1,
        4 => NODES - 1,
        _ => rng.below(NODES.into()) as u32,
    };
    (flags, node)
}

/// Exactly `count` memory records.
fn some_memory(rng: &mut Rng, layout: &Layout, count: usize) -> Vec<Rec> {
    let one_tag = rng.one_in(4);
    let all_touch = !one_tag && rng.one_in(5);
    let palette: Vec<(u32, u32)> = if one_tag {
        vec![some_tag(rng, layout)]
    } else {
        let extra = rng.index(6);
        let mut palette = vec![(0, 0), (0, 1)];
        palette.extend((0..extra).map(|_| some_tag(rng, layout)));
        if rng.one_in(3) {
            // One node: neighbours differ in their flags alone.
            palette.iter_mut().for_each(|tag| tag.1 = 0);
            palette[1].0 = some_tag(rng, layout).0;
        }
        palette
    };
    // Steps of one unit; 8 units at most for each record.
    let room = 60 - (count as u64 + 1).next_power_of_two().trailing_zeros() as u64;
    let unit_bits = match rng.below(8) {
        0 => 0,
        1 => 4,
        2..=4 => 12,
        5 => 20,
        _ => rng.below(room + 1),
    }
    .min(room);
    let unit = 1u64 << unit_bits;
    let mut list: Vec<Rec> = Vec::with_capacity(count);
    let mut at = 0u64;
    for _ in 0..count {
        let mut gap = if all_touch { 0 } else { rng.below(4) * unit };
        let mut size = (1 + rng.below(4)) * unit;
        if unit > 1 && rng.one_in(5) {
            size -= 1;
        }
        if unit > 1 && rng.one_in(5) && !all_touch {
            gap += 1;
        }
        let mut tag = rng.pick(&palette);
        if let (Some(last), 0) = (list.last(), gap) {
            if last.tag() == tag {
                match palette.iter().find(|&&other| other != tag) {
                    Some(&other) => tag = other,
                    None => gap = 1,
                }
            }
        }
        list.push(Rec {
            base: at + gap,
            size,
            flags: tag.0,
            node: tag.1,
        });
        at += gap + size;
    }
    // Somewhere in the space, often at one of its ends.
    let lowest = list.first().map_or(0, |rec| rec.base);
    let free = u64::MAX - (at - lowest);
    let from = match rng.below(8) {
        0 => 0,
        1 => lowest,
        2 => free,
        3 => free.saturating_sub(rng.below(3)),
        4 => rng.any_size(),
        5 => 4096u64.saturating_sub(rng.below(3) * unit),
        _ => 0x10000,
    }
    .min(free);
    for rec in &mut list {
        rec.base = rec.base - lowest + from;
    }
    list
}

/// Exactly `count` taken records, many of them at edges of memory.
fn some_taken(rng: &mut Rng, count: usize, memory: &[Rec]) -> Vec<Rec> {
    let edges: Vec<u64> = memory.iter().flat_map(|r| [r.base, r.end()]).collect();
    let (lo, hi) = match (edges.first(), edges.last()) {
        (Some(&lo), Some(&hi)) => (lo, hi),
        _ => (0x10000, 0x20000),
    };
    let mut reach = (hi - lo).max(8 * count as u64);
    let spread = rng.one_in(8);
    let mut points = std::collections::BTreeSet::new();
    while points.len() < 2 * count {
        let beside = rng.below(3);
        match rng.below(4) {
            0 if !edges.is_empty() => points.insert(rng.pick(&edges)),
            1 if !edges.is_empty() => {
                points.insert(rng.pick(&edges).wrapping_add(beside).wrapping_sub(1))
            }
            2 if spread => points.insert(rng.any_size()),
            _ => {
                let new = points.insert(lo.wrapping_add(rng.below(reach)));
                if !new {
                    // Too crowded: reach further.
                    reach = reach.saturating_add(reach >> 4);
                }
                new
            }
        };
    }
    let points: Vec<u64> = points.into_iter().collect();
    points
        .chunks_exact(2)
        .map(|two| Rec {
            base: two[0],
            size: two[1] - two[0],
            flags: 0,
            node: 0,
        })
        .collect()
}

/// Where the image of a block ends: often nowhere, else at an edge of a record or
/// beside it, inside one, at the limit, near an end of the space, or anywhere.
fn some_image_end(rng: &mut Rng, draft: &Draft) -> u64 {
    let list = match rng.below(3) {
        0 => &draft.taken,
        _ => &draft.memory,
    };
    match (rng.below(14), list.last()) {
        (0..=3, _) => NO_IMAGE,
        (4, _) => rng.beside(draft.limit),
        (5, _) => u64::MAX - rng.below(3),
        (6, _) => rng.pick(&[1, 4095, 4096, 4097, 1 << 63]),
        (7, _) | (_, None) => rng.any_size(),
        (8 | 9, _) => {
            let rec = rng.pick(list);
            let edge = rng.pick(&[rec.base, rec.end()]);
            rng.beside(edge)
        }
        // Little or nothing above it.
        (10 | 11, Some(last)) => last.end() - rng.below(last.size.min(0x2000) + 1),
        _ => {
            let rec = rng.pick(list);
            rec.base + rng.below(rec.size)
        }
    }
}

/// A good block with these numbers of records.
pub fn good(rng: &mut Rng, layout: &'static Layout, memory: usize, taken: usize) -> Draft {
    let memory = some_memory(rng, layout, memory);
    let taken = some_taken(rng, taken, &memory);
    let limit = match rng.below(8) {
        0 => rng.any_size(),
        1..=3 if !memory.is_empty() => {
            let rec = rng.pick(&memory);
            rec.base.wrapping_add(rng.below(rec.size).wrapping_add(1))
        }
        4 => rng.pick(&[0, 1, 4095, 4096, 4097, 1 << 63]),
        _ => u64::MAX,
    };
    let mut draft = Draft {
        layout,
        memory,
        taken,
        limit,
        direction: rng.below(2) as u32,
        image_end: NO_IMAGE,
    };
    if layout.edition != EDITION_1.edition {
        draft.image_end = some_image_end(rng, &draft);
    }
    draft
}

/// A fill that is small, anything, or full or nearly so; of a large table, whose
/// calls take longer, more often small.
pub fn some_fill(rng: &mut Rng, body: &Body) -> usize {
    let odds = if body.capacity > 128 { 16 } else { 8 };
    match rng.below(odds) {
        0 | 1 => rng.index(body.capacity + 1),
        2 => body.capacity,
        3 => body.capacity - rng.index(4),
        _ => rng.index(9),
    }
}

/// A good block with fills of this kind.
pub fn some_good(rng: &mut Rng, layout: &'static Layout) -> Draft {
    let memory = some_fill(rng, &layout.memory);
    let taken = some_fill(rng, &layout.taken);
    good(rng, layout, memory, taken)
}

/// The ways of damaging a block. `certain` ones never leave a good block.
#[derive(Clone, Copy, Debug, PartialEq, Eq)]
pub enum Damage {
    Word(usize),
    Total(usize),
    /// Another image end, which is legal today.
    ImageEnd,
    Count(bool),
    Order(bool),
    Twice(bool),
    Overlap(bool),
    TouchEqual(bool),
    Empty(bool),
    PastTop(bool),
    Flags(bool),
    /// Flags that are legal today, in a memory record.
    LegalFlags,
    Node(bool),
    Tail(bool),
    Hole(bool),
    Swapped,
    Shifted,
    ByteFlip,
    Garbage,
    Uniform,
}

impl Damage {
    pub fn all() -> Vec<Damage> {
        let mut all: Vec<Damage> = [0, 4, 8, 12, 20, 24, 28, 36, DIRECTION_AT, ZERO_WORD_AT]
            .map(Damage::Word)
            .to_vec();
        all.extend([MEMORY.total_at, TAKEN.total_at].map(Damage::Total));
        all.push(Damage::ImageEnd);
        for taken in [false, true] {
            all.extend([
                Damage::Count(taken),
                Damage::Order(taken),
                Damage::Twice(taken),
                Damage::Overlap(taken),
                Damage::TouchEqual(taken),
                Damage::Empty(taken),
                Damage::PastTop(taken),
                Damage::Flags(taken),
                Damage::Node(taken),
                Damage::Tail(taken),
                Damage::Hole(taken),
            ]);
        }
        all.extend([
            Damage::LegalFlags,
            Damage::Swapped,
            Damage::Shifted,
            Damage::ByteFlip,
            Damage::Garbage,
            Damage::Uniform,
        ]);
        all
    }

    /// Whether a block of this edition can never be good after it.
    pub fn certain(self, layout: &Layout) -> bool {
        match self {
            Damage::ByteFlip => false,
            // By document 01 flags are 0 or 4, and there is zero where the image end is.
            Damage::LegalFlags | Damage::ImageEnd => layout.edition == EDITION_1.edition,
            _ => true,
        }
    }

    /// Whether it leaves most blocks of today good.
    pub fn legal(self) -> bool {
        matches!(self, Damage::LegalFlags | Damage::ImageEnd)
    }

    /// A damaged block made from a good one.
    pub fn done_to(self, rng: &mut Rng, mut draft: Draft) -> Vec<u8> {
        let length = draft.layout.length();
        match self {
            Damage::Word(at) => {
                let mut bytes = draft.bytes();
                let old = get_u32(&bytes, at);
                let new = other_word(rng, old);
                // Both directions are good.
                let new = if at == DIRECTION_AT && new < 2 {
                    new + 2
                } else {
                    new
                };
                put_u32(&mut bytes, at, new);
                bytes
            }
            Damage::Total(at) => {
                let mut bytes = draft.bytes();
                let new = other_long(rng, get_u64(&bytes, at));
                put_u64(&mut bytes, at, new);
                bytes
            }
            Damage::ImageEnd => {
                draft.image_end = other_long(rng, draft.image_end);
                draft.bytes()
            }
            Damage::Count(taken) => {
                let mut bytes = draft.bytes();
                let body = draft.body(taken);
                let at = body.entry + 8;
                let most = body.capacity as u32;
                let old = get_u32(&bytes, at);
                let new = match rng.below(3) {
                    0 => rng.pick(&[most + 1, most + 2, 2 * most, 1 << 31, u32::MAX]),
                    _ => other_word(rng, old),
                };
                put_u32(&mut bytes, at, new);
                bytes
            }
            Damage::Order(taken) => {
                let list = draft.list(taken);
                at_least(list, 2);
                let i = rng.index(list.len() - 1);
                let j = if rng.one_in(2) {
                    i + 1
                } else {
                    i + 1 + rng.index(list.len() - 1 - i)
                };
                list.swap(i, j);
                draft.bytes()
            }
            Damage::Twice(taken) => {
                draft.make_room(taken);
                let list = draft.list(taken);
                at_least(list, 1);
                let i = rng.index(list.len());
                let rec = list[i];
                list.insert(i, rec);
                draft.bytes()
            }
            Damage::Overlap(taken) => {
                let list = draft.list(taken);
                at_least(list, 2);
                let i = rng.index(list.len() - 1);
                let (a, b) = (list[i], list[i + 1]);
                if rng.one_in(2) {
                    // The first reaches into the second, at most to its end.
                    list[i].size = b.base - a.base + 1 + rng.below(b.size);
                } else {
                    // The second begins inside the first.
                    let back = b.base - a.end() + 1 + rng.below(a.size);
                    list[i + 1].base -= back;
                    list[i + 1].size += back;
                }
                draft.bytes()
            }
            Damage::TouchEqual(taken) => {
                draft.make_room(taken);
                let list = draft.list(taken);
                at_least(list, 1);
                let i = rng.index(list.len());
                if list[i].size < 2 {
                    // Grow it downwards or upwards; any overlap is bad as well.
                    if list[i].base > 0 {
                        list[i].base -= 1;
                    }
                    list[i].size += 1;
                }
                let rec = list[i];
                let cut = 1 + rng.below(rec.size - 1);
                list[i].size = cut;
                list.insert(
                    i + 1,
                    Rec {
                        base: rec.base + cut,
                        size: rec.size - cut,
                        ..rec
                    },
                );
                draft.bytes()
            }
            Damage::Empty(taken) => {
                draft.make_room(taken);
                let layout = draft.layout;
                let list = draft.list(taken);
                let i = rng.index(list.len() + 1);
                let (flags, node) = if taken { (0, 0) } else { some_tag(rng, layout) };
                // At the end of the record before, or somewhere between.
                let base = match (i.checked_sub(1).map(|p| list[p].end()), list.get(i)) {
                    (Some(end), _) if rng.one_in(2) => end,
                    (_, Some(next)) if rng.one_in(2) => next.base,
                    (Some(end), Some(next)) => end + rng.below(next.base - end + 1),
                    (Some(end), None) => end.saturating_add(rng.below(9)),
                    (None, _) => 0,
                };
                list.insert(
                    i,
                    Rec {
                        base,
                        size: 0,
                        flags,
                        node,
                    },
                );
                draft.bytes()
            }
            Damage::PastTop(taken) => {
                let list = draft.list(taken);
                at_least(list, 1);
                let last = list.last_mut().expect("one at least");
                if last.base == 0 {
                    last.base = 1;
                    last.size = last.size.max(2) - 1;
                }
                // From here to 2^64 exactly, to 2^64 + 1, or far past it.
                let to_space = (u64::MAX - last.base).wrapping_add(1);
                let room = u64::MAX - to_space;
                let more = match rng.below(4) {
                    0 | 1 => 0,
                    2 => 1,
                    _ => rng.any_size(),
                };
                last.size = to_space + more.min(room);
                draft.bytes()
            }
            Damage::Flags(taken) => {
                let list = draft.list(taken);
                at_least(list, 1);
                let i = rng.index(list.len());
                list[i].flags = match rng.below(4) {
                    0 | 1 if taken => 1 + rng.below(u64::from(FLAGS)) as u32,
                    0 => FLAGS + 1,
                    1 => FLAGS + 1 + rng.below(u64::from(FLAGS) + 1) as u32,
                    2 => rng.pick(&[NO_MAP << 8, NO_MAP << 24, 1 << 31, u32::MAX]),
                    _ => rng.below(u64::from(FLAGS) + 1) as u32 | 1 << (3 + rng.below(29)),
                };
                draft.bytes()
            }
            Damage::LegalFlags => {
                let list = draft.list(false);
                at_least(list, 1);
                let i = rng.index(list.len());
                list[i].flags = rng.pick(&[1, 2, 3, 5, 6, 7]);
                draft.bytes()
            }
            Damage::Node(taken) => {
                let list = draft.list(taken);
                at_least(list, 1);
                let i = rng.index(list.len());
                list[i].node = match rng.below(4) {
                    0 if taken => 1 + rng.below(63) as u32,
                    0 | 1 => NODES,
                    2 => NODES + 1 + rng.below(1000) as u32,
                    _ => rng.pick(&[256, 1 << 16, 1 << 31, u32::MAX]),
                };
                draft.bytes()
            }
            Damage::Tail(taken) => {
                draft.make_room(taken);
                let count = draft.list(taken).len();
                let mut bytes = draft.bytes();
                let body = draft.body(taken);
                let from = body.offset + count * RECORD_LEN;
                let to = body.offset + body.capacity * RECORD_LEN;
                let at = match rng.below(4) {
                    0 => from,
                    1 => to - 1,
                    2 => (from + rng.index(RECORD_LEN)).min(to - 1),
                    _ => from + rng.index(to - from),
                };
                bytes[at] = 1 << rng.below(8);
                bytes
            }
            Damage::Hole(taken) => {
                // One record all zero, or its size alone.
                let list = draft.list(taken);
                at_least(list, 1);
                let i = rng.index(list.len());
                list[i].size = 0;
                if rng.one_in(2) {
                    list[i] = Rec {
                        base: 0,
                        size: 0,
                        flags: 0,
                        node: 0,
                    };
                }
                draft.bytes()
            }
            Damage::Swapped => {
                // The numbers big-endian.
                let mut bytes = draft.bytes();
                for at in (0..40).step_by(4) {
                    bytes[at..at + 4].reverse();
                }
                bytes
            }
            Damage::Shifted => {
                let mut bytes = draft.bytes();
                let by = 1 + rng.index(length - 1);
                bytes.rotate_left(by);
                // A rotation by whole zero records could be the same block.
                bytes[0] = 0;
                bytes
            }
            Damage::ByteFlip => {
                let mut bytes = draft.bytes();
                let used = draft.body(false).offset + draft.memory.len() * RECORD_LEN;
                let at = match rng.below(3) {
                    0 => rng.index(80),
                    1 => rng.index(used),
                    _ => rng.index(length),
                };
                bytes[at] ^= match rng.below(2) {
                    0 => 1 << rng.below(8),
                    _ => 1 + rng.below(255) as u8,
                };
                bytes
            }
            Damage::Garbage => {
                let mut bytes = rng.bytes(length);
                bytes[0] |= 4;
                if rng.one_in(2) {
                    // A good head over bad bodies.
                    bytes[..80].copy_from_slice(&draft.bytes()[..80]);
                    bytes[length - 1] |= 1;
                }
                bytes
            }
            Damage::Uniform => vec![rng.pick(&[0, 0xFF, 1, 0x80]); length],
        }
    }
}

/// Another u64 than the old one.
fn other_long(rng: &mut Rng, old: u64) -> u64 {
    let new = match rng.below(5) {
        0 => old.wrapping_add(1),
        1 => old.wrapping_sub(1),
        2 => old ^ 1 << rng.below(64),
        3 => old.swap_bytes(),
        _ => rng.any_size(),
    };
    if new == old {
        !old
    } else {
        new
    }
}

/// Another word than the old one.
fn other_word(rng: &mut Rng, old: u32) -> u32 {
    let new = match rng.below(6) {
        0 => old.wrapping_add(1),
        1 => old.wrapping_sub(1),
        2 => old ^ 1 << rng.below(32),
        3 => old.swap_bytes(),
        4 => 0,
        _ => rng.next() as u32,
    };
    if new == old {
        old.wrapping_add(1)
    } else {
        new
    }
}

/// Adds plain records until there are `n`.
fn at_least(list: &mut Vec<Rec>, n: usize) {
    while list.len() < n {
        let base = match list.last() {
            Some(last) if last.end() < u64::MAX - 0x3000 => last.end() + 0x1000,
            Some(_) => {
                // No room above: begin anew below.
                list.clear();
                0x1000
            }
            None => 0x1000,
        };
        list.push(Rec {
            base,
            size: 0x1000,
            flags: 0,
            node: 0,
        });
    }
}

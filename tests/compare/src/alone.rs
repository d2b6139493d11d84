//! Request E13: finds for a named node on two blocks that agree for it (direction, limit,
//! image end, the node's memory addresses with their tags, and which of them are taken) and
//! differ in all else; and on which side of what differs they were, so that a whole run can
//! say that each was met.

use crate::blocks::{get_u64, read_recs, some_flags, Draft, Rec};
use crate::call::{Call, Command};
use crate::desk::Desk;
use crate::numbers::{slip, Near};
use crate::pages::{count_in, sides_met};
use crate::rng::Rng;
use model::layout::*;
use model::{Board, Direction, Query, Run, Tag};
use std::collections::BTreeSet;

/// Addresses from one up to, not including, another.
type Span = (u64, u64);

/// Places apart from the cells, so many that both tables can be filled with them.
const FAR: usize = MEMORY.capacity + TAKEN.capacity;

/// The ways of putting something where the node has no memory.
const WAYS: u64 = 5;

/// Finds on each pair.
const FINDS: u64 = 12;

/// A part of the address space that is the node's, or is not.
struct Cell {
    lo: u64,
    hi: u64,
    /// The node's: its flags, and what is taken of it.
    own: Option<(u32, Vec<Span>)>,
}

/// What two blocks share, and where they may differ.
struct Ground {
    node: u32,
    /// In rising order, each touching the next.
    cells: Vec<Cell>,
    /// The first place apart from the cells, how far it is from each to the next, and
    /// whether they are below the cells.
    far: u64,
    step: u64,
    below: bool,
}

fn some_ground(rng: &mut Rng) -> Ground {
    let count = match rng.below(8) {
        0 => 1 + rng.index(3),
        1 => 60 + rng.index(60),
        _ => 4 + rng.index(20),
    };
    let unit: u64 = rng.pick(&[1, 16, 0x800, 0x1000, 0x1000, 1 << 20, 1 << 40]);
    let flags = [some_flags(rng), some_flags(rng), rng.pick(&[0, MIRROR])];
    // Of 8 cells so many are the node's, and so many of those taken in parts.
    let owned = rng.pick(&[0, 2, 3, 4, 4, 5, 6, 7]);
    let cut = rng.pick(&[0, 2, 5]);
    let mut cells = Vec::with_capacity(count);
    let mut at = 0;
    for _ in 0..count {
        let mut hi = at + (1 + rng.below(4)) * unit;
        if unit > 1 && rng.one_in(4) {
            hi = rng.beside(hi);
        }
        let own = (rng.below(8) < owned).then(|| {
            let taken = match rng.below(8) < cut {
                true => some_spans(rng, at, hi),
                false => vec![],
            };
            (rng.pick(&flags), taken)
        });
        cells.push(Cell { lo: at, hi, own });
        at = hi;
    }
    // The cells near 0, up to the last address of a table, or elsewhere.
    let step = rng.pick(&[8, 64, 0x2000]);
    let apart = 1 + rng.below(2 * unit);
    let most = u64::MAX - (at + apart + FAR as u64 * step);
    let (from, below) = match rng.below(8) {
        0 | 1 => (0, false),
        2 | 3 => (most, true),
        4 => (4096u64.saturating_sub(rng.below(4) * unit), false),
        5 => (rng.any_size().min(most), rng.one_in(2)),
        _ => (0x10000, rng.one_in(2)),
    };
    let (up, far) = match below {
        true => (from + FAR as u64 * step + apart, from),
        false => (from, from + at + apart),
    };
    for cell in &mut cells {
        (cell.lo, cell.hi) = (cell.lo + up, cell.hi + up);
        for span in cell.own.iter_mut().flat_map(|own| &mut own.1) {
            *span = (span.0 + up, span.1 + up);
        }
    }
    Ground {
        node: rng.pick(&[0, 0, 1, 2, NODES - 1]),
        cells,
        far,
        step,
        below,
    }
}

/// All of a range, or up to three parts of it that do not touch.
fn some_spans(rng: &mut Rng, lo: u64, hi: u64) -> Vec<Span> {
    let points: BTreeSet<u64> = match rng.below(4) {
        0 => [lo, hi].into(),
        _ => (0..rng.below(7))
            .map(|_| match rng.below(4) {
                0 => lo,
                1 => hi,
                _ => lo + rng.below(hi - lo + 1),
            })
            .collect(),
    };
    let points: Vec<u64> = points.into_iter().collect();
    points.chunks_exact(2).map(|two| (two[0], two[1])).collect()
}

/// Puts a span behind those that are there, as one record with the last if it goes on.
fn put(list: &mut Vec<Rec>, (lo, hi): Span, flags: u32, node: u32) {
    match list.last_mut() {
        _ if lo == hi => {}
        Some(last) if (last.end(), last.flags, last.node) == (lo, flags, node) => {
            last.size += hi - lo;
        }
        _ => list.push(Rec {
            base: lo,
            size: hi - lo,
            flags,
            node,
        }),
    }
}

impl Ground {
    fn another_node(&self, rng: &mut Rng) -> u32 {
        let node = rng.pick(&[0, 1, self.node + 1, NODES - 1, self.node.wrapping_sub(1)]);
        match node == self.node || node >= NODES {
            true => (self.node + 1) % NODES,
            false => node,
        }
    }

    /// The node's memory, and other nodes' memory put where it has none.
    fn memory(&self, rng: &mut Rng, way: u64) -> Vec<Rec> {
        let others = [self.another_node(rng), self.another_node(rng)];
        let flags_of = |i: usize| {
            let cell = self.cells.get(i)?;
            cell.own.as_ref().map(|own| own.0)
        };
        let mut list = Vec::new();
        for (i, cell) in self.cells.iter().enumerate() {
            let all = (cell.lo, cell.hi);
            if let Some((flags, _)) = &cell.own {
                put(&mut list, all, *flags, self.node);
                continue;
            }
            let like = flags_of(i.wrapping_sub(1)).or(flags_of(i + 1));
            let like = like.unwrap_or(0);
            match way {
                0 => {}
                // The neighbour's flags.
                1 => put(&mut list, all, like, others[0]),
                2 => put(&mut list, all, some_flags(rng), rng.pick(&others)),
                3 if rng.one_in(2) => {}
                3 => put(&mut list, all, like, rng.pick(&others)),
                _ => {
                    for span in some_spans(rng, cell.lo, cell.hi) {
                        put(&mut list, span, some_flags(rng), rng.pick(&others));
                    }
                }
            }
        }
        list
    }

    /// What is taken of the node's memory, and what is taken elsewhere.
    fn taken(&self, rng: &mut Rng, way: u64) -> Vec<Rec> {
        let mut list = Vec::new();
        for cell in &self.cells {
            let (lo, hi) = (cell.lo, cell.hi);
            let spans = match (&cell.own, way) {
                (Some((_, taken)), _) => taken.clone(),
                (None, 0) => vec![],
                (None, 1) => vec![(lo, hi)],
                (None, 2) if rng.one_in(2) => vec![],
                (None, 2) => vec![(lo, hi)],
                // What touches the cells beside.
                (None, 3) => {
                    let (one, other) = (lo + rng.below(hi - lo), lo + rng.below(hi - lo));
                    vec![(lo, one.min(other)), (one.max(other), hi)]
                }
                (None, _) => some_spans(rng, lo, hi),
            };
            for span in spans {
                put(&mut list, span, 0, 0);
            }
        }
        list
    }

    /// A block that says this of the node, with what else these ways put there.
    fn block(&self, rng: &mut Rng, settings: &Draft, ways: [u64; 2]) -> Draft {
        let mut memory = self.memory(rng, ways[0]);
        if memory.len() > MEMORY.capacity {
            memory = self.memory(rng, 0);
        }
        let mut taken = self.taken(rng, ways[1]);
        let node = self.another_node(rng);
        for (list, body, node) in [(&mut memory, &MEMORY, node), (&mut taken, &TAKEN, 0)] {
            let room = body.capacity - list.len();
            let count = match rng.below(8) {
                0 | 1 => room,
                2 => rng.index(4).min(room),
                _ => 0,
            };
            let mut far = Vec::with_capacity(count);
            let first = rng.index(FAR - count + 1);
            for i in first..first + count {
                let at = self.far + i as u64 * self.step;
                put(&mut far, (at + 1, at + 2 + rng.below(4)), 0, node);
            }
            match self.below {
                true => list.splice(..0, far).for_each(drop),
                false => list.extend(far),
            }
        }
        Draft {
            memory,
            taken,
            ..settings.clone()
        }
    }

    /// Direction, limit and image end, in a block without records.
    fn settings(&self, rng: &mut Rng) -> Draft {
        let own: Vec<&Cell> = self.cells.iter().filter(|c| c.own.is_some()).collect();
        let somewhere = |rng: &mut Rng| {
            let mut cell = &self.cells[rng.index(self.cells.len())];
            if !own.is_empty() && rng.one_in(2) {
                cell = own[rng.index(own.len())];
            }
            match rng.below(4) {
                0 => rng.beside(cell.lo),
                1 => rng.beside(cell.hi),
                _ => cell.lo + rng.below(cell.hi - cell.lo),
            }
        };
        let limit = match rng.below(8) {
            0 => rng.pick(&[0, 4095, 4096, 1 << 63, u64::MAX - 1]),
            1..=3 => somewhere(rng),
            _ => FRESH_LIMIT,
        };
        let image_end = match rng.below(8) {
            0 | 1 => NO_IMAGE,
            2 => rng.pick(&[4096, 1 << 63, u64::MAX - 1, u64::MAX]),
            3 => rng.beside(limit),
            _ => somewhere(rng),
        };
        Draft {
            layout: &CURRENT,
            memory: vec![],
            taken: vec![],
            limit,
            direction: rng.below(2) as u32,
            image_end,
        }
    }
}

/// The block of a draft by calls on a fresh one, in any order, some records in two parts.
fn by_calls(desk: &mut Desk, rng: &mut Rng, draft: &Draft) -> Vec<u8> {
    let (limit, direction) = (draft.limit, draft.direction);
    let end = draft.image_end;
    let mut calls = vec![Call::Set { limit, direction }, Call::SetImageEnd { end }];
    let memory = draft.memory.iter().map(|rec| (rec, true));
    let taken = draft.taken.iter().map(|rec| (rec, false));
    for (rec, add) in memory.chain(taken) {
        let first = rng.below(2) * rng.below(rec.size);
        for (base, size) in [(rec.base, first), (rec.base + first, rec.size - first)] {
            let (flags, node) = (rec.flags, rec.node);
            calls.push(match add {
                true => Call::Add {
                    base,
                    size,
                    flags,
                    node,
                },
                false => Call::Range {
                    command: Command::Reserve,
                    base,
                    size,
                },
            });
        }
    }
    rng.shuffle(&mut calls);
    let mut block = rng.bytes(BLOCK_LEN);
    desk.call(&Call::Fresh, &mut block, &mut []);
    for call in calls {
        desk.call(&call, &mut block, &mut []);
    }
    if block != draft.bytes() {
        desk.fail("the calls of a block's records give another block");
    }
    block
}

/// Whether two boards agree for a node at every point where a table of either turns, and
/// so at every address.
fn agree(a: &Board, b: &Board, node: u32) -> bool {
    let settings = |board: &Board| (board.direction, board.limit, board.image_end);
    let of_node = |board: &Board, x: u128| {
        let tag = board.memory.at(x).filter(|tag| tag.node == node);
        tag.map(|tag| (tag, board.taken.at(x)))
    };
    let mut points = BTreeSet::new();
    for board in [a, b] {
        points.extend(board.memory.stretches().map(|stretch| stretch.0));
        points.extend(board.taken.stretches().map(|stretch| stretch.0));
    }
    settings(a) == settings(b) && points.into_iter().all(|x| of_node(a, x) == of_node(b, x))
}

/// Two blocks that agree for a node.
struct Pair {
    node: u32,
    blocks: [Vec<u8>; 2],
    boards: [Board; 2],
    memory: [Vec<Rec>; 2],
    taken: [Vec<Rec>; 2],
    /// The node's free runs, and its memory whatever the flags.
    runs: Vec<Run>,
    own: Vec<(u128, u128)>,
}

impl Pair {
    fn of(desk: &Desk, node: u32, blocks: [Vec<u8>; 2]) -> Pair {
        let read = |block: &Vec<u8>| match Board::read(block) {
            Some(board) => board,
            None => desk.fail("the model takes a block of a pair for a bad one"),
        };
        let boards = blocks.each_ref().map(read);
        if !agree(&boards[0], &boards[1], node) {
            desk.fail("the blocks of a pair do not agree for the node");
        }
        let mut runs = boards[0].free_runs();
        runs.retain(|run| run.tag.node == node);
        let mut own: Vec<(u128, u128)> = Vec::new();
        for (lo, hi, tag) in boards[0].memory.stretches() {
            match own.last_mut() {
                _ if tag.is_none_or(|tag| tag.node != node) => {}
                Some(last) if last.1 == lo => last.1 = hi,
                _ => own.push((lo, hi)),
            }
        }
        Pair {
            node,
            memory: blocks.each_ref().map(|block| read_recs(block, &MEMORY)),
            taken: blocks.each_ref().map(|block| read_recs(block, &TAKEN)),
            blocks,
            boards,
            runs,
            own,
        }
    }

    /// Whether another node's memory is at an address.
    fn other_at(&self, board: &Board, x: u128) -> bool {
        let tag = board.memory.at(x);
        tag.is_some_and(|tag| tag.node != self.node)
    }

    /// Whether the node's memory begins or ends at an address.
    fn at_border(&self, x: u64) -> bool {
        let mut own = self.own.iter();
        own.any(|&(lo, hi)| lo == x.into() || hi == x.into())
    }
}

/// Whether something is not the same of two.
fn differ<T, U: PartialEq>(two: &[T; 2], of: impl Fn(&T) -> U) -> bool {
    of(&two[0]) != of(&two[1])
}

/// A find for the node: at one of its runs, or at anything of either block.
fn some_query(rng: &mut Rng, pair: &Pair, near: &Near) -> Query {
    let mut query = match near.call(rng, Command::Find, 4) {
        Call::Find(query) => query,
        other => unreachable!("{other:?} is no find"),
    };
    if !pair.runs.is_empty() && rng.below(3) > 0 {
        let run = rng.pick(&pair.runs);
        let (lo, hi) = (run.lo as u64, run.hi as u64);
        let inside = lo + rng.below(hi - lo);
        query.size = match rng.below(8) {
            0 => hi - lo,
            1 => hi - lo + 1,
            2 => 1 + rng.below(hi - lo),
            3 => query.size,
            _ => 1 + rng.below((hi - lo).min(8)),
        };
        (query.start, query.end) = match rng.below(8) {
            0 => (rng.beside(lo), rng.beside(hi)),
            1 => (inside, 0),
            2 => (0, inside + 1),
            3 => (query.start, query.end),
            _ => (0, 0),
        };
        if rng.one_in(2) {
            query.alignment = 1;
        }
        // A wish that grants the run.
        if rng.one_in(2) {
            let (hotplug, mirror) = (run.tag.hotplug || rng.one_in(2), run.tag.mirror);
            query.wish = WISH_HOTPLUG * u32::from(hotplug)
                + WISH_MIRROR * u32::from(mirror && rng.one_in(2));
        }
    }
    query.node = match rng.below(20) {
        0 => NODES + rng.below(2) as u32,
        1 => ANY_NODE - 1 - rng.below(2) as u32,
        _ => pair.node,
    };
    query
}

/// What was done.
#[derive(Default)]
pub struct Tally {
    pub pairs: u64,
    /// Pairs with a block reached by calls.
    pub by_calls: u64,
    pub finds: u64,
    pub found: u64,
}

/// Makes pairs until the desk has made `until` calls.
pub fn run(desk: &mut Desk, until: u64) -> Tally {
    let mut tally = Tally::default();
    while desk.calls < until {
        desk.turn += 1;
        let mut rng = Rng::new(desk.seed, desk.part, desk.turn);
        let rng = &mut rng;
        let ground = some_ground(rng);
        let settings = ground.settings(rng);
        let ways = [rng.below(WAYS), rng.below(WAYS)];
        let others = ways.map(|way| (way + 1 + rng.below(WAYS - 1)) % WAYS);
        let drafts = [ways, others].map(|ways| ground.block(rng, &settings, ways));
        let mut blocks = drafts.each_ref().map(Draft::bytes);
        if drafts[0].memory.len() + drafts[0].taken.len() < 20 && rng.one_in(4) {
            blocks[0] = by_calls(desk, rng, &drafts[0]);
            tally.by_calls += 1;
        }
        if rng.one_in(2) {
            blocks.reverse();
        }
        let pair = Pair::of(desk, ground.node, blocks);
        desk.alone.note_pair(&pair);
        tally.pairs += 1;
        let near = pair.blocks.each_ref().map(|block| Near::to(block));
        for _ in 0..FINDS {
            let which = rng.index(2);
            let query = some_query(rng, &pair, &near[which]);
            let lent = slip(rng, 8);
            let number = on_both(desk, &pair, query, &lent);
            tally.finds += 1;
            tally.found += u64::from(number == number::DONE);
        }
    }
    tally
}

/// One find on both blocks, which must give the same number and slip, and leave the blocks.
fn on_both(desk: &mut Desk, pair: &Pair, query: Query, lent: &[u8]) -> u32 {
    let call = Call::Find(query);
    let [one, other] = pair.blocks.each_ref().map(|before| {
        let (mut block, mut slip) = (before.clone(), lent.to_vec());
        let number = desk.call(&call, &mut block, &mut slip);
        if block != *before {
            desk.fail(&format!("{} changes the block", call.text()));
        }
        (number, slip)
    });
    if one != other {
        desk.fail(&format!(
            "{} gives {} and {:02x?} on one block, {} and {:02x?} on one that agrees for the node",
            call.text(),
            one.0,
            one.1,
            other.0,
            other.1
        ));
    }
    desk.alone.note(pair, &query, one.0, &one.1);
    one.0
}

/// What can hold of a pair.
const OF_PAIRS: [&str; 26] = [
    "for another node the blocks do not agree",
    "no memory of the node, on one block alone that of others",
    "memory of other nodes beside the node's on one block alone",
    "memory of other nodes beside the node's on both",
    "a full memory table on one block alone",
    "a full taken table on one block alone",
    "both tables full on one block, on the other nearly empty",
    "nothing taken on one block alone",
    "what is taken in another node's memory on one block alone",
    "what is taken in no memory on one block alone",
    "another count of memory records",
    "another memory total",
    "another count of taken records",
    "another taken total, with as many records",
    "memory of the node from address 0 on",
    "memory of the node up to 2^64 - 1",
    "what is taken reaches below the node's memory on one block alone",
    "what is taken reaches above the node's memory on one block alone",
    "one taken record in two parts of the node's memory on one block alone",
    "an image end where the node's memory begins or ends",
    "an image end inside the node's memory",
    "an image end in another node's memory on one block alone",
    "an image end above the limit",
    "an image end of 2^64 - 1",
    "a limit inside the node's memory",
    "a limit in another node's memory on one block alone",
];

/// What can hold of an address, by direction. The run is the one that holds it.
const OF_ANSWERS: [&str; 16] = [
    "another node's memory of the run's flags behind it on one block, no memory on the other",
    "another node's memory of the run's flags before it on one block, no memory on the other",
    "another node's memory behind the run on one block, of other flags on the other",
    "another node's memory behind the run on both, taken on one block alone",
    "the run ends with the node's memory, what is behind is taken on one block alone",
    "the run begins with the node's memory, what is before is taken on one block alone",
    "what is taken behind the run goes on further on one block",
    "another number of memory records below the run",
    "another number of memory records above the run",
    "another number of taken records below the run",
    "another number of taken records above the run",
    "a full taken table on one block alone",
    "for any node another answer on one block than on the other",
    "a window that ends in another node's memory on one block alone",
    "a start where the node's memory begins or ends",
    "a named end where the node's memory begins or ends",
];

/// What a find can come to.
const OF_FINDS: [&str; 20] = [
    "an address top-down",
    "an address bottom-up, without an image",
    "an address bottom-up at or above the image end",
    "an address bottom-up the other way",
    "an address with wish 0",
    "an address with wish 1",
    "an address with wish 2",
    "an address with wish 3",
    "5 top-down",
    "5 bottom-up",
    "5 for a node without memory",
    "5, for any node an address on one block alone",
    "2 for node 64",
    "2 for a node above it",
    "2 for a wish",
    "3",
    "4",
    "8 for a slip of 0 bytes",
    "8 for a slip of 15 bytes",
    "8 for a slip of 17 bytes",
];

/// Pairs, and finds on both blocks of one.
#[derive(Default)]
pub struct Alone {
    of_pairs: [u64; OF_PAIRS.len()],
    of_answers: [[u64; OF_ANSWERS.len()]; 2],
    of_finds: [u64; OF_FINDS.len()],
}

impl Alone {
    fn note_pair(&mut self, pair: &Pair) {
        let (node, own, boards) = (pair.node, &pair.own, &pair.boards);
        let Board {
            limit, image_end, ..
        } = boards[0];
        let others = |list: &Vec<Rec>| list.iter().any(|rec| rec.node != node);
        let beside = |board: &Board| {
            let other = |x: u128| pair.other_at(board, x);
            (own.iter()).any(|&(lo, hi)| lo > 0 && other(lo - 1) || other(hi))
        };
        let full = |i: usize| {
            let counts = (pair.memory[i].len(), pair.taken[i].len());
            counts == (MEMORY.capacity, TAKEN.capacity)
        };
        let scant = |i: usize| {
            pair.memory[i].len() < MEMORY.capacity / 8 && pair.taken[i].len() < TAKEN.capacity / 8
        };
        // Whether something is taken of what is another node's, or no memory.
        let taken_in = |what: Option<bool>| {
            let of_node = |tag: Option<Tag>| tag.map(|tag| tag.node == node);
            move |board: &Board| {
                let both = (board.memory).join(&board.taken, |tag, taken| (taken, of_node(tag)));
                let mut states = both.stretches().map(|stretch| stretch.2);
                states.any(|state| state == (true, what))
            }
        };
        let taken = |x: u128| boards[0].taken.at(x);
        let reaches =
            |from: u128, to: u128| taken(from) && differ(boards, |board| board.taken.at(to));
        let between = |two: &[(u128, u128)]| {
            let (lo, hi) = (two[0].1, two[1].0);
            taken(lo - 1) && taken(hi) && differ(boards, |b| b.taken.is_all(lo, hi, true))
        };
        let inside = |x: u64| (own.iter()).any(|own| own.0 < x.into() && own.1 > x.into());
        let total = |body: &Body| differ(&pair.blocks, |block| get_u64(block, body.total_at));
        let [one, other] = boards;
        let holds = [
            !agree(one, other, (node + 1) % NODES),
            own.is_empty() && differ(&pair.memory, others),
            differ(boards, beside),
            boards.iter().all(beside),
            differ(&pair.memory, |list| list.len() == MEMORY.capacity),
            differ(&pair.taken, |list| list.len() == TAKEN.capacity),
            full(0) && scant(1) || full(1) && scant(0),
            differ(&pair.taken, Vec::is_empty),
            differ(boards, taken_in(Some(false))),
            differ(boards, taken_in(None)),
            differ(&pair.memory, Vec::len),
            total(&MEMORY),
            differ(&pair.taken, Vec::len),
            total(&TAKEN) && !differ(&pair.taken, Vec::len),
            own.first().is_some_and(|own| own.0 == 0),
            own.last().is_some_and(|own| own.1 == TOP),
            own.iter().any(|own| own.0 > 0 && reaches(own.0, own.0 - 1)),
            own.iter().any(|own| reaches(own.1 - 1, own.1)),
            own.windows(2).any(between),
            pair.at_border(image_end),
            inside(image_end),
            differ(boards, |board| pair.other_at(board, image_end.into())),
            image_end > limit,
            image_end == u64::MAX,
            inside(limit),
            differ(boards, |board| pair.other_at(board, limit.into())),
        ];
        count_in(&mut self.of_pairs, holds);
    }

    /// A find that gave this on both blocks.
    fn note(&mut self, pair: &Pair, query: &Query, number: u32, slip: &[u8]) {
        let board = &pair.boards[0];
        let bottom_up = board.direction == Direction::BottomUp;
        // What the model says for any node.
        let any = || {
            let query = Query {
                node: ANY_NODE,
                ..*query
            };
            pair.blocks.each_ref().map(|block| {
                let mut slip = [0; SLIP_LEN];
                (model::find(block, &query, &mut slip), slip)
            })
        };
        let found = (number == number::DONE).then(|| get_u64(slip, 0));
        let none = number == number::NO_ADDRESS;
        let image = board.image_end != NO_IMAGE;
        let above = found.is_some_and(|a| a >= board.image_end);
        let up = found.is_some() && bottom_up;
        let wish = |wish: u32| found.is_some() && query.wish == wish;
        let tag = number == number::BAD_TAG;
        let length = |length: usize| number == number::BAD_SLIP && slip.len() == length;
        let holds = [
            found.is_some() && !bottom_up,
            up && !image,
            up && image && above,
            up && !above,
            wish(0),
            wish(1),
            wish(2),
            wish(3),
            none && !bottom_up,
            none && bottom_up,
            none && pair.own.is_empty(),
            none && differ(&any(), |answer| answer.0),
            tag && query.node == NODES,
            tag && query.node > NODES,
            tag && query.wish > WISH_BOTH,
            number == number::BAD_ALIGNMENT,
            number == number::SIZE_ZERO,
            length(0),
            length(15),
            length(17),
        ];
        count_in(&mut self.of_finds, holds);
        let holds = |a: u64| move |run: &&Run| run.lo <= a.into() && run.hi > a.into();
        let run = found.and_then(|a| pair.runs.iter().find(holds(a)));
        if let Some(run) = run {
            let holds = of_answer(pair, query, run, differ(&any(), |answer| *answer));
            count_in(&mut self.of_answers[usize::from(bottom_up)], holds);
        }
    }

    /// How often the sides were met, or which were not.
    pub fn told(&self) -> Result<String, String> {
        let mut met: Vec<(String, u64)> = Vec::new();
        for (way, counts) in ["top-down", "bottom-up"].iter().zip(self.of_answers) {
            let names = OF_ANSWERS.iter().map(|name| format!("{way}: {name}"));
            met.extend(names.zip(counts));
        }
        let names = OF_PAIRS
            .iter()
            .chain(&OF_FINDS)
            .map(|name| name.to_string());
        met.extend(names.zip(self.of_pairs.into_iter().chain(self.of_finds)));
        sides_met(&met, "pairs that agree for a node")
    }
}

/// Which of `OF_ANSWERS` hold of an address in a run.
fn of_answer(pair: &Pair, query: &Query, run: &Run, any: bool) -> [bool; OF_ANSWERS.len()] {
    let board = &pair.boards[0];
    let end = match query.end {
        0 => board.limit,
        named => named.min(board.limit),
    };
    let (boards, lists) = (&pair.boards, [&pair.memory, &pair.taken]);
    let tags = |x: u128| boards.each_ref().map(|board| board.memory.at(x));
    let like = |tag: Tag| tag.words().0 == run.tag.words().0;
    // On one block memory of the run's flags, another node's, on the other none.
    let like_or_none = |x: u128| match tags(x) {
        [Some(tag), None] | [None, Some(tag)] => like(tag),
        _ => false,
    };
    let both_others = boards.iter().all(|board| pair.other_at(board, run.hi));
    let like_or_other = match tags(run.hi) {
        [Some(one), Some(other)] => both_others && like(one) != like(other),
        _ => false,
    };
    // Outside the node's memory, of which the same is taken.
    let taken = |x: u128| differ(boards, |board| board.taken.at(x));
    let ends = pair.taken.each_ref().map(|list| {
        let rec = list.iter().find(|rec| u128::from(rec.base) == run.hi);
        rec.map(|rec| rec.end())
    });
    let below = lists.map(|two| {
        let last = |list: &Vec<Rec>| list.partition_point(|rec| u128::from(rec.base) < run.lo);
        differ(two, last)
    });
    let above = lists.map(|two| {
        let first = |list: &Vec<Rec>| list.partition_point(|rec| u128::from(rec.base) < run.hi);
        differ(two, |list| list.len() - first(list))
    });
    [
        like_or_none(run.hi),
        run.lo > 0 && like_or_none(run.lo - 1),
        like_or_other,
        both_others && taken(run.hi),
        taken(run.hi),
        run.lo > 0 && taken(run.lo - 1),
        ends.iter().all(Option::is_some) && ends[0] != ends[1],
        below[0],
        above[0],
        below[1],
        above[1],
        differ(&pair.taken, |list| list.len() == TAKEN.capacity),
        any,
        differ(boards, |board| pair.other_at(board, end.into())),
        pair.at_border(query.start),
        query.end != 0 && pair.at_border(query.end),
    ]
}

//! Searches over the free runs of a good block.

use crate::block::{Block, Which};
use crate::record::{Record, HOTPLUG, MIRROR, NO_MAP};
use crate::{ANY_NODE, WISH_HOTPLUG, WISH_MIRROR};

#[derive(Clone, Copy)]
pub enum Direction {
    TopDown,
    BottomUp,
}

/// The memory that a search may give: of a node, with the demanded flags and no
/// other of those asked about.
#[derive(Clone, Copy)]
pub struct Wanted {
    node: u32,
    asked: u32,
    demanded: u32,
}

impl Wanted {
    pub fn new(node: u32, wish: u32) -> Wanted {
        let demanded = if wish & WISH_MIRROR != 0 { MIRROR } else { 0 };
        let refused = if wish & WISH_HOTPLUG != 0 {
            NO_MAP
        } else {
            NO_MAP | HOTPLUG
        };
        Wanted {
            node,
            asked: refused | demanded,
            demanded,
        }
    }

    fn grants(self, record: &Record) -> bool {
        let tag = record.tag;
        tag.flags & self.asked == self.demanded && (self.node == ANY_NODE || self.node == tag.node)
    }
}

/// What a search asks for, after the window is settled.
pub struct Query {
    pub size: u64,
    pub alignment: u64,
    pub start: u64,
    pub end: u64,
    pub wanted: Wanted,
}

/// The highest eligible address or, bottom-up, the lowest at or above the image end if
/// there is one; and the end of its run.
pub fn find<B: AsRef<[u8]>>(
    block: &Block<B>,
    query: &Query,
    direction: Direction,
) -> Option<(u64, u64)> {
    let down = || {
        highest(block, query.start, query.end, query.wanted, |from, to| {
            let address = to.checked_sub(query.size)? & !(query.alignment - 1);
            (address >= from).then_some(address)
        })
    };
    match direction {
        Direction::BottomUp => {
            let above = query.start.max(block.image_end());
            let up = lowest(block, above, query.end, query.wanted, |from, to| {
                let address = from.checked_next_multiple_of(query.alignment)?;
                (address <= to && to - address >= query.size).then_some(address)
            });
            up.or_else(down)
        }
        Direction::TopDown => down(),
    }
}

/// The lowest part of a free run at or above an address.
pub fn lowest_run<B: AsRef<[u8]>>(
    block: &Block<B>,
    from: u64,
    wanted: Wanted,
) -> Option<(u64, u64)> {
    lowest(block, from, u64::MAX, wanted, |from, _| Some(from))
}

/// Shows `fit` the free runs inside the window, lowest first, until it answers with
/// an address; the end is that of the whole run.
pub fn lowest<B: AsRef<[u8]>>(
    block: &Block<B>,
    start: u64,
    end: u64,
    wanted: Wanted,
    mut fit: impl FnMut(u64, u64) -> Option<u64>,
) -> Option<(u64, u64)> {
    let mut taken = block.records(Which::Taken).peekable();
    for memory in block.records(Which::Memory) {
        let mut at = memory.base.max(start);
        let stop = memory.end().min(end);
        if at >= stop || !wanted.grants(&memory) {
            continue;
        }
        while let Some(next) = taken.peek() {
            if next.base >= stop {
                break;
            }
            if at < next.base {
                if let Some(address) = fit(at, next.base) {
                    return Some((address, next.base));
                }
            }
            at = at.max(next.end());
            if at > stop {
                break; // it may reach into the next memory record
            }
            taken.next();
        }
        if at < stop {
            if let Some(address) = fit(at, stop) {
                let next = taken.peek().map_or(u64::MAX, |next| next.base);
                return Some((address, memory.end().min(next)));
            }
        }
    }
    None
}

/// The same, highest first.
fn highest<B: AsRef<[u8]>>(
    block: &Block<B>,
    start: u64,
    end: u64,
    wanted: Wanted,
    fit: impl Fn(u64, u64) -> Option<u64>,
) -> Option<(u64, u64)> {
    let mut taken = block.records(Which::Taken).rev().peekable();
    for memory in block.records(Which::Memory).rev() {
        let stop = memory.base.max(start);
        let mut run_end = memory.end();
        let mut at = run_end.min(end);
        if stop >= at || !wanted.grants(&memory) {
            continue;
        }
        while let Some(next) = taken.peek() {
            if next.end() <= stop {
                break;
            }
            if next.end() < at {
                if let Some(address) = fit(next.end(), at) {
                    return Some((address, run_end));
                }
            }
            run_end = run_end.min(next.base);
            at = at.min(next.base);
            if at < stop {
                break; // it may reach into the next memory record
            }
            taken.next();
        }
        if stop < at {
            if let Some(address) = fit(stop, at) {
                return Some((address, run_end));
            }
        }
    }
    None
}

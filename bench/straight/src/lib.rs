//! The twelve commands of document 01, the E820 intake of request E1, the tree's intake of
//! request E8, the pair's intake and the lookup of request E9, on the block of request E4,
//! with the flags and wishes of request E6, the image end of request E7, the frees of
//! request E10 and the free pages of request E14, as plain Rust: the program that the
//! library's speed is held against. Same rules, same numbers, same bytes.

#![forbid(unsafe_code)]

mod block;
mod pages;
mod record;
mod report;
mod search;
mod tree;

pub use block::{LENGTH, TAKEN};
pub use record::{HOTPLUG, MIRROR, NO_MAP};

use block::{Block, Which, SLIP};
use record::{Tag, PLAIN};
use search::{Direction, Query, Wanted};

pub const DONE: u32 = 0;
pub const BAD_BLOCK: u32 = 1;
pub const BAD_TAG: u32 = 2;
pub const BAD_ALIGNMENT: u32 = 3;
pub const SIZE_ZERO: u32 = 4;
pub const NOT_FOUND: u32 = 5;
pub const TABLE_FULL: u32 = 6;
pub const BAD_DIRECTION: u32 = 7;
pub const BAD_SLIP: u32 = 8;
pub const BAD_REPORT: u32 = 10;
pub const BAD_TREE: u32 = 11;
pub const NOT_TAKEN: u32 = 12;

/// What a lookup answers.
pub const IN_NEITHER: u32 = 0;
pub const IN_SERVICE: u32 = 1;
pub const IN_BOARD: u32 = 2;

/// The node that means any.
pub const ANY_NODE: u32 = u32::MAX;
/// A wish that allows hotplug memory.
pub const WISH_HOTPLUG: u32 = 1;
/// A wish that demands mirror memory.
pub const WISH_MIRROR: u32 = 2;

#[inline(never)]
pub fn fresh(block: &mut [u8]) -> u32 {
    if block.len() != LENGTH {
        return BAD_BLOCK;
    }
    block::write_fresh(block);
    DONE
}

#[inline(never)]
pub fn set(block: &mut [u8], limit: u64, direction: u32) -> u32 {
    let Some(mut block) = Block::check(block) else {
        return BAD_BLOCK;
    };
    if direction > 1 {
        return BAD_DIRECTION;
    }
    block.set(limit, direction);
    DONE
}

#[inline(never)]
pub fn set_image_end(block: &mut [u8], end: u64) -> u32 {
    let Some(mut block) = Block::check(block) else {
        return BAD_BLOCK;
    };
    block.set_image_end(end);
    DONE
}

#[inline(never)]
pub fn add(block: &mut [u8], base: u64, size: u64, flags: u32, node: u32) -> u32 {
    let Some(mut block) = Block::check(block) else {
        return BAD_BLOCK;
    };
    let tag = Tag { flags, node };
    if !tag.is_legal() {
        return BAD_TAG;
    }
    block.change(Which::Memory, base, size, |old| old.or(Some(tag)))
}

#[inline(never)]
pub fn remove(block: &mut [u8], base: u64, size: u64) -> u32 {
    change(block, Which::Memory, base, size, |_| None)
}

#[inline(never)]
pub fn mark(block: &mut [u8], base: u64, size: u64, flag: u32) -> u32 {
    change_flag(block, base, size, flag, |flags| flags | flag)
}

#[inline(never)]
pub fn unmark(block: &mut [u8], base: u64, size: u64, flag: u32) -> u32 {
    change_flag(block, base, size, flag, |flags| flags & !flag)
}

#[inline(never)]
pub fn reserve(block: &mut [u8], base: u64, size: u64) -> u32 {
    change(block, Which::Taken, base, size, |_| Some(PLAIN))
}

#[inline(never)]
pub fn free(block: &mut [u8], base: u64, size: u64) -> u32 {
    let Some(mut block) = Block::check(block) else {
        return BAD_BLOCK;
    };
    if !block.is_taken(base, size) {
        return NOT_TAKEN;
    }
    block.change(Which::Taken, base, size, |_| None)
}

#[inline(never)]
pub fn trim(block: &mut [u8], alignment: u64) -> u32 {
    let Some(mut block) = Block::check(block) else {
        return BAD_BLOCK;
    };
    if !alignment.is_power_of_two() {
        return BAD_ALIGNMENT;
    }
    block.trim(alignment);
    DONE
}

#[inline(never)]
pub fn intake_e820(block: &mut [u8], report: &[u8]) -> u32 {
    let Some(mut block) = Block::check(block) else {
        return BAD_BLOCK;
    };
    let Some(entries) = report::entries(report) else {
        return BAD_REPORT;
    };
    let saved = block.saved();
    for entry in entries.filter(|entry| entry.kind == report::USABLE) {
        let number = block.change(Which::Memory, entry.base, entry.size, |old| {
            old.or(Some(PLAIN))
        });
        if number != DONE {
            block.restore(&saved);
            return number;
        }
    }
    block.trim(report::PAGE);
    DONE
}

#[inline(never)]
pub fn intake_tree(block: &mut [u8], board: &[u8]) -> u32 {
    let Some(mut block) = Block::check(block) else {
        return BAD_BLOCK;
    };
    let Some(asked) = tree::read(board) else {
        return BAD_TREE;
    };
    take_in(&mut block, &asked)
}

#[inline(never)]
pub fn intake_trees(block: &mut [u8], board: &[u8], service: &[u8]) -> u32 {
    let Some(mut block) = Block::check(block) else {
        return BAD_BLOCK;
    };
    let Some(asked) = tree::read_pair(board, service) else {
        return BAD_TREE;
    };
    take_in(&mut block, &asked)
}

#[inline(never)]
pub fn lookup(service: &[u8], board: &[u8], path: &[u8], name: &[u8], slip: &mut [u8]) -> u32 {
    let mut found = IN_NEITHER;
    let number = with_slip(slip, || {
        let in_service = tree::lookup(service, path, name).ok_or(BAD_TREE)?;
        let in_board = tree::lookup(board, path, name).ok_or(BAD_TREE)?;
        let (holder, place) = match (in_service, in_board) {
            (Some(place), _) => (IN_SERVICE, place),
            (None, Some(place)) => (IN_BOARD, place),
            (None, None) => (IN_NEITHER, (0, 0)),
        };
        found = holder;
        Ok((place.0 as u64, place.1 as u64))
    });
    match number {
        DONE => found,
        number => number,
    }
}

/// Does what is asked, all or nothing.
fn take_in(block: &mut Block<&mut [u8]>, asked: &tree::Asked) -> u32 {
    let saved = block.saved_whole();
    let number = do_asked(block, asked);
    if number != DONE {
        block.restore_whole(&saved);
    }
    number
}

/// What a tree asks for, up to the first command that is refused.
fn do_asked(block: &mut Block<&mut [u8]>, asked: &tree::Asked) -> u32 {
    for &(base, size, node) in &asked.memory {
        let tag = Tag { flags: 0, node };
        let number = block.change(Which::Memory, base, size, |old| old.or(Some(tag)));
        if number != DONE {
            return number;
        }
    }
    for &(base, size) in asked.list.iter().chain(&asked.reserved) {
        let number = block.change(Which::Taken, base, size, |_| Some(PLAIN));
        if number != DONE {
            return number;
        }
    }
    for &(base, size) in &asked.no_map {
        let marked = |tag: Tag| Tag {
            flags: tag.flags | NO_MAP,
            ..tag
        };
        let number = block.change(Which::Memory, base, size, |old| old.map(marked));
        if number != DONE {
            return number;
        }
    }
    DONE
}

#[inline(never)]
pub fn next_free(block: &[u8], from: u64, node: u32, wish: u32, slip: &mut [u8]) -> u32 {
    let answer = || {
        let block = Block::check(block).ok_or(BAD_BLOCK)?;
        let wanted = wanted(node, wish)?;
        search::lowest_run(&block, from, wanted).ok_or(NOT_FOUND)
    };
    with_slip(slip, answer)
}

#[inline(never)]
pub fn find(
    block: &[u8],
    size: u64,
    alignment: u64,
    start: u64,
    end: u64,
    node: u32,
    wish: u32,
    slip: &mut [u8],
) -> u32 {
    let answer = || {
        let block = Block::check(block).ok_or(BAD_BLOCK)?;
        look(&block, size, alignment, start, end, wanted(node, wish))
    };
    with_slip(slip, answer)
}

#[inline(never)]
pub fn allocate(
    block: &mut [u8],
    size: u64,
    alignment: u64,
    start: u64,
    end: u64,
    node: u32,
    wish: u32,
    slip: &mut [u8],
) -> u32 {
    let answer = || {
        let mut block = Block::check(block).ok_or(BAD_BLOCK)?;
        let (address, run_end) = look(&block, size, alignment, start, end, wanted(node, wish))?;
        match block.change(Which::Taken, address, size, |_| Some(PLAIN)) {
            DONE => Ok((address, run_end)),
            refusal => Err(refusal),
        }
    };
    with_slip(slip, answer)
}

#[inline(never)]
pub fn pages(block: &[u8], from: u64, buffer: &mut [u8], slip: &mut [u8]) -> u32 {
    let answer = || {
        let block = Block::check(block).ok_or(BAD_BLOCK)?;
        Ok(pages::hand_over(&block, from, buffer))
    };
    with_slip(slip, answer)
}

/// A command on a range that has nothing to check but the block.
fn change(
    block: &mut [u8],
    which: Which,
    base: u64,
    size: u64,
    new_tag: impl Fn(Option<Tag>) -> Option<Tag>,
) -> u32 {
    match Block::check(block) {
        Some(mut block) => block.change(which, base, size, new_tag),
        None => BAD_BLOCK,
    }
}

/// Mark and unmark.
fn change_flag(
    block: &mut [u8],
    base: u64,
    size: u64,
    flag: u32,
    new_flags: impl Fn(u32) -> u32,
) -> u32 {
    let Some(mut block) = Block::check(block) else {
        return BAD_BLOCK;
    };
    if flag != HOTPLUG && flag != MIRROR && flag != NO_MAP {
        return BAD_TAG;
    }
    block.change(Which::Memory, base, size, |old| {
        old.map(|tag| Tag {
            flags: new_flags(tag.flags),
            ..tag
        })
    })
}

/// What may be given, if node and wish may be asked for.
fn wanted(node: u32, wish: u32) -> Result<Wanted, u32> {
    if node > record::LAST_NODE && node != ANY_NODE || wish > WISH_HOTPLUG | WISH_MIRROR {
        return Err(BAD_TAG);
    }
    Ok(Wanted::new(node, wish))
}

/// The address that find gives on a good block and its run's end, or why there is
/// none.
fn look<B: AsRef<[u8]>>(
    block: &Block<B>,
    size: u64,
    alignment: u64,
    start: u64,
    end: u64,
    wanted: Result<Wanted, u32>,
) -> Result<(u64, u64), u32> {
    let wanted = wanted?;
    if !alignment.is_power_of_two() {
        return Err(BAD_ALIGNMENT);
    }
    if size == 0 {
        return Err(SIZE_ZERO);
    }
    let end = match end {
        0 => block.limit(),
        named => named.min(block.limit()),
    };
    let start = start.max(4096);
    let query = Query {
        size,
        alignment,
        start,
        end: end.max(start),
        wanted,
    };
    let direction = match block.direction() {
        0 => Direction::TopDown,
        _ => Direction::BottomUp,
    };
    search::find(block, &query, direction).ok_or(NOT_FOUND)
}

/// Writes the slip: the answer, or zeros for a refusal.
fn with_slip(slip: &mut [u8], answer: impl FnOnce() -> Result<(u64, u64), u32>) -> u32 {
    if slip.len() != SLIP {
        return BAD_SLIP;
    }
    let (number, (first, second)) = match answer() {
        Ok(pair) => (DONE, pair),
        Err(number) => (number, (0, 0)),
    };
    slip[..8].copy_from_slice(&first.to_le_bytes());
    slip[8..].copy_from_slice(&second.to_le_bytes());
    number
}

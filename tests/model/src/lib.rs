//! A second program for the memory tables of document 01, the E820 intake of
//! request E1, the limit of request E3, the larger block of request E4, the run's
//! end of request E5, the flags and wishes of request E6, the image end of request
//! E7, the tree of request E8, the two trees of request E9, the frees of request E10, the
//! plans of request E12 and the free pages of request E14, written from those pages alone, to
//! be compared with the library call by call.
//!
//! It shares no idea with a program that walks tables of records: a table is a
//! map from boundary points to states, a search looks at whole free runs and
//! takes the least or the greatest of what they offer, all sums are in `u128`,
//! and a block is good when writing down what it says gives the same bytes.

pub mod layout;

mod board;
mod line;
pub mod plan;
pub mod tree;

pub use board::{covered, Board, Direction, Flag, Run, Tag, Wish};
pub use line::Line;

use board::{long, narrow, word};
use layout::number::*;
use layout::*;
use tree::{Ask, Fault, Holder};

/// What find and allocate are asked for.
#[derive(Clone, Copy, Debug, PartialEq, Eq, Hash)]
pub struct Query {
    pub size: u64,
    pub alignment: u64,
    pub start: u64,
    pub end: u64,
    pub node: u32,
    pub wish: u32,
}

pub fn fresh(block: &mut [u8]) -> u32 {
    if block.len() != BLOCK_LEN {
        return NOT_GOOD;
    }
    settle(block, Ok(Board::fresh()))
}

/// Writes what a good edition 1 block says over any bytes of a block's length.
pub fn convert(old: &[u8], block: &mut [u8]) -> u32 {
    if block.len() != BLOCK_LEN {
        return NOT_GOOD;
    }
    settle(block, Board::read_edition_1(old).ok_or(NOT_GOOD))
}

pub fn set(block: &mut [u8], limit: u64, direction: u32) -> u32 {
    let after = good(block).and_then(|mut board| {
        board.limit = limit;
        board.direction = Direction::named(direction).ok_or(BAD_DIRECTION)?;
        Ok(board)
    });
    settle(block, after)
}

pub fn set_image_end(block: &mut [u8], end: u64) -> u32 {
    let after = good(block).map(|mut board| {
        board.image_end = end;
        board
    });
    settle(block, after)
}

pub fn add(block: &mut [u8], base: u64, size: u64, flags: u32, node: u32) -> u32 {
    let after = good(block).and_then(|mut board| {
        let tag = Tag::legal(flags, node).ok_or(BAD_TAG)?;
        put_in(&mut board, base, size, tag);
        Ok(board)
    });
    settle(block, after)
}

pub fn remove(block: &mut [u8], base: u64, size: u64) -> u32 {
    let after = good(block).map(|mut board| {
        let (lo, hi) = covered(base, size);
        board.memory.paint(lo, hi, |_| None);
        board
    });
    settle(block, after)
}

pub fn mark(block: &mut [u8], base: u64, size: u64, flag: u32) -> u32 {
    change_flag(block, base, size, flag, true)
}

pub fn unmark(block: &mut [u8], base: u64, size: u64, flag: u32) -> u32 {
    change_flag(block, base, size, flag, false)
}

pub fn reserve(block: &mut [u8], base: u64, size: u64) -> u32 {
    let after = good(block).map(|mut board| {
        let (lo, hi) = covered(base, size);
        board.taken.paint(lo, hi, |_| true);
        board
    });
    settle(block, after)
}

pub fn free(block: &mut [u8], base: u64, size: u64) -> u32 {
    let after = good(block).and_then(|mut board| {
        let (lo, hi) = covered(base, size);
        // All or nothing; of no address all are taken.
        if !board.taken.is_all(lo, hi, true) {
            return Err(NOT_TAKEN);
        }
        board.taken.paint(lo, hi, |_| false);
        Ok(board)
    });
    settle(block, after)
}

pub fn trim(block: &mut [u8], alignment: u64) -> u32 {
    let after = good(block).and_then(|mut board| {
        whole_steps(&mut board, step(alignment)?);
        Ok(board)
    });
    settle(block, after)
}

/// Adds each usable entry of an E820 report in turn, then trims memory.
pub fn intake_e820(block: &mut [u8], report: &[u8]) -> u32 {
    let after = good(block).and_then(|mut board| {
        for (base, size, kind) in entries(report)? {
            if kind == USABLE {
                put_in(&mut board, base, size, Tag::plain(0));
                // 6 speaks of each step, before any trimming.
                board.write()?;
            }
        }
        whole_steps(&mut board, step(INTAKE_STEP)?);
        Ok(board)
    });
    settle(block, after)
}

/// Does what a flattened tree asks for, one command after the other.
pub fn intake_tree(block: &mut [u8], bytes: &[u8]) -> u32 {
    take_in(block, || tree::asks(bytes))
}

/// The same of a board's tree with the corrections of a service tree.
pub fn intake_trees(block: &mut [u8], board: &[u8], service: &[u8]) -> u32 {
    take_in(block, || tree::pair_asks(board, service))
}

/// Which of two trees has a property, and where.
pub fn lookup(service: &[u8], board: &[u8], path: &[u8], name: &[u8], slip: &mut [u8]) -> u32 {
    if slip.len() != SLIP_LEN {
        return BAD_SLIP;
    }
    let (number, place) = match tree::pair_lookup(service, board, path, name) {
        Ok(Holder::Service(place)) => (IN_SERVICE, Some(place)),
        Ok(Holder::Board(place)) => (IN_BOARD, Some(place)),
        Ok(Holder::Neither) => (IN_NEITHER, None),
        Err(_) => (BAD_TREE, None),
    };
    let place = place.map(|place| (place.at as u128, place.length as u128));
    tell(slip, place.ok_or(number));
    number
}

fn take_in(block: &mut [u8], asks: impl FnOnce() -> Result<Vec<Ask>, Vec<Fault>>) -> u32 {
    let after = good(block).and_then(|mut board| {
        for ask in asks().map_err(|_| BAD_TREE)? {
            match ask {
                Ask::Add { base, size, node } => put_in(&mut board, base, size, Tag::plain(node)),
                Ask::Reserve { base, size } => {
                    let (lo, hi) = covered(base, size);
                    board.taken.paint(lo, hi, |_| true);
                }
                Ask::Mark { base, size } => {
                    let (lo, hi) = covered(base, size);
                    let marked = |tag: Tag| tag.with(Flag::NoMap, true);
                    board.memory.paint(lo, hi, |old| old.map(marked));
                }
            }
            // 6 speaks of each step.
            board.fits()?;
        }
        Ok(board)
    });
    settle(block, after)
}

pub fn next_free(block: &[u8], from: u64, node: u32, wish: u32, slip: &mut [u8]) -> u32 {
    if slip.len() != SLIP_LEN {
        return BAD_SLIP;
    }
    let from = u128::from(from);
    let answer = good(block).and_then(|board| {
        let wanted = asked_for(node, wish)?;
        board
            .free_runs()
            .into_iter()
            .filter(|run| wanted(run) && run.hi > from)
            .map(|run| (run.lo.max(from), run.hi))
            .min()
            .ok_or(NO_ADDRESS)
    });
    tell(slip, answer)
}

pub fn find(block: &[u8], query: &Query, slip: &mut [u8]) -> u32 {
    if slip.len() != SLIP_LEN {
        return BAD_SLIP;
    }
    let answer = good(block).and_then(|board| place(&board, query));
    tell(slip, answer)
}

pub fn allocate(block: &mut [u8], query: &Query, slip: &mut [u8]) -> u32 {
    if slip.len() != SLIP_LEN {
        return BAD_SLIP;
    }
    let answer = good(block).and_then(|mut board| {
        let (a, end) = place(&board, query)?;
        board.taken.paint(a, a + u128::from(query.size), |_| true);
        block.copy_from_slice(&board.write()?);
        Ok((a, end))
    });
    tell(slip, answer)
}

/// Writes down the pieces of the free pages that begin at page `from` or above it, as
/// many as fit, and tells how many and where the next one begins.
pub fn pages(block: &[u8], from: u64, buffer: &mut [u8], slip: &mut [u8]) -> u32 {
    if slip.len() != SLIP_LEN {
        return BAD_SLIP;
    }
    let answer = good(block).map(|board| {
        // Wish 1, any node: of every free run.
        let runs = board.free_runs().into_iter();
        let mut pieces = runs.flat_map(|run| cut(run, from.into()));
        let mut count = 0;
        for (place, (page, order)) in buffer.chunks_exact_mut(PIECE_LEN).zip(&mut pieces) {
            place[..8].copy_from_slice(&narrow(page).to_le_bytes());
            place[8..].copy_from_slice(&order.to_le_bytes());
            count += 1;
        }
        (count, pieces.next().map_or(PAGES, |(page, _)| page))
    });
    tell(slip, answer)
}

/// A run's whole pages cut from the bottom into pieces: those that begin at page `from`
/// or above it, as (page, order).
fn cut(run: Run, from: u128) -> impl Iterator<Item = (u128, u32)> {
    let mut page = run.lo.div_ceil(PAGE_LEN);
    let past = run.hi / PAGE_LEN;
    std::iter::from_fn(move || loop {
        let fits = |order: &u32| page.is_multiple_of(1 << order) && page + (1 << order) <= past;
        let order = (0..=LARGEST_ORDER).rev().find(fits)?;
        let size = 1 << order;
        if page >= from {
            let begins = page;
            page += size;
            return Some((begins, order));
        }
        // Behind a piece of the largest order are more of it, as long as they fit: all
        // that begin below are passed over at once.
        page += if order == LARGEST_ORDER {
            (from - page).div_ceil(size).min((past - page) / size) * size
        } else {
            size
        };
    })
}

/// The address that the rules of find fix and the end of the free run that holds
/// it, or the refusal.
fn place(board: &Board, query: &Query) -> Result<(u128, u128), u32> {
    let wanted = asked_for(query.node, query.wish)?;
    let step = step(query.alignment)?;
    if query.size == 0 {
        return Err(SIZE_ZERO);
    }
    let size = u128::from(query.size);
    let (start, end) = window(board, query);

    // What the runs offer from an address on: each the lowest and the highest, and
    // where it ends.
    let offers = |from: u128| {
        let runs = board.free_runs().into_iter().filter(&wanted);
        runs.filter_map(move |run| {
            // The multiples k * step with lo <= k * step and k * step + size <= hi.
            let lo = run.lo.max(from);
            let hi = run.hi.min(end);
            let least = lo.div_ceil(step);
            let greatest = hi.checked_sub(size)? / step;
            (least <= greatest).then_some((least * step, greatest * step, run.hi))
        })
    };
    // No two runs offer the same address, so the run's end decides nothing.
    let lowest = |from| offers(from).map(|(lowest, _, end)| (lowest, end)).min();
    let highest = |from| offers(from).map(|(_, highest, end)| (highest, end)).max();
    let chosen = match board.direction {
        Direction::TopDown => highest(start),
        // Above the image, then the other way.
        Direction::BottomUp => lowest(start.max(board.image_end.into())).or_else(|| highest(start)),
    };
    chosen.ok_or(NO_ADDRESS)
}

/// The start and the end between which a query's addresses lie.
fn window(board: &Board, query: &Query) -> (u128, u128) {
    // The limit binds: a named end above it is cut to it.
    let end = match query.end {
        0 => board.limit,
        named => named.min(board.limit),
    };
    let start = u128::from(query.start).max(LOWEST_START);
    (start, u128::from(end).max(start))
}

fn good(block: &[u8]) -> Result<Board, u32> {
    Board::read(block).ok_or(NOT_GOOD)
}

/// Whether a run is one of the node and the wish asked for, or the refusal.
fn asked_for(node: u32, wish: u32) -> Result<impl Fn(&Run) -> bool, u32> {
    if node >= NODES && node != ANY_NODE {
        return Err(BAD_TAG);
    }
    let wish = Wish::named(wish).ok_or(BAD_TAG)?;
    Ok(move |run: &Run| (node == ANY_NODE || node == run.tag.node) && wish.grants(run.tag))
}

fn step(alignment: u64) -> Result<u128, u32> {
    if alignment.count_ones() == 1 {
        Ok(u128::from(alignment))
    } else {
        Err(BAD_ALIGNMENT)
    }
}

/// Gives the tag to each address of the range not yet in memory.
fn put_in(board: &mut Board, base: u64, size: u64, tag: Tag) {
    let (lo, hi) = covered(base, size);
    board.memory.paint(lo, hi, |old| old.or(Some(tag)));
}

/// Rounds each stretch of memory inwards to multiples of the step.
fn whole_steps(board: &mut Board, step: u128) {
    let mut trimmed = Line::all(None);
    for (lo, hi, tag) in board.memory.stretches() {
        if tag.is_some() {
            trimmed.paint(lo.div_ceil(step) * step, hi / step * step, |_| tag);
        }
    }
    board.memory = trimmed;
}

/// The entries of a report as (base, length, kind), or the refusal.
fn entries(report: &[u8]) -> Result<impl Iterator<Item = (u64, u64, u32)> + '_, u32> {
    let entries = report.chunks_exact(REPORT_ENTRY_LEN);
    if !entries.remainder().is_empty() || entries.len() > REPORT_ENTRIES {
        return Err(BAD_REPORT);
    }
    Ok(entries.map(|entry| (long(entry, 0), long(entry, 8), word(entry, 16))))
}

fn change_flag(block: &mut [u8], base: u64, size: u64, flag: u32, set: bool) -> u32 {
    let after = good(block).and_then(|mut board| {
        let flag = Flag::named(flag).ok_or(BAD_TAG)?;
        let (lo, hi) = covered(base, size);
        let marked = |tag: Tag| tag.with(flag, set);
        board.memory.paint(lo, hi, |old| old.map(marked));
        Ok(board)
    });
    settle(block, after)
}

/// Writes the block of a finished command, or leaves it as lent.
fn settle(block: &mut [u8], after: Result<Board, u32>) -> u32 {
    match after.and_then(|board| board.write()) {
        Ok(bytes) => {
            block.copy_from_slice(&bytes);
            DONE
        }
        Err(number) => number,
    }
}

/// Writes a 16-byte slip: the two numbers, or all zero on a refusal.
fn tell(slip: &mut [u8], answer: Result<(u128, u128), u32>) -> u32 {
    slip.fill(0);
    match answer {
        Ok((first, second)) => {
            slip[..8].copy_from_slice(&narrow(first).to_le_bytes());
            slip[8..].copy_from_slice(&narrow(second).to_le_bytes());
            DONE
        }
        Err(number) => number,
    }
}

//! On which side of request E10 the frees were: what of their range was taken, so that
//! a whole run can say that each side was met.

use crate::blocks::{get_u64, read_recs, Rec};
use crate::call::{Call, Command};
use crate::desk::Desk;
use crate::numbers::Near;
use crate::rng::Rng;
use model::layout::*;

/// What can hold of a free of a good block. The range is that after the cut at the top.
const SIDES: [&str; 25] = [
    "done: a size of 0 where the address is taken",
    "done: a size of 0 where it is not",
    "done: the last address, which leaves none",
    "done: a whole record",
    "done: the front of a record",
    "done: the back of a record",
    "done: the inside of a record",
    "done: a range that was cut",
    "done: a whole record of a full table",
    "done: the front of a record of a full table",
    "done: the back of a record of a full table",
    "no room: the inside of a record of a full table",
    "not taken: a range of an empty table",
    "not taken: a range apart from all records",
    "not taken: a range that begins where a record ends",
    "not taken: a range that ends where a record begins",
    "not taken: the first address alone",
    "not taken: the last address alone",
    "not taken: one address between alone",
    "not taken: all but the first address",
    "not taken: all but the last address",
    "not taken: several addresses between, not the first and not the last",
    "not taken: the first and the last address, but some between",
    "not taken: a range that was cut",
    "not taken: from inside a record of a full table to one past its end",
];

/// Frees that were not refused for the block, and what was freed of earlier calls.
#[derive(Default)]
pub struct Frees {
    met: [u64; SIDES.len()],
    /// What a reserve or an allocation had just taken was freed, and what two reserves
    /// that touch had, as one.
    reserves: u64,
    allocations: u64,
    touching: u64,
    /// A free was done, and the same one then refused.
    twice: u64,
}

impl Frees {
    /// A call on a block as it was `before`, with what it answered.
    pub fn note(&mut self, call: &Call, before: &[u8], number: u32) {
        let Call::Range { base, size, .. } = *call else {
            return;
        };
        for (count, holds) in self.met.iter_mut().zip(sides(before, base, size, number)) {
            *count += u64::from(holds);
        }
    }

    /// How often the sides were met, or which were not.
    pub fn told(&self) -> Result<String, String> {
        let never: Vec<&str> = SIDES
            .into_iter()
            .zip(self.met)
            .filter(|side| side.1 == 0)
            .map(|side| side.0)
            .collect();
        if !never.is_empty() {
            return Err(format!("never met: {}", never.join("; ")));
        }
        let after = [self.reserves, self.allocations, self.touching, self.twice];
        if after.contains(&0) {
            return Err(format!(
                "reserves freed {}, allocations {}, touching reserves as one {}, twice {}: \
                 one of them never",
                after[0], after[1], after[2], after[3]
            ));
        }
        Ok(format!(
            "{} sides of what is taken, each met {} times at least; freed {} reserves, {} \
             allocations, {} pairs of touching reserves as one; {} frees made twice",
            SIDES.len(),
            self.met.iter().min().expect("there are sides"),
            self.reserves,
            self.allocations,
            self.touching,
            self.twice
        ))
    }
}

/// How many addresses a range has after the cut at the top, and how many of them are
/// taken, as the records of a block say.
fn counted(taken: &[Rec], base: u64, size: u64) -> (u64, u64) {
    let end = base.saturating_add(size);
    let in_range = |rec: &Rec| rec.end().min(end).saturating_sub(rec.base.max(base));
    (end - base, taken.iter().map(in_range).sum())
}

/// Whether free must answer 12 on a good block.
pub fn not_taken(block: &[u8], base: u64, size: u64) -> bool {
    let (all, taken) = counted(&read_recs(block, &TAKEN), base, size);
    taken < all
}

/// Which sides a free was on.
fn sides(block: &[u8], base: u64, size: u64, number: u32) -> [bool; SIDES.len()] {
    let records = read_recs(block, &TAKEN);
    let end = base.saturating_add(size);
    let (all, taken) = counted(&records, base, size);
    let is_taken = |x: u64| counted(&records, x, 1) == (1, 1);
    let untaken = all - taken;
    let cut = u128::from(base) + u128::from(size) > TOP;
    let full = records.len() == TAKEN.capacity;
    let done = number == number::DONE && all > 0;
    // The record that holds the whole range, and where in it the range stands.
    let holder = records
        .iter()
        .find(|rec| all > 0 && rec.base <= base && end <= rec.end());
    let (front, back) = holder.map_or((false, false), |rec| (rec.base == base, rec.end() == end));
    let inside = holder.is_some() && !front && !back;
    let refused = number == number::NOT_TAKEN;
    let (first, last) = (all > 0 && is_taken(base), all > 0 && is_taken(end - 1));
    let past = refused && taken == all - 1 && first && !last;
    let (begins, ends) = (
        records.iter().any(|rec| rec.end() == base),
        records.iter().any(|rec| rec.base == end),
    );
    [
        size == 0 && is_taken(base),
        size == 0 && base < u64::MAX && !is_taken(base),
        size > 0 && all == 0,
        done && front && back,
        done && front && !back,
        done && back && !front,
        done && inside,
        done && cut,
        done && full && front && back,
        done && full && front && !back,
        done && full && back && !front,
        number == number::TABLE_FULL && full && inside,
        refused && records.is_empty(),
        refused && taken == 0 && !records.is_empty() && !begins && !ends,
        refused && taken == 0 && begins,
        refused && taken == 0 && ends,
        refused && untaken == 1 && !first && last,
        past,
        refused && untaken == 1 && first && last,
        refused && taken == 1 && first && untaken > 1,
        refused && taken == 1 && last && untaken > 1,
        refused && untaken > 1 && first && last,
        refused && taken > 0 && !first && !last,
        refused && cut,
        past && full && !records.iter().any(|rec| rec.base == base),
    ]
}

fn free(base: u64, size: u64) -> Call {
    Call::Range {
        command: Command::Free,
        base,
        size,
    }
}

fn reserve(base: u64, size: u64) -> Call {
    Call::Range {
        command: Command::Reserve,
        base,
        size,
    }
}

/// Frees a range and then, if that was done, once more; gives whether it was.
fn freed_twice(desk: &mut Desk, block: &[u8], base: u64, size: u64) -> bool {
    let mut block = block.to_vec();
    let number = desk.call(&free(base, size), &mut block, &mut []);
    if number != number::DONE {
        return false;
    }
    let again = desk.call(&free(base, size), &mut block, &mut []);
    desk.frees.twice += u64::from(again == number::NOT_TAKEN);
    true
}

/// What a done call took is freed, and what it freed is freed again, on copies of the
/// block that it left.
pub fn follow(desk: &mut Desk, rng: &mut Rng, call: &Call, slip: &[u8], block: &[u8]) {
    match *call {
        Call::Range {
            command,
            base,
            size,
        } if base.saturating_add(size) > base => match command {
            Command::Free => {
                let again = desk.call(call, &mut block.to_vec(), &mut []);
                desk.frees.twice += u64::from(again == number::NOT_TAKEN);
            }
            Command::Reserve => {
                let freed = freed_twice(desk, block, base, size);
                desk.frees.reserves += u64::from(freed);
                touching(desk, rng, block, base, size);
            }
            _ => {}
        },
        Call::Allocate(query) => {
            let base = get_u64(slip, 0);
            let freed = freed_twice(desk, block, base, query.size);
            desk.frees.allocations += u64::from(freed);
        }
        _ => {}
    }
}

/// Reserves what touches a reserved range at its end and frees both as one, before that
/// with one address more.
fn touching(desk: &mut Desk, rng: &mut Rng, block: &[u8], base: u64, size: u64) {
    let end = base.saturating_add(size);
    let more = 1 + rng.below(0x1000);
    if end >= u64::MAX - 0x2000 {
        return;
    }
    let mut block = block.to_vec();
    if desk.call(&reserve(end, more), &mut block, &mut []) != number::DONE {
        return;
    }
    let one_more = free(base, end - base + more + 1);
    desk.call(&one_more, &mut block.clone(), &mut []);
    let freed = freed_twice(desk, &block, base, end - base + more);
    desk.frees.touching += u64::from(freed);
}

/// Frees around what is taken, then around a range put one address behind a record, or at
/// the top.
pub fn around(desk: &mut Desk, rng: &mut Rng, near: &Near, block: &[u8]) {
    let (base, size) = near.to_free(rng);
    desk.call(&free(base, size), &mut block.to_vec(), &mut []);
    let records = read_recs(block, &TAKEN);
    let mut block = block.to_vec();
    let (base, size) = match (rng.below(3), records.len()) {
        (0, _) | (_, 0) => {
            let size = 1 + rng.below(0x20);
            (u64::MAX - size, rng.pick(&[size, size + 1, u64::MAX]))
        }
        (_, many) => {
            let behind = records[rng.index(many)].end().saturating_add(1);
            (behind, 1 + rng.below(3))
        }
    };
    let end = base.saturating_add(size);
    desk.call(&reserve(base, size), &mut block, &mut []);
    let from = match end {
        u64::MAX if rng.one_in(6) => end,
        _ => base.saturating_sub(rng.pick(&[0, 1, 2, 2])),
    };
    let to = rng.pick(&[end.saturating_sub(1), end, end.saturating_add(1)]);
    let size = to.saturating_sub(from);
    // To the top the size may be any that is cut there.
    let size = match to {
        u64::MAX if rng.one_in(2) => size.saturating_add(rng.any_size()),
        _ => size,
    };
    desk.call(&free(from, size), &mut block, &mut []);
}

//! Which flags the searches met with which wish (request E6), so that a whole run can
//! say that memory of each was given, or passed over, by each search.

use crate::blocks::{get_u32, get_u64, read_recs};
use crate::call::{Call, Command};
use crate::desk::Desk;
use crate::numbers::slip;
use crate::rng::Rng;
use model::layout::*;
use model::Query;

const SEARCHES: [&str; 4] = ["find, bottom-up", "find, top-down", "allocate", "next free"];

const ALL_FLAGS: usize = FLAGS as usize + 1;
const ALL_WISHES: usize = WISH_BOTH as usize + 1;

/// Whether memory of these flags is given to a search with this wish.
fn granted(flags: usize, wish: usize) -> bool {
    let has = |words: usize, one: u32| words & one as usize != 0;
    !has(flags, NO_MAP)
        && (has(wish, WISH_HOTPLUG) || !has(flags, HOTPLUG))
        && (!has(wish, WISH_MIRROR) || has(flags, MIRROR))
}

/// Searches that no check refused.
#[derive(Default)]
pub struct Wishes {
    /// By search, wish and flags of the memory that would have been given if flags did
    /// not count: it was given where the wish grants it, else passed over.
    met: [[[u64; ALL_FLAGS]; ALL_WISHES]; SEARCHES.len()],
    /// Of those passed over, how many got another address, and how many none.
    other: u64,
    none: u64,
}

impl Wishes {
    /// A search on a block as it was `before`, with what it answered: an address, none,
    /// or no room for one.
    pub fn note(&mut self, call: &Call, before: &[u8], number: u32) {
        let up = get_u32(before, DIRECTION_AT) == 1;
        let (search, wish, first) = match *call {
            Call::NextFree { from, node, wish } => (3, wish, next(before, from, node)),
            Call::Find(query) | Call::Allocate(query) => {
                let search = match (call.command(), up) {
                    (Command::Allocate, _) => 2,
                    (_, up) => usize::from(!up),
                };
                (search, query.wish, place(before, &query, up))
            }
            _ => return,
        };
        let Some(flags) = first.map(|flags| flags as usize) else {
            return;
        };
        let wish = wish as usize;
        self.met[search][wish][flags] += 1;
        if !granted(flags, wish) {
            match number {
                number::NO_ADDRESS => self.none += 1,
                _ => self.other += 1,
            }
        }
    }

    /// How often the sides were met, or which were not.
    pub fn told(&self) -> Result<String, String> {
        let mut never = Vec::new();
        // Given, and passed over.
        let mut counts = [Vec::new(), Vec::new()];
        for (search, wishes) in SEARCHES.iter().zip(&self.met) {
            for (wish, all) in wishes.iter().enumerate() {
                for (flags, &count) in all.iter().enumerate() {
                    let passed = usize::from(!granted(flags, wish));
                    counts[passed].push(count);
                    if count == 0 {
                        let what = ["given", "passed over"][passed];
                        never.push(format!("{search}, wish {wish}: flags {flags} {what}"));
                    }
                }
            }
        }
        if !never.is_empty() {
            return Err(format!("never met: {}", never.join("; ")));
        }
        if self.other == 0 || self.none == 0 {
            return Err("nothing passed over with another address given, or with none".into());
        }
        let [given, passed] = counts.map(|list| (list.len(), list.into_iter().min()));
        Ok(format!(
            "flags by wish and search: {} given, each {} times at least, {} passed over, each {} \
             times; for these another address was given {} times and none {} times",
            given.0,
            given.1.expect("there are some"),
            passed.0,
            passed.1.expect("there are some"),
            self.other,
            self.none,
        ))
    }
}

/// The longest ranges of untaken memory of one tag, no-map too, of the node asked for:
/// from, to, flags.
fn untaken(block: &[u8], node: u32) -> Vec<(u64, u64, u32)> {
    let taken = read_recs(block, &TAKEN);
    let mut ranges = Vec::new();
    for rec in read_recs(block, &MEMORY) {
        if node != ANY_NODE && node != rec.node {
            continue;
        }
        let mut at = rec.base;
        let first = taken.partition_point(|t| t.end() <= rec.base);
        for t in taken[first..].iter().take_while(|t| t.base < rec.end()) {
            ranges.push((at, t.base, rec.flags));
            at = t.end();
        }
        ranges.push((at, rec.end(), rec.flags));
    }
    ranges.retain(|range| range.0 < range.1);
    ranges
}

/// The flags of the first untaken memory at or above an address.
fn next(block: &[u8], from: u64, node: u32) -> Option<u32> {
    let ranges = untaken(block, node);
    let first = ranges.iter().find(|range| range.1 > from);
    first.map(|range| range.2)
}

/// The flags of the memory that a search would give if they did not count.
fn place(block: &[u8], query: &Query, up: bool) -> Option<u32> {
    let start = LOWEST_START.max(query.start.into());
    let limit = get_u64(block, LIMIT_AT);
    let end = match query.end {
        0 => limit,
        named => named.min(limit),
    };
    let (size, step) = (u128::from(query.size), u128::from(query.alignment));
    let fits = |from: u128| {
        move |&&(lo, hi, _): &&(u64, u64, u32)| {
            let lo = from.max(lo.into()).div_ceil(step) * step;
            lo + size <= hi.min(end).into()
        }
    };
    let ranges = untaken(block, query.node);
    let image_end = get_u64(block, IMAGE_END_AT).into();
    let above = match up {
        true => ranges.iter().find(fits(start.max(image_end))),
        false => None,
    };
    let first = above.or_else(|| ranges.iter().rev().find(fits(start)));
    first.map(|range| range.2)
}

/// A search of one record's memory alone, with any wish, so that its flags decide.
pub fn inside(desk: &mut Desk, rng: &mut Rng, block: &[u8]) {
    let memory = read_recs(block, &MEMORY);
    if memory.is_empty() {
        return;
    }
    let rec = rng.pick(&memory);
    let query = Query {
        size: 1,
        alignment: 1,
        start: rec.base,
        end: rec.end(),
        node: ANY_NODE,
        wish: rng.index(ALL_WISHES) as u32,
    };
    desk.call(&Call::Find(query), &mut block.to_vec(), &mut slip(rng, 0));
}

//! On which side of the block's limit the searches were (request E3), so that a
//! whole run can say that each was met.

use crate::blocks::{get_u64, put_u64};
use crate::call::{Call, Command};
use model::layout::*;
use model::Query;

const STARTS: [&str; 4] = [
    "a limit of 0",
    "a limit below 4096",
    "a limit at or below the start",
    "a limit above the start",
];

const ENDS: [&str; 4] = [
    "no end named",
    "an end below it",
    "an end at it",
    "an end above it",
];

const ANSWERS: [&str; 2] = ["an address", "none"];

/// Whether there can be such a search: no end that is named is at or below a
/// limit of 0, and an address lies between the start and the limit.
fn can_be(start: usize, end: usize, answer: usize) -> bool {
    (start != 0 || end == 0 || end == 3) && (start == 3 || answer == 1)
}

/// Searches that no check refused.
#[derive(Default)]
pub struct Sides {
    /// By find or allocate, limit and start, named end, answer.
    met: [[[[u64; 2]; 4]; 4]; 2],
    /// Answers whose size ends at the limit.
    to_the_limit: u64,
    /// Named ends above the limit, where a block without one answers otherwise.
    decided: u64,
}

impl Sides {
    /// A call on a block as it was `before`, with what it answered.
    pub fn note(&mut self, call: &Call, before: &[u8], number: u32, slip: &[u8]) {
        let (Call::Find(query) | Call::Allocate(query)) = call else {
            return;
        };
        let limit = get_u64(before, LIMIT_AT);
        let start = match limit {
            0 => 0,
            1..=4095 => 1,
            _ if u128::from(limit) <= LOWEST_START.max(query.start.into()) => 2,
            _ => 3,
        };
        let end = match query.end {
            0 => 0,
            end if end < limit => 1,
            end if end == limit => 2,
            _ => 3,
        };
        let whose = usize::from(call.command() == Command::Allocate);
        self.met[whose][start][end][usize::from(number == 5)] += 1;
        self.to_the_limit += u64::from(number == 0 && get_u64(slip, 0) + query.size == limit);
        self.decided += u64::from(end == 3 && decides(before, query));
    }

    /// How often the sides were met, or which were not.
    pub fn told(&self) -> Result<String, String> {
        let mut counts = Vec::new();
        let mut never = Vec::new();
        for (whose, starts) in ["find", "allocate"].iter().zip(&self.met) {
            for (start, ends) in starts.iter().enumerate() {
                for (end, answers) in ends.iter().enumerate() {
                    for (answer, &count) in answers.iter().enumerate() {
                        if !can_be(start, end, answer) {
                            continue;
                        }
                        counts.push(count);
                        if count == 0 {
                            never.push(format!(
                                "{whose}: {}, {}, {}",
                                STARTS[start], ENDS[end], ANSWERS[answer]
                            ));
                        }
                    }
                }
            }
        }
        if !never.is_empty() {
            return Err(format!("never met: {}", never.join("; ")));
        }
        if self.to_the_limit == 0 || self.decided == 0 {
            return Err("no answer that ends at the limit, or none that it changed".into());
        }
        Ok(format!(
            "{} sides, each met {} times at least; {} answers end at the limit; \
             {} of the named ends above it gave another answer than without a limit",
            counts.len(),
            counts.iter().min().expect("there are sides"),
            self.to_the_limit,
            self.decided
        ))
    }
}

/// Whether the answer would be another if the block had no limit.
fn decides(block: &[u8], query: &Query) -> bool {
    let mut open = block.to_vec();
    put_u64(&mut open, LIMIT_AT, u64::MAX);
    let answer = |block: &[u8]| {
        let mut slip = [0; SLIP_LEN];
        (model::find(block, query, &mut slip), slip)
    };
    answer(block) != answer(&open)
}

//! Where the free runs of answers end (request E5), so that a whole run can say that
//! each side was met, and next free from there.

use crate::blocks::get_u64;
use crate::call::{Call, Command};
use crate::desk::Desk;
use crate::rng::Rng;
use model::layout::*;
use model::{Board, Direction, Wish};

/// What can hold of an answer; the window's end is that after the cut to the limit.
const SIDES: [&str; 12] = [
    "a window that ends below the run's end",
    "a window that ends at the run's end",
    "a window that ends above the run's end",
    "a limit below the run's end",
    "a size that ends below the run's end",
    "a size that ends at the run's end",
    "no memory behind the run",
    "what is taken behind the run",
    "no-map memory behind the run",
    "another node behind the run",
    "other flags behind the run that the wish grants too",
    "other flags behind the run that the wish does not grant",
];

/// Searches of find and allocate that gave an address.
#[derive(Default)]
pub struct Runs {
    /// By find or allocate, direction, side.
    met: [[[u64; SIDES.len()]; 2]; 2],
    /// Next free from an allocation's second number, with an answer or none.
    followed: [u64; 2],
}

impl Runs {
    /// A call on a block as it was `before`, with what it answered.
    pub fn note(&mut self, call: &Call, before: &[u8], number: u32, slip: &[u8]) {
        let (Call::Find(query) | Call::Allocate(query)) = call else {
            return;
        };
        if number != 0 {
            return;
        }
        let board = Board::read(before).expect("a search has taken it for good");
        let (a, run_end) = (get_u64(slip, 0), get_u64(slip, 8));
        let window_end = match query.end {
            0 => board.limit,
            named => named.min(board.limit),
        };
        let tag = board.memory.at(a.into()).expect("memory was given");
        let behind = board.memory.at(run_end.into());
        let taken = board.taken.at(run_end.into());
        // Memory behind that is free as well, if its flags are granted.
        let free = behind.filter(|tag| !tag.no_map && !taken);
        let wish = Wish::named(query.wish).expect("a search has taken it");
        let holds = [
            window_end < run_end,
            window_end == run_end,
            window_end > run_end,
            board.limit < run_end,
            a + query.size < run_end,
            a + query.size == run_end,
            behind.is_none(),
            behind.is_some() && taken,
            behind.is_some_and(|tag| tag.no_map) && !taken,
            free.is_some_and(|other| other.node != tag.node),
            free.is_some_and(|other| other.node == tag.node && wish.grants(other)),
            free.is_some_and(|other| other.node == tag.node && !wish.grants(other)),
        ];
        let whose = usize::from(call.command() == Command::Allocate);
        let way = usize::from(board.direction == Direction::BottomUp);
        for (count, holds) in self.met[whose][way].iter_mut().zip(holds) {
            *count += u64::from(holds);
        }
    }

    /// How often the sides were met, or which were not.
    pub fn told(&self) -> Result<String, String> {
        let mut counts = Vec::new();
        let mut never = Vec::new();
        for (whose, ways) in ["find", "allocate"].iter().zip(&self.met) {
            for (way, sides) in ["top-down", "bottom-up"].iter().zip(ways) {
                for (side, &count) in SIDES.iter().zip(sides) {
                    counts.push(count);
                    if count == 0 {
                        never.push(format!("{whose}, {way}: {side}"));
                    }
                }
            }
        }
        let [some, none] = self.followed;
        if some == 0 || none == 0 {
            never.push("next free behind an allocation's run, with an answer and without".into());
        }
        if !never.is_empty() {
            return Err(format!("never met: {}", never.join("; ")));
        }
        Ok(format!(
            "{} sides of a run's end, each met {} times at least; next free behind an \
             allocation's run gave a run {some} times and none {none} times",
            counts.len(),
            counts.iter().min().expect("there are sides"),
        ))
    }
}

/// Next free from the second number of an allocation, on the block that it left.
pub fn follow(desk: &mut Desk, rng: &mut Rng, wish: u32, block: &mut [u8], slip: &[u8]) {
    let call = Call::NextFree {
        from: get_u64(slip, 8),
        node: ANY_NODE,
        wish,
    };
    let mut answer = rng.bytes(SLIP_LEN);
    let number = desk.call(&call, block, &mut answer);
    desk.runs.followed[usize::from(number != 0)] += 1;
}

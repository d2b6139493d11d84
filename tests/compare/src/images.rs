//! On which side of the image end the searches were (request E7), so that a whole run
//! can say that each was met.

use crate::blocks::{get_u64, put_u64};
use crate::call::{Call, Command};
use crate::desk::Desk;
use crate::numbers::{slip, Near};
use crate::rng::Rng;
use model::layout::*;
use model::{Board, Direction, Query};

/// What can hold of a search. The run is the one that holds the address given, the
/// range what the size covers from there; the window is that after the cut to the limit.
const SIDES: [&str; 24] = [
    "no image end",
    "an image end at or below the window's start",
    "an image end below the run",
    "an image end where the run begins",
    "an image end at the address",
    "an image end in the run below the address",
    "an image end inside the range",
    "an image end where the range ends",
    "an image end in the run above the range",
    "an image end where the run ends",
    "an image end above the run",
    "an image end of 2^64 - 1",
    "an image end where the window ends",
    "an image end above the window",
    "an image end at the limit",
    "an image end above the limit",
    "no address, the image end at or below the window's start",
    "no address, the image end in the window",
    "no address, the image end at or above the window's end",
    "another address at or above the image end than the lowest",
    "the other way, another address than the lowest",
    "the other way, another run than that of the lowest",
    "no room for an address at or above the image end",
    "no room for an address the other way",
];

/// Where the sides of searches without an address begin; those of bottom-up searches
/// that find another address than without an image; those of full tables.
const NONE: usize = 16;
const OTHERS: usize = 19;
const NO_ROOM: usize = 22;

/// The last two groups are of bottom-up searches alone, full tables of allocate.
fn can_be(allocate: bool, bottom_up: bool, side: usize) -> bool {
    (bottom_up || side < OTHERS) && (allocate || side < NO_ROOM)
}

/// Searches of find and allocate that no check refused.
#[derive(Default)]
pub struct Images {
    /// By find or allocate, direction, side.
    met: [[[u64; SIDES.len()]; 2]; 2],
    /// Bottom-up, an image end above the window's start: addresses at or above it, and
    /// the other way.
    above: u64,
    other_way: u64,
}

impl Images {
    /// A call on a block as it was `before`, with what it answered.
    pub fn note(&mut self, call: &Call, before: &[u8], number: u32, slip: &[u8]) {
        let (Call::Find(query) | Call::Allocate(query)) = call else {
            return;
        };
        let allocate = call.command() == Command::Allocate;
        let board = Board::read(before).expect("a search has taken it for good");
        let bottom_up = board.direction == Direction::BottomUp;
        // Where there was no room the address is the one that find gives.
        let found = match number {
            number::DONE => Some((get_u64(slip, 0), get_u64(slip, 8))),
            number::TABLE_FULL => place(before, query),
            _ => None,
        };
        let holds = sides(&board, query, number, found, || {
            let mut without = before.to_vec();
            put_u64(&mut without, IMAGE_END_AT, NO_IMAGE);
            place(&without, query).expect("an image end takes no address away")
        });
        let met = &mut self.met[usize::from(allocate)][usize::from(bottom_up)];
        for (count, holds) in met.iter_mut().zip(holds) {
            *count += u64::from(holds);
        }
        if let Some((a, _)) = found {
            let above = a >= board.image_end;
            let set = u128::from(board.image_end) > start(query);
            self.above += u64::from(bottom_up && set && above);
            self.other_way += u64::from(bottom_up && !above);
        }
    }

    /// How often the sides were met, or which were not.
    pub fn told(&self) -> Result<String, String> {
        let mut counts = Vec::new();
        let mut never = Vec::new();
        for (allocate, whose) in [(false, "find"), (true, "allocate")] {
            for (bottom_up, way) in [(false, "top-down"), (true, "bottom-up")] {
                let met = &self.met[usize::from(allocate)][usize::from(bottom_up)];
                for (side, &count) in met.iter().enumerate() {
                    if !can_be(allocate, bottom_up, side) {
                        continue;
                    }
                    counts.push(count);
                    if count == 0 {
                        never.push(format!("{whose}, {way}: {}", SIDES[side]));
                    }
                }
            }
        }
        if !never.is_empty() {
            return Err(format!("never met: {}", never.join("; ")));
        }
        Ok(format!(
            "{} sides of the image end, each met {} times at least; bottom-up an image end above \
             the window's start was answered at or above it {} times and the other way {} times",
            counts.len(),
            counts.iter().min().expect("there are sides"),
            self.above,
            self.other_way
        ))
    }
}

/// The window's start.
fn start(query: &Query) -> u128 {
    LOWEST_START.max(query.start.into())
}

/// What find gives: the address and the end of its run.
fn place(block: &[u8], query: &Query) -> Option<(u64, u64)> {
    let mut slip = [0; SLIP_LEN];
    let number = model::find(block, query, &mut slip);
    (number == number::DONE).then(|| (get_u64(&slip, 0), get_u64(&slip, 8)))
}

/// Which sides a search was on; `without` gives what it finds without an image.
fn sides(
    board: &Board,
    query: &Query,
    number: u32,
    found: Option<(u64, u64)>,
    without: impl FnOnce() -> (u64, u64),
) -> [bool; SIDES.len()] {
    let image_end = board.image_end;
    let bottom_up = board.direction == Direction::BottomUp;
    let start = start(query);
    let end = match query.end {
        0 => board.limit,
        named => named.min(board.limit),
    };
    let end = start.max(end.into());
    let image = u128::from(image_end);
    let set = image_end != NO_IMAGE;
    let mut holds = [false; SIDES.len()];
    let Some((a, run_end)) = found else {
        holds[NONE..OTHERS].copy_from_slice(&[
            set && image <= start,
            start < image && image < end,
            set && image >= end,
        ]);
        return holds;
    };
    let above = a >= image_end;
    if number == number::TABLE_FULL {
        holds[NO_ROOM..].copy_from_slice(&[bottom_up && set && above, bottom_up && !above]);
        return holds;
    }
    let begins = board
        .free_runs()
        .into_iter()
        .find(|run| run.hi == run_end.into())
        .expect("the run that was given")
        .lo;
    let range_end = a + query.size;
    holds[..NONE].copy_from_slice(&[
        !set,
        set && image <= start,
        set && image < begins,
        set && image == begins,
        set && image_end == a,
        begins < image && image_end < a,
        a < image_end && image_end < range_end,
        image_end == range_end,
        range_end < image_end && image_end < run_end,
        image_end == run_end,
        image_end > run_end,
        image_end == u64::MAX,
        image == end,
        image > end,
        set && image_end == board.limit,
        image_end > board.limit,
    ]);
    if bottom_up && image > start {
        let (lowest, its_end) = without();
        holds[OTHERS..NO_ROOM].copy_from_slice(&[
            above && a != lowest,
            !above && a != lowest,
            !above && run_end != its_end,
        ]);
    }
    holds
}

/// Searches around the image end, both ways: it is put beside or into a free run, and
/// an address asked for that this run can give, whole or above the image end, or just not.
pub fn around(desk: &mut Desk, rng: &mut Rng, near: &Near, block: &[u8]) {
    let board = Board::read(block).expect("a good block");
    let runs = board.free_runs();
    if runs.is_empty() {
        return;
    }
    let run = runs[rng.index(runs.len())];
    let (lo, hi) = (run.lo as u64, run.hi as u64);
    let inside = |rng: &mut Rng| lo + rng.below(hi - lo);
    let end = match rng.below(8) {
        0 | 1 => rng.beside(lo),
        2 | 3 => rng.beside(hi),
        4..=6 => inside(rng),
        _ => u64::MAX,
    };
    let (start, window_end) = match rng.below(5) {
        0 => (0, 0),
        1 => (lo, hi),
        2 => (lo, rng.beside(end)),
        3 => (rng.beside(end), 0),
        _ => {
            let start = inside(rng);
            (start, start + 1 + rng.below(hi - start))
        }
    };
    let size = match rng.below(6) {
        0 => hi - lo,
        1 | 2 if lo < end && end < hi => hi - end + rng.below(2),
        3 => 1 + rng.below(hi - lo),
        _ => 1 + rng.below((hi - lo).min(8)),
    };
    let query = Query {
        size,
        alignment: match rng.below(4) {
            0 => 1 << rng.below(13),
            _ => 1,
        },
        start,
        end: window_end,
        node: rng.pick(&[ANY_NODE, ANY_NODE, run.tag.node]),
        wish: match rng.below(2) {
            0 => near.wish(rng, 0),
            _ => WISH_HOTPLUG,
        },
    };
    let limit = rng.pick(&[u64::MAX, u64::MAX, board.limit]);
    let mut block = block.to_vec();
    desk.call(&Call::SetImageEnd { end }, &mut block, &mut []);
    for direction in [0, 1] {
        desk.call(&Call::Set { limit, direction }, &mut block, &mut []);
        for call in [Call::Find(query), Call::Allocate(query)] {
            desk.call(&call, &mut block.clone(), &mut slip(rng, 0));
        }
    }
}

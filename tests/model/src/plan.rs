//! A placement plan, since request E12: lines that each propose an address.

use crate::layout::number::*;
use crate::layout::*;
use crate::{asked_for, good, step, window, Board, Query, Run};

/// What a line asks for and the address that it proposes.
#[derive(Clone, Copy, Debug, PartialEq, Eq, Hash)]
pub struct Line {
    pub size: u64,
    pub align: u64,
    pub start: u64,
    pub end: u64,
    pub node: u32,
    pub wish: u32,
    pub at: u64,
}

impl Line {
    /// What find would be asked for.
    pub fn query(&self) -> Query {
        Query {
            size: self.size,
            alignment: self.align,
            start: self.start,
            end: self.end,
            node: self.node,
            wish: self.wish,
        }
    }

    /// The addresses of the line, as whole numbers.
    pub fn range(&self) -> (u128, u128) {
        let lo = u128::from(self.at);
        (lo, lo + u128::from(self.size))
    }
}

/// Reserves all lines at once, or tells what is wrong: the number, and the index of the
/// first line at fault, which is 0 where no line is.
pub fn plan(block: &mut [u8], lines: &[Line]) -> (u32, u32) {
    let after = good(block).map_err(without).and_then(|mut board| {
        if lines.len() > PLAN_LINES {
            return Err(without(LONG_PLAN));
        }
        let runs = board.free_runs();
        // What the lines before have for themselves; the board stays as it is lent.
        let mut planned = crate::Line::all(false);
        for (index, line) in lines.iter().enumerate() {
            let (lo, hi) = line.range();
            if !stands(&board, &runs, line) || !planned.is_all(lo, hi, false) {
                return Err((BAD_PLAN, index as u32));
            }
            planned.paint(lo, hi, |_| true);
        }
        // Only the finished list counts.
        board.taken = board
            .taken
            .join(&planned, |taken, planned| taken || planned);
        board.write().map_err(without)
    });
    match after {
        Ok(bytes) => {
            block.copy_from_slice(&bytes);
            without(DONE)
        }
        Err(told) => told,
    }
}

/// A number that speaks of no line.
fn without(number: u32) -> (u32, u32) {
    (number, 0)
}

/// Whether a line, by itself, passes the checks of find and proposes an address that is
/// eligible; `runs` are the board's free ones.
fn stands(board: &Board, runs: &[Run], line: &Line) -> bool {
    let query = line.query();
    let (Ok(wanted), Ok(step)) = (asked_for(query.node, query.wish), step(query.alignment)) else {
        return false;
    };
    let (start, end) = window(board, &query);
    let (lo, hi) = line.range();
    let holds = |run: &Run| run.lo <= lo && hi <= run.hi;
    let eligible = lo.is_multiple_of(step)
        && start <= lo
        && hi <= end
        && runs.iter().any(|run| holds(run) && wanted(run));
    query.size > 0 && eligible
}

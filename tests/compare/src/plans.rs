//! Request E12: plans by both functions, on blocks of every kind.

use crate::blocks::{self, Damage, Draft, Rec};
use crate::call::{Call, Command};
use crate::desk::Desk;
use crate::plan_lines::{some_block, Maker};
use crate::rng::Rng;
use model::layout::*;
use model::plan::Line;
use model::Board;
use std::sync::Arc;

/// The columns of a plan as they are lent, with the bytes of one number in each.
pub const COLUMNS: [(&str, usize); 7] = [
    ("sizes", 8),
    ("alignments", 8),
    ("starts", 8),
    ("ends", 8),
    ("nodes", 4),
    ("wishes", 4),
    ("addresses", 8),
];

/// The numbers of a plan's lines, column by column.
#[derive(Clone, Debug, PartialEq, Eq, Hash)]
pub struct Columns([Arc<[u8]>; COLUMNS.len()]);

impl Columns {
    pub fn of(lines: &[Line]) -> Columns {
        Columns::longer(lines, [0; COLUMNS.len()])
    }

    /// With so many numbers more behind the last line in each column.
    pub fn longer(lines: &[Line], more: [usize; COLUMNS.len()]) -> Columns {
        let last = lines.last().copied().unwrap_or(Line {
            size: 1,
            align: 1,
            start: 0,
            end: 0,
            node: ANY_NODE,
            wish: 0,
            at: LOWEST_START as u64,
        });
        Columns(std::array::from_fn(|i| {
            let number = |line: &Line| match i {
                0 => line.size.to_le_bytes().to_vec(),
                1 => line.align.to_le_bytes().to_vec(),
                2 => line.start.to_le_bytes().to_vec(),
                3 => line.end.to_le_bytes().to_vec(),
                4 => line.node.to_le_bytes().to_vec(),
                5 => line.wish.to_le_bytes().to_vec(),
                _ => line.at.to_le_bytes().to_vec(),
            };
            let more = std::iter::repeat_n(&last, more[i]);
            let bytes: Vec<u8> = lines.iter().chain(more).flat_map(number).collect();
            bytes.into()
        }))
    }

    /// As many lines as the shortest column has.
    pub fn lines(&self) -> Vec<Line> {
        let shortest = self.lengths().into_iter().min().expect("there are columns");
        let long = |column: usize, i: usize| blocks::get_u64(&self.0[column], 8 * i);
        let word = |column: usize, i: usize| blocks::get_u32(&self.0[column], 4 * i);
        (0..shortest)
            .map(|i| Line {
                size: long(0, i),
                align: long(1, i),
                start: long(2, i),
                end: long(3, i),
                node: word(4, i),
                wish: word(5, i),
                at: long(6, i),
            })
            .collect()
    }

    pub fn lengths(&self) -> [usize; COLUMNS.len()] {
        std::array::from_fn(|i| self.0[i].len() / COLUMNS[i].1)
    }

    /// The bytes of one number.
    pub fn width(&self, column: usize) -> usize {
        COLUMNS[column].1
    }

    pub fn sources(&self) -> Vec<(&'static str, &Arc<[u8]>)> {
        let names = COLUMNS.iter().map(|column| column.0);
        names.zip(&self.0).collect()
    }
}

/// The lines of a plan, in words.
pub fn described(columns: &Columns) -> String {
    let mut text = format!("  numbers in the columns: {:?}\n", columns.lengths());
    for (i, line) in columns.lines().iter().enumerate() {
        text += &format!(
            "  line {i}: {:#x} to {:#x}, alignment {:#x}, start {:#x}, end {:#x}, node {:#x}, wish {}\n",
            line.at,
            line.range().1,
            line.align,
            line.start,
            line.end,
            line.node,
            line.wish
        );
    }
    text
}

/// A plan of these lines by both functions, each on a block of its own; what both left.
pub fn on_both(desk: &mut Desk, block: &[u8], columns: Columns) -> (u32, u32, Vec<u8>) {
    let columns = Arc::new(columns);
    let [one, other] = Command::PLANS.map(|command| {
        let columns = columns.clone();
        let mut block = block.to_vec();
        let number = desk.call(&Call::Plan { command, columns }, &mut block, &mut []);
        (number, desk.index, block)
    });
    if one != other {
        desk.fail("the plan by lines is answered otherwise than the plan by numbers");
    }
    one
}

/// The columns of a plan, some of them often longer than the others.
fn some_columns(rng: &mut Rng, lines: &[Line]) -> Columns {
    if !rng.one_in(3) {
        return Columns::of(lines);
    }
    let mut more = [0; COLUMNS.len()].map(|_| match rng.below(3) {
        0 => 0,
        1 => 1 + rng.index(3),
        _ => rng.index(PLAN_LINES + 8),
    });
    more[rng.index(COLUMNS.len())] = 0;
    if !rng.one_in(4) {
        // One alone is the shortest.
        let which = rng.index(COLUMNS.len());
        more = more.map(|more| more + 1);
        more[which] = 0;
    }
    Columns::longer(lines, more)
}

/// What a plan must come to on a good block, by finds and by the records: an address is eligible
/// if it lies in the line's window and find gives it for a window that is the line's range.
fn predicted(desk: &mut Desk, block: &[u8], lines: &[Line]) -> (u32, u32, Vec<u8>) {
    let lent = |number: u32, index: usize| (number, index as u32, block.to_vec());
    if lines.len() > PLAN_LINES {
        return lent(number::LONG_PLAN, 0);
    }
    for (index, line) in lines.iter().enumerate() {
        let (lo, hi) = line.range();
        let shares = |other: &Line| lo < other.range().1 && other.range().0 < hi;
        let outside = line.at < line.start || line.end != 0 && hi > line.end.into();
        let mut stands = || {
            let mut query = line.query();
            (query.start, query.end) = (line.at, u64::try_from(hi).ok()?);
            let mut slip = vec![0xEE; SLIP_LEN];
            let number = desk.call(&Call::Find(query), &mut block.to_vec(), &mut slip);
            (number == number::DONE && blocks::get_u64(&slip, 0) == line.at).then_some(())
        };
        if outside || stands().is_none() || lines[..index].iter().any(shares) {
            return lent(number::BAD_PLAN, index);
        }
    }
    let ranges = lines.iter().map(|line| (line.at, line.at + line.size));
    let mut taken: Vec<(u64, u64)> = (blocks::read_recs(block, &TAKEN).iter())
        .map(|rec| (rec.base, rec.end()))
        .chain(ranges)
        .collect();
    taken.sort();
    taken.dedup_by(|next, last| {
        let joined = next.0 == last.1;
        if joined {
            last.1 = next.1;
        }
        joined
    });
    if taken.len() > TAKEN.capacity {
        return lent(number::TABLE_FULL, 0);
    }
    let mut after = block.to_vec();
    after[TAKEN.offset..].fill(0);
    let mut total = 0;
    for (i, &(lo, hi)) in taken.iter().enumerate() {
        let rec = Rec {
            base: lo,
            size: hi - lo,
            flags: 0,
            node: 0,
        };
        blocks::put_rec(&mut after, TAKEN.offset + i * RECORD_LEN, &rec);
        total += rec.size;
    }
    blocks::put_u32(&mut after, TAKEN.entry + 8, taken.len() as u32);
    blocks::put_u64(&mut after, TAKEN.total_at, total);
    (number::DONE, 0, after)
}

/// What was planned.
#[derive(Default)]
pub struct Tally {
    /// Blocks by the damage done to them, and those of another length.
    pub damaged: Vec<u64>,
    pub lengths: u64,
    /// Plans held against finds and the records.
    pub predicted: u64,
    /// Plans that are accepted, and their lines; that are not by number 13, 14 and 6.
    pub accepted: u64,
    pub lines: u64,
    pub at_fault: u64,
    pub long: u64,
    pub full: u64,
}

/// Plans until the desk has made `until` calls and met each kind of damage.
pub fn run(desk: &mut Desk, until: u64) -> Tally {
    let kinds = Damage::all();
    let mut tally = Tally {
        damaged: vec![0; kinds.len()],
        ..Tally::default()
    };
    while desk.calls < until || tally.damaged.contains(&0) {
        desk.turn += 1;
        let mut rng = Rng::new(desk.seed, desk.part, desk.turn);
        let rng = &mut rng;
        let draft = some_block(rng);
        let good = draft.bytes();
        let Some(board) = Board::read(&good) else {
            desk.fail("the model takes a block to plan on for a bad one");
        };
        if desk.turn.is_multiple_of(8) {
            let lines = Maker::of(&board, &good).plan(rng, draft.taken.len());
            on_another(desk, rng, draft, &lines, &kinds, &mut tally);
            continue;
        }
        let mut block = good;
        for _ in 0..4 {
            let Some(board) = Board::read(&block) else {
                desk.fail("a plan leaves a block that is not good");
            };
            let taken = blocks::read_recs(&block, &TAKEN).len();
            let lines = Maker::of(&board, &block).plan(rng, taken);
            let columns = some_columns(rng, &lines);
            let got = on_both(desk, &block, columns.clone());
            if rng.one_in(10) || desk.without_model {
                let wanted = predicted(desk, &block, &lines);
                if got != wanted {
                    desk.fail(&format!(
                        "a plan gives {} and index {}, finds and records say {} and {}, or \
                         another block\n{}",
                        got.0,
                        got.1,
                        wanted.0,
                        wanted.1,
                        described(&columns)
                    ));
                }
                tally.predicted += 1;
            }
            let (number, _, after) = got;
            match number {
                number::DONE => {
                    tally.accepted += 1;
                    tally.lines += lines.len() as u64;
                }
                number::BAD_PLAN => tally.at_fault += 1,
                number::LONG_PLAN => tally.long += 1,
                _ => tally.full += 1,
            }
            // The same again, and on from there.
            if number == number::DONE && rng.one_in(3) {
                on_both(desk, &after, Columns::of(&lines));
                block = after;
            }
        }
    }
    tally
}

/// A plan on a block that was damaged, or is of another length.
fn on_another(
    desk: &mut Desk,
    rng: &mut Rng,
    draft: Draft,
    lines: &[Line],
    kinds: &[Damage],
    tally: &mut Tally,
) {
    let long = lines.iter().copied().cycle().take(PLAN_LINES + 1);
    let columns = match rng.one_in(6) && !lines.is_empty() {
        true => Columns::of(&long.collect::<Vec<Line>>()),
        false => some_columns(rng, lines),
    };
    if rng.one_in(4) {
        let mut block = draft.bytes();
        let length = match rng.below(3) {
            0 => rng.pick(&[
                0,
                1,
                79,
                80,
                BLOCK_LEN - 1,
                BLOCK_LEN + 1,
                EDITION_1.length(),
            ]),
            _ => rng.index(2 * BLOCK_LEN),
        };
        block.resize(length, 0);
        let (number, index, after) = on_both(desk, &block, columns);
        if length != BLOCK_LEN && (number, index, &after) != (number::NOT_GOOD, 0, &block) {
            desk.fail(&format!(
                "a plan gives {number} and {index} on {length} bytes"
            ));
        }
        tally.lengths += 1;
        return;
    }
    // Each in turn, until all have been met.
    let which = match tally.damaged.iter().position(|&count| count == 0) {
        Some(which) => which,
        None => rng.index(kinds.len()),
    };
    let block = kinds[which].done_to(rng, draft);
    let good = Board::read(&block).is_some();
    let (number, index, after) = on_both(desk, &block, columns);
    if !good && (number, index, &after) != (number::NOT_GOOD, 0, &block) {
        desk.fail(&format!("a plan gives {number} and {index} on a bad block"));
    }
    tally.damaged[which] += 1;
}

//! Blocks to plan on and lines for them, most of them right or nearly so.

use crate::blocks::{self, Draft, Rec};
use crate::call::{Call, Command};
use crate::numbers::Near;
use crate::rng::Rng;
use model::layout::*;
use model::plan::Line;
use model::{Board, Run, Tag};

/// A good block whose taken table is full, or nearly so: records of a few units with gaps of a
/// few between them, most of it memory.
fn comb(rng: &mut Rng) -> Draft {
    let count = TAKEN.capacity - rng.index(8);
    let unit = rng.pick(&[1, 1, 16, 4096]);
    let mut taken = Vec::with_capacity(count);
    let mut at = rng.below(4) * unit;
    for _ in 0..count {
        at += (1 + rng.below(6)) * unit;
        let size = (1 + rng.below(3)) * unit;
        taken.push(Rec {
            base: at,
            size,
            flags: 0,
            node: 0,
        });
        at += size;
    }
    at += rng.below(8) * unit;
    // Memory all over, in a few parts of different tags.
    let mut memory: Vec<Rec> = Vec::new();
    let parts = 1 + rng.below(4);
    let mut from = 0;
    for part in 1..=parts {
        let to = if part == parts {
            at
        } else {
            from + (at - from) / 2
        };
        let flags = rng.pick(&[0, 0, HOTPLUG, MIRROR, HOTPLUG + MIRROR, NO_MAP]);
        memory.push(Rec {
            base: from,
            size: to - from,
            flags,
            node: part as u32,
        });
        from = to;
    }
    let up = match rng.below(4) {
        0 => rng.pick(&[0, 4096 - 8 * unit.min(512)]),
        1 => u64::MAX - at,
        _ => rng.pick(&[0x10000, 1 << 40]),
    };
    for rec in memory.iter_mut().chain(&mut taken) {
        rec.base += up;
    }
    let image_end = rng.pick(&[NO_IMAGE, up + at / 2, u64::MAX]);
    Draft {
        layout: &CURRENT,
        memory,
        taken,
        limit: u64::MAX,
        direction: rng.below(2) as u32,
        image_end,
    }
}

/// A block to plan on, often with the limit or the image end in a free run.
pub fn some_block(rng: &mut Rng) -> Draft {
    let mut draft = some_tables(rng);
    let runs = Board::read(&draft.bytes()).map_or(Vec::new(), |board| board.free_runs());
    let inside = |rng: &mut Rng| {
        let run = rng.pick(&runs[runs.len() / 2..]);
        run.lo as u64 + 1 + rng.below((run.hi - run.lo) as u64)
    };
    if !runs.is_empty() && rng.one_in(3) {
        draft.limit = inside(rng);
    }
    if !runs.is_empty() && rng.one_in(3) {
        draft.image_end = inside(rng);
    }
    draft
}

fn some_tables(rng: &mut Rng) -> Draft {
    match rng.below(8) {
        0 => blocks::some_good(rng, &CURRENT),
        1..=3 => comb(rng),
        _ => {
            let (memory, taken) = (1 + rng.index(8), rng.index(6));
            let mut draft = blocks::good(rng, &CURRENT, memory, taken);
            // Memory that one line or another may have.
            for rec in &mut draft.memory {
                if rec.flags & NO_MAP != 0 && rng.one_in(2) {
                    rec.flags -= NO_MAP;
                }
            }
            let same = |two: &[Rec]| {
                two[0].end() == two[1].base
                    && (two[0].flags, two[0].node) == (two[1].flags, two[1].node)
            };
            for i in 1..draft.memory.len() {
                if same(&draft.memory[i - 1..=i]) {
                    draft.memory[i].node = (draft.memory[i].node + 7) % NODES;
                }
            }
            draft
        }
    }
}

/// What lines are made from.
pub struct Maker<'a> {
    board: &'a Board,
    near: Near,
    runs: Vec<Run>,
    /// Parts of free runs that lie in the widest window and that no line has yet.
    left: Vec<(u64, u64, Tag)>,
}

/// Which part of what is left a line gets.
#[derive(Clone, Copy)]
enum Of {
    Whole,
    Front,
    Back,
    Inside,
}

impl<'a> Maker<'a> {
    pub fn of(board: &'a Board, block: &[u8]) -> Maker<'a> {
        let runs = board.free_runs();
        let mut left = Vec::new();
        for run in &runs {
            let (lo, hi) = (run.lo.max(LOWEST_START), run.hi.min(board.limit.into()));
            if lo < hi {
                left.push((lo as u64, hi as u64, run.tag));
            }
        }
        Maker {
            board,
            near: Near::to(block),
            runs,
            left,
        }
    }

    fn run_at(&self, address: u64) -> Option<Run> {
        let x = u128::from(address);
        self.runs
            .iter()
            .copied()
            .find(|run| run.lo <= x && x < run.hi)
    }

    /// A line that stands by itself, with this range in a run of this tag.
    fn line(&self, rng: &mut Rng, lo: u64, hi: u64, tag: Tag) -> Line {
        let shift = u64::from(lo.trailing_zeros().min(63)) + 1;
        let hotplug = tag.hotplug || rng.one_in(2);
        let mirror = tag.mirror && rng.one_in(2);
        let limit = self.board.limit;
        Line {
            size: hi - lo,
            align: 1
                << match rng.below(4) {
                    0 | 1 => 0,
                    2 => shift - 1,
                    _ => rng.below(shift),
                },
            start: match rng.below(6) {
                0..=2 => 0,
                3 => lo,
                4 => lo - 1,
                _ => rng.below(lo),
            },
            end: match rng.below(8) {
                0..=2 => 0,
                3 | 4 => hi,
                5 => hi.saturating_add(1),
                6 => rng.pick(&[limit, limit.saturating_add(1), u64::MAX]),
                _ => hi + rng.below((u64::MAX - hi).clamp(1, 0x10000)),
            },
            node: if rng.one_in(2) { tag.node } else { ANY_NODE },
            wish: WISH_HOTPLUG * u32::from(hotplug) + WISH_MIRROR * u32::from(mirror),
            at: lo,
        }
    }

    /// A line of what is left, which it has then.
    fn next(&mut self, rng: &mut Rng, of: Of) -> Option<Line> {
        let inside = matches!(of, Of::Inside);
        let fits: Vec<usize> = (0..self.left.len())
            .filter(|&i| !inside || self.left[i].1 - self.left[i].0 > 2)
            .collect();
        if fits.is_empty() {
            return None;
        }
        // Often where the last one was, so that lines touch.
        let which = match fits.last() {
            Some(&last) if rng.one_in(3) => last,
            _ => rng.pick(&fits),
        };
        let (lo, hi, tag) = self.left.remove(which);
        let room = hi - lo;
        let small = rng.pick(&[1, 2, 16, 0x1000, u64::MAX]);
        let size = 1 + rng.below(room.min(small));
        let (from, to) = match of {
            Of::Whole => (lo, hi),
            Of::Front => (lo, lo + size),
            Of::Back => (hi - size, hi),
            Of::Inside => {
                let from = lo + 1 + rng.below((room - 2).min(small));
                (from, from + 1 + rng.below((hi - 1 - from).min(small)))
            }
        };
        for (lo, hi) in [(lo, from), (to, hi)] {
            if lo < hi {
                self.left.push((lo, hi, tag));
            }
        }
        Some(self.line(rng, from, to, tag))
    }

    /// So many lines that can be accepted together, if there are.
    fn right(&mut self, rng: &mut Rng, count: usize) -> Vec<Line> {
        let mut lines = Vec::with_capacity(count);
        for _ in 0..count {
            let of = rng.pick(&[Of::Front, Of::Front, Of::Back, Of::Inside, Of::Inside]);
            let of = if rng.one_in(10) { Of::Whole } else { of };
            lines.extend(self.next(rng, of));
        }
        match rng.below(8) {
            0 => lines.sort_by_key(|line| line.at),
            1 => lines.sort_by_key(|line| u64::MAX - line.at),
            _ => rng.shuffle(&mut lines),
        }
        lines
    }

    /// Lines that join records and lines that stand apart, for a finished list of about as many
    /// records as there is room for.
    fn joining(&mut self, rng: &mut Rng, taken: usize) -> Vec<Line> {
        if taken == TAKEN.capacity && rng.one_in(5) {
            return self.next(rng, Of::Inside).into_iter().collect();
        }
        let wanted = TAKEN.capacity + rng.pick(&[0, 0, 0, 1, 1, 2]) - rng.pick(&[0, 0, 1]);
        let more = wanted.saturating_sub(taken);
        let joined = rng.index(12);
        let mut apart: Vec<Line> = (0..(more + joined).min(40))
            .filter_map(|_| self.next(rng, Of::Inside))
            .collect();
        let mut others: Vec<Line> = (0..joined)
            .filter_map(|_| self.next(rng, Of::Whole))
            .collect();
        if rng.one_in(3) {
            let of = rng.pick(&[Of::Front, Of::Back]);
            others.extend(self.next(rng, of));
        }
        match rng.below(4) {
            0 => {
                apart.append(&mut others);
                apart
            }
            1 => {
                others.append(&mut apart);
                others
            }
            _ => {
                apart.append(&mut others);
                rng.shuffle(&mut apart);
                apart
            }
        }
    }

    /// A line that shares addresses with another, and stands by itself if it can.
    fn sharing(&self, rng: &mut Rng, other: &Line) -> Line {
        let (lo, hi) = (other.at, other.at.saturating_add(other.size));
        let Some(run) = self.run_at(lo) else {
            return *other;
        };
        let (first, past) = match self.left_of(&run) {
            Some(part) if lo < hi => part,
            _ => return *other,
        };
        let few = |rng: &mut Rng| rng.below(4);
        let (from, to) = match rng.below(8) {
            0 => (lo, hi),
            1 | 2 => (hi - 1, hi.saturating_add(few(rng))),
            3 | 4 => (lo.saturating_sub(few(rng)), lo + 1),
            5 => {
                let from = lo + rng.below(hi - lo);
                (from, from + 1 + rng.below(hi - from))
            }
            6 => (
                lo.saturating_sub(1 + few(rng)),
                hi.saturating_add(1 + few(rng)),
            ),
            _ => (lo, hi.saturating_add(few(rng))),
        };
        let (from, to) = (from.max(first), to.min(past));
        match from < to {
            true => self.line(rng, from, to, run.tag),
            false => *other,
        }
    }

    /// The part of a run that the widest window has.
    fn left_of(&self, run: &Run) -> Option<(u64, u64)> {
        let (lo, hi) = (
            run.lo.max(LOWEST_START),
            run.hi.min(self.board.limit.into()),
        );
        (lo < hi).then_some((lo as u64, hi as u64))
    }

    /// A line that is wrong in where it lies or in what memory that is, if the board has such
    /// places.
    fn misplaced(&self, rng: &mut Rng) -> Option<Line> {
        let board = self.board;
        let limit = u128::from(board.limit);
        let some = |rng: &mut Rng, of: &dyn Fn(&Run) -> bool| {
            let fit: Vec<Run> = self.runs.iter().copied().filter(|run| of(run)).collect();
            (!fit.is_empty()).then(|| rng.pick(&fit))
        };
        // The last few addresses of a run in the window, and some behind it.
        let over = |rng: &mut Rng, run: Run, more: u64| {
            let room = run.hi - run.lo.max(LOWEST_START);
            let from = run.hi as u64 - 1 - rng.below((room as u64).min(4));
            let mut line = self.line(rng, from, run.hi as u64, run.tag);
            line.size = line.size.saturating_add(more);
            line.end = rng.pick(&[0, 0, u64::MAX]);
            line
        };
        let usable = |run: &Run| run.hi > LOWEST_START && run.lo < limit && run.hi <= limit;
        let one = 1 + rng.below(2);
        match rng.below(16) {
            // Over the limit, with no end named, or one above it.
            0 | 1 => {
                let run = some(rng, &|run| {
                    run.lo.max(LOWEST_START) < limit && limit < run.hi
                })?;
                let from = limit - 1 - u128::from(rng.below(4));
                let from = from.max(run.lo.max(LOWEST_START)) as u64;
                let mut line = self.line(rng, from, limit as u64 + 1, run.tag);
                line.end = rng.pick(&[0, limit as u64 + 1, u64::MAX]);
                Some(line)
            }
            2..=4 => {
                let run = some(rng, &|run| run.lo < LOWEST_START && run.lo < limit)?;
                let last = run.hi.min(LOWEST_START).min(limit) as u64 - 1;
                let from = last - rng.below((last - run.lo as u64 + 1).min(3));
                if from == 0 {
                    return None;
                }
                let to = (from + one).min(run.hi.min(limit) as u64);
                let mut line = self.line(rng, from, to, run.tag);
                line.start = rng.pick(&[0, from]);
                Some(line)
            }
            // On into another tag.
            5 | 6 => {
                let touched = |run: &Run| self.runs.iter().any(|next| next.lo == run.hi);
                let run = some(rng, &|run| usable(run) && touched(run) && run.hi < limit)?;
                Some(over(rng, run, 1))
            }
            7 => {
                let run = some(rng, &|run| usable(run) && run.hi < limit)?;
                Some(over(rng, run, one))
            }
            // On where no memory is, or there alone.
            8 | 9 => {
                let none = |x: u128| board.memory.at(x).is_none() && !board.taken.at(x);
                let run = some(rng, &|run| {
                    usable(run) && run.hi + 1 < limit && none(run.hi)
                })?;
                let mut line = over(rng, run, 1);
                if rng.one_in(2) {
                    line = self.line(rng, run.hi as u64, run.hi as u64 + 1, run.tag);
                }
                Some(line)
            }
            10 | 11 => {
                let run = some(rng, &|run| usable(run) && run.hi == TOP)?;
                let more = rng.pick(&[1, 1, 2, 1 << 40]);
                Some(over(rng, run, more))
            }
            // In what is taken or in no-map memory.
            12 | 13 => {
                let taken = rng.one_in(3);
                let other = |tag: Tag, is: bool| is == taken && (is || tag.no_map);
                let others: Vec<(u128, u128, Tag)> = (board.memory)
                    .join(&board.taken, |tag, is| tag.filter(|tag| other(*tag, is)))
                    .stretches()
                    .filter_map(|(lo, hi, tag)| Some((lo.max(LOWEST_START), hi.min(limit), tag?)))
                    .filter(|(lo, hi, _)| lo < hi)
                    .collect();
                if others.is_empty() {
                    return None;
                }
                let (lo, hi, tag) = rng.pick(&others);
                let from = rng.pick(&[lo, hi - 1]);
                let to = hi.min(from + u128::from(one));
                Some(self.line(rng, from as u64, to as u64, tag))
            }
            14 => {
                let run = some(rng, &|run| usable(run) && run.tag.hotplug)?;
                let mut line = over(rng, run, 0);
                line.wish = rng.pick(&[0, WISH_MIRROR * u32::from(run.tag.mirror)]);
                Some(line)
            }
            _ => {
                let run = some(rng, &|run| usable(run) && !run.tag.mirror)?;
                let mut line = over(rng, run, 0);
                line.wish = WISH_MIRROR + WISH_HOTPLUG * u32::from(run.tag.hotplug);
                Some(line)
            }
        }
    }

    /// A line that is most often wrong in one thing, made from one that is right.
    fn spoilt(&self, rng: &mut Rng, line: Line) -> Line {
        if rng.percent(60) {
            if let Some(bad) = (0..4).find_map(|_| self.misplaced(rng)) {
                return bad;
            }
        }
        let mut bad = line;
        let (lo, hi) = (line.at, line.at.saturating_add(line.size));
        match rng.below(25) {
            0 | 1 => bad.size = 0,
            2 => bad.node = self.near.search_node(rng, 100),
            3 => bad.wish = self.near.wish(rng, 100),
            4 => bad.align = self.near.alignment(rng, 100),
            // One that divides the address, most often no power of two.
            5 => bad.align = lo >> rng.below(u64::from(lo.trailing_zeros().min(63)) + 1),
            6 | 7 => bad.align = 1u64.checked_shl(lo.trailing_zeros() + 1).unwrap_or(1 << 63),
            8 => bad.at = lo.wrapping_add(1),
            9 => bad.at = lo.wrapping_sub(1),
            10 => bad.start = hi - rng.below(line.size.max(1)),
            11 => bad.start = lo.wrapping_add(1),
            12 | 13 => bad.end = hi.wrapping_sub(1).max(1),
            14 => bad.end = rng.pick(&[1, lo, lo.wrapping_add(1), 4096]),
            15 => bad.node = (line.node.min(NODES) + 1 + rng.below(62) as u32) % NODES,
            16 => bad.wish = rng.below(4) as u32,
            17 => bad.size = line.size.wrapping_add(1),
            // One address before the run.
            18 => {
                if let Some(run) = self.run_at(lo).filter(|run| run.lo > LOWEST_START) {
                    bad = self.line(rng, run.lo as u64, hi, run.tag);
                    (bad.start, bad.align) = (0, 1);
                    bad.at -= 1;
                    bad.size += rng.below(2);
                }
            }
            19 => bad.at = self.near.address(rng),
            20 => bad.size = (u64::MAX - lo).wrapping_add(rng.below(3)).max(1),
            21 => (bad.at, bad.size) = (u64::MAX - rng.below(3), 1 + rng.below(3)),
            _ => {
                if let Call::Find(query) = self.near.call(rng, Command::Find, 10) {
                    bad = Line {
                        size: query.size,
                        align: query.alignment,
                        start: query.start,
                        end: query.end,
                        node: query.node,
                        wish: query.wish,
                        at: match rng.below(2) {
                            0 => lo,
                            _ => self.near.address(rng),
                        },
                    };
                }
            }
        }
        bad
    }

    /// A plan, right or with a line or two that are not.
    pub fn plan(&mut self, rng: &mut Rng, taken: usize) -> Vec<Line> {
        let mut lines = if taken + 16 > TAKEN.capacity && rng.percent(60) {
            self.joining(rng, taken)
        } else {
            let count = match rng.below(32) {
                0 => 0,
                1..=5 => 1,
                6..=16 => 2 + rng.index(4),
                17..=26 => 4 + rng.index(16),
                27..=29 => PLAN_LINES - rng.index(2),
                _ => PLAN_LINES + 1 + rng.index(6),
            };
            self.right(rng, count)
        };
        let faults = match rng.below(16) {
            0..=6 => 0,
            7..=12 => 1,
            _ => 2,
        };
        for _ in 0..faults {
            if lines.is_empty() {
                break;
            }
            let which = match rng.below(4) {
                0 => lines.len() - 1,
                1 | 2 if lines.len() >= PLAN_LINES => lines.len() - 1,
                _ => rng.index(lines.len()),
            };
            let other = lines[rng.index(lines.len())];
            match rng.below(8) {
                0..=2 => lines[which] = self.sharing(rng, &other),
                3 if lines.len() < PLAN_LINES => lines.insert(which, self.sharing(rng, &other)),
                _ => lines[which] = self.spoilt(rng, lines[which]),
            }
        }
        // Now and then more than there may be.
        if !lines.is_empty() && rng.one_in(16) {
            let count = PLAN_LINES + 1 + rng.index(6);
            lines = lines.iter().copied().cycle().take(count).collect();
        }
        lines
    }
}

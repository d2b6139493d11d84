//! Random calls on both sides, to show that they follow the same rules.

use crate::rng::Rng;
use crate::sides::{
    call_both, entry, number, pages_both, Block, Call, Side, Straight, ANY_NODE, HOTPLUG, LENGTH,
    MIRROR, NO_MAP, PAGES, PIECE,
};

/// Where the taken records begin.
const TAKEN_AT: usize = 3152;

/// Makes this many calls; fails at the first difference.
pub fn random_calls<Other: Side>(calls: u64) {
    let mut rng = Rng(1);
    let mut block = Block::fresh();
    let mut seen = [0u64; 13];
    let mut taken_full = false;
    let mut freed = 0u64;
    let (mut above, mut other_way) = (false, false);
    for turn in 0..calls {
        let wide = turn % 4000 < 2000;
        if turn % 2000 == 0 {
            block = Block::fresh();
        }
        if turn % 6000 == 4000 {
            fill_taken::<Other>(&mut block, wide);
        }
        let mut call = random_call(&mut rng, wide);
        if let Call::Free(..) = call {
            call = around_taken(&mut rng, &block, call);
        }
        if rng.between(0, 19) == 0 {
            let mut damaged = damaged(&mut rng, &block);
            seen[call_both::<Other>(call, &mut damaged) as usize] += 1;
        }
        if let Some(from_image_end) = from_image_end(call, &block) {
            above |= from_image_end >= 0;
            other_way |= from_image_end < 0;
        }
        let number = call_both::<Other>(call, &mut block);
        seen[number as usize] += 1;
        if let Call::Reserve(..) | Call::Free(..) | Call::Allocate(..) = call {
            taken_full |= number == straight::TABLE_FULL;
        }
        if let Call::Free(base, size) = call {
            freed += u64::from(number == straight::DONE && base.saturating_add(size) > base);
        }
        if turn % 20 == 0 {
            // An intake trims small ranges away: mostly go on from the block before.
            let report = random_report(&mut rng);
            let call = Call::Intake(&report);
            if rng.between(0, 19) == 0 {
                let mut damaged = damaged(&mut rng, &block);
                seen[call_both::<Other>(call, &mut damaged) as usize] += 1;
            }
            let mut after = block.clone();
            seen[call_both::<Other>(call, &mut after) as usize] += 1;
            if rng.between(0, 9) == 0 {
                block = after;
            }
        }
        if turn % 20 == 10 && Other::TREES {
            let board = random_tree(&mut rng, wide);
            let call = Call::IntakeTree(&board);
            if rng.between(0, 19) == 0 {
                let mut damaged = damaged(&mut rng, &block);
                seen[call_both::<Other>(call, &mut damaged) as usize] += 1;
            }
            let mut after = block.clone();
            seen[call_both::<Other>(call, &mut after) as usize] += 1;
            if rng.between(0, 3) == 0 {
                block = after;
            }
        }
    }
    let looked = if Other::PAIRS {
        pairs::<Other>(&mut rng, calls / 20, &mut seen)
    } else {
        0
    };
    let handed = if Other::PAGES {
        handovers::<Other>(&mut rng, calls / 200)
    } else {
        0
    };
    // 8 needs a slip of another length and is left to the tests; there is no 9.
    let met = |number: usize| seen[number] > 0 || number == 11 && !Other::TREES;
    assert!((0..8).chain(10..13).all(met), "not every number met");
    assert!(taken_full, "the taken table was never full");
    // Of the calls a tenth are frees.
    assert!(
        freed > calls / 40 && seen[straight::NOT_TAKEN as usize] > calls / 40,
        "too few frees done, or refused"
    );
    assert!(
        above && other_way,
        "no search went up from an image end, or none the other way"
    );
    println!(
        "bench: {} random calls on library and {}, all equal",
        seen.iter().sum::<u64>() + looked + handed,
        Other::NAME
    );
}

/// So many intakes of pairs of trees, and as many lookups, how many of which there were.
fn pairs<Other: Side>(rng: &mut Rng, count: u64, seen: &mut [u64; 13]) -> u64 {
    let mut found = [0u64; 12];
    for turn in 0..count {
        let mut other = trees::rng::Rng::new(rng.next(), "equal pairs", 0);
        let shift = shift(turn % 2 == 0);
        let pair = trees::service::some(&mut other, &mut |other| {
            (other.below(4000) << shift, other.below(960))
        });
        let (mut board, mut service) = (pair.board_bytes, pair.service_bytes);
        match rng.between(0, 19) {
            0 => board = trees::broken::damaged(&mut other, board),
            1 => service = trees::broken::damaged(&mut other, service),
            _ => {}
        }
        let mut block = Block::fresh();
        let call = Call::IntakeTrees(&board, &service);
        seen[call_both::<Other>(call, &mut block) as usize] += 1;
        let listing = match rng.between(0, 1) {
            0 => pair.board.listing(),
            _ => pair.service.listing(),
        };
        let (_, path, name) = trees::service::some_aim(&mut other, &listing);
        let call = Call::Lookup(&service, &board, &path, &name);
        found[call_both::<Other>(call, &mut block) as usize] += 1;
    }
    let met = [0, 1, 2, 11].map(|number: usize| found[number]);
    assert!(met.iter().all(|&count| count > 0), "an answer never met");
    count
}

/// Calls for pages of so many boards: in turn from page 0 on, and from any page; how many
/// calls there were.
fn handovers<Other: Side>(rng: &mut Rng, boards: u64) -> u64 {
    let mut calls = 0;
    let mut orders = [0u64; 11];
    let (mut refused, mut ended, mut cut_off, mut inside) = (0, 0, 0, 0);
    for _ in 0..boards {
        let block = board_of_pages::<Other>(rng);
        let mut pieces = Vec::new();
        let mut page = 0;
        let most = rng.between(1, 40) as usize;
        while page != PAGES && pieces.len() < 2000 {
            let room = rng.between(1, most as u64) as usize * PIECE + rng.between(0, 11) as usize;
            let (answer, slip, buffer) = pages_both::<Other>(&block, page, room);
            assert_eq!(answer, straight::DONE);
            let count = number(&slip, 0) as usize;
            for piece in buffer[..count * PIECE].chunks_exact(PIECE) {
                orders[piece[8] as usize] += 1;
                pieces.push((number(piece, 0), piece[8]));
            }
            page = number(&slip, 8);
            cut_off += u64::from(page != PAGES);
            calls += 1;
        }
        ended += u64::from(page == PAGES);
        for _ in 0..10 {
            let mut from = match rng.between(0, 9) {
                0 => rng.next() >> rng.between(0, 63),
                1 => PAGES.saturating_sub(rng.between(0, 4096)),
                _ => rng.between(0, 70_000),
            };
            if let (Some(last), true) = (pieces.len().checked_sub(1), rng.between(0, 1) == 0) {
                let (page, order) = pieces[rng.between(0, last as u64) as usize];
                let into = rng.between(0, (1 << order) - 1);
                from = page + into;
                inside += u64::from(into > 0);
            }
            let room = rng.between(0, 30 * PIECE as u64) as usize;
            let (answer, ..) = match rng.between(0, 9) {
                0 => pages_both::<Other>(&damaged(rng, &block), from, room),
                _ => pages_both::<Other>(&block, from, room),
            };
            refused += u64::from(answer == straight::BAD_BLOCK);
            calls += 1;
        }
    }
    assert!(orders.iter().all(|&count| count > 0), "an order never met");
    let met = [refused, ended, cut_off, inside];
    assert!(
        met.iter().all(|&count| count > boards / 4),
        "too few of {met:?}"
    );
    calls
}

/// Memory of several tags and taken ranges, of some pages each, few or many; some with ends
/// off the page, some at the top.
fn board_of_pages<Other: Side>(rng: &mut Rng) -> Block {
    let mut block = Block::fresh();
    let shift = [10, 12, 16][rng.between(0, 2) as usize];
    let most = [4, 40, 400][rng.between(0, 2) as usize];
    for _ in 0..rng.between(0, most) {
        let ragged = |rng: &mut Rng| match rng.between(0, 3) {
            0 => rng.between(0, 4095),
            _ => 0,
        };
        let mut base = (rng.between(0, 4000) << shift) + ragged(rng);
        let size = (rng.between(0, 200) << shift) + ragged(rng);
        if rng.between(0, 29) == 0 {
            base = u64::MAX - base;
        }
        let call = match rng.between(0, 9) {
            0..=3 => Call::Add(
                base,
                size,
                rng.between(0, 3) as u32,
                rng.between(0, 1) as u32,
            ),
            4 => Call::Mark(base, size / 8, NO_MAP),
            5 => Call::Remove(base, size / 8),
            _ => Call::Reserve(base, size / 16),
        };
        call_both::<Other>(call, &mut block);
    }
    block
}

/// How far above the image end a bottom-up search gives an address, if there is an image.
fn from_image_end(call: Call, block: &Block) -> Option<i128> {
    let image_end = number(&block.0, 72);
    if !matches!(call, Call::Find(..) | Call::Allocate(..)) || block.0[48] == 0 || image_end == 0 {
        return None;
    }
    let mut slip = [0; 16];
    let done = Straight::call(call, &mut block.clone(), &mut slip) == straight::DONE;
    done.then(|| i128::from(number(&slip, 0)) - i128::from(image_end))
}

/// Mostly a free around some taken record: all of it, a part, or one address more.
fn around_taken<'a>(rng: &mut Rng, block: &Block, any: Call<'a>) -> Call<'a> {
    let number = |at: usize| number(&block.0, at);
    let count = number(32) & 0xffff_ffff;
    if count == 0 || rng.between(0, 3) == 0 {
        return any;
    }
    let at = TAKEN_AT + 24 * rng.between(0, count - 1) as usize;
    let (mut base, mut size) = (number(at), number(at + 8));
    if rng.between(0, 1) == 0 {
        let front = rng.between(0, size - 1);
        base += front;
        size -= front;
    }
    match rng.between(0, 5) {
        0 | 1 => size = rng.between(1, size),
        2 => size = size.saturating_add(1),
        3 => (base, size) = (base.saturating_sub(1), size.saturating_add(1)),
        _ => (),
    }
    Call::Free(base, size)
}

/// As many taken records as there may be, where random calls have their ranges.
fn fill_taken<Other: Side>(block: &mut Block, wide: bool) {
    let unit = 1 << shift(wide);
    for record in 0..straight::TAKEN as u64 {
        let call = Call::Reserve(7 * unit * record, unit);
        assert_eq!(call_both::<Other>(call, block), 0);
    }
}

/// The block with one bit turned.
fn damaged(rng: &mut Rng, block: &Block) -> Block {
    let mut damaged = block.clone();
    let at = if rng.between(0, 1) == 0 {
        79
    } else {
        LENGTH - 1
    };
    damaged.0[rng.between(0, at as u64) as usize] ^= 1 << rng.between(0, 7);
    damaged
}

/// Ranges of some pages, most of them usable; now and then of a wrong length.
fn random_report(rng: &mut Rng) -> Vec<u8> {
    let count = match rng.between(0, 19) {
        0 => 0,
        1 => rng.between(127, 129),
        _ => rng.between(1, 8),
    };
    let mut report = Vec::new();
    for _ in 0..count {
        let mut base = rng.between(0, 4000) << 10;
        let mut size = rng.between(0, 40) << 10;
        match rng.between(0, 29) {
            0 => base = u64::MAX - base,
            1 => size = u64::MAX - size,
            2..=9 => size += rng.between(0, 1023),
            _ => (),
        }
        let kind = match rng.between(0, 9) {
            0 => rng.between(0, 8) as u32,
            _ => 1,
        };
        report.extend(entry(base, size, kind));
    }
    if rng.between(0, 29) == 0 {
        report.push(0);
    }
    report
}

/// A tree with ranges where random calls have theirs; now and then a bad one.
fn random_tree(rng: &mut Rng, wide: bool) -> Vec<u8> {
    let shift = shift(wide);
    let mut other = trees::rng::Rng::new(rng.next(), "equal", 0);
    let made = trees::random::some(&mut other, &mut |other| {
        (other.below(4000) << shift, other.below(960))
    });
    match rng.between(0, 9) {
        0 => other
            .pick(&trees::Break::ALL)
            .done_to(&mut other, &made.tree),
        1 => trees::broken::damaged(&mut other, made.bytes),
        _ => made.bytes,
    }
}

fn shift(wide: bool) -> u32 {
    if wide {
        10
    } else {
        4
    }
}

/// With `wide` the ranges are far apart and tables fill up.
fn random_call(rng: &mut Rng, wide: bool) -> Call<'static> {
    let shift = shift(wide);
    let mut base = rng.between(0, 4000) << shift;
    let mut size = rng.between(0, 40) * rng.between(1, 24);
    match rng.between(0, 29) {
        0 => base = u64::MAX - base,
        1 => size = u64::MAX - size,
        _ => (),
    }
    let node = match rng.between(0, 9) {
        0 => rng.between(60, 66) as u32,
        1..=4 => ANY_NODE,
        _ => rng.between(0, 2) as u32,
    };
    let alignment = match rng.between(0, 19) {
        0 => rng.between(0, 100),
        _ => 1 << rng.between(0, 13),
    };
    let start = (rng.between(0, 4) * rng.between(0, 1000)) << shift;
    let end = match rng.between(0, 2) {
        0 => 0,
        _ => rng.between(1, 4000) << shift,
    };
    let wish = match rng.between(0, 19) {
        0 => rng.between(4, 5) as u32,
        _ => rng.between(0, 3) as u32,
    };
    let flag = match rng.between(0, 19) {
        0 => rng.between(0, 9) as u32,
        _ => [HOTPLUG, MIRROR, NO_MAP][rng.between(0, 2) as usize],
    };
    match rng.between(0, 199) {
        0..=59 => {
            let flags = match rng.between(0, 5) {
                0..=2 => 0,
                3 => rng.between(0, 9) as u32,
                _ => rng.between(0, 7) as u32,
            };
            Call::Add(base, size, flags, node.min(64))
        }
        60..=79 => Call::Remove(base, size),
        80..=89 => Call::Mark(base, size, flag),
        90..=99 => Call::Unmark(base, size, flag),
        100..=129 => Call::Reserve(base, size),
        130..=149 => Call::Free(base, size),
        150 => Call::Trim(alignment.min(16)),
        151..=159 => Call::Set(if wide { u64::MAX } else { base }, rng.between(0, 2) as u32),
        160 | 161 => Call::SetImageEnd(match rng.between(0, 3) {
            0 => 0,
            _ => base,
        }),
        162..=169 => Call::NextFree(base, node, wish),
        170..=184 => Call::Find(size, alignment, start, end, node, wish),
        _ => Call::Allocate(size, alignment, start, end, node, wish),
    }
}

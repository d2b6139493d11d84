//! The placement plans of request E12, each rule on both sides of its edge.

use model::layout::*;
use model::plan::{plan, Line};

fn fresh() -> Vec<u8> {
    let mut block = vec![0xA5; BLOCK_LEN];
    assert_eq!(model::fresh(&mut block), 0);
    block
}

/// A fresh block with memory of these ranges (from, to), flags and nodes.
fn memory(ranges: &[(u64, u64, u32, u32)]) -> Vec<u8> {
    let mut block = fresh();
    for &(lo, hi, flags, node) in ranges {
        assert_eq!(model::add(&mut block, lo, hi - lo, flags, node), 0);
    }
    block
}

/// Document 01's M.
fn m() -> Vec<u8> {
    memory(&[(0x10000, 0x20000, 0, 0)])
}

fn reserved(mut block: Vec<u8>, lo: u64, hi: u64) -> Vec<u8> {
    assert_eq!(model::reserve(&mut block, lo, hi - lo), 0);
    block
}

/// A line that asks for nothing but its range.
fn line(at: u64, size: u64) -> Line {
    Line {
        size,
        align: 1,
        start: 0,
        end: 0,
        node: ANY_NODE,
        wish: 0,
        at,
    }
}

fn aligned(align: u64, line: Line) -> Line {
    Line { align, ..line }
}

fn from(start: u64, line: Line) -> Line {
    Line { start, ..line }
}

fn wishing(wish: u32, line: Line) -> Line {
    Line { wish, ..line }
}

/// The records of the taken table, as (from, to).
fn taken(block: &[u8]) -> Vec<(u64, u64)> {
    let long = |at: usize| u64::from_le_bytes(block[at..at + 8].try_into().unwrap());
    let count = u32::from_le_bytes(block[32..36].try_into().unwrap());
    (0..count as usize)
        .map(|i| 3152 + 24 * i)
        .map(|at| (long(at), long(at) + long(at + 8)))
        .collect()
}

/// An accepted plan, which leaves what the reserves of its lines leave where there is room
/// for each.
#[track_caller]
fn accepted(block: &[u8], lines: &[Line]) -> Vec<u8> {
    let mut after = block.to_vec();
    assert_eq!(plan(&mut after, lines), (0, 0), "{lines:x?}");
    let mut by_calls = block.to_vec();
    let each = |line: &Line| model::reserve(&mut by_calls, line.at, line.size);
    if lines.iter().map(each).all(|number| number == 0) {
        assert_eq!(after, by_calls);
    }
    after
}

/// A plan that is refused, with the block as it was.
#[track_caller]
fn refused(block: &[u8], lines: &[Line], number: u32, index: u32) {
    let mut after = block.to_vec();
    assert_eq!(plan(&mut after, lines), (number, index), "{lines:x?}");
    assert!(after == block, "a refusal changed the block");
}

/// The line at fault by itself, also behind a good one and before one.
#[track_caller]
fn at_fault(block: &[u8], good: Line, bad: Line) {
    accepted(block, &[good]);
    refused(block, &[bad], 13, 0);
    refused(block, &[good, bad], 13, 1);
    refused(block, &[bad, good], 13, 0);
    refused(block, &[good, bad, bad], 13, 1);
}

#[test]
fn numbers_of_the_rules() {
    assert_eq!(PLAN_LINES, 64);
    assert_eq!((number::BAD_PLAN, number::LONG_PLAN), (13, 14));
}

#[test]
fn an_empty_plan_is_accepted() {
    for block in [fresh(), m(), comb(512, 0)] {
        assert_eq!(accepted(&block, &[]), block);
    }
}

#[test]
fn one_line() {
    let block = m();
    let after = accepted(&block, &[line(0x12345, 0x678)]);
    assert_eq!(taken(&after), [(0x12345, 0x129BD)]);
    let after = accepted(&block, &[line(0x10000, 0x10000)]);
    assert_eq!(taken(&after), [(0x10000, 0x20000)]);
    // What is taken now is eligible no more.
    refused(&after, &[line(0x12345, 1)], 13, 0);
}

/// 64 lines, apart or touching, and 65 of them.
#[test]
fn as_many_lines_as_there_may_be() {
    let block = m();
    let apart: Vec<Line> = (0..65).map(|i| line(0x10000 + 2 * i, 1)).collect();
    assert_eq!(taken(&accepted(&block, &apart[..64])).len(), 64);
    assert_eq!(taken(&accepted(&block, &apart[..63])).len(), 63);
    refused(&block, &apart, 14, 0);
    let touching: Vec<Line> = (0..70).map(|i| line(0x10000 + i, 1)).collect();
    let after = accepted(&block, &touching[..64]);
    assert_eq!(taken(&after), [(0x10000, 0x10040)]);
    for count in 65..=70 {
        refused(&block, &touching[..count], 14, 0);
    }
    // The last of 64 is looked at like the first.
    for index in [0, 31, 62, 63] {
        let mut lines = touching[..64].to_vec();
        lines[index].size = 0;
        refused(&block, &lines, 13, index as u32);
    }
}

/// 1, then 14, then 13, then 6.
#[test]
fn which_number_comes_first() {
    let long: Vec<Line> = (0..65).map(|i| line(0x10000 + 2 * i, 1)).collect();
    let wrong = vec![line(0, 0); 65];
    let mut bad = m();
    bad[52] = 1;
    for lines in [&long[..], &long[..64], &wrong, &wrong[..1], &[]] {
        refused(&bad, lines, 1, 0);
        for length in [0, 1, 79, 80, 6224, BLOCK_LEN - 1, BLOCK_LEN + 1] {
            let mut other = m();
            other.resize(length, 0);
            refused(&other, lines, 1, 0);
        }
        refused(&vec![0; BLOCK_LEN], lines, 1, 0);
    }
    refused(&m(), &wrong, 14, 0);
    refused(&comb(512, 0), &wrong, 14, 0);
    refused(&comb(512, 0), &wrong[..64], 13, 0);
    let full = comb(512, 1);
    refused(&full, &[apart(0)], 6, 0);
    refused(&full, &[apart(0), line(0, 0)], 13, 1);
    refused(&full, &[apart(0), apart(1), apart(0)], 13, 2);
    refused(&full, &[apart(0); 65], 14, 0);
}

/// Edition 1 blocks are not good.
#[test]
fn old_blocks() {
    let mut old = m();
    old[0] = 1;
    refused(&old, &[line(0x10000, 1)], 1, 0);
    old[36..40].copy_from_slice(&128u32.to_le_bytes());
    old.truncate(6224);
    assert_eq!(model::convert(&old, &mut vec![0; BLOCK_LEN]), 0);
    refused(&old, &[line(0x10000, 1)], 1, 0);
    refused(&old, &[], 1, 0);
}

/// The checks of find: node and wish, alignment, size.
#[test]
fn the_checks_of_find() {
    let block = m();
    let good = line(0x10000, 0x1000);
    let other = Line {
        at: 0x18000,
        align: 0x8000,
        ..good
    };
    for node in [64, 65, 1 << 31, ANY_NODE - 1] {
        at_fault(&block, good, Line { node, ..other });
    }
    for wish in [4, 5, 7, 8, 256, u32::MAX] {
        at_fault(&block, good, Line { wish, ..other });
    }
    for align in [0, 3, 5, 6, 0x1001, 0x18000, (1 << 63) + 1, u64::MAX] {
        at_fault(&block, good, Line { align, ..other });
    }
    at_fault(&block, good, Line { size: 0, ..other });
    accepted(&block, &[good, other]);
    // Several at once are one fault.
    let all = Line {
        node: 64,
        wish: 4,
        align: 3,
        size: 0,
        ..other
    };
    at_fault(&block, good, all);
    // A size of 0 in no memory, and at the top.
    at_fault(&block, good, line(0, 0));
    at_fault(&block, good, line(u64::MAX, 0));
}

#[test]
fn alignment_of_the_address() {
    let block = m();
    let good = line(0x10000, 1);
    for shift in 0..16 {
        let align = 1 << shift;
        let at = 0x10000 + align;
        accepted(&block, &[aligned(align, line(at, 1))]);
        if align > 1 {
            for at in [at - 1, at + 1, 0x10000 + align / 2, at + align / 2] {
                let bad = aligned(align, line(at, 1));
                at_fault(&block, good, bad);
            }
        }
    }
    let align = 1 << 63;
    let high = memory(&[((1 << 63) - 8, (1 << 63) + 8, 0, 0)]);
    accepted(&high, &[aligned(align, line(1 << 63, 8))]);
    refused(&high, &[aligned(align, line((1 << 63) + 1, 1))], 13, 0);
}

#[test]
fn start_and_the_lowest_start() {
    let low = memory(&[(0, 0x3000, 0, 0)]);
    let good = line(0x2000, 1);
    accepted(&low, &[line(4096, 1)]);
    at_fault(&low, good, line(4095, 1));
    at_fault(&low, good, line(4095, 2));
    at_fault(&low, good, line(0, 1));
    let start = 4095;
    at_fault(&low, good, from(start, line(4095, 1)));
    accepted(&low, &[from(start, line(4096, 1))]);
    let block = m();
    for start in [0, 0x10000, 0x14FFF, 0x15000] {
        accepted(&block, &[from(start, line(0x15000, 1))]);
    }
    for start in [0x15001, 0x20000, u64::MAX] {
        at_fault(&block, line(0x10000, 1), from(start, line(0x15000, 1)));
    }
}

/// A named end, the limit, and an end of 0, which is the limit.
#[test]
fn ends_and_the_limit() {
    let mut block = m();
    let there = line(0x14000, 0x1000);
    for end in [0, 0x15000, 0x15001, 0x20000, 0x20001, u64::MAX] {
        accepted(&block, &[Line { end, ..there }]);
    }
    for end in [1, 4096, 0x13FFF, 0x14000, 0x14001, 0x14FFF] {
        at_fault(&block, line(0x10000, 1), Line { end, ..there });
    }
    for (limit, fits) in [(0x15000, true), (0x15001, true), (0x14FFF, false)] {
        assert_eq!(model::set(&mut block, limit, 0), 0);
        for end in [0, 0x15000, 0x15001, u64::MAX] {
            let lines = [line(0x10000, 1), Line { end, ..there }];
            match fits {
                true => drop(accepted(&block, &lines)),
                false => refused(&block, &lines, 13, 1),
            }
        }
    }
    for limit in [0, 1, 4096, 0x10000] {
        assert_eq!(model::set(&mut block, limit, 0), 0);
        refused(&block, &[line(0x10000, 1)], 13, 0);
        accepted(&block, &[]);
    }
}

/// What is taken, no-map memory, no memory, two tags, the node and the wish.
#[test]
fn one_free_run_of_what_is_asked_for() {
    let block = memory(&[
        (0x10000, 0x12000, 0, 0),
        (0x12000, 0x14000, 0, 1),
        (0x14000, 0x16000, HOTPLUG, 1),
        (0x16000, 0x18000, MIRROR, 1),
        (0x18000, 0x1A000, HOTPLUG + MIRROR, 1),
        (0x1A000, 0x1C000, NO_MAP, 1),
        (0x1C000, 0x1E000, 0, 1),
    ]);
    let block = reserved(block, 0x11000, 0x11800);
    let good = line(0x1D000, 0x1000);
    for (lo, hi) in [
        (0x10FFF, 0x11001),
        (0x11000, 0x11001),
        (0x117FF, 0x11800),
        (0x117FF, 0x11801),
        (0x10000, 0x12000),
        (0xFFFF, 0x10001),
        (0xFFFF, 0x10000),
        (0x1DFFF, 0x1E001),
        (0x1E000, 0x1E001),
        (0x11FFF, 0x12001),
        (0x1A000, 0x1A001),
        (0x1BFFF, 0x1C001),
    ] {
        let bad = line(lo, hi - lo);
        if good.at < hi && lo < good.at + good.size {
            refused(&block, &[bad], 13, 0);
        } else {
            at_fault(&block, good, bad);
        }
    }
    accepted(&block, &[line(0x10000, 0x1000), line(0x11800, 0x800)]);
    for (at, node, fits) in [
        (0x10000, 0, true),
        (0x10000, 1, false),
        (0x12000, 0, false),
        (0x12000, 1, true),
        (0x12000, 63, false),
    ] {
        let line = Line {
            node,
            ..line(at, 0x100)
        };
        match fits {
            true => drop(accepted(&block, &[line])),
            false => at_fault(&block, good, line),
        }
    }
    let runs = [0x12000, 0x14000, 0x16000, 0x18000];
    let granted = [
        [true, false, true, false],
        [true, true, true, true],
        [false, false, true, false],
        [false, false, true, true],
    ];
    for (wish, granted) in granted.into_iter().enumerate() {
        let wish = wish as u32;
        for (at, granted) in runs.into_iter().zip(granted) {
            let line = wishing(wish, line(at, 0x2000));
            match granted {
                true => drop(accepted(&block, &[line])),
                false => at_fault(&block, good, line),
            }
        }
        // No wish grants no-map memory, nor a range over two tags.
        at_fault(&block, good, wishing(wish, line(0x1A000, 1)));
        at_fault(&block, good, wishing(wish, line(0x15FFF, 2)));
    }
}

#[test]
fn lines_that_touch() {
    let block = m();
    let lines = [
        line(0x10000, 0x1000),
        line(0x11000, 0x1000),
        line(0x12000, 1),
    ];
    let orders = [
        [0, 1, 2],
        [0, 2, 1],
        [1, 0, 2],
        [1, 2, 0],
        [2, 0, 1],
        [2, 1, 0],
    ];
    for order in orders {
        let lines = order.map(|i| lines[i]);
        assert_eq!(taken(&accepted(&block, &lines)), [(0x10000, 0x12001)]);
    }
    // Lines of two runs that touch, and a line between two taken records.
    let block = memory(&[(0x10000, 0x11000, 0, 0), (0x11000, 0x12000, 0, 1)]);
    let lines = [line(0x10800, 0x800), line(0x11000, 0x800)];
    assert_eq!(taken(&accepted(&block, &lines)), [(0x10800, 0x11800)]);
    let block = reserved(reserved(m(), 0x10000, 0x11000), 0x12000, 0x13000);
    let lines = [line(0x11800, 0x800), line(0x11000, 0x800)];
    assert_eq!(taken(&accepted(&block, &lines)), [(0x10000, 0x13000)]);
}

#[test]
fn lines_that_share() {
    let block = m();
    let there = line(0x14000, 0x1000);
    let touching = [line(0x15000, 0x100), line(0x13F00, 0x100)];
    for other in touching {
        accepted(&block, &[there, other]);
        accepted(&block, &[other, there]);
    }
    for (lo, hi) in [
        (0x14000, 0x15000),
        (0x14FFF, 0x15000),
        (0x14FFF, 0x15100),
        (0x14000, 0x14001),
        (0x13F00, 0x14001),
        (0x14800, 0x14801),
        (0x13FFF, 0x15001),
        (0x10000, 0x20000),
    ] {
        let other = line(lo, hi - lo);
        accepted(&block, &[other]);
        refused(&block, &[there, other], 13, 1);
        refused(&block, &[other, there], 13, 1);
        // Not only with the line just before.
        let between = line(0x10000, 0x100);
        if lo > 0x10100 {
            refused(&block, &[there, between, other], 13, 2);
            refused(&block, &[between, there, other], 13, 2);
            refused(&block, &[there, other, between], 13, 1);
        }
    }
    // The last of 64 with the first.
    let mut lines: Vec<Line> = (0..64).map(|i| line(0x10000 + 16 * i, 16)).collect();
    accepted(&block, &lines);
    lines[63].at = 0x1000F;
    refused(&block, &lines, 13, 63);
    lines[62].at = 0x1000F;
    refused(&block, &lines, 13, 62);
    lines[0].at = 0x1F000;
    refused(&block, &lines, 13, 62);
    lines[1].at = 0x1F400;
    refused(&block, &lines, 13, 63);
}

/// Of two faults the smaller index, whichever they are.
#[test]
fn two_faults() {
    let block = m();
    let [a, b, c] = [0x10000, 0x12000, 0x14000].map(|at| line(at, 0x1000));
    let zero = line(0x16000, 0);
    let apart = line(0x20000, 1);
    refused(&block, &[a, zero, apart], 13, 1);
    refused(&block, &[a, apart, zero], 13, 1);
    // An earlier pair shares, a later line fails by itself.
    refused(&block, &[a, a, zero], 13, 1);
    refused(&block, &[a, b, a, c, zero], 13, 2);
    // A line fails by itself, a later pair shares.
    refused(&block, &[zero, a, a], 13, 0);
    refused(&block, &[a, zero, b, a], 13, 1);
    // The later line of the pair that shares is at fault, not the earlier.
    refused(&block, &[a, b, c, b], 13, 3);
    refused(&block, &[b, b, a, a], 13, 1);
    refused(&block, &[a, b, b, a], 13, 2);
    refused(&block, &[a, b, a, b], 13, 2);
    // A line that fails by itself and one that shares with it.
    let over = line(0x1F000, 0x1001);
    refused(&block, &[line(0x1F800, 1), over], 13, 1);
    refused(&block, &[over, line(0x1F800, 1)], 13, 0);
}

#[test]
fn at_the_top() {
    let top = memory(&[(u64::MAX - 0x1000, u64::MAX, 0, 0)]);
    let good = line(u64::MAX - 0x1000, 1);
    let after = accepted(&top, &[good, line(u64::MAX - 16, 16)]);
    assert_eq!(taken(&after)[1], (u64::MAX - 16, u64::MAX));
    accepted(&top, &[line(u64::MAX - 1, 1)]);
    at_fault(&top, good, line(u64::MAX - 16, 17));
    at_fault(&top, good, line(u64::MAX, 1));
    at_fault(&top, good, line(u64::MAX - 1, 2));
    at_fault(&top, good, line(u64::MAX - 16, u64::MAX));
    at_fault(&top, good, line(u64::MAX, u64::MAX));
    let whole = memory(&[(0, u64::MAX, 0, 0)]);
    accepted(&whole, &[line(4096, u64::MAX - 4096)]);
    refused(&whole, &[line(4096, u64::MAX - 4095)], 13, 0);
    // A sum that comes round would share nothing.
    refused(
        &whole,
        &[line(0x10000, 0x1000), line(0x8000, u64::MAX)],
        13,
        1,
    );
}

/// A block with `count` taken records of one address, four apart, and memory of so many
/// addresses more before, behind and between them.
fn comb(count: u64, more: u64) -> Vec<u8> {
    let mut block = memory(&[(0x10000, 0x10000 + 4 * count + 0x1000 * more, 0, 0)]);
    for i in 0..count {
        block = reserved(block, 0x10000 + 4 * i, 0x10001 + 4 * i);
    }
    assert_eq!(taken(&block).len() as u64, count);
    block
}

/// Between two records of a comb, touching neither: a record more.
fn apart(i: u64) -> Line {
    line(0x10002 + 4 * i, 1)
}

/// All between two records of a comb: a record less.
fn between(i: u64) -> Line {
    line(0x10001 + 4 * i, 3)
}

/// Behind a record, touching it and not the next: as many as before.
fn behind(i: u64) -> Line {
    line(0x10001 + 4 * i, 1)
}

/// Only the finished list counts for 6.
#[test]
fn full_tables() {
    for count in [510, 511, 512] {
        let block = comb(count, 1);
        let free = 512 - count;
        let more: Vec<Line> = (0..free + 1).map(apart).collect();
        let after = accepted(&block, &more[..free as usize]);
        assert_eq!(taken(&after).len(), 512);
        refused(&block, &more, 6, 0);
        // One that makes two records one, at every place in the order.
        for place in 0..=more.len() {
            let mut lines = more.clone();
            lines.insert(place, between(100));
            assert_eq!(taken(&accepted(&block, &lines)).len(), 512);
            lines.push(apart(200));
            refused(&block, &lines, 6, 0);
            lines.push(between(300));
            lines.push(behind(301));
            assert_eq!(taken(&accepted(&block, &lines)).len(), 512);
            lines.push(apart(200));
            let last = lines.len() as u32 - 1;
            refused(&block, &lines, 13, last);
        }
    }
    let block = comb(512, 1);
    // Two lines make one of two records together, or three of one.
    let low = behind(7);
    let high = line(low.at + 1, 2);
    for lines in [
        [apart(0), low, high],
        [high, apart(0), low],
        [low, high, apart(0)],
    ] {
        assert_eq!(taken(&accepted(&block, &lines)).len(), 512);
        let [first, second, third] = lines;
        refused(&block, &[first, second, third, apart(1)], 6, 0);
    }
    // 32 more and 32 less, all more first, all less first, by turns.
    let mut lines: Vec<Line> = (0..32).map(apart).chain((100..132).map(between)).collect();
    assert_eq!(taken(&accepted(&block, &lines)).len(), 512);
    lines.reverse();
    assert_eq!(taken(&accepted(&block, &lines)).len(), 512);
    lines.sort_by_key(|line| line.at % 128);
    assert_eq!(taken(&accepted(&block, &lines)).len(), 512);
    lines.retain(|line| *line != between(110));
    refused(&block, &lines, 6, 0);
    // One record more than there is room for, at every place.
    for place in 0..64 {
        let mut lines: Vec<Line> = (0..31).map(between).collect();
        lines.extend((100..132).map(apart));
        lines.insert(place.min(lines.len()), behind(150));
        refused(&block, &lines, 6, 0);
    }
    // Touching a record needs none, and a full table takes it.
    accepted(&block, &[behind(0), behind(1), line(0x10003 + 4 * 7, 1)]);
    // 14 and 13 come before 6.
    let lines = vec![apart(0); 65];
    refused(&block, &lines, 14, 0);
    refused(&block, &lines[..2], 13, 1);
}

/// The direction and the image end play no part, but stay.
#[test]
fn direction_and_image_end() {
    let lines = [
        line(0x10000, 0x1000),
        line(0x1F000, 0x1000),
        line(0x18000, 1),
    ];
    let wrong = [lines[0], lines[1], lines[0]];
    for direction in [0, 1] {
        for image_end in [0, 1, 0x10800, 0x18000, 0x20000, 1 << 40, u64::MAX] {
            let mut block = m();
            assert_eq!(model::set(&mut block, u64::MAX, direction), 0);
            assert_eq!(model::set_image_end(&mut block, image_end), 0);
            let after = accepted(&block, &lines);
            assert_eq!(after[40..56], block[40..56]);
            assert_eq!(after[72..80], block[72..80]);
            refused(&block, &wrong, 13, 2);
        }
    }
}

/// The order of the lines decides nothing where the plan is accepted.
#[test]
fn order_of_accepted_lines() {
    let block = reserved(m(), 0x14000, 0x15000);
    let mut lines = vec![
        line(0x10000, 0x800),
        line(0x13F00, 0x100),
        line(0x15000, 0x1000),
        line(0x10800, 0x800),
        line(0x1FFFF, 1),
        line(0x16001, 0x10),
    ];
    let wanted = accepted(&block, &lines);
    let mut seed = 1u64;
    for _ in 0..200 {
        for i in (1..lines.len()).rev() {
            seed = seed
                .wrapping_mul(6364136223846793005)
                .wrapping_add(1442695040888963407);
            lines.swap(i, (seed >> 33) as usize % (i + 1));
        }
        assert_eq!(accepted(&block, &lines), wanted);
    }
}

/// Eligible means in the block as lent: a line that another leaves no room beside is not.
#[test]
fn as_lent() {
    let block = m();
    // The second lies in the run of the block, of which the first takes a part.
    accepted(&block, &[line(0x18000, 0x100), line(0x10000, 0x8000)]);
    // What lines before would take away is still memory of one run, but shared.
    refused(
        &block,
        &[line(0x18000, 0x100), line(0x10000, 0x10000)],
        13,
        1,
    );
    // What find gives is eligible, the second time it is not.
    let mut slip = [0; 16];
    let query = line(0, 0x1000).query();
    assert_eq!(model::find(&block, &query, &mut slip), 0);
    let at = u64::from_le_bytes(slip[..8].try_into().unwrap());
    let after = accepted(&block, &[line(at, 0x1000)]);
    refused(&after, &[line(at, 0x1000)], 13, 0);
    refused(&block, &[line(at, 0x1000); 2], 13, 1);
}

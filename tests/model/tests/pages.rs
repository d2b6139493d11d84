//! The free pages of request E14, each rule on both sides of its edge.

use model::layout::*;

/// The page that is answered where no piece is left.
const NO_PAGE: u64 = 1 << 52;

/// A page and an order.
type Piece = (u64, u32);

fn fresh() -> Vec<u8> {
    let mut block = vec![0xA5; BLOCK_LEN];
    assert_eq!(model::fresh(&mut block), 0);
    block
}

/// A fresh block with memory of these ranges (from, to), flags and nodes.
fn memory(ranges: &[(u64, u64, u32, u32)]) -> Vec<u8> {
    let mut block = fresh();
    for &(lo, hi, flags, node) in ranges {
        assert_eq!(model::add(&mut block, lo, hi - lo, flags, node), 0);
    }
    block
}

/// The same with one range of tag 0, 0.
fn plain(lo: u64, hi: u64) -> Vec<u8> {
    memory(&[(lo, hi, 0, 0)])
}

fn reserved(mut block: Vec<u8>, lo: u64, hi: u64) -> Vec<u8> {
    assert_eq!(model::reserve(&mut block, lo, hi - lo), 0);
    block
}

/// The bytes of pieces.
fn bytes(pieces: &[Piece]) -> Vec<u8> {
    let mut bytes = Vec::new();
    for (page, order) in pieces {
        bytes.extend(page.to_le_bytes());
        bytes.extend(order.to_le_bytes());
    }
    bytes
}

/// A call that is done with a buffer of so many bytes: it writes these pieces and no other
/// byte, and answers how many and this page.
#[track_caller]
fn gives(block: &[u8], from: u64, length: usize, pieces: &[Piece], next: u64) {
    for filler in [0, 0xFF, 0x5A] {
        let mut buffer = vec![filler; length];
        let mut slip = [0x77; SLIP_LEN];
        assert_eq!(model::pages(block, from, &mut buffer, &mut slip), 0);
        let mut wanted = bytes(pieces);
        wanted.resize(length, filler);
        assert_eq!(buffer, wanted, "from {from:#x}, {length} bytes");
        let answer = [(pieces.len() as u64).to_le_bytes(), next.to_le_bytes()];
        assert_eq!(slip[..], answer.concat(), "from {from:#x}, {length} bytes");
    }
}

/// The whole list.
#[track_caller]
fn lists(block: &[u8], pieces: &[Piece]) {
    gives(block, 0, 12 * pieces.len(), pieces, NO_PAGE);
    gives(block, 0, 12 * pieces.len() + 100, pieces, NO_PAGE);
}

/// The largest order whose size divides a page and fits below another.
fn largest(page: u64, past: u64) -> u32 {
    let mut order = 0;
    while order < 10 && page.is_multiple_of(2 << order) && page + (2 << order) <= past {
        order += 1;
    }
    order
}

/// A run's pages cut from the bottom.
fn cut(first: u64, past: u64) -> Vec<Piece> {
    let mut pieces = Vec::new();
    let mut page = first;
    while page < past {
        let order = largest(page, past);
        pieces.push((page, order));
        page += 1 << order;
    }
    pieces
}

#[test]
fn numbers_of_the_rules() {
    assert_eq!((PAGE_LEN, PAGES), (4096, 1 << 52));
    assert_eq!((LARGEST_ORDER, PIECE_LEN), (10, 12));
}

#[test]
fn a_piece_is_written_little_endian() {
    let block = plain(0x0908_0706_0504_3000, 0x0908_0706_0504_5000);
    let mut buffer = [0xEE; 14];
    let mut slip = [0xEE; 16];
    assert_eq!(model::pages(&block, 0, &mut buffer, &mut slip), 0);
    assert_eq!(
        buffer,
        [0x43, 0x50, 0x60, 0x70, 0x80, 0x90, 0, 0, 0, 0, 0, 0, 0xEE, 0xEE]
    );
    assert_eq!(
        slip,
        [1, 0, 0, 0, 0, 0, 0, 0, 0x44, 0x50, 0x60, 0x70, 0x80, 0x90, 0, 0]
    );
    gives(
        &block,
        0,
        24,
        &[(0x9080_7060_5043, 0), (0x9080_7060_5044, 0)],
        NO_PAGE,
    );
}

#[test]
fn every_length_from_every_page() {
    let block = plain(0x3000, 0xF000);
    let list = [(3, 0), (4, 2), (8, 2), (12, 1), (14, 0)];
    lists(&block, &list);
    for from in 0..20 {
        let left: Vec<Piece> = list.into_iter().filter(|piece| piece.0 >= from).collect();
        for length in 0..80 {
            let room = left.len().min(length / 12);
            let next = left.get(room).map_or(NO_PAGE, |piece| piece.0);
            gives(&block, from, length, &left[..room], next);
        }
    }
}

#[test]
fn buffers_at_each_edge() {
    let block = plain(0x5000, 0x9000);
    let list = [(5, 0), (6, 1), (8, 0)];
    for (length, count) in [
        (0, 0),
        (1, 0),
        (11, 0),
        (12, 1),
        (13, 1),
        (23, 1),
        (24, 2),
        (25, 2),
        (35, 2),
        (36, 3),
        (37, 3),
        (48, 3),
        (1200, 3),
    ] {
        let next = [5, 6, 8, NO_PAGE][count];
        gives(&block, 0, length, &list[..count], next);
    }
}

#[test]
fn every_small_run_is_cut_from_the_bottom() {
    for first in 0..40 {
        for past in first..40 {
            let list = cut(first, past);
            let block = plain(first * 4096, past * 4096);
            gives(&block, 0, 12 * list.len(), &list, NO_PAGE);
        }
    }
}

#[test]
fn orders_up_to_ten() {
    for order in 0..=10u32 {
        // One that fits exactly, a page less, and a page more.
        let (size, at) = (1 << order, 1 << 13);
        lists(&plain(at << 12, (at + size) << 12), &[(at, order)]);
        let less: Vec<Piece> = (0..order)
            .rev()
            .map(|o| (at + size - (2 << o), o))
            .collect();
        lists(&plain(at << 12, (at + size - 1) << 12), &less);
        lists(
            &plain(at << 12, (at + size + 1) << 12),
            &cut(at, at + size + 1),
        );
    }
    for (first, past, list) in [
        (0, 1023, cut(0, 1023)),
        (0, 1024, vec![(0, 10)]),
        (0, 1025, vec![(0, 10), (1024, 0)]),
        (0, 2048, vec![(0, 10), (1024, 10)]),
        (0, 4096, (0..4).map(|i| (1024 * i, 10)).collect()),
        (2048, 4096, vec![(2048, 10), (3072, 10)]),
        (1, 1024, (0..10).map(|order| (1 << order, order)).collect()),
        (512, 2048, vec![(512, 9), (1024, 10)]),
        (1, 4095, cut(1, 4095)),
        (511, 1537, cut(511, 1537)),
    ] {
        lists(&plain(first << 12, past << 12), &list);
    }
}

#[test]
fn all_there_is() {
    let block = plain(0, u64::MAX);
    gives(&block, 0, 24, &[(0, 10), (1024, 10)], 2048);
    for from in [1, 512, 1023, 1024] {
        gives(&block, from, 12, &[(1024, 10)], 2048);
    }
    // Far inside, without a list of all before.
    let middle = 1 << 51;
    gives(&block, middle, 12, &[(middle, 10)], middle + 1024);
    gives(&block, middle - 1, 0, &[], middle);
    let tail: Vec<Piece> = cut(NO_PAGE - 1024, NO_PAGE - 1);
    assert_eq!(tail.len(), 10);
    gives(&block, NO_PAGE - 1024, 120, &tail, NO_PAGE);
    gives(&block, NO_PAGE - 2047, 120, &tail, NO_PAGE);
    gives(&block, NO_PAGE - 2, 120, &[(NO_PAGE - 2, 0)], NO_PAGE);
}

#[test]
fn page_0_counts() {
    lists(&plain(0, 0x1000), &[(0, 0)]);
    lists(&plain(0, 0x2000), &[(0, 1)]);
    lists(&plain(0, 0x1001), &[(0, 0)]);
    lists(&plain(1, 0x1001), &[]);
    lists(&plain(0, 0xFFF), &[]);
    lists(&reserved(plain(0, 0x3000), 0, 1), &[(1, 0), (2, 0)]);
    lists(
        &reserved(plain(0, 0x3000), 0xFFF, 0x1000),
        &[(1, 0), (2, 0)],
    );
    lists(
        &reserved(plain(0, 0x3000), 0x1000, 0x1001),
        &[(0, 0), (2, 0)],
    );
    gives(&plain(0, 0x3000), 1, 12, &[(2, 0)], NO_PAGE);
}

#[test]
fn the_last_page_is_never_whole() {
    let last = NO_PAGE - 1;
    let lo = u64::MAX - 4095;
    lists(&plain(lo, u64::MAX), &[]);
    lists(&plain(lo + 1, u64::MAX), &[]);
    lists(&plain(u64::MAX - 1, u64::MAX), &[]);
    lists(&plain(lo - 1, u64::MAX), &[]);
    lists(&plain(lo - 0x1000, u64::MAX), &[(last - 1, 0)]);
    lists(&plain(lo - 0x1000, lo), &[(last - 1, 0)]);
    lists(&plain(lo - 0x1000, lo - 1), &[]);
    lists(
        &plain(lo - 0x2000, u64::MAX),
        &[(last - 2, 0), (last - 1, 0)],
    );
    gives(&plain(0, u64::MAX), last, 100, &[], NO_PAGE);
}

#[test]
fn pages_that_are_none() {
    for block in [fresh(), plain(0x1000, 0x9000), plain(0, u64::MAX)] {
        for from in [NO_PAGE, NO_PAGE + 1, 2 * NO_PAGE, 1 << 63, u64::MAX] {
            for length in [0, 11, 12, 13, 100] {
                gives(&block, from, length, &[], NO_PAGE);
            }
        }
    }
}

#[test]
fn no_free_page_is_no_refusal() {
    for block in [
        fresh(),
        plain(0x1800, 0x2800),
        memory(&[(0, 0x10000, NO_MAP, 0)]),
        reserved(plain(0, 0x10000), 0, 0x10000),
        reserved(plain(0, u64::MAX), 0, u64::MAX),
        reserved(fresh(), 0x1000, 0x2000),
    ] {
        for length in [0, 11, 12, 24, 120] {
            gives(&block, 0, length, &[], NO_PAGE);
            gives(&block, 3, length, &[], NO_PAGE);
        }
    }
}

#[test]
fn ends_inside_pages() {
    // Pages 4 to 7, with each end moved.
    for (lo, first) in [
        (0x3000, 3),
        (0x3001, 4),
        (0x3FFF, 4),
        (0x4000, 4),
        (0x4001, 5),
    ] {
        for (hi, past) in [
            (0x7000, 7),
            (0x7001, 7),
            (0x7FFF, 7),
            (0x8000, 8),
            (0x8001, 8),
        ] {
            lists(&plain(lo, hi), &cut(first, past));
            // The same by what is taken.
            let around = reserved(plain(0x1000, 0xB000), 0x1000, lo);
            lists(&reserved(around, hi, 0xB000), &cut(first, past));
        }
    }
    for (lo, hi, list) in [
        (0x5100, 0x5200, &[][..]),
        (0x5000, 0x5FFF, &[]),
        (0x5001, 0x6000, &[]),
        (0x5000, 0x6000, &[(5, 0)]),
        (0x5001, 0x6FFF, &[]),
        (0x5001, 0x7000, &[(6, 0)]),
        (0x5000, 0x6FFF, &[(5, 0)]),
        (0x5FFF, 0x7001, &[(6, 0)]),
    ] {
        lists(&plain(lo, hi), list);
    }
}

#[test]
fn runs_that_touch_share_nothing() {
    for (tag, other) in [
        ((0, 0), (0, 1)),
        ((0, 1), (0, 0)),
        ((0, 0), (HOTPLUG, 0)),
        ((MIRROR, 0), (0, 0)),
        ((HOTPLUG, 0), (MIRROR, 0)),
        ((MIRROR, 5), (HOTPLUG + MIRROR, 5)),
    ] {
        let two = |lo, at, hi| memory(&[(lo, at, tag.0, tag.1), (at, hi, other.0, other.1)]);
        // A page in both is in no piece; no piece is of both.
        lists(&two(0x4000, 0x6000, 0x8000), &[(4, 1), (6, 1)]);
        lists(&two(0x4000, 0x5FFF, 0x8000), &[(4, 0), (6, 1)]);
        lists(&two(0x4000, 0x6001, 0x8000), &[(4, 1), (7, 0)]);
        lists(&two(0x4000, 0x4800, 0x5000), &[]);
        lists(&two(0x4000, 0x7000, 0x8000), &[(4, 1), (6, 0), (7, 0)]);
        lists(&two(0, 0x40_0000, 0x80_0000), &[(0, 10), (1024, 10)]);
        lists(&two(0, 0x20_0000, 0x40_0000), &[(0, 9), (512, 9)]);
    }
    // Equal tags are one run, though added apart.
    let one = memory(&[(0x4000, 0x5800, 0, 7), (0x5800, 0x8000, 0, 7)]);
    lists(&one, &[(4, 2)]);
}

#[test]
fn all_flags_but_no_map() {
    for flags in 0..=FLAGS {
        for node in [0, 1, NODES - 1] {
            let block = memory(&[(0x2000, 0x4000, flags, node)]);
            let list: &[Piece] = if flags < NO_MAP { &[(2, 1)] } else { &[] };
            lists(&block, list);
        }
    }
    let mut block = plain(0, 0x8000);
    assert_eq!(model::mark(&mut block, 0x2FFF, 2, NO_MAP), 0);
    lists(&block, &[(0, 1), (4, 2)]);
    // What is marked and unmarked again is as before.
    assert_eq!(model::unmark(&mut block, 0, 0x8000, NO_MAP), 0);
    lists(&block, &[(0, 3)]);
    for flag in [HOTPLUG, MIRROR] {
        assert_eq!(model::mark(&mut block, 0x4000, 0x4000, flag), 0);
        lists(&block, &[(0, 2), (4, 2)]);
    }
}

#[test]
fn settings_are_not_looked_at() {
    let mut block = reserved(plain(0, 0x8000), 0x5000, 0x6000);
    for limit in [0, 1, 4095, 4096, 0x2800, 0x8000, u64::MAX] {
        for direction in [0, 1] {
            for image_end in [0, 1, 4096, 0x2800, 0x5000, 0x8000, u64::MAX] {
                assert_eq!(model::set(&mut block, limit, direction), 0);
                assert_eq!(model::set_image_end(&mut block, image_end), 0);
                lists(&block, &[(0, 2), (4, 0), (6, 1)]);
                gives(&block, 4, 12, &[(4, 0)], 6);
            }
        }
    }
}

#[test]
fn a_page_named_inside_a_piece() {
    let block = memory(&[(0x10000, 0x20000, 0, 0), (0x30000, 0x31000, 0, 0)]);
    gives(&block, 15, 24, &[(16, 4), (48, 0)], NO_PAGE);
    gives(&block, 16, 12, &[(16, 4)], 48);
    for from in 17..=48 {
        gives(&block, from, 12, &[(48, 0)], NO_PAGE);
        gives(&block, from, 11, &[], 48);
    }
    gives(&block, 49, 12, &[], NO_PAGE);
}

#[test]
fn full_tables() {
    let mut block = fresh();
    for i in 0..MEMORY.capacity as u64 {
        let (flags, node) = ((i % 2) as u32, (i % 64) as u32);
        assert_eq!(model::add(&mut block, i << 13, 1 << 13, flags, node), 0);
    }
    let list: Vec<Piece> = (0..MEMORY.capacity as u64).map(|i| (2 * i, 1)).collect();
    lists(&block, &list);
    let most = TAKEN.capacity as u64;
    let mut block = plain(0, most << 13);
    for i in 0..most {
        assert_eq!(model::reserve(&mut block, (i << 13) + 5, 1), 0);
    }
    let list: Vec<Piece> = (0..most).map(|i| (2 * i + 1, 0)).collect();
    lists(&block, &list);
    gives(
        &block,
        2 * most - 2,
        12,
        &list[most as usize - 1..],
        NO_PAGE,
    );
}

#[test]
fn refusals() {
    let good = plain(0x1000, 0x9000);
    let mut bad = good.clone();
    bad[52] = 1;
    let short = &good[..BLOCK_LEN - 1];
    let old = vec![0; EDITION_1.length()];
    for from in [0, 3, NO_PAGE, u64::MAX] {
        for length in [0, 11, 12, 100] {
            for block in [&good[..], &bad, short, &old, &[]] {
                for slip_length in (0..40).filter(|&length| length != SLIP_LEN) {
                    let mut buffer = vec![0x5A; length];
                    let mut slip = vec![0x77; slip_length];
                    assert_eq!(model::pages(block, from, &mut buffer, &mut slip), 8);
                    assert_eq!(buffer, vec![0x5A; length]);
                    assert_eq!(slip, vec![0x77; slip_length]);
                }
            }
            for block in [&bad[..], short, &old, &[]] {
                let mut buffer = vec![0x5A; length];
                let mut slip = [0x77; SLIP_LEN];
                assert_eq!(model::pages(block, from, &mut buffer, &mut slip), 1);
                assert_eq!(buffer, vec![0x5A; length]);
                assert_eq!(slip, [0; SLIP_LEN]);
            }
        }
    }
}

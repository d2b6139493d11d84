//! Document 01's own examples: the printed block, the twelve cases, the table
//! of numbers on both sides, and the slips already paid for, on the block of
//! request E4. Then the E820 intake of request E1, the limit of request E3, the
//! conversion of request E4, the run's end of request E5, the flags and wishes of
//! request E6, the image end of request E7 and the frees of request E10, each rule on
//! both sides of its edge.

use model::layout::*;
use model::Query;

const TOP_DOWN: u32 = 0;
const BOTTOM_UP: u32 = 1;

fn fresh() -> Vec<u8> {
    let mut block = vec![0xA5; BLOCK_LEN];
    assert_eq!(model::fresh(&mut block), 0);
    block
}

/// A fresh block with these memory ranges (from, to) of tag 0, 0.
fn memory(ranges: &[(u64, u64)]) -> Vec<u8> {
    let mut block = fresh();
    for &(lo, hi) in ranges {
        assert_eq!(model::add(&mut block, lo, hi - lo, 0, 0), 0);
    }
    block
}

fn m() -> Vec<u8> {
    memory(&[(0x10000, 0x20000)])
}

fn turned(mut block: Vec<u8>, direction: u32) -> Vec<u8> {
    assert_eq!(model::set(&mut block, u64::MAX, direction), 0);
    block
}

fn query(size: u64, alignment: u64) -> Query {
    Query {
        size,
        alignment,
        start: 0,
        end: 0,
        node: ANY_NODE,
        wish: 0,
    }
}

/// The two numbers on the slip, or the refusal with the slip found all zero.
fn read_slip(number: u32, slip: &[u8]) -> Result<(u64, u64), u32> {
    if number != 0 {
        assert_eq!(slip, [0; 16]);
        return Err(number);
    }
    let half = |at: usize| u64::from_le_bytes(slip[at..at + 8].try_into().unwrap());
    Ok((half(0), half(8)))
}

fn find(block: &[u8], query: &Query) -> Result<(u64, u64), u32> {
    let mut slip = vec![0x77; 16];
    let number = model::find(block, query, &mut slip);
    read_slip(number, &slip)
}

fn find_address(block: &[u8], size: u64, alignment: u64) -> Result<u64, u32> {
    let (a, end) = find(block, &query(size, alignment))?;
    assert_eq!(next_free(block, a, ANY_NODE), Ok((a, end)));
    Ok(a)
}

fn allocate(block: &mut [u8], query: &Query) -> Result<(u64, u64), u32> {
    let before = block.to_vec();
    let mut slip = vec![0x77; 16];
    let number = model::allocate(block, query, &mut slip);
    if number != 0 {
        assert_eq!(block, before);
    }
    read_slip(number, &slip)
}

fn next_free(block: &[u8], from: u64, node: u32) -> Result<(u64, u64), u32> {
    next_free_of(block, from, node, 0)
}

fn next_free_of(block: &[u8], from: u64, node: u32, wish: u32) -> Result<(u64, u64), u32> {
    let mut slip = vec![0x77; 16];
    let number = model::next_free(block, from, node, wish, &mut slip);
    read_slip(number, &slip)
}

fn word(block: &[u8], at: usize) -> u32 {
    u32::from_le_bytes(block[at..at + 4].try_into().unwrap())
}

fn long(block: &[u8], at: usize) -> u64 {
    u64::from_le_bytes(block[at..at + 8].try_into().unwrap())
}

/// The records of a table as (base, size, flags, node).
fn records(block: &[u8], body: &Body) -> Vec<(u64, u64, u32, u32)> {
    (0..word(block, body.entry + 8) as usize)
        .map(|i| {
            let at = body.offset + i * RECORD_LEN;
            (
                long(block, at),
                long(block, at + 8),
                word(block, at + 16),
                word(block, at + 20),
            )
        })
        .collect()
}

fn total(block: &[u8], body: &Body) -> u64 {
    long(block, body.total_at)
}

/// A full memory table of one page records, with one page between.
fn comb() -> Vec<u8> {
    let mut block = fresh();
    for i in 0..MEMORY.capacity as u64 {
        assert_eq!(model::add(&mut block, i * 0x2000, 0x1000, 0, 0), 0);
    }
    block
}

/// The same in the taken table.
fn taken_comb() -> Vec<u8> {
    let mut block = fresh();
    for i in 0..TAKEN.capacity as u64 {
        assert_eq!(model::reserve(&mut block, i * 0x2000, 0x1000), 0);
    }
    block
}

fn hex(text: &str) -> Vec<u8> {
    let digits: Vec<u8> = text.bytes().filter(u8::is_ascii_hexdigit).collect();
    digits
        .chunks(2)
        .map(|two| u8::from_str_radix(std::str::from_utf8(two).unwrap(), 16).unwrap())
        .collect()
}

#[test]
fn lengths_of_document_01() {
    assert_eq!(EDITION_1.length(), 6224);
    assert_eq!(EDITION_1.taken.offset, 3152);
    assert_eq!(SLIP_LEN, 16);
}

#[test]
fn lengths_of_request_e4() {
    assert_eq!(BLOCK_LEN, 15440);
    assert_eq!(EDITION, 2);
    assert_eq!((MEMORY.offset, MEMORY.capacity), (80, 128));
    assert_eq!((TAKEN.offset, TAKEN.capacity), (3152, 512));
}

/// The block that document 01 prints, in edition 1.
fn printed_old() -> Vec<u8> {
    let mut block = hex("01000000 02000000 | 01000000 50000000 01000000 80000000 |
         02000000 500C0000 00000000 80000000 | FFFFFFFFFFFFFFFF 00000000 00000000 |
         0010000000000000 0000000000000000 0000000000000000 |
         0010000000000000 0010000000000000 00000000 00000000");
    block.extend([0; 6120]);
    assert_eq!(block.len(), 6224);
    block
}

/// The same in edition 2.
fn printed() -> Vec<u8> {
    let mut block = hex("02000000 02000000 | 01000000 50000000 01000000 80000000 |
         02000000 500C0000 00000000 00020000 | FFFFFFFFFFFFFFFF 00000000 00000000 |
         0010000000000000 0000000000000000 0000000000000000 |
         0010000000000000 0010000000000000 00000000 00000000");
    block.extend([0; 15336]);
    assert_eq!(block.len(), 15440);
    block
}

#[test]
fn printed_block() {
    assert_eq!(memory(&[(0x1000, 0x2000)]), printed());
}

#[test]
fn case_01_both_directions() {
    let ask = query(0x1000, 0x1000);
    assert_eq!(find(&turned(m(), BOTTOM_UP), &ask), Ok((0x10000, 0x20000)));
    assert_eq!(find(&turned(m(), TOP_DOWN), &ask), Ok((0x1F000, 0x20000)));
    assert_eq!(find(&m(), &ask), Ok((0x1F000, 0x20000)));
}

#[test]
fn case_02_and_03_allocate_twice_then_free() {
    let mut block = m();
    let ask = query(0x1000, 0x1000);
    assert_eq!(allocate(&mut block, &ask), Ok((0x1F000, 0x20000)));
    assert_eq!(allocate(&mut block, &ask), Ok((0x1E000, 0x1F000)));
    assert_eq!(records(&block, &TAKEN), [(0x1E000, 0x2000, 0, 0)]);
    assert_eq!(model::free(&mut block, 0x1E800, 0x800), 0);
    assert_eq!(records(&block, &TAKEN).len(), 2);
    assert_eq!(total(&block, &TAKEN), 0x1800);
    assert_eq!(find_address(&block, 0x800, 0x800), Ok(0x1E800));
}

fn case_4_tables() -> Vec<u8> {
    let mut block = m();
    assert_eq!(model::reserve(&mut block, 0x18000, 0x1000), 0);
    block
}

#[test]
fn case_04_size_of_the_gap() {
    for direction in [TOP_DOWN, BOTTOM_UP] {
        let block = turned(case_4_tables(), direction);
        assert_eq!(find_address(&block, 0x8000, 1), Ok(0x10000));
        assert_eq!(find_address(&block, 0x8001, 1), Err(5));
    }
}

#[test]
fn case_05_size_above_the_end() {
    let block = turned(memory(&[(0x1000, 0x2000)]), TOP_DOWN);
    assert_eq!(find_address(&block, 0x3000, 1), Err(5));
}

#[test]
fn case_06_start_is_raised() {
    let block = turned(memory(&[(0, 0x2000)]), BOTTOM_UP);
    assert_eq!(find_address(&block, 0x1000, 0x1000), Ok(0x1000));
    assert_eq!(find_address(&block, 0x1001, 0x1000), Err(5));
}

#[test]
fn case_07_cut_at_the_top() {
    let mut block = fresh();
    let base = u64::MAX - 4095;
    assert_eq!(model::add(&mut block, base, 0x2000, 0, 0), 0);
    assert_eq!(records(&block, &MEMORY), [(base, 0xFFF, 0, 0)]);
    let before = block.clone();
    assert_eq!(model::add(&mut block, u64::MAX, 1, 0, 0), 0);
    assert_eq!(block, before);
}

#[test]
fn case_08_rounding_past_the_top() {
    let base = u64::MAX - 4094;
    let mut block = fresh();
    assert_eq!(model::add(&mut block, base, 0xFFE, 0, 0), 0);
    for direction in [TOP_DOWN, BOTTOM_UP] {
        let block = turned(block.clone(), direction);
        assert_eq!(find_address(&block, 1, 0x1000), Err(5));
    }
    assert_eq!(model::trim(&mut block, 0x1000), 0);
    assert_eq!(block, fresh());
}

#[test]
fn case_09_tags_already_there_stay() {
    let mut block = memory(&[(0x1000, 0x2000)]);
    assert_eq!(model::add(&mut block, 0, 0x3000, 0, 1), 0);
    assert_eq!(
        records(&block, &MEMORY),
        [
            (0, 0x1000, 0, 1),
            (0x1000, 0x1000, 0, 0),
            (0x2000, 0x1000, 0, 1)
        ]
    );
    assert_eq!(total(&block, &MEMORY), 0x3000);
    let mut other = fresh();
    assert_eq!(model::add(&mut other, 0, 0x3000, 0, 1), 0);
    assert_eq!(model::add(&mut other, 0x1000, 0x1000, 0, 0), 0);
    assert_eq!(records(&other, &MEMORY), [(0, 0x3000, 0, 1)]);
}

#[test]
fn case_10_no_run_across_two_tags() {
    let mut block = memory(&[(0x10000, 0x18000)]);
    assert_eq!(model::add(&mut block, 0x18000, 0x8000, 0, 1), 0);
    for (direction, a) in [(BOTTOM_UP, 0x10000), (TOP_DOWN, 0x18000)] {
        let block = turned(block.clone(), direction);
        assert_eq!(find_address(&block, 0x8001, 1), Err(5));
        assert_eq!(find_address(&block, 0x8000, 1), Ok(a));
    }
}

#[test]
fn case_11_full_memory_table() {
    let start = comb();
    assert_eq!(records(&start, &MEMORY).len(), 128);

    let mut block = start.clone();
    assert_eq!(model::add(&mut block, 0x200_0000, 0x1000, 0, 0), 6);
    assert_eq!(block, start);

    assert_eq!(model::add(&mut block, 0x1000, 0x1000, 0, 0), 0);
    assert_eq!(records(&block, &MEMORY).len(), 127);

    let mut block = start.clone();
    assert_eq!(model::remove(&mut block, 0x2400, 0x400), 6);
    assert_eq!(block, start);
    assert_eq!(model::remove(&mut block, 0x2000, 0x1000), 0);
    assert_eq!(records(&block, &MEMORY).len(), 127);
}

#[test]
fn case_11_full_taken_table() {
    let start = taken_comb();
    assert_eq!(records(&start, &TAKEN).len(), 512);

    let mut block = start.clone();
    assert_eq!(model::reserve(&mut block, 0x200_0000, 0x1000), 6);
    assert_eq!(block, start);

    assert_eq!(model::reserve(&mut block, 0x1000, 0x1000), 0);
    assert_eq!(records(&block, &TAKEN).len(), 511);

    let mut block = start.clone();
    assert_eq!(model::free(&mut block, 0x2400, 0x400), 6);
    assert_eq!(block, start);
    assert_eq!(model::free(&mut block, 0x2000, 0x1000), 0);
    assert_eq!(records(&block, &TAKEN).len(), 511);
}

#[test]
fn case_11_each_table_by_its_own_capacity() {
    // A full memory table leaves the taken one its room, and the other way.
    let mut block = comb();
    for i in 0..512 {
        assert_eq!(model::reserve(&mut block, i * 0x2000, 0x1000), 0);
    }
    assert_eq!(model::reserve(&mut block, 0x200_0000, 1), 6);
    assert_eq!(model::add(&mut block, 0x200_0000, 1, 0, 0), 6);
    let mut block = taken_comb();
    for i in 0..128 {
        assert_eq!(model::add(&mut block, i * 0x2000, 0x1000, 0, 0), 0);
    }
    assert_eq!(model::add(&mut block, 0x200_0000, 1, 0, 0), 6);
}

#[test]
fn case_12_next_free() {
    let block = case_4_tables();
    assert_eq!(next_free(&block, 0x18800, ANY_NODE), Ok((0x19000, 0x20000)));
    assert_eq!(next_free(&block, 0x1A000, ANY_NODE), Ok((0x1A000, 0x20000)));
    assert_eq!(next_free(&block, 0x20000, ANY_NODE), Err(5));
}

// The table of numbers, each on both sides.

#[test]
fn number_1_fresh_asks_only_for_the_length() {
    for len in [0, 1, 79, 80, 6223, 6224, 6225, 15439, 15441, 30880] {
        let mut block = vec![0x3C; len];
        assert_eq!(model::fresh(&mut block), 1);
        assert_eq!(block, vec![0x3C; len]);
    }
    assert_eq!(fresh().len(), 15440);
}

/// Every command on one block, with numbers that would be done on a good one.
fn all_commands(block: &[u8]) -> Vec<u32> {
    let changes: [fn(&mut [u8]) -> u32; 10] = [
        |b| model::set(b, 5, 1),
        |b| model::set_image_end(b, 5),
        |b| model::add(b, 0x30000, 1, 0, 0),
        |b| model::remove(b, 0x10000, 1),
        |b| model::mark(b, 0x10000, 1, NO_MAP),
        |b| model::unmark(b, 0x10000, 1, NO_MAP),
        |b| model::reserve(b, 0x10000, 1),
        |b| model::free(b, 0x10000, 0),
        |b| model::trim(b, 4096),
        |b| model::intake_e820(b, &report(&[(0x30000, 1, 1)])),
    ];
    let mut numbers = Vec::new();
    for change in changes {
        let mut copy = block.to_vec();
        numbers.push(change(&mut copy));
        if numbers.last() != Some(&0) {
            assert_eq!(copy, block);
        }
    }
    let number = |answer: Result<(u64, u64), u32>| answer.err().unwrap_or(0);
    numbers.push(number(next_free(block, 0, ANY_NODE)));
    numbers.push(number(find(block, &query(1, 1))));
    numbers.push(number(allocate(&mut block.to_vec(), &query(1, 1))));
    numbers
}

#[test]
fn number_1_every_way_a_block_can_be_bad() {
    let mut good = case_4_tables();
    // A second memory record that touches with another tag, a third apart.
    assert_eq!(model::add(&mut good, 0x20000, 0x1000, 4, 63), 0);
    assert_eq!(model::add(&mut good, 0x40000, 0x1000, 0, 0), 0);
    assert_eq!(model::reserve(&mut good, 0x50000, 0x10), 0);
    assert_eq!(all_commands(&good), [0; 13]);

    let bad = |what: &str, block: &[u8]| {
        assert_eq!(all_commands(block), [1; 13], "{what}");
        // Taken, not taken, in part taken.
        for (base, size) in [(0x18000, 1), (0x10000, 1), (0x17FFF, 2)] {
            assert_eq!(freed(block, base, size), Err(1), "{what}");
        }
    };
    let put = |at: usize, bytes: &[u8]| {
        let mut block = good.clone();
        block[at..at + bytes.len()].copy_from_slice(bytes);
        block
    };
    let word = |at: usize, x: u32| put(at, &x.to_le_bytes());
    for len in [0, 1, 79, 80, 6223, 6224, 15439] {
        bad("short", &good[..len]);
    }
    bad("edition 1", &printed_old());
    bad(
        "edition 1, longer",
        &[&printed_old()[..], &[0; 9216]].concat(),
    );
    bad("long", &[&good[..], &[0]].concat());
    for (at, x) in [
        (0, 0),
        (0, 1),
        (0, 3),
        (4, 1),
        (4, 3),
        (8, 2),
        (12, 81),
        (16, 2),
        (16, 4),
        (16, 129),
        (16, u32::MAX),
        (20, 127),
        (20, 512),
        (24, 1),
        (28, 3153),
        (32, 1),
        (32, 3),
        (32, 513),
        (36, 128),
        (36, 511),
        (36, 513),
        (48, 2),
        (48, u32::MAX),
        (52, 1),
        // illegal flags and nodes in memory, any tag in taken
        (80 + 16, 8),
        (80 + 16, 12),
        (80 + 16, 1 << 31),
        (80 + 16, u32::MAX),
        (80 + 20, 64),
        (80 + 20, u32::MAX),
        (3152 + 16, 1),
        (3152 + 16, 2),
        (3152 + 16, 4),
        (3152 + 16, 7),
        (3152 + 16, 8),
        (3152 + 20, 1),
        // bytes past the count
        (80 + 3 * 24, 1),
        (3152 + 2 * 24 + 20, 1),
        (6220, 1 << 31),
        (15436, 1 << 31),
    ] {
        bad(&format!("word {x:#x} at {at}"), &word(at, x));
    }
    for at in [56, 64] {
        let right = long(&good, at);
        for wrong in [right + 1, right - 1, 0] {
            bad("total", &put(at, &wrong.to_le_bytes()));
        }
    }
    // Any limit, either direction and any image end are good.
    for (limit, direction) in [(0, 0), (1, 1), (u64::MAX, 1)] {
        let mut block = good.clone();
        assert_eq!(model::set(&mut block, limit, direction), 0);
        assert!(model::Board::read(&block).is_some());
    }
    for end in [1u64, 4096, 1 << 32, 1 << 63, u64::MAX] {
        let block = put(72, &end.to_le_bytes());
        assert_eq!(all_commands(&block), [0; 13]);
    }
}

/// A block with these raw records, totals summed as they stand.
fn raw(memory: &[(u64, u64, u32, u32)], taken: &[(u64, u64, u32, u32)]) -> Vec<u8> {
    let mut block = fresh();
    for (body, list) in [(&MEMORY, memory), (&TAKEN, taken)] {
        let sum = list.iter().fold(0u64, |sum, r| sum.wrapping_add(r.1));
        block[body.total_at..body.total_at + 8].copy_from_slice(&sum.to_le_bytes());
        let count = list.len() as u32;
        block[body.entry + 8..body.entry + 12].copy_from_slice(&count.to_le_bytes());
        for (i, &(base, size, flags, node)) in list.iter().enumerate() {
            let at = body.offset + i * RECORD_LEN;
            block[at..at + 8].copy_from_slice(&base.to_le_bytes());
            block[at + 8..at + 16].copy_from_slice(&size.to_le_bytes());
            block[at + 16..at + 20].copy_from_slice(&flags.to_le_bytes());
            block[at + 20..at + 24].copy_from_slice(&node.to_le_bytes());
        }
    }
    block
}

#[test]
fn number_1_lists_that_are_not_the_shortest() {
    let is_good = |memory: &[(u64, u64, u32, u32)], taken: &[(u64, u64, u32, u32)]| {
        model::Board::read(&raw(memory, taken)).is_some()
    };
    let plain = |list: &[(u64, u64)]| -> Vec<(u64, u64, u32, u32)> {
        list.iter().map(|&(b, s)| (b, s, 0, 0)).collect()
    };
    let max = u64::MAX;
    for (list, good) in [
        (vec![(0, 1)], true),
        (vec![(0, 0)], false),                 // empty
        (vec![(0, 10), (11, 10)], true),       // apart
        (vec![(0, 10), (10, 10)], false),      // touching, equal tags
        (vec![(0, 10), (9, 10)], false),       // overlapping
        (vec![(0, 10), (0, 10)], false),       // twice
        (vec![(11, 10), (0, 10)], false),      // falling
        (vec![(0, 30), (10, 5)], false),       // inside
        (vec![(0, max)], true),                // all that can be
        (vec![(1, max - 1)], true),            // ends at 2^64 - 1
        (vec![(1, max)], false),               // ends at 2^64
        (vec![(2, max)], false),               // ends above 2^64
        (vec![(max - 1, 1)], true),            // the last storable address
        (vec![(max, 1)], false),               // the last address
        (vec![(max, 0)], false),               // empty at the last address
        (vec![(5, max), (6, 10)], false),      // wraps onto the next
        (vec![(0, 4), (5, 0), (6, 4)], false), // empty in the middle
    ] {
        assert_eq!(is_good(&plain(&list), &[]), good, "memory {list:?}");
        assert_eq!(is_good(&[], &plain(&list)), good, "taken {list:?}");
    }
    assert!(is_good(
        &[(0, 10, 0, 0), (10, 10, 0, 1), (20, 1, 4, 1)],
        &[]
    ));
    assert!(!is_good(&[(0, 10, 0, 1), (10, 10, 0, 1)], &[]));
    assert!(!is_good(&[(0, 10, 4, 1), (10, 10, 4, 1)], &[]));
    assert!(!is_good(&[(0, 10, 0, 0), (9, 10, 0, 1)], &[]));
    // Taken addresses need not be memory, and memory may be taken.
    assert!(is_good(&[(0, 10, 0, 0)], &[(5, 10, 0, 0)]));
}

#[test]
fn number_2_tags() {
    for (flags, node, number) in [
        (0, 0, 0),
        (4, 63, 0),
        (0, 64, 2),
        (4, u32::MAX, 2),
        (7, 64, 2),
        (8, 0, 2),
        (8, 63, 2),
        (u32::MAX, 64, 2),
    ] {
        let mut block = m();
        assert_eq!(model::add(&mut block, 0, 1, flags, node), number);
        assert_eq!(block == m(), number != 0);
        // A size of 0 does not hide a bad tag.
        let mut block = m();
        assert_eq!(model::add(&mut block, 0, 0, flags, node), number);
        assert_eq!(block, m());
    }
    for (node, number) in [(0, 0), (63, 5), (64, 2), (u32::MAX - 1, 2), (ANY_NODE, 0)] {
        let ask = Query {
            node,
            ..query(1, 1)
        };
        assert_eq!(find(&m(), &ask).err().unwrap_or(0), number);
        assert_eq!(allocate(&mut m(), &ask).err().unwrap_or(0), number);
        assert_eq!(next_free(&m(), 0, node).err().unwrap_or(0), number);
    }
}

#[test]
fn number_3_alignment() {
    for bit in 0..64 {
        let alignment = 1u64 << bit;
        assert_ne!(find(&m(), &query(1, alignment)), Err(3));
        assert_ne!(allocate(&mut m(), &query(1, alignment)), Err(3));
        assert_eq!(model::trim(&mut m(), alignment), 0);
    }
    for alignment in [0, 3, 5, 6, 4095, 4097, (1 << 63) + 1, u64::MAX] {
        assert_eq!(find(&m(), &query(1, alignment)), Err(3));
        assert_eq!(allocate(&mut m(), &query(1, alignment)), Err(3));
        let mut block = m();
        assert_eq!(model::trim(&mut block, alignment), 3);
        assert_eq!(block, m());
    }
}

#[test]
fn number_4_size_zero() {
    assert_eq!(find(&m(), &query(0, 1)), Err(4));
    assert_eq!(allocate(&mut m(), &query(0, 1)), Err(4));
    assert!(find(&m(), &query(1, 1)).is_ok());
    // In a table command a size of 0 is done and changes nothing.
    let mut block = m();
    assert_eq!(model::add(&mut block, 0x11000, 0, 4, 9), 0);
    assert_eq!(model::remove(&mut block, 0x11000, 0), 0);
    assert_eq!(model::mark(&mut block, 0x11000, 0, NO_MAP), 0);
    assert_eq!(model::unmark(&mut block, 0x11000, 0, NO_MAP), 0);
    assert_eq!(model::reserve(&mut block, 0x11000, 0), 0);
    assert_eq!(model::free(&mut block, 0x11000, 0), 0);
    assert_eq!(block, m());
}

#[test]
fn number_5_windows() {
    for direction in [TOP_DOWN, BOTTOM_UP] {
        let block = turned(m(), direction);
        let window = |size, start, end| {
            find(
                &block,
                &Query {
                    start,
                    end,
                    ..query(size, 1)
                },
            )
            .map(|(a, _)| a)
        };
        assert_eq!(window(0x10, 0x10000, 0x10010), Ok(0x10000));
        assert_eq!(window(0x11, 0x10000, 0x10010), Err(5));
        assert_eq!(window(0x10, 0x10001, 0x10010), Err(5));
        assert_eq!(window(1, 0x1FFFF, 0), Ok(0x1FFFF));
        assert_eq!(window(1, 0x20000, 0), Err(5));
        assert_eq!(window(1, 0x18000, 0x17000), Err(5));
        assert_eq!(window(u64::MAX, 0, 0), Err(5));
        assert_eq!(window(1, u64::MAX, u64::MAX), Err(5));
    }
}

#[test]
fn number_6_in_each_command() {
    // add, remove, mark and unmark on a full memory table
    let full = comb();
    let mut block = full.clone();
    assert_eq!(model::mark(&mut block, 0x2000, 1, NO_MAP), 6);
    assert_eq!(block, full);
    assert_eq!(model::mark(&mut block, 0x2000, 0x1000, NO_MAP), 0);
    assert_eq!(records(&block, &MEMORY).len(), 128);
    let marked = block.clone();
    assert_eq!(model::unmark(&mut block, 0x2800, 0x10, NO_MAP), 6);
    assert_eq!(block, marked);
    assert_eq!(model::unmark(&mut block, 0x2000, 0x1000, NO_MAP), 0);
    assert_eq!(block, full);
    assert_eq!(model::add(&mut block, 0x3000, 1, 0, 1), 6);
    assert_eq!(model::add(&mut block, 0x3000, 1, 0, 0), 0);
    assert_eq!(model::remove(&mut block, 0x2001, 1), 6);

    // reserve, free and allocate on a full taken table
    let full = taken_comb();
    let mut block = full.clone();
    assert_eq!(model::reserve(&mut block, 0x200_0000, 1), 6);
    assert_eq!(model::free(&mut block, 0x10, 1), 6);
    assert_eq!(block, full);
    assert_eq!(model::reserve(&mut block, 0x1000, 1), 0);
    assert_eq!(model::free(&mut block, 0, 0x1001), 0);
    assert_eq!(records(&block, &TAKEN).len(), 511);
    assert_eq!(model::free(&mut block, 0x2010, 1), 0);
    assert_eq!(records(&block, &TAKEN).len(), 512);
    assert_eq!(model::free(&mut block, 0x4010, 1), 6);

    let mut block = full.clone();
    assert_eq!(model::add(&mut block, 0x200_0000, 0x1000, 0, 0), 0);
    assert_eq!(find_address(&block, 0x1000, 1), Ok(0x200_0000));
    assert_eq!(allocate(&mut block, &query(0x1000, 1)), Err(6));
    // There is no second try at an address that would merge.
    assert_eq!(model::add(&mut block, 0x1000, 0x1000, 0, 0), 0);
    assert_eq!(allocate(&mut block, &query(0x1000, 1)), Err(6));
    assert_eq!(model::set(&mut block, u64::MAX, BOTTOM_UP), 0);
    assert_eq!(
        allocate(&mut block, &query(0x1000, 1)),
        Ok((0x1000, 0x2000))
    );
    assert_eq!(records(&block, &TAKEN).len(), 511);
}

#[test]
fn number_7_direction() {
    for (direction, number) in [(0, 0), (1, 0), (2, 7), (u32::MAX, 7)] {
        let mut block = m();
        assert_eq!(model::set(&mut block, 0x1234, direction), number);
        if number == 0 {
            assert_eq!(long(&block, 40), 0x1234);
            assert_eq!(word(&block, 48), direction);
        } else {
            assert_eq!(block, m());
        }
    }
}

#[test]
fn number_8_slip_length() {
    for len in [0, 1, 8, 15, 17, 32] {
        // The block is bad too: the slip is looked at first.
        for mut block in [m(), vec![0; 10]] {
            let before = block.clone();
            let mut slip = vec![0x5A; len];
            assert_eq!(model::find(&block, &query(1, 1), &mut slip), 8);
            assert_eq!(model::allocate(&mut block, &query(1, 1), &mut slip), 8);
            assert_eq!(model::next_free(&block, 0, ANY_NODE, 0, &mut slip), 8);
            assert_eq!(slip, vec![0x5A; len]);
            assert_eq!(block, before);
        }
    }
}

#[test]
fn the_first_number_wins() {
    // Everything wrong at once, then one fault less at a time.
    let bad = vec![0; 7];
    let worst = Query {
        size: 0,
        alignment: 3,
        start: 0,
        end: 0,
        node: 64,
        wish: 4,
    };
    assert_eq!(model::find(&bad, &worst, &mut [1; 15]), 8);
    assert_eq!(find(&bad, &worst), Err(1));
    assert_eq!(find(&fresh(), &worst), Err(2));
    assert_eq!(find(&fresh(), &Query { wish: 3, ..worst }), Err(2));
    let worst = Query { node: 63, ..worst };
    assert_eq!(find(&fresh(), &worst), Err(2));
    let worst = Query { wish: 3, ..worst };
    assert_eq!(find(&fresh(), &worst), Err(3));
    let worst = Query {
        alignment: 2,
        ..worst
    };
    assert_eq!(find(&fresh(), &worst), Err(4));
    let worst = Query { size: 1, ..worst };
    assert_eq!(find(&fresh(), &worst), Err(5));
    assert_eq!(model::set(&mut bad.clone(), 0, 2), 1);
    assert_eq!(model::add(&mut bad.clone(), 0, 0, 8, 64), 1);
    assert_eq!(model::add(&mut comb(), 0x200_0000, 1, 8, 0), 2);
    assert_eq!(model::trim(&mut bad.clone(), 0), 1);
}

// Slips we have already paid for.

#[test]
fn slip_end_minus_size() {
    for size in [0x1001, 0x2000, 0x3000, 1 << 63, u64::MAX] {
        let block = memory(&[(0x1000, 0x2000)]);
        assert_eq!(find_address(&block, size, 1), Err(5));
    }
    assert_eq!(
        find_address(&memory(&[(0x1000, 0x2000)]), 0x1000, 1),
        Ok(0x1000)
    );
}

#[test]
fn slip_rounding_past_the_top() {
    let mut block = turned(memory(&[(u64::MAX - 10, u64::MAX)]), BOTTOM_UP);
    for bit in 4..64 {
        assert_eq!(find_address(&block, 1, 1 << bit), Err(5));
    }
    // 2^64 - 8 is a multiple of 8 and is in the run.
    assert_eq!(find_address(&block, 1, 8), Ok(u64::MAX - 7));
    assert_eq!(model::trim(&mut block, 1 << 63), 0);
    assert!(records(&block, &MEMORY).is_empty());
}

#[test]
fn slip_counting_before_merging() {
    // The range that spans the whole comb leaves one record.
    let mut block = comb();
    assert_eq!(model::add(&mut block, 0, 0x10_0000, 0, 0), 0);
    assert_eq!(records(&block, &MEMORY), [(0, 0x10_0000, 0, 0)]);
    let mut block = taken_comb();
    assert_eq!(model::reserve(&mut block, 0, 0x40_0000), 0);
    assert_eq!(records(&block, &TAKEN), [(0, 0x40_0000, 0, 0)]);
}

#[test]
fn slip_trim_keeps_the_total_right() {
    let mut block = memory(&[(0x1001, 0x3FFF), (0x5000, 0x6000), (0x7001, 0x7FFF)]);
    assert_eq!(model::trim(&mut block, 0x1000), 0);
    assert_eq!(
        records(&block, &MEMORY),
        [(0x2000, 0x1000, 0, 0), (0x5000, 0x1000, 0, 0)]
    );
    assert_eq!(total(&block, &MEMORY), 0x2000);
}

#[test]
fn slip_address_zero_is_an_answer() {
    let block = memory(&[(0, 0x2000)]);
    assert_eq!(next_free(&block, 0, ANY_NODE), Ok((0, 0x2000)));
    assert_eq!(next_free(&block, 0, 0), Ok((0, 0x2000)));
}

#[test]
fn slip_touching_ends_with_other_tags_stay_apart() {
    let mut block = memory(&[(0x1000, 0x2000)]);
    assert_eq!(model::add(&mut block, 0x2000, 0x1000, 0, 1), 0);
    assert_eq!(model::add(&mut block, 0x3000, 0x1000, 4, 1), 0);
    assert_eq!(records(&block, &MEMORY).len(), 3);
    assert_eq!(model::mark(&mut block, 0x2000, 0x1000, NO_MAP), 0);
    assert_eq!(
        records(&block, &MEMORY),
        [(0x1000, 0x1000, 0, 0), (0x2000, 0x2000, 4, 1)]
    );
}

#[test]
fn no_map_and_taken_are_never_offered() {
    let mut block = m();
    assert_eq!(model::mark(&mut block, 0x10000, 0x8000, NO_MAP), 0);
    assert_eq!(model::reserve(&mut block, 0x18000, 0x7FFF), 0);
    assert_eq!(find_address(&block, 1, 1), Ok(0x1FFFF));
    assert_eq!(find_address(&block, 2, 1), Err(5));
    assert_eq!(next_free(&block, 0, ANY_NODE), Ok((0x1FFFF, 0x20000)));
    assert_eq!(model::free(&mut block, 0x18000, 0x7FFF), 0);
    assert_eq!(find_address(&block, 0x8000, 1), Ok(0x18000));
}

// The E820 intake.

const PAGE: u64 = 4096;
const LAST: u64 = u64::MAX;

fn report(entries: &[(u64, u64, u32)]) -> Vec<u8> {
    let mut bytes = Vec::new();
    for (base, length, kind) in entries {
        bytes.extend(base.to_le_bytes());
        bytes.extend(length.to_le_bytes());
        bytes.extend(kind.to_le_bytes());
    }
    bytes
}

/// Takes a report in; a refusal must leave the block as it was.
fn intake(block: &mut [u8], bytes: &[u8]) -> u32 {
    let before = block.to_vec();
    let number = model::intake_e820(block, bytes);
    if number != 0 {
        assert_eq!(block, before);
    }
    number
}

fn intake_of(block: &mut [u8], entries: &[(u64, u64, u32)]) -> u32 {
    intake(block, &report(entries))
}

/// The memory records after an intake on a fresh block.
fn after_intake(entries: &[(u64, u64, u32)]) -> Vec<(u64, u64, u32, u32)> {
    let mut block = fresh();
    assert_eq!(intake_of(&mut block, entries), 0);
    assert!(records(&block, &TAKEN).is_empty());
    records(&block, &MEMORY)
}

/// `count` usable pages with one page between, from `base`.
fn pages(base: u64, count: u64) -> Vec<(u64, u64, u32)> {
    (0..count).map(|i| (base + i * 2 * PAGE, PAGE, 1)).collect()
}

#[test]
fn intake_lengths_of_request_e1() {
    assert_eq!(REPORT_ENTRY_LEN, 20);
    assert_eq!(REPORT_ENTRIES, 128);
    assert_eq!(INTAKE_STEP, 4096);
}

#[test]
fn intake_of_printed_bytes() {
    let bytes = hex("0010000000000000 0010000000000000 01000000
         0030000000000000 0010000000000000 02000000");
    let mut block = fresh();
    assert_eq!(intake(&mut block, &bytes), 0);
    assert_eq!(block, memory(&[(0x1000, 0x2000)]));
}

#[test]
fn intake_10_length_not_whole_entries() {
    let bytes = report(&pages(0x10000, 3));
    for len in 0..=60 {
        let number = if len % 20 == 0 { 0 } else { 10 };
        let mut block = fresh();
        assert_eq!(intake(&mut block, &bytes[..len]), number, "{len} bytes");
        assert_eq!(
            records(&block, &MEMORY).len(),
            if number == 0 { len / 20 } else { 0 }
        );
    }
}

#[test]
fn intake_10_over_128_entries() {
    assert_eq!(after_intake(&pages(0x10000, 128)).len(), 128);
    let mut block = fresh();
    assert_eq!(intake_of(&mut block, &pages(0x10000, 129)), 10);
    // Entries that are passed over count too.
    let passed = |count| vec![(0x10000, PAGE, 2); count];
    assert_eq!(intake_of(&mut block, &passed(128)), 0);
    assert_eq!(intake_of(&mut block, &passed(129)), 10);
    assert_eq!(intake(&mut block, &vec![0; 128 * 20 + 1]), 10);
    assert_eq!(intake(&mut block, &vec![0; 1 << 20]), 10);
    assert_eq!(block, fresh());
}

#[test]
fn intake_first_number_wins() {
    // 1 before 10 before 6.
    let full = comb();
    let mut bad = full.clone();
    bad[0] ^= 1;
    let apart = pages(0x200_0000, 1);
    let too_many = pages(0x200_0000, 129);
    let ragged = [report(&apart), vec![0]].concat();
    for bytes in [report(&too_many), ragged, report(&apart), Vec::new()] {
        assert_eq!(intake(&mut bad, &bytes), 1);
        assert_eq!(intake(&mut full[..BLOCK_LEN - 1].to_vec(), &bytes), 1);
        assert_eq!(intake(&mut printed_old(), &bytes), 1);
        assert_eq!(intake(&mut [], &bytes), 1);
    }
    let mut block = full.clone();
    assert_eq!(intake_of(&mut block, &too_many), 10);
    assert_eq!(intake(&mut block, &[report(&apart), vec![0]].concat()), 10);
    assert_eq!(intake_of(&mut block, &apart), 6);
    assert_eq!(block, full);
}

#[test]
fn intake_6_midway_restores_every_byte() {
    // Room for one record more, and memory that a trim would change.
    let mut start = fresh();
    for i in 0..127 {
        assert_eq!(model::add(&mut start, i * 0x2000 + 1, 0x1000, 0, 1), 0);
    }
    let mut block = start.clone();
    let two = pages(0x200_0000, 2);
    assert_eq!(intake_of(&mut block, &two), 6);
    assert_eq!(block, start);
    assert_eq!(intake_of(&mut block, &two[..1]), 0);
    assert_eq!(records(&block, &MEMORY), [(0x200_0000, PAGE, 0, 0)]);
    // What comes after the entry at fault does not matter.
    let mut block = start.clone();
    let [first, second] = two[..] else { panic!() };
    let between = (first.0, 3 * PAGE, 1);
    assert_eq!(intake_of(&mut block, &[first, second, between]), 6);
    assert_eq!(intake_of(&mut block, &[first, between, second]), 0);
}

#[test]
fn intake_6_although_the_trimmed_list_would_fit() {
    let full = comb();
    let mut block = full.clone();
    // One byte, which the trim would take away again.
    assert_eq!(intake_of(&mut block, &[(0x200_0001, 1, 1)]), 6);
    // All that is there would go too.
    let mut crumbs = fresh();
    for i in 0..128 {
        assert_eq!(model::add(&mut crumbs, i * 2, 1, 0, 0), 0);
    }
    assert_eq!(intake_of(&mut crumbs, &[(0x1000, 1, 1)]), 6);
    assert_eq!(intake_of(&mut crumbs, &[]), 0);
    assert_eq!(crumbs, fresh());
    // Two orders, of which one is refused.
    let gap = (0x1000, PAGE, 1);
    let apart = (0x200_0000, PAGE, 1);
    assert_eq!(intake_of(&mut block, &[apart, gap]), 6);
    assert_eq!(block, full);
    assert_eq!(intake_of(&mut block, &[gap, apart]), 0);
    assert_eq!(records(&block, &MEMORY).len(), 128);
}

#[test]
fn intake_6_only_by_entries_that_are_added() {
    let mut block = comb();
    let full = block.clone();
    for kind in [0, 2, 3, 7, 8, u32::MAX] {
        assert_eq!(intake_of(&mut block, &[(0x200_0000, PAGE, kind)]), 0);
        assert_eq!(block, full);
    }
    // Done already, empty, or cut to nothing.
    for entry in [(0, PAGE, 1), (0x200_0000, 0, 1), (LAST, PAGE, 1)] {
        assert_eq!(intake_of(&mut block, &[entry]), 0);
        assert_eq!(block, full);
    }
}

#[test]
fn intake_one_entry_can_need_many_records() {
    // 64 records of another tag: filling their gaps needs 63 more.
    let mut start = fresh();
    for i in 0..65 {
        assert_eq!(model::add(&mut start, i * 2 * PAGE, PAGE, 0, 1), 0);
    }
    let mut block = start.clone();
    assert_eq!(intake_of(&mut block, &[(0, 129 * PAGE, 1)]), 6);
    assert_eq!(intake_of(&mut block, &[(PAGE, 128 * PAGE, 1)]), 6);
    assert_eq!(intake_of(&mut block, &[(2 * PAGE, 127 * PAGE, 1)]), 0);
    assert_eq!(records(&block, &MEMORY).len(), 128);
}

#[test]
fn intake_kinds() {
    let kinds = [0, 1, 2, 3, 4, 5, 6, 7, 8, 9, 257, 1 << 24, LAST as u32];
    let entries: Vec<_> = (1..)
        .zip(kinds)
        .map(|(i, kind)| (i * 0x10000, PAGE, kind))
        .collect();
    assert_eq!(after_intake(&entries), [(0x20000, PAGE, 0, 0)]);
    for entry in entries {
        assert_eq!(after_intake(&[entry]).len(), usize::from(entry.2 == 1));
    }
}

#[test]
fn intake_overlapping_and_touching_entries() {
    for (second, wanted) in [
        ((0x14000, 0x4000), vec![(0x10000, 0x8000)]),
        ((0x13000, 0x4000), vec![(0x10000, 0x7000)]),
        ((0x11000, 0x1000), vec![(0x10000, 0x4000)]),
        ((0x10000, 0x4000), vec![(0x10000, 0x4000)]),
        ((0xF000, 0x6000), vec![(0xF000, 0x6000)]),
        (
            (0x15000, 0x1000),
            vec![(0x10000, 0x4000), (0x15000, 0x1000)],
        ),
        // A byte between them is a page between them after the trim.
        (
            (0x14001, 0x1FFF),
            vec![(0x10000, 0x4000), (0x15000, 0x1000)],
        ),
    ] {
        let entries = [(0x10000, 0x4000, 1), (second.0, second.1, 1)];
        let wanted: Vec<_> = wanted.into_iter().map(|(b, s)| (b, s, 0, 0)).collect();
        assert_eq!(after_intake(&entries), wanted);
        assert_eq!(after_intake(&[entries[1], entries[0]]), wanted);
    }
    // Entries of other kinds take nothing away.
    let over = [(0x10000, 0x4000, 1), (0x11000, 0x1000, 2)];
    assert_eq!(after_intake(&over), [(0x10000, 0x4000, 0, 0)]);
}

#[test]
fn intake_pages_of_pieces() {
    // The pieces of a page make it whole, trimmed only at the end.
    let pieces = [(0x1000, 0x7FF, 1), (0x1801, 0x7FF, 1), (0x17FF, 2, 1)];
    assert_eq!(after_intake(&pieces), [(0x1000, PAGE, 0, 0)]);
    assert_eq!(after_intake(&pieces[..2]), []);
    // Smaller than a page, a page off its place, and on both sides of it.
    assert_eq!(after_intake(&[(0x1000, 0xFFF, 1)]), []);
    assert_eq!(after_intake(&[(0x1001, 0x1FFE, 1)]), []);
    assert_eq!(after_intake(&[(0x1001, 0x1FFF, 1)]), [(0x2000, PAGE, 0, 0)]);
    assert_eq!(after_intake(&[(0xFFF, 0x1001, 1)]), [(0x1000, PAGE, 0, 0)]);
}

#[test]
fn intake_at_the_top() {
    let page = LAST - 4095;
    // The last page lacks its last address: nothing of it is left.
    assert_eq!(after_intake(&[(page, 0x2000, 1)]), []);
    assert_eq!(after_intake(&[(page, PAGE, 1)]), []);
    assert_eq!(after_intake(&[(page + 1, 0xFFE, 1)]), []);
    assert_eq!(after_intake(&[(LAST, 1, 1)]), []);
    assert_eq!(after_intake(&[(LAST, LAST, 1)]), []);
    // The page before it stays.
    let before = [(page - PAGE, PAGE, 0, 0)];
    for length in [PAGE, PAGE + 1, 2 * PAGE - 1, 2 * PAGE, 3 * PAGE, LAST] {
        assert_eq!(after_intake(&[(page - PAGE, length, 1)]), before);
    }
    assert_eq!(after_intake(&[(page - PAGE, PAGE - 1, 1)]), []);
    assert_eq!(after_intake(&[(0, LAST, 1)]), [(0, page, 0, 0)]);
    // An end past the top never comes round to 0.
    assert_eq!(
        after_intake(&[(0x1000, LAST, 1)]),
        [(0x1000, page - 0x1000, 0, 0)]
    );
}

#[test]
fn intake_size_zero() {
    assert_eq!(after_intake(&[(0x1000, 0, 1), (0, 0, 1), (LAST, 0, 1)]), []);
    let split = [(0x1000, 0x1000, 1), (0x1800, 0, 1)];
    assert_eq!(after_intake(&split), [(0x1000, PAGE, 0, 0)]);
}

#[test]
fn intake_empty_report_only_trims() {
    for entries in [vec![], vec![(0x1000, PAGE, 2)], vec![(0x1800, 0, 1)]] {
        let mut block = fresh();
        assert_eq!(model::add(&mut block, 0x1001, 0x2FFF, 4, 7), 0);
        assert_eq!(model::add(&mut block, 0x8000, 0xFFF, 0, 0), 0);
        assert_eq!(model::reserve(&mut block, 0x1234, 5), 0);
        assert_eq!(model::set(&mut block, 99, BOTTOM_UP), 0);
        let mut trimmed = block.clone();
        assert_eq!(model::trim(&mut trimmed, PAGE), 0);
        assert_eq!(intake_of(&mut block, &entries), 0);
        assert_eq!(block, trimmed);
        assert_eq!(records(&block, &MEMORY), [(0x2000, 0x2000, 4, 7)]);
        assert_eq!(records(&block, &TAKEN), [(0x1234, 5, 0, 0)]);
        assert_eq!(total(&block, &MEMORY), 0x2000);
    }
}

#[test]
fn intake_keeps_tags_and_the_rest_of_the_block() {
    let mut block = fresh();
    assert_eq!(model::add(&mut block, 0x2000, 0x1000, 4, 9), 0);
    assert_eq!(model::add(&mut block, 0x5000, 0x1800, 0, 1), 0);
    assert_eq!(model::reserve(&mut block, 0x2800, 0x10), 0);
    assert_eq!(model::set(&mut block, 77, BOTTOM_UP), 0);
    assert_eq!(intake_of(&mut block, &[(0x1000, 0x7000, 1)]), 0);
    // The plain part beside the ragged record loses its half page as well.
    assert_eq!(
        records(&block, &MEMORY),
        [
            (0x1000, 0x1000, 0, 0),
            (0x2000, 0x1000, 4, 9),
            (0x3000, 0x2000, 0, 0),
            (0x5000, 0x1000, 0, 1),
            (0x7000, 0x1000, 0, 0),
        ]
    );
    assert_eq!(total(&block, &MEMORY), 0x6000);
    assert_eq!(records(&block, &TAKEN), [(0x2800, 0x10, 0, 0)]);
    assert_eq!((long(&block, 40), word(&block, 48)), (77, BOTTOM_UP));
}

#[test]
fn intake_is_its_adds_and_a_trim() {
    let entries = [
        (0x9FC00, 0x400, 2),
        (0, 0x9FC00, 1),
        (0x58000FFF, 0x20001, 1),
        (0x100000, 0x1FE01000, 1),
        (0x40000000, 0x10000000, 1),
        (0x48000000, 0x10000000, 1),
    ];
    let mut by_calls = fresh();
    for (base, size, kind) in entries {
        if kind == 1 {
            assert_eq!(model::add(&mut by_calls, base, size, 0, 0), 0);
        }
    }
    assert_eq!(model::trim(&mut by_calls, PAGE), 0);
    let mut block = fresh();
    assert_eq!(intake_of(&mut block, &entries), 0);
    assert_eq!(block, by_calls);
}

#[test]
fn intake_in_every_order() {
    // The third entry joins the first two; the fourth stands apart.
    let entries = [
        (0x1000, 0x1801, 1),
        (0x5FFF, 0x1001, 1),
        (0x2000, 0x4800, 1),
        (0x20001, 0x1FFF, 1),
        (0x3000, 0x1000, 2),
    ];
    let mut orders = vec![vec![]];
    for entry in entries {
        orders = orders
            .iter()
            .flat_map(|order: &Vec<_>| {
                (0..=order.len()).map(move |at| {
                    let mut longer = order.clone();
                    longer.insert(at, entry);
                    longer
                })
            })
            .collect();
    }
    // With room for two records an order is refused when the third comes last
    // of the first four: one order in four.
    for (there, done) in [(0, 120), (100, 120), (125, 120), (126, 90), (127, 0)] {
        let mut start = fresh();
        for i in 0..there {
            let base = 0x10_0800 + i * 0x10000;
            assert_eq!(model::add(&mut start, base, 0x2800, 4, 3), 0);
        }
        let mut ends = Vec::new();
        for order in &orders {
            let mut block = start.clone();
            if intake_of(&mut block, order) == 0 {
                ends.push(block);
            }
        }
        assert_eq!(ends.len(), done, "{there} records");
        ends.dedup();
        assert_eq!(ends.len(), usize::from(done > 0));
        for end in ends {
            assert_eq!(records(&end, &MEMORY).len() as u64, there + 2);
        }
    }
}

// Request E3: the limit binds.

/// What find gives on a block in both directions, bottom-up first: the run's end is
/// that of next free there, and allocate gives the same.
fn both_runs(block: &[u8], limit: u64, query: &Query) -> [Result<(u64, u64), u32>; 2] {
    [BOTTOM_UP, TOP_DOWN].map(|direction| {
        let mut block = block.to_vec();
        assert_eq!(model::set(&mut block, limit, direction), 0);
        let found = find(&block, query);
        if let Ok((a, end)) = found {
            let next = next_free_of(&block, a, ANY_NODE, query.wish);
            assert_eq!(next, Ok((a, end)));
        }
        assert_eq!(allocate(&mut block, query), found);
        found
    })
}

/// The addresses of these, with memory in the ranges and nothing taken.
fn both(ranges: &[(u64, u64)], limit: u64, query: &Query) -> [Result<u64, u32>; 2] {
    both_runs(&memory(ranges), limit, query).map(|found| found.map(|(a, _)| a))
}

const M: [(u64, u64); 1] = [(0x10000, 0x20000)];

#[test]
fn limit_cuts_a_named_end() {
    let with = |size, end| {
        let named = Query {
            end,
            ..query(size, 1)
        };
        both(&M, 0x18000, &named)
    };
    // 0 means the limit; a named end below it stays; one at or above it is cut.
    assert_eq!(with(0x1000, 0), [Ok(0x10000), Ok(0x17000)]);
    assert_eq!(with(0x1000, 0x17FFF), [Ok(0x10000), Ok(0x16FFF)]);
    for end in [0x18000, 0x18001, 0x1FFFF, 0x20000, 0x20001, u64::MAX] {
        assert_eq!(with(0x1000, end), [Ok(0x10000), Ok(0x17000)]);
        assert_eq!(with(0x8000, end), [Ok(0x10000); 2]);
        assert_eq!(with(0x8001, end), [Err(5); 2]);
    }
    assert_eq!(with(0x7FFF, 0x17FFF), [Ok(0x10000); 2]);
    assert_eq!(with(0x8000, 0x17FFF), [Err(5); 2]);
    assert_eq!(with(1, 0x10000), [Err(5); 2]);
    assert_eq!(with(1, 0x10001), [Ok(0x10000); 2]);
}

#[test]
fn limit_at_or_below_4096_leaves_nothing() {
    for end in [0, 1, 4095, 4096, 4097, 0x20000, u64::MAX] {
        for limit in [0, 1, 4095, 4096] {
            let named = Query { end, ..query(1, 1) };
            assert_eq!(both(&[(0, 0x20000)], limit, &named), [Err(5); 2]);
        }
    }
    for end in [0, 4097, 4098, u64::MAX] {
        let named = Query { end, ..query(1, 1) };
        assert_eq!(both(&[(0, 0x20000)], 4097, &named), [Ok(4096); 2]);
        let two = Query { end, ..query(2, 1) };
        assert_eq!(both(&[(0, 0x20000)], 4097, &two), [Err(5); 2]);
    }
}

#[test]
fn limit_at_or_below_the_start_leaves_nothing() {
    for end in [0, 0x17FFF, 0x18000, 0x18001, 0x1C000, u64::MAX] {
        for start in [0x18000, 0x18001, 0x1BFFF, 0x20000, u64::MAX] {
            let named = Query {
                start,
                end,
                ..query(1, 1)
            };
            assert_eq!(both(&M, 0x18000, &named), [Err(5); 2]);
        }
    }
    for end in [0, 0x18000, 0x18001, u64::MAX] {
        let last = Query {
            start: 0x17FFF,
            end,
            ..query(1, 1)
        };
        assert_eq!(both(&M, 0x18000, &last), [Ok(0x17FFF); 2]);
        assert_eq!(both(&M, 0x18000, &Query { size: 2, ..last }), [Err(5); 2]);
    }
}

#[test]
fn limit_at_the_top() {
    let page = u64::MAX - 4095;
    let last = [(page, u64::MAX)];
    for end in [0, u64::MAX] {
        let all = Query {
            end,
            ..query(0xFFF, 1)
        };
        assert_eq!(both(&last, u64::MAX, &all), [Ok(page); 2]);
        assert_eq!(both(&last, u64::MAX - 1, &all), [Err(5); 2]);
        let less = Query { size: 0xFFE, ..all };
        assert_eq!(both(&last, u64::MAX - 1, &less), [Ok(page); 2]);
    }
}

#[test]
fn limit_does_not_bind_next_free() {
    for limit in [0, 1, 0x10000, 0x18000, u64::MAX] {
        let mut block = m();
        assert_eq!(model::set(&mut block, limit, TOP_DOWN), 0);
        assert_eq!(next_free(&block, 0, ANY_NODE), Ok((0x10000, 0x20000)));
        assert_eq!(next_free(&block, 0x19000, ANY_NODE), Ok((0x19000, 0x20000)));
    }
}

// Request E4: an edition 1 block converted.

/// Converts; the old block stays as lent, and after a refusal the other too.
fn convert(old: &[u8], block: &mut [u8]) -> u32 {
    let (old_before, before) = (old.to_vec(), block.to_vec());
    let number = model::convert(old, block);
    assert_eq!(old, old_before);
    if number != 0 {
        assert_eq!(number, 1);
        assert_eq!(block, before);
    }
    number
}

/// The edition 1 block that says what a block does, put together here: the same
/// bytes up to its end, but for edition and taken capacity.
fn to_old(block: &[u8]) -> Vec<u8> {
    assert!(records(block, &TAKEN).len() <= 128);
    let mut old = block[..6224].to_vec();
    old[0] = 1;
    old[36..40].copy_from_slice(&[128, 0, 0, 0]);
    old
}

/// Any bytes of a block's length.
fn any_bytes() -> Vec<u8> {
    (0..15440u32).map(|i| (i * 29 + 5) as u8).collect()
}

#[test]
fn convert_the_printed_block() {
    assert_eq!(to_old(&printed()), printed_old());
    for mut block in [any_bytes(), vec![0; 15440], vec![0xFF; 15440], fresh()] {
        assert_eq!(convert(&printed_old(), &mut block), 0);
        assert_eq!(block, printed());
    }
}

#[test]
fn convert_a_fresh_block() {
    let mut old = printed_old();
    old[16] = 0;
    old[56..64].fill(0);
    old[80..].fill(0);
    let mut block = any_bytes();
    assert_eq!(convert(&old, &mut block), 0);
    assert_eq!(block, fresh());
}

#[test]
fn convert_keeps_limit_and_direction() {
    for (limit, direction) in [(0, 0), (1, 1), (0x12345, 0), (u64::MAX, 1)] {
        let mut wanted = case_4_tables();
        assert_eq!(model::set(&mut wanted, limit, direction), 0);
        let mut block = any_bytes();
        assert_eq!(convert(&to_old(&wanted), &mut block), 0);
        assert_eq!(block, wanted);
        assert_eq!((long(&block, 40), word(&block, 48)), (limit, direction));
    }
}

#[test]
fn convert_full_tables() {
    // 128 records of several tags in memory, 128 taken.
    let mut wanted = fresh();
    for i in 0..128 {
        let (flags, node) = (4 * (i as u32 % 2), i as u32 % 64);
        assert_eq!(model::add(&mut wanted, i * 0x1000, 0x1000, flags, node), 0);
        assert_eq!(model::reserve(&mut wanted, i * 0x2000 + 7, 0x100), 0);
    }
    let mut block = any_bytes();
    assert_eq!(convert(&to_old(&wanted), &mut block), 0);
    assert_eq!(block, wanted);
    // There was no room in the old table; now there is.
    assert_eq!(model::reserve(&mut block, 0x200_0000, 1), 0);
    assert_eq!(records(&block, &TAKEN).len(), 129);
    assert_eq!(model::add(&mut block, 0x200_0000, 1, 0, 0), 6);
}

#[test]
fn convert_1_lengths() {
    let old = printed_old();
    for len in [0, 1, 80, 6223, 6224, 6225, 15439, 15441, 30880] {
        assert_eq!(convert(&old, &mut vec![0x3C; len]), 1);
    }
    let mut long_enough = old.clone();
    long_enough.resize(30880, 0);
    for len in [0, 1, 79, 80, 6223, 6225, 15439, 15440, 15441] {
        assert_eq!(convert(&long_enough[..len], &mut any_bytes()), 1);
    }
    assert_eq!(convert(&[], &mut []), 1);
    assert_eq!(convert(&old, &mut any_bytes()), 0);
}

#[test]
fn convert_1_a_current_block_is_no_old_one() {
    assert_eq!(convert(&printed(), &mut any_bytes()), 1);
    assert_eq!(convert(&printed()[..6224], &mut any_bytes()), 1);
    assert_eq!(convert(&fresh(), &mut fresh()), 1);
}

#[test]
fn convert_1_every_way_an_old_block_can_be_bad() {
    let mut good = case_4_tables();
    assert_eq!(model::add(&mut good, 0x20000, 0x1000, 4, 63), 0);
    assert_eq!(model::add(&mut good, 0x40000, 0x1000, 0, 0), 0);
    assert_eq!(model::reserve(&mut good, 0x50000, 0x10), 0);
    let old = to_old(&good);
    let mut block = any_bytes();
    assert_eq!(convert(&old, &mut block), 0);
    assert_eq!(block, good);
    for (at, x) in [
        (0, 0),
        (0, 2),
        (4, 1),
        (8, 2),
        (12, 81),
        (16, 2),
        (16, 4),
        (16, 129),
        (20, 127),
        (24, 1),
        (28, 3153),
        (32, 1),
        (32, 3),
        (32, 129),
        (36, 127),
        (36, 129),
        (36, 512),
        (48, 2),
        (52, 1),
        (72, 1),
        (76, 1 << 31),
        // By document 01 flags are 0 or 4 and nothing else.
        (80 + 16, 1),
        (80 + 16, 2),
        (80 + 16, 3),
        (80 + 16, 5),
        (80 + 16, 6),
        (80 + 16, 7),
        (80 + 16, 8),
        (80 + 20, 64),
        (3152 + 16, 4),
        (3152 + 20, 1),
        (80 + 3 * 24, 1),
        (3152 + 2 * 24 + 20, 1),
        (6220, 1 << 31),
    ] {
        let mut bad = old.clone();
        bad[at..at + 4].copy_from_slice(&u32::to_le_bytes(x));
        assert_eq!(convert(&bad, &mut any_bytes()), 1, "word {x:#x} at {at}");
    }
    for at in [56, 64] {
        for wrong in [long(&old, at) + 1, long(&old, at) - 1, 0] {
            let mut bad = old.clone();
            bad[at..at + 8].copy_from_slice(&wrong.to_le_bytes());
            assert_eq!(convert(&bad, &mut any_bytes()), 1);
        }
    }
    // Records out of order, and touching with equal tags.
    let mut bad = old.clone();
    bad[80..80 + 48].rotate_left(24);
    assert_eq!(convert(&bad, &mut any_bytes()), 1);
    let mut bad = old.clone();
    bad[80 + 24 + 16..80 + 48].fill(0);
    assert_eq!(convert(&bad, &mut any_bytes()), 1);
}

#[test]
fn no_other_command_takes_an_old_block() {
    assert_eq!(all_commands(&printed()), [0; 13]);
    assert_eq!(all_commands(&printed_old()), [1; 13]);
    assert_eq!(model::fresh(&mut printed_old()), 1);
}

// Request E5: the second number is the end of the free run.

#[test]
fn run_end_and_the_window() {
    // Named ends below, at and above the run's end; the same as limits.
    for (end, highest) in [
        (0x10010, 0x10000),
        (0x1FFFF, 0x1FFEF),
        (0x20000, 0x1FFF0),
        (0x20001, 0x1FFF0),
        (u64::MAX, 0x1FFF0),
    ] {
        let wanted = [Ok((0x10000, 0x20000)), Ok((highest, 0x20000))];
        let named = Query {
            end,
            ..query(0x10, 1)
        };
        assert_eq!(both_runs(&m(), u64::MAX, &named), wanted);
        assert_eq!(both_runs(&m(), end, &query(0x10, 1)), wanted);
        // Of both the smaller makes the window, and neither cuts the run.
        for other in [0x20000, 0x20001, u64::MAX] {
            if other >= end {
                assert_eq!(both_runs(&m(), other, &named), wanted);
                let named = Query {
                    end: other,
                    ..named
                };
                assert_eq!(both_runs(&m(), end, &named), wanted);
            }
        }
    }
    // A start inside the run; a window that is exactly the size.
    let inside = Query {
        start: 0x12345,
        end: 0x12346,
        ..query(1, 1)
    };
    assert_eq!(
        both_runs(&m(), u64::MAX, &inside),
        [Ok((0x12345, 0x20000)); 2]
    );
}

#[test]
fn run_end_at_what_is_taken() {
    // Case 4's tables: the run ends where the next taken record begins, and the
    // one behind it with the memory.
    let block = case_4_tables();
    let with = |start, end| {
        let named = Query {
            start,
            end,
            ..query(0x800, 0x800)
        };
        both_runs(&block, u64::MAX, &named)
    };
    assert_eq!(with(0, 0), [Ok((0x10000, 0x18000)), Ok((0x1F800, 0x20000))]);
    for end in [0x17FFF, 0x18000, 0x18001, 0x19000, 0x197FF] {
        let highest = if end < 0x18000 { 0x17000 } else { 0x17800 };
        let wanted = [Ok((0x10000, 0x18000)), Ok((highest, 0x18000))];
        assert_eq!(with(0, end), wanted);
    }
    for start in [0x17801, 0x18000, 0x19000] {
        assert_eq!(with(start, 0x19800), [Ok((0x19000, 0x20000)); 2]);
    }
    // What is taken beside the memory cuts nothing off.
    let mut block = m();
    assert_eq!(model::reserve(&mut block, 0x20000, 0x1000), 0);
    assert_eq!(model::reserve(&mut block, 0xF000, 0x1000), 0);
    assert_eq!(
        both_runs(&block, u64::MAX, &query(0x10000, 1)),
        [Ok((0x10000, 0x20000)); 2]
    );
}

#[test]
fn run_end_at_tag_borders() {
    // Node 0, node 1, no-map of node 1, node 1, each 0x1000 addresses.
    let mut block = memory(&[(0x10000, 0x11000)]);
    assert_eq!(model::add(&mut block, 0x11000, 0x3000, 0, 1), 0);
    assert_eq!(model::mark(&mut block, 0x12000, 0x1000, NO_MAP), 0);
    for (start, run_end) in [(0x10000, 0x11000), (0x11000, 0x12000), (0x13000, 0x14000)] {
        for end in [run_end - 0x800, run_end, run_end + 1] {
            for node in [ANY_NODE, u32::from(start > 0x10000)] {
                let ask = Query {
                    start,
                    end,
                    node,
                    ..query(0x800, 0x800)
                };
                let highest = if end < run_end { start } else { start + 0x800 };
                assert_eq!(
                    both_runs(&block, u64::MAX, &ask),
                    [Ok((start, run_end)), Ok((highest, run_end))]
                );
            }
        }
    }
    // Unmarked, the last two runs are one.
    assert_eq!(model::unmark(&mut block, 0x12000, 0x1000, NO_MAP), 0);
    let node_1 = Query {
        node: 1,
        ..query(0x1000, 0x1000)
    };
    assert_eq!(
        both_runs(&block, u64::MAX, &node_1),
        [Ok((0x11000, 0x14000)), Ok((0x13000, 0x14000))]
    );
}

#[test]
fn run_end_at_the_top() {
    let page = u64::MAX - 4095;
    let block = memory(&[(page, u64::MAX)]);
    for size in [1, 0xFFE, 0xFFF] {
        assert_eq!(
            both_runs(&block, u64::MAX, &query(size, 1)),
            [Ok((page, u64::MAX)), Ok((u64::MAX - size, u64::MAX))]
        );
    }
    assert_eq!(
        both_runs(&block, u64::MAX - 1, &query(0xFFE, 1)),
        [Ok((page, u64::MAX)); 2]
    );
}

#[test]
fn run_as_it_was_before_the_call() {
    let page = query(0x1000, 0x1000);
    // Bottom-up the run keeps its end, up to the allocation that takes the last of it.
    let mut block = turned(m(), BOTTOM_UP);
    for i in 0..16 {
        let wanted = Ok((0x10000 + i * 0x1000, 0x20000));
        assert_eq!(find(&block, &page), wanted);
        assert_eq!(allocate(&mut block, &page), wanted);
    }
    assert_eq!(allocate(&mut block, &page), Err(5));
    // Top-down each leaves a shorter one.
    let mut block = turned(m(), TOP_DOWN);
    for i in 0..16 {
        let end = 0x20000 - i * 0x1000;
        assert_eq!(allocate(&mut block, &page), Ok((end - 0x1000, end)));
    }
    assert_eq!(allocate(&mut block, &page), Err(5));
    // From the middle: the run before the call, which the call cuts in two.
    for direction in [TOP_DOWN, BOTTOM_UP] {
        let mut block = turned(m(), direction);
        let middle = Query {
            start: 0x18000,
            end: 0x19000,
            ..page
        };
        assert_eq!(allocate(&mut block, &middle), Ok((0x18000, 0x20000)));
        assert_eq!(next_free(&block, 0, ANY_NODE), Ok((0x10000, 0x18000)));
        assert_eq!(next_free(&block, 0x18000, ANY_NODE), Ok((0x19000, 0x20000)));
    }
}

#[test]
fn next_free_goes_on_from_the_run_end() {
    // Runs up to what is taken, up to another node, of that node, and one apart.
    let mut start = case_4_tables();
    assert_eq!(model::add(&mut start, 0x20000, 0x1000, 0, 1), 0);
    assert_eq!(model::add(&mut start, 0x30000, 0x1000, 0, 0), 0);
    let runs = [
        (0x10000, 0x18000),
        (0x19000, 0x20000),
        (0x20000, 0x21000),
        (0x30000, 0x31000),
    ];
    for (i, (from, to)) in runs.into_iter().enumerate() {
        for direction in [TOP_DOWN, BOTTOM_UP] {
            for size in [0x10, to - from] {
                let mut block = turned(start.clone(), direction);
                let ask = Query {
                    start: from,
                    end: from + size,
                    ..query(size, 1)
                };
                let (a, end) = allocate(&mut block, &ask).unwrap();
                assert_eq!((a, end), (from, to));
                let next = runs.get(i + 1).copied().ok_or(5);
                assert_eq!(next_free(&block, end, ANY_NODE), next);
                assert_eq!(next_free(&start, end, ANY_NODE), next);
            }
        }
    }
}

// Request E6: hotplug and mirror.

/// Words that name no flag: none, sums of flags, and what is above them all.
const NO_ONE_FLAG: [u32; 9] = [0, 3, 5, 6, 7, 8, 9, 1 << 31, u32::MAX];

/// Memory of each flags 0 to 7 in turn, each so long, touching.
const PART: u64 = 0x1000;

fn all_flags() -> Vec<u8> {
    let mut block = fresh();
    for flags in 0..8 {
        let base = 0x10000 + u64::from(flags) * PART;
        assert_eq!(model::add(&mut block, base, PART, flags, 0), 0);
    }
    block
}

type Mark = fn(&mut [u8], u64, u64, u32) -> u32;
const MARKS: [Mark; 2] = [model::mark, model::unmark];

#[test]
fn flags_of_request_e6() {
    assert_eq!((HOTPLUG, MIRROR, NO_MAP, FLAGS), (1, 2, 4, 7));
    assert_eq!((WISH_HOTPLUG, WISH_MIRROR, WISH_BOTH), (1, 2, 3));
    assert_eq!(EDITION_1_FLAGS, [0, 4]);
}

#[test]
fn flags_0_to_7_are_added() {
    for node in [0, 63, 64, u32::MAX] {
        for flags in (0..16).chain([64, 256, 1 << 16, 1 << 31, u32::MAX]) {
            let number = if flags <= 7 && node <= 63 { 0 } else { 2 };
            for size in [0, 1, 0x1000, u64::MAX] {
                let mut block = fresh();
                let said = model::add(&mut block, 0x1000, size, flags, node);
                assert_eq!(said, number, "flags {flags:#x} node {node:#x}");
                let wanted: &[_] = match (number, size) {
                    (2, _) | (_, 0) => &[],
                    _ => &[(0x1000, size.min(u64::MAX - 0x1000), flags, node)],
                };
                assert_eq!(records(&block, &MEMORY), wanted);
            }
        }
    }
    // 1 comes before 2, and 2 before 6.
    assert_eq!(model::add(&mut [0; 7], 0, 1, 8, 0), 1);
    assert_eq!(model::add(&mut comb(), 0x200_0000, 1, 8, 0), 2);
    assert_eq!(model::add(&mut comb(), 0x200_0000, 1, 7, 0), 6);
    // Addresses already there keep theirs.
    let mut block = all_flags();
    assert_eq!(model::add(&mut block, 0, 0x20000, 7, 63), 0);
    let list = records(&block, &MEMORY);
    assert_eq!(list.len(), 10);
    for flags in 0..8 {
        let base = 0x10000 + u64::from(flags) * PART;
        assert_eq!(list[1 + flags as usize], (base, PART, flags, 0));
    }
}

#[test]
fn flags_of_a_good_block() {
    for flags in (0..32).chain([1 << 8, 1 << 16, 1 << 31, u32::MAX - 7, u32::MAX]) {
        let block = raw(&[(0x1000, 0x1000, flags, 63)], &[]);
        let good = flags <= 7;
        assert_eq!(model::Board::read(&block).is_some(), good, "{flags:#x}");
        if !good {
            assert_eq!(all_commands(&block), [1; 13]);
        }
        // In the taken table any flag is one too many.
        let block = raw(&[], &[(0x1000, 0x1000, flags, 0)]);
        assert_eq!(model::Board::read(&block).is_some(), flags == 0);
    }
}

#[test]
fn records_that_differ_in_one_flag_stay_apart() {
    for one in 0..8 {
        for two in 0..8 {
            let pair = raw(&[(0, 10, one, 3), (10, 10, two, 3)], &[]);
            assert_eq!(model::Board::read(&pair).is_some(), one != two);
        }
        // They merge once the flag is cleared, or set on both.
        for flag in [1, 2, 4] {
            let (with, without) = (one | flag, one & !flag);
            let apart = [(0, 10, with, 3), (10, 10, without, 3)];
            let mut block = raw(&apart, &[]);
            assert_eq!(model::unmark(&mut block, 0, 10, flag), 0);
            assert_eq!(records(&block, &MEMORY), [(0, 20, without, 3)]);
            let mut block = raw(&apart, &[]);
            assert_eq!(model::mark(&mut block, 0, 20, flag), 0);
            assert_eq!(records(&block, &MEMORY), [(0, 20, with, 3)]);
            // Cut in two, and made one again.
            assert_eq!(model::unmark(&mut block, 10, 10, flag), 0);
            assert_eq!(records(&block, &MEMORY), apart);
            assert_eq!(model::mark(&mut block, 5, 15, flag), 0);
            assert_eq!(records(&block, &MEMORY), [(0, 20, with, 3)]);
        }
    }
}

#[test]
fn marks_name_one_flag() {
    let full = all_flags();
    for mark in MARKS {
        for flag in NO_ONE_FLAG {
            for size in [0, 1, u64::MAX] {
                let mut block = full.clone();
                assert_eq!(mark(&mut block, 0x10000, size, flag), 2, "flag {flag:#x}");
                assert_eq!(block, full);
                // Where there is no memory, and where the range is cut to nothing.
                assert_eq!(mark(&mut fresh(), 0x10000, size, flag), 2);
                assert_eq!(mark(&mut block, u64::MAX, size, flag), 2);
            }
            // 1 comes first, 6 later.
            assert_eq!(mark(&mut full[1..].to_vec(), 0, 0, flag), 1);
            assert_eq!(mark(&mut printed_old(), 0, 1, flag), 1);
            assert_eq!(mark(&mut comb(), 0x2000, 1, flag), 2);
        }
        for flag in [1, 2, 4] {
            let mut block = full.clone();
            assert_eq!(mark(&mut block, 0x10800, 0, flag), 0);
            assert_eq!(mark(&mut block, u64::MAX, 1, flag), 0);
            assert_eq!(mark(&mut block, 0x40000, 0x1000, flag), 0);
            assert_eq!(block, full);
            assert_eq!(mark(&mut [0; 7], 0, 0, flag), 1);
        }
    }
    // A part of a record marked needs room; the whole record does not.
    for flag in [1, 2, 4] {
        let mut block = comb();
        assert_eq!(model::mark(&mut block, 0x2000, 1, flag), 6);
        assert_eq!(block, comb());
        assert_eq!(model::mark(&mut block, 0x2000, 0x1000, flag), 0);
        let marked = block.clone();
        assert_eq!(model::unmark(&mut block, 0x2800, 1, flag), 6);
        assert_eq!(block, marked);
        assert_eq!(model::unmark(&mut block, 0x2000, 0x1000, flag), 0);
        assert_eq!(block, comb());
    }
}

#[test]
fn marks_keep_the_other_flags() {
    for flags in 0..8 {
        for flag in [1, 2, 4] {
            let start = raw(&[(0x1000, 0x3000, flags, 5)], &[]);
            for (mark, becomes) in MARKS.into_iter().zip([flags | flag, flags & !flag]) {
                // The middle third; what is there already changes nothing.
                let mut block = start.clone();
                assert_eq!(mark(&mut block, 0x2000, 0x1000, flag), 0);
                let wanted: &[_] = if becomes == flags {
                    &[(0x1000, 0x3000, flags, 5)]
                } else {
                    &[
                        (0x1000, 0x1000, flags, 5),
                        (0x2000, 0x1000, becomes, 5),
                        (0x3000, 0x1000, flags, 5),
                    ]
                };
                assert_eq!(records(&block, &MEMORY), wanted);
                assert_eq!(block == start, becomes == flags);
                assert_eq!(total(&block, &MEMORY), 0x3000);
                // Over the ends, where there is no memory.
                let mut block = start.clone();
                assert_eq!(mark(&mut block, 0, u64::MAX, flag), 0);
                assert_eq!(records(&block, &MEMORY), [(0x1000, 0x3000, becomes, 5)]);
            }
        }
    }
    // One range over all flags.
    for flag in [1, 2, 4] {
        for (mark, set) in MARKS.into_iter().zip([true, false]) {
            let mut block = all_flags();
            assert_eq!(mark(&mut block, 0, u64::MAX, flag), 0);
            for flags in 0..8 {
                let wanted = if set { flags | flag } else { flags & !flag };
                let at = 0x10000 + u64::from(flags) * PART;
                let there = |r: &&(u64, u64, u32, u32)| r.0 <= at && at < r.0 + r.1;
                let list = records(&block, &MEMORY);
                assert_eq!(list.iter().find(there).unwrap().2, wanted);
            }
            assert_eq!(total(&block, &MEMORY), 8 * PART);
        }
    }
}

#[test]
fn wishes_0_to_3() {
    let wrong = [
        4,
        5,
        7,
        8,
        16,
        256,
        1 << 16,
        1 << 31,
        u32::MAX - 1,
        u32::MAX,
    ];
    for wish in (0..4).chain(wrong) {
        let number = if wish <= 3 { 5 } else { 2 };
        let asked = Query {
            wish,
            ..query(1, 1)
        };
        // No memory, so that a wish in order gets 5.
        assert_eq!(find(&fresh(), &asked), Err(number), "wish {wish:#x}");
        assert_eq!(allocate(&mut fresh(), &asked), Err(number));
        let next = next_free_of(&fresh(), 0, ANY_NODE, wish);
        assert_eq!(next, Err(number));
    }
    for wish in wrong {
        // 8 and 1 come first; alignment and size, which are wrong too, later.
        let asked = Query {
            wish,
            ..query(0, 3)
        };
        let old = printed_old();
        assert_eq!(model::find(&m(), &asked, &mut [1; 17]), 8);
        assert_eq!(model::allocate(&mut m(), &asked, &mut [1; 15]), 8);
        assert_eq!(model::next_free(&old, 0, 64, wish, &mut [1; 15]), 8);
        assert_eq!(find(&old, &asked), Err(1));
        assert_eq!(allocate(&mut old.clone(), &asked), Err(1));
        assert_eq!(next_free_of(&old, 0, 64, wish), Err(1));
        for node in [0, 63, 64, ANY_NODE] {
            let asked = Query { node, ..asked };
            assert_eq!(find(&m(), &asked), Err(2));
            assert_eq!(allocate(&mut m(), &asked), Err(2));
            assert_eq!(next_free_of(&m(), 0, node, wish), Err(2));
            for (size, alignment) in [(1, 3), (0, 1), (1, 1)] {
                let asked = Query {
                    size,
                    alignment,
                    ..asked
                };
                assert_eq!(find(&m(), &asked), Err(2));
                assert_eq!(allocate(&mut m(), &asked), Err(2));
            }
        }
    }
    // With a wish in order a bad node is still seen, then alignment, then size.
    for wish in 0..4 {
        let asked = Query {
            wish,
            node: 64,
            ..query(0, 3)
        };
        assert_eq!(find(&m(), &asked), Err(2));
        assert_eq!(next_free_of(&m(), 0, 64, wish), Err(2));
        let asked = Query { node: 0, ..asked };
        assert_eq!(find(&m(), &asked), Err(3));
        let asked = Query {
            alignment: 1,
            ..asked
        };
        assert_eq!(find(&m(), &asked), Err(4));
    }
}

/// Which flags each wish grants, as the request has it: without 1 no hotplug memory,
/// with 2 only mirror memory, and never no-map memory. By wish, then by flags.
const GRANTED: [[bool; 8]; 4] = [
    [true, false, true, false, false, false, false, false],
    [true, true, true, true, false, false, false, false],
    [false, false, true, false, false, false, false, false],
    [false, false, true, true, false, false, false, false],
];

#[test]
fn every_flags_by_every_wish_one_at_a_time() {
    for flags in 0..8 {
        let block = raw(&[(0x10000, 0x1000, flags, 7)], &[]);
        for wish in 0..4 {
            let granted = GRANTED[wish as usize][flags as usize];
            for node in [7, ANY_NODE] {
                let asked = Query {
                    wish,
                    node,
                    ..query(0x10, 0x10)
                };
                let (up, down) = match granted {
                    true => (Ok((0x10000, 0x11000)), Ok((0x10FF0, 0x11000))),
                    false => (Err(5), Err(5)),
                };
                assert_eq!(both_runs(&block, u64::MAX, &asked), [up, down]);
                assert_eq!(next_free_of(&block, 0, node, wish), up);
            }
            let asked = Query {
                wish,
                node: 6,
                ..query(0x10, 0x10)
            };
            assert_eq!(both_runs(&block, u64::MAX, &asked), [Err(5); 2]);
            assert_eq!(next_free_of(&block, 0, 6, wish), Err(5));
        }
    }
}

#[test]
fn every_flags_by_every_wish_on_one_board() {
    // All flags in two orders; the runs a wish grants are those of `GRANTED`, each by
    // itself even where two of them touch.
    for order in [[0, 1, 2, 3, 4, 5, 6, 7], [4, 1, 3, 2, 0, 7, 6, 5]] {
        let mut block = fresh();
        let base = |i: usize| 0x10000 + i as u64 * PART;
        for (i, &flags) in order.iter().enumerate() {
            assert_eq!(model::add(&mut block, base(i), PART, flags, 0), 0);
        }
        for (wish, granted) in GRANTED.into_iter().enumerate() {
            let runs: Vec<(u64, u64)> = (0..8)
                .filter(|&i| granted[order[i] as usize])
                .map(|i| (base(i), base(i + 1)))
                .collect();
            let wish = wish as u32;
            let asked = |size| Query {
                wish,
                ..query(size, 1)
            };
            let first = runs[0];
            let last = *runs.last().unwrap();
            for size in [1, 0x10, PART] {
                assert_eq!(
                    both_runs(&block, u64::MAX, &asked(size)),
                    [Ok(first), Ok((last.1 - size, last.1))]
                );
            }
            // No run is longer, whatever touches it.
            assert_eq!(both_runs(&block, u64::MAX, &asked(PART + 1)), [Err(5); 2]);
            // Next free from every edge and beside it, by a count over the runs.
            for at in (0..=8).flat_map(|i| [base(i) - 1, base(i), base(i) + 1]) {
                let wanted = runs
                    .iter()
                    .find(|run| at < run.1)
                    .map(|run| (run.0.max(at), run.1))
                    .ok_or(5);
                assert_eq!(next_free_of(&block, at, ANY_NODE, wish), wanted);
            }
            // Allocations take the runs one after the other, in either direction.
            for direction in [BOTTOM_UP, TOP_DOWN] {
                let mut block = turned(block.clone(), direction);
                let mut left = runs.clone();
                if direction == TOP_DOWN {
                    left.reverse();
                }
                for run in left {
                    assert_eq!(allocate(&mut block, &asked(PART)), Ok(run));
                }
                assert_eq!(allocate(&mut block, &asked(1)), Err(5));
                assert_eq!(next_free_of(&block, 0, ANY_NODE, wish), Err(5));
                assert_eq!(total(&block, &TAKEN), runs.len() as u64 * PART);
            }
            // Windows around each part: it is given exactly when it is granted.
            for (i, &flags) in order.iter().enumerate() {
                let window = Query {
                    start: base(i),
                    end: base(i + 1),
                    ..asked(PART)
                };
                let wanted = match granted[flags as usize] {
                    true => Ok((base(i), base(i + 1))),
                    false => Err(5),
                };
                assert_eq!(both_runs(&block, u64::MAX, &window), [wanted; 2]);
            }
        }
    }
}

#[test]
fn a_run_ends_where_the_tag_changes_whatever_the_wish() {
    // Plain, hotplug, both, mirror: wish 1 grants all four, and joins none.
    let mut block = fresh();
    for (i, flags) in (0..).zip([0, 1, 3, 2]) {
        assert_eq!(
            model::add(&mut block, 0x10000 + i * PART, PART, flags, 0),
            0
        );
    }
    for (wish, lowest, highest) in [
        (0, 0x10000, 0x13000),
        (1, 0x10000, 0x13000),
        (2, 0x13000, 0x13000),
        (3, 0x12000, 0x13000),
    ] {
        let asked = Query {
            wish,
            ..query(PART, 1)
        };
        assert_eq!(
            both_runs(&block, u64::MAX, &asked),
            [Ok((lowest, lowest + PART)), Ok((highest, highest + PART))]
        );
        let more = Query {
            size: PART + 1,
            ..asked
        };
        assert_eq!(both_runs(&block, u64::MAX, &more), [Err(5); 2]);
    }
    // Of one tag again, they are one run.
    assert_eq!(model::unmark(&mut block, 0, u64::MAX, HOTPLUG), 0);
    assert_eq!(model::unmark(&mut block, 0, u64::MAX, MIRROR), 0);
    let all = query(4 * PART, 1);
    assert_eq!(
        both_runs(&block, u64::MAX, &all),
        [Ok((0x10000, 0x14000)); 2]
    );
}

#[test]
fn memory_marked_later_is_no_longer_given() {
    let asked = |wish| Query {
        wish,
        ..query(0x1000, 0x1000)
    };
    let mut block = m();
    assert_eq!(find(&block, &asked(2)), Err(5));
    assert_eq!(model::mark(&mut block, 0x18000, 0x8000, HOTPLUG), 0);
    assert_eq!(find(&block, &asked(0)), Ok((0x17000, 0x18000)));
    assert_eq!(find(&block, &asked(1)), Ok((0x1F000, 0x20000)));
    assert_eq!(model::mark(&mut block, 0x1C000, 0x8000, MIRROR), 0);
    assert_eq!(find(&block, &asked(2)), Err(5));
    assert_eq!(find(&block, &asked(3)), Ok((0x1F000, 0x20000)));
    assert_eq!(model::unmark(&mut block, 0x1E000, 0x1000, HOTPLUG), 0);
    assert_eq!(find(&block, &asked(2)), Ok((0x1E000, 0x1F000)));
    assert_eq!(model::mark(&mut block, 0x1F000, 0x1000, NO_MAP), 0);
    assert_eq!(find(&block, &asked(3)), Ok((0x1E000, 0x1F000)));
    assert_eq!(allocate(&mut block, &asked(2)), Ok((0x1E000, 0x1F000)));
    assert_eq!(allocate(&mut block, &asked(3)), Ok((0x1D000, 0x1E000)));
    assert_eq!(allocate(&mut block, &asked(2)), Err(5));
}

#[test]
fn trim_and_intake_keep_flags() {
    for flags in 0..8 {
        let start = raw(&[(0x1800, 0x3000, flags, 9)], &[]);
        let mut block = start.clone();
        assert_eq!(model::trim(&mut block, 0x1000), 0);
        assert_eq!(records(&block, &MEMORY), [(0x2000, 0x2000, flags, 9)]);
        let mut block = start.clone();
        assert_eq!(intake_of(&mut block, &[(0x4000, 0x2000, 1)]), 0);
        assert_eq!(
            records(&block, &MEMORY),
            [(0x2000, 0x2000, flags, 9), (0x5000, 0x1000, 0, 0)]
        );
    }
}

#[test]
fn convert_takes_no_flag_of_request_e6() {
    for flags in 0..32 {
        let new = raw(&[(0x1000, 0x1000, flags, 1)], &[(0x1000, 1, 0, 0)]);
        let mut block = any_bytes();
        let by_document_01 = flags == 0 || flags == 4;
        let number = convert(&to_old(&new), &mut block);
        assert_eq!(number, u32::from(!by_document_01), "flags {flags}");
        if by_document_01 {
            assert_eq!(block, new);
        }
        // The flags stand in any record, not in the first alone.
        let list = [(0, 1, 0, 0), (8, 1, 4, 0), (16, 1, flags, 0)];
        let number = convert(&to_old(&raw(&list, &[])), &mut any_bytes());
        assert_eq!(number, u32::from(!by_document_01));
    }
}

// Request E7: bottom-up above the image, then the other way.

const IMAGE_ENDS: [u64; 8] = [0, 1, 4095, 4096, 0x18000, 1 << 32, 1 << 63, u64::MAX];

fn with_image(mut block: Vec<u8>, end: u64) -> Vec<u8> {
    assert_eq!(model::set_image_end(&mut block, end), 0);
    block
}

#[test]
fn image_end_of_request_e7() {
    assert_eq!(IMAGE_END_AT, 72);
    assert_eq!(long(&fresh(), 72), 0);
}

#[test]
fn image_end_is_stored_and_all_else_stays() {
    for start in [m(), case_4_tables(), comb(), taken_comb(), all_flags()] {
        for direction in [TOP_DOWN, BOTTOM_UP] {
            let mut start = start.clone();
            assert_eq!(model::set(&mut start, 0x1234, direction), 0);
            for end in IMAGE_ENDS {
                let mut wanted = start.clone();
                wanted[72..80].copy_from_slice(&end.to_le_bytes());
                assert_eq!(with_image(start.clone(), end), wanted);
                // From one image end to any other.
                for next in IMAGE_ENDS {
                    let block = with_image(wanted.clone(), next);
                    assert_eq!(block, with_image(start.clone(), next));
                }
            }
        }
    }
}

#[test]
fn image_end_refuses_a_bad_block_alone() {
    let good = case_4_tables();
    let mut damaged = good.clone();
    damaged[52] = 1;
    for bad in [
        vec![],
        good[..15439].to_vec(),
        [&good[..], &[0]].concat(),
        good[..6224].to_vec(),
        to_old(&good),
        damaged,
    ] {
        for end in IMAGE_ENDS {
            let mut block = bad.clone();
            assert_eq!(model::set_image_end(&mut block, end), 1);
            assert_eq!(block, bad);
        }
    }
}

#[test]
fn fresh_has_no_image_and_other_commands_keep_it() {
    for end in IMAGE_ENDS {
        let mut block = with_image(m(), end);
        assert_eq!(model::set(&mut block, 0x1_0000_0000, BOTTOM_UP), 0);
        assert_eq!(long(&block, 72), end);
        assert_eq!(model::set(&mut block, u64::MAX, TOP_DOWN), 0);
        assert_eq!(block, with_image(m(), end));
        // A refusal keeps it too.
        assert_eq!(model::set(&mut block, 0, 2), 7);
        assert_eq!(model::add(&mut block, 0, 1, 8, 0), 2);
        let changes: [fn(&mut [u8]) -> u32; 9] = [
            |b| model::add(b, 0x30000, 1, 0, 0),
            |b| model::remove(b, 0x10000, 1),
            |b| model::mark(b, 0x10001, 1, NO_MAP),
            |b| model::unmark(b, 0x10000, 2, NO_MAP),
            |b| model::reserve(b, 0x10000, 2),
            |b| model::free(b, 0x10000, 1),
            |b| model::trim(b, 4096),
            |b| model::intake_e820(b, &report(&[(0x40000, 0x1000, 1)])),
            |b| allocate(b, &query(1, 1)).err().unwrap_or(0),
        ];
        for change in changes {
            let mut plain = with_image(block.clone(), NO_IMAGE);
            assert_eq!(change(&mut plain), 0);
            assert_eq!(change(&mut block), 0);
            assert_eq!(block, with_image(plain, end));
        }
        assert_eq!(model::fresh(&mut block), 0);
        assert_eq!(block, fresh());
    }
}

#[test]
fn convert_takes_no_image_end() {
    for bit in 0..64 {
        let mut old = printed_old();
        old[72 + bit / 8] = 1 << (bit % 8);
        assert_eq!(convert(&old, &mut any_bytes()), 1, "bit {bit}");
    }
    // What stood there before leaves nothing behind.
    let mut block = with_image(m(), u64::MAX);
    assert_eq!(convert(&printed_old(), &mut block), 0);
    assert_eq!(block, printed());
}

/// Two runs: [0x10000, 0x18000) and [0x19000, 0x20000).
const TWO: [(u64, u64); 2] = [(0x10000, 0x18000), (0x19000, 0x20000)];

/// What find and allocate give with an image end, bottom-up first.
fn both_above(
    ranges: &[(u64, u64)],
    image_end: u64,
    query: &Query,
) -> [Result<(u64, u64), u32>; 2] {
    both_runs(&with_image(memory(ranges), image_end), u64::MAX, query)
}

#[test]
fn image_end_below_at_inside_and_above_each_run() {
    let (low, high) = (0x18000, 0x20000);
    // Sizes of 0x1000, alignment 1: what bottom-up gives, and the end of its run.
    for (image_end, wanted) in [
        (0, (0x10000, low)),
        (1, (0x10000, low)),
        (0xFFFF, (0x10000, low)),
        (0x10000, (0x10000, low)),
        (0x10001, (0x10001, low)),
        (0x16FFF, (0x16FFF, low)),
        // The last that has room for the size in the first run.
        (0x17000, (0x17000, low)),
        (0x17001, (0x19000, high)),
        (0x17FFF, (0x19000, high)),
        (0x18000, (0x19000, high)),
        (0x18FFF, (0x19000, high)),
        (0x19000, (0x19000, high)),
        (0x19001, (0x19001, high)),
        (0x1F000, (0x1F000, high)),
        // Above it there is nothing more: the highest of all.
        (0x1F001, (0x1F000, high)),
        (0x1FFFF, (0x1F000, high)),
        (0x20000, (0x1F000, high)),
        (0x20001, (0x1F000, high)),
        (1 << 63, (0x1F000, high)),
        (u64::MAX - 1, (0x1F000, high)),
        (u64::MAX, (0x1F000, high)),
    ] {
        let answers = both_above(&TWO, image_end, &query(0x1000, 1));
        assert_eq!(answers, [Ok(wanted), Ok((0x1F000, high))], "{image_end:#x}");
    }
}

#[test]
fn image_end_and_the_alignment() {
    for (image_end, wanted) in [
        (0x10000, 0x10000),
        (0x10001, 0x12000),
        (0x11FFF, 0x12000),
        (0x12000, 0x12000),
        (0x12001, 0x14000),
        (0x16000, 0x16000),
        // Of the first run nothing is left, of the second 0x1A000 on.
        (0x16001, 0x1A000),
        (0x1E000, 0x1E000),
        (0x1E001, 0x1E000),
    ] {
        let [up, down] = both_above(&TWO, image_end, &query(0x1000, 0x2000));
        assert_eq!(up.map(|found| found.0), Ok(wanted), "{image_end:#x}");
        assert_eq!(down, Ok((0x1E000, 0x20000)));
    }
    // Rounded up past the top there is nothing above: the other way.
    let page = u64::MAX - 4095;
    let top = [(0x10000, 0x20000), (page, u64::MAX)];
    for image_end in [page + 1, u64::MAX - 1, u64::MAX] {
        let answers = both_above(&top, image_end, &query(0x800, 0x1000));
        assert_eq!(answers, [Ok((page, u64::MAX)); 2]);
        let answers = both_above(&top, image_end, &query(0x1000, 0x1000));
        assert_eq!(answers, [Ok((0x1F000, 0x20000)); 2]);
    }
    let answers = both_above(&top, u64::MAX - 1, &query(1, 1));
    assert_eq!(answers, [Ok((u64::MAX - 1, u64::MAX)); 2]);
}

#[test]
fn the_other_way_gives_an_address_below_however_far_it_reaches() {
    // The size fits one address alone, and reaches past the image end.
    let whole = query(0x10000, 1);
    for image_end in [0x10000, 0x10001, 0x18000, 0x1FFFF, 0x20000, u64::MAX] {
        let answers = both_above(&M, image_end, &whole);
        assert_eq!(answers, [Ok((0x10000, 0x20000)); 2]);
    }
    // The highest below the image, also where it ends above it.
    for (image_end, size, wanted) in [
        (0x1F801, 0x800, 0x1F800),
        (0x1F801, 0x7FF, 0x1F801),
        (0x1F802, 0x7FF, 0x1F801),
        (0x1FFFF, 2, 0x1FFFE),
        (0x1FFFF, 1, 0x1FFFF),
    ] {
        let [up, _] = both_above(&M, image_end, &query(size, 1));
        assert_eq!(up, Ok((wanted, 0x20000)), "{image_end:#x} {size:#x}");
    }
}

#[test]
fn image_end_and_the_window() {
    let window = |start, end| Query {
        start,
        end,
        ..query(0x10, 1)
    };
    for (image_end, start, end, up, down) in [
        // At or below the start it decides nothing.
        (0x11FFF, 0x12000, 0x14000, Ok(0x12000), Ok(0x13FF0)),
        (0x12000, 0x12000, 0x14000, Ok(0x12000), Ok(0x13FF0)),
        (0x12001, 0x12000, 0x14000, Ok(0x12001), Ok(0x13FF0)),
        // The last address of the window, and past it.
        (0x13FF0, 0x12000, 0x14000, Ok(0x13FF0), Ok(0x13FF0)),
        (0x13FF1, 0x12000, 0x14000, Ok(0x13FF0), Ok(0x13FF0)),
        (0x14000, 0x12000, 0x14000, Ok(0x13FF0), Ok(0x13FF0)),
        (0x1F000, 0x12000, 0x14000, Ok(0x13FF0), Ok(0x13FF0)),
        // A window in which nothing is free, with free memory above the image.
        (0x10000, 0x18000, 0x19000, Err(5), Err(5)),
        (0x19000, 0x18000, 0x19000, Err(5), Err(5)),
        (u64::MAX, 0x18000, 0x19000, Err(5), Err(5)),
        // A window that ends below its start.
        (0x12000, 0x12000, 0x11000, Err(5), Err(5)),
    ] {
        let asked = window(start, end);
        let found = both_above(&TWO, image_end, &asked).map(|found| found.map(|(a, _)| a));
        assert_eq!(
            found,
            [up, down],
            "image {image_end:#x}, {start:#x} to {end:#x}"
        );
        // The same window by the limit.
        let block = with_image(memory(&TWO), image_end);
        for named in [0, u64::MAX] {
            let found = both_runs(&block, end, &window(start, named));
            assert_eq!(found.map(|found| found.map(|(a, _)| a)), [up, down]);
        }
    }
    // Below 4096 the other way gives nothing either.
    let low = [(0, 0x1001)];
    for image_end in [0, 1, 0xFFF, 0x1000, 0x1001, u64::MAX] {
        let answers = both_above(&low, image_end, &query(1, 1));
        assert_eq!(answers, [Ok((0x1000, 0x1001)); 2]);
        let answers = both_above(&low, image_end, &query(2, 1));
        assert_eq!(answers, [Err(5); 2]);
    }
}

#[test]
fn number_5_only_where_the_whole_window_has_nothing() {
    for image_end in IMAGE_ENDS.into_iter().chain([0x10001, 0x17FFF, 0x1FFFF]) {
        let fits = both_above(&TWO, image_end, &query(0x8000, 1));
        assert_eq!(fits, [Ok((0x10000, 0x18000)); 2], "{image_end:#x}");
        let none = both_above(&TWO, image_end, &query(0x8001, 1));
        assert_eq!(none, [Err(5); 2], "{image_end:#x}");
        assert_eq!(both_above(&[], image_end, &query(1, 1)), [Err(5); 2]);
    }
}

#[test]
fn image_end_and_what_is_asked_for() {
    // Above the image there is only memory that is not asked for.
    let mut block = memory(&[(0x10000, 0x12000)]);
    assert_eq!(model::add(&mut block, 0x20000, 0x1000, 0, 1), 0);
    assert_eq!(model::add(&mut block, 0x21000, 0x1000, HOTPLUG, 0), 0);
    assert_eq!(model::add(&mut block, 0x22000, 0x1000, NO_MAP, 0), 0);
    assert_eq!(model::add(&mut block, 0x23000, 0x1000, 0, 0), 0);
    assert_eq!(model::reserve(&mut block, 0x23000, 0x1000), 0);
    let block = turned(with_image(block, 0x12000), BOTTOM_UP);
    let asked = |node, wish| Query {
        node,
        wish,
        ..query(0x10, 1)
    };
    assert_eq!(find(&block, &asked(0, 0)), Ok((0x11FF0, 0x12000)));
    assert_eq!(find(&block, &asked(0, 1)), Ok((0x21000, 0x22000)));
    assert_eq!(find(&block, &asked(1, 0)), Ok((0x20000, 0x21000)));
    assert_eq!(find(&block, &asked(ANY_NODE, 0)), Ok((0x20000, 0x21000)));
    assert_eq!(find(&block, &asked(0, 2)), Err(5));
    assert_eq!(find(&block, &asked(2, 0)), Err(5));
}

#[test]
fn next_free_takes_no_notice_of_the_image() {
    for end in IMAGE_ENDS {
        for direction in [TOP_DOWN, BOTTOM_UP] {
            let block = turned(with_image(memory(&TWO), end), direction);
            assert_eq!(next_free(&block, 0, ANY_NODE), Ok((0x10000, 0x18000)));
            assert_eq!(next_free(&block, 0x17FFF, ANY_NODE), Ok((0x17FFF, 0x18000)));
            assert_eq!(next_free(&block, 0x18000, ANY_NODE), Ok((0x19000, 0x20000)));
            assert_eq!(next_free(&block, 0x20000, ANY_NODE), Err(5));
        }
    }
}

#[test]
fn allocations_above_the_image_and_then_down_from_it() {
    let mut block = turned(with_image(m(), 0x1C800), BOTTOM_UP);
    let page = query(0x1000, 0x1000);
    for wanted in [
        (0x1D000, 0x20000),
        (0x1E000, 0x20000),
        (0x1F000, 0x20000),
        // Nothing is left above: now the highest, which reaches past the image end.
        (0x1C000, 0x1D000),
        (0x1B000, 0x1C000),
    ] {
        assert_eq!(allocate(&mut block, &page), Ok(wanted));
    }
    // What is freed above the image is given first.
    assert_eq!(model::free(&mut block, 0x1E000, 0x1000), 0);
    assert_eq!(allocate(&mut block, &page), Ok((0x1E000, 0x1F000)));
    assert_eq!(allocate(&mut block, &page), Ok((0x1A000, 0x1B000)));
    // Turned round there is no image, and without one bottom-up begins at the bottom.
    assert_eq!(model::set(&mut block, u64::MAX, TOP_DOWN), 0);
    assert_eq!(allocate(&mut block, &page), Ok((0x19000, 0x1A000)));
    let mut block = turned(with_image(block, 0), BOTTOM_UP);
    assert_eq!(allocate(&mut block, &page), Ok((0x10000, 0x19000)));
}

#[test]
fn number_6_speaks_of_the_other_way_too() {
    // A full taken table; the highest address below the image needs a record more.
    let mut block = taken_comb();
    assert_eq!(model::add(&mut block, 0x1000, 0x1000, 0, 0), 0);
    assert_eq!(model::add(&mut block, 0x200_0000, 0x3000, 0, 0), 0);
    let mut block = turned(with_image(block, 0x300_0000), BOTTOM_UP);
    assert_eq!(
        find(&block, &query(0x1000, 1)),
        Ok((0x200_2000, 0x200_3000))
    );
    assert_eq!(allocate(&mut block, &query(0x1000, 1)), Err(6));
    // Above the image the address that would merge is found first, and there is room.
    let mut block = with_image(block, 0x1000);
    assert_eq!(
        allocate(&mut block, &query(0x1000, 1)),
        Ok((0x1000, 0x2000))
    );
    assert_eq!(records(&block, &TAKEN).len(), 511);
}

// Request E10: no freeing what is not taken.

/// The block after a free, or its refusal, which leaves the block as it was.
fn freed(block: &[u8], base: u64, size: u64) -> Result<Vec<u8>, u32> {
    let mut after = block.to_vec();
    match model::free(&mut after, base, size) {
        0 => Ok(after),
        number => {
            assert_eq!(after, block);
            Err(number)
        }
    }
}

/// Memory M with these ranges (from, to) reserved, one after the other.
fn reserved(ranges: &[(u64, u64)]) -> Vec<u8> {
    let mut block = m();
    for &(lo, hi) in ranges {
        assert_eq!(model::reserve(&mut block, lo, hi - lo), 0);
    }
    block
}

#[test]
fn number_12_is_its_own() {
    assert_eq!(number::NOT_TAKEN, 12);
}

#[test]
fn a_second_free_gets_12() {
    let block = reserved(&[(0x11000, 0x12000), (0x14000, 0x15000)]);
    let once = freed(&block, 0x11000, 0x1000).unwrap();
    assert_eq!(once, reserved(&[(0x14000, 0x15000)]));
    assert_eq!(freed(&once, 0x11000, 0x1000), Err(12));
    // Not even a part of it, nor with what is still taken.
    assert_eq!(freed(&once, 0x11800, 1), Err(12));
    assert_eq!(freed(&once, 0x11000, 0x4000), Err(12));
    // What is reserved again is freed again.
    let mut again = once.clone();
    assert_eq!(model::reserve(&mut again, 0x11000, 0x1000), 0);
    assert_eq!(freed(&again, 0x11000, 0x1000), Ok(once.clone()));
    // The other range once, too.
    let none = freed(&once, 0x14000, 0x1000).unwrap();
    assert_eq!(none, m());
    assert_eq!(freed(&none, 0x14000, 0x1000), Err(12));
}

#[test]
fn an_allocation_is_freed_once() {
    for direction in [TOP_DOWN, BOTTOM_UP] {
        let start = turned(m(), direction);
        let mut block = start.clone();
        let (a, _) = allocate(&mut block, &query(0x1000, 0x1000)).unwrap();
        let (b, _) = allocate(&mut block, &query(0x1000, 0x1000)).unwrap();
        let once = freed(&block, a, 0x1000).unwrap();
        assert_eq!(freed(&once, a, 0x1000), Err(12));
        assert_eq!(freed(&once, a.min(b), 0x2000), Err(12));
        assert_eq!(freed(&once, b, 0x1000), Ok(start));
    }
}

#[test]
fn two_touching_reserves_are_freed_as_one() {
    for ranges in [
        [(0x11000, 0x12000), (0x12000, 0x13000)],
        [(0x12000, 0x13000), (0x11000, 0x12000)],
        [(0x11000, 0x12800), (0x11800, 0x13000)],
    ] {
        let block = reserved(&ranges);
        assert_eq!(freed(&block, 0x11000, 0x2000), Ok(m()));
        assert_eq!(
            freed(&block, 0x11800, 0x1000),
            Ok(reserved(&[(0x11000, 0x11800), (0x12800, 0x13000)]))
        );
        assert_eq!(freed(&block, 0x11000, 0x2001), Err(12));
        assert_eq!(freed(&block, 0x10FFF, 0x2001), Err(12));
    }
}

#[test]
fn ranges_on_both_sides_of_a_taken_record() {
    // Every range around [0x11010, 0x11020), alone, with others far off, and with memory
    // or none under it.
    let (first, past) = (0x11010u64, 0x11020u64);
    let alone = reserved(&[(first, past)]);
    let among = reserved(&[(0x10000, 0x10100), (first, past), (0x30000, 0x30100)]);
    let mut bare = alone.clone();
    assert_eq!(model::remove(&mut bare, 0, u64::MAX), 0);
    for block in [alone, among, bare] {
        for base in first - 2..=past + 2 {
            for end in base..=past + 2 {
                let size = end - base;
                let inside = first <= base && end <= past;
                let wanted = if size == 0 {
                    Ok(block.clone())
                } else if inside {
                    let mut rest = freed(&block, first, past - first).unwrap();
                    assert_eq!(model::reserve(&mut rest, first, base - first), 0);
                    assert_eq!(model::reserve(&mut rest, end, past - end), 0);
                    Ok(rest)
                } else {
                    Err(12)
                };
                assert_eq!(freed(&block, base, size), wanted, "{base:#x} {size:#x}");
            }
        }
    }
}

#[test]
fn ranges_over_two_taken_records() {
    // A gap of one address.
    let block = reserved(&[(0x11000, 0x12000), (0x12001, 0x13000)]);
    assert_eq!(records(&block, &TAKEN).len(), 2);
    assert_eq!(freed(&block, 0x11000, 0x2000), Err(12));
    // Only the middle is not taken, of three addresses.
    assert_eq!(freed(&block, 0x11FFF, 3), Err(12));
    // Only the first is taken, only the last, none.
    assert_eq!(freed(&block, 0x11FFF, 2), Err(12));
    assert_eq!(freed(&block, 0x12000, 2), Err(12));
    assert_eq!(freed(&block, 0x12000, 1), Err(12));
    // The addresses beside the gap.
    assert_eq!(
        freed(&block, 0x11FFF, 1),
        Ok(reserved(&[(0x11000, 0x11FFF), (0x12001, 0x13000)]))
    );
    assert_eq!(
        freed(&block, 0x12001, 1),
        Ok(reserved(&[(0x11000, 0x12000), (0x12002, 0x13000)]))
    );
    // With the gap reserved all of it is.
    let mut whole = block.clone();
    assert_eq!(model::reserve(&mut whole, 0x12000, 1), 0);
    assert_eq!(freed(&whole, 0x11000, 0x2000), Ok(m()));

    // A wide gap: the first address and the last alone, and all but the middle.
    let block = reserved(&[(0x11000, 0x11001), (0x12000, 0x12001)]);
    assert_eq!(freed(&block, 0x11000, 0x1001), Err(12));
    assert_eq!(freed(&block, 0x11000, 0x1000), Err(12));
    assert_eq!(freed(&block, 0x11001, 0x1000), Err(12));
    assert_eq!(freed(&block, 0x10FFF, 0x1003), Err(12));
    // All records at once.
    assert_eq!(freed(&block, 0, u64::MAX), Err(12));
}

#[test]
fn nothing_is_freed_of_an_empty_table() {
    for block in [fresh(), m()] {
        for base in [0, 1, 0x10000, 0x20000, 1 << 63, u64::MAX - 1] {
            for size in [1, 2, 0x1000, 1 << 63, u64::MAX] {
                assert_eq!(freed(&block, base, size), Err(12), "{base:#x} {size:#x}");
            }
        }
    }
}

#[test]
fn a_size_of_0_is_freed_anywhere() {
    let mut bad = taken_comb();
    bad[52] = 1;
    for block in [fresh(), m(), reserved(&[(0x11000, 0x12000)]), taken_comb()] {
        for base in [0, 1, 0x10FFF, 0x11000, 0x11800, 0x12000, 0x20000] {
            assert_eq!(freed(&block, base, 0), Ok(block.clone()), "{base:#x}");
        }
        assert_eq!(freed(&block, u64::MAX, 0), Ok(block.clone()));
        assert_eq!(freed(&block[1..], 0x11000, 0), Err(1));
    }
    // A bad block gets 1, whatever the size.
    for size in [0, 1, 0x1000, 0x1001, u64::MAX] {
        assert_eq!(freed(&bad, 0, size), Err(1));
        assert_eq!(freed(&bad, u64::MAX, size), Err(1));
    }
}

#[test]
fn frees_cut_at_the_top() {
    let sizes = [1, 2, 3, 0x1000, 1 << 63, u64::MAX - 1, u64::MAX];
    // From the last address on nothing is left, whatever is taken.
    let at_top = reserved(&[(u64::MAX - 0x10, u64::MAX)]);
    for block in [fresh(), m(), at_top.clone()] {
        for size in sizes {
            assert_eq!(freed(&block, u64::MAX, size), Ok(block.clone()));
        }
    }
    // The last address that can be taken: any size but 0 covers it alone.
    for size in sizes {
        let rest = reserved(&[(u64::MAX - 0x10, u64::MAX - 1)]);
        assert_eq!(freed(&at_top, u64::MAX - 1, size), Ok(rest.clone()));
        assert_eq!(freed(&rest, u64::MAX - 1, size), Err(12));
        assert_eq!(freed(&m(), u64::MAX - 1, size), Err(12));
    }
    // Taken up to the cut; one before, and one short of it.
    for past in [0, 1, 2, 0x1000, u64::MAX - 0x11] {
        let size = 0x10 + past;
        assert_eq!(freed(&at_top, u64::MAX - 0x10, size), Ok(m()));
        assert_eq!(freed(&at_top, u64::MAX - 0x11, size + 1), Err(12));
        let short = reserved(&[(u64::MAX - 0x10, u64::MAX - 1)]);
        assert_eq!(freed(&short, u64::MAX - 0x10, size), Err(12));
        assert_eq!(freed(&short, u64::MAX - 0x10, 0xF), Ok(m()));
        let late = reserved(&[(u64::MAX - 0xF, u64::MAX)]);
        assert_eq!(freed(&late, u64::MAX - 0x10, size), Err(12));
    }
    // A sum that goes round is not taken for a small range.
    let low = reserved(&[(0, 0x10)]);
    assert_eq!(freed(&low, 0x8, u64::MAX), Err(12));
    assert_eq!(freed(&low, u64::MAX - 1, 0x8), Err(12));
    // All that can be taken.
    let mut all = m();
    assert_eq!(model::reserve(&mut all, 0, u64::MAX), 0);
    assert_eq!(freed(&all, 0, u64::MAX), Ok(m()));
    let most = freed(&all, 0, u64::MAX - 1).unwrap();
    assert_eq!(records(&most, &TAKEN), [(u64::MAX - 1, 1, 0, 0)]);
}

#[test]
fn numbers_12_and_6_in_a_full_table() {
    // 512 records of a page; record 1 is [0x2000, 0x3000).
    let full = taken_comb();
    let count = |after: Result<Vec<u8>, u32>| after.map(|block| records(&block, &TAKEN).len());
    for (base, size, wanted) in [
        (0x2400, 0x400, Err(6)),
        (0x2001, 1, Err(6)),
        (0x2001, 0xFFE, Err(6)),
        (0x2000, 0x1000, Ok(511)),
        (0x2000, 0xFFF, Ok(512)),
        (0x2001, 0xFFF, Ok(512)),
        (0x2000, 1, Ok(512)),
        (0x2FFF, 1, Ok(512)),
        // One past the record is 12, an inner part of it among the range or not.
        (0x2001, 0x1000, Err(12)),
        (0x2000, 0x1001, Err(12)),
        (0x1FFF, 0x1001, Err(12)),
        (0x1FFF, 2, Err(12)),
        (0x2FFF, 2, Err(12)),
        (0x3000, 0x1000, Err(12)),
        (0x2800, 0x2000, Err(12)),
        (0, 0x40_0000, Err(12)),
        (0x200_0000, 1, Err(12)),
        (0x2400, 0, Ok(512)),
        (u64::MAX, 1, Ok(512)),
    ] {
        assert_eq!(
            count(freed(&full, base, size)),
            wanted,
            "{base:#x} {size:#x}"
        );
    }
    // With room for one record an inner part is done, once.
    let mut room = full.clone();
    assert_eq!(model::free(&mut room, 0, 0x1000), 0);
    let once = freed(&room, 0x2400, 0x400).unwrap();
    assert_eq!(records(&once, &TAKEN).len(), 512);
    assert_eq!(freed(&once, 0x2400, 0x400), Err(12));
    assert_eq!(freed(&once, 0x2200, 0x100), Err(6));
}

#[test]
fn only_free_asks_what_is_there() {
    // Reserve of what is taken, and remove, mark and unmark of no memory are done.
    let block = reserved(&[(0x11000, 0x12000)]);
    for (base, size) in [(0x11000, 0x1000), (0x11400, 0x400)] {
        let mut again = block.clone();
        assert_eq!(model::reserve(&mut again, base, size), 0);
        assert_eq!(again, block);
    }
    for (base, size) in [(0x30000, 0x1000), (0, 0x10000), (0x20000, 1)] {
        let changes: [fn(&mut [u8], u64, u64) -> u32; 3] = [
            |b, base, size| model::remove(b, base, size),
            |b, base, size| model::mark(b, base, size, NO_MAP),
            |b, base, size| model::unmark(b, base, size, HOTPLUG),
        ];
        for change in changes {
            let mut same = block.clone();
            assert_eq!(change(&mut same, base, size), 0);
            assert_eq!(same, block);
        }
    }
}

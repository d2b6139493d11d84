//! The twelve cases of document 01 and those of requests E1, E3 to E10 and E12 to E14, run
//! through the archives.

use crate::blocks::{get_u64, read_recs};
use crate::call::{Call, Command};
use crate::desk::Desk;
use crate::pairs;
use crate::plans::{self, Columns};
use crate::premises::{broken, Side, ALIKE, NEEDED, ROOM};
use crate::reports::{self, Entry};
use crate::rng::Rng;
use model::layout::*;
use model::plan::Line;
use model::Query;
use std::sync::Arc;
use trees::node::{reg, word};
use trees::random::chain;
use trees::{stored, Break, Node, Sketch, Tree};

/// The page that is answered where no piece is left.
const NO_PAGE: u64 = 1 << 52;

const TOP_DOWN: u32 = 0;
const BOTTOM_UP: u32 = 1;

/// One block and the calls of a case on it.
struct Case<'a> {
    desk: &'a mut Desk,
    block: Vec<u8>,
}

impl Case<'_> {
    fn new(desk: &mut Desk) -> Case<'_> {
        let mut case = Case {
            desk,
            block: vec![0xA5; BLOCK_LEN],
        };
        case.does(Call::Fresh, 0);
        case
    }

    fn expect<T: PartialEq + std::fmt::Debug>(&self, what: &str, got: T, wanted: T) {
        if got != wanted {
            self.desk
                .fail(&format!("{what}: {got:x?}, the rules say {wanted:x?}"));
        }
    }

    fn does(&mut self, call: Call, number: u32) {
        let got = self.desk.call(&call, &mut self.block, &mut []);
        self.expect(&call.text(), got, number);
    }

    fn add(&mut self, base: u64, size: u64, node: u32) {
        self.add_gives(base, size, node, 0);
    }

    fn add_gives(&mut self, base: u64, size: u64, node: u32, number: u32) {
        self.add_tag(base, size, (0, node), number);
    }

    /// With flags and node.
    fn add_tag(&mut self, base: u64, size: u64, (flags, node): (u32, u32), number: u32) {
        let call = Call::Add {
            base,
            size,
            flags,
            node,
        };
        self.does(call, number);
    }

    fn mark(&mut self, base: u64, size: u64, flag: u32, number: u32) {
        self.marks(Command::Mark, base, size, flag, number);
    }

    fn unmark(&mut self, base: u64, size: u64, flag: u32, number: u32) {
        self.marks(Command::Unmark, base, size, flag, number);
    }

    fn marks(&mut self, command: Command, base: u64, size: u64, flag: u32, number: u32) {
        let call = Call::Mark {
            command,
            base,
            size,
            flag,
        };
        self.does(call, number);
    }

    fn range(&mut self, command: Command, base: u64, size: u64, number: u32) {
        self.does(
            Call::Range {
                command,
                base,
                size,
            },
            number,
        );
    }

    fn intake(&mut self, entries: &[(u64, u64, u32)], number: u32) {
        let entries: Vec<Entry> = entries
            .iter()
            .map(|&(base, length, kind)| Entry { base, length, kind })
            .collect();
        self.intake_bytes(&reports::bytes(&entries), number);
    }

    fn intake_bytes(&mut self, report: &[u8], number: u32) {
        self.does(Call::Intake(report.into()), number);
    }

    fn intake_tree(&mut self, tree: &Tree, number: u32) {
        self.intake_tree_bytes(&Sketch::of(tree).bytes(), number);
    }

    fn intake_tree_bytes(&mut self, board: &[u8], number: u32) {
        let before = self.block.clone();
        self.does(Call::IntakeTree(board.into()), number);
        if number != 0 {
            self.expect("block", self.block.clone(), before);
        }
    }

    /// A board's tree with the corrections of a service tree.
    fn intake_trees(&mut self, board: &Tree, service: &Tree, number: u32) {
        let bytes = |tree: &Tree| Sketch::of(tree).bytes();
        self.intake_trees_bytes(&bytes(board), &bytes(service), number);
    }

    fn intake_trees_bytes(&mut self, board: &[u8], service: &[u8], number: u32) {
        let before = self.block.clone();
        let (board, service) = (board.into(), service.into());
        self.does(Call::IntakeTrees { board, service }, number);
        if number != 0 {
            self.expect("block", self.block.clone(), before);
        }
    }

    fn convert(&mut self, old: &[u8], number: u32) {
        self.does(Call::Convert(old.into()), number);
    }

    fn turn(&mut self, direction: u32) {
        self.limit(u64::MAX, direction);
    }

    fn turn_gives(&mut self, number: u32) {
        let (limit, direction) = (0, TOP_DOWN);
        self.does(Call::Set { limit, direction }, number);
    }

    fn limit(&mut self, limit: u64, direction: u32) {
        self.does(Call::Set { limit, direction }, 0);
    }

    fn image(&mut self, end: u64) {
        self.image_gives(end, 0);
    }

    fn image_gives(&mut self, end: u64, number: u32) {
        self.does(Call::SetImageEnd { end }, number);
    }

    /// Find and allocate, on the same block, in both directions.
    fn within(&mut self, limit: u64, query: Query, bottom_up: Answer, top_down: Answer) {
        for (direction, wanted) in [(BOTTOM_UP, bottom_up), (TOP_DOWN, top_down)] {
            self.limit(limit, direction);
            let before = self.block.clone();
            self.asks(Call::Find(query), wanted);
            self.asks(Call::Allocate(query), wanted);
            self.block = before;
        }
    }

    /// A call with a slip.
    fn asks(&mut self, call: Call, wanted: Answer) {
        let mut slip = vec![0x77; SLIP_LEN];
        let number = self.desk.call(&call, &mut self.block, &mut slip);
        let got = match number {
            0 => Ok((get_u64(&slip, 0), get_u64(&slip, 8))),
            number => Err(number),
        };
        self.expect(&call.text(), got, wanted);
        if number != 0 {
            self.expect("slip", slip, vec![0; SLIP_LEN]);
        }
    }

    fn find(&mut self, size: u64, alignment: u64, wanted: Answer) {
        self.asks(Call::Find(query(size, alignment)), wanted);
    }

    fn allocate(&mut self, size: u64, alignment: u64, wanted: Answer) {
        self.asks(Call::Allocate(query(size, alignment)), wanted);
    }

    /// Pages from one on, with a buffer of so many bytes: what is written and answered.
    fn pages(&mut self, from: u64, length: usize, pieces: &[(u64, u32)], next: u64) {
        let mut wanted = vec![0x5A; length];
        let buffer = wanted.clone().into();
        let call = Call::Pages { from, buffer };
        let before = self.block.clone();
        self.asks(call.clone(), Ok((pieces.len() as u64, next)));
        for (place, &(page, order)) in wanted.chunks_exact_mut(PIECE_LEN).zip(pieces) {
            place[..8].copy_from_slice(&page.to_le_bytes());
            place[8..].copy_from_slice(&order.to_le_bytes());
        }
        let what = format!("buffer of {}", call.text());
        self.expect(&what, self.desk.buffer.clone(), wanted);
        self.expect("block", self.block.clone(), before);
    }

    /// All pages: from page 0 with more room than is needed, and from the first and the last
    /// pieces, from inside them and behind them with room for one piece.
    fn all_pages(&mut self, pieces: &[(u64, u32)]) {
        let length = (pieces.len() + 1) * PIECE_LEN;
        self.pages(0, length, pieces, NO_PAGE);
        let page_of = |i: usize| pieces.get(i).map_or(NO_PAGE, |piece: &(u64, u32)| piece.0);
        for (i, &(page, order)) in pieces.iter().enumerate() {
            if i >= 24 && i + 4 < pieces.len() {
                continue;
            }
            self.pages(page, PIECE_LEN, &pieces[i..i + 1], page_of(i + 1));
            let behind = pieces.get(i + 1..i + 2).unwrap_or(&[]);
            for from in [page + 1, page + (1 << order) / 2 + 1, page + (1 << order)] {
                if from > page && from <= page_of(i + 1) {
                    self.pages(from, PIECE_LEN, behind, page_of(i + 2));
                }
            }
        }
    }

    fn next_free(&mut self, from: u64, wanted: Answer) {
        self.next_free_of(from, 0, wanted);
    }

    fn next_free_of(&mut self, from: u64, wish: u32, wanted: Answer) {
        let node = ANY_NODE;
        self.asks(Call::NextFree { from, node, wish }, wanted);
    }

    /// The records of a table as (base, size, flags, node), and its total.
    fn table(&mut self, body: &Body, wanted: &[(u64, u64, u32, u32)]) {
        let got: Vec<_> = read_recs(&self.block, body)
            .iter()
            .map(|r| (r.base, r.size, r.flags, r.node))
            .collect();
        self.expect("records", got, wanted.to_vec());
        let sum: u64 = wanted.iter().map(|r| r.1).sum();
        self.expect("total", get_u64(&self.block, body.total_at), sum);
    }

    fn count(&mut self, body: &Body, wanted: u64) {
        let got = read_recs(&self.block, body).len() as u64;
        self.expect("number of records", got, wanted);
    }
}

/// The two numbers of a slip, or the refusal.
type Answer = Result<(u64, u64), u32>;

fn query(size: u64, alignment: u64) -> Query {
    Query {
        size,
        alignment,
        start: 0,
        end: 0,
        node: ANY_NODE,
        wish: 0,
    }
}

pub fn run(desk: &mut Desk) -> u32 {
    let cases: [fn(&mut Desk); 103] = [
        printed,
        one,
        two_and_three,
        four,
        five,
        six,
        seven,
        eight,
        nine,
        ten,
        eleven,
        eleven_taken,
        twelve,
        report_lengths,
        report_kinds,
        report_full,
        report_at_the_top,
        report_over_what_is_there,
        report_in_two_orders,
        limit_and_named_end,
        limit_and_lowest_start,
        limit_and_start,
        limit_and_allocations,
        limit_and_next_free,
        printed_converted,
        converted_full,
        converted_limits,
        old_blocks_refused,
        bad_old_blocks,
        run_and_window,
        run_and_what_is_behind,
        run_before_the_call,
        run_and_next_free,
        flags_added,
        flags_of_a_block,
        flags_marked,
        flags_marked_wrong,
        flags_merged,
        wishes_checked,
        wishes_granted,
        old_flags,
        image_stored,
        image_of_a_bad_block,
        image_kept,
        image_of_an_old_block,
        image_and_runs,
        image_and_window,
        image_and_allocations,
        image_and_full_table,
        image_and_next_free,
        free_twice,
        free_of_touching_reserves,
        free_beside_a_record,
        free_over_two_records,
        free_of_an_empty_table,
        free_without_an_address,
        free_at_the_top,
        free_and_full_table,
        free_alone_asks,
        pages_cut,
        pages_of_large_runs,
        pages_at_the_ends,
        pages_of_touching_runs,
        pages_and_flags,
        pages_and_settings,
        pages_of_full_tables,
        pages_that_are_none,
        pages_refused,
        alone_premises,
        alone_alike,
        alone_and_allocate,
        tree_stored,
        tree_by_its_records,
        tree_broken,
        tree_depth,
        tree_order,
        tree_list_before_reserved,
        tree_full,
        tree_numbers,
        tree_at_the_edges,
        pair_corrected,
        pair_values,
        pair_cells,
        pair_paths,
        pair_adds_nothing,
        pair_stored,
        pair_broken,
        pair_numbers,
        lookup_paths,
        lookup_stored,
        lookup_refused,
        plan_lengths,
        plan_checks,
        plan_window,
        plan_limit,
        plan_runs,
        plan_wishes,
        plan_sharing,
        plan_faults,
        plan_full,
        plan_at_the_ends,
        plan_settings,
        plan_columns,
    ];
    for (turn, case) in cases.iter().enumerate() {
        desk.turn = turn as u64;
        case(desk);
    }
    12
}

/// The block that document 01 prints, in the edition of request E4.
fn printed(desk: &mut Desk) {
    let mut c = Case::new(desk);
    c.add(0x1000, 0x1000, 0);
    c.expect("printed block", c.block.clone(), printed_bytes(2, 15440));
}

/// The printed block's bytes in edition 1 or 2, of so many bytes.
fn printed_bytes(edition: u8, length: usize) -> Vec<u8> {
    let [low, high] = if edition == 1 { [0x80, 0] } else { [0, 0x02] };
    let mut block = vec![0u8; length];
    block[..104].copy_from_slice(&[
        edition, 0, 0, 0, 0x02, 0, 0, 0, // edition, bodies
        0x01, 0, 0, 0, 0x50, 0, 0, 0, 0x01, 0, 0, 0, 0x80, 0, 0, 0, // memory entry
        0x02, 0, 0, 0, 0x50, 0x0C, 0, 0, 0, 0, 0, 0, low, high, 0, 0, // taken entry
        0xFF, 0xFF, 0xFF, 0xFF, 0xFF, 0xFF, 0xFF, 0xFF, // limit
        0, 0, 0, 0, 0, 0, 0, 0, // direction, zero
        0, 0x10, 0, 0, 0, 0, 0, 0, // memory total
        0, 0, 0, 0, 0, 0, 0, 0, // taken total
        0, 0, 0, 0, 0, 0, 0, 0, // zero, or no image end
        0, 0x10, 0, 0, 0, 0, 0, 0, // base
        0, 0x10, 0, 0, 0, 0, 0, 0, // size
        0, 0, 0, 0, 0, 0, 0, 0, // flags, node
    ]);
    block
}

/// The end of M, and an answer in a run up to it.
const END: u64 = 0x20000;

fn to_end(a: u64) -> Answer {
    Ok((a, END))
}

fn m(desk: &mut Desk) -> Case<'_> {
    let mut c = Case::new(desk);
    c.add(0x10000, 0x10000, 0);
    c
}

fn one(desk: &mut Desk) {
    let mut c = m(desk);
    c.find(0x1000, 0x1000, Ok((0x1F000, 0x20000)));
    c.turn(BOTTOM_UP);
    c.find(0x1000, 0x1000, Ok((0x10000, 0x20000)));
    c.turn(TOP_DOWN);
    c.find(0x1000, 0x1000, Ok((0x1F000, 0x20000)));
}

fn two_and_three(desk: &mut Desk) {
    let mut c = m(desk);
    c.allocate(0x1000, 0x1000, Ok((0x1F000, 0x20000)));
    c.allocate(0x1000, 0x1000, Ok((0x1E000, 0x1F000)));
    c.table(&TAKEN, &[(0x1E000, 0x2000, 0, 0)]);
    c.range(Command::Free, 0x1E800, 0x800, 0);
    c.table(&TAKEN, &[(0x1E000, 0x800, 0, 0), (0x1F000, 0x1000, 0, 0)]);
    c.find(0x800, 0x800, Ok((0x1E800, 0x1F000)));
}

fn four_tables(desk: &mut Desk) -> Case<'_> {
    let mut c = m(desk);
    c.range(Command::Reserve, 0x18000, 0x1000, 0);
    c
}

fn four(desk: &mut Desk) {
    let mut c = four_tables(desk);
    for direction in [TOP_DOWN, BOTTOM_UP] {
        c.turn(direction);
        c.find(0x8000, 1, Ok((0x10000, 0x18000)));
        c.find(0x8001, 1, Err(5));
        c.allocate(0x8001, 1, Err(5));
    }
}

fn five(desk: &mut Desk) {
    let mut c = Case::new(desk);
    c.add(0x1000, 0x1000, 0);
    c.turn(TOP_DOWN);
    c.find(0x3000, 1, Err(5));
    c.find(0x1000, 1, Ok((0x1000, 0x2000)));
    c.find(0x1001, 1, Err(5));
}

fn six(desk: &mut Desk) {
    let mut c = Case::new(desk);
    c.add(0, 0x2000, 0);
    c.turn(BOTTOM_UP);
    c.find(0x1000, 0x1000, Ok((0x1000, 0x2000)));
    c.find(0x1001, 0x1000, Err(5));
    c.next_free(0, Ok((0, 0x2000)));
}

fn seven(desk: &mut Desk) {
    let base = u64::MAX - 4095;
    let mut c = Case::new(desk);
    c.add(base, 0x2000, 0);
    c.table(&MEMORY, &[(base, 0xFFF, 0, 0)]);
    c.add(u64::MAX, 1, 0);
    c.table(&MEMORY, &[(base, 0xFFF, 0, 0)]);
}

fn eight(desk: &mut Desk) {
    let base = u64::MAX - 4094;
    let mut c = Case::new(desk);
    c.add(base, 0xFFE, 0);
    for direction in [TOP_DOWN, BOTTOM_UP] {
        c.turn(direction);
        c.find(1, 0x1000, Err(5));
    }
    c.does(Call::Trim { alignment: 0x1000 }, 0);
    c.table(&MEMORY, &[]);
}

fn nine(desk: &mut Desk) {
    let mut c = Case::new(desk);
    c.add(0x1000, 0x1000, 0);
    c.add(0, 0x3000, 1);
    c.table(
        &MEMORY,
        &[
            (0, 0x1000, 0, 1),
            (0x1000, 0x1000, 0, 0),
            (0x2000, 0x1000, 0, 1),
        ],
    );
    let mut c = Case::new(desk);
    c.add(0, 0x3000, 1);
    c.add(0x1000, 0x1000, 0);
    c.table(&MEMORY, &[(0, 0x3000, 0, 1)]);
}

fn ten(desk: &mut Desk) {
    let mut c = Case::new(desk);
    c.add(0x10000, 0x8000, 0);
    c.add(0x18000, 0x8000, 1);
    for (direction, a) in [(BOTTOM_UP, 0x10000), (TOP_DOWN, 0x18000)] {
        c.turn(direction);
        c.find(0x8001, 1, Err(5));
        c.find(0x8000, 1, Ok((a, a + 0x8000)));
    }
}

fn eleven(desk: &mut Desk) {
    let most = MEMORY.capacity as u64;
    let mut c = Case::new(desk);
    for i in 0..most {
        c.add(0x10000 + i * 0x2000, 0x1000, 0);
    }
    c.count(&MEMORY, most);
    let full = c.block.clone();
    c.add_gives(0x100_0000, 0x1000, 0, 6);
    c.add(0x11000, 0x1000, 0);
    c.count(&MEMORY, most - 1);
    c.block = full.clone();
    c.range(Command::Remove, 0x12400, 0x400, 6);
    c.range(Command::Remove, 0x12000, 0x1000, 0);
    c.count(&MEMORY, most - 1);
    // The range over all of them leaves one.
    c.block = full;
    c.add(0x10000, most * 0x2000, 0);
    c.count(&MEMORY, 1);
}

/// The same for the taken table.
fn eleven_taken(desk: &mut Desk) {
    let most = TAKEN.capacity as u64;
    let mut c = Case::new(desk);
    for i in 0..most {
        c.range(Command::Reserve, 0x10000 + i * 0x2000, 0x1000, 0);
    }
    c.count(&TAKEN, most);
    let full = c.block.clone();
    c.range(Command::Reserve, 0x100_0000, 0x1000, 6);
    c.range(Command::Reserve, 0x11000, 0x1000, 0);
    c.count(&TAKEN, most - 1);
    c.block = full.clone();
    c.range(Command::Free, 0x12400, 0x400, 6);
    c.range(Command::Free, 0x12000, 0x1000, 0);
    c.count(&TAKEN, most - 1);
    // 6 speaks of the address that find would give; there is no second try.
    c.block = full;
    c.add(0x100_0000, 0x1000, 0);
    c.add(0x11000, 0x1000, 0);
    c.allocate(0x1000, 1, Err(6));
    c.turn(BOTTOM_UP);
    c.allocate(0x1000, 1, Ok((0x11000, 0x12000)));
    c.count(&TAKEN, most - 1);
}

fn twelve(desk: &mut Desk) {
    let mut c = four_tables(desk);
    c.next_free(0x18800, Ok((0x19000, 0x20000)));
    c.next_free(0x1A000, Ok((0x1A000, 0x20000)));
    c.next_free(0x20000, Err(5));
}

/// `count` usable pages with one page between, from `base`.
fn pages(base: u64, count: u64) -> Vec<(u64, u64, u32)> {
    (0..count)
        .map(|i| (base + i * 0x2000, 0x1000, USABLE))
        .collect()
}

fn report_lengths(desk: &mut Desk) {
    let most = REPORT_ENTRIES as u64;
    let mut c = Case::new(desk);
    c.intake(&pages(0x10000, most), 0);
    c.count(&MEMORY, most);
    let mut c = Case::new(desk);
    c.intake(&pages(0x10000, most + 1), 10);
    for len in [1, 19, 21, 2559, 2561] {
        c.intake_bytes(&vec![0; len], 10);
    }
    c.table(&MEMORY, &[]);
    c.intake_bytes(&[], 0);
    c.intake_bytes(&[0; 20], 0);
    c.block[0] = 0;
    c.intake_bytes(&[0; 19], 1);
    c.intake(&pages(0x10000, most + 1), 1);
}

fn report_kinds(desk: &mut Desk) {
    for kind in (0..=9).chain([257, 1 << 24, u32::MAX]) {
        let mut c = Case::new(desk);
        c.intake(&[(0x10000, 0x1000, kind)], 0);
        c.count(&MEMORY, u64::from(kind == USABLE));
    }
}

fn report_full(desk: &mut Desk) {
    let most = MEMORY.capacity as u64;
    let mut c = Case::new(desk);
    c.intake(&pages(0x10000, most - 1), 0);
    let nearly = c.block.clone();
    // The second of these does not fit, so the first is not there either.
    let far = pages(0x100_0000, 2);
    c.intake(&far, 6);
    c.expect("block", c.block.clone(), nearly.clone());
    c.intake(&[far[0], (0x100_1000, 0x1000, 1), far[1]], 0);
    c.count(&MEMORY, most);
    // A byte that the trim would take away is refused as well.
    c.intake(&[(0x1, 1, 1)], 6);
    c.intake(&[(0x1, 1, 2)], 0);
    c.intake(&[(0x10000, 0x100_0000, 1)], 0);
    c.count(&MEMORY, 1);
    // 10 comes before 6.
    c.block = nearly;
    c.intake(&pages(0x100_0000, most + 1), 10);
}

fn report_at_the_top(desk: &mut Desk) {
    let page = u64::MAX - 4095;
    for (entry, wanted) in [
        ((page, 0x2000), None),
        ((u64::MAX, 1), None),
        ((page + 1, 0xFFE), None),
        ((page - 0x1000, 0x1000), Some(0x1000)),
        ((page - 0x1000, 0x2000), Some(0x1000)),
        ((page - 0x1000, u64::MAX), Some(0x1000)),
    ] {
        let mut c = Case::new(desk);
        c.intake(&[(entry.0, entry.1, 1), (0x1000, 0, 1)], 0);
        let wanted: Vec<_> = wanted
            .map(|size| (entry.0, size, 0, 0))
            .into_iter()
            .collect();
        c.table(&MEMORY, &wanted);
    }
}

/// What was there keeps its tag and is trimmed too; what is taken stays.
fn report_over_what_is_there(desk: &mut Desk) {
    let mut c = Case::new(desk);
    c.add(0x2000, 0x1000, 9);
    c.add(0x5000, 0x1800, 1);
    c.add(0x20001, 0x1000, 2);
    c.range(Command::Reserve, 0x2800, 0x10, 0);
    c.intake(&[(0x1000, 0x7000, 1)], 0);
    c.table(
        &MEMORY,
        &[
            (0x1000, 0x1000, 0, 0),
            (0x2000, 0x1000, 0, 9),
            (0x3000, 0x2000, 0, 0),
            (0x5000, 0x1000, 0, 1),
            (0x7000, 0x1000, 0, 0),
        ],
    );
    c.table(&TAKEN, &[(0x2800, 0x10, 0, 0)]);
}

/// Pieces of a page in any order make a page.
fn report_in_two_orders(desk: &mut Desk) {
    let pieces = [(0x1000, 0x801, 1), (0x1800, 0x7FF, 1), (0x1FFF, 1, 1)];
    let mut c = Case::new(desk);
    c.intake(&pieces, 0);
    c.table(&MEMORY, &[(0x1000, 0x1000, 0, 0)]);
    let end = c.block.clone();
    let mut c = Case::new(desk);
    c.intake(&[pieces[2], pieces[0], pieces[1]], 0);
    c.expect("block", c.block.clone(), end);
}

/// A named end below, at and above the limit.
fn limit_and_named_end(desk: &mut Desk) {
    let limit = 0x18000;
    let mut c = m(desk);
    let named = |size, end| Query {
        end,
        ..query(size, 1)
    };
    c.within(
        limit,
        named(0x1000, 0x17FFF),
        to_end(0x10000),
        to_end(0x16FFF),
    );
    c.within(limit, named(0x8000, 0x17FFF), Err(5), Err(5));
    for end in [0, limit, limit + 1, 0x20000, u64::MAX] {
        c.within(limit, named(0x1000, end), to_end(0x10000), to_end(0x17000));
        c.within(limit, named(0x8000, end), to_end(0x10000), to_end(0x10000));
        c.within(limit, named(0x8001, end), Err(5), Err(5));
    }
    // Where there is no limit the end is as named.
    c.within(
        u64::MAX,
        named(0x1000, 0x20000),
        to_end(0x10000),
        to_end(0x1F000),
    );
}

/// A limit of 0, below 4096, and on both sides of the lowest start.
fn limit_and_lowest_start(desk: &mut Desk) {
    let mut c = Case::new(desk);
    c.add(0, 0x20000, 0);
    for end in [0, 1, 4095, 4096, 4097, u64::MAX] {
        let named = Query { end, ..query(1, 1) };
        for limit in [0, 1, 4095, 4096] {
            c.within(limit, named, Err(5), Err(5));
        }
        let wanted = match end {
            0 | 4097.. => to_end(4096),
            _ => Err(5),
        };
        c.within(4097, named, wanted, wanted);
        c.within(4097, Query { size: 2, ..named }, Err(5), Err(5));
    }
}

/// A start below, at and above the limit.
fn limit_and_start(desk: &mut Desk) {
    let limit = 0x18000;
    let mut c = m(desk);
    for end in [0, limit, limit + 1, 0x1C000, u64::MAX] {
        let from = |start| Query {
            start,
            end,
            ..query(1, 1)
        };
        let last = limit - 1;
        c.within(limit, from(last), to_end(last), to_end(last));
        let two = Query {
            size: 2,
            ..from(last)
        };
        c.within(limit, two, Err(5), Err(5));
        for start in [limit, limit + 1, 0x1BFFF, u64::MAX] {
            c.within(limit, from(start), Err(5), Err(5));
        }
    }
}

/// Memory above the limit is not given, however often it is asked for.
fn limit_and_allocations(desk: &mut Desk) {
    let mut c = m(desk);
    c.limit(0x12000, TOP_DOWN);
    let page = Call::Allocate(Query {
        end: 0x20000,
        ..query(0x1000, 0x1000)
    });
    for wanted in [to_end(0x11000), Ok((0x10000, 0x11000)), Err(5)] {
        c.asks(page.clone(), wanted);
    }
    c.table(&TAKEN, &[(0x10000, 0x2000, 0, 0)]);
    c.limit(0x13000, TOP_DOWN);
    c.asks(page, to_end(0x12000));
}

/// Next free takes no notice of the limit.
fn limit_and_next_free(desk: &mut Desk) {
    let mut c = m(desk);
    for limit in [0, 0x10000, 0x18000, u64::MAX] {
        c.limit(limit, TOP_DOWN);
        c.next_free(0, Ok((0x10000, 0x20000)));
        c.next_free(0x19000, Ok((0x19000, 0x20000)));
    }
}

/// The edition 1 block that says what a block does, if its taken table fits: the
/// same bytes up to its end, but for edition and taken capacity.
fn old_of(block: &[u8]) -> Vec<u8> {
    let mut old = block[..6224].to_vec();
    old[0] = 1;
    old[36..40].copy_from_slice(&[0x80, 0, 0, 0]);
    old
}

/// Document 01's printed block becomes the same in edition 2, and a fresh block a
/// fresh one, whatever stood there.
fn printed_converted(desk: &mut Desk) {
    let mut c = Case::new(desk);
    let fresh = c.block.clone();
    for byte in [0, 0xFF, 0xA5] {
        c.block.fill(byte);
        c.convert(&printed_bytes(1, 6224), 0);
        c.expect("converted", c.block.clone(), printed_bytes(2, 15440));
        c.convert(&old_of(&fresh), 0);
        c.expect("converted", c.block.clone(), fresh.clone());
    }
}

/// Both tables full as edition 1 had them; then there is room for taken records.
fn converted_full(desk: &mut Desk) {
    let mut c = Case::new(desk);
    for i in 0..128 {
        let call = Call::Add {
            base: 0x1000 * i,
            size: 0x1000,
            flags: if i % 3 == 0 { NO_MAP } else { 0 },
            node: i as u32 % NODES,
        };
        c.does(call, 0);
        c.range(Command::Reserve, 0x2000 * i, 0x100, 0);
    }
    let full = c.block.clone();
    c.block.fill(0xA5);
    c.convert(&old_of(&full), 0);
    c.expect("converted", c.block.clone(), full);
    c.range(Command::Reserve, 0x100_0000, 1, 0);
    c.count(&TAKEN, 129);
    c.add_gives(0x100_0000, 1, 0, 6);
}

/// Limit and direction are kept.
fn converted_limits(desk: &mut Desk) {
    let mut c = four_tables(desk);
    for limit in [0, 1, 0x18000, u64::MAX] {
        for direction in [TOP_DOWN, BOTTOM_UP] {
            c.limit(limit, direction);
            let wanted = c.block.clone();
            c.block.fill(0x5A);
            c.convert(&old_of(&wanted), 0);
            c.expect("converted", c.block.clone(), wanted);
        }
    }
}

/// Other lengths, and every other command on an edition 1 block.
fn old_blocks_refused(desk: &mut Desk) {
    let old = printed_bytes(1, 6224);
    for length in [0, 1, 6223, 6224, 6225, 15439, 15441] {
        let mut c = Case::new(desk);
        c.block.resize(length, 0x3C);
        let before = c.block.clone();
        c.convert(&old, 1);
        c.expect("block", c.block.clone(), before);
    }
    let mut c = Case::new(desk);
    for length in [0, 1, 6223, 6225, 15439, 15440] {
        c.convert(&printed_bytes(1, length.max(104))[..length], 1);
    }
    c.convert(&printed_bytes(2, 15440), 1);
    c.convert(&printed_bytes(2, 6224), 1);

    c.block = old.clone();
    c.does(Call::Fresh, 1);
    c.turn_gives(1);
    c.image_gives(0x1000, 1);
    c.add_gives(0, 0, 0, 1);
    for command in [Command::Remove, Command::Reserve, Command::Free] {
        c.range(command, 0x1000, 0x1000, 1);
    }
    c.mark(0x1000, 0x1000, NO_MAP, 1);
    c.unmark(0x1000, 0x1000, NO_MAP, 1);
    c.does(Call::Trim { alignment: 1 }, 1);
    c.next_free(0, Err(1));
    c.find(1, 1, Err(1));
    c.allocate(1, 1, Err(1));
    c.intake(&[], 1);
    c.expect("block", c.block.clone(), old);
}

/// A word of an edition 1 block that is another.
fn bad_old_blocks(desk: &mut Desk) {
    let mut c = four_tables(desk);
    let old = old_of(&c.block);
    for (at, word) in [
        (0, 2u32),
        (4, 1),
        (16, 0),
        (16, 129),
        (32, 129),
        (36, 127),
        (36, 512),
        (48, 2),
        (52, 1),
        (56, 0),
        (72, 1),
        (76, 1 << 31),
        (96, 1),
        (96, 2),
        (96, 8),
        (100, 64),
        (104, 1),
        (3152 + 16, 4),
        (6220, 1),
    ] {
        let mut bad = old.clone();
        bad[at..at + 4].copy_from_slice(&word.to_le_bytes());
        c.convert(&bad, 1);
    }
    c.convert(&old, 0);
}

/// The window's end below, at and above the run's, which neither a named end nor the
/// limit cuts.
fn run_and_window(desk: &mut Desk) {
    let mut c = m(desk);
    for (end, highest) in [
        (0x10010, 0x10000),
        (END - 1, END - 0x11),
        (END, END - 0x10),
        (END + 1, END - 0x10),
        (u64::MAX, END - 0x10),
    ] {
        let named = Query {
            end,
            ..query(0x10, 1)
        };
        let answers = (to_end(0x10000), to_end(highest));
        for limit in [end, END, END + 1, u64::MAX] {
            if limit >= end {
                c.within(limit, named, answers.0, answers.1);
            }
        }
        for named_end in [0, u64::MAX] {
            let above = Query {
                end: named_end,
                ..named
            };
            c.within(end, above, answers.0, answers.1);
        }
    }
    // A start inside the run, and a window that is exactly the size.
    let inside = Query {
        start: 0x12345,
        end: 0x12346,
        ..query(1, 1)
    };
    c.within(u64::MAX, inside, to_end(0x12345), to_end(0x12345));
}

/// A run ends at what is taken, at another node, at no-map memory and where memory
/// ends, also where what is behind that is taken.
fn run_and_what_is_behind(desk: &mut Desk) {
    let mut c = Case::new(desk);
    c.add(0x10000, 0x2000, 0);
    c.add(0x12000, 0x3000, 1);
    c.range(Command::Reserve, 0x11000, 0x800, 0);
    c.mark(0x13000, 0x1000, NO_MAP, 0);
    c.range(Command::Reserve, 0x15000, 0x1000, 0);
    for (from, to) in [
        (0x10000, 0x11000),
        (0x11800, 0x12000),
        (0x12000, 0x13000),
        (0x14000, 0x15000),
    ] {
        for end in [from + 0x10, to - 1, to, to + 1] {
            let ask = Query {
                start: from,
                end,
                ..query(0x10, 1)
            };
            let highest = end.min(to) - 0x10;
            c.within(u64::MAX, ask, Ok((from, to)), Ok((highest, to)));
            c.within(
                end,
                Query { end: 0, ..ask },
                Ok((from, to)),
                Ok((highest, to)),
            );
        }
    }
    // The last addresses.
    let page = u64::MAX - 4095;
    let mut c = Case::new(desk);
    c.add(page, 0x1000, 0);
    let all = Ok((page, u64::MAX));
    c.within(u64::MAX, query(0xFFF, 1), all, all);
    c.within(u64::MAX - 1, query(0xFFE, 1), all, all);
}

/// Allocate reports the run as it was, the last of it too.
fn run_before_the_call(desk: &mut Desk) {
    let mut c = m(desk);
    c.turn(BOTTOM_UP);
    for i in 0..4 {
        c.allocate(0x4000, 0x1000, to_end(0x10000 + i * 0x4000));
    }
    c.allocate(1, 1, Err(5));
    let mut c = m(desk);
    for i in 0..4 {
        let end = END - i * 0x4000;
        c.allocate(0x4000, 0x1000, Ok((end - 0x4000, end)));
    }
    c.allocate(1, 1, Err(5));
    // From the middle of a run, which it cuts in two.
    let mut c = m(desk);
    let middle = Query {
        start: 0x18000,
        end: 0x19000,
        ..query(0x1000, 1)
    };
    c.asks(Call::Allocate(middle), to_end(0x18000));
    c.next_free(0, Ok((0x10000, 0x18000)));
    c.next_free(0x18000, to_end(0x19000));
}

/// Next free from the second number gives the run behind, whatever was taken of this
/// one.
fn run_and_next_free(desk: &mut Desk) {
    let runs = [(0x10000, 0x18000), (0x19000, END), (0x30000, 0x31000)];
    for part in [1, 0x1000, u64::MAX] {
        for direction in [TOP_DOWN, BOTTOM_UP] {
            let mut c = four_tables(desk);
            c.add(0x30000, 0x1000, 0);
            c.turn(direction);
            for (i, (from, to)) in runs.into_iter().enumerate() {
                let size = part.min(to - from);
                let ask = Query {
                    start: from,
                    end: from + size,
                    ..query(size, 1)
                };
                c.asks(Call::Allocate(ask), Ok((from, to)));
                c.next_free(to, runs.get(i + 1).copied().ok_or(5));
            }
        }
    }
}

/// Flags 0 to 7 are legal in add, and nothing above them.
fn flags_added(desk: &mut Desk) {
    for flags in (0..=16).chain([256, 1 << 16, 1 << 31, u32::MAX]) {
        let legal = flags <= 7;
        let number = if legal { 0 } else { 2 };
        let mut c = Case::new(desk);
        c.add_tag(0x1000, 0, (flags, 63), number);
        c.add_tag(0x1000, 0x1000, (flags, 64), 2);
        c.table(&MEMORY, &[]);
        c.add_tag(0x1000, 0x1000, (flags, 63), number);
        c.count(&MEMORY, u64::from(legal));
        c.block[0] = 0;
        c.add_tag(0x1000, 0x1000, (flags, 64), 1);
    }
}

/// The same of a good block; in the taken table any flag is bad.
fn flags_of_a_block(desk: &mut Desk) {
    for flags in (0..=16).chain([256, 1 << 16, 1 << 31, u32::MAX]) {
        let mut c = four_tables(desk);
        let whole = c.block.clone();
        let at = MEMORY.offset + 16;
        c.block[at..at + 4].copy_from_slice(&flags.to_le_bytes());
        // On a good block this is not taken.
        c.range(Command::Free, 0, 1, if flags > 7 { 1 } else { 12 });
        c.block = whole;
        let at = TAKEN.offset + 16;
        c.block[at..at + 4].copy_from_slice(&flags.to_le_bytes());
        c.range(Command::Free, 0, 1, if flags > 0 { 1 } else { 12 });
    }
}

const EACH_FLAG: [u32; 3] = [HOTPLUG, MIRROR, NO_MAP];

/// A mark sets its flag and keeps the others, an unmark clears it; one that finds
/// nothing to do changes nothing.
fn flags_marked(desk: &mut Desk) {
    for flags in 0..=FLAGS {
        for flag in EACH_FLAG {
            let mut c = Case::new(desk);
            c.add_tag(0x1000, 0x3000, (flags, 9), 0);
            for (command, becomes) in [
                (Command::Mark, flags | flag),
                (Command::Unmark, flags & !flag),
            ] {
                let start = c.block.clone();
                c.marks(command, 0x2000, 0x1000, flag, 0);
                if becomes == flags {
                    c.expect("block", c.block.clone(), start.clone());
                } else {
                    c.table(
                        &MEMORY,
                        &[
                            (0x1000, 0x1000, flags, 9),
                            (0x2000, 0x1000, becomes, 9),
                            (0x3000, 0x1000, flags, 9),
                        ],
                    );
                }
                c.block = start.clone();
                c.marks(command, 0, u64::MAX, flag, 0);
                c.table(&MEMORY, &[(0x1000, 0x3000, becomes, 9)]);
                c.block = start;
            }
        }
    }
}

/// Another value than one flag gets 2, also at size 0, after 1 and before 6.
fn flags_marked_wrong(desk: &mut Desk) {
    let most = MEMORY.capacity as u64;
    let mut c = Case::new(desk);
    for i in 0..most {
        c.add(0x10000 + i * 0x2000, 0x1000, 0);
    }
    let full = c.block.clone();
    for command in [Command::Mark, Command::Unmark] {
        for flag in [0, 3, 5, 6, 7, 8, 9, 12, 1 << 16, 1 << 31, u32::MAX] {
            for size in [0, 1, u64::MAX] {
                c.marks(command, 0x12000, size, flag, 2);
                c.marks(command, u64::MAX, size, flag, 2);
            }
            c.block[0] = 0;
            c.marks(command, 0x12000, 0, flag, 1);
            c.block[0] = full[0];
        }
        for flag in EACH_FLAG {
            c.marks(command, 0x12000, 0, flag, 0);
            c.marks(command, 0x11000, 0x1000, flag, 0);
        }
    }
    c.expect("block", c.block.clone(), full);
    for flag in EACH_FLAG {
        c.mark(0x12000, 1, flag, 6);
        c.mark(0x12000, 0x1000, flag, 0);
        c.unmark(0x12800, 1, flag, 6);
        c.unmark(0x12000, 0x1000, flag, 0);
    }
}

/// Records that differ in one flag stay apart, and merge once it is cleared.
fn flags_merged(desk: &mut Desk) {
    for flag in EACH_FLAG {
        let mut c = m(desk);
        c.mark(0x14000, 0x4000, flag, 0);
        c.table(
            &MEMORY,
            &[
                (0x10000, 0x4000, 0, 0),
                (0x14000, 0x4000, flag, 0),
                (0x18000, 0x8000, 0, 0),
            ],
        );
        let apart = c.block.clone();
        c.unmark(0, u64::MAX, flag, 0);
        c.table(&MEMORY, &[(0x10000, 0x10000, 0, 0)]);
        c.block = apart;
        c.mark(0x10000, 0x10000, flag, 0);
        c.table(&MEMORY, &[(0x10000, 0x10000, flag, 0)]);
    }
}

/// A wish above 3 gets 2, after 8 and 1 and before 3 and 4.
fn wishes_checked(desk: &mut Desk) {
    let mut c = m(desk);
    let whole = c.block.clone();
    for wish in [4, 5, 7, 8, 256, 1 << 16, 1 << 31, u32::MAX - 1, u32::MAX] {
        for (size, alignment, node) in [(1, 1, ANY_NODE), (1, 3, 0), (0, 1, 63), (0, 3, 64)] {
            let wrong = Query {
                node,
                wish,
                ..query(size, alignment)
            };
            let next = Call::NextFree {
                from: 0,
                node,
                wish,
            };
            for call in [Call::Find(wrong), Call::Allocate(wrong), next] {
                c.asks(call.clone(), Err(2));
                c.block[0] = 0;
                c.asks(call.clone(), Err(1));
                let number = c.desk.call(&call, &mut c.block, &mut [0x77; 15]);
                c.expect("number", number, 8);
                c.block = whole.clone();
            }
        }
    }
    for wish in 0..=3 {
        let (size, alignment) = (0, 3);
        let asked = Query {
            wish,
            ..query(size, alignment)
        };
        c.asks(Call::Find(Query { node: 64, ..asked }), Err(2));
        c.asks(Call::Find(asked), Err(3));
        let asked = Query {
            alignment: 1,
            ..asked
        };
        c.asks(Call::Find(asked), Err(4));
    }
}

/// All flags side by side, under every wish: the flags that it grants are listed here,
/// as the request reads, and each run ends where its flags do.
fn wishes_granted(desk: &mut Desk) {
    const GRANTED: [&[u32]; 4] = [&[0, 2], &[0, 1, 2, 3], &[2], &[2, 3]];
    const PART: u64 = 0x1000;
    for order in [[0, 1, 2, 3, 4, 5, 6, 7], [4, 1, 3, 2, 0, 7, 6, 5]] {
        let mut c = Case::new(desk);
        let base = |i: usize| 0x10000 + i as u64 * PART;
        for (i, flags) in order.into_iter().enumerate() {
            c.add_tag(base(i), PART, (flags, 0), 0);
        }
        for (wish, granted) in (0..).zip(GRANTED) {
            let asked = |size| Query {
                wish,
                ..query(size, 1)
            };
            let runs: Vec<(u64, u64)> = (0..8)
                .filter(|&i| granted.contains(&order[i]))
                .map(|i| (base(i), base(i + 1)))
                .collect();
            let (first, last) = (runs[0], runs[runs.len() - 1]);
            c.within(
                u64::MAX,
                asked(0x10),
                Ok(first),
                Ok((last.1 - 0x10, last.1)),
            );
            c.within(u64::MAX, asked(PART), Ok(first), Ok(last));
            c.within(u64::MAX, asked(PART + 1), Err(5), Err(5));
            for i in 0..8 {
                let window = Query {
                    start: base(i),
                    end: base(i + 1),
                    ..asked(PART)
                };
                let wanted = match granted.contains(&order[i]) {
                    true => Ok((base(i), base(i + 1))),
                    false => Err(5),
                };
                c.within(u64::MAX, window, wanted, wanted);
                for at in [base(i) - 1, base(i), base(i) + 1] {
                    let next = runs.iter().find(|run| at < run.1);
                    let wanted = next.map(|run| (run.0.max(at), run.1)).ok_or(5);
                    c.next_free_of(at, wish, wanted);
                }
            }
        }
    }
}

/// By document 01 an edition 1 block has flags 0 or 4 and nothing else.
fn old_flags(desk: &mut Desk) {
    for flags in 0..=9 {
        let mut c = Case::new(desk);
        c.add(0x1000, 0x1000, 0);
        c.add(0x4000, 0x1000, 0);
        let mut wanted = c.block.clone();
        wanted[120..124].copy_from_slice(&u32::to_le_bytes(flags));
        c.block.fill(0x5A);
        let lent = c.block.clone();
        let good = flags == 0 || flags == 4;
        c.convert(&old_of(&wanted), u32::from(!good));
        let wanted = if good { wanted } else { lent };
        c.expect("block", c.block.clone(), wanted);
    }
}

const IMAGE_ENDS: [u64; 8] = [
    0,
    1,
    4096,
    0x18000,
    1 << 32,
    1 << 63,
    u64::MAX - 1,
    u64::MAX,
];

/// Any value is stored, from any other, and nothing else changes.
fn image_stored(desk: &mut Desk) {
    let mut c = four_tables(desk);
    for direction in [TOP_DOWN, BOTTOM_UP] {
        // Below and above the limit.
        c.limit(0x11000, direction);
        let mut wanted = c.block.clone();
        for end in IMAGE_ENDS {
            c.image(end);
            wanted[72..80].copy_from_slice(&end.to_le_bytes());
            c.expect("block", c.block.clone(), wanted.clone());
            c.image(end);
            c.expect("block", c.block.clone(), wanted.clone());
        }
    }
}

/// A bad block gets 1 and stays, whatever the value.
fn image_of_a_bad_block(desk: &mut Desk) {
    let mut c = four_tables(desk);
    let good = c.block.clone();
    for length in [0, 1, 72, 79, 80, 6224, 15439, 15441] {
        let mut bad = good.clone();
        bad.resize(length, 0);
        for end in IMAGE_ENDS {
            c.block = bad.clone();
            c.image_gives(end, 1);
            c.expect("block", c.block.clone(), bad.clone());
        }
    }
    for at in [0, 4, 16, 48, 52, 56, 64, 100, 3168, 15439] {
        let mut bad = good.clone();
        bad[at] ^= 0x80;
        for end in IMAGE_ENDS {
            c.block = bad.clone();
            c.image_gives(end, 1);
            c.expect("block", c.block.clone(), bad.clone());
        }
    }
}

/// Every command but fresh and convert leaves it, and with it a block is good.
fn image_kept(desk: &mut Desk) {
    for end in IMAGE_ENDS {
        let mut c = Case::new(desk);
        c.image(end);
        c.limit(0x1_0000_0000, BOTTOM_UP);
        c.turn(TOP_DOWN);
        c.does(
            Call::Set {
                limit: 0,
                direction: 2,
            },
            7,
        );
        c.add(0x10000, 0x10000, 0);
        c.add_gives(0x10000, 1, 64, 2);
        c.range(Command::Remove, 0x1FFFF, 1, 0);
        c.mark(0x11000, 0x1000, MIRROR, 0);
        c.unmark(0x11000, 0x1000, MIRROR, 0);
        c.range(Command::Reserve, 0x10000, 0x800, 0);
        c.range(Command::Free, 0x10000, 0x400, 0);
        c.does(Call::Trim { alignment: 0x1000 }, 0);
        c.next_free(0, Ok((0x10000, 0x10400)));
        c.find(0x1000, 1, Ok((0x1E000, 0x1F000)));
        c.allocate(0x1000, 1, Ok((0x1E000, 0x1F000)));
        c.intake(&[(0x30000, 0x1000, USABLE)], 0);
        c.expect("image end", get_u64(&c.block, 72), end);
        c.does(Call::Fresh, 0);
        c.expect("image end", get_u64(&c.block, 72), 0);
    }
}

/// An edition 1 block has zero there, and so has what is made of it.
fn image_of_an_old_block(desk: &mut Desk) {
    let mut c = four_tables(desk);
    let wanted = c.block.clone();
    let old = old_of(&wanted);
    for end in IMAGE_ENDS {
        c.image(end);
        let lent = c.block.clone();
        let mut other = old.clone();
        other[72..80].copy_from_slice(&end.to_le_bytes());
        c.convert(&other, u32::from(end != 0));
        let block = if end == 0 { wanted.clone() } else { lent };
        c.expect("block", c.block.clone(), block);
        c.convert(&old, 0);
        c.expect("converted", c.block.clone(), wanted.clone());
    }
}

/// The image end below, at the beginning of, inside, at the end of and above each of two
/// runs: 0x10000 to 0x18000 and 0x19000 to 0x20000.
fn image_and_runs(desk: &mut Desk) {
    let low = |a| Ok((a, 0x18000));
    let mut c = four_tables(desk);
    // For sizes of 0x1000, and of 0x8000, which the first run alone has.
    for (image_end, small, large) in [
        (0, low(0x10000), low(0x10000)),
        (1, low(0x10000), low(0x10000)),
        (0xFFFF, low(0x10000), low(0x10000)),
        (0x10000, low(0x10000), low(0x10000)),
        (0x10001, low(0x10001), low(0x10000)),
        (0x16FFF, low(0x16FFF), low(0x10000)),
        (0x17000, low(0x17000), low(0x10000)),
        (0x17001, to_end(0x19000), low(0x10000)),
        (0x17FFF, to_end(0x19000), low(0x10000)),
        (0x18000, to_end(0x19000), low(0x10000)),
        (0x18FFF, to_end(0x19000), low(0x10000)),
        (0x19000, to_end(0x19000), low(0x10000)),
        (0x19001, to_end(0x19001), low(0x10000)),
        (0x1F000, to_end(0x1F000), low(0x10000)),
        // The range would end above the run: the other way, past the image end.
        (0x1F001, to_end(0x1F000), low(0x10000)),
        (0x1FFFF, to_end(0x1F000), low(0x10000)),
        (0x20000, to_end(0x1F000), low(0x10000)),
        (0x20001, to_end(0x1F000), low(0x10000)),
        (1 << 63, to_end(0x1F000), low(0x10000)),
        (u64::MAX - 1, to_end(0x1F000), low(0x10000)),
        (u64::MAX, to_end(0x1F000), low(0x10000)),
    ] {
        c.image(image_end);
        c.within(u64::MAX, query(0x1000, 1), small, to_end(0x1F000));
        c.within(u64::MAX, query(0x8000, 1), large, low(0x10000));
        c.within(u64::MAX, query(0x8001, 1), Err(5), Err(5));
    }
    // As aligned, the first address at or above it, and none left in the first run.
    for (image_end, a) in [
        (0x10001, 0x12000),
        (0x12000, 0x12000),
        (0x16000, 0x16000),
        (0x16001, 0x1A000),
        (0x1E001, 0x1E000),
    ] {
        c.image(image_end);
        let end = if a < 0x18000 { 0x18000 } else { END };
        let wanted = Ok((a, end));
        c.within(u64::MAX, query(0x1000, 0x2000), wanted, to_end(0x1E000));
    }
    // Rounded up it would be past the top.
    let page = u64::MAX - 4095;
    c.add(page, 0x1000, 0);
    for image_end in [page + 1, u64::MAX - 1, u64::MAX] {
        c.image(image_end);
        let top = Ok((page, u64::MAX));
        c.within(u64::MAX, query(0xFFF, 0x1000), top, top);
        let below = to_end(0x1F000);
        c.within(u64::MAX, query(0x1000, 0x1000), below, below);
    }
}

/// The image end on both sides of the window's start and end, of the limit, and of 4096;
/// 5 is of the whole window.
fn image_and_window(desk: &mut Desk) {
    let (start, end) = (0x12000, 0x14000);
    let mut c = m(desk);
    for (image_end, a) in [
        (start - 1, start),
        (start, start),
        (start + 1, start + 1),
        (end - 0x11, end - 0x11),
        (end - 0x10, end - 0x10),
        (end - 0xF, end - 0x10),
        (end - 1, end - 0x10),
        (end, end - 0x10),
        (end + 1, end - 0x10),
        (0x1F000, end - 0x10),
        (u64::MAX, end - 0x10),
    ] {
        c.image(image_end);
        let asked = |end| Query {
            start,
            end,
            ..query(0x10, 1)
        };
        let top_down = to_end(end - 0x10);
        c.within(u64::MAX, asked(end), to_end(a), top_down);
        for named in [0, end, u64::MAX] {
            c.within(end, asked(named), to_end(a), top_down);
        }
        c.range(Command::Reserve, start, end - start, 0);
        c.within(u64::MAX, asked(end), Err(5), Err(5));
        c.range(Command::Free, start, end - start, 0);
    }
    let mut c = Case::new(desk);
    c.add(0, 0x1001, 0);
    for image_end in [0, 1, 4095, 4096, 4097, u64::MAX] {
        c.image(image_end);
        let only = Ok((4096, 4097));
        c.within(u64::MAX, query(1, 1), only, only);
        c.within(u64::MAX, query(2, 1), Err(5), Err(5));
        c.within(4096, query(1, 1), Err(5), Err(5));
    }
}

/// Up from the image end, then down from above; freed room above it comes first again.
fn image_and_allocations(desk: &mut Desk) {
    let mut c = m(desk);
    c.turn(BOTTOM_UP);
    c.image(0x1C800);
    for wanted in [
        to_end(0x1D000),
        to_end(0x1E000),
        to_end(0x1F000),
        Ok((0x1C000, 0x1D000)),
        Ok((0x1B000, 0x1C000)),
    ] {
        c.allocate(0x1000, 0x1000, wanted);
    }
    c.range(Command::Free, 0x1E000, 0x1000, 0);
    c.allocate(0x1000, 0x1000, Ok((0x1E000, 0x1F000)));
    c.allocate(0x1000, 0x1000, Ok((0x1A000, 0x1B000)));
    // Another image, then none.
    c.image(0x14000);
    c.allocate(0x1000, 0x1000, Ok((0x14000, 0x1A000)));
    c.image(0);
    c.allocate(0x1000, 0x1000, Ok((0x10000, 0x14000)));
    c.table(
        &TAKEN,
        &[
            (0x10000, 0x1000, 0, 0),
            (0x14000, 0x1000, 0, 0),
            (0x1A000, 0x6000, 0, 0),
        ],
    );
}

/// 6 speaks of the address that find gives, the other way too.
fn image_and_full_table(desk: &mut Desk) {
    let most = TAKEN.capacity as u64;
    let mut c = Case::new(desk);
    for i in 0..most {
        c.range(Command::Reserve, 0x10000 + i * 0x2000, 0x1000, 0);
    }
    c.add(0x11000, 0x1000, 0);
    c.add(0x100_0000, 0x3000, 0);
    c.turn(BOTTOM_UP);
    c.image(0x11001);
    c.find(0x1000, 1, Ok((0x100_0000, 0x100_3000)));
    c.allocate(0x1000, 1, Err(6));
    c.image(u64::MAX);
    c.find(0x1000, 1, Ok((0x100_2000, 0x100_3000)));
    c.allocate(0x1000, 1, Err(6));
    c.image(0x11000);
    c.allocate(0x1000, 1, Ok((0x11000, 0x12000)));
    c.count(&TAKEN, most - 1);
}

/// Next free takes no notice of the image.
fn image_and_next_free(desk: &mut Desk) {
    let mut c = four_tables(desk);
    for direction in [TOP_DOWN, BOTTOM_UP] {
        c.turn(direction);
        for end in IMAGE_ENDS {
            c.image(end);
            c.next_free(0, Ok((0x10000, 0x18000)));
            c.next_free(0x17FFF, Ok((0x17FFF, 0x18000)));
            c.next_free(0x18000, to_end(0x19000));
            c.next_free(0x20000, Err(5));
        }
    }
}

impl Case<'_> {
    fn reserve(&mut self, lo: u64, hi: u64) {
        self.range(Command::Reserve, lo, hi - lo, 0);
    }

    fn free(&mut self, lo: u64, hi: u64) {
        self.range(Command::Free, lo, hi - lo, 0);
    }

    /// A free that must get this number and leave every byte.
    fn not_freed(&mut self, base: u64, size: u64, number: u32) {
        let before = self.block.clone();
        self.range(Command::Free, base, size, number);
        self.expect("block", self.block.clone(), before);
    }

    /// What is taken, as (from, to).
    fn taken(&mut self, ranges: &[(u64, u64)]) {
        let records: Vec<_> = ranges.iter().map(|&(lo, hi)| (lo, hi - lo, 0, 0)).collect();
        self.table(&TAKEN, &records);
    }
}

/// The second free of the same range gets 12, of a reserve and of an allocation.
fn free_twice(desk: &mut Desk) {
    let mut c = m(desk);
    c.reserve(0x11000, 0x12000);
    c.reserve(0x14000, 0x15000);
    c.free(0x11000, 0x12000);
    c.taken(&[(0x14000, 0x15000)]);
    c.not_freed(0x11000, 0x1000, 12);
    c.not_freed(0x11800, 1, 12);
    c.not_freed(0x11000, 0x4000, 12);
    c.reserve(0x11000, 0x12000);
    c.free(0x11000, 0x12000);
    c.not_freed(0x11000, 0x1000, 12);
    c.free(0x14000, 0x15000);
    c.not_freed(0x14000, 0x1000, 12);
    c.taken(&[]);
    for direction in [TOP_DOWN, BOTTOM_UP] {
        let (first, second) = match direction {
            TOP_DOWN => (0x1F000, 0x1E000),
            _ => (0x10000, 0x11000),
        };
        let end = if direction == TOP_DOWN {
            0x1F000
        } else {
            0x20000
        };
        c.turn(direction);
        c.allocate(0x1000, 0x1000, to_end(first));
        c.allocate(0x1000, 0x1000, Ok((second, end)));
        c.free(first, first + 0x1000);
        c.not_freed(first, 0x1000, 12);
        c.not_freed(first.min(second), 0x2000, 12);
        c.free(second, second + 0x1000);
        c.taken(&[]);
    }
}

/// Reserves that touch or overlap are freed as one, in either order.
fn free_of_touching_reserves(desk: &mut Desk) {
    for [one, two] in [
        [(0x11000, 0x12000), (0x12000, 0x13000)],
        [(0x12000, 0x13000), (0x11000, 0x12000)],
        [(0x11000, 0x12800), (0x11800, 0x13000)],
    ] {
        let mut c = m(desk);
        c.reserve(one.0, one.1);
        c.reserve(two.0, two.1);
        let both = c.block.clone();
        c.not_freed(0x11000, 0x2001, 12);
        c.not_freed(0x10FFF, 0x2001, 12);
        c.free(0x11800, 0x12800);
        c.taken(&[(0x11000, 0x11800), (0x12800, 0x13000)]);
        c.block = both;
        c.free(0x11000, 0x13000);
        c.taken(&[]);
    }
}

/// Every range on and beside a record of 4 addresses, with other records, over memory and
/// over none.
fn free_beside_a_record(desk: &mut Desk) {
    let (first, past) = (0x11010, 0x11014);
    for memory in [true, false] {
        let mut c = Case::new(desk);
        if memory {
            c.add(0x10000, 0x10000, 0);
        }
        c.reserve(0x10000, 0x10800);
        c.reserve(first, past);
        c.reserve(0x30000, 0x30800);
        let start = c.block.clone();
        for from in first - 2..past + 2 {
            for to in from + 1..=past + 2 {
                if from < first || to > past {
                    c.not_freed(from, to - from, 12);
                    continue;
                }
                c.free(from, to);
                let parts = [
                    (0x10000, 0x10800),
                    (first, from),
                    (to, past),
                    (0x30000, 0x30800),
                ];
                let left: Vec<_> = parts.into_iter().filter(|part| part.0 < part.1).collect();
                c.taken(&left);
                c.block = start.clone();
            }
        }
    }
}

/// A gap of one address between two records, then a wide one.
fn free_over_two_records(desk: &mut Desk) {
    let mut c = m(desk);
    c.reserve(0x11000, 0x12000);
    c.reserve(0x12001, 0x13000);
    // From the first to the last; only the middle, the second, the first, the one not taken.
    for (base, size) in [
        (0x11000, 0x2000),
        (0x11FFF, 3),
        (0x11FFF, 2),
        (0x12000, 2),
        (0x12000, 1),
    ] {
        c.not_freed(base, size, 12);
    }
    c.free(0x11FFF, 0x12000);
    c.free(0x12001, 0x12002);
    c.taken(&[(0x11000, 0x11FFF), (0x12002, 0x13000)]);
    c.reserve(0x11FFF, 0x12002);
    c.free(0x11000, 0x13000);
    c.taken(&[]);

    c.reserve(0x11000, 0x11001);
    c.reserve(0x12000, 0x12001);
    for (base, size) in [
        (0x11000, 0x1001),
        (0x11000, 0x1000),
        (0x11001, 0x1000),
        (0x10FFF, 0x1003),
        (0, u64::MAX),
    ] {
        c.not_freed(base, size, 12);
    }
}

/// Nothing is taken of a fresh block.
fn free_of_an_empty_table(desk: &mut Desk) {
    let mut c = Case::new(desk);
    for base in [0, 1, 0x10000, 1 << 63, u64::MAX - 1] {
        for size in [1, 2, 0x1000, 1 << 63, u64::MAX] {
            c.not_freed(base, size, 12);
        }
    }
}

/// A size of 0 is done, and so is what the cut leaves nothing of; on a bad block it is 1.
fn free_without_an_address(desk: &mut Desk) {
    let empty = Case::new(desk).block;
    let some = four_tables(desk).block;
    let full = taken_comb(desk).block;
    let mut c = Case::new(desk);
    for block in [empty, some, full] {
        for base in [0, 0x10000, 0x17FFF, 0x18000, 0x18800, 0x19000, u64::MAX] {
            c.block = block.clone();
            c.not_freed(base, 0, 0);
            c.block[52] = 1;
            c.not_freed(base, 0, 1);
            c.not_freed(base, 1, 1);
        }
        for size in [1, 2, 0x1000, 1 << 63, u64::MAX] {
            c.block = block.clone();
            c.not_freed(u64::MAX, size, 0);
            c.block[0] = 1;
            c.not_freed(u64::MAX, size, 1);
            c.not_freed(0, size, 1);
        }
    }
}

/// Ranges that the cut ends, taken up to there and not.
fn free_at_the_top(desk: &mut Desk) {
    const BASE: u64 = u64::MAX - 0x10;
    let mut c = Case::new(desk);
    c.reserve(BASE, u64::MAX);
    let start = c.block.clone();
    for size in [0x10, 0x11, 0x12, 0x1000, 1 << 63, u64::MAX - 1, u64::MAX] {
        c.block = start.clone();
        c.not_freed(BASE - 1, size.max(0x11), 12);
        c.range(Command::Free, BASE, size, 0);
        c.taken(&[]);
        c.not_freed(BASE, size, 12);
        // One address short of the cut, and one late.
        c.reserve(BASE, u64::MAX - 1);
        c.not_freed(BASE, size, 12);
        c.not_freed(u64::MAX - 1, size, 12);
        c.range(Command::Free, BASE, 0xF, 0);
        c.reserve(BASE + 1, u64::MAX);
        c.not_freed(BASE, size, 12);
        c.range(Command::Free, u64::MAX - 1, size, 0);
        c.taken(&[(BASE + 1, u64::MAX - 1)]);
    }
    // No sum goes round.
    let mut c = Case::new(desk);
    c.reserve(0, 0x10);
    c.not_freed(8, u64::MAX, 12);
    c.not_freed(u64::MAX - 1, 8, 12);
    c.reserve(0, u64::MAX);
    c.free(0, u64::MAX);
    c.taken(&[]);
}

/// A full taken table of one page records, with one page between.
fn taken_comb(desk: &mut Desk) -> Case<'_> {
    let mut c = Case::new(desk);
    for i in 0..TAKEN.capacity as u64 {
        c.reserve(i * 0x2000, i * 0x2000 + 0x1000);
    }
    c
}

/// 6 is for the inside of a record of a full table alone, and never where 12 is.
fn free_and_full_table(desk: &mut Desk) {
    let most = TAKEN.capacity as u64;
    let mut c = taken_comb(desk);
    let full = c.block.clone();
    for (base, size) in [(0x2400, 0x400), (0x2001, 1), (0x2001, 0xFFE)] {
        c.not_freed(base, size, 6);
    }
    for (base, size, left) in [
        (0x2000, 0x1000, most - 1),
        (0x2000, 0xFFF, most),
        (0x2001, 0xFFF, most),
        (0x2000, 1, most),
        (0x2FFF, 1, most),
        (0, 0x1000, most - 1),
        ((most - 1) * 0x2000, 0x1000, most - 1),
    ] {
        c.range(Command::Free, base, size, 0);
        c.count(&TAKEN, left);
        c.block = full.clone();
    }
    for (base, size) in [
        (0x2001, 0x1000),
        (0x2000, 0x1001),
        (0x1FFF, 0x1001),
        (0x1FFF, 2),
        (0x2FFF, 2),
        (0x3000, 0x1000),
        (0x2800, 0x2000),
        (0, 0x40_0000),
        ((most - 1) * 0x2000, 0x1001),
        (0x200_0000, 1),
    ] {
        c.not_freed(base, size, 12);
    }
    // With room for a record more the inside goes, once.
    c.free(0, 0x1000);
    c.free(0x2400, 0x2800);
    c.count(&TAKEN, most);
    c.not_freed(0x2400, 0x400, 12);
    c.not_freed(0x2200, 0x100, 6);
}

/// Reserve of what is taken, and remove, mark and unmark of no memory, change nothing.
fn free_alone_asks(desk: &mut Desk) {
    let mut c = four_tables(desk);
    let start = c.block.clone();
    c.reserve(0x18000, 0x19000);
    c.reserve(0x18400, 0x18800);
    c.range(Command::Remove, 0x30000, 0x1000, 0);
    c.range(Command::Remove, 0, 0x10000, 0);
    c.mark(0x30000, 0x1000, NO_MAP, 0);
    c.unmark(0x20000, 1, HOTPLUG, 0);
    c.expect("block", c.block.clone(), start);
}

/// A tree of these children of the root, by cells 2 and 2.
fn tree(children: &[Node]) -> Tree {
    let root = Node::new("")
        .with("#address-cells", word(2))
        .with("#size-cells", word(2));
    Tree {
        list: Vec::new(),
        root: children
            .iter()
            .fold(root, |root, child| root.holding(child.clone())),
    }
}

fn memory_node(ranges: &[(u64, u64)]) -> Node {
    Node::memory("memory", reg((2, 2), ranges))
}

/// A /reserved-memory with a node of these ranges.
fn reserved_node(ranges: &[(u64, u64)]) -> Node {
    Node::new("reserved-memory").holding(Node::new("buffer").with("reg", reg((2, 2), ranges)))
}

fn no_map_node(ranges: &[(u64, u64)]) -> Node {
    let child = Node::new("buffer").with("reg", reg((2, 2), ranges));
    Node::new("reserved-memory").holding(child.with("no-map", []))
}

/// So many ranges of one address, none touching.
fn apart(from: u64, count: u64) -> Vec<(u64, u64)> {
    (0..count).map(|i| (from + 2 * i, 1)).collect()
}

/// Each stored tree by the commands worked out for it.
fn tree_stored(desk: &mut Desk) {
    for stored in stored::all() {
        let mut c = Case::new(desk);
        for line in stored.expected.lines() {
            let words: Vec<&str> = line.split(' ').collect();
            let number = |i: usize| -> u64 {
                let word = words[i];
                match word.strip_prefix("0x") {
                    Some(digits) => u64::from_str_radix(digits, 16),
                    None => word.parse(),
                }
                .expect("a number")
            };
            let (base, size) = (number(1), number(2));
            match words[0] {
                "add" => c.add(base, size, number(3) as u32),
                "reserve" => c.range(Command::Reserve, base, size, 0),
                "mark" => c.mark(base, size, NO_MAP, 0),
                other => unreachable!("{other} is no command of a tree"),
            }
        }
        let by_calls = c.block.clone();
        let mut c = Case::new(desk);
        c.intake_tree_bytes(stored.bytes, 0);
        c.expect(stored.name, c.block.clone(), by_calls);
    }
}

/// Nodes, a list, what is reserved and what is marked, on a block that holds something.
fn tree_by_its_records(desk: &mut Desk) {
    let mut c = Case::new(desk);
    c.add_tag(0x3000, 0x1000, (MIRROR, 9), 0);
    c.image(0x1234);
    let mut tree = tree(&[
        no_map_node(&[(0x2800, 0x1000)]),
        memory_node(&[(0x1001, 0x2fff)]).with("numa-node-id", word(63)),
        reserved_node(&[(0x1800, 0x10), (0x1900, 0)]),
        memory_node(&[(0, 0x5000)]),
    ]);
    tree.list = vec![(0x20, 0), (0, 0x10), (u64::MAX - 1, 0x100)];
    c.intake_tree(&tree, 0);
    c.table(
        &MEMORY,
        &[
            (0, 0x1001, 0, 0),
            (0x1001, 0x17ff, 0, 63),
            (0x2800, 0x800, NO_MAP, 63),
            (0x3000, 0x800, MIRROR + NO_MAP, 9),
            (0x3800, 0x800, MIRROR, 9),
            (0x4000, 0x1000, 0, 0),
        ],
    );
    c.table(
        &TAKEN,
        &[
            (0, 0x10, 0, 0),
            (0x1800, 0x10, 0, 0),
            (u64::MAX - 1, 1, 0, 0),
        ],
    );
    c.expect("image end", get_u64(&c.block, IMAGE_END_AT), 0x1234);
}

/// Each condition broken, each in several ways.
fn tree_broken(desk: &mut Desk) {
    let mut whole = tree(&[
        memory_node(&[(0x10000, 0x10000)]).with("numa-node-id", word(3)),
        Node::new("soc").holding(Node::new("serial").with("reg", [0; 7])),
        reserved_node(&[(0x12000, 0x1000)]),
        no_map_node(&[(0x14000, 0x1000)]),
    ]);
    whole.list = vec![(0x11000, 0x800)];
    let mut c = Case::new(desk);
    c.intake_tree(&whole, 0);
    for broken in Break::ALL {
        for turn in 0..12 {
            let mut rng = Rng::new(turn, "cases", broken as u64);
            c.intake_tree_bytes(&broken.done_to(&mut rng, &whole), 11);
        }
    }
}

fn tree_depth(desk: &mut Desk) {
    for (levels, number) in [(14, 0), (15, 0), (16, 11), (17, 11)] {
        let mut c = Case::new(desk);
        c.intake_tree(&tree(&[chain(levels), memory_node(&[(0, 1)])]), number);
        let mut reserved = reserved_node(&[(0, 1)]);
        reserved.children.push(chain(levels - 1));
        c.intake_tree(&tree(&[reserved]), number);
    }
}

/// What two nodes name keeps the tag of the first; marks come last, wherever they stand.
fn tree_order(desk: &mut Desk) {
    let node = |id| memory_node(&[(0x1000, 0x1000)]).with("numa-node-id", word(id));
    for (first, second) in [(1, 2), (2, 1)] {
        let mut c = Case::new(desk);
        let marks = no_map_node(&[(0, u64::MAX)]);
        c.intake_tree(&tree(&[marks, node(first), node(second)]), 0);
        c.table(&MEMORY, &[(0x1000, 0x1000, NO_MAP, first)]);
    }
}

/// In a full table one of two takes a record more, and the other makes room for it.
fn tree_list_before_reserved(desk: &mut Desk) {
    let (apart, joins) = ((1 << 40, 1), (0x1000, 0x1000));
    for (list, child, number) in [(apart, joins, 6), (joins, apart, 0)] {
        let mut c = taken_comb(desk);
        let mut tree = tree(&[reserved_node(&[child])]);
        tree.list = vec![list];
        c.intake_tree(&tree, number);
    }
}

/// Each table filled by each kind of command, and one more.
fn tree_full(desk: &mut Desk) {
    let (memory, taken) = (MEMORY.capacity as u64, TAKEN.capacity as u64);
    for (more, number) in [(0, 0), (1, 6)] {
        let mut c = Case::new(desk);
        c.intake_tree(&tree(&[memory_node(&apart(0, memory + more))]), number);
        let mut c = Case::new(desk);
        c.intake_tree(&tree(&[reserved_node(&apart(0, taken + more))]), number);
        let mut c = Case::new(desk);
        let mut listed = tree(&[memory_node(&[(0, 1)])]);
        listed.list = apart(1, taken + more);
        c.intake_tree(&listed, number);
        let mut c = Case::new(desk);
        let all = memory_node(&[(0, memory + 2 * more)]);
        let marks = no_map_node(&apart(0, memory / 2 + more));
        c.intake_tree(&tree(&[marks, all]), number);
    }
    // What comes later makes no room.
    let mut c = Case::new(desk);
    let first = memory_node(&apart(0, memory + 1));
    c.intake_tree(&tree(&[first, memory_node(&[(0, 1 << 20)])]), 6);
}

/// 1 before 11 before 6.
fn tree_numbers(desk: &mut Desk) {
    let full = tree(&[memory_node(&apart(0, 200))]);
    let mut wrong = full.clone();
    let node = memory_node(&[]).with("numa-node-id", word(64));
    wrong.root.children.push(node);
    let mut c = Case::new(desk);
    c.intake_tree(&full, 6);
    c.intake_tree(&wrong, 11);
    c.intake_tree_bytes(&[], 11);
    c.block[0] = 0;
    c.intake_tree(&full, 1);
    c.intake_tree(&wrong, 1);
    c.intake_tree_bytes(&[], 1);
}

/// At both ends of the space, nothing is trimmed.
fn tree_at_the_edges(desk: &mut Desk) {
    let top = u64::MAX;
    let mut c = Case::new(desk);
    let ranges = [(0, 1), (top, top), (top - 4, 4), (top - 1, top), (5, 0)];
    let mut tree = tree(&[memory_node(&ranges), no_map_node(&[(1, top)])]);
    tree.list = vec![(top, 1), (0, top)];
    c.intake_tree(&tree, 0);
    c.table(&MEMORY, &[(0, 1, 0, 0), (top - 4, 4, NO_MAP, 0)]);
    c.table(&TAKEN, &[(0, top, 0, 0)]);
}

/// A tree whose root holds nodes of these names, one in the other, the last with a property.
fn correction(names: &[&str], name: &str, value: impl AsRef<[u8]>) -> Tree {
    let mut root = Node::new("");
    let mut node = &mut root;
    for name in names {
        node.children.push(Node::new(name));
        node = &mut node.children[0];
    }
    *node = node.clone().with(name, value);
    Tree {
        list: Vec::new(),
        root,
    }
}

/// Memory, another node with ranges, one that is reserved and one that is marked.
fn board() -> Tree {
    let ram = Node::new("ram").with("reg", reg((2, 2), &[(0x8000, 0x100)]));
    let mut reserved = reserved_node(&[(0x1100, 0x10)]);
    reserved
        .children
        .extend(no_map_node(&[(0x1200, 0x10)]).children);
    reserved.children[1].name = b"marked".to_vec();
    tree(&[memory_node(&[(0x1000, 0x1000)]), ram, reserved])
}

/// Each property that the intake asks for, corrected, an empty value too.
fn pair_corrected(desk: &mut Desk) {
    let range = |base, size| reg((2, 2), &[(base, size)]);
    let (reserved, marked) = (["reserved-memory", "buffer"], ["reserved-memory", "marked"]);
    type Records<'a> = &'a [(u64, u64, u32, u32)];
    type Corrected<'a> = (&'a [&'a str], &'a str, Vec<u8>, [Records<'a>; 2]);
    let as_it_was: [Records; 2] = [
        &[
            (0x1000, 0x200, 0, 0),
            (0x1200, 0x10, NO_MAP, 0),
            (0x1210, 0xdf0, 0, 0),
        ],
        &[(0x1100, 0x10, 0, 0)],
    ];
    let cases: [Corrected; 10] = [
        (
            &["memory"],
            "reg",
            [range(0x2000, 0x80), range(0, 1)].concat(),
            [&[(0, 1, 0, 0), (0x2000, 0x80, 0, 0)], as_it_was[1]],
        ),
        (&["memory"], "reg", Vec::new(), [&[], as_it_was[1]]),
        (&["memory"], "device_type", Vec::new(), [&[], as_it_was[1]]),
        (
            &["memory"],
            "numa-node-id",
            word(63),
            [
                &[
                    (0x1000, 0x200, 0, 63),
                    (0x1200, 0x10, NO_MAP, 63),
                    (0x1210, 0xdf0, 0, 63),
                ],
                as_it_was[1],
            ],
        ),
        (
            &["ram"],
            "device_type",
            b"memory\0".to_vec(),
            [
                &[
                    (0x1000, 0x200, 0, 0),
                    (0x1200, 0x10, NO_MAP, 0),
                    (0x1210, 0xdf0, 0, 0),
                    (0x8000, 0x100, 0, 0),
                ],
                as_it_was[1],
            ],
        ),
        (
            &reserved,
            "reg",
            range(0x1f00, 0x20),
            [as_it_was[0], &[(0x1f00, 0x20, 0, 0)]],
        ),
        (&reserved, "reg", Vec::new(), [as_it_was[0], &[]]),
        (
            &reserved,
            "no-map",
            Vec::new(),
            [
                &[
                    (0x1000, 0x100, 0, 0),
                    (0x1100, 0x10, NO_MAP, 0),
                    (0x1110, 0xf0, 0, 0),
                    (0x1200, 0x10, NO_MAP, 0),
                    (0x1210, 0xdf0, 0, 0),
                ],
                &[],
            ],
        ),
        (
            &marked,
            "reg",
            range(0x1ff0, 0x20),
            [
                &[(0x1000, 0xff0, 0, 0), (0x1ff0, 0x10, NO_MAP, 0)],
                as_it_was[1],
            ],
        ),
        (&[], "#address-cells", word(2), as_it_was),
    ];
    for (names, name, value, [memory, taken]) in cases {
        let service = correction(names, name, value);
        // By nodes on the way, and by one name with a slash.
        let mut slashed = service.clone();
        if names.len() == 2 {
            slashed.root.children[0] = service.root.children[0].children[0].clone();
            slashed.root.children[0].name = names.join("/").into();
        }
        for service in [service, slashed] {
            let mut c = Case::new(desk);
            c.intake_trees(&board(), &service, 0);
            c.table(&MEMORY, memory);
            c.table(&TAKEN, taken);
        }
    }
}

/// 11 comes by a correction, and goes by one.
fn pair_values(desk: &mut Desk) {
    let bare = Tree::default();
    let range = reg((2, 2), &[(1, 2)]);
    let memory = |value: &[u8]| tree(&[Node::memory("memory", value)]);
    let reserved = |value: &[u8], no_map: bool| {
        let mut node = reserved_node(&[]);
        node.children[0] = Node::new("buffer").with("reg", value);
        if no_map {
            node.children[0] = node.children[0].clone().with("no-map", []);
        }
        tree(&[node])
    };
    let buffer = ["reserved-memory", "buffer"];
    let mut c = Case::new(desk);
    for (board, names) in [
        (&memory as &dyn Fn(&[u8]) -> Tree, &["memory"][..]),
        (&|value: &[u8]| reserved(value, false), &buffer),
        (&|value: &[u8]| reserved(value, true), &buffer),
    ] {
        c.intake_trees(&board(&range), &bare, 0);
        c.intake_trees(&board(&range), &correction(names, "reg", &range[1..]), 11);
        c.intake_trees(&board(&range[1..]), &bare, 11);
        c.intake_trees(&board(&range[1..]), &correction(names, "reg", &range), 0);
        c.intake_trees(&board(&range[1..]), &correction(names, "reg", []), 0);
        c.intake_trees(&board(&range[1..]), &correction(names, "regs", []), 11);
    }
    let ids = [&word(64)[..], b"", b"\0\0\0", b"\0\0\0\0\0"];
    for id in ids {
        let service = correction(&["memory"], "numa-node-id", id);
        c.intake_trees(&memory(&range), &service, 11);
        let bad = memory_node(&[(1, 2)]).with("numa-node-id", id);
        let bad_board = tree(std::slice::from_ref(&bad));
        c.intake_trees(&bad_board, &bare, 11);
        let service = correction(&["memory"], "numa-node-id", word(7));
        c.intake_trees(&bad_board, &service, 0);
        // What is no memory any more is not asked; what becomes it is.
        let service = correction(&["memory"], "device_type", "cpu\0");
        c.intake_trees(&bad_board, &service, 0);
        let mut other = bad;
        other.properties.retain(|p| p.0 != b"device_type");
        c.intake_trees(&tree(&[other.clone()]), &bare, 0);
        let service = correction(&["memory"], "device_type", "memory\0");
        c.intake_trees(&tree(&[other]), &service, 11);
    }
}

/// The root's cells.
fn pair_cells(desk: &mut Desk) {
    let name = ["#address-cells", "#size-cells"];
    for name in name {
        for value in [
            &b""[..],
            b"\0\0\0\0",
            b"\0\0\0\x03",
            b"\0\0\x02",
            b"\0\0\0\x02\0",
        ] {
            let mut c = Case::new(desk);
            c.intake_trees(&board(), &correction(&[], name, value), 11);
            let mut wrong = board();
            wrong.root.properties.retain(|p| p.0 != name.as_bytes());
            wrong.root.properties.push((name.into(), value.to_vec()));
            c.intake_trees(&wrong, &Tree::default(), 11);
            c.intake_trees(&wrong, &correction(&["memory"], name, word(2)), 11);
            c.intake_trees(&wrong, &correction(&[], name, word(2)), 0);
            c.count(&MEMORY, 3);
        }
    }
    // Other cells make other ranges of the same words, or none.
    let mut c = Case::new(desk);
    c.intake_trees(&board(), &correction(&[], "#size-cells", word(1)), 11);
    c.intake_trees(&board(), &correction(&[""], "#size-cells", word(1)), 11);
    let mut ones = correction(&[], "#size-cells", word(1));
    ones.root = ones.root.with("#address-cells", word(1));
    c.intake_trees(&board(), &ones, 0);
    c.table(&MEMORY, &[(0, 0x1000, NO_MAP, 0)]);
    c.table(&TAKEN, &[(0, 0x1100, 0, 0)]);
}

/// Which node's path it is, and which match is the first.
fn pair_paths(desk: &mut Desk) {
    let range = |base| reg((2, 2), &[(base, 1)]);
    let m = |base| Node::memory("m", range(base));
    let only = |base| Node::new("m").with("reg", range(base));
    let of = |children: &[Node]| Tree {
        list: Vec::new(),
        root: children
            .iter()
            .fold(Node::new(""), |root, child| root.holding(child.clone())),
    };
    let added = |desk: &mut Desk, board: &Tree, service: &Tree, bases: &[u64]| {
        let mut c = Case::new(desk);
        c.intake_trees(board, service, 0);
        let records: Vec<_> = bases.iter().map(|&base| (base, 1, 0, 0)).collect();
        c.table(&MEMORY, &records);
    };
    // Two board nodes of one path; two properties, two nodes, the second of two nodes.
    let twins = tree(&[m(1), m(3)]);
    added(desk, &twins, &Tree::default(), &[1, 3]);
    added(desk, &twins, &of(&[only(7)]), &[7]);
    added(desk, &twins, &of(&[only(7).with("reg", range(9))]), &[7]);
    added(desk, &twins, &of(&[only(7), only(9)]), &[7]);
    added(desk, &twins, &of(&[Node::new("m"), only(7)]), &[7]);
    // A nameless child has the root's path, and its properties come after the root's.
    let nameless = tree(&[Node::memory("", range(1))]);
    let in_root = correction(&[], "reg", range(7));
    let in_nameless = correction(&[""], "reg", range(9));
    added(desk, &nameless, &in_root, &[7]);
    added(desk, &nameless, &in_nameless, &[9]);
    let mut both = in_nameless.clone();
    both.root = both.root.with("reg", range(7));
    added(desk, &nameless, &both, &[7]);
    // A name with a slash in the board's tree, and which of two ways comes first.
    let slashed = tree(&[Node::memory("a/m", range(1))]);
    let way = Node::new("a").holding(only(7));
    let mut at_once = only(9);
    at_once.name = b"a/m".to_vec();
    added(desk, &slashed, &of(std::slice::from_ref(&way)), &[7]);
    added(desk, &slashed, &of(&[at_once.clone()]), &[9]);
    added(desk, &slashed, &of(&[way.clone(), at_once.clone()]), &[7]);
    added(desk, &slashed, &of(&[at_once, way]), &[9]);
    // Nearly the path, a name that goes on, the root's name.
    let one = tree(&[m(1)]);
    for names in [
        &["m", ""][..],
        &["", "m"],
        &["/m"],
        &["mm"],
        &["m@0"],
        &["m", "m"],
        &["a", "m"],
        &[""],
        &[],
    ] {
        added(desk, &one, &correction(names, "reg", range(7)), &[1]);
    }
    for name in ["re", "regs", ""] {
        added(desk, &one, &correction(&["m"], name, range(7)), &[1]);
    }
    let mut named = correction(&["m"], "reg", range(7));
    named.root.name = b"board".to_vec();
    let mut board = one.clone();
    board.root.name = b"other".to_vec();
    added(desk, &board, &named, &[7]);
    added(
        desk,
        &board,
        &correction(&["other", "m"], "reg", range(7)),
        &[1],
    );
    named.root = Node::new("m").with("reg", range(7));
    added(desk, &one, &named, &[1]);
}

/// The service tree's nodes and list add nothing, but it must have the form.
fn pair_adds_nothing(desk: &mut Desk) {
    let mut own = tree(&[
        Node::memory("more", reg((2, 2), &[(0x5000, 6)])).with("numa-node-id", word(64)),
        Node::new("reserved-memory").holding(Node::new("other").with("reg", [1; 3])),
        Node::memory("ragged", [1; 5]),
    ]);
    own.list = vec![(0x3000, 2), (0, 1)];
    let mut c = Case::new(desk);
    c.intake_tree(&board(), 0);
    let alone = c.block.clone();
    let mut c = Case::new(desk);
    c.intake_trees(&board(), &own, 0);
    c.expect("block", c.block.clone(), alone);
    // Both lists are there: the board's counts.
    let mut listed = board();
    listed.list = vec![(0x7000, 1)];
    let mut c = Case::new(desk);
    c.intake_trees(&listed, &own, 0);
    c.table(&TAKEN, &[(0x1100, 0x10, 0, 0), (0x7000, 1, 0, 0)]);
}

/// Stored trees with a bare root, and beside themselves.
fn pair_stored(desk: &mut Desk) {
    let bare = Sketch::of(&Tree::default()).bytes();
    for stored in stored::all() {
        let mut c = Case::new(desk);
        c.intake_tree_bytes(stored.bytes, 0);
        let alone = c.block.clone();
        let mut c = Case::new(desk);
        c.intake_trees_bytes(stored.bytes, &bare, 0);
        c.expect(stored.name, c.block.clone(), alone.clone());
        let both: Arc<[u8]> = stored.bytes.into();
        let mut c = Case::new(desk);
        let call = Call::IntakeTrees {
            board: both.clone(),
            service: both,
        };
        c.does(call, 0);
        // Of these trees only one has several nodes of one path.
        if stored.name != "two-reserved" {
            c.expect(stored.name, c.block.clone(), alone);
        }
        // Nothing of a service tree alone.
        let mut c = Case::new(desk);
        c.intake_trees_bytes(&bare, stored.bytes, 0);
        c.count(&MEMORY, 0);
        c.count(&TAKEN, 0);
    }
}

/// Each condition of the form broken in either tree.
fn pair_broken(desk: &mut Desk) {
    let good = Sketch::of(&board()).bytes();
    for broken in Break::ALL.into_iter().filter(|b| b.is_of_the_form()) {
        for turn in 0..4 {
            let mut rng = Rng::new(turn, "pair", broken as u64);
            let bad = broken.done_to(&mut rng, &board());
            let mut c = Case::new(desk);
            c.intake_trees_bytes(&good, &bad, 11);
            c.intake_trees_bytes(&bad, &good, 11);
            let (good, bad): (Arc<[u8]>, Arc<[u8]>) = (good[..].into(), bad.into());
            for (service, board) in [(&good, &bad), (&bad, &good), (&bad, &bad)] {
                let call = pairs::lookup(service, board, b"/memory", b"reg");
                c.asks(call, Err(11));
            }
        }
    }
}

/// 1 before 11 before 6.
fn pair_numbers(desk: &mut Desk) {
    let empty = tree(&[memory_node(&[])]);
    let fills = correction(&["memory"], "reg", reg((2, 2), &apart(0, 200)));
    let full = tree(&[memory_node(&apart(0, 200))]);
    let empties = correction(&["memory"], "reg", []);
    let wrong = correction(&["memory"], "numa-node-id", word(64));
    let mut c = Case::new(desk);
    c.intake_trees(&empty, &fills, 6);
    c.intake_trees(&full, &Tree::default(), 6);
    c.intake_trees(&full, &wrong, 11);
    c.intake_trees(&full, &empties, 0);
    let bytes = Sketch::of(&full).bytes();
    c.intake_trees_bytes(&bytes, &[], 11);
    c.intake_trees_bytes(&[], &bytes, 11);
    // Each kind of command refused, after one that was done.
    let mut listed = tree(&[memory_node(&[(0, 1)]), reserved_node(&[])]);
    listed.list = apart(1, TAKEN.capacity as u64);
    let buffer = ["reserved-memory", "buffer"];
    let reserve = correction(&buffer, "reg", reg((2, 2), &[(1 << 40, 1)]));
    let mut c = Case::new(desk);
    c.intake_trees(&listed, &reserve, 6);
    c.intake_trees(&listed, &Tree::default(), 0);
    c.block[0] = 0;
    c.intake_trees(&full, &empties, 1);
    c.intake_trees(&full, &wrong, 1);
    c.intake_trees_bytes(&[], &[], 1);
}

/// A tree with all that a path can be about, and what is found at each.
fn lookup_paths(desk: &mut Desk) {
    let odd = Node::new("board")
        .with("a", "root")
        .with("", "unnamed")
        .holding(
            Node::new("n")
                .with("a", "first n")
                .holding(Node::new("m").with("a", "n, m").with("b", "n, m, b")),
        )
        .holding(
            Node::new("n")
                .with("a", "second n")
                .with("c", "second n, c"),
        )
        .holding(Node::new("").with("a", "nameless").with("d", "nameless, d"))
        .holding(
            Node::new("n/m")
                .with("b", "slashed, b")
                .with("e", "slashed, e")
                .with("e", "slashed, e again"),
        )
        .holding(Node::new("").holding(Node::new("").with("a", "nameless twice")))
        .holding(Node::new("n").holding(Node::new("").with("a", "nameless in n")))
        .holding(Node::new("none").with("empty", []));
    let mut deep = Node::new("n").with("deep", "16");
    for _ in 3..=16 {
        deep = Node::new("n").holding(deep);
    }
    let odd = Tree {
        list: Vec::new(),
        root: odd.holding(deep),
    };
    let odd: Arc<[u8]> = Sketch::of(&odd).bytes().into();
    let bare: Arc<[u8]> = Sketch::of(&Tree::default()).bytes().into();
    let (deep, deeper) = ("/n".repeat(15), "/n".repeat(16));
    for (path, name, value) in [
        ("/", "a", Some("root")),
        ("/", "", Some("unnamed")),
        ("/", "d", Some("nameless, d")),
        ("/n", "a", Some("first n")),
        ("/n", "c", Some("second n, c")),
        ("/n/m", "a", Some("n, m")),
        ("/n/m", "b", Some("n, m, b")),
        ("/n/m", "e", Some("slashed, e")),
        ("//", "a", Some("nameless twice")),
        ("/n/", "a", Some("nameless in n")),
        ("/none", "empty", Some("")),
        (&deep, "deep", Some("16")),
        (&deep[..28], "deep", None),
        (&deeper, "deep", None),
        ("/board", "a", None),
        ("/board/n", "a", None),
        ("board", "a", None),
        ("/m", "a", None),
        ("/n/m/", "a", None),
        ("/no", "empty", None),
        ("/nones", "empty", None),
        ("/none/", "empty", None),
        ("/none", "empt", None),
        ("/none", "emptys", None),
        ("/none", "", None),
        ("/none", "empty\0", None),
        ("/none\0", "empty", None),
        ("", "a", None),
        ("", "", None),
        ("n", "a", None),
        ("///", "a", None),
        ("//n", "a", None),
    ] {
        for (service, board, number) in [
            (&odd, &bare, number::IN_SERVICE),
            (&bare, &odd, number::IN_BOARD),
            (&odd, &odd, number::IN_SERVICE),
        ] {
            found(desk, service, board, (path, name), number, value);
        }
    }
    // The service tree first, an empty value too, and only where it has the property.
    let a = |value: &str| Node::new("n").with("a", value);
    let node = |node: Node| -> Arc<[u8]> {
        let root = Node::new("").holding(node);
        let list = Vec::new();
        Sketch::of(&Tree { list, root }).bytes().into()
    };
    let board = node(a("the board's").with("b", "b"));
    for value in ["another", ""] {
        let service = node(a(value));
        let at = ("/n", "a");
        found(desk, &service, &board, at, number::IN_SERVICE, Some(value));
        let at = ("/n", "b");
        found(desk, &service, &board, at, number::IN_BOARD, Some("b"));
        found(desk, &service, &board, ("/", "a"), 0, None);
    }
}

/// A lookup gives this number and value, or neither.
fn found(
    desk: &mut Desk,
    service: &Arc<[u8]>,
    board: &Arc<[u8]>,
    (path, name): (&str, &str),
    number: u32,
    value: Option<&str>,
) {
    let call = pairs::lookup(service, board, path.as_bytes(), name.as_bytes());
    let mut slip = vec![0x77; SLIP_LEN];
    let got = desk.call(&call, &mut [], &mut slip);
    let (at, length) = (get_u64(&slip, 0) as usize, get_u64(&slip, 8) as usize);
    let tree = match got {
        number::IN_SERVICE => service,
        _ => board,
    };
    let part = tree.get(at..at.saturating_add(length));
    let right = match value {
        Some(value) => got == number && at > 0 && part == Some(value.as_bytes()),
        None => got == number::IN_NEITHER && slip == [0; SLIP_LEN],
    };
    if !right {
        desk.fail(&format!(
            "{}: {got}, {at:#x}, {length:#x}, not {value:?}",
            call.text()
        ));
    }
}

/// Properties of the stored trees, all of the made ones, and of the real ones every
/// seventh and the last.
fn lookup_stored(desk: &mut Desk) {
    let bare: Arc<[u8]> = Sketch::of(&Tree::default()).bytes().into();
    for stored in stored::all() {
        let tree: Arc<[u8]> = stored.bytes.into();
        let listing = model::tree::properties(stored.bytes).expect("it has the form");
        let last = listing.len().saturating_sub(1);
        let few = stored.bytes.len() < 2000;
        for (i, (path, name, _)) in listing.iter().enumerate() {
            if !few && i % 7 != 0 && i != last {
                continue;
            }
            for (service, board) in [(&bare, &tree), (&tree, &bare), (&tree, &tree)] {
                let mut slip = vec![0x77; SLIP_LEN];
                let call = pairs::lookup(service, board, path, name);
                let number = desk.call(&call, &mut [], &mut slip);
                if number != number::IN_SERVICE + u32::from(Arc::ptr_eq(service, &bare)) {
                    desk.fail(&format!("{}: {number}", call.text()));
                }
            }
        }
    }
}

/// 8 before 11, the slip as it was; 11 with zeros.
fn lookup_refused(desk: &mut Desk) {
    let good: Arc<[u8]> = Sketch::of(&board()).bytes().into();
    let none: Arc<[u8]> = [][..].into();
    for (service, board) in [(&good, &good), (&none, &good), (&good, &none)] {
        let call = pairs::lookup(service, board, b"/memory", b"reg");
        for length in (0..40).filter(|&length| length != SLIP_LEN) {
            let mut slip = vec![0x77; length];
            let number = desk.call(&call, &mut [], &mut slip);
            if number != number::BAD_SLIP || slip != vec![0x77; length] {
                desk.fail(&format!("{number} for a slip of {length} bytes"));
            }
        }
        let mut slip = vec![0x77; SLIP_LEN];
        let number = desk.call(&call, &mut [], &mut slip);
        let wanted = match Arc::ptr_eq(service, board) {
            true => number::IN_SERVICE,
            false => number::BAD_TREE,
        };
        if number != wanted || wanted == number::BAD_TREE && slip != [0; SLIP_LEN] {
            desk.fail(&format!("{number} for the lookup, not {wanted}, or a slip"));
        }
    }
}

/// Buffers around each number of pieces, from every page of a small list.
fn pages_cut(desk: &mut Desk) {
    let mut c = Case::new(desk);
    c.add(0x3000, 0xC000, 0);
    let list = [(3, 0), (4, 2), (8, 2), (12, 1), (14, 0)];
    c.all_pages(&list);
    for from in 0..18 {
        let first = list.iter().filter(|piece| piece.0 < from).count();
        let left = &list[first..];
        for length in (0..=72).filter(|length| [0, 1, 11].contains(&(length % PIECE_LEN))) {
            let room = left.len().min(length / PIECE_LEN);
            let next = left.get(room).map_or(NO_PAGE, |piece| piece.0);
            c.pages(from, length, &left[..room], next);
        }
    }
}

/// Orders up to 10, and not above.
fn pages_of_large_runs(desk: &mut Desk) {
    let mut c = Case::new(desk);
    c.add(0x1000, 4 * 0x40_0000 - 0x2000, 0);
    let below = (0..10).map(|order| (1 << order, order));
    let large = [(1024, 10), (2048, 10)];
    let above = (0..10).rev().map(|order| (4096 - (2 << order), order));
    let list: Vec<(u64, u32)> = below.chain(large).chain(above).collect();
    c.all_pages(&list);
    let mut c = Case::new(desk);
    c.add(0, 80 * 0x40_0000, 63);
    let list: Vec<(u64, u32)> = (0..80).map(|i| (i * 1024, 10)).collect();
    c.all_pages(&list);
    // From page 512 on, in the middle of a piece.
    c.pages(512, 24, &[(1024, 10), (2048, 10)], 3072);
    // All there is.
    let mut c = Case::new(desk);
    c.add(0, u64::MAX, 0);
    c.pages(0, 24, &[(0, 10), (1024, 10)], 2048);
    c.pages(NO_PAGE - 1025, 12, &[(NO_PAGE - 1024, 9)], NO_PAGE - 512);
    c.pages(
        NO_PAGE - 4,
        48,
        &[(NO_PAGE - 4, 1), (NO_PAGE - 2, 0)],
        NO_PAGE,
    );
}

/// Page 0, the last page, and pages that are not whole.
fn pages_at_the_ends(desk: &mut Desk) {
    const TOP_PAGE: u64 = NO_PAGE - 1;
    for (base, size, list) in [
        (0, 0x1000, &[(0, 0)][..]),
        (0, 0xFFF, &[]),
        (1, 0xFFF, &[]),
        (1, 0x1000, &[]),
        (1, 0x1FFE, &[]),
        (1, 0x1FFF, &[(1, 0)]),
        (0xFFF, 0x1001, &[(1, 0)]),
        (0xFFF, 0x1002, &[(1, 0)]),
        (0xFFF, 0x2001, &[(1, 0), (2, 0)]),
        (0x800, 0x3000, &[(1, 0), (2, 0)]),
        (0x1000, 0x2FFF, &[(1, 0), (2, 0)]),
        (0x1000, 0x3000, &[(1, 0), (2, 1)]),
        (0, 0x2000, &[(0, 1)]),
        (0x5800, 0x400, &[]),
        (u64::MAX - 0xFFF, 0x1000, &[]),
        (u64::MAX - 0xFFE, 0xFFE, &[]),
        (u64::MAX - 0x1FFF, 0x2000, &[(TOP_PAGE - 1, 0)]),
        (u64::MAX - 0x1FFE, 0x2000, &[]),
        (
            u64::MAX - 0x2FFF,
            0x3000,
            &[(TOP_PAGE - 2, 0), (TOP_PAGE - 1, 0)],
        ),
    ] {
        let mut c = Case::new(desk);
        c.add(base, size, 0);
        c.all_pages(list);
    }
    // Taken ranges cut like ends of memory.
    let mut c = Case::new(desk);
    c.add(0, 0x10000, 0);
    c.reserve(0x3800, 0x3801);
    c.reserve(0x6000, 0x7000);
    c.reserve(0xFFFF, 0x20000);
    c.all_pages(&[(0, 1), (2, 0), (4, 1), (7, 0), (8, 2), (12, 1), (14, 0)]);
}

/// A page in two runs is in no piece, and no piece is of two runs.
fn pages_of_touching_runs(desk: &mut Desk) {
    let mut c = Case::new(desk);
    c.add(0, 0x1800, 0);
    c.add(0x1800, 0x2800, 1);
    c.add(0x4000, 0x2000, 2);
    c.add_tag(0x6000, 0x2000, (HOTPLUG, 2), 0);
    c.add_tag(0x8000, 0x4000, (MIRROR, 3), 0);
    c.add_tag(0xC000, 0x4000, (HOTPLUG, 3), 0);
    c.add_tag(0x10000, 0x8000, (HOTPLUG, 4), 0);
    c.all_pages(&[(0, 0), (2, 1), (4, 1), (6, 1), (8, 2), (12, 2), (16, 3)]);
}

/// All flags but no-map.
fn pages_and_flags(desk: &mut Desk) {
    for flags in 0..=FLAGS {
        let mut c = Case::new(desk);
        c.add_tag(0x2000, 0x2000, (flags, 5), 0);
        c.all_pages(if flags < NO_MAP { &[(2, 1)] } else { &[] });
    }
    let mut c = Case::new(desk);
    c.add(0, 0x8000, 0);
    c.mark(0x2000, 0x1001, NO_MAP, 0);
    c.all_pages(&[(0, 1), (4, 2)]);
}

/// Limit, direction and image end are not looked at.
fn pages_and_settings(desk: &mut Desk) {
    let mut c = Case::new(desk);
    c.add(0, 0x8000, 0);
    c.reserve(0x5000, 0x6000);
    for limit in [0, 1, 4096, 0x2000, 0x7000, u64::MAX] {
        for image in [0, 1, 0x2000, 0x7800, u64::MAX] {
            for direction in [TOP_DOWN, BOTTOM_UP] {
                c.limit(limit, direction);
                c.image(image);
                c.pages(0, 48, &[(0, 2), (4, 0), (6, 1)], NO_PAGE);
            }
        }
    }
}

/// The last records of both tables count.
fn pages_of_full_tables(desk: &mut Desk) {
    let mut c = Case::new(desk);
    let list: Vec<(u64, u32)> = (0..MEMORY.capacity as u64).map(|i| (2 * i, 0)).collect();
    for (page, _) in &list {
        c.add(page * 0x1000, 0x1000, 0);
    }
    c.count(&MEMORY, MEMORY.capacity as u64);
    c.all_pages(&list);
    let mut c = taken_comb(desk);
    let list: Vec<(u64, u32)> = (0..TAKEN.capacity as u64).map(|i| (2 * i + 1, 0)).collect();
    c.add(0, 0x2000 * TAKEN.capacity as u64, 0);
    c.all_pages(&list);
    c.range(
        Command::Reserve,
        0x2000 * TAKEN.capacity as u64 - 0x1000,
        1,
        0,
    );
    c.all_pages(&list[..list.len() - 1]);
}

/// No free page at all, and pages above all there are.
fn pages_that_are_none(desk: &mut Desk) {
    let mut c = Case::new(desk);
    for full in [false, true] {
        if full {
            c.add(0, u64::MAX, 0);
        }
        let froms = [
            NO_PAGE - 1,
            NO_PAGE,
            NO_PAGE + 1,
            2 * NO_PAGE,
            1 << 63,
            u64::MAX,
        ];
        for from in froms.into_iter().chain((!full).then_some(0)) {
            for length in [0, 11, 12, 100] {
                c.pages(from, length, &[], NO_PAGE);
            }
        }
    }
    c.reserve(0, u64::MAX);
    c.pages(0, 12, &[], NO_PAGE);
}

/// 8 for the slip, then 1 for the block; the buffer as it was.
fn pages_refused(desk: &mut Desk) {
    let mut c = m(desk);
    let good = c.block.clone();
    let mut bad = good.clone();
    bad[52] = 1;
    let call = Call::Pages {
        from: 0,
        buffer: vec![0x5A; 30].into(),
    };
    for block in [
        good,
        bad,
        vec![0; EDITION_1.length()],
        printed_bytes(1, 6224),
    ] {
        for length in 0..40 {
            let is_good = block[0] == 2 && block[52] == 0;
            if length == SLIP_LEN && is_good {
                continue;
            }
            c.block = block.clone();
            let mut slip = vec![0x77; length];
            let number = c.desk.call(&call, &mut c.block, &mut slip);
            let (wanted, slip_wanted) = match length {
                SLIP_LEN => (1, vec![0; SLIP_LEN]),
                _ => (8, vec![0x77; length]),
            };
            c.expect("number", number, wanted);
            c.expect("slip", slip, slip_wanted);
            c.expect("buffer", c.desk.buffer.clone(), vec![0x5A; 30]);
            c.expect("block", c.block.clone(), block.clone());
        }
    }
}

/// The block of a side of the table, by calls on a fresh one.
fn case_of<'a>(desk: &'a mut Desk, side: &Side) -> Case<'a> {
    let mut c = Case::new(desk);
    c.limit(side.limit, side.direction);
    c.image(side.image_end);
    for &(lo, hi, flags, node) in side.memory {
        c.add_tag(lo, hi - lo, (flags, node), 0);
    }
    for (lo, hi) in side.all_taken() {
        c.reserve(lo, hi);
    }
    if !side.good {
        c.block[ZERO_WORD_AT] = 1;
    }
    c
}

impl Case<'_> {
    /// The number and the slip of a call with the slip of a side.
    fn lent_slip(&mut self, call: &Call, side: &Side) -> (u32, Vec<u8>) {
        let mut slip = vec![side.slip.1; side.slip.0];
        (self.desk.call(call, &mut self.block, &mut slip), slip)
    }

    /// The find of a side, which must give what it says and leave the block.
    fn found(&mut self, side: &Side) -> (u32, Vec<u8>) {
        let before = self.block.clone();
        let call = Call::Find(side.query);
        let got = self.lent_slip(&call, side);
        self.expect(&call.text(), got.clone(), side.wanted());
        self.expect("block", self.block.clone(), before);
        got
    }
}

/// Each premise of request E13: blocks and finds that differ in it alone are answered
/// otherwise.
fn alone_premises(desk: &mut Desk) {
    for (premise, pair) in &NEEDED {
        let [one, other] = pair.each_ref().map(|s| case_of(desk, s).found(s));
        if broken(pair) != [*premise] || one == other {
            desk.fail(&format!("{premise}: not it alone, or the same answers"));
        }
    }
}

/// What differs in no premise is answered alike.
fn alone_alike(desk: &mut Desk) {
    for pair in &ALIKE {
        let [one, other] = pair.each_ref().map(|s| case_of(desk, s).found(s));
        if !broken(pair).is_empty() || one != other {
            desk.fail("blocks that agree for a node, with other answers");
        }
    }
}

/// Allocate is not included: it needs room in the taken table, which all nodes share.
fn alone_and_allocate(desk: &mut Desk) {
    for (side, allocated) in &ROOM {
        let mut c = case_of(desk, side);
        c.count(&TAKEN, side.elsewhere);
        c.found(side);
        let before = c.block.clone();
        let call = Call::Allocate(side.query);
        let got = c.lent_slip(&call, side);
        let number = allocated.err().unwrap_or(0);
        c.expect(&call.text(), got, (number, side.slip_after(*allocated)));
        if allocated.is_ok() {
            c.count(&TAKEN, side.elsewhere + 1);
            c.free(0x1F000, 0x20000);
        }
        c.expect("block", c.block.clone(), before);
    }
}

/// A line that asks for nothing but its range.
fn line(lo: u64, hi: u64) -> Line {
    Line {
        size: hi.wrapping_sub(lo),
        align: 1,
        start: 0,
        end: 0,
        node: ANY_NODE,
        wish: 0,
        at: lo,
    }
}

impl Case<'_> {
    /// A plan by both functions; a refusal leaves the block.
    fn plans(&mut self, lines: &[Line], number: u32, index: u32) {
        self.plans_columns(Columns::of(lines), number, index);
    }

    fn plans_columns(&mut self, columns: Columns, number: u32, index: u32) {
        let text = plans::described(&columns);
        let (got, at, after) = plans::on_both(self.desk, &self.block, columns);
        self.expect(&text, (got, at), (number, index));
        if number != 0 {
            self.expect("block", &after, &self.block);
        }
        self.block = after;
    }

    /// An accepted plan, which leaves these taken records; the block is then as it was.
    fn accepts(&mut self, lines: &[Line], taken: &[(u64, u64)]) {
        let before = self.block.clone();
        self.plans(lines, 0, 0);
        self.taken(taken);
        self.expect(
            "memory",
            &self.block[MEMORY.offset..TAKEN.offset],
            &before[MEMORY.offset..TAKEN.offset],
        );
        self.expect("settings", &self.block[40..64], &before[40..64]);
        self.expect("image end", &self.block[72..80], &before[72..80]);
        self.block = before;
    }

    /// Lines that are at fault by themselves, alone, behind a good one and before it.
    fn refuses(&mut self, good: Line, bad: &[Line]) {
        self.accepts(&[good], &[(good.at, good.at + good.size)]);
        for &bad in bad {
            self.plans(&[bad], 13, 0);
            self.plans(&[good, bad], 13, 1);
            self.plans(&[bad, good], 13, 0);
            self.plans(&[good, bad, good, bad], 13, 1);
        }
    }
}

/// So many lines of one address, two apart.
fn dots(count: u64) -> Vec<Line> {
    let dot = |i: u64| line(0x10000 + 2 * i, 0x10001 + 2 * i);
    (0..count).map(dot).collect()
}

/// 0, 1, 64, 65 lines and more; 1 before 14, 14 before all else.
fn plan_lengths(desk: &mut Desk) {
    let mut c = m(desk);
    c.accepts(&[], &[]);
    c.accepts(&[line(0x10000, 0x20000)], &[(0x10000, 0x20000)]);
    for count in [1, 2, 63, 64] {
        let lines = dots(count);
        let taken: Vec<_> = lines.iter().map(|line| (line.at, line.at + 1)).collect();
        c.accepts(&lines, &taken);
    }
    for count in [65, 66, 70, 128, 1000] {
        c.plans(&dots(count), 14, 0);
        c.plans(&vec![line(0, 0); count as usize], 14, 0);
    }
    let good = c.block.clone();
    let mut bad = good.clone();
    bad[ZERO_WORD_AT] = 1;
    let short = good[..BLOCK_LEN - 1].to_vec();
    let long = [&good[..], &[0]].concat();
    let old = printed_bytes(1, 6224);
    for block in [bad, short, long, old, vec![0; BLOCK_LEN], vec![]] {
        c.block = block;
        for lines in [&[][..], &dots(1), &dots(64), &dots(65), &[line(0, 0); 66]] {
            c.plans(lines, 1, 0);
        }
    }
}

/// Find's own checks, each broken alone and all at once.
fn plan_checks(desk: &mut Desk) {
    let mut c = m(desk);
    let good = line(0x10000, 0x11000);
    let other = line(0x18000, 0x19000);
    let mut bad = Vec::new();
    bad.extend([64, 65, 1 << 31, ANY_NODE - 1].map(|node| Line { node, ..other }));
    bad.extend([4, 5, 7, 8, 1 << 31, u32::MAX].map(|wish| Line { wish, ..other }));
    bad.extend([0, 3, 6, 0x18000, (1 << 63) + 1, u64::MAX].map(|align| Line { align, ..other }));
    bad.extend([0x18000, 0x10000, 0, u64::MAX].map(|at| Line {
        size: 0,
        at,
        ..other
    }));
    bad.push(Line {
        size: 0,
        align: 0,
        node: 64,
        wish: 4,
        ..other
    });
    c.refuses(good, &bad);
    c.accepts(&[good, other], &[(0x10000, 0x11000), (0x18000, 0x19000)]);
    // The address is a multiple of the alignment.
    for align in [1, 2, 0x800, 0x8000] {
        let lines = [Line { align, ..other }];
        c.accepts(&lines, &[(0x18000, 0x19000)]);
    }
    let off = [0x10000, 1 << 17, 1 << 63].map(|align| Line { align, ..other });
    c.refuses(good, &off);
    let off = [0x18001, 0x17FFF, 0x18004].map(|at| Line {
        align: 8,
        ..line(at, 0x19000)
    });
    c.refuses(good, &off);
}

/// Start, 4096 and a named end.
fn plan_window(desk: &mut Desk) {
    let mut c = Case::new(desk);
    c.add(0, 0x4000, 0);
    let good = line(0x3000, 0x3001);
    c.accepts(&[line(0x1000, 0x1001)], &[(0x1000, 0x1001)]);
    let at_4095 = Line {
        start: 4095,
        ..line(4095, 4096)
    };
    c.refuses(
        good,
        &[line(4095, 4096), line(4095, 4097), line(0, 1), at_4095],
    );
    let there = line(0x2000, 0x2800);
    for start in [0, 1, 0x1FFF, 0x2000] {
        c.accepts(&[Line { start, ..there }], &[(0x2000, 0x2800)]);
    }
    let late = [0x2001, 0x2800, u64::MAX].map(|start| Line { start, ..there });
    c.refuses(good, &late);
    for end in [0, 0x2800, 0x2801, u64::MAX] {
        c.accepts(&[Line { end, ..there }], &[(0x2000, 0x2800)]);
    }
    let early = [1, 0x1000, 0x2000, 0x2001, 0x27FF].map(|end| Line { end, ..there });
    c.refuses(good, &early);
}

/// The limit, with no end named and with one on each side of it.
fn plan_limit(desk: &mut Desk) {
    let mut c = m(desk);
    let good = line(0x10000, 0x10001);
    let there = line(0x14000, 0x15000);
    let with_ends = [0, 0x15000, 0x15001, u64::MAX].map(|end| Line { end, ..there });
    for direction in [TOP_DOWN, BOTTOM_UP] {
        for limit in [0x15000, 0x15001, u64::MAX] {
            c.limit(limit, direction);
            for line in with_ends {
                c.accepts(&[line], &[(0x14000, 0x15000)]);
            }
        }
        for limit in [0x14FFF, 0x14001, 0x14000, 0x10001] {
            c.limit(limit, direction);
            c.refuses(good, &with_ends);
        }
        for limit in [0, 1, 4096, 0x10000] {
            c.limit(limit, direction);
            c.plans(&[good], 13, 0);
            c.plans(&with_ends, 13, 0);
            c.accepts(&[], &[]);
        }
    }
}

/// All of a line lies in one free run: what is taken, no memory, no-map memory, other tags.
fn plan_runs(desk: &mut Desk) {
    let mut c = m(desk);
    c.add(0x20000, 0x8000, 1);
    c.mark(0x1C000, 0x1000, NO_MAP, 0);
    c.reserve(0x14000, 0x15000);
    let good = Line {
        node: 1,
        ..line(0x21000, 0x22000)
    };
    let bad = [
        (0x14000, 0x14001),
        (0x14FFF, 0x15000),
        (0x13FFF, 0x14001),
        (0x14FFF, 0x15001),
        (0x10000, 0x16000),
        (0xFFFF, 0x10000),
        (0xFFFF, 0x10001),
        (0x28000, 0x28001),
        (0x27FFF, 0x28001),
        (0x1C000, 0x1C001),
        (0x1CFFF, 0x1D000),
        (0x1BFFF, 0x1C001),
        (0x1CFFF, 0x1D001),
        (0x1FFFF, 0x20001),
    ];
    let before = c.block.clone();
    for (lo, hi) in bad {
        c.plans(&[line(lo, hi)], 13, 0);
        c.plans(&[good, line(lo, hi)], 13, 1);
        c.plans(&[line(lo, hi), good], 13, 0);
    }
    for (at, node, number) in [
        (0x10000, 0, 0),
        (0x10000, 1, 13),
        (0x20000, 0, 13),
        (0x20000, 1, 0),
    ] {
        c.plans(
            &[Line {
                node,
                ..line(at, at + 0x1000)
            }],
            number,
            0,
        );
        c.block = before.clone();
    }
    c.plans(&[Line { node: 63, ..good }], 13, 0);
    // All of a run, and up to each of its ends.
    let whole = [
        line(0x10000, 0x14000),
        line(0x15000, 0x1C000),
        line(0x20000, 0x28000),
    ];
    c.accepts(&whole, &[(0x10000, 0x1C000), (0x20000, 0x28000)]);
    let ends = [
        line(0x1D000, 0x20000),
        line(0x20000, 0x20001),
        line(0x13FFF, 0x14000),
    ];
    c.accepts(&ends, &[(0x13FFF, 0x15000), (0x1D000, 0x20001)]);
}

/// Every wish of a line by all flags.
fn plan_wishes(desk: &mut Desk) {
    for flags in 0..=FLAGS {
        for wish in 0..=WISH_BOTH {
            let mut c = Case::new(desk);
            c.add_tag(0x10000, 0x1000, (flags, 5), 0);
            c.add_tag(0x20000, 0x1000, (MIRROR, 0), 0);
            let granted = (flags & HOTPLUG == 0 || wish & WISH_HOTPLUG != 0)
                && (flags & MIRROR != 0 || wish & WISH_MIRROR == 0)
                && flags & NO_MAP == 0;
            for node in [5, ANY_NODE] {
                let lines = [
                    line(0x20000, 0x21000),
                    Line {
                        node,
                        wish,
                        ..line(0x10000, 0x11000)
                    },
                ];
                match granted {
                    true => c.accepts(&lines, &[(0x10000, 0x11000), (0x20000, 0x21000)]),
                    false => c.plans(&lines, 13, 1),
                }
            }
        }
    }
}

/// Lines that touch are accepted, lines that share one address are not: the later is at fault.
fn plan_sharing(desk: &mut Desk) {
    let mut c = m(desk);
    let there = line(0x14000, 0x15000);
    let apart = line(0x10000, 0x10100);
    for (lo, hi) in [
        (0x15000, 0x15001),
        (0x15000, 0x16000),
        (0x13000, 0x14000),
        (0x13FFF, 0x14000),
    ] {
        let taken = [(lo.min(0x14000), hi.max(0x15000))];
        c.accepts(&[there, line(lo, hi)], &taken);
        c.accepts(&[line(lo, hi), there], &taken);
    }
    for (lo, hi) in [
        (0x14000, 0x15000),
        (0x14FFF, 0x15000),
        (0x14FFF, 0x16000),
        (0x14000, 0x14001),
        (0x13000, 0x14001),
        (0x14800, 0x14801),
        (0x13FFF, 0x15001),
        (0x14000, 0x15001),
        (0x13FFF, 0x15000),
    ] {
        let other = line(lo, hi);
        c.plans(&[there, other], 13, 1);
        c.plans(&[other, there], 13, 1);
        c.plans(&[there, apart, other], 13, 2);
        c.plans(&[other, apart, there], 13, 2);
        c.plans(&[apart, there, other], 13, 2);
        c.plans(&[there, other, apart], 13, 1);
    }
    // The last of 64 with the first, with the one before, and with all.
    let mut lines: Vec<Line> = (0..64)
        .map(|i| line(0x10000 + 16 * i, 0x10010 + 16 * i))
        .collect();
    c.accepts(&lines, &[(0x10000, 0x10400)]);
    for at in [0x1000F, 0x103EF, 0x103E1, 0x10000] {
        lines[63].at = at;
        c.plans(&lines, 13, 63);
    }
    lines[63] = line(0x10000, 0x20000);
    c.plans(&lines, 13, 63);
    lines.rotate_right(1);
    c.plans(&lines, 13, 1);
}

/// Of several faults the first counts, whichever it is.
fn plan_faults(desk: &mut Desk) {
    let mut c = m(desk);
    let [one, two, three] = [0x10000, 0x12000, 0x14000].map(|at| line(at, at + 0x1000));
    let [zero, outside] = [line(0x16000, 0x16000), line(0x20000, 0x20001)];
    let over = line(0x1F000, 0x20001);
    let inside = line(0x1F800, 0x1F801);
    for (lines, index) in [
        (vec![one, zero, outside], 1),
        (vec![one, outside, zero], 1),
        (vec![one, one, zero], 1),
        (vec![one, two, one, three, zero], 2),
        (vec![zero, one, one], 0),
        (vec![one, zero, two, one], 1),
        (vec![one, two, three, two], 3),
        (vec![two, two, one, one], 1),
        (vec![one, two, two, one], 2),
        (vec![one, two, one, two], 2),
        (vec![inside, over], 1),
        (vec![over, inside], 0),
        (vec![outside, one, zero, two, one], 0),
    ] {
        c.plans(&lines, 13, index);
    }
    let mut lines = dots(64);
    for index in (0..64).rev() {
        lines[index].size = 0;
        c.plans(&lines, 13, index as u32);
    }
}

/// Only the finished list counts for 6; 13 comes before it.
fn plan_full(desk: &mut Desk) {
    let mut c = taken_comb(desk);
    c.add(0x1000, 0x2000 * TAKEN.capacity as u64, 0);
    // Between two records, touching none, both or the lower one.
    let gap = |i: u64| 0x2000 * i + 0x1000;
    let apart = |i: u64| line(gap(i) + 1, gap(i) + 2);
    let join = |i: u64| line(gap(i), gap(i) + 0x1000);
    let touch = |i: u64| line(gap(i), gap(i) + 1);
    let rest = |i: u64| line(gap(i) + 1, gap(i) + 0x1000);
    c.count(&TAKEN, TAKEN.capacity as u64);
    let full = c.block.clone();
    let mut gives = |lines: &[Line], count: u64| {
        c.block = full.clone();
        match count > TAKEN.capacity as u64 {
            true => c.plans(lines, 6, 0),
            false => {
                c.plans(lines, 0, 0);
                c.count(&TAKEN, count);
            }
        }
    };
    gives(&[apart(3)], 513);
    gives(&[touch(3)], 512);
    gives(&[join(3)], 511);
    gives(&[touch(3), rest(3)], 511);
    for lines in [[apart(3), join(5)], [join(5), apart(3)]] {
        gives(&lines, 512);
        gives(&[&lines[..], &[apart(7)]].concat(), 513);
        gives(&[&[apart(7)], &lines[..]].concat(), 513);
        gives(
            &[&[apart(7)], &lines[..], &[rest(9), touch(9)]].concat(),
            512,
        );
        gives(
            &[&[touch(9), apart(7)], &lines[..], &[rest(9)]].concat(),
            512,
        );
    }
    let more: Vec<Line> = (0..32).map(apart).collect();
    let less: Vec<Line> = (100..132).map(join).collect();
    let by_turns: Vec<Line> = more
        .iter()
        .zip(&less)
        .flat_map(|two| [*two.0, *two.1])
        .collect();
    gives(&[&more[..], &less].concat(), 512);
    gives(&[&less[..], &more].concat(), 512);
    gives(&by_turns, 512);
    gives(&by_turns[..63], 513);
    gives(&[&more[..], &less[..31]].concat(), 513);
    gives(&[&more[..30], &less].concat(), 510);
    c.block = full.clone();
    c.plans(&[apart(3), line(0, 0)], 13, 1);
    c.plans(&[apart(3), apart(5), apart(3)], 13, 2);
    c.plans(&[&more[..], &more[..1]].concat(), 13, 32);
    c.plans(&[apart(3); 65], 14, 0);
    c.plans(&[], 0, 0);
    // Room for one, and for none.
    c.free(0x2000, 0x3000);
    c.plans(&[apart(3), apart(5)], 6, 0);
    c.plans(&[apart(3)], 0, 0);
    c.plans(&[apart(5)], 6, 0);
}

/// Near 0 and at the top, where sums go past 2^64.
fn plan_at_the_ends(desk: &mut Desk) {
    const TOP: u64 = u64::MAX;
    let mut c = Case::new(desk);
    c.add(TOP - 0x1000, 0x1000, 0);
    let good = line(TOP - 0x1000, TOP - 0xFFF);
    c.accepts(&[line(TOP - 16, TOP)], &[(TOP - 16, TOP)]);
    c.accepts(&[line(TOP - 1, TOP)], &[(TOP - 1, TOP)]);
    let past = |at: u64, size: u64| Line {
        size,
        ..line(at, at)
    };
    let bad = [
        past(TOP - 16, 17),
        past(TOP - 16, 18),
        past(TOP - 1, 2),
        past(TOP - 1, TOP),
        past(TOP, 1),
        past(TOP, 2),
        past(TOP, TOP),
        past(TOP - 0x1001, 2),
        past(0, TOP),
    ];
    c.refuses(good, &bad);
    let bad = bad.map(|line| Line { end: TOP, ..line });
    c.refuses(good, &bad);
    let mut c = Case::new(desk);
    c.add(0, TOP, 0);
    c.accepts(&[line(0x1000, TOP)], &[(0x1000, TOP)]);
    let good = line(0x10000, 0x11000);
    c.refuses(
        good,
        &[
            past(0x1000, TOP),
            past(0x8000, TOP - 0x7FFF),
            past(0xFFF, 1),
        ],
    );
    c.plans(&[good, line(0x1000, TOP)], 13, 1);
    c.plans(&[line(0x1000, TOP), good], 13, 1);
    let two = [line(0x1000, 1 << 63), line(1 << 63, TOP)];
    c.accepts(&two, &[(0x1000, TOP)]);
}

/// Direction and image end decide nothing and stay; nor does the order of the lines.
fn plan_settings(desk: &mut Desk) {
    let mut c = m(desk);
    let mut lines = [
        line(0x10000, 0x11000),
        line(0x1F000, 0x20000),
        line(0x17FFF, 0x18001),
    ];
    let taken = [(0x10000, 0x11000), (0x17FFF, 0x18001), (0x1F000, 0x20000)];
    for direction in [TOP_DOWN, BOTTOM_UP] {
        c.turn(direction);
        for image_end in [0, 1, 0x10800, 0x18000, 0x20000, 1 << 40, u64::MAX] {
            c.image(image_end);
            for _ in 0..3 {
                c.accepts(&lines, &taken);
                lines.swap(0, 1);
                c.accepts(&lines, &taken);
                lines.rotate_right(1);
            }
            c.plans(&[lines[0], lines[1], lines[0]], 13, 2);
        }
    }
}

/// As many lines as the shortest column has, whichever it is.
fn plan_columns(desk: &mut Desk) {
    let mut c = m(desk);
    let before = c.block.clone();
    let lines = dots(3);
    for which in 0..7 {
        for more in [1, 61, 100] {
            let mut longer = [more; 7];
            longer[which] = 0;
            for (lines, count) in [(&lines[..], 3), (&[], 0)] {
                c.plans_columns(Columns::longer(lines, longer), 0, 0);
                c.count(&TAKEN, count);
                c.block = before.clone();
            }
            let mut shorter = [0; 7];
            shorter[which] = more;
            c.plans_columns(Columns::longer(&lines, shorter), 0, 0);
            c.count(&TAKEN, 3);
            c.block = before.clone();
            // What is behind the last line is not looked at, what is before is.
            let twice = [lines[0], lines[1], lines[0]];
            c.plans_columns(Columns::longer(&twice, longer), 13, 2);
            c.plans_columns(Columns::longer(&dots(65), longer), 14, 0);
            c.plans_columns(Columns::longer(&dots(64), longer), 0, 0);
            c.block = before.clone();
        }
    }
}

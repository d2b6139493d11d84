//! Request E1: one report in several orders, taken in on equal blocks.

use crate::blocks::{self, get_u32, get_u64, read_recs, Draft, Rec};
use crate::call::Call;
use crate::desk::Desk;
use crate::lists;
use crate::numbers::Near;
use crate::reports::{self, Entry};
use crate::rng::Rng;
use model::layout::*;

/// How many orders each report is taken in.
const ORDERS: usize = 5;

/// What was compared.
#[derive(Default)]
pub struct Tally {
    pub reports: u64,
    /// Intakes that were done and held against the prediction.
    pub predicted: u64,
    /// Pairs of different orders, neither refused, compared byte by byte.
    pub pairs: u64,
    /// Of these, those of reports that other orders were refused for.
    pub pairs_beside_refused: u64,
    /// Reports done in some orders and refused in others.
    pub both: u64,
    /// Reports refused in every order.
    pub refused: u64,
}

/// Takes reports in until the desk has made `until` calls.
pub fn run(desk: &mut Desk, until: u64) -> Tally {
    let mut tally = Tally::default();
    while desk.calls < until {
        desk.turn += 1;
        let mut rng = Rng::new(desk.seed, desk.part, desk.turn);
        let start = start_block(&mut rng);
        let entries = some_entries(&mut rng, &start);
        tally.reports += 1;
        one_report(desk, &mut rng, &start, &entries, &mut tally);
    }
    tally
}

fn one_report(desk: &mut Desk, rng: &mut Rng, start: &[u8], entries: &[Entry], tally: &mut Tally) {
    let mut ends: Vec<Vec<u8>> = Vec::new();
    let mut refused = 0;
    for turn in 0..ORDERS {
        let order = in_order(rng, entries, turn);
        if turn > 0 && order == entries {
            continue;
        }
        let mut block = start.to_vec();
        let call = Call::Intake(reports::bytes(&order).into());
        match desk.call(&call, &mut block, &mut []) {
            number::DONE => {}
            number::TABLE_FULL => {
                refused += 1;
                continue;
            }
            other => desk.fail(&format!("{other} for a good block and report")),
        }
        if Some(&block) != predicted(start, &order).as_ref() {
            desk.fail(&format!("not the block predicted:\n{}", show(&order)));
        }
        tally.predicted += 1;
        if ends.first().is_some_and(|end| *end != block) {
            desk.fail(&format!("another order ends otherwise:\n{}", show(&order)));
        }
        ends.push(block);
    }
    let pairs = ends.len().saturating_sub(1) as u64;
    tally.pairs += pairs;
    match (ends.len(), refused) {
        (_, 0) => {}
        (0, _) => tally.refused += 1,
        _ => {
            tally.both += 1;
            tally.pairs_beside_refused += pairs;
        }
    }
}

/// The entries as they are, backwards, in rising order, or shuffled.
fn in_order(rng: &mut Rng, entries: &[Entry], turn: usize) -> Vec<Entry> {
    let mut order = entries.to_vec();
    match turn {
        0 => {}
        1 => order.reverse(),
        2 => order.sort_by_key(|entry| entry.base),
        _ => rng.shuffle(&mut order),
    }
    order
}

/// The block that a done intake ends in: how each address stands follows from
/// the section on lists; then each record is cut to whole pages.
fn predicted(start: &[u8], entries: &[Entry]) -> Option<Vec<u8>> {
    let adds: Vec<Call> = entries
        .iter()
        .filter(|entry| entry.kind == USABLE)
        .map(|entry| Call::Add {
            base: entry.base,
            size: entry.length,
            flags: 0,
            node: 0,
        })
        .collect();
    let added = lists::predicted(start, &adds)?;
    let memory = read_recs(&added, &MEMORY)
        .iter()
        .filter_map(whole_pages)
        .collect();
    let draft = Draft {
        layout: &CURRENT,
        memory,
        taken: read_recs(start, &TAKEN),
        limit: get_u64(start, LIMIT_AT),
        direction: get_u32(start, DIRECTION_AT),
        image_end: get_u64(start, IMAGE_END_AT),
    };
    Some(draft.bytes())
}

/// The first and the last whole page of a record are found by counting pages.
fn whole_pages(rec: &Rec) -> Option<Rec> {
    let first = rec.base / INTAKE_STEP + u64::from(!rec.base.is_multiple_of(INTAKE_STEP));
    let past = rec.end() / INTAKE_STEP;
    (first < past).then(|| Rec {
        base: first * INTAKE_STEP,
        size: (past - first) * INTAKE_STEP,
        ..*rec
    })
}

/// Small, of any fill, or with little room; often of the tag that is added.
fn start_block(rng: &mut Rng) -> Vec<u8> {
    let memory = match rng.below(6) {
        0 => rng.index(10),
        1 => blocks::some_fill(rng, &MEMORY),
        _ => MEMORY.capacity - rng.index(4),
    };
    let taken = rng.index(6);
    let mut draft = blocks::good(rng, &CURRENT, memory, taken);
    if rng.percent(60) {
        draft.memory = plain(draft.memory);
    }
    draft.bytes()
}

/// The same records with tag 0, 0, one address less where two would merge.
fn plain(list: Vec<Rec>) -> Vec<Rec> {
    let mut end = None;
    list.into_iter()
        .filter_map(|mut rec| {
            if end == Some(rec.base) {
                rec.base += 1;
                rec.size -= 1;
            }
            (rec.flags, rec.node) = (0, 0);
            end = Some(rec.end());
            (rec.size > 0).then_some(rec)
        })
        .collect()
}

/// Entries that join records, entries that stand apart, and any others.
fn some_entries(rng: &mut Rng, start: &[u8]) -> Vec<Entry> {
    let near = Near::to(start);
    let edges: Vec<u64> = read_recs(start, &MEMORY)
        .iter()
        .flat_map(|rec| [rec.base, rec.end()])
        .collect();
    let above = edges.last().map_or(0, |end| end | 0xFFF);
    let count = match rng.below(8) {
        0 => REPORT_ENTRIES - rng.index(9),
        1 => rng.index(40),
        _ => 2 + rng.index(6),
    };
    (0..count)
        .map(|i| {
            let (base, length) = match rng.below(8) {
                0..=2 => (above.wrapping_add(0x2000 * i as u64 + 1), 0x1000),
                3..=5 if edges.len() > 1 => {
                    // From one edge to another not far from it.
                    let from = rng.index(edges.len() - 1);
                    let to = (from + 1 + rng.index(8)).min(edges.len() - 1);
                    (edges[from], edges[to] - edges[from])
                }
                6 => (near.address(rng), 0x800 * rng.below(8)),
                _ => near.range(rng),
            };
            let kind = reports::some_kind(rng);
            Entry { base, length, kind }
        })
        .collect()
}

fn show(entries: &[Entry]) -> String {
    let lines: Vec<String> = entries
        .iter()
        .map(|e| {
            format!(
                "    base {:#x} length {:#x} kind {:#x}",
                e.base, e.length, e.kind
            )
        })
        .collect();
    lines.join("\n")
}

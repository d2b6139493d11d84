//! E820 reports to take in, most of their entries near what the block holds.

use crate::numbers::Near;
use crate::rng::Rng;
use model::layout::*;

#[derive(Clone, Copy, Debug, PartialEq, Eq)]
pub struct Entry {
    pub base: u64,
    pub length: u64,
    pub kind: u32,
}

pub fn bytes(entries: &[Entry]) -> Vec<u8> {
    let mut bytes = Vec::with_capacity(entries.len() * REPORT_ENTRY_LEN);
    for entry in entries {
        bytes.extend(entry.base.to_le_bytes());
        bytes.extend(entry.length.to_le_bytes());
        bytes.extend(entry.kind.to_le_bytes());
    }
    bytes
}

/// A report, in `faults` of 100 cases one of a wrong length.
pub fn some(rng: &mut Rng, near: &Near, faults: u64) -> Vec<u8> {
    if rng.percent(faults) {
        return of_wrong_length(rng, near);
    }
    let count = some_count(rng);
    if rng.one_in(20) {
        return garbage(rng, count);
    }
    let mut entries = some_entries(rng, near, count);
    match rng.below(4) {
        0 => entries.sort_by_key(|entry| entry.base),
        1 => entries.reverse(),
        _ => rng.shuffle(&mut entries),
    }
    bytes(&entries)
}

fn some_count(rng: &mut Rng) -> usize {
    match rng.below(16) {
        0 => 0,
        1 => REPORT_ENTRIES - rng.index(2),
        2 => rng.index(REPORT_ENTRIES + 1),
        3..=5 => rng.index(20),
        _ => 1 + rng.index(5),
    }
}

/// Usable, or now and then of another kind.
pub fn some_kind(rng: &mut Rng) -> u32 {
    match rng.below(16) {
        0 | 1 => rng.below(9) as u32,
        2 => rng.pick(&[2, 257, 1 << 16 | 1, 1 << 24, 1 << 31, u32::MAX]),
        3 => rng.pick(&[USABLE, rng.clone().next() as u32]),
        _ => USABLE,
    }
}

fn some_entries(rng: &mut Rng, near: &Near, count: usize) -> Vec<Entry> {
    match rng.below(4) {
        0 | 1 => (0..count)
            .map(|_| {
                let (base, length) = near.range(rng);
                let kind = some_kind(rng);
                Entry { base, length, kind }
            })
            .collect(),
        2 => tiles(rng, near, count),
        _ => crowd(rng, near, count),
    }
}

/// Entries in rising order as firmware lists them, touching or apart.
fn tiles(rng: &mut Rng, near: &Near, count: usize) -> Vec<Entry> {
    let unit = rng.pick(&[1, 0x400, 0x1000, 0x1000, 0x10_0000]);
    let mut at = near.address(rng);
    if rng.one_in(2) {
        at &= !(unit - 1);
    }
    (0..count)
        .map(|_| {
            let base = at.wrapping_add(unit * rng.pick(&[0, 0, 1, 3]));
            let mut length = unit * (1 + rng.below(6));
            if rng.one_in(5) {
                length -= 1;
            }
            at = base.wrapping_add(length);
            let kind = some_kind(rng);
            Entry { base, length, kind }
        })
        .collect()
}

/// Entries that overlap or fill each other's gaps, within a few pages.
fn crowd(rng: &mut Rng, near: &Near, count: usize) -> Vec<Entry> {
    let from = near.address(rng);
    let reach = rng.pick(&[0x1000, 0x3000, 0x8000, 0x40000]);
    let unit = rng.pick(&[1, 0x100, 0x800]);
    (0..count)
        .map(|_| Entry {
            base: from.wrapping_add(rng.below(reach) / unit * unit),
            length: rng.below(reach) / unit * unit,
            kind: some_kind(rng),
        })
        .collect()
}

/// Whole entries of any bytes, some of them usable.
fn garbage(rng: &mut Rng, count: usize) -> Vec<u8> {
    let mut bytes = rng.bytes(count * REPORT_ENTRY_LEN);
    for entry in bytes.chunks_mut(REPORT_ENTRY_LEN) {
        if rng.one_in(2) {
            entry[16..].copy_from_slice(&USABLE.to_le_bytes());
        }
    }
    bytes
}

fn of_wrong_length(rng: &mut Rng, near: &Near) -> Vec<u8> {
    let most = REPORT_ENTRIES * REPORT_ENTRY_LEN;
    match rng.below(5) {
        0 => bytes(&some_entries(rng, near, REPORT_ENTRIES + 1)),
        1 => {
            let count = REPORT_ENTRIES + 1 + rng.index(200);
            bytes(&some_entries(rng, near, count))
        }
        2 | 3 => {
            // Whole entries and part of one.
            let count = some_count(rng).min(REPORT_ENTRIES - 1);
            let part = match rng.below(3) {
                0 => 1,
                1 => REPORT_ENTRY_LEN - 1,
                _ => 1 + rng.index(REPORT_ENTRY_LEN - 1),
            };
            let mut report = bytes(&some_entries(rng, near, count + 1));
            report.truncate(count * REPORT_ENTRY_LEN + part);
            report
        }
        _ => {
            let len = rng.pick(&[1, 19, 21, most - 1, most + 1, most + 19, 2 * most + 1]);
            rng.bytes(len)
        }
    }
}

//! An E820 report: entries of 20 bytes.

use crate::record::{read_u32, read_u64};

const ENTRY: usize = 20;
const MOST: usize = 128;
/// The kind that is added.
pub const USABLE: u32 = 1;
/// Memory is trimmed by this at the end of an intake.
pub const PAGE: u64 = 4096;

pub struct Entry {
    pub base: u64,
    pub size: u64,
    pub kind: u32,
}

/// The entries of a report in turn; none if its length is wrong.
pub fn entries(report: &[u8]) -> Option<impl Iterator<Item = Entry> + '_> {
    if !report.len().is_multiple_of(ENTRY) || report.len() > MOST * ENTRY {
        return None;
    }
    Some(report.chunks_exact(ENTRY).map(|bytes| Entry {
        base: read_u64(bytes, 0),
        size: read_u64(bytes, 8),
        kind: read_u32(bytes, 16),
    }))
}

//! The free pages of a good block, cut into pieces of a power of two.

use crate::block::Block;
use crate::record::{write_u32, write_u64};
use crate::search::{self, Wanted};
use crate::{ANY_NODE, WISH_HOTPLUG};

const PAGE: u64 = 4096;
const LARGEST_ORDER: u32 = 10;
const LARGEST: u64 = 1 << LARGEST_ORDER;
const PIECE: usize = 12;
/// One more than the number of the last page.
const PAGES: u64 = 1 << 52;

/// Writes the pieces that begin at or above a page, as many as fit; tells how many, and
/// where the next one begins.
pub fn hand_over<B: AsRef<[u8]>>(block: &Block<B>, from: u64, buffer: &mut [u8]) -> (u64, u64) {
    if from >= PAGES {
        return (0, PAGES);
    }
    // No piece lies across a multiple of the largest size, so what is below the last one
    // has no say.
    let start = from / LARGEST * LARGEST * PAGE;
    let every = Wanted::new(ANY_NODE, WISH_HOTPLUG);
    let mut room = buffer.chunks_exact_mut(PIECE);
    let mut count = 0;
    let full = search::lowest(block, start, u64::MAX, every, |low, end| {
        let mut page = low.div_ceil(PAGE);
        let last = end / PAGE;
        while page < last {
            let order = LARGEST_ORDER
                .min(page.trailing_zeros())
                .min((last - page).ilog2());
            if page >= from {
                let Some(bytes) = room.next() else {
                    return Some(page);
                };
                write_u64(bytes, 0, page);
                write_u32(bytes, 8, order);
                count += 1;
            }
            page += 1 << order;
        }
        None
    });
    (count, full.map_or(PAGES, |(page, _)| page))
}

// The functions of an archive. This text is compiled three times: for the archive that is measured, and by build.rs under other names for an earlier one,
// as it is and without flag and wish, which the functions take since request E6; without the image end, the tree, the pair and the pages, where the earlier
// one has no function for it.

use crate::sides::{Block, Call, Side, Slip, LENGTH};

#[rustfmt::skip]
extern "C" {
    fn memblock_fresh(block: *mut u8, len: usize) -> u32;
    fn memblock_set(block: *mut u8, len: usize, limit: u64, direction: u32) -> u32;
    fn memblock_set_image_end(block: *mut u8, len: usize, end: u64) -> u32;
    fn memblock_add(block: *mut u8, len: usize, base: u64, size: u64, flags: u32, node: u32) -> u32;
    fn memblock_remove(block: *mut u8, len: usize, base: u64, size: u64) -> u32;
    fn memblock_mark(block: *mut u8, len: usize, base: u64, size: u64, flag: u32) -> u32;
    fn memblock_unmark(block: *mut u8, len: usize, base: u64, size: u64, flag: u32) -> u32;
    fn memblock_reserve(block: *mut u8, len: usize, base: u64, size: u64) -> u32;
    fn memblock_free(block: *mut u8, len: usize, base: u64, size: u64) -> u32;
    fn memblock_trim(block: *mut u8, len: usize, alignment: u64) -> u32;
    fn memblock_next_free(block: *const u8, len: usize, from: u64, node: u32, wish: u32,
        slip: *mut u8, slip_len: usize) -> u32;
    fn memblock_find(block: *const u8, len: usize, size: u64, alignment: u64, start: u64, end: u64,
        node: u32, wish: u32, slip: *mut u8, slip_len: usize) -> u32;
    fn memblock_allocate(block: *mut u8, len: usize, size: u64, alignment: u64, start: u64, end: u64,
        node: u32, wish: u32, slip: *mut u8, slip_len: usize) -> u32;
    fn memblock_pages(block: *const u8, len: usize, from: u64, buffer: *mut u8, buffer_len: usize, slip: *mut u8, slip_len: usize) -> u32;
    fn memblock_intake_e820(block: *mut u8, len: usize, report: *const u8, report_len: usize) -> u32;
    fn memblock_intake_tree(block: *mut u8, len: usize, board: *const u8, board_len: usize) -> u32;
    fn memblock_intake_trees(block: *mut u8, len: usize, board: *const u8, board_len: usize, service: *const u8, service_len: usize) -> u32;
    fn memblock_lookup(service: *const u8, service_len: usize, board: *const u8, board_len: usize,
        path: *const u8, path_len: usize, name: *const u8, name_len: usize, slip: *mut u8, slip_len: usize) -> u32;
}

pub struct Library;

impl Side for Library {
    const NAME: &'static str = "library";
    const TREES: bool = true;
    const PAIRS: bool = true;
    const PAGES: bool = true;

    fn pages(block: &Block, from: u64, buffer: &mut [u8], slip: &mut Slip) -> u32 {
        let (b, n) = (block.0.as_ptr(), LENGTH);
        let (p, room) = (buffer.as_mut_ptr(), buffer.len());
        let (s, m) = (slip.as_mut_ptr(), slip.len());
        // Buffer and slip are whole, writable and apart; the block is only read.
        unsafe { memblock_pages(b, n, from, p, room, s, m) }
    }

    fn call(call: Call, block: &mut Block, slip: &mut Slip) -> u32 {
        let (b, n) = (block.0.as_mut_ptr(), LENGTH);
        let (s, m) = (slip.as_mut_ptr(), slip.len());
        // Block and slip are whole, writable and apart: they are two `&mut`. The
        // report, the trees, path and name are only read.
        unsafe {
            match call {
                Call::Fresh => memblock_fresh(b, n),
                Call::Set(limit, direction) => memblock_set(b, n, limit, direction),
                Call::SetImageEnd(end) => memblock_set_image_end(b, n, end),
                Call::Add(base, size, flags, node) => memblock_add(b, n, base, size, flags, node),
                Call::Remove(base, size) => memblock_remove(b, n, base, size),
                Call::Mark(base, size, flag) => memblock_mark(b, n, base, size, flag),
                Call::Unmark(base, size, flag) => memblock_unmark(b, n, base, size, flag),
                Call::Reserve(base, size) => memblock_reserve(b, n, base, size),
                Call::Free(base, size) => memblock_free(b, n, base, size),
                Call::Trim(alignment) => memblock_trim(b, n, alignment),
                Call::NextFree(from, node, wish) => {
                    memblock_next_free(b, n, from, node, wish, s, m)
                }
                Call::Find(size, alignment, start, end, node, wish) => {
                    memblock_find(b, n, size, alignment, start, end, node, wish, s, m)
                }
                Call::Allocate(size, alignment, start, end, node, wish) => {
                    memblock_allocate(b, n, size, alignment, start, end, node, wish, s, m)
                }
                Call::Intake(report) => memblock_intake_e820(b, n, report.as_ptr(), report.len()),
                Call::IntakeTree(board) => memblock_intake_tree(b, n, board.as_ptr(), board.len()),
                Call::IntakeTrees(board, service) => memblock_intake_trees(
                    b,
                    n,
                    board.as_ptr(),
                    board.len(),
                    service.as_ptr(),
                    service.len(),
                ),
                Call::Lookup(service, board, path, name) => memblock_lookup(
                    service.as_ptr(),
                    service.len(),
                    board.as_ptr(),
                    board.len(),
                    path.as_ptr(),
                    path.len(),
                    name.as_ptr(),
                    name.len(),
                    s,
                    m,
                ),
            }
        }
    }
}

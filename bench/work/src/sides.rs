//! The programs that are measured, under one set of names.

use crate::library::Library;

pub use straight::LENGTH;
pub use straight::{ANY_NODE, HOTPLUG, MIRROR, NO_MAP};
/// A wish for nothing in particular.
pub const NO_WISH: u32 = 0;
pub const TOP_DOWN: u32 = 0;
pub const BOTTOM_UP: u32 = 1;
/// A piece's bytes, and one more than the number of the last page.
pub const PIECE: usize = 12;
pub const PAGES: u64 = 1 << 52;

/// A block's bytes, at the start of a cache line.
#[derive(Clone, PartialEq, Eq)]
#[repr(align(64))]
pub struct Block(pub [u8; LENGTH]);

impl Block {
    pub fn fresh() -> Block {
        let mut block = Block([0; LENGTH]);
        assert_eq!(straight::fresh(&mut block.0), 0);
        block
    }
}

/// What find, allocate, next free, a lookup and a call for pages write.
pub type Slip = [u8; 16];

#[derive(Clone, Copy, Debug)]
pub enum Call<'a> {
    Fresh,
    Set(u64, u32),
    SetImageEnd(u64),
    Add(u64, u64, u32, u32),
    Remove(u64, u64),
    /// Base, size, flag.
    Mark(u64, u64, u32),
    Unmark(u64, u64, u32),
    Reserve(u64, u64),
    Free(u64, u64),
    Trim(u64),
    /// From, node, wish.
    NextFree(u64, u32, u32),
    /// Size, alignment, start, end, node, wish.
    Find(u64, u64, u64, u64, u32, u32),
    Allocate(u64, u64, u64, u64, u32, u32),
    /// The report's bytes.
    Intake(&'a [u8]),
    /// The tree's bytes.
    IntakeTree(&'a [u8]),
    /// Board, service.
    IntakeTrees(&'a [u8], &'a [u8]),
    /// Service, board, path, name.
    Lookup(&'a [u8], &'a [u8], &'a [u8], &'a [u8]),
}

/// The 20 bytes of an entry of an E820 report.
pub fn entry(base: u64, size: u64, kind: u32) -> [u8; 20] {
    let mut bytes = [0; 20];
    bytes[..8].copy_from_slice(&base.to_le_bytes());
    bytes[8..16].copy_from_slice(&size.to_le_bytes());
    bytes[16..].copy_from_slice(&kind.to_le_bytes());
    bytes
}

pub trait Side {
    const NAME: &'static str;
    /// Whether there is a function for trees, those for pairs of them, and one for pages.
    const TREES: bool;
    const PAIRS: bool;
    const PAGES: bool;

    /// The free pages from a page on, as pieces in the buffer.
    fn pages(block: &Block, from: u64, buffer: &mut [u8], slip: &mut Slip) -> u32;

    fn call(call: Call, block: &mut Block, slip: &mut Slip) -> u32;
}

pub struct Straight;

impl Side for Straight {
    const NAME: &'static str = "straightforward";
    const TREES: bool = true;
    const PAIRS: bool = true;
    const PAGES: bool = true;

    fn pages(block: &Block, from: u64, buffer: &mut [u8], slip: &mut Slip) -> u32 {
        straight::pages(&block.0, from, buffer, slip)
    }

    fn call(call: Call, block: &mut Block, slip: &mut Slip) -> u32 {
        let b = &mut block.0;
        match call {
            Call::Fresh => straight::fresh(b),
            Call::Set(limit, direction) => straight::set(b, limit, direction),
            Call::SetImageEnd(end) => straight::set_image_end(b, end),
            Call::Add(base, size, flags, node) => straight::add(b, base, size, flags, node),
            Call::Remove(base, size) => straight::remove(b, base, size),
            Call::Mark(base, size, flag) => straight::mark(b, base, size, flag),
            Call::Unmark(base, size, flag) => straight::unmark(b, base, size, flag),
            Call::Reserve(base, size) => straight::reserve(b, base, size),
            Call::Free(base, size) => straight::free(b, base, size),
            Call::Trim(alignment) => straight::trim(b, alignment),
            Call::NextFree(from, node, wish) => straight::next_free(b, from, node, wish, slip),
            Call::Find(size, alignment, start, end, node, wish) => {
                straight::find(b, size, alignment, start, end, node, wish, slip)
            }
            Call::Allocate(size, alignment, start, end, node, wish) => {
                straight::allocate(b, size, alignment, start, end, node, wish, slip)
            }
            Call::Intake(report) => straight::intake_e820(b, report),
            Call::IntakeTree(board) => straight::intake_tree(b, board),
            Call::IntakeTrees(board, service) => straight::intake_trees(b, board, service),
            Call::Lookup(service, board, path, name) => {
                straight::lookup(service, board, path, name, slip)
            }
        }
    }
}

/// Makes one call of the library and of another side, from the same block, and
/// fails unless number, block and slip end equal. Gives the number; the block is
/// as the call left it.
pub fn call_both<Other: Side>(call: Call, block: &mut Block) -> u32 {
    let mut other = block.clone();
    let (mut slip, mut other_slip) = ([0xa5; 16], [0xa5; 16]);
    let number = Library::call(call, block, &mut slip);
    let other_number = Other::call(call, &mut other, &mut other_slip);
    assert_eq!(number, other_number, "numbers differ: {call:?}");
    assert_eq!(slip, other_slip, "slips differ: {call:?}");
    assert!(*block == other, "blocks differ: {call:?}");
    number
}

/// The same of a call for pages, with a buffer of so many bytes, which end equal too. Gives
/// the number, the slip and the buffer; the block stays.
pub fn pages_both<Other: Side>(block: &Block, from: u64, room: usize) -> (u32, Slip, Vec<u8>) {
    let before = block.clone();
    let (mut slip, mut other_slip) = ([0xa5; 16], [0xa5; 16]);
    let mut buffer = vec![0xa5; room + 8];
    let mut other_buffer = buffer.clone();
    let number = Library::pages(block, from, &mut buffer[..room], &mut slip);
    let other_number = Other::pages(block, from, &mut other_buffer[..room], &mut other_slip);
    let call = || format!("pages from {from} into {room} bytes");
    assert_eq!(number, other_number, "numbers differ: {}", call());
    assert_eq!(slip, other_slip, "slips differ: {}", call());
    assert!(buffer == other_buffer, "buffers differ: {}", call());
    assert!(*block == before, "a block was written: {}", call());
    buffer.truncate(room);
    (number, slip, buffer)
}

/// The u64 at a place.
pub fn number(bytes: &[u8], at: usize) -> u64 {
    u64::from_le_bytes(bytes[at..at + 8].try_into().expect("8 bytes"))
}

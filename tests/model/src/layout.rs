//! Every number of document 01 and the requests that a later one may change, in
//! one place.

/// One past the last address there is. All sums are done in `u128`.
pub const SPACE: u128 = 1 << 64;
/// Table ranges are cut here, so the last address is never in a table.
pub const TOP: u128 = SPACE - 1;

pub const BODIES: u32 = 2;

/// Where one table's entry and records stand in the block.
#[derive(Clone, Copy, Debug)]
pub struct Body {
    pub kind: u32,
    pub entry: usize,
    pub offset: usize,
    pub capacity: usize,
    pub total_at: usize,
}

pub const RECORD_LEN: usize = 24;

/// The parts of a block that differ from edition to edition.
#[derive(Clone, Copy, Debug)]
pub struct Layout {
    pub edition: u32,
    pub memory: Body,
    pub taken: Body,
}

impl Layout {
    /// An edition with this much room for memory records and for taken ones.
    const fn new(edition: u32, memory: usize, taken: usize) -> Layout {
        let memory = Body {
            kind: 1,
            entry: 8,
            offset: 80,
            capacity: memory,
            total_at: 56,
        };
        let taken = Body {
            kind: 2,
            entry: 24,
            offset: memory.offset + memory.capacity * RECORD_LEN,
            capacity: taken,
            total_at: 64,
        };
        Layout {
            edition,
            memory,
            taken,
        }
    }

    /// The bytes of a block.
    pub const fn length(&self) -> usize {
        self.taken.offset + self.taken.capacity * RECORD_LEN
    }
}

/// Document 01's block, which only convert reads; it has zero in the place of the
/// image end.
pub const EDITION_1: Layout = Layout::new(1, 128, 128);
/// The flags of an edition 1 block's memory records, whatever later requests
/// allow in others.
pub const EDITION_1_FLAGS: [u32; 2] = [0, NO_MAP];

/// The block of all commands, since request E4.
pub const CURRENT: Layout = Layout::new(2, 128, 512);
pub const EDITION: u32 = CURRENT.edition;
pub const MEMORY: Body = CURRENT.memory;
pub const TAKEN: Body = CURRENT.taken;
pub const BLOCK_LEN: usize = CURRENT.length();

pub const LIMIT_AT: usize = 40;
pub const DIRECTION_AT: usize = 48;
pub const ZERO_WORD_AT: usize = 52;
/// The image end, since request E7.
pub const IMAGE_END_AT: usize = 72;

pub const SLIP_LEN: usize = 16;

/// The limit of a fresh block.
pub const FRESH_LIMIT: u64 = u64::MAX;
/// The image end where there is no image: of a fresh block, and of a converted one.
pub const NO_IMAGE: u64 = 0;

/// The flags of memory, since request E6; a word of flags is a sum of them, each
/// once at most.
pub const HOTPLUG: u32 = 1;
pub const MIRROR: u32 = 2;
pub const NO_MAP: u32 = 4;
/// The most that a word of flags can be.
pub const FLAGS: u32 = HOTPLUG + MIRROR + NO_MAP;
/// Nodes run from 0 to one below this.
pub const NODES: u32 = 64;
/// The node that means any node in a search.
pub const ANY_NODE: u32 = u32::MAX;

/// The wish word of a search, since request E6: this allows hotplug memory,
pub const WISH_HOTPLUG: u32 = 1;
/// and this demands mirror memory.
pub const WISH_MIRROR: u32 = 2;
/// Both, and the most that a wish can be.
pub const WISH_BOTH: u32 = WISH_HOTPLUG + WISH_MIRROR;

/// No search begins below this address.
pub const LOWEST_START: u128 = 4096;

/// An E820 report: entries of u64 base, u64 length, u32 kind, little-endian.
pub const REPORT_ENTRY_LEN: usize = 20;
/// The most entries of a report.
pub const REPORT_ENTRIES: usize = 128;
/// The kind of entry that is added; all other numbers are passed over.
pub const USABLE: u32 = 1;
/// Memory is trimmed by this at the end of an intake.
pub const INTAKE_STEP: u64 = 4096;

/// The free pages, since request E14: a page's addresses,
pub const PAGE_LEN: u128 = 4096;
/// the pages there are,
pub const PAGES: u128 = SPACE / PAGE_LEN;
/// the largest order of a piece, which is 2^order pages,
pub const LARGEST_ORDER: u32 = 10;
/// and a piece's bytes: u64 page, u32 order, little-endian.
pub const PIECE_LEN: usize = 12;

/// The most lines of a placement plan, since request E12.
pub const PLAN_LINES: usize = 64;

/// A flattened tree, since request E8: big-endian words.
pub mod tree {
    pub const WORD_LEN: usize = 4;
    pub const HEADER_LEN: usize = 40;
    pub const MAGIC: usize = 0xD00D_FEED;
    pub const VERSION: usize = 17;
    pub const COMPATIBLE: usize = 16;

    /// Where the header's other words stand that matter.
    pub const TOTAL_SIZE_AT: usize = 4;
    pub const STRUCTURE_AT: usize = 8;
    pub const STRINGS_AT: usize = 12;
    pub const LIST_AT: usize = 16;
    pub const VERSION_AT: usize = 20;
    pub const COMPATIBLE_AT: usize = 24;
    pub const STRINGS_LENGTH_AT: usize = 32;
    pub const STRUCTURE_LENGTH_AT: usize = 36;

    /// The reservation list: pairs of u64.
    pub const PAIR_LEN: usize = 16;
    pub const LIST_ALIGNMENT: usize = 8;

    /// The tokens of the structure block.
    pub const BEGIN: usize = 1;
    pub const END: usize = 2;
    pub const PROPERTY: usize = 3;
    pub const NOP: usize = 4;
    pub const STOP: usize = 9;

    /// The deepest level of a node, the root's being 1.
    pub const DEPTH: i64 = 16;

    /// Names of properties.
    pub const ADDRESS_CELLS: &[u8] = b"#address-cells";
    pub const SIZE_CELLS: &[u8] = b"#size-cells";
    pub const DEVICE_TYPE: &[u8] = b"device_type";
    pub const REG: &[u8] = b"reg";
    pub const NODE_ID: &[u8] = b"numa-node-id";
    pub const NO_MAP_NAME: &[u8] = b"no-map";
    /// The `device_type` of memory.
    pub const MEMORY_TYPE: &[u8] = b"memory\0";
    /// The name of a node whose children are reserved or marked.
    pub const RESERVED_MEMORY: &[u8] = b"reserved-memory";

    /// What the root's cells may be, and what they are when absent.
    pub const CELLS: std::ops::RangeInclusive<u32> = 1..=2;
    pub const DEFAULT_ADDRESS_CELLS: u32 = 2;
    pub const DEFAULT_SIZE_CELLS: u32 = 1;
    pub const LAST_NODE: u32 = super::NODES - 1;
}

/// The numbers the boot code gets back.
pub mod number {
    pub const DONE: u32 = 0;
    pub const NOT_GOOD: u32 = 1;
    pub const BAD_TAG: u32 = 2;
    pub const BAD_ALIGNMENT: u32 = 3;
    pub const SIZE_ZERO: u32 = 4;
    pub const NO_ADDRESS: u32 = 5;
    pub const TABLE_FULL: u32 = 6;
    pub const BAD_DIRECTION: u32 = 7;
    pub const BAD_SLIP: u32 = 8;
    pub const BAD_REPORT: u32 = 10;
    pub const BAD_TREE: u32 = 11;
    pub const NOT_TAKEN: u32 = 12;
    pub const BAD_PLAN: u32 = 13;
    pub const LONG_PLAN: u32 = 14;

    /// What a lookup answers.
    pub const IN_NEITHER: u32 = 0;
    pub const IN_SERVICE: u32 = 1;
    pub const IN_BOARD: u32 = 2;
}

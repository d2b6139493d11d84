//! A record of a table and its 24 bytes.

pub const RECORD: usize = 24;
pub const HOTPLUG: u32 = 1;
pub const MIRROR: u32 = 2;
pub const NO_MAP: u32 = 4;
/// All flags together.
const FLAGS: u32 = HOTPLUG | MIRROR | NO_MAP;
pub const LAST_NODE: u32 = 63;

#[derive(Clone, Copy, PartialEq, Eq)]
pub struct Tag {
    pub flags: u32,
    pub node: u32,
}

/// The only tag of the taken table.
pub const PLAIN: Tag = Tag { flags: 0, node: 0 };

impl Tag {
    pub fn is_legal(self) -> bool {
        self.flags <= FLAGS && self.node <= LAST_NODE
    }
}

#[derive(Clone, Copy)]
pub struct Record {
    pub base: u64,
    pub size: u64,
    pub tag: Tag,
}

impl Record {
    pub fn read(bytes: &[u8]) -> Record {
        Record {
            base: read_u64(bytes, 0),
            size: read_u64(bytes, 8),
            tag: Tag {
                flags: read_u32(bytes, 16),
                node: read_u32(bytes, 20),
            },
        }
    }

    pub fn write(&self, bytes: &mut [u8]) {
        write_u64(bytes, 0, self.base);
        write_u64(bytes, 8, self.size);
        write_u32(bytes, 16, self.tag.flags);
        write_u32(bytes, 20, self.tag.node);
    }

    /// The end of a record of a good block.
    pub fn end(&self) -> u64 {
        self.base + self.size
    }

    /// Base rounded up, end rounded down; none if nothing is left.
    pub fn trim(&self, alignment: u64) -> Option<Record> {
        let base = self.base.checked_next_multiple_of(alignment)?;
        let end = self.end() & !(alignment - 1);
        (base < end).then(|| Record {
            base,
            size: end - base,
            tag: self.tag,
        })
    }
}

pub fn read_u32(bytes: &[u8], at: usize) -> u32 {
    u32::from_le_bytes(bytes[at..at + 4].try_into().expect("four bytes"))
}

pub fn read_u64(bytes: &[u8], at: usize) -> u64 {
    u64::from_le_bytes(bytes[at..at + 8].try_into().expect("eight bytes"))
}

pub fn write_u32(bytes: &mut [u8], at: usize, value: u32) {
    bytes[at..at + 4].copy_from_slice(&value.to_le_bytes());
}

pub fn write_u64(bytes: &mut [u8], at: usize, value: u64) {
    bytes[at..at + 8].copy_from_slice(&value.to_le_bytes());
}

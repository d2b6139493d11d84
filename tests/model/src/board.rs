//! What a block means, and the one way to write a meaning down.

use crate::layout::*;
use crate::line::Line;

/// One flag of memory.
#[derive(Clone, Copy, Debug, PartialEq, Eq)]
pub enum Flag {
    Hotplug,
    Mirror,
    NoMap,
}

impl Flag {
    /// The one flag that a word names.
    pub fn named(word: u32) -> Option<Flag> {
        match word {
            HOTPLUG => Some(Flag::Hotplug),
            MIRROR => Some(Flag::Mirror),
            NO_MAP => Some(Flag::NoMap),
            _ => None,
        }
    }
}

#[derive(Clone, Copy, Debug, PartialEq, Eq)]
pub struct Tag {
    pub hotplug: bool,
    pub mirror: bool,
    pub no_map: bool,
    pub node: u32,
}

impl Tag {
    /// The tag without flags, of a node that is legal.
    pub const fn plain(node: u32) -> Tag {
        Tag {
            hotplug: false,
            mirror: false,
            no_map: false,
            node,
        }
    }

    /// The tag that flags and a node say, if both are legal.
    pub fn legal(flags: u32, node: u32) -> Option<Tag> {
        let mut tag = Tag::plain(node);
        // Each flag once at most: what is then left over is none.
        let mut left = flags;
        for word in [NO_MAP, MIRROR, HOTPLUG] {
            if left >= word {
                left -= word;
                tag = tag.with(Flag::named(word)?, true);
            }
        }
        (left == 0 && node < NODES).then_some(tag)
    }

    /// The tag with one flag set or cleared, the others as they are.
    pub fn with(mut self, flag: Flag, set: bool) -> Tag {
        match flag {
            Flag::Hotplug => self.hotplug = set,
            Flag::Mirror => self.mirror = set,
            Flag::NoMap => self.no_map = set,
        }
        self
    }

    /// Flags and node as a record has them.
    pub fn words(self) -> (u32, u32) {
        let flags = [
            (self.hotplug, HOTPLUG),
            (self.mirror, MIRROR),
            (self.no_map, NO_MAP),
        ];
        let sum = flags.iter().filter(|flag| flag.0).map(|flag| flag.1).sum();
        (sum, self.node)
    }
}

/// What a search's wish word says.
#[derive(Clone, Copy, Debug, PartialEq, Eq)]
pub struct Wish {
    pub allows_hotplug: bool,
    pub demands_mirror: bool,
}

impl Wish {
    pub fn named(word: u32) -> Option<Wish> {
        let (allows_hotplug, demands_mirror) = match word {
            0 => (false, false),
            WISH_HOTPLUG => (true, false),
            WISH_MIRROR => (false, true),
            WISH_BOTH => (true, true),
            _ => return None,
        };
        Some(Wish {
            allows_hotplug,
            demands_mirror,
        })
    }

    /// Whether memory of the tag may be given.
    pub fn grants(self, tag: Tag) -> bool {
        let refused = tag.hotplug && !self.allows_hotplug || !tag.mirror && self.demands_mirror;
        !refused
    }
}

#[derive(Clone, Copy, Debug, PartialEq, Eq)]
pub enum Direction {
    TopDown,
    BottomUp,
}

impl Direction {
    pub fn named(word: u32) -> Option<Direction> {
        match word {
            0 => Some(Direction::TopDown),
            1 => Some(Direction::BottomUp),
            _ => None,
        }
    }

    fn word(self) -> u32 {
        match self {
            Direction::TopDown => 0,
            Direction::BottomUp => 1,
        }
    }
}

/// The meaning of a block: a state for each address in each table.
#[derive(Clone, Debug, PartialEq, Eq)]
pub struct Board {
    /// The tag of each address present.
    pub memory: Line<Option<Tag>>,
    pub taken: Line<bool>,
    pub limit: u64,
    pub direction: Direction,
    pub image_end: u64,
}

/// A longest range of untaken memory, not no-map, of one tag.
#[derive(Clone, Copy, Debug, PartialEq, Eq)]
pub struct Run {
    pub lo: u128,
    pub hi: u128,
    pub tag: Tag,
}

/// The addresses a base and a size cover in a table, after the cut at the top.
pub fn covered(base: u64, size: u64) -> (u128, u128) {
    let lo = u128::from(base);
    (lo, (lo + u128::from(size)).min(TOP))
}

pub(crate) fn word(bytes: &[u8], at: usize) -> u32 {
    u32::from_le_bytes(bytes[at..at + 4].try_into().expect("4 bytes"))
}

pub(crate) fn long(bytes: &[u8], at: usize) -> u64 {
    u64::from_le_bytes(bytes[at..at + 8].try_into().expect("8 bytes"))
}

fn put(bytes: &mut [u8], at: usize, value: &[u8]) {
    bytes[at..at + value.len()].copy_from_slice(value);
}

impl Board {
    pub fn fresh() -> Board {
        Board {
            memory: Line::all(None),
            taken: Line::all(false),
            limit: FRESH_LIMIT,
            direction: Direction::TopDown,
            image_end: NO_IMAGE,
        }
    }

    /// The meaning of a good block, `None` for any other bytes.
    ///
    /// What is written is always a good block, so bytes are good exactly when
    /// the meaning read from them is written as the same bytes again.
    pub fn read(block: &[u8]) -> Option<Board> {
        Board::read_as(&CURRENT, block)
    }

    /// The same of an edition 1 block, by document 01: what later requests let a
    /// good block say does not count. Flags are 0 or 4, and there is no image end.
    pub fn read_edition_1(old: &[u8]) -> Option<Board> {
        let board = Board::read_as(&EDITION_1, old)?;
        let flags = |record: (u64, u64, u32, u32)| EDITION_1_FLAGS.contains(&record.2);
        let by_document_01 =
            records(old, &EDITION_1.memory)?.all(flags) && board.image_end == NO_IMAGE;
        by_document_01.then_some(board)
    }

    fn read_as(layout: &Layout, block: &[u8]) -> Option<Board> {
        if block.len() != layout.length() {
            return None;
        }
        let mut tags = Vec::new();
        for (base, size, flags, node) in records(block, &layout.memory)? {
            let (lo, hi) = covered(base, size);
            tags.push((lo, hi, Some(Tag::legal(flags, node)?)));
        }
        let taken = records(block, &layout.taken)?.map(|(base, size, _, _)| {
            let (lo, hi) = covered(base, size);
            (lo, hi, true)
        });
        let board = Board {
            memory: Line::drawn(None, tags.into_iter())?,
            taken: Line::drawn(false, taken)?,
            limit: long(block, LIMIT_AT),
            direction: Direction::named(word(block, DIRECTION_AT))?,
            image_end: long(block, IMAGE_END_AT),
        };
        (board.write_as(layout).ok()? == block).then_some(board)
    }

    /// The one good block that says this, or the number for a table too long.
    pub fn write(&self) -> Result<Vec<u8>, u32> {
        self.write_as(&CURRENT)
    }

    /// Whether both tables have room for what is said, or the number.
    pub fn fits(&self) -> Result<(), u32> {
        let present = self.memory.stretches().filter(|s| s.2.is_some()).count();
        let taken = self.taken.stretches().filter(|s| s.2).count();
        if present > MEMORY.capacity || taken > TAKEN.capacity {
            return Err(number::TABLE_FULL);
        }
        Ok(())
    }

    fn write_as(&self, layout: &Layout) -> Result<Vec<u8>, u32> {
        let mut block = vec![0; layout.length()];
        put(&mut block, 0, &layout.edition.to_le_bytes());
        put(&mut block, 4, &BODIES.to_le_bytes());
        put(&mut block, LIMIT_AT, &self.limit.to_le_bytes());
        put(
            &mut block,
            DIRECTION_AT,
            &self.direction.word().to_le_bytes(),
        );
        put(&mut block, IMAGE_END_AT, &self.image_end.to_le_bytes());
        let memory = self
            .memory
            .stretches()
            .filter_map(|(lo, hi, tag)| Some((lo, hi, tag?.words())));
        write_table(&mut block, &layout.memory, memory)?;
        let taken = self
            .taken
            .stretches()
            .filter_map(|(lo, hi, taken)| taken.then_some((lo, hi, (0, 0))));
        write_table(&mut block, &layout.taken, taken)?;
        Ok(block)
    }

    /// All free runs, in rising order.
    pub fn free_runs(&self) -> Vec<Run> {
        self.memory
            .join(&self.taken, |tag, taken| {
                tag.filter(|tag| !taken && !tag.no_map)
            })
            .stretches()
            .filter_map(|(lo, hi, tag)| tag.map(|tag| Run { lo, hi, tag }))
            .collect()
    }
}

/// The records a table's count names, as lent; `None` if they cannot be there.
fn records<'a>(
    block: &'a [u8],
    body: &'a Body,
) -> Option<impl Iterator<Item = (u64, u64, u32, u32)> + 'a> {
    let count = word(block, body.entry + 8) as usize;
    (count <= body.capacity).then(|| {
        (0..count).map(|i| {
            let at = body.offset + i * RECORD_LEN;
            (
                long(block, at),
                long(block, at + 8),
                word(block, at + 16),
                word(block, at + 20),
            )
        })
    })
}

fn write_table(
    block: &mut [u8],
    body: &Body,
    stretches: impl Iterator<Item = (u128, u128, (u32, u32))>,
) -> Result<(), u32> {
    let mut count = 0;
    let mut total = 0;
    for (lo, hi, (flags, node)) in stretches {
        if count == body.capacity {
            return Err(number::TABLE_FULL);
        }
        let at = body.offset + count * RECORD_LEN;
        put(block, at, &narrow(lo).to_le_bytes());
        put(block, at + 8, &narrow(hi - lo).to_le_bytes());
        put(block, at + 16, &flags.to_le_bytes());
        put(block, at + 20, &node.to_le_bytes());
        count += 1;
        total += hi - lo;
    }
    put(block, body.entry, &body.kind.to_le_bytes());
    put(block, body.entry + 4, &(body.offset as u32).to_le_bytes());
    put(block, body.entry + 8, &(count as u32).to_le_bytes());
    put(
        block,
        body.entry + 12,
        &(body.capacity as u32).to_le_bytes(),
    );
    put(block, body.total_at, &narrow(total).to_le_bytes());
    Ok(())
}

/// A number that is known to fit 64 bits.
pub(crate) fn narrow(x: u128) -> u64 {
    u64::try_from(x).expect("below 2^64")
}

//! A tree's tokens and where its parts lie, and the bytes of these.

use crate::node::{Node, Tree};
use crate::rng::Rng;

/// Where the header's words stand.
pub const TOTAL_SIZE_AT: usize = 4;
pub const STRUCTURE_AT: usize = 8;
pub const STRINGS_AT: usize = 12;
pub const LIST_AT: usize = 16;
pub const VERSION_AT: usize = 20;
pub const COMPATIBLE_AT: usize = 24;
pub const PROCESSOR_AT: usize = 28;
pub const STRINGS_LENGTH_AT: usize = 32;
pub const STRUCTURE_LENGTH_AT: usize = 36;
pub const HEADER_LEN: usize = 40;

pub const MAGIC: u32 = 0xD00D_FEED;
pub const VERSION: u32 = 17;
pub const COMPATIBLE: u32 = 16;

pub const BEGIN: u32 = 1;
pub const END: u32 = 2;
pub const PROPERTY: u32 = 3;
pub const NOP: u32 = 4;
pub const STOP: u32 = 9;

#[derive(Clone, Debug, PartialEq, Eq)]
pub enum Piece {
    /// The name without its zero.
    Begin(Vec<u8>),
    End,
    /// Where the name begins in the strings block, and the value.
    Property(u32, Vec<u8>),
    Nop,
    Stop,
    /// Bytes as they are, without padding.
    Raw(Vec<u8>),
}

#[derive(Clone, Copy, Debug, PartialEq, Eq)]
pub enum Part {
    List,
    Structure,
    Strings,
}

#[derive(Clone, Debug)]
pub struct Sketch {
    pub pieces: Vec<Piece>,
    pub strings: Vec<u8>,
    pub list: Vec<(u64, u64)>,
    /// Whether the list gets its end.
    pub ended: bool,
    /// In which order the parts lie, with so many bytes before each besides those that
    /// align it.
    pub order: [Part; 3],
    pub gaps: [usize; 3],
    /// Bytes by which the list and the structure block miss their alignment.
    pub off: [usize; 2],
    /// Bytes behind the last part, inside the total size.
    pub behind: usize,
    /// Bytes that are lent past the total size.
    pub beyond: usize,
    /// Padding and gaps, else zeros.
    pub noise: Option<Rng>,
}

pub fn get(bytes: &[u8], at: usize) -> u32 {
    u32::from_be_bytes(bytes[at..at + 4].try_into().expect("4 bytes"))
}

pub fn put(bytes: &mut [u8], at: usize, x: u32) {
    bytes[at..at + 4].copy_from_slice(&x.to_be_bytes());
}

impl Sketch {
    /// The tree's tokens, each property name once in the strings block.
    pub fn of(tree: &Tree) -> Sketch {
        let mut sketch = Sketch {
            pieces: Vec::new(),
            strings: Vec::new(),
            list: tree.list.clone(),
            ended: true,
            order: [Part::List, Part::Structure, Part::Strings],
            gaps: [0; 3],
            off: [0; 2],
            behind: 0,
            beyond: 0,
            noise: None,
        };
        sketch.spell(&tree.root);
        sketch.pieces.push(Piece::Stop);
        sketch
    }

    fn spell(&mut self, node: &Node) {
        self.pieces.push(Piece::Begin(node.name.clone()));
        for (name, value) in &node.properties {
            let at = self.name(name);
            self.pieces.push(Piece::Property(at, value.clone()));
        }
        for child in &node.children {
            self.spell(child);
        }
        self.pieces.push(Piece::End);
    }

    /// Where a name stands in the strings block, be it as the end of another; it is put
    /// there if it does not.
    pub fn name(&mut self, name: &[u8]) -> u32 {
        let ended = [name, &[0]].concat();
        let found = self.strings.windows(ended.len()).position(|w| w == ended);
        found.map_or_else(|| self.new_name(name), |at| at as u32)
    }

    /// A copy of a name, at the end of the strings block.
    pub fn new_name(&mut self, name: &[u8]) -> u32 {
        let at = self.strings.len() as u32;
        self.strings.extend(name);
        self.strings.push(0);
        at
    }

    fn noisy(noise: &mut Option<Rng>, len: usize) -> Vec<u8> {
        match noise {
            Some(rng) => rng.bytes(len),
            None => vec![0; len],
        }
    }

    /// The structure block.
    pub fn structure(&self) -> Vec<u8> {
        let mut noise = self.noise.clone();
        let mut bytes = Vec::new();
        for piece in &self.pieces {
            match piece {
                Piece::Begin(name) => {
                    bytes.extend(BEGIN.to_be_bytes());
                    bytes.extend(name);
                    bytes.push(0);
                }
                Piece::End => bytes.extend(END.to_be_bytes()),
                Piece::Property(at, value) => {
                    bytes.extend(PROPERTY.to_be_bytes());
                    bytes.extend((value.len() as u32).to_be_bytes());
                    bytes.extend(at.to_be_bytes());
                    bytes.extend(value);
                }
                Piece::Nop => bytes.extend(NOP.to_be_bytes()),
                Piece::Stop => bytes.extend(STOP.to_be_bytes()),
                Piece::Raw(raw) => {
                    bytes.extend(raw);
                    continue;
                }
            }
            let padding = bytes.len().wrapping_neg() % 4;
            bytes.extend(Sketch::noisy(&mut noise, padding));
        }
        bytes
    }

    pub fn bytes(&self) -> Vec<u8> {
        let mut noise = self.noise.clone();
        let structure = self.structure();
        let mut list = Vec::new();
        let end = self.ended.then_some((0, 0));
        for (base, size) in self.list.iter().copied().chain(end) {
            list.extend(base.to_be_bytes());
            list.extend(size.to_be_bytes());
        }
        let mut bytes = vec![0; HEADER_LEN];
        for (part, gap) in self.order.into_iter().zip(self.gaps) {
            let (content, alignment, off, at_word) = match part {
                Part::List => (&list, 8, self.off[0], LIST_AT),
                Part::Structure => (&structure, 4, self.off[1], STRUCTURE_AT),
                Part::Strings => (&self.strings, 1, 0, STRINGS_AT),
            };
            let at = (bytes.len() + gap).next_multiple_of(alignment) + off;
            let gap = at - bytes.len();
            bytes.extend(Sketch::noisy(&mut noise, gap));
            bytes.extend(content);
            put(&mut bytes, at_word, at as u32);
        }
        bytes.extend(Sketch::noisy(&mut noise, self.behind));
        let total = bytes.len() as u32;
        bytes.extend(Sketch::noisy(&mut noise, self.beyond));
        for (at, x) in [
            (0, MAGIC),
            (TOTAL_SIZE_AT, total),
            (VERSION_AT, VERSION),
            (COMPATIBLE_AT, COMPATIBLE),
            (STRINGS_LENGTH_AT, self.strings.len() as u32),
            (STRUCTURE_LENGTH_AT, structure.len() as u32),
        ] {
            put(&mut bytes, at, x);
        }
        if let Some(rng) = &mut noise {
            let processor = rng.next() as u32;
            put(&mut bytes, PROCESSOR_AT, processor);
        }
        bytes
    }

    /// Where a piece may be put that is no part of a node: before the end token.
    pub fn somewhere(&self, rng: &mut Rng) -> usize {
        let stop = self.pieces.iter().position(|piece| *piece == Piece::Stop);
        rng.index(stop.unwrap_or(self.pieces.len()) + 1)
    }
}

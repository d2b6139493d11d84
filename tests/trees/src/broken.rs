//! Trees with one thing wrong, so that they must not be read.

use crate::node::{reg, word, Node, Tree, DEPTH};
use crate::random::{bytes, chain, Quirk};
use crate::rng::Rng;
use crate::sketch::*;

/// A way of breaking a tree that is read.
#[derive(Clone, Copy, Debug, PartialEq, Eq, PartialOrd, Ord)]
pub enum Break {
    ShortLent,
    ShortTotal,
    Magic,
    Version,
    Compatible,
    ListUnended,
    ListOff,
    ListOutside,
    ListCutByTotal,
    ListCutByLent,
    StructureOff,
    StructureCutByTotal,
    StructureCutByLent,
    StructureFar,
    StringsCutByTotal,
    StringsCutByLent,
    StringsFar,
    NoBlock,
    NoRoot,
    SecondRoot,
    NodeOpen,
    EndMore,
    NoStop,
    StopInside,
    AfterStop,
    NopAfterStop,
    RaggedEnd,
    PropertyBeforeRoot,
    PropertyAfterRoot,
    PropertyAfterChild,
    BadToken,
    Deep,
    NodeNameRuns,
    PropertyCut,
    ValueRuns,
    ValueWraps,
    NameRuns,
    NameOutside,
    AddressCells,
    SizeCells,
    AddressCellsLength,
    SizeCellsLength,
    MemoryReg,
    ReservedReg,
    NoMapReg,
    NodeId,
    NodeIdLength,
    NodeIdWithoutReg,
}

use Break::*;

impl Break {
    pub const ALL: [Break; 48] = [
        ShortLent,
        ShortTotal,
        Magic,
        Version,
        Compatible,
        ListUnended,
        ListOff,
        ListOutside,
        ListCutByTotal,
        ListCutByLent,
        StructureOff,
        StructureCutByTotal,
        StructureCutByLent,
        StructureFar,
        StringsCutByTotal,
        StringsCutByLent,
        StringsFar,
        NoBlock,
        NoRoot,
        SecondRoot,
        NodeOpen,
        EndMore,
        NoStop,
        StopInside,
        AfterStop,
        NopAfterStop,
        RaggedEnd,
        PropertyBeforeRoot,
        PropertyAfterRoot,
        PropertyAfterChild,
        BadToken,
        Deep,
        NodeNameRuns,
        PropertyCut,
        ValueRuns,
        ValueWraps,
        NameRuns,
        NameOutside,
        AddressCells,
        SizeCells,
        AddressCellsLength,
        SizeCellsLength,
        MemoryReg,
        ReservedReg,
        NoMapReg,
        NodeId,
        NodeIdLength,
        NodeIdWithoutReg,
    ];

    /// The bytes of a tree that is read, so broken.
    pub fn done_to(self, rng: &mut Rng, tree: &Tree) -> Vec<u8> {
        let mut tree = tree.clone();
        if self.is_of_the_tree() {
            self.on_tree(rng, &mut tree);
            let quirks: Vec<Quirk> = [Quirk::Nops, Quirk::Padding, Quirk::Order]
                .into_iter()
                .filter(|_| rng.one_in(2))
                .collect();
            return bytes(rng, &tree, &quirks);
        }
        let mut sketch = Sketch::of(&tree);
        if rng.one_in(2) {
            sketch.noise = Some(Rng::new(rng.next(), "noise", 0));
        }
        if rng.one_in(3) {
            for _ in 0..1 + rng.below(4) {
                let at = sketch.somewhere(rng);
                sketch.pieces.insert(at, Piece::Nop);
            }
        }
        self.on_sketch(rng, &mut sketch);
        let mut bytes = sketch.bytes();
        self.on_bytes(rng, &mut bytes);
        bytes
    }

    /// Whether it breaks the form, and not a value alone.
    pub fn is_of_the_form(self) -> bool {
        self < AddressCells
    }

    fn is_of_the_tree(self) -> bool {
        self == Deep || self >= AddressCells
    }

    /// Wrong values, and levels.
    fn on_tree(self, rng: &mut Rng, tree: &mut Tree) {
        // A service tree's may be any.
        let cells = tree.cells().unwrap_or((2, 1));
        let entry = 4 * (cells.0 + cells.1) as usize;
        let ragged = |rng: &mut Rng| {
            let part = match rng.below(3) {
                0 => 4 * (1 + rng.index(entry / 4 - 1)),
                _ => 1 + rng.index(entry - 1),
            };
            let len = entry * rng.index(3) + part;
            rng.bytes(len)
        };
        let good = reg(cells, &[(0x1000, 0x1000)]);
        // The first of the name is wrong; one behind it may be right.
        let wrong = |rng: &mut Rng, node: Node, name: &str, wrong: Vec<u8>, right: Vec<u8>| {
            let node = node.with(name, wrong);
            match rng.below(3) {
                0 => node.with(name, right),
                _ => node,
            }
        };
        let child = match self {
            Deep => {
                let levels = DEPTH + rng.index(3);
                let mut node = chain(levels);
                if rng.one_in(2) {
                    node.name = b"reserved-memory".to_vec();
                }
                node
            }
            AddressCells | SizeCells | AddressCellsLength | SizeCellsLength => {
                let name = match self {
                    AddressCells | AddressCellsLength => "#address-cells",
                    _ => "#size-cells",
                };
                let value = match self {
                    AddressCells | SizeCells => {
                        let any = rng.next() as u32 | 4;
                        word(rng.pick(&[0, 0, 3, 3, 4, 1 << 8, 1 << 24, 2 << 24, any]))
                    }
                    _ => rng
                        .pick(&[
                            &b""[..],
                            b"\x01",
                            b"\0\x01",
                            b"\0\0\x01",
                            b"\0\0\0\x01\0",
                            b"\0\0\0\x02\0\0",
                            b"\0\0\0\0\0\0\0\x01",
                            b"\0\0\0\x02\0\0\0\x02",
                        ])
                        .to_vec(),
                };
                let right = word(1 + rng.below(2) as u32);
                let root = &mut tree.root;
                root.properties.retain(|p| p.0 != name.as_bytes());
                let at = rng.index(root.properties.len() + 1);
                root.properties.insert(at, (name.into(), value));
                if rng.one_in(3) {
                    root.properties.push((name.into(), right));
                }
                if rng.one_in(3) {
                    // Nothing that the cells are needed for.
                    root.children.clear();
                }
                return;
            }
            MemoryReg => {
                let node = Node::new("memory").with("device_type", "memory\0");
                let value = ragged(rng);
                wrong(rng, node, "reg", value, good)
            }
            ReservedReg | NoMapReg => {
                let value = ragged(rng);
                let mut node = wrong(rng, Node::new("buffer"), "reg", value, good);
                if self == NoMapReg {
                    node = node.with("no-map", []);
                    rng.shuffle(&mut node.properties[1..]);
                }
                let mut parent = Node::new("reserved-memory");
                if rng.one_in(2) {
                    parent = parent.holding(Node::new("").with("reg", reg(cells, &[(0, 1)])));
                }
                parent.holding(node)
            }
            NodeId | NodeIdLength | NodeIdWithoutReg => {
                let by_length = self == NodeIdLength || self == NodeIdWithoutReg && rng.one_in(2);
                let value = if by_length {
                    rng.pick(&[
                        &b""[..],
                        b"\0",
                        b"\0\0\0",
                        b"\0\0\0\0\0",
                        b"\0\0\0\x01\0",
                        b"\0\0\0\0\0\0\0\x01",
                        b"\0\0\0\x01\0\0\0\x01",
                    ])
                    .to_vec()
                } else {
                    word(rng.pick(&[64, 64, 64, 64, 65, 128, 256, 1 << 24, u32::MAX]))
                };
                let node = Node::new("memory").with("device_type", "memory\0");
                let mut node = wrong(rng, node, "numa-node-id", value, word(1));
                if self != NodeIdWithoutReg {
                    node = node.with("reg", good);
                }
                node
            }
            _ => unreachable!("{self:?} is not of the tree"),
        };
        let at = rng.index(tree.root.children.len() + 1);
        tree.root.children.insert(at, child);
    }

    /// Wrong tokens, and parts laid so that they can be cut.
    fn on_sketch(self, rng: &mut Rng, sketch: &mut Sketch) {
        let last = |sketch: &mut Sketch, part: Part| {
            let mut order = vec![Part::List, Part::Structure, Part::Strings];
            order.retain(|&other| other != part);
            order.push(part);
            sketch.order = order.try_into().expect("three parts");
            sketch.behind = 0;
        };
        let stop = sketch.pieces.len() - 1;
        // Nodes that may have one below them.
        let mut level = 0;
        let mut begins = Vec::new();
        for (i, piece) in sketch.pieces.iter().enumerate() {
            match piece {
                Piece::Begin(_) => {
                    level += 1;
                    if level < DEPTH {
                        begins.push(i);
                    }
                }
                Piece::End => level -= 1,
                _ => {}
            }
        }
        let after_begin = rng.pick(&begins) + 1;
        match self {
            ListUnended => {
                last(sketch, Part::List);
                sketch.ended = false;
                sketch.behind = rng.index(16);
                sketch.beyond = rng.pick(&[0, 0, 16, 40]);
                if rng.one_in(2) {
                    // Zeros behind it, but outside.
                    sketch.noise = None;
                }
            }
            ListOff => sketch.off[0] = rng.pick(&[4, 4, 4, 4, 1, 2, 3, 5, 6, 7]),
            ListCutByTotal | ListCutByLent => last(sketch, Part::List),
            StructureOff => sketch.off[1] = 1 + rng.index(3),
            StructureCutByTotal | StructureCutByLent => last(sketch, Part::Structure),
            StringsCutByTotal | StringsCutByLent => {
                // What is cut off is no property's name.
                last(sketch, Part::Strings);
                sketch.strings.extend(b"unused\0");
            }
            NoRoot => {
                sketch.pieces = vec![Piece::Stop];
                if rng.one_in(2) {
                    sketch.pieces.insert(0, Piece::Nop);
                }
            }
            SecondRoot => {
                let mut more = vec![Piece::Begin(Vec::new()), Piece::End];
                if rng.one_in(2) {
                    more = sketch.pieces[..stop].to_vec();
                    more.retain(|piece| *piece != Piece::Nop);
                }
                sketch.pieces.splice(stop..stop, more);
            }
            NodeOpen => {
                let ends: Vec<usize> = (0..stop)
                    .filter(|&i| sketch.pieces[i] == Piece::End)
                    .collect();
                sketch.pieces.remove(rng.pick(&ends));
            }
            EndMore => {
                let at = match rng.below(2) {
                    0 => stop,
                    _ => sketch.somewhere(rng),
                };
                sketch.pieces.insert(at, Piece::End);
            }
            NoStop => {
                sketch.pieces.pop();
            }
            StopInside => sketch.pieces.insert(after_begin, Piece::Stop),
            AfterStop => {
                let more = match rng.below(4) {
                    0 => vec![Piece::Stop],
                    1 => vec![Piece::Begin(Vec::new()), Piece::End, Piece::Stop],
                    2 => vec![Piece::Raw(vec![0; 4])],
                    _ => vec![Piece::Raw(rng.bytes(8))],
                };
                sketch.pieces.extend(more);
            }
            NopAfterStop => sketch.pieces.push(Piece::Nop),
            RaggedEnd => {
                let len = 1 + rng.index(3);
                sketch.pieces.push(Piece::Raw(vec![0; len]));
            }
            PropertyBeforeRoot | PropertyAfterRoot | PropertyAfterChild => {
                let name = rng.pick(&["reg", "compatible", "no-map", "device_type"]);
                let at = sketch.name(name.as_bytes());
                let property = Piece::Property(at, b"memory\0".to_vec());
                let place = match self {
                    PropertyBeforeRoot => 0,
                    PropertyAfterRoot => stop,
                    _ => {
                        // A node with a child, in whatever node that is.
                        let child = [Piece::Begin(b"child".to_vec()), Piece::End];
                        let mut place = after_begin;
                        while matches!(
                            sketch.pieces[place],
                            Piece::Property(..) | Piece::Nop | Piece::Raw(_)
                        ) {
                            place += 1;
                        }
                        sketch.pieces.splice(place..place, child);
                        place + 2
                    }
                };
                sketch.pieces.insert(place, property);
            }
            BadToken => {
                let any = rng.next() as u32 | 16;
                let word: u32 = rng.pick(&[0, 0, 5, 6, 7, 8, 10, 1 << 24, 4 << 24, 9 << 24, any]);
                let at = sketch.somewhere(rng);
                let raw = Piece::Raw(word.to_be_bytes().to_vec());
                sketch.pieces.insert(at, raw);
            }
            NodeNameRuns => {
                let mut raw = BEGIN.to_be_bytes().to_vec();
                let len = rng.index(9);
                raw.extend(vec![b'x'; len]);
                sketch.pieces.truncate(after_begin);
                sketch.pieces.push(Piece::Raw(raw));
            }
            PropertyCut => {
                let mut raw = PROPERTY.to_be_bytes().to_vec();
                let len = rng.index(8);
                raw.extend(vec![0; len]);
                sketch.pieces.truncate(after_begin);
                sketch.pieces.push(Piece::Raw(raw));
            }
            ValueRuns | ValueWraps => {
                // At the front of a node; what stood behind it is its value, and more.
                let whole = sketch.structure().len();
                let mut front = sketch.clone();
                front.pieces.truncate(after_begin);
                let behind = (whole - front.structure().len()) as u32;
                let length = match self {
                    ValueWraps => u32::MAX - rng.below(3) as u32,
                    _ => behind + rng.pick(&[1, 1, 2, 4, 5, 0x1000, 1 << 31]),
                };
                let name = sketch.name(b"compatible");
                let words = [PROPERTY, length, name];
                let raw = words.iter().flat_map(|w| w.to_be_bytes()).collect();
                sketch.pieces.insert(after_begin, Piece::Raw(raw));
            }
            NameRuns | NameOutside => {
                // A zero stands behind the strings block, where it does not count.
                last(sketch, Part::Strings);
                sketch.behind = 8;
                sketch.noise = None;
                let mut at = sketch.strings.len() as u32;
                if self == NameRuns {
                    let name = rng.pick(&[&b"compatible"[..], b"reg", b"x", b"device_type"]);
                    sketch.strings.extend(name);
                } else {
                    at = rng.pick(&[at, at, at + 1, at + 7, at + 100, 1 << 31, u32::MAX]);
                }
                let value = rng.pick(&[&b""[..], b"memory\0"]).to_vec();
                let mut place = after_begin;
                if rng.one_in(3) {
                    // In a node below those that matter, the last of the root's.
                    let nodes = vec![Piece::Begin(b"n".to_vec()); 3];
                    let ends = vec![Piece::End; 3];
                    let end = sketch.pieces.iter().rposition(|p| *p == Piece::End);
                    place = end.expect("the root ends") + nodes.len();
                    let chain = nodes.into_iter().chain(ends);
                    sketch.pieces.splice(place - 3..place - 3, chain);
                }
                sketch.pieces.insert(place, Piece::Property(at, value));
            }
            _ => {}
        }
    }

    /// Wrong words of the header, and cuts.
    fn on_bytes(self, rng: &mut Rng, bytes: &mut Vec<u8>) {
        let total = get(bytes, TOTAL_SIZE_AT);
        let len = bytes.len();
        match self {
            ShortLent => {
                let len = rng.pick(&[0, 1, 4, 39, 39, rng.clone().index(HEADER_LEN)]);
                bytes.truncate(len);
            }
            ShortTotal => {
                let total = rng.pick(&[0, 1, 4, 39, 39, rng.clone().below(40) as u32]);
                put(bytes, TOTAL_SIZE_AT, total);
            }
            Magic => {
                let flip = 1 << rng.below(32);
                let magic = rng.pick(&[
                    MAGIC.swap_bytes(),
                    0,
                    u32::MAX,
                    MAGIC ^ 1,
                    MAGIC ^ flip,
                    0xD00D_FEEC,
                ]);
                put(bytes, 0, magic);
            }
            Version => {
                let any = rng.next() as u32 | 32;
                put(bytes, VERSION_AT, rng.pick(&[0, 1, 3, 16, 16, 18, 18, any]));
            }
            Compatible => {
                let any = rng.next() as u32 | 32;
                let compatible = rng.pick(&[0, 1, 2, 15, 15, 17, 17, 18, any]);
                put(bytes, COMPATIBLE_AT, compatible);
            }
            ListOutside => {
                let limit = total.next_multiple_of(8);
                let at = rng.pick(&[limit, limit, limit + 8, limit + 64, 1 << 31, u32::MAX - 7]);
                put(bytes, LIST_AT, at);
            }
            ListCutByTotal => put(bytes, TOTAL_SIZE_AT, total - 1 - rng.below(16) as u32),
            ListCutByLent => bytes.truncate(len - 1 - rng.index(16)),
            StructureCutByTotal => put(bytes, TOTAL_SIZE_AT, total - 1 - rng.below(4) as u32),
            StructureCutByLent => bytes.truncate(len - 1 - rng.index(4)),
            StringsCutByTotal => put(bytes, TOTAL_SIZE_AT, total - 1 - rng.below(7) as u32),
            StringsCutByLent => bytes.truncate(len - 1 - rng.index(7)),
            StructureFar | StringsFar => {
                let (at_word, length_word) = match self {
                    StructureFar => (STRUCTURE_AT, STRUCTURE_LENGTH_AT),
                    _ => (STRINGS_AT, STRINGS_LENGTH_AT),
                };
                let (at, length) = (get(bytes, at_word), get(bytes, length_word));
                let (at, length) = match rng.below(5) {
                    // A sum that comes round in 32 bits.
                    0 => (u32::MAX - 3, length + at + 4),
                    1 => (at, u32::MAX - 3),
                    2 => (1 << 31, 1 << 31),
                    3 => (total.next_multiple_of(4), length.max(4)),
                    _ => (at, total - at + 4),
                };
                put(bytes, at_word, at);
                put(bytes, length_word, length);
            }
            NoBlock => put(bytes, STRUCTURE_LENGTH_AT, 0),
            _ => {}
        }
    }
}

/// Bytes with something changed in them, be it what it may.
pub fn damaged(rng: &mut Rng, mut bytes: Vec<u8>) -> Vec<u8> {
    for _ in 0..1 + rng.below(3) {
        if bytes.len() < HEADER_LEN {
            return bytes;
        }
        let len = bytes.len();
        let near = rng.below(len as u64 + 8) as u32;
        let word = rng.pick(&[0, 1, 2, 3, 4, 9, 16, 17, near, len as u32, u32::MAX]);
        let structure = get(&bytes, STRUCTURE_AT) as usize;
        let words = len / 4;
        match rng.below(8) {
            0 => bytes[rng.index(len)] ^= 1 << rng.below(8),
            1 => bytes[rng.index(len)] = rng.pick(&[0, 0, 1, 2, 3, 4, 9, 255]),
            2 => put(&mut bytes, 4 * rng.index(HEADER_LEN / 4), word),
            3 | 4 => put(&mut bytes, 4 * rng.index(words), word),
            5 => bytes.truncate(rng.index(len + 1)),
            // A word more or less in the structure block, which knows it.
            _ if structure < len => {
                let at = (structure + 4 * rng.index((len - structure) / 4 + 1)).min(len);
                let more = rng.one_in(2) || at + 4 > len;
                for field in [STRUCTURE_LENGTH_AT, TOTAL_SIZE_AT] {
                    let old = get(&bytes, field);
                    let by = if more { 4 } else { 4u32.wrapping_neg() };
                    put(&mut bytes, field, old.wrapping_add(by));
                }
                if more {
                    bytes.splice(at..at, word.to_be_bytes());
                } else {
                    bytes.drain(at..at + 4);
                }
            }
            _ => {}
        }
    }
    bytes
}

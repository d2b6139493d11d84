//! Random trees that a reader must read, each with a few things that it could stumble on.

use crate::node::{reg, word, Node, Tree, DEPTH};
use crate::rng::Rng;
use crate::sketch::*;

/// Gives a base and a size.
pub type Ranges<'a> = &'a mut dyn FnMut(&mut Rng) -> (u64, u64);

/// What a tree may have without being any worse.
#[derive(Clone, Copy, Debug, PartialEq, Eq)]
pub enum Quirk {
    /// Nodes of level 16.
    Deep,
    /// A second property of one name that would say something else.
    EqualNames,
    TwoReserved,
    /// A `reserved-memory@0`, or another name that is none.
    UnitAddress,
    /// A `device_type` that is not quite memory's, with memory's behind it, or none.
    NotMemory,
    /// Memory one level too deep.
    DeeperMemory,
    /// Reserved one level too deep.
    DeeperReserved,
    /// A /reserved-memory with `reg`, `no-map` and cells of its own.
    OwnReg,
    /// A /reserved-memory that is memory too.
    BothKinds,
    NoMapValue,
    /// A `reg` without bytes, or none.
    EmptyReg,
    NoReg,
    /// Cells, node ids and ranges of any lengths where nobody looks.
    UnusedValues,
    Node63,
    /// Pairs of the list with one zero.
    ListSizeZero,
    ListBaseZero,
    /// As many ranges as a table has records, or one more.
    ManyAdds,
    ManyReserves,
    ManyMarks,
    /// A mark of memory that the tree itself adds.
    MarkOfOwn,
    /// Ranges at 0 and at 2^64.
    Edges,
    OddNames,
    Nops,
    Padding,
    /// Parts in another order, with bytes between them.
    Order,
    /// A strings block that covers the structure block.
    Overlap,
    TotalAboveLent,
    LentAboveTotal,
    /// A name twice in the strings block.
    Copies,
    /// Bytes at the end of the strings block that no zero ends.
    OpenStrings,
}

use Quirk::*;

impl Quirk {
    pub const ALL: [Quirk; 30] = [
        Deep,
        EqualNames,
        TwoReserved,
        UnitAddress,
        NotMemory,
        DeeperMemory,
        DeeperReserved,
        OwnReg,
        BothKinds,
        NoMapValue,
        EmptyReg,
        NoReg,
        UnusedValues,
        Node63,
        ListSizeZero,
        ListBaseZero,
        ManyAdds,
        ManyReserves,
        ManyMarks,
        MarkOfOwn,
        Edges,
        OddNames,
        Nops,
        Padding,
        Order,
        Overlap,
        TotalAboveLent,
        LentAboveTotal,
        Copies,
        OpenStrings,
    ];

    /// Done to most trees, as most trees have it.
    fn common(self) -> bool {
        matches!(self, Nops | Padding | Order | EqualNames)
    }

    /// Makes a tree large, and a call of it slow.
    fn large(self) -> bool {
        matches!(self, ManyAdds | ManyReserves | ManyMarks)
    }
}

/// A tree, its bytes, and what was done to it.
#[derive(Clone, Debug)]
pub struct Made {
    pub tree: Tree,
    pub bytes: Vec<u8>,
    pub quirks: Vec<Quirk>,
}

/// A tree with a few quirks.
pub fn some(rng: &mut Rng, ranges: Ranges) -> Made {
    let quirks: Vec<Quirk> = Quirk::ALL
        .into_iter()
        .filter(|quirk| match quirk {
            _ if quirk.common() => rng.one_in(2),
            _ if quirk.large() => rng.one_in(60),
            _ => rng.one_in(16),
        })
        .collect();
    with(rng, ranges, &quirks)
}

/// A tree with these quirks.
pub fn with(rng: &mut Rng, ranges: Ranges, quirks: &[Quirk]) -> Made {
    let mut tree = plain(rng, ranges);
    for &quirk in quirks {
        tree_quirk(rng, ranges, &mut tree, quirk);
    }
    let bytes = bytes(rng, &tree, quirks);
    Made {
        tree,
        bytes,
        quirks: quirks.to_vec(),
    }
}

/// The bytes of a tree, with those quirks that are not the tree's own.
pub fn bytes(rng: &mut Rng, tree: &Tree, quirks: &[Quirk]) -> Vec<u8> {
    let mut sketch = Sketch::of(tree);
    for &quirk in quirks {
        sketch_quirk(rng, &mut sketch, quirk);
    }
    // Last, as it counts the bytes of the structure block.
    let covered = quirks.contains(&Overlap).then(|| cover(&mut sketch));
    let mut bytes = sketch.bytes();
    if let Some(covered) = covered {
        let (at, length) = (get(&bytes, STRINGS_AT), get(&bytes, STRINGS_LENGTH_AT));
        put(&mut bytes, STRINGS_AT, at - covered);
        put(&mut bytes, STRINGS_LENGTH_AT, length + covered);
    }
    if quirks.contains(&TotalAboveLent) {
        let total = get(&bytes, TOTAL_SIZE_AT);
        let more = rng.pick(&[1, 2, 4, 0x1000, u32::MAX - total]);
        put(&mut bytes, TOTAL_SIZE_AT, total + more);
    }
    bytes
}

/// A tree as boards have it, small.
fn plain(rng: &mut Rng, ranges: Ranges) -> Tree {
    let mut tree = Tree {
        list: Vec::new(),
        root: Node::new(match rng.below(8) {
            0 => rng.pick(&["/", "board"]),
            _ => "",
        }),
    };
    for name in ["#address-cells", "#size-cells"] {
        if !rng.one_in(4) {
            let cells = 1 + rng.below(2) as u32;
            tree.root.properties.push((name.into(), word(cells)));
        }
    }
    fillers(rng, &mut tree.root);
    rng.shuffle(&mut tree.root.properties);
    let cells = cells(&tree);
    for _ in 0..rng.below(3) {
        let pair = ranges(rng);
        tree.list.push(pair);
    }
    tree.list.retain(|&pair| pair != (0, 0));
    for _ in 0..rng.pick(&[0, 1, 1, 2, 2, 3, 4]) {
        let child = match rng.below(8) {
            0..=3 => memory(rng, ranges, cells),
            4 | 5 => reserved(rng, ranges, cells),
            _ => other(rng, 3),
        };
        tree.root.children.push(child);
    }
    tree
}

pub fn cells(tree: &Tree) -> (u32, u32) {
    tree.cells().expect("random trees have cells of 1 or 2")
}

fn some_ranges(rng: &mut Rng, ranges: Ranges) -> Vec<(u64, u64)> {
    let count = rng.pick(&[1, 1, 1, 1, 2, 2, 3, 8]);
    (0..count).map(|_| ranges(rng)).collect()
}

/// A memory node with its properties in any order.
pub fn memory(rng: &mut Rng, ranges: Ranges, cells: (u32, u32)) -> Node {
    let value = reg(cells, &some_ranges(rng, ranges));
    let mut node = Node::memory(rng.pick(&["memory", "memory@0", "ram", ""]), value);
    if rng.one_in(2) {
        let id = rng.pick(&[0, 1, 1, 2, 63]);
        node.properties.push(("numa-node-id".into(), word(id)));
    }
    fillers(rng, &mut node);
    rng.shuffle(&mut node.properties);
    if rng.one_in(6) {
        node.children.push(other(rng, 2));
    }
    node
}

/// A /reserved-memory with its children.
pub fn reserved(rng: &mut Rng, ranges: Ranges, cells: (u32, u32)) -> Node {
    let mut node = Node::new("reserved-memory");
    if rng.one_in(2) {
        node = node
            .with("#address-cells", word(cells.0))
            .with("#size-cells", word(cells.1))
            .with("ranges", []);
    }
    for _ in 0..rng.below(4) {
        let child = reserved_child(rng, ranges, cells);
        node.children.push(child);
    }
    node
}

pub fn reserved_child(rng: &mut Rng, ranges: Ranges, cells: (u32, u32)) -> Node {
    let value = reg(cells, &some_ranges(rng, ranges));
    let mut node = Node::new(rng.pick(&["buffer", "buffer@1000", "", "no-map"])).with("reg", value);
    if rng.one_in(2) {
        node.properties.push(("no-map".into(), Vec::new()));
    }
    fillers(rng, &mut node);
    rng.shuffle(&mut node.properties);
    node
}

/// Properties that nobody looks at, some of nearly a name that matters.
fn fillers(rng: &mut Rng, node: &mut Node) {
    for _ in 0..rng.below(3) {
        let name = rng.pick(&[
            "compatible",
            "model",
            "status",
            "phandle",
            "regs",
            "re",
            "reg-names",
            "#address-cell",
            "#size-cells1",
            "device_typ",
            "device_types",
            "numa-node-ids",
            "no-maps",
            "no-ma",
            "",
            "x",
        ]);
        let len = rng.pick(&[0, 1, 2, 3, 4, 5, 8, 13]);
        let value = rng.bytes(len);
        node.properties.push((name.into(), value));
    }
}

/// A node that nobody looks at, with some below it.
fn other(rng: &mut Rng, levels: u64) -> Node {
    let mut node = Node::new(rng.pick(&["cpus", "cpu@0", "soc", "memory", "chosen", "aliases"]));
    fillers(rng, &mut node);
    if levels > 1 {
        for _ in 0..rng.below(3) {
            let child = other(rng, levels - 1);
            node.children.push(child);
        }
    }
    node
}

/// So many nodes one in the other.
pub fn chain(levels: usize) -> Node {
    let mut node = Node::new("n");
    for _ in 1..levels {
        node = Node::new("n").holding(node);
    }
    node
}

fn insert(rng: &mut Rng, list: &mut Vec<Node>, node: Node) {
    let at = rng.index(list.len() + 1);
    list.insert(at, node);
}

/// The numbers of those children of the root that are memory; one is made if there is
/// none.
fn memories(rng: &mut Rng, ranges: Ranges, tree: &mut Tree) -> Vec<usize> {
    let is_memory =
        |node: &Node| node.first("device_type").map(|v| &v[..]) == Some(&b"memory\0"[..]);
    if !tree.root.children.iter().any(is_memory) {
        let node = memory(rng, ranges, cells(tree));
        insert(rng, &mut tree.root.children, node);
    }
    let numbers = 0..tree.root.children.len();
    numbers
        .filter(|&i| is_memory(&tree.root.children[i]))
        .collect()
}

/// The same of those that are /reserved-memory and have a child.
fn reserveds(rng: &mut Rng, ranges: Ranges, tree: &mut Tree) -> Vec<usize> {
    let has_child = |node: &Node| node.name == b"reserved-memory" && !node.children.is_empty();
    if !tree.root.children.iter().any(has_child) {
        let cells = cells(tree);
        let child = reserved_child(rng, ranges, cells);
        let node = Node::new("reserved-memory").holding(child);
        insert(rng, &mut tree.root.children, node);
    }
    let numbers = 0..tree.root.children.len();
    numbers
        .filter(|&i| has_child(&tree.root.children[i]))
        .collect()
}

/// A node of the tree's own that is memory, or one below /reserved-memory.
fn some_used<'a>(rng: &mut Rng, ranges: Ranges, tree: &'a mut Tree) -> &'a mut Node {
    if rng.one_in(2) {
        let i = memories(rng, ranges, tree);
        tree.at(&[rng.pick(&i)])
    } else {
        let i = reserveds(rng, ranges, tree);
        let i = rng.pick(&i);
        let k = rng.index(tree.root.children[i].children.len());
        tree.at(&[i, k])
    }
}

/// Ranges that do not touch, above all others.
fn comb(rng: &mut Rng, cells: (u32, u32), count: usize) -> Vec<(u64, u64)> {
    let from = match cells.0 {
        1 => 0x8000_0000,
        _ => rng.pick(&[0x8000_0000, 1 << 40, u64::MAX - 0x400_0000]),
    };
    let step = rng.pick(&[2, 0x2000]);
    (0..count as u64)
        .map(|i| (from + step * i, step / 2))
        .collect()
}

fn tree_quirk(rng: &mut Rng, ranges: Ranges, tree: &mut Tree, quirk: Quirk) {
    let cells = cells(tree);
    match quirk {
        Deep => {
            // Under the root, or under the first child, to the same level.
            if rng.one_in(2) || tree.root.children.is_empty() {
                insert(rng, &mut tree.root.children, chain(DEPTH - 1));
            } else {
                let i = rng.index(tree.root.children.len());
                insert(rng, &mut tree.at(&[i]).children, chain(DEPTH - 2));
            }
        }
        EqualNames => {
            let len = rng.pick(&[0, 3, 4, 5, 8, 16, 24]);
            let any = rng.bytes(len);
            let (node, name, value) = match rng.below(8) {
                0 | 1 => {
                    let name = rng.pick(&["#address-cells", "#size-cells"]);
                    let value = match rng.below(3) {
                        0 => any,
                        _ => word(rng.below(4) as u32),
                    };
                    (&mut tree.root, name, value)
                }
                2..=4 => {
                    let i = memories(rng, ranges, tree);
                    let name = rng.pick(&["device_type", "reg", "numa-node-id"]);
                    let value = match (name, rng.below(3)) {
                        (_, 0) => any,
                        ("device_type", 1) => b"cpu\0".to_vec(),
                        ("device_type", _) => b"memory\0".to_vec(),
                        ("reg", _) => reg(cells, &[ranges(rng)]),
                        _ => word(rng.below(70) as u32),
                    };
                    (tree.at(&[rng.pick(&i)]), name, value)
                }
                5 if !tree.root.children.is_empty() => {
                    let i = rng.index(tree.root.children.len());
                    let value = b"memory\0".to_vec();
                    (tree.at(&[i]), "device_type", value)
                }
                _ => {
                    let i = reserveds(rng, ranges, tree);
                    let i = rng.pick(&i);
                    let k = rng.index(tree.root.children[i].children.len());
                    let name = rng.pick(&["reg", "no-map"]);
                    let value = match name {
                        "reg" if rng.one_in(2) => reg(cells, &[ranges(rng)]),
                        _ => any,
                    };
                    (tree.at(&[i, k]), name, value)
                }
            };
            // Behind one of the name, else it would be the first.
            if let Some(first) = node.properties.iter().position(|p| p.0 == name.as_bytes()) {
                let at = first + 1 + rng.index(node.properties.len() - first);
                node.properties.insert(at, (name.into(), value));
            }
        }
        TwoReserved => {
            for _ in 0..2 {
                let mut node = reserved(rng, ranges, cells);
                let child = reserved_child(rng, ranges, cells);
                node.children.push(child);
                insert(rng, &mut tree.root.children, node);
            }
        }
        UnitAddress => {
            let mut node = reserved(rng, ranges, cells);
            let child = reserved_child(rng, ranges, cells);
            node.children.push(child);
            node.name = rng
                .pick(&[
                    "reserved-memory@0",
                    "reserved-memory@",
                    "reserved-memor",
                    "reserved-memoryx",
                    "Reserved-memory",
                    "reserved_memory",
                    "/reserved-memory",
                    "",
                ])
                .into();
            insert(rng, &mut tree.root.children, node);
        }
        NotMemory => {
            let mut node = memory(rng, ranges, cells);
            let value = rng.pick(&[
                &b"memory"[..],
                b"memory",
                b"memory",
                b"memory\0\0",
                b"memory\0x",
                b"memoryx\0",
                b"memor\0",
                b"Memory\0",
                b"cpu\0",
                b"\0",
                b"",
            ]);
            for property in &mut node.properties {
                if property.0 == b"device_type" {
                    property.1 = value.to_vec();
                }
            }
            match rng.below(4) {
                0 => node.properties.retain(|p| p.0 != b"device_type"),
                1 => node = node.with("device_type", "memory\0"),
                _ => {}
            }
            insert(rng, &mut tree.root.children, node);
        }
        DeeperMemory => {
            let mut node = memory(rng, ranges, cells);
            for _ in 0..1 + rng.below(3) {
                node = Node::new("soc").holding(node);
            }
            insert(rng, &mut tree.root.children, node);
        }
        DeeperReserved => {
            let i = reserveds(rng, ranges, tree);
            let i = rng.pick(&i);
            let mut node = reserved_child(rng, ranges, cells);
            if rng.one_in(3) {
                node = Node::new("reserved-memory").holding(node);
            }
            let k = rng.index(tree.root.children[i].children.len());
            insert(rng, &mut tree.at(&[i, k]).children, node);
            if rng.one_in(2) {
                let node = reserved(rng, ranges, cells);
                let deeper = Node::new("soc").holding(node);
                insert(rng, &mut tree.root.children, deeper);
            }
        }
        OwnReg => {
            let i = reserveds(rng, ranges, tree);
            let value = reg(cells, &[ranges(rng)]);
            let node = tree.at(&[rng.pick(&i)]);
            node.properties.push(("reg".into(), value));
            node.properties
                .push(("#address-cells".into(), word(3 - cells.0)));
            node.properties
                .push(("#size-cells".into(), word(3 - cells.1)));
            if rng.one_in(2) {
                node.properties.push(("no-map".into(), Vec::new()));
            }
        }
        BothKinds => {
            let mut node = reserved(rng, ranges, cells);
            let memory = memory(rng, ranges, cells);
            node.properties = memory.properties;
            insert(rng, &mut tree.root.children, node);
        }
        NoMapValue => {
            let i = reserveds(rng, ranges, tree);
            let i = rng.pick(&i);
            let k = rng.index(tree.root.children[i].children.len());
            let len = 1 + rng.index(8);
            let value = rng.bytes(len);
            let node = tree.at(&[i, k]);
            node.properties.retain(|p| p.0 != b"no-map");
            let at = rng.index(node.properties.len() + 1);
            node.properties.insert(at, ("no-map".into(), value));
        }
        EmptyReg | NoReg => {
            let node = some_used(rng, ranges, tree);
            node.properties.retain(|p| p.0 != b"reg");
            if quirk == EmptyReg {
                node.properties.push(("reg".into(), Vec::new()));
            }
        }
        UnusedValues => {
            let mut node = Node::new("cpus")
                .with("device_type", "cpu\0")
                .with("reg", rng.bytes(7))
                .with("numa-node-id", rng.bytes(8))
                .with("#address-cells", word(0))
                .with("#size-cells", []);
            if rng.one_in(2) {
                node = node.with("no-map", []);
            }
            insert(rng, &mut tree.root.children, node.clone());
            let root = &mut tree.root.properties;
            root.push(("reg".into(), vec![1; 5]));
            root.push(("numa-node-id".into(), word(64)));
            root.push(("device_type".into(), b"memory\0".to_vec()));
            let below = Node::new("soc").holding(node);
            insert(rng, &mut tree.root.children, below);
            let i = reserveds(rng, ranges, tree);
            let reserved = tree.at(&[rng.pick(&i)]);
            reserved.children[0]
                .properties
                .push(("numa-node-id".into(), word(64)));
        }
        Node63 => {
            let i = memories(rng, ranges, tree);
            let node = tree.at(&[rng.pick(&i)]);
            node.properties.retain(|p| p.0 != b"numa-node-id");
            let at = rng.index(node.properties.len() + 1);
            node.properties
                .insert(at, ("numa-node-id".into(), word(63)));
        }
        ListSizeZero | ListBaseZero => {
            let x = ranges(rng).0.max(1);
            let pair = if quirk == ListSizeZero {
                (x, 0)
            } else {
                (0, x)
            };
            let at = rng.index(tree.list.len() + 1);
            tree.list.insert(at, pair);
            let more = ranges(rng);
            if more != (0, 0) {
                tree.list.push(more);
            }
        }
        ManyAdds => {
            let count = 120 + rng.index(12);
            let value = reg(cells, &comb(rng, cells, count));
            let node = Node::memory("memory", value);
            insert(rng, &mut tree.root.children, node);
        }
        ManyReserves => {
            let count = rng.pick(&[500, 511, 512, 513, 520]);
            let comb = comb(rng, cells, count);
            if rng.one_in(2) {
                tree.list.extend(comb);
            } else {
                let node = Node::new("buffer").with("reg", reg(cells, &comb));
                let node = Node::new("reserved-memory").holding(node);
                insert(rng, &mut tree.root.children, node);
            }
        }
        ManyMarks => {
            // One range of memory, marked in many places.
            let count = 60 + rng.index(6);
            let marks = comb(rng, cells, count);
            let (first, last) = (marks[0], marks[count - 1]);
            let whole = (first.0, last.0 + last.1 + 1 - first.0);
            let node = Node::memory("memory", reg(cells, &[whole]));
            insert(rng, &mut tree.root.children, node);
            let node = Node::new("buffer")
                .with("reg", reg(cells, &marks))
                .with("no-map", []);
            let node = Node::new("reserved-memory").holding(node);
            insert(rng, &mut tree.root.children, node);
        }
        MarkOfOwn => {
            let (base, size) = ranges(rng);
            let (base, size) = (base & 0xFFFF_FFFF, size & 0xFFFF);
            let node = Node::memory("memory", reg(cells, &[(base, size)]));
            insert(rng, &mut tree.root.children, node);
            let inside = (base + size / 4, size / 2);
            let node = Node::new("buffer")
                .with("no-map", [])
                .with("reg", reg(cells, &[inside]));
            let node = Node::new("reserved-memory").holding(node);
            insert(rng, &mut tree.root.children, node);
        }
        Edges => {
            let low = (rng.below(2), rng.below(3));
            let high = (
                u64::MAX - rng.below(0x2000),
                rng.pick(&[1, 0x1000, u64::MAX]),
            );
            let range = rng.pick(&[low, high, (0, u64::MAX), (u64::MAX, u64::MAX)]);
            let node = some_used(rng, ranges, tree);
            node.properties.retain(|p| p.0 != b"reg");
            node.properties.push(("reg".into(), reg(cells, &[range])));
            if rng.one_in(2) {
                tree.list.push((u64::MAX - rng.below(3), u64::MAX));
            }
        }
        OddNames => {
            let name = rng.pick(&[&b""[..], b"/", b"a/b", b"@", b"\xFF\xFE", b"reg"]);
            let len = 1 + rng.index(40);
            let long = vec![b'x'; len];
            tree.root.name = name.to_vec();
            tree.root.children.push(Node::new(long).with(name, name));
        }
        _ => {}
    }
}

fn sketch_quirk(rng: &mut Rng, sketch: &mut Sketch, quirk: Quirk) {
    match quirk {
        Nops => {
            for _ in 0..1 + rng.below(6) {
                let at = sketch.somewhere(rng);
                sketch.pieces.insert(at, Piece::Nop);
            }
            if rng.one_in(2) {
                sketch.pieces.insert(0, Piece::Nop);
            }
        }
        Padding => sketch.noise = Some(Rng::new(rng.next(), "noise", 0)),
        Order => {
            rng.shuffle(&mut sketch.order);
            sketch.gaps = [0; 3].map(|_: usize| rng.pick(&[0, 0, 1, 3, 4, 8, 13]));
            sketch.behind = rng.pick(&[0, 0, 1, 4, 40]);
        }
        LentAboveTotal => sketch.beyond = 1 + rng.index(40),
        Copies => {
            for i in 0..sketch.pieces.len() {
                if let Piece::Property(at, value) = sketch.pieces[i].clone() {
                    if rng.one_in(2) {
                        let name = &sketch.strings[at as usize..];
                        let end = name.iter().position(|&byte| byte == 0);
                        let name = name[..end.expect("every name has its zero")].to_vec();
                        let at = sketch.new_name(&name);
                        sketch.pieces[i] = Piece::Property(at, value);
                    }
                }
            }
        }
        OpenStrings => {
            let len = 1 + rng.index(9);
            sketch.strings.extend(vec![b'x'; len]);
        }
        _ => {}
    }
}

/// Moves the names so far on as a strings block that begins where the structure block
/// does, right before it, has them; how far that is.
fn cover(sketch: &mut Sketch) -> u32 {
    sketch.order = [Part::List, Part::Structure, Part::Strings];
    sketch.gaps[2] = 0;
    let covered = sketch.structure().len() as u32;
    for piece in &mut sketch.pieces {
        if let Piece::Property(at, _) = piece {
            *at += covered;
        }
    }
    covered
}

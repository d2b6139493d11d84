//! The flattened trees of request E8: those stored, each condition of number 11 broken
//! alone, and each rule on both sides of its edge.

use model::layout::*;
use model::tree::{asks, Ask, Fault};
use trees::node::{reg, word};
use trees::random::{self, chain, Quirk};
use trees::rng::Rng;
use trees::sketch::{get, put, LIST_AT, STRINGS_AT, STRINGS_LENGTH_AT, STRUCTURE_AT};
use trees::sketch::{STRUCTURE_LENGTH_AT, TOTAL_SIZE_AT};
use trees::{stored, Break, Node, Part, Piece, Sketch, Tree};

fn fresh() -> Vec<u8> {
    let mut block = vec![0xA5; BLOCK_LEN];
    assert_eq!(model::fresh(&mut block), 0);
    block
}

fn line(ask: &Ask) -> String {
    match ask {
        Ask::Add { base, size, node } => format!("add {base:#x} {size:#x} {node}\n"),
        Ask::Reserve { base, size } => format!("reserve {base:#x} {size:#x}\n"),
        Ask::Mark { base, size } => format!("mark {base:#x} {size:#x}\n"),
    }
}

/// The commands of a tree that is read, a line each.
fn lines(bytes: &[u8]) -> String {
    let asks = asks(bytes).expect("the tree is read");
    asks.iter().map(line).collect()
}

fn faults(bytes: &[u8]) -> Vec<Fault> {
    asks(bytes).expect_err("the tree is not read")
}

/// The same of the tree as its writer has it in mind.
fn meant(tree: &Tree) -> Option<String> {
    let asks = tree.asks()?.into_iter().map(|ask| match ask {
        trees::Ask::Add { base, size, node } => Ask::Add { base, size, node },
        trees::Ask::Reserve { base, size } => Ask::Reserve { base, size },
        trees::Ask::Mark { base, size } => Ask::Mark { base, size },
    });
    Some(asks.map(|ask| line(&ask)).collect())
}

/// The number of an intake; a block that is refused must be as it was.
fn intake(block: &mut [u8], bytes: &[u8]) -> u32 {
    let before = block.to_vec();
    let number = model::intake_tree(block, bytes);
    assert!(number == 0 || block == before, "a refusal wrote the block");
    number
}

/// The number of an intake on a fresh block.
fn number(bytes: &[u8]) -> u32 {
    intake(&mut fresh(), bytes)
}

fn bytes(tree: &Tree) -> Vec<u8> {
    Sketch::of(tree).bytes()
}

fn root(cells: (u32, u32)) -> Node {
    Node::new("")
        .with("#address-cells", word(cells.0))
        .with("#size-cells", word(cells.1))
}

fn tree(root: Node) -> Tree {
    Tree {
        list: Vec::new(),
        root,
    }
}

/// Memory of these ranges, by cells 2 and 2.
fn memory(ranges: &[(u64, u64)]) -> Node {
    Node::memory("memory", reg((2, 2), ranges))
}

/// A /reserved-memory with a node of these ranges.
fn reserved(ranges: &[(u64, u64)]) -> Node {
    Node::new("reserved-memory").holding(Node::new("buffer").with("reg", reg((2, 2), ranges)))
}

fn marked(ranges: &[(u64, u64)]) -> Node {
    let mut node = reserved(ranges);
    node.children[0] = node.children[0].clone().with("no-map", []);
    node
}

/// A tree with some of everything.
fn whole() -> Tree {
    let soc = Node::new("soc")
        .with("compatible", "simple-bus\0")
        .holding(Node::new("serial@1000").with("reg", [0; 7]));
    let mut tree = tree(
        root((2, 2))
            .with("model", "whole\0")
            .holding(memory(&[(0x10000, 0x10000), (0x40000, 0x1000)]).with("numa-node-id", word(3)))
            .holding(soc)
            .holding(reserved(&[(0x12000, 0x1000)]))
            .holding(marked(&[(0x14000, 0x1000)]))
            .holding(memory(&[(0x80000, 0x1000)])),
    );
    tree.list = vec![(0x11000, 0x800), (0x40800, 0x100)];
    tree
}

const WHOLE: &str = "add 0x10000 0x10000 3
add 0x40000 0x1000 3
add 0x80000 0x1000 0
reserve 0x11000 0x800
reserve 0x40800 0x100
reserve 0x12000 0x1000
mark 0x14000 0x1000
";

/// The commands one by one.
fn one_by_one(block: &mut [u8], bytes: &[u8]) -> u32 {
    let before = block.to_vec();
    for ask in asks(bytes).expect("the tree is read") {
        let number = match ask {
            Ask::Add { base, size, node } => model::add(block, base, size, 0, node),
            Ask::Reserve { base, size } => model::reserve(block, base, size),
            Ask::Mark { base, size } => model::mark(block, base, size, NO_MAP),
        };
        if number != 0 {
            block.copy_from_slice(&before);
            return number;
        }
    }
    0
}

fn word_at(block: &[u8], at: usize) -> u32 {
    u32::from_le_bytes(block[at..at + 4].try_into().expect("4 bytes"))
}

fn long_at(block: &[u8], at: usize) -> u64 {
    u64::from_le_bytes(block[at..at + 8].try_into().expect("8 bytes"))
}

fn records(block: &[u8], body: &Body) -> Vec<(u64, u64, u32, u32)> {
    (0..word_at(block, body.entry + 8) as usize)
        .map(|i| body.offset + i * RECORD_LEN)
        .map(|at| {
            let (base, size) = (long_at(block, at), long_at(block, at + 8));
            (base, size, word_at(block, at + 16), word_at(block, at + 20))
        })
        .collect()
}

#[test]
fn number_11_is_its_own() {
    assert_eq!(number::BAD_TREE, 11);
}

#[test]
fn stored_trees_ask_what_was_worked_out() {
    for stored in stored::all() {
        assert_eq!(lines(stored.bytes), stored.expected, "{}", stored.name);
        let (mut block, mut other) = (fresh(), fresh());
        assert_eq!(intake(&mut block, stored.bytes), 0, "{}", stored.name);
        assert_eq!(one_by_one(&mut other, stored.bytes), 0);
        assert!(block == other, "{}", stored.name);
    }
}

#[test]
fn a_stored_tree_by_its_records() {
    let stored = stored::all().find(|s| s.name == "two-reserved");
    let mut block = fresh();
    assert_eq!(intake(&mut block, stored.expect("stored").bytes), 0);
    let m = |lo: u64, hi: u64, flags| (lo, hi - lo, flags, 0);
    assert_eq!(
        records(&block, &MEMORY),
        [
            m(0x100000, 0x200000, 0),
            m(0x200000, 0x201000, NO_MAP),
            m(0x201000, 0x400000, 0),
            m(0x400000, 0x401000, NO_MAP),
            m(0x401000, 0x1000000, 0),
        ]
    );
    let taken = [0x1000, 0x300000, 0x500000].map(|base| (base, 0x1000, 0, 0));
    assert_eq!(records(&block, &TAKEN), taken);
}

#[test]
fn the_whole_tree() {
    assert_eq!(lines(&bytes(&whole())), WHOLE);
    assert_eq!(meant(&whole()).as_deref(), Some(WHOLE));
    assert_eq!(number(&bytes(&whole())), 0);
}

/// The faults that a break may show. Where a part breaks off, what stands behind it
/// cannot be asked.
fn shows(broken: Break) -> &'static [&'static [Fault]] {
    use Fault::*;
    match broken {
        Break::ShortLent => &[&[Header]],
        // No part is inside then.
        Break::ShortTotal => &[&[Header, ListEnd, StructureOutside, StringsOutside]],
        Break::Magic => &[&[Magic]],
        Break::Version => &[&[Version]],
        Break::Compatible => &[&[Compatible]],
        Break::ListUnended => &[&[ListEnd]],
        Break::ListOff => &[&[ListOffset]],
        Break::ListOutside => &[&[ListEnd]],
        Break::ListCutByTotal | Break::ListCutByLent => &[&[ListEnd]],
        Break::StructureOff => &[&[StructureOffset]],
        Break::StructureCutByTotal | Break::StructureCutByLent => &[&[StructureOutside]],
        Break::StructureFar => &[&[StructureOutside]],
        Break::StringsCutByTotal | Break::StringsCutByLent => &[&[StringsOutside]],
        Break::StringsFar => &[&[StringsOutside]],
        Break::NoBlock => &[&[End, Root]],
        Break::NoRoot | Break::SecondRoot => &[&[Root]],
        // What stands behind it is then one level deeper.
        Break::NodeOpen => &[&[Root], &[Root, Depth]],
        // What then stands outside may be a property behind a node.
        Break::EndMore => &[&[Root], &[Root, Order]],
        Break::NoStop => &[&[End]],
        Break::StopInside => &[&[End, Root]],
        Break::AfterStop | Break::NopAfterStop | Break::RaggedEnd => &[&[End]],
        Break::PropertyBeforeRoot => &[&[Root]],
        Break::PropertyAfterRoot => &[&[Root, Order]],
        Break::PropertyAfterChild => &[&[Order]],
        Break::BadToken => &[&[Token]],
        Break::Deep => &[&[Depth]],
        Break::NodeNameRuns => &[&[NodeName]],
        Break::PropertyCut => &[&[Token]],
        Break::ValueRuns | Break::ValueWraps => &[&[Value]],
        Break::NameRuns | Break::NameOutside => &[&[PropertyName]],
        Break::AddressCells | Break::SizeCells => &[&[Cells]],
        Break::AddressCellsLength | Break::SizeCellsLength => &[&[Cells]],
        Break::MemoryReg | Break::ReservedReg | Break::NoMapReg => &[&[Reg]],
        Break::NodeId | Break::NodeIdLength | Break::NodeIdWithoutReg => &[&[NodeId]],
    }
}

#[test]
fn each_condition_broken_alone() {
    assert_eq!(lines(&bytes(&whole())), WHOLE);
    let mut range = |rng: &mut Rng| (rng.below(1 << 32), 1 + rng.below(0x10000));
    for broken in Break::ALL {
        for turn in 0..300 {
            let mut rng = Rng::new(1, "broken", turn);
            let tree = if turn < 100 {
                whole()
            } else {
                random::some(&mut rng, &mut range).tree
            };
            assert_eq!(Some(lines(&bytes(&tree))), meant(&tree));
            let bytes = broken.done_to(&mut rng, &tree);
            let faults = faults(&bytes);
            let shown = shows(broken).contains(&&faults[..]);
            assert!(shown, "{broken:?}, turn {turn}: {faults:?}");
            assert_eq!(number(&bytes), 11, "{broken:?}, turn {turn}");
        }
    }
}

#[test]
fn quirks_are_read_as_meant() {
    let mut range = |rng: &mut Rng| match rng.below(8) {
        0 => (rng.any_size(), rng.any_size()),
        1 => (0, rng.below(2)),
        _ => (rng.below(64) * 0x800, rng.below(8) * 0x400),
    };
    for (which, quirk) in Quirk::ALL.into_iter().enumerate() {
        for turn in 0..100 {
            let mut rng = Rng::new(which as u64, "quirk", turn);
            let made = random::with(&mut rng, &mut range, &[quirk]);
            let expected = meant(&made.tree).expect("a random tree is read");
            assert_eq!(lines(&made.bytes), expected, "{quirk:?}, turn {turn}");
        }
    }
    for turn in 0..5000 {
        let mut rng = Rng::new(2, "quirks", turn);
        let made = random::some(&mut rng, &mut range);
        let expected = meant(&made.tree).expect("a random tree is read");
        assert_eq!(lines(&made.bytes), expected, "{:?}", made.quirks);
        let (mut block, mut other) = (fresh(), fresh());
        let number = intake(&mut block, &made.bytes);
        assert_eq!(number, one_by_one(&mut other, &made.bytes));
        assert!(block == other, "turn {turn}");
    }
}

#[test]
fn nops_everywhere_and_padding_of_any_bytes() {
    let mut sketch = Sketch::of(&whole());
    let plain = sketch.bytes();
    for seed in 0..20 {
        sketch.noise = Some(Rng::new(seed, "noise", 0));
        assert_eq!(lines(&sketch.bytes()), WHOLE);
    }
    let stop = sketch.pieces.pop();
    sketch.pieces = sketch
        .pieces
        .iter()
        .flat_map(|piece| [Piece::Nop, Piece::Nop, piece.clone()])
        .chain([Piece::Nop])
        .chain(stop)
        .collect();
    assert_eq!(lines(&sketch.bytes()), WHOLE);
    assert_ne!(sketch.bytes(), plain);
    // Not behind the end token.
    sketch.pieces.push(Piece::Nop);
    assert_eq!(faults(&sketch.bytes()), [Fault::End]);
}

#[test]
fn padding_cut_off_at_the_end() {
    // A property whose padding, or its value's last byte, ends the block: no end token.
    for value in [&b"abc"[..], b"abcd", b"abcde"] {
        let mut sketch = Sketch::of(&tree(Node::new("")));
        let at = sketch.name(b"compatible");
        sketch.pieces = vec![
            Piece::Begin(Vec::new()),
            Piece::Property(at, value.to_vec()),
        ];
        let whole = sketch.structure().len();
        for cut in 0..4 {
            let mut bytes = sketch.bytes();
            put(&mut bytes, STRUCTURE_LENGTH_AT, (whole - cut) as u32);
            assert_eq!(number(&bytes), 11);
        }
    }
}

#[test]
fn depth_15_16_and_17() {
    for (levels, number) in [(15, 0), (16, 0), (17, 11), (18, 11), (200, 11)] {
        let deep = tree(chain(levels));
        assert_eq!(self::number(&bytes(&deep)), number, "{levels} levels");
        // Below /reserved-memory and beside memory too.
        let mut reserved = reserved(&[(0x1000, 0x1000)]);
        reserved.children.push(chain(levels - 2));
        let beside = tree(root((2, 2)).holding(reserved).holding(memory(&[(0, 1)])));
        assert_eq!(self::number(&bytes(&beside)), number, "{levels} levels");
    }
    // Going up and down again does not count.
    let mut many = root((2, 2));
    for _ in 0..100 {
        many = many.holding(chain(15));
    }
    assert_eq!(number(&bytes(&tree(many))), 0);
}

#[test]
fn of_equal_names_the_first_counts() {
    // Two properties of a name in both orders, and the commands of each.
    let two = |node: &Node, name: &str, values: [&[u8]; 2]| {
        [[0, 1], [1, 0]].map(|order| {
            let mut node = node.clone();
            node.properties.retain(|p| p.0 != name.as_bytes());
            node.with(name, values[order[0]])
                .with(name, values[order[1]])
        })
    };
    let said = |child: Node| lines(&bytes(&tree(root((2, 2)).holding(child))));
    let cells = two(&root((2, 2)), "#size-cells", [&word(2), &word(1)]);
    let range = [reg((2, 2), &[(1, 2)]), reg((2, 1), &[(3, 4)])].concat();
    let [first, second] = cells.map(|root| {
        let node = Node::memory("memory", reg((2, 1), &[(1, 2), (3, 4), (5, 6), (7, 8)]));
        lines(&bytes(&tree(root.holding(node))))
    });
    assert_eq!(first.lines().count(), 3);
    assert_eq!(second.lines().count(), 4);
    assert_eq!(range.len(), 28);

    let node = memory(&[(1, 2)]);
    let [first, second] = two(&node, "device_type", [b"memory\0", b"cpu\0"]).map(said);
    assert_eq!([&first[..], &second], ["add 0x1 0x2 0\n", ""]);
    let other = reg((2, 2), &[(3, 4)]);
    let [first, second] = two(&node, "reg", [&reg((2, 2), &[(1, 2)]), &other]).map(said);
    assert_eq!(
        [&first[..], &second],
        ["add 0x1 0x2 0\n", "add 0x3 0x4 0\n"]
    );
    let [first, second] = two(&node, "numa-node-id", [&word(5), &word(6)]).map(said);
    assert_eq!(
        [&first[..], &second],
        ["add 0x1 0x2 5\n", "add 0x1 0x2 6\n"]
    );

    // Of which one would be refused.
    for (name, good, bad) in [
        ("reg", reg((2, 2), &[(1, 2)]), vec![0; 5]),
        ("numa-node-id", word(63), word(64)),
        ("numa-node-id", word(63), vec![0; 8]),
    ] {
        let [first, second] = two(&node, name, [&good, &bad]);
        assert_eq!(number(&bytes(&tree(root((2, 2)).holding(first)))), 0);
        assert_eq!(number(&bytes(&tree(root((2, 2)).holding(second)))), 11);
    }
    for name in ["#address-cells", "#size-cells"] {
        let [first, second] = two(&root((2, 2)), name, [&word(2), &word(3)]);
        assert_eq!(number(&bytes(&tree(first))), 0);
        assert_eq!(number(&bytes(&tree(second))), 11);
    }
    let child = Node::new("").with("no-map", []).with("no-map", [1]);
    let child = child.with("reg", reg((2, 2), &[(1, 2)])).with("reg", [1]);
    let both = Node::new("reserved-memory").holding(child);
    assert_eq!(said(both), "mark 0x1 0x2\n");
}

#[test]
fn cells_in_every_combination() {
    for a in [None, Some(1), Some(2)] {
        for s in [None, Some(1), Some(2)] {
            let cells = (a.unwrap_or(2), s.unwrap_or(1));
            let mut root = Node::new("");
            for (name, cells) in [("#address-cells", a), ("#size-cells", s)] {
                if let Some(cells) = cells {
                    root = root.with(name, word(cells));
                }
            }
            let range = (0x1234_5678_9ABC_DEF0, 0xFEDC_BA98_7654_3210);
            let value = reg(cells, &[range, (0, 0), range]);
            let low = |cells, x: u64| if cells == 1 { x & 0xFFFF_FFFF } else { x };
            let (base, size) = (low(cells.0, range.0), low(cells.1, range.1));
            let child = Node::new("").with("reg", &value).with("no-map", []);
            let tree = tree(
                root.holding(Node::memory("", &value)).holding(
                    Node::new("reserved-memory")
                        .with("#address-cells", word(3 - cells.0))
                        .holding(child),
                ),
            );
            let range = format!("{base:#x} {size:#x}");
            let expected = format!(
                "add {range} 0\nadd 0x0 0x0 0\nadd {range} 0\nmark {range}\nmark 0x0 0x0\nmark {range}\n"
            );
            assert_eq!(lines(&bytes(&tree)), expected);
        }
    }
}

#[test]
fn cells_that_may_not_be_are_refused_unused_too() {
    for name in ["#address-cells", "#size-cells"] {
        for (value, number) in [
            (word(1), 0),
            (word(2), 0),
            (word(0), 11),
            (word(3), 11),
            (word(1 << 24), 11),
            (word(u32::MAX), 11),
            (vec![], 11),
            (vec![0, 0, 1], 11),
            (vec![0, 0, 0, 1, 0], 11),
            (vec![0, 0, 0, 0, 0, 0, 0, 1], 11),
            (vec![0, 0, 0, 1, 0, 0, 0, 1], 11),
        ] {
            let bare = tree(Node::new("").with(name, &value));
            assert_eq!(self::number(&bytes(&bare)), number, "{name} {value:x?}");
            // Of any other node they do not matter.
            let below = tree(Node::new("").holding(Node::new("soc").with(name, &value)));
            assert_eq!(self::number(&bytes(&below)), 0);
        }
    }
}

#[test]
fn node_ids() {
    for with_reg in [true, false] {
        for (value, number) in [
            (word(0), 0),
            (word(63), 0),
            (word(64), 11),
            (word(256), 11),
            (word(1 << 24), 11),
            (word(u32::MAX), 11),
            (vec![], 11),
            (vec![0], 11),
            (vec![0, 0, 0], 11),
            (vec![0, 0, 0, 1, 0], 11),
            (vec![0, 0, 0, 0, 0, 0, 0, 1], 11),
        ] {
            let mut node = memory(&[(0x1000, 0x1000)]).with("numa-node-id", &value);
            if !with_reg {
                node.properties.retain(|p| p.0 != b"reg");
            }
            let tree = |node: &Node| bytes(&self::tree(root((2, 2)).holding(node.clone())));
            assert_eq!(self::number(&tree(&node)), number, "{value:x?}");
            // Of a node that is no memory it does not matter.
            let mut other = node.clone();
            other.properties[0].1 = b"memory".to_vec();
            assert_eq!(self::number(&tree(&other)), 0);
            let below = Node::new("soc").holding(node);
            assert_eq!(self::number(&tree(&below)), 0);
        }
    }
}

#[test]
fn regs_of_every_length() {
    for a in [1, 2] {
        for s in [1, 2] {
            let entry = 4 * (a + s) as usize;
            for length in 0..=3 * entry + 1 {
                let value = vec![0; length];
                let number = if length % entry == 0 { 0 } else { 11 };
                let with = |child| bytes(&tree(root((a, s)).holding(child)));
                let child = Node::new("buffer").with("reg", &value);
                let no_map = child.clone().with("no-map", []);
                let reserved = Node::new("reserved-memory");
                for used in [
                    Node::memory("memory", &value),
                    reserved.clone().holding(child.clone()),
                    reserved.clone().holding(no_map),
                ] {
                    assert_eq!(self::number(&with(used)), number, "{a} {s} {length}");
                }
                for unused in [
                    child.clone(),
                    reserved.clone().with("reg", &value),
                    Node::new("reserved-memory@0").holding(child.clone()),
                    reserved.holding(Node::new("buffer").holding(child.clone())),
                    Node::new("soc").holding(Node::memory("memory", &value)),
                ] {
                    assert_eq!(self::number(&with(unused)), 0, "{a} {s} {length}");
                }
            }
        }
    }
}

#[test]
fn memory_is_told_by_device_type_alone() {
    let range = reg((2, 2), &[(1, 2)]);
    for (value, counts) in [
        (&b"memory\0"[..], true),
        (b"memory", false),
        (b"memory\0\0", false),
        (b"memory\0x", false),
        (b"memor\0", false),
        (b"memory ", false),
        (b"Memory\0", false),
        (b"", false),
    ] {
        for name in ["memory", "memory@1000", "", "reserved", "cpu"] {
            let node = Node::new(name)
                .with("reg", &range)
                .with("device_type", value);
            let said = lines(&bytes(&tree(root((2, 2)).holding(node))));
            assert_eq!(said, if counts { "add 0x1 0x2 0\n" } else { "" });
        }
    }
    let bare = Node::new("memory").with("reg", &range);
    assert_eq!(lines(&bytes(&tree(root((2, 2)).holding(bare)))), "");
    // The root itself is no child of the root.
    let root = root((2, 2))
        .with("device_type", "memory\0")
        .with("reg", range);
    assert_eq!(lines(&bytes(&tree(root))), "");
}

#[test]
fn reserved_memory_is_told_by_its_whole_name() {
    for (name, counts) in [
        (&b"reserved-memory"[..], true),
        (b"reserved-memory@0", false),
        (b"reserved-memory@", false),
        (b"reserved-memor", false),
        (b"reserved-memory ", false),
        (b"/reserved-memory", false),
        (b"", false),
    ] {
        let mut node = reserved(&[(1, 2)]);
        node.name = name.to_vec();
        let said = lines(&bytes(&tree(root((2, 2)).holding(node))));
        assert_eq!(said, if counts { "reserve 0x1 0x2\n" } else { "" });
    }
}

#[test]
fn several_reserved_memories() {
    let mut child = marked(&[(1, 2)]);
    child.children.extend(reserved(&[(3, 4)]).children);
    child.children.extend(marked(&[(5, 6)]).children);
    let tree = tree(
        root((2, 2))
            .holding(child)
            .holding(memory(&[(7, 8)]))
            .holding(Node::new("reserved-memory"))
            .holding(marked(&[(9, 10), (11, 12)]))
            .holding(reserved(&[(13, 14), (15, 16)])),
    );
    assert_eq!(
        lines(&bytes(&tree)),
        "add 0x7 0x8 0\nreserve 0x3 0x4\nreserve 0xd 0xe\nreserve 0xf 0x10\n\
         mark 0x1 0x2\nmark 0x5 0x6\nmark 0x9 0xa\nmark 0xb 0xc\n"
    );
}

#[test]
fn a_node_may_be_memory_and_reserved_memory() {
    let both = reserved(&[(1, 2)])
        .with("device_type", "memory\0")
        .with("reg", reg((2, 2), &[(3, 4)]))
        .with("no-map", []);
    let said = lines(&bytes(&tree(root((2, 2)).holding(both))));
    assert_eq!(said, "add 0x3 0x4 0\nreserve 0x1 0x2\n");
}

#[test]
fn no_map_counts_by_being_there() {
    for value in [&b""[..], b"\0", b"\0\0\0\0", b"no"] {
        let mut node = reserved(&[(1, 2)]);
        node.children[0] = node.children[0].clone().with("no-map", value);
        let said = lines(&bytes(&tree(root((2, 2)).holding(node))));
        assert_eq!(said, "mark 0x1 0x2\n");
    }
    // Without `reg` it does nothing.
    let child = Node::new("").with("no-map", []);
    let node = Node::new("reserved-memory").holding(child);
    assert_eq!(lines(&bytes(&tree(root((2, 2)).holding(node)))), "");
}

#[test]
fn cut_off_at_every_byte() {
    // The parts one behind the other to the end: one byte less is one of a part's.
    let small = Tree {
        list: vec![(0x1000, 0x1000)],
        root: Node::new("").holding(Node::memory("memory", reg((2, 1), &[(0, 1)]))),
    };
    for last in [Part::List, Part::Structure, Part::Strings] {
        let mut sketch = Sketch::of(&small);
        let place = sketch.order.iter().position(|&part| part == last);
        sketch.order.swap(2, place.expect("a part"));
        let whole = sketch.bytes();
        assert_eq!(number(&whole), 0);
        for length in 0..whole.len() {
            assert_eq!(number(&whole[..length]), 11, "lent {length}");
            let mut bytes = whole.clone();
            put(&mut bytes, TOTAL_SIZE_AT, length as u32);
            assert_eq!(number(&bytes), 11, "total size {length}");
        }
        for more in [1, 2, 1000] {
            let mut bytes = whole.clone();
            let total = whole.len() as u32 + more;
            put(&mut bytes, TOTAL_SIZE_AT, total);
            assert_eq!(number(&bytes), 0, "total size above the lent bytes");
            put(&mut bytes, TOTAL_SIZE_AT, u32::MAX);
            assert_eq!(number(&bytes), 0);
            let mut bytes = whole.clone();
            bytes.extend(vec![0xFF; more as usize]);
            assert_eq!(number(&bytes), 0, "lent more than the total size");
        }
    }
}

#[test]
fn the_structure_block_ends_with_its_size() {
    let whole = bytes(&whole());
    let length = get(&whole, STRUCTURE_LENGTH_AT);
    for other in 0..length + 40 {
        let mut bytes = whole.clone();
        put(&mut bytes, STRUCTURE_LENGTH_AT, other);
        assert_eq!(number(&bytes), if other == length { 0 } else { 11 });
    }
}

#[test]
fn the_list_and_its_end() {
    let list = |list: &[(u64, u64)]| {
        let mut sketch = Sketch::of(&tree(Node::new("")));
        sketch.list = list.to_vec();
        sketch
    };
    // A pair with one zero is an entry, and does not end the list.
    let said = lines(&list(&[(7, 0), (0, 8), (9, 1)]).bytes());
    assert_eq!(said, "reserve 0x7 0x0\nreserve 0x0 0x8\nreserve 0x9 0x1\n");
    let mut block = fresh();
    assert_eq!(intake(&mut block, &list(&[(7, 0), (9, 1)]).bytes()), 0);
    assert_eq!(records(&block, &TAKEN), [(9, 1, 0, 0)]);
    // What stands behind the end does not count.
    let said = lines(&list(&[(7, 1), (0, 0), (9, 1)]).bytes());
    assert_eq!(said, "reserve 0x7 0x1\n");
    // Pairs count from the offset: zeros across two pairs are no end.
    let mut across = list(&[(7, 0), (0, 8)]);
    across.order = [Part::Structure, Part::Strings, Part::List];
    across.ended = false;
    assert_eq!(faults(&across.bytes()), [Fault::ListEnd]);
    across.ended = true;
    assert_eq!(number(&across.bytes()), 0);
    for off in 1..8 {
        across.off[0] = off;
        assert_eq!(faults(&across.bytes()), [Fault::ListOffset]);
    }
}

#[test]
fn alignments() {
    let mut sketch = Sketch::of(&whole());
    for off in 1..4 {
        sketch.off[1] = off;
        assert_eq!(faults(&sketch.bytes()), [Fault::StructureOffset]);
    }
    sketch.off[1] = 0;
    // The strings anywhere, and the lent bytes too.
    for gap in 0..9 {
        sketch.gaps = [0, gap, gap];
        assert_eq!(lines(&sketch.bytes()), WHOLE);
        let lent = [vec![0; gap], sketch.bytes()].concat();
        assert_eq!(lines(&lent[gap..]), WHOLE);
    }
}

#[test]
fn parts_may_overlap() {
    let mut range = |rng: &mut Rng| (rng.below(1 << 32), 0x1000);
    for turn in 0..50 {
        let mut rng = Rng::new(1, "overlap", turn);
        let made = random::with(&mut rng, &mut range, &[Quirk::Overlap]);
        assert_eq!(Some(lines(&made.bytes)), meant(&made.tree));
        let (structure, strings) = (get(&made.bytes, STRUCTURE_AT), get(&made.bytes, STRINGS_AT));
        assert_eq!(structure, strings);
    }
    // A list in the header: the words of version and compatible version, those of
    // processor and sizes; then what stands behind the header.
    let mut bytes = bytes(&tree(Node::new("")));
    put(&mut bytes, LIST_AT, 24);
    let sizes = (
        get(&bytes, STRINGS_LENGTH_AT),
        get(&bytes, STRUCTURE_LENGTH_AT),
    );
    assert_eq!(sizes, (0, 16));
    assert_eq!(lines(&bytes), "reserve 0x1000000000 0x10\n");
}

#[test]
fn no_name_but_its_own_bytes() {
    // A name that goes on, or that is the end of another.
    let mut sketch = Sketch::of(&tree(root((2, 2)).holding(memory(&[(1, 2)]))));
    let at = sketch.strings.windows(4).position(|w| w == b"reg\0");
    let at = at.expect("it is there");
    assert_eq!(lines(&sketch.bytes()), "add 0x1 0x2 0\n");
    sketch.strings[at + 3] = b's';
    sketch.strings.push(0);
    assert_eq!(lines(&sketch.bytes()), "");
    sketch.strings[at + 3] = 0;
    for piece in &mut sketch.pieces {
        if let Piece::Property(name, _) = piece {
            *name += u32::from(*name == at as u32);
        }
    }
    assert_eq!(lines(&sketch.bytes()), "");
}

#[test]
fn names_of_every_property_are_looked_at() {
    for level in [1, 2, 3, 16] {
        let mut node = chain(17 - level);
        node.properties.push((b"unused".to_vec(), Vec::new()));
        for _ in 1..level {
            node = Node::new("n").holding(node);
        }
        let mut sketch = Sketch::of(&tree(node));
        assert_eq!(number(&sketch.bytes()), 0);
        assert_eq!(sketch.strings.pop(), Some(0));
        assert_eq!(faults(&sketch.bytes()), [Fault::PropertyName]);
        sketch.strings.clear();
        assert_eq!(faults(&sketch.bytes()), [Fault::PropertyName]);
        sketch.strings.push(0);
        assert_eq!(number(&sketch.bytes()), 0);
    }
}

#[test]
fn number_6_by_memory() {
    let pages = |count: u64| -> Vec<(u64, u64)> { (0..count).map(|i| (2 * i, 1)).collect() };
    let with = |count| bytes(&tree(root((2, 2)).holding(memory(&pages(count)))));
    let full = MEMORY.capacity as u64;
    let mut block = fresh();
    assert_eq!(intake(&mut block, &with(full)), 0);
    assert_eq!(records(&block, &MEMORY).len(), MEMORY.capacity);
    assert_eq!(number(&with(full + 1)), 6);
    // Even if a later range would make room.
    let later = memory(&pages(full + 1)).with("numa-node-id", word(0));
    let tree = tree(root((2, 2)).holding(later).holding(memory(&[(0, 1000)])));
    assert_eq!(number(&bytes(&tree)), 6);
    // And on a block that has some already, which then stay alone.
    let mut block = fresh();
    assert_eq!(model::add(&mut block, 1 << 40, 1, 0, 0), 0);
    assert_eq!(intake(&mut block, &with(full)), 6);
    assert_eq!(records(&block, &MEMORY), [(1 << 40, 1, 0, 0)]);
}

#[test]
fn number_6_by_the_list_and_by_reserved() {
    let pages = |from: u64, count: usize| -> Vec<(u64, u64)> {
        (0..count as u64).map(|i| (from + 2 * i, 1)).collect()
    };
    let full = TAKEN.capacity;
    for in_list in 0..=2 {
        for (count, number) in [(full, 0), (full + 1, 6)] {
            let first = [0, count / 2, count][in_list];
            let mut tree = tree(root((2, 2)).holding(memory(&[(0, 1 << 20)])));
            tree.list = pages(1, first);
            let rest = reserved(&pages(1 + 2 * first as u64, count - first));
            tree.root.children.push(rest);
            let mut block = fresh();
            assert_eq!(intake(&mut block, &bytes(&tree)), number);
            if number == 6 {
                assert_eq!(block, fresh());
            }
        }
    }
}

#[test]
fn number_6_by_marks() {
    // One range of memory, of which every mark makes two records more.
    let half = MEMORY.capacity as u64 / 2;
    let marks = |count: u64| -> Vec<(u64, u64)> { (0..count).map(|i| (2 * i, 1)).collect() };
    let with = |count| {
        let memory = memory(&[(0, 2 * count)]);
        bytes(&tree(
            root((2, 2)).holding(marked(&marks(count))).holding(memory),
        ))
    };
    let mut block = fresh();
    assert_eq!(intake(&mut block, &with(half)), 0);
    assert_eq!(records(&block, &MEMORY).len(), MEMORY.capacity);
    assert_eq!(number(&with(half + 1)), 6);
}

#[test]
fn memory_comes_before_its_marks() {
    // In the tree the mark comes first.
    let tree = tree(
        root((2, 2))
            .holding(marked(&[(0x2000, 0x1000), (0x8000, 0x1000)]))
            .holding(memory(&[(0x1000, 0x3000)])),
    );
    let mut block = fresh();
    assert_eq!(model::add(&mut block, 0x8800, 0x1000, MIRROR, 7), 0);
    assert_eq!(intake(&mut block, &bytes(&tree)), 0);
    assert_eq!(
        records(&block, &MEMORY),
        [
            (0x1000, 0x1000, 0, 0),
            (0x2000, 0x1000, NO_MAP, 0),
            (0x3000, 0x1000, 0, 0),
            (0x8800, 0x800, NO_MAP + MIRROR, 7),
            (0x9000, 0x800, MIRROR, 7),
        ]
    );
}

#[test]
fn memory_in_tree_order() {
    // What two name keeps the tag of the first.
    let node = |id| memory(&[(0, 0x1000)]).with("numa-node-id", word(id));
    for (first, second) in [(1, 2), (2, 1)] {
        let tree = tree(root((2, 2)).holding(node(first)).holding(node(second)));
        let mut block = fresh();
        assert_eq!(intake(&mut block, &bytes(&tree)), 0);
        assert_eq!(records(&block, &MEMORY), [(0, 0x1000, 0, first)]);
    }
}

#[test]
fn the_list_comes_before_reserved() {
    // A full table: one of the two takes a record more, the other makes room.
    let mut full = fresh();
    for i in 0..TAKEN.capacity as u64 {
        assert_eq!(model::reserve(&mut full, 4 * i, 2), 0);
    }
    let (apart, joins) = ((1 << 40, 1), (2, 2));
    for (list, child, number) in [(apart, joins, 6), (joins, apart, 0)] {
        let mut tree = tree(root((2, 2)).holding(reserved(&[child])));
        tree.list = vec![list];
        assert_eq!(intake(&mut full.clone(), &bytes(&tree)), number);
    }
}

#[test]
fn nothing_is_trimmed_and_the_rest_stays() {
    let mut block = fresh();
    assert_eq!(model::set(&mut block, 0x1234_5678, 1), 0);
    assert_eq!(model::set_image_end(&mut block, 0x4321), 0);
    let head = |block: &[u8]| (block[40..56].to_vec(), block[72..80].to_vec());
    let before = head(&block);
    let tree = tree(root((2, 2)).holding(memory(&[(0x1001, 0x10), (0x1FFF, 2)])));
    assert_eq!(intake(&mut block, &bytes(&tree)), 0);
    assert_eq!(
        records(&block, &MEMORY),
        [(0x1001, 0x10, 0, 0), (0x1FFF, 2, 0, 0)]
    );
    assert_eq!(head(&block), before);
}

#[test]
fn ranges_at_the_edges() {
    let top = u64::MAX;
    let ranges = [(0, 1), (top, top), (top - 4, 4), (top - 1, top), (5, 0)];
    let mut tree = tree(
        root((2, 2))
            .holding(memory(&ranges))
            .holding(marked(&[(0, top)])),
    );
    tree.list = vec![(top, 1), (0, top)];
    let mut block = fresh();
    assert_eq!(intake(&mut block, &bytes(&tree)), 0);
    assert_eq!(
        records(&block, &MEMORY),
        [(0, 1, NO_MAP, 0), (top - 4, 4, NO_MAP, 0)]
    );
    assert_eq!(records(&block, &TAKEN), [(0, top, 0, 0)]);
}

#[test]
fn number_1_comes_before_11_and_11_before_6() {
    let good = bytes(&whole());
    let full: Vec<(u64, u64)> = (0..200).map(|i| (2 * i, 1)).collect();
    let full = tree(root((2, 2)).holding(memory(&full)));
    let mut wrong = full.clone();
    wrong
        .root
        .children
        .push(memory(&[]).with("numa-node-id", word(64)));
    let mut bad_block = fresh();
    bad_block[0] ^= 1;
    for (tree, on_good) in [
        (good, 0),
        (bytes(&full), 6),
        (bytes(&wrong), 11),
        (Vec::new(), 11),
    ] {
        assert_eq!(number(&tree), on_good);
        assert_eq!(intake(&mut bad_block.clone(), &tree), 1);
        assert_eq!(intake(&mut fresh()[..BLOCK_LEN - 1], &tree), 1);
        assert_eq!(intake(&mut [], &tree), 1);
    }
}

#[test]
fn a_token_alone_is_no_root() {
    let whole = bytes(&tree(Node::new("").with("a", [])));
    assert_eq!(number(&whole), 0);
    let at = get(&whole, STRUCTURE_AT) as usize;
    let said = |tokens: [u32; 7]| {
        let mut bytes = whole.clone();
        for (i, token) in tokens.into_iter().enumerate() {
            put(&mut bytes, at + 4 * i, token);
        }
        bytes
    };
    assert_eq!(said([1, 0, 3, 0, 0, 2, 9]), whole);
    for tokens in [
        [4, 4, 3, 0, 0, 4, 9],
        [4, 4, 2, 4, 4, 4, 9],
        [4, 4, 4, 4, 4, 4, 9],
    ] {
        let bytes = said(tokens);
        assert_eq!(faults(&bytes), [Fault::Root], "{tokens:?}");
        assert_eq!(number(&bytes), 11);
    }
}

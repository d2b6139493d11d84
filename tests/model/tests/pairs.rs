//! The service corrections of request E9: looking up in one tree and in two, and the
//! intake of a pair.

use model::layout::*;
use model::tree::{asks, lookup, pair_asks, pair_lookup, properties, Ask, Fault, Holder, Place};
use trees::node::{reg, word};
use trees::random::{self, chain};
use trees::rng::Rng;
use trees::sketch::get;
use trees::sketch::{LIST_AT, STRINGS_AT, STRUCTURE_AT};
use trees::{service, stored, Aim, Break, Correction, Node, Piece, Sketch, Tree};

fn fresh() -> Vec<u8> {
    let mut block = vec![0xA5; BLOCK_LEN];
    assert_eq!(model::fresh(&mut block), 0);
    block
}

fn bytes(tree: &Tree) -> Vec<u8> {
    Sketch::of(tree).bytes()
}

fn tree(root: Node) -> Tree {
    Tree {
        list: Vec::new(),
        root,
    }
}

fn bare() -> Vec<u8> {
    bytes(&tree(Node::new("")))
}

fn root() -> Node {
    Node::new("")
        .with("#address-cells", word(2))
        .with("#size-cells", word(2))
}

/// A root with nodes on the way of these names, the last with a property.
fn service(names: &[&str], name: &str, value: impl AsRef<[u8]>) -> Node {
    let mut names = names.iter().rev();
    let Some(last) = names.next() else {
        return Node::new("").with(name, value);
    };
    let mut node = Node::new(last).with(name, value);
    for name in names {
        node = Node::new(name).holding(node);
    }
    Node::new("").holding(node)
}

fn line(ask: &Ask) -> String {
    match ask {
        Ask::Add { base, size, node } => format!("add {base:#x} {size:#x} {node}\n"),
        Ask::Reserve { base, size } => format!("reserve {base:#x} {size:#x}\n"),
        Ask::Mark { base, size } => format!("mark {base:#x} {size:#x}\n"),
    }
}

/// The commands of a pair that is read, a line each.
fn lines(board: &Node, service: &Node) -> String {
    let (board, service) = (tree(board.clone()), tree(service.clone()));
    let asks = pair_asks(&bytes(&board), &bytes(&service)).expect("the pair is read");
    asks.iter().map(line).collect()
}

/// What is wrong with a pair, which then gets 11.
fn faults(board: &Node, service: &Node) -> Vec<Fault> {
    let board = bytes(&tree(board.clone()));
    let service = bytes(&tree(service.clone()));
    assert_eq!(number(&board, &service), 11);
    pair_asks(&board, &service).expect_err("the pair is not read")
}

/// The number of an intake on a fresh block; one that is refused must be as it was.
fn number(board: &[u8], service: &[u8]) -> u32 {
    let (mut block, before) = (fresh(), fresh());
    let number = model::intake_trees(&mut block, board, service);
    assert!(number == 0 || block == before, "a refusal wrote the block");
    number
}

/// The number of a lookup with its slip.
fn look(service: &[u8], board: &[u8], path: &[u8], name: &[u8]) -> (u32, u64, u64) {
    let mut slip = [0xA5; SLIP_LEN];
    let number = model::lookup(service, board, path, name, &mut slip);
    let half = |at: usize| u64::from_le_bytes(slip[at..at + 8].try_into().expect("8 bytes"));
    (number, half(0), half(8))
}

/// The value that a lookup in one tree finds.
fn found<'a>(tree: &'a [u8], path: &str, name: &str) -> Option<&'a [u8]> {
    let place = lookup(tree, path.as_bytes(), name.as_bytes()).expect("it has the form");
    place.map(|Place { at, length }| &tree[at..at + length])
}

/// What stands in a tree, found by going down into each node: path, name, place.
type Walked = Vec<(Vec<u8>, Vec<u8>, Place)>;

fn walked(tree: &[u8]) -> Walked {
    fn text(bytes: &[u8]) -> &[u8] {
        let zero = bytes.iter().position(|&byte| byte == 0);
        &bytes[..zero.expect("a zero")]
    }
    // The node whose first token is at `at`; where the token behind it is.
    fn node(tree: &[u8], mut at: usize, above: Option<&[u8]>, walked: &mut Walked) -> usize {
        let name = text(&tree[at + 4..]);
        let path = match above {
            None => Vec::new(),
            Some(above) => [above, b"/", name].concat(),
        };
        at += (4 + name.len() + 1).next_multiple_of(4);
        loop {
            match get(tree, at) {
                1 => at = node(tree, at, Some(&path), walked),
                2 => return at + 4,
                3 => {
                    let length = get(tree, at + 4) as usize;
                    let strings = get(tree, STRINGS_AT) + get(tree, at + 8);
                    let path = if above.is_none() { b"/" } else { &path[..] };
                    let place = Place {
                        at: at + 12,
                        length,
                    };
                    let name = text(&tree[strings as usize..]);
                    walked.push((path.to_vec(), name.to_vec(), place));
                    at = (at + 12 + length).next_multiple_of(4);
                }
                _ => at += 4,
            }
        }
    }
    let mut at = get(tree, STRUCTURE_AT) as usize;
    while get(tree, at) != 1 {
        at += 4;
    }
    let mut walk = Vec::new();
    node(tree, at, None, &mut walk);
    walk
}

/// Each property of a tree is found again, the first of its path and name.
fn all_found(name: &str, tree: &[u8]) -> usize {
    let walked = walked(tree);
    for (path, property, _) in &walked {
        let mut first = walked
            .iter()
            .filter(|w| w.0 == *path && w.1 == *property)
            .map(|w| w.2);
        let place = first.next().expect("itself at least");
        assert_eq!(lookup(tree, path, property), Ok(Some(place)), "{name}");
        // Alone, beside a tree that has nothing, and beside itself.
        let (at, length) = (place.at as u64, place.length as u64);
        assert_eq!(look(&bare(), tree, path, property), (2, at, length));
        assert_eq!(look(tree, &bare(), path, property), (1, at, length));
        assert_eq!(look(tree, tree, path, property), (1, at, length));
    }
    let listed = properties(tree).expect("it has the form");
    assert_eq!(listed.len(), walked.len(), "{name}");
    for (listed, walked) in listed.iter().zip(&walked) {
        let Place { at, length } = walked.2;
        assert_eq!(listed.0, walked.0, "{name}");
        assert_eq!(
            (listed.1, listed.2),
            (&walked.1[..], &tree[at..at + length])
        );
    }
    walked.len()
}

#[test]
fn every_property_of_the_stored_trees() {
    let mut properties = 0;
    for stored in stored::all() {
        let found = all_found(stored.name, stored.bytes);
        assert!(found > 0 || stored.name == "memreserve", "{}", stored.name);
        properties += found;
    }
    assert!(properties > 1000, "{properties}");
}

#[test]
fn paths_in_real_trees() {
    let real = |name: &str| {
        stored::all()
            .find(|s| s.name == name)
            .expect("stored")
            .bytes
    };
    let arm = real("arm-virt");
    let value = found(arm, "/memory@40000000", "device_type");
    assert_eq!(value, Some(&b"memory\0"[..]));
    assert_eq!(
        found(arm, "/", "compatible"),
        Some(&b"linux,dummy-virt\0"[..])
    );
    assert_eq!(found(arm, "/psci", "method"), Some(&b"hvc\0"[..]));
    // Without the unit address, or a part of it, there is no such path.
    for path in [
        "/memory",
        "/memory@",
        "/memory@4000000",
        "memory@40000000",
        "",
    ] {
        assert_eq!(found(arm, path, "device_type"), None, "{path}");
    }
    assert_eq!(found(arm, "/memory@40000000", "device_typ"), None);
    assert_eq!(found(arm, "/memory@40000000/", "device_type"), None);
    let riscv = real("riscv-virt");
    let value = found(
        riscv,
        "/cpus/cpu@0/interrupt-controller",
        "#interrupt-cells",
    );
    assert_eq!(value, Some(&word(1)[..]));
}

/// One tree with all that a path can be about.
fn odd() -> Tree {
    tree(
        Node::new("board")
            .with("a", "root")
            .with("", "unnamed")
            .holding(
                Node::new("n")
                    .with("a", "first n")
                    .holding(Node::new("m").with("a", "n, m").with("b", "n, m, b")),
            )
            .holding(
                Node::new("n")
                    .with("a", "second n")
                    .with("c", "second n, c"),
            )
            .holding(Node::new("").with("a", "nameless").with("d", "nameless, d"))
            .holding(
                Node::new("n/m")
                    .with("a", "slashed")
                    .with("b", "slashed, b")
                    .with("e", "slashed, e")
                    .with("e", "slashed, e again"),
            )
            .holding(Node::new("").holding(Node::new("").with("a", "nameless twice")))
            .holding(Node::new("/x").with("a", "slash first"))
            .holding(Node::new("n").holding(Node::new("").with("a", "nameless in n")))
            .holding(Node::new("none").with("empty", [])),
    )
}

#[test]
fn paths_are_bytes() {
    let odd = bytes(&odd());
    all_found("odd", &odd);
    for (path, name, value) in [
        ("/", "a", Some("root")),
        ("/", "", Some("unnamed")),
        // A nameless child of the root has the root's path.
        ("/", "d", Some("nameless, d")),
        ("/n", "a", Some("first n")),
        // Several nodes of one path: the first that has it.
        ("/n", "c", Some("second n, c")),
        ("/n/m", "a", Some("n, m")),
        ("/n/m", "b", Some("n, m, b")),
        // A name with a slash makes the bytes of a deeper path.
        ("/n/m", "e", Some("slashed, e")),
        ("//", "a", Some("nameless twice")),
        ("//x", "a", Some("slash first")),
        ("/n/", "a", Some("nameless in n")),
        ("/none", "empty", Some("")),
        // The root's name is in no path.
        ("/board", "a", None),
        ("board", "a", None),
        ("/board/n", "a", None),
        ("/board/", "a", None),
        // Missing nodes and properties, beginnings and ends of names.
        ("/m", "a", None),
        ("/n/m/m", "a", None),
        ("/n/m/", "a", None),
        ("/no", "empty", None),
        ("/none/", "empty", None),
        ("/nones", "empty", None),
        ("/none", "empt", None),
        ("/none", "emptys", None),
        ("/none", "", None),
        ("/none", "a", None),
        ("/none", "empty\0", None),
        ("/none\0", "empty", None),
        // No slash in front, nothing at all.
        ("", "a", None),
        ("", "", None),
        ("n", "a", None),
        ("n/m", "a", None),
        ("///", "a", None),
        ("//n", "a", None),
    ] {
        let value = value.map(str::as_bytes);
        assert_eq!(found(&odd, path, name), value, "{path:?} {name:?}");
    }
}

#[test]
fn a_nodes_own_come_before_those_in_it() {
    // Of equal paths: the root's own, then its nameless child's.
    let root = Node::new("")
        .with("a", "own")
        .holding(Node::new("").with("a", "in it"));
    assert_eq!(found(&bytes(&tree(root)), "/", "a"), Some(&b"own"[..]));
    // A deeper path that comes earlier, with the bytes of a later one.
    let first = Node::new("n").holding(Node::new("m").with("a", "deeper"));
    let second = Node::new("n/m").with("a", "slashed");
    for (one, other, value) in [(&first, &second, "deeper"), (&second, &first, "slashed")] {
        let root = Node::new("").holding(one.clone()).holding(other.clone());
        let tree = bytes(&tree(root));
        assert_eq!(found(&tree, "/n/m", "a"), Some(value.as_bytes()));
    }
}

#[test]
fn an_empty_name_and_names_that_share_bytes() {
    let mut sketch = Sketch::of(&tree(
        Node::new("").with("device_type", "1").with("type", "2"),
    ));
    // The end of one name is another; the zero of both is the empty one.
    let end = sketch.strings.len() as u32 - 1;
    sketch.pieces.insert(1, Piece::Property(end, b"3".to_vec()));
    sketch
        .pieces
        .insert(1, Piece::Property(end - 4, b"4".to_vec()));
    let tree = sketch.bytes();
    for (name, value) in [("device_type", "1"), ("type", "4"), ("", "3")] {
        assert_eq!(found(&tree, "/", name), Some(value.as_bytes()), "{name}");
    }
    assert_eq!(found(&tree, "/", "device_type\0type"), None);
    assert_eq!(found(&tree, "/", "\0"), None);
}

#[test]
fn the_place_of_a_value() {
    // Right behind token, length and name's offset, padding or not, whatever the order.
    for (value, turn) in [(&b""[..], 0), (b"x", 1), (b"abcd", 2), (b"abcdefghi", 3)] {
        let node = Node::new("n").with("before", [1; 5]).with("a", value);
        let tree = tree(Node::new("").holding(node));
        let mut rng = Rng::new(turn, "place", 0);
        for quirk in random::Quirk::ALL {
            let bytes = random::bytes(&mut rng, &tree, &[quirk]);
            let Place { at, length } = lookup(&bytes, b"/n", b"a")
                .expect("it has the form")
                .expect("it is there");
            assert_eq!(length, value.len());
            assert_eq!(&bytes[at..at + length], value);
            assert_eq!(get(&bytes, at - 12), 3);
            assert_eq!(get(&bytes, at - 8), value.len() as u32);
            let placed = walked(&bytes).into_iter().filter(|w| w.1 == b"a");
            assert_eq!(placed.map(|w| w.2.at).collect::<Vec<_>>(), [at]);
        }
    }
}

#[test]
fn which_tree_has_it() {
    let one = bytes(&tree(service(&["n"], "a", "service").with("only", "s")));
    let two = bytes(&tree(
        service(&["n"], "a", "the board's").with("other", "b"),
    ));
    let (_, at, length) = look(&one, &two, b"/n", b"a");
    assert_eq!(&one[at as usize..(at + length) as usize], b"service");
    assert_eq!(look(&one, &two, b"/n", b"a").0, number::IN_SERVICE);
    assert_eq!(look(&one, &two, b"/", b"only").0, number::IN_SERVICE);
    assert_eq!(look(&one, &two, b"/", b"other").0, number::IN_BOARD);
    assert_eq!(
        look(&one, &two, b"/n", b"other"),
        (number::IN_NEITHER, 0, 0)
    );
    assert_eq!(look(&one, &two, b"/m", b"a"), (0, 0, 0));
    assert_eq!(look(&bare(), &bare(), b"/", b"a"), (0, 0, 0));
    // The board's where the service tree has the node and not the property.
    let (number, at, length) = look(&one, &two, b"/", b"other");
    assert_eq!(
        (number, &two[at as usize..(at + length) as usize]),
        (2, &b"b"[..])
    );
    // An empty value is one.
    let empty = bytes(&tree(service(&["n"], "a", "")));
    let (number, at, length) = look(&empty, &two, b"/n", b"a");
    assert_eq!((number, length), (1, 0));
    assert_eq!(get(&empty, at as usize - 12), 3);
    let (number, at, length) = look(&bare(), &empty, b"/n", b"a");
    assert_eq!((number, length), (2, 0));
    assert_ne!(at, 0);
    let holder = pair_lookup(&one, &two, b"/", b"nothing");
    assert_eq!(holder, Ok(Holder::Neither));
}

#[test]
fn slips_of_other_lengths() {
    let tree = bytes(&odd());
    for length in (0..40).filter(|&length| length != SLIP_LEN) {
        for other in [&tree[..], &[]] {
            let mut slip = vec![0xA5; length];
            let number = model::lookup(&tree, other, b"/", b"a", &mut slip);
            assert_eq!(number, 8, "8 comes before 11");
            assert_eq!(slip, vec![0xA5; length]);
        }
    }
}

#[test]
fn a_damaged_tree_on_either_side() {
    let good = bytes(&odd());
    let whole = tree(
        root()
            .holding(Node::memory("memory", reg((2, 2), &[(1, 2)])).with("numa-node-id", word(3)))
            .holding(Node::new("reserved-memory").holding(Node::new("b").with("reg", []))),
    );
    let taken_in = bytes(&whole);
    assert_eq!(number(&taken_in, &good), 0);
    for (which, broken) in Break::ALL.into_iter().enumerate() {
        for turn in 0..40 {
            let mut rng = Rng::new(which as u64, "side", turn);
            let bad = broken.done_to(&mut rng, &whole);
            let looked = look(&good, &bad, b"/", b"a");
            if broken.is_of_the_form() {
                // Also where the other tree would have it.
                assert_eq!(looked, (11, 0, 0), "{broken:?}");
                assert_eq!(look(&bad, &good, b"/", b"a"), (11, 0, 0), "{broken:?}");
                assert_eq!(look(&bad, &bad, b"/", b"a"), (11, 0, 0), "{broken:?}");
                assert_eq!(number(&bad, &good), 11, "{broken:?}");
                assert_eq!(number(&taken_in, &bad), 11, "{broken:?}");
            } else {
                // Values are no question of form, nor those of a service tree's own nodes.
                assert_eq!(looked.0, 1, "{broken:?}");
                assert_eq!(look(&bad, &good, b"/", b"a").0, 2, "{broken:?}");
                assert_eq!(number(&bad, &bare()), 11, "{broken:?}");
            }
        }
    }
}

fn board() -> Node {
    root()
        .holding(Node::memory("memory", reg((2, 2), &[(0x1000, 0x1000)])))
        .holding(Node::new("ram").with("reg", reg((2, 2), &[(0x8000, 0x100)])))
        .holding(
            Node::new("reserved-memory")
                .holding(Node::new("a").with("reg", reg((2, 2), &[(0x1100, 0x10)])))
                .holding(
                    Node::new("b")
                        .with("reg", reg((2, 2), &[(0x1200, 0x10)]))
                        .with("no-map", []),
                ),
        )
}

const BOARD: &str = "add 0x1000 0x1000 0\nreserve 0x1100 0x10\nmark 0x1200 0x10\n";

#[test]
fn a_bare_root_gives_what_the_board_gives() {
    assert_eq!(lines(&board(), &Node::new("")), BOARD);
    assert_eq!(lines(&board(), &Node::new("board")), BOARD);
    for stored in stored::all() {
        let expected = stored.expected;
        let asks = pair_asks(stored.bytes, &bare()).expect("the pair is read");
        assert_eq!(asks.iter().map(line).collect::<String>(), expected);
    }
    let mut range = |rng: &mut Rng| (rng.below(1 << 32), 1 + rng.below(0x10000));
    for turn in 0..500 {
        let mut rng = Rng::new(1, "bare", turn);
        let made = random::some(&mut rng, &mut range);
        let broken = rng.pick(&Break::ALL).done_to(&mut rng, &made.tree);
        for bytes in [made.bytes, broken] {
            assert_eq!(pair_asks(&bytes, &bare()), asks(&bytes));
            let (mut one, mut other) = (fresh(), fresh());
            let number = model::intake_tree(&mut one, &bytes);
            assert_eq!(model::intake_trees(&mut other, &bytes, &bare()), number);
            assert!(one == other);
        }
    }
}

#[test]
fn each_property_corrected() {
    let range = |base, size| reg((2, 2), &[(base, size)]);
    for (names, name, value, expected) in [
        (
            &["memory"][..],
            "reg",
            [range(0x2000, 0x80), range(0, 1)].concat(),
            "add 0x2000 0x80 0\nadd 0x0 0x1 0\nreserve 0x1100 0x10\nmark 0x1200 0x10\n",
        ),
        // An empty value is there, and corrects.
        (
            &["memory"],
            "reg",
            Vec::new(),
            "reserve 0x1100 0x10\nmark 0x1200 0x10\n",
        ),
        (
            &["memory"],
            "device_type",
            Vec::new(),
            "reserve 0x1100 0x10\nmark 0x1200 0x10\n",
        ),
        (
            &["memory"],
            "numa-node-id",
            word(63),
            "add 0x1000 0x1000 63\nreserve 0x1100 0x10\nmark 0x1200 0x10\n",
        ),
        (
            &["ram"],
            "device_type",
            b"memory\0".to_vec(),
            "add 0x1000 0x1000 0\nadd 0x8000 0x100 0\nreserve 0x1100 0x10\nmark 0x1200 0x10\n",
        ),
        (
            &["reserved-memory", "a"],
            "reg",
            range(0x1f00, 0x20),
            "add 0x1000 0x1000 0\nreserve 0x1f00 0x20\nmark 0x1200 0x10\n",
        ),
        (
            &["reserved-memory", "b"],
            "reg",
            range(0x1f00, 0x20),
            "add 0x1000 0x1000 0\nreserve 0x1100 0x10\nmark 0x1f00 0x20\n",
        ),
        (
            &["reserved-memory", "a"],
            "no-map",
            Vec::new(),
            "add 0x1000 0x1000 0\nmark 0x1100 0x10\nmark 0x1200 0x10\n",
        ),
        (
            &["reserved-memory", "b"],
            "reg",
            Vec::new(),
            "add 0x1000 0x1000 0\nreserve 0x1100 0x10\n",
        ),
        // As the board has it already.
        (&[], "#address-cells", word(2), BOARD),
        (&[], "#size-cells", word(2), BOARD),
    ] {
        let service = service(names, name, value);
        assert_eq!(lines(&board(), &service), expected, "{names:?} {name}");
        // The same by one name with a slash, and in the second of two nodes.
        if names.len() == 2 {
            let mut slashed = service.children[0].children[0].clone();
            slashed.name = names.join("/").into();
            let slashed = Node::new("").holding(slashed);
            assert_eq!(lines(&board(), &slashed), expected, "{names:?} {name}");
        }
        if !names.is_empty() {
            let second = Node::new("")
                .holding(Node::new(names[0]))
                .holding(service.children[0].clone());
            assert_eq!(lines(&board(), &second), expected, "{names:?} {name}");
        }
    }
}

#[test]
fn corrected_cells() {
    // Words 0, 0x1000, 0, 0x1000: by cells 1 and 1 two ranges.
    let one = Node::new("")
        .with("#address-cells", word(1))
        .with("#size-cells", word(1));
    assert_eq!(
        lines(&board(), &one),
        "add 0x0 0x1000 0\nadd 0x0 0x1000 0\nreserve 0x0 0x1100\nreserve 0x0 0x10\n\
         mark 0x0 0x1200\nmark 0x0 0x10\n"
    );
    // By cells 2 and 1 they are no whole entries.
    let sizes = service(&[], "#size-cells", word(1));
    assert_eq!(faults(&board(), &sizes), [Fault::Reg; 3]);
    // Of a nameless child they are the root's, after the root's own.
    let nameless = service(&[""], "#size-cells", word(1));
    assert_eq!(faults(&board(), &nameless), [Fault::Reg; 3]);
    assert_eq!(
        lines(&board(), &nameless.with("#size-cells", word(2))),
        BOARD
    );
    for value in [
        &b""[..],
        b"\0\0\0\0",
        b"\0\0\0\x03",
        b"\0\0\x02",
        b"\0\0\0\x02\0",
    ] {
        for name in ["#address-cells", "#size-cells"] {
            assert_eq!(faults(&board(), &service(&[], name, value)), [Fault::Cells]);
            // The board's wrong cells are put right.
            let mut wrong = board();
            for property in &mut wrong.properties {
                if property.0 == name.as_bytes() {
                    property.1 = value.to_vec();
                }
            }
            assert_eq!(faults(&wrong, &Node::new("")), [Fault::Cells]);
            assert_eq!(lines(&wrong, &service(&[], name, word(2))), BOARD);
            // Other nodes' cells are nobody's.
            for other in ["memory", "reserved-memory"] {
                assert_eq!(lines(&board(), &service(&[other], name, value)), BOARD);
            }
        }
    }
    // Absent from both they are 2 and 1.
    let mut absent = board();
    absent.properties.clear();
    assert_eq!(faults(&absent, &Node::new("")), [Fault::Reg; 3]);
    let sizes = service(&[], "#size-cells", word(2));
    assert_eq!(lines(&absent, &sizes), BOARD);
}

#[test]
fn number_11_comes_and_goes() {
    let node = |child: Node| root().holding(child);
    let memory = |value: &[u8]| node(Node::memory("m", value));
    let range = reg((2, 2), &[(1, 2)]);
    // A ragged reg, of memory, reserved and marked.
    for (names, board) in [
        (&["m"][..], memory(&range)),
        (
            &["reserved-memory", "m"],
            node(Node::new("reserved-memory").holding(Node::new("m").with("reg", &range))),
        ),
        (
            &["reserved-memory", "m"],
            node(
                Node::new("reserved-memory")
                    .holding(Node::new("m").with("no-map", []).with("reg", &range)),
            ),
        ),
    ] {
        let good = lines(&board, &Node::new(""));
        assert_eq!(lines(&board, &service(names, "reg", &range)), good);
        let ragged = &range[..15];
        assert_eq!(faults(&board, &service(names, "reg", ragged)), [Fault::Reg]);
        let mut bad = board.clone();
        let node = match names.len() {
            1 => &mut bad.children[0],
            _ => &mut bad.children[0].children[0],
        };
        for property in &mut node.properties {
            if property.0 == b"reg" {
                property.1 = ragged.to_vec();
            }
        }
        assert_eq!(faults(&bad, &Node::new("")), [Fault::Reg]);
        assert_eq!(lines(&bad, &service(names, "reg", &range)), good);
        assert_eq!(lines(&bad, &service(names, "reg", [])), "");
    }
    // A node id.
    for value in [&word(64)[..], b"", b"\0\0\0", b"\0\0\0\0\0"] {
        let id = service(&["m"], "numa-node-id", value);
        assert_eq!(faults(&memory(&range), &id), [Fault::NodeId]);
        let bad = node(Node::memory("m", &range).with("numa-node-id", value));
        assert_eq!(faults(&bad, &Node::new("")), [Fault::NodeId]);
        let id = service(&["m"], "numa-node-id", word(7));
        assert_eq!(lines(&bad, &id), "add 0x1 0x2 7\n");
        // What is no memory any more is not asked for it.
        let other = service(&["m"], "device_type", "cpu\0");
        assert_eq!(lines(&bad, &other), "");
    }
    // A node that becomes memory is asked.
    let other = node(Node::new("m").with("reg", [1; 5]).with("numa-node-id", []));
    assert_eq!(lines(&other, &Node::new("")), "");
    let memory = service(&["m"], "device_type", "memory\0");
    assert_eq!(faults(&other, &memory), [Fault::NodeId, Fault::Reg]);
}

#[test]
fn a_service_trees_own_nodes_and_list_add_nothing() {
    let own = tree(
        root()
            .holding(Node::memory("more", reg((2, 2), &[(5, 6)])).with("numa-node-id", word(64)))
            .holding(Node::new("reserved-memory").holding(Node::new("c").with("reg", [1; 3])))
            .holding(Node::memory("ram2", [1; 5])),
    );
    assert_eq!(lines(&board(), &own.root), BOARD);
    let listed = Tree {
        list: vec![(1, 2), (3, 4)],
        ..own.clone()
    };
    let board_bytes = bytes(&tree(board()));
    let asks = pair_asks(&board_bytes, &bytes(&listed)).expect("the pair is read");
    assert_eq!(asks.iter().map(line).collect::<String>(), BOARD);
    // But its list must have an end, and the board's counts.
    let mut unended = Sketch::of(&listed);
    unended.ended = false;
    unended.order.swap(0, 2);
    assert_eq!(number(&board_bytes, &unended.bytes()), 11);
    let asks = pair_asks(&bytes(&listed), &board_bytes).expect_err("ragged ranges");
    assert!(asks.contains(&Fault::Reg));
    let listed = Tree {
        list: vec![(1, 2)],
        root: board(),
    };
    let asks = pair_asks(&bytes(&listed), &bare()).expect("the pair is read");
    assert_eq!(line(&asks[1]), "reserve 0x1 0x2\n");
    assert_ne!(get(&bytes(&listed), LIST_AT), 0);
}

#[test]
fn corrections_beside_the_path_do_nothing() {
    let range = reg((2, 2), &[(5, 6)]);
    for names in [
        &["memor"][..],
        &["memory@0"],
        &["memory", ""],
        &["", "memory"],
        &["/memory"],
        &["memory", "memory"],
        &["board", "memory"],
        &["Memory"],
        &["a"],
        &["reserved-memory"],
        &["reserved-memory", "a", ""],
        &["reserved-memory", "c"],
        &["reserved-memory/"],
        &["reserved-memory", "a", "b"],
        &[],
    ] {
        assert_eq!(
            lines(&board(), &service(names, "reg", &range)),
            BOARD,
            "{names:?}"
        );
    }
    for name in ["re", "regs", "", "reg\u{1}"] {
        assert_eq!(
            lines(&board(), &service(&["memory"], name, &range)),
            BOARD,
            "{name}"
        );
    }
    // A name in the service tree's root counts for nothing.
    let mut named = service(&[], "reg", &range);
    named.name = b"memory".to_vec();
    assert_eq!(lines(&board(), &named), BOARD);
}

#[test]
fn two_board_nodes_of_one_path_get_one_correction() {
    let range = |base| reg((2, 2), &[(base, 1)]);
    let child = |base| Node::new("c").with("reg", range(base));
    let twins = root()
        .holding(Node::memory("m", range(1)))
        .holding(Node::memory("m", range(2)))
        .holding(Node::new("reserved-memory").holding(child(3)))
        .holding(
            Node::new("reserved-memory")
                .holding(child(4))
                .holding(child(5)),
        );
    let memory = service(&["m"], "reg", range(9));
    assert_eq!(
        lines(&twins, &memory),
        "add 0x9 0x1 0\nadd 0x9 0x1 0\nreserve 0x3 0x1\nreserve 0x4 0x1\nreserve 0x5 0x1\n"
    );
    let reserved = service(&["reserved-memory", "c"], "reg", range(9));
    let nine = "reserve 0x9 0x1\n".repeat(3);
    assert_eq!(
        lines(&twins, &reserved),
        format!("add 0x1 0x1 0\nadd 0x2 0x1 0\n{nine}")
    );
    // By its bytes: a child of the root that has the path of a reserved one.
    let slashed = root()
        .holding(Node::memory("reserved-memory/c", range(1)))
        .holding(Node::new("reserved-memory").holding(child(2)));
    assert_eq!(
        lines(&slashed, &reserved),
        "add 0x9 0x1 0\nreserve 0x9 0x1\n"
    );
    // And one without a name has the root's.
    let nameless = root().holding(Node::memory("", range(1)));
    let in_root = service(&[], "reg", range(9));
    assert_eq!(lines(&nameless, &in_root), "add 0x9 0x1 0\n");
    let in_nameless = service(&[""], "reg", range(8));
    assert_eq!(lines(&nameless, &in_nameless), "add 0x8 0x1 0\n");
    assert_eq!(
        lines(&nameless, &in_nameless.with("reg", range(9))),
        "add 0x9 0x1 0\n"
    );
}

#[test]
fn the_first_correction_counts() {
    let range = |base| reg((2, 2), &[(base, 1)]);
    let board = root().holding(Node::memory("m", range(1)));
    let node = |base| Node::new("m").with("reg", range(base));
    // In one node, in two, behind one that has other properties only.
    let one = Node::new("").holding(node(2).with("reg", range(3)));
    let two = Node::new("").holding(node(2)).holding(node(3));
    let third = Node::new("")
        .holding(Node::new("m").with("status", "okay\0"))
        .holding(node(2))
        .holding(node(3));
    for service in [one, two, third] {
        assert_eq!(lines(&board, &service), "add 0x2 0x1 0\n");
    }
    // Of a name with a slash and nodes on the way, the one that comes first.
    let board = root().holding(Node::new("reserved-memory").holding(node(1)));
    let mut slashed = node(2);
    slashed.name = b"reserved-memory/m".to_vec();
    let on_the_way = Node::new("reserved-memory").holding(node(3));
    let both = Node::new("")
        .holding(slashed.clone())
        .holding(on_the_way.clone());
    assert_eq!(lines(&board, &both), "reserve 0x2 0x1\n");
    let both = Node::new("").holding(on_the_way).holding(slashed);
    assert_eq!(lines(&board, &both), "reserve 0x3 0x1\n");
}

#[test]
fn numbers_1_11_and_6() {
    let pages: Vec<(u64, u64)> = (0..129).map(|i| (2 * i, 1)).collect();
    let full = bytes(&tree(
        root().holding(Node::memory("m", reg((2, 2), &pages))),
    ));
    let good = bytes(&tree(root().holding(Node::memory("m", []))));
    let fills = bytes(&tree(service(&["m"], "reg", reg((2, 2), &pages))));
    let empties = bytes(&tree(service(&["m"], "reg", [])));
    let wrong = bytes(&tree(service(&["m"], "numa-node-id", word(64))));
    for (board, service, on_good) in [
        (&good, &bare(), 0),
        (&good, &fills, 6),
        (&full, &bare(), 6),
        (&full, &empties, 0),
        (&full, &wrong, 11),
        (&full, &Vec::new(), 11),
        (&Vec::new(), &fills, 11),
    ] {
        assert_eq!(number(board, service), on_good);
        let mut bad = fresh();
        bad[0] ^= 1;
        assert_eq!(model::intake_trees(&mut bad, board, service), 1);
        let short = &mut fresh()[1..];
        assert_eq!(model::intake_trees(short, board, service), 1);
    }
}

#[test]
fn a_tree_beside_itself() {
    for stored in stored::all() {
        let asks = pair_asks(stored.bytes, stored.bytes).expect("the pair is read");
        let said: String = asks.iter().map(line).collect();
        // Nodes of one path are then all as the first; of these trees only two-reserved
        // has such.
        assert!(
            said == stored.expected || stored.name == "two-reserved",
            "{}",
            stored.name
        );
    }
}

#[test]
fn depth_of_a_service_tree() {
    for (levels, number) in [(15, 0), (16, 0), (17, 11)] {
        let deep = bytes(&tree(chain(levels)));
        assert_eq!(self::number(&bytes(&tree(board())), &deep), number);
        let path = "/n".repeat(levels - 1);
        let bottom = bytes(&tree(service(&vec!["n"; levels - 1], "a", "deep")));
        let (answer, at, length) = look(&bottom, &bare(), path.as_bytes(), b"a");
        let value = &bottom[at as usize..(at + length) as usize];
        match number {
            0 => assert_eq!((answer, value), (1, &b"deep"[..])),
            _ => assert_eq!((answer, value), (11, &b""[..])),
        }
    }
}

fn meant(tree: &Tree) -> Option<String> {
    let asks = tree.asks()?.into_iter().map(|ask| match ask {
        trees::Ask::Add { base, size, node } => Ask::Add { base, size, node },
        trees::Ask::Reserve { base, size } => Ask::Reserve { base, size },
        trees::Ask::Mark { base, size } => Ask::Mark { base, size },
    });
    Some(asks.map(|ask| line(&ask)).collect())
}

#[test]
fn random_pairs_are_read_as_meant() {
    let mut range = |rng: &mut Rng| match rng.below(8) {
        0 => (rng.any_size(), rng.any_size()),
        _ => (rng.below(64) * 0x800, rng.below(8) * 0x400),
    };
    let (mut refused, mut changed) = (0, 0);
    let mut each = |rng: &mut Rng, only: Option<Correction>| {
        let pair = match only {
            Some(correction) => {
                let board = random::some(rng, &mut range);
                service::with(rng, &mut range, board.tree, &board.quirks, &[correction])
            }
            None => service::some(rng, &mut range),
        };
        let said = pair_asks(&pair.board_bytes, &pair.service_bytes);
        let said: Option<String> = said.ok().map(|asks| asks.iter().map(line).collect());
        let expected = meant(&pair.board.corrected(&pair.service));
        assert_eq!(said, expected, "{:?}", pair.corrections);
        refused += u32::from(expected.is_none());
        changed += u32::from(expected != meant(&pair.board));
        for _ in 0..4 {
            let listing = match rng.below(2) {
                0 => pair.service.listing(),
                _ => pair.board.listing(),
            };
            let (aim, path, name) = service::some_aim(rng, &listing);
            let holder = pair_lookup(&pair.service_bytes, &pair.board_bytes, &path, &name);
            let in_service = pair.service.lookup(&path, &name);
            let in_board = pair.board.lookup(&path, &name);
            let part =
                |bytes: &[u8], place: Place| bytes[place.at..place.at + place.length].to_vec();
            let (service, board) = match holder.expect("both have the form") {
                Holder::Service(place) => (Some(part(&pair.service_bytes, place)), None),
                Holder::Board(place) => (None, Some(part(&pair.board_bytes, place))),
                Holder::Neither => (None, None),
            };
            assert_eq!(service, in_service, "{aim:?} {path:?} {name:?}");
            if service.is_none() {
                assert_eq!(board, in_board, "{aim:?} {path:?} {name:?}");
            }
        }
        all_found("random", &pair.service_bytes);
    };
    for (which, correction) in Correction::ALL.into_iter().enumerate() {
        for turn in 0..40 {
            let mut rng = Rng::new(which as u64, "correction", turn);
            each(&mut rng, Some(correction));
        }
    }
    for turn in 0..2000 {
        let mut rng = Rng::new(3, "pairs", turn);
        each(&mut rng, None);
    }
    assert!(refused > 200 && changed > 1000, "{refused} {changed}");
    assert_eq!(Aim::ALL.len(), 17);
}

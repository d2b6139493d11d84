//! The intake of flattened trees: stored ones, and made ones of several sizes, whose time
//! for each byte shows how it grows; then stored ones with a service tree, and lookups.

use crate::library::Library;
use crate::sides::{call_both, Block, Call, Side, LENGTH};
use crate::time::{clock, middle, nanoseconds};
use std::hint::black_box;
use std::time::Instant;
use trees::node::{reg, word, DEPTH};
use trees::{stored, Node, Piece, Sketch, Tree};

/// The sizes of made trees, in bytes, nearly.
const SIZES: [usize; 3] = [1 << 12, 1 << 16, 1 << 20];

/// Makes a tree of about so many bytes.
type Shape = fn(usize) -> Vec<u8>;

const SHAPES: [(&str, Shape); 10] = [
    ("properties of one long name", |size| {
        let one = Piece::Property(FILLER, Vec::new());
        let mut sketch = filled(size / 2, &[one]);
        let at = FILLER as usize;
        sketch.strings.truncate(at);
        sketch.strings.extend(vec![b'x'; size / 2]);
        sketch.strings.push(0);
        sketch.bytes()
    }),
    ("properties of the root", |size| {
        filled(size, &[Piece::Property(FILLER, vec![1; 20])]).bytes()
    }),
    ("nops", |size| filled(size, &[Piece::Nop]).bytes()),
    ("nodes of no name", |size| {
        filled(size, &[Piece::Begin(Vec::new()), Piece::End]).bytes()
    }),
    ("nodes to level 16", |size| {
        let mut pieces = vec![Piece::Begin(b"n".to_vec()); DEPTH - 1];
        pieces.extend(vec![Piece::End; DEPTH - 1]);
        filled(size, &pieces).bytes()
    }),
    ("one long reg of memory", |size| {
        let touching: Vec<(u64, u64)> = (0..size as u64 / 16).map(|i| (16 * i, 16)).collect();
        filled(0, &memory(2, 0, &touching)).bytes()
    }),
    ("reserved nodes", |size| {
        let node = |i: u64| {
            let range = reg((2, 2), &[(16 * i, 16)]);
            let begin = Piece::Begin(b"n".to_vec());
            [begin, Piece::Property(REG, range), Piece::End]
        };
        let mut pieces = vec![Piece::Begin(b"reserved-memory".to_vec())];
        pieces.extend((0..size as u64 / 40).flat_map(node));
        pieces.push(Piece::End);
        filled(0, &pieces).bytes()
    }),
    ("a long list", |size| {
        let mut sketch = filled(0, &[Piece::Nop]);
        sketch.list = (0..size as u64 / 16).map(|i| (16 * i, 16)).collect();
        sketch.bytes()
    }),
    ("a list from above, apart", |size| {
        let count = size as u64 / 16;
        // Each below the one before; as many as fill the table, then one over all of them.
        let length = |i| if i % 512 == 511 { 32 * 512 } else { 16 };
        let mut sketch = filled(0, &[Piece::Nop]);
        sketch.list = (0..count).map(|i| (32 * (count - i), length(i))).collect();
        sketch.bytes()
    }),
    ("memory over a full table", |size| {
        // The table is full with records of two nodes by turns.
        let half = |first: u64| -> Vec<_> { (0..64).map(|i| (32 * i + first, 16)).collect() };
        let over = vec![(0, 64 * 32); size / 8];
        let pieces = [
            memory(1, 0, &half(0)),
            memory(1, 1, &half(16)),
            memory(1, 0, &over),
        ];
        rooted(1, 0, &pieces.concat()).bytes()
    }),
];

/// Where the names of `filled` stand.
const REG: u32 = 0;
const DEVICE_TYPE: u32 = 4;
const CELLS: [u32; 2] = [16, 31];
const NODE: u32 = 43;
const FILLER: u32 = 56;

/// A memory node with these ranges, by so many cells for address and size each.
fn memory(cells: u32, node: u32, ranges: &[(u64, u64)]) -> Vec<Piece> {
    vec![
        Piece::Begin(b"memory".to_vec()),
        Piece::Property(DEVICE_TYPE, b"memory\0".to_vec()),
        Piece::Property(NODE, word(node)),
        Piece::Property(REG, reg((cells, cells), ranges)),
        Piece::End,
    ]
}

/// A root of cells 2 and 2 with these pieces in it, again and again up to a size.
fn filled(size: usize, pieces: &[Piece]) -> Sketch {
    rooted(2, size, pieces)
}

/// The same, of so many cells.
fn rooted(cells: u32, size: usize, pieces: &[Piece]) -> Sketch {
    let mut sketch = Sketch::of(&Tree::default());
    sketch.strings =
        b"reg\0device_type\0#address-cells\0#size-cells\0numa-node-id\0filler\0".to_vec();
    sketch.pieces = pieces.to_vec();
    let times = (size / sketch.structure().len()).max(1);
    let mut all = vec![Piece::Begin(Vec::new())];
    all.extend(CELLS.map(|at| Piece::Property(at, word(cells))));
    all.extend((0..times).flat_map(|_| pieces.iter().cloned()));
    all.extend([Piece::End, Piece::Stop]);
    sketch.pieces = all;
    sketch
}

/// How long each side's calls on one tree may take in all, in nanoseconds, nearly.
const LONG: f64 = 2e8;

/// Nanoseconds of one call on a fresh block that gives this number, of both sides in turn.
fn times<Other: Side>(call: Call, number: u32, clock: f64) -> (f64, f64) {
    assert_eq!(call_both::<Other>(call, &mut Block::fresh()), number);
    let saved = Block::fresh();
    let mut block = Block([0; LENGTH]);
    let once = time::<Library>(call, &saved, &mut block);
    let turns = ((LONG / once) as usize).clamp(8, 1000);
    let (mut library, mut other) = (Vec::new(), Vec::new());
    for turn in 0..turns + turns / 10 + 1 {
        let pair = (
            time::<Library>(call, &saved, &mut block) - clock,
            time::<Other>(call, &saved, &mut block) - clock,
        );
        if turn > turns / 10 {
            library.push(pair.0);
            other.push(pair.1);
        }
    }
    (middle(&library), middle(&other))
}

fn time<S: Side>(call: Call, saved: &Block, block: &mut Block) -> f64 {
    block.0.copy_from_slice(&saved.0);
    let start = Instant::now();
    black_box(S::call(black_box(call), black_box(block), &mut [0; 16]));
    nanoseconds(start)
}

/// Real trees with the path of a memory node and the last property.
const PAIRS: [(&str, &str, [&str; 2]); 3] = [
    (
        "arm-virt-numa",
        "/memory@40000000",
        ["/chosen", "kaslr-seed"],
    ),
    (
        "riscv-virt-numa",
        "/memory@80000000",
        ["/soc/clint@2010000", "compatible"],
    ),
    (
        "sifive-u",
        "/memory@80000000",
        ["/soc/clint@2000000", "compatible"],
    ),
];

/// A service tree as one might be sent: a node id, a range that is reserved, a text.
fn small_service(memory: &str) -> Vec<u8> {
    let memory = Node::new(&memory[1..]).with("numa-node-id", word(1));
    let log = Node::new("log@0").with("reg", reg((2, 2), &[(0, 0x1000)]));
    let root = Node::new("")
        .with("model", "corrected\0")
        .holding(memory)
        .holding(Node::new("reserved-memory").holding(log));
    let list = Vec::new();
    Sketch::of(&Tree { list, root }).bytes()
}

/// Prints the times of pairs, and of lookups in them.
fn print_pairs<Other: Side>(clock: f64) {
    if !Other::PAIRS {
        println!("bench: pairs left out: the archive beside has no functions for them");
        return;
    }
    println!(
        "bench: a stored tree with a small service tree, its intake on a fresh block and the \
         lookup of its last property, ns, library/{} and ratio",
        Other::NAME
    );
    for (name, memory, [path, property]) in PAIRS {
        let board = stored::all().find(|tree| tree.name == name);
        let board = board.expect("it is stored").bytes;
        let service = small_service(memory);
        let intake = Call::IntakeTrees(board, &service);
        let lookup = Call::Lookup(&service, board, path.as_bytes(), property.as_bytes());
        print!("{name:28} {:>6} bytes", board.len());
        for (call, number) in [(intake, straight::DONE), (lookup, straight::IN_BOARD)] {
            let (library, other) = times::<Other>(call, number, clock);
            let times = format!("{library:.0}/{other:.0} {:.2}", library / other);
            print!(" {times:>20}");
        }
        println!();
    }
}

/// Prints the times of stored trees, then for each byte of made ones.
pub fn print<Other: Side>() {
    if !Other::TREES {
        println!("bench: tree left out: the archive beside has no function for it");
        return;
    }
    let clock = clock();
    println!(
        "bench: one intake of a stored tree on a fresh block, ns, library/{} and ratio",
        Other::NAME
    );
    for tree in stored::all() {
        let (library, other) = times::<Other>(Call::IntakeTree(tree.bytes), 0, clock);
        println!(
            "{:28} {:>6} bytes {:>20}",
            tree.name,
            tree.bytes.len(),
            format!("{library:.0}/{other:.0} {:.2}", library / other)
        );
    }
    println!(
        "bench: one intake of a made tree on a fresh block, ns for each byte of the tree, \
         library/{} and ratio; then the library's time for a byte of the largest over that of \
         the smallest",
        Other::NAME
    );
    print!("{:28}", "");
    for size in SIZES {
        print!(" {:>18}", format!("{} KiB", size >> 10));
    }
    println!();
    for (name, shape) in SHAPES {
        print!("{name:28}");
        let mut each = Vec::new();
        for size in SIZES {
            let board = shape(size);
            let (library, other) = times::<Other>(Call::IntakeTree(&board), 0, clock);
            let bytes = board.len() as f64;
            print!(
                " {:>18}",
                format!(
                    "{:.2}/{:.2} {:.2}",
                    library / bytes,
                    other / bytes,
                    library / other
                )
            );
            each.push(library / bytes);
        }
        println!(" {:>6.2}", each[SIZES.len() - 1] / each[0]);
    }
    print_pairs::<Other>(clock);
}

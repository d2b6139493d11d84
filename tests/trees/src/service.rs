//! Pairs of a board's tree and a service tree with corrections to it, and paths and names
//! to look up.

use crate::node::{reg, word, Listed, Node, Tree, DEPTH};
use crate::random::{self, bytes, Quirk, Ranges};
use crate::rng::Rng;

/// What a service tree may do to a board's tree, or without any effect on it.
#[derive(Clone, Copy, Debug, PartialEq, Eq)]
pub enum Correction {
    /// Other ranges, none, ragged ones, of a node that has some.
    Reg,
    RegEmpty,
    RegRagged,
    /// A node becomes memory, or is none any more.
    Memory,
    NotMemory,
    NodeId,
    NodeIdBad,
    NoMap,
    /// Other cells of the root, the ranges as they were, or so many words in all of them.
    Cells,
    CellsAll,
    CellsBad,
    /// What is wrong with the board's tree is put right.
    MendedCells,
    MendedReg,
    MendedNodeId,
    /// Two board nodes of one path.
    Twins,
    /// The first of two properties, of two nodes of one path.
    TwoProperties,
    TwoNodes,
    /// Two names of the path in one name, in the service tree, in the board's.
    Slashed,
    BoardSlashed,
    /// In a nameless child of the service tree's root, whose path is the root's.
    Nameless,
    /// The right name at nearly the right path.
    Beside,
    /// Memory, reserved and marked nodes of the service tree's own, and a list.
    OwnNodes,
    OwnList,
    /// Nodes of level 16.
    Deep,
    /// A root with a name.
    NamedRoot,
    /// Properties that nobody asks for.
    Unused,
    /// A root alone, and the board's tree itself.
    Bare,
    Same,
}

use Correction::*;

impl Correction {
    pub const ALL: [Correction; 28] = [
        Reg,
        RegEmpty,
        RegRagged,
        Memory,
        NotMemory,
        NodeId,
        NodeIdBad,
        NoMap,
        Cells,
        CellsAll,
        CellsBad,
        MendedCells,
        MendedReg,
        MendedNodeId,
        Twins,
        TwoProperties,
        TwoNodes,
        Slashed,
        BoardSlashed,
        Nameless,
        Beside,
        OwnNodes,
        OwnList,
        Deep,
        NamedRoot,
        Unused,
        Bare,
        Same,
    ];
}

/// Two trees, their bytes, and what was done.
#[derive(Clone, Debug)]
pub struct Pair {
    pub board: Tree,
    pub service: Tree,
    pub board_bytes: Vec<u8>,
    pub service_bytes: Vec<u8>,
    pub corrections: Vec<Correction>,
}

/// A pair with a few corrections.
pub fn some(rng: &mut Rng, ranges: Ranges) -> Pair {
    let mut corrections: Vec<Correction> = (0..1 + rng.below(3))
        .map(|_| rng.pick(&Correction::ALL))
        .collect();
    corrections.dedup();
    let board = random::some(rng, ranges);
    with(rng, ranges, board.tree, &board.quirks, &corrections)
}

/// A pair with these corrections of a board's tree, which has these quirks.
pub fn with(
    rng: &mut Rng,
    ranges: Ranges,
    mut board: Tree,
    quirks: &[Quirk],
    corrections: &[Correction],
) -> Pair {
    let mut service = Tree::default();
    for &correction in corrections {
        correct(rng, ranges, &mut board, &mut service, correction);
    }
    if corrections.contains(&Bare) {
        service.root.properties.clear();
        service.root.children.clear();
    }
    if corrections.contains(&Same) {
        service = board.clone();
    }
    let board_bytes = bytes(rng, &board, quirks);
    let mut service_bytes = board_bytes.clone();
    if !corrections.contains(&Same) || rng.one_in(2) {
        use Quirk::*;
        let quirks: Vec<Quirk> = [
            Nops,
            Padding,
            Order,
            Overlap,
            TotalAboveLent,
            LentAboveTotal,
            Copies,
            OpenStrings,
        ]
        .into_iter()
        .filter(|_| rng.one_in(4))
        .collect();
        service_bytes = bytes(rng, &service, &quirks);
    }
    Pair {
        board,
        service,
        board_bytes,
        service_bytes,
        corrections: corrections.to_vec(),
    }
}

/// The child numbers of the way to a node that the intake asks for ranges; one is made if
/// there is none.
fn used(rng: &mut Rng, ranges: Ranges, board: &mut Tree, wanted: [bool; 2]) -> Vec<usize> {
    let mut ways = Vec::new();
    for (i, child) in board.root.children.iter().enumerate() {
        if wanted[0] && child.first("device_type").map(|v| &v[..]) == Some(b"memory\0") {
            ways.push(vec![i]);
        }
        if wanted[1] && child.name == b"reserved-memory" {
            ways.extend((0..child.children.len()).map(|j| vec![i, j]));
        }
    }
    if !ways.is_empty() {
        return ways[rng.index(ways.len())].clone();
    }
    let cells = board.cells().unwrap_or((2, 1));
    let children = &mut board.root.children;
    if wanted[0] {
        children.push(random::memory(rng, ranges, cells));
        return vec![children.len() - 1];
    }
    let child = random::reserved_child(rng, ranges, cells);
    children.push(Node::new("reserved-memory").holding(child));
    vec![children.len() - 1, 0]
}

/// The names on the way to a board's node.
fn names(board: &Tree, way: &[usize]) -> Vec<Vec<u8>> {
    let mut node = &board.root;
    way.iter()
        .map(|&i| {
            node = &node.children[i];
            node.name.clone()
        })
        .collect()
}

/// Puts a property at the end of these names, into nodes that are there or into new ones.
fn put(rng: &mut Rng, service: &mut Tree, names: &[Vec<u8>], name: &str, value: Vec<u8>) {
    let mut node = &mut service.root;
    for name in names {
        let there = node.children.iter().position(|child| child.name == *name);
        let at = match there {
            Some(at) if !rng.one_in(5) => at,
            _ => {
                let at = rng.index(node.children.len() + 1);
                node.children.insert(at, Node::new(name));
                at
            }
        };
        node = &mut node.children[at];
    }
    let at = rng.index(node.properties.len() + 1);
    node.properties.insert(at, (name.into(), value));
}

fn some_reg(rng: &mut Rng, ranges: Ranges, cells: (u32, u32)) -> Vec<u8> {
    let ranges: Vec<_> = (0..1 + rng.below(2)).map(|_| ranges(rng)).collect();
    reg(cells, &ranges)
}

/// A property for a node, and its value, all of them such as the intake asks for.
fn some_property(
    rng: &mut Rng,
    ranges: Ranges,
    cells: (u32, u32),
    way: &[usize],
) -> (&'static str, Vec<u8>) {
    match rng.below(6) {
        0..=2 => ("reg", some_reg(rng, ranges, cells)),
        _ if way.len() > 1 => ("no-map", Vec::new()),
        3 => ("device_type", b"cpu\0".to_vec()),
        _ => ("numa-node-id", word(rng.below(64) as u32)),
    }
}

fn correct(
    rng: &mut Rng,
    ranges: Ranges,
    board: &mut Tree,
    service: &mut Tree,
    correction: Correction,
) {
    let cells = board.cells().unwrap_or((2, 1));
    let entry = 4 * (cells.0 + cells.1) as usize;
    let ragged = |rng: &mut Rng| {
        let length = entry * rng.index(2) + 1 + rng.index(entry - 1);
        rng.bytes(length)
    };
    let set = |node: &mut Node, name: &str, value: Vec<u8>| {
        node.properties.retain(|p| p.0 != name.as_bytes());
        node.properties.push((name.into(), value));
    };
    match correction {
        Reg | RegEmpty | RegRagged => {
            let way = used(rng, ranges, board, [true, true]);
            let value = match correction {
                Reg => some_reg(rng, ranges, cells),
                RegEmpty => Vec::new(),
                _ => ragged(rng),
            };
            put(rng, service, &names(board, &way), "reg", value);
        }
        Memory => {
            if board.root.children.is_empty() || rng.one_in(2) {
                let value = some_reg(rng, ranges, cells);
                board
                    .root
                    .children
                    .push(Node::new("ram").with("reg", value));
            }
            let way = vec![rng.index(board.root.children.len())];
            let names = names(board, &way);
            put(rng, service, &names, "device_type", b"memory\0".to_vec());
            if rng.one_in(2) {
                let value = some_reg(rng, ranges, cells);
                put(rng, service, &names, "reg", value);
            }
        }
        NotMemory => {
            let way = used(rng, ranges, board, [true, false]);
            let value = rng.pick(&[&b""[..], b"memory", b"memory\0\0", b"cpu\0"]);
            put(
                rng,
                service,
                &names(board, &way),
                "device_type",
                value.to_vec(),
            );
        }
        NodeId | NodeIdBad => {
            let way = used(rng, ranges, board, [true, false]);
            let value = match correction {
                NodeId => word(rng.below(64) as u32),
                _ => rng
                    .pick(&[&b""[..], b"\0\0\0\x40", b"\0\0\0", b"\0\0\0\0\0\0\0\x01"])
                    .to_vec(),
            };
            put(rng, service, &names(board, &way), "numa-node-id", value);
        }
        NoMap => {
            let way = used(rng, ranges, board, [false, true]);
            let len = rng.pick(&[0, 0, 1, 4]);
            let value = rng.bytes(len);
            put(rng, service, &names(board, &way), "no-map", value);
        }
        Cells | CellsAll => {
            let new = (1 + rng.below(2) as u32, 1 + rng.below(2) as u32);
            put(rng, service, &[], "#address-cells", word(new.0));
            put(rng, service, &[], "#size-cells", word(new.1));
            for i in 0..board.root.children.len() {
                let reserved = board.root.children[i].name == b"reserved-memory";
                let below = match reserved {
                    true => board.root.children[i].children.len(),
                    false => 0,
                };
                let mut ways = vec![vec![i]];
                ways.extend((0..below).map(|j| vec![i, j]));
                for way in ways {
                    if correction == CellsAll && board.at(&way).first("reg").is_some() {
                        let value = some_reg(rng, ranges, new);
                        put(rng, service, &names(board, &way), "reg", value);
                    }
                }
            }
        }
        CellsBad => {
            let name = rng.pick(&["#address-cells", "#size-cells"]);
            let value = rng.pick(&[
                &b""[..],
                b"\0\0\0\0",
                b"\0\0\0\x03",
                b"\0\0\x01",
                b"\0\0\0\x01\0",
            ]);
            put(rng, service, &[], name, value.to_vec());
        }
        MendedCells => {
            put(rng, service, &[], "#address-cells", word(cells.0));
            put(rng, service, &[], "#size-cells", word(cells.1));
            let name = rng.pick(&["#address-cells", "#size-cells"]);
            let value = rng.pick(&[&b""[..], b"\0\0\0\0", b"\0\0\0\x03", b"\0\0\x01"]);
            set(&mut board.root, name, value.to_vec());
        }
        MendedReg | MendedNodeId => {
            let memory = correction == MendedNodeId || rng.one_in(2);
            let way = used(rng, ranges, board, [memory, !memory]);
            let (name, wrong, right) = match correction {
                MendedReg => ("reg", ragged(rng), some_reg(rng, ranges, cells)),
                _ => ("numa-node-id", word(64), word(63)),
            };
            set(board.at(&way), name, wrong);
            put(rng, service, &names(board, &way), name, right);
        }
        Twins => {
            let way = used(rng, ranges, board, [true, true]);
            let mut twin = board.at(&way).clone();
            let (&last, above) = way.split_last().expect("not the root");
            if rng.one_in(2) {
                twin.properties.retain(|p| p.0 != b"reg");
            }
            let children = &mut board.at(above).children;
            let at = last + 1 + rng.index(children.len() - last);
            children.insert(at, twin);
            let (name, value) = some_property(rng, ranges, cells, &way);
            put(rng, service, &names(board, &way), name, value);
        }
        TwoProperties | TwoNodes => {
            let way = used(rng, ranges, board, [true, true]);
            let names = names(board, &way);
            let (name, value) = some_property(rng, ranges, cells, &way);
            let other = match name {
                "reg" => some_reg(rng, ranges, cells),
                "numa-node-id" => word(rng.below(64) as u32),
                _ => b"memory\0".to_vec(),
            };
            if correction == TwoProperties {
                put(rng, service, &names, name, value);
                put(rng, service, &names, name, other);
                return;
            }
            // The second of two chains of one path, or the second of two last nodes.
            let split = rng.index(names.len());
            for value in [value, other] {
                let mut node = &mut service.root;
                for (i, name) in names.iter().enumerate() {
                    let last = node.children.iter().rposition(|child| child.name == *name);
                    let at = match last {
                        Some(at) if i < split => at,
                        _ => {
                            node.children.push(Node::new(name));
                            node.children.len() - 1
                        }
                    };
                    node = &mut node.children[at];
                }
                node.properties.push((name.into(), value));
            }
        }
        Slashed => {
            let way = used(rng, ranges, board, [false, true]);
            let (name, value) = some_property(rng, ranges, cells, &way);
            let names = [names(board, &way).join(&b'/')];
            put(rng, service, &names, name, value);
        }
        BoardSlashed => {
            let way = used(rng, ranges, board, [true, false]);
            board.at(&way).name = b"reserved-memory/a".to_vec();
            let (name, value) = some_property(rng, ranges, cells, &way);
            let names = [b"reserved-memory".to_vec(), b"a".to_vec()];
            put(rng, service, &names, name, value);
        }
        Nameless => {
            let (name, value) = match rng.below(3) {
                0 => ("#address-cells", word(cells.0)),
                1 => ("#size-cells", word(1 + rng.below(2) as u32)),
                _ => ("reg", some_reg(rng, ranges, cells)),
            };
            put(rng, service, &[Vec::new()], name, value);
            if rng.one_in(2) {
                put(rng, service, &[], name, word(2));
            }
            if rng.one_in(2) {
                // A nameless board node has the root's path too.
                let node = random::memory(rng, ranges, cells);
                board.root.children.push(Node {
                    name: Vec::new(),
                    ..node
                });
            }
        }
        Beside => {
            let way = used(rng, ranges, board, [true, true]);
            let mut names = names(board, &way);
            let (name, value) = some_property(rng, ranges, cells, &way);
            let last = names.len() - 1;
            match rng.below(6) {
                0 => names.push(Vec::new()),
                1 => names.insert(0, Vec::new()),
                2 => names[last].push(b'x'),
                3 => names[last].insert(0, b'/'),
                4 => names.insert(0, service.root.name.clone()),
                _ => {
                    names.pop();
                }
            }
            put(rng, service, &names, name, value);
        }
        OwnNodes => {
            let node = match rng.one_in(2) {
                true => random::memory(rng, ranges, cells),
                false => random::reserved(rng, ranges, cells),
            };
            let at = rng.index(service.root.children.len() + 1);
            service.root.children.insert(at, node);
        }
        OwnList => {
            let pair = ranges(rng);
            service.list.extend((pair != (0, 0)).then_some(pair));
        }
        Deep => {
            let way = vec![b"n".to_vec(); DEPTH - 1];
            for levels in [DEPTH - 1, 1 + rng.index(DEPTH - 1)] {
                let value = some_reg(rng, ranges, cells);
                put(rng, service, &way[..levels], "reg", value);
            }
        }
        NamedRoot => {
            service.root.name = rng
                .pick(&[&b"board"[..], b"/", b"memory", b"reserved-memory"])
                .to_vec();
        }
        Unused => {
            let way = used(rng, ranges, board, [true, true]);
            let names = names(board, &way);
            let value = rng.bytes(5);
            let name = rng.pick(&["compatible", "re", "regs", "reg", "no-ma", ""]);
            put(rng, service, &[], name, value.clone());
            let name = rng.pick(&["status", "re", "regs", "reg-names", "no-maps", ""]);
            put(rng, service, &names, name, value);
        }
        Bare | Same => {}
    }
}

/// How a path and a name to look up came about.
#[derive(Clone, Copy, Debug, PartialEq, Eq)]
pub enum Aim {
    /// Of a property.
    There,
    /// A path and a name that are there, mostly not together.
    Mixed,
    /// A path that is there, changed.
    Cut,
    Longer,
    OtherByte,
    DoubledSlash,
    TrailingSlash,
    WithoutSlash,
    WithRootName,
    WithoutUnit,
    Empty,
    Root,
    AnyBytes,
    /// A name that is there, changed.
    NameCut,
    NameLonger,
    NameWithZero,
    NoName,
}

impl Aim {
    pub const ALL: [Aim; 17] = [
        Aim::There,
        Aim::Mixed,
        Aim::Cut,
        Aim::Longer,
        Aim::OtherByte,
        Aim::DoubledSlash,
        Aim::TrailingSlash,
        Aim::WithoutSlash,
        Aim::WithRootName,
        Aim::WithoutUnit,
        Aim::Empty,
        Aim::Root,
        Aim::AnyBytes,
        Aim::NameCut,
        Aim::NameLonger,
        Aim::NameWithZero,
        Aim::NoName,
    ];

    /// A path and a name, by what a tree has.
    pub fn at(self, rng: &mut Rng, listing: &[Listed]) -> (Vec<u8>, Vec<u8>) {
        let none = (b"/".to_vec(), b"reg".to_vec(), Vec::new());
        let some = |rng: &mut Rng| match listing.len() {
            0 => none.clone(),
            len => listing[rng.index(len)].clone(),
        };
        let (mut path, mut name, _) = some(rng);
        let place = rng.index(path.len() + 1);
        match self {
            Aim::There => {}
            Aim::Mixed => name = some(rng).1,
            Aim::Cut => path.truncate(place.min(path.len() - 1)),
            Aim::Longer => {
                let more = rng.pick(&[&b"x"[..], b"/x", b"@0", b"\0", b"/reg", b"//"]);
                path.extend(more);
            }
            Aim::OtherByte => {
                let at = place.min(path.len() - 1);
                path[at] ^= 1 << rng.below(8);
            }
            Aim::DoubledSlash => {
                let slashes: Vec<usize> = (0..path.len()).filter(|&i| path[i] == b'/').collect();
                path.insert(rng.pick(&slashes), b'/');
            }
            Aim::TrailingSlash => path.push(b'/'),
            Aim::WithoutSlash => {
                path.remove(0);
            }
            Aim::WithRootName => {
                let root = rng.pick(&[&b"/board"[..], b"board", b"//", b"/memory"]);
                path.splice(0..0, root.iter().copied());
            }
            Aim::WithoutUnit => {
                let at = path.iter().rposition(|&byte| byte == b'@');
                path.truncate(at.unwrap_or(path.len()));
            }
            Aim::Empty => path.clear(),
            Aim::Root => path = b"/".to_vec(),
            Aim::AnyBytes => {
                let len = rng.index(12);
                path = rng.bytes(len);
                if rng.one_in(2) {
                    path.insert(0, b'/');
                }
            }
            Aim::NameCut => name.truncate(name.len().saturating_sub(1 + rng.index(3))),
            Aim::NameLonger => name.extend(rng.pick(&[&b"s"[..], b"1", b"@"])),
            Aim::NameWithZero => name.extend(rng.pick(&[&b"\0"[..], b"\0reg", b"\0\0"])),
            Aim::NoName => name.clear(),
        }
        (path, name)
    }
}

/// A path and a name to look up, most of them there, or nearly.
pub fn some_aim(rng: &mut Rng, listing: &[Listed]) -> (Aim, Vec<u8>, Vec<u8>) {
    let aim = match rng.below(4) {
        0 => Aim::There,
        _ => rng.pick(&Aim::ALL),
    };
    let (path, name) = aim.at(rng, listing);
    (aim, path, name)
}

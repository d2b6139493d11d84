//! A flattened device tree: its check, and the ranges that it asks for, in one pass that
//! reads a node by reading the nodes in it. Of a service tree one pass lists by their paths
//! what a board's nodes may be asked for, or finds one property.

use std::collections::HashMap;

const DEPTH: usize = 16;

/// The ranges of a tree, each kind in its order.
#[derive(Default)]
pub struct Asked {
    /// Base, size and node.
    pub memory: Vec<(u64, u64, u32)>,
    pub list: Vec<(u64, u64)>,
    pub reserved: Vec<(u64, u64)>,
    pub no_map: Vec<(u64, u64)>,
}

fn big(bytes: &[u8]) -> u64 {
    bytes.iter().fold(0, |n, &byte| n << 8 | u64::from(byte))
}

fn word(bytes: &[u8], at: usize) -> Option<usize> {
    let word: [u8; 4] = bytes.get(at..at.checked_add(4)?)?.try_into().ok()?;
    Some(u32::from_be_bytes(word) as usize)
}

/// What a tree asks for; none if it is not one that is read.
pub fn read(tree: &[u8]) -> Option<Asked> {
    read_corrected(tree, None)
}

/// The same of a board's tree and a service tree.
pub fn read_pair(board: &[u8], service: &[u8]) -> Option<Asked> {
    let mut corrections = Corrections::new();
    let walked = walk(service, |path, name, value, _| {
        let slots = match corrections.get_mut(path) {
            Some(slots) => slots,
            None => corrections.entry(path.to_vec()).or_default(),
        };
        slots.note(name, value);
    });
    walked?;
    read_corrected(board, Some(&corrections))
}

/// Where the first property of a path and a name stands, if there is one; none if the tree
/// has not the form.
pub fn lookup(tree: &[u8], path: &[u8], name: &[u8]) -> Option<Option<(usize, usize)>> {
    let mut found = None;
    walk(tree, |at_path, rest, value, at| {
        let is_named = || {
            rest.strip_prefix(name)
                .is_some_and(|end| end.first() == Some(&0))
        };
        if found.is_none() && at_path == path && is_named() {
            found = Some((at, value.len()));
        }
    })?;
    // Names in the tree have no zero.
    Some(found.filter(|_| !name.contains(&0)))
}

/// What a service tree has at each path.
type Corrections<'a> = HashMap<Vec<u8>, Seen<'a>>;

/// The parts of a tree whose header and list are as they must be.
struct Parts<'a> {
    list: Vec<(u64, u64)>,
    block_at: usize,
    block: &'a [u8],
    strings: &'a [u8],
}

fn parts(tree: &[u8]) -> Option<Parts<'_>> {
    let field = |at| word(tree, at);
    let inside = &tree[..tree.len().min(field(4)?)];
    let part = |at: usize, length: usize| inside.get(at..at + length);
    let (structure_at, list_at) = (field(8)?, field(16)?);
    let fits = inside.len() >= 40
        && field(0)? == 0xD00D_FEED
        && field(20)? == 17
        && field(24)? == 16
        && structure_at.is_multiple_of(4)
        && list_at.is_multiple_of(8);
    if !fits {
        return None;
    }
    let strings = part(field(12)?, field(32)?)?;
    let mut list = Vec::new();
    let mut ended = false;
    for pair in inside.get(list_at..)?.chunks_exact(16) {
        let pair = (big(&pair[..8]), big(&pair[8..]));
        if pair == (0, 0) {
            ended = true;
            break;
        }
        list.push(pair);
    }
    ended.then_some(Parts {
        list,
        block_at: structure_at,
        block: part(structure_at, field(36)?)?,
        strings,
    })
}

fn read_corrected<'a>(tree: &'a [u8], corrections: Option<&Corrections<'a>>) -> Option<Asked> {
    let parts = parts(tree)?;
    let mut board = Board {
        tokens: Tokens::of(&parts),
        cells: (8, 4),
        in_reserved: false,
        corrections,
        path: Vec::new(),
        asked: Asked {
            list: parts.list,
            ..Asked::default()
        },
    };
    let root = board.tokens.next()? == BEGIN && board.node(1).is_some();
    (root && board.tokens.end()?).then_some(board.asked)
}

/// Tells each property of a tree of the form: path, strings from its name on, value, and
/// where that begins.
fn walk<'a>(tree: &'a [u8], met: impl FnMut(&[u8], &'a [u8], &'a [u8], usize)) -> Option<()> {
    let parts = parts(tree)?;
    let mut walk = Walk {
        tokens: Tokens::of(&parts),
        block_at: parts.block_at,
        path: Vec::new(),
        met,
    };
    let root = walk.tokens.next()? == BEGIN && walk.node(1).is_some();
    (root && walk.tokens.end()?).then_some(())
}

const BEGIN: usize = 1;
const END: usize = 2;
const PROPERTY: usize = 3;
const NOP: usize = 4;
const STOP: usize = 9;

/// The structure block from a token on.
struct Tokens<'a> {
    block: &'a [u8],
    strings: &'a [u8],
    /// A name that begins below this ends in the strings block.
    named: usize,
    at: usize,
}

impl<'a> Tokens<'a> {
    fn of(parts: &Parts<'a>) -> Tokens<'a> {
        let last = parts.strings.iter().rposition(|&byte| byte == 0);
        Tokens {
            block: parts.block,
            strings: parts.strings,
            named: last.map_or(0, |at| at + 1),
            at: 0,
        }
    }

    /// The next token that is no nop.
    #[inline(always)]
    fn next(&mut self) -> Option<usize> {
        loop {
            let token = word(self.block, self.at)?;
            self.at += 4;
            if token != NOP {
                return Some(token);
            }
        }
    }

    /// Whether the end token comes, and nothing after it.
    fn end(&mut self) -> Option<bool> {
        Some(self.next()? == STOP && self.at == self.block.len())
    }

    fn pad(&mut self) {
        self.at = self.at.next_multiple_of(4);
    }

    /// The name of a node.
    #[inline(always)]
    fn name(&mut self) -> Option<&'a [u8]> {
        let rest = &self.block[self.at..];
        let length = rest.iter().position(|&byte| byte == 0)?;
        self.at += length + 1;
        self.pad();
        Some(&rest[..length])
    }

    /// The strings from a property's name on, its value, and where that begins.
    #[inline(always)]
    fn property(&mut self) -> Option<(&'a [u8], &'a [u8], usize)> {
        let (length, name) = (word(self.block, self.at)?, word(self.block, self.at + 4)?);
        let at = self.at + 8;
        let value = self.block.get(at..at + length)?;
        self.at = at + length;
        self.pad();
        (name < self.named).then(|| (&self.strings[name..], value, at))
    }
}

struct Walk<'a, Met> {
    tokens: Tokens<'a>,
    block_at: usize,
    path: Vec<u8>,
    met: Met,
}

impl<'a, Met: FnMut(&[u8], &'a [u8], &'a [u8], usize)> Walk<'a, Met> {
    /// A node, its first token being read.
    fn node(&mut self, level: usize) -> Option<()> {
        if level > DEPTH {
            return None;
        }
        let name = self.tokens.name()?;
        let above = self.path.len();
        if level > 1 {
            self.path.push(b'/');
            self.path.extend(name);
        }
        let mut token = self.tokens.next()?;
        while token == PROPERTY {
            let (name, value, at) = self.tokens.property()?;
            let path = if level > 1 { &self.path[..] } else { b"/" };
            (self.met)(path, name, value, self.block_at + at);
            token = self.tokens.next()?;
        }
        while token == BEGIN {
            self.node(level + 1)?;
            token = self.tokens.next()?;
        }
        self.path.truncate(above);
        (token == END).then_some(())
    }
}

struct Board<'a, 'c> {
    tokens: Tokens<'a>,
    /// Bytes of an address and of a size.
    cells: (usize, usize),
    /// In a /reserved-memory.
    in_reserved: bool,
    corrections: Option<&'c Corrections<'a>>,
    /// Of the node that is read.
    path: Vec<u8>,
    asked: Asked,
}

/// The first properties of a node by the names that matter.
#[derive(Clone, Copy, Default)]
struct Seen<'a> {
    address_cells: Option<&'a [u8]>,
    size_cells: Option<&'a [u8]>,
    device_type: Option<&'a [u8]>,
    reg: Option<&'a [u8]>,
    id: Option<&'a [u8]>,
    no_map: Option<&'a [u8]>,
}

impl<'a> Seen<'a> {
    /// Notes a property, if it is the first of a name that matters.
    #[inline(always)]
    fn note(&mut self, name: &[u8], value: &'a [u8]) {
        let slot = match name.first() {
            Some(b'#') if name.starts_with(b"#address-cells\0") => &mut self.address_cells,
            Some(b'#') if name.starts_with(b"#size-cells\0") => &mut self.size_cells,
            Some(b'd') if name.starts_with(b"device_type\0") => &mut self.device_type,
            Some(b'r') if name.starts_with(b"reg\0") => &mut self.reg,
            Some(b'n') if name.starts_with(b"numa-node-id\0") => &mut self.id,
            Some(b'n') if name.starts_with(b"no-map\0") => &mut self.no_map,
            _ => return,
        };
        slot.get_or_insert(value);
    }

    /// With what another has in the place of its own.
    fn corrected(self, by: &Seen<'a>) -> Seen<'a> {
        Seen {
            address_cells: by.address_cells.or(self.address_cells),
            size_cells: by.size_cells.or(self.size_cells),
            device_type: by.device_type.or(self.device_type),
            reg: by.reg.or(self.reg),
            id: by.id.or(self.id),
            no_map: by.no_map.or(self.no_map),
        }
    }
}

impl<'a> Board<'a, '_> {
    /// A node, its first token being read.
    fn node(&mut self, level: usize) -> Option<()> {
        if level > DEPTH {
            return None;
        }
        let name = self.tokens.name()?;
        let mut seen = Seen::default();
        let mut token = self.tokens.next()?;
        while token == PROPERTY {
            let (name, value, _) = self.tokens.property()?;
            if level <= 3 {
                seen.note(name, value);
            }
            token = self.tokens.next()?;
        }
        let above = self.path.len();
        if let (Some(corrections), 1..=3) = (self.corrections, level) {
            if level > 1 {
                self.path.push(b'/');
                self.path.extend(name);
            }
            let path = if level > 1 { &self.path[..] } else { b"/" };
            if let Some(by) = corrections.get(path) {
                seen = seen.corrected(by);
            }
        }
        match level {
            1 => {
                let cells = |value, absent| number(value, absent, 1, 2).map(|n| 4 * n as usize);
                self.cells = (cells(seen.address_cells, 2)?, cells(seen.size_cells, 1)?);
            }
            2 => {
                if seen.device_type == Some(b"memory\0") {
                    let node = number(seen.id, 0, 0, 63)?;
                    let ranges = self.ranges(seen.reg)?;
                    let memory = ranges.map(|(base, size)| (base, size, node));
                    self.asked.memory.extend(memory);
                }
                self.in_reserved = name == b"reserved-memory";
            }
            3 if self.in_reserved => {
                let ranges = self.ranges(seen.reg)?;
                match seen.no_map {
                    Some(_) => self.asked.no_map.extend(ranges),
                    None => self.asked.reserved.extend(ranges),
                }
            }
            _ => {}
        }
        while token == BEGIN {
            self.node(level + 1)?;
            token = self.tokens.next()?;
        }
        self.path.truncate(above);
        (token == END).then_some(())
    }

    /// The ranges of a reg, none without one; nothing if it is not whole entries.
    fn ranges(&self, reg: Option<&'a [u8]>) -> Option<impl Iterator<Item = (u64, u64)> + 'a> {
        let (first, second) = self.cells;
        let entries = reg.unwrap_or(&[]).chunks_exact(first + second);
        let whole = entries.remainder().is_empty();
        whole.then(|| entries.map(move |entry| (big(&entry[..first]), big(&entry[first..]))))
    }
}

/// A value of one word from `low` to `high`, or what holds without one.
fn number(value: Option<&[u8]>, absent: u32, low: u32, high: u32) -> Option<u32> {
    let Some(value) = value else {
        return Some(absent);
    };
    let number = u32::from_be_bytes(value.try_into().ok()?);
    (low..=high).contains(&number).then_some(number)
}

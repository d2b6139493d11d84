//! A flattened tree: what must hold for it to be read, and the commands it says; two of
//! them, where the one corrects the other.
//!
//! Nothing here goes down into a node. The structure block is cut into a flat list of
//! tokens, and each condition is asked of that list as a whole: of the levels behind its
//! tokens, of its neighbours. Nodes are found by their level. All faults of a part are
//! listed, not the first alone. A path is not followed: every node's own is written down,
//! and the first property whose path and name are those asked for is taken.

use crate::layout::tree::*;

/// A condition of request E8 that does not hold.
#[derive(Clone, Copy, Debug, PartialEq, Eq, PartialOrd, Ord, Hash)]
pub enum Fault {
    /// The header is not whole.
    Header,
    Magic,
    Version,
    Compatible,
    /// A part is not at a multiple of its alignment.
    ListOffset,
    StructureOffset,
    /// A part reaches past the total size or the lent bytes.
    StructureOutside,
    StringsOutside,
    /// The reservation list has no end inside.
    ListEnd,
    /// A token that there is not, or not all of one.
    Token,
    /// A name or value that does not end inside its part.
    NodeName,
    Value,
    PropertyName,
    /// No end token, or something after it.
    End,
    /// Not one root with all else in it.
    Root,
    /// A property after a node.
    Order,
    Depth,
    Cells,
    Reg,
    NodeId,
}

/// A command that a tree asks for.
#[derive(Clone, Copy, Debug, PartialEq, Eq)]
pub enum Ask {
    Add {
        base: u64,
        size: u64,
        node: u32,
    },
    Reserve {
        base: u64,
        size: u64,
    },
    /// No-map.
    Mark {
        base: u64,
        size: u64,
    },
}

/// The commands of a tree in order, or what is wrong with it.
pub fn asks(bytes: &[u8]) -> Result<Vec<Ask>, Vec<Fault>> {
    let tree = formed(bytes)?;
    tree.asks(|at, name| tree.nodes[at].value(name))
}

/// The same of a board's tree, each property being the first at its node's path in the
/// service tree, if there is one.
pub fn pair_asks(board: &[u8], service: &[u8]) -> Result<Vec<Ask>, Vec<Fault>> {
    let (board, service) = both(formed(board), formed(service))?;
    let paths = board.paths();
    let corrections = service.listing();
    board.asks(|at, name| {
        let corrected = first(&corrections, &paths[at], name);
        corrected.or_else(|| board.nodes[at].value(name))
    })
}

/// A property's value in a tree: where it begins, and how long it is.
#[derive(Clone, Copy, Debug, PartialEq, Eq)]
pub struct Place {
    pub at: usize,
    pub length: usize,
}

/// Which of two trees has a property.
#[derive(Clone, Copy, Debug, PartialEq, Eq)]
pub enum Holder {
    Neither,
    Service(Place),
    Board(Place),
}

/// The first property of a path and a name in a tree, or what is wrong with its form.
pub fn lookup(bytes: &[u8], path: &[u8], name: &[u8]) -> Result<Option<Place>, Vec<Fault>> {
    let value = first(&formed(bytes)?.listing(), path, name);
    Ok(value.map(|value| Place {
        at: value.as_ptr() as usize - bytes.as_ptr() as usize,
        length: value.len(),
    }))
}

/// The same of two trees, of which the service tree comes first.
pub fn pair_lookup(
    service: &[u8],
    board: &[u8],
    path: &[u8],
    name: &[u8],
) -> Result<Holder, Vec<Fault>> {
    let places = both(lookup(service, path, name), lookup(board, path, name))?;
    Ok(match places {
        (Some(place), _) => Holder::Service(place),
        (None, Some(place)) => Holder::Board(place),
        (None, None) => Holder::Neither,
    })
}

/// A property in its place: path, name and what follows it, value.
pub type Listed<'a> = (Vec<u8>, &'a [u8], &'a [u8]);

/// Every property of a tree in tree order: path, name, value.
pub fn properties(bytes: &[u8]) -> Result<Vec<Listed<'_>>, Vec<Fault>> {
    let listing = formed(bytes)?.listing().into_iter();
    let ended = listing.map(|(path, name, value)| {
        let end = name.iter().position(|&byte| byte == 0);
        (path, &name[..end.expect("a name has its zero")], value)
    });
    Ok(ended.collect())
}

fn first<'a>(listing: &[Listed<'a>], path: &[u8], name: &[u8]) -> Option<&'a [u8]> {
    let mut named = listing
        .iter()
        .filter(|listed| listed.0 == path && is_named(listed.1, name));
    named.next().map(|listed| listed.2)
}

/// Whether what stands in the strings block from a place on is a name and its zero.
fn is_named(strings: &[u8], name: &[u8]) -> bool {
    strings
        .strip_prefix(name)
        .is_some_and(|rest| rest.first() == Some(&0))
        && !name.contains(&0)
}

/// Both, or the faults of both.
fn both<A, B>(
    one: Result<A, Vec<Fault>>,
    other: Result<B, Vec<Fault>>,
) -> Result<(A, B), Vec<Fault>> {
    match (one, other) {
        (Ok(one), Ok(other)) => Ok((one, other)),
        (one, other) => {
            let mut faults = one.err().unwrap_or_default();
            faults.extend(other.err().unwrap_or_default());
            Err(faults)
        }
    }
}

/// A tree that has the form: all that is asked of it but cells, `reg` and node ids.
struct Formed<'a> {
    list: Vec<(u64, u64)>,
    /// In tree order.
    nodes: Vec<Node<'a>>,
}

fn formed(bytes: &[u8]) -> Result<Formed<'_>, Vec<Fault>> {
    let parts = parts(bytes)?;
    let list = list(parts.list).map_err(|fault| vec![fault]);
    let (list, nodes) = both(list, nodes(parts.structure, parts.strings))?;
    Ok(Formed { list, nodes })
}

impl<'a> Formed<'a> {
    /// The commands in order, the value of a node's property being `value`'s.
    fn asks<'v>(
        &self,
        value: impl Fn(usize, &[u8]) -> Option<&'v [u8]>,
    ) -> Result<Vec<Ask>, Vec<Fault>> {
        let said = said(&self.nodes, value)?;
        let list = self.list.iter();
        let reserves = list.map(|&(base, size)| Ask::Reserve { base, size });
        let marks = said.no_map.into_iter();
        Ok((said.memory.into_iter())
            .chain(reserves)
            .chain(said.reserved)
            .chain(marks)
            .collect())
    }

    /// The path of each node. On the way to a node is what was begun last at each level
    /// above it.
    fn paths(&self) -> Vec<Vec<u8>> {
        let mut way: Vec<&[u8]> = Vec::new();
        let nodes = self.nodes.iter();
        nodes
            .map(|node| {
                way.truncate(node.level - ROOT);
                way.push(node.name);
                match &way[ROOT..] {
                    [] => b"/".to_vec(),
                    below => (below.iter())
                        .flat_map(|name| [b"/", *name].concat())
                        .collect(),
                }
            })
            .collect()
    }

    /// Every property with its path. A node's own come before those of what stands in it.
    fn listing(&self) -> Vec<Listed<'a>> {
        let paths = self.paths().into_iter().zip(&self.nodes);
        paths
            .flat_map(|(path, node)| {
                let properties = node.properties.iter();
                properties.map(move |&(name, value)| (path.clone(), name, value))
            })
            .collect()
    }
}

/// A big-endian number of any length up to 8 bytes.
fn big(bytes: &[u8]) -> u64 {
    bytes.iter().fold(0, |n, &byte| n << 8 | u64::from(byte))
}

struct Parts<'a> {
    /// From the list's offset to the limit.
    list: &'a [u8],
    structure: &'a [u8],
    strings: &'a [u8],
}

fn parts(bytes: &[u8]) -> Result<Parts<'_>, Vec<Fault>> {
    let Some(header) = bytes.get(..HEADER_LEN) else {
        return Err(vec![Fault::Header]);
    };
    let field = |at: usize| big(&header[at..at + 4]) as usize;
    let inside = &bytes[..bytes.len().min(field(TOTAL_SIZE_AT))];
    let (list_at, structure_at) = (field(LIST_AT), field(STRUCTURE_AT));
    let part = |at: usize, length: usize| inside.get(at..at + length);
    let list = inside.get(list_at..);
    let structure = part(structure_at, field(STRUCTURE_LENGTH_AT));
    let strings = part(field(STRINGS_AT), field(STRINGS_LENGTH_AT));
    let conditions = [
        (inside.len() >= HEADER_LEN, Fault::Header),
        (field(0) == MAGIC, Fault::Magic),
        (field(VERSION_AT) == VERSION, Fault::Version),
        (field(COMPATIBLE_AT) == COMPATIBLE, Fault::Compatible),
        (list_at.is_multiple_of(LIST_ALIGNMENT), Fault::ListOffset),
        (list.is_some(), Fault::ListEnd),
        (
            structure_at.is_multiple_of(WORD_LEN),
            Fault::StructureOffset,
        ),
        (structure.is_some(), Fault::StructureOutside),
        (strings.is_some(), Fault::StringsOutside),
    ];
    match (faults(&conditions), list, structure, strings) {
        (Ok(()), Some(list), Some(structure), Some(strings)) => Ok(Parts {
            list,
            structure,
            strings,
        }),
        (faults, ..) => Err(faults.expect_err("a part that is not there is a fault")),
    }
}

/// The faults whose conditions do not hold.
fn faults(conditions: &[(bool, Fault)]) -> Result<(), Vec<Fault>> {
    let faults: Vec<Fault> = conditions
        .iter()
        .filter(|condition| !condition.0)
        .map(|condition| condition.1)
        .collect();
    if faults.is_empty() {
        Ok(())
    } else {
        Err(faults)
    }
}

/// The pairs in front of the first that is two zeros.
fn list(bytes: &[u8]) -> Result<Vec<(u64, u64)>, Fault> {
    let pairs: Vec<(u64, u64)> = bytes
        .chunks_exact(PAIR_LEN)
        .map(|pair| (big(&pair[..8]), big(&pair[8..])))
        .collect();
    let end = pairs.iter().position(|&pair| pair == (0, 0));
    Ok(pairs[..end.ok_or(Fault::ListEnd)?].to_vec())
}

#[derive(Clone, Copy)]
enum Token<'a> {
    Begin(&'a [u8]),
    End,
    /// The strings block from the name on, and the value.
    Property(&'a [u8], &'a [u8]),
    Nop,
    Stop,
}

/// The token at the front, and how many bytes it takes up with its padding.
fn token<'a>(bytes: &'a [u8], strings: &'a [u8]) -> Result<(Token<'a>, usize), Fault> {
    let word = |at: usize| {
        let word = bytes.get(at..at + WORD_LEN).ok_or(Fault::Token)?;
        Ok(big(word) as usize)
    };
    let padded = |length: usize| length.next_multiple_of(WORD_LEN);
    Ok(match word(0)? {
        BEGIN => {
            let name = &bytes[WORD_LEN..];
            let zero = name.iter().position(|&byte| byte == 0);
            let zero = zero.ok_or(Fault::NodeName)?;
            (Token::Begin(&name[..zero]), padded(WORD_LEN + zero + 1))
        }
        END => (Token::End, WORD_LEN),
        PROPERTY => {
            let (length, name) = (word(WORD_LEN)?, word(2 * WORD_LEN)?);
            let from = 3 * WORD_LEN;
            let value = bytes.get(from..from + length).ok_or(Fault::Value)?;
            // A name past the end is one without an end.
            let name = strings.get(name..).unwrap_or(&[]);
            (Token::Property(name, value), padded(from + length))
        }
        NOP => (Token::Nop, WORD_LEN),
        STOP => (Token::Stop, WORD_LEN),
        _ => return Err(Fault::Token),
    })
}

/// The tokens up to the end token; the fault that ends them, if none does.
fn tokens<'a>(block: &'a [u8], strings: &'a [u8]) -> (Vec<Token<'a>>, Option<Fault>) {
    let mut tokens = Vec::new();
    let mut rest = block;
    loop {
        if rest.is_empty() {
            return (tokens, Some(Fault::End));
        }
        match token(rest, strings) {
            Err(fault) => return (tokens, Some(fault)),
            Ok((Token::Stop, length)) => {
                tokens.push(Token::Stop);
                return (tokens, (rest.len() > length).then_some(Fault::End));
            }
            Ok((token, length)) => {
                tokens.push(token);
                // Padding may be cut off by the end of the block.
                rest = rest.get(length..).unwrap_or(&[]);
            }
        }
    }
}

struct Node<'a> {
    level: usize,
    name: &'a [u8],
    properties: Vec<(&'a [u8], &'a [u8])>,
}

impl<'a> Node<'a> {
    /// The first property of a name.
    fn value(&self, name: &[u8]) -> Option<&'a [u8]> {
        let mut named = self.properties.iter().filter(|p| is_named(p.0, name));
        named.next().map(|property| property.1)
    }
}

/// The nodes of a structure block, in tree order.
fn nodes<'a>(block: &'a [u8], strings: &'a [u8]) -> Result<Vec<Node<'a>>, Vec<Fault>> {
    let (tokens, fault) = tokens(block, strings);
    let said: Vec<Token> = (tokens.iter().copied())
        .filter(|token| !matches!(token, Token::Nop | Token::Stop))
        .collect();
    // How many nodes are open behind each token; below none there is nothing.
    let mut open = 0i64;
    let levels: Vec<i64> = said
        .iter()
        .map(|token| {
            open += match token {
                Token::Begin(_) => 1,
                Token::End => -1,
                _ => 0,
            };
            open
        })
        .collect();
    // All is in one node if the first token begins one, and none is open behind the last
    // token, and there alone.
    let begun = levels.first() == Some(&1);
    let closed = levels.iter().position(|&level| level <= 0);
    let one_root = begun && closed.is_some_and(|at| at + 1 == levels.len());
    let in_order = said
        .windows(2)
        .all(|two| !matches!(two, [Token::End, Token::Property(..)]));
    let deepest = levels.iter().copied().max().unwrap_or(0);
    // A name that begins at or before the last zero ends there or before.
    let last_zero = strings.iter().rposition(|&byte| byte == 0);
    let shortest = last_zero.map_or(usize::MAX, |at| strings.len() - at);
    let names_end = said.iter().all(|token| match token {
        Token::Property(name, _) => name.len() >= shortest,
        _ => true,
    });
    // Where the tokens break off, the node that is left open is no fault of its own.
    let whole = fault.is_none() || fault == Some(Fault::End);
    let mut broken: Vec<Fault> = fault.into_iter().collect();
    broken.extend(
        faults(&[
            (names_end, Fault::PropertyName),
            (one_root || !whole, Fault::Root),
            (in_order, Fault::Order),
            (deepest <= DEPTH, Fault::Depth),
        ])
        .err()
        .into_iter()
        .flatten(),
    );
    if !broken.is_empty() {
        return Err(broken);
    }
    let mut nodes: Vec<Node> = Vec::new();
    for (token, &level) in said.iter().zip(&levels) {
        match *token {
            Token::Begin(name) => nodes.push(Node {
                level: level as usize,
                name,
                properties: Vec::new(),
            }),
            // In order, so of the node begun last.
            Token::Property(name, value) => {
                let node = nodes.last_mut().expect("the root comes first");
                node.properties.push((name, value));
            }
            _ => {}
        }
    }
    Ok(nodes)
}

/// What the nodes ask for.
#[derive(Default)]
struct Said {
    memory: Vec<Ask>,
    reserved: Vec<Ask>,
    no_map: Vec<Ask>,
}

const ROOT: usize = 1;

/// `value`: that of a property of a node, which is given by its number.
fn said<'v>(
    nodes: &[Node],
    value: impl Fn(usize, &[u8]) -> Option<&'v [u8]>,
) -> Result<Said, Vec<Fault>> {
    let cells = [
        number(value(0, ADDRESS_CELLS), DEFAULT_ADDRESS_CELLS, CELLS),
        number(value(0, SIZE_CELLS), DEFAULT_SIZE_CELLS, CELLS),
    ];
    let [Some(address_cells), Some(size_cells)] = cells else {
        return Err(vec![Fault::Cells]);
    };
    let (first, second) = (
        WORD_LEN * address_cells as usize,
        WORD_LEN * size_cells as usize,
    );
    let ranges = |at: usize| -> Option<Vec<(u64, u64)>> {
        let entries = value(at, REG).unwrap_or(&[]).chunks_exact(first + second);
        let whole = entries.remainder().is_empty();
        let pairs = entries.map(|entry| (big(&entry[..first]), big(&entry[first..])));
        whole.then(|| pairs.collect())
    };
    let mut said = Said::default();
    let mut broken = Vec::new();
    let mut in_reserved = false;
    for (at, node) in nodes.iter().enumerate() {
        if node.level == ROOT + 1 {
            in_reserved = node.name == RESERVED_MEMORY;
            if value(at, DEVICE_TYPE) == Some(MEMORY_TYPE) {
                let id = number(value(at, NODE_ID), 0, 0..=LAST_NODE);
                match (id, ranges(at)) {
                    (Some(node), Some(ranges)) => {
                        let adds = ranges.into_iter();
                        let adds = adds.map(|(base, size)| Ask::Add { base, size, node });
                        said.memory.extend(adds);
                    }
                    (id, ranges) => {
                        broken.extend(id.is_none().then_some(Fault::NodeId));
                        broken.extend(ranges.is_none().then_some(Fault::Reg));
                    }
                }
            }
        }
        if node.level == ROOT + 2 && in_reserved {
            let Some(ranges) = ranges(at) else {
                broken.push(Fault::Reg);
                continue;
            };
            let ranges = ranges.into_iter();
            match value(at, NO_MAP_NAME) {
                Some(_) => {
                    let marks = ranges.map(|(base, size)| Ask::Mark { base, size });
                    said.no_map.extend(marks);
                }
                None => {
                    let reserves = ranges.map(|(base, size)| Ask::Reserve { base, size });
                    said.reserved.extend(reserves);
                }
            }
        }
    }
    if broken.is_empty() {
        Ok(said)
    } else {
        Err(broken)
    }
}

/// A value of one word within bounds, or what holds where there is none.
fn number(value: Option<&[u8]>, absent: u32, bounds: std::ops::RangeInclusive<u32>) -> Option<u32> {
    let Some(value) = value else {
        return Some(absent);
    };
    let word = u32::from_be_bytes(value.try_into().ok()?);
    bounds.contains(&word).then_some(word)
}

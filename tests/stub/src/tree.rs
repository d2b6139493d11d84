//! The intake of a flattened tree: one pass over the structure block, with what was seen
//! of each open node on a stack. For a pair the same pass lists the service tree, and puts
//! what it lists in the place of what was seen of the board's.

use crate::{cut, fill, lent, lent_mut, mutant, parse, put_image_end, put_table};
use crate::{shortest, split, trimmed, Block, NOW, NO_MAP, PAGE};

const DEPTH: usize = 16;

/// What a tree asks for: ranges, those of memory with a node.
#[derive(Default)]
struct Asked {
    adds: Vec<(u64, u64, u32)>,
    list: Vec<(u64, u64)>,
    reserves: Vec<(u64, u64)>,
    marks: Vec<(u64, u64)>,
}

/// The properties of a node that matter.
#[derive(Clone, Default)]
struct Seen<'a> {
    name: &'a [u8],
    device_type: Option<&'a [u8]>,
    reg: Option<&'a [u8]>,
    id: Option<&'a [u8]>,
    no_map: Option<&'a [u8]>,
    cells: [Option<&'a [u8]>; 2],
}

impl<'a> Seen<'a> {
    fn note(&mut self, name: &[u8], value: &'a [u8]) {
        let named = |wanted: &[u8]| match () {
            // mutant 162: a property counts if its name begins so
            _ if mutant(162) => name.starts_with(wanted),
            _ => name == wanted,
        };
        let slot = match () {
            _ if named(b"device_type") => &mut self.device_type,
            _ if named(b"reg") => &mut self.reg,
            _ if named(b"numa-node-id") => &mut self.id,
            _ if named(b"no-map") => &mut self.no_map,
            _ if named(b"#address-cells") => &mut self.cells[0],
            _ if named(b"#size-cells") => &mut self.cells[1],
            _ => return,
        };
        // mutant 163: of equal names the last counts
        // mutant 164: of two device_type the one that says memory counts
        let over = mutant(163) || mutant(164) && value == b"memory\0";
        if slot.is_none() || over {
            *slot = Some(value);
        }
    }

    fn is_memory(&self) -> bool {
        match self.device_type {
            // mutant 165: device_type may lack its zero
            Some(b"memory") => mutant(165),
            // mutant 166: device_type need only begin with memory and a zero
            Some(value) if mutant(166) => value.starts_with(b"memory\0"),
            // mutant 167: device_type need only begin with memory
            Some(value) if mutant(167) => value.starts_with(b"memory"),
            Some(value) => value == b"memory\0",
            // mutant 168: a node named memory is memory without device_type
            None => mutant(168) && self.name.starts_with(b"memory"),
        }
    }

    fn is_reserved(&self) -> bool {
        // mutant 169: /reserved-memory may have a unit address
        self.name == b"reserved-memory" || mutant(169) && self.name.starts_with(b"reserved-memory@")
    }
}

fn big(bytes: &[u8]) -> u64 {
    bytes.iter().fold(0, |n, &byte| n << 8 | u64::from(byte))
}

fn word(b: &[u8], at: usize) -> Option<usize> {
    let bytes = b.get(at..at.checked_add(4)?)?;
    Some(big(bytes) as usize)
}

fn padded(n: usize) -> usize {
    n.div_ceil(4) * 4
}

/// The reservation list from its offset to the limit.
fn list(bytes: &[u8]) -> Option<Vec<(u64, u64)>> {
    let mut pairs = Vec::new();
    for pair in bytes.chunks_exact(16) {
        let (mut base, mut size) = (big(&pair[..8]), big(&pair[8..]));
        // mutant 170: the list is little-endian
        if mutant(170) {
            (base, size) = (base.swap_bytes(), size.swap_bytes());
        }
        // mutant 171: a pair of size 0 ends the list
        // mutant 172: a pair of base 0 ends the list
        let ends = match () {
            _ if mutant(171) => size == 0,
            _ if mutant(172) => base == 0,
            _ => base == 0 && size == 0,
        };
        if ends {
            return Some(pairs);
        }
        pairs.push((base, size));
    }
    // mutant 173: a list without an end is let through
    mutant(173).then_some(pairs)
}

/// The bytes of a part.
fn part(t: &[u8], at: usize, len: usize, limits: (usize, usize)) -> Option<&[u8]> {
    let (total, lent) = limits;
    // mutant 174: a part need not lie inside the total size
    // mutant 175: a part need not lie inside the lent bytes
    let limit = match () {
        _ if mutant(174) => lent,
        _ if mutant(175) => total,
        _ => total.min(lent),
    };
    let end = at + len;
    (end <= limit).then(|| &t[at.min(t.len())..end.min(t.len())])
}

/// A property as it is met: where it stands, and what it says.
struct Met<'a> {
    path: Vec<u8>,
    /// The names on the way, and how many nodes began before this one.
    levels: Vec<&'a [u8]>,
    node: usize,
    name: &'a [u8],
    value: &'a [u8],
    /// Where the value begins in the structure block.
    at: usize,
}

/// What a tree of the form holds.
struct Tree<'a> {
    list: Vec<(u64, u64)>,
    structure_at: usize,
    nodes: Nodes<'a>,
}

/// The nodes that matter, as they were seen, and if asked for every property.
struct Nodes<'a> {
    root: Seen<'a>,
    memories: Vec<Seen<'a>>,
    reserved: Vec<(Seen<'a>, [Option<&'a [u8]>; 2])>,
    met: Vec<Met<'a>>,
    alone: bool,
}

/// What is done to a node of a path and a level once all of it is seen.
type Correct<'c, 'a> = Option<&'c mut dyn FnMut(&[u8], usize, &mut Seen<'a>)>;

/// What a tree asks for, if it is read.
fn read(t: &[u8]) -> Option<Asked> {
    asked(&form(t, false, None)?)
}

fn asked(tree: &Tree) -> Option<Asked> {
    let nodes = &tree.nodes;
    let mut asked = values(&nodes.root, &nodes.memories, &nodes.reserved)?;
    asked.list = tree.list.clone();
    Some(asked)
}

/// A tree that has the form; `listed`: with every property.
fn form<'a>(t: &'a [u8], listed: bool, correct: Correct<'_, 'a>) -> Option<Tree<'a>> {
    let field = |i: usize| word(t, 4 * i);
    let limits = (field(1)?, t.len());
    let limit = limits.0.min(limits.1);
    let structure_len = field(9)?;
    // mutant 177: the magic number is not looked at
    // mutant 178: the version is not looked at
    // mutant 179: later versions are read
    // mutant 180: the compatible version is not looked at
    // mutant 181: earlier compatible versions are read
    let version = field(5)?;
    let compatible = field(6)?;
    if limit < 40 && !mutant(174)
        || field(0)? != 0xD00D_FEED && !mutant(177)
        || version != 17 && !mutant(178) && !(mutant(179) && version > 17)
        || compatible != 16 && !mutant(180) && !(mutant(181) && compatible < 16)
    {
        return None;
    }
    // mutant 182: a total size above the lent bytes is refused
    if mutant(182) && limits.0 > limits.1 {
        return None;
    }
    let (structure_at, strings_at, list_at) = (field(2)?, field(3)?, field(4)?);
    // mutant 183: the list may be anywhere
    // mutant 184: the list need only be at a multiple of 4
    let list_step = match () {
        _ if mutant(183) => 1,
        _ if mutant(184) => 4,
        _ => 8,
    };
    // mutant 185: the structure block may be anywhere
    let aligned = structure_at.is_multiple_of(4) || mutant(185);
    if list_at % list_step != 0 || !aligned {
        return None;
    }
    // mutant 186: an offset past the end is an empty list
    if list_at >= limit && !mutant(186) {
        return None;
    }
    // mutant 187: the list may end past the total size
    let list_limit = if mutant(187) { limits.1 } else { limit };
    let pairs = match t.get(list_at..list_limit) {
        Some(bytes) if list_at < limit => list(bytes)?,
        _ => Vec::new(),
    };
    let structure = part(t, structure_at, structure_len, limits)?;
    let strings = part(t, strings_at, field(8)?, limits)?;
    // mutant 188: parts that overlap are refused
    if mutant(188)
        && structure_at < strings_at + strings.len()
        && strings_at < structure_at + structure.len()
    {
        return None;
    }
    // mutant 189: a strings block that does not end with a zero is refused
    if mutant(189) && strings.last().is_some_and(|&byte| byte != 0) {
        return None;
    }
    // mutant 190: a property's name may end behind the strings block
    let strings = if mutant(190) {
        &t[strings_at..]
    } else {
        strings
    };
    Some(Tree {
        list: pairs,
        structure_at,
        nodes: nodes(structure, strings, listed, correct)?,
    })
}

/// The path of the innermost of these nodes.
fn path_of(stack: &[Seen]) -> Vec<u8> {
    let mut path = Vec::new();
    // mutant 265: the root's name is in the paths, if it has one
    let root = usize::from(!mutant(265) || stack[0].name.is_empty());
    for seen in &stack[root..] {
        // mutant 266: a node without a name is in no path
        if mutant(266) && seen.name.is_empty() {
            continue;
        }
        path.push(b'/');
        path.extend(seen.name);
    }
    if path.is_empty() {
        path.push(b'/');
    }
    path
}

/// The nodes of a structure block.
fn nodes<'a>(
    block: &'a [u8],
    strings: &'a [u8],
    listed: bool,
    mut correct: Correct<'_, 'a>,
) -> Option<Nodes<'a>> {
    let mut begun = 0;
    let mut met: Vec<Met> = Vec::new();
    // Of each open node, for a fault.
    let mut own: Vec<Vec<Met>> = Vec::new();
    let mut stack: Vec<Seen> = Vec::new();
    let mut root: Option<Seen> = None;
    let mut memories: Vec<Seen> = Vec::new();
    let mut reserved: Vec<(Seen<'a>, [Option<&'a [u8]>; 2])> = Vec::new();
    let mut reserved_parents = 0;
    let mut alone = true;
    // A node has ended here.
    let mut late = false;
    let mut at = 0;
    loop {
        let Some(token) = word(block, at) else {
            // mutant 191: the end token may be missing
            if mutant(191) && at == block.len() && stack.is_empty() && root.is_some() {
                break;
            }
            return None;
        };
        at += 4;
        match token {
            1 => {
                // mutant 192: a second root is let through
                if stack.is_empty() && root.is_some() && !mutant(192) {
                    return None;
                }
                // mutant 193: a node of level 17 is let through
                // mutant 194: a node of level 16 is refused
                // mutant 195: depth is not looked at
                let most = DEPTH + usize::from(mutant(193)) - usize::from(mutant(194));
                if stack.len() == most && !mutant(195) {
                    return None;
                }
                let Some(len) = block[at..].iter().position(|&byte| byte == 0) else {
                    // mutant 196: a node's name that runs to the end ends the tree
                    if mutant(196) {
                        root = root.or(stack.first().cloned());
                        break;
                    }
                    return None;
                };
                let name = &block[at..at + len];
                // mutant 197: a root with a name is refused
                if mutant(197) && stack.is_empty() && len > 0 {
                    return None;
                }
                let end = padded(at + len + 1);
                // mutant 198: padding behind a name must be zero
                if mutant(198)
                    && block[at + len..end.min(block.len())]
                        .iter()
                        .any(|&b| b != 0)
                {
                    return None;
                }
                at = end;
                stack.push(Seen {
                    name,
                    ..Seen::default()
                });
                own.push(Vec::new());
                begun += 1;
                late = false;
            }
            2 => {
                if let Some(last) = stack.len().checked_sub(1) {
                    if let Some(correct) = &mut correct {
                        let path = path_of(&stack);
                        correct(&path, last + 1, &mut stack[last]);
                    }
                    met.extend(own.pop().expect("one is open"));
                }
                let Some(seen) = stack.pop() else {
                    // mutant 199: an end without a beginning is passed over
                    if mutant(199) && root.is_some() {
                        continue;
                    }
                    return None;
                };
                late = true;
                // mutant 200: memory below the root's children counts too
                // mutant 201: the root may be memory
                let level = stack.len() + 1;
                alone &= level == 1;
                let counts = level == 2 || mutant(200) && level > 2 || mutant(201) && level == 1;
                if counts && seen.is_memory() {
                    // mutant 202: a node that is both is memory alone
                    memories.push(seen.clone());
                }
                if level == 2 && seen.is_reserved() {
                    reserved_parents += 1;
                }
                // mutant 203: a second /reserved-memory is passed over
                // mutant 204: what is below a reserved node counts too
                // mutant 205: a /reserved-memory deeper in the tree counts too
                // mutant 206: the ranges of /reserved-memory itself count
                let parent = match stack.get(1) {
                    Some(parent) if level == 3 || mutant(204) => parent.clone(),
                    _ if level > 3 && mutant(205) => stack[level - 2].clone(),
                    _ if level == 2 && mutant(206) => seen.clone(),
                    _ => Seen::default(),
                };
                let passed =
                    mutant(203) && reserved_parents > 0 || mutant(202) && parent.is_memory();
                if parent.is_reserved() && !passed {
                    reserved.push((seen.clone(), parent.cells));
                }
                if level == 1 {
                    root = root.or(Some(seen));
                }
            }
            3 => {
                let (len, name_at) = (word(block, at)?, word(block, at + 4)?);
                at += 8;
                // mutant 207: a value's length is rounded up in 32 bits
                let rounded = match mutant(207) {
                    true => (len as u32).wrapping_add(3) as usize / 4 * 4,
                    false => padded(len),
                };
                let len = len.min(rounded);
                if len > block.len() - at {
                    // mutant 208: a value that runs past the block ends the tree
                    if mutant(208) {
                        root = root.or(stack.first().cloned());
                        break;
                    }
                    return None;
                }
                let value = &block[at..at + len];
                let end = at + rounded;
                // mutant 209: padding behind a value must be zero
                if mutant(209)
                    && block[at + len..end.min(block.len())]
                        .iter()
                        .any(|&b| b != 0)
                {
                    return None;
                }
                at = end;
                // mutant 210: a property after a node is let through
                if late && !stack.is_empty() && !mutant(210) {
                    return None;
                }
                // mutant 211: a property outside the root is passed over
                if stack.is_empty() {
                    if mutant(211) {
                        continue;
                    }
                    return None;
                }
                let rest = match strings.get(name_at..) {
                    Some(rest) => rest,
                    // mutant 212: a name past the strings block is an empty one
                    None if mutant(212) => &[0],
                    None => return None,
                };
                let Some(zero) = rest.iter().position(|&byte| byte == 0) else {
                    // mutant 213: a name without an end goes on to the end of its block
                    // mutant 214: names of nodes below level 3 are not looked at
                    if mutant(213) && !rest.is_empty() || mutant(214) && stack.len() > 3 {
                        continue;
                    }
                    return None;
                };
                if listed {
                    let one = Met {
                        path: path_of(&stack),
                        levels: stack[1..].iter().map(|seen| seen.name).collect(),
                        node: begun,
                        name: &rest[..zero],
                        value,
                        at: end - rounded,
                    };
                    // mutant 267: a node's own properties come after those of its nodes
                    match own.last_mut() {
                        Some(own) if mutant(267) => own.push(one),
                        _ => met.push(one),
                    }
                }
                let seen = stack.last_mut().expect("one is open");
                seen.note(&rest[..zero], value);
            }
            4 => {
                // mutant 215: no nop is allowed
                // mutant 216: no nop is allowed before the root
                // mutant 217: no nop is allowed behind the root
                // mutant 218: no property may follow a nop
                let refused = match () {
                    _ if mutant(215) => true,
                    _ if mutant(216) => stack.is_empty() && root.is_none(),
                    _ if mutant(217) => stack.is_empty() && root.is_some(),
                    _ => false,
                };
                if refused {
                    return None;
                }
                late |= mutant(218);
            }
            9 => {
                // mutant 219: the end token may stand in an open node
                if mutant(219) && at == block.len() {
                    root = root.or(stack.first().cloned());
                    stack.clear();
                }
                // mutant 220: what is behind the end token is not looked at
                // mutant 221: a part of a word behind the end token is passed over
                // mutant 222: nops behind the end token are passed over
                let rest = &block[at..];
                let over = match () {
                    _ if mutant(220) => true,
                    _ if mutant(221) => rest.len() < 4,
                    _ if mutant(222) => rest.chunks(4).all(|word| word == [0, 0, 0, 4]),
                    _ => rest.is_empty(),
                };
                if !stack.is_empty() || !over {
                    return None;
                }
                break;
            }
            // mutant 223: a token that there is not is passed over
            _ if mutant(223) => {}
            _ => return None,
        }
    }
    // mutant 176: a root alone is refused
    if mutant(176) && alone {
        return None;
    }
    Some(Nodes {
        root: root?,
        memories,
        reserved,
        met,
        alone,
    })
}

/// The root's cells of one kind.
fn cells(value: Option<&[u8]>, absent: usize) -> Option<usize> {
    let Some(value) = value else {
        return Some(absent);
    };
    // mutant 224: cells may be of 8 bytes
    // mutant 225: cells of another length count as absent
    let value = match value.len() {
        4 => value,
        8 if mutant(224) => &value[4..],
        _ if mutant(225) => return Some(absent),
        _ => return None,
    };
    match big(value) {
        cells @ 1..=2 => Some(cells as usize),
        // mutant 226: three cells are allowed
        // mutant 227: no cells are allowed
        3 if mutant(226) => Some(2),
        0 if mutant(227) => Some(absent),
        _ => None,
    }
}

fn values(
    root: &Seen,
    memories: &[Seen],
    reserved: &[(Seen, [Option<&[u8]>; 2])],
) -> Option<Asked> {
    // mutant 228: absent cells are 1 and 2
    // mutant 229: absent cells are 2 and 2
    let absent = match () {
        _ if mutant(228) => (1, 2),
        _ if mutant(229) => (2, 2),
        _ => (2, 1),
    };
    let both = (
        cells(root.cells[0], absent.0),
        cells(root.cells[1], absent.1),
    );
    let both = match both {
        (Some(a), Some(s)) => (a, s),
        // mutant 230: cells that are not used are not looked at
        _ if mutant(230) && memories.is_empty() && reserved.is_empty() => absent,
        _ => return None,
    };
    let mut asked = Asked::default();
    for seen in memories {
        // mutant 231: a node id without ranges is not looked at
        // mutant 232: a node id of 8 bytes is let through
        // mutant 233: a node id of another length counts as absent
        // mutant 234: node 64 is let through
        // mutant 235: the node id is not looked at
        // mutant 236: of a node id only the last byte is read
        let node = match seen.id {
            None => 0,
            Some(_) if mutant(231) && seen.reg.is_none() => 0,
            Some(_) if mutant(235) => 0,
            Some(id) if id.len() == 4 => match big(id) {
                node @ 0..=63 => node as u32,
                64 if mutant(234) => 0,
                node if mutant(236) => node as u32 & 63,
                _ => return None,
            },
            Some(id) if mutant(232) && id.len() == 8 => big(id) as u32 & 63,
            Some(_) if mutant(233) => 0,
            Some(_) => return None,
        };
        // mutant 237: memory without reg is refused
        if mutant(237) && seen.reg.is_none() {
            return None;
        }
        // mutant 238: a ragged reg of memory is let through
        let ranges = ranges(seen.reg, both, mutant(238))?;
        asked.adds.extend(ranges.iter().map(|&(b, s)| (b, s, node)));
    }
    for (seen, own) in reserved {
        // mutant 239: the cells of /reserved-memory count for its children
        let both = match (own, mutant(239)) {
            ([Some(a), Some(s)], true) => (cells(Some(a), 2)?, cells(Some(s), 1)?),
            _ => both,
        };
        // mutant 240: no-map with a value counts as absent
        let no_map = seen
            .no_map
            .is_some_and(|value| !mutant(240) || value.is_empty());
        // mutant 241: a ragged reg that is reserved is let through
        // mutant 242: a ragged reg that is marked is let through
        let ragged = match no_map {
            false => mutant(241),
            true => mutant(242),
        };
        let ranges = ranges(seen.reg, both, ragged)?;
        // mutant 243: what is no-map is reserved
        // mutant 244: what is no-map is reserved and marked
        if !no_map || mutant(243) || mutant(244) {
            asked.reserves.extend(&ranges);
        }
        if no_map && !mutant(243) {
            asked.marks.extend(ranges);
        }
    }
    Some(asked)
}

/// The ranges of a reg.
fn ranges(reg: Option<&[u8]>, cells: (usize, usize), ragged: bool) -> Option<Vec<(u64, u64)>> {
    let Some(reg) = reg else {
        return Some(Vec::new());
    };
    // mutant 245: a reg without bytes is refused
    if mutant(245) && reg.is_empty() {
        return None;
    }
    let (first, second) = (4 * cells.0, 4 * cells.1);
    // mutant 246: a reg need only be whole words
    let whole =
        reg.len().is_multiple_of(first + second) || mutant(246) && reg.len().is_multiple_of(4);
    if !whole && !ragged {
        return None;
    }
    let entries = reg.chunks_exact(first + second);
    let mut ranges: Vec<(u64, u64)> = entries
        .map(|entry| {
            // mutant 247: the size comes before the address
            let (base, size) = match mutant(247) {
                true => (big(&entry[second..]), big(&entry[..second])),
                false => (big(&entry[..first]), big(&entry[first..])),
            };
            // mutant 248: of an address of two cells only the lower is read
            (
                if mutant(248) {
                    base & 0xFFFF_FFFF
                } else {
                    base
                },
                size,
            )
        })
        .collect();
    // mutant 249: only the first entry of a reg counts
    if mutant(249) {
        ranges.truncate(1);
    }
    Some(ranges)
}

enum Step {
    Add(u64, u64, u32),
    Reserve(u64, u64),
    Mark(u64, u64),
}

/// # Safety
/// As in lib.rs.
#[no_mangle]
pub unsafe extern "C" fn memblock_intake_tree(
    block: *mut u8,
    len: usize,
    board: *const u8,
    board_len: usize,
) -> u32 {
    let b = lent_mut(block, len);
    let t = lent(board, board_len);
    let asked = read(t);
    // mutant 250: 11 comes before 1
    if mutant(250) && asked.is_none() {
        return 11;
    }
    let Some(tables) = parse(b) else { return 1 };
    let Some(asked) = asked else {
        // mutant 251: a bad tree gets 10
        return if mutant(251) { 10 } else { 11 };
    };
    let number = take_in(b, &tables, &asked);
    if number != 0 {
        return number;
    }
    // mutant 263: a byte of the tree is written
    if mutant(263) {
        board
            .cast_mut()
            .add(board_len - 1)
            .write(t[t.len() - 1] ^ 1);
    }
    // mutant 264: the byte past the tree is written
    if mutant(264) {
        board.cast_mut().add(board_len).write(0);
    }
    0
}

/// Does what a tree asks for, all or nothing.
fn take_in(b: &mut [u8], tables: &Block, asked: &Asked) -> u32 {
    let mut adds: Vec<Step> = (asked.adds.iter().map(|&(b, s, n)| Step::Add(b, s, n))).collect();
    let reserve = |list: &[(u64, u64)]| -> Vec<Step> {
        list.iter().map(|&(b, s)| Step::Reserve(b, s)).collect()
    };
    let (list, reserves) = (reserve(&asked.list), reserve(&asked.reserves));
    let marks: Vec<Step> = asked.marks.iter().map(|&(b, s)| Step::Mark(b, s)).collect();
    // mutant 252: memory is taken in backwards
    if mutant(252) {
        adds.reverse();
    }
    // mutant 253: marks come before memory
    // mutant 254: the list comes after what is reserved
    // mutant 255: the list is passed over
    let parts = match () {
        _ if mutant(253) => vec![marks, adds, list, reserves],
        _ if mutant(254) => vec![adds, reserves, list, marks],
        _ if mutant(255) => vec![adds, reserves, marks],
        _ => vec![adds, list, reserves, marks],
    };
    let mut lists = [tables.memory.clone(), tables.taken.clone()];
    for step in parts.into_iter().flatten() {
        let (table, pieces) = match step {
            Step::Add(base, size, node) => {
                // mutant 256: a range that is cut at the top is passed over
                if mutant(256) && base.checked_add(size).is_none() {
                    continue;
                }
                (0, fill(&lists[0], base, cut(base, size), 0, node))
            }
            Step::Reserve(base, size) => (1, fill(&lists[1], base, cut(base, size), 0, 0)),
            Step::Mark(base, size) => {
                // mutant 257: a mark clears the other flags
                let change = |rec: &mut crate::Rec| {
                    rec.flags = if mutant(257) { 0 } else { rec.flags } | NO_MAP;
                    true
                };
                (0, split(&lists[0], base, cut(base, size), change))
            }
        };
        let next = shortest(&pieces);
        if next.len() > NOW.capacity[table] {
            // mutant 258: the range that does not fit is passed over
            if mutant(258) {
                continue;
            }
            // mutant 259: a refusal 6 leaves what was done before it
            // mutant 260: a refusal 6 of the taken table leaves memory changed
            if mutant(259) || mutant(260) && table == 1 {
                put_table(b, 0, &lists[0], false);
            }
            if mutant(259) {
                put_table(b, 1, &lists[1], false);
            }
            return 6;
        }
        lists[table] = next;
    }
    // mutant 261: memory is trimmed at the end
    if mutant(261) {
        lists[0] = trimmed(&lists[0], PAGE);
    }
    put_table(b, 0, &lists[0], false);
    put_table(b, 1, &lists[1], false);
    // mutant 262: the intake of a tree clears the image end
    if mutant(262) {
        put_image_end(b, 0);
    }
    0
}

/// Whether a property is of a path.
fn at_path(met: &Met, path: &[u8]) -> bool {
    match () {
        // mutant 268: a path is compared name by name, so that none has a slash
        _ if mutant(268) => {
            let below: Vec<&[u8]> = match path {
                b"/" => Vec::new(),
                [b'/', rest @ ..] => rest.split(|&byte| byte == b'/').collect(),
                _ => return false,
            };
            below == met.levels
        }
        // mutant 269: a node's path need only begin with the path asked for
        _ if mutant(269) => !path.is_empty() && met.path.starts_with(path),
        // mutant 270: a node's path need only be the beginning of the path asked for
        _ if mutant(270) => path.starts_with(&met.path),
        // mutant 271: the unit address of the last name may be left out
        _ if mutant(271) && !path.contains(&b'@') => {
            let unit = met.path.iter().rposition(|&byte| byte == b'@');
            met.path[..unit.unwrap_or(met.path.len())] == *path
        }
        // mutant 272: the slash in front may be left out
        _ if mutant(272) => met.path == path || &met.path[1..] == path,
        // mutant 273: a slash at the end is passed over
        _ if mutant(273) && path.len() > 1 => met.path == path.strip_suffix(b"/").unwrap_or(path),
        // mutant 274: an empty path is the root's
        _ if mutant(274) && path.is_empty() => met.path == b"/",
        // mutant 275: a nameless child of the root is not at the root's path
        _ if mutant(275) && path == b"/" => met.levels.is_empty(),
        // mutant 276: what is deeper than level 8 is not found
        _ if mutant(276) && met.levels.len() >= 8 => false,
        // mutant 277: two slashes in a row are one
        _ if mutant(277) => {
            let mut one = path.to_vec();
            one.dedup_by(|a, b| *a == b'/' && *b == b'/');
            met.path == one
        }
        _ => met.path == path,
    }
}

/// Whether a property is of a name.
fn has_name(met: &Met, name: &[u8]) -> bool {
    match () {
        // mutant 278: a property's name need only begin with the name asked for
        _ if mutant(278) => met.name.starts_with(name),
        // mutant 279: a property's name need only be the beginning of the name asked for
        _ if mutant(279) => !met.name.is_empty() && name.starts_with(met.name),
        // mutant 280: a name asked for ends at its first zero
        _ if mutant(280) => name.split(|&byte| byte == 0).next() == Some(met.name),
        // mutant 281: a property without a name is not found
        _ if mutant(281) => met.name == name && !name.is_empty(),
        _ => met.name == name,
    }
}

/// The property that counts of a path and a name.
fn first<'m, 'a>(met: &'m [Met<'a>], path: &[u8], name: &[u8], looks: bool) -> Option<&'m Met<'a>> {
    let mut found = met
        .iter()
        .filter(|met| at_path(met, path) && has_name(met, name));
    // mutant 282: of several in the tree a lookup finds the last
    // mutant 283: of several corrections the last counts
    let one = match mutant(282) && looks || mutant(283) && !looks {
        true => found.next_back(),
        false => found.next(),
    };
    // mutant 284: of several nodes of one path only the first is looked into
    let node = met.iter().find(|met| at_path(met, path))?.node;
    let one = one.filter(|one| !mutant(284) || one.node == node);
    // mutant 285: a lookup takes an empty value for none
    // mutant 286: an empty value corrects nothing
    let empty_is_none = mutant(285) && looks || mutant(286) && !looks;
    one.filter(|one| !empty_is_none || !one.value.is_empty())
}

/// The slots of a node that a service tree can correct, each with its name.
const CORRECTED: [&[u8]; 6] = [
    b"reg",
    b"device_type",
    b"#address-cells",
    b"#size-cells",
    b"numa-node-id",
    b"no-map",
];

impl<'a> Seen<'a> {
    fn slot(&mut self, which: usize) -> &mut Option<&'a [u8]> {
        match which {
            0 => &mut self.reg,
            1 => &mut self.device_type,
            2 => &mut self.cells[0],
            3 => &mut self.cells[1],
            4 => &mut self.id,
            _ => &mut self.no_map,
        }
    }
}

/// The board's tree with what the service tree has at its nodes' paths in their place.
fn corrected<'a>(board: &'a [u8], service: &Tree<'a>) -> Option<Tree<'a>> {
    let met = &service.nodes.met;
    let mut before: Vec<Vec<u8>> = Vec::new();
    let mut correct = |path: &[u8], level: usize, seen: &mut Seen<'a>| {
        // mutant 287: corrections reach the root's nodes alone
        // mutant 288: corrections do not reach what is reserved
        // mutant 289: corrections do not reach the root
        let reached = match () {
            _ if mutant(287) => level == 2,
            _ if mutant(288) => level < 3,
            _ if mutant(289) => level > 1,
            _ => true,
        };
        // mutant 290: a second node of one path is not corrected
        let again = mutant(290) && before.iter().any(|other| other == path);
        before.push(path.to_vec());
        if !reached || again {
            return;
        }
        for (which, name) in CORRECTED.into_iter().enumerate() {
            // mutant 291: the service tree's reg is passed over
            // mutant 292: its device_type
            // mutant 293: its cells
            // mutant 294: its node id
            // mutant 295: its no-map
            let passed = match name {
                b"reg" => mutant(291),
                b"device_type" => mutant(292),
                b"numa-node-id" => mutant(294),
                b"no-map" => mutant(295),
                _ => mutant(293),
            };
            let slot = seen.slot(which);
            // mutant 296: a property that the node has not itself is passed over
            if passed || mutant(296) && slot.is_none() {
                continue;
            }
            // mutant 297: a correction counts by its name, whatever its path
            let found = match mutant(297) {
                true => met.iter().find(|met| met.name == name),
                false => first(met, path, name, false),
            };
            if let Some(found) = found {
                *slot = Some(found.value);
            } else if mutant(298) && met.iter().any(|met| at_path(met, path)) {
                // mutant 298: what a node of the service tree has not counts as empty
                *slot = slot.map(|_| &[][..]);
            } else if mutant(299) && met.iter().any(|met| at_path(met, path)) {
                // mutant 299: what a node of the service tree has not is away
                *slot = None;
            }
        }
    };
    form(board, false, Some(&mut correct))
}

/// What a pair asks for, if it is read.
fn read_pair(board: &[u8], service: &[u8]) -> Option<Asked> {
    let bare;
    let listed = match form(service, true, None) {
        Some(listed) => listed,
        // mutant 300: a service tree that has not the form corrects nothing
        None if mutant(300) => {
            bare = Tree {
                list: Vec::new(),
                structure_at: 0,
                nodes: Nodes {
                    root: Seen::default(),
                    memories: Vec::new(),
                    reserved: Vec::new(),
                    met: Vec::new(),
                    alone: true,
                },
            };
            bare
        }
        None => return None,
    };
    // mutant 301: a service tree that is a root alone is refused
    if mutant(301) && listed.nodes.alone && listed.nodes.met.is_empty() {
        return None;
    }
    // mutant 302: a board's tree that has not the form asks for nothing
    let Some(tree) = corrected(board, &listed) else {
        return mutant(302).then(Asked::default);
    };
    // mutant 303: the values are asked of the board's own, not of those found
    // mutant 304: the values are asked of both
    // mutant 305: the commands are those of the board's own values, where these may be
    // mutant 306: the values of the service tree's own nodes are asked too
    let own = read(board);
    let mut asked = match asked(&tree) {
        _ if own.is_none() && (mutant(303) || mutant(304)) => return None,
        _ if asked(&listed).is_none() && mutant(306) => return None,
        Some(_) if own.is_some() && mutant(305) => own?,
        None if mutant(303) => own?,
        asked => asked?,
    };
    // mutant 307: the service tree's list is reserved too
    if mutant(307) {
        asked.list.extend(&listed.list);
    }
    // mutant 308: the service tree's memory is added too
    // mutant 309: what the service tree has under /reserved-memory is reserved too
    if let (true, Some(more)) = (mutant(308) || mutant(309), self::asked(&listed)) {
        match mutant(308) {
            true => asked.adds.extend(more.adds),
            false => asked.reserves.extend(more.reserves),
        }
    }
    // mutant 310: the list is the service tree's
    if mutant(310) {
        asked.list = listed.list;
    }
    Some(asked)
}

/// # Safety
/// As in lib.rs; the trees may be one.
#[no_mangle]
pub unsafe extern "C" fn memblock_intake_trees(
    block: *mut u8,
    len: usize,
    board: *const u8,
    board_len: usize,
    service: *const u8,
    service_len: usize,
) -> u32 {
    let b = lent_mut(block, len);
    let (t, s) = (lent(board, board_len), lent(service, service_len));
    // mutant 311: the two trees are taken the wrong way round
    let asked = match mutant(311) {
        true => read_pair(s, t),
        false => read_pair(t, s),
    };
    // mutant 312: of a pair 11 comes before 1
    if mutant(312) && asked.is_none() {
        return 11;
    }
    let Some(tables) = parse(b) else { return 1 };
    // mutant 313: one buffer for both trees is refused
    let refused = asked.is_none() || mutant(313) && board == service;
    let Some(asked) = asked.filter(|_| !refused) else {
        // mutant 314: a refusal 11 clears the image end
        if mutant(314) {
            put_image_end(b, 0);
        }
        // mutant 315: a bad pair gets 10
        return if mutant(315) { 10 } else { 11 };
    };
    let before = b.to_vec();
    let number = take_in(b, &tables, &asked);
    // mutant 316: a refusal 6 of a pair leaves the ranges that do fit
    if mutant(316) && number == 6 {
        let adds = Asked {
            adds: asked.adds[..1.min(asked.adds.len())].to_vec(),
            ..Asked::default()
        };
        b.copy_from_slice(&before);
        take_in(b, &tables, &adds);
    }
    // mutant 317: a byte of the service tree is written
    if mutant(317) && number == 0 {
        let last = service.cast_mut().add(service_len - 1);
        last.write(!last.read());
    }
    number
}

/// # Safety
/// As in lib.rs; the trees may be one.
#[no_mangle]
#[allow(clippy::too_many_arguments)]
pub unsafe extern "C" fn memblock_lookup(
    service: *const u8,
    service_len: usize,
    board: *const u8,
    board_len: usize,
    path: *const u8,
    path_len: usize,
    name: *const u8,
    name_len: usize,
    slip: *mut u8,
    slip_len: usize,
) -> u32 {
    let (s, t) = (lent(service, service_len), lent(board, board_len));
    let (path_bytes, name_bytes) = (lent(path, path_len), lent(name, name_len));
    let slip_bytes = lent_mut(slip, slip_len);
    let trees = [form(s, true, None), form(t, true, None)];
    // mutant 318: 11 comes before 8
    let formed = trees.iter().all(|tree| tree.is_some());
    if mutant(318) && !formed && slip_len != 16 {
        return 11;
    }
    // mutant 319: a longer slip will do
    if slip_len < 16 || slip_len > 16 && !mutant(319) {
        // mutant 320: a slip of another length is cleared
        if mutant(320) {
            slip_bytes.fill(0);
        }
        return 8;
    }
    let found = trees.each_ref().map(|tree| {
        let tree = tree.as_ref()?;
        let one = first(&tree.nodes.met, path_bytes, name_bytes, true)?;
        // mutant 321: the offset is that in the structure block
        // mutant 322: the offset is one more
        // mutant 323: the offset is that of the property's token
        let at = match () {
            _ if mutant(321) => one.at,
            _ if mutant(322) => tree.structure_at + one.at + 1,
            _ if mutant(323) => tree.structure_at + one.at - 12,
            _ => tree.structure_at + one.at,
        };
        // mutant 324: the length is with its padding
        // mutant 325: the length is without the last byte, if that is zero
        let length = match one.value {
            _ if mutant(324) => padded(one.value.len()),
            [front @ .., 0] if mutant(325) => front.len(),
            value => value.len(),
        };
        // mutant 326: an empty value stands nowhere
        match length {
            0 if mutant(326) => Some((0, 0)),
            _ => Some((at as u64, length as u64)),
        }
    });
    // mutant 327: 11 speaks of the service tree alone
    // mutant 328: 11 speaks of the board's tree alone
    // mutant 329: the board's tree is not looked at where the service tree has it
    // mutant 330: 11 only where both have not the form
    let refused = match () {
        _ if mutant(327) => trees[0].is_none(),
        _ if mutant(328) => trees[1].is_none(),
        _ if mutant(329) => trees[0].is_none() || trees[1].is_none() && found[0].is_none(),
        _ if mutant(330) => trees[0].is_none() && trees[1].is_none(),
        _ => !formed,
    };
    // mutant 331: a lookup refuses a tree whose values are not as the intake asks
    let refused =
        refused || mutant(331) && trees.iter().flatten().any(|tree| asked(tree).is_none());
    // mutant 332: the board's value comes first
    // mutant 333: what the service tree has not is an empty value of it
    // mutant 334: the service tree is not looked into
    let (number, place) = match found {
        _ if refused => (11, (0, 0)),
        [_, Some(place)] if mutant(332) => (2, place),
        [None, Some(_)] if mutant(333) => (1, (0, 0)),
        [Some(_), other] if mutant(334) => other.map_or((0, (0, 0)), |place| (2, place)),
        [Some(place), _] => (1, place),
        [None, Some(place)] => (2, place),
        [None, None] => (0, (0, 0)),
    };
    // mutant 335: the slip of neither stays as it was
    // mutant 336: the slip of 11 stays as it was
    let kept = mutant(335) && number == 0 || mutant(336) && number == 11;
    // mutant 337: offset and length change places
    // mutant 338: the slip is big-endian
    let (at, length) = match mutant(337) {
        true => (place.1, place.0),
        false => place,
    };
    for (half, x) in slip_bytes.chunks_mut(8).zip([at, length]) {
        if !kept {
            half[..8].copy_from_slice(&match mutant(338) {
                true => x.to_be_bytes(),
                false => x.to_le_bytes(),
            });
        }
    }
    // mutant 339: a byte of the path is written
    if mutant(339) && path_len > 0 {
        path.cast_mut().write(0);
    }
    // mutant 340: the byte past the slip is written
    if mutant(340) {
        slip.add(slip_len).write(0);
    }
    match number {
        // mutant 341: service and board change places
        1 | 2 if mutant(341) => 3 - number,
        // mutant 342: a lookup in a bad tree gets 10
        11 if mutant(342) => 10,
        number => number,
    }
}

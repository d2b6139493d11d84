//! Replays the boot program's transcript on the second program, line by line.
//!
//! `transcript NAME FILE`. For each call the line that the second program would
//! have written, with its number, its block's sum and its slip, or its report's, trees',
//! old block's or buffer's sum, must be the line that stands there; the same for a value
//! that was looked up, for the free pages when all are handed over, and for both tables at
//! the end.
//! Fails at the first difference, at a line it does not know, and when the
//! transcript does not reach its end or leaves out a function, a number, a number of an
//! intake of one tree or two, of a lookup or of a call for pages, a flag, a wish, a way that
//! a bottom-up allocation can go from the image's end, a second free of one range, part of
//! the memory map, a handover of all pages by buffers of several lengths, a page named inside
//! a piece, or a buffer too short for one.

use model::layout::*;
use model::{Board, Direction, Query};
use std::collections::{BTreeMap, BTreeSet};
use std::fmt::Write;
use std::process::ExitCode;

/// Bytes behind each lent buffer that no call may write.
const GUARD: usize = 8;
/// What a slip holds before each call.
const FILL: u8 = 0xa5;
/// The area below 1 MiB that a PC keeps for itself, base and size.
const LEGACY: (u64, u64) = (0xa0000, 0x60000);
/// The report's bytes: room for one entry too many.
const REPORT_LEN: usize = (REPORT_ENTRIES + 1) * REPORT_ENTRY_LEN + GUARD;

/// The tree's bytes, and the service tree's.
const TREE_LEN: usize = 32 * 1024 + GUARD;
const SERVICE_LEN: usize = 2 * 1024 + GUARD;

/// The most pieces that a line names.
const PIECES_FEW: usize = 5;
/// The most bytes that are lent for pieces.
const BUFFER_LEN: usize = 32768 * PIECE_LEN;

const FUNCTIONS: [&str; 19] = [
    "memblock_fresh",
    "memblock_set",
    "memblock_set_image_end",
    "memblock_add",
    "memblock_remove",
    "memblock_mark",
    "memblock_unmark",
    "memblock_reserve",
    "memblock_free",
    "memblock_trim",
    "memblock_next_free",
    "memblock_find",
    "memblock_allocate",
    PAGES_OF,
    "memblock_intake_e820",
    "memblock_intake_tree",
    "memblock_intake_trees",
    LOOKUP,
    "memblock_convert",
];
const NUMBERS: [u32; 12] = [0, 1, 2, 3, 4, 5, 6, 7, 8, 10, 11, 12];
const LOOKUP: &str = "memblock_lookup";
const PAGES_OF: &str = "memblock_pages";
/// What the intakes of trees, a lookup and a call for pages can answer.
const ANSWERS: [(&str, &[u32]); 4] = [
    ("memblock_intake_tree", &[0, 1, 11, 6]),
    ("memblock_intake_trees", &[0, 1, 11, 6]),
    (LOOKUP, &[0, 1, 2, 8, 11]),
    (PAGES_OF, &[0, 8, 1]),
];
/// The functions that take a flag or a wish as their last number, and each of these.
const MARKS: [&str; 2] = ["memblock_mark", "memblock_unmark"];
const EACH_FLAG: [u32; 3] = [HOTPLUG, MIRROR, NO_MAP];
const SEARCHES: [&str; 3] = ["memblock_next_free", "memblock_find", "memblock_allocate"];
const EACH_WISH: [u32; 4] = [0, WISH_HOTPLUG, WISH_MIRROR, WISH_BOTH];

/// The blocks of a boot.
const BLOCKS: [&str; 5] = ["block", "mirror", "old", "by_tree", "by_calls"];

/// What is wrong with a line.
type Wrong = String;
/// Base, size and kind.
type Entry = (u64, u64, u32);

/// The pieces that calls in turn from page 0 on gave of one block: how many, their pages,
/// a sum over their bytes, and the page that the next call names.
struct Handed {
    name: String,
    pieces: usize,
    pages: u128,
    sum: u64,
    next: u64,
    /// The lengths of the calls' buffers.
    rooms: BTreeSet<usize>,
}

fn main() -> ExitCode {
    let arguments: Vec<String> = std::env::args().skip(1).collect();
    let [name, file] = &arguments[..] else {
        eprintln!("usage: transcript NAME FILE");
        return ExitCode::from(2);
    };
    let text = match std::fs::read_to_string(file) {
        Ok(text) => text,
        Err(e) => {
            eprintln!("{name}: {file}: {e}");
            return ExitCode::from(2);
        }
    };
    match replay(&text) {
        Ok(lines) => {
            println!("{name}, {lines} lines as the second program says");
            ExitCode::SUCCESS
        }
        Err((line, wrong)) => {
            eprintln!("{name}: line {line}: {wrong}");
            ExitCode::FAILURE
        }
    }
}

/// How many lines were replayed, or the first that is wrong, counted from 1.
fn replay(text: &str) -> Result<usize, (usize, Wrong)> {
    let mut lines = text.lines().enumerate();
    let mut replay = Replay::new();
    let mut read = 0;
    while !replay.ended {
        let (at, line) = lines
            .next()
            .ok_or((read + 1, "the transcript stops before its end".into()))?;
        read = at + 1;
        let (expected, more) = replay.line(read, line).map_err(|wrong| (read, wrong))?;
        same(line, &expected).map_err(|wrong| (read, wrong))?;
        for expected in more {
            read += 1;
            let line = lines.next().map_or("", |(_, line)| line);
            same(line, &expected).map_err(|wrong| (read, wrong))?;
        }
    }
    if let Some((at, line)) = lines.next() {
        return Err((at + 1, format!("after the end: {line}")));
    }
    replay.whole().map_err(|wrong| (read, wrong))?;
    Ok(read)
}

fn same(line: &str, expected: &str) -> Result<(), Wrong> {
    if line == expected {
        return Ok(());
    }
    Err(format!("\n  transcript: {line}\n  expected:   {expected}"))
}

struct Replay {
    blocks: BTreeMap<&'static str, Vec<u8>>,
    calls: u64,
    met: BTreeSet<String>,
    numbers: BTreeSet<u32>,
    /// What the functions of `ANSWERS` answered.
    answers: BTreeSet<(String, u32)>,
    /// The trees as they stand; how often the block of an intake was the block of its
    /// commands.
    tree: Vec<u8>,
    service: Vec<u8>,
    tree_same: u32,
    /// The value that was looked up last, until it is written.
    value: Option<Vec<u8>>,
    /// The memory map; the entries of the report as it stands; those of each
    /// report taken in, with its block; the ranges added to `mirror`, up to the
    /// first comparison.
    map: Vec<Entry>,
    report: Vec<u8>,
    entries: Vec<Entry>,
    taken_in: Vec<(String, Vec<Entry>)>,
    added: Vec<(u64, u64)>,
    /// Ranges in use before the first call, and those reserved in `block`.
    held: Vec<(u64, u64)>,
    reserved: Vec<(u64, u64)>,
    /// How often the two blocks were compared, and conversions that were done.
    same: u32,
    converted: u32,
    /// The run's end of the allocation just done, and whether next free went on from
    /// such an end.
    run_end: Option<u64>,
    went_on: bool,
    /// Whether bottom-up allocations were done above the image in use, and the other
    /// way, from whatever image end: not every board has memory below the image.
    above: bool,
    other_way: bool,
    /// The ranges freed in each block, and whether one of them was freed once more.
    freed: BTreeSet<(String, u64, u64)>,
    freed_twice: bool,
    /// The functions called with each last number, and not refused for it.
    words: BTreeSet<(String, u64)>,
    /// The pages being handed over; each handover of all of them; whether a page was named
    /// inside a piece, and a buffer lent that takes none of those left.
    handed: Option<Handed>,
    all_handed: Vec<Handed>,
    inside: bool,
    no_room: bool,
    tables: BTreeSet<String>,
    ended: bool,
}

impl Replay {
    fn new() -> Replay {
        let zero = || vec![0; BLOCK_LEN + GUARD];
        Replay {
            blocks: BLOCKS.map(|name| (name, zero())).into(),
            calls: 0,
            met: BTreeSet::new(),
            numbers: BTreeSet::new(),
            answers: BTreeSet::new(),
            tree: vec![0; TREE_LEN],
            service: vec![0; SERVICE_LEN],
            tree_same: 0,
            value: None,
            map: Vec::new(),
            report: vec![0; REPORT_LEN],
            entries: Vec::new(),
            taken_in: Vec::new(),
            added: Vec::new(),
            held: Vec::new(),
            reserved: Vec::new(),
            same: 0,
            converted: 0,
            run_end: None,
            went_on: false,
            above: false,
            other_way: false,
            freed: BTreeSet::new(),
            freed_twice: false,
            words: BTreeSet::new(),
            handed: None,
            all_handed: Vec::new(),
            inside: false,
            no_room: false,
            tables: BTreeSet::new(),
            ended: false,
        }
    }

    /// The line that should stand here, and those that should follow it.
    fn line(&mut self, at: usize, line: &str) -> Result<(String, Vec<String>), Wrong> {
        if (at == 1) != (line == "boot") {
            return Err("the transcript does not begin with 'boot'".into());
        }
        if let Some((function, rest)) = line.split_once('(') {
            let (arguments, _) = rest.split_once(')').ok_or("no ')'")?;
            return Ok((self.call(function, arguments)?, Vec::new()));
        }
        let words: Vec<&str> = line.split(' ').collect();
        let mut more = Vec::new();
        match words[..] {
            ["boot"] => {}
            ["map", "base", base, "size", size, "kind", kind] => {
                self.map.push((hex(base)?, hex(size)?, narrow(hex(kind)?)?));
            }
            ["report", byte] => {
                let byte: u8 = narrow(hex(byte)?)?;
                self.report.fill(byte);
                self.entries.clear();
            }
            ["tree", byte] => {
                let byte: u8 = narrow(hex(byte)?)?;
                self.tree.fill(byte);
            }
            ["tree", "at", at, digits] => {
                let bytes = (0..digits.len())
                    .step_by(2)
                    .map(|i| u8::from_str_radix(digits.get(i..i + 2)?, 16).ok())
                    .collect::<Option<Vec<u8>>>()
                    .ok_or("not bytes")?;
                let at = hex(at)? as usize;
                self.tree[..TREE_LEN - GUARD]
                    .get_mut(at..at + bytes.len())
                    .ok_or("longer than the tree")?
                    .copy_from_slice(&bytes);
            }
            ["poke", which @ ("tree" | "service"), at, byte] => {
                let at = hex(at)? as usize;
                let byte = narrow(hex(byte)?)?;
                let tree = match which {
                    "tree" => &mut self.tree,
                    _ => &mut self.service,
                };
                *tree.get_mut(at).ok_or("outside the tree")? = byte;
            }
            ["service", length] => {
                let length = hex(length)? as usize;
                let kept = self.tree.get(..length).ok_or("longer than the tree")?;
                self.service.fill(FILL);
                self.service[..SERVICE_LEN - GUARD]
                    .get_mut(..length)
                    .ok_or("longer than the service tree")?
                    .copy_from_slice(kept);
            }
            ["value", _] => {
                let value = self.value.take().ok_or("no value was looked up")?;
                let digits: String = value.iter().map(|byte| format!("{byte:02x}")).collect();
                return Ok((format!("value {digits}"), more));
            }
            ["entry", "base", base, "size", size, "kind", kind] => {
                self.entry((hex(base)?, hex(size)?, narrow(hex(kind)?)?))?;
            }
            ["held", "base", base, "size", size] => {
                self.held.push((hex(base)?, hex(size)?));
            }
            ["fill", name, byte] => {
                let byte = narrow(hex(byte)?)?;
                self.block(name)?.fill(byte);
            }
            ["poke", name, at, byte] => {
                let at = hex(at)? as usize;
                let byte = narrow(hex(byte)?)?;
                *self.block(name)?.get_mut(at).ok_or("outside the block")? = byte;
            }
            ["edition", "1", name] => {
                let old = edition_1(self.block(name)?);
                self.block("old")?[..old.len()].copy_from_slice(&old);
            }
            ["same", "block", "mirror", _] => {
                if self.blocks["block"] != self.blocks["mirror"] {
                    return Err("the second program's two blocks differ".into());
                }
                self.same += 1;
                return Ok(("same block mirror 0x1".into(), more));
            }
            ["same", "by_tree", "by_calls", _] => {
                if self.blocks["by_tree"] != self.blocks["by_calls"] {
                    return Err("the second program's tree is not its commands".into());
                }
                self.tree_same += 1;
                return Ok(("same by_tree by_calls 0x1".into(), more));
            }
            ["use", "base", base, "size", size, "holds", _] => {
                return Ok((format!("use base {base} size {size} holds 0x1"), more));
            }
            ["handed", name, ..] => return Ok((self.all_pages(name)?, more)),
            ["tables", name] => {
                let block = self.block(name)?;
                let board = Board::read(&block[..BLOCK_LEN]).ok_or("not a good block")?;
                more = tables(&board);
                self.tables.insert(name.into());
            }
            ["end", "calls", _, "lines", _] => {
                self.ended = true;
                let (calls, before) = (self.calls, at - 1);
                return Ok((format!("end calls {calls:#x} lines {before:#x}"), more));
            }
            _ => return Err(format!("unknown: {line}")),
        }
        Ok((line.into(), more))
    }

    fn block(&mut self, name: &str) -> Result<&mut Vec<u8>, Wrong> {
        self.blocks
            .get_mut(name)
            .ok_or(format!("no block '{name}'"))
    }

    /// An entry more in the report.
    fn entry(&mut self, entry: Entry) -> Result<(), Wrong> {
        let (base, size, kind) = entry;
        let at = self.entries.len() * REPORT_ENTRY_LEN;
        let bytes = self.report[..REPORT_LEN - GUARD]
            .get_mut(at..at + REPORT_ENTRY_LEN)
            .ok_or("more entries than the report has room for")?;
        bytes[..8].copy_from_slice(&base.to_le_bytes());
        bytes[8..16].copy_from_slice(&size.to_le_bytes());
        bytes[16..].copy_from_slice(&kind.to_le_bytes());
        self.entries.push(entry);
        Ok(())
    }

    /// A conversion on the second program; its line.
    fn convert(&mut self, arguments: &str) -> Result<String, Wrong> {
        let words: Vec<&str> = arguments.split(", ").collect();
        let ["old", old_length, name, length] = words[..] else {
            return Err(format!("unknown conversion: {arguments}"));
        };
        let buffer = self.blocks["old"].clone();
        let old = buffer
            .get(..hex(old_length)? as usize)
            .ok_or("longer than the old block")?;
        let length = hex(length)? as usize;
        let lent = self.block(name)?;
        let block = lent.get_mut(..length).ok_or("longer than the block")?;
        let number = model::convert(old, block);
        let line = format!(
            "memblock_convert({arguments}) = {number:#x} sum {:#x} old {:#x}",
            sum(lent),
            sum(&buffer)
        );
        self.converted += u32::from(number == 0);
        self.calls += 1;
        self.met.insert("memblock_convert".into());
        self.numbers.insert(number);
        Ok(line)
    }

    /// A lookup on the second program; its line.
    fn lookup(&mut self, arguments: &str) -> Result<String, Wrong> {
        let words: Vec<&str> = arguments.split(", ").collect();
        let ["service", of_service, "tree", length, path, name, "slip", slip_length] = words[..]
        else {
            return Err(format!("unknown lookup: {arguments}"));
        };
        let service = self.service.get(..hex(of_service)? as usize);
        let service = service.ok_or("longer than the service tree")?;
        let tree = self.tree.get(..hex(length)? as usize);
        let tree = tree.ok_or("longer than the tree")?;
        let mut slip = [FILL; SLIP_LEN + GUARD];
        let lent = slip.get_mut(..hex(slip_length)? as usize);
        let lent = lent.ok_or("longer than the slip")?;
        let number = model::lookup(service, tree, path.as_bytes(), name.as_bytes(), lent);
        let whole = lent.len() == SLIP_LEN;
        let half = |at| u64::from_le_bytes(slip[at..at + 8].try_into().expect("8 bytes"));
        let mut line = format!("{LOOKUP}({arguments}) = {number:#x}");
        if whole {
            let _ = write!(line, " slip {:#x} {:#x}", half(0), half(8));
        }
        let sums = (sum(&self.tree), sum(&self.service));
        let _ = write!(line, " tree {:#x} service {:#x}", sums.0, sums.1);
        let part = half(0) as usize..half(0).wrapping_add(half(8)) as usize;
        self.value = match number {
            number::IN_SERVICE => Some(service[part].to_vec()),
            number::IN_BOARD => Some(tree[part].to_vec()),
            _ => None,
        };
        self.calls += 1;
        self.met.insert(LOOKUP.into());
        self.answers.insert((LOOKUP.into(), number));
        Ok(line)
    }

    /// A call for pages on the second program; its line.
    fn pages(&mut self, arguments: &str) -> Result<String, Wrong> {
        let words: Vec<&str> = arguments.split(", ").collect();
        let [name, length, from, "buffer", room, "slip", slip_length] = words[..] else {
            return Err(format!("unknown call for pages: {arguments}"));
        };
        let (from, room) = (hex(from)?, hex(room)? as usize);
        let whole = self.blocks.get(name).ok_or("no such block")?;
        let block = whole.get(..hex(length)? as usize);
        let block = block.ok_or("longer than the block")?;
        let mut slip = [FILL; SLIP_LEN + GUARD];
        let lent_slip = slip.get_mut(..hex(slip_length)? as usize);
        let lent_slip = lent_slip.ok_or("longer than the slip")?;
        if room > BUFFER_LEN {
            return Err("longer than the buffer".into());
        }
        let mut buffer = vec![FILL; room + GUARD];
        let number = model::pages(block, from, &mut buffer[..room], lent_slip);
        let half = |at| u64::from_le_bytes(slip[at..at + 8].try_into().expect("8 bytes"));
        let mut line = format!(
            "{PAGES_OF}({arguments}) = {number:#x} sum {:#x}",
            sum(whole)
        );
        let mut count = 0;
        if hex(slip_length)? as usize == SLIP_LEN {
            count = half(0) as usize;
            let _ = write!(line, " slip {:#x} {:#x}", half(0), half(8));
        }
        let _ = write!(line, " buffer {:#x}", sum(&buffer));
        let written = &buffer[..count * PIECE_LEN];
        for (page, order) in pieces(written).filter(|_| count <= PIECES_FEW) {
            let _ = write!(line, " page {page:#x} order {order:#x}");
        }
        if number == 0 {
            let board = Board::read(block).ok_or("not a good block")?;
            let free = |page: u128| {
                let (lo, hi) = (page * PAGE_LEN, (page + 1) * PAGE_LEN);
                let mut runs = board.free_runs().into_iter();
                runs.any(|run| run.lo <= lo && hi <= run.hi)
            };
            // A free page at which no piece begins lies inside one.
            let first = pieces(written).next();
            self.inside |= first.is_some_and(|piece| piece.0 != from) && free(from.into());
            self.no_room |= room < PIECE_LEN && u128::from(half(8)) < PAGES;
            self.go_on(name, from, room, written, half(8));
        }
        self.calls += 1;
        self.met.insert(PAGES_OF.into());
        self.numbers.insert(number);
        self.answers.insert((PAGES_OF.into(), number));
        Ok(line)
    }

    /// Counts the pieces of a call from page 0 on, or from where the last one ended.
    fn go_on(&mut self, name: &str, from: u64, room: usize, written: &[u8], next: u64) {
        let mut handed = match self.handed.take() {
            Some(handed) if from > 0 && handed.name == name && handed.next == from => handed,
            _ if from == 0 => Handed {
                name: name.into(),
                pieces: 0,
                pages: 0,
                sum: sum(&[]),
                next: 0,
                rooms: BTreeSet::new(),
            },
            _ => return,
        };
        handed.pieces += pieces(written).count();
        handed.pages += pieces(written).map(|piece| 1 << piece.1).sum::<u128>();
        handed.sum = sum_on(handed.sum, written);
        handed.next = next;
        handed.rooms.insert(room);
        self.handed = Some(handed);
    }

    /// The line of all pages handed over: as many as the free runs have.
    fn all_pages(&mut self, name: &str) -> Result<String, Wrong> {
        let block = &self.block(name)?[..BLOCK_LEN];
        let board = Board::read(block).ok_or("not a good block")?;
        let whole = |lo: u128, hi: u128| (hi / PAGE_LEN).saturating_sub(lo.div_ceil(PAGE_LEN));
        let runs = board.free_runs().into_iter();
        let pages: u128 = runs.map(|run| whole(run.lo, run.hi)).sum();
        let handed = self.handed.take().ok_or("nothing was handed over")?;
        if handed.name != name || u128::from(handed.next) != PAGES || handed.pages != pages {
            return Err("not all pages were handed over".into());
        }
        let line = format!(
            "handed {name} pieces {:#x} pages {pages:#x} of {pages:#x} sum {:#x} wrong 0x0",
            handed.pieces, handed.sum
        );
        self.all_handed.push(handed);
        Ok(line)
    }

    /// Makes the call on the second program; its line.
    fn call(&mut self, function: &str, arguments: &str) -> Result<String, Wrong> {
        if self.value.is_some() {
            return Err("a value was looked up, and not written".into());
        }
        if function == "memblock_convert" {
            return self.convert(arguments);
        }
        if function == LOOKUP {
            return self.lookup(arguments);
        }
        if function == PAGES_OF {
            return self.pages(arguments);
        }
        let mut words = arguments.split(", ");
        let name = words.next().ok_or("no block")?.to_string();
        let mut numbers = Vec::new();
        let mut slip_length = None;
        let mut report_length = None;
        let mut tree_length = None;
        let mut service_length = None;
        while let Some(word) = words.next() {
            let mut length = || words.next().ok_or("no length of what is lent".to_string());
            match word {
                "slip" => slip_length = Some(hex(length()?)? as usize),
                "report" => report_length = Some(hex(length()?)? as usize),
                "tree" => tree_length = Some(hex(length()?)? as usize),
                "service" => service_length = Some(hex(length()?)? as usize),
                number => numbers.push(hex(number)?),
            }
        }
        let (&length, numbers) = numbers.split_first().ok_or("no length")?;
        let ranged = (numbers.len() >= 2).then(|| (numbers[0], numbers[1]));
        let buffer = self.blocks.get_mut(&name[..]).ok_or("no such block")?;
        let block = buffer
            .get_mut(..length as usize)
            .ok_or("longer than the block")?;
        let mut slip = [FILL; SLIP_LEN + GUARD];
        let lent = slip
            .get_mut(..slip_length.unwrap_or(0))
            .ok_or("longer than the slip")?;
        let report = self
            .report
            .get(..report_length.unwrap_or(0))
            .ok_or("longer than the report")?;
        let tree = self
            .tree
            .get(..tree_length.unwrap_or(0))
            .ok_or("longer than the tree")?;
        let service = self
            .service
            .get(..service_length.unwrap_or(0))
            .ok_or("longer than the service tree")?;

        let number = match (function, numbers, slip_length) {
            ("memblock_intake_e820", [], None) if report_length.is_some() => {
                model::intake_e820(block, report)
            }
            ("memblock_intake_trees", [], None)
                if tree_length.is_some() && service_length.is_some() =>
            {
                model::intake_trees(block, tree, service)
            }
            ("memblock_intake_tree", [], None)
                if tree_length.is_some() && service_length.is_none() =>
            {
                model::intake_tree(block, tree)
            }
            _ if report_length.or(tree_length).or(service_length).is_some() => {
                return Err(format!("unknown call: {function}({arguments})"))
            }
            ("memblock_fresh", [], None) => model::fresh(block),
            ("memblock_set", &[limit, direction], None) => {
                model::set(block, limit, narrow(direction)?)
            }
            ("memblock_set_image_end", &[end], None) => model::set_image_end(block, end),
            ("memblock_add", &[base, size, flags, node], None) => {
                model::add(block, base, size, narrow(flags)?, narrow(node)?)
            }
            ("memblock_remove", &[base, size], None) => model::remove(block, base, size),
            ("memblock_mark", &[base, size, flag], None) => {
                model::mark(block, base, size, narrow(flag)?)
            }
            ("memblock_unmark", &[base, size, flag], None) => {
                model::unmark(block, base, size, narrow(flag)?)
            }
            ("memblock_reserve", &[base, size], None) => model::reserve(block, base, size),
            ("memblock_free", &[base, size], None) => model::free(block, base, size),
            ("memblock_trim", &[alignment], None) => model::trim(block, alignment),
            ("memblock_next_free", &[from, node, wish], Some(_)) => {
                model::next_free(block, from, narrow(node)?, narrow(wish)?, lent)
            }
            ("memblock_find", numbers, Some(_)) => model::find(block, &query(numbers)?, lent),
            ("memblock_allocate", numbers, Some(_)) => {
                model::allocate(block, &query(numbers)?, lent)
            }
            _ => return Err(format!("unknown call: {function}({arguments})")),
        };

        let mut line = format!(
            "{function}({arguments}) = {number:#x} sum {:#x}",
            sum(buffer)
        );
        let half = |at| u64::from_le_bytes(slip[at..at + 8].try_into().expect("8 bytes"));
        if slip_length == Some(SLIP_LEN) {
            let _ = write!(line, " slip {:#x} {:#x}", half(0), half(8));
        }
        if report_length.is_some() {
            let _ = write!(line, " report {:#x}", sum(&self.report));
        }
        if tree_length.is_some() {
            let _ = write!(line, " tree {:#x}", sum(&self.tree));
            self.answers.insert((function.into(), number));
        }
        if service_length.is_some() {
            let _ = write!(line, " service {:#x}", sum(&self.service));
        }
        if let (0 | 5, Some(&word)) = (number, numbers.last()) {
            self.words.insert((function.into(), word));
        }
        if let ("memblock_free", Some((base, size))) = (function, ranged) {
            let range = (name.clone(), base, size);
            self.freed_twice |= number == number::NOT_TAKEN && self.freed.contains(&range);
            if number == 0 {
                self.freed.insert(range);
            }
        }
        if number == 0 {
            match (function, &name[..], ranged) {
                ("memblock_allocate", "block", _) => {
                    let board = Board::read(&buffer[..BLOCK_LEN]).ok_or("not a good block")?;
                    let image = self.held.first().map(|held| held.0 + held.1);
                    let bottom_up = board.direction == Direction::BottomUp;
                    let above = half(0) >= board.image_end;
                    self.above |= bottom_up && above && Some(board.image_end) == image;
                    self.other_way |= bottom_up && !above;
                }
                ("memblock_add", "mirror", Some(range)) if self.same == 0 => self.added.push(range),
                ("memblock_reserve", "block", Some(range)) => self.reserved.push(range),
                ("memblock_intake_e820", ..) => {
                    let count = report.len() / REPORT_ENTRY_LEN;
                    let entries = self.entries[..count].to_vec();
                    self.taken_in.push((name, entries));
                }
                _ => {}
            }
        }
        self.went_on |=
            function == "memblock_next_free" && self.run_end.is_some_and(|end| numbers[0] == end);
        self.run_end = (function == "memblock_allocate" && number == 0).then(|| half(8));
        self.calls += 1;
        self.met.insert(function.into());
        self.numbers.insert(number);
        Ok(line)
    }

    /// Whether everything that a boot should show was there.
    fn whole(&self) -> Result<(), Wrong> {
        for function in FUNCTIONS {
            if !self.met.contains(function) {
                return Err(format!("{function} was never called"));
            }
        }
        for number in NUMBERS {
            if !self.numbers.contains(&number) {
                return Err(format!("the number {number} was never answered"));
            }
        }
        for (function, numbers) in ANSWERS {
            for &number in numbers {
                if !self.answers.contains(&(function.into(), number)) {
                    return Err(format!("{function} never answered {number}"));
                }
            }
        }
        if self.tree_same != 3 {
            return Err("the map as a tree was not compared with its commands".into());
        }
        let backwards: Vec<Entry> = self.map.iter().rev().copied().collect();
        let usable: Vec<(u64, u64)> = backwards
            .iter()
            .filter(|entry| entry.2 == USABLE)
            .map(|entry| (entry.0, entry.1))
            .collect();
        if self.added != usable {
            return Err("what was added is not what the map calls usable".into());
        }
        for (name, map) in [("block", &self.map), ("mirror", &backwards)] {
            let report = (name.to_string(), map.clone());
            if !self.taken_in.contains(&report) {
                return Err(format!("the map was not taken in on '{name}'"));
            }
        }
        if self.held.is_empty()
            || !self
                .reserved
                .starts_with(&[&self.held[..], &[LEGACY]].concat())
        {
            return Err("what was in use was not reserved".into());
        }
        if self.same != 3 {
            return Err("report, entries and conversion were not all compared".into());
        }
        if self.converted == 0 {
            return Err("no conversion was done".into());
        }
        if !self.went_on {
            return Err("next free did not go on from an allocation's run".into());
        }
        if !self.above || !self.other_way {
            return Err("no bottom-up allocation above the image, or none the other way".into());
        }
        if !self.freed_twice {
            return Err("nothing was freed twice".into());
        }
        let flags = MARKS.iter().flat_map(|f| EACH_FLAG.map(|word| (f, word)));
        let wishes = SEARCHES
            .iter()
            .flat_map(|f| EACH_WISH.map(|word| (f, word)));
        for (function, word) in flags.chain(wishes) {
            if !self.words.contains(&(function.to_string(), word.into())) {
                return Err(format!("{function} was never called with {word}"));
            }
        }
        for name in ["block", "mirror"] {
            let mut all = self.all_handed.iter().filter(|one| one.name == name);
            let (Some(one), Some(two)) = (all.next(), all.next()) else {
                return Err(format!("the pages of '{name}' were not handed over twice"));
            };
            let all = |handed: &Handed| (handed.pieces, handed.pages, handed.sum);
            if all(one) != all(two) || one.rooms == two.rooms {
                return Err(format!("other pieces of '{name}', or by the same buffers"));
            }
        }
        if !self.inside || !self.no_room {
            return Err("no page inside a piece was named, or no buffer was too short".into());
        }
        if !["block", "mirror", "by_tree"]
            .iter()
            .all(|&name| self.tables.contains(name))
        {
            return Err("a block's tables are missing".into());
        }
        Ok(())
    }
}

/// The page and the order of each piece.
fn pieces(bytes: &[u8]) -> impl Iterator<Item = (u64, u32)> + '_ {
    bytes.chunks_exact(PIECE_LEN).map(|piece| {
        let (page, order) = piece.split_at(8);
        let page = u64::from_le_bytes(page.try_into().expect("8 bytes"));
        (page, u32::from_le_bytes(order.try_into().expect("4 bytes")))
    })
}

/// The edition 1 block that says what a block does: the same bytes up to its end,
/// but for edition and taken capacity.
fn edition_1(block: &[u8]) -> Vec<u8> {
    let mut old = block[..EDITION_1.length()].to_vec();
    old[..4].copy_from_slice(&EDITION_1.edition.to_le_bytes());
    let capacity = EDITION_1.taken.capacity as u32;
    old[TAKEN.entry + 12..TAKEN.entry + 16].copy_from_slice(&capacity.to_le_bytes());
    old
}

/// The lines of both tables, totals, limit, direction and image end.
fn tables(board: &Board) -> Vec<String> {
    let mut lines = Vec::new();
    let (mut present, mut taken) = (0, 0);
    for (lo, hi, tag) in board.memory.stretches() {
        if let Some(tag) = tag {
            let (flags, node) = tag.words();
            lines.push(record("memory", lo, hi, flags, node));
            present += hi - lo;
        }
    }
    for (lo, hi, is_taken) in board.taken.stretches() {
        if is_taken {
            lines.push(record("taken", lo, hi, 0, 0));
            taken += hi - lo;
        }
    }
    let direction = match board.direction {
        Direction::TopDown => 0,
        Direction::BottomUp => 1,
    };
    lines.push(format!("totals memory {present:#x} taken {taken:#x}"));
    lines.push(format!(
        "limit {:#x} direction {direction:#x} image end {:#x}",
        board.limit, board.image_end
    ));
    lines
}

fn record(table: &str, lo: u128, hi: u128, flags: u32, node: u32) -> String {
    format!(
        "{table} base {lo:#x} size {:#x} flags {flags:#x} node {node:#x}",
        hi - lo
    )
}

fn query(numbers: &[u64]) -> Result<Query, Wrong> {
    let &[size, alignment, start, end, node, wish] = numbers else {
        return Err("not a search's numbers".into());
    };
    Ok(Query {
        size,
        alignment,
        start,
        end,
        node: narrow(node)?,
        wish: narrow(wish)?,
    })
}

/// FNV-1a.
fn sum(bytes: &[u8]) -> u64 {
    sum_on(0xcbf2_9ce4_8422_2325, bytes)
}

fn sum_on(sum: u64, bytes: &[u8]) -> u64 {
    bytes.iter().fold(sum, |sum, &byte| {
        (sum ^ u64::from(byte)).wrapping_mul(0x100_0000_01b3)
    })
}

fn hex(word: &str) -> Result<u64, Wrong> {
    word.strip_prefix("0x")
        .and_then(|digits| u64::from_str_radix(digits, 16).ok())
        .ok_or(format!("not a number: {word}"))
}

fn narrow<T: TryFrom<u64>>(number: u64) -> Result<T, Wrong> {
    T::try_from(number).map_err(|_| format!("too large: {number:#x}"))
}

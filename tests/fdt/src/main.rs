//! Trees for fdt.c, each with what the second program says of it.
//!
//! `fdt FILE SEED COUNT`: the stored trees, then so many random ones, as many that are
//! damaged anyhow, and each way of breaking one. For each, in little-endian words of
//! 4 bytes: its kind, its length, its bytes, what becomes of it (0: read, 1: a value
//! refused, 2: refused for its form) and how many commands it asks for; then of each
//! command what (0: add, 1: reserve, 2: mark), node, and as 8 bytes base and size; then how
//! many lookups follow, of each the length of its path and its path, the length of its name
//! and its name, whether the tree has it (0 or 1), and its value's offset and length. Of a
//! stored tree every property is looked up.

use model::tree::{asks, lookup, properties, Ask, Fault};
use std::process::ExitCode;
use trees::node::Listed;
use trees::rng::Rng;
use trees::service::some_aim;
use trees::{broken, random, stored, Break};

const STORED: u32 = 0;
const RANDOM: u32 = 1;
const DAMAGED: u32 = 2;
const BROKEN: u32 = 3;

/// Lookups in a tree that is no stored one, and in a stored one besides its properties.
const LOOKUPS: usize = 4;
const MORE_LOOKUPS: usize = 200;

/// Paths and names to look up in a tree; none in one that has not the form.
fn lookups(rng: &mut Rng, kind: u32, bytes: &[u8]) -> Vec<(Vec<u8>, Vec<u8>)> {
    let Ok(listed) = properties(bytes) else {
        return Vec::new();
    };
    let listed: Vec<Listed> = (listed.into_iter())
        .map(|(path, name, value)| (path, name.to_vec(), value.to_vec()))
        .collect();
    let mut lookups = Vec::new();
    if kind == STORED {
        lookups.extend(listed.iter().map(|l| (l.0.clone(), l.1.clone())));
    }
    let more = if kind == STORED {
        MORE_LOOKUPS
    } else {
        LOOKUPS
    };
    lookups.extend((0..more).map(|_| {
        let (_, path, name) = some_aim(rng, &listed);
        (path, name)
    }));
    lookups
}

fn put(out: &mut Vec<u8>, rng: &mut Rng, kind: u32, bytes: &[u8]) {
    let values = [Fault::Cells, Fault::Reg, Fault::NodeId];
    let (verdict, asks) = match asks(bytes) {
        Ok(asks) => (0u32, asks),
        Err(faults) if faults.iter().all(|fault| values.contains(fault)) => (1, Vec::new()),
        Err(_) => (2, Vec::new()),
    };
    out.extend(kind.to_le_bytes());
    out.extend((bytes.len() as u32).to_le_bytes());
    out.extend(bytes);
    out.extend(verdict.to_le_bytes());
    out.extend((asks.len() as u32).to_le_bytes());
    for ask in asks {
        let (what, node, base, size) = match ask {
            Ask::Add { base, size, node } => (0u32, node, base, size),
            Ask::Reserve { base, size } => (1, 0, base, size),
            Ask::Mark { base, size } => (2, 0, base, size),
        };
        out.extend(what.to_le_bytes());
        out.extend(node.to_le_bytes());
        out.extend(base.to_le_bytes());
        out.extend(size.to_le_bytes());
    }
    let lookups = lookups(rng, kind, bytes);
    let word = |out: &mut Vec<u8>, x: usize| out.extend((x as u32).to_le_bytes());
    word(out, lookups.len());
    for (path, name) in lookups {
        for text in [&path, &name] {
            word(out, text.len());
            out.extend(text);
        }
        let place = lookup(bytes, &path, &name).expect("the tree has the form");
        word(out, usize::from(place.is_some()));
        word(out, place.map_or(0, |place| place.at));
        word(out, place.map_or(0, |place| place.length));
    }
}

fn main() -> ExitCode {
    let words: Vec<String> = std::env::args().skip(1).collect();
    let numbers: Vec<u64> = words
        .iter()
        .skip(1)
        .filter_map(|w| w.parse().ok())
        .collect();
    let (Some(file), &[seed, count]) = (words.first(), &numbers[..]) else {
        eprintln!("usage: fdt FILE SEED COUNT");
        return ExitCode::from(2);
    };
    let mut out = Vec::new();
    let mut rng = Rng::new(seed, "fdt stored", 0);
    for tree in stored::all() {
        put(&mut out, &mut rng, STORED, tree.bytes);
    }
    let mut range = |rng: &mut Rng| match rng.below(4) {
        0 => (rng.any_size(), rng.any_size()),
        _ => (rng.below(1 << 20) * 0x400, rng.below(64) * 0x400),
    };
    for turn in 0..count {
        let mut rng = Rng::new(seed, "fdt", turn);
        let rng = &mut rng;
        let made = random::some(rng, &mut range);
        put(&mut out, rng, RANDOM, &made.bytes);
        let bytes = broken::damaged(rng, made.bytes);
        put(&mut out, rng, DAMAGED, &bytes);
        let how = Break::ALL[turn as usize % Break::ALL.len()];
        let bytes = how.done_to(rng, &made.tree);
        put(&mut out, rng, BROKEN, &bytes);
    }
    match std::fs::write(file, out) {
        Ok(()) => ExitCode::SUCCESS,
        Err(e) => {
            eprintln!("fdt: {file}: {e}");
            ExitCode::FAILURE
        }
    }
}

//! Request E8: flattened trees, stored, random, broken, cut off and damaged, taken in on
//! blocks of any fill; those that are read also by calls, one for each command.

use crate::blocks::{self, Damage};
use crate::call::{Call, Command};
use crate::desk::Desk;
use crate::numbers::Near;
use crate::rng::Rng;
use model::layout::*;
use trees::broken::damaged;
use trees::node::{reg, word, Node, Tree};
use trees::random::{self, Made, Quirk};
use trees::sketch::{put, TOTAL_SIZE_AT};
use trees::{stored, Ask, Break};

/// What was compared.
pub struct Tally {
    /// Trees that were read, also by calls; of these, those refused with 6.
    pub by_calls: u64,
    pub full: u64,
    /// Each quirk of a tree that was read, each way of breaking one.
    pub quirks: [u64; Quirk::ALL.len()],
    pub broken: [u64; Break::ALL.len()],
    /// Trees cut off at a byte, by the lent bytes or the total size.
    pub cut: u64,
    /// Damaged trees that were read all the same, and that were not.
    pub damaged: [u64; 2],
    /// Trees lent with a bad block.
    pub bad_blocks: u64,
}

/// A random tree with ranges near what the block holds.
fn random_tree(rng: &mut Rng, near: &Near) -> Made {
    match near.joining_and_apart(rng) {
        Some(two) if rng.one_in(3) => in_full_table(rng, two),
        _ => random::some(rng, &mut |rng| near.range(rng)),
    }
}

/// A tree that the list's or the reserved ranges' coming first decides of, on a full
/// taken table.
fn in_full_table(rng: &mut Rng, mut two: [(u64, u64); 2]) -> Made {
    rng.shuffle(&mut two);
    let child = Node::new("buffer").with("reg", reg((2, 2), &two[1..]));
    let root = Node::new("")
        .with("#address-cells", word(2))
        .with("#size-cells", word(2))
        .holding(Node::new("reserved-memory").holding(child));
    let tree = Tree {
        list: vec![two[0]],
        root,
    };
    let quirks = vec![Quirk::Nops, Quirk::Padding];
    let bytes = random::bytes(rng, &tree, &quirks);
    Made {
        tree,
        bytes,
        quirks,
    }
}

/// The bytes of a tree, in `faults` of 100 cases of a broken one, now and then of one
/// that is damaged anyhow.
pub fn some(rng: &mut Rng, near: &Near, faults: u64) -> Vec<u8> {
    if rng.one_in(40) {
        let stored: Vec<_> = stored::all().collect();
        return rng.pick(&stored).bytes.to_vec();
    }
    let made = random_tree(rng, near);
    if rng.percent(faults.max(20)) {
        return rng.pick(&Break::ALL).done_to(rng, &made.tree);
    }
    match rng.below(10) {
        0 => damaged(rng, made.bytes),
        _ => made.bytes,
    }
}

fn intake(desk: &mut Desk, bytes: &[u8], block: &mut [u8]) -> u32 {
    desk.call(&Call::IntakeTree(bytes.into()), block, &mut [])
}

/// Takes trees in until the desk has made `until` calls.
pub fn run(desk: &mut Desk, until: u64) -> Tally {
    let mut tally = Tally {
        by_calls: 0,
        full: 0,
        quirks: [0; Quirk::ALL.len()],
        broken: [0; Break::ALL.len()],
        cut: 0,
        damaged: [0; 2],
        bad_blocks: 0,
    };
    every_byte(desk, &mut tally);
    let all_met = |tally: &Tally| !tally.quirks.contains(&0) && !tally.broken.contains(&0);
    while desk.calls < until || !all_met(&tally) {
        desk.turn += 1;
        let mut rng = Rng::new(desk.seed, desk.part, desk.turn);
        let rng = &mut rng;
        let draft = blocks::some_good(rng, &CURRENT);
        let start = match rng.below(3) {
            0 => blocks::good(rng, &CURRENT, 0, 0).bytes(),
            _ => draft.bytes(),
        };
        let near = Near::to(&start);
        let made = random_tree(rng, &near);
        by_calls(desk, &start, &made, &mut tally);

        let which = desk.turn as usize % Break::ALL.len();
        let bytes = Break::ALL[which].done_to(rng, &made.tree);
        let number = intake(desk, &bytes, &mut start.clone());
        if number != number::BAD_TREE {
            let how = Break::ALL[which];
            desk.fail(&format!("{number} for a tree broken by {how:?}"));
        }
        tally.broken[which] += 1;

        let bytes = damaged(rng, made.bytes);
        let number = intake(desk, &bytes, &mut start.clone());
        tally.damaged[usize::from(number == number::BAD_TREE)] += 1;
        // A bad block comes first, whatever the tree.
        let mut bad = rng.pick(&Damage::all()).done_to(rng, draft);
        if model::Board::read(&bad).is_none() {
            let number = intake(desk, &bytes, &mut bad);
            if number != number::NOT_GOOD {
                desk.fail(&format!("{number} for a bad block"));
            }
            tally.bad_blocks += 1;
        }
    }
    tally
}

/// A tree, and its commands as its writer has them in mind, by a call each.
fn by_calls(desk: &mut Desk, start: &[u8], made: &Made, tally: &mut Tally) {
    let asks = made.tree.asks().expect("a random tree is read");
    let (wanted, called) = one_by_one(desk, start, asks);
    let mut block = start.to_vec();
    let number = intake(desk, &made.bytes, &mut block);
    if number != wanted || block != called {
        let quirks = &made.quirks;
        desk.fail(&format!(
            "the intake answers {number}, its commands {wanted}, or they leave another block; \
             the tree has {quirks:?}"
        ));
    }
    tally.by_calls += 1;
    tally.full += u64::from(number == number::TABLE_FULL);
    for (quirk, met) in Quirk::ALL.iter().zip(&mut tally.quirks) {
        *met += u64::from(made.quirks.contains(quirk));
    }
}

/// The commands by a call each: the number, and the block, which is as it was where one was
/// refused.
pub fn one_by_one(desk: &mut Desk, start: &[u8], asks: Vec<Ask>) -> (u32, Vec<u8>) {
    let mut block = start.to_vec();
    for ask in asks {
        let call = match ask {
            Ask::Add { base, size, node } => Call::Add {
                base,
                size,
                flags: 0,
                node,
            },
            Ask::Reserve { base, size } => Call::Range {
                command: Command::Reserve,
                base,
                size,
            },
            Ask::Mark { base, size } => Call::Mark {
                command: Command::Mark,
                base,
                size,
                flag: NO_MAP,
            },
        };
        let number = desk.call(&call, &mut block, &mut []);
        if number != number::DONE {
            return (number, start.to_vec());
        }
    }
    (number::DONE, block)
}

/// Stored trees; small ones cut off at every byte, by the lent bytes and by the total
/// size.
fn every_byte(desk: &mut Desk, tally: &mut Tally) {
    let mut fresh = vec![0; BLOCK_LEN];
    model::fresh(&mut fresh);
    for tree in stored::all() {
        let number = intake(desk, tree.bytes, &mut fresh.clone());
        if number != number::DONE {
            desk.fail(&format!("{number} for the stored tree {}", tree.name));
        }
    }
    for tree in stored::MADE.iter().filter(|tree| tree.bytes.len() < 350) {
        for length in 0..tree.bytes.len() {
            let mut total = tree.bytes.to_vec();
            put(&mut total, TOTAL_SIZE_AT, length as u32);
            for bytes in [&tree.bytes[..length], &total] {
                let number = intake(desk, bytes, &mut fresh.clone());
                if number != number::BAD_TREE {
                    desk.fail(&format!("{number} for {} cut off at {length}", tree.name));
                }
                tally.cut += 1;
            }
        }
    }
}

//! Request E9: pairs of a board's tree and a service tree, stored, random, broken and
//! damaged on either side, taken in on blocks of any fill and looked up in; those that are
//! read also by calls, one for each command.

use crate::blocks::{self, get_u64, Damage};
use crate::call::{Call, Command};
use crate::desk::Desk;
use crate::flattened;
use crate::numbers::{slip, Near};
use crate::rng::Rng;
use model::layout::*;
use std::sync::Arc;
use trees::broken::damaged;
use trees::node::{Listed, Tree};
use trees::service::{self, some_aim};
use trees::{random, stored, Aim, Break, Correction, Pair, Sketch};

/// What was compared.
pub struct Tally {
    /// Pairs taken in as their commands by calls, of these those refused with 6; those
    /// that must get 11 for a value, and those that the service tree changed.
    pub by_calls: u64,
    pub full: u64,
    pub values: u64,
    pub changed: u64,
    pub corrections: [u64; Correction::ALL.len()],
    /// Lookups by what they found in trees of which it was known: service, board, neither;
    /// of those found, empty values.
    pub found: [u64; 3],
    pub empty: u64,
    pub aims: [u64; Aim::ALL.len()],
    /// Each way of breaking a form, in the board's tree and in the service tree.
    pub broken: Vec<u64>,
    /// Pairs damaged anyhow that were read all the same, and that were not.
    pub damaged: [u64; 2],
    /// Boards with a bare service tree, beside themselves, and with a bad block.
    pub bare: u64,
    pub same: u64,
    pub bad_blocks: u64,
}

/// The ways of breaking a tree that break its form.
fn breaks() -> Vec<Break> {
    let all = Break::ALL.into_iter();
    all.filter(|how| how.is_of_the_form()).collect()
}

fn bare() -> Arc<[u8]> {
    Sketch::of(&Tree::default()).bytes().into()
}

/// The bytes of a stored tree and what stands in it.
fn some_stored(rng: &mut Rng) -> (Vec<u8>, Vec<Listed>) {
    let all: Vec<_> = stored::all().collect();
    let bytes = rng.pick(&all).bytes;
    let listed = model::tree::properties(bytes).expect("stored trees have the form");
    let listed = listed.into_iter();
    let owned = listed.map(|(path, name, value)| (path, name.to_vec(), value.to_vec()));
    (bytes.to_vec(), owned.collect())
}

/// Board's and service tree, and what stands in them; in `faults` of 100 cases one is
/// broken or damaged.
fn some_pair(rng: &mut Rng, near: &Near, faults: u64) -> ([Arc<[u8]>; 2], Vec<Listed>) {
    let pair = service::some(rng, &mut |rng| near.range(rng));
    let mut listing = pair.board.listing();
    listing.extend(pair.service.listing());
    let mut both = [pair.board_bytes, pair.service_bytes];
    if rng.one_in(30) {
        let (bytes, listed) = some_stored(rng);
        both[rng.index(2)] = bytes;
        listing.extend(listed);
    }
    if rng.percent(faults.max(10)) {
        let which = rng.index(2);
        let tree = [&pair.board, &pair.service][which];
        both[which] = match rng.below(3) {
            0 => damaged(rng, both[which].clone()),
            1 => flattened::some(rng, near, faults),
            _ => rng.pick(&breaks()).done_to(rng, tree),
        };
    }
    let [board, service] = both.map(Arc::<[u8]>::from);
    match rng.below(16) {
        0 => ([board.clone(), board], listing),
        1 => ([board, bare()], listing),
        _ => ([board, service], listing),
    }
}

/// An intake of a pair.
pub fn some(rng: &mut Rng, near: &Near, faults: u64) -> Call {
    let ([board, service], _) = some_pair(rng, near, faults);
    Call::IntakeTrees { board, service }
}

/// A lookup, of a path and a name that one of the trees has, or nearly.
pub fn some_lookup(rng: &mut Rng, near: &Near, faults: u64) -> Call {
    let ([board, service], listing) = some_pair(rng, near, faults);
    let (_, path, name) = some_aim(rng, &listing);
    lookup(&service, &board, &path, &name)
}

pub fn lookup(service: &Arc<[u8]>, board: &Arc<[u8]>, path: &[u8], name: &[u8]) -> Call {
    Call::Lookup {
        service: service.clone(),
        board: board.clone(),
        path: path.into(),
        name: name.into(),
    }
}

/// Takes pairs in and looks up in them until the desk has made `until` calls.
pub fn run(desk: &mut Desk, until: u64) -> Tally {
    let breaks = breaks();
    let mut tally = Tally {
        by_calls: 0,
        full: 0,
        values: 0,
        changed: 0,
        corrections: [0; Correction::ALL.len()],
        found: [0; 3],
        empty: 0,
        aims: [0; Aim::ALL.len()],
        broken: vec![0; 2 * breaks.len()],
        damaged: [0; 2],
        bare: 0,
        same: 0,
        bad_blocks: 0,
    };
    let all_met = |tally: &Tally| {
        !tally.corrections.contains(&0) && !tally.aims.contains(&0) && !tally.broken.contains(&0)
    };
    while desk.calls < until || !all_met(&tally) {
        desk.turn += 1;
        let mut rng = Rng::new(desk.seed, desk.part, desk.turn);
        let rng = &mut rng;
        let draft = blocks::some_good(rng, &CURRENT);
        let start = match rng.below(3) {
            0 => blocks::good(rng, &CURRENT, 0, 0).bytes(),
            _ => draft.bytes(),
        };
        let near = Near::to(&start);
        let pair = match desk.turn % 2 {
            0 => service::some(rng, &mut |rng| near.range(rng)),
            // Each correction in turn, alone.
            turn => {
                let which = (desk.turn + turn) as usize / 2 % Correction::ALL.len();
                let ranges = &mut |rng: &mut Rng| near.range(rng);
                let board = random::some(rng, ranges);
                let only = [Correction::ALL[which]];
                service::with(rng, ranges, board.tree, &board.quirks, &only)
            }
        };
        let board: Arc<[u8]> = pair.board_bytes.clone().into();
        let service: Arc<[u8]> = pair.service_bytes.clone().into();
        by_calls(desk, &start, &pair, [&board, &service], &mut tally);
        for _ in 0..3 {
            look(desk, rng, &pair, [&board, &service], &mut tally);
        }
        if rng.one_in(4) {
            bare_and_same(desk, &start, &board, &mut tally);
        }

        // One of the two broken: 11, whatever the other has.
        let which = desk.turn as usize % (2 * breaks.len());
        let (how, in_board) = (breaks[which % breaks.len()], which < breaks.len());
        let tree = if in_board { &pair.board } else { &pair.service };
        let bad: Arc<[u8]> = how.done_to(rng, tree).into();
        let (board_or_bad, service_or_bad) = match in_board {
            true => (&bad, &service),
            false => (&board, &bad),
        };
        let number = intake(desk, board_or_bad, service_or_bad, &mut start.clone());
        let mut slip = rng.bytes(SLIP_LEN);
        let (path, name) = Aim::There.at(rng, &pair.board.listing());
        let call = lookup(service_or_bad, board_or_bad, &path, &name);
        let looked = desk.call(&call, &mut [], &mut slip);
        if [number, looked] != [number::BAD_TREE; 2] || slip != [0; SLIP_LEN] {
            desk.fail(&format!(
                "{number} and {looked} for a tree broken by {how:?}"
            ));
        }
        tally.broken[which] += 1;

        // One of the two damaged anyhow.
        let mut both = [pair.board_bytes, pair.service_bytes];
        let which = rng.index(2);
        both[which] = damaged(rng, both[which].clone());
        let [board, service] = both.map(Arc::<[u8]>::from);
        let number = intake(desk, &board, &service, &mut start.clone());
        tally.damaged[usize::from(number == number::BAD_TREE)] += 1;
        let listing = [pair.board.listing(), pair.service.listing()].concat();
        let (_, path, name) = some_aim(rng, &listing);
        let mut slip = crate::numbers::slip(rng, 5);
        desk.call(&lookup(&service, &board, &path, &name), &mut [], &mut slip);
        // A bad block comes first, whatever the trees.
        let mut bad = rng.pick(&Damage::all()).done_to(rng, draft);
        if rng.one_in(4) && model::Board::read(&bad).is_none() {
            let number = intake(desk, &board, &service, &mut bad);
            if number != number::NOT_GOOD {
                desk.fail(&format!("{number} for a bad block"));
            }
            tally.bad_blocks += 1;
        }
    }
    tally
}

fn intake(desk: &mut Desk, board: &Arc<[u8]>, service: &Arc<[u8]>, block: &mut [u8]) -> u32 {
    let call = Call::IntakeTrees {
        board: board.clone(),
        service: service.clone(),
    };
    desk.call(&call, block, &mut [])
}

/// A pair, and its commands as its writer has them in mind, by a call each.
fn by_calls(
    desk: &mut Desk,
    start: &[u8],
    pair: &Pair,
    [board, service]: [&Arc<[u8]>; 2],
    tally: &mut Tally,
) {
    let corrected = pair.board.corrected(&pair.service);
    let (wanted, called) = match corrected.asks() {
        Some(asks) => flattened::one_by_one(desk, start, asks),
        None => (number::BAD_TREE, start.to_vec()),
    };
    let mut block = start.to_vec();
    let number = intake(desk, board, service, &mut block);
    if number != wanted || block != called {
        let corrections = &pair.corrections;
        desk.fail(&format!(
            "the intake of a pair answers {number}, its commands {wanted}, or they leave \
             another block; the service tree has {corrections:?}"
        ));
    }
    match number {
        number::BAD_TREE => tally.values += 1,
        _ => tally.by_calls += 1,
    }
    tally.full += u64::from(number == number::TABLE_FULL);
    tally.changed += u64::from(corrected.asks() != pair.board.asks());
    for (correction, met) in Correction::ALL.iter().zip(&mut tally.corrections) {
        *met += u64::from(pair.corrections.contains(correction));
    }
}

/// A lookup, and the value that its writer has in mind.
fn look(
    desk: &mut Desk,
    rng: &mut Rng,
    pair: &Pair,
    [board, service]: [&Arc<[u8]>; 2],
    tally: &mut Tally,
) {
    let listing = match rng.below(2) {
        0 => pair.service.listing(),
        _ => pair.board.listing(),
    };
    let (aim, path, name) = some_aim(rng, &listing);
    let (wanted, value) = match pair.service.lookup(&path, &name) {
        Some(value) => (number::IN_SERVICE, value),
        None => match pair.board.lookup(&path, &name) {
            Some(value) => (number::IN_BOARD, value),
            None => (number::IN_NEITHER, Vec::new()),
        },
    };
    let mut slip = slip(rng, 0);
    let number = desk.call(&lookup(service, board, &path, &name), &mut [], &mut slip);
    let (at, length) = (get_u64(&slip, 0) as usize, get_u64(&slip, 8) as usize);
    let part = match number {
        number::IN_SERVICE => service.get(at..at.saturating_add(length)),
        number::IN_BOARD => board.get(at..at.saturating_add(length)),
        _ => Some(&[][..]).filter(|_| at == 0 && length == 0),
    };
    if number != wanted || part != Some(&value) {
        desk.fail(&format!(
            "the lookup by {aim:?} of path \"{}\" and name \"{}\" answers {number}, not \
             {wanted}, or another value; the service tree has {:?}",
            path.escape_ascii(),
            name.escape_ascii(),
            pair.corrections
        ));
    }
    tally.found[[2, 0, 1][wanted as usize]] += 1;
    tally.empty += u64::from(wanted != number::IN_NEITHER && value.is_empty());
    let which = Aim::ALL.iter().position(|&other| other == aim);
    tally.aims[which.expect("one of all")] += 1;
}

/// A board's tree with a bare root, which changes nothing, and beside itself, in two
/// buffers and in one.
fn bare_and_same(desk: &mut Desk, start: &[u8], board: &Arc<[u8]>, tally: &mut Tally) {
    if Command::IntakeTree.is_there() {
        let (mut alone, mut beside) = (start.to_vec(), start.to_vec());
        let wanted = desk.call(&Call::IntakeTree(board.clone()), &mut alone, &mut []);
        let number = intake(desk, board, &bare(), &mut beside);
        if number != wanted || alone != beside {
            desk.fail(&format!(
                "{number} with a bare service tree, {wanted} without, or another block"
            ));
        }
        tally.bare += 1;
    }
    let (mut once, mut twice) = (start.to_vec(), start.to_vec());
    let again: Arc<[u8]> = board.to_vec().into();
    let wanted = intake(desk, board, &again, &mut twice);
    let number = intake(desk, board, board, &mut once);
    if number != wanted || once != twice {
        desk.fail(&format!(
            "{number} for a tree beside itself in one buffer, {wanted} in two, or another block"
        ));
    }
    tally.same += 1;
}

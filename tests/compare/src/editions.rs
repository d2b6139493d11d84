//! Request E4: edition 1 blocks, which convert reads and no other command takes.

use crate::blocks::{self, put_u32, Damage, Draft};
use crate::call::{Call, Command};
use crate::desk::Desk;
use crate::numbers::Near;
use crate::rng::Rng;
use model::layout::*;

/// What was compared.
pub struct Tally {
    /// Conversions of good blocks, by number of memory records and taken ones.
    pub fills: [Vec<u64>; 2],
    /// Blocks that were refused, by kind of damage.
    pub refused: Vec<u64>,
    /// Calls of other commands on edition 1 blocks and on other lengths.
    pub others: u64,
}

impl Tally {
    /// How often the rarest fill and the rarest damage were met.
    pub fn rarest(&self) -> (u64, u64) {
        let least = |counts: &mut dyn Iterator<Item = &u64>| *counts.min().expect("there are some");
        (
            least(&mut self.fills.iter().flatten()),
            least(&mut self.refused.iter()),
        )
    }
}

/// An old block for a conversion: a good one of edition 1, in `faults` of 100
/// cases a damaged one, one of the current edition, or one of another length.
pub fn some_old(rng: &mut Rng, faults: u64) -> Vec<u8> {
    let draft = blocks::some_good(rng, &EDITION_1);
    if !rng.percent(faults) {
        return draft.bytes();
    }
    match rng.below(4) {
        0 | 1 => rng.pick(&Damage::all()).done_to(rng, draft),
        2 => blocks::some_good(rng, &CURRENT).bytes(),
        _ => {
            let old = EDITION_1.length();
            let len = rng.pick(&[0, 1, 79, 80, old - 1, old + 1, 2 * old, BLOCK_LEN]);
            let mut bytes = draft.bytes();
            bytes.resize(len, rng.pick(&[0, 0xFF]));
            bytes
        }
    }
}

/// Bytes that a conversion may write over: any, all equal, or a good block.
fn lent_bytes(rng: &mut Rng) -> Vec<u8> {
    match rng.below(4) {
        0 => rng.bytes(BLOCK_LEN),
        1 => vec![rng.pick(&[0, 0xFF, 0xA5]); BLOCK_LEN],
        _ => blocks::some_good(rng, &CURRENT).bytes(),
    }
}

/// Converts, and holds number and block against the ones that must be.
fn convert(desk: &mut Desk, old: &[u8], lent: &[u8], wanted: Option<&[u8]>) {
    let mut block = lent.to_vec();
    let number = desk.call(&Call::Convert(old.into()), &mut block, &mut []);
    if number != u32::from(wanted.is_none()) {
        desk.fail(&format!(
            "{number} for {} bytes converted onto {}",
            old.len(),
            lent.len()
        ));
    }
    if block != wanted.unwrap_or(lent) {
        desk.fail(&format!(
            "not the block predicted: {} bytes converted onto {}",
            old.len(),
            lent.len()
        ));
    }
}

/// Converts until the desk has made `until` calls and every fill and kind of
/// damage was met.
pub fn run(desk: &mut Desk, there: &[Command], until: u64) -> Tally {
    let kinds = Damage::all();
    let mut tally = Tally {
        fills: [EDITION_1.memory, EDITION_1.taken].map(|body| vec![0; body.capacity + 1]),
        refused: vec![0; kinds.len()],
        others: 0,
    };
    while desk.calls < until || tally.rarest().0 == 0 || tally.rarest().1 == 0 {
        desk.turn += 1;
        let mut rng = Rng::new(desk.seed, desk.part, desk.turn);
        let rng = &mut rng;
        // Both tables go through all fills, at different paces.
        let turn = desk.turn as usize;
        let m = turn % tally.fills[0].len();
        let t = (50 * turn + turn / 129) % tally.fills[1].len();
        let draft = blocks::good(rng, &EDITION_1, m, t);
        let old = draft.bytes();
        let wanted = Draft {
            layout: &CURRENT,
            ..draft.clone()
        }
        .bytes();
        if Command::Convert.is_there() {
            convert_and_refuse(desk, rng, &old, &wanted);
            let which = turn % kinds.len();
            if damaged(desk, rng, kinds[which], draft) {
                tally.refused[which] += 1;
            }
        } else {
            tally.refused.fill(1);
        }
        tally.fills[0][m] += 1;
        tally.fills[1][t] += 1;
        tally.others += refused_by_others(desk, rng, there, &old, &wanted);
    }
    tally
}

/// A good block, then lengths one off in either buffer, then no old block at all.
fn convert_and_refuse(desk: &mut Desk, rng: &mut Rng, old: &[u8], wanted: &[u8]) {
    if model::Board::read_edition_1(old).is_none() {
        desk.fail("the model takes a good edition 1 block for a bad one");
    }
    let lent = lent_bytes(rng);
    convert(desk, old, &lent, Some(wanted));
    let byte = rng.pick(&[0, 0xFF]);
    let longer = |bytes: &[u8]| [bytes, &[byte]].concat();
    convert(desk, &old[..old.len() - 1], &lent, None);
    convert(desk, &longer(old), &lent, None);
    convert(desk, old, &lent[..lent.len() - 1], None);
    convert(desk, old, &longer(&lent), None);
    // Both lengths the old one, or both the new one.
    convert(desk, old, &lent[..old.len()], None);
    convert(desk, wanted, &lent, None);
}

/// One kind of damage; whether the block was refused.
fn damaged(desk: &mut Desk, rng: &mut Rng, kind: Damage, draft: Draft) -> bool {
    let bytes = kind.done_to(rng, draft);
    let lent = lent_bytes(rng);
    if kind.certain(&EDITION_1) {
        convert(desk, &bytes, &lent, None);
        return true;
    }
    let mut block = lent;
    desk.call(&Call::Convert(bytes.into()), &mut block, &mut []) != number::DONE
}

/// Every other command on an edition 1 block, as it is or with zeros behind it,
/// and on a current one that is a byte short, of an edition 1 block's length, or
/// states edition 1 or its capacity: all answer 1. How many calls were made.
fn refused_by_others(
    desk: &mut Desk,
    rng: &mut Rng,
    there: &[Command],
    old: &[u8],
    wanted: &[u8],
) -> u64 {
    let mut longer = old.to_vec();
    longer.resize(BLOCK_LEN, 0);
    let mut first = wanted.to_vec();
    put_u32(&mut first, 0, EDITION_1.edition);
    let mut small = wanted.to_vec();
    put_u32(
        &mut small,
        TAKEN.entry + 12,
        EDITION_1.taken.capacity as u32,
    );
    let short = &wanted[..BLOCK_LEN - 1];
    let cut = &wanted[..EDITION_1.length()];
    let lent: [&[u8]; 6] = [old, short, cut, &longer, &first, &small];
    let near = Near::to(wanted);
    let mut calls = 0;
    for &command in there {
        // Fresh asks for the length alone, a lookup for no block.
        let from = match command {
            Command::Convert | Command::Lookup => continue,
            Command::Fresh => &lent[..3],
            _ => &lent[..],
        };
        // Every second call on the edition 1 block itself.
        let before = match rng.one_in(2) {
            true => old,
            false => rng.pick(from),
        };
        let mut block = before.to_vec();
        let mut slip = vec![0x5A; SLIP_LEN];
        let call = near.call(rng, command, 5);
        let number = desk.call(&call, &mut block, &mut slip);
        if number != number::NOT_GOOD || block != before {
            desk.fail(&format!(
                "{number} for {} on {} bytes that are no block",
                call.text(),
                before.len()
            ));
        }
        calls += 1;
    }
    calls
}

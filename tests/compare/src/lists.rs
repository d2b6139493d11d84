//! Demand 3: lists of commands in one order and in another.

use crate::blocks::{self, get_u64, read_recs, some_fill, some_flags, Draft, Rec};
use crate::call::{Call, Command};
use crate::desk::Desk;
use crate::frees;
use crate::numbers::{slip, Near};
use crate::rng::Rng;
use model::layout::*;
use std::collections::{BTreeSet, HashMap};

/// What was compared.
#[derive(Default)]
pub struct Tally {
    pub lists: u64,
    /// Runs that kept the condition and were held against the prediction.
    pub predicted: u64,
    /// Runs whose done commands broke the condition; nothing is claimed of them.
    pub outside: u64,
    /// Pairs of orders with the same commands done, compared byte by byte.
    pub pairs: u64,
    /// Of these, those in which some commands were refused.
    pub pairs_with_refusals: u64,
    /// Of these, those in which some were refused because a table was full.
    pub pairs_with_full_tables: u64,
    /// Of these, those in which a free was refused because not all was taken.
    pub pairs_with_untaken: u64,
    /// Orders in which other commands were done; nothing is claimed of the pair.
    pub other_done: u64,
    /// Of these, those in which other frees were done.
    pub other_freed: u64,
    /// Runs that kept the condition, with marks done of this flag: hotplug, mirror,
    /// no-map.
    pub flags: [u64; 3],
    /// Runs that kept it, from a block with an image end.
    pub images: u64,
    /// Runs that kept it, with frees done of one address or more.
    pub freed: u64,
    /// Runs that kept it, with such a free done and the same one refused.
    pub twice: u64,
    /// Runs that broke it by two flags on one address and by nothing else.
    pub two_flags: u64,
}

const FLAG_WORDS: [u32; 3] = [HOTPLUG, MIRROR, NO_MAP];

/// The addresses a call covers, after the cut at the top.
fn covers(call: &Call) -> (u128, u128) {
    let (base, size) = match *call {
        Call::Add { base, size, .. }
        | Call::Range { base, size, .. }
        | Call::Mark { base, size, .. } => (base, size),
        _ => unreachable!("not a listed command"),
    };
    let lo = u128::from(base);
    (lo, (lo + u128::from(size)).min(TOP))
}

/// The command and, for add, its tag, for marks the flag that they name.
fn kind(call: &Call) -> (Command, u32, u32) {
    match *call {
        Call::Add { flags, node, .. } => (Command::Add, flags, node),
        Call::Mark { command, flag, .. } => (command, flag, 0),
        _ => (call.command(), 0, 0),
    }
}

/// Whether all done commands that cover one address in one table are the same to
/// `kind`.
fn one_kind<K: PartialEq>(done: &[Call], kind: impl Fn(&Call) -> K) -> bool {
    done.iter().enumerate().all(|(i, a)| {
        done[..i].iter().all(|b| {
            let ((alo, ahi), (blo, bhi)) = (covers(a), covers(b));
            a.command().on_taken() != b.command().on_taken()
                || alo.max(blo) >= ahi.min(bhi)
                || kind(a) == kind(b)
        })
    })
}

/// The condition of demand 3 on the done commands.
fn condition(done: &[Call]) -> bool {
    one_kind(done, kind)
}

/// Whether it is broken by the flags named alone.
fn only_two_flags(done: &[Call]) -> bool {
    one_kind(done, |call| match *call {
        Call::Mark { command, .. } => (command, 0, 0),
        _ => kind(call),
    })
}

/// How one address stands at the end of a list, by the section on lists.
fn stands(at_start: Option<(u32, u32)>, call: &Call) -> Option<(u32, u32)> {
    match *call {
        Call::Add { flags, node, .. } => at_start.or(Some((flags, node))),
        Call::Range { command, .. } => match command {
            Command::Remove | Command::Free => None,
            Command::Reserve => Some((0, 0)),
            _ => unreachable!("not a listed command"),
        },
        Call::Mark { command, flag, .. } => at_start.map(|(flags, node)| match command {
            Command::Mark => (flags | flag, node),
            _ => (flags & !flag, node),
        }),
        _ => unreachable!("not a listed command"),
    }
}

/// The records of one table at the end, found between one edge and the next
/// from the start and the done commands alone.
fn predicted_table(start: &[Rec], done: &[Call]) -> Vec<Rec> {
    let span = |r: &Rec| (u128::from(r.base), u128::from(r.base) + u128::from(r.size));
    let mut points = BTreeSet::new();
    for (lo, hi) in start.iter().map(span).chain(done.iter().map(covers)) {
        if lo < hi {
            points.insert(lo);
            points.insert(hi);
        }
    }
    let points: Vec<u128> = points.into_iter().collect();
    let mut list: Vec<Rec> = Vec::new();
    let mut first = 0;
    for two in points.windows(2) {
        let (lo, hi) = (two[0], two[1]);
        // The records are in rising order: those that end at or below lo are past.
        while first < start.len() && span(&start[first]).1 <= lo {
            first += 1;
        }
        let at_start = start
            .get(first)
            .filter(|r| span(r).0 <= lo)
            .map(|r| (r.flags, r.node));
        let covering = done.iter().find(|call| {
            let (from, to) = covers(call);
            from <= lo && hi <= to
        });
        let state = match covering {
            Some(call) => stands(at_start, call),
            None => at_start,
        };
        let Some((flags, node)) = state else { continue };
        let rec = Rec {
            base: lo as u64,
            size: (hi - lo) as u64,
            flags,
            node,
        };
        match list.last_mut() {
            Some(last) if last.end() == rec.base && (last.flags, last.node) == (flags, node) => {
                last.size += rec.size;
            }
            _ => list.push(rec),
        }
    }
    list
}

/// The one good block that the section on lists says a list ends in; `None` if
/// no block could hold it, so that not all of these can have been done.
pub fn predicted(start: &[u8], done: &[Call]) -> Option<Vec<u8>> {
    let (on_taken, on_memory): (Vec<Call>, Vec<Call>) = done
        .iter()
        .cloned()
        .partition(|call| call.command().on_taken());
    let draft = Draft {
        layout: &CURRENT,
        memory: predicted_table(&read_recs(start, &MEMORY), &on_memory),
        taken: predicted_table(&read_recs(start, &TAKEN), &on_taken),
        limit: get_u64(start, LIMIT_AT),
        direction: 0,
        image_end: NO_IMAGE,
    };
    if draft.memory.len() > MEMORY.capacity || draft.taken.len() > TAKEN.capacity {
        return None;
    }
    let mut bytes = draft.bytes();
    bytes[40..56].copy_from_slice(&start[40..56]);
    bytes[72..80].copy_from_slice(&start[72..80]);
    Some(bytes)
}

fn counted(calls: &[Call]) -> HashMap<Call, usize> {
    let mut counts = HashMap::new();
    for call in calls {
        *counts.entry(call.clone()).or_insert(0) += 1;
    }
    counts
}

/// What became of a list: the block at the end, the done and the refused calls.
struct Ran {
    end: Vec<u8>,
    done: Vec<Call>,
    refused: Vec<(Call, u32)>,
}

impl Ran {
    fn was_refused(&self, number: u32) -> bool {
        self.refused.iter().any(|refused| refused.1 == number)
    }

    /// The frees that took addresses out.
    fn freed(&self) -> impl Iterator<Item = &Call> {
        let frees = |call: &&Call| {
            let (lo, hi) = covers(call);
            call.command() == Command::Free && lo < hi
        };
        self.done.iter().filter(frees)
    }

    /// Whether something was freed that the same call was refused for, before or after.
    fn freed_twice(&self) -> bool {
        let refused = |call: &Call| self.refused.contains(&(call.clone(), number::NOT_TAKEN));
        self.freed().any(refused)
    }
}

/// Runs a list. Which commands get 12 follows from the block before each: frees of what is
/// not all taken, which leave it as it is.
fn run_list(desk: &mut Desk, start: &[u8], list: &[Call]) -> Ran {
    let mut ran = Ran {
        end: start.to_vec(),
        done: Vec::new(),
        refused: Vec::new(),
    };
    for call in list {
        let before = ran.end.clone();
        let number = desk.call(call, &mut ran.end, &mut []);
        let untaken = match *call {
            Call::Range {
                command: Command::Free,
                base,
                size,
            } => frees::not_taken(&before, base, size),
            _ => false,
        };
        if untaken != (number == number::NOT_TAKEN) || untaken && before != ran.end {
            desk.fail(&format!("{} answers {number}", call.text()));
        }
        match number {
            0 => ran.done.push(call.clone()),
            number => ran.refused.push((call.clone(), number)),
        }
    }
    ran
}

/// Disjoint ranges, each with one command and tag or flag, on one table.
fn regions(rng: &mut Rng, near: &Near, taken: bool, list: &mut Vec<Call>) {
    let commands: Vec<Command> = Command::LISTED
        .into_iter()
        .filter(|c| c.on_taken() == taken && c.is_there())
        .collect();
    if commands.is_empty() {
        return;
    }
    let want = 2 + rng.index(4);
    let mut points = BTreeSet::new();
    for _ in 0..want {
        let x = near.address(rng);
        points.insert(x);
        if rng.one_in(3) {
            // A small range beside an edge, which needs room in the table.
            points.insert(x.saturating_add(1 + rng.below(4)));
        }
    }
    let points: Vec<u64> = points.into_iter().collect();
    // Every neighbouring pair of points may be a region; they may touch.
    for two in points.windows(2) {
        if rng.one_in(3) {
            continue;
        }
        let (mut lo, mut hi) = (two[0], two[1]);
        let command = rng.pick(&commands);
        // Mostly what can be freed: what is taken between the two, or a part of it.
        let taken = near.taken_between(lo, hi);
        if command == Command::Free && !taken.is_empty() && !rng.one_in(8) {
            (lo, hi) = taken[rng.index(taken.len())];
        }
        let tag = (some_flags(rng), rng.pick(&[0, 0, 1, 2, NODES - 1]));
        let flag = rng.pick(&FLAG_WORDS);
        for again in 0..rng.pick(&[1, 1, 1, 2, 3]) {
            let (mut from, mut to) = (lo, hi);
            if again > 0 || rng.one_in(4) {
                from = lo + rng.below(hi - lo);
                to = from + 1 + rng.below(hi - from);
            }
            let mut size = to - from;
            if to == u64::MAX && rng.one_in(2) {
                // The same range after the cut.
                size = size.saturating_add(rng.any_size());
            }
            list.push(listed(command, from, size, tag, flag));
        }
    }
}

/// A listed command; the tag is for add, the flag for marks.
fn listed(command: Command, base: u64, size: u64, tag: (u32, u32), flag: u32) -> Call {
    match command {
        Command::Add => Call::Add {
            base,
            size,
            flags: tag.0,
            node: tag.1,
        },
        Command::Mark | Command::Unmark => Call::Mark {
            command,
            base,
            size,
            flag,
        },
        _ => Call::Range {
            command,
            base,
            size,
        },
    }
}

/// A free once more, if the call is one: the same, a part of it, or with an address more
/// at one end.
fn freed_again(rng: &mut Rng, call: &Call) -> Option<Call> {
    let Call::Range {
        command: Command::Free,
        base,
        size,
    } = *call
    else {
        return None;
    };
    let (base, size) = match rng.below(6) {
        0 if size > 1 => (base + 1, size - 1),
        1 if size > 1 => (base, size - 1),
        2 => (base, size.saturating_add(1)),
        3 if base > 0 => (base - 1, size.saturating_add(1)),
        _ => (base, size),
    };
    Some(listed(Command::Free, base, size, (0, 0), 0))
}

/// The same mark of another flag, if the call is one.
fn of_another_flag(rng: &mut Rng, call: &Call) -> Option<Call> {
    let Call::Mark {
        command,
        base,
        size,
        flag,
    } = *call
    else {
        return None;
    };
    let others: Vec<u32> = FLAG_WORDS.into_iter().filter(|&f| f != flag).collect();
    Some(listed(command, base, size, (0, 0), rng.pick(&others)))
}

/// A list that mostly keeps the condition, with calls that are always or
/// sometimes refused among the others.
fn some_list(rng: &mut Rng, near: &Near, there: &[Command]) -> Vec<Call> {
    let mut list = Vec::new();
    regions(rng, near, false, &mut list);
    regions(rng, near, true, &mut list);
    // The same call again.
    if rng.one_in(4) && !list.is_empty() {
        let call = list[rng.index(list.len())].clone();
        list.push(call);
    }
    // What is freed, freed twice: only one of the two can be done.
    if rng.one_in(2) {
        let second = list.iter().find_map(|call| freed_again(rng, call));
        list.extend(second);
    }
    // A second flag on the addresses of a mark, outside the condition.
    if rng.one_in(6) {
        let second = list.iter().find_map(|call| of_another_flag(rng, call));
        list.extend(second);
    }
    for _ in 0..rng.index(3) {
        let command = rng.pick(there);
        let (base, size) = near.range(rng);
        let flag = near.flag(rng, 0);
        let marks = [Command::Mark, Command::Unmark];
        list.push(match rng.below(10) {
            // Covers nothing.
            0 | 1 => listed(command, base, 0, (some_flags(rng), 5), flag),
            2 => listed(command, u64::MAX, size, (0, 5), flag),
            // Always refused, whatever it lies over.
            3 | 4 if Command::Add.is_there() => listed(Command::Add, base, size, (8, 64), 0),
            5 | 6 if marks.iter().all(|mark| there.contains(mark)) => {
                listed(rng.pick(&marks), base, size, (0, 0), near.flag(rng, 100))
            }
            // Refused only by a full table, and a free of what is not taken.
            _ => listed(command, base, 1 + rng.below(3), (0, 6), flag),
        });
    }
    rng.shuffle(&mut list);
    list
}

/// Runs lists until the desk has made `until` calls.
pub fn run(desk: &mut Desk, until: u64) -> Tally {
    let mut tally = Tally::default();
    let there: Vec<Command> = Command::LISTED
        .into_iter()
        .filter(|c| c.is_there())
        .collect();
    if there.is_empty() {
        return tally;
    }
    while desk.calls < until {
        desk.turn += 1;
        let mut rng = Rng::new(desk.seed, desk.part, desk.turn);
        let rng = &mut rng;
        let (most, most_taken) = (MEMORY.capacity, TAKEN.capacity);
        let (m, t) = match rng.below(8) {
            0..=2 => (rng.index(10), rng.index(10)),
            3 => (most - rng.index(3), rng.index(4)),
            4 => (rng.index(4), most_taken - rng.index(3)),
            5 => (most, most_taken),
            _ => (some_fill(rng, &MEMORY), some_fill(rng, &TAKEN)),
        };
        let start = blocks::good(rng, &CURRENT, m, t).bytes();
        let near = Near::to(&start);
        let list = some_list(rng, &near, &there);
        tally.lists += 1;

        let ran = run_list(desk, &start, &list);
        if !condition(&ran.done) {
            tally.outside += 1;
            tally.two_flags += u64::from(only_two_flags(&ran.done));
            continue;
        }
        tally.predicted += 1;
        tally.images += u64::from(get_u64(&start, IMAGE_END_AT) != NO_IMAGE);
        for (count, word) in tally.flags.iter_mut().zip(FLAG_WORDS) {
            let of_it = |call: &Call| matches!(*call, Call::Mark { flag, .. } if flag == word);
            *count += u64::from(ran.done.iter().any(of_it));
        }
        tally.freed += u64::from(ran.freed().next().is_some());
        tally.twice += u64::from(ran.freed_twice());
        if Some(&ran.end) != predicted(&start, &ran.done).as_ref() {
            desk.fail(&format!(
                "the list does not end as predicted:\n{}",
                show(&list)
            ));
        }
        let wanted = counted(&ran.done);

        for _ in 0..3 {
            let mut other = list.clone();
            rng.shuffle(&mut other);
            if other == list {
                continue;
            }
            let other_ran = run_list(desk, &start, &other);
            if condition(&other_ran.done) {
                tally.predicted += 1;
                if Some(&other_ran.end) != predicted(&start, &other_ran.done).as_ref() {
                    desk.fail(&format!(
                        "the list does not end as predicted:\n{}",
                        show(&other)
                    ));
                }
            } else {
                tally.outside += 1;
            }
            if counted(&other_ran.done) != wanted {
                tally.other_done += 1;
                let frees = |ran: &Ran| counted(&ran.freed().cloned().collect::<Vec<_>>());
                tally.other_freed += u64::from(frees(&ran) != frees(&other_ran));
                continue;
            }
            tally.pairs += 1;
            tally.pairs_with_refusals += u64::from(!ran.refused.is_empty());
            tally.pairs_with_full_tables += u64::from(ran.was_refused(number::TABLE_FULL));
            tally.pairs_with_untaken += u64::from(ran.was_refused(number::NOT_TAKEN));
            if other_ran.end != ran.end {
                desk.fail(&format!(
                    "two orders of one list end in different blocks:\n{}\nand\n{}",
                    show(&list),
                    show(&other)
                ));
            }
            later_calls(desk, rng, ran.end.clone(), other_ran.end);
        }
    }
    tally
}

/// The same calls on both blocks give the same answers and bytes.
fn later_calls(desk: &mut Desk, rng: &mut Rng, mut one: Vec<u8>, mut two: Vec<u8>) {
    let near = Near::to(&one);
    for _ in 0..2 {
        let command = rng.pick(&Command::OF_C[1..]);
        let call = near.call(rng, command, 3);
        let mut slip_one = slip(rng, 3);
        let mut slip_two = slip_one.clone();
        let first = desk.call(&call, &mut one, &mut slip_one);
        let buffer_one = desk.buffer.clone();
        let second = desk.call(&call, &mut two, &mut slip_two);
        if (first, &one, &slip_one, &buffer_one) != (second, &two, &slip_two, &desk.buffer) {
            desk.fail(&format!("equal blocks answer {} differently", call.text()));
        }
    }
}

fn show(list: &[Call]) -> String {
    let lines: Vec<String> = list.iter().map(|c| format!("    {}", c.text())).collect();
    lines.join("\n")
}

//! The second program against a third that knows single addresses only.
//!
//! A toy is a window of 1420 addresses somewhere in the 64-bit space, each with
//! its own state. Every command is done address by address, eligibility is
//! tried address by address straight from the definition, and the block is put
//! together here with code of its own. For intakes a place of the window is a
//! quarter of a page, so that there are pages to trim; so for pages handed over, of
//! which each is marked by itself. Of a plan each line's addresses are taken one by one.

use model::plan::Line;
use model::Query;
use std::collections::{BTreeMap, BTreeSet};

const WINDOW: usize = 1420;
/// The most records of memory, and of what is taken.
const MOST: [u64; 2] = [128, 512];
/// The same in edition 1.
const OLD_MOST: [u64; 2] = [128, 128];
const LAST: u128 = u64::MAX as u128;
const ANY: u32 = u32::MAX;

struct Rng(u64);

impl Rng {
    fn next(&mut self) -> u64 {
        self.0 = self.0.wrapping_add(0x9E37_79B9_7F4A_7C15);
        let mut z = self.0;
        z = (z ^ (z >> 30)).wrapping_mul(0xBF58_476D_1CE4_E5B9);
        z = (z ^ (z >> 27)).wrapping_mul(0x94D0_49BB_1331_11EB);
        z ^ (z >> 31)
    }

    fn below(&mut self, n: u64) -> u64 {
        self.next() % n
    }

    fn one_in(&mut self, n: u64) -> bool {
        self.below(n) == 0
    }
}

/// Flags and node.
type Tag = (u32, u32);

/// All flags there are, and those of edition 1.
const FLAGS: [u32; 8] = [0, 1, 2, 3, 4, 5, 6, 7];
const OLD_FLAGS: [u32; 2] = [0, 4];

/// Whether a wish lets memory of these flags be given: bit by bit.
fn granted(wish: u32, flags: u32) -> bool {
    let hotplug = flags % 2 == 1;
    let mirror = flags / 2 % 2 == 1;
    let hotplug_allowed = wish % 2 == 1;
    let mirror_demanded = wish / 2 % 2 == 1;
    (hotplug_allowed || !hotplug) && (mirror || !mirror_demanded)
}

#[derive(Clone)]
struct Toy {
    origin: u128,
    /// How many addresses a place stands for.
    unit: u128,
    memory: Vec<Option<Tag>>,
    taken: Vec<bool>,
    limit: u64,
    direction: u32,
    image_end: u64,
}

impl Toy {
    fn new(origin: u128, width: usize) -> Toy {
        Toy {
            origin,
            unit: 1,
            memory: vec![None; width],
            taken: vec![false; width],
            limit: u64::MAX,
            direction: 0,
            image_end: 0,
        }
    }

    fn address(&self, i: usize) -> u128 {
        self.origin + i as u128 * self.unit
    }

    /// The places of the window that a table range covers.
    fn places(&self, base: u64, size: u64) -> Vec<usize> {
        (0..self.memory.len())
            .filter(|&i| {
                let x = self.address(i);
                x >= base.into() && x < u128::from(base) + u128::from(size) && x < LAST
            })
            .collect()
    }

    /// Longest groups of neighbours with the same state, as (first, past, state).
    fn groups<S: Copy + PartialEq>(states: &[Option<S>]) -> Vec<(usize, usize, S)> {
        let mut groups: Vec<(usize, usize, S)> = Vec::new();
        for (i, state) in states.iter().enumerate() {
            let Some(state) = *state else { continue };
            match groups.last_mut() {
                Some((_, past, same)) if *past == i && *same == state => *past = i + 1,
                _ => groups.push((i, i + 1, state)),
            }
        }
        groups
    }

    fn tables(&self) -> [Vec<(usize, usize, Tag)>; 2] {
        let taken: Vec<_> = self.taken.iter().map(|t| t.then_some((0, 0))).collect();
        [Toy::groups(&self.memory), Toy::groups(&taken)]
    }

    /// The block, or `None` if a table is too long.
    fn block(&self) -> Option<Vec<u8>> {
        self.block_of(2, MOST)
    }

    /// The same in edition 1.
    fn old_block(&self) -> Option<Vec<u8>> {
        self.block_of(1, OLD_MOST)
    }

    fn block_of(&self, edition: u8, most: [u64; 2]) -> Option<Vec<u8>> {
        let mut head: Vec<u8> = Vec::new();
        let mut bodies: Vec<u8> = Vec::new();
        let mut totals: Vec<u8> = Vec::new();
        head.extend([edition, 0, 0, 0, 2, 0, 0, 0]);
        for ((kind, groups), most) in [1u32, 2].into_iter().zip(self.tables()).zip(most) {
            if groups.len() as u64 > most {
                return None;
            }
            let offset = 80 + (kind - 1) * 3072;
            for word in [kind, offset, groups.len() as u32, most as u32] {
                head.extend(word.to_le_bytes());
            }
            let mut total = 0u64;
            let mut body: Vec<u8> = Vec::new();
            for (first, past, (flags, node)) in groups {
                let size = ((past - first) as u128 * self.unit) as u64;
                total += size;
                body.extend((self.address(first) as u64).to_le_bytes());
                body.extend(size.to_le_bytes());
                body.extend(flags.to_le_bytes());
                body.extend(node.to_le_bytes());
            }
            body.resize(most as usize * 24, 0);
            bodies.extend(body);
            totals.extend(total.to_le_bytes());
        }
        head.extend(self.limit.to_le_bytes());
        head.extend(self.direction.to_le_bytes());
        head.extend([0; 4]);
        head.extend(totals);
        head.extend(self.image_end.to_le_bytes());
        head.extend(bodies);
        Some(head)
    }

    /// The tag of an address that is memory, untaken and not no-map.
    fn free_tag(&self, x: u128) -> Option<Tag> {
        let i = usize::try_from(x.checked_sub(self.origin)?).ok()?;
        let tag = (*self.memory.get(i)?)?;
        (!self.taken[i] && tag.0 < 4).then_some(tag)
    }

    /// The end of the free run that holds a free address: upwards while free and of
    /// the same tag.
    fn run_end(&self, a: u128) -> u64 {
        let mut end = a;
        while self.free_tag(end) == self.free_tag(a) {
            end += 1;
        }
        end as u64
    }

    fn eligible(&self, a: u128, query: &Query) -> bool {
        let size = u128::from(query.size);
        let Some(tag) = self.free_tag(a) else {
            return false;
        };
        a.is_multiple_of(query.alignment.into())
            && a >= query.start.max(4096).into()
            // No size is 0: an end below the start leaves nothing, raised to the
            // start or not.
            && a + size <= self.limit.into()
            && (query.end == 0 || a + size <= query.end.into())
            && (query.node == ANY || query.node == tag.1)
            && granted(query.wish, tag.0)
            && size <= WINDOW as u128
            && (a..a + size).all(|x| self.free_tag(x) == Some(tag))
    }

    fn find(&self, query: &Query) -> Result<(u64, u64), u32> {
        may_ask(query)?;
        let fits: Vec<u128> = (0..self.memory.len())
            .map(|i| self.address(i))
            .filter(|&a| self.eligible(a, query))
            .collect();
        // Up from the image end; where nothing is left there, or top-down, from above.
        let above = fits.iter().find(|&&a| a >= self.image_end.into());
        let a = match self.direction {
            1 if above.is_some() => above,
            _ => fits.last(),
        };
        let a = *a.ok_or(5u32)?;
        Ok((a as u64, self.run_end(a)))
    }

    fn next_free(&self, from: u64, node: u32, wish: u32) -> Result<(u64, u64), u32> {
        if node > 63 && node != ANY || wish > 3 {
            return Err(2);
        }
        let a = (0..self.memory.len())
            .map(|i| self.address(i))
            .find(|&a| {
                a >= from.into()
                    && self
                        .free_tag(a)
                        .is_some_and(|tag| (node == ANY || node == tag.1) && granted(wish, tag.0))
            })
            .ok_or(5u32)?;
        Ok((a as u64, self.run_end(a)))
    }

    /// An address stays when its whole aligned cell is inside its record.
    fn trim(&mut self, alignment: u64) {
        let cell = u128::from(alignment);
        for (first, past, _) in Toy::groups(&self.memory) {
            let (lo, hi) = (self.address(first), self.address(past));
            for i in first..past {
                let floor = self.address(i) / cell * cell;
                if floor < lo || floor + cell > hi {
                    self.memory[i] = None;
                }
            }
        }
    }
}

/// The checks of find.
fn may_ask(query: &Query) -> Result<(), u32> {
    if query.node > 63 && query.node != ANY || query.wish > 3 {
        return Err(2);
    }
    if !query.alignment.is_power_of_two() {
        return Err(3);
    }
    if query.size == 0 {
        return Err(4);
    }
    Ok(())
}

/// Takes a changed toy if it can be written, else 6.
fn keep(toy: &mut Toy, next: Toy) -> u32 {
    if next.block().is_none() {
        return 6;
    }
    *toy = next;
    0
}

fn some_number(rng: &mut Rng, toy: &Toy) -> u64 {
    let width = toy.memory.len() as u64;
    let near = toy.origin as u64;
    match rng.below(20) {
        0 => 0,
        1 => u64::MAX,
        2 => 4096,
        _ => near.wrapping_add(rng.below(width + 8)).wrapping_sub(4),
    }
}

fn some_query(rng: &mut Rng, toy: &Toy) -> Query {
    // Now and then one address inside a free run, which needs a record more.
    if rng.one_in(4) {
        let start = (toy.origin as u64).saturating_add(inside_a_run(rng, toy));
        return Query {
            size: 1,
            alignment: 1,
            start,
            end: start.saturating_add(1),
            node: ANY,
            wish: 1,
        };
    }
    Query {
        size: match rng.below(16) {
            0 => 0,
            1 => u64::MAX - rng.below(500),
            2..=4 => 1 + rng.below(60),
            5..=9 => 1 + rng.below(12),
            _ => 1 + rng.below(3),
        },
        alignment: match rng.below(16) {
            0 => rng.below(20),
            1 => 1 << rng.below(64),
            2..=8 => 1,
            _ => 1 << rng.below(7),
        },
        start: match rng.below(3) {
            0 => some_number(rng, toy),
            _ => 0,
        },
        end: match rng.below(3) {
            0 => some_number(rng, toy),
            _ => 0,
        },
        node: some_node(rng),
        wish: some_wish(rng),
    }
}

fn some_wish(rng: &mut Rng) -> u32 {
    match rng.below(16) {
        0 => 4 + rng.below(5) as u32,
        1 => u32::MAX - rng.below(2) as u32,
        2..=4 => 1,
        _ => rng.below(4) as u32,
    }
}

fn some_node(rng: &mut Rng) -> u32 {
    match rng.below(12) {
        0 => 64,
        1 => 63,
        2..=5 => rng.below(3) as u32,
        _ => ANY,
    }
}

fn slip_of(answer: Result<(u64, u64), u32>) -> (u32, Vec<u8>) {
    match answer {
        Ok((a, b)) => (0, [a.to_le_bytes(), b.to_le_bytes()].concat()),
        Err(number) => (number, vec![0; 16]),
    }
}

/// `count` groups of one place with `gap` places between, some made wider by
/// two, and some gaps too, so that there are insides to split.
fn teeth(rng: &mut Rng, count: u64, gap: usize) -> Vec<(usize, usize)> {
    let mut teeth = Vec::new();
    let mut at = rng.below(4) as usize;
    let mut spare = WINDOW - at - count as usize * (1 + gap);
    for _ in 0..count {
        let mut more = |odds| {
            if spare >= 2 && rng.one_in(odds) {
                spare -= 2;
                2
            } else {
                0
            }
        };
        let wide = 1 + more(4);
        teeth.push((at, at + wide));
        at += wide + gap + if gap > 0 { more(8) } else { 0 };
    }
    teeth
}

/// An empty toy, one of a few long records, or one whose tables are often full
/// with the most records there may be; of these flags.
fn start_toy(rng: &mut Rng, origin: u128, most: [u64; 2], flags: &[u32]) -> Toy {
    let mut toy = Toy::new(origin, WINDOW);
    toy.direction = rng.below(2) as u32;
    let style = rng.below(8);
    if style == 0 {
        return toy;
    }
    if style < 4 {
        for _ in 0..rng.below(8) {
            let lo = rng.below(300);
            let tag = match rng.below(4) {
                0 | 1 => (0, rng.below(2) as u32),
                _ => (flags[rng.below(flags.len() as u64) as usize], 0),
            };
            for i in toy.places(origin as u64 + lo, rng.below(80)) {
                toy.memory[i] = Some(tag);
            }
            let lo = rng.below(300);
            for i in toy.places(origin as u64 + lo, rng.below(20)) {
                toy.taken[i] = true;
            }
        }
        return toy;
    }
    let [m, t] = most.map(|most| match rng.below(3) {
        0 => rng.below(most + 1),
        _ => most - rng.below(2),
    });
    let touching = rng.one_in(3);
    let some_flags = !rng.one_in(4);
    for (k, (lo, hi)) in teeth(rng, m, if touching { 0 } else { 1 })
        .into_iter()
        .enumerate()
    {
        // Neighbours that touch are of nodes 0 or 2 and of nodes 1 or 3, or of flags
        // from the even and from the odd places of the list.
        let (even, half) = (k % 2, rng.below(2) as usize);
        let tag = if some_flags {
            // No-map not too often.
            let pairs = flags.len() as u64 / 2;
            let place = even + 2 * rng.below(pairs).min(rng.below(pairs)) as usize;
            (flags[place], half as u32)
        } else {
            (0, (even + 2 * half) as u32)
        };
        toy.memory[lo..hi].fill(Some(tag));
    }
    // Or memory everywhere, so that a search meets all that is taken.
    if rng.one_in(3) {
        let flags = flags[usize::from(rng.one_in(4))];
        toy.memory.fill(Some((flags, 0)));
    }
    for (lo, hi) in teeth(rng, t, 1) {
        toy.taken[lo..hi].fill(true);
    }
    // Nothing at or above the last address is ever in a table.
    for i in 0..WINDOW {
        if toy.address(i) >= LAST {
            toy.memory[i] = None;
            toy.taken[i] = false;
        }
    }
    toy
}

/// The place after the first of some group of either table, or of what is not
/// taken, that has an inside.
fn inner_place(rng: &mut Rng, toy: &Toy) -> u64 {
    let mut groups = toy.tables().concat();
    let untaken: Vec<_> = toy.taken.iter().map(|t| (!t).then_some((0, 0))).collect();
    groups.extend(Toy::groups(&untaken));
    groups.retain(|(first, past, _)| past - first > 2);
    if groups.is_empty() {
        return 0;
    }
    let (first, _, _) = groups[rng.below(groups.len() as u64) as usize];
    first as u64 + 1
}

/// The same of some free run.
fn inside_a_run(rng: &mut Rng, toy: &Toy) -> u64 {
    let free: Vec<_> = (0..toy.memory.len())
        .map(|i| toy.free_tag(toy.address(i)))
        .collect();
    let mut runs = Toy::groups(&free);
    runs.retain(|(first, past, _)| past - first > 2);
    if runs.is_empty() {
        return 0;
    }
    let (first, _, _) = runs[rng.below(runs.len() as u64) as usize];
    first as u64 + 1
}

/// A base and a size around some group of what is taken: all of it, a part, up to one
/// address more at either end, or on to the group behind it.
fn around_taken(rng: &mut Rng, toy: &Toy) -> (u64, u64) {
    let [_, groups] = toy.tables();
    if groups.is_empty() {
        return (toy.origin as u64, 1);
    }
    let some = rng.below(groups.len() as u64) as usize;
    // From there on, often one that has an inside.
    let wide = |group: &(usize, usize, Tag)| group.1 - group.0 > 2;
    let which = match groups[some..].iter().position(wide) {
        Some(more) if rng.one_in(2) => some + more,
        _ => some,
    };
    let (first, past, _) = groups[which];
    let (first, past) = (first as u64, past as u64);
    let (from, to) = match rng.below(8) {
        0 => (first, past),
        1 => (first, past + 1),
        2 => (first.saturating_sub(1), past),
        3 => (first, first + 1 + rng.below(past - first)),
        4 => (first + rng.below(past - first), past),
        5 | 6 if past - first > 2 => (first + 1, past - 1),
        6 => match groups.get(which + 1) {
            Some(next) => (past - 1, next.0 as u64 + 1),
            None => (past - 1, past + 1),
        },
        _ => (past, past + 1),
    };
    // At the end of the window one more is none that a toy knows.
    let to = to.min(toy.memory.len() as u64);
    ((toy.origin as u64).saturating_add(from), to - from.min(to))
}

/// Seen numbers are below this.
const NUMBERS: usize = 13;

fn walk(seed: u64, origin: u128, steps: usize, seen: &mut [[u64; NUMBERS]; 13]) {
    let mut rng = Rng(seed);
    let mut toy = start_toy(&mut rng, origin, MOST, &FLAGS);
    if !rng.one_in(3) {
        toy.image_end = some_number(&mut rng, &toy);
    }
    let mut block = toy.block().expect("no more records than fit");
    assert!(model::Board::read(&block).is_some());
    for step in 0..steps {
        let at_top = origin + WINDOW as u128 > LAST;
        let first = match rng.below(3) {
            0 => inner_place(&mut rng, &toy),
            _ => rng.below(WINDOW as u64),
        };
        let base = (origin as u64).saturating_add(first);
        let room = WINDOW as u64 - first;
        let size = match rng.below(10) {
            0 => 0,
            1 if at_top => u64::MAX - rng.below(9),
            2 if at_top => room + rng.below(20),
            3..=5 => rng.below(room + 1),
            6 | 7 => 1,
            _ => rng.below(room.min(3) + 1),
        };
        let mut slip: Vec<u8> = (0..16).map(|_| rng.next() as u8).collect();
        let mut slip_wanted = slip.clone();
        let mut next = toy.clone();
        let before = (toy.clone(), block.clone());
        let mut said = block.clone();
        let command = rng.below(13) as usize;
        let (got, wanted) = match command {
            0 if rng.one_in(20) => {
                next = Toy::new(origin, WINDOW);
                toy = next;
                (model::fresh(&mut said), 0)
            }
            0 | 1 => {
                let limit = match rng.below(3) {
                    0 => u64::MAX,
                    _ => some_number(&mut rng, &toy),
                };
                let direction = rng.below(3) as u32;
                let number = if direction > 1 {
                    7
                } else {
                    toy.limit = limit;
                    toy.direction = direction;
                    0
                };
                (model::set(&mut said, limit, direction), number)
            }
            2 => {
                let flags = match rng.below(8) {
                    0 => 8 + rng.below(2) as u32,
                    1..=3 => 0,
                    _ => rng.below(8) as u32,
                };
                let node = [0, 0, 1, 2, 63, 64][rng.below(6) as usize];
                let number = if flags > 7 || node > 63 {
                    2
                } else {
                    for i in toy.places(base, size) {
                        next.memory[i] = next.memory[i].or(Some((flags, node)));
                    }
                    keep(&mut toy, next)
                };
                (model::add(&mut said, base, size, flags, node), number)
            }
            3 => {
                for i in toy.places(base, size) {
                    next.memory[i] = None;
                }
                (model::remove(&mut said, base, size), keep(&mut toy, next))
            }
            4 | 5 => {
                let flag = match rng.below(8) {
                    0 => [0, 3, 5, 6, 7, 8, 1 << 31][rng.below(7) as usize],
                    _ => 1 << rng.below(3),
                };
                let number = if ![1, 2, 4].contains(&flag) {
                    2
                } else {
                    for i in toy.places(base, size) {
                        if let Some((flags, _)) = &mut next.memory[i] {
                            let there = *flags / flag % 2 == 1;
                            match command {
                                4 if !there => *flags += flag,
                                5 if there => *flags -= flag,
                                _ => {}
                            }
                        }
                    }
                    keep(&mut toy, next)
                };
                let said_number = match command {
                    4 => model::mark(&mut said, base, size, flag),
                    _ => model::unmark(&mut said, base, size, flag),
                };
                (said_number, number)
            }
            6 => {
                for i in toy.places(base, size) {
                    next.taken[i] = true;
                }
                (model::reserve(&mut said, base, size), keep(&mut toy, next))
            }
            7 => {
                let (base, size) = match rng.below(3) {
                    0 => (base, size),
                    _ => around_taken(&mut rng, &toy),
                };
                let places = toy.places(base, size);
                let number = if places.iter().any(|&i| !toy.taken[i]) {
                    12
                } else {
                    for i in places {
                        next.taken[i] = false;
                    }
                    keep(&mut toy, next)
                };
                (model::free(&mut said, base, size), number)
            }
            8 => {
                let alignment = match rng.below(8) {
                    0 => 1 << rng.below(64),
                    1 => rng.below(20),
                    2 => 2,
                    _ => 1,
                };
                let number = if alignment.is_power_of_two() {
                    next.trim(alignment);
                    keep(&mut toy, next)
                } else {
                    3
                };
                assert_ne!(number, 6);
                (model::trim(&mut said, alignment), number)
            }
            9 => {
                let from = some_number(&mut rng, &toy);
                let node = some_node(&mut rng);
                let wish = some_wish(&mut rng);
                let (number, wanted) = slip_of(toy.next_free(from, node, wish));
                slip_wanted = wanted;
                (model::next_free(&said, from, node, wish, &mut slip), number)
            }
            10 => {
                let query = some_query(&mut rng, &toy);
                let (number, wanted) = slip_of(toy.find(&query));
                slip_wanted = wanted;
                (model::find(&said, &query, &mut slip), number)
            }
            11 => {
                toy.image_end = some_number(&mut rng, &toy);
                (model::set_image_end(&mut said, toy.image_end), 0)
            }
            _ => {
                let query = some_query(&mut rng, &toy);
                let answer = toy.find(&query).and_then(|(a, end)| {
                    for i in toy.places(a, query.size) {
                        next.taken[i] = true;
                    }
                    match keep(&mut toy, next) {
                        0 => Ok((a, end)),
                        number => Err(number),
                    }
                });
                let (number, wanted) = slip_of(answer);
                slip_wanted = wanted;
                (model::allocate(&mut said, &query, &mut slip), number)
            }
        };
        assert_eq!(got, wanted, "seed {seed} step {step} command {command}");
        if got != 0 {
            assert_eq!(said, block, "seed {seed} step {step} command {command}");
        }
        block = toy.block().expect("kept toys fit");
        assert!(said == block, "seed {seed} step {step} command {command}");
        assert_eq!(slip, slip_wanted, "seed {seed} step {step}");
        seen[command][got as usize] += 1;
        // Mostly go on from the block before, so that full tables stay full.
        if !rng.one_in(10) {
            (toy, block) = before;
        }
    }
}

#[test]
fn random_walks_address_by_address() {
    let mut seen = [[0; NUMBERS]; 13];
    for seed in 0..600 {
        let origin = [
            4096 - 40,
            LAST - 1400,
            0,
            4096 - 200,
            (1 << 63) - 150,
            1 << 40,
        ][seed as usize % 6];
        walk(seed, origin, 120, &mut seen);
    }
    // Every number these commands can give was met.
    for (command, numbers) in [
        (2, vec![0, 2, 6]),
        (3, vec![0, 6]),
        (4, vec![0, 2, 6]),
        (5, vec![0, 2, 6]),
        (6, vec![0, 6]),
        (7, vec![0, 6, 12]),
        (8, vec![0, 3]),
        (9, vec![0, 2, 5]),
        (10, vec![0, 2, 3, 4, 5]),
        (11, vec![0]),
        (12, vec![0, 2, 3, 4, 5, 6]),
    ] {
        for number in numbers {
            assert!(
                seen[command][number] >= 10,
                "command {command} gave {number} only {} times",
                seen[command][number]
            );
        }
    }
}

/// All that can be taken of seven addresses, at the bottom, in the middle and at the top
/// of the space, with every range on them and beside them: what is freed, address by
/// address, and what is then freed twice.
#[test]
fn every_small_free() {
    const WIDE: usize = 7;
    // Where the two last addresses of the window are the last of all, which is never
    // taken, and one that is none.
    const AT_TOP: u128 = LAST - 5;
    let mut frees = 0;
    // Done without an address, done with one or more; 12 with none taken, the first alone,
    // the last alone, all but the first, all but the last, all but one between, others.
    let mut met = [0; 9];
    for origin in [0, 4096 - 3, AT_TOP] {
        for states in 0..1 << WIDE {
            let mut toy = Toy::new(origin, WIDE);
            for i in 0..WIDE {
                toy.taken[i] = states >> i & 1 == 1;
            }
            if (0..WIDE).any(|i| toy.taken[i] && toy.address(i) >= LAST) {
                continue;
            }
            let block = toy.block().unwrap();
            // At the top a range may go on behind the window.
            let most = if origin == AT_TOP { WIDE + 3 } else { WIDE };
            for from in 0..=WIDE {
                let base = u64::try_from(toy.address(from)).unwrap_or(u64::MAX);
                let mut sizes: Vec<u64> = (0..=(most - from) as u64).collect();
                if origin == AT_TOP {
                    sizes.extend([1 << 63, u64::MAX]);
                }
                for size in sizes {
                    let places = toy.places(base, size);
                    let taken: Vec<bool> = places.iter().map(|&i| toy.taken[i]).collect();
                    let number = if taken.contains(&false) { 12 } else { 0 };
                    let mut next = toy.clone();
                    if number == 0 {
                        for &i in &places {
                            next.taken[i] = false;
                        }
                    }
                    let wanted = next.block().unwrap();
                    let mut said = block.clone();
                    assert_eq!(model::free(&mut said, base, size), number);
                    assert!(said == wanted, "{origin:#x} {states:#b} {from} {size:#x}");
                    frees += 1;
                    let untaken = taken.iter().filter(|&&t| !t).count();
                    let (first, last) = (taken.first() == Some(&true), taken.last() == Some(&true));
                    let which = match (untaken, taken.len() - untaken) {
                        (0, 0) => 0,
                        (0, _) => 1,
                        (_, 0) => 2,
                        (1, _) if last && !first => 5,
                        (1, _) if first && !last => 6,
                        (1, _) => 7,
                        (_, 1) if first => 3,
                        (_, 1) if last => 4,
                        _ => 8,
                    };
                    met[which] += 1;
                    // Again: done where there was nothing to free, else 12.
                    let again = if number == 0 && !places.is_empty() {
                        12
                    } else {
                        number
                    };
                    assert_eq!(model::free(&mut said, base, size), again);
                    assert!(said == wanted);
                }
            }
        }
    }
    // For each of 128 states 36 ranges, and for each of 32 at the top 76.
    assert_eq!(frees, 2 * 128 * 36 + 32 * 76);
    assert!(met.iter().all(|&count| count >= 100), "{met:?}");
}

/// Toys as edition 1 blocks: converted they are the same toy's block, with every
/// bit of the header changed in turn only where the bit is of limit or direction,
/// never where it would be of the image end.
#[test]
fn conversions_bit_by_bit() {
    let any = |rng: &mut Rng| -> Vec<u8> {
        let byte = rng.next() as u8;
        vec![byte; 15440]
    };
    let mut fills = [0; 2];
    for seed in 0..300 {
        let mut rng = Rng(seed);
        let origin = [4096 - 40, LAST - 1400, 0, 1 << 40][seed as usize % 4];
        let mut toy = start_toy(&mut rng, origin, OLD_MOST, &OLD_FLAGS);
        toy.limit = some_number(&mut rng, &toy);
        let old = toy.old_block().expect("no more records than fit");
        let mut said = any(&mut rng);
        assert_eq!(model::convert(&old, &mut said), 0, "seed {seed}");
        assert!(said == toy.block().unwrap(), "seed {seed}");
        for bit in 0..80 * 8 {
            let mut changed = old.clone();
            changed[bit / 8] ^= 1 << (bit % 8);
            let mut wanted = toy.clone();
            let good = match bit {
                320..=383 => {
                    wanted.limit ^= 1 << (bit - 320);
                    true
                }
                384 => {
                    wanted.direction ^= 1;
                    true
                }
                _ => false,
            };
            let before = any(&mut rng);
            let mut said = before.clone();
            let number = model::convert(&changed, &mut said);
            assert_eq!(number, u32::from(!good), "seed {seed} bit {bit}");
            let wanted = if good {
                wanted.block().unwrap()
            } else {
                before
            };
            assert!(said == wanted, "seed {seed} bit {bit}");
        }
        // Nothing may stand behind the records.
        for (table, groups) in toy.tables().iter().enumerate() {
            fills[table] = fills[table].max(groups.len());
            let end = 80 + (table + 1) * 3072;
            for at in (80 + table * 3072 + groups.len() * 24..end).step_by(61) {
                let mut changed = old.clone();
                changed[at] = 1;
                assert_eq!(model::convert(&changed, &mut any(&mut rng)), 1);
            }
        }
    }
    assert_eq!(fills, [128, 128]);
}

/// Toys with the flags of one record changed: every flags 0 to 7 in a block of today,
/// 0 and 4 alone in one of edition 1, unless the record then meets its like.
#[test]
fn flags_record_by_record() {
    // By edition: good ones and bad ones.
    let mut met = [[0; 2]; 2];
    for seed in 0..300 {
        let mut rng = Rng(seed);
        let mut toy = start_toy(&mut rng, 1 << 40, OLD_MOST, &OLD_FLAGS);
        let [groups, _] = toy.tables();
        if groups.is_empty() {
            continue;
        }
        let which = rng.below(groups.len() as u64) as usize;
        let (first, past, (_, node)) = groups[which];
        for flags in 0..12u32 {
            toy.memory[first..past].fill(Some((flags, node)));
            let shortest = toy.tables()[0].len() == groups.len();
            for (edition, block) in [toy.block(), toy.old_block()].into_iter().enumerate() {
                // Written with its like merged, the records would be others.
                let Some(block) = block.filter(|_| shortest) else {
                    continue;
                };
                let legal = match edition {
                    0 => flags <= 7,
                    _ => flags == 0 || flags == 4,
                };
                let mut said = vec![7; 15440];
                let good = match edition {
                    0 => model::Board::read(&block).is_some(),
                    _ => model::convert(&block, &mut said) == 0,
                };
                assert_eq!(good, legal, "seed {seed} edition {edition} flags {flags}");
                if edition == 1 && good {
                    assert!(said == toy.block().unwrap(), "seed {seed} flags {flags}");
                }
                met[edition][usize::from(!good)] += 1;
            }
        }
    }
    assert!(met.iter().flatten().all(|&count| count >= 300), "{met:?}");
}

/// All memory over four addresses around 4096, of all flags or taken, with every
/// wish: all searches of one and two addresses in both directions, without an image and
/// with one that ends between them, and next free.
#[test]
fn every_small_wish() {
    const WIDE: usize = 4;
    const FIRST: u64 = 4096 - 1;
    // No memory, each flags, plain memory that is taken.
    const STATES: usize = 10;
    let mut searches = 0;
    // Answers by wish.
    let mut given = [0; 4];
    for states in 0..STATES.pow(WIDE as u32) {
        let mut toy = Toy::new(FIRST.into(), WIDE);
        for i in 0..WIDE {
            let state = states / STATES.pow(i as u32) % STATES;
            toy.memory[i] = match state {
                0 => None,
                9 => Some((0, 0)),
                _ => Some((state as u32 - 1, 0)),
            };
            toy.taken[i] = state == 9;
        }
        for (direction, image_end) in [(0, 0), (1, 0), (0, FIRST + 2), (1, FIRST + 2)] {
            toy.direction = direction;
            toy.image_end = image_end;
            let block = toy.block().unwrap();
            for wish in 0..4 {
                for size in 1..=2 {
                    let query = Query {
                        size,
                        alignment: 1,
                        start: 0,
                        end: 0,
                        node: ANY,
                        wish,
                    };
                    let (number, slip_wanted) = slip_of(toy.find(&query));
                    let mut slip = [9; 16];
                    assert_eq!(model::find(&block, &query, &mut slip), number);
                    assert_eq!(slip[..], slip_wanted[..]);
                    given[wish as usize] += usize::from(number == 0);
                    searches += 1;
                }
                if direction == 0 {
                    let from = FIRST + states as u64 % WIDE as u64;
                    let (number, slip_wanted) = slip_of(toy.next_free(from, ANY, wish));
                    let mut slip = [9; 16];
                    let said = model::next_free(&block, from, ANY, wish, &mut slip);
                    assert_eq!((said, &slip[..]), (number, &slip_wanted[..]));
                    searches += 1;
                }
            }
        }
    }
    assert_eq!(searches, 10_000 * 4 * 10);
    // Wish 1 grants four of the flags, 0 and 3 grant two, 2 grants one.
    let [none, hotplug, mirror, both] = given;
    assert!(hotplug > none && none == both && both > mirror && mirror > 0);
}

/// All tables over five addresses around 4096, all small searches on them, without an
/// image and with one that ends in their middle.
#[test]
fn every_small_search() {
    const WIDE: usize = 5;
    let tags = [None, Some((0, 0)), Some((0, 1)), Some((4, 0))];
    let mut searches = 0;
    for memory in 0..4usize.pow(WIDE as u32) {
        for taken in 0..1 << WIDE {
            let mut toy = Toy::new(4096 - 1, WIDE);
            for i in 0..WIDE {
                toy.memory[i] = tags[memory / 4usize.pow(i as u32) % 4];
                toy.taken[i] = taken >> i & 1 == 1;
            }
            // Taken bits without memory below them repeat other cases.
            if (0..WIDE).any(|i| toy.taken[i] && toy.memory[i].is_none()) {
                continue;
            }
            for (direction, image_end) in [(0, 0), (1, 0), (0, 4097), (1, 4097)] {
                toy.direction = direction;
                toy.image_end = image_end;
                let block = toy.block().unwrap();
                for size in 1..=3 {
                    for alignment in [1, 2] {
                        for (start, end, node) in [
                            (0, 0, ANY),
                            (0, 0, 1),
                            (4097, 0, ANY),
                            (0, 4098, ANY),
                            (4097, 4099, 0),
                        ] {
                            let query = Query {
                                size,
                                alignment,
                                start,
                                end,
                                node,
                                wish: 0,
                            };
                            let (number, slip_wanted) = slip_of(toy.find(&query));
                            let mut slip = [9; 16];
                            assert_eq!(model::find(&block, &query, &mut slip), number);
                            assert_eq!(slip[..], slip_wanted[..]);
                            searches += 1;
                        }
                    }
                }
            }
        }
    }
    assert_eq!(searches, 7usize.pow(5) * 120);
}

/// All memory over five addresses around 4096, with every limit, start and end
/// on both sides of each of them, without an image and with one that ends in their
/// middle.
#[test]
fn every_small_limit() {
    const WIDE: usize = 5;
    const FIRST: u64 = 4096 - 1;
    let edges: Vec<u64> = [0, 1, u64::MAX]
        .into_iter()
        .chain(FIRST - 1..=FIRST + WIDE as u64 + 1)
        .collect();
    let mut searches = 0;
    // Named ends above the limit at which some address would fit without it.
    let mut cut = 0;
    // Answers whose run ends behind the limit, or behind the named end.
    let mut behind = [0; 2];
    for memory in 0..1 << WIDE {
        let mut toy = Toy::new(FIRST.into(), WIDE);
        for i in 0..WIDE {
            toy.memory[i] = (memory >> i & 1 == 1).then_some((0, 0));
        }
        for (direction, image_end) in [(0, 0), (1, 0), (0, FIRST + 2), (1, FIRST + 2)] {
            for &limit in &edges {
                toy.direction = direction;
                toy.image_end = image_end;
                toy.limit = limit;
                let block = toy.block().unwrap();
                let mut unlimited = toy.clone();
                unlimited.limit = u64::MAX;
                for &start in &edges {
                    for &end in &edges {
                        for size in 1..=3 {
                            let query = Query {
                                size,
                                alignment: 1,
                                start,
                                end,
                                node: ANY,
                                wish: 0,
                            };
                            let found = toy.find(&query);
                            let (number, slip_wanted) = slip_of(found);
                            let mut slip = [9; 16];
                            assert_eq!(model::find(&block, &query, &mut slip), number);
                            assert_eq!(slip[..], slip_wanted[..]);
                            searches += 1;
                            if end > limit && found != unlimited.find(&query) {
                                cut += 1;
                            }
                            if let Ok((_, run_end)) = found {
                                behind[0] += usize::from(run_end > limit);
                                behind[1] += usize::from(end != 0 && run_end > end);
                            }
                        }
                    }
                }
            }
        }
    }
    assert_eq!(searches, 32 * 4 * 11usize.pow(3) * 3);
    assert!(
        cut > searches / 20,
        "the limit cut only {cut} of {searches}"
    );
    assert!(
        behind.iter().all(|&runs| runs > searches / 200),
        "only {behind:?} runs of {searches} end behind limit or named end"
    );
}

/// All memory over five addresses around 4096 and what is taken of it, with every image
/// end, start and end on both sides of each of them, in both directions.
#[test]
fn every_small_image() {
    const WIDE: usize = 5;
    const FIRST: u64 = 4096 - 1;
    let beside = FIRST - 1..=FIRST + WIDE as u64 + 1;
    let windows: Vec<u64> = [0].into_iter().chain(beside).collect();
    let images = [&windows[..], &[1, u64::MAX]].concat();
    let mut searches = 0;
    // Bottom-up with an image: answers not below its end, and of these others than
    // without it; answers the other way, of these others than the lowest, and those that
    // reach past the image end; none at all.
    let mut met = [0; 6];
    for states in 0..3usize.pow(WIDE as u32) {
        let mut toy = Toy::new(FIRST.into(), WIDE);
        for i in 0..WIDE {
            let state = states / 3usize.pow(i as u32) % 3;
            toy.memory[i] = (state > 0).then_some((0, 0));
            toy.taken[i] = state == 2;
        }
        for direction in [0, 1] {
            toy.direction = direction;
            toy.image_end = 0;
            let plain = toy.clone();
            for &image_end in &images {
                toy.image_end = image_end;
                let block = toy.block().unwrap();
                for &start in &windows {
                    for &end in &windows {
                        for (size, alignment) in [(1, 1), (2, 1), (3, 1), (1, 2), (2, 2)] {
                            let query = Query {
                                size,
                                alignment,
                                start,
                                end,
                                node: ANY,
                                wish: 0,
                            };
                            let found = toy.find(&query);
                            let (number, slip_wanted) = slip_of(found);
                            let mut slip = [9; 16];
                            assert_eq!(model::find(&block, &query, &mut slip), number);
                            assert_eq!(slip[..], slip_wanted[..]);
                            searches += 1;
                            let without = plain.find(&query);
                            if direction == 0 {
                                assert_eq!(found, without);
                                continue;
                            }
                            let another = found != without;
                            let holds = match found {
                                _ if image_end == 0 => [false; 6],
                                Ok((a, _)) if a >= image_end => {
                                    [true, another, false, false, false, false]
                                }
                                Ok((a, _)) => {
                                    let past = a + size > image_end;
                                    [false, false, true, another, past, false]
                                }
                                Err(_) => [false, false, false, false, false, true],
                            };
                            for (count, holds) in met.iter_mut().zip(holds) {
                                *count += usize::from(holds);
                            }
                        }
                    }
                    let (number, slip_wanted) = slip_of(plain.next_free(start, ANY, 0));
                    let mut slip = [9; 16];
                    let said = model::next_free(&block, start, ANY, 0, &mut slip);
                    assert_eq!((said, &slip[..]), (number, &slip_wanted[..]));
                }
            }
        }
    }
    assert_eq!(searches, 3usize.pow(5) * 2 * 11 * 9 * 9 * 5);
    assert!(
        met.iter().all(|&count| count >= 2000),
        "only {met:?} of {searches}"
    );
}

/// The places of a toy for intakes.
const WIDE: usize = 1400;

/// A toy for intakes: several fills, half of them of the tag that an intake
/// gives, and room above the last record.
fn intake_toy(rng: &mut Rng, origin: u128) -> Toy {
    let mut toy = Toy::new(origin, WIDE);
    toy.unit = 1024;
    toy.direction = rng.below(2) as u32;
    let count = match rng.below(4) {
        0 => rng.below(4),
        1 => 60 + rng.below(10),
        _ => 128 - rng.below(2),
    };
    let plain = rng.one_in(2);
    let mut at = 0;
    for _ in 0..count {
        let lo = at + 1 + rng.below(4) as usize;
        at = lo + 1 + rng.below(6) as usize;
        let tag = match rng.below(2) as u32 {
            _ if plain => (0, 0),
            node => (rng.below(8) as u32, 1 + node),
        };
        toy.memory[lo..at].fill(Some(tag));
    }
    let taken = rng.below(5);
    for (lo, hi) in teeth(rng, taken, 1) {
        toy.taken[lo..hi].fill(true);
    }
    toy
}

/// Up to six entries of whole places.
fn some_report(rng: &mut Rng, toy: &Toy) -> Vec<(u64, u64, u32)> {
    (0..rng.below(7))
        .map(|_| {
            let first = match rng.below(3) {
                0 => WIDE as u64 - 300 + rng.below(300),
                _ => rng.below(WIDE as u64),
            };
            let most = WIDE as u64 - first;
            let places = match rng.below(8) {
                0 => rng.below(most + 1),
                1 => rng.below(2),
                _ => rng.below(most.min(20) + 1),
            };
            let kind = match rng.below(6) {
                0 => rng.below(9) as u32,
                _ => 1,
            };
            let unit = toy.unit as u64;
            (toy.origin as u64 + first * unit, places * unit, kind)
        })
        .collect()
}

/// An intake place by place, or 6 at the first entry that does not fit.
fn intake(toy: &Toy, entries: &[(u64, u64, u32)]) -> Result<Toy, u32> {
    let mut next = toy.clone();
    for &(base, size, kind) in entries {
        if kind == 1 {
            for i in next.places(base, size) {
                next.memory[i] = next.memory[i].or(Some((0, 0)));
            }
            if next.block().is_none() {
                return Err(6);
            }
        }
    }
    next.trim(4096);
    Ok(next)
}

/// Random intakes in up to three orders.
#[test]
fn random_intakes_place_by_place() {
    let (mut done, mut refused, mut split) = (0, 0, 0);
    for seed in 0..4000 {
        let mut rng = Rng(seed);
        let origin = [0, 4096, 1 << 40, LAST - 4095 - 8192 * 1024][seed as usize % 4];
        let toy = intake_toy(&mut rng, origin);
        let block = toy.block().expect("at most 128 records");
        let mut entries = some_report(&mut rng, &toy);
        let mut ends = Vec::new();
        for order in 0..3 {
            let mut bytes = Vec::new();
            for (base, size, kind) in &entries {
                bytes.extend(base.to_le_bytes());
                bytes.extend(size.to_le_bytes());
                bytes.extend(kind.to_le_bytes());
            }
            let mut said = block.clone();
            let number = model::intake_e820(&mut said, &bytes);
            match intake(&toy, &entries) {
                Ok(next) => {
                    assert_eq!(number, 0, "seed {seed} order {order}");
                    assert!(said == next.block().unwrap(), "seed {seed} order {order}");
                    ends.push(said);
                    done += 1;
                }
                Err(wanted) => {
                    assert_eq!(number, wanted, "seed {seed} order {order}");
                    assert!(said == block, "seed {seed} order {order}");
                    refused += 1;
                }
            }
            for i in (1..entries.len()).rev() {
                entries.swap(i, rng.below(i as u64 + 1) as usize);
            }
        }
        if ends.len() == 1 || ends.len() == 2 {
            split += 1;
        }
        assert!(ends.windows(2).all(|two| two[0] == two[1]), "seed {seed}");
    }
    assert!(done >= 1000, "only {done} done");
    assert!(refused >= 1000, "only {refused} refused");
    assert!(
        split >= 100,
        "only {split} reports refused in one order alone"
    );
}

/// A page and an order.
type Piece = (u64, u32);

const NO_PAGE: u64 = 1 << 52;

/// The places of a page.
const QUARTERS: usize = 4;

/// A toy of quarters of pages, the first at this address.
fn paged_toy(origin: u128, width: usize) -> Toy {
    let mut toy = Toy::new(origin, width);
    toy.unit = 1024;
    toy
}

/// Each page all of whose places are free and in one run, with that run.
fn marked(toy: &Toy) -> BTreeMap<u64, usize> {
    let free: Vec<Option<Tag>> = (toy.memory.iter().zip(&toy.taken))
        .map(|(tag, taken)| tag.filter(|tag| tag.0 < 4 && !taken))
        .collect();
    let mut run_of = vec![None; free.len()];
    for (run, (first, past, _)) in Toy::groups(&free).into_iter().enumerate() {
        run_of[first..past].fill(Some(run));
    }
    // The runs of each page's places.
    let mut pages: BTreeMap<u64, Vec<Option<usize>>> = BTreeMap::new();
    for (i, run) in run_of.into_iter().enumerate() {
        let page = (toy.address(i) / 4096) as u64;
        pages.entry(page).or_default().push(run);
    }
    let whole = pages.into_iter().filter_map(|(page, runs)| {
        let run = runs[0]?;
        let same = runs.len() == QUARTERS && runs.iter().all(|&other| other == Some(run));
        same.then_some((page, run))
    });
    whole.collect()
}

/// The pieces: the largest group of pages around each that begins at a multiple of its size
/// and has all its pages in one run.
fn pieces_of(marked: &BTreeMap<u64, usize>) -> Vec<Piece> {
    let mut pieces = Vec::new();
    for (&page, run) in marked {
        let order = (0..=10u32).rev().find(|order| {
            let size = 1 << order;
            let first = page / size * size;
            (first..first + size).all(|page| marked.get(&page) == Some(run))
        });
        let order = order.expect("the page itself");
        if page % (1 << order) == 0 {
            pieces.push((page, order));
        }
    }
    pieces
}

/// What a call that is done writes and answers.
fn handed(block: &[u8], from: u64, length: usize) -> (Vec<Piece>, u64) {
    let mut buffer = vec![0xC3; length];
    let mut slip = [0x77; 16];
    assert_eq!(model::pages(block, from, &mut buffer, &mut slip), 0);
    let long = |bytes: &[u8]| u64::from_le_bytes(bytes.try_into().unwrap());
    let (count, next) = (long(&slip[..8]), long(&slip[8..]));
    let (front, rest) = buffer.split_at(12 * count as usize);
    assert!(rest.iter().all(|&byte| byte == 0xC3));
    let pieces = front.chunks(12).map(|piece| {
        let order = u32::from_le_bytes(piece[8..].try_into().unwrap());
        (long(&piece[..8]), order)
    });
    (pieces.collect(), next)
}

/// One call, held against the list.
fn one_call(block: &[u8], list: &[Piece], from: u64, length: usize) {
    let left: Vec<Piece> = list.iter().copied().filter(|p| p.0 >= from).collect();
    let room = length / 12;
    let next = left.get(room).map_or(NO_PAGE, |piece| piece.0);
    let wanted = (left[..room.min(left.len())].to_vec(), next);
    assert_eq!(handed(block, from, length), wanted, "from {from:#x}");
}

/// Calls from page 0 on, each from the page that the last one answered, with buffers of these
/// lengths, until none is left: the list, and each marked page once.
fn in_turn(
    block: &[u8],
    marked: &BTreeMap<u64, usize>,
    list: &[Piece],
    mut length: impl FnMut() -> usize,
) {
    let mut got = Vec::new();
    let mut from = 0;
    while from != NO_PAGE {
        let (pieces, next) = handed(block, from, length());
        assert!(!pieces.is_empty() || next == NO_PAGE);
        got.extend(pieces);
        from = next;
    }
    assert_eq!(got, list);
    let pages = got
        .iter()
        .flat_map(|&(page, order)| page..page + (1 << order));
    assert!(pages.eq(marked.keys().copied()));
}

/// Calls from every page of a toy and beside it, with every buffer that its list has pieces
/// for, and one that it has none for; then the list in every cut, if there are few.
fn every_call(toy: &Toy) -> usize {
    let block = toy.block().expect("few records");
    let marked = marked(toy);
    let list = pieces_of(&marked);
    let first = (toy.origin / 4096) as u64;
    let past = (toy.address(toy.memory.len()) / 4096) as u64;
    for from in first.saturating_sub(1)..=past + 1 {
        let left = list.iter().filter(|piece| piece.0 >= from).count();
        for room in 0..=left + 1 {
            one_call(&block, &list, from, 12 * room + [0, 11][room % 2]);
        }
    }
    let cuts = list.len().saturating_sub(1);
    if cuts <= 5 {
        for mut cut in 0..1u32 << cuts {
            // The next buffer ends behind the next piece that is cut behind.
            in_turn(&block, &marked, &list, || {
                let room = cut.trailing_zeros().min(31) + 1;
                cut = cut >> (room - 1) >> 1;
                12 * room as usize
            });
        }
    }
    list.len()
}

/// All boards of five pages that are not free or free of one of two tags, with the first page
/// at every multiple below 8, at the bottom, far above and at the top.
#[test]
fn every_small_board_of_pages() {
    let mut met = [0; 6];
    for board in 0..3u32.pow(5) {
        for at in 0..8u64 {
            let page = [at, at + (1 << 30), (1 << 52) - 16 + at][board as usize % 3];
            let mut toy = paged_toy(u128::from(page) * 4096, 5 * QUARTERS);
            for i in 0..toy.memory.len() {
                let state = board / 3u32.pow((i / QUARTERS) as u32) % 3;
                toy.memory[i] = [None, Some((1, 0)), Some((2, 3))][state as usize];
            }
            met[every_call(&toy)] += 1;
        }
    }
    assert!(met.iter().all(|&count| count > 0), "{met:?}");
}

/// Random boards whose runs begin and end inside pages too, with taken and no-map memory.
#[test]
fn random_boards_of_pages() {
    let mut met = 0;
    for seed in 0..120u64 {
        let mut rng = Rng(seed);
        let width = 20 * QUARTERS;
        // Beginning inside a page too, and ending at the last place but one.
        let quarter = rng.below(4) as u128 * 1024;
        let top = (1 << 64) - 1024 - width as u128 * 1024;
        let origin = [0, quarter, (1 << 40) + quarter, top][seed as usize % 4];
        let mut toy = paged_toy(origin, width);
        toy.limit = rng.next();
        toy.image_end = rng.next();
        toy.direction = rng.below(2) as u32;
        let mut at = 0;
        while at < width {
            let past = (at + 1 + rng.below(30) as usize).min(width);
            let tag = match rng.below(6) {
                0 => None,
                1 => Some((4 + rng.below(4) as u32, 0)),
                _ => Some((rng.below(4) as u32, rng.below(2) as u32)),
            };
            toy.memory[at..past].fill(tag);
            at = past;
        }
        for _ in 0..rng.below(5) {
            let at = rng.below(width as u64) as usize;
            let past = (at + 1 + rng.below(6) as usize).min(width);
            toy.taken[at..past].fill(true);
        }
        met += every_call(&toy);
        let (block, marked) = (toy.block().expect("few records"), marked(&toy));
        for _ in 0..8 {
            let list = pieces_of(&marked);
            in_turn(&block, &marked, &list, || 12 + rng.below(60) as usize);
        }
    }
    assert!(met > 500, "only {met} pieces");
}

/// Boards of thousands of pages, from every page.
#[test]
fn large_boards_of_pages() {
    let mut orders = [0; 11];
    for seed in 0..6u64 {
        let mut rng = Rng(seed);
        let page = [0u64, 700, (1 << 40) + 3, (1 << 52) - 3300][seed as usize % 4];
        let width = 3300 * QUARTERS - 1;
        let mut toy = paged_toy(u128::from(page) * 4096, width);
        toy.memory.fill(Some((0, 0)));
        for _ in 0..seed {
            let at = rng.below(width as u64) as usize;
            let tag = [None, Some((0, 1)), Some((4, 0))][rng.below(3) as usize];
            let past = (at + 1 + rng.below(40) as usize).min(width);
            toy.memory[at..past].fill(tag);
        }
        let block = toy.block().expect("few records");
        let marked = marked(&toy);
        let list = pieces_of(&marked);
        for &(_, order) in &list {
            orders[order as usize] += 1;
        }
        for from in page.saturating_sub(1)..page + 3301 {
            one_call(&block, &list, from, rng.below(60) as usize);
        }
        for _ in 0..8 {
            let most = 12 + 12 * rng.below(2 * list.len() as u64);
            in_turn(&block, &marked, &list, || 12 + rng.below(most) as usize);
        }
    }
    assert!(orders.iter().all(|&count| count > 0), "{orders:?}");
}

impl Toy {
    /// What a plan leaves, or its number and index. Each line is tried on the toy as it is,
    /// and its addresses are held one by one.
    fn plan(&self, lines: &[Line]) -> Result<Toy, (u32, u32)> {
        if lines.len() > 64 {
            return Err((14, 0));
        }
        let mut after = self.clone();
        let mut held = BTreeSet::new();
        for (index, line) in lines.iter().enumerate() {
            let (query, at) = (line.query(), u128::from(line.at));
            let stands = may_ask(&query).is_ok() && self.eligible(at, &query);
            if !stands || !(at..at + u128::from(line.size)).all(|x| held.insert(x)) {
                return Err((13, index as u32));
            }
        }
        for x in held {
            after.taken[(x - self.origin) as usize] = true;
        }
        match after.block() {
            Some(_) => Ok(after),
            None => Err((6, 0)),
        }
    }
}

/// One plan on both, from the toy's block; gives the number and the index.
fn planned(toy: &Toy, block: &[u8], lines: &[Line]) -> (u32, u32) {
    let (told, wanted) = match toy.plan(lines) {
        Ok(after) => ((0, 0), after.block().expect("it was written")),
        Err(told) => (told, block.to_vec()),
    };
    let mut bytes = block.to_vec();
    let got = model::plan::plan(&mut bytes, lines);
    assert_eq!(got, told, "{lines:x?}, limit {:#x}", toy.limit);
    assert!(bytes == wanted, "{lines:x?}: other bytes");
    got
}

/// The addresses of a small board.
const SMALL: std::ops::Range<u64> = 4095..4100;
const SMALL_BOARDS: usize = 4usize.pow(5);

/// A small board around 4096: each address is free of one of two tags, taken, or no memory or
/// no-map memory.
fn small_board(which: usize) -> Toy {
    let mut toy = Toy::new(SMALL.start.into(), (SMALL.end - SMALL.start) as usize);
    let none = [None, Some((4, 0))][which % 2];
    for i in 0..toy.memory.len() {
        let state = which / 4usize.pow(i as u32) % 4;
        toy.memory[i] = [Some((0, 0)), Some((1, 1)), Some((0, 0)), none][state];
        toy.taken[i] = state == 2;
    }
    toy
}

/// Lines on and around a small board: those that ask for nothing else, and all.
fn small_lines(others: bool) -> Vec<Line> {
    let mut lines = Vec::new();
    let few = |count: usize| if others { count } else { 1 };
    let beyond = u64::from(others);
    for at in SMALL.start - beyond..SMALL.end + beyond {
        for size in u64::from(!others)..=3 {
            for align in [1, 2, 3].into_iter().take(few(3)) {
                for (start, end) in [(0, 0), (4097, 0), (0, 4098), (0, 4099), (4096, 1)]
                    .into_iter()
                    .take(few(5))
                {
                    for (node, wish) in [(ANY, 1), (ANY, 0), (1, 1), (0, 2), (64, 0), (0, 4)]
                        .into_iter()
                        .take(few(6))
                    {
                        lines.push(Line {
                            size,
                            align,
                            start,
                            end,
                            node,
                            wish,
                            at,
                        });
                    }
                }
            }
        }
    }
    lines
}

/// Plans of one line, of two and of three on small boards, with some limits: of all lines one
/// in 20 on each board, of pairs of the plain ones one in 2 and of triples one in 17, others on
/// each.
#[test]
fn small_plans() {
    let (all, plain) = (small_lines(true), small_lines(false));
    let n = plain.len();
    let mut accepted = [0; 4];
    // By lines and index.
    let mut at_fault = [[0; 4]; 4];
    for which in 0..SMALL_BOARDS {
        let mut toy = small_board(which);
        toy.limit = [u64::MAX, 4098, u64::MAX, 4099, u64::MAX][which % 5];
        toy.direction = which as u32 % 2;
        toy.image_end = [0, 4097, u64::MAX][which % 3];
        let block = toy.block().expect("few records");
        let mut note = |lines: &[Line]| match planned(&toy, &block, lines) {
            (0, _) => accepted[lines.len()] += 1,
            (_, index) => at_fault[lines.len()][index as usize] += 1,
        };
        note(&[]);
        for line in all.iter().skip(which % 20).step_by(20) {
            note(&[*line]);
        }
        for pair in (which % 2..n * n).step_by(2) {
            note(&[plain[pair % n], plain[pair / n]]);
        }
        for triple in (which % 17..n * n * n).step_by(17) {
            let three = [triple % n, triple / n % n, triple / n / n];
            note(&three.map(|i| plain[i]));
        }
    }
    assert_eq!(accepted[0], SMALL_BOARDS);
    assert!(accepted.iter().all(|&count| count > 100), "{accepted:?}");
    for (lines, met) in at_fault.iter().enumerate() {
        assert!(met[..lines].iter().all(|&count| count > 500), "{met:?}");
    }
}

/// A line of a toy's free addresses, most of them eligible.
fn some_line(rng: &mut Rng, toy: &Toy, runs: &[(usize, usize, Tag)]) -> Line {
    let (first, past, tag) = match runs.len() {
        0 => (0, 1, (0, 0)),
        n => runs[rng.below(n as u64) as usize],
    };
    let room = (past - first) as u64;
    let size = match rng.below(4) {
        0 => room,
        _ => 1 + rng.below(room.min(6)),
    };
    let up = match rng.below(4) {
        0 => 0,
        1 => room - size,
        _ => rng.below(room - size + 1),
    };
    let at = (toy.address(first) as u64).saturating_add(up);
    let mut line = Line {
        size,
        align: 1 << rng.below(u64::from(at.trailing_zeros().min(6)) + 1),
        start: [0, at, at.saturating_sub(1)][rng.below(3) as usize],
        end: [0, at.saturating_add(size), u64::MAX][rng.below(3) as usize],
        node: if rng.one_in(2) { ANY } else { tag.1 },
        wish: 1 | tag.0 & 2,
        at,
    };
    if rng.one_in(200) {
        line = Line {
            at: some_number(rng, toy),
            ..line
        };
    }
    let one = rng.below(3).wrapping_sub(1);
    match rng.below(800) {
        0 => line.size = line.size.wrapping_add(one),
        1 => line.at = line.at.wrapping_add(one),
        2 => line.start = line.start.wrapping_add(one),
        3 => line.end = line.end.wrapping_add(one),
        4 => line.align = line.align.wrapping_mul(2),
        5 => line.align += 1,
        6 => line.node = some_node(rng),
        7 => line.wish = some_wish(rng),
        8 => line.size = 0,
        9 => line.size = u64::MAX - rng.below(3),
        _ => {}
    }
    line
}

/// Random plans of up to 66 lines on toys whose tables are often full.
#[test]
fn random_plans_address_by_address() {
    let mut met = [0; 15];
    let mut long = 0;
    let mut late = 0;
    let top = (1u128 << 64) - WINDOW as u128 + 3;
    for seed in 0..900u64 {
        let mut rng = Rng(seed);
        let origin = [0x10000, 4096 - 200, top, 1 << 40][seed as usize % 4];
        let mut toy = start_toy(&mut rng, origin, MOST, &FLAGS);
        if rng.one_in(3) {
            toy.limit = (origin as u64).saturating_add(rng.below(WINDOW as u64));
        }
        let Some(block) = toy.block() else { continue };
        let free: Vec<_> = (0..WINDOW).map(|i| toy.free_tag(toy.address(i))).collect();
        let mut runs = Toy::groups(&free);
        runs.retain(|run| (toy.address(run.0) >= 4096) && toy.address(run.1) <= toy.limit.into());
        for _ in 0..12 {
            // Lines that share no address, until there are as many as asked for.
            let count = match rng.below(4) {
                0 => 60 + rng.below(7),
                1 => rng.below(20),
                _ => rng.below(5),
            };
            let mut lines: Vec<Line> = Vec::new();
            let mut held = BTreeSet::new();
            for _ in 0..3 * count {
                let line = some_line(&mut rng, &toy, &runs);
                let (lo, hi) = line.range();
                let shares = hi - lo <= WINDOW as u128 && !(lo..hi).all(|x| held.insert(x));
                if (lines.len() as u64) < count && (!shares || rng.one_in(100)) {
                    lines.push(line);
                }
            }
            let (number, index) = planned(&toy, &block, &lines);
            met[number as usize] += 1;
            long += usize::from(number == 0 && lines.len() > 30);
            late += usize::from(index > 30);
        }
    }
    for number in [0, 6, 13, 14] {
        assert!(met[number] > 50, "{met:?}");
    }
    assert!(long > 20 && late > 20, "{long} long, {late} late");
}

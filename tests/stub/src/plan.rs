//! The stand-in's placement plans: line by line, each against those before it.

use super::{
    cut, fill, granted, lent_mut, mutant, offered, parse, put_image_end, put_table, search,
    shortest, store, Block, Query, Rec, ANY, NOW,
};
use std::sync::Mutex;

const LINES: usize = 64;

#[derive(Clone, Copy)]
struct Line {
    size: u64,
    align: u64,
    start: u64,
    end: u64,
    node: u32,
    wish: u32,
    at: u64,
}

impl Line {
    fn to(&self) -> u64 {
        self.at.saturating_add(self.size)
    }
}

/// Whether the node and the wish of a line may be asked for.
fn may_ask(line: &Line) -> bool {
    // mutant 446: plan: a node above 63 is any
    // mutant 447: plan: a wish above 3 is not checked
    (line.node <= 63 || line.node == ANY || mutant(446)) && (line.wish <= 3 || mutant(447))
}

/// The window of a line's addresses.
fn window(tables: &Block, line: &Line) -> (u64, u64) {
    let limit = tables.limit;
    // mutant 448: plan: a start below 4096 is not raised
    // mutant 449: plan: the start is not looked at
    let start = match line.start {
        start if mutant(448) => start,
        _ if mutant(449) => 4096,
        start => start.max(4096),
    };
    // mutant 450: plan: the limit cuts no named end
    // mutant 451: plan: a named end is passed over
    // mutant 452: plan: an end of 0 is no end
    // mutant 453: plan: an end of 0 gives nothing
    let end = match line.end {
        0 if mutant(452) => u64::MAX,
        0 if mutant(453) => 0,
        0 => limit,
        named if mutant(450) => named,
        _ if mutant(451) => limit,
        named => named.min(limit),
    };
    (start, end)
}

/// Whether a line stands by itself, or the number that find has for it.
fn stands(tables: &Block, line: &Line) -> Result<(), u32> {
    if !may_ask(line) {
        return Err(2);
    }
    // mutant 454: plan: an alignment that is no power of two is taken
    let power = line.align.is_power_of_two() || mutant(454) && line.align > 0;
    if !power {
        return Err(3);
    }
    // mutant 455: plan: a line of size 0 stands
    if line.size == 0 {
        return if mutant(455) { Ok(()) } else { Err(4) };
    }
    let at = line.at;
    // mutant 456: plan: a sum past the top comes round
    let to = match at.checked_add(line.size) {
        Some(to) => to,
        None if mutant(456) => at.wrapping_add(line.size),
        None => return Err(5),
    };
    // mutant 457: plan: the address need not be aligned
    let aligned = at.is_multiple_of(line.align) || mutant(457);
    // mutant 458: plan: an address at the start is refused
    // mutant 459: plan: a range may end one past the window
    let (start, end) = window(tables, line);
    let low = at < start || mutant(458) && at == start;
    let high = to > end.saturating_add(u64::from(mutant(459)));
    if !aligned || low || high {
        return Err(5);
    }
    // mutant 460: plan: the node is not looked at
    // mutant 461: plan: of the wish only hotplug is looked at
    // mutant 462: plan: the wish allows hotplug memory always
    // mutant 463: plan: no-map memory stands too
    let (node, wish) = (line.node, line.wish);
    let open = |rec: &Rec| match () {
        _ if mutant(446) && node > 63 => offered(rec, ANY, wish),
        _ if mutant(460) => granted(rec.flags, wish),
        _ if mutant(461) => offered(rec, node, wish & 1),
        _ if mutant(462) => offered(rec, node, wish | 1),
        _ if mutant(463) => {
            let flags = rec.flags & !super::NO_MAP;
            offered(&Rec { flags, ..*rec }, node, wish)
        }
        _ => offered(rec, node, wish),
    };
    let holds = |rec: &&Rec| rec.base <= at && at < rec.end;
    let Some(rec) = tables.memory.iter().find(holds).filter(|rec| open(rec)) else {
        return Err(5);
    };
    // mutant 464: plan: a range may go on in memory of another tag
    // mutant 465: plan: only the first address is asked for memory
    let goes_on = |next: &Rec| next.base == rec.end && to <= next.end && open(next);
    let passes = mutant(464) && tables.memory.iter().any(goes_on) || mutant(465);
    if to > rec.end && !passes {
        return Err(5);
    }
    // mutant 466: plan: only the first address is asked for what is taken
    // mutant 467: plan: what is taken is not looked at
    // mutant 468: plan: a line that touches what is taken is refused
    let taken = |t: &Rec| match () {
        _ if mutant(466) => t.base <= at && at < t.end,
        _ if mutant(467) => false,
        _ if mutant(468) => t.base <= to && at <= t.end,
        _ => t.base < to && at < t.end,
    };
    if tables.taken.iter().any(taken) {
        return Err(5);
    }
    // mutant 469: plan: a line that ends at 2^64 - 1 is refused
    // mutant 470: plan: of a bottom-up block what is below the image end is refused
    // mutant 471: plan: only the address that find gives stands
    let below = tables.direction == 1 && at < tables.image_end;
    if mutant(469) && to == u64::MAX || mutant(470) && below {
        return Err(5);
    }
    let query = Query {
        size: line.size,
        alignment: line.align,
        start: line.start,
        end: line.end,
        node: line.node,
        wish: line.wish,
        takes: false,
    };
    if mutant(471) && search(tables, &query).map(|found| found.0) != Some(at) {
        return Err(5);
    }
    Ok(())
}

/// Whether two lines share an address.
fn share(one: &Line, other: &Line) -> bool {
    let (a, b) = (one.at.max(other.at), one.to().min(other.to()));
    // mutant 472: plan: lines that touch share
    // mutant 473: plan: one address may be shared
    // mutant 474: plan: lines share where they begin alike
    // mutant 475: plan: lines share nothing
    // mutant 476: plan: a line around another shares nothing with it
    match () {
        _ if mutant(472) => a <= b,
        _ if mutant(473) => a < b && b - a > 1,
        _ if mutant(474) => one.at == other.at,
        _ if mutant(475) => false,
        _ if mutant(476) => a < b && (one.at >= other.at || one.to() <= other.to()),
        _ => a < b,
    }
}

/// The first line at fault.
fn at_fault(tables: &Block, lines: &[Line]) -> Option<usize> {
    let fails = |i: &usize| stands(tables, &lines[*i]).is_err();
    let shares = |i: &usize| {
        let i = *i;
        let mut before = lines[..i].iter();
        let mut behind = lines[i + 1..].iter();
        // mutant 477: plan: a line is at fault that shares with a later one
        // mutant 478: plan: only the line just before is asked for sharing
        // mutant 479: plan: only the first line is asked for sharing
        match () {
            _ if mutant(477) => behind.any(|other| share(&lines[i], other)),
            _ if mutant(478) => before.next_back().is_some_and(|o| share(&lines[i], o)),
            _ if mutant(479) => before.next().is_some_and(|o| share(&lines[i], o)),
            _ => before.any(|other| share(&lines[i], other)),
        }
    };
    // mutant 480: plan: lines that fail by themselves come before those that share
    // mutant 481: plan: lines that share come before those that fail by themselves
    // mutant 482: plan: the last line at fault is named
    // mutant 483: plan: the last of 64 lines is not looked at
    let mut all = 0..lines.len() - usize::from(mutant(483) && lines.len() == LINES);
    match () {
        _ if mutant(480) => all.clone().find(fails).or_else(|| all.find(shares)),
        _ if mutant(481) => all.clone().find(shares).or_else(|| all.find(fails)),
        _ if mutant(482) => all.rev().find(|i| fails(i) || shares(i)),
        _ => all.find(|i| fails(i) || shares(i)),
    }
}

/// What is taken with the lines, and whether each step had room.
fn with(taken: &[Rec], lines: &[Line]) -> (Vec<Rec>, bool) {
    let mut list = taken.to_vec();
    let mut fits = true;
    for line in lines {
        list = shortest(&fill(&list, line.at, cut(line.at, line.size), 0, 0));
        fits &= list.len() <= NOW.capacity[1];
    }
    (list, fits)
}

/// The number and the index.
fn plan(b: &mut [u8], lines: &[Line]) -> (u32, usize) {
    // mutant 484: plan: 65 lines are taken
    // mutant 485: plan: 64 lines are refused
    let most = LINES + usize::from(mutant(484)) - usize::from(mutant(485));
    let long = lines.len() > most;
    // mutant 486: plan: 14 comes before 1
    if mutant(486) && long {
        return (14, 0);
    }
    // mutant 487: plan: an empty plan is accepted on any block
    if mutant(487) && lines.is_empty() {
        return (0, 0);
    }
    let Some(tables) = parse(b) else {
        return (1, 0);
    };
    // mutant 488: plan: 13 comes before 14
    if long && !(mutant(488) && at_fault(&tables, lines).is_some()) {
        // mutant 489: plan: 14 names the line that is one too many
        return (14, if mutant(489) { LINES } else { 0 });
    }
    // mutant 490: plan: an empty plan gets 13
    if mutant(490) && lines.is_empty() {
        return (13, 0);
    }
    let fault = at_fault(&tables, lines);
    let (list, fits) = with(&tables.taken, &lines[..fault.unwrap_or(lines.len())]);
    let full = list.len() > NOW.capacity[1];
    // mutant 491: plan: 6 comes before 13
    if mutant(491) && full {
        return (6, 0);
    }
    if let Some(index) = fault {
        return refuse(b, &tables, lines, index);
    }
    // mutant 492: plan: 6 speaks of each step
    // mutant 493: plan: 6 where the table is full before, but for an empty plan
    // mutant 494: plan: each line counts as a record more
    // mutant 495: plan: the taken table is full at 511 records
    let too_many = match () {
        _ if mutant(492) => !fits,
        _ if mutant(493) => full || tables.taken.len() == NOW.capacity[1] && !lines.is_empty(),
        _ if mutant(494) => tables.taken.len() + lines.len() > NOW.capacity[1],
        _ if mutant(495) => list.len() >= NOW.capacity[1],
        _ => full,
    };
    if too_many {
        // mutant 496: plan: 6 leaves the lines reserved that there is room for
        // mutant 497: plan: 6 names the first line that there is no room for
        if mutant(496) {
            for line in lines {
                let all = parse(b).expect("a good block").taken;
                store(b, 1, &fill(&all, line.at, line.to(), 0, 0));
            }
        }
        let first = (0..lines.len()).find(|&i| !with(&tables.taken, &lines[..=i]).1);
        return (6, first.filter(|_| mutant(497)).unwrap_or(0));
    }
    // mutant 498: plan: only the first line is reserved
    // mutant 499: plan: the last line is not reserved
    // mutant 500: plan: the lines replace what was taken
    // mutant 501: plan: the total of what is taken stays
    // mutant 502: plan: an accepted plan clears the image end
    let list = match lines.len() {
        1.. if mutant(498) => with(&tables.taken, &lines[..1]).0,
        n @ 1.. if mutant(499) => with(&tables.taken, &lines[..n - 1]).0,
        1.. if mutant(500) => with(&[], lines).0,
        _ => list,
    };
    put_table(b, 1, &list, mutant(501));
    if mutant(502) {
        put_image_end(b, 0);
    }
    // mutant 503: plan: the index of an accepted plan is the number of its lines
    (0, if mutant(503) { lines.len() } else { 0 })
}

/// 13 for a line at fault.
fn refuse(b: &mut [u8], tables: &Block, lines: &[Line], index: usize) -> (u32, usize) {
    // mutant 504: plan: 13 leaves the lines before it reserved
    if mutant(504) {
        let (list, fits) = with(&tables.taken, &lines[..index]);
        if fits {
            put_table(b, 1, &list, false);
        }
    }
    // mutant 505: plan: the index counts from 1
    // mutant 506: plan: the index counts from the end
    // mutant 507: plan: the index is always 0
    // mutant 508: plan: the earlier of two lines that share is named
    let shares = |other: &Line| share(other, &lines[index]);
    let named = match stands(tables, &lines[index]) {
        _ if mutant(505) => index + 1,
        _ if mutant(506) => lines.len() - 1 - index,
        _ if mutant(507) => 0,
        Ok(()) if mutant(508) => lines.iter().position(shares).unwrap_or(index),
        _ => index,
    };
    // mutant 509: plan: a line that fails by itself gets find's number
    // mutant 510: plan: a line that fails by itself gets 5
    match stands(tables, &lines[index]) {
        Err(number) if mutant(509) => (number, named),
        Err(_) if mutant(510) => (5, named),
        _ => (13, named),
    }
}

/// The slices of a plan as they are lent.
struct Lent {
    sizes: (*const u64, usize),
    aligns: (*const u64, usize),
    starts: (*const u64, usize),
    ends: (*const u64, usize),
    nodes: (*const u32, usize),
    wishes: (*const u32, usize),
    ats: (*const u64, usize),
}

impl Lent {
    /// As many lines as the shortest slice has.
    unsafe fn lines(&self, most: usize) -> Vec<Line> {
        let lengths = [
            self.sizes.1,
            self.aligns.1,
            self.starts.1,
            self.ends.1,
            self.nodes.1,
            self.wishes.1,
            self.ats.1,
        ];
        let shortest = lengths.into_iter().min().unwrap_or(0);
        // mutant 511: plan: as many lines as there are sizes, with zeros
        // mutant 512: plan: as many lines as the longest slice has, with zeros
        // mutant 513: plan: slices of unequal length are an empty plan
        let count = match lengths.into_iter().max() {
            _ if mutant(511) => self.sizes.1,
            Some(longest) if mutant(512) => longest,
            Some(longest) if mutant(513) && longest > shortest => 0,
            _ => shortest,
        };
        unsafe fn long(slice: (*const u64, usize), i: usize) -> u64 {
            if i < slice.1 {
                slice.0.add(i).read()
            } else {
                0
            }
        }
        unsafe fn word(slice: (*const u32, usize), i: usize) -> u32 {
            if i < slice.1 {
                slice.0.add(i).read()
            } else {
                0
            }
        }
        let line = |i: usize| Line {
            size: long(self.sizes, i),
            align: long(self.aligns, i),
            start: long(self.starts, i),
            end: long(self.ends, i),
            node: word(self.nodes, i),
            wish: word(self.wishes, i),
            at: long(self.ats, i),
        };
        (0..count.min(most)).map(line).collect()
    }
}

fn told((number, index): (u32, usize)) -> u64 {
    u64::from(number) | (index as u64) << 32
}

/// # Safety
/// Each pointer and the length behind it name one lent buffer; the block shares no byte with
/// another.
#[no_mangle]
#[allow(clippy::too_many_arguments)]
pub unsafe extern "C" fn memblock_plan_numbers(
    block: *mut u8,
    len: usize,
    sizes: *const u64,
    sizes_len: usize,
    aligns: *const u64,
    aligns_len: usize,
    starts: *const u64,
    starts_len: usize,
    ends: *const u64,
    ends_len: usize,
    nodes: *const u32,
    nodes_len: usize,
    wishes: *const u32,
    wishes_len: usize,
    ats: *const u64,
    ats_len: usize,
) -> u64 {
    let lent = Lent {
        sizes: (sizes, sizes_len),
        aligns: (aligns, aligns_len),
        starts: (starts, starts_len),
        ends: (ends, ends_len),
        nodes: (nodes, nodes_len),
        wishes: (wishes, wishes_len),
        ats: (ats, ats_len),
    };
    let mut lines = lent.lines(usize::MAX);
    // mutant 514: plan: by numbers: what the plan before had counts as the first line
    static LAST: Mutex<Option<Line>> = Mutex::new(None);
    let mut last = LAST.lock().expect("never poisoned");
    let first = lines.first().copied();
    if let (true, Some(line)) = (mutant(514), last.take()) {
        if let Some(first) = lines.first_mut() {
            *first = line;
        }
    }
    *last = first;
    let answer = told(plan(lent_mut(block, len), &lines));
    // mutant 515: plan: by numbers: the first size is written
    // mutant 516: plan: by numbers: the address behind the last is written
    if mutant(515) && sizes_len > 0 {
        sizes.cast_mut().write(0);
    }
    if mutant(516) {
        ats.add(ats_len).cast_mut().write(0);
    }
    // mutant 517: plan: by numbers: the number is above the index
    match mutant(517) {
        true => answer.rotate_left(32),
        false => answer,
    }
}

/// # Safety
/// As above.
#[no_mangle]
#[allow(clippy::too_many_arguments)]
pub unsafe extern "C" fn memblock_plan_lines(
    block: *mut u8,
    len: usize,
    sizes: *const u64,
    sizes_len: usize,
    aligns: *const u64,
    aligns_len: usize,
    starts: *const u64,
    starts_len: usize,
    ends: *const u64,
    ends_len: usize,
    nodes: *const u32,
    nodes_len: usize,
    wishes: *const u32,
    wishes_len: usize,
    ats: *const u64,
    ats_len: usize,
) -> u64 {
    let lent = Lent {
        sizes: (sizes, sizes_len),
        aligns: (aligns, aligns_len),
        starts: (starts, starts_len),
        ends: (ends, ends_len),
        nodes: (nodes, nodes_len),
        wishes: (wishes, wishes_len),
        ats: (ats, ats_len),
    };
    // mutant 518: plan: by lines: 64 lines at most are taken over, and the others lost
    let mut lines = lent.lines(if mutant(518) { LINES } else { LINES + 1 });
    for line in &mut lines {
        // mutant 519: plan: by lines: size and alignment change places
        // mutant 520: plan: by lines: start and end change places
        // mutant 521: plan: by lines: node and wish change places
        // mutant 522: plan: by lines: the address is the start
        let Line {
            size,
            align,
            start,
            end,
            node,
            wish,
            at,
        } = line;
        match () {
            _ if mutant(519) => std::mem::swap(size, align),
            _ if mutant(520) => std::mem::swap(start, end),
            _ if mutant(521) => std::mem::swap(node, wish),
            _ if mutant(522) => *at = *start,
            _ => {}
        }
    }
    // mutant 523: plan: by lines: the block is judged by its head alone
    let b = lent_mut(block, len);
    if mutant(523) && len == NOW.len && b[..4] == [2, 0, 0, 0] && parse(b).is_none() {
        return 0;
    }
    told(plan(b, &lines))
}

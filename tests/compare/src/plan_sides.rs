//! On which side of the rules of request E12 the plans were, so that a whole run can say that
//! each was met.

use crate::call::Command;
use crate::pages::{count_in, sides_met};
use crate::plans::{Columns, COLUMNS};
use model::layout::*;
use model::plan::Line;
use model::{Board, Direction, Run, Tag, Wish};

/// What can hold of an accepted plan.
const OF_ACCEPTED: [&str; 48] = [
    "an empty plan",
    "one line",
    "several lines",
    "64 lines",
    "a full table before, and after",
    "more records on the way than there is room for, a full table after",
    "more records on the way than there is room for, room after",
    "a full table after, never more on the way",
    "fewer records after than before",
    "two lines that touch, the lower one first",
    "two lines that touch, the upper one first",
    "two lines that touch, in two runs",
    "a line that touches what is taken below",
    "a line that touches what is taken above",
    "a line between two taken records, touching both",
    "two lines that fill what is between two taken records",
    "a line that is a whole run",
    "two lines in one run",
    "lines that rise",
    "lines that fall",
    "lines that neither rise nor fall",
    "a line at 4096",
    "a line in a run that begins below 4096",
    "a line that ends at the limit, no end named",
    "a line that ends at the limit, a named end above it",
    "a line that ends at its named end, below the limit",
    "a line at its start",
    "a line that ends at 2^64 - 1",
    "a bottom-up block, a line below the image end",
    "a bottom-up block, a line above the image end",
    "a bottom-up block, a line around the image end",
    "a bottom-up block without an image",
    "a top-down block",
    "an alignment of 2 or more",
    "an alignment above the size",
    "a named node",
    "any node",
    "wish 0",
    "wish 1",
    "wish 2",
    "wish 3",
    "a line of hotplug memory",
    "a line of mirror memory",
    "a line of memory of a node above 0",
    "a line of one address",
    "a line of more than 2^32 addresses",
    "all columns of one length",
    "columns of more than 64 numbers beside one that has no more lines",
];

/// What can be wrong with a line by itself; the rest of it is right.
const OF_LINES: [&str; 20] = [
    "a node above 63 that is not any",
    "a wish above 3",
    "an alignment that is no power of two",
    "a size of 0",
    "an address that is no multiple of the alignment",
    "an address below the start",
    "an address below 4096",
    "a range over the named end",
    "a range over the limit, no end named",
    "a range over the limit, a named end that is not passed",
    "no memory at the first address",
    "the first address taken",
    "no-map memory at the first address",
    "no memory behind the first address",
    "what is taken behind the first address",
    "memory of another tag behind the first address",
    "memory of another node",
    "hotplug memory that is not wished for",
    "memory without mirror that is wished for",
    "a range past 2^64 - 1",
];

/// What can hold of a line that shares with an earlier one.
const OF_SHARING: [&str; 10] = [
    "the same range",
    "its first address alone",
    "its last address alone",
    "a range inside the other",
    "a range around the other",
    "with the line just before",
    "with one further up alone",
    "with the first line alone",
    "with several",
    "of a range that is one address",
];

/// What can hold of a plan with a line at fault.
const OF_FAULTS: [&str; 13] = [
    "index 0",
    "index 1",
    "index 63",
    "the last of several lines",
    "a line between others",
    "fails by itself, a later line too",
    "fails by itself, a later line shares with an earlier one",
    "shares, a later line fails by itself",
    "shares, a later line shares too",
    "with the lines before it alone more records than there is room for",
    "a full table",
    "fails by itself, find has another address for what it asks",
    "of a plan with columns of unequal length",
];

/// What can hold of the other refusals.
const OF_OTHERS: [&str; 13] = [
    "1 for an empty plan",
    "1 for a plan of up to 64 lines",
    "1 for a longer plan",
    "14 for 65 lines",
    "14 for more",
    "14, all lines right",
    "14, a line at fault",
    "14, a full table",
    "6 for one record too many",
    "6 for several too many",
    "6 for one line",
    "6 with lines that join records",
    "6 where the first line that needs room is not the last",
];

/// Plans, by function.
#[derive(Default)]
pub struct Plans {
    accepted: [Counts<{ OF_ACCEPTED.len() }>; 2],
    shortest: [Counts<{ COLUMNS.len() }>; 2],
    lines: [Counts<{ OF_LINES.len() }>; 2],
    sharing: [Counts<{ OF_SHARING.len() }>; 2],
    faults: [Counts<{ OF_FAULTS.len() }>; 2],
    others: [Counts<{ OF_OTHERS.len() }>; 2],
}

/// How often each of so many things held.
struct Counts<const N: usize>([u64; N]);

impl<const N: usize> Default for Counts<N> {
    fn default() -> Self {
        Counts([0; N])
    }
}

impl Plans {
    /// A plan on a block as it was `before`, with what it answered.
    pub fn note(
        &mut self,
        command: Command,
        columns: &Columns,
        before: &[u8],
        number: u32,
        index: u32,
    ) {
        let whose = usize::from(command == Command::PlanLines);
        let lines = columns.lines();
        let lengths = columns.lengths();
        let longest = lengths.into_iter().max().unwrap_or(0);
        let Some(board) = Board::read(before) else {
            let mut holds = [false; OF_OTHERS.len()];
            holds[0] = lines.is_empty();
            holds[1] = !lines.is_empty() && lines.len() <= PLAN_LINES;
            holds[2] = lines.len() > PLAN_LINES;
            count_in(&mut self.others[whose].0, holds);
            return;
        };
        let plan = Plan {
            runs: board.free_runs(),
            board,
            lines,
        };
        let unequal = longest > plan.lines.len();
        match number {
            number::DONE => {
                let mut holds = plan.accepted();
                holds[46] = !unequal;
                holds[47] = longest > PLAN_LINES;
                count_in(&mut self.accepted[whose].0, holds);
                // One column alone ends the plan.
                let alone = |i: usize| {
                    let others = |j: &usize| *j != i;
                    let mut others = (0..COLUMNS.len()).filter(others);
                    !plan.lines.is_empty() && others.all(|j| lengths[j] > lengths[i])
                };
                count_in(&mut self.shortest[whose].0, std::array::from_fn(alone));
            }
            number::BAD_PLAN => {
                let index = index as usize;
                let wrong = plan.wrong(index);
                let alone = wrong.iter().filter(|wrong| **wrong).count() == 1;
                if wrong.contains(&true) {
                    count_in(&mut self.lines[whose].0, wrong.map(|wrong| wrong && alone));
                } else {
                    count_in(&mut self.sharing[whose].0, plan.sharing(index));
                }
                let mut holds = plan.at_fault(index);
                holds[12] = unequal;
                count_in(&mut self.faults[whose].0, holds);
            }
            _ => count_in(&mut self.others[whose].0, plan.others(number)),
        }
    }

    /// How often the sides were met, or which were not.
    pub fn told(&self) -> Result<String, String> {
        let mut met: Vec<(String, u64)> = Vec::new();
        for (whose, by) in ["by numbers", "by lines"].into_iter().enumerate() {
            let mut push = |what: &str, names: &[&str], counts: &[u64]| {
                let names = names.iter().map(|name| format!("{by}, {what}: {name}"));
                met.extend(names.zip(counts.iter().copied()));
            };
            push("accepted", &OF_ACCEPTED, &self.accepted[whose].0);
            push(
                "accepted, one column alone the shortest",
                &COLUMNS.map(|column| column.0),
                &self.shortest[whose].0,
            );
            push("13 for a line alone", &OF_LINES, &self.lines[whose].0);
            push(
                "13 for a line that shares",
                &OF_SHARING,
                &self.sharing[whose].0,
            );
            push("13", &OF_FAULTS, &self.faults[whose].0);
            push("refused", &OF_OTHERS, &self.others[whose].0);
        }
        sides_met(&met, "plans")
    }
}

/// A plan on a good block.
struct Plan {
    board: Board,
    runs: Vec<Run>,
    lines: Vec<Line>,
}

impl Plan {
    /// The records of what is taken.
    fn records(&self, lines: &[Line]) -> usize {
        let mut taken = self.board.taken.clone();
        for line in lines {
            let (lo, hi) = line.range();
            taken.paint(lo, hi.min(TOP), |_| true);
        }
        taken.stretches().filter(|stretch| stretch.2).count()
    }

    fn taken(&self, x: u128) -> bool {
        self.board.taken.at(x)
    }

    fn run(&self, line: &Line) -> Option<&Run> {
        let (lo, _) = line.range();
        self.runs.iter().find(|run| run.lo <= lo && lo < run.hi)
    }

    /// The end that is named, or the limit.
    fn end(&self, line: &Line) -> u64 {
        match line.end {
            0 => self.board.limit,
            named => named,
        }
    }

    /// Which of `OF_LINES` hold.
    fn wrong(&self, index: usize) -> [bool; OF_LINES.len()] {
        let line = &self.lines[index];
        let (lo, hi) = line.range();
        let power = line.align.is_power_of_two();
        let limit = u128::from(self.board.limit);
        let named = u128::from(line.end);
        let some = line.size > 0;
        let over_named = some && line.end != 0 && hi > named;
        let over_limit = some && hi > limit;
        let first = self.board.memory.at(lo);
        let run = self.run(line).filter(|_| some);
        let behind = run.filter(|run| run.hi < hi).map(|run| run.hi);
        let tag = first.filter(|_| some);
        let wish = Wish::named(line.wish);
        let grants = |tag: Tag| wish.is_none_or(|wish| wish.grants(tag));
        let node = |tag: Tag| tag.node != line.node && line.node < NODES;
        let next = behind.map(|x| (self.board.memory.at(x), self.taken(x)));
        let past = some && hi > TOP;
        [
            line.node >= NODES && line.node != ANY_NODE,
            wish.is_none(),
            !power,
            !some,
            power && !line.at.is_multiple_of(line.align),
            line.at < line.start,
            lo < LOWEST_START,
            over_named,
            over_limit && line.end == 0 && !past,
            over_limit && line.end != 0 && !over_named,
            some && first.is_none() && !self.taken(lo) && !past,
            some && self.taken(lo),
            tag.is_some_and(|tag| tag.no_map) && !self.taken(lo),
            next.is_some_and(|next| next.0.is_none() && !next.1) && !past,
            next.is_some_and(|next| next.1),
            next.is_some_and(|next| next.0.is_some() && !next.1),
            tag.is_some_and(node),
            tag.is_some_and(|tag| !grants(tag) && tag.hotplug && line.wish & 1 == 0),
            tag.is_some_and(|tag| !grants(tag) && !tag.mirror && line.wish & 2 == 2),
            past,
        ]
    }

    /// Whether a line fails by itself.
    fn fails(&self, index: usize) -> bool {
        self.wrong(index).contains(&true)
    }

    /// The earlier lines that a line shares addresses with.
    fn shared(&self, index: usize) -> Vec<usize> {
        let (lo, hi) = self.lines[index].range();
        let shares = |i: &usize| {
            let other = self.lines[*i].range();
            lo.max(other.0) < hi.min(other.1)
        };
        (0..index).filter(shares).collect()
    }

    /// Which of `OF_SHARING` hold.
    fn sharing(&self, index: usize) -> [bool; OF_SHARING.len()] {
        let (lo, hi) = self.lines[index].range();
        let with = self.shared(index);
        let ranges: Vec<(u128, u128)> = with.iter().map(|&i| self.lines[i].range()).collect();
        let alone = with.len() == 1;
        let any = |of: &dyn Fn((u128, u128)) -> bool| ranges.iter().any(|&range| of(range));
        [
            any(&|other| other == (lo, hi)),
            alone && any(&|other| other.1 == lo + 1 && hi > other.1),
            alone && any(&|other| other.0 + 1 == hi && lo < other.0),
            any(&|other| other.0 < lo && hi < other.1),
            any(&|other| lo < other.0 && other.1 < hi),
            with.last() == Some(&(index - 1)),
            alone && index > 1 && with[0] + 1 < index,
            alone && index > 1 && with[0] == 0,
            with.len() > 1,
            hi - lo == 1,
        ]
    }

    /// Which of `OF_FAULTS` hold but for the last.
    fn at_fault(&self, index: usize) -> [bool; OF_FAULTS.len()] {
        let count = self.lines.len();
        let fails = self.fails(index);
        let later_fails = (index + 1..count).any(|i| self.fails(i));
        let later_shares = (index + 1..count).any(|i| {
            let stands = |i: &usize| !self.fails(*i);
            stands(&i) && self.shared(i).iter().any(stands)
        });
        let before = self.records(&[]);
        let near_full = before + index > TAKEN.capacity;
        let query = self.lines[index].query();
        let block = || self.board.write().expect("it was read");
        let found = || model::find(&block(), &query, &mut [0; SLIP_LEN]);
        [
            index == 0,
            index == 1,
            index == PLAN_LINES - 1,
            count > 1 && index == count - 1,
            index > 0 && index < count - 1,
            fails && later_fails,
            fails && later_shares,
            !fails && later_fails,
            !fails && later_shares,
            near_full && self.records(&self.lines[..index]) > TAKEN.capacity,
            before == TAKEN.capacity,
            fails && found() == number::DONE,
            false,
        ]
    }

    /// Which of `OF_OTHERS` hold of a good block.
    fn others(&self, number: u32) -> [bool; OF_OTHERS.len()] {
        let count = self.lines.len();
        let long = number == number::LONG_PLAN;
        let full = number == number::TABLE_FULL;
        let wrong = |i: usize| self.fails(i) || !self.shared(i).is_empty();
        let at_fault = long && (0..count).any(wrong);
        let before = self.records(&[]);
        let after = if full { self.records(&self.lines) } else { 0 };
        let joins = |line: &Line| {
            let (lo, hi) = line.range();
            lo > 0 && self.taken(lo - 1) && self.taken(hi)
        };
        let fits = |i: &usize| self.records(&self.lines[..=*i]) > TAKEN.capacity;
        [
            false,
            false,
            false,
            long && count == PLAN_LINES + 1,
            long && count > PLAN_LINES + 1,
            long && !at_fault,
            at_fault,
            long && before == TAKEN.capacity,
            full && after == TAKEN.capacity + 1,
            full && after > TAKEN.capacity + 1,
            full && count == 1,
            full && self.lines.iter().any(joins),
            full && (0..count - 1).any(|i| fits(&i)),
        ]
    }

    /// Which of `OF_ACCEPTED` hold but for the last two.
    fn accepted(&self) -> [bool; OF_ACCEPTED.len()] {
        let (board, lines) = (&self.board, &self.lines);
        let count = lines.len();
        let before = self.records(&[]);
        let after = self.records(lines);
        let most = match before + count > TAKEN.capacity {
            true => (0..count).map(|i| self.records(&lines[..=i])).max(),
            false => None,
        };
        let most = most.unwrap_or(after);
        let over = most > TAKEN.capacity;
        let full = after == TAKEN.capacity;
        let any = |of: &dyn Fn(&Line) -> bool| lines.iter().any(of);
        let pair = |of: &dyn Fn(usize, usize) -> bool| {
            (0..count).any(|i| (0..count).any(|j| i != j && of(i, j)))
        };
        let ends = |line: &Line| line.range().1;
        let begins = |line: &Line| line.range().0;
        // The second touches the first from above.
        let touch = |i: usize, j: usize| ends(&lines[i]) == begins(&lines[j]);
        let run = |line: &Line| *self.run(line).expect("eligible");
        let below = |line: &Line| self.taken(begins(line) - 1);
        let above = |line: &Line| self.taken(ends(line));
        let limit = u128::from(board.limit);
        let image = u128::from(board.image_end);
        let up = board.direction == Direction::BottomUp;
        let up_image = up && board.image_end != NO_IMAGE;
        let order = |of: &dyn Fn(&[Line]) -> bool| lines.windows(2).all(of);
        let (rise, fall) = (
            order(&|two| two[0].at < two[1].at),
            order(&|two| two[0].at > two[1].at),
        );
        let wish = |wish: u32| any(&|line| line.wish == wish);
        [
            count == 0,
            count == 1,
            count > 1,
            count == PLAN_LINES,
            count > 0 && before == TAKEN.capacity && full,
            over && full,
            over && !full,
            full && !over && count > 0 && before < after,
            after < before,
            pair(&|i, j| i < j && touch(i, j)),
            pair(&|i, j| i > j && touch(i, j)),
            pair(&|i, j| touch(i, j) && run(&lines[i]) != run(&lines[j])),
            any(&|line| below(line) && !above(line)),
            any(&|line| above(line) && !below(line)),
            any(&|line| below(line) && above(line)),
            pair(&|i, j| touch(i, j) && below(&lines[i]) && above(&lines[j])),
            any(&|line| (begins(line), ends(line)) == (run(line).lo, run(line).hi)),
            pair(&|i, j| run(&lines[i]) == run(&lines[j])),
            count > 2 && rise,
            count > 2 && fall,
            count > 2 && !rise && !fall,
            any(&|line| begins(line) == LOWEST_START),
            any(&|line| run(line).lo < LOWEST_START),
            any(&|line| line.end == 0 && ends(line) == limit),
            any(&|line| u128::from(line.end) > limit && ends(line) == limit),
            any(&|line| ends(line) == line.end.into() && self.end(line) < board.limit),
            any(&|line| line.at == line.start),
            any(&|line| ends(line) == TOP),
            up_image && any(&|line| ends(line) <= image),
            up_image && any(&|line| begins(line) >= image),
            up_image && any(&|line| begins(line) < image && image < ends(line)),
            up && !up_image && count > 0,
            !up && count > 0,
            any(&|line| line.align > 1),
            any(&|line| line.align > line.size),
            any(&|line| line.node != ANY_NODE),
            any(&|line| line.node == ANY_NODE),
            wish(0),
            wish(1),
            wish(2),
            wish(3),
            any(&|line| run(line).tag.hotplug),
            any(&|line| run(line).tag.mirror),
            any(&|line| run(line).tag.node > 0),
            any(&|line| line.size == 1),
            any(&|line| line.size > 1 << 32),
            false,
            false,
        ]
    }
}

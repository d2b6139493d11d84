//! How one call grows with the fill of the tables: the calls, and their time.

use crate::library::Library;
use crate::sides::{call_both, Block, Call, Side, ANY_NODE, NO_MAP, NO_WISH};
use crate::sides::{BOTTOM_UP, LENGTH, TOP_DOWN};
use crate::time::{clock, middle, nanoseconds};
use std::hint::black_box;
use std::time::Instant;

const FILLS: [u64; 6] = [1, 16, 32, 64, 96, 127];
const PAGE: u64 = 4096;
/// From one memory record to the next.
const STEP: u64 = 0x10_0000;
/// Pages of a memory record; all but its first and last page are taken.
const PAGES: u64 = 32;

fn base(record: u64) -> u64 {
    (record + 1) * STEP
}

/// Both tables with `fill` records. Free are runs of one page, and one of nine
/// pages: the last run of all, or with `TOP_DOWN` the first.
fn filled<Other: Side>(fill: u64, direction: u32) -> Block {
    let mut block = Block::fresh();
    let wide = if direction == TOP_DOWN { 0 } else { fill - 1 };
    for record in 0..fill {
        let mut low = base(record);
        let mut high = low + PAGES * PAGE;
        let taken = (low + PAGE, (PAGES - 2) * PAGE);
        if record == wide && direction == TOP_DOWN {
            low -= 8 * PAGE;
        } else if record == wide {
            high += 8 * PAGE;
        }
        for call in [
            Call::Add(low, high - low, 0, 0),
            Call::Reserve(taken.0, taken.1),
        ] {
            assert_eq!(call_both::<Other>(call, &mut block), 0);
        }
    }
    assert_eq!(
        call_both::<Other>(Call::Set(u64::MAX, direction), &mut block),
        0
    );
    block
}

/// A call that is measured, and the block that it is made on.
pub struct Row {
    pub name: &'static str,
    direction: u32,
    /// Made on the block first.
    before: Option<Call<'static>>,
    pub call: Call<'static>,
}

impl Row {
    /// The block before the call, which is known to answer 0 on both sides.
    pub fn block<Other: Side>(&self, fill: u64) -> Block {
        let mut block = filled::<Other>(fill, self.direction);
        if let Some(call) = self.before {
            assert_eq!(call_both::<Other>(call, &mut block), 0);
        }
        assert_eq!(call_both::<Other>(self.call, &mut block.clone()), 0);
        block
    }
}

pub fn rows(fill: u64) -> Vec<Row> {
    let middle = base(fill / 2);
    let apart = middle - STEP / 2;
    let top = base(fill);
    let reserve = |base| Call::Reserve(base, PAGE);
    let find = Call::Find(2 * PAGE, PAGE, 0, 0, ANY_NODE, NO_WISH);
    let allocate = Call::Allocate(2 * PAGE, PAGE, 0, 0, ANY_NODE, NO_WISH);
    let next_free = Call::NextFree(base(fill - 1) + 2 * PAGE, ANY_NODE, NO_WISH);
    let marked = Call::Mark(middle, STEP / 2, NO_MAP);
    let down = |name, call| Row {
        name,
        direction: TOP_DOWN,
        before: None,
        call,
    };
    let up = |name, call| Row {
        direction: BOTTOM_UP,
        ..down(name, call)
    };
    vec![
        down("fresh", Call::Fresh),
        down("set", Call::Set(1 << 40, BOTTOM_UP)),
        down("add", Call::Add(apart, PAGE, 0, 0)),
        down("remove", Call::Remove(middle + 8 * PAGE, PAGE)),
        down("mark", Call::Mark(middle, PAGE, NO_MAP)),
        Row {
            before: Some(marked),
            ..down("unmark", Call::Unmark(middle, PAGE, NO_MAP))
        },
        down("trim", Call::Trim(PAGE)),
        down("reserve, first", reserve(base(0) - STEP / 2)),
        down("reserve, middle", reserve(apart)),
        down("reserve, last", reserve(top - STEP / 2)),
        down("free", Call::Free(middle + 8 * PAGE, PAGE)),
        down("free, whole", Call::Free(middle + PAGE, (PAGES - 2) * PAGE)),
        down("remove, upper half", Call::Remove(middle, top - middle)),
        down("remove, all", Call::Remove(0, top)),
        down("mark, all", Call::Mark(0, top, NO_MAP)),
        down("reserve, all", Call::Reserve(0, top)),
        down("next free", next_free),
        down("find, top-down", find),
        up("find, bottom-up", find),
        down("allocate, top-down", allocate),
        up("allocate, bottom-up", allocate),
    ]
}

/// Prints a table of what `measure` gives for the library and the other side.
pub fn print<Other: Side>(what: &str, measure: impl Fn(&Row, &Block) -> (f64, f64)) {
    println!(
        "bench: one call at a fill of both tables, {what}, library/{} and ratio",
        Other::NAME
    );
    print!("{:20}", "");
    for fill in FILLS {
        print!(" {:>18}", format!("fill {fill}"));
    }
    println!();
    for row in 0..rows(1).len() {
        print!("{:20}", rows(1)[row].name);
        for fill in FILLS {
            let row = &rows(fill)[row];
            let (library, other) = measure(row, &row.block::<Other>(fill));
            print!(
                " {:>18}",
                format!("{library:.0}/{other:.0} {:.2}", library / other)
            );
        }
        println!();
    }
}

fn time<S: Side>(call: Call, saved: &Block, block: &mut Block) -> f64 {
    block.0.copy_from_slice(&saved.0);
    let mut slip = [0; 16];
    let start = Instant::now();
    let number = S::call(black_box(call), black_box(block), &mut slip);
    let time = nanoseconds(start);
    assert_eq!(black_box(number), 0, "{call:?} refused");
    time
}

/// Prints the time of one call, by `turns` calls of each side.
pub fn table<Other: Side>(turns: usize) {
    let clock = clock();
    print::<Other>("ns", |row, saved| {
        let mut block = Block([0; LENGTH]);
        let (mut library, mut other) = (Vec::new(), Vec::new());
        for turn in 0..turns + turns / 10 {
            let times = (
                time::<Library>(row.call, saved, &mut block),
                time::<Other>(row.call, saved, &mut block),
            );
            if turn >= turns / 10 {
                library.push(times.0 - clock);
                other.push(times.1 - clock);
            }
        }
        (middle(&library), middle(&other))
    });
}

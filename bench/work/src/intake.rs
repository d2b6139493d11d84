//! The work of request E11: an E820 report of 128 shuffled entries, then 400
//! allocations of a page. Beside it the same ranges by calls: added one by one,
//! then a trim by 4096.

use crate::library::Library;
use crate::rng::Rng;
use crate::sides::{entry, Block, Call, Side, Slip, ANY_NODE, LENGTH, NO_WISH, TOP_DOWN};
use crate::time::{median, nanoseconds};
use std::hint::black_box;
use std::time::Instant;

const RANGES: u64 = 128;
const ALLOCATIONS: usize = 400;
const PAGE: u64 = 4096;
const USABLE: u32 = 1;
const WARM_UP: usize = 20;

/// Whole pages of a range; it is told if allocations come to the range last.
pub type Pages = fn(&mut Rng, bool) -> u64;

/// Ranges with ragged ends, none touching, shuffled.
fn ranges(seed: u64, pages: Pages, direction: u32) -> Vec<(u64, u64)> {
    let mut rng = Rng(seed);
    let last = if direction == TOP_DOWN { 0 } else { RANGES - 1 };
    let mut list = Vec::new();
    let mut page = 16;
    for i in 0..RANGES {
        let whole = pages(&mut rng, i == last);
        let (before, after) = (rng.between(0, PAGE - 1), rng.between(0, PAGE - 1));
        list.push((page * PAGE - before, before + whole * PAGE + after));
        page += whole + rng.between(3, 40);
    }
    rng.shuffle(&mut list);
    list
}

fn report(ranges: &[(u64, u64)]) -> Vec<u8> {
    let entries = ranges.iter().map(|&(base, size)| entry(base, size, USABLE));
    entries.flatten().collect()
}

/// A block with the report taken in.
fn intake(report: &[u8], direction: u32) -> [Call<'_>; 3] {
    let set = Call::Set(u64::MAX, direction);
    [Call::Fresh, set, Call::Intake(report)]
}

/// The same by calls of add and trim.
fn intake_by_calls(ranges: &[(u64, u64)], direction: u32) -> Vec<Call<'static>> {
    let mut calls = vec![Call::Fresh, Call::Set(u64::MAX, direction)];
    let adds = ranges
        .iter()
        .map(|&(base, size)| Call::Add(base, size, 0, 0));
    calls.extend(adds);
    calls.push(Call::Trim(PAGE));
    calls
}

/// What calls left, and their time in nanoseconds.
struct Run {
    block: Box<Block>,
    answers: Vec<(u32, Slip)>,
    time: f64,
}

fn run<S: Side>(calls: &[Call], mut block: Box<Block>) -> Run {
    let mut answers = vec![(u32::MAX, [0; 16]); calls.len()];
    let start = Instant::now();
    for (&call, (number, slip)) in calls.iter().zip(&mut answers) {
        *number = S::call(black_box(call), &mut block, slip);
    }
    let time = nanoseconds(start);
    assert!(answers.iter().all(|a| a.0 == 0), "a call refused");
    Run {
        block,
        answers,
        time,
    }
}

/// The parts that are timed.
const INTAKE: usize = 0;
const ALLOCATIONS_ONLY: usize = 1;
const WHOLE: usize = 2;
const BY_CALLS: usize = 3;

/// Times of many runs of both sides, by part.
#[derive(Default)]
pub struct Times {
    library: [Vec<f64>; 4],
    other: [Vec<f64>; 4],
}

/// Medians of a part over the runs of all seeds, in milliseconds.
fn medians(seeds: &[Times], part: usize) -> (f64, f64) {
    let library = median(seeds.iter().flat_map(|times| &times.library[part]));
    let other = median(seeds.iter().flat_map(|times| &times.other[part]));
    (library / 1e6, other / 1e6)
}

/// Prints the medians for the whole work with the ratio of each seed, then for
/// its two parts, then for the intake by calls.
pub fn print<Other: Side>(name: &str, seeds: &[Times]) {
    for (part, what) in [
        (WHOLE, ""),
        (INTAKE, ", intake only"),
        (ALLOCATIONS_ONLY, ", allocations only"),
        (BY_CALLS, ", intake by add and trim only"),
    ] {
        let (library, other) = medians(seeds, part);
        print!(
            "bench: {name}{what}: library {library:.3} ms, {} {other:.3} ms, ratio {:.2}",
            Other::NAME,
            library / other
        );
        if part == WHOLE {
            let ratios: Vec<String> = seeds
                .iter()
                .map(|times| median(&times.library[WHOLE]) / median(&times.other[WHOLE]))
                .map(|ratio| format!("{ratio:.2}"))
                .collect();
            print!(" (by seed {})", ratios.join(" "));
        }
        if part == BY_CALLS {
            let one = medians(seeds, INTAKE);
            print!(
                "; the intake call takes {:.2} and {:.2} of that",
                one.0 / library,
                one.1 / other
            );
        }
        println!();
    }
}

/// One side's runs of the work and of the intake by calls.
fn one_turn<S: Side>(work: [&[Call]; 2], by_calls: &[Call]) -> [Run; 3] {
    let new = || Box::new(Block([0xa5; LENGTH]));
    let intake = run::<S>(work[0], new());
    let allocations = run::<S>(work[1], intake.block.clone());
    let by_calls = run::<S>(by_calls, new());
    assert!(by_calls.block == intake.block, "an intake is not its calls");
    [intake, allocations, by_calls]
}

/// What `count` gives for one side's intake and for its allocations.
pub fn counted(
    seed: u64,
    pages: Pages,
    direction: u32,
    count: impl Fn(&[Call], &mut Block) -> f64,
) -> [f64; 2] {
    let report = report(&ranges(seed, pages, direction));
    let mut block = Block([0xa5; LENGTH]);
    [
        count(&intake(&report, direction), &mut block),
        count(&allocations(), &mut block),
    ]
}

fn allocations() -> [Call<'static>; ALLOCATIONS] {
    [Call::Allocate(PAGE, PAGE, 0, 0, ANY_NODE, NO_WISH); ALLOCATIONS]
}

/// Runs both sides in turn and compares what each pair of runs leaves.
pub fn measure<Other: Side>(seed: u64, pages: Pages, direction: u32, runs: usize) -> Times {
    let ranges = ranges(seed, pages, direction);
    let report = report(&ranges);
    let intake = intake(&report, direction);
    let allocations = allocations();
    let by_calls = intake_by_calls(&ranges, direction);
    let mut times = Times::default();
    for turn in 0..WARM_UP + runs {
        let library = one_turn::<Library>([&intake, &allocations], &by_calls);
        let other = one_turn::<Other>([&intake, &allocations], &by_calls);
        for (one, two) in library.iter().zip(&other) {
            assert!(one.answers == two.answers, "answers differ");
            assert!(one.block == two.block, "blocks differ");
        }
        if turn >= WARM_UP {
            for (lists, runs) in [(&mut times.library, library), (&mut times.other, other)] {
                let [intake, allocations, by_calls] = runs.map(|run| run.time);
                lists[INTAKE].push(intake);
                lists[ALLOCATIONS_ONLY].push(allocations);
                lists[WHOLE].push(intake + allocations);
                lists[BY_CALLS].push(by_calls);
            }
        }
    }
    times
}

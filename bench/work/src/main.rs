//! Times the library beside a straightforward program with the same rules or,
//! with `since`, beside an earlier library, or counts its instructions. Fails on a
//! difference between the two, never on a figure.

/// The library of another archive: the text of library.rs under other names. Of a function
/// that it lacks only the arguments stand there.
#[allow(unused_variables, unused_unsafe)]
mod before {
    include!(concat!(env!("OUT_DIR"), "/before.rs"));
}
/// The same, as its functions were before request E6: without flag and wish.
#[allow(clashing_extern_declarations, unused_variables, unused_unsafe)]
mod before_e6 {
    include!(concat!(env!("OUT_DIR"), "/before_e6.rs"));
}
mod count;
mod equal;
mod growth;
mod intake;
mod library;
mod pages;
mod rng;
mod sides;
mod time;
mod tree;

use before::Library as Before;
use before_e6::Library as BeforeE6;
use intake::Pages;
use sides::{Block, Call, Side, Straight, ANY_NODE, BOTTOM_UP, NO_WISH, TOP_DOWN};

const SEEDS: [u64; 5] = [1, 2, 3, 4, 5];
const RUNS: usize = 100;
const RANDOM_CALLS: u64 = 200_000;
const CALLS_OF_A_KIND: usize = 2000;

/// How many pages the ranges have.
const SHAPES: [(&str, Pages); 4] = [
    ("", |rng, _| rng.between(4, 12)),
    (", ranges of 4 pages", |_, _| 4),
    (", ranges of 1 page, the last 512", |_, last| {
        if last {
            512
        } else {
            1
        }
    }),
    (", ranges of 512 to 4096 pages", |rng, _| {
        rng.between(512, 4096)
    }),
];

const DIRECTIONS: [(u32, &str); 2] = [(TOP_DOWN, "top-down"), (BOTTOM_UP, "bottom-up")];

type Part = (&'static str, fn());

/// The parts are run in this order; arguments name those that are wanted. Without
/// arguments `count` is left out: it needs bench/run and takes longer.
fn parts<Other: Side>() -> [Part; 6] {
    [
        ("equal", || equal::random_calls::<Other>(RANDOM_CALLS)),
        ("intake", intake::<Other>),
        ("growth", || growth::table::<Other>(CALLS_OF_A_KIND)),
        ("tree", tree::print::<Other>),
        ("pages", pages::table::<Other>),
        ("count", count::print::<Other>),
    ]
}

fn main() {
    let mut wanted: Vec<String> = std::env::args().skip(1).collect();
    let parts = if wanted.first().is_some_and(|word| word == "since") {
        wanted.remove(0);
        if takes_no_wish() {
            let mut parts = parts::<BeforeE6>();
            parts[0].1 = equal_left_out;
            parts
        } else {
            let mut parts = parts::<Before>();
            if knows_no_image() || frees_what_is_not_taken() {
                parts[0].1 = equal_left_out;
            }
            parts
        }
    } else {
        parts::<Straight>()
    };
    for name in &wanted {
        if !parts.iter().any(|part| part.0 == name) {
            eprintln!(
                "bench: no part {name}; there are equal, intake, growth, tree, pages and count"
            );
            std::process::exit(2);
        }
    }
    for (name, part) in parts {
        if (wanted.is_empty() && name != "count") || wanted.iter().any(|word| word == name) {
            part();
        }
    }
}

/// Whether the archive beside is from before request E6: its next free takes the
/// wish for the slip and the slip for its length, which it refuses first of all.
fn takes_no_wish() -> bool {
    let call = Call::NextFree(0, ANY_NODE, NO_WISH);
    Before::call(call, &mut Block::fresh(), &mut [0; 16]) == straight::BAD_SLIP
}

/// Whether the archive beside is from before request E7: a block with an image end is
/// not good there.
fn knows_no_image() -> bool {
    let mut block = Block::fresh();
    assert_eq!(straight::set_image_end(&mut block.0, 1), 0);
    let call = Call::Set(0, TOP_DOWN);
    Before::call(call, &mut block, &mut [0; 16]) == straight::BAD_BLOCK
}

/// Whether the archive beside is from before request E10.
fn frees_what_is_not_taken() -> bool {
    Before::call(Call::Free(0, 1), &mut Block::fresh(), &mut [0; 16]) == straight::DONE
}

fn equal_left_out() {
    println!(
        "bench: equal left out: the archive beside is from before request E6, E7 or E10, and has \
         other rules for flags or frees, or no image end; the calls of the other parts are the \
         same on both"
    );
}

fn intake<Other: Side>() {
    println!(
        "bench: E11 work, medians over {RUNS} runs of each side for each of {} seeds, \
         library's code {} bytes past a cache line",
        SEEDS.len(),
        env!("BENCH_PLACE")
    );
    for (shape, pages) in SHAPES {
        for (direction, name) in DIRECTIONS {
            let times = SEEDS.map(|seed| intake::measure::<Other>(seed, pages, direction, RUNS));
            intake::print::<Other>(&format!("E11 work{shape}, {name}"), &times);
        }
    }
}

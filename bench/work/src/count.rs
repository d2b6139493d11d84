//! Instructions, which do not jitter. `bench/run count` starts this under callgrind,
//! which counts inside the functions of the two sides and writes a file each time
//! that `bench_counted` is left.

use crate::growth;
use crate::intake::counted;
use crate::library::Library;
use crate::pages;
use crate::sides::{Block, Call, Side};
use crate::{DIRECTIONS, SEEDS, SHAPES};
use std::hint::black_box;
use std::sync::atomic::{AtomicUsize, Ordering};

/// Does the work, and gives the numbers of its calls joined.
#[no_mangle]
#[inline(never)]
fn bench_counted(work: &mut dyn FnMut() -> u32) -> u32 {
    work()
}

/// The instructions of calls, none refused.
fn count<S: Side>(calls: &[Call], block: &mut Block) -> f64 {
    let mut slip = [0; 16];
    instructions(&mut || {
        let numbers = calls.iter().map(|&one| S::call(one, block, &mut slip));
        numbers.fold(0, |all, number| all | number)
    })
}

/// The instructions of some work.
fn instructions(work: &mut dyn FnMut() -> u32) -> f64 {
    static FILES: AtomicUsize = AtomicUsize::new(0);
    let Some(mut name) = std::env::var_os("BENCH_COUNTS") else {
        panic!("count is for bench/run, which starts it under callgrind");
    };
    assert_eq!(bench_counted(black_box(work)), 0, "a call refused");
    name.push(format!(".{}", FILES.fetch_add(1, Ordering::Relaxed) + 1));
    let text = std::fs::read_to_string(&name).expect("callgrind has written it");
    let total = text.lines().find_map(|line| line.strip_prefix("totals: "));
    total
        .and_then(|number| number.parse().ok())
        .expect("a total")
}

/// Prints the counts at each fill, those of the E11 work, means over all seeds, and those of
/// all free pages handed over.
pub fn print<Other: Side>() {
    growth::print::<Other>("instructions", |row, saved| {
        (
            count::<Library>(&[row.call], &mut saved.clone()),
            count::<Other>(&[row.call], &mut saved.clone()),
        )
    });
    for (shape, pages) in SHAPES {
        for (direction, name) in DIRECTIONS {
            let mut sums = [[0.0; 2]; 2];
            for seed in SEEDS {
                let library = counted(seed, pages, direction, count::<Library>);
                let other = counted(seed, pages, direction, count::<Other>);
                for part in 0..2 {
                    sums[part][0] += library[part] / SEEDS.len() as f64;
                    sums[part][1] += other[part] / SEEDS.len() as f64;
                }
            }
            let [intake, allocations] = sums;
            let whole = [intake[0] + allocations[0], intake[1] + allocations[1]];
            let parts = [
                ("", whole),
                (", intake only", intake),
                (", allocations only", allocations),
            ];
            for (what, [library, other]) in parts {
                println!(
                    "bench: E11 work{shape}, {name}{what}, instructions: library {library:.0}, {} {other:.0}, ratio {:.2}",
                    Other::NAME,
                    library / other
                );
            }
        }
    }
    if Other::PAGES {
        let measure = |block: &Block, room: usize| {
            let mut buffer = vec![0; room];
            (
                instructions(&mut || pages::hand_over::<Library>(block, &mut buffer)),
                instructions(&mut || pages::hand_over::<Other>(block, &mut buffer)),
            )
        };
        pages::print::<Other>("instructions", measure);
        pages::print_growth::<Other>("instructions", measure);
    }
}

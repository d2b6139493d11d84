//! Calls the archives and the model on equal bytes and compares the number, the index of a plan
//! and every byte of block, slip, buffer, report, trees, path, name, old block and a plan's
//! columns. See README.md.

mod alone;
mod archive;
mod blocks;
mod call;
mod cases;
mod desk;
mod editions;
mod flattened;
mod frees;
mod images;
mod limits;
mod lists;
mod numbers;
mod orders;
mod pages;
mod pairs;
mod plan_lines;
mod plan_sides;
mod plans;
#[path = "../../model/tests/premises/mod.rs"]
mod premises;
mod reports;
mod runs;
mod wishes;

use blocks::Damage;
use call::Command;
use desk::Desk;
use model::layout::*;
use numbers::{slip, Near};
use rng::Rng;
use trees::rng;

/// One pair of orders is asked for in this many calls of the lists' part.
const CALLS_PER_PAIR: u64 = 50;

/// One pair of orders of a report is asked for in this many calls of their part.
const CALLS_PER_REPORT_PAIR: u64 = 5;

/// One tree that is read is asked for in this many calls of their part.
const CALLS_PER_TREE: u64 = 60;

/// One pair of trees that is read is asked for in this many calls of their part.
const CALLS_PER_TREES: u64 = 60;

/// One list of pages handed over to the end is asked for in this many calls of their part.
const CALLS_PER_HANDOVER: u64 = 60;

/// One pair of blocks that agree for a node is asked for in this many calls of their part.
const CALLS_PER_AGREEING: u64 = 60;

/// One plan that is accepted is asked for in this many calls of their part.
const CALLS_PER_PLAN: u64 = 40;

/// In the order of a whole run: what finds most in few calls comes first.
const PARTS: [&str; 14] = [
    "cases", "faults", "lengths", "editions", "damage", "pages", "alone", "plans", "trees",
    "pairs", "fills", "lists", "orders", "walks",
];

struct Options {
    seed: u64,
    calls: u64,
    all: bool,
    /// In the order they are run in.
    parts: Vec<&'static str>,
    without_model: bool,
    patience: u64,
}

impl Options {
    fn whole(&self) -> bool {
        self.parts == PARTS && !self.without_model
    }

    /// The calls for a part that gets this many of 100 in a whole run.
    fn share(&self, percent: u64) -> u64 {
        if self.whole() {
            self.calls * percent / 100
        } else {
            self.calls / self.parts.len() as u64
        }
    }
}

fn options() -> Result<Options, String> {
    let mut options = Options {
        seed: 1,
        calls: 1_000_000,
        all: std::env::var_os("MEMBLOCK_ALL").is_some_and(|v| !v.is_empty() && v != "0"),
        parts: PARTS.to_vec(),
        without_model: false,
        patience: 10,
    };
    let mut args = std::env::args().skip(1);
    while let Some(arg) = args.next() {
        let mut value = || args.next().ok_or(format!("{arg} needs a value"));
        let number = |text: String| text.parse().map_err(|_| format!("{text} is not a number"));
        match arg.as_str() {
            "--seed" => options.seed = number(value()?)?,
            "--calls" => options.calls = number(value()?)?,
            "--all" => options.all = true,
            "--parts" => {
                options.parts.clear();
                for name in value()?.split(',') {
                    match PARTS.into_iter().find(|part| *part == name) {
                        Some(part) if !options.parts.contains(&part) => options.parts.push(part),
                        Some(_) => return Err(format!("{name} is named twice")),
                        None => {
                            return Err(format!("{name} is no part; parts are {}", PARTS.join(",")))
                        }
                    }
                }
            }
            "--without-model" => options.without_model = true,
            "--patience" => options.patience = number(value()?)?,
            _ => {
                return Err(format!(
                    "{arg}: use --seed N, --calls N, --all, --parts A,B, --without-model, \
                     --patience SECONDS"
                ))
            }
        }
    }
    Ok(options)
}

fn main() {
    let options = options().unwrap_or_else(|message| stop(&message));
    let there: Vec<Command> = (Command::OF_C.into_iter())
        .filter(|c| c.is_there())
        .collect();
    let missing: Vec<&str> = Command::all()
        .filter(|c| !c.is_there())
        .map(Command::name)
        .collect();
    let all = Command::all().count();
    println!(
        "compare: seed {}, {} calls asked for, {} of {all} functions in the archives",
        options.seed,
        options.calls,
        all - missing.len(),
    );
    if !missing.is_empty() {
        println!("compare: in no archive: {}", missing.join(" "));
        if options.all {
            stop("all functions were asked for");
        }
    }
    desk::watch(options.patience);
    let desk = &mut Desk::new(options.seed);
    desk.without_model = options.without_model;
    // The plans' calls come beside those that are asked for.
    let mut beside = 0;
    for &part in &options.parts {
        desk.part = part;
        desk.turn = 0;
        match part {
            "cases" => {
                let cases = cases::run(desk);
                println!(
                    "cases: all {cases} of document 01 and those of requests E1, E3 to E10 and E12 to E14, {} calls",
                    desk.calls
                );
            }
            "lists" => lists(desk, options.share(18)),
            "orders" => orders(desk, options.share(4)),
            "lengths" => lengths(desk, &there, options.share(4)),
            "editions" => editions(desk, &there, options.share(3)),
            "damage" => damage(desk, &there, options.share(13)),
            "pages" => pages(desk, options.share(3)),
            "alone" => alone(desk, options.share(3)),
            "plans" => {
                let before = desk.calls;
                plans(desk, options.share(3));
                beside = desk.calls - before;
            }
            "trees" => trees(desk, options.share(6)),
            "pairs" => pairs(desk, options.share(6)),
            "faults" => faults(desk, &there, options.share(8)),
            "fills" => fills(desk, &there, options.share(22)),
            _ => walks(desk, (options.calls + beside).saturating_sub(desk.calls)),
        }
    }
    if !options.whole() {
        println!(
            "compare: {} calls, nothing found, but only in {}{}",
            desk.calls,
            options.parts.join(", "),
            if options.without_model {
                " without the model"
            } else {
                ""
            }
        );
        return;
    }
    numbers_reached(desk);
    sides_met(desk);
    frees_met(desk);
    pages_met(desk);
    alone_met(desk);
    plans_met(desk);
    println!("compare: {} calls, all equal", desk.calls);
}

/// Every number that the rules allow a function was given by it.
fn numbers_reached(desk: &Desk) {
    let pairs = desk.pairs();
    let never: Vec<String> = pairs
        .iter()
        .filter(|(_, _, count)| *count == 0)
        .map(|(command, number, _)| format!("{} {number}", command.name()))
        .collect();
    if !never.is_empty() {
        stop(&format!("never reached: {}", never.join(", ")));
    }
    for command in Command::all().filter(|c| c.is_there()) {
        let counts: Vec<String> = pairs
            .iter()
            .filter(|pair| pair.0 == command)
            .map(|(_, number, count)| format!("{count} x {number}"))
            .collect();
        println!("numbers: {} gave {}", command.name(), counts.join(", "));
    }
    let (command, number, count) = pairs
        .iter()
        .min_by_key(|(_, _, count)| *count)
        .expect("one function at least");
    println!(
        "numbers: all {} pairs of command and number reached, the rarest {} {number} in {count} calls",
        pairs.len(),
        command.name()
    );
}

/// Searches on every side of the limit, of a run's end and of the image end were made,
/// and with every wish.
fn sides_met(desk: &Desk) {
    let searches = [Command::Find, Command::Allocate, Command::NextFree];
    if !searches.into_iter().all(Command::is_there) {
        return;
    }
    for (what, told) in [
        ("limit", desk.sides.told()),
        ("runs", desk.runs.told()),
        ("wishes", desk.wishes.told()),
        ("images", desk.images.told()),
    ] {
        tell(what, told);
    }
}

/// Frees on every side of what is taken were made.
fn frees_met(desk: &Desk) {
    let commands = [Command::Reserve, Command::Free, Command::Allocate];
    if commands.into_iter().all(Command::is_there) {
        tell("frees", desk.frees.told());
    }
}

/// Pages were handed over on every side of buffers, pieces and runs.
fn pages_met(desk: &Desk) {
    if Command::Pages.is_there() {
        tell("pages", desk.pages.told());
    }
}

/// Finds for a node were made on every side of what two blocks differ in.
fn alone_met(desk: &Desk) {
    if Command::Find.is_there() {
        tell("alone", desk.alone.told());
    }
}

/// Plans of every kind were accepted and refused.
fn plans_met(desk: &Desk) {
    if Command::PLANS.into_iter().all(Command::is_there) {
        tell("plans", desk.plans.told());
    }
}

fn tell(what: &str, told: Result<String, String>) {
    match told {
        Ok(counts) => println!("{what}: {counts}"),
        Err(message) => stop(&format!("{what}: {message}")),
    }
}

fn stop(message: &str) -> ! {
    eprintln!("compare: {message}");
    std::process::exit(1);
}

fn next_turn(desk: &mut Desk) -> Rng {
    desk.turn += 1;
    Rng::new(desk.seed, desk.part, desk.turn)
}

/// Lists of commands in more than one order.
fn lists(desk: &mut Desk, calls: u64) {
    if !Command::LISTED.into_iter().any(Command::is_there) {
        println!("lists: none of the six commands is in the archive");
        return;
    }
    let before = desk.calls;
    let tally = lists::run(desk, before + calls);
    println!(
        "lists: {} calls, {} lists, {} runs as predicted, {} pairs of orders equal \
         ({} with refusals, {} with full tables, {} with frees of what is not taken), {} orders \
         with other commands done ({} with other frees), {} runs outside the condition ({} by two \
         flags on one address alone); lists with hotplug marks {}, mirror {}, no-map {}; with an \
         image end {}; with frees done {}, and refused the second time {}",
        desk.calls - before,
        tally.lists,
        tally.predicted,
        tally.pairs,
        tally.pairs_with_refusals,
        tally.pairs_with_full_tables,
        tally.pairs_with_untaken,
        tally.other_done,
        tally.other_freed,
        tally.outside,
        tally.two_flags,
        tally.flags[0],
        tally.flags[1],
        tally.flags[2],
        tally.images,
        tally.freed,
        tally.twice,
    );
    let floor = calls / CALLS_PER_PAIR;
    let mut floors = vec![("pairs of orders", tally.pairs, floor)];
    if Command::LISTED.into_iter().all(Command::is_there) {
        floors.push(("pairs with refusals", tally.pairs_with_refusals, floor / 10));
        floors.push((
            "pairs with full tables",
            tally.pairs_with_full_tables,
            floor / 20,
        ));
        floors.push(("lists with two flags", tally.two_flags, floor / 20));
        floors.push(("lists with an image end", tally.images, floor / 10));
        floors.push(("lists with frees done", tally.freed, floor / 10));
        floors.push(("lists with a second free", tally.twice, floor / 20));
        floors.push((
            "pairs with frees of what is not taken",
            tally.pairs_with_untaken,
            floor / 10,
        ));
        floors.push((
            "orders with other frees done",
            tally.other_freed,
            floor / 20,
        ));
        for (what, count) in [
            "lists with hotplug marks",
            "lists with mirror marks",
            "lists with no-map marks",
        ]
        .into_iter()
        .zip(tally.flags)
        {
            floors.push((what, count, floor / 10));
        }
    }
    for (what, count, floor) in floors {
        if count < floor {
            stop(&format!(
                "only {count} {what} were met, at least {floor} asked for"
            ));
        }
    }
}

/// Reports in more than one order.
fn orders(desk: &mut Desk, calls: u64) {
    if !Command::Intake.is_there() {
        println!("orders: no intake in the archive");
        return;
    }
    let before = desk.calls;
    let tally = orders::run(desk, before + calls);
    println!(
        "orders: {} calls, {} reports, {} intakes as predicted, {} pairs of orders equal \
         ({} where other orders were refused), {} reports done in some orders and refused \
         in others, {} refused in all",
        desk.calls - before,
        tally.reports,
        tally.predicted,
        tally.pairs,
        tally.pairs_beside_refused,
        tally.both,
        tally.refused,
    );
    let floor = calls / CALLS_PER_REPORT_PAIR;
    for (what, count, floor) in [
        ("pairs of orders", tally.pairs, floor),
        (
            "pairs beside refused orders",
            tally.pairs_beside_refused,
            floor / 20,
        ),
        ("reports refused in all orders", tally.refused, floor / 20),
    ] {
        if count < floor {
            stop(&format!(
                "only {count} {what} were met, at least {floor} asked for"
            ));
        }
    }
}

/// Free pages of boards with many of them.
fn pages(desk: &mut Desk, calls: u64) {
    if !Command::Pages.is_there() {
        println!("pages: no hand over of pages in the archive");
        return;
    }
    let before = desk.calls;
    let tally = pages::run(desk, before + calls);
    println!(
        "pages: {} calls on {} boards ({} of more pieces than are written, {} with both tables \
         full), {} lists handed over to the end in {} calls, {} of more than one call, {} pieces; \
         {} starts at, in and beside pieces, {} at 2^52 or above",
        desk.calls - before,
        desk.turn,
        tally.long,
        tally.full,
        tally.lists,
        tally.resumed,
        tally.in_parts,
        tally.pieces,
        tally.starts,
        tally.above,
    );
    let floor = calls / CALLS_PER_HANDOVER;
    for (what, count, floor) in [
        ("lists handed over to the end", tally.lists, floor),
        ("lists of more than one call", tally.in_parts, floor / 2),
        ("boards with both tables full", tally.full, floor / 20),
        ("boards with more pieces", tally.long, floor / 20),
    ] {
        if count < floor {
            stop(&format!(
                "only {count} {what} were met, at least {floor} asked for"
            ));
        }
    }
}

/// Finds for a node on two blocks that agree for it.
fn alone(desk: &mut Desk, calls: u64) {
    if !Command::Find.is_there() {
        println!("alone: no find in the archive");
        return;
    }
    let before = desk.calls;
    let tally = alone::run(desk, before + calls);
    println!(
        "alone: {} calls, {} pairs of blocks that agree for a node ({} with a block reached by \
         calls), {} finds with the same number and slip on both, {} of them with an address",
        desk.calls - before,
        tally.pairs,
        tally.by_calls,
        tally.finds,
        tally.found,
    );
    let floor = calls / CALLS_PER_AGREEING;
    for (what, count, floor) in [
        ("pairs of blocks", tally.pairs, floor),
        ("pairs with a block by calls", tally.by_calls, floor / 20),
        ("finds with an address", tally.found, 2 * floor),
    ] {
        if count < floor {
            stop(&format!(
                "only {count} {what} were met, at least {floor} asked for"
            ));
        }
    }
}

/// Placement plans.
fn plans(desk: &mut Desk, calls: u64) {
    if !Command::PLANS.into_iter().any(Command::is_there) {
        println!("plans: no plan in an archive");
        return;
    }
    let before = desk.calls;
    let tally = plans::run(desk, before + calls);
    println!(
        "plans: {} calls on {} blocks ({} damaged, {} kinds each met {} times at least, {} of \
         another length), {} plans with {} lines accepted, {} refused for a line, {} for their \
         length and {} for want of room; {} as finds and records say",
        desk.calls - before,
        desk.turn,
        tally.damaged.iter().sum::<u64>(),
        tally.damaged.len(),
        tally.damaged.iter().min().expect("there are kinds"),
        tally.lengths,
        tally.accepted,
        tally.lines,
        tally.at_fault,
        tally.long,
        tally.full,
        tally.predicted,
    );
    let floor = calls / CALLS_PER_PLAN;
    for (what, count, floor) in [
        ("plans accepted", tally.accepted, floor),
        ("plans refused for a line", tally.at_fault, floor),
        ("plans refused for their length", tally.long, floor / 10),
        ("plans refused for want of room", tally.full, floor / 10),
        ("plans as predicted", tally.predicted, floor / 2),
    ] {
        if count < floor {
            stop(&format!(
                "only {count} {what} were met, at least {floor} asked for"
            ));
        }
    }
}

/// Flattened trees.
fn trees(desk: &mut Desk, calls: u64) {
    if !Command::IntakeTree.is_there() {
        println!("trees: no intake of a tree in the archive");
        return;
    }
    let before = desk.calls;
    let tally = flattened::run(desk, before + calls);
    let rarest = |counts: &[u64]| *counts.iter().min().expect("there are some");
    println!(
        "trees: {} calls, {} trees read as their commands by calls ({} refused with 6), {} quirks \
         each met {} times at least; {} ways of breaking one each {} times; {} cut off at a byte; \
         damaged anyhow {} read and {} not; {} with a bad block",
        desk.calls - before,
        tally.by_calls,
        tally.full,
        tally.quirks.len(),
        rarest(&tally.quirks),
        tally.broken.len(),
        rarest(&tally.broken),
        tally.cut,
        tally.damaged[0],
        tally.damaged[1],
        tally.bad_blocks,
    );
    let floor = calls / CALLS_PER_TREE;
    for (what, count, floor) in [
        ("trees read", tally.by_calls, floor),
        ("trees refused with 6", tally.full, floor / 50),
        ("damaged trees read", tally.damaged[0], floor / 20),
        ("damaged trees not read", tally.damaged[1], floor / 20),
    ] {
        if count < floor {
            stop(&format!(
                "only {count} {what} were met, at least {floor} asked for"
            ));
        }
    }
}

/// Pairs of trees.
fn pairs(desk: &mut Desk, calls: u64) {
    let commands = [Command::IntakeTrees, Command::Lookup];
    if !commands.into_iter().all(Command::is_there) {
        println!("pairs: no intake of two trees or no lookup in the archive");
        return;
    }
    let before = desk.calls;
    let tally = pairs::run(desk, before + calls);
    let rarest = |counts: &[u64]| *counts.iter().min().expect("there are some");
    println!(
        "pairs: {} calls, {} pairs read as their commands by calls ({} refused with 6), {} refused \
         for a value, {} otherwise than the board alone; {} corrections each met {} times at least; \
         looked up and found in the service tree {}, in the board's {}, in neither {}, empty {}, by \
         {} aims each met {} times at least; {} ways of breaking one of two each {} times; damaged \
         anyhow {} read and {} not; {} with a bare root, {} beside themselves, {} with a bad block",
        desk.calls - before,
        tally.by_calls,
        tally.full,
        tally.values,
        tally.changed,
        tally.corrections.len(),
        rarest(&tally.corrections),
        tally.found[0],
        tally.found[1],
        tally.found[2],
        tally.empty,
        tally.aims.len(),
        rarest(&tally.aims),
        tally.broken.len(),
        rarest(&tally.broken),
        tally.damaged[0],
        tally.damaged[1],
        tally.bare,
        tally.same,
        tally.bad_blocks,
    );
    let floor = calls / CALLS_PER_TREES;
    for (what, count, floor) in [
        ("pairs read", tally.by_calls, floor),
        ("pairs refused with 6", tally.full, floor / 50),
        ("pairs refused for a value", tally.values, floor / 10),
        ("pairs with an effect", tally.changed, floor / 2),
        (
            "properties found in the service tree",
            tally.found[0],
            floor / 2,
        ),
        ("properties found in the board's", tally.found[1], floor / 2),
        ("properties found in neither", tally.found[2], floor / 2),
        ("empty values", tally.empty, floor / 20),
        ("damaged pairs read", tally.damaged[0], floor / 20),
        ("damaged pairs not read", tally.damaged[1], floor / 20),
    ] {
        if count < floor {
            stop(&format!(
                "only {count} {what} were met, at least {floor} asked for"
            ));
        }
    }
}

/// Blocks and slips of other lengths.
fn lengths(desk: &mut Desk, there: &[Command], calls: u64) {
    let before = desk.calls;
    while desk.calls < before + calls {
        let mut rng = next_turn(desk);
        let rng = &mut rng;
        let layout = rng.pick(&[&CURRENT, &CURRENT, &EDITION_1]);
        let good = blocks::some_good(rng, layout).bytes();
        let near = Near::to(&good);
        for &command in there {
            let len = match rng.below(4) {
                0 => rng.pick(&[0, 1, 79, 80, BLOCK_LEN - 1, BLOCK_LEN + 1]),
                1 if layout.edition != EDITION => rng.pick(&[good.len(), BLOCK_LEN]),
                1 => rng.pick(&[
                    EDITION_1.length(),
                    81,
                    TAKEN.offset - 1,
                    TAKEN.offset,
                    BLOCK_LEN - RECORD_LEN,
                    BLOCK_LEN - 8,
                    BLOCK_LEN + RECORD_LEN,
                    2 * BLOCK_LEN,
                ]),
                2 => rng.index(BLOCK_LEN),
                _ => rng.index(3 * BLOCK_LEN),
            };
            let mut block = good.clone();
            let filler = rng.pick(&[0, 0xFF]);
            block.resize(len, filler);
            let call = near.call(rng, command, 20);
            let mut slip = slip(rng, 25);
            desk.call(&call, &mut block, &mut slip);
        }
    }
    println!(
        "lengths: {} calls on {} blocks",
        desk.calls - before,
        desk.turn
    );
}

/// Edition 1 blocks.
fn editions(desk: &mut Desk, there: &[Command], calls: u64) {
    let before = desk.calls;
    let tally = editions::run(desk, there, before + calls);
    let (fill, damage) = tally.rarest();
    println!(
        "editions: {} calls on {} edition 1 blocks, memory counts 0 to {} and taken counts 0 to {} \
         each met {fill} times at least, {} kinds of damage each {damage} times; {} calls of other \
         commands refused",
        desk.calls - before,
        desk.turn,
        EDITION_1.memory.capacity,
        EDITION_1.taken.capacity,
        tally.refused.len(),
        tally.others,
    );
}

/// Each kind of damage, on each command.
fn damage(desk: &mut Desk, there: &[Command], calls: u64) {
    let before = desk.calls;
    let kinds = Damage::all();
    let mut met = vec![0u64; kinds.len()];
    while desk.calls < before + calls || met.contains(&0) {
        let mut rng = next_turn(desk);
        let rng = &mut rng;
        let which = desk.turn as usize % kinds.len();
        let kind = kinds[which];
        let draft = blocks::some_good(rng, &CURRENT);
        let bytes = kind.done_to(rng, draft);
        let near = Near::to(&bytes);
        let good = model::Board::read(&bytes).is_some();
        if good && kind.certain(&CURRENT) {
            desk.fail(&format!(
                "the model takes a block damaged by {kind:?} for good"
            ));
        }
        // What is legal leaves a good block, unless a record's flags are then its
        // neighbour's.
        if good == kind.legal() {
            met[which] += 1;
        }
        for &command in there {
            let call = near.call(rng, command, 10);
            let mut slip = slip(rng, 5);
            desk.call(&call, &mut bytes.clone(), &mut slip);
        }
    }
    println!(
        "damage: {} calls on {} blocks, {} kinds of damage, each met {} times at least",
        desk.calls - before,
        desk.turn,
        kinds.len(),
        met.iter().min().expect("there are kinds"),
    );
}

/// Several things wrong at once, to see which number comes first.
fn faults(desk: &mut Desk, there: &[Command], calls: u64) {
    let before = desk.calls;
    let kinds = Damage::all();
    while desk.calls < before + calls {
        let mut rng = next_turn(desk);
        let rng = &mut rng;
        let draft = blocks::some_good(rng, &CURRENT);
        let bytes = if rng.one_in(5) {
            rng.pick(&kinds).done_to(rng, draft)
        } else {
            draft.bytes()
        };
        let near = Near::to(&bytes);
        for &command in there {
            let call = near.call(rng, command, 35);
            let mut slip = slip(rng, 20);
            desk.call(&call, &mut bytes.clone(), &mut slip);
        }
    }
    println!(
        "faults: {} calls on {} blocks",
        desk.calls - before,
        desk.turn
    );
}

/// Every command on good blocks of every fill.
fn fills(desk: &mut Desk, there: &[Command], calls: u64) {
    let before = desk.calls;
    let mut met = [vec![0u64; MEMORY.capacity + 1], vec![0; TAKEN.capacity + 1]];
    while desk.calls < before + calls || met.iter().flatten().any(|&n| n == 0) {
        let mut rng = next_turn(desk);
        let rng = &mut rng;
        // Both tables go through all fills, at different paces.
        let turn = desk.turn as usize;
        let (m, t) = match turn % 4 {
            0 => (turn / 4 % met[0].len(), blocks::some_fill(rng, &TAKEN)),
            1 | 3 => (blocks::some_fill(rng, &MEMORY), turn / 2 % met[1].len()),
            _ => (
                blocks::some_fill(rng, &MEMORY),
                blocks::some_fill(rng, &TAKEN),
            ),
        };
        let bytes = blocks::good(rng, &CURRENT, m, t).bytes();
        if model::Board::read(&bytes).is_none() {
            desk.fail("the model takes a good block for a bad one");
        }
        met[0][m] += 1;
        met[1][t] += 1;
        let near = Near::to(&bytes);
        for &command in there {
            // Fresh, the two sets, convert and a lookup do not look at the fill; searches
            // have most to try.
            let times = match command {
                Command::Fresh | Command::Set | Command::SetImageEnd | Command::Convert => 1,
                Command::Lookup => 1,
                Command::NextFree | Command::Find | Command::Allocate => 4,
                _ => 2,
            };
            for _ in 0..times {
                let call = near.call(rng, command, 2);
                let mut slip = slip(rng, 2);
                desk.call(&call, &mut bytes.clone(), &mut slip);
            }
        }
        // More where there is no room for what is found.
        let times = if t == TAKEN.capacity { 8 } else { 2 };
        if t == TAKEN.capacity {
            pages::at_the_last_taken(desk, rng, &bytes);
        }
        for turn in 0..times {
            images::around(desk, rng, &near, &bytes);
            wishes::inside(desk, rng, &bytes);
            if turn % 2 == 0 {
                frees::around(desk, rng, &near, &bytes);
            }
        }
    }
    let fewest = met.iter().flatten().min().expect("there are fills");
    println!(
        "fills: {} calls on {} good blocks, memory counts 0 to {} and taken counts 0 to {} \
         each met {fewest} times at least",
        desk.calls - before,
        desk.turn,
        MEMORY.capacity,
        TAKEN.capacity,
    );
}

/// Calls in a row, each on the block that the one before left.
fn walks(desk: &mut Desk, calls: u64) {
    let before = desk.calls;
    let there: Vec<Command> = (Command::OF_C.into_iter())
        .filter(|c| c.is_there())
        .collect();
    while desk.calls < before + calls {
        let mut rng = next_turn(desk);
        let rng = &mut rng;
        let mut block = if rng.one_in(3) {
            let mut block = rng.bytes(BLOCK_LEN);
            desk.call(&call::Call::Fresh, &mut block, &mut []);
            block
        } else {
            blocks::some_good(rng, &CURRENT).bytes()
        };
        let mut near = Near::to(&block);
        for _ in 0..60 {
            let command = if rng.percent(70) {
                rng.pick(&there)
            } else {
                rng.pick(&Command::OF_C)
            };
            let call = near.call(rng, command, 3);
            let mut slip = slip(rng, 2);
            let mut next = block.clone();
            let number = desk.call(&call, &mut next, &mut slip);
            if let (0, call::Call::Allocate(query)) = (number, &call) {
                runs::follow(desk, rng, query.wish, &mut next, &slip);
            }
            if number == number::DONE && rng.one_in(3) {
                frees::follow(desk, rng, &call, &slip, &next);
            }
            // Fresh, conversions, coarse trims and those of intakes would end most
            // walks: try them on a copy.
            let keep = match call {
                call::Call::Fresh => rng.one_in(20),
                call::Call::Convert(_) => rng.one_in(8),
                call::Call::Trim { alignment } => alignment <= 4096 || rng.one_in(8),
                call::Call::Intake(_) => rng.one_in(3),
                call::Call::IntakeTree(_) | call::Call::IntakeTrees { .. } => rng.one_in(2),
                call::Call::Range { size, .. } | call::Call::Mark { size, .. } => {
                    size < 1 << 62 || rng.one_in(4)
                }
                _ => true,
            };
            if keep && next != block {
                block = next;
                near = Near::to(&block);
            }
        }
    }
    println!(
        "walks: {} calls in {} walks",
        desk.calls - before,
        desk.turn
    );
}

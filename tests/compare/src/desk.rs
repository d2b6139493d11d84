//! Makes each call twice, on the archive and on the model, from equal bytes,
//! and stops the program at the first difference.

use crate::alone::Alone;
use crate::blocks::{get_u32, get_u64, read_recs};
use crate::call::{Call, Command};
use crate::frees::Frees;
use crate::images::Images;
use crate::limits::Sides;
use crate::pages::Pages;
use crate::plan_sides::Plans;
use crate::plans;
use crate::runs::Runs;
use crate::wishes::Wishes;
use model::layout::{number, Body, EDITION_1, MEMORY, REPORT_ENTRY_LEN, TAKEN};
use std::sync::atomic::{AtomicU64, Ordering};
use std::sync::Mutex;
use std::time::Duration;

/// Bytes before and after every lent buffer that must stay as they are.
const GUARD: usize = 64;
/// The most buffers that a call only reads.
const SOURCES: usize = 7;
/// The numbers that may be answered are below this.
const NUMBERS: usize = 15;
const COMMANDS: usize = Command::OF_C.len() + Command::PLANS.len();

/// What is needed to find a call again.
#[derive(Clone)]
struct Where {
    seed: u64,
    part: &'static str,
    turn: u64,
    number: u64,
    call: Call,
    block_len: usize,
    slip_len: usize,
}

impl Where {
    fn text(&self) -> String {
        let mut text = format!(
            "  seed {}, part {}, turn {}, call number {}\n  {}, block of {} bytes",
            self.seed,
            self.part,
            self.turn,
            self.number,
            self.call.text(),
            self.block_len,
        );
        if self.call.command().takes_slip() {
            text += &format!(", slip of {} bytes", self.slip_len);
        }
        if self.call.lent().windows(2).any(|two| two[0] == two[1]) {
            text += ", both trees in one buffer";
        }
        text
    }
}

/// The call under way, for the watch and the signal handler.
static NOW: Mutex<Option<Where>> = Mutex::new(None);
static DONE: AtomicU64 = AtomicU64::new(0);

extern "C" {
    fn signal(number: i32, handler: usize) -> usize;
    fn _exit(status: i32) -> !;
}

extern "C" fn stopped(number: i32) {
    if let Ok(now) = NOW.try_lock() {
        if let Some(place) = &*now {
            eprintln!("DIFFERENCE: signal {number} instead of an answer");
            eprintln!("{}", place.text());
        }
    }
    unsafe { _exit(1) }
}

/// Reports a call that stops the program, or that takes longer than `patience`
/// seconds and so counts as one that never ends.
pub fn watch(patience: u64) {
    // ILL, TRAP, ABRT, BUS, FPE, SEGV
    for number in [4, 5, 6, 7, 8, 11] {
        unsafe { signal(number, stopped as extern "C" fn(i32) as usize) };
    }
    std::thread::spawn(move || {
        let mut last = u64::MAX;
        // Naps are counted, not time: a program that is held up takes none.
        let mut naps = 0;
        loop {
            std::thread::sleep(Duration::from_millis(100));
            let done = DONE.load(Ordering::Relaxed);
            naps = if done == last { naps + 1 } else { 0 };
            last = done;
            if naps < 10 * patience {
                continue;
            }
            if let Some(place) = &*NOW.lock().expect("never poisoned") {
                eprintln!("DIFFERENCE: no answer within {patience} seconds");
                eprintln!("{}", place.text());
                unsafe { _exit(1) };
            }
        }
    });
}

/// A buffer with guards around it, never at the same alignment for long.
struct Lent {
    room: Vec<u8>,
    from: usize,
    to: usize,
    salt: u8,
}

impl Lent {
    fn new() -> Lent {
        Lent {
            room: Vec::new(),
            from: 0,
            to: 0,
            salt: 0,
        }
    }

    fn guard(&self, at: usize) -> u8 {
        (at as u8).wrapping_mul(29).wrapping_add(self.salt) | 1
    }

    fn fill(&mut self, bytes: &[u8], turn: u64) {
        self.fill_aligned(bytes, turn, 1);
    }

    /// The same, at a multiple of a power of two.
    fn fill_aligned(&mut self, bytes: &[u8], turn: u64, alignment: usize) {
        self.salt = turn as u8;
        let ahead = GUARD + (turn % 16) as usize;
        let most = ahead + alignment + bytes.len() + GUARD;
        if self.room.len() < most {
            self.room.resize(most, 0);
        }
        self.from = ahead + self.room[ahead..].as_ptr().align_offset(alignment);
        self.to = self.from + bytes.len();
        for at in (0..self.from).chain(self.to..self.to + GUARD) {
            self.room[at] = self.guard(at);
        }
        self.room[self.from..self.to].copy_from_slice(bytes);
    }

    fn bytes(&mut self) -> &mut [u8] {
        &mut self.room[self.from..self.to]
    }

    /// The first guard byte that was written, counted from the buffer's start.
    fn broken(&self) -> Option<isize> {
        (0..self.from)
            .chain(self.to..self.to + GUARD)
            .find(|&at| self.room[at] != self.guard(at))
            .map(|at| at as isize - self.from as isize)
    }
}

pub struct Desk {
    pub seed: u64,
    pub part: &'static str,
    pub turn: u64,
    pub calls: u64,
    /// Take what the archive does for granted, so that only the checks on whole
    /// lists and cases are left. Used to show that these can fail too.
    pub without_model: bool,
    pairs: [[u64; NUMBERS]; COMMANDS],
    pub sides: Sides,
    pub runs: Runs,
    pub wishes: Wishes,
    pub images: Images,
    pub frees: Frees,
    pub pages: Pages,
    pub alone: Alone,
    pub plans: Plans,
    /// What the last call left in the buffer it was lent.
    pub buffer: Vec<u8>,
    /// The index that the last call gave beside the number; 0 but for plans.
    pub index: u32,
    block_room: Lent,
    slip_room: Lent,
    buffer_room: Lent,
    source_rooms: [Lent; SOURCES],
}

impl Desk {
    pub fn new(seed: u64) -> Desk {
        Desk {
            seed,
            part: "",
            turn: 0,
            calls: 0,
            without_model: false,
            pairs: [[0; NUMBERS]; COMMANDS],
            sides: Sides::default(),
            runs: Runs::default(),
            wishes: Wishes::default(),
            images: Images::default(),
            frees: Frees::default(),
            pages: Pages::default(),
            alone: Alone::default(),
            plans: Plans::default(),
            buffer: Vec::new(),
            index: 0,
            block_room: Lent::new(),
            slip_room: Lent::new(),
            buffer_room: Lent::new(),
            source_rooms: std::array::from_fn(|_| Lent::new()),
        }
    }

    /// Makes the call on both and leaves in `block`, `slip` and `self.buffer` what both left.
    /// A function that the archive does not define is done by the model alone
    /// and is not counted.
    pub fn call(&mut self, call: &Call, block: &mut [u8], slip: &mut [u8]) -> u32 {
        let command = call.command();
        self.buffer = call.buffer().to_vec();
        if !command.is_there() {
            let (number, index) = call.on_model(block, slip, &mut self.buffer);
            self.index = index;
            return number;
        }
        self.calls += 1;
        let place = Where {
            seed: self.seed,
            part: self.part,
            turn: self.turn,
            number: self.calls,
            call: call.clone(),
            block_len: block.len(),
            slip_len: slip.len(),
        };
        self.block_room.fill(block, self.calls);
        self.slip_room.fill(slip, self.calls.wrapping_mul(7) + 3);
        self.buffer_room
            .fill(&self.buffer, self.calls.wrapping_mul(3) + 2);
        let sources = call.sources();
        for (i, (room, source)) in self.source_rooms.iter_mut().zip(&sources).enumerate() {
            let turn = self.calls.wrapping_mul(5 + 4 * i as u64) + 1;
            room.fill_aligned(source.1, turn, call.alignment(i));
        }
        let lent: Vec<(*const u8, usize)> = (call.lent().into_iter())
            .map(|i| {
                let bytes = self.source_rooms[i].bytes();
                (bytes.as_ptr(), bytes.len())
            })
            .collect();

        *NOW.lock().expect("never poisoned") = Some(place.clone());
        // The rooms are as many buffers, and each is filled.
        let (got, index) = unsafe {
            call.on_archive(
                self.block_room.bytes(),
                self.slip_room.bytes(),
                self.buffer_room.bytes(),
                &lent,
            )
        };
        *NOW.lock().expect("never poisoned") = None;
        DONE.store(self.calls, Ordering::Relaxed);
        self.index = index;

        if self.without_model {
            block.copy_from_slice(self.block_room.bytes());
            slip.copy_from_slice(self.slip_room.bytes());
            self.buffer.copy_from_slice(self.buffer_room.bytes());
            return got;
        }
        let before = block.to_vec();
        let slip_before = slip.to_vec();
        let (wanted, wanted_index) = call.on_model(block, slip, &mut self.buffer);

        let mut wrong = String::new();
        if got != wanted {
            wrong += &format!("  number: archive {got}, model {wanted}\n");
        }
        if index != wanted_index {
            wrong += &format!("  index: archive {index}, model {wanted_index}\n");
        }
        if !command.allowed().contains(&got) {
            wrong += &format!("  number: {got} is not one that this command can give\n");
        }
        let written = [
            ("block", &mut self.block_room, &*block, &before[..]),
            ("slip", &mut self.slip_room, &*slip, &slip_before),
            ("buffer", &mut self.buffer_room, &self.buffer, call.buffer()),
        ];
        let read = self.source_rooms.iter_mut().zip(&sources);
        let read = read.map(|(room, (what, source))| (*what, room, &source[..], &source[..]));
        for (what, room, wanted, before) in written.into_iter().chain(read) {
            if let Some(at) = room.broken() {
                wrong += &format!("  a byte outside the lent {what} was written, at {at}\n");
            }
            if room.bytes() != wanted {
                let at = (0..wanted.len())
                    .find(|&at| room.bytes()[at] != wanted[at])
                    .expect("one differs");
                wrong += &format!(
                    "  {what} byte {at}: archive {:#04x}, model {:#04x}, before the call {:#04x}\n",
                    room.bytes()[at],
                    wanted[at],
                    before[at],
                );
            }
        }
        if !wrong.is_empty() {
            eprintln!("DIFFERENCE");
            eprintln!("{}", place.text());
            eprint!("{wrong}");
            eprintln!("{}", describe(&before));
            for (what, source) in &sources {
                match command {
                    Command::Intake => eprint!("{}", entries(source)),
                    Command::Convert => eprintln!("{}", describe_old(source)),
                    _ if what.ends_with("tree") => eprint!("  {what}:\n{}", tree(source)),
                    _ => {}
                }
            }
            if let Call::Plan { columns, .. } = call {
                eprint!("{}", plans::described(columns));
            }
            std::process::exit(1);
        }
        self.pairs[command as usize][got as usize] += 1;
        // Searches that no check refused; in allocate 6 speaks of an address found.
        if command.searches() && matches!(got, 0 | 5 | 6) {
            self.sides.note(call, &before, got, slip);
            self.runs.note(call, &before, got, slip);
            self.wishes.note(call, &before, got);
            self.images.note(call, &before, got, slip);
        }
        if command == Command::Free && got != number::NOT_GOOD {
            self.frees.note(call, &before, got);
        }
        if command == Command::Pages && got == number::DONE {
            self.pages.note(call, &before, &self.buffer, slip);
        }
        if let Call::Plan { columns, .. } = call {
            self.plans.note(command, columns, &before, got, index);
        }
        got
    }

    /// Stops with a message of a check other than a single call.
    pub fn fail(&self, message: &str) -> ! {
        eprintln!("DIFFERENCE");
        eprintln!(
            "  seed {}, part {}, turn {}, after call number {}",
            self.seed, self.part, self.turn, self.calls
        );
        eprintln!("  {message}");
        std::process::exit(1);
    }

    /// The pairs of command and number that should have been met, with counts.
    pub fn pairs(&self) -> Vec<(Command, u32, u64)> {
        let mut list = Vec::new();
        for command in Command::all().filter(|c| c.is_there()) {
            for &number in command.allowed() {
                let count = self.pairs[command as usize][number as usize];
                list.push((command, number, count));
            }
        }
        list
    }
}

/// The block before the call, in words.
fn describe(block: &[u8]) -> String {
    let state = match model::Board::read(block) {
        Some(_) => "good",
        None => "not good",
    };
    let text = format!("  the block before the call was {state}");
    text + &contents(block, [&MEMORY, &TAKEN])
}

/// The old block of a conversion, in words.
fn describe_old(old: &[u8]) -> String {
    let state = match model::Board::read_edition_1(old) {
        Some(_) => "good",
        None => "not good",
    };
    let text = format!("  the old block was {state}");
    text + &contents(old, [&EDITION_1.memory, &EDITION_1.taken])
}

/// A block's first bytes and records, a line each.
fn contents(block: &[u8], bodies: [&Body; 2]) -> String {
    let mut text = String::new();
    if block.len() >= 80 {
        let head: Vec<String> = block[..80]
            .chunks(4)
            .map(|word| word.iter().map(|b| format!("{b:02x}")).collect())
            .collect();
        text += &format!("\n  its first 80 bytes: {}", head.join(" "));
    }
    for (what, body) in ["memory", "taken"].into_iter().zip(bodies) {
        let list = read_recs(block, body);
        text += &format!("\n  {what} records: {}", list.len());
        for rec in list.iter().take(6) {
            text += &format!(
                "\n    base {:#x} size {:#x} flags {} node {}",
                rec.base, rec.size, rec.flags, rec.node
            );
        }
        if list.len() > 6 {
            text += "\n    ...";
        }
    }
    text
}

/// The first entries of a report, a line each.
fn entries(report: &[u8]) -> String {
    let entries = report.chunks_exact(REPORT_ENTRY_LEN);
    let more = entries.len().saturating_sub(12);
    let mut text = String::new();
    for entry in entries.take(12) {
        text += &format!(
            "  entry base {:#x} length {:#x} kind {:#x}\n",
            get_u64(entry, 0),
            get_u64(entry, 8),
            get_u32(entry, 16)
        );
    }
    if more > 0 {
        text += &format!("  and {more} more\n");
    }
    text
}

/// What the model makes of a tree, and its bytes, if they are few.
fn tree(bytes: &[u8]) -> String {
    let mut text = match model::tree::asks(bytes) {
        Ok(asks) => {
            let more = asks.len().saturating_sub(12);
            let first: Vec<String> = asks
                .iter()
                .take(12)
                .map(|a| format!("  {a:x?}\n"))
                .collect();
            format!("{}  and {more} more\n", first.concat())
        }
        Err(faults) => format!("  the tree has {faults:?}\n"),
    };
    for line in bytes.chunks(32).take(64) {
        let words: Vec<String> = line
            .chunks(4)
            .map(|word| word.iter().map(|b| format!("{b:02x}")).collect())
            .collect();
        text += &format!("  {}\n", words.join(" "));
    }
    text
}

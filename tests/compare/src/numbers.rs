//! Numbers for calls, most of them near something the block holds.

use crate::blocks::{get_u64, read_recs, some_flags, Rec};
use crate::call::{Call, Command};
use crate::editions;
use crate::flattened;
use crate::pages;
use crate::pairs;
use crate::reports;
use crate::rng::Rng;
use model::layout::*;
use model::{Board, Query, Run, Wish};

const SPECIAL: [u64; 18] = [
    0,
    1,
    2,
    4095,
    4096,
    4097,
    0x10000,
    (1 << 32) - 1,
    1 << 32,
    (1 << 63) - 1,
    1 << 63,
    (1 << 63) + 1,
    u64::MAX - 4096,
    u64::MAX - 4095,
    u64::MAX - 4094,
    u64::MAX - 2,
    u64::MAX - 1,
    u64::MAX,
];

/// Page numbers at an edge of pieces or of the space, and above it.
const PAGE_NUMBERS: [u64; 14] = [
    1,
    2,
    1023,
    1024,
    1025,
    1 << 32,
    (1 << 51) - 1,
    1 << 51,
    (1 << 52) - 1024,
    (1 << 52) - 1,
    1 << 52,
    (1 << 52) + 1,
    1 << 63,
    u64::MAX,
];

/// What is known of the block that the next call gets.
pub struct Near {
    limit: u64,
    image_end: u64,
    edges: Vec<u64>,
    /// The taken records, but for those that cannot be in a table.
    taken: Vec<Rec>,
    runs: Vec<Run>,
    nodes: Vec<u32>,
}

impl Near {
    pub fn to(block: &[u8]) -> Near {
        let mut edges = Vec::new();
        let mut nodes = Vec::new();
        for body in [&MEMORY, &TAKEN] {
            for rec in read_recs(block, body) {
                edges.push(rec.base);
                edges.push(rec.end());
                if nodes.len() < 16 {
                    nodes.push(rec.node);
                }
            }
        }
        let mut taken = read_recs(block, &TAKEN);
        taken.retain(|rec| rec.base < rec.end());
        let runs = Board::read(block).map_or(Vec::new(), |board| board.free_runs());
        let (limit, image_end) = match block.len() {
            BLOCK_LEN => (get_u64(block, LIMIT_AT), get_u64(block, IMAGE_END_AT)),
            _ => (u64::MAX, NO_IMAGE),
        };
        Near {
            limit,
            image_end,
            edges,
            taken,
            runs,
            nodes,
        }
    }

    /// An address: an edge or one beside it, a special number, or any.
    pub fn address(&self, rng: &mut Rng) -> u64 {
        let edge = |rng: &mut Rng| match self.edges.len() {
            0 => 0x10000 * rng.below(16),
            n => self.edges[rng.index(n)],
        };
        match rng.below(20) {
            0..=5 => edge(rng),
            6..=8 => edge(rng).wrapping_add(1),
            9..=11 => edge(rng).wrapping_sub(1),
            12 | 13 => {
                // Between two edges.
                let (a, b) = (edge(rng), edge(rng));
                a.min(b)
                    .wrapping_add(rng.below(a.abs_diff(b).saturating_add(1)))
            }
            14 => edge(rng).wrapping_add(rng.below(0x2000)),
            15 => 0x1000 * rng.below(64),
            16 | 17 => rng.pick(&SPECIAL),
            _ => rng.any_size(),
        }
    }

    /// A start in a free run, and the run's end or an address beside it.
    fn at_a_run_end(&self, rng: &mut Rng) -> (u64, u64) {
        let run = self.runs[rng.index(self.runs.len())];
        let (lo, hi) = (run.lo as u64, run.hi as u64);
        let end = rng.beside(hi);
        (lo + rng.below(hi - lo), end)
    }

    /// A base and a size for a table command.
    pub fn range(&self, rng: &mut Rng) -> (u64, u64) {
        let base = self.address(rng);
        let size = match rng.below(20) {
            0 => 0,
            1..=10 => {
                // Up to another address.
                let end = self.address(rng);
                if end >= base {
                    end - base
                } else {
                    return (end, base - end);
                }
            }
            11..=14 => 1 + rng.below(4),
            15 => 1 << rng.below(20),
            16 => rng.pick(&SPECIAL),
            17 => (u64::MAX - base).wrapping_add(rng.below(3)),
            18 => u64::MAX - rng.below(3),
            _ => rng.any_size(),
        };
        (base, size)
    }

    /// A base and a size for free: often what a record has, a part of it, one address more
    /// at either end, what touches it, or what goes on to the next record.
    pub fn to_free(&self, rng: &mut Rng) -> (u64, u64) {
        if self.taken.is_empty() || rng.one_in(4) {
            return self.range(rng);
        }
        let which = rng.index(self.taken.len());
        let rec = self.taken[which];
        let (lo, hi) = (rec.base, rec.end());
        let before = lo.saturating_sub(1);
        let behind = hi.saturating_add(1);
        let inside = lo + rng.below(rec.size);
        let (from, to) = match rng.below(16) {
            0 => (lo, hi),
            1 | 2 => (lo, inside + 1),
            3 | 4 => (inside, hi),
            5 | 6 if rec.size > 2 => {
                let from = lo + 1 + rng.below(rec.size - 2);
                (from, from + 1 + rng.below(hi - 1 - from))
            }
            7 => (lo, behind),
            8 => (inside, behind),
            9 => (before, hi),
            10 => (before, inside + 1),
            11 => (hi, hi.saturating_add(1 + rng.below(4))),
            12 => (lo.saturating_sub(1 + rng.below(4)), lo),
            13 | 14 => match self.taken.get(which + 1) {
                Some(next) => (
                    rng.pick(&[lo, hi - 1, hi]),
                    rng.pick(&[next.base, next.base + 1, next.end()]),
                ),
                None => (before, behind),
            },
            _ => (inside, inside),
        };
        (from, to.saturating_sub(from))
    }

    /// Of a full taken table a range that makes two records one, and one that touches
    /// none.
    pub fn joining_and_apart(&self, rng: &mut Rng) -> Option<[(u64, u64); 2]> {
        if self.taken.len() < TAKEN.capacity {
            return None;
        }
        let gaps: Vec<(u64, u64)> = (self.taken.windows(2))
            .map(|two| (two[0].end(), two[1].base - two[0].end()))
            .collect();
        let wide: Vec<(u64, u64)> = gaps.iter().copied().filter(|gap| gap.1 > 2).collect();
        if wide.is_empty() {
            return None;
        }
        let apart = rng.pick(&wide);
        Some([rng.pick(&gaps), (apart.0 + 1, apart.1 - 2)])
    }

    /// The parts of the taken records between two addresses.
    pub fn taken_between(&self, lo: u64, hi: u64) -> Vec<(u64, u64)> {
        let parts = self.taken.iter();
        let parts = parts.map(|rec| (rec.base.max(lo), rec.end().min(hi)));
        parts.filter(|part| part.0 < part.1).collect()
    }

    pub fn alignment(&self, rng: &mut Rng, faults: u64) -> u64 {
        if rng.percent(faults) {
            return match rng.below(4) {
                0 => 0,
                1 => rng.pick(&[3, 5, 6, 7, 12, 4095, 4097, 0x3000]),
                2 => rng.pick(&[(1 << 63) + 1, 3 << 62, u64::MAX]),
                _ => 1 << rng.below(63) | 1 << 63,
            };
        }
        match rng.below(10) {
            0..=3 => 1,
            4..=7 => 1 << rng.below(14),
            _ => 1 << rng.below(64),
        }
    }

    pub fn search_node(&self, rng: &mut Rng, faults: u64) -> u32 {
        if rng.percent(faults) {
            return match rng.below(3) {
                0 => NODES,
                1 => ANY_NODE - 1,
                _ => NODES + rng.below(u64::from(ANY_NODE - NODES)) as u32,
            };
        }
        match rng.below(10) {
            0 => rng.below(NODES.into()) as u32,
            1..=3 if !self.nodes.is_empty() => rng.pick(&self.nodes).min(NODES - 1),
            4 => rng.pick(&[0, 1, NODES - 1]),
            _ => ANY_NODE,
        }
    }

    /// A wish, any or one that some memory meets; a wrong one is above 3, often just so.
    pub fn wish(&self, rng: &mut Rng, faults: u64) -> u32 {
        if rng.percent(faults) {
            return match rng.below(4) {
                0 => WISH_BOTH + 1,
                1 => u32::MAX - rng.below(4) as u32,
                2 => rng.pick(&[5, 6, 7, 8, 16, 256, 1 << 16, 1 << 31]),
                _ => WISH_BOTH + 1 + rng.below(u64::from(u32::MAX - WISH_BOTH)) as u32,
            };
        }
        // Often the one that rules nothing out, so that what else is asked decides.
        if rng.one_in(3) {
            return WISH_HOTPLUG;
        }
        let wish = rng.below(u64::from(WISH_BOTH) + 1) as u32;
        if self.runs.is_empty() || rng.one_in(3) {
            return wish;
        }
        // One that grants some free run, by what else it asks for.
        let tag = self.runs[rng.index(self.runs.len())].tag;
        let mut wish = Wish::named(wish).expect("a wish");
        wish.allows_hotplug |= tag.hotplug;
        wish.demands_mirror &= tag.mirror;
        WISH_HOTPLUG * u32::from(wish.allows_hotplug) + WISH_MIRROR * u32::from(wish.demands_mirror)
    }

    /// The flag of a mark; a wrong one is none, a sum of flags, or above them.
    pub fn flag(&self, rng: &mut Rng, faults: u64) -> u32 {
        if rng.percent(faults) {
            return match rng.below(4) {
                0 => 0,
                1 => rng.pick(&[3, 5, 6, 7]),
                2 => rng.pick(&[8, 9, 12, 16, 256, 1 << 16, 1 << 31]),
                _ => FLAGS + 1 + rng.below(u64::from(u32::MAX - FLAGS)) as u32,
            };
        }
        rng.pick(&[HOTPLUG, MIRROR, NO_MAP])
    }

    fn tag(&self, rng: &mut Rng, faults: u64) -> (u32, u32) {
        let flags = if rng.percent(faults) {
            match rng.below(3) {
                0 => FLAGS + 1,
                1 => rng.pick(&[9, 12, 15, 16, 256, 1 << 16, 1 << 31]),
                _ => u32::MAX - rng.below(u64::from(FLAGS) + 1) as u32,
            }
        } else {
            some_flags(rng)
        };
        let node = if rng.percent(faults) {
            rng.pick(&[NODES, NODES + 1, 256, 1 << 16, 1 << 31, u32::MAX])
        } else {
            match rng.below(4) {
                0 => 0,
                1 => 1,
                2 if !self.nodes.is_empty() => rng.pick(&self.nodes).min(NODES - 1),
                _ => rng.below(NODES.into()) as u32,
            }
        };
        (flags, node)
    }

    fn query(&self, rng: &mut Rng, faults: u64) -> Query {
        let alignment = self.alignment(rng, faults);
        let step = u128::from(alignment.max(1));
        // A size that just fits, or just does not, some free run as aligned.
        let fitting = |rng: &mut Rng| -> u64 {
            let run = self.runs[rng.index(self.runs.len())];
            let lo = match rng.below(3) {
                0 => run.lo,
                _ => run.lo.div_ceil(step) * step,
            };
            let room = run.hi.saturating_sub(lo.max(LOWEST_START));
            let room = u64::try_from(room).unwrap_or(u64::MAX);
            match rng.below(6) {
                0 => room.saturating_add(1),
                1 => room.saturating_sub(1),
                2 => room / 2,
                3 => 1 + rng.below(room.max(1)),
                _ => room,
            }
        };
        let size = if rng.percent(faults) {
            0
        } else {
            match rng.below(12) {
                0..=4 if !self.runs.is_empty() => fitting(rng).max(1),
                5..=7 => 1 + rng.below(8),
                8 | 9 => 1 << rng.below(16),
                10 => rng.pick(&SPECIAL).max(1),
                _ => rng.any_size().max(1),
            }
        };
        let start = match rng.below(12) {
            0..=6 => 0,
            7 => rng.pick(&[4095, 4096, 4097]),
            8 => rng.beside(self.limit),
            9 => rng.beside(self.image_end),
            _ => self.address(rng),
        };
        let end = match rng.below(13) {
            0..=4 => 0,
            5 => u64::MAX,
            6 | 7 => rng.beside(self.limit),
            8 => rng.beside(self.image_end),
            9 => rng.beside(start.wrapping_add(size)),
            _ => self.address(rng),
        };
        let (start, end) = match rng.below(8) {
            0 if !self.runs.is_empty() => self.at_a_run_end(rng),
            _ => (start, end),
        };
        Query {
            size,
            alignment,
            start,
            end,
            node: self.search_node(rng, faults),
            wish: self.wish(rng, faults),
        }
    }

    /// A page: 0, one at a free run's ends or inside it, often where a large piece may begin,
    /// an address' page, an address taken for a page, a special number, or any.
    pub fn page(&self, rng: &mut Rng) -> u64 {
        match rng.below(20) {
            0..=2 => 0,
            3 => rng.pick(&PAGE_NUMBERS),
            4 => self.address(rng),
            5 => rng.any_size(),
            6 | 7 => {
                let page = self.address(rng) / PAGE_LEN as u64;
                rng.beside(page)
            }
            _ if self.runs.is_empty() => rng.below(64),
            _ => {
                let run = rng.pick(&self.runs);
                pages::some_page(rng, &run)
            }
        }
    }

    /// A call with each checked number at fault in `faults` of 100 calls.
    pub fn call(&self, rng: &mut Rng, command: Command, faults: u64) -> Call {
        match command {
            Command::Fresh => Call::Fresh,
            Command::Set => Call::Set {
                limit: match rng.below(3) {
                    0 => u64::MAX,
                    _ => self.address(rng),
                },
                direction: if rng.percent(faults) {
                    rng.pick(&[2, 3, 256, 1 << 31, u32::MAX])
                } else {
                    rng.below(2) as u32
                },
            },
            Command::SetImageEnd => Call::SetImageEnd {
                end: match rng.below(5) {
                    0 => NO_IMAGE,
                    1 => rng.beside(self.limit),
                    _ => self.address(rng),
                },
            },
            Command::Add => {
                let (base, size) = self.range(rng);
                let (flags, node) = self.tag(rng, faults);
                Call::Add {
                    base,
                    size,
                    flags,
                    node,
                }
            }
            Command::Trim => Call::Trim {
                alignment: self.alignment(rng, faults),
            },
            Command::NextFree => Call::NextFree {
                from: match rng.below(4) {
                    0 => 0,
                    _ => self.address(rng),
                },
                node: self.search_node(rng, faults),
                wish: self.wish(rng, faults),
            },
            Command::Find => Call::Find(self.query(rng, faults)),
            Command::Allocate => Call::Allocate(self.query(rng, faults)),
            Command::Pages => Call::Pages {
                from: self.page(rng),
                buffer: pages::some_buffer(rng).into(),
            },
            Command::Intake => Call::Intake(reports::some(rng, self, faults).into()),
            Command::IntakeTree => Call::IntakeTree(flattened::some(rng, self, faults).into()),
            Command::IntakeTrees => pairs::some(rng, self, faults),
            Command::Lookup => pairs::some_lookup(rng, self, faults),
            Command::Convert => Call::Convert(editions::some_old(rng, faults).into()),
            Command::Mark | Command::Unmark => {
                let (base, size) = self.range(rng);
                Call::Mark {
                    command,
                    base,
                    size,
                    flag: self.flag(rng, faults),
                }
            }
            Command::PlanNumbers | Command::PlanLines => {
                unreachable!("plans have a part of their own")
            }
            _ => {
                let (base, size) = match command {
                    Command::Free => self.to_free(rng),
                    _ => self.range(rng),
                };
                Call::Range {
                    command,
                    base,
                    size,
                }
            }
        }
    }
}

/// A slip with any content, in `faults` of 100 cases of another length.
pub fn slip(rng: &mut Rng, faults: u64) -> Vec<u8> {
    let len = if rng.percent(faults) {
        match rng.below(3) {
            0 => rng.pick(&[0, 15, 17]),
            1 => rng.pick(&[1, 8, 14, 24, 32]),
            _ => loop {
                let len = rng.index(80);
                if len != SLIP_LEN {
                    break len;
                }
            },
        }
    } else {
        SLIP_LEN
    };
    match rng.below(4) {
        0 => vec![0; len],
        1 => vec![0xFF; len],
        _ => rng.bytes(len),
    }
}

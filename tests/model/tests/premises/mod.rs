//! Request E13 as a table: for each premise pairs of blocks and finds that differ in it
//! alone and are answered otherwise; pairs that differ in nothing the request names, which
//! are answered alike; and two blocks on which find is, but allocate is not. For the
//! model's tests and the comparison.

use model::layout::{ANY_NODE, HOTPLUG, MIRROR, NO_IMAGE, NO_MAP, SLIP_LEN, WISH_HOTPLUG};
use model::layout::{TAKEN, WISH_BOTH, WISH_MIRROR};
use model::Query;

/// The two numbers of a slip, or the refusal: after 8 the slip is as lent, after another
/// it is all zero.
pub type Answer = Result<(u64, u64), u32>;

/// A block, a find on it and the answer. All ranges are of whole pages below `TOP`.
#[derive(Clone, Copy)]
pub struct Side {
    pub good: bool,
    pub direction: u32,
    pub limit: u64,
    pub image_end: u64,
    /// From, to, flags, node; no two share an address.
    pub memory: &'static [(u64, u64, u32, u32)],
    /// From, to.
    pub taken: &'static [(u64, u64)],
    /// So many single pages taken, apart from each other, from `TOP` on.
    pub elsewhere: u64,
    pub query: Query,
    /// The slip's length, and what is in each of its bytes.
    pub slip: (usize, u8),
    pub answer: Answer,
}

const PAGE: u64 = 0x1000;
const TOP: u64 = 0x40000;
const TOP_DOWN: u32 = 0;
const BOTTOM_UP: u32 = 1;

impl Side {
    /// All that is taken, as (from, to).
    pub fn all_taken(&self) -> Vec<(u64, u64)> {
        let apart = (0..self.elsewhere).map(|i| TOP + 2 * i * PAGE);
        let apart = apart.map(|lo| (lo, lo + PAGE));
        self.taken.iter().copied().chain(apart).collect()
    }

    /// The slip after a call with this answer.
    pub fn slip_after(&self, answer: Answer) -> Vec<u8> {
        match answer {
            Ok((a, end)) => [a.to_le_bytes(), end.to_le_bytes()].concat(),
            Err(8) => vec![self.slip.1; self.slip.0],
            Err(_) => vec![0; SLIP_LEN],
        }
    }

    /// The number and the slip that find must give.
    pub fn wanted(&self) -> (u32, Vec<u8>) {
        (self.answer.err().unwrap_or(0), self.slip_after(self.answer))
    }

    /// Whether what is said of pages is said of all addresses.
    fn is_of_pages(&self) -> bool {
        let whole = |x: u64| x <= TOP && x.is_multiple_of(PAGE);
        self.memory.iter().all(|rec| whole(rec.0) && whole(rec.1))
            && self.taken.iter().all(|t| whole(t.0) && whole(t.1))
    }

    /// A page of the node's memory: its flags, and whether it is taken.
    fn of_node(&self, node: u32, page: u64) -> Option<(u32, bool)> {
        let holds = |lo: u64, hi: u64| lo <= page && page < hi;
        let mut memory = self.memory.iter();
        let rec = memory.find(|rec| rec.3 == node && holds(rec.0, rec.1))?;
        Some((rec.2, self.taken.iter().any(|t| holds(t.0, t.1))))
    }
}

/// The request's premises.
pub const PREMISES: [&str; 16] = [
    "the blocks are good",
    "direction",
    "limit",
    "image end",
    "the node's memory addresses",
    "their tags",
    "which of them are taken",
    "the node is named",
    "size",
    "alignment",
    "start",
    "end",
    "node",
    "wish",
    "the slip's length",
    "the slip's bytes",
];

/// The premises that a pair does not keep, found page by page.
pub fn broken([a, b]: &[Side; 2]) -> Vec<&'static str> {
    assert!(a.is_of_pages() && b.is_of_pages());
    let node = a.query.node;
    let pages = (0..TOP).step_by(PAGE as usize);
    let pages: Vec<_> = pages
        .map(|page| (a.of_node(node, page), b.of_node(node, page)))
        .collect();
    let shared: Vec<_> = pages.iter().filter_map(|two| two.0.zip(two.1)).collect();
    let (p, q) = (&a.query, &b.query);
    let broken = [
        !a.good || !b.good,
        a.direction != b.direction,
        a.limit != b.limit,
        a.image_end != b.image_end,
        pages.iter().any(|two| two.0.is_some() != two.1.is_some()),
        shared.iter().any(|(one, other)| one.0 != other.0),
        shared.iter().any(|(one, other)| one.1 != other.1),
        node == ANY_NODE || q.node == ANY_NODE,
        p.size != q.size,
        p.alignment != q.alignment,
        p.start != q.start,
        p.end != q.end,
        p.node != q.node,
        p.wish != q.wish,
        a.slip.0 != b.slip.0,
        a.slip.1 != b.slip.1,
    ];
    let names = PREMISES.into_iter().zip(broken);
    names.filter(|two| two.1).map(|two| two.0).collect()
}

/// Node 1 has 0x10000 to 0x20000, of which 0x18000 to 0x19000 is taken.
const DOWN: Side = Side {
    good: true,
    direction: TOP_DOWN,
    limit: u64::MAX,
    image_end: NO_IMAGE,
    memory: &[(0x10000, 0x20000, 0, 1)],
    taken: &[(0x18000, 0x19000)],
    elsewhere: 0,
    query: QUERY,
    slip: (SLIP_LEN, 0x77),
    answer: Ok((0x1F000, 0x20000)),
};

const QUERY: Query = Query {
    size: 0x1000,
    alignment: 0x1000,
    start: 0,
    end: 0,
    node: 1,
    wish: 0,
};

const UP: Side = Side {
    direction: BOTTOM_UP,
    answer: Ok((0x10000, 0x18000)),
    ..DOWN
};

/// The same with another answer, and with other numbers of the call.
const fn gives(side: Side, answer: Answer) -> Side {
    Side { answer, ..side }
}

const fn asked(side: Side, query: Query, answer: Answer) -> Side {
    Side {
        query,
        answer,
        ..side
    }
}

const fn of_node(node: u32) -> Query {
    Query { node, ..QUERY }
}

const fn wishing(wish: u32) -> Query {
    Query { wish, ..QUERY }
}

/// Node 1's upper part with flags, and all of it.
const UPPER_HOTPLUG: &[(u64, u64, u32, u32)] =
    &[(0x10000, 0x1E000, 0, 1), (0x1E000, 0x20000, HOTPLUG, 1)];
const UPPER_NO_MAP: &[(u64, u64, u32, u32)] =
    &[(0x10000, 0x1E000, 0, 1), (0x1E000, 0x20000, NO_MAP, 1)];
const INNER_MIRROR: &[(u64, u64, u32, u32)] = &[
    (0x10000, 0x14000, 0, 1),
    (0x14000, 0x18000, MIRROR, 1),
    (0x18000, 0x20000, 0, 1),
];
const ALL_MIRROR: &[(u64, u64, u32, u32)] = &[(0x10000, 0x20000, MIRROR, 1)];
/// Two nodes that touch.
const TWO_NODES: &[(u64, u64, u32, u32)] = &[(0x10000, 0x20000, 0, 1), (0x20000, 0x30000, 0, 2)];
/// Node 1 with a page less, which is no memory, or another node's.
const SHORT: &[(u64, u64, u32, u32)] = &[(0x10000, 0x1F000, 0, 1)];
const ANOTHERS: &[(u64, u64, u32, u32)] = &[(0x10000, 0x1F000, 0, 1), (0x1F000, 0x20000, 0, 2)];

/// Pairs that differ in one premise alone, and get other answers.
pub const NEEDED: [(&str, [Side; 2]); 29] = [
    (
        "the blocks are good",
        [
            DOWN,
            Side {
                good: false,
                answer: Err(1),
                ..DOWN
            },
        ],
    ),
    ("direction", [DOWN, UP]),
    (
        "limit",
        [
            DOWN,
            Side {
                limit: 0x1F000,
                answer: Ok((0x1E000, 0x20000)),
                ..DOWN
            },
        ],
    ),
    (
        "limit",
        [
            UP,
            Side {
                limit: 0x10FFF,
                answer: Err(5),
                ..UP
            },
        ],
    ),
    // Above the image, and the other way.
    (
        "image end",
        [
            UP,
            Side {
                image_end: 0x12000,
                answer: Ok((0x12000, 0x18000)),
                ..UP
            },
        ],
    ),
    (
        "image end",
        [
            UP,
            Side {
                image_end: 0x1F001,
                answer: Ok((0x1F000, 0x20000)),
                ..UP
            },
        ],
    ),
    (
        "the node's memory addresses",
        [
            DOWN,
            Side {
                memory: SHORT,
                answer: Ok((0x1E000, 0x1F000)),
                ..DOWN
            },
        ],
    ),
    (
        "the node's memory addresses",
        [
            DOWN,
            Side {
                memory: ANOTHERS,
                answer: Ok((0x1E000, 0x1F000)),
                ..DOWN
            },
        ],
    ),
    (
        "the node's memory addresses",
        [
            DOWN,
            Side {
                memory: &[],
                answer: Err(5),
                ..DOWN
            },
        ],
    ),
    (
        "their tags",
        [
            DOWN,
            Side {
                memory: UPPER_HOTPLUG,
                answer: Ok((0x1D000, 0x1E000)),
                ..DOWN
            },
        ],
    ),
    (
        "their tags",
        [
            DOWN,
            Side {
                memory: UPPER_NO_MAP,
                answer: Ok((0x1D000, 0x1E000)),
                ..DOWN
            },
        ],
    ),
    (
        "their tags",
        [
            asked(DOWN, wishing(WISH_MIRROR), Err(5)),
            Side {
                memory: ALL_MIRROR,
                query: wishing(WISH_MIRROR),
                ..DOWN
            },
        ],
    ),
    // The run's end alone.
    (
        "their tags",
        [
            UP,
            Side {
                memory: INNER_MIRROR,
                answer: Ok((0x10000, 0x14000)),
                ..UP
            },
        ],
    ),
    (
        "which of them are taken",
        [
            DOWN,
            Side {
                taken: &[(0x18000, 0x19000), (0x1F000, 0x20000)],
                answer: Ok((0x1E000, 0x1F000)),
                ..DOWN
            },
        ],
    ),
    (
        "which of them are taken",
        [
            UP,
            Side {
                taken: &[],
                answer: Ok((0x10000, 0x20000)),
                ..UP
            },
        ],
    ),
    // All addresses that node 4294967295 has are the same: none.
    (
        "the node is named",
        [
            asked(DOWN, of_node(ANY_NODE), Ok((0x1F000, 0x20000))),
            Side {
                memory: SHORT,
                query: of_node(ANY_NODE),
                answer: Ok((0x1E000, 0x1F000)),
                ..DOWN
            },
        ],
    ),
    (
        "the node is named",
        [
            asked(DOWN, of_node(ANY_NODE), Ok((0x1F000, 0x20000))),
            Side {
                memory: TWO_NODES,
                query: of_node(ANY_NODE),
                answer: Ok((0x2F000, 0x30000)),
                ..DOWN
            },
        ],
    ),
    (
        "the node is named",
        [
            asked(UP, of_node(ANY_NODE), Ok((0x10000, 0x18000))),
            Side {
                taken: &[],
                query: of_node(ANY_NODE),
                answer: Ok((0x10000, 0x20000)),
                ..UP
            },
        ],
    ),
    (
        "size",
        [
            DOWN,
            asked(
                DOWN,
                Query {
                    size: 0x2000,
                    ..QUERY
                },
                Ok((0x1E000, 0x20000)),
            ),
        ],
    ),
    (
        "size",
        [DOWN, asked(DOWN, Query { size: 0, ..QUERY }, Err(4))],
    ),
    (
        "alignment",
        [
            DOWN,
            asked(
                DOWN,
                Query {
                    alignment: 0x8000,
                    ..QUERY
                },
                Ok((0x10000, 0x18000)),
            ),
        ],
    ),
    (
        "alignment",
        [
            DOWN,
            asked(
                DOWN,
                Query {
                    alignment: 0x1001,
                    ..QUERY
                },
                Err(3),
            ),
        ],
    ),
    (
        "start",
        [
            UP,
            asked(
                UP,
                Query {
                    start: 0x17001,
                    ..QUERY
                },
                Ok((0x19000, 0x20000)),
            ),
        ],
    ),
    (
        "end",
        [
            DOWN,
            asked(
                DOWN,
                Query {
                    end: 0x1F000,
                    ..QUERY
                },
                Ok((0x1E000, 0x20000)),
            ),
        ],
    ),
    (
        "node",
        [
            Side {
                memory: TWO_NODES,
                ..DOWN
            },
            Side {
                memory: TWO_NODES,
                query: of_node(2),
                answer: Ok((0x2F000, 0x30000)),
                ..DOWN
            },
        ],
    ),
    ("node", [DOWN, asked(DOWN, of_node(64), Err(2))]),
    (
        "wish",
        [
            Side {
                memory: UPPER_HOTPLUG,
                answer: Ok((0x1D000, 0x1E000)),
                ..DOWN
            },
            Side {
                memory: UPPER_HOTPLUG,
                query: wishing(WISH_HOTPLUG),
                ..DOWN
            },
        ],
    ),
    (
        "the slip's length",
        [
            DOWN,
            Side {
                slip: (15, 0x77),
                answer: Err(8),
                ..DOWN
            },
        ],
    ),
    // Both stay as lent.
    (
        "the slip's bytes",
        [
            Side {
                slip: (17, 0x77),
                answer: Err(8),
                ..DOWN
            },
            Side {
                slip: (17, 0x88),
                answer: Err(8),
                ..DOWN
            },
        ],
    ),
];

/// Node 1's memory with other nodes' on both sides, of its flags and of others.
const BETWEEN: &[(u64, u64, u32, u32)] = &[
    (0, 0x10000, 0, 0),
    (0x10000, 0x20000, 0, 1),
    (0x20000, 0x28000, 0, 2),
    (0x28000, 0x30000, MIRROR, 1),
    (0x30000, 0x40000, HOTPLUG, 63),
];
const APART: &[(u64, u64, u32, u32)] = &[
    (0x8000, 0xF000, NO_MAP, 3),
    (0x10000, 0x20000, 0, 1),
    (0x28000, 0x30000, MIRROR, 1),
];
const OWN: &[(u64, u64, u32, u32)] = &[(0x10000, 0x20000, 0, 1), (0x28000, 0x30000, MIRROR, 1)];

/// The same of node 1's is taken: in three records that reach beyond its memory, one of
/// them from the lower part to the upper, and in four that do not.
const ACROSS: &[(u64, u64)] = &[(0x8000, 0x11000), (0x1F000, 0x29000), (0x2F000, 0x34000)];
const INSIDE: &[(u64, u64)] = &[
    (0x10000, 0x11000),
    (0x1F000, 0x20000),
    (0x28000, 0x29000),
    (0x2F000, 0x30000),
];

const fn on(side: Side, memory: &'static [(u64, u64, u32, u32)]) -> Side {
    Side { memory, ..side }
}

const fn with(side: Side, taken: &'static [(u64, u64)]) -> Side {
    Side { taken, ..side }
}

/// Pairs that keep every premise.
pub const ALIKE: [[Side; 2]; 12] = [
    [
        on(gives(DOWN, Ok((0x2F000, 0x30000))), BETWEEN),
        on(gives(DOWN, Ok((0x2F000, 0x30000))), OWN),
    ],
    [on(UP, BETWEEN), on(UP, APART)],
    // Behind the run a node that touches, and nothing.
    [on(DOWN, TWO_NODES), DOWN],
    [
        on(DOWN, TWO_NODES),
        Side {
            elsewhere: 511,
            ..DOWN
        },
    ],
    [
        on(with(gives(UP, Ok((0x11000, 0x1F000))), ACROSS), BETWEEN),
        on(with(gives(UP, Ok((0x11000, 0x1F000))), INSIDE), OWN),
    ],
    [
        on(with(gives(DOWN, Ok((0x2E000, 0x2F000))), ACROSS), APART),
        on(with(gives(DOWN, Ok((0x2E000, 0x2F000))), INSIDE), BETWEEN),
    ],
    // The other way: no room of node 1 at or above the image end, of others there is.
    [
        Side {
            image_end: 0x2F000,
            memory: BETWEEN,
            taken: ACROSS,
            answer: Ok((0x2E000, 0x2F000)),
            ..UP
        },
        Side {
            image_end: 0x2F000,
            memory: OWN,
            taken: INSIDE,
            answer: Ok((0x2E000, 0x2F000)),
            ..UP
        },
    ],
    // No address, where another node has one.
    [
        asked(on(DOWN, BETWEEN), of_node(7), Err(5)),
        asked(on(with(DOWN, ACROSS), &[]), of_node(7), Err(5)),
    ],
    [
        asked(on(DOWN, BETWEEN), wishing(WISH_BOTH + 1), Err(2)),
        asked(on(DOWN, OWN), wishing(WISH_BOTH + 1), Err(2)),
    ],
    // Nodes that there cannot be.
    [
        asked(on(DOWN, BETWEEN), of_node(64), Err(2)),
        asked(on(with(DOWN, INSIDE), &[]), of_node(64), Err(2)),
    ],
    [
        asked(on(UP, BETWEEN), of_node(ANY_NODE - 1), Err(2)),
        asked(on(with(UP, &[]), OWN), of_node(ANY_NODE - 1), Err(2)),
    ],
    // A slip of another length.
    [
        Side {
            memory: BETWEEN,
            slip: (0, 0),
            answer: Err(8),
            ..DOWN
        },
        Side {
            memory: OWN,
            slip: (0, 0),
            answer: Err(8),
            ..DOWN
        },
    ],
];

/// Two blocks that agree for node 1. All 512 records of what is taken lie elsewhere in the
/// one, one less in the other: find gives the same, and allocate the numbers beside.
pub const ROOM: [(Side, Answer); 2] = [
    (
        Side {
            taken: &[],
            elsewhere: TAKEN.capacity as u64,
            ..DOWN
        },
        Err(6),
    ),
    (
        Side {
            taken: &[],
            elsewhere: TAKEN.capacity as u64 - 1,
            ..DOWN
        },
        Ok((0x1F000, 0x20000)),
    ),
];

//! One call with its numbers, to be made on the archive or on the model.

use crate::archive;
use crate::plans::Columns;
use model::Query;
use std::sync::Arc;

#[derive(Clone, Copy, Debug, PartialEq, Eq, Hash, PartialOrd, Ord)]
pub enum Command {
    Fresh,
    Set,
    SetImageEnd,
    Add,
    Remove,
    Mark,
    Unmark,
    Reserve,
    Free,
    Trim,
    NextFree,
    Find,
    Allocate,
    Pages,
    Intake,
    IntakeTree,
    IntakeTrees,
    Lookup,
    Convert,
    PlanNumbers,
    PlanLines,
}

use Command::*;

impl Command {
    /// Those that C calls.
    pub const OF_C: [Command; 19] = [
        Fresh,
        Set,
        SetImageEnd,
        Add,
        Remove,
        Mark,
        Unmark,
        Reserve,
        Free,
        Trim,
        NextFree,
        Find,
        Allocate,
        Pages,
        Intake,
        IntakeTree,
        IntakeTrees,
        Lookup,
        Convert,
    ];

    /// The plan of request E12, over numbers and over lines.
    pub const PLANS: [Command; 2] = [PlanNumbers, PlanLines];

    pub fn all() -> impl Iterator<Item = Command> {
        Command::OF_C.into_iter().chain(Command::PLANS)
    }

    /// The commands that demand 3 speaks of.
    pub const LISTED: [Command; 6] = [Add, Remove, Mark, Unmark, Reserve, Free];

    pub fn name(self) -> &'static str {
        match self {
            Fresh => "memblock_fresh",
            Set => "memblock_set",
            SetImageEnd => "memblock_set_image_end",
            Add => "memblock_add",
            Remove => "memblock_remove",
            Mark => "memblock_mark",
            Unmark => "memblock_unmark",
            Reserve => "memblock_reserve",
            Free => "memblock_free",
            Trim => "memblock_trim",
            NextFree => "memblock_next_free",
            Find => "memblock_find",
            Allocate => "memblock_allocate",
            Pages => "memblock_pages",
            Intake => "memblock_intake_e820",
            IntakeTree => "memblock_intake_tree",
            IntakeTrees => "memblock_intake_trees",
            Lookup => "memblock_lookup",
            Convert => "memblock_convert",
            PlanNumbers => "memblock_plan_numbers",
            PlanLines => "memblock_plan_lines",
        }
    }

    /// The numbers that document 01 and requests E1, E4, E6 to E10, E12 and E14 allow.
    pub fn allowed(self) -> &'static [u32] {
        match self {
            Fresh | SetImageEnd | Convert => &[0, 1],
            Set => &[0, 1, 7],
            Add | Mark | Unmark => &[0, 1, 2, 6],
            Remove | Reserve => &[0, 1, 6],
            Free => &[0, 1, 12, 6],
            Trim => &[0, 1, 3],
            NextFree => &[0, 8, 1, 2, 5],
            Find => &[0, 8, 1, 2, 3, 4, 5],
            Allocate => &[0, 8, 1, 2, 3, 4, 5, 6],
            Pages => &[0, 8, 1],
            Intake => &[0, 1, 10, 6],
            IntakeTree | IntakeTrees => &[0, 1, 11, 6],
            Lookup => &[0, 1, 2, 8, 11],
            PlanNumbers | PlanLines => &[0, 1, 14, 13, 6],
        }
    }

    pub fn searches(self) -> bool {
        matches!(self, NextFree | Find | Allocate)
    }

    pub fn takes_slip(self) -> bool {
        self.searches() || matches!(self, Pages | Lookup)
    }

    pub fn on_taken(self) -> bool {
        matches!(self, Reserve | Free)
    }

    pub fn is_there(self) -> bool {
        let defined = [archive::DEFINED, archive::PLANS];
        defined
            .into_iter()
            .any(|names| names.contains(&self.name()))
    }
}

#[derive(Clone, Debug, PartialEq, Eq, Hash)]
pub enum Call {
    Fresh,
    Set {
        limit: u64,
        direction: u32,
    },
    SetImageEnd {
        end: u64,
    },
    Add {
        base: u64,
        size: u64,
        flags: u32,
        node: u32,
    },
    /// Remove, reserve or free.
    Range {
        command: Command,
        base: u64,
        size: u64,
    },
    /// Mark or unmark.
    Mark {
        command: Command,
        base: u64,
        size: u64,
        flag: u32,
    },
    Trim {
        alignment: u64,
    },
    NextFree {
        from: u64,
        node: u32,
        wish: u32,
    },
    Find(Query),
    Allocate(Query),
    /// With the buffer's bytes as they are lent.
    Pages {
        from: u64,
        buffer: Arc<[u8]>,
    },
    /// With the report's bytes.
    Intake(Arc<[u8]>),
    /// With the tree's bytes.
    IntakeTree(Arc<[u8]>),
    /// With the bytes of both. Where they are one and the same, one buffer is lent twice;
    /// so for a lookup.
    IntakeTrees {
        board: Arc<[u8]>,
        service: Arc<[u8]>,
    },
    /// Takes no block.
    Lookup {
        service: Arc<[u8]>,
        board: Arc<[u8]>,
        path: Arc<[u8]>,
        name: Arc<[u8]>,
    },
    /// With the old block's bytes.
    Convert(Arc<[u8]>),
    /// With the lines' numbers, column by column.
    Plan {
        command: Command,
        columns: Arc<Columns>,
    },
}

impl Call {
    pub fn command(&self) -> Command {
        match *self {
            Call::Fresh => Fresh,
            Call::Set { .. } => Set,
            Call::SetImageEnd { .. } => SetImageEnd,
            Call::Add { .. } => Add,
            Call::Range { command, .. }
            | Call::Mark { command, .. }
            | Call::Plan { command, .. } => command,
            Call::Trim { .. } => Trim,
            Call::NextFree { .. } => NextFree,
            Call::Find(_) => Find,
            Call::Allocate(_) => Allocate,
            Call::Pages { .. } => Pages,
            Call::Intake(_) => Intake,
            Call::IntakeTree(_) => IntakeTree,
            Call::IntakeTrees { .. } => IntakeTrees,
            Call::Lookup { .. } => Lookup,
            Call::Convert(_) => Convert,
        }
    }

    /// The buffer's bytes as they are lent; none for a call that takes no buffer.
    pub fn buffer(&self) -> &[u8] {
        match self {
            Call::Pages { buffer, .. } => buffer,
            _ => &[],
        }
    }

    /// What the call only reads, with its names.
    pub fn sources(&self) -> Vec<(&'static str, &Arc<[u8]>)> {
        match self {
            Call::Intake(report) => vec![("report", report)],
            Call::IntakeTree(board) => vec![("board's tree", board)],
            Call::IntakeTrees { board, service } => {
                vec![("board's tree", board), ("service tree", service)]
            }
            Call::Lookup {
                service,
                board,
                path,
                name,
            } => vec![
                ("service tree", service),
                ("board's tree", board),
                ("path", path),
                ("name", name),
            ],
            Call::Convert(old) => vec![("old block", old)],
            Call::Plan { columns, .. } => columns.sources(),
            _ => vec![],
        }
    }

    /// What the address of a source is a multiple of.
    pub fn alignment(&self, source: usize) -> usize {
        match self {
            Call::Plan { columns, .. } => columns.width(source),
            _ => 1,
        }
    }

    /// Which source's buffer is lent for each.
    pub fn lent(&self) -> Vec<usize> {
        let sources = self.sources();
        let first = |i: usize| {
            let same = |other: &(_, &Arc<[u8]>)| Arc::ptr_eq(other.1, sources[i].1);
            sources.iter().position(same).expect("itself at least")
        };
        (0..sources.len()).map(first).collect()
    }

    /// The call as text, numbers in hexadecimal.
    pub fn text(&self) -> String {
        let name = self.command().name();
        let numbers: Vec<(&str, u64)> = match *self {
            Call::Fresh => vec![],
            Call::Set { limit, direction } => {
                vec![("limit", limit), ("direction", direction.into())]
            }
            Call::SetImageEnd { end } => vec![("end", end)],
            Call::Add {
                base,
                size,
                flags,
                node,
            } => vec![
                ("base", base),
                ("size", size),
                ("flags", flags.into()),
                ("node", node.into()),
            ],
            Call::Range { base, size, .. } => vec![("base", base), ("size", size)],
            Call::Mark {
                base, size, flag, ..
            } => vec![("base", base), ("size", size), ("flag", flag.into())],
            Call::Trim { alignment } => vec![("alignment", alignment)],
            Call::NextFree { from, node, wish } => {
                vec![("from", from), ("node", node.into()), ("wish", wish.into())]
            }
            Call::Find(q) | Call::Allocate(q) => vec![
                ("size", q.size),
                ("alignment", q.alignment),
                ("start", q.start),
                ("end", q.end),
                ("node", q.node.into()),
                ("wish", q.wish.into()),
            ],
            Call::Pages { from, ref buffer } => {
                vec![("from", from), ("buffer_length", buffer.len() as u64)]
            }
            Call::Intake(ref report) => vec![("report_length", report.len() as u64)],
            Call::IntakeTree(ref board) => vec![("board_length", board.len() as u64)],
            Call::IntakeTrees {
                ref board,
                ref service,
            } => vec![
                ("board_length", board.len() as u64),
                ("service_length", service.len() as u64),
            ],
            Call::Lookup {
                ref service,
                ref board,
                ..
            } => vec![
                ("service_length", service.len() as u64),
                ("board_length", board.len() as u64),
            ],
            Call::Convert(ref old) => vec![("old_length", old.len() as u64)],
            Call::Plan { ref columns, .. } => vec![("lines", columns.lines().len() as u64)],
        };
        let mut words: Vec<String> = numbers
            .iter()
            .map(|(what, x)| format!("{what} {x:#x}"))
            .collect();
        if let Call::Lookup { path, name, .. } = self {
            for (what, bytes) in [("path", path), ("name", name)] {
                words.push(format!("{what} \"{}\"", bytes.escape_ascii()));
            }
        }
        format!("{name}({})", words.join(", "))
    }

    /// The call on the model; `buffer` holds what is lent as buffer. Gives the number and
    /// the index, which only a plan has.
    pub fn on_model(&self, block: &mut [u8], slip: &mut [u8], buffer: &mut [u8]) -> (u32, u32) {
        let number = match *self {
            Call::Fresh => model::fresh(block),
            Call::Set { limit, direction } => model::set(block, limit, direction),
            Call::SetImageEnd { end } => model::set_image_end(block, end),
            Call::Add {
                base,
                size,
                flags,
                node,
            } => model::add(block, base, size, flags, node),
            Call::Range {
                command,
                base,
                size,
            } => match command {
                Remove => model::remove(block, base, size),
                Reserve => model::reserve(block, base, size),
                Free => model::free(block, base, size),
                other => unreachable!("{other:?} is not a range command"),
            },
            Call::Mark {
                command,
                base,
                size,
                flag,
            } => match command {
                Mark => model::mark(block, base, size, flag),
                Unmark => model::unmark(block, base, size, flag),
                other => unreachable!("{other:?} names no flag"),
            },
            Call::Trim { alignment } => model::trim(block, alignment),
            Call::NextFree { from, node, wish } => model::next_free(block, from, node, wish, slip),
            Call::Find(query) => model::find(block, &query, slip),
            Call::Allocate(query) => model::allocate(block, &query, slip),
            Call::Pages { from, .. } => model::pages(block, from, buffer, slip),
            Call::Intake(ref report) => model::intake_e820(block, report),
            Call::IntakeTree(ref board) => model::intake_tree(block, board),
            Call::IntakeTrees {
                ref board,
                ref service,
            } => model::intake_trees(block, board, service),
            Call::Lookup {
                ref service,
                ref board,
                ref path,
                ref name,
            } => model::lookup(service, board, path, name, slip),
            Call::Convert(ref old) => model::convert(old, block),
            Call::Plan { ref columns, .. } => return model::plan::plan(block, &columns.lines()),
        };
        (number, 0)
    }

    /// The same call on the archive; `sources` are lent in the place of its own.
    ///
    /// # Safety
    /// Each source is a pointer to so many bytes, of which block, slip and buffer have none;
    /// those of a plan are aligned as its numbers are.
    pub unsafe fn on_archive(
        &self,
        block: &mut [u8],
        slip: &mut [u8],
        buffer: &mut [u8],
        sources: &[(*const u8, usize)],
    ) -> (u32, u32) {
        let (b, len) = (block.as_mut_ptr(), block.len());
        let (s, slip_len) = (slip.as_mut_ptr(), slip.len());
        let lent = |i: usize| sources.get(i).copied().unwrap_or((b, 0));
        let ((from, from_len), (other, other_len)) = (lent(0), lent(1));
        // The pointers and lengths name the buffers above.
        let number = unsafe {
            match *self {
                Call::Fresh => archive::memblock_fresh(b, len),
                Call::Set { limit, direction } => archive::memblock_set(b, len, limit, direction),
                Call::SetImageEnd { end } => archive::memblock_set_image_end(b, len, end),
                Call::Add {
                    base,
                    size,
                    flags,
                    node,
                } => archive::memblock_add(b, len, base, size, flags, node),
                Call::Range {
                    command,
                    base,
                    size,
                } => match command {
                    Remove => archive::memblock_remove(b, len, base, size),
                    Reserve => archive::memblock_reserve(b, len, base, size),
                    Free => archive::memblock_free(b, len, base, size),
                    other => unreachable!("{other:?} is not a range command"),
                },
                Call::Mark {
                    command,
                    base,
                    size,
                    flag,
                } => match command {
                    Mark => archive::memblock_mark(b, len, base, size, flag),
                    Unmark => archive::memblock_unmark(b, len, base, size, flag),
                    other => unreachable!("{other:?} names no flag"),
                },
                Call::Trim { alignment } => archive::memblock_trim(b, len, alignment),
                Call::NextFree { from, node, wish } => {
                    archive::memblock_next_free(b, len, from, node, wish, s, slip_len)
                }
                Call::Find(q) => archive::memblock_find(
                    b,
                    len,
                    q.size,
                    q.alignment,
                    q.start,
                    q.end,
                    q.node,
                    q.wish,
                    s,
                    slip_len,
                ),
                Call::Allocate(q) => archive::memblock_allocate(
                    b,
                    len,
                    q.size,
                    q.alignment,
                    q.start,
                    q.end,
                    q.node,
                    q.wish,
                    s,
                    slip_len,
                ),
                Call::Pages { from, .. } => {
                    let (to, to_len) = (buffer.as_mut_ptr(), buffer.len());
                    archive::memblock_pages(b, len, from, to, to_len, s, slip_len)
                }
                Call::Intake(_) => archive::memblock_intake_e820(b, len, from, from_len),
                Call::IntakeTree(_) => archive::memblock_intake_tree(b, len, from, from_len),
                Call::IntakeTrees { .. } => {
                    archive::memblock_intake_trees(b, len, from, from_len, other, other_len)
                }
                Call::Lookup { .. } => {
                    let ((path, path_len), (name, name_len)) = (lent(2), lent(3));
                    archive::memblock_lookup(
                        from, from_len, other, other_len, path, path_len, name, name_len, s,
                        slip_len,
                    )
                }
                Call::Convert(_) => archive::memblock_convert(from, from_len, b, len),
                Call::Plan { command, .. } => {
                    let longs = |i: usize| (lent(i).0.cast::<u64>(), lent(i).1 / 8);
                    let words = |i: usize| (lent(i).0.cast::<u32>(), lent(i).1 / 4);
                    let (sizes, aligns, starts) = (longs(0), longs(1), longs(2));
                    let (ends, nodes, wishes, ats) = (longs(3), words(4), words(5), longs(6));
                    let told = match command {
                        PlanNumbers => archive::memblock_plan_numbers(
                            b, len, sizes.0, sizes.1, aligns.0, aligns.1, starts.0, starts.1,
                            ends.0, ends.1, nodes.0, nodes.1, wishes.0, wishes.1, ats.0, ats.1,
                        ),
                        PlanLines => archive::memblock_plan_lines(
                            b, len, sizes.0, sizes.1, aligns.0, aligns.1, starts.0, starts.1,
                            ends.0, ends.1, nodes.0, nodes.1, wishes.0, wishes.1, ats.0, ats.1,
                        ),
                        other => unreachable!("{other:?} takes no plan"),
                    };
                    return (told as u32, (told >> 32) as u32);
                }
            }
        };
        (number, 0)
    }
}

//! The functions of the archives. One that they do not define is never called;
//! a stand-in takes its place so that the rest can be built.

macro_rules! functions {
    ($defined:ident gives $answer:ty; $($has:meta => $name:ident($($arg:ident: $type:ty),*);)*) => {
        $(
            #[cfg($has)]
            extern "C" {
                pub fn $name($($arg: $type),*) -> $answer;
            }
            #[cfg(not($has))]
            #[allow(clippy::too_many_arguments)]
            pub unsafe fn $name($(_: $type),*) -> $answer {
                unreachable!(concat!(stringify!($name), " is not in the archive"))
            }
        )*

        /// The names of the functions of these that there are.
        pub const $defined: &[&str] = &[$(
            #[cfg($has)]
            stringify!($name),
        )*];
    };
}

functions! {
    DEFINED gives u32;
    has_memblock_fresh => memblock_fresh(block: *mut u8, len: usize);
    has_memblock_set => memblock_set(block: *mut u8, len: usize, limit: u64, direction: u32);
    has_memblock_set_image_end => memblock_set_image_end(block: *mut u8, len: usize, end: u64);
    has_memblock_add => memblock_add(
        block: *mut u8, len: usize, base: u64, size: u64, flags: u32, node: u32);
    has_memblock_remove => memblock_remove(block: *mut u8, len: usize, base: u64, size: u64);
    has_memblock_mark => memblock_mark(
        block: *mut u8, len: usize, base: u64, size: u64, flag: u32);
    has_memblock_unmark => memblock_unmark(
        block: *mut u8, len: usize, base: u64, size: u64, flag: u32);
    has_memblock_reserve => memblock_reserve(block: *mut u8, len: usize, base: u64, size: u64);
    has_memblock_free => memblock_free(block: *mut u8, len: usize, base: u64, size: u64);
    has_memblock_trim => memblock_trim(block: *mut u8, len: usize, alignment: u64);
    has_memblock_next_free => memblock_next_free(
        block: *const u8, len: usize, from: u64, node: u32, wish: u32,
        slip: *mut u8, slip_len: usize);
    has_memblock_find => memblock_find(
        block: *const u8, len: usize, size: u64, alignment: u64, start: u64, end: u64,
        node: u32, wish: u32, slip: *mut u8, slip_len: usize);
    has_memblock_allocate => memblock_allocate(
        block: *mut u8, len: usize, size: u64, alignment: u64, start: u64, end: u64,
        node: u32, wish: u32, slip: *mut u8, slip_len: usize);
    has_memblock_pages => memblock_pages(
        block: *const u8, len: usize, from: u64, buffer: *mut u8, buffer_len: usize,
        slip: *mut u8, slip_len: usize);
    has_memblock_intake_e820 => memblock_intake_e820(
        block: *mut u8, len: usize, report: *const u8, report_len: usize);
    has_memblock_intake_tree => memblock_intake_tree(
        block: *mut u8, len: usize, board: *const u8, board_len: usize);
    has_memblock_intake_trees => memblock_intake_trees(
        block: *mut u8, len: usize, board: *const u8, board_len: usize,
        service: *const u8, service_len: usize);
    has_memblock_lookup => memblock_lookup(
        service: *const u8, service_len: usize, board: *const u8, board_len: usize,
        path: *const u8, path_len: usize, name: *const u8, name_len: usize,
        slip: *mut u8, slip_len: usize);
    has_memblock_convert => memblock_convert(
        old: *const u8, old_len: usize, block: *mut u8, len: usize);
}

// Of the archive for plans, which C never calls: the number and, 32 digits higher, the index.
functions! {
    PLANS gives u64;
    has_memblock_plan_numbers => memblock_plan_numbers(
        block: *mut u8, len: usize, sizes: *const u64, sizes_len: usize,
        aligns: *const u64, aligns_len: usize, starts: *const u64, starts_len: usize,
        ends: *const u64, ends_len: usize, nodes: *const u32, nodes_len: usize,
        wishes: *const u32, wishes_len: usize, ats: *const u64, ats_len: usize);
    has_memblock_plan_lines => memblock_plan_lines(
        block: *mut u8, len: usize, sizes: *const u64, sizes_len: usize,
        aligns: *const u64, aligns_len: usize, starts: *const u64, starts_len: usize,
        ends: *const u64, ends_len: usize, nodes: *const u32, nodes_len: usize,
        wishes: *const u32, wishes_len: usize, ats: *const u64, ats_len: usize);
}

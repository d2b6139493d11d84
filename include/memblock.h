/* Memory tables before the kernel: the regions of memory present and of memory taken, in a block that boot code lends.
 *
 * Every function takes any numbers and any bytes, and answers one of the numbers below; the caller checks nothing first.
 * A refusal leaves the block as lent, byte for byte, a buffer for pieces too, and a slip of 16 bytes all zero; a slip of another length
 * stays as lent.
 *
 * Lending. A pointer is to as many bytes as the length after it says, and is never null. Any alignment will do. A buffer that
 * a call may write shares no byte with another buffer of that call. The block's address is nowhere kept: it may be moved or copied.
 *
 * The archive (libmemblock.a, x86-64, System V calling convention)
 * - leaves undefined at most memcpy, memmove, memset and memcmp, which boot code brings;
 * - allocates nothing and keeps nothing between calls but what is in the block: calls on different blocks may run at once, on other
 *   processors or from an interrupt; calls on one block are for the caller to keep apart;
 * - is position independent: it may run where it is not yet linked to;
 * - uses the SSE2 registers: before the first call CR0.EM and CR0.TS are 0, CR0.MP and CR4.OSFXSR are 1, and rsp is aligned
 *   as the convention has it (16 bytes before the call), the direction flag clear. Handlers that call it save xmm0 to xmm15;
 * - uses the red zone: an interrupt on the same stack must leave the 128 bytes below rsp alone, which the processor by itself does
 *   not. Give each handler a stack of its own (IST), or keep interrupts off during calls.
 *
 * Stack: the MEMBLOCK_STACK_ numbers below. Reserve MEMBLOCK_STACK bytes for calls, and what handlers need besides. */
#ifndef MEMBLOCK_H
#define MEMBLOCK_H

#include <stddef.h>
#include <stdint.h>

#ifdef __cplusplus
extern "C" {
#endif

/* Numbers answered. Checked in the order 8, 1, 10, 11, 2, 3, 4, 7, 12, 5, 6; the first that holds is given. */
#define MEMBLOCK_DONE 0
#define MEMBLOCK_BAD_BLOCK 1     /* the block is not good (fresh, convert: not MEMBLOCK_BLOCK_LENGTH bytes; convert: or old is not good) */
#define MEMBLOCK_BAD_TAG 2       /* add: flags above 7 or node above 63; mark, unmark: not one flag; searches: node above 63 and not any,
                                    or wish above 3 */
#define MEMBLOCK_BAD_ALIGNMENT 3 /* not a power of two */
#define MEMBLOCK_SIZE_ZERO 4     /* find, allocate */
#define MEMBLOCK_NO_ADDRESS 5    /* no eligible address below end and limit; next free: no free address */
#define MEMBLOCK_TABLE_FULL 6    /* the changed table's finished shortest list has more records than that table's capacity */
#define MEMBLOCK_BAD_DIRECTION 7 /* set: above 1 */
#define MEMBLOCK_BAD_SLIP 8      /* the slip is not MEMBLOCK_SLIP_LENGTH bytes */
#define MEMBLOCK_BAD_REPORT 10   /* the report is not whole entries, or more than MEMBLOCK_REPORT_ENTRIES */
#define MEMBLOCK_BAD_TREE 11     /* a tree is not of the form that memblock_intake_tree names; intakes: or the values are not as it says */
#define MEMBLOCK_NOT_TAKEN 12    /* free: not every address of the range is taken */
/* 13 and 14 are a placement plan's, which C never makes. */

/* Numbers that memblock_lookup answers besides 8 and 11: which tree has the property. */
#define MEMBLOCK_IN_NEITHER 0
#define MEMBLOCK_IN_SERVICE 1
#define MEMBLOCK_IN_BOARD 2

/* Directions of a search. */
#define MEMBLOCK_TOP_DOWN 0
#define MEMBLOCK_BOTTOM_UP 1

/* Tags: flags, a sum of these, and a node. */
#define MEMBLOCK_HOTPLUG 1                     /* memory that may be pulled out: searches pass it by, unless the wish allows it */
#define MEMBLOCK_MIRROR 2                      /* memory that is kept twice */
#define MEMBLOCK_NO_MAP 4                      /* memory that is not mapped: searches always pass it by */
#define MEMBLOCK_FLAGS 7                       /* all three; flags are 0 to 7 */
#define MEMBLOCK_NODES 64                      /* nodes are 0 to 63 */
#define MEMBLOCK_ANY_NODE UINT32_C(0xFFFFFFFF) /* in a search */

/* Wishes of a search, a sum of these. */
#define MEMBLOCK_WISH_NONE 0    /* memory that is not hotplug */
#define MEMBLOCK_WISH_HOTPLUG 1 /* hotplug memory too */
#define MEMBLOCK_WISH_MIRROR 2  /* mirror memory only */
#define MEMBLOCK_WISHES 3       /* both; wishes are 0 to 3 */

/* Limits. */
#define MEMBLOCK_TOP UINT64_C(0xFFFFFFFFFFFFFFFF)      /* ranges of table commands are cut here: the last address is in no table */
#define MEMBLOCK_NO_LIMIT UINT64_C(0xFFFFFFFFFFFFFFFF) /* the limit of a fresh block */
#define MEMBLOCK_NO_IMAGE 0                            /* the image end of a fresh block */
#define MEMBLOCK_LOWEST_START 4096                     /* find and allocate start no lower */
#define MEMBLOCK_MEMORY_CAPACITY 128                   /* records */
#define MEMBLOCK_TAKEN_CAPACITY 512

/* The slip: two little-endian u64. */
#define MEMBLOCK_SLIP_LENGTH 16
#define MEMBLOCK_SLIP_BASE_AT 0         /* searches */
#define MEMBLOCK_SLIP_END_AT 8          /* the first address past the free run that holds the base */
#define MEMBLOCK_SLIP_COUNT_AT 0        /* pages: how many pieces were written */
#define MEMBLOCK_SLIP_NEXT_PAGE_AT 8    /* where the next piece begins; MEMBLOCK_PAGES where none is left */
#define MEMBLOCK_SLIP_OFFSET_AT 0       /* lookup: where the value begins, from the first byte of its tree */
#define MEMBLOCK_SLIP_VALUE_LENGTH_AT 8 /* how many bytes it has */

/* Pages. Page n is the addresses from n * MEMBLOCK_PAGE_SIZE up to, not including, (n + 1) * MEMBLOCK_PAGE_SIZE. */
#define MEMBLOCK_PAGE_SIZE 4096
#define MEMBLOCK_PAGES UINT64_C(0x10000000000000) /* one more than the last page's number */

/* A piece: 2^order pages, little-endian, offsets within it. */
#define MEMBLOCK_PIECE_LENGTH 12
#define MEMBLOCK_PIECE_PAGE_AT 0  /* u64: its first page, a multiple of 2^order */
#define MEMBLOCK_PIECE_ORDER_AT 8 /* u32 */
#define MEMBLOCK_LARGEST_ORDER 10

/* An E820 report: entries, little-endian, offsets within one. */
#define MEMBLOCK_REPORT_ENTRY_LENGTH 20
#define MEMBLOCK_REPORT_ENTRIES 128 /* the most */
#define MEMBLOCK_REPORT_BASE_AT 0   /* u64 */
#define MEMBLOCK_REPORT_SIZE_AT 8   /* u64: the entry's own length */
#define MEMBLOCK_REPORT_KIND_AT 16  /* u32 */
#define MEMBLOCK_REPORT_USABLE 1    /* the kind that is added; all other numbers are passed over */
#define MEMBLOCK_REPORT_TRIM 4096   /* memory is trimmed by this at the end */

/* A flattened device tree: big-endian, offsets within its header, u32 each. */
#define MEMBLOCK_TREE_MAGIC UINT32_C(0xD00DFEED)
#define MEMBLOCK_TREE_VERSION 17    /* the version that is read, no other */
#define MEMBLOCK_TREE_COMPATIBLE 16 /* the last compatible version that is read, no other */
#define MEMBLOCK_TREE_DEPTH 16      /* the deepest level of a node, the root's being 1 */
#define MEMBLOCK_TREE_HEADER_LENGTH 40
#define MEMBLOCK_TREE_MAGIC_AT 0
#define MEMBLOCK_TREE_TOTAL_SIZE_AT 4
#define MEMBLOCK_TREE_STRUCTURE_AT 8 /* the structure block's offset, a multiple of 4 */
#define MEMBLOCK_TREE_STRINGS_AT 12  /* the strings block's offset */
#define MEMBLOCK_TREE_LIST_AT 16     /* the reservation list's offset, a multiple of 8 */
#define MEMBLOCK_TREE_VERSION_AT 20
#define MEMBLOCK_TREE_COMPATIBLE_AT 24
#define MEMBLOCK_TREE_STRINGS_LENGTH_AT 32
#define MEMBLOCK_TREE_STRUCTURE_LENGTH_AT 36

/* The block, little-endian. Read it freely; whatever writes it besides these functions must leave a good block, or the next call
 * refuses it with 1. */
#define MEMBLOCK_BLOCK_LENGTH 15440
#define MEMBLOCK_EDITION_AT 0 /* u32 */
#define MEMBLOCK_EDITION 2
#define MEMBLOCK_BODIES_AT 4 /* u32 */
#define MEMBLOCK_BODIES 2
#define MEMBLOCK_MEMORY_ENTRY_AT 8
#define MEMBLOCK_TAKEN_ENTRY_AT 24
#define MEMBLOCK_LIMIT_AT 40        /* u64 */
#define MEMBLOCK_DIRECTION_AT 48    /* u32, then u32 zero */
#define MEMBLOCK_MEMORY_TOTAL_AT 56 /* u64: how many addresses are present */
#define MEMBLOCK_TAKEN_TOTAL_AT 64  /* u64: how many are taken */
#define MEMBLOCK_IMAGE_END_AT 72    /* u64: where the image ends, any number; MEMBLOCK_NO_IMAGE where there is none */
#define MEMBLOCK_MEMORY_AT 80       /* MEMBLOCK_MEMORY_CAPACITY records */
#define MEMBLOCK_TAKEN_AT 3152      /* MEMBLOCK_TAKEN_CAPACITY records */

/* The block of edition 1, which only memblock_convert takes: the same offsets, 128 records in each table, zero in the place of the
 * image end. */
#define MEMBLOCK_EDITION_1 1
#define MEMBLOCK_EDITION_1_LENGTH 6224
#define MEMBLOCK_EDITION_1_TAKEN_CAPACITY 128

/* A table's entry: four u32, offsets within it. */
#define MEMBLOCK_ENTRY_LENGTH 16
#define MEMBLOCK_ENTRY_KIND_AT 0
#define MEMBLOCK_ENTRY_OFFSET_AT 4
#define MEMBLOCK_ENTRY_COUNT_AT 8
#define MEMBLOCK_ENTRY_CAPACITY_AT 12
#define MEMBLOCK_KIND_MEMORY 1
#define MEMBLOCK_KIND_TAKEN 2

/* A record, offsets within it. Records at or past the count are all zero. */
#define MEMBLOCK_RECORD_LENGTH 24
#define MEMBLOCK_RECORD_BASE_AT 0   /* u64 */
#define MEMBLOCK_RECORD_SIZE_AT 8   /* u64 */
#define MEMBLOCK_RECORD_FLAGS_AT 16 /* u32 */
#define MEMBLOCK_RECORD_NODE_AT 20  /* u32 */

/* Bytes of stack that a call needs, from rsp before the arguments are put: arguments on the stack, the return address, all frames
 * below it, the bytes of the red zone in use, and the mem* functions of tests/boot/mem.c. Measured, rounded up to 64: tests/boot/run
 * paints a stack, calls each function on tables of every fill, and looks up the deepest byte touched; it fails when one needs more
 * than this. They are of the archive as this tree builds it. */
#define MEMBLOCK_STACK_FRESH 64
#define MEMBLOCK_STACK_SET 320
#define MEMBLOCK_STACK_SET_IMAGE_END 320
#define MEMBLOCK_STACK_ADD 3776
#define MEMBLOCK_STACK_REMOVE 3776
#define MEMBLOCK_STACK_MARK 3776
#define MEMBLOCK_STACK_UNMARK 3776
#define MEMBLOCK_STACK_RESERVE 3776
#define MEMBLOCK_STACK_FREE 3776
#define MEMBLOCK_STACK_TRIM 320
#define MEMBLOCK_STACK_NEXT_FREE 384
#define MEMBLOCK_STACK_FIND 576
#define MEMBLOCK_STACK_ALLOCATE 576
#define MEMBLOCK_STACK_PAGES 384
#define MEMBLOCK_STACK_INTAKE_E820 6912
#define MEMBLOCK_STACK_INTAKE_TREE 21056
#define MEMBLOCK_STACK_INTAKE_TREES 27904
#define MEMBLOCK_STACK_LOOKUP 11008
#define MEMBLOCK_STACK_CONVERT 320
#define MEMBLOCK_STACK 27904 /* the most of these */

/* Writes a fresh block over any MEMBLOCK_BLOCK_LENGTH bytes: both tables empty, no limit, top-down, no image. Answers 0 or 1. */
uint32_t memblock_fresh(uint8_t *block, size_t length);

/* Writes what a good edition 1 block says over any MEMBLOCK_BLOCK_LENGTH bytes: records, limit and direction as they are there, no
 * image. Good is as it was then: MEMBLOCK_EDITION_1_LENGTH bytes, flags 0 or MEMBLOCK_NO_MAP, no image end. The two buffers share no
 * byte, and old is not written. Answers 0 or 1. */
uint32_t memblock_convert(const uint8_t *old, size_t old_length, uint8_t *block, size_t length);

/* Stores a limit and a direction; the image end stays. Find and allocate give no range that ends above the limit, so none at all
 * where it is MEMBLOCK_LOWEST_START or lower; next free takes no notice of it. Answers 0, 1 or 7. */
uint32_t memblock_set(uint8_t *block, size_t length, uint64_t limit, uint32_t direction);

/* Stores the image end, any number, MEMBLOCK_NO_IMAGE where there is none; all else stays. A bottom-up search looks at or above it
 * first; a top-down one and next free take no notice of it. What the image covers is for the caller to reserve. Answers 0 or 1. */
uint32_t memblock_set_image_end(uint8_t *block, size_t length, uint64_t end);

/* Commands on the range from base up to, not including, base + size, cut at MEMBLOCK_TOP. A size of 0 changes nothing.
 * Each answers 0, 1 or 6; add, mark and unmark also 2, whatever the size; free also 12. */

/* Gives the tag to each address not yet in memory; those already there keep theirs. */
uint32_t memblock_add(uint8_t *block, size_t length, uint64_t base, uint64_t size, uint32_t flags, uint32_t node);

/* Takes addresses out of memory. What is taken stays taken. */
uint32_t memblock_remove(uint8_t *block, size_t length, uint64_t base, uint64_t size);

/* Sets, or clears, one flag (MEMBLOCK_HOTPLUG, MEMBLOCK_MIRROR or MEMBLOCK_NO_MAP) on the addresses that are in memory. */
uint32_t memblock_mark(uint8_t *block, size_t length, uint64_t base, uint64_t size, uint32_t flag);
uint32_t memblock_unmark(uint8_t *block, size_t length, uint64_t base, uint64_t size, uint32_t flag);

/* Puts addresses into, or out of, the taken set. They need not be memory. Free frees only what is taken, the whole range or nothing: 12
 * where any of it is not taken. A range without an address, of size 0 or from MEMBLOCK_TOP on, is done. */
uint32_t memblock_reserve(uint8_t *block, size_t length, uint64_t base, uint64_t size);
uint32_t memblock_free(uint8_t *block, size_t length, uint64_t base, uint64_t size);

/* Rounds each memory record's base up and its end down; a record of which nothing is left goes. Answers 0, 1 or 3. */
uint32_t memblock_trim(uint8_t *block, size_t length, uint64_t alignment);

/* Searches. A free run is a longest range of memory of one tag, not taken and not no-map. It is searched when its node is the one asked
 * for and the wish grants its flags: hotplug memory only with MEMBLOCK_WISH_HOTPLUG, and with MEMBLOCK_WISH_MIRROR only mirror memory. */

/* Slip: the lowest address at or above from in a free run of the node and the wish, and the end of that run. 0 is an address like any
 * other; go on from the end. Answers 0, 8, 1, 2 or 5. */
uint32_t memblock_next_free(const uint8_t *block, size_t length, uint64_t from, uint32_t node, uint32_t wish, uint8_t *slip,
                            size_t slip_length);

/* Slip: a multiple a of alignment with start <= a and a + size <= end whose size addresses lie in one free run of the node and the
 * wish, and the end of that run, which neither end nor the limit nor the image end cuts: it is never below a + size. Top-down a is the
 * highest of these; bottom-up it is the lowest that is not below the image end, and where all are below it, the highest. End 0 is the
 * block's limit, and an end above the limit is cut to it; start is raised to MEMBLOCK_LOWEST_START, then end to start. For a node other
 * than MEMBLOCK_ANY_NODE nothing of a good block counts but direction, limit, image end, that node's memory and what of it is taken.
 * Answers 0, 8, 1, 2, 3, 4 or 5. */
uint32_t memblock_find(const uint8_t *block, size_t length, uint64_t size, uint64_t alignment, uint64_t start, uint64_t end,
                       uint32_t node, uint32_t wish, uint8_t *slip, size_t slip_length);

/* Reserves the size addresses that find finds. Answers as find does, the end being that of the run before the call, or 6: then there
 * is no second try at another address. 6 goes by the whole taken table, whatever the node. */
uint32_t memblock_allocate(uint8_t *block, size_t length, uint64_t size, uint64_t alignment, uint64_t start, uint64_t end,
                           uint32_t node, uint32_t wish, uint8_t *slip, size_t slip_length);

/* Free pages. */

/* Writes the free memory as pieces, for the kernel's page allocator. Of each free run, whatever its node, hotplug or mirror, the whole
 * pages are cut from the bottom: each time the largest piece, of order 0 to MEMBLOCK_LARGEST_ORDER, whose first page is a multiple of its
 * size and which fits in what is left of the run. Page 0 counts like any other; limit, direction and image end do not matter. A page that
 * lies across two runs is in no piece. The block is not written: nothing is taken by this.
 *
 * Of all pieces, in rising order, the buffer gets those that begin at page from or above, MEMBLOCK_PIECE_LENGTH bytes each, as many as
 * fit; its bytes after the last one stay as lent. Slip: how many these are, and the page where the next one begins, MEMBLOCK_PAGES where
 * none is left. Begin at page 0 and name the page last answered until that is MEMBLOCK_PAGES: on an unchanged block, with buffers of a
 * piece or more, this gives every whole page of every free run once, and the same pieces for buffers of any lengths. A piece that begins
 * below from is passed over whole, also where from is inside it. A from of MEMBLOCK_PAGES or above gets no piece, and none is left; a
 * buffer shorter than a piece gets none, and the slip says where the first begins. That there is no free page is no refusal.
 *
 * The buffer shares no byte with the block or the slip. Answers 0, 8 or 1; at 8 and 1 the buffer stays as lent. */
uint32_t memblock_pages(const uint8_t *block, size_t length, uint64_t from, uint8_t *buffer, size_t buffer_length, uint8_t *slip,
                        size_t slip_length);

/* Reports. */

/* Takes an E820 report in: its entries in turn, those of kind MEMBLOCK_REPORT_USABLE added as by add with flags 0 and node 0; then
 * all memory of the block trimmed by MEMBLOCK_REPORT_TRIM. The first entry that add would refuse with 6 ends the intake with 6, even
 * if the trimmed list would fit, and nothing of the report is in the block. An empty report only trims. The report is not written.
 * The same entries in another order, neither refused, leave the same block. Answers 0, 1, 10 or 6. */
uint32_t memblock_intake_e820(uint8_t *block, size_t length, const uint8_t *report, size_t report_length);

/* Takes a flattened device tree in, of any bytes: as by add with flags 0, the ranges of reg of the root's children whose device_type is
 * "memory" and its zero, with their numa-node-id, or 0 where there is none; as by reserve, the pairs of the reservation list, then the
 * ranges of the children of every /reserved-memory, a child of the root of just that name; as by mark, no-map, the ranges of those of
 * these children that have no-map, whatever its value, in the place of being reserved. In this order, each in that of the tree; nothing
 * is trimmed. The root's #address-cells and #size-cells say how many words an address and a size have, 2 and 1 where there are none; those
 * of other nodes are not looked at. Of properties of one name in a node the first counts. The first range that its command would refuse
 * with 6 ends the intake with 6, and nothing of the tree is in the block.
 *
 * 11 where one of these fails: a whole header, with its magic, version and compatible version; header, list, structure block and strings
 * block each inside the total size and the lent bytes, list and structure block at their alignment; the list ended by two zeros inside;
 * in the structure block one root, the end token, and nothing after it, nop tokens anywhere before it; in each node properties before
 * nodes; each name ended by a zero inside its block, and each value inside; no node deeper than MEMBLOCK_TREE_DEPTH; the root's cells 1
 * or 2, 4 bytes each; each reg so used whole entries; each numa-node-id of memory 4 bytes and below MEMBLOCK_NODES. Padding may be any
 * bytes, parts may overlap, and the total size may be above the lent length. The tree is not written. Answers 0, 1, 11 or 6. */
uint32_t memblock_intake_tree(uint8_t *block, size_t length, const uint8_t *board, size_t board_length);

/* Takes a board's tree in with the corrections of a service tree: as memblock_intake_tree does with the board's, but each property that is
 * asked of a node (the root's cells, device_type, reg, numa-node-id, no-map) is the one that memblock_lookup finds at the node's path in
 * the service tree, and the node's own first of that name where there is none. An empty value corrects too. Nodes of one path get the
 * same correction; what the service tree has at other paths, its nodes and its list add nothing. Where the service tree is a root alone,
 * it is memblock_intake_tree.
 *
 * 11 unless both trees are of the form (all that is said there but cells, reg and numa-node-id) and the values so found are as said there.
 * The trees are not written, and may be one. Answers 0, 1, 11 or 6. */
uint32_t memblock_intake_trees(uint8_t *block, size_t length, const uint8_t *board, size_t board_length, const uint8_t *service,
                               size_t service_length);

/* Slip: where the value of a property stands, in the service tree if that has it, else in the board's, as an offset from the tree's first
 * byte and a length; two zeros where neither has it. The value is read in the tree itself. One of length 0 is there like any other.
 *
 * The path is bytes without a zero behind them: "/" for the root, else "/" and the whole name of each node below the root on the way, the
 * unit address too; the name is the property's, without its zero. Bytes are compared and nothing is parsed: a name with "/" in it has the
 * bytes of a longer way, a "/" at the end is a nameless node's, and a nameless child of the root has the root's path; a path that is empty
 * or begins otherwise finds nothing. Of several matches the first in the tree counts, a node's own properties before those of its nodes.
 *
 * 11, with a slip of zeros, unless both trees are of the form, also where the other would have it. Nothing but the slip is written; the
 * trees may be one. Answers MEMBLOCK_IN_SERVICE, MEMBLOCK_IN_BOARD, MEMBLOCK_IN_NEITHER, 8 or 11. */
uint32_t memblock_lookup(const uint8_t *service, size_t service_length, const uint8_t *board, size_t board_length, const uint8_t *path,
                         size_t path_length, const uint8_t *name, size_t name_length, uint8_t *slip, size_t slip_length);

#ifdef __cplusplus
}
#endif

#endif

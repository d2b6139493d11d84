/* How deep each function goes into the stack. Hosted.
 *
 * Each call runs on a painted stack of its own; the deepest byte that lost its paint says how much was used, bytes of the red zone
 * too. Twice with different paint, so that a byte written with the paint's own value is seen. The blocks have tables of several
 * fills up to full, with ranges on, beside and across their records, for free most of them on what is taken; some blocks, slips, reports,
 * trees and old blocks are bad. Fails when a function needs more than memblock.h says, or when an intake of one tree or two, or a lookup,
 * needs another stack for large trees than for small ones, both with nodes, and paths, of every level that is read. Prints what each
 * needs; with --header as the lines of memblock.h. */
#include "memblock.h"

#include <stdio.h>
#include <string.h>

#define STACK 32768
#define OLD_LENGTH MEMBLOCK_EDITION_1_LENGTH
#define MOST_ARGUMENTS 10
#define IN_REGISTERS 6
#define TURNS 300

/* Calls a function on the stack that ends at top, which is aligned to 16; so many of its arguments are on the stack, behind the six in
 * registers. */
uint64_t call_on(uint8_t *top, void (*function)(void), const uint64_t *arguments, uint64_t on_stack);

__asm__(".text\n"
        "call_on:\n"
        "    pushq %rbp\n"
        "    movq %rsp, %rbp\n"
        "    movq %rdi, %rsp\n"
        "    movq %rsi, %rax\n"
        "    movq %rdx, %r10\n"
        "    testb $1, %cl\n"
        "    jz 1f\n"
        "    subq $8, %rsp\n"
        "1:  testq %rcx, %rcx\n"
        "    jz 2f\n"
        "    pushq 40(%r10, %rcx, 8)\n"
        "    decq %rcx\n"
        "    jmp 1b\n"
        "2:  movq (%r10), %rdi\n"
        "    movq 8(%r10), %rsi\n"
        "    movq 16(%r10), %rdx\n"
        "    movq 24(%r10), %rcx\n"
        "    movq 32(%r10), %r8\n"
        "    movq 40(%r10), %r9\n"
        "    call *%rax\n"
        "    movq %rbp, %rsp\n"
        "    popq %rbp\n"
        "    ret\n");

enum numbers {
    NONE,
    LIMIT,
    IMAGE_END,
    RANGE_TAG,
    RANGE_FLAG,
    RANGE,
    TAKEN_RANGE,
    ALIGNMENT,
    FROM,
    SEARCH,
    PAGES,
    REPORT,
    TREE,
    TREES,
    LOOKUP,
    OLD
};

static struct function {
    const char *name;
    void (*call)(void);
    enum numbers numbers;
    size_t said;
    size_t deepest;
    unsigned done, refused;
} functions[] = {
    {"fresh", (void (*)(void))memblock_fresh, NONE, MEMBLOCK_STACK_FRESH, 0, 0, 0},
    {"set", (void (*)(void))memblock_set, LIMIT, MEMBLOCK_STACK_SET, 0, 0, 0},
    {"set_image_end", (void (*)(void))memblock_set_image_end, IMAGE_END, MEMBLOCK_STACK_SET_IMAGE_END, 0, 0, 0},
    {"add", (void (*)(void))memblock_add, RANGE_TAG, MEMBLOCK_STACK_ADD, 0, 0, 0},
    {"remove", (void (*)(void))memblock_remove, RANGE, MEMBLOCK_STACK_REMOVE, 0, 0, 0},
    {"mark", (void (*)(void))memblock_mark, RANGE_FLAG, MEMBLOCK_STACK_MARK, 0, 0, 0},
    {"unmark", (void (*)(void))memblock_unmark, RANGE_FLAG, MEMBLOCK_STACK_UNMARK, 0, 0, 0},
    {"reserve", (void (*)(void))memblock_reserve, RANGE, MEMBLOCK_STACK_RESERVE, 0, 0, 0},
    {"free", (void (*)(void))memblock_free, TAKEN_RANGE, MEMBLOCK_STACK_FREE, 0, 0, 0},
    {"trim", (void (*)(void))memblock_trim, ALIGNMENT, MEMBLOCK_STACK_TRIM, 0, 0, 0},
    {"next_free", (void (*)(void))memblock_next_free, FROM, MEMBLOCK_STACK_NEXT_FREE, 0, 0, 0},
    {"find", (void (*)(void))memblock_find, SEARCH, MEMBLOCK_STACK_FIND, 0, 0, 0},
    {"allocate", (void (*)(void))memblock_allocate, SEARCH, MEMBLOCK_STACK_ALLOCATE, 0, 0, 0},
    {"pages", (void (*)(void))memblock_pages, PAGES, MEMBLOCK_STACK_PAGES, 0, 0, 0},
    {"intake_e820", (void (*)(void))memblock_intake_e820, REPORT, MEMBLOCK_STACK_INTAKE_E820, 0, 0, 0},
    {"intake_tree", (void (*)(void))memblock_intake_tree, TREE, MEMBLOCK_STACK_INTAKE_TREE, 0, 0, 0},
    {"intake_trees", (void (*)(void))memblock_intake_trees, TREES, MEMBLOCK_STACK_INTAKE_TREES, 0, 0, 0},
    {"lookup", (void (*)(void))memblock_lookup, LOOKUP, MEMBLOCK_STACK_LOOKUP, 0, 0, 0},
    {"convert", (void (*)(void))memblock_convert, OLD, MEMBLOCK_STACK_CONVERT, 0, 0, 0},
};

static _Alignas(16) uint8_t stack[STACK];
static uint8_t before[MEMBLOCK_BLOCK_LENGTH];
static uint8_t old[OLD_LENGTH];
static uint8_t block[MEMBLOCK_BLOCK_LENGTH];
static uint8_t slip[MEMBLOCK_SLIP_LENGTH];
static uint8_t report[(MEMBLOCK_REPORT_ENTRIES + 1) * MEMBLOCK_REPORT_ENTRY_LENGTH];
static uint8_t buffer[2000 * MEMBLOCK_PIECE_LENGTH]; /* more pieces than the tables have */

static unsigned taken_records;

static uint64_t state = 1;

/* xorshift64 */
static uint64_t any(void)
{
    state ^= state << 13;
    state ^= state >> 7;
    state ^= state << 17;
    return state;
}

static uint64_t below(uint64_t end)
{
    return any() % end;
}

#define TAKEN_SIZE 0x100

/* Where taken record i begins. */
static uint64_t taken_base(uint64_t i)
{
    return 0x2000 * i + 0x1100;
}

/* Memory records of 4 KiB, the last one of 8 MiB, of which every third touches the one before, of any flags or of those of edition 1;
 * taken records of 256 bytes within them; no image end. Their tags are such that some marks make one record of two that touch, where flags
 * are any, and some adds one of two that do not, where they are those of edition 1. */
static void fill_tables(unsigned memory, unsigned taken, uint32_t direction, int any_flags)
{
    memblock_fresh(before, sizeof before);
    memblock_set(before, sizeof before, MEMBLOCK_NO_LIMIT, direction);
    for (unsigned i = 0; i < memory; i++)
        memblock_add(before, sizeof before, 0x2000 * (uint64_t)i + (i % 3 == 0 ? 0x1000 : 0), i + 1 < memory ? 0x1000 : 0x800000,
                     any_flags ? i % (MEMBLOCK_FLAGS + 1) : i % 5 == 0 ? MEMBLOCK_NO_MAP : 0, any_flags ? i / 32 : i % 3 == 0);
    for (unsigned i = 0; i < taken; i++)
        memblock_reserve(before, sizeof before, taken_base(i), TAKEN_SIZE);
    taken_records = taken;
}

/* The block as an edition 1 block: good if it is and its taken table fits. */
static void fill_old(void)
{
    static const uint32_t edition = MEMBLOCK_EDITION_1, capacity = MEMBLOCK_EDITION_1_TAKEN_CAPACITY;
    memcpy(old, before, sizeof old);
    memcpy(old + MEMBLOCK_EDITION_AT, &edition, sizeof edition);
    memcpy(old + MEMBLOCK_TAKEN_ENTRY_AT + MEMBLOCK_ENTRY_CAPACITY_AT, &capacity, sizeof capacity);
}

static uint64_t address(void)
{
    switch (below(8)) {
    case 0:
        return 0;
    case 1:
        return MEMBLOCK_TOP - below(0x2000);
    case 2:
        return any();
    default:
        return below(below(2) ? MEMBLOCK_MEMORY_CAPACITY + 2 : MEMBLOCK_TAKEN_CAPACITY + 2) * 0x2000 + below(0x20) * 0x100 + below(2);
    }
}

static uint64_t size(void)
{
    switch (below(6)) {
    case 0:
        return 0;
    case 1:
        return any();
    case 2:
        return MEMBLOCK_TOP;
    default:
        return below(3) * 0x2000 + below(0x20) * 0x100 + 1;
    }
}

static uint32_t node(void)
{
    switch (below(4)) {
    case 0:
        return (uint32_t)below(66);
    default:
        return MEMBLOCK_ANY_NODE;
    }
}

static uint32_t wish(void)
{
    return (uint32_t)below(below(8) == 0 ? MEMBLOCK_WISHES + 3 : MEMBLOCK_WISHES + 1);
}

static uint64_t alignment(void)
{
    return below(10) == 0 ? any() : UINT64_C(1) << (below(8) == 0 ? below(64) : below(13));
}

/* Entries as ranges are chosen, most of them few and usable; answers the report's length. */
static size_t choose_report(void)
{
    size_t count = below(8) == 0 ? MEMBLOCK_REPORT_ENTRIES + below(2) : below(6);
    uint8_t *entry = report;
    for (size_t i = 0; i < count; i++, entry += MEMBLOCK_REPORT_ENTRY_LENGTH) {
        uint64_t base = address(), length = size();
        uint32_t kind = below(8) == 0 ? (uint32_t)below(9) : MEMBLOCK_REPORT_USABLE;
        memcpy(entry + MEMBLOCK_REPORT_BASE_AT, &base, sizeof base);
        memcpy(entry + MEMBLOCK_REPORT_SIZE_AT, &length, sizeof length);
        memcpy(entry + MEMBLOCK_REPORT_KIND_AT, &kind, sizeof kind);
    }
    return (size_t)(entry - report) + (below(50) == 0 && count <= MEMBLOCK_REPORT_ENTRIES);
}

/* A tree, from its front; what does not fit is left out, and the tree then bad. A service tree is put together there too, and kept. */
static uint8_t tree[1 << 20], service[1 << 20];
static size_t tree_length, service_length;

static void tree_number(size_t length, uint64_t number)
{
    while (length-- > 0)
        if (tree_length < sizeof tree)
            tree[tree_length++] = (uint8_t)(number >> 8 * length);
}

static void tree_field(size_t at, size_t word)
{
    for (size_t i = 0; i < 4; i++)
        tree[at + i] = (uint8_t)(word >> 8 * (3 - i));
}

enum { BEGIN_NODE = 1, END_NODE, PROPERTY, NOP, END = 9 };

/* Names of properties, each at a place of its own. */
#define NAMES "#address-cells\0#size-cells\0device_type\0reg\0numa-node-id\0no-map"
enum { ADDRESS_CELLS = 0, SIZE_CELLS = 15, DEVICE_TYPE = 27, REG = 39, NODE_ID = 43, NO_MAP = 56 };

static void tree_padded(const char *bytes, size_t length)
{
    for (size_t i = 0; i < length; i++)
        tree_number(1, (uint8_t)bytes[i]);
    while (tree_length % 4 != 0)
        tree_number(1, below(256));
}

static void tree_node(const char *name)
{
    tree_number(4, BEGIN_NODE);
    tree_padded(name, strlen(name) + 1);
}

static void tree_property(size_t name, const char *value, size_t length)
{
    tree_number(4, PROPERTY);
    tree_number(4, length);
    tree_number(4, name);
    tree_padded(value, length);
}

static void tree_end_nodes(unsigned count)
{
    while (count-- > 0)
        tree_number(4, END_NODE);
}

/* Ranges as they are chosen elsewhere, or so many of a size, each 0x2000 above the one before. */
static void tree_ranges(size_t so_many, uint64_t each)
{
    size_t count = so_many > 0 ? so_many : below(4);
    tree_number(4, PROPERTY);
    tree_number(4, 16 * count);
    tree_number(4, REG);
    for (size_t i = 0; i < count; i++) {
        tree_number(8, so_many > 0 ? 0x40000000 + 0x2000 * i : address());
        tree_number(8, so_many > 0 ? each : size());
    }
}

/* So many nodes one in the other, with properties and, in a large tree, nops and nodes without any. */
static void tree_nodes(unsigned levels, unsigned large)
{
    for (unsigned i = 0; i < levels; i++) {
        tree_node("level");
        tree_property(below(2) ? REG : DEVICE_TYPE, "memory", 7);
        for (unsigned k = 0; k < large; k++)
            tree_number(4, NOP);
    }
    for (unsigned k = 0; k < large; k++)
        tree_property(NO_MAP, NAMES, sizeof NAMES);
    tree_end_nodes(levels);
}

#define LEVELS_7 "level/level/level/level/level/level/level"
#define LEVELS_14 LEVELS_7 "/" LEVELS_7

/* The names of two nodes: as they are, or so that their paths have the bytes of as many levels as are read. */
static const char *memory_name, *reserved_name;

static void name_nodes(int deep)
{
    memory_name = deep ? "level/" LEVELS_14 : "memory";
    reserved_name = deep ? LEVELS_14 : "reserved";
}

static void tree_begin(void)
{
    tree_length = 0;
    while (tree_length < MEMBLOCK_TREE_HEADER_LENGTH)
        tree_number(4, 0);
}

/* The end token, the strings and the header. */
static void tree_finish(size_t structure_at)
{
    tree_number(4, END);
    size_t strings_at = tree_length;
    for (size_t i = 0; i < sizeof NAMES; i++)
        tree_number(1, (uint8_t)NAMES[i]);
    tree_field(MEMBLOCK_TREE_MAGIC_AT, MEMBLOCK_TREE_MAGIC);
    tree_field(MEMBLOCK_TREE_TOTAL_SIZE_AT, tree_length);
    tree_field(MEMBLOCK_TREE_STRUCTURE_AT, structure_at);
    tree_field(MEMBLOCK_TREE_STRINGS_AT, strings_at);
    tree_field(MEMBLOCK_TREE_LIST_AT, MEMBLOCK_TREE_HEADER_LENGTH);
    tree_field(MEMBLOCK_TREE_VERSION_AT, MEMBLOCK_TREE_VERSION);
    tree_field(MEMBLOCK_TREE_COMPATIBLE_AT, MEMBLOCK_TREE_COMPATIBLE);
    tree_field(MEMBLOCK_TREE_STRINGS_LENGTH_AT, sizeof NAMES);
    tree_field(MEMBLOCK_TREE_STRUCTURE_LENGTH_AT, strings_at - structure_at);
}

/* A service tree whose nodes reach this level: so many times nodes on the whole way that have nothing, and then those that have a node id
 * for the memory of a deep name, and a no-map for what is reserved. */
static void build_service(unsigned deepest, unsigned large)
{
    tree_begin();
    tree_number(8, 0);
    tree_number(8, 0);
    size_t structure_at = tree_length;
    tree_node("");
    for (unsigned i = 0; i <= 2 * large; i++) {
        for (unsigned level = 2; level <= deepest; level++)
            tree_node("level");
        if (i == 2 * large)
            tree_property(NODE_ID, "\0\0\0\2", 4);
        tree_end_nodes(deepest - 1);
        tree_node("reserved-memory");
        for (unsigned level = 3; level <= deepest; level++)
            tree_node("level");
        if (i == 2 * large)
            tree_property(NO_MAP, "", 0);
        tree_end_nodes(deepest - 1);
    }
    tree_end_nodes(1);
    tree_finish(structure_at);
    memcpy(service, tree, tree_length);
    service_length = tree_length;
}

/* A tree whose nodes reach this level. Of ranges as many as asked for, of each kind: apart, or where they are wide over each other.
 * Large gives it so many times more nodes. */
static void build_tree(unsigned deepest, size_t list, size_t adds, size_t reserves, size_t marks, int wide, unsigned large)
{
    tree_begin();
    for (size_t i = 0; i < list; i++) {
        tree_number(8, 0x80000000 + 0x2000 * i);
        tree_number(8, 0x1000);
    }
    tree_number(8, 0);
    tree_number(8, 0);
    size_t structure_at = tree_length;
    tree_node("");
    tree_property(ADDRESS_CELLS, "\0\0\0\2", 4);
    tree_property(SIZE_CELLS, "\0\0\0\2", 4);
    for (unsigned i = 0; i <= large; i++)
        tree_nodes(deepest - 1, large);
    tree_node(memory_name);
    tree_property(DEVICE_TYPE, "memory", 7);
    tree_property(NODE_ID, "\0\0\0\1", 4);
    tree_ranges(adds, wide ? 0x5000 : 0x1000);
    tree_nodes(deepest - 2, large);
    tree_end_nodes(1);
    tree_node("reserved-memory");
    tree_node(reserved_name);
    tree_ranges(reserves, wide ? 0x5000 : 0x1000);
    tree_nodes(deepest - 3, large);
    tree_end_nodes(1);
    tree_node("marked");
    tree_ranges(marks, wide ? 0x5000 : 0x800);
    tree_property(NO_MAP, "", 0);
    tree_end_nodes(3);
    tree_finish(structure_at);
}

/* Most to the deepest level, some with as many ranges as a table has room for, some bad; answers the tree's length. */
static size_t choose_tree(void)
{
    name_nodes(below(2) == 0);
    unsigned deepest = below(4) == 0 ? 4 + (unsigned)below(MEMBLOCK_TREE_DEPTH - 2) : MEMBLOCK_TREE_DEPTH;
    build_tree(deepest, below(8) == 0 ? 513 : below(3), below(8) == 0 ? 127 + below(3) : 0, below(16) == 0 ? 511 + below(3) : 0,
               below(8) == 0 ? 64 + below(2) : 0, 0, 0);
    if (below(8) == 0)
        tree[below(tree_length)] ^= 1;
    return tree_length - (below(20) == 0);
}

/* A service tree with nodes on the way to all that matters, or one chosen as a board's; answers its length. */
static size_t choose_service(void)
{
    if (below(2) == 0) {
        build_service(below(8) == 0 ? MEMBLOCK_TREE_DEPTH + 1 : MEMBLOCK_TREE_DEPTH, (unsigned)below(2));
        return service_length;
    }
    size_t length = choose_tree();
    memcpy(service, tree, length);
    return length;
}

/* Answers how many arguments there are. */
static size_t choose(enum numbers numbers, uint64_t *arguments)
{
    size_t n = 0;
    arguments[n++] = (uint64_t)(uintptr_t)block;
    arguments[n++] = sizeof block - (below(50) == 0);
    switch (numbers) {
    case NONE:
        return n;
    case LIMIT:
        arguments[n++] = any();
        arguments[n++] = below(3);
        return n;
    case IMAGE_END:
        arguments[n++] = address();
        return n;
    case RANGE_TAG:
        arguments[n++] = address();
        arguments[n++] = size();
        arguments[n++] = below(2) == 0 ? 0 : below(below(8) == 0 ? MEMBLOCK_FLAGS + 3 : MEMBLOCK_FLAGS + 1);
        arguments[n++] = below(2) == 0 ? 0 : below(MEMBLOCK_NODES + 1);
        return n;
    case RANGE_FLAG:
        arguments[n++] = address();
        arguments[n++] = size();
        arguments[n++] = below(8) == 0 ? below(MEMBLOCK_FLAGS + 2) : UINT64_C(1) << below(3);
        return n;
    case TAKEN_RANGE:
        if (taken_records > 0 && below(4) > 0) {
            /* All of a record, its front, its back or its inside; now and then one address more. */
            uint64_t from = below(2) * below(TAKEN_SIZE);
            arguments[n++] = taken_base(below(taken_records)) + from;
            arguments[n++] = TAKEN_SIZE - from - below(2) * below(TAKEN_SIZE - from) + (below(8) == 0);
            return n;
        }
        /* fall through */
    case RANGE:
        arguments[n++] = address();
        arguments[n++] = size();
        return n;
    case ALIGNMENT:
        arguments[n++] = alignment();
        return n;
    case OLD:
        arguments[n++] = arguments[0];
        arguments[n++] = arguments[1];
        arguments[0] = (uint64_t)(uintptr_t)old;
        arguments[1] = sizeof old - (below(50) == 0);
        fill_old();
        return n;
    case REPORT:
        arguments[n++] = (uint64_t)(uintptr_t)report;
        arguments[n++] = choose_report();
        return n;
    case TREE:
        arguments[n++] = (uint64_t)(uintptr_t)tree;
        arguments[n++] = choose_tree();
        return n;
    case TREES:
        arguments[n + 2] = (uint64_t)(uintptr_t)service;
        arguments[n + 3] = choose_service();
        arguments[n++] = (uint64_t)(uintptr_t)tree;
        arguments[n++] = choose_tree();
        return n + 2;
    case LOOKUP: {
        static const char *const paths[] = {"/level/" LEVELS_14, "/reserved-memory/" LEVELS_14, "/level/" LEVELS_14 "/level", "/memory",
                                            "/reserved-memory/reserved", "/level/" LEVELS_7, "/", "//", "level", ""};
        static const char *const names[] = {"reg", "device_type", "no-map", "numa-node-id", "#size-cells", ""};
        const char *path = paths[below(sizeof paths / sizeof paths[0])], *name = names[below(sizeof names / sizeof names[0])];
        n = 0;
        arguments[n++] = (uint64_t)(uintptr_t)service;
        arguments[n++] = choose_service();
        arguments[n++] = (uint64_t)(uintptr_t)tree;
        arguments[n++] = choose_tree();
        arguments[n++] = (uint64_t)(uintptr_t)path;
        arguments[n++] = strlen(path);
        arguments[n++] = (uint64_t)(uintptr_t)name;
        arguments[n++] = strlen(name);
        break;
    }
    case FROM:
        arguments[n++] = address();
        arguments[n++] = node();
        arguments[n++] = wish();
        break;
    case PAGES:
        arguments[n++] = below(3) == 0 ? 0 : below(4) == 0 ? address() : address() / MEMBLOCK_PAGE_SIZE;
        arguments[n++] = (uint64_t)(uintptr_t)buffer;
        arguments[n++] = below(3) == 0 ? sizeof buffer : below(below(2) == 0 ? 40 * MEMBLOCK_PIECE_LENGTH : 2 * MEMBLOCK_PIECE_LENGTH);
        break;
    case SEARCH:
        arguments[n++] = size();
        arguments[n++] = alignment();
        arguments[n++] = below(3) == 0 ? address() : 0;
        arguments[n++] = below(3) == 0 ? address() : 0;
        arguments[n++] = node();
        arguments[n++] = wish();
        break;
    }
    arguments[n++] = (uint64_t)(uintptr_t)slip;
    arguments[n++] = sizeof slip - (below(50) == 0);
    return n;
}

/* How deep one call goes, on a copy of the block. */
static size_t depth_of(void (*call)(void), const uint64_t *arguments, size_t count, uint32_t *number)
{
    static const uint8_t paints[] = {0x5C, 0xA3};
    size_t on_stack = count > IN_REGISTERS ? count - IN_REGISTERS : 0;
    size_t deepest = 0;
    for (size_t i = 0; i < sizeof paints; i++) {
        size_t lowest = 0;
        memcpy(block, before, sizeof block);
        memset(stack, paints[i], sizeof stack);
        *number = (uint32_t)call_on(stack + sizeof stack, call, arguments, on_stack);
        while (lowest < sizeof stack && stack[lowest] == paints[i])
            lowest++;
        if (sizeof stack - lowest > deepest)
            deepest = sizeof stack - lowest;
    }
    return deepest;
}

static void measure(struct function *function)
{
    uint64_t arguments[MOST_ARGUMENTS] = {0};
    uint32_t number;
    size_t count = choose(function->numbers, arguments);
    size_t deepest = depth_of(function->call, arguments, count, &number);
    if (deepest > function->deepest)
        function->deepest = deepest;
    int found = function->numbers == LOOKUP && (number == MEMBLOCK_IN_SERVICE || number == MEMBLOCK_IN_BOARD);
    if (number == MEMBLOCK_DONE || found)
        function->done++;
    else
        function->refused++;
}

/* Trees with nodes of every level, small and large: done on empty tables, refused on fuller ones with 6 by each kind of command, and one
 * level more, which is refused with 11. Tells the most, and answers whether large ones need another stack than small ones. */
static int small_and_large(size_t *most)
{
    name_nodes(0);
    static const uint32_t numbers[] = {MEMBLOCK_TABLE_FULL, MEMBLOCK_TABLE_FULL, MEMBLOCK_TABLE_FULL,
                                       MEMBLOCK_TABLE_FULL, MEMBLOCK_DONE,       MEMBLOCK_BAD_TREE};
    enum { MEMORY, LIST, RESERVED, MARKS, DONE, TOO_DEEP, KINDS };
    size_t deepest[2] = {0};
    size_t lengths[2] = {0};
    int wrong = 0;
    for (unsigned large = 0; large < 2; large++)
        for (unsigned kind = 0; kind < KINDS; kind++) {
            uint32_t number;
            if (kind == DONE)
                fill_tables(0, 0, 0, 1);
            else
                fill_tables(kind == MARKS ? 60 : 100, kind == LIST ? 500 : 10, 0, 1);
            build_tree(MEMBLOCK_TREE_DEPTH + (kind == TOO_DEEP), kind == LIST ? 20 : 2, kind == MEMORY ? 40 : kind == MARKS ? 60 : 5,
                       kind == RESERVED ? 510 : 2, kind == MARKS ? 60 : 5, kind == DONE, large * 40);
            uint64_t arguments[] = {(uint64_t)(uintptr_t)block, sizeof block, (uint64_t)(uintptr_t)tree, tree_length};
            size_t depth = depth_of((void (*)(void))memblock_intake_tree, arguments, 4, &number);
            if (number != numbers[kind]) {
                printf("stack: a tree of kind %u answers %u, not %u: WRONG\n", kind, (unsigned)number, (unsigned)numbers[kind]);
                wrong = 1;
            }
            if (depth > deepest[large])
                deepest[large] = depth;
            if (tree_length > lengths[large])
                lengths[large] = tree_length;
        }
    wrong |= deepest[0] != deepest[1] || lengths[1] < 20 * lengths[0];
    printf("stack: memblock_intake_tree %zu bytes for trees of up to %zu bytes, %zu for trees of up to %zu%s\n", deepest[0], lengths[0],
           deepest[1], lengths[1], wrong ? ": WRONG" : "");
    *most = deepest[1] > deepest[0] ? deepest[1] : deepest[0];
    return wrong;
}

/* The same of pairs, on the whole way down in both trees: an intake that is done, refused with 6 and with 11, and lookups that find the
 * value at the end of each tree's way, and none. Tells the most of each function. */
static int pairs_small_and_large(size_t most[2])
{
    static const uint32_t numbers[] = {MEMBLOCK_DONE, MEMBLOCK_TABLE_FULL, MEMBLOCK_BAD_TREE};
    static const char path[] = "/level/" LEVELS_14, reserved[] = "/reserved-memory/" LEVELS_14;
    static const struct {
        const char *path, *name;
        uint32_t number;
    } lookups[] = {{path, "numa-node-id", MEMBLOCK_IN_SERVICE},
                   {reserved, "no-map", MEMBLOCK_IN_SERVICE},
                   {path, "device_type", MEMBLOCK_IN_BOARD},
                   {reserved, "reg", MEMBLOCK_IN_BOARD},
                   {path, "#size-cells", MEMBLOCK_IN_NEITHER},
                   {reserved, "", MEMBLOCK_IN_NEITHER}};
    size_t deepest[2][2] = {{0}};
    size_t lengths[2] = {0};
    int wrong = 0;
    name_nodes(1);
    for (unsigned large = 0; large < 2; large++)
        for (unsigned kind = 0; kind < 3; kind++) {
            uint32_t number;
            fill_tables(kind == 0 ? 0 : 100, 10, 0, 1);
            build_service(MEMBLOCK_TREE_DEPTH, large * 40);
            build_tree(MEMBLOCK_TREE_DEPTH + (kind == 2), 2, kind == 1 ? 40 : 5, 2, 5, kind == 0, large * 40);
            uint64_t trees[] = {(uint64_t)(uintptr_t)block,   sizeof block, (uint64_t)(uintptr_t)tree, tree_length,
                                (uint64_t)(uintptr_t)service, service_length};
            size_t depth = depth_of((void (*)(void))memblock_intake_trees, trees, 6, &number);
            if (number != numbers[kind]) {
                printf("stack: a pair of kind %u answers %u, not %u: WRONG\n", kind, (unsigned)number, (unsigned)numbers[kind]);
                wrong = 1;
            }
            if (depth > deepest[large][0])
                deepest[large][0] = depth;
            if (tree_length + service_length > lengths[large])
                lengths[large] = tree_length + service_length;
            for (size_t i = 0; i < sizeof lookups / sizeof lookups[0]; i++) {
                uint64_t arguments[] = {trees[4],
                                        trees[5],
                                        trees[2],
                                        trees[3],
                                        (uint64_t)(uintptr_t)lookups[i].path,
                                        strlen(lookups[i].path),
                                        (uint64_t)(uintptr_t)lookups[i].name,
                                        strlen(lookups[i].name),
                                        (uint64_t)(uintptr_t)slip,
                                        sizeof slip};
                uint32_t wanted = kind == 2 ? MEMBLOCK_BAD_TREE : lookups[i].number;
                depth = depth_of((void (*)(void))memblock_lookup, arguments, 10, &number);
                if (number != wanted) {
                    printf("stack: lookup %zu answers %u, not %u: WRONG\n", i, (unsigned)number, (unsigned)wanted);
                    wrong = 1;
                }
                if (depth > deepest[large][1])
                    deepest[large][1] = depth;
            }
        }
    wrong |= lengths[1] < 20 * lengths[0];
    for (unsigned i = 0; i < 2; i++) {
        int differ = deepest[0][i] != deepest[1][i];
        printf("stack: memblock_%s %zu bytes for pairs of up to %zu bytes, %zu for pairs of up to %zu%s\n", i == 0 ? "intake_trees" : "lookup",
               deepest[0][i], lengths[0], deepest[1][i], lengths[1], differ || wrong ? ": WRONG" : "");
        wrong |= differ;
        most[i] = deepest[1][i] > deepest[0][i] ? deepest[1][i] : deepest[0][i];
    }
    return wrong;
}

int main(int argument_count, char **arguments)
{
    int as_header = argument_count == 2 && strcmp(arguments[1], "--header") == 0;
    static const unsigned memory[] = {0, 1, 60, MEMBLOCK_MEMORY_CAPACITY - 1, MEMBLOCK_MEMORY_CAPACITY};
    static const unsigned taken[] = {0, 1, 60, 128, 300, MEMBLOCK_TAKEN_CAPACITY - 1, MEMBLOCK_TAKEN_CAPACITY};
    size_t count = sizeof functions / sizeof functions[0];
    int wrong = 0;
    for (size_t m = 0; m < sizeof memory / sizeof memory[0]; m++)
        for (size_t t = 0; t < sizeof taken / sizeof taken[0]; t++)
            for (unsigned turn = 0; turn < TURNS; turn++) {
                int as_edition_1 = turn / 50 % 3 != 0;
                if (turn % 50 == 0)
                    fill_tables(memory[m], taken[t], turn / 50 % 2, !as_edition_1);
                if (!as_edition_1)
                    memblock_set_image_end(before, sizeof before, address());
                if (turn % 50 == 49)
                    before[below(sizeof before)] ^= 1; /* most such blocks are bad */
                for (size_t i = 0; i < count; i++)
                    measure(&functions[i]);
            }
    size_t most[3];
    wrong |= small_and_large(&most[0]);
    wrong |= pairs_small_and_large(&most[1]);
    for (size_t i = 0; i < count; i++) {
        enum numbers numbers = functions[i].numbers;
        size_t of_trees = numbers == TREE ? most[0] : numbers == TREES ? most[1] : numbers == LOOKUP ? most[2] : 0;
        if (of_trees > functions[i].deepest)
            functions[i].deepest = of_trees;
    }
    size_t all = 0;
    for (size_t i = 0; i < count; i++) {
        const struct function *f = &functions[i];
        size_t needs = (f->deepest + 63) / 64 * 64;
        int bad = needs > f->said || f->deepest > STACK - 1024 || f->done == 0 || f->refused == 0;
        wrong |= bad;
        all = needs > all ? needs : all;
        if (!as_header) {
            printf("stack: memblock_%s %zu bytes, %zu rounded up, memblock.h says %zu%s\n", f->name, f->deepest, needs, f->said,
                   bad ? ": WRONG" : "");
            continue;
        }
        printf("#define MEMBLOCK_STACK_");
        for (const char *letter = f->name; *letter != 0; letter++)
            putchar(*letter >= 'a' && *letter <= 'z' ? *letter - 'a' + 'A' : *letter);
        printf(" %zu\n", needs);
    }
    if (as_header)
        printf("#define MEMBLOCK_STACK %zu /* the most of these */\n", all);
    return wrong;
}

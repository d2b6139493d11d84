/* A boot: the machine's memory map taken in as an E820 report and as a flattened tree, with corrections of a service tree too, what is in
 * use reserved, memory marked, allocations in both directions, bottom-up above the image and the other way, each kind of refusal, and at
 * the end the free pages handed over.
 *
 * Writes a line for each call, with its numbers, the number answered, a sum over the block's bytes and the slip, or a sum over the
 * bytes of the report, the trees, the old block or the buffer for pieces; at the end both tables. tests/transcript replays the lines on
 * the second program. Runs freestanding and hosted. */
#include "boot.h"
#include "memblock.h"

#define KIB(n) (UINT64_C(1024) * (n))
#define MIB(n) (UINT64_C(1024) * KIB(n))
#define GIB(n) (UINT64_C(1024) * MIB(n))
#define PAGE KIB(4)
#define ANY MEMBLOCK_ANY_NODE
#define NONE MEMBLOCK_WISH_NONE
#define LENGTH MEMBLOCK_BLOCK_LENGTH
#define OLD_LENGTH MEMBLOCK_EDITION_1_LENGTH

#define GUARD 8
#define FILL 0xA5

/* Far above what a board has: room for filling the tables. */
#define FAR_TAKEN GIB(1024)
#define FAR_MEMORY GIB(2048)

/* A block with guard bytes behind it, and its name in the transcript. */
struct lent {
    const char *name;
    uint8_t bytes[LENGTH + GUARD];
};

static struct lent block = {"block", {0}};
static struct lent mirror = {"mirror", {0}};
static struct lent old = {"old", {0}};
static struct lent by_tree = {"by_tree", {0}};
static struct lent by_calls = {"by_calls", {0}};
static uint8_t slip[MEMBLOCK_SLIP_LENGTH + GUARD];

/* Room for one entry too many. */
#define REPORT_MOST ((MEMBLOCK_REPORT_ENTRIES + 1) * MEMBLOCK_REPORT_ENTRY_LENGTH)
static uint8_t report[REPORT_MOST + GUARD];
static size_t report_length;

/* A tree, and its length as it stands. */
#define TREE_MOST KIB(32)
static uint8_t tree[TREE_MOST + GUARD];
static size_t tree_length;

/* The service tree, which was the tree. */
#define SERVICE_MOST KIB(2)
static uint8_t service[SERVICE_MOST + GUARD];
static size_t service_length;

/* Room for pieces of free memory; a line names each piece where there are a few, as many as the small buffer takes. */
#define PIECE MEMBLOCK_PIECE_LENGTH
#define PIECES_FEW 5
#define PIECES_MOST 32768
static uint8_t buffer[PIECES_MOST * PIECE + GUARD];

static const struct machine *machine;
static uint64_t calls;
static uint64_t lines;

/* Words of the transcript. */

static void text(const char *words)
{
    size_t length = 0;
    while (words[length] != 0)
        lines += words[length++] == '\n';
    machine->write(words, length);
}

static void hex(uint64_t number)
{
    char digits[18];
    size_t at = sizeof digits;
    do {
        digits[--at] = "0123456789abcdef"[number % 16];
        number /= 16;
    } while (number != 0);
    digits[--at] = 'x';
    digits[--at] = '0';
    machine->write(digits + at, sizeof digits - at);
}

static void named(const char *name, uint64_t number)
{
    text(name);
    hex(number);
}

/* Little-endian numbers in lent bytes. */

static uint64_t number_at(const uint8_t *bytes, size_t at, size_t length)
{
    uint64_t number = 0;
    while (length-- > 0)
        number = number << 8 | bytes[at + length];
    return number;
}

static uint64_t slip_base(void)
{
    return number_at(slip, MEMBLOCK_SLIP_BASE_AT, 8);
}

static uint64_t slip_end(void)
{
    return number_at(slip, MEMBLOCK_SLIP_END_AT, 8);
}

static uint64_t piece_page(uint64_t i)
{
    return number_at(buffer, i * PIECE + MEMBLOCK_PIECE_PAGE_AT, 8);
}

static uint64_t piece_order(uint64_t i)
{
    return number_at(buffer, i * PIECE + MEMBLOCK_PIECE_ORDER_AT, 4);
}

static void put_number(uint8_t *bytes, size_t at, size_t length, uint64_t number)
{
    for (size_t i = 0; i < length; i++, number >>= 8)
        bytes[at + i] = (uint8_t)number;
}

/* FNV-1a. */
#define SUM_OF_NONE UINT64_C(0xcbf29ce484222325)

static uint64_t sum_on(uint64_t sum, const uint8_t *bytes, size_t length)
{
    for (size_t i = 0; i < length; i++)
        sum = (sum ^ bytes[i]) * UINT64_C(0x100000001b3);
    return sum;
}

static uint64_t sum(const uint8_t *bytes, size_t length)
{
    return sum_on(SUM_OF_NONE, bytes, length);
}

/* A call's line. */

static void begin_call(const char *function, const char *first, size_t length)
{
    for (size_t i = 0; i < sizeof slip; i++)
        slip[i] = FILL;
    calls++;
    text("memblock_");
    text(function);
    text("(");
    text(first);
    named(", ", length);
}

static void begin(const char *function, const struct lent *lent, size_t length)
{
    begin_call(function, lent->name, length);
}

static void answered(const struct lent *lent, uint32_t number)
{
    named(") = ", number);
    named(" sum ", sum(lent->bytes, sizeof lent->bytes));
}

static uint32_t end(const struct lent *lent, uint32_t number)
{
    answered(lent, number);
    text("\n");
    return number;
}

static void slip_line(size_t slip_length)
{
    size_t written = slip_length == MEMBLOCK_SLIP_LENGTH ? slip_length : 0;
    int kept = 1;
    for (size_t i = written; i < sizeof slip; i++)
        kept = kept && slip[i] == FILL;
    if (written != 0) {
        named(" slip ", slip_base());
        named(" ", slip_end());
    }
    text(kept ? "" : " wrote past the slip");
}

static uint32_t end_slip(const struct lent *lent, size_t slip_length, uint32_t number)
{
    answered(lent, number);
    slip_line(slip_length);
    text("\n");
    return number;
}

/* The calls. */

static uint32_t fresh(struct lent *lent, size_t length)
{
    begin("fresh", lent, length);
    return end(lent, memblock_fresh(lent->bytes, length));
}

static uint32_t set(struct lent *lent, uint64_t limit, uint32_t direction)
{
    begin("set", lent, LENGTH);
    named(", ", limit);
    named(", ", direction);
    return end(lent, memblock_set(lent->bytes, LENGTH, limit, direction));
}

static uint32_t set_image_end(struct lent *lent, uint64_t image_end)
{
    begin("set_image_end", lent, LENGTH);
    named(", ", image_end);
    return end(lent, memblock_set_image_end(lent->bytes, LENGTH, image_end));
}

static uint32_t add(struct lent *lent, uint64_t base, uint64_t size, uint32_t flags, uint32_t node)
{
    begin("add", lent, LENGTH);
    named(", ", base);
    named(", ", size);
    named(", ", flags);
    named(", ", node);
    return end(lent, memblock_add(lent->bytes, LENGTH, base, size, flags, node));
}

typedef uint32_t on_range(uint8_t *block, size_t length, uint64_t base, uint64_t size);

static uint32_t range(const char *name, on_range *call, struct lent *lent, uint64_t base, uint64_t size)
{
    begin(name, lent, LENGTH);
    named(", ", base);
    named(", ", size);
    return end(lent, call(lent->bytes, LENGTH, base, size));
}

#define REMOVE(lent, base, size) range("remove", memblock_remove, lent, base, size)
#define RESERVE(lent, base, size) range("reserve", memblock_reserve, lent, base, size)
#define FREE(lent, base, size) range("free", memblock_free, lent, base, size)

static uint32_t mark(struct lent *lent, uint64_t base, uint64_t size, uint32_t flag)
{
    begin("mark", lent, LENGTH);
    named(", ", base);
    named(", ", size);
    named(", ", flag);
    return end(lent, memblock_mark(lent->bytes, LENGTH, base, size, flag));
}

static uint32_t unmark(struct lent *lent, uint64_t base, uint64_t size, uint32_t flag)
{
    begin("unmark", lent, LENGTH);
    named(", ", base);
    named(", ", size);
    named(", ", flag);
    return end(lent, memblock_unmark(lent->bytes, LENGTH, base, size, flag));
}

static uint32_t trim(struct lent *lent, uint64_t alignment)
{
    begin("trim", lent, LENGTH);
    named(", ", alignment);
    return end(lent, memblock_trim(lent->bytes, LENGTH, alignment));
}

static uint32_t next_free(const struct lent *lent, uint64_t from, uint32_t node, uint32_t wish, size_t slip_length)
{
    begin("next_free", lent, LENGTH);
    named(", ", from);
    named(", ", node);
    named(", ", wish);
    named(", slip, ", slip_length);
    return end_slip(lent, slip_length, memblock_next_free(lent->bytes, LENGTH, from, node, wish, slip, slip_length));
}

/* What find and allocate are asked for. */
struct query {
    uint64_t size, alignment, start, end;
    uint32_t node, wish;
    size_t slip_length;
};

static void query_line(const char *function, const struct lent *lent, const struct query *q)
{
    begin(function, lent, LENGTH);
    named(", ", q->size);
    named(", ", q->alignment);
    named(", ", q->start);
    named(", ", q->end);
    named(", ", q->node);
    named(", ", q->wish);
    named(", slip, ", q->slip_length);
}

static uint32_t find_slip(const struct lent *lent, struct query q)
{
    query_line("find", lent, &q);
    return end_slip(lent, q.slip_length,
                    memblock_find(lent->bytes, LENGTH, q.size, q.alignment, q.start, q.end, q.node, q.wish, slip, q.slip_length));
}

static uint32_t allocate_slip(struct lent *lent, struct query q)
{
    query_line("allocate", lent, &q);
    return end_slip(lent, q.slip_length,
                    memblock_allocate(lent->bytes, LENGTH, q.size, q.alignment, q.start, q.end, q.node, q.wish, slip, q.slip_length));
}

static uint32_t find(const struct lent *lent, uint64_t size, uint64_t alignment, uint64_t start, uint64_t end, uint32_t node)
{
    return find_slip(lent, (struct query){size, alignment, start, end, node, NONE, MEMBLOCK_SLIP_LENGTH});
}

static uint32_t allocate(struct lent *lent, uint64_t size, uint64_t alignment, uint64_t start, uint64_t end, uint32_t node)
{
    return allocate_slip(lent, (struct query){size, alignment, start, end, node, NONE, MEMBLOCK_SLIP_LENGTH});
}

/* Pieces into the first bytes of the buffer. */
static uint32_t pages_slip(const struct lent *lent, size_t length, uint64_t from, size_t buffer_length, size_t slip_length)
{
    for (size_t i = 0; i < buffer_length + GUARD; i++)
        buffer[i] = FILL;
    begin("pages", lent, length);
    named(", ", from);
    named(", buffer, ", buffer_length);
    named(", slip, ", slip_length);
    uint32_t number = memblock_pages(lent->bytes, length, from, buffer, buffer_length, slip, slip_length);
    answered(lent, number);
    slip_line(slip_length);
    named(" buffer ", sum(buffer, buffer_length + GUARD));
    uint64_t count = slip_length == MEMBLOCK_SLIP_LENGTH ? number_at(slip, MEMBLOCK_SLIP_COUNT_AT, 8) : 0;
    for (uint64_t i = 0; i < count && count <= PIECES_FEW; i++) {
        named(" page ", piece_page(i));
        named(" order ", piece_order(i));
    }
    text("\n");
    return number;
}

static uint32_t pages(const struct lent *lent, uint64_t from, size_t buffer_length)
{
    return pages_slip(lent, LENGTH, from, buffer_length, MEMBLOCK_SLIP_LENGTH);
}

/* The first bytes of the report as it stands. */
static uint32_t intake(struct lent *lent, size_t length)
{
    begin("intake_e820", lent, LENGTH);
    named(", report, ", length);
    uint32_t number = memblock_intake_e820(lent->bytes, LENGTH, report, length);
    answered(lent, number);
    named(" report ", sum(report, sizeof report));
    text("\n");
    return number;
}

/* The first bytes of the tree as it stands. */
static uint32_t intake_tree(struct lent *lent, size_t length)
{
    begin("intake_tree", lent, LENGTH);
    named(", tree, ", length);
    uint32_t number = memblock_intake_tree(lent->bytes, LENGTH, tree, length);
    answered(lent, number);
    named(" tree ", sum(tree, sizeof tree));
    text("\n");
    return number;
}

static void trees_line(void)
{
    named(" tree ", sum(tree, sizeof tree));
    named(" service ", sum(service, sizeof service));
    text("\n");
}

/* The first bytes of the tree and of the service tree as they stand. */
static uint32_t intake_trees(struct lent *lent, size_t length, size_t of_service)
{
    begin("intake_trees", lent, LENGTH);
    named(", tree, ", length);
    named(", service, ", of_service);
    uint32_t number = memblock_intake_trees(lent->bytes, LENGTH, tree, length, service, of_service);
    answered(lent, number);
    trees_line();
    return number;
}

static size_t text_length(const char *words)
{
    size_t length = 0;
    while (words[length] != 0)
        length++;
    return length;
}

static uint32_t lookup_slip(size_t of_service, size_t length, const char *path, const char *name, size_t slip_length)
{
    begin_call("lookup", "service", of_service);
    named(", tree, ", length);
    text(", ");
    text(path);
    text(", ");
    text(name);
    named(", slip, ", slip_length);
    uint32_t number = memblock_lookup(service, of_service, tree, length, (const uint8_t *)path, text_length(path), (const uint8_t *)name,
                                      text_length(name), slip, slip_length);
    named(") = ", number);
    slip_line(slip_length);
    trees_line();
    return number;
}

/* Looks a value up, and writes its bytes as they stand in their tree. */
static uint32_t lookup(const char *path, const char *name)
{
    uint32_t number = lookup_slip(service_length, tree_length, path, name, MEMBLOCK_SLIP_LENGTH);
    if (number != MEMBLOCK_IN_SERVICE && number != MEMBLOCK_IN_BOARD)
        return number;
    const uint8_t *bytes = number == MEMBLOCK_IN_SERVICE ? service : tree;
    size_t at = (size_t)number_at(slip, MEMBLOCK_SLIP_OFFSET_AT, 8);
    size_t value_length = (size_t)number_at(slip, MEMBLOCK_SLIP_VALUE_LENGTH_AT, 8);
    text("value ");
    for (size_t i = 0; i < value_length; i++) {
        char digits[2] = {"0123456789abcdef"[bytes[at + i] >> 4], "0123456789abcdef"[bytes[at + i] & 15]};
        machine->write(digits, sizeof digits);
    }
    text("\n");
    return number;
}

/* The first bytes of the old block as it stands. */
static uint32_t convert(size_t old_length, struct lent *lent, size_t length)
{
    begin("convert", &old, old_length);
    text(", ");
    text(lent->name);
    named(", ", length);
    uint32_t number = memblock_convert(old.bytes, old_length, lent->bytes, length);
    answered(lent, number);
    named(" old ", sum(old.bytes, sizeof old.bytes));
    text("\n");
    return number;
}

/* Writes by boot code itself, outside the functions. */

static void fill_block(struct lent *lent)
{
    for (size_t i = 0; i < sizeof lent->bytes; i++)
        lent->bytes[i] = FILL;
    text("fill ");
    text(lent->name);
    named(" ", FILL);
    text("\n");
}

static void poke(struct lent *lent, size_t at, uint8_t byte)
{
    lent->bytes[at] = byte;
    text("poke ");
    text(lent->name);
    named(" ", at);
    named(" ", byte);
    text("\n");
}

/* The old block says what the block does, in edition 1. */
static void make_old(const struct lent *lent)
{
    for (size_t i = 0; i < OLD_LENGTH; i++)
        old.bytes[i] = lent->bytes[i];
    put_number(old.bytes, MEMBLOCK_EDITION_AT, 4, MEMBLOCK_EDITION_1);
    put_number(old.bytes, MEMBLOCK_TAKEN_ENTRY_AT + MEMBLOCK_ENTRY_CAPACITY_AT, 4, MEMBLOCK_EDITION_1_TAKEN_CAPACITY);
    text("edition 1 ");
    text(lent->name);
    text("\n");
}

static void report_begin(void)
{
    for (size_t i = 0; i < sizeof report; i++)
        report[i] = FILL;
    report_length = 0;
    named("report ", FILL);
    text("\n");
}

static void report_entry(uint64_t base, uint64_t size, uint32_t kind)
{
    uint8_t *entry = report + report_length;
    if (report_length == REPORT_MOST)
        return;
    put_number(entry, MEMBLOCK_REPORT_BASE_AT, 8, base);
    put_number(entry, MEMBLOCK_REPORT_SIZE_AT, 8, size);
    put_number(entry, MEMBLOCK_REPORT_KIND_AT, 4, kind);
    report_length += MEMBLOCK_REPORT_ENTRY_LENGTH;
    named("entry base ", base);
    named(" size ", size);
    named(" kind ", kind);
    text("\n");
}

/* A tree, put together from its front: header, reservation list, structure block, strings block. */

enum token { BEGIN_NODE = 1, END_NODE = 2, PROPERTY = 3, NOP = 4, END = 9 };

static const char tree_names[] = "#address-cells\0#size-cells\0device_type\0reg\0numa-node-id\0no-map";
static size_t tree_structure_at;

static void tree_byte(uint8_t byte)
{
    if (tree_length < TREE_MOST)
        tree[tree_length++] = byte;
}

static void tree_number(size_t length, uint64_t number)
{
    while (length-- > 0)
        tree_byte((uint8_t)(number >> 8 * length));
}

static void tree_word(uint64_t word)
{
    tree_number(4, word);
}

static void tree_field(size_t at, uint64_t word)
{
    for (size_t i = 0; i < 4; i++)
        tree[at + i] = (uint8_t)(word >> 8 * (3 - i));
}

/* Padding may be any bytes. */
static void tree_pad(void)
{
    while (tree_length % 4 != 0)
        tree_byte((uint8_t)(0x80 + tree_length));
}

/* With the zero. */
static void tree_bytes(const char *value)
{
    while (*value != 0)
        tree_byte((uint8_t)*value++);
    tree_byte(0);
    tree_pad();
}

static void tree_begin(void)
{
    for (size_t i = 0; i < sizeof tree; i++)
        tree[i] = FILL;
    tree_length = 0;
    while (tree_length < MEMBLOCK_TREE_HEADER_LENGTH)
        tree_byte(0);
}

static void tree_pair(uint64_t base, uint64_t size)
{
    tree_number(8, base);
    tree_number(8, size);
}

static void tree_node(const char *name)
{
    tree_word(BEGIN_NODE);
    tree_bytes(name);
}

static void tree_node_end(void)
{
    tree_word(END_NODE);
}

static int same_name(const char *one, const char *other)
{
    while (*one != 0 && *one == *other)
        one++, other++;
    return *one == *other;
}

static void tree_property(const char *name, size_t length)
{
    size_t at = 0;
    while (at < sizeof tree_names && !same_name(tree_names + at, name)) {
        while (tree_names[at] != 0)
            at++;
        at++;
    }
    tree_word(PROPERTY);
    tree_word(length);
    tree_word(at);
}

static void tree_cell(const char *name, uint32_t value)
{
    tree_property(name, 4);
    tree_word(value);
}

/* The list ends, and the root begins. */
static void tree_root(uint32_t address_cells, uint32_t size_cells)
{
    tree_pair(0, 0);
    tree_structure_at = tree_length;
    tree_word(NOP);
    tree_node("");
    tree_cell("#address-cells", address_cells);
    tree_cell("#size-cells", size_cells);
}

static void tree_memory(void)
{
    tree_node("memory");
    tree_property("device_type", 7);
    tree_bytes("memory");
}

/* One range by cells 2 and 2. */
static void tree_range(uint64_t base, uint64_t size)
{
    tree_property("reg", 16);
    tree_pair(base, size);
}

/* Writes what the buffer holds into the transcript. */
static void tree_show(void)
{
    named("tree ", FILL);
    text("\n");
    for (size_t at = 0; at < tree_length; at += 32) {
        named("tree at ", at);
        text(" ");
        for (size_t i = at; i < at + 32 && i < tree_length; i++) {
            char digits[2] = {"0123456789abcdef"[tree[i] >> 4], "0123456789abcdef"[tree[i] & 15]};
            machine->write(digits, sizeof digits);
        }
        text("\n");
    }
}

/* The root and the structure block end; the strings follow, and the header is written. */
static void tree_end(void)
{
    tree_node_end();
    tree_word(NOP);
    tree_word(END);
    size_t strings_at = tree_length;
    for (size_t i = 0; i < sizeof tree_names; i++)
        tree_byte((uint8_t)tree_names[i]);
    tree_field(MEMBLOCK_TREE_MAGIC_AT, MEMBLOCK_TREE_MAGIC);
    tree_field(MEMBLOCK_TREE_TOTAL_SIZE_AT, tree_length);
    tree_field(MEMBLOCK_TREE_STRUCTURE_AT, tree_structure_at);
    tree_field(MEMBLOCK_TREE_STRINGS_AT, strings_at);
    tree_field(MEMBLOCK_TREE_LIST_AT, MEMBLOCK_TREE_HEADER_LENGTH);
    tree_field(MEMBLOCK_TREE_VERSION_AT, MEMBLOCK_TREE_VERSION);
    tree_field(MEMBLOCK_TREE_COMPATIBLE_AT, MEMBLOCK_TREE_COMPATIBLE);
    tree_field(MEMBLOCK_TREE_STRINGS_LENGTH_AT, sizeof tree_names);
    tree_field(MEMBLOCK_TREE_STRUCTURE_LENGTH_AT, strings_at - tree_structure_at);
    tree_show();
}

static void poke_tree(size_t at, uint8_t byte)
{
    tree[at] = byte;
    named("poke tree ", at);
    named(" ", byte);
    text("\n");
}

/* The tree as it stands is the service tree from now on. */
static void keep_as_service(void)
{
    for (size_t i = 0; i < sizeof service; i++)
        service[i] = i < tree_length && i < SERVICE_MOST ? tree[i] : FILL;
    service_length = tree_length < SERVICE_MOST ? tree_length : SERVICE_MOST;
    named("service ", service_length);
    text("\n");
}

static void poke_service(size_t at, uint8_t byte)
{
    service[at] = byte;
    named("poke service ", at);
    named(" ", byte);
    text("\n");
}

/* Allocations in use. */

#define USES 24
static struct held uses[USES];
static size_t use_count;

/* Allocates and uses the memory; what stays allocated to the end must hold it to the end. */
static void take_wish(uint64_t size, uint64_t alignment, uint64_t start, uint64_t end, uint32_t wish)
{
    if (allocate_slip(&block, (struct query){size, alignment, start, end, ANY, wish, MEMBLOCK_SLIP_LENGTH}) != MEMBLOCK_DONE)
        return;
    if (machine->fill != NULL && use_count < USES) {
        machine->fill(slip_base(), slip_base() + size); /* the slip's end is that of the free run */
        uses[use_count].base = slip_base();
        uses[use_count].size = size;
        use_count++;
    }
}

static void take(uint64_t size, uint64_t alignment, uint64_t start, uint64_t end)
{
    take_wish(size, alignment, start, end, NONE);
}

/* Of a use only the first bytes are kept. */
static void give_back(uint64_t base, uint64_t kept)
{
    for (size_t i = 0; i < use_count; i++)
        if (uses[i].base == base)
            uses[i].size = kept;
}

/* The parts of a boot. */

static const struct map_entry *map_entry(size_t i, int backwards)
{
    return &machine->map[backwards ? machine->map_count - 1 - i : i];
}

/* The map as one report. */
static void take_report(struct lent *lent, int backwards)
{
    report_begin();
    for (size_t i = 0; i < machine->map_count; i++) {
        const struct map_entry *entry = map_entry(i, backwards);
        report_entry(entry->base, entry->size, entry->kind);
    }
    intake(lent, report_length);
}

/* Each usable entry of the map by a call, then whole pages only. */
static void take_entries(struct lent *lent, int backwards)
{
    for (size_t i = 0; i < machine->map_count; i++) {
        const struct map_entry *entry = map_entry(i, backwards);
        if (entry->kind == MAP_USABLE)
            add(lent, entry->base, entry->size, 0, 0);
    }
    trim(lent, PAGE);
}

/* The map, then what is in use. */
static void take_map(struct lent *lent, void (*take)(struct lent *lent, int backwards), int backwards)
{
    fresh(lent, LENGTH);
    set(lent, GIB(4), MEMBLOCK_BOTTOM_UP);
    take(lent, backwards);
    for (size_t i = 0; i < machine->held_count; i++) {
        const struct held *held = &machine->held[backwards ? machine->held_count - 1 - i : i];
        RESERVE(lent, held->base, held->size);
    }
    RESERVE(lent, 0xA0000, 0x60000); /* the legacy area below 1 MiB */
}

/* Whether two blocks are equal. */
static void compare_two(const struct lent *one, const struct lent *other)
{
    int same = 1;
    for (size_t i = 0; i < LENGTH; i++)
        same = same && one->bytes[i] == other->bytes[i];
    text("same ");
    text(one->name);
    text(" ");
    text(other->name);
    named(" ", (uint64_t)same);
    text("\n");
}

static void compare(void)
{
    compare_two(&block, &mirror);
}

/* The machine's report in the other order gives the same bytes, as one report and entry by entry. */
static void same_backwards(void (*take)(struct lent *lent, int backwards))
{
    take_map(&mirror, take, 1);
    compare();
}

/* A block as an earlier loader left it, in edition 1: no function takes it but convert, which makes the same block of it. */
static void converted(void)
{
    fill_block(&mirror);
    fill_block(&old);
    convert(OLD_LENGTH, &mirror, LENGTH);
    make_old(&block);
    fresh(&old, OLD_LENGTH);
    RESERVE(&old, 0, PAGE);
    convert(OLD_LENGTH - 1, &mirror, LENGTH);
    convert(LENGTH, &mirror, LENGTH);
    convert(OLD_LENGTH, &mirror, LENGTH - 1);
    convert(OLD_LENGTH, &mirror, OLD_LENGTH);
    convert(OLD_LENGTH, &mirror, LENGTH);
    compare();
    poke(&old, MEMBLOCK_IMAGE_END_AT, 1); /* edition 1 has no image end */
    convert(OLD_LENGTH, &mirror, LENGTH);
    poke(&old, MEMBLOCK_IMAGE_END_AT, 0);
    poke(&old, OLD_LENGTH - 1, 1);
    convert(OLD_LENGTH, &mirror, LENGTH);
}

/* A page for a log, and where service has it. */
#define LOG_PAGE (FAR_TAKEN + GIB(1))
#define SERVICE_LOG (FAR_TAKEN + GIB(2))

/* The machine's map as a tree: the usable entries as memory, of node 1 those above 4 GiB; what is in use, the page for a log, and the first
 * page of each usable entry, which is not mapped, under two /reserved-memory; the legacy area in the list, and an entry of size 0. Nodes
 * to the deepest level besides. */
static void map_as_tree(unsigned deepest)
{
    tree_begin();
    tree_pair(0xA0000, 0x60000);
    tree_pair(MIB(1), 0);
    tree_root(2, 2);
    for (unsigned level = 2; level <= deepest; level++)
        tree_node("level");
    for (unsigned level = 2; level <= deepest; level++)
        tree_node_end();
    tree_node("reserved-memory");
    for (size_t i = 0; i < machine->map_count; i++)
        if (machine->map[i].kind == MAP_USABLE) {
            tree_node("first-page");
            tree_property("no-map", 0);
            tree_range(machine->map[i].base, PAGE);
            tree_node_end();
        }
    tree_node_end();
    for (size_t i = 0; i < machine->map_count; i++)
        if (machine->map[i].kind == MAP_USABLE) {
            tree_memory();
            if (machine->map[i].base >= GIB(4))
                tree_cell("numa-node-id", 1);
            tree_range(machine->map[i].base, machine->map[i].size);
            tree_node_end();
        }
    tree_node("reserved-memory");
    for (size_t i = 0; i < machine->held_count; i++) {
        tree_node("held");
        tree_range(machine->held[i].base, machine->held[i].size);
        tree_node_end();
    }
    tree_node("log@1");
    tree_range(LOG_PAGE, PAGE);
    tree_node_end();
    tree_node_end();
    tree_end();
}

/* A service tree: the log's range is another one, all memory is of node 2. Its own memory and its list say nothing. */
static void build_service(void)
{
    tree_begin();
    tree_pair(FAR_MEMORY, PAGE);
    tree_root(2, 2);
    tree_node("memory");
    tree_cell("numa-node-id", 2);
    tree_node_end();
    tree_node("reserved-memory");
    tree_node("log@1");
    tree_range(SERVICE_LOG, 2 * PAGE);
    tree_node_end();
    tree_node_end();
    tree_node("memory@far");
    tree_property("device_type", 7);
    tree_bytes("memory");
    tree_range(FAR_MEMORY, PAGE);
    tree_node_end();
    tree_end();
    keep_as_service();
}

/* The same by calls, in the order that the intake has, as it is or as service has it. */
static void map_by_calls(struct lent *lent, int corrected)
{
    for (size_t i = 0; i < machine->map_count; i++)
        if (machine->map[i].kind == MAP_USABLE)
            add(lent, machine->map[i].base, machine->map[i].size, 0, corrected ? 2 : machine->map[i].base >= GIB(4));
    RESERVE(lent, 0xA0000, 0x60000);
    for (size_t i = 0; i < machine->held_count; i++)
        RESERVE(lent, machine->held[i].base, machine->held[i].size);
    RESERVE(lent, corrected ? SERVICE_LOG : LOG_PAGE, corrected ? 2 * PAGE : PAGE);
    for (size_t i = 0; i < machine->map_count; i++)
        if (machine->map[i].kind == MAP_USABLE)
            mark(lent, machine->map[i].base, PAGE, MEMBLOCK_NO_MAP);
}

/* The map as a tree with what service corrects gives the block of these commands; a value is read in the tree that has it. */
static void corrections(void)
{
    intake_trees(&by_tree, tree_length, 0);
    intake_trees(&by_tree, tree_length - 1, service_length);
    intake_trees(&by_tree, tree_length, service_length);
    fresh(&by_calls, LENGTH);
    map_by_calls(&by_calls, 1);
    compare_two(&by_tree, &by_calls);

    lookup("/reserved-memory/log@1", "reg"); /* the service tree has it */
    lookup("/reserved-memory/held", "reg");  /* the board's, of the first of its nodes */
    lookup("/memory", "device_type");
    lookup("/", "#size-cells");
    lookup("/reserved-memory/first-page", "no-map"); /* empty, and there */
    lookup("/memory", "no-map");
    lookup("/reserved-memory/log", "reg"); /* not the whole name */
    lookup("memory", "reg");
    lookup("", "reg");
    static const size_t lengths[] = {0, MEMBLOCK_SLIP_LENGTH - 1, MEMBLOCK_SLIP_LENGTH + 1};
    for (size_t i = 0; i < sizeof lengths / sizeof lengths[0]; i++)
        lookup_slip(service_length, 0, "/memory", "reg", lengths[i]);
    lookup_slip(service_length, tree_length - 1, "/memory", "numa-node-id", MEMBLOCK_SLIP_LENGTH);
    poke_service(MEMBLOCK_TREE_MAGIC_AT, 0);
    lookup_slip(service_length, tree_length, "/memory", "device_type", MEMBLOCK_SLIP_LENGTH);
    intake_trees(&by_tree, tree_length, service_length);
    poke_service(MEMBLOCK_TREE_MAGIC_AT, (uint8_t)(MEMBLOCK_TREE_MAGIC >> 24));
}

/* The map as a tree gives the block that its commands give; one level more is refused, as is every other fault. So with a service tree.
 * Then the tree that the machine has. */
static void trees(void)
{
    build_service();
    map_as_tree(MEMBLOCK_TREE_DEPTH + 1);
    fresh(&by_tree, LENGTH);
    intake_tree(&by_tree, tree_length);
    map_as_tree(MEMBLOCK_TREE_DEPTH);
    intake_tree(&by_tree, 0);
    intake_tree(&by_tree, MEMBLOCK_TREE_HEADER_LENGTH - 1);
    intake_tree(&by_tree, tree_length - 1);
    static const size_t fields[] = {MEMBLOCK_TREE_MAGIC_AT,   MEMBLOCK_TREE_VERSION_AT,           MEMBLOCK_TREE_COMPATIBLE_AT,
                                    MEMBLOCK_TREE_LIST_AT,    MEMBLOCK_TREE_STRUCTURE_AT,         MEMBLOCK_TREE_STRINGS_LENGTH_AT,
                                    MEMBLOCK_TREE_STRINGS_AT, MEMBLOCK_TREE_STRUCTURE_LENGTH_AT,  MEMBLOCK_TREE_TOTAL_SIZE_AT};
    for (size_t i = 0; i < sizeof fields / sizeof fields[0]; i++) {
        /* The last byte of a word, one less; then as it was. */
        size_t at = fields[i] + 3;
        poke_tree(at, (uint8_t)(tree[at] - 1));
        intake_tree(&by_tree, tree_length);
        poke_tree(at, (uint8_t)(tree[at] + 1));
    }
    intake_tree(&by_tree, tree_length);
    fresh(&by_calls, LENGTH);
    map_by_calls(&by_calls, 0);
    compare_two(&by_tree, &by_calls);
    intake_tree(&by_tree, tree_length); /* a second time it changes nothing */
    intake_tree(&by_tree, tree_length + GUARD);
    compare_two(&by_tree, &by_calls);
    fresh(&by_tree, LENGTH);
    corrections();
    /* What a machine has. */
    if (machine->tree == NULL || machine->tree_length > TREE_MOST)
        return;
    tree_begin();
    tree_length = 0;
    for (size_t i = 0; i < machine->tree_length; i++)
        tree_byte(machine->tree[i]);
    tree_show();
    fresh(&by_tree, LENGTH);
    intake_trees(&by_tree, tree_length, service_length);
    lookup("/", "#address-cells");
    lookup("/", "model");
    lookup("/", "compatible");
    fresh(&by_tree, LENGTH);
    intake_tree(&by_tree, tree_length);
}

/* The image's end, where bottom-up allocations begin from now on; those that find no room there, as none is mapped yet above it, go
 * as high below as can be. */
static void above_the_image(void)
{
    const uint64_t image_end = machine->held[0].base + machine->held[0].size;
    find(&block, PAGE, PAGE, 0, 0, ANY);
    set_image_end(&block, image_end);
    find(&block, PAGE, PAGE, 0, 0, ANY);
    take(PAGE, PAGE, 0, 0);
    next_free(&block, 0, ANY, NONE, MEMBLOCK_SLIP_LENGTH); /* takes no notice */
    set(&block, image_end, MEMBLOCK_BOTTOM_UP);
    take(2 * PAGE, PAGE, 0, 0);
    find(&block, MIB(1), 1, 0, 0, ANY); /* no room above, nor below */
    /* An image end at the top leaves nothing above it. */
    set(&block, GIB(4), MEMBLOCK_BOTTOM_UP);
    set_image_end(&block, MEMBLOCK_TOP);
    take(PAGE, PAGE, 0, 0);
    set(&block, GIB(4), MEMBLOCK_TOP_DOWN);
    find(&block, PAGE, PAGE, 0, 0, ANY);
    set_image_end(&block, image_end);
}

/* The top 64 KiB below 4 GiB go to the firmware: no-map; then half of it comes back. */
static void firmware(void)
{
    set(&block, GIB(4), MEMBLOCK_TOP_DOWN);
    if (find(&block, KIB(64), PAGE, 0, 0, ANY) != MEMBLOCK_DONE)
        return;
    uint64_t base = slip_base();
    mark(&block, base, KIB(64), MEMBLOCK_NO_MAP);
    find(&block, KIB(64), PAGE, 0, 0, ANY);
    unmark(&block, base, KIB(32), MEMBLOCK_NO_MAP);
    find(&block, KIB(16), PAGE, 0, 0, ANY);
    mark(&block, base, KIB(32), MEMBLOCK_NO_MAP);
}

/* The memory below the firmware's, in four parts: plain, mirror, mirror and hotplug, hotplug; the lower two were called hotplug by
 * mistake. Each wish meets what it allows and demands, and no run goes on from one part to the next. */
static void hotplug_and_mirror(void)
{
    static const uint32_t wishes[] = {NONE, MEMBLOCK_WISH_HOTPLUG, MEMBLOCK_WISH_MIRROR, MEMBLOCK_WISHES};
    const uint64_t part = KIB(16);
    if (find(&block, 4 * part, PAGE, 0, 0, ANY) != MEMBLOCK_DONE)
        return;
    uint64_t base = slip_base();
    uint64_t end = base + 4 * part;
    mark(&block, base, 4 * part, MEMBLOCK_HOTPLUG);
    mark(&block, base + part, 2 * part, MEMBLOCK_MIRROR);
    unmark(&block, base, 2 * part, MEMBLOCK_HOTPLUG);
    for (size_t i = 0; i < sizeof wishes / sizeof wishes[0]; i++) {
        find_slip(&block, (struct query){part - PAGE, PAGE, base, end, ANY, wishes[i], MEMBLOCK_SLIP_LENGTH});
        find_slip(&block, (struct query){part + 1, 1, base, end, ANY, wishes[i], MEMBLOCK_SLIP_LENGTH});
        next_free(&block, base, ANY, wishes[i], MEMBLOCK_SLIP_LENGTH);
        take_wish(PAGE, PAGE, base, end, wishes[i]);
        next_free(&block, slip_end(), ANY, wishes[i], MEMBLOCK_SLIP_LENGTH);
    }
    /* No-map memory is given to no wish, whatever else it is; mirror memory that is none any more to no wish for it. */
    mark(&block, base + 2 * part, PAGE, MEMBLOCK_NO_MAP);
    take_wish(PAGE, PAGE, base + 2 * part, base + 2 * part + PAGE, MEMBLOCK_WISHES);
    unmark(&block, base + 2 * part, PAGE, MEMBLOCK_NO_MAP);
    unmark(&block, base + part, PAGE, MEMBLOCK_MIRROR);
    take_wish(PAGE, PAGE, base + part, base + part + PAGE, MEMBLOCK_WISH_MIRROR);
}

/* A trace buffer of all that its free run has left, at most 1 MiB; then where free memory goes on behind that run. */
static void trace(void)
{
    if (find(&block, PAGE, PAGE, MIB(2), 0, ANY) != MEMBLOCK_DONE)
        return;
    uint64_t left = slip_end() - slip_base();
    take(left < MIB(1) ? left : MIB(1), PAGE, slip_base(), 0);
    next_free(&block, slip_end(), ANY, NONE, MEMBLOCK_SLIP_LENGTH);
}

static void allocations(void)
{
    set(&block, GIB(4), MEMBLOCK_BOTTOM_UP);
    take(PAGE, PAGE, 0, MIB(1)); /* a start page for other processors, below the image */
    take(3 * PAGE, PAGE, 0, 0);
    take(64, 64, 0, 0);
    take(24, 1, 0, 0);
    take(MIB(2), MIB(2), 0, 0);

    set(&block, GIB(4), MEMBLOCK_TOP_DOWN);
    take(MIB(8), MIB(2), 0, 0); /* a camera's buffer */
    uint64_t camera = slip_base();
    take(MIB(1), PAGE, 0, 0); /* a depth table */
    uint64_t depth = slip_base();
    take(1, 1, 0, 0);
    take(5 * PAGE, KIB(16), MIB(2), MIB(64));

    /* The second half of the depth table goes back and is eligible at once. A second time it is refused, whole, in part, and with what
     * is still taken before it. */
    give_back(depth, KIB(512));
    FREE(&block, depth + KIB(512), KIB(512));
    find(&block, KIB(512), KIB(4), 0, 0, ANY);
    FREE(&block, depth + KIB(512), KIB(512));
    FREE(&block, depth + KIB(512), 1);
    FREE(&block, depth, MIB(1));
    FREE(&block, depth + KIB(512) - 1, 2);
    FREE(&block, GIB(600), MIB(1)); /* never taken */
    FREE(&block, GIB(600), 0);
    FREE(&block, camera, 0);
    RESERVE(&block, camera, MIB(8)); /* taken already: changes nothing */

    set(&block, GIB(4), MEMBLOCK_BOTTOM_UP);
    take(KIB(512), PAGE, MIB(1), 0);
    take(KIB(256), KIB(64), 0, 0);
    trace();
    set(&block, GIB(4), MEMBLOCK_TOP_DOWN);
    take(KIB(128), KIB(64), 0, 0);
    take(PAGE, PAGE, 0, MIB(16));
}

static void free_runs(const struct lent *lent, uint32_t node, uint32_t wish)
{
    uint64_t from = 0;
    while (next_free(lent, from, node, wish, MEMBLOCK_SLIP_LENGTH) == MEMBLOCK_DONE)
        from = slip_end();
}

/* The free pages, handed over. */

/* What the machine has mapped. */
#define MAPPED GIB(4)

/* A free run as next free tells it, without a line; 0 and 0 where there is none. */
static struct held run_from(const struct lent *lent, uint64_t from)
{
    uint8_t run[MEMBLOCK_SLIP_LENGTH];
    memblock_next_free(lent->bytes, LENGTH, from, ANY, MEMBLOCK_WISH_HOTPLUG, run, sizeof run);
    uint64_t base = number_at(run, MEMBLOCK_SLIP_BASE_AT, 8);
    return (struct held){base, number_at(run, MEMBLOCK_SLIP_END_AT, 8) - base};
}

/* The whole pages of the free runs, run by run. */
static uint64_t whole_pages(const struct lent *lent)
{
    uint64_t count = 0;
    for (struct held run = run_from(lent, 0); run.size > 0; run = run_from(lent, run.base + run.size)) {
        uint64_t first = run.base / PAGE + (run.base % PAGE != 0);
        uint64_t past = (run.base + run.size) / PAGE;
        count += first < past ? past - first : 0;
    }
    return count;
}

/* Whether an address of the range is taken. */
static int any_taken(const struct lent *lent, uint64_t base, uint64_t end)
{
    uint64_t count = number_at(lent->bytes, MEMBLOCK_TAKEN_ENTRY_AT + MEMBLOCK_ENTRY_COUNT_AT, 4);
    const uint8_t *record = lent->bytes + MEMBLOCK_TAKEN_AT;
    for (uint64_t i = 0; i < count; i++, record += MEMBLOCK_RECORD_LENGTH) {
        uint64_t taken = number_at(record, MEMBLOCK_RECORD_BASE_AT, 8);
        if (taken < end && base < taken + number_at(record, MEMBLOCK_RECORD_SIZE_AT, 8))
            return 1;
    }
    return 0;
}

/* Whether 2^order pages from this one on are a piece, above all pages below past: at a multiple of their size, in one free run, none of it
 * taken. */
static int is_piece(const struct lent *lent, uint64_t page, uint64_t order, uint64_t past)
{
    if (page < past || page >= MEMBLOCK_PAGES || order > MEMBLOCK_LARGEST_ORDER || page % (UINT64_C(1) << order) != 0)
        return 0;
    uint64_t base = page * PAGE;
    uint64_t size = PAGE << order;
    struct held run = run_from(lent, base);
    return run.base == base && run.size >= size && !any_taken(lent, base, base + size);
}

/* Uses the first word and the last of a piece that is mapped, or looks whether they hold what they should. */
static int use_piece(uint64_t page, uint64_t order, int again)
{
    uint64_t words[] = {page * PAGE, page * PAGE + (PAGE << order) - 8};
    int holds = 1;
    if (machine->store == NULL || words[1] >= MAPPED)
        return holds;
    for (size_t i = 0; i < sizeof words / sizeof words[0]; i++)
        if (again)
            holds = holds && machine->load(words[i]) == ~words[i];
        else
            machine->store(words[i], ~words[i]);
    return holds;
}

/* What calls in turn handed over: pieces and their pages, a sum over the pieces' bytes, and how many pieces were none. */
struct handed {
    uint64_t pieces, pages, sum, wrong;
};

/* Calls in turn from page 0 on until no piece is left. The buffer is the small one at first, and grows where there are many pieces; or it
 * is the large one, all but a byte. */
static struct handed hand_over_by(const struct lent *lent, int large, int use)
{
    struct handed handed = {0, 0, SUM_OF_NONE, 0};
    size_t room = large ? PIECES_MOST * PIECE - 1 : PIECES_FEW * PIECE;
    uint64_t from = 0, past = 0;
    for (unsigned turn = 1; from != MEMBLOCK_PAGES && pages(lent, from, room) == MEMBLOCK_DONE; turn++) {
        uint64_t count = number_at(slip, MEMBLOCK_SLIP_COUNT_AT, 8);
        from = number_at(slip, MEMBLOCK_SLIP_NEXT_PAGE_AT, 8);
        if (count > room / PIECE || (count < room / PIECE && from != MEMBLOCK_PAGES)) {
            handed.wrong++;
            break;
        }
        for (uint64_t i = 0; i < count; i++) {
            uint64_t page = piece_page(i), order = piece_order(i);
            if (!is_piece(lent, page, order, past)) {
                handed.wrong++;
                continue;
            }
            past = page + (UINT64_C(1) << order);
            handed.pages += past - page;
            handed.wrong += use && !use_piece(page, order, large);
        }
        handed.pieces += count;
        handed.sum = sum_on(handed.sum, buffer, count * PIECE);
        if (turn >= 12 && room < PIECES_MOST / 2 * PIECE)
            room *= 2;
    }
    uint64_t whole = whole_pages(lent);
    handed.wrong += handed.pages != whole;
    text("handed ");
    text(lent->name);
    named(" pieces ", handed.pieces);
    named(" pages ", handed.pages);
    named(" of ", whole);
    named(" sum ", handed.sum);
    named(" wrong ", handed.wrong);
    text("\n");
    return handed;
}

/* All free pages by small buffers, then by a large one, which gives the same pieces. Answers what was wrong. */
static int hand_over(const struct lent *lent, int use)
{
    struct handed small = hand_over_by(lent, 0, use);
    struct handed large = hand_over_by(lent, 1, use);
    int same = small.pieces == large.pieces && small.pages == large.pages && small.sum == large.sum;
    return (int)(small.wrong + large.wrong) + !same;
}

/* Slips and a block that are refused, buffers that take nothing or have bytes left, pages in a piece and behind all of them. */
static void some_pages(void)
{
    static const size_t slips[] = {0, MEMBLOCK_SLIP_LENGTH - 1, MEMBLOCK_SLIP_LENGTH + 1};
    static const uint64_t last[] = {MEMBLOCK_PAGES - 1, MEMBLOCK_PAGES, UINT64_MAX};
    const size_t few = PIECES_FEW * PIECE;
    for (size_t i = 0; i < sizeof slips / sizeof slips[0]; i++)
        pages_slip(&block, LENGTH, 0, few, slips[i]);
    pages_slip(&block, LENGTH - 1, 0, few, MEMBLOCK_SLIP_LENGTH);
    pages(&block, 0, 0);
    pages(&block, 0, PIECE - 1);
    pages(&block, number_at(slip, MEMBLOCK_SLIP_NEXT_PAGE_AT, 8), 2 * PIECE - 1);
    for (size_t i = 0; i < sizeof last / sizeof last[0]; i++)
        pages(&block, last[i], few);
    pages(&block, 0, few);
    uint64_t count = number_at(slip, MEMBLOCK_SLIP_COUNT_AT, 8);
    for (uint64_t i = 0; i < count && i < PIECES_FEW; i++)
        if (piece_order(i) > 0) {
            uint64_t page = piece_page(i), past = page + (UINT64_C(1) << piece_order(i));
            pages(&block, page, few);
            pages(&block, page + 1, few);
            pages(&block, past - 1, few);
            return;
        }
}

/* Each call on a block with one byte wrong. */
static void bad_block(void)
{
    uint8_t byte = block.bytes[MEMBLOCK_MEMORY_TOTAL_AT];
    poke(&block, MEMBLOCK_MEMORY_TOTAL_AT, (uint8_t)(byte + 1));
    set(&block, 0, 2);
    set_image_end(&block, 0);
    add(&block, 0, PAGE, MEMBLOCK_FLAGS + 1, 0);
    REMOVE(&block, 0, PAGE);
    mark(&block, 0, PAGE, 0);
    unmark(&block, 0, PAGE, MEMBLOCK_NO_MAP);
    RESERVE(&block, 0, PAGE);
    FREE(&block, 0, PAGE);
    trim(&block, 3);
    next_free(&block, 0, 64, MEMBLOCK_WISHES + 1, MEMBLOCK_SLIP_LENGTH);
    find(&block, 0, 3, 0, 0, 64);
    allocate(&block, 0, 3, 0, 0, 64);
    allocate_slip(&block, (struct query){0, 3, 0, 0, 64, MEMBLOCK_WISHES + 1, MEMBLOCK_SLIP_LENGTH + 1});
    intake(&block, report_length);
    intake(&block, 1);
    intake_tree(&block, tree_length);
    intake_tree(&block, 0);
    intake_trees(&block, tree_length, service_length);
    intake_trees(&block, 0, 0);
    pages(&block, 0, PIECES_FEW * PIECE);
    pages_slip(&block, LENGTH, MEMBLOCK_PAGES, PIECES_FEW * PIECE, MEMBLOCK_SLIP_LENGTH - 1);
    poke(&block, MEMBLOCK_MEMORY_TOTAL_AT, byte);
}

static void refusals(void)
{
    set(&block, GIB(1), 2);
    add(&block, 0, PAGE, MEMBLOCK_FLAGS + 1, 0);
    add(&block, 0, 0, 0, MEMBLOCK_NODES);
    mark(&block, 0, PAGE, 0);
    mark(&block, 0, 0, MEMBLOCK_HOTPLUG | MEMBLOCK_MIRROR);
    unmark(&block, 0, PAGE, MEMBLOCK_FLAGS);
    unmark(&block, 0, 0, MEMBLOCK_FLAGS + 1);
    trim(&block, 0);
    trim(&block, 0x1800);
    next_free(&block, 0, MEMBLOCK_NODES, NONE, MEMBLOCK_SLIP_LENGTH);
    next_free(&block, 0, ANY, MEMBLOCK_WISHES + 1, MEMBLOCK_SLIP_LENGTH);
    next_free(&block, 0, ANY, NONE, MEMBLOCK_SLIP_LENGTH - 1);
    next_free(&block, MEMBLOCK_TOP, ANY, NONE, MEMBLOCK_SLIP_LENGTH);
    find_slip(&block, (struct query){PAGE, PAGE, 0, 0, ANY, NONE, 0});
    find_slip(&block, (struct query){0, 3, 0, 0, ANY, MEMBLOCK_WISHES + 1, MEMBLOCK_SLIP_LENGTH});
    find(&block, PAGE, PAGE, 0, 0, MEMBLOCK_NODES);
    find(&block, 0, 3, 0, 0, ANY);
    find(&block, 0, PAGE, 0, 0, ANY);
    find(&block, PAGE, PAGE, 0, 0, 1);
    find(&block, UINT64_C(1) << 63, 1, 0, 0, ANY);
    /* A large size and a small end: no address, in either direction. */
    find(&block, MIB(64), 1, 0, MIB(1), ANY);
    set(&block, GIB(4), MEMBLOCK_BOTTOM_UP);
    find(&block, MIB(64), 1, 0, MIB(1), ANY);
    find(&block, MEMBLOCK_TOP, UINT64_C(1) << 63, MEMBLOCK_TOP, MEMBLOCK_TOP, ANY);
    allocate_slip(&block, (struct query){PAGE, PAGE, 0, 0, ANY, NONE, MEMBLOCK_SLIP_LENGTH + GUARD});
    allocate_slip(&block, (struct query){PAGE, PAGE, 0, 0, ANY, UINT32_MAX, MEMBLOCK_SLIP_LENGTH});
    allocate(&block, PAGE, PAGE, 0, 0, 1);
    allocate(&block, PAGE, 0, 0, 0, ANY);
    allocate(&block, 0, PAGE, 0, 0, ANY);
}

/* Reports that are refused before an entry is looked at, and others that change nothing. */
static void reports(struct lent *lent)
{
    report_begin();
    while (report_length < REPORT_MOST)
        report_entry(FAR_MEMORY + report_length * PAGE, PAGE, MAP_USABLE);
    intake(lent, report_length);
    intake(lent, report_length - 1);
    intake(lent, MEMBLOCK_REPORT_ENTRY_LENGTH - 1);
    intake(lent, MEMBLOCK_REPORT_ENTRY_LENGTH + 1);
    intake(lent, 0);

    report_begin();
    for (uint32_t kind = 2; kind <= 9; kind++)
        report_entry(FAR_MEMORY, PAGE, kind);
    report_entry(FAR_MEMORY, PAGE, 0);
    report_entry(FAR_MEMORY, PAGE, UINT32_MAX);
    report_entry(FAR_MEMORY, 0, MAP_USABLE);
    report_entry(UINT64_C(0) - PAGE, 2 * PAGE, MAP_USABLE);
    report_entry(MEMBLOCK_TOP, 1, MAP_USABLE);
    intake(lent, report_length);
}

/* The taken table filled: apart refuses 6, touching does not. */
static void full_taken(struct lent *lent)
{
    uint64_t base = FAR_TAKEN;
    uint64_t count = 0;
    while (count <= MEMBLOCK_TAKEN_CAPACITY && RESERVE(lent, base + count * 2 * PAGE, PAGE) == MEMBLOCK_DONE)
        count++;
    if (count < 2)
        return;
    uint64_t last = base + (count - 1) * 2 * PAGE;
    FREE(lent, last + 16, 16);
    FREE(lent, last + 16, PAGE); /* past the record's end: no question of room */
    set(lent, GIB(4), MEMBLOCK_BOTTOM_UP);
    if (find(lent, KIB(256), PAGE, MIB(2), 0, ANY) == MEMBLOCK_DONE)
        allocate(lent, PAGE, PAGE, slip_base() + KIB(64), 0, ANY); /* inside a free run: a record more */
    /* A tree whose list has no room leaves nothing of its memory; one that touches has. */
    tree_begin();
    tree_pair(base + count * 2 * PAGE, PAGE);
    tree_root(2, 2);
    tree_memory();
    tree_range(FAR_MEMORY, PAGE);
    tree_node_end();
    tree_end();
    intake_tree(lent, tree_length);
    intake_trees(lent, tree_length, service_length);
    poke_tree(MEMBLOCK_TREE_HEADER_LENGTH + 8 - 2, (uint8_t)((last + PAGE) >> 8));
    poke_tree(MEMBLOCK_TREE_HEADER_LENGTH + 8 - 3, (uint8_t)((last + PAGE) >> 16));
    poke_tree(MEMBLOCK_TREE_HEADER_LENGTH + 8 - 4, (uint8_t)((last + PAGE) >> 24));
    intake_tree(lent, tree_length);
    REMOVE(lent, FAR_MEMORY, PAGE);
    FREE(lent, last + PAGE, PAGE);
    RESERVE(lent, base + PAGE, PAGE);                             /* fills a gap: a record less */
    RESERVE(lent, last + 4 * PAGE, PAGE);
    FREE(lent, base, (count + 4) * 2 * PAGE); /* over the gaps */
    FREE(lent, base, 3 * PAGE);               /* what three calls reserved */
    for (uint64_t i = 2; i < count; i++)
        FREE(lent, base + i * 2 * PAGE, PAGE);
    FREE(lent, last + 4 * PAGE, PAGE);
}

/* The memory table filled with records that touch and differ in their tags. Answers what was wrong with its pages. */
static int full_memory(struct lent *lent)
{
    uint64_t base = FAR_MEMORY;
    uint64_t count = 0;
    while (count <= MEMBLOCK_MEMORY_CAPACITY &&
           add(lent, base + count * PAGE, PAGE, count % 3 == 0 ? MEMBLOCK_NO_MAP : 0, (uint32_t)(count % MEMBLOCK_NODES)) ==
               MEMBLOCK_DONE)
        count++;
    REMOVE(lent, base + PAGE + 16, 16);
    /* A report whose last entry does not fit leaves nothing behind, even if the trim would have made room. */
    report_begin();
    report_entry(base, PAGE, MAP_USABLE);
    report_entry(FAR_TAKEN + 1, 1, MAP_USABLE);
    intake(lent, report_length);
    intake(lent, MEMBLOCK_REPORT_ENTRY_LENGTH);
    mark(lent, base + PAGE, 16, MEMBLOCK_MIRROR);
    unmark(lent, base + 3 * PAGE, 16, MEMBLOCK_NO_MAP);
    /* So does a tree whose mark has no room. */
    tree_begin();
    tree_pair(FAR_TAKEN, PAGE);
    tree_root(2, 2);
    tree_node("reserved-memory");
    tree_node("half-a-page");
    tree_range(base + PAGE, PAGE / 2);
    tree_property("no-map", 0);
    tree_node_end();
    tree_node_end();
    tree_end();
    intake_tree(lent, tree_length);
    /* A named end is cut to the limit, which is below this memory; next free knows no limit. */
    allocate(lent, PAGE, PAGE, 0, GIB(4096), 5);
    next_free(lent, 0, 5, NONE, MEMBLOCK_SLIP_LENGTH);
    set(lent, GIB(4096), MEMBLOCK_BOTTOM_UP);
    if (allocate(lent, PAGE, PAGE, 0, GIB(4096), 5) == MEMBLOCK_DONE)
        FREE(lent, slip_base(), PAGE);
    set(lent, GIB(4), MEMBLOCK_BOTTOM_UP);
    free_runs(lent, 2, NONE);
    int wrong = hand_over(lent, 0); /* no piece goes on from one record to the next */
    trim(lent, 2 * PAGE);
    REMOVE(lent, base, MEMBLOCK_MEMORY_CAPACITY * 2 * PAGE);
    return wrong;
}

/* Memory of another node where there was none; what was there keeps its tag. Taken addresses that are no memory stay taken. */
static void another_node(struct lent *lent)
{
    add(lent, 0, MIB(4), 0, 3);
    find(lent, PAGE, PAGE, 0, 0, 3);
    free_runs(lent, 3, NONE);
    REMOVE(lent, 0x90000, 0x70000);
    next_free(lent, 0x90000, ANY, NONE, MEMBLOCK_SLIP_LENGTH);
}

/* The last addresses: cut at the top, no sum goes round. */
static void at_the_top(struct lent *lent)
{
    add(lent, UINT64_C(0) - PAGE, 2 * PAGE, 0, 1);
    add(lent, MEMBLOCK_TOP, 1, 0, 1);
    find(lent, PAGE - 1, 1, 0, MEMBLOCK_TOP, 1);
    set(lent, MEMBLOCK_NO_LIMIT, MEMBLOCK_BOTTOM_UP);
    find(lent, PAGE - 1, 1, 0, MEMBLOCK_TOP, 1);
    find(lent, PAGE, 1, 0, MEMBLOCK_TOP, 1);
    set(lent, MEMBLOCK_NO_LIMIT - 1, MEMBLOCK_TOP_DOWN);
    find(lent, PAGE - 1, 1, 0, MEMBLOCK_TOP, 1);
    find(lent, PAGE - 2, 1, 0, MEMBLOCK_TOP, 1);
    next_free(lent, 0, 1, NONE, MEMBLOCK_SLIP_LENGTH);
    pages(lent, MEMBLOCK_PAGES - 1, PIECE); /* the last page is never whole */
    add(lent, UINT64_C(0) - 4 * PAGE, 3 * PAGE, 0, 1);
    pages(lent, MEMBLOCK_PAGES - 4, PIECES_FEW * PIECE);
    pages(lent, MEMBLOCK_PAGES - 2, PIECES_FEW * PIECE);
    REMOVE(lent, UINT64_C(0) - 4 * PAGE, 3 * PAGE);
    RESERVE(lent, UINT64_C(0) - PAGE, 2 * PAGE);
    FREE(lent, MEMBLOCK_TOP, 1); /* nothing is left of it */
    FREE(lent, UINT64_C(0) - PAGE - 1, 2 * PAGE);
    FREE(lent, UINT64_C(0) - PAGE, MEMBLOCK_TOP);
    FREE(lent, UINT64_C(0) - PAGE, MEMBLOCK_TOP);
    REMOVE(lent, UINT64_C(0) - PAGE, MEMBLOCK_TOP);
}

static void table(const struct lent *lent, const char *name, size_t entry_at, size_t at, uint64_t most)
{
    uint64_t count = number_at(lent->bytes, entry_at + MEMBLOCK_ENTRY_COUNT_AT, 4);
    for (uint64_t i = 0; i < count && i < most; i++, at += MEMBLOCK_RECORD_LENGTH) {
        text(name);
        named(" base ", number_at(lent->bytes, at + MEMBLOCK_RECORD_BASE_AT, 8));
        named(" size ", number_at(lent->bytes, at + MEMBLOCK_RECORD_SIZE_AT, 8));
        named(" flags ", number_at(lent->bytes, at + MEMBLOCK_RECORD_FLAGS_AT, 4));
        named(" node ", number_at(lent->bytes, at + MEMBLOCK_RECORD_NODE_AT, 4));
        text("\n");
    }
}

static void tables(const struct lent *lent)
{
    text("tables ");
    text(lent->name);
    text("\n");
    table(lent, "memory", MEMBLOCK_MEMORY_ENTRY_AT, MEMBLOCK_MEMORY_AT, MEMBLOCK_MEMORY_CAPACITY);
    table(lent, "taken", MEMBLOCK_TAKEN_ENTRY_AT, MEMBLOCK_TAKEN_AT, MEMBLOCK_TAKEN_CAPACITY);
    named("totals memory ", number_at(lent->bytes, MEMBLOCK_MEMORY_TOTAL_AT, 8));
    named(" taken ", number_at(lent->bytes, MEMBLOCK_TAKEN_TOTAL_AT, 8));
    text("\n");
    named("limit ", number_at(lent->bytes, MEMBLOCK_LIMIT_AT, 8));
    named(" direction ", number_at(lent->bytes, MEMBLOCK_DIRECTION_AT, 4));
    named(" image end ", number_at(lent->bytes, MEMBLOCK_IMAGE_END_AT, 8));
    text("\n");
}

int boot(const struct machine *runs_on)
{
    int lost = 0;
    machine = runs_on;

    text("boot\n");
    for (size_t i = 0; i < machine->map_count; i++) {
        named("map base ", machine->map[i].base);
        named(" size ", machine->map[i].size);
        named(" kind ", machine->map[i].kind);
        text("\n");
    }
    for (size_t i = 0; i < machine->held_count; i++) {
        named("held base ", machine->held[i].base);
        named(" size ", machine->held[i].size);
        text("\n");
    }

    /* Bytes that are no block yet. */
    fill_block(&block);
    fill_block(&mirror);
    set(&block, GIB(4), MEMBLOCK_BOTTOM_UP);
    fresh(&block, LENGTH - 1);
    fresh(&block, LENGTH + GUARD);

    take_map(&block, take_report, 0);
    same_backwards(take_entries);
    same_backwards(take_report);
    converted();
    trees();
    above_the_image();
    firmware();
    hotplug_and_mirror();
    allocations();
    free_runs(&block, ANY, NONE);
    free_runs(&block, ANY, MEMBLOCK_WISH_HOTPLUG);
    free_runs(&block, ANY, MEMBLOCK_WISH_MIRROR);
    free_runs(&block, ANY, MEMBLOCK_WISHES);
    refusals();
    bad_block();
    reports(&block);
    full_taken(&mirror);
    lost += full_memory(&mirror);
    another_node(&mirror);
    at_the_top(&mirror);
    some_pages(); /* page 0 among them, where there is memory */
    REMOVE(&block, 0, PAGE); /* the page of null pointers */
    free_runs(&block, 0, MEMBLOCK_WISH_HOTPLUG);
    lost += hand_over(&block, 1);

    /* Nothing was written where memory in use stands. */
    for (size_t i = 0; i < use_count; i++) {
        int holds = machine->holds(uses[i].base, uses[i].base + uses[i].size);
        named("use base ", uses[i].base);
        named(" size ", uses[i].size);
        named(" holds ", (uint64_t)holds);
        text("\n");
        lost += !holds;
    }

    tables(&mirror);
    tables(&by_tree);
    tables(&block);
    named("end calls ", calls);
    named(" lines ", lines);
    text("\n");
    return lost;
}

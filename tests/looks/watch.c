/* How many records a command on a range looks at to find where the range begins. Hosted, Linux on x86-64, over the archive.
 *
 * The changed table stands on pages that may not be touched. Each access faults: it is noted, the pages are opened for that one
 * instruction and shut again behind it. So the reads of the compiled functions themselves are counted. A look at a record is a read
 * that begins at its base, into a general register: vector registers, memcpy and memset only move records.
 *
 * Counted are the looks for the place alone. What is taken off, and why:
 * - the check of the block looks at each record once. It reads the tables and then the header, so the table is open from the first
 *   access to it up to the next access before it. Of a call of set, which only checks, no look may be left;
 * - allocate searches first: the looks of a find with the same numbers on the same block, which allocate's must begin with;
 * - what follows the first write moves records: by then the place is known;
 * - the change reads the records that the range meets or touches, first up to stop - 1, and of the two beside them where they begin and
 *   end. No step knows the place before it has looked at first - 1 and first: up to there every look counts, behind it all but those at
 *   first - 1 to stop. A halving search ends just there, so that its looks are counted exactly.
 * - free alone, to answer 12 (request E10), looks once more at first, the record that has the whole range if any does; the place is not
 *   sought a second time. Of a free that gets 12 every look is accounted for: behind the place one at each record from first to the one
 *   that begins past the range, and this one. There may be no other, and it must be met.
 *
 * They may be at most as many as the number of records has binary digits, 8 at 128 and 10 at 512, and at the full table that many must
 * be met. Tried for every command on a range, for ranges before, between, behind, inside, on, touching and over the records, at the
 * fills 0 to 16, each power of two with its neighbours, and the last two; in the full table at each record, with allocate at those of
 * the same numbers. Then the count itself is tried, with steps that count their own looks: one that halves, and, as must be seen as too
 * many, one that cuts off a quarter at each look and one that goes from record to record. */
#define _GNU_SOURCE
#include "memblock.h"

#include <signal.h>
#include <stdint.h>
#include <stdio.h>
#include <stdlib.h>
#include <string.h>
#include <sys/mman.h>
#include <ucontext.h>
#include <unistd.h>

#if defined(__GNUC__) && !defined(__clang__)
#pragma GCC optimize("no-tree-loop-distribute-patterns")
#endif

#define MEMORY_CAPACITY MEMBLOCK_MEMORY_CAPACITY
#define TAKEN_CAPACITY MEMBLOCK_TAKEN_CAPACITY
#define RECORD MEMBLOCK_RECORD_LENGTH
#define PAGE 4096
#define PAGES(bytes) (((bytes) + PAGE - 1) / PAGE)
#define FRONT (PAGE * PAGES(MEMBLOCK_TAKEN_AT))
#define MOST_LOOKS 65536

/* Record i has the addresses from ORIGIN + STEP * i + 3 up to, not including, ORIGIN + STEP * i + 5. */
#define ORIGIN MEMBLOCK_LOWEST_START
#define STEP 8
#define BEGIN 3
#define END 5

#define TRAP_FLAG 0x100
#define WRITE 2

/* The pages before the table, which have the header, and the table's own. */
static uint8_t *front, *table;
static size_t watched;

static volatile enum { AT_REST, BEFORE_CHECK, IN_CHECK, WATCHING, WRITTEN } phase;
static volatile int open_for_one;
static volatile size_t records, accesses, looks;
static uint16_t looked_at[MOST_LOOKS];

static void end_with(const char *text)
{
    size_t length = strlen(text);
    _exit(write(STDERR_FILENO, text, length) == (ssize_t)length ? 1 : 2);
}

static void shut(void)
{
    mprotect(table, watched, PROT_NONE);
}

static void open_up(void)
{
    mprotect(table, watched, PROT_READ | PROT_WRITE);
}

/* Whether the instruction is one of the vector registers: SSE, as the archive has no other. */
static int is_vector(const uint8_t *code)
{
    while (*code == 0x66 || *code == 0xF2 || *code == 0xF3 || (*code & 0xF0) == 0x40)
        code++;
    return code[0] == 0x0F && ((code[1] & 0xF8) == 0x10 || (code[1] & 0xF8) == 0x28 || (code[1] >= 0x50 && code[1] < 0x80) ||
                               code[1] >= 0xD0);
}

static void on_fault(int signal, siginfo_t *info, void *context)
{
    (void)signal;
    uintptr_t address = (uintptr_t)info->si_addr;
    greg_t *registers = ((ucontext_t *)context)->uc_mcontext.gregs;
    size_t at = (size_t)(address - (uintptr_t)table);
    accesses++;
    if (phase == IN_CHECK && address - (uintptr_t)front < FRONT) {
        mprotect(front, FRONT, PROT_READ | PROT_WRITE);
        shut();
        phase = WATCHING;
        return;
    }
    if (at >= watched || open_for_one || (phase != BEFORE_CHECK && phase != WATCHING))
        end_with("looks: an access outside the table\n");
    open_up();
    if (phase == BEFORE_CHECK) {
        mprotect(front, FRONT, PROT_NONE);
        phase = IN_CHECK;
        return;
    }
    if (registers[REG_ERR] & WRITE) {
        phase = WRITTEN;
        return;
    }
    if (at % RECORD == MEMBLOCK_RECORD_BASE_AT && at / RECORD < records && !is_vector((const uint8_t *)registers[REG_RIP])) {
        if (looks == MOST_LOOKS)
            end_with("looks: too many to be noted\n");
        looked_at[looks++] = (uint16_t)(at / RECORD);
    }
    open_for_one = 1;
    registers[REG_EFL] |= TRAP_FLAG;
}

/* Behind the instruction. */
static void on_trap(int signal, siginfo_t *info, void *context)
{
    (void)signal;
    (void)info;
    shut();
    open_for_one = 0;
    ((ucontext_t *)context)->uc_mcontext.gregs[REG_EFL] &= ~(greg_t)TRAP_FLAG;
}

static void catch(int signal, void (*handler)(int, siginfo_t *, void *))
{
    struct sigaction action;
    memset(&action, 0, sizeof action);
    action.sa_flags = SA_SIGINFO;
    action.sa_sigaction = handler;
    if (sigaction(signal, &action, NULL) != 0)
        end_with("looks: a signal cannot be caught\n");
}

/* What the archive moves bytes with: no looks. */
void *memcpy(void *restrict to, const void *restrict from, size_t length)
{
    if (phase == WATCHING)
        open_up();
    uint8_t *t = to;
    const uint8_t *f = from;
    for (size_t i = 0; i < length; i++)
        t[i] = f[i];
    if (phase == WATCHING)
        shut();
    return to;
}

void *memset(void *to, int byte, size_t length)
{
    if (phase == WATCHING)
        open_up();
    uint8_t *t = to;
    for (size_t i = 0; i < length; i++)
        t[i] = (uint8_t)byte;
    if (phase == WATCHING)
        shut();
    return to;
}

typedef uint32_t command(uint8_t *block, uint64_t base, uint64_t size);

static uint32_t add(uint8_t *block, uint64_t base, uint64_t size)
{
    return memblock_add(block, MEMBLOCK_BLOCK_LENGTH, base, size, 0, 0);
}

static uint32_t remove_some(uint8_t *block, uint64_t base, uint64_t size)
{
    return memblock_remove(block, MEMBLOCK_BLOCK_LENGTH, base, size);
}

static uint32_t mark(uint8_t *block, uint64_t base, uint64_t size)
{
    return memblock_mark(block, MEMBLOCK_BLOCK_LENGTH, base, size, MEMBLOCK_NO_MAP);
}

static uint32_t unmark(uint8_t *block, uint64_t base, uint64_t size)
{
    return memblock_unmark(block, MEMBLOCK_BLOCK_LENGTH, base, size, MEMBLOCK_NO_MAP);
}

static uint32_t reserve(uint8_t *block, uint64_t base, uint64_t size)
{
    return memblock_reserve(block, MEMBLOCK_BLOCK_LENGTH, base, size);
}

static uint32_t free_some(uint8_t *block, uint64_t base, uint64_t size)
{
    return memblock_free(block, MEMBLOCK_BLOCK_LENGTH, base, size);
}

static uint8_t slip[MEMBLOCK_SLIP_LENGTH];

/* Exactly this range. */
static uint32_t allocate(uint8_t *block, uint64_t base, uint64_t size)
{
    return memblock_allocate(block, MEMBLOCK_BLOCK_LENGTH, size, 1, base, base + size, MEMBLOCK_ANY_NODE, MEMBLOCK_WISH_NONE, slip,
                             sizeof slip);
}

static uint32_t find(uint8_t *block, uint64_t base, uint64_t size)
{
    return memblock_find(block, MEMBLOCK_BLOCK_LENGTH, size, 1, base, base + size, MEMBLOCK_ANY_NODE, MEMBLOCK_WISH_NONE, slip,
                         sizeof slip);
}

static uint32_t set(uint8_t *block, uint64_t base, uint64_t size)
{
    (void)base;
    (void)size;
    return memblock_set(block, MEMBLOCK_BLOCK_LENGTH, MEMBLOCK_NO_LIMIT, MEMBLOCK_TOP_DOWN);
}

/* A step that looks at the record behind the first part of those left, after the check; so many looks by its own count. */
static size_t part, own_looks;

static uint32_t step(uint8_t *block, uint64_t base, uint64_t size)
{
    uint32_t number = set(block, base, size);
    const volatile uint64_t *fields = (const volatile uint64_t *)table;
    size_t low = 0, high = records;
    for (own_looks = 0; low < high; own_looks++) {
        size_t i = low + (high - low) / part;
        if (fields[3 * i] + fields[3 * i + 1] < base)
            low = i + 1;
        else
            high = i;
    }
    return number;
}

/* A command, and the call that does what it does before it changes the table. */
struct tried {
    const char *name;
    command *call, *before;
    size_t table, capacity;
    size_t apart; /* how far a record must end from the range to lie before the place: 1, or 0 where none is met, only touched */
};

static const struct tried commands[] = {
    {"add", add, set, MEMBLOCK_MEMORY_AT, MEMORY_CAPACITY, 1},       {"remove", remove_some, set, MEMBLOCK_MEMORY_AT, MEMORY_CAPACITY, 1},
    {"mark", mark, set, MEMBLOCK_MEMORY_AT, MEMORY_CAPACITY, 1},     {"unmark", unmark, set, MEMBLOCK_MEMORY_AT, MEMORY_CAPACITY, 1},
    {"reserve", reserve, set, MEMBLOCK_TAKEN_AT, TAKEN_CAPACITY, 1}, {"free", free_some, set, MEMBLOCK_TAKEN_AT, TAKEN_CAPACITY, 1},
    {"allocate", allocate, find, MEMBLOCK_TAKEN_AT, TAKEN_CAPACITY, 0},
};
#define COMMANDS (sizeof commands / sizeof *commands)

static size_t digits(size_t n)
{
    size_t d = 0;
    for (; n > 0; n /= 2)
        d++;
    return d;
}

/* Whether a fill, or a record, is tried of those up to the last: 0 to 16, a power of two or beside one, the last two. */
static int is_tried(size_t n, size_t last)
{
    size_t power = (size_t)1 << digits(n) >> 1;
    return n <= 16 || n <= power + 1 || n + 1 >= 2 * power || n + 1 >= last;
}

static size_t calls;

/* Notes the looks of one call on a copy of `saved`; whether it got 12, as only free may. */
static int watch(const struct tried *c, command *call, const uint8_t *saved, uint64_t base, uint64_t size)
{
    uint8_t *block = table - c->table;
    memcpy(block, saved, MEMBLOCK_BLOCK_LENGTH);
    looks = 0;
    shut();
    phase = BEFORE_CHECK;
    uint32_t number = call(block, base, size);
    int checked = phase == WATCHING || phase == WRITTEN;
    phase = AT_REST;
    open_up();
    mprotect(front, FRONT, PROT_READ | PROT_WRITE);
    calls++;
    int not_taken = call == free_some && number == MEMBLOCK_NOT_TAKEN;
    if (number != MEMBLOCK_DONE && number != MEMBLOCK_TABLE_FULL && !not_taken) {
        fprintf(stderr, "looks: %s answers %u\n", c->name, number);
        exit(1);
    }
    if (!checked)
        end_with("looks: no check of the block is seen\n");
    return not_taken;
}

static size_t most, most_of_free;

/* The looks for the place of the range. */
static size_t looks_for_place(const struct tried *c, const uint8_t *saved, uint64_t base, uint64_t size)
{
    static uint16_t before[MOST_LOOKS];
    watch(c, c->before, saved, base, size);
    size_t others = looks;
    for (size_t i = 0; i < others; i++)
        before[i] = looked_at[i];
    if (c->before == set && others != 0)
        end_with("looks: some are left of the check\n");
    int not_taken = watch(c, c->call, saved, base, size);
    for (size_t i = 0; i < others; i++)
        if (i >= looks || looked_at[i] != before[i])
            end_with("looks: allocate does not search as find does\n");

    /* The records before the place, and those that begin at or below the range's end. */
    size_t from = (size_t)(base - ORIGIN), to = from + (size_t)size;
    size_t first = (from + STEP - END - c->apart) / STEP, stop = (to + STEP - BEGIN) / STEP;
    if (first > records)
        first = records;
    if (stop > records)
        stop = records;
    size_t count = 0;
    int seen_below = first == 0, seen_at = first == records;
    for (size_t i = others; i < looks; i++) {
        size_t r = looked_at[i];
        if (!(seen_below && seen_at) || r + 1 < first || r > stop)
            count++;
        seen_below |= r + 1 == first;
        seen_at |= r == first;
    }
    if (!(seen_below && seen_at))
        end_with("looks: none at the records beside the place\n");

    if (c->call == free_some && not_taken == (first < records && from >= STEP * first + BEGIN && to <= STEP * first + END))
        end_with("looks: free answers 12 for what is taken, or not for what is not\n");
    if (not_taken) {
        size_t behind = looks - count, walked = stop - first + (stop < records);
        if (behind > walked + most_of_free)
            most_of_free = behind - walked;
    }
    return count;
}

/* A block as calls build it: so many records in the command's table; in the other none, or one with all addresses of the taken ones. */
static void fill(const struct tried *c, uint8_t *block)
{
    int memory = c->table == MEMBLOCK_MEMORY_AT;
    uint32_t numbers = memblock_fresh(block, MEMBLOCK_BLOCK_LENGTH);
    if (!memory)
        numbers |= add(block, ORIGIN, STEP * (records + 1));
    for (size_t i = 0; i < records; i++)
        numbers |= (memory ? add : reserve)(block, ORIGIN + STEP * i + BEGIN, END - BEGIN);
    if (numbers != 0)
        end_with("looks: a call that fills a table is refused\n");
}

static void look(const struct tried *c, const uint8_t *saved, uint64_t at, uint64_t size)
{
    size_t count = looks_for_place(c, saved, ORIGIN + at, size);
    if (count > most)
        most = count;
    if (count > digits(records)) {
        fprintf(stderr, "looks: %s, size %ju, from %ju on looks at %zu of %zu records, more than %zu\n", c->name, (uintmax_t)size,
                (uintmax_t)(ORIGIN + at), count, (size_t)records, digits(records));
        exit(1);
    }
}

/* At the gap before a record: apart from it, touching it, and touching the one before. Then, as allocate cannot, inside, on and over
 * records. */
static void look_around(const struct tried *c, const uint8_t *saved, uint64_t record)
{
    look(c, saved, STEP * record, 1);
    look(c, saved, STEP * record + BEGIN - 1, 1);
    if (record > 0)
        look(c, saved, STEP * (record - 1) + END, 1);
    if (c->call == allocate)
        return;
    look(c, saved, STEP * record + BEGIN + 1, 1);
    look(c, saved, STEP * record + BEGIN, END - BEGIN);
    look(c, saved, STEP * record + BEGIN + 1, 3 * STEP);
}

/* Whether a step's looks are counted as it counts them, and whether they are too many. */
static void try_step(size_t cut, const uint8_t *saved, int too_many)
{
    static const struct tried steps = {"a step", step, set, MEMBLOCK_TAKEN_AT, TAKEN_CAPACITY, 1};
    part = cut;
    for (size_t record = 0; record <= records; record++) {
        if (!is_tried(record, records))
            continue;
        size_t count = looks_for_place(&steps, saved, ORIGIN + STEP * record, 1);
        if (count != own_looks)
            end_with("looks: a step's own count is another\n");
        if (record == records && (count > digits(records)) != too_many)
            end_with("looks: too many are not seen, or seen where there are none\n");
    }
}

int main(void)
{
    size_t length = FRONT + PAGE * PAGES(MEMBLOCK_BLOCK_LENGTH);
    front = mmap(NULL, length, PROT_READ | PROT_WRITE, MAP_PRIVATE | MAP_ANONYMOUS, -1, 0);
    if (front == MAP_FAILED)
        end_with("looks: no memory\n");
    table = front + FRONT;
    catch(SIGSEGV, on_fault);
    catch(SIGTRAP, on_trap);
    static uint8_t saved[MEMBLOCK_BLOCK_LENGTH];
    for (const struct tried *c = commands; c < commands + COMMANDS; c++) {
        watched = PAGE * PAGES(RECORD * c->capacity);
        for (records = 0; records <= c->capacity; records++) {
            if (!is_tried(records, c->capacity))
                continue;
            fill(c, saved);
            look_around(c, saved, 0);
            look_around(c, saved, records / 2);
            look_around(c, saved, records);
        }
        records = c->capacity;
        fill(c, saved);
        most = 0;
        for (size_t record = 0; record <= records; record++)
            if (c->before == set || is_tried(record, records)) /* find reads many records */
                look_around(c, saved, record);
        printf("looks: %s: at most %zu of %zu records\n", c->name, most, c->capacity);
        if (most != digits(records))
            end_with("looks: the most is not reached\n");
    }
    printf("looks: free: to answer 12 at most %zu look more\n", most_of_free);
    if (most_of_free != 1)
        end_with("looks: free answers 12 by another number of looks than one\n");
    try_step(2, saved, 0);
    try_step(4, saved, 1);
    try_step(2 * TAKEN_CAPACITY, saved, 1);
    printf("looks: %zu calls at chosen fills, %zu accesses seen; a step that cuts off a quarter and one from record to record refused\n",
           calls, (size_t)accesses);
    return 0;
}

/* A third opinion on trees: what libfdt finds in them, beside what the second program says.
 *
 * `fdt FILE`, FILE as src/main.rs writes it. A tree counts where libfdt takes its form (fdt_check_full) and the second program does:
 * there the values that number 11 speaks of must be refused or taken alike, and the commands found by libfdt's own functions must be the
 * same, in the same order. Where one of the two refuses the form, the tree is only counted: libfdt reads deeper trees, properties behind
 * nodes and bytes behind the end token, and refuses a root with a name, a total size above the lent bytes and parts inside the header. Of
 * a tree of another version libfdt is not asked: the check of libfdt 1.6.1 ends the program on some of a version below 16.
 *
 * Two things libfdt does otherwise, and are done here by hand: fdt_num_mem_rsv ends the list at the first size of 0, so pairs are asked
 * for one by one up to two zeros; and fdt_path_offset takes /reserved-memory@0 for /reserved-memory and finds one node only, so the
 * root's children are gone through.
 *
 * Lookups are made twice. By going through all nodes, libfdt saying where they begin, how deep they are, their names and their first
 * property of a name: that is defined for every path and name, and the value must be at the same place. And by fdt_path_offset and
 * fdt_getprop, where they come to the first node of the path: a value that this node has must be the one. They come to another node, or
 * to none, where a name is asked for without its unit address (libfdt takes the first that has one), where nodes on the way have one name
 * (it goes into the first alone), where a name is empty or has a slash, where slashes are doubled or at the end (it passes over them),
 * where none is in front (it takes the path for an alias), and where a nop stands before the root. */
#include <libfdt.h>
#include <stdint.h>
#include <stdio.h>
#include <stdlib.h>
#include <string.h>

enum { STORED, RANDOM, DAMAGED, BROKEN, KINDS };
enum { READ, VALUE_REFUSED, FORM_REFUSED };
enum { ADD, RESERVE, MARK };

struct ask {
    uint32_t what, node;
    uint64_t base, size;
};

static struct ask *found;
static size_t found_count, found_room;

static void note(uint32_t what, uint32_t node, uint64_t base, uint64_t size)
{
    if (found_count == found_room) {
        found_room = found_room * 2 + 64;
        found = realloc(found, found_room * sizeof *found);
        if (found == NULL)
            abort();
    }
    found[found_count++] = (struct ask){what, node, base, size};
}

/* A property of one word from low to high, or what holds without it; -1 for any other. */
static int64_t number(const void *fdt, int node, const char *name, int64_t absent, int64_t low, int64_t high)
{
    int length;
    const fdt32_t *value = fdt_getprop(fdt, node, name, &length);
    if (value == NULL)
        return absent;
    if (length != 4 || fdt32_ld(value) < low || fdt32_ld(value) > high)
        return -1;
    return fdt32_ld(value);
}

static uint64_t cells_at(const fdt32_t *words, int64_t cells)
{
    uint64_t number = 0;
    for (int64_t i = 0; i < cells; i++)
        number = number << 32 | fdt32_ld(words + i);
    return number;
}

/* Notes each range of reg; answers whether it is whole. */
static int ranges(const void *fdt, int node, int64_t address, int64_t size, uint32_t what, uint32_t id)
{
    int length;
    const fdt32_t *reg = fdt_getprop(fdt, node, "reg", &length);
    if (reg == NULL)
        return 1;
    if (length % (4 * (address + size)) != 0)
        return 0;
    for (int64_t i = 0; i < length / 4; i += address + size)
        note(what, id, cells_at(reg + i, address), cells_at(reg + i + address, size));
    return 1;
}

static int is_reserved(const void *fdt, int node)
{
    int length;
    const char *name = fdt_get_name(fdt, node, &length);
    return name != NULL && strcmp(name, "reserved-memory") == 0;
}

/* Finds the commands; answers whether all values are as they must be. */
static int find(const void *fdt, unsigned *shorter)
{
    int root = fdt_next_node(fdt, -1, NULL); /* nops may stand before it */
    int child, node;
    int64_t address = number(fdt, root, "#address-cells", 2, 1, 2);
    int64_t size = number(fdt, root, "#size-cells", 1, 1, 2);
    if (address < 0 || size < 0)
        return 0;
    fdt_for_each_subnode(child, fdt, root)
    {
        int length;
        const char *type = fdt_getprop(fdt, child, "device_type", &length);
        if (type == NULL || length != 7 || memcmp(type, "memory", 7) != 0)
            continue;
        int64_t id = number(fdt, child, "numa-node-id", 0, 0, 63);
        if (id < 0 || !ranges(fdt, child, address, size, ADD, (uint32_t)id))
            return 0;
    }
    int count = 0;
    for (;; count++) {
        uint64_t base, length;
        if (fdt_get_mem_rsv(fdt, count, &base, &length) != 0)
            return 0;
        if (base == 0 && length == 0)
            break;
        note(RESERVE, 0, base, length);
    }
    *shorter += fdt_num_mem_rsv(fdt) < count;
    for (uint32_t what = RESERVE; what <= MARK; what++)
        fdt_for_each_subnode(child, fdt, root)
        {
            if (!is_reserved(fdt, child))
                continue;
            fdt_for_each_subnode(node, fdt, child)
            {
                int no_map = fdt_getprop(fdt, node, "no-map", NULL) != NULL;
                size_t before = found_count;
                if (!ranges(fdt, node, address, size, what, 0))
                    return 0;
                if (no_map != (what == MARK))
                    found_count = before;
            }
        }
    return 1;
}

/* What a lookup is about, and what the second program says. */
struct lookup {
    uint32_t path_length, name_length, there, at, length;
    char *path, *name;
};

/* What lookups came to: by going through the nodes, of these those that were there and had an empty value; by the path. */
struct looked {
    unsigned all, there, empty, by_path, stored_by_path, stored_otherwise;
};

#define LEVELS 64

/* The first property of the path and the name, with its node and the first node of the path, each -1 where there is none. */
static const char *go_through(const void *fdt, const struct lookup *look, int *length, int *first)
{
    const char *names[LEVELS];
    int lengths[LEVELS];
    int level = 0;
    *first = -1;
    for (int node = fdt_next_node(fdt, -1, &level); node >= 0; node = fdt_next_node(fdt, node, &level)) {
        /* The root's level is 1 here, as the count begins outside. */
        if (level < 1 || level >= LEVELS)
            return NULL;
        names[level] = fdt_get_name(fdt, node, &lengths[level]);
        size_t at = 0;
        int same = 1;
        for (int i = 2; i <= level && same; i++) {
            same = at + 1 + (size_t)lengths[i] <= look->path_length && look->path[at] == '/' &&
                   memcmp(look->path + at + 1, names[i], (size_t)lengths[i]) == 0;
            at += 1 + (size_t)lengths[i];
        }
        if (level == 1)
            same = look->path_length == 1 && look->path[at++] == '/';
        if (!same || at != look->path_length)
            continue;
        if (*first < 0)
            *first = node;
        const char *value = fdt_getprop_namelen(fdt, node, look->name, (int)look->name_length, length);
        if (value != NULL)
            return value;
    }
    return NULL;
}

/* Answers whether libfdt finds what the second program does. */
static int look_up(const void *fdt, uint32_t kind, const struct lookup *look, struct looked *looked)
{
    int length = 0, first;
    const char *value = go_through(fdt, look, &length, &first);
    if ((value != NULL) != look->there)
        return 0;
    if (value != NULL && (value - (const char *)fdt != look->at || length != (int)look->length))
        return 0;
    looked->all++;
    looked->there += value != NULL;
    looked->empty += value != NULL && length == 0;
    /* Only where there is such a node: of another path libfdt may go round in a circle, by an alias that names itself. */
    if (first < 0)
        return 1;
    if (fdt_path_offset_namelen(fdt, look->path, (int)look->path_length) != first) {
        looked->stored_otherwise += kind == STORED;
        return 1;
    }
    /* The value of the first node of the path, if it has one, is the first of all. */
    const char *own = fdt_getprop_namelen(fdt, first, look->name, (int)look->name_length, &length);
    if (own != NULL && own != value)
        return 0;
    looked->by_path += own != NULL;
    looked->stored_by_path += own != NULL && kind == STORED;
    return 1;
}

static uint32_t get(FILE *file, const char *name)
{
    uint32_t word;
    if (fread(&word, sizeof word, 1, file) != 1) {
        fprintf(stderr, "fdt: %s breaks off\n", name);
        exit(2);
    }
    return word;
}

/* So many bytes, in a block of their own. */
static char *get_bytes(FILE *file, const char *name, uint32_t length)
{
    char *bytes = malloc(length > 0 ? length : 1);
    if (bytes == NULL || fread(bytes, 1, length, file) != length) {
        fprintf(stderr, "fdt: %s breaks off\n", name);
        exit(2);
    }
    return bytes;
}

int main(int count, char **arguments)
{
    struct looked looked = {0};
    unsigned equal[KINDS] = {0}, refused_alike = 0, by_both = 0, here_alone = 0, there_alone = 0, commands = 0, shorter = 0;
    if (count != 2) {
        fprintf(stderr, "usage: %s FILE\n", arguments[0]);
        return 2;
    }
    FILE *file = fopen(arguments[1], "rb");
    if (file == NULL) {
        perror(arguments[1]);
        return 2;
    }
    for (unsigned turn = 0;; turn++) {
        uint32_t kind;
        if (fread(&kind, sizeof kind, 1, file) != 1)
            break;
        uint32_t length = get(file, arguments[1]);
        /* Of its own size, so that a look outside is one outside the heap's block. */
        void *fdt = get_bytes(file, arguments[1], length);
        if (kind >= KINDS)
            return 2;
        uint32_t verdict = get(file, arguments[1]), asks = get(file, arguments[1]);
        struct ask *said = calloc(asks + 1, sizeof *said);
        if (said == NULL || fread(said, sizeof *said, asks, file) != asks)
            return 2;
        int taken = length >= sizeof(struct fdt_header) && fdt_version(fdt) == 17 && fdt_check_full(fdt, length) == 0;
        if (taken && verdict != FORM_REFUSED) {
            found_count = 0;
            int values = find(fdt, &shorter);
            if (values != (verdict == READ)) {
                fprintf(stderr, "fdt: tree %u of kind %u: the second program says %s, libfdt's values say %s\n", turn, kind,
                        verdict == READ ? "read" : "refused", values ? "read" : "refused");
                return 1;
            }
            if (values && (found_count != asks || memcmp(found, said, asks * sizeof *said) != 0)) {
                fprintf(stderr, "fdt: tree %u of kind %u: libfdt finds %zu commands, the second program %u, or others\n", turn,
                        kind, found_count, asks);
                return 1;
            }
            equal[kind] += values;
            refused_alike += !values;
            commands += values ? asks : 0;
        } else if (taken) {
            there_alone++;
        } else if (verdict != FORM_REFUSED) {
            here_alone++;
        } else {
            by_both++;
        }
        for (uint32_t lookups = get(file, arguments[1]); lookups > 0; lookups--) {
            struct lookup look;
            look.path_length = get(file, arguments[1]);
            look.path = get_bytes(file, arguments[1], look.path_length);
            look.name_length = get(file, arguments[1]);
            look.name = get_bytes(file, arguments[1], look.name_length);
            look.there = get(file, arguments[1]);
            look.at = get(file, arguments[1]);
            look.length = get(file, arguments[1]);
            if (taken && !look_up(fdt, kind, &look, &looked)) {
                fprintf(stderr, "fdt: tree %u of kind %u: libfdt finds another value at %.*s, name %.*s\n", turn, kind,
                        (int)look.path_length, look.path, (int)look.name_length, look.name);
                return 1;
            }
            free(look.path);
            free(look.name);
        }
        free(said);
        free(fdt);
    }
    fclose(file);
    unsigned all = equal[STORED] + equal[RANDOM] + equal[DAMAGED] + equal[BROKEN];
    printf("fdt: %u trees read by both, %u commands the same (%u stored trees, %u random, %u damaged); %u refused for a value by both; of "
           "other trees the form refused by both %u, by libfdt alone %u, by the second program alone %u; lists with a size of 0 %u\n",
           all, commands, equal[STORED], equal[RANDOM], equal[DAMAGED], refused_alike, by_both, here_alone, there_alone, shorter);
    printf("fdt: %u lookups the same, %u of them there, %u empty; %u by libfdt's own paths, %u of these in stored trees, where %u others are "
           "at nodes that it does not come to first\n",
           looked.all, looked.there, looked.empty, looked.by_path, looked.stored_by_path, looked.stored_otherwise);
    if (looked.there == 0 || looked.empty == 0 || looked.there == looked.all || looked.by_path == looked.stored_by_path ||
        looked.stored_by_path < 1000) {
        fprintf(stderr, "fdt: a kind of lookup was never compared\n");
        return 1;
    }
    if (equal[STORED] == 0 || equal[RANDOM] == 0 || refused_alike == 0) {
        fprintf(stderr, "fdt: a kind of tree was never compared\n");
        return 1;
    }
    return 0;
}

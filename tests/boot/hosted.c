/* The boot program as an ordinary program: memory map built in, or from a file of lines 'base size kind', and with --tree FILE a
 * flattened tree besides; transcript on stdout. */
#include "boot.h"

#include <stdio.h>
#include <stdlib.h>
#include <string.h>

#define MAP_MOST 128
#define TREE_MOST 65536

/* A board as firmware reports one: not in order, ends off the page, ranges told twice, memory on both sides of 4 GiB. */
static const struct map_entry board[] = {
    {0x0, 0x9fc00, 1},
    {0x9fc00, 0x400, 2},
    {0xf0000, 0x10000, 2},
    {0x100000, 0x1fe01000, 1},
    {0x100000000, 0x7ffff000, 1},
    {0x1ff01000, 0x3a123, 3},
    {0x1ff3b123, 0xa04edd, 1},
    {0x20940000, 0x80, 1},
    {0x40000000, 0x10000000, 1},
    {0x48000000, 0x10000000, 1},
    {0x7f000000, 0x800, 4},
    {0x58000fff, 0x20001, 1},
    {0xfffc0000, 0x40000, 2},
    {0xfd00000000, 0x300000000, 2},
};

/* An image, and the map itself, as they would stand. */
static const struct held held[] = {
    {0x100000, 0x1c000},
    {0x6f00, 0x38},
    {0x6f40, 0x150},
};

static void write_out(const char *text, size_t length)
{
    fwrite(text, 1, length, stdout);
}

/* Reads lines 'base size kind'; answers how many, or 0 for any other line or more than fit. */
static size_t read_map(FILE *file, struct map_entry *map, size_t most)
{
    char line[256];
    size_t count = 0;
    while (fgets(line, sizeof line, file) != NULL) {
        char *at = line;
        uint64_t numbers[3];
        for (size_t i = 0; i < 3; i++) {
            char *from = at;
            numbers[i] = strtoull(from, &at, 0);
            if (at == from)
                return 0;
        }
        if (count == most || numbers[2] > UINT32_MAX || at[strspn(at, " \t\r\n")] != 0)
            return 0;
        map[count++] = (struct map_entry){numbers[0], numbers[1], (uint32_t)numbers[2]};
    }
    return count;
}

int main(int count, char **arguments)
{
    static struct map_entry map[MAP_MOST];
    static uint8_t tree[TREE_MOST];
    struct machine machine = {
        .map = board,
        .map_count = sizeof board / sizeof board[0],
        .held = held,
        .held_count = sizeof held / sizeof held[0],
        .write = write_out,
    };
    if (count >= 3 && strcmp(arguments[1], "--tree") == 0) {
        FILE *file = fopen(arguments[2], "rb");
        if (file == NULL) {
            perror(arguments[2]);
            return 2;
        }
        machine.tree = tree;
        machine.tree_length = fread(tree, 1, sizeof tree, file);
        fclose(file);
        arguments += 2;
        count -= 2;
    }
    if (count > 2) {
        fprintf(stderr, "usage: [--tree FILE] [map]\n");
        return 2;
    }
    if (count == 2) {
        FILE *file = fopen(arguments[1], "r");
        if (file == NULL) {
            perror(arguments[1]);
            return 2;
        }
        machine.map = map;
        machine.map_count = read_map(file, map, MAP_MOST);
        fclose(file);
        if (machine.map_count == 0) {
            fprintf(stderr, "%s: not 1 to %d lines 'base size kind'\n", arguments[1], MAP_MOST);
            return 2;
        }
    }
    return boot(&machine) == 0 && fflush(stdout) == 0 ? 0 : 1;
}

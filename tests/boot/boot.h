/* What the boot program needs of the machine that it runs on. */
#ifndef BOOT_H
#define BOOT_H

#include <stddef.h>
#include <stdint.h>

/* Kinds of a memory map entry (E820). */
#define MAP_USABLE 1

/* One entry of the machine's memory map. */
struct map_entry {
    uint64_t base;
    uint64_t size;
    uint32_t kind;
};

/* What is in use before the first call; the image first. */
struct held {
    uint64_t base;
    uint64_t size;
};

struct machine {
    const struct map_entry *map;
    size_t map_count;
    const struct held *held;
    size_t held_count;
    /* A flattened tree, or null where there is none. */
    const uint8_t *tree;
    size_t tree_length;
    void (*write)(const char *text, size_t length);
    /* Writes over memory just allocated, and later looks whether it still holds that. Null where addresses are only numbers. */
    void (*fill)(uint64_t base, uint64_t end);
    int (*holds)(uint64_t base, uint64_t end);
    /* One word of memory that is handed over. Null likewise. */
    void (*store)(uint64_t address, uint64_t word);
    uint64_t (*load)(uint64_t address);
};

/* Runs the boot program and writes its transcript. Answers how many allocations no longer held what was written there, and what was wrong
 * with the pages handed over. */
int boot(const struct machine *machine);

#endif

/* The boot program on a bare PC: memory map from the PVH start info, a tree linked in (a PC hands over none), transcript over the serial
 * port, end by isa-debug-exit. */
#include "boot.h"

#define COM1 0x3F8
#define DEBUG_EXIT 0xF4

#define START_INFO_MAGIC 0x336EC578

struct start_info {
    uint32_t magic;
    uint32_t version;
    uint32_t flags;
    uint32_t module_count;
    uint64_t modules;
    uint64_t command_line;
    uint64_t rsdp;
    /* From version 1. */
    uint64_t map;
    uint32_t map_count;
    uint32_t zero;
};

struct start_info_entry {
    uint64_t base;
    uint64_t size;
    uint32_t kind;
    uint32_t zero;
};

#define MAP_MOST 128

extern char image_start[];
extern char image_end[];
extern const uint8_t machine_tree[];
extern const uint8_t machine_tree_end[];

void machine_main(uint32_t start_info);

static void out(uint16_t port, uint8_t byte)
{
    __asm__ volatile("outb %0, %1" : : "a"(byte), "Nd"(port));
}

static uint8_t in(uint16_t port)
{
    uint8_t byte;
    __asm__ volatile("inb %1, %0" : "=a"(byte) : "Nd"(port));
    return byte;
}

static void serial_on(void)
{
    out(COM1 + 1, 0);    /* no interrupts */
    out(COM1 + 3, 0x80); /* 115200 baud */
    out(COM1, 1);
    out(COM1 + 1, 0);
    out(COM1 + 3, 3); /* 8 bits, no parity, 1 stop */
    out(COM1 + 2, 0xC7);
    out(COM1 + 4, 3);
}

static void serial_write(const char *text, size_t length)
{
    for (size_t i = 0; i < length; i++) {
        while ((in(COM1 + 5) & 0x20) == 0)
            ;
        out(COM1, (uint8_t)text[i]);
    }
}

/* The byte that memory in use holds: another for each range and page. */
static uint8_t pattern(uint64_t base, uint64_t address)
{
    return (uint8_t)(base >> 12 ^ base ^ address >> 12 ^ address ^ 0x5A);
}

static void fill(uint64_t base, uint64_t end)
{
    for (uint64_t a = base; a < end; a++)
        *(volatile uint8_t *)a = pattern(base, a);
}

static int holds(uint64_t base, uint64_t end)
{
    for (uint64_t a = base; a < end; a++)
        if (*(volatile uint8_t *)a != pattern(base, a))
            return 0;
    return 1;
}

static void store(uint64_t address, uint64_t word)
{
    *(volatile uint64_t *)address = word;
}

static uint64_t load(uint64_t address)
{
    return *(volatile uint64_t *)address;
}

/* QEMU ends with 2 * code + 1. */
static void leave(uint8_t code)
{
    out(DEBUG_EXIT, code);
    for (;;)
        __asm__ volatile("hlt");
}

void machine_main(uint32_t start_info)
{
    static struct map_entry map[MAP_MOST];
    const struct start_info *info = (const struct start_info *)(uintptr_t)start_info;
    static const char no_map[] = "no memory map handed over\n";

    serial_on();
    if (info->magic != START_INFO_MAGIC || info->version < 1 || info->map_count == 0 || info->map_count > MAP_MOST) {
        serial_write(no_map, sizeof no_map - 1);
        leave(1);
    }
    const struct start_info_entry *entries = (const struct start_info_entry *)(uintptr_t)info->map;
    for (uint32_t i = 0; i < info->map_count; i++) {
        map[i].base = entries[i].base;
        map[i].size = entries[i].size;
        map[i].kind = entries[i].kind;
    }
    const struct held held[] = {
        {(uintptr_t)image_start, (uintptr_t)image_end - (uintptr_t)image_start},
        {start_info, sizeof *info},
        {info->map, info->map_count * sizeof *entries},
    };
    const struct machine machine = {
        .map = map,
        .map_count = info->map_count,
        .held = held,
        .held_count = sizeof held / sizeof held[0],
        .tree = machine_tree,
        .tree_length = (size_t)(machine_tree_end - machine_tree),
        .write = serial_write,
        .fill = fill,
        .holds = holds,
        .store = store,
        .load = load,
    };
    leave(boot(&machine) == 0 ? 0x10 : 2);
}

/* Page tables of four levels. The lower half is the process's, and all share the upper half, the kernel's. */
#include "kernel.h"

enum { ENTRIES = 512, LOWER_HALF = 256, TOP_SHIFT = 39, PAGE_SHIFT = 12, LEVEL_BITS = 9 };
extern uint64_t root[];  /* of boot.S, by its physical address */

uint64_t *new_tables(void) {
    const uint64_t *kernel = kernel_address((uint64_t)root);
    uint64_t *tables = take_page();
    if (tables) tables[ENTRIES - 1] = kernel[ENTRIES - 1];
    return tables;
}

uint64_t *entry_at(uint64_t *tables, uint64_t address, bool is_made) {
    for (int shift = TOP_SHIFT; shift > PAGE_SHIFT; shift -= LEVEL_BITS) {
        uint64_t *entry = &tables[address >> shift & (ENTRIES - 1)];
        void *next = *entry & PRESENT ? page_of(*entry) : is_made ? take_page() : NULL;
        if (!next) return NULL;
        if (!(*entry & PRESENT)) *entry = physical_address(next) | PRESENT | WRITABLE | USER;
        tables = next;
    }
    return &tables[address >> PAGE_SHIFT & (ENTRIES - 1)];
}

static bool visit_level(uint64_t *table, int shift, uint64_t address, visit *act, void *with) {
    int count = shift == TOP_SHIFT ? LOWER_HALF : ENTRIES;
    for (int i = 0; i < count; i++) {
        uint64_t at = address + ((uint64_t)i << shift);
        if (!(table[i] & PRESENT)) continue;
        bool is_done = shift == PAGE_SHIFT ? act(&table[i], at, with)
            : visit_level(page_of(table[i]), shift - LEVEL_BITS, at, act, with);
        if (!is_done) return false;
    }
    return true;
}

bool each_entry(uint64_t *tables, visit *act, void *with) {
    return visit_level(tables, TOP_SHIFT, 0, act, with);
}

static bool copy_entry(uint64_t *entry, uint64_t address, void *tables) {
    if (*entry & LENT) return true;
    uint64_t *copy = entry_at(tables, address, true);
    void *page = !copy ? NULL : *entry & WRITABLE ? take_page() : page_of(*entry);
    if (!page) return false;
    if (*entry & WRITABLE) memcpy(page, page_of(*entry), PAGE);
    *copy = physical_address(page) | (*entry & ~FRAME_BITS);
    return true;
}

bool copy_memory(uint64_t *to, uint64_t *from) { return each_entry(from, copy_entry, to); }

static void free_level(uint64_t *table, int shift) {
    int count = shift == TOP_SHIFT ? LOWER_HALF : ENTRIES;
    for (int i = 0; i < count; i++) {
        if (!(table[i] & PRESENT)) continue;
        if (shift > PAGE_SHIFT) free_level(page_of(table[i]), shift - LEVEL_BITS);
        else if (table[i] & WRITABLE && !(table[i] & LENT)) free_page(page_of(table[i]));
    }
    free_page(table);
}

void free_tables(uint64_t *tables) { free_level(tables, TOP_SHIFT); }

/* This also makes the processor forget all entries that it remembers of the lower half. */
void use_tables(const uint64_t *tables) {
    uint64_t physical = tables ? physical_address(tables) : (uint64_t)root;
    __asm__ volatile("mov %0, %%cr3" : : "r"(physical) : "memory");
}

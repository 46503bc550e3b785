/* The kernel's memory: one half for malloc, which the library uses, and one half for pages of processes and
   page tables. */
#include "kernel.h"

/* ---- malloc: free blocks by rising address, and the first that is large enough ---- */

struct block {
    size_t size;         /* in bytes, with this header */
    struct block *next;  /* the next free one */
};
enum { UNIT = 16 };
static struct block *first;
static void *first_page;

void *malloc(size_t size) {
    if (size > SIZE_MAX / 2) return NULL;
    size_t wanted = (size + sizeof(struct block) + UNIT - 1) / UNIT * UNIT;
    struct block **at = &first;
    while (*at && (*at)->size < wanted) at = &(*at)->next;
    struct block *found = *at;
    if (!found) return NULL;
    if (found->size < wanted + 2 * UNIT) {
        *at = found->next;
    } else {
        found->size -= wanted;
        found = (struct block *)((uint8_t *)found + found->size);
        found->size = wanted;
    }
    return found + 1;
}

static void join(struct block *block) {
    if ((uint8_t *)block + block->size != (uint8_t *)block->next) return;
    block->size += block->next->size;
    block->next = block->next->next;
}

void free(void *old) {
    if (!old) return;
    struct block *block = (struct block *)old - 1, *before = NULL, *after = first;
    for (; after && after < block; after = after->next) before = after;
    block->next = after;
    if (before) before->next = block;
    else first = block;
    join(block);
    if (before) join(before);
}

void *realloc(void *old, size_t size) {
    void *made = malloc(size);
    if (!old || !made) return made;
    size_t kept = ((struct block *)old - 1)->size - sizeof(struct block);
    memcpy(made, old, kept < size ? kept : size);
    free(old);
    return made;
}

/* ---- pages ---- */

void *take_page(void) {
    void *page = first_page;
    if (!page) return NULL;
    first_page = *(void **)page;
    return memset(page, 0, PAGE);
}

void free_page(void *page) {
    *(void **)page = first_page;
    first_page = page;
}

void open_memory(uint64_t begin, uint64_t end) {
    uint64_t middle = (begin + (end - begin) / 2) / PAGE * PAGE;
    begin = (begin + PAGE - 1) / PAGE * PAGE;
    first = kernel_address(begin);
    *first = (struct block){middle - begin, NULL};
    for (uint64_t page = middle; page + PAGE <= end; page += PAGE) free_page(kernel_address(page));
}

/* ---- the four functions of <string.h>, by the processor's instructions for them ---- */

void *memcpy(void *to, const void *from, size_t length) {
    void *at = to;
    size_t words = length / 8, bytes = length % 8;
    __asm__ volatile("rep movsq" : "+D"(at), "+S"(from), "+c"(words) : : "memory");
    __asm__ volatile("rep movsb" : "+D"(at), "+S"(from), "+c"(bytes) : : "memory");
    return to;
}

void *memmove(void *to, const void *from, size_t length) {
    if ((uint64_t)to - (uint64_t)from >= length) return memcpy(to, from, length);
    uint8_t *at = (uint8_t *)to + length - 1;
    const uint8_t *source = (const uint8_t *)from + length - 1;
    __asm__ volatile("std; rep movsb; cld" : "+D"(at), "+S"(source), "+c"(length) : : "memory");
    return to;
}

void *memset(void *to, int byte, size_t length) {
    void *at = to;
    size_t words = length / 8, bytes = length % 8;
    const uint64_t word = (uint8_t)byte * UINT64_C(0x0101010101010101);
    __asm__ volatile("rep stosq" : "+D"(at), "+c"(words) : "a"(word) : "memory");
    __asm__ volatile("rep stosb" : "+D"(at), "+c"(bytes) : "a"(word) : "memory");
    return to;
}

int memcmp(const void *left, const void *right, size_t length) {
    const uint8_t *a = left, *b = right;
    for (; length; length--, a++, b++)
        if (*a != *b) return *a - *b;
    return 0;
}

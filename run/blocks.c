/* The memory of swap areas, with --swap-file. The library takes each area of memory as one large block of the heap; the linker
   gives us all calls for the heap (--wrap), and while the areas are made, large blocks are mapped from the file. So the kernel
   writes them there when memory is scarce. The file has its room on the disk from the start, because a store to a block for which
   there is none would be a SIGBUS here. It has no name any more once it is open, and ends with shmrun. */
#include "shmrun.h"
#include <err.h>
#include <errno.h>
#include <fcntl.h>
#include <stdio.h>
#include <string.h>
#include <sys/mman.h>
#include <unistd.h>

enum { LARGE = 64 * 1024, MOST_BLOCKS = 64 };
static struct block { char *begin; size_t size; } blocks[MOST_BLOCKS];
static int block_count, file = -1;
static off_t file_size;
static bool is_used;

void *__real_malloc(size_t size);
void *__real_realloc(void *old, size_t size);
void __real_free(void *old);
void *__wrap_malloc(size_t size);
void *__wrap_realloc(void *old, size_t size);
void __wrap_free(void *old);

void open_swap_file(const char *path) {
    file = open(path, O_RDWR | O_CREAT | O_EXCL | O_CLOEXEC, 0600);
    if (file == -1 || unlink(path) == -1) err(CANNOT_START, "--swap-file: %s", path);
}

void use_swap_file(bool is_to_be_used) { is_used = is_to_be_used && file != -1; }

static struct block *block_of(const void *begin) {
    for (int i = 0; i < block_count; i++)
        if (blocks[i].begin == begin) return &blocks[i];
    return NULL;
}

void *__wrap_malloc(size_t size) {
    if (!is_used || size < LARGE || block_count == MOST_BLOCKS) return __real_malloc(size);
    size_t length = pages_of(size);
    void (*action)(int) = signal(SIGXFSZ, SIG_IGN);  /* a file that is too large for us is an error too */
    int error = posix_fallocate(file, file_size, (off_t)length);
    signal(SIGXFSZ, action);
    if (error) errno = error, err(CANNOT_START, "--swap-file: the file has no room for %lu bytes more", length);
    void *begin = mmap(NULL, length, PROT_READ | PROT_WRITE, MAP_SHARED, file, file_size);
    if (begin == MAP_FAILED) return NULL;
    file_size += (off_t)length;
    blocks[block_count++] = (struct block){begin, length};
    return begin;
}

void __wrap_free(void *old) {
    struct block *block = old ? block_of(old) : NULL;
    if (!block) return __real_free(old);
    munmap(block->begin, block->size);
    *block = blocks[--block_count];
}

void *__wrap_realloc(void *old, size_t size) {
    struct block *block = old ? block_of(old) : NULL;
    if (!block) return old ? __real_realloc(old, size) : __wrap_malloc(size);
    void *made = __wrap_malloc(size);
    if (!made) return NULL;
    memcpy(made, old, least(block->size, size));
    __wrap_free(old);
    return made;
}

/* Counts what a program asks of the allocator and how many threads it starts, and refuses one of either. It is preloaded into a
   program as it was built.

   Requests of the program's own code are counted, those of the C library and of the loader are not.
       REFUSE         which request is refused, from 1; none where it is 0 or missing
       REFUSE_THREAD  which thread is refused, in the same way
       REFUSE_LOG     a file for four numbers at the end: the requests, the bytes they asked for, whether one was refused, and
                      how many threads were asked for */
#define _GNU_SOURCE
#include <dlfcn.h>
#include <errno.h>
#include <link.h>
#include <pthread.h>
#include <stdatomic.h>
#include <stdint.h>
#include <stdio.h>
#include <stdlib.h>

static void *(*next_malloc)(size_t size);
static void *(*next_realloc)(void *block, size_t size);
static uintptr_t code_from, code_to;
static unsigned long refused_one, refused_thread;
static atomic_ulong requests, bytes, refused, threads;

/* where the program's code lies: the loader lists the program first */
static int find_code(struct dl_phdr_info *info, size_t size, void *unused) {
    (void)size;
    (void)unused;
    for (int i = 0; i < info->dlpi_phnum; i++) {
        const ElfW(Phdr) *part = &info->dlpi_phdr[i];
        if (part->p_type != PT_LOAD || !(part->p_flags & PF_X)) continue;
        code_from = info->dlpi_addr + part->p_vaddr;
        code_to = code_from + part->p_memsz;
    }
    return 1;
}

static void find_next(void) {
    *(void **)&next_malloc = dlsym(RTLD_NEXT, "malloc");
    *(void **)&next_realloc = dlsym(RTLD_NEXT, "realloc");
}

__attribute__((constructor)) static void start(void) {
    const char *which = getenv("REFUSE"), *thread = getenv("REFUSE_THREAD");
    refused_one = which ? strtoul(which, NULL, 10) : 0;
    refused_thread = thread ? strtoul(thread, NULL, 10) : 0;
    if (!next_malloc) find_next();
    dl_iterate_phdr(find_code, NULL);
}

static int is_refused(const void *caller, size_t size) {
    uintptr_t at = (uintptr_t)caller;
    if (at < code_from || at >= code_to) return 0;
    atomic_fetch_add(&bytes, size);
    if (atomic_fetch_add(&requests, 1) + 1 != refused_one) return 0;
    atomic_store(&refused, 1);
    errno = ENOMEM;
    return 1;
}

void *malloc(size_t size) {
    if (!next_malloc) find_next();
    return is_refused(__builtin_return_address(0), size) ? NULL : next_malloc(size);
}

void *realloc(void *block, size_t size) {
    if (!next_realloc) find_next();
    return is_refused(__builtin_return_address(0), size) ? NULL : next_realloc(block, size);
}

int pthread_create(pthread_t *thread, const pthread_attr_t *with, void *(*run)(void *), void *given) {
    int (*next)(pthread_t *, const pthread_attr_t *, void *(*)(void *), void *) = NULL;
    if (atomic_fetch_add(&threads, 1) + 1 == refused_thread) return EAGAIN;
    *(void **)&next = dlsym(RTLD_NEXT, "pthread_create");
    return next(thread, with, run, given);
}

/* a program that returns from its start ends so */
__attribute__((destructor)) static void write_log(void) {
    const char *to = getenv("REFUSE_LOG");
    FILE *file = to ? fopen(to, "w") : NULL;
    if (!file) return;
    fprintf(file, "%lu %lu %lu %lu\n", atomic_load(&requests), atomic_load(&bytes), atomic_load(&refused), atomic_load(&threads));
    fclose(file);
}

/* others end here, which runs no destructor */
_Noreturn void _exit(int status) {
    void (*next_exit)(int) = NULL;
    write_log();
    *(void **)&next_exit = dlsym(RTLD_NEXT, "_exit");
    next_exit(status);
    abort();
}

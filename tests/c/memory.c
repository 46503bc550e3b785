/* memory: each allocation of a call fails in turn: the answer is NOG_NO_MEMORY, nothing is changed, and the call made
   again is done. A twin of the machine, which never lacks memory, makes the same calls: both show the same afterwards, and
   read the same bytes. Functions but nog_open, nog_get, nog_attach, nog_snapshot, nog_copy, nog_admit, nog_swapon, nog_fail,
   nog_fail_page and nog_reserve take no memory. A sparse area gives a page's memory back,
   with nothing but zeros in it, once nobody needs the page. It is linked with --wrap for malloc, realloc and free, so that the
   library's own allocations come here. */
#include <stdlib.h>
#include "testing.h"

enum { NEVER = -1, MOST = 10000 };
static long left = NEVER;  /* how many allocations are done until one fails */

void *__real_malloc(size_t size);
void *__real_realloc(void *block, size_t size);
void __real_free(void *block);
void *__wrap_malloc(size_t size);
void *__wrap_realloc(void *block, size_t size);
void __wrap_free(void *block);

static int is_refused(void) {
    if (left == NEVER) return 0;
    return left-- == 0;
}

/* blocks of just a page: those of a sparse area */
enum { MOST_PAGES = 64 };
static uint8_t *pages[MOST_PAGES];

static int live_pages(void) {
    int live = 0;
    for (int i = 0; i < MOST_PAGES; i++) live += pages[i] != NULL;
    return live;
}

static uint8_t **place_of(const void *page) {
    for (int i = 0; i < MOST_PAGES; i++) if (pages[i] == page) return &pages[i];
    return NULL;
}

void *__wrap_malloc(size_t size) {
    void *block = is_refused() ? NULL : __real_malloc(size);
    uint8_t **place = block && size == PAGE ? place_of(NULL) : NULL;
    if (place) *place = block;
    return block;
}

void *__wrap_realloc(void *block, size_t size) { return is_refused() ? NULL : __real_realloc(block, size); }

/* a page that goes has nothing but zeros in it */
void __wrap_free(void *block) {
    static const uint8_t zeros[PAGE];
    uint8_t **place = block ? place_of(block) : NULL;
    if (place) {
        TEST(memcmp(block, zeros, PAGE) == 0);
        *place = NULL;
    }
    __real_free(block);
}

/* what can be seen of a machine */
struct shown {
    nog_tally tally;
    nog_segment segments[4];
    uint32_t indexes, codes[4];
};

static struct shown show(nog_machine *m) {
    struct shown s;
    memset(&s, 0, sizeof s);
    ANSWER(nog_indexes(m, &s.indexes), NOG_DONE);
    ANSWER(nog_tally_of(m, &s.tally), NOG_DONE);
    for (uint32_t i = 0; i < s.indexes && i < 4; i++) s.codes[i] = nog_segment_at(m, i, &s.segments[i]);
    return s;
}

typedef uint32_t (*step)(nog_machine *m);

static nog_machine twin = NOG_MACHINE_INITIALIZER;

static void same_shown(nog_machine *m) {
    struct shown one = show(m), other = show(&twin);
    TEST(memcmp(&one, &other, sizeof one) == 0);
}

/* each process reads what it has attached, from the lowest address on, in both machines */
static void same_bytes(nog_machine *m) {
    static const uint32_t readers[] = {ROOT, USER, CHILD};
    static uint8_t one[6 * PAGE], other[6 * PAGE];
    for (size_t i = 0; i < sizeof readers / sizeof *readers; i++) {
        uint64_t done_one = 0, done_other = 0;
        uint32_t code = nog_read(m, readers[i], LOWEST, one, sizeof one, &done_one);
        ANSWER(nog_read(&twin, readers[i], LOWEST, other, sizeof other, &done_other), code);
        TEST(done_one == done_other && memcmp(one, other, done_one) == 0);
    }
}

static uint32_t open_mirror(nog_machine *m) {
    static const nog_area areas[] = {{NOG_MIRROR, 3}, {NOG_SPARSE, 5}};
    static const nog_failure failures[] = {{0, 1, 0, 0, 9}, {0, 0, 1, 0, 9}, {1, 0, 0, 0, 9}};
    return nog_open(m, &limits, areas, 2, failures, 3, processes, 3);
}

static uint32_t get(nog_machine *m) {
    int32_t id;
    return nog_get(m, USER, NOG_PRIVATE, 2 * PAGE, 0600, 0, &id);
}

static uint32_t attach(nog_machine *m) {
    uint64_t at;
    return nog_attach(m, USER, 0, 0, 0, &at);
}

/* the segment of the second get: its index is the first one's, which was destroyed there */
static uint32_t attach_next(nog_machine *m) {
    uint64_t at;
    return nog_attach(m, USER, 32768, 0, 0, &at);
}

static uint32_t remove_next(nog_machine *m) { return nog_remove(m, USER, 32768); }

static uint32_t fork_child(nog_machine *m) { return nog_fork(m, USER, CHILD); }

/* makes the step with its first allocation failing, then its second, until it takes no more of them */
static void fail_each(nog_machine *m, step make, int takes_memory) {
    struct shown before = show(m), after;
    uint32_t code = NOG_NO_MEMORY;
    long allocations = 0;
    for (; code == NOG_NO_MEMORY && allocations < MOST; allocations++) {
        left = allocations;
        code = make(m);
        left = NEVER;
        if (code != NOG_NO_MEMORY) break;
        after = show(m);
        TEST(memcmp(&before, &after, sizeof before) == 0);
    }
    ANSWER(code, NOG_DONE);
    TEST(takes_memory == (allocations > 0));
    ANSWER(make(&twin), NOG_DONE);
    same_shown(m);
    same_bytes(m);
    same_shown(m);
}

/* a machine that was not opened stays closed */
static void fail_each_open(nog_machine *m, step open) {
    uint32_t code = NOG_NO_MEMORY, indexes;
    long allocations = 0;
    for (; code == NOG_NO_MEMORY && allocations < MOST; allocations++) {
        left = allocations;
        code = open(m);
        left = NEVER;
        if (code == NOG_NO_MEMORY) ANSWER(nog_indexes(m, &indexes), NOG_CLOSED);
    }
    ANSWER(code, NOG_DONE);
    TEST(allocations > 5);
}

static uint32_t store(nog_machine *m) { return nog_store(m, USER, LOWEST + PAGE - 2, (const uint8_t *)"1234", 4); }
static uint32_t add(nog_machine *m) {
    uint64_t before;
    return nog_add(m, CHILD, LOWEST, 5, &before);
}
static uint32_t exchange(nog_machine *m) {
    uint8_t before[4];
    return nog_exchange(m, USER, LOWEST + PAGE - 1, (const uint8_t *)"wxyz", 4, before, 4);
}
static uint32_t compare(nog_machine *m) {
    uint8_t before[4];
    return nog_compare_exchange(m, USER, LOWEST + PAGE - 1, (const uint8_t *)"wxyz", 4, (const uint8_t *)"abcd", 4, before, 4);
}
/* its bytes wait in memory between the read and the write; without it nothing is read, and no call is counted */
static uint32_t copy_bytes(nog_machine *m) {
    uint64_t done = 99;
    uint32_t code = nog_copy(m, USER, LOWEST + PAGE - 3, CHILD, LOWEST + 5, 300, &done);
    TEST(done == (code == NOG_DONE ? 300 : 99));
    return code;
}
static uint32_t set(nog_machine *m) { return nog_set(m, USER, 0, 200, 200, 0644); }
static uint32_t detach(nog_machine *m) { return nog_detach(m, USER, LOWEST); }
static uint32_t exec(nog_machine *m) { return nog_exec(m, CHILD); }
static uint32_t flush(nog_machine *m) {
    nog_flushed flushed;
    return nog_flush(m, 4, &flushed);
}
static uint32_t fail_later(nog_machine *m) { return nog_fail(m, &(nog_failure){.is_write = 1, .call = 1000000}, 0); }
static uint32_t fail_page(nog_machine *m) { return nog_fail_page(m, 0, 0); }
static uint32_t reserve(nog_machine *m) { return nog_reserve(m, UNDECLARED, LOWEST, PAGE); }
static uint32_t release(nog_machine *m) { return nog_release(m, UNDECLARED, LOWEST, PAGE); }
static uint32_t remove_it(nog_machine *m) { return nog_remove(m, USER, 0); }
static uint32_t swapoff(nog_machine *m) { return nog_swapoff(m, ROOT, 0); }
static uint32_t end(nog_machine *m) { return nog_exit(m, CHILD); }

static uint32_t unmap(nog_machine *m) { return nog_unmap(m, CHILD, LOWEST, PAGE); }
static uint32_t protect(nog_machine *m) { return nog_protect(m, USER, LOWEST, PAGE, 0); }
static uint32_t unprotect(nog_machine *m) { return nog_protect(m, USER, LOWEST, PAGE, 1); }

static nog_machine copy = NOG_MACHINE_INITIALIZER;

/* a snapshot that found no memory leaves both handles as they were; what is made shows what the machine shows */
static uint32_t snapshot(nog_machine *m) {
    uint32_t indexes, code = nog_snapshot(m, &copy);
    left = NEVER;
    if (code != NOG_DONE) {
        ANSWER(nog_indexes(&copy, &indexes), NOG_CLOSED);
        return code;
    }
    struct shown one = show(m), other = show(&copy);
    TEST(memcmp(&one, &other, sizeof one) == 0);
    ANSWER(nog_close(&copy), NOG_DONE);
    return code;
}

/* into its own handle: what was copied goes again, and what lacked memory changed nothing */
static uint32_t snapshot_here(nog_machine *m) { return nog_snapshot(m, m); }

/* a page is lent, and comes back with another byte */
static uint32_t lend(nog_machine *m) {
    static uint8_t bytes[PAGE];
    uint32_t code = nog_lend(m, 0, 1, bytes, PAGE);
    bytes[9]++;
    return code == NOG_DONE ? nog_give_back(m, 0, 1, bytes, PAGE) : code;
}

/* a copy of more bytes than a heap has */
static void copy_too_much(nog_machine *m) {
    uint64_t done = 99, counted = 0, calls = 1;
    ANSWER(nog_calls(m, &counted), NOG_DONE);
    left = 0;
    ANSWER(nog_copy(m, USER, LOWEST, USER, LOWEST, UINT64_MAX / 2, &done), NOG_NO_MEMORY);
    left = NEVER;
    ANSWER(nog_calls(m, &calls), NOG_DONE);
    TEST(done == 99 && calls == counted);
}

/* three pages in two frames: the third needs one, whose page a sparse area has no memory to take */
static void fail_write(nog_machine *m) {
    static const nog_limits two_frames = {65536, 1, 3, 2, 0, 0, 0, 0, 0};
    static const nog_area sparse = {NOG_SPARSE, 3};
    nog_tally t;
    uint8_t byte = 0;
    ANSWER(nog_open(m, &two_frames, &sparse, 1, &none, 0, processes, 3), NOG_DONE);
    int32_t id;
    uint64_t at;
    ANSWER(nog_get(m, USER, NOG_PRIVATE, 3 * PAGE, 0600, 0, &id), NOG_DONE);
    ANSWER(nog_attach(m, USER, id, 0, 0, &at), NOG_DONE);
    for (uint64_t i = 0; i < 2; i++) ANSWER(nog_store(m, USER, at + i * PAGE, (const uint8_t *)"a", 1), NOG_DONE);
    left = 0;
    ANSWER(nog_store(m, USER, at + 2 * PAGE, (const uint8_t *)"b", 1), NOG_SIGBUS);
    left = NEVER;
    ANSWER(nog_tally_of(m, &t), NOG_DONE);
    TEST(t.failures == 1 && t.outs == 0 && t.resident == 2 && t.dirty == 2);
    ANSWER(nog_load(m, USER, at, &byte, 1), NOG_DONE);
    TEST(byte == 'a');
    ANSWER(nog_store(m, USER, at + 2 * PAGE, (const uint8_t *)"b", 1), NOG_DONE);
}

/* a sparse area has memory for the pages that it holds, and none once their segment is destroyed */
static void give_back(nog_machine *m) {
    static const nog_limits two_frames = {65536, 1, 6, 2, 0, 0, 0, 0, 0};
    static const nog_area sparse = {NOG_SPARSE, 6};
    nog_tally t;
    int32_t id;
    uint64_t at;
    ANSWER(nog_open(m, &two_frames, &sparse, 1, &none, 0, processes, 3), NOG_DONE);
    TEST(live_pages() == 0);
    ANSWER(nog_get(m, USER, NOG_PRIVATE, 6 * PAGE, 0600, 0, &id), NOG_DONE);
    ANSWER(nog_attach(m, USER, id, 0, 0, &at), NOG_DONE);
    for (uint64_t i = 0; i < 6; i++) ANSWER(nog_store(m, USER, at + i * PAGE, (const uint8_t *)"a", 1), NOG_DONE);
    TEST(live_pages() == 4);
    ANSWER(nog_detach(m, USER, at), NOG_DONE);
    ANSWER(nog_remove(m, USER, id), NOG_DONE);
    ANSWER(nog_tally_of(m, &t), NOG_DONE);
    TEST(t.used == 0 && live_pages() == 0);
}

int main(void) {
    static const struct { step make; int takes_memory; } steps[] = {
        {get, 1}, {attach, 1}, {fork_child, 0}, {store, 0}, {add, 0}, {reserve, 1}, {snapshot, 1}, {snapshot_here, 1}, {lend, 0}, {exchange, 0},
        {compare, 0}, {copy_bytes, 1}, {set, 0}, {flush, 0}, {fail_later, 1}, {fail_page, 1}, {protect, 0}, {unprotect, 0}, {unmap, 0},
        {snapshot, 1}, {release, 0}, {detach, 0}, {exec, 0}, {remove_it, 0}, {get, 1}, {attach_next, 1}, {store, 0}, {detach, 0}, {remove_next, 0}, {swapoff, 0}, {end, 0} };
    nog_machine machine = NOG_MACHINE_INITIALIZER;
    fail_each_open(&machine, open_mirror);
    fail_each(&machine, open_usual, 1);
    for (size_t i = 0; i < sizeof steps / sizeof *steps; i++) fail_each(&machine, steps[i].make, steps[i].takes_memory);
    ANSWER(nog_close(&twin), NOG_DONE);
    copy_too_much(&machine);
    fail_write(&machine);
    give_back(&machine);
    ANSWER(nog_close(&machine), NOG_DONE);
    return finish("memory");
}

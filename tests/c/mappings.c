/* mappings: ranges that are unmapped and protected, what ipcs(1) and /proc ask, and snapshots. Each answer is that of
   docs/MACHINE.md. */
#include "testing.h"

enum { BASE = 0x50000000, PAGES = 8 };

static nog_machine machine = NOG_MACHINE_INITIALIZER;

static int32_t make(uint32_t pid, uint64_t pages, uint32_t mode) {
    int32_t id = -1;
    ANSWER(nog_get(&machine, pid, NOG_PRIVATE, pages * PAGE, mode, 0, &id), NOG_DONE);
    return id;
}

static uint64_t page(uint64_t number) { return BASE + number * PAGE; }

static void attach(uint32_t pid, int32_t id, uint64_t at, uint32_t flags) {
    uint64_t got = 0;
    ANSWER(nog_attach(&machine, pid, id, at, flags, &got), NOG_DONE);
    TEST(got == at);
}

/* how many pieces the segment has, and when one was attached and detached last */
static void shows(int32_t id, uint32_t nattch, uint64_t atime, uint64_t dtime) {
    nog_segment s = {0};
    ANSWER(nog_stat(&machine, ROOT, id, &s), NOG_DONE);
    TEST(s.nattch == nattch);
    TEST(s.atime == atime);
    TEST(s.dtime == dtime);
}

static uint32_t store(uint32_t pid, uint64_t at, uint8_t byte) { return nog_store(&machine, pid, at, &byte, 1); }

/* a machine with eight pages of a segment attached by USER, and time 100 */
static int32_t open_attached(void) {
    ANSWER(open_usual(&machine), NOG_DONE);
    int32_t id = make(USER, PAGES, 0600);
    ANSWER(nog_set_time(&machine, 100), NOG_DONE);
    attach(USER, id, BASE, 0);
    return id;
}

static void test_closed(void) {
    nog_machine copy = NOG_MACHINE_INITIALIZER;
    nog_segment s = {0};
    nog_usage usage = {.pages = 7};
    nog_piece piece = {.pages = 7};
    nog_process process = {.pid = 7};
    uint64_t at = 7;
    ANSWER(nog_unmap(&machine, ROOT, BASE, PAGE), NOG_CLOSED);
    ANSWER(nog_protect(&machine, ROOT, BASE, PAGE, 1), NOG_CLOSED);
    ANSWER(nog_stat_at(&machine, ROOT, 0, &s), NOG_CLOSED);
    ANSWER(nog_info(&machine, &usage), NOG_CLOSED);
    ANSWER(nog_piece_at(&machine, ROOT, 0, &piece), NOG_CLOSED);
    ANSWER(nog_process_at(&machine, 0, &process), NOG_CLOSED);
    ANSWER(nog_failed_at(&machine, ROOT, BASE, 1, 0, &at), NOG_CLOSED);
    ANSWER(nog_snapshot(&machine, &copy), NOG_CLOSED);
    TEST(usage.pages == 7 && piece.pages == 7 && process.pid == 7 && at == 7);
}

static void test_unmap(void) {
    uint8_t byte = 1;
    nog_segment s = {0};
    uint64_t calls = 0;
    int32_t id = open_attached();
    ANSWER(nog_set_time(&machine, 200), NOG_DONE);
    ANSWER(nog_unmap(&machine, USER, BASE + 8, PAGE), NOG_EINVAL);
    ANSWER(nog_unmap(&machine, USER, BASE, 0), NOG_EINVAL);
    ANSWER(nog_unmap(&machine, USER, UINT64_C(0x7fffffffe000), 2 * PAGE), NOG_EINVAL);
    ANSWER(nog_unmap(&machine, USER, BASE, UINT64_MAX), NOG_EINVAL);
    ANSWER(nog_unmap(&machine, CHILD, BASE, PAGE), NOG_ESRCH);
    ANSWER(nog_unmap(&machine, UNDECLARED, BASE + 8, 0), NOG_ESRCH);
    ANSWER(nog_unmap(&machine, USER, page(PAGES), PAGE), NOG_DONE);
    shows(id, 1, 100, 0);
    ANSWER(nog_unmap(&machine, USER, page(1), 1), NOG_DONE);
    shows(id, 2, 100, 200);
    ANSWER(nog_load(&machine, USER, page(1), &byte, 1), NOG_SIGSEGV);
    ANSWER(nog_load(&machine, USER, page(2), &byte, 1), NOG_DONE);
    TEST(byte == 0);
    ANSWER(nog_remove(&machine, USER, id), NOG_DONE);
    ANSWER(nog_set_time(&machine, 300), NOG_DONE);
    ANSWER(nog_unmap(&machine, USER, BASE - PAGE, 2 * PAGE), NOG_DONE);
    shows(id, 1, 100, 300);
    ANSWER(nog_calls(&machine, &calls), NOG_DONE);
    ANSWER(nog_unmap(&machine, USER, page(1), 7 * PAGE), NOG_DONE);
    ANSWER(nog_stat(&machine, ROOT, id, &s), NOG_EIDRM);
    uint64_t after = 0;
    ANSWER(nog_calls(&machine, &after), NOG_DONE);
    TEST(after == calls + 2);
}

static void test_protect(void) {
    uint8_t byte = 1;
    int32_t id = open_attached();
    ANSWER(nog_protect(&machine, USER, page(1), 2 * PAGE, 0), NOG_DONE);
    shows(id, 3, 100, 0);
    ANSWER(store(USER, page(1), 7), NOG_SIGSEGV);
    ANSWER(nog_load(&machine, USER, page(1), &byte, 1), NOG_DONE);
    /* the border moves */
    ANSWER(nog_protect(&machine, USER, page(1), PAGE, 1), NOG_DONE);
    shows(id, 3, 100, 0);
    ANSWER(store(USER, page(2) - 1, 7), NOG_DONE);
    ANSWER(store(USER, page(2), 7), NOG_SIGSEGV);
    /* whole pieces stay apart */
    ANSWER(nog_protect(&machine, USER, page(1), 2 * PAGE, 1), NOG_DONE);
    shows(id, 3, 100, 0);
    ANSWER(nog_protect(&machine, USER, BASE, PAGES * PAGE, 0), NOG_DONE);
    ANSWER(nog_protect(&machine, USER, page(6), 1, 1), NOG_DONE);
    shows(id, 5, 100, 0);
    ANSWER(nog_protect(&machine, USER, page(5), PAGE, 1), NOG_DONE);
    shows(id, 5, 100, 0);
    ANSWER(nog_detach(&machine, USER, BASE), NOG_DONE);
    shows(id, 0, 100, 100);
}

static void test_stops(void) {
    int32_t id = open_attached();
    ANSWER(nog_protect(&machine, USER, BASE + 8, 0, 0), NOG_EINVAL);
    ANSWER(nog_protect(&machine, USER, BASE, 0, 0), NOG_DONE);
    ANSWER(nog_protect(&machine, USER, 0x60000000, 1, 0), NOG_ENOMEM);
    ANSWER(nog_protect(&machine, USER, BASE, UINT64_MAX, 0), NOG_ENOMEM);
    ANSWER(nog_protect(&machine, CHILD, BASE, 1, 0), NOG_ESRCH);
    shows(id, 1, 100, 0);
    ANSWER(store(USER, BASE, 7), NOG_DONE);
    /* what lies below a hole has changed */
    ANSWER(nog_protect(&machine, USER, BASE, (PAGES + 1) * PAGE, 0), NOG_ENOMEM);
    ANSWER(store(USER, page(7), 7), NOG_SIGSEGV);
    /* and what lies below a piece that may not be written */
    ANSWER(nog_protect(&machine, USER, page(4), 4 * PAGE, 0), NOG_DONE);
    attach(USER, id, page(PAGES), NOG_RDONLY);
    ANSWER(nog_protect(&machine, USER, page(6), 4 * PAGE, 1), NOG_EACCES);
    shows(id, 3, 100, 0);
    ANSWER(store(USER, page(6) - 1, 7), NOG_SIGSEGV);
    ANSWER(store(USER, page(6), 7), NOG_DONE);
    ANSWER(store(USER, page(PAGES), 7), NOG_SIGSEGV);
    ANSWER(nog_protect(&machine, USER, page(PAGES), PAGE, 0), NOG_DONE);
    shows(id, 3, 100, 0);
}

/* with two pieces at most, the middle of one is neither unmapped nor protected */
static void test_few_pieces(void) {
    static const nog_limits few = {65536, 4, 64, 4, 1, 2, 64, 64, 0};
    ANSWER(nog_open(&machine, &few, &ram, 1, NULL, 0, processes, 3), NOG_DONE);
    int32_t id = make(USER, PAGES, 0600);
    attach(USER, id, BASE, 0);
    ANSWER(nog_protect(&machine, USER, page(1), PAGE, 0), NOG_ENOMEM);
    ANSWER(store(USER, page(1), 7), NOG_DONE);
    ANSWER(nog_unmap(&machine, USER, page(1), PAGE), NOG_DONE);
    ANSWER(nog_unmap(&machine, USER, page(3), PAGE), NOG_ENOMEM);
    nog_segment s = {0};
    ANSWER(nog_stat(&machine, ROOT, id, &s), NOG_DONE);
    TEST(s.nattch == 2);
}

static void is_piece(uint32_t index, uint64_t base, uint32_t first_page, uint32_t pages, uint32_t is_writable, uint32_t may_write) {
    nog_piece piece = {.unused = 9};
    ANSWER(nog_piece_at(&machine, USER, index, &piece), NOG_DONE);
    TEST(piece.base == base && piece.first_page == first_page && piece.pages == pages);
    TEST(piece.is_writable == is_writable && piece.may_write == may_write && piece.unused == 0);
}

static void test_pieces(void) {
    nog_piece piece = {0};
    uint64_t at = 7;
    int32_t id = open_attached(), other = make(USER, 1, 0600);
    attach(USER, other, 0x40000000, NOG_RDONLY);
    ANSWER(nog_protect(&machine, USER, page(2), PAGE, 0), NOG_DONE);
    ANSWER(nog_unmap(&machine, USER, page(5), PAGE), NOG_DONE);
    is_piece(0, 0x40000000, 0, 1, 0, 0);
    is_piece(1, BASE, 0, 2, 1, 1);
    is_piece(2, page(2), 2, 1, 0, 1);
    is_piece(3, page(3), 3, 2, 1, 1);
    is_piece(4, page(6), 6, 2, 1, 1);
    ANSWER(nog_piece_at(&machine, USER, 0, &piece), NOG_DONE);
    TEST((int32_t)piece.segment == other);
    ANSWER(nog_piece_at(&machine, USER, 4, &piece), NOG_DONE);
    TEST((int32_t)piece.segment == id);
    ANSWER(nog_piece_at(&machine, USER, 5, &piece), NOG_OUT_OF_RANGE);
    ANSWER(nog_piece_at(&machine, USER, UINT32_MAX, &piece), NOG_OUT_OF_RANGE);
    ANSWER(nog_piece_at(&machine, ROOT, 0, &piece), NOG_OUT_OF_RANGE);
    ANSWER(nog_piece_at(&machine, CHILD, 0, &piece), NOG_ESRCH);
    TEST((int32_t)piece.segment == id);
    /* where accesses fail */
    ANSWER(nog_failed_at(&machine, USER, BASE, 5 * PAGE, 0, &at), NOG_OUT_OF_RANGE);
    TEST(at == 7);
    ANSWER(nog_failed_at(&machine, USER, BASE, 5 * PAGE + 1, 0, &at), NOG_DONE);
    TEST(at == page(5));
    ANSWER(nog_failed_at(&machine, USER, page(1), 2 * PAGE, 1, &at), NOG_DONE);
    TEST(at == page(2));
    ANSWER(nog_failed_at(&machine, USER, BASE - 1, 2, 0, &at), NOG_DONE);
    TEST(at == BASE - 1);
    ANSWER(nog_failed_at(&machine, USER, page(7) + 1, UINT64_MAX, 1, &at), NOG_DONE);
    TEST(at == page(PAGES));
    ANSWER(nog_failed_at(&machine, USER, UINT64_MAX, 2, 0, &at), NOG_DONE);
    TEST(at == UINT64_MAX);
    ANSWER(nog_failed_at(&machine, CHILD, 12, 1, 0, &at), NOG_DONE);
    TEST(at == 12);
    ANSWER(nog_failed_at(&machine, CHILD, 12, 0, 1, &at), NOG_OUT_OF_RANGE);
}

static void is_process(uint32_t index, uint32_t pid, uint32_t state, uint32_t uid, uint32_t gid) {
    nog_process process = {0};
    ANSWER(nog_process_at(&machine, index, &process), NOG_DONE);
    TEST(process.pid == pid && process.is_born == state && process.uid == uid && process.gid == gid);
}

static void test_processes(void) {
    static const nog_process more = {9, 1, 900, 901};
    nog_process process = {.pid = 7};
    ANSWER(open_usual(&machine), NOG_DONE);
    is_process(0, ROOT, 1, 0, 0);
    is_process(1, USER, 1, 200, 201);
    is_process(2, CHILD, 0, 0, 0);
    ANSWER(nog_process_at(&machine, 3, &process), NOG_OUT_OF_RANGE);
    TEST(process.pid == 7);
    ANSWER(nog_fork(&machine, USER, CHILD), NOG_DONE);
    is_process(2, CHILD, 1, 200, 201);
    ANSWER(nog_admit(&machine, &more), NOG_DONE);
    is_process(3, 9, 1, 900, 901);
    ANSWER(nog_exit(&machine, ROOT), NOG_DONE);
    is_process(0, ROOT, 2, 0, 0);
    ANSWER(nog_dismiss(&machine, ROOT), NOG_DONE);
    is_process(0, 9, 1, 900, 901);
    ANSWER(nog_process_at(&machine, 3, &process), NOG_OUT_OF_RANGE);
}

static void sums(uint64_t used_ids, uint64_t pages, uint64_t resident, uint64_t swapped, uint64_t highest) {
    nog_usage usage = {0};
    ANSWER(nog_info(&machine, &usage), NOG_DONE);
    TEST(usage.used_ids == used_ids);
    TEST(usage.pages == pages);
    TEST(usage.resident == resident);
    TEST(usage.swapped == swapped);
    TEST(usage.highest == highest);
}

static void test_info(void) {
    nog_segment s = {0};
    ANSWER(open_usual(&machine), NOG_DONE);
    sums(0, 0, 0, 0, 0);
    int32_t first = make(USER, 6, 0600), second = make(ROOT, 1, 0600), third = make(USER, 2, 0);
    sums(3, 9, 0, 0, 2);
    attach(USER, first, BASE, 0);
    for (uint64_t i = 0; i < 6; i++) ANSWER(store(USER, page(i), 1), NOG_DONE);
    sums(3, 9, 4, 2, 2);
    ANSWER(nog_stat_at(&machine, USER, 0, &s), NOG_DONE);
    TEST(s.id == first && s.nattch == 1 && s.index == 0 && s.size == 6 * PAGE);
    ANSWER(nog_stat_at(&machine, USER, 1, &s), NOG_EACCES);
    ANSWER(nog_stat_at(&machine, USER, 2, &s), NOG_EACCES);
    ANSWER(nog_stat_at(&machine, ROOT, 2, &s), NOG_DONE);
    TEST(s.id == third && s.size == 2 * PAGE);
    ANSWER(nog_stat_at(&machine, ROOT, 3, &s), NOG_EINVAL);
    ANSWER(nog_stat_at(&machine, ROOT, UINT32_MAX, &s), NOG_EINVAL);
    ANSWER(nog_stat_at(&machine, CHILD, 0, &s), NOG_ESRCH);
    TEST(s.id == third);
    ANSWER(nog_remove(&machine, USER, third), NOG_DONE);
    sums(2, 7, 4, 2, 1);
    ANSWER(nog_remove(&machine, ROOT, second), NOG_DONE);
    ANSWER(nog_stat_at(&machine, ROOT, 1, &s), NOG_EINVAL);
    sums(1, 6, 4, 2, 0);
    ANSWER(nog_remove(&machine, USER, first), NOG_DONE);
    sums(1, 6, 4, 2, 0);
    ANSWER(nog_unmap(&machine, USER, BASE, 6 * PAGE), NOG_DONE);
    sums(0, 0, 0, 0, 0);
}

static uint64_t byte_at(nog_machine *m, uint64_t at) {
    uint8_t byte = 0;
    ANSWER(nog_load(m, USER, at, &byte, 1), NOG_DONE);
    return byte;
}

/* both continue from one state, independently, and the write that is still to fail fails in each */
static void test_snapshot(void) {
    static const nog_failure third_write = {.is_write = 1, .call = 3};
    nog_machine copy = NOG_MACHINE_INITIALIZER;
    nog_tally before = {0}, after = {0};
    nog_segment s = {0}, t = {0};
    ANSWER(nog_open(&machine, &limits, &ram, 1, &third_write, 1, processes, 3), NOG_DONE);
    int32_t id = make(USER, PAGES, 0600);
    attach(USER, id, BASE, 0);
    for (uint64_t i = 0; i < 6; i++) ANSWER(store(USER, page(i), (uint8_t)(i + 1)), NOG_DONE);
    ANSWER(nog_set_time(&machine, 500), NOG_DONE);
    ANSWER(nog_snapshot(&machine, &copy), NOG_DONE);
    ANSWER(nog_tally_of(&machine, &before), NOG_DONE);
    ANSWER(nog_tally_of(&copy, &after), NOG_DONE);
    TEST(memcmp(&before, &after, sizeof before) == 0);
    TEST(before.outs == 2 && before.resident == 4 && before.failures == 0);
    ANSWER(store(USER, page(6), 7), NOG_SIGBUS);
    ANSWER(nog_tally_of(&copy, &after), NOG_DONE);
    TEST(after.failures == 0 && after.events == before.events);
    ANSWER(store(USER, page(5), 66), NOG_DONE);
    ANSWER(nog_unmap(&machine, USER, BASE, PAGE), NOG_DONE);
    ANSWER(nog_exit(&machine, USER), NOG_DONE);
    ANSWER(nog_stat(&machine, ROOT, id, &s), NOG_DONE);
    ANSWER(nog_stat(&copy, ROOT, id, &t), NOG_DONE);
    TEST(s.nattch == 0 && s.dtime == 500 && t.nattch == 1 && t.dtime == 0);
    uint8_t byte = 7;
    ANSWER(nog_store(&copy, USER, page(6), &byte, 1), NOG_SIGBUS);
    for (uint64_t i = 0; i < 6; i++) TEST(byte_at(&copy, page(i)) == i + 1);
    /* a snapshot takes the place of the machine that is there, and outlives its own */
    ANSWER(nog_snapshot(&copy, &machine), NOG_DONE);
    ANSWER(nog_close(&copy), NOG_DONE);
    for (uint64_t i = 0; i < 6; i++) TEST(byte_at(&machine, page(i)) == i + 1);
    ANSWER(nog_detach(&machine, USER, BASE), NOG_DONE);
    ANSWER(nog_stat(&machine, ROOT, id, &s), NOG_DONE);
    TEST(s.dtime == 500 && s.nattch == 0);
}

/* a handle given twice: its machine stays, with its bytes and what is still to fail, and nothing leaks */
static void test_snapshot_of_itself(void) {
    static const nog_failure third_write = {.is_write = 1, .call = 3};
    nog_tally before = {0}, after = {0};
    ANSWER(nog_close(&machine), NOG_DONE);
    ANSWER(nog_snapshot(&machine, &machine), NOG_CLOSED);
    ANSWER(nog_open(&machine, &limits, &ram, 1, &third_write, 1, processes, 3), NOG_DONE);
    int32_t id = make(USER, PAGES, 0600);
    attach(USER, id, BASE, 0);
    for (uint64_t i = 0; i < 6; i++) ANSWER(store(USER, page(i), (uint8_t)(i + 1)), NOG_DONE);
    ANSWER(nog_tally_of(&machine, &before), NOG_DONE);
    for (int i = 0; i < 3; i++) ANSWER(nog_snapshot(&machine, &machine), NOG_DONE);
    ANSWER(nog_tally_of(&machine, &after), NOG_DONE);
    TEST(memcmp(&before, &after, sizeof before) == 0);
    ANSWER(store(USER, page(6), 7), NOG_SIGBUS);
    for (uint64_t i = 0; i < 6; i++) TEST(byte_at(&machine, page(i)) == i + 1);
}

/* while a page is on loan there is no snapshot, and both handles keep their machines */
static void test_snapshot_lent(void) {
    static uint8_t bytes[PAGE];
    nog_machine copy = NOG_MACHINE_INITIALIZER;
    uint64_t calls = 0;
    int32_t id = open_attached();
    ANSWER(store(USER, BASE, 5), NOG_DONE);
    ANSWER(nog_lend(&machine, id, 0, bytes, PAGE), NOG_DONE);
    ANSWER(nog_snapshot(&machine, &copy), NOG_LENT);
    ANSWER(nog_calls(&copy, &calls), NOG_CLOSED);
    ANSWER(open_usual(&copy), NOG_DONE);
    ANSWER(nog_exec(&copy, ROOT), NOG_DONE);
    ANSWER(nog_snapshot(&machine, &copy), NOG_LENT);
    ANSWER(nog_calls(&copy, &calls), NOG_DONE);
    TEST(calls == 1);
    ANSWER(nog_snapshot(&machine, &machine), NOG_LENT);
    ANSWER(nog_calls(&machine, &calls), NOG_DONE);
    TEST(calls == 3);
    /* what matters is what is on loan in the machine that is copied */
    ANSWER(nog_snapshot(&copy, &machine), NOG_DONE);
    ANSWER(nog_calls(&machine, &calls), NOG_DONE);
    TEST(calls == 1);
    ANSWER(nog_close(&copy), NOG_DONE);
}

int main(void) {
    test_closed();
    test_unmap();
    test_protect();
    test_stops();
    test_few_pieces();
    test_pieces();
    test_processes();
    test_info();
    test_snapshot();
    test_snapshot_of_itself();
    test_snapshot_lent();
    ANSWER(nog_close(&machine), NOG_DONE);
    return finish("mappings");
}

/* Failures that are added to a running machine: which reads and writes of its areas fail from then on. */
#include "testing.h"

enum { PAGES = 6, FRAMES = 2, SLOTS = 16 };

static const nog_area mirror = {NOG_MIRROR, SLOTS};
static nog_machine m = NOG_MACHINE_INITIALIZER, closed = NOG_MACHINE_INITIALIZER;
static int32_t id;

static nog_tally tally(nog_machine *machine) {
    nog_tally found;
    ANSWER(nog_tally_of(machine, &found), NOG_DONE);
    return found;
}

/* byte `page` + 1 is in each page, and each page has a slot; two of them are in frames */
static void open_with(const nog_area *areas, size_t count) {
    nog_limits few = limits;
    nog_flushed flushed;
    uint64_t at;
    few.frames = FRAMES, few.memlock = 0;
    ANSWER(nog_open(&m, &few, areas, count, &none, 0, processes, 3), NOG_DONE);
    ANSWER(nog_get(&m, USER, NOG_PRIVATE, PAGES * PAGE, 0600, 0, &id), NOG_DONE);
    ANSWER(nog_attach(&m, USER, id, 0, 0, &at), NOG_DONE);
    for (uint32_t page = 0; page < PAGES; page++)
        ANSWER(nog_store(&m, USER, LOWEST + page * PAGE, &(uint8_t){(uint8_t)(page + 1)}, 1), NOG_DONE);
    ANSWER(nog_flush(&m, FRAMES, &flushed), NOG_DONE);
    TEST(tally(&m).used == PAGES && tally(&m).dirty == 0);
}

static int is_resident(uint32_t page) {
    nog_frame frame;
    for (uint32_t place = 0; place < FRAMES; place++)
        if (nog_frame_at(&m, place, &frame) == NOG_DONE && frame.id == id && frame.page == page) return 1;
    return 0;
}

/* the lowest page that is in no frame, or that is in one */
static uint32_t lowest(int resident) {
    uint32_t page = 0;
    while (page < PAGES && is_resident(page) != resident) page++;
    return page;
}

static uint32_t load(nog_machine *machine, uint32_t page) {
    uint8_t byte = 0;
    uint32_t code = nog_load(machine, USER, LOWEST + page * PAGE, &byte, 1);
    TEST(code != NOG_DONE || byte == page + 1);
    return code;
}

static uint32_t store(uint32_t page) {
    return nog_store(&m, USER, LOWEST + page * PAGE, &(uint8_t){(uint8_t)(page + 1)}, 1);
}

static void all_pages_are_read(void) {
    for (uint32_t page = 0; page < PAGES; page++) ANSWER(load(&m, page), NOG_DONE);
}

static uint32_t fail(uint32_t area, uint32_t side, uint32_t is_write, uint64_t call, uint32_t is_lasting) {
    return nog_fail(&m, &(nog_failure){.area = area, .side = side, .is_write = is_write, .unused = 7, .call = call}, is_lasting);
}

/* the next read, and the third from now */
static void test_one_read(void) {
    open_with(&ram, 1);
    all_pages_are_read();
    for (uint64_t call = 1; call <= 3; call++) {
        uint64_t failures = tally(&m).failures;
        ANSWER(fail(0, 0, 0, call, 0), NOG_DONE);
        for (uint64_t i = 1; i < call; i++) ANSWER(load(&m, lowest(0)), NOG_DONE);
        ANSWER(load(&m, lowest(0)), NOG_SIGBUS);
        TEST(tally(&m).failures == failures + 1);
        all_pages_are_read();
        TEST(tally(&m).failures == failures + 1);
    }
    /* two failures at one place are one, and a write does not count as a read */
    ANSWER(fail(0, 0, 0, 1, 0), NOG_DONE);
    ANSWER(fail(0, 0, 0, 1, 0), NOG_DONE);
    ANSWER(store(lowest(1)), NOG_DONE);
    ANSWER(nog_flush(&m, FRAMES, &(nog_flushed){0}), NOG_DONE);
    ANSWER(load(&m, lowest(0)), NOG_SIGBUS);
    all_pages_are_read();
}

/* a flush round counts the write that fails, and the page stays dirty until the next round */
static void test_one_write(void) {
    nog_flushed flushed;
    open_with(&ram, 1);
    ANSWER(store(lowest(1)), NOG_DONE);
    ANSWER(fail(0, 0, 1, 1, 0), NOG_DONE);
    ANSWER(nog_flush(&m, FRAMES, &flushed), NOG_DONE);
    TEST(flushed.written == 0 && flushed.failed == 1 && tally(&m).dirty == 1);
    ANSWER(nog_flush(&m, FRAMES, &flushed), NOG_DONE);
    TEST(flushed.written == 1 && flushed.failed == 0 && tally(&m).dirty == 0);
    all_pages_are_read();
    /* a page can't leave, so no other comes in */
    for (uint32_t page = 0; page < PAGES; page++)
        if (is_resident(page)) ANSWER(store(page), NOG_DONE);
    ANSWER(fail(0, 0, 1, 1, 0), NOG_DONE);
    ANSWER(load(&m, lowest(0)), NOG_SIGBUS);
    all_pages_are_read();
}

/* all reads from the second on, also those of a snapshot, while writes succeed */
static void test_lasting_reads(void) {
    nog_machine copy = NOG_MACHINE_INITIALIZER;
    nog_flushed flushed;
    uint64_t failures;
    open_with(&ram, 1);
    ANSWER(fail(0, 0, 0, 2, UINT32_MAX), NOG_DONE);
    /* a later place does not put it off */
    ANSWER(fail(0, 0, 0, 9, 1), NOG_DONE);
    ANSWER(load(&m, lowest(0)), NOG_DONE);
    failures = tally(&m).failures;
    ANSWER(nog_snapshot(&m, &copy), NOG_DONE);
    for (uint64_t i = 1; i <= 20; i++) {
        ANSWER(load(&m, lowest(0)), NOG_SIGBUS);
        TEST(tally(&m).failures == failures + i);
    }
    ANSWER(store(lowest(1)), NOG_DONE);
    ANSWER(nog_flush(&m, FRAMES, &flushed), NOG_DONE);
    TEST(flushed.failed == 0);
    ANSWER(load(&copy, lowest(0)), NOG_SIGBUS);
    ANSWER(nog_close(&copy), NOG_DONE);
    /* an earlier place does bring it forward */
    open_with(&ram, 1);
    ANSWER(fail(0, 0, 0, 9, 1), NOG_DONE);
    ANSWER(fail(0, 0, 0, 1, 1), NOG_DONE);
    ANSWER(load(&m, lowest(0)), NOG_SIGBUS);
}

static void test_lasting_writes(void) {
    nog_flushed flushed;
    open_with(&ram, 1);
    ANSWER(store(lowest(1)), NOG_DONE);
    ANSWER(fail(0, 0, 1, 1, 1), NOG_DONE);
    for (int i = 0; i < 20; i++) {
        ANSWER(nog_flush(&m, FRAMES, &flushed), NOG_DONE);
        TEST(flushed.written == 0 && flushed.failed == 1 && tally(&m).dirty == 1);
    }
    ANSWER(load(&m, lowest(1)), NOG_DONE);
}

/* a mirror reads from the right side while the left one fails */
static void test_mirror(void) {
    open_with(&mirror, 1);
    ANSWER(fail(0, 0, 0, 1, 1), NOG_DONE);
    all_pages_are_read();
    TEST(tally(&m).failures == 0);
    ANSWER(fail(0, 1, 0, 1, 0), NOG_DONE);
    ANSWER(load(&m, lowest(0)), NOG_SIGBUS);
    all_pages_are_read();
    ANSWER(nog_fail_page(&m, id, lowest(0)), NOG_DONE);
    ANSWER(load(&m, lowest(0)), NOG_SIGBUS);
    ANSWER(load(&m, lowest(0)), NOG_SIGBUS);
}

static void test_refusals(void) {
    const nog_area areas[] = {{NOG_RAM, SLOTS}, {NOG_MIRROR, SLOTS}};
    nog_tally before, after;
    uint64_t calls, later;
    open_with(areas, 2);
    ANSWER(nog_fail(&closed, &none, 0), NOG_CLOSED);
    ANSWER(nog_fail_page(&closed, id, 0), NOG_CLOSED);
    before = tally(&m);
    ANSWER(nog_calls(&m, &calls), NOG_DONE);
    ANSWER(fail(0, 0, 0, 0, 0), NOG_OUT_OF_RANGE);
    ANSWER(fail(0, 0, 1, 0, 1), NOG_OUT_OF_RANGE);
    ANSWER(fail(0, 1, 0, 1, 0), NOG_OUT_OF_RANGE);
    ANSWER(fail(1, 2, 0, 1, 0), NOG_OUT_OF_RANGE);
    ANSWER(fail(2, 0, 0, 1, 0), NOG_OUT_OF_RANGE);
    ANSWER(fail(UINT32_MAX, 0, 0, 1, 1), NOG_OUT_OF_RANGE);
    ANSWER(nog_fail_page(&m, -1, 0), NOG_EINVAL);
    ANSWER(nog_fail_page(&m, id + 1, 0), NOG_EINVAL);
    ANSWER(nog_fail_page(&m, id, PAGES), NOG_OUT_OF_RANGE);
    ANSWER(nog_fail_page(&m, id, UINT32_MAX), NOG_OUT_OF_RANGE);
    /* no refusal changed anything */
    all_pages_are_read();
    after = tally(&m);
    TEST(after.failures == 0 && after.used == before.used && after.slots == before.slots);
    /* nor do those that are added, until their call comes; none is counted */
    before = tally(&m);
    ANSWER(nog_calls(&m, &calls), NOG_DONE);
    ANSWER(fail(1, 1, 1, UINT64_MAX, 0), NOG_DONE);
    ANSWER(fail(0, 0, 0, 1000, 1), NOG_DONE);
    ANSWER(nog_fail_page(&m, id, 0), NOG_DONE);
    ANSWER(nog_calls(&m, &later), NOG_DONE);
    after = tally(&m);
    TEST(later == calls && memcmp(&before, &after, sizeof before) == 0);
    /* an area that is gone */
    ANSWER(nog_swapoff(&m, ROOT, 1), NOG_DONE);
    ANSWER(fail(1, 0, 0, 1, 0), NOG_OUT_OF_RANGE);
}

/* a bad sector: until a write, in a frame or not */
static void test_bad_slot(void) {
    uint32_t page, other;
    int32_t fresh;
    open_with(&ram, 1);
    ANSWER(nog_get(&m, USER, NOG_PRIVATE, PAGE, 0600, 0, &fresh), NOG_DONE);
    ANSWER(nog_fail_page(&m, fresh, 0), NOG_ENOENT);
    /* in no frame: only this page fails, as often as it is asked for */
    page = lowest(0);
    ANSWER(nog_fail_page(&m, id, page), NOG_DONE);
    for (int i = 0; i < 20; i++) ANSWER(load(&m, page), NOG_SIGBUS);
    for (other = 0; other < PAGES; other++)
        if (other != page) ANSWER(load(&m, other), NOG_DONE);
    ANSWER(load(&m, page), NOG_SIGBUS);
    /* in a frame: nothing fails while it is there, and a write into its slot ends it */
    open_with(&ram, 1);
    page = lowest(1);
    ANSWER(nog_fail_page(&m, id, page), NOG_DONE);
    ANSWER(nog_fail_page(&m, id, page), NOG_DONE);
    ANSWER(load(&m, page), NOG_DONE);
    ANSWER(store(page), NOG_DONE);
    while (is_resident(page)) ANSWER(load(&m, lowest(0)), NOG_DONE);
    ANSWER(load(&m, page), NOG_DONE);
    /* without a write it fails once it has left */
    ANSWER(nog_fail_page(&m, id, page), NOG_DONE);
    while (is_resident(page)) ANSWER(load(&m, lowest(0)), NOG_DONE);
    ANSWER(load(&m, page), NOG_SIGBUS);
    /* the end of the segment frees the slot */
    ANSWER(nog_remove(&m, USER, id), NOG_DONE);
    ANSWER(nog_detach(&m, USER, LOWEST), NOG_DONE);
    TEST(tally(&m).used == 0);
}

int main(void) {
    test_one_read();
    test_one_write();
    test_lasting_reads();
    test_lasting_writes();
    test_mirror();
    test_refusals();
    test_bad_slot();
    ANSWER(nog_close(&m), NOG_DONE);
    return finish("failures");
}

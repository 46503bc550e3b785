/* loans: pages on loan. First each code of each function, in the order of the header, with the answers that the header
   and docs/MACHINE.md give. Then random calls and loans on 4 to 64 frames, compared byte by byte with plain arrays, over
   areas of which one read or write fails at each place in turn: `loans RUNS` makes this many runs of 1,000 steps instead
   of 100. */
#include <stdlib.h>
#include "testing.h"

enum { UNTOUCHED = 0xa5 };

static nog_machine m = NOG_MACHINE_INITIALIZER;
static uint8_t bytes[PAGE + 1];

static uint64_t at(uint32_t page) { return LOWEST + (uint64_t)page * PAGE; }

static nog_tally tally(void) {
    nog_tally found = {0};
    ANSWER(nog_tally_of(&m, &found), NOG_DONE);
    return found;
}

static int32_t attached(uint32_t pages) {
    int32_t id = -1;
    uint64_t place = 0;
    ANSWER(nog_get(&m, USER, NOG_PRIVATE, (uint64_t)pages * PAGE, 0600, 0, &id), NOG_DONE);
    ANSWER(nog_attach(&m, USER, id, 0, 0, &place), NOG_DONE);
    TEST(place == LOWEST);
    return id;
}

/* a machine of four frames with a segment that USER has attached at the lowest address, and a pager's failure */
static int32_t open_with(uint32_t pages, nog_failure failure) {
    ANSWER(nog_open(&m, &limits, &ram, 1, &failure, failure.call != 0, processes, 3), NOG_DONE);
    return attached(pages);
}

static uint32_t load(uint32_t page) {
    uint8_t byte;
    return nog_load(&m, USER, at(page), &byte, 1);
}

static uint32_t store(uint32_t page, uint8_t byte) { return nog_store(&m, USER, at(page), &byte, 1); }

static void load_each(uint32_t from, uint32_t to) {
    for (uint32_t page = from; page < to; page++) ANSWER(load(page), NOG_DONE);
}

static uint32_t lend(int32_t id, uint32_t page) { return nog_lend(&m, id, page, bytes, PAGE); }

static uint32_t back(int32_t id, uint32_t page) { return nog_give_back(&m, id, page, NULL, 0); }

/* the frame with a page; all zeros but the page if it has none */
static nog_frame frame_of(int32_t id, uint32_t page) {
    nog_frame frame, missing = {.id = -1, .page = page};
    for (uint32_t i = 0; nog_frame_at(&m, i, &frame) == NOG_DONE; i++)
        if (frame.id == id && frame.page == page) return frame;
    return missing;
}

static int is_in(int32_t id, uint32_t page) { return frame_of(id, page).id == id; }

static uint32_t leaver(void) {
    nog_frame frame = {.page = UINT32_MAX};
    ANSWER(nog_leaver(&m, &frame), NOG_DONE);
    return frame.page;
}

/* ---- the codes of each function ---- */

static void test_lend(void) {
    nog_tally before, after;
    int32_t id = open_with(8, (nog_failure){0}), gone = -1;
    ANSWER(nog_get(&m, USER, NOG_PRIVATE, 1, 0600, 0, &gone), NOG_DONE);
    ANSWER(nog_remove(&m, USER, gone), NOG_DONE);
    for (uint32_t page = 0; page < 4; page++) ANSWER(store(page, (uint8_t)(page + 1)), NOG_DONE);
    memset(bytes, UNTOUCHED, sizeof bytes);
    before = tally();
    ANSWER(nog_lend(&m, 99, 0, bytes, 0), NOG_OUT_OF_RANGE);
    ANSWER(nog_lend(&m, id, 0, bytes, PAGE - 1), NOG_OUT_OF_RANGE);
    ANSWER(nog_lend(&m, id, 0, bytes, PAGE + 1), NOG_OUT_OF_RANGE);
    ANSWER(lend(99, 99), NOG_EINVAL);
    ANSWER(lend(-1, 0), NOG_EINVAL);
    ANSWER(lend(gone, 0), NOG_EINVAL);
    ANSWER(lend(id, 8), NOG_OUT_OF_RANGE);
    ANSWER(lend(id, UINT32_MAX), NOG_OUT_OF_RANGE);
    for (size_t i = 0; i < sizeof bytes; i++) TEST(bytes[i] == UNTOUCHED);
    ANSWER(lend(id, 0), NOG_DONE);
    TEST(bytes[0] == 1 && bytes[1] == 0 && bytes[PAGE - 1] == 0 && bytes[PAGE] == UNTOUCHED);
    memset(bytes, UNTOUCHED, sizeof bytes);
    ANSWER(lend(id, 0), NOG_LENT);
    /* four frames are full, and all referenced: the hand comes round to the first */
    ANSWER(lend(id, 4), NOG_LENT);
    for (size_t i = 0; i < sizeof bytes; i++) TEST(bytes[i] == UNTOUCHED);
    after = tally();
    TEST(memcmp(&before, &after, sizeof before) == 0);
    ANSWER(back(id, 0), NOG_DONE);
    ANSWER(lend(id, 4), NOG_DONE);
    TEST(!is_in(id, 0) && is_in(id, 4) && frame_of(id, 4).is_lent == 1 && frame_of(id, 4).is_referenced == 1);
    TEST(bytes[0] == 0 && tally().events == before.events && tally().outs == 1);
}

/* a write that fails leaves the leaver in its frame; a read that fails does not, and no page is lent */
static void test_lend_sigbus(void) {
    int32_t id = open_with(8, (nog_failure){.is_write = 1, .call = 1});
    for (uint32_t page = 0; page < 4; page++) ANSWER(store(page, (uint8_t)(page + 1)), NOG_DONE);
    bytes[0] = UNTOUCHED;
    ANSWER(lend(id, 4), NOG_SIGBUS);
    TEST(bytes[0] == UNTOUCHED && is_in(id, 0) && !is_in(id, 4) && tally().failures == 1);
    ANSWER(lend(id, 4), NOG_DONE);
    TEST(is_in(id, 0) + is_in(id, 1) + is_in(id, 2) + is_in(id, 3) == 3);
    id = open_with(8, (nog_failure){.call = 1});
    for (uint32_t page = 0; page < 5; page++) ANSWER(store(page, (uint8_t)(page + 1)), NOG_DONE);
    TEST(!is_in(id, 0) && is_in(id, 1));
    ANSWER(lend(id, 0), NOG_SIGBUS);
    TEST(!is_in(id, 0) && !is_in(id, 1) && tally().failures == 1 && tally().events == 7);
    ANSWER(back(id, 0), NOG_OUT_OF_RANGE);
    ANSWER(lend(id, 0), NOG_DONE);
    TEST(bytes[0] == 1);
}

static void test_give_back(void) {
    int32_t id = open_with(8, (nog_failure){0});
    load_each(0, 4);
    ANSWER(lend(id, 1), NOG_DONE);
    ANSWER(nog_give_back(&m, 99, 0, bytes, 1), NOG_OUT_OF_RANGE);
    ANSWER(nog_give_back(&m, id, 1, bytes, PAGE - 1), NOG_OUT_OF_RANGE);
    ANSWER(nog_give_back(&m, id, 1, bytes, PAGE + 1), NOG_OUT_OF_RANGE);
    ANSWER(back(99, 99), NOG_EINVAL);
    ANSWER(back(-1, 1), NOG_EINVAL);
    ANSWER(back(id, 0), NOG_OUT_OF_RANGE);
    ANSWER(back(id, 7), NOG_OUT_OF_RANGE);
    ANSWER(back(id, 8), NOG_OUT_OF_RANGE);
    TEST(frame_of(id, 1).is_lent == 1);
    ANSWER(back(id, 1), NOG_DONE);
    TEST(frame_of(id, 1).is_lent == 0);
    ANSWER(back(id, 1), NOG_OUT_OF_RANGE);
}

/* pages 0 to 3 come into the frames 0 to 3; the fourth page has to send out the first, and the hand then is at the second */
static void test_frames(void) {
    static const uint32_t shown[] = {1, 2, 3, 4};
    nog_frame frame = {.page = 77};
    int32_t id = open_with(8, (nog_failure){0});
    ANSWER(nog_leaver(&m, &frame), NOG_OUT_OF_RANGE);
    ANSWER(nog_frame_at(&m, 0, &frame), NOG_OUT_OF_RANGE);
    load_each(0, 3);
    ANSWER(nog_leaver(&m, &frame), NOG_OUT_OF_RANGE);
    ANSWER(nog_frame_at(&m, 3, &frame), NOG_OUT_OF_RANGE);
    ANSWER(nog_frame_at(&m, 4, &frame), NOG_OUT_OF_RANGE);
    TEST(frame.page == 77);
    ANSWER(store(3, 9), NOG_DONE);
    ANSWER(lend(id, 3), NOG_DONE);
    ANSWER(nog_frame_at(&m, 3, &frame), NOG_DONE);
    TEST(frame.id == id && frame.page == 3 && frame.is_referenced == 1 && frame.is_dirty == 1 && frame.is_lent == 1);
    TEST(frame.is_locked == 0);
    ANSWER(nog_leaver(&m, &frame), NOG_DONE);
    TEST(frame.id == id && frame.page == 0 && frame.is_referenced == 1 && frame.is_dirty == 0 && frame.is_lent == 0);
    ANSWER(load(4), NOG_DONE);
    for (uint32_t i = 0; i < 4; i++) {
        ANSWER(nog_frame_at(&m, i, &frame), NOG_DONE);
        TEST(frame.page == shown[i] && frame.is_referenced == (i == 3) && frame.is_lent == (i == 2));
    }
    frame.page = 77;
    ANSWER(nog_frame_at(&m, 4, &frame), NOG_OUT_OF_RANGE);
    ANSWER(nog_frame_at(&m, UINT32_MAX, &frame), NOG_OUT_OF_RANGE);
    TEST(frame.page == 77 && leaver() == 1);
    /* the second chance of a page that is used again */
    ANSWER(load(1), NOG_DONE);
    TEST(leaver() == 2 && tally().events == 2 + 3 + 1 + 2);
}

static void test_page_at(void) {
    int32_t id = open_with(3, (nog_failure){0}), found = 77;
    uint32_t page = 77, is_writable = 77;
    uint64_t events = tally().events, place = 0;
    ANSWER(nog_page_at(&m, UNDECLARED, LOWEST, &found, &page, &is_writable), NOG_ESRCH);
    ANSWER(nog_page_at(&m, CHILD, LOWEST, &found, &page, &is_writable), NOG_ESRCH);
    ANSWER(nog_page_at(&m, USER, LOWEST - 1, &found, &page, &is_writable), NOG_SIGSEGV);
    ANSWER(nog_page_at(&m, USER, at(3), &found, &page, &is_writable), NOG_SIGSEGV);
    ANSWER(nog_page_at(&m, USER, UINT64_MAX, &found, &page, &is_writable), NOG_SIGSEGV);
    ANSWER(nog_page_at(&m, ROOT, LOWEST, &found, &page, &is_writable), NOG_SIGSEGV);
    TEST(found == 77 && page == 77 && is_writable == 77);
    ANSWER(nog_page_at(&m, USER, at(3) - 1, &found, &page, &is_writable), NOG_DONE);
    TEST(found == id && page == 2 && is_writable == 1 && tally().events == events && tally().resident == 0);
    ANSWER(nog_protect(&m, USER, at(1), PAGE, 0), NOG_DONE);
    for (uint32_t i = 0; i < 3; i++) {
        ANSWER(nog_page_at(&m, USER, at(i) + i, &found, &page, &is_writable), NOG_DONE);
        TEST(found == id && page == i && is_writable == (i != 1));
    }
    ANSWER(nog_unmap(&m, USER, LOWEST, PAGE), NOG_DONE);
    ANSWER(nog_page_at(&m, USER, LOWEST, &found, &page, &is_writable), NOG_SIGSEGV);
    ANSWER(nog_attach(&m, ROOT, id, 0x50000000, NOG_RDONLY, &place), NOG_DONE);
    ANSWER(nog_page_at(&m, ROOT, 0x50000000, &found, &page, &is_writable), NOG_DONE);
    TEST(found == id && page == 0 && is_writable == 0);
}

/* ---- accesses while pages are on loan ---- */

/* each access to bytes of a page on loan, with nothing written and nothing counted */
static void test_access_of_lent(void) {
    uint8_t one[8], other[8];
    uint64_t number = 77, done = 77;
    int32_t id = open_with(8, (nog_failure){0});
    ANSWER(store(0, 1), NOG_DONE);
    ANSWER(store(1, 2), NOG_DONE);
    ANSWER(lend(id, 1), NOG_DONE);
    nog_tally before = tally(), after;
    memset(one, UNTOUCHED, sizeof one);
    memset(other, UNTOUCHED, sizeof other);
    ANSWER(nog_load(&m, USER, at(1) + 5, one, 8), NOG_LENT);
    ANSWER(nog_store(&m, USER, at(1), one, 8), NOG_LENT);
    ANSWER(nog_add(&m, USER, at(2) - 8, 1, &number), NOG_LENT);
    ANSWER(nog_exchange(&m, USER, at(1), one, 8, other, 8), NOG_LENT);
    ANSWER(nog_compare_exchange(&m, USER, at(1), one, 8, one, 8, other, 8), NOG_LENT);
    /* with a first page that is in a frame, and with a second one that is */
    ANSWER(nog_load(&m, USER, at(1) - 4, one, 8), NOG_LENT);
    ANSWER(nog_store(&m, USER, at(1) - 1, one, 8), NOG_LENT);
    ANSWER(nog_store(&m, USER, at(2) - 1, one, 8), NOG_LENT);
    ANSWER(nog_read(&m, USER, at(1), one, 8, &done), NOG_LENT);
    TEST(done == 0 && number == 77);
    done = 77;
    ANSWER(nog_write(&m, USER, at(1), one, 8, &done), NOG_LENT);
    TEST(done == 0);
    ANSWER(nog_copy(&m, USER, at(1), USER, at(0), 8, &done), NOG_LENT);
    for (int i = 0; i < 8; i++) TEST(one[i] == UNTOUCHED && other[i] == UNTOUCHED);
    after = tally();
    TEST(memcmp(&before, &after, sizeof before) == 0);
    /* those of several calls do what they can before it; a load and a store of the page below are counted */
    ANSWER(nog_read(&m, USER, at(1) - 3, one, 8, &done), NOG_LENT);
    TEST(done == 3 && one[0] == 0 && one[3] == UNTOUCHED && tally().events == before.events + 1);
    ANSWER(nog_write(&m, USER, at(1) - 3, (const uint8_t *)"abcdefgh", 8, &done), NOG_LENT);
    TEST(done == 3 && tally().events == before.events + 2);
    /* an access that nothing is attached for is not one of the page */
    ANSWER(nog_load(&m, ROOT, at(1), one, 8), NOG_SIGSEGV);
    ANSWER(nog_load(&m, UNDECLARED, at(1), one, 8), NOG_ESRCH);
    ANSWER(nog_load(&m, USER, at(1), one, 65), NOG_OUT_OF_RANGE);
    ANSWER(nog_protect(&m, USER, at(1), PAGE, 0), NOG_DONE);
    ANSWER(nog_store(&m, USER, at(1), one, 1), NOG_SIGSEGV);
    ANSWER(back(id, 1), NOG_DONE);
    ANSWER(nog_load(&m, USER, at(1) - 4, one, 8), NOG_DONE);
    TEST(memcmp(one, "\0abc\2\0\0\0", 8) == 0);
}

/* an access that could bring its page in only if one on loan left */
static void test_no_room(void) {
    uint8_t two[2] = {UNTOUCHED, UNTOUCHED};
    int32_t id = open_with(8, (nog_failure){0});
    load_each(0, 4);
    ANSWER(lend(id, 0), NOG_DONE);
    uint64_t events = tally().events;
    ANSWER(load(4), NOG_LENT);
    ANSWER(store(4, 1), NOG_LENT);
    TEST(tally().events == events && is_in(id, 0) && !is_in(id, 4));
    /* what is in its frame may be used */
    ANSWER(load(1), NOG_DONE);
    ANSWER(back(id, 0), NOG_DONE);
    ANSWER(load(4), NOG_DONE);
    TEST(!is_in(id, 0) && is_in(id, 1) && leaver() == 1);
    /* the first page of two comes in for page 1; for the second, page 2 would have to leave */
    ANSWER(lend(id, 2), NOG_DONE);
    ANSWER(lend(id, 3), NOG_DONE);
    ANSWER(load(4), NOG_DONE);
    TEST(leaver() == 1);
    events = tally().events;
    ANSWER(nog_load(&m, USER, at(6) - 1, two, 2), NOG_LENT);
    TEST(two[0] == UNTOUCHED && tally().events == events && frame_of(id, 2).is_lent == 1 && frame_of(id, 3).is_lent == 1);
    ANSWER(back(id, 2), NOG_DONE);
    ANSWER(nog_load(&m, USER, at(6) - 1, two, 2), NOG_DONE);
    TEST(is_in(id, 5) && is_in(id, 6) && !is_in(id, 2) && is_in(id, 3) && tally().events == events + 1);
}

/* frames 0 to 3 have the pages 0 to 3, all referenced; page 4 comes in for page 0, then page 1 would leave for page 5 */
static void test_second_page(void) {
    uint8_t two[2] = {UNTOUCHED, UNTOUCHED};
    int32_t id = open_with(8, (nog_failure){0});
    load_each(0, 4);
    ANSWER(lend(id, 1), NOG_DONE);
    uint64_t events = tally().events;
    ANSWER(nog_load(&m, USER, at(5) - 1, two, 2), NOG_LENT);
    TEST(two[0] == UNTOUCHED && two[1] == UNTOUCHED && tally().events == events);
    TEST(is_in(id, 1) && is_in(id, 2) && is_in(id, 3) && !is_in(id, 5) && frame_of(id, 1).is_lent == 1);
    TEST(leaver() == 1);
    ANSWER(back(id, 1), NOG_DONE);
    ANSWER(nog_load(&m, USER, at(5) - 1, two, 2), NOG_DONE);
    TEST(two[0] == 0 && two[1] == 0 && tally().events == events + 1);
    TEST(is_in(id, 4) && is_in(id, 5) && !is_in(id, 0) && !is_in(id, 1) && is_in(id, 2) && is_in(id, 3));
    /* a pager that fails for the first page of two, while any page is on loan: nothing is counted */
    id = open_with(8, (nog_failure){.is_write = 1, .call = 1});
    for (uint32_t page = 0; page < 4; page++) ANSWER(store(page, 1), NOG_DONE);
    ANSWER(lend(id, 3), NOG_DONE);
    events = tally().events;
    ANSWER(nog_load(&m, USER, at(5) - 1, two, 2), NOG_SIGBUS);
    TEST(tally().events == events && tally().failures == 1 && is_in(id, 3));
    ANSWER(nog_load(&m, USER, at(5) - 1, two, 2), NOG_DONE);
    TEST(tally().events == events + 1);
}

/* the sentence that a host relies on: with every frame on loan, the page that nog_leaver names comes back, another is lent, and
   no other page moves. Each page comes in referenced, so the pages leave in the order in which they came. */
static void test_leaver(void) {
    int32_t id = open_with(16, (nog_failure){0});
    for (uint32_t page = 0; page < 4; page++) ANSWER(lend(id, page), NOG_DONE);
    for (uint32_t page = 4; page < 16; page++) {
        TEST(leaver() == page - 4);
        ANSWER(lend(id, page), NOG_LENT);
        ANSWER(load(page), NOG_LENT);
        bytes[0] = (uint8_t)page;
        ANSWER(nog_give_back(&m, id, page - 4, bytes, PAGE), NOG_DONE);
        ANSWER(lend(id, page), NOG_DONE);
        for (uint32_t i = 0; i < 16; i++) TEST(frame_of(id, i).is_lent == (i > page - 4 && i <= page));
    }
    for (uint32_t page = 12; page < 16; page++) ANSWER(back(id, page), NOG_DONE);
    for (uint32_t page = 0; page < 12; page++) {
        uint8_t byte = 0;
        ANSWER(nog_load(&m, USER, at(page), &byte, 1), NOG_DONE);
        TEST(byte == page + 4);
    }
}

/* ---- what a page that comes back changes ---- */

static void test_dirty(void) {
    nog_flushed flushed = {0};
    int32_t id = open_with(8, (nog_failure){0});
    load_each(0, 1);
    ANSWER(lend(id, 0), NOG_DONE);
    ANSWER(back(id, 0), NOG_DONE);
    TEST(frame_of(id, 0).is_dirty == 0 && tally().dirty == 0);
    ANSWER(lend(id, 0), NOG_DONE);
    bytes[17] = 17;
    ANSWER(nog_give_back(&m, id, 0, bytes, PAGE), NOG_DONE);
    TEST(frame_of(id, 0).is_dirty == 1 && tally().dirty == 1);
    /* what is dirty stays so without bytes */
    ANSWER(lend(id, 0), NOG_DONE);
    TEST(bytes[17] == 17);
    ANSWER(back(id, 0), NOG_DONE);
    TEST(frame_of(id, 0).is_dirty == 1);
    /* a flush writes a page on loan as it was lent; it is clean, until it comes back with bytes */
    ANSWER(lend(id, 0), NOG_DONE);
    ANSWER(nog_flush(&m, 9, &flushed), NOG_DONE);
    TEST(flushed.written == 1 && frame_of(id, 0).is_dirty == 0 && frame_of(id, 0).is_lent == 1 && tally().outs == 1);
    bytes[18] = 18;
    ANSWER(nog_give_back(&m, id, 0, bytes, PAGE), NOG_DONE);
    TEST(frame_of(id, 0).is_dirty == 1);
    load_each(1, 5);
    TEST(!is_in(id, 0) && tally().outs == 2);
    ANSWER(lend(id, 0), NOG_DONE);
    TEST(bytes[17] == 17 && bytes[18] == 18);
}

/* the hand clears the bit of a page on loan; coming back does not set it */
static void test_referenced(void) {
    int32_t id = open_with(8, (nog_failure){0});
    load_each(0, 4);
    ANSWER(lend(id, 3), NOG_DONE);
    ANSWER(load(4), NOG_DONE);
    TEST(frame_of(id, 3).is_referenced == 0);
    ANSWER(nog_give_back(&m, id, 3, bytes, PAGE), NOG_DONE);
    TEST(frame_of(id, 3).is_referenced == 0 && is_in(id, 3));
    ANSWER(lend(id, 3), NOG_DONE);
    TEST(frame_of(id, 3).is_referenced == 1);
    ANSWER(back(id, 3), NOG_DONE);
    TEST(frame_of(id, 3).is_referenced == 1);
}

/* ---- segments that end, areas that are taken away, locks ---- */

static void test_end(void) {
    nog_machine copy = NOG_MACHINE_INITIALIZER;
    int32_t id = open_with(3, (nog_failure){0}), next;
    for (uint32_t page = 0; page < 3; page++) ANSWER(lend(id, page), NOG_DONE);
    ANSWER(nog_remove(&m, USER, id), NOG_DONE);
    /* it is only marked, so its loans continue */
    TEST(frame_of(id, 1).is_lent == 1);
    ANSWER(nog_give_back(&m, id, 1, bytes, PAGE), NOG_DONE);
    ANSWER(lend(id, 1), NOG_DONE);
    ANSWER(nog_snapshot(&m, &copy), NOG_LENT);
    ANSWER(nog_exit(&m, USER), NOG_DONE);
    TEST(tally().resident == 0);
    for (uint32_t page = 0; page < 3; page++) ANSWER(nog_give_back(&m, id, page, bytes, PAGE), NOG_EINVAL);
    ANSWER(nog_snapshot(&m, &copy), NOG_DONE);
    ANSWER(nog_close(&copy), NOG_DONE);
    ANSWER(nog_get(&m, ROOT, NOG_PRIVATE, PAGE, 0600, 0, &next), NOG_DONE);
    TEST(next != id);
    ANSWER(back(next, 0), NOG_OUT_OF_RANGE);
    bytes[0] = UNTOUCHED;
    ANSWER(lend(next, 0), NOG_DONE);
    TEST(bytes[0] == 0);
    ANSWER(lend(id, 0), NOG_EINVAL);
}

/* pages on loan stay where they are while an area is taken away, and their slots there are freed */
static void test_swapoff(void) {
    static const nog_area two[] = {{NOG_RAM, 16}, {NOG_RAM, 16}};
    nog_flushed flushed = {0};
    ANSWER(nog_open(&m, &limits, two, 2, &none, 0, processes, 3), NOG_DONE);
    int32_t id = attached(8);
    for (uint32_t page = 0; page < 8; page++) ANSWER(store(page, (uint8_t)(page + 1)), NOG_DONE);
    ANSWER(nog_flush(&m, 4, &flushed), NOG_DONE);
    for (uint32_t page = 4; page < 8; page++) ANSWER(lend(id, page), NOG_DONE);
    TEST(flushed.written == 4 && tally().dirty == 0);
    ANSWER(nog_swapoff(&m, ROOT, 0), NOG_DONE);
    for (uint32_t page = 4; page < 8; page++) TEST(frame_of(id, page).is_lent == 1 && frame_of(id, page).is_dirty == 1);
    bytes[0] = 88;
    ANSWER(nog_give_back(&m, id, 7, bytes, PAGE), NOG_DONE);
    for (uint32_t page = 4; page < 7; page++) ANSWER(back(id, page), NOG_DONE);
    for (uint32_t page = 0; page < 8; page++) {
        uint8_t byte = 0;
        ANSWER(nog_load(&m, USER, at(page), &byte, 1), NOG_DONE);
        TEST(byte == (page < 7 ? page + 1 : 88));
    }
}

/* a locked page may be lent, and is never the leaver; it may be locked and unlocked while it is on loan */
static void test_locked(void) {
    int32_t locked = -1, id = open_with(8, (nog_failure){0});
    ANSWER(nog_get(&m, ROOT, NOG_PRIVATE, PAGE, 0600, 0, &locked), NOG_DONE);
    ANSWER(nog_lock(&m, ROOT, locked), NOG_DONE);
    ANSWER(lend(locked, 0), NOG_DONE);
    TEST(frame_of(locked, 0).is_locked == 1 && frame_of(locked, 0).is_lent == 1);
    load_each(0, 3);
    TEST(leaver() == 0);
    ANSWER(load(3), NOG_DONE);
    TEST(is_in(locked, 0) && !is_in(id, 0) && leaver() == 1);
    /* the hand passes over a locked page, whose bit it does not clear */
    TEST(frame_of(locked, 0).is_referenced == 1 && frame_of(id, 1).is_referenced == 0);
    ANSWER(nog_unlock(&m, ROOT, locked), NOG_DONE);
    TEST(frame_of(locked, 0).is_locked == 0 && frame_of(locked, 0).is_lent == 1);
    load_each(4, 6);
    /* all are referenced, and the hand has come round to the page that was locked */
    ANSWER(load(6), NOG_LENT);
    TEST(is_in(locked, 0));
    ANSWER(back(locked, 0), NOG_DONE);
    ANSWER(load(6), NOG_DONE);
    TEST(!is_in(locked, 0));
}

/* ---- random calls and loans ---- */

enum { SEGMENTS = 3, MOST_PAGES = 24, STEPS = 1000, RUNS = 100, MOST_FRAMES = 64, APART = 0x100000 };

/* a page as the guests see it: its bytes, which are the library's unless it is on loan */
static struct page { uint8_t bytes[PAGE]; int is_lent, is_changed; } plain[SEGMENTS][MOST_PAGES];
static struct { int32_t id; uint32_t pages; int is_locked; } segs[SEGMENTS];
static uint32_t frames;
static uint64_t seed;
static struct { unsigned done, lent, sigbus, loans, moved; } seen;

static uint32_t below(uint32_t most) {
    seed = seed * UINT64_C(6364136223846793005) + UINT64_C(1442695040888963407);
    return (uint32_t)(seed >> 33) % most;
}

static uint64_t place_of(uint32_t seg, uint32_t page) { return LOWEST + (uint64_t)seg * APART + (uint64_t)page * PAGE; }

static int loans_out(void) {
    int out = 0;
    for (int seg = 0; seg < SEGMENTS; seg++)
        for (uint32_t page = 0; page < segs[seg].pages; page++) out += plain[seg][page].is_lent;
    return out;
}

/* the frames in the order of the clock's hand, as the library shows them; `id` -1: it is free */
struct ring { nog_frame at[MOST_FRAMES]; uint32_t hand; };

static struct ring ring_now(void) {
    struct ring ring = {.hand = 0};
    for (uint32_t i = 0; i < frames; i++)
        if (nog_frame_at(&m, i, &ring.at[i]) != NOG_DONE) ring.at[i] = (nog_frame){.id = -1};
    return ring;
}

static nog_frame *in_ring(struct ring *ring, int32_t id, uint32_t page) {
    for (uint32_t i = 0; i < frames; i++)
        if (ring->at[i].id == id && ring->at[i].page == page) return &ring->at[i];
    return NULL;
}

/* the clock's rule, by plain steps from the hand on: the frame whose page leaves, null if one is free */
static nog_frame *victim(struct ring *ring, const nog_frame *pinned) {
    nog_frame *first = NULL;
    for (uint32_t i = 0; i < frames; i++) if (ring->at[i].id < 0) return NULL;
    for (uint32_t i = 0; i < frames; i++) {
        nog_frame *it = &ring->at[(ring->hand + i) % frames];
        if (it->is_locked || it == pinned) continue;
        if (!it->is_referenced) return it;
        if (!first) first = it;
    }
    return first;
}

static int is_barred(struct ring *ring, int32_t id, uint32_t page, const nog_frame *pinned) {
    const nog_frame *own = in_ring(ring, id, page), *out = own ? own : victim(ring, pinned);
    return out && out->is_lent;
}

/* the page comes in: its frame is the free one that is met first, or the victim's, and those before that lose their bits */
static nog_frame *visit(struct ring *ring, int32_t id, uint32_t page) {
    nog_frame *own = in_ring(ring, id, page), *out = own ? own : victim(ring, NULL);
    if (own) own->is_referenced = 1;
    if (own) return own;
    if (out) {
        int is_round = out->is_referenced != 0;
        uint32_t place = (uint32_t)(out - ring->at);
        for (uint32_t i = 0; i < frames; i++) {
            nog_frame *it = &ring->at[(ring->hand + i) % frames];
            if (it == out && !is_round) break;
            if (!it->is_locked) it->is_referenced = 0;
        }
        ring->hand = (place + 1) % frames;
    }
    for (uint32_t i = 0; !out; i++) if (ring->at[i].id < 0) out = &ring->at[i];
    *out = (nog_frame){.id = id, .page = page, .is_referenced = 1};
    return out;
}

/* what an access of one or two pages has to answer, if no pager fails */
static uint32_t wanted(uint32_t seg, uint32_t page, int is_two) {
    struct ring ring = ring_now();
    if (is_barred(&ring, segs[seg].id, page, NULL)) return NOG_LENT;
    if (!is_two) return NOG_DONE;
    const nog_frame *first = visit(&ring, segs[seg].id, page);
    return is_barred(&ring, segs[seg].id, page + 1, first) ? NOG_LENT : NOG_DONE;
}

/* each page on loan is in a frame that says so, and no other frame does */
static void test_loans(void) {
    struct ring ring = ring_now();
    int lent = 0;
    for (uint32_t i = 0; i < frames; i++) lent += ring.at[i].id >= 0 && ring.at[i].is_lent;
    TEST(lent == loans_out());
    for (uint32_t seg = 0; seg < SEGMENTS; seg++)
        for (uint32_t page = 0; page < segs[seg].pages; page++) {
            const nog_frame *frame = plain[seg][page].is_lent ? in_ring(&ring, segs[seg].id, page) : NULL;
            if (plain[seg][page].is_lent) TEST(frame && frame->is_lent);
        }
}

static uint8_t *byte_of(uint32_t seg, uint64_t place) { return &plain[seg][place / PAGE].bytes[place % PAGE]; }

/* the code is the wanted one, or a pager failed; the calls are counted as the header says */
static void judge(uint32_t code, uint32_t want, int is_two, nog_tally before) {
    nog_tally after = tally();
    uint64_t counted = after.events - before.events;
    if (code == NOG_SIGBUS) TEST(after.failures > before.failures);
    else TEST(after.failures == before.failures);
    if (code != NOG_SIGBUS) ANSWER(code, want);
    if (code == NOG_SIGBUS && is_two && loans_out()) TEST(counted <= 1);
    else TEST(counted == (code != NOG_LENT));
    seen.done += code == NOG_DONE;
    seen.lent += code == NOG_LENT;
    seen.sigbus += code == NOG_SIGBUS;
}

/* one access of 1 to 64 bytes; its bytes are the plain ones */
static void access(uint32_t seg) {
    uint8_t given[64], taken[64];
    uint32_t len = 1 + below(64), kind = below(5);
    if (kind == 2) len = 8;
    uint64_t place = below(segs[seg].pages * PAGE - len + 1), sum = 0, was = 0;
    if (below(4) == 0 && place / PAGE + 1 < segs[seg].pages) place = (place / PAGE + 1) * PAGE - 1 - below(len);
    const uint64_t at_byte = place_of(seg, 0) + place;
    const int is_two = place / PAGE != (place + len - 1) / PAGE;
    const uint32_t want = wanted(seg, (uint32_t)(place / PAGE), is_two);
    const nog_tally before = tally();
    uint32_t code = NOG_DONE;
    for (uint32_t i = 0; i < len; i++) given[i] = (uint8_t)below(256);
    for (uint32_t i = 0; i < 8; i++) sum |= (uint64_t)given[i] << 8 * i;
    if (kind == 0) code = nog_load(&m, USER, at_byte, taken, len);
    if (kind == 1) code = nog_store(&m, USER, at_byte, given, len);
    if (kind == 2) code = nog_add(&m, USER, at_byte, sum, &was);
    if (kind == 3) code = nog_exchange(&m, USER, at_byte, given, len, taken, len);
    if (kind == 4) {
        uint8_t expected[64];
        for (uint32_t i = 0; i < len; i++) expected[i] = *byte_of(seg, place + i);
        code = nog_compare_exchange(&m, USER, at_byte, expected, len, given, len, taken, len);
    }
    judge(code, want, is_two, before);
    if (code != NOG_DONE) return;
    for (uint32_t i = 0; i < len && kind == 2; i++) taken[i] = (uint8_t)(was >> 8 * i);
    for (uint32_t i = 0; i < len && kind != 1; i++) TEST(taken[i] == *byte_of(seg, place + i));
    sum += was;
    for (uint32_t i = 0; i < len && kind == 2; i++) given[i] = (uint8_t)(sum >> 8 * i);
    for (uint32_t i = 0; i < len && kind; i++) *byte_of(seg, place + i) = given[i];
}

static void give(uint32_t seg, uint32_t page) {
    struct page *it = &plain[seg][page];
    uint32_t want = it->is_lent ? NOG_DONE : NOG_OUT_OF_RANGE;
    int is_with = it->is_changed || below(2);
    ANSWER(nog_give_back(&m, segs[seg].id, page, is_with ? it->bytes : NULL, is_with ? PAGE : 0), want);
    if (want == NOG_DONE) it->is_lent = it->is_changed = 0;
}

static void take(uint32_t seg, uint32_t page) {
    const nog_tally before = tally();
    const uint32_t want = wanted(seg, page, 0), code = nog_lend(&m, segs[seg].id, page, bytes, PAGE);
    const nog_tally after = tally();
    TEST(code == want || (code == NOG_SIGBUS && after.failures > before.failures));
    TEST(after.events == before.events);
    if (code != NOG_DONE) return;
    TEST(memcmp(bytes, plain[seg][page].bytes, PAGE) == 0);
    plain[seg][page].is_lent = 1;
    seen.loans++;
}

/* a guest changes the copy that the host holds */
static void guest(uint32_t seg, uint32_t page) {
    if (!plain[seg][page].is_lent) return;
    for (int i = 0; i < 20; i++) plain[seg][page].bytes[below(PAGE)] = (uint8_t)below(256);
    plain[seg][page].is_changed = 1;
}

/* the leaver is the clock's; once it is back, bringing another page in evicts it and no other */
static void swap_leaver(uint32_t seg, uint32_t page) {
    struct ring ring = ring_now(), after;
    nog_frame shown;
    const nog_frame *out = victim(&ring, NULL);
    uint32_t code = nog_leaver(&m, &shown), from = 0;
    ANSWER(code, out ? NOG_DONE : NOG_OUT_OF_RANGE);
    if (!out || code != NOG_DONE) return;
    TEST(memcmp(&shown, out, sizeof shown) == 0);
    while (from + 1 < SEGMENTS && segs[from].id != shown.id) from++;
    if (shown.is_lent) give(from, shown.page);
    if (in_ring(&ring, segs[seg].id, page)) return;
    const nog_tally before = tally();
    take(seg, page);
    if (tally().failures > before.failures) return;
    after = ring_now();
    TEST(!in_ring(&after, shown.id, shown.page) && in_ring(&after, segs[seg].id, page));
    for (uint32_t i = 0; i < frames; i++)
        if (&ring.at[i] != out) TEST(in_ring(&after, ring.at[i].id, ring.at[i].page) != NULL);
    seen.moved++;
}

/* ends a segment, with the loans of its pages, and makes another */
static void make_anew(uint32_t seg) {
    uint64_t got = 0;
    if (segs[seg].pages) {
        ANSWER(nog_detach(&m, USER, place_of(seg, 0)), NOG_DONE);
        ANSWER(nog_remove(&m, USER, segs[seg].id), NOG_DONE);
        for (uint32_t page = 0; page < segs[seg].pages; page++) ANSWER(back(segs[seg].id, page), NOG_EINVAL);
    }
    memset(plain[seg], 0, sizeof plain[seg]);
    segs[seg].is_locked = 0;
    segs[seg].pages = seg == 0 ? 1 : MOST_PAGES / 2 + below(MOST_PAGES / 2 + 1);
    ANSWER(nog_get(&m, USER, NOG_PRIVATE, (uint64_t)segs[seg].pages * PAGE, 0600, 0, &segs[seg].id), NOG_DONE);
    ANSWER(nog_attach(&m, USER, segs[seg].id, place_of(seg, 0), 0, &got), NOG_DONE);
}

static void host(uint32_t kind) {
    nog_machine copy = NOG_MACHINE_INITIALIZER;
    nog_flushed flushed;
    if (kind == 0) ANSWER(nog_flush(&m, below(frames), &flushed), NOG_DONE);
    if (kind == 1) {
        ANSWER(nog_snapshot(&m, below(2) ? &m : &copy), loans_out() ? NOG_LENT : NOG_DONE);
        if (copy.is_open) ANSWER(nog_close(&copy), NOG_DONE);
    }
    if (kind == 2) {
        ANSWER(segs[0].is_locked ? nog_unlock(&m, ROOT, segs[0].id) : nog_lock(&m, ROOT, segs[0].id), NOG_DONE);
        segs[0].is_locked = !segs[0].is_locked;
    }
    if (kind == 3) make_anew(below(SEGMENTS));
    if (kind == 4 && below(20) == 0) {
        const nog_tally before = tally();
        const uint32_t code = nog_swapoff(&m, ROOT, 1);
        TEST(code == NOG_DONE || code == NOG_EINVAL || (code == NOG_EIO && tally().failures > before.failures));
    }
}

static void step(void) {
    const uint32_t kind = below(40), seg = below(SEGMENTS), page = below(segs[seg].pages);
    if (kind < 18) access(seg);
    else if (kind < 22) take(seg, page);
    else if (kind < 32) give(seg, page);
    else if (kind < 35) guest(seg, page);
    else if (kind < 38) swap_leaver(seg, page);
    else host(below(5));
}

/* everything comes back, and every byte is the plain one */
static void compare_all(void) {
    uint64_t done;
    for (uint32_t seg = 0; seg < SEGMENTS; seg++)
        for (uint32_t page = 0; page < segs[seg].pages; page++) if (plain[seg][page].is_lent) give(seg, page);
    TEST(loans_out() == 0);
    for (uint32_t seg = 0; seg < SEGMENTS; seg++)
        for (uint32_t page = 0; page < segs[seg].pages; page++) {
            uint32_t code = nog_read(&m, USER, place_of(seg, page), bytes, PAGE, &done);
            if (code == NOG_SIGBUS) code = nog_read(&m, USER, place_of(seg, page), bytes, PAGE, &done);
            ANSWER(code, NOG_DONE);
            TEST(memcmp(bytes, plain[seg][page].bytes, PAGE) == 0);
        }
}

/* a run has its own seed and frames; one read or write fails, in each pair of runs the next one */
static void test_run(uint32_t run) {
    static const nog_area areas[] = {{NOG_RAM, 128}, {NOG_SPARSE, 128}};
    const nog_failure failure = {.is_write = run % 2, .call = run / 2 + 1};
    nog_limits mine = {.shmmax = 1 << 20, .shmmni = 8, .shmall = 128, .memlock = 1};
    seed = run + 1;
    mine.frames = frames = run % 8 == 7 ? 64 - run % 16 : 4 + run % 11;
    memset(segs, 0, sizeof segs);
    ANSWER(nog_open(&m, &mine, areas, 2, &failure, 1, processes, 3), NOG_DONE);
    for (uint32_t seg = 0; seg < SEGMENTS; seg++) make_anew(seg);
    for (int i = 0; i < STEPS; i++) {
        step();
        if (i % 8 == 0) test_loans();
    }
    compare_all();
}

int main(int count, char **words) {
    const int runs = count > 1 ? atoi(words[1]) : RUNS;
    test_lend();
    test_lend_sigbus();
    test_give_back();
    test_frames();
    test_page_at();
    test_access_of_lent();
    test_no_room();
    test_second_page();
    test_leaver();
    test_dirty();
    test_referenced();
    test_end();
    test_swapoff();
    test_locked();
    for (int run = 0; run < runs; run++) test_run((uint32_t)run);
    /* each kind of answer came often enough to mean something */
    TEST(seen.done > 50U * (unsigned)runs && seen.lent > 20U * (unsigned)runs && seen.loans > 50U * (unsigned)runs);
    TEST(seen.moved > 5U * (unsigned)runs && (runs < RUNS || seen.sigbus > 20));
    ANSWER(nog_close(&m), NOG_DONE);
    return finish("loans");
}

/* large: what only a large machine shows. A call that gave up as out of memory at some size would keep every rule, so
   these tests make 5,000 segments, 300 pieces, snapshots of both, 70,000 segments one after the other, a copy of
   1 MiB, a segment of 64 GiB and one of 1 TiB with pages far apart, and let calls of the third and the fourth swap area fail. */
#include "testing.h"

enum { SEGMENTS = 5000, PIECES = 300, PAIRS = 70000, LIVES_OF_AN_INDEX = 65536, SEQUENCE = 32768, MEBIBYTE = 1 << 20 };

static const nog_limits wide = {.shmmax = MEBIBYTE, .shmmni = 32768, .shmall = 1 << 20, .frames = 64, .memlock = 1,
                                .most_pieces = 1000, .most_processes = 4, .most_slots = 1 << 20};
static const nog_area sparse = {NOG_SPARSE, 1 << 20};
static nog_machine machine = NOG_MACHINE_INITIALIZER, saved = NOG_MACHINE_INITIALIZER;

static void open_wide(void) {
    ANSWER(nog_open(&machine, &wide, &sparse, 1, &none, 0, processes, 3), NOG_DONE);
}

static int32_t make(uint64_t size) {
    int32_t id = -1;
    ANSWER(nog_get(&machine, ROOT, NOG_PRIVATE, size, 0600, 0, &id), NOG_DONE);
    return id;
}

static void test_segments(void) {
    nog_segment segment, other;
    uint32_t indexes = 0;
    open_wide();
    for (int32_t i = 0; i < SEGMENTS; i++) TEST(make((uint64_t)(i % 7) + 1) == i);
    ANSWER(nog_snapshot(&machine, &saved), NOG_DONE);
    ANSWER(nog_indexes(&saved, &indexes), NOG_DONE);
    TEST(indexes == SEGMENTS);
    for (int32_t i = 0; i < SEGMENTS; i++) {
        memset(&segment, 0, sizeof segment);
        memset(&other, 0, sizeof other);
        ANSWER(nog_stat(&saved, ROOT, i, &segment), NOG_DONE);
        ANSWER(nog_stat(&machine, ROOT, i, &other), NOG_DONE);
        TEST(segment.size == (uint64_t)(i % 7) + 1 && segment.ctime == (uint64_t)i + 1 && memcmp(&segment, &other, sizeof other) == 0);
    }
}

static void test_pieces(void) {
    nog_piece piece, other;
    open_wide();
    int32_t id = make(2 * PAGE);
    for (uint64_t i = 0; i < PIECES; i++) {
        uint64_t at = 0;
        ANSWER(nog_attach(&machine, ROOT, id, 0, i % 2 ? NOG_RDONLY : 0, &at), NOG_DONE);
        TEST(at == LOWEST + 2 * PAGE * i);
    }
    ANSWER(nog_snapshot(&machine, &saved), NOG_DONE);
    for (uint32_t i = 0; i < PIECES; i++) {
        memset(&piece, 0, sizeof piece);
        memset(&other, 0, sizeof other);
        ANSWER(nog_piece_at(&saved, ROOT, i, &piece), NOG_DONE);
        ANSWER(nog_piece_at(&machine, ROOT, i, &other), NOG_DONE);
        TEST(piece.base == LOWEST + 2 * PAGE * (uint64_t)i && piece.pages == 2 && piece.is_writable == !(i % 2));
        TEST(memcmp(&piece, &other, sizeof other) == 0);
    }
    ANSWER(nog_piece_at(&saved, ROOT, PIECES, &piece), NOG_OUT_OF_RANGE);
}

/* an index serves 65,536 segments, one after the other, and then the next index does */
static void test_pairs(void) {
    ANSWER(open_usual(&machine), NOG_DONE);
    for (int32_t i = 0; i < PAIRS; i++) {
        int32_t id = make(1);
        TEST(id == i / LIVES_OF_AN_INDEX + SEQUENCE * (i % LIVES_OF_AN_INDEX));
        ANSWER(nog_remove(&machine, ROOT, id), NOG_DONE);
    }
}

static void test_copy(void) {
    static uint8_t bytes[MEBIBYTE], found[MEBIBYTE];
    uint64_t from = 0, to = 0, done = 0;
    int32_t own, others = -1;
    open_wide();
    for (size_t i = 0; i < MEBIBYTE; i++) bytes[i] = (uint8_t)(i * 2654435761u >> 13);
    own = make(MEBIBYTE);
    ANSWER(nog_get(&machine, USER, NOG_PRIVATE, MEBIBYTE, 0600, 0, &others), NOG_DONE);
    ANSWER(nog_attach(&machine, ROOT, own, 0, 0, &from), NOG_DONE);
    ANSWER(nog_attach(&machine, USER, others, 0x50000000, 0, &to), NOG_DONE);
    ANSWER(nog_write(&machine, ROOT, from, bytes, MEBIBYTE, &done), NOG_DONE);
    TEST(done == MEBIBYTE);
    done = 0;
    ANSWER(nog_copy(&machine, ROOT, from, USER, to, MEBIBYTE, &done), NOG_DONE);
    TEST(done == MEBIBYTE);
    ANSWER(nog_read(&machine, USER, to, found, MEBIBYTE, &done), NOG_DONE);
    TEST(memcmp(bytes, found, MEBIBYTE) == 0);
}

/* two processes share pages of a segment of 64 GiB in 64 frames; attached a second time, it has the pages that were stored */
static void test_large_segment(void) {
    static const nog_limits huge = {.shmmax = UINT64_C(1) << 36, .shmmni = 1, .shmall = 1 << 24, .frames = 64, .memlock = 1,
                                    .most_pieces = 2, .most_processes = 3, .most_slots = 1 << 24};
    static const nog_area slots = {NOG_SPARSE, 1 << 24};
    uint64_t at = 0, number = 0;
    ANSWER(nog_open(&machine, &huge, &slots, 1, &none, 0, processes, 3), NOG_DONE);
    int32_t id = -1;
    ANSWER(nog_get(&machine, ROOT, NOG_PRIVATE, huge.shmmax, 0666, 0, &id), NOG_DONE);
    for (int times = 0; times < 2; times++) {
        ANSWER(nog_attach(&machine, ROOT, id, 0, 0, &at), NOG_DONE);
        ANSWER(nog_attach(&machine, USER, id, LOWEST + PAGE, 0, &at), NOG_DONE);
        for (uint64_t page = 0; page < 1000; page++) {
            ANSWER(nog_add(&machine, ROOT, LOWEST + page * PAGE, page + 1, &number), NOG_DONE);
            TEST(number == (page + 1) * (uint64_t)times);
        }
        for (uint64_t page = 0; page < 1000; page++) {
            ANSWER(nog_load(&machine, USER, LOWEST + PAGE + page * PAGE, &number, 8), NOG_DONE);
            TEST(number == (page + 1) * (uint64_t)(times + 1));
        }
        number = 1;
        ANSWER(nog_load(&machine, USER, LOWEST + PAGE + 5000 * PAGE, &number, 8), NOG_DONE);
        TEST(number == 0);
        ANSWER(nog_detach(&machine, USER, LOWEST + PAGE), NOG_DONE);
        ANSWER(nog_detach(&machine, ROOT, LOWEST), NOG_DONE);
    }
}

/* a segment of 1 TiB of which 1,000 pages are stored, far from each other and the last one first */
static void test_spread_pages(void) {
    enum { SPREAD = 1000, APART = (1 << 28) / SPREAD };
    static const nog_limits vast = {.shmmax = UINT64_C(1) << 40, .shmmni = 1, .shmall = 1 << 28, .frames = 64, .memlock = 1,
                                    .most_pieces = 2, .most_processes = 3, .most_slots = 1 << 28};
    static const nog_area slots = {NOG_SPARSE, 1 << 28};
    uint64_t at = 0, number = 0;
    ANSWER(nog_open(&machine, &vast, &slots, 1, &none, 0, processes, 3), NOG_DONE);
    int32_t id = -1;
    ANSWER(nog_get(&machine, ROOT, NOG_PRIVATE, vast.shmmax, 0666, 0, &id), NOG_DONE);
    for (uint64_t times = 0; times < 2; times++) {
        ANSWER(nog_attach(&machine, ROOT, id, 0, 0, &at), NOG_DONE);
        for (uint64_t i = SPREAD; i-- > 0;) {
            uint64_t page = times == 0 && i == SPREAD - 1 ? (1 << 28) - 1 : i * APART;
            ANSWER(nog_add(&machine, ROOT, at + page * PAGE, i + 1, &number), NOG_DONE);
            TEST(number == (times == 0 || i == SPREAD - 1 ? 0 : i + 1));
        }
        ANSWER(nog_snapshot(&machine, &saved), NOG_DONE);
        for (uint64_t i = 0; i < SPREAD; i++) {
            uint64_t same = 1, near = 1;
            ANSWER(nog_load(&machine, ROOT, at + i * APART * PAGE, &number, 8), NOG_DONE);
            TEST(number == (i == SPREAD - 1 ? times * (i + 1) : (times + 1) * (i + 1)));
            ANSWER(nog_load(&saved, ROOT, at + i * APART * PAGE, &same, 8), NOG_DONE);
            TEST(same == number);
            ANSWER(nog_load(&machine, ROOT, at + (i * APART + 1) * PAGE, &near, 8), NOG_DONE);
            TEST(near == 0);
        }
        ANSWER(nog_load(&machine, ROOT, at + ((UINT64_C(1) << 28) - 1) * PAGE, &number, 8), NOG_DONE);
        TEST(number == SPREAD);
        if (times == 0) ANSWER(nog_detach(&machine, ROOT, at), NOG_DONE);
    }
    ANSWER(nog_remove(&machine, ROOT, id), NOG_DONE);
    ANSWER(nog_detach(&machine, ROOT, at), NOG_DONE);
    nog_usage sums;
    ANSWER(nog_info(&machine, &sums), NOG_DONE);
    TEST(sums.pages == 0 && sums.resident == 0 && sums.swapped == 0);
}

/* each area has one slot but the last, so the page that is written out next goes to the next area */
static void flush(nog_machine *of, uint64_t written, uint64_t failed) {
    nog_flushed flushed = {9, 9};
    ANSWER(nog_flush(of, 1, &flushed), NOG_DONE);
    test(flushed.written == written && flushed.failed == failed, __FILE__, __LINE__, "written and failed", 10 * flushed.written + flushed.failed);
}

/* the listed writes of the third and of the fourth area fail, and no other; a snapshot's fail as well */
static void test_later_areas(void) {
    static const nog_area areas[] = {{NOG_RAM, 1}, {NOG_RAM, 1}, {NOG_RAM, 1}, {NOG_MIRROR, 8}};
    static const nog_failure failures[] = {{2, 0, 1, 0, 1}, {3, 0, 1, 0, 2}, {3, 1, 1, 0, 2}};
    uint64_t at = 0;
    ANSWER(nog_open(&machine, &wide, areas, 4, failures, 3, processes, 3), NOG_DONE);
    int32_t id = make(6 * PAGE);
    ANSWER(nog_attach(&machine, ROOT, id, 0, 0, &at), NOG_DONE);
    for (uint64_t page = 0; page < 6; page++) ANSWER(nog_store(&machine, ROOT, at + page * PAGE, (const uint8_t *)"x", 1), NOG_DONE);
    flush(&machine, 1, 0);
    flush(&machine, 1, 0);
    ANSWER(nog_snapshot(&machine, &saved), NOG_DONE);
    for (nog_machine *it = &machine;; it = &saved) {
        flush(it, 0, 1);   /* the third area's first write */
        flush(it, 1, 0);
        flush(it, 1, 0);   /* the fourth area's first write */
        flush(it, 0, 1);   /* its second, on both sides */
        flush(it, 1, 0);
        flush(it, 1, 0);
        flush(it, 0, 0);
        if (it == &saved) break;
    }
}

int main(void) {
    test_segments();
    test_pieces();
    test_pairs();
    test_copy();
    test_large_segment();
    test_spread_pages();
    test_later_areas();
    ANSWER(nog_close(&saved), NOG_DONE);
    ANSWER(nog_close(&machine), NOG_DONE);
    return finish("large");
}

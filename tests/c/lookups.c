/* lookups: what a host asks and changes without a call. Each code of each function, in the order of the header, with the
   answers that the header gives, and that no question changes the machine. Then random calls, after which the destroyed
   segments are named, each once, and the pages of each segment add up to the sums of nog_info and nog_tally_of. */
#include <stdlib.h>
#include "testing.h"

enum { UNTOUCHED = 0xa5, MOST = 8 };

static nog_machine m = NOG_MACHINE_INITIALIZER, closed = NOG_MACHINE_INITIALIZER;
static int32_t kept = -1, gone = -1;

static int32_t made(uint32_t pages) {
    int32_t id = -1;
    ANSWER(nog_get(&m, USER, NOG_PRIVATE, (uint64_t)pages * PAGE, 0600, 0, &id), NOG_DONE);
    return id;
}

static uint64_t attached(uint32_t pid, int32_t id, uint64_t addr, uint32_t flags) {
    uint64_t at = 0;
    ANSWER(nog_attach(&m, pid, id, addr, flags, &at), NOG_DONE);
    return at;
}

static nog_tally tally(void) {
    nog_tally found = {0};
    ANSWER(nog_tally_of(&m, &found), NOG_DONE);
    return found;
}

/* a segment of six pages that USER has attached from the lowest address on, and one that is destroyed */
static void open_two(void) {
    ANSWER(open_usual(&m), NOG_DONE);
    kept = made(6);
    gone = made(1);
    ANSWER(nog_remove(&m, USER, gone), NOG_DONE);
    TEST(attached(USER, kept, 0, 0) == LOWEST);
}

static void test_piece_of(void) {
    nog_piece piece, before;
    open_two();
    /* pages 0 and 1, then 2 and 3 read-only, then 4 and 5 */
    ANSWER(nog_protect(&m, USER, LOWEST + 2 * PAGE, 2 * PAGE, 0), NOG_DONE);
    memset(&piece, UNTOUCHED, sizeof piece);
    before = piece;
    ANSWER(nog_piece_of(&closed, USER, LOWEST, &piece), NOG_CLOSED);
    ANSWER(nog_piece_of(&m, CHILD, LOWEST, &piece), NOG_ESRCH);
    ANSWER(nog_piece_of(&m, UNDECLARED, LOWEST, &piece), NOG_ESRCH);
    ANSWER(nog_piece_of(&m, USER, LOWEST - 1, &piece), NOG_SIGSEGV);
    ANSWER(nog_piece_of(&m, USER, LOWEST + 6 * PAGE, &piece), NOG_SIGSEGV);
    ANSWER(nog_piece_of(&m, USER, UINT64_MAX, &piece), NOG_SIGSEGV);
    ANSWER(nog_piece_of(&m, ROOT, LOWEST, &piece), NOG_SIGSEGV);
    TEST(memcmp(&piece, &before, sizeof piece) == 0);
    for (uint32_t page = 0; page < 6; page++)
        for (uint32_t last = 0; last < 2; last++) {
            ANSWER(nog_piece_of(&m, USER, LOWEST + page * PAGE + (last ? PAGE - 1 : 0), &piece), NOG_DONE);
            TEST(piece.base == LOWEST + page / 2 * 2 * PAGE && piece.first_page == page / 2 * 2 && piece.pages == 2);
            TEST(piece.segment == (uint32_t)kept && piece.is_writable == (page / 2 != 1) && piece.may_write == 1);
        }
    /* what covers an address is the piece that nog_piece_at lists */
    ANSWER(nog_piece_at(&m, USER, 1, &before), NOG_DONE);
    ANSWER(nog_piece_of(&m, USER, LOWEST + 3 * PAGE, &piece), NOG_DONE);
    TEST(memcmp(&piece, &before, sizeof piece) == 0);
}

static void test_segment_of(void) {
    nog_segment segment, before, stated;
    open_two();
    memset(&segment, UNTOUCHED, sizeof segment);
    before = segment;
    ANSWER(nog_segment_of(&closed, kept, &segment), NOG_CLOSED);
    ANSWER(nog_segment_of(&m, -1, &segment), NOG_EINVAL);
    ANSWER(nog_segment_of(&m, INT32_MIN, &segment), NOG_EINVAL);
    ANSWER(nog_segment_of(&m, 2, &segment), NOG_EINVAL);
    ANSWER(nog_segment_of(&m, gone + 32768, &segment), NOG_EINVAL);
    ANSWER(nog_segment_of(&m, gone, &segment), NOG_EIDRM);
    TEST(memcmp(&segment, &before, sizeof segment) == 0);
    ANSWER(nog_segment_of(&m, kept, &segment), NOG_DONE);
    ANSWER(nog_stat(&m, USER, kept, &stated), NOG_DONE);
    TEST(memcmp(&segment, &stated, sizeof segment) == 0 && segment.id == kept && segment.nattch == 1);
    /* without a test of permission, and of one that is marked for removal too */
    ANSWER(nog_set(&m, USER, kept, 200, 201, 0), NOG_DONE);
    ANSWER(nog_remove(&m, USER, kept), NOG_DONE);
    ANSWER(nog_segment_of(&m, kept, &segment), NOG_DONE);
    TEST(segment.mode == 0 && segment.status == NOG_DEST && segment.key == 0);
    ANSWER(nog_detach(&m, USER, LOWEST), NOG_DONE);
    ANSWER(nog_segment_of(&m, kept, &segment), NOG_EIDRM);
    /* the next segment at the index has another identifier */
    TEST(made(1) == kept + 32768);
    ANSWER(nog_segment_of(&m, kept, &segment), NOG_EIDRM);
    ANSWER(nog_segment_of(&m, kept + 32768, &segment), NOG_DONE);
    TEST(segment.index == (uint32_t)kept);
}

/* a destroyed segment has another code than one that never was, under any rules */
static void test_segment_of_by_rules(void) {
    nog_limits linux_limits = limits;
    nog_segment segment;
    linux_limits.most_pieces = linux_limits.most_processes = linux_limits.most_slots = 64;
    linux_limits.rules = NOG_LINUX;
    ANSWER(nog_open(&m, &linux_limits, &ram, 1, &none, 0, processes, 3), NOG_DONE);
    gone = made(1);
    ANSWER(nog_remove(&m, USER, gone), NOG_DONE);
    ANSWER(nog_stat(&m, USER, gone, &segment), NOG_EINVAL);
    ANSWER(nog_segment_of(&m, gone, &segment), NOG_EIDRM);
}

static int are_same(const nog_limits *a, const nog_limits *b) { return memcmp(a, b, sizeof *a) == 0; }

static void test_limits_of(void) {
    nog_limits found, wanted = limits, large = {1, 2, 3, 9, 5, 6, 7, 64, NOG_FORK_MARKS};
    memset(&found, UNTOUCHED, sizeof found);
    ANSWER(nog_limits_of(&closed, &found), NOG_CLOSED);
    TEST(found.shmmax == UINT64_C(0xa5a5a5a5a5a5a5a5));
    ANSWER(open_usual(&m), NOG_DONE);
    ANSWER(nog_limits_of(&m, &found), NOG_DONE);
    wanted.most_pieces = 256;
    wanted.most_processes = 64;
    wanted.most_slots = 65536;
    TEST(are_same(&found, &wanted));
    ANSWER(nog_open(&m, &large, &ram, 1, &none, 0, processes, 3), NOG_DONE);
    ANSWER(nog_limits_of(&m, &found), NOG_DONE);
    TEST(are_same(&found, &large));
}

/* new limits of a machine with six pages reserved, and one of a segment of its own locked */
static void test_set_limits(void) {
    nog_limits found, before;
    int32_t locked, id = -1;
    open_two();
    ANSWER(nog_limits_of(&m, &before), NOG_DONE);
    ANSWER(nog_set_limits(&closed, 1, 1, 64, 1), NOG_CLOSED);
    locked = made(1);
    ANSWER(nog_lock(&m, ROOT, locked), NOG_DONE);
    ANSWER(nog_set_limits(&m, 0, 0, 0, UINT64_MAX), NOG_BAD_SHMMAX);
    ANSWER(nog_set_limits(&m, (UINT64_C(1) << 40) + 1, 0, 0, UINT64_MAX), NOG_BAD_SHMMAX);
    ANSWER(nog_set_limits(&m, 1, 0, 0, UINT64_MAX), NOG_BAD_SHMMNI);
    ANSWER(nog_set_limits(&m, 1, 32769, 0, UINT64_MAX), NOG_BAD_SHMMNI);
    ANSWER(nog_set_limits(&m, 1, 1, 0, UINT64_MAX), NOG_BAD_SHMALL);
    ANSWER(nog_set_limits(&m, 1, 1, (1 << 28) + 1, UINT64_MAX), NOG_BAD_SHMALL);
    ANSWER(nog_set_limits(&m, 1, 1, 1, UINT64_MAX), NOG_BAD_MEMLOCK);
    ANSWER(nog_set_limits(&m, 1, 1, 1, 3), NOG_BAD_MEMLOCK);
    /* seven pages are reserved and one is locked */
    ANSWER(nog_set_limits(&m, 1, 1, 6, 0), NOG_BAD_SHMALL);
    ANSWER(nog_set_limits(&m, 1, 1, 7, 0), NOG_BAD_MEMLOCK);
    ANSWER(nog_limits_of(&m, &found), NOG_DONE);
    TEST(are_same(&found, &before) && tally().events == 6);
    ANSWER(nog_set_limits(&m, 1, 1, 7, 1), NOG_DONE);
    ANSWER(nog_limits_of(&m, &found), NOG_DONE);
    before.shmmax = before.shmmni = before.memlock = 1;
    before.shmall = 7;
    TEST(are_same(&found, &before) && tally().events == 6 && tally().segments == 2);
    /* what exists stays, and later calls follow the new limits */
    ANSWER(nog_get(&m, USER, NOG_PRIVATE, 2, 0600, 0, &id), NOG_EINVAL);
    ANSWER(nog_get(&m, USER, NOG_PRIVATE, 1, 0600, 0, &id), NOG_ENOSPC);
    ANSWER(nog_set_limits(&m, 2 * PAGE, 4, 9, 2), NOG_DONE);
    ANSWER(nog_get(&m, USER, NOG_PRIVATE, 2 * PAGE + 1, 0600, 0, &id), NOG_EINVAL);
    ANSWER(nog_get(&m, USER, NOG_PRIVATE, 2 * PAGE, 0600, 0, &id), NOG_DONE);
    ANSWER(nog_get(&m, USER, NOG_PRIVATE, 1, 0600, 0, &gone), NOG_ENOSPC);
    ANSWER(nog_lock(&m, ROOT, id), NOG_ENOMEM);
    ANSWER(nog_unlock(&m, ROOT, locked), NOG_DONE);
    ANSWER(nog_lock(&m, ROOT, id), NOG_DONE);
}

static void pages_of(int32_t id, uint64_t resident, uint64_t swapped) {
    uint64_t found[2] = {UNTOUCHED, UNTOUCHED};
    ANSWER(nog_pages_of(&m, id, &found[0], &found[1]), NOG_DONE);
    TEST(found[0] == resident && found[1] == swapped);
}

/* a machine with one area of 64 slots gets others, whose slots count at once */
static void test_swapon(void) {
    const nog_area four = {NOG_RAM, 4}, mirror = {NOG_MIRROR, 4}, empty = {NOG_RAM, 0}, wrong = {4, 4}, most = {NOG_RAM, 65537};
    const nog_failure failures[] = {{.call = 1}, {.side = 1, .call = 1}, {.area = 1, .call = 1}, {.call = 0}};
    uint8_t byte = 0;
    uint64_t slots;
    open_two();
    slots = tally().slots;
    ANSWER(nog_swapon(&closed, &four, NULL, 0), NOG_CLOSED);
    ANSWER(nog_swapon(&m, &wrong, NULL, 0), NOG_OUT_OF_RANGE);
    for (uint32_t i = 1; i < 4; i++) ANSWER(nog_swapon(&m, &four, failures + i, 1), NOG_OUT_OF_RANGE);
    ANSWER(nog_swapon(&m, &empty, NULL, 0), NOG_BAD_AREA_SIZE);
    ANSWER(nog_swapon(&m, &most, NULL, 0), NOG_BAD_AREA_SIZE);
    TEST(tally().slots == slots);
    /* the bytes stay, also once the first area is gone */
    for (uint32_t page = 0; page < 6; page++) ANSWER(nog_store(&m, USER, LOWEST + page * PAGE, &(uint8_t){(uint8_t)(page + 1)}, 1), NOG_DONE);
    ANSWER(nog_swapoff(&m, ROOT, 0), NOG_ENOMEM);
    ANSWER(nog_swapon(&m, &mirror, failures + 1, 1), NOG_DONE);
    ANSWER(nog_swapon(&m, &four, NULL, 0), NOG_DONE);
    TEST(tally().slots == slots + 8);
    ANSWER(nog_swapoff(&m, ROOT, 0), NOG_DONE);
    TEST(tally().slots == 8);
    for (uint32_t page = 0; page < 6; page++) {
        ANSWER(nog_load(&m, USER, LOWEST + page * PAGE, &byte, 1), NOG_DONE);
        TEST(byte == page + 1);
    }
    /* the first read of the new area fails */
    ANSWER(nog_swapon(&m, &four, failures, 1), NOG_DONE);
    for (uint32_t i = 0; i < 4; i++) ANSWER(nog_swapon(&m, &four, NULL, 0), NOG_DONE);
    ANSWER(nog_swapon(&m, &four, NULL, 0), NOG_BAD_AREAS);
    TEST(tally().slots == 28);
}

static void test_pages_of(void) {
    uint64_t found[2] = {UNTOUCHED, UNTOUCHED};
    uint8_t byte = 1;
    open_two();
    ANSWER(nog_pages_of(&closed, kept, &found[0], &found[1]), NOG_CLOSED);
    ANSWER(nog_pages_of(&m, -1, &found[0], &found[1]), NOG_EINVAL);
    ANSWER(nog_pages_of(&m, gone, &found[0], &found[1]), NOG_EINVAL);
    ANSWER(nog_pages_of(&m, 2, &found[0], &found[1]), NOG_EINVAL);
    TEST(found[0] == UNTOUCHED && found[1] == UNTOUCHED);
    pages_of(kept, 0, 0);
    for (uint32_t page = 0; page < 6; page++) {
        ANSWER(nog_store(&m, USER, LOWEST + (uint64_t)(5 - page) * PAGE, &byte, 1), NOG_DONE);
        pages_of(kept, page < 4 ? page + 1 : 4, page < 4 ? 0 : page - 3);
    }
    /* a page that is in its slot and in a frame is resident */
    ANSWER(nog_load(&m, USER, LOWEST + 5 * PAGE, &byte, 1), NOG_DONE);
    pages_of(kept, 4, 2);
    pages_of(made(3), 0, 0);
}

static void test_loans(void) {
    uint64_t pages = UNTOUCHED;
    uint8_t bytes[PAGE];
    open_two();
    ANSWER(nog_loans(&closed, &pages), NOG_CLOSED);
    TEST(pages == UNTOUCHED);
    for (uint32_t page = 0; page < 3; page++) {
        ANSWER(nog_loans(&m, &pages), NOG_DONE);
        TEST(pages == page);
        ANSWER(nog_lend(&m, kept, page, bytes, PAGE), NOG_DONE);
    }
    ANSWER(nog_give_back(&m, kept, 1, NULL, 0), NOG_DONE);
    ANSWER(nog_loans(&m, &pages), NOG_DONE);
    TEST(pages == 2);
    ANSWER(nog_remove(&m, USER, kept), NOG_DONE);
    ANSWER(nog_exit(&m, USER), NOG_DONE);
    ANSWER(nog_loans(&m, &pages), NOG_DONE);
    TEST(pages == 0);
}

/* a range is attached as asked exactly if no byte of it fails */
static void test_is_attached(void) {
    uint64_t at = 0;
    open_two();
    ANSWER(nog_protect(&m, USER, LOWEST + 4 * PAGE, 2 * PAGE, 0), NOG_DONE);
    ANSWER(nog_failed_at(&m, USER, LOWEST, 6 * PAGE, 0, &at), NOG_OUT_OF_RANGE);
    ANSWER(nog_failed_at(&m, USER, LOWEST, 4 * PAGE, 1, &at), NOG_OUT_OF_RANGE);
    ANSWER(nog_failed_at(&m, USER, LOWEST, 4 * PAGE + 1, 1, &at), NOG_DONE);
    TEST(at == LOWEST + 4 * PAGE);
}

static void test_gone(void) {
    uint32_t told[3] = {0, 0, 0};
    int32_t id = UNTOUCHED, others[2];
    open_two();
    ANSWER(nog_gone(&closed, told, 3, &id), NOG_CLOSED);
    ANSWER(nog_gone(&m, NULL, 0, &id), NOG_TOO_FEW_COUNTS);
    ANSWER(nog_gone(&m, told, 1, &id), NOG_TOO_FEW_COUNTS);
    TEST(id == UNTOUCHED && told[0] == 0 && told[1] == 0);
    ANSWER(nog_gone(&m, told, 2, &id), NOG_DONE);
    TEST(id == gone && told[0] == 0 && told[1] == 1 && told[2] == 0);
    id = UNTOUCHED;
    ANSWER(nog_gone(&m, told, 2, &id), NOG_OUT_OF_RANGE);
    ANSWER(nog_gone(&m, told, 3, &id), NOG_OUT_OF_RANGE);
    TEST(id == UNTOUCHED && told[0] == 0 && told[1] == 1 && told[2] == 0);
    /* two at one index, then one below: by rising index, and the first of an index first */
    for (int i = 0; i < 2; i++) {
        others[i] = made(1);
        TEST(others[i] == gone + (i + 1) * 32768);
        ANSWER(nog_remove(&m, USER, others[i]), NOG_DONE);
    }
    ANSWER(nog_remove(&m, USER, kept), NOG_DONE);
    ANSWER(nog_gone(&m, told, 3, &id), NOG_DONE);
    TEST(id == others[0]);
    /* it is marked until its last piece goes */
    ANSWER(nog_exec(&m, USER), NOG_DONE);
    ANSWER(nog_gone(&m, told, 3, &id), NOG_DONE);
    TEST(id == kept);
    ANSWER(nog_gone(&m, told, 3, &id), NOG_DONE);
    TEST(id == others[1] && told[0] == 1 && told[1] == 3 && told[2] == 0);
    ANSWER(nog_gone(&m, told, 3, &id), NOG_OUT_OF_RANGE);
    /* counts that are too high name nothing */
    told[0] = UINT32_MAX;
    told[1] = 65536;
    ANSWER(nog_gone(&m, told, 3, &id), NOG_OUT_OF_RANGE);
    TEST(told[0] == UINT32_MAX && told[1] == 65536);
}

static uint64_t changes(uint32_t pid) {
    uint64_t found = UNTOUCHED;
    ANSWER(nog_changes(&m, pid, &found), NOG_DONE);
    return found;
}

/* the call raises the counts of these processes by these numbers */
#define RAISES(call, code, root, user, child) do { \
    uint64_t of_root = changes(ROOT), of_user = changes(USER), of_child = changes(CHILD); \
    ANSWER((call), (code)); \
    TEST(changes(ROOT) == of_root + (root) && changes(USER) == of_user + (user) && changes(CHILD) == of_child + (child)); \
} while (0)

static void test_changes(void) {
    nog_machine saved = NOG_MACHINE_INITIALIZER;
    nog_process process = {CHILD, 1, 0, 0};
    nog_flushed flushed;
    uint64_t count = UNTOUCHED, at, number;
    uint8_t bytes[2] = {1, 2}, before[2], page[PAGE];
    int32_t id;
    open_two();
    ANSWER(nog_changes(&closed, USER, &count), NOG_CLOSED);
    TEST(count == UNTOUCHED && changes(USER) == 1 && changes(ROOT) == 0 && changes(UNDECLARED) == 0);
    /* calls that may change the pieces of one process, and others that fail */
    RAISES(nog_attach(&m, USER, kept, 0, 0, &at), NOG_DONE, 0, 1, 0);
    RAISES(nog_attach(&m, USER, gone, 0, 0, &at), NOG_EIDRM, 0, 1, 0);
    RAISES(nog_detach(&m, USER, at), NOG_DONE, 0, 1, 0);
    RAISES(nog_detach(&m, USER, at), NOG_EINVAL, 0, 1, 0);
    RAISES(nog_protect(&m, USER, LOWEST, PAGE, 0), NOG_DONE, 0, 1, 0);
    RAISES(nog_protect(&m, USER, LOWEST + 5 * PAGE, 2 * PAGE, 0), NOG_ENOMEM, 0, 1, 0);
    RAISES(nog_unmap(&m, USER, LOWEST, PAGE), NOG_DONE, 0, 1, 0);
    RAISES(nog_fork(&m, ROOT, CHILD), NOG_DONE, 0, 0, 1);
    RAISES(nog_exec(&m, ROOT), NOG_DONE, 1, 0, 0);
    RAISES(nog_exit(&m, CHILD), NOG_DONE, 0, 0, 1);
    RAISES(nog_exec(&m, CHILD), NOG_ESRCH, 0, 0, 1);
    /* the others */
    RAISES(nog_get(&m, USER, NOG_PRIVATE, 1, 0600, 0, &id), NOG_DONE, 0, 0, 0);
    RAISES(nog_remove(&m, USER, id), NOG_DONE, 0, 0, 0);
    RAISES(nog_lock(&m, USER, gone), NOG_EIDRM, 0, 0, 0);
    RAISES(nog_store(&m, USER, LOWEST + PAGE, bytes, 2), NOG_DONE, 0, 0, 0);
    RAISES(nog_load(&m, USER, LOWEST, bytes, 2), NOG_SIGSEGV, 0, 0, 0);
    RAISES(nog_add(&m, USER, LOWEST + PAGE, 1, &number), NOG_DONE, 0, 0, 0);
    RAISES(nog_exchange(&m, USER, LOWEST + PAGE, bytes, 2, before, 2), NOG_DONE, 0, 0, 0);
    RAISES(nog_compare_exchange(&m, USER, LOWEST + PAGE, bytes, 2, bytes, 2, before, 2), NOG_DONE, 0, 0, 0);
    RAISES(nog_read(&m, USER, LOWEST + PAGE, page, PAGE, &number), NOG_DONE, 0, 0, 0);
    RAISES(nog_set_user(&m, USER, 300, 301), NOG_DONE, 0, 0, 0);
    RAISES(nog_flush(&m, 9, &flushed), NOG_DONE, 0, 0, 0);
    RAISES(nog_set_time(&m, 77), NOG_DONE, 0, 0, 0);
    /* pid by pid: a process that leaves and joins again continues its count */
    RAISES(nog_dismiss(&m, CHILD), NOG_DONE, 0, 0, 0);
    RAISES(nog_admit(&m, &process), NOG_DONE, 0, 0, 0);
    /* pids with one remainder share a count; a snapshot has the same ones */
    TEST(changes(USER + 64) == changes(USER) && changes(USER + 1) != changes(USER));
    ANSWER(nog_snapshot(&m, &saved), NOG_DONE);
    RAISES(nog_exec(&m, USER), NOG_DONE, 0, 1, 0);
    ANSWER(nog_changes(&saved, USER, &count), NOG_DONE);
    TEST(count + 1 == changes(USER));
    ANSWER(nog_close(&saved), NOG_DONE);
}

/* ---- random calls ---- */

static uint64_t seed = 1;

static uint32_t chance(uint32_t below) {
    seed = seed * UINT64_C(6364136223846793005) + UINT64_C(1442695040888963407);
    return (uint32_t)((seed >> 33) % below);
}

static struct { int32_t id; int is_removed; } live[MOST];
static uint32_t told[MOST], count;
static unsigned destroyed, named;

static int exists(int32_t id) {
    nog_segment segment;
    return nog_segment_of(&m, id, &segment) == NOG_DONE;
}

/* takes the destroyed segments out of the list: each is one of them, and named once */
static void read_notices(void) {
    int32_t id = -1;
    uint32_t code;
    while ((code = nog_gone(&m, told, MOST, &id)) == NOG_DONE) {
        uint32_t i = 0;
        while (i < count && live[i].id != id) i++;
        TEST(i < count && live[i].is_removed && !exists(id));
        if (i < count) live[i] = live[--count];
        named++;
    }
    TEST(code == NOG_OUT_OF_RANGE);
    for (uint32_t i = 0; i < count; i++) TEST(exists(live[i].id));
}

static void add_up(void) {
    nog_usage usage;
    uint64_t resident = 0, swapped = 0;
    ANSWER(nog_info(&m, &usage), NOG_DONE);
    for (uint32_t i = 0; i < count; i++) {
        uint64_t of_segment[2];
        ANSWER(nog_pages_of(&m, live[i].id, &of_segment[0], &of_segment[1]), NOG_DONE);
        resident += of_segment[0];
        swapped += of_segment[1];
    }
    TEST(usage.resident == resident && usage.swapped == swapped && tally().resident == resident);
}

static void step(void) {
    uint64_t at;
    nog_piece piece;
    uint8_t byte = 1;
    switch (chance(6)) {
    case 0:
        if (count < 4) live[count++].id = made(1 + chance(3)), live[count - 1].is_removed = 0;
        break;
    case 1:
        if (count) (void)nog_attach(&m, USER, live[chance(count)].id, 0, 0, &at);
        break;
    case 2:
        if (count) {
            uint32_t i = chance(count);
            destroyed += !live[i].is_removed;
            live[i].is_removed = 1;
            (void)nog_remove(&m, USER, live[i].id);
        }
        break;
    case 3:
        if (nog_piece_at(&m, USER, chance(4), &piece) == NOG_DONE) ANSWER(nog_detach(&m, USER, piece.base), NOG_DONE);
        break;
    default:
        (void)nog_store(&m, USER, LOWEST + (uint64_t)chance(8) * PAGE, &byte, 1);
    }
}

static void test_random(void) {
    ANSWER(open_usual(&m), NOG_DONE);
    for (int i = 0; i < 4000; i++) {
        step();
        if (chance(3) == 0) read_notices(), add_up();
    }
    ANSWER(nog_exit(&m, USER), NOG_DONE);
    read_notices();
    for (uint32_t i = 0; i < count; i++) TEST(!live[i].is_removed);
    TEST(named == destroyed && destroyed > 50);
}

int main(void) {
    test_piece_of();
    test_segment_of();
    test_segment_of_by_rules();
    test_limits_of();
    test_set_limits();
    test_swapon();
    test_pages_of();
    test_loans();
    test_is_attached();
    test_gone();
    test_changes();
    test_random();
    ANSWER(nog_close(&m), NOG_DONE);
    return finish("lookups");
}

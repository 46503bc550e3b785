/* calls: each function of the interface once where it is done, and each answer that is not a call's own: a closed handle,
   numbers out of range, a process that is not there, limits and a start that are refused. The replies are those of
   docs/MACHINE.md; that each call of a process gives them is the matter of conformance/library.c. */
#include <nogcuvema_names.h>
#include "testing.h"

enum { CALLS = 17, UNTOUCHED = 0xa5 };

/* all outputs of the calls, so that what was not written is seen */
struct outputs {
    int32_t id;
    uint64_t number;
    nog_segment segment;
    nog_tally tally;
    nog_flushed flushed;
    uint32_t indexes, is_writable;
    nog_frame frame;
    uint8_t bytes[PAGE];
};

static struct outputs untouched(void) {
    struct outputs out;
    memset(&out, UNTOUCHED, sizeof out);
    return out;
}

static void test_untouched(const struct outputs *out) {
    struct outputs fresh = untouched();
    TEST(memcmp(out, &fresh, sizeof fresh) == 0);
}

/* each call, by a process that can't make it: its code if the machine is closed or no process has the pid */
static void test_each_call(nog_machine *m, uint32_t pid, uint32_t code) {
    struct outputs out = untouched();
    ANSWER(nog_get(m, pid, NOG_PRIVATE, PAGE, 0600, 0, &out.id), code);
    ANSWER(nog_attach(m, pid, 0, 0, 0, &out.number), code);
    ANSWER(nog_detach(m, pid, LOWEST), code);
    ANSWER(nog_stat(m, pid, 0, &out.segment), code);
    ANSWER(nog_set(m, pid, 0, 1, 1, 0600), code);
    ANSWER(nog_remove(m, pid, 0), code);
    ANSWER(nog_lock(m, pid, 0), code);
    ANSWER(nog_unlock(m, pid, 0), code);
    ANSWER(nog_load(m, pid, LOWEST, out.bytes, 4), code);
    ANSWER(nog_store(m, pid, LOWEST, out.bytes, 4), code);
    ANSWER(nog_add(m, pid, LOWEST, 1, &out.number), code);
    ANSWER(nog_exchange(m, pid, LOWEST, (const uint8_t *)"abcd", 4, out.bytes, 4), code);
    ANSWER(nog_compare_exchange(m, pid, LOWEST, (const uint8_t *)"abcd", 4, (const uint8_t *)"wxyz", 4, out.bytes, 4), code);
    ANSWER(nog_fork(m, pid, CHILD), code);
    ANSWER(nog_exec(m, pid), code);
    ANSWER(nog_exit(m, pid), code);
    ANSWER(nog_swapoff(m, pid, 0), code);
    test_untouched(&out);
}

static void test_closed(nog_machine *m) {
    struct outputs out = untouched();
    test_each_call(m, ROOT, NOG_CLOSED);
    ANSWER(nog_read(m, ROOT, LOWEST, out.bytes, 100, &out.number), NOG_CLOSED);
    ANSWER(nog_write(m, ROOT, LOWEST, out.bytes, 100, &out.number), NOG_CLOSED);
    ANSWER(nog_copy(m, ROOT, LOWEST, USER, LOWEST, 100, &out.number), NOG_CLOSED);
    ANSWER(nog_absent_at(m, ROOT, LOWEST, 1, &out.number), NOG_CLOSED);
    ANSWER(nog_flush(m, 1, &out.flushed), NOG_CLOSED);
    ANSWER(nog_tally_of(m, &out.tally), NOG_CLOSED);
    ANSWER(nog_indexes(m, &out.indexes), NOG_CLOSED);
    ANSWER(nog_segment_at(m, 0, &out.segment), NOG_CLOSED);
    ANSWER(nog_calls(m, &out.number), NOG_CLOSED);
    ANSWER(nog_lend(m, 0, 0, out.bytes, PAGE), NOG_CLOSED);
    ANSWER(nog_give_back(m, 0, 0, out.bytes, PAGE), NOG_CLOSED);
    ANSWER(nog_give_back(m, 0, 0, out.bytes, 0), NOG_CLOSED);
    ANSWER(nog_lend(m, 0, 0, out.bytes, 0), NOG_CLOSED);
    ANSWER(nog_lend(m, 0, 0, out.bytes, PAGE - 1), NOG_CLOSED);
    ANSWER(nog_give_back(m, 0, 0, out.bytes, 1), NOG_CLOSED);
    ANSWER(nog_leaver(m, &out.frame), NOG_CLOSED);
    ANSWER(nog_frame_at(m, 0, &out.frame), NOG_CLOSED);
    ANSWER(nog_page_at(m, ROOT, LOWEST, &out.id, &out.indexes, &out.is_writable), NOG_CLOSED);
    ANSWER(nog_close(m), NOG_CLOSED);
    test_untouched(&out);
}

static void test_no_such_process(nog_machine *m) {
    struct outputs out = untouched();
    uint64_t calls = 0;
    ANSWER(open_usual(m), NOG_DONE);
    test_each_call(m, UNDECLARED, NOG_ESRCH);
    test_each_call(m, CHILD, NOG_ESRCH);
    ANSWER(nog_calls(m, &calls), NOG_DONE);
    TEST(calls == 2 * CALLS);
    ANSWER(nog_read(m, UNDECLARED, LOWEST, out.bytes, 100, &out.number), NOG_ESRCH);
    TEST(out.number == 0);
    ANSWER(nog_write(m, UNDECLARED, LOWEST, out.bytes, 100, &out.number), NOG_ESRCH);
    TEST(out.number == 0);
    out.number = 9;
    ANSWER(nog_copy(m, UNDECLARED, LOWEST, USER, LOWEST, 100, &out.number), NOG_ESRCH);
    TEST(out.number == 0);
}

/* ---- how a machine is opened ---- */

static void test_limits(nog_machine *m) {
    static const struct { nog_limits limits; uint32_t code; } table[] = {
        {{1, 1, 1, 2, 0, 0, 0, 0, 0}, NOG_DONE}, {{16777216, 4096, 65536, 4096, 4094, 0, 0, 0, 0}, NOG_DONE},
        {{0, 0, 0, 0, 9, 0, 0, 0, 0}, NOG_BAD_SHMMAX}, {{16777217, 1, 1, 2, 0, 0, 0, 0, 0}, NOG_BAD_SHMMAX},
        {{1, 0, 0, 0, 9, 0, 0, 0, 0}, NOG_BAD_SHMMNI}, {{1, 4097, 1, 2, 0, 0, 0, 0, 0}, NOG_BAD_SHMMNI},
        {{1, 1, 0, 0, 9, 0, 0, 0, 0}, NOG_BAD_SHMALL}, {{1, 1, 65537, 2, 0, 0, 0, 0, 0}, NOG_BAD_SHMALL},
        {{1, 1, 1, 1, 9, 0, 0, 0, 0}, NOG_BAD_FRAMES}, {{1, 1, 1, 4097, 0, 0, 0, 0, 0}, NOG_BAD_FRAMES},
        {{1, 1, 1, 2, 1, 0, 0, 0, 0}, NOG_BAD_MEMLOCK}, {{1, 1, 1, 4096, UINT64_MAX, 0, 0, 0, 0}, NOG_BAD_MEMLOCK},
        {{1, 1, 1, 2, 0, 1, 3, 64, 0}, NOG_DONE}, {{0, 0, 0, 0, 9, 0, 0, 1, 0}, NOG_BAD_SHMMAX},
        {{1, 0, 0, 0, 9, 0, 0, 1, 0}, NOG_BAD_SHMMNI}, {{1, 1, 0, 0, 9, 0, 0, 1, 0}, NOG_BAD_SHMALL},
        {{1, 1, 1, 1, 9, 0, 0, 1, 0}, NOG_BAD_FRAMES}, {{1, 1, 1, 2, 1, 0, 0, 1, 0}, NOG_BAD_MEMLOCK},
        {{1, 1, 1, 2, 0, 0, 0, 1, 0}, NOG_BAD_MOST_PIECES}, {{1, 1, 1, 2, 0, 1, 0, 0, 0}, NOG_BAD_MOST_PROCESSES},
        {{1, 1, 1, 2, 0, 1, 1, 0, 0}, NOG_BAD_MOST_SLOTS},
        {{1, 1, 1, 2, 0, 0, 0, 0, NOG_LINUX}, NOG_DONE}, {{1, 1, 1, 2, 0, 0, 0, 0, NOG_LINUX + 1}, NOG_BAD_RULES},
        {{1, 1, 1, 2, 0, 1, 1, 1, NOG_LINUX + 1}, NOG_BAD_RULES}, {{1, 1, 1, 2, 0, 1, 1, 0, NOG_LINUX + 1}, NOG_BAD_MOST_SLOTS} };
    for (size_t i = 0; i < sizeof table / sizeof *table; i++)
        ANSWER(nog_open(m, &table[i].limits, &ram, 1, &none, 0, processes, 3), table[i].code);
}

/* the largest limits, and one more of each */
static void test_largest(nog_machine *m) {
    static const nog_limits largest = {(uint64_t)1 << 40, 32768, 1 << 28, 1 << 24, (1 << 24) - 2, 65530, 32768, 1 << 28, NOG_LINUX};
    static const uint32_t codes[] = {NOG_BAD_SHMMAX, NOG_BAD_SHMMNI, NOG_BAD_SHMALL, NOG_BAD_FRAMES, NOG_BAD_MEMLOCK,
                                     NOG_BAD_MOST_PIECES, NOG_BAD_MOST_PROCESSES, NOG_BAD_MOST_SLOTS, NOG_BAD_RULES};
    nog_limits mine = largest;
    /* 2^24 frames have 2^36 bytes, which a host may not lend */
    mine.frames = 1024;
    mine.memlock = 1022;
    ANSWER(nog_open(m, &mine, &ram, 1, &none, 0, processes, 3), NOG_DONE);
    for (int i = 0; i < 9; i++) {
        mine = largest;
        uint64_t *numbers[] = {&mine.shmmax, &mine.shmmni, &mine.shmall, &mine.frames,
                               &mine.memlock, &mine.most_pieces, &mine.most_processes, &mine.most_slots, &mine.rules};
        *numbers[i] += 1;
        ANSWER(nog_open(m, &mine, &ram, 1, &none, 0, processes, 3), codes[i]);
    }
}

/* the limits of slots and of processes are the machine's own */
static void test_own_limits(nog_machine *m) {
    static const nog_limits mine = {65536, 16, 64, 8, 1, 4, 3, 70000, 0};
    static const nog_area slots = {NOG_SPARSE, 70000}, more = {NOG_SPARSE, 70001};
    nog_process four[4];
    for (uint32_t i = 0; i < 4; i++) four[i] = (nog_process){i + 1, i == 0, 0, 0};
    ANSWER(nog_open(m, &mine, &slots, 1, &none, 0, four, 3), NOG_DONE);
    ANSWER(nog_open(m, &mine, &more, 1, &none, 0, four, 3), NOG_BAD_AREA_SIZE);
    ANSWER(nog_open(m, &mine, &slots, 1, &none, 0, four, 4), NOG_BAD_PROCESSES);
}

static void test_areas(nog_machine *m) {
    static const nog_area one[] = {{NOG_SPARSE, 65536}, {NOG_MIRROR, 2}, {NOG_RAM, 0}, {NOG_RAM, 65537}, {0, 1}, {4, 1}};
    static const uint32_t codes[] = {NOG_DONE, NOG_DONE, NOG_BAD_AREA_SIZE, NOG_BAD_AREA_SIZE, NOG_OUT_OF_RANGE,
                                     NOG_OUT_OF_RANGE};
    nog_area many[9];
    for (int i = 0; i < 9; i++) many[i] = (nog_area){NOG_SPARSE, 1};
    for (int i = 0; i < 6; i++) ANSWER(nog_open(m, &limits, &one[i], 1, &none, 0, processes, 3), codes[i]);
    ANSWER(nog_open(m, &limits, many, 0, &none, 0, processes, 3), NOG_BAD_AREAS);
    ANSWER(nog_open(m, &limits, many, 8, &none, 0, processes, 3), NOG_DONE);
    ANSWER(nog_open(m, &limits, many, 9, &none, 0, processes, 3), NOG_BAD_AREAS);
}

static void test_failures(nog_machine *m) {
    static const nog_area areas[] = {{NOG_RAM, 1}, {NOG_MIRROR, 1}};
    static const struct { nog_failure failure; uint32_t code; } table[] = {
        {{0, 0, 0, 0, 1}, NOG_DONE}, {{0, 0, 1, 0, UINT64_MAX}, NOG_DONE}, {{1, 1, 0, 0, 1}, NOG_DONE},
        {{0, 1, 0, 0, 1}, NOG_OUT_OF_RANGE}, {{1, 2, 0, 0, 1}, NOG_OUT_OF_RANGE}, {{2, 0, 0, 0, 1}, NOG_OUT_OF_RANGE},
        {{0, 0, 0, 0, 0}, NOG_OUT_OF_RANGE} };
    for (size_t i = 0; i < sizeof table / sizeof *table; i++)
        ANSWER(nog_open(m, &limits, areas, 2, &table[i].failure, 1, processes, 3), table[i].code);
}

static void test_processes(nog_machine *m) {
    nog_process many[65];
    for (uint32_t i = 0; i < 65; i++) many[i] = (nog_process){i + 1, i == 0, 0, 0};
    ANSWER(nog_open(m, &limits, &ram, 1, &none, 0, many, 0), NOG_DONE);
    ANSWER(nog_open(m, &limits, &ram, 1, &none, 0, many, 64), NOG_DONE);
    ANSWER(nog_open(m, &limits, &ram, 1, &none, 0, many, 65), NOG_BAD_PROCESSES);
    many[1].pid = 1;
    ANSWER(nog_open(m, &limits, &ram, 1, &none, 0, many, 2), NOG_BAD_PID);
    many[1].pid = 0;
    ANSWER(nog_open(m, &limits, &ram, 1, &none, 0, many, 2), NOG_BAD_PID);
    many[1].pid = 2147483648;
    ANSWER(nog_open(m, &limits, &ram, 1, &none, 0, many, 2), NOG_BAD_PID);
    many[1].pid = 2147483647;
    ANSWER(nog_open(m, &limits, &ram, 1, &none, 0, many, 2), NOG_DONE);
}

/* of several faults the first is returned: limits, what is out of range, then areas and processes */
static void test_first_fault(nog_machine *m) {
    static const nog_limits no_frames = {1, 1, 1, 1, 0, 0, 0, 0, 0};
    static const nog_area strange = {4, 8}, large = {NOG_RAM, 65537};
    static const nog_failure far = {.area = 2, .call = 1};
    nog_process many[65];
    for (int i = 0; i < 65; i++) many[i] = (nog_process){0, 1, 0, 0};
    ANSWER(nog_open(m, &no_frames, &strange, 1, &far, 1, many, 65), NOG_BAD_FRAMES);
    ANSWER(nog_open(m, &limits, &strange, 1, &none, 0, many, 65), NOG_OUT_OF_RANGE);
    ANSWER(nog_open(m, &limits, &large, 1, &far, 1, many, 65), NOG_OUT_OF_RANGE);
    ANSWER(nog_open(m, &limits, &large, 0, &none, 0, many, 65), NOG_BAD_AREAS);
    ANSWER(nog_open(m, &limits, &large, 1, &none, 0, many, 65), NOG_BAD_AREA_SIZE);
    ANSWER(nog_open(m, &limits, &ram, 1, &none, 0, many, 65), NOG_BAD_PROCESSES);
    ANSWER(nog_open(m, &limits, &ram, 1, &none, 0, many, 64), NOG_BAD_PID);
}

/* an open that is refused leaves the machine that the handle had, and one that is done begins anew */
static void test_opened_again(nog_machine *m) {
    uint64_t calls = 0;
    ANSWER(open_usual(m), NOG_DONE);
    ANSWER(nog_exit(m, USER), NOG_DONE);
    ANSWER(nog_open(m, &limits, &ram, 0, &none, 0, processes, 3), NOG_BAD_AREAS);
    ANSWER(nog_calls(m, &calls), NOG_DONE);
    TEST(calls == 1);
    ANSWER(nog_exec(m, USER), NOG_ESRCH);
    ANSWER(open_usual(m), NOG_DONE);
    ANSWER(nog_calls(m, &calls), NOG_DONE);
    TEST(calls == 0);
    ANSWER(nog_exec(m, USER), NOG_DONE);
}

/* ---- a machine's calls ---- */

static void test_segments(nog_machine *m) {
    nog_segment s;
    int32_t id = -1;
    ANSWER(open_usual(m), NOG_DONE);
    ANSWER(nog_get(m, USER, 0x2a, 5000, 0640, NOG_CREAT | NOG_EXCL, &id), NOG_DONE);
    TEST(id == 0);
    ANSWER(nog_get(m, USER, 0x2a, 5000, 0600, 0, &id), NOG_DONE);
    ANSWER(nog_set(m, ROOT, 0, 300, 301, 0666), NOG_DONE);
    ANSWER(nog_lock(m, USER, 0), NOG_ENOMEM);
    ANSWER(nog_get(m, ROOT, NOG_PRIVATE, 1, 0600, 0, &id), NOG_DONE);
    TEST(id == 1);
    ANSWER(nog_lock(m, ROOT, 1), NOG_DONE);
    ANSWER(nog_stat(m, ROOT, 1, &s), NOG_DONE);
    TEST(s.id == 1 && s.index == 1 && s.status == NOG_LOCKED && s.size == 1 && s.ctime == 5 && s.nattch == 0);
    ANSWER(nog_unlock(m, ROOT, 1), NOG_DONE);
    ANSWER(nog_remove(m, ROOT, 1), NOG_DONE);
    ANSWER(nog_stat(m, ROOT, 1, &s), NOG_EIDRM);
    ANSWER(nog_stat(m, USER, 0, &s), NOG_DONE);
    TEST(s.id == 0 && s.key == 0x2a && s.uid == 300 && s.gid == 301 && s.cuid == 200 && s.cgid == 201);
    TEST(s.mode == 0666 && s.status == 0 && s.size == 5000 && s.cpid == USER && s.lpid == 0 && s.nattch == 0);
    TEST(s.atime == 0 && s.dtime == 0 && s.ctime == 3 && s.index == 0);
}

/* a segment each of whose fields has a value of its own: made as the second at its index, attached three times by two */
static void test_each_field(nog_machine *m) {
    nog_segment s;
    uint64_t at = 0;
    int32_t id = -1;
    ANSWER(open_usual(m), NOG_DONE);
    for (int i = 0; i < 3; i++) ANSWER(nog_get(m, ROOT, NOG_PRIVATE, 1, 0600, 0, &id), NOG_DONE);
    for (int i = 1; i < 3; i++) ANSWER(nog_remove(m, ROOT, i), NOG_DONE);
    for (int i = 1; i < 3; i++) ANSWER(nog_get(m, USER, (uint32_t)(0x50 + i), 4000, 0606, NOG_CREAT, &id), NOG_DONE);
    TEST(id == 32770);
    ANSWER(nog_set(m, USER, id, 300, 301, 0660), NOG_DONE);
    for (int i = 0; i < 3; i++) ANSWER(nog_attach(m, USER, id, 0, 0, &at), NOG_DONE);
    ANSWER(nog_fork(m, USER, CHILD), NOG_DONE);
    ANSWER(nog_detach(m, CHILD, at), NOG_DONE);
    ANSWER(nog_lock(m, ROOT, id), NOG_DONE);
    ANSWER(nog_stat(m, ROOT, id, &s), NOG_DONE);
    TEST(s.size == 4000 && s.ctime == 8 && s.atime == 11 && s.dtime == 13);
    TEST(s.id == 32770 && s.index == 2 && s.key == 0x52 && s.status == NOG_LOCKED && s.mode == 0660);
    TEST(s.uid == 300 && s.gid == 301 && s.cuid == 200 && s.cgid == 201);
    TEST(s.cpid == USER && s.lpid == CHILD && s.nattch == 5);
}

/* bits that are none of a mode, and flags that are none, count for nothing; a private key asks for no flag */
static void test_other_bits(nog_machine *m) {
    nog_segment s;
    uint64_t at = 0;
    int32_t id = -1;
    ANSWER(open_usual(m), NOG_DONE);
    ANSWER(nog_get(m, USER, NOG_PRIVATE, 1, 0640, 0xffff, &id), NOG_DONE);
    ANSWER(nog_get(m, USER, NOG_PRIVATE, 1, 0600, NOG_CREAT | NOG_EXCL, &id), NOG_DONE);
    TEST(id == 1);
    ANSWER(nog_stat(m, USER, 0, &s), NOG_DONE);
    TEST(s.mode == 0640 && s.key == 0);
    ANSWER(nog_set(m, USER, 0, 200, 201, 0177604), NOG_DONE);
    ANSWER(nog_stat(m, USER, 0, &s), NOG_DONE);
    TEST(s.mode == 0604);
    ANSWER(nog_attach(m, USER, 0, 0, 0x8fff, &at), NOG_DONE);
    TEST(at == LOWEST);
    ANSWER(nog_get(m, USER, 7, 1, 0600, 0xffff & ~(uint32_t)NOG_CREAT, &id), NOG_ENOENT);
}

static void test_accesses(nog_machine *m) {
    uint64_t at = 0, before = 1;
    uint8_t bytes[6] = {9, 9, 9, 9, 9, 9};
    int32_t id = -1;
    ANSWER(open_usual(m), NOG_DONE);
    ANSWER(nog_get(m, USER, NOG_PRIVATE, 2 * PAGE, 0600, 0, &id), NOG_DONE);
    ANSWER(nog_attach(m, USER, id, 0, 0, &at), NOG_DONE);
    TEST(at == LOWEST);
    ANSWER(nog_store(m, USER, at + PAGE - 2, (const uint8_t *)"\1\2\3\4", 4), NOG_DONE);
    ANSWER(nog_load(m, USER, at + PAGE - 3, bytes, 6), NOG_DONE);
    TEST(memcmp(bytes, "\0\1\2\3\4\0", 6) == 0);
    ANSWER(nog_add(m, USER, at, UINT64_MAX, &before), NOG_DONE);
    TEST(before == 0);
    ANSWER(nog_add(m, USER, at, 2, &before), NOG_DONE);
    TEST(before == UINT64_MAX);
    ANSWER(nog_fork(m, USER, CHILD), NOG_DONE);
    ANSWER(nog_load(m, CHILD, at, bytes, 2), NOG_DONE);
    TEST(bytes[0] == 1 && bytes[1] == 0);
    ANSWER(nog_attach(m, CHILD, id, 0x50000fff, NOG_RND | NOG_RDONLY, &at), NOG_DONE);
    TEST(at == 0x50000000);
    ANSWER(nog_store(m, CHILD, at, bytes, 1), NOG_SIGSEGV);
    ANSWER(nog_attach(m, CHILD, id, 0x50000000, NOG_REMAP, &at), NOG_DONE);
    ANSWER(nog_store(m, CHILD, at, bytes, 1), NOG_DONE);
    ANSWER(nog_exec(m, CHILD), NOG_DONE);
    ANSWER(nog_load(m, CHILD, at, bytes, 1), NOG_SIGSEGV);
    ANSWER(nog_detach(m, USER, LOWEST), NOG_DONE);
    ANSWER(nog_exit(m, CHILD), NOG_DONE);
    ANSWER(nog_swapoff(m, ROOT, 0), NOG_ENOMEM);
}

static void test_out_of_range(nog_machine *m) {
    struct outputs out = untouched();
    nog_tally before, after;
    ANSWER(open_usual(m), NOG_DONE);
    ANSWER(nog_tally_of(m, &before), NOG_DONE);
    ANSWER(nog_get(m, USER, NOG_PRIVATE, 1, 01000, 0, &out.id), NOG_OUT_OF_RANGE);
    ANSWER(nog_get(m, USER, NOG_PRIVATE, 1, 0600, 0x10000, &out.id), NOG_OUT_OF_RANGE);
    ANSWER(nog_attach(m, USER, 0, 0, 0x10000, &out.number), NOG_OUT_OF_RANGE);
    ANSWER(nog_set(m, USER, 0, 0, 0, 0x10000), NOG_OUT_OF_RANGE);
    ANSWER(nog_load(m, USER, LOWEST, out.bytes, 0), NOG_OUT_OF_RANGE);
    ANSWER(nog_load(m, USER, LOWEST, out.bytes, 65), NOG_OUT_OF_RANGE);
    ANSWER(nog_store(m, USER, LOWEST, out.bytes, 0), NOG_OUT_OF_RANGE);
    ANSWER(nog_store(m, USER, LOWEST, out.bytes, 65), NOG_OUT_OF_RANGE);
    ANSWER(nog_segment_at(m, 0, &out.segment), NOG_OUT_OF_RANGE);
    ANSWER(nog_segment_at(m, UINT32_MAX, &out.segment), NOG_OUT_OF_RANGE);
    test_untouched(&out);
    ANSWER(nog_tally_of(m, &after), NOG_DONE);
    TEST(memcmp(&before, &after, sizeof before) == 0);
}

/* an access of any length is a call for each page of addresses */
static void test_long_accesses(nog_machine *m) {
    uint64_t at = 0, done = 1, calls = 0;
    uint8_t given[200], taken[200] = {0};
    int32_t id = -1;
    ANSWER(open_usual(m), NOG_DONE);
    for (uint8_t i = 0; i < 200; i++) given[i] = (uint8_t)(i + 1);
    ANSWER(nog_get(m, USER, NOG_PRIVATE, 2 * PAGE, 0600, 0, &id), NOG_DONE);
    ANSWER(nog_attach(m, USER, id, 0, 0, &at), NOG_DONE);
    ANSWER(nog_write(m, USER, at + PAGE - 100, given, 200, &done), NOG_DONE);
    TEST(done == 200);
    ANSWER(nog_read(m, USER, at + PAGE - 100, taken, 200, &done), NOG_DONE);
    TEST(done == 200 && memcmp(given, taken, 200) == 0);
    ANSWER(nog_calls(m, &calls), NOG_DONE);
    TEST(calls == 2 + 2 + 2);
    ANSWER(nog_read(m, USER, 0, taken, 0, &done), NOG_DONE);
    ANSWER(nog_write(m, USER, 0, taken, 0, &done), NOG_DONE);
    TEST(done == 0);
    /* 150 bytes are left of the segment: their store is done, and that of the next page has no piece */
    ANSWER(nog_write(m, USER, at + 2 * PAGE - 150, given, 200, &done), NOG_SIGSEGV);
    TEST(done == 150);
    memset(taken, 0, sizeof taken);
    ANSWER(nog_read(m, USER, at + 2 * PAGE - 150, taken, 200, &done), NOG_SIGSEGV);
    TEST(done == 150 && memcmp(given, taken, 150) == 0 && taken[150] == 0);
    ANSWER(nog_read(m, USER, at + 2 * PAGE - 150, taken, 150, &done), NOG_DONE);
    TEST(done == 150 && memcmp(given, taken, 150) == 0);
    ANSWER(nog_calls(m, &calls), NOG_DONE);
    TEST(calls == 6 + 2 + 2 + 1);
}

/* three dirty pages, of which the second write fails: it stays dirty, and a later round writes it */
static void test_flushes(nog_machine *m) {
    static const nog_failure second_write = {.is_write = 1, .call = 2};
    nog_flushed flushed = {9, 9};
    nog_tally t;
    uint64_t at = 0;
    int32_t id = -1;
    ANSWER(nog_open(m, &limits, &ram, 1, &second_write, 1, processes, 3), NOG_DONE);
    ANSWER(nog_get(m, USER, NOG_PRIVATE, 3 * PAGE, 0600, 0, &id), NOG_DONE);
    ANSWER(nog_attach(m, USER, id, 0, 0, &at), NOG_DONE);
    for (uint64_t i = 0; i < 3; i++) ANSWER(nog_store(m, USER, at + i * PAGE, (const uint8_t *)"a", 1), NOG_DONE);
    ANSWER(nog_flush(m, 2, &flushed), NOG_DONE);
    TEST(flushed.written == 1 && flushed.failed == 1);
    ANSWER(nog_tally_of(m, &t), NOG_DONE);
    TEST(t.events == 5 && t.segments == 1 && t.reserved == 3 && t.locked == 0 && t.frames == 4 && t.resident == 3);
    TEST(t.dirty == 2 && t.slots == 64 && t.ins == 0 && t.outs == 1 && t.failures == 1);
    ANSWER(nog_flush(m, UINT64_MAX, &flushed), NOG_DONE);
    TEST(flushed.written == 2 && flushed.failed == 0);
    ANSWER(nog_flush(m, 0, &flushed), NOG_DONE);
    TEST(flushed.written == 0 && flushed.failed == 0);
    ANSWER(nog_tally_of(m, &t), NOG_DONE);
    TEST(t.dirty == 0 && t.used == 3 && t.outs == 3 && t.failures == 1);
}

/* ---- failing calls ---- */

/* stores in three pages over two frames, so that the first goes out; then loads the first two, each of which comes in: what
   the third store and both loads answered, and a byte that was loaded is the one that was stored */
static void test_paging(nog_machine *m, const nog_area *area, const nog_failure *failures, size_t count, const uint32_t codes[3]) {
    static const nog_limits two_frames = {65536, 1, 3, 2, 0, 0, 0, 0, 0};
    uint64_t at = 0;
    int32_t id = -1;
    ANSWER(nog_open(m, &two_frames, area, 1, failures, count, processes, 3), NOG_DONE);
    ANSWER(nog_get(m, USER, NOG_PRIVATE, 3 * PAGE, 0600, 0, &id), NOG_DONE);
    ANSWER(nog_attach(m, USER, id, 0, 0, &at), NOG_DONE);
    for (uint64_t i = 0; i < 3; i++)
        ANSWER(nog_store(m, USER, at + i * PAGE, (const uint8_t *)"abc" + i, 1), i < 2 ? (uint32_t)NOG_DONE : codes[0]);
    for (uint64_t i = 0; i < 2; i++) {
        uint8_t byte = 0;
        ANSWER(nog_load(m, USER, at + i * PAGE, &byte, 1), codes[1 + i]);
        TEST(byte == (codes[1 + i] == NOG_DONE ? "ab"[i] : 0));
    }
}

/* a mirror fails where both sides do: each side in its own calls, reads apart from writes */
static void test_mirror(nog_machine *m) {
    static const nog_area mirror = {NOG_MIRROR, 3};
    static const struct { nog_failure failures[2]; uint32_t codes[3]; } table[] = {
        {{{.side = 0, .call = 1}, {.side = 1, .call = 2}}, {NOG_DONE, NOG_DONE, NOG_DONE}},
        {{{.side = 0, .call = 1}, {.side = 1, .call = 1}}, {NOG_DONE, NOG_SIGBUS, NOG_DONE}},
        {{{.side = 0, .call = 2}, {.side = 1, .call = 1}}, {NOG_DONE, NOG_DONE, NOG_SIGBUS}},
        {{{.side = 0, .is_write = 1, .call = 1}, {.side = 1, .is_write = 1, .call = 1}}, {NOG_SIGBUS, NOG_DONE, NOG_DONE}},
        {{{.side = 0, .is_write = 1, .call = 1}, {.side = 1, .call = 1}}, {NOG_DONE, NOG_SIGBUS, NOG_DONE}},
        {{{.side = 0, .call = 1}, {.side = 1, .is_write = 1, .call = 1}}, {NOG_DONE, NOG_SIGBUS, NOG_DONE}} };
    for (size_t i = 0; i < sizeof table / sizeof *table; i++) test_paging(m, &mirror, table[i].failures, 2, table[i].codes);
}

/* any number of failures may be listed, and each counts */
static void test_many_failures(nog_machine *m) {
    static const nog_area areas[] = {{NOG_RAM, 3}, {NOG_SPARSE, 3}};
    static const uint32_t codes[] = {NOG_DONE, NOG_SIGBUS, NOG_DONE};
    nog_failure many[40];
    for (uint64_t i = 0; i < 40; i++) many[i] = (nog_failure){.is_write = 1, .call = 1000 + i};
    many[39] = (nog_failure){.call = 1};
    for (size_t i = 0; i < 2; i++) test_paging(m, &areas[i], many, 40, codes);
}

static void test_table(nog_machine *m) {
    nog_segment s;
    uint32_t indexes = 9;
    int32_t id = -1;
    ANSWER(open_usual(m), NOG_DONE);
    ANSWER(nog_indexes(m, &indexes), NOG_DONE);
    TEST(indexes == 0);
    for (int i = 0; i < 3; i++) ANSWER(nog_get(m, ROOT, NOG_PRIVATE, 1, 0, 0, &id), NOG_DONE);
    ANSWER(nog_remove(m, ROOT, 1), NOG_DONE);
    ANSWER(nog_indexes(m, &indexes), NOG_DONE);
    TEST(indexes == 3);
    ANSWER(nog_segment_at(m, 1, &s), NOG_OUT_OF_RANGE);
    ANSWER(nog_segment_at(m, 2, &s), NOG_DONE);
    TEST(s.id == 2 && s.index == 2 && s.ctime == 3 && s.mode == 0 && s.cpid == ROOT);
    ANSWER(nog_get(m, ROOT, NOG_PRIVATE, 1, 0, 0, &id), NOG_DONE);
    TEST(id == 32769);
    ANSWER(nog_segment_at(m, 1, &s), NOG_DONE);
    TEST(s.id == 32769 && s.index == 1);
}

/* ---- the library ---- */

static void test_texts(void) {
    static const uint32_t codes[] = {0, 1, 2, 3, 5, 11, 12, 13, 17, 22, 24, 28, 43, 1007, 1011, 2001, 2002, 2003, 2004, 2005,
        2006, 2011, 2012, 2013, 2014, 2015, 2016, 2017, 2018, 2019, 2021, 2022, 2023, 2024, 2031, 2032, 2033, 2041, 2042};
    static const uint32_t no_codes[] = {4, 44, 1008, 2000, 2007, 2010, 2020, 2025, 2030, 2034, 2040, 2043, UINT32_MAX};
    uint8_t text[64], cut[3];
    size_t len, again;
    for (size_t i = 0; i < sizeof codes / sizeof *codes; i++) {
        memset(text, UNTOUCHED, sizeof text);
        ANSWER(nog_text(codes[i], text, sizeof text, &len), NOG_DONE);
        TEST(len > 0 && len < sizeof text && text[len] == 0 && strlen((char *)text) == len);
        ANSWER(nog_text(codes[i], cut, sizeof cut, &again), NOG_DONE);
        TEST(again == len && memcmp(cut, text, 2) == 0 && cut[2] == 0);
        ANSWER(nog_text(codes[i], cut, 0, &again), NOG_DONE);
        TEST(again == len && memcmp(cut, text, 2) == 0);
    }
    ANSWER(nog_text(NOG_EINVAL, text, sizeof text, &len), NOG_DONE);
    TEST(len == 6 && strcmp((char *)text, "EINVAL") == 0);
    for (size_t i = 0; i < sizeof no_codes / sizeof *no_codes; i++) {
        len = 77;
        memset(text, UNTOUCHED, sizeof text);
        ANSWER(nog_text(no_codes[i], text, sizeof text, &len), NOG_OUT_OF_RANGE);
        TEST(len == 77 && text[0] == UNTOUCHED);
    }
}

/* the name of each code of enum nog_code, of which test_library compares the list */
static void test_names(void) {
    TEST(strcmp(nog_name(NOG_DONE), "NOG_DONE") == 0 && strcmp(nog_name(2005), "NOG_LENT") == 0);
    TEST(strcmp(nog_name(NOG_DISMISS_LIVE), "NOG_DISMISS_LIVE") == 0);
    TEST(!nog_name(4) && !nog_name(2043) && !nog_name(UINT32_MAX));
}

/* two machines are independent, and one that was moved as a whole still works */
static void test_two_machines(void) {
    nog_machine one = NOG_MACHINE_INITIALIZER, other = NOG_MACHINE_INITIALIZER, moved;
    uint64_t calls = 9;
    ANSWER(open_usual(&one), NOG_DONE);
    ANSWER(open_usual(&other), NOG_DONE);
    ANSWER(nog_exit(&one, USER), NOG_DONE);
    ANSWER(nog_exec(&other, USER), NOG_DONE);
    ANSWER(nog_close(&other), NOG_DONE);
    moved = one;
    ANSWER(nog_exec(&moved, USER), NOG_ESRCH);
    ANSWER(nog_calls(&moved, &calls), NOG_DONE);
    TEST(calls == 2);
    ANSWER(nog_close(&moved), NOG_DONE);
}

int main(void) {
    nog_machine machine = NOG_MACHINE_INITIALIZER;
    TEST(nog_version() == NOG_VERSION);
    test_closed(&machine);
    test_no_such_process(&machine);
    test_limits(&machine);
    test_largest(&machine);
    test_own_limits(&machine);
    test_areas(&machine);
    test_failures(&machine);
    test_processes(&machine);
    test_first_fault(&machine);
    test_opened_again(&machine);
    test_segments(&machine);
    test_each_field(&machine);
    test_other_bits(&machine);
    test_accesses(&machine);
    test_out_of_range(&machine);
    test_long_accesses(&machine);
    test_flushes(&machine);
    test_mirror(&machine);
    test_many_failures(&machine);
    test_table(&machine);
    ANSWER(nog_close(&machine), NOG_DONE);
    test_closed(&machine);
    test_texts();
    test_names();
    test_two_machines();
    return finish("calls");
}

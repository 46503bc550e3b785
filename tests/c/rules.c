/* rules: each rule of Linux alone, and what the profile answers to the same calls. Then which numbers are rules, and the order of
   the refusals of shmat where all rules hold. The calls are those of crates/shm_rows/specs/RuleRows.antt. */
#include "testing.h"

enum { MODE = 0600 };
#define END UINT64_C(0x7ffffffff000)

static nog_machine machine = NOG_MACHINE_INITIALIZER;

/* the rule that is looked at, and whether the machine has it or is the profile's */
static const char *rule;
static uint64_t number;
static int holds;

/* what the last calls put out */
static int32_t id;
static uint64_t place;
static nog_segment shown;

static void says(uint64_t found, uint64_t profile, uint64_t by_rule, int line, const char *what) {
    char text[256];
    snprintf(text, sizeof text, "%s %s: %s", rule, holds ? "alone" : "in the profile", what);
    test(found == (holds ? by_rule : profile), __FILE__, line, text, found);
}

/* an answer, or a number that was put out: the profile's, and that by the rule */
#define EITHER(found, profile, by_rule) says((found), (profile), (by_rule), __LINE__, #found)
#define BOTH(found, wanted) says((found), (wanted), (wanted), __LINE__, #found)

static void open_with(uint64_t memlock, uint64_t pieces, const nog_process *all, size_t count) {
    const nog_limits mine = {.shmmax = 65536, .shmmni = 16, .shmall = 64, .frames = 4, .memlock = memlock,
                             .most_pieces = pieces, .most_processes = 64, .most_slots = 64, .rules = holds ? number : 0};
    BOTH(nog_open(&machine, &mine, &ram, 1, NULL, 0, all, count), NOG_DONE);
}

static uint32_t get(uint32_t pid, uint32_t key, uint64_t size, uint32_t mode, uint32_t flags) {
    return nog_get(&machine, pid, key, size, mode, flags, &id);
}

static uint32_t make(uint32_t pid, uint64_t size) { return get(pid, NOG_PRIVATE, size, MODE, 0); }

static uint32_t attach(uint32_t pid, int32_t segment, uint64_t addr, uint32_t flags) {
    return nog_attach(&machine, pid, segment, addr, flags, &place);
}

static uint32_t stat(uint32_t pid, int32_t segment) { return nog_stat(&machine, pid, segment, &shown); }

static uint32_t set(uint32_t pid, uint32_t uid, uint32_t gid, uint32_t mode) { return nog_set(&machine, pid, 0, uid, gid, mode); }

static uint32_t lock(uint32_t pid, int32_t segment) { return nog_lock(&machine, pid, segment); }

static uint32_t unlock(uint32_t pid, int32_t segment) { return nog_unlock(&machine, pid, segment); }

/* ---- each rule ---- */

static void removed_is_invalid(void) {
    static const nog_process all[] = {{1, 1, 100, 100}};
    open_with(1, 256, all, 1);
    BOTH(make(1, 1), NOG_DONE);
    BOTH(nog_remove(&machine, 1, 0), NOG_DONE);
    EITHER(stat(1, 0), NOG_EIDRM, NOG_EINVAL);
    EITHER(attach(1, 0, 0, 0), NOG_EIDRM, NOG_EINVAL);
    EITHER(lock(1, 0), NOG_EIDRM, NOG_EINVAL);
    EITHER(unlock(1, 0), NOG_EIDRM, NOG_EINVAL);
    EITHER(set(1, 100, 100, MODE), NOG_EIDRM, NOG_EINVAL);
    EITHER(nog_remove(&machine, 1, 0), NOG_EIDRM, NOG_EINVAL);
    BOTH(stat(1, 1), NOG_EINVAL);
}

static void execute_is_asked(void) {
    static const nog_process all[] = {{1, 1, 100, 100}, {2, 1, 200, 100}, {3, 1, 0, 0}};
    open_with(1, 256, all, 3);
    BOTH(get(1, 42, PAGE, 0650, NOG_CREAT), NOG_DONE);
    BOTH(get(1, 42, PAGE, 0600, 0), NOG_DONE);
    EITHER(get(1, 42, PAGE, 0601, 0), NOG_DONE, NOG_EACCES);
    EITHER(get(1, 42, PAGE, 0100, 0), NOG_DONE, NOG_EACCES);
    BOTH(get(2, 42, PAGE, 0010, 0), NOG_DONE);
    BOTH(get(3, 42, PAGE, 0700, 0), NOG_DONE);
    BOTH(get(1, 42, PAGE + 1, 0700, 0), NOG_EINVAL);
}

static void fork_marks(void) {
    static const nog_process all[] = {{1, 1, 100, 100}, {2, 0, 0, 0}, {3, 1, 0, 0}};
    open_with(1, 256, all, 3);
    BOTH(make(1, PAGE), NOG_DONE);
    BOTH(attach(1, 0, 0, 0), NOG_DONE);
    BOTH(attach(3, 0, 0, 0), NOG_DONE);
    BOTH(make(1, PAGE), NOG_DONE);
    BOTH(nog_fork(&machine, 1, 2), NOG_DONE);
    BOTH(stat(2, 0), NOG_DONE);
    BOTH(shown.nattch, 3);
    EITHER(shown.atime, 3, 5);
    EITHER(shown.lpid, 3, 1);
    BOTH(shown.dtime, 0);
    /* of a segment that is not inherited nothing is marked */
    BOTH(stat(2, 1), NOG_DONE);
    BOTH(shown.atime, 0);
    BOTH(shown.lpid, 0);
}

static void rest_is_attached(void) {
    static const nog_process all[] = {{1, 1, 100, 100}};
    open_with(1, 256, all, 1);
    BOTH(make(1, 2 * PAGE), NOG_DONE);
    BOTH(attach(1, 0, 0x50000000, 0), NOG_DONE);
    BOTH(make(1, PAGE), NOG_DONE);
    BOTH(attach(1, 1, 0x50001000, NOG_REMAP), NOG_DONE);
    BOTH(stat(1, 0), NOG_DONE);
    EITHER(shown.atime, 2, 4);
    BOTH(shown.dtime, 4);
    BOTH(shown.nattch, 1);
    BOTH(attach(1, 1, 0x50000000, NOG_REMAP), NOG_DONE);
    BOTH(stat(1, 0), NOG_DONE);
    EITHER(shown.atime, 2, 4);
    BOTH(shown.dtime, 6);
    BOTH(shown.nattch, 0);
}

static void at_time(uint64_t time) { BOTH(nog_set_time(&machine, time), NOG_DONE); }

static void shows(uint32_t nattch, uint64_t profile_atime, uint64_t atime, uint64_t dtime) {
    BOTH(stat(1, 0), NOG_DONE);
    BOTH(shown.nattch, nattch);
    EITHER(shown.atime, profile_atime, atime);
    BOTH(shown.dtime, dtime);
}

/* the same rule, of ranges that are protected and unmapped: process 2 was the last to attach */
static void rest_of_mappings(void) {
    static const nog_process all[] = {{1, 1, 100, 100}, {2, 1, 100, 100}};
    open_with(1, 256, all, 2);
    BOTH(make(1, 2 * PAGE), NOG_DONE);
    at_time(10);
    BOTH(attach(1, 0, 0x50000000, 0), NOG_DONE);
    BOTH(attach(2, 0, 0, 0), NOG_DONE);
    at_time(20);
    BOTH(nog_protect(&machine, 1, 0x50000000, 2 * PAGE, 0), NOG_DONE);
    shows(2, 10, 10, 0);
    BOTH(shown.lpid, 2);
    at_time(30);
    BOTH(nog_protect(&machine, 1, 0x50000000, PAGE, 1), NOG_DONE);
    shows(3, 10, 30, 0);
    EITHER(shown.lpid, 2, 1);
    at_time(40);
    BOTH(nog_protect(&machine, 1, 0x50001000, PAGE, 1), NOG_DONE);
    shows(3, 10, 30, 0);
    at_time(50);
    BOTH(nog_unmap(&machine, 1, 0x50001000, PAGE), NOG_DONE);
    shows(2, 10, 30, 50);
    BOTH(shown.lpid, 1);
    at_time(60);
    BOTH(nog_unmap(&machine, 2, 0x40000000, PAGE), NOG_DONE);
    shows(2, 10, 60, 60);
    BOTH(shown.lpid, 2);
}

static void end_is_enomem(void) {
    static const nog_process all[] = {{1, 1, 100, 100}};
    open_with(1, 256, all, 1);
    BOTH(make(1, PAGE + 1), NOG_DONE);
    EITHER(attach(1, 0, END - PAGE, 0), NOG_EINVAL, NOG_ENOMEM);
    EITHER(attach(1, 0, UINT64_MAX - 8191, 0), NOG_EINVAL, NOG_ENOMEM);
    EITHER(attach(1, 0, END - PAGE, NOG_REMAP), NOG_EINVAL, NOG_ENOMEM);
    BOTH(attach(1, 0, UINT64_MAX - 4095, 0), NOG_EINVAL);
    EITHER(attach(1, 0, UINT64_MAX - 4095, NOG_REMAP), NOG_EINVAL, NOG_ENOMEM);
    BOTH(attach(1, 0, END - 2 * PAGE, 0), NOG_DONE);
    BOTH(place, END - 2 * PAGE);
    BOTH(attach(1, 0, END - PAGE, 0), NOG_EINVAL);
    BOTH(attach(1, 0, 0x1000, 0), NOG_EINVAL);
}

static void low_is_eperm(void) {
    static const nog_process all[] = {{1, 1, 100, 100}, {2, 1, 0, 0}, {3, 1, 200, 200}};
    open_with(1, 256, all, 3);
    BOTH(make(1, 2 * PAGE), NOG_DONE);
    EITHER(attach(1, 0, 0xf000, 0), NOG_EINVAL, NOG_EPERM);
    EITHER(attach(1, 0, 0xf000, NOG_REMAP), NOG_EINVAL, NOG_EPERM);
    BOTH(attach(2, 0, 0xf000, 0), NOG_EINVAL);
    BOTH(attach(3, 0, 0xf000, 0), NOG_EACCES);
    BOTH(attach(1, 0, 0x10000, 0), NOG_DONE);
    BOTH(attach(1, 0, 0xf000, 0), NOG_EINVAL);
    EITHER(attach(1, 0, 0xfff, NOG_RND), NOG_EINVAL, NOG_EPERM);
    EITHER(attach(3, 0, 0xfff, NOG_RND | NOG_REMAP), NOG_EACCES, NOG_EINVAL);
    BOTH(attach(1, 0, END - PAGE, 0), NOG_EINVAL);
}

static void no_last_user(void) {
    static const nog_process all[] = {{1, 1, 100, 100}, {2, 1, 200, 200}};
    open_with(1, 256, all, 2);
    BOTH(make(1, PAGE), NOG_DONE);
    EITHER(set(1, UINT32_MAX, 100, MODE), NOG_DONE, NOG_EINVAL);
    BOTH(stat(1, 0), NOG_DONE);
    EITHER(shown.uid, UINT32_MAX, 100);
    EITHER(shown.ctime, 2, 1);
    EITHER(set(1, 100, UINT32_MAX, MODE), NOG_DONE, NOG_EINVAL);
    BOTH(set(2, UINT32_MAX, 100, MODE), NOG_EPERM);
    BOTH(set(1, UINT32_MAX - 1, 100, MODE), NOG_DONE);
}

static void pieces_are_enomem(void) {
    static const nog_process all[] = {{1, 1, 100, 100}};
    open_with(1, 1, all, 1);
    BOTH(make(1, PAGE), NOG_DONE);
    BOTH(attach(1, 0, 0, 0), NOG_DONE);
    EITHER(attach(1, 0, 0, 0), NOG_EMFILE, NOG_ENOMEM);
    BOTH(attach(1, 0, LOWEST, 0), NOG_EINVAL);
    EITHER(attach(1, 0, LOWEST, NOG_REMAP), NOG_DONE, NOG_ENOMEM);
}

static void locks_by_user(void) {
    static const nog_process all[] = {{1, 1, 100, 100}, {2, 1, 200, 200}, {3, 1, 0, 0}};
    open_with(1, 256, all, 3);
    BOTH(make(1, PAGE), NOG_DONE);
    BOTH(make(1, PAGE), NOG_DONE);
    BOTH(make(2, PAGE), NOG_DONE);
    BOTH(lock(1, 0), NOG_DONE);
    BOTH(lock(1, 0), NOG_DONE);
    BOTH(lock(1, 1), NOG_ENOMEM);
    EITHER(lock(2, 2), NOG_ENOMEM, NOG_DONE);
    /* two of the four frames stay free for the pages of other segments */
    BOTH(lock(3, 1), NOG_ENOMEM);
    BOTH(unlock(3, 0), NOG_DONE);
    BOTH(lock(1, 1), NOG_DONE);
}

/* the same rule: who locked first is charged, not the owner nor who locks it again, until the segment is destroyed */
static void first_locker(void) {
    static const nog_process all[] = {{1, 1, 100, 100}, {3, 1, 0, 0}};
    open_with(1, 256, all, 2);
    BOTH(make(1, PAGE), NOG_DONE);
    BOTH(make(1, PAGE), NOG_DONE);
    BOTH(lock(3, 0), NOG_DONE);
    BOTH(lock(1, 0), NOG_DONE);
    EITHER(lock(1, 1), NOG_ENOMEM, NOG_DONE);
    BOTH(make(1, PAGE), NOG_DONE);
    BOTH(lock(1, 2), NOG_ENOMEM);
    BOTH(nog_remove(&machine, 1, 1), NOG_DONE);
    EITHER(lock(1, 2), NOG_ENOMEM, NOG_DONE);
}

/* the same rule, where a user may lock nothing */
static void no_locks(void) {
    static const nog_process all[] = {{1, 1, 100, 100}, {2, 1, 200, 200}, {3, 1, 0, 0}};
    open_with(0, 256, all, 3);
    BOTH(make(1, PAGE), NOG_DONE);
    BOTH(lock(2, 0), NOG_EPERM);
    EITHER(lock(1, 0), NOG_ENOMEM, NOG_EPERM);
    EITHER(lock(3, 0), NOG_ENOMEM, NOG_DONE);
    EITHER(lock(1, 0), NOG_ENOMEM, NOG_EPERM);
    BOTH(unlock(1, 0), NOG_DONE);
}

static void exec_is_asked(void) {
    static const nog_process all[] = {{1, 1, 100, 100}, {2, 1, 0, 0}};
    open_with(1, 256, all, 2);
    BOTH(make(1, PAGE), NOG_DONE);
    EITHER(attach(1, 0, 0, NOG_EXEC), NOG_DONE, NOG_EACCES);
    BOTH(attach(1, 0, 0, 0), NOG_DONE);
    EITHER(place, LOWEST + PAGE, LOWEST);
    BOTH(attach(2, 0, 0, NOG_EXEC), NOG_DONE);
    BOTH(set(1, 100, 100, 0500), NOG_DONE);
    BOTH(attach(1, 0, 0, NOG_EXEC | NOG_RDONLY), NOG_DONE);
    EITHER(place, LOWEST + 2 * PAGE, LOWEST + PAGE);
}

static void huge_is_refused(void) {
    static const nog_process all[] = {{1, 1, 100, 100}, {2, 1, 0, 0}, {3, 1, 100, 0}};
    open_with(1, 256, all, 3);
    BOTH(get(1, 42, PAGE, MODE, NOG_CREAT), NOG_DONE);
    BOTH(get(1, 42, PAGE, MODE, NOG_HUGETLB), NOG_DONE);
    EITHER(get(1, NOG_PRIVATE, PAGE, MODE, NOG_HUGETLB), NOG_DONE, NOG_EPERM);
    BOTH(get(1, NOG_PRIVATE, 0, MODE, NOG_HUGETLB), NOG_EINVAL);
    EITHER(get(1, NOG_PRIVATE, PAGE, MODE, NOG_HUGETLB | NOG_NORESERVE), NOG_DONE, NOG_EPERM);
    EITHER(get(2, NOG_PRIVATE, PAGE, MODE, NOG_HUGETLB), NOG_DONE, NOG_ENOMEM);
    EITHER(get(3, NOG_PRIVATE, PAGE, MODE, NOG_HUGETLB), NOG_DONE, NOG_ENOMEM);
    BOTH(get(3, NOG_PRIVATE, PAGE, MODE, NOG_HUGETLB | NOG_NORESERVE), NOG_DONE);
    EITHER((uint32_t)id, 5, 1);
}

static const struct { const char *name; uint64_t number; void (*calls)(void); } rules[] = {
    {"NOG_REMOVED_IS_INVALID", NOG_REMOVED_IS_INVALID, removed_is_invalid},
    {"NOG_EXECUTE_IS_ASKED", NOG_EXECUTE_IS_ASKED, execute_is_asked},
    {"NOG_FORK_MARKS", NOG_FORK_MARKS, fork_marks},
    {"NOG_REST_IS_ATTACHED", NOG_REST_IS_ATTACHED, rest_is_attached},
    {"NOG_REST_IS_ATTACHED", NOG_REST_IS_ATTACHED, rest_of_mappings},
    {"NOG_END_IS_ENOMEM", NOG_END_IS_ENOMEM, end_is_enomem},
    {"NOG_LOW_IS_EPERM", NOG_LOW_IS_EPERM, low_is_eperm},
    {"NOG_NO_LAST_USER", NOG_NO_LAST_USER, no_last_user},
    {"NOG_PIECES_ARE_ENOMEM", NOG_PIECES_ARE_ENOMEM, pieces_are_enomem},
    {"NOG_LOCKS_BY_USER", NOG_LOCKS_BY_USER, locks_by_user},
    {"NOG_LOCKS_BY_USER", NOG_LOCKS_BY_USER, first_locker},
    {"NOG_LOCKS_BY_USER", NOG_LOCKS_BY_USER, no_locks},
    {"NOG_EXEC_IS_ASKED", NOG_EXEC_IS_ASKED, exec_is_asked},
    {"NOG_HUGE_IS_REFUSED", NOG_HUGE_IS_REFUSED, huge_is_refused} };
enum { RULES = sizeof rules / sizeof *rules };

static void test_each_rule(void) {
    uint64_t all = 0;
    for (int i = 0; i < RULES; i++) {
        rule = rules[i].name;
        number = rules[i].number;
        all |= number;
        for (holds = 0; holds < 2; holds++) rules[i].calls();
    }
    TEST(all == NOG_LINUX);
}

/* ---- which numbers are rules ---- */

static uint32_t open_by(nog_limits mine, nog_area area, const nog_process *all, size_t count) {
    return nog_open(&machine, &mine, &area, 1, NULL, 0, all, count);
}

static nog_limits usual_with(uint64_t numbers) {
    nog_limits mine = limits;
    mine.rules = numbers;
    return mine;
}

static void test_numbers(void) {
    static const uint64_t none_such[] = {2048, 2049, 32768, 65535, 65536, 65536 + 1, UINT64_C(1) << 63, UINT64_MAX};
    static const nog_area sparse = {NOG_SPARSE, 64};
    uint64_t opened = 0;
    for (uint64_t sum = 0; sum <= NOG_LINUX; sum++) opened += open_by(usual_with(sum), sparse, processes, 3) == NOG_DONE;
    TEST(opened == NOG_LINUX + 1);
    for (size_t i = 0; i < sizeof none_such / sizeof *none_such; i++) {
        nog_limits mine = usual_with(none_such[i]);
        ANSWER(open_by(mine, ram, processes, 3), NOG_BAD_RULES);
        mine.most_pieces = mine.most_processes = mine.most_slots = 64;
        ANSWER(open_by(mine, ram, processes, 3), NOG_BAD_RULES);
        /* they are the last limit */
        mine.most_slots = 0;
        ANSWER(open_by(mine, ram, processes, 3), NOG_BAD_MOST_SLOTS);
    }
    /* areas come after the limits, and a machine that is there stays */
    ANSWER(open_usual(&machine), NOG_DONE);
    ANSWER(make(USER, 1), NOG_DONE);
    ANSWER(open_by(usual_with(2048), (nog_area){0, 0}, processes, 3), NOG_BAD_RULES);
    ANSWER(stat(USER, id), NOG_DONE);
}

/* where the three last sizes are 0 they, and the ranges, are those of the profile, whatever the rules */
static void test_profile(void) {
    static const nog_area most = {NOG_SPARSE, 65536}, more = {NOG_SPARSE, 65537};
    nog_process many[65];
    nog_limits mine = usual_with(NOG_LINUX);
    for (uint32_t i = 0; i < 65; i++) many[i] = (nog_process){i + 1, 1, 100, 100};
    mine.shmmax = 16777217;
    ANSWER(open_by(mine, ram, processes, 3), NOG_BAD_SHMMAX);
    mine = usual_with(NOG_LINUX);
    mine.shmmni = 4097;
    ANSWER(open_by(mine, ram, processes, 3), NOG_BAD_SHMMNI);
    mine = usual_with(NOG_LINUX);
    mine.shmall = 65537;
    ANSWER(open_by(mine, ram, processes, 3), NOG_BAD_SHMALL);
    mine = usual_with(NOG_LINUX);
    mine.frames = 4097;
    ANSWER(open_by(mine, ram, processes, 3), NOG_BAD_FRAMES);
    mine = usual_with(NOG_LINUX);
    mine.memlock = mine.frames - 1;
    ANSWER(open_by(mine, ram, processes, 3), NOG_BAD_MEMLOCK);
    mine = usual_with(NOG_LINUX);
    ANSWER(open_by(mine, more, processes, 3), NOG_BAD_AREA_SIZE);
    ANSWER(open_by(mine, ram, many, 65), NOG_BAD_PROCESSES);
    ANSWER(open_by(mine, most, many, 64), NOG_DONE);
    ANSWER(make(1, 1), NOG_DONE);
    for (int i = 0; i < 256; i++) ANSWER(attach(1, id, 0, 0), NOG_DONE);
    ANSWER(attach(1, id, 0, 0), NOG_ENOMEM);
}

/* ---- the order of the refusals of shmat, where all rules hold ---- */

enum { OWNER = 1, FULL = 4, OTHER = 3, FREE = 2, LARGE = 17 * PAGE };
enum { SEGMENT, NO_MODE, READ_ONLY, LONG_ONE, DESTROYED };

/* OWNER has one piece, FULL has two, which are the most: each has one at 0x10000 */
static void open_for_order(void) {
    static const nog_process all[] = {{OWNER, 1, 100, 100}, {FREE, 1, 0, 0}, {OTHER, 1, 200, 200}, {FULL, 1, 100, 100}};
    const nog_limits mine = {.shmmax = 1 << 20, .shmmni = 16, .shmall = 64, .frames = 4, .memlock = 1, .most_pieces = 2,
                             .most_processes = 64, .most_slots = 64, .rules = NOG_LINUX};
    ANSWER(open_by(mine, ram, all, 4), NOG_DONE);
    ANSWER(make(OWNER, 2 * PAGE), NOG_DONE);
    ANSWER(get(OWNER, NOG_PRIVATE, 2 * PAGE, 0, 0), NOG_DONE);
    ANSWER(get(OWNER, NOG_PRIVATE, 2 * PAGE, 0400, 0), NOG_DONE);
    ANSWER(make(OWNER, LARGE), NOG_DONE);
    ANSWER(make(OWNER, PAGE), NOG_DONE);
    TEST(id == DESTROYED);
    ANSWER(nog_remove(&machine, OWNER, DESTROYED), NOG_DONE);
    ANSWER(attach(OWNER, SEGMENT, 0x10000, 0), NOG_DONE);
    ANSWER(attach(FULL, SEGMENT, 0x10000, 0), NOG_DONE);
    ANSWER(attach(FULL, SEGMENT, END - 2 * PAGE, 0), NOG_DONE);
}

static const struct { const char *what; uint32_t pid; int32_t segment; uint64_t addr; uint32_t flags, code; } order[] = {
    {"1: no address is remapped, before the permission", OTHER, SEGMENT, 0, NOG_REMAP, NOG_EINVAL},
    {"1: an address is aligned, before the permission", OTHER, SEGMENT, 7, 0, NOG_EINVAL},
    {"1: what rounds to 0 is not remapped, before the permission", OTHER, SEGMENT, 7, NOG_RND | NOG_REMAP, NOG_EINVAL},
    {"1: nor by user 0", FREE, SEGMENT, 7, NOG_RND | NOG_REMAP, NOG_EINVAL},
    {"2: an identifier never issued, before too many pieces", FULL, 77, 0, 0, NOG_EINVAL},
    {"2: a negative one, before too many pieces", FULL, -1, 0, 0, NOG_EINVAL},
    {"2: a destroyed one, before too many pieces", FULL, DESTROYED, 0, 0, NOG_EINVAL},
    {"2: a destroyed one, before a low address", OTHER, DESTROYED, 0x1000, 0, NOG_EINVAL},
    {"3: reading, before what is there", FULL, NO_MODE, 0x10000, 0, NOG_EACCES},
    {"3: reading, before too many pieces", FULL, NO_MODE, 0, 0, NOG_EACCES},
    {"3: reading, before 2^64", OTHER, SEGMENT, UINT64_MAX - 4095, 0, NOG_EACCES},
    {"3: reading, before the end", OTHER, SEGMENT, END, 0, NOG_EACCES},
    {"3: reading, before a low address", OTHER, SEGMENT, 0x1000, 0, NOG_EACCES},
    {"3: reading, before an address that rounds to 0", OTHER, SEGMENT, 7, NOG_RND, NOG_EACCES},
    {"3: writing, before what is there", FULL, READ_ONLY, 0x10000, 0, NOG_EACCES},
    {"3: execution, before what is there", FULL, READ_ONLY, 0x10000, NOG_RDONLY | NOG_EXEC, NOG_EACCES},
    {"4: a piece, where reading is enough", FULL, READ_ONLY, 0x10000, NOG_RDONLY, NOG_EINVAL},
    {"4: a piece, before too many pieces", FULL, SEGMENT, 0x11000, 0, NOG_EINVAL},
    {"4: a piece, before too many pieces and the end", FULL, SEGMENT, END - PAGE, 0, NOG_EINVAL},
    {"4: a piece, before a low address", OWNER, SEGMENT, 0xf000, 0, NOG_EINVAL},
    {"4: the bytes reach 2^64, before the end", OWNER, SEGMENT, UINT64_MAX - 8191, 0, NOG_EINVAL},
    {"4: the bytes pass 2^64, before too many pieces", FULL, SEGMENT, UINT64_MAX - 4095, 0, NOG_EINVAL},
    {"4: not by a remap beyond 2^64", OWNER, SEGMENT, UINT64_MAX - 4095, NOG_REMAP, NOG_ENOMEM},
    {"4: not where the address rounds to 0", OWNER, LONG_ONE, 7, NOG_RND, NOG_EPERM},
    {"5: too many pieces, before a low address", FULL, SEGMENT, 0x1000, 0, NOG_ENOMEM},
    {"5: too many pieces, also by a remap", FULL, SEGMENT, 0x10000, NOG_REMAP, NOG_ENOMEM},
    {"5: too many pieces, also without an address", FULL, SEGMENT, 0, 0, NOG_ENOMEM},
    {"6: the end", OWNER, SEGMENT, END, 0, NOG_ENOMEM},
    {"6: a range that passes the end", OWNER, SEGMENT, END - PAGE, 0, NOG_ENOMEM},
    {"6: the end, also by a remap", OWNER, SEGMENT, END - PAGE, NOG_REMAP, NOG_ENOMEM},
    {"6: the end, of user 0 too", FREE, SEGMENT, END, 0, NOG_ENOMEM},
    {"7: a low address", OWNER, SEGMENT, 0x1000, 0, NOG_EPERM},
    {"7: a low address, also by a remap over a piece", OWNER, SEGMENT, 0xf000, NOG_REMAP, NOG_EPERM} };

static void test_order(void) {
    nog_segment before, after;
    memset(&before, 0, sizeof before);
    memset(&after, 0, sizeof after);
    open_for_order();
    ANSWER(nog_stat(&machine, OWNER, SEGMENT, &before), NOG_DONE);
    for (size_t i = 0; i < sizeof order / sizeof *order; i++) {
        char text[128];
        snprintf(text, sizeof text, "NOG_LINUX, shmat %s", order[i].what);
        uint32_t code = attach(order[i].pid, order[i].segment, order[i].addr, order[i].flags);
        test(code == order[i].code, __FILE__, __LINE__, text, code);
    }
    ANSWER(nog_stat(&machine, OWNER, SEGMENT, &after), NOG_DONE);
    TEST(memcmp(&before, &after, sizeof before) == 0);
    /* user 0 needs no permission */
    ANSWER(attach(FREE, NO_MODE, 0x20000, NOG_EXEC), NOG_DONE);
    ANSWER(attach(OWNER, SEGMENT, 0x20000, 0), NOG_DONE);
}

int main(void) {
    test_each_rule();
    test_numbers();
    test_profile();
    test_order();
    ANSWER(nog_close(&machine), NOG_DONE);
    return finish("rules");
}

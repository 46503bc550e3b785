/* Ranges that the host reserves: which addresses attaches take beside them, and what is refused. Each answer is that of
   docs/MACHINE.md. */
#include "testing.h"

#define END UINT64_C(0x7ffffffff000)
enum { FIRST = 0x10000, FIXED = 0x50000000, MANY = 1000 };

static nog_machine m = NOG_MACHINE_INITIALIZER, copy = NOG_MACHINE_INITIALIZER;

static uint64_t page(uint64_t number) { return LOWEST + number * PAGE; }

static uint32_t reserve(uint32_t pid, uint64_t addr, uint64_t pages) { return nog_reserve(&m, pid, addr, pages * PAGE); }

static uint32_t release(uint32_t pid, uint64_t addr, uint64_t pages) { return nog_release(&m, pid, addr, pages * PAGE); }

/* a segment that every process may attach */
static int32_t make(uint64_t size) {
    int32_t id = -1;
    ANSWER(nog_get(&m, ROOT, NOG_PRIVATE, size, 0666, 0, &id), NOG_DONE);
    return id;
}

/* the address that the machine chooses; nothing is attached afterwards */
static uint64_t chosen_in(nog_machine *machine, uint32_t pid, int32_t id) {
    uint64_t at = 0;
    ANSWER(nog_attach(machine, pid, id, 0, 0, &at), NOG_DONE);
    ANSWER(nog_detach(machine, pid, at), NOG_DONE);
    return at;
}

static uint64_t chosen(uint32_t pid, int32_t id) { return chosen_in(&m, pid, id); }

static uint32_t attach(uint32_t pid, int32_t id, uint64_t addr, uint32_t flags) {
    uint64_t at = 0;
    uint32_t code = nog_attach(&m, pid, id, addr, flags, &at);
    uint64_t wanted = (flags & NOG_RND) != 0 ? addr - addr % PAGE : addr;
    TEST(at == (code == NOG_DONE ? wanted : 0));
    return code;
}

/* whether it can be attached there; nothing is attached afterwards */
static uint32_t fits(uint32_t pid, int32_t id, uint64_t addr, uint32_t flags) {
    uint32_t code = attach(pid, id, addr, flags);
    if (code == NOG_DONE) ANSWER(nog_detach(&m, pid, addr - addr % PAGE), NOG_DONE);
    return code;
}

/* the least gap: from the lowest address on, or after a range, whatever the order in which they were reserved */
static void test_chosen(void) {
    ANSWER(open_usual(&m), NOG_DONE);
    int32_t one = make(PAGE), two = make(PAGE + 1), three = make(3 * PAGE);
    TEST(chosen(USER, two) == page(0));
    /* below, and far above */
    ANSWER(reserve(USER, page(0) - 4 * PAGE, 4), NOG_DONE);
    ANSWER(reserve(USER, page(100), 1), NOG_DONE);
    TEST(chosen(USER, two) == page(0));
    /* the last page of the range; then the first page too, whose range was reserved later and is lower */
    ANSWER(reserve(USER, page(1), 1), NOG_DONE);
    TEST(chosen(USER, one) == page(0));
    TEST(chosen(USER, two) == page(2));
    ANSWER(reserve(USER, page(0), 1), NOG_DONE);
    TEST(chosen(USER, one) == page(2));
    /* two pages between two ranges */
    ANSWER(reserve(USER, page(4), 1), NOG_DONE);
    TEST(chosen(USER, two) == page(2));
    TEST(chosen(USER, three) == page(5));
    TEST(chosen(ROOT, three) == page(0));
    /* a piece in the gap: then the next one, and between the piece and the range */
    ANSWER(attach(USER, one, page(2), 0), NOG_DONE);
    TEST(chosen(USER, two) == page(5));
    TEST(chosen(USER, one) == page(3));
    ANSWER(attach(USER, one, page(5), 0), NOG_DONE);
    ANSWER(reserve(USER, page(6), 1), NOG_DONE);
    TEST(chosen(USER, two) == page(7));
    ANSWER(release(USER, page(1), 1), NOG_DONE);
    TEST(chosen(USER, one) == page(1));
    TEST(chosen(USER, two) == page(7));
    ANSWER(release(USER, page(0), 1), NOG_DONE);
    TEST(chosen(USER, two) == page(0));
    /* over the lowest address */
    ANSWER(reserve(ROOT, page(0) - PAGE, 2), NOG_DONE);
    TEST(chosen(ROOT, two) == page(1));
}

/* at an address that is given: by one page at either end, beside the range, and over it */
static void test_given(void) {
    ANSWER(open_usual(&m), NOG_DONE);
    int32_t two = make(PAGE + 1);
    ANSWER(reserve(USER, FIXED, 4), NOG_DONE);
    ANSWER(fits(USER, two, FIXED - 2 * PAGE, 0), NOG_DONE);
    ANSWER(fits(USER, two, FIXED - PAGE, 0), NOG_EINVAL);
    ANSWER(fits(USER, two, FIXED, 0), NOG_EINVAL);
    ANSWER(fits(USER, two, FIXED + PAGE, 0), NOG_EINVAL);
    ANSWER(fits(USER, two, FIXED + 3 * PAGE, 0), NOG_EINVAL);
    ANSWER(fits(USER, two, FIXED + 4 * PAGE, 0), NOG_DONE);
    ANSWER(fits(USER, two, FIXED + 4 * PAGE - 1, NOG_RND), NOG_EINVAL);
    ANSWER(fits(USER, two, FIXED - PAGE - 1, NOG_RND), NOG_DONE);
    ANSWER(fits(USER, two, FIXED, NOG_RDONLY), NOG_EINVAL);
    ANSWER(fits(ROOT, two, FIXED, 0), NOG_DONE);
    ANSWER(fits(USER, two, FIXED - PAGE, NOG_REMAP), NOG_DONE);
    ANSWER(fits(USER, two, FIXED, 0), NOG_EINVAL);
    /* a piece that covers a part of the range is in the way of a new one */
    ANSWER(attach(USER, two, FIXED, NOG_REMAP), NOG_DONE);
    ANSWER(nog_store(&m, USER, FIXED, "a", 1), NOG_DONE);
    ANSWER(reserve(USER, FIXED, 1), NOG_EEXIST);
    ANSWER(release(USER, FIXED, 4), NOG_DONE);
    ANSWER(reserve(USER, FIXED, 4), NOG_EEXIST);
    ANSWER(reserve(USER, FIXED + PAGE, 3), NOG_EEXIST);
    ANSWER(reserve(USER, FIXED + 2 * PAGE, 2), NOG_DONE);
    ANSWER(nog_detach(&m, USER, FIXED), NOG_DONE);
    ANSWER(reserve(USER, FIXED, 2), NOG_DONE);
    ANSWER(fits(USER, two, FIXED, 0), NOG_EINVAL);
}

/* under Linux's rules too, and when no gap is left */
static void test_all(void) {
    nog_limits linux_limits = limits;
    linux_limits.rules = NOG_LINUX;
    ANSWER(nog_open(&m, &linux_limits, &ram, 1, &none, 0, processes, 3), NOG_DONE);
    uint64_t at = 0;
    int32_t two = make(2 * PAGE);
    ANSWER(reserve(USER, FIRST, (END - FIRST) / PAGE - 1), NOG_DONE);
    ANSWER(nog_attach(&m, USER, two, 0, 0, &at), NOG_ENOMEM);
    ANSWER(fits(USER, two, END - 2 * PAGE, 0), NOG_EINVAL);
    TEST(chosen(USER, make(PAGE)) == END - PAGE);
    ANSWER(release(USER, FIRST, (END - FIRST) / PAGE - 1), NOG_DONE);
    TEST(chosen(USER, two) == page(0));
}

/* no refusal changes a range, and none of these is a call */
static void test_refusals(void) {
    static const struct { uint64_t addr, len; } wrong[] = {
        {FIXED, 0}, {FIXED, 1}, {FIXED, PAGE - 1}, {FIXED, PAGE + 1}, {FIXED + 1, PAGE}, {FIXED - 1, PAGE}, {0, PAGE},
        {FIRST - PAGE, PAGE}, {FIRST - PAGE, 2 * PAGE}, {END, PAGE}, {END - PAGE, 2 * PAGE}, {FIXED, END},
        {UINT64_MAX - PAGE + 1, PAGE}, {PAGE, UINT64_MAX - PAGE + 1}, {FIXED, UINT64_MAX}, {UINT64_MAX, UINT64_MAX} };
    uint64_t before, calls;
    ANSWER(nog_close(&m), NOG_DONE);
    ANSWER(reserve(USER, FIXED, 1), NOG_CLOSED);
    ANSWER(reserve(USER, FIXED, 0), NOG_CLOSED);
    ANSWER(release(USER, FIXED, 1), NOG_CLOSED);
    ANSWER(open_usual(&m), NOG_DONE);
    int32_t one = make(PAGE);
    ANSWER(nog_calls(&m, &before), NOG_DONE);
    for (size_t i = 0; i < sizeof wrong / sizeof *wrong; i++) {
        uint32_t is_over = wrong[i].addr + wrong[i].len < wrong[i].addr;
        ANSWER(nog_reserve(&m, USER, wrong[i].addr, wrong[i].len), NOG_OUT_OF_RANGE);
        ANSWER(nog_release(&m, USER, wrong[i].addr, wrong[i].len), is_over ? NOG_OUT_OF_RANGE : NOG_ENOENT);
    }
    /* the ends */
    ANSWER(reserve(USER, FIRST, 1), NOG_DONE);
    ANSWER(reserve(USER, END - PAGE, 1), NOG_DONE);
    /* the same range, each part of it, and what it is a part of; those beside it are free */
    ANSWER(reserve(USER, FIXED, 4), NOG_DONE);
    ANSWER(reserve(USER, FIXED, 4), NOG_EEXIST);
    ANSWER(reserve(USER, FIXED, 1), NOG_EEXIST);
    ANSWER(reserve(USER, FIXED + 3 * PAGE, 2), NOG_EEXIST);
    ANSWER(reserve(USER, FIXED - PAGE, 2), NOG_EEXIST);
    ANSWER(reserve(USER, FIXED - PAGE, 9), NOG_EEXIST);
    ANSWER(reserve(ROOT, FIXED, 4), NOG_DONE);
    ANSWER(reserve(USER, FIXED - PAGE, 1), NOG_DONE);
    ANSWER(reserve(USER, FIXED + 4 * PAGE, 1), NOG_DONE);
    /* a release names the range as it was reserved */
    ANSWER(release(USER, FIXED, 3), NOG_ENOENT);
    ANSWER(release(USER, FIXED + PAGE, 3), NOG_ENOENT);
    ANSWER(release(USER, FIXED - PAGE, 5), NOG_ENOENT);
    ANSWER(release(UNDECLARED, FIXED, 4), NOG_ENOENT);
    ANSWER(nog_calls(&m, &calls), NOG_DONE);
    TEST(calls == before);
    for (uint64_t i = 0; i < 6; i++) ANSWER(fits(USER, one, FIXED - PAGE + i * PAGE, 0), NOG_EINVAL);
    ANSWER(release(USER, FIXED, 4), NOG_DONE);
    ANSWER(release(USER, FIXED, 4), NOG_ENOENT);
    for (uint64_t i = 0; i < 6; i++) ANSWER(fits(USER, one, FIXED - PAGE + i * PAGE, 0), i % 5 == 0 ? NOG_EINVAL : NOG_DONE);
    ANSWER(fits(ROOT, one, FIXED, 0), NOG_EINVAL);
}

/* a process need not exist; a child inherits no range, and its own ones stay; exec, exit and munmap keep them */
static void test_processes(void) {
    const nog_process again = {USER, 1, 200, 201}, undeclared = {UNDECLARED, 1, 0, 0};
    ANSWER(open_usual(&m), NOG_DONE);
    int32_t one = make(PAGE);
    ANSWER(reserve(USER, page(0), 1), NOG_DONE);
    ANSWER(reserve(UNDECLARED, page(0), 2), NOG_DONE);
    ANSWER(reserve(UNDECLARED, page(1), 1), NOG_EEXIST);
    ANSWER(nog_admit(&m, &undeclared), NOG_DONE);
    TEST(chosen(UNDECLARED, one) == page(2));
    ANSWER(attach(USER, one, page(1), 0), NOG_DONE);
    /* the parent's piece is not the child's yet */
    ANSWER(reserve(CHILD, page(1), 1), NOG_DONE);
    ANSWER(nog_fork(&m, USER, CHILD), NOG_DONE);
    ANSWER(release(CHILD, page(0), 1), NOG_ENOENT);
    TEST(chosen(CHILD, one) == page(0));
    ANSWER(nog_detach(&m, CHILD, page(1)), NOG_DONE);
    ANSWER(fits(CHILD, one, page(1), 0), NOG_EINVAL);
    ANSWER(reserve(CHILD, page(0), 1), NOG_DONE);
    TEST(chosen(CHILD, one) == page(2));
    /* a piece is in the way of its own process */
    ANSWER(reserve(USER, page(1), 1), NOG_EEXIST);
    ANSWER(nog_unmap(&m, USER, page(0), 2 * PAGE), NOG_DONE);
    ANSWER(reserve(USER, page(1), 1), NOG_DONE);
    ANSWER(nog_exec(&m, USER), NOG_DONE);
    TEST(chosen(USER, one) == page(2));
    ANSWER(nog_exit(&m, USER), NOG_DONE);
    ANSWER(reserve(USER, page(0), 1), NOG_EEXIST);
    ANSWER(reserve(USER, page(2), 1), NOG_DONE);
    ANSWER(nog_dismiss(&m, USER), NOG_DONE);
    ANSWER(nog_admit(&m, &again), NOG_DONE);
    TEST(chosen(USER, one) == page(3));
    for (uint64_t i = 0; i < 3; i++) ANSWER(release(USER, page(i), 1), NOG_DONE);
    TEST(chosen(USER, one) == page(0));
    TEST(chosen(CHILD, one) == page(2));
}

/* a snapshot has the ranges, and each machine has its own afterwards */
static void test_snapshot(void) {
    ANSWER(open_usual(&m), NOG_DONE);
    int32_t one = make(PAGE);
    ANSWER(reserve(USER, page(0), 1), NOG_DONE);
    ANSWER(reserve(CHILD, page(0), 1), NOG_DONE);
    ANSWER(nog_snapshot(&m, &copy), NOG_DONE);
    ANSWER(release(USER, page(0), 1), NOG_DONE);
    ANSWER(reserve(USER, page(1), 1), NOG_DONE);
    TEST(chosen(USER, one) == page(0));
    TEST(chosen_in(&copy, USER, one) == page(1));
    ANSWER(nog_release(&copy, USER, page(1), PAGE), NOG_ENOENT);
    ANSWER(nog_release(&copy, CHILD, page(0), PAGE), NOG_DONE);
    ANSWER(release(CHILD, page(0), 1), NOG_DONE);
    ANSWER(nog_close(&copy), NOG_DONE);
    /* a new machine has none */
    ANSWER(open_usual(&m), NOG_DONE);
    ANSWER(release(USER, page(1), 1), NOG_ENOENT);
}

/* ranges with one page between two, reserved from the highest down, and released in another order */
static void test_many(void) {
    ANSWER(open_usual(&m), NOG_DONE);
    int32_t one = make(PAGE), two = make(2 * PAGE);
    for (uint64_t i = MANY; i-- > 0;) ANSWER(reserve(USER, page(2 * i), 1), NOG_DONE);
    TEST(chosen(USER, one) == page(1));
    TEST(chosen(USER, two) == page(2 * MANY - 1));
    for (uint64_t i = 0; i < MANY; i++) {
        uint64_t number = 2 * (i * 7 % MANY);
        ANSWER(release(USER, page(number), 1), NOG_DONE);
        ANSWER(release(USER, page(number), 1), NOG_ENOENT);
        /* the first one is released at once */
        TEST(chosen(USER, one) == page(0));
    }
    TEST(chosen(USER, two) == page(0));
}

int main(void) {
    test_chosen();
    test_given();
    test_all();
    test_refusals();
    test_processes();
    test_snapshot();
    test_many();
    ANSWER(nog_close(&m), NOG_DONE);
    return finish("ranges");
}

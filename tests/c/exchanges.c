/* exchanges: exchanges and compares with exchange, copies within a machine, and where a page did not come in. */
#include "testing.h"

static nog_machine machine = NOG_MACHINE_INITIALIZER;
static uint64_t at;
static int32_t id;

static uint64_t calls(void) {
    uint64_t count = 0;
    ANSWER(nog_calls(&machine, &count), NOG_DONE);
    return count;
}

/* three pages of a segment at `at`, of USER */
static void open_with_pages(void) {
    ANSWER(open_usual(&machine), NOG_DONE);
    ANSWER(nog_get(&machine, USER, NOG_PRIVATE, 3 * PAGE, 0600, 0, &id), NOG_DONE);
    ANSWER(nog_attach(&machine, USER, id, 0, 0, &at), NOG_DONE);
}

static int is(uint64_t addr, const char *text, size_t len) {
    uint8_t found[64] = {0};
    ANSWER(nog_load(&machine, USER, addr, found, len), NOG_DONE);
    return memcmp(found, text, len) == 0;
}

static uint32_t exchange(uint32_t pid, uint64_t addr, const char *bytes, size_t len, uint8_t *before) {
    return nog_exchange(&machine, pid, addr, (const uint8_t *)bytes, len, before, len);
}

static uint32_t compare(uint32_t pid, uint64_t addr, const char *expected, const char *bytes, size_t len, uint8_t *before) {
    return nog_compare_exchange(&machine, pid, addr, (const uint8_t *)expected, len, (const uint8_t *)bytes, len, before, len);
}

static void exchanged(void) {
    uint8_t before[64];
    open_with_pages();
    uint64_t counted = calls();
    ANSWER(nog_store(&machine, USER, at + 8, (const uint8_t *)"abcdefgh", 8), NOG_DONE);
    ANSWER(exchange(USER, at + 8, "01234567", 8, before), NOG_DONE);
    TEST(memcmp(before, "abcdefgh", 8) == 0 && is(at + 8, "01234567", 8));
    ANSWER(exchange(USER, at + 10, "wxyz", 4, before), NOG_DONE);
    TEST(memcmp(before, "2345", 4) == 0 && is(at + 8, "01wxyz67", 8));
    /* over the border of two pages, of which none was touched */
    ANSWER(exchange(USER, at + 2 * PAGE - 3, "hello", 5, before), NOG_DONE);
    TEST(memcmp(before, "\0\0\0\0\0", 5) == 0 && is(at + 2 * PAGE - 3, "hello", 5));
    /* each is counted as one call, as a load is */
    TEST(calls() == counted + 7);
}

static void compared(void) {
    uint8_t before[64];
    open_with_pages();
    ANSWER(nog_store(&machine, USER, at, (const uint8_t *)"abcdefgh", 8), NOG_DONE);
    ANSWER(compare(USER, at, "abcdefgh", "01234567", 8, before), NOG_DONE);
    TEST(memcmp(before, "abcdefgh", 8) == 0 && is(at, "01234567", 8));
    /* another byte than the expected ones, the first or the last: nothing is replaced, and what is there is shown */
    ANSWER(compare(USER, at, "x1234567", "ABCDEFGH", 8, before), NOG_DONE);
    TEST(memcmp(before, "01234567", 8) == 0 && is(at, "01234567", 8));
    ANSWER(compare(USER, at, "0123456x", "ABCDEFGH", 8, before), NOG_DONE);
    TEST(memcmp(before, "01234567", 8) == 0 && is(at, "01234567", 8));
    ANSWER(compare(USER, at + PAGE - 2, "\0\0\0\0", "wxyz", 4, before), NOG_DONE);
    TEST(is(at + PAGE - 2, "wxyz", 4));
}

/* a compare that finds other bytes leaves its page clean: a flush round has nothing to write */
static void clean_pages(void) {
    uint8_t before[8];
    nog_flushed flushed = {9, 9};
    open_with_pages();
    ANSWER(compare(USER, at, "abcd", "0123", 4, before), NOG_DONE);
    ANSWER(nog_flush(&machine, 9, &flushed), NOG_DONE);
    TEST(flushed.written == 0 && flushed.failed == 0);
    ANSWER(compare(USER, at, "\0\0\0\0", "0123", 4, before), NOG_DONE);
    ANSWER(nog_flush(&machine, 9, &flushed), NOG_DONE);
    TEST(flushed.written == 1);
    ANSWER(exchange(USER, at, "0123", 4, before), NOG_DONE);
    ANSWER(nog_flush(&machine, 9, &flushed), NOG_DONE);
    TEST(flushed.written == 1);
}

static void refusals(void) {
    static const uint8_t long_bytes[65], others[65];
    uint8_t before[80];
    uint64_t base = 0, found = 9;
    memset(before, 7, sizeof before);
    nog_machine closed = NOG_MACHINE_INITIALIZER;
    ANSWER(nog_exchange(&closed, USER, LOWEST, (const uint8_t *)"a", 1, before, 1), NOG_CLOSED);
    ANSWER(nog_compare_exchange(&closed, USER, LOWEST, (const uint8_t *)"a", 1, (const uint8_t *)"b", 1, before, 1), NOG_CLOSED);
    ANSWER(nog_absent_at(&closed, USER, LOWEST, 1, &found), NOG_CLOSED);
    TEST(found == 9);
    open_with_pages();
    ANSWER(nog_store(&machine, USER, at, (const uint8_t *)"abcd", 4), NOG_DONE);
    ANSWER(nog_attach(&machine, USER, id, 0, NOG_RDONLY, &base), NOG_DONE);
    uint64_t counted = calls();
    ANSWER(nog_exchange(&machine, USER, at, NULL, 0, NULL, 0), NOG_OUT_OF_RANGE);
    ANSWER(nog_exchange(&machine, USER, at, long_bytes, 65, before, 65), NOG_OUT_OF_RANGE);
    ANSWER(nog_exchange(&machine, USER, at, (const uint8_t *)"wxyz", 4, before, 3), NOG_OUT_OF_RANGE);
    ANSWER(nog_exchange(&machine, USER, at, (const uint8_t *)"wxyz", 4, before, 5), NOG_OUT_OF_RANGE);
    ANSWER(nog_compare_exchange(&machine, USER, at, (const uint8_t *)"abcd", 3, (const uint8_t *)"wxyz", 4, before, 4), NOG_OUT_OF_RANGE);
    ANSWER(nog_compare_exchange(&machine, USER, at, (const uint8_t *)"abcd", 4, (const uint8_t *)"wxyz", 4, before, 3), NOG_OUT_OF_RANGE);
    ANSWER(nog_compare_exchange(&machine, USER, at, (const uint8_t *)"abcd", 4, (const uint8_t *)"wxy", 3, before, 4), NOG_OUT_OF_RANGE);
    ANSWER(nog_compare_exchange(&machine, USER, at, long_bytes, 65, others, 65, before, 65), NOG_OUT_OF_RANGE);
    ANSWER(nog_compare_exchange(&machine, USER, at, NULL, 0, NULL, 0, NULL, 0), NOG_OUT_OF_RANGE);
    TEST(calls() == counted);
    ANSWER(exchange(CHILD, at, "wxyz", 4, before), NOG_ESRCH);
    ANSWER(exchange(ROOT, at, "wxyz", 4, before), NOG_SIGSEGV);
    ANSWER(exchange(USER, base, "wxyz", 4, before), NOG_SIGSEGV);
    ANSWER(exchange(USER, at + 3 * PAGE + 1, "wxyz", 4, before), NOG_SIGSEGV);
    ANSWER(compare(CHILD, at, "abcd", "wxyz", 4, before), NOG_ESRCH);
    ANSWER(compare(USER, base, "abcd", "wxyz", 4, before), NOG_SIGSEGV);
    /* for writing, also where the bytes are not the expected ones */
    ANSWER(compare(USER, base, "abc-", "wxyz", 4, before), NOG_SIGSEGV);
    ANSWER(compare(USER, UINT64_MAX - 1, "abcd", "wxyz", 4, before), NOG_SIGSEGV);
    TEST(calls() == counted + 8);
    for (size_t i = 0; i < sizeof before; i++) TEST(before[i] == 7);
    TEST(is(at, "abcd", 4));
}

/* the area fails at its first write, when a page has to leave its frame for the third one */
static void failing_area(void) {
    static const nog_area one = {NOG_RAM, 8};
    static const nog_failure first = {.area = 0, .side = 0, .call = 1, .is_write = 1};
    static const nog_limits two = {.shmmax = 65536, .shmmni = 4, .shmall = 64, .frames = 2, .memlock = 0};
    uint8_t before[8] = {7, 7, 7, 7, 7, 7, 7, 7};
    uint64_t absent = 9;
    ANSWER(nog_open(&machine, &two, &one, 1, &first, 1, processes, 3), NOG_DONE);
    ANSWER(nog_get(&machine, USER, NOG_PRIVATE, 4 * PAGE, 0600, 0, &id), NOG_DONE);
    ANSWER(nog_attach(&machine, USER, id, 0, 0, &at), NOG_DONE);
    ANSWER(nog_store(&machine, USER, at, (const uint8_t *)"a", 1), NOG_DONE);
    ANSWER(nog_store(&machine, USER, at + PAGE, (const uint8_t *)"b", 1), NOG_DONE);
    ANSWER(exchange(USER, at + 2 * PAGE + 5, "wxyz", 4, before), NOG_SIGBUS);
    TEST(before[0] == 7 && before[3] == 7);
    ANSWER(nog_absent_at(&machine, USER, at + 2 * PAGE + 5, 4, &absent), NOG_DONE);
    TEST(absent == at + 2 * PAGE + 5);
    /* the area failed at one call: the next one is done */
    ANSWER(exchange(USER, at + 2 * PAGE + 5, "wxyz", 4, before), NOG_DONE);
    TEST(memcmp(before, "\0\0\0\0", 4) == 0);
    ANSWER(nog_absent_at(&machine, USER, at + 2 * PAGE + 5, 4, &absent), NOG_OUT_OF_RANGE);
}

/* where a page is in no frame: two frames, four pages */
static void absent(void) {
    static const nog_limits two = {.shmmax = 65536, .shmmni = 4, .shmall = 64, .frames = 2, .memlock = 0};
    uint64_t found = 9;
    ANSWER(nog_open(&machine, &two, &ram, 1, &none, 0, processes, 3), NOG_DONE);
    ANSWER(nog_get(&machine, USER, NOG_PRIVATE, 4 * PAGE, 0600, 0, &id), NOG_DONE);
    ANSWER(nog_attach(&machine, USER, id, 0, 0, &at), NOG_DONE);
    ANSWER(nog_absent_at(&machine, USER, at + 7, 1, &found), NOG_DONE);
    TEST(found == at + 7);
    ANSWER(nog_store(&machine, USER, at, (const uint8_t *)"a", 1), NOG_DONE);
    ANSWER(nog_store(&machine, USER, at + PAGE, (const uint8_t *)"b", 1), NOG_DONE);
    ANSWER(nog_absent_at(&machine, USER, at + 7, 2 * PAGE - 7, &found), NOG_OUT_OF_RANGE);
    ANSWER(nog_absent_at(&machine, USER, at + 7, 2 * PAGE, &found), NOG_DONE);
    TEST(found == at + 2 * PAGE);
    /* no byte: and addresses without a piece, which a SIGSEGV is about */
    ANSWER(nog_absent_at(&machine, USER, at, 0, &found), NOG_OUT_OF_RANGE);
    ANSWER(nog_absent_at(&machine, USER, at - 1, 3 * PAGE, &found), NOG_OUT_OF_RANGE);
    ANSWER(nog_absent_at(&machine, ROOT, at, 3 * PAGE, &found), NOG_OUT_OF_RANGE);
    ANSWER(nog_absent_at(&machine, CHILD, at, 1, &found), NOG_OUT_OF_RANGE);
    ANSWER(nog_absent_at(&machine, USER, UINT64_MAX, 5, &found), NOG_OUT_OF_RANGE);
    TEST(found == at + 2 * PAGE);
}

/* overlapping ranges, up and down, by memmove of the same bytes */
static void overlaps(uint64_t from, uint64_t to, uint64_t len) {
    static uint8_t held[3 * PAGE], found[3 * PAGE];
    uint64_t done = 0;
    for (size_t i = 0; i < sizeof held; i++) held[i] = (uint8_t)(i * 7 + i / 256);
    ANSWER(nog_write(&machine, USER, at, held, sizeof held, &done), NOG_DONE);
    memmove(held + to, held + from, (size_t)len);
    ANSWER(nog_copy(&machine, USER, at + from, USER, at + to, len, &done), NOG_DONE);
    TEST(done == len);
    ANSWER(nog_read(&machine, USER, at, found, sizeof found, &done), NOG_DONE);
    TEST(memcmp(held, found, sizeof held) == 0);
}

static void copies(void) {
    uint64_t base = 0, done = 9;
    open_with_pages();
    overlaps(0, 100, 2 * PAGE);
    overlaps(100, 0, 2 * PAGE);
    overlaps(PAGE - 3, 5, PAGE + 7);
    overlaps(17, 17, PAGE);
    /* to another process, through another attach of the same segment at another address */
    ANSWER(nog_fork(&machine, USER, CHILD), NOG_DONE);
    ANSWER(nog_attach(&machine, CHILD, id, at + 16 * PAGE, 0, &base), NOG_DONE);
    ANSWER(nog_store(&machine, USER, at, (const uint8_t *)"abcdefgh", 8), NOG_DONE);
    ANSWER(nog_copy(&machine, USER, at, CHILD, base + 2, 6, &done), NOG_DONE);
    TEST(done == 6 && is(at, "ababcdef", 8));
    /* no bytes: no call, not even of a process that is not live */
    uint64_t counted = calls();
    ANSWER(nog_copy(&machine, UNDECLARED, 0, UNDECLARED, 0, 0, &done), NOG_DONE);
    TEST(done == 0 && calls() == counted);
}

/* what can be read is written, and the answer is that of the read; or the write stops before */
static void half_copies(void) {
    uint64_t done = 9;
    nog_machine closed = NOG_MACHINE_INITIALIZER;
    ANSWER(nog_copy(&closed, USER, 0, USER, 0, 4, &done), NOG_CLOSED);
    TEST(done == 9);
    open_with_pages();
    ANSWER(nog_store(&machine, USER, at + 3 * PAGE - 4, (const uint8_t *)"wxyz", 4), NOG_DONE);
    ANSWER(nog_copy(&machine, USER, at + 3 * PAGE - 4, USER, at, 8, &done), NOG_SIGSEGV);
    TEST(done == 4 && is(at, "wxyz\0\0\0\0", 8));
    ANSWER(nog_copy(&machine, USER, at, USER, at + 3 * PAGE - 2, 4, &done), NOG_SIGSEGV);
    TEST(done == 2 && is(at + 3 * PAGE - 4, "wxwx", 4));
    ANSWER(nog_copy(&machine, ROOT, at, USER, at, 4, &done), NOG_SIGSEGV);
    TEST(done == 0);
    ANSWER(nog_copy(&machine, UNDECLARED, at, USER, at, 4, &done), NOG_ESRCH);
    ANSWER(nog_copy(&machine, USER, at, UNDECLARED, at, 4, &done), NOG_ESRCH);
    TEST(done == 0);
    /* the write's answer comes before the read's */
    ANSWER(nog_copy(&machine, USER, at + 3 * PAGE - 4, UNDECLARED, at, 8, &done), NOG_ESRCH);
    TEST(done == 0);
}

int main(void) {
    exchanged();
    compared();
    clean_pages();
    refusals();
    failing_area();
    absent();
    copies();
    half_copies();
    ANSWER(nog_close(&machine), NOG_DONE);
    return finish("exchanges");
}

/* What the test programs share: a machine to begin with, and a count of what was tested. */
#ifndef TESTING_H
#define TESTING_H
#include <inttypes.h>
#include <stdio.h>
#include <string.h>
#include <nogcuvema.h>

enum { ROOT = 1, USER = 2, CHILD = 3, UNDECLARED = 4, PAGE = 4096, LOWEST = 0x40000000 };

static const nog_limits limits = {.shmmax = 65536, .shmmni = 4, .shmall = 64, .frames = 4, .memlock = 1};
static const nog_area ram = {NOG_RAM, 64};
static const nog_failure none = {.call = 1};
static const nog_process processes[] = {{ROOT, 1, 0, 0}, {USER, 1, 200, 201}, {CHILD, 0, 0, 0}};

static unsigned tested, differ;

/* counts a test, and prints its place if it failed */
static void test(int is_right, const char *file, int line, const char *what, uint64_t found) {
    tested++;
    if (is_right) return;
    differ++;
    printf("%s:%d: %s: %" PRIu64 "\n", file, line, what, found);
}

#define TEST(condition) test((condition) != 0, __FILE__, __LINE__, #condition, 0)
#define ANSWER(call, code) answer((call), (code), __FILE__, __LINE__, #call)

static void answer(uint32_t found, uint32_t wanted, const char *file, int line, const char *what) {
    test(found == wanted, file, line, what, found);
}

static inline uint32_t open_usual(nog_machine *machine) {
    return nog_open(machine, &limits, &ram, 1, &none, 0, processes, 3);
}

static int finish(const char *name) {
    printf("%s: %u tests, %u failed\n", name, tested, differ);
    return differ != 0;
}

#endif

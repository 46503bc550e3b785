/* bench: calls a second through the C library, and the memory of this process before and after 20 million of them.
   The status is 1 if the memory grew or a call was refused. */
#define _POSIX_C_SOURCE 200809L
#include <inttypes.h>
#include <stdio.h>
#include <time.h>
#include <nogcuvema.h>

enum { PID = 1, PAGE = 4096, PAGES = 16, WARMING = 100000, ACCESSES = 2000000, ROUNDS = 500000, MANY = 20000000 };

struct bench { nog_machine machine; uint64_t at; uint32_t refused; };
typedef uint32_t (*call)(struct bench *b, uint32_t number);

static uint64_t place_of(const struct bench *b, uint32_t number) {
    return b->at + number % PAGES * PAGE + 8 * (number % 500);
}

static uint32_t load(struct bench *b, uint32_t number) {
    uint8_t bytes[8];
    return nog_load(&b->machine, PID, place_of(b, number), bytes, sizeof bytes);
}

static uint32_t store(struct bench *b, uint32_t number) {
    const uint8_t bytes[8] = {1, 2, 3, 4, 5, 6, 7, 8};
    return nog_store(&b->machine, PID, place_of(b, number), bytes, sizeof bytes);
}

static uint32_t load_or_store(struct bench *b, uint32_t number) {
    return number % 2 == 0 ? load(b, number) : store(b, number);
}

static uint32_t make_round(struct bench *b, uint32_t number) {
    int32_t id = 0;
    uint64_t at = 0;
    uint32_t code = nog_get(&b->machine, PID, NOG_PRIVATE, 1 + number % PAGE, 0600, 0, &id);
    if (code == NOG_DONE) code = nog_attach(&b->machine, PID, id, 0, 0, &at);
    if (code == NOG_DONE) code = nog_detach(&b->machine, PID, at);
    if (code == NOG_DONE) code = nog_remove(&b->machine, PID, id);
    return code;
}

/* the seconds that this many calls take */
static double measure(struct bench *b, call make, uint32_t calls) {
    struct timespec began, ended;
    clock_gettime(CLOCK_MONOTONIC, &began);
    for (uint32_t i = 0; i < calls; i++) b->refused += make(b, i) != NOG_DONE;
    clock_gettime(CLOCK_MONOTONIC, &ended);
    return (double)(ended.tv_sec - began.tv_sec) + (double)(ended.tv_nsec - began.tv_nsec) / 1e9;
}

/* kilobytes of this process in memory, counted page by page; what reading them takes is taken at the first time */
static long resident(void) {
    long kilobytes = 0;
    char line[256];
    FILE *file = fopen("/proc/self/smaps_rollup", "r");
    while (file && fgets(line, sizeof line, file) && sscanf(line, "Rss: %ld", &kilobytes) != 1) continue;
    if (file) fclose(file);
    return kilobytes;
}

static uint32_t start(struct bench *b) {
    const nog_limits limits = {.shmmax = 16777216, .shmmni = 16, .shmall = 64, .frames = 64, .memlock = 1};
    const nog_area swap = {NOG_SPARSE, 64};
    const nog_failure none = {.call = 1};
    const nog_process process = {.pid = PID, .is_born = 1, .uid = 100, .gid = 100};
    int32_t id = 0;
    uint32_t code = nog_open(&b->machine, &limits, &swap, 1, &none, 0, &process, 1);
    if (code == NOG_DONE) code = nog_get(&b->machine, PID, NOG_PRIVATE, PAGES * PAGE, 0600, 0, &id);
    if (code == NOG_DONE) code = nog_attach(&b->machine, PID, id, 0, 0, &b->at);
    return code;
}

/* milliseconds and kilobytes that the opening of a large machine takes: 2^20 frames and 2^20 slots, none of them used yet */
static uint32_t print_opening(void) {
    const nog_limits limits = {.shmmax = 1u << 30, .shmmni = 32768, .shmall = 1u << 20, .frames = 1u << 20, .memlock = 1,
                               .most_pieces = 65530, .most_processes = 32768, .most_slots = 1u << 20};
    const nog_area swap = {NOG_SPARSE, 1u << 20};
    const nog_failure none = {.call = 1};
    const nog_process process = {.pid = PID, .is_born = 1, .uid = 100, .gid = 100};
    nog_machine machine = NOG_MACHINE_INITIALIZER;
    struct timespec began, ended;
    resident();
    long before = resident();
    clock_gettime(CLOCK_MONOTONIC, &began);
    uint32_t code = nog_open(&machine, &limits, &swap, 1, &none, 0, &process, 1);
    clock_gettime(CLOCK_MONOTONIC, &ended);
    double took = (double)(ended.tv_sec - began.tv_sec) * 1e3 + (double)(ended.tv_nsec - began.tv_nsec) / 1e6;
    printf("%-44s %9.1f %9ld\n", "ms and kB of opening 2^20 frames and slots", took, resident() - before);
    fflush(stdout);
    nog_close(&machine);
    return code;
}

static void print_row(struct bench *b, const char *name, call make, uint32_t calls) {
    measure(b, make, WARMING);
    printf("%-44s %9.0f\n", name, calls / measure(b, make, calls));
    fflush(stdout);
}

int main(void) {
    struct bench b = {.machine = NOG_MACHINE_INITIALIZER};
    if (print_opening() != NOG_DONE || start(&b) != NOG_DONE) return 1;
    printf("%-44s %9s\n", "calls a second from C", "");
    print_row(&b, "resident loads of 8 bytes", load, ACCESSES);
    print_row(&b, "resident stores of 8 bytes", store, ACCESSES);
    print_row(&b, "rounds of get, attach, detach and remove", make_round, ROUNDS);
    measure(&b, load_or_store, WARMING);
    resident();
    long before = resident();
    measure(&b, load_or_store, MANY);
    long behind = resident();
    printf("%-44s %9ld %9ld\n", "kB before and behind 20,000,000 accesses", before, behind);
    nog_close(&b.machine);
    if (b.refused) fprintf(stderr, "bench: %" PRIu32 " calls were refused\n", b.refused);
    return b.refused || before == 0 || behind > before;
}

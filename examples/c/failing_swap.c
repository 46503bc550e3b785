/* A test bench: pages of its workload leave for swap and come back. It runs once as it is, and then once for each read and
   each write of the swap area, which fails in that run. What the workload saw and every byte that it left are compared.

   Eight pages in two frames, ten rounds over them: each access needs a page that is in no frame, and each page that leaves
   one was changed. The first round reads no page, and the reading at the end reads all eight and has the last two changed
   ones written: that makes 80 reads and 80 writes. */
#include <inttypes.h>
#include <stdio.h>
#include <string.h>
#include <nogcuvema.h>

enum { PID = 1, PAGE = 4096, PAGES = 8, ROUNDS = 10, ACCESSES = ROUNDS * PAGES, SIZE = PAGES * PAGE };

struct run {
    uint64_t numbers[ACCESSES];  /* what was there before a number was added */
    uint8_t bytes[SIZE];         /* the segment at the end */
    unsigned refused;            /* accesses that returned NOG_SIGBUS and were made again */
    nog_tally tally;
};

static int is_again(struct run *run, uint32_t code) {
    return code == NOG_SIGBUS && ++run->refused < 2;
}

/* each round adds another number, at another place of each page */
static uint32_t make_rounds(nog_machine *machine, uint64_t at, struct run *run) {
    uint32_t code = NOG_DONE;
    for (uint64_t i = 0; i < ACCESSES && code == NOG_DONE; i++) {
        uint64_t addr = at + i % PAGES * PAGE + 8 * (i / PAGES % 4);
        do code = nog_add(machine, PID, addr, 1000003 * (i + 1), &run->numbers[i]);
        while (is_again(run, code));
    }
    return code;
}

static uint32_t read_all(nog_machine *machine, uint64_t at, struct run *run) {
    uint64_t total = 0, done;
    uint32_t code;
    do {
        code = nog_read(machine, PID, at + total, run->bytes + total, SIZE - total, &done);
        total += done;
    } while (is_again(run, code));
    return code;
}

/* the whole workload on a machine of its own, with this failure or none */
static uint32_t run_workload(uint32_t kind, const nog_failure *failure, size_t failure_count, struct run *run) {
    const nog_limits limits = {.shmmax = SIZE, .shmmni = 1, .shmall = PAGES, .frames = 2, .memlock = 0};
    const nog_area swap = {kind, PAGES};
    const nog_process process = {.pid = PID, .is_born = 1, .uid = 100, .gid = 100};
    nog_machine machine = NOG_MACHINE_INITIALIZER;
    int32_t id = 0;
    uint64_t at = 0;
    memset(run, 0, sizeof *run);
    uint32_t code = nog_open(&machine, &limits, &swap, 1, failure, failure_count, &process, 1);
    if (code == NOG_DONE) code = nog_get(&machine, PID, NOG_PRIVATE, SIZE, 0600, 0, &id);
    if (code == NOG_DONE) code = nog_attach(&machine, PID, id, 0, 0, &at);
    if (code == NOG_DONE) code = make_rounds(&machine, at, run);
    if (code == NOG_DONE) code = read_all(&machine, at, run);
    if (code == NOG_DONE) code = nog_tally_of(&machine, &run->tally);
    nog_close(&machine);
    return code;
}

/* a run in which one call of the area fails: whether it was refused as often as it should be, and all else is the same */
static int is_same(uint32_t kind, nog_failure failure, unsigned refused, const struct run *whole) {
    static struct run run;
    uint32_t code = run_workload(kind, &failure, 1, &run);
    int is_right = code == NOG_DONE && run.refused == refused && run.tally.failures == refused
        && memcmp(run.numbers, whole->numbers, sizeof run.numbers) == 0
        && memcmp(run.bytes, whole->bytes, sizeof run.bytes) == 0;
    if (!is_right)
        printf("%s %" PRIu64 " failed: answer %" PRIu32 ", refused %u times, counted %" PRIu64 "\n",
               failure.is_write ? "write" : "read", failure.call, code, run.refused, run.tally.failures);
    return is_right;
}

/* one area alone refuses the access; a mirror has the page on its other side */
static int try_each(const char *name, uint32_t kind, unsigned refused) {
    static struct run whole;
    const nog_failure none = {.call = 1};
    unsigned wrong = 0;
    if (run_workload(kind, &none, 0, &whole) != NOG_DONE || whole.refused != 0) return 0;
    for (uint32_t is_write = 0; is_write < 2; is_write++) {
        uint64_t calls = is_write ? whole.tally.outs : whole.tally.ins;
        for (uint64_t call = 1; call <= calls; call++)
            wrong += !is_same(kind, (nog_failure){.is_write = is_write, .call = call}, refused, &whole);
    }
    printf("%s: each of %" PRIu64 " reads and %" PRIu64 " writes failed once; accesses refused in a run: %u; "
           "runs that differ: %u\n", name, whole.tally.ins, whole.tally.outs, refused, wrong);
    return wrong == 0;
}

int main(void) {
    int is_right = try_each("one area", NOG_RAM, 1);
    is_right &= try_each("a mirror", NOG_MIRROR, 0);
    return is_right ? 0 : 1;
}

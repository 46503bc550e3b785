/* An emulator that keeps all bytes of its guests itself, and asks the library only what the calls answer. Each segment's
   bytes are one array of the emulator's, so a guest's access costs what an access to its other memory costs. The machine has
   two frames, because nothing is ever loaded from it. All rules of the library remain: identifiers, keys, permissions,
   limits, addresses, attach counts and the end of segments. What is gone are the bytes, which the emulator keeps, and
   paging. */
#include <inttypes.h>
#include <stdio.h>
#include <stdlib.h>
#include <string.h>
#include <nogcuvema_linux.h>

enum { PAGE = 4096, FIRST = 1, CHILD = 2, SEGMENTS = 16, PIECES = 8, KEY = 7, SIZE = 2 * PAGE };

static const nog_limits limits = {.shmmax = 1 << 24, .shmmni = SEGMENTS, .shmall = 4096, .frames = 2, .most_pieces = PIECES,
                                  .most_processes = 8, .most_slots = 4096, .rules = NOG_LINUX};
static const nog_area area = {NOG_SPARSE, 4096};
static const nog_failure none = {.call = 1};
static const nog_process people[] = {{FIRST, 1, 100, 100}, {CHILD, 0, 0, 0}};
static nog_machine machine = NOG_MACHINE_INITIALIZER;

/* the emulator's own bytes of the segment that has each index, and its identifier there */
static struct { int32_t id; uint8_t *bytes; } kept[SEGMENTS];
/* how many destroyed segments of each index the library named */
static uint32_t told_of[SEGMENTS];

static void die(const char *why) {
    fprintf(stderr, "rules_only: %s\n", why);
    exit(1);
}

/* After a shmget: a new segment gets zeroed bytes, in whole pages. */
static void keep(int64_t id) {
    nog_segment segment;
    size_t index = (size_t)(id % NOG_LINUX_SEQUENCE);
    if (nog_segment_of(&machine, (int32_t)id, &segment) != NOG_DONE) die("no such segment");
    if (kept[index].bytes && kept[index].id == id) return;
    kept[index].id = (int32_t)id;
    kept[index].bytes = calloc((segment.size + PAGE - 1) / PAGE, PAGE);
    if (!kept[index].bytes) die("out of memory");
}

/* After whatever may destroy a segment: shmctl, shmdt, a remap, munmap, exec and exit. */
static void forget_destroyed(void) {
    int32_t id;
    while (nog_gone(&machine, told_of, SEGMENTS, &id) == NOG_DONE) {
        size_t index = (size_t)(id % NOG_LINUX_SEQUENCE);
        printf("segment %" PRId32 " is destroyed\n", id);
        free(kept[index].bytes);
        kept[index].bytes = NULL;
    }
}

/* The byte at an address, or nothing: the guest then gets SIGSEGV. A real emulator keeps the result in its soft TLB, and
   empties that after a call that changes the process's pieces. */
static uint8_t *byte_at(uint32_t pid, uint64_t addr, int is_write) {
    nog_piece piece;
    if (nog_piece_of(&machine, pid, addr, &piece) != NOG_DONE || (is_write && !piece.is_writable)) return NULL;
    return kept[piece.segment % NOG_LINUX_SEQUENCE].bytes + (uint64_t)piece.first_page * PAGE + (addr - piece.base);
}

static void store(uint32_t pid, uint64_t addr, uint8_t value) {
    uint8_t *byte = byte_at(pid, addr, 1);
    if (byte) *byte = value;
    printf("process %" PRIu32 " stores %d at 0x%" PRIx64 "%s\n", pid, value, addr, byte ? "" : ": SIGSEGV");
}

static void load(uint32_t pid, uint64_t addr) {
    const uint8_t *byte = byte_at(pid, addr, 0);
    if (byte) printf("process %" PRIu32 " loads %d from 0x%" PRIx64 "\n", pid, *byte, addr);
    else printf("process %" PRIu32 " loads from 0x%" PRIx64 ": SIGSEGV\n", pid, addr);
}

/* a call's result, as a guest's register has it */
static int64_t told(const char *call, uint32_t pid, int64_t result) {
    if (result < 0) printf("process %" PRIu32 ": %s fails with errno %" PRId64 "\n", pid, call, -result);
    else printf("process %" PRIu32 ": %s returns 0x%" PRIx64 "\n", pid, call, (uint64_t)result);
    forget_destroyed();
    return result;
}

int main(void) {
    const nog_linux_memory no_memory = {0};
    if (nog_open(&machine, &limits, &area, 1, &none, 0, people, 2) != NOG_DONE) die("no machine");
    int64_t id = told("shmget", FIRST, nog_linux_shmget(&machine, FIRST, KEY, SIZE, 0600 | NOG_CREAT));
    keep(id);
    uint64_t at = (uint64_t)told("shmat", FIRST, nog_linux_shmat(&machine, FIRST, (int32_t)id, 0, 0));
    store(FIRST, at + PAGE, 42);
    told("fork", FIRST, nog_linux_answer(nog_fork(&machine, FIRST, CHILD), 0));
    load(CHILD, at + PAGE);
    uint64_t other = (uint64_t)told("shmat", CHILD, nog_linux_shmat(&machine, CHILD, (int32_t)id, 0x50000000, NOG_RDONLY));
    load(CHILD, other + PAGE);
    store(CHILD, other, 1);
    load(CHILD, other + SIZE);
    told("shmat", CHILD, nog_linux_shmat(&machine, CHILD, (int32_t)id, 0x50001000, 0));
    told("shmctl", FIRST, nog_linux_shmctl(&machine, &limits, FIRST, (int32_t)id, NOG_LINUX_RMID, 0, &no_memory));
    told("exit", CHILD, nog_linux_answer(nog_exit(&machine, CHILD), 0));
    load(FIRST, at + PAGE);
    told("shmdt", FIRST, nog_linux_shmdt(&machine, FIRST, at));
    load(FIRST, at + PAGE);
    nog_close(&machine);
    return 0;
}

/* bytes: how many bytes a call asks of the heap, from the smallest limits to the largest, and which calls ask for none. Two
   calls that differ in one limit differ by the bytes of what there is more of. It is linked with --wrap for malloc and
   realloc, so that the library's own allocations come here; a block that grows counts with its new size. */
#include <stdlib.h>
#include "testing.h"

/* bytes of one of each, by its parts: a flag for a number that may be missing has that number's size */
enum {
    OWNER = 12,       /* of a slot: a flag, a segment and a page */
    RETURNED = 4,     /* of a slot: its number, once it is given back */
    FRAME = 16,       /* an owner, its referenced bit and its dirty bit, up to the next multiple of 4 */
    MARK = 1,         /* of a block of 64 frames: whether the clock's hand skips it */
    PAGE_PLACE = 20,  /* of a page of a segment: a flag and a frame; a flag, an area and a slot */
    TRANSLATION = 8,  /* of an attached page: a flag and a frame */
    RUN_PLACE = 4,    /* of 256 pages: where their places, or their translations, are stored */
    PIECE = 32,       /* an address and a key of 8 bytes, a segment, its first page, its pages, and whether it is writable */
    MOST_PIECES = 256,
    ROOM = 16,        /* of a slot of a sparse area: a flag and where its page is, 8 bytes each */
    GOOD = 2,         /* of a slot of a mirror: whether each side is good */
    PROCESS = 16      /* a pid, a flag, a user and a group */
};

static uint64_t asked;

void *__real_malloc(size_t size);
void *__real_realloc(void *block, size_t size);
void *__wrap_malloc(size_t size);
void *__wrap_realloc(void *block, size_t size);

void *__wrap_malloc(size_t size) {
    asked += size;
    return __real_malloc(size);
}

void *__wrap_realloc(void *block, size_t size) {
    asked += size;
    return __real_realloc(block, size);
}

static nog_machine machine = NOG_MACHINE_INITIALIZER;

static const nog_process six[] = {{1, 1, 0, 0}, {2, 0, 0, 0}, {3, 0, 0, 0}, {4, 0, 0, 0}, {5, 0, 0, 0}, {6, 0, 0, 0}};

/* the bytes that a start asks for */
static uint64_t opening_of(nog_limits bounds, nog_area area, size_t count) {
    asked = 0;
    ANSWER(nog_open(&machine, &bounds, &area, 1, &none, 0, six, count), NOG_DONE);
    return asked;
}

static uint64_t opening(nog_limits bounds, nog_area area) { return opening_of(bounds, area, 1); }

static const nog_limits small = {.shmmax = 16777216, .shmmni = 4, .shmall = 4096, .frames = 2, .memlock = 0};

static void openings(void) {
    static const nog_area one_slot[] = {{NOG_RAM, 1}, {NOG_SPARSE, 1}, {NOG_MIRROR, 1}};
    static const nog_area all_slots[] = {{NOG_RAM, 65536}, {NOG_SPARSE, 65536}, {NOG_MIRROR, 65536}};
    static const uint64_t a_slot[] = {PAGE + OWNER, ROOM + OWNER, 2 * PAGE + GOOD + OWNER};
    nog_limits frames = small;
    frames.frames = 4096;
    TEST(opening(frames, ram) - opening(small, ram) == 4094 * (uint64_t)(PAGE + FRAME) + 4096 / 64 * MARK);
    /* a list for one number has room for four */
    for (int i = 0; i < 3; i++)
        TEST(opening(small, all_slots[i]) - opening(small, one_slot[i]) == 65535 * a_slot[i] + 65532 * (uint64_t)RETURNED);
    nog_limits most = small;
    most.shmmni = 4096;
    most.shmall = 65536;
    TEST(opening(most, ram) == opening(small, ram));
    /* no list grows for the sixth process */
    TEST(opening_of(small, ram, 6) - opening_of(small, ram, 5) == PROCESS + MOST_PIECES * PIECE);
}

/* a segment of this many pages in a machine without segments: the bytes that its shmget and its first attach request */
static void first_segment(uint64_t pages, uint64_t *get, uint64_t *attach) {
    static const nog_area sparse = {NOG_SPARSE, 4096};
    int32_t id;
    uint64_t at;
    ANSWER(nog_open(&machine, &small, &sparse, 1, &none, 0, processes, 3), NOG_DONE);
    asked = 0;
    ANSWER(nog_get(&machine, USER, 7, pages * PAGE, 0600, NOG_CREAT, &id), NOG_DONE);
    *get = asked;
    asked = 0;
    ANSWER(nog_attach(&machine, USER, id, 0, 0, &at), NOG_DONE);
    *attach = asked;
}

/* each page has the room of its place and its translation, and each run that of two more */
static void segments(void) {
    uint64_t get_one, get_all, attach_one, attach_all;
    first_segment(1, &get_one, &attach_one);
    first_segment(4096, &get_all, &attach_all);
    TEST(get_all - get_one == 4095 * PAGE_PLACE + 15 * RUN_PLACE);
    TEST(attach_all - attach_one == 4095 * TRANSLATION + 15 * RUN_PLACE);
}

/* after the first attach of the largest segment */
static void nothing(void) {
    static const uint8_t bytes[64], others[64];
    uint8_t loaded[64];
    uint64_t at, number, done;
    int32_t id;
    nog_flushed flushed;
    asked = 0;
    ANSWER(nog_get(&machine, USER, 7, 1, 0600, 0, &id), NOG_DONE);
    for (int i = 1; i < MOST_PIECES; i++) ANSWER(nog_attach(&machine, USER, id, 0, 0, &at), NOG_DONE);
    ANSWER(nog_attach(&machine, USER, id, 0, 0, &at), NOG_EMFILE);
    ANSWER(nog_fork(&machine, USER, CHILD), NOG_DONE);
    ANSWER(nog_store(&machine, CHILD, LOWEST, bytes, 64), NOG_DONE);
    ANSWER(nog_load(&machine, USER, LOWEST, loaded, 64), NOG_DONE);
    ANSWER(nog_add(&machine, USER, LOWEST, 5, &number), NOG_DONE);
    ANSWER(nog_exchange(&machine, USER, LOWEST, bytes, 64, loaded, 64), NOG_DONE);
    ANSWER(nog_compare_exchange(&machine, USER, LOWEST, bytes, 64, others, 64, loaded, 64), NOG_DONE);
    ANSWER(nog_read(&machine, USER, LOWEST, loaded, 64, &done), NOG_DONE);
    ANSWER(nog_write(&machine, USER, LOWEST, bytes, 64, &done), NOG_DONE);
    ANSWER(nog_flush(&machine, 1, &flushed), NOG_DONE);
    ANSWER(nog_set(&machine, USER, id, 200, 200, 0644), NOG_DONE);
    ANSWER(nog_detach(&machine, USER, LOWEST), NOG_DONE);
    ANSWER(nog_exec(&machine, CHILD), NOG_DONE);
    ANSWER(nog_remove(&machine, USER, id), NOG_DONE);
    ANSWER(nog_exit(&machine, USER), NOG_DONE);
    ANSWER(nog_swapoff(&machine, ROOT, 0), NOG_DONE);
    TEST(asked == 0);
}

/* a copy asks for its bytes, and for no others */
static void copied(void) {
    uint64_t at, done;
    int32_t id;
    ANSWER(open_usual(&machine), NOG_DONE);
    ANSWER(nog_get(&machine, USER, NOG_PRIVATE, 2 * PAGE, 0600, 0, &id), NOG_DONE);
    ANSWER(nog_attach(&machine, USER, id, 0, 0, &at), NOG_DONE);
    asked = 0;
    ANSWER(nog_copy(&machine, USER, at, USER, at + 9, 5000, &done), NOG_DONE);
    TEST(asked == 5000);
    asked = 0;
    ANSWER(nog_copy(&machine, USER, at, USER, at, 0, &done), NOG_DONE);
    TEST(asked == 0);
}

/* an open machine that is opened again asks for as much */
static void again(void) {
    uint64_t first;
    asked = 0;
    ANSWER(open_usual(&machine), NOG_DONE);
    first = asked;
    asked = 0;
    ANSWER(open_usual(&machine), NOG_DONE);
    TEST(asked == first && first > 0);
}

int main(void) {
    again();
    openings();
    segments();
    nothing();
    copied();
    ANSWER(nog_close(&machine), NOG_DONE);
    return finish("bytes");
}

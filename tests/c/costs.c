/* costs: makes a call COUNT times on a machine where there are SIZE segments, pieces, processes, pages or frames at each call,
   or where an access has SIZE bytes, so that two counts of instructions, of none and of COUNT calls, tell what one takes.
       costs KIND SIZE COUNT
   The status is 1 where a call was refused, and 2 for words that name nothing. */
#include <inttypes.h>
#include <stdio.h>
#include <stdlib.h>
#include <string.h>
#include <nogcuvema.h>

enum { PID = 1, PAGE = 4096, FRAMES = 64, SLOTS = 1 << 20, MOST_BYTES = 64 * PAGE };
#define FIRST UINT64_C(0x10000000)
#define CHOSEN UINT64_C(0x40000000)   /* where the choice of an address begins */

static nog_machine machine = NOG_MACHINE_INITIALIZER;
static uint32_t refused;
static int32_t usual;   /* a segment of two pages */
static int32_t large;   /* one of sixteen */
static uint64_t at;     /* where it is attached */
static size_t length;   /* of an access, in bytes */
static uint8_t bytes[MOST_BYTES], others[MOST_BYTES];
static uint64_t done;   /* of a read, a write or a copy */

static void took(uint32_t code) { refused += code != NOG_DONE; }

static int32_t make(uint64_t pages) {
    int32_t id = 0;
    took(nog_get(&machine, PID, NOG_PRIVATE, pages * PAGE, 0600, 0, &id));
    return id;
}

static uint64_t attach(int32_t id, uint64_t addr) {
    uint64_t found = 0;
    took(nog_attach(&machine, PID, id, addr, 0, &found));
    return found;
}

static void open_with(uint64_t most_pieces, uint64_t most_processes, uint64_t frames) {
    const nog_limits limits = {.shmmax = UINT64_C(1) << 32, .shmmni = 32768, .shmall = SLOTS, .frames = frames,
                               .memlock = frames - 2, .most_pieces = most_pieces, .most_processes = most_processes,
                               .most_slots = SLOTS};
    const nog_area swap = {NOG_SPARSE, SLOTS};
    const nog_failure none = {.call = 1};
    const nog_process first = {PID, 1, 100, 100};
    took(nog_open(&machine, &limits, &swap, 1, &none, 0, &first, 1));
}

static void start(uint64_t most_pieces, uint64_t most_processes) {
    open_with(most_pieces, most_processes, FRAMES);
    usual = make(2);
}

/* ---- what else is there ---- */

static void fill_segments(uint64_t size) {
    start(8, 1);
    for (uint64_t i = 2; i < size; i++) make(1);
    at = attach(usual, 0);
}

/* pieces of another segment below the addresses that are chosen */
static void fill_pieces(uint64_t size) {
    start(65530, 1);
    int32_t other = make(1);
    for (uint64_t i = 2; i < size; i++) attach(other, FIRST + i * PAGE);
    at = attach(usual, UINT64_C(0x700000000000));
}

/* the same, but where addresses are chosen, with a gap of two pages below each */
static void fill_gaps(uint64_t size) {
    start(65530, 1);
    large = make(16);
    int32_t other = make(1);
    for (uint64_t i = 0; i < size - 2; i++) attach(other, CHOSEN + (3 * i + 2) * PAGE);
}

/* pieces of another segment, and room for a child that gets them all */
static void fill_lives(uint64_t size) {
    start(65530, 2);
    int32_t other = make(1);
    for (uint64_t i = 1; i < size; i++) attach(other, FIRST + i * PAGE);
    at = attach(usual, UINT64_C(0x700000000000));
}

static void fill_processes(uint64_t size) {
    start(8, 32768);
    for (uint32_t pid = 2; pid < size; pid++) {
        const nog_process process = {pid, 1, 100, 100};
        took(nog_admit(&machine, &process));
    }
    at = attach(usual, 0);
}

/* a segment of SIZE bytes in frames of their own */
static void fill_bytes(uint64_t size) {
    open_with(8, 1, 2 * MOST_BYTES / PAGE);
    at = attach(make(MOST_BYTES / PAGE), 0);
    length = size;
    took(nog_write(&machine, PID, at, bytes, sizeof bytes, &done));
}

/* SIZE pages that were stored and written out, each in a frame, and no other frame */
static void fill_frames(uint64_t size) {
    nog_flushed round;
    open_with(8, 1, size);
    at = attach(make(size), 0);
    for (uint64_t i = 0; i < size; i++) took(nog_store(&machine, PID, at + i * PAGE, bytes, 1));
    took(nog_flush(&machine, size, &round));
}

/* SIZE frames, all but two with a locked page, and three pages more */
static void fill_locked(uint64_t size) {
    open_with(8, 1, size);
    int32_t locked = make(size - 2);
    uint64_t base = attach(locked, 0);
    took(nog_lock(&machine, PID, locked));
    for (uint64_t i = 0; i < size - 2; i++) took(nog_store(&machine, PID, base + i * PAGE, bytes, 1));
    at = attach(make(3), 0);
    for (uint64_t i = 0; i < 3; i++) took(nog_store(&machine, PID, at + i * PAGE, bytes, 1));
}

/* SIZE frames, all full; the page that would leave is at the clock's hand, and unreferenced */
static void fill_clock(uint64_t size) {
    open_with(8, 1, size);
    usual = make(size + 1);
    at = attach(usual, 0);
    for (uint64_t i = 0; i <= size; i++) took(nog_store(&machine, PID, at + i * PAGE, bytes, 1));
    at += size * PAGE;
    length = size;
}

static void fill_none(uint64_t size) {
    open_with(8, 1, FRAMES);
    length = size;
}

static void fill_later(uint64_t size) { length = size; }

/* ---- the calls ---- */

static void get_and_remove(void) { took(nog_remove(&machine, PID, make(1))); }

static void stat_one(void) {
    nog_segment segment;
    took(nog_stat(&machine, PID, usual, &segment));
}

static void attach_and_detach(void) { took(nog_detach(&machine, PID, attach(usual, UINT64_C(0x500000000000)))); }

static void attach_chosen(void) { took(nog_detach(&machine, PID, attach(usual, 0))); }

static void attach_in_turn(void) {
    uint64_t low = attach(usual, 0), high = attach(large, 0);
    took(nog_detach(&machine, PID, low));
    took(nog_detach(&machine, PID, high));
}

static void load_one(void) {
    uint8_t bytes[8];
    took(nog_load(&machine, PID, at + 8, bytes, sizeof bytes));
}

static void load_some(void) { took(nog_load(&machine, PID, at + 8, bytes, length)); }
static void store_some(void) { took(nog_store(&machine, PID, at + 8, bytes, length)); }

static void add_one(void) {
    uint64_t before;
    took(nog_add(&machine, PID, at + 8, 1, &before));
}

static void exchange_some(void) { took(nog_exchange(&machine, PID, at + 8, bytes, length, others, length)); }

static void compare_some(void) {
    took(nog_compare_exchange(&machine, PID, at + 8, bytes, length, bytes, length, others, length));
}

static void read_some(void) { took(nog_read(&machine, PID, at, bytes, length, &done)); }
static void write_some(void) { took(nog_write(&machine, PID, at, bytes, length, &done)); }
static void copy_some(void) { took(nog_copy(&machine, PID, at, PID, at + MOST_BYTES / 2, length, &done)); }

/* attaches and detaches a segment of which no page is touched */
static void come_and_go(void) {
    int32_t id = make(length);
    took(nog_detach(&machine, PID, attach(id, 0)));
    took(nog_remove(&machine, PID, id));
}

/* the same, and its last page is stored */
static void touch_the_last(void) {
    int32_t id = make(length);
    uint64_t base = attach(id, 0);
    took(nog_store(&machine, PID, base + (length - 1) * PAGE, bytes, 1));
    took(nog_detach(&machine, PID, base));
    took(nog_remove(&machine, PID, id));
}

static void flush_nothing(void) {
    nog_flushed round;
    took(nog_flush(&machine, 1, &round));
}

/* three pages take turns in two frames */
static void fault_one(void) {
    static uint64_t turn;
    took(nog_store(&machine, PID, at + turn++ % 3 * PAGE, bytes, 1));
}

/* a resident page is lent and comes back, with its bytes or with none */
static void lend_and_return(void) {
    took(nog_lend(&machine, usual, (uint32_t)length, bytes, PAGE));
    took(nog_give_back(&machine, usual, (uint32_t)length, bytes, PAGE));
}

static void lend_unchanged(void) {
    took(nog_lend(&machine, usual, (uint32_t)length, bytes, PAGE));
    took(nog_give_back(&machine, usual, (uint32_t)length, bytes, 0));
}

static void find_leaver(void) {
    nog_frame frame;
    took(nog_leaver(&machine, &frame));
}

static void find_page(void) {
    int32_t id;
    uint32_t page, is_writable;
    took(nog_page_at(&machine, PID, at, &id, &page, &is_writable));
}

static void find_piece(void) {
    nog_piece piece;
    took(nog_piece_of(&machine, PID, at, &piece));
}

static void find_segment(void) {
    nog_segment segment;
    took(nog_segment_of(&machine, usual, &segment));
}

static void open_and_close(void) {
    open_with(8, 1, length);
    took(nog_close(&machine));
}

/* one page of two becomes read-only, and writable again: a piece comes, and its border moves back */
static void protect_and_back(void) {
    took(nog_protect(&machine, PID, at, PAGE, 0));
    took(nog_protect(&machine, PID, at, PAGE, 1));
}

/* a page is unmapped where nothing is attached */
static void unmap_nothing(void) { took(nog_unmap(&machine, PID, UINT64_C(0x600000000000), PAGE)); }

/* a child lives and leaves */
static void live(void) {
    const nog_process child = {.pid = 2147483647};
    took(nog_admit(&machine, &child));
    took(nog_fork(&machine, PID, child.pid));
    took(nog_exit(&machine, child.pid));
    took(nog_dismiss(&machine, child.pid));
}

static const struct { const char *name; void (*fill)(uint64_t size); void (*call)(void); } kinds[] = {
    {"segments-get", fill_segments, get_and_remove}, {"segments-stat", fill_segments, stat_one},
    {"segments-attach", fill_segments, attach_and_detach}, {"pieces-attach", fill_pieces, attach_and_detach},
    {"pieces-chosen", fill_pieces, attach_chosen}, {"pieces-turns", fill_gaps, attach_in_turn},
    {"pieces-load", fill_pieces, load_one},
    {"pieces-protect", fill_pieces, protect_and_back}, {"pieces-unmap", fill_pieces, unmap_nothing},
    {"pieces-live", fill_lives, live},
    {"processes-load", fill_processes, load_one}, {"processes-attach", fill_processes, attach_and_detach},
    {"processes-live", fill_processes, live},
    {"bytes-load", fill_bytes, load_some}, {"bytes-store", fill_bytes, store_some}, {"bytes-add", fill_bytes, add_one},
    {"bytes-exchange", fill_bytes, exchange_some}, {"bytes-compare", fill_bytes, compare_some},
    {"bytes-read", fill_bytes, read_some}, {"bytes-write", fill_bytes, write_some}, {"bytes-copy", fill_bytes, copy_some},
    {"pages-untouched", fill_none, come_and_go}, {"pages-last", fill_none, touch_the_last},
    {"frames-flush", fill_frames, flush_nothing}, {"frames-fault", fill_locked, fault_one},
    {"frames-open", fill_later, open_and_close},
    {"clock-lend", fill_clock, lend_and_return}, {"clock-unchanged", fill_clock, lend_unchanged},
    {"clock-leaver", fill_clock, find_leaver}, {"clock-page", fill_clock, find_page},
    {"pieces-find", fill_pieces, find_piece}, {"segments-find", fill_segments, find_segment} };

int main(int count, char **words) {
    for (size_t i = 0; count == 4 && i < sizeof kinds / sizeof *kinds; i++) {
        if (strcmp(words[1], kinds[i].name) != 0) continue;
        kinds[i].fill(strtoull(words[2], NULL, 10));
        for (uint64_t left = strtoull(words[3], NULL, 10); left > 0; left--) kinds[i].call();
        if (refused) fprintf(stderr, "costs: %" PRIu32 " calls were refused\n", refused);
        nog_close(&machine);
        return refused != 0;
    }
    fprintf(stderr, "costs: KIND SIZE COUNT\n");
    return 2;
}

/* The pages that programs have. With --frames, a page is in the file of its segment only while it is lent: then every program
   finds it, at no cost. A page that is not in the file is a hole, which userfaultfd shows to us before the program gets a zero.

   To take a page, it is spliced into a pipe, which refers to the page and does not copy it. Then a hole is punched, which takes
   the page out of the file and out of each page table. What is read from the pipe after that are the bytes after the last store
   that a program could make. No program is stopped for it: a store after the punch faults, and finds its page brought in.

   A page that the clock's hand passes loses its referenced bit, so it is taken too: its next use is a fault, which sets the bit
   again. A page stays with the thread that asked for it for STAY_US; other threads wait for their pages until then, or TURN_US.
   So an access to two pages gets both, also if there are few frames. */
#include "shmrun.h"
#include <err.h>
#include <errno.h>
#include <fcntl.h>
#include <linux/userfaultfd.h>
#include <stdlib.h>
#include <string.h>
#include <sys/ioctl.h>
#include <time.h>
#include <unistd.h>

enum { STAY_US = 100, TURN_US = 2000, KEPT_US = 100000, NANO = 1000, SECOND_US = 1000000 };
/* A page that is in a frame, as far as it is known here, and its bytes as they were lent. */
static struct held {
    int32_t id;
    uint32_t page;
    bool is_lent;
    uint64_t since;            /* when it was lent, in microseconds */
    pid_t user;                /* the thread for which it was lent */
    bool is_kept;              /* until the thread has ended */
    struct held *next;         /* in its row, or among the unused ones */
} *held, *unused, **rows;
static uint8_t *bytes_of_held; /* a page for each of them */
static int pipe_ends[2];

static uint8_t *bytes_of(const struct held *it) { return bytes_of_held + (size_t)(it - held) * PAGE; }

uint64_t now_us(void) {
    struct timespec now;
    clock_gettime(CLOCK_MONOTONIC, &now);
    return (uint64_t)now.tv_sec * SECOND_US + (uint64_t)now.tv_nsec / NANO;
}

void open_paging(void) {
    uint64_t count = options.frames;
    rows = allocate(count * sizeof *rows);
    held = allocate(count * sizeof *held);
    bytes_of_held = allocate(count * PAGE);
    for (uint64_t i = 0; i < count; i++) held[i].next = unused, unused = &held[i];
    if (pipe2(pipe_ends, O_CLOEXEC)) err(CANNOT_START, "pipe");
}

/* ---- which there are ---- */

static struct held **place_of(int32_t id, uint32_t page) {
    struct held **at = &rows[((uint64_t)(uint32_t)id * 31 + page) % options.frames];
    while (*at && ((*at)->id != id || (*at)->page != page)) at = &(*at)->next;
    return at;
}

static void drop(int32_t id, uint32_t page) {
    struct held **at = place_of(id, page), *it = *at;
    if (!it) return;
    *at = it->next;
    it->next = unused;
    unused = it;
}

void forget_pages(int32_t id) {
    for (uint64_t i = 0; i < options.frames; i++)
        if (held[i].id == id) drop(id, held[i].page);
}

/* ---- a page is taken from all programs ---- */

static void take_bytes(int file, uint32_t page, uint8_t *bytes) {
    loff_t at = (loff_t)page * PAGE;
    if (splice(file, &at, pipe_ends[1], NULL, PAGE, 0) != PAGE ||
        fallocate(file, FALLOC_FL_PUNCH_HOLE | FALLOC_FL_KEEP_SIZE, (off_t)page * PAGE, PAGE) == -1 ||
        read(pipe_ends[0], bytes, PAGE) != PAGE)
        err(CANNOT_GO_ON, "page %u can't be taken out of its file", page);
}

static void take(int32_t id, uint32_t page) {
    uint8_t bytes[PAGE];
    nog_segment segment;
    struct held *it = *place_of(id, page);
    if (!it || !it->is_lent || nog_segment_of(&machine, id, &segment) != NOG_DONE)
        errx(CANNOT_GO_ON, "page %u of segment %d is not lent", page, id);
    take_bytes(file_of(&segment), page, bytes);
    bool is_changed = memcmp(bytes, bytes_of(it), PAGE) != 0;
    it->is_lent = false;
    reply_of(nog_give_back(&machine, id, page, is_changed ? bytes : NULL, is_changed ? PAGE : 0));
}

/* It is kept for another thread, which ends. */
static bool is_kept(const nog_frame *frame, const struct fault *fault) {
    const struct held *it = *place_of(frame->id, frame->page);
    return it && it->is_kept && it->user != fault->tid && now_us() - it->since < KEPT_US && find_task(it->user);
}

/* Another thread got the page a moment ago, and may not have used it yet. */
static bool is_young(const nog_frame *frame, const struct fault *fault) {
    const struct held *it = *place_of(frame->id, frame->page);
    uint64_t now = now_us();
    return is_kept(frame, fault) || (it && it->user != fault->tid && now - it->since < STAY_US && now - fault->since < TURN_US);
}

/* The hand's way, if a page came in now for a fault. */
struct way {
    const nog_frame *leaver;
    const struct fault *fault;
    uint32_t place;   /* how many frames the hand has met */
    bool is_at_end;
    nog_frame frame;  /* the last of those whose pages must be taken */
};

/* Goes on to the next page that must be taken: the hand passes it, or it leaves. False: there is no other one. */
static bool meet_next(struct way *way) {
    nog_frame *frame = &way->frame;
    while (!way->is_at_end && nog_frame_at(&machine, way->place, frame) == NOG_DONE) {
        bool is_leaver = frame->id == way->leaver->id && frame->page == way->leaver->page;
        way->place++;
        way->is_at_end = is_leaver && !way->leaver->is_referenced;
        bool is_passed = frame->is_referenced && !is_kept(frame, way->fault);
        if (frame->is_lent && !frame->is_locked && (is_leaver || is_passed)) return true;
    }
    return false;
}

static bool meets_young(const nog_frame *leaver, const struct fault *fault) {
    struct way way = {.leaver = leaver, .fault = fault};
    while (meet_next(&way))
        if (is_young(&way.frame, fault)) return true;
    return false;
}

static void take_met(const nog_frame *leaver, const struct fault *fault) {
    struct way way = {.leaver = leaver, .fault = fault};
    while (meet_next(&way)) take(way.frame.id, way.frame.page);
}

/* Before a page comes into a frame for another one. Whether it may come now. */
static bool make_room(const struct fault *fault) {
    nog_frame leaver;
    close_destroyed();
    while (nog_leaver(&machine, &leaver) == NOG_DONE) {
        if (meets_young(&leaver, fault)) return false;
        take_met(&leaver, fault);
        if (nog_leaver(&machine, &leaver) == NOG_DONE && leaver.is_lent) continue;  /* new bytes set its bit */
        drop(leaver.id, leaver.page);
        break;
    }
    return true;
}

/* ---- a page is brought ---- */

static uint32_t borrow(int32_t id, uint32_t page, const struct fault *fault, struct held **borrowed) {
    struct held *it = *place_of(id, page);
    if (!it && !make_room(fault)) return NOG_LENT;
    if (!it && !unused) errx(CANNOT_GO_ON, "there are more pages than frames");
    uint32_t code = nog_lend(&machine, id, page, bytes_of(it ? it : unused), PAGE);
    if (code != NOG_DONE) return code;
    if (!it) {
        it = unused;
        unused = it->next;
        *it = (struct held){.id = id, .page = page, .next = NULL};
        *place_of(id, page) = it;
    }
    it->is_lent = true;
    it->since = now_us();
    it->user = fault->tid;
    it->is_kept = false;
    *borrowed = it;
    return NOG_DONE;
}

/* Puts a page's bytes into the file, where the address of the program shows the page. */
static int put_in(const struct guest *space, uint64_t address, const struct held *it) {
    struct uffdio_copy copied = {.dst = address, .src = (uint64_t)(uintptr_t)bytes_of(it), .len = PAGE};
    return ioctl(space->faults, UFFDIO_COPY, &copied) == 0 ? 0 : errno;
}

enum brought bring(const struct fault *fault) {
    int32_t id;
    uint32_t page, is_writable;
    const struct guest *space = fault->space;
    uint64_t address = fault->address / PAGE * PAGE;
    if (nog_page_at(&machine, space->pid, address, &id, &page, &is_writable) != NOG_DONE) return NOT_ATTACHED;
    struct held *it = *place_of(id, page);
    if (it && it->is_lent) return WAS_THERE;
    uint32_t code = borrow(id, page, fault, &it);
    if (code == NOG_SIGBUS) return FAILED;
    if (code == NOG_LENT) return LATER;
    reply_of(code);
    int error = put_in(space, address, it);
    if (!error) return CAME;
    it->is_lent = false;
    reply_of(nog_give_back(&machine, id, page, NULL, 0));
    switch (error) {
    case EAGAIN: return LOST;
    case ENOMEM: return FAILED;
    case ENOENT:  /* the address has just gone */
    case ESRCH: return NOT_ATTACHED;  /* so has the process */
    default: errno = error, err(CANNOT_GO_ON, "page %u of segment %d can't be brought", page, id);
    }
}

/* No page is kept from us as long as this takes. */
static enum brought bring_now(const struct guest *space, pid_t tid, uint64_t address) {
    enum { LONGEST_US = 2 * KEPT_US };
    const struct fault fault = {.space = space, .tid = tid, .address = address, .since = now_us()};
    enum brought brought = bring(&fault);
    while ((brought == LOST || brought == LATER) && now_us() - fault.since < LONGEST_US) {
        usleep(1);
        brought = bring(&fault);
    }
    return brought;
}

bool is_there(const struct guest *space, uint64_t address) {
    enum brought brought = space->faults ? bring_now(space, 0, address) : WAS_THERE;
    return brought == CAME || brought == WAS_THERE || brought == NOT_ATTACHED;
}

bool keep_there(const struct guest *space, pid_t tid, uint64_t address) {
    int32_t id;
    uint32_t page, is_writable;
    enum brought brought = bring_now(space, tid, address);
    if (nog_page_at(&machine, space->pid, address, &id, &page, &is_writable) != NOG_DONE) return true;
    struct held *it = *place_of(id, page);
    if (!it || !it->is_lent) return false;
    it->since = now_us();
    it->user = tid;
    it->is_kept = true;
    return brought == WAS_THERE;
}

/* An emulator that borrows pages. Its guests reach their shared memory by a pointer into a copy, which a small TLB
   finds; only a fault calls the library. The library has four page frames for sixteen pages: its clock says which copy
   goes back when another page comes in, and its swap area keeps the bytes of the pages that are in no frame. */
#include <inttypes.h>
#include <stdio.h>
#include <stdlib.h>
#include <nogcuvema.h>

enum { PAGE = 4096, PAGES = 16, FRAMES = 4, COPIES = FRAMES + 1, ENTRIES = 8, ROUNDS = 1000, FIRST = 1, CHILD = 2 };

static const nog_limits limits = {.shmmax = PAGES * PAGE, .shmmni = 4, .shmall = PAGES, .frames = FRAMES};
static const nog_area area = {NOG_RAM, PAGES};
static const nog_failure third_read = {.call = 3};
static const nog_process people[] = {{FIRST, 1, 100, 100}, {CHILD, 0, 0, 0}};
static nog_machine machine = NOG_MACHINE_INITIALIZER;

/* The pages on loan. There is one copy more than frames, for the page that comes before another one leaves. */
static struct copy { int is_out, is_changed; int32_t id; uint32_t page; uint8_t bytes[PAGE]; } copies[COPIES];

/* The TLB: which copy a page of addresses shows. An entry without a copy is empty. */
static struct entry { struct copy *copy; uint32_t pid, is_writable; uint64_t number; } tlb[ENTRIES];

static uint64_t accesses, faults;

static void must(uint32_t code, const char *what) {
    if (code == NOG_DONE) return;
    fprintf(stderr, "loans: %s: code %" PRIu32 "\n", what, code);
    exit(1);
}

static struct copy *copy_of(int32_t id, uint32_t page) {
    for (struct copy *it = copies; it < copies + COPIES; it++)
        if (it->is_out && it->id == id && it->page == page) return it;
    return NULL;
}

static void empty_tlb(void) {
    for (int i = 0; i < ENTRIES; i++) tlb[i].copy = NULL;
}

/* First no guest can reach the copy any more; then the page goes back, with its bytes if they changed. NOG_EINVAL: its
   segment has ended, and with it the loan. */
static void take_back(struct copy *copy) {
    for (int i = 0; i < ENTRIES; i++) if (tlb[i].copy == copy) tlb[i].copy = NULL;
    const size_t len = copy->is_changed ? PAGE : 0;
    const uint32_t code = nog_give_back(&machine, copy->id, copy->page, len ? copy->bytes : NULL, len);
    if (code != NOG_EINVAL) must(code, "give back");
    copy->is_out = 0;
}

/* Borrows a page. If another one on loan has to leave its frame for it, that one goes back first. */
static uint32_t borrow(struct copy *copy, int32_t id, uint32_t page) {
    nog_frame leaver;
    uint32_t code;
    while ((code = nog_lend(&machine, id, page, copy->bytes, PAGE)) == NOG_LENT) {
        must(nog_leaver(&machine, &leaver), "leaver");
        take_back(copy_of(leaver.id, leaver.page));
    }
    copy->is_out = code == NOG_DONE;
    copy->is_changed = 0;
    copy->id = id;
    copy->page = page;
    return code;
}

/* A fault of a guest: fills the TLB's entry, or returns the signal that the guest gets. */
static uint32_t fault(uint32_t pid, uint64_t addr, int is_write, struct entry *entry) {
    int32_t id;
    uint32_t page, is_writable;
    faults++;
    /* 1. Which page is it, and may it be written? */
    if (nog_page_at(&machine, pid, addr, &id, &page, &is_writable) != NOG_DONE) return NOG_SIGSEGV;
    if (is_write && !is_writable) return NOG_SIGSEGV;
    /* 2. Borrow it. A page that is on loan already goes back and is lent again, so that the clock learns of its use. */
    struct copy *copy = copy_of(id, page);
    const int is_new = !copy;
    if (copy) take_back(copy);
    else for (copy = copies; copy->is_out;) copy++;
    const uint32_t code = borrow(copy, id, page);
    /* 3. The swap area failed: the guest gets SIGBUS. */
    if (code == NOG_SIGBUS) return NOG_SIGBUS;
    must(code, "lend");
    /* 4. Map it. After a page came in, each other one has to be seen in use again. */
    if (is_new) empty_tlb();
    *entry = (struct entry){copy, pid, is_writable, addr / PAGE};
    return NOG_DONE;
}

/* An access of a guest to one byte: a few instructions, unless the TLB does not have it. */
static uint32_t byte_at(uint32_t pid, uint64_t addr, int is_write, uint8_t **byte) {
    struct entry *entry = &tlb[addr / PAGE % ENTRIES];
    const int is_hit = entry->copy && entry->pid == pid && entry->number == addr / PAGE;
    accesses++;
    if (!is_hit || (is_write && !entry->is_writable)) {
        const uint32_t signal = fault(pid, addr, is_write, entry);
        if (signal != NOG_DONE) return signal;
    }
    if (is_write) entry->copy->is_changed = 1;
    *byte = entry->copy->bytes + addr % PAGE;
    return NOG_DONE;
}

static uint8_t load(uint32_t pid, uint64_t addr) {
    uint8_t *byte = NULL;
    const uint32_t signal = byte_at(pid, addr, 0, &byte);
    if (signal == NOG_DONE) return *byte;
    const int is_bus = signal == NOG_SIGBUS;
    printf("process %" PRIu32 " loads from 0x%" PRIx64 ": %s\n", pid, addr, is_bus ? "SIGBUS" : "SIGSEGV");
    return is_bus ? load(pid, addr) : 0;
}

static void store(uint32_t pid, uint64_t addr, uint8_t value) {
    uint8_t *byte = NULL;
    if (byte_at(pid, addr, 1, &byte) == NOG_DONE) *byte = value;
    else printf("process %" PRIu32 " stores at 0x%" PRIx64 ": SIGSEGV\n", pid, addr);
}

int main(void) {
    int32_t id;
    uint64_t at, other, calls;
    uint32_t sum = 0;
    must(nog_open(&machine, &limits, &area, 1, &third_read, 1, people, 2), "open");
    must(nog_get(&machine, FIRST, NOG_PRIVATE, PAGES * PAGE, 0600, 0, &id), "shmget");
    must(nog_attach(&machine, FIRST, id, 0, 0, &at), "shmat");
    must(nog_fork(&machine, FIRST, CHILD), "fork");
    must(nog_attach(&machine, CHILD, id, 0x50000000, NOG_RDONLY, &other), "shmat");
    for (uint32_t page = 0; page < PAGES; page++)
        for (int i = 0; i < ROUNDS; i++) store(FIRST, at + page * PAGE + 8, (uint8_t)page);
    for (uint32_t page = 0; page < PAGES; page++)
        for (int i = 0; i < ROUNDS; i++) sum += load(CHILD, other + page * PAGE + 8);
    printf("process 2 loads the sum %" PRIu32 "\n", sum);
    store(CHILD, other, 1);
    load(CHILD, other + PAGES * PAGE);
    /* a call that detaches changes what addresses show, and may end a segment */
    must(nog_remove(&machine, FIRST, id), "shmctl");
    must(nog_exit(&machine, FIRST), "exit");
    must(nog_exit(&machine, CHILD), "exit");
    for (int i = 0; i < COPIES; i++) if (copies[i].is_out) take_back(&copies[i]);
    load(CHILD, other);
    must(nog_calls(&machine, &calls), "calls");
    const char *few = faults < 50 ? "fewer than 50" : "too many";
    printf("%" PRIu64 " accesses, %s faults, %" PRIu64 " calls\n", accesses, few, calls);
    must(nog_close(&machine), "close");
    return 0;
}

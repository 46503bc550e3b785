/* Pages on loan. The library lends a page of a segment that a program uses: its bytes lie in a page of ours,
   which the page tables of all programs that have it attached may show. The library's clock and its swap
   areas decide which pages may be lent at once. Entries of page tables are only a cache: one that is missing
   comes back by a fault. */
#include "kernel.h"

static struct loan {
    bool is_out;
    int32_t id;      /* the segment, and its page */
    uint32_t page;
    uint64_t bits;   /* ACCESSED and DIRTY, as far as they were collected from page tables */
    uint64_t users;  /* which of the 64 processes may have it in their page tables */
    uint8_t *bytes;
} *loans;
static size_t loan_count;
static uint8_t *pool;  /* the bytes of all loans */
static bool is_traced;
static uint64_t faults, lent, lent_again, taken, changed;

/* There is one more than frames, for the page that comes before another one leaves. */
void open_loans(uint64_t frames, bool is_to_be_traced) {
    loan_count = frames + 1;
    uint8_t *room = malloc((loan_count + 1) * PAGE);
    loans = malloc(loan_count * sizeof *loans);
    if (!room || !loans) stop("there is no memory for pages on loan");
    pool = (uint8_t *)(((uint64_t)room + PAGE - 1) / PAGE * PAGE);
    for (size_t i = 0; i < loan_count; i++) loans[i] = (struct loan){.bytes = pool + i * PAGE};
    is_traced = is_to_be_traced;
}

static struct loan *loan_of(int32_t id, uint32_t page) {
    for (struct loan *it = loans; it < loans + loan_count; it++)
        if (it->is_out && it->id == id && it->page == page) return it;
    return NULL;
}

/* ---- entries of page tables ---- */

static bool forget_entry(uint64_t *entry, uint64_t address, void *with) {
    (void)address, (void)with;
    if (!(*entry & LENT)) return true;
    loans[((uint8_t *)page_of(*entry) - pool) / PAGE].bits |= *entry & (ACCESSED | DIRTY);
    *entry = 0;
    return true;
}

void forget_entries(struct process *process) {
    each_entry(process->tables, forget_entry, NULL);
    use_tables(current->tables);
}

/* The processor may remember what entries of the tables that it uses were. */
static void set_entry(const struct process *process, uint64_t address, uint64_t *entry, uint64_t value) {
    *entry = value;
    if (process == current) __asm__ volatile("invlpg (%0)" : : "r"(address) : "memory");
}

static void collect_at(struct process *process, const nog_piece *piece, struct loan *loan, uint64_t cleared) {
    uint32_t place = loan->page - piece->first_page;
    if (piece->segment != (uint32_t)loan->id || place >= piece->pages) return;
    const uint64_t address = piece->base + (uint64_t)place * PAGE;
    uint64_t *entry = entry_at(process->tables, address, false);
    if (!entry || !(*entry & LENT)) return;
    loan->bits |= *entry & (ACCESSED | DIRTY);
    set_entry(process, address, entry, *entry & ~cleared);
}

/* Notes what the processor has set in the entries that show the page, and clears some of their bits. Returns
   all that was noted. */
static uint64_t collect(struct loan *loan, uint64_t cleared) {
    nog_piece piece;
    for (size_t place = 0; place < PROCESSES; place++) {
        struct process *process = &processes[place];
        if (!(loan->users >> place & 1) || !process->tables) continue;
        for (uint32_t i = 0; nog_piece_at(&machine, process->pid, i, &piece) == NOG_DONE; i++)
            collect_at(process, &piece, loan, cleared);
    }
    return loan->bits;
}

/* ---- a page is lent, and goes back ---- */

static uint32_t lend(struct loan *loan, int32_t id, uint32_t page) {
    uint32_t code = nog_lend(&machine, id, page, loan->bytes, PAGE);
    if (code == NOG_DONE) *loan = (struct loan){true, id, page, 0, 0, loan->bytes};
    return code;
}

/* First it leaves all page tables, so that no program can change its bytes any more. */
static void take_back(struct loan *loan) {
    bool is_changed = collect(loan, ~UINT64_C(0)) & DIRTY;
    nog_give_back(&machine, loan->id, loan->page, is_changed ? loan->bytes : NULL, is_changed ? PAGE : 0);
    loan->is_out = false;
    changed += is_changed;
}

/* The clock knows of a use when a page is lent. So before it chooses, a page that was used since its hand
   passed it is lent again. Returns the loan of the page that it chooses; null: that page is not lent. */
static struct loan *choose(nog_frame *leaver) {
    for (;;) {
        if (nog_leaver(&machine, leaver) != NOG_DONE) stop("no page can leave its frame");
        struct loan *loan = loan_of(leaver->id, leaver->page);
        if (!loan || leaver->is_referenced || !(collect(loan, 0) & ACCESSED)) return loan;
        take_back(loan);
        if (lend(loan, leaver->id, leaver->page) != NOG_DONE) stop("a page in a frame was not lent");
        lent_again++;
    }
}

/* Takes back the page that leaves if another one comes in. Of pages that the hand passes before, only what is
   accessed from now on is a use. */
static void make_room(void) {
    nog_frame leaver, frame;
    struct loan *chosen = choose(&leaver);
    for (uint32_t i = 0; nog_frame_at(&machine, i, &frame) == NOG_DONE; i++) {
        struct loan *passed = loan_of(frame.id, frame.page);
        if (frame.id == leaver.id && frame.page == leaver.page && !leaver.is_referenced) break;
        if (passed && frame.is_referenced) passed->bits = collect(passed, ACCESSED) & DIRTY;
    }
    if (!chosen) return;
    take_back(chosen);
    taken++;
    if (is_traced) print("[%u.%u]", (uint64_t)leaver.id, (uint64_t)leaver.page);
}

/* ---- a fault ---- */

static struct loan *borrow(int32_t id, uint32_t page) {
    struct loan *loan = loans;
    while (loan->is_out) loan++;
    uint32_t code = lend(loan, id, page);
    while (code == NOG_LENT) {
        make_room();
        code = lend(loan, id, page);
    }
    lent += code == NOG_DONE;
    return code == NOG_DONE ? loan : NULL;
}

int bring(struct process *process, uint64_t address, bool is_store) {
    int32_t id;
    uint32_t page, is_writable;
    address = address / PAGE * PAGE;
    uint32_t code = nog_page_at(&machine, process->pid, address, &id, &page, &is_writable);
    if (code != NOG_DONE || (is_store && !is_writable)) return SIGSEGV;
    struct loan *loan = loan_of(id, page);
    if (!loan) loan = borrow(id, page);
    uint64_t *entry = loan ? entry_at(process->tables, address, true) : NULL;
    if (!entry) return SIGBUS;
    uint64_t bits = PRESENT | USER | LENT | NO_EXECUTE | (is_store ? WRITABLE : 0);
    set_entry(process, address, entry, physical_address(loan->bytes) | bits);
    loan->users |= UINT64_C(1) << (process - processes);
    faults++;
    return 0;
}

void forget_ended(void) {
    enum { SEQUENCE = 32768 };  /* an identifier is an index plus a multiple of this */
    nog_segment segment;
    for (struct loan *it = loans; it < loans + loan_count; it++) {
        if (!it->is_out) continue;
        uint32_t code = nog_segment_at(&machine, (uint32_t)it->id % SEQUENCE, &segment);
        it->is_out = code == NOG_DONE && segment.id == it->id;
    }
}

void print_loans(void) {
    print("kernel: %u faults in attachments, %u pages lent, %u lent again, ", faults, lent, lent_again);
    print("%u taken back, %u returned changed\n", taken, changed);
}

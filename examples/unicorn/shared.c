/* The guests' shared memory: copies of pages that the library lends. A copy is mapped into Unicorn where a guest touches
   it, so that all further accesses cost what those to private memory cost. The library's frames say how many pages may be
   out at once, and its clock says which one goes back. */
#include <signal.h>
#include <string.h>
#include "emulator.h"

enum { MOST_MAPPINGS = 8192, SEGMENT_INDEXES = 32768 };

/* `lent` has the bytes as they were lent. */
struct copy { _Alignas(PAGE) uint8_t bytes[PAGE], lent[PAGE]; bool is_out; int32_t id; uint32_t page; };
struct mapping { struct process *process; uint64_t addr; struct copy *copy; };

static struct copy copies[MOST_FRAMES + 1];
static struct mapping mappings[MOST_MAPPINGS];
static int mapping_count;

/* Takes away each mapping of a process, or of a copy, or all of them; the next access faults. */
static void unmap(const struct process *process, const struct copy *copy) {
    int kept = 0;
    for (int i = 0; i < mapping_count; i++) {
        const struct mapping it = mappings[i];
        if ((process && it.process != process) || (copy && it.copy != copy)) mappings[kept++] = it;
        else must_run(uc_mem_unmap(it.process->engine, it.addr, PAGE), "unmap");
    }
    mapping_count = kept;
}

/* The copy of a page that is out, or else one that is free. */
static struct copy *copy_for(int32_t id, uint32_t page) {
    struct copy *found = NULL;
    for (struct copy *it = copies; it <= copies + limits.frames; it++) {
        if (it->is_out && it->id == id && it->page == page) return it;
        if (!it->is_out) found = it;
    }
    return found;
}

/* After a call, addresses of a process may show other pages. The end of a segment ends its loans. */
void forget_pages(struct process *process) {
    static uint32_t told[SEGMENT_INDEXES];
    int32_t id;
    unmap(process, NULL);
    while (nog_gone(&machine, told, SEGMENT_INDEXES, &id) == NOG_DONE)
        for (struct copy *it = copies; it <= copies + limits.frames; it++)
            if (it->is_out && it->id == id) unmap(NULL, it), it->is_out = false;
}

/* Gives a page back, with its bytes if a guest changed them. */
static void give_back(struct copy *copy) {
    const bool is_changed = memcmp(copy->bytes, copy->lent, PAGE) != 0;
    must(nog_give_back(&machine, copy->id, copy->page, is_changed ? copy->bytes : NULL, is_changed ? PAGE : 0), "give back");
    copy->is_out = false;
}

/* Makes room: the page that would leave its frame goes back. Those that the clock's hand passes on its way have to be seen
   in use again, so they fault once more. */
static void make_room(void) {
    nog_frame leaver, passed;
    must(nog_leaver(&machine, &leaver), "leaver");
    for (uint32_t place = 0; nog_frame_at(&machine, place, &passed) == NOG_DONE; place++) {
        const struct copy *copy = copy_for(passed.id, passed.page);
        if (copy->is_out) unmap(NULL, copy);
        if (passed.id == leaver.id && passed.page == leaver.page) break;
    }
    give_back(copy_for(leaver.id, leaver.page));
}

/* Borrows a page; NULL if a swap area fails. One that is out already goes back first and is lent again, by which the clock
   learns of its use; its mappings stay. */
static struct copy *borrow(int32_t id, uint32_t page) {
    struct copy *copy = copy_for(id, page);
    uint32_t code;
    if (copy->is_out) give_back(copy);
    while ((code = nog_lend(&machine, id, page, copy->bytes, PAGE)) == NOG_LENT) make_room();
    if (code == NOG_SIGBUS) return NULL;
    must(code, "lend");
    memcpy(copy->lent, copy->bytes, PAGE);
    copy->is_out = true, copy->id = id, copy->page = page;
    return copy;
}

static bool is_mapped(const struct process *process, uint64_t base) {
    for (int i = 0; i < mapping_count; i++)
        if (mappings[i].process == process && mappings[i].addr == base) return true;
    return false;
}

/* Maps the page that an address of a guest shows. If it shows none, or one that may not be written, the guest gets a
   signal. */
bool show_page(struct process *process, uint64_t addr, bool is_write) {
    int32_t id;
    uint32_t page, is_writable;
    const uint64_t base = addr / PAGE * PAGE;
    process->signal = SIGSEGV;
    if (nog_page_at(&machine, process->pid, addr, &id, &page, &is_writable) != NOG_DONE) return false;
    if (is_write && !is_writable) return false;
    if (!is_mapped(process, base)) {
        struct copy *copy = borrow(id, page);
        process->signal = SIGBUS;
        if (!copy) return false;
        if (mapping_count == MOST_MAPPINGS) unmap(NULL, NULL);
        const uint32_t rights = UC_PROT_READ | UC_PROT_EXEC | (is_writable ? UC_PROT_WRITE : 0);
        must_run(uc_mem_map_ptr(process->engine, base, PAGE, rights, copy->bytes), "map");
        mappings[mapping_count++] = (struct mapping){process, base, copy};
    }
    process->signal = 0;
    return true;
}

/* Copies bytes for a call, page by page, from a guest's address or to it. */
static int copy_bytes(struct process *process, uint64_t addr, uint8_t *bytes, size_t len, bool is_write) {
    uc_engine *engine = process->engine;
    nog_piece piece;
    for (size_t part; len; addr += part, bytes += part, len -= part) {
        part = PAGE - addr % PAGE < len ? PAGE - addr % PAGE : len;
        const bool is_shared = nog_piece_of(&machine, process->pid, addr, &piece) == NOG_DONE;
        const bool is_there = !is_shared || show_page(process, addr, is_write);
        process->signal = 0;
        if (!is_there) return 0;
        if (is_write ? uc_mem_write(engine, addr, bytes, part) : uc_mem_read(engine, addr, bytes, part)) return 0;
    }
    return 1;
}

int copy_from_guest(void *process, uint64_t addr, void *bytes, size_t len) {
    return copy_bytes(process, addr, bytes, len, false);
}

int copy_to_guest(void *process, uint64_t addr, const void *bytes, size_t len) {
    return copy_bytes(process, addr, (uint8_t *)(uintptr_t)bytes, len, true);
}

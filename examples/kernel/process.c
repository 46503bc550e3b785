/* Processes: how they begin and end, and which of them runs. Process 0, the kernel's own, has no program. */
#include "kernel.h"
#include <elf.h>

enum { STACK_PAGES = 16 };
struct process processes[PROCESSES] = {{.state = READY}}, *current = processes;
uint64_t ended_turns;
static uint32_t last_pid;
void switch_stacks(uint64_t *from, uint64_t to);
void leave(void);

/* ---- who runs ---- */

/* Goes on with the next process that is ready, which may be this one. */
void yield(void) {
    struct process *before = current, *next = before;
    for (size_t i = 1; i <= PROCESSES; i++) {
        next = &processes[((size_t)(before - processes) + i) % PROCESSES];
        if (next->state == READY) break;
    }
    if (next->state != READY) stop("every process waits for another one");
    if (next == before) return;
    ended_turns += before->state == READY;
    current = next;
    use_tables(next->tables);
    set_kernel_stack((uint64_t)next->stack + STACK);
    switch_stacks(&before->stack_pointer, next->stack_pointer);
}

void sleep_for(const void *what) {
    current->awaited = what;
    current->state = ASLEEP;
    yield();
}

void wake(const void *what) {
    for (struct process *it = processes; it < processes + PROCESSES; it++)
        if (it->state == ASLEEP && it->awaited == what) it->state = READY;
}

/* ---- how they begin ---- */

static void drop_memory(struct process *process) {
    if (process->tables) free_tables(process->tables);
    free(process->stack);
    process->tables = NULL;
    process->stack = NULL;
}

/* Returns a process with an empty memory, which is not ready yet, or null if there is no room. */
static struct process *new_process(struct process *parent, const char *name) {
    struct process *made = processes + 1;
    while (made < processes + PROCESSES && made->state != UNUSED) made++;
    if (made == processes + PROCESSES) return NULL;
    *made = (struct process){.pid = last_pid + 1, .uid = parent->uid, .gid = parent->gid, .parent = parent,
        .name = name};
    made->tables = new_tables();
    made->stack = malloc(STACK);
    if (made->tables && made->stack && admit(made, parent)) {
        last_pid++;
        return made;
    }
    drop_memory(made);
    return NULL;
}

/* The first switch to the process leaves the kernel with these registers. */
static void begin_with(struct process *process, const struct frame *frame) {
    enum { SAVED_REGISTERS = 6 };
    struct frame *top = (struct frame *)(process->stack + STACK) - 1;
    uint64_t *saved = (uint64_t *)top - SAVED_REGISTERS - 1;
    memcpy(top, frame, sizeof *top);
    memset(saved, 0, SAVED_REGISTERS * sizeof *saved);
    saved[SAVED_REGISTERS] = (uint64_t)leave;
    process->stack_pointer = (uint64_t)saved;
    process->state = READY;
}

int64_t fork(const struct frame *frame) {
    struct process *child = new_process(current, current->name);
    if (!child) return -EAGAIN;
    if (!copy_memory(child->tables, current->tables)) {
        leave_shared(child);
        dismiss(child->pid);
        drop_memory(child);
        return -ENOMEM;
    }
    memcpy(child->files, current->files, sizeof child->files);
    use_files(child, 1);
    struct frame copy = *frame;
    copy.rax = 0;
    begin_with(child, &copy);
    return child->pid;
}

static void *put_page(struct process *process, uint64_t address, const void *page, uint64_t bits) {
    uint64_t *entry = page ? entry_at(process->tables, address, true) : NULL;
    if (!entry || *entry & PRESENT) stop("there is no memory for a program");
    *entry = physical_address(page) | PRESENT | USER | bits;
    return page_of(*entry);
}

/* What a program may only read stays in its file, whose pages all its processes share. */
static void load(struct process *process, const uint8_t *file, const Elf64_Phdr *part) {
    const uint64_t end = part->p_vaddr + part->p_memsz, file_end = part->p_vaddr + part->p_filesz;
    for (uint64_t at = part->p_vaddr; at < end; at = at / PAGE * PAGE + PAGE) {
        uint64_t in_page = at % PAGE, length = PAGE - in_page;
        const uint8_t *bytes = file + part->p_offset + (at - part->p_vaddr);
        if (!(part->p_flags & PF_W)) {
            put_page(process, at - in_page, bytes - in_page, 0);
            continue;
        }
        uint8_t *page = put_page(process, at - in_page, take_page(), WRITABLE);
        if (length > file_end - at) length = file_end - at;
        if (at < file_end) memcpy(page + in_page, bytes, length);
    }
}

struct process *start_program(const void *file, const char *name) {
    const Elf64_Ehdr *header = file;
    const Elf64_Phdr *parts = (const Elf64_Phdr *)((const uint8_t *)file + header->e_phoff);
    struct process *made = new_process(processes, name);
    if (!made || memcmp(header->e_ident, ELFMAG, SELFMAG) != 0) stop("a program can't be started");
    for (int i = 0; i < header->e_phnum; i++)
        if (parts[i].p_type == PT_LOAD) load(made, file, &parts[i]);
    for (uint64_t i = 1; i <= STACK_PAGES; i++)
        put_page(made, PROGRAM_STACK - i * PAGE, take_page(), WRITABLE);
    made->files[1] = 1;
    struct frame frame = {.fpu = {0x7f, 3, [24] = 0x80, 0x1f},  /* the control words of the FPU and of SSE */
        .rip = header->e_entry, .cs = 0x23, .rflags = 0x202, .rsp = PROGRAM_STACK, .ss = 0x1b};
    begin_with(made, &frame);
    return made;
}

/* ---- how they end ---- */

void end_process(int status) {
    for (struct process *it = processes; it < processes + PROCESSES; it++)
        if (it->state != UNUSED && it->parent == current) it->parent = processes;
    use_files(current, -1);
    leave_shared(current);
    use_tables(NULL);
    free_tables(current->tables);
    current->tables = NULL;
    current->status = status;
    current->state = ENDED;
    wake(current->parent);
    yield();
    stop("a process has ended twice");
}

int64_t reap(struct process *parent, int *status) {
    bool has_child = false;
    for (struct process *it = processes + 1; it < processes + PROCESSES; it++) {
        if (it->state == UNUSED || it->parent != parent) continue;
        has_child = true;
        if (it->state != ENDED) continue;
        *status = it->status;
        dismiss(it->pid);
        drop_memory(it);
        it->state = UNUSED;
        return it->pid;
    }
    return has_child ? 0 : -1;
}

/* Processes of the guests: their memory, their births and their ends. Each has an engine of its own. */
#include <elf.h>
#include <errno.h>
#include <stdio.h>
#include <string.h>
#include <unistd.h>
#include "emulator.h"

enum { STACK = 1 << 20, HEAP = 1 << 20, LARGEST = 1 << 24, MOST_NAME = 1000 };
#define STACK_TOP 0x7ffffffff000u
#define MAP_TOP 0x7f0000000000u
#define PROGRAM_BASE 0x555500000000u  /* of one that may lie anywhere */

struct process processes[MOST_PROCESSES];
static uint32_t last_pid = 1;

struct process *find_process(uint32_t pid) {
    for (struct process *it = processes; it < processes + MOST_PROCESSES; it++)
        if (it->pid == pid) return it;
    return NULL;
}

/* Gives a process zeros at these addresses. The library keeps attachments out of them. */
void add_memory(struct process *process, uint64_t base, uint64_t len) {
    must_run(uc_mem_map(process->engine, base, len, UC_PROT_ALL), "memory");
    must(nog_reserve(&machine, process->pid, base, len), "memory");
}

static void open_engine(struct process *process) {
    must_run(uc_open(UC_ARCH_X86, UC_MODE_64, &process->engine), "open");
    add_hooks(process);
}

/* ---- the first process ---- */

/* What a program finds on its stack (System V ABI): its words, its environment, and what the kernel says of it. */
static void fill_stack(struct process *process, const char *path, const Elf64_Ehdr *head, uint64_t low) {
    const uint64_t top = STACK_TOP - PAGE, name = top + 1024, random = top + 2048;
    const uint64_t words[] = {1, name, 0, 0, AT_PHDR, low + head->e_phoff, AT_PHENT, head->e_phentsize, AT_PHNUM,
        head->e_phnum, AT_PAGESZ, PAGE, AT_ENTRY, process->next_pc, AT_UID, 0, AT_EUID, 0, AT_GID, 0, AT_EGID, 0,
        AT_SECURE, 0, AT_RANDOM, random, AT_NULL, 0};
    add_memory(process, STACK_TOP - STACK, STACK);
    if (!copy_to_guest(process, top, words, sizeof words) || !copy_to_guest(process, name, path, strnlen(path, MOST_NAME)))
        die(path, "its stack can't be filled");
    must_run(uc_reg_write(process->engine, UC_X86_REG_RSP, &top), "the stack");
}

void load_program(struct process *process, const char *path) {
    static uint8_t bytes[LARGEST];
    const Elf64_Ehdr *head = (const void *)bytes;
    FILE *file = fopen(path, "rb");
    if (!file || fread(bytes, 1, sizeof bytes, file) < sizeof *head || fclose(file)) die(path, "it can't be read");
    if (memcmp(bytes, ELFMAG, SELFMAG) || head->e_machine != EM_X86_64) die(path, "no program for x86-64");
    const Elf64_Phdr *parts = (const void *)(bytes + head->e_phoff), *end = parts + head->e_phnum;
    uint64_t base = head->e_type == ET_DYN ? PROGRAM_BASE : 0, low = UINT64_MAX, high = 0;
    for (const Elf64_Phdr *it = parts; it < end; it++) {
        if (it->p_type == PT_INTERP) die(path, "the program is not static: compile it with -static");
        if (it->p_type != PT_LOAD) continue;
        if (it->p_vaddr < low) low = it->p_vaddr / PAGE * PAGE;
        if (it->p_vaddr + it->p_memsz > high) high = (it->p_vaddr + it->p_memsz + PAGE - 1) / PAGE * PAGE;
    }
    for (int i = 0; i < MOST_FILES; i++) process->files[i] = i <= STDERR_FILENO ? dup(i) : NO_FILE;
    open_engine(process);
    add_memory(process, base + low, high - low + HEAP);
    for (const Elf64_Phdr *it = parts; it < end; it++)
        if (it->p_type == PT_LOAD && !copy_to_guest(process, base + it->p_vaddr, bytes + it->p_offset, it->p_filesz))
            die(path, "it can't be loaded");
    process->heap_end = base + high, process->most_heap = base + high + HEAP;
    process->next_map = MAP_TOP, process->next_pc = base + head->e_entry;
    fill_stack(process, path, head, base + low);
}

/* ---- births ---- */

static void copy_memory(struct process *child, struct process *parent, const uc_mem_region *from) {
    static uint8_t bytes[PAGE];
    add_memory(child, from->begin, from->end - from->begin + 1);
    for (uint64_t addr = from->begin; addr < from->end; addr += PAGE)
        if (!copy_from_guest(parent, addr, bytes, PAGE) || !copy_to_guest(child, addr, bytes, PAGE)) die("fork", "memory");
}

/* An engine with the memory and the registers of the parent's, which has no pages on loan while they are copied. */
static void copy_engine(struct process *child, struct process *parent) {
    uc_context *context;
    uc_mem_region *regions;
    uint32_t count;
    const uint64_t zero = 0;
    open_engine(child);
    forget_pages(parent);
    must_run(uc_mem_regions(parent->engine, &regions, &count), "memory");
    for (uint32_t i = 0; i < count; i++) copy_memory(child, parent, regions + i);
    must_run(uc_free(regions), "memory");
    must_run(uc_context_alloc(parent->engine, &context), "the registers");
    must_run(uc_context_save(parent->engine, context), "the registers");
    must_run(uc_context_restore(child->engine, context), "the registers");
    must_run(uc_context_free(context), "the registers");
    must_run(uc_reg_write(child->engine, UC_X86_REG_RAX, &zero), "the registers");
}

/* At child_id, unless it is 0, the child finds its pid. */
int64_t fork_process(struct process *parent, uint64_t child_id) {
    struct process *child = find_process(0);
    if (!child) return -EAGAIN;
    const nog_process unborn = {last_pid + 1, 0, 0, 0};
    must(nog_admit(&machine, &unborn), "admit");
    const int64_t answer = nog_linux_answer(nog_fork(&machine, parent->pid, unborn.pid), unborn.pid);
    if (answer < 0) {
        must(nog_dismiss(&machine, unborn.pid), "dismiss");
        return answer;
    }
    *child = *parent;
    child->pid = ++last_pid, child->parent = parent->pid, child->is_calling = false;
    copy_engine(child, parent);
    if (child_id) copy_to_guest(child, child_id, &child->pid, sizeof child->pid);
    for (int i = 0; i < MOST_FILES; i++)
        if (child->files[i] != NO_FILE) child->files[i] = dup(child->files[i]);
    return answer;
}

/* ---- ends ---- */

int64_t close_file(struct process *process, uint64_t file) {
    if (file >= MOST_FILES || process->files[file] == NO_FILE) return -EBADF;
    close(process->files[file]);
    process->files[file] = NO_FILE;
    return 0;
}

/* The process becomes a zombie, which its parent reaps. */
int64_t end_process(struct process *process, int status) {
    for (uint64_t file = 0; file < MOST_FILES; file++) close_file(process, file);
    must(nog_exit(&machine, process->pid), "exit");
    forget_pages(process);
    process->has_ended = true, process->status = status;
    return WAITS;
}

static void reap(struct process *process) {
    uc_mem_region *regions;
    uint32_t count;
    must_run(uc_mem_regions(process->engine, &regions, &count), "memory");
    for (const uc_mem_region *it = regions; it < regions + count; it++)
        must(nog_release(&machine, process->pid, it->begin, it->end - it->begin + 1), "release");
    must_run(uc_free(regions), "memory");
    must_run(uc_close(process->engine), "close");
    must(nog_dismiss(&machine, process->pid), "dismiss");
    process->pid = 0;
}

/* Nobody waits for a child whose parent has ended. The first process has none. */
void reap_orphans(void) {
    for (struct process *it = processes + 1; it < processes + MOST_PROCESSES; it++) {
        const struct process *parent = find_process(it->parent);
        if (it->pid && it->has_ended && (!parent || parent->has_ended)) reap(it);
    }
}

int64_t wait_for(struct process *parent, int32_t pid, uint64_t status) {
    int64_t answer = -ECHILD;
    for (struct process *it = processes; it < processes + MOST_PROCESSES; it++) {
        if (!it->pid || it->parent != parent->pid || (pid > 0 && it->pid != (uint32_t)pid)) continue;
        answer = WAITS;
        if (!it->has_ended) continue;
        if (status && !copy_to_guest(parent, status, &it->status, sizeof it->status)) return -EFAULT;
        answer = it->pid;
        reap(it);
        break;
    }
    return answer;
}

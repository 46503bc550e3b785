/* The system calls of x86-64 Linux that static programs make, and what Unicorn tells of a guest. */
#define _GNU_SOURCE
#include <errno.h>
#include <fcntl.h>
#include <linux/futex.h>
#include <sys/mman.h>
#include <sys/syscall.h>
#include <time.h>
#include <unistd.h>
#include "emulator.h"

enum { CLONE_CHILD = 0x01000000, CLONE_MEMORY = 0x100, SET_FS = 0x1002, SAME = -1, SYSCALL_BYTES = 2, ROOM = 65536 };

/* ---- memory ---- */

static int64_t map_memory(struct process *process, uint64_t len, uint64_t flags) {
    if (!len) return -EINVAL;
    if (!(flags & MAP_ANONYMOUS)) return -ENOSYS;
    len = (len + PAGE - 1) / PAGE * PAGE;
    process->next_map -= len;
    add_memory(process, process->next_map, len);
    return (int64_t)process->next_map;
}

/* The memory of the heap was added with the program. */
static int64_t move_heap(struct process *process, uint64_t end) {
    if (end > process->heap_end && end <= process->most_heap) process->heap_end = end;
    return (int64_t)process->heap_end;
}

/* After a call that changes attachments, addresses may show other pages, and segments may have ended. */
static int64_t changed(struct process *process, int64_t answer) {
    forget_pages(process);
    return answer;
}

/* The rights of private memory are not kept. */
static int64_t protect_memory(struct process *process, uint64_t addr, uint64_t len, uint64_t rights) {
    nog_piece piece;
    uint8_t byte;
    const bool is_shared = nog_piece_of(&machine, process->pid, addr, &piece) == NOG_DONE;
    if (!is_shared && uc_mem_read(process->engine, addr, &byte, 1) == UC_ERR_OK) return 0;
    const bool is_writable = rights & PROT_WRITE;
    return changed(process, nog_linux_answer(nog_protect(&machine, process->pid, addr, len, is_writable), 0));
}

static int64_t control(struct process *process, int32_t id, int32_t command, uint64_t addr) {
    const nog_linux_memory memory = {process, copy_from_guest, copy_to_guest};
    return changed(process, nog_linux_shmctl(&machine, &limits, process->pid, id, command, addr, &memory));
}

/* ---- files: those of the host; its pipes do not block ---- */

static int64_t use_file(struct process *process, uint64_t file, uint64_t addr, uint64_t len) {
    static uint8_t bytes[ROOM];
    const bool reads = process->number == SYS_read;
    const size_t part = len < sizeof bytes ? len : sizeof bytes;
    if (file >= MOST_FILES || process->files[file] == NO_FILE) return -EBADF;
    if (!reads && !copy_from_guest(process, addr, bytes, part)) return -EFAULT;
    const int found = process->files[file];
    const ssize_t done = reads ? read(found, bytes, part) : write(found, bytes, part);
    if (done < 0) return errno == EAGAIN ? WAITS : -errno;
    return reads && !copy_to_guest(process, addr, bytes, (size_t)done) ? -EFAULT : done;
}

static int64_t make_pipe(struct process *process, uint64_t addr) {
    int ends[2];
    int32_t files[2], count = 0;
    for (int32_t file = 0; file < MOST_FILES && count < 2; file++)
        if (process->files[file] == NO_FILE) files[count++] = file;
    if (count < 2 || pipe2(ends, O_NONBLOCK)) return -EMFILE;
    for (int i = 0; i < 2; i++) process->files[files[i]] = ends[i];
    return copy_to_guest(process, addr, files, sizeof files) ? 0 : -EFAULT;
}

/* ---- processes ---- */

/* One user is kept, the effective one. User 0 may become any other. */
static int64_t set_user(struct process *process, int32_t uid, int32_t gid) {
    const uint32_t user = uid == SAME ? process->uid : (uint32_t)uid;
    const uint32_t group = gid == SAME ? process->gid : (uint32_t)gid;
    if (process->uid && (user != process->uid || group != process->gid)) return -EPERM;
    must(nog_set_user(&machine, process->pid, user, group), "set user");
    process->uid = user, process->gid = group;
    return 0;
}

/* ---- futexes: a word in shared memory is that of its page, wherever it is attached ---- */

/* The place of a shared word, by its segment and its offset there, which is below 2^32. Words of one process have the
   place 0: nobody waits there for another. */
static uint64_t futex_at(const struct process *process, uint64_t addr) {
    int32_t id;
    uint32_t page, is_writable;
    if (nog_page_at(&machine, process->pid, addr, &id, &page, &is_writable) != NOG_DONE) return 0;
    return (uint64_t)(id + 1) << 32 | (page * PAGE + addr % PAGE);
}

static int64_t wake(uint64_t futex, uint64_t most) {
    int64_t count = 0;
    for (struct process *it = processes; it < processes + MOST_PROCESSES && count < (int64_t)most; it++)
        if (it->pid && it->sleep == ASLEEP && it->futex == futex) it->sleep = WOKEN, count++;
    return count;
}

static int64_t use_futex(struct process *process, uint64_t addr, uint64_t what, uint32_t value) {
    uint32_t word;
    const int act = (int)what & FUTEX_CMD_MASK;
    if (act == FUTEX_WAKE || act == FUTEX_WAKE_BITSET) return wake(futex_at(process, addr), value);
    if (act != FUTEX_WAIT && act != FUTEX_WAIT_BITSET) return -ENOSYS;
    if (process->sleep == AWAKE) {
        if (!copy_from_guest(process, addr, &word, sizeof word)) return -EFAULT;
        if (word != value) return -EAGAIN;
        process->futex = futex_at(process, addr);
        process->sleep = ASLEEP;
    }
    if (process->sleep == ASLEEP) return WAITS;
    process->sleep = AWAKE;
    return 0;
}

/* ---- the calls by number; the others do not exist ---- */

static int64_t memory_call(struct process *process, const uint64_t *a) {
    const uint32_t pid = process->pid;
    switch (process->number) {
    case SYS_mmap: return map_memory(process, a[1], a[3]);
    case SYS_brk: return move_heap(process, a[0]);
    case SYS_munmap: return changed(process, nog_linux_answer(nog_unmap(&machine, pid, a[0], a[1]), 0));
    case SYS_mprotect: return protect_memory(process, a[0], a[1], a[2]);
    case SYS_shmget: return nog_linux_shmget(&machine, pid, (int32_t)a[0], a[1], (int32_t)a[2]);
    case SYS_shmat: return changed(process, nog_linux_shmat(&machine, pid, (int32_t)a[0], a[1], (int32_t)a[2]));
    case SYS_shmdt: return changed(process, nog_linux_shmdt(&machine, pid, a[0]));
    case SYS_shmctl: return control(process, (int32_t)a[0], (int32_t)a[1], a[2]);
    case SYS_read: case SYS_write: return use_file(process, a[0], a[1], a[2]);
    case SYS_close: return close_file(process, a[0]);
    case SYS_pipe: case SYS_pipe2: return make_pipe(process, a[0]);
    case SYS_ioctl: return -ENOTTY;
    default: return -ENOSYS;
    }
}

/* Makes the call that a guest asked for, at the time of the host; WAITS if it has to wait, or does not return. */
int64_t make_call(struct process *process) {
    const uint64_t *a = process->arguments;
    must(nog_set_time(&machine, (uint64_t)time(NULL)), "set time");
    switch (process->number) {
    case SYS_exit: case SYS_exit_group: return end_process(process, (int)(a[0] & 255) << 8);
    case SYS_kill: return end_process(process, (int)a[1]);
    case SYS_tgkill: return end_process(process, (int)a[2]);
    case SYS_fork: return fork_process(process, 0);
    case SYS_clone: return a[0] & CLONE_MEMORY ? -ENOSYS : fork_process(process, a[0] & CLONE_CHILD ? a[3] : 0);
    case SYS_wait4: return wait_for(process, (int32_t)a[0], a[1]);
    case SYS_getpid: case SYS_gettid: case SYS_set_tid_address: return process->pid;
    case SYS_getppid: return process->parent;
    case SYS_getuid: case SYS_geteuid: return process->uid;
    case SYS_getgid: case SYS_getegid: return process->gid;
    case SYS_setuid: return set_user(process, (int32_t)a[0], SAME);
    case SYS_setgid: return set_user(process, SAME, (int32_t)a[0]);
    case SYS_setresuid: return set_user(process, (int32_t)a[1], SAME);
    case SYS_setresgid: return set_user(process, SAME, (int32_t)a[1]);
    case SYS_setgroups: case SYS_sched_yield: case SYS_rt_sigaction: case SYS_rt_sigprocmask: return 0;
    case SYS_arch_prctl:
        return a[0] == SET_FS && !uc_reg_write(process->engine, UC_X86_REG_FS_BASE, a + 1) ? 0 : -EINVAL;
    case SYS_futex: return use_futex(process, a[0], a[1], (uint32_t)a[2]);
    default: return memory_call(process, a);
    }
}

/* ---- what Unicorn tells ---- */

static void at_call(uc_engine *engine, void *given) {
    struct process *process = given;
    uint64_t *a = process->arguments;
    int registers[] = {UC_X86_REG_RAX, UC_X86_REG_RIP, UC_X86_REG_RDI, UC_X86_REG_RSI, UC_X86_REG_RDX, UC_X86_REG_R10,
        UC_X86_REG_R8, UC_X86_REG_R9};
    void *values[] = {&process->number, &process->next_pc, a, a + 1, a + 2, a + 3, a + 4, a + 5};
    must_run(uc_reg_read_batch(engine, registers, values, ARGUMENTS + 2), "read the registers");
    process->next_pc += SYSCALL_BYTES;
    process->is_calling = true;
    must_run(uc_emu_stop(engine), "stop");
}

/* A block of instructions begins. A turn ends between two blocks. */
static void at_block(uc_engine *engine, uint64_t addr, uint32_t size, void *given) {
    (void)size;
    struct process *process = given;
    if (process->blocks_left--) return;
    process->next_pc = addr;
    must_run(uc_emu_stop(engine), "stop");
}

/* An access to a page that is not mapped, or that is mapped for reading. It continues if the page could be borrowed. */
static bool at_fault(uc_engine *engine, uc_mem_type kind, uint64_t addr, int size, int64_t value, void *given) {
    (void)engine, (void)size, (void)value;
    return show_page(given, addr, kind == UC_MEM_WRITE_UNMAPPED || kind == UC_MEM_WRITE_PROT);
}

void add_hooks(struct process *process) {
    uc_engine *engine = process->engine;
    uc_hook hook;
    const int faults = UC_HOOK_MEM_UNMAPPED | UC_HOOK_MEM_WRITE_PROT;
    must_run(uc_hook_add(engine, &hook, UC_HOOK_INSN, (void *)at_call, process, 1, 0, UC_X86_INS_SYSCALL), "hook");
    must_run(uc_hook_add(engine, &hook, UC_HOOK_BLOCK, (void *)at_block, process, 1, 0), "hook");
    must_run(uc_hook_add(engine, &hook, faults, (void *)at_fault, process, 1, 0), "hook");
}

/* System calls that go past the page tables, with --frames. Some of them hold a page while it is taken away, and write to it then:
   what they write would be lost. Others look a page up in its file, where it may just be missing. */
#include "shmrun.h"
#include <dirent.h>
#include <err.h>
#include <errno.h>
#include <fcntl.h>
#include <linux/futex.h>
#include <stdio.h>
#include <stdlib.h>
#include <string.h>
#include <sys/stat.h>
#include <sys/syscall.h>
#include <sys/uio.h>
#include <unistd.h>

/* ---- calls that are looked at again at their exit ---- */

/* Makes the call with other arguments; at its exit the registers are as the program had them. */
static void let_pass_watched(struct call *call, uint64_t second, uint64_t third) {
    struct user_regs_struct r = call->regs;
    struct task *task = call->task;
    if (call->where == GONE) return;
    task->is_watched = true;
    task->second = r.rsi, task->third = r.rdx;
    r.rsi = second, r.rdx = third;
    ptrace(PTRACE_SETREGS, call->tid, 0, &r);
    resume(call->tid, PTRACE_SYSCALL, 0);
}

/* A shared futex is found by its page's place in the file. If the page is taken away at that moment, the call fails with
   EFAULT, and is made again. */
void end_watched_call(struct task *task) {
    enum { SYSCALL_BYTES = 2, MOST_REPEATS = 100 };
    struct user_regs_struct r;
    if (!task->is_watched || ptrace(PTRACE_GETREGS, task->tid, 0, &r) == -1) return resume(task->tid, PTRACE_CONT, 0);
    bool is_missed = r.orig_rax == SYS_futex && (int64_t)r.rax == -EFAULT && task->process->space->failing != task->tid;
    task->is_watched = false;
    r.rsi = task->second, r.rdx = task->third;
    if (is_missed && task->repeats++ < MOST_REPEATS) {
        r.rax = r.orig_rax;
        r.rip -= SYSCALL_BYTES;
    } else {
        task->repeats = 0;
    }
    ptrace(PTRACE_SETREGS, task->tid, 0, &r);
    resume(task->tid, PTRACE_CONT, 0);
}

void do_futex(struct call *call) {
    if (is_attached(call->space, call->args[0], sizeof(uint32_t)) || is_attached(call->space, call->args[4], sizeof(uint32_t)))
        let_pass_watched(call, call->args[1], call->args[2]);
    else let_pass(call);
}

/* ---- O_DIRECT: a read of a file goes to the page itself ---- */

void open_without_cache(struct call *call, int argument) {
    uint64_t second = call->args[1], third = call->args[2];
    if (call->number == SYS_openat2) return answer(call, -EINVAL);  /* as on a file system without O_DIRECT */
    if (argument == 1) second &= ~(uint64_t)O_DIRECT;
    else third &= ~(uint64_t)O_DIRECT;
    let_pass_watched(call, second, third);
}

/* Whether a file is without cache: of a pipe the flag means something else. */
static bool is_direct(int file, int flags) {
    struct stat found;
    return flags != -1 && flags & O_DIRECT && fstat(file, &found) == 0 && !S_ISFIFO(found.st_mode);
}

void give_inherited_cache(void) {
    DIR *folder = opendir("/proc/self/fd");
    if (!folder) err(CANNOT_START, "/proc/self/fd");
    for (struct dirent *entry; (entry = readdir(folder));) {
        int file = atoi(entry->d_name), flags = fcntl(file, F_GETFL);
        if (is_direct(file, flags) && fcntl(file, F_SETFL, flags & ~O_DIRECT) == -1)
            err(CANNOT_START, "descriptor %d has O_DIRECT, which can't be taken off", file);
    }
    closedir(folder);
}

/* Of a pipe the flag means something else. */
void do_set_flags(struct call *call) {
    char path[64];
    struct stat found;
    snprintf(path, sizeof path, "/proc/%d/fd/%d", call->tid, (int)call->args[0]);
    bool is_pipe = stat(path, &found) == 0 && S_ISFIFO(found.st_mode);
    if (call->args[2] & O_DIRECT && !is_pipe) let_pass_watched(call, call->args[1], call->args[2] & ~(uint64_t)O_DIRECT);
    else let_pass(call);
}

/* ---- process_vm_readv and process_vm_writev ---- */

enum { MOST_PARTS = 1024 };
struct parts { struct iovec list[MOST_PARTS]; size_t count, at; };

static bool read_parts(const struct call *call, uint64_t address, uint64_t count, struct parts *parts) {
    parts->count = count;
    parts->at = 0;
    return read_memory(call, address, parts->list, count * sizeof *parts->list);
}

static uint64_t address_of(const struct parts *parts) { return (uint64_t)(uintptr_t)parts->list[parts->at].iov_base; }

/* What is left of the part, within one page. */
static uint64_t left_of(struct parts *parts) {
    while (parts->at < parts->count && parts->list[parts->at].iov_len == 0) parts->at++;
    return parts->at == parts->count ? 0 : least(parts->list[parts->at].iov_len, PAGE - address_of(parts) % PAGE);
}

static void step(struct parts *parts, uint64_t done) {
    parts->list[parts->at].iov_base = (char *)parts->list[parts->at].iov_base + done;
    parts->list[parts->at].iov_len -= done;
}

/* A page that comes may take another one away, but that one then comes without taking any. */
static bool are_there(const struct guest *space, uint64_t address, const struct guest *other, uint64_t other_address) {
    return is_there(space, address) && is_there(other, other_address) && is_there(space, address);
}

/* The program copies from page to page, while nothing leaves: we wait for it. The words below its stack hold what it asks for. */
static int64_t copy_part(struct call *call, const struct guest *other, uint64_t here, uint64_t there, uint64_t size) {
    enum { RED_ZONE = 128 };
    struct iovec asked[2] = {{(void *)(uintptr_t)here, size}, {(void *)(uintptr_t)there, size}};
    uint64_t at = (call->regs.rsp - RED_ZONE - sizeof asked) / 16 * 16;
    if (!write_memory(call, at, asked, sizeof asked) || !are_there(call->space, here, other, there)) return -EFAULT;
    return run_in(call, call->number, call->args[0], at, 1, at + sizeof *asked, 1, 0);
}

static int64_t copy_parts(struct call *call, const struct guest *other, struct parts *here, struct parts *there) {
    int64_t done = 0;
    for (;;) {
        uint64_t size = least(left_of(here), left_of(there));
        if (size == 0) return done;
        int64_t result = copy_part(call, other, address_of(here), address_of(there), size);
        if (result > 0) done += result;
        if (result != (int64_t)size) return done ? done : result;
        step(here, size);
        step(there, size);
    }
}

void do_copy_memory(struct call *call) {
    static struct parts here, there;
    char below[256];
    const uint64_t *a = call->args, at = call->regs.rsp - sizeof below;
    const struct task *task = find_task((pid_t)a[0]);
    const struct guest *other = task && task->process ? task->process->space : NULL;
    bool is_refused = a[2] > MOST_PARTS || a[4] > MOST_PARTS || a[5];  /* by the kernel too */
    if (!other || is_refused || (!has_pieces(other) && !has_pieces(call->space))) return let_pass(call);
    bool is_read = read_parts(call, a[1], a[2], &here) && read_parts(call, a[3], a[4], &there) && read_memory(call, at, below, sizeof below);
    if (!is_read) return answer(call, -EFAULT);
    int64_t result = copy_parts(call, other, &here, &there);
    write_memory(call, at, below, sizeof below);
    answer(call, result);
}

/* ---- robust mutexes: the kernel marks those of a thread that ends, but then no page comes for it any more ---- */

/* Whether all of their pages were there. */
static bool keep_links(const struct call *call, uint64_t end, const struct robust_list_head *head) {
    enum { MOST_LINKS = 2048, OF_PRIORITY = 1 };
    struct robust_list link = head->list;
    uint64_t pending = (uint64_t)(uintptr_t)head->list_op_pending, offset = (uint64_t)head->futex_offset;
    bool were_there = !pending || keep_there(call->space, call->tid, pending + offset);
    for (int i = 0; i < MOST_LINKS; i++) {
        uint64_t at = (uint64_t)(uintptr_t)link.next & ~(uint64_t)OF_PRIORITY;
        if (at == end) break;
        were_there &= keep_there(call->space, call->tid, at);
        if (!read_memory(call, at, &link, sizeof link)) break;
        were_there &= keep_there(call->space, call->tid, at + offset);
    }
    return were_there;
}

/* A page that comes may take another one away, so they are looked at again. */
void keep_robust(struct task *task) {
    enum { MOST_ROUNDS = 8 };
    const struct call call = {.task = task, .tid = task->tid, .space = task->process->space};
    struct robust_list_head *there, head;
    size_t size;
    if (!call.space->faults || syscall(SYS_get_robust_list, task->tid, &there, &size) == -1 || !there) return;
    uint64_t end = (uint64_t)(uintptr_t)there;
    for (int i = 0; i < MOST_ROUNDS && read_memory(&call, end, &head, sizeof head); i++)
        if (keep_links(&call, end, &head)) return;
}

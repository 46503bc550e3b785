/* Registers and memory of a stopped thread, and system calls that it makes for us.

   A thread stops at the entry of a system call that the filter selects. There the call can be replaced by another one,
   whose exit is a second stop. From there the thread can be sent through the same instruction again, by a single step, for
   more calls. Before that its signals are blocked: they would come in between. SIGSTOP can't be blocked, so it is repeated
   later. SIGTRAP is not, because the step's own one would then change what the program does at it. */
#include "shmrun.h"
#include <err.h>
#include <errno.h>
#include <fcntl.h>
#include <linux/seccomp.h>
#include <poll.h>
#include <sched.h>
#include <signal.h>
#include <string.h>
#include <sys/ioctl.h>
#include <sys/syscall.h>
#include <sys/uio.h>
#include <sys/wait.h>
#include <unistd.h>

enum { SYSCALL_BYTES = 2, SYSCALL_STOP = SIGTRAP | 0x80, WAITED_MS = 20 };

int listener = -1;
uint32_t secret;

void begin_call(struct call *call, struct task *task) {
    const struct process *process = task->process;
    *call = (struct call){.task = task, .tid = task->tid, .tgid = process->tgid, .self = process->self, .space = process->space,
                          .has_threads = process->threads > 1};
    if (ptrace(PTRACE_GETREGS, task->tid, 0, &call->regs) == -1) call->where = GONE;
    const struct user_regs_struct *r = &call->regs;
    call->number = (long)r->orig_rax;
    const uint64_t args[6] = {r->rdi, r->rsi, r->rdx, r->r10, r->r8, r->r9};
    memcpy(call->args, args, sizeof args);
    call->instruction = r->rip - SYSCALL_BYTES;
}

void begin_stop(struct call *call, struct task *task) {
    begin_call(call, task);
    if (call->where != GONE) call->where = AT_EXIT;
    if (call->space->instruction) call->instruction = call->space->instruction;
}

/* ---- system calls that the thread makes ---- */

/* Waits for one thread. If its process is killed, or another thread makes an exec, a leader's end is shown only after those of
   the other threads were taken. */
static bool wait_for(const struct call *call, int *status) {
    enum { SOON = 200, PAUSE_US = 50 };
    for (int i = 0;; i++) {
        pid_t found = waitpid(call->tid, status, __WALL | (call->has_threads ? WNOHANG : 0));
        if (found == call->tid) return true;
        if (found == -1 && errno != EINTR) return false;
        if (found == 0 && i < SOON) {
            sched_yield();
        } else if (found == 0) {
            take_ends(call->tgid);
            usleep(PAUSE_US);
        }
    }
}

static bool go_on(const struct call *call) {
    bool is_gone = ptrace(call->where == AT_EXIT ? PTRACE_SINGLESTEP : PTRACE_SYSCALL, call->tid, 0, 0) == -1;
    if (is_gone && errno != ESRCH) err(CANNOT_GO_ON, "process %d", call->tid);
    return !is_gone;
}

/* not sent by a process */
static bool is_of_step(pid_t tid) {
    siginfo_t info = {0};
    return ptrace(PTRACE_GETSIGINFO, tid, 0, &info) == 0 && info.si_code > 0;
}

/* Waits for the thread's next stop. Whether it is the exit of its system call; the thread's end, an exec of another thread, or a
   fault of the thread ends the call. */
static bool reach_exit(struct call *call) {
    int status = 0;
    bool is_known = wait_for(call, &status);
    int event = status >> 16, signal = WSTOPSIG(status);
    bool is_stop = signal == SIGSTOP || event == PTRACE_EVENT_STOP, is_trap = signal == SYSCALL_STOP || signal == SIGTRAP;
    if (!is_known || !WIFSTOPPED(status) || event == PTRACE_EVENT_EXEC || !(is_stop || is_trap)) {
        call->where = GONE;
        if (is_known) handle_status(call->tid, status);
        return true;
    }
    if (signal == SYSCALL_STOP || (signal == SIGTRAP && !event && is_of_step(call->tid))) return true;
    if (event == PTRACE_EVENT_SECCOMP || signal == SIGTRAP) return false;  /* our own call is one that the filter selects */
    call->has_missed_stop = true;
    return false;
}

static void block_signals(struct call *call) {
    const uint64_t all_but_trap = ~(UINT64_C(1) << (SIGTRAP - 1));
    if (call->is_masked) return;
    call->is_masked = ptrace(PTRACE_GETSIGMASK, call->tid, sizeof call->old_mask, &call->old_mask) != -1;
    if (call->is_masked) ptrace(PTRACE_SETSIGMASK, call->tid, sizeof all_but_trap, &all_but_trap);
}

/* Puts the thread at the entry of a system call. */
static void set_call(struct call *call, long number, const uint64_t *args) {
    struct user_regs_struct r = call->regs;
    r.orig_rax = r.rax = (unsigned long long)number;
    r.rdi = args[0], r.rsi = args[1], r.rdx = args[2], r.r10 = args[3], r.r8 = args[4], r.r9 = args[5];
    if (call->where == AT_EXIT) {
        block_signals(call);
        r.rip = call->instruction;
    }
    ptrace(PTRACE_SETREGS, call->tid, 0, &r);
}

static int64_t result_of(struct call *call) {
    struct user_regs_struct r;
    if (call->where == GONE || ptrace(PTRACE_GETREGS, call->tid, 0, &r) == -1) return -ESRCH;
    call->where = AT_EXIT;
    return (int64_t)r.rax;
}

int64_t run_in(struct call *call, long number, uint64_t a, uint64_t b, uint64_t c, uint64_t d, uint64_t e, uint64_t f) {
    const uint64_t args[6] = {a, b, c, d, e, f};
    if (call->where != GONE) set_call(call, number, args);
    while (call->where != GONE && go_on(call) && !reach_exit(call)) continue;
    return result_of(call);
}

int64_t run_as_made(struct call *call) {
    const uint64_t *a = call->args;
    return run_in(call, call->number, a[0], a[1], a[2], a[3], a[4], a[5]);
}

static bool has_stopped(pid_t tid) {
    siginfo_t info = {0};
    return waitid(P_PID, (id_t)tid, &info, WEXITED | WSTOPPED | WNOHANG | WNOWAIT | __WALL) == -1 || info.si_pid == tid;
}

/* The thread asks the listener for a file: the file becomes the result of its call. */
static void serve_listener(struct call *call, int file, uint32_t flags) {
    struct pollfd asked = {.fd = listener, .events = POLLIN};
    struct seccomp_notif request;
    int ready;
    while ((ready = poll(&asked, 1, WAITED_MS)) <= 0) {
        if (ready == 0) take_ends(call->tgid);
        if (ready == 0 && has_stopped(call->tid)) return;
    }
    memset(&request, 0, sizeof request);
    if (ioctl(listener, SECCOMP_IOCTL_NOTIF_RECV, &request) == -1) return;
    struct seccomp_notif_addfd added = {.id = request.id, .flags = SECCOMP_ADDFD_FLAG_SEND, .srcfd = (uint32_t)file,
                                        .newfd_flags = flags};
    if (ioctl(listener, SECCOMP_IOCTL_NOTIF_ADDFD, &added) >= 0 || errno == ENOENT) return;
    struct seccomp_notif_resp refused = {.id = request.id, .error = -errno};
    ioctl(listener, SECCOMP_IOCTL_NOTIF_SEND, &refused);
}

/* A signal would interrupt the wait for the file: only SIGSTOP still can, and then the thread asks again. */
int64_t give_file(struct call *call, int file, uint32_t flags) {
    enum { INTERRUPTED = 512 };
    const uint64_t args[6] = {secret};
    int64_t result = -INTERRUPTED;
    if (call->where != GONE) block_signals(call);
    while (result == -INTERRUPTED && call->where != GONE) {
        set_call(call, ASK_FOR_FILE, args);
        if (!go_on(call)) return -ESRCH;
        serve_listener(call, file, flags);
        if (reach_exit(call)) result = result_of(call);
    }
    return result;
}

/* ---- its end ---- */

static void release(struct call *call, int signal) {
    if (call->is_masked) ptrace(PTRACE_SETSIGMASK, call->tid, sizeof call->old_mask, &call->old_mask);
    if (call->has_missed_stop) syscall(SYS_tgkill, call->tgid, call->tid, SIGSTOP);
    resume(call->tid, PTRACE_CONT, signal);
}

void answer(struct call *call, int64_t result) {
    struct user_regs_struct r = call->regs;
    if (call->where == GONE) return;
    r.rax = (unsigned long long)result;
    r.orig_rax = ~0ull;  /* no call is made, and none is begun again */
    ptrace(PTRACE_SETREGS, call->tid, 0, &r);
    release(call, 0);
}

void let_pass(struct call *call) {
    if (call->where != GONE) release(call, 0);
}

void leave_call(struct call *call, siginfo_t *signal) {
    if (call->where == GONE) return;
    ptrace(PTRACE_SETREGS, call->tid, 0, &call->regs);
    if (signal) ptrace(PTRACE_SETSIGINFO, call->tid, 0, signal);
    release(call, signal ? signal->si_signo : 0);
}

/* ---- its memory ---- */

/* One page at a time is brought if pages may be absent: it stays until the next one comes. */
static bool copy_memory(const struct call *call, uint64_t address, void *bytes, size_t size, bool is_write) {
    for (size_t part; size > 0; size -= part, address += part, bytes = (char *)bytes + part) {
        part = options.frames ? least(size, PAGE - address % PAGE) : size;
        struct iovec here = {bytes, part}, there = {(void *)(uintptr_t)address, part};
        if (!is_there(call->space, address)) return false;
        if ((is_write ? process_vm_writev : process_vm_readv)(call->tid, &here, 1, &there, 1, 0) != (ssize_t)part) return false;
    }
    return true;
}

bool read_memory(const struct call *call, uint64_t from, void *to, size_t size) { return copy_memory(call, from, to, size, false); }

bool write_memory(const struct call *call, uint64_t to, const void *from, size_t size) {
    return copy_memory(call, to, (void *)(uintptr_t)from, size, true);
}

bool read_text(const struct call *call, uint64_t from, char *to, size_t size) {
    size_t in_page = PAGE - from % PAGE, first = size < in_page ? size : in_page;
    bool is_read = read_memory(call, from, to, first);
    if (is_read && first < size && !memchr(to, 0, first)) is_read = read_memory(call, from + first, to + first, size - first);
    to[size - 1] = 0;
    return is_read;
}

/* Threads and processes: how they begin and end. Signals go through unchanged. */
#include "shmrun.h"
#include <err.h>
#include <errno.h>
#include <linux/kcmp.h>
#include <signal.h>
#include <stdlib.h>
#include <sys/syscall.h>
#include <sys/wait.h>
#include <time.h>
#include <unistd.h>

enum { ROWS = 4096, SYSCALL_STOP = SIGTRAP | 0x80 };
static struct task *tasks[ROWS];
static pid_t first_process;
static int first_status;

static struct task **place_of(pid_t tid) {
    struct task **at = &tasks[(unsigned)tid % ROWS];
    while (*at && (*at)->tid != tid) at = &(*at)->next;
    return at;
}

struct task *find_task(pid_t tid) { return *place_of(tid); }

static struct task *task_of(pid_t tid) {
    struct task **at = place_of(tid);
    if (!*at) {
        *at = allocate(sizeof **at);
        (*at)->tid = tid;
    }
    return *at;
}

static void forget_task(pid_t tid) {
    struct task **at = place_of(tid), *task = *at;
    if (!task) return;
    *at = task->next;
    if (task->process && --task->process->threads == 0) free(task->process);
    free(task);
}

void resume(pid_t tid, enum __ptrace_request request, int signal) {
    /* ESRCH: it was killed; its end is seen next */
    if (ptrace(request, tid, 0, signal) == -1 && errno != ESRCH) warnx("process %d does not continue (errno %d)", tid, errno);
}

/* ---- processes ---- */

static struct process *new_process(pid_t tgid, struct guest *space) {
    struct process *process = allocate(sizeof *process);
    process->tgid = tgid;
    process->self = new_guest((uint32_t)tgid);
    process->space = space ? space : process->self;
    process->self->uses++;
    process->space->uses++;
    return process;
}

static void end_process(struct process *process) {
    release_guest(process->space);
    release_guest(process->self);
    process->self = process->space = NULL;
}

/* the last thread of a process that ends is its leader */
static void note_end(pid_t tid, int status) {
    struct task *task = *place_of(tid);
    if (tid == first_process) first_status = status;
    if (!task) return;
    if (task->process && task->process->space && task->process->space->failing == tid) task->process->space->failing = 0;
    if (task->process && task->process->tgid == tid) end_process(task->process);
    forget_task(tid);
}

static bool is_thread_of(const struct process *process, pid_t tid) {
    return syscall(SYS_tgkill, process->tgid, tid, 0) == 0 || errno != ESRCH;
}

static bool shares_memory(pid_t one, pid_t other, int event) {
    long compared = syscall(SYS_kcmp, one, other, KCMP_VM, 0, 0);
    return compared == -1 ? event == PTRACE_EVENT_VFORK : compared == 0;
}

static void note_birth(struct task *maker, int event) {
    unsigned long number = 0;
    ptrace(PTRACE_GETEVENTMSG, maker->tid, 0, &number);
    if (kill((pid_t)number, 0) == -1 && errno == ESRCH) return;  /* it was killed, and its end was seen first */
    bool has_stopped = *place_of((pid_t)number) != NULL;
    struct task *child = task_of((pid_t)number);
    child->uid = maker->uid;
    child->gid = maker->gid;
    child->is_user_known = maker->is_user_known;
    if (is_thread_of(maker->process, child->tid)) {
        child->process = maker->process;
    } else {
        struct guest *space = maker->process->space;
        bool is_shared = shares_memory(maker->tid, child->tid, event);
        child->process = new_process(child->tid, is_shared ? space : NULL);
        if (!is_shared) inherit(maker, space, child->process->self);
    }
    child->process->threads++;
    if (has_stopped && !watch_child(child)) resume(child->tid, PTRACE_CONT, 0);
}

/* after an exec the thread has its process's number, and no other thread is left */
static void note_exec(struct task *task) {
    static bool has_begun;
    unsigned long former = 0;
    struct process *process = task->process;
    ptrace(PTRACE_GETEVENTMSG, task->tid, 0, &former);
    if ((pid_t)former != task->tid) forget_task((pid_t)former);
    task->is_user_known = false;
    if (!has_begun) check_command(task->tid);
    has_begun = true;
    if (process->space == process->self && process->self->uses == 2) {
        if (has_pieces(process->self)) perform(&(struct event){.kind = EXEC, .pid = process->self->pid});
        close_faults(process->self);
        return;
    }
    /* others have the old memory: this process gets a new one */
    struct guest *old = process->space, *self = process->self;
    process->self = process->space = old == self ? new_guest((uint32_t)process->tgid) : self;
    process->self->uses += old == self ? 2 : 1;
    release_guest(old);
    if (old == self) release_guest(old);
}

/* ---- stops ---- */

static bool is_group_stop(int signal) {
    return signal == SIGSTOP || signal == SIGTSTP || signal == SIGTTIN || signal == SIGTTOU;
}

/* A process that is stopped stays so. If the terminal stopped the first one, shmrun stops too, so that the shell sees it. */
static void handle_group_stop(struct task *task, int signal) {
    resume(task->tid, PTRACE_LISTEN, 0);
    if (task->tid == first_process && signal != SIGSTOP) raise(SIGSTOP);
}

static void handle_event(struct task *task, int event, int signal) {
    switch (event) {
    case PTRACE_EVENT_SECCOMP: handle_call(task); return;
    case PTRACE_EVENT_FORK:
    case PTRACE_EVENT_VFORK:
    case PTRACE_EVENT_CLONE: note_birth(task, event); break;
    case PTRACE_EVENT_EXEC: note_exec(task); break;
    case PTRACE_EVENT_EXIT: keep_robust(task); break;
    case PTRACE_EVENT_STOP:
        if (is_group_stop(signal)) handle_group_stop(task, signal);
        else if (!watch_child(task) && !end_failed_call(task)) break;
        return;
    default: break;
    }
    resume(task->tid, PTRACE_CONT, 0);
}

static void handle_stop(pid_t tid, int status) {
    struct task *task = task_of(tid);
    int event = status >> 16;
    if (!task->process) return;  /* it waits for its maker's stop */
    if (event) handle_event(task, event, WSTOPSIG(status));
    else if (WSTOPSIG(status) == SYSCALL_STOP) end_watched_call(task);
    else if (WSTOPSIG(status) != SIGBUS || !end_failed_access(task)) resume(tid, PTRACE_CONT, WSTOPSIG(status));
}

void handle_status(pid_t tid, int status) {
    if (WIFSTOPPED(status)) handle_stop(tid, status);
    else note_end(tid, status);
}

static void take_end(pid_t tid) {
    siginfo_t found = {0};
    int status;
    if (waitid(P_PID, (id_t)tid, &found, WEXITED | WNOHANG | WNOWAIT | __WALL) == -1 || found.si_pid != tid) return;
    bool is_stop = found.si_code == CLD_TRAPPED || found.si_code == CLD_STOPPED;  /* shown too, whatever the options */
    bool is_exit = found.si_code == CLD_TRAPPED && found.si_status == (SIGTRAP | PTRACE_EVENT_EXIT << 8);
    if ((!is_stop || is_exit) && waitpid(tid, &status, __WALL | WNOHANG) == tid) handle_status(tid, status);
}

void take_ends(pid_t tgid) {
    for (int row = 0; row < ROWS; row++)
        for (struct task *task = tasks[row], *next; task; task = next) {
            next = task->next;
            if (task->process && task->process->tgid == tgid) take_end(task->tid);
        }
}

int trace_all(pid_t first) {
    int status;
    first_process = first;
    struct task *task = task_of(first);
    task->process = new_process(first, NULL);
    task->process->threads = 1;
    if (options.frames) open_poller();
    for (;;) {
        pid_t tid = waitpid(-1, &status, options.frames ? WNOHANG : __WALL);  /* without __WALL the keeper is not waited for */
        if (tid == 0) serve_faults();
        if (tid == 0 || (tid == -1 && errno == EINTR)) continue;
        if (tid == -1) return first_status;
        nog_set_time(&machine, (uint64_t)time(NULL));
        handle_status(tid, status);
        close_destroyed();
    }
}

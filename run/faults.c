/* Faults at pages that are not there. Each address space that has attachments has a userfaultfd, which it makes itself, because a
   userfaultfd is one of the process that makes it; we take it over. A child of a fork gets its own before its first instruction.
   Each event is handled: the page comes, or the thread is woken and repeats its access, which then finds the page or ends as it
   would without us. */
#include "shmrun.h"
#include <err.h>
#include <errno.h>
#include <fcntl.h>
#include <linux/userfaultfd.h>
#include <poll.h>
#include <sched.h>
#include <signal.h>
#include <stdlib.h>
#include <string.h>
#include <sys/epoll.h>
#include <sys/ioctl.h>
#include <sys/mman.h>
#include <sys/prctl.h>
#include <sys/resource.h>
#include <sys/signalfd.h>
#include <sys/syscall.h>
#include <unistd.h>

#ifndef UFFDIO_POISON
struct uffdio_poison { struct uffdio_range range; uint64_t mode; int64_t updated; };
#define UFFDIO_POISON _IOWR(UFFDIO, 8, struct uffdio_poison)
#define UFFD_FEATURE_POISON (1 << 14)
#endif
enum { FEATURES = UFFD_FEATURE_THREAD_ID | UFFD_FEATURE_EXACT_ADDRESS | UFFD_FEATURE_MISSING_SHMEM | UFFD_FEATURE_POISON };
static int device, poller, children;
/* Threads that wait for a page which comes later; the one that has waited longest is first. */
enum { MOST_WAITING = 4096 };
static struct fault waiting[MOST_WAITING];
static size_t waiting_count;

/* ---- the start ---- */

static bool set_up(int file) {
    struct uffdio_api api = {.api = UFFD_API, .features = FEATURES};
    return ioctl(file, UFFDIO_API, &api) == 0;
}

static void add_to_poller(int file, void *what) {
    struct epoll_event event = {.events = EPOLLIN, .data.ptr = what};
    if (epoll_ctl(poller, EPOLL_CTL_ADD, file, &event) == -1) err(CANNOT_GO_ON, "epoll");
}

void check_faults(void) {
    device = open("/dev/userfaultfd", O_RDWR | O_CLOEXEC);
    if (device == -1)
        err(CANNOT_START, "--frames needs /dev/userfaultfd, which only root may open, unless root lets others");
    int file = ioctl(device, USERFAULTFD_IOC_NEW, O_CLOEXEC);
    if (file == -1 || !set_up(file)) err(CANNOT_START, "--frames needs Linux 6.6 or later: userfaultfd");
    close(file);
}

/* The keeper has the same table of open files. If shmrun is killed, the kernel closes its files before it kills the programs; a
   userfaultfd that is closed would let them continue, with zeros. So the table has to live a little longer than they do. */
static int keep_files(void *parent) {
    enum { UNTIL_KILLED = 2 };
    sigset_t all;
    sigfillset(&all);
    sigprocmask(SIG_BLOCK, &all, NULL);
    setsid();
    struct pollfd end = {.fd = (int)syscall(SYS_pidfd_open, *(pid_t *)parent, 0), .events = POLLIN};
    while (end.fd != -1 && poll(&end, 1, -1) != 1) continue;
    sleep(UNTIL_KILLED);
    _exit(0);
}

/* The keeper has a name and a command line of its own from its start, so that what kills all processes of our name does not kill
   it too. For that we have them while it is made: the words of a command line are in one row. */
pid_t start_keeper(int argc, char **argv) {
    static char stack[65536] __attribute__((aligned(16)));
    static const char name[] = "page-keeper";  /* at most 15 bytes, and nothing of our own name */
    static pid_t parent;
    char *words = argv[0], our_name[16];
    size_t size = (size_t)(argv[argc - 1] - words) + strlen(argv[argc - 1]);
    char *our_words = memcpy(allocate(size), words, size);
    parent = getpid();
    prctl(PR_GET_NAME, our_name);
    prctl(PR_SET_NAME, name);
    memset(words, 0, size);
    memcpy(words, name, least(size, sizeof name - 1));
    pid_t made = clone(keep_files, stack + sizeof stack, CLONE_FILES, &parent);
    int error = errno;
    memcpy(words, our_words, size);
    prctl(PR_SET_NAME, our_name);
    free(our_words);
    if (made == -1) errno = error, err(CANNOT_START, "clone");
    return made;
}

void open_poller(void) {
    sigset_t child;
    sigemptyset(&child);
    sigaddset(&child, SIGCHLD);
    sigprocmask(SIG_BLOCK, &child, NULL);
    children = signalfd(-1, &child, SFD_CLOEXEC | SFD_NONBLOCK);
    poller = epoll_create1(EPOLL_CLOEXEC);
    if (children == -1 || poller == -1) err(CANNOT_START, "epoll");
    add_to_poller(children, NULL);
}

/* ---- an address space is watched ---- */

bool open_faults(struct call *call) {
    struct guest *space = call->space;
    if (space->faults) return true;
    int64_t there = give_file(call, device, O_CLOEXEC);
    if (there < 0) return false;
    int64_t made = run_in(call, SYS_ioctl, (uint64_t)there, USERFAULTFD_IOC_NEW, O_CLOEXEC | O_NONBLOCK, 0, 0, 0);
    run_in(call, SYS_close, (uint64_t)there, 0, 0, 0, 0, 0);
    if (is_error(made)) return false;
    int file = take_file(call->tgid, (int)made);
    run_in(call, SYS_close, (uint64_t)made, 0, 0, 0, 0, 0);
    if (file == -1) return false;
    if (!set_up(file)) {
        close(file);
        return false;
    }
    space->faults = file;
    space->instruction = call->instruction;
    add_to_poller(file, space);
    return true;
}

void close_faults(struct guest *space) {
    size_t kept = 0;
    for (size_t i = 0; i < waiting_count; i++)
        if (waiting[i].space != space) waiting[kept++] = waiting[i];
    waiting_count = kept;
    if (space->faults) close(space->faults);
    space->faults = 0;
}

bool watch(const struct guest *space, uint64_t begin, uint64_t length) {
    struct uffdio_register range = {.range = {begin, length}, .mode = UFFDIO_REGISTER_MODE_MISSING};
    return ioctl(space->faults, UFFDIO_REGISTER, &range) == 0;
}

/* The process has only one thread, which is stopped, so it does not see that it may have more descriptors for a moment. */
static bool open_faults_above_limit(struct call *call) {
    enum { MANY = 1 << 20 };  /* as Linux's fs.nr_open */
    struct rlimit old, lifted = {MANY, MANY};
    if (prlimit(call->tgid, RLIMIT_NOFILE, NULL, &old) == -1) return false;
    const struct rlimit highest = {old.rlim_max, old.rlim_max};
    if (prlimit(call->tgid, RLIMIT_NOFILE, &lifted, NULL) == -1 && prlimit(call->tgid, RLIMIT_NOFILE, &highest, NULL) == -1)
        return false;
    bool is_open = open_faults(call);
    prlimit(call->tgid, RLIMIT_NOFILE, &old, NULL);
    return is_open;
}

/* At the first stop of a child, which has its parent's attachments: they are not watched yet. A child that can't be watched must
   not run, because it would find zeros. */
bool watch_child(struct task *task) {
    struct call call;
    struct guest *space = task->process->space;
    nog_piece piece;
    if (!space->is_to_be_watched) return false;
    space->is_to_be_watched = false;
    begin_stop(&call, task);
    bool is_open = open_faults(&call) || (call.where != GONE && open_faults_above_limit(&call));
    if (!is_open && call.where != GONE) {
        warnx("process %d is killed: it has no descriptor left for its userfaultfd", call.tgid);
        kill(call.tgid, SIGKILL);
    }
    for (uint32_t i = 0; is_open && call.where != GONE && nog_piece_at(&machine, space->pid, i, &piece) == NOG_DONE; i++)
        if (!watch(space, piece.base, (uint64_t)piece.pages * PAGE)) kill(call.tgid, SIGKILL);  /* no memory for it; or it has ended */
    leave_call(&call, NULL);
    return true;
}

/* ---- an area that fails ---- */

/* The page is poisoned for the process: an access gets SIGBUS, a system call EFAULT. When the thread stops on its way, the poison
   is taken away. Until then no other page is brought for the process. */
static void fail(const struct fault *fault) {
    struct uffdio_poison poison = {.range = {fault->address / PAGE * PAGE, PAGE}};
    struct task *task = find_task(fault->tid);
    if (!task || !task->process || task->process->space != fault->space) return;
    struct guest *space = task->process->space;
    space->failing = fault->tid;
    space->failed_page = poison.range.start;
    ptrace(PTRACE_INTERRUPT, fault->tid, 0, 0);
    if (ioctl(space->faults, UFFDIO_POISON, &poison) == -1) space->failing = 0;
}

static void take_poison(struct task *task, uint64_t page, siginfo_t *signal) {
    struct call call;
    struct guest *space = task->process->space;
    begin_stop(&call, task);
    space->uses++;  /* the process may end in the middle */
    run_in(&call, SYS_madvise, page, PAGE, MADV_DONTNEED, 0, 0, 0);
    space->failing = 0;
    leave_call(&call, signal);
    release_guest(space);
}

/* Some kernels show poison as broken memory; here it is a page that can't be read. */
bool end_failed_access(struct task *task) {
    siginfo_t info;
    nog_piece piece;
    const struct guest *space = task->process->space;
    if (!space->faults || ptrace(PTRACE_GETSIGINFO, task->tid, 0, &info) == -1) return false;
    if (info.si_code <= 0) return false;  /* a process sent it */
    uint64_t address = (uint64_t)(uintptr_t)info.si_addr;
    if (!find_piece(space, address, address + 1, &piece)) return false;
    info.si_code = BUS_ADRERR;
    take_poison(task, address / PAGE * PAGE, &info);
    return true;
}

/* A thread outside of a system call is still on its way to its SIGBUS. */
bool end_failed_call(struct task *task) {
    struct user_regs_struct r;
    const struct guest *space = task->process->space;
    if (space->failing != task->tid || ptrace(PTRACE_GETREGS, task->tid, 0, &r) == -1 || r.orig_rax == ~0ull) return false;
    take_poison(task, space->failed_page, NULL);
    return true;
}

/* ---- events ---- */

static void wake(const struct guest *space, uint64_t address) {
    struct uffdio_range range = {address / PAGE * PAGE, PAGE};
    ioctl(space->faults, UFFDIO_WAKE, &range);
}

static void handle_fault(struct fault *fault) {
    enum brought brought = fault->space->failing ? LOST : bring(fault);
    if (brought == CAME) return;
    if (brought == FAILED) fail(fault);
    if (brought == LATER && waiting_count < MOST_WAITING) waiting[waiting_count++] = *fault;
    else wake(fault->space, fault->address);
}

static void handle_faults(const struct guest *space) {
    struct uffd_msg event;
    if (read(space->faults, &event, sizeof event) != sizeof event || event.event != UFFD_EVENT_PAGEFAULT) return;
    handle_fault(&(struct fault){space, (pid_t)event.arg.pagefault.feat.ptid, event.arg.pagefault.address, now_us()});
}

/* Each is tried once, in turn: those that must wait on come to the end, so their order is as before. */
static void try_waiting(void) {
    size_t count = waiting_count;
    for (size_t i = 0; i < count && waiting_count > 0; i++) {
        struct fault first = waiting[0];
        memmove(waiting, waiting + 1, --waiting_count * sizeof *waiting);
        handle_fault(&first);
    }
}

/* The next event; 0 if threads wait for a page and there is none. To be woken takes longer than a fault, and after one the next
   often comes soon: so we stay awake for a moment, and let others run. */
static int next_event(struct epoll_event *event, uint64_t awake_until) {
    int ready;
    while ((ready = epoll_wait(poller, event, 1, 0)) == 0 && waiting_count == 0) {
        if (now_us() >= awake_until) return epoll_wait(poller, event, 1, -1);
        sched_yield();
    }
    return ready;
}

void serve_faults(void) {
    enum { PAUSE_US = 20, AWAKE_US = 50, LONG_US = 2000 };
    struct epoll_event event;
    struct signalfd_siginfo signal;
    static uint64_t awake_until;
    for (;;) {
        int ready = next_event(&event, awake_until);
        if (ready == 0) usleep(PAUSE_US);
        if (ready == 1 && event.data.ptr) {
            handle_faults(event.data.ptr);
            awake_until = now_us() + AWAKE_US;
        }
        if (ready == 0 || (waiting_count && now_us() - waiting[0].since > LONG_US)) try_waiting();
        if (ready != 1 || event.data.ptr) continue;
        while (read(children, &signal, sizeof signal) == sizeof signal) continue;
        return;
    }
}

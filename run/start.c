/* The first process, the signals that shmrun gets, and the exit status. */
#include "shmrun.h"
#include <elf.h>
#include <err.h>
#include <errno.h>
#include <fcntl.h>
#include <signal.h>
#include <stdio.h>
#include <stdlib.h>
#include <string.h>
#include <sys/random.h>
#include <sys/resource.h>
#include <sys/stat.h>
#include <sys/syscall.h>
#include <sys/wait.h>
#include <unistd.h>

enum { MOST_FRAMES = 1 << 20, FEWEST_FRAMES = 1 << 12, SLOTS_IN_FILE = 1 << 16 };
nog_machine machine = NOG_MACHINE_INITIALIZER;
static volatile sig_atomic_t first;

void *allocate(size_t size) {
    void *made = calloc(1, size);
    if (!made) errx(CANNOT_GO_ON, "out of memory");
    return made;
}

/* ---- the machine ---- */

int64_t reply_of(uint32_t code) {
    uint8_t text[64] = {0};
    size_t length;
    if (code <= NOG_EIDRM) return -(int64_t)code;
    if (code == NOG_NO_MEMORY) return -ENOMEM;
    nog_text(code, text, sizeof text, &length);
    errx(CANNOT_GO_ON, "the library returned %u, %s, which ends all programs", code, (char *)text);
}

/* Bytes are in files, so the frames stay empty. They bound only the locked pages of all users, which are at most SHMALL. */
static void open_machine(void) {
    nog_limits *l = &options.limits;
    nog_area area = {NOG_SPARSE, (uint32_t)l->shmall};
    l->most_slots = l->shmall;
    l->frames = l->shmall + 2 < MOST_FRAMES ? l->shmall + 2 : MOST_FRAMES;
    if (l->frames < l->memlock + 2) l->frames = l->memlock + 2;
    uint32_t code;
    while ((code = nog_open(&machine, l, &area, 1, NULL, 0, NULL, 0)) == NOG_NO_MEMORY && l->frames > FEWEST_FRAMES) {
        l->frames /= 2;
        if (l->memlock + 2 > l->frames && options.has_limits) break;
        l->memlock = least(l->memlock, l->frames - 2);
    }
    if (code == NOG_NO_MEMORY)
        errx(CANNOT_START, "there is not enough memory to reserve for SHMALL %lu and MEMLOCK %lu: --limits may give fewer",
             l->shmall, l->memlock);
    reply_of(code);
}

/* At most options.frames pages are in memory: the areas have the others. */
static void open_machine_with_frames(void) {
    nog_limits *l = &options.limits;
    const nog_area in_file = {NOG_RAM, SLOTS_IN_FILE}, in_memory = {NOG_SPARSE, (uint32_t)l->shmall};
    if (!options.area_count) options.areas[options.area_count++] = options.swap_file ? in_file : in_memory;
    if (options.swap_file) open_swap_file(options.swap_file);
    for (size_t i = 0; i < options.area_count; i++) l->most_slots = most(l->most_slots, options.areas[i].slots);
    l->frames = options.frames;
    uint64_t most_locked = l->frames > NOT_LOCKED ? l->frames - NOT_LOCKED : 0;
    if (options.has_limits && l->memlock > most_locked)
        errx(CANNOT_START, "--frames %lu: MEMLOCK is %lu; it is at most %lu, because %d frames are for pages that are not locked",
             l->frames, l->memlock, most_locked, NOT_LOCKED);
    l->memlock = least(l->memlock, most_locked);
    use_swap_file(true);
    uint32_t code = nog_open(&machine, l, options.areas, options.area_count, options.failures, options.failure_count, NULL, 0);
    use_swap_file(false);
    if (code == NOG_NO_MEMORY) errx(CANNOT_START, "there is not enough memory for the frames and the swap areas");
    reply_of(code);
    open_paging();
}

/* ---- what can't run ---- */

/* After the command's exec, before its first instruction. */
void check_command(pid_t pid) {
    char path[64];
    struct stat found;
    unsigned char head[EI_CLASS + 1] = {0};
    snprintf(path, sizeof path, "/proc/%d/exe", pid);
    int file = open(path, O_RDONLY | O_CLOEXEC);
    if (stat(path, &found) == -1) return;
    bool gets_user = found.st_mode & S_ISUID && found.st_uid != geteuid();
    bool gets_group = found.st_mode & S_ISGID && found.st_gid != getegid();
    if (geteuid() != 0 && (gets_user || gets_group))
        errx(CANNOT_RUN, "%s is a set-user-ID or set-group-ID program, which only root can run under shmrun", options.command[0]);
    if (file != -1 && read(file, head, sizeof head) == (ssize_t)sizeof head && head[EI_CLASS] == ELFCLASS32)
        errx(CANNOT_RUN, "%s is a 32-bit program: shmrun runs those of 64 bits", options.command[0]);
    close(file);
}

/* ---- the first process ---- */

struct news { int listener, error; };

/* In the child: it waits until it is traced, installs the filter, and waits until we have the listener. */
__attribute__((noreturn)) static void become_command(int in, int out) {
    struct news news = {0};
    char go;
    if (read(in, &go, 1) != 1) _exit(CANNOT_START);
    news.listener = install_filter();
    news.error = news.listener < 0 ? errno : 0;
    if (write(out, &news, sizeof news) != sizeof news || read(in, &go, 1) != 1) _exit(CANNOT_START);
    close(news.listener);
    execvp(options.command[0], options.command);
    int status = errno == ENOENT ? NOT_FOUND : CANNOT_RUN;
    warn("%s", options.command[0]);
    _exit(status);
}

int take_file(pid_t tgid, int number) {
    int pid_file = (int)syscall(SYS_pidfd_open, tgid, 0);
    int made = (int)syscall(SYS_pidfd_getfd, pid_file, number, 0);
    int error = errno;
    close(pid_file);
    errno = error;
    return made;
}

static pid_t start_command(void) {
    enum { OPTIONS = PTRACE_O_TRACESYSGOOD | PTRACE_O_TRACEFORK | PTRACE_O_TRACEVFORK | PTRACE_O_TRACECLONE | PTRACE_O_TRACEEXEC |
                     PTRACE_O_TRACESECCOMP | PTRACE_O_EXITKILL };
    int to[2], from[2];
    struct news news = {0, EPIPE};
    if (pipe2(to, O_CLOEXEC) || pipe2(from, O_CLOEXEC)) err(CANNOT_START, "pipe");
    pid_t child = fork();
    if (child == -1) err(CANNOT_START, "fork");
    if (child == 0) {
        close(to[1]);
        become_command(to[0], from[1]);
    }
    close(from[1]);
    if (ptrace(PTRACE_SEIZE, child, 0, OPTIONS | (options.frames ? PTRACE_O_TRACEEXIT : 0)) == -1)
        err(CANNOT_START, "the command can't be traced: another program traces it, or kernel.yama.ptrace_scope forbids it");
    if (write(to[1], "t", 1) != 1 || read(from[0], &news, sizeof news) != sizeof news || news.error)
        errno = news.error, err(CANNOT_START, "the filter can't be installed: Linux 5.14 or later is needed");
    listener = take_file(child, news.listener);
    if (listener == -1) err(CANNOT_START, "the filter's listener can't be reached");
    if (write(to[1], "g", 1) != 1) errx(CANNOT_START, "the command has ended before its start");
    close(to[0]), close(to[1]), close(from[0]);
    return child;
}

/* ---- signals ---- */

/* The terminal's signals reach the command too. A signal that a process sends to us is sent on. */
static void send_on(int signal, siginfo_t *info, void *ignored) {
    (void)ignored;
    int before = errno;
    if (info->si_code <= 0 && first > 0) kill(first, signal);
    errno = before;
}

static void prepare_signals(void) {
    static const int sent_on[] = {SIGINT, SIGQUIT, SIGTERM, SIGHUP, SIGUSR1, SIGUSR2};
    static const int ignored[] = {SIGTSTP, SIGTTIN, SIGTTOU, SIGPIPE};
    struct sigaction action = {.sa_sigaction = send_on, .sa_flags = SA_SIGINFO | SA_RESTART};
    for (size_t i = 0; i < sizeof sent_on / sizeof *sent_on; i++) sigaction(sent_on[i], &action, NULL);
    for (size_t i = 0; i < sizeof ignored / sizeof *ignored; i++) signal(ignored[i], SIG_IGN);
}

/* ---- the end ---- */

/* A signal that ended the command ends shmrun too, so that a shell sees it. */
static int status_of(int status) {
    if (WIFEXITED(status)) return WEXITSTATUS(status);
    int number = WTERMSIG(status);
    struct rlimit none = {0, 0};
    setrlimit(RLIMIT_CORE, &none);
    signal(number, SIG_DFL);
    fflush(NULL);
    raise(number);
    return 128 + number;
}

/* Each segment may need a file of its own. */
static void raise_file_limit(void) {
    struct rlimit limit;
    if (getrlimit(RLIMIT_NOFILE, &limit) == -1) return;
    limit.rlim_cur = limit.rlim_max;
    setrlimit(RLIMIT_NOFILE, &limit);
}

int main(int argc, char **argv) {
    static char name[] = "shmrun";
    int file;
    program_invocation_short_name = name;
    setlinebuf(stderr);  /* one write for each message */
    while ((file = open("/dev/null", O_RDWR | O_CLOEXEC)) >= 0 && file <= STDERR_FILENO) continue;  /* none of ours is 0, 1 or 2 */
    close(file);
    read_options(argc, argv);
    if (options.frames) give_inherited_cache(), check_faults(), open_machine_with_frames();
    else open_machine();
    if (getrandom(&secret, sizeof secret, 0) != sizeof secret) err(CANNOT_START, "getrandom");
    first = start_command();
    prepare_signals();
    raise_file_limit();
    pid_t keeper = options.frames ? start_keeper(argc, argv) : 0;
    int status = trace_all(first);
    if (keeper) kill(keeper, SIGKILL);
    write_record();
    return status_of(status);
}

/* alike SUBJECT: makes calls and prints each reply, so that a run under shmrun can be compared with one on the kernel's own shared
   memory. What differs from run to run, such as identifiers, pids and addresses, is printed as what it is equal to. */
#define _GNU_SOURCE
#include <errno.h>
#include <fcntl.h>
#include <pthread.h>
#include <sched.h>
#include <signal.h>
#include <spawn.h>
#include <stdint.h>
#include <stdio.h>
#include <stdlib.h>
#include <string.h>
#include <sys/mman.h>
#include <sys/resource.h>
#include <sys/shm.h>
#include <sys/syscall.h>
#include <sys/time.h>
#include <sys/wait.h>
#include <unistd.h>

enum { PAGE = 4096 };
static const char *self;

static void say(const char *what, long result) {
    int error = errno;
    if (result == -1) printf("%s: %s\n", what, strerrorname_np(error) ? strerrorname_np(error) : "?");
    else printf("%s: %ld\n", what, result);
    fflush(stdout);
}
static void say_ok(const char *what, long result) { say(what, result == -1 ? -1 : 0); }

static int make(size_t size) {
    int id = shmget(IPC_PRIVATE, size, 0600);
    if (id == -1) say("shmget", id), exit(1);
    return id;
}
static void *attach(int id, const void *at, int flags) { return shmat(id, at, flags); }
static void say_attach(const char *what, void *at, const void *wanted) {
    say(what, at == (void *)-1 ? -1 : at == wanted);
}

/* nattch, and who is the last: 0 none, 1 this process, 2 its parent, 3 another */
static void say_stat(const char *what, int id) {
    struct shmid_ds d;
    if (shmctl(id, IPC_STAT, &d) == -1) return say(what, -1);
    int last = d.shm_lpid == 0 ? 0 : d.shm_lpid == getpid() ? 1 : d.shm_lpid == getppid() ? 2 : 3;
    printf("%s: nattch %lu last %d atime %d dtime %d ctime %d size %zu mode %o uid %u gid %u\n", what, d.shm_nattch, last,
           d.shm_atime != 0, d.shm_dtime != 0, d.shm_ctime != 0, d.shm_segsz, d.shm_perm.mode, d.shm_perm.uid, d.shm_perm.gid);
    fflush(stdout);
}
static void remove_it(int id) { shmctl(id, IPC_RMID, NULL); }

/* a range of addresses in which nothing is mapped */
static char *hole(size_t size) {
    char *at = mmap(NULL, size, PROT_NONE, MAP_PRIVATE | MAP_ANONYMOUS, -1, 0);
    munmap(at, size);
    return at;
}

/* ---- attaches next to other memory, and those that fail ---- */

static void test_addresses(void) {
    int id = make(3 * PAGE);
    char *free_range = hole(16 * PAGE), *own = mmap(NULL, 8 * PAGE, PROT_READ, MAP_PRIVATE | MAP_ANONYMOUS, -1, 0);
    say_attach("at a free range", attach(id, free_range, 0), free_range);
    say_attach("over an attachment", attach(id, free_range + PAGE, 0), NULL);
    say_attach("over other memory", attach(id, own - 2 * PAGE, 0), NULL);
    say_attach("over the stack", attach(id, (void *)((uintptr_t)&id / PAGE * PAGE), 0), NULL);
    say_attach("over the program", attach(id, (void *)((uintptr_t)&test_addresses / PAGE * PAGE), 0), NULL);
    say_attach("unaligned", attach(id, free_range + 5 * PAGE + 1, 0), NULL);
    say_attach("rounded", attach(id, free_range + 5 * PAGE + 1, SHM_RND), free_range + 5 * PAGE);
    say_attach("null with remap", attach(id, NULL, SHM_REMAP), NULL);
    say_attach("beyond the end", attach(id, (void *)0x7ffffffff000, 0), NULL);
    say_attach("across the end", attach(id, (void *)0x7fffffffe000, 0), NULL);
    say_attach("at the last numbers", attach(id, (void *)-PAGE, 0), NULL);
    say_attach("no such identifier", attach(id + 1, free_range, 0), NULL);
    say_attach("a negative identifier", attach(-1, free_range, 0), NULL);
    say_stat("after these", id);
    say_attach("remap over other memory", attach(id, own, SHM_REMAP), own);
    own[0] = 7;
    say("the other attachment shows it", free_range[0]);
    say_stat("after the remap", id);
    for (int i = 0; i < 3; i++) say_ok("shmdt", shmdt(i == 0 ? own : i == 1 ? free_range : free_range + 5 * PAGE));
    say_ok("shmdt twice", shmdt(own));
    say_ok("shmdt of nothing", shmdt(NULL));
    say_stat("at the end", id);
    remove_it(id);
}

/* a segment that reaches from the stack beyond the end of the addresses: the stack is met first */
static void test_end(void) {
    int id = shmget(IPC_PRIVATE, (size_t)1 << 37, 0600 | SHM_NORESERVE);
    uintptr_t stack_page = (uintptr_t)&id / PAGE * PAGE;
    say_ok("a segment of 128 GiB", id);
    say_attach("over the stack and beyond the end", attach(id, (void *)stack_page, 0), NULL);
    say_attach("beyond the end", attach(id, (void *)0x7fffffffe000, 0), NULL);
    say_attach("below the stack and beyond the end", attach(id, (void *)(stack_page - ((uintptr_t)1 << 33)), 0), NULL);
    say_stat("it left no trace", id);
    remove_it(id);
}

static void test_limits(void) {
    int id = make(1 << 20);
    struct rlimit low = {64 << 20, 64 << 20};
    setrlimit(RLIMIT_AS, &low);
    int big = make(128 << 20);
    say_attach("more than RLIMIT_AS", attach(big, NULL, 0), NULL);
    say_stat("it left no trace", big);
    void *at = attach(id, NULL, 0);
    say("a smaller one", at != (void *)-1);
    struct rlimit no_files = {3, 3};
    shmdt(at);
    setrlimit(RLIMIT_NOFILE, &no_files);
    (void)open("/dev/null", O_RDONLY);
    remove_it(id);
    remove_it(big);
}

/* ---- shmctl by number ---- */

static void test_control(void) {
    struct shmid_ds d, other;
    union { struct shminfo limits; struct shm_info usage; char bytes[256]; } info;
    int id = make(PAGE), index = -1;
    for (int command = -1; command < 20; command++) {
        char what[32];
        snprintf(what, sizeof what, "command %d of -1", command);
        say_ok(what, shmctl(-1, command, &d));
    }
    say_ok("command 256", shmctl(id, 256, &d));
    say_ok("command 258", shmctl(id, IPC_STAT | 256, &d));
    void *bad = (void *)8, *readonly = mmap(NULL, PAGE, PROT_READ, MAP_PRIVATE | MAP_ANONYMOUS, -1, 0);
    for (int i = 0; i < 2; i++) {
        void *to = i ? readonly : bad;
        say_ok("IPC_STAT to a bad address", syscall(SYS_shmctl, id, IPC_STAT, to));
        say_ok("IPC_INFO to a bad address", syscall(SYS_shmctl, id, IPC_INFO, to));
        say_ok("SHM_INFO to a bad address", syscall(SYS_shmctl, id, SHM_INFO, to));
        say_ok("SHM_STAT_ANY to a bad address", syscall(SYS_shmctl, 0, SHM_STAT_ANY, to));
    }
    say_ok("IPC_SET from a bad address", syscall(SYS_shmctl, id, IPC_SET, bad));
    say_ok("IPC_SET of no segment from a bad address", syscall(SYS_shmctl, id + 1, IPC_SET, bad));
    int highest = shmctl(0, IPC_INFO, (struct shmid_ds *)&info);
    printf("least %lu, as many a process %d\n", info.limits.shmmin, info.limits.shmseg == info.limits.shmmni);
    say("SHM_INFO gives the same index", shmctl(0, SHM_INFO, (struct shmid_ds *)&info) == highest);
    printf("used %d, pages %lu\n", info.usage.used_ids, info.usage.shm_tot);
    for (int i = 0; i <= highest; i++)
        if (shmctl(i, SHM_STAT, &d) == id) index = i;
    say("SHM_STAT finds it", index >= 0);
    say("SHM_STAT_ANY too", shmctl(index, SHM_STAT_ANY, &other) == id && memcmp(&d, &other, sizeof d) == 0);
    say("IPC_STAT shows the same", shmctl(id, IPC_STAT, &other) == 0 && memcmp(&d, &other, sizeof d) == 0);
    say_ok("SHM_STAT of an index that is free", shmctl(highest + 1, SHM_STAT, &d));
    d.shm_perm.mode = 07444;
    say_ok("IPC_SET", shmctl(id, IPC_SET, &d));
    say_stat("after it", id);
    say_ok("SHM_LOCK", shmctl(id, SHM_LOCK, NULL));
    say_stat("locked", id);
    say_ok("SHM_UNLOCK", shmctl(id, SHM_UNLOCK, NULL));
    void *at = attach(id, NULL, SHM_RDONLY);
    say_ok("IPC_RMID", shmctl(id, IPC_RMID, NULL));
    say_stat("marked", id);
    say_ok("detached", shmdt(at));
    say_stat("destroyed", id);
}

static void test_get(void) {
    int key = 0x4e6f6721, id = shmget(key, PAGE + 1, IPC_CREAT | IPC_EXCL | 0640);
    say_ok("made", id);
    say_ok("made twice", shmget(key, PAGE, IPC_CREAT | IPC_EXCL | 0640));
    say("found", shmget(key, 0, 0) == id);
    say_ok("found, but too small", shmget(key, 3 * PAGE, 0));
    say_ok("no such key", shmget(key + 1, PAGE, 0600));
    say_ok("no size", shmget(IPC_PRIVATE, 0, 0600));
    say_ok("a size of 2^63", shmget(IPC_PRIVATE, (size_t)1 << 63, 0600));
    say_stat("it", id);
    remove_it(id);
    say_ok("after its removal", shmget(key, 0, 0));
}

/* ---- calls that change attachments ---- */

static void test_mappings(void) {
    int id = make(4 * PAGE);
    char *at = attach(id, NULL, 0);
    at[3 * PAGE] = 3;
    say_ok("munmap of a page", munmap(at + PAGE, PAGE));
    say_stat("cut", id);
    say_ok("mprotect of one", mprotect(at + 2 * PAGE, PAGE, PROT_READ));
    say_stat("three", id);
    say_ok("shmdt of what is left", shmdt(at));
    say_stat("none", id);
    at = attach(id, NULL, 0);
    say("a byte that stayed", at[3 * PAGE]);
    say("mmap over all", mmap(at, 4 * PAGE, PROT_READ, MAP_PRIVATE | MAP_ANONYMOUS | MAP_FIXED, -1, 0) == at);
    say_stat("replaced", id);
    munmap(at, 4 * PAGE);
    at = attach(id, NULL, SHM_RDONLY);
    say_ok("mprotect of what is for reading", mprotect(at, PAGE, PROT_READ | PROT_WRITE));
    say_ok("munmap of all", munmap(at, 4 * PAGE));
    say_stat("unmapped", id);
    remove_it(id);
    say_stat("destroyed", id);
}

static void test_moves(void) {
    int id = make(4 * PAGE);
    char *at = attach(id, NULL, 0), *to = hole(8 * PAGE);
    at[3 * PAGE] = 9;
    say("moved", mremap(at, 4 * PAGE, 4 * PAGE, MREMAP_MAYMOVE | MREMAP_FIXED, to) == to);
    say("its byte", to[3 * PAGE]);
    say_stat("after the move", id);
    say_ok("shmdt where it was", shmdt(at));
    say("made smaller", mremap(to, 4 * PAGE, 2 * PAGE, 0) == to);
    say_stat("smaller", id);
    say_ok("shmdt", shmdt(to));
    say_stat("none", id);
    at = attach(id, NULL, 0);
    char *copy = mremap(at, 0, 4 * PAGE, MREMAP_MAYMOVE);
    say("doubled", copy != MAP_FAILED && copy[3 * PAGE] == 9);
    say_stat("two", id);
    shmdt(copy);
    remove_it(id);
    shmdt(at);
    say_stat("destroyed", id);
}

static void test_advice(void) {
    int id = make(2 * PAGE), other = make(PAGE), status;
    char *at = attach(id, NULL, 0);
    attach(other, NULL, 0);
    say_ok("MADV_DONTFORK", madvise(at, 2 * PAGE, MADV_DONTFORK));
    if (fork() == 0) {
        struct shmid_ds d;
        shmctl(other, IPC_STAT, &d);
        printf("the other in a child: %lu\n", d.shm_nattch);
        shmctl(id, IPC_STAT, &d);
        printf("in a child: %lu\n", d.shm_nattch);
        say_ok("its shmdt", shmdt(at));
        exit(0);
    }
    wait(&status);
    say_ok("MADV_DOFORK", madvise(at, 2 * PAGE, MADV_DOFORK));
    if (fork() == 0) {
        struct shmid_ds d;
        shmctl(id, IPC_STAT, &d);
        printf("in a second child: %lu\n", d.shm_nattch);
        exit(0);
    }
    wait(&status);
    struct shmid_ds d;
    shmctl(id, IPC_STAT, &d);
    printf("at the end: %lu\n", d.shm_nattch);
    remove_it(id);
    remove_it(other);
}

/* ---- processes and threads ---- */

static void test_processes(void) {
    int id = make(PAGE), status;
    char *at = attach(id, NULL, 0), number[16];
    snprintf(number, sizeof number, "%d", id);
    if (fork() == 0) {
        say_stat("in a child", id);
        execl(self, self, "stat", number, NULL);
        exit(1);
    }
    wait(&status);
    say_stat("after its exec and end", id);
    pid_t child = vfork();
    if (child == 0) {
        execl(self, self, "stat", number, NULL);
        _exit(1);
    }
    waitpid(child, &status, 0);
    say_stat("after a vfork", id);
    char *const words[] = {(char *)(uintptr_t)self, (char *)(uintptr_t)"stat", number, NULL};
    posix_spawn(&child, self, NULL, NULL, words, NULL);
    waitpid(child, &status, 0);
    say_stat("after a spawn", id);
    if (fork() == 0) kill(getpid(), SIGKILL);
    wait(&status);
    say("a child was killed", WIFSIGNALED(status) && WTERMSIG(status) == SIGKILL);
    struct shmid_ds d;
    shmctl(id, IPC_STAT, &d);
    printf("nattch %lu\n", d.shm_nattch);
    remove_it(id);
    shmdt(at);
}

static char stack[65536];
static int shared_id;
static int other_in_same_memory(void *at) {
    *(void **)at = attach(shared_id, NULL, 0);
    return 0;
}
static void test_shared_memory_of_processes(void) {
    int status;
    void *at = NULL;
    shared_id = make(PAGE);
    pid_t child = clone(other_in_same_memory, stack + sizeof stack, CLONE_VM | SIGCHLD, &at);
    waitpid(child, &status, 0);
    say_ok("a process with the same memory attached", at ? 0 : -1);
    struct shmid_ds d;
    shmctl(shared_id, IPC_STAT, &d);
    printf("nattch %lu\n", d.shm_nattch);
    say_ok("shmdt here", shmdt(at));
    remove_it(shared_id);
}

static void *attach_often(void *unused) {
    for (int i = 0; i < 200; i++) {
        void *at = attach(shared_id, NULL, 0);
        if (at == (void *)-1 || shmdt(at) == -1) return (void *)1;
    }
    return unused;
}
static void *exec_in_thread(void *unused) {
    execl(self, self, "echo", "exec of a thread", NULL);
    return unused;
}
static void test_threads(void) {
    pthread_t threads[4];
    void *failed = NULL, *any = NULL;
    shared_id = make(PAGE);
    for (int i = 0; i < 4; i++) pthread_create(&threads[i], NULL, attach_often, NULL);
    for (int i = 0; i < 4; i++) pthread_join(threads[i], &any), failed = any ? any : failed;
    say("threads that failed", failed != NULL);
    struct shmid_ds d;
    shmctl(shared_id, IPC_STAT, &d);
    printf("nattch %lu\n", d.shm_nattch);
    remove_it(shared_id);
    pthread_create(&threads[0], NULL, exec_in_thread, NULL);
    pthread_join(threads[0], NULL);
}

struct shared { pthread_mutex_t mutex; long count; };
static void test_mutex(void) {
    int id = make(sizeof(struct shared)), status;
    struct shared *s = attach(id, NULL, 0);
    pthread_mutexattr_t kind;
    pthread_mutexattr_init(&kind);
    pthread_mutexattr_setpshared(&kind, PTHREAD_PROCESS_SHARED);
    pthread_mutex_init(&s->mutex, &kind);
    for (int i = 0; i < 4; i++) {
        if (fork()) continue;
        for (int k = 0; k < 20000; k++) {
            pthread_mutex_lock(&s->mutex);
            s->count++;
            pthread_mutex_unlock(&s->mutex);
        }
        _exit(0);
    }
    while (wait(&status) > 0) continue;
    say("count", s->count);
    remove_it(id);
}

/* signals that come in the middle of calls */
static volatile sig_atomic_t alarms;
static void on_alarm(int number) { (void)number; alarms++; }
static void test_signals(void) {
    int id = make(4 * PAGE), bad = 0, status;
    struct sigaction action = {.sa_handler = on_alarm};
    sigaction(SIGALRM, &action, NULL);
    struct itimerval often = {{0, 100}, {0, 100}}, never = {{0, 0}, {0, 0}};
    setitimer(ITIMER_REAL, &often, NULL);
    for (int i = 0; i < 600; i++) {
        char *at = attach(id, NULL, i % 2 ? SHM_RDONLY : 0);
        bad += at == (void *)-1 || at[i % PAGE] != 0 || shmdt(at) == -1;
    }
    setitimer(ITIMER_REAL, &never, NULL);
    say("calls that failed", bad);
    say("alarms came", alarms > 0);
    pid_t child = fork();
    if (child == 0) {
        for (;;) shmdt(attach(id, NULL, 0));
    }
    int is_as_wanted = 1;
    for (int i = 0; i < 50; i++) {
        usleep(1000);
        kill(child, SIGSTOP);
        is_as_wanted &= waitpid(child, &status, WUNTRACED) == child && WIFSTOPPED(status);
        kill(child, SIGCONT);
        is_as_wanted &= waitpid(child, &status, WCONTINUED) == child && WIFCONTINUED(status);
    }
    say("it stopped and went on", is_as_wanted);
    kill(child, SIGKILL);
    waitpid(child, &status, 0);
    struct shmid_ds d;
    shmctl(id, IPC_STAT, &d);
    printf("nattch %lu\n", d.shm_nattch);
    remove_it(id);
}

static void test_thousand(void) {
    int id = make(PAGE), status, at[2];
    long *count = attach(id, NULL, 0);
    if (pipe(at)) exit(1);
    for (int i = 0; i < 1000; i++) {
        if (fork()) continue;
        char go;
        close(at[1]);
        if (read(at[0], &go, 1) == 0) __atomic_fetch_add(count, 1, __ATOMIC_SEQ_CST);
        _exit(0);
    }
    struct shmid_ds d;
    shmctl(id, IPC_STAT, &d);
    printf("nattch %lu\n", d.shm_nattch);
    close(at[1]);
    while (wait(&status) > 0) continue;
    say("count", *count);
    shmctl(id, IPC_STAT, &d);
    printf("nattch %lu\n", d.shm_nattch);
    remove_it(id);
}

/* as root: another user */
static void test_users(void) {
    int id = make(PAGE), open_id = shmget(IPC_PRIVATE, PAGE, 0604), own, status;
    if (fork() == 0) {
        say("setgid and setuid", setgid(65534) || setuid(65534));
        say_attach("shmat of another's", attach(id, NULL, 0), NULL);
        say_attach("over the stack", attach(id, (void *)((uintptr_t)&own / PAGE * PAGE), 0), NULL);
        say_attach("shmat for reading and writing", attach(open_id, NULL, 0), NULL);
        say("shmat for reading", attach(open_id, NULL, SHM_RDONLY) != (void *)-1);
        say_ok("stat of another's", shmctl(id, IPC_STAT, &(struct shmid_ds){0}));
        say_ok("rmid of another's", shmctl(id, IPC_RMID, NULL));
        own = make(PAGE);
        say_stat("its own", own);
        remove_it(own);
        exit(0);
    }
    wait(&status);
    say("seteuid", seteuid(65534));
    say_attach("shmat with another effective user", attach(id, NULL, 0), NULL);
    say("seteuid back", seteuid(0));
    say("shmat", attach(id, NULL, 0) != (void *)-1);
    remove_it(id);
    remove_it(open_id);
}

static const struct { const char *name; void (*run)(void); } subjects[] = {
    {"addresses", test_addresses}, {"end", test_end}, {"limits", test_limits}, {"control", test_control}, {"get", test_get},
    {"mappings", test_mappings}, {"moves", test_moves}, {"advice", test_advice}, {"processes", test_processes},
    {"same_memory", test_shared_memory_of_processes}, {"threads", test_threads}, {"mutex", test_mutex}, {"signals", test_signals},
    {"thousand", test_thousand}, {"users", test_users},
};

int main(int argc, char **argv) {
    self = argv[0];
    if (argc == 3 && strcmp(argv[1], "stat") == 0) return say_stat("of an exec", atoi(argv[2])), 0;
    if (argc == 3 && strcmp(argv[1], "echo") == 0) return puts(argv[2]), 0;
    for (size_t i = 0; argc == 2 && i < sizeof subjects / sizeof *subjects; i++)
        if (strcmp(subjects[i].name, argv[1]) == 0) return subjects[i].run(), 0;
    fprintf(stderr, "usage: alike SUBJECT\n");
    return 2;
}

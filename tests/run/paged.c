/* paged SUBJECT [WORD]: under `shmrun --frames N`, makes accesses and calls at pages that may not be in memory, and prints what is
   wrong; nothing, and status 0, if all is right. What the bytes have to be is known from what was stored. */
#define _GNU_SOURCE
#include <errno.h>
#include <fcntl.h>
#include <linux/futex.h>
#include <pthread.h>
#include <setjmp.h>
#include <signal.h>
#include <stdarg.h>
#include <stdbool.h>
#include <stdint.h>
#include <stdio.h>
#include <stdlib.h>
#include <string.h>
#include <sys/mman.h>
#include <sys/resource.h>
#include <sys/shm.h>
#include <sys/socket.h>
#include <sys/stat.h>
#include <sys/syscall.h>
#include <sys/time.h>
#include <sys/uio.h>
#include <sys/wait.h>
#include <time.h>
#include <unistd.h>

enum { PAGE = 4096, PAGES = 64, BYTES = PAGES * PAGE, FAILED = 7 };
static const char *word = "";
static int wrongs;
static char *shared, expected[BYTES];

__attribute__((format(printf, 2, 3))) static void check(bool is_right, const char *format, ...) {
    va_list rest;
    if (is_right || wrongs++ > 5) return;
    va_start(rest, format);
    vprintf(format, rest);
    va_end(rest);
    putchar('\n');
    fflush(stdout);
}

static int make(size_t size) { return shmget(IPC_PRIVATE, size, 0600); }
static char *attach(int id, int flags) {
    char *at = shmat(id, NULL, flags);
    if (at == (void *)-1) perror("shmat"), exit(1);
    return at;
}
static int make_shared(void) {
    int id = make(BYTES);
    shared = attach(id, 0);
    shmctl(id, IPC_RMID, NULL);
    return id;
}
static void fill(char *bytes, unsigned seed) {
    for (int i = 0; i < BYTES; i++) bytes[i] = (char)((seed = seed * 1103515245 + 12345) >> 16);
}
static void check_bytes(const char *what, const char *bytes) {
    for (int i = 0; i < BYTES; i++)
        if (bytes[i] != expected[i]) return check(false, "%s: page %d byte %d is %d, not %d", what, i / PAGE, i % PAGE, bytes[i], expected[i]);
}
static void wait_for(pid_t child, const char *what) {
    int status;
    waitpid(child, &status, 0);
    check(status == 0, "%s: a child ended by %x", what, status);
}

/* Threads that touch pages of another segment, so that all pages leave again and again. */
static volatile bool is_over;
static pthread_t movers[2];
static char *other;
static void *move_pages(void *seed) {
    for (unsigned s = (unsigned)(uintptr_t)seed; !is_over;) other[((s = s * 1103515245 + 12345) >> 8) % BYTES] = 1;
    return NULL;
}
static void start_movers(void) {
    int id = make(BYTES);
    other = attach(id, 0);
    shmctl(id, IPC_RMID, NULL);
    for (uintptr_t i = 0; i < 2; i++) pthread_create(&movers[i], NULL, move_pages, (void *)(i + 1));
}
static void stop_movers(void) {
    is_over = true;
    for (int i = 0; i < 2; i++) pthread_join(movers[i], NULL);
}

/* ---- accesses of four processes ---- */

enum { PROCESSES = 4, WORDS = 64 };
struct lock { pthread_mutex_t mutex; uint64_t counts[8]; };
struct sums { uint64_t added[PAGES][WORDS], locked; };
static volatile uint64_t *word_at(int page, int place) { return (volatile uint64_t *)(shared + page * PAGE + place * 8); }
static struct lock *the_lock(void) { return (struct lock *)word_at(5, 384); }

/* One that only this process has, over the seam of two pages. */
static void use_seam(int page, uint64_t *was, uint64_t next) {
    char *seam = shared + (page + 1) * PAGE - 4;
    uint64_t now;
    memcpy(&now, seam, 8);
    check(now == *was, "the seam after page %d is %lx, not %lx", page, now, *was);
    *(volatile uint64_t *)seam = *was = next;
}

static void use_pages(int self, int count, struct sums *sums) {
    static uint64_t own[PAGES][WORDS], seams[PAGES];
    uint64_t s = 88172645463325252ull + (uint64_t)self * 7919;
    for (int i = 0; i < count; i++) {
        s ^= s << 13, s ^= s >> 7, s ^= s << 17;
        int page = (int)(s >> 8) % PAGES & (PAGES - 1), place = (int)(s >> 20) & (WORDS - 1), what = (int)(s >> 40) & 7;
        volatile uint64_t *at = word_at(page, 100 + self * WORDS + place);
        if (what < 2) __atomic_fetch_add(word_at(page, place + 8), s >> 50, __ATOMIC_SEQ_CST), sums->added[page][place] += s >> 50;
        else if (what < 4) *at = own[page][place] = s;
        else if (what < 6) check(*at == own[page][place], "page %d word %d is %lx", page, place, *at);
        else if (what == 6 && page % PROCESSES == self && page < PAGES - 1) use_seam(page, &seams[page], s);
        else if (what == 7 && i % 16 == 7) {
            pthread_mutex_lock(&the_lock()->mutex);
            the_lock()->counts[place & 7]++, sums->locked++;
            pthread_mutex_unlock(&the_lock()->mutex);
        }
    }
}

static void ignore(int signal) { (void)signal; }

/* WORD is the number of accesses; with the word `signals` each process gets a thousand signals a second. */
static void counters(bool has_signals) {
    struct sums *sums = mmap(NULL, PROCESSES * sizeof *sums, PROT_READ | PROT_WRITE, MAP_SHARED | MAP_ANONYMOUS, -1, 0);
    pthread_mutexattr_t kind;
    pid_t children[PROCESSES];
    int id = make(BYTES);
    shared = attach(id, 0);
    pthread_mutexattr_init(&kind);
    pthread_mutexattr_setpshared(&kind, PTHREAD_PROCESS_SHARED);
    pthread_mutex_init(&the_lock()->mutex, &kind);
    for (int self = 0; self < PROCESSES; self++) {
        if ((children[self] = fork())) continue;
        if (self & 1) shmdt(shared), shared = attach(id, 0);  /* half of them attach for themselves */
        struct itimerval often = {{0, 1000}, {0, 1000}};
        if (has_signals) signal(SIGALRM, ignore), setitimer(ITIMER_REAL, &often, NULL);
        use_pages(self, atoi(word), &sums[self]);
        exit(wrongs != 0);
    }
    for (int self = 0; self < PROCESSES; self++) wait_for(children[self], "accesses");
    for (int page = 0; page < PAGES; page++)
        for (int place = 0; place < WORDS; place++) {
            uint64_t sum = 0;
            for (int self = 0; self < PROCESSES; self++) sum += sums[self].added[page][place];
            check(*word_at(page, place + 8) == sum, "page %d counter %d is %lu, not %lu", page, place, *word_at(page, place + 8), sum);
        }
    uint64_t counted = 0, locked = 0;
    for (int i = 0; i < 8; i++) counted += the_lock()->counts[i];
    for (int self = 0; self < PROCESSES; self++) locked += sums[self].locked;
    check(counted == locked && locked > 0, "the mutex: %lu of %lu", counted, locked);
    shmctl(id, IPC_RMID, NULL);
}
static void plain(void) { counters(false); }
static void signals(void) { counters(true); }

/* Four processes that only use seams, each of which needs all of two frames. */
static void seams(void) {
    pid_t children[PROCESSES];
    static uint64_t was[PAGES];
    make_shared();
    for (int self = 0; self < PROCESSES; self++) {
        if ((children[self] = fork())) continue;
        for (int i = 0; i < atoi(word); i++) {
            int page = self * (PAGES / PROCESSES) + i % 8 * 2;
            use_seam(page, &was[page], (uint64_t)i);
        }
        exit(wrongs != 0);
    }
    for (int self = 0; self < PROCESSES; self++) wait_for(children[self], "seams");
}

/* ---- system calls into pages that are not there ---- */

static void calls(void) {
    static char bytes[BYTES];
    int file = fileno(tmpfile()), ends[2], id = make(BYTES);
    shared = attach(id, 0);
    check(pipe(ends) == 0, "pipe");
    fill(expected, 1);
    memcpy(shared, expected, BYTES);
    check(write(file, shared, BYTES) == BYTES && pread(file, bytes, BYTES, 0) == BYTES, "write");
    check_bytes("write(2) to a file", bytes);
    fill(expected, 2);
    check(pwrite(file, expected, BYTES, 0) == BYTES && pread(file, shared, BYTES, 0) == BYTES, "read");
    check_bytes("read(2) from a file", shared);
    check(write(ends[1], shared + 3 * PAGE + 100, 5000) == 5000 && read(ends[0], bytes, 5000) == 5000, "a pipe");
    check(memcmp(bytes, expected + 3 * PAGE + 100, 5000) == 0, "write(2) to a pipe over a seam");
    check(write(ends[1], bytes, 5000) == 5000 && read(ends[0], shared + 33 * PAGE + 4000, 5000) == 5000, "a pipe");
    memcpy(expected + 33 * PAGE + 4000, bytes, 5000);
    check_bytes("read(2) from a pipe over a seam", shared);
    struct iovec parts[8];
    for (int i = 0; i < 8; i++) parts[i] = (struct iovec){shared + (i * 8 + 1) * PAGE, 300};
    check(writev(ends[1], parts, 8) == 2400 && read(ends[0], bytes, 2400) == 2400, "writev");
    for (int i = 0; i < 8; i++) check(memcmp(bytes + i * 300, expected + (i * 8 + 1) * PAGE, 300) == 0, "writev of page %d", i * 8 + 1);
    struct stat *there = (void *)(shared + 40 * PAGE - 64), here;
    memset(shared, 1, 16 * PAGE);
    check(fstat(file, there) == 0 && fstat(file, &here) == 0 && memcmp(there, &here, sizeof here) == 0, "fstat into a seam");
    strcpy(shared + 20 * PAGE - 5, "/proc/sysvipc/shm");
    memset(shared + 41 * PAGE, 1, 20 * PAGE);
    check(open(shared + 20 * PAGE - 5, O_RDONLY) >= 0, "open of a path over a seam");
    struct shmid_ds *shown = (void *)(shared + 12 * PAGE - 40), here_too;
    memset(shared + 20 * PAGE, 1, 20 * PAGE);
    check(shmctl(id, IPC_STAT, shown) == 0 && shmctl(id, IPC_STAT, &here_too) == 0 && memcmp(shown, &here_too, sizeof here_too) == 0, "stat into a seam");
    shmctl(id, IPC_RMID, NULL);
}

/* ---- forks, attachments for reading, detaches ---- */

static void look_at_own(int self) {
    for (int page = self; page < PAGES; page += 5)
        check(memcmp(shared + page * PAGE, expected + page * PAGE, 9) == 0 && memcmp(shared + page * PAGE + 10, expected + page * PAGE + 10, PAGE - 10) == 0,
              "page %d of a child", page);
    for (int page = self; page < PAGES; page += 20) shared[page * PAGE + 9] ^= 0x55;
    exit(wrongs != 0);
}

static void forks(void) {
    make_shared();
    fill(expected, 3);
    memcpy(shared, expected, BYTES);
    start_movers();
    for (int i = 0; i < 20; i++) {
        pid_t child = fork();
        if (child == 0) look_at_own(i);
        wait_for(child, "forks");
    }
    stop_movers();
    for (int page = 0; page < PAGES; page++) expected[page * PAGE + 9] ^= 0x55;
    check_bytes("what children stored", shared);
    pid_t child = vfork();
    if (child == 0) execl("/bin/true", "true", (char *)0), _exit(1);
    wait_for(child, "vfork");
    check_bytes("after vfork and exec", shared);
}

/* A process that has no descriptor left forks: the child has all bytes and the same limit. With WORD the limit can't be lifted:
   then only the child is killed. */
static void descriptors(void) {
    struct rlimit few = {64, *word ? 64 : 66}, now;
    int status;
    make_shared();
    fill(expected, 6);
    memcpy(shared, expected, BYTES);
    check(setrlimit(RLIMIT_NOFILE, &few) == 0, "setrlimit");
    while (dup(1) != -1) continue;
    for (int round = 0; round < 10; round++) {
        pid_t child = fork();
        if (child == 0) {
            check_bytes("a child without a descriptor", shared);
            check(dup(1) == -1 && errno == EMFILE, "a child has a descriptor left");
            check(getrlimit(RLIMIT_NOFILE, &now) == 0 && memcmp(&now, &few, sizeof few) == 0, "a child has another limit");
            exit(wrongs != 0);
        }
        waitpid(child, &status, 0);
        check(*word ? WIFSIGNALED(status) && WTERMSIG(status) == SIGKILL : status == 0, "a child without a descriptor ended by %x", status);
    }
    check_bytes("after the forks", shared);
}

static void readonly(void) {
    int id = make(BYTES);
    shared = attach(id, 0);
    fill(expected, 4);
    memcpy(shared, expected, BYTES);
    char *read_only = attach(id, SHM_RDONLY);
    check_bytes("an attachment for reading", read_only);
    check(mprotect(read_only, BYTES, PROT_READ | PROT_WRITE) == -1 && errno == EACCES, "it became writable");
    check(mprotect(read_only + PAGE, PAGE, PROT_WRITE) == -1 && errno == EACCES, "a page of it became writable");
    check(mprotect(read_only, BYTES, PROT_READ) == 0, "it can't be made readable");
    pid_t child = fork();
    if (child == 0) *(volatile char *)read_only = 1, exit(0);
    int status;
    waitpid(child, &status, 0);
    check(WIFSIGNALED(status) && WTERMSIG(status) == SIGSEGV, "a store into it: %x", status);
    shmdt(shared);
    check_bytes("after the writer's detach", read_only);
    shmdt(read_only);
    check_bytes("after all detaches", attach(id, 0));
    shmctl(id, IPC_RMID, NULL);
}

static sigjmp_buf out;
static void jump(int signal) { (void)signal, siglongjmp(out, 1); }
static char *volatile touched;
static void *touch_until_gone(void *round) {
    if (sigsetjmp(out, 1)) return NULL;
    for (unsigned s = (unsigned)(uintptr_t)round;;) ((volatile char *)touched)[((s = s * 1103515245 + 12345) >> 8) % BYTES];
}

/* A thread waits for a page whose attachment another one takes away. */
static void detaches(void) {
    make_shared();
    int id = make(BYTES);
    signal(SIGSEGV, jump);
    start_movers();
    for (uintptr_t round = 0; round < 100; round++) {
        pthread_t thread;
        touched = attach(id, 0);
        pthread_create(&thread, NULL, touch_until_gone, (void *)round);
        usleep(100 + (unsigned)round % 7 * 50);
        check(shmdt(touched) == 0, "shmdt");
        pthread_join(thread, NULL);
    }
    stop_movers();
    shmctl(id, IPC_RMID, NULL);
}

static void *read_fixed(void *at) {
    int ends[2];
    char it = 0;
    check(pipe(ends) == 0, "pipe");
    while (!is_over)
        if (write(ends[1], at, 1) == 1 && read(ends[0], &it, 1) == 1) check(it == 1, "a byte is %d when it is attached", it);
    return NULL;
}

/* A thread reads where another one attaches: it gets EFAULT or the segment's bytes. */
static void attaches(void) {
    int id = make(BYTES);
    char *at = attach(id, 0);
    pthread_t thread;
    memset(at, 1, BYTES);
    start_movers();
    pthread_create(&thread, NULL, read_fixed, at + 7 * PAGE);
    for (int round = 0; round < 500; round++) {
        shmdt(at);
        usleep(50);
        check(shmat(id, at, 0) == at, "shmat");
        usleep(50);
    }
    stop_movers();
    pthread_join(thread, NULL);
    shmctl(id, IPC_RMID, NULL);
}

/* The pages of destroyed segments make room, and those of new ones are zeros. */
static void destroyed(void) {
    for (int round = 0; round < 100; round++) {
        make_shared();
        for (int i = 0; i < BYTES; i += 64) check(shared[i] == 0, "round %d: byte %d is %d", round, i, shared[i]);
        memset(shared, 1, BYTES);
        pid_t child = round % 2 ? fork() : 0;
        if (round % 2 && child == 0) exit(0);
        shmdt(shared);
        if (child) wait_for(child, "an end");
    }
}

/* ---- calls past the page tables ---- */

static void copies(void) {
    static char from[BYTES];
    make_shared();
    start_movers();
    for (unsigned round = 0; round < 40; round++) {
        fill(from, round);
        memcpy(expected, from, BYTES);
        pid_t parent = getpid(), child = fork();
        struct iovec here[2] = {{from, 3 * PAGE + 7}, {from + 3 * PAGE + 7, BYTES - 3 * PAGE - 7}}, there = {shared, BYTES};
        if (child == 0) _exit(process_vm_writev(parent, here, 2, &there, 1, 0) != BYTES);
        wait_for(child, "process_vm_writev");
        check_bytes("process_vm_writev", shared);
        memset(from, 0, BYTES);
        check(process_vm_readv(parent, here, 2, &there, 1, 0) == BYTES && memcmp(from, expected, BYTES) == 0, "process_vm_readv");
    }
    struct iovec here = {from, 10}, there = {NULL, 10};
    check(process_vm_writev(getpid(), &here, 1, &there, 1, 0) == -1 && errno == EFAULT, "process_vm_writev to nowhere");
    stop_movers();
}

static int open_by_handle(const char *name) {
    union { struct file_handle handle; char room[sizeof(struct file_handle) + MAX_HANDLE_SZ]; } of = {.handle.handle_bytes = MAX_HANDLE_SZ};
    int mount, folder = open(P_tmpdir, O_RDONLY);
    if (name_to_handle_at(AT_FDCWD, name, &of.handle, &mount, 0) == -1) return -1;
    return open_by_handle_at(folder, &of.handle, O_RDWR | O_DIRECT);
}

/* A file is opened without cache: by its name, with the word `handle` by its handle, or it is the descriptor WORD. */
static void direct(void) {
    static char aligned[BYTES] __attribute__((aligned(4096)));
    char name[] = P_tmpdir "/paged.XXXXXX";
    int made = mkstemp(name), file = !*word ? open(name, O_RDWR | O_DIRECT) : *word == 'h' ? open_by_handle(name) : atoi(word);
    unlink(name);
    if (file == -1 || made == -1) exit(FAILED);  /* this file system has none */
    make_shared();
    start_movers();
    for (unsigned round = 0; round < 60; round++) {
        fill(aligned, round);
        memcpy(expected, aligned, BYTES);
        check(pwrite(file, aligned, BYTES, 0) == BYTES, "pwrite");
        if (round == 20) fcntl(file, F_SETFL, 0);
        if (round == 40) fcntl(file, F_SETFL, O_DIRECT);
        memset(shared, 0, BYTES);
        check(pread(file, shared, BYTES, 0) == BYTES, "pread");
        check_bytes("a file without cache", shared);
    }
    stop_movers();
}

/* A wake of a shared futex finds its page in the file, or not: one in a million, if it is not looked at again. */
static void futexes(void) {
    make_shared();
    start_movers();
    uint32_t *at = (uint32_t *)(shared + 9 * PAGE);
    for (time_t end = time(NULL) + 4; time(NULL) < end;)
        check(syscall(SYS_futex, at, FUTEX_WAKE, 1, NULL, NULL, 0) == 0, "a wake: %s", strerror(errno));
    stop_movers();
    pid_t child = fork();
    struct timespec soon = {5, 0};
    if (child == 0) _exit(syscall(SYS_futex, at, FUTEX_WAIT, 0, &soon, NULL, 0) != 0);
    while (syscall(SYS_futex, at, FUTEX_WAKE, 1, NULL, NULL, 0) != 1) usleep(100);
    wait_for(child, "a wait");
    check(syscall(SYS_futex, at, FUTEX_WAIT, 1, &soon, NULL, 0) == -1 && errno == EAGAIN, "a wait for another number");
}

/* Robust mutexes in four pages, whose owner is killed or ends while the pages leave: the next one gets EOWNERDEAD. */
static void robust(void) {
    enum { MUTEXES = 4 };
    pthread_mutexattr_t kind;
    pthread_mutex_t *mutexes[MUTEXES];
    make_shared();
    pthread_mutexattr_init(&kind);
    pthread_mutexattr_setpshared(&kind, PTHREAD_PROCESS_SHARED);
    pthread_mutexattr_setrobust(&kind, PTHREAD_MUTEX_ROBUST);
    for (int i = 0; i < MUTEXES; i++) pthread_mutex_init(mutexes[i] = (void *)(shared + (i * 3 + 2) * PAGE - 16), &kind);
    start_movers();
    for (int round = 0; round < 50; round++) {
        int status;
        pid_t child = fork();
        for (int i = 0; i < MUTEXES && child == 0; i++) pthread_mutex_lock(mutexes[i]);
        if (child == 0) usleep(3000), round % 2 ? raise(SIGKILL) : 0, _exit(0);
        waitpid(child, &status, 0);
        for (int i = 0; i < MUTEXES; i++) {
            struct timespec soon = {time(NULL) + 2, 0};
            int answer = pthread_mutex_timedlock(mutexes[i], &soon);
            check(answer == EOWNERDEAD, "round %d: mutex %d returned %s", round, i, strerror(answer));
            if (answer == EOWNERDEAD) pthread_mutex_consistent(mutexes[i]);
            if (answer != EOWNERDEAD) exit(1);
            pthread_mutex_unlock(mutexes[i]);
        }
    }
    stop_movers();
}

static void refused(void) {
    make_shared();
    char setup[256] = {0};
    check(mremap(shared, BYTES, BYTES, MREMAP_MAYMOVE | MREMAP_FIXED, shared + 16 * BYTES) == MAP_FAILED && errno == ENOMEM, "mremap to another place");
    check(mremap(shared, PAGE, 2 * PAGE, MREMAP_MAYMOVE) == MAP_FAILED && errno == ENOMEM, "mremap that grows");
    check(madvise(shared, PAGE, MADV_REMOVE) == -1 && errno == EINVAL, "MADV_REMOVE");
    check(syscall(SYS_remap_file_pages, shared, PAGE, 0, 3, 0) == -1 && errno == EINVAL, "remap_file_pages");
    check(syscall(SYS_io_uring_setup, 4, setup) == -1 && errno == ENOSYS, "io_uring_setup");
    check(syscall(SYS_io_uring_enter, -1, 0, 0, 0, NULL, 0) == -1 && errno == ENOSYS, "io_uring_enter");
    check(open("/proc/self/mem", O_RDWR) == -1 && errno == EACCES, "/proc/self/mem for writing");
    check(open("/proc/self/mem", O_RDONLY) >= 0 && open("/dev/null", O_RDWR) >= 0, "other files");
    memset(shared, 1, BYTES);
    check(madvise(shared, BYTES, MADV_DONTNEED) == 0 && shared[BYTES - 1] == 1 && shared[0] == 1, "MADV_DONTNEED");
    void *private = mmap(NULL, 2 * PAGE, PROT_READ | PROT_WRITE, MAP_PRIVATE | MAP_ANONYMOUS, -1, 0);
    check(mremap(private, 2 * PAGE, PAGE, 0) == private, "mremap of other memory");
}

/* ---- which pages are in memory ---- */

/* WORD is the number of frames. No more pages are in memory at any time. */
static void bound(void) {
    unsigned char is_in[PAGES];
    int most = 0, id = make(BYTES);
    shared = attach(id, 0);
    start_movers();
    for (int round = 0; round < 2000; round++) {
        int count = 0;
        *(volatile char *)(shared + round * 7 % PAGES * PAGE) = 1;
        for (int which = 0; which < 2; which++) {
            mincore(which ? other : shared, BYTES, is_in);
            for (int i = 0; i < PAGES; i++) count += is_in[i] & 1;
        }
        most = count > most ? count : most;
    }
    stop_movers();
    /* the two are not looked at in the same moment */
    check(most > 0 && most <= 2 * atoi(word), "%d pages are in memory", most);
    for (int i = 0; i < PAGES; i++) *(volatile char *)(shared + i * PAGE) = 1;
    mincore(shared, BYTES, is_in);
    int count = 0;
    for (int i = 0; i < PAGES; i++) count += is_in[i] & 1;
    check(count <= atoi(word), "%d pages are in memory at the end", count);
    shmctl(id, IPC_RMID, NULL);
}

/* The line of a segment in /proc/sysvipc/shm ends with its pages in memory and those in swap areas, in bytes. */
static void check_columns(int id, unsigned long resident, unsigned long swapped) {
    char line[512];
    int shown = -1;
    unsigned long rss = 0, swap = 0;
    FILE *file = fopen("/proc/sysvipc/shm", "r");
    check(file != NULL, "/proc/sysvipc/shm");
    while (shown != id && fgets(line, sizeof line, file))
        if (sscanf(line, "%*d %d %*o %*u %*u %*u %*u %*u %*u %*u %*u %*u %*u %*u %lu %lu", &shown, &rss, &swap) != 3) shown = -1;
    fclose(file);
    check(shown == id && rss == resident * PAGE && swap == swapped * PAGE, "segment %d: %lu and %lu bytes", shown, rss, swap);
}

/* WORD is the number of frames. Each page was stored to, so those that are in no frame are in slots. */
static void swapped(void) {
    struct shm_info info;
    int first = make(BYTES);
    shared = attach(first, 0);
    int segment = make_shared();
    for (int i = 0; i < PAGES; i++) shared[i * PAGE] = 1;
    check(shmctl(0, SHM_INFO, (void *)&info) >= 0, "SHM_INFO");
    check(info.shm_tot == 2 * PAGES, "%lu pages", info.shm_tot);
    check(info.shm_swp == PAGES - (unsigned long)atoi(word), "%lu pages are swapped", info.shm_swp);
    check(info.shm_rss == (unsigned long)atoi(word), "%lu pages are resident", info.shm_rss);
    check_columns(first, 0, 0);
    check_columns(segment, (unsigned long)atoi(word), PAGES - (unsigned long)atoi(word));
    shmdt(shared);
    check(shmctl(0, SHM_INFO, (void *)&info) >= 0 && info.shm_tot == PAGES && info.shm_swp == 0, "%lu pages are swapped at the end", info.shm_swp);
    shmctl(first, IPC_RMID, NULL);
}

static volatile int bus_count;
static void *volatile bus_at;
static volatile int bus_code;
static void take_bus(int signal, siginfo_t *info, void *context) {
    (void)signal, (void)context;
    bus_count++;
    bus_at = info->si_addr;
    bus_code = info->si_code;
}
static void catch_bus(void) {
    struct sigaction action = {.sa_sigaction = take_bus, .sa_flags = SA_SIGINFO};
    sigaction(SIGBUS, &action, NULL);
}
static char load(int page, int at) { return *(volatile char *)(shared + page * PAGE + at); }

/* On three frames, with an area whose first read fails: only a page that left its frame is read. Pages 0, 1 and 2 have the frames
   when 3 comes: all bits are set, so 0 leaves, and 1 and 2 lose theirs. 1 is used again; so 2 leaves when 4 comes. */
static void clock_rule(void) {
    make_shared();
    catch_bus();
    for (int page = 0; page < 4; page++) shared[page * PAGE] = (char)(page + 1);
    check(load(1, 0) == 2, "page 1");
    shared[4 * PAGE] = 5;
    check(load(1, 0) == 2 && load(3, 0) == 4 && load(4, 0) == 5 && bus_count == 0, "a page that should be in a frame was read");
    check(load(2, 9) == 0 && bus_count == 1 && bus_at == shared + 2 * PAGE + 9, "page 2 was in a frame");
}

/* A locked segment's pages stay: none of its reads is the area's. */
static void locked(void) {
    int id = make(4 * PAGE);
    char *kept = attach(id, 0);
    make_shared();
    catch_bus();
    for (int i = 0; i < 4; i++) kept[i * PAGE] = (char)(i + 1);
    check(shmctl(id, SHM_LOCK, NULL) == 0, "SHM_LOCK: %s", strerror(errno));
    for (int i = 0; i < PAGES; i++) shared[i * PAGE] = 1;
    for (int i = 0; i < 4; i++) check(kept[i * PAGE] == i + 1 && bus_count == 0, "locked page %d left", i);
    check(shmctl(id, SHM_UNLOCK, NULL) == 0, "SHM_UNLOCK");
    shmctl(id, IPC_RMID, NULL);
}

/* One instruction that needs four pages at once: eight bytes from one seam to another. */
static void copy_seam(int from, int to) {
    const char *source = shared + from * PAGE - 4;
    char *target = shared + to * PAGE - 3;
    __asm__ volatile("movsq" : "+S"(source), "+D"(target) : : "memory");
}

/* WORD is the most pages that all users together may lock. They are locked, and the other frames are enough for each copy. */
static void locked_copies(void) {
    enum { ENOUGH = 64 };
    char *kept[ENOUGH];
    int ids[ENOUGH], count = 0;
    for (; count < ENOUGH; count++) {
        kept[count] = attach(ids[count] = make(PAGE), 0);
        if (shmctl(ids[count], SHM_LOCK, NULL) == -1) break;
        *kept[count] = (char)(count + 1);
    }
    check(count == atoi(word), "%d pages are locked", count);
    make_shared();
    start_movers();
    for (int i = 0; i < 200; i++) {
        int from = 1 + i % 20, to = 30 + i % 30;
        memset(shared + from * PAGE - 4, i, 8);
        copy_seam(from, to);
        for (int k = 0; k < 8; k++) check(shared[to * PAGE - 3 + k] == (char)i, "copy %d: byte %d is %d", i, k, shared[to * PAGE - 3 + k]);
    }
    stop_movers();
    for (int i = 0; i < count; i++) check(*kept[i] == i + 1, "locked page %d", i);
    for (int i = 0; i <= count; i++) shmctl(ids[i], IPC_RMID, NULL);
}

/* ---- areas that fail ---- */

/* On 16 frames, with an area of which reads 1, 3, 5 and 7 fail. */
static void failing(void) {
    int ends[2];
    char bytes[100] = "";
    make_shared();
    catch_bus();
    check(pipe(ends) == 0, "pipe");
    for (int i = 0; i < PAGES; i++) shared[i * PAGE + 123] = (char)(i + 1);
    check(load(0, 123) == 1 && bus_count == 1 && bus_at == shared + 123 && bus_code == BUS_ADRERR, "SIGBUS: %d at %p, code %d", bus_count, bus_at, bus_code);
    shared[PAGE + 124] = 9;
    check(load(1, 124) == 9 && load(1, 123) == 2 && bus_count == 2 && bus_at == shared + PAGE + 124, "a store: %d at %p", bus_count, bus_at);
    long result = write(ends[1], shared + 2 * PAGE + 100, 100);
    check(result == -1 && errno == EFAULT && bus_count == 2, "write(2): %ld %s", result, strerror(errno));
    result = write(ends[1], shared + 2 * PAGE + 100, 100);
    check(result == 100 && read(ends[0], bytes, 100) == 100 && bytes[23] == 3, "write(2) again: %ld", result);
    check(shmctl(shmget(IPC_PRIVATE, 1, 0600), IPC_STAT, (void *)(shared + 3 * PAGE)) == -1 && errno == EFAULT, "shmctl");
    for (int i = 3; i < PAGES; i++) check(load(i, 123) == i + 1, "page %d", i);
    check(bus_count == 2, "%d times SIGBUS", bus_count);
}

/* With WORD an access to a page that fails ends the process, also if it blocks or ignores the signal. */
static void fatal(void) {
    make_shared();
    sigset_t all;
    sigfillset(&all);
    if (strcmp(word, "blocked") == 0) sigprocmask(SIG_BLOCK, &all, NULL);
    if (strcmp(word, "ignored") == 0) signal(SIGBUS, SIG_IGN);
    for (int i = 0; i < PAGES; i++) shared[i * PAGE] = 1;
    check(load(0, 0) == 1, "page 0");
    check(false, "the process lives");
}

/* An area of which one read or write fails, wherever: at most one access does, and no byte is another. */
static void one_fails(void) {
    int failures = 0, ends[2];
    char bytes[PAGE];
    make_shared();
    catch_bus();
    check(pipe(ends) == 0, "pipe");
    fill(expected, 5);
    for (int round = 0; round < 3; round++)
        for (int page = 0; page < PAGES; page++) {
            if (round == 0) memcpy(shared + page * PAGE, expected + page * PAGE, PAGE);
            bool is_call = (page + round) % 3 == 0;
            long done = is_call ? write(ends[1], shared + page * PAGE, PAGE) : PAGE;
            failures += done != PAGE;
            if (done != PAGE) done = write(ends[1], shared + page * PAGE, PAGE);
            if (is_call) check(done == PAGE && read(ends[0], bytes, PAGE) == PAGE, "write(2): %ld", done);
            else memcpy(bytes, shared + page * PAGE, PAGE);
            check(memcmp(bytes, expected + page * PAGE, PAGE) == 0, "page %d", page);
        }
    check(failures + bus_count <= 1, "%d failures, %d times SIGBUS", failures, bus_count);
    putchar(failures + bus_count ? 'f' : '-');
}

/* Under a shmrun with refuse_copies.c, which can't put some pages into programs. */
static void uncopied(void) {
    int ends[2], id = make(PAGE);
    char bytes[100];
    make_shared();
    catch_bus();
    check(pipe(ends) == 0, "pipe");
    strcpy(shared + 5 * PAGE, "no memory");  /* the first copy of it fails, the third, and so on */
    strcpy(shared + 9 * PAGE, "never");
    shared[5 * PAGE + 123] = 5;
    for (int i = 10; i < PAGES; i++) shared[i * PAGE] = 1;
    check(load(5, 123) == 5 && bus_count == 1 && bus_at == shared + 5 * PAGE + 123, "SIGBUS: %d at %p", bus_count, bus_at);
    for (int i = 10; i < PAGES; i++) shared[i * PAGE] = 1;
    check(write(ends[1], shared + 5 * PAGE + 100, 100) == -1 && errno == EFAULT, "write(2)");
    check(write(ends[1], shared + 5 * PAGE + 100, 100) == 100 && read(ends[0], bytes, 100) == 100 && bytes[23] == 5, "write(2) again");
    for (int i = 10; i < PAGES; i++) shared[i * PAGE] = 1;
    check(shmctl(id, IPC_STAT, (void *)(shared + 5 * PAGE + 200)) == -1 && errno == EFAULT, "shmctl");
    check(shmctl(id, IPC_STAT, (void *)(shared + 5 * PAGE + 200)) == 0 && load(5, 123) == 5, "shmctl again");
    check(shmctl(id, IPC_STAT, (void *)(shared + 9 * PAGE)) == -1 && errno == EFAULT, "shmctl at a page that never comes");
    check(bus_count == 1, "%d times SIGBUS", bus_count);
    shmctl(id, IPC_RMID, NULL);
}

/* ---- shmrun is killed ---- */

/* WORD is a file, to which a process writes that finds a zero. It runs until it is killed. */
static void zeros(void) {
    int file = open(word, O_WRONLY | O_APPEND | O_CREAT, 0600);
    make_shared();
    memset(shared, 1, BYTES);
    for (int self = 0; self < PROCESSES && fork(); self++) continue;
    if (write(1, "r\n", 2) != 2) return;
    for (unsigned s = (unsigned)getpid();;)
        if (((volatile char *)shared)[((s = s * 1103515245 + 12345) >> 8) % BYTES] != 1 && write(file, "0", 1) == 1) continue;
}

static const struct { const char *name; void (*run)(void); } subjects[] = {
    {"counters", plain}, {"signals", signals}, {"calls", calls}, {"forks", forks}, {"descriptors", descriptors}, {"readonly", readonly}, {"detaches", detaches},
    {"seams", seams}, {"robust", robust}, {"attaches", attaches}, {"destroyed", destroyed},
    {"copies", copies}, {"direct", direct}, {"futexes", futexes}, {"refused", refused}, {"bound", bound}, {"swapped", swapped}, {"clock", clock_rule},
    {"locked", locked}, {"locked_copies", locked_copies}, {"failing", failing}, {"fatal", fatal}, {"one_fails", one_fails}, {"uncopied", uncopied}, {"zeros", zeros}};

int main(int argc, char **argv) {
    alarm(30);
    if (argc > 2) word = argv[2];
    for (size_t i = 0; argc > 1 && i < sizeof subjects / sizeof *subjects; i++)
        if (strcmp(argv[1], subjects[i].name) == 0) return subjects[i].run(), wrongs != 0;
    return 2;
}

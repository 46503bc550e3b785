/* A guest of the emulator that makes every call of shared memory, forks, waits, becomes another user, and dies. It prints
   the same on Linux itself, for user 0. Each line names what it looked at. */
#define _GNU_SOURCE
#include <errno.h>
#include <signal.h>
#include <stdio.h>
#include <stdlib.h>
#include <string.h>
#include <sys/mman.h>
#include <sys/shm.h>
#include <sys/wait.h>
#include <unistd.h>

enum { PAGE = 4096, PAGES = 64, PROCESSES = 4, ROUNDS = 20000, KEY = 0x5ca1e };
/* Linux may let each locked instruction across two cache lines wait for milliseconds. */
enum { SEAM_EVERY = 200 };

static void say(const char *what, long number) {
    printf("%s: %ld\n", what, number);
    fflush(stdout);
}

static void say_error(const char *what, long answer) {
    printf("%s: %s\n", what, answer == -1 ? strerrorname_np(errno) : "done");
}

static int made(size_t size, int mode) {
    const int id = shmget(IPC_PRIVATE, size, mode);
    if (id < 0) exit(99);
    return id;
}

static char *attached(int id, void *at, int flags) {
    char *base = shmat(id, at, flags);
    if (base == (void *)-1) exit(98);
    return base;
}

static struct shmid_ds shown(int id) {
    struct shmid_ds shown;
    if (shmctl(id, IPC_STAT, &shown)) exit(97);
    return shown;
}

/* Runs an act in a child, and says how it ended. */
static void in_child(const char *what, void (*act)(int, char *), int id, char *base) {
    int status;
    fflush(stdout);
    const pid_t child = fork();
    if (!child) {
        act(id, base);
        fflush(stdout);
        _exit(7);
    }
    if (waitpid(child, &status, 0) != child) exit(96);
    if (WIFSIGNALED(status)) printf("%s: signal %d\n", what, WTERMSIG(status));
    else printf("%s: status %d\n", what, WEXITSTATUS(status));
}

static void store_first(int id, char *base) { (void)id, *(volatile char *)base = 1; }
static void load_second_page(int id, char *base) { (void)id, (void)*(volatile char *)(base + PAGE); }
static void add(int id, char *base) {
    (void)id;
    for (int i = 0; i < ROUNDS; i++) {
        __atomic_fetch_add((long *)base, 5, __ATOMIC_SEQ_CST);
        if (i % SEAM_EVERY == 0) __atomic_fetch_add((long *)(base + PAGE - 4), 3, __ATOMIC_SEQ_CST);
    }
}

static void as_other_user(int id, char *base) {
    struct shmid_ds shown;
    if (setgid(100) || setuid(100)) _exit(95);
    say_error("another user: IPC_STAT", shmctl(id, IPC_STAT, &shown));
    say_error("another user: shmat", shmat(id, NULL, SHM_RDONLY) == (void *)-1 ? -1 : 0);
    say_error("another user: IPC_RMID", shmctl(id, IPC_RMID, NULL));
    say_error("another user: setuid", setuid(0));
    say("another user: byte that was attached before", base[0]);
}

static void errors(void) {
    const int id = shmget(KEY, 3 * PAGE, IPC_CREAT | 0640);
    say_error("size 0", shmget(IPC_PRIVATE, 0, 0600));
    say_error("no such key", shmget(KEY + 1, 1, 0));
    say_error("exclusive", shmget(KEY, 1, IPC_CREAT | IPC_EXCL));
    say_error("larger than it is", shmget(KEY, 4 * PAGE, 0));
    say("found by its key", shmget(KEY, 0, 0) == id);
    say_error("unaligned", shmat(id, (void *)0x20000001, 0) == (void *)-1 ? -1 : 0);
    say_error("remap at null", shmat(id, NULL, SHM_REMAP) == (void *)-1 ? -1 : 0);
    say_error("over the program", shmat(id, (void *)((unsigned long)&errors & ~4095UL), 0) == (void *)-1 ? -1 : 0);
    say_error("nothing attached", shmdt((void *)0x20000000));
    say_error("no address", shmctl(id, IPC_STAT, (void *)8));
    say_error("no command", shmctl(id, 77, NULL));
    say_error("removed", shmctl(id, IPC_RMID, NULL));
    say_error("removed twice", shmctl(id, IPC_RMID, NULL));
    say_error("shmat of the removed", shmat(id, NULL, 0) == (void *)-1 ? -1 : 0);
}

static void fields(void) {
    struct shmid_ds set;
    const int id = made(5000, 0604);
    char *base = attached(id, (void *)0x20000fff, SHM_RND);
    say("rounded down", base == (char *)0x20000000);
    say("bytes", (long)shown(id).shm_segsz);
    say("mode", shown(id).shm_perm.mode);
    say("attached", (long)shown(id).shm_nattch);
    say("last process", shown(id).shm_lpid == getpid());
    set = shown(id);
    set.shm_perm.uid = 100;
    set.shm_perm.mode = 0444;
    say_error("IPC_SET", shmctl(id, IPC_SET, &set));
    say("owner", shown(id).shm_perm.uid);
    say("mode", shown(id).shm_perm.mode);
    say_error("SHM_LOCK", shmctl(id, SHM_LOCK, NULL));
    say("mode", shown(id).shm_perm.mode);
    say_error("SHM_UNLOCK", shmctl(id, SHM_UNLOCK, NULL));
    shmctl(id, IPC_RMID, NULL);
    say("marked", shown(id).shm_perm.mode);
    say("key", shown(id).shm_perm.__key);
    shmdt(base);
    say_error("gone with its last attachment", shmctl(id, IPC_STAT, &set));
}

static void memory(void) {
    const int id = made(PAGES * PAGE, 0600);
    char *base = attached(id, NULL, 0), *read_only = attached(id, (void *)0x20000000, SHM_RDONLY);
    long sum = 0;
    memset(base, 5, PAGES * PAGE);
    for (int page = 0; page < PAGES; page++) memcpy(base + page * PAGE + PAGE - 2, &page, page + 1 < PAGES ? 4 : 2);
    for (int i = 0; i < PAGES * PAGE; i++) sum += read_only[i] * (i % 97 + 1);
    say("sum", sum);
    in_child("store to a read-only attachment", store_first, id, read_only);
    in_child("store to the other one", store_first, id, base);
    say("the child's byte", read_only[0]);
    in_child("another user", as_other_user, id, base);
    say_error("mprotect", mprotect(base, PAGE, PROT_READ));
    in_child("store to a protected page", store_first, id, base);
    say_error("munmap", munmap(base + PAGE, PAGE));
    in_child("load of an unmapped page", load_second_page, id, base);
    in_child("load of it elsewhere", load_second_page, id, read_only);
    say("attached", (long)shown(id).shm_nattch);
    say_error("remap", attached(id, base, SHM_REMAP) == base ? 0 : -1);
    in_child("load of the page again", load_second_page, id, base);
    shmctl(id, IPC_RMID, NULL);
    shmdt(base);
    shmdt(read_only);
}

/* Four processes add to a number, and now and then to one across two pages, and tell by a pipe when they are done. */
static void race(void) {
    const int id = made(2 * PAGE, 0600);
    char *base = attached(id, NULL, 0), byte;
    int ends[2], count = 0;
    if (pipe(ends)) exit(94);
    for (int i = 0; i < PROCESSES; i++)
        if (!fork()) {
            close(ends[0]);
            add(id, base);
            _exit(write(ends[1], "x", 1) == 1 ? 0 : 1);
        }
    close(ends[1]);
    while (read(ends[0], &byte, 1) == 1) count++;
    while (wait(NULL) > 0) count += 10;
    say("processes", count);
    say("number", *(long *)base);
    say("number across two pages", *(long *)(base + PAGE - 4));
    shmdt(base);
    say("attached", (long)shown(id).shm_nattch);
    shmctl(id, IPC_RMID, NULL);
}

int main(void) {
    errors();
    fields();
    memory();
    race();
    return 42;
}

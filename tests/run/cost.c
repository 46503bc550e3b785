/* Times calls, in microseconds: the least mean of five rounds. `cost faults`, with 16 frames: the median of accesses to pages that are
   not in memory. */
#include <fcntl.h>
#include <stdio.h>
#include <stdlib.h>
#include <sys/mman.h>
#include <sys/shm.h>
#include <time.h>
#include <unistd.h>

enum { ROUNDS = 5, CALLS = 1000, PAGE = 4096 };
static int id;
static char *other;

static double now(void) {
    struct timespec t;
    clock_gettime(CLOCK_MONOTONIC, &t);
    return (double)t.tv_sec * 1e6 + (double)t.tv_nsec / 1e3;
}

static void stat_it(int i) { struct shmid_ds d; (void)i; if (shmctl(id, IPC_STAT, &d)) exit(1); }
static void make_and_remove(int i) { (void)i; if (shmctl(shmget(IPC_PRIVATE, PAGE, 0600), IPC_RMID, NULL)) exit(1); }
static void attach_and_detach(int i) { (void)i; if (shmdt(shmat(id, NULL, 0))) exit(1); }
static void protect_other(int i) { if (mprotect(other, PAGE, i % 2 ? PROT_READ : PROT_READ | PROT_WRITE)) exit(1); }
static void open_for_reading(int i) { (void)i; close(open("/dev/null", O_RDONLY)); }
static void open_for_writing(int i) { (void)i; close(open("/dev/null", O_WRONLY)); }
static void ask_parent(int i) { (void)i; (void)getppid(); }

static const struct { const char *name; void (*run)(int); } calls[] = {
    {"shmctl, IPC_STAT", stat_it}, {"shmget and IPC_RMID", make_and_remove}, {"shmat and shmdt", attach_and_detach},
    {"mprotect of other memory", protect_other}, {"open for reading, close", open_for_reading},
    {"open for writing, close", open_for_writing}, {"getppid", ask_parent},
};

enum { PAGES = 64, ACCESSES = 60 * PAGES };

static int order(const void *a, const void *b) { double x = *(const double *)a, y = *(const double *)b; return (x > y) - (x < y); }

static void time_faults(const char *name, volatile char *pages, int is_store) {
    static double took[ACCESSES];
    for (int i = 0; i < ACCESSES; i++) {
        double began = now();
        if (is_store) pages[i % PAGES * PAGE]++;
        else (void)pages[i % PAGES * PAGE];
        took[i] = now() - began;
    }
    qsort(took, ACCESSES, sizeof *took, order);
    printf("%s: %.2f\n", name, took[ACCESSES / 2]);
}

static int faults(void) {
    int segment = shmget(IPC_PRIVATE, PAGES * PAGE, 0600);
    char *pages = shmat(segment, NULL, 0);
    time_faults("a store to a page in swap", pages, 1);
    time_faults("a load of a page in swap", pages, 0);
    return shmctl(segment, IPC_RMID, NULL);
}

int main(int argc, char **argv) {
    if (argc > 1 && argv[1][0] == 'f') return faults();
    id = shmget(IPC_PRIVATE, PAGE, 0600);
    other = mmap(NULL, 2 * PAGE, PROT_READ, MAP_PRIVATE | MAP_ANONYMOUS, -1, 0);
    for (size_t c = 0; c < sizeof calls / sizeof *calls; c++) {
        double least = 1e9;
        for (int round = 0; round < ROUNDS; round++) {
            double began = now();
            for (int i = 0; i < CALLS; i++) calls[c].run(i);
            double mean = (now() - began) / CALLS;
            if (mean < least) least = mean;
        }
        printf("%s: %.2f\n", calls[c].name, least);
    }
    return shmctl(id, IPC_RMID, NULL);
}

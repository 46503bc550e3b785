/* killed: a child is killed in each of its calls in turn, at several moments of the call. After each, nothing of it is attached,
   and the segment can still be used. Prints what was wrong. */
#define _GNU_SOURCE
#include <pthread.h>
#include <signal.h>
#include <stdio.h>
#include <string.h>
#include <sys/mman.h>
#include <sys/shm.h>
#include <sys/wait.h>
#include <unistd.h>

enum { PAGE = 4096, CALLS = 9, MOMENTS = 12, STEP = 4000 };
static volatile int call_now, is_ready;
static int victim, moment;

static void *kill_in_call(void *unused) {
    while (call_now < victim) is_ready = 1;
    for (volatile int i = 0; i < moment * STEP; i++) continue;
    kill(getpid(), SIGKILL);
    return unused;
}

static void make_calls(int id) {
    struct shmid_ds d;
    char *at;
    call_now = 1, at = shmat(id, NULL, 0);
    call_now = 2, shmctl(id, IPC_STAT, &d);
    call_now = 3, mprotect(at, PAGE, PROT_READ);
    call_now = 4, at = mremap(at, 4 * PAGE, 4 * PAGE, MREMAP_MAYMOVE | MREMAP_FIXED, at + 64 * PAGE);
    call_now = 5, munmap(at + PAGE, PAGE);
    call_now = 6, shmat(id, at, SHM_REMAP);
    call_now = 7, shmdt(at);
    call_now = 8, shmctl(shmget(IPC_PRIVATE, PAGE, 0600), IPC_RMID, NULL);
    call_now = 9, shmat(id, NULL, SHM_RDONLY);
}

static int is_as_wanted(int id) {
    struct shmid_ds d;
    char *at = shmat(id, NULL, 0);
    if (at == (void *)-1) return 0;
    at[1]++;
    return shmdt(at) == 0 && shmctl(id, IPC_STAT, &d) == 0 && d.shm_nattch == 0;
}

int main(void) {
    int id = shmget(IPC_PRIVATE, 4 * PAGE, 0600), status, wrong = 0;
    for (int i = 0; i < CALLS * MOMENTS; i++) {
        victim = 1 + i / MOMENTS, moment = i % MOMENTS;
        pid_t child = fork();
        if (child == 0) {
            pthread_t killer;
            pthread_create(&killer, NULL, kill_in_call, NULL);
            while (!is_ready) continue;
            make_calls(id);
            for (;;) pause();
        }
        waitpid(child, &status, 0);
        if (!WIFSIGNALED(status) || !is_as_wanted(id)) printf("killed in call %d at moment %d\n", victim, moment), wrong = 1;
    }
    shmctl(id, IPC_RMID, NULL);
    return wrong;
}

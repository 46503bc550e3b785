/* Uses more pages than there are frames, in two processes. At last the kernel stores into one of them. */
#include "user.h"

enum { WORDS = 64 * PAGE_SIZE / sizeof(unsigned long) };

static void fill(volatile unsigned long *words, unsigned long round) {
    for (unsigned long i = 0; i < WORDS; i++) words[i] = 2 * i + round;
}

/* The count is in a register of SSE, which no fault may change, and is not 0 there. */
static double differences(const volatile unsigned long *words, unsigned long round) {
    double count = 1;
    for (unsigned long i = 0; i < WORDS; i++) count += words[i] != 2 * i + round;
    return count - 1;
}

int main(void) {
    int id = shmget(IPC_PRIVATE, WORDS * sizeof(unsigned long), 0600);
    unsigned long *words = shmat(id, 0, 0), *again = shmat(id, 0, SHM_RDONLY);
    fill(words, 0);
    double wrong = differences(again, 0);
    if (fork() == 0) {
        fill(words, words[WORDS - 1] != 0 && differences(words, 0) == 0);  /* first a page that both have */
        exit(0);
    }
    wait(0);
    wrong += differences(again, 1);
    shmctl(id, IPC_STAT, (struct shmid_ds *)words);
    differences(again, 1);
    wrong += ((struct shmid_ds *)again)->shm_nattch != 2;
    shmctl(id, IPC_RMID, 0);
    say("paging: ", (unsigned long)wrong, " words are wrong\n");
    return wrong != 0;
}

/* A process that stays. At each of its turns it stores into its pages, which drive out all others. */
#include "user.h"

enum { PAGES = 5 };

int main(void) {
    volatile char *pages[PAGES];
    for (int i = 0; i < PAGES; i++) {
        int id = shmget(IPC_PRIVATE, PAGE_SIZE, 0600);
        pages[i] = shmat(id, 0, 0);
        shmctl(id, IPC_RMID, 0);
    }
    if (fork()) return 0;
    for (;; sched_yield())
        for (int i = 0; i < PAGES; i++) ++*pages[i];
}

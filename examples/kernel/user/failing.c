/* A child loads pages that have left their frames. If a read of the RAM disk fails, it ends in SIGBUS, and
   every byte is there all the same. */
#include "user.h"

enum { PAGES = 64 };

static unsigned long wrong_pages(const volatile char *bytes) {
    unsigned long count = 0;
    for (int page = 0; page < PAGES; page++) count += bytes[page * PAGE_SIZE] != page + 1;
    return count;
}

int main(void) {
    int id = shmget(IPC_PRIVATE, PAGES * PAGE_SIZE, 0600);
    char *bytes = shmat(id, 0, 0);
    for (int page = 0; page < PAGES; page++) bytes[page * PAGE_SIZE] = (char)(page + 1);
    if (fork() == 0) exit(wrong_pages(bytes) != 0);
    say("failing: the child's signal is ", (unsigned long)signal_of_child(), "\n");
    unsigned long wrong = wrong_pages(bytes);
    shmctl(id, IPC_RMID, 0);
    say("failing: ", wrong, " pages are wrong\n");
    return wrong != 0;
}

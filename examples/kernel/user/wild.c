/* Children that end in SIGSEGV: by an address without attachment, a read-only one, after unmap and detach. */
#include "user.h"

enum { ACCESSES = 4, SEGV = 11 };

static void access(int which, volatile char *bytes) {
    bytes[PAGE_SIZE] = 1;
    *bytes = 2;
    switch (which) {
    case 0: exit(*(volatile char *)0x30000000);
    case 1: if (mprotect((void *)bytes, PAGE_SIZE, PROT_READ) == 0 && *bytes == 2) *bytes = 3; break;
    case 2: if (munmap((void *)bytes, PAGE_SIZE) == 0 && bytes[PAGE_SIZE] == 1) exit(*bytes); break;
    default: if (shmdt((void *)bytes) == 0) exit(*bytes);
    }
}

int main(void) {
    int id = shmget(IPC_PRIVATE, 2 * PAGE_SIZE, 0600), ended = 0;
    void *bytes = shmat(id, 0, 0);
    for (int which = 0; which < ACCESSES; which++) {
        if (fork() == 0) {
            access(which, bytes);
            exit(0);
        }
        ended += signal_of_child() == SEGV;
    }
    say("wild: ", (unsigned long)ended, " of 4 ended in SIGSEGV\n");
    bytes = shmat(id, (void *)0x7f0000000000, 0);  /* the program is there */
    return shmctl(id, IPC_RMID, 0) != 0 || ended != ACCESSES || bytes != (void *)-1;
}

/* Stores into many pages, and after each of them into the first page. The clock sees that the first page is
   used, page is used, so it stays in its frame: as many pages are lent as there are. */
#include "user.h"

enum { PAGES = 64 };

int main(void) {
    int id = shmget(IPC_PRIVATE, PAGES * PAGE_SIZE, 0600);
    volatile char *bytes = shmat(id, 0, 0);
    for (int page = 1; page < PAGES; page++) {
        bytes[page * PAGE_SIZE] = 1;
        bytes[0]++;
    }
    shmctl(id, IPC_RMID, 0);
    return bytes[0] != PAGES - 1;
}

/* Four processes add to a counter in shared memory under a lock. The timer takes turns away from them. */
#include "user.h"

enum { CHILDREN = 4, ROUNDS = 1000000 };
struct shared { int is_taken; volatile unsigned long count; };

static void add(struct shared *shared) {
    for (int i = 0; i < ROUNDS; i++) {
        while (__atomic_exchange_n(&shared->is_taken, 1, __ATOMIC_ACQUIRE)) continue;
        shared->count = shared->count + 1;
        __atomic_store_n(&shared->is_taken, 0, __ATOMIC_RELEASE);
    }
}

int main(void) {
    int id = shmget(IPC_PRIVATE, sizeof(struct shared), 0600);
    struct shared *shared = shmat(id, 0, 0);
    for (int i = 0; i < CHILDREN; i++) {
        if (fork()) continue;
        add(shared);
        exit(0);
    }
    for (int i = 0; i < CHILDREN; i++) signal_of_child();
    say("counter: ", shared->count, "\n");
    shmctl(id, IPC_RMID, 0);
    return shared->count != CHILDREN * ROUNDS;
}

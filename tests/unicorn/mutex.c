/* A guest of the emulator: four processes take turns by glibc's mutex and condition variable in shared memory. */
#include <pthread.h>
#include <stdio.h>
#include <stdlib.h>
#include <sys/shm.h>
#include <sys/wait.h>
#include <unistd.h>

enum { PROCESSES = 4, ROUNDS = 3000 };

static struct shared { pthread_mutex_t mutex; pthread_cond_t moved; int next; long count; } *shared;

static void take_turns(int self) {
    for (int i = 0; i < ROUNDS; i++) {
        pthread_mutex_lock(&shared->mutex);
        if (i % 100 == 0) {
            while (shared->next != self) pthread_cond_wait(&shared->moved, &shared->mutex);
            shared->next = (self + 1) % PROCESSES;
            pthread_cond_broadcast(&shared->moved);
        }
        const long count = shared->count;
        for (volatile int pause = 0; pause < 20; pause++) {}
        shared->count = count + 1;
        pthread_mutex_unlock(&shared->mutex);
    }
}

int main(void) {
    pthread_mutexattr_t of_mutex;
    pthread_condattr_t of_condition;
    const int id = shmget(IPC_PRIVATE, sizeof *shared, 0600);
    shared = shmat(id, NULL, 0);
    shmctl(id, IPC_RMID, NULL);
    pthread_mutexattr_init(&of_mutex);
    pthread_mutexattr_setpshared(&of_mutex, PTHREAD_PROCESS_SHARED);
    pthread_mutex_init(&shared->mutex, &of_mutex);
    pthread_condattr_init(&of_condition);
    pthread_condattr_setpshared(&of_condition, PTHREAD_PROCESS_SHARED);
    pthread_cond_init(&shared->moved, &of_condition);
    for (int i = 0; i < PROCESSES; i++)
        if (!fork()) {
            take_turns(i);
            _exit(0);
        }
    while (wait(NULL) > 0) {}
    printf("count %ld\n", shared->count);
    return 0;
}

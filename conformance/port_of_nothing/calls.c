/* The calls of small_port.h, which all refuse, and nothing else that a program could be linked with. */
#include "small_port.h"

int shmget(int key, size_type size, int flags) { return key || size || flags ? -1 : 0; }
void *shmat(int id, const void *address, int flags) { return id || address || flags ? (void *)-1 : (void *)0; }
int shmdt(const void *address) { return address ? -1 : 0; }
int shmctl(int id, int command, struct shmid_ds *segment) { return id || command || segment ? -1 : 0; }
int fork(void) { return -1; }
void exit(int status) { while (status != -1) continue; }
int wait(int *status) { return status ? 0 : -1; }
int pipe(int ends[2]) { return ends ? -1 : 0; }
int read(int fd, void *to, int count) { return fd || to || count ? -1 : 0; }
int write(int fd, const void *from, int count) { return fd || from || count ? -1 : 0; }
void put_char(char c) { (void)c; }
const char *error_name(void) { return "ENOSYS"; }

/* What the programs have: system calls by Linux's numbers, and a few functions. A call that is refused
   returns -1, and `refusal` is the number of its error. Each program is one file, so all of it is here. */
#ifndef USER_H
#define USER_H

struct ipc_perm {
    int key;
    unsigned uid, gid, cuid, cgid, mode, sequence;
    unsigned long unused[2];
};
struct shmid_ds {
    struct ipc_perm shm_perm;
    unsigned long shm_segsz;
    long shm_atime, shm_dtime, shm_ctime;
    int shm_cpid, shm_lpid;
    unsigned long shm_nattch, unused[2];
};
enum { IPC_PRIVATE = 0, IPC_RMID = 0, IPC_SET = 1, IPC_STAT = 2, IPC_CREAT = 512, IPC_EXCL = 1024 };
enum { PAGE_SIZE = 4096, PROT_READ = 1, PROT_WRITE = 2 };
#define SHM_RDONLY 010000
#define SHM_RND 020000
#define SHM_REMAP 040000
#define SHM_EXEC 0100000
#define SHM_HUGETLB 04000
#define SHM_NORESERVE 010000
#define SHM_LOCK 11
#define SHM_UNLOCK 12
#define SHM_DEST 01000
#define SHM_LOCKED 02000

static int refusal;
int main(void);
__asm__(".global _start\n_start: call main; mov %eax, %edi; mov $60, %eax; syscall");

static inline long system_call(long number, long a, long b, long c) {
    long result;
    __asm__ volatile("syscall" : "=a"(result) : "a"(number), "D"(a), "S"(b), "d"(c) : "rcx", "r11", "memory");
    if (result >= 0) return result;
    refusal = (int)-result;
    return -1;
}

#define CALL(type, number, a, b, c) { return (type)system_call(number, (long)(a), (long)(b), (long)(c)); }
static inline long read(int file, void *to, unsigned long length) CALL(long, 0, file, to, length)
static inline long write(int file, const void *from, unsigned long length) CALL(long, 1, file, from, length)
static inline int mprotect(void *at, unsigned long length, int kind) CALL(int, 10, at, length, kind)
static inline int munmap(void *at, unsigned long length) CALL(int, 11, at, length, 0)
static inline int pipe(int *ends) CALL(int, 22, ends, 0, 0)
static inline int sched_yield(void) CALL(int, 24, 0, 0, 0)
static inline int shmget(int key, unsigned long size, int flags) CALL(int, 29, key, size, flags)
static inline void *shmat(int id, const void *at, int flags) CALL(void *, 30, id, at, flags)
static inline int shmctl(int id, int command, struct shmid_ds *segment) CALL(int, 31, id, command, segment)
static inline int getpid(void) CALL(int, 39, 0, 0, 0)
static inline int fork(void) CALL(int, 57, 0, 0, 0)
static inline int wait(int *status) CALL(int, 61, -1, status, 0)
static inline int shmdt(const void *at) CALL(int, 67, at, 0, 0)
static inline int setuid(unsigned user) CALL(int, 105, user, 0, 0)
static inline int setgid(unsigned group) CALL(int, 106, group, 0, 0)
static inline __attribute__((noreturn)) void exit(int status) { for (;;) system_call(60, status, 0, 0); }

static inline void put(const char *text) { for (; *text; text++) write(1, text, 1); }

static inline void say(const char *before, unsigned long number, const char *after) {
    char digits[22], *at = digits + sizeof digits;
    *--at = 0;
    do *--at = (char)('0' + number % 10);
    while (number /= 10);
    put(before), put(at), put(after);
}

/* Waits for a child: the number of the signal that ended it, or 0. */
static inline int signal_of_child(void) {
    int status = 0;
    wait(&status);
    return status & 127;
}
#endif

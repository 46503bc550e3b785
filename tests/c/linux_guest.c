/* linux_guest: what nogcuvema_linux.h answers to a guest, by the rules of docs/MACHINE.md, and, where an IPC namespace can be
   made, byte by byte what the running kernel answers to the same calls. */
#define _GNU_SOURCE
#include <nogcuvema_linux.h>
#include "testing.h"
#include <errno.h>
#include <sched.h>
#include <stdlib.h>
#include <sys/ipc.h>
#include <sys/shm.h>
#include <sys/syscall.h>
#include <sys/wait.h>
#include <unistd.h>

enum { KEY = 0x1234, SIZE = 5000, ROOM = 256, FIRST = 4096, FAULTY = 7, UNTOUCHED = 0xee };

static const nog_limits limits_of_both = {.shmmax = 65536, .shmmni = 7, .shmall = 64, .frames = 16, .memlock = 14, .most_pieces = 256,
                                          .most_processes = 4, .most_slots = 64, .rules = NOG_LINUX};
static nog_machine machine = NOG_MACHINE_INITIALIZER;

/* the guest's memory: one buffer, at an address of its own */
static int read_guest(void *guest, uint64_t addr, void *bytes, size_t len) {
    if (addr != FIRST) return 0;
    memcpy(bytes, guest, len);
    return 1;
}

static int write_guest(void *guest, uint64_t addr, const void *bytes, size_t len) {
    if (addr != FIRST) return 0;
    memcpy(guest, bytes, len);
    return 1;
}

static uint8_t buffer[ROOM];
static const nog_linux_memory memory = {buffer, read_guest, write_guest};

static int64_t control(uint32_t pid, int64_t id, int32_t command, uint64_t addr) {
    return nog_linux_shmctl(&machine, &limits_of_both, pid, (int32_t)id, command, addr, &memory);
}

static void test_result(int64_t found, int64_t wanted, int line, const char *what) {
    test(found == wanted, __FILE__, line, what, (uint64_t)found);
}
#define RESULT(call, wanted) test_result((call), (wanted), __LINE__, #call)

/* a machine with this process, and for it a segment, attached once, with one page touched */
static void open_for(uint32_t pid, uint32_t uid, uint32_t gid, uint64_t time) {
    const nog_process people[] = {{pid, 1, uid, gid}, {UNDECLARED, 1, 12345, 12345}};
    uint8_t byte = 1;
    ANSWER(nog_open(&machine, &limits_of_both, &ram, 1, &none, 0, people, 2), NOG_DONE);
    ANSWER(nog_set_time(&machine, time), NOG_DONE);
    RESULT(nog_linux_shmget(&machine, pid, KEY, SIZE, 0640 | IPC_CREAT | IPC_EXCL), 0);
    RESULT(nog_linux_shmat(&machine, pid, 0, 0, 0), LOWEST);
    ANSWER(nog_store(&machine, pid, LOWEST, &byte, 1), NOG_DONE);
}

static void test_refusals(void) {
    nog_linux_shmid *shown = (nog_linux_shmid *)(void *)buffer;
    open_for(ROOT, 100, 100, 0);
    RESULT(nog_linux_shmget(&machine, ROOT, KEY, SIZE, 0640 | IPC_CREAT | IPC_EXCL), -EEXIST);
    RESULT(nog_linux_shmget(&machine, ROOT, KEY, SIZE + 1, 0), -EINVAL);
    RESULT(nog_linux_shmget(&machine, ROOT, -1, SIZE, 0640), -ENOENT);
    RESULT(nog_linux_shmget(&machine, ROOT, KEY, SIZE, 0640 | (1 << 30)), 0);
    RESULT(nog_linux_shmget(&machine, UNDECLARED, KEY, SIZE, 0400), -EACCES);
    RESULT(nog_linux_shmat(&machine, ROOT, 0, 1, 0), -EINVAL);
    RESULT(nog_linux_shmat(&machine, ROOT, 9, 0, 0), -EINVAL);
    RESULT(nog_linux_shmat(&machine, ROOT, 0, 0x50000001, SHM_RND | SHM_RDONLY), 0x50000000);
    RESULT(nog_linux_shmdt(&machine, ROOT, 0x50000000), 0);
    RESULT(nog_linux_shmdt(&machine, ROOT, 0x50000000), -EINVAL);
    RESULT(control(ROOT, 0, NOG_LINUX_STAT, FIRST), 0);
    TEST(shown->nattch == 1);
    RESULT(control(ROOT, 0, NOG_LINUX_STAT, FAULTY), -EFAULT);
    RESULT(control(ROOT, 9, NOG_LINUX_STAT, FAULTY), -EINVAL);
    RESULT(control(UNDECLARED, 0, NOG_LINUX_STAT, FAULTY), -EACCES);
    RESULT(control(UNDECLARED, 0, NOG_LINUX_STAT_AT, FIRST), -EACCES);
    RESULT(control(UNDECLARED, 0, NOG_LINUX_STAT_ANY, FIRST), 0);
    RESULT(control(ROOT, 1, NOG_LINUX_STAT_ANY, FIRST), -EINVAL);
    RESULT(control(ROOT, 9, NOG_LINUX_SET, FAULTY), -EFAULT);
    RESULT(control(ROOT, 9, NOG_LINUX_SET, FIRST), -EINVAL);
    RESULT(control(UNDECLARED, 0, NOG_LINUX_SET, FIRST), -EPERM);
    RESULT(control(ROOT, 0, NOG_LINUX_INFO, FAULTY), -EFAULT);
    RESULT(control(ROOT, -1, NOG_LINUX_INFO, FIRST), -EINVAL);
    RESULT(control(ROOT, 0, NOG_LINUX_USAGE, FAULTY), -EFAULT);
    RESULT(control(ROOT, 0, -1, FIRST), -EINVAL);
    RESULT(control(ROOT, 0, NOG_LINUX_STAT | 0x100, FIRST), -EINVAL);
    RESULT(control(ROOT, 0, 16, FIRST), -EINVAL);
    RESULT(control(ROOT, 0, NOG_LINUX_RMID, FAULTY), 0);
    RESULT(control(ROOT, 0, NOG_LINUX_STAT, FIRST), 0);
    RESULT(shown->mode, 0640 | 01000);
    RESULT(nog_linux_shmdt(&machine, ROOT, LOWEST), 0);
    RESULT(nog_linux_shmget(&machine, ROOT, KEY, SIZE, 0640 | IPC_CREAT), 32768);
    RESULT(control(ROOT, 32768, NOG_LINUX_STAT, FIRST), 0);
    RESULT(shown->seq, 1);
    ANSWER(nog_close(&machine), NOG_DONE);
    RESULT(nog_linux_shmdt(&machine, ROOT, LOWEST), -ENOSYS);
}

/* writes one of the limits of this IPC namespace */
static int put_limit(const char *path, uint64_t value) {
    FILE *file = fopen(path, "w");
    if (file == NULL) return 0;
    fprintf(file, "%" PRIu64 "\n", value);
    return fclose(file) == 0;
}

static int has_namespace(void) {
    return unshare(CLONE_NEWIPC) == 0 && put_limit("/proc/sys/kernel/shmmax", limits_of_both.shmmax) &&
           put_limit("/proc/sys/kernel/shmmni", limits_of_both.shmmni) && put_limit("/proc/sys/kernel/shmall", limits_of_both.shmall);
}

/* one command, to the kernel and to the machine, over the same bytes; the results and what is in the buffers then */
static void compare(uint32_t pid, int64_t id, int32_t command, int line) {
    uint8_t theirs[ROOM];
    memcpy(theirs, buffer, ROOM);
    long result = syscall(SYS_shmctl, (int)id, command, theirs);
    int64_t wanted = result < 0 ? -(int64_t)errno : (int64_t)result;
    test_result(control(pid, id, command, FIRST), wanted, line, "the kernel's result");
    for (size_t i = 0; i < ROOM; i++) test(buffer[i] == theirs[i], __FILE__, line, "the kernel's byte", i);
    memcpy(buffer, theirs, ROOM);
}

static void compare_with_kernel(void) {
    struct shmid_ds there;
    uint32_t pid = (uint32_t)getpid();
    int id = shmget(KEY, SIZE, 0640 | IPC_CREAT | IPC_EXCL);
    char *at = shmat(id, NULL, 0);
    TEST(id == 0 && at != (char *)-1);
    *at = 1;
    TEST(shmctl(id, IPC_STAT, &there) == 0);
    open_for(pid, geteuid(), getegid(), (uint64_t)there.shm_ctime);
    static const int32_t commands[] = {NOG_LINUX_STAT, NOG_LINUX_STAT_AT, NOG_LINUX_STAT_ANY, NOG_LINUX_INFO, NOG_LINUX_USAGE, 16, 0x102};
    for (size_t i = 0; i < sizeof commands / sizeof *commands; i++) {
        memset(buffer, UNTOUCHED, ROOM);
        compare(pid, 0, commands[i], __LINE__);
    }
    memset(buffer, UNTOUCHED, ROOM);
    compare(pid, 0, NOG_LINUX_STAT, __LINE__);
    ((nog_linux_shmid *)(void *)buffer)->uid = 77;
    ((nog_linux_shmid *)(void *)buffer)->gid = 78;
    ((nog_linux_shmid *)(void *)buffer)->mode = 0406 | 0177000;
    compare(pid, 0, NOG_LINUX_SET, __LINE__);
    compare(pid, 0, NOG_LINUX_LOCK, __LINE__);
    compare(pid, 0, NOG_LINUX_STAT, __LINE__);
    compare(pid, 0, NOG_LINUX_UNLOCK, __LINE__);
    compare(pid, 0, NOG_LINUX_RMID, __LINE__);
    compare(pid, 0, NOG_LINUX_STAT, __LINE__);
}

/* in a process of its own, so that nothing of the tests is in its namespace; its count comes back as a status */
static void test_kernel(void) {
    fflush(stdout);
    pid_t child = fork();
    if (child == 0) {
        tested = differ = 0;
        if (!has_namespace()) {
            printf("note: no IPC namespace can be made here, so the kernel's answers were not compared\n");
        } else {
            compare_with_kernel();
            ANSWER(nog_close(&machine), NOG_DONE);
            TEST(tested > 1000);
        }
        fflush(stdout);
        _exit(differ > 100 ? 100 : (int)differ);
    }
    int status = 1;
    TEST(waitpid(child, &status, 0) == child && WIFEXITED(status));
    test(WEXITSTATUS(status) == 0, __FILE__, __LINE__, "answers unlike the kernel's", (uint64_t)WEXITSTATUS(status));
}

int main(void) {
    TEST(sizeof(nog_linux_shmid) == sizeof(struct shmid_ds) && sizeof(nog_linux_shminfo) == 72 && sizeof(nog_linux_usage) == 48);
    test_refusals();
    test_kernel();
    return finish("linux_guest");
}

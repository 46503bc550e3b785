/* The seccomp filter. All system calls that it does not select run at full speed. */
#include "shmrun.h"
#include <errno.h>
#include <fcntl.h>
#include <linux/audit.h>
#include <linux/filter.h>
#include <linux/futex.h>
#include <linux/seccomp.h>
#include <sys/mman.h>
#include <sys/prctl.h>
#include <sys/syscall.h>
#include <unistd.h>

enum { MOST = 512, ANY = 6, X32 = 0x40000000 };
/* of 32-bit programs: ipc(2), and the four calls of shared memory */
enum { IPC_32 = 117, SHMGET_32 = 395, SHMDT_32 = 398 };
/* an open that can be one of /proc/sysvipc/shm: of a file that exists, for reading */
enum { OTHER_OPEN = O_ACCMODE | O_CREAT | O_DIRECTORY | O_PATH | O_TRUNC | O_APPEND | O_EXCL };
/* with --frames: of a file without cache, or of another process's memory for writing */
enum { OPEN_PAST_TABLES = O_DIRECT | O_WRONLY | O_RDWR };
/* the dynamic linker's mappings of a library have this flag, which the kernel ignores */
enum { OF_LINKER = MAP_DENYWRITE };
enum { REFUSE = SECCOMP_RET_ERRNO | ENOSYS };

/* A call is selected if its argument, masked, is from `low` to `high`. */
struct rule { uint32_t number, argument, mask, low, high; };
#define ALWAYS ANY, 0, 0, 0
static const struct rule rules[] = {
    {SYS_shmget, ALWAYS}, {SYS_shmat, ALWAYS}, {SYS_shmdt, ALWAYS}, {SYS_shmctl, ALWAYS},
    {SYS_munmap, ALWAYS}, {SYS_mremap, ALWAYS}, {SYS_mprotect, ALWAYS}, {SYS_pkey_mprotect, ALWAYS},
    {SYS_setuid, ALWAYS}, {SYS_setgid, ALWAYS}, {SYS_setreuid, ALWAYS}, {SYS_setregid, ALWAYS}, {SYS_setresuid, ALWAYS},
    {SYS_setresgid, ALWAYS},
    {SYS_openat2, ALWAYS}, {SYS_openat, 2, OTHER_OPEN, 0, 0}, {SYS_open, 1, OTHER_OPEN, 0, 0},
    {SYS_mmap, 3, MAP_FIXED | OF_LINKER, MAP_FIXED, MAP_FIXED}, {SYS_madvise, 2, UINT32_MAX, MADV_DONTFORK, MADV_DONTFORK},
};
/* With --frames: what would reach a page by another way than its address, and so miss it when it has left. */
static const struct rule rules_with_frames[] = {
    {SYS_openat, 2, OPEN_PAST_TABLES, 1, UINT32_MAX}, {SYS_open, 1, OPEN_PAST_TABLES, 1, UINT32_MAX},
    {SYS_futex, 1, FUTEX_PRIVATE_FLAG, 0, 0}, {SYS_fcntl, 1, UINT32_MAX, F_SETFL, F_SETFL},
    {SYS_open_by_handle_at, 2, O_DIRECT, O_DIRECT, O_DIRECT}, {SYS_madvise, 2, UINT32_MAX, MADV_REMOVE, MADV_REMOVE},
    {SYS_process_madvise, 3, UINT32_MAX, MADV_REMOVE, MADV_REMOVE},
    {SYS_process_vm_readv, ALWAYS}, {SYS_process_vm_writev, ALWAYS}, {SYS_remap_file_pages, ALWAYS},
};
static const struct rule refused_with_frames[] = {{SYS_io_uring_setup, ALWAYS}, {SYS_io_uring_enter, ALWAYS}};

static struct sock_filter program[MOST];
static unsigned short length;

static void put(unsigned short code, size_t k, unsigned char if_true, unsigned char if_false) {
    program[length++] = (struct sock_filter){code, if_true, if_false, (uint32_t)k};
}
static void load(size_t offset) { put(BPF_LD | BPF_W | BPF_ABS, offset, 0, 0); }
static void finish(uint32_t action) { put(BPF_RET | BPF_K, action, 0, 0); }

/* The number of the system call is loaded before each rule, and after it. */
static void put_rule(struct rule rule, uint32_t action) {
    bool is_any = rule.argument == ANY;
    put(BPF_JMP | BPF_JEQ | BPF_K, rule.number, 0, is_any ? 1 : 6);
    if (is_any) return finish(action);
    load(offsetof(struct seccomp_data, args) + 8 * rule.argument);
    put(BPF_ALU | BPF_AND | BPF_K, rule.mask, 0, 0);
    put(BPF_JMP | BPF_JGE | BPF_K, rule.low, 0, 2);
    put(BPF_JMP | BPF_JGT | BPF_K, rule.high, 1, 0);
    finish(action);
    load(offsetof(struct seccomp_data, nr));
}

/* Programs of 32 bits, and of x32, have no shared memory here. */
static void refuse_other_machines(void) {
    load(offsetof(struct seccomp_data, arch));
    put(BPF_JMP | BPF_JEQ | BPF_K, AUDIT_ARCH_X86_64, 6, 0);
    load(offsetof(struct seccomp_data, nr));
    put(BPF_JMP | BPF_JEQ | BPF_K, IPC_32, 3, 0);
    put(BPF_JMP | BPF_JGE | BPF_K, SHMGET_32, 0, 1);
    put(BPF_JMP | BPF_JGT | BPF_K, SHMDT_32, 0, 1);
    finish(SECCOMP_RET_ALLOW);
    finish(REFUSE);
    load(offsetof(struct seccomp_data, nr));
    put(BPF_JMP | BPF_JGE | BPF_K, X32, 0, 1);
    finish(REFUSE);
}

static void put_rules(const struct rule *list, size_t count, uint32_t action) {
    for (size_t i = 0; i < count; i++) put_rule(list[i], action);
}

/* Without privileges a filter needs no_new_privs, and set-user-ID programs then run without theirs. */
int install_filter(void) {
    /* SPEC_ALLOW: some kernels make all of a program with a filter slower otherwise */
    enum { FLAGS = SECCOMP_FILTER_FLAG_NEW_LISTENER | SECCOMP_FILTER_FLAG_SPEC_ALLOW };
    refuse_other_machines();
    put_rules(rules, sizeof rules / sizeof *rules, SECCOMP_RET_TRACE);
    if (options.frames) {
        put_rules(rules_with_frames, sizeof rules_with_frames / sizeof *rules_with_frames, SECCOMP_RET_TRACE);
        put_rules(refused_with_frames, sizeof refused_with_frames / sizeof *refused_with_frames, REFUSE);
    }
    put_rule((struct rule){ASK_FOR_FILE, 0, UINT32_MAX, secret, secret}, SECCOMP_RET_USER_NOTIF);
    finish(SECCOMP_RET_ALLOW);
    const struct sock_fprog filter = {length, program};
    long made = syscall(SYS_seccomp, SECCOMP_SET_MODE_FILTER, FLAGS, &filter);
    if (made == -1 && errno == EACCES && prctl(PR_SET_NO_NEW_PRIVS, 1, 0, 0, 0) == 0)
        made = syscall(SYS_seccomp, SECCOMP_SET_MODE_FILTER, FLAGS, &filter);
    return (int)made;
}

/* Shared memory: a machine of the library has all segments and attachments. */
#include "kernel.h"
#include <nogcuvema_linux.h>

nog_machine machine = NOG_MACHINE_INITIALIZER;
static nog_limits limits;
enum { READ_ONLY = 1, READ_WRITE = 3 };

/* ---- opening ---- */

/* Returns the number after a name such as "frames=" on the command line. */
static uint64_t number_of(const char *words, const char *name, uint64_t otherwise) {
    uint64_t number = 0;
    size_t length = 0;
    while (name[length]) length++;
    while (*words && memcmp(words, name, length) != 0) words++;
    if (!*words) return otherwise;
    for (words += length; *words >= '0' && *words <= '9'; words++)
        number = number * 10 + (uint64_t)(*words - '0');
    return number;
}

void open_shared(const char *words) {
    limits = (nog_limits){.shmmax = number_of(words, "shmmax=", 1 << 20),
        .shmmni = number_of(words, "shmmni=", 64), .shmall = number_of(words, "shmall=", 1024),
        .frames = number_of(words, "frames=", 64), .memlock = number_of(words, "memlock=", 2),
        .rules = number_of(words, "rules=", NOG_LINUX)};
    const nog_area disk = {NOG_RAM, (uint32_t)number_of(words, "slots=", 1024)};
    const nog_failure failing_read = {.call = number_of(words, "failing_read=", 0)};
    const nog_failure failing_write = {.is_write = 1, .call = number_of(words, "failing_write=", 0)};
    nog_failure failures[2];
    size_t count = 0;
    if (failing_read.call) failures[count++] = failing_read;
    if (failing_write.call) failures[count++] = failing_write;
    uint32_t code = nog_open(&machine, &limits, &disk, 1, failures, count, NULL, 0);
    if (code != NOG_DONE) {
        print("kernel: nog_open answers %u\n", (uint64_t)code);
        stop("there is no shared memory");
    }
    open_loans(limits.frames, number_of(words, "trace=", 0));
}

/* ---- processes ---- */

void dismiss(uint32_t pid) { nog_dismiss(&machine, pid); }

/* The machine has each process from its beginning until its parent reaps it. Returns whether it had room. */
bool admit(const struct process *process, const struct process *parent) {
    const nog_process admitted = {process->pid, parent->pid == 0, process->uid, process->gid};
    if (nog_admit(&machine, &admitted) != NOG_DONE) return false;
    if (admitted.is_born || nog_fork(&machine, parent->pid, process->pid) == NOG_DONE) return true;
    dismiss(process->pid);
    return false;
}

void leave_shared(struct process *process) {
    forget_entries(process);
    nog_exit(&machine, process->pid);
    forget_ended();
}

int64_t set_user(uint32_t uid, uint32_t gid) {
    if (current->uid && (uid != current->uid || gid != current->gid)) return -EPERM;
    current->uid = uid;
    current->gid = gid;
    return nog_linux_answer(nog_set_user(&machine, current->pid, uid, gid), 0);
}

/* ---- the calls, with the program's registers as arguments ---- */

/* The library does not know where the program itself lies. */
static bool meets_program(int32_t id, uint64_t address) {
    nog_segment segment;
    uint32_t code = nog_segment_at(&machine, (uint32_t)id % NOG_LINUX_SEQUENCE, &segment);
    return code == NOG_DONE && (address >= PROGRAM || segment.size > PROGRAM - address);
}

static int64_t change_attachments(enum call call, uint64_t a, uint64_t b, uint64_t c) {
    const uint32_t pid = current->pid;
    switch (call) {
    case ATTACH:
        if (meets_program((int32_t)a, b)) return -EINVAL;
        return nog_linux_shmat(&machine, pid, (int32_t)a, b, (int32_t)c);
    case DETACH: return nog_linux_shmdt(&machine, pid, a);
    case UNMAP: return nog_linux_answer(nog_unmap(&machine, pid, a, b), 0);
    case PROTECT:
        if (c != READ_ONLY && c != READ_WRITE) return -EINVAL;
        return nog_linux_answer(nog_protect(&machine, pid, a, b, c == READ_WRITE), 0);
    default: return -ENOSYS;
    }
}

int64_t answer_shared_call(enum call call, uint64_t a, uint64_t b, uint64_t c) {
    const uint32_t pid = current->pid;
    const nog_linux_memory memory = {current, copy_from_program, copy_to_program};
    int64_t result;
    if (call == GET) return nog_linux_shmget(&machine, pid, (int32_t)a, b, (int32_t)c);
    if (call == CONTROL) {
        result = nog_linux_shmctl(&machine, &limits, pid, (int32_t)a, (int32_t)b, c, &memory);
    } else {
        result = change_attachments(call, a, b, c);
        forget_entries(current);
    }
    forget_ended();
    return result;
}

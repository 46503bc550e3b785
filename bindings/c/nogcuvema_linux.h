/* nogcuvema_linux.h - the shared memory system calls of 64-bit Linux guests as they arrive, over nogcuvema.h.

   A guest asks by numbers: one word holds mode and flags, shmctl has a command, and its struct lies in the guest's memory.
   Each function below takes these numbers, makes the call for the process `pid`, and returns what the guest's register gets:
   a number from 0 on, or a negative errno of Linux. It tests in Linux's order, EFAULT included. Open the machine with
   NOG_LINUX, so that the library follows Linux's rules too.

   The structs are those of asm-generic/shmbuf.h, which x86-64, arm64 and riscv64 share; guest and host have one byte order.
   A 64-bit kernel knows no IPC_64: a command with that bit is EINVAL. There is no code in the library for this header. */
#ifndef NOGCUVEMA_LINUX_H
#define NOGCUVEMA_LINUX_H

#include <string.h>
#include "nogcuvema.h"

enum nog_linux_command {
    NOG_LINUX_RMID = 0,       /* IPC_RMID */
    NOG_LINUX_SET = 1,        /* IPC_SET */
    NOG_LINUX_STAT = 2,       /* IPC_STAT */
    NOG_LINUX_INFO = 3,       /* IPC_INFO */
    NOG_LINUX_LOCK = 11,      /* SHM_LOCK */
    NOG_LINUX_UNLOCK = 12,    /* SHM_UNLOCK */
    NOG_LINUX_STAT_AT = 13,   /* SHM_STAT */
    NOG_LINUX_USAGE = 14,     /* SHM_INFO */
    NOG_LINUX_STAT_ANY = 15   /* SHM_STAT_ANY */
};

/* struct shmid64_ds, with its struct ipc64_perm */
typedef struct nog_linux_shmid {
    int32_t key;
    uint32_t uid, gid, cuid, cgid;
    uint32_t mode;            /* the nine permission bits, SHM_DEST and SHM_LOCKED */
    uint16_t seq, unused1;
    uint32_t unused2;
    uint64_t unused3, unused4;
    uint64_t segsz;
    int64_t atime, dtime, ctime;
    int32_t cpid, lpid;
    uint64_t nattch, unused5, unused6;
} nog_linux_shmid;

/* struct shminfo64, of IPC_INFO */
typedef struct nog_linux_shminfo {
    uint64_t shmmax, shmmin, shmmni, shmseg, shmall;
    uint64_t unused[4];
} nog_linux_shminfo;

/* struct shm_info, of SHM_INFO */
typedef struct nog_linux_usage {
    int32_t used_ids;
    uint32_t unused;
    uint64_t shm_tot, shm_rss, shm_swp;
    uint64_t swap_attempts, swap_successes;   /* always 0, as on Linux */
} nog_linux_usage;

/* The memory of a guest. Each function copies `len` bytes and returns 1, or it returns 0 if the guest may not read or
   write one of them there. */
typedef struct nog_linux_memory {
    void *guest;  /* the first argument of both */
    int (*read)(void *guest, uint64_t addr, void *bytes, size_t len);
    int (*write)(void *guest, uint64_t addr, const void *bytes, size_t len);
} nog_linux_memory;

enum { NOG_LINUX_EFAULT = 14, NOG_LINUX_ENOSYS = 38, NOG_LINUX_MODE = 511, NOG_LINUX_SEQUENCE = 32768 };

/* The register's value for a code: `value` if the code is 0. NOG_NO_MEMORY is ENOMEM. A code that names a mistake of the
   host, as NOG_CLOSED, is ENOSYS, which no call of shared memory returns on Linux. */
static inline int64_t nog_linux_answer(uint32_t code, int64_t value) {
    if (code == NOG_DONE) return value;
    if (code == NOG_NO_MEMORY) return -(int64_t)NOG_ENOMEM;
    return code <= NOG_EIDRM ? -(int64_t)code : -(int64_t)NOG_LINUX_ENOSYS;
}

static inline int64_t nog_linux_shmget(nog_machine *machine, uint32_t pid, int32_t key, uint64_t size, int32_t flags) {
    const uint32_t known = NOG_CREAT | NOG_EXCL | NOG_HUGETLB | NOG_NORESERVE;
    int32_t id = -1;
    uint32_t code = nog_get(machine, pid, (uint32_t)key, size, (uint32_t)flags & NOG_LINUX_MODE, (uint32_t)flags & known, &id);
    return nog_linux_answer(code, id);
}

static inline int64_t nog_linux_shmat(nog_machine *machine, uint32_t pid, int32_t id, uint64_t addr, int32_t flags) {
    const uint32_t known = NOG_RDONLY | NOG_RND | NOG_REMAP | NOG_EXEC;
    uint64_t at = 0;
    uint32_t code = nog_attach(machine, pid, id, addr, (uint32_t)flags & known, &at);
    return nog_linux_answer(code, (int64_t)at);
}

static inline int64_t nog_linux_shmdt(nog_machine *machine, uint32_t pid, uint64_t addr) {
    return nog_linux_answer(nog_detach(machine, pid, addr), 0);
}

/* A segment as IPC_STAT, SHM_STAT and SHM_STAT_ANY show it. */
static inline nog_linux_shmid nog_linux_shown(const nog_segment *segment) {
    nog_linux_shmid shown;
    memset(&shown, 0, sizeof shown);
    shown.key = (int32_t)segment->key;
    shown.uid = segment->uid;
    shown.gid = segment->gid;
    shown.cuid = segment->cuid;
    shown.cgid = segment->cgid;
    shown.mode = segment->mode | segment->status;
    shown.seq = (uint16_t)(segment->id / NOG_LINUX_SEQUENCE);
    shown.segsz = segment->size;
    shown.atime = (int64_t)segment->atime;
    shown.dtime = (int64_t)segment->dtime;
    shown.ctime = (int64_t)segment->ctime;
    shown.cpid = (int32_t)segment->cpid;
    shown.lpid = (int32_t)segment->lpid;
    shown.nattch = segment->nattch;
    return shown;
}

static inline int64_t nog_linux_put(const nog_linux_memory *memory, uint64_t addr, const void *bytes, size_t len, int64_t value) {
    return memory->write(memory->guest, addr, bytes, len) ? value : -(int64_t)NOG_LINUX_EFAULT;
}

static inline int64_t nog_linux_stat(uint32_t code, const nog_segment *segment, int64_t value, uint64_t addr,
                                     const nog_linux_memory *memory) {
    nog_linux_shmid shown;
    if (code != NOG_DONE) return nog_linux_answer(code, 0);
    shown = nog_linux_shown(segment);
    return nog_linux_put(memory, addr, &shown, sizeof shown, value);
}

static inline int64_t nog_linux_set(nog_machine *machine, uint32_t pid, int32_t id, uint64_t addr, const nog_linux_memory *memory) {
    nog_linux_shmid given;
    if (!memory->read(memory->guest, addr, &given, sizeof given)) return -(int64_t)NOG_LINUX_EFAULT;
    return nog_linux_answer(nog_set(machine, pid, id, given.uid, given.gid, given.mode & NOG_LINUX_MODE), 0);
}

/* IPC_INFO returns the highest index that a segment has. */
static inline int64_t nog_linux_info(nog_machine *machine, const nog_limits *limits, uint64_t addr, const nog_linux_memory *memory) {
    nog_linux_shminfo info;
    nog_usage usage;
    uint32_t code = nog_info(machine, &usage);
    if (code != NOG_DONE) return nog_linux_answer(code, 0);
    memset(&info, 0, sizeof info);
    info.shmmax = limits->shmmax;
    info.shmmin = 1;
    info.shmmni = info.shmseg = limits->shmmni;
    info.shmall = limits->shmall;
    return nog_linux_put(memory, addr, &info, sizeof info, (int64_t)usage.highest);
}

static inline int64_t nog_linux_sums(nog_machine *machine, uint64_t addr, const nog_linux_memory *memory) {
    nog_linux_usage shown;
    nog_usage usage;
    uint32_t code = nog_info(machine, &usage);
    if (code != NOG_DONE) return nog_linux_answer(code, 0);
    memset(&shown, 0, sizeof shown);
    shown.used_ids = (int32_t)usage.used_ids;
    shown.shm_tot = usage.pages;
    shown.shm_rss = usage.resident;
    shown.shm_swp = usage.swapped;
    return nog_linux_put(memory, addr, &shown, sizeof shown, (int64_t)usage.highest);
}

/* shmctl(2). `addr` is the third argument, of the guest's struct. `limits` are the machine's, as nog_limits_of shows them. */
static inline int64_t nog_linux_shmctl(nog_machine *machine, const nog_limits *limits, uint32_t pid, int32_t id, int32_t command,
                                       uint64_t addr, const nog_linux_memory *memory) {
    nog_segment segment;
    uint32_t code;
    if (id < 0) return -(int64_t)NOG_EINVAL;
    switch (command) {
    case NOG_LINUX_INFO: return nog_linux_info(machine, limits, addr, memory);
    case NOG_LINUX_USAGE: return nog_linux_sums(machine, addr, memory);
    case NOG_LINUX_STAT:
        code = nog_stat(machine, pid, id, &segment);
        return nog_linux_stat(code, &segment, 0, addr, memory);
    case NOG_LINUX_STAT_AT:
        code = nog_stat_at(machine, pid, (uint32_t)id, &segment);
        return nog_linux_stat(code, &segment, code == NOG_DONE ? segment.id : 0, addr, memory);
    case NOG_LINUX_STAT_ANY:
        code = nog_segment_at(machine, (uint32_t)id, &segment);
        return nog_linux_stat(code == NOG_OUT_OF_RANGE ? (uint32_t)NOG_EINVAL : code, &segment, code == NOG_DONE ? segment.id : 0, addr, memory);
    case NOG_LINUX_SET: return nog_linux_set(machine, pid, id, addr, memory);
    case NOG_LINUX_RMID: return nog_linux_answer(nog_remove(machine, pid, id), 0);
    case NOG_LINUX_LOCK: return nog_linux_answer(nog_lock(machine, pid, id), 0);
    case NOG_LINUX_UNLOCK: return nog_linux_answer(nog_unlock(machine, pid, id), 0);
    default: return -(int64_t)NOG_EINVAL;
    }
}

#endif

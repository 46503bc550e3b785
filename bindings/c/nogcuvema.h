/* nogcuvema.h - the System V shared memory calls over simulated processes, for C99 and C++.

   A machine has limits, swap areas and processes. A program makes calls for these processes and names each by its pid.
   The calls are those of shmget(2), shmop(2) and shmctl(2), munmap(2) and mprotect(2) of attached memory, accesses to
   it, fork, exec, exit, setuid and swapoff.
   All of it is simulated: no memory, signal or process of the host takes part. An address is a number, and nog_load,
   nog_store and their like read and write the bytes at it. A piece is an attachment or a part of one: a range of
   addresses of a process that maps pages of a segment. A later attach, unmap or protect in its range may cut an
   attachment into several pieces. docs/MACHINE.md has the rules, and docs/EMBEDDING.md shows how to use the library.

   RETURNS. Each function except nog_version returns 0 or a code. It writes its outputs if it returns 0, and otherwise
   leaves them as they were; nog_read, nog_write and nog_copy say below what they leave. What a call that fails has
   changed depends on the code.
   An error of errno(3) other than NOG_EIO, and NOG_SIGSEGV: nothing but the count of calls; nog_protect says what it
   may have changed before.
   NOG_SIGBUS and NOG_EIO name a swap area's failure: no byte of a segment changed, and no process, segment or
   attachment. But pages may have come into frames or left them, and the counts of the memory may have risen.
   A code from 2001 on: nothing at all; NOG_LENT may have changed what "pages on loan" below says.
   nog_read, nog_write and nog_copy make several calls: the above is true of the call that failed, and those before it
   keep their effect.

   Each function that takes a machine returns NOG_CLOSED if it is closed, except nog_open, which opens it. Each call of
   a process, nog_get to nog_swapoff, returns NOG_SPENT if 2^64 - 1 calls were counted before it. Otherwise it returns
   NOG_ESRCH if no live process has the pid: it is unborn, has ended, or was neither declared nor admitted. Below, each
   function lists its other codes in the order in which they are tested. For a call of a process NOG_OUT_OF_RANGE is
   tested before every other code, those three included; for any other function it is tested after NOG_CLOSED, where it
   is listed. Of the codes of errno(3) the first that applies is returned. NOG_NO_MEMORY is tested last, so it replaces
   only 0.

   POINTERS point to as much memory as their types, and the counts or lengths next to them, say. A pointer may be null
   if its count or length is 0, and only then. No two pointers of a call overlap, but nog_snapshot may be given one
   handle twice. The library keeps no pointer: arrays, buffers and outputs are the caller's.

   THREADS. Only one thread at a time may call for a machine. Two threads may use two machines at once. */
#ifndef NOGCUVEMA_H
#define NOGCUVEMA_H

#include <stddef.h>
#include <stdint.h>

#ifdef __cplusplus
extern "C" {
#endif

/* The version of this header: 10000 times the first number, 100 times the second, and the third. */
#define NOG_VERSION 10100
#define NOG_VERSION_TEXT "1.1.0"

/* A machine, or none: zeroed memory is a closed machine. The caller owns the struct. nog_open takes memory of the heap
   for it, and nog_close frees that. The fields are the library's: don't read or write them. The struct may be moved as
   a whole, but don't use a copy together with the original. */
typedef struct nog_machine {
    uint32_t is_open;
    void *kept;
} nog_machine;
#define NOG_MACHINE_INITIALIZER {0, 0}

/* The codes. The numbers of errno(3) are Linux's on every system. nog_text has a text for each code. */
enum nog_code {
    NOG_DONE = 0,
    NOG_EPERM = 1,
    NOG_ENOENT = 2,
    NOG_ESRCH = 3,
    NOG_EIO = 5,
    NOG_EAGAIN = 11,
    NOG_ENOMEM = 12,
    NOG_EACCES = 13,
    NOG_EEXIST = 17,
    NOG_EINVAL = 22,
    NOG_EMFILE = 24,
    NOG_ENOSPC = 28,
    NOG_EIDRM = 43,
    NOG_SIGBUS = 1007,         /* a swap area failed while a page was brought in */
    NOG_SIGSEGV = 1011,        /* nothing is attached there, or it may not be written */
    NOG_NO_MEMORY = 2001,      /* the heap of the program gave no memory */
    NOG_CLOSED = 2002,         /* there is no machine in the handle */
    NOG_OUT_OF_RANGE = 2003,   /* a number that no call can carry */
    NOG_SPENT = 2004,          /* 2^64 - 1 calls were counted */
    NOG_LENT = 2005,           /* a page on loan is in the way: nog_leaver, or the page itself, must come back first */
    NOG_TOO_FEW_COUNTS = 2006, /* nog_gone: there are more indexes of segments than counts */
    NOG_BAD_LIMITS = 2010,     /* never returned; 2011 to 2019: field 1 to 9 of nog_limits is out of its range */
    NOG_BAD_SHMMAX = 2011,
    NOG_BAD_SHMMNI = 2012,
    NOG_BAD_SHMALL = 2013,
    NOG_BAD_FRAMES = 2014,
    NOG_BAD_MEMLOCK = 2015,
    NOG_BAD_MOST_PIECES = 2016,
    NOG_BAD_MOST_PROCESSES = 2017,
    NOG_BAD_MOST_SLOTS = 2018,
    NOG_BAD_RULES = 2019,
    NOG_START_REFUSED = 2020,  /* never returned */
    NOG_BAD_AREAS = 2021,      /* there are not 1 to 8 swap areas */
    NOG_BAD_AREA_SIZE = 2022,  /* an area has no slot, or more than the limits allow */
    NOG_BAD_PROCESSES = 2023,  /* there are more processes than the limits allow */
    NOG_BAD_PID = 2024,        /* a pid is 0, above 2147483647, or occurs twice */
    NOG_ADMIT_BAD_PID = 2031,  /* the pid is 0, or above 2147483647 */
    NOG_ADMIT_TAKEN = 2032,    /* a live process or an unborn child has the pid */
    NOG_ADMIT_MANY = 2033,     /* there are already as many processes as the limits allow */
    NOG_DISMISS_NONE = 2041,   /* no process has the pid */
    NOG_DISMISS_LIVE = 2042    /* the process is live */
};

/* The limits of a machine. A page has 4096 bytes. If all three fields that begin with `most_` are 0, they mean 256, 64
   and 65536, and the first five fields have the narrower of the two ranges below. Otherwise every field has the wider
   one. */
typedef struct nog_limits {
    uint64_t shmmax;          /* the most bytes of a segment, 1 to 2^24, or to 2^40 */
    uint64_t shmmni;          /* the most segments, 1 to 4096, or to 32768 */
    uint64_t shmall;          /* the most pages of all segments together, 1 to 65536, or to 2^28 */
    uint64_t frames;          /* page frames, 2 to 4096, or to 2^24: pages in memory at once; the others are in swap */
    uint64_t memlock;         /* the most pages of locked segments, 0 to frames - 2 */
    uint64_t most_pieces;     /* the most pieces of a process, 1 to 65530 */
    uint64_t most_processes;  /* the most processes, 1 to 32768 */
    uint64_t most_slots;      /* the most slots of a swap area, 1 to 2^28 */
    uint64_t rules;           /* rules of Linux, a sum of nog_rule; 0: this project's profile, without any */
} nog_limits;

/* Rules of Linux: each makes the machine follow Linux in one respect in which this project's profile differs.
   The functions below describe the profile; docs/MACHINE.md has each rule. */
enum nog_rule {
    NOG_REMOVED_IS_INVALID = 1,    /* NOG_EINVAL instead of NOG_EIDRM */
    NOG_EXECUTE_IS_ASKED = 2,      /* nog_get of an existing segment: an execute bit of the mode needs execute permission */
    NOG_FORK_MARKS = 4,            /* nog_fork: the child's segments get an attach time, and the parent as last pid */
    NOG_REST_IS_ATTACHED = 8,      /* the rest of a cut piece, and a part with another protection, get an attach time */
    NOG_END_IS_ENOMEM = 16,        /* nog_attach: NOG_ENOMEM for a free range that ends above 0x7ffffffff000 */
    NOG_LOW_IS_EPERM = 32,         /* nog_attach: NOG_EPERM for a free range below 0x10000, for all but user 0 */
    NOG_NO_LAST_USER = 64,         /* nog_set: NOG_EINVAL for user or group 2^32 - 1 */
    NOG_PIECES_ARE_ENOMEM = 128,   /* nog_attach: NOG_ENOMEM instead of NOG_EMFILE, even if a remap frees a piece */
    NOG_LOCKS_BY_USER = 256,       /* nog_lock: MEMLOCK is a limit of each user but 0; NOG_EPERM if it is 0 */
    NOG_EXEC_IS_ASKED = 512,       /* nog_attach: NOG_EXEC needs execute permission, otherwise NOG_EACCES */
    NOG_HUGE_IS_REFUSED = 1024,    /* nog_get: NOG_EPERM for NOG_HUGETLB; user 0 and group 0: docs/MACHINE.md */
    NOG_LINUX = 2047               /* all of them */
};

/* A swap area: its kind and its number of slots, 1 to what the limits allow. A slot holds one page. */
enum nog_kind {
    NOG_RAM = 1,     /* a page of memory for each slot, taken when the machine is opened */
    NOG_SPARSE = 2,  /* memory only for slots that hold other bytes than zeros; a write fails if the heap has none */
    NOG_MIRROR = 3   /* two sides of NOG_RAM, kept alike: a page is read from the left one, or else from the right */
};
typedef struct nog_area {
    uint32_t kind;
    uint32_t slots;
} nog_area;

/* One read or write of a swap area that fails: the one numbered `call`, counted from 1. The two sides of a mirror count
   separately. If a write fails, the frame keeps the page, and nothing is known of the bytes in the slot. */
typedef struct nog_failure {
    uint32_t area;      /* the area's number, from 0 */
    uint32_t side;      /* 0: the area, or a mirror's left side; 1: a mirror's right side */
    uint32_t is_write;  /* 0: a read; else a write */
    uint32_t unused;    /* ignored */
    uint64_t call;
} nog_failure;

/* A process of a machine: live from the start, or a child that a fork may begin. */
typedef struct nog_process {
    uint32_t pid;      /* 1 to 2147483647 */
    uint32_t is_born;  /* 0: a child that is not born yet; it gets its user and group from its parent */
    uint32_t uid;      /* the effective user; user 0 passes each test of permission */
    uint32_t gid;      /* the effective group */
} nog_process;

/* A segment as shmctl(2) with IPC_STAT shows it. A time is the number of a call among all calls, counted from 1, or the
   number that nog_set_time gave; 0 means never. */
typedef struct nog_segment {
    uint64_t size;    /* in bytes, as its nog_get asked */
    uint64_t atime;   /* the last attach */
    uint64_t dtime;   /* the last detach */
    uint64_t ctime;   /* its creation, or the last nog_set */
    int32_t id;
    uint32_t key;     /* 0: it is private, or marked for removal */
    uint32_t uid;     /* the owner */
    uint32_t gid;
    uint32_t cuid;    /* the creator */
    uint32_t cgid;
    uint32_t mode;    /* the nine permission bits */
    uint32_t status;  /* NOG_DEST and NOG_LOCKED */
    uint32_t cpid;    /* the process that created it */
    uint32_t lpid;    /* the process of the last attach or detach; 0: none */
    uint32_t nattch;  /* its number of pieces, over all processes */
    uint32_t index;   /* its place in the table, as nog_segment_at takes it */
} nog_segment;

enum nog_status {
    NOG_DEST = 512,    /* marked for removal: it is destroyed with its last piece */
    NOG_LOCKED = 1024  /* its pages stay in their frames */
};

/* Counts of a machine and of its memory. */
typedef struct nog_tally {
    uint64_t events;    /* calls that were counted */
    uint64_t segments;
    uint64_t reserved;  /* pages of all segments */
    uint64_t locked;    /* pages of locked segments */
    uint64_t frames;
    uint64_t resident;  /* frames with a page */
    uint64_t dirty;     /* frames whose page must be written to a slot before its eviction */
    uint64_t slots;     /* slots of the active areas */
    uint64_t used;      /* slots that belong to a page */
    uint64_t ins;       /* pages that came from areas into frames */
    uint64_t outs;      /* pages written from frames to areas, by evictions and flush rounds; not those of nog_swapoff */
    uint64_t failures;  /* reads and writes of areas that failed; of a mirror, those in which no side succeeded */
} nog_tally;

/* What a flush round did. */
typedef struct nog_flushed {
    uint64_t written;  /* pages written out */
    uint64_t failed;   /* pages whose write failed: they stay in their frames */
} nog_flushed;

/* Sums over all segments, as shmctl(2) with SHM_INFO has them. The limits that IPC_INFO shows are the fields of
   nog_limits. */
typedef struct nog_usage {
    uint64_t used_ids;  /* segments, also those marked for removal */
    uint64_t pages;     /* pages of all segments; a page that was never touched is in no frame and in no slot */
    uint64_t resident;  /* pages in frames */
    uint64_t swapped;   /* pages only in slots */
    uint64_t highest;   /* the highest index that a segment holds, 0 if there is none */
} nog_usage;

/* A piece of a process, as a line of /proc/PID/maps shows a mapping. */
typedef struct nog_piece {
    uint64_t base;         /* its address */
    uint32_t segment;      /* the identifier of its segment */
    uint32_t first_page;   /* the page of the segment that lies at the address */
    uint32_t pages;
    uint32_t is_writable;  /* 1 or 0 */
    uint32_t may_write;    /* 0: it was attached with NOG_RDONLY, and nog_protect can't make it writable */
    uint32_t unused;       /* 0 */
} nog_piece;

/* A frame that has a page. */
typedef struct nog_frame {
    int32_t id;              /* the segment */
    uint32_t page;           /* its page, from 0 */
    uint32_t is_referenced;  /* 1 or 0, as the three below: the page was used since the clock's hand passed */
    uint32_t is_dirty;       /* its bytes may differ from those in its slot */
    uint32_t is_lent;        /* it is on loan */
    uint32_t is_locked;      /* its segment is locked, so the page never leaves */
} nog_frame;

/* Flags, by Linux's numbers; other bits of the 16 are ignored. */
enum nog_flag {
    NOG_CREAT = 512,       /* nog_get: IPC_CREAT */
    NOG_EXCL = 1024,       /* nog_get: IPC_EXCL */
    NOG_HUGETLB = 2048,    /* nog_get: SHM_HUGETLB, ignored without NOG_HUGE_IS_REFUSED */
    NOG_NORESERVE = 4096,  /* nog_get: SHM_NORESERVE, ignored without NOG_HUGETLB and this rule */
    NOG_RDONLY = 4096,     /* nog_attach: SHM_RDONLY */
    NOG_RND = 8192,        /* nog_attach: SHM_RND */
    NOG_REMAP = 16384,     /* nog_attach: SHM_REMAP */
    NOG_EXEC = 32768       /* nog_attach: SHM_EXEC, ignored without NOG_EXEC_IS_ASKED */
};
enum nog_key { NOG_PRIVATE = 0 };

/* ---- a machine ---- */

/* Opens a machine with 1 to 8 swap areas, numbered from 0 in their order, with a list of their reads and writes that
   fail, and with at most as many processes as the limits allow, children included. It reserves room for frames, pieces
   and slots of NOG_SPARSE, and touches none of it. A handle that is open may be opened again: on success its
   previous machine is closed, and otherwise it is kept. The first of these that applies is returned:
   NOG_BAD_SHMMAX to NOG_BAD_RULES: the first limit that is out of its range.
   NOG_OUT_OF_RANGE: a kind does not exist, a failure names an area or a side that does not exist, or its call is 0.
   NOG_BAD_AREAS, NOG_BAD_AREA_SIZE, NOG_BAD_PROCESSES, NOG_BAD_PID: the first of these.
   NOG_NO_MEMORY: the heap gave no memory. It replaces only 0, NOG_BAD_PROCESSES and NOG_BAD_PID. */
uint32_t nog_open(nog_machine *machine, const nog_limits *limits, const nog_area *areas, size_t area_count,
                  const nog_failure *failures, size_t failure_count, const nog_process *processes, size_t process_count);

/* Closes a machine and frees all its memory. */
uint32_t nog_close(nog_machine *machine);

/* ---- the calls of a process ---- */

/* shmget(2): the segment with this key, or a new one. A new one has the caller's user and group, this mode (0 to 0777),
   and all bytes zero. A key of NOG_PRIVATE always makes a new segment, whatever the flags. Another key makes
   one if no segment has the key and NOG_CREAT is set.
   NOG_OUT_OF_RANGE: the mode is above 0777, or the flags have more than 16 bits.
   If a segment is found: NOG_EEXIST, NOG_CREAT and NOG_EXCL are set; NOG_EINVAL, it has fewer bytes than
   `size`; NOG_EACCES, a permission is missing. Any read bit of `mode` asks for reading, and any write bit for writing.
   If none is found: NOG_ENOENT, the key is not NOG_PRIVATE and NOG_CREAT is not set; NOG_EINVAL, the size is 0 or above
   SHMMAX; NOG_ENOSPC, SHMALL or SHMMNI would be exceeded, or no index is free; NOG_ENOMEM, all segments would have more
   pages than the swap areas have slots.
   NOG_NO_MEMORY: the heap gave no memory. */
uint32_t nog_get(nog_machine *machine, uint32_t pid, uint32_t key, uint64_t size, uint32_t mode, uint32_t flags, int32_t *id);

/* shmat(2): attaches a segment at `addr`, or, if that is 0, at the least free range from 0x40000000 on. The address is
   put into `at`. NOG_RND rounds `addr` down to a page. NOG_RDONLY attaches only for reading. With NOG_REMAP the new
   piece replaces what lies in its range.
   NOG_OUT_OF_RANGE: the flags have more than 16 bits.
   NOG_EINVAL: the address is 0 with NOG_REMAP, or is not a multiple of 4096 without NOG_RND; or no segment ever had the
   identifier.
   NOG_EIDRM: its segment is destroyed.
   NOG_EACCES: no permission to read, or, without NOG_RDONLY, to write.
   NOG_EINVAL: the range is not within 0x10000 to 0x7ffffffff000, or NOG_REMAP is not set and the range meets a piece or
   a range that the host reserved.
   NOG_ENOMEM: no free range is large enough.
   NOG_EMFILE: the process would have more pieces than the limits allow.
   NOG_NO_MEMORY: the heap gave no memory. */
uint32_t nog_attach(nog_machine *machine, uint32_t pid, int32_t id, uint64_t addr, uint32_t flags, uint64_t *at);

/* shmdt(2): detaches the segment that was attached at `addr`, with all pieces that are left of that attachment. The
   last detach of a segment that is marked for removal destroys it.
   NOG_EINVAL: no segment was attached there. */
uint32_t nog_detach(nog_machine *machine, uint32_t pid, uint64_t addr);

/* munmap(2): detaches `len` bytes from `addr` on, rounded up to whole pages. Pieces in the range are detached, and
   those that reach beyond it are cut. Each segment that lost pages gets the detach time and the last pid. A segment that is
   marked for removal is destroyed with its last piece. With NOG_REST_IS_ATTACHED a segment of which a part of a piece
   is left gets the attach time too. If nothing is attached in the range, nothing changes.
   NOG_EINVAL: the address is not a multiple of 4096, the length is 0, or the range reaches beyond 0x7ffffffff000.
   NOG_ENOMEM: the caller would have more pieces than the limits allow. */
uint32_t nog_unmap(nog_machine *machine, uint32_t pid, uint64_t addr, uint64_t len);

/* mprotect(2): makes `len` bytes from `addr` on, rounded up to whole pages, writable, or read-only if `is_writable` is
   0. A part of a piece becomes a piece of its own, which counts in nattch, unless it touches a neighbour of the same
   attachment that already has the protection: then it joins that. A whole piece never joins another, and a piece that
   already has the protection stays as it is. No time changes without NOG_REST_IS_ATTACHED. With it a segment that has
   more pieces than before gets the attach time and the last pid. A length of 0 changes nothing. Before anything
   changes, the first of these is returned:
   NOG_EINVAL: the address is not a multiple of 4096.
   NOG_ENOMEM: the range reaches 2^64.
   Then the pages are protected from the lowest on. The first of these ends that, and what lies below has changed:
   NOG_ENOMEM: a page is not attached, or the caller would have more pieces than the limits allow.
   NOG_EACCES: a piece that was attached with NOG_RDONLY would become writable. */
uint32_t nog_protect(nog_machine *machine, uint32_t pid, uint64_t addr, uint64_t len, uint32_t is_writable);

/* shmctl(2), IPC_STAT: shows a segment.
   NOG_EINVAL: no segment ever had the identifier.
   NOG_EIDRM: its segment is destroyed.
   NOG_EACCES: no permission to read it. */
uint32_t nog_stat(nog_machine *machine, uint32_t pid, int32_t id, nog_segment *segment);

/* shmctl(2), IPC_SET: sets the owner and the nine low bits of `mode`, and the change time.
   NOG_OUT_OF_RANGE: the mode has more than 16 bits.
   NOG_EINVAL, NOG_EIDRM: as nog_stat.
   NOG_EPERM: the caller is neither owner nor creator nor user 0. */
uint32_t nog_set(nog_machine *machine, uint32_t pid, int32_t id, uint32_t uid, uint32_t gid, uint32_t mode);

/* shmctl(2), IPC_RMID: destroys a segment that is not attached. Otherwise it marks the segment for removal: its key
   becomes 0, and it is destroyed with its last piece.
   NOG_EINVAL, NOG_EIDRM, NOG_EPERM: as nog_set. */
uint32_t nog_remove(nog_machine *machine, uint32_t pid, int32_t id);

/* shmctl(2), SHM_LOCK: pages of the segment that are in memory, or come in, stay there.
   NOG_EINVAL, NOG_EIDRM, NOG_EPERM: as nog_set.
   NOG_ENOMEM: MEMLOCK would be exceeded. */
uint32_t nog_lock(nog_machine *machine, uint32_t pid, int32_t id);

/* shmctl(2), SHM_UNLOCK: pages of the segment may leave memory again.
   NOG_EINVAL, NOG_EIDRM, NOG_EPERM: as nog_set. */
uint32_t nog_unlock(nog_machine *machine, uint32_t pid, int32_t id);

/* Reads 1 to 64 bytes from `addr` on, in one step.
   NOG_OUT_OF_RANGE: the length is not 1 to 64.
   NOG_SIGSEGV: some byte is not attached.
   NOG_SIGBUS: a swap area failed; no byte of any segment changed. */
uint32_t nog_load(nog_machine *machine, uint32_t pid, uint64_t addr, void *bytes, size_t len);

/* Writes 1 to 64 bytes from `addr` on, in one step.
   NOG_OUT_OF_RANGE, NOG_SIGBUS: as nog_load.
   NOG_SIGSEGV: some byte is not attached for writing. */
uint32_t nog_store(nog_machine *machine, uint32_t pid, uint64_t addr, const void *bytes, size_t len);

/* Adds to the eight bytes from `addr` on, a number with its lowest byte first, modulo 2^64, in one step. The number
   before the addition is put into `before`. `addr` needs no alignment.
   NOG_SIGSEGV, NOG_SIGBUS: as nog_store. */
uint32_t nog_add(nog_machine *machine, uint32_t pid, uint64_t addr, uint64_t add, uint64_t *before);

/* Replaces `len` bytes from `addr` on, 1 to 64, and puts those that were there into `before`, in one step: a guest's
   atomic exchange. `before_len` must be `len`.
   NOG_OUT_OF_RANGE: the length is not 1 to 64, or the two lengths differ.
   NOG_SIGSEGV, NOG_SIGBUS: as nog_store. */
uint32_t nog_exchange(nog_machine *machine, uint32_t pid, uint64_t addr, const void *bytes, size_t len,
                      void *before, size_t before_len);

/* As nog_exchange, but it replaces the bytes only if they are the expected ones. In both cases `before` gets the bytes
   that were there: they were replaced exactly when `before` and `expected` are equal. All three lengths must be equal.
   NOG_OUT_OF_RANGE, NOG_SIGSEGV, NOG_SIGBUS: as nog_exchange. Bytes that may not be written are NOG_SIGSEGV in both
   cases. */
uint32_t nog_compare_exchange(nog_machine *machine, uint32_t pid, uint64_t addr, const void *expected,
                              size_t expected_len, const void *bytes, size_t len, void *before, size_t before_len);

/* fork(2): a child that was declared or admitted is born, with the caller's user, group and pieces.
   NOG_EAGAIN: no unborn child has the pid `child`. */
uint32_t nog_fork(nog_machine *machine, uint32_t pid, uint32_t child);

/* execve(2): detaches every piece of the caller. */
uint32_t nog_exec(nog_machine *machine, uint32_t pid);

/* exit(2): detaches every piece of the caller and ends it. Its pid may be admitted again. */
uint32_t nog_exit(nog_machine *machine, uint32_t pid);

/* setuid(2), setgid(2) and the exec of a set-user-ID program: gives the caller another effective user and group. Its
   pieces stay, and later tests of permission use the new user and group. Any caller may name any user and group. */
uint32_t nog_set_user(nog_machine *machine, uint32_t pid, uint32_t uid, uint32_t gid);

/* swapoff(2): moves the pages of an area to the others and removes the area.
   NOG_EPERM: the caller is not user 0.
   NOG_EINVAL: the area does not exist, or no longer.
   NOG_ENOMEM: the other areas have fewer slots than all segments have pages.
   NOG_EIO: a swap area failed; the area stays, and no byte changed. */
uint32_t nog_swapoff(nog_machine *machine, uint32_t pid, uint32_t area);

/* ---- changes of a machine by its host ---- */

/* None of these is a call of a process: none is counted, and none moves a page. */

/* A process joins: live with its user and group, or a child that a fork may begin. An ended process that has the pid
   gives its place to the new one. Otherwise the new one takes memory for its pieces.
   NOG_ADMIT_BAD_PID, NOG_ADMIT_TAKEN, NOG_ADMIT_MANY: the first of these. An ended process counts until it is
   dismissed.
   NOG_NO_MEMORY: the heap gave no memory. It replaces only 0. */
uint32_t nog_admit(nog_machine *machine, const nog_process *process);

/* An ended process or an unborn child leaves: its pid may be admitted again, and its room is free.
   NOG_DISMISS_NONE, NOG_DISMISS_LIVE: the first of these. */
uint32_t nog_dismiss(nog_machine *machine, uint32_t pid);

/* Reserves `len` bytes of a process's addresses from `addr` on for memory that is not the library's, such as the code,
   the heap and the stack of a guest. From then on nog_attach takes none of them unless NOG_REMAP is set: at a given
   address it returns NOG_EINVAL, and at address 0 it chooses a free range beside them. No other function looks at a
   reserved range, and it stays when the process unmaps, execs or exits. A child inherits none. The process need not
   exist yet.
   NOG_OUT_OF_RANGE: the length is 0, the address or the length is not a multiple of 4096, or the range is not within
   0x10000 to 0x7ffffffff000.
   NOG_EEXIST: the range meets a piece of the process, or another range that is reserved for it.
   NOG_NO_MEMORY: the heap gave no memory. */
uint32_t nog_reserve(nog_machine *machine, uint32_t pid, uint64_t addr, uint64_t len);

/* Releases a reserved range, of which the address and the length are those of its nog_reserve.
   NOG_OUT_OF_RANGE: the range reaches 2^64.
   NOG_ENOENT: exactly this range is not reserved for the process. */
uint32_t nog_release(nog_machine *machine, uint32_t pid, uint64_t addr, uint64_t len);

/* Calls set this number as their times from now on, until another is given. Before the first nog_set_time a time is the
   number of its call. */
uint32_t nog_set_time(nog_machine *machine, uint64_t time);

/* Gives the machine other limits, as sysctl(8) and setrlimit(2) do: SHMMAX, SHMMNI, SHMALL and MEMLOCK, each within the
   wider range of nog_limits. Segments that exist stay, even if one is larger than `shmmax` now, or if there are more
   than `shmmni`; later calls follow the new limits. The other limits never change.
   NOG_BAD_SHMMAX, NOG_BAD_SHMMNI, NOG_BAD_SHMALL, NOG_BAD_MEMLOCK: the first that is out of its range. Then:
   NOG_BAD_SHMALL: all segments have more pages than `shmall`.
   NOG_BAD_MEMLOCK: the locked segments have more pages than `memlock`, without NOG_LOCKS_BY_USER. */
uint32_t nog_set_limits(nog_machine *machine, uint64_t shmmax, uint64_t shmmni, uint64_t shmall, uint64_t memlock);

/* Adds a swap area of zeros, as swapon(8) does. It gets the next number, counted from 0 over all areas that the machine
   ever had. Each of `failures` is a call of the new area that fails, and its field `area` is 0. No byte changes, and the
   slots of the area count for segments that are made from now on.
   NOG_OUT_OF_RANGE: a kind that does not exist, or a failure of another area, of a side that the area does not have, or
   of call 0. Then:
   NOG_BAD_AREAS: the machine had 8 areas already, those that were removed included.
   NOG_BAD_AREA_SIZE: the area has no slot, or more than the limits allow.
   NOG_NO_MEMORY: the heap gave no memory. It replaces only 0. */
uint32_t nog_swapon(nog_machine *machine, const nog_area *area, const nog_failure *failures, size_t failure_count);

/* Makes a read or a write of a swap area fail while the machine runs: the one numbered `call`, counted from now on, so
   1 is the next. If `is_lasting` is not 0, every later one fails too. Those that were to fail before still do. Nothing else
   changes: no byte, no page's place, and no count.
   NOG_OUT_OF_RANGE: the area does not exist, or no longer, or does not have the side, or the call is 0.
   NOG_NO_MEMORY: the heap gave no memory. */
uint32_t nog_fail(nog_machine *machine, const nog_failure *failure, uint32_t is_lasting);

/* Makes each read of a slot fail, as a bad sector does: of the slot that the page has now. A page in a frame may have
   one too. A write into the slot ends that, and so does the end of the slot's use: its segment is destroyed, or the page
   moves to another area. In a mirror both sides fail. Nothing else changes.
   NOG_EINVAL: no segment has the identifier.
   NOG_OUT_OF_RANGE: the segment has no such page.
   NOG_ENOENT: the page is in no slot.
   NOG_NO_MEMORY: the heap gave no memory. */
uint32_t nog_fail_page(nog_machine *machine, int32_t id, uint32_t page);

/* Puts a snapshot into `copy`: a machine with the same state and memory, whose swap areas have the same pages and will
   fail at the same reads and writes. The two are independent from then on. A machine that was in `copy` is closed.
   `copy` may be the handle `machine` itself, which does not change then.
   NOG_LENT: a page is on loan, and neither handle changed.
   NOG_NO_MEMORY: the heap gave no memory, and neither handle changed. */
uint32_t nog_snapshot(nog_machine *machine, nog_machine *copy);

/* ---- accesses of any length ---- */

/* Reads `len` bytes from `addr` on by one load for each page of addresses. Each load is a call of its own and is
   counted; a length of 0 makes none. It ends at the first load that fails, with that code; `bytes` then has the bytes
   of the loads before it. The number of bytes read is put into `done`, whatever the code, except at NOG_CLOSED.
   The codes are those of nog_load without NOG_OUT_OF_RANGE. An address past 2^64 - 1 is NOG_SIGSEGV, and that load is
   not counted. */
uint32_t nog_read(nog_machine *machine, uint32_t pid, uint64_t addr, void *bytes, size_t len, uint64_t *done);

/* Writes `len` bytes by stores, as nog_read reads them by loads, with the codes of nog_store. The first `done` bytes
   were stored and stay stored, whatever the code, also at NOG_SPENT. */
uint32_t nog_write(nog_machine *machine, uint32_t pid, uint64_t addr, const void *bytes, size_t len, uint64_t *done);

/* Copies `len` bytes of one process to another, or to the same one. It does a nog_read of all of them, and then a
   nog_write of those that were read, so the ranges may overlap. The number of bytes written is put into `done`, except
   at NOG_CLOSED and NOG_NO_MEMORY. The code is that of the write if it failed, and otherwise that of the read.
   NOG_NO_MEMORY: the heap gave no memory for the bytes between the two, and nothing changed. */
uint32_t nog_copy(nog_machine *machine, uint32_t from, uint64_t from_addr, uint32_t to, uint64_t to_addr, uint64_t len,
                  uint64_t *done);

/* ---- pages on loan ---- */

/* An emulator or a kernel may keep copies of pages where its guests reach them by a pointer. It borrows a page, lets
   the guests use the copy, and gives it back. A page on loan stays in its frame, so only as many pages are out as there
   are frames. The machine's clock chooses the page that has to come back first, and its swap areas keep the others.
   None of these functions is a call of a process.

   While pages are on loan, a call that reads or writes bytes (nog_load to nog_compare_exchange, nog_read, nog_write and
   nog_copy) returns NOG_LENT if it would touch one or evict one. No byte changes then, and the call is not counted. If
   it has two pages, the first may have come in; if a pager fails at that, the code is NOG_SIGBUS, and the call is not
   counted either. When a segment ends, so do the loans of its pages. */

/* Lends a page: it comes in as by a load, and its 4096 bytes are copied to `bytes`. From then on it is on loan.
   NOG_OUT_OF_RANGE: `len` is not 4096.
   NOG_EINVAL: no segment has the identifier.
   NOG_OUT_OF_RANGE: the segment has no such page.
   NOG_LENT: the page is on loan, or the page that nog_leaver shows is, and would have to leave.
   NOG_SIGBUS: a pager failed. */
uint32_t nog_lend(nog_machine *machine, int32_t id, uint32_t page, void *bytes, size_t len);

/* Takes a page back, with the 4096 bytes that it has now, or with none if they did not change (`len` 0). With bytes the
   frame becomes dirty. No page moves, and no referenced bit changes.
   NOG_OUT_OF_RANGE: `len` is neither 0 nor 4096.
   NOG_EINVAL: no segment has the identifier.
   NOG_OUT_OF_RANGE: the page is not on loan. */
uint32_t nog_give_back(nog_machine *machine, int32_t id, uint32_t page, const void *bytes, size_t len);

/* The frame whose page would leave if a page came in now. Once this page is back, bringing another one in evicts it and
   no other page.
   NOG_OUT_OF_RANGE: a frame is free, so no page would leave. */
uint32_t nog_leaver(nog_machine *machine, nog_frame *frame);

/* The frame that the clock's hand meets after `place` others. When a page comes in, those before the leaver lose their
   referenced bit; if the leaver is referenced itself, all do. Frames of locked segments keep theirs.
   NOG_OUT_OF_RANGE: there are not that many frames, or this one is free. */
uint32_t nog_frame_at(nog_machine *machine, uint32_t place, nog_frame *frame);

/* The segment and page that an address of a process shows. `is_writable` gets 1 if the process may write there, else 0.
   NOG_ESRCH: no live process has the pid.
   NOG_SIGSEGV: nothing is attached at the address. */
uint32_t nog_page_at(nog_machine *machine, uint32_t pid, uint64_t addr, int32_t *id, uint32_t *page,
                     uint32_t *is_writable);

/* How many pages are on loan. */
uint32_t nog_loans(nog_machine *machine, uint64_t *pages);

/* ---- lookups of the host ---- */

/* Lookups for an emulator that keeps memory, segments or tables of its own. None of these functions is a call of a
   process, and none changes the machine. nog_page_at, above, and nog_failed_at, below, are two more: if nog_failed_at
   returns NOG_OUT_OF_RANGE, each byte of the range is attached, and writable if `is_write` is not 0. */

/* The piece of a live process that an address is in.
   NOG_ESRCH: no live process has the pid.
   NOG_SIGSEGV: nothing is attached at the address. */
uint32_t nog_piece_of(nog_machine *machine, uint32_t pid, uint64_t addr, nog_piece *piece);

/* The segment of an identifier, as nog_stat shows it, without a test of permission. The machine's rules do not matter.
   NOG_EINVAL: no segment ever had the identifier.
   NOG_EIDRM: its segment is destroyed. */
uint32_t nog_segment_of(nog_machine *machine, int32_t id, nog_segment *segment);

/* The limits of the machine: those that it was opened with, or those of the last nog_set_limits. */
uint32_t nog_limits_of(nog_machine *machine, nog_limits *limits);

/* How many pages of a segment are in frames, and how many only in slots, as /proc/sysvipc/shm shows them. Its time
   grows with the pages of the segment that were ever touched, and with the slots that were ever used.
   NOG_EINVAL: no segment has the identifier. */
uint32_t nog_pages_of(nog_machine *machine, int32_t id, uint64_t *resident, uint64_t *swapped);

/* Reports a destroyed segment, so that a program that keeps something for each segment knows what to free. `told` is
   the caller's: for each index of the table of segments, how many of the segments that were destroyed there have been
   reported. All counts begin with 0. If a count is too low, the identifier is put into `id`, and the count rises by 1.
   So repeated calls report each destroyed segment once, by rising index, until they return NOG_OUT_OF_RANGE. No
   identifier is used twice. A count for each index that nog_indexes counts is enough; when the table has grown, add
   counts of 0. Its time grows with the indexes.
   NOG_TOO_FEW_COUNTS: there are fewer counts than indexes. Nothing was reported, and no count changed.
   NOG_OUT_OF_RANGE: each destroyed segment has been reported. */
uint32_t nog_gone(nog_machine *machine, uint32_t *told, size_t told_count, int32_t *id);

/* A count of changes of a process's pieces, so that a program that keeps them, as in page tables, knows when to read them
   again. Each nog_attach, nog_detach, nog_unmap, nog_protect, nog_exec and nog_exit of the process raises it, and each
   nog_fork of it as the child, even if the call fails. As long as the count is the same, so are the pieces. Processes
   whose pids have the same remainder modulo 64 share a count, so it may also rise without a change. It does not matter
   whether a live process has the pid. */
uint32_t nog_changes(nog_machine *machine, uint32_t pid, uint64_t *count);

/* ---- the machine's memory, and its state ---- */

/* A flush round: writes the first `pages` dirty frames out to swap, except those of locked segments. It is not a call
   of a process and changes no byte of any segment. A failed write is counted in `flushed`, and the code is 0. */
uint32_t nog_flush(nog_machine *machine, uint64_t pages, nog_flushed *flushed);

/* The counts of a machine and of its memory. */
uint32_t nog_tally_of(nog_machine *machine, nog_tally *tally);

/* How many indexes of the table of segments were ever used. nog_segment_at finds no segment from there on. */
uint32_t nog_indexes(nog_machine *machine, uint32_t *indexes);

/* The segment at an index of the table, as nog_stat shows it, without a test of permission (SHM_STAT_ANY).
   NOG_OUT_OF_RANGE: no segment of the open machine has the index. */
uint32_t nog_segment_at(nog_machine *machine, uint32_t index, nog_segment *segment);

/* The segment at an index of the table as a process may see it, as shmctl(2) with SHM_STAT shows it.
   NOG_ESRCH: no live process has the pid.
   NOG_EINVAL: no segment has the index.
   NOG_EACCES: no permission to read it. */
uint32_t nog_stat_at(nog_machine *machine, uint32_t pid, uint32_t index, nog_segment *segment);

/* Sums over all segments, and the highest index. Its time grows with the pages that were ever touched. */
uint32_t nog_info(nog_machine *machine, nog_usage *usage);

/* A piece of a live process, by its number among the process's pieces, from 0 on by rising address. The first of these
   is returned:
   NOG_ESRCH: no live process has the pid.
   NOG_OUT_OF_RANGE: the process has no piece with this number. */
uint32_t nog_piece_at(nog_machine *machine, uint32_t pid, uint32_t index, nog_piece *piece);

/* A process, by its number among the processes, from 0 on. The last process gets the number of one that is dismissed.
   `is_born` is 1 for a live process, 0 for an unborn child, and 2 for an ended process. User and group are 0 unless it
   is live.
   NOG_OUT_OF_RANGE: there is no process with this number. */
uint32_t nog_process_at(nog_machine *machine, uint32_t index, nog_process *process);

/* Where an access of `len` bytes from `addr` on is NOG_SIGSEGV: the address of its first byte that is not attached, or,
   if `is_write` is not 0, not attached for writing. A process that is not live has no byte attached.
   NOG_OUT_OF_RANGE: there is no such byte. */
uint32_t nog_failed_at(nog_machine *machine, uint32_t pid, uint64_t addr, uint64_t len, uint32_t is_write, uint64_t *at);

/* Where an access of `len` bytes from `addr` on was NOG_SIGBUS. Asked right after the access, this is the address of
   its first byte whose page is in no frame, if each byte before it is attached: that page did not come in.
   NOG_OUT_OF_RANGE: there is no such byte. */
uint32_t nog_absent_at(nog_machine *machine, uint32_t pid, uint64_t addr, uint64_t len, uint64_t *at);

/* How many calls of processes were made. A call that fails counts, but one that found no memory does not. */
uint32_t nog_calls(nog_machine *machine, uint64_t *calls);

/* ---- the library ---- */

/* The text of a code, ended by a zero and cut to `size` - 1 bytes. Its whole length is put into `len`. The text of an
   error of errno(3) or of a signal is its name, such as EINVAL. If `size` is 0, only `len` is written.
   nogcuvema_names.h has the name of each code, such as "NOG_LENT".
   NOG_OUT_OF_RANGE: no function returns this code. */
uint32_t nog_text(uint32_t code, void *text, size_t size, size_t *len);

/* The version of the library, in the form of NOG_VERSION. */
uint32_t nog_version(void);

/* The sizes and offsets of the library's structs, to compare a binding with. `which` is 0 nog_machine, 1 nog_limits, 2
   nog_area, 3 nog_failure, 4 nog_process, 5 nog_segment, 6 nog_tally, 7 nog_flushed, 8 nog_usage, 9 nog_piece, 10 nog_frame.
   `field` 0 asks for the size of the struct, and a number from 1 on for the offset of that field, in bytes.
   NOG_OUT_OF_RANGE: there is no such struct or field. */
uint32_t nog_layout(uint32_t which, uint32_t field, size_t *value);

#ifdef __cplusplus
}
#endif

#endif

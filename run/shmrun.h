/* shmrun: programs of Linux whose System V shared memory is a machine of the library.

   start.c     the first process, signals, the exit status          segments.c  the bytes: a file in memory for each segment
   options.c   the words of the command line                        views.c     the files of /proc that show segments and limits
   filter.c    the seccomp filter: which system calls stop          users.c     the processes of the machine, and their users
   tracing.c   threads and processes: fork, exec, exit, signals     failures.c  calls that fail on demand
   remote.c    what a stopped thread does and has
   calls.c     shmget, shmat, shmdt and shmctl                      record.c    what was called, as a script and a log
   mappings.c  munmap, mremap, mprotect, mmap and madvise
   With --frames, few pages of segments are in memory:
   paging.c    how a page comes and leaves                          faults.c    accesses to pages that are not there
   past.c      system calls that go past the page tables            blocks.c    swap areas in a file

   One thread, the tracer, handles one stop at a time, so each call is one step of the machine. An attach is made in the program
   first and then in the machine, and a detach in the machine first. So whatever the machine has attached is mapped, also while
   other threads of the program run. */
#ifndef SHMRUN_H
#define SHMRUN_H

#include <nogcuvema.h>
#include <signal.h>
#include <stdbool.h>
#include <stddef.h>
#include <stdint.h>
#include <stdio.h>
#include <sys/ptrace.h>
#include <sys/syscall.h>
#include <sys/types.h>
#include <sys/user.h>

enum { MOST_AREAS = 8, MOST_FAILURES = 1024 };
enum { PAGE = 4096 };
enum { NOT_LOCKED = 4 };  /* frames: a copy between two addresses that are not aligned needs this many pages at once */
/* statuses of our own: before the command runs, in the middle of a run, and of a command that does not run */
enum { CANNOT_START = 125, CANNOT_GO_ON = 125, CANNOT_RUN = 126, NOT_FOUND = 127 };
#define END_OF_ADDRESSES UINT64_C(0x7ffffffff000)
#define LOWEST_ADDRESS UINT64_C(0x10000)

static inline uint64_t least(uint64_t a, uint64_t b) { return a < b ? a : b; }
static inline uint64_t most(uint64_t a, uint64_t b) { return a > b ? a : b; }
/* a length in whole pages */
static inline uint64_t pages_of(uint64_t length) { return length / PAGE * PAGE + (length % PAGE ? PAGE : 0); }
static inline uint64_t end_of(const nog_piece *piece) { return piece->base + (uint64_t)piece->pages * PAGE; }
/* where the piece's attach would begin */
static inline uint64_t origin_of(const nog_piece *piece) { return piece->base - (uint64_t)piece->first_page * PAGE; }

extern struct options {
    nog_limits limits;
    bool has_limits;     /* they were given */
    const char *record;  /* the beginning of the names of the record's files, or null */
    uint64_t seed;       /* of failures by chance */
    uint64_t frames;     /* the most pages of segments in memory; 0: any number, and the options below do not matter */
    nog_area areas[MOST_AREAS];
    nog_failure failures[MOST_FAILURES];  /* of the areas */
    size_t area_count, failure_count;
    const char *swap_file;
    char **command;
} options;
void read_options(int argc, char **argv);
/* The machine's rules as a script names them; it has one, or more. */
const char *words_of_rules(void);

/* start.c. If shmrun ends, each program that it traces is killed. */
void *allocate(size_t size);
void check_command(pid_t pid);
/* A descriptor of ours for a file that a process has open; -1 and errno. */
int take_file(pid_t tgid, int number);
extern nog_machine machine;
/* 0 or the negative number of an error, as a system call returns it. A code that is no errno ends shmrun. */
int64_t reply_of(uint32_t code);

/* A process of the machine: whose calls they are, or whose attachments. */
struct guest {
    uint32_t pid;
    bool is_admitted;      /* the machine has it: from its first call on, or from the fork that gave it attachments */
    int uses;              /* processes that are it, those whose address space is its, and the call that is made */
    uint32_t uid, gid;     /* as the machine has them */
    bool has_advice;       /* its children do not inherit all of its memory */
    /* with --frames */
    int faults;            /* the userfaultfd of its attachments; 0: none */
    bool is_to_be_watched; /* a fork made it, and its first thread has not yet stopped */
    uint64_t instruction;  /* the address of an instruction in its memory that makes a system call */
    pid_t failing;         /* the thread that is at a page which an area failed to bring; 0: none */
    uint64_t failed_page;  /* the page's address */
};
struct process {
    pid_t tgid;
    struct guest *self;    /* who calls */
    struct guest *space;   /* who has the attachments: another process's after vfork and clone with CLONE_VM */
    int threads;
};
struct task {
    pid_t tid;
    struct process *process;  /* null: it stopped before its maker's stop was seen */
    bool is_user_known;       /* false: uid and gid, the effective ones, must be read anew */
    uint32_t uid, gid;
    /* a call that is to stop at its exit: two arguments, to put back */
    bool is_watched;
    unsigned long long second, third;
    int repeats;
    struct task *next;
};

/* users.c */
struct guest *new_guest(uint32_t pid);
void release_guest(struct guest *guest);
/* The machine has the guest from now on, with the thread's user. */
void enter(struct task *task, struct guest *guest);
/* A child that a fork made is in the machine with its parent's attachments, if there are any. */
void inherit(struct task *maker, struct guest *parent, struct guest *child);
/* A file in the process's folder of /proc; null if it has ended. */
FILE *file_of_process(pid_t pid, const char *name);
bool has_pieces(const struct guest *guest);
/* The first piece in a range. */
bool find_piece(const struct guest *guest, uint64_t begin, uint64_t end, nog_piece *piece);
bool is_attached(const struct guest *guest, uint64_t begin, uint64_t length);

/* filter.c: in the first process; returns the descriptor of the filter's listener. A thread asks the listener for a file by a
   call that Linux does not have, with the secret as its first argument, so that no program does that by chance. */
enum { ASK_FOR_FILE = SYS_tuxcall };
extern uint32_t secret;
int install_filter(void);

/* remote.c: a thread at the entry of a system call */
struct call {
    struct task *task;             /* not after the thread is gone */
    pid_t tid, tgid;
    struct guest *self, *space;
    struct user_regs_struct regs;  /* as the program has them */
    long number;
    uint64_t args[6], old_mask;
    uint64_t instruction;          /* one that makes a system call */
    enum { AT_ENTRY, AT_EXIT, GONE } where;
    bool has_threads, is_masked, has_missed_stop;
};
extern int listener;
/* At the entry of a call, or at another stop, from where the thread can make calls too. */
void begin_call(struct call *call, struct task *task);
void begin_stop(struct call *call, struct task *task);
/* Makes a system call in the program; a negative number is its error. */
int64_t run_in(struct call *call, long number, uint64_t a, uint64_t b, uint64_t c, uint64_t d, uint64_t e, uint64_t f);
int64_t run_as_made(struct call *call);
static inline bool is_error(int64_t result) { return result < 0 && result > -PAGE; }
/* Puts a file into the program; returns its descriptor there, which is closed at an exec if `flags` is O_CLOEXEC. */
int64_t give_file(struct call *call, int file, uint32_t flags);
/* Lets the program continue: with a result, or with the call that it made. */
void answer(struct call *call, int64_t result);
void let_pass(struct call *call);
/* As it was before the call, with a signal or none. */
void leave_call(struct call *call, siginfo_t *signal);
bool read_memory(const struct call *call, uint64_t from, void *to, size_t size);
bool write_memory(const struct call *call, uint64_t to, const void *from, size_t size);
/* A text of the program, ended by a zero and cut to `size` - 1 bytes. */
bool read_text(const struct call *call, uint64_t from, char *to, size_t size);

/* tracing.c */
/* Runs until the last process has ended; returns the wait status of `first`. */
int trace_all(pid_t first);
void resume(pid_t tid, enum __ptrace_request request, int signal);
/* What waitpid showed of a thread: a stop or its end. */
void handle_status(pid_t tid, int status);
/* Handles the ends of a process's threads that can be seen now. */
void take_ends(pid_t tgid);
struct task *find_task(pid_t tid);

/* A call of the machine, and its reply. */
struct event {
    enum kind { GET, ATTACH, DETACH, CONTROL, STAT, SET, REMOVE, LOCK, UNLOCK, INFO, KINDS_THAT_FAIL,
                FORK = KINDS_THAT_FAIL, EXEC, EXIT, UNMAP, PROTECT, SET_USER } kind;
    uint32_t pid, key, mode, flags, uid, gid, child, is_writable;
    int32_t id;
    uint64_t size, address;
    int64_t result;           /* as the program gets it: an identifier, an address or 0, or the negative number of an error */
    nog_segment segment;      /* of stat */
    bool is_dropped;          /* refused for a reason that a script does not have */
    bool is_unclear;          /* stat shows what a script does not have */
};
/* as a script names them, and --fail */
extern const char *const call_names[];
/* Makes the call on a machine, and notes its result. */
void make_call(nog_machine *on, struct event *event);
/* Makes a call on our machine, and records it. */
int64_t perform(struct event *event);

/* calls.c, mappings.c, views.c */
void handle_call(struct task *task);
void do_unmap(struct call *call);
void do_map_fixed(struct call *call);
void do_move(struct call *call);
void do_protect(struct call *call);
void do_advise(struct call *call);
void do_open(struct call *call);
void do_remap_pages(struct call *call);
/* Takes a range out of the machine's attachments, or all that is not in the memory of a new process. */
void forget_range(struct guest *guest, uint64_t begin, uint64_t end);
void forget_gaps(struct guest *guest, pid_t pid);

/* segments.c */
/* A descriptor of the segment's bytes; -1 and errno: there is none. */
int file_of(const nog_segment *segment);
/* The same file for reading only, which the caller closes; -1 and errno. */
int open_for_reading(int file);
/* How many of a segment's pages are in memory, and how many only in swap areas. */
struct residency { uint64_t resident, swapped; };
struct residency residency_of(int32_t id);
/* Closes the files of segments that the machine has no more. */
void close_destroyed(void);

/* paging.c */
void open_paging(void);
/* A thread at a page that is not there, or we (0) for it, and since when. */
struct fault { const struct guest *space; pid_t tid; uint64_t address, since; };
/* Brings the page. LOST: the program's memory changes just now: try again. LATER: its frame is that of another thread, which may
   not have used it yet: try again. FAILED: an area failed, or there is no memory for the page. */
enum brought { CAME, WAS_THERE, NOT_ATTACHED, LOST, LATER, FAILED };
enum brought bring(const struct fault *fault);
uint64_t now_us(void);
/* Brings the page that an address shows, if it is attached: false if it does not come. It stays until another page is brought. */
bool is_there(const struct guest *space, uint64_t address);
/* Brings a page, which stays until the thread has ended, or for a while. Whether it was there. */
bool keep_there(const struct guest *space, pid_t tid, uint64_t address);
/* The segment is destroyed. */
void forget_pages(int32_t id);

/* blocks.c */
void open_swap_file(const char *path);
/* Large blocks of the heap are in the file from now on, or no longer. */
void use_swap_file(bool is_to_be_used);

/* faults.c */
void check_faults(void);
pid_t start_keeper(int argc, char **argv);
void open_poller(void);
/* Waits until a thread has stopped or ended, and handles faults until then. */
void serve_faults(void);
/* The caller's address space has a userfaultfd from now on: false if it can't. */
bool open_faults(struct call *call);
void close_faults(struct guest *space);
/* From now on a hole in a range of the space is a fault. */
bool watch(const struct guest *space, uint64_t begin, uint64_t length);
/* If the thread is the first of a child of a fork: watches its attachments and lets it continue. */
bool watch_child(struct task *task);
/* If an area failed the thread: its access ends in SIGBUS, its system call in EFAULT. It continues. */
bool end_failed_access(struct task *task);
bool end_failed_call(struct task *task);

/* past.c */
void do_futex(struct call *call);
void do_set_flags(struct call *call);
void open_without_cache(struct call *call, int argument);
/* Before the command starts: takes O_DIRECT off all files that it inherits. */
void give_inherited_cache(void);
void do_copy_memory(struct call *call);
void end_watched_call(struct task *task);
/* Before a thread ends: the pages of the robust mutexes that it has are there until then. */
void keep_robust(struct task *task);

/* failures.c: adds a rule such as shmat:3=ENOMEM; returns what is wrong with it, or null */
const char *add_failure(const char *rule);
/* The error that a call is to fail with, or 0. */
int failure_of(enum kind kind);

/* record.c */
void record(struct event event);
void record_process(const nog_process *process);
void note_left_out(const char *what);
void write_record(void);

#endif

/* A user-mode emulator of x86-64 Linux, by Unicorn. Its guests' shared memory is a machine of Nogcuvema. */
#ifndef EMULATOR_H
#define EMULATOR_H
#include <stdbool.h>
#include <stddef.h>
#include <stdint.h>
#include <unicorn/unicorn.h>
#include <nogcuvema.h>
#include <nogcuvema_linux.h>

enum { PAGE = 4096, MOST_FRAMES = 4096, MOST_PROCESSES = 64, MOST_FILES = 32, NO_FILE = -1, ARGUMENTS = 6 };
/* what a call returns that has to wait; the loop makes it again at the process's next turn */
#define WAITS INT64_MIN

struct process {
    uint32_t pid, parent, uid, gid;                   /* pid 0: there is no process */
    bool has_ended, is_calling;
    enum { AWAKE, ASLEEP, WOKEN } sleep;              /* at a futex */
    int status, signal;                               /* as wait4 tells; the signal that ends this turn */
    uc_engine *engine;                                /* has the memory of the process */
    uint64_t heap_end, most_heap, next_map, next_pc, blocks_left;  /* blocks_left: of its turn */
    uint64_t number, arguments[ARGUMENTS], futex;     /* the call that it makes; where it sleeps */
    int files[MOST_FILES];                            /* each a file of the host, or NO_FILE */
};

extern nog_machine machine;
extern nog_limits limits;
extern struct process processes[MOST_PROCESSES];

_Noreturn void die(const char *what, const char *why);
void must(uint32_t code, const char *what);
void must_run(uc_err error, const char *what);

/* process.c */
struct process *find_process(uint32_t pid);
void add_memory(struct process *process, uint64_t base, uint64_t len);
void load_program(struct process *process, const char *path);
int64_t fork_process(struct process *parent, uint64_t child_id);
int64_t end_process(struct process *process, int status);
void reap_orphans(void);
int64_t wait_for(struct process *parent, int32_t pid, uint64_t status);
int64_t close_file(struct process *process, uint64_t file);

/* shared.c: pages on loan */
bool show_page(struct process *process, uint64_t addr, bool is_write);
void forget_pages(struct process *process);
int copy_from_guest(void *process, uint64_t addr, void *bytes, size_t len);
int copy_to_guest(void *process, uint64_t addr, const void *bytes, size_t len);

/* calls.c */
int64_t make_call(struct process *process);
void add_hooks(struct process *process);

#endif

/* A teaching kernel for x86-64 whose System V shared memory is libnogcuvema. docs/KERNEL.md goes through it.

   boot.S     from multiboot to 64 bits           process.c  processes: fork, exit, wait, and who runs next
   entry.S    interrupts, system calls, switches  calls.c    system calls by Linux's numbers, and pipes
   main.c     the start, and the programs         shared.c   shared memory: the machine and its calls
   console.c  the serial port                     loans.c    pages on loan: what faults in attachments need
   memory.c   malloc, and pages                   traps.c    interrupts and faults
   tables.c   page tables

   There is one processor. Interrupts are on only while a program runs, so all that it does is one step. */
#ifndef KERNEL_H
#define KERNEL_H

#include <nogcuvema.h>
#include <stdbool.h>
#include <stddef.h>
#include <stdint.h>
#include <string.h>

enum { PAGE = 4096, STACK = 32768, PROCESSES = 64, FILES = 32, TIMER_HZ = 1000, SYSTEM_CALL = 256 };
#define BASE 0xffffffff80000000u         /* physical memory is mapped from here on */
#define PROGRAM 0x7f0000000000u          /* programs and their stacks lie from here on, attachments below */
#define PROGRAM_STACK 0x7f0010000000u
#define END_OF_ADDRESSES 0x7ffffffff000u

static inline void *kernel_address(uint64_t physical) { return (void *)(BASE + physical); }
static inline uint64_t physical_address(const void *at) { return (uint64_t)at - BASE; }
static inline void write_port(uint16_t port, uint8_t value) {
    __asm__ volatile("outb %0, %1" : : "a"(value), "Nd"(port));
}
static inline uint8_t read_port(uint16_t port) {
    uint8_t value;
    __asm__ volatile("inb %1, %0" : "=a"(value) : "Nd"(port));
    return value;
}

/* What entry.S leaves on the stack: a program's registers. FXSAVE needs fpu at a multiple of 16. */
struct frame {
    uint8_t fpu[512];
    uint64_t r15, r14, r13, r12, r11, r10, r9, r8, rbp, rdi, rsi, rdx, rcx, rbx, rax;
    uint64_t vector, error, rip, cs, rflags, rsp, ss;
};

/* console.c: a format has %s, %u and %x, the last two for 64 bits */
void open_console(void);
void put_char(char c);
void print(const char *format, ...);
__attribute__((noreturn)) void power_off(int status);
__attribute__((noreturn)) void stop(const char *why);

/* memory.c */
void open_memory(uint64_t begin, uint64_t end);
void *malloc(size_t size);
void *realloc(void *old, size_t size);
void free(void *old);
void *take_page(void);  /* a page of zeros; null: there is none */
void free_page(void *page);

/* tables.c: the bits of an entry. LENT is ours: the page is one on loan. */
enum { PRESENT = 1, WRITABLE = 2, USER = 4, ACCESSED = 32, DIRTY = 64, LENT = 512 };
#define NO_EXECUTE (UINT64_C(1) << 63)
#define FRAME_BITS UINT64_C(0xffffffffff000)
static inline void *page_of(uint64_t entry) { return kernel_address(entry & FRAME_BITS); }
uint64_t *new_tables(void);
/* Returns the entry of an address, or null if there is no table for it and none can be made. */
uint64_t *entry_at(uint64_t *tables, uint64_t address, bool is_made);
/* Both return whether all could be done. each_entry stops at the first entry of which that is not true. */
typedef bool visit(uint64_t *entry, uint64_t address, void *with);
bool each_entry(uint64_t *tables, visit *act, void *with);
/* Copies all pages but those on loan. Returns whether there was memory for it. */
bool copy_memory(uint64_t *to, uint64_t *from);
void free_tables(uint64_t *tables);
void use_tables(const uint64_t *tables);

/* process.c */
struct process {
    enum { UNUSED, READY, ASLEEP, ENDED } state;
    uint32_t pid, uid, gid;
    int status;             /* of an ended process, as wait4(2) returns it */
    struct process *parent;
    const void *awaited;    /* what it sleeps for */
    uint64_t *tables;
    uint8_t *stack;         /* in the kernel */
    uint64_t stack_pointer;
    uint8_t files[FILES];   /* 0: none, 1: the console, else an end of a pipe */
    const char *name;
};
extern struct process processes[PROCESSES], *current;
extern uint64_t ended_turns;  /* of processes that could have gone on */
struct process *start_program(const void *file, const char *name);
int64_t fork(const struct frame *frame);
__attribute__((noreturn)) void end_process(int status);
/* Reaps a child that has ended and returns its pid; 0 if none has ended, -1 if there is no child. */
int64_t reap(struct process *parent, int *status);
void sleep_for(const void *what);
void wake(const void *what);
void yield(void);

/* calls.c */
int64_t answer_call(struct frame *frame);
/* Returns the kernel's address of a byte of the current process, or null if that may not be accessed so. */
uint8_t *byte_of_program(uint64_t address, bool is_store);
int copy_from_program(void *process, uint64_t address, void *bytes, size_t length);
int copy_to_program(void *process, uint64_t address, const void *bytes, size_t length);
void use_files(const struct process *process, int change);

/* traps.c */
void open_traps(void);
void set_kernel_stack(uint64_t top);

/* shared.c */
enum call { READ = 0, WRITE = 1, PROTECT = 10, UNMAP = 11, PIPE = 22, YIELD = 24, GET = 29, ATTACH = 30,
    CONTROL = 31, GET_PID = 39, FORK = 57, EXIT = 60, WAIT = 61, DETACH = 67, SET_USER = 105,
    SET_GROUP = 106 };
enum { EPERM = 1, EBADF = 9, ECHILD = 10, EAGAIN = 11, ENOMEM = 12, EFAULT = 14, EINVAL = 22, EMFILE = 24,
    EPIPE = 32, ENOSYS = 38 };
enum { SIGILL = 4, SIGBUS = 7, SIGFPE = 8, SIGSEGV = 11 };
extern nog_machine machine;
void open_shared(const char *words);
bool admit(const struct process *process, const struct process *parent);
void dismiss(uint32_t pid);
void leave_shared(struct process *process);
int64_t set_user(uint32_t uid, uint32_t gid);
int64_t answer_shared_call(enum call call, uint64_t a, uint64_t b, uint64_t c);

/* loans.c */
void open_loans(uint64_t frames, bool is_to_be_traced);
/* Puts the page that an address shows into the page table. Returns 0, or the signal that the access gets. */
int bring(struct process *process, uint64_t address, bool is_store);
/* Takes all entries of pages on loan out of a process's page table. */
void forget_entries(struct process *process);
/* Forgets the loans of segments that have been destroyed. */
void forget_ended(void);
void print_loans(void);
#endif

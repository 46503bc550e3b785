/* Interrupts and faults: the processor's tables, the timer, and what is done when one comes. */
#include "kernel.h"

enum { VECTORS = 48, ENTRY_SIZE = 16, TIMER = 32, IS_STORE = 2 };
enum { DIVISION = 0, INVALID_OPCODE = 6, PAGE_FAULT = 14, X87_ERROR = 16, SSE_ERROR = 19 };
struct gate { uint16_t low, segment, kind, middle; uint32_t high, unused; };
struct __attribute__((packed)) task_state {
    uint32_t unused;
    uint64_t stack;  /* the kernel's, for an interrupt of a program */
    uint8_t rest[92];
} task_state;
struct __attribute__((packed)) table_pointer { uint16_t limit; uint64_t base; };
static struct gate gates[VECTORS];
extern const uint8_t entries[], enter_by_call[];
extern uint64_t segments[];  /* of boot.S, by its physical address */

static void write_register(uint32_t number, uint64_t value) {
    __asm__ volatile("wrmsr" : : "c"(number), "a"((uint32_t)value), "d"((uint32_t)(value >> 32)));
}

static void open_segments(void) {
    enum { TASK = 5, TASK_SELECTOR = TASK * 8, LAST = TASK + 2 };
    uint64_t *table = kernel_address((uint64_t)segments), base = (uint64_t)&task_state;
    table[TASK] = (base & 0xffffff) << 16 | base >> 24 << 56 | 0x89ull << 40 | (sizeof task_state - 1);
    table[TASK + 1] = base >> 32;
    struct table_pointer pointer = {LAST * 8 - 1, (uint64_t)table};
    __asm__ volatile("lgdt %0; ltr %w1" : : "m"(pointer), "r"(TASK_SELECTOR));
}

static void open_gates(void) {
    for (int i = 0; i < VECTORS; i++) {
        uint64_t at = (uint64_t)entries + (uint64_t)i * ENTRY_SIZE;
        gates[i] = (struct gate){(uint16_t)at, 8, 0x8e00, (uint16_t)(at >> 16), (uint32_t)(at >> 32), 0};
    }
    struct table_pointer pointer = {sizeof gates - 1, (uint64_t)gates};
    __asm__ volatile("lidt %0" : : "m"(pointer));
    write_register(0xc0000081, 8ull << 32);                /* STAR: the kernel's segments */
    write_register(0xc0000082, (uint64_t)enter_by_call);   /* LSTAR */
    write_register(0xc0000084, 0x47700);                   /* SFMASK: interrupts off, and other flags */
}

/* The two interrupt controllers send their interrupts to the vectors from 32 on; only the timer's come. */
static void open_timer(void) {
    static const uint16_t settings[][2] = {{0x20, 0x11}, {0xa0, 0x11}, {0x21, TIMER}, {0xa1, TIMER + 8},
        {0x21, 4}, {0xa1, 2}, {0x21, 1}, {0xa1, 1}, {0x21, 0xfe}, {0xa1, 0xff}, {0x43, 0x34}};
    const unsigned divisor = 1193182 / TIMER_HZ;
    for (size_t i = 0; i < sizeof settings / sizeof *settings; i++)
        write_port(settings[i][0], (uint8_t)settings[i][1]);
    write_port(0x40, (uint8_t)divisor);
    write_port(0x40, (uint8_t)(divisor >> 8));
}

void open_traps(void) {
    open_segments();
    open_gates();
    open_timer();
}

void set_kernel_stack(uint64_t top) { task_state.stack = top; }

/* Returns the signal that a program gets for a fault, and its address, or 0 if the program may continue. */
static int signal_of(const struct frame *frame, uint64_t *address) {
    *address = frame->rip;
    switch (frame->vector) {
    case PAGE_FAULT:
        __asm__ volatile("mov %%cr2, %0" : "=r"(*address));
        return bring(current, *address, frame->error & IS_STORE);
    case DIVISION: case X87_ERROR: case SSE_ERROR: return SIGFPE;
    case INVALID_OPCODE: return SIGILL;
    default: return SIGSEGV;
    }
}

static void answer_fault(const struct frame *frame) {
    static const char *const names[] = {[SIGILL] = "SIGILL", [SIGBUS] = "SIGBUS", [SIGFPE] = "SIGFPE",
        [SIGSEGV] = "SIGSEGV"};
    uint64_t address;
    int signal = signal_of(frame, &address);
    if (!signal) return;
    print("%s, process %u: %s at 0x%x\n", current->name, (uint64_t)current->pid, names[signal], address);
    end_process(signal);
}

void handle(struct frame *frame) {
    if (!(frame->cs & 3)) {
        print("kernel: exception %u, error 0x%x, at 0x%x\n", frame->vector, frame->error, frame->rip);
        stop("a fault in the kernel");
    }
    switch (frame->vector) {
    case SYSTEM_CALL: frame->rax = (uint64_t)answer_call(frame); break;
    case TIMER:
        write_port(0x20, 0x20);  /* end of its interrupt */
        yield();
        break;
    default: answer_fault(frame);
    }
}

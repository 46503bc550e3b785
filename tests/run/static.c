/* A static program without a C library: it makes a segment, writes into it, shows it to a child, and ends with 0 if the child's
   byte came back. */
static long call(long number, long a, long b, long c) {
    long result;
    __asm__ volatile("syscall" : "=a"(result) : "a"(number), "D"(a), "S"(b), "d"(c) : "rcx", "r11", "memory");
    return result;
}
enum { SHMGET = 29, SHMAT = 30, SHMCTL = 31, FORK = 57, EXIT = 60, WAIT4 = 61, SHMDT = 67, REMOVE = 0, MODE = 0600 };

/* the kernel keeps every register but three: rsi has to be what it was */
static int keeps_registers(long id) {
    register long kept __asm__("rsi") = 0x1234567;
    long at;
    __asm__ volatile("syscall" : "=a"(at), "+r"(kept) : "a"(SHMAT), "D"(id), "d"(020000L) : "rcx", "r11", "memory");
    return kept == 0x1234567;
}

static long main_program(void) {
    long id = call(SHMGET, 0, 4096, MODE), at = call(SHMAT, id, 0, 0);
    if (id < 0 || (at < 0 && at > -4096)) return 1;
    volatile char *bytes = (volatile char *)at;
    long child = call(FORK, 0, 0, 0);
    if (child == 0) {
        bytes[1] = 42;
        call(EXIT, bytes[0] != 0, 0, 0);
    }
    int status = -1;
    register long no_usage __asm__("r10") = 0;
    long waited;
    __asm__ volatile("syscall" : "=a"(waited) : "a"(WAIT4), "D"(child), "S"(&status), "d"(0L), "r"(no_usage) : "rcx", "r11", "memory");
    if (waited != child || status != 0 || bytes[1] != 42) return 2;
    if (!keeps_registers(id)) return 3;
    if (call(SHMDT, at, 0, 0) || call(SHMCTL, id, REMOVE, 0)) return 4;
    return call(SHMDT, at, 0, 0) == -22 ? 0 : 5;
}

__attribute__((force_align_arg_pointer)) void _start(void) {
    call(EXIT, main_program(), 0, 0);
    __builtin_unreachable();
}

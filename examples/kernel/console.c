/* The console: the first serial port, which qemu's -nographic shows. */
#include "kernel.h"
#include <stdarg.h>

enum { PORT = 0x3f8, LINE_STATUS = PORT + 5, CAN_SEND = 0x20, QEMU_EXIT = 0xf4 };

void open_console(void) {
    /* 115200 baud, 8 bits */
    static const uint8_t settings[][2] = {{1, 0}, {3, 0x80}, {0, 1}, {1, 0}, {3, 3}, {2, 7}};
    for (size_t i = 0; i < sizeof settings / sizeof *settings; i++)
        write_port((uint16_t)(PORT + settings[i][0]), settings[i][1]);
    put_char('\n');  /* what was there before may have ended in the middle of a line */
}

void put_char(char c) {
    while (!(read_port(LINE_STATUS) & CAN_SEND)) continue;
    write_port(PORT, (uint8_t)c);
}

static void print_text(const char *text) { while (*text) put_char(*text++); }

static void print_number(uint64_t number, unsigned base) {
    char digits[21], *at = digits + sizeof digits;
    *--at = 0;
    do *--at = "0123456789abcdef"[number % base];
    while (number /= base);
    print_text(at);
}

void print(const char *format, ...) {
    va_list arguments;
    va_start(arguments, format);
    for (; *format; format++) {
        if (*format != '%') { put_char(*format); continue; }
        switch (*++format) {
        case 's': print_text(va_arg(arguments, const char *)); break;
        case 'u': print_number(va_arg(arguments, uint64_t), 10); break;
        default: print_number(va_arg(arguments, uint64_t), 16);
        }
    }
    va_end(arguments);
}

/* qemu's isa-debug-exit ends it with the status 2 * status + 1. A real machine stays as it is. */
void power_off(int status) {
    __asm__ volatile("outl %0, %w1" : : "a"(status), "Nd"(QEMU_EXIT));
    for (;;) __asm__ volatile("cli; hlt");
}

void stop(const char *why) {
    print("kernel: %s\n", why);
    power_off(1);
}

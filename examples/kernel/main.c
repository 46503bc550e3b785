/* The kernel's beginning: what multiboot passes, and the programs, which are its modules. */
#include "kernel.h"

struct multiboot {
    uint32_t flags, low_memory, high_memory, boot_device, words, module_count, modules;
};
struct module { uint32_t begin, end, name, unused; };
enum { MEGABYTE = 1 << 20, KILOBYTE = 1024, MOST_MEMORY = 1 << 30 };
enum { LENGTH = 256, PROGRAMS = 16, BY_SIGNAL = 128 };
/* Copies, because what multiboot passes may lie in memory that is given away later. */
static char words[LENGTH];
static struct program {
    char name[LENGTH];
    const void *file;
} programs[PROGRAMS];
static uint32_t program_count;
extern uint8_t kernel_end[];

static void copy_text(char *to, uint32_t from) {
    const char *text = from ? kernel_address(from) : "";
    for (size_t i = 0; i < LENGTH - 1 && text[i]; i++) to[i] = text[i];
}

/* The last part of a path, and no words after it. */
static void keep_name(char *path) {
    char *name = path, *at = path;
    for (; *at && *at != ' '; at++)
        if (*at == '/') name = at + 1;
    *at = 0;
    memmove(path, name, (size_t)(at - name) + 1);
}

/* Returns the first address that neither the kernel nor a module uses. */
static uint64_t read_information(const struct multiboot *boot) {
    const struct module *modules = kernel_address(boot->modules);
    uint64_t end = physical_address(kernel_end);
    copy_text(words, boot->words);
    for (; program_count < boot->module_count && program_count < PROGRAMS; program_count++) {
        const struct module *module = &modules[program_count];
        struct program *program = &programs[program_count];
        copy_text(program->name, module->name);
        keep_name(program->name);
        program->file = kernel_address(module->begin);
        if (module->end > end) end = module->end;
    }
    return end;
}

/* Runs a program until it has ended. Processes that it leaves continue. */
static void run(const struct program *program) {
    const uint32_t pid = start_program(program->file, program->name)->pid;
    int status = 0;
    for (int64_t reaped = reap(processes, &status); reaped != pid; reaped = reap(processes, &status))
        if (!reaped) sleep_for(processes);
    print("%s: status %u\n", program->name, (uint64_t)(status & 0xff ? BY_SIGNAL + status : status >> 8));
}

void main(uint64_t information) {
    const struct multiboot *boot = kernel_address(information);
    uint64_t begin = read_information(boot), end = MEGABYTE + (uint64_t)boot->high_memory * KILOBYTE;
    open_console();
    open_memory(begin, end < MOST_MEMORY ? end : MOST_MEMORY);
    open_traps();
    open_shared(words);
    for (uint32_t i = 0; i < program_count; i++) run(&programs[i]);
    print_loans();
    print("kernel: %u turns ended\n", ended_turns);
    power_off(0);
}

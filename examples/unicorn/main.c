/* Runs a static program for x86-64 Linux, with its children, by turns. Their shared memory is a machine of Nogcuvema, by
   the rules of Linux. USAGE says which words it takes. */
#define _GNU_SOURCE
#include <inttypes.h>
#include <signal.h>
#include <stdio.h>
#include <stdlib.h>
#include <string.h>
#include <unistd.h>
#include <nogcuvema_names.h>
#include "emulator.h"

#define USAGE "emulator [-f FRAMES] [-s SLOTS] [-r READ] [-l SHMMAX,SHMMNI,SHMALL,MEMLOCK] PROGRAM"

enum { TURN = 10000 /* blocks of instructions */, PAGES = 1 << 16, SEGMENTS = 4096, ATTACHMENTS = 256 };

nog_machine machine = NOG_MACHINE_INITIALIZER;
nog_limits limits = {.shmmax = 1 << 28, .shmmni = SEGMENTS, .shmall = PAGES, .frames = MOST_FRAMES, .memlock = 2,
    .most_pieces = ATTACHMENTS, .most_processes = MOST_PROCESSES, .most_slots = PAGES, .rules = NOG_LINUX};

_Noreturn void die(const char *what, const char *why) {
    fprintf(stderr, "emulator: %s: %s\n", what, why);
    exit(1);
}

void must(uint32_t code, const char *what) {
    if (code != NOG_DONE) die(what, nog_name(code));
}

void must_run(uc_err error, const char *what) {
    if (error != UC_ERR_OK) die(what, uc_strerror(error));
}

/* A turn of a process: makes its call, and runs it on. Returns whether it did anything. */
static bool run_turn(struct process *process) {
    if (process->is_calling) {
        int64_t answer = make_call(process);
        if (answer == WAITS) return process->has_ended;
        process->is_calling = false;
        must_run(uc_reg_write(process->engine, UC_X86_REG_RAX, &answer), "write a register");
    }
    process->blocks_left = TURN;
    const uc_err error = uc_emu_start(process->engine, process->next_pc, 0, 0, 0);
    if (error != UC_ERR_OK && !process->signal) {
        fprintf(stderr, "emulator: process %" PRIu32 ": %s\n", process->pid, uc_strerror(error));
        process->signal = SIGSEGV;
    }
    if (process->signal) end_process(process, process->signal);
    return true;
}

/* Turns, until no process does anything: each one has ended. */
static void run(void) {
    const struct process *end = processes + MOST_PROCESSES;
    for (bool is_any = true; is_any; reap_orphans()) {
        is_any = false;
        for (struct process *it = processes; it < end; it++) is_any |= it->pid && !it->has_ended && run_turn(it);
    }
    for (const struct process *it = processes; it < end; it++)
        if (it->pid && !it->has_ended) die("the guests", "each one waits");
}

static uint32_t number(const char *text, uint32_t most) {
    char *end;
    const unsigned long long value = text ? strtoull(text, &end, 10) : most + 1ull;
    if (value > most || *end) die(text ? text : "usage", "no number in its range");
    return (uint32_t)value;
}

static void read_limits(char *text) {
    uint64_t *values[] = {&limits.shmmax, &limits.shmmni, &limits.shmall, &limits.memlock};
    for (int i = 0; i < 4; i++) *values[i] = number(strsep(&text, ","), UINT32_MAX);
}

int main(int count, char **words) {
    nog_area area = {.kind = NOG_SPARSE, .slots = PAGES};
    nog_failure failure = {.area = 0, .call = 0};
    struct process *first = processes;
    for (int option; (option = getopt(count, words, "f:s:r:l:")) != -1;) switch (option) {
        case 'f': limits.frames = number(optarg, MOST_FRAMES); break;
        case 's': area.slots = number(optarg, PAGES); break;
        case 'r': failure.call = number(optarg, UINT32_MAX); area.kind = NOG_RAM; break;
        case 'l': read_limits(optarg); break;
        default: die("usage", USAGE);
    }
    if (optind + 1 != count) die("usage", USAGE);
    first->pid = 1;
    const nog_process born = {first->pid, 1, 0, 0};
    must(nog_open(&machine, &limits, &area, 1, &failure, failure.call ? 1 : 0, &born, 1), "open");
    load_program(first, words[optind]);
    run();
    must(nog_close(&machine), "close");
    return first->status & 127 ? 128 + (first->status & 127) : first->status >> 8;
}

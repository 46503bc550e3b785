/* System calls by Linux's numbers, and the pipes. */
#include "kernel.h"

enum { PIPES = 64, CONSOLE = 1, FIRST_PIPE = 2 };
/* File 2 + 2 * n is the end of pipe n for reading, and the next one its end for writing. */
static struct pipe {
    uint32_t begin, count;
    int ends[2];           /* how many files of processes are its ends */
    uint8_t bytes[PAGE];
} pipes[PIPES];

static struct pipe *pipe_of(uint8_t file) { return &pipes[(file - FIRST_PIPE) / 2]; }

/* ---- the memory of a program ---- */

uint8_t *byte_of_program(uint64_t address, bool is_store) {
    const uint64_t needed = PRESENT | USER | (is_store ? WRITABLE : 0);
    if (address >= END_OF_ADDRESSES) return NULL;
    uint64_t *entry = entry_at(current->tables, address, false);
    if (!entry || (*entry & needed) != needed) {
        if (bring(current, address, is_store)) return NULL;
        entry = entry_at(current->tables, address, false);
    }
    *entry |= ACCESSED | (is_store ? DIRTY : 0);  /* as the processor does for an access of the program */
    return (uint8_t *)page_of(*entry) + address % PAGE;
}

/* Copies page by page. Returns 0 if the program may not access one of the pages. */
static int copy(uint64_t address, void *bytes, size_t length, bool is_store) {
    for (size_t done = 0, part; done < length; done += part) {
        uint8_t *of_program = byte_of_program(address + done, is_store), *ours = (uint8_t *)bytes + done;
        if (!of_program) return 0;
        part = PAGE - (address + done) % PAGE;
        if (part > length - done) part = length - done;
        memcpy(is_store ? of_program : ours, is_store ? ours : of_program, part);
    }
    return 1;
}

int copy_from_program(void *process, uint64_t address, void *bytes, size_t length) {
    return process == current && copy(address, bytes, length, false);
}

int copy_to_program(void *process, uint64_t address, const void *bytes, size_t length) {
    return process == current && copy(address, (void *)(uintptr_t)bytes, length, true);
}

/* ---- files ---- */

void use_files(const struct process *process, int change) {
    for (int i = 0; i < FILES; i++) {
        uint8_t file = process->files[i];
        if (file < FIRST_PIPE) continue;
        pipe_of(file)->ends[file % 2] += change;
        wake(pipe_of(file));
    }
}

/* Returns the lowest number from this one on that the process has not opened; from FILES on there is none. */
static int free_number(int number) {
    while (number < FILES && current->files[number]) number++;
    return number;
}

static int64_t make_pipe(uint64_t address) {
    uint8_t place = 0;
    const int first = free_number(0), numbers[2] = {first, free_number(first + 1)};
    while (place < PIPES && pipes[place].ends[0] + pipes[place].ends[1] > 0) place++;
    if (place == PIPES || numbers[1] >= FILES) return -EMFILE;
    if (!copy_to_program(current, address, numbers, sizeof numbers)) return -EFAULT;
    pipes[place].begin = pipes[place].count = 0;
    pipes[place].ends[0] = pipes[place].ends[1] = 1;
    current->files[numbers[0]] = (uint8_t)(FIRST_PIPE + 2 * place);
    current->files[numbers[1]] = (uint8_t)(FIRST_PIPE + 2 * place + 1);
    return 0;
}

static int64_t write_console(uint64_t address, uint64_t length) {
    for (uint64_t i = 0; i < length; i++) {
        const uint8_t *byte = byte_of_program(address + i, false);
        if (!byte) return i ? (int64_t)i : -EFAULT;
        put_char((char)*byte);
    }
    return (int64_t)length;
}

/* Both move what can be moved at once, and wait only if that is nothing. No other process runs meanwhile, so
   it does not matter that they wake the others first. */
static int64_t read_pipe(struct pipe *pipe, uint64_t address, uint64_t length) {
    uint64_t done = 0;
    while (!pipe->count && pipe->ends[1]) sleep_for(pipe);
    wake(pipe);
    for (; done < length && pipe->count; done++) {
        uint8_t *byte = byte_of_program(address + done, true);
        if (!byte) return done ? (int64_t)done : -EFAULT;
        *byte = pipe->bytes[pipe->begin];
        pipe->begin = (pipe->begin + 1) % PAGE;
        pipe->count--;
    }
    return (int64_t)done;
}

static int64_t write_pipe(struct pipe *pipe, uint64_t address, uint64_t length) {
    uint64_t done = 0;
    while (pipe->count == PAGE && pipe->ends[0]) sleep_for(pipe);
    if (!pipe->ends[0]) return -EPIPE;
    wake(pipe);
    for (; done < length && pipe->count < PAGE; done++) {
        const uint8_t *byte = byte_of_program(address + done, false);
        if (!byte) return done ? (int64_t)done : -EFAULT;
        pipe->bytes[(pipe->begin + pipe->count) % PAGE] = *byte;
        pipe->count++;
    }
    return (int64_t)done;
}

static int64_t move_bytes(bool is_write, uint64_t number, uint64_t address, uint64_t length) {
    uint8_t file = number < FILES ? current->files[number] : 0;
    if (file == CONSOLE && is_write) return write_console(address, length);
    if (file < FIRST_PIPE || file % 2 != is_write) return -EBADF;
    return (is_write ? write_pipe : read_pipe)(pipe_of(file), address, length);
}

/* ---- the calls ---- */

static int64_t wait_for_child(uint64_t address) {
    int status = 0;
    int64_t pid;
    while ((pid = reap(current, &status)) == 0) sleep_for(current);
    if (pid < 0) return -ECHILD;
    return address && !copy_to_program(current, address, &status, sizeof status) ? -EFAULT : pid;
}

int64_t answer_call(struct frame *frame) {
    enum call call = (enum call)frame->rax;
    switch (call) {
    case READ: return move_bytes(false, frame->rdi, frame->rsi, frame->rdx);
    case WRITE: return move_bytes(true, frame->rdi, frame->rsi, frame->rdx);
    case PIPE: return make_pipe(frame->rdi);
    case YIELD: yield(); return 0;
    case GET_PID: return current->pid;
    case FORK: return fork(frame);
    case EXIT: end_process((int)(frame->rdi & 0xff) << 8);
    case WAIT: return wait_for_child(frame->rsi);
    case SET_USER: return set_user((uint32_t)frame->rdi, current->gid);
    case SET_GROUP: return set_user(current->uid, (uint32_t)frame->rdi);
    default: return answer_shared_call(call, frame->rdi, frame->rsi, frame->rdx);
    }
}

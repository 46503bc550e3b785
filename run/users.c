/* The processes of the machine, and the users in whose names they call. A process joins the machine at its first call, or
   when a fork gives it attachments; most never do. */
#include "shmrun.h"
#include <err.h>
#include <stdio.h>
#include <stdlib.h>

enum { FIRST_SPARE_PID = 1 << 30 };  /* above every pid of Linux */

struct guest *new_guest(uint32_t pid) {
    struct guest *guest = allocate(sizeof *guest);
    guest->pid = pid;
    return guest;
}

void release_guest(struct guest *guest) {
    if (--guest->uses > 0) return;
    if (guest->is_admitted) {
        perform(&(struct event){.kind = EXIT, .pid = guest->pid});
        reply_of(nog_dismiss(&machine, guest->pid));
    }
    close_faults(guest);
    free(guest);
}

/* ---- users ---- */

FILE *file_of_process(pid_t pid, const char *name) {
    char path[64];
    snprintf(path, sizeof path, "/proc/%d/%s", pid, name);
    return fopen(path, "r");
}

static void read_user(struct task *task) {
    char line[256];
    FILE *file = file_of_process(task->tid, "status");
    while (file && fgets(line, sizeof line, file)) {
        sscanf(line, "Uid: %*u %u", &task->uid);
        sscanf(line, "Gid: %*u %u", &task->gid);
    }
    if (file) fclose(file);
    task->is_user_known = true;
}

/* A pid is taken if its process has ended and another one still has its memory. */
static void admit(struct guest *guest, bool is_born) {
    static uint32_t spare = FIRST_SPARE_PID;
    nog_process process = {.pid = guest->pid, .is_born = is_born, .uid = guest->uid, .gid = guest->gid};
    uint32_t code = nog_admit(&machine, &process);
    if (code == NOG_ADMIT_TAKEN) {
        guest->pid = process.pid = spare++;
        code = nog_admit(&machine, &process);
    }
    if (code != NOG_DONE)
        errx(CANNOT_GO_ON, "process %u does not fit into the machine, which has at most %lu", guest->pid,
             options.limits.most_processes);
    guest->is_admitted = true;
    record_process(&process);
}

void enter(struct task *task, struct guest *guest) {
    if (!task->is_user_known) read_user(task);
    bool is_same = guest->uid == task->uid && guest->gid == task->gid;
    guest->uid = task->uid;
    guest->gid = task->gid;
    if (!guest->is_admitted) admit(guest, true);
    else if (!is_same) perform(&(struct event){.kind = SET_USER, .pid = guest->pid, .uid = guest->uid, .gid = guest->gid});
}

/* ---- attachments ---- */

bool has_pieces(const struct guest *guest) {
    nog_piece piece;
    return guest->is_admitted && nog_piece_at(&machine, guest->pid, 0, &piece) == NOG_DONE;
}

static bool is_above(const struct guest *guest, uint32_t place, uint64_t address) {
    nog_piece piece;
    return nog_piece_at(&machine, guest->pid, place, &piece) != NOG_DONE || end_of(&piece) > address;
}

/* The place of the first piece that ends above an address. */
static uint32_t piece_above(const struct guest *guest, uint64_t address) {
    uint32_t low = 0, step = 1;
    while (!is_above(guest, low + step - 1, address)) step *= 2;
    while (step > 1) {  /* the place is low to low + step - 1 */
        step /= 2;
        if (!is_above(guest, low + step - 1, address)) low += step;
    }
    return low;
}

bool is_attached(const struct guest *guest, uint64_t begin, uint64_t length) {
    nog_piece piece;
    return length <= END_OF_ADDRESSES && begin <= END_OF_ADDRESSES - length && find_piece(guest, begin, begin + length, &piece);
}

bool find_piece(const struct guest *guest, uint64_t begin, uint64_t end, nog_piece *piece) {
    if (begin >= end || !has_pieces(guest)) return false;
    return nog_piece_at(&machine, guest->pid, piece_above(guest, begin), piece) == NOG_DONE && piece->base < end;
}

void inherit(struct task *maker, struct guest *parent, struct guest *child) {
    const pid_t pid = (pid_t)child->pid;
    if (!has_pieces(parent)) return;
    enter(maker, parent);
    child->uid = parent->uid;
    child->gid = parent->gid;
    admit(child, false);
    perform(&(struct event){.kind = FORK, .pid = parent->pid, .child = child->pid});
    child->is_to_be_watched = parent->faults != 0;
    child->has_advice = parent->has_advice;
    if (parent->has_advice) forget_gaps(child, pid);
}

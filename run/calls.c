/* shmget, shmat, shmdt and shmctl, in Linux's order of errors. */
#include "shmrun.h"
#include <nogcuvema_linux.h>
#include <err.h>
#include <errno.h>
#include <fcntl.h>
#include <stdio.h>
#include <sys/mman.h>
#include <sys/shm.h>
#include <sys/syscall.h>
#include <unistd.h>

enum { NINE_BITS = 0777 };
enum { GET_FLAGS = NOG_CREAT | NOG_EXCL | NOG_HUGETLB | NOG_NORESERVE };
enum { ATTACH_FLAGS = NOG_RDONLY | NOG_RND | NOG_REMAP | NOG_EXEC };

/* ---- calls of a machine ---- */

const char *const call_names[] = {"shmget", "shmat", "shmdt", "shmctl", "stat", "set", "rmid", "lock", "unlock", "info",
                                  "fork", "exec", "exit", "munmap", "mprotect", "setuid"};

void make_call(nog_machine *on, struct event *e) {
    int32_t id = 0;
    uint64_t at = 0;
    uint32_t code = 0;
    switch (e->kind) {
    case GET: code = nog_get(on, e->pid, e->key, e->size, e->mode, e->flags, &id); break;
    case ATTACH: code = nog_attach(on, e->pid, e->id, e->address, e->flags, &at); break;
    case DETACH: code = nog_detach(on, e->pid, e->address); break;
    case STAT: code = nog_stat(on, e->pid, e->id, &e->segment); break;
    case SET: code = nog_set(on, e->pid, e->id, e->uid, e->gid, e->mode); break;
    case REMOVE: code = nog_remove(on, e->pid, e->id); break;
    case LOCK: code = nog_lock(on, e->pid, e->id); break;
    case UNLOCK: code = nog_unlock(on, e->pid, e->id); break;
    case FORK: code = nog_fork(on, e->pid, e->child); break;
    case EXEC: code = nog_exec(on, e->pid); break;
    case EXIT: code = nog_exit(on, e->pid); break;
    case UNMAP: code = nog_unmap(on, e->pid, e->address, e->size); break;
    case PROTECT: code = nog_protect(on, e->pid, e->address, e->size, e->is_writable); break;
    case SET_USER: code = nog_set_user(on, e->pid, e->uid, e->gid); break;
    case CONTROL:
    case INFO: break;  /* the machine does not change */
    }
    e->result = code ? reply_of(code) : (int64_t)at + id;
}

int64_t perform(struct event *event) {
    make_call(&machine, event);
    record(*event);
    return event->result;
}

/* ---- shmget ---- */

static void do_get(struct call *call) {
    const uint64_t *args = call->args;
    enter(call->task, call->self);
    answer(call, perform(&(struct event){.kind = GET, .pid = call->self->pid, .key = (uint32_t)args[0], .size = args[1],
                                        .mode = args[2] & NINE_BITS, .flags = args[2] & GET_FLAGS}));
}

/* ---- shmat ---- */

struct attach {
    struct guest *space;
    nog_segment segment;
    int32_t id;
    uint64_t asked, address, length;  /* the address that the program gave, and without what SHM_RND takes away */
    uint32_t flags;
};

/* Whether the machine refuses before it looks at the range. An attach beyond all addresses is always refused: with EACCES only
   if a permission is missing. So nothing is mapped that the process may not see. */
static bool is_refused_first(struct attach *a) {
    uint64_t at;
    bool is_wrong = a->asked == 0 ? a->flags & NOG_REMAP : !(a->flags & NOG_RND) && a->asked % PAGE;
    bool is_null_remap = a->asked != 0 && a->address == 0 && a->flags & NOG_REMAP;
    if (is_wrong || is_null_remap || nog_segment_of(&machine, a->id, &a->segment) != NOG_DONE) return true;
    return nog_attach(&machine, a->space->pid, a->id, END_OF_ADDRESSES, a->flags & (NOG_RDONLY | NOG_EXEC), &at) == NOG_EACCES;
}

static bool is_outside(const struct attach *a) {
    return a->asked != 0 && (a->address < LOWEST_ADDRESS || a->address > END_OF_ADDRESSES - a->length);
}

/* A remap can't be undone, so the machine is asked first if it may refuse for too many pieces. */
static bool has_many_pieces(const struct guest *space) {
    nog_piece piece;
    enum { CUT = 2 };
    return nog_piece_at(&machine, space->pid, (uint32_t)options.limits.most_pieces - CUT, &piece) == NOG_DONE;
}

/* The memory can be accessed only when its holes are watched. */
static int64_t guard(struct call *call, const struct attach *a, uint64_t at, uint64_t rights) {
    if (watch(a->space, at, a->length) && !is_error(run_in(call, SYS_mprotect, at, a->length, rights, 0, 0, 0))) return (int64_t)at;
    run_in(call, SYS_munmap, at, a->length, 0, 0, 0, 0);
    if (a->flags & NOG_REMAP) forget_range(a->space, at, at + a->length);
    return -ENOMEM;
}

static int64_t map_in(struct call *call, const struct attach *a) {
    bool is_readonly = a->flags & NOG_RDONLY;
    bool is_guarded = options.frames != 0;  /* userfaultfd watches only what could be made writable */
    if (is_guarded && !open_faults(call)) return -ENOMEM;
    int file = file_of(&a->segment);
    if (file != -1 && is_readonly && !is_guarded) file = open_for_reading(file);
    if (file == -1) return errno == EMFILE ? -ENFILE : -errno;
    int64_t there = give_file(call, file, O_CLOEXEC);
    if (is_readonly && !is_guarded) close(file);
    if (there < 0) return there == -EMFILE ? -ENOMEM : there;
    uint64_t rights = PROT_READ | (is_readonly ? 0u : PROT_WRITE) | (a->flags & NOG_EXEC ? PROT_EXEC : 0u);
    uint64_t kind = MAP_SHARED | (a->flags & NOG_REMAP ? MAP_FIXED : a->asked ? MAP_FIXED_NOREPLACE : 0);
    int64_t at = run_in(call, SYS_mmap, a->address, a->length, is_guarded ? PROT_NONE : rights, kind, (uint64_t)there, 0);
    run_in(call, SYS_close, (uint64_t)there, 0, 0, 0, 0, 0);
    return is_guarded && !is_error(at) ? guard(call, a, (uint64_t)at, rights) : at;
}

/* Linux looks for other memory in the range before it looks at the range itself, unless the address is rounded to 0. */
static bool meets_other_memory(const struct call *call, const struct attach *a) {
    uint64_t begin, end;
    bool is_met = false;
    if (a->address == 0 || a->flags & NOG_REMAP) return false;
    FILE *maps = file_of_process(call->tid, "maps");
    while (maps && !is_met && fscanf(maps, "%lx-%lx%*[^\n]", &begin, &end) == 2)
        is_met = begin < END_OF_ADDRESSES && (begin < a->address ? a->address < end : begin - a->address < a->length);
    if (maps) fclose(maps);
    return is_met;
}

/* The program has the mapping, so now the machine attaches the segment at its address. */
static int64_t enter_attach(struct call *call, const struct attach *a, uint64_t address) {
    uint64_t at;
    uint32_t code = nog_attach(&machine, a->space->pid, a->id, address, a->flags & ~(uint32_t)NOG_RND, &at);
    if (code == NOG_DONE) return (int64_t)at;
    run_in(call, SYS_munmap, address, a->length, 0, 0, 0, 0);
    if (a->flags & NOG_REMAP) forget_range(a->space, address, address + a->length);
    return reply_of(code);
}

/* The machine's own refusal. */
static int64_t refuse(const struct attach *a) {
    uint64_t at;
    uint32_t code = nog_attach(&machine, a->space->pid, a->id, a->asked, a->flags, &at);
    if (code == NOG_DONE) errx(CANNOT_GO_ON, "the machine attached segment %d at %lx, which it should refuse", a->id, at);
    return reply_of(code);
}

static int64_t attach(struct call *call, struct attach *a) {
    if (is_refused_first(a)) return refuse(a);
    a->length = pages_of(a->segment.size);
    if (is_outside(a)) return meets_other_memory(call, a) ? -EINVAL : refuse(a);
    if (a->flags & NOG_REMAP && has_many_pieces(a->space)) return -ENOMEM;
    int64_t mapped = map_in(call, a);
    if (!is_error(mapped)) return enter_attach(call, a, (uint64_t)mapped);
    return mapped == -EEXIST || (a->asked != 0 && meets_other_memory(call, a)) ? -EINVAL : mapped;
}

static void do_attach(struct call *call) {
    enter(call->task, call->space);
    struct attach a = {.space = call->space, .id = (int32_t)call->args[0], .asked = call->args[1],
                       .flags = call->args[2] & ATTACH_FLAGS};
    a.address = a.flags & NOG_RND ? a.asked / PAGE * PAGE : a.asked;
    int64_t result = attach(call, &a);
    /* an address that the kernel chose is written as if the program had */
    record((struct event){.kind = ATTACH, .pid = a.space->pid, .id = a.id, .flags = a.flags,
                          .address = a.asked == 0 && result > 0 ? (uint64_t)result : a.asked, .result = result});
    answer(call, result);
}

/* ---- shmdt ---- */

static void do_detach(struct call *call) {
    struct guest *space = call->space;
    uint64_t origin = call->args[0];
    nog_piece piece, lowest = {0};
    enter(call->task, space);
    for (uint32_t i = 0; nog_piece_at(&machine, space->pid, i, &piece) == NOG_DONE; i++) {
        if (origin_of(&piece) != origin) continue;
        if (!lowest.pages) lowest = piece;
        if (piece.segment == lowest.segment) run_in(call, SYS_munmap, piece.base, (uint64_t)piece.pages * PAGE, 0, 0, 0, 0);
    }
    answer(call, perform(&(struct event){.kind = DETACH, .pid = space->pid, .address = origin}));
}

/* ---- shmctl ---- */

/* What it is to the machine: of the commands that only show something, a script has IPC_STAT alone. */
static enum kind kind_of(int command) {
    switch (command) {
    case IPC_STAT: return STAT;
    case IPC_SET: return SET;
    case IPC_RMID: return REMOVE;
    case SHM_LOCK: return LOCK;
    case SHM_UNLOCK: return UNLOCK;
    default: return INFO;
    }
}

static int read_for_library(void *call, uint64_t from, void *to, size_t size) { return read_memory(call, from, to, size); }
static int write_for_library(void *call, uint64_t to, const void *from, size_t size) {
    return write_memory(call, to, from, size);
}

/* The machine has no page of ours in its frames unless there is --frames, so it can't count them. */
static int64_t show_usage(struct call *call) {
    nog_usage usage = {0};
    nog_segment segment;
    reply_of(nog_info(&machine, &usage));
    nog_linux_usage info = {.used_ids = (int32_t)usage.used_ids, .shm_tot = usage.pages};
    for (uint32_t i = 0; i <= usage.highest; i++)
        if (nog_segment_at(&machine, i, &segment) == NOG_DONE) {
            struct residency of = residency_of(segment.id);
            info.shm_rss += of.resident;
            info.shm_swp += of.swapped;
        }
    return write_memory(call, call->args[2], &info, sizeof info) ? (int64_t)usage.highest : -EFAULT;
}

/* Whether so few frames would be left for pages that are not locked that an instruction could not get its pages. */
static bool is_too_much(int32_t id) {
    nog_segment segment;
    nog_tally now;
    if (!options.frames || nog_segment_of(&machine, id, &segment) != NOG_DONE || segment.status & NOG_LOCKED) return false;
    reply_of(nog_tally_of(&machine, &now));
    return now.locked + pages_of(segment.size) / PAGE + NOT_LOCKED > options.frames;
}

static int64_t show(struct call *call, int32_t id, int command) {
    const nog_linux_memory memory = {call, read_for_library, write_for_library};
    if (command == IPC_INFO || command == SHM_INFO || command == SHM_STAT || command == SHM_STAT_ANY)
        note_left_out("IPC_INFO, SHM_INFO, SHM_STAT and SHM_STAT_ANY");
    if (command == SHM_INFO) return show_usage(call);
    return nog_linux_shmctl(&machine, &options.limits, call->self->pid, id, command, call->args[2], &memory);
}

static int64_t control(struct call *call, enum kind kind) {
    struct event event = {.kind = kind, .pid = call->self->pid, .id = (int32_t)call->args[0]};
    nog_linux_shmid bytes;
    if (event.id < 0) return -EINVAL;
    if (kind == INFO) return show(call, event.id, (int)call->args[1]);
    if (kind == LOCK && is_too_much(event.id)) {
        note_left_out("a lock that would leave too few frames");
        return -ENOMEM;
    }
    if (kind == SET) {
        if (!read_memory(call, call->args[2], &bytes, sizeof bytes)) return -EFAULT;
        event.uid = bytes.uid, event.gid = bytes.gid, event.mode = bytes.mode & NINE_BITS;
    }
    if (perform(&event) < 0 || kind != STAT) return event.result;
    bytes = nog_linux_shown(&event.segment);
    return write_memory(call, call->args[2], &bytes, sizeof bytes) ? 0 : -EFAULT;
}

/* ---- which call it is ---- */

/* The calls on demand fail before the machine sees them. */
static bool is_failed(struct call *call, enum kind kind) {
    int error = failure_of(kind);
    if (!error) return false;
    note_left_out("a call that --fail let fail");
    answer(call, -error);
    return true;
}

static void do_control(struct call *call) {
    enum kind kind = kind_of((int)call->args[1]);
    if (is_failed(call, CONTROL) || is_failed(call, kind)) return;
    enter(call->task, call->self);
    answer(call, control(call, kind));
}

static void dispatch(struct call *call) {
    switch (call->number) {
    case SYS_shmget: if (!is_failed(call, GET)) do_get(call); break;
    case SYS_shmat: if (!is_failed(call, ATTACH)) do_attach(call); break;
    case SYS_shmdt: if (!is_failed(call, DETACH)) do_detach(call); break;
    case SYS_shmctl: do_control(call); break;
    case SYS_munmap: do_unmap(call); break;
    case SYS_mmap: do_map_fixed(call); break;
    case SYS_mremap: do_move(call); break;
    case SYS_mprotect:
    case SYS_pkey_mprotect: do_protect(call); break;
    case SYS_madvise: do_advise(call); break;
    case SYS_open:
    case SYS_openat:
    case SYS_openat2: do_open(call); break;
    case SYS_open_by_handle_at: open_without_cache(call, 2); break;
    case SYS_futex: do_futex(call); break;
    case SYS_fcntl: do_set_flags(call); break;
    case SYS_process_vm_readv:
    case SYS_process_vm_writev: do_copy_memory(call); break;
    case SYS_remap_file_pages: do_remap_pages(call); break;
    case SYS_process_madvise: answer(call, -EINVAL); break;  /* only MADV_REMOVE comes here */
    default:  /* the user of the thread changes */
        call->task->is_user_known = false;
        let_pass(call);
    }
}

/* The process may end in the middle of the call: its guests stay until the call is done. */
void handle_call(struct task *task) {
    struct call call;
    begin_call(&call, task);
    call.self->uses++;
    call.space->uses++;
    dispatch(&call);
    release_guest(call.space);
    release_guest(call.self);
}

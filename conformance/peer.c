/* peer [--seconds] [--shared] [--limit S] [--at-once N] [--exec WORDS] [SCRIPT]
   makes the calls of a script on the running system and prints one event line for each.

   The guardian outlives the others and removes every segment that was made; the director tells one worker at a
   time what to do, and prints; a worker is one process of the script, with its user and group. Identifiers, pids
   and addresses are printed as those of the script.

   --seconds   a second for each command: times are printed as places in the script, else as 0 or `set`
   --shared    stays in the system's own IPC namespace, under the system's own limits
   --limit S   gives each command at most S seconds (10), and each run of --at-once
   --at-once N makes N runs in which every process makes its calls alone, as at_once.h tells, and prints N logs
   --exec W    exec runs these words instead of this program: the emulator that the peer runs under */
#define _GNU_SOURCE
#include <errno.h>
#include <fcntl.h>
#include <grp.h>
#include <inttypes.h>
#include <linux/capability.h>
#include <poll.h>
#include <sched.h>
#include <setjmp.h>
#include <signal.h>
#include <stdarg.h>
#include <stdio.h>
#include <stdlib.h>
#include <string.h>
#include <sys/mman.h>
#include <sys/prctl.h>
#include <sys/resource.h>
#include <sys/shm.h>
#include <sys/syscall.h>
#include <sys/wait.h>
#include <time.h>
#include <unistd.h>
#define HAS_FLAGS
/* each has four open files here, and a process may have 1024 */
#define PROCESSES 200
#include "script.h"

enum { PAGE = 4096, PIECES = 1024, OWN_RANGES = 64 };
#define END_OF_ADDRESSES UINT64_C(0x7ffffffff000)
enum { RECORD_FD = 98, ALIVE_FD = 99, FIRST_FD = 100, OWN_FD = FIRST_FD + 2 * PROCESSES };
#define LOWEST_CHOSEN UINT64_C(0x40000000)
_Static_assert(IPC_CREAT == CREAT && IPC_EXCL == EXCL && SHM_HUGETLB == HUGETLB && SHM_NORESERVE == NORESERVE &&
    SHM_RDONLY == RDONLY && SHM_RND == RND && SHM_REMAP == REMAP && SHM_EXEC == EXECUTE, "a script's flags are the system's");

enum task { GET, ATTACH, DETACH, CONTROL, LOAD, STORE, ADD, EXCHANGE, COMPARE, FORK, EXEC, EXIT, MAPPED, UNMAPS, PROTECTS,
    BECOMES };

/* a request to a worker: flags are also shmctl's command and mprotect's rights; at[] has the address of each byte of an access;
   reach is how far a call of a range may come */
struct request {
    int task, id, flags, child;
    unsigned key, uid, gid, mode, length, is_placed;
    uint64_t size, address, number, reach, at[64];
    unsigned char bytes[64], expected[16];
};

/* what it answers: a value, an error of the system, a signal, or that its own memory is where the call is to be */
struct answer {
    int error, signal, is_refused_here;
    int64_t value;
    struct shmid_ds segment;
    unsigned char bytes[64];
};

/* ---- a worker ---- */

static struct { uint64_t begin, end; } own[OWN_RANGES];
static int own_count;
static sigjmp_buf escape;
static volatile sig_atomic_t is_accessing;
static char *exec_words[WORDS + 1];
static int runs_at_once;  /* 0: the director tells one worker at a time */
static int has_changes;   /* the script has a setuid: workers keep user 0 as the saved one, to change again */

static void on_fault(int signal) {
    if (is_accessing) siglongjmp(escape, signal);
    _exit(99);
}

/* the ranges of this process that are no attaches: a script must not meet them */
static void read_own_ranges(void) {
    char line[512];
    FILE *maps = fopen("/proc/self/maps", "r");
    for (own_count = 0; maps && own_count < OWN_RANGES && fgets(line, sizeof line, maps);)
        if (!strstr(line, "/SYSV"))
            own_count += sscanf(line, "%" SCNx64 "-%" SCNx64, &own[own_count].begin, &own[own_count].end) == 2;
    if (maps) fclose(maps);
}

static int is_own(uint64_t begin, uint64_t length) {
    int i = 0;
    while (i < own_count && (begin >= own[i].end || own[i].begin >= begin + length)) i++;
    return i < own_count;
}

static void settle(struct answer *a, int64_t value) { a->error = (a->value = value) == -1 ? errno : 0; }

/* the record is written by the one who made the segment: it outlives this process and the director. At once it would put the
   calls into an order; their namespace ends with them. */
static void get(const struct request *q, struct answer *a) {
    int id = shmget((key_t)q->key, (size_t)q->size, q->flags);
    settle(a, id);
    if (id != -1 && !runs_at_once && write(RECORD_FD, &id, sizeof id) != sizeof id) _exit(98);
}

static void attach(const struct request *q, struct answer *a) {
    a->is_refused_here = q->is_placed && is_own(q->address, q->size);
    if (a->is_refused_here) return;
    settle(a, (int64_t)(intptr_t)shmat(q->id, q->is_placed ? (void *)(uintptr_t)q->address : NULL, q->flags));
}

/* an munmap that reaches beyond all addresses is refused whole; on some machines there are addresses beyond this end */
static int is_beyond(const struct request *q) {
    int has_end = q->task == UNMAPS && q->address + q->reach > END_OF_ADDRESSES;
    return has_end && munmap((void *)(uintptr_t)END_OF_ADDRESSES, PAGE) == -1;
}

static void change_range(const struct request *q, struct answer *a) {
    void *address = (void *)(uintptr_t)q->address;
    a->is_refused_here = q->reach > 0 && is_own(q->address, q->reach) && !is_beyond(q);
    if (a->is_refused_here) return;
    settle(a, q->task == UNMAPS ? munmap(address, (size_t)q->size) : mprotect(address, (size_t)q->size, q->flags));
}

static void control(const struct request *q, struct answer *a) {
    a->segment.shm_perm.uid = q->uid;
    a->segment.shm_perm.gid = q->gid;
    a->segment.shm_perm.mode = (unsigned short)q->mode;
    settle(a, shmctl(q->id, q->flags, &a->segment));
}

typedef volatile unsigned char byte;
static byte *byte_at(const struct request *q, unsigned i) { return (byte *)(uintptr_t)q->at[i]; }

/* what the bytes are to be; a processor writes them even if they stay, so that a compare of read-only bytes is a fault */
static const unsigned char *new_bytes(const struct request *q, const struct answer *a, unsigned char sum[8]) {
    uint64_t number = number_in(a->bytes, 8) + q->number;
    for (unsigned i = 0; i < 8; i++) sum[i] = (unsigned char)(number >> 8 * i);
    if (q->task == ADD) return sum;
    return q->task == COMPARE && memcmp(a->bytes, q->expected, q->length) != 0 ? a->bytes : q->bytes;
}

static void access_bytes(const struct request *q, struct answer *a) {
    unsigned char sum[8];
    for (unsigned i = 0; i < q->length && q->task != STORE; i++) a->bytes[i] = *byte_at(q, i);
    a->value = (int64_t)number_in(a->bytes, q->task == LOAD ? 0 : q->length);
    const unsigned char *bytes = new_bytes(q, a, sum);
    for (unsigned i = 0; i < q->length && q->task != LOAD; i++) *byte_at(q, i) = bytes[i];
}

/* one access of the processor, in one order with those of all processes: plain stores of x86 are in none */
#define ACCESS_AS(type) { \
    type number, found, *at = (type *)(uintptr_t)q->at[0]; \
    memcpy(&number, q->bytes, sizeof number); \
    memcpy(&found, q->expected, sizeof found); \
    if (q->task == STORE) __atomic_store_n(at, number, __ATOMIC_SEQ_CST); \
    else if (q->task == EXCHANGE) found = __atomic_exchange_n(at, number, __ATOMIC_SEQ_CST); \
    else if (q->task == COMPARE) __atomic_compare_exchange_n(at, &found, number, 0, __ATOMIC_SEQ_CST, __ATOMIC_SEQ_CST); \
    else found = __atomic_load_n(at, __ATOMIC_SEQ_CST); \
    memcpy(a->bytes, &found, sizeof found); \
    a->value = q->task == LOAD ? 0 : (int64_t)found; }
static void access_whole(const struct request *q, struct answer *a) {
    if (q->length == 1) ACCESS_AS(uint8_t)
    else if (q->length == 2) ACCESS_AS(uint16_t)
    else if (q->length == 4) ACCESS_AS(uint32_t)
#ifdef __LP64__
    else if (q->task == ADD) a->value = (int64_t)__atomic_fetch_add((uint64_t *)q->at[0], q->number, __ATOMIC_SEQ_CST);
    else ACCESS_AS(uint64_t)
#endif
}

static void access_memory(const struct request *q, struct answer *a) {
    for (unsigned i = 0; i < q->length; i++) a->is_refused_here |= is_own(q->at[i], 1);
    if (a->is_refused_here) return;
    a->signal = sigsetjmp(escape, 1);
    is_accessing = a->signal == 0;
    if (is_accessing) (runs_at_once ? access_whole : access_bytes)(q, a);
    is_accessing = 0;
}

/* real and effective ids are the user's; the capabilities of user 0 are in effect only for that user */
static int take_user(unsigned uid, unsigned gid) {
    return (has_changes && seteuid(0)) || setresgid(gid, gid, gid) || setresuid(uid, uid, has_changes ? 0 : uid) ? -1 : 0;
}

/* an exec takes the effective user as the saved one, so the real one keeps user 0 meanwhile */
static void execute(struct answer *a) {
    uid_t user = geteuid();
    if (has_changes && setresuid(0, user, 0)) _exit(97);
    settle(a, execvp(exec_words[0], exec_words));
}

static void serve(int index) __attribute__((noreturn));

static void perform(const struct request *q, struct answer *a) {
    unsigned char resident;
    switch (q->task) {
    case GET: get(q, a); break;
    case ATTACH: attach(q, a); break;
    case DETACH: settle(a, shmdt((void *)(uintptr_t)q->address)); break;
    case CONTROL: control(q, a); break;
    case FORK: if ((a->value = fork()) == 0) serve(q->child); else settle(a, a->value); break;
    case EXEC: execute(a); break;
    case BECOMES: settle(a, q->is_placed ? 0 : take_user(q->uid, q->gid)); break;
    case EXIT: _exit(0);
    case UNMAPS:
    case PROTECTS: change_range(q, a); break;
    case MAPPED: a->value = mincore((void *)(uintptr_t)q->address, PAGE, &resident) == 0; break;
    default: access_memory(q, a);
    }
}

/* a pipe takes and gives less than PIPE_BUF bytes at once */
static int read_whole(int fd, void *to, size_t length) { return read(fd, to, length) == (ssize_t)length; }
static int write_whole(int fd, const void *from, size_t length) { return write(fd, from, length) == (ssize_t)length; }

static void serve(int index) {
    struct request q;
    char number[16];
    sprintf(number, "%d", index);
    setenv("PEER_WORKER", number, 1);
    if (has_changes) setenv("PEER_CHANGES", "1", 1);
    while (read_whole(FIRST_FD + 2 * index, &q, sizeof q)) {
        struct answer a = {0};
        perform(&q, &a);
        if (!write_whole(FIRST_FD + 2 * index + 1, &a, sizeof a)) break;
    }
    _exit(0);
}

static void prepare_worker(void) {
    signal(SIGSEGV, on_fault);
    signal(SIGBUS, on_fault);
    signal(SIGCHLD, SIG_IGN);
    signal(SIGPIPE, SIG_IGN);
    read_own_ranges();
}

/* the words that exec runs: those of --exec, which the environment keeps, or this program */
static void choose_exec_words(void) {
    const char *given = getenv("PEER_EXEC");
    char *words = strdup(given ? given : "/proc/self/exe");
    for (int i = 0; i < WORDS && words; i++) exec_words[i] = strtok(i ? NULL : words, " ");
}

static void continue_worker(int index) {
    struct answer done = {0};
    has_changes = getenv("PEER_CHANGES") != NULL;
    if (has_changes && setresuid(geteuid(), geteuid(), 0)) _exit(97);
    prepare_worker();
    if (!write_whole(FIRST_FD + 2 * index + 1, &done, sizeof done)) _exit(1);
    serve(index);
}

/* ---- the script ---- */

enum life { UNBORN, LIVE, ENDED };
struct piece { uint64_t base, size, real, origin; };
struct process {
    unsigned pid, uid, gid;
    int life, has_no_user, to, from, piece_count;
    pid_t real;
    struct piece pieces[PIECES];
};

static struct process processes[PROCESSES];
static struct script script;
static int life_fd = -1, alive_fd = -1, has_seconds, is_shared, is_root, limit_seconds = 10;

__attribute__((noreturn, format(printf, 2, 3))) static void fail(int status, const char *format, ...) {
    va_list rest;
    va_start(rest, format);
    fflush(stdout);
    fprintf(stderr, script.line ? "peer: line %d: " : "peer: ", script.line);
    vfprintf(stderr, format, rest);
    fputc('\n', stderr);
    va_end(rest);
    for (int i = 0; i < script.process_count; i++)
        if (processes[i].real > 0 && processes[i].life == LIVE) kill(processes[i].real, SIGKILL);
    exit(status);
}

static void declare_processes(void) {
    for (int i = 0; i < script.command_count; i++) has_changes |= script.commands[i].call == SETUID;
    for (int i = 0; i < script.process_count; i++) {
        const struct declared *d = &script.processes[i];
        processes[i] = (struct process){.pid = d->pid, .uid = d->uid, .gid = d->gid, .life = d->is_child ? UNBORN : LIVE};
    }
}

/* ---- identifiers, pids, times and addresses as the script has them ---- */

/* an identifier of the script is an index and how many segments were destroyed there before */
static struct segment { int real, is_gone; unsigned index, sequence; uint64_t size; } *segments;
static int segment_count;
static time_t *began;

static int64_t name_of(const struct segment *s) { return s->index + INT64_C(32768) * s->sequence; }

static void note_destroyed(void) {
    struct shmid_ds ignored;
    for (int i = 0; i < segment_count; i++)
        if (!segments[i].is_gone)
            segments[i].is_gone = shmctl(segments[i].real, IPC_STAT, &ignored) == -1 && errno != EACCES;
}

/* the newest segment with this identifier of the system, or with this one of the script */
static struct segment *find_segment(int real, int64_t name) {
    for (int i = segment_count; i-- > 0;)
        if (real >= 0 ? segments[i].real == real : name_of(&segments[i]) == name) return &segments[i];
    return NULL;
}

static int is_index_held(unsigned index) {
    int i = 0;
    while (i < segment_count && (segments[i].index != index || segments[i].is_gone)) i++;
    return i < segment_count;
}

static int64_t name_segment(int real, uint64_t size) {
    struct segment *s = find_segment(real, -1);
    unsigned index = 0, sequence = 0;
    if (s && !s->is_gone) return name_of(s);
    while (is_index_held(index)) index++;
    for (int i = 0; i < segment_count; i++) sequence += segments[i].index == index;
    segments[segment_count] = (struct segment){real, 0, index, sequence, (size + PAGE - 1) / PAGE * PAGE};
    return name_of(&segments[segment_count++]);
}

/* an identifier that the script never got is one that the system never gave */
static int real_identifier(uint64_t name) {
    struct segment *s = find_segment(-1, (int64_t)name);
    return s ? s->real : name > INT32_MAX ? -1 : INT32_MAX;
}

static unsigned script_pid(pid_t real) {
    for (int i = 0; real && i < script.process_count; i++)
        if (processes[i].real == real) return processes[i].pid;
    return (unsigned)real;
}

static void print_time(char *to, time_t at, int place) {
    while (has_seconds && place > 0 && began[place] != at) place--;
    if (at == 0 || !has_seconds) strcpy(to, at == 0 ? "0" : "set");
    else if (place == 0) strcpy(to, "elsewhen");
    else sprintf(to, "%d", place);
}

static struct piece *piece_at(struct process *p, uint64_t address) {
    for (int i = 0; i < p->piece_count; i++)
        if (p->pieces[i].base <= address && address - p->pieces[i].base < p->pieces[i].size) return &p->pieces[i];
    return NULL;
}

/* where no attach is, addresses are those of the system */
static uint64_t real_address(struct process *p, uint64_t address) {
    struct piece *piece = piece_at(p, address);
    return piece ? piece->real + (address - piece->base) : address;
}

/* the least gap that fits: what an address that the system chose is called */
static uint64_t chosen_name(struct process *p, uint64_t size) {
    uint64_t at = LOWEST_CHOSEN;
    for (int i = 0; i < p->piece_count; i++) {
        struct piece *q = &p->pieces[i];
        if (at < q->base + q->size && q->base < at + size) at = q->base + q->size, i = -1;
    }
    return at;
}

static void add_piece(struct process *p, struct piece piece) {
    if (p->piece_count == PIECES) fail(3, "more than %d pieces", PIECES);
    if (piece.size) p->pieces[p->piece_count++] = piece;
}

/* takes a range away from the pieces */
static void cut_pieces(struct process *p, uint64_t begin, uint64_t end) {
    for (int i = p->piece_count; i-- > 0;) {
        struct piece old = p->pieces[i];
        if (old.base >= end || begin >= old.base + old.size) continue;
        p->pieces[i] = p->pieces[--p->piece_count];
        if (old.base < begin) add_piece(p, (struct piece){old.base, begin - old.base, old.real, old.origin});
        if (end < old.base + old.size)
            add_piece(p, (struct piece){end, old.base + old.size - end, old.real + (end - old.base), old.origin});
    }
}

/* a new attach takes the place of what stood in its range */
static void replace_pieces(struct process *p, struct piece new) {
    cut_pieces(p, new.base, new.base + new.size);
    add_piece(p, new);
}

/* how many bytes of a range a piece has */
static uint64_t shared_bytes(const struct piece *q, uint64_t base, uint64_t size) {
    uint64_t begin = base > q->base ? base : q->base, end = q->base + q->size;
    if (end > base + size) end = base + size;
    return begin < end ? end - begin : 0;
}

/* whether a range of the script is one range of the system, and holds no attach that the script has elsewhere */
static int is_one_range(struct process *p, uint64_t base, uint64_t size) {
    uint64_t real = real_address(p, base), held = 0;
    for (int i = 0; i < p->piece_count; i++) {
        struct piece *q = &p->pieces[i];
        int is_met = q->real < real + size && real < q->real + q->size;
        held += shared_bytes(q, base, size);
        if ((is_met || shared_bytes(q, base, size)) && q->real - real != q->base - base) return 0;
    }
    return real == base || held == size;
}

/* from an address to the end of the first page without a piece */
static uint64_t run_of_pieces(struct process *p, uint64_t base) {
    uint64_t at = base;
    for (struct piece *q = piece_at(p, at); q; q = piece_at(p, at)) at = q->base + q->size;
    return at + PAGE - base;
}

/* ---- the director ---- */

static const char *error_name(int error) {
#define NAME(error) {error, #error}
    static const struct { int error; const char *name; } names[] = {
        NAME(EPERM), NAME(ENOENT), NAME(ESRCH), NAME(EIO), NAME(EAGAIN), NAME(ENOMEM), NAME(EACCES),
        NAME(EEXIST), NAME(EINVAL), NAME(EMFILE), NAME(ENOSPC), NAME(EIDRM), NAME(ENFILE), NAME(ENOSYS), NAME(EFAULT) };
    static char other[32];
    for (size_t i = 0; i < sizeof names / sizeof *names; i++)
        if (names[i].error == error) return names[i].name;
    snprintf(other, sizeof other, "errno%d", error);
    return other;
}

/* the workers end when the director's ends of their pipes are closed; then no process makes a segment any more */
static void clean_up(void) {
    struct pollfd alive = {alive_fd, POLLIN, 0};
    int got, id;
    while ((got = poll(&alive, 1, 1000 * limit_seconds)) == -1 && errno == EINTR) continue;
    for (off_t at = 0; pread(RECORD_FD, &id, sizeof id, at) == sizeof id; at += (off_t)sizeof id)
        shmctl(id, IPC_RMID, NULL);
    while (got > 0 && waitpid(-1, NULL, 0) > 0) continue;
}

/* the director cleans up too, so that nothing is left where the guardian is killed */
static void end_workers(void) {
    for (int i = 0; i < script.process_count; i++) close(processes[i].to);
    clean_up();
}

static void lose_guardian(void) {
    end_workers();
    fail(3, "the guardian is gone");
}

static void wait_a_little(void) {
    struct pollfd life = {life_fd, POLLIN, 0};
    if (poll(&life, 1, 5) > 0) lose_guardian();
}

/* the answer of a worker, or its end if it was asked to end */
static struct answer ask(struct process *p, const struct request *q) {
    struct answer a = {0};
    time_t end = time(NULL) + limit_seconds + 1;
    if (!write_whole(p->to, q, sizeof *q)) fail(3, "process %u is gone", p->pid);
    for (;;) {
        struct pollfd both[2] = {{p->from, POLLIN, 0}, {life_fd, POLLIN, 0}};
        if (poll(both, 2, q->task == EXIT ? 1 : 50) < 0) continue;
        if (both[1].revents) lose_guardian();
        if (both[0].revents & POLLIN) break;
        int is_ended = kill(p->real, 0) == -1 && errno == ESRCH;
        if (is_ended && q->task == EXIT) return a;
        if (is_ended) fail(3, "process %u died in its call", p->pid);
        if (time(NULL) >= end) fail(3, "process %u gave no answer in %d seconds", p->pid, limit_seconds);
    }
    if (!read_whole(p->from, &a, sizeof a)) fail(3, "process %u gave half an answer", p->pid);
    return a;
}

static void skip(char *reply, const char *why) { sprintf(reply, "skipped: %s", why); }

/* a reply that is no value; whether the call was made and not refused */
static int reply_plain(struct answer *a, char *reply) {
    if (a->is_refused_here) skip(reply, "the peer's own memory is there");
    else if (a->signal) strcpy(reply, a->signal == SIGSEGV ? "SIGSEGV" : "SIGBUS");
    else if (a->error) strcpy(reply, error_name(a->error));
    else strcpy(reply, "ok");
    return !a->is_refused_here && !a->signal && !a->error;
}

static void run_get(struct process *p, const uint64_t *v, char *reply, uint64_t *result) {
    struct request q = {.task = GET, .key = (unsigned)v[0], .size = v[1], .flags = (int)v[2]};
    note_destroyed();
    int found = is_shared && v[0] ? shmget((key_t)v[0], 0, 0) : -1;
    struct segment *known = found == -1 ? NULL : find_segment(found, -1);
    if ((found != -1 || (is_shared && v[0] && errno != ENOENT)) && (!known || known->is_gone))
        return skip(reply, "the system has a segment with this key");
    struct answer a = ask(p, &q);
    if (!reply_plain(&a, reply)) return;
    *result = (uint64_t)name_segment((int)a.value, v[1]);
    sprintf(reply, "%" PRIu64, *result);
}

static void run_attach(struct process *p, const uint64_t *v, char *reply, uint64_t *result) {
    struct segment *s = find_segment(-1, (int64_t)v[0]);
    uint64_t size = s ? s->size : PAGE, page = v[1] - v[1] % PAGE, base;
    struct request q = {.task = ATTACH, .id = real_identifier(v[0]), .flags = (int)v[2], .is_placed = v[1] != 0};
    q.size = size;
    q.address = real_address(p, page) + v[1] % PAGE;
    int is_occupied = piece_at(p, page) && !(v[2] & SHM_REMAP);
    if (v[1] && page + size > page && !is_occupied && !is_one_range(p, page, size))
        return skip(reply, "the range is not one range of the system");
    struct answer a = ask(p, &q);
    if (!reply_plain(&a, reply)) return;
    base = v[1] ? page : chosen_name(p, size);
    if ((uint64_t)a.value % PAGE) fail(3, "an attach at %#" PRIx64, (uint64_t)a.value);
    replace_pieces(p, (struct piece){base, size, (uint64_t)a.value, base});
    *result = base;
    sprintf(reply, base ? "0x%jx" : "null%.0jx", (uintmax_t)base);
}

/* which attaches went is looked up, not assumed */
static void run_detach(struct process *p, const uint64_t *v, char *reply) {
    struct request q = {.task = DETACH, .address = real_address(p, v[0])};
    for (int i = 0; i < p->piece_count && !piece_at(p, v[0]); i++) /* the first part was replaced and is gone */
        if (p->pieces[i].origin == v[0]) q.address = p->pieces[i].real - (p->pieces[i].base - v[0]);
    struct answer a = ask(p, &q);
    if (!reply_plain(&a, reply)) return;
    for (int i = p->piece_count; i-- > 0;) {
        struct request look = {.task = MAPPED, .address = p->pieces[i].real};
        if (ask(p, &look).value == 0) p->pieces[i] = p->pieces[--p->piece_count];
    }
}

/* user 2^32 - 1 is nobody in the system; without root there is one user */
static void run_setuid(struct process *p, const uint64_t *v, char *reply) {
    unsigned uid = (unsigned)v[0], gid = (unsigned)v[1];
    int is_same = p->uid == uid && p->gid == gid;
    if (!is_same && (!is_root || uid == UINT32_MAX || gid == UINT32_MAX)) return skip(reply, "no right to be this user");
    struct request q = {.task = BECOMES, .uid = uid, .gid = gid, .is_placed = is_same};
    struct answer a = ask(p, &q);
    if (reply_plain(&a, reply)) p->uid = uid, p->gid = gid;
}

/* an mprotect ends at the first page without a piece */
static void run_range(struct process *p, int call, const uint64_t *v, char *reply) {
    uint64_t page = v[0] - v[0] % PAGE, size = v[1] + (PAGE - v[1] % PAGE) % PAGE, reach = size;
    int is_none = page != v[0] || size == 0 || page + size < page;
    struct request q = {.task = call == MUNMAP ? UNMAPS : PROTECTS, .size = v[1]};
    q.flags = v[2] ? PROT_READ | PROT_WRITE : PROT_READ;
    if (call == MPROTECT && reach > run_of_pieces(p, page)) reach = run_of_pieces(p, page);
    q.reach = is_none ? 0 : reach;
    q.address = real_address(p, page) + v[0] % PAGE;
    if (q.reach && !is_one_range(p, page, q.reach)) return skip(reply, "the range is not one range of the system");
    struct answer a = ask(p, &q);
    if (reply_plain(&a, reply) && call == MUNMAP) cut_pieces(p, page, page + size);
}

static void print_segment(char *reply, const struct shmid_ds *s, int place) {
    char times[3][16];
    for (int i = 0; i < 3; i++) print_time(times[i], (time_t[]){s->shm_atime, s->shm_dtime, s->shm_ctime}[i], place);
    int is_dest = s->shm_perm.mode & SHM_DEST, is_locked = s->shm_perm.mode & SHM_LOCKED;
    sprintf(reply, "key=0x%08x uid=%u gid=%u cuid=%u cgid=%u mode=%03o status=%s size=%zu cpid=%u lpid=%u nattch=%lu "
        "atime=%s dtime=%s ctime=%s", (unsigned)s->shm_perm.__key, s->shm_perm.uid, s->shm_perm.gid,
        s->shm_perm.cuid, s->shm_perm.cgid, s->shm_perm.mode & 0777u,
        is_dest && is_locked ? "dest,locked" : is_dest ? "dest" : is_locked ? "locked" : "-", s->shm_segsz,
        script_pid(s->shm_cpid), script_pid(s->shm_lpid), (unsigned long)s->shm_nattch, times[0], times[1], times[2]);
}

static void run_stat(struct process *p, const uint64_t *v, char *reply, int place) {
    struct request q = {.task = CONTROL, .flags = IPC_STAT, .id = real_identifier(v[0])};
    struct answer a = ask(p, &q);
    if (reply_plain(&a, reply)) print_segment(reply, &a.segment, place);
}

static void run_control(struct process *p, int call, const uint64_t *v, char *reply) {
    struct request q = {.task = CONTROL, .id = real_identifier(v[0]), .uid = (unsigned)v[1], .gid = (unsigned)v[2]};
    q.mode = (unsigned)v[3];
    q.flags = call == SHMSET ? IPC_SET : call == RMID ? IPC_RMID : call == LOCK ? SHM_LOCK : SHM_UNLOCK;
    struct answer a = ask(p, &q);
    reply_plain(&a, reply);
}

static void print_bytes(char *to, const unsigned char *bytes, unsigned length) {
    for (unsigned i = 0; i < length; i++) sprintf(to + 2 * i, "%02x", bytes[i]);
}

/* the request of an access, without its addresses */
static struct request access_of(const struct command *c, const uint64_t *v) {
    static const int tasks[] = {LOAD, STORE, ADD, EXCHANGE, COMPARE};
    struct request q = {.task = tasks[c->call - ACCESS_LOAD], .number = v[1], .length = c->length};
    if (c->call == ACCESS_LOAD) q.length = (unsigned)v[1];
    if (c->call == XADD) q.length = 8;
    memcpy(q.bytes, c->bytes, sizeof q.bytes);
    memcpy(q.expected, c->expected, sizeof q.expected);
    return q;
}

/* each byte is looked up for itself: attaches that the script has side by side may lie apart in the system */
static void run_access(struct process *p, const struct command *c, const uint64_t *v, char *reply, uint64_t *result) {
    struct request q = access_of(c, v);
    if (q.length > sizeof q.bytes) fail(1, "bad length: %u", q.length);
    for (unsigned i = 0; i < q.length; i++)
        q.at[i] = v[0] + i < v[0] ? UINT64_MAX : real_address(p, v[0] + i);
    struct answer a = ask(p, &q);
    if (!reply_plain(&a, reply) || q.task == STORE) return;
    *result = (uint64_t)a.value;
    if (q.task == ADD) sprintf(reply, "%" PRIu64, *result);
    else print_bytes(reply, a.bytes, q.length);
}

static void run_fork(struct process *p, const uint64_t *v, char *reply) {
    int index = process_by_pid(&script, v[0]);
    struct process *child = &processes[index];
    struct request q = {.task = FORK, .child = index};
    if (child->life != UNBORN) return skip(reply, "no such child can be");
    struct answer a = ask(p, &q);
    if (!reply_plain(&a, reply)) return;
    *child = (struct process){.pid = child->pid, .uid = p->uid, .gid = p->gid, .life = LIVE, .real = (pid_t)a.value,
        .to = child->to, .from = child->from, .piece_count = p->piece_count};
    memcpy(child->pieces, p->pieces, sizeof p->pieces);
}

static void run_end(struct process *p, int call, char *reply) {
    struct request q = {.task = call == EXECS ? EXEC : EXIT};
    struct answer a = ask(p, &q);
    if (call == EXITS) p->life = ENDED;
    if (reply_plain(&a, reply)) p->piece_count = 0;
}

static void run(struct process *p, const struct command *c, const uint64_t *v, char *reply, uint64_t *result) {
    int is_range = c->call == MUNMAP || c->call == MPROTECT, is_sized = c->call == SHMGET || is_range;
    int is_too_large = (is_sized && (size_t)v[1] != v[1]) || (c->call == SHMAT && (uintptr_t)v[1] != v[1]) ||
        (is_range && (uintptr_t)v[0] != v[0]);
    if (is_too_large) skip(reply, "this system has no such number");
    else if (p->has_no_user) skip(reply, "no right to be this user");
    else if (c->call == SHMSET && !is_root && !is_shared && (v[1] != p->uid || v[2] != p->gid))
        skip(reply, "there is one user here");
    else if (p->life != LIVE) skip(reply, "no process makes this call");
    else if (c->call == SWAPOFF) skip(reply, "no swap area is the script's");
    else if (c->call == SHMGET) run_get(p, v, reply, result);
    else if (c->call == SHMAT) run_attach(p, v, reply, result);
    else if (c->call == SHMDT) run_detach(p, v, reply);
    else if (is_range) run_range(p, c->call, v, reply);
    else if (c->call <= CAS) run_access(p, c, v, reply, result);
    else if (c->call == SHMSTAT) run_stat(p, v, reply, (int)(c - script.commands) + 1);
    else if (c->call <= UNLOCK) run_control(p, c->call, v, reply);
    else if (c->call == FORKS) run_fork(p, v, reply);
    else if (c->call == SETUID) run_setuid(p, v, reply);
    else run_end(p, c->call, reply);
}

static void run_command(int place) {
    struct command *c = &script.commands[place - 1];
    uint64_t values[OPERANDS] = {0}, result = UINT64_MAX;
    char reply[512];
    script.line = c->line;
    print_call(&script, place, values);
    run(&processes[c->process], c, values, reply, &result);
    keep_result(&script, c, result);
    printf(" = %s\n", reply);
    fflush(stdout);
}

static int become_user(unsigned uid, unsigned gid) {
    struct rlimit locked = {script.limits[4] * PAGE, script.limits[4] * PAGE};
    setrlimit(RLIMIT_MEMLOCK, &locked);
    return !is_root || (!setgroups(0, NULL) && !take_user(uid, gid));
}

/* pipes to a worker and from it: its own ends keep their numbers through forks and execs */
static void open_pipes(int index) {
    int to[2], from[2], at = FIRST_FD + 2 * index;
    if (pipe2(to, O_CLOEXEC) || pipe2(from, O_CLOEXEC) || dup2(to[0], at) < 0 || dup2(from[1], at + 1) < 0)
        fail(3, "pipe: %s", strerror(errno));
    processes[index].to = fcntl(to[1], F_DUPFD_CLOEXEC, OWN_FD);
    processes[index].from = fcntl(from[0], F_DUPFD_CLOEXEC, OWN_FD);
    if (processes[index].to < 0 || processes[index].from < 0) fail(3, "pipe: %s", strerror(errno));
    for (int end = 0; end < 2; end++) close(to[end]), close(from[end]);
}

static void start_worker(int index) {
    struct process *p = &processes[index];
    int has_user = is_root ? p->uid != UINT32_MAX && p->gid != UINT32_MAX : p->uid == getuid() && p->gid == getgid();
    p->has_no_user = p->life == LIVE && !has_user;
    if (p->life != LIVE || !has_user) return;
    p->real = fork();
    if (p->real == -1) fail(3, "fork: %s", strerror(errno));
    if (p->real != 0) return;
    for (int i = 0; i < script.process_count; i++) close(processes[i].to), close(processes[i].from);
    close(life_fd);
    if (!become_user(p->uid, p->gid)) _exit(97);
    prepare_worker();
    serve(index);
}

#include "at_once.h"

__attribute__((noreturn)) static void direct(int *life) {
    close(life[1]);
    life_fd = life[0];
    segments = calloc((size_t)script.command_count + 1, sizeof *segments);
    began = calloc((size_t)script.command_count + 1, sizeof *began);
    if (!segments || !began) fail(3, "no memory");
    began[0] = time(NULL);
    signal(SIGCHLD, SIG_IGN);
    signal(SIGPIPE, SIG_IGN);
    prctl(PR_SET_CHILD_SUBREAPER, 1);
    for (int i = 0; i < script.process_count; i++) open_pipes(i);
    for (int i = 0; i < script.process_count; i++) start_worker(i);
    for (int fd = ALIVE_FD; fd < FIRST_FD + 2 * script.process_count; fd++) close(fd);
    for (int place = 1; place <= script.command_count; run_command(place++))
        while ((began[place] = time(NULL)) <= began[place - 1] && has_seconds) wait_a_little();
    end_workers();
    exit(0);
}

/* ---- the guardian ---- */

static void write_file(const char *path, const char *format, uint64_t a, uint64_t b) {
    FILE *file = fopen(path, "w");
    int is_written = file && fprintf(file, format, a, b) > 0;
    if (file && fclose(file) != 0) is_written = 0;
    if (!is_written) fprintf(stderr, "peer: note: %s stays as it is\n", path);
}

/* without root there is one user: the first of the script, in a user namespace */
static void enter_as_one_user(unsigned outer_uid, unsigned outer_gid) {
    write_file("/proc/self/setgroups", "deny", 0, 0);
    write_file("/proc/self/uid_map", "%" PRIu64 " %" PRIu64 " 1", processes[0].uid, outer_uid);
    write_file("/proc/self/gid_map", "%" PRIu64 " %" PRIu64 " 1", processes[0].gid, outer_gid);
}

static void drop_capabilities(void) {
    struct __user_cap_header_struct header = {_LINUX_CAPABILITY_VERSION_3, 0};
    struct __user_cap_data_struct none[2] = {{0}, {0}};
    syscall(SYS_capset, &header, none);
}

static void enter_namespace(void) {
    unsigned uid = geteuid(), gid = getegid();
    is_root = uid == 0;
    if (!is_shared && unshare(is_root ? CLONE_NEWIPC : CLONE_NEWIPC | CLONE_NEWUSER) == -1) is_shared = 1;
    if (is_shared) return (void)fprintf(stderr, "peer: note: in the system's own IPC namespace, under its limits\n");
    if (!is_root) enter_as_one_user(uid, gid);
    write_file("/proc/sys/kernel/shmmax", "%" PRIu64, script.limits[0], 0);
    write_file("/proc/sys/kernel/shmmni", "%" PRIu64, script.limits[1], 0);
    write_file("/proc/sys/kernel/shmall", "%" PRIu64, script.limits[2], 0);
    if (!is_root && processes[0].uid != 0) drop_capabilities();
}

/* an interrupt ends the director whenever it comes: it is held until there is one, and then passed on */
static volatile sig_atomic_t director;
static sigset_t interrupts;
static void on_interrupt(int signal) {
    int before = errno;
    (void)signal;
    if (director > 0) kill(director, SIGTERM);
    errno = before;
}

static void hold_interrupts(void) {
    sigemptyset(&interrupts);
    for (int i = 0; i < 3; i++) sigaddset(&interrupts, (int[]){SIGINT, SIGTERM, SIGHUP}[i]);
    sigprocmask(SIG_BLOCK, &interrupts, NULL);
}

static void take_interrupts(void) {
    struct sigaction action = {.sa_handler = on_interrupt};
    for (int i = 0; i < 3; i++) sigaction((int[]){SIGINT, SIGTERM, SIGHUP}[i], &action, NULL);
    sigprocmask(SIG_UNBLOCK, &interrupts, NULL);
}

/* how the director ended; nothing is passed on to it after its end */
static int await_director(void) {
    siginfo_t ended;
    int status = 0;
    while (waitid(P_PID, (id_t)director, &ended, WEXITED | WNOWAIT) == -1 && errno == EINTR) continue;
    pid_t pid = director;
    director = 0;
    while (waitpid(pid, &status, 0) == -1 && errno == EINTR) continue;
    return status;
}

static void open_guard(int *life) {
    int alive[2];
    FILE *record = tmpfile();
    if (!record || pipe(life) || pipe2(alive, O_CLOEXEC)) fail(3, "pipe: %s", strerror(errno));
    if (dup2(fileno(record), RECORD_FD) < 0 || dup2(alive[1], ALIVE_FD) < 0) fail(3, "dup2: %s", strerror(errno));
    fcntl(RECORD_FD, F_SETFL, O_APPEND);
    close(alive[1]);
    alive_fd = alive[0];
}

static int guard(void) {
    int life[2];
    open_guard(life);
    prctl(PR_SET_CHILD_SUBREAPER, 1);
    hold_interrupts();
    director = fork();
    if (director == 0) {
        sigprocmask(SIG_UNBLOCK, &interrupts, NULL);
        if (runs_at_once) direct_at_once(life, runs_at_once);
        direct(life);
    }
    if (director == -1) fail(3, "fork: %s", strerror(errno));
    take_interrupts();
    close(ALIVE_FD);
    int status = await_director();
    clean_up();
    if (WIFSIGNALED(status)) fprintf(stderr, "peer: ended by signal %d\n", WTERMSIG(status));
    return WIFEXITED(status) ? WEXITSTATUS(status) : 3;
}

int main(int argc, char **argv) {
    const char *usage = "usage: peer [--seconds] [--shared] [--limit S] [--at-once N] [--exec WORDS] [SCRIPT]";
    FILE *from = stdin;
    int i = 1;
    choose_exec_words();
    if (getenv("PEER_WORKER")) continue_worker(atoi(getenv("PEER_WORKER")));
    for (; i < argc && strncmp(argv[i], "--", 2) == 0; i++) {
        if (strcmp(argv[i], "--seconds") == 0) has_seconds = 1;
        else if (strcmp(argv[i], "--shared") == 0) is_shared = 1;
        else if (strcmp(argv[i], "--limit") == 0 && i + 1 < argc) limit_seconds = atoi(argv[++i]);
        else if (strcmp(argv[i], "--at-once") == 0 && i + 1 < argc && atoi(argv[i + 1]) > 0) runs_at_once = atoi(argv[++i]);
        else if (strcmp(argv[i], "--exec") == 0 && i + 1 < argc) setenv("PEER_EXEC", argv[++i], 1);
        else fail(2, "%s", usage);
    }
    if (argc - i > 1 || limit_seconds < 1) fail(2, "%s", usage);
    if (i < argc && !(from = fopen(argv[i], "r"))) fail(1, "%s: %s", argv[i], strerror(errno));
    if (sysconf(_SC_PAGESIZE) != PAGE) fail(4, "skipped: pages here are not of %d bytes", PAGE);
    choose_exec_words();
    read_script(&script, from);
    declare_processes();
    enter_namespace();
    has_changes &= is_root;
    return guard();
}

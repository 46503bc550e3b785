/* A small emulator: guest processes of a toy processor, whose shared memory is the library. A first guest forks others, 200
   at once and 10,000 in its life, so that pids are used again; each adds to one counter in a segment of 64 MiB. Eight children
   more add to a plain number under a lock, and one gets bytes by a pipe. Then a child gives up its user, as after setuid(2),
   and may not attach what it may still use. The first guest protects one page of the segment and unmaps it. After 5,100 lives
   the emulator saves everything, the library's machine by a snapshot; when the guests have ended it resumes what it saved, and
   they end again in the same way. The emulator checks what it sees.

   A guest has eight registers and no other memory than what it attached. Each access goes to the library, by the guest's
   pid and address; one that is refused ends the guest, as a signal would. A refused system call answers the guest the
   negative error number, as on Linux. */
#include <inttypes.h>
#include <stdio.h>
#include <string.h>
#include <nogcuvema.h>

enum { GUESTS = 201, FIRST_PID = 1, LIVES = 10000, AT_ONCE = GUESTS - 1, USER = 100, NOBODY = 65534, NINE_BITS = 0777 };
enum { GET_FLAGS = NOG_CREAT | NOG_EXCL | NOG_HUGETLB | NOG_NORESERVE, AT_FLAGS = NOG_RDONLY | NOG_RND | NOG_REMAP | NOG_EXEC };
enum { SIZE = 64 << 20, PAGE = 4096, TICKS_A_SECOND = 1000, SAVED_AFTER = 5100, LOCKERS = 8, ALL_LIVES = LIVES + LOCKERS + 2 };
#define BOOTED UINT64_C(1700000000)

/* ---- the guest ---- */

/* A gets the result of a system call; A, B and C are its operands */
enum { A, B, C, ID, AT, LEFT, ROUND, ONE, REGISTERS };

enum operation {
    SET,     /* register, number */
    COPY,    /* register, from register */
    ADD,     /* register, number */
    LOAD,    /* register, register with the address of eight bytes */
    STORE,   /* register, register with the address of eight bytes */
    COUNT,   /* register, register with the address of the eight bytes that it is added to, in one step */
    TAKE,    /* register, register with the address of a lock of eight bytes: they become 1 if they are 0, in one step, and the
                register gets what was there */
    BRANCH,  /* register, instruction that is next if the register is not 0 */
    SYSTEM   /* register 0, system call */
};
struct instruction { enum operation operation; int to; int64_t from; };
enum system_call { SHMGET, SHMAT, SHMDT, SHMRM, FORK, PAUSE, RELEASE, WAIT, SETUID, MPROTECT, MUNMAP, SEND, RECEIVE, WRITE, EXIT };
enum { PROT_READ = 1, PROT_WRITE = 2 };

/* what is in the segment: a counter, a lock, and the number that it protects */
enum { LOCK_AT = 8, NUMBER_AT = 16, MESSAGE = 24 };

enum { ROUNDS = 11, FORKS = 12, PARENT = 17, WAITS = 21, LOCK_FORKS = 31, SPINS = 34, LOCK_PARENT = 42, LOCK_WAITS = 46,
       SENDS = 68, SHOWS = 83 };
static const struct instruction program[] = {
    {SET, A, NOG_PRIVATE}, {SET, B, SIZE}, {SET, C, 0600}, {SYSTEM, 0, SHMGET}, {COPY, ID, A},
    {SET, B, 0}, {SET, C, 0}, {SYSTEM, 0, SHMAT}, {COPY, AT, A},
    {SET, ROUND, LIVES / AT_ONCE}, {SET, ONE, 1},
    [ROUNDS] = {SET, LEFT, AT_ONCE},
    [FORKS] = {SYSTEM, 0, FORK}, {BRANCH, A, PARENT}, {SYSTEM, 0, PAUSE}, {COUNT, ONE, AT}, {SYSTEM, 0, EXIT},
    [PARENT] = {ADD, LEFT, -1}, {BRANCH, LEFT, FORKS},
    {SYSTEM, 0, RELEASE}, {SET, LEFT, AT_ONCE},
    [WAITS] = {SYSTEM, 0, WAIT}, {ADD, LEFT, -1}, {BRANCH, LEFT, WAITS},
    {ADD, ROUND, -1}, {BRANCH, ROUND, ROUNDS},
    {COPY, B, AT}, {ADD, B, LOCK_AT}, {COPY, C, AT}, {ADD, C, NUMBER_AT}, {SET, LEFT, LOCKERS},
    [LOCK_FORKS] = {SYSTEM, 0, FORK}, {BRANCH, A, LOCK_PARENT}, {SYSTEM, 0, PAUSE},
    [SPINS] = {TAKE, A, B}, {BRANCH, A, SPINS}, /* all at once, and one of them has the lock */
    {LOAD, A, C}, {ADD, A, 1}, {STORE, A, C}, {SET, A, 0}, {STORE, A, B}, {SYSTEM, 0, EXIT},
    [LOCK_PARENT] = {ADD, LEFT, -1}, {BRANCH, LEFT, LOCK_FORKS}, {SYSTEM, 0, RELEASE}, {SET, LEFT, LOCKERS},
    [LOCK_WAITS] = {SYSTEM, 0, WAIT}, {ADD, LEFT, -1}, {BRANCH, LEFT, LOCK_WAITS},
    {SYSTEM, 0, FORK}, {BRANCH, A, SENDS},
    {SET, A, NOG_PRIVATE}, {SET, B, PAGE}, {SET, C, 0600}, {SYSTEM, 0, SHMGET}, {COPY, ID, A}, /* memory of the child's own */
    {SET, B, 0}, {SET, C, 0}, {SYSTEM, 0, SHMAT}, {COPY, AT, A},
    {SET, B, MESSAGE}, {SYSTEM, 0, RECEIVE}, {ADD, AT, NUMBER_AT}, {LOAD, A, AT}, {SYSTEM, 0, WRITE},
    {COPY, A, ID}, {SYSTEM, 0, SHMRM}, {SYSTEM, 0, EXIT},
    [SENDS] = {COPY, A, AT}, {SET, B, MESSAGE}, {SYSTEM, 0, SEND}, {SYSTEM, 0, WAIT},
    {SYSTEM, 0, FORK}, {BRANCH, A, SHOWS},
    {SET, A, NOBODY}, {SYSTEM, 0, SETUID}, {COPY, A, ID}, {SET, B, 0}, {SET, C, 0}, {SYSTEM, 0, SHMAT}, {SYSTEM, 0, WRITE},
    {COUNT, ONE, AT}, {SYSTEM, 0, EXIT}, /* what it had attached stays attached */
    [SHOWS] = {SYSTEM, 0, WAIT}, {LOAD, A, AT}, {SYSTEM, 0, WRITE},
    {COPY, A, AT}, {ADD, A, PAGE}, {SET, B, PAGE}, {SET, C, PROT_READ}, {SYSTEM, 0, MPROTECT},
    {COPY, A, AT}, {ADD, A, PAGE}, {SYSTEM, 0, MUNMAP},
    {COPY, A, ID}, {SYSTEM, 0, SHMRM},
    {COPY, A, AT}, {SYSTEM, 0, SHMDT}, /* what is left on both sides of the hole */
    {LOAD, A, AT}, /* nothing is attached there now */
    {SYSTEM, 0, EXIT}
};

/* ---- the emulator ---- */

enum life { NONE, RUNNING, PAUSED, RECEIVING, ENDED };
struct guest { enum life life; int64_t next; uint64_t registers[REGISTERS]; };
/* the guest with pid n is at place n - FIRST_PID */
struct emulator { nog_machine memory; struct guest guests[GUESTS]; uint64_t ticks, lives, most, busy; int is_wrong; };

static const char *text_of(uint32_t code, uint8_t text[64]) {
    size_t len;
    return nog_text(code, text, 64, &len) == NOG_DONE ? (const char *)text : "?";
}

static uint32_t pid_of(const struct emulator *e, const struct guest *g) { return FIRST_PID + (uint32_t)(g - e->guests); }

static void end_guest(struct emulator *e, struct guest *g) {
    g->life = ENDED;
    (void)nog_exit(&e->memory, pid_of(e, g));
}

/* the result of an access to eight bytes: one that fails ends the guest. A SIGSEGV has the address that failed. */
static void settle_access(struct emulator *e, struct guest *g, uint32_t code, uint64_t addr, int is_write) {
    uint8_t text[64];
    uint64_t at = addr;
    if (code == NOG_DONE) return;
    if (code == NOG_SIGSEGV) (void)nog_failed_at(&e->memory, pid_of(e, g), addr, 8, is_write != 0, &at);
    printf("guest %" PRIu32 " ends: %s at 0x%" PRIx64 "\n", pid_of(e, g), text_of(code, text), at);
    end_guest(e, g);
}

static void bytes_of(uint64_t number, uint8_t bytes[8]) {
    for (int i = 0; i < 8; i++) bytes[i] = (uint8_t)(number >> 8 * i);
}

static uint64_t number_of(const uint8_t bytes[8]) {
    uint64_t number = 0;
    for (int i = 8; i-- > 0;) number = number << 8 | bytes[i];
    return number;
}

static uint32_t number_at(struct emulator *e, uint32_t pid, uint64_t addr, uint64_t *number) {
    uint8_t bytes[8] = {0};
    uint32_t code = nog_load(&e->memory, pid, addr, bytes, sizeof bytes);
    *number = number_of(bytes);
    return code;
}

static void load(struct emulator *e, struct guest *g, uint64_t *to, uint64_t addr) {
    settle_access(e, g, number_at(e, pid_of(e, g), addr, to), addr, 0);
}

static void store(struct emulator *e, struct guest *g, uint64_t number, uint64_t addr) {
    uint8_t bytes[8];
    bytes_of(number, bytes);
    settle_access(e, g, nog_store(&e->memory, pid_of(e, g), addr, bytes, sizeof bytes), addr, 1);
}

/* a lock: only one guest finds a 0 there, whatever the others do between its instructions */
static void take(struct emulator *e, struct guest *g, uint64_t *to, uint64_t addr) {
    uint8_t is_free[8], is_taken[8], before[8] = {0};
    bytes_of(0, is_free);
    bytes_of(1, is_taken);
    uint32_t code = nog_compare_exchange(&e->memory, pid_of(e, g), addr, is_free, 8, is_taken, 8, before, 8);
    *to = number_of(before);
    e->busy += *to;
    settle_access(e, g, code, addr, 1);
}

static void count(struct emulator *e, struct guest *g, uint64_t add, uint64_t addr) {
    uint64_t before;
    settle_access(e, g, nog_add(&e->memory, pid_of(e, g), addr, add, &before), addr, 1);
}

/* a child joins under the least free pid and is forked at once; both continue after the fork */
static uint32_t fork_guest(struct emulator *e, const struct guest *g, uint64_t *answer) {
    uint64_t live = 1; /* the child */
    struct guest *child = e->guests;
    for (int i = 0; i < GUESTS; i++) live += e->guests[i].life != NONE && e->guests[i].life != ENDED;
    while (child < e->guests + GUESTS && child->life != NONE) child++;
    if (child == e->guests + GUESTS) return NOG_EAGAIN;
    nog_process process = {.pid = pid_of(e, child)};
    uint32_t code = nog_admit(&e->memory, &process);
    if (code == NOG_DONE) code = nog_fork(&e->memory, pid_of(e, g), process.pid);
    if (code != NOG_DONE) return code;
    *child = *g;
    child->registers[A] = 0;
    *answer = process.pid;
    e->lives++;
    if (live > e->most) e->most = live;
    return NOG_DONE;
}

/* a child that ended is forgotten, and its pid is free; a guest whose children all run makes its call again */
static uint32_t wait_for_child(struct emulator *e, struct guest *g, uint64_t *answer) {
    for (struct guest *child = e->guests + 1; child < e->guests + GUESTS; child++) {
        if (child->life != ENDED) continue;
        child->life = NONE;
        *answer = pid_of(e, child);
        return nog_dismiss(&e->memory, pid_of(e, child));
    }
    g->next--;
    return NOG_DONE;
}

static void release(struct emulator *e) {
    for (int i = 0; i < GUESTS; i++)
        if (e->guests[i].life == PAUSED) e->guests[i].life = RUNNING;
}

/* a pipe without a buffer: the bytes go straight to the guest that waits for them. A writer without a reader makes its call
   again. Both return how many bytes there were, also if an address is wrong midway. */
static uint32_t send_bytes(struct emulator *e, struct guest *g, uint64_t *answer) {
    struct guest *reader = e->guests;
    uint64_t *r = g->registers, done = 0;
    while (reader < e->guests + GUESTS && reader->life != RECEIVING) reader++;
    if (reader == e->guests + GUESTS) {
        g->next--;
        *answer = r[A];
        return NOG_DONE;
    }
    uint64_t len = r[B] < reader->registers[B] ? r[B] : reader->registers[B];
    uint32_t code = nog_copy(&e->memory, pid_of(e, g), r[A], pid_of(e, reader), reader->registers[A], len, &done);
    if (code != NOG_DONE && done == 0) return code;
    printf("guest %" PRIu32 " sends guest %" PRIu32 " %" PRIu64 " bytes\n", pid_of(e, g), pid_of(e, reader), done);
    e->is_wrong |= done != MESSAGE;
    reader->registers[A] = *answer = done;
    reader->life = RUNNING;
    return NOG_DONE;
}

/* looks at the segment before it is destroyed: all children have detached, the first guest has it on both sides of the page
   that it unmapped, and its times are the guests' seconds */
static void look(struct emulator *e, int32_t id) {
    nog_segment s = {0};
    uint64_t now = BOOTED + e->ticks / TICKS_A_SECOND;
    e->is_wrong |= nog_segment_at(&e->memory, 0, &s) != NOG_DONE;
    if (s.id != id) return; /* another segment */
    e->is_wrong |= s.size != SIZE || s.uid != USER || s.nattch != 2;
    e->is_wrong |= s.ctime != BOOTED || s.dtime > now || s.dtime + 1 < now;
}

static uint32_t shared_memory_call(nog_machine *memory, uint32_t pid, const uint64_t *r, int64_t call, uint64_t *answer) {
    uint32_t flags = (uint32_t)r[C], code = NOG_DONE;
    int32_t id = 0;
    switch (call) {
    case SHMGET:
        code = nog_get(memory, pid, (uint32_t)r[A], r[B], flags & NINE_BITS, flags & GET_FLAGS, &id);
        *answer = (uint64_t)id;
        return code;
    case SHMAT:
        return nog_attach(memory, pid, (int32_t)r[A], r[B], flags & AT_FLAGS, answer);
    case SHMDT: return nog_detach(memory, pid, r[A]);
    default: return nog_remove(memory, pid, (int32_t)r[A]);
    }
}

/* mprotect(2) and munmap(2) change attachments too: a part of one that differs counts in nattch. An emulator whose guests have
   other memory than what they attached changes that as well. */
static uint32_t range_call(struct emulator *e, uint32_t pid, const uint64_t *r, int64_t call) {
    nog_segment s = {0};
    uint32_t code = NOG_EINVAL; /* the library has no page that may not be read */
    if (call == MUNMAP) code = nog_unmap(&e->memory, pid, r[A], r[B]);
    else if (r[C] & PROT_READ) code = nog_protect(&e->memory, pid, r[A], r[B], (r[C] & PROT_WRITE) != 0);
    e->is_wrong |= nog_segment_at(&e->memory, 0, &s) != NOG_DONE;
    printf("guest %" PRIu32 " %s a page: nattch is %" PRIu32 "\n", pid, call == MUNMAP ? "unmaps" : "protects", s.nattch);
    return code;
}

static void system_call(struct emulator *e, struct guest *g, int64_t call) {
    uint64_t *r = g->registers, answer = 0;
    uint32_t code = NOG_DONE, pid = pid_of(e, g);
    switch (call) {
    case SHMRM: look(e, (int32_t)r[A]); code = shared_memory_call(&e->memory, pid, r, call, &answer); break;
    case FORK: code = fork_guest(e, g, &answer); break;
    case PAUSE: g->life = PAUSED; break;
    case RELEASE: release(e); break;
    case WAIT: code = wait_for_child(e, g, &answer); break;
    case SETUID: code = nog_set_user(&e->memory, pid, (uint32_t)r[A], (uint32_t)r[A]); break;
    case MPROTECT:
    case MUNMAP: code = range_call(e, pid, r, call); break;
    case SEND: code = send_bytes(e, g, &answer); break;
    case RECEIVE: g->life = RECEIVING; answer = r[A]; break; /* its address, until the bytes are there */
    case WRITE: printf("guest %" PRIu32 " writes %" PRId64 "\n", pid, (int64_t)r[A]); answer = r[A]; break;
    case EXIT: end_guest(e, g); break;
    default: code = shared_memory_call(&e->memory, pid, r, call, &answer);
    }
    r[A] = code == NOG_DONE ? answer : (uint64_t)-(int64_t)code;
}

static void run_instruction(struct emulator *e, struct guest *g) {
    struct instruction now = program[g->next++];
    uint64_t *r = g->registers;
    switch (now.operation) {
    case SET: r[now.to] = (uint64_t)now.from; break;
    case COPY: r[now.to] = r[now.from]; break;
    case ADD: r[now.to] += (uint64_t)now.from; break;
    case LOAD: load(e, g, &r[now.to], r[now.from]); break;
    case STORE: store(e, g, r[now.to], r[now.from]); break;
    case COUNT: count(e, g, r[now.to], r[now.from]); break;
    case TAKE: take(e, g, &r[now.to], r[now.from]); break;
    case BRANCH: g->next = r[now.to] ? now.from : g->next; break;
    case SYSTEM: system_call(e, g, now.from); break;
    }
}

/* the guests take turns, an instruction each, until the first has ended or this many guests have lived; the guests' clock
   gives the library its seconds */
static uint32_t run(struct emulator *e, uint64_t lives) {
    while (e->guests[0].life == RUNNING && e->lives < lives) {
        for (struct guest *g = e->guests; g < e->guests + GUESTS; g++)
            if (g->life == RUNNING) run_instruction(e, g);
        uint32_t code = nog_set_time(&e->memory, BOOTED + ++e->ticks / TICKS_A_SECOND);
        if (code != NOG_DONE) return code;
    }
    return NOG_DONE;
}

/* a machine that answers as Linux does, for one guest and with room for many */
static uint32_t start(struct emulator *e) {
    const nog_limits limits = {.shmmax = SIZE, .shmmni = 4096, .shmall = 1 << 20, .frames = 1 << 16, .memlock = 1 << 15,
                               .most_pieces = 1024, .most_processes = GUESTS, .most_slots = 1 << 20, .rules = NOG_LINUX};
    const nog_area swap = {NOG_SPARSE, 1 << 20};
    const nog_failure none = {.call = 1};
    const nog_process first = {.pid = FIRST_PID, .is_born = 1, .uid = USER, .gid = USER};
    e->guests[0].life = RUNNING;
    uint32_t code = nog_open(&e->memory, &limits, &swap, 1, &none, 0, &first, 1);
    return code == NOG_DONE ? nog_set_time(&e->memory, BOOTED) : code;
}

/* ---- saving and resuming ---- */

/* a moment of the guests, to compare a saved one with */
struct moment { uint64_t counter, attached, detached; uint32_t last_pid, nattch, live; };

static uint32_t look_around(struct emulator *e, struct moment *m) {
    nog_segment s = {0};
    nog_process p = {0};
    uint32_t code = nog_segment_at(&e->memory, 0, &s);
    if (code == NOG_DONE) code = number_at(e, FIRST_PID, e->guests[0].registers[AT], &m->counter);
    m->attached = s.atime, m->detached = s.dtime, m->last_pid = s.lpid, m->nattch = s.nattch, m->live = 0;
    for (uint32_t i = 0; nog_process_at(&e->memory, i, &p) == NOG_DONE; i++) m->live += p.is_born == 1;
    printf("the counter is %" PRIu64 ", nattch %" PRIu32 ", %" PRIu32 " processes live\n", m->counter, m->nattch, m->live);
    return code;
}

/* the emulator's own state, and the library's: a handle is never copied, nog_snapshot opens another machine */
static uint32_t save(struct emulator *e, struct emulator *to) {
    memcpy(to->guests, e->guests, sizeof e->guests);
    to->ticks = e->ticks, to->lives = e->lives, to->most = e->most, to->busy = e->busy;
    return nog_snapshot(&e->memory, &to->memory);
}

static uint32_t run_to_the_end(struct emulator *e) {
    nog_tally tally = {0};
    uint32_t code = run(e, UINT64_MAX);
    if (code == NOG_DONE) code = nog_tally_of(&e->memory, &tally);
    printf("%" PRIu64 " lives, %" PRIu64 " at once, %" PRIu64 " segments are left\n", e->lives, e->most, tally.segments);
    e->is_wrong |= e->lives != ALL_LIVES || e->most != GUESTS || e->busy == 0 || tally.segments != 0;
    return code;
}

static uint32_t run_and_resume(struct emulator *e, struct emulator *saved) {
    struct moment then = {0}, now = {0};
    uint32_t code = start(e);
    if (code == NOG_DONE) code = run(e, SAVED_AFTER);
    if (code == NOG_DONE) code = look_around(e, &then);
    if (code == NOG_DONE) code = save(e, saved);
    if (code == NOG_DONE) code = run_to_the_end(e);
    if (code == NOG_DONE) puts("resumed");
    if (code == NOG_DONE) code = look_around(saved, &now);
    saved->is_wrong |= now.counter != then.counter || now.attached != then.attached || now.detached != then.detached;
    saved->is_wrong |= now.last_pid != then.last_pid || now.nattch != then.nattch || now.live != then.live;
    return code == NOG_DONE ? run_to_the_end(saved) : code;
}

int main(void) {
    static struct emulator e = {.memory = NOG_MACHINE_INITIALIZER}, saved = {.memory = NOG_MACHINE_INITIALIZER};
    uint8_t text[64];
    uint32_t code = run_and_resume(&e, &saved);
    if (code != NOG_DONE) fprintf(stderr, "emulator: %s\n", text_of(code, text));
    nog_close(&e.memory);
    nog_close(&saved.memory);
    return code != NOG_DONE || e.is_wrong || saved.is_wrong;
}

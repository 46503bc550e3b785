/* --at-once N: each process of a script makes its calls alone, from a common start, so that calls meet in the kernel. Each of
   the N runs is printed as a log that ./shmcheck judge reads, its lines in the order in which the calls ended. A comment before
   each line has the nanoseconds at which its call began and ended. A reply that is an identifier, or an address that the system
   chose, is `?`. peer.c includes this file after its workers. */
#ifndef AT_ONCE_H
#define AT_ONCE_H

enum { LONGEST_WAIT = 4096, SPINS = 200 };

/* the reply to a process's command, and when it came; `why` says why the command could not be made */
struct told { struct answer answer; uint64_t began, ended; const char *why; int is_made; };

/* memory of all processes. Each begins when all are ready, and ends when all are done, because an end detaches. */
static struct shared { int ready, done; struct told told[]; } *shared;

/* ---- a worker ---- */

static uint64_t now(void) {
    struct timespec at;
    clock_gettime(CLOCK_MONOTONIC, &at);
    return (uint64_t)at.tv_sec * 1000000000 + (uint64_t)at.tv_nsec;
}

/* in half of the runs each process waits a little before each command, so that calls meet in other orders */
static void wait_by_chance(int run, unsigned *chance) {
    *chance = *chance * 1103515245u + 12345u;
    for (volatile unsigned i = run % 2 ? 0 : (*chance >> 16) % LONGEST_WAIT; i > 0; i--) continue;
}

static void meet(int *number) {
    __atomic_add_fetch(number, 1, __ATOMIC_SEQ_CST);
    for (int i = 0; __atomic_load_n(number, __ATOMIC_SEQ_CST) < script.process_count; i++)
        if (i > SPINS) sched_yield();
}

static struct request access_request(const struct command *c, const uint64_t *v) {
    struct request q = access_of(c, v);
    /* no attachment is there, so that one byte meets the same signal */
    int is_nowhere = v[0] < PAGE || v[0] >= END_OF_ADDRESSES;
    if (is_nowhere) q.length = 1;
    for (unsigned i = 0; i < q.length && i < sizeof q.bytes; i++) q.at[i] = v[0] + i;
    return q;
}

static struct request request_at_once(const struct command *c, const uint64_t *v) {
    int id = v[0] > INT32_MAX ? -1 : (int)v[0];
    switch (c->call) {
    case SHMGET: return (struct request){.task = GET, .key = (unsigned)v[0], .size = v[1], .flags = (int)v[2]};
    case SHMAT: return (struct request){.task = ATTACH, .id = id, .size = script.limits[0], .address = v[1],
        .is_placed = v[1] != 0, .flags = (int)v[2]};
    case SHMDT: return (struct request){.task = DETACH, .address = v[0]};
    case SHMSTAT: return (struct request){.task = CONTROL, .id = id, .flags = IPC_STAT};
    case SHMSET: return (struct request){.task = CONTROL, .id = id, .flags = IPC_SET, .uid = (unsigned)v[1],
        .gid = (unsigned)v[2], .mode = (unsigned)v[3]};
    case RMID: return (struct request){.task = CONTROL, .id = id, .flags = IPC_RMID};
    case MUNMAP: return (struct request){.task = UNMAPS, .address = v[0], .size = v[1], .reach = v[1]};
    case MPROTECT: return (struct request){.task = PROTECTS, .address = v[0], .size = v[1], .reach = v[1],
        .flags = v[2] ? PROT_READ | PROT_WRITE : PROT_READ};
    case SETUID: return (struct request){.task = BECOMES, .uid = (unsigned)v[0], .gid = (unsigned)v[1]};
    default: return access_request(c, v);
    }
}

/* an access is one of the processor */
static const char *why_not_made(const struct request *q) {
    int is_access = q->task >= LOAD && q->task <= COMPARE, n = (int)q->length;
    int has_form = n == 1 || n == 2 || n == 4 || n == 8;
    return is_access && (!has_form || q->at[0] % q->length) ? "an access at once is of 1, 2, 4 or 8 aligned bytes" : NULL;
}

static void make_at_once(const struct command *c, struct told *told) {
    const struct declared *d = &script.processes[c->process];
    uint64_t values[OPERANDS], result;
    for (int i = 0; i < OPERANDS; i++) values[i] = operand_value(d, c->operands[i]);
    struct request q = request_at_once(c, values);
    told->why = why_not_made(&q);
    told->began = now();
    if (!told->why) perform(&q, &told->answer);
    told->ended = now();
    if (told->answer.is_refused_here) told->why = "the peer's own memory is there";
    int is_refused = told->why || told->answer.error || told->answer.signal;
    result = is_refused ? UINT64_MAX : (uint64_t)told->answer.value;
    keep_result(&script, c, result);
    told->is_made = 1;
}

__attribute__((noreturn)) static void work_at_once(int index, int run) {
    unsigned chance = (unsigned)(run * PROCESSES + index);
    meet(&shared->ready);
    for (int i = 0; i < script.command_count; i++) {
        if (script.commands[i].process != index) continue;
        wait_by_chance(run, &chance);
        make_at_once(&script.commands[i], &shared->told[i]);
    }
    meet(&shared->done);
    _exit(0);
}

/* ---- the director ---- */

/* the call that last set a variable of the command's process, before this command */
static int source_of(const struct command *c, int variable) {
    const struct command *at = c;
    while (at-- > script.commands)
        if (at->process == c->process && at->variable == variable) return at->call;
    return CALLS;
}

/* identifiers and addresses here are not those of the script, so that a script must not have one as a number */
static void require_operand(const struct command *c, struct operand o, char letter) {
    int needed = letter == 'i' ? SHMGET : letter == 'a' ? SHMAT : XADD;
    if (o.variable < 0 && letter == 'i') fail(1, "at once an identifier is a variable");
    if (o.variable < 0) return;
    if (source_of(c, o.variable) != needed) fail(1, "at once this variable is that of a %s above", calls[needed].name);
}

/* whether a script has only what this file makes */
static void require_at_once(void) {
    for (int i = 0; i < script.process_count; i++)
        if (script.processes[i].is_child) fail(1, "at once there is no child");
    for (int i = 0; i < script.command_count; i++) {
        const struct command *c = &script.commands[i];
        int is_made = (c->call <= RMID && !(c->call == SHMAT && c->operands[2].number & REMAP)) || c->call >= MUNMAP;
        script.line = c->line;
        if (!is_made) fail(1, "not made at once: %s", c->call == SHMAT ? "remap" : calls[c->call].name);
        for (int k = 0; calls[c->call].operands[k]; k++) require_operand(c, c->operands[k], calls[c->call].operands[k]);
    }
    script.line = 0;
    for (int i = 0; i < script.process_count; i++) {
        const struct process *p = &processes[i];
        int has_user = is_root ? p->uid != UINT32_MAX && p->gid != UINT32_MAX : p->uid == processes[0].uid && p->gid == processes[0].gid;
        if (!has_user) fail(4, "skipped: no right to be user %u", p->uid);
    }
    for (int i = 0; i < script.command_count && !is_root; i++)
        if (script.commands[i].call == SETUID) fail(4, "skipped: no right to change the user");
    if (is_shared) fail(4, "skipped: at once needs an IPC namespace of its own");
    if (sizeof(void *) != sizeof(uint64_t)) fail(4, "skipped: at once needs 64 bits");
}

static void start_at_once(int index, int run) {
    struct process *p = &processes[index];
    pid_t parent = getpid();
    p->real = fork();
    if (p->real == -1) fail(3, "fork: %s", strerror(errno));
    p->life = LIVE;
    if (p->real != 0) return;
    if (!become_user(p->uid, p->gid)) _exit(97);
    prctl(PR_SET_PDEATHSIG, SIGKILL);
    if (getppid() != parent) _exit(96);
    prepare_worker();
    work_at_once(index, run);
}

/* the workers have the other end of this pipe, which closes with the last of them */
static void await_workers(int fd) {
    struct pollfd both[2] = {{fd, POLLIN, 0}, {life_fd, POLLIN, 0}};
    int got;
    while ((got = poll(both, 2, 1000 * limit_seconds)) == -1 && errno == EINTR) continue;
    if (both[1].revents) fail(3, "the guardian is gone");
    if (got == 0) fail(3, "a run did not end in %d seconds", limit_seconds);
    for (int i = 0; i < script.process_count; i++) {
        int status = 0;
        while (waitpid(processes[i].real, &status, 0) == -1 && errno == EINTR) continue;
        processes[i].life = ENDED;
        if (status != 0) fail(3, "process %u died", processes[i].pid);
    }
}

static void reply_at_once(const struct command *c, struct told *told, char *reply) {
    struct answer *a = &told->answer;
    if (told->why) return skip(reply, told->why);
    if (!reply_plain(a, reply)) return;
    int is_chosen = c->call == SHMAT && c->operands[1].variable < 0 && c->operands[1].number == 0;
    if (c->call == SHMGET || is_chosen) strcpy(reply, "?");
    else if (c->call == SHMAT) sprintf(reply, "0x%jx", (uintmax_t)a->value);
    else if (c->call == SHMSTAT) print_segment(reply, &a->segment, 0);
    else if (c->call == XADD) sprintf(reply, "%" PRIu64, (uint64_t)a->value);
    else if (c->call == ACCESS_LOAD) print_bytes(reply, a->bytes, (unsigned)c->operands[1].number);
    else if (c->call == SWAP || c->call == CAS) print_bytes(reply, a->bytes, c->length);
}

/* a line of the log, with the operands as the script has them */
static void print_told(int place) {
    const struct command *c = &script.commands[place];
    char reply[512];
    printf("%u %s", processes[c->process].pid, calls[c->call].name);
    for (int i = 0; calls[c->call].operands[i]; i++) {
        struct operand o = c->operands[i];
        if (o.variable < 0) print_operand(c, calls[c->call].operands[i], o.number);
        else printf(" %c", 'a' + o.variable);
        if (o.variable >= 0 && o.number) printf("+%" PRIu64, o.number);
    }
    reply_at_once(c, &shared->told[place], reply);
    printf(" = %s\n", reply);
}

/* prints the lines by the time of their ends */
static void print_log(int run, uint64_t start) {
    printf("# run %d\n", run);
    for (int printed = 0; printed < script.command_count; printed++) {
        int first = -1;
        for (int i = 0; i < script.command_count; i++)
            if (shared->told[i].is_made && (first < 0 || shared->told[i].ended < shared->told[first].ended)) first = i;
        if (first < 0) fail(3, "a command was not made");
        printf("# %" PRIu64 " %" PRIu64 "\n", shared->told[first].began - start, shared->told[first].ended - start);
        print_told(first);
        shared->told[first].is_made = 0;
    }
    fflush(stdout);
}

/* no process is attached any more, so this destroys each segment */
static void remove_segments(void) {
    for (int i = 0; i < script.command_count; i++) {
        const struct answer *a = &shared->told[i].answer;
        if (script.commands[i].call == SHMGET && !a->error) shmctl((int)a->value, IPC_RMID, NULL);
    }
}

__attribute__((noreturn)) static void direct_at_once(int *life, int runs) {
    close(life[1]);
    life_fd = life[0];
    require_at_once();
    size_t size = sizeof *shared + (size_t)script.command_count * sizeof *shared->told;
    shared = mmap(NULL, size, PROT_READ | PROT_WRITE, MAP_SHARED | MAP_ANONYMOUS, -1, 0);
    if (shared == MAP_FAILED) fail(3, "no memory");
    for (int run = 1; run <= runs; run++) {
        int ends[2];
        uint64_t start = now();
        memset(shared, 0, size);
        if (pipe2(ends, O_CLOEXEC)) fail(3, "pipe: %s", strerror(errno));
        for (int i = 0; i < script.process_count; i++) start_at_once(i, run);
        close(ends[1]);
        await_workers(ends[0]);
        close(ends[0]);
        print_log(run, start);
        remove_segments();
    }
    exit(0);
}

#endif

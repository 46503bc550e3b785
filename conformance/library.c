/* library [--rules profile|linux|N] serial|pieces SWAP... < SCRIPT
   makes the calls of a script through the C library, and prints what ./shmsim prints: the event lines, the listing of
   segments and the usage. It knows the words of the kit too, which ./shmsim has not. With `--rules linux` the machine has
   Linux's rules instead of the profile's, with a number those of which it is the sum; a script with a line `rules` needs
   this word, because the line is not read.
   With `pieces` loads and stores within a page are made by nog_read and nog_write, which make one call of each. It ends
   with status 3, and says why, where a refused call wrote an output, where the library counts other calls than the
   script makes, and at an unexpected code. */
#define _POSIX_C_SOURCE 200809L
#include <nogcuvema.h>
#include <stdarg.h>
#include <stdbool.h>
#define HAS_FLAGS
#include "script.h"

enum { AREAS = 8 };

/* what a call puts out; a refused one leaves it */
struct outputs {
    int32_t id;
    uint64_t number;
    nog_segment segment;
    uint8_t bytes[BYTES];
};

static struct script script;
static int is_in_pieces, is_linux;
static uint64_t rules;  /* a sum of rules of Linux */

static void fail(int status, const char *format, ...) {
    va_list rest;
    va_start(rest, format);
    fflush(stdout);
    fprintf(stderr, script.line ? "library: line %d: " : "library: ", script.line);
    vfprintf(stderr, format, rest);
    fputc('\n', stderr);
    va_end(rest);
    exit(status);
}

static void require_done(uint32_t code, const char *what) {
    if (code != NOG_DONE) fail(3, "%s was answered %" PRIu32, what, code);
}

/* ---- the machine of a script ---- */

struct swap {
    nog_area areas[AREAS];
    nog_failure failures[AREAS];
    size_t area_count, failure_count;
};

/* KIND:SLOTS; for a fuse, :rCALL or :wCALL follows */
static void read_swap(struct swap *swap, const char *word) {
    unsigned slots;
    char which;
    uint64_t call;
    nog_area *area = &swap->areas[swap->area_count];
    int is_fuse = sscanf(word, "fuse:%u:%c%" SCNu64, &slots, &which, &call) == 3;
    if (is_fuse) *area = (nog_area){NOG_RAM, slots};
    else if (sscanf(word, "ram:%u", &slots) == 1) *area = (nog_area){NOG_RAM, slots};
    else if (sscanf(word, "sparse:%u", &slots) == 1) *area = (nog_area){NOG_SPARSE, slots};
    else if (sscanf(word, "mirror:%u", &slots) == 1) *area = (nog_area){NOG_MIRROR, slots};
    else fail(2, "no swap area: %s", word);
    if (is_fuse)
        swap->failures[swap->failure_count++] =
            (nog_failure){.area = (uint32_t)swap->area_count, .is_write = which == 'w', .call = call};
    swap->area_count++;
}

/* a library of before the rules came has the profile's alone */
static void choose_rules(nog_limits *limits) {
#ifdef NOG_HAS_RULES
    limits->rules = is_linux ? NOG_LINUX : rules;
#else
    (void)limits;
    if (is_linux || rules) fail(2, "this library has no rules: its header has no NOG_LINUX");
#endif
}

static void open_machine(nog_machine *machine, const struct swap *swap) {
    static nog_process processes[PROCESSES];
    const uint64_t *l = script.limits, *s = script.sizes;
    nog_limits limits = {.shmmax = l[0], .shmmni = l[1], .shmall = l[2], .frames = l[3], .memlock = l[4],
                         .most_pieces = s[0], .most_processes = s[1], .most_slots = s[2]};
    choose_rules(&limits);
    for (int i = 0; i < script.process_count; i++) {
        const struct declared *p = &script.processes[i];
        processes[i] = (nog_process){p->pid, !p->is_child, p->uid, p->gid};
    }
    require_done(nog_open(machine, &limits, swap->areas, swap->area_count, swap->failures, swap->failure_count,
                          processes, (size_t)script.process_count), "nog_open");
}

/* ---- calls ---- */

/* a library before 1.1 does not count these calls; the code is none of its own */
enum { NO_SUCH_CALL = UINT16_MAX };
#if NOG_VERSION < 10100
#define nog_unmap(machine, pid, address, length) NO_SUCH_CALL
#define nog_protect(machine, pid, address, length, writable) NO_SUCH_CALL
#define nog_set_user(machine, pid, uid, gid) NO_SUCH_CALL
#endif

static int is_by_stretch(uint64_t addr, size_t len) { return is_in_pieces && addr % 4096 + len <= 4096; }

static uint32_t load(nog_machine *m, uint32_t pid, uint64_t addr, uint8_t *bytes, size_t len) {
    uint64_t done = len;
    if (!is_by_stretch(addr, len)) return nog_load(m, pid, addr, bytes, len);
    uint32_t code = nog_read(m, pid, addr, bytes, len, &done);
    if (done != (code == NOG_DONE ? len : 0)) fail(3, "%" PRIu64 " bytes were read", done);
    return code;
}

static uint32_t store(nog_machine *m, uint32_t pid, uint64_t addr, const uint8_t *bytes, size_t len) {
    uint64_t done = len;
    if (!is_by_stretch(addr, len)) return nog_store(m, pid, addr, bytes, len);
    uint32_t code = nog_write(m, pid, addr, bytes, len, &done);
    if (done != (code == NOG_DONE ? len : 0)) fail(3, "%" PRIu64 " bytes were written", done);
    return code;
}

/* a number of the script that no identifier has is one that was never issued */
static int32_t identifier_of(uint64_t number) { return number > INT32_MAX ? -1 : (int32_t)number; }

static uint32_t make_call(nog_machine *m, const struct command *c, const uint64_t v[OPERANDS], struct outputs *out) {
    uint32_t pid = script.processes[c->process].pid, first = (uint32_t)v[0];
    switch (c->call) {
    case SHMGET: return nog_get(m, pid, first, v[1], v[2] & 0777, (uint32_t)v[2] & ~0777u, &out->id);
    case SHMAT: return nog_attach(m, pid, identifier_of(v[0]), v[1], (uint32_t)v[2], &out->number);
    case SHMDT: return nog_detach(m, pid, v[0]);
    case ACCESS_LOAD: return load(m, pid, v[0], out->bytes, (size_t)v[1]);
    case ACCESS_STORE: return store(m, pid, v[0], c->bytes, c->length);
    case XADD: return nog_add(m, pid, v[0], v[1], &out->number);
    case SWAP: return nog_exchange(m, pid, v[0], c->bytes, c->length, out->bytes, c->length);
    case CAS: return nog_compare_exchange(m, pid, v[0], c->expected, c->length, c->bytes, c->length, out->bytes, c->length);
    case SHMSTAT: return nog_stat(m, pid, identifier_of(v[0]), &out->segment);
    case SHMSET: return nog_set(m, pid, identifier_of(v[0]), (uint32_t)v[1], (uint32_t)v[2], (uint32_t)v[3]);
    case RMID: return nog_remove(m, pid, identifier_of(v[0]));
    case LOCK: return nog_lock(m, pid, identifier_of(v[0]));
    case UNLOCK: return nog_unlock(m, pid, identifier_of(v[0]));
    case FORKS: return nog_fork(m, pid, first);
    case EXECS: return nog_exec(m, pid);
    case EXITS: return nog_exit(m, pid);
    case MUNMAP: return (uint32_t)nog_unmap(m, pid, v[0], v[1]);
    case MPROTECT: return (uint32_t)nog_protect(m, pid, v[0], v[1], v[2] != 0);
    case SETUID: return (uint32_t)nog_set_user(m, pid, first, (uint32_t)v[1]);
    default: return nog_swapoff(m, pid, first);
    }
}

/* ---- what is printed ---- */

static const char *name_of(uint32_t code) {
    static const struct { uint32_t code; const char *name; } names[] = {
        {NOG_EPERM, "EPERM"}, {NOG_ENOENT, "ENOENT"}, {NOG_ESRCH, "ESRCH"}, {NOG_EIO, "EIO"}, {NOG_EAGAIN, "EAGAIN"},
        {NOG_ENOMEM, "ENOMEM"}, {NOG_EACCES, "EACCES"}, {NOG_EEXIST, "EEXIST"}, {NOG_EINVAL, "EINVAL"},
        {NOG_EMFILE, "EMFILE"}, {NOG_ENOSPC, "ENOSPC"}, {NOG_EIDRM, "EIDRM"}, {NOG_SIGBUS, "SIGBUS"},
        {NOG_SIGSEGV, "SIGSEGV"} };
    uint8_t text[16];
    size_t len, i = 0;
    if (code == NO_SUCH_CALL) return "skipped: the library does not count this call";
    while (i < sizeof names / sizeof *names && names[i].code != code) i++;
    if (i == sizeof names / sizeof *names) fail(3, "a call was answered %" PRIu32, code);
    if (nog_text(code, text, sizeof text, &len) != NOG_DONE || strcmp((char *)text, names[i].name) != 0)
        fail(3, "the text of %" PRIu32 " is not %s", code, names[i].name);
    return names[i].name;
}

static const char *status_of(uint32_t status) {
    static const char *const names[] = {"-", "dest", "locked", "dest,locked"};
    return names[(status & NOG_DEST ? 1 : 0) + (status & NOG_LOCKED ? 2 : 0)];
}

static void print_segment(const nog_segment *s) {
    printf("key=0x%08" PRIx32 " uid=%" PRIu32 " gid=%" PRIu32 " cuid=%" PRIu32 " cgid=%" PRIu32 " mode=%03" PRIo32
           " status=%s size=%" PRIu64 " cpid=%" PRIu32 " lpid=%" PRIu32 " nattch=%" PRIu32 " atime=%" PRIu64
           " dtime=%" PRIu64 " ctime=%" PRIu64, s->key, s->uid, s->gid, s->cuid, s->cgid, s->mode,
           status_of(s->status), s->size, s->cpid, s->lpid, s->nattch, s->atime, s->dtime, s->ctime);
}

/* prints what a call gave; the value that a variable takes */
static uint64_t print_outputs(const struct command *c, const uint64_t v[OPERANDS], const struct outputs *out) {
    switch (c->call) {
    case SHMGET: printf("%" PRId32, out->id); return (uint64_t)out->id;
    case SHMAT: printf("0x%" PRIx64, out->number); return out->number;
    case XADD: printf("%" PRIu64, out->number); return out->number;
    case SHMSTAT: print_segment(&out->segment); return 0;
    case ACCESS_LOAD: print_hex(out->bytes, (unsigned)v[1]); return 0;
    case SWAP:
    case CAS: print_hex(out->bytes, c->length); return number_in(out->bytes, c->length);
    default: printf("ok"); return 0;
    }
}

static void run_command(nog_machine *machine, int place) {
    const struct command *c = &script.commands[place - 1];
    uint64_t v[OPERANDS] = {0}, result = UINT64_MAX, answered;
    struct outputs out, before;
    script.line = c->line;
    memset(&out, 0xa5, sizeof out);
    before = out;
    print_call(&script, place, v);
    uint32_t code = make_call(machine, c, v, &out);
    printf(" = ");
    if (code == NOG_DONE) result = print_outputs(c, v, &out);
    else printf("%s", name_of(code));
    putchar('\n');
    if (code == NO_SUCH_CALL) return;
    if (code != NOG_DONE && memcmp(&out, &before, sizeof out) != 0) fail(3, "a refused call wrote an output");
    keep_result(&script, c, result);
    require_done(nog_calls(machine, &answered), "nog_calls");
    if (answered != (uint64_t)place) fail(3, "%" PRIu64 " calls at place %d", answered, place);
}

static void print_listing(nog_machine *machine) {
    uint32_t indexes;
    nog_segment s;
    require_done(nog_indexes(machine, &indexes), "nog_indexes");
    printf("%-10s %-10s %-10s %-10s %-10s %-10s status\n", "key", "shmid", "owner", "perms", "bytes", "nattch");
    for (uint32_t index = 0; index < indexes; index++) {
        uint32_t code = nog_segment_at(machine, index, &s);
        if (code == NOG_OUT_OF_RANGE) continue;
        require_done(code, "nog_segment_at");
        if (s.index != index) fail(3, "segment %" PRId32 " says index %" PRIu32, s.id, s.index);
        printf("0x%08" PRIx32 " %-10" PRId32 " %-10" PRIu32 " %03" PRIo32 "%8s%-10" PRIu64 " %-10" PRIu32 " %s\n",
               s.key, s.id, s.uid, s.mode, "", s.size, s.nattch, status_of(s.status));
    }
    if (nog_segment_at(machine, indexes, &s) != NOG_OUT_OF_RANGE) fail(3, "a segment behind the last index");
}

static void print_usage(nog_machine *machine) {
    nog_tally t;
    require_done(nog_tally_of(machine, &t), "nog_tally_of");
    printf("usage events %" PRIu64 " segments %" PRIu64 " reserved %" PRIu64 " locked %" PRIu64 "\n",
           t.events, t.segments, t.reserved, t.locked);
    printf("usage frames %" PRIu64 "/%" PRIu64 " dirty %" PRIu64 " slots %" PRIu64 "/%" PRIu64 "\n",
           t.resident, t.frames, t.dirty, t.used, t.slots);
    printf("usage in %" PRIu64 " out %" PRIu64 " failures %" PRIu64 "\n", t.ins, t.outs, t.failures);
}

/* runs the flush lines above the command that has this many commands above it */
static int run_flushes(nog_machine *machine, int next, int commands_above) {
    nog_flushed flushed;
    for (; next < script.flush_count && script.flushes[next].commands_above == commands_above; next++)
        require_done(nog_flush(machine, script.flushes[next].pages, &flushed), "nog_flush");
    return next;
}

/* takes the words of the rules; where the others begin, the end where these are none */
static int read_rules(int argc, char **argv) {
    if (argc < 2 || strcmp(argv[1], "--rules") != 0) return 1;
    char *end = "", *word = argc > 2 ? argv[2] : "";
    is_linux = strcmp(word, "linux") == 0;
    bool is_number = *word >= '0' && *word <= '9';
    if (is_number) rules = strtoull(word, &end, 10);
    return is_linux || strcmp(word, "profile") == 0 || (is_number && !*end) ? 3 : argc;
}

int main(int argc, char **argv) {
    nog_machine machine = NOG_MACHINE_INITIALIZER;
    struct swap swap = {.area_count = 0};
    const char *usage = "usage: library [--rules profile|linux|N] serial|pieces SWAP...";
    int flush = 0, at = read_rules(argc, argv), is_serial = argc > at && strcmp(argv[at], "serial") == 0;
    is_in_pieces = argc > at && strcmp(argv[at], "pieces") == 0;
    int area_count = argc - at - 1;
    if (!(is_serial || is_in_pieces) || area_count < 1 || area_count > AREAS) fail(2, "%s", usage);
    for (int i = at + 1; i < argc; i++) read_swap(&swap, argv[i]);
    read_script(&script, stdin);
    script.line = 0;
    if (script.has_rules && at == 1) fail(2, "choose the script's rules by --rules");
    open_machine(&machine, &swap);
    for (int done = 0; done < script.command_count; run_command(&machine, ++done))
        flush = run_flushes(&machine, flush, done);
    run_flushes(&machine, flush, script.command_count);
    print_listing(&machine);
    print_usage(&machine);
    require_done(nog_close(&machine), "nog_close");
    free(script.commands);
    free(script.flushes);
    return fflush(stdout) == 0 ? 0 : 3;
}

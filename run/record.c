/* The record of a run: the calls that reached the machine, in their order. When the last process has ended, they are made once
   more, on a machine as a script describes it, so that what is written has the replies that the run had. A refusal that such a
   machine does not give is dropped, because a refused call changes nothing. At another reply that differs the record ends. */
#include "shmrun.h"
#include <err.h>
#include <stdarg.h>
#include <stdio.h>
#include <stdlib.h>
#include <string.h>

/* what a script can have, and what the machine of shmcheck has */
enum { MOST_PROCESSES = 64, MOST_LINES = 100000, MOST_BYTES = 1 << 20, SLOTS = 64, NOTES = 16, NEVER_ISSUED = 2147483647 };
enum { SCRIPT_SHMMAX = 1 << 24, SCRIPT_SHMMNI = 4096, SCRIPT_SHMALL = 65536 };

static struct event *events;
static size_t count, kept;        /* kept: how many of the first ones are written */
static struct { nog_process process; char name[20]; } processes[MOST_PROCESSES];
static size_t process_count;
static const char *end;           /* why the record ends before the run, or null */
static struct { const char *what; uint64_t count; } notes[NOTES];
static bool has_ranks;            /* sizes are written as their ranks */

/* ---- during the run ---- */

static void end_record(const char *why) {
    if (!end) end = why;
}

void note_left_out(const char *what) {
    for (int i = 0; i < NOTES && options.record; i++) {
        if (notes[i].what && strcmp(notes[i].what, what) != 0) continue;
        notes[i].what = what;
        notes[i].count++;
        return;
    }
}

void record(struct event event) {
    if (!options.record) return;
    if (event.kind == GET && event.flags & NOG_HUGETLB) note_left_out("the flag SHM_HUGETLB of a shmget");
    if (event.kind == ATTACH && event.flags & NOG_EXEC) note_left_out("the flag SHM_EXEC of a shmat");
    event.flags &= event.kind == GET ? NOG_CREAT | NOG_EXCL : ~(uint32_t)NOG_EXEC;
    if (!events) events = allocate(MOST_LINES * sizeof *events);
    if (count == MOST_LINES) end_record("a script has at most 100000 lines");
    if (!end) events[count++] = event;
}

void record_process(const nog_process *process) {
    if (!options.record) return;
    for (size_t i = 0; i < process_count; i++)
        if (processes[i].process.pid == process->pid) return end_record("a pid is used a second time");
    if (process_count == MOST_PROCESSES) end_record("a script has at most 64 processes");
    if (end) return;
    FILE *file = file_of_process((pid_t)process->pid, "comm");
    if (file && fscanf(file, "%19[^\n]", processes[process_count].name) != 1) processes[process_count].name[0] = 0;
    if (file) fclose(file);
    processes[process_count++].process = *process;
}

/* ---- sizes ---- */

static uint64_t *sizes;  /* each size that a shmget had, by rising size */
static size_t size_count;

static int compare_sizes(const void *a, const void *b) {
    const uint64_t *one = a, *other = b;
    return (*one > *other) - (*one < *other);
}

static void collect_sizes(void) {
    size_t all = 0;
    sizes = allocate((count + 1) * sizeof *sizes);
    for (size_t i = 0; i < count; i++)
        if (events[i].kind == GET && events[i].size > 0) sizes[all++] = events[i].size;
    qsort(sizes, all, sizeof *sizes, compare_sizes);
    for (size_t i = 0; i < all; i++)
        if (i == 0 || sizes[i] != sizes[i - 1]) sizes[size_count++] = sizes[i];
}

/* A rank is how many of the sizes are at most this one. */
static uint64_t size_in_script(uint64_t size) {
    uint64_t rank = 0;
    while (rank < size_count && sizes[rank] <= size) rank++;
    return has_ranks ? rank : size;
}

static nog_limits limits_of_script(void) {
    const nog_limits *l = &options.limits;
    uint64_t shmmax = size_in_script(l->shmmax), shmall = has_ranks ? SCRIPT_SHMALL : l->shmall;
    return (nog_limits){.shmmax = shmmax ? least(shmmax, SCRIPT_SHMMAX) : 1, .shmmni = least(l->shmmni, SCRIPT_SHMMNI),
                        .shmall = least(shmall, SCRIPT_SHMALL), .frames = SLOTS + 2, .memlock = least(l->memlock, SLOTS),
                        .rules = l->rules};
}

/* ---- the calls are made once more ---- */

static nog_machine again = NOG_MACHINE_INITIALIZER;

static void open_again(void) {
    const nog_limits limits = limits_of_script();
    const nog_area area = {NOG_SPARSE, SLOTS};
    nog_process first[MOST_PROCESSES];
    for (size_t i = 0; i < process_count; i++) first[i] = processes[i].process;
    uint32_t code = nog_open(&again, &limits, &area, 1, NULL, 0, first, process_count);
    if (code != NOG_DONE) errx(CANNOT_GO_ON, "the record's machine was not opened: %u", code);
}

static nog_segment as_logged(nog_segment s) {
    s.atime = s.atime > 0, s.dtime = s.dtime > 0, s.ctime = s.ctime > 0;
    return s;
}

static bool is_alike(const nog_segment *run, const nog_segment *script) {
    nog_segment a = as_logged(*run), b = as_logged(*script);
    a.size = size_in_script(a.size);
    return memcmp(&a, &b, sizeof a) == 0;
}

/* Whether the event is right, or may be left out. */
static bool replay(struct event *e, nog_machine *before) {
    struct event made = *e;
    bool may_differ = e->result < 0 && (e->kind == GET || e->kind == ATTACH);
    if (may_differ && nog_snapshot(&again, before) != NOG_DONE) return false;
    if (e->kind == GET) made.size = size_in_script(e->size);
    make_call(&again, &made);
    e->is_unclear = made.result == e->result && e->kind == STAT && e->result == 0 && !is_alike(&e->segment, &made.segment);
    e->is_dropped = made.result != e->result && e->result < 0;
    if (e->is_dropped && made.result >= 0) return may_differ && nog_snapshot(before, &again) == NOG_DONE;
    return made.result == e->result || e->is_dropped;
}

/* Marks what a script does not have. Returns how many of the first events are right. */
static size_t replay_record(void) {
    nog_machine before = NOG_MACHINE_INITIALIZER;
    size_t done = 0;
    open_again();
    while (done < count && replay(&events[done], &before)) done++;
    nog_close(&again);
    nog_close(&before);
    return done;
}

/* ---- the script and the log, in the forms of docs/SCRIPT.md and docs/JUDGE.md ---- */

static const struct { enum kind kind; uint32_t flag; const char *name; } flag_names[] = {
    {GET, NOG_CREAT, "creat"}, {GET, NOG_EXCL, "excl"}, {ATTACH, NOG_RND, "rnd"}, {ATTACH, NOG_REMAP, "remap"},
    {ATTACH, NOG_RDONLY, "rdonly"},
};

static void print_flags(FILE *to, const struct event *e) {
    const char *comma = e->kind == GET ? "," : "";
    if (e->kind == GET) fprintf(to, "%03o", e->mode);
    else if (!e->flags) fputc('-', to);
    for (size_t i = 0; i < sizeof flag_names / sizeof *flag_names; i++) {
        if (flag_names[i].kind != e->kind || !(e->flags & flag_names[i].flag)) continue;
        fprintf(to, "%s%s", comma, flag_names[i].name);
        comma = ",";
    }
}

/* A log has the key as a number. */
static void print_call(FILE *to, const struct event *e, bool is_log) {
    char address[24] = "null";
    int32_t id = e->id < 0 ? NEVER_ISSUED : e->id;
    if (e->address) snprintf(address, sizeof address, "0x%lx", e->address);
    fprintf(to, "%u %s", e->pid, call_names[e->kind]);
    switch (e->kind) {
    case GET:
        if (e->key || is_log) fprintf(to, " 0x%08x %lu ", e->key, size_in_script(e->size));
        else fprintf(to, " private %lu ", size_in_script(e->size));
        print_flags(to, e);
        break;
    case ATTACH:
        fprintf(to, " %d %s ", id, address);
        print_flags(to, e);
        break;
    case UNMAP: fprintf(to, " %s %lu", address, e->size); break;
    case PROTECT: fprintf(to, " %s %lu %s", address, e->size, e->is_writable ? "rw" : "ro"); break;
    case SET_USER: fprintf(to, " %u %u", e->uid, e->gid); break;
    case DETACH: fprintf(to, " %s", address); break;
    case SET: fprintf(to, " %d %u %u %03o", id, e->uid, e->gid, e->mode); break;
    case FORK: fprintf(to, " %u", e->child); break;
    case EXEC:
    case EXIT: break;
    default: fprintf(to, " %d", id);
    }
}

static void print_segment(FILE *to, const nog_segment *s) {
    static const char *const marks[] = {"-", "dest", "locked", "dest,locked"};
    static const char *const time_words[] = {"0", "set"};
    fprintf(to, "key=0x%08x uid=%u gid=%u cuid=%u cgid=%u mode=%03o status=%s size=%lu cpid=%u lpid=%u nattch=%u "
            "atime=%s dtime=%s ctime=%s", s->key, s->uid, s->gid, s->cuid, s->cgid, s->mode, marks[s->status / NOG_DEST],
            size_in_script(s->size), s->cpid, s->lpid, s->nattch, time_words[s->atime > 0], time_words[s->dtime > 0],
            time_words[s->ctime > 0]);
}

static void print_reply(FILE *to, const struct event *e) {
    if (e->result < 0) fputs(strerrorname_np((int)-e->result), to);
    else if (e->is_unclear) fputc('?', to);
    else if (e->kind == GET) fprintf(to, "%ld", e->result);
    else if (e->kind == ATTACH) fprintf(to, "0x%lx", e->result);
    else if (e->kind == STAT) print_segment(to, &e->segment);
    else fputs("ok", to);
}

/* A comment of the script, and a line on standard error if the reader should know. */
__attribute__((format(printf, 3, 4))) static void comment(FILE *to, bool is_said, const char *format, ...) {
    char line[256];
    va_list rest;
    va_start(rest, format);
    vsnprintf(line, sizeof line, format, rest);
    va_end(rest);
    for (char *at = line; *at; at++)
        if (*at < ' ' || *at > '~') *at = '?';
    fprintf(to, "# %s\n", line);
    if (is_said) warnx("record: %s", line);
}

static void print_head(FILE *to) {
    const nog_limits l = limits_of_script();
    comment(to, false, "What %s called, recorded by shmrun. Its log is %s.log:", options.command[0], options.record);
    comment(to, false, "shmcheck judge %s.log < %s.shm", options.record, options.record);
    if (end) comment(to, true, "the record ends before the run: %s", end);
    for (int i = 0; i < NOTES && notes[i].what; i++) comment(to, true, "left out: %s: %lu", notes[i].what, notes[i].count);
    if (has_ranks)
        comment(to, true, "sizes are written as their ranks, from 1 for the smallest: a script has at most %d pages", SLOTS);
    fprintf(to, "limits %lu %lu %lu %lu %lu\n", l.shmmax, l.shmmni, l.shmall, l.frames, l.memlock);
    if (l.rules) fprintf(to, "rules %s\n", words_of_rules());
    for (size_t i = 0; i < process_count; i++) {
        const nog_process *it = &processes[i].process;
        comment(to, false, "%u is %s", it->pid, processes[i].name);
        if (it->is_born) fprintf(to, "process %u %u %u\n", it->pid, it->uid, it->gid);
        else fprintf(to, "child %u\n", it->pid);
    }
}

static size_t print_events(FILE *script, FILE *log) {
    size_t place = 0;
    for (const struct event *e = events; e < events + kept; e++) {
        if (e->is_dropped) continue;
        print_call(script, e, false);
        fputc('\n', script);
        fprintf(log, "%zu ", ++place);
        print_call(log, e, true);
        fputs(" = ", log);
        print_reply(log, e);
        fputc('\n', log);
    }
    return place;
}

static FILE *open_file(const char *ending) {
    char path[4096];
    snprintf(path, sizeof path, "%s%s", options.record, ending);
    FILE *file = fopen(path, "w");
    if (!file) warn("the record can't be written: %s", path);
    return file;
}

static void write_script(void) {
    FILE *script = open_file(".shm"), *log = script ? open_file(".log") : NULL;
    if (!log) return;
    for (const struct event *e = events; e < events + kept; e++) {
        if (e->is_dropped) note_left_out("a refusal that a script does not have");
        if (e->is_unclear) note_left_out("a reply of stat after a change that a script does not have: it is ? in the log");
    }
    print_head(script);
    size_t written = print_events(script, log);
    if (ftell(script) > MOST_BYTES)
        warnx("record: the script has more than %d bytes, which shmsim and shmcheck refuse", MOST_BYTES);
    if (fclose(script) || fclose(log)) warn("the record can't be written");
    warnx("record: %zu calls of %zu processes in %s.shm and %s.log", written, process_count, options.record, options.record);
}

/* Whichever keeps more: the sizes, or their ranks. */
void write_record(void) {
    if (!options.record) return;
    collect_sizes();
    size_t with_sizes = kept = replay_record();
    has_ranks = with_sizes < count;
    if (has_ranks) kept = replay_record();
    if (has_ranks && kept <= with_sizes) has_ranks = false, kept = replay_record();
    if (kept < count) end_record("the next call needs larger segments than a script has, or more at a time");
    write_script();
}

/* A script of docs/SCRIPT.md, read and printed by programs in C that make its calls. The file that includes this one
   defines `fail`, which says what is wrong and ends the program. Not each fault of the language is found. The flags `exec`,
   `hugetlb` and `noreserve` are words of the kit alone: a file that reads them too defines HAS_FLAGS above. One that takes
   fewer processes than a machine defines PROCESSES above. */
#ifndef SCRIPT_H
#define SCRIPT_H
#include <errno.h>
#include <inttypes.h>
#include <stdint.h>
#include <stdio.h>
#include <stdlib.h>
#include <string.h>

#ifndef PROCESSES
#define PROCESSES 32768
#endif
enum { COMMANDS = 100000, WORDS = 8, OPERANDS = 4, BYTES = 64, MOST_COMPARED = 16 };

__attribute__((noreturn, format(printf, 2, 3))) static void fail(int status, const char *format, ...);

enum call { SHMGET, SHMAT, SHMDT, ACCESS_LOAD, ACCESS_STORE, XADD, SWAP, CAS, SHMSTAT, SHMSET, RMID, LOCK, UNLOCK,
    FORKS, EXECS, EXITS, SWAPOFF, MUNMAP, MPROTECT, SETUID, CALLS };

/* each letter is an operand: key, number, get flags, identifier, address, attach flags, bytes, expected bytes, mode, child,
   protection */
static const struct { const char *name, *operands; } calls[CALLS] = {
    {"shmget", "kng"}, {"shmat", "iaf"}, {"shmdt", "a"}, {"load", "an"}, {"store", "ab"}, {"xadd", "an"},
    {"swap", "ab"}, {"cas", "aeb"}, {"stat", "i"}, {"set", "innm"}, {"rmid", "i"}, {"lock", "i"}, {"unlock", "i"}, {"fork", "c"}, {"exec", ""},
    {"exit", ""}, {"swapoff", "n"}, {"munmap", "an"}, {"mprotect", "anp"}, {"setuid", "nn"},
};

/* as Linux numbers them: one of shmget may have the number of one of shmat */
enum { CREAT = 01000, EXCL = 02000, HUGETLB = 04000, NORESERVE = 010000 };
enum { RDONLY = 010000, RND = 020000, REMAP = 040000, EXECUTE = 0100000 };
static const struct { const char *name; unsigned flag; int is_of_get; } flag_names[] = {
    {"creat", CREAT, 1}, {"excl", EXCL, 1},
#ifdef HAS_FLAGS
    {"hugetlb", HUGETLB, 1}, {"noreserve", NORESERVE, 1},
#endif
    {"rnd", RND, 0}, {"remap", REMAP, 0}, {"rdonly", RDONLY, 0},
#ifdef HAS_FLAGS
    {"exec", EXECUTE, 0},
#endif
};
enum { FLAGS = sizeof flag_names / sizeof *flag_names };

struct operand { int variable; uint64_t number; };
struct command {
    int line, process, variable, call;
    unsigned length;
    struct operand operands[OPERANDS];
    unsigned char bytes[BYTES], expected[MOST_COMPARED];  /* each of this length */
};
struct flush { int commands_above; uint64_t pages; };
struct declared { unsigned pid, uid, gid; int is_child; uint64_t variables[26]; };

struct script {
    uint64_t limits[5], sizes[3];  /* without a line sizes these are 0 */
    struct declared processes[PROCESSES];
    struct command *commands;
    struct flush *flushes;
    int process_count, command_count, flush_count;
    int has_rules;  /* a line chooses rules of Linux: a system has its own */
    int line;  /* the one that is read or run; 0: none */
};

static uint64_t number_of(const char *word) {
    char *end;
    errno = 0;
    unsigned long long number = strtoull(word, &end, word[0] == '0' && word[1] == 'x' ? 16 : 10);
    if (*end || errno || word[0] < '0' || word[0] > '9') fail(1, "bad number: %s", word);
    return number;
}

static struct operand operand_of(const char *word) {
    int is_variable = word[0] >= 'a' && word[0] <= 'z' && (!word[1] || word[1] == '+');
    if (strcmp(word, "private") == 0 || strcmp(word, "null") == 0) return (struct operand){-1, 0};
    if (!is_variable) return (struct operand){-1, number_of(word)};
    return (struct operand){word[0] - 'a', word[1] ? number_of(word + 2) : 0};
}

/* whether a word, up to its comma, is this name */
static int is_named(const char *name, const char *word) {
    size_t length = strcspn(word, ",");
    return strlen(name) == length && memcmp(name, word, length) == 0;
}

/* the flags after a mode, or those of an attach */
static uint64_t flags_of(const char *word, int has_mode) {
    uint64_t flags = has_mode ? strtoul(word, NULL, 8) & 0777 : 0;
    for (const char *at = has_mode ? strchr(word, ',') : word; at && *at && *at != '-'; at = strchr(at, ',')) {
        if (*at == ',') at++;
        int i = 0;
        while (i < FLAGS && (flag_names[i].is_of_get != has_mode || !is_named(flag_names[i].name, at))) i++;
        if (i == FLAGS) fail(1, "bad flags: %s", word);
        flags |= flag_names[i].flag;
    }
    return flags;
}

/* whether pages become writable */
static uint64_t protection_of(const char *word) {
    int is_writable = strcmp(word, "rw") == 0;
    if (!is_writable && strcmp(word, "ro") != 0) fail(1, "bad protection: %s", word);
    return (uint64_t)is_writable;
}

static unsigned read_bytes(unsigned char *to, unsigned most, const char *word) {
    unsigned byte, length = 0;
    for (; length < most && sscanf(word, "%2x", &byte) == 1 && word[1]; word += 2) to[length++] = (unsigned char)byte;
    if (*word) fail(1, "bad bytes: %s", word);
    return length;
}

/* the expected bytes of a cas come first, and the others are as many */
static void read_new_bytes(struct command *c, const char *word) {
    unsigned length = read_bytes(c->bytes, c->call == CAS ? MOST_COMPARED : BYTES, word);
    if (c->call == CAS && length != c->length) fail(1, "not as many bytes: %s", word);
    c->length = length;
    if (c->variable >= 0 && length > sizeof(uint64_t)) fail(1, "a variable takes 1 to 8 bytes: %s", word);
}

static int process_by_pid(const struct script *s, uint64_t pid) {
    for (int i = 0; i < s->process_count; i++)
        if (s->processes[i].pid == pid) return i;
    fail(1, "unknown process: %" PRIu64, pid);
}

static void read_operand(const struct script *s, struct command *c, int i, char letter, const char *word) {
    c->operands[i] = (struct operand){-1, 0};
    if (letter == 'g') c->operands[i].number = flags_of(word, 1);
    else if (letter == 'f') c->operands[i].number = flags_of(word, 0);
    else if (letter == 'm') c->operands[i].number = strtoul(word, NULL, 8);
    else if (letter == 'e') c->length = read_bytes(c->expected, MOST_COMPARED, word);
    else if (letter == 'b') read_new_bytes(c, word);
    else if (letter == 'p') c->operands[i].number = protection_of(word);
    else c->operands[i] = operand_of(word);
    if (letter == 'c') process_by_pid(s, c->operands[i].number);
}

static void read_command(struct script *s, char **words, int count) {
    if (count < 2 || s->command_count == COMMANDS) fail(1, "bad line");
    struct command *c = &s->commands[s->command_count++];
    int has_variable = count > 3 && strcmp(words[2], "=") == 0, at = has_variable ? 3 : 1;
    c->line = s->line;
    c->process = process_by_pid(s, number_of(words[0]));
    c->variable = has_variable ? operand_of(words[1]).variable : -1;
    for (c->call = 0; c->call < CALLS && strcmp(calls[c->call].name, words[at]) != 0;) c->call++;
    if (c->call == CALLS || (int)strlen(calls[c->call].operands) != count - at - 1)
        fail(1, "bad line");
    for (int i = 0; calls[c->call].operands[i]; i++)
        read_operand(s, c, i, calls[c->call].operands[i], words[at + 1 + i]);
}

static void read_flush(struct script *s, char **words, int count) {
    if (count != 3 || strcmp(words[1], "flush") != 0 || s->flush_count == COMMANDS) fail(1, "bad line");
    s->flushes[s->flush_count++] = (struct flush){s->command_count, number_of(words[2])};
}

static void read_process(struct script *s, char **words, int count) {
    int is_child = strcmp(words[0], "child") == 0;
    if (s->process_count == PROCESSES) fail(1, "more than %d processes", PROCESSES);
    if (count != (is_child ? 2 : 4)) fail(1, "bad line");
    struct declared *p = &s->processes[s->process_count++];
    *p = (struct declared){.pid = (unsigned)number_of(words[1]), .is_child = is_child};
    p->uid = is_child ? 0 : (unsigned)number_of(words[2]);
    p->gid = is_child ? 0 : (unsigned)number_of(words[3]);
}

static void read_line(struct script *s, char *line) {
    char *words[WORDS + 1];
    int count = 0;
    for (char *w = strtok(line, " \t\n"); w && count <= WORDS; w = strtok(NULL, " \t\n")) words[count++] = w;
    if (count == 0 || words[0][0] == '#') return;
    int is_process = strcmp(words[0], "process") == 0 || strcmp(words[0], "child") == 0;
    int is_limits = strcmp(words[0], "limits") == 0 && count == 6, is_rules = strcmp(words[0], "rules") == 0 && count == 2;
    int is_sizes = strcmp(words[0], "sizes") == 0 && count == 4;
    s->has_rules |= is_rules;
    for (int i = 0; i < 5 && is_limits; i++) s->limits[i] = number_of(words[i + 1]);
    for (int i = 0; i < 3 && is_sizes; i++) s->sizes[i] = number_of(words[i + 1]);
    if (is_process) read_process(s, words, count);
    else if (strcmp(words[0], "0") == 0) read_flush(s, words, count);
    else if (!is_sizes && !is_limits && !is_rules) read_command(s, words, count);
}

static void read_script(struct script *s, FILE *from) {
    char *line = NULL;
    size_t room = 0;
    s->commands = calloc(COMMANDS, sizeof *s->commands);
    s->flushes = calloc(COMMANDS, sizeof *s->flushes);
    if (!s->commands || !s->flushes) fail(3, "no memory");
    for (s->line = 1; getline(&line, &room, from) > 0; s->line++) read_line(s, line);
    free(line);
    if (s->limits[0] == 0) fail(1, "no limits line");
}

static void print_flags(uint64_t flags, int has_mode) {
    const char *before = has_mode ? "," : "";
    if (has_mode) printf("%03o", (unsigned)flags & 0777);
    else if (!flags) printf("-");
    for (int i = 0; i < FLAGS; i++)
        if (flag_names[i].is_of_get == has_mode && flags & flag_names[i].flag)
            before = printf("%s%s", before, flag_names[i].name) ? "," : before;
}

static void print_hex(const unsigned char *bytes, unsigned length) {
    for (unsigned i = 0; i < length; i++) printf("%02x", bytes[i]);
}

static void print_operand(const struct command *c, char letter, uint64_t value) {
    putchar(' ');
    if (letter == 'k') printf("0x%08" PRIx64, value);
    else if (letter == 'a') printf(value ? "0x%jx" : "null%.0jx", (uintmax_t)value);
    else if (letter == 'm') printf("%03" PRIo64, value);
    else if (letter == 'g' || letter == 'f') print_flags(value, letter == 'g');
    else if (letter == 'p') printf("%s", value ? "rw" : "ro");
    else if (letter == 'b') print_hex(c->bytes, c->length);
    else if (letter == 'e') print_hex(c->expected, c->length);
    else if (letter == 'i' && value > INT32_MAX) printf("-1");
    else printf("%" PRIu64, value);
}

static uint64_t operand_value(const struct declared *p, struct operand o) {
    return o.number + (o.variable < 0 ? 0 : p->variables[o.variable]);
}

/* prints the call at a place, with the values that its operands have now */
static void print_call(const struct script *s, int place, uint64_t values[OPERANDS]) {
    const struct command *c = &s->commands[place - 1];
    const struct declared *p = &s->processes[c->process];
    printf("%d %u %s", place, p->pid, calls[c->call].name);
    for (int i = 0; calls[c->call].operands[i]; i++) {
        values[i] = operand_value(p, c->operands[i]);
        print_operand(c, calls[c->call].operands[i], values[i]);
    }
}

/* the little-endian number that a variable takes of up to 8 bytes */
static uint64_t number_in(const unsigned char *bytes, unsigned length) {
    uint64_t number = 0;
    for (unsigned i = length < sizeof number ? length : sizeof number; i-- > 0;) number = number << 8 | bytes[i];
    return number;
}

/* the variable of a command gets the reply, or UINT64_MAX if the command failed */
static void keep_result(struct script *s, const struct command *c, uint64_t result) {
    if (c->variable >= 0) s->processes[c->process].variables[c->variable] = result;
}

#endif

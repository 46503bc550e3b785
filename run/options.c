/* The words of the command line. */
#include "shmrun.h"
#include <err.h>
#include <errno.h>
#include <stdio.h>
#include <stdlib.h>
#include <string.h>
#include <strings.h>
#include <sys/resource.h>

struct options options = {
    .limits = {.shmmax = UINT64_C(1) << 40, .shmmni = 4096, .shmall = 1 << 26, .most_pieces = 65530,
               .most_processes = 32768, .rules = NOG_LINUX},
    .seed = 1,
};

/* the rules in the order of their bits in NOG_LINUX, and two sets of them */
static const char *const rule_names[] = {"removed_is_invalid", "execute_is_asked", "fork_marks", "rest_is_attached",
    "end_is_enomem", "low_is_eperm", "no_last_user", "pieces_are_enomem", "locks_by_user", "exec_is_asked", "huge_is_refused",
    "linux", "profile"};
enum { LINUX = 11, PROFILE, RULES };
_Static_assert(NOG_LINUX == (1 << LINUX) - 1 && NOG_HUGE_IS_REFUSED == 1 << (LINUX - 1), "a rule has no name");

/* As what --help of the start script shows; the program itself says only this. */
static const char usage[] = "usage: shmrun [--limits SHMMAX,SHMMNI,SHMALL,MEMLOCK] [--rules NAME,..] [--fail CALL:N=ERRNO].. "
                            "[--seed S] [--record RUN] [--frames N] [--swap AREA].. [--swap-file PATH] COMMAND ARG..";

static void read_rules(const char *text) {
    options.limits.rules = 0;
    for (size_t length; *text; text += length + (text[length] == ',')) {
        length = strcspn(text, ",");
        int i = 0;
        while (i < RULES && (strlen(rule_names[i]) != length || strncasecmp(rule_names[i], text, length) != 0)) i++;
        if (i == RULES) warnx("--rules: no such rule: %.*s; there are:", (int)length, text);
        for (int k = 0; i == RULES && k < RULES; k++) warnx("  %s", rule_names[k]);
        if (i == RULES) exit(CANNOT_START);
        options.limits.rules |= i == LINUX ? NOG_LINUX : i == PROFILE ? 0 : UINT64_C(1) << i;
    }
}

const char *words_of_rules(void) {
    static char text[256];
    size_t length = 0;
    if (options.limits.rules == NOG_LINUX) return rule_names[LINUX];
    for (int i = 0; i < LINUX; i++)
        if (options.limits.rules >> i & 1)
            length += (size_t)snprintf(text + length, sizeof text - length, "%s%s", length ? "," : "", rule_names[i]);
    return text;
}

static uint64_t read_number(const char *what, const char *text, uint64_t least, uint64_t most) {
    char *end;
    uint64_t number = strtoull(text, &end, 0);
    if (text[0] < '0' || text[0] > '9' || *end || number < least || number > most)
        errx(CANNOT_START, "%s is %s; it is a number from %lu to %lu", what, text, least, most);
    return number;
}

static void read_limits(const char *text) {
    char words[4][32], rest;
    nog_limits *l = &options.limits;
    if (sscanf(text, "%31[^,],%31[^,],%31[^,],%31[^,]%c", words[0], words[1], words[2], words[3], &rest) != 4)
        errx(CANNOT_START, "--limits: %s is not SHMMAX,SHMMNI,SHMALL,MEMLOCK: bytes, segments, pages, pages", text);
    options.has_limits = true;
    l->shmmax = read_number("--limits: SHMMAX", words[0], 1, UINT64_C(1) << 40);
    l->shmmni = read_number("--limits: SHMMNI", words[1], 1, 32768);
    l->shmall = read_number("--limits: SHMALL", words[2], 1, 1 << 28);
    l->memlock = read_number("--limits: MEMLOCK", words[3], 0, (1 << 24) - 2);
}

/* What follows the slots of a fuse: one or more of :rK and :wK, its reads and writes that fail. Null: it is not right. */
static const char *read_fuse(const char *text) {
    if (*text != ':') return NULL;
    while (*text == ':') {
        char *end;
        nog_failure failure = {.area = (uint32_t)options.area_count, .is_write = text[1] == 'w'};
        bool is_right = (text[1] == 'r' || text[1] == 'w') && text[2] >= '1' && text[2] <= '9';
        if (!is_right || options.failure_count == MOST_FAILURES) return NULL;
        failure.call = strtoull(text + 2, &end, 10);
        options.failures[options.failure_count++] = failure;
        text = end;
    }
    return text;
}

static void read_area(const char *text) {
    static const struct { const char *name; uint32_t kind; } kinds[] = {
        {"ram:", NOG_RAM}, {"sparse:", NOG_SPARSE}, {"mirror:", NOG_MIRROR}, {"fuse:", NOG_RAM}};
    enum { KINDS = sizeof kinds / sizeof *kinds, FUSE = KINDS - 1, MOST_SLOTS = 1 << 28 };
    int i = 0;
    while (i < KINDS && strncmp(text, kinds[i].name, strlen(kinds[i].name)) != 0) i++;
    const char *number = i < KINDS ? text + strlen(kinds[i].name) : "", *end = number + strspn(number, "0123456789");
    uint64_t slots = end == number ? 0 : strtoull(number, NULL, 10);
    if (i == FUSE) end = read_fuse(end);
    if (!end || *end || slots < 1 || slots > MOST_SLOTS || options.area_count == MOST_AREAS)
        errx(CANNOT_START, "--swap: %s is not ram:N, sparse:N, mirror:N, fuse:N:rK or fuse:N:wK, with N from 1 to %d; "
             "%d areas at most", text, MOST_SLOTS, MOST_AREAS);
    options.areas[options.area_count++] = (nog_area){kinds[i].kind, (uint32_t)slots};
}

/* The record is written at the end, but what can't be written is said at once. */
static void read_record(const char *name) {
    char path[4096];
    snprintf(path, sizeof path, "%s.shm", name);
    FILE *file = fopen(path, "w");
    if (!file) err(CANNOT_START, "--record: %s", path);
    fclose(file);
    options.record = name;
}

static void read_option(const char *name, const char *value) {
    const char *wrong = NULL;
    if (strcmp(name, "--limits") == 0) read_limits(value);
    else if (strcmp(name, "--rules") == 0) read_rules(value);
    else if (strcmp(name, "--seed") == 0) options.seed = read_number(name, value, 0, UINT64_MAX);
    else if (strcmp(name, "--record") == 0) read_record(value);
    else if (strcmp(name, "--frames") == 0) options.frames = read_number(name, value, 2, 1 << 24);
    else if (strcmp(name, "--swap") == 0) read_area(value);
    else if (strcmp(name, "--swap-file") == 0) options.swap_file = value;
    else if (strcmp(name, "--fail") == 0) wrong = add_failure(value);
    else errx(CANNOT_START, "no such option: %s; %s", name, usage);
    if (wrong) errx(CANNOT_START, "--fail: %s: %s", value, wrong);
}

/* As many locked pages as the caller may have. */
static void read_memlock(void) {
    struct rlimit limit;
    uint64_t most = (1 << 20) - 2, pages = most;
    if (getrlimit(RLIMIT_MEMLOCK, &limit) == 0 && limit.rlim_cur != RLIM_INFINITY) pages = limit.rlim_cur / PAGE;
    options.limits.memlock = pages < most ? pages : most;
}

void read_options(int argc, char **argv) {
    char name[32];
    read_memlock();
    int i = 1;
    for (; i < argc && argv[i][0] == '-'; i++) {
        if (strcmp(argv[i], "--") == 0) { i++; break; }
        size_t length = strcspn(argv[i], "=");
        bool is_joined = argv[i][length] == '=';
        snprintf(name, sizeof name, "%.*s", (int)length, argv[i]);
        if (!is_joined && i + 1 == argc) errx(CANNOT_START, "%s has no value; %s", argv[i], usage);
        read_option(name, is_joined ? argv[i] + length + 1 : argv[i + 1]);
        i += !is_joined;
    }
    if ((options.area_count || options.swap_file) && !options.frames)
        errx(CANNOT_START, "--swap%s needs --frames", options.swap_file ? "-file" : "");
    if (i == argc) errx(CANNOT_START, "there is no command; %s", usage);
    options.command = argv + i;
}

/* Calls that fail on demand: --fail CALL:N=ERRNO and --fail CALL:P%=ERRNO. */
#include "shmrun.h"
#include <stdio.h>
#include <stdlib.h>
#include <string.h>

enum { RULES = 64, LAST_ERROR = 133 };
static struct rule {
    enum kind kind;
    uint64_t place;    /* the call that fails, from 1; 0: each by chance */
    double chance;
    int error;
    uint64_t count;    /* of calls until now */
    uint64_t drawn;    /* the generator's state */
} rules[RULES];
static int rule_count;

static int error_named(const char *name) {
    for (int i = 1; i <= LAST_ERROR; i++)
        if (strerrorname_np(i) && strcmp(strerrorname_np(i), name) == 0) return i;
    return 0;
}

static enum kind kind_named(const char *text, size_t length) {
    enum kind kind = GET;
    while (kind < KINDS_THAT_FAIL && (strncmp(call_names[kind], text, length) != 0 || call_names[kind][length])) kind++;
    return kind;
}

const char *add_failure(const char *text) {
    const char *colon = strchr(text, ':'), *equals = strchr(text, '=');
    char *end;
    if (rule_count == RULES) return "there are at most 64 of them";
    if (!colon || !equals || equals < colon) return "the form is CALL:N=ERRNO or CALL:P%=ERRNO";
    struct rule rule = {.kind = kind_named(text, (size_t)(colon - text)), .error = error_named(equals + 1)};
    if (rule.kind == KINDS_THAT_FAIL)
        return "CALL is shmget, shmat, shmdt, shmctl, or one of shmctl's: stat, set, rmid, lock, unlock, info";
    if (!rule.error) return "ERRNO is the name of an error, such as ENOMEM";
    if (equals[-1] == '%') {
        rule.chance = strtod(colon + 1, &end) / 100;
        if (end != equals - 1 || !(rule.chance >= 0 && rule.chance <= 1)) return "P is a number from 0 to 100";
    } else {
        rule.place = strtoull(colon + 1, &end, 10);
        if (end != equals || rule.place == 0 || colon[1] == '-') return "N is the number of a call, from 1";
    }
    rules[rule_count++] = rule;
    return NULL;
}

/* splitmix64: the same seed draws the same numbers on every machine */
static double draw(struct rule *rule) {
    rule->drawn += UINT64_C(0x9e3779b97f4a7c15);
    uint64_t z = rule->drawn;
    z = (z ^ z >> 30) * UINT64_C(0xbf58476d1ce4e5b9);
    z = (z ^ z >> 27) * UINT64_C(0x94d049bb133111eb);
    return (double)((z ^ z >> 31) >> 11) / (double)(UINT64_C(1) << 53);
}

int failure_of(enum kind kind) {
    int error = 0;
    for (int i = 0; i < rule_count; i++) {
        struct rule *rule = &rules[i];
        if (rule->kind != kind) continue;
        if (rule->count++ == 0) rule->drawn = options.seed + (uint64_t)i;
        bool fails = rule->place ? rule->count == rule->place : draw(rule) < rule->chance;
        if (fails && !error) error = rule->error;
    }
    return error;
}

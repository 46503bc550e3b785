/* Two pages side by side: a store and a load across the seam between them. */
#include <inttypes.h>
#include <stdio.h>
#include <nogcuvema.h>

enum { PID = 1, STORED = 4, LOADED = 6 };

static const nog_limits limits = {.shmmax = 65536, .shmmni = 16, .shmall = 64, .frames = 4, .memlock = 1};
static const nog_area swap = {NOG_RAM, 64};
static const nog_failure none = {.call = 1};
static const nog_process process = {.pid = PID, .is_born = 1, .uid = 100, .gid = 100};

static uint32_t run(nog_machine *machine, uint8_t loaded[LOADED]) {
    const uint8_t stored[STORED] = {1, 2, 3, 4};
    int32_t id = -1;
    uint64_t at = 0;
    uint32_t code = nog_open(machine, &limits, &swap, 1, &none, 0, &process, 1);
    if (code == NOG_DONE) code = nog_get(machine, PID, NOG_PRIVATE, 8192, 0600, 0, &id);
    if (code == NOG_DONE) code = nog_attach(machine, PID, id, 0, 0, &at);
    if (code == NOG_DONE) printf("segment %" PRId32 " at 0x%" PRIx64 "\n", id, at);
    if (code == NOG_DONE) code = nog_store(machine, PID, at + 4094, stored, sizeof stored);
    if (code == NOG_DONE) code = nog_load(machine, PID, at + 4093, loaded, LOADED);
    return code;
}

int main(void) {
    nog_machine machine = NOG_MACHINE_INITIALIZER;
    uint8_t loaded[LOADED], text[64];
    size_t len;
    uint32_t code = run(&machine, loaded);
    if (code == NOG_DONE) {
        for (int i = 0; i < LOADED; i++) printf("%02x", loaded[i]);
        puts("");
    } else if (nog_text(code, text, sizeof text, &len) == NOG_DONE) {
        fprintf(stderr, "page_seam: %s\n", (const char *)text);
    }
    nog_close(&machine);
    return code == NOG_DONE ? 0 : 1;
}

/* The bytes of segments. Each segment that was ever attached has a file in memory, which the programs map. The file is sealed,
   so no program can cut it. It has no name anywhere; /proc/PID/maps shows it as /memfd:/SYSV and its key. */
#include "shmrun.h"
#include <errno.h>
#include <fcntl.h>
#include <stdio.h>
#include <stdlib.h>
#include <sys/mman.h>
#include <sys/stat.h>
#include <unistd.h>

enum { INDEXES = 32768, BYTES_OF_BLOCK = 512 };
static struct { int32_t id; int file; } files[INDEXES];  /* by index; file is 0, or a descriptor above 2 */

static int make_file(const nog_segment *segment) {
    char name[32];
    snprintf(name, sizeof name, "/SYSV%08x", segment->key);
    int file = memfd_create(name, MFD_CLOEXEC | MFD_ALLOW_SEALING);
    if (file == -1) return -1;
    if (ftruncate(file, (off_t)pages_of(segment->size)) == -1 ||
        fcntl(file, F_ADD_SEALS, F_SEAL_SHRINK | F_SEAL_GROW | F_SEAL_SEAL) == -1) {
        close(file);
        return -1;
    }
    return file;
}

static void close_file(uint32_t index) {
    if (options.frames) forget_pages(files[index].id);
    close(files[index].file);
    files[index].file = 0;
}

int file_of(const nog_segment *segment) {
    uint32_t index = segment->index;
    if (files[index].file && files[index].id == segment->id) return files[index].file;
    int file = make_file(segment);
    if (file == -1) return -1;
    if (files[index].file) close_file(index);
    files[index].id = segment->id;
    files[index].file = file;
    return file;
}

int open_for_reading(int file) {
    char path[64];
    snprintf(path, sizeof path, "/proc/self/fd/%d", file);
    return open(path, O_RDONLY | O_CLOEXEC);
}

struct residency residency_of(int32_t id) {
    struct residency of = {0, 0};
    uint32_t index = (uint32_t)id % INDEXES;
    struct stat found;
    if (options.frames) reply_of(nog_pages_of(&machine, id, &of.resident, &of.swapped));
    else if (files[index].file && files[index].id == id && fstat(files[index].file, &found) == 0)
        of.resident = (uint64_t)found.st_blocks * BYTES_OF_BLOCK / PAGE;
    return of;
}

/* The files are looked through only if the machine has fewer segments than at the last time. */
void close_destroyed(void) {
    static uint64_t before;
    nog_tally tally;
    nog_segment segment;
    uint32_t count = 0;
    reply_of(nog_tally_of(&machine, &tally));
    if (tally.segments < before) reply_of(nog_indexes(&machine, &count));
    for (uint32_t i = 0; i < count; i++)
        if (files[i].file && nog_segment_of(&machine, files[i].id, &segment) != NOG_DONE) close_file(i);
    before = tally.segments;
}

/* The files of /proc that show segments and limits. A program that opens one of them gets a file in memory with the machine's. */
#include "shmrun.h"
#include <errno.h>
#include <fcntl.h>
#include <linux/openat2.h>
#include <stdio.h>
#include <string.h>
#include <sys/mman.h>
#include <sys/stat.h>
#include <sys/syscall.h>
#include <unistd.h>

enum { MOST_OF_PATH = 64 };

static void print_segments(FILE *to) {
    uint32_t count = 0;
    nog_segment s;
    fputs("       key      shmid perms                  size  cpid  lpid nattch   uid   gid  cuid  cgid"
          "      atime      dtime      ctime                   rss                  swap\n", to);
    nog_indexes(&machine, &count);
    for (uint32_t i = 0; i < count; i++) {
        if (nog_segment_at(&machine, i, &s) != NOG_DONE) continue;
        struct residency of = residency_of(s.id);
        fprintf(to, "%10d %10d  %4o %21lu %5u %5u  %5u %5u %5u %5u %5u %10lu %10lu %10lu %21lu %21lu\n", (int)s.key, s.id,
                s.mode | s.status, s.size, s.cpid, s.lpid, s.nattch, s.uid, s.gid, s.cuid, s.cgid, s.atime, s.dtime, s.ctime,
                of.resident * PAGE, of.swapped * PAGE);
    }
}

/* what shows a limit, and what shows the segments */
static const struct view { const char *path; const uint64_t *limit; } views[] = {
    {"/proc/sysvipc/shm", NULL},
    {"/proc/sys/kernel/shmmax", &options.limits.shmmax},
    {"/proc/sys/kernel/shmmni", &options.limits.shmmni},
    {"/proc/sys/kernel/shmall", &options.limits.shmall},
};
enum { VIEWS = sizeof views / sizeof *views };

/* A path from a folder is compared by the file that it leads to. */
static bool leads_to(const struct call *call, int folder, const char *path, const char *view) {
    char whole[2 * MOST_OF_PATH];
    struct stat there, here;
    if (strcmp(strrchr(view, '/') + 1, strrchr(path, '/') ? strrchr(path, '/') + 1 : path) != 0) return false;
    if (folder == AT_FDCWD) snprintf(whole, sizeof whole, "/proc/%d/cwd/%s", call->tid, path);
    else snprintf(whole, sizeof whole, "/proc/%d/fd/%d/%s", call->tid, folder, path);
    return stat(whole, &there) == 0 && stat(view, &here) == 0 && there.st_dev == here.st_dev && there.st_ino == here.st_ino;
}

static const struct view *view_of(const struct call *call, int folder, uint64_t address) {
    char path[MOST_OF_PATH];
    if (!read_text(call, address, path, sizeof path) || (path[0] == '/' && strncmp(path, "/proc/", 6) != 0)) return NULL;
    for (int i = 0; i < VIEWS; i++)
        if (path[0] == '/' ? strcmp(path, views[i].path) == 0 : leads_to(call, folder, path, views[i].path)) return &views[i];
    return NULL;
}

/* Returns a descriptor for reading, or the negative number of an error. */
static int make_view(const struct view *view) {
    int file = memfd_create(view->path, MFD_CLOEXEC);
    FILE *to = file == -1 ? NULL : fdopen(file, "w");
    if (!to) return -ENFILE;
    if (view->limit) fprintf(to, "%lu\n", *view->limit);
    else print_segments(to);
    fflush(to);
    int made = open_for_reading(file);
    fclose(to);
    return made == -1 ? -ENFILE : made;
}

/* What is written to /proc/PID/mem goes past page tables. */
static bool is_memory(const struct call *call, uint64_t address) {
    char path[MOST_OF_PATH];
    const char *name = read_text(call, address, path, sizeof path) ? strrchr(path, '/') : NULL;
    return name && strncmp(path, "/proc/", 6) == 0 && strcmp(name, "/mem") == 0;
}

void do_open(struct call *call) {
    int folder = call->number == SYS_open ? AT_FDCWD : (int)call->args[0];
    uint64_t path = call->args[call->number == SYS_open ? 0 : 1], flags = call->args[call->number == SYS_open ? 1 : 2];
    struct open_how how;
    if (call->number == SYS_openat2) flags = read_memory(call, call->args[2], &how, sizeof how) ? how.flags : O_WRONLY;
    if (options.frames && flags & (O_WRONLY | O_RDWR) && is_memory(call, path)) return answer(call, -EACCES);
    if (options.frames && flags & O_DIRECT) return open_without_cache(call, call->number == SYS_open ? 1 : 2);
    const struct view *view = flags & (O_ACCMODE | O_DIRECTORY | O_PATH | O_CREAT) ? NULL : view_of(call, folder, path);
    if (!view) return let_pass(call);
    int file = make_view(view);
    int64_t result = file < 0 ? file : give_file(call, file, (uint32_t)flags & O_CLOEXEC);
    if (file >= 0) close(file);
    answer(call, result);
}

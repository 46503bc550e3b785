/* numbers: compares each value of the header's enums with the library's text for it, with the system's own header where that
   has the name too, or with what it makes the library do. */
#define _DEFAULT_SOURCE 1
#include <errno.h>
#include <signal.h>
#include <sys/ipc.h>
#include <sys/shm.h>
#include "testing.h"

static const struct { uint32_t code; const char *text; } texts[] = {
    {NOG_DONE, "done"}, {NOG_EPERM, "EPERM"}, {NOG_ENOENT, "ENOENT"}, {NOG_ESRCH, "ESRCH"}, {NOG_EIO, "EIO"},
    {NOG_EAGAIN, "EAGAIN"}, {NOG_ENOMEM, "ENOMEM"}, {NOG_EACCES, "EACCES"}, {NOG_EEXIST, "EEXIST"}, {NOG_EINVAL, "EINVAL"},
    {NOG_EMFILE, "EMFILE"}, {NOG_ENOSPC, "ENOSPC"}, {NOG_EIDRM, "EIDRM"}, {NOG_SIGBUS, "SIGBUS"}, {NOG_SIGSEGV, "SIGSEGV"},
    {NOG_NO_MEMORY, "out of memory"}, {NOG_CLOSED, "no machine in the handle"},
    {NOG_OUT_OF_RANGE, "a number that no call can carry"}, {NOG_SPENT, "no more calls can be counted"},
    {NOG_LENT, "a page on loan is in the way"},
    {NOG_BAD_SHMMAX, "bad limits: SHMMAX"}, {NOG_BAD_SHMMNI, "bad limits: SHMMNI"}, {NOG_BAD_SHMALL, "bad limits: SHMALL"},
    {NOG_BAD_FRAMES, "bad limits: frames"}, {NOG_BAD_MEMLOCK, "bad limits: MEMLOCK"},
    {NOG_BAD_MOST_PIECES, "bad limits: the most pieces of a process"}, {NOG_BAD_MOST_PROCESSES, "bad limits: the most processes"},
    {NOG_BAD_MOST_SLOTS, "bad limits: the most slots of a swap area"},
    {NOG_BAD_AREAS, "start refused: not 1 to 8 swap areas"},
    {NOG_BAD_AREA_SIZE, "start refused: a swap area without slots, or with too many"},
    {NOG_BAD_PROCESSES, "start refused: too many processes"}, {NOG_BAD_PID, "start refused: a pid out of range, or twice"},
    {NOG_ADMIT_BAD_PID, "admission refused: a pid out of range"}, {NOG_ADMIT_TAKEN, "admission refused: a pid that is taken"},
    {NOG_ADMIT_MANY, "admission refused: too many processes"}, {NOG_DISMISS_NONE, "dismissal refused: no process has the pid"},
    {NOG_DISMISS_LIVE, "dismissal refused: the process is live"} };

static const struct { uint32_t here, there; } same[] = {
    {NOG_EPERM, EPERM}, {NOG_ENOENT, ENOENT}, {NOG_ESRCH, ESRCH}, {NOG_EIO, EIO}, {NOG_EAGAIN, EAGAIN}, {NOG_ENOMEM, ENOMEM},
    {NOG_EACCES, EACCES}, {NOG_EEXIST, EEXIST}, {NOG_EINVAL, EINVAL}, {NOG_EMFILE, EMFILE}, {NOG_ENOSPC, ENOSPC},
    {NOG_EIDRM, EIDRM}, {NOG_SIGBUS, 1000 + SIGBUS}, {NOG_SIGSEGV, 1000 + SIGSEGV}, {NOG_PRIVATE, IPC_PRIVATE},
    {NOG_CREAT, IPC_CREAT}, {NOG_EXCL, IPC_EXCL}, {NOG_RDONLY, SHM_RDONLY}, {NOG_RND, SHM_RND}, {NOG_REMAP, SHM_REMAP},
    {NOG_DEST, SHM_DEST}, {NOG_LOCKED, SHM_LOCKED},
    {NOG_LENT, 2005}, {NOG_BAD_SHMMAX, NOG_BAD_LIMITS + 1}, {NOG_BAD_MEMLOCK, NOG_BAD_LIMITS + 5}, {NOG_BAD_AREAS, NOG_START_REFUSED + 1},
    {NOG_BAD_PID, NOG_START_REFUSED + 4} };

static void test_texts(void) {
    for (size_t i = 0; i < sizeof texts / sizeof *texts; i++) {
        uint8_t text[64] = {0};
        size_t len = 0;
        ANSWER(nog_text(texts[i].code, text, sizeof text, &len), NOG_DONE);
        test(strcmp((char *)text, texts[i].text) == 0, __FILE__, __LINE__, texts[i].text, texts[i].code);
    }
}

static void test_same(void) {
    for (size_t i = 0; i < sizeof same / sizeof *same; i++)
        test(same[i].here == same[i].there, __FILE__, __LINE__, "a number of the system's headers", same[i].here);
}

/* status bits and flags do what their names say: each alone */
static void test_flags(nog_machine *m) {
    nog_segment s;
    uint64_t at = 0;
    int32_t id = -1;
    ANSWER(open_usual(m), NOG_DONE);
    ANSWER(nog_get(m, USER, 7, PAGE, 0600, NOG_EXCL, &id), NOG_ENOENT);
    ANSWER(nog_get(m, USER, 7, PAGE, 0600, NOG_CREAT, &id), NOG_DONE);
    ANSWER(nog_get(m, USER, 7, PAGE, 0600, NOG_CREAT, &id), NOG_DONE);
    ANSWER(nog_attach(m, USER, id, LOWEST + 1, NOG_RND, &at), NOG_DONE);
    ANSWER(nog_attach(m, USER, id, LOWEST, 0, &at), NOG_EINVAL);
    ANSWER(nog_attach(m, USER, id, LOWEST, NOG_REMAP, &at), NOG_DONE);
    ANSWER(nog_attach(m, USER, id, 0, NOG_RDONLY, &at), NOG_DONE);
    ANSWER(nog_store(m, USER, at, (const uint8_t *)"x", 1), NOG_SIGSEGV);
    ANSWER(nog_lock(m, USER, id), NOG_DONE);
    ANSWER(nog_stat(m, USER, id, &s), NOG_DONE);
    TEST(s.status == NOG_LOCKED);
    ANSWER(nog_unlock(m, USER, id), NOG_DONE);
    ANSWER(nog_remove(m, USER, id), NOG_DONE);
    ANSWER(nog_stat(m, USER, id, &s), NOG_DONE);
    TEST(s.status == NOG_DEST);
}

/* a mirror alone has a right side */
static void test_kinds(nog_machine *m) {
    static const nog_failure right = {.side = 1, .call = 1};
    for (uint32_t kind = NOG_RAM; kind <= NOG_MIRROR; kind++) {
        nog_area area = {kind, 1};
        ANSWER(nog_open(m, &limits, &area, 1, &right, 1, processes, 3), kind == NOG_MIRROR ? NOG_DONE : NOG_OUT_OF_RANGE);
    }
    TEST(NOG_RAM == 1 && NOG_SPARSE == 2 && NOG_MIRROR == 3);
}

/* a null pointer with a count or a length of 0 is like any other pointer */
static void test_nulls(nog_machine *m) {
    static uint8_t page[PAGE];
    uint64_t done = 7, at = 0;
    size_t len = 0;
    int32_t id = -1;
    ANSWER(nog_open(m, &limits, NULL, 0, NULL, 0, NULL, 0), NOG_BAD_AREAS);
    ANSWER(nog_open(m, &limits, &ram, 1, NULL, 0, NULL, 0), NOG_DONE);
    ANSWER(nog_get(m, ROOT, NOG_PRIVATE, PAGE, 0600, 0, &id), NOG_ESRCH);
    ANSWER(nog_open(m, &limits, &ram, 1, NULL, 0, processes, 3), NOG_DONE);
    ANSWER(nog_get(m, ROOT, NOG_PRIVATE, PAGE, 0600, 0, &id), NOG_DONE);
    ANSWER(nog_attach(m, ROOT, id, 0, 0, &at), NOG_DONE);
    ANSWER(nog_load(m, ROOT, at, NULL, 0), NOG_OUT_OF_RANGE);
    ANSWER(nog_store(m, ROOT, at, NULL, 0), NOG_OUT_OF_RANGE);
    ANSWER(nog_read(m, ROOT, at, NULL, 0, &done), NOG_DONE);
    TEST(done == 0);
    done = 7;
    ANSWER(nog_write(m, ROOT, at, NULL, 0, &done), NOG_DONE);
    TEST(done == 0);
    ANSWER(nog_lend(m, id, 0, NULL, 0), NOG_OUT_OF_RANGE);
    ANSWER(nog_lend(m, id, 0, page, PAGE), NOG_DONE);
    ANSWER(nog_give_back(m, id, 0, NULL, 0), NOG_DONE);
    ANSWER(nog_text(NOG_EINVAL, NULL, 0, &len), NOG_DONE);
    TEST(len == 6);
}

int main(void) {
    nog_machine machine = NOG_MACHINE_INITIALIZER;
    test_texts();
    test_same();
    test_flags(&machine);
    test_kinds(&machine);
    test_nulls(&machine);
    ANSWER(nog_close(&machine), NOG_DONE);
    return finish("numbers");
}

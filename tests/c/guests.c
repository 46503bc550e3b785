/* guests: processes that come and go while a machine is open, users that change, and times that the host gives. Each answer
   is that of docs/MACHINE.md. */
#include "testing.h"

enum { LAST_PID = 2147483647, MOST = 64 };

static nog_machine machine = NOG_MACHINE_INITIALIZER;

static uint32_t admit(uint32_t pid, uint32_t is_born, uint32_t uid) {
    const nog_process process = {pid, is_born, uid, uid + 1};
    return nog_admit(&machine, &process);
}

static uint32_t attaches(int32_t id) {
    nog_segment s = {0};
    ANSWER(nog_stat(&machine, ROOT, id, &s), NOG_DONE);
    return s.nattch;
}

static int32_t make(uint32_t pid, uint32_t mode) {
    int32_t id = -1;
    ANSWER(nog_get(&machine, pid, NOG_PRIVATE, PAGE, mode, 0, &id), NOG_DONE);
    return id;
}

static uint64_t attach(uint32_t pid, int32_t id) {
    uint64_t at = 0;
    ANSWER(nog_attach(&machine, pid, id, 0, 0, &at), NOG_DONE);
    return at;
}

static void test_closed(void) {
    ANSWER(admit(9, 1, 0), NOG_CLOSED);
    ANSWER(nog_dismiss(&machine, ROOT), NOG_CLOSED);
    ANSWER(nog_set_user(&machine, ROOT, 1, 1), NOG_CLOSED);
    ANSWER(nog_set_time(&machine, 1), NOG_CLOSED);
}

/* what is refused, the first that holds; nog_set_user is a call, the others are not */
static void test_refusals(void) {
    uint64_t calls = 1;
    ANSWER(open_usual(&machine), NOG_DONE);
    ANSWER(admit(0, 1, 0), NOG_ADMIT_BAD_PID);
    ANSWER(admit((uint32_t)LAST_PID + 1, 1, 0), NOG_ADMIT_BAD_PID);
    ANSWER(admit(USER, 1, 0), NOG_ADMIT_TAKEN);
    ANSWER(admit(CHILD, 1, 0), NOG_ADMIT_TAKEN);
    ANSWER(nog_dismiss(&machine, USER), NOG_DISMISS_LIVE);
    ANSWER(nog_dismiss(&machine, UNDECLARED), NOG_DISMISS_NONE);
    ANSWER(nog_set_user(&machine, CHILD, 1, 1), NOG_ESRCH);
    ANSWER(nog_set_user(&machine, UNDECLARED, 1, 1), NOG_ESRCH);
    ANSWER(nog_calls(&machine, &calls), NOG_DONE);
    TEST(calls == 2);
}

/* as many as the limits allow: the ended count until they are dismissed, and give their place to their own pid alone */
static void test_most(void) {
    ANSWER(open_usual(&machine), NOG_DONE);
    for (uint32_t pid = 4; pid <= MOST; pid++) ANSWER(admit(pid, pid % 2, 5), NOG_DONE);
    ANSWER(admit(LAST_PID, 1, 0), NOG_ADMIT_MANY);
    ANSWER(admit(MOST, 1, 0), NOG_ADMIT_TAKEN);
    ANSWER(nog_exit(&machine, 7), NOG_DONE);
    ANSWER(admit(LAST_PID, 1, 0), NOG_ADMIT_MANY);
    ANSWER(admit(7, 1, 5), NOG_DONE);
    ANSWER(nog_exit(&machine, 7), NOG_DONE);
    ANSWER(nog_dismiss(&machine, 7), NOG_DONE);
    ANSWER(nog_dismiss(&machine, 7), NOG_DISMISS_NONE);
    ANSWER(nog_exec(&machine, 7), NOG_ESRCH);
    ANSWER(admit(LAST_PID, 1, 0), NOG_DONE);
    ANSWER(admit(7, 1, 0), NOG_ADMIT_MANY);
    ANSWER(nog_exec(&machine, LAST_PID), NOG_DONE);
    ANSWER(nog_exec(&machine, 9), NOG_DONE);
}

/* 32,768 declared processes: a pid that is out of range, and one that an earlier or a later one has, wherever it lies */
static void test_many_declared(void) {
    static nog_process many[32768];
    nog_limits wide = limits;
    nog_machine crowd = NOG_MACHINE_INITIALIZER;
    size_t count = sizeof many / sizeof many[0];
    wide.most_pieces = 16;
    wide.most_processes = count;
    wide.most_slots = 64;
    for (size_t place = 0; place < count; place++) many[place] = (nog_process){(uint32_t)(LAST_PID - place), 1, 0, 0};
    const size_t places[] = {0, 1, count / 2, count - 1};
    for (size_t k = 0; k < 4; k++) {
        size_t place = places[k];
        uint32_t pid = many[place].pid;
        many[place].pid = 0;
        ANSWER(nog_open(&crowd, &wide, &ram, 1, &none, 0, many, count), NOG_BAD_PID);
        many[place].pid = many[(place + 77) % count].pid;
        ANSWER(nog_open(&crowd, &wide, &ram, 1, &none, 0, many, count), NOG_BAD_PID);
        many[place].pid = pid;
    }
    ANSWER(nog_exec(&crowd, many[0].pid), NOG_CLOSED);
    ANSWER(nog_open(&crowd, &wide, &ram, 1, &none, 0, many, count), NOG_DONE);
    for (size_t k = 0; k < 4; k++) ANSWER(nog_exec(&crowd, many[places[k]].pid), NOG_DONE);
    ANSWER(nog_exec(&crowd, (uint32_t)(LAST_PID - count)), NOG_ESRCH);
    ANSWER(nog_close(&crowd), NOG_DONE);
    wide.most_processes = count - 1;
    ANSWER(nog_open(&crowd, &wide, &ram, 1, &none, 0, many, count), NOG_BAD_PROCESSES);
}

/* 1,000 lives under two pids: a child is admitted, forked, and dismissed, and the counts are exact all the while */
static void test_lives(void) {
    ANSWER(open_usual(&machine), NOG_DONE);
    int32_t id = make(USER, 0600);
    uint64_t at = attach(USER, id), before = 0;
    for (uint64_t life = 0; life < 1000; life++) {
        uint32_t pid = 10 + (uint32_t)life % 2;
        ANSWER(admit(pid, 0, 0), NOG_DONE);
        ANSWER(nog_exec(&machine, pid), NOG_ESRCH);
        ANSWER(nog_fork(&machine, USER, pid), NOG_DONE);
        TEST(attaches(id) == 2);
        ANSWER(nog_add(&machine, pid, at, 1, &before), NOG_DONE);
        TEST(before == life);
        ANSWER(nog_exit(&machine, pid), NOG_DONE);
        TEST(attaches(id) == 1);
        ANSWER(nog_dismiss(&machine, pid), NOG_DONE);
    }
    ANSWER(nog_dismiss(&machine, CHILD), NOG_DONE);
    ANSWER(nog_fork(&machine, USER, CHILD), NOG_EAGAIN);
}

/* a pid that comes back is another process: it has its own user, and no piece */
static void test_another(void) {
    nog_segment s = {0};
    uint8_t byte = 0;
    ANSWER(open_usual(&machine), NOG_DONE);
    int32_t id = make(USER, 0600);
    uint64_t at = attach(USER, id);
    ANSWER(nog_exit(&machine, USER), NOG_DONE);
    ANSWER(admit(USER, 1, 300), NOG_DONE);
    ANSWER(nog_load(&machine, USER, at, &byte, 1), NOG_SIGSEGV);
    ANSWER(nog_stat(&machine, USER, id, &s), NOG_EACCES);
    ANSWER(nog_stat(&machine, ROOT, make(USER, 0600), &s), NOG_DONE);
    TEST(s.uid == 300 && s.gid == 301 && s.nattch == 0);
}

/* a set-user-ID program: what was refused is granted, of this process alone, and its pieces stay */
static void test_users(void) {
    nog_segment s = {0};
    uint8_t byte = 7;
    ANSWER(open_usual(&machine), NOG_DONE);
    ANSWER(admit(5, 1, 500), NOG_DONE);
    int32_t mine = make(5, 0600), theirs = make(USER, 0600);
    uint64_t at = attach(5, mine);
    ANSWER(nog_stat(&machine, 5, theirs, &s), NOG_EACCES);
    ANSWER(nog_set_user(&machine, 5, 200, 201), NOG_DONE);
    ANSWER(nog_stat(&machine, 5, theirs, &s), NOG_DONE);
    ANSWER(nog_stat(&machine, 5, mine, &s), NOG_EACCES);
    ANSWER(nog_stat(&machine, USER, mine, &s), NOG_EACCES);
    ANSWER(nog_store(&machine, 5, at, &byte, 1), NOG_DONE);
    ANSWER(nog_detach(&machine, 5, at), NOG_DONE);
    ANSWER(nog_attach(&machine, 5, mine, 0, 0, &at), NOG_EACCES);
    ANSWER(nog_set_user(&machine, 5, 500, 501), NOG_DONE);
    ANSWER(nog_stat(&machine, 5, mine, &s), NOG_DONE);
    TEST(s.nattch == 0 && s.lpid == 5);
    ANSWER(nog_fork(&machine, 5, CHILD), NOG_DONE);
    ANSWER(nog_stat(&machine, CHILD, mine, &s), NOG_DONE);
}

/* places of calls before the first time, and what was given last from then on */
static void test_times(void) {
    nog_segment s = {0};
    ANSWER(open_usual(&machine), NOG_DONE);
    int32_t id = make(USER, 0600);
    uint64_t at = attach(USER, id);
    ANSWER(nog_set_time(&machine, 1700000000), NOG_DONE);
    ANSWER(nog_detach(&machine, USER, at), NOG_DONE);
    ANSWER(nog_stat(&machine, USER, id, &s), NOG_DONE);
    TEST(s.ctime == 1 && s.atime == 2 && s.dtime == 1700000000);
    ANSWER(nog_set_time(&machine, UINT64_MAX), NOG_DONE);
    ANSWER(nog_set(&machine, USER, id, 200, 201, 0640), NOG_DONE);
    ANSWER(nog_set_time(&machine, 5), NOG_DONE);
    attach(USER, id);
    ANSWER(nog_stat(&machine, USER, id, &s), NOG_DONE);
    TEST(s.ctime == UINT64_MAX && s.atime == 5 && s.dtime == 1700000000);
    /* another machine begins with places again */
    ANSWER(open_usual(&machine), NOG_DONE);
    ANSWER(nog_stat(&machine, USER, make(USER, 0600), &s), NOG_DONE);
    TEST(s.ctime == 1);
}

int main(void) {
    test_closed();
    test_refusals();
    test_most();
    test_many_declared();
    test_lives();
    test_another();
    test_users();
    test_times();
    ANSWER(nog_close(&machine), NOG_DONE);
    return finish("guests");
}

/* What small_peer.c needs of Linux: an example to copy for another kernel. docs/CONFORMANCE.md tells what each line is. */
#define _GNU_SOURCE
#include <errno.h>
#include <grp.h>
#include <stdlib.h>
#include <sys/mman.h>
#include <sys/shm.h>
#include <sys/wait.h>
#include <unistd.h>

/* the key of a struct shmid_ds */
#define KEY_OF(s) ((s)->shm_perm.__key)
/* whether processes have users, of which 0 may do everything */
#define HAS_USERS 1
/* gives this process another user and group, if user 0 runs it: 0 if it has them now. A port without this has one user */
static int become(unsigned uid, unsigned gid) {
    return setgroups(0, NULL) || setresgid(gid, gid, gid) || setresuid(uid, uid, uid) || getuid() != uid || getgid() != gid;
}
#define BECOME(uid, gid) become((unsigned)(uid), (unsigned)(gid))
/* munmap(2) and mprotect(2), if the system has them */
#define MUNMAP(address, length) munmap(address, length)
#define MPROTECT(address, length, is_writable) mprotect(address, length, (is_writable) ? PROT_READ | PROT_WRITE : PROT_READ)
/* the addresses where a script may attach: nothing of the peer's own is there */
#define FREE_FROM 0x10000UL
#define FREE_TO 0x500000000000UL

/* one byte of the output */
static void put_char(char c) { if (write(1, &c, 1) != 1) exit(4); }

/* the name of the last call's error */
static const char *error_name(void) {
    static const struct { int error; const char *name; } errors[] = {
        { EPERM, "EPERM" }, { ENOENT, "ENOENT" }, { EIO, "EIO" }, { EAGAIN, "EAGAIN" }, { ENOMEM, "ENOMEM" },
        { EACCES, "EACCES" }, { EEXIST, "EEXIST" }, { EINVAL, "EINVAL" }, { EMFILE, "EMFILE" }, { ENOSPC, "ENOSPC" },
        { EIDRM, "EIDRM" }, { ENFILE, "ENFILE" }, { ENOSYS, "ENOSYS" }, { EFAULT, "EFAULT" } };
    int i;
    for (i = 0; i < (int)(sizeof errors / sizeof *errors); i++)
        if (errors[i].error == errno) return errors[i].name;
    return "EOTHER";
}

/* What conformance/small_peer.c needs of this kernel. docs/CONFORMANCE.md tells what each line is. */
#include "user.h"
#define KEY_OF(s) ((s)->shm_perm.key)
#define HAS_USERS 1
#define BECOME(uid, gid) (setgid((unsigned)(gid)) || setuid((unsigned)(uid)))
#define MUNMAP(at, length) munmap(at, length)
#define MPROTECT(at, length, is_rw) mprotect(at, length, (is_rw) ? PROT_READ | PROT_WRITE : PROT_READ)
#define FREE_FROM 0x10000UL
#define FREE_TO 0x7f0000000000UL

static void put_char(char c) { write(1, &c, 1); }

static const char *error_name(void) {
    static const char *const names[44] = { [1] = "EPERM", [2] = "ENOENT", [5] = "EIO", [11] = "EAGAIN",
        [12] = "ENOMEM", [13] = "EACCES", [14] = "EFAULT", [17] = "EEXIST", [22] = "EINVAL", [24] = "EMFILE",
        [28] = "ENOSPC", [38] = "ENOSYS", [43] = "EIDRM" };
    return refusal < 44 && names[refusal] ? names[refusal] : "EOTHER";
}

/* nogcuvema_names.h - the names of the codes of nogcuvema.h. There is no code in the library for this header. */
#ifndef NOGCUVEMA_NAMES_H
#define NOGCUVEMA_NAMES_H

#include "nogcuvema.h"

/* The name of a code, such as "NOG_LENT", or null if enum nog_code has no such number. */
static inline const char *nog_name(uint32_t code) {
    switch (code) {
    case NOG_DONE: return "NOG_DONE";
    case NOG_EPERM: return "NOG_EPERM";
    case NOG_ENOENT: return "NOG_ENOENT";
    case NOG_ESRCH: return "NOG_ESRCH";
    case NOG_EIO: return "NOG_EIO";
    case NOG_EAGAIN: return "NOG_EAGAIN";
    case NOG_ENOMEM: return "NOG_ENOMEM";
    case NOG_EACCES: return "NOG_EACCES";
    case NOG_EEXIST: return "NOG_EEXIST";
    case NOG_EINVAL: return "NOG_EINVAL";
    case NOG_EMFILE: return "NOG_EMFILE";
    case NOG_ENOSPC: return "NOG_ENOSPC";
    case NOG_EIDRM: return "NOG_EIDRM";
    case NOG_SIGBUS: return "NOG_SIGBUS";
    case NOG_SIGSEGV: return "NOG_SIGSEGV";
    case NOG_NO_MEMORY: return "NOG_NO_MEMORY";
    case NOG_CLOSED: return "NOG_CLOSED";
    case NOG_OUT_OF_RANGE: return "NOG_OUT_OF_RANGE";
    case NOG_SPENT: return "NOG_SPENT";
    case NOG_LENT: return "NOG_LENT";
    case NOG_TOO_FEW_COUNTS: return "NOG_TOO_FEW_COUNTS";
    case NOG_BAD_LIMITS: return "NOG_BAD_LIMITS";
    case NOG_BAD_SHMMAX: return "NOG_BAD_SHMMAX";
    case NOG_BAD_SHMMNI: return "NOG_BAD_SHMMNI";
    case NOG_BAD_SHMALL: return "NOG_BAD_SHMALL";
    case NOG_BAD_FRAMES: return "NOG_BAD_FRAMES";
    case NOG_BAD_MEMLOCK: return "NOG_BAD_MEMLOCK";
    case NOG_BAD_MOST_PIECES: return "NOG_BAD_MOST_PIECES";
    case NOG_BAD_MOST_PROCESSES: return "NOG_BAD_MOST_PROCESSES";
    case NOG_BAD_MOST_SLOTS: return "NOG_BAD_MOST_SLOTS";
    case NOG_BAD_RULES: return "NOG_BAD_RULES";
    case NOG_START_REFUSED: return "NOG_START_REFUSED";
    case NOG_BAD_AREAS: return "NOG_BAD_AREAS";
    case NOG_BAD_AREA_SIZE: return "NOG_BAD_AREA_SIZE";
    case NOG_BAD_PROCESSES: return "NOG_BAD_PROCESSES";
    case NOG_BAD_PID: return "NOG_BAD_PID";
    case NOG_ADMIT_BAD_PID: return "NOG_ADMIT_BAD_PID";
    case NOG_ADMIT_TAKEN: return "NOG_ADMIT_TAKEN";
    case NOG_ADMIT_MANY: return "NOG_ADMIT_MANY";
    case NOG_DISMISS_NONE: return "NOG_DISMISS_NONE";
    case NOG_DISMISS_LIVE: return "NOG_DISMISS_LIVE";
    default: return 0;
    }
}

#endif

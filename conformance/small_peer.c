/* The peer for small kernels: C89, and no calls but shmget, shmat, shmdt, shmctl, fork, exit, wait, pipe, read and write.

   It makes the calls of scripts that tools/small_peer compiled in as data, and prints one event line for each by
   put_char. small_port.h, which a port writes, gives the calls; docs/CONFORMANCE.md tells how.

   A director has the script and prints. It tells one worker at a time what to do; a worker is one process of the script.
   Requests go to each worker by a pipe of its own, answers come back by one that all share. Identifiers, pids, addresses
   and the user are printed as those of the script.

   A port may also have BECOME, which gives a process another user. Then a peer that user 0 starts has a process for each
   user of the script; otherwise it is the script's first user, and the calls of the others are skipped. With MUNMAP and
   MPROTECT it makes these two calls as well.

   Left out on purpose: a command that needs more than those calls (exec, swapoff), or that might end its process, is
   printed as skipped. A process that dies all the same leaves a line without a reply, which is the last one. */
#include "small_port.h"

#ifndef PROCESSES
#define PROCESSES 6
#endif
#ifndef PIECES
#define PIECES 300
#endif
#ifndef SEGMENTS
#define SEGMENTS 100
#endif
/* what a kernel lacks: commands with it are skipped, and stat does not show it */
#ifndef SHM_RDONLY
#define SHM_RDONLY 0
#endif
#ifndef SHM_RND
#define SHM_RND 0
#endif
#ifndef SHM_REMAP
#define SHM_REMAP 0
#endif
#ifndef SHM_EXEC
#define SHM_EXEC 0
#endif
#ifndef SHM_HUGETLB
#define SHM_HUGETLB 0
#endif
#ifndef SHM_NORESERVE
#define SHM_NORESERVE 0
#endif
#ifdef BECOME
#define HAS_BECOME HAS_USERS
#else
#define HAS_BECOME 0
#define BECOME(uid, gid) ((void)(uid), (void)(gid), -1)
#endif
#ifdef MUNMAP
#define HAS_MUNMAP 1
#else
#define HAS_MUNMAP 0
#define MUNMAP(address, length) ((void)(address), (void)(length), -1)
#endif
#ifdef MPROTECT
#define HAS_MPROTECT 1
#else
#define HAS_MPROTECT 0
#define MPROTECT(address, length, is_writable) ((void)(address), (void)(length), (void)(is_writable), -1)
#endif
#ifndef SHM_LOCK
#define SHM_LOCK -1
#define SHM_UNLOCK -1
#endif
#ifndef SHM_DEST
#define SHM_DEST 0
#endif
#ifndef SHM_LOCKED
#define SHM_LOCKED 0
#endif
enum { PAGE = 4096, BYTES = 64, MOST_COMPARED = 16, OPERANDS = 4 };
#define LOWEST_CHOSEN 0x40000000UL
#define LOW_BITS 0xffffffffUL

/* ---- a script as data: the numbers of 64 bits have 32 in each part ---- */

enum call { GET, ATTACH, DETACH, UNMAP, PROTECT, LOAD, STORE, ADD, EXCHANGE, COMPARE, STAT, SET, REMOVE, LOCK, UNLOCK, FORK,
    EXEC, EXIT, SET_USER, SWAPOFF };
enum { CREAT = 01000, EXCL = 02000, HUGETLB = 04000, NORESERVE = 010000 };
enum { RDONLY = 010000, RND = 020000, REMAP = 040000, EXECUTE = 0100000 };
struct number { unsigned long high, low; };
struct operand { int variable; struct number number; };
/* variable: the one that takes the answer, or -1; process: its place among the declared ones; bytes: what is stored; expected:
   what a compare and exchange expects, of the same length */
struct command { int process, variable, call; struct operand operands[OPERANDS]; int length; const char *bytes, *expected; };
struct declared { unsigned long pid, uid, gid; int is_child; };
struct script {
    const char *name;
    const struct declared *processes;
    int process_count;
    const struct command *commands;
    int command_count;
};
#include "small_script.h"

/* each letter is an operand: key, number, get flags, identifier, address, attach flags, bytes, expected bytes, mode, protection */
static const char *const names[] = { "shmget", "shmat", "shmdt", "munmap", "mprotect", "load", "store", "xadd", "swap", "cas",
    "stat", "set", "rmid", "lock", "unlock", "fork", "exec", "exit", "setuid", "swapoff" };
static const char *const kinds[] = { "kng", "iaf", "a", "an", "anp", "an", "ab", "an", "ab", "aeb", "i", "innm", "i", "i", "i",
    "n", "", "", "nn", "n" };

/* ---- printing ---- */

static void put_text(const char *text) { while (*text) put_char(*text++); }

static void put_number(struct number n) {
    char digits[20];
    int count = 0;
    do {
        unsigned long middle = n.high % 10 << 16 | n.low >> 16, lower = middle % 10 << 16 | (n.low & 0xffff);
        digits[count++] = (char)('0' + lower % 10);
        n.high /= 10;
        n.low = middle / 10 << 16 | lower / 10;
    } while (n.high || n.low);
    while (count > 0) put_char(digits[--count]);
}

/* 3 or 4 bits a digit, and at least this many digits */
static void put_digits(struct number n, int bits, int least) {
    char digits[22];
    int count = 0;
    do {
        unsigned long digit = n.low & ((1UL << bits) - 1);
        digits[count++] = "0123456789abcdef"[digit];
        n.low = (n.low >> bits | n.high << (32 - bits)) & LOW_BITS;
        n.high >>= bits;
    } while (n.high || n.low || count < least);
    while (count > 0) put_char(digits[--count]);
}

static struct number number_of(unsigned long value) {
    struct number n;
    n.low = value & LOW_BITS;
    n.high = value >> 16 >> 16 & LOW_BITS;
    return n;
}

static void put_plain(unsigned long value) { put_number(number_of(value)); }
static unsigned long value_of(struct number n) { return n.high << 16 << 16 | n.low; }
static int is_too_large(struct number n) { return n.high != 0 && sizeof(unsigned long) < 8; }

static struct number sum_of(struct number a, struct number b) {
    struct number sum;
    sum.low = (a.low + b.low) & LOW_BITS;
    sum.high = (a.high + b.high + (sum.low < a.low)) & LOW_BITS;
    return sum;
}

static void put_flag(int *is_first, const char *name) {
    if (!*is_first) put_char(',');
    put_text(name);
    *is_first = 0;
}

static void put_get_flags(unsigned long flags) {
    put_digits(number_of(flags & 0777), 3, 3);
    if (flags & CREAT) put_text(",creat");
    if (flags & EXCL) put_text(",excl");
    if (flags & HUGETLB) put_text(",hugetlb");
    if (flags & NORESERVE) put_text(",noreserve");
}

static void put_attach_flags(unsigned long flags) {
    int is_first = 1;
    if (flags & RND) put_flag(&is_first, "rnd");
    if (flags & REMAP) put_flag(&is_first, "remap");
    if (flags & RDONLY) put_flag(&is_first, "rdonly");
    if (flags & EXECUTE) put_flag(&is_first, "exec");
    if (is_first) put_char('-');
}

static void put_byte(int byte) { put_digits(number_of((unsigned long)(byte & 255)), 4, 2); }

static void put_address(struct number n) {
    if (n.high == 0 && n.low == 0) {
        put_text("null");
    } else {
        put_text("0x");
        put_digits(n, 4, 1);
    }
}

static int is_no_identifier(struct number n) { return n.high != 0 || n.low > 0x7fffffffUL; }

static void put_operand(const struct command *c, int kind, struct number n) {
    int i;
    put_char(' ');
    switch (kind) {
    case 'k': put_text("0x"); put_digits(n, 4, 8); break;
    case 'a': put_address(n); break;
    case 'm': put_digits(n, 3, 3); break;
    case 'g': put_get_flags(n.low); break;
    case 'f': put_attach_flags(n.low); break;
    case 'p': put_text(n.low ? "rw" : "ro"); break;
    case 'b': for (i = 0; i < c->length; i++) put_byte(c->bytes[i]); break;
    case 'e': for (i = 0; i < c->length; i++) put_byte(c->expected[i]); break;
    case 'i': if (is_no_identifier(n)) put_text("-1"); else put_number(n); break;
    default: put_number(n);
    }
}

/* ---- what goes through the pipes ---- */

enum task { DO_GET, DO_ATTACH, DO_DETACH, DO_UNMAP, DO_PROTECT, DO_BECOME, DO_CONTROL, DO_ACCESS, DO_FORK, DO_WAIT, DO_EXIT };
/* flags: those of the call, shmctl's command, or which access; at[]: its addresses, byte by byte */
struct request {
    int task, id, flags, child, length;
    unsigned long key, size, address, uid, gid, mode, at[BYTES];
    unsigned char bytes[BYTES], expected[MOST_COMPARED];
};
struct answer {
    int is_refused;
    char error[16];
    unsigned long value;
    struct shmid_ds segment;
    unsigned char bytes[BYTES];
};

static int requests[PROCESSES][2], answers[2];

static void stop(const char *why) {
    put_text("small peer: ");
    put_text(why);
    put_char('\n');
    exit(3);
}

static void clear(void *memory, unsigned long size) {
    volatile unsigned char *at = memory;
    while (size-- > 0) *at++ = 0;
}

/* a small kernel may take and give fewer bytes at once than were asked for */
static void write_whole(int fd, const void *from, unsigned long length) {
    const char *at = from;
    while (length > 0) {
        int count = (int)write(fd, at, (int)length);
        if (count <= 0) stop("a pipe can't be written");
        at += count;
        length -= (unsigned long)count;
    }
}

static void read_whole(int fd, void *to, unsigned long length) {
    char *at = to;
    while (length > 0) {
        int count = (int)read(fd, at, (int)length);
        if (count <= 0) stop("a pipe can't be read");
        at += count;
        length -= (unsigned long)count;
    }
}

/* ---- a worker ---- */

static void serve(int index);

static void copy_error(struct answer *a) {
    const char *name = error_name();
    int i;
    for (i = 0; i < 15 && name[i]; i++) a->error[i] = name[i];
    a->is_refused = 1;
}

static void settle(struct answer *a, long value) {
    a->value = (unsigned long)value;
    if (value == -1) copy_error(a);
}

/* a script's flags as the kernel has them */
static int get_flags(int flags) {
    return (flags & 0777) | (flags & CREAT ? IPC_CREAT : 0) | (flags & EXCL ? IPC_EXCL : 0) |
        (flags & HUGETLB ? SHM_HUGETLB : 0) | (flags & NORESERVE ? SHM_NORESERVE : 0);
}

static int attach_flags(int flags) {
    return (flags & RDONLY ? SHM_RDONLY : 0) | (flags & RND ? SHM_RND : 0) | (flags & REMAP ? SHM_REMAP : 0) |
        (flags & EXECUTE ? SHM_EXEC : 0);
}

static void control(const struct request *q, struct answer *a) {
    a->segment.shm_perm.uid = q->uid;
    a->segment.shm_perm.gid = q->gid;
    a->segment.shm_perm.mode = (unsigned short)q->mode;
    settle(a, shmctl(q->id, q->flags, &a->segment));
}

static int are_expected(const struct request *q, const struct answer *a) {
    int i = 0;
    while (i < q->length && a->bytes[i] == q->expected[i]) i++;
    return i == q->length;
}

/* a compare and exchange of other bytes than the expected ones stores them again, as a processor does */
static void access_bytes(const struct request *q, struct answer *a) {
    unsigned carry = 0;
    const unsigned char *bytes = q->bytes;
    int i;
    for (i = 0; i < q->length; i++) {
        volatile unsigned char *at = (volatile unsigned char *)q->at[i];
        if (q->flags != STORE) a->bytes[i] = *at;
    }
    if (q->flags == COMPARE && !are_expected(q, a)) bytes = a->bytes;
    for (i = 0; i < q->length && q->flags != LOAD; i++) {
        volatile unsigned char *at = (volatile unsigned char *)q->at[i];
        carry += q->flags == ADD ? (unsigned)a->bytes[i] + bytes[i] : bytes[i];
        *at = (unsigned char)(carry & 255);
        carry = q->flags == ADD ? carry >> 8 : 0;
    }
}

static void perform(const struct request *q, struct answer *a) {
    switch (q->task) {
    case DO_GET: settle(a, shmget(q->key, q->size, get_flags(q->flags))); break;
    case DO_ATTACH: settle(a, (long)shmat(q->id, (void *)q->address, attach_flags(q->flags))); break;
    case DO_DETACH: settle(a, shmdt((void *)q->address)); break;
    case DO_UNMAP: settle(a, MUNMAP((void *)q->address, q->size)); break;
    case DO_PROTECT: settle(a, MPROTECT((void *)q->address, q->size, q->flags)); break;
    case DO_BECOME: settle(a, BECOME(q->uid, q->gid) ? -1 : 0); break;
    case DO_CONTROL: control(q, a); break;
    case DO_ACCESS: access_bytes(q, a); break;
    case DO_WAIT: settle(a, wait((int *)0)); break;
    case DO_EXIT: exit(0); break;
    default:
        a->value = (unsigned long)fork();
        if (a->value == 0) serve(q->child);
        settle(a, (long)a->value);
    }
}

static void serve(int index) {
    struct request q;
    struct answer a;
    for (;;) {
        read_whole(requests[index][0], &q, sizeof q);
        clear(&a, sizeof a);
        perform(&q, &a);
        write_whole(answers[1], &a, sizeof a);
    }
}

/* ---- the director: identifiers, pids, addresses and the user as the script has them ---- */

enum life { UNBORN, LIVE, ENDED, OTHER_USER };
/* is_for_reading: it was attached read-only, so no mprotect makes it writable */
struct piece { unsigned long base, size, real, origin; int segment, is_read_only, is_for_reading; };
/* parent: -1 for a child of the director */
struct process { int life, parent, piece_count; unsigned long real, uid, gid; struct piece pieces[PIECES]; };
struct segment { int real, is_gone; unsigned long index, sequence, size; };

static const struct script *script;
static struct process processes[PROCESSES];
static struct number variables[PROCESSES][26];
static struct segment segments[SEGMENTS];
static int segment_count;
static unsigned long own_uid, own_gid;
static int is_each_user;      /* a process for each user of the script; otherwise there is one user, this process's */
static const char *why_none;  /* why no command of the script can be made; 0: some can */

static void skip(const char *why) {
    put_text("skipped: ");
    put_text(why);
}

static unsigned long name_of(const struct segment *s) { return s->index + 32768 * s->sequence; }

static int is_same(const char *a, const char *b) {
    while (*a && *a == *b) a++, b++;
    return *a == *b;
}

static void note_destroyed(void) {
    struct shmid_ds ignored;
    int i;
    for (i = 0; i < segment_count; i++)
        if (!segments[i].is_gone && shmctl(segments[i].real, IPC_STAT, &ignored) == -1)
            segments[i].is_gone = !is_same(error_name(), "EACCES");
}

/* the newest segment with this identifier of the script; -1: none */
static int segment_named(struct number name) {
    int i = segment_count - 1;
    while (i >= 0 && (name.high != 0 || name_of(&segments[i]) != name.low)) i--;
    return i;
}

static int is_index_held(unsigned long index) {
    int i = 0;
    while (i < segment_count && (segments[i].index != index || segments[i].is_gone)) i++;
    return i < segment_count;
}

static unsigned long name_segment(int real, unsigned long size) {
    struct segment *s = &segments[segment_count];
    int i;
    for (i = segment_count - 1; i >= 0; i--)
        if (segments[i].real == real && !segments[i].is_gone) return name_of(&segments[i]);
    s->real = real;
    s->is_gone = 0;
    s->index = s->sequence = 0;
    s->size = (size + PAGE - 1) / PAGE * PAGE;
    while (is_index_held(s->index)) s->index++;
    for (i = 0; i < segment_count; i++) s->sequence += segments[i].index == s->index;
    segment_count++;
    return name_of(s);
}

/* an identifier that the script never got is one that the system never gave */
static int real_identifier(struct number name) {
    int i = segment_named(name);
    return i >= 0 ? segments[i].real : is_no_identifier(name) ? -1 : 0x7fffffff;
}

static unsigned long script_pid(unsigned long real) {
    int i;
    for (i = 0; real != 0 && i < script->process_count; i++)
        if (processes[i].real == real) return script->processes[i].pid;
    return real;
}

static struct piece *piece_at(struct process *p, unsigned long address) {
    int i;
    for (i = 0; i < p->piece_count; i++)
        if (p->pieces[i].base <= address && address - p->pieces[i].base < p->pieces[i].size) return &p->pieces[i];
    return 0;
}

/* where no attach is, addresses are those of the system */
static unsigned long real_address(struct process *p, unsigned long address) {
    struct piece *piece = piece_at(p, address);
    return piece ? piece->real + (address - piece->base) : address;
}

/* the least gap that fits: what an address that the system chose is called */
static unsigned long chosen_name(struct process *p, unsigned long size) {
    unsigned long at = LOWEST_CHOSEN;
    int i;
    for (i = 0; i < p->piece_count; i++) {
        struct piece *q = &p->pieces[i];
        if (at < q->base + q->size && q->base < at + size) at = q->base + q->size, i = -1;
    }
    return at;
}

static void copy_piece(struct piece *to, const struct piece *from) {
    to->base = from->base;
    to->size = from->size;
    to->real = from->real;
    to->origin = from->origin;
    to->segment = from->segment;
    to->is_read_only = from->is_read_only;
    to->is_for_reading = from->is_for_reading;
}

static void drop_piece(struct process *p, int i) { copy_piece(&p->pieces[i], &p->pieces[--p->piece_count]); }

/* a part of a piece */
static void add_part(struct process *p, const struct piece *of, unsigned long begin, unsigned long end) {
    struct piece *part = &p->pieces[p->piece_count];
    if (begin >= end) return;
    copy_piece(part, of);
    part->base = begin;
    part->size = end - begin;
    part->real = of->real + (begin - of->base);
    p->piece_count++;
}

/* takes a range away from the pieces */
static void cut_pieces(struct process *p, unsigned long begin, unsigned long end) {
    int i;
    for (i = p->piece_count - 1; i >= 0; i--) {
        struct piece old;
        copy_piece(&old, &p->pieces[i]);
        if (old.base >= end || begin >= old.base + old.size) continue;
        drop_piece(p, i);
        add_part(p, &old, old.base, begin);
        add_part(p, &old, end, old.base + old.size);
    }
}

/* a new attach takes the place of what was in its range */
static void replace_pieces(struct process *p, const struct piece *new_one) {
    cut_pieces(p, new_one->base, new_one->base + new_one->size);
    add_part(p, new_one, new_one->base, new_one->base + new_one->size);
}

/* makes a range read-only or writable, as an mprotect does, which ends where nothing is attached or may be writable */
static void protect_pieces(struct process *p, unsigned long begin, unsigned long end, int is_read_only) {
    struct piece *found = piece_at(p, begin), part;
    while (begin < end && found && (is_read_only || !found->is_for_reading)) {
        unsigned long to = found->base + found->size;
        if (to > end) to = end;
        copy_piece(&part, found);
        part.real += begin - part.base;
        part.base = begin;
        part.size = to - begin;
        part.is_read_only = is_read_only;
        replace_pieces(p, &part);
        begin = to;
        found = piece_at(p, begin);
    }
}

/* how many bytes of a range a piece has */
static unsigned long shared_bytes(const struct piece *q, unsigned long base, unsigned long size) {
    unsigned long begin = base > q->base ? base : q->base, end = q->base + q->size;
    if (end > base + size) end = base + size;
    return begin < end ? end - begin : 0;
}

/* whether a range of the script is one range of the system, and holds no attach that the script has elsewhere */
static int is_one_range(struct process *p, unsigned long base, unsigned long size) {
    unsigned long real = real_address(p, base), held = 0;
    int i;
    for (i = 0; i < p->piece_count; i++) {
        struct piece *q = &p->pieces[i];
        int is_met = q->real < real + size && real < q->real + q->size;
        held += shared_bytes(q, base, size);
        if ((is_met || shared_bytes(q, base, size)) && q->real - real != q->base - base) return 0;
    }
    return real == base || held == size;
}

/* ---- the director: one command ---- */

static void ask(int index, const struct request *q, struct answer *a) {
    write_whole(requests[index][1], q, sizeof *q);
    read_whole(answers[0], a, sizeof *a);
}

/* prints an error; whether the call succeeded */
static int is_answered(const struct answer *a) {
    if (a->is_refused) put_text(a->error);
    return !a->is_refused;
}

static int has_get_flags(unsigned long flags) {
    return (SHM_HUGETLB || !(flags & HUGETLB)) && (SHM_NORESERVE || !(flags & NORESERVE));
}

static void run_get(int index, const struct number *v, struct number *result) {
    struct request q;
    struct answer a;
    clear(&q, sizeof q);
    q.task = DO_GET;
    q.key = v[0].low;
    q.size = value_of(v[1]);
    q.flags = (int)v[2].low;
    if (!has_get_flags(v[2].low)) { skip("this system has no such flag"); return; }
    note_destroyed();
    if (segment_count == SEGMENTS) { skip("more segments than SEGMENTS"); return; }
    ask(index, &q, &a);
    if (!is_answered(&a)) return;
    *result = number_of(name_segment((int)a.value, q.size));
    put_number(*result);
}

static int has_attach_flags(unsigned long flags) {
    return (SHM_RDONLY || !(flags & RDONLY)) && (SHM_RND || !(flags & RND)) && (SHM_REMAP || !(flags & REMAP)) &&
        (SHM_EXEC || !(flags & EXECUTE));
}

/* the port tells which addresses are free: elsewhere the peer's own memory may be */
static int is_free_range(unsigned long address, unsigned long size) {
    return address >= FREE_FROM && address < FREE_TO && size <= FREE_TO - address;
}

static void run_attach(int index, const struct number *v, struct number *result) {
    struct process *p = &processes[index];
    struct request q;
    struct answer a;
    struct piece piece;
    unsigned long address = value_of(v[1]), page = address - address % PAGE;
    if (p->piece_count + 2 > PIECES) { skip("more pieces than PIECES"); return; }
    piece.segment = segment_named(v[0]);
    piece.size = piece.segment >= 0 ? segments[piece.segment].size : PAGE;
    if (!has_attach_flags(v[2].low)) { skip("this system has no such flag"); return; }
    if (address && !is_free_range(page, piece.size)) { skip("the peer's own memory may be there"); return; }
    if (address && (!piece_at(p, page) || v[2].low & REMAP) && !is_one_range(p, page, piece.size))
        { skip("the range is not one range of the system"); return; }
    clear(&q, sizeof q);
    q.task = DO_ATTACH;
    q.id = real_identifier(v[0]);
    q.flags = (int)v[2].low;
    q.address = address ? real_address(p, page) + address % PAGE : 0;
    ask(index, &q, &a);
    if (!is_answered(&a)) return;
    piece.base = piece.origin = address ? page : chosen_name(p, piece.size);
    piece.real = a.value;
    piece.is_read_only = piece.is_for_reading = (v[2].low & RDONLY) != 0;
    replace_pieces(p, &piece);
    *result = number_of(piece.base);
    put_address(*result);
}

/* the lowest piece of the attach that began at an address; -1: none */
static int piece_from(struct process *p, unsigned long origin) {
    int found = -1, i;
    for (i = 0; i < p->piece_count; i++)
        if (p->pieces[i].origin == origin && (found < 0 || p->pieces[i].base < p->pieces[found].base)) found = i;
    return found;
}

static void run_detach(int index, const struct number *v) {
    struct process *p = &processes[index];
    struct request q;
    struct answer a;
    unsigned long address = value_of(v[0]);
    int first = piece_from(p, address), segment, i;
    clear(&q, sizeof q);
    q.task = DO_DETACH;
    q.address = real_address(p, address);
    if (first >= 0) q.address = p->pieces[first].real - (p->pieces[first].base - address);
    ask(index, &q, &a);
    if (!is_answered(&a)) return;
    put_text("ok");
    segment = first >= 0 ? p->pieces[first].segment : -1;
    for (i = p->piece_count - 1; i >= 0; i--)
        if (p->pieces[i].origin == address && p->pieces[i].segment == segment) drop_piece(p, i);
}

/* how far an mprotect comes: to the end of the first page that is not attached */
static unsigned long reach_of(struct process *p, unsigned long page, unsigned long size) {
    unsigned long at = page;
    struct piece *piece;
    for (piece = piece_at(p, at); piece && at - page < size; piece = piece_at(p, at)) at = piece->base + piece->size;
    return at + PAGE - page < size ? at + PAGE - page : size;
}

static void run_range(int index, int call, const struct number *v) {
    struct process *p = &processes[index];
    struct request q;
    struct answer a;
    unsigned long page = value_of(v[0]), size = (value_of(v[1]) + PAGE - 1) / PAGE * PAGE, reach;
    int is_whole = page % PAGE == 0 && size != 0 && page + size > page;
    if (!(call == UNMAP ? HAS_MUNMAP : HAS_MPROTECT)) { skip("this system has no such call"); return; }
    if (PIECES - p->piece_count < 2) { skip("more pieces than PIECES"); return; }
    reach = !is_whole ? 0 : call == UNMAP ? size : reach_of(p, page, size);
    if (reach && !is_free_range(page, reach)) { skip("the peer's own memory may be there"); return; }
    if (reach && !is_one_range(p, page, reach)) { skip("the range is not one range of the system"); return; }
    clear(&q, sizeof q);
    q.task = call == UNMAP ? DO_UNMAP : DO_PROTECT;
    q.address = reach ? real_address(p, page) : page;
    q.size = value_of(v[1]);
    q.flags = v[2].low != 0;
    ask(index, &q, &a);
    if (reach && call == UNMAP && !a.is_refused) cut_pieces(p, page, page + size);
    if (reach && call == PROTECT) protect_pieces(p, page, page + reach, !q.flags);
    if (is_answered(&a)) put_text("ok");
}

/* a process of user 0 may become another user, and no other process may */
static void run_set_user(int index, const struct number *v) {
    struct process *p = &processes[index];
    struct request q;
    struct answer a;
    clear(&q, sizeof q);
    q.task = DO_BECOME;
    q.uid = v[0].low;
    q.gid = v[1].low;
    if (q.uid == p->uid && q.gid == p->gid) { put_text("ok"); return; }
    if (!is_each_user || p->uid != 0) { skip("this process can't become another user"); return; }
    ask(index, &q, &a);
    if (!is_answered(&a)) return;
    p->uid = q.uid;
    p->gid = q.gid;
    put_text("ok");
}

static void put_word(const char *name, unsigned long value) {
    put_text(name);
    put_plain(value);
}

static void put_user(const char *name, unsigned long real, unsigned long own, unsigned long script_own) {
    put_word(name, real == own && !is_each_user ? script_own : real);
}

static void put_time(const char *name, unsigned long time) {
    put_text(name);
    put_text(time == 0 ? "0" : "set");
}

static void put_status(unsigned long mode) {
    int is_first = 1;
    if (mode & SHM_DEST) put_flag(&is_first, "dest");
    if (mode & SHM_LOCKED) put_flag(&is_first, "locked");
    if (is_first) put_char('-');
}

static void put_segment(const struct shmid_ds *s) {
    unsigned long uid = script->processes[0].uid, gid = script->processes[0].gid;
    put_text("key=0x");
    put_digits(number_of((unsigned long)KEY_OF(s) & LOW_BITS), 4, 8);
    put_user(" uid=", s->shm_perm.uid, own_uid, uid);
    put_user(" gid=", s->shm_perm.gid, own_gid, gid);
    put_user(" cuid=", s->shm_perm.cuid, own_uid, uid);
    put_user(" cgid=", s->shm_perm.cgid, own_gid, gid);
    put_text(" mode=");
    put_digits(number_of(s->shm_perm.mode & 0777UL), 3, 3);
    put_text(" status=");
    put_status(s->shm_perm.mode);
    put_word(" size=", s->shm_segsz);
    put_word(" cpid=", script_pid((unsigned long)s->shm_cpid));
    put_word(" lpid=", script_pid((unsigned long)s->shm_lpid));
    put_word(" nattch=", s->shm_nattch);
    put_time(" atime=", (unsigned long)s->shm_atime);
    put_time(" dtime=", (unsigned long)s->shm_dtime);
    put_time(" ctime=", (unsigned long)s->shm_ctime);
}

static void run_control(int index, int call, const struct number *v) {
    static const int commands[] = { IPC_STAT, IPC_SET, IPC_RMID, SHM_LOCK, SHM_UNLOCK };
    const struct declared *user = &script->processes[0];
    struct request q;
    struct answer a;
    clear(&q, sizeof q);
    q.task = DO_CONTROL;
    q.flags = commands[call - STAT];
    q.id = real_identifier(v[0]);
    q.uid = is_each_user ? v[1].low : own_uid;
    q.gid = is_each_user ? v[2].low : own_gid;
    q.mode = v[3].low;
    if (q.flags == -1) { skip("this system has no such command"); return; }
    if (call == SET && !is_each_user && (v[1].low != user->uid || v[2].low != user->gid))
        { skip("there is one user here"); return; }
    ask(index, &q, &a);
    if (!is_answered(&a)) return;
    if (call == STAT) put_segment(&a.segment);
    else put_text("ok");
}

/* whether each byte is in a piece that may be read, or written: another one would end the process */
static int find_bytes(struct process *p, struct request *q, unsigned long address) {
    int i;
    for (i = 0; i < q->length; i++) {
        struct piece *piece = address + (unsigned long)i < address ? 0 : piece_at(p, address + (unsigned long)i);
        if (!piece || (piece->is_read_only && q->flags != LOAD)) return 0;
        q->at[i] = real_address(p, address + (unsigned long)i);
    }
    return 1;
}

static void set_access(struct request *q, const struct command *c, const struct number *v) {
    int i;
    clear(q, sizeof *q);
    q->task = DO_ACCESS;
    q->flags = c->call;
    q->length = c->call == LOAD ? (int)v[1].low : c->call == ADD ? 8 : c->length;
    for (i = 0; i < c->length; i++) q->bytes[i] = (unsigned char)c->bytes[i];
    for (i = 0; i < c->length && c->call == COMPARE; i++) q->expected[i] = (unsigned char)c->expected[i];
    for (i = 0; i < 8 && c->call == ADD; i++)
        q->bytes[i] = (unsigned char)((i < 4 ? v[1].low >> 8 * i : v[1].high >> 8 * (i - 4)) & 255);
}

/* the bytes behind the length are 0 */
static struct number number_in(const unsigned char *bytes) {
    struct number n;
    int i;
    n.high = n.low = 0;
    for (i = 3; i >= 0; i--) {
        n.low = n.low << 8 | bytes[i];
        n.high = n.high << 8 | bytes[i + 4];
    }
    return n;
}

static void run_access(int index, const struct command *c, const struct number *v, struct number *result) {
    struct request q;
    struct answer a;
    int i;
    set_access(&q, c, v);
    if (!find_bytes(&processes[index], &q, value_of(v[0]))) { skip("the access may end its process"); return; }
    ask(index, &q, &a);
    if (c->call >= ADD) *result = number_in(a.bytes);
    if (c->call == STORE) put_text("ok");
    else if (c->call == ADD) put_number(*result);
    else for (i = 0; i < q.length; i++) put_byte(a.bytes[i]);
}

static int process_of(unsigned long pid) {
    int i = 0;
    while (i < script->process_count - 1 && script->processes[i].pid != pid) i++;
    return i;
}

static void run_fork(int index, const struct number *v) {
    int child = process_of(v[0].low), i;
    struct process *p = &processes[index], *born = &processes[child];
    struct request q;
    struct answer a;
    if (born->life != UNBORN) { skip("no such child can be"); return; }
    clear(&q, sizeof q);
    q.task = DO_FORK;
    q.child = child;
    ask(index, &q, &a);
    if (!is_answered(&a)) return;
    put_text("ok");
    born->life = LIVE;
    born->parent = index;
    born->real = a.value;
    born->uid = p->uid;
    born->gid = p->gid;
    born->piece_count = p->piece_count;
    for (i = 0; i < p->piece_count; i++) copy_piece(&born->pieces[i], &p->pieces[i]);
}

/* a process has ended when its parent has waited for it */
static void end_process(int index) {
    struct process *p = &processes[index];
    struct request q;
    struct answer a;
    clear(&q, sizeof q);
    q.task = DO_EXIT;
    write_whole(requests[index][1], &q, sizeof q);
    p->life = ENDED;
    if (p->parent < 0) {
        while ((unsigned long)wait((int *)0) != p->real) continue;
    } else if (processes[p->parent].life == LIVE) {
        q.task = DO_WAIT;
        ask(p->parent, &q, &a);
    }
    p->piece_count = 0;
}

static void run_exit(int index) {
    struct process *p = &processes[index];
    if (p->parent >= 0 && processes[p->parent].life != LIVE) { skip("nobody here can wait for its end"); return; }
    end_process(index);
    put_text("ok");
}

static void run(const struct command *c, const struct number *v, struct number *result) {
    int index = c->process, life = why_none ? ENDED : processes[index].life;
    int is_range = c->call == UNMAP || c->call == PROTECT;
    if (((c->call == GET || c->call == ATTACH || is_range) && is_too_large(v[1])) ||
        ((c->call == DETACH || is_range || (c->call >= LOAD && c->call <= COMPARE)) && is_too_large(v[0]))) skip("this system has no such number");
    else if (why_none) skip(why_none);
    else if (life == OTHER_USER) skip("no right to be this user");
    else if (life != LIVE) skip("no process makes this call");
    else if (c->call == GET) run_get(index, v, result);
    else if (c->call == ATTACH) run_attach(index, v, result);
    else if (c->call == DETACH) run_detach(index, v);
    else if (is_range) run_range(index, c->call, v);
    else if (c->call <= COMPARE) run_access(index, c, v, result);
    else if (c->call <= UNLOCK) run_control(index, c->call, v);
    else if (c->call == FORK) run_fork(index, v);
    else if (c->call == EXIT) run_exit(index);
    else if (c->call == SET_USER) run_set_user(index, v);
    else skip(c->call == EXEC ? "this peer makes no exec" : "no swap area is the script's");
}

static void run_command(int place) {
    const struct command *c = &script->commands[place];
    struct number v[OPERANDS], result;
    int i;
    result.high = result.low = LOW_BITS;
    put_plain((unsigned long)place + 1);
    put_char(' ');
    put_plain(script->processes[c->process].pid);
    put_char(' ');
    put_text(names[c->call]);
    for (i = 0; i < OPERANDS; i++) {
        v[i].high = c->operands[i].number.high;
        v[i].low = c->operands[i].number.low;
        if (c->operands[i].variable >= 0 && !why_none) v[i] = sum_of(v[i], variables[c->process][c->operands[i].variable]);
    }
    for (i = 0; kinds[c->call][i]; i++) put_operand(c, kinds[c->call][i], v[i]);
    put_text(" = ");
    run(c, v, &result);
    put_char('\n');
    if (c->variable >= 0 && !why_none) variables[c->process][c->variable] = result;
}

/* ---- a script ---- */

/* the user that this system runs the peer as: the owner of what it makes; whether that is known */
static int learn_user(void) {
    struct shmid_ds made;
    int id = shmget(IPC_PRIVATE, PAGE, 0600), is_known;
    is_known = id != -1 && shmctl(id, IPC_STAT, &made) != -1;
    if (is_known) {
        own_uid = made.shm_perm.cuid;
        own_gid = made.shm_perm.cgid;
        is_each_user = HAS_BECOME && own_uid == 0;
    }
    if (id != -1) shmctl(id, IPC_RMID, &made);
    return is_known;
}

/* the peer is the script's first user; one that may do everything is no other one, where a system has users at all */
static int is_own_user(int index) {
    const struct declared *first = &script->processes[0], *d = &script->processes[index];
    int is_alike = !HAS_USERS || (first->uid == 0) == (own_uid == 0);
    return is_alike && d->uid == first->uid && d->gid == first->gid;
}

/* a worker becomes its user, and answers whether it could */
static void start_as(const struct declared *user) {
    struct answer a;
    clear(&a, sizeof a);
    a.is_refused = BECOME(user->uid, user->gid) != 0;
    write_whole(answers[1], &a, sizeof a);
    if (a.is_refused) exit(0);
}

static void start_worker(int index) {
    struct process *p = &processes[index];
    struct answer a;
    long pid;
    p->parent = -1;
    p->uid = script->processes[index].uid;
    p->gid = script->processes[index].gid;
    p->life = script->processes[index].is_child ? UNBORN : is_each_user || is_own_user(index) ? LIVE : OTHER_USER;
    if (p->life != LIVE) return;
    pid = fork();
    if (pid == 0 && is_each_user) start_as(&script->processes[index]);
    if (pid == 0) serve(index);
    if (pid < 0) stop("fork is refused");
    p->real = (unsigned long)pid;
    if (!is_each_user) return;
    read_whole(answers[0], &a, sizeof a);
    if (!a.is_refused) return;
    p->life = OTHER_USER;
    while (wait((int *)0) != pid) continue;
}

/* what a script leaves is removed, so that the next one begins on a clean system */
static void end_script(void) {
    struct shmid_ds ignored;
    int i;
    for (i = script->process_count - 1; i >= 0; i--)
        if (processes[i].life == LIVE && processes[i].parent >= 0) end_process(i);
    for (i = 0; i < script->process_count; i++)
        if (processes[i].life == LIVE) end_process(i);
    for (i = 0; i < segment_count; i++) shmctl(segments[i].real, IPC_RMID, &ignored);
}

/* why the script can't be run here, or 0 */
static const char *open_script(void) {
    int i;
    for (i = 0; i < script->process_count; i++)
        if (pipe(requests[i]) < 0) return "there are too few pipes for the script's processes";
    if (pipe(answers) < 0) return "there are too few pipes for the script's processes";
    return learn_user() ? 0 : "no segment can be made and looked at";
}

/* in a process of its own, so that its pipes go with it */
static void run_script(void) {
    int i;
    why_none = script->process_count > PROCESSES ? "more processes than PROCESSES" : open_script();
    for (i = 0; i < script->process_count && !why_none; i++) start_worker(i);
    for (i = 0; i < script->command_count; i++) run_command(i);
    if (!why_none) end_script();
    exit(0);
}

int main(void) {
    int i;
    for (i = 0; i < (int)(sizeof scripts / sizeof *scripts); i++) {
        script = &scripts[i];
        put_text("script ");
        put_text(script->name);
        put_text("\nnote: under the limits of this system\n");
        if (fork() == 0) run_script();
        wait((int *)0);
        put_text("end ");
        put_text(script->name);
        put_char('\n');
    }
    exit(0);
    return 0;
}

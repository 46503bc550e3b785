/* munmap, mremap, mprotect, mmap and madvise of attached memory. Most of these calls are about other memory of the program, and
   pass at once. */
#include "shmrun.h"
#include <err.h>
#include <errno.h>
#include <stdio.h>
#include <sys/mman.h>

/* The caller's attachments, if it has one in a page-aligned range; null if the call does not matter to the machine. */
static struct guest *space_with(struct call *call, uint64_t begin, uint64_t length) {
    return begin % PAGE == 0 && is_attached(call->space, begin, length) ? call->space : NULL;
}

/* ---- munmap, and what takes its effect ---- */

void forget_range(struct guest *guest, uint64_t begin, uint64_t end) {
    nog_piece piece;
    while (find_piece(guest, begin, end, &piece)) {
        uint64_t from = most(begin, piece.base), to = least(end, end_of(&piece));
        if (perform(&(struct event){.kind = UNMAP, .pid = guest->pid, .address = from, .size = to - from}) < 0) break;
        begin = to;
    }
}

void do_unmap(struct call *call) {
    uint64_t begin = call->args[0], length = pages_of(call->args[1]);
    struct guest *space = space_with(call, begin, length);
    if (space) forget_range(space, begin, begin + length);
    let_pass(call);
}

/* The kernel's answer comes first, because it may refuse. */
static void replace_range(struct call *call, uint64_t begin, uint64_t length) {
    struct guest *space = space_with(call, begin, length);
    if (!space) return let_pass(call);
    int64_t result = run_as_made(call);
    if (!is_error(result)) forget_range(space, begin, begin + length);
    answer(call, result);
}

void do_map_fixed(struct call *call) { replace_range(call, call->args[0], pages_of(call->args[1])); }

/* ---- mprotect ---- */

static int64_t protect(const struct guest *space, uint64_t begin, uint64_t end, uint32_t is_writable) {
    return perform(&(struct event){.kind = PROTECT, .pid = space->pid, .address = begin, .size = end - begin,
                                  .is_writable = is_writable});
}

static void protect_pieces(struct guest *space, uint64_t begin, uint64_t end, uint32_t is_writable) {
    nog_piece piece;
    for (; find_piece(space, begin, end, &piece); begin = end_of(&piece)) {
        uint64_t from = most(begin, piece.base), to = least(end, end_of(&piece));
        if (piece.is_writable != is_writable && protect(space, from, to, is_writable) < 0) return;
    }
}

/* With --frames every attachment could be made writable, so the kernel does not refuse it for one that is for reading. */
static uint64_t begin_of_readonly(const struct guest *space, uint64_t begin, uint64_t end) {
    nog_piece piece;
    while (find_piece(space, begin, end, &piece)) {
        if (!piece.may_write) return most(begin, piece.base);
        begin = end_of(&piece);
    }
    return end;
}

/* If the range has other memory too, the kernel's answer comes first. If it refuses, it has changed what lies below. */
void do_protect(struct call *call) {
    uint64_t begin = call->args[0], length = pages_of(call->args[1]), hole;
    uint32_t is_writable = (call->args[2] & PROT_WRITE) != 0;
    if (begin < END_OF_ADDRESSES && length <= UINT64_MAX - begin) length = least(length, END_OF_ADDRESSES - begin);
    struct guest *space = space_with(call, begin, length);
    if (!space) return let_pass(call);
    uint64_t end = options.frames && is_writable ? begin_of_readonly(space, begin, begin + length) : begin + length;
    bool is_cut = end != begin + length, is_whole = nog_failed_at(&machine, space->pid, begin, end - begin, 0, &hole) == NOG_OUT_OF_RANGE;
    int64_t result = 0;
    if (!is_whole || is_cut) result = run_in(call, call->number, begin, end - begin, call->args[2], call->args[3], 0, 0);
    protect_pieces(space, begin, result == 0 ? end : hole, is_writable);
    if (is_whole && !is_cut) let_pass(call);
    else answer(call, result == 0 && is_cut ? -EACCES : result);
}

/* ---- madvise ---- */

void do_advise(struct call *call) {
    struct guest *space = space_with(call, call->args[0], pages_of(call->args[1]));
    if (space && call->args[2] == MADV_REMOVE) return answer(call, -EINVAL);  /* a hole of which the machine would not know */
    if (space) space->has_advice = true;  /* MADV_DONTFORK */
    let_pass(call);
}

/* Between the mappings of a process that has just begun there are those that it did not inherit. */
void forget_gaps(struct guest *guest, pid_t pid) {
    uint64_t begin, end, before = 0;
    FILE *maps = file_of_process(pid, "maps");
    for (; maps && fscanf(maps, "%lx-%lx%*[^\n]", &begin, &end) == 2; before = end) forget_range(guest, before, begin);
    if (maps) fclose(maps);
    forget_range(guest, before, END_OF_ADDRESSES);
}

/* Only with --frames: other pages of the file at the same addresses. */
void do_remap_pages(struct call *call) {
    if (space_with(call, call->args[0] / PAGE * PAGE, pages_of(call->args[1]))) answer(call, -EINVAL);
    else let_pass(call);
}

/* ---- mremap ---- */

/* The right to attach was asked for when the first attach was made, so it is not asked for again. */
static void enter_moved(const struct guest *space, const nog_piece *piece, uint64_t to) {
    perform(&(struct event){.kind = SET_USER, .pid = space->pid});
    int64_t at = perform(&(struct event){.kind = ATTACH, .pid = space->pid, .id = (int32_t)piece->segment, .address = to,
                                        .flags = piece->may_write ? 0 : NOG_RDONLY});
    if (at < 0) errx(CANNOT_GO_ON, "the machine does not attach segment %u again at %lx", piece->segment, to);
    perform(&(struct event){.kind = SET_USER, .pid = space->pid, .uid = space->uid, .gid = space->gid});
    if (!piece->is_writable && piece->may_write) protect(space, to, to + (uint64_t)piece->pages * PAGE, 0);
}

/* Only a whole attachment moves or is doubled, and none becomes larger: the machine has attaches of whole segments. */
static int64_t move(struct call *call, const nog_piece *piece, const nog_segment *segment) {
    uint64_t from = call->args[0], old_length = pages_of(call->args[1]), new_length = pages_of(call->args[2]);
    uint64_t flags = call->args[3], size = pages_of(segment->size);
    bool is_whole = from == piece->base && from == origin_of(piece) && end_of(piece) == from + size && new_length == size;
    bool is_moved = flags & (MREMAP_FIXED | MREMAP_DONTUNMAP) || old_length == 0;
    if (from + old_length > end_of(piece)) return -EFAULT;
    if (is_moved && options.frames) return -ENOMEM;  /* what is moved would not be watched */
    if (is_moved ? !is_whole || (old_length && old_length != new_length) : new_length > old_length) return -ENOMEM;
    int64_t result = run_as_made(call);
    if (is_error(result)) return result;
    if (!is_moved) {
        forget_range(call->space, from + new_length, from + old_length);
        return result;
    }
    forget_range(call->space, (uint64_t)result, (uint64_t)result + new_length);
    enter_moved(call->space, piece, (uint64_t)result);
    if (old_length && !(flags & MREMAP_DONTUNMAP)) forget_range(call->space, from, from + old_length);
    return result;
}

void do_move(struct call *call) {
    nog_piece piece;
    nog_segment segment;
    uint64_t from = call->args[0], length = most(pages_of(call->args[1]), PAGE);
    bool is_attached = space_with(call, from, length) && find_piece(call->space, from, from + PAGE, &piece);
    if (is_attached && nog_segment_of(&machine, (int32_t)piece.segment, &segment) == NOG_DONE)
        answer(call, move(call, &piece, &segment));
    else if (call->args[3] & MREMAP_FIXED) replace_range(call, call->args[4], pages_of(call->args[2]));
    else let_pass(call);
}

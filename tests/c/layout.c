/* layout: compares the size of each struct of the header, and the offset of each field, with what the library says of
   its own. Prints a line for each difference, and last how many it compared. */
#include <inttypes.h>
#include <stdio.h>
#include <nogcuvema.h>

struct place { const char *name; uint32_t which, field; size_t value; };

#define SIZE(which, type) {#type, which, 0, sizeof(type)}
#define FIELD(which, number, type, field) {#type "." #field, which, number, offsetof(type, field)}
static const struct place places[] = {
    SIZE(0, nog_machine), FIELD(0, 1, nog_machine, is_open), FIELD(0, 2, nog_machine, kept),
    SIZE(1, nog_limits), FIELD(1, 1, nog_limits, shmmax), FIELD(1, 2, nog_limits, shmmni),
    FIELD(1, 3, nog_limits, shmall), FIELD(1, 4, nog_limits, frames), FIELD(1, 5, nog_limits, memlock),
    FIELD(1, 6, nog_limits, most_pieces), FIELD(1, 7, nog_limits, most_processes), FIELD(1, 8, nog_limits, most_slots),
    FIELD(1, 9, nog_limits, rules),
    SIZE(2, nog_area), FIELD(2, 1, nog_area, kind), FIELD(2, 2, nog_area, slots),
    SIZE(3, nog_failure), FIELD(3, 1, nog_failure, area), FIELD(3, 2, nog_failure, side),
    FIELD(3, 3, nog_failure, is_write), FIELD(3, 4, nog_failure, unused), FIELD(3, 5, nog_failure, call),
    SIZE(4, nog_process), FIELD(4, 1, nog_process, pid), FIELD(4, 2, nog_process, is_born),
    FIELD(4, 3, nog_process, uid), FIELD(4, 4, nog_process, gid),
    SIZE(5, nog_segment), FIELD(5, 1, nog_segment, size), FIELD(5, 2, nog_segment, atime),
    FIELD(5, 3, nog_segment, dtime), FIELD(5, 4, nog_segment, ctime), FIELD(5, 5, nog_segment, id),
    FIELD(5, 6, nog_segment, key), FIELD(5, 7, nog_segment, uid), FIELD(5, 8, nog_segment, gid),
    FIELD(5, 9, nog_segment, cuid), FIELD(5, 10, nog_segment, cgid), FIELD(5, 11, nog_segment, mode),
    FIELD(5, 12, nog_segment, status), FIELD(5, 13, nog_segment, cpid), FIELD(5, 14, nog_segment, lpid),
    FIELD(5, 15, nog_segment, nattch), FIELD(5, 16, nog_segment, index),
    SIZE(6, nog_tally), FIELD(6, 1, nog_tally, events), FIELD(6, 2, nog_tally, segments),
    FIELD(6, 3, nog_tally, reserved), FIELD(6, 4, nog_tally, locked), FIELD(6, 5, nog_tally, frames),
    FIELD(6, 6, nog_tally, resident), FIELD(6, 7, nog_tally, dirty), FIELD(6, 8, nog_tally, slots),
    FIELD(6, 9, nog_tally, used), FIELD(6, 10, nog_tally, ins), FIELD(6, 11, nog_tally, outs),
    FIELD(6, 12, nog_tally, failures),
    SIZE(7, nog_flushed), FIELD(7, 1, nog_flushed, written), FIELD(7, 2, nog_flushed, failed),
    SIZE(8, nog_usage), FIELD(8, 1, nog_usage, used_ids), FIELD(8, 2, nog_usage, pages), FIELD(8, 3, nog_usage, resident),
    FIELD(8, 4, nog_usage, swapped), FIELD(8, 5, nog_usage, highest),
    SIZE(9, nog_piece), FIELD(9, 1, nog_piece, base), FIELD(9, 2, nog_piece, segment), FIELD(9, 3, nog_piece, first_page),
    FIELD(9, 4, nog_piece, pages), FIELD(9, 5, nog_piece, is_writable), FIELD(9, 6, nog_piece, may_write),
    FIELD(9, 7, nog_piece, unused),
    SIZE(10, nog_frame), FIELD(10, 1, nog_frame, id), FIELD(10, 2, nog_frame, page),
    FIELD(10, 3, nog_frame, is_referenced), FIELD(10, 4, nog_frame, is_dirty), FIELD(10, 5, nog_frame, is_lent),
    FIELD(10, 6, nog_frame, is_locked) };
enum { PLACES = sizeof places / sizeof *places };

static int is_as_said(const struct place *place) {
    size_t value = SIZE_MAX;
    uint32_t code = nog_layout(place->which, place->field, &value);
    if (code == NOG_DONE && value == place->value) return 1;
    printf("layout: %s: %zu here, the library's answer is %" PRIu32 ", %zu\n", place->name, place->value, code, value);
    return 0;
}

/* the library has no field after the last one of a struct here, and no other struct */
static int is_end(uint32_t which, uint32_t field) {
    size_t value = SIZE_MAX;
    uint32_t code = nog_layout(which, field, &value);
    if (code == NOG_OUT_OF_RANGE && value == SIZE_MAX) return 1;
    printf("layout: struct %" PRIu32 " field %" PRIu32 ": the library's answer is %" PRIu32 "\n", which, field, code);
    return 0;
}

int main(void) {
    int wrong = 0;
    for (int i = 0; i < PLACES; i++) {
        int is_last = i + 1 == PLACES || places[i + 1].which != places[i].which;
        wrong += !is_as_said(&places[i]);
        if (is_last) wrong += !is_end(places[i].which, places[i].field + 1);
    }
    wrong += !is_end(places[PLACES - 1].which + 1, 0);
    printf("layout: %d sizes and offsets, %d differ\n", (int)PLACES, wrong);
    return wrong != 0;
}

/* Makes calls through the header, as records on standard input ask for them, and answers each on standard output.
 *
 * A record is a struct record, the limits where the call takes any, the list, the frame and the second buffer. An answer is a struct answer
 * and, after Build, the frame, or after Turn the second buffer.
 */
#include <stdint.h>
#include <stdio.h>
#include <stdlib.h>
#include <string.h>

#include "frame_builder.h"

#define MARGIN 64
#define BUFFER 65536

enum call { ADMIT, BUILD, INSPECT, SLOT_VIEW, COUNT_FLOW, COUNT_INPUT, COUNT_OUTPUT, DEPTH_FLOW, DEPTH_INPUT, DEPTH_OUTPUT, TURN };

/* What a call may have written to and must not have. */
enum harm { NONE, LIMITS, AROUND_LIMITS, LIST, AROUND_LIST, FRAME, AROUND_FRAME, SECOND, AROUND_SECOND };

struct record {
    uint64_t call;
    uint64_t side; /* of the frame; looked at by Inspect, Service count and Turn */
    uint64_t ports, slots, list_length, frame_length;
    uint64_t second_length; /* 0 of a call other than Turn */
    uint64_t slot;          /* Service count: the start */
    uint64_t length;
    uint64_t whose; /* Service count and Depth: the flow or the port */
};

struct answer {
    uint64_t number, first;
    uint64_t second; /* Service count: the lead, in two's complement; 0 of a call that has none */
    uint64_t third;  /* 0 of a call that has none */
    uint64_t harm;
};

/* Bytes lent to a call, with a margin before and a margin after, and a copy of it all. */
struct lent {
    unsigned char *whole, *copy;
    size_t length;
};

/* What a call is lent to read and to write; its limits are empty where it takes none, and so is the second buffer. */
struct slices {
    struct lent limits, list, frame, second;
};

static void *part_of(const struct lent *lent)
{
    return lent->whole + MARGIN;
}

static void *room_for(size_t length)
{
    void *room = malloc(length);
    if (room == NULL)
        exit(3);
    return room;
}

static void read_bytes(void *bytes, size_t length)
{
    if (fread(bytes, 1, length, stdin) != length)
        exit(2);
}

/* The next bytes of standard input, lent. */
static struct lent lend(size_t length)
{
    size_t size = length + 2 * MARGIN;
    struct lent lent = {room_for(size), room_for(size), length};
    for (size_t place = 0; place < MARGIN; place++)
        lent.whole[place] = lent.whole[size - 1 - place] = (unsigned char)(0xa5 ^ place);
    read_bytes(part_of(&lent), length);
    memcpy(lent.copy, lent.whole, size);
    return lent;
}

static void give_back(struct lent *lent)
{
    free(lent->whole);
    free(lent->copy);
}

static int same_part(const struct lent *lent)
{
    return memcmp(part_of(lent), lent->copy + MARGIN, lent->length) == 0;
}

static int same_margins(const struct lent *lent)
{
    size_t end = MARGIN + lent->length;
    return memcmp(lent->whole, lent->copy, MARGIN) == 0 && memcmp(lent->whole + end, lent->copy + end, MARGIN) == 0;
}

static enum harm harm_done(uint64_t call, const struct slices *s)
{
    if (!same_part(&s->limits))
        return LIMITS;
    if (!same_margins(&s->limits))
        return AROUND_LIMITS;
    if (!same_part(&s->list))
        return LIST;
    if (!same_margins(&s->list))
        return AROUND_LIST;
    if (call != BUILD && !same_part(&s->frame))
        return FRAME;
    if (!same_margins(&s->frame))
        return AROUND_FRAME;
    if (call != TURN && !same_part(&s->second))
        return SECOND;
    return same_margins(&s->second) ? NONE : AROUND_SECOND;
}

/* A call that counts; all three take the same. */
typedef size_t count_call(size_t side, size_t ports, size_t slots, const uint16_t *list, size_t list_length, const uint16_t *frame,
                          size_t frame_length, size_t whose, size_t start, size_t length, size_t *cells, int64_t *lead);

static count_call *count_of(uint64_t call)
{
    switch (call) {
    case COUNT_FLOW:
        return frame_builder_count_flow;
    case COUNT_INPUT:
        return frame_builder_count_input;
    case COUNT_OUTPUT:
        return frame_builder_count_output;
    }
    exit(2);
}

static int takes_limits(uint64_t call)
{
    return call == ADMIT || call == BUILD;
}

/* What is lent for a value of the answer: a number that the call has to write over, or 0 where the call has no such value. */
static size_t unwritten(int has)
{
    return has ? SIZE_MAX : 0;
}

static size_t make_call(const struct record *r, const struct slices *s, size_t *first, size_t *second, size_t *third)
{
    const uint16_t *limits = part_of(&s->limits), *list = part_of(&s->list);
    uint16_t *frame = part_of(&s->frame), *turned = part_of(&s->second);
    switch (r->call) {
    case ADMIT:
        return frame_builder_admit(r->ports, r->slots, list, r->list_length, limits, first, second, third);
    case BUILD:
        return frame_builder_build(r->ports, r->slots, list, r->list_length, limits, frame, r->frame_length, first, second, third);
    case INSPECT:
        return frame_builder_inspect(r->side, r->ports, r->slots, list, r->list_length, frame, r->frame_length, first, second);
    case SLOT_VIEW:
        return frame_builder_slot_view(r->ports, r->slots, frame, r->frame_length, r->slot, first, second);
    case DEPTH_FLOW:
        return frame_builder_depth_flow(r->ports, r->slots, list, r->list_length, r->whose, first, second);
    case DEPTH_INPUT:
        return frame_builder_depth_input(r->ports, r->slots, list, r->list_length, r->whose, first, second);
    case DEPTH_OUTPUT:
        return frame_builder_depth_output(r->ports, r->slots, list, r->list_length, r->whose, first, second);
    case TURN:
        return frame_builder_turn(r->side, r->ports, r->slots, list, r->list_length, frame, r->frame_length, turned, r->second_length);
    }
    int64_t lead = INT64_MAX;
    size_t number = count_of(r->call)(r->side, r->ports, r->slots, list, r->list_length, frame, r->frame_length, r->whose, r->slot,
                                      r->length, first, &lead);
    *second = (size_t)lead;
    return number;
}

/* Makes one call and answers it. */
static void respond(const struct record *record)
{
    struct slices slices;
    slices.limits = lend(takes_limits(record->call) ? FRAME_BUILDER_LIMITS * sizeof(uint16_t) : 0);
    slices.list = lend(record->list_length * sizeof(uint16_t));
    slices.frame = lend(record->frame_length * sizeof(uint16_t));
    slices.second = lend(record->second_length * sizeof(uint16_t));
    size_t first = unwritten(record->call != TURN), second = first, third = unwritten(takes_limits(record->call));
    size_t number = make_call(record, &slices, &first, &second, &third);
    struct answer answer = {number, first, second, third, harm_done(record->call, &slices)};
    fwrite(&answer, sizeof answer, 1, stdout);
    if (record->call == BUILD)
        fwrite(part_of(&slices.frame), 1, slices.frame.length, stdout);
    if (record->call == TURN)
        fwrite(part_of(&slices.second), 1, slices.second.length, stdout);
    fflush(stdout);
    give_back(&slices.limits);
    give_back(&slices.list);
    give_back(&slices.frame);
    give_back(&slices.second);
}

int main(void)
{
    struct record record;
    setvbuf(stdin, NULL, _IOFBF, BUFFER);
    setvbuf(stdout, NULL, _IOFBF, BUFFER);
    while (fread(&record, sizeof record, 1, stdin) == 1)
        respond(&record);
    return 0;
}

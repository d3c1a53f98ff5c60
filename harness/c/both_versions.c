/* Makes each call twice, by this library and by an older version of it, whose names begin with old_, and holds the two to each other. A call
 * that the older version has not is made once. */
#include <stdint.h>
#include <stdio.h>
#include <stdlib.h>
#include <string.h>

#include "frame_builder.h"

/* What no call answers. */
#define DIFFERENT 999

/* The library's own call, the older one, and the one that is made in their place. */
#define VERSIONS(call) \
    __typeof__(call) __real_##call, __wrap_##call; \
    __typeof__(call) old_##call __attribute__((weak))

VERSIONS(frame_builder_admit);
VERSIONS(frame_builder_build);
VERSIONS(frame_builder_inspect);
VERSIONS(frame_builder_turn);
VERSIONS(frame_builder_slot_view);
VERSIONS(frame_builder_count_flow);
VERSIONS(frame_builder_count_input);
VERSIONS(frame_builder_count_output);
VERSIONS(frame_builder_depth_flow);
VERSIONS(frame_builder_depth_input);
VERSIONS(frame_builder_depth_output);

/* An answer with what its call wrote besides. */
struct answer {
    size_t number, first, second, third;
};

static size_t agreed(const char *call, struct answer now, struct answer old)
{
    if (memcmp(&now, &old, sizeof now) == 0)
        return now.number;
    fprintf(stderr, "%s: %zu (%zu %zu %zu), and by the older version %zu (%zu %zu %zu)\n", call, now.number, now.first, now.second,
            now.third, old.number, old.first, old.second, old.third);
    return DIFFERENT;
}

size_t __wrap_frame_builder_admit(size_t ports, size_t slots, const uint16_t *list, size_t list_length, const uint16_t *limits,
                                  size_t *first, size_t *second, size_t *third)
{
    struct answer old = {0, *first, *second, *third};
    size_t number = __real_frame_builder_admit(ports, slots, list, list_length, limits, first, second, third);
    if (!old_frame_builder_admit)
        return number;
    old.number = old_frame_builder_admit(ports, slots, list, list_length, limits, &old.first, &old.second, &old.third);
    return agreed("admit", (struct answer){number, *first, *second, *third}, old);
}

/* A slice that a call writes, lent again to the older one. */
static uint16_t *copied(const uint16_t *slice, size_t length)
{
    uint16_t *copy = malloc(length * sizeof *copy + 1);
    if (copy == NULL)
        exit(3);
    memcpy(copy, slice, length * sizeof *copy);
    return copy;
}

/* The number of an answer whose call wrote a slice, held to what the older one wrote. The copy is given back. */
static size_t same_slice(const char *call, size_t number, const uint16_t *slice, uint16_t *copy, size_t length)
{
    int same = memcmp(slice, copy, length * sizeof *copy) == 0;
    free(copy);
    if (same)
        return number;
    fprintf(stderr, "%s: the frames differ\n", call);
    return DIFFERENT;
}

size_t __wrap_frame_builder_build(size_t ports, size_t slots, const uint16_t *list, size_t list_length, const uint16_t *limits,
                                  uint16_t *frame, size_t frame_length, size_t *first, size_t *second, size_t *third)
{
    struct answer old = {0, *first, *second, *third};
    uint16_t *copy = copied(frame, frame_length);
    size_t number = __real_frame_builder_build(ports, slots, list, list_length, limits, frame, frame_length, first, second, third);
    if (!old_frame_builder_build) {
        free(copy);
        return number;
    }
    old.number = old_frame_builder_build(ports, slots, list, list_length, limits, copy, frame_length, &old.first, &old.second, &old.third);
    number = agreed("build", (struct answer){number, *first, *second, *third}, old);
    return same_slice("build", number, frame, copy, frame_length);
}

size_t __wrap_frame_builder_inspect(size_t side, size_t ports, size_t slots, const uint16_t *list, size_t list_length,
                                    const uint16_t *frame, size_t frame_length, size_t *first, size_t *second)
{
    struct answer old = {0, *first, *second, 0};
    size_t number = __real_frame_builder_inspect(side, ports, slots, list, list_length, frame, frame_length, first, second);
    if (!old_frame_builder_inspect)
        return number;
    old.number = old_frame_builder_inspect(side, ports, slots, list, list_length, frame, frame_length, &old.first, &old.second);
    return agreed("inspect", (struct answer){number, *first, *second, 0}, old);
}

size_t __wrap_frame_builder_turn(size_t side, size_t ports, size_t slots, const uint16_t *list, size_t list_length, const uint16_t *frame,
                                 size_t frame_length, uint16_t *second, size_t second_length)
{
    uint16_t *copy = copied(second, second_length);
    size_t number = __real_frame_builder_turn(side, ports, slots, list, list_length, frame, frame_length, second, second_length);
    if (!old_frame_builder_turn) {
        free(copy);
        return number;
    }
    struct answer old = {old_frame_builder_turn(side, ports, slots, list, list_length, frame, frame_length, copy, second_length), 0, 0, 0};
    number = agreed("turn", (struct answer){number, 0, 0, 0}, old);
    return same_slice("turn", number, second, copy, second_length);
}

size_t __wrap_frame_builder_slot_view(size_t ports, size_t slots, const uint16_t *frame, size_t frame_length, size_t slot, size_t *start,
                                      size_t *size)
{
    struct answer old = {0, *start, *size, 0};
    size_t number = __real_frame_builder_slot_view(ports, slots, frame, frame_length, slot, start, size);
    if (!old_frame_builder_slot_view)
        return number;
    old.number = old_frame_builder_slot_view(ports, slots, frame, frame_length, slot, &old.first, &old.second);
    return agreed("slot view", (struct answer){number, *start, *size, 0}, old);
}

#define COUNT(who) \
    size_t __wrap_frame_builder_count_##who(size_t side, size_t ports, size_t slots, const uint16_t *list, size_t list_length, \
                                            const uint16_t *frame, size_t frame_length, size_t whose, size_t start, size_t length, \
                                            size_t *cells, int64_t *lead) \
    { \
        struct answer old = {0, *cells, 0, 0}; \
        int64_t old_lead = *lead; \
        size_t number = __real_frame_builder_count_##who(side, ports, slots, list, list_length, frame, frame_length, whose, start, \
                                                         length, cells, lead); \
        if (!old_frame_builder_count_##who) \
            return number; \
        old.number = old_frame_builder_count_##who(side, ports, slots, list, list_length, frame, frame_length, whose, start, length, \
                                                   &old.first, &old_lead); \
        old.second = (size_t)old_lead; \
        return agreed("count of " #who, (struct answer){number, *cells, (size_t)*lead, 0}, old); \
    }

COUNT(flow)
COUNT(input)
COUNT(output)

#define DEPTH(who) \
    size_t __wrap_frame_builder_depth_##who(size_t ports, size_t slots, const uint16_t *list, size_t list_length, size_t whose, \
                                            size_t *first, size_t *second) \
    { \
        struct answer old = {0, *first, *second, 0}; \
        size_t number = __real_frame_builder_depth_##who(ports, slots, list, list_length, whose, first, second); \
        if (!old_frame_builder_depth_##who) \
            return number; \
        old.number = old_frame_builder_depth_##who(ports, slots, list, list_length, whose, &old.first, &old.second); \
        return agreed("depth of " #who, (struct answer){number, *first, *second, 0}, old); \
    }

DEPTH(flow)
DEPTH(input)
DEPTH(output)

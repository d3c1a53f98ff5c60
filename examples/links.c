/* Two slow links of one output, of which one is asked for too much until a flow takes the other:
 * cc links.c $(pkg-config --cflags --libs frame_builder) */
#include <stdio.h>

#include "frame_builder.h"

#define PORTS 2
#define SLOTS 8
#define FLOWS 3
#define OUTPUT 2
#define LIST_LENGTH (FLOWS * FRAME_BUILDER_FLOW_NUMBERS)
#define FRAME_LENGTH (SLOTS * PORTS)

/* The place of a flow's link among its numbers. */
#define LINK 3

/* Links 1 and 2 of the output are half as fast as it; all others may have a cell in every slot. */
static void set_limits(uint16_t *limits)
{
    for (size_t place = 0; place < FRAME_BUILDER_LIMITS; place++)
        limits[place] = SLOTS;
    limits += (OUTPUT - 1) * FRAME_BUILDER_MAX_LINKS;
    limits[0] = limits[1] = SLOTS / 2;
}

static void print_answer(size_t answer, size_t output, size_t link, size_t cells)
{
    printf("build: %s", frame_builder_text(answer));
    if (answer == FRAME_BUILDER_REFUSED_LINK_LOAD)
        printf(" (%zu: output %zu, link %zu, %zu cells)", answer, output, link, cells);
    printf("\n");
}

/* Prints the slots that have a cell for a link of the output, which all flows of the list go to. */
static void print_slots(const uint16_t *list, const uint16_t *frame, unsigned link)
{
    printf("output %d, link %u: slots", OUTPUT, link);
    for (size_t place = 0; place < FRAME_LENGTH; place++)
        if (frame[place] > 0 && list[(frame[place] - 1) * FRAME_BUILDER_FLOW_NUMBERS + LINK] == link)
            printf(" %zu", place / PORTS + 1);
    printf("\n");
}

int main(void)
{
    /* Input, output, cells, link. */
    uint16_t list[LIST_LENGTH] = {1, OUTPUT, 3, 1, 1, OUTPUT, 1, 1, 2, OUTPUT, 3, 1};
    uint16_t frame[FRAME_LENGTH], limits[FRAME_BUILDER_LIMITS];
    size_t first, second, third;

    set_limits(limits);
    size_t answer = frame_builder_build(PORTS, SLOTS, list, LIST_LENGTH, limits, frame, FRAME_LENGTH, &first, &second, &third);
    print_answer(answer, first, second, third);

    /* Flow 3 takes link 2, so that link 1 has just as many cells as it may have. */
    list[2 * FRAME_BUILDER_FLOW_NUMBERS + LINK] = 2;
    answer = frame_builder_build(PORTS, SLOTS, list, LIST_LENGTH, limits, frame, FRAME_LENGTH, &first, &second, &third);
    print_answer(answer, first, second, third);
    if (answer != FRAME_BUILDER_ACCEPTED)
        return 1;
    print_slots(list, frame, 1);
    print_slots(list, frame, 2);
    return 0;
}

/* Builds the frame of the Table 7 load and turns it, so that it says what each output takes in the place of what each input sends. Inspects
 * it and counts on the output side, and turns it back: cc turn.c $(pkg-config --cflags --libs frame_builder) */
#include <inttypes.h>
#include <stdio.h>
#include <string.h>

#include "frame_builder.h"

#define PORTS 4
#define SLOTS 4
#define FLOWS 5
#define LIST_LENGTH (FLOWS * FRAME_BUILDER_FLOW_NUMBERS)
#define FRAME_LENGTH (SLOTS * PORTS)

/* Input, output, cells, link. */
static const uint16_t list[LIST_LENGTH] = {1, 1, 2, 1, 1, 2, 2, 1, 4, 1, 1, 1, 4, 2, 1, 1, 4, 4, 2, 1};

/* The side is the one that the frame is on, and the turned frame is on the other. */
static size_t turn(size_t side, const uint16_t *frame, uint16_t *turned)
{
    return frame_builder_turn(side, PORTS, SLOTS, list, LIST_LENGTH, frame, FRAME_LENGTH, turned, FRAME_LENGTH);
}

static void print_frame(const char *name, const uint16_t *frame)
{
    printf("%s:\n", name);
    for (size_t slot = 0; slot < SLOTS; slot++) {
        printf("slot %zu:", slot + 1);
        for (size_t port = 0; port < PORTS; port++)
            printf(" %u", frame[slot * PORTS + port]);
        printf("\n");
    }
}

/* Prints what Inspect answers of a frame on the output side, where a port that is used twice is an input. */
static void print_inspection(const uint16_t *by_output)
{
    size_t slot, port;
    size_t answer = frame_builder_inspect(FRAME_BUILDER_OUTPUT_SIDE, PORTS, SLOTS, list, LIST_LENGTH, by_output, FRAME_LENGTH, &slot,
                                          &port);
    printf("inspect by output: %s", frame_builder_inspect_text(answer));
    if (answer == FRAME_BUILDER_FAULT_PORT_TWICE)
        printf(" (%zu: slot %zu, input %zu)", answer, slot, port);
    printf("\n");
}

/* Prints what an output takes in three slots; its lead is in quarters of a cell, as the frame has four slots. */
static void print_count(const char *name, size_t side, const uint16_t *frame)
{
    size_t cells;
    int64_t lead;
    size_t answer = frame_builder_count_output(side, PORTS, SLOTS, list, LIST_LENGTH, frame, FRAME_LENGTH, 1, 3, 3, &cells, &lead);
    if (answer == FRAME_BUILDER_ACCEPTED)
        printf("output 1 %s, 3 slots from slot 3: %zu cells, lead %" PRId64 "/%d of a cell\n", name, cells, lead, SLOTS);
}

int main(void)
{
    uint16_t by_input[FRAME_LENGTH], by_output[FRAME_LENGTH], back[FRAME_LENGTH], limits[FRAME_BUILDER_LIMITS];
    size_t first, second, third;

    for (size_t place = 0; place < FRAME_BUILDER_LIMITS; place++)
        limits[place] = SLOTS;
    size_t answer = frame_builder_build(PORTS, SLOTS, list, LIST_LENGTH, limits, by_input, FRAME_LENGTH, &first, &second, &third);
    if (answer != FRAME_BUILDER_ACCEPTED || turn(FRAME_BUILDER_INPUT_SIDE, by_input, by_output) != FRAME_BUILDER_ACCEPTED)
        return 1;
    print_frame("by input", by_input);
    print_frame("by output", by_output);

    /* Where a frame turns, both sides answer the same. */
    print_inspection(by_output);
    print_count("by input", FRAME_BUILDER_INPUT_SIDE, by_input);
    print_count("by output", FRAME_BUILDER_OUTPUT_SIDE, by_output);
    if (turn(FRAME_BUILDER_OUTPUT_SIDE, by_output, back) == FRAME_BUILDER_ACCEPTED && memcmp(back, by_input, sizeof back) == 0)
        printf("turned back: the first frame again\n");

    /* Flow 3, of input 4, where output 4 has flow 5 of the same input in the same slot. */
    by_output[0] = 3;
    printf("turn after damage: %s\n", frame_builder_text(turn(FRAME_BUILDER_OUTPUT_SIDE, by_output, back)));
    print_inspection(by_output);
    return 0;
}

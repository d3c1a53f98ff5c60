/* Builds the frame of the Table 7 load, inspects it, and counts: cc table7.c $(pkg-config --cflags --libs frame_builder) */
#include <inttypes.h>
#include <stdio.h>

#include "frame_builder.h"

#define PORTS 4
#define SLOTS 4
#define FLOWS 5
#define LIST_LENGTH (FLOWS * FRAME_BUILDER_FLOW_NUMBERS)
#define FRAME_LENGTH (SLOTS * PORTS)

/* Prints an answer: its text and, of a refusal or a fault, its number and two values; only a link's load has a third. */
static void print_answer(const char *call, const char *text, size_t answer, size_t first, size_t second)
{
    printf("%s: %s", call, text);
    if (answer != FRAME_BUILDER_ACCEPTED)
        printf(" (%zu: %zu, %zu)", answer, first, second);
    printf("\n");
}

/* Prints each slot's part of the frame. */
static void print_slots(const uint16_t *frame)
{
    for (size_t slot = 1; slot <= SLOTS; slot++) {
        size_t start, size;
        if (frame_builder_slot_view(PORTS, SLOTS, frame, FRAME_LENGTH, slot, &start, &size) != FRAME_BUILDER_ACCEPTED)
            return;
        printf("slot %zu:", slot);
        for (size_t entry = 0; entry < size; entry++)
            printf(" %u", frame[start + entry]);
        printf("\n");
    }
}

/* Prints what flow 5 has in two slots of the frame; its lead is in quarters of a cell, as the frame has four slots. */
static void print_count(const uint16_t *list, const uint16_t *frame, size_t start)
{
    size_t cells;
    int64_t lead;
    size_t answer = frame_builder_count_flow(FRAME_BUILDER_INPUT_SIDE, PORTS, SLOTS, list, LIST_LENGTH, frame, FRAME_LENGTH, 5, start, 2,
                                             &cells, &lead);
    if (answer != FRAME_BUILDER_ACCEPTED)
        return;
    printf("flow 5, 2 slots from slot %zu: %zu cells, lead %" PRId64 "/%d of a cell\n", start, cells, lead, SLOTS);
}

int main(void)
{
    /* Input, output, cells, link. */
    uint16_t list[LIST_LENGTH] = {1, 1, 2, 1, 1, 2, 2, 1, 4, 1, 1, 1, 4, 2, 1, 1, 4, 4, 2, 1};
    uint16_t frame[FRAME_LENGTH], limits[FRAME_BUILDER_LIMITS];
    size_t first, second, third;

    /* A cell in every slot, so that no link is slower than its output. */
    for (size_t place = 0; place < FRAME_BUILDER_LIMITS; place++)
        limits[place] = SLOTS;
    size_t answer = frame_builder_build(PORTS, SLOTS, list, LIST_LENGTH, limits, frame, FRAME_LENGTH, &first, &second, &third);
    print_answer("build", frame_builder_text(answer), answer, first, second);
    if (answer != FRAME_BUILDER_ACCEPTED)
        return 1;
    printf("odd counts settled: %zu\n", first);
    print_slots(frame);

    answer = frame_builder_inspect(FRAME_BUILDER_INPUT_SIDE, PORTS, SLOTS, list, LIST_LENGTH, frame, FRAME_LENGTH, &first, &second);
    print_answer("inspect", frame_builder_inspect_text(answer), answer, first, second);
    print_count(list, frame, 4);
    print_count(list, frame, 2);

    /* The cells of flow 1. */
    list[2]++;
    answer = frame_builder_build(PORTS, SLOTS, list, LIST_LENGTH, limits, frame, FRAME_LENGTH, &first, &second, &third);
    print_answer("build with one cell more", frame_builder_text(answer), answer, first, second);
    /* A flow of input 4 where input 1 stands. */
    frame[0] = 5;
    answer = frame_builder_inspect(FRAME_BUILDER_INPUT_SIDE, PORTS, SLOTS, list, LIST_LENGTH, frame, FRAME_LENGTH, &first, &second);
    print_answer("inspect after damage", frame_builder_inspect_text(answer), answer, first, second);
    return 0;
}

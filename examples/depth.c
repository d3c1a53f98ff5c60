/* How deep a buffer to order for each flow of examples/studio.sheet, from an even source and from one that sends four cells at once:
 * cc depth.c $(pkg-config --cflags --libs frame_builder). BUFFERS.md says why. */
#include <stdio.h>

#include "frame_builder.h"

#define PORTS 3
#define SLOTS 8
#define FLOWS 6
#define AT_ONCE 4
#define LIST_LENGTH (FLOWS * FRAME_BUILDER_FLOW_NUMBERS)

/* The place of a flow's cells among its numbers. */
#define CELLS 2

/* Input, output, cells, link. */
static const uint16_t list[LIST_LENGTH] = {1, 2, 3, 1, 1, 3, 2, 1, 2, 1, 4, 1, 2, 3, 3, 1, 3, 1, 1, 1, 3, 2, 5, 1};

int main(void)
{
    for (size_t flow = 1; flow <= FLOWS; flow++) {
        size_t bound, cells, load = list[(flow - 1) * FRAME_BUILDER_FLOW_NUMBERS + CELLS];
        size_t answer = frame_builder_depth_flow(PORTS, SLOTS, list, LIST_LENGTH, flow, &bound, &cells);
        if (answer != FRAME_BUILDER_ACCEPTED) {
            printf("flow %zu: %s\n", flow, frame_builder_text(answer));
            return 1;
        }

        /* In no run of slots does this source bring more cells than the run's share and so many parts of 1/SLOTS of a cell. */
        size_t allowance = AT_ONCE * SLOTS - 1;
        printf("flow %zu: load %zu in %d slots, at most %zu/%d of a cell from its share\n", flow, load, SLOTS, bound, SLOTS);
        printf("  order %zu cells, and for %d cells at once %zu\n", cells, AT_ONCE, (allowance + bound + load) / SLOTS);
    }
    return 0;
}

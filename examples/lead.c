/* How far ahead of its share and how far behind it flow 1 of examples/studio.sheet gets while its frame repeats, and how deep a buffer it
 * needs for so long: cc lead.c $(pkg-config --cflags --libs frame_builder). BUFFERS.md says why. */
#include <inttypes.h>
#include <stdio.h>

#include "frame_builder.h"

#define PORTS 3
#define SLOTS 8
#define FLOWS 6
#define FLOW 1
#define LIST_LENGTH (FLOWS * FRAME_BUILDER_FLOW_NUMBERS)
#define FRAME_LENGTH (SLOTS * PORTS)

/* Input, output, cells, link. */
static const uint16_t list[LIST_LENGTH] = {1, 2, 3, 1, 1, 3, 2, 1, 2, 1, 4, 1, 2, 3, 3, 1, 3, 1, 1, 1, 3, 2, 5, 1};

/* A run of the frame: its cells, and its lead in eighths of a cell, as the frame has eight slots. */
struct run {
    size_t start, length, cells;
    int64_t lead;
};

/* The flow in a run; Build has accepted, so that no count is refused. */
static struct run run_of(const uint16_t *frame, size_t start, size_t length)
{
    struct run run = {start, length, 0, 0};
    frame_builder_count_flow(FRAME_BUILDER_INPUT_SIDE, PORTS, SLOTS, list, LIST_LENGTH, frame, FRAME_LENGTH, FLOW, start, length,
                             &run.cells, &run.lead);
    return run;
}

/* The first run whose lead is the greatest, or with sign -1 the least. Whole turns have lead 0, so that shorter runs are all there are. */
static struct run farthest(const uint16_t *frame, int64_t sign)
{
    struct run best = {1, 0, 0, 0};
    for (size_t start = 1; start <= SLOTS; start++) {
        for (size_t length = 1; length < SLOTS; length++) {
            struct run run = run_of(frame, start, length);
            if (sign * run.lead > sign * best.lead)
                best = run;
        }
    }
    return best;
}

static void print_run(const char *name, struct run run)
{
    printf("farthest %s: %" PRId64 "/%d of a cell, in %zu slots from slot %zu\n", name, run.lead, SLOTS, run.length, run.start);
}

int main(void)
{
    uint16_t frame[FRAME_LENGTH], limits[FRAME_BUILDER_LIMITS];
    size_t first, second, third;

    for (size_t place = 0; place < FRAME_BUILDER_LIMITS; place++)
        limits[place] = SLOTS;
    size_t answer = frame_builder_build(PORTS, SLOTS, list, LIST_LENGTH, limits, frame, FRAME_LENGTH, &first, &second, &third);
    if (answer != FRAME_BUILDER_ACCEPTED)
        return 1;
    struct run whole = run_of(frame, 1, SLOTS), behind = farthest(frame, -1);
    printf("flow %d: %zu cells in %d slots, lead %" PRId64 "\n", FLOW, whole.cells, SLOTS, whole.lead);
    print_run("ahead", farthest(frame, 1));
    print_run("behind", behind);

    /* An even source brings in no run more than its share, rounded up to a whole cell: less than a cell more, SLOTS - 1 parts. */
    size_t waiting = SLOTS - 1 + (size_t)-behind.lead;
    printf("from an even source at most %zu cells wait after a slot; a buffer of %zu is enough\n", waiting / SLOTS,
           (waiting + whole.cells) / SLOTS);
    return 0;
}

/* Holds the calls to what the header says of them: the texts, every answer with what the lent numbers and the frames then hold, the sides
 * of a frame, the counts of links and of the total, slices of length 0, slices and limits beside memory that must not be touched, and two
 * threads at once. The last line is 'N passed, M failed'.
 */
#define _GNU_SOURCE
#include <errno.h>
#include <pthread.h>
#include <stdint.h>
#include <stdio.h>
#include <stdlib.h>
#include <string.h>
#include <sys/mman.h>

#include "frame_builder.h"

#define COUNT_OF(array) (sizeof(array) / sizeof *(array))
#define UNSET ((size_t)0xaaaaaaaaaaaaaaaa)
#define UNSET_LEAD ((int64_t)0x5555555555555555)
#define ERRNO 12345
#define MOST_PORTS FRAME_BUILDER_MAX_PORTS
#define MOST_SLOTS FRAME_BUILDER_MAX_SLOTS
#define MOST_FLOWS FRAME_BUILDER_MAX_FLOWS
#define MOST_FRAME FRAME_BUILDER_MAX_FRAME_ENTRIES
#define OF_FLOW FRAME_BUILDER_FLOW_NUMBERS
#define LIMITS FRAME_BUILDER_LIMITS
#define BUILDS 300

static size_t passed, failed;

static void check(int holds, const char *what)
{
    if (holds) {
        passed++;
        return;
    }
    failed++;
    printf("FAILED: %s\n", what);
}

/* Texts. */

static const size_t numbers[] = {
    FRAME_BUILDER_ACCEPTED,
    FRAME_BUILDER_REFUSED_PORTS,
    FRAME_BUILDER_REFUSED_SLOTS,
    FRAME_BUILDER_REFUSED_LIST_LENGTH,
    FRAME_BUILDER_REFUSED_FRAME_LENGTH,
    FRAME_BUILDER_REFUSED_INPUT_LOAD,
    FRAME_BUILDER_REFUSED_OUTPUT_LOAD,
    FRAME_BUILDER_REFUSED_LINE_FORM,
    FRAME_BUILDER_REFUSED_LINE_PORT,
    FRAME_BUILDER_REFUSED_SHEET_LENGTH,
    FRAME_BUILDER_REFUSED_SLOT_NUMBER,
    FRAME_BUILDER_REFUSED_FLOW_OR_PORT,
    FRAME_BUILDER_REFUSED_RUN_LENGTH,
    FRAME_BUILDER_REFUSED_ENTRIES,
    FRAME_BUILDER_REFUSED_SECOND_LENGTH,
    FRAME_BUILDER_REFUSED_TOO_MANY_FLOWS,
    FRAME_BUILDER_REFUSED_FLOW_PORT,
    FRAME_BUILDER_REFUSED_FLOW_LINK,
    FRAME_BUILDER_REFUSED_LINK_LOAD,
    FRAME_BUILDER_FAULT_WRONG_ENTRY,
    FRAME_BUILDER_FAULT_PORT_TWICE,
    FRAME_BUILDER_FAULT_FLOW_COUNT,
    FRAME_BUILDER_FAULT_UNBALANCED_BLOCK,
    9, /* no answer, as those below */
    16,
    20,
    25,
    100,
    105,
    SIZE_MAX,
};

#define ANSWERS (COUNT_OF(numbers) - 7)

static void check_texts(void)
{
    for (size_t one = 0; one < COUNT_OF(numbers); one++) {
        const char *text = frame_builder_text(numbers[one]);
        int distinct = text[0] != '\0';
        for (size_t other = 0; other < ANSWERS; other++)
            if (other != one && strcmp(text, frame_builder_text(numbers[other])) == 0)
                distinct = 0;
        check(distinct, text);
        if (numbers[one] != FRAME_BUILDER_CLEAN)
            check(strcmp(text, frame_builder_inspect_text(numbers[one])) == 0, "a text of Inspect that is the same for every call");
    }
    check(FRAME_BUILDER_CLEAN == FRAME_BUILDER_ACCEPTED, "clean is 0 as accepted is");
    check(strcmp(frame_builder_inspect_text(FRAME_BUILDER_CLEAN), "clean") == 0, "the text of clean");
    check(strcmp(frame_builder_text(FRAME_BUILDER_ACCEPTED), "accepted") == 0, "the text of accepted");
}

/* Sides. */

/* Numbers for the output side: every one but 0, whatever part of it is looked at. */
static const size_t output_sides[] = {FRAME_BUILDER_OUTPUT_SIDE, 2, 256, 65536, (size_t)1 << 32, (size_t)1 << 63, SIZE_MAX};

/* What Inspect, Turn and Service count are told. */
static size_t side = FRAME_BUILDER_INPUT_SIDE;

/* Answers. */

enum call { ADMIT, BUILD, INSPECT, SLOT_VIEW, DEPTH_FLOW, DEPTH_INPUT, DEPTH_OUTPUT, COUNT_FLOW, COUNT_INPUT, COUNT_OUTPUT };

/* What a call is lent. */
struct lent {
    size_t ports, slots;
    const uint16_t *list;
    size_t list_length;
    const uint16_t *limits;
    uint16_t *frame;
    size_t frame_length, slot, length, whose; /* slot: Service count's start; whose: its flow or port, and Depth's */
};

/* Each lent number stands between two that must stay. */
struct numbers {
    size_t before, first, between, second, beside;
    int64_t lead;
    size_t after, third, behind;
};

static size_t make_call(enum call call, const struct lent *l, struct numbers *n)
{
    size_t *first = &n->first, *second = &n->second, *third = &n->third;
    int64_t *lead = &n->lead;
    switch (call) {
    case ADMIT:
        return frame_builder_admit(l->ports, l->slots, l->list, l->list_length, l->limits, first, second, third);
    case BUILD:
        return frame_builder_build(l->ports, l->slots, l->list, l->list_length, l->limits, l->frame, l->frame_length, first, second,
                                   third);
    case INSPECT:
        return frame_builder_inspect(side, l->ports, l->slots, l->list, l->list_length, l->frame, l->frame_length, first, second);
    case SLOT_VIEW:
        return frame_builder_slot_view(l->ports, l->slots, l->frame, l->frame_length, l->slot, first, second);
    case DEPTH_FLOW:
        return frame_builder_depth_flow(l->ports, l->slots, l->list, l->list_length, l->whose, first, second);
    case DEPTH_INPUT:
        return frame_builder_depth_input(l->ports, l->slots, l->list, l->list_length, l->whose, first, second);
    case DEPTH_OUTPUT:
        return frame_builder_depth_output(l->ports, l->slots, l->list, l->list_length, l->whose, first, second);
    case COUNT_FLOW:
        return frame_builder_count_flow(side, l->ports, l->slots, l->list, l->list_length, l->frame, l->frame_length, l->whose, l->slot,
                                        l->length, first, lead);
    case COUNT_INPUT:
        return frame_builder_count_input(side, l->ports, l->slots, l->list, l->list_length, l->frame, l->frame_length, l->whose, l->slot,
                                         l->length, first, lead);
    default:
        return frame_builder_count_output(side, l->ports, l->slots, l->list, l->list_length, l->frame, l->frame_length, l->whose, l->slot,
                                          l->length, first, lead);
    }
}

/* The call answers with these numbers and writes nothing else beside them. A count's second value is its lead; only Admit and Build have a
 * third. */
static int answers_three(enum call call, const struct lent *lent, size_t number, size_t first, int64_t second, size_t third)
{
    struct numbers n = {UNSET, UNSET, UNSET, UNSET, UNSET, UNSET_LEAD, UNSET, UNSET, UNSET};
    errno = ERRNO;
    size_t got = make_call(call, lent, &n);
    size_t expected = call < COUNT_FLOW ? (size_t)second : UNSET, last = call <= BUILD ? third : UNSET;
    int64_t lead = call < COUNT_FLOW ? UNSET_LEAD : second;
    return got == number && n.first == first && n.second == expected && n.lead == lead && n.third == last && n.before == UNSET
           && n.between == UNSET && n.beside == UNSET && n.after == UNSET && n.behind == UNSET && errno == ERRNO;
}

/* The same of an answer other than a link's load, which alone has a third value. */
static int answers(enum call call, const struct lent *lent, size_t number, size_t first, int64_t second)
{
    return answers_three(call, lent, number, first, second, 0);
}

/* An edit of what an accepted call is lent, and the answer then. */
struct expected {
    const char *what;
    enum call call;
    struct lent lent;
    size_t number, first;
    int64_t second; /* Service count: the lead */
};

#define PORTS 4
#define SLOTS 4

/* The flows of the sheet of Table 7, and loads, ports, links and lengths that are turned away, some of them for two reasons. */
static const uint16_t table7[] = {1, 1, 2, 1, 1, 2, 2, 1, 4, 1, 1, 1, 4, 2, 1, 1, 4, 4, 2, 1};
static const uint16_t input_full[] = {1, 1, 2, 1, 2, 1, 65535, 1, 2, 1, 65535, 2, 2, 4, 65535, 3, 2, 4, 65535, 4, 4, 4, 5, 1};
static const uint16_t output_full[] = {1, 1, 2, 1, 1, 2, 2, 1, 2, 2, 1, 2, 4, 2, 2, 3, 4, 4, 1, 1};
static const uint16_t outside[] = {1, 1, 2, 1, 1, 5, 0, 0};
static const uint16_t input_0[] = {1, 1, 2, 5, 0, 4, 0, 1};
static const uint16_t link_0[] = {1, 1, 9, 1, 2, 2, 1, 0};
static const uint16_t link_5[] = {1, 1, 2, 5, 2, 2, 9, 1};
static uint16_t built[SLOTS * PORTS] = {1, 0, 0, 5, 2, 0, 0, 3, 1, 0, 0, 4, 2, 0, 0, 5};
static uint16_t above[SLOTS * PORTS] = {1, 0, 0, 5, 2, 0, 0, 6, 1, 0, 0, 65535, 2, 0, 0, 5};
static uint16_t of_other[SLOTS * PORTS] = {1, 0, 0, 5, 2, 0, 0, 3, 1, 0, 5, 4, 2, 0, 0, 6};
static uint16_t twice[SLOTS * PORTS] = {1, 0, 0, 5, 2, 0, 0, 3, 1, 0, 0, 3, 2, 0, 0, 4};
static uint16_t miscounted[SLOTS * PORTS] = {1, 0, 0, 5, 2, 0, 0, 3, 1, 0, 0, 4, 2, 0, 0, 0};
static uint16_t bunched[SLOTS * PORTS] = {1, 0, 0, 5, 1, 0, 0, 4, 2, 0, 0, 3, 2, 0, 0, 5};
static uint16_t crowded[SLOTS * PORTS] = {1, 1, 1, 1, 1, 1, 1, 1, 0, 0, 0, 0, 0, 0, 0, 513};

/* One cell from each port to its own number. */
static const uint16_t own[] = {1, 1, 1, 1, 2, 2, 1, 1, 3, 3, 1, 1, 4, 4, 1, 1};
static uint16_t own_spread[SLOTS * PORTS] = {1, 0, 0, 0, 0, 0, 3, 0, 0, 2, 0, 0, 0, 0, 0, 4};
static uint16_t own_in_one[SLOTS * PORTS] = {1, 2, 3, 4, 0, 0, 0, 0, 0, 0, 0, 0, 0, 0, 0, 0};
static uint16_t own_in_two[SLOTS * PORTS] = {1, 0, 0, 0, 0, 0, 3, 0, 0, 2, 0, 4, 0, 0, 0, 0};

/* Sound and picture between the same two ports. */
static const uint16_t both[] = {1, 2, 2, 1, 1, 2, 2, 1};
static uint16_t both_spread[SLOTS * PORTS] = {1, 0, 0, 0, 2, 0, 0, 0, 1, 0, 0, 0, 2, 0, 0, 0};
static uint16_t both_apart[SLOTS * PORTS] = {1, 0, 0, 0, 1, 0, 0, 0, 2, 0, 0, 0, 2, 0, 0, 0};

/* One cell from each port to output 1: over one link, over two in turn, and over a link each, which rise otherwise than the flows. */
static const uint16_t on_one[] = {1, 1, 1, 1, 2, 1, 1, 1, 3, 1, 1, 1, 4, 1, 1, 1};
static const uint16_t on_two[] = {1, 1, 1, 1, 2, 1, 1, 2, 3, 1, 1, 1, 4, 1, 1, 2};
static const uint16_t on_four[] = {1, 1, 1, 3, 2, 1, 1, 2, 3, 1, 1, 1, 4, 1, 1, 4};
static uint16_t in_order[SLOTS * PORTS] = {1, 0, 0, 0, 0, 2, 0, 0, 0, 0, 3, 0, 0, 0, 0, 4};

/* Two cells from each of ports 1 and 2, to four outputs. */
static const uint16_t from_two[] = {1, 1, 1, 1, 1, 2, 1, 1, 2, 3, 1, 1, 2, 4, 1, 1};

/* Frames of the output side: those of Table 7, above, by their outputs, and others. */
static uint16_t out_built[SLOTS * PORTS] = {1, 0, 0, 5, 3, 2, 0, 0, 1, 4, 0, 0, 0, 2, 0, 5};
static uint16_t out_above[SLOTS * PORTS] = {1, 0, 0, 5, 3, 6, 0, 0, 1, 65535, 0, 0, 0, 2, 0, 5};
static uint16_t out_of_other[SLOTS * PORTS] = {1, 0, 0, 5, 3, 2, 0, 0, 1, 4, 5, 0, 6, 2, 0, 5};
static uint16_t out_twice[SLOTS * PORTS] = {1, 0, 0, 5, 3, 2, 0, 0, 3, 4, 0, 0, 0, 2, 0, 5};
static uint16_t out_miscounted[SLOTS * PORTS] = {1, 0, 0, 5, 3, 2, 0, 0, 1, 4, 0, 0, 0, 2, 0, 0};
static uint16_t out_bunched[SLOTS * PORTS] = {1, 0, 0, 5, 1, 4, 0, 0, 3, 2, 0, 0, 0, 2, 0, 5};
static uint16_t out_both_spread[SLOTS * PORTS] = {0, 1, 0, 0, 0, 2, 0, 0, 0, 1, 0, 0, 0, 2, 0, 0};
static uint16_t out_both_apart[SLOTS * PORTS] = {0, 1, 0, 0, 0, 1, 0, 0, 0, 2, 0, 0, 0, 2, 0, 0};
static uint16_t out_in_order[SLOTS * PORTS] = {1, 0, 0, 0, 2, 0, 0, 0, 3, 0, 0, 0, 4, 0, 0, 0};
static uint16_t out_in_turn[SLOTS * PORTS] = {1, 0, 0, 0, 3, 0, 0, 0, 2, 0, 0, 0, 4, 0, 0, 0};

/* Limits: none that a load can be above, and none that lets a cell pass. */
#define FOUR(limit) limit, limit, limit, limit
#define SIXTEEN(limit) FOUR(limit), FOUR(limit), FOUR(limit), FOUR(limit)
static const uint16_t unlimited[LIMITS] = {SIXTEEN(65535), SIXTEEN(65535), SIXTEEN(65535), SIXTEEN(65535)};
static const uint16_t closed[LIMITS] = {0};

/* 513 flows without cells at ports 1 and links 1, but for the last, which is at input 0 and link 0; the same with a number behind them. */
static uint16_t too_many[(MOST_FLOWS + 1) * OF_FLOW];
static uint16_t too_many_and_one[(MOST_FLOWS + 1) * OF_FLOW + 1];
static uint16_t idle[SLOTS * PORTS];

#define LIMITED(list, limits) list, COUNT_OF(list), limits
#define LIST(list) LIMITED(list, unlimited)
#define FRAME(frame) frame, SLOTS *PORTS
#define NO_LIST NULL, 0, unlimited
#define NO_FRAME NULL, 0

static const struct expected expectations[] = {
    {"admit: accepted", ADMIT, {4, 4, LIST(table7), NO_FRAME, 0, 0, 0}, 0, 0, 0},
    {"admit: ports 0", ADMIT, {0, 4, LIST(table7), NO_FRAME, 0, 0, 0}, 1, 0, 0},
    {"admit: ports 17", ADMIT, {17, 4, LIST(table7), NO_FRAME, 0, 0, 0}, 1, 0, 0},
    {"admit: slots 3", ADMIT, {4, 3, LIST(table7), NO_FRAME, 0, 0, 0}, 2, 0, 0},
    {"admit: a number too few", ADMIT, {4, 4, table7, 19, unlimited, NO_FRAME, 0, 0, 0}, 3, 0, 0},
    {"admit: two numbers too few", ADMIT, {4, 4, table7, 18, unlimited, NO_FRAME, 0, 0, 0}, 3, 0, 0},
    {"admit: a number too many", ADMIT, {4, 4, table7, 17, unlimited, NO_FRAME, 0, 0, 0}, 3, 0, 0},
    {"admit: 513 flows", ADMIT, {4, 4, LIST(too_many), NO_FRAME, 0, 0, 0}, 21, 0, 0},
    {"admit: 512 flows and three numbers", ADMIT, {4, 4, too_many, COUNT_OF(too_many) - 1, unlimited, NO_FRAME, 0, 0, 0}, 3, 0, 0},
    {"admit: 512 flows", ADMIT, {4, 4, too_many, MOST_FLOWS *OF_FLOW, unlimited, NO_FRAME, 0, 0, 0}, 0, 0, 0},
    {"admit: output 5", ADMIT, {4, 4, LIST(outside), NO_FRAME, 0, 0, 0}, 22, 0, 0},
    {"admit: input 0", ADMIT, {4, 4, LIST(input_0), NO_FRAME, 0, 0, 0}, 22, 0, 0},
    {"admit: port 4 of 3", ADMIT, {3, 4, LIST(table7), NO_FRAME, 0, 0, 0}, 22, 0, 0},
    {"admit: link 0, and a load", ADMIT, {4, 4, LIST(link_0), NO_FRAME, 0, 0, 0}, 23, 0, 0},
    {"admit: link 5, and a load", ADMIT, {4, 4, LIST(link_5), NO_FRAME, 0, 0, 0}, 23, 0, 0},
    {"admit: input load", ADMIT, {4, 4, LIST(input_full), NO_FRAME, 0, 0, 0}, 5, 2, 262140},
    {"admit: output load", ADMIT, {4, 4, LIST(output_full), NO_FRAME, 0, 0, 0}, 6, 2, 5},
    {"admit: input load, and a link's", ADMIT, {4, 4, LIMITED(input_full, closed), NO_FRAME, 0, 0, 0}, 5, 2, 262140},
    {"admit: output load, and a link's", ADMIT, {4, 4, LIMITED(output_full, closed), NO_FRAME, 0, 0, 0}, 6, 2, 5},
    {"admit: no flows", ADMIT, {4, 4, NO_LIST, NO_FRAME, 0, 0, 0}, 0, 0, 0},
    {"admit: no flows, limits 0", ADMIT, {4, 4, NULL, 0, closed, NO_FRAME, 0, 0, 0}, 0, 0, 0},
    {"admit: no flows, ports 0", ADMIT, {0, 4, NO_LIST, NO_FRAME, 0, 0, 0}, 1, 0, 0},
    {"admit: no flows, slots 0", ADMIT, {4, 0, NO_LIST, NO_FRAME, 0, 0, 0}, 2, 0, 0},

    {"build: accepted", BUILD, {4, 4, LIST(table7), FRAME(built), 0, 0, 0}, 0, 10, 0},
    {"build: ports", BUILD, {0, 4, LIST(table7), FRAME(built), 0, 0, 0}, 1, 0, 0},
    {"build: slots", BUILD, {4, 2048, LIST(table7), FRAME(built), 0, 0, 0}, 2, 0, 0},
    {"build: list length", BUILD, {4, 4, table7, 19, unlimited, FRAME(built), 0, 0, 0}, 3, 0, 0},
    {"build: 513 flows", BUILD, {4, 4, LIST(too_many), FRAME(built), 0, 0, 0}, 21, 0, 0},
    {"build: a flow's port", BUILD, {4, 4, LIST(outside), FRAME(built), 0, 0, 0}, 22, 0, 0},
    {"build: a flow's link, and the frame length", BUILD, {4, 4, LIST(link_5), built, 15, 0, 0, 0}, 23, 0, 0},
    {"build: frame length", BUILD, {4, 4, LIST(table7), built, 15, 0, 0, 0}, 4, 0, 0},
    {"build: frame length, and a link's load", BUILD, {4, 4, LIMITED(table7, closed), built, 15, 0, 0, 0}, 4, 0, 0},
    {"build: input load", BUILD, {4, 4, LIST(input_full), FRAME(built), 0, 0, 0}, 5, 2, 262140},
    {"build: output load", BUILD, {4, 4, LIST(output_full), FRAME(built), 0, 0, 0}, 6, 2, 5},
    {"build: input load, and a link's", BUILD, {4, 4, LIMITED(input_full, closed), FRAME(built), 0, 0, 0}, 5, 2, 262140},
    {"build: output load, and a link's", BUILD, {4, 4, LIMITED(output_full, closed), FRAME(built), 0, 0, 0}, 6, 2, 5},
    {"build: one link", BUILD, {4, 4, LIST(on_one), FRAME(own_spread), 0, 0, 0}, 0, 8, 0},
    {"build: two links", BUILD, {4, 4, LIST(on_two), FRAME(in_order), 0, 0, 0}, 0, 8, 0},
    {"build: four links", BUILD, {4, 4, LIST(on_four), FRAME(in_order), 0, 0, 0}, 0, 8, 0},
    {"build: no flows", BUILD, {4, 4, NO_LIST, FRAME(idle), 0, 0, 0}, 0, 0, 0},
    {"build: no flows, frame length", BUILD, {4, 4, NO_LIST, idle, 15, 0, 0, 0}, 4, 0, 0},
    {"build: no frame", BUILD, {4, 4, LIST(table7), NO_FRAME, 0, 0, 0}, 4, 0, 0},
    {"build: nothing", BUILD, {4, 4, NO_LIST, NO_FRAME, 0, 0, 0}, 4, 0, 0},
    {"build: nothing, ports 0", BUILD, {0, 4, NO_LIST, NO_FRAME, 0, 0, 0}, 1, 0, 0},
    {"build: nothing, slots 0", BUILD, {4, 0, NO_LIST, NO_FRAME, 0, 0, 0}, 2, 0, 0},

    {"inspect: clean", INSPECT, {4, 4, LIST(table7), FRAME(built), 0, 0, 0}, 0, 0, 0},
    {"inspect: ports", INSPECT, {17, 4, LIST(table7), FRAME(built), 0, 0, 0}, 1, 0, 0},
    {"inspect: slots", INSPECT, {4, 5, LIST(table7), FRAME(built), 0, 0, 0}, 2, 0, 0},
    {"inspect: list length", INSPECT, {4, 4, table7, 19, unlimited, FRAME(built), 0, 0, 0}, 3, 0, 0},
    {"inspect: 513 flows", INSPECT, {4, 4, LIST(too_many), FRAME(built), 0, 0, 0}, 21, 0, 0},
    {"inspect: a flow's port", INSPECT, {4, 4, LIST(input_0), FRAME(built), 0, 0, 0}, 22, 0, 0},
    {"inspect: a flow's link, and the frame length", INSPECT, {4, 4, LIST(link_0), built, 15, 0, 0, 0}, 23, 0, 0},
    {"inspect: frame length", INSPECT, {4, 2, LIST(table7), FRAME(built), 0, 0, 0}, 4, 0, 0},
    {"inspect: entry above the flows", INSPECT, {4, 4, LIST(table7), FRAME(above), 0, 0, 0}, 101, 2, 4},
    {"inspect: entry of another input's flow", INSPECT, {4, 4, LIST(table7), FRAME(of_other), 0, 0, 0}, 101, 3, 3},
    {"inspect: output twice", INSPECT, {4, 4, LIST(table7), FRAME(twice), 0, 0, 0}, 102, 3, 1},
    {"inspect: a frame of the output side", INSPECT, {4, 4, LIST(table7), FRAME(out_built), 0, 0, 0}, 101, 2, 1},
    {"inspect: flow count", INSPECT, {4, 4, LIST(table7), FRAME(miscounted), 0, 0, 0}, 103, 5, 0},
    {"inspect: unbalanced block", INSPECT, {4, 4, LIST(table7), FRAME(bunched), 0, 0, 0}, 104, 1, 4},
    {"inspect: clean, own numbers", INSPECT, {4, 4, LIST(own), FRAME(own_spread), 0, 0, 0}, 0, 0, 0},
    {"inspect: block unbalanced in all cells", INSPECT, {4, 4, LIST(own), FRAME(own_in_one), 0, 0, 0}, 104, 1, 4},
    {"inspect: block of two unbalanced in all cells", INSPECT, {4, 4, LIST(own), FRAME(own_in_two), 0, 0, 0}, 104, 3, 2},
    {"inspect: clean, two flows of a pair", INSPECT, {4, 4, LIST(both), FRAME(both_spread), 0, 0, 0}, 0, 0, 0},
    {"inspect: block unbalanced in two flows of a pair", INSPECT, {4, 4, LIST(both), FRAME(both_apart), 0, 0, 0}, 104, 1, 4},
    {"inspect: clean, two links", INSPECT, {4, 4, LIST(on_two), FRAME(in_order), 0, 0, 0}, 0, 0, 0},
    {"inspect: block unbalanced in a link", INSPECT, {4, 4, LIST(on_two), FRAME(own_spread), 0, 0, 0}, 104, 1, 4},
    {"inspect: the same frame on one link", INSPECT, {4, 4, LIST(on_one), FRAME(own_spread), 0, 0, 0}, 0, 0, 0},
    {"inspect: no flows, clean", INSPECT, {4, 4, NO_LIST, FRAME(idle), 0, 0, 0}, 0, 0, 0},
    {"inspect: no flows, wrong entry", INSPECT, {4, 4, NO_LIST, FRAME(built), 0, 0, 0}, 101, 1, 1},
    {"inspect: no frame", INSPECT, {4, 4, LIST(table7), NO_FRAME, 0, 0, 0}, 4, 0, 0},
    {"inspect: nothing", INSPECT, {4, 4, NO_LIST, NO_FRAME, 0, 0, 0}, 4, 0, 0},
    {"inspect: nothing, ports 0", INSPECT, {0, 4, NO_LIST, NO_FRAME, 0, 0, 0}, 1, 0, 0},
    {"inspect: nothing, slots 0", INSPECT, {4, 0, NO_LIST, NO_FRAME, 0, 0, 0}, 2, 0, 0},

    {"slot view: accepted", SLOT_VIEW, {4, 4, NO_LIST, FRAME(built), 3, 0, 0}, 0, 8, 4},
    {"slot view: ports", SLOT_VIEW, {0, 4, NO_LIST, FRAME(built), 3, 0, 0}, 1, 0, 0},
    {"slot view: slots", SLOT_VIEW, {4, 6, NO_LIST, FRAME(built), 3, 0, 0}, 2, 0, 0},
    {"slot view: frame length", SLOT_VIEW, {4, 8, NO_LIST, FRAME(built), 3, 0, 0}, 4, 0, 0},
    {"slot view: slot 0", SLOT_VIEW, {4, 4, NO_LIST, FRAME(built), 0, 0, 0}, 11, 0, 0},
    {"slot view: slot 5", SLOT_VIEW, {4, 4, NO_LIST, FRAME(built), 5, 0, 0}, 11, 0, 0},
    {"slot view: no frame", SLOT_VIEW, {4, 4, NO_LIST, NO_FRAME, 3, 0, 0}, 4, 0, 0},
    {"slot view: no frame, ports 0", SLOT_VIEW, {0, 4, NO_LIST, NO_FRAME, 3, 0, 0}, 1, 0, 0},
    {"slot view: no frame, slots 0", SLOT_VIEW, {4, 0, NO_LIST, NO_FRAME, 3, 0, 0}, 2, 0, 0},

    {"count flow: a cell ahead", COUNT_FLOW, {4, 4, LIST(table7), FRAME(built), 4, 2, 5}, 0, 2, 4},
    {"count flow: a cell behind", COUNT_FLOW, {4, 4, LIST(table7), FRAME(built), 2, 2, 5}, 0, 0, -4},
    {"count flow: no slots", COUNT_FLOW, {4, 4, LIST(table7), FRAME(built), 2, 0, 5}, 0, 0, 0},
    {"count flow: a whole turn", COUNT_FLOW, {4, 4, LIST(table7), FRAME(built), 2, 4, 5}, 0, 2, 0},
    {"count flow: many turns and three slots", COUNT_FLOW, {4, 4, LIST(table7), FRAME(built), 2, 999999, 5}, 0, 499999, -2},
    {"count flow: at any input", COUNT_FLOW, {4, 4, LIST(table7), FRAME(crowded), 1, 2, 1}, 0, 8, 16},
    {"count flow: without entries", COUNT_FLOW, {4, 4, LIST(table7), FRAME(crowded), 1, 2, 2}, 0, 0, 0},
    {"count flow: ports", COUNT_FLOW, {0, 4, LIST(table7), FRAME(built), 4, 2, 5}, 1, 0, 0},
    {"count flow: slots", COUNT_FLOW, {4, 0, LIST(table7), FRAME(built), 4, 2, 5}, 2, 0, 0},
    {"count flow: list length", COUNT_FLOW, {4, 4, table7, 18, unlimited, FRAME(built), 4, 2, 5}, 3, 0, 0},
    {"count flow: 513 flows", COUNT_FLOW, {4, 4, LIST(too_many), FRAME(built), 4, 2, 5}, 21, 0, 0},
    {"count flow: a flow's port", COUNT_FLOW, {4, 4, LIST(outside), FRAME(built), 4, 2, 1}, 22, 0, 0},
    {"count flow: a flow's link, and the frame length", COUNT_FLOW, {4, 4, LIST(link_0), built, 15, 4, 2, 5}, 23, 0, 0},
    {"count flow: frame length", COUNT_FLOW, {4, 4, LIST(table7), built, 15, 4, 2, 5}, 4, 0, 0},
    {"count flow: start 0", COUNT_FLOW, {4, 4, LIST(table7), FRAME(built), 0, 2, 5}, 11, 0, 0},
    {"count flow: flow 0", COUNT_FLOW, {4, 4, LIST(table7), FRAME(built), 4, 2, 0}, 12, 0, 0},
    {"count flow: flow 6", COUNT_FLOW, {4, 4, LIST(table7), FRAME(built), 4, 2, 6}, 12, 0, 0},
    {"count flow: flow 65537", COUNT_FLOW, {4, 4, LIST(table7), FRAME(built), 4, 2, 65537}, 12, 0, 0},
    {"count flow: no flows", COUNT_FLOW, {4, 4, NO_LIST, FRAME(built), 4, 2, 1}, 12, 0, 0},
    {"count flow: run length", COUNT_FLOW, {4, 4, LIST(table7), FRAME(built), 4, 1000001, 5}, 13, 0, 0},
    {"count flow: no frame", COUNT_FLOW, {4, 4, LIST(table7), NO_FRAME, 4, 2, 5}, 4, 0, 0},
    {"count flow: no frame, ports 0", COUNT_FLOW, {0, 4, LIST(table7), NO_FRAME, 4, 2, 5}, 1, 0, 0},
    {"count flow: no frame, slots 0", COUNT_FLOW, {4, 0, LIST(table7), NO_FRAME, 4, 2, 5}, 2, 0, 0},

    {"count input: the longest run", COUNT_INPUT, {4, 4, LIST(table7), FRAME(built), 1, 1000000, 4}, 0, 1000000, 0},
    {"count input: ahead", COUNT_INPUT, {4, 4, LIST(table7), FRAME(miscounted), 1, 3, 4}, 0, 3, 3},
    {"count input: behind", COUNT_INPUT, {4, 4, LIST(table7), FRAME(miscounted), 4, 1, 4}, 0, 0, -3},
    {"count input: entry that is no flow", COUNT_INPUT, {4, 4, LIST(table7), FRAME(crowded), 4, 1, 4}, 0, 1, 1},
    {"count input: any entries, behind", COUNT_INPUT, {4, 4, LIST(table7), FRAME(crowded), 3, 1, 4}, 0, 0, -3},
    {"count input: no flows", COUNT_INPUT, {4, 4, NO_LIST, FRAME(built), 1, 4, 4}, 0, 4, 0},
    {"count input: ports", COUNT_INPUT, {17, 4, LIST(table7), FRAME(built), 1, 2, 4}, 1, 0, 0},
    {"count input: slots", COUNT_INPUT, {4, 7, LIST(table7), FRAME(built), 1, 2, 4}, 2, 0, 0},
    {"count input: list length", COUNT_INPUT, {4, 4, table7, 1, unlimited, FRAME(built), 1, 2, 4}, 3, 0, 0},
    {"count input: 513 flows", COUNT_INPUT, {4, 4, LIST(too_many), FRAME(built), 1, 2, 4}, 21, 0, 0},
    {"count input: a flow's port", COUNT_INPUT, {4, 4, LIST(input_0), FRAME(built), 1, 2, 4}, 22, 0, 0},
    {"count input: a flow's link, and the frame length", COUNT_INPUT, {4, 4, LIST(link_5), built, 15, 1, 2, 4}, 23, 0, 0},
    {"count input: frame length", COUNT_INPUT, {4, 4, LIST(table7), built, 12, 1, 2, 4}, 4, 0, 0},
    {"count input: start 5", COUNT_INPUT, {4, 4, LIST(table7), FRAME(built), 5, 2, 4}, 11, 0, 0},
    {"count input: input 0", COUNT_INPUT, {4, 4, LIST(table7), FRAME(built), 1, 2, 0}, 12, 0, 0},
    {"count input: run length", COUNT_INPUT, {4, 4, LIST(table7), FRAME(built), 1, SIZE_MAX, 4}, 13, 0, 0},
    {"count input: no frame", COUNT_INPUT, {4, 4, LIST(table7), NO_FRAME, 1, 2, 4}, 4, 0, 0},
    {"count input: no frame, ports 0", COUNT_INPUT, {0, 4, LIST(table7), NO_FRAME, 1, 2, 4}, 1, 0, 0},
    {"count input: no frame, slots 0", COUNT_INPUT, {4, 0, LIST(table7), NO_FRAME, 1, 2, 4}, 2, 0, 0},

    {"count output: behind", COUNT_OUTPUT, {4, 4, LIST(table7), FRAME(built), 3, 3, 1}, 0, 2, -1},
    {"count output: ahead", COUNT_OUTPUT, {4, 4, LIST(table7), FRAME(built), 1, 3, 1}, 0, 3, 3},
    {"count output: never used", COUNT_OUTPUT, {4, 4, LIST(table7), FRAME(built), 3, 3, 3}, 0, 0, 0},
    {"count output: any entries, ahead", COUNT_OUTPUT, {4, 4, LIST(table7), FRAME(crowded), 1, 2, 1}, 0, 8, 16},
    {"count output: any entries, behind", COUNT_OUTPUT, {4, 4, LIST(table7), FRAME(crowded), 3, 2, 1}, 0, 0, -16},
    {"count output: entry that is no flow", COUNT_OUTPUT, {4, 4, LIST(table7), FRAME(crowded), 1, 4, 4}, 0, 0, 0},
    {"count output: no flows", COUNT_OUTPUT, {4, 4, NO_LIST, FRAME(built), 1, 4, 1}, 0, 0, 0},
    {"count output: ports", COUNT_OUTPUT, {0, 4, LIST(table7), FRAME(built), 3, 3, 1}, 1, 0, 0},
    {"count output: slots", COUNT_OUTPUT, {4, 9, LIST(table7), FRAME(built), 3, 3, 1}, 2, 0, 0},
    {"count output: list length", COUNT_OUTPUT, {4, 4, table7, 19, unlimited, FRAME(built), 3, 3, 1}, 3, 0, 0},
    {"count output: 513 flows", COUNT_OUTPUT, {4, 4, LIST(too_many), FRAME(built), 3, 3, 1}, 21, 0, 0},
    {"count output: a flow's port", COUNT_OUTPUT, {4, 4, LIST(outside), FRAME(built), 3, 3, 1}, 22, 0, 0},
    {"count output: a flow's link, and the frame length", COUNT_OUTPUT, {4, 4, LIST(link_0), built, 15, 3, 3, 1}, 23, 0, 0},
    {"count output: frame length", COUNT_OUTPUT, {2, 4, NO_LIST, FRAME(built), 3, 3, 1}, 4, 0, 0},
    {"count output: start 0", COUNT_OUTPUT, {4, 4, LIST(table7), FRAME(built), 0, 3, 1}, 11, 0, 0},
    {"count output: output 5", COUNT_OUTPUT, {4, 4, LIST(table7), FRAME(built), 3, 3, 5}, 12, 0, 0},
    {"count output: run length", COUNT_OUTPUT, {4, 4, LIST(table7), FRAME(built), 3, 1000001, 1}, 13, 0, 0},
    {"count output: no frame", COUNT_OUTPUT, {4, 4, LIST(table7), NO_FRAME, 3, 3, 1}, 4, 0, 0},
    {"count output: no frame, ports 0", COUNT_OUTPUT, {0, 4, LIST(table7), NO_FRAME, 3, 3, 1}, 1, 0, 0},
    {"count output: no frame, slots 0", COUNT_OUTPUT, {4, 0, LIST(table7), NO_FRAME, 3, 3, 1}, 2, 0, 0},

    {"depth flow: two cells", DEPTH_FLOW, {4, 4, LIST(table7), NO_FRAME, 0, 0, 1}, 0, 4, 2},
    {"depth flow: one cell", DEPTH_FLOW, {4, 4, LIST(table7), NO_FRAME, 0, 0, 3}, 0, 6, 2},
    {"depth flow: no limits are asked for", DEPTH_FLOW, {4, 4, LIMITED(table7, closed), NO_FRAME, 0, 0, 1}, 0, 4, 2},
    {"depth flow: without cells", DEPTH_FLOW, {4, 4, too_many, MOST_FLOWS *OF_FLOW, unlimited, NO_FRAME, 0, 0, 512}, 0, 0, 0},
    {"depth flow: flow 0", DEPTH_FLOW, {4, 4, LIST(table7), NO_FRAME, 0, 0, 0}, 12, 0, 0},
    {"depth flow: no flows", DEPTH_FLOW, {4, 4, NO_LIST, NO_FRAME, 0, 0, 1}, 12, 0, 0},
    {"depth flow: ports", DEPTH_FLOW, {0, 4, LIST(table7), NO_FRAME, 0, 0, 5}, 1, 0, 0},
    {"depth flow: slots", DEPTH_FLOW, {4, 3, LIST(table7), NO_FRAME, 0, 0, 5}, 2, 0, 0},
    {"depth flow: list length", DEPTH_FLOW, {4, 4, table7, 19, unlimited, NO_FRAME, 0, 0, 5}, 3, 0, 0},
    {"depth flow: 513 flows", DEPTH_FLOW, {4, 4, LIST(too_many), NO_FRAME, 0, 0, 5}, 21, 0, 0},
    {"depth flow: a flow's port", DEPTH_FLOW, {4, 4, LIST(outside), NO_FRAME, 0, 0, 5}, 22, 0, 0},
    {"depth flow: a flow's link, and a load", DEPTH_FLOW, {4, 4, LIST(link_5), NO_FRAME, 0, 0, 5}, 23, 0, 0},
    {"depth flow: input load", DEPTH_FLOW, {4, 4, LIST(input_full), NO_FRAME, 0, 0, 5}, 5, 2, 262140},
    {"depth flow: output load, and flow 6", DEPTH_FLOW, {4, 4, LIST(output_full), NO_FRAME, 0, 0, 6}, 6, 2, 5},
    {"depth flow: flow 6", DEPTH_FLOW, {4, 4, LIST(table7), NO_FRAME, 0, 0, 6}, 12, 0, 0},
    {"depth flow: no flows, ports 0", DEPTH_FLOW, {0, 4, NO_LIST, NO_FRAME, 0, 0, 5}, 1, 0, 0},
    {"depth flow: no flows, slots 0", DEPTH_FLOW, {4, 0, NO_LIST, NO_FRAME, 0, 0, 5}, 2, 0, 0},

    {"depth input: a cell in every slot", DEPTH_INPUT, {4, 4, LIST(table7), NO_FRAME, 0, 0, 4}, 0, 0, 1},
    {"depth input: without flows", DEPTH_INPUT, {4, 4, NO_LIST, NO_FRAME, 0, 0, 4}, 0, 0, 0},
    {"depth input: input 0", DEPTH_INPUT, {4, 4, LIST(table7), NO_FRAME, 0, 0, 0}, 12, 0, 0},
    {"depth input: ports", DEPTH_INPUT, {0, 4, LIST(table7), NO_FRAME, 0, 0, 4}, 1, 0, 0},
    {"depth input: slots", DEPTH_INPUT, {4, 3, LIST(table7), NO_FRAME, 0, 0, 4}, 2, 0, 0},
    {"depth input: list length", DEPTH_INPUT, {4, 4, table7, 19, unlimited, NO_FRAME, 0, 0, 4}, 3, 0, 0},
    {"depth input: 513 flows", DEPTH_INPUT, {4, 4, LIST(too_many), NO_FRAME, 0, 0, 4}, 21, 0, 0},
    {"depth input: a flow's port", DEPTH_INPUT, {4, 4, LIST(outside), NO_FRAME, 0, 0, 4}, 22, 0, 0},
    {"depth input: a flow's link, and a load", DEPTH_INPUT, {4, 4, LIST(link_5), NO_FRAME, 0, 0, 4}, 23, 0, 0},
    {"depth input: input load", DEPTH_INPUT, {4, 4, LIST(input_full), NO_FRAME, 0, 0, 4}, 5, 2, 262140},
    {"depth input: output load, and input 5", DEPTH_INPUT, {4, 4, LIST(output_full), NO_FRAME, 0, 0, 5}, 6, 2, 5},
    {"depth input: input 5", DEPTH_INPUT, {4, 4, LIST(table7), NO_FRAME, 0, 0, 5}, 12, 0, 0},
    {"depth input: no flows, ports 0", DEPTH_INPUT, {0, 4, NO_LIST, NO_FRAME, 0, 0, 4}, 1, 0, 0},
    {"depth input: no flows, slots 0", DEPTH_INPUT, {4, 0, NO_LIST, NO_FRAME, 0, 0, 4}, 2, 0, 0},

    {"depth output: three cells", DEPTH_OUTPUT, {4, 4, LIST(table7), NO_FRAME, 0, 0, 1}, 0, 6, 3},
    {"depth output: without flows", DEPTH_OUTPUT, {4, 4, LIST(table7), NO_FRAME, 0, 0, 3}, 0, 0, 0},
    {"depth output: output 0", DEPTH_OUTPUT, {4, 4, LIST(table7), NO_FRAME, 0, 0, 0}, 12, 0, 0},
    {"depth output: ports", DEPTH_OUTPUT, {0, 4, LIST(table7), NO_FRAME, 0, 0, 4}, 1, 0, 0},
    {"depth output: slots", DEPTH_OUTPUT, {4, 3, LIST(table7), NO_FRAME, 0, 0, 4}, 2, 0, 0},
    {"depth output: list length", DEPTH_OUTPUT, {4, 4, table7, 19, unlimited, NO_FRAME, 0, 0, 4}, 3, 0, 0},
    {"depth output: 513 flows", DEPTH_OUTPUT, {4, 4, LIST(too_many), NO_FRAME, 0, 0, 4}, 21, 0, 0},
    {"depth output: a flow's port", DEPTH_OUTPUT, {4, 4, LIST(outside), NO_FRAME, 0, 0, 4}, 22, 0, 0},
    {"depth output: a flow's link, and a load", DEPTH_OUTPUT, {4, 4, LIST(link_5), NO_FRAME, 0, 0, 4}, 23, 0, 0},
    {"depth output: input load", DEPTH_OUTPUT, {4, 4, LIST(input_full), NO_FRAME, 0, 0, 4}, 5, 2, 262140},
    {"depth output: output load, and an output far outside", DEPTH_OUTPUT, {4, 4, LIST(output_full), NO_FRAME, 0, 0, SIZE_MAX}, 6, 2, 5},
    {"depth output: an output far outside", DEPTH_OUTPUT, {4, 4, LIST(table7), NO_FRAME, 0, 0, SIZE_MAX}, 12, 0, 0},
    {"depth output: no flows, ports 0", DEPTH_OUTPUT, {0, 4, NO_LIST, NO_FRAME, 0, 0, 4}, 1, 0, 0},
    {"depth output: no flows, slots 0", DEPTH_OUTPUT, {4, 0, NO_LIST, NO_FRAME, 0, 0, 4}, 2, 0, 0},
};

/* The same of frames on the output side, but for refusals, which are the same on either side. */
static const struct expected by_output[] = {
    {"inspect by output: clean", INSPECT, {4, 4, LIST(table7), FRAME(out_built), 0, 0, 0}, 0, 0, 0},
    {"inspect by output: entry above the flows", INSPECT, {4, 4, LIST(table7), FRAME(out_above), 0, 0, 0}, 101, 2, 2},
    {"inspect by output: entry of another output's flow", INSPECT, {4, 4, LIST(table7), FRAME(out_of_other), 0, 0, 0}, 101, 3, 3},
    {"inspect by output: a frame of the input side", INSPECT, {4, 4, LIST(table7), FRAME(built), 0, 0, 0}, 101, 2, 1},
    {"inspect by output: input twice", INSPECT, {4, 4, LIST(table7), FRAME(out_twice), 0, 0, 0}, 102, 3, 4},
    {"inspect by output: two inputs twice", INSPECT, {4, 4, LIST(from_two), FRAME(own_in_one), 0, 0, 0}, 102, 1, 1},
    {"inspect by output: flow count", INSPECT, {4, 4, LIST(table7), FRAME(out_miscounted), 0, 0, 0}, 103, 5, 0},
    {"inspect by output: unbalanced block", INSPECT, {4, 4, LIST(table7), FRAME(out_bunched), 0, 0, 0}, 104, 1, 4},
    {"inspect by output: clean, own numbers", INSPECT, {4, 4, LIST(own), FRAME(own_spread), 0, 0, 0}, 0, 0, 0},
    {"inspect by output: block unbalanced in all cells", INSPECT, {4, 4, LIST(own), FRAME(own_in_one), 0, 0, 0}, 104, 1, 4},
    {"inspect by output: block of two unbalanced in all cells", INSPECT, {4, 4, LIST(own), FRAME(own_in_two), 0, 0, 0}, 104, 3, 2},
    {"inspect by output: clean, two flows of a pair", INSPECT, {4, 4, LIST(both), FRAME(out_both_spread), 0, 0, 0}, 0, 0, 0},
    {"inspect by output: block unbalanced in two flows", INSPECT, {4, 4, LIST(both), FRAME(out_both_apart), 0, 0, 0}, 104, 1, 4},
    {"inspect by output: clean, two links", INSPECT, {4, 4, LIST(on_two), FRAME(out_in_order), 0, 0, 0}, 0, 0, 0},
    {"inspect by output: block unbalanced in a link", INSPECT, {4, 4, LIST(on_two), FRAME(out_in_turn), 0, 0, 0}, 104, 1, 4},
    {"inspect by output: the same frame on one link", INSPECT, {4, 4, LIST(on_one), FRAME(out_in_turn), 0, 0, 0}, 0, 0, 0},
    {"inspect by output: clean, two inputs", INSPECT, {4, 4, LIST(from_two), FRAME(own_spread), 0, 0, 0}, 0, 0, 0},
    {"inspect by output: block unbalanced in an input", INSPECT, {4, 4, LIST(from_two), FRAME(in_order), 0, 0, 0}, 104, 1, 4},
    {"inspect by output: no flows, clean", INSPECT, {4, 4, NO_LIST, FRAME(idle), 0, 0, 0}, 0, 0, 0},
    {"inspect by output: no flows, wrong entry", INSPECT, {4, 4, NO_LIST, FRAME(out_built), 0, 0, 0}, 101, 1, 1},

    {"count flow by output: a cell ahead", COUNT_FLOW, {4, 4, LIST(table7), FRAME(out_built), 4, 2, 5}, 0, 2, 4},
    {"count flow by output: a cell behind", COUNT_FLOW, {4, 4, LIST(table7), FRAME(out_built), 2, 2, 5}, 0, 0, -4},
    {"count flow by output: many turns", COUNT_FLOW, {4, 4, LIST(table7), FRAME(out_built), 2, 999999, 5}, 0, 499999, -2},
    {"count flow by output: at any output", COUNT_FLOW, {4, 4, LIST(table7), FRAME(crowded), 1, 2, 1}, 0, 8, 16},
    {"count flow by output: without entries", COUNT_FLOW, {4, 4, LIST(table7), FRAME(crowded), 1, 2, 2}, 0, 0, 0},

    {"count input by output: the longest run", COUNT_INPUT, {4, 4, LIST(table7), FRAME(out_built), 1, 1000000, 4}, 0, 1000000, 0},
    {"count input by output: ahead", COUNT_INPUT, {4, 4, LIST(table7), FRAME(out_miscounted), 1, 3, 4}, 0, 3, 3},
    {"count input by output: never used", COUNT_INPUT, {4, 4, LIST(table7), FRAME(out_built), 3, 3, 3}, 0, 0, 0},
    {"count input by output: any entries, ahead", COUNT_INPUT, {4, 4, LIST(table7), FRAME(crowded), 1, 2, 1}, 0, 8, 16},
    {"count input by output: any entries, behind", COUNT_INPUT, {4, 4, LIST(table7), FRAME(crowded), 3, 2, 1}, 0, 0, -16},
    {"count input by output: entry that is no flow", COUNT_INPUT, {4, 4, LIST(table7), FRAME(crowded), 1, 4, 4}, 0, 0, 0},
    {"count input by output: no flows", COUNT_INPUT, {4, 4, NO_LIST, FRAME(out_built), 1, 4, 4}, 0, 0, 0},

    {"count output by output: behind", COUNT_OUTPUT, {4, 4, LIST(table7), FRAME(out_built), 3, 3, 1}, 0, 2, -1},
    {"count output by output: ahead", COUNT_OUTPUT, {4, 4, LIST(table7), FRAME(out_built), 1, 3, 1}, 0, 3, 3},
    {"count output by output: never used", COUNT_OUTPUT, {4, 4, LIST(table7), FRAME(out_built), 3, 3, 3}, 0, 0, 0},
    {"count output by output: entry that is no flow", COUNT_OUTPUT, {4, 4, LIST(table7), FRAME(crowded), 4, 1, 4}, 0, 1, 1},
    {"count output by output: any entries, behind", COUNT_OUTPUT, {4, 4, LIST(table7), FRAME(crowded), 3, 1, 4}, 0, 0, -3},
    {"count output by output: no flows", COUNT_OUTPUT, {4, 4, NO_LIST, FRAME(out_built), 1, 4, 4}, 0, 2, 0},
};

/* What Turn is lent, its answer, and what an accepted call leaves in the second buffer. The limits and the run are not looked at. */
struct turned {
    const char *what;
    struct lent lent;
    size_t second_length, number;
    const uint16_t *second;
};

/* The refusals, each with one that comes after it, and what is the same on either side. */
static const struct turned turned_by_any[] = {
    {"turn: own numbers", {4, 4, LIST(own), FRAME(own_spread), 0, 0, 0}, 16, 0, own_spread},
    {"turn: own numbers, unbalanced", {4, 4, LIST(own), FRAME(own_in_one), 0, 0, 0}, 16, 0, own_in_one},
    {"turn: idle", {4, 4, LIST(table7), FRAME(idle), 0, 0, 0}, 16, 0, idle},
    {"turn: no flows", {4, 4, NO_LIST, FRAME(idle), 0, 0, 0}, 16, 0, idle},
    {"turn: ports 0, and slots", {0, 3, LIST(table7), FRAME(idle), 0, 0, 0}, 16, 1, NULL},
    {"turn: ports 17, and slots", {17, 3, LIST(table7), FRAME(idle), 0, 0, 0}, 16, 1, NULL},
    {"turn: slots, and the list length", {4, 5, table7, 19, unlimited, FRAME(idle), 0, 0, 0}, 16, 2, NULL},
    {"turn: list length, and 513 flows", {4, 4, LIST(too_many_and_one), FRAME(idle), 0, 0, 0}, 16, 3, NULL},
    {"turn: 513 flows, and a flow's port", {4, 4, LIST(too_many), FRAME(idle), 0, 0, 0}, 16, 21, NULL},
    {"turn: a flow's port, and its link", {4, 4, LIST(outside), FRAME(idle), 0, 0, 0}, 16, 22, NULL},
    {"turn: a flow's link, and the frame length", {4, 4, LIST(link_0), idle, 15, 0, 0, 0}, 16, 23, NULL},
    {"turn: frame length, and the second length", {4, 4, LIST(table7), idle, 15, 0, 0, 0}, 16, 4, NULL},
    {"turn: frame length, and a wrong entry", {4, 4, LIST(table7), above, 15, 0, 0, 0}, 15, 4, NULL},
    {"turn: second length, and a wrong entry", {4, 4, LIST(table7), FRAME(above), 0, 0, 0}, 15, 15, NULL},
    {"turn: second length", {4, 4, LIST(table7), FRAME(idle), 0, 0, 0}, 17, 15, NULL},
    {"turn: no second buffer", {4, 4, LIST(table7), FRAME(idle), 0, 0, 0}, 0, 15, NULL},
    {"turn: no frame", {4, 4, LIST(table7), NO_FRAME, 0, 0, 0}, 16, 4, NULL},
    {"turn: no frame, no second buffer", {4, 4, LIST(table7), NO_FRAME, 0, 0, 0}, 0, 4, NULL},
    {"turn: nothing", {4, 4, NO_LIST, NO_FRAME, 0, 0, 0}, 0, 4, NULL},
    {"turn: nothing, ports 0", {0, 4, NO_LIST, NO_FRAME, 0, 0, 0}, 0, 1, NULL},
    {"turn: nothing, slots 0", {4, 0, NO_LIST, NO_FRAME, 0, 0, 0}, 0, 2, NULL},
    {"turn: no flows, wrong entry", {4, 4, NO_LIST, FRAME(built), 0, 0, 0}, 16, 14, NULL},
    {"turn: entry above the flows", {4, 4, LIST(own), FRAME(miscounted), 0, 0, 0}, 16, 14, NULL},
    {"turn: any entries", {4, 4, LIST(table7), FRAME(crowded), 0, 0, 0}, 16, 14, NULL},
};

static const struct turned turned_by_input[] = {
    {"turn by input", {4, 4, LIST(table7), FRAME(built), 0, 0, 0}, 16, 0, out_built},
    {"turn by input: flow count", {4, 4, LIST(table7), FRAME(miscounted), 0, 0, 0}, 16, 0, out_miscounted},
    {"turn by input: unbalanced block", {4, 4, LIST(table7), FRAME(bunched), 0, 0, 0}, 16, 0, out_bunched},
    {"turn by input: two flows of a pair", {4, 4, LIST(both), FRAME(both_spread), 0, 0, 0}, 16, 0, out_both_spread},
    {"turn by input: two flows apart", {4, 4, LIST(both), FRAME(both_apart), 0, 0, 0}, 16, 0, out_both_apart},
    {"turn by input: one output", {4, 4, LIST(on_two), FRAME(in_order), 0, 0, 0}, 16, 0, out_in_order},
    {"turn by input: one output, in turn", {4, 4, LIST(on_one), FRAME(own_spread), 0, 0, 0}, 16, 0, out_in_turn},
    {"turn by input: entry above the flows", {4, 4, LIST(table7), FRAME(above), 0, 0, 0}, 16, 14, NULL},
    {"turn by input: entry of another input's flow", {4, 4, LIST(table7), FRAME(of_other), 0, 0, 0}, 16, 14, NULL},
    {"turn by input: output twice", {4, 4, LIST(table7), FRAME(twice), 0, 0, 0}, 16, 14, NULL},
    {"turn by input: a frame of the output side", {4, 4, LIST(table7), FRAME(out_built), 0, 0, 0}, 16, 14, NULL},
};

static const struct turned turned_by_output[] = {
    {"turn by output", {4, 4, LIST(table7), FRAME(out_built), 0, 0, 0}, 16, 0, built},
    {"turn by output: flow count", {4, 4, LIST(table7), FRAME(out_miscounted), 0, 0, 0}, 16, 0, miscounted},
    {"turn by output: unbalanced block", {4, 4, LIST(table7), FRAME(out_bunched), 0, 0, 0}, 16, 0, bunched},
    {"turn by output: two flows of a pair", {4, 4, LIST(both), FRAME(out_both_spread), 0, 0, 0}, 16, 0, both_spread},
    {"turn by output: two flows apart", {4, 4, LIST(both), FRAME(out_both_apart), 0, 0, 0}, 16, 0, both_apart},
    {"turn by output: one output", {4, 4, LIST(on_two), FRAME(out_in_order), 0, 0, 0}, 16, 0, in_order},
    {"turn by output: one output, in turn", {4, 4, LIST(on_one), FRAME(out_in_turn), 0, 0, 0}, 16, 0, own_spread},
    {"turn by output: entry above the flows", {4, 4, LIST(table7), FRAME(out_above), 0, 0, 0}, 16, 14, NULL},
    {"turn by output: entry of another output's flow", {4, 4, LIST(table7), FRAME(out_of_other), 0, 0, 0}, 16, 14, NULL},
    {"turn by output: input twice", {4, 4, LIST(table7), FRAME(out_twice), 0, 0, 0}, 16, 14, NULL},
    {"turn by output: a frame of the input side", {4, 4, LIST(table7), FRAME(built), 0, 0, 0}, 16, 14, NULL},
};

static void fill_too_many(void)
{
    for (size_t flow = 0; flow <= MOST_FLOWS; flow++) {
        too_many[flow * OF_FLOW] = too_many[flow * OF_FLOW + 3] = flow < MOST_FLOWS;
        too_many[flow * OF_FLOW + 1] = 1;
    }
    memcpy(too_many_and_one, too_many, sizeof too_many);
}

/* Build is lent entries that are in no frame: an accepted call leaves none of them, a refused one all. */
static int builds(const struct expected *e, struct lent lent)
{
    uint16_t frame[SLOTS * PORTS], before[SLOTS * PORTS];
    const uint16_t *after = e->number == FRAME_BUILDER_ACCEPTED ? e->lent.frame : before;
    memset(before, 0xaa, sizeof before);
    memcpy(frame, before, sizeof frame);
    if (e->lent.frame != NULL)
        lent.frame = frame;
    return answers(BUILD, &lent, e->number, e->first, e->second) && memcmp(frame, after, sizeof frame) == 0;
}

/* Memory for slices: numbers that may be used between numbers that may not. */
struct fenced {
    uint16_t *begin, *end;
};

static struct fenced fence(void)
{
    size_t part = MOST_FRAME * sizeof(uint16_t);
    uint16_t *numbers = mmap(NULL, 3 * part, PROT_NONE, MAP_PRIVATE | MAP_ANONYMOUS, -1, 0);
    struct fenced fenced = {numbers + MOST_FRAME, numbers + 2 * MOST_FRAME};
    if (numbers == MAP_FAILED || mprotect(fenced.begin, part, PROT_READ | PROT_WRITE) != 0)
        exit(3);
    return fenced;
}

/* One answer; a slice of length 0 has the null pointer and then one to memory that may not be used. */
static void check_answer(const struct expected *e, uint16_t *forbidden)
{
    struct lent lent = e->lent;
    for (int turn = 0; turn < 2; turn++) {
        check(e->call == BUILD ? builds(e, lent) : answers(e->call, &lent, e->number, e->first, e->second), e->what);
        if (lent.list == NULL)
            lent.list = forbidden;
        if (lent.frame == NULL)
            lent.frame = forbidden;
    }
}

static int is_told_side(enum call call)
{
    return call == INSPECT || call >= COUNT_FLOW;
}

/* Every answer of every call but Turn, with every number for its side. */
static void check_answers(void)
{
    uint16_t *forbidden = fence().end;
    fill_too_many();
    for (size_t place = 0; place < COUNT_OF(expectations); place++)
        check_answer(expectations + place, forbidden);
    for (size_t number = 0; number < COUNT_OF(output_sides); number++) {
        side = output_sides[number];
        for (size_t place = 0; place < COUNT_OF(by_output); place++)
            check_answer(by_output + place, forbidden);
        for (size_t place = 0; place < COUNT_OF(expectations); place++) {
            const struct expected *e = expectations + place;
            if (is_told_side(e->call) && e->number > FRAME_BUILDER_ACCEPTED && e->number < FRAME_BUILDER_FAULT_WRONG_ENTRY)
                check_answer(e, forbidden);
        }
    }
    side = FRAME_BUILDER_INPUT_SIDE;
}

/* Turn. */

static size_t make_turn(const struct lent *l, uint16_t *second, size_t second_length)
{
    return frame_builder_turn(side, l->ports, l->slots, l->list, l->list_length, l->frame, l->frame_length, second, second_length);
}

/* Turn is lent a second buffer of entries that are in no frame: an accepted call leaves none of them, a refused one all. Entries behind it
 * stay, and so does the frame. */
static int is_turned(const struct turned *t, const struct lent *lent, uint16_t *forbidden)
{
    uint16_t second[SLOTS * PORTS + 2], before[SLOTS * PORTS + 2], frame[SLOTS * PORTS];
    size_t written = t->number == FRAME_BUILDER_ACCEPTED ? t->second_length : 0, bytes = lent->frame_length * sizeof *frame;
    memset(before, 0xaa, sizeof before);
    memcpy(second, before, sizeof second);
    if (bytes > 0)
        memcpy(frame, lent->frame, bytes);
    errno = ERRNO;
    size_t number = make_turn(lent, t->second_length > 0 ? second : forbidden, t->second_length);
    return number == t->number && errno == ERRNO && (written == 0 || memcmp(second, t->second, written * sizeof *second) == 0)
           && memcmp(second + written, before + written, sizeof second - written * sizeof *second) == 0
           && (bytes == 0 || memcmp(frame, lent->frame, bytes) == 0);
}

/* A slice of length 0 has the null pointer and then one to memory that may not be used. */
static void check_turned(const struct turned *table, size_t rows, uint16_t *forbidden)
{
    for (size_t place = 0; place < rows; place++) {
        struct lent lent = table[place].lent;
        check(is_turned(table + place, &lent, NULL), table[place].what);
        if (lent.list == NULL)
            lent.list = forbidden;
        if (lent.frame == NULL)
            lent.frame = forbidden;
        check(is_turned(table + place, &lent, forbidden), table[place].what);
    }
}

/* Every answer of Turn, with every number for the side. */
static void check_turn(void)
{
    uint16_t *forbidden = fence().end;
    check_turned(turned_by_any, COUNT_OF(turned_by_any), forbidden);
    check_turned(turned_by_input, COUNT_OF(turned_by_input), forbidden);
    for (size_t number = 0; number < COUNT_OF(output_sides); number++) {
        side = output_sides[number];
        check_turned(turned_by_any, COUNT_OF(turned_by_any), forbidden);
        check_turned(turned_by_output, COUNT_OF(turned_by_output), forbidden);
    }
    side = FRAME_BUILDER_INPUT_SIDE;
}

/* Odd counts settled. */

/* Those of a flow with so many cells in a block of so many slots, whose halves differ by at most one cell, and in all blocks within it. */
static size_t odd_counts(size_t slots, size_t cells)
{
    return slots == 1 ? 0 : cells % 2 + odd_counts(slots / 2, cells / 2) + odd_counts(slots / 2, (cells + 1) / 2);
}

static size_t settled(size_t slots, const uint16_t *list, size_t flows)
{
    size_t sum = 0;
    for (size_t flow = 0; flow < flows; flow++)
        sum += odd_counts(slots, list[flow * OF_FLOW + 2]);
    return sum;
}

/* Link loads. */

/* What Admit and Build answer to the flows of `linked` with these limits. */
struct limited {
    const char *what;
    uint16_t limits[LIMITS];
    size_t number, output, link, cells;
};

/* Output 2 has one cell on link 1 and two on link 3, output 3 two on link 2 and one on link 4, output 4 one on link 4. */
static const uint16_t linked[] = {1, 2, 1, 1, 2, 2, 1, 3, 3, 2, 1, 3, 4, 3, 2, 2, 1, 3, 1, 4, 2, 4, 1, 4};

#define ABOVE(limit) SIXTEEN(limit), SIXTEEN(limit), SIXTEEN(limit)

/* The limits are in memory that may not be written. */
static const struct limited limitations[] = {
    {"every limit reached", {FOUR(0), 1, 0, 2, 0, 0, 2, 0, 1, 0, 0, 0, 1, ABOVE(0)}, 0, 0, 0, 0},
    {"every limit reached, and others above ports", {FOUR(0), 1, 0, 2, 0, 0, 2, 0, 1, 0, 0, 0, 1, ABOVE(65535)}, 0, 0, 0, 0},
    {"one cell above a limit", {FOUR(4), 4, 4, 1, 4, FOUR(4), FOUR(4), ABOVE(4)}, 24, 2, 3, 2},
    {"the same, and limits 0 above ports", {FOUR(4), 4, 4, 1, 4, FOUR(4), FOUR(4), ABOVE(0)}, 24, 2, 3, 2},
    {"a limit of 0", {FOUR(4), 0, 4, 4, 4, FOUR(4), FOUR(4), ABOVE(4)}, 24, 2, 1, 1},
    {"the lowest output, not the lowest link", {FOUR(4), 4, 4, 0, 4, 4, 1, 4, 4, FOUR(4), ABOVE(4)}, 24, 2, 3, 2},
    {"the lowest link of the output", {FOUR(4), FOUR(4), 4, 1, 4, 0, FOUR(0), ABOVE(4)}, 24, 3, 2, 2},
    {"the last link of the last output", {FOUR(4), FOUR(4), FOUR(4), 4, 4, 4, 0, ABOVE(4)}, 24, 4, 4, 1},
    {"all limits 0", {SIXTEEN(0), ABOVE(0)}, 24, 2, 1, 1},
};

/* An accepted Build leaves the frame that is built without limits, a refused one the entries that were there. */
static void check_limits(void)
{
    uint16_t frame[SLOTS * PORTS], before[SLOTS * PORTS], free_of_limits[SLOTS * PORTS];
    size_t odd = settled(SLOTS, linked, COUNT_OF(linked) / OF_FLOW);
    struct lent lent = {PORTS, SLOTS, LIST(linked), FRAME(free_of_limits), 0, 0, 0};
    memset(before, 0xaa, sizeof before);
    check(answers(BUILD, &lent, 0, odd, 0) && answers(INSPECT, &lent, 0, 0, 0), "several links of an output");
    lent.frame = frame;
    for (size_t place = 0; place < COUNT_OF(limitations); place++) {
        const struct limited *l = limitations + place;
        const uint16_t *after = l->number == FRAME_BUILDER_ACCEPTED ? free_of_limits : before;
        size_t first = l->number == FRAME_BUILDER_ACCEPTED ? odd : l->output;
        lent.limits = l->limits;
        memcpy(frame, before, sizeof frame);
        check(answers_three(ADMIT, &lent, l->number, l->output, (int64_t)l->link, l->cells), l->what);
        check(answers_three(BUILD, &lent, l->number, first, (int64_t)l->link, l->cells), l->what);
        check(memcmp(frame, after, sizeof frame) == 0, l->what);
    }
}

/* Loads. */

/* The flows take the links in turn. */
static void put_flow(uint16_t *list, size_t flow, size_t input, size_t output, size_t cells)
{
    list[flow * OF_FLOW] = (uint16_t)(input + 1);
    list[flow * OF_FLOW + 1] = (uint16_t)(output + 1);
    list[flow * OF_FLOW + 2] = (uint16_t)cells;
    list[flow * OF_FLOW + 3] = (uint16_t)(flow % FRAME_BUILDER_MAX_LINKS + 1);
}

/* A full load: every input and every output has `slots` cells, most of them in counts of `step`; `each` flows for each input. */
static void fill_load(uint16_t *list, size_t ports, size_t slots, size_t each, size_t step)
{
    size_t left = slots;
    for (size_t turn = 0; turn < each; turn++) {
        size_t count = turn + 1 == each || left < step ? left : step;
        left -= count;
        for (size_t input = 0; input < ports; input++)
            put_flow(list, input * each + turn, input, (input + turn) % ports, count);
    }
}

/* As many slots as flows at an input, every count 1: each cell is odd in a block of every size, so that the bound is reached. */
static void check_settled(void)
{
    static uint16_t list[MOST_FLOWS * OF_FLOW], frame[MOST_FRAME];
    for (size_t ports = 1; ports <= MOST_PORTS; ports *= 2)
        for (size_t k = 0, slots = 1; slots <= MOST_FLOWS / ports; k++, slots *= 2) {
            struct lent lent = {ports, slots, list, ports * slots * OF_FLOW, unlimited, frame, ports * slots, 0, 0, 0};
            fill_load(list, ports, slots, slots, 1);
            check(answers(BUILD, &lent, 0, ports * slots * k, 0), "every count 1, as many slots as flows at an input");
        }
}

/* Slices beside memory that may not be used. */

/* Inspect and Service count find the frame of a full load clean, with all cells in whole turns. */
static int is_full(const struct lent *lent, const struct lent *of_flow, size_t cells)
{
    return answers(INSPECT, lent, 0, 0, 0) && answers(COUNT_FLOW, of_flow, 0, cells, 0) && answers(COUNT_INPUT, lent, 0, lent->length, 0)
           && answers(COUNT_OUTPUT, lent, 0, lent->length, 0);
}

/* Turn writes the frame by the other side to the second buffer, where it is as full, and turned back it is the frame again. */
static int turns_twice(struct lent lent, struct lent of_flow, size_t cells, uint16_t *second)
{
    static uint16_t back[MOST_FRAME];
    uint16_t *frame = lent.frame;
    size_t length = lent.frame_length;
    if (make_turn(&lent, second, length) != FRAME_BUILDER_ACCEPTED)
        return 0;
    lent.frame = of_flow.frame = second;
    side = FRAME_BUILDER_OUTPUT_SIDE;
    int same = is_full(&lent, &of_flow, cells) && make_turn(&lent, back, length) == FRAME_BUILDER_ACCEPTED
               && memcmp(frame, back, length * sizeof *back) == 0;
    side = FRAME_BUILDER_INPUT_SIDE;
    return same;
}

/* All calls are accepted, with the cells of a full load in whole turns, on this list, of so many flows at each input, with these limits,
 * this frame and this second buffer. */
static int all_accept(size_t ports, size_t slots, size_t each, uint16_t *list, const uint16_t *limits, uint16_t *frame, uint16_t *second)
{
    size_t turns = 1000, length = turns * slots <= 1000000 ? turns * slots : slots, flows = ports * each;
    struct lent lent = {ports, slots, list, flows * OF_FLOW, limits, frame, slots * ports, slots, length, ports};
    struct lent of_flow = lent;
    of_flow.whose = flows - each + 1;
    fill_load(list, ports, slots, each, 1 + slots / each);
    size_t cells = length / slots * list[(flows - each) * OF_FLOW + 2];
    return answers(ADMIT, &lent, 0, 0, 0) && answers(BUILD, &lent, 0, settled(slots, list, flows), 0) && is_full(&lent, &of_flow, cells)
           && answers(SLOT_VIEW, &lent, 0, (slots - 1) * ports, (int64_t)ports) && turns_twice(lent, of_flow, cells, second)
           && answers(DEPTH_INPUT, &lent, 0, 0, 1) && answers(DEPTH_OUTPUT, &lent, 0, 0, 1);
}

/* Limits that no load is above, in memory that may only be read. */
static struct fenced fence_limits(void)
{
    struct fenced limits = fence();
    memset(limits.begin, 0xff, MOST_FRAME * sizeof(uint16_t));
    if (mprotect(limits.begin, MOST_FRAME * sizeof(uint16_t), PROT_READ) != 0)
        exit(3);
    return limits;
}

/* One flow for each pair, and as many as there may be. */
static void check_bounds(void)
{
    struct fenced list = fence(), limits = fence_limits(), frame = fence(), second = fence();
    for (size_t ports = 1; ports <= MOST_PORTS; ports++)
        for (size_t slots = 1; slots <= MOST_SLOTS; slots *= 2)
            for (int most = 0; most < 2; most++) {
                size_t each = most ? MOST_FLOWS / ports : ports, entries = slots * ports;
                uint16_t *last = list.end - ports * each * OF_FLOW;
                check(all_accept(ports, slots, each, list.begin, limits.begin, frame.begin, second.begin),
                      "slices with forbidden memory before them");
                check(all_accept(ports, slots, each, last, limits.end - LIMITS, frame.end - entries, second.end - entries),
                      "slices with forbidden memory after them");
            }
}

/* Two threads at once. */

/* What a thread builds, the odd counts to settle, the frame that one thread alone built, and how often the thread got the same. */
struct work {
    uint16_t list[MOST_FLOWS * OF_FLOW], alone[MOST_FRAME], frame[MOST_FRAME];
    size_t settled, same;
};

static int build_once(struct work *work, uint16_t *frame)
{
    struct lent lent = {MOST_PORTS, MOST_SLOTS, work->list, COUNT_OF(work->list), unlimited, frame, MOST_FRAME, 0, 0, 0};
    memset(frame, 0xaa, sizeof work->frame);
    return answers(BUILD, &lent, 0, work->settled, 0);
}

static void *build_often(void *given)
{
    struct work *work = given;
    for (size_t turn = 0; turn < BUILDS; turn++)
        work->same += build_once(work, work->frame) && memcmp(work->frame, work->alone, sizeof work->alone) == 0;
    return NULL;
}

static void check_threads(void)
{
    static struct work works[2];
    pthread_t threads[2];
    for (size_t which = 0; which < 2; which++) {
        fill_load(works[which].list, MOST_PORTS, MOST_SLOTS, MOST_FLOWS / MOST_PORTS, 33 + 6 * which);
        works[which].settled = settled(MOST_SLOTS, works[which].list, MOST_FLOWS);
        check(build_once(works + which, works[which].alone), "a thread alone");
    }
    check(memcmp(works[0].alone, works[1].alone, sizeof works[0].alone) != 0, "the threads build different frames");
    for (size_t which = 0; which < 2; which++)
        if (pthread_create(threads + which, NULL, build_often, works + which) != 0)
            exit(3);
    for (size_t which = 0; which < 2; which++) {
        pthread_join(threads[which], NULL);
        check(works[which].same == BUILDS, "two threads at once build what one builds");
    }
}

/* What is only read may overlap: the numbers of a flow of one cell are four of its cells in a frame of eight slots. */
static void check_overlap(void)
{
    uint16_t numbers[] = {1, 1, 1, 1, 0, 0, 0, 0};
    struct lent lent = {1, 8, numbers, OF_FLOW, unlimited, numbers, 8, 1, 3, 1};
    check(answers(INSPECT, &lent, FRAME_BUILDER_FAULT_FLOW_COUNT, 1, 0), "a list that is the frame, inspected");
    check(answers(COUNT_FLOW, &lent, 0, 3, 12), "a list that is the frame, counted");
    uint16_t second[8];
    check(make_turn(&lent, second, 8) == FRAME_BUILDER_ACCEPTED && memcmp(second, numbers, sizeof second) == 0,
          "a list that is the frame, turned");
}

/* Sixteen flows are as many numbers as the limits: one from each port to its own number, which is then the limit of the output's link 1. */
static void check_own_limits(void)
{
    uint16_t numbers[LIMITS], frame[MOST_PORTS * MOST_PORTS];
    struct lent lent = {MOST_PORTS, MOST_PORTS, LIMITED(numbers, numbers), frame, COUNT_OF(frame), 0, 0, 0};
    for (size_t port = 0; port < MOST_PORTS; port++) {
        put_flow(numbers, port, port, port, port + 1);
        numbers[port * OF_FLOW + 3] = 1;
    }
    check(answers(ADMIT, &lent, 0, 0, 0), "a list that is its limits, admitted");
    check(answers(BUILD, &lent, 0, settled(MOST_PORTS, numbers, MOST_PORTS), 0), "a list that is its limits, built");
    numbers[2 * OF_FLOW + 2]++;
    check(answers_three(BUILD, &lent, FRAME_BUILDER_REFUSED_LINK_LOAD, 3, 1, 4), "a list that is its limits, refused");
}

/* Sums of counts. */

/* A link of an output, or all of them where link is 0, and the sums of some answers of Service count. */
struct sum {
    size_t output, link, cells;
    int64_t lead;
};

static int is_on(const struct sum *sum, const uint16_t *flow)
{
    return sum->link == 0 || (flow[1] == sum->output && flow[3] == sum->link);
}

static void add_count(enum call call, struct lent lent, size_t whose, struct sum *sum)
{
    struct numbers n = {0};
    lent.whose = whose;
    check(make_call(call, &lent, &n) == FRAME_BUILDER_ACCEPTED, "a count that is added up");
    sum->cells += n.first;
    sum->lead += n.lead;
}

/* The entries of a run that are flows of `linked` on what is summed. */
static size_t entries_of(const struct sum *sum, const uint16_t *frame, size_t start, size_t length)
{
    size_t found = 0;
    for (size_t place = 0; place < length * PORTS; place++) {
        size_t entry = frame[((start - 1) * PORTS + place) % (SLOTS * PORTS)];
        found += entry != 0 && entry <= COUNT_OF(linked) / OF_FLOW && is_on(sum, linked + (entry - 1) * OF_FLOW);
    }
    return found;
}

static int is_counted(const struct lent *lent, const struct sum *sum)
{
    size_t cells = entries_of(sum, lent->frame, lent->slot, lent->length), whole = entries_of(sum, lent->frame, 1, SLOTS);
    return sum->cells == cells && sum->lead == (int64_t)(SLOTS * cells) - (int64_t)(lent->length * whole);
}

static int link_is_sum(const struct lent *lent, size_t output, size_t link)
{
    struct sum sum = {output, link, 0, 0};
    for (size_t flow = 1; flow <= COUNT_OF(linked) / OF_FLOW; flow++)
        if (is_on(&sum, linked + (flow - 1) * OF_FLOW))
            add_count(COUNT_FLOW, *lent, flow, &sum);
    return is_counted(lent, &sum);
}

/* The sum of all ports of the other side. */
static int total_is_sum(const struct lent *lent)
{
    struct sum sum = {0};
    for (size_t port = 1; port <= PORTS; port++)
        add_count(side == FRAME_BUILDER_INPUT_SIDE ? COUNT_OUTPUT : COUNT_INPUT, *lent, port, &sum);
    return is_counted(lent, &sum);
}

/* Entries of every kind: idle, flows at their own port and at others, and numbers above those of the flows. */
static void check_sums_on(size_t told)
{
    uint16_t frame[SLOTS * PORTS] = {1, 2, 3, 4, 5, 6, 7, 0, 2, 2, 513, 3, 0, 4, 1, 65535};
    struct lent lent = {PORTS, SLOTS, LIST(linked), FRAME(frame), 0, 0, 0};
    side = told;
    for (lent.slot = 1; lent.slot <= SLOTS; lent.slot++)
        for (lent.length = 0; lent.length <= 2 * SLOTS + 1; lent.length++) {
            for (size_t place = 0; place < PORTS * FRAME_BUILDER_MAX_LINKS; place++)
                check(link_is_sum(&lent, place / FRAME_BUILDER_MAX_LINKS + 1, place % FRAME_BUILDER_MAX_LINKS + 1),
                      "the count of a link is the sum of its flows'");
            check(total_is_sum(&lent), "the count of the total is the sum of all ports' of the other side");
        }
    side = FRAME_BUILDER_INPUT_SIDE;
}

static void check_sums(void)
{
    check_sums_on(FRAME_BUILDER_INPUT_SIDE);
    check_sums_on(FRAME_BUILDER_OUTPUT_SIDE);
}

/* The sides of a frame that turns. */

/* Inspect and every count are told the side that their frame is on, and answer the same. */
static int agrees(enum call call, const struct lent *by_input, const struct lent *by_output)
{
    struct numbers one = {0}, other = {0};
    size_t number = make_call(call, by_input, &one);
    side = FRAME_BUILDER_OUTPUT_SIDE;
    int same = make_call(call, by_output, &other) == number && memcmp(&one, &other, sizeof one) == 0;
    side = FRAME_BUILDER_INPUT_SIDE;
    return same;
}

/* Every count of every run of up to two turns and a slot, of everyone that there is and of one that there is not. */
static int counts_agree(struct lent by_input, struct lent by_output)
{
    size_t slots = by_input.slots, flows = by_input.list_length / OF_FLOW;
    for (size_t start = 1; start <= slots; start++)
        for (size_t length = 0; length <= 2 * slots + 1; length++)
            for (size_t whose = 0; whose <= flows + 1; whose++) {
                by_input.slot = by_output.slot = start;
                by_input.length = by_output.length = length;
                by_input.whose = by_output.whose = whose;
                if (!agrees(COUNT_FLOW, &by_input, &by_output) || !agrees(COUNT_INPUT, &by_input, &by_output)
                    || !agrees(COUNT_OUTPUT, &by_input, &by_output))
                    return 0;
            }
    return 1;
}

/* Each frame of the input side above that turns. */
static void check_sides(void)
{
    for (size_t place = 0; place < COUNT_OF(turned_by_input); place++) {
        const struct turned *t = turned_by_input + place;
        uint16_t second[SLOTS * PORTS];
        struct lent by_output = t->lent;
        by_output.frame = second;
        if (t->number != FRAME_BUILDER_ACCEPTED)
            continue;
        check(make_turn(&t->lent, second, t->second_length) == FRAME_BUILDER_ACCEPTED, t->what);
        check(agrees(INSPECT, &t->lent, &by_output), t->what);
        check(counts_agree(t->lent, by_output), t->what);
    }
}

/* The furthest leads of any entries: all ports have the last flow in the first half of the frame, and nothing in the second. The flows are
 * those of one port of the frame's side; near are its counts, and far those of a port of the other side. */
static void check_furthest_on(size_t told, enum call near, enum call far)
{
    static uint16_t list[MOST_FLOWS * OF_FLOW], frame[MOST_FRAME];
    size_t half = MOST_SLOTS / 2, turns = 976;
    struct lent lent = {MOST_PORTS, MOST_SLOTS, LIST(list), frame, MOST_FRAME, 1, half, 16};
    struct lent of_flow = lent;
    for (size_t flow = 0; flow < MOST_FLOWS; flow++)
        put_flow(list, flow, told == FRAME_BUILDER_INPUT_SIDE ? 0 : flow % MOST_PORTS,
                 told == FRAME_BUILDER_INPUT_SIDE ? flow % MOST_PORTS : 0, 0);
    for (size_t entry = 0; entry < MOST_FRAME / 2; entry++)
        frame[entry] = MOST_FLOWS;
    of_flow.whose = MOST_FLOWS;
    side = told;
    check(answers(far, &lent, 0, 8192, 4194304), "the furthest ahead of ports of the other side");
    check(answers(near, &lent, 0, 512, 262144), "the furthest ahead of ports of the frame's side");
    check(answers(COUNT_FLOW, &of_flow, 0, 8192, 4194304), "the furthest ahead of flows");
    lent.length = of_flow.length = turns * MOST_SLOTS + half;
    check(answers(far, &lent, 0, (turns + 1) * 8192, 4194304), "the furthest ahead of ports of the other side, after whole turns");
    lent.slot = of_flow.slot = half + 1;
    check(answers(far, &lent, 0, turns * 8192, -4194304), "the furthest behind of ports of the other side, after whole turns");
    check(answers(near, &lent, 0, turns * 512, -262144), "the furthest behind of ports of the frame's side, after whole turns");
    check(answers(COUNT_FLOW, &of_flow, 0, turns * 8192, -4194304), "the furthest behind of flows, after whole turns");
    side = FRAME_BUILDER_INPUT_SIDE;
}

static void check_furthest(void)
{
    check_furthest_on(FRAME_BUILDER_INPUT_SIDE, COUNT_INPUT, COUNT_OUTPUT);
    check_furthest_on(FRAME_BUILDER_OUTPUT_SIDE, COUNT_OUTPUT, COUNT_INPUT);
}

int main(void)
{
    setvbuf(stdout, NULL, _IOLBF, 0);
    check_texts();
    check_answers();
    check_turn();
    check_sides();
    check_limits();
    check_sums();
    check_furthest();
    check_settled();
    check_bounds();
    check_overlap();
    check_own_limits();
    check_threads();
    printf("%zu passed, %zu failed\n", passed, failed);
    return failed != 0;
}

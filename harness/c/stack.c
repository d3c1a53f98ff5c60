/* Measures the stack that each call takes, and holds it to what the header says: FRAME_BUILDER_STACK_BYTES, and Build more than any other.
 *
 * Each call runs on a stack of its own that was painted before; how far down the paint is gone is what the call took, with its arguments,
 * its return address and a few words of make_call's own. Every number of ports and of slots is tried, with full loads of one flow for each
 * pair and of 512 flows and their frames on either side, with frames of each fault and with each refusal. The last line is 'N passed, M
 * failed'.
 */
#define _GNU_SOURCE
#include <stdint.h>
#include <stdio.h>
#include <string.h>
#include <ucontext.h>

#include "frame_builder.h"

#define PORTS FRAME_BUILDER_MAX_PORTS
#define SLOTS FRAME_BUILDER_MAX_SLOTS
#define FLOWS FRAME_BUILDER_MAX_FLOWS
#define OF_FLOW FRAME_BUILDER_FLOW_NUMBERS
#define FRAME_ENTRIES FRAME_BUILDER_MAX_FRAME_ENTRIES
#define ROOM (4 * FRAME_BUILDER_STACK_BYTES)
#define NUMBERS (FRAME_BUILDER_FAULT_UNBALANCED_BLOCK + 1)
#define KNOWN_BYTES 5000

enum call {
    ADMIT,
    BUILD,
    INSPECT,
    TURN,
    SLOT_VIEW,
    COUNT_FLOW,
    COUNT_INPUT,
    COUNT_OUTPUT,
    DEPTH_FLOW,
    DEPTH_INPUT,
    DEPTH_OUTPUT,
    KNOWN,
    CALLS
};

static const char *const names[CALLS] = {"admit",       "build",        "inspect",    "turn",        "slot_view",    "count_flow",
                                         "count_input", "count_output", "depth_flow", "depth_input", "depth_output", "(5,000 bytes)"};

/* How many different answers each call has. */
static const size_t answers[CALLS] = {10, 11, 12, 10, 5, 11, 11, 11, 10, 10, 10, 1};

/* The call to make, what it is lent, and its answer. */
static struct {
    enum call call;
    size_t side, ports, slots, list_length, frame_length, second_length, slot, length, flow, port, answer;
    uint16_t list[(FLOWS + 1) * OF_FLOW];
    uint16_t limits[FRAME_BUILDER_LIMITS];
    uint16_t frame[FRAME_ENTRIES], second[FRAME_ENTRIES];
} asked;

static unsigned char room[ROOM] __attribute__((aligned(16)));
static unsigned char *top; /* of what is counted in the room */
static ucontext_t here, there;
static size_t most[CALLS];
static int answered[CALLS][NUMBERS];

/* What the measure is measured by. */
static __attribute__((noinline)) size_t take_known_bytes(void)
{
    volatile unsigned char bytes[KNOWN_BYTES];
    for (size_t at = 0; at < KNOWN_BYTES; at++)
        bytes[at] = (unsigned char)at;
    return bytes[0];
}

static void make_call(void)
{
    size_t side = asked.side, ports = asked.ports, slots = asked.slots, list_length = asked.list_length, frame_length = asked.frame_length;
    size_t slot = asked.slot, length = asked.length, flow = asked.flow, port = asked.port, first, second;
    static int64_t lead; /* so that what is measured of the other calls does not grow with it, nor with the next one */
    static size_t third;
    const uint16_t *list = asked.list, *limits = asked.limits;
    uint16_t *frame = asked.frame;
    top = __builtin_frame_address(0);
    switch (asked.call) {
    case ADMIT:
        asked.answer = frame_builder_admit(ports, slots, list, list_length, limits, &first, &second, &third);
        break;
    case BUILD:
        asked.answer = frame_builder_build(ports, slots, list, list_length, limits, frame, frame_length, &first, &second, &third);
        break;
    case INSPECT:
        asked.answer = frame_builder_inspect(side, ports, slots, list, list_length, frame, frame_length, &first, &second);
        break;
    case TURN:
        asked.answer = frame_builder_turn(side, ports, slots, list, list_length, frame, frame_length, asked.second, asked.second_length);
        break;
    case SLOT_VIEW:
        asked.answer = frame_builder_slot_view(ports, slots, frame, frame_length, slot, &first, &second);
        break;
    case COUNT_FLOW:
        asked.answer = frame_builder_count_flow(side, ports, slots, list, list_length, frame, frame_length, flow, slot, length, &first,
                                                &lead);
        break;
    case COUNT_INPUT:
        asked.answer = frame_builder_count_input(side, ports, slots, list, list_length, frame, frame_length, port, slot, length, &first,
                                                 &lead);
        break;
    case COUNT_OUTPUT:
        asked.answer = frame_builder_count_output(side, ports, slots, list, list_length, frame, frame_length, port, slot, length, &first,
                                                  &lead);
        break;
    case DEPTH_FLOW:
        asked.answer = frame_builder_depth_flow(ports, slots, list, list_length, flow, &first, &second);
        break;
    case DEPTH_INPUT:
        asked.answer = frame_builder_depth_input(ports, slots, list, list_length, port, &first, &second);
        break;
    case DEPTH_OUTPUT:
        asked.answer = frame_builder_depth_output(ports, slots, list, list_length, port, &first, &second);
        break;
    default:
        asked.answer = take_known_bytes();
    }
}

/* The bytes of stack that the call takes in a room of this colour. */
static size_t taken(int paint)
{
    size_t left = 0;
    memset(room, paint, ROOM);
    getcontext(&there);
    there.uc_stack.ss_sp = room;
    there.uc_stack.ss_size = ROOM;
    there.uc_link = &here;
    makecontext(&there, make_call, 0);
    swapcontext(&here, &there);
    while (left < ROOM && room[left] == paint)
        left++;
    return (size_t)(top - room) - left;
}

/* The lowest byte that a call writes may be of one paint's colour, so there are two. */
static void measure(enum call call)
{
    static const int paints[] = {0xaa, 0x55};
    asked.call = call;
    for (size_t which = 0; which < 2; which++) {
        size_t bytes = taken(paints[which]);
        if (bytes > most[call])
            most[call] = bytes;
    }
    if (asked.answer < NUMBERS)
        answered[call][asked.answer] = 1;
}

static void measure_all(void)
{
    for (int call = ADMIT; call < KNOWN; call++)
        measure((enum call)call);
}

/* A full load: every input and every output has `slots` cells, in counts that are odd where they can be, of `each` flows at each input,
 * which take the links in turn. */
static void ask_full(size_t ports, size_t slots, size_t each)
{
    size_t left = slots;
    for (size_t turn = 0; turn < each; turn++) {
        size_t count = left / (each - turn);
        if (count % 2 == 0 && count < left)
            count++;
        left -= count;
        for (size_t input = 0; input < ports; input++) {
            uint16_t *flow = asked.list + (input * each + turn) * OF_FLOW;
            flow[0] = (uint16_t)(input + 1);
            flow[1] = (uint16_t)((input + turn) % ports + 1);
            flow[2] = (uint16_t)count;
            flow[3] = (uint16_t)(turn % FRAME_BUILDER_MAX_LINKS + 1);
        }
    }
    for (size_t place = 0; place < FRAME_BUILDER_LIMITS; place++)
        asked.limits[place] = (uint16_t)slots;
    asked.side = FRAME_BUILDER_INPUT_SIDE;
    asked.ports = ports;
    asked.slots = slots;
    asked.list_length = ports * each * OF_FLOW;
    asked.frame_length = asked.second_length = slots * ports;
    asked.slot = slots;
    asked.length = FRAME_BUILDER_MAX_RUN_SLOTS;
    asked.flow = ports * each;
    asked.port = ports;
}

/* Sorts the slots of the frame by what stands at port 1: the frame stays legal, and its halves differ. */
static void bunch(void)
{
    static uint16_t sorted[FRAME_ENTRIES];
    size_t to = 0, ports = asked.ports;
    for (size_t flow = 0; flow <= asked.flow; flow++)
        for (size_t slot = 0; slot < asked.slots; slot++)
            if (asked.frame[slot * ports] == flow)
                memcpy(sorted + ports * to++, asked.frame + ports * slot, ports * sizeof(uint16_t));
    memcpy(asked.frame, sorted, asked.frame_length * sizeof(uint16_t));
}

/* A flow of the last port of the frame's side, with the same port of the other side as the flow at port 1 in the last slot, or 0 where there
 * is none. */
static uint16_t doubling(void)
{
    const uint16_t *slot = asked.frame + asked.frame_length - asked.ports;
    size_t own = asked.side == FRAME_BUILDER_INPUT_SIDE ? 0 : 1; /* the place of a flow's port among its numbers */
    for (size_t flow = 1; slot[0] > 0 && flow <= asked.flow; flow++) {
        const uint16_t *numbers = asked.list + (flow - 1) * OF_FLOW;
        if (numbers[own] == asked.ports && numbers[1 - own] == asked.list[(slot[0] - 1) * OF_FLOW + 1 - own])
            return (uint16_t)flow;
    }
    return 0;
}

/* What is looked at for faults. */
static void measure_frame(void)
{
    measure(INSPECT);
    measure(TURN);
}

static void measure_faults(void)
{
    uint16_t *end = asked.frame + asked.frame_length - 1, last = *end;
    *end = (uint16_t)(asked.flow + 1);
    measure_frame();
    *end = 0;
    measure_frame();
    *end = doubling();
    measure_frame();
    *end = last;
    bunch();
    measure_frame();
}

/* The frame by the other side, which Turn has written, for the calls that are told the side. */
static void measure_other_side(void)
{
    memcpy(asked.frame, asked.second, asked.frame_length * sizeof(uint16_t));
    asked.side = FRAME_BUILDER_OUTPUT_SIDE;
    for (int call = INSPECT; call <= COUNT_OUTPUT; call++)
        measure((enum call)call);
    measure_faults();
    asked.side = FRAME_BUILDER_INPUT_SIDE;
}

/* Each refusal, from the last to the first in the order in which they are tried. */
static void measure_refusals(void)
{
    uint16_t *last = asked.list + asked.list_length - OF_FLOW;
    asked.length++;
    measure_all();
    asked.port++;
    asked.flow++;
    measure_all();
    asked.slot++;
    measure_all();
    memset(asked.limits, 0, sizeof asked.limits);
    measure_all();
    ++last[2];
    if (asked.ports > 1 && last[2 - OF_FLOW] > 0) {
        last[2 - OF_FLOW]--;
        measure_all();
        last[2 - OF_FLOW]++;
    }
    measure_all();
    asked.second_length--;
    measure_all();
    asked.frame_length--;
    measure_all();
    last[3] = 0;
    measure_all();
    last[1] = 0;
    measure_all();
    asked.list_length = (FLOWS + 1) * OF_FLOW;
    measure_all();
    asked.list_length--;
    measure_all();
    asked.slots += SLOTS;
    measure_all();
    asked.ports += PORTS;
    measure_all();
}

static int good(int call)
{
    size_t different = 0, limit = call == BUILD ? FRAME_BUILDER_STACK_BYTES : most[BUILD];
    if (call == KNOWN)
        return most[KNOWN] >= KNOWN_BYTES && most[KNOWN] < KNOWN_BYTES + 500;
    for (size_t number = 0; number < NUMBERS; number++)
        different += (size_t)answered[call][number];
    return different == answers[call] && most[call] > 0 && most[call] <= limit;
}

int main(void)
{
    size_t passed = 0;
    for (size_t ports = 1; ports <= PORTS; ports++)
        for (size_t slots = 1; slots <= SLOTS; slots *= 2)
            for (int every = 0; every < 2; every++) {
                ask_full(ports, slots, every ? FLOWS / ports : ports);
                measure_all();
                measure_faults();
                measure(BUILD);
                measure(TURN);
                measure_other_side();
                measure(BUILD);
                measure_refusals();
            }
    measure(KNOWN);
    for (int call = 0; call < CALLS; call++) {
        passed += (size_t)good(call);
        printf("%-14s %6zu bytes of stack%s\n", names[call], most[call], good(call) ? "" : ": FAILED");
    }
    printf("%zu passed, %zu failed\n", passed, CALLS - passed);
    return passed != CALLS;
}

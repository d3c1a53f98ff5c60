/* The frame builder of a sixteen-port cell switch: the proved calls, for C99 and C++11, on x86-64 Linux.
 *
 * LINKING. `./install` of the frame builder proves the calls and puts them under its prefix twice: as the shared library
 * libframe_builder.so and as the archive libframe_builder.a. `pkg-config --libs frame_builder` has the flags. With them the linker takes
 * the shared library, and under -static the archive. A program that takes the archive and is otherwise linked as usual names
 * -l:libframe_builder.a in the place of -lframe_builder. In a checkout `command/prove exports` writes the archive to
 * target/staticlib/libexports.a. The shared library exports the calls below and nothing else. Its soname is libframe_builder.so.N, where N
 * is the first number of the version, and its calls have the symbol version FRAME_BUILDER_N. So a program is never given the calls of
 * another N. A call that comes with a later version N.M has the symbol version FRAME_BUILDER_N.M, and its comment below names N.M. So a
 * program that makes it does not start with an older library. Of the C library the calls need memset and nothing else. examples/table7.c
 * shows how the calls are used, examples/links.c how links and limits are, and examples/turn.c how the sides of a frame are.
 *
 * WORDS. Ports and slots are numbered from 1, inputs and outputs separately. An output drives up to four links, 1 to 4. A flow is so many
 * cells per frame from an input to one link of an output; a pair of ports may have several. A list is the reserved flows as 16-bit numbers,
 * four to a flow: input, output, cells, link. Flow 1 comes first, and a flow's number is its place. A list may have no flows. The load of a
 * port, and of a link, is the sum of the cells of its flows. A link's limit is how many cells per frame it takes. The limits are 64 16-bit
 * numbers, output by output: those of output 1's links 1 to 4, then those of output 2's, and so on to output 16. Those of outputs above
 * ports are not looked at. For a link as fast as its output the limit may be slots or any number above. A frame is slots x ports 16-bit
 * entries, slot 1 first. A block is the whole frame, or either half of a block of 2 or more slots. A slice is a list, a frame or Turn's
 * second buffer as a call is lent it: a pointer, and how many 16-bit numbers there are. A lent number is one that a call is lent to write
 * to: *first, *second, *third, *start, *size and *cells, each a size_t, and *lead, an int64_t.
 *
 * SIDES. A frame has a side. On the input side a slot has one entry per input: the number of the flow that the input sends a cell of, or 0
 * for idle. On the output side a slot has one entry per output: the number of the flow that the output takes a cell of, or 0 for idle.
 * Build makes frames on the input side, and Turn writes a frame by the other side. Inspect, Turn and Service count are told the side of the
 * frame that they are lent, as a number: 0 is the input side, and every other number is the output side. A port of the frame's side is an
 * input where the frame is on the input side, and an output where it is on the output side. A port of the other side is an output in the
 * first case, and an input in the second.
 *
 * ANSWERS. Every call takes any numbers and slices of any length. It tries its refusals, and Inspect then its faults, in the order of its
 * table below, and returns the number of the first whose condition holds, or 0 if none does. It writes its lent numbers whatever it
 * answers: the values of the answer, and 0 where the answer has none. No list and no limits are ever written. Two slices are: the frame
 * that Build is lent, and Turn's second buffer. An accepted Build leaves the list's frame in the first, and an accepted Turn the frame by
 * the other side in the second, every entry of it. A refused call leaves every entry as it was. All this is proved.
 *
 * POINTERS. The caller sees to it that
 * - a slice's pointer points to as many 16-bit numbers as its length says, that of the limits to all FRAME_BUILDER_LIMITS of them, and a
 *   lent number's to one number;
 * - each is aligned as C asks of its type;
 * - what a call writes overlaps nothing else lent in the same call. So *first, *second and *third are three numbers even where none is
 *   looked at, *cells and *lead two, Build's frame has no byte of the list or of the limits, and Turn's second buffer has none of the list
 *   or of the frame. What is only read may overlap, as a list and Inspect's frame;
 * - no pointer is null, but for that of a slice of length 0. Nothing is read or written there. A list of length 0 has no flows, and its
 *   frame is all 0; a frame of length 0 is refused, since no switch has one, and so is a second buffer of length 0.
 * What a call writes needs no value before. No call keeps a pointer.
 *
 * THREADS, SIGNALS, STACK. A call keeps no state, allocates nothing, makes no system call, waits for nothing and leaves errno alone. Any
 * number of calls may run at once, in threads and in signal handlers, as long as nobody else uses meanwhile what one of them writes. A call
 * takes FRAME_BUILDER_STACK_BYTES of stack at most. A program over the shared library has each call found by the loader when it first makes
 * that call, and these sentences hold of its later ones. Linked with -Wl,-z,now, it has all calls found when it starts. This paragraph is
 * no part of the proofs; harness/c/test holds the archive and the shared library to it.
 */
#ifndef FRAME_BUILDER_H
#define FRAME_BUILDER_H

#if !defined(__x86_64__) || !defined(__linux__) || defined(__ILP32__)
#error "frame_builder.h: the library is for x86-64 Linux with 64-bit pointers (System V calling convention), and for no other platform"
#endif

#include <stddef.h>
#include <stdint.h>

/* The version of the project. It stands in this line alone; whatever else says the version reads it from here. */
#define FRAME_BUILDER_VERSION "6.0.0"

/* Sizes. */
#define FRAME_BUILDER_MAX_PORTS 16
#define FRAME_BUILDER_MAX_LINKS 4 /* of an output */
#define FRAME_BUILDER_LIMITS 64   /* four for each of 16 outputs, whatever ports are */
#define FRAME_BUILDER_MAX_SLOTS 1024
#define FRAME_BUILDER_MAX_FLOWS 512
#define FRAME_BUILDER_FLOW_NUMBERS 4 /* of a list: so many to a flow */
#define FRAME_BUILDER_MAX_FLOW_CELLS 65535
#define FRAME_BUILDER_MAX_FRAME_ENTRIES 16384
#define FRAME_BUILDER_MAX_RUN_SLOTS 1000000

/* Sides of a frame. */
#define FRAME_BUILDER_INPUT_SIDE 0
#define FRAME_BUILDER_OUTPUT_SIDE 1 /* so is every other number but 0 */

/* The most stack that a call takes, its arguments and its return address included. Build takes more than any other call. A thread of
 * PTHREAD_STACK_MIN and a signal stack of SIGSTKSZ may be too small for it. */
#define FRAME_BUILDER_STACK_BYTES 28672

/* Answers. What each means is its text in frame_builder_text and, after Inspect, in frame_builder_inspect_text; what it carries is in the
 * tables of the calls. */
#define FRAME_BUILDER_ACCEPTED 0
#define FRAME_BUILDER_CLEAN 0 /* Inspect's name for it */

#define FRAME_BUILDER_REFUSED_PORTS 1
#define FRAME_BUILDER_REFUSED_SLOTS 2
#define FRAME_BUILDER_REFUSED_LIST_LENGTH 3
#define FRAME_BUILDER_REFUSED_FRAME_LENGTH 4
#define FRAME_BUILDER_REFUSED_INPUT_LOAD 5
#define FRAME_BUILDER_REFUSED_OUTPUT_LOAD 6
#define FRAME_BUILDER_REFUSED_LINE_FORM 7 /* 7, 8 and 10 are the sheet program's, and no call returns them; 9 is no answer */
#define FRAME_BUILDER_REFUSED_LINE_PORT 8
#define FRAME_BUILDER_REFUSED_SHEET_LENGTH 10
#define FRAME_BUILDER_REFUSED_SLOT_NUMBER 11
#define FRAME_BUILDER_REFUSED_FLOW_OR_PORT 12
#define FRAME_BUILDER_REFUSED_RUN_LENGTH 13
#define FRAME_BUILDER_REFUSED_ENTRIES 14
#define FRAME_BUILDER_REFUSED_SECOND_LENGTH 15
#define FRAME_BUILDER_REFUSED_TOO_MANY_FLOWS 21 /* the sheet program has it too */
#define FRAME_BUILDER_REFUSED_FLOW_PORT 22
#define FRAME_BUILDER_REFUSED_FLOW_LINK 23
#define FRAME_BUILDER_REFUSED_LINK_LOAD 24

#define FRAME_BUILDER_FAULT_WRONG_ENTRY 101
#define FRAME_BUILDER_FAULT_PORT_TWICE 102
#define FRAME_BUILDER_FAULT_FLOW_COUNT 103
#define FRAME_BUILDER_FAULT_UNBALANCED_BLOCK 104

/* What an answer means, for a message; a fixed text for a number that is no answer. Never null. Of Inspect's answers 0 means something
 * else: their texts are those of frame_builder_inspect_text. */
static inline const char *frame_builder_text(size_t number)
{
    switch (number) {
    case FRAME_BUILDER_ACCEPTED:
        return "accepted";
    case FRAME_BUILDER_REFUSED_PORTS:
        return "ports are not 1 to 16";
    case FRAME_BUILDER_REFUSED_SLOTS:
        return "slots are not a power of two from 1 to 1,024";
    case FRAME_BUILDER_REFUSED_LIST_LENGTH:
        return "the list length is not a whole number of flows";
    case FRAME_BUILDER_REFUSED_FRAME_LENGTH:
        return "the frame length is not slots x ports";
    case FRAME_BUILDER_REFUSED_INPUT_LOAD:
        return "an input's load is above slots";
    case FRAME_BUILDER_REFUSED_OUTPUT_LOAD:
        return "an output's load is above slots";
    case FRAME_BUILDER_REFUSED_LINE_FORM:
        return "a line of the sheet breaks the form";
    case FRAME_BUILDER_REFUSED_LINE_PORT:
        return "a pair line of the sheet names a port outside 1 to ports";
    case FRAME_BUILDER_REFUSED_SHEET_LENGTH:
        return "the sheet is longer than 32,768 bytes";
    case FRAME_BUILDER_REFUSED_SLOT_NUMBER:
        return "the slot or the start is outside 1 to slots";
    case FRAME_BUILDER_REFUSED_FLOW_OR_PORT:
        return "the flow is not in the list, or the port is outside 1 to ports";
    case FRAME_BUILDER_REFUSED_RUN_LENGTH:
        return "the run is longer than 1,000,000 slots";
    case FRAME_BUILDER_REFUSED_ENTRIES:
        return "an entry of the frame is wrong, or a port is used twice in a slot";
    case FRAME_BUILDER_REFUSED_SECOND_LENGTH:
        return "the second buffer's length differs from the frame's";
    case FRAME_BUILDER_REFUSED_TOO_MANY_FLOWS:
        return "there are more than 512 flows";
    case FRAME_BUILDER_REFUSED_FLOW_PORT:
        return "a flow's input or output is outside 1 to ports";
    case FRAME_BUILDER_REFUSED_FLOW_LINK:
        return "a flow's link is outside 1 to 4";
    case FRAME_BUILDER_REFUSED_LINK_LOAD:
        return "a link's load is above its limit";
    case FRAME_BUILDER_FAULT_WRONG_ENTRY:
        return "an entry of the frame is no flow of its port";
    case FRAME_BUILDER_FAULT_PORT_TWICE:
        return "a port of the other side is used twice in a slot";
    case FRAME_BUILDER_FAULT_FLOW_COUNT:
        return "a flow is in the wrong number of slots";
    case FRAME_BUILDER_FAULT_UNBALANCED_BLOCK:
        return "a block of slots is unbalanced";
    default:
        return "not a number of the frame builder";
    }
}

/* What an answer of Inspect means: "clean" for 0, and the same text for every other number. Never null. */
static inline const char *frame_builder_inspect_text(size_t number)
{
    return number == FRAME_BUILDER_CLEAN ? "clean" : frame_builder_text(number);
}

#ifdef __cplusplus
extern "C" {
#endif

/* In the tables FRAME_BUILDER_ is left out before each name. */

/* Admit: whether Build would accept the list with these limits, and a frame of its length.
 *
 *     answer                  *first                   *second                             *third
 *     ACCEPTED                0                        0                                   0
 *     REFUSED_PORTS           0                        0                                   0
 *     REFUSED_SLOTS           0                        0                                   0
 *     REFUSED_LIST_LENGTH     0                        0                                   0
 *     REFUSED_TOO_MANY_FLOWS  0                        0                                   0
 *     REFUSED_FLOW_PORT       0                        0                                   0
 *     REFUSED_FLOW_LINK       0                        0                                   0
 *     REFUSED_INPUT_LOAD      the lowest such input    its load, slots + 1 to 33,553,920   0
 *     REFUSED_OUTPUT_LOAD     the lowest such output   its load, slots + 1 to 33,553,920   0
 *     REFUSED_LINK_LOAD       the lowest such output   its lowest such link                that link's load, limit + 1 to slots
 */
size_t frame_builder_admit(size_t ports, size_t slots, const uint16_t *list, size_t list_length, const uint16_t *limits, size_t *first,
                           size_t *second, size_t *third);

/* Build: fills the frame, every entry of it, on the input side, and says how many odd counts it settled.
 *
 * Those are, over all blocks of 2 or more slots, the flows with an odd number of cells in that block of the frame: the halves of the block
 * cannot have as many cells each, so that Build has to find which gets one more. They say how much work the build was: its instructions
 * grow with them, as docs/FIGURES.md has it. There are 0 to ports x slots x k of them, where slots are 2^k. A flow of one cell for each
 * pair, in as many slots as ports, comes to that: 1,024 for 16 x 16. No block has more of them than the list has flows, so that there are
 * 97,792 at most for 16 x 1,024. All this is proved but for what it says of instructions.
 *
 *     answer                  *first                   *second                             *third             frame
 *     ACCEPTED                the odd counts settled   0                                   0                  the frame of the list
 *     REFUSED_PORTS           0                        0                                   0                  as it was
 *     REFUSED_SLOTS           0                        0                                   0                  as it was
 *     REFUSED_LIST_LENGTH     0                        0                                   0                  as it was
 *     REFUSED_TOO_MANY_FLOWS  0                        0                                   0                  as it was
 *     REFUSED_FLOW_PORT       0                        0                                   0                  as it was
 *     REFUSED_FLOW_LINK       0                        0                                   0                  as it was
 *     REFUSED_FRAME_LENGTH    0                        0                                   0                  as it was
 *     REFUSED_INPUT_LOAD      the lowest such input    its load, slots + 1 to 33,553,920   0                  as it was
 *     REFUSED_OUTPUT_LOAD     the lowest such output   its load, slots + 1 to 33,553,920   0                  as it was
 *     REFUSED_LINK_LOAD       the lowest such output   its lowest such link                that link's load   as it was
 */
size_t frame_builder_build(size_t ports, size_t slots, const uint16_t *list, size_t list_length, const uint16_t *limits, uint16_t *frame,
                           size_t frame_length, size_t *first, size_t *second, size_t *third);

/* Inspect: whether a frame from anywhere, on the side that is told, is legal for the list and balanced; if not, its first fault. Each kind
 * of fault is looked for in the whole frame before the next kind. An entry is wrong that is above the number of flows, or that is the
 * number of a flow of another port of the frame's side than the one at whose place it stands: of another input on the input side, of
 * another output on the output side. A port of the other side is used twice in a slot where two or more entries of the slot are numbers of
 * its flows. A block is unbalanced where its halves differ by more than one cell of some flow, input, output or link, or in total. Inspect
 * is not told the limits, so that a list that Build refuses for a link's load may have clean frames.
 *
 * With FAULT_WRONG_ENTRY *second is the port of the frame's side at whose place the entry stands: an input on the input side, an output on
 * the output side. With FAULT_PORT_TWICE *second is the port of the other side: an output on the input side, an input on the output side.
 *
 *     answer                  *first                   *second                             which, of several
 *     CLEAN                   0                        0
 *     REFUSED_PORTS           0                        0
 *     REFUSED_SLOTS           0                        0
 *     REFUSED_LIST_LENGTH     0                        0
 *     REFUSED_TOO_MANY_FLOWS  0                        0
 *     REFUSED_FLOW_PORT       0                        0
 *     REFUSED_FLOW_LINK       0                        0
 *     REFUSED_FRAME_LENGTH    0                        0
 *     FAULT_WRONG_ENTRY       the slot                 the port of the frame's side        the lowest such slot, then port
 *     FAULT_PORT_TWICE        the slot                 the port of the other side          the lowest such slot, then port
 *     FAULT_FLOW_COUNT        the flow                 0                                   the first such flow in the list
 *     FAULT_UNBALANCED_BLOCK  the block's first slot   its size in slots                   the largest such block, then the earliest
 */
size_t frame_builder_inspect(size_t side, size_t ports, size_t slots, const uint16_t *list, size_t list_length, const uint16_t *frame,
                             size_t frame_length, size_t *first, size_t *second);

/* Turn: writes the frame by the other side to the second buffer, every entry of it. The side that is told is the frame's own. So whoever
 * turns a frame back tells the other side. Each flow stands in the same slots as before, now at its port of the other side, and every place
 * without a flow is 0. The frame itself is only read.
 *
 * A frame that has a wrong entry, or a port of the other side twice in a slot, cannot be turned. It is refused with REFUSED_ENTRIES, and
 * Inspect, told the same side, says which entry or which port: FAULT_WRONG_ENTRY or FAULT_PORT_TWICE. Any other frame is turned, also one
 * that has a flow in the wrong number of slots or an unbalanced block.
 *
 * A turned frame is accepted by Turn told the other side, which gives the first entries again. Where a frame turns, the sides agree:
 * Inspect, told the other side, answers of the turned frame what it answers of the frame, with the same values. Service count does so too,
 * for every flow, input and output and every run: the cells are the same, and so is the lead. What an accepted Build leaves turns, and is
 * clean on the output side. All this is proved. It follows that the turned frame is balanced where the frame is.
 *
 *     answer                  second buffer
 *     ACCEPTED                the frame by the other side
 *     REFUSED_PORTS           as it was
 *     REFUSED_SLOTS           as it was
 *     REFUSED_LIST_LENGTH     as it was
 *     REFUSED_TOO_MANY_FLOWS  as it was
 *     REFUSED_FLOW_PORT       as it was
 *     REFUSED_FLOW_LINK       as it was
 *     REFUSED_FRAME_LENGTH    as it was
 *     REFUSED_SECOND_LENGTH   as it was
 *     REFUSED_ENTRIES         as it was
 */
size_t frame_builder_turn(size_t side, size_t ports, size_t slots, const uint16_t *list, size_t list_length, const uint16_t *frame,
                          size_t frame_length, uint16_t *second, size_t second_length);

/* Slot view: which part of the caller's frame is the slot. It begins at frame + *start and has *size entries. It is the same part on either
 * side, so that Slot view is not told the side.
 *
 *     answer                  *start                   *size
 *     ACCEPTED                (slot - 1) x ports       ports
 *     REFUSED_PORTS           0                        0
 *     REFUSED_SLOTS           0                        0
 *     REFUSED_FRAME_LENGTH    0                        0
 *     REFUSED_SLOT_NUMBER     0                        0
 */
size_t frame_builder_slot_view(size_t ports, size_t slots, const uint16_t *frame, size_t frame_length, size_t slot, size_t *start,
                               size_t *size);

/* Service count: the cells of a flow, of an input or of an output in a run of the frame, `length` slots from slot `start` on, and the lead
 * of that run; after the last slot comes slot 1 again. The frame is on the side that is told, and may have any entries. A flow's cells are
 * the entries that are its number, at whatever port they stand. The cells of a port of the frame's side are its entries that are not 0. The
 * cells of a port of the other side are the entries that are the number of one of its flows, at whatever port they stand. So an entry above
 * the number of flows counts for its input only on the input side, and for its output only on the output side. REFUSED_SLOT_NUMBER is about
 * the start, REFUSED_FLOW_OR_PORT about the flow, the input or the output that is asked for.
 *
 * The lead says how far the run is ahead of its share:
 *
 *     slots x the cells of the run - length x the cells of the same flow, input or output in one whole frame, as counted in that frame
 *
 * Its unit is 1/slots of a cell: divided by slots, it is how many cells the run has had above its share, and it is negative where the run
 * is behind. Length 0 and whole turns of the frame have lead 0, so that a whole turn more or less leaves the lead as it is. Whatever the
 * entries, |lead| is at most slots x slots / 4 for a port of the frame's side, and ports times as much for a flow or a port of the other
 * side, whose cells may stand at every port in the same slot; this follows from what the lead is, and is no theorem of its own.
 *
 * No call counts a link or the total: both are sums of these answers for the same start and length. The cells of a link are the sum of the
 * cells of its flows, and its lead is the sum of their leads. The cells of the total are the sum of the cells of all ports of the other
 * side, 1 to ports, and its lead is the sum of their leads. So an entry above the number of flows counts for no link and not for the total.
 *
 * For a frame that Build made, counted with the ports, slots and list that Build was given, 3 x |lead| <= (2k + 1) x slots, where slots are
 * 2^k, and |lead| is at most the bound that Depth answers for the same flow, input or output, and at most what stands here. All three are
 * proved, for every flow, input and output and every run. They hold of such a frame turned too, since its counts are the same.
 *
 *     slots     1     2     4     8    16    32    64   128     256     512   1,024
 *     |lead|    0     1     4    12    36    92   228   540   1,252   2,844   6,372
 *
 *     answer                  *cells                        *lead
 *     ACCEPTED                the cells, 0 to 16,000,000    the lead, -4,194,304 to 4,194,304
 *     REFUSED_PORTS           0                             0
 *     REFUSED_SLOTS           0                             0
 *     REFUSED_LIST_LENGTH     0                             0
 *     REFUSED_TOO_MANY_FLOWS  0                             0
 *     REFUSED_FLOW_PORT       0                             0
 *     REFUSED_FLOW_LINK       0                             0
 *     REFUSED_FRAME_LENGTH    0                             0
 *     REFUSED_SLOT_NUMBER     0                             0
 *     REFUSED_FLOW_OR_PORT    0                             0
 *     REFUSED_RUN_LENGTH      0                             0
 */
size_t frame_builder_count_flow(size_t side, size_t ports, size_t slots, const uint16_t *list, size_t list_length, const uint16_t *frame,
                                size_t frame_length, size_t flow, size_t start, size_t length, size_t *cells, int64_t *lead);
size_t frame_builder_count_input(size_t side, size_t ports, size_t slots, const uint16_t *list, size_t list_length, const uint16_t *frame,
                                 size_t frame_length, size_t input, size_t start, size_t length, size_t *cells, int64_t *lead);
size_t frame_builder_count_output(size_t side, size_t ports, size_t slots, const uint16_t *list, size_t list_length, const uint16_t *frame,
                                  size_t frame_length, size_t output, size_t start, size_t length, size_t *cells, int64_t *lead);

/* Depth: how far from its share a flow, an input or an output can get on the wire, and how many cells a buffer for it has to hold. Both go
 * by its load alone, which is looked up in the list. No frame and no limits are asked for.
 *
 * The bound is in parts of 1/slots of a cell. Let Build make frames, of any lists, in all of which the load is this one, and let each be
 * carried any number of times. Then in no run of slots, over seams too, are the cells more than the bound above their share, or more than
 * the bound below it. For every load there are frames of Build and runs that come to it, above and below. This is proved.
 *
 * The cells to order are for an even source, from which in no run of slots do more cells arrive than the run's share, rounded up:
 *
 *     (slots - 1 + the bound + the load) / slots, rounded down
 *
 * So many cells wait at most, counted in each slot after its cells have arrived and before one leaves. This is proved too. For another
 * source, its own allowance stands in the place of slots - 1. A source has the allowance a if in no run of slots do more cells arrive than
 * the run's share and a/slots of a cell. Where cells arrive c at once, evenly otherwise, a is c x slots - 1. Where they come from another
 * such switch with as many slots, a is the bound. docs/BUFFERS.md says what holds where the load changes from frame to frame, and for the
 * card of a link.
 *
 *     answer                  *first                   *second
 *     ACCEPTED                the bound, 0 to 7,054    the cells to order, 0 to 8
 *     REFUSED_PORTS           0                        0
 *     REFUSED_SLOTS           0                        0
 *     REFUSED_LIST_LENGTH     0                        0
 *     REFUSED_TOO_MANY_FLOWS  0                        0
 *     REFUSED_FLOW_PORT       0                        0
 *     REFUSED_FLOW_LINK       0                        0
 *     REFUSED_INPUT_LOAD      the lowest such input    its load, slots + 1 to 33,553,920
 *     REFUSED_OUTPUT_LOAD     the lowest such output   its load, slots + 1 to 33,553,920
 *     REFUSED_FLOW_OR_PORT    0                        0
 */
size_t frame_builder_depth_flow(size_t ports, size_t slots, const uint16_t *list, size_t list_length, size_t flow, size_t *first,
                                size_t *second);
size_t frame_builder_depth_input(size_t ports, size_t slots, const uint16_t *list, size_t list_length, size_t input, size_t *first,
                                 size_t *second);
size_t frame_builder_depth_output(size_t ports, size_t slots, const uint16_t *list, size_t list_length, size_t output, size_t *first,
                                  size_t *second);

#ifdef __cplusplus
}
#endif

#endif

/* A Build that writes one entry past the frame, to be linked in the place of the proved one with --wrap. */
#include "frame_builder.h"

size_t __real_frame_builder_build(size_t ports, size_t slots, const uint16_t *list, size_t list_length, const uint16_t *limits,
                                  uint16_t *frame, size_t frame_length, size_t *first, size_t *second, size_t *third);

size_t __wrap_frame_builder_build(size_t ports, size_t slots, const uint16_t *list, size_t list_length, const uint16_t *limits,
                                  uint16_t *frame, size_t frame_length, size_t *first, size_t *second, size_t *third)
{
    frame[frame_length] = 0;
    return __real_frame_builder_build(ports, slots, list, list_length, limits, frame, frame_length, first, second, third);
}

/* Prints what the header has under names: its version and the library's, the lengths of buffers, where a point record
 * stands behind a byte, and the word for each number. */
#include "frontier.h"

#include <inttypes.h>
#include <stdio.h>

struct behind_a_byte {
    uint8_t byte;
    struct frontier_point point;
};

int main(void) {
    printf("%lu %" PRIu32 "\n", (unsigned long)FRONTIER_VERSION, frontier_version());
    printf("%u %u %u %u %u %u %u ", (unsigned)FRONTIER_COSTS_LEN, (unsigned)FRONTIER_CHOICES_LEN,
           (unsigned)FRONTIER_POINTS_LEN, (unsigned)FRONTIER_WORK_LEN, (unsigned)FRONTIER_TEXT_LEN,
           (unsigned)FRONTIER_SLOT_BYTES, (unsigned)FRONTIER_MAX_SLOTS);
    printf("%u %u %u %u %u %u\n", (unsigned)FRONTIER_MAX_BATCH, (unsigned)FRONTIER_FRAME_BYTES,
           (unsigned)FRONTIER_RESULT_LEN, (unsigned)FRONTIER_BATCH_COSTS_LEN, (unsigned)FRONTIER_BATCH_CHOICES_LEN,
           (unsigned)FRONTIER_BATCH_RESULTS_LEN);
    printf("%u\n", (unsigned)offsetof(struct behind_a_byte, point));
    for (unsigned number = 0; number < 256; number++)
        printf("%u %s\n", number, frontier_word((uint8_t)number));
    return 0;
}

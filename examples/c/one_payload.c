/* One payload, the first of its programme. README.md has the line that compiles this. */
#include <inttypes.h>
#include <stdio.h>

#include "cepokaran.h"

static int16_t retained[CEPOKARAN_RETAINED_LENGTH], start[CEPOKARAN_START_LENGTH], blocks[CEPOKARAN_BLOCKS_LENGTH];
static uint16_t timings[CEPOKARAN_TIMINGS_LENGTH];

int main(void)
{
    const uint8_t payload[] = {0x01, 0x04, 0x48, 0x00, 0x06, 0x00};
    uint32_t answer[CEPOKARAN_ANSWER_LENGTH] = {0};
    oamd_start(retained, CEPOKARAN_RETAINED_LENGTH);
    uint32_t number = oamd_decode(payload, sizeof payload, retained, CEPOKARAN_RETAINED_LENGTH, start,
                                  CEPOKARAN_START_LENGTH, blocks, CEPOKARAN_BLOCKS_LENGTH, timings,
                                  CEPOKARAN_TIMINGS_LENGTH, answer);
    printf("objects %" PRIu32 ", blocks %" PRIu32 ", unsettled %" PRIu32 "\n", answer[CEPOKARAN_OBJECTS],
           answer[CEPOKARAN_BLOCKS], answer[CEPOKARAN_UNSETTLED]);
    return number != CEPOKARAN_ACCEPTED;
}

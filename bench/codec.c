/*
 * What the record costs at every call: decoding it, and writing it back, by functions that the bench alone exports (crates/yardstick).
 *
 *     codec decode|both N ITEMS
 */
#include "lentoquist.h"
#include "mark.h"

#include <stdio.h>
#include <stdlib.h>
#include <string.h>

uint64_t lq_yardstick_decode(const uint8_t *record, size_t record_len);
uint64_t lq_yardstick_both(uint8_t *record, size_t record_len);

static uint8_t memory[LQ_MEMORY_MIN], holding[LQ_HOLDING_SIZE], outgoing[LQ_OUTGOING_SIZE];
static uint8_t record[LQ_RECORD_SIZE];

int main(int argc, char **argv)
{
    if (argc != 4) return 1;
    unsigned items = (unsigned)strtoul(argv[3], NULL, 10);
    lq_reset(record, sizeof record);
    lq_attention(memory, sizeof memory, holding, sizeof holding, outgoing, sizeof outgoing, record, sizeof record);
    for (unsigned i = 0; i < items; i++) {
        uint64_t is_image;
        if (strcmp(argv[1], "decode") == 0) {
            MARK_BEGIN(1);
            is_image = lq_yardstick_decode(record, sizeof record);
            MARK_END(1);
        } else {
            MARK_BEGIN(1);
            is_image = lq_yardstick_both(record, sizeof record);
            MARK_END(1);
        }
        if (is_image != 1) {
            fprintf(stderr, "codec: an initialised record was not taken\n");
            return 1;
        }
    }
    return 0;
}

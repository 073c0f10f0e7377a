/* How often which refusal of block 0 was met, alone and before another that has to wait behind it. */
#ifndef RIG_TALLY_HEAD_H
#define RIG_TALLY_HEAD_H

#include "reference.h"

enum head_row {
    HEAD_16,
    HEAD_17,
    HEAD_18,
    HEAD_19,
    HEAD_2_BEFORE,        /* one of 16 to 19 */
    HEAD_3_BEFORE,
    HEAD_16_BEFORE_17,
    HEAD_16_BEFORE_18,
    HEAD_16_BEFORE_19,
    HEAD_17_BEFORE_18,
    HEAD_17_BEFORE_19,
    HEAD_18_BEFORE_19,
    HEAD_19_BEFORE_LATER, /* a later block whose check differs */
    HEAD_19_AT_3,
    HEAD_19_AT_18,
    HEAD_19_INSIDE,
    HEAD_19_AT_509,
    HEAD_19_AT_3_AND_TAIL,
    HEAD_19_TAILS,        /* two or more of bytes 18 to 509 */
    HEAD_ROWS
};

struct head_tally {
    uint64_t row[HEAD_ROWS];
};

const char *head_row_name(enum head_row row);

/* Of a refused file, with what is told of it. */
void tally_head(struct head_tally *t, const uint8_t *file, size_t file_len, uint32_t told);

/* Whether nothing of a kind was met, which is then said: 1 or 0. */
size_t missing(const char *name, uint64_t count);

#endif

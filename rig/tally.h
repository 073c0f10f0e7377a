/* How many of what were compared. */
#ifndef RIG_TALLY_H
#define RIG_TALLY_H

#include "compare.h"
#include "tally_head.h"

enum tally_row {
    ROW_FILES,
    ROW_ACCEPTED,
    ROW_REFUSED_1,
    ROW_REFUSED_2_HEAD,
    ROW_REFUSED_2_LATER,
    ROW_REFUSED_3_HEAD,
    ROW_REFUSED_3_LATER,
    ROW_REFUSED_5_FIRST,
    ROW_REFUSED_5_LATER,
    ROW_REFUSED_5_LAST,
    ROW_REFUSED_6,
    ROW_SEVERAL_DEFECTS,
    ROW_NO_ENTRIES,
    ROW_EMPTY_BLOCK,
    ROW_HALF_BLOCK,
    ROW_FULL_BLOCK,
    ROW_BLOCKS_128,
    ROW_ENTRIES_5334,
    ROW_N_1,
    ROW_N_16,
    ROW_S_2,
    ROW_S_MOST,
    ROW_V_0,
    ROW_V_MOST,
    ROW_LOG_LONGER,
    ROW_ENTRIES,
    ROW_REQUESTS,
    ROW_STEPS_ON,
    ROW_LOADS_3_CURRENT,
    ROW_LOADS_3_NOT_CURRENT,
    ROW_LOADS_5,
    ROW_STORES_DONE,
    ROW_STORES_NOT_DONE,
    ROW_CHECKS_YES,
    ROW_CHECKS_NO,
    ROW_ENTRY_11,
    ROW_ENTRY_12,
    ROW_ENTRY_13,
    ROW_ENTRY_14,
    ROW_CHANGES,
    ROW_HISTORIES,
    ROW_HISTORY_CALLS,
    ROW_HISTORIES_STEP_5,
    ROW_HISTORIES_UNANSWERED,
    ROWS
};

struct tally {
    uint64_t row[ROWS];
    struct head_tally head; /* refused files, by block 0 */
    uint64_t n[PROCESSES + 1]; /* accepted files of each N */
    uint64_t style[STYLES];
    uint64_t defect[DEFECTS];
};

void tally_sample(struct tally *t, const struct sample *f);
void tally_result(struct tally *t, const uint8_t *file, size_t file_len, size_t log_len, const struct compared *c);
void tally_print(const struct tally *t, bool samples);
size_t tally_missing(const struct tally *t); /* prints and counts the rows of which there was none */

#endif

/* How many texts and files of which kind were compared. */
#ifndef RIG_TALLY_TEXTS_H
#define RIG_TALLY_TEXTS_H

#include "compare_texts.h"
#include "tally_head.h"
#include "typed.h"

enum text_row {
    TEXT_ACCEPTED,
    TEXT_25,
    TEXT_16,
    TEXT_17,
    TEXT_26,
    TEXT_27,
    TEXT_25_LINE_1,
    TEXT_25_LATER,
    TEXT_25_FAR,        /* a line that even a text of too many entries reaches late */
    TEXT_25_BEFORE_16,
    TEXT_25_BEFORE_17,
    TEXT_25_BEFORE_26,
    TEXT_25_BEFORE_27,
    TEXT_16_BEFORE_17,
    TEXT_16_BEFORE_26,
    TEXT_16_BEFORE_27,
    TEXT_17_BEFORE_26,
    TEXT_17_BEFORE_27,
    TEXT_26_BEFORE_27,
    TEXT_NO_ENTRIES,
    TEXT_ENTRIES_42,
    TEXT_ENTRIES_43,
    TEXT_ENTRIES_5334,
    TEXT_ALL_KINDS,
    TEXT_PROCESS_255,
    TEXT_VALUE_0,
    TEXT_VALUE_MOST,
    TEXT_N_1,
    TEXT_N_16,
    TEXT_S_2,
    TEXT_S_MOST,
    TEXT_V_0,
    TEXT_V_MOST,
    TEXT_EXACT_OUTPUT,
    TEXT_LONGER_OUTPUT,
    LIST_ACCEPTED,
    LIST_1,
    LIST_2,
    LIST_3,
    LIST_5,
    LIST_27,
    LIST_LATER_BLOCK,   /* refused for a block after block 0 */
    LIST_EXACT_OUTPUT,
    LIST_LONGER_OUTPUT,
    LIST_NO_ENTRIES,
    LIST_OTHER_PACKING, /* not as the writer packs */
    TEXT_ROWS
};

struct text_tally {
    uint64_t row[TEXT_ROWS];
    struct head_tally head; /* lists refused by block 0 */
    uint64_t fault[FAULTS];
    uint64_t texts;
    uint64_t edits; /* of one byte */
    uint64_t lists;
};

void tally_text(struct text_tally *m, const struct text *t, const struct job_done *d);
void tally_list(struct text_tally *m, const struct job *job, const struct job_done *d);
void text_tally_print(const struct text_tally *m);
size_t text_tally_missing(const struct text_tally *m); /* prints and counts the rows of which there was none */

#endif

/* How many of what were met in the texts for the machine with reused numbers. */
#ifndef RIG_REUSE_TALLY_H
#define RIG_REUSE_TALLY_H

#include "reuse_typed.h"

enum reuse_row {
    REUSE_TEXTS,
    REUSE_PLAYED,
    REUSE_25_LINE_1,
    REUSE_25_LATER,
    REUSE_25_BEFORE_16,
    REUSE_25_BEFORE_24,
    REUSE_16,
    REUSE_24,
    REUSE_TOO_LONG,
    REUSE_NO_ENTRIES,
    REUSE_M_LEAST,
    REUSE_M_LEAST_1,
    REUSE_M_LEAST_7,
    REUSE_M_MOST,
    REUSE_ENTRIES,
    REUSE_REQUESTS,
    REUSE_STEPS_ON,
    REUSE_LOADS,
    REUSE_LOADS_MOVED, /* old isn't check */
    REUSE_LOADS_ROUND, /* old is check, and X has changed between the two */
    REUSE_STORES_DONE,
    REUSE_STORES_NOT_DONE,
    REUSE_CHECKS_YES,
    REUSE_CHECKS_NO,
    REUSE_ENTRY_11,
    REUSE_ENTRY_12,
    REUSE_ENTRY_14,
    REUSE_CHANGES,
    REUSE_WRAPS,
    REUSE_HITS,
    REUSE_INTERVALS,
    REUSE_ROWS
};

struct reuse_tally {
    uint64_t row[REUSE_ROWS];
    uint64_t n[REUSE_PROCESSES + 1]; /* texts played of each N */
    uint32_t most_jumps[REUSE_PROCESSES + 1];
    uint64_t kind[TYPED_KINDS];
    uint64_t style[RUN_STYLES];
};

void tally_typed(struct reuse_tally *t, const struct typed *text, struct refused refused);
void tally_run(struct reuse_tally *t, const struct reuse_run *run);
void tally_print(const struct reuse_tally *t);
size_t tally_missing(const struct reuse_tally *t); /* prints and counts what there was none of */

#endif

/* One text through the rig's own filter and through a program; the rig's own answers against the atomic word. */
#ifndef RIG_REUSE_COMPARE_H
#define RIG_REUSE_COMPARE_H

#include "reuse_process.h"
#include "reuse_tally.h"

struct comparison {
    const struct command *command;
    uint64_t seed;
    uint64_t index;
    size_t piece; /* see run_by_pipes */
    bool quiet;   /* says nothing */
};

/* Whether all holds: what is known of the text without reading it, the atomic word, and the program's output and messages. What doesn't is
 * said, and the text kept. */
bool compare_typed(const struct comparison *c, const struct typed *text, struct reuse_tally *tally);

#endif

/* Hostile input: bytes of every length from 0 to 66,560, most of them no schedule file. */
#ifndef RIG_MUTATE_H
#define RIG_MUTATE_H

#include "tally.h"

enum mutation {
    MUTATION_RANDOM,
    MUTATION_CUT,
    MUTATION_GROWN,
    MUTATION_FLIPPED,
    MUTATION_SEALED,
    MUTATION_HEAD,
    MUTATION_SPLICED,
    MUTATIONS
};

const char *mutation_name(enum mutation mutation);

/* The input of an index: its bytes, its length and the log's length. Even indices walk through all lengths. */
enum mutation mutate(struct prng *r, uint64_t index, struct sample *out);

#endif

/* Memory lent to the two that are compared, with known bytes around it, and what is said when they differ. */
#ifndef RIG_LENT_H
#define RIG_LENT_H

#include "schedules.h"

enum { GUARD = 64, PAGE = 4096, ARENA = 52 * PAGE }; /* room for the longest input or output and two guards */

/* Where lent bytes stand in their arena. Beside the arena, memory can't be reached at all: a read or a write there
 * ends the program. In the middle, 64 known bytes stand on both sides; at an edge, on one. */
enum standing { STAND_MIDDLE, STAND_AT_START, STAND_AT_END, STANDINGS };

struct arena {
    uint8_t *base;
};

/* A part of an arena with the guards around it. */
struct lent {
    uint8_t *bytes;
    size_t length;
    size_t before; /* guard bytes before and after */
    size_t after;
};

/* Who is at work on what, also when the program has to end at once. */
struct at_work {
    uint64_t seed;
    uint64_t index;
    const char *by;
    const uint8_t *input;
    size_t input_len;
};

extern struct at_work at_work;
extern size_t compared_same; /* for the last line */

void lent_start(uint64_t seed); /* once, before anything is lent */
struct arena arena_make(void);
struct lent lend(struct arena arena, size_t length, enum standing standing);
bool guards_hold(const struct lent *l);
const uint8_t *fill_bytes(uint64_t index); /* known bytes for a whole arena, others for another index */

/* False, for use behind an `or`. Says what is wrong, unless enough was said. */
bool complain(const char *what);

/* Keeps an input for a later look, /tmp/rig-fail-INDEX.bin; only the first ten of a run. */
void keep_file(const uint8_t *file, size_t file_len, uint64_t index);

/* Whether two lent parts of one length hold the same bytes; where not, it is said which they are and where they first differ. */
bool same_bytes(const char *which, const struct lent *own, const struct lent *proved);

#endif

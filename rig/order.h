/* The search for an order: can the calls of a short history be played, one after another, by the atomic linked word? */
#ifndef RIG_ORDER_H
#define RIG_ORDER_H

#include "reference.h"

enum { MOST_CALLS = 9 };

#define NEVER UINT32_MAX /* the answer place of a store that changed X and was not answered */

/* One call that must be played. Places are those of the entries. */
struct call {
    uint32_t asked;    /* of the request */
    uint32_t decided;  /* of step 8 for a store that is done, of the answering step for every other call */
    uint32_t answered; /* of the answering step, or NEVER */
    uint8_t process;
    uint8_t kind;
    uint8_t answer; /* an outcome of 2 to 6 */
    uint64_t value; /* what a store brings, what a load answered */
};

struct history {
    uint64_t first; /* V */
    size_t calls;
    struct call call[MOST_CALLS];
};

/* The calls of a run, from an accepted file and its log; false if they are more than MOST_CALLS. */
bool history_read(struct history *h, const uint8_t *file, size_t file_len, const uint8_t *log);

/* Which place of an earlier call has to come before the request of a later one. */
enum ordering {
    BY_ANSWER,  /* answered before the other was requested: document 01 */
    BY_DECISION /* decided before: asks for more, as a store is decided before it is answered */
};

bool order_exists(const struct history *h, enum ordering ordering);

#endif

/* Seeded random texts of schedules: in the form, out of range, and outside the form. */
#ifndef RIG_TYPED_H
#define RIG_TYPED_H

#include "schedules.h"
#include "texts.h"

enum {
    TEXT_ROOM = 200000, /* some more than the longest text with too many entries */
    PLANS_EVERY = 200,  /* of so many texts, twelve are planned, ten of them about 5,334 entries */
    MOST_DIGITS = 3000
};

enum fault {
    /* outside the form, as a rule */
    FAULT_LEADING_ZERO,
    FAULT_NO_LAST_NEWLINE,
    FAULT_RETURN,       /* byte 13 */
    FAULT_TWO_SPACES,
    FAULT_TAB,
    FAULT_SIGN,
    FAULT_LOWER_CASE,
    FAULT_LETTER,
    FAULT_NEAR_DIGIT,   /* a byte beside the digits in place of one */
    FAULT_NO_NUMBER,
    FAULT_PROCESS,      /* 256 and above */
    FAULT_VALUE,        /* 2^64 and above, V too */
    FAULT_FEW_FIELDS,
    FAULT_MANY_FIELDS,
    FAULT_OUTER_SPACE,  /* before or after a line */
    FAULT_SECOND_H,
    FAULT_H_MOVED,
    FAULT_NO_H,
    FAULT_EMPTY_LINE,
    FAULT_JOINED,       /* a newline is missing */
    FAULT_LINE_MOVED,
    FAULT_LINE_LOST,
    FAULT_LINE_TWICE,
    FAULT_NUL,
    FAULT_TAIL,         /* bytes after the last newline */
    FAULT_CUT,
    FAULT_BYTES,        /* some bytes changed, inserted or lost */
    FAULT_NOISE,        /* nothing but random bytes */
    FAULT_NO_TEXT,
    FORM_FAULTS,
    /* in the form */
    FAULT_N = FORM_FAULTS,
    FAULT_S,
    FAULT_MANY_ENTRIES,
    FAULT_SHORT_OUTPUT,
    FAULTS
};

struct text {
    uint64_t faults; /* one bit for each fault that was put in */
    size_t out_length;
    size_t length;
    uint8_t bytes[TEXT_ROOM];
    struct schedule schedule; /* what it tells, if no fault but a short output was put in */
};

const char *fault_name(enum fault fault);
bool has_fault(const struct text *t, enum fault fault);

void text_make(struct prng *r, uint64_t index, struct text *t);
/* Puts a fault in; where the text has no place for it, nothing happens. */
void spoil(struct prng *r, struct text *t, enum fault fault);

#endif

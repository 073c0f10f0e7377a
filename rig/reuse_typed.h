/* Seeded random texts for the machine with reused numbers: in the form, out of range, outside the form, and too long. */
#ifndef RIG_REUSE_TYPED_H
#define RIG_REUSE_TYPED_H

#include "reuse_runs.h"

enum typed_kind {
    TYPED_RUN,         /* in the form and in range */
    TYPED_CLOSED,      /* closed_3 */
    TYPED_LARGEST,     /* the same, of 1,048,576 bytes */
    TYPED_TOO_LONG,    /* of one byte more */
    TYPED_MANY_DIGITS, /* of 1,048,576 bytes, nearly all of them digits of N or M */
    TYPED_BAD_N,
    TYPED_BAD_M,
    TYPED_BAD_START, /* line 1 outside the form */
    TYPED_BAD_LINE,  /* a later one */
    TYPED_BAD_WHOLE, /* no bytes, no last newline, a return before each newline, and such */
    TYPED_CHANGED,   /* some bytes changed */
    TYPED_KINDS
};

const char *typed_kind_name(enum typed_kind kind);

enum { TYPED_ROOM = TEXT_MOST + 4096 };

struct typed {
    enum typed_kind kind;
    enum run_style style;   /* of its run, if it is one */
    bool known;             /* without reading the text it is known what it is refused by: */
    struct refused refused; /* this, with number 0 for a run */
    struct reuse_run run;
    size_t length;
    uint8_t bytes[TYPED_ROOM];
};

/* The text of an index. In TYPED_ROUND texts each line and number of the lists of what is refused comes once at least. */
enum { TYPED_ROUND = 400 };
void typed_make(struct prng *r, uint64_t index, struct typed *t);

/* From its run to its bytes. */
void type_run(struct typed *t);

/* closed3.text of the design's checks. Readers keep the first tags of every second interval. With figure 10's interval closed, as it is
 * printed, each of these makes a search jump twice; the writer's tags run over the end of their interval and into the one that is taken
 * next, and its last check says yes though it has stored and not loaded since. */
extern const char closed_3[];

/* Each adds to what is typed already; where there is no room, nothing. */
void type_bytes(struct typed *t, const void *bytes, size_t count);
void type_words(struct typed *t, const char *words);
void type_number(struct typed *t, uint64_t number);
void type_digits(struct prng *r, struct typed *t, size_t count); /* a number of so many digits */
void type_entries(struct typed *t, size_t from, size_t to);      /* of its run */

/* From a run in the form to a text that is refused: by one of the lists, in turn, or with some bytes changed. */
extern const size_t spoils;
void spoil_as_listed(struct prng *r, struct typed *t, size_t which);
void spoil_bytes(struct prng *r, struct typed *t);

#endif

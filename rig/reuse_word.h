/* An atomic linked word beside the machine with reused numbers: do the answers agree with it? */
#ifndef RIG_REUSE_WORD_H
#define RIG_REUSE_WORD_H

#include "reuse_text.h"

/* What is known of one process. */
struct word_caller {
    uint8_t kind;   /* of its open call, 0 if it is idle */
    uint8_t bit;    /* which that call brings, if it is a store */
    uint32_t steps; /* own steps of that call */
    uint32_t lost;  /* of an open load: each value that the word had since the request and has lost, one bit for each */
    uint32_t first_value; /* of an open load: the word's value and count at its first step */
    uint32_t first_count;
    uint32_t link;   /* the count at the latest load's answer */
    bool may_link;   /* the process may be linked to that count */
    bool may_not;    /* it may have no link, or one to a smaller count */
};

/* Its value is 2 * process + bit, at first 0. Tags aren't looked at. */
struct word {
    uint32_t processes;
    uint32_t value;
    uint32_t changes;
    struct word_caller caller[REUSE_PROCESSES];
};

/* Whether old equals check after a load, if that is known beside its answer. */
enum kept { KEPT_UNKNOWN, KEPT_SAME, KEPT_DIFFERENT };

void word_start(struct word *w, uint32_t processes);

/* Follows one entry; gives what is wrong with its record, or NULL.
 *
 * A store changes the word at its first step, if it goes on, and a check looks at the word at its step: both must do as the link says. A
 * load takes effect at some moment from its request to its answer: it answers the value that the word had then, and links to the count
 * of then. If that isn't the count at the answer, the link is behind for good. Where both may be, the next store or check
 * of the process before another change shows which it was.
 *
 * With `kept` known, the moment is, too. If old equals check, it is the third step: the answer is the value of then, the link is that
 * count. If they differ, it is the first step: the answer is the value of then, and the word has changed since. */
const char *word_follow(struct word *w, struct reuse_entry entry, struct reuse_record record, enum kept kept);

struct word_fault {
    const char *what; /* NULL if there is none */
    size_t place;     /* of the entry; the count of entries if the changes differ in the end */
};

/* Plays a run on a machine that is started already, and follows it: by the answers alone, or with what the machine kept, too. */
struct word_fault word_fault_of(struct reuse_machine *m, const struct reuse_run *run, bool with_kept);

#endif

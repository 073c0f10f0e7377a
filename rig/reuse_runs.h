/* Seeded random runs of the machine with reused numbers. */
#ifndef RIG_REUSE_RUNS_H
#define RIG_REUSE_RUNS_H

#include "prng.h"
#include "reuse_text.h"

enum run_style {
    RUN_ANY,        /* any kind by any process, refused ones too */
    RUN_POLITE,     /* only entries that are taken */
    RUN_REFUSED,    /* every second entry is refused */
    RUN_SEQUENTIAL, /* whole calls, one after another */
    RUN_FIGHT,      /* all load, then all store: one is done, the others are not */
    RUN_ONE_WRITER, /* a writer, and readers that stop within a load until the tags come round again */
    RUN_CHASE,      /* readers announce one tag after another, just before the writer's search passes */
    RUN_STYLES
};

const char *run_style_name(enum run_style style);

/* Machines that are wrong in one thing. */
enum wrong {
    WRONG_CLOSED,       /* the searched interval with its end, as figure 10 has it printed */
    WRONG_NOT_SEARCHED, /* A is read in vain */
    WRONG_NO_RESTART,   /* after a hit, the places before aren't searched again */
    WRONG_LAST_PLACE,   /* the last place of A isn't searched */
    WRONG_LENGTH,       /* D is 2N - 1 */
    WRONG_MODULUS,      /* M is 2D */
    WRONG_SILENT,       /* loads announce nothing */
    WRONG_LATE,         /* loads read check first and announce then */
    WRONG_STORE,        /* a store doesn't look at check */
    WRONG_CHECK,        /* a check doesn't */
    WRONGS
};

const char *wrong_name(enum wrong wrong);
bool can_be_wrong(enum wrong wrong, uint32_t processes); /* runs with so many processes can show it */
struct reuse_rules wrong_rules(enum wrong wrong, uint32_t processes, uint64_t modulus);

/* Fills in the entries of a run whose N and M are set, `limit` of them. They are made along a machine that goes by the rules given: where
 * that one is about to give a wrong answer, it is asked. */
void run_fill(struct prng *r, struct reuse_run *run, enum run_style style, size_t limit, const struct reuse_rules *rules);

#endif

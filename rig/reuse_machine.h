/* The machine with reused numbers in plain C: document 02's P9, after document 001's figures 9 and 10. State in place. */
#ifndef RIG_REUSE_MACHINE_H
#define RIG_REUSE_MACHINE_H

#include "outcomes.h"
#include "system.h"

enum { REUSE_PROCESSES = 16 };
#define MOST_MODULUS (UINT64_C(1) << 32)

/* Tag, process and bit in one word, so that X is moved and compared at once. */
struct stamp {
    uint64_t all; /* tag + 2^32 * process + 2^40 * bit */
};

/* What old and check are before the first load. X never is, so what has to equal X isn't either. */
#define NO_STAMP ((struct stamp){UINT64_MAX})

static inline struct stamp stamp_of(uint32_t tag, uint32_t process, uint32_t bit)
{
    return (struct stamp){(uint64_t)bit << 40 | (uint64_t)process << 32 | tag};
}

static inline uint32_t stamp_tag(struct stamp s)
{
    return (uint32_t)s.all;
}

static inline uint32_t stamp_process(struct stamp s)
{
    return (uint32_t)(s.all >> 32) & 0xFF;
}

static inline uint32_t stamp_bit(struct stamp s)
{
    return (uint32_t)(s.all >> 40) & 1;
}

static inline bool same_stamp(struct stamp a, struct stamp b)
{
    return a.all == b.all;
}

/* The load's step that writes the process's place of A. */
enum announcing { ANNOUNCE_AT_2, ANNOUNCE_AT_3, ANNOUNCE_NEVER };

/* What a machine goes by. With any of it changed the machine is a wrong one, and the rig's checks have to find it. */
struct reuse_rules {
    uint64_t modulus;          /* M: tags are below it */
    uint32_t length;           /* D: the next start moves by it */
    uint32_t reach;            /* how many tags from the next start on a search looks for: D, as its interval is half open */
    uint32_t places;           /* how many places of A a search reads: N */
    enum announcing announces; /* at step 2; at step 3, it is the check that is read at step 2 */
    bool hit_restarts;         /* after a hit the search starts anew at place 0 */
    bool store_looks_at_check; /* a store wants old to equal check, too */
    bool check_looks_at_check; /* and so does a check */
};

/* A place of A. */
struct announced {
    uint32_t process; /* or NOBODY */
    uint32_t tag;
};
#define NOBODY UINT32_MAX

/* Where a process stands in its call: the step that it takes next. */
enum reuse_place { AT_REST, AT_LOAD_1, AT_LOAD_2, AT_LOAD_3, AT_STORE_1, AT_STORE_2, AT_CHECK_1 };

/* What is private to one process. */
struct reuse_own {
    struct stamp old;
    struct stamp check;
    uint32_t tag; /* of its next store */
    uint32_t next_start;
    uint32_t search; /* the place of A that the next choice reads */
    uint32_t jumps;  /* how often the next start has moved by a hit since the latest new interval */
    enum reuse_place place;
    uint8_t steps; /* own steps of this call so far */
    uint8_t bit;   /* which its store brings */
};

/* What the choices of tags met. */
struct reuse_counts {
    uint64_t wraps;      /* a chosen tag is smaller than the one before */
    uint64_t hits;       /* the place of A that is read names the process and a tag of the interval */
    uint64_t intervals;  /* found free, and taken */
    uint32_t most_jumps; /* of one search */
};

struct reuse_machine {
    uint32_t processes; /* N */
    uint32_t changes;   /* how often X has changed */
    struct stamp x;
    struct announced announced[REUSE_PROCESSES]; /* A */
    struct reuse_own own[REUSE_PROCESSES];
    struct reuse_rules rules;
    struct reuse_counts counts;
};

struct reuse_entry {
    uint8_t kind;
    uint8_t process; /* 0 to 255 */
    uint8_t bit;     /* of a store, else 0 */
};

struct reuse_record {
    uint8_t outcome;
    uint8_t steps;   /* own steps of this call so far; 0 for a request or a refused entry */
    uint8_t process; /* these two: a load's answer, else 0 */
    uint8_t bit;
};

uint32_t interval_length(uint32_t processes); /* D */
uint64_t least_modulus(uint32_t processes);
struct reuse_rules right_rules(uint32_t processes, uint64_t modulus);

void reuse_start(struct reuse_machine *m, uint32_t processes, const struct reuse_rules *rules);
struct reuse_record reuse_play(struct reuse_machine *m, struct reuse_entry entry);

/* Without a step taken: what a store's first step, or a check, of an idle process would find. */
bool store_would_go_on(const struct reuse_machine *m, uint32_t p);
bool check_would_say_yes(const struct reuse_machine *m, uint32_t p);

/* How far it is from one tag up to another, round M. */
uint64_t tags_from_to(const struct reuse_rules *rules, uint32_t from, uint32_t to);

#endif

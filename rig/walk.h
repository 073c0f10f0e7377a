/* Reading an accepted file beside its log: the entries one after another, and what a record tells of the step behind it. */
#ifndef RIG_WALK_H
#define RIG_WALK_H

#include "reference.h"

/* Where an entry stands in a file of any packing. */
struct walk {
    const uint8_t *block;
    const uint8_t *end;
    size_t entry;
};

static inline struct walk walk_of(const uint8_t *file, size_t file_len)
{
    return (struct walk){file + BLOCK, file + file_len, 0};
}

/* NULL behind the last. */
static inline const uint8_t *next_entry(struct walk *w)
{
    while (w->block < w->end && w->entry == w->block[2]) {
        w->block += BLOCK;
        w->entry = 0;
    }
    return w->block < w->end ? w->block + ENTRIES_FROM + ENTRY * w->entry++ : NULL;
}

static inline const uint8_t *record_at(const uint8_t *log, uint32_t place)
{
    return log + LOG_HEAD + RECORD * (size_t)place;
}

/* A load's first own step is step 1. The own steps are counted by who asks, from the entries and their outcomes. */
static inline bool is_step_1(uint8_t kind, uint32_t steps)
{
    return kind == KIND_LOAD && steps == 1;
}

/* A store's second own step is step 8; when the call goes on after it, X has changed. */
static inline bool is_step_8(uint8_t kind, uint32_t steps)
{
    return kind == KIND_STORE && steps == 2;
}

/* A load answered by step 3 has three own steps; one answered by step 5 has four. */
static inline bool by_step_5(const uint8_t *record)
{
    return record[0] == LOAD_ANSWERED && record[2] == 4;
}

#endif

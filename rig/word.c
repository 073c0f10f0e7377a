#include "word.h"

#include "walk.h"

/* What the entries and outcomes so far tell of one process. */
struct caller {
    uint8_t kind;   /* of its open call, 0 if it is idle */
    uint64_t value; /* which that call brings, if it is a store */
    uint32_t steps; /* own steps of that call */
    bool loaded;    /* whether it ever took step 1 of a load: only then it has a link */
    uint32_t link;  /* the count of changes at the latest such step */
};

/* And of the word. Tags and registers are not looked at, nor the own steps that the log tells. */
struct told_word {
    uint64_t value; /* V, then that of the latest store that changed X */
    uint32_t changes;
    struct caller caller[PROCESSES];
};

/* Whether the process has a link and the word hasn't changed since. */
static bool linked(const struct told_word *w, const struct caller *own)
{
    return own->loaded && own->link == w->changes;
}

/* Each of the following gives what is wrong with a record, or NULL. */

static const char *load_fault(const struct told_word *w, const struct caller *own, const uint8_t *record)
{
    bool current = record[3] == MARK_CURRENT;
    if (!current && record[3] != MARK_NOT_CURRENT) {
        return "an answered load has neither mark 1 nor mark 2";
    }
    if (current && own->steps == 4) {
        return "a load answered by step 5 has mark 1";
    }
    if (current != linked(w, own)) {
        return current ? "a load has mark 1, but the word has changed since its step 1"
                       : "a load has mark 2, but the word has not changed since its step 1";
    }
    return current && get64(record + 4) != w->value ? "a load has mark 1, but not the word's value" : NULL;
}

/* At step 8, after which a store goes on or is answered "not done". */
static const char *store_fault(const struct told_word *w, const struct caller *own, const uint8_t *record)
{
    bool goes_on = record[0] == STEP_TAKEN;
    if (goes_on == linked(w, own)) {
        return NULL;
    }
    if (!goes_on) {
        return "a store is not done, but the word has not changed since its process's latest step 1 of a load";
    }
    return own->loaded ? "a store passes step 8, but the word has changed since its process's latest step 1 of a load"
                       : "a store passes step 8, but its process never took step 1 of a load";
}

static const char *check_fault(const struct told_word *w, const struct caller *own, const uint8_t *record)
{
    bool yes = record[0] == CHECK_YES;
    if (yes == linked(w, own)) {
        return NULL;
    }
    if (!yes) {
        return "a check says no, but the word has not changed since its process's latest step 1 of a load";
    }
    return own->loaded ? "a check says yes, but the word has changed since its process's latest step 1 of a load"
                       : "a check says yes, but its process never took step 1 of a load";
}

/* Whether a call of the open one's kind can have the outcome at the own step that is taken now. */
static bool can_have(const struct caller *own, uint8_t outcome)
{
    switch (outcome) {
    case STEP_TAKEN: return (own->kind == KIND_LOAD || own->kind == KIND_STORE) && own->steps <= 3;
    case LOAD_ANSWERED: return own->kind == KIND_LOAD && (own->steps == 3 || own->steps == 4);
    case STORE_DONE: return own->kind == KIND_STORE && own->steps == 4;
    case STORE_NOT_DONE: return own->kind == KIND_STORE && own->steps == 2;
    case CHECK_YES:
    case CHECK_NO: return own->kind == KIND_CHECK && own->steps == 1;
    default: return false;
    }
}

/* What every record has: the own steps of its call so far, 0 if it is no step's, and a mark only where a load is answered. */
static const char *record_fault(const uint8_t *record, uint32_t steps)
{
    if (record[2] != steps) {
        return steps == 0 ? "an entry that takes no step has own steps" : "a step has not the own steps of its call so far";
    }
    return record[0] != LOAD_ANSWERED && record[3] != MARK_NONE ? "a record has a mark, but no load is answered" : NULL;
}

static const char *step_fault(const struct told_word *w, const struct caller *own, const uint8_t *record)
{
    if (!can_have(own, record[0])) {
        return "a step has an outcome that its call can't have there";
    }
    const char *what = record_fault(record, own->steps);
    if (what != NULL) {
        return what;
    }
    if (record[0] == LOAD_ANSWERED) {
        return load_fault(w, own, record);
    }
    if (is_step_8(own->kind, own->steps)) {
        return store_fault(w, own, record);
    }
    return own->kind == KIND_CHECK ? check_fault(w, own, record) : NULL;
}

static const char *follow_request(struct caller *own, const uint8_t *entry, const uint8_t *record)
{
    own->kind = entry[0];
    own->value = get64(entry + 4);
    own->steps = 0;
    return record[0] != REQUEST_TAKEN ? "a request has the outcome of a step" : record_fault(record, 0);
}

/* Step 1 sets the link; a store that goes on after step 8 has changed the word; an answered call leaves its process idle. */
static void take_step(struct told_word *w, struct caller *own, uint8_t outcome)
{
    if (outcome != STEP_TAKEN) {
        own->kind = 0;
    } else if (is_step_1(own->kind, own->steps)) {
        own->loaded = true;
        own->link = w->changes;
    } else if (is_step_8(own->kind, own->steps)) {
        w->changes++;
        w->value = own->value;
    }
}

static const char *follow_step(struct told_word *w, struct caller *own, const uint8_t *record)
{
    own->steps++;
    const char *what = step_fault(w, own, record);
    take_step(w, own, record[0]);
    return what;
}

static const char *follow(struct told_word *w, const uint8_t *entry, const uint8_t *record)
{
    struct caller *own = &w->caller[entry[1] % PROCESSES];
    if (record[0] > CHECK_NO) {
        return record_fault(record, 0); /* a refused entry */
    }
    return entry[0] == KIND_STEP ? follow_step(w, own, record) : follow_request(own, entry, record);
}

struct word_fault find_word_fault(const uint8_t *file, size_t file_len, const uint8_t *log)
{
    struct told_word w = {.value = get64(file + 8)};
    struct walk at = walk_of(file, file_len);
    uint32_t place = 0;
    for (const uint8_t *entry = next_entry(&at); entry != NULL; entry = next_entry(&at), place++) {
        const char *what = follow(&w, entry, record_at(log, place));
        if (what != NULL) {
            return (struct word_fault){what, place};
        }
    }
    bool counted = get32(log + 4) == w.changes;
    return (struct word_fault){counted ? NULL : "the count of changes is not that of the stores that passed step 8", AT_HEAD};
}

#include "reuse_word.h"

void word_start(struct word *w, uint32_t processes)
{
    *w = (struct word){.processes = processes};
    for (uint32_t p = 0; p < REUSE_PROCESSES; p++) {
        w->caller[p].may_not = true;
    }
}

static uint32_t value_of(uint32_t process, uint32_t bit)
{
    return 2 * process + bit;
}

static bool may_be_linked(const struct word *w, const struct word_caller *own)
{
    return own->may_link && own->link == w->changes;
}

static bool must_be_linked(const struct word *w, const struct word_caller *own)
{
    return may_be_linked(w, own) && !own->may_not;
}

/* The answer of a store or a check has shown whether the process was linked. */
static void link_is(struct word *w, struct word_caller *own, bool linked)
{
    if (own->link == w->changes) {
        own->may_link = linked;
        own->may_not = !linked;
    }
}

static void change(struct word *w, uint32_t value)
{
    for (uint32_t p = 0; p < w->processes; p++) {
        w->caller[p].lost |= 1u << w->value;
    }
    w->value = value;
    w->changes++;
}

/* Each of the following gives what is wrong with a record, or NULL. */

static const char *known_moment_fault(const struct word *w, const struct word_caller *own, uint32_t answer, enum kept kept)
{
    if (kept == KEPT_SAME) {
        return answer != w->value ? "old equals check, but the answer isn't the word's value at the third step" : NULL;
    }
    if (answer != own->first_value) {
        return "old isn't check, and the answer isn't the word's value at the first step";
    }
    return own->first_count == w->changes ? "old isn't check, but the word hasn't changed since the first step" : NULL;
}

static const char *follow_answer(struct word *w, struct word_caller *own, struct reuse_record record, enum kept kept)
{
    uint32_t answer = value_of(record.process, record.bit);
    if (record.process >= w->processes || record.bit > 1) {
        return "a load answers no value at all";
    }
    own->link = w->changes;
    own->may_link = answer == w->value;
    own->may_not = (own->lost >> answer & 1) != 0;
    if (!own->may_link && !own->may_not) {
        return "a load answers a value that the word had at no moment from its request to its answer";
    }
    if (kept != KEPT_UNKNOWN) {
        own->may_link = kept == KEPT_SAME;
        own->may_not = !own->may_link;
        return known_moment_fault(w, own, answer, kept);
    }
    return NULL;
}

static const char *follow_store(struct word *w, struct word_caller *own, uint32_t p, bool goes_on)
{
    bool good = goes_on ? may_be_linked(w, own) : !must_be_linked(w, own);
    link_is(w, own, goes_on);
    if (goes_on) {
        change(w, value_of(p, own->bit));
    }
    if (good) {
        return NULL;
    }
    return goes_on ? "a store changes X, but its process isn't linked" : "a store is not done, but its process is linked";
}

static const char *follow_check(struct word *w, struct word_caller *own, bool yes)
{
    bool good = yes ? may_be_linked(w, own) : !must_be_linked(w, own);
    link_is(w, own, yes);
    if (good) {
        return NULL;
    }
    return yes ? "a check says yes, but its process isn't linked" : "a check says no, but its process is linked";
}

/* Whether a call of the open one's kind can have the outcome at the own step that is taken now. */
static bool can_have(const struct word_caller *own, uint8_t outcome)
{
    switch (outcome) {
    case STEP_TAKEN: return (own->kind == KIND_LOAD && own->steps <= 2) || (own->kind == KIND_STORE && own->steps == 1);
    case LOAD_ANSWERED: return own->kind == KIND_LOAD && own->steps == 3;
    case STORE_DONE: return own->kind == KIND_STORE && own->steps == 2;
    case STORE_NOT_DONE: return own->kind == KIND_STORE && own->steps == 1;
    case CHECK_YES:
    case CHECK_NO: return own->kind == KIND_CHECK && own->steps == 1;
    default: return false;
    }
}

static const char *follow_outcome(struct word *w, struct word_caller *own, uint32_t p, struct reuse_record record, enum kept kept)
{
    if (own->kind == KIND_LOAD && own->steps == 1) {
        own->first_value = w->value;
        own->first_count = w->changes;
    }
    switch (record.outcome) {
    case LOAD_ANSWERED: return follow_answer(w, own, record, kept);
    case STEP_TAKEN: return own->kind == KIND_STORE ? follow_store(w, own, p, true) : NULL;
    case STORE_NOT_DONE: return follow_store(w, own, p, false);
    case CHECK_YES:
    case CHECK_NO: return follow_check(w, own, record.outcome == CHECK_YES);
    default: return NULL;
    }
}

static const char *follow_step(struct word *w, struct word_caller *own, uint32_t p, struct reuse_record record, enum kept kept)
{
    own->steps++;
    if (!can_have(own, record.outcome)) {
        return "a step has an outcome that its call can't have there";
    }
    const char *what = follow_outcome(w, own, p, record, kept);
    if (record.outcome != STEP_TAKEN) {
        own->kind = 0;
    }
    if (what == NULL && record.steps != own->steps) {
        return "a step has not the own steps of its call so far";
    }
    return what;
}

static const char *follow_request(struct word_caller *own, struct reuse_entry entry)
{
    own->kind = entry.kind;
    own->bit = entry.bit;
    own->steps = 0;
    own->lost = 0;
    return NULL;
}

/* The outcome of an entry that takes no step, or STEP_TAKEN for one that must take one. */
static uint8_t wanted(const struct word *w, struct reuse_entry entry)
{
    if (entry.process >= w->processes) {
        return NO_SUCH_PROCESS;
    }
    bool idle = w->caller[entry.process].kind == 0;
    if (entry.kind == KIND_STEP) {
        return idle ? PROCESS_IDLE : STEP_TAKEN;
    }
    return idle ? REQUEST_TAKEN : CALL_OPEN;
}

static bool has_answer(struct reuse_record record)
{
    return record.process != 0 || record.bit != 0;
}

const char *word_follow(struct word *w, struct reuse_entry entry, struct reuse_record record, enum kept kept)
{
    uint8_t want = wanted(w, entry);
    if (record.outcome != LOAD_ANSWERED && has_answer(record)) {
        return "a record has a value, but no load is answered";
    }
    if (want == STEP_TAKEN) {
        return follow_step(w, &w->caller[entry.process], entry.process, record, kept);
    }
    if (record.outcome != want) {
        return "an entry that takes no step has another outcome";
    }
    if (record.steps != 0) {
        return "an entry that takes no step has own steps";
    }
    return want == REQUEST_TAKEN ? follow_request(&w->caller[entry.process], entry) : NULL;
}

static enum kept kept_by(const struct reuse_machine *m, uint32_t p)
{
    return p < m->processes && same_stamp(m->own[p].old, m->own[p].check) ? KEPT_SAME : KEPT_DIFFERENT;
}

struct word_fault word_fault_of(struct reuse_machine *m, const struct reuse_run *run, bool with_kept)
{
    struct word w;
    word_start(&w, m->processes);
    for (size_t i = 0; i < run->entries; i++) {
        struct reuse_record record = reuse_play(m, run->entry[i]);
        enum kept kept = with_kept ? kept_by(m, run->entry[i].process) : KEPT_UNKNOWN;
        const char *what = word_follow(&w, run->entry[i], record, kept);
        if (what != NULL) {
            return (struct word_fault){what, i};
        }
    }
    bool counted = m->changes == w.changes;
    return (struct word_fault){counted ? NULL : "the count of changes isn't that of the stores that went on", run->entries};
}

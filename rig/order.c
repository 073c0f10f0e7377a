#include "order.h"

#include "walk.h"

/* From entries and records to calls. */

struct open_call {
    bool open;
    bool changed;   /* a store that has passed step 8 with success */
    uint32_t steps; /* own steps so far that went on */
    struct call call;
};

static void ask(struct open_call *open, uint32_t place, const uint8_t *entry)
{
    *open = (struct open_call){.open = true};
    open->call = (struct call){.asked = place, .decided = NEVER, .answered = NEVER};
    open->call.kind = entry[0];
    open->call.process = entry[1];
    open->call.value = get64(entry + 4);
}

static void go_on(struct open_call *open, uint32_t place)
{
    open->steps++;
    if (is_step_8(open->call.kind, open->steps)) {
        open->changed = true;
        open->call.decided = place;
        open->call.answer = STORE_DONE;
    }
}

static void answer(struct open_call *open, uint32_t place, const uint8_t *record)
{
    open->open = false;
    open->call.answered = place;
    open->call.answer = record[0];
    if (!open->changed) {
        open->call.decided = place;
    }
    if (record[0] == LOAD_ANSWERED) {
        open->call.value = get64(record + 4);
    }
}

static bool add_call(struct history *h, const struct call *call)
{
    if (h->calls == MOST_CALLS) {
        return false;
    }
    h->call[h->calls++] = *call;
    return true;
}

/* Refused entries (outcomes 11 and above) are not calls. */
static bool follow(struct history *h, struct open_call *open, uint32_t place, const uint8_t *entry, const uint8_t *record)
{
    struct open_call *own = &open[entry[1] % PROCESSES];
    if (record[0] == REQUEST_TAKEN) {
        ask(own, place, entry);
    } else if (record[0] == STEP_TAKEN) {
        go_on(own, place);
    } else if (record[0] <= CHECK_NO) {
        answer(own, place, record);
        return add_call(h, &own->call);
    }
    return true;
}

static bool add_unanswered(struct history *h, const struct open_call *open)
{
    for (size_t p = 0; p < PROCESSES; p++) {
        if (open[p].open && open[p].changed && !add_call(h, &open[p].call)) {
            return false;
        }
    }
    return true;
}

bool history_read(struct history *h, const uint8_t *file, size_t file_len, const uint8_t *log)
{
    struct open_call open[PROCESSES] = {{.open = false}};
    struct walk at = walk_of(file, file_len);
    uint32_t place = 0;
    h->first = get64(file + 8);
    h->calls = 0;
    for (const uint8_t *entry = next_entry(&at); entry != NULL; entry = next_entry(&at), place++) {
        if (!follow(h, open, place, entry, record_at(log, place))) {
            return false;
        }
    }
    return add_unanswered(h, open);
}

/* The atomic linked word. */

struct word {
    uint64_t value;
    int64_t count;           /* of changes */
    int64_t link[PROCESSES]; /* -1 for none */
};

static bool word_plays(struct word *w, const struct call *c)
{
    bool linked = w->link[c->process] == w->count;
    switch (c->kind) {
    case KIND_LOAD:
        w->link[c->process] = w->count;
        return c->answer == LOAD_ANSWERED && c->value == w->value;
    case KIND_STORE:
        if (linked) {
            w->value = c->value;
            w->count++;
        }
        return c->answer == (linked ? STORE_DONE : STORE_NOT_DONE);
    default:
        return c->answer == (linked ? CHECK_YES : CHECK_NO);
    }
}

/* The search. `left` has a bit for each call that is not placed yet. */

static uint32_t ended(const struct call *c, enum ordering ordering)
{
    return ordering == BY_ANSWER ? c->answered : c->decided;
}

/* A call may stand next if none of the others that are left had ended before it was requested. */
static bool may_stand_next(const struct history *h, uint32_t left, size_t next, enum ordering ordering)
{
    for (size_t other = 0; other < h->calls; other++) {
        bool is_left = (left >> other & 1) != 0;
        if (is_left && other != next && ended(&h->call[other], ordering) < h->call[next].asked) {
            return false;
        }
    }
    return true;
}

static bool place_rest(const struct history *h, uint32_t left, const struct word *w, enum ordering ordering)
{
    if (left == 0) {
        return true;
    }
    for (size_t next = 0; next < h->calls; next++) {
        if ((left >> next & 1) == 0 || !may_stand_next(h, left, next, ordering)) {
            continue;
        }
        struct word after = *w;
        if (word_plays(&after, &h->call[next]) && place_rest(h, left & ~(1u << next), &after, ordering)) {
            return true;
        }
    }
    return false;
}

bool order_exists(const struct history *h, enum ordering ordering)
{
    struct word w = {.value = h->first, .count = 0};
    for (size_t p = 0; p < PROCESSES; p++) {
        w.link[p] = -1;
    }
    return place_rest(h, (1u << h->calls) - 1, &w, ordering);
}

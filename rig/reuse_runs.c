#include "reuse_runs.h"

#include "reuse_word.h"

/* Wrong machines. */

const char *wrong_name(enum wrong wrong)
{
    static const char *const names[WRONGS] = {
        "the interval is closed",        "no interval is searched",          "a hit doesn't restart the search",
        "the last place isn't searched", "D is 2N - 1",                      "M is 2D",
        "no load announces",             "loads announce after their check", "a store doesn't look at check",
        "a check doesn't look at check"};
    return wrong < WRONGS ? names[wrong] : "?";
}

bool can_be_wrong(enum wrong wrong, uint32_t processes)
{
    switch (wrong) {
    case WRONG_CLOSED: return processes == 3;
    case WRONG_NO_RESTART: return processes >= 3;
    default: return processes >= 2;
    }
}

struct reuse_rules wrong_rules(enum wrong wrong, uint32_t processes, uint64_t modulus)
{
    struct reuse_rules rules = right_rules(processes, modulus);
    switch (wrong) {
    case WRONG_CLOSED: rules.reach++; break;
    case WRONG_NOT_SEARCHED: rules.reach = 0; break;
    case WRONG_NO_RESTART: rules.hit_restarts = false; break;
    case WRONG_LAST_PLACE: rules.places--; break;
    case WRONG_LENGTH: rules.length = rules.reach = 2 * processes - 1; break;
    case WRONG_MODULUS: rules.modulus = 2 * (uint64_t)rules.length; break;
    case WRONG_SILENT: rules.announces = ANNOUNCE_NEVER; break;
    case WRONG_LATE: rules.announces = ANNOUNCE_AT_3; break;
    case WRONG_STORE: rules.store_looks_at_check = false; break;
    case WRONG_CHECK: rules.check_looks_at_check = false; break;
    default: break;
    }
    return rules;
}

/* Entries are made along a running machine, so that a style knows who is idle, and along the word, so that it knows who is linked. */

struct maker {
    struct prng *r;
    struct reuse_run *run;
    size_t limit;
    uint32_t writer;
    bool one_bit;        /* all stores bring 0: only then X can be the same again soon */
    uint32_t sloppiness; /* one in so many things is done otherwise than is best; 0: none */
    struct reuse_machine m;
    struct word w;
};

static bool full(const struct maker *k)
{
    return k->run->entries >= k->limit;
}

static void emit(struct maker *k, uint8_t kind, uint32_t p)
{
    if (full(k)) {
        return;
    }
    uint8_t bit = kind == KIND_STORE && !k->one_bit ? (uint8_t)below(k->r, 2) : 0;
    struct reuse_entry entry = {kind, (uint8_t)p, bit};
    k->run->entry[k->run->entries++] = entry;
    word_follow(&k->w, entry, reuse_play(&k->m, entry), KEPT_UNKNOWN);
}

static enum reuse_place place_of(const struct maker *k, uint32_t p)
{
    return k->m.own[p].place;
}

static bool idle(const struct maker *k, uint32_t p)
{
    return place_of(k, p) == AT_REST;
}

static bool is_sloppy(struct maker *k)
{
    return k->sloppiness > 0 && chance(k->r, 1, k->sloppiness);
}

static uint32_t some_process(struct maker *k)
{
    return below(k->r, k->run->processes);
}

static uint8_t some_request(struct maker *k)
{
    return (uint8_t)between(k->r, KIND_LOAD, KIND_CHECK);
}

static void finish(struct maker *k, uint32_t p)
{
    while (!idle(k, p) && !full(k)) {
        emit(k, KIND_STEP, p);
    }
}

static void whole_call(struct maker *k, uint8_t kind, uint32_t p)
{
    emit(k, kind, p);
    finish(k, p);
}

/* Whoever isn't linked but would get an answer from the machine as if it were asks for it. Those whose old or check is X, which would get
 * such an answer from a machine that looks at one of them alone, ask now and then. */
static void ask_for_wrong_answers(struct maker *k)
{
    for (uint32_t p = 0; p < k->run->processes; p++) {
        const struct reuse_own *own = &k->m.own[p];
        bool linked = k->w.caller[p].may_link && k->w.caller[p].link == k->w.changes;
        if (!idle(k, p) || linked) {
            continue;
        }
        bool tempted = (same_stamp(k->m.x, own->old) && chance(k->r, 1, 2)) || (same_stamp(k->m.x, own->check) && chance(k->r, 1, 20));
        if (tempted || check_would_say_yes(&k->m, p)) {
            whole_call(k, KIND_CHECK, p);
        }
        if (tempted || store_would_go_on(&k->m, p)) {
            whole_call(k, KIND_STORE, p);
        }
    }
}

/* Short runs will do for these. */

/* A store has a hope after a load only, so loads and stores come about equally often, checks seldom. */
static uint8_t taken_kind(struct maker *k)
{
    uint32_t pick = below(k->r, 9);
    return pick == 0 ? KIND_CHECK : pick < 5 ? KIND_STORE : KIND_LOAD;
}

static void polite_entry(struct maker *k, uint32_t p)
{
    emit(k, idle(k, p) ? taken_kind(k) : KIND_STEP, p);
}

static void fill_any(struct maker *k)
{
    while (!full(k)) {
        uint32_t p = chance(k->r, 1, 20) ? below(k->r, 256) : some_process(k);
        emit(k, chance(k->r, 1, 2) ? KIND_STEP : some_request(k), p);
    }
}

static void fill_polite(struct maker *k)
{
    while (!full(k)) {
        polite_entry(k, some_process(k));
    }
}

/* One entry that is refused by 11, 12 or 14. */
static void refused_entry(struct maker *k)
{
    uint32_t p = some_process(k);
    if (chance(k->r, 1, 3)) {
        uint32_t beyond = chance(k->r, 1, 2) ? k->run->processes : between(k->r, k->run->processes, 255);
        emit(k, (uint8_t)between(k->r, KIND_LOAD, KIND_STEP), beyond);
    } else {
        emit(k, idle(k, p) ? KIND_STEP : some_request(k), p);
    }
}

static void fill_refused(struct maker *k)
{
    while (!full(k)) {
        polite_entry(k, some_process(k));
        refused_entry(k);
    }
}

static void fill_sequential(struct maker *k)
{
    while (!full(k)) {
        uint32_t p = some_process(k);
        whole_call(k, KIND_LOAD, p);
        whole_call(k, taken_kind(k), chance(k->r, 3, 4) ? p : some_process(k));
    }
}

/* Every process asks for `kind`, then all step in a random order until none has a call open. */
static void fight_round(struct maker *k, uint8_t kind)
{
    uint32_t open = 0;
    for (uint32_t p = 0; p < k->run->processes; p++) {
        emit(k, kind, p);
    }
    do {
        open = 0;
        for (uint32_t p = 0; p < k->run->processes; p++) {
            if (!idle(k, p) && chance(k->r, 1, 2)) {
                emit(k, KIND_STEP, p);
            }
            open += !idle(k, p);
        }
    } while (open > 0 && !full(k));
}

static void fill_fight(struct maker *k)
{
    while (!full(k)) {
        fight_round(k, KIND_LOAD);
        fight_round(k, KIND_STORE);
        if (chance(k->r, 1, 4)) {
            fight_round(k, KIND_CHECK);
        }
    }
}

/* One writer and slow readers. */

/* The next entry of a process that does nothing but load, store, load, store. */
static void writer_entry(struct maker *k)
{
    uint32_t p = k->writer;
    if (!idle(k, p)) {
        emit(k, KIND_STEP, p);
    } else {
        emit(k, store_would_go_on(&k->m, p) ? KIND_STORE : KIND_LOAD, p);
    }
}

/* Of a reader within a load: X has changed since its first step, and is the same again. */
static bool has_come_round(const struct maker *k, uint32_t p)
{
    return same_stamp(k->m.x, k->m.own[p].old) && k->w.caller[p].first_count < k->w.changes;
}

/* Its old value is X, or is a tag that the writer of it is about to use again. */
static bool comes_round(const struct maker *k, uint32_t p)
{
    struct stamp old = k->m.own[p].old;
    uint32_t next = k->m.own[stamp_process(old) % REUSE_PROCESSES].tag;
    return same_stamp(k->m.x, old) || tags_from_to(&k->m.rules, next, stamp_tag(old)) < k->run->processes;
}

/* An idle reader keeps its link for a while, and looks now and then whether it still has it. */
static void idle_reader_entry(struct maker *k, uint32_t p)
{
    uint32_t pick = below(k->r, 40);
    if (pick < 2) {
        emit(k, KIND_LOAD, p);
    } else if (pick < 12) {
        whole_call(k, KIND_CHECK, p);
    } else if (pick < 14) {
        emit(k, KIND_STORE, p);
    }
}

/* One in so many turns a reader takes its next step. */
static uint32_t slowness(const struct maker *k, uint32_t p)
{
    enum reuse_place place = place_of(k, p);
    if (place != AT_LOAD_2 && place != AT_LOAD_3) {
        return 1;
    }
    return has_come_round(k, p) ? 1 : comes_round(k, p) ? 4 : 40;
}

static void reader_entry(struct maker *k, uint32_t p)
{
    if (idle(k, p)) {
        idle_reader_entry(k, p);
    } else if (chance(k->r, 1, slowness(k, p))) {
        emit(k, KIND_STEP, p);
    }
}

static void fill_one_writer(struct maker *k)
{
    while (!full(k)) {
        uint32_t reader = some_process(k);
        writer_entry(k);
        if (reader != k->writer && chance(k->r, 1, 2)) {
            reader_entry(k, reader);
        }
        if (chance(k->r, 1, 2000)) {
            k->writer = some_process(k);
        }
        ask_for_wrong_answers(k);
    }
}

/* A chase. While the writer's tags go through one interval after another, each reader announces a tag of one of them, and later keeps one
 * of another by a load that stops before it announces. When the search comes round to these intervals, it meets the first tag of a reader,
 * jumps, and meets the second, which the reader announces in time: so a search has as many jumps as there can be. */

static bool is_searched_for(const struct maker *k, struct stamp old)
{
    uint32_t next_start = k->m.own[k->writer].next_start;
    return stamp_process(old) == k->writer && tags_from_to(&k->m.rules, next_start, stamp_tag(old)) < k->m.rules.reach;
}

/* The writer's next step reads a place of A. Its owner, if it stops before its announcement, may make that a hit. */
static void announce_in_time(struct maker *k)
{
    uint32_t p = k->m.own[k->writer].search;
    if (p != k->writer && place_of(k, p) == AT_LOAD_2 && is_searched_for(k, k->m.own[p].old) && !is_sloppy(k)) {
        emit(k, KIND_STEP, p);
        if (chance(k->r, 1, 2)) {
            finish(k, p);
        }
    }
}

static void look_at_link(struct maker *k)
{
    uint32_t p = some_process(k);
    if (idle(k, p)) {
        whole_call(k, KIND_CHECK, p);
    }
}

/* The writer loads and stores once. */
static void store_round(struct maker *k)
{
    whole_call(k, KIND_LOAD, k->writer);
    emit(k, KIND_STORE, k->writer);
    emit(k, KIND_STEP, k->writer);
    announce_in_time(k);
    finish(k, k->writer);
    ask_for_wrong_answers(k);
    if (chance(k->r, 1, 4)) {
        look_at_link(k);
    }
}

/* Until X has the first tag of a new interval, or one close to it. */
static void to_new_interval(struct maker *k)
{
    uint64_t had = k->m.counts.intervals;
    while (k->m.counts.intervals == had && !full(k)) {
        store_round(k);
    }
    for (uint32_t left = is_sloppy(k) ? between(k->r, 1, k->run->processes) : 1; left > 0; left--) {
        store_round(k);
    }
}

/* Each reader twice, in any order. Gives how many. */
static uint32_t order_readers(struct maker *k, uint32_t order[2 * REUSE_PROCESSES])
{
    uint32_t count = 0;
    for (uint32_t i = 0; i < 2 * k->run->processes; i++) {
        uint32_t p = i / 2;
        if (p == k->writer || is_sloppy(k)) {
            continue;
        }
        uint32_t at = below(k->r, count + 1);
        order[count++] = order[at];
        order[at] = p;
    }
    return count;
}

static void lay_tags(struct maker *k)
{
    uint32_t order[2 * REUSE_PROCESSES];
    bool laid[REUSE_PROCESSES] = {false};
    uint32_t count = order_readers(k, order);
    uint32_t apart = between(k->r, 1, 2); /* intervals */
    for (uint32_t i = 0; i < count; i++) {
        uint32_t p = order[i];
        finish(k, p);
        for (uint32_t left = apart; left > 0; left--) {
            to_new_interval(k);
        }
        emit(k, KIND_LOAD, p);
        emit(k, KIND_STEP, p);
        if (!laid[p]) {
            finish(k, p);
        }
        laid[p] = true;
    }
}

static void chase(struct maker *k)
{
    uint64_t intervals = k->m.rules.modulus / k->m.rules.length;
    uint32_t rounds = k->run->processes * (intervals < 100 ? (uint32_t)intervals : 100); /* so many stores, and the tags come round */
    k->writer = chance(k->r, 1, 2) ? k->writer : some_process(k);
    k->sloppiness = chance(k->r, 1, 2) ? 0 : 4;
    finish(k, k->writer);
    lay_tags(k);
    for (uint32_t left = between(k->r, rounds / 2, rounds + rounds / 2); left > 0 && !full(k); left--) {
        store_round(k);
    }
}

static void fill_chase(struct maker *k)
{
    while (!full(k)) {
        chase(k);
    }
}

const char *run_style_name(enum run_style style)
{
    static const char *const names[RUN_STYLES] = {"any", "polite", "refused", "sequential", "fight", "one writer", "chase"};
    return style < RUN_STYLES ? names[style] : "?";
}

void run_fill(struct prng *r, struct reuse_run *run, enum run_style style, size_t limit, const struct reuse_rules *rules)
{
    static void (*const fill[RUN_STYLES])(struct maker *) = {fill_any,   fill_polite,     fill_refused, fill_sequential,
                                                             fill_fight, fill_one_writer, fill_chase};
    struct maker k = {.r = r, .run = run, .limit = limit};
    run->entries = 0;
    reuse_start(&k.m, run->processes, rules);
    word_start(&k.w, run->processes);
    k.one_bit = chance(r, 1, 2);
    k.writer = some_process(&k);
    fill[style](&k);
}

#include "reuse_machine.h"

uint32_t interval_length(uint32_t processes)
{
    return (2 * processes + 1) * processes;
}

uint64_t least_modulus(uint32_t processes)
{
    return (2 * (uint64_t)processes + 2) * interval_length(processes);
}

struct reuse_rules right_rules(uint32_t processes, uint64_t modulus)
{
    uint32_t length = interval_length(processes);
    return (struct reuse_rules){modulus, length, length, processes, ANNOUNCE_AT_2, true, true, true};
}

void reuse_start(struct reuse_machine *m, uint32_t processes, const struct reuse_rules *rules)
{
    m->processes = processes;
    m->changes = 0;
    m->x = stamp_of(0, 0, 0);
    m->rules = *rules;
    m->counts = (struct reuse_counts){0, 0, 0, 0};
    for (uint32_t p = 0; p < REUSE_PROCESSES; p++) {
        m->announced[p] = (struct announced){NOBODY, 0};
        m->own[p] = (struct reuse_own){NO_STAMP, NO_STAMP, p == 0 ? 1 : 0, rules->length, 0, 0, AT_REST, 0, 0};
    }
}

/* The choice of the next tag: figure 10. */

/* The tag is below M, and what is added is at most M. */
static uint32_t tag_plus(const struct reuse_rules *rules, uint32_t tag, uint32_t by)
{
    uint64_t sum = (uint64_t)tag + by;
    return (uint32_t)(sum >= rules->modulus ? sum - rules->modulus : sum);
}

uint64_t tags_from_to(const struct reuse_rules *rules, uint32_t from, uint32_t to)
{
    return to >= from ? to - from : to + rules->modulus - from;
}

static bool in_searched_interval(const struct reuse_rules *rules, const struct reuse_own *own, uint32_t tag)
{
    return tags_from_to(rules, own->next_start, tag) < rules->reach;
}

static void next_start_moves(const struct reuse_rules *rules, struct reuse_own *own)
{
    own->next_start = tag_plus(rules, own->next_start, rules->length);
}

/* The interval isn't free: the next one is searched from the first place on. */
static void jump(struct reuse_machine *m, struct reuse_own *own)
{
    next_start_moves(&m->rules, own);
    own->search = m->rules.hit_restarts ? 0 : own->search + 1;
    own->jumps++;
    m->counts.hits++;
    if (own->jumps > m->counts.most_jumps) {
        m->counts.most_jumps = own->jumps;
    }
}

static void take_interval(struct reuse_machine *m, struct reuse_own *own)
{
    own->tag = own->next_start;
    next_start_moves(&m->rules, own);
    own->search = 0;
    own->jumps = 0;
    m->counts.intervals++;
}

static void choose_tag(struct reuse_machine *m, struct reuse_own *own, uint32_t p)
{
    const struct announced *read = &m->announced[own->search];
    uint32_t before = own->tag;
    if (read->process == p && in_searched_interval(&m->rules, own, read->tag)) {
        jump(m, own);
    } else {
        own->search++;
    }
    if (own->search < m->rules.places) {
        own->tag = tag_plus(&m->rules, own->tag, 1);
    } else {
        take_interval(m, own);
    }
    m->counts.wraps += own->tag < before;
}

/* The steps: figure 9. */

static struct reuse_record no_step(enum outcome outcome)
{
    return (struct reuse_record){(uint8_t)outcome, 0, 0, 0};
}

static struct reuse_record goes_on(struct reuse_own *own, enum reuse_place next)
{
    own->place = next;
    return (struct reuse_record){STEP_TAKEN, ++own->steps, 0, 0};
}

static struct reuse_record answered(struct reuse_own *own, enum outcome outcome)
{
    own->place = AT_REST;
    return (struct reuse_record){(uint8_t)outcome, ++own->steps, 0, 0};
}

static void announce(struct reuse_machine *m, uint32_t p)
{
    struct stamp old = m->own[p].old;
    m->announced[p] = (struct announced){stamp_process(old), stamp_tag(old)};
}

static struct reuse_record load_1(struct reuse_machine *m, struct reuse_own *own)
{
    own->old = m->x;
    return goes_on(own, AT_LOAD_2);
}

static struct reuse_record load_2(struct reuse_machine *m, struct reuse_own *own, uint32_t p)
{
    if (m->rules.announces == ANNOUNCE_AT_2) {
        announce(m, p);
    } else if (m->rules.announces == ANNOUNCE_AT_3) {
        own->check = m->x;
    }
    return goes_on(own, AT_LOAD_3);
}

static struct reuse_record load_3(struct reuse_machine *m, struct reuse_own *own, uint32_t p)
{
    if (m->rules.announces == ANNOUNCE_AT_3) {
        announce(m, p);
    } else {
        own->check = m->x;
    }
    struct reuse_record record = answered(own, LOAD_ANSWERED);
    record.process = (uint8_t)stamp_process(own->old);
    record.bit = (uint8_t)stamp_bit(own->old);
    return record;
}

bool store_would_go_on(const struct reuse_machine *m, uint32_t p)
{
    const struct reuse_own *own = &m->own[p];
    return same_stamp(m->x, own->old) && (same_stamp(own->old, own->check) || !m->rules.store_looks_at_check);
}

bool check_would_say_yes(const struct reuse_machine *m, uint32_t p)
{
    const struct reuse_own *own = &m->own[p];
    return same_stamp(m->x, own->old) && (same_stamp(own->old, own->check) || !m->rules.check_looks_at_check);
}

static struct reuse_record store_1(struct reuse_machine *m, struct reuse_own *own, uint32_t p)
{
    if (!store_would_go_on(m, p)) {
        return answered(own, STORE_NOT_DONE);
    }
    m->x = stamp_of(own->tag, p, own->bit);
    m->changes++;
    return goes_on(own, AT_STORE_2);
}

static struct reuse_record store_2(struct reuse_machine *m, struct reuse_own *own, uint32_t p)
{
    choose_tag(m, own, p);
    return answered(own, STORE_DONE);
}

static struct reuse_record check_1(struct reuse_machine *m, struct reuse_own *own, uint32_t p)
{
    return answered(own, check_would_say_yes(m, p) ? CHECK_YES : CHECK_NO);
}

static struct reuse_record take_step(struct reuse_machine *m, uint32_t p)
{
    struct reuse_own *own = &m->own[p];
    switch (own->place) {
    case AT_LOAD_1: return load_1(m, own);
    case AT_LOAD_2: return load_2(m, own, p);
    case AT_LOAD_3: return load_3(m, own, p);
    case AT_STORE_1: return store_1(m, own, p);
    case AT_STORE_2: return store_2(m, own, p);
    case AT_CHECK_1: return check_1(m, own, p);
    default: return no_step(PROCESS_IDLE);
    }
}

static enum reuse_place first_place(uint8_t kind)
{
    return kind == KIND_LOAD ? AT_LOAD_1 : kind == KIND_STORE ? AT_STORE_1 : AT_CHECK_1;
}

static struct reuse_record take_request(struct reuse_own *own, struct reuse_entry entry)
{
    if (own->place != AT_REST) {
        return no_step(CALL_OPEN);
    }
    own->place = first_place(entry.kind);
    own->bit = entry.bit;
    own->steps = 0;
    return no_step(REQUEST_TAKEN);
}

struct reuse_record reuse_play(struct reuse_machine *m, struct reuse_entry entry)
{
    uint32_t p = entry.process;
    if (p >= m->processes) {
        return no_step(NO_SUCH_PROCESS);
    }
    return entry.kind == KIND_STEP ? take_step(m, p) : take_request(&m->own[p], entry);
}

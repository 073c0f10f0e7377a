#include "typed.h"

/* Entries with numbers at the edges of what can be written. */

static uint64_t power_of_ten(uint32_t exponent)
{
    uint64_t power = 1;
    for (; exponent > 0; exponent--) {
        power *= 10;
    }
    return power;
}

static uint64_t typed_value(struct prng *r)
{
    switch (below(r, 6)) {
    case 0: return power_of_ten(below(r, 20)) - below(r, 2);
    case 1: return UINT64_MAX - below(r, 3);
    case 2: return prng_next(r) >> below(r, 64);
    case 3: return (uint64_t)UINT32_MAX + below(r, 3);
    case 4: return below(r, 300);
    default: return some_value(r);
    }
}

static uint8_t typed_process(struct prng *r)
{
    static const uint8_t edges[] = {0, 1, 9, 10, 15, 16, 99, 100, 127, 128, 199, 200, 254, 255};
    return chance(r, 1, 2) ? edges[below(r, sizeof edges)] : (uint8_t)below(r, chance(r, 1, 2) ? 16 : 256);
}

static struct entry typed_entry(struct prng *r)
{
    struct entry entry = {(uint8_t)between(r, KIND_LOAD, KIND_STEP), typed_process(r), 0};
    if (entry.kind == KIND_STORE) {
        entry.value = typed_value(r);
    }
    return entry;
}

static void typed_start(struct prng *r, struct schedule *s)
{
    static const uint32_t last[] = {2, 3, 9, 10, 4294967294, 4294967295, 1000000000, 999999999};
    s->processes = chance(r, 1, 3) ? (chance(r, 1, 2) ? 1 : 16) : (uint8_t)between(r, 1, 16);
    s->last = chance(r, 3, 4) ? last[below(r, 8)] : between(r, 2, UINT32_MAX - 1);
    s->value = typed_value(r);
}

/* Typing. */

static void type_start(struct text *t, const struct schedule *s)
{
    t->length = (size_t)snprintf((char *)t->bytes, 64, "H %u %lu %llu\n", s->processes, (unsigned long)s->last,
                                 (unsigned long long)s->value);
}

static void type_entry(struct text *t, struct entry entry)
{
    char *at = (char *)t->bytes + t->length;
    if (entry.kind == KIND_STORE) {
        t->length += (size_t)snprintf(at, 64, "S %u %llu\n", entry.process, (unsigned long long)entry.value);
    } else {
        t->length += (size_t)snprintf(at, 64, "%c %u\n", entry.kind == KIND_LOAD ? 'L' : entry.kind == KIND_CHECK ? 'V' : 'T',
                                      entry.process);
    }
}

static void type_schedule(struct prng *r, struct text *t, size_t entries)
{
    typed_start(r, &t->schedule);
    type_start(t, &t->schedule);
    t->schedule.entries = 0;
    for (size_t i = 0; i < entries; i++) {
        struct entry entry = typed_entry(r);
        type_entry(t, entry);
        if (i < MOST_ENTRIES) {
            t->schedule.entry[t->schedule.entries++] = entry;
        }
    }
}

/* What a text is to be like. */

enum form { FORM_GOOD, FORM_ANY_FAULT, FORM_BAD_AT_END };

struct plan {
    size_t entries;
    bool out_of_range;
    enum form form;
    bool short_output;
};

/* These come again and again: each refusal with those behind it in the order, about the most entries or a few more; and
 * what just fills a block. */
static const struct plan plans[] = {
    {MOST_ENTRIES, false, FORM_GOOD, false},           {MOST_ENTRIES, false, FORM_GOOD, true},
    {MOST_ENTRIES, false, FORM_ANY_FAULT, false},      {MOST_ENTRIES + 1, false, FORM_GOOD, false},
    {MOST_ENTRIES + 1, false, FORM_GOOD, true},        {MOST_ENTRIES + 1, true, FORM_GOOD, false},
    {MOST_ENTRIES + 1, true, FORM_GOOD, true},         {MOST_ENTRIES + 1, false, FORM_BAD_AT_END, false},
    {MOST_ENTRIES + 1, true, FORM_BAD_AT_END, true},   {MOST_ENTRIES + 1, true, FORM_ANY_FAULT, true},
    {BLOCK_ENTRIES, false, FORM_GOOD, false},          {BLOCK_ENTRIES + 1, false, FORM_GOOD, false},
};

static size_t some_entries(struct prng *r)
{
    switch (below(r, 32)) {
    case 0: return below(r, 1500);
    case 1:
    case 2:
    case 3:
    case 4: return (size_t)BLOCK_ENTRIES * between(r, 1, 4) + below(r, 3) - 1;
    case 5:
    case 6: return 0;
    default: return below(r, 24);
    }
}

static struct plan some_plan(struct prng *r, uint64_t index)
{
    struct plan plan = {some_entries(r), false, FORM_GOOD, false};
    if (index % PLANS_EVERY < sizeof plans / sizeof plans[0]) {
        plan = plans[index % PLANS_EVERY];
        plan.entries += plan.entries > MOST_ENTRIES && chance(r, 1, 2) ? below(r, 80) : 0;
        return plan;
    }
    switch (below(r, 10)) {
    case 0:
    case 1:
    case 2:
    case 3: plan.form = FORM_ANY_FAULT; break;
    case 4: plan.out_of_range = true; break;
    case 5: plan.short_output = true; break;
    case 6:
        plan.out_of_range = chance(r, 1, 2);
        plan.form = chance(r, 1, 2) ? FORM_ANY_FAULT : FORM_GOOD;
        plan.short_output = chance(r, 1, 2);
        break;
    default: break;
    }
    return plan;
}

static void spoil_range(struct prng *r, struct text *t)
{
    uint32_t which = below(r, 5);
    if (which != 0) {
        spoil(r, t, which % 2 == 0 ? FAULT_N : FAULT_S);
    } else {
        spoil(r, t, FAULT_N);
        spoil(r, t, FAULT_S);
    }
}

static void spoil_form(struct prng *r, struct text *t, enum form form)
{
    if (form == FORM_BAD_AT_END) {
        spoil(r, t, chance(r, 1, 2) ? FAULT_NO_LAST_NEWLINE : FAULT_TAIL);
        return;
    }
    for (uint32_t left = chance(r, 2, 3) ? 1 : between(r, 2, 3); left > 0; left--) {
        spoil(r, t, (enum fault)below(r, FORM_FAULTS));
    }
}

static size_t short_length(struct prng *r, size_t need)
{
    switch (below(r, 6)) {
    case 0: return 0;
    case 1: return need - BLOCK;
    case 2: return need - 1 - below(r, 4);
    case 3: return below(r, (uint32_t)need);
    default: return need - 1;
    }
}

static size_t long_length(struct prng *r, size_t need)
{
    switch (below(r, 6)) {
    case 0: return need + between(r, 1, 4);
    case 1: return need + below(r, 3 * BLOCK);
    case 2: return need + BLOCK;
    default: return need;
    }
}

static void set_output(struct prng *r, struct text *t, const struct plan *plan)
{
    size_t need = BLOCK * ((plan->entries + BLOCK_ENTRIES - 1) / BLOCK_ENTRIES + 1);
    t->out_length = plan->short_output ? short_length(r, need) : long_length(r, need);
    t->faults |= (uint64_t)plan->short_output << FAULT_SHORT_OUTPUT;
}

void text_make(struct prng *r, uint64_t index, struct text *t)
{
    struct plan plan = some_plan(r, index);
    t->faults = (uint64_t)(plan.entries > MOST_ENTRIES) << FAULT_MANY_ENTRIES;
    type_schedule(r, t, plan.entries);
    set_output(r, t, &plan);
    if (plan.out_of_range) {
        spoil_range(r, t);
    }
    if (plan.form != FORM_GOOD) {
        spoil_form(r, t, plan.form);
    }
}

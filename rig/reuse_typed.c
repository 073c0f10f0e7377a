#include "reuse_typed.h"

const char *typed_kind_name(enum typed_kind kind)
{
    static const char *const names[TYPED_KINDS] = {
        "run", "closed3.text", "run of 1048576 bytes", "longer than 1048576 bytes", "1048576 bytes of digits", "N out of range",
        "M out of range", "line 1 outside the form", "later line outside the form", "whole text spoilt", "bytes changed"};
    return kind < TYPED_KINDS ? names[kind] : "?";
}

/* Typing. */

void type_bytes(struct typed *t, const void *bytes, size_t count)
{
    if (t->length + count <= TYPED_ROOM) {
        memcpy(t->bytes + t->length, bytes, count);
        t->length += count;
    }
}

void type_words(struct typed *t, const char *words)
{
    type_bytes(t, words, strlen(words));
}

void type_number(struct typed *t, uint64_t number)
{
    char digits[24];
    snprintf(digits, sizeof digits, "%llu", (unsigned long long)number);
    type_words(t, digits);
}

void type_digits(struct prng *r, struct typed *t, size_t count)
{
    for (size_t i = 0; i < count; i++) {
        uint8_t digit = (uint8_t)('0' + (i == 0 ? between(r, 1, 9) : below(r, 10)));
        type_bytes(t, &digit, 1);
    }
}

static void type_entry(struct typed *t, struct reuse_entry entry)
{
    static const char *const letters[] = {"", "L ", "S ", "V ", "T "};
    type_words(t, letters[entry.kind]);
    type_number(t, entry.process);
    if (entry.kind == KIND_STORE) {
        type_words(t, entry.bit == 0 ? " 0" : " 1");
    }
    type_words(t, "\n");
}

void type_entries(struct typed *t, size_t from, size_t to)
{
    for (size_t i = from; i < to; i++) {
        type_entry(t, t->run.entry[i]);
    }
}

void type_run(struct typed *t)
{
    t->length = 0;
    type_words(t, "H ");
    type_number(t, t->run.processes);
    type_words(t, " ");
    type_number(t, t->run.modulus);
    type_words(t, "\n");
    type_entries(t, 0, t->run.entries);
}

/* Runs. */

enum guide { BY_RIGHT, BY_WRONG }; /* the machine that a run is made along */

struct plan {
    enum run_style style;
    uint32_t least_processes;
    uint32_t most_processes;
    uint32_t most_entries;
    enum guide guide;
};

static const struct plan plans[] = {
    {RUN_CHASE, 3, 3, 5000, BY_RIGHT},      {RUN_ANY, 1, 16, 300, BY_RIGHT},
    {RUN_ONE_WRITER, 2, 4, 5000, BY_RIGHT}, {RUN_CHASE, 3, 3, 5000, BY_WRONG},
    {RUN_REFUSED, 1, 16, 300, BY_RIGHT},    {RUN_ONE_WRITER, 2, 2, 4000, BY_WRONG},
    {RUN_SEQUENTIAL, 1, 4, 4000, BY_RIGHT}, {RUN_CHASE, 2, 2, 4000, BY_WRONG},
    {RUN_POLITE, 1, 16, 1500, BY_RIGHT},    {RUN_ONE_WRITER, 3, 4, 5000, BY_WRONG},
    {RUN_CHASE, 4, 4, 6000, BY_RIGHT},      {RUN_ONE_WRITER, 1, 3, 4000, BY_RIGHT},
    {RUN_FIGHT, 2, 16, 1500, BY_RIGHT},     {RUN_CHASE, 3, 3, 5000, BY_WRONG},
    {RUN_ANY, 1, 4, 6000, BY_RIGHT},        {RUN_CHASE, 5, 16, 12000, BY_RIGHT},
    {RUN_ANY, 1, 16, 1, BY_RIGHT},          {RUN_ONE_WRITER, 2, 3, 4000, BY_WRONG},
    {RUN_CHASE, 2, 4, 5000, BY_WRONG},
};
enum { PLANS = sizeof plans / sizeof plans[0] };

/* Small as a rule: only then the tags come round. */
static uint64_t some_modulus(struct prng *r, uint32_t processes)
{
    uint64_t least = least_modulus(processes);
    switch (below(r, 10)) {
    case 0: return MOST_MODULUS;
    case 1: return MOST_MODULUS - below(r, 3);
    case 2: return least + prng_next(r) % (MOST_MODULUS - least);
    case 3:
    case 4: return least + 1;
    case 5:
    case 6: return least + 7;
    default: return least;
    }
}

/* By each wrong machine in turn. */
static struct reuse_rules guiding_rules(const struct reuse_run *run, enum guide guide, uint64_t which)
{
    enum wrong wrong = (enum wrong)(which / PLANS % WRONGS);
    if (guide == BY_WRONG && can_be_wrong(wrong, run->processes)) {
        return wrong_rules(wrong, run->processes, run->modulus);
    }
    return right_rules(run->processes, run->modulus);
}

/* A plan for many N takes them in turn, in steps that leave none out. */
static uint32_t planned_processes(struct prng *r, const struct plan *plan, uint64_t which)
{
    uint32_t span = plan->most_processes - plan->least_processes + 1;
    if (span < 5) {
        return between(r, plan->least_processes, plan->most_processes);
    }
    return plan->least_processes + (uint32_t)((which / PLANS * 5 + which % PLANS) % span);
}

/* A wrong machine errs soonest with the least M. */
static void make_run(struct prng *r, struct typed *t, const struct plan *plan, uint64_t which)
{
    uint32_t most = plan->most_entries;
    t->kind = TYPED_RUN;
    t->style = plan->style;
    t->known = true;
    t->refused = (struct refused){0, 0};
    t->run.processes = planned_processes(r, plan, which);
    t->run.modulus = plan->guide == BY_WRONG ? least_modulus(t->run.processes) : some_modulus(r, t->run.processes);
    struct reuse_rules rules = guiding_rules(&t->run, plan->guide, which);
    run_fill(r, &t->run, plan->style, most < 1000 ? below(r, most) : between(r, most / 2, most), &rules);
    type_run(t);
}

#define LL(p) "L " p "\nT " p "\nT " p "\nT " p "\n"
#define SC(p) "S " p " 0\nT " p "\nT " p "\n"
#define ROUND SC("0") LL("0")
#define ROUNDS_3 ROUND ROUND ROUND
#define ROUNDS_6 ROUNDS_3 ROUNDS_3
const char closed_3[] = "H 3 168\n" LL("0") "L 1\nT 1\n" ROUNDS_6 ROUND "T 1\nT 1\nL 2\nT 2\n" ROUNDS_6 "T 2\nT 2\nL 2\nT 2\n"
    ROUNDS_6 "L 1\nT 1\n" ROUNDS_6 ROUNDS_3 ROUND ROUND "S 0 0\nT 0\nT 1\nT 2\nT 0\n" LL("0") ROUNDS_6 ROUNDS_3 SC("0") "V 0\nT 0\n";

static void make_closed(struct typed *t)
{
    t->kind = TYPED_CLOSED;
    t->known = true;
    t->refused = reuse_read((const uint8_t *)closed_3, strlen(closed_3), &t->run);
    t->length = 0;
    type_words(t, closed_3);
}

/* One line more, of four to seven bytes. Those of four are loads and their steps. */
static void add_line(struct typed *t, size_t length)
{
    static const struct reuse_entry of_length[] = {{KIND_STEP, 0, 0}, {KIND_STEP, 10, 0}, {KIND_STORE, 0, 1}, {KIND_STORE, 10, 1}};
    static const struct reuse_entry load = {KIND_LOAD, 0, 0};
    t->run.entry[t->run.entries] = length == 4 && t->run.entries % 4 == 0 ? load : of_length[length - 4];
    t->run.entries++;
    type_entries(t, t->run.entries - 1, t->run.entries);
}

static void make_long_run(struct prng *r, struct typed *t, enum typed_kind kind)
{
    static const struct plan most = {RUN_POLITE, 2, 16, 120000, BY_RIGHT};
    size_t length = kind == TYPED_TOO_LONG ? TEXT_MOST + 1 : TEXT_MOST;
    make_run(r, t, &most, prng_next(r));
    t->kind = kind;
    while (t->length + 8 <= length) {
        add_line(t, 4);
    }
    add_line(t, length - t->length);
}

static void make_many_digits(struct prng *r, struct typed *t, bool of_n)
{
    t->kind = TYPED_MANY_DIGITS;
    t->known = true;
    t->refused = (struct refused){of_n ? REUSE_BAD_PROCESSES : REUSE_BAD_MODULUS, 0};
    t->length = 0;
    type_words(t, of_n ? "H " : "H 2 ");
    type_digits(r, t, of_n ? TEXT_MOST - 6 : TEXT_MOST - 5);
    type_words(t, of_n ? " 60\n" : "\n");
}

/* In turn by all plans, and now and then a text about as long as can be. */
static void make_some_run(struct prng *r, struct typed *t, uint64_t which)
{
    switch (which % 75) {
    case 20: make_closed(t); break;
    case 30: make_long_run(r, t, TYPED_LARGEST); break;
    case 40: make_long_run(r, t, TYPED_TOO_LONG); break;
    case 50: make_many_digits(r, t, true); break;
    case 60: make_many_digits(r, t, false); break;
    default: make_run(r, t, &plans[which % PLANS], which);
    }
}

/* Of eight texts three are runs, four are refused as listed, and one has some bytes changed. Those are short, as a rule. */
void typed_make(struct prng *r, uint64_t index, struct typed *t)
{
    static const struct plan few = {RUN_ANY, 1, 16, 12, BY_RIGHT};
    static const struct plan many = {RUN_ANY, 1, 16, 1500, BY_RIGHT};
    uint64_t eight = index / 8;
    uint64_t turn = index % 8;
    if (turn < 3) {
        make_some_run(r, t, 3 * eight + turn);
        return;
    }
    make_run(r, t, chance(r, 1, 12) ? &many : &few, index);
    if (turn < 7) {
        spoil_as_listed(r, t, (size_t)((4 * eight + turn - 3) % spoils));
    } else {
        spoil_bytes(r, t);
    }
}

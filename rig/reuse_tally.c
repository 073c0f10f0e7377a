#include "reuse_tally.h"

static void tally_refused(struct reuse_tally *t, const struct typed *text, struct refused refused)
{
    t->row[REUSE_16] += refused.number == REUSE_BAD_PROCESSES;
    t->row[REUSE_24] += refused.number == REUSE_BAD_MODULUS;
    if (refused.number == REUSE_BAD_LINE) {
        t->row[REUSE_25_LINE_1] += refused.line == 1;
        t->row[REUSE_25_LATER] += refused.line > 1;
        t->row[REUSE_25_BEFORE_16] += text->kind == TYPED_BAD_N;
        t->row[REUSE_25_BEFORE_24] += text->kind == TYPED_BAD_M;
    }
}

void tally_typed(struct reuse_tally *t, const struct typed *text, struct refused refused)
{
    t->row[REUSE_TEXTS]++;
    t->row[REUSE_TOO_LONG] += text->kind == TYPED_TOO_LONG;
    t->kind[text->kind]++;
    t->style[text->style] += text->kind == TYPED_RUN;
    tally_refused(t, text, refused);
}

static const enum reuse_row outcome_rows[] = {
    [REQUEST_TAKEN] = REUSE_REQUESTS,   [STEP_TAKEN] = REUSE_STEPS_ON,            [LOAD_ANSWERED] = REUSE_LOADS,
    [STORE_DONE] = REUSE_STORES_DONE,   [STORE_NOT_DONE] = REUSE_STORES_NOT_DONE, [CHECK_YES] = REUSE_CHECKS_YES,
    [CHECK_NO] = REUSE_CHECKS_NO,       [NO_SUCH_PROCESS] = REUSE_ENTRY_11,       [CALL_OPEN] = REUSE_ENTRY_12,
    [PROCESS_IDLE] = REUSE_ENTRY_14};

/* `first` is, for each process, the count of changes at its latest load's first step. */
static void tally_load(struct reuse_tally *t, const struct reuse_machine *m, uint32_t p, uint32_t first)
{
    bool same = same_stamp(m->own[p].old, m->own[p].check);
    t->row[REUSE_LOADS_MOVED] += !same;
    t->row[REUSE_LOADS_ROUND] += same && first < m->changes;
}

static void tally_entries(struct reuse_tally *t, const struct reuse_run *run, struct reuse_machine *m)
{
    uint32_t first[REUSE_PROCESSES] = {0};
    for (size_t i = 0; i < run->entries; i++) {
        uint32_t p = run->entry[i].process;
        struct reuse_record record = reuse_play(m, run->entry[i]);
        t->row[outcome_rows[record.outcome]]++;
        if (record.outcome == STEP_TAKEN && m->own[p].place == AT_LOAD_2) {
            first[p] = m->changes;
        } else if (record.outcome == LOAD_ANSWERED) {
            tally_load(t, m, p, first[p]);
        }
    }
}

void tally_run(struct reuse_tally *t, const struct reuse_run *run)
{
    struct reuse_machine m;
    struct reuse_rules rules = right_rules(run->processes, run->modulus);
    uint64_t above = run->modulus - least_modulus(run->processes);
    reuse_start(&m, run->processes, &rules);
    tally_entries(t, run, &m);
    t->row[REUSE_PLAYED]++;
    t->row[REUSE_NO_ENTRIES] += run->entries == 0;
    t->row[REUSE_M_LEAST] += above == 0;
    t->row[REUSE_M_LEAST_1] += above == 1;
    t->row[REUSE_M_LEAST_7] += above == 7;
    t->row[REUSE_M_MOST] += run->modulus == MOST_MODULUS;
    t->row[REUSE_ENTRIES] += run->entries;
    t->row[REUSE_CHANGES] += m.changes;
    t->row[REUSE_WRAPS] += m.counts.wraps;
    t->row[REUSE_HITS] += m.counts.hits;
    t->row[REUSE_INTERVALS] += m.counts.intervals;
    t->n[run->processes]++;
    if (m.counts.most_jumps > t->most_jumps[run->processes]) {
        t->most_jumps[run->processes] = m.counts.most_jumps;
    }
}

static const char *const row_names[REUSE_ROWS] = {
    "texts",
    "texts played",
    "refused 25 line 1",
    "refused 25 for a later line",
    "refused 25, with N out of range",
    "refused 25, with M out of range",
    "refused 16",
    "refused 24",
    "not read, as they are too long",
    "played: no entries",
    "played: M least",
    "played: M least + 1",
    "played: M least + 7",
    "played: M 4294967296",
    "entries",
    "requests taken",
    "steps that go on",
    "loads answered",
    "of them with old not check",
    "of them with X changed and the same",
    "stores done",
    "stores not done",
    "checks yes",
    "checks no",
    "entries refused by 11",
    "entries refused by 12",
    "entries refused by 14",
    "changes of X",
    "tags wrapped round M",
    "searches that hit",
    "new intervals",
};

static void print_line(const char *name, uint64_t count)
{
    printf("  %-42s %12llu\n", name, (unsigned long long)count);
}

static void print_named(const char *what, const char *name, uint64_t count)
{
    char both[80];
    snprintf(both, sizeof both, "%s: %s", what, name);
    print_line(both, count);
}

void tally_print(const struct reuse_tally *t)
{
    for (uint32_t i = 0; i < REUSE_ROWS; i++) {
        print_line(row_names[i], t->row[i]);
    }
    for (uint32_t i = 0; i < TYPED_KINDS; i++) {
        print_named("text", typed_kind_name((enum typed_kind)i), t->kind[i]);
    }
    for (uint32_t i = 0; i < RUN_STYLES; i++) {
        print_named("run", run_style_name((enum run_style)i), t->style[i]);
    }
    printf("  N: texts played, largest number of jumps in one search:\n   ");
    for (uint32_t n = 1; n <= REUSE_PROCESSES; n++) {
        printf(" %u: %llu, %u%s", n, (unsigned long long)t->n[n], t->most_jumps[n], n < REUSE_PROCESSES ? ";" : "\n");
    }
}

static size_t missing(const char *what, uint64_t count)
{
    if (count == 0) {
        printf("FAILED: no text had: %s\n", what);
    }
    return count == 0;
}

size_t tally_missing(const struct reuse_tally *t)
{
    size_t none = 0;
    for (uint32_t i = 0; i < REUSE_ROWS; i++) {
        none += missing(row_names[i], t->row[i]);
    }
    for (uint32_t i = 0; i < TYPED_KINDS; i++) {
        none += missing(typed_kind_name((enum typed_kind)i), t->kind[i]);
    }
    for (uint32_t i = 0; i < RUN_STYLES; i++) {
        none += missing(run_style_name((enum run_style)i), t->style[i]);
    }
    for (uint32_t n = 1; n <= REUSE_PROCESSES; n++) {
        none += missing("an N of 1 to 16", t->n[n]);
    }
    for (uint32_t n = 2; n <= 4; n++) {
        none += missing("a search with 2(N - 1) jumps, with N 2 to 4", t->most_jumps[n] >= 2 * (n - 1));
    }
    return none;
}

#include "reuse_selftest.h"
#include "reuse_word.h"

static struct reuse_run run;
static uint8_t room[OUTPUT_ROOM];

/* Texts with every byte of what is printed. */

#define LL(p) "L " p "\nT " p "\nT " p "\nT " p "\n"
#define SC(p, bit) "S " p " " bit "\nT " p "\nT " p "\n" /* done */
#define VL(p) "V " p "\nT " p "\n"

struct hand_run {
    const char *name;
    const char *text;
    const char *output;
};

static const struct hand_run hand_runs[] = {
    {"a load, a store and a load by another", "H 2 60\n" LL("0") SC("0", "1") VL("0") LL("1"),
     "entries 13 changes 1 processes 2\n"
     "0 0 0 0 0 0\n1 0 1 1 0 0\n2 0 1 2 0 0\n3 0 2 3 0 0\n"
     "4 0 0 0 0 0\n5 0 1 1 0 0\n6 0 3 2 0 0\n"
     "7 0 0 0 0 0\n8 0 6 1 0 0\n"
     "9 1 0 0 0 0\n10 1 1 1 0 0\n11 1 1 2 0 0\n12 1 2 3 0 1\n"},
    {"a store and a check without a load", "H 1 12\nS 0 1\nT 0\n" VL("0") "S 0 0\nT 0\n",
     "entries 6 changes 0 processes 1\n"
     "0 0 0 0 0 0\n1 0 4 1 0 0\n2 0 0 0 0 0\n3 0 6 1 0 0\n4 0 0 0 0 0\n5 0 4 1 0 0\n"},
    {"a store by another between load and store",
     "H 2 60\n" LL("1") LL("0") SC("0", "1") VL("1") "S 1 0\nT 1\n" LL("1") VL("1") SC("1", "0") LL("0"),
     "entries 28 changes 2 processes 2\n"
     "0 1 0 0 0 0\n1 1 1 1 0 0\n2 1 1 2 0 0\n3 1 2 3 0 0\n"
     "4 0 0 0 0 0\n5 0 1 1 0 0\n6 0 1 2 0 0\n7 0 2 3 0 0\n8 0 0 0 0 0\n9 0 1 1 0 0\n10 0 3 2 0 0\n"
     "11 1 0 0 0 0\n12 1 6 1 0 0\n13 1 0 0 0 0\n14 1 4 1 0 0\n"
     "15 1 0 0 0 0\n16 1 1 1 0 0\n17 1 1 2 0 0\n18 1 2 3 0 1\n19 1 0 0 0 0\n20 1 5 1 0 0\n"
     "21 1 0 0 0 0\n22 1 1 1 0 0\n23 1 3 2 0 0\n"
     "24 0 0 0 0 0\n25 0 1 1 0 0\n26 0 1 2 0 0\n27 0 2 3 1 0\n"},
    {"a store by another within a load", "H 2 60\nL 1\nT 1\n" LL("0") "S 0 1\nT 0\nT 1\nT 1\nT 0\n" VL("1") "S 1 1\nT 1\n",
     "entries 15 changes 1 processes 2\n"
     "0 1 0 0 0 0\n1 1 1 1 0 0\n2 0 0 0 0 0\n3 0 1 1 0 0\n4 0 1 2 0 0\n5 0 2 3 0 0\n6 0 0 0 0 0\n7 0 1 1 0 0\n"
     "8 1 1 2 0 0\n9 1 2 3 0 0\n10 0 3 2 0 0\n11 1 0 0 0 0\n12 1 6 1 0 0\n13 1 0 0 0 0\n14 1 4 1 0 0\n"},
    {"a store after its first step is a change", "H 1 12\n" LL("0") "S 0 1\nT 0\n",
     "entries 6 changes 1 processes 1\n0 0 0 0 0 0\n1 0 1 1 0 0\n2 0 1 2 0 0\n3 0 2 3 0 0\n4 0 0 0 0 0\n5 0 1 1 0 0\n"},
    {"a store of the same bit is a change", "H 1 12\n" LL("0") SC("0", "0") VL("0") "S 0 0\nT 0\n",
     "entries 11 changes 1 processes 1\n0 0 0 0 0 0\n1 0 1 1 0 0\n2 0 1 2 0 0\n3 0 2 3 0 0\n4 0 0 0 0 0\n5 0 1 1 0 0\n6 0 3 2 0 0\n"
     "7 0 0 0 0 0\n8 0 6 1 0 0\n9 0 0 0 0 0\n10 0 4 1 0 0\n"},
    {"entries refused by 11, 12 and 14",
     "H 2 60\nT 0\nT 2\nL 255\nS 16 1\nV 2\nL 1\nL 1\nS 1 0\nV 1\nT 1\nV 1\nT 1\nT 1\nT 1\nT 1\n",
     "entries 15 changes 0 processes 2\n"
     "0 0 14 0 0 0\n1 2 11 0 0 0\n2 255 11 0 0 0\n3 16 11 0 0 0\n4 2 11 0 0 0\n5 1 0 0 0 0\n6 1 12 0 0 0\n7 1 12 0 0 0\n"
     "8 1 12 0 0 0\n9 1 1 1 0 0\n10 1 12 0 0 0\n11 1 1 2 0 0\n12 1 2 3 0 0\n13 1 14 0 0 0\n14 1 14 0 0 0\n"},
    {"no entries", "H 16 17952\n", "entries 0 changes 0 processes 16\n"},
    {"the largest M", "H 16 4294967296\nV 15\nT 15\n", "entries 2 changes 0 processes 16\n0 15 0 0 0 0\n1 15 6 1 0 0\n"},
    {"no bytes", "", "refused 25 line 1\n"},
    {"a newline alone", "\n", "refused 25 line 1\n"},
    {"H without a newline", "H 2 60", "refused 25 line 1\n"},
    {"a last line without a newline", "H 2 60\nL 0\nT 0", "refused 25 line 3\n"},
    {"an empty line at the end", "H 2 60\nL 0\n\n", "refused 25 line 3\n"},
    {"the first of two lines outside the form", "H 2 60\nL 0\nl 0\nL  0\n", "refused 25 line 3\n"},
    {"bit 2", "H 2 60\nS 0 2\n", "refused 25 line 2\n"},
    {"process 255 and 256", "H 2 60\nL 255\nL 256\n", "refused 25 line 3\n"},
    {"25 before 16", "H 17 60\nL 00\n", "refused 25 line 2\n"},
    {"25 before 24", "H 2 59\nL 0 \n", "refused 25 line 2\n"},
    {"16 before 24", "H 0 0\nL 0\n", "refused 16\n"},
    {"N 17", "H 17 4294967296\n", "refused 16\n"},
    {"N 1 and 2^64", "H 18446744073709551617 12\n", "refused 16\n"},
    {"M one too small for N 1", "H 1 11\n", "refused 24\n"},
    {"M least for N 1", "H 1 12\n", "entries 0 changes 0 processes 1\n"},
    {"M one too small for N 2", "H 2 59\n", "refused 24\n"},
    {"M least for N 2", "H 2 60\n", "entries 0 changes 0 processes 2\n"},
    {"M one too small for N 3", "H 3 167\n", "refused 24\n"},
    {"M least for N 3", "H 3 168\n", "entries 0 changes 0 processes 3\n"},
    {"M one too small for N 16", "H 16 17951\n", "refused 24\n"},
    {"M one too large", "H 1 4294967297\n", "refused 24\n"},
    {"M least and 2^64", "H 2 18446744073709551676\n", "refused 24\n"},
};

static bool output_is(struct output output, const char *expected)
{
    return output.length == strlen(expected) && memcmp(output.bytes, expected, output.length) == 0;
}

static void test_outputs(void)
{
    for (size_t i = 0; i < sizeof hand_runs / sizeof hand_runs[0]; i++) {
        const struct hand_run *h = &hand_runs[i];
        struct output output = reuse_filter((const uint8_t *)h->text, strlen(h->text), &run, room);
        note(h->name, output_is(output, h->output));
    }
}

/* Tags. They aren't printed, so they are looked at in the machine. */

static void play(struct reuse_machine *m, uint8_t kind, uint8_t p)
{
    reuse_play(m, (struct reuse_entry){kind, p, 0});
}

static void load(struct reuse_machine *m, uint8_t p)
{
    play(m, KIND_LOAD, p);
    for (uint32_t left = 3; left > 0; left--) {
        play(m, KIND_STEP, p);
    }
}

static void load_and_store(struct reuse_machine *m, uint8_t p)
{
    load(m, p);
    play(m, KIND_STORE, p);
    play(m, KIND_STEP, p);
    play(m, KIND_STEP, p);
}

static void start_right(struct reuse_machine *m, uint32_t processes)
{
    struct reuse_rules rules = right_rules(processes, least_modulus(processes));
    reuse_start(m, processes, &rules);
}

/* Whether process 0's stores give X these tags. */
static bool tags_are(struct reuse_machine *m, const uint32_t *tags, size_t count)
{
    bool good = true;
    for (size_t i = 0; i < count; i++) {
        load_and_store(m, 0);
        good = good && same_stamp(m->x, stamp_of(tags[i], 0, 0));
    }
    return good;
}

#define TAGS(tags) tags, sizeof(tags) / sizeof(tags)[0]

static void test_coming_round(void)
{
    static const uint32_t of_one[] = {1, 3, 6, 9, 0, 3, 6, 9, 0, 3};
    struct reuse_machine m;
    start_right(&m, 1);
    note("N 1, M 12: the tags 1 3 6 9 0 3 6 9 0 3", tags_are(&m, TAGS(of_one)));
    note("with 2 wraps, 10 new intervals and no hit", m.counts.wraps == 2 && m.counts.intervals == 10 && m.counts.hits == 0);
    start_right(&m, 1);
    play(&m, KIND_LOAD, 0);
    play(&m, KIND_STEP, 0);
    note("a load that has only begun has no link", !check_would_say_yes(&m, 0) && !store_would_go_on(&m, 0));
}

/* Process 1 holds the tag 1. The interval from 0 to 9 is passed over when the search comes there. */
static void test_hit(void)
{
    static const uint32_t first[] = {1};
    static const uint32_t with_hit[] = {2, 10, 11, 20, 21, 30, 31, 40, 41, 50, 51, 52, 53, 10, 11, 20};
    static const uint32_t without[] = {2, 10, 11, 20, 21, 30, 31, 40, 41, 50, 51, 0, 1};
    struct reuse_machine m;
    start_right(&m, 2);
    bool good = tags_are(&m, TAGS(first));
    load(&m, 1);
    good = good && check_would_say_yes(&m, 1);
    note("N 2, M 60: a hit, and the tags 50 51 52 53 10", good && tags_are(&m, TAGS(with_hit)));
    note("with 1 wrap, 1 hit and 1 jump", m.counts.wraps == 1 && m.counts.hits == 1 && m.counts.most_jumps == 1);
    note("its holder's check would say no", !check_would_say_yes(&m, 1));
    struct reuse_rules rules = wrong_rules(WRONG_NOT_SEARCHED, 2, 60);
    reuse_start(&m, 2, &rules);
    good = tags_are(&m, TAGS(first));
    load(&m, 1);
    note("without the search: the tags 50 51 0 1", good && tags_are(&m, TAGS(without)));
    note("and its holder's check would say yes", check_would_say_yes(&m, 1));
}

/* Process 1's load begins with tag 1 in X, and goes on when X has come round to it. */
static void test_load_over_a_round(void)
{
    static const uint32_t first[] = {1};
    static const uint32_t round[] = {2, 10, 11, 20, 21, 30, 31, 40, 41, 50, 51, 0, 1};
    struct reuse_machine m;
    start_right(&m, 2);
    bool good = tags_are(&m, TAGS(first));
    play(&m, KIND_LOAD, 1);
    play(&m, KIND_STEP, 1);
    good = good && tags_are(&m, TAGS(round));
    play(&m, KIND_STEP, 1);
    play(&m, KIND_STEP, 1);
    note("a load over a whole round of tags: linked", good && check_would_say_yes(&m, 1) && store_would_go_on(&m, 1));
    load_and_store(&m, 0);
    note("and by the next store no more", !check_would_say_yes(&m, 1) && !store_would_go_on(&m, 1));
}

/* Figure 10's interval, closed as printed and half open as its text has it. */

static void test_closed_interval(void)
{
    struct reuse_machine m;
    struct refused refused = reuse_read((const uint8_t *)closed_3, strlen(closed_3), &run);
    struct reuse_rules closed = wrong_rules(WRONG_CLOSED, 3, 168);
    struct reuse_rules half_open = right_rules(3, 168);
    note("closed3.text is read, 303 entries", refused.number == 0 && run.entries == 303 && strlen(closed_3) == 1302);
    reuse_start(&m, 3, &half_open);
    struct word_fault fault = word_fault_of(&m, &run, true);
    note("half open: no fault, and 4 jumps at most", fault.what == NULL && m.counts.most_jumps <= 4);
    reuse_start(&m, 3, &half_open);
    struct output output = reuse_print_run(&m, &run, room);
    note("half open: the last check says no", memcmp(output.bytes + output.length - 14, "302 0 6 1 0 0\n", 14) == 0);
    reuse_start(&m, 3, &closed);
    output = reuse_print_run(&m, &run, room);
    note("closed: the last check says yes", memcmp(output.bytes + output.length - 14, "302 0 5 1 0 0\n", 14) == 0);
    reuse_start(&m, 3, &closed);
    fault = word_fault_of(&m, &run, false);
    note("closed: the atomic word finds it there", fault.what != NULL && fault.place == 302 && m.counts.most_jumps == 8);
}

/* Records that say something false of the word: one byte of a record is another, and the word has to see it there. */

enum field { OUTCOME, STEPS, PROCESS, BIT };

struct false_record {
    const char *name;
    size_t run; /* of hand_runs */
    size_t place;
    enum field field;
    uint8_t from;
    uint8_t to;
};

static const struct false_record false_records[] = {
    {"a load that answers a bit that never was", 0, 3, BIT, 0, 1},
    {"a load that answers the bit of before", 0, 12, BIT, 1, 0},
    {"a load that answers another process", 0, 12, PROCESS, 0, 1},
    {"a load that answers no process at all", 0, 12, PROCESS, 0, 2},
    {"a load that answers a bit of a store to come", 2, 3, BIT, 0, 1},
    {"a store that is not done, though linked", 0, 5, OUTCOME, STEP_TAKEN, STORE_NOT_DONE},
    {"a check that says yes after its process's store", 0, 8, OUTCOME, CHECK_NO, CHECK_YES},
    {"a store that goes on without a load", 1, 1, OUTCOME, STORE_NOT_DONE, STEP_TAKEN},
    {"a check that says yes without a load", 1, 3, OUTCOME, CHECK_NO, CHECK_YES},
    {"a check that says yes after another's store", 2, 12, OUTCOME, CHECK_NO, CHECK_YES},
    {"a store that goes on after another's", 2, 14, OUTCOME, STORE_NOT_DONE, STEP_TAKEN},
    {"a check that says no, though linked", 2, 20, OUTCOME, CHECK_YES, CHECK_NO},
    {"a check that says yes after a load over a store", 3, 12, OUTCOME, CHECK_NO, CHECK_YES},
    {"a store that goes on after a load over a store", 3, 14, OUTCOME, STORE_NOT_DONE, STEP_TAKEN},
    {"a check that says yes after a store of the same bit", 5, 8, OUTCOME, CHECK_NO, CHECK_YES},
    {"a store done by its first step", 0, 5, OUTCOME, STEP_TAKEN, STORE_DONE},
    {"a load answered by its second step", 0, 2, OUTCOME, STEP_TAKEN, LOAD_ANSWERED},
    {"a load that goes on after its third step", 0, 3, OUTCOME, LOAD_ANSWERED, STEP_TAKEN},
    {"a load answered as a check", 0, 3, OUTCOME, LOAD_ANSWERED, CHECK_YES},
    {"a check that goes on", 0, 8, OUTCOME, CHECK_NO, STEP_TAKEN},
    {"a request with an own step", 0, 4, STEPS, 0, 1},
    {"a step without own steps", 0, 1, STEPS, 1, 0},
    {"own steps that go on from the call before", 0, 5, STEPS, 1, 4},
    {"a step that answers a value", 0, 5, BIT, 0, 1},
    {"a step of an idle process taken", 6, 0, OUTCOME, PROCESS_IDLE, STEP_TAKEN},
    {"process 2 of two taken", 6, 1, OUTCOME, NO_SUCH_PROCESS, REQUEST_TAKEN},
    {"a request to an open call taken", 6, 6, OUTCOME, CALL_OPEN, REQUEST_TAKEN},
    {"a refused request with own steps", 6, 10, STEPS, 0, 1},
    {"a request refused without need", 6, 5, OUTCOME, REQUEST_TAKEN, CALL_OPEN},
};

static uint8_t *field_of(struct reuse_record *record, enum field field)
{
    switch (field) {
    case OUTCOME: return &record->outcome;
    case STEPS: return &record->steps;
    case PROCESS: return &record->process;
    default: return &record->bit;
    }
}

static bool is_found(const struct false_record *f)
{
    struct reuse_machine m;
    struct word w;
    const char *text = hand_runs[f->run].text;
    reuse_read((const uint8_t *)text, strlen(text), &run);
    start_right(&m, run.processes);
    word_start(&w, run.processes);
    for (size_t i = 0; i < f->place; i++) {
        if (word_follow(&w, run.entry[i], reuse_play(&m, run.entry[i]), KEPT_UNKNOWN) != NULL) {
            return false;
        }
    }
    struct reuse_record record = reuse_play(&m, run.entry[f->place]);
    bool there = *field_of(&record, f->field) == f->from;
    *field_of(&record, f->field) = f->to;
    return there && word_follow(&w, run.entry[f->place], record, KEPT_UNKNOWN) != NULL;
}

static void test_false_records(void)
{
    char name[100];
    for (size_t i = 0; i < sizeof false_records / sizeof false_records[0]; i++) {
        snprintf(name, sizeof name, "found: %s", false_records[i].name);
        note(name, is_found(&false_records[i]));
    }
}

void test_runs_by_hand(void)
{
    test_outputs();
    test_coming_round();
    test_hit();
    test_load_over_a_round();
    test_closed_interval();
    test_false_records();
}

#include "reuse_selftest.h"

#include "reuse_compare.h"
#include "reuse_word.h"

static size_t passed;
static size_t failed;

bool note(const char *name, bool good)
{
    printf("  %-60s %s\n", name, good ? "ok" : "FAILED");
    passed += good;
    failed += !good;
    return good;
}

static struct typed text;
static struct reuse_run run;
static struct reuse_tally tally;

/* Wrong machines. A run is made along the wrong machine; the word must find a fault in that one's answers, by these alone, and none in
 * those of the right machine to the same run. */

enum { MOST_TRIES = 400, TRY_ENTRIES = 4000 };

static bool has_fault(const struct reuse_rules *rules, bool with_kept)
{
    struct reuse_machine m;
    reuse_start(&m, text.run.processes, rules);
    return word_fault_of(&m, &text.run, with_kept).what != NULL;
}

static void make_try(enum wrong wrong, uint32_t processes, uint64_t index)
{
    struct prng r = prng_of(wrong, index);
    text.run.processes = processes;
    text.run.modulus = least_modulus(processes);
    struct reuse_rules rules = wrong_rules(wrong, processes, text.run.modulus);
    run_fill(&r, &text.run, index % 2 == 0 ? RUN_ONE_WRITER : RUN_CHASE, TRY_ENTRIES, &rules);
}

static void test_wrong_machine(enum wrong wrong, uint32_t processes)
{
    char name[100];
    struct reuse_rules rules = wrong_rules(wrong, processes, least_modulus(processes));
    struct reuse_rules right = right_rules(processes, least_modulus(processes));
    bool found = false;
    bool clean = true;
    uint64_t tries = 0;
    while (!found && tries < MOST_TRIES) {
        make_try(wrong, processes, tries++);
        found = has_fault(&rules, false);
        clean = clean && !has_fault(&right, false) && !has_fault(&right, true);
    }
    snprintf(name, sizeof name, "N %u, %s: found in run %llu", processes, wrong_name(wrong), (unsigned long long)tries);
    note(name, found && clean);
}

static void test_wrong_machines(void)
{
    for (uint32_t wrong = 0; wrong < WRONGS; wrong++) {
        for (uint32_t processes = 2; processes <= 3; processes++) {
            if (can_be_wrong((enum wrong)wrong, processes)) {
                test_wrong_machine((enum wrong)wrong, processes);
            }
        }
    }
}

/* Texts that are made to be refused, and are. */
static void test_spoils(void)
{
    bool all = true;
    for (size_t which = 0; which < spoils; which++) {
        struct prng r = prng_of(1, which);
        text.run.processes = 1 + (uint32_t)which % REUSE_PROCESSES;
        text.run.modulus = least_modulus(text.run.processes);
        struct reuse_rules rules = right_rules(text.run.processes, text.run.modulus);
        run_fill(&r, &text.run, RUN_ANY, which % 7, &rules);
        type_run(&text);
        text.known = true;
        spoil_as_listed(&r, &text, which);
        struct refused refused = reuse_read(text.bytes, text.length, &run);
        bool good = refused.number == text.refused.number && refused.line == text.refused.line;
        all = all && (good || !text.known);
    }
    note("each line and number of the lists is refused as it should", all);
}

/* Wrong programs: the rig's own filter, with something before or behind it. */

static bool agrees_on(const struct command *command, uint64_t index)
{
    struct prng r = prng_of(3, index);
    struct comparison c = {command, 3, index, between(&r, 1, PIECE_MOST), true};
    typed_make(&r, index, &text);
    return compare_typed(&c, &text, &tally);
}

/* The longest text, one that is too long, and a whole round of what is refused; up to the first that shows a difference. */
static bool agrees(const struct command *command)
{
    enum { TOO_LONG = 8 * 13 + 1, LARGEST = 8 * 10 };
    bool good = agrees_on(command, LARGEST) && text.kind == TYPED_LARGEST;
    good = good && agrees_on(command, TOO_LONG) && text.kind == TYPED_TOO_LONG;
    for (uint64_t index = 0; good && index < TYPED_ROUND; index++) {
        good = index % 8 < 3 || agrees_on(command, index);
    }
    return good;
}

struct wrong_program {
    const char *name;
    const char *script; /* $0 is this program */
};

static const struct wrong_program wrong_programs[] = {
    {"says yes for no", "\"$0\" --play | sed 's/ 6 1 0 0$/ 5 1 0 0/'"},
    {"counts no changes", "\"$0\" --play | sed '1s/changes [0-9]*/changes 0/'"},
    {"prints 24 for 16", "\"$0\" --play | sed 's/^refused 16$/refused 24/'"},
    {"counts lines from 0", "\"$0\" --play | sed 's/^refused 25 line 1$/refused 25 line 0/'"},
    {"prints a line too much", "\"$0\" --play; echo"},
    {"writes on standard error", "\"$0\" --play; echo >&2"},
    {"loses the last byte", "\"$0\" --play | head -c -1"},
    {"reads only the first bytes", "head -c 65536 | \"$0\" --play"},
    {"reads only once", "dd bs=1048576 count=1 2>/dev/null | \"$0\" --play"},
    {"reads no byte too much", "head -c 1048576 | \"$0\" --play"},
    {"passes over returns", "tr -d '\\r' | \"$0\" --play"},
    {"passes over zero bytes", "tr -d '\\0' | \"$0\" --play"},
    {"adds a last newline", "sed '$a\\' | \"$0\" --play"},
    {"gives its input back", "cat"},
    {"prints nothing", "cat >/dev/null"},
    {"reads nothing and prints nothing", "exit 0"},
    {"is ended by a signal", "\"$0\" --play; kill -9 $$"},
};

static void test_programs(const char *self)
{
    char name[100];
    const struct command own = {{self, "--play", NULL}};
    const struct command none = {{"./there-is-no-such-program", NULL}};
    note("the rig's own filter, as a process, agrees", agrees(&own));
    note("found: a program that isn't there", !agrees_on(&none, 0));
    for (size_t i = 0; i < sizeof wrong_programs / sizeof wrong_programs[0]; i++) {
        const struct command command = {{"/bin/sh", "-c", wrong_programs[i].script, self, NULL}};
        snprintf(name, sizeof name, "found: a program that %s", wrong_programs[i].name);
        note(name, !agrees(&command));
    }
}

int reuse_selftest(const char *self)
{
    printf("the machine with reused numbers, by hand:\n");
    test_runs_by_hand();
    test_spoils();
    test_wrong_machines();
    test_programs(self);
    printf("%zu passed, %zu failed\n", passed, failed);
    return failed > 0;
}

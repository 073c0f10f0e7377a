#include "reuse_compare.h"

#include "reuse_word.h"

#ifndef KEEP_IN
#define KEEP_IN "/tmp"
#endif

enum { MOST_KEPT = 10, MOST_SAID = 40, SHOWN = 40 };

static struct reuse_run run; /* as read */
static uint8_t room[OUTPUT_ROOM];
static struct ran ran;

/* False, for use behind an `or`. */
static bool complain(const struct comparison *c, const char *what)
{
    static uint32_t said;
    if (!c->quiet && said++ < MOST_SAID) {
        printf("FAILED: seed %llu index %llu: %s\n", (unsigned long long)c->seed, (unsigned long long)c->index, what);
    }
    return false;
}

static void keep_text(const struct comparison *c, const struct typed *text)
{
    static uint32_t kept;
    char name[200];
    if (c->quiet || kept++ >= MOST_KEPT) {
        return;
    }
    snprintf(name, sizeof name, KEEP_IN "/reuse-fail-%llu.text", (unsigned long long)c->index);
    FILE *out = fopen(name, "wb");
    if (out != NULL) {
        fwrite(text->bytes, 1, text->length, out);
        fclose(out);
        printf("  the text is kept in %s\n", name);
    }
}

/* The rig's own reading and answers. */

static bool same_entries(const struct reuse_run *a, const struct reuse_run *b)
{
    bool same = a->processes == b->processes && a->modulus == b->modulus && a->entries == b->entries;
    for (size_t i = 0; same && i < a->entries; i++) {
        same = a->entry[i].kind == b->entry[i].kind && a->entry[i].process == b->entry[i].process && a->entry[i].bit == b->entry[i].bit;
    }
    return same;
}

static bool reading_holds(const struct comparison *c, const struct typed *text, struct refused refused)
{
    if (!text->known) {
        return true;
    }
    if (refused.number != text->refused.number || refused.line != text->refused.line) {
        return complain(c, "the rig's own reader gives another refusal than the text was made for");
    }
    return refused.number != 0 || same_entries(&run, &text->run) || complain(c, "the rig's own reader gives another run than was typed");
}

static bool word_holds_by(const struct comparison *c, bool with_kept)
{
    char what[160];
    struct reuse_machine m;
    struct reuse_rules rules = right_rules(run.processes, run.modulus);
    reuse_start(&m, run.processes, &rules);
    struct word_fault fault = word_fault_of(&m, &run, with_kept);
    if (fault.what == NULL) {
        return true;
    }
    snprintf(what, sizeof what, "the rig's own machine, entry %zu: %s", fault.place, fault.what);
    return complain(c, what);
}

/* The program. */

static size_t first_difference(struct output own, const struct ran *r)
{
    size_t i = 0;
    while (i < own.length && i < r->length && own.bytes[i] == r->output[i]) {
        i++;
    }
    return i;
}

/* The line about a place, without what can't be shown. */
static void show_line(const uint8_t *bytes, size_t length, size_t at, char shown[SHOWN])
{
    size_t from = at;
    size_t count = 0;
    while (from > 0 && bytes[from - 1] != '\n') {
        from--;
    }
    for (; from < length && bytes[from] != '\n' && count < SHOWN - 1; from++) {
        shown[count++] = bytes[from] >= ' ' && bytes[from] <= '~' ? (char)bytes[from] : '?';
    }
    shown[count] = 0;
}

static bool same_output(const struct comparison *c, struct output own)
{
    char what[240];
    char own_line[SHOWN];
    char its_line[SHOWN];
    size_t kept = ran.length < sizeof ran.output ? ran.length : sizeof ran.output;
    if (own.length == ran.length && memcmp(own.bytes, ran.output, own.length) == 0) {
        return true;
    }
    size_t at = first_difference(own, &ran);
    show_line(own.bytes, own.length, at, own_line);
    show_line(ran.output, kept, at, its_line);
    snprintf(what, sizeof what, "the outputs differ, first at byte %zu: the rig has %zu bytes and '%s', the program %zu bytes and '%s'", at,
             own.length, own_line, ran.length, its_line);
    return complain(c, what);
}

static bool program_ends(const struct comparison *c, const struct typed *text)
{
    run_by_pipes(c->command, text->bytes, text->length, c->piece, &ran);
    return ran.ended || complain(c, "the program could not be started, or was ended by a signal");
}

static bool program_agrees(const struct comparison *c, const struct typed *text, struct output own)
{
    return program_ends(c, text) && same_output(c, own) && (ran.messages == 0 || complain(c, "the program writes on standard error"));
}

static bool program_turns_away(const struct comparison *c, const struct typed *text)
{
    if (!program_ends(c, text)) {
        return false;
    }
    bool silent = ran.length == 0 || complain(c, "the program prints something of a text that is too long");
    return (ran.messages > 0 || complain(c, "the program doesn't say that a text is too long")) && silent;
}

static bool compare_read(const struct comparison *c, const struct typed *text, struct reuse_tally *tally)
{
    struct refused refused = reuse_read(text->bytes, text->length, &run);
    bool good = reading_holds(c, text, refused);
    tally_typed(tally, text, refused);
    if (refused.number == 0) {
        tally_run(tally, &run);
        good = word_holds_by(c, false) && word_holds_by(c, true) && good;
    }
    return program_agrees(c, text, reuse_filter(text->bytes, text->length, &run, room)) && good;
}

bool compare_typed(const struct comparison *c, const struct typed *text, struct reuse_tally *tally)
{
    bool good;
    if (text->kind == TYPED_TOO_LONG) {
        tally_typed(tally, text, text->refused);
        good = program_turns_away(c, text);
    } else {
        good = compare_read(c, text, tally);
    }
    if (!good) {
        keep_text(c, text);
    }
    return good;
}

#include "selftest.h"

#include "compare.h"
#include "compare_texts.h"
#include "order.h"
#include "test_head.h"
#include "test_texts.h"
#include "word.h"

/* An entry and what it comes to. */
struct line {
    uint8_t kind;
    uint8_t process;
    uint64_t value;
    uint8_t outcome;
    uint8_t steps;
    uint8_t mark;
    uint64_t answer;
};

#define ASK(kind, p, v) {kind, p, v, REQUEST_TAKEN, 0, 0, 0}
#define ON(p, steps) {KIND_STEP, p, 0, STEP_TAKEN, steps, 0, 0}
#define LOADED(p, steps, mark, v) {KIND_STEP, p, 0, LOAD_ANSWERED, steps, mark, v}
#define DONE(p) {KIND_STEP, p, 0, STORE_DONE, 4, 0, 0}
#define NOT_DONE(p) {KIND_STEP, p, 0, STORE_NOT_DONE, 2, 0, 0}
#define YES(p) {KIND_STEP, p, 0, CHECK_YES, 1, 0, 0}
#define NO(p) {KIND_STEP, p, 0, CHECK_NO, 1, 0, 0}
#define REFUSED(kind, p, number) {kind, p, 0, number, 0, 0, 0}
#define ASK_LL(p) ASK(KIND_LOAD, p, 0)
#define ASK_SC(p, v) ASK(KIND_STORE, p, v)
/* The request and all steps. */
#define LL(p, v) ASK_LL(p), ON(p, 1), ON(p, 2), LOADED(p, 3, 1, v)
#define SC_DONE(p, v) ASK_SC(p, v), ON(p, 1), ON(p, 2), ON(p, 3), DONE(p)
#define SC_NOT_DONE(p, v) ASK_SC(p, v), ON(p, 1), NOT_DONE(p)
#define VL_YES(p) ASK(KIND_CHECK, p, 0), YES(p)
#define VL_NO(p) ASK(KIND_CHECK, p, 0), NO(p)

/* Runs A to L, from document 01, "Runs beside each edge"; the mark of run F from document 02. */
static const struct line run_a[] = {LL(0, 7)};
static const struct line run_b[] = {SC_NOT_DONE(1, 40)};
static const struct line run_c[] = {VL_NO(0)};
static const struct line run_d[] = {LL(1, 7), SC_DONE(1, 40), SC_NOT_DONE(1, 41)};
static const struct line run_e[] = {LL(1, 7),  LL(0, 7),      SC_DONE(0, 20),
                                    LL(0, 20), SC_DONE(0, 7), SC_NOT_DONE(1, 99)};
static const struct line run_f[] = {ASK_LL(1), ON(1, 1), LL(0, 7), ASK_SC(0, 20),
                                    ON(0, 1),  ON(0, 2), ON(1, 2), LOADED(1, 3, 2, 7)};
static const struct line run_g[] = {LL(0, 7), ASK_SC(0, 20), ON(0, 1), ON(0, 2), LL(1, 20)};
static const struct line run_h[] = {ASK_LL(1),     ON(1, 1), LL(0, 7), SC_DONE(0, 20), LL(0, 20),
                                    ASK_SC(0, 30), ON(0, 1), ON(1, 2), ON(1, 3),       LOADED(1, 4, 2, 7)};
static const struct line run_i[] = {ASK_LL(1),      ON(1, 1), LL(0, 7), SC_DONE(0, 20),     LL(0, 20),
                                    SC_DONE(0, 30), ON(1, 2), ON(1, 3), LOADED(1, 4, 2, 20)};
static const struct line run_j[] = {LL(0, 7), SC_DONE(0, 5), LL(0, 5), REFUSED(KIND_STORE, 0, NUMBERS_USED_UP)};
static const struct line run_k[] = {ASK_LL(0), REFUSED(KIND_LOAD, 0, CALL_OPEN)};
static const struct line run_l[] = {REFUSED(KIND_STEP, 2, NO_SUCH_PROCESS), REFUSED(KIND_STEP, 1, PROCESS_IDLE)};
/* "The player and one full run". */
static const struct line run_full[] = {LL(1, 7), SC_DONE(1, 40), VL_NO(0)};
/* Beside run F: what comes between the load's step 1 and its answer by step 3, and what doesn't. */
static const struct line not_done[] = {ASK_LL(1), ON(1, 1), SC_NOT_DONE(0, 20), ON(1, 2), LOADED(1, 3, 1, 7)};
static const struct line one_step[] = {ASK_LL(1), ON(1, 1), LL(0, 7), ASK_SC(0, 20), ON(0, 1), ON(1, 2), LOADED(1, 3, 1, 7)};
static const struct line at_last[] = {ASK_LL(1), ON(1, 1), LL(0, 7), ASK_SC(0, 20),
                                      ON(0, 1),  ON(1, 2), ON(0, 2), LOADED(1, 3, 2, 7)};
static const struct line too_late[] = {ASK_LL(1), ON(1, 1), LL(0, 7), ASK_SC(0, 20),
                                       ON(0, 1),  ON(1, 2), LOADED(1, 3, 1, 7), ON(0, 2)};
static const struct line same_value[] = {ASK_LL(1), ON(1, 1), LL(0, 7), ASK_SC(0, 7),
                                         ON(0, 1),  ON(0, 2), ON(1, 2), LOADED(1, 3, 2, 7)};
static const struct line same_number[] = {ASK_LL(0), ON(0, 1), LL(1, 7), SC_DONE(1, 20), ON(0, 2), LOADED(0, 3, 2, 7)};
static const struct line same_process[] = {LL(1, 7), SC_DONE(1, 20), ASK_LL(0), ON(0, 1), LL(1, 20),
                                           ASK_SC(1, 30), ON(1, 1), ON(1, 2), ON(1, 3), ON(0, 2), LOADED(0, 3, 2, 20)};
/* What comes between a load's step 1 and a store's step 8, or a check, of the same process. */
static const struct line still_linked[] = {LL(1, 7), SC_NOT_DONE(0, 20), VL_YES(1), VL_YES(1), SC_DONE(1, 40)};
static const struct line in_a_load[] = {ASK_LL(1), ON(1, 1), LL(0, 7), ASK_SC(0, 20), ON(0, 1), ON(0, 2),
                                        ON(1, 2), LOADED(1, 3, 2, 7), VL_NO(1), SC_NOT_DONE(1, 40)};
static const struct line at_step_8[] = {LL(1, 7), LL(0, 7), ASK_SC(1, 40), ON(1, 1), ASK_SC(0, 20), ON(0, 1), ON(0, 2), NOT_DONE(1)};
static const struct line unanswered[] = {LL(1, 7), ASK_SC(1, 40), ON(1, 1), ON(1, 2)};

struct run {
    const char *name;
    uint8_t processes;
    uint32_t last;
    uint32_t changes;
    const struct line *line;
    size_t lines;
};

#define LINES(run) run, sizeof(run) / sizeof(run)[0]
static const struct run runs[] = {
    {"run A", 1, 9, 0, LINES(run_a)}, {"run B", 2, 9, 0, LINES(run_b)}, {"run C", 2, 9, 0, LINES(run_c)},
    {"run D", 2, 9, 1, LINES(run_d)}, {"run E", 2, 9, 2, LINES(run_e)}, {"run F", 2, 9, 1, LINES(run_f)},
    {"run G", 2, 9, 1, LINES(run_g)}, {"run H", 2, 9, 1, LINES(run_h)}, {"run I", 2, 9, 2, LINES(run_i)},
    {"run J", 1, 2, 1, LINES(run_j)}, {"run K", 2, 9, 0, LINES(run_k)}, {"run L", 2, 9, 0, LINES(run_l)},
    {"the full run", 2, 9, 1, LINES(run_full)},
    {"a store not done since the load's step 1: mark 1", 2, 9, 0, LINES(not_done)},
    {"a store that stands before its step 8: mark 1", 2, 9, 0, LINES(one_step)},
    {"a store's step 8 straight before the load's step 3: mark 2", 2, 9, 1, LINES(at_last)},
    {"a store's step 8 straight after the load's step 3: mark 1", 2, 9, 1, LINES(too_late)},
    {"a store of the same value since the load's step 1: mark 2", 2, 9, 1, LINES(same_value)},
    {"X of another process with the kept tag's number: mark 2", 2, 9, 1, LINES(same_number)},
    {"X of the kept tag's process with another number: mark 2", 2, 9, 2, LINES(same_process)},
    {"a store not done and checks since the load: yes, and done", 2, 9, 1, LINES(still_linked)},
    {"a store since step 1 of the load, before its step 2: no", 2, 9, 1, LINES(in_a_load)},
    {"a store between another's request and step 8: not done", 2, 9, 1, LINES(at_step_8)},
    {"a store that stands behind its step 8: a change", 2, 9, 1, LINES(unanswered)},
};
enum { RUNS = sizeof runs / sizeof runs[0] };
enum { RUN_A, RUN_B, RUN_C, RUN_D, RUN_E, RUN_F, RUN_G, RUN_H, RUN_I, RUN_J, RUN_K, RUN_L, RUN_FULL };
enum { STILL_LINKED = RUNS - 4, IN_A_LOAD, AT_STEP_8, UNANSWERED }; /* the last four */

static size_t passed;
static size_t failed;

bool note(const char *name, bool good)
{
    printf("  %-60s %s\n", name, good ? "ok" : "FAILED");
    passed += good;
    failed += !good;
    return good;
}

/* A file that is played by both, and what the reference gave. */
struct played {
    uint8_t file[FILE_ROOM];
    size_t length;
    uint8_t log[LOG_ROOM];
    uint32_t told;
    bool same;
};

static struct played now;
static uint64_t files_played;

static void play(size_t log_len)
{
    struct compared c = compare(now.file, now.length, log_len, STAND_MIDDLE, files_played++);
    now.told = c.told;
    now.same = c.same;
    memcpy(now.log, c.log, log_len);
}

static void lay_run(const struct run *run)
{
    static struct schedule s;
    s.processes = run->processes;
    s.last = run->last;
    s.value = 7;
    s.entries = run->lines;
    for (size_t i = 0; i < run->lines; i++) {
        s.entry[i] = (struct entry){run->line[i].kind, run->line[i].process, run->line[i].value};
    }
    now.length = schedule_packed(&s, now.file);
}

static bool same_line(const struct line *line, const uint8_t *record)
{
    return record[0] == line->outcome && record[1] == line->process && record[2] == line->steps &&
           record[3] == line->mark && get64(record + 4) == line->answer;
}

static bool log_is(const struct run *run)
{
    bool good = get32(now.log) == run->lines && get32(now.log + 4) == run->changes &&
                get32(now.log + 8) == run->processes;
    for (size_t i = 0; i < run->lines; i++) {
        good = good && same_line(&run->line[i], now.log + LOG_HEAD + RECORD * i);
    }
    return good;
}

static void play_run(const struct run *run)
{
    lay_run(run);
    play(LOG_HEAD + RECORD * run->lines);
}

static void test_runs(void)
{
    for (size_t i = 0; i < RUNS; i++) {
        play_run(&runs[i]);
        note(runs[i].name, now.told == 0 && now.same && log_is(&runs[i]));
    }
    lay_run(&runs[RUN_FULL]);
    note("the full run's checks are 131 and 5426",
         get16(now.file + BLOCK_CHECK) == 131 && get16(now.file + BLOCK + BLOCK_CHECK) == 5426);
}

/* "By program". */

static void gives(const char *name, size_t log_len, uint32_t number, uint32_t block)
{
    play(log_len);
    note(name, now.told == number + 256 * block && now.same);
}

/* A file of the given number of empty blocks after block 0. */
static void lay_empty(uint8_t processes, uint32_t last, size_t later)
{
    const struct run none = {"", processes, last, 0, NULL, 0};
    lay_run(&none);
    put16(now.file + 16, (uint32_t)later);
    seal(now.file);
    for (size_t b = 1; b <= later; b++) {
        uint8_t *block = now.file + BLOCK * b;
        memset(block, 0, BLOCK);
        put16(block, (uint32_t)b);
        seal(block);
    }
    now.length = BLOCK * (later + 1);
}

/* A C caller may lend nothing at all as NULL and 0. */
static void test_nothing_lent(void)
{
    lay_empty(2, 9, 0);
    note("no file and no log, NULL and 0, give 1", reference_run(NULL, 0, NULL, 0) == 1 && reefcapstan_run(NULL, 0, NULL, 0) == 1);
    note("a sound file and no log give 6",
         reference_run(now.file, BLOCK, NULL, 0) == 6 && reefcapstan_run(now.file, BLOCK, NULL, 0) == 6);
}

static void test_by_program(void)
{
    now.length = 0;
    gives("length 0 gives 1", 100, 1, 0);
    lay_empty(2, 9, 0);
    gives("512 with no entries is accepted with a log of 12", 12, 0, 0);
    static const uint8_t head[LOG_HEAD] = {0, 0, 0, 0, 0, 0, 0, 0, 2, 0, 0, 0};
    note("and its log is the head alone", memcmp(now.log, head, LOG_HEAD) == 0);
    gives("512 with no entries and a log of 11 gives 6", 11, 6, 0);
    lay_empty(2, 9, 127);
    gives("65536 is accepted", 12, 0, 0);
    lay_empty(2, 9, 128);
    gives("66048 gives 1", 12, 1, 0);
    lay_empty(16, 9, 0);
    gives("N 16 is accepted", 12, 0, 0);
    lay_empty(0, 9, 0);
    gives("N 0 gives 16", 12, 16, 0);
    lay_empty(17, 9, 0);
    gives("N 17 gives 16", 12, 16, 0);
    lay_empty(2, 1, 0);
    gives("S 1 gives 17", 12, 17, 0);
    lay_empty(2, 2, 0);
    gives("S 2 is accepted", 12, 0, 0);
    lay_run(&runs[RUN_FULL]);
    put16(now.file + BLOCK_CHECK, 132);
    gives("the check 132 in the full run gives 2, block 0", 1000, 2, 0);
    lay_run(&runs[RUN_FULL]);
    put16(now.file + BLOCK + BLOCK_CHECK, 5427);
    gives("the check 5427 in it gives 2, block 1", 1000, 2, 1);
}

/* Every change of one byte in a file of three blocks, under the old check and under the right one, and every length of
 * the log: no place of the format is left to chance. */

static void lay_three_blocks(void)
{
    static const uint8_t kinds[] = {KIND_LOAD, KIND_STEP, KIND_STEP, KIND_STEP, KIND_STORE, KIND_STEP, KIND_CHECK};
    lay_run(&runs[RUN_FULL]);
    put16(now.file + 16, 2);
    seal(now.file);
    uint8_t *block = now.file + BLOCK * 2;
    memset(block, 0, BLOCK);
    block[0] = 2;
    block[2] = BLOCK_ENTRIES;
    for (size_t e = 0; e < BLOCK_ENTRIES; e++) {
        uint8_t *entry = block + ENTRIES_FROM + ENTRY * e;
        entry[0] = kinds[e % sizeof kinds];
        entry[1] = e % 3 == 2;
        entry[5] = entry[0] == KIND_STORE ? 1 : 0;
    }
    seal(block);
    now.length = BLOCK * 3;
}

enum { THREE_BLOCKS_LOG = LOG_HEAD + RECORD * (11 + BLOCK_ENTRIES) };

/* All values of one byte; gives how many files differed. */
static size_t change_byte(size_t at, bool sealed)
{
    uint8_t kept[BLOCK * 3];
    size_t different = 0;
    memcpy(kept, now.file, sizeof kept);
    for (uint32_t value = 0; value < 256; value++) {
        now.file[at] = (uint8_t)value;
        if (sealed) {
            seal(now.file + at / BLOCK * BLOCK);
        }
        enum standing standing = (enum standing)(value % STANDINGS);
        /* A changed count asks for a longer log than the file had. */
        different += !compare(now.file, now.length, THREE_BLOCKS_LOG + RECORD * BLOCK_ENTRIES, standing, files_played++).same;
    }
    memcpy(now.file, kept, sizeof kept);
    return different;
}

static void test_every_byte(void)
{
    size_t different = 0;
    lay_three_blocks();
    gives("a file of three blocks is accepted", THREE_BLOCKS_LOG, 0, 0);
    for (size_t at = 0; at < BLOCK * 3; at++) {
        different += change_byte(at, true);
    }
    note("each byte of it with each value, check made right: same", different == 0);
    different = 0;
    for (size_t at = 0; at < BLOCK * 3; at++) {
        different += change_byte(at, false);
    }
    note("each byte of it with each value under the old check: same", different == 0);
    different = 0;
    for (size_t log_len = 0; log_len < THREE_BLOCKS_LOG + 100; log_len++) {
        different += !compare(now.file, now.length, log_len, STAND_MIDDLE, files_played++).same;
    }
    note("each length of the log from 0 on: same", different == 0);
}

/* The search for an order: it must find one for each run above, and none for a wrong history. */

static void history_of_run(struct history *h, size_t run)
{
    play_run(&runs[run]);
    if (!history_read(h, now.file, now.length, now.log)) {
        h->calls = 0;
    }
}

static bool finds(const struct history *h)
{
    return order_exists(h, BY_ANSWER) && order_exists(h, BY_DECISION);
}

static bool finds_none(const struct history *h)
{
    return !order_exists(h, BY_ANSWER) && !order_exists(h, BY_DECISION);
}

static void test_orders_found(void)
{
    struct history h;
    bool all = true;
    for (size_t i = 0; i < RUNS; i++) {
        history_of_run(&h, i);
        all = all && finds(&h);
    }
    note("runs A to L, the full run and those after it have an order", all);
}

/* The call of the given process and kind with the latest answer. */
static struct call *last_call(struct history *h, uint8_t process, uint8_t kind)
{
    struct call *found = &h->call[0];
    for (size_t i = 0; i < h->calls; i++) {
        if (h->call[i].process == process && h->call[i].kind == kind) {
            found = &h->call[i];
        }
    }
    return found;
}

static void test_wrong_runs(void)
{
    struct history h;
    history_of_run(&h, RUN_H);
    note("run H has 4 calls to play", h.calls == 4);
    last_call(&h, 1, KIND_LOAD)->value = 30;
    note("run H with the load answering 30 has no order", finds_none(&h));
    history_of_run(&h, RUN_E);
    last_call(&h, 1, KIND_STORE)->answer = STORE_DONE;
    note("run E with the last store done has no order", finds_none(&h));
    history_of_run(&h, RUN_D);
    last_call(&h, 1, KIND_STORE)->answer = STORE_DONE;
    note("run D with both stores done has no order", finds_none(&h));
    history_of_run(&h, RUN_C);
    last_call(&h, 0, KIND_CHECK)->answer = CHECK_YES;
    note("run C with the answer yes has no order", finds_none(&h));
    history_of_run(&h, RUN_A);
    last_call(&h, 0, KIND_LOAD)->value = 8;
    note("run A with the load answering 8 has no order", finds_none(&h));
}

#define CALL(asked, decided, answered, process, kind, answer, value) \
    {asked, decided, answered, process, kind, answer, value}

/* Histories typed by hand, for what no edit of a run reaches. */
static void test_typed_histories(void)
{
    const struct history late = {7, 3, {CALL(0, 3, 3, 0, KIND_LOAD, LOAD_ANSWERED, 7),
                                        CALL(4, 6, 8, 0, KIND_STORE, STORE_DONE, 20),
                                        CALL(9, 12, 12, 1, KIND_LOAD, LOAD_ANSWERED, 7)}};
    note("a load of a value gone before it was asked has no order", finds_none(&late));
    struct history overlap = late;
    overlap.call[2].asked = 5;
    note("the same load asked before the store was decided has one", finds(&overlap));
    struct history between_the_two = late;
    between_the_two.call[2].asked = 7;
    note("asked after step 8 and before the answer: by answers alone",
         order_exists(&between_the_two, BY_ANSWER) && !order_exists(&between_the_two, BY_DECISION));
    const struct history unanswered = {7, 3, {CALL(0, 3, 3, 0, KIND_LOAD, LOAD_ANSWERED, 7),
                                              CALL(4, 6, NEVER, 0, KIND_STORE, STORE_DONE, 20),
                                              CALL(9, 12, 12, 1, KIND_LOAD, LOAD_ANSWERED, 20)}};
    note("a load of an unanswered store's value has one", finds(&unanswered));
    struct history unplayed = unanswered;
    unplayed.calls = 2;
    unplayed.call[1] = unanswered.call[2];
    note("without that store it has none", finds_none(&unplayed));
    struct history idle_loss = late;
    idle_loss.calls = 2;
    idle_loss.call[1].answer = STORE_NOT_DONE;
    note("a store that fails though no one else stored has none", finds_none(&idle_loss));
}

/* What a log tells of the word: in the runs above it is right, as each comparison asks. A byte of it made another is found, and at the
 * entry where it stands. */

struct changed_log {
    const char *name;
    size_t run;
    uint32_t place; /* of the entry, or AT_HEAD */
    size_t byte;    /* of its record: 0 the outcome, 2 the own steps, 3 the mark, 4 the value's low byte; or of the head */
    uint8_t from;
    uint8_t to;
};

static const struct changed_log changed_logs[] = {
    {"run A with mark 2", RUN_A, 3, 3, 1, 2},
    {"run A with no mark", RUN_A, 3, 3, 1, 0},
    {"run A with mark 3", RUN_A, 3, 3, 1, 3},
    {"run A with the load answering 8", RUN_A, 3, 4, 7, 8},
    {"run F with mark 1", RUN_F, 10, 3, 2, 1},
    {"run F with no mark", RUN_F, 10, 3, 2, 0},
    {"run F with mark 3", RUN_F, 10, 3, 2, 3},
    {"run G with mark 2", RUN_G, 10, 3, 1, 2},
    {"run G with the load answering 7", RUN_G, 10, 4, 20, 7},
    {"run H with mark 1", RUN_H, 19, 3, 2, 1},
    {"run A with a mark of the request", RUN_A, 0, 3, 0, 1},
    {"run A with a mark of a step before the last", RUN_A, 2, 3, 0, 1},
    {"run D with a mark of the store done", RUN_D, 8, 3, 0, 1},
    {"run D with a mark of the store not done", RUN_D, 11, 3, 0, 2},
    {"run C with a mark of the check", RUN_C, 1, 3, 0, 2},
    {"run L with a mark of a refused entry", RUN_L, 1, 3, 0, 1},
    {"run A with four own steps", RUN_A, 3, 2, 3, 4},
    {"run A with two own steps at step 1", RUN_A, 1, 2, 1, 2},
    {"run A with an own step of the request", RUN_A, 0, 2, 0, 1},
    {"run D with own steps that go on from the call before", RUN_D, 5, 2, 1, 4},
    {"run F with one own step at step 8", RUN_F, 8, 2, 2, 1},
    {"run F with three own steps at step 8", RUN_F, 8, 2, 2, 3},
    {"run H with three own steps at step 5", RUN_H, 19, 2, 4, 3},
    {"run B with one own step of the store not done", RUN_B, 2, 2, 2, 1},
    {"run D with two own steps of the store done", RUN_D, 8, 2, 4, 2},
    {"run C with no own step of the check", RUN_C, 1, 2, 1, 0},
    {"run K with an own step of a refused request", RUN_K, 1, 2, 0, 1},
    {"run L with an own step of a refused step", RUN_L, 1, 2, 0, 1},
    {"run B with the store passing step 8 without a load", RUN_B, 2, 0, STORE_NOT_DONE, STEP_TAKEN},
    {"run B with the store done by two steps", RUN_B, 2, 0, STORE_NOT_DONE, STORE_DONE},
    {"run D with the first store not done", RUN_D, 6, 0, STEP_TAKEN, STORE_NOT_DONE},
    {"run D with the first store not done after step 8", RUN_D, 8, 0, STORE_DONE, STORE_NOT_DONE},
    {"run D with the first store done by three steps", RUN_D, 7, 0, STEP_TAKEN, STORE_DONE},
    {"run D with the second store passing step 8", RUN_D, 11, 0, STORE_NOT_DONE, STEP_TAKEN},
    {"run E with the last store passing step 8", RUN_E, 24, 0, STORE_NOT_DONE, STEP_TAKEN},
    {"run H with the first store not done", RUN_H, 8, 0, STEP_TAKEN, STORE_NOT_DONE},
    {"a store not done though still linked", STILL_LINKED, 13, 0, STEP_TAKEN, STORE_NOT_DONE},
    {"a store passing step 8 though the load is older", IN_A_LOAD, 15, 0, STORE_NOT_DONE, STEP_TAKEN},
    {"a store passing step 8 behind another's", AT_STEP_8, 13, 0, STORE_NOT_DONE, STEP_TAKEN},
    {"run C with the answer yes", RUN_C, 1, 0, CHECK_NO, CHECK_YES},
    {"the full run with the answer yes", RUN_FULL, 10, 0, CHECK_NO, CHECK_YES},
    {"a check with the answer no though still linked", STILL_LINKED, 8, 0, CHECK_YES, CHECK_NO},
    {"a second check with the answer no", STILL_LINKED, 10, 0, CHECK_YES, CHECK_NO},
    {"a check with the answer yes though the load is older", IN_A_LOAD, 12, 0, CHECK_NO, CHECK_YES},
    {"run A answered by step 2", RUN_A, 2, 0, STEP_TAKEN, LOAD_ANSWERED},
    {"run A answered as a check", RUN_A, 3, 0, LOAD_ANSWERED, CHECK_YES},
    {"run C answered as a load", RUN_C, 1, 0, CHECK_NO, LOAD_ANSWERED},
    {"run H with step 5 going on", RUN_H, 19, 0, LOAD_ANSWERED, STEP_TAKEN},
    {"run D with step 10 going on", RUN_D, 8, 0, STORE_DONE, STEP_TAKEN},
    {"run C with step 14 going on", RUN_C, 1, 0, CHECK_NO, STEP_TAKEN},
    {"run A with the request as a step", RUN_A, 0, 0, REQUEST_TAKEN, STEP_TAKEN},
    {"run A with step 1 as a request", RUN_A, 1, 0, STEP_TAKEN, REQUEST_TAKEN},
    {"run L with the step of an idle process taken", RUN_L, 1, 0, PROCESS_IDLE, STEP_TAKEN},
    {"run A with one change in the head", RUN_A, AT_HEAD, 4, 0, 1},
    {"run D with no change in the head", RUN_D, AT_HEAD, 4, 1, 0},
    {"run D with two changes in the head", RUN_D, AT_HEAD, 4, 1, 2},
    {"run D with 2^24 more changes in the head", RUN_D, AT_HEAD, 7, 0, 1},
    {"a change of an unanswered store not in the head", UNANSWERED, AT_HEAD, 4, 1, 0},
};

static void test_changed_logs(void)
{
    char name[80];
    for (size_t i = 0; i < sizeof changed_logs / sizeof changed_logs[0]; i++) {
        const struct changed_log *c = &changed_logs[i];
        play_run(&runs[c->run]);
        uint8_t *byte = now.log + (c->place == AT_HEAD ? 0 : LOG_HEAD + RECORD * (size_t)c->place) + c->byte;
        bool there = *byte == c->from;
        *byte = c->to;
        struct word_fault fault = find_word_fault(now.file, now.length, now.log);
        snprintf(name, sizeof name, "%s is found", c->name);
        note(name, there && fault.what != NULL && fault.place == c->place);
    }
}

int selftest(void)
{
    printf("document 01's runs and lines, by the reference and by the proved run:\n");
    compare_start(0);
    compare_texts_start();
    test_runs();
    test_by_program();
    test_nothing_lent();
    test_head();
    test_every_byte();
    test_orders_found();
    test_wrong_runs();
    test_typed_histories();
    test_changed_logs();
    test_texts();
    printf("  %llu files were played by both\n", (unsigned long long)files_played);
    printf("%zu passed, %zu failed\n", passed, failed);
    return failed > 0;
}

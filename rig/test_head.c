#include "test_head.h"

#include "compare.h"
#include "compare_texts.h"
#include "selftest.h"

/* The macros of the header that the archive comes with take apart what the rig puts together, and name the rig's own marks. */
#ifdef REEFCAPSTAN_H
#define TOLD (19 + 256 * 127 + 65536 * 509)
_Static_assert(REEFCAPSTAN_NUMBER(TOLD) == 19, "the number");
_Static_assert(REEFCAPSTAN_BLOCK(TOLD) == 127, "the block");
_Static_assert(REEFCAPSTAN_PLACE(TOLD) == 509, "the place");
_Static_assert(REEFCAPSTAN_DETAIL(TOLD) == 127 + 256 * 509, "a list's detail");
_Static_assert(REEFCAPSTAN_MARK_CURRENT == MARK_CURRENT, "mark 1");
_Static_assert(REEFCAPSTAN_MARK_NOT_CURRENT == MARK_NOT_CURRENT, "mark 2");
#endif

/* The file: block 0 with N 2, S 9 and V 7, and one empty block. */
enum { LENGTH = 2 * BLOCK };

/* A byte and what it becomes. The checks are made right again, unless the byte is one of a check. Two places stand for other
 * changes: the file without its last byte, and a log that is one byte too short. */
struct change {
    uint16_t at;
    uint8_t to;
};

enum { CUT = LENGTH, SHORT_LOG };

/* What is told of a file; the number is 0 if it is accepted. */
struct told {
    uint32_t number;
    uint32_t block;
    uint32_t place;
};

static uint8_t file[LENGTH];
static size_t length;
static size_t log_len;
static uint64_t played;

static void lay_sound(void)
{
    memset(file, 0, sizeof file);
    file[2] = 2;
    file[4] = 9;
    file[8] = 7;
    file[16] = 1;
    file[BLOCK] = 1;
    length = LENGTH;
    log_len = LOG_HEAD;
}

static void seal_both(void)
{
    seal(file);
    seal(file + BLOCK);
}

static bool of_check(const struct change *c)
{
    return c->at < LENGTH && c->at % BLOCK >= BLOCK_CHECK;
}

static void put_change(const struct change *c)
{
    if (c->at == CUT) {
        length--;
    } else if (c->at == SHORT_LOG) {
        log_len--;
    } else {
        file[c->at] = c->to;
    }
}

static void lay_changed(const struct change *change, size_t count)
{
    lay_sound();
    for (size_t i = 0; i < count; i++) {
        if (!of_check(&change[i])) {
            put_change(&change[i]);
        }
    }
    seal_both();
    for (size_t i = 0; i < count; i++) {
        if (of_check(&change[i])) {
            file[change[i].at] ^= change[i].to;
        }
    }
}

static bool run_tells(const struct told *t)
{
    struct compared c = compare(file, length, log_len, (enum standing)(played % STANDINGS), played);
    return c.same && c.told == t->number + 256 * t->block + 65536 * t->place;
}

/* The lister is lent no log: what the run refuses by 6 is listed. A refused file is refused also where no output is lent. */
static bool list_tells(const struct told *t)
{
    bool listed = t->number == 0 || t->number == LOG_TOO_SHORT;
    struct job job = {LIST, file, length, listed || played % 2 == 0 ? 100 : 0, STAND_MIDDLE, STAND_MIDDLE};
    job.in_stands = (enum standing)(played % STANDINGS);
    struct job_done d = compare_job(&job, played);
    if (listed) {
        return d.same && d.number == 0;
    }
    return d.same && d.number == t->number && d.detail == t->block + 256 * t->place;
}

static bool both_tell(struct told t)
{
    played++;
    bool run = run_tells(&t);
    return list_tells(&t) && run;
}

/* The order: each of these is told before those below it. */

struct fault {
    const char *name;
    struct change change;
    struct told told;
};

static const struct fault in_order[] = {
    {"length 1023", {CUT, 0}, {BAD_LENGTH, 0, 0}},
    {"check", {510, 1}, {BAD_CHECK, 0, 0}},
    {"place", {1, 1}, {BAD_PLACE, 0, 0}},
    {"N 17", {2, 17}, {BAD_PROCESSES, 0, 0}},
    {"S 1", {4, 1}, {BAD_LAST, 0, 0}},
    {"block count 2", {16, 2}, {BAD_BLOCK_COUNT, 0, 0}},
    {"byte 3", {3, 1}, {STRAY_BYTE, 0, 3}},
    {"byte 18", {18, 1}, {STRAY_BYTE, 0, 18}},
    {"byte 509", {509, 1}, {STRAY_BYTE, 0, 509}},
    {"check of block 1", {BLOCK + 510, 1}, {BAD_CHECK, 1, 0}},
    {"place of block 1", {BLOCK + 1, 1}, {BAD_PLACE, 1, 0}},
    {"byte 3 of block 1", {BLOCK + 3, 1}, {BAD_BLOCK, 1, 0}},
    {"log of 11", {SHORT_LOG, 0}, {LOG_TOO_SHORT, 0, 0}},
};

enum { IN_ORDER = sizeof in_order / sizeof in_order[0] };

/* The faults of the chosen bits: the first of them is told. */
static bool first_is_told(uint32_t chosen)
{
    struct change change[IN_ORDER];
    struct told told = {0, 0, 0};
    size_t count = 0;
    for (size_t i = 0; i < IN_ORDER; i++) {
        if ((chosen >> i & 1) != 0) {
            told = count == 0 ? in_order[i].told : told;
            change[count++] = in_order[i].change;
        }
    }
    lay_changed(change, count);
    return both_tell(told);
}

static void test_order(void)
{
    char name[80];
    bool good = true;
    for (size_t i = 0; i < IN_ORDER; i++) {
        const struct fault *f = &in_order[i];
        snprintf(name, sizeof name, "%s: %u block %u place %u", f->name, f->told.number, f->told.block, f->told.place);
        note(name, first_is_told(1u << i));
    }
    for (size_t i = 0; i + 1 < IN_ORDER; i++) {
        snprintf(name, sizeof name, "%s before %s", in_order[i].name, in_order[i + 1].name);
        note(name, first_is_told(3u << i));
    }
    for (uint32_t chosen = 0; chosen < 1u << IN_ORDER; chosen++) {
        good = first_is_told(chosen) && good;
    }
    note("each choice of these faults: the first is told", good);
}

/* Values beside the edges of N, S and the block count. */

struct edge {
    const char *name;
    struct change change[2];
    uint32_t number;
};

static const struct edge edges[] = {
    {"N 1 is accepted", {{2, 1}, {3, 0}}, 0},
    {"N 0 and S 0: 16", {{2, 0}, {4, 0}}, BAD_PROCESSES},
    {"N 255: 16", {{2, 255}, {3, 0}}, BAD_PROCESSES},
    {"S 0: 17", {{4, 0}, {5, 0}}, BAD_LAST},
    {"S 256 is accepted", {{4, 0}, {5, 1}}, 0},
    {"S 65537 is accepted", {{4, 1}, {6, 1}}, 0},
    {"S 2147483648 is accepted", {{4, 0}, {7, 128}}, 0},
    {"S 0 and block count 0: 17", {{4, 0}, {16, 0}}, BAD_LAST},
    {"block count 0: 18", {{16, 0}, {17, 0}}, BAD_BLOCK_COUNT},
    {"block count 257: 18", {{16, 1}, {17, 1}}, BAD_BLOCK_COUNT},
    {"block count 65535: 18", {{16, 255}, {17, 255}}, BAD_BLOCK_COUNT},
};

static void test_edges(void)
{
    for (size_t i = 0; i < sizeof edges / sizeof edges[0]; i++) {
        lay_changed(edges[i].change, 2);
        note(edges[i].name, both_tell((struct told){edges[i].number, 0, 0}));
    }
}

/* Stray bytes, each place of them: 3, then 18 to 509. */

static uint16_t next_stray(uint16_t place)
{
    return place == 3 ? HEAD_TAIL : (uint16_t)(place + 1);
}

static void test_one_stray(void)
{
    bool low = true;
    bool high = true;
    bool all = true;
    for (uint16_t at = 3; at < BLOCK_CHECK; at = next_stray(at)) {
        struct told told = {STRAY_BYTE, 0, at};
        lay_changed(&(struct change){at, 1}, 1);
        low = both_tell(told) && low;
        lay_changed(&(struct change){at, 128}, 1);
        high = both_tell(told) && high;
        memset(file + next_stray(at), 255, (size_t)(BLOCK_CHECK - next_stray(at)));
        seal_both();
        all = both_tell(told) && all;
    }
    note("each stray byte of 1: 19 and its place", low);
    note("each stray byte of 128: 19 and its place", high);
    note("each stray byte with all those after it: its place", all);
}

static void test_two_strays(void)
{
    bool good = true;
    for (uint16_t first = 3; first < BLOCK_CHECK; first = next_stray(first)) {
        for (uint16_t second = next_stray(first); second < BLOCK_CHECK; second = next_stray(second)) {
            struct change two[] = {{first, 1}, {second, 255}};
            lay_changed(two, 2);
            good = both_tell((struct told){STRAY_BYTE, 0, first}) && good;
        }
    }
    note("each two stray bytes: the first's place", good);
}

void test_head(void)
{
    test_order();
    test_edges();
    test_one_stray();
    test_two_strays();
    printf("  %llu files were played and listed by both\n", (unsigned long long)played);
}

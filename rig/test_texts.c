#include "test_texts.h"

#include "compare_texts.h"
#include "selftest.h"

/* Document 01's full run as a text, and its file byte by byte; the bytes that are not named are zero. */
static const char worked[] = "H 2 9 7\nL 1\nT 1\nT 1\nT 1\nS 1 40\nT 1\nT 1\nT 1\nT 1\nV 0\nT 0\n";

static const uint8_t worked_entries[][3] = {{1, 1, 0}, {4, 1, 0}, {4, 1, 0}, {4, 1, 0}, {2, 1, 40}, {4, 1, 0},
                                            {4, 1, 0}, {4, 1, 0}, {4, 1, 0}, {3, 0, 0}, {4, 0, 0}};

enum { WORKED_ENTRIES = sizeof worked_entries / sizeof worked_entries[0] };

static uint8_t file[LARGEST_FILE];
static uint8_t typed[LONGEST_LISTING + LONGEST_LINE];
static uint64_t jobs;

static void set_byte(size_t at, uint8_t byte)
{
    file[at] = byte;
}

static void set_bytes(size_t from, size_t to, uint8_t byte)
{
    memset(file + from, byte, to - from);
}

/* Some of the full run's entries in a block that is zero so far. */
static void lay_entries(size_t block, size_t first, size_t count)
{
    set_byte(BLOCK * block, (uint8_t)block);
    set_byte(BLOCK * block + 2, (uint8_t)count);
    for (size_t e = 0; e < count; e++) {
        const uint8_t *entry = worked_entries[first + e];
        set_byte(BLOCK * block + 4 + 12 * e, entry[0]);
        set_byte(BLOCK * block + 5 + 12 * e, entry[1]);
        set_byte(BLOCK * block + 8 + 12 * e, entry[2]);
    }
}

static void lay_start(size_t blocks)
{
    memset(file, 0, sizeof file);
    set_byte(2, 2);
    set_byte(4, 9);
    set_byte(8, 7);
    set_byte(16, (uint8_t)(blocks - 1));
}

static void lay_worked(void)
{
    lay_start(2);
    lay_entries(1, 0, WORKED_ENTRIES);
    put16(file + 510, 131);
    put16(file + 1022, 5426);
}

static struct job_done job_of(enum task task, const void *in, size_t in_len, size_t out_len)
{
    struct job job = {task, in, in_len, out_len, STAND_MIDDLE, STAND_MIDDLE};
    job.in_stands = (enum standing)(jobs % STANDINGS);
    return compare_job(&job, jobs++);
}

static bool gives(const struct job_done *d, uint32_t number, uint64_t detail)
{
    return d->same && d->number == number && d->detail == detail;
}

/* The text must give the bytes laid in `file`, and the file the text. */
static void both_ways(const char *name, const void *text, size_t text_len, size_t file_len)
{
    struct job_done d = job_of(WRITE, text, text_len, file_len);
    bool good = gives(&d, 0, file_len) && memcmp(d.out, file, file_len) == 0;
    d = job_of(LIST, file, file_len, text_len);
    note(name, good && gives(&d, 0, text_len) && memcmp(d.out, text, text_len) == 0);
}

static void test_bytes(void)
{
    lay_worked();
    both_ways("the full run's text and its file, checks 131 and 5426", worked, strlen(worked), 2 * BLOCK);

    lay_start(1);
    put16(file + 510, 114); /* 3 * 2 + 5 * 9 + 9 * 7 */
    both_ways("no entries: block 0 alone, check 114", worked, 8, BLOCK);

    static const char most[] = "H 16 4294967295 18446744073709551615\nS 255 18446744073709551615\n";
    memset(file, 0, sizeof file);
    set_byte(2, 16);
    set_bytes(4, 16, 255);
    set_byte(16, 1);
    put16(file + 510, 32195); /* 3 * 16 + 255 * (5 + .. + 16) + 17 */
    set_byte(BLOCK, 1);
    set_byte(BLOCK + 2, 1);
    set_byte(BLOCK + 4, 2);
    set_byte(BLOCK + 5, 255);
    set_bytes(BLOCK + 8, BLOCK + 16, 255);
    put16(file + 1022, 27044); /* 1 + 3 + 5 * 2 + 255 * (6 + 9 + .. + 16) */
    both_ways("the largest numbers, checks 32195 and 27044", most, strlen(most), 2 * BLOCK);

    static const char least[] = "H 1 2 0\nS 0 0\nL 0\n";
    memset(file, 0, sizeof file);
    set_byte(2, 1);
    set_byte(4, 2);
    set_byte(16, 1);
    put16(file + 510, 30); /* 3 + 5 * 2 + 17 */
    set_byte(BLOCK, 1);
    set_byte(BLOCK + 2, 2);
    set_byte(BLOCK + 4, 2);
    set_byte(BLOCK + 16, 1);
    put16(file + 1022, 34); /* 1 + 3 * 2 + 5 * 2 + 17 */
    both_ways("the smallest numbers, checks 30 and 34", least, strlen(least), 2 * BLOCK);
}

/* Texts that are refused, or accepted beside those. */

struct typed_case {
    const char *text;
    size_t length;
    size_t out_len;
    uint32_t number;
    uint64_t detail;
};

#define TEXT(text) text, sizeof text - 1
#define GOOD(text, length) {TEXT(text), 2048, 0, length}
#define BAD(text, line) {TEXT(text), 2048, BAD_LINE, line}
#define BAD_N(text) {TEXT(text), 2048, BAD_PROCESSES, 0}
#define BAD_S(text) {TEXT(text), 2048, BAD_LAST, 0}

static const struct typed_case cases[] = {
    BAD("", 1), BAD("\n", 1), BAD("H", 1), BAD("H 2 9 7", 1), GOOD("H 2 9 7\n", 512), BAD("H 2 9 7\n\n", 2),
    BAD("H 2 9 7\r\n", 1), BAD("H 2 9 7 \n", 1), BAD(" H 2 9 7\n", 1), BAD("H  2 9 7\n", 1), BAD("H\t2 9 7\n", 1),
    BAD("h 2 9 7\n", 1), BAD("H 2 9\n", 1), BAD("H 2 9 7 1\n", 1), BAD("H 02 9 7\n", 1), BAD("H 2 09 7\n", 1),
    BAD("H 2 9 07\n", 1), BAD("H 2 9 00\n", 1), GOOD("H 2 9 0\n", 512), BAD("H +2 9 7\n", 1), BAD("H 2 9 -7\n", 1),
    BAD("H 2 9 7\nH 2 9 7\n", 2), BAD("L 1\nH 2 9 7\n", 1), BAD("L 1\n", 1), BAD("H 2 9 7\nL 1", 2),
    GOOD("H 2 9 7\nL 1\n", 1024), BAD("H 2 9 7\nL 1\nT", 3), BAD("H 2 9 7\nL 1\n\0", 3), BAD("H 2 9 7\nL 1\0\n", 2),
    BAD("H 2 9 7\nL  1\n", 2), BAD("H 2 9 7\nL 1 \n", 2), BAD("H 2 9 7\nL 1 0\n", 2), BAD("H 2 9 7\nL\n", 2),
    BAD("H 2 9 7\nL \n", 2), BAD("H 2 9 7\nl 1\n", 2), BAD("H 2 9 7\nX 1\n", 2), BAD("H 2 9 7\nL 01\n", 2),
    GOOD("H 2 9 7\nL 255\n", 1024), BAD("H 2 9 7\nL 256\n", 2), BAD("H 2 9 7\nT 1000\n", 2),
    BAD("H 2 9 7\nV 18446744073709551616\n", 2), BAD("H 2 9 7\nL /\n", 2), BAD("H 2 9 7\nL :\n", 2),
    BAD("H 2 9 7\nS 1\n", 2), BAD("H 2 9 7\nS 1 \n", 2), BAD("H 2 9 7\nS 1 00\n", 2), GOOD("H 2 9 7\nS 1 0\n", 1024),
    GOOD("H 2 9 7\nS 1 18446744073709551615\n", 1024), BAD("H 2 9 7\nS 1 18446744073709551616\n", 2),
    BAD("H 2 9 7\nS 1 20000000000000000000\n", 2), BAD("H 2 9 7\nS 1 100000000000000000000\n", 2),
    BAD("H 2 9 7\nS 1 1 1\n", 2), BAD("H 2 9 7\nL 1\n\nT 1\n", 3), BAD("H 2 9 7\n\nX 1\n", 2),
    GOOD("H 2 9 18446744073709551615\n", 512), BAD("H 2 9 18446744073709551616\n", 1),
    BAD("H 0 0 18446744073709551616\n", 1), BAD("H 2 9 99999999999999999999\n", 1),
    BAD_N("H 0 9 7\n"), BAD_N("H 17 9 7\n"), GOOD("H 16 9 7\n", 512), GOOD("H 1 9 7\n", 512), BAD_N("H 258 9 7\n"),
    BAD_N("H 4294967296 9 7\n"), BAD_N("H 4294967298 9 7\n"), BAD_N("H 18446744073709551618 9 7\n"),
    BAD_N("H 100000000000000000000000000000000000000000000000000 9 7\n"),
    BAD_S("H 2 0 7\n"), BAD_S("H 2 1 7\n"), GOOD("H 2 2 7\n", 512), GOOD("H 2 16 7\n", 512), GOOD("H 2 17 7\n", 512),
    GOOD("H 2 4294967295 7\n", 512), BAD_S("H 2 4294967296 7\n"), BAD_S("H 2 4294967305 7\n"),
    BAD_S("H 2 18446744073709551625 7\n"), BAD_S("H 2 340282366920938463463374607431768211465 7\n"),
    BAD_S("H 16 0 7\n"), BAD_S("H 1 4294967296 7\n"),
    /* the order of the refusals */
    BAD("H 0 9 7\nL 256\n", 2), BAD("H 2 99999999999 7\nL 1\nT 1", 3), BAD("H 0 0 7\nX\n", 2),
    {TEXT("H 2 9 7\nX\n"), 0, BAD_LINE, 2},
    BAD_N("H 0 0 0\nL 1\n"), BAD_N("H 17 1 7\n"), BAD_N("H 0 4294967296 7\n"), BAD_N("H 4294967296 4294967296 7\n"),
    BAD_N("H 18446744073709551618 18446744073709551625 7\n"),
    {TEXT("H 0 9 7\n"), 0, BAD_PROCESSES, 0}, {TEXT("H 0 1 7\n"), 0, BAD_PROCESSES, 0}, {TEXT("H 2 1 7\n"), 0, BAD_LAST, 0},
    {TEXT("H 2 9 7\n"), 511, OUTPUT_TOO_SHORT, 0}, {TEXT("H 2 9 7\n"), 512, 0, 512}, {TEXT("H 2 9 7\n"), 0, OUTPUT_TOO_SHORT, 0},
    {TEXT("H 2 9 7\nL 1\n"), 1023, OUTPUT_TOO_SHORT, 0}, {TEXT("H 2 9 7\nL 1\n"), 1024, 0, 1024},
};

enum { CASES = sizeof cases / sizeof cases[0] };

/* The text on one line, what can't be shown as a point. */
static void show_case(const struct typed_case *c, bool good)
{
    char name[64];
    int length = snprintf(name, sizeof name, "%u detail %llu: ", c->number, (unsigned long long)c->detail);
    for (size_t i = 0; i < c->length && length < 60; i++) {
        char byte = c->text[i];
        name[length++] = (char)(byte == '\n' ? '|' : byte < ' ' ? '.' : byte);
    }
    name[length] = 0;
    note(name, good);
}

static void test_cases(void)
{
    for (size_t i = 0; i < CASES; i++) {
        struct job_done d = job_of(WRITE, cases[i].text, cases[i].length, cases[i].out_len);
        show_case(&cases[i], gives(&d, cases[i].number, cases[i].detail));
    }
}

/* A heading and the same line again and again. Gives the length. */
static size_t type_lines(const char *heading, const char *line, size_t count)
{
    size_t length = strlen(heading);
    memcpy(typed, heading, length);
    for (; count > 0; count--) {
        memcpy(typed + length, line, strlen(line));
        length += strlen(line);
    }
    return length;
}

static void lines_give(const char *name, size_t length, size_t out_len, uint32_t number, uint64_t detail)
{
    struct job_done d = job_of(WRITE, typed, length, out_len);
    note(name, gives(&d, number, detail));
}

static void test_many_entries(void)
{
    lines_give("42 entries give 1024 bytes", type_lines("H 2 9 7\n", "T 1\n", 42), 1024, 0, 1024);
    lines_give("43 entries give 1536 bytes", type_lines("H 2 9 7\n", "T 1\n", 43), 1536, 0, 1536);
    lines_give("84 entries give 1536 bytes", type_lines("H 2 9 7\n", "T 1\n", 84), 1536, 0, 1536);
    lines_give("5334 entries give 65536 bytes", type_lines("H 2 9 7\n", "T 1\n", 5334), 65536, 0, 65536);
    lines_give("and 27 where 65535 are lent", type_lines("H 2 9 7\n", "T 1\n", 5334), 65535, OUTPUT_TOO_SHORT, 0);
    lines_give("5335 entries give 26", type_lines("H 2 9 7\n", "T 1\n", 5335), 70000, TOO_MANY_ENTRIES, 0);
    lines_give("also where nothing is lent", type_lines("H 2 9 7\n", "T 1\n", 5335), 0, TOO_MANY_ENTRIES, 0);
    lines_give("with N 0 they give 16", type_lines("H 0 9 7\n", "T 1\n", 5335), 70000, BAD_PROCESSES, 0);
    lines_give("with S 2^32 they give 17", type_lines("H 2 4294967296 7\n", "T 1\n", 5335), 0, BAD_LAST, 0);
    lines_give("with both they give 16", type_lines("H 0 4294967296 7\n", "T 1\n", 5335), 0, BAD_PROCESSES, 0);
    size_t length = type_lines("H 0 9 7\n", "T 1\n", 5335) - 1;
    lines_give("with N 0 and no last newline 25, line 5336", length, 0, BAD_LINE, 5336);
    length = type_lines("H 16 4294967295 18446744073709551615\n", "S 255 18446744073709551615\n", 5334);
    lines_give("the longest text in range is accepted", length, 65536, 0, 65536);
    uint64_t answer = reference_write(typed, length, file, sizeof file);
    struct job_done d = job_of(LIST, file, (size_t)(answer / 256), 144055);
    note("and listed as 144055 bytes", gives(&d, 0, 144055) && memcmp(d.out, typed, length) == 0);
    d = job_of(LIST, file, (size_t)(answer / 256), 144054);
    note("and gives 27 where 144054 are lent", gives(&d, OUTPUT_TOO_SHORT, 0));
}

/* Texts of some MiB: longer than any that the guarded memory holds, so only the answers and the bytes of the output are compared. */

enum { LONG_TEXT = 3 << 20 };

static uint8_t long_text[LONG_TEXT];

static void long_gives(const char *name, size_t length, uint32_t number, uint64_t detail)
{
    static uint8_t ours[LARGEST_FILE], theirs[LARGEST_FILE];
    memset(ours, 0xA5, sizeof ours);
    memset(theirs, 0xA5, sizeof theirs);
    uint64_t answer = reefcapstan_write(long_text, length, theirs, sizeof theirs);
    bool same = answer == reference_write(long_text, length, ours, sizeof ours);
    note(name, same && answer == number + 256 * detail && memcmp(ours, theirs, sizeof ours) == 0);
}

/* Nines between the heading's start and end. */
static void type_long(const char *start, const char *end)
{
    memset(long_text, '9', sizeof long_text);
    memcpy(long_text, start, strlen(start));
    memcpy(long_text + LONG_TEXT - strlen(end), end, strlen(end));
}

static void test_long_texts(void)
{
    type_long("H ", " 9 7\n");
    long_gives("an N of three million digits gives 16", LONG_TEXT, BAD_PROCESSES, 0);
    long_gives("and 25, line 1, without its newline", LONG_TEXT - 1, BAD_LINE, 1);
    type_long("H 2 ", " 7\n");
    long_gives("an S of three million digits gives 17", LONG_TEXT, BAD_LAST, 0);
    type_long("H 0 ", " 7\n");
    long_gives("and with N 0 it gives 16", LONG_TEXT, BAD_PROCESSES, 0);
    memcpy(long_text, "H 2 9 7\n", 8);
    for (size_t at = 8; at < LONG_TEXT; at += 4) memcpy(long_text + at, "T 1\n", 4);
    long_gives("786,430 entries give 26", LONG_TEXT, TOO_MANY_ENTRIES, 0);
    long_text[LONG_TEXT - 1] = ' ';
    long_gives("and 25 with the last line, where it has no newline", LONG_TEXT, BAD_LINE, 786431);
}

/* The numbers of the header that the archive comes with are the rig's own. */
#ifdef REEFCAPSTAN_H
_Static_assert(REEFCAPSTAN_FILE_MAX == LARGEST_FILE, "the longest file");
_Static_assert(REEFCAPSTAN_TEXT_MAX == LONGEST_LISTING, "the longest text");
_Static_assert(REEFCAPSTAN_LOG_MAX == 12 + 12 * MOST_ENTRIES, "the longest log");
_Static_assert(REEFCAPSTAN_NUMBER(25 + 256 * 3) == 25 && REEFCAPSTAN_DETAIL(25 + 256 * 3) == 3, "number and detail");
#endif

/* Lists. */

static void list_gives(const char *name, size_t file_len, size_t out_len, uint32_t number, uint64_t detail)
{
    struct job_done d = job_of(LIST, file, file_len, out_len);
    note(name, gives(&d, number, detail));
}

static void lay_check(size_t block)
{
    put16(file + BLOCK * block + 510, block_check(file + BLOCK * block));
}

/* The full run in four blocks: 5 entries, none, 6, none. */
static void test_other_packing(void)
{
    lay_start(5);
    lay_entries(1, 0, 5);
    lay_entries(2, 0, 0);
    lay_entries(3, 5, 6);
    lay_entries(4, 0, 0);
    for (size_t b = 0; b < 5; b++) {
        lay_check(b);
    }
    struct job_done d = job_of(LIST, file, 5 * BLOCK, 200);
    note("the full run in other blocks has the same listing",
         gives(&d, 0, strlen(worked)) && memcmp(d.out, worked, strlen(worked)) == 0);
}

static void test_lists(void)
{
    lay_worked();
    list_gives("a list of no bytes gives 1", 0, 100, BAD_LENGTH, 0);
    list_gives("a list of 1023 bytes gives 1", 1023, 100, BAD_LENGTH, 0);
    list_gives("a list of block 0 alone gives 18", 512, 100, BAD_BLOCK_COUNT, 0);
    list_gives("with no output it gives 18, too", 512, 0, BAD_BLOCK_COUNT, 0);
    list_gives("the full run with no output gives 27", 1024, 0, OUTPUT_TOO_SHORT, 0);
    put16(file + 510, 132);
    list_gives("the check 132 gives 2, block 0", 1024, 100, BAD_CHECK, 0);
    put16(file + 510, 131);
    put16(file + 1022, 5427);
    list_gives("the check 5427 gives 2, block 1", 1024, 100, BAD_CHECK, 1);
    set_byte(BLOCK, 2);
    lay_check(1);
    list_gives("another place gives 3, block 1", 1024, 100, BAD_PLACE, 1);
    lay_worked();
    set_byte(BLOCK + 4, 5);
    lay_check(1);
    list_gives("kind 5 gives 5, block 1, with no output, too", 1024, 0, BAD_BLOCK, 1);
    lay_worked();
    set_byte(300, 5);
    lay_check(0);
    list_gives("byte 300 gives 19, place 300, with no output, too", 1024, 0, STRAY_BYTE, 256 * 300);
    test_other_packing();
}

static void test_output_lengths(void)
{
    bool good = true;
    lay_worked();
    for (size_t out_len = 0; out_len < 3 * BLOCK; out_len++) {
        bool enough = out_len >= 2 * BLOCK;
        struct job_done d = job_of(WRITE, worked, strlen(worked), out_len);
        good = gives(&d, enough ? 0 : OUTPUT_TOO_SHORT, enough ? 2 * BLOCK : 0) && good;
    }
    note("each output's length from 0 on, writing the full run", good);
    good = true;
    for (size_t out_len = 0; out_len < 2 * sizeof worked; out_len++) {
        bool enough = out_len >= strlen(worked);
        struct job_done d = job_of(LIST, file, 2 * BLOCK, out_len);
        good = gives(&d, enough ? 0 : OUTPUT_TOO_SHORT, enough ? strlen(worked) : 0) && good;
    }
    note("each output's length from 0 on, listing the full run", good);
}

void test_texts(void)
{
    test_bytes();
    test_cases();
    test_many_entries();
    test_long_texts();
    test_lists();
    test_output_lengths();
    printf("  %llu texts and files were written or listed by both\n", (unsigned long long)jobs);
}

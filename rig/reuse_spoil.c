#include "reuse_typed.h"

/* Lines outside the form, with their newline. */

struct line {
    const char *bytes;
    size_t length;
};
#define LINE(bytes) {bytes "\n", sizeof bytes}

static const struct line bad_starts[] = {
    LINE(""),         LINE("H"),        LINE("H "),       LINE("H 2"),       LINE("H 2 "),    LINE("H 2 60 "), LINE("H  2 60"),
    LINE("H 2  60"),  LINE(" H 2 60"),  LINE("H 2 60 1"), LINE("H 2 60 0"),  LINE("h 2 60"),  LINE("G 2 60"),  LINE("I 2 60"),
    LINE("L 0"),      LINE("S 0 1"),    LINE("2 60"),     LINE("H 02 60"),   LINE("H 2 060"), LINE("H 00 60"), LINE("H 2 00"),
    LINE("H +2 60"),  LINE("H 2 +60"),  LINE("H -2 60"),  LINE("H 2 -60"),   LINE("H 2 60\r"), LINE("H\t2 60"), LINE("H 2\t60"),
    LINE("H 2 60\0"), LINE("H 2\0 60"), LINE("\0H 2 60"), LINE("H 2 6O"),    LINE("H 2 0x3C"), LINE("H two 60"), LINE("H 2 60.0"),
    LINE("H 2,60"),   LINE("H2 60"),    LINE("H 260"),    LINE("H 2 6\xB0"), LINE("\xC8 2 60"), LINE("\xEF\xBB\xBFH 2 60"),
    LINE("H  60"),    LINE("H 2 6/"),   LINE("H 2 6:"),   LINE("H 2 60#"),   LINE("H 2 60 H 2 60"),
};

static const struct line bad_lines[] = {
    /* no line at all, other letters, spaces */
    LINE(""), LINE("\r"), LINE(" "), LINE("\0"), LINE("#"), LINE("0"), LINE("0 T"), LINE("# T 0"), LINE("T 0 #"), LINE("l 0"),
    LINE("s 0 1"), LINE("v 0"), LINE("t 0"), LINE("K 0"), LINE("M 0"), LINE("R 0 1"), LINE("U 0"), LINE("W 0"), LINE("X 0"),
    LINE("\xCC 0"), LINE("\xEF\xBB\xBFL 0"), LINE("H 2 60"), LINE("H 0"), LINE("L0"), LINE("LL 0"), LINE("L  0"), LINE("L 0 "),
    LINE(" L 0"), LINE("S  0 1"), LINE("S 0  1"), LINE("S 0 1 "), LINE("L 0\r"), LINE("S 0 1\r"), LINE("L 0\t"), LINE("L\t0"),
    LINE("T 0\f"), LINE("T 0\v"), LINE("L 0\0"), LINE("L\0 0"), LINE("L\xA0" "0"),
    /* fields */
    LINE("L"), LINE("L "), LINE("S 0"), LINE("S 0 "), LINE("S  1"), LINE("L 0 0"), LINE("L 0 1"), LINE("V 0 1"), LINE("T 0 1"),
    LINE("T 0 0"), LINE("S 0 1 0"), LINE("T 0T 0"), LINE("T 0 T 0"), LINE("S 0 1S 0 1"),
    /* numbers */
    LINE("L 00"), LINE("V 01"), LINE("T 00"), LINE("T 007"), LINE("S 00 1"), LINE("S 0 00"), LINE("S 0 01"), LINE("L -0"),
    LINE("L -1"), LINE("L +0"), LINE("S 0 -1"), LINE("L 0x0"), LINE("L 0."), LINE("L 0,"), LINE("L /"), LINE("L :"), LINE("L 1/"),
    LINE("L 1:"), LINE("S 0 /"), LINE("L \xB0"), LINE("S 0 \xB1"), LINE("L \xD9\xA0"), LINE("T one"), LINE("S 0 b"),
    /* a process above 255, or another bit */
    LINE("L 256"), LINE("T 256"), LINE("V 257"), LINE("S 256 0"), LINE("T 300"), LINE("T 999"), LINE("T 1000"), LINE("T 65536"),
    LINE("T 4294967296"), LINE("T 18446744073709551616"), LINE("T 18446744073709551617"), LINE("T 100000000000000000000000000000"),
    LINE("T 340282366920938463463374607431768211456"), LINE("S 0 2"), LINE("S 0 9"), LINE("S 0 10"), LINE("S 0 11"),
    LINE("S 0 256"), LINE("S 0 4294967296"), LINE("S 0 18446744073709551616"), LINE("S 0 18446744073709551617"),
};

/* With 2^8, 2^16, 2^32, 2^64 and 2^128 added, what was sound looks sound to whoever counts in too few bits. */
static const char *const bad_ns[] = {"0", "17", "18", "32", "99", "255", "256", "257", "258", "65537", "4294967296", "4294967298",
                                     "18446744073709551615", "18446744073709551616", "18446744073709551618",
                                     "340282366920938463463374607431768211458"};

enum bad_m {
    M_0,
    M_1,
    M_D,
    M_WITHOUT_ONE_D,
    M_BELOW_LEAST,
    M_ABOVE_MOST,
    M_LEAST_AND_2_32,
    M_TWICE_MOST,
    M_2_64,
    M_LEAST_AND_2_64,
    M_MOST_AND_2_64,
    M_MANY_DIGITS,
    BAD_MS
};

/* A line outside the form behind an N or an M that is out of range: then it is the line that is told. */
enum { BAD_BOTHS = 8 };

enum bad_whole {
    WHOLE_NO_BYTES,
    WHOLE_NO_LAST_NEWLINE,
    WHOLE_START_ALONE, /* line 1 without its newline */
    WHOLE_RETURNS,     /* a return before each newline */
    WHOLE_TWICE,       /* the same text once more behind it */
    WHOLE_EMPTY_LINE,  /* the last */
    WHOLE_CUT,
    WHOLE_TAIL, /* bytes behind the last newline */
    WHOLE_NUL,
    WHOLE_HIGH_BYTE,
    WHOLE_NOISE,
    BAD_WHOLES
};

enum {
    BAD_STARTS = sizeof bad_starts / sizeof bad_starts[0],
    BAD_LINES = sizeof bad_lines / sizeof bad_lines[0],
    BAD_NS = sizeof bad_ns / sizeof bad_ns[0],
    FROM_LINES = BAD_STARTS,
    FROM_NS = FROM_LINES + BAD_LINES,
    FROM_MS = FROM_NS + BAD_NS,
    FROM_BOTHS = FROM_MS + BAD_MS,
    FROM_WHOLES = FROM_BOTHS + BAD_BOTHS,
    ALL_SPOILS = FROM_WHOLES + BAD_WHOLES
};
const size_t spoils = ALL_SPOILS;
_Static_assert(ALL_SPOILS <= TYPED_ROUND / 2, "a round has not all of them");

static void is_refused(struct typed *t, enum typed_kind kind, uint32_t number, size_t line)
{
    t->kind = kind;
    t->refused = (struct refused){number, line};
}

/* N and M. */

static void type_rest(struct typed *t)
{
    type_words(t, "\n");
    type_entries(t, 0, t->run.entries);
}

/* M is out of range too, as often as not; that isn't told. */
static uint64_t some_m(struct prng *r, const struct typed *t)
{
    switch (below(r, 4)) {
    case 0: return below(r, 100);
    case 1: return MOST_MODULUS + between(r, 1, 100);
    default: return t->run.modulus;
    }
}

static void spoil_n(struct prng *r, struct typed *t, const char *n)
{
    is_refused(t, TYPED_BAD_N, REUSE_BAD_PROCESSES, 0);
    t->length = 0;
    type_words(t, "H ");
    type_words(t, n);
    type_words(t, " ");
    type_number(t, some_m(r, t));
    type_rest(t);
}

static uint64_t small_bad_m(const struct reuse_run *run, enum bad_m which)
{
    uint64_t least = least_modulus(run->processes);
    uint64_t length = interval_length(run->processes);
    switch (which) {
    case M_1: return 1;
    case M_D: return length;
    case M_WITHOUT_ONE_D: return least - length;
    case M_BELOW_LEAST: return least - 1;
    case M_ABOVE_MOST: return MOST_MODULUS + 1;
    case M_LEAST_AND_2_32: return MOST_MODULUS + least;
    case M_TWICE_MOST: return 2 * MOST_MODULUS;
    default: return 0;
    }
}

/* 2^64 is 18446744073709551616. */
static void type_bad_m(struct prng *r, struct typed *t, enum bad_m which)
{
    switch (which) {
    case M_2_64: type_words(t, "18446744073709551616"); break;
    case M_LEAST_AND_2_64:
        type_words(t, "184467440737095");
        type_number(t, 51616 + least_modulus(t->run.processes)); /* still of five digits */
        break;
    case M_MOST_AND_2_64: type_words(t, "18446744078004518912"); break;
    case M_MANY_DIGITS: type_digits(r, t, between(r, 12, 400)); break;
    default: type_number(t, small_bad_m(&t->run, which)); break;
    }
}

static void spoil_m(struct prng *r, struct typed *t, enum bad_m which)
{
    is_refused(t, TYPED_BAD_M, REUSE_BAD_MODULUS, 0);
    t->length = 0;
    type_words(t, "H ");
    type_number(t, t->run.processes);
    type_words(t, " ");
    type_bad_m(r, t, which);
    type_rest(t);
}

static void spoil_both(struct prng *r, struct typed *t, bool with_n)
{
    const struct line *line = &bad_lines[below(r, BAD_LINES)];
    if (with_n) {
        spoil_n(r, t, bad_ns[below(r, BAD_NS)]);
    } else {
        spoil_m(r, t, (enum bad_m)below(r, BAD_MS));
    }
    type_bytes(t, line->bytes, line->length);
    t->refused = (struct refused){REUSE_BAD_LINE, t->run.entries + 2};
}

/* Lines. */

static void spoil_start(struct typed *t, const struct line *line)
{
    is_refused(t, TYPED_BAD_START, REUSE_BAD_LINE, 1);
    t->length = 0;
    type_bytes(t, line->bytes, line->length);
    type_entries(t, 0, t->run.entries);
}

/* In place of an entry, or behind the last. */
static void spoil_line(struct prng *r, struct typed *t, const struct line *line)
{
    size_t count = t->run.entries;
    size_t place = chance(r, 1, 3) ? count : below(r, (uint32_t)count + 1);
    is_refused(t, TYPED_BAD_LINE, REUSE_BAD_LINE, place + 2);
    t->run.entries = place;
    type_run(t);
    type_bytes(t, line->bytes, line->length);
    type_entries(t, place + 1, count);
}

/* The whole text. */

static uint8_t some_byte(struct prng *r)
{
    static const char known[] = "HLSVT 0123456789\n\r\t+-hlsvt/:";
    return chance(r, 2, 3) ? (uint8_t)known[below(r, sizeof known - 1)] : (uint8_t)prng_next(r);
}

static void insert_byte(struct typed *t, size_t at, uint8_t byte)
{
    memmove(t->bytes + at + 1, t->bytes + at, t->length - at);
    t->bytes[at] = byte;
    t->length++;
}

static void lose_byte(struct typed *t, size_t at)
{
    t->length--;
    memmove(t->bytes + at, t->bytes + at + 1, t->length - at);
}

static void put_returns(struct typed *t)
{
    for (size_t i = 0; i < t->length; i++) {
        if (t->bytes[i] == '\n') {
            insert_byte(t, i++, '\r');
        }
    }
}

static void make_noise(struct prng *r, struct typed *t)
{
    t->length = between(r, 1, 300);
    for (size_t i = 0; i < t->length; i++) {
        t->bytes[i] = chance(r, 1, 2) ? some_byte(r) : (uint8_t)prng_next(r);
    }
}

/* Where the line is known. */
static bool spoil_at_known_line(struct typed *t, enum bad_whole which)
{
    size_t lines = t->run.entries + 1;
    t->refused = (struct refused){REUSE_BAD_LINE, 1};
    switch (which) {
    case WHOLE_NO_BYTES: t->length = 0; return true;
    case WHOLE_NO_LAST_NEWLINE:
        t->length--;
        t->refused.line = lines;
        return true;
    case WHOLE_START_ALONE:
        t->run.entries = 0;
        type_run(t);
        t->length--;
        return true;
    case WHOLE_RETURNS: put_returns(t); return true;
    case WHOLE_TWICE:
        type_bytes(t, t->bytes, t->length);
        t->refused.line = lines + 1;
        return true;
    case WHOLE_EMPTY_LINE:
        type_words(t, "\n");
        t->refused.line = lines + 1;
        return true;
    default: return false;
    }
}

static void spoil_whole(struct prng *r, struct typed *t, enum bad_whole which)
{
    t->kind = TYPED_BAD_WHOLE;
    t->known = spoil_at_known_line(t, which);
    uint32_t at = below(r, (uint32_t)t->length + 1);
    switch (which) {
    case WHOLE_CUT: t->length = at; break;
    case WHOLE_TAIL:
        for (uint32_t left = between(r, 1, 6); left > 0; left--) {
            insert_byte(t, t->length, some_byte(r));
        }
        break;
    case WHOLE_NUL: insert_byte(t, at, 0); break;
    case WHOLE_HIGH_BYTE: insert_byte(t, at, (uint8_t)between(r, 128, 255)); break;
    case WHOLE_NOISE: make_noise(r, t); break;
    default: break;
    }
}

void spoil_as_listed(struct prng *r, struct typed *t, size_t which)
{
    if (which < FROM_LINES) {
        spoil_start(t, &bad_starts[which]);
    } else if (which < FROM_NS) {
        spoil_line(r, t, &bad_lines[which - FROM_LINES]);
    } else if (which < FROM_MS) {
        spoil_n(r, t, bad_ns[which - FROM_NS]);
    } else if (which < FROM_BOTHS) {
        spoil_m(r, t, (enum bad_m)(which - FROM_MS));
    } else if (which < FROM_WHOLES) {
        spoil_both(r, t, (which - FROM_BOTHS) % 2 == 0);
    } else {
        spoil_whole(r, t, (enum bad_whole)(which - FROM_WHOLES));
    }
}

/* One byte as a rule; what comes of it is for the reader to say. */
void spoil_bytes(struct prng *r, struct typed *t)
{
    t->kind = TYPED_CHANGED;
    t->known = false;
    for (uint32_t left = chance(r, 3, 4) ? 1 : between(r, 2, 4); left > 0 && t->length > 0; left--) {
        uint32_t at = below(r, (uint32_t)t->length);
        switch (below(r, 4)) {
        case 0: insert_byte(t, at, some_byte(r)); break;
        case 1: lose_byte(t, at); break;
        default: t->bytes[at] = some_byte(r); break;
        }
    }
}

#include "typed.h"

struct span {
    size_t from;
    size_t to;
};

/* Puts other bytes in place of a part, if there is room. */
static void splice(struct text *t, struct span part, const void *bytes, size_t count)
{
    size_t gone = part.to - part.from;
    if (t->length - gone + count > TEXT_ROOM) {
        return;
    }
    memmove(t->bytes + part.from + count, t->bytes + part.to, t->length - part.to);
    memcpy(t->bytes + part.from, bytes, count);
    t->length += count - gone;
}

static void insert(struct text *t, size_t at, const void *bytes, size_t count)
{
    splice(t, (struct span){at, at}, bytes, count);
}

static void insert_byte(struct text *t, size_t at, uint8_t byte)
{
    insert(t, at, &byte, 1);
}

static void cut_out(struct text *t, struct span part)
{
    splice(t, part, "", 0);
}

/* Lines and fields. */

static size_t count_lines(const struct text *t)
{
    size_t lines = 0;
    for (size_t i = 0; i < t->length; i++) {
        lines += t->bytes[i] == '\n';
    }
    return lines;
}

/* Without its newline; the empty part at the end if there is no such line. */
static struct span line_at(const struct text *t, size_t line)
{
    struct span part = {0, 0};
    for (; line > 0 && part.from < t->length; part.from++) {
        line -= t->bytes[part.from] == '\n';
    }
    part.to = part.from;
    while (part.to < t->length && t->bytes[part.to] != '\n') {
        part.to++;
    }
    return part;
}

static struct span with_newline(const struct text *t, struct span line)
{
    line.to += line.to < t->length;
    return line;
}

/* The empty part at the line's end if there is no such field. */
static struct span field_of(const struct text *t, struct span line, size_t field)
{
    struct span part = {line.from, line.from};
    for (; field > 0 && part.from < line.to; part.from++) {
        field -= t->bytes[part.from] == ' ';
    }
    part.to = part.from;
    while (part.to < line.to && t->bytes[part.to] != ' ') {
        part.to++;
    }
    return part;
}

static size_t count_fields(const struct text *t, struct span line)
{
    size_t fields = 1;
    for (size_t i = line.from; i < line.to; i++) {
        fields += t->bytes[i] == ' ';
    }
    return fields;
}

/* The first, the last or any. */
static size_t some_line(struct prng *r, const struct text *t)
{
    size_t lines = count_lines(t);
    if (lines == 0 || chance(r, 1, 6)) {
        return 0;
    }
    return chance(r, 1, 4) ? lines - 1 : below(r, (uint32_t)lines);
}

static struct span some_part(struct prng *r, const struct text *t)
{
    return line_at(t, some_line(r, t));
}

static struct span some_number(struct prng *r, const struct text *t)
{
    struct span line = some_part(r, t);
    size_t fields = count_fields(t, line);
    return field_of(t, line, fields > 1 ? between(r, 1, (uint32_t)fields - 1) : 1);
}

static size_t some_place(struct prng *r, const struct text *t)
{
    return below(r, (uint32_t)t->length + 1);
}

static uint8_t some_byte(struct prng *r)
{
    static const char known[] = "HLSVT 0123456789\n\r\t+-hlsvt/:";
    return chance(r, 2, 3) ? (uint8_t)known[below(r, sizeof known - 1)] : (uint8_t)prng_next(r);
}

/* A number out of range: one of the list, or one of many digits. */
static void put_bad(struct prng *r, struct text *t, struct span part, const char *const *list, uint32_t count)
{
    char digits[MOST_DIGITS];
    const char *listed = list[below(r, count)];
    size_t length = 0;
    if (chance(r, 3, 4)) {
        for (; listed[length] != 0; length++) {
            digits[length] = listed[length];
        }
    } else {
        length = chance(r, 3, 4) ? between(r, 21, 60) : between(r, 21, MOST_DIGITS);
        for (size_t i = 0; i < length; i++) {
            digits[i] = (char)('0' + (chance(r, 1, 2) ? 0 : below(r, 10)));
        }
        digits[0] = (char)between(r, '1', '9');
    }
    splice(t, part, digits, length);
}

#define PUT_BAD(part, list) put_bad(r, t, part, list, sizeof(list) / sizeof(list)[0])

/* With 2^8, 2^16, 2^32, 2^64 and 2^128 added, what was sound looks sound to whoever counts in too few bits. */
static const char *const bad_n[] = {"0", "17", "18", "99", "255", "256", "257", "65538", "4294967296", "4294967297",
                                    "18446744073709551615", "18446744073709551616", "18446744073709551617",
                                    "18446744073709551632", "340282366920938463463374607431768211458"};
static const char *const bad_s[] = {"0", "1", "4294967296", "4294967297", "4294967298", "9999999999",
                                    "18446744073709551615", "18446744073709551616", "18446744073709551618",
                                    "18446744078004518911", "340282366920938463463374607431768211465"};
static const char *const bad_process[] = {"256", "257", "260", "300", "512", "999", "1000", "65536", "65537", "4294967296",
                                          "18446744073709551615", "18446744073709551616", "18446744073709551617",
                                          "340282366920938463463374607431768211457"};
static const char *const bad_value[] = {"18446744073709551616", "18446744073709551617", "18446744073709551626",
                                        "18446744073709551700", "18446744073709552000", "19000000000000000000",
                                        "20000000000000000000", "36893488147419103232", "99999999999999999999",
                                        "100000000000000000000", "184467440737095516150",
                                        "340282366920938463463374607431768211460"};

static void spoil_process(struct prng *r, struct text *t)
{
    size_t lines = count_lines(t);
    if (lines > 1) {
        size_t line = chance(r, 1, 4) ? lines - 1 : between(r, 1, (uint32_t)lines - 1);
        PUT_BAD(field_of(t, line_at(t, line), 1), bad_process);
    }
}

/* V, or the value of a store that is looked for from some line on. */
static void spoil_value(struct prng *r, struct text *t)
{
    size_t lines = count_lines(t);
    for (size_t line = some_line(r, t), left = 20; line > 0 && line < lines && left > 0; line++, left--) {
        struct span part = line_at(t, line);
        if (t->bytes[part.from] == 'S') {
            PUT_BAD(field_of(t, part, 2), bad_value);
            return;
        }
    }
    PUT_BAD(field_of(t, line_at(t, 0), 3), bad_value);
}

static void spoil_letter(struct prng *r, struct text *t, bool lower)
{
    struct span line = some_part(r, t);
    if (line.from < line.to) {
        t->bytes[line.from] = lower ? t->bytes[line.from] | 0x20 : some_byte(r);
    }
}

static void spoil_near_digit(struct prng *r, struct text *t)
{
    static const uint8_t near[] = {'/', ':', '.', ',', '_', 'o', 'O', 'l', 'x', 0xB0, 0xB1, 0x20, 0x70};
    struct span part = some_number(r, t);
    if (part.from < part.to) {
        t->bytes[between(r, (uint32_t)part.from, (uint32_t)part.to - 1)] = near[below(r, sizeof near)];
    }
}

/* In place of the space before a field, or beside it. */
static void spoil_space(struct prng *r, struct text *t, enum fault fault)
{
    size_t at = some_number(r, t).from;
    if (at == 0 || t->bytes[at - 1] != ' ') {
        return;
    }
    if (fault == FAULT_TAB) {
        t->bytes[at - 1] = '\t';
    } else {
        insert_byte(t, at, ' ');
    }
}

static void spoil_few_fields(struct prng *r, struct text *t)
{
    struct span part = some_number(r, t);
    part.from -= part.from > 0;
    cut_out(t, part);
}

static void spoil_many_fields(struct prng *r, struct text *t)
{
    struct span line = some_part(r, t);
    insert(t, line.to, chance(r, 1, 2) ? " 5" : " 0", 2);
}

/* Takes a line, newline and all, and puts it before another or at the end; `stay`: the line stays where it was, too. */
static void put_line_elsewhere(struct prng *r, struct text *t, size_t line, bool stay)
{
    uint8_t kept[2 * MOST_DIGITS];
    struct span part = with_newline(t, line_at(t, line));
    size_t length = part.to - part.from;
    if (length > sizeof kept) {
        return;
    }
    memcpy(kept, t->bytes + part.from, length);
    if (!stay) {
        cut_out(t, part);
    }
    insert(t, line_at(t, between(r, 1, (uint32_t)count_lines(t) + 1)).from, kept, length);
}

static void spoil_joined(struct prng *r, struct text *t)
{
    struct span line = some_part(r, t);
    struct span newline = {line.to, with_newline(t, line).to};
    splice(t, newline, " ", chance(r, 1, 2));
}

static void spoil_return(struct prng *r, struct text *t)
{
    struct span line = some_part(r, t);
    if (chance(r, 1, 4) && line.to < t->length) {
        t->bytes[line.to] = '\r';
    } else {
        insert_byte(t, line.to, '\r');
    }
}

static void spoil_nul(struct prng *r, struct text *t)
{
    size_t at = some_place(r, t);
    if (at < t->length && chance(r, 1, 2)) {
        t->bytes[at] = 0;
    } else {
        insert_byte(t, at, 0);
    }
}

static void spoil_tail(struct prng *r, struct text *t)
{
    for (uint32_t left = below(r, 6); left > 0; left--) {
        insert_byte(t, t->length, some_byte(r));
    }
    insert_byte(t, t->length, (uint8_t)"L0 H\r"[below(r, 5)]);
}

static void spoil_bytes(struct prng *r, struct text *t)
{
    for (uint32_t left = between(r, 1, 4); left > 0; left--) {
        size_t at = some_place(r, t);
        uint8_t byte = some_byte(r);
        uint32_t pick = below(r, 3);
        size_t to = at + (pick != 0 && at < t->length);
        splice(t, (struct span){at, to}, &byte, pick != 2);
    }
}

static void spoil_noise(struct prng *r, struct text *t)
{
    t->length = between(r, 1, 200);
    for (size_t i = 0; i < t->length; i++) {
        t->bytes[i] = some_byte(r);
    }
}

static void spoil_line(struct prng *r, struct text *t, enum fault fault)
{
    struct span line = some_part(r, t);
    switch (fault) {
    case FAULT_OUTER_SPACE: insert_byte(t, chance(r, 1, 2) ? line.from : line.to, ' '); break;
    case FAULT_SECOND_H: put_line_elsewhere(r, t, 0, true); break;
    case FAULT_H_MOVED: put_line_elsewhere(r, t, 0, false); break;
    case FAULT_NO_H: cut_out(t, with_newline(t, line_at(t, 0))); break;
    case FAULT_EMPTY_LINE: insert_byte(t, chance(r, 1, 4) ? t->length : line.from, '\n'); break;
    case FAULT_JOINED: spoil_joined(r, t); break;
    case FAULT_LINE_MOVED: put_line_elsewhere(r, t, some_line(r, t), false); break;
    case FAULT_LINE_LOST: cut_out(t, with_newline(t, line)); break;
    case FAULT_LINE_TWICE: put_line_elsewhere(r, t, some_line(r, t), true); break;
    default: break;
    }
}

static void spoil_by(struct prng *r, struct text *t, enum fault fault)
{
    switch (fault) {
    case FAULT_LEADING_ZERO: insert(t, some_number(r, t).from, "00", between(r, 1, 2)); break;
    case FAULT_NO_LAST_NEWLINE: t->length -= t->length > 0 && t->bytes[t->length - 1] == '\n'; break;
    case FAULT_RETURN: spoil_return(r, t); break;
    case FAULT_TWO_SPACES:
    case FAULT_TAB: spoil_space(r, t, fault); break;
    case FAULT_SIGN: insert_byte(t, some_number(r, t).from, chance(r, 2, 3) ? '+' : '-'); break;
    case FAULT_LOWER_CASE:
    case FAULT_LETTER: spoil_letter(r, t, fault == FAULT_LOWER_CASE); break;
    case FAULT_NEAR_DIGIT: spoil_near_digit(r, t); break;
    case FAULT_NO_NUMBER: cut_out(t, some_number(r, t)); break;
    case FAULT_PROCESS: spoil_process(r, t); break;
    case FAULT_VALUE: spoil_value(r, t); break;
    case FAULT_FEW_FIELDS: spoil_few_fields(r, t); break;
    case FAULT_MANY_FIELDS: spoil_many_fields(r, t); break;
    case FAULT_NUL: spoil_nul(r, t); break;
    case FAULT_TAIL: spoil_tail(r, t); break;
    case FAULT_CUT: t->length = some_place(r, t); break;
    case FAULT_BYTES: spoil_bytes(r, t); break;
    case FAULT_NOISE: spoil_noise(r, t); break;
    case FAULT_NO_TEXT: t->length = 0; break;
    case FAULT_N: PUT_BAD(field_of(t, line_at(t, 0), 1), bad_n); break;
    case FAULT_S: PUT_BAD(field_of(t, line_at(t, 0), 2), bad_s); break;
    default: spoil_line(r, t, fault); break;
    }
}

void spoil(struct prng *r, struct text *t, enum fault fault)
{
    spoil_by(r, t, fault);
    t->faults |= UINT64_C(1) << fault;
}

bool has_fault(const struct text *t, enum fault fault)
{
    return (t->faults >> fault & 1) != 0;
}

const char *fault_name(enum fault fault)
{
    static const char *const names[FAULTS] = {
        "leading zero", "no last newline", "byte 13", "two spaces", "tab", "sign", "lower case", "other letter",
        "byte beside the digits", "no number", "process above 255", "value of 2^64 or more", "too few fields",
        "too many fields", "space outside a line", "second H", "H moved", "no H", "empty line", "no newline between lines",
        "line moved", "line lost", "line twice", "byte 0", "bytes after the last newline", "cut", "any bytes", "noise",
        "no bytes", "N out of range", "S out of range", "more than 5334 entries", "output too short"};
    return fault < FAULTS ? names[fault] : "?";
}

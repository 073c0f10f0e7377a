#include "texts.h"

#define TEN_TO_19 UINT64_C(10000000000000000000)
#define MOST_DETAIL ((UINT64_C(1) << 56) - 1)

static uint64_t answer(uint32_t number, uint64_t detail)
{
    return number + 256 * (detail < MOST_DETAIL ? detail : MOST_DETAIL);
}

/* Reading a text. */

struct reader {
    const uint8_t *at;
    const uint8_t *end;
};

struct number {
    uint64_t value; /* if it fits */
    bool fits;      /* below 2^64 */
};

/* N and S may have any size in the form. */
struct heading {
    struct number processes;
    struct number last;
    struct number value;
};

static bool take(struct reader *t, uint8_t byte)
{
    if (t->at == t->end || *t->at != byte) {
        return false;
    }
    t->at++;
    return true;
}

/* A number of any size without leading zeros. The sum may wrap: of 20 digits those below 2^64 begin with 1, and one of
 * them that has wrapped is below 10^19. */
static bool take_number(struct reader *t, struct number *n)
{
    const uint8_t *from = t->at;
    uint64_t sum = 0;
    while (t->at < t->end && *t->at >= '0' && *t->at <= '9') {
        sum = sum * 10 + (uint64_t)(*t->at++ - '0');
    }
    size_t digits = (size_t)(t->at - from);
    n->value = sum;
    n->fits = digits < 20 || (digits == 20 && from[0] == '1' && sum >= TEN_TO_19);
    return digits == 1 || (digits > 1 && from[0] != '0');
}

static bool take_at_most(struct reader *t, uint64_t most)
{
    struct number n;
    return take_number(t, &n) && n.fits && n.value <= most;
}

static bool take_heading(struct reader *t, struct heading *h)
{
    return take(t, 'H') && take(t, ' ') && take_number(t, &h->processes) && take(t, ' ') && take_number(t, &h->last) &&
           take(t, ' ') && take_number(t, &h->value) && h->value.fits && take(t, '\n');
}

static bool take_letter(struct reader *t, uint8_t *letter)
{
    *letter = *t->at++;
    return *letter == 'L' || *letter == 'S' || *letter == 'V' || *letter == 'T';
}

static bool take_line(struct reader *t)
{
    uint8_t letter;
    if (!take_letter(t, &letter) || !take(t, ' ') || !take_at_most(t, 255)) {
        return false;
    }
    if (letter == 'S' && !(take(t, ' ') && take_at_most(t, UINT64_MAX))) {
        return false;
    }
    return take(t, '\n');
}

/* 0 with the entries counted, or the first line outside the form. */
static uint64_t read_lines(const uint8_t *text, size_t text_len, struct heading *h, uint64_t *entries)
{
    struct reader t = {text, text + text_len};
    uint64_t line = 1;
    if (!take_heading(&t, h)) {
        return line;
    }
    while (t.at < t.end) {
        line++;
        if (!take_line(&t)) {
            return line;
        }
    }
    *entries = line - 1;
    return 0;
}

static bool in_range(const struct number *n, uint64_t low, uint64_t high)
{
    return n->fits && n->value >= low && n->value <= high;
}

/* 0, or the number for the first of N and S that is out of range. */
static uint32_t read_range(const struct heading *h)
{
    if (!in_range(&h->processes, 1, PROCESSES)) {
        return BAD_PROCESSES;
    }
    return in_range(&h->last, 2, UINT32_MAX) ? 0 : BAD_LAST;
}

/* Writing a file. The text is known to be in the form: what follows a number is below '0'. */

static uint64_t number_at(const uint8_t **at)
{
    uint64_t sum = 0;
    while (**at >= '0') {
        sum = sum * 10 + (uint64_t)(*(*at)++ - '0');
    }
    return sum;
}

static uint8_t kind_of(uint8_t letter)
{
    return letter == 'L' ? KIND_LOAD : letter == 'S' ? KIND_STORE : letter == 'V' ? KIND_CHECK : KIND_STEP;
}

/* Gives the next line's start, as the two below do. */
static const uint8_t *write_entry(const uint8_t *line, uint8_t *entry)
{
    const uint8_t *at = line + 2;
    uint64_t value = 0;
    entry[0] = kind_of(*line);
    entry[1] = (uint8_t)number_at(&at);
    put16(entry + 2, 0);
    if (*at == ' ') {
        at++;
        value = number_at(&at);
    }
    put64(entry + 4, value);
    return at + 1;
}

static const uint8_t *write_block(const uint8_t *line, uint8_t *block, size_t place, size_t count)
{
    put16(block, (uint32_t)place);
    put16(block + 2, (uint32_t)count);
    uint8_t *entry = block + ENTRIES_FROM;
    for (size_t e = 0; e < count; e++, entry += ENTRY) {
        line = write_entry(line, entry);
    }
    memset(entry, 0, (size_t)(block + BLOCK_CHECK - entry));
    put16(block + BLOCK_CHECK, block_check(block));
    return line;
}

static void write_start(const struct heading *h, uint8_t *block, size_t later)
{
    put32(block, (uint32_t)h->processes.value << 16);
    put32(block + 4, (uint32_t)h->last.value);
    put64(block + 8, h->value.value);
    put16(block + 16, (uint32_t)later);
    memset(block + HEAD_TAIL, 0, BLOCK_CHECK - HEAD_TAIL);
    put16(block + BLOCK_CHECK, block_check(block));
}

static void write_entries(const uint8_t *text, uint8_t *out, size_t entries)
{
    const uint8_t *line = text;
    while (*line++ != '\n') {
    }
    for (size_t place = 1; entries > 0; place++) {
        size_t count = entries < BLOCK_ENTRIES ? entries : BLOCK_ENTRIES;
        line = write_block(line, out + BLOCK * place, place, count);
        entries -= count;
    }
}

uint64_t reference_write(const uint8_t *text, size_t text_len, uint8_t *out, size_t out_len)
{
    struct heading h;
    uint64_t entries = 0;
    uint64_t bad_line = read_lines(text, text_len, &h, &entries);
    if (bad_line != 0) {
        return answer(BAD_LINE, bad_line);
    }
    uint32_t out_of_range = read_range(&h);
    if (out_of_range != 0) {
        return answer(out_of_range, 0);
    }
    if (entries > MOST_ENTRIES) {
        return answer(TOO_MANY_ENTRIES, 0);
    }
    size_t later = ((size_t)entries + BLOCK_ENTRIES - 1) / BLOCK_ENTRIES;
    size_t file_len = BLOCK * (later + 1);
    if (out_len < file_len) {
        return answer(OUTPUT_TOO_SHORT, 0);
    }
    write_start(&h, out, later);
    write_entries(text, out, (size_t)entries);
    return answer(0, file_len);
}

/* Listing a file. */

static size_t digits_of(uint64_t number)
{
    size_t digits = 1;
    for (; number >= 10000; digits += 4) {
        number /= 10000;
    }
    return digits + (number >= 10) + (number >= 100) + (number >= 1000);
}

/* Two digits at once, from the last. Gives the place after the number, as the two below do. */
static uint8_t *put_number(uint8_t *at, uint64_t number)
{
    uint8_t *end = at + digits_of(number);
    uint8_t *digit = end;
    while (number >= 10) {
        uint32_t two = (uint32_t)(number % 100);
        number /= 100;
        *--digit = (uint8_t)('0' + two % 10);
        *--digit = (uint8_t)('0' + two / 10);
    }
    if (digit > at) {
        *at = (uint8_t)('0' + number);
    }
    return end;
}

static uint8_t *put_field(uint8_t *at, uint64_t number)
{
    *at = ' ';
    return put_number(at + 1, number);
}

static uint8_t *put_line(uint8_t *at, const uint8_t *entry)
{
    *at = (uint8_t)("LSVT"[entry[0] - 1]);
    at = put_field(at + 1, entry[1]);
    if (entry[0] == KIND_STORE) {
        at = put_field(at, get64(entry + 4));
    }
    *at = '\n';
    return at + 1;
}

static size_t line_length(const uint8_t *entry)
{
    size_t value = entry[0] == KIND_STORE ? 1 + digits_of(get64(entry + 4)) : 0;
    return 3 + digits_of(entry[1]) + value;
}

static size_t listing_length(const uint8_t *file, size_t file_len)
{
    size_t length = 5 + digits_of(file[2]) + digits_of(get32(file + 4)) + digits_of(get64(file + 8));
    for (const uint8_t *block = file + BLOCK; block < file + file_len; block += BLOCK) {
        for (size_t e = 0; e < block[2]; e++) {
            length += line_length(block + ENTRIES_FROM + ENTRY * e);
        }
    }
    return length;
}

static void put_listing(const uint8_t *file, size_t file_len, uint8_t *at)
{
    *at = 'H';
    at = put_field(at + 1, file[2]);
    at = put_field(at, get32(file + 4));
    at = put_field(at, get64(file + 8));
    *at++ = '\n';
    for (const uint8_t *block = file + BLOCK; block < file + file_len; block += BLOCK) {
        for (size_t e = 0; e < block[2]; e++) {
            at = put_line(at, block + ENTRIES_FROM + ENTRY * e);
        }
    }
}

uint64_t reference_list(const uint8_t *file, size_t file_len, uint8_t *out, size_t out_len)
{
    size_t entries = 0;
    uint32_t refused = read_file(file, file_len, &entries);
    if (refused != 0) {
        return refused;
    }
    size_t length = listing_length(file, file_len);
    if (out_len < length) {
        return answer(OUTPUT_TOO_SHORT, 0);
    }
    put_listing(file, file_len, out);
    return answer(0, length);
}

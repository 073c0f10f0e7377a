#include "reuse_text.h"

/* Reading. */

struct cursor {
    const uint8_t *at;
    const uint8_t *end;
};

/* N and M may have any number of digits. From here on a number isn't made larger: it is out of every range. */
#define LARGE UINT64_C(100000000000000000)

static bool take(struct cursor *c, uint8_t byte)
{
    bool there = c->at < c->end && *c->at == byte;
    c->at += there;
    return there;
}

static bool at_digit(const struct cursor *c)
{
    return c->at < c->end && *c->at >= '0' && *c->at <= '9';
}

/* A zero is a number by itself, and begins no other. */
static bool take_number(struct cursor *c, uint64_t *number)
{
    *number = 0;
    if (take(c, '0')) {
        return !at_digit(c);
    }
    const uint8_t *from = c->at;
    for (; at_digit(c); c->at++) {
        *number = *number < LARGE ? *number * 10 + (uint64_t)(*c->at - '0') : *number;
    }
    return c->at > from;
}

static bool take_field(struct cursor *c, uint64_t *number)
{
    return take(c, ' ') && take_number(c, number);
}

static bool take_start(struct cursor *c, uint64_t *processes, uint64_t *modulus)
{
    return take(c, 'H') && take_field(c, processes) && take_field(c, modulus) && take(c, '\n');
}

static uint8_t take_kind(struct cursor *c)
{
    switch (*c->at++) {
    case 'L': return KIND_LOAD;
    case 'S': return KIND_STORE;
    case 'V': return KIND_CHECK;
    case 'T': return KIND_STEP;
    default: return 0;
    }
}

/* At least one byte is left. */
static bool take_entry(struct cursor *c, struct reuse_entry *entry)
{
    uint64_t process = 0;
    uint64_t bit = 0;
    uint8_t kind = take_kind(c);
    if (kind == 0 || !take_field(c, &process) || process > 255) {
        return false;
    }
    if (kind == KIND_STORE && !(take_field(c, &bit) && bit <= 1)) {
        return false;
    }
    *entry = (struct reuse_entry){kind, (uint8_t)process, (uint8_t)bit};
    return take(c, '\n');
}

/* 16 comes before 24, and M is judged only beside an N that is in range. */
static uint32_t range_refusal(uint64_t processes, uint64_t modulus)
{
    if (processes < 1 || processes > REUSE_PROCESSES) {
        return REUSE_BAD_PROCESSES;
    }
    return modulus < least_modulus((uint32_t)processes) || modulus > MOST_MODULUS ? REUSE_BAD_MODULUS : 0;
}

struct refused reuse_read(const uint8_t *text, size_t text_len, struct reuse_run *run)
{
    struct cursor c = {text, text + text_len};
    uint64_t processes = 0;
    run->entries = 0;
    if (!take_start(&c, &processes, &run->modulus)) {
        return (struct refused){REUSE_BAD_LINE, 1};
    }
    while (c.at < c.end) {
        if (!take_entry(&c, &run->entry[run->entries])) {
            return (struct refused){REUSE_BAD_LINE, run->entries + 2};
        }
        run->entries++;
    }
    run->processes = (uint32_t)processes;
    return (struct refused){range_refusal(processes, run->modulus), 0};
}

/* Printing. Each of these gives the place behind what it put. */

static uint8_t *put_number(uint8_t *at, uint64_t number)
{
    uint8_t digits[20];
    size_t count = 0;
    do {
        digits[count++] = (uint8_t)('0' + number % 10);
        number /= 10;
    } while (number > 0);
    while (count > 0) {
        *at++ = digits[--count];
    }
    return at;
}

static uint8_t *put_words(uint8_t *at, const char *words)
{
    size_t length = strlen(words);
    memcpy(at, words, length);
    return at + length;
}

static uint8_t *put_field(uint8_t *at, uint64_t number)
{
    *at = ' ';
    return put_number(at + 1, number);
}

static uint8_t *put_line(uint8_t *at, size_t place, uint8_t process, struct reuse_record record)
{
    at = put_number(at, place);
    at = put_field(at, process);
    at = put_field(at, record.outcome);
    at = put_field(at, record.steps);
    at = put_field(at, record.process);
    at = put_field(at, record.bit);
    *at = '\n';
    return at + 1;
}

static uint8_t *put_head(uint8_t *at, const struct reuse_machine *m, size_t entries)
{
    at = put_number(put_words(at, "entries "), entries);
    at = put_number(put_words(at, " changes "), m->changes);
    at = put_number(put_words(at, " processes "), m->processes);
    *at = '\n';
    return at + 1;
}

/* The head tells the changes, so it is put last, in the room that was left for it. */
struct output reuse_print_run(struct reuse_machine *m, const struct reuse_run *run, uint8_t room[OUTPUT_ROOM])
{
    uint8_t head[OUTPUT_HEAD_MOST];
    uint8_t *at = room + OUTPUT_HEAD_MOST;
    for (size_t i = 0; i < run->entries; i++) {
        at = put_line(at, i, run->entry[i].process, reuse_play(m, run->entry[i]));
    }
    size_t head_len = (size_t)(put_head(head, m, run->entries) - head);
    uint8_t *start = room + OUTPUT_HEAD_MOST - head_len;
    memcpy(start, head, head_len);
    return (struct output){start, (size_t)(at - start)};
}

struct output reuse_print_refused(struct refused refused, uint8_t room[OUTPUT_ROOM])
{
    uint8_t *at = put_number(put_words(room, "refused "), refused.number);
    if (refused.line > 0) {
        at = put_number(put_words(at, " line "), refused.line);
    }
    *at++ = '\n';
    return (struct output){room, (size_t)(at - room)};
}

struct output reuse_filter(const uint8_t *text, size_t text_len, struct reuse_run *run, uint8_t room[OUTPUT_ROOM])
{
    struct reuse_machine m;
    struct refused refused = reuse_read(text, text_len, run);
    if (refused.number != 0) {
        return reuse_print_refused(refused, room);
    }
    struct reuse_rules rules = right_rules(run->processes, run->modulus);
    reuse_start(&m, run->processes, &rules);
    return reuse_print_run(&m, run, room);
}

#include "reference.h"

/* The machine. */

static struct tag tag_of(uint32_t process, uint32_t number)
{
    return (struct tag){(uint64_t)process << 32 | number};
}

static uint32_t tag_process(struct tag t)
{
    return (uint32_t)(t.both >> 32);
}

static uint32_t tag_number(struct tag t)
{
    return (uint32_t)t.both;
}

bool same_tag(struct tag a, struct tag b)
{
    return a.both == b.both;
}

void machine_start(struct machine *m, uint32_t processes, uint32_t last, uint64_t value)
{
    m->processes = processes;
    m->last = last;
    m->changes = 0;
    m->x = tag_of(0, 1);
    for (uint32_t p = 0; p < PROCESSES; p++) {
        m->rows[p] = (struct row){{value, value}, value, p == 0 ? 0 : -1};
        m->own[p] = (struct private){tag_of(0, 0), p == 0 ? 2 : 1, 0, IDLE, 0};
    }
}

/* Records are written where they belong in the log. The process stands there already. */

static void write_record(uint8_t *record, enum outcome outcome, uint8_t steps, enum mark mark, uint64_t value)
{
    record[0] = (uint8_t)outcome;
    record[2] = steps;
    record[3] = (uint8_t)mark;
    put64(record + 4, value);
}

/* A request that is taken, or a refused entry. */
static void no_step(uint8_t *record, enum outcome outcome)
{
    write_record(record, outcome, 0, MARK_NONE, 0);
}

/* The step was taken and the call goes on with `next`. */
static void goes_on(struct private *own, enum place next, uint8_t *record)
{
    own->place = next;
    write_record(record, STEP_TAKEN, ++own->steps, MARK_NONE, 0);
}

/* The step was taken and answers the call: its process is idle again. */
static void answered(struct private *own, enum outcome outcome, enum mark mark, uint64_t value, uint8_t *record)
{
    own->place = IDLE;
    write_record(record, outcome, ++own->steps, mark, value);
}

/* The step was a load's last, 3 or 5. Straight after it the bench, not the step, looks at X. */
static void load_answered(const struct machine *m, struct private *own, uint64_t value, uint8_t *record)
{
    enum mark mark = same_tag(m->x, own->kept) ? MARK_CURRENT : MARK_NOT_CURRENT;
    answered(own, LOAD_ANSWERED, mark, value, record);
}

/* The row of the process that the kept tag names. */
static const struct row *kept_row(const struct machine *m, const struct private *own)
{
    return &m->rows[tag_process(own->kept)];
}

static void step_1(struct machine *m, struct private *own, uint8_t *record)
{
    own->kept = m->x;
    goes_on(own, LOAD_2, record);
}

static void step_2(struct machine *m, struct private *own, uint8_t *record)
{
    own->value = kept_row(m, own)->slot[tag_number(own->kept) % 2];
    goes_on(own, LOAD_3, record);
}

static void step_3(struct machine *m, struct private *own, uint8_t *record)
{
    /* Signed: the old number starts at -1, and k - 2 is -1 for k = 1. */
    int64_t old_number = kept_row(m, own)->old_number;
    int64_t k = (int64_t)tag_number(own->kept);
    if (old_number == k - 2 || old_number == k - 1) {
        load_answered(m, own, own->value, record);
    } else {
        goes_on(own, LOAD_5, record);
    }
}

static void step_5(struct machine *m, struct private *own, uint8_t *record)
{
    load_answered(m, own, kept_row(m, own)->old_value, record);
}

static void step_7(struct machine *m, struct private *own, uint32_t p, uint8_t *record)
{
    m->rows[p].slot[own->next_number % 2] = own->value;
    goes_on(own, STORE_8, record);
}

static void step_8(struct machine *m, struct private *own, uint32_t p, uint8_t *record)
{
    if (same_tag(m->x, own->kept)) {
        /* The request was taken with the next number at most S, so it fits a tag. */
        m->x = tag_of(p, (uint32_t)own->next_number);
        m->changes++;
        own->next_number++;
        goes_on(own, STORE_9, record);
    } else {
        answered(own, STORE_NOT_DONE, MARK_NONE, 0, record);
    }
}

static void step_9(struct machine *m, struct private *own, uint32_t p, uint8_t *record)
{
    m->rows[p].old_value = m->rows[p].slot[own->next_number % 2];
    goes_on(own, STORE_10, record);
}

static void step_10(struct machine *m, struct private *own, uint32_t p, uint8_t *record)
{
    m->rows[p].old_number = (int64_t)own->next_number - 2;
    answered(own, STORE_DONE, MARK_NONE, 0, record);
}

static void step_14(struct machine *m, struct private *own, uint8_t *record)
{
    answered(own, same_tag(m->x, own->kept) ? CHECK_YES : CHECK_NO, MARK_NONE, 0, record);
}

static void take_step(struct machine *m, uint32_t p, uint8_t *record)
{
    struct private *own = &m->own[p];
    switch (own->place) {
    case IDLE: no_step(record, PROCESS_IDLE); break;
    case LOAD_1: step_1(m, own, record); break;
    case LOAD_2: step_2(m, own, record); break;
    case LOAD_3: step_3(m, own, record); break;
    case LOAD_5: step_5(m, own, record); break;
    case STORE_7: step_7(m, own, p, record); break;
    case STORE_8: step_8(m, own, p, record); break;
    case STORE_9: step_9(m, own, p, record); break;
    case STORE_10: step_10(m, own, p, record); break;
    case CHECK_14: step_14(m, own, record); break;
    }
}

static enum place first_place(uint8_t kind)
{
    return kind == KIND_LOAD ? LOAD_1 : kind == KIND_STORE ? STORE_7 : CHECK_14;
}

static void take_request(struct machine *m, uint8_t kind, uint32_t p, uint64_t value, uint8_t *record)
{
    struct private *own = &m->own[p];
    if (own->place != IDLE) {
        no_step(record, CALL_OPEN);
    } else if (kind == KIND_STORE && own->next_number > m->last) {
        no_step(record, NUMBERS_USED_UP);
    } else {
        own->place = first_place(kind);
        own->value = value;
        own->steps = 0;
        no_step(record, REQUEST_TAKEN);
    }
}

void machine_entry(struct machine *m, const uint8_t *entry, uint8_t *record)
{
    uint8_t kind = entry[0];
    uint8_t p = entry[1];
    record[1] = p;
    if (p >= m->processes) {
        no_step(record, NO_SUCH_PROCESS);
    } else if (kind == KIND_STEP) {
        take_step(m, p, record);
    } else {
        take_request(m, kind, p, get64(entry + 4), record);
    }
}

/* The file. Each reader gives 0 or the number of the first refusal, in the documents' order. */

uint32_t block_check(const uint8_t *block)
{
    /* At most 255 * (1 + .. + 510) = 33,224,025, so one remainder at the end does. */
    uint32_t sum = 0;
    for (uint32_t i = 0; i < BLOCK_CHECK; i++) {
        sum += (i + 1) * block[i];
    }
    return sum % 65521;
}

static bool all_zero(const uint8_t *bytes, size_t from, size_t to)
{
    uint8_t any = 0;
    for (size_t i = from; i < to; i++) {
        any |= bytes[i];
    }
    return any == 0;
}

static uint32_t read_check_and_place(const uint8_t *block, size_t place)
{
    if (get16(block + BLOCK_CHECK) != block_check(block)) {
        return BAD_CHECK;
    }
    return get16(block) != place ? BAD_PLACE : 0;
}

/* The place of the first byte of block 0 that must be zero and isn't; 0, which is no such place, if there is none. */
static uint32_t first_stray(const uint8_t *block)
{
    if (block[3] != 0) {
        return 3;
    }
    if (all_zero(block, HEAD_TAIL, BLOCK_CHECK)) {
        return 0;
    }
    uint32_t place = HEAD_TAIL;
    while (block[place] == 0) {
        place++;
    }
    return place;
}

static uint32_t read_head(const uint8_t *block, size_t blocks)
{
    uint32_t refused = read_check_and_place(block, 0);
    if (refused != 0) {
        return refused;
    }
    if (block[2] < 1 || block[2] > PROCESSES) {
        return BAD_PROCESSES;
    }
    if (get32(block + 4) < 2) {
        return BAD_LAST;
    }
    if (get16(block + 16) != blocks - 1) {
        return BAD_BLOCK_COUNT;
    }
    return first_stray(block) != 0 ? STRAY_BYTE : 0;
}

static bool good_entry(const uint8_t *entry)
{
    if (entry[0] < KIND_LOAD || entry[0] > KIND_STEP || entry[2] != 0 || entry[3] != 0) {
        return false;
    }
    return entry[0] == KIND_STORE || get64(entry + 4) == 0;
}

static bool good_entries(const uint8_t *block)
{
    for (size_t e = 0; e < block[2]; e++) {
        if (!good_entry(block + ENTRIES_FROM + ENTRY * e)) {
            return false;
        }
    }
    return true;
}

static uint32_t read_later(const uint8_t *block, size_t place)
{
    uint32_t refused = read_check_and_place(block, place);
    if (refused != 0) {
        return refused;
    }
    bool good = block[2] <= BLOCK_ENTRIES && block[3] == 0 && good_entries(block) &&
                all_zero(block, ENTRIES_FROM + ENTRY * (size_t)block[2], BLOCK_CHECK);
    return good ? 0 : BAD_BLOCK;
}

static uint32_t refuse(uint32_t number, size_t block, uint32_t place)
{
    return number + 256 * (uint32_t)block + 65536 * place;
}

uint32_t read_file(const uint8_t *file, size_t file_len, size_t *entries)
{
    if (file_len % BLOCK != 0 || file_len < BLOCK || file_len > (size_t)BLOCKS * BLOCK) {
        return refuse(BAD_LENGTH, 0, 0);
    }
    size_t blocks = file_len / BLOCK;
    uint32_t number = read_head(file, blocks);
    if (number != 0) {
        return refuse(number, 0, number == STRAY_BYTE ? first_stray(file) : 0);
    }
    for (size_t b = 1; b < blocks; b++) {
        const uint8_t *block = file + BLOCK * b;
        number = read_later(block, b);
        if (number != 0) {
            return refuse(number, b, 0);
        }
        *entries += block[2];
    }
    return 0;
}

/* The log. */

static void write_head(uint8_t *log, size_t entries, const struct machine *m)
{
    put32(log, (uint32_t)entries);
    put32(log + 4, m->changes);
    put32(log + 8, m->processes);
}

/* Plays one block's entries and gives the place in the log after their records. */
static uint8_t *play_block(struct machine *m, const uint8_t *block, uint8_t *at)
{
    const uint8_t *entry = block + ENTRIES_FROM;
    for (size_t e = 0; e < block[2]; e++, entry += ENTRY, at += RECORD) {
        machine_entry(m, entry, at);
    }
    return at;
}

uint32_t reference_run(const uint8_t *file, size_t file_len, uint8_t *log, size_t log_len)
{
    size_t entries = 0;
    uint32_t refused = read_file(file, file_len, &entries);
    if (refused != 0) {
        return refused;
    }
    if (log_len < LOG_HEAD + RECORD * entries) {
        return refuse(LOG_TOO_SHORT, 0, 0);
    }
    struct machine m;
    machine_start(&m, file[2], get32(file + 4), get64(file + 8));
    uint8_t *at = log + LOG_HEAD;
    for (size_t b = 1; b < file_len / BLOCK; b++) {
        at = play_block(&m, file + BLOCK * b, at);
    }
    write_head(log, entries, &m);
    return 0;
}

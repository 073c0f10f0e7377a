#include "tally.h"

#include "walk.h"

void tally_sample(struct tally *t, const struct sample *f)
{
    t->style[f->style]++;
    t->row[ROW_SEVERAL_DEFECTS] += (f->defects & (f->defects - 1)) != 0;
    for (uint32_t d = 0; d < DEFECTS; d++) {
        t->defect[d] += f->defects >> d & 1;
    }
}

/* ROWS for the refusals that are block 0's alone: the tally of block 0 has them. */
static enum tally_row row_of_refusal(uint32_t number, uint32_t block, size_t blocks)
{
    switch (number) {
    case BAD_LENGTH: return ROW_REFUSED_1;
    case BAD_CHECK: return block == 0 ? ROW_REFUSED_2_HEAD : ROW_REFUSED_2_LATER;
    case BAD_PLACE: return block == 0 ? ROW_REFUSED_3_HEAD : ROW_REFUSED_3_LATER;
    case BAD_BLOCK: return block == 1 ? ROW_REFUSED_5_FIRST : block + 1 == blocks ? ROW_REFUSED_5_LAST : ROW_REFUSED_5_LATER;
    case LOG_TOO_SHORT: return ROW_REFUSED_6;
    default: return ROWS;
    }
}

static enum tally_row row_of_load(const uint8_t *record)
{
    if (by_step_5(record)) {
        return ROW_LOADS_5;
    }
    return record[3] == MARK_CURRENT ? ROW_LOADS_3_CURRENT : ROW_LOADS_3_NOT_CURRENT;
}

static enum tally_row row_of_record(const uint8_t *record)
{
    switch (record[0]) {
    case REQUEST_TAKEN: return ROW_REQUESTS;
    case STEP_TAKEN: return ROW_STEPS_ON;
    case LOAD_ANSWERED: return row_of_load(record);
    case STORE_DONE: return ROW_STORES_DONE;
    case STORE_NOT_DONE: return ROW_STORES_NOT_DONE;
    case CHECK_YES: return ROW_CHECKS_YES;
    case CHECK_NO: return ROW_CHECKS_NO;
    case NO_SUCH_PROCESS: return ROW_ENTRY_11;
    case CALL_OPEN: return ROW_ENTRY_12;
    case NUMBERS_USED_UP: return ROW_ENTRY_13;
    default: return ROW_ENTRY_14;
    }
}

static void tally_blocks(struct tally *t, const uint8_t *file, size_t blocks)
{
    bool empty = false;
    bool half = false;
    bool filled = false;
    for (size_t b = 1; b < blocks; b++) {
        uint8_t count = file[BLOCK * b + 2];
        empty |= count == 0;
        half |= count > 0 && count < BLOCK_ENTRIES;
        filled |= count == BLOCK_ENTRIES;
    }
    t->row[ROW_EMPTY_BLOCK] += empty;
    t->row[ROW_HALF_BLOCK] += half;
    t->row[ROW_FULL_BLOCK] += filled;
    t->row[ROW_BLOCKS_128] += blocks == BLOCKS;
}

static void tally_setting(struct tally *t, const uint8_t *file)
{
    t->n[file[2]]++;
    t->row[ROW_N_1] += file[2] == 1;
    t->row[ROW_N_16] += file[2] == PROCESSES;
    t->row[ROW_S_2] += get32(file + 4) == 2;
    t->row[ROW_S_MOST] += get32(file + 4) == UINT32_MAX;
    t->row[ROW_V_0] += get64(file + 8) == 0;
    t->row[ROW_V_MOST] += get64(file + 8) == UINT64_MAX;
}

static void tally_log(struct tally *t, const uint8_t *log, size_t log_len)
{
    uint32_t entries = get32(log);
    t->row[ROW_ENTRIES] += entries;
    t->row[ROW_CHANGES] += get32(log + 4);
    t->row[ROW_NO_ENTRIES] += entries == 0;
    t->row[ROW_ENTRIES_5334] += entries == MOST_ENTRIES;
    t->row[ROW_LOG_LONGER] += log_len > LOG_HEAD + RECORD * (size_t)entries;
    for (uint32_t e = 0; e < entries; e++) {
        t->row[row_of_record(record_at(log, e))]++;
    }
}

static void tally_refused(struct tally *t, const uint8_t *file, size_t file_len, uint32_t told)
{
    enum tally_row row = row_of_refusal(told_number(told), told_block(told), file_len / BLOCK);
    if (row != ROWS) {
        t->row[row]++;
    }
    tally_head(&t->head, file, file_len, told);
}

void tally_result(struct tally *t, const uint8_t *file, size_t file_len, size_t log_len, const struct compared *c)
{
    t->row[ROW_FILES]++;
    if (c->told != 0) {
        tally_refused(t, file, file_len, c->told);
        return;
    }
    t->row[ROW_ACCEPTED]++;
    tally_setting(t, file);
    tally_blocks(t, file, file_len / BLOCK);
    tally_log(t, c->log, log_len);
}

static const char *const row_names[ROWS] = {
    "files compared",
    "accepted",
    "refused 1 (length)",
    "refused 2 (check), block 0",
    "refused 2 (check), later block",
    "refused 3 (place), block 0",
    "refused 3 (place), later block",
    "refused 5, block 1",
    "refused 5, later block",
    "refused 5, last block",
    "refused 6 (log too short)",
    "several defects at once",
    "accepted: no entries",
    "accepted: an empty block",
    "accepted: a block partly filled",
    "accepted: a full block",
    "accepted: 128 blocks",
    "accepted: 5334 entries",
    "accepted: N 1",
    "accepted: N 16",
    "accepted: S 2",
    "accepted: S 4294967295",
    "accepted: V 0",
    "accepted: V 18446744073709551615",
    "accepted: log longer than needed",
    "entries played",
    "requests taken",
    "steps, call goes on",
    "loads answered by step 3, mark 1",
    "loads answered by step 3, mark 2",
    "loads answered by step 5, mark 2",
    "stores done",
    "stores not done",
    "checks yes",
    "checks no",
    "entries refused by 11",
    "entries refused by 12",
    "entries refused by 13",
    "entries refused by 14",
    "changes of X",
    "short histories with an order",
    "calls in them",
    "of them with a load by step 5",
    "of them with an unanswered store",
};

static void print_line(const char *name, uint64_t count)
{
    printf("  %-36s %12llu\n", name, (unsigned long long)count);
}

static void print_head(const struct head_tally *t)
{
    for (uint32_t i = 0; i < HEAD_ROWS; i++) {
        char name[64];
        snprintf(name, sizeof name, "refused %s", head_row_name((enum head_row)i));
        print_line(name, t->row[i]);
    }
}

/* Styles and defects are known of generated samples only. */
void tally_print(const struct tally *t, bool samples)
{
    for (uint32_t i = 0; i < ROWS; i++) {
        if (samples || i != ROW_SEVERAL_DEFECTS) {
            print_line(row_names[i], t->row[i]);
        }
    }
    print_head(&t->head);
    for (uint32_t n = 1; n <= PROCESSES; n++) {
        char name[32];
        snprintf(name, sizeof name, "accepted: N %u", n);
        if (n != 1 && n != PROCESSES) {
            print_line(name, t->n[n]);
        }
    }
    for (uint32_t i = 0; samples && i < STYLES; i++) {
        char name[64];
        snprintf(name, sizeof name, "style: %s", style_name((enum style)i));
        print_line(name, t->style[i]);
    }
    for (uint32_t i = 0; samples && i < DEFECTS; i++) {
        char name[64];
        snprintf(name, sizeof name, "defect: %s", defect_name((enum defect)i));
        print_line(name, t->defect[i]);
    }
}

size_t tally_missing(const struct tally *t)
{
    size_t none = 0;
    for (uint32_t i = 0; i < ROWS; i++) {
        none += missing(row_names[i], t->row[i]);
    }
    for (uint32_t i = 0; i < HEAD_ROWS; i++) {
        none += missing(head_row_name((enum head_row)i), t->head.row[i]);
    }
    for (uint32_t n = 1; n <= PROCESSES; n++) {
        none += missing("an N of 1 to 16", t->n[n]);
    }
    for (uint32_t i = 0; i < DEFECTS; i++) {
        none += missing(defect_name((enum defect)i), t->defect[i]);
    }
    return none;
}

#include "tally_texts.h"

static void tally_start(struct text_tally *m, const uint8_t *file)
{
    m->row[TEXT_N_1] += file[2] == 1;
    m->row[TEXT_N_16] += file[2] == PROCESSES;
    m->row[TEXT_S_2] += get32(file + 4) == 2;
    m->row[TEXT_S_MOST] += get32(file + 4) == UINT32_MAX;
    m->row[TEXT_V_0] += get64(file + 8) == 0;
    m->row[TEXT_V_MOST] += get64(file + 8) == UINT64_MAX;
}

static void tally_entries(struct text_tally *m, const uint8_t *file)
{
    uint32_t later = get16(file + 16);
    size_t entries = 0;
    uint32_t kinds = 0;
    bool process = false;
    bool zero = false;
    bool most = false;
    for (const uint8_t *block = file + BLOCK; later > 0; later--, block += BLOCK) {
        for (const uint8_t *e = block + ENTRIES_FROM; e < block + ENTRIES_FROM + ENTRY * block[2]; e += ENTRY) {
            kinds |= 1u << e[0];
            process |= e[1] == 255;
            zero |= e[0] == KIND_STORE && get64(e + 4) == 0;
            most |= get64(e + 4) == UINT64_MAX;
            entries++;
        }
    }
    m->row[TEXT_ALL_KINDS] += kinds == 30;
    m->row[TEXT_PROCESS_255] += process;
    m->row[TEXT_VALUE_0] += zero;
    m->row[TEXT_VALUE_MOST] += most;
    m->row[TEXT_NO_ENTRIES] += entries == 0;
    m->row[TEXT_ENTRIES_42] += entries == BLOCK_ENTRIES;
    m->row[TEXT_ENTRIES_43] += entries == BLOCK_ENTRIES + 1;
    m->row[TEXT_ENTRIES_5334] += entries == MOST_ENTRIES;
}

static void tally_bad_line(struct text_tally *m, const struct text *t, uint64_t line)
{
    m->row[TEXT_25]++;
    m->row[TEXT_25_LINE_1] += line == 1;
    m->row[TEXT_25_LATER] += line > 1;
    m->row[TEXT_25_FAR] += line > MOST_ENTRIES + 2;
    m->row[TEXT_25_BEFORE_16] += line > 1 && has_fault(t, FAULT_N);
    m->row[TEXT_25_BEFORE_17] += line > 1 && has_fault(t, FAULT_S);
    m->row[TEXT_25_BEFORE_26] += has_fault(t, FAULT_MANY_ENTRIES);
    m->row[TEXT_25_BEFORE_27] += has_fault(t, FAULT_SHORT_OUTPUT);
}

static void tally_out_of_range(struct text_tally *m, const struct text *t, uint32_t number)
{
    bool many = has_fault(t, FAULT_MANY_ENTRIES);
    bool short_output = has_fault(t, FAULT_SHORT_OUTPUT);
    if (number == BAD_PROCESSES) {
        m->row[TEXT_16]++;
        m->row[TEXT_16_BEFORE_17] += has_fault(t, FAULT_S);
        m->row[TEXT_16_BEFORE_26] += many;
        m->row[TEXT_16_BEFORE_27] += short_output;
    } else {
        m->row[TEXT_17]++;
        m->row[TEXT_17_BEFORE_26] += many;
        m->row[TEXT_17_BEFORE_27] += short_output;
    }
}

static void tally_written(struct text_tally *m, const struct text *t, const struct job_done *d)
{
    m->row[TEXT_ACCEPTED]++;
    m->row[TEXT_EXACT_OUTPUT] += d->detail == t->out_length;
    m->row[TEXT_LONGER_OUTPUT] += d->detail < t->out_length;
    if (d->same) {
        tally_start(m, d->out);
        tally_entries(m, d->out);
    }
}

void tally_text(struct text_tally *m, const struct text *t, const struct job_done *d)
{
    m->texts++;
    for (uint32_t f = 0; f < FAULTS; f++) {
        m->fault[f] += has_fault(t, (enum fault)f);
    }
    switch (d->number) {
    case 0: tally_written(m, t, d); break;
    case BAD_LINE: tally_bad_line(m, t, d->detail); break;
    case BAD_PROCESSES:
    case BAD_LAST: tally_out_of_range(m, t, d->number); break;
    case TOO_MANY_ENTRIES:
        m->row[TEXT_26]++;
        m->row[TEXT_26_BEFORE_27] += has_fault(t, FAULT_SHORT_OUTPUT);
        break;
    default: m->row[TEXT_27]++; break;
    }
}

/* The refusals that are block 0's alone are in the tally of block 0. */
static void tally_list_refused(struct text_tally *m, const struct job *job, uint32_t told)
{
    m->row[LIST_1] += told_number(told) == BAD_LENGTH;
    m->row[LIST_2] += told_number(told) == BAD_CHECK;
    m->row[LIST_3] += told_number(told) == BAD_PLACE;
    m->row[LIST_5] += told_number(told) == BAD_BLOCK;
    m->row[LIST_LATER_BLOCK] += told_block(told) > 0;
    tally_head(&m->head, job->in, job->in_len, told);
}

void tally_list(struct text_tally *m, const struct job *job, const struct job_done *d)
{
    m->lists++;
    if (d->number == 0) {
        m->row[LIST_ACCEPTED]++;
        m->row[LIST_EXACT_OUTPUT] += d->detail == job->out_len;
        m->row[LIST_LONGER_OUTPUT] += d->detail < job->out_len;
        m->row[LIST_NO_ENTRIES] += job->in_len == BLOCK;
    } else if (d->number == OUTPUT_TOO_SHORT) {
        m->row[LIST_27]++;
    } else {
        tally_list_refused(m, job, told_of(d));
    }
}

static const char *const names[TEXT_ROWS] = {
    "texts accepted",
    "texts refused 25",
    "texts refused 16",
    "texts refused 17",
    "texts refused 26",
    "texts refused 27",
    "25 for line 1",
    "25 for a later line",
    "25 for a line after 5335 entries",
    "25 with N out of range",
    "25 with S out of range",
    "25 with more than 5334 entries",
    "25 with the output too short",
    "16 with S out of range",
    "16 with more than 5334 entries",
    "16 with the output too short",
    "17 with more than 5334 entries",
    "17 with the output too short",
    "26 with the output too short",
    "written: no entries",
    "written: 42 entries",
    "written: 43 entries",
    "written: 5334 entries",
    "written: all kinds",
    "written: process 255",
    "written: a store of 0",
    "written: a store of 2^64 - 1",
    "written: N 1",
    "written: N 16",
    "written: S 2",
    "written: S 4294967295",
    "written: V 0",
    "written: V 2^64 - 1",
    "written: into the very length",
    "written: into more than needed",
    "files listed",
    "files refused 1",
    "files refused 2",
    "files refused 3",
    "files refused 5",
    "files refused 27",
    "refused for a later block",
    "listed: into the very length",
    "listed: into more than needed",
    "listed: no entries",
    "listed: of another packing",
};

static unsigned long long met(const struct text_tally *m, enum text_row row)
{
    return (unsigned long long)m->row[row];
}

static unsigned long long met_head(const struct text_tally *m, enum head_row row)
{
    return (unsigned long long)m->head.row[row];
}

static void print_short(const struct text_tally *m)
{
    printf("%llu texts: %llu accepted, refused 25: %llu, 16: %llu, 17: %llu, 26: %llu, 27: %llu; %llu one-byte edits; "
           "%llu lists: %llu listed, refused 1: %llu, 2: %llu, 3: %llu, 16: %llu, 17: %llu, 18: %llu, 19: %llu, 5: %llu, "
           "27: %llu\n",
           (unsigned long long)m->texts, met(m, TEXT_ACCEPTED), met(m, TEXT_25), met(m, TEXT_16), met(m, TEXT_17),
           met(m, TEXT_26), met(m, TEXT_27), (unsigned long long)m->edits, (unsigned long long)m->lists,
           met(m, LIST_ACCEPTED), met(m, LIST_1), met(m, LIST_2), met(m, LIST_3), met_head(m, HEAD_16), met_head(m, HEAD_17),
           met_head(m, HEAD_18), met_head(m, HEAD_19), met(m, LIST_5), met(m, LIST_27));
}

void text_tally_print(const struct text_tally *m)
{
    for (uint32_t i = 0; i < TEXT_ROWS; i++) {
        printf("  %-42s %12llu\n", names[i], met(m, (enum text_row)i));
    }
    for (uint32_t i = 0; i < HEAD_ROWS; i++) {
        printf("  files refused %-28s %12llu\n", head_row_name((enum head_row)i), met_head(m, (enum head_row)i));
    }
    for (uint32_t f = 0; f < FAULTS; f++) {
        printf("  fault: %-35s %12llu\n", fault_name((enum fault)f), (unsigned long long)m->fault[f]);
    }
    print_short(m);
}

size_t text_tally_missing(const struct text_tally *m)
{
    size_t none = 0;
    for (uint32_t i = 0; i < TEXT_ROWS; i++) {
        none += missing(names[i], m->row[i]);
    }
    /* The other rows of block 0 are asked of the files that are played, as those are more. */
    for (uint32_t i = HEAD_16; i <= HEAD_19; i++) {
        none += missing(head_row_name((enum head_row)i), m->head.row[i]);
    }
    for (uint32_t f = 0; f < FAULTS; f++) {
        none += missing(fault_name((enum fault)f), m->fault[f]);
    }
    return none;
}

#include "tally_head.h"

/* What is wrong in block 0, each part looked at for itself. */
struct faults {
    bool processes;
    bool last;
    bool block_count;
    bool byte_3;
    uint32_t tail; /* how many of bytes 18 to 509 */
};

static struct faults faults_of(const uint8_t *block, size_t blocks)
{
    struct faults f = {block[2] == 0 || block[2] > PROCESSES, get32(block + 4) < 2, get16(block + 16) + 1 != blocks,
                       block[3] != 0, 0};
    for (size_t i = HEAD_TAIL; i < BLOCK_CHECK; i++) {
        f.tail += block[i] != 0;
    }
    return f;
}

static bool stray(const struct faults *f)
{
    return f->byte_3 || f->tail > 0;
}

static bool any(const struct faults *f)
{
    return f->processes || f->last || f->block_count || stray(f);
}

static bool later_check_differs(const uint8_t *file, size_t blocks)
{
    for (size_t b = 1; b < blocks; b++) {
        const uint8_t *block = file + BLOCK * b;
        if (get16(block + BLOCK_CHECK) != block_check(block)) {
            return true;
        }
    }
    return false;
}

static void tally_stray(struct head_tally *t, const struct faults *f, uint32_t place)
{
    t->row[HEAD_19]++;
    t->row[HEAD_19_AT_3] += place == 3;
    t->row[HEAD_19_AT_18] += place == HEAD_TAIL;
    t->row[HEAD_19_INSIDE] += place > HEAD_TAIL && place < BLOCK_CHECK - 1;
    t->row[HEAD_19_AT_509] += place == BLOCK_CHECK - 1;
    t->row[HEAD_19_AT_3_AND_TAIL] += f->byte_3 && f->tail > 0;
    t->row[HEAD_19_TAILS] += !f->byte_3 && f->tail > 1;
}

static void tally_parts(struct head_tally *t, const struct faults *f, uint32_t number)
{
    switch (number) {
    case BAD_CHECK: t->row[HEAD_2_BEFORE] += any(f); break;
    case BAD_PLACE: t->row[HEAD_3_BEFORE] += any(f); break;
    case BAD_PROCESSES:
        t->row[HEAD_16]++;
        t->row[HEAD_16_BEFORE_17] += f->last;
        t->row[HEAD_16_BEFORE_18] += f->block_count;
        t->row[HEAD_16_BEFORE_19] += stray(f);
        break;
    case BAD_LAST:
        t->row[HEAD_17]++;
        t->row[HEAD_17_BEFORE_18] += f->block_count;
        t->row[HEAD_17_BEFORE_19] += stray(f);
        break;
    case BAD_BLOCK_COUNT:
        t->row[HEAD_18]++;
        t->row[HEAD_18_BEFORE_19] += stray(f);
        break;
    default: break;
    }
}

void tally_head(struct head_tally *t, const uint8_t *file, size_t file_len, uint32_t told)
{
    if (told_block(told) != 0 || file_len < BLOCK) {
        return;
    }
    struct faults f = faults_of(file, file_len / BLOCK);
    tally_parts(t, &f, told_number(told));
    if (told_number(told) == STRAY_BYTE) {
        tally_stray(t, &f, told_place(told));
        t->row[HEAD_19_BEFORE_LATER] += later_check_differs(file, file_len / BLOCK);
    }
}

const char *head_row_name(enum head_row row)
{
    static const char *const names[HEAD_ROWS] = {
        "16 (N)", "17 (S)", "18 (block count)", "19 (stray byte)", "2, block 0, before 16 to 19", "3, block 0, before 16 to 19",
        "16 before 17", "16 before 18", "16 before 19", "17 before 18", "17 before 19", "18 before 19", "19 before a later 2",
        "19, place 3", "19, place 18", "19, place 19 to 508", "19, place 509", "19, byte 3 and of 18 to 509",
        "19, several of 18 to 509"};
    return row < HEAD_ROWS ? names[row] : "?";
}

size_t missing(const char *name, uint64_t count)
{
    if (count == 0) {
        printf("FAILED: nothing of this kind was compared: %s\n", name);
    }
    return count == 0;
}

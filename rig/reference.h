/* The bench of documents 01 and 02 in plain C: state in place, nothing shared with the proved program. */
#ifndef RIG_REFERENCE_H
#define RIG_REFERENCE_H

#include "numbers.h"
#include "outcomes.h"

enum {
    PROCESSES = 16,
    BLOCK = 512,         /* bytes of a block */
    BLOCK_CHECK = 510,   /* where its check stands */
    HEAD_TAIL = 18,      /* from here to its check, block 0 is zero */
    BLOCKS = 128,        /* blocks of a largest file */
    ENTRY = 12,          /* bytes of an entry, and of a record */
    ENTRIES_FROM = 4,    /* where the entries of a block start */
    BLOCK_ENTRIES = 42,  /* entries of a full block */
    MOST_ENTRIES = (BLOCKS - 1) * BLOCK_ENTRIES,
    LOG_HEAD = 12,
    RECORD = 12
};

enum refusal {
    BAD_LENGTH = 1,
    BAD_CHECK = 2,
    BAD_PLACE = 3,
    BAD_BLOCK = 5,
    LOG_TOO_SHORT = 6,
    BAD_PROCESSES = 16,
    BAD_LAST = 17,
    BAD_BLOCK_COUNT = 18,
    STRAY_BYTE = 19
};

/* What a refused file gives is number + 256 * block + 65,536 * place. The place is that of a stray byte in block 0, else 0. */
static inline uint32_t told_number(uint32_t told)
{
    return told % 256;
}

static inline uint32_t told_block(uint32_t told)
{
    return told / 256 % 256;
}

static inline uint32_t told_place(uint32_t told)
{
    return told / 65536;
}

/* Of an answered load: whether X equals the kept tag straight after the load's last step. */
enum mark { MARK_NONE = 0, MARK_CURRENT = 1, MARK_NOT_CURRENT = 2 };

/* Where a process stands in its call: the step that it takes next. */
enum place { IDLE, LOAD_1, LOAD_2, LOAD_3, LOAD_5, STORE_7, STORE_8, STORE_9, STORE_10, CHECK_14 };

/* Process and sequence number in one word, so that X is moved and compared at once. */
struct tag {
    uint64_t both; /* process * 2^32 + number */
};

/* The registers of one process that the others can read. */
struct row {
    uint64_t slot[2];
    uint64_t old_value;
    int64_t old_number; /* -1 to S */
};

/* What is private to one process. */
struct private {
    struct tag kept;
    uint64_t next_number; /* 1 to S + 1, which may be 2^32 */
    uint64_t value;       /* a store's value, or what a load's step 2 read */
    enum place place;
    uint8_t steps; /* own steps of this call so far */
};

struct machine {
    uint32_t processes; /* N */
    uint32_t last;      /* S */
    uint32_t changes;   /* how often X has changed */
    struct tag x;
    struct row rows[PROCESSES];
    struct private own[PROCESSES];
};

bool same_tag(struct tag a, struct tag b);
void machine_start(struct machine *m, uint32_t processes, uint32_t last, uint64_t value);
/* Plays one entry of 12 bytes and writes its record of 12 bytes. */
void machine_entry(struct machine *m, const uint8_t *entry, uint8_t *record);

uint32_t block_check(const uint8_t *block);

/* 0 with the entries added up, or what is told of a refused file, whatever log is lent: every refusal but 6. */
uint32_t read_file(const uint8_t *file, size_t file_len, size_t *entries);

/* 0, or what is told of a refused file. */
uint32_t reference_run(const uint8_t *file, size_t file_len, uint8_t *log, size_t log_len);

#endif

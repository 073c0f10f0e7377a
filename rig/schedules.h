/* Seeded random schedule files: sound ones of many styles, and damaged ones. */
#ifndef RIG_SCHEDULES_H
#define RIG_SCHEDULES_H

#include "prng.h"
#include "reference.h"

enum {
    FILE_ROOM = 130 * BLOCK,                       /* 66,560: two blocks more than a largest file */
    LOG_NEED_MOST = LOG_HEAD + RECORD * MOST_ENTRIES, /* 64,020 */
    LOG_ROOM = FILE_ROOM + 4096
};

uint64_t some_value(struct prng *r);

enum style {
    STYLE_ANY,          /* any kind by any process, refused ones too */
    STYLE_POLITE,       /* only entries that are taken */
    STYLE_BURSTS,       /* one process for some entries, then another */
    STYLE_SLOW_LOADERS, /* loads that lag behind a fast writer and reach step 5 */
    STYLE_FIGHT,        /* all load, then all store: one is done, the others are not */
    STYLE_USED_UP,      /* a small S, used up */
    STYLE_REFUSED,      /* every second entry is refused */
    STYLE_SEQUENTIAL,   /* whole calls, one after another */
    STYLE_SHORT,        /* a few overlapping calls, for the search of an order */
    STYLE_SHORT_STEP_5, /* the same, about a load that may reach step 5 */
    STYLE_NO_ENTRIES,
    STYLE_LARGEST,
    STYLES
};

enum defect {
    /* in a block, before its check is made */
    DEFECT_PROCESSES,     /* N 0, 17 or above */
    DEFECT_LAST,          /* S 0 or 1 */
    DEFECT_BLOCK_COUNT,   /* block 0 tells another number of blocks */
    DEFECT_HEAD_BYTE_3,
    DEFECT_HEAD_TAIL,     /* a byte of 18 to 509 */
    DEFECT_HEAD_TAILS,    /* several of them */
    DEFECT_COUNT_ABOVE,   /* a count of 43 or more */
    DEFECT_COUNT_OFF,     /* a count of 0 to 42, but not that of the entries */
    DEFECT_BLOCK_BYTE_3,
    DEFECT_KIND,          /* 0 or 5 and above */
    DEFECT_ENTRY_BYTES,   /* bytes 2 and 3 of an entry */
    DEFECT_ENTRY_VALUE,   /* bytes 4 to 11 of an entry that is no store */
    DEFECT_TAIL,          /* a byte after the last entry, up to 509 */
    DEFECT_PLACE,
    DEFECT_SWAPPED,       /* two blocks have changed places */
    DEFECT_ANY_BYTES,
    /* after the checks are made */
    DEFECT_CHECK,
    DEFECT_CHECK_ALIAS,   /* the check plus 65,521: equal as a remainder, not as a number */
    DEFECT_LATE_BYTE,     /* a byte changed under its check */
    /* of the file's length */
    DEFECT_BLOCK_LOST,
    DEFECT_BLOCK_ADDED,
    DEFECT_TOO_LONG,      /* 129 or 130 sound blocks */
    DEFECT_TRUNCATED,
    DEFECT_EXTENDED,
    DEFECT_NO_BYTES,
    /* of the lent log */
    DEFECT_LOG_SHORT,
    DEFECTS
};

const char *style_name(enum style style);
const char *defect_name(enum defect defect);

struct entry {
    uint8_t kind;
    uint8_t process;
    uint64_t value;
};

struct schedule {
    uint8_t processes; /* N */
    uint32_t last;     /* S */
    uint64_t value;    /* V */
    size_t entries;
    struct entry entry[MOST_ENTRIES];
};

/* A file with the length of the log to lend. */
struct sample {
    enum style style;
    uint32_t defects; /* one bit for each kind of defect */
    size_t length;
    size_t log_length;
    uint8_t bytes[FILE_ROOM];
};

void seal(uint8_t *block); /* makes the block's check right */
void schedule_fill(struct prng *r, struct schedule *s, enum style style, size_t limit);
size_t schedule_packed(const struct schedule *s, uint8_t *file); /* full blocks; gives the length */
void sample_sound(struct prng *r, struct sample *out);
void sample_make(struct prng *r, struct sample *out); /* sound or damaged */

#endif

/* Document 02's writer and lister of schedule files in plain C, in place. */
#ifndef RIG_TEXTS_H
#define RIG_TEXTS_H

#include "reference.h"

enum text_refusal { BAD_LINE = 25, TOO_MANY_ENTRIES = 26, OUTPUT_TOO_SHORT = 27 };

enum {
    LONGEST_HEADING = 37, /* H 16 4294967295 18446744073709551615 and its newline */
    LONGEST_LINE = 27,    /* S 255 18446744073709551615 */
    LONGEST_LISTING = LONGEST_HEADING + LONGEST_LINE * MOST_ENTRIES,
    LARGEST_FILE = BLOCKS * BLOCK
};

/* Number + 256 times a detail: the length written for 0, the line for 25, else 0. */
uint64_t reference_write(const uint8_t *text, size_t text_len, uint8_t *out, size_t out_len);

/* The same; for a refused file, what reference_run tells of it, 6 apart. */
uint64_t reference_list(const uint8_t *file, size_t file_len, uint8_t *out, size_t out_len);

#endif

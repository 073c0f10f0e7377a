/* Writes one text or lists one file with the reference and with the proved library, in guarded memory, and compares. */
#ifndef RIG_COMPARE_TEXTS_H
#define RIG_COMPARE_TEXTS_H

#include "lent.h"
#include "texts.h"

/* The proved two, from the archive. */
uint64_t reefcapstan_write(const uint8_t *text, size_t text_len, uint8_t *out, size_t out_len);
uint64_t reefcapstan_list(const uint8_t *file, size_t file_len, uint8_t *out, size_t out_len);

typedef uint64_t (*text_function)(const uint8_t *, size_t, uint8_t *, size_t);

enum task { WRITE, LIST };

struct job {
    enum task task;
    const uint8_t *in; /* not within the lent memory */
    size_t in_len;
    size_t out_len;
    enum standing in_stands;
    enum standing out_stands;
};

/* What one comparison gave. */
struct job_done {
    bool same;
    uint32_t number; /* what the reference returned */
    uint64_t detail;
    const uint8_t *out; /* the proved library's output, until the next comparison */
};

/* What a list told of a file that it refused. */
static inline uint32_t told_of(const struct job_done *d)
{
    return d->number + 256 * (uint32_t)d->detail;
}

text_function reference_of(enum task task);
text_function proved_of(enum task task);

void compare_texts_start(void); /* once, after lent_start */
struct job_done compare_job(const struct job *job, uint64_t index);

#endif

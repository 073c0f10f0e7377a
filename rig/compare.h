/* Plays one file with the reference and with the proved run, in guarded memory, and compares. */
#ifndef RIG_COMPARE_H
#define RIG_COMPARE_H

#include "lent.h"

/* The proved run, from the archive. */
uint32_t reefcapstan_run(const uint8_t *file, size_t file_len, uint8_t *log, size_t log_len);

/* What one comparison gave. */
struct compared {
    bool same;
    uint32_t told;      /* what the reference returned */
    const uint8_t *log; /* the reference's log */
};

void compare_start(uint64_t seed); /* once, before the first comparison */
struct compared compare(const uint8_t *file, size_t file_len, size_t log_len, enum standing standing, uint64_t index);

#endif

/* Does a log agree with itself about the word? */
#ifndef RIG_WORD_H
#define RIG_WORD_H

#include "system.h"

struct word_fault {
    const char *what; /* NULL if there is none */
    uint32_t place;   /* of the entry, or AT_HEAD */
};

#define AT_HEAD UINT32_MAX

/* The first fault in the log of an accepted file. Followed are the entries and their outcomes: they give the own steps of each call,
 * each process's link, which is the count of changes at its latest load's step 1, and the word's value and count of changes.
 *
 * A record's own steps are those of its call, and 0 for a request or a refused entry. A step has an outcome that its call can have
 * there. An answered load has mark 1 exactly if the word hasn't changed since its step 1, and then the word's value; answered by step 5
 * it has mark 2. Every other record has mark 0. A store passes step 8, and a check says yes, exactly if its process has a link and the
 * word hasn't changed since. The head has the count of changes. */
struct word_fault find_word_fault(const uint8_t *file, size_t file_len, const uint8_t *log);

#endif

/* Random and damaged texts, and files of the other generators, through the writers and the listers. */
#ifndef RIG_RUN_TEXTS_H
#define RIG_RUN_TEXTS_H

#include "system.h"

int run_texts(uint64_t seed, uint64_t count); /* prints; gives the exit status */

#endif

/* Runs and texts by hand for the machine with reused numbers, wrong machines that the atomic word must find, and wrong programs. */
#ifndef RIG_REUSE_SELFTEST_H
#define RIG_REUSE_SELFTEST_H

#include "reuse_typed.h"

int reuse_selftest(const char *self); /* `self` starts this program; prints; gives the exit status */

bool note(const char *name, bool good); /* prints one line of it and counts */

void test_runs_by_hand(void);

#endif

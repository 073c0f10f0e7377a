/* Document 01's own examples, typed from it, played by the reference and by the proved run; and hand-made faults and texts. */
#ifndef RIG_SELFTEST_H
#define RIG_SELFTEST_H

#include "system.h"

int selftest(void); /* prints; gives the exit status */

bool note(const char *name, bool good); /* prints one line of it and counts */

#endif

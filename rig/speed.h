/* The reference and the proved run side by side: time of a file. */
#ifndef RIG_SPEED_H
#define RIG_SPEED_H

#include "system.h"

enum { TIMES = 201 }; /* odd: the median is one of them */

double now(void);             /* nanoseconds */
double median(double *times); /* of TIMES; sorts them */

int speed(void); /* prints; the last lines are 'ratio small X.XX, reading X.XX' and 'ratio largest X.XX'; gives the exit status */

/* One largest file (slow loaders, N 16) so many times, by the reference or the proved run, and no more: for a counter of instructions. */
int plays(bool by_reference, uint64_t count);

#endif

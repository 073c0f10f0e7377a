/* A program and the rig's own filter side by side, each as a process: time of a text. */
#ifndef RIG_REUSE_SPEED_H
#define RIG_REUSE_SPEED_H

int reuse_speed(const char *self, const char *program); /* prints; the last line is 'ratio largest X.XX'; gives the exit status */

#endif

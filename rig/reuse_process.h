/* Runs a filter as a process of its own. */
#ifndef RIG_REUSE_PROCESS_H
#define RIG_REUSE_PROCESS_H

#include "reuse_text.h"

enum {
    PIECE_MOST = 4096, /* bytes that are written at once: a pipe that has room at all has room for so many */
    SECONDS_MOST = 60, /* a run that takes longer is ended */
    PARTS_MOST = 4,
    MESSAGE_MOST = 200 /* so much of standard error is kept */
};

/* A program and its arguments, ended by NULL. */
struct command {
    const char *part[PARTS_MOST + 1];
};

/* What a run gave. */
struct ran {
    bool ended;      /* it was started and ended by itself, with whatever status */
    size_t length;   /* of standard output; may be more than was kept */
    size_t messages; /* bytes on standard error */
    char message[MESSAGE_MOST];
    uint8_t output[OUTPUT_ROOM];
};

/* By pipes, the input in pieces of at most `piece` bytes. */
void run_by_pipes(const struct command *command, const uint8_t *input, size_t length, size_t piece, struct ran *ran);

/* A file that is gone when it is closed: -1 if it can't be made. */
int scratch_file(void);
bool write_whole(int file, const uint8_t *bytes, size_t length);
size_t read_whole(int file, uint8_t *bytes, size_t room); /* to the end, or until the room is full */
void rewind_file(int file);
void empty_file(int file);

/* From a file to a file; gives whether it was started and ended by itself. */
bool run_by_files(const struct command *command, int input, int output);

#endif

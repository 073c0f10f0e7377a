/* Texts for the machine with reused numbers: `H N M`, then `L p`, `S p bit`, `V p`, `T p`; and what is printed of them. */
#ifndef RIG_REUSE_TEXT_H
#define RIG_REUSE_TEXT_H

#include "reuse_machine.h"

enum reuse_refusal { REUSE_BAD_PROCESSES = 16, REUSE_BAD_MODULUS = 24, REUSE_BAD_LINE = 25 };

enum {
    TEXT_MOST = 1048576,          /* bytes of a text; a longer one isn't read */
    ENTRIES_MOST = TEXT_MOST / 4, /* as no line of an entry is shorter than `T 0` */
    OUTPUT_HEAD_MOST = 64,
    OUTPUT_LINE_MOST = 24, /* 262143 255 14 0 15 1 and its newline would take 21 */
    OUTPUT_ROOM = OUTPUT_HEAD_MOST + OUTPUT_LINE_MOST * ENTRIES_MOST
};

/* What a text tells. */
struct reuse_run {
    uint32_t processes; /* N */
    uint64_t modulus;   /* M */
    size_t entries;
    struct reuse_entry entry[ENTRIES_MOST];
};

/* Why a text is refused: number 0 if it isn't; the line with 25, else 0. */
struct refused {
    uint32_t number;
    size_t line;
};

/* A part of the room that was given for it. */
struct output {
    const uint8_t *bytes;
    size_t length;
};

/* Reads a text of at most TEXT_MOST bytes. */
struct refused reuse_read(const uint8_t *text, size_t text_len, struct reuse_run *run);

/* Plays a run on a machine that is started already. */
struct output reuse_print_run(struct reuse_machine *m, const struct reuse_run *run, uint8_t room[OUTPUT_ROOM]);
struct output reuse_print_refused(struct refused refused, uint8_t room[OUTPUT_ROOM]);

/* The whole filter: reads and plays by the right rules, or prints why not. */
struct output reuse_filter(const uint8_t *text, size_t text_len, struct reuse_run *run, uint8_t room[OUTPUT_ROOM]);

#endif

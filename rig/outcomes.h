/* Kinds of entries and what comes of an entry, as the documents number them. */
#ifndef RIG_OUTCOMES_H
#define RIG_OUTCOMES_H

enum kind { KIND_LOAD = 1, KIND_STORE = 2, KIND_CHECK = 3, KIND_STEP = 4 };

enum outcome {
    REQUEST_TAKEN = 0,
    STEP_TAKEN = 1,
    LOAD_ANSWERED = 2,
    STORE_DONE = 3,
    STORE_NOT_DONE = 4,
    CHECK_YES = 5,
    CHECK_NO = 6,
    NO_SUCH_PROCESS = 11,
    CALL_OPEN = 12,
    NUMBERS_USED_UP = 13,
    PROCESS_IDLE = 14
};

#endif

#include "compare.h"

#include "word.h"

static struct arena file_arena;
static struct arena own_arena;
static struct arena proved_arena;

void compare_start(uint64_t seed)
{
    lent_start(seed);
    file_arena = arena_make();
    own_arena = arena_make();
    proved_arena = arena_make();
}

static bool same_told(uint32_t own, uint32_t proved)
{
    char what[160];
    if (own == proved) {
        return true;
    }
    snprintf(what, sizeof what, "the numbers differ: reference %u block %u place %u, proved run %u block %u place %u",
             told_number(own), told_block(own), told_place(own), told_number(proved), told_block(proved), told_place(proved));
    return complain(what);
}

/* A refused file leaves the log as it was; said here apart from the comparison, as the reference might err too. */
static bool untouched_if_refused(uint32_t told, const struct lent *log, const uint8_t *before)
{
    return told == 0 || memcmp(log->bytes, before, log->length) == 0 || complain("a refused file changed the log");
}

/* What an accepted file's log tells of the word; said apart for the same reason. */
static bool word_holds(uint32_t told, const uint8_t *file, size_t file_len, const struct lent *log)
{
    char what[200];
    if (told != 0) {
        return true;
    }
    struct word_fault fault = find_word_fault(file, file_len, log->bytes);
    if (fault.what == NULL) {
        return true;
    }
    if (fault.place == AT_HEAD) {
        snprintf(what, sizeof what, "the reference's log, head: %s", fault.what);
    } else {
        snprintf(what, sizeof what, "the reference's log, entry %u: %s", fault.place, fault.what);
    }
    return complain(what);
}

static bool lent_parts_hold(const struct lent *file, const uint8_t *given, const struct lent *log)
{
    bool kept = memcmp(file->bytes, given, file->length) == 0 || complain("the file was changed");
    bool file_guards = guards_hold(file) || complain("a byte beside the file was changed");
    bool log_guards = guards_hold(log) || complain("a byte beside the log was changed");
    return kept && file_guards && log_guards;
}

struct compared compare(const uint8_t *file, size_t file_len, size_t log_len, enum standing standing, uint64_t index)
{
    at_work.index = index;
    at_work.input = file;
    at_work.input_len = file_len;
    struct lent lent_file = lend(file_arena, file_len, standing);
    struct lent own = lend(own_arena, log_len, standing);
    struct lent proved = lend(proved_arena, log_len, standing);
    const uint8_t *before = fill_bytes(index);
    memcpy(lent_file.bytes, file, file_len);
    memcpy(own.bytes, before, log_len);
    memcpy(proved.bytes, before, log_len);

    at_work.by = "the reference";
    uint32_t own_told = reference_run(lent_file.bytes, file_len, own.bytes, log_len);
    bool same = lent_parts_hold(&lent_file, file, &own);
    at_work.by = "the proved run";
    uint32_t proved_told = reefcapstan_run(lent_file.bytes, file_len, proved.bytes, log_len);
    same = lent_parts_hold(&lent_file, file, &proved) && same;
    at_work.by = "no one";

    same = same_told(own_told, proved_told) && same;
    same = same_bytes("logs", &own, &proved) && same;
    same = untouched_if_refused(own_told, &own, before) && same;
    same = word_holds(own_told, file, file_len, &own) && same;
    if (!same) {
        keep_file(file, file_len, index);
    }
    compared_same += same;
    return (struct compared){same, own_told, own.bytes};
}

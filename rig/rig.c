/* The rig: document 01's bench and document 02's writer and lister, written once more in plain C, against the exported functions.
 *
 *   rig SEED COUNT            random and damaged files
 *   rig --mutate SEED COUNT   hostile input of every length
 *   rig --texts SEED COUNT    random and damaged texts: the writer and the lister
 *   rig --speed               the two times side by side
 *   rig --plays COUNT         one largest file so many times, for a counter of instructions; --plays-c by the rig's own bench
 *   rig --selftest            document 01's own runs and lines, and hand-made faults and texts */
#include "mutate.h"
#include "order.h"
#include "run_texts.h"
#include "selftest.h"
#include "speed.h"
#include "tally.h"
#include "walk.h"

/* From so many files on, a kind of which there was none is a failure: the rig would not have looked where it says. */
enum { ENOUGH = 10000 };

static struct tally tally;
static struct sample sample;
static size_t failed;

/* Short histories of the reference's own log must have an order. */
static bool check_order(uint64_t index, const struct compared *c)
{
    struct history h;
    if (c->told != 0 || !history_read(&h, sample.bytes, sample.length, c->log) || h.calls == 0) {
        return true;
    }
    if (!order_exists(&h, BY_ANSWER) || !order_exists(&h, BY_DECISION)) {
        printf("FAILED: index %llu: the calls have no order\n", (unsigned long long)index);
        keep_file(sample.bytes, sample.length, index);
        return false;
    }
    bool unanswered = false;
    bool step_5 = false;
    for (size_t i = 0; i < h.calls; i++) {
        unanswered |= h.call[i].answered == NEVER;
        step_5 |= by_step_5(record_at(c->log, h.call[i].decided));
    }
    tally.row[ROW_HISTORIES]++;
    tally.row[ROW_HISTORY_CALLS] += h.calls;
    tally.row[ROW_HISTORIES_STEP_5] += step_5;
    tally.row[ROW_HISTORIES_UNANSWERED] += unanswered;
    return true;
}

static void compare_sample(struct prng *r, uint64_t index)
{
    enum standing standing = (enum standing)below(r, STANDINGS);
    struct compared c = compare(sample.bytes, sample.length, sample.log_length, standing, index);
    tally_result(&tally, sample.bytes, sample.length, sample.log_length, &c);
    bool ordered = check_order(index, &c);
    compared_same -= c.same && !ordered;
    failed += !(c.same && ordered);
}

static int last_line(void)
{
    printf("%zu passed, %zu failed\n", compared_same, failed);
    return failed > 0;
}

static int run_files(uint64_t seed, uint64_t count)
{
    compare_start(seed);
    for (uint64_t index = 0; index < count; index++) {
        struct prng r = prng_of(seed, index);
        sample_make(&r, &sample);
        tally_sample(&tally, &sample);
        compare_sample(&r, index);
    }
    printf("seed %llu:\n", (unsigned long long)seed);
    tally_print(&tally, true);
    failed += count >= ENOUGH ? tally_missing(&tally) : 0;
    return last_line();
}

static void print_mutations(const uint64_t *mutations)
{
    for (uint32_t i = 0; i < MUTATIONS; i++) {
        printf("  input: %-29s %12llu\n", mutation_name((enum mutation)i), (unsigned long long)mutations[i]);
    }
}

static int run_mutate(uint64_t seed, uint64_t count)
{
    static bool seen[FILE_ROOM + 1];
    uint64_t mutations[MUTATIONS] = {0};
    uint64_t lengths = 0;
    uint64_t bytes = 0;
    struct prng r = prng_of(seed, 0);
    compare_start(seed);
    for (uint64_t index = 0; index < count; index++) {
        mutations[mutate(&r, index, &sample)]++;
        compare_sample(&r, index);
        lengths += !seen[sample.length];
        seen[sample.length] = true;
        bytes += sample.length;
    }
    printf("seed %llu: %llu inputs of %llu lengths, %llu bytes\n", (unsigned long long)seed, (unsigned long long)count,
           (unsigned long long)lengths, (unsigned long long)bytes);
    print_mutations(mutations);
    tally_print(&tally, false);
    return last_line();
}

static int usage(void)
{
    printf("rig SEED COUNT | rig --mutate SEED COUNT | rig --texts SEED COUNT | rig --speed | rig --plays COUNT | rig --plays-c COUNT | "
           "rig --selftest\n");
    return 2;
}

static bool number(const char *text, uint64_t *to)
{
    char *end = NULL;
    *to = strtoull(text, &end, 10);
    return end != text && *end == 0;
}

int main(int argc, char **argv)
{
    uint64_t seed = 0;
    uint64_t count = 0;
    if (argc == 2 && strcmp(argv[1], "--selftest") == 0) {
        return selftest();
    }
    if (argc == 2 && strcmp(argv[1], "--speed") == 0) {
        return speed();
    }
    if (argc == 3 && strcmp(argv[1], "--plays") == 0 && number(argv[2], &count)) {
        return plays(false, count);
    }
    if (argc == 3 && strcmp(argv[1], "--plays-c") == 0 && number(argv[2], &count)) {
        return plays(true, count);
    }
    if (argc == 4 && strcmp(argv[1], "--mutate") == 0 && number(argv[2], &seed) && number(argv[3], &count)) {
        return run_mutate(seed, count);
    }
    if (argc == 4 && strcmp(argv[1], "--texts") == 0 && number(argv[2], &seed) && number(argv[3], &count)) {
        return run_texts(seed, count);
    }
    if (argc == 3 && number(argv[1], &seed) && number(argv[2], &count)) {
        return run_files(seed, count);
    }
    return usage();
}

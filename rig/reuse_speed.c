#include "reuse_speed.h"

#include "reuse_process.h"
#include "reuse_typed.h"

enum { ROUNDS = 15, SPEED_ENTRIES = 150000 };

struct times {
    double own; /* seconds of one run, the best of ROUNDS */
    double program;
};

/* Input and the two outputs. */
struct files {
    int text;
    int own;
    int program;
};

static struct typed text;
static uint8_t own_output[OUTPUT_ROOM];
static uint8_t its_output[OUTPUT_ROOM];

static double seconds(void)
{
    struct timespec t;
    clock_gettime(CLOCK_MONOTONIC, &t);
    return (double)t.tv_sec + (double)t.tv_nsec / 1e9;
}

static double time_once(const struct command *command, int input, int output)
{
    double start = seconds();
    if (!run_by_files(command, input, output)) {
        printf("FAILED: %s could not be started, or was ended by a signal\n", command->part[0]);
        exit(1);
    }
    return seconds() - start;
}

static void same_or_end(const struct files *files)
{
    rewind_file(files->own);
    rewind_file(files->program);
    size_t own_len = read_whole(files->own, own_output, sizeof own_output);
    size_t its_len = read_whole(files->program, its_output, sizeof its_output);
    if (own_len != its_len || memcmp(own_output, its_output, own_len) != 0) {
        printf("FAILED: the outputs differ\n");
        exit(1);
    }
}

static double smaller(double a, double b)
{
    return a < b ? a : b;
}

/* The two take turns, so that both meet the same weather. */
static struct times time_both(const struct command *own, const struct command *program, const struct files *files)
{
    struct times best = {1e9, 1e9};
    for (size_t i = 0; i < ROUNDS; i++) {
        best.own = smaller(best.own, time_once(own, files->text, files->own));
        best.program = smaller(best.program, time_once(program, files->text, files->program));
        same_or_end(files);
    }
    return best;
}

static void make_text(uint32_t processes, uint64_t modulus, size_t entries)
{
    struct prng r = prng_of(5, processes);
    struct reuse_rules rules = right_rules(processes, modulus);
    text.run.processes = processes;
    text.run.modulus = modulus;
    run_fill(&r, &text.run, RUN_POLITE, entries, &rules);
    type_run(&text);
}

static double per_second(size_t entries, double time)
{
    return (double)entries / time;
}

/* `start` is what a text of no entries takes. */
static double show(const struct times *t, const struct times *start)
{
    size_t entries = text.run.entries;
    double ratio = t->program / t->own;
    printf("  %7zu  %7zu  %2u  %10llu %10.3f %10.3f %12.0f %12.0f %8.2f", entries, text.length, text.run.processes,
           (unsigned long long)text.run.modulus, t->own * 1e3, t->program * 1e3, per_second(entries, t->own),
           per_second(entries, t->program), ratio);
    printf(entries > 0 ? " %10.2f\n" : "\n", (t->program - start->program) / (t->own - start->own));
    return ratio;
}

static struct times time_text(const struct command *own, const struct command *program, const struct files *files)
{
    empty_file(files->text);
    if (!write_whole(files->text, text.bytes, text.length)) {
        printf("FAILED: the text could not be written\n");
        exit(1);
    }
    return time_both(own, program, files);
}

int reuse_speed(const char *self, const char *program)
{
    static const uint32_t processes[] = {2, 16};
    const struct command own = {{self, "--play", NULL}};
    const struct command its = {{program, NULL}};
    struct files files = {scratch_file(), scratch_file(), scratch_file()};
    double worst = 0;
    printf("time of one run as a process, from a file to a file, the best of %d; ratio: the program to the rig's own C\n", ROUNDS);
    printf("  %7s  %7s  %2s  %10s %10s %10s %12s %12s %8s %10s\n", "entries", "text", "N", "M", "rig ms", "program ms", "rig 1/s",
           "program 1/s", "ratio", "less start");
    make_text(2, least_modulus(2), 0);
    struct times start = time_text(&own, &its, &files);
    show(&start, &start);
    for (size_t i = 0; i < sizeof processes / sizeof processes[0]; i++) {
        uint64_t moduli[] = {least_modulus(processes[i]), MOST_MODULUS};
        for (size_t k = 0; k < sizeof moduli / sizeof moduli[0]; k++) {
            make_text(processes[i], moduli[k], SPEED_ENTRIES);
            struct times t = time_text(&own, &its, &files);
            double ratio = show(&t, &start);
            worst = ratio > worst ? ratio : worst;
        }
    }
    printf("ratio largest %.2f\n", worst);
    return 0;
}

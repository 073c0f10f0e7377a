#include "speed.h"

#include "compare.h"
#include "speed_texts.h"

typedef uint32_t (*run_function)(const uint8_t *, size_t, uint8_t *, size_t);

struct timed {
    double reference; /* nanoseconds of one file, median */
    double proved;
};

static struct schedule schedule;
static uint8_t file[FILE_ROOM];
static uint8_t log_bytes[LOG_ROOM];

double now(void)
{
    struct timespec t;
    clock_gettime(CLOCK_MONOTONIC, &t);
    return (double)t.tv_sec * 1e9 + (double)t.tv_nsec;
}

static int by_size(const void *a, const void *b)
{
    double x = *(const double *)a;
    double y = *(const double *)b;
    return (x > y) - (x < y);
}

/* A small file is played many times between two looks at the clock, as one play is too short to be measured. */
static double time_once(run_function run, size_t length, size_t log_len, size_t repeat)
{
    uint32_t expected = log_len == 0 ? LOG_TOO_SHORT : 0;
    double start = now();
    for (size_t i = 0; i < repeat; i++) {
        if (run(file, length, log_bytes, log_len) != expected) {
            printf("FAILED: not the number that was expected\n");
            exit(1);
        }
    }
    return (now() - start) / (double)repeat;
}

double median(double *times)
{
    qsort(times, TIMES, sizeof times[0], by_size);
    return times[TIMES / 2];
}

/* The two take turns, so that both meet the same weather. */
static struct timed time_both(size_t length, size_t log_len, size_t entries)
{
    static double reference[TIMES];
    static double proved[TIMES];
    size_t repeat = 1 + 20000 / (entries + 20);
    for (size_t i = 0; i < TIMES; i++) {
        reference[i] = time_once(reference_run, length, log_len, repeat);
        proved[i] = time_once(reefcapstan_run, length, log_len, repeat);
    }
    return (struct timed){median(reference), median(proved)};
}

/* Makes the file, and gives its length. */
static size_t file_of(uint8_t processes, enum style style, size_t entries)
{
    struct prng r = prng_of(5, entries);
    schedule.processes = processes;
    schedule.last = UINT32_MAX;
    schedule.value = 7;
    schedule_fill(&r, &schedule, style, entries);
    return schedule_packed(&schedule, file);
}

static struct timed time_schedule(uint8_t processes, enum style style, size_t entries, size_t log_len)
{
    return time_both(file_of(processes, style, entries), log_len, entries);
}

static double ratio(struct timed t)
{
    return t.proved / t.reference;
}

static double larger(double a, double b)
{
    return a > b ? a : b;
}

static double show_timed(uint8_t processes, enum style style, size_t entries, struct timed t)
{
    printf("  %7zu  %3u  %-26s %12.0f %12.0f %9.2f %9.2f %8.2f\n", entries, processes, style_name(style), t.reference,
           t.proved, t.reference / (double)entries, t.proved / (double)entries, ratio(t));
    return ratio(t);
}

static double show(uint8_t processes, enum style style, size_t entries)
{
    return show_timed(processes, style, entries, time_schedule(processes, style, entries, sizeof log_bytes));
}

static void show_titles(const char *what)
{
    printf("%s\n  %7s  %3s  %-26s %12s %12s %9s %9s %8s\n", what, "entries", "N", "style", "reference ns", "proved ns",
           "ns/entry", "ns/entry", "ratio");
}

static double show_largest(void)
{
    static const enum style styles[] = {STYLE_POLITE, STYLE_ANY, STYLE_SLOW_LOADERS, STYLE_SEQUENTIAL};
    double worst = 0;
    show_titles("largest files (128 blocks):");
    for (size_t i = 0; i < sizeof styles / sizeof styles[0]; i++) {
        worst = larger(worst, show(16, styles[i], MOST_ENTRIES));
        worst = larger(worst, show(2, styles[i], MOST_ENTRIES));
    }
    return worst;
}

static double show_small(void)
{
    static const size_t entries[] = {11, 42};
    double worst = 0;
    show_titles("small files:");
    for (size_t i = 0; i < sizeof entries / sizeof entries[0]; i++) {
        worst = larger(worst, show(2, STYLE_POLITE, entries[i]));
        worst = larger(worst, show(16, STYLE_POLITE, entries[i]));
    }
    return worst;
}

/* With no log a file is read to its end and then refused by 6: reading without playing. */
static double show_reading(void)
{
    show_titles("largest file, reading alone (no log lent, refused 6):");
    return show_timed(16, STYLE_POLITE, MOST_ENTRIES, time_schedule(16, STYLE_POLITE, MOST_ENTRIES, 0));
}

static void show_growth(void)
{
    static const size_t entries[] = {42, 420, 1260, 2520, MOST_ENTRIES};
    static const uint8_t processes[] = {1, 2, 4, 8, 16};
    show_titles("growth with the entries:");
    for (size_t i = 0; i < sizeof entries / sizeof entries[0]; i++) {
        show(4, STYLE_POLITE, entries[i]);
    }
    show_titles("growth with N:");
    for (size_t i = 0; i < sizeof processes; i++) {
        show(processes[i], STYLE_POLITE, MOST_ENTRIES);
    }
}

int speed(void)
{
    printf("time of one file, median of %d; ratio: proved run to reference\n", TIMES);
    double small = show_small();
    show_growth();
    double reading = show_reading();
    speed_texts();
    double largest = show_largest();
    /* The worst of each. */
    printf("ratio small %.2f, reading %.2f\nratio largest %.2f\n", small, reading, largest);
    return 0;
}

int plays(bool by_reference, uint64_t count)
{
    size_t length = file_of(16, STYLE_SLOW_LOADERS, MOST_ENTRIES);
    time_once(by_reference ? reference_run : reefcapstan_run, length, sizeof log_bytes, (size_t)count);
    return 0;
}

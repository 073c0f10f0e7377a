#include "speed_texts.h"

#include "compare_texts.h"
#include "speed.h"

/* What the lines of a text are like. */
enum lines { LINES_SHORT, LINES_LONG, LINES_MIXED, LINES_OF_RUN, LINES_KINDS };

static const char *const lines_names[LINES_KINDS] = {"T p", "S p value of 20 digits", "all kinds", "a polite run"};

struct timed_text {
    size_t entries;
    size_t text_len;
    double reference; /* nanoseconds of one call, median */
    double proved;
};

static struct schedule schedule;
static uint8_t text[LONGEST_LISTING];
static uint8_t file[LARGEST_FILE];
static uint8_t out[LONGEST_LISTING];

static struct entry some_entry(struct prng *r, enum lines lines)
{
    uint8_t process = (uint8_t)below(r, 16);
    uint64_t long_value = UINT64_MAX - below(r, 1000000);
    switch (lines) {
    case LINES_SHORT: return (struct entry){KIND_STEP, process, 0};
    case LINES_LONG: return (struct entry){KIND_STORE, process, long_value};
    default: break;
    }
    uint8_t kind = (uint8_t)between(r, KIND_LOAD, KIND_STEP);
    return (struct entry){kind, process, kind == KIND_STORE ? prng_next(r) >> below(r, 64) : 0};
}

static void fill_schedule(enum lines lines, size_t entries)
{
    struct prng r = prng_of(5, entries);
    schedule.processes = 16;
    schedule.last = UINT32_MAX;
    schedule.value = 7;
    if (lines == LINES_OF_RUN) {
        schedule_fill(&r, &schedule, STYLE_POLITE, entries);
        return;
    }
    schedule.entries = entries;
    for (size_t i = 0; i < entries; i++) {
        schedule.entry[i] = some_entry(&r, lines);
    }
}

static double time_once(text_function call, const uint8_t *in, size_t in_len, uint64_t expected, size_t repeat)
{
    double start = now();
    for (size_t i = 0; i < repeat; i++) {
        if (call(in, in_len, out, sizeof out) != expected) {
            printf("FAILED: not the answer that was expected\n");
            exit(1);
        }
    }
    return (now() - start) / (double)repeat;
}

/* The two take turns, so that both meet the same weather. */
static void time_both(enum task task, const uint8_t *in, size_t in_len, uint64_t expected, struct timed_text *t)
{
    static double reference[TIMES];
    static double proved[TIMES];
    size_t repeat = 1 + 20000 / (t->entries + 20);
    for (size_t i = 0; i < TIMES; i++) {
        reference[i] = time_once(reference_of(task), in, in_len, expected, repeat);
        proved[i] = time_once(proved_of(task), in, in_len, expected, repeat);
    }
    t->reference = median(reference);
    t->proved = median(proved);
}

static struct timed_text time_lines(enum task task, enum lines lines, size_t entries)
{
    fill_schedule(lines, entries);
    size_t file_len = schedule_packed(&schedule, file);
    uint64_t listed = reference_list(file, file_len, text, sizeof text);
    struct timed_text t = {schedule.entries, (size_t)(listed / 256), 0, 0};
    if (task == WRITE) {
        time_both(WRITE, text, t.text_len, 256 * (uint64_t)file_len, &t);
    } else {
        time_both(LIST, file, file_len, listed, &t);
    }
    return t;
}

static double show(enum task task, enum lines lines, size_t entries)
{
    struct timed_text t = time_lines(task, lines, entries);
    double ratio = t.proved / t.reference;
    printf("  %7zu  %7zu  %-22s %12.0f %12.0f %9.2f %9.2f %8.2f\n", t.entries, t.text_len, lines_names[lines], t.reference,
           t.proved, t.reference / (double)t.entries, t.proved / (double)t.entries, ratio);
    return ratio;
}

static double show_task(enum task task)
{
    double worst = 0;
    printf("%s:\n  %7s  %7s  %-22s %12s %12s %9s %9s %8s\n", task == WRITE ? "writing a text" : "listing a file", "entries",
           "text", "lines", "reference ns", "proved ns", "ns/entry", "ns/entry", "ratio");
    show(task, LINES_OF_RUN, 11);
    show(task, LINES_OF_RUN, BLOCK_ENTRIES);
    for (uint32_t lines = 0; lines < LINES_KINDS; lines++) {
        double ratio = show(task, (enum lines)lines, MOST_ENTRIES);
        worst = ratio > worst ? ratio : worst;
    }
    return worst;
}

void speed_texts(void)
{
    double writing = show_task(WRITE);
    double listing = show_task(LIST);
    /* The worst of the largest texts. */
    printf("ratio writing %.2f, listing %.2f\n", writing, listing);
}

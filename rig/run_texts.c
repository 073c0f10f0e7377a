#include "run_texts.h"

#include "mutate.h"
#include "tally_texts.h"
#include "walk.h"

/* From so many texts on, a kind of which there was none is a failure. */
enum { ENOUGH_TEXTS = 2000 };

static struct text_tally tally;
static struct text text;
static struct sample sample;
static size_t failed;

static uint8_t written[FILE_ROOM];
static uint8_t listing[LONGEST_LISTING];
static uint8_t packed[LARGEST_FILE];

static bool count(bool good)
{
    compared_same += good;
    failed += !good;
    return good;
}

/* A check that stands for itself beside a comparison. */
static void check(bool good, const char *what)
{
    if (!count(good)) {
        complain(what);
        keep_file(at_work.input, at_work.input_len, at_work.index);
    }
}

static struct job_done do_job(struct prng *r, struct job *job, uint64_t index)
{
    job->in_stands = (enum standing)below(r, STANDINGS);
    job->out_stands = (enum standing)below(r, STANDINGS);
    struct job_done d = compare_job(job, index);
    count(d.same);
    return d;
}

/* The same start and entries, however packed. */
static bool same_schedule(const uint8_t *a, size_t a_len, const uint8_t *b, size_t b_len)
{
    struct walk in_a = walk_of(a, a_len);
    struct walk in_b = walk_of(b, b_len);
    const uint8_t *of_a;
    const uint8_t *of_b;
    do {
        of_a = next_entry(&in_a);
        of_b = next_entry(&in_b);
        if ((of_a == NULL) != (of_b == NULL) || (of_a != NULL && memcmp(of_a, of_b, ENTRY) != 0)) {
            return false;
        }
    } while (of_a != NULL);
    return memcmp(a + 2, b + 2, 14) == 0;
}

/* From the listing back to a file: the same schedule, and the same bytes if the file was packed. */
static void write_back(struct prng *r, const uint8_t *file, size_t file_len, size_t listing_len, bool was_packed)
{
    struct job job = {WRITE, listing, listing_len, file_len + below(r, 2) * below(r, 600), STAND_MIDDLE, STAND_MIDDLE};
    struct job_done d = do_job(r, &job, at_work.index);
    if (!d.same) {
        return;
    }
    bool good = d.number == 0 && same_schedule(file, file_len, d.out, (size_t)d.detail);
    check(good, "what was listed is not written back with the same start and entries");
    bool equal = good && d.detail == file_len && memcmp(file, d.out, file_len) == 0;
    check(equal || !was_packed, "what was listed is not written back with the same bytes");
    tally.row[LIST_OTHER_PACKING] += good && !equal;
}

static size_t some_list_length(struct prng *r, size_t need)
{
    switch (below(r, 10)) {
    case 0: return need - 1;
    case 1: return below(r, (uint32_t)need);
    case 2: return need - 1 - below(r, 8);
    case 3: return 0;
    case 4: return need + between(r, 1, 30);
    case 5: return need + below(r, 3000);
    default: return need;
    }
}

/* Lists a file that is not in lent memory; its listing, if any, stays in `listing`. Gives whether there is one. */
static bool list_file(struct prng *r, const uint8_t *file, size_t file_len, size_t *listing_len, uint64_t index)
{
    uint64_t answer = reference_list(file, file_len, listing, sizeof listing);
    size_t need = answer % 256 == 0 ? (size_t)(answer / 256) : 400;
    struct job job = {LIST, file, file_len, some_list_length(r, need), STAND_MIDDLE, STAND_MIDDLE};
    struct job_done d = do_job(r, &job, index);
    tally_list(&tally, &job, &d);
    if (d.number == OUTPUT_TOO_SHORT) {
        job.out_len = need;
        d = do_job(r, &job, index);
        tally_list(&tally, &job, &d);
    }
    if (d.number == 0 && d.same) {
        *listing_len = (size_t)d.detail;
        memcpy(listing, d.out, *listing_len);
    }
    return d.number == 0 && d.same;
}

/* A text in the form can be typed in one way only, so the listing must be the text. */
static void list_written(struct prng *r, size_t length, uint64_t index)
{
    size_t listing_len = 0;
    if (list_file(r, written, length, &listing_len, index)) {
        check(listing_len == text.length && memcmp(listing, text.bytes, text.length) == 0,
              "the written file's listing is not the text");
        write_back(r, written, length, listing_len, true);
    }
}

/* What was typed without a fault is known entry by entry. */
static void check_packed(size_t length)
{
    if ((text.faults & ~(UINT64_C(1) << FAULT_SHORT_OUTPUT)) == 0) {
        size_t need = schedule_packed(&text.schedule, packed);
        check(length == need && memcmp(written, packed, need) == 0, "the written file is not the typed schedule");
    }
}

static void run_text(struct prng *r, uint64_t index)
{
    text_make(r, index, &text);
    struct job job = {WRITE, text.bytes, text.length, text.out_length, STAND_MIDDLE, STAND_MIDDLE};
    struct job_done d = do_job(r, &job, index);
    tally_text(&tally, &text, &d);
    if (d.number == 0 && d.same) {
        memcpy(written, d.out, (size_t)d.detail);
        check_packed((size_t)d.detail);
        list_written(r, (size_t)d.detail, index);
    }
}

/* A file of the other generators, every second one hostile. */
static void run_file(struct prng *r, struct prng *hostile, uint64_t index)
{
    size_t listing_len = 0;
    if (index % 2 == 0) {
        sample_make(r, &sample);
    } else {
        mutate(hostile, index / 2, &sample);
    }
    if (list_file(r, sample.bytes, sample.length, &listing_len, index)) {
        write_back(r, sample.bytes, sample.length, listing_len, false);
    }
}

/* Every change, insertion and loss of one byte, in small texts with all five kinds of lines; the second at the edges. */

static void run_edit(const char *from, size_t length, size_t at, uint32_t byte, size_t gone)
{
    uint8_t edited[200];
    size_t put = byte < 256;
    memcpy(edited, from, at);
    edited[at] = (uint8_t)byte;
    memcpy(edited + at + put, from + at + gone, length - at - gone);
    struct job job = {WRITE, edited, length + put - gone, 2 * BLOCK, STAND_MIDDLE, STAND_AT_END};
    job.in_stands = (enum standing)(tally.edits % STANDINGS);
    count(compare_job(&job, tally.edits++).same);
}

static void run_edits(const char *from)
{
    size_t length = strlen(from);
    for (size_t at = 0; at <= length; at++) {
        for (uint32_t byte = 0; byte < 256; byte++) {
            run_edit(from, length, at, byte, 0);
            if (at < length) {
                run_edit(from, length, at, byte, 1);
            }
        }
        if (at < length) {
            run_edit(from, length, at, 256, 1);
        }
    }
}

int run_texts(uint64_t seed, uint64_t texts)
{
    struct prng hostile = prng_of(seed, UINT64_MAX - 1);
    lent_start(seed);
    compare_texts_start();
    run_edits("H 2 9 7\nL 1\nS 1 40\nV 0\nT 1\n");
    run_edits("H 16 4294967295 18446744073709551615\nS 255 18446744073709551615\nL 255\nV 10\nT 0\nS 0 0\n");
    for (uint64_t index = 0; index < texts; index++) {
        struct prng r = prng_of(seed, index);
        run_text(&r, index);
        run_file(&r, &hostile, index);
    }
    printf("seed %llu:\n", (unsigned long long)seed);
    text_tally_print(&tally);
    failed += texts >= ENOUGH_TEXTS ? text_tally_missing(&tally) : 0;
    printf("%zu passed, %zu failed\n", compared_same, failed);
    return failed > 0;
}

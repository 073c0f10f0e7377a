#include "compare_texts.h"

static struct arena in_arena;
static struct arena own_arena;
static struct arena proved_arena;

text_function reference_of(enum task task)
{
    return task == WRITE ? reference_write : reference_list;
}

text_function proved_of(enum task task)
{
    return task == WRITE ? reefcapstan_write : reefcapstan_list;
}

void compare_texts_start(void)
{
    in_arena = arena_make();
    own_arena = arena_make();
    proved_arena = arena_make();
}

static bool same_answers(uint64_t own, uint64_t proved)
{
    char what[200];
    if (own == proved) {
        return true;
    }
    snprintf(what, sizeof what, "the answers differ: reference %llu detail %llu, proved library %llu detail %llu",
             (unsigned long long)(own % 256), (unsigned long long)(own / 256), (unsigned long long)(proved % 256),
             (unsigned long long)(proved / 256));
    return complain(what);
}

/* After a refusal, and past what is written, the output keeps its bytes; said here apart from the comparison, as the
 * reference might err too. */
static bool rest_untouched(uint64_t answer, const struct lent *out, const uint8_t *before)
{
    uint64_t written = answer % 256 == 0 ? answer / 256 : 0;
    if (written > out->length) {
        return complain("more is written than was lent");
    }
    return memcmp(out->bytes + written, before + written, out->length - (size_t)written) == 0 ||
           complain("a byte that had to stay was changed");
}

static bool parts_hold(const struct lent *in, const uint8_t *given, const struct lent *out)
{
    bool kept = memcmp(in->bytes, given, in->length) == 0 || complain("the input was changed");
    bool in_guards = guards_hold(in) || complain("a byte beside the input was changed");
    bool out_guards = guards_hold(out) || complain("a byte beside the output was changed");
    return kept && in_guards && out_guards;
}

static void on_job(const struct job *job, uint64_t index)
{
    at_work.index = index;
    at_work.input = job->in;
    at_work.input_len = job->in_len;
}

struct job_done compare_job(const struct job *job, uint64_t index)
{
    on_job(job, index);
    struct lent in = lend(in_arena, job->in_len, job->in_stands);
    struct lent own = lend(own_arena, job->out_len, job->out_stands);
    struct lent proved = lend(proved_arena, job->out_len, job->out_stands);
    const uint8_t *before = fill_bytes(index);
    memcpy(in.bytes, job->in, job->in_len);
    memcpy(own.bytes, before, job->out_len);
    memcpy(proved.bytes, before, job->out_len);

    at_work.by = job->task == WRITE ? "the reference's writer" : "the reference's lister";
    uint64_t own_answer = reference_of(job->task)(in.bytes, in.length, own.bytes, own.length);
    bool same = parts_hold(&in, job->in, &own);
    at_work.by = job->task == WRITE ? "the proved writer" : "the proved lister";
    uint64_t proved_answer = proved_of(job->task)(in.bytes, in.length, proved.bytes, proved.length);
    same = parts_hold(&in, job->in, &proved) && same;
    at_work.by = "no one";

    same = same_answers(own_answer, proved_answer) && same;
    same = same_bytes("outputs", &own, &proved) && same;
    same = rest_untouched(own_answer, &own, before) && same;
    if (!same) {
        keep_file(job->in, job->in_len, index);
    }
    return (struct job_done){same, (uint32_t)(own_answer % 256), own_answer / 256, proved.bytes};
}

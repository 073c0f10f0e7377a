/* The rig for the machine with reused numbers: document 02's P9 in plain C, against a program that reads a text and prints what comes of
 * it.
 *
 *   reuse_rig PROGRAM SEED COUNT   runs, good and refused texts: the program's output against the rig's own
 *   reuse_rig --selftest           runs by hand, wrong machines and wrong programs
 *   reuse_rig --speed PROGRAM      the two times side by side
 *   reuse_rig --play               the rig's own filter, from standard input to standard output
 *
 * PROGRAM is a plain filter. Its exit status says nothing. Of a text that is longer than 1,048,576 bytes it prints nothing, and says so on
 * standard error; of any other, it says nothing there. */
#include "reuse_compare.h"
#include "reuse_selftest.h"
#include "reuse_speed.h"

static struct typed text;
static struct reuse_tally tally;

/* Pieces of any size, but of a long text not too many. */
static size_t some_piece(struct prng *r, size_t length)
{
    if (length > 20000) {
        return between(r, 1000, PIECE_MOST);
    }
    return chance(r, 1, 2) ? (size_t)PIECE_MOST : between(r, 1, 100);
}

static int run_texts(const char *program, uint64_t seed, uint64_t count)
{
    const struct command command = {{program, NULL}};
    size_t passed = 0;
    size_t failed = 0;
    for (uint64_t index = 0; index < count; index++) {
        struct prng r = prng_of(seed, index);
        typed_make(&r, index, &text);
        struct comparison c = {&command, seed, index, some_piece(&r, text.length), false};
        bool good = compare_typed(&c, &text, &tally);
        passed += good;
        failed += !good;
    }
    printf("seed %llu:\n", (unsigned long long)seed);
    tally_print(&tally);
    failed += count >= TYPED_ROUND ? tally_missing(&tally) : 0;
    printf("%zu passed, %zu failed\n", passed, failed);
    return failed > 0;
}

static int play(void)
{
    static struct reuse_run run;
    static uint8_t bytes[TEXT_MOST + 1];
    static uint8_t room[OUTPUT_ROOM];
    static const char too_long[] = "the text is longer than 1048576 bytes\n";
    size_t length = read_whole(0, bytes, sizeof bytes);
    if (length > TEXT_MOST) {
        write_whole(2, (const uint8_t *)too_long, sizeof too_long - 1);
        return 0;
    }
    struct output output = reuse_filter(bytes, length, &run, room);
    return write_whole(1, output.bytes, output.length) ? 0 : 2;
}

static int usage(void)
{
    printf("reuse_rig PROGRAM SEED COUNT | reuse_rig --selftest | reuse_rig --speed PROGRAM | reuse_rig --play\n");
    return 2;
}

static bool number(const char *digits, uint64_t *to)
{
    char *end = NULL;
    *to = strtoull(digits, &end, 10);
    return end != digits && *end == 0;
}

int main(int argc, char **argv)
{
    uint64_t seed = 0;
    uint64_t count = 0;
    if (argc == 2 && strcmp(argv[1], "--play") == 0) {
        return play();
    }
    if (argc == 2 && strcmp(argv[1], "--selftest") == 0) {
        return reuse_selftest(argv[0]);
    }
    if (argc == 3 && strcmp(argv[1], "--speed") == 0) {
        return reuse_speed(argv[0], argv[2]);
    }
    if (argc == 4 && number(argv[2], &seed) && number(argv[3], &count)) {
        return run_texts(argv[1], seed, count);
    }
    return usage();
}

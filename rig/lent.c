#include "lent.h"

#ifndef KEEP_IN
#define KEEP_IN "/tmp"
#endif

enum { MOST_KEPT = 10, MOST_SAID = 40 }; /* a bench that is wrong throughout would fill disk and screen */

/* Known bytes to guard with and to fill outputs with before a run. */
static uint8_t guard_bytes[GUARD];
static uint8_t fill[2 * ARENA];

struct at_work at_work = {0, 0, "no one", NULL, 0};
size_t compared_same;

void keep_file(const uint8_t *file, size_t file_len, uint64_t index)
{
    static uint32_t kept;
    char name[200];
    if (kept++ >= MOST_KEPT) {
        return;
    }
    snprintf(name, sizeof name, KEEP_IN "/rig-fail-%llu.bin", (unsigned long long)index);
    FILE *out = fopen(name, "wb");
    if (out != NULL) {
        fwrite(file, 1, file_len, out);
        fclose(out);
        printf("  the file is kept in %s\n", name);
    }
}

/* The bytes beside an arena were reached: nothing to do but say so and end. */
static void on_fault(int signal_number)
{
    printf("FAILED: seed %llu index %llu: memory outside the lent parts reached by %s (signal %d)\n",
           (unsigned long long)at_work.seed, (unsigned long long)at_work.index, at_work.by, signal_number);
    keep_file(at_work.input, at_work.input_len, at_work.index);
    printf("%zu passed, 1 failed\n", compared_same);
    fflush(stdout);
    _Exit(1);
}

/* Pages for the lent bytes between two that can be neither read nor written. */
struct arena arena_make(void)
{
    uint8_t *all = mmap(NULL, ARENA + 2 * PAGE, PROT_READ | PROT_WRITE, MAP_PRIVATE | MAP_ANONYMOUS, -1, 0);
    if (all == MAP_FAILED || mprotect(all, PAGE, PROT_NONE) != 0 ||
        mprotect(all + PAGE + ARENA, PAGE, PROT_NONE) != 0) {
        printf("no memory\n0 passed, 1 failed\n");
        exit(1);
    }
    return (struct arena){all + PAGE};
}

void lent_start(uint64_t seed)
{
    struct prng r = prng_of(seed, UINT64_MAX);
    at_work.seed = seed;
    for (size_t i = 0; i < GUARD; i++) {
        guard_bytes[i] = (uint8_t)prng_next(&r);
    }
    for (size_t i = 0; i < sizeof fill; i++) {
        fill[i] = (uint8_t)prng_next(&r);
    }
    signal(SIGSEGV, on_fault);
    signal(SIGBUS, on_fault);
}

const uint8_t *fill_bytes(uint64_t index)
{
    return fill + index * 31 % ARENA;
}

struct lent lend(struct arena arena, size_t length, enum standing standing)
{
    size_t from = standing == STAND_AT_START ? 0 : standing == STAND_AT_END ? ARENA - length : GUARD;
    struct lent l = {arena.base + from, length, 0, 0};
    l.before = standing == STAND_AT_START ? 0 : GUARD;
    l.after = standing == STAND_AT_END ? 0 : GUARD;
    memcpy(l.bytes - l.before, guard_bytes, l.before);
    memcpy(l.bytes + l.length, guard_bytes, l.after);
    return l;
}

bool guards_hold(const struct lent *l)
{
    return memcmp(l->bytes - l->before, guard_bytes, l->before) == 0 &&
           memcmp(l->bytes + l->length, guard_bytes, l->after) == 0;
}

bool complain(const char *what)
{
    static uint32_t said;
    if (said++ < MOST_SAID) {
        printf("FAILED: seed %llu index %llu: %s\n", (unsigned long long)at_work.seed, (unsigned long long)at_work.index,
               what);
    }
    return false;
}

bool same_bytes(const char *which, const struct lent *own, const struct lent *proved)
{
    char what[160];
    size_t i = 0;
    if (memcmp(own->bytes, proved->bytes, own->length) == 0) {
        return true;
    }
    while (own->bytes[i] == proved->bytes[i]) {
        i++;
    }
    snprintf(what, sizeof what, "the %s differ, first at byte %zu of %zu: reference %u, proved library %u", which, i, own->length,
             own->bytes[i], proved->bytes[i]);
    return complain(what);
}

#include "mutate.h"

enum { BASES = 64, BASE_LIFE = 4096 };

static struct sample bases[BASES]; /* sound files to start from, made anew now and then */
static uint8_t noise[2 * FILE_ROOM];

static void renew_bases(struct prng *r)
{
    for (size_t i = 0; i < BASES; i++) {
        sample_sound(r, &bases[i]);
    }
    for (size_t i = 0; i < sizeof noise; i++) {
        noise[i] = (uint8_t)prng_next(r);
    }
}

static void copy_noise(struct prng *r, uint8_t *to, size_t length)
{
    memcpy(to, noise + below(r, FILE_ROOM), length);
}

/* A sound file cut to the length, or filled up to it: with noise, zeros, or its own bytes once more. */
static void fit(struct prng *r, struct sample *out, size_t length)
{
    size_t have = out->length;
    if (length > have) {
        switch (below(r, 3)) {
        case 0: copy_noise(r, out->bytes + have, length - have); break;
        case 1: memset(out->bytes + have, 0, length - have); break;
        default:
            for (size_t i = have; i < length; i++) {
                out->bytes[i] = out->bytes[i - have];
            }
        }
    }
    out->length = length;
}

static void flip_byte(struct prng *r, struct sample *out, uint32_t at)
{
    if (at < out->length) {
        out->bytes[at] = chance(r, 1, 2) ? (uint8_t)prng_next(r) : (uint8_t)(out->bytes[at] ^ 1u << below(r, 8));
    }
}

static void flip(struct prng *r, struct sample *out)
{
    for (uint32_t left = between(r, 1, 8); left > 0 && out->length > 0; left--) {
        uint32_t at = below(r, (uint32_t)out->length);
        if (chance(r, 1, 3)) {
            at -= at % BLOCK; /* the first bytes of a block say most */
            at += below(r, 20);
        }
        flip_byte(r, out, at);
    }
}

/* Block 0 alone, with its check made right: N, S, V, the block count and what must be zero. As a changed byte seldom makes S too
 * small, some of the bytes about it are cleared now and then. */
static void flip_head(struct prng *r, struct sample *out)
{
    if (out->length < BLOCK) {
        return;
    }
    if (chance(r, 1, 3)) {
        memset(out->bytes + between(r, 2, 8), 0, between(r, 1, 8));
    }
    for (uint32_t left = below(r, 5); left > 0; left--) {
        flip_byte(r, out, between(r, 2, chance(r, 1, 2) ? 19 : BLOCK_CHECK - 1));
    }
    seal(out->bytes);
}

/* Makes the whole blocks look right from outside, so that the bytes within are read. */
static void seal_all(struct prng *r, struct sample *out)
{
    size_t blocks = out->length / BLOCK;
    bool places = chance(r, 1, 2);
    for (size_t b = 0; b < blocks; b++) {
        if (places) {
            put16(out->bytes + BLOCK * b, (uint32_t)b);
        }
        seal(out->bytes + BLOCK * b);
    }
}

/* A stretch of another sound file over this one. */
static void splice(struct prng *r, struct sample *out)
{
    const struct sample *other = &bases[below(r, BASES)];
    size_t most = other->length < out->length ? other->length : out->length;
    if (most > 0) {
        size_t from = below(r, (uint32_t)most);
        memcpy(out->bytes + from, other->bytes + from, below(r, (uint32_t)(most - from)) + 1);
    }
}

static void apply(struct prng *r, struct sample *out, enum mutation mutation)
{
    switch (mutation) {
    case MUTATION_RANDOM: copy_noise(r, out->bytes, out->length); break;
    case MUTATION_FLIPPED: flip(r, out); break;
    case MUTATION_SEALED:
        flip(r, out);
        seal_all(r, out);
        break;
    case MUTATION_HEAD: flip_head(r, out); break;
    case MUTATION_SPLICED:
        splice(r, out);
        if (chance(r, 1, 2)) {
            seal_all(r, out);
        }
        break;
    default: break;
    }
}

static void take_base(struct prng *r, struct sample *out)
{
    const struct sample *base = &bases[below(r, BASES)];
    memcpy(out->bytes, base->bytes, base->length);
    out->length = base->length;
    out->log_length = base->log_length;
    out->defects = 0;
    out->style = base->style;
}

static size_t walked_length(uint64_t index)
{
    return (size_t)(index / 2 % (FILE_ROOM + 1));
}

/* Odd indices keep the base's length or take other whole blocks: there the reader gets past the length. */
static size_t whole_blocks(struct prng *r, const struct sample *out)
{
    return chance(r, 3, 4) ? out->length : (size_t)BLOCK * below(r, FILE_ROOM / BLOCK + 1);
}

enum mutation mutate(struct prng *r, uint64_t index, struct sample *out)
{
    if (index % BASE_LIFE == 0) {
        renew_bases(r);
    }
    take_base(r, out);
    bool walk = index % 2 == 0;
    size_t had = out->length;
    fit(r, out, walk ? walked_length(index) : whole_blocks(r, out));
    enum mutation mutation = (enum mutation)below(r, MUTATIONS);
    if (mutation == MUTATION_CUT || mutation == MUTATION_GROWN) {
        mutation = out->length < had ? MUTATION_CUT : MUTATION_GROWN;
    }
    apply(r, out, mutation);
    if (chance(r, 1, 4)) {
        out->log_length = below(r, LOG_ROOM);
    }
    return mutation;
}

const char *mutation_name(enum mutation mutation)
{
    static const char *const names[MUTATIONS] = {
        "random bytes", "cut", "as it is or grown", "bytes changed", "bytes changed, checks right",
        "block 0 changed, check right", "spliced"};
    return mutation < MUTATIONS ? names[mutation] : "?";
}

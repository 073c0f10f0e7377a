#include "schedules.h"

/* Few values as a rule: equal values of different stores are where a comparison of values would go wrong. */
uint64_t some_value(struct prng *r)
{
    switch (below(r, 8)) {
    case 0: return 0;
    case 1: return UINT64_MAX;
    case 2: return prng_next(r);
    case 3: return UINT64_C(1) << below(r, 64);
    default: return below(r, 5);
    }
}

static uint8_t nonzero_byte(struct prng *r)
{
    return chance(r, 1, 2) ? (uint8_t)(1u << below(r, 8)) : (uint8_t)between(r, 1, 255);
}

/* N, S and V. */

static uint8_t some_processes(struct prng *r)
{
    switch (below(r, 4)) {
    case 0: return (uint8_t)between(r, 1, 3);
    case 1: return chance(r, 1, 2) ? 1 : 16;
    default: return (uint8_t)between(r, 1, 16);
    }
}

static uint32_t some_last(struct prng *r)
{
    switch (below(r, 8)) {
    case 0: return 2;
    case 1: return between(r, 3, 9);
    case 2: return between(r, 10, 300);
    case 3: return UINT32_MAX - below(r, 2);
    case 4: return (UINT32_MAX >> 1) + below(r, 3);
    case 5: return between(r, 2, UINT32_MAX - 1);
    default: return UINT32_MAX;
    }
}

/* Entries are made along a running machine, so that a style knows who is idle. */

struct maker {
    struct prng *r;
    struct schedule *s;
    size_t limit;
    struct machine m;
};

static bool full(const struct maker *k)
{
    return k->s->entries >= k->limit;
}

static void write_entry(const struct entry *entry, uint8_t *bytes)
{
    memset(bytes, 0, ENTRY);
    bytes[0] = entry->kind;
    bytes[1] = entry->process;
    put64(bytes + 4, entry->value);
}

static void emit(struct maker *k, uint8_t kind, uint8_t process, uint64_t value)
{
    if (full(k)) {
        return;
    }
    struct entry *entry = &k->s->entry[k->s->entries++];
    uint8_t bytes[ENTRY];
    uint8_t record[RECORD];
    *entry = (struct entry){kind, process, value};
    write_entry(entry, bytes);
    machine_entry(&k->m, bytes, record);
}

static bool idle(const struct maker *k, uint8_t p)
{
    return k->m.own[p].place == IDLE;
}

static uint8_t some_process(struct maker *k)
{
    return (uint8_t)below(k->r, k->s->processes);
}

static void emit_step(struct maker *k, uint8_t p)
{
    emit(k, KIND_STEP, p, 0);
}

static void emit_request(struct maker *k, uint8_t kind, uint8_t p)
{
    emit(k, kind, p, kind == KIND_STORE ? some_value(k->r) : 0);
}

static void finish(struct maker *k, uint8_t p)
{
    while (!idle(k, p) && !full(k)) {
        emit_step(k, p);
    }
}

static void whole_call(struct maker *k, uint8_t kind, uint8_t p)
{
    emit_request(k, kind, p);
    finish(k, p);
}

static bool used_up(const struct maker *k, uint8_t p)
{
    return k->m.own[p].next_number > k->m.last;
}

/* A store has a hope after a load only, so loads and stores come about equally often, checks seldom. */
static uint8_t taken_kind(struct maker *k, uint8_t p)
{
    uint32_t pick = below(k->r, 9);
    if (pick == 0) {
        return KIND_CHECK;
    }
    return pick < 5 && !used_up(k, p) ? KIND_STORE : KIND_LOAD;
}

static void polite_entry(struct maker *k, uint8_t p)
{
    if (idle(k, p)) {
        emit_request(k, taken_kind(k, p), p);
    } else {
        emit_step(k, p);
    }
}

/* The next entry of a process that does nothing but load, store, load, store. */
static void writer_entry(struct maker *k, uint8_t p)
{
    if (!idle(k, p)) {
        emit_step(k, p);
    } else if (same_tag(k->m.own[p].kept, k->m.x)) {
        emit_request(k, KIND_STORE, p);
    } else {
        emit_request(k, KIND_LOAD, p);
    }
}

static void fill_any(struct maker *k)
{
    while (!full(k)) {
        uint8_t kind = (uint8_t)between(k->r, 1, 4);
        uint8_t p = chance(k->r, 1, 20) ? (uint8_t)below(k->r, 256) : some_process(k);
        emit_request(k, chance(k->r, 1, 2) ? KIND_STEP : kind, p);
    }
}

static void fill_polite(struct maker *k)
{
    while (!full(k)) {
        polite_entry(k, some_process(k));
    }
}

static void fill_bursts(struct maker *k)
{
    while (!full(k)) {
        uint8_t p = some_process(k);
        for (uint32_t left = between(k->r, 1, 9); left > 0; left--) {
            polite_entry(k, p);
        }
    }
}

static void fill_slow_loaders(struct maker *k)
{
    uint8_t writer = some_process(k);
    uint32_t slowness = between(k->r, 4, 24);
    while (!full(k)) {
        uint8_t p = some_process(k);
        if (chance(k->r, 1, 300)) {
            writer = some_process(k);
        }
        if (p == writer || !chance(k->r, 1, slowness)) {
            writer_entry(k, writer);
        } else if (idle(k, p)) {
            emit_request(k, chance(k->r, 7, 8) ? KIND_LOAD : KIND_CHECK, p);
        } else {
            emit_step(k, p);
        }
    }
}

/* Every process asks for `kind`, then all step in a random order until none has a call open. */
static void fight_round(struct maker *k, uint8_t kind)
{
    uint32_t open = 0;
    for (uint8_t p = 0; p < k->s->processes; p++) {
        emit_request(k, kind, p);
    }
    do {
        open = 0;
        for (uint8_t p = 0; p < k->s->processes; p++) {
            if (!idle(k, p) && chance(k->r, 1, 2)) {
                emit_step(k, p);
            }
            open += !idle(k, p);
        }
    } while (open > 0 && !full(k));
}

static void fill_fight(struct maker *k)
{
    while (!full(k)) {
        fight_round(k, KIND_LOAD);
        fight_round(k, KIND_STORE);
        if (chance(k->r, 1, 4)) {
            fight_round(k, KIND_CHECK);
        }
    }
}

static void fill_used_up(struct maker *k)
{
    while (!full(k)) {
        uint8_t p = chance(k->r, 1, 2) ? 0 : some_process(k);
        whole_call(k, KIND_LOAD, p);
        if (chance(k->r, 1, 8)) {
            emit_request(k, KIND_LOAD, some_process(k));
        }
        whole_call(k, KIND_STORE, p);
        if (chance(k->r, 1, 8)) {
            whole_call(k, KIND_CHECK, some_process(k));
        }
    }
}

/* One entry that is refused by 11, 12, 13 or 14, if the state has room for it. */
static void refused_entry(struct maker *k)
{
    uint8_t p = some_process(k);
    if (chance(k->r, 1, 3)) {
        uint8_t beyond = chance(k->r, 1, 2) ? k->s->processes : (uint8_t)between(k->r, k->s->processes, 255);
        emit_request(k, (uint8_t)between(k->r, 1, 4), beyond);
    } else if (!idle(k, p)) {
        emit_request(k, (uint8_t)between(k->r, 1, 3), p);
    } else if (used_up(k, p) && chance(k->r, 1, 2)) {
        emit_request(k, KIND_STORE, p);
    } else {
        emit_step(k, p);
    }
}

static void fill_refused(struct maker *k)
{
    while (!full(k)) {
        polite_entry(k, some_process(k));
        refused_entry(k);
    }
}

static void fill_sequential(struct maker *k)
{
    while (!full(k)) {
        uint8_t p = some_process(k);
        whole_call(k, KIND_LOAD, p);
        whole_call(k, taken_kind(k, p), chance(k->r, 3, 4) ? p : some_process(k));
    }
}

/* At most nine calls, close together; some stay unanswered. */
static void fill_short(struct maker *k)
{
    uint32_t calls = between(k->r, 1, 9);
    uint32_t asked = 0;
    bool leave_open = chance(k->r, 1, 2);
    for (uint32_t tries = 0; tries < 400 && !full(k); tries++) {
        uint8_t p = some_process(k);
        if (!idle(k, p)) {
            emit_step(k, p);
        } else if (asked < calls) {
            asked++;
            polite_entry(k, p);
        } else if (leave_open) {
            return;
        }
    }
}

/* A writer of a few calls beside slow loads: nine calls are enough for step 5. */
static void fill_short_step_5(struct maker *k)
{
    uint8_t writer = some_process(k);
    uint32_t asked = 0;
    uint32_t slowness = between(k->r, 2, 16);
    for (uint32_t tries = 0; tries < 400 && !full(k); tries++) {
        uint8_t p = some_process(k);
        bool by_writer = p == writer || !chance(k->r, 1, slowness);
        uint8_t who = by_writer ? writer : p;
        if (idle(k, who) && asked == 9) {
            continue;
        }
        asked += idle(k, who);
        if (by_writer) {
            writer_entry(k, who);
        } else {
            polite_entry(k, who);
        }
    }
}

static void fill_style(struct maker *k, enum style style)
{
    switch (style) {
    case STYLE_ANY: fill_any(k); break;
    case STYLE_POLITE: fill_polite(k); break;
    case STYLE_BURSTS: fill_bursts(k); break;
    case STYLE_SLOW_LOADERS: fill_slow_loaders(k); break;
    case STYLE_FIGHT: fill_fight(k); break;
    case STYLE_USED_UP: fill_used_up(k); break;
    case STYLE_REFUSED: fill_refused(k); break;
    case STYLE_SEQUENTIAL: fill_sequential(k); break;
    case STYLE_SHORT: fill_short(k); break;
    case STYLE_SHORT_STEP_5: fill_short_step_5(k); break;
    case STYLE_LARGEST: fill_style(k, (enum style)below(k->r, STYLE_SHORT)); break;
    case STYLE_NO_ENTRIES:
    case STYLES: break;
    }
}

/* Fills in the entries; N, S and V are there. */
void schedule_fill(struct prng *r, struct schedule *s, enum style style, size_t limit)
{
    struct maker k = {.r = r, .s = s, .limit = limit};
    machine_start(&k.m, s->processes, s->last, s->value);
    s->entries = 0;
    fill_style(&k, style);
}

static void some_setting(struct prng *r, struct schedule *s, enum style style)
{
    s->processes = some_processes(r);
    s->last = some_last(r);
    s->value = some_value(r);
    if (style == STYLE_USED_UP) {
        s->last = chance(r, 1, 2) ? between(r, 2, 3) : between(r, 2, 12);
    }
    if ((style == STYLE_SHORT || style == STYLE_SHORT_STEP_5) && chance(r, 4, 5)) {
        s->processes = (uint8_t)between(r, 2, 4);
    }
    if ((style == STYLE_SLOW_LOADERS || style == STYLE_SHORT_STEP_5) && chance(r, 4, 5)) {
        s->last = UINT32_MAX;
    }
}

static size_t some_limit(struct prng *r, enum style style)
{
    if (style == STYLE_LARGEST) {
        return MOST_ENTRIES;
    }
    if (style == STYLE_SHORT || style == STYLE_SHORT_STEP_5) {
        return 60;
    }
    switch (below(r, 16)) {
    case 0: return below(r, MOST_ENTRIES + 1);
    case 1:
    case 2: return below(r, 2000);
    case 3: return (size_t)BLOCK_ENTRIES * below(r, 20) + below(r, 3);
    case 4:
    case 5:
    case 6:
    case 7: return below(r, 400);
    default: return below(r, 60);
    }
}

/* From a schedule to the bytes of a file. */

void seal(uint8_t *block)
{
    put16(block + BLOCK_CHECK, block_check(block));
}

static void write_head_block(const struct schedule *s, uint8_t *file, size_t later)
{
    memset(file, 0, BLOCK);
    file[2] = s->processes;
    put32(file + 4, s->last);
    put64(file + 8, s->value);
    put16(file + 16, (uint32_t)later);
    seal(file);
}

static void write_later_block(const struct schedule *s, uint8_t *file, size_t place, size_t first, size_t count)
{
    uint8_t *block = file + BLOCK * place;
    memset(block, 0, BLOCK);
    put16(block, (uint32_t)place);
    block[2] = (uint8_t)count;
    for (size_t e = 0; e < count; e++) {
        write_entry(&s->entry[first + e], block + ENTRIES_FROM + ENTRY * e);
    }
    seal(block);
}

size_t schedule_packed(const struct schedule *s, uint8_t *file)
{
    size_t later = 0;
    for (size_t first = 0; first < s->entries; first += BLOCK_ENTRIES) {
        size_t left = s->entries - first;
        write_later_block(s, file, ++later, first, left < BLOCK_ENTRIES ? left : BLOCK_ENTRIES);
    }
    write_head_block(s, file, later);
    return BLOCK * (later + 1);
}

enum filling { FILLING_FULL, FILLING_HALF, FILLING_RAGGED, FILLING_SPARSE, FILLINGS };

static size_t some_count(struct prng *r, enum filling filling)
{
    switch (filling) {
    case FILLING_HALF: return BLOCK_ENTRIES / 2;
    case FILLING_RAGGED: return below(r, BLOCK_ENTRIES + 1);
    case FILLING_SPARSE: return chance(r, 2, 3) ? 0 : between(r, 1, 3);
    case FILLING_FULL:
    case FILLINGS: break;
    }
    return BLOCK_ENTRIES;
}

/* Blocks of the given filling; entries that find no room in 127 blocks are left out. Gives the length. */
static size_t schedule_spread(struct prng *r, struct schedule *s, uint8_t *file, enum filling filling)
{
    size_t first = 0;
    size_t later = 0;
    while (first < s->entries && later < BLOCKS - 1) {
        size_t count = some_count(r, filling);
        if (count > s->entries - first) {
            count = s->entries - first;
        }
        write_later_block(s, file, ++later, first, count);
        first += count;
    }
    s->entries = first;
    size_t empty = chance(r, 1, 4) ? below(r, chance(r, 1, 4) ? BLOCKS : 4) : 0;
    for (; empty > 0 && later < BLOCKS - 1; empty--) {
        write_later_block(s, file, ++later, first, 0);
    }
    write_head_block(s, file, later);
    return BLOCK * (later + 1);
}

/* One file in forty is a largest one and as many have no entries; the other styles come equally often. */
static enum style some_style(struct prng *r)
{
    switch (below(r, 40)) {
    case 0: return STYLE_LARGEST;
    case 1: return STYLE_NO_ENTRIES;
    default: return (enum style)below(r, STYLE_NO_ENTRIES);
    }
}

static size_t some_log_length(struct prng *r, size_t need)
{
    switch (below(r, 6)) {
    case 0: return need + between(r, 1, 24);
    case 1: return need + below(r, 4000);
    default: return need;
    }
}

static void make_sound(struct prng *r, struct sample *out, struct schedule *s)
{
    out->style = some_style(r);
    out->defects = 0;
    some_setting(r, s, out->style);
    schedule_fill(r, s, out->style, some_limit(r, out->style));
    enum filling filling = out->style == STYLE_LARGEST ? FILLING_FULL : (enum filling)below(r, FILLINGS);
    out->length = schedule_spread(r, s, out->bytes, filling);
    out->log_length = some_log_length(r, LOG_HEAD + RECORD * s->entries);
}

void sample_sound(struct prng *r, struct sample *out)
{
    static struct schedule s; /* too large for a stack */
    make_sound(r, out, &s);
}

/* Damage. */

static size_t blocks_of(const struct sample *f)
{
    return f->length / BLOCK;
}

/* The first, the last or any block after block 0; block 0 if there is no other. */
static size_t later_block(struct prng *r, const struct sample *f)
{
    size_t last = blocks_of(f) - 1;
    switch (below(r, 4)) {
    case 0: return last;
    case 1: return last < 1 ? 0 : 1;
    default: return last < 1 ? 0 : between(r, 1, (uint32_t)last);
    }
}

static size_t any_block(struct prng *r, const struct sample *f)
{
    return chance(r, 1, 3) ? 0 : later_block(r, f);
}

static uint8_t *later(struct prng *r, struct sample *f)
{
    return f->bytes + BLOCK * later_block(r, f);
}

/* The first, the last or any of the block's entries; NULL if there is none. */
static uint8_t *some_entry(struct prng *r, struct sample *f)
{
    size_t b = later_block(r, f);
    uint8_t *block = f->bytes + BLOCK * b;
    uint32_t count = block[2] > BLOCK_ENTRIES ? BLOCK_ENTRIES : block[2];
    if (b == 0 || count == 0) {
        return NULL;
    }
    uint32_t e = chance(r, 1, 4) ? 0 : chance(r, 1, 3) ? count - 1 : below(r, count);
    return block + ENTRIES_FROM + ENTRY * e;
}

/* The edges of a stretch of bytes more often than its middle. */
static uint32_t edge_or_inside(struct prng *r, uint32_t low, uint32_t high)
{
    switch (below(r, 5)) {
    case 0: return low;
    case 1: return high;
    case 2: return high - (high > low);
    default: return between(r, low, high);
    }
}

static void damage_block_count(struct prng *r, uint8_t *head)
{
    uint32_t told = get16(head + 16);
    switch (below(r, 4)) {
    case 0: told = told + 1; break;
    case 1: told = told - 1; break;
    case 2: told ^= 0x100u << below(r, 8); break;
    default: told = below(r, 65536); break;
    }
    put16(head + 16, told);
}

/* Some of the bytes side by side, some far apart: the first of them is the one to be named. */
static void damage_head_tails(struct prng *r, uint8_t *head)
{
    uint32_t at = edge_or_inside(r, HEAD_TAIL, BLOCK_CHECK - 1);
    for (uint32_t left = between(r, 2, 5); left > 0; left--) {
        head[at] = nonzero_byte(r);
        at = at + 1 < BLOCK_CHECK && chance(r, 1, 2) ? at + 1 : edge_or_inside(r, HEAD_TAIL, BLOCK_CHECK - 1);
    }
}

static void damage_head(struct prng *r, uint8_t *head, enum defect defect)
{
    static const uint8_t wrong_n[] = {0, 17, 18, 32, 128, 255};
    switch (defect) {
    case DEFECT_PROCESSES: head[2] = wrong_n[below(r, sizeof wrong_n)]; break;
    case DEFECT_LAST: put32(head + 4, below(r, 2)); break;
    case DEFECT_BLOCK_COUNT: damage_block_count(r, head); break;
    case DEFECT_HEAD_BYTE_3: head[3] = nonzero_byte(r); break;
    case DEFECT_HEAD_TAIL: head[edge_or_inside(r, HEAD_TAIL, BLOCK_CHECK - 1)] = nonzero_byte(r); break;
    case DEFECT_HEAD_TAILS: damage_head_tails(r, head); break;
    default: break;
    }
}

static void damage_count_off(struct prng *r, struct sample *f)
{
    uint8_t *block = later(r, f);
    if (block != f->bytes) {
        block[2] = (uint8_t)(chance(r, 1, 2) ? below(r, BLOCK_ENTRIES + 1) : (block[2] + 1u) % (BLOCK_ENTRIES + 1u));
    }
}

static void damage_kind(struct prng *r, struct sample *f)
{
    static const uint8_t wrong[] = {0, 0, 5, 6, 255};
    uint8_t *entry = some_entry(r, f);
    if (entry != NULL) {
        entry[0] = chance(r, 5, 6) ? wrong[below(r, sizeof wrong)] : (uint8_t)between(r, 5, 255);
    }
}

static void damage_entry_value(struct prng *r, struct sample *f)
{
    uint8_t *entry = some_entry(r, f);
    if (entry != NULL && entry[0] == KIND_STORE && chance(r, 3, 4)) {
        /* A store with a value becomes a check with a value. */
        entry[0] = chance(r, 1, 2) ? KIND_CHECK : KIND_STEP;
    }
    if (entry != NULL) {
        entry[edge_or_inside(r, 4, 11)] = nonzero_byte(r);
    }
}

static void damage_tail(struct prng *r, struct sample *f)
{
    uint8_t *block = later(r, f);
    uint32_t count = block[2] > BLOCK_ENTRIES ? BLOCK_ENTRIES : block[2];
    if (block != f->bytes) {
        block[edge_or_inside(r, ENTRIES_FROM + ENTRY * count, BLOCK_CHECK - 1)] = nonzero_byte(r);
    }
}

static void damage_place(struct prng *r, struct sample *f)
{
    uint8_t *block = f->bytes + BLOCK * any_block(r, f);
    uint32_t place = get16(block);
    switch (below(r, 4)) {
    case 0: place = place + 1; break;
    case 1: place = place - 1; break;
    case 2: place ^= 0x100u << below(r, 8); break;
    default: place = below(r, 65536); break;
    }
    put16(block, place);
}

static void damage_swapped(struct prng *r, struct sample *f)
{
    uint8_t kept[BLOCK];
    uint8_t *a = f->bytes + BLOCK * any_block(r, f);
    uint8_t *b = f->bytes + BLOCK * any_block(r, f);
    if (a != b) {
        memcpy(kept, a, BLOCK);
        memcpy(a, b, BLOCK);
        memcpy(b, kept, BLOCK);
    }
}

static void damage_any_bytes(struct prng *r, struct sample *f)
{
    for (uint32_t left = between(r, 1, 4); left > 0; left--) {
        uint8_t *block = f->bytes + BLOCK * any_block(r, f);
        block[below(r, BLOCK)] ^= nonzero_byte(r);
    }
}

static void damage_block(struct prng *r, struct sample *f, enum defect defect)
{
    uint8_t *block = later(r, f);
    uint8_t *entry = some_entry(r, f);
    switch (defect) {
    case DEFECT_COUNT_ABOVE: block[2] = (uint8_t)(chance(r, 1, 2) ? 43 : between(r, 43, 255)); break;
    case DEFECT_COUNT_OFF: damage_count_off(r, f); break;
    case DEFECT_BLOCK_BYTE_3: block[3] = nonzero_byte(r); break;
    case DEFECT_KIND: damage_kind(r, f); break;
    case DEFECT_ENTRY_BYTES:
        if (entry != NULL) {
            entry[between(r, 2, 3)] = nonzero_byte(r);
        }
        break;
    case DEFECT_ENTRY_VALUE: damage_entry_value(r, f); break;
    case DEFECT_TAIL: damage_tail(r, f); break;
    case DEFECT_PLACE: damage_place(r, f); break;
    case DEFECT_SWAPPED: damage_swapped(r, f); break;
    case DEFECT_ANY_BYTES: damage_any_bytes(r, f); break;
    default: damage_head(r, f->bytes, defect); break;
    }
}

/* As a rule all checks are made right again, so that the refusal behind the check is reached. */
static void seal_blocks(struct prng *r, struct sample *f)
{
    uint32_t mode = below(r, 8);
    for (size_t b = 0; b < blocks_of(f); b++) {
        if (mode > 1 || (mode == 1 && chance(r, 1, 2))) {
            seal(f->bytes + BLOCK * b);
        }
    }
}

/* Only checks of 0 to 14 have room for 65,521 more; an empty block 1 to 14 has such a check. */
static void damage_check_alias(struct sample *f)
{
    for (size_t b = 0; b < blocks_of(f); b++) {
        uint8_t *at = f->bytes + BLOCK * b + BLOCK_CHECK;
        if (get16(at) < 15) {
            put16(at, get16(at) + 65521);
            return;
        }
    }
}

static void damage_check(struct prng *r, struct sample *f, enum defect defect)
{
    uint8_t *block = f->bytes + BLOCK * any_block(r, f);
    uint8_t *check = block + BLOCK_CHECK;
    if (defect == DEFECT_CHECK && chance(r, 1, 2)) {
        put16(check, get16(check) + (chance(r, 1, 2) ? 1u : 65535u));
    } else if (defect == DEFECT_CHECK) {
        check[below(r, 2)] ^= nonzero_byte(r);
    } else if (defect == DEFECT_CHECK_ALIAS) {
        damage_check_alias(f);
    } else {
        block[edge_or_inside(r, 0, BLOCK_CHECK - 1)] ^= nonzero_byte(r);
    }
}

static void add_empty_block(struct sample *f)
{
    uint8_t *block = f->bytes + f->length;
    memset(block, 0, BLOCK);
    put16(block, (uint32_t)blocks_of(f));
    seal(block);
    f->length += BLOCK;
}

static void damage_too_long(struct prng *r, struct sample *f)
{
    size_t blocks = BLOCKS + between(r, 1, 2);
    while (blocks_of(f) < blocks) {
        add_empty_block(f);
    }
    put16(f->bytes + 16, (uint32_t)blocks - 1);
    seal(f->bytes);
}

static void damage_length(struct prng *r, struct sample *f, enum defect defect)
{
    switch (defect) {
    case DEFECT_BLOCK_LOST: f->length -= f->length > BLOCK ? BLOCK : 0; break;
    case DEFECT_BLOCK_ADDED: add_empty_block(f); break;
    case DEFECT_TOO_LONG: damage_too_long(r, f); break;
    case DEFECT_TRUNCATED: f->length -= edge_or_inside(r, 1, BLOCK - 1); break;
    case DEFECT_EXTENDED: {
        uint32_t more = edge_or_inside(r, 1, BLOCK - 1);
        if (f->length + more <= FILE_ROOM) {
            memset(f->bytes + f->length, (int)below(r, 256), more);
            f->length += more;
        }
        break;
    }
    case DEFECT_NO_BYTES: f->length = chance(r, 1, 2) ? 0 : below(r, BLOCK); break;
    default: break;
    }
}

static void damage_log(struct prng *r, struct sample *f, size_t need)
{
    switch (below(r, 4)) {
    case 0:
    case 1: f->log_length = need - 1; break;
    case 2: f->log_length = below(r, LOG_HEAD); break;
    default: f->log_length = below(r, (uint32_t)need); break;
    }
}

/* A part of block 0 with some of those behind it in the order of the refusals, and now and then a defect that comes before or after
 * them all. */
static uint32_t some_head_defects(struct prng *r)
{
    uint32_t first = between(r, DEFECT_PROCESSES, DEFECT_HEAD_TAILS);
    uint32_t defects = 1u << first;
    for (uint32_t d = first + 1; d <= DEFECT_HEAD_TAILS; d++) {
        defects |= (uint32_t)chance(r, 1, 2) << d;
    }
    return chance(r, 1, 3) ? defects | 1u << between(r, DEFECT_COUNT_ABOVE, DEFECT_LATE_BYTE) : defects;
}

/* Each bit a kind of defect. Those of the length hide all the others, so they are taken less often. */
static uint32_t some_defects(struct prng *r)
{
    if (chance(r, 1, 5)) {
        return some_head_defects(r);
    }
    uint32_t count = chance(r, 3, 5) ? 1 : chance(r, 3, 5) ? 2 : between(r, 3, 6);
    uint32_t defects = 0;
    while (count > 0) {
        uint32_t d = below(r, DEFECTS);
        if (d >= DEFECT_BLOCK_LOST && d <= DEFECT_NO_BYTES && !chance(r, 1, 3)) {
            continue;
        }
        defects |= 1u << d;
        count--;
    }
    return defects;
}

static bool has(const struct sample *f, enum defect defect)
{
    return (f->defects >> defect & 1) != 0;
}

static void damage(struct prng *r, struct sample *f, size_t need)
{
    f->defects = some_defects(r);
    for (uint32_t d = 0; d <= DEFECT_ANY_BYTES; d++) {
        if (has(f, (enum defect)d)) {
            damage_block(r, f, (enum defect)d);
        }
    }
    seal_blocks(r, f);
    for (uint32_t d = DEFECT_CHECK; d <= DEFECT_LATE_BYTE; d++) {
        if (has(f, (enum defect)d)) {
            damage_check(r, f, (enum defect)d);
        }
    }
    for (uint32_t d = DEFECT_BLOCK_LOST; d <= DEFECT_NO_BYTES; d++) {
        if (has(f, (enum defect)d)) {
            damage_length(r, f, (enum defect)d);
        }
    }
    if (has(f, DEFECT_LOG_SHORT)) {
        damage_log(r, f, need);
    }
}

void sample_make(struct prng *r, struct sample *out)
{
    static struct schedule s; /* too large for a stack */
    make_sound(r, out, &s);
    if (chance(r, 1, 2)) {
        damage(r, out, LOG_HEAD + RECORD * s.entries);
    }
}

/* Names for the table. */

const char *style_name(enum style style)
{
    static const char *const names[STYLES] = {
        "any entries", "only taken entries", "bursts", "slow loaders, fast writer", "fights", "numbers used up",
        "every second entry refused", "whole calls in turn", "short, overlapping", "short, loads by step 5",
        "no entries", "largest"};
    return style < STYLES ? names[style] : "?";
}

const char *defect_name(enum defect defect)
{
    static const char *const names[DEFECTS] = {
        "N 0 or above 16", "S 0 or 1", "block count in block 0", "byte 3 of block 0", "byte of 18 to 509 of block 0",
        "several bytes of 18 to 509", "count above 42", "count of other entries", "byte 3 of a later block", "kind 0 or above 4",
        "bytes 2, 3 of an entry", "value of no store", "byte past the entries", "place", "two blocks swapped",
        "any bytes", "check", "check plus 65,521", "byte under its check", "block lost", "block added",
        "129 or 130 blocks", "truncated", "extended", "less than a block", "log too short"};
    return defect < DEFECTS ? names[defect] : "?";
}

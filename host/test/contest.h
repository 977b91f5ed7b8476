/*
 * What compare.c, feeds.c and orders.c share: failures, buffers lent with guard bytes, damaged chips and traces.
 * The program names itself in PROGRAM first. Static inline as in support.h.
 */
#ifndef CONTEST_H
#define CONTEST_H

#include "support.h"

enum { GUARD = 32, MOST_FAILURES = 20 };

static unsigned failures;

static inline void fail(const char *where, unsigned long at, const char *what)
{
    printf(PROGRAM ": %s %lu: %s\n", where, at, what);
    if (++failures < MOST_FAILURES)
        return;
    printf(PROGRAM ": too many failures, stopped\n");
    exit(EXIT_FAILURE);
}

/* A draw that never comes to a case would prove little: that is a failure too. */
static inline void must_occur(unsigned long times, const char *where, unsigned long at)
{
    if (times == 0)
        fail(where, at, "never tried, draw more");
}

static inline void *have(void *block)
{
    if (block != NULL)
        return block;
    printf(PROGRAM ": out of memory\n");
    exit(EXIT_FAILURE);
}

/* ---- lent buffers, with guard bytes on both sides ---- */

struct lent {
    uint8_t *block, *bytes;
    size_t len;
    uint8_t guard;
};

static inline struct lent lend(const uint8_t *from, size_t len, uint8_t guard)
{
    struct lent l = { have(malloc(len + 2 * GUARD)), NULL, len, guard };
    l.bytes = l.block + GUARD;
    memset(l.block, guard, len + 2 * GUARD);
    if (len > 0)
        memcpy(l.bytes, from, len);
    return l;
}

static inline bool guards_stand(const struct lent *l)
{
    for (size_t i = 0; i < GUARD; i++)
        if (l->block[i] != l->guard || l->bytes[l->len + i] != l->guard)
            return false;
    return true;
}

/* ---- damaged chips and lengths ---- */

static inline void spoil_chip(struct rng *g, uint8_t *chip)
{
    unsigned field = below(g, CHIP);
    if (field == PEDRALUME_LATCH_BYTE) {
        chip[PEDRALUME_RMW] = 0;
        chip[PEDRALUME_SAVED_COLUMN] = (uint8_t)between(g, 1, COLUMN_STOP);
    } else {
        chip[field] = (uint8_t)(one_in(g, 2) ? field_limit[field] + 1u : between(g, field_limit[field] + 1u, 255));
    }
}

/* Left, right or both. */
static inline void spoil_chips(struct rng *g, uint8_t *chips)
{
    unsigned which = between(g, 1, 3);
    for (unsigned chip = 0; chip < 2; chip++)
        if (which >> chip & 1)
            spoil_chip(g, chips + CHIP * chip);
}

/* Fills a source that is long enough for any wrong length. */
static inline struct lent lend_padded(struct rng *g, const uint8_t *bytes, size_t have_len, size_t len)
{
    uint8_t padded[2048];
    random_bytes(g, padded, sizeof padded);
    memcpy(padded, bytes, have_len);
    return lend(padded, len, 0);
}

/* ---- random traces ---- */

static inline unsigned draw_non_command(struct rng *g)
{
    unsigned byte;
    do
        byte = between(g, 0x80, 0xFF);
    while (is_command(byte));
    return byte;
}

static inline unsigned draw_missing_column(struct rng *g)
{
    return between(g, COLUMN_STOP, COLUMN_SETS - 1);
}

/* What a record is refused for. */
enum { SPARE_LINE, FOURTH_BYTE, HIGH_CHIP, EQUAL_STROBES, NO_COMMAND, MISSING_COLUMN, COLUMN_IN_RMW, FAULTS };

/*
 * Gives the record this fault. The last one makes it a column set, half of the time to a column that RAM has
 * not; read-modify-write must be on before it.
 */
static inline void spoil_record(uint8_t *at, struct rng *g, unsigned fault)
{
    static const uint8_t equal_strobes[] = { 0, 1, 6, 7 };
    switch (fault) {
    case SPARE_LINE:
        at[0] = (uint8_t)(at[0] | between(g, 1, 31) << 3);
        break;
    case FOURTH_BYTE:
        at[3] = (uint8_t)between(g, 1, 255);
        break;
    case HIGH_CHIP:
        at[1] = (uint8_t)(one_in(g, 2) ? 2 : between(g, 2, 255));
        break;
    case EQUAL_STROBES:
        at[0] = equal_strobes[below(g, 4)];
        break;
    case NO_COMMAND:
        at[0] = PEDRALUME_COMMAND_WRITE;
        at[2] = (uint8_t)draw_non_command(g);
        break;
    case MISSING_COLUMN:
        at[0] = PEDRALUME_COMMAND_WRITE;
        at[2] = (uint8_t)draw_missing_column(g);
        break;
    default:
        at[0] = PEDRALUME_COMMAND_WRITE;
        at[1] &= 1;
        at[2] = (uint8_t)(one_in(g, 2) ? draw_missing_column(g) : below(g, COLUMN_STOP));
        at[3] = 0;
    }
}

/* Any fault; where it needs read-modify-write, the record before turns it on. */
static inline void damage_record(struct trace *t, struct rng *g, size_t i)
{
    uint8_t *at = t->bytes + RECORD * i;
    unsigned fault = below(g, FAULTS);
    spoil_record(at, g, fault);
    if (fault == COLUMN_IN_RMW && i > 0) {
        const uint8_t mode[RECORD] = { PEDRALUME_COMMAND_WRITE, at[1], 0xE0, 0 };
        memcpy(at - RECORD, mode, RECORD);
    }
}

/* One record gets one to three faults, so that their order is tried too. */
static inline void damage_trace(struct trace *t, struct rng *g)
{
    size_t i = below(g, (unsigned)(t->len / RECORD));
    for (unsigned faults = one_in(g, 2) ? 1 : between(g, 2, 3); faults > 0; faults--)
        damage_record(t, g, i);
}

/* Records with fields that are right each by itself most of the time, but not drawn to be accepted. */
static inline void put_noise(struct trace *t, struct rng *g, size_t records)
{
    for (size_t i = 0; i < records; i++)
        put_record(t, one_in(g, 40) ? below(g, 256) : between(g, 2, 5), one_in(g, 40) ? below(g, 256) : below(g, 2),
                   below(g, 256), one_in(g, 60));
}

static inline void draw_trace(struct trace *t, struct rng *g, const uint8_t *chips, const uint8_t *ram, size_t records)
{
    t->len = 0;
    if (one_in(g, 12))
        put_noise(t, g, records);
    else
        put_valid(t, g, chips, records);
    if (records > 0 && one_in(g, 3))
        damage_trace(t, g);
    settle_reads(t, g, chips, ram);
    if (one_in(g, 16)) {
        unsigned extra = between(g, 1, 3);
        random_bytes(g, t->bytes + t->len, extra);
        t->len += extra;
    }
}

/* Mostly exact or longer; too short where there is room for that. */
static inline size_t draw_answers_length(struct rng *g, size_t exact)
{
    if (exact > 0 && one_in(g, 25))
        return one_in(g, 2) ? exact - 1 : below(g, (unsigned)exact);
    return one_in(g, 2) ? exact : exact + below(g, 200);
}

#endif

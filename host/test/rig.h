/*
 * The tests of each call share this: chips and RAM as a replay is lent them, one replay, and the traces that
 * several calls are tried with. All is static, as in support.h.
 */
#ifndef RIG_H
#define RIG_H

#include "check.h"

/* Bytes past the longest buffer that a call may take, which must stay too; and the answers to the longest trace. */
enum { SLACK = 16, ANSWERS = 2 * RECORDS_MAX };

/* ---- what a replay is lent ---- */

struct rig {
    uint8_t chips[CHIPS + SLACK];
    uint8_t ram[RAM + SLACK];
    uint8_t answers[ANSWERS + SLACK];
};

static inline void fresh_chips(uint8_t *chips)
{
    static const uint8_t fresh[CHIPS] = { PEDRALUME_FRESH_CHIP, PEDRALUME_FRESH_CHIP };
    memcpy(chips, fresh, CHIPS);
}

/* They are fresh but for their displays, which are on. */
static inline void shown_chips(uint8_t *chips)
{
    fresh_chips(chips);
    chips[PEDRALUME_DISPLAY] = chips[CHIP + PEDRALUME_DISPLAY] = 1;
}

static inline void fresh_rig(struct rig *r)
{
    memset(r, 0xEE, sizeof *r);
    fresh_chips(r->chips);
    memset(r->ram, 0, RAM);
}

/* Every field is away from its fresh value, but the mode and the saved column without rmw; every RAM byte is unlike its neighbours. */
static inline void busy_rig(struct rig *r, bool rmw)
{
    static const uint8_t busy[CHIP] = { 1, 1, 0, 1, 1, 2, 9, 33, 7, 1, 0x5C, 0 };
    fresh_rig(r);
    for (unsigned chip = 0; chip < 2; chip++) {
        uint8_t *c = r->chips + CHIP * chip;
        memcpy(c, busy, CHIP);
        c[PEDRALUME_COLUMN] = (uint8_t)(33 + chip);
        if (!rmw)
            c[PEDRALUME_RMW] = c[PEDRALUME_SAVED_COLUMN] = 0;
    }
    for (unsigned i = 0; i < RAM; i++)
        r->ram[i] = (uint8_t)(i * 7 + i / 256 + 1);
}

/* There is more room for answers than any trace needs. */
static inline uint64_t replay_bytes(struct rig *r, const uint8_t *bytes, size_t len)
{
    return pedralume_replay(r->chips, CHIPS, r->ram, RAM, bytes, len, r->answers, sizeof r->answers);
}

/* ---- the prelude, and records that are refused after it ---- */

/* Ten records: four reads compared, two of them differing; leaves the left chip in read-modify-write. */
static inline void put_prelude(struct trace *t)
{
    put_command(t, 0, 0xB9);
    put_command(t, 0, 0x04);
    put_write(t, 0, 0x77);
    put_command(t, 0, 0x04);
    put_command(t, 0, 0xE0);
    put_read(t, 0, 0xFF);                                           /* stale: not compared */
    put_read(t, 0, 0x77);
    put_read(t, 0, 0x78);
    put_status(t, 1, 0x60);
    put_status(t, 1, 0x61);
}

/* The prelude alone. */
static inline const struct trace *prelude(void)
{
    static struct trace t;
    memset(&t, 0, sizeof t);
    put_prelude(&t);
    return &t;
}

struct bad_record {
    uint8_t lines, chip, data, last, number;
};

/*
 * Each is refused with its number where the left chip is in read-modify-write and the right one is not. Those
 * with several faults show which number comes first.
 */
static const struct bad_record bad_records[] = {
    { 0x0A, 0, 0xAF, 0, 4 }, { 0x12, 0, 0xAF, 0, 4 }, { 0x22, 0, 0xAF, 0, 4 }, { 0x42, 0, 0xAF, 0, 4 },
    { 0x82, 0, 0xAF, 0, 4 }, { 2, 0, 0xAF, 1, 4 },    { 3, 1, 0, 0x80, 4 },    { 4, 0, 0, 0xFF, 4 },
    { 8, 2, 0, 0, 4 },       { 0xFF, 0xFF, 0xFF, 0xFF, 4 },  { 2, 0, 0x80, 1, 4 },    { 0, 2, 0x05, 1, 4 },
    { 2, 0, 0xB9, 1, 4 },    { 0x0A, 0, 0xB9, 0, 4 }, { 3, 0, 0x96, 1, 4 },    { 0x0B, 0, 0x96, 0, 4 },
    { 2, 1, 0x64, 1, 4 },    { 0x0A, 1, 0x64, 0, 4 },
    { 2, 2, 0xAF, 0, 5 },    { 3, 255, 0, 0, 5 },     { 4, 128, 0, 0, 5 },     { 5, 3, 0, 0, 5 },
    { 0, 2, 0, 0, 5 },       { 7, 2, 0, 0, 5 },       { 2, 2, 0x80, 0, 5 },    { 2, 2, 0xB9, 0, 5 },    { 2, 2, 0x64, 0, 5 },
    { 0, 0, 0xAF, 0, 6 },    { 1, 1, 0, 0, 6 },       { 6, 0, 0, 0, 6 },       { 7, 1, 0, 0, 6 },
    { 0, 0, 0x80, 0, 6 },    { 0, 0, 0x05, 0, 6 },    { 6, 0, 0x05, 0, 6 },    { 6, 0, 0xB9, 0, 6 },
    { 0, 1, 0x64, 0, 6 },    { 6, 1, 0x64, 0, 6 },
    { 2, 0, 0x80, 0, 7 },    { 2, 1, 0xFF, 0, 7 },    { 2, 0, 0xA2, 0, 7 },    { 2, 1, 0xE1, 0, 7 },    { 2, 0, 0xBC, 0, 7 },
    { 2, 1, 0x80, 0, 7 },
    { 2, 0, 0x00, 0, 8 },    { 2, 0, 0x05, 0, 8 },    { 2, 0, 0x4F, 0, 8 },    { 2, 0, 0x50, 0, 8 },    { 2, 0, 0x64, 0, 8 },
    { 2, 0, 0x7F, 0, 8 },
    { 2, 1, 0x50, 0, 14 },   { 2, 1, 0x51, 0, 14 },   { 2, 1, 0x64, 0, 14 },   { 2, 1, 0x7F, 0, 14 },
};

enum { BAD_RECORDS = sizeof bad_records / sizeof bad_records[0] };

static inline void put_bad(struct trace *t, const struct bad_record *bad)
{
    put_record(t, bad->lines, bad->chip, bad->data, bad->last);
}

/* ---- the trace of the printed listing ---- */

static const uint8_t listing_trace[] = {
    0x02, 0x00, 0xB9, 0x00, 0x02, 0x00, 0x4F, 0x00, 0x03, 0x00, 0xA5, 0x00,
    0x03, 0x00, 0x3C, 0x00, 0x02, 0x00, 0x4F, 0x00, 0x05, 0x00, 0x00, 0x00,
    0x05, 0x00, 0xA5, 0x00, 0x05, 0x00, 0xA5, 0x00, 0x04, 0x00, 0xA0, 0x00,
};

static const char listing_text[] = "0 0 00\n1 0 00\n2 0 00\n3 0 00\n4 0 00\n"
                                   "5 2 00\n6 1 A5\n7 2 A5\n8 3 60\nend 0 9 2 1\n";

/* ---- a cursor's cell read back (C-12) ---- */

/* To the left chip, each with its answer. An empty read is recorded with a byte that would differ if it were compared. */
static const struct { uint8_t lines, data, kind, byte; } cursor[] = {
    /* the neighbour 41, the cell 42; the latch comes to have the neighbour's byte */
    { 2, 0xB9, 0, 0 }, { 2, 9, 0, 0 }, { 3, 0x41, 0, 0 }, { 3, 0x42, 0, 0 }, { 2, 9, 0, 0 }, { 5, 0x41, 2, 0 },
    /* the cell after a page set */
    { 2, 0xB9, 0, 0 }, { 5, 0x42, 2, 0x41 }, { 5, 0x42, 1, 0x42 },
    /* the cell after a data write beside it, in read-modify-write */
    { 2, 9, 0, 0 }, { 2, 0xE0, 0, 0 }, { 5, 0x41, 2, 0 }, { 5, 0x41, 1, 0x41 },
    { 3, 0xBE, 0, 0 }, { 5, 0x42, 2, 0x41 }, { 5, 0x42, 1, 0x42 }, { 2, 0xEE, 0, 0 },
    /* a data write at column 80, where there is no cell */
    { 2, 79, 0, 0 }, { 3, 0x43, 0, 0 }, { 2, 79, 0, 0 }, { 5, 0x43, 2, 0x42 },
    { 3, 0x44, 0, 0 }, { 5, 0x44, 2, 0x43 }, { 5, 0x44, 2, 0x43 },
};

enum { CURSOR = sizeof cursor / sizeof cursor[0] };

static inline const struct trace *cursor_trace(void)
{
    static struct trace t;
    t.len = 0;
    for (size_t i = 0; i < CURSOR; i++)
        put_record(&t, cursor[i].lines, 0, cursor[i].data, 0);
    return &t;
}

/* ---- the longest trace ---- */

/* It is full of status reads, of either chip in turn; the first 16,000 of them differ. */
static inline void put_longest(struct trace *t)
{
    for (unsigned i = 0; i < RECORDS_MAX; i++)
        put_status(t, i % 2, i < 16000 ? 0x61 : 0x60);
}

#endif

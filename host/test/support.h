/*
 * What the tests of each call, lists.c, compare.c, feeds.c, orders.c, stack.c and bench.c share: random numbers,
 * traces, random states, the plain implementation's names. Everything is static, so that each program takes
 * what it needs.
 */
#ifndef SUPPORT_H
#define SUPPORT_H

#include "pedralume.h"

#include <stdbool.h>
#include <stdio.h>
#include <stdlib.h>
#include <string.h>

enum {
    CHIP = PEDRALUME_CHIP_BYTES,
    CHIPS = PEDRALUME_CHIPS_BYTES,
    RAM = PEDRALUME_RAM_BYTES,
    HALF_RAM = RAM / 2,
    RECORD = PEDRALUME_RECORD_BYTES,
    TRACE_MAX = PEDRALUME_TRACE_MAX_BYTES,
    RECORDS_MAX = TRACE_MAX / RECORD,
    FRAME = PEDRALUME_FRAME_BYTES,
    PICTURE = PEDRALUME_PICTURE_BYTES,
    REPAINT_RECORDS = PEDRALUME_REPAINT_RECORDS,
    REPAINT = PEDRALUME_REPAINT_BYTES,
    FEED = PEDRALUME_FEED_BYTES,
    ENTRY = PEDRALUME_ENTRY_BYTES,
    ENTRIES_MAX = PEDRALUME_ENTRIES_MAX_BYTES,
    COLUMN_STOP = PEDRALUME_COLUMN_STOP,
    COLUMN_SETS = 0x80,                     /* bytes 00 to 7F are column sets; from COLUMN_STOP on they are refused */
    WIDTH = 122,
    HALF_WIDTH = 61,
    HALF_PIXELS = 32 * HALF_WIDTH
};

/* Highest value of each field of a chip's bytes. */
static const uint8_t field_limit[CHIP] = { 1, 1, 1, 1, 1, 3, 31, COLUMN_STOP, COLUMN_STOP, 1, 255, 0 };

/* The plain implementation. Frame and repaint have the same shape of call. */
typedef uint64_t replay_call(uint8_t *, size_t, uint8_t *, size_t, const uint8_t *, size_t, uint8_t *, size_t);
typedef uint64_t paint_call(const uint8_t *, size_t, const uint8_t *, size_t, uint8_t *, size_t);
extern replay_call plain_replay;
extern paint_call plain_frame;
extern paint_call plain_repaint;
typedef uint64_t open_call(uint8_t *, size_t, const uint8_t *, size_t);
typedef uint64_t close_call(uint8_t *, size_t);
extern open_call plain_feed_open;
extern replay_call plain_feed_part;         /* the feed's bytes where replay has chips */
extern close_call plain_feed_close;
typedef uint64_t changes_call(const uint8_t *, size_t, const uint8_t *, size_t, const uint8_t *, size_t, uint8_t *, size_t);
extern changes_call plain_changes;
extern changes_call plain_sparing_repaint; /* picture and output where changes has trace and entries */

/* ---- answers ---- */

static inline uint64_t answer_of(unsigned number, size_t place, unsigned compared, unsigned differing)
{
    return (uint64_t)number + ((uint64_t)place << 8) + ((uint64_t)compared << 24) + ((uint64_t)differing << 40);
}

static inline void print_answer(const char *label, uint64_t answer)
{
    printf(" %s %u %u %u %u", label, pedralume_number(answer), pedralume_place(answer),
           pedralume_compared(answer), pedralume_differing(answer));
}

/* Whether it refuses a record: the place is that record, and the records before it stand. */
static inline bool refuses_record(unsigned number)
{
    return (number >= PEDRALUME_SPARE_BITS && number <= PEDRALUME_COLUMN_IN_RMW) || number == PEDRALUME_NO_SUCH_COLUMN;
}

/* ---- the feed's bytes ---- */

/* Writes a field of 4 bytes; pedralume_feed_field reads one. */
static inline void set_feed_field(uint8_t *feed, unsigned at, uint32_t value)
{
    for (unsigned i = 0; i < 4; i++)
        feed[at + i] = (uint8_t)(value >> 8 * i);
}

static inline void set_feed_counts(uint8_t *feed, uint32_t records, uint32_t compared, uint32_t differing)
{
    set_feed_field(feed, PEDRALUME_FEED_RECORDS, records);
    set_feed_field(feed, PEDRALUME_FEED_COMPARED, compared);
    set_feed_field(feed, PEDRALUME_FEED_DIFFERING, differing);
}

static inline void set_feed_stop(uint8_t *feed, unsigned stopped, unsigned number, uint32_t place)
{
    feed[PEDRALUME_FEED_STOPPED] = (uint8_t)stopped;
    feed[PEDRALUME_FEED_NUMBER] = (uint8_t)number;
    set_feed_field(feed, PEDRALUME_FEED_PLACE, place);
}

/* What a call of a feed gives back, taken apart. */
static inline void print_feed_answer(const char *label, uint64_t answer)
{
    printf(" %s %u %lu", label, pedralume_number(answer), (unsigned long)pedralume_feed_place(answer));
    if (answer >> 40 != 0)
        printf(" and more above the place: %llx", (unsigned long long)answer);
}

/* ---- random numbers: splitmix64 ---- */

struct rng {
    uint64_t state;
};

static inline uint64_t rng_next(struct rng *g)
{
    uint64_t z = (g->state += 0x9E3779B97F4A7C15u);
    z = (z ^ (z >> 30)) * 0xBF58476D1CE4E5B9u;
    z = (z ^ (z >> 27)) * 0x94D049BB133111EBu;
    return z ^ (z >> 31);
}

/* 0 to n-1. */
static inline unsigned below(struct rng *g, unsigned n)
{
    return (unsigned)((rng_next(g) >> 32) * n >> 32);
}

/* low to high, both included. */
static inline unsigned between(struct rng *g, unsigned low, unsigned high)
{
    return low + below(g, high - low + 1);
}

static inline bool one_in(struct rng *g, unsigned n)
{
    return below(g, n) == 0;
}

static inline uint8_t random_byte(struct rng *g)
{
    return (uint8_t)below(g, 256);
}

static inline void random_bytes(struct rng *g, uint8_t *bytes, size_t len)
{
    for (size_t i = 0; i < len; i++)
        bytes[i] = random_byte(g);
}

/* A generator for case `at` of a stream, the same however many cases are drawn. */
static inline struct rng rng_for(uint64_t seed, uint64_t stream, uint64_t at)
{
    struct rng g = { seed ^ stream << 56 };
    g.state = rng_next(&g) + at * 0xD1342543DE82EF95u;
    rng_next(&g);
    return g;
}

/* ---- traces ---- */

struct trace {
    size_t len;
    uint8_t bytes[TRACE_MAX + 4096];
};

static inline void put_record(struct trace *t, unsigned lines, unsigned chip, unsigned data, unsigned last)
{
    uint8_t *at = t->bytes + t->len;
    at[0] = (uint8_t)lines;
    at[1] = (uint8_t)chip;
    at[2] = (uint8_t)data;
    at[3] = (uint8_t)last;
    t->len += RECORD;
}

static inline void put_command(struct trace *t, unsigned chip, unsigned byte)
{
    put_record(t, PEDRALUME_COMMAND_WRITE, chip, byte, 0);
}

static inline void put_write(struct trace *t, unsigned chip, unsigned byte)
{
    put_record(t, PEDRALUME_DATA_WRITE, chip, byte, 0);
}

static inline void put_read(struct trace *t, unsigned chip, unsigned seen)
{
    put_record(t, PEDRALUME_DATA_READ, chip, seen, 0);
}

static inline void put_status(struct trace *t, unsigned chip, unsigned seen)
{
    put_record(t, PEDRALUME_STATUS_READ, chip, seen, 0);
}

enum { COMMAND_KINDS = 10 };

/* Which of the ten commands the byte is, in the order of their bytes; one past the last where it is none. */
static inline unsigned command_kind(unsigned byte)
{
    static const uint8_t range[COMMAND_KINDS][2] = {
        { 0x00, COLUMN_SETS - 1 }, { 0xA0, 0xA1 }, { 0xA4, 0xA5 }, { 0xA8, 0xA9 }, { 0xAE, 0xAF },
        { 0xB8, 0xBB }, { 0xC0, 0xDF }, { 0xE0, 0xE0 }, { 0xE2, 0xE2 }, { 0xEE, 0xEE },
    };
    unsigned kind = 0;
    while (kind < COMMAND_KINDS && (byte < range[kind][0] || byte > range[kind][1]))
        kind++;
    return kind;
}

static inline bool is_command(unsigned byte)
{
    return command_kind(byte) < COMMAND_KINDS;
}

/* A column set that is refused, since RAM has no such column (C-15). */
static inline bool is_missing_column(unsigned byte)
{
    return byte >= COLUMN_STOP && byte < COLUMN_SETS;
}

/* ---- random states ---- */

/* A chip's bytes that number 2 lets pass; column and saved column are now and then the one where counting stops. */
static inline void draw_chip(struct rng *g, uint8_t *chip)
{
    for (size_t i = 0; i < CHIP; i++)
        chip[i] = (uint8_t)below(g, field_limit[i] + 1u);
    for (unsigned field = PEDRALUME_COLUMN; field <= PEDRALUME_SAVED_COLUMN; field++)
        if (one_in(g, 8))
            chip[field] = COLUMN_STOP;
    if (!one_in(g, 4))
        chip[PEDRALUME_RMW] = 0;
    if (chip[PEDRALUME_RMW] == 0)
        chip[PEDRALUME_SAVED_COLUMN] = 0;
}

static inline void draw_chips(struct rng *g, uint8_t *chips)
{
    draw_chip(g, chips);
    draw_chip(g, chips + CHIP);
}

/* Both chips show RAM half of the time. */
static inline void draw_showing_chips(struct rng *g, uint8_t *chips)
{
    draw_chips(g, chips);
    if (one_in(g, 2))
        return;
    for (unsigned chip = 0; chip < 2; chip++) {
        chips[CHIP * chip + PEDRALUME_DISPLAY] = 1;
        chips[CHIP * chip + PEDRALUME_STATIC] = 0;
    }
}

/* Any command but column set and those that switch read-modify-write. */
static inline unsigned draw_plain_command(struct rng *g)
{
    static const uint8_t first[] = { 0xA0, 0xA4, 0xA8, 0xAE, 0xB8, 0xC0, 0xE2 };
    static const uint8_t count[] = { 2, 2, 2, 2, 4, 32, 1 };
    unsigned i = below(g, sizeof first);
    return first[i] + below(g, count[i]);
}

static inline void put_column_or_end(struct trace *t, struct rng *g, unsigned chip, bool *rmw)
{
    if (*rmw) {
        put_command(t, chip, 0xEE);
        *rmw = false;
    } else {
        put_command(t, chip, one_in(g, 10) ? COLUMN_STOP - 1 : below(g, COLUMN_STOP));
    }
}

/*
 * Appends records that are all accepted from this state. That depends on one thing only: which
 * chips are in read-modify-write. Reads are recorded as 0; settle_reads puts better bytes there.
 */
static inline void put_valid(struct trace *t, struct rng *g, const uint8_t *chips, size_t records)
{
    bool rmw[2] = { chips[PEDRALUME_RMW] != 0, chips[CHIP + PEDRALUME_RMW] != 0 };
    unsigned chip = below(g, 2);
    for (size_t i = 0; i < records; i++) {
        unsigned roll = below(g, 100);
        if (one_in(g, 6))
            chip = 1 - chip;
        if (roll < 36) {
            put_write(t, chip, random_byte(g));
        } else if (roll < 68) {
            put_read(t, chip, 0);
        } else if (roll < 75) {
            put_status(t, chip, 0);
        } else if (roll < 85) {
            put_column_or_end(t, g, chip, &rmw[chip]);
        } else if (roll < 89) {
            put_command(t, chip, 0xE0);
            rmw[chip] = true;
        } else if (roll < 91) {
            put_command(t, chip, 0xEE);
            rmw[chip] = false;
        } else {
            put_command(t, chip, draw_plain_command(g));
        }
    }
}

/* The same with display off and static drive on only now and then, so that many records are seen on the panel. */
static inline void put_shown(struct trace *t, struct rng *g, const uint8_t *chips, size_t records)
{
    put_valid(t, g, chips, records);
    for (uint8_t *record = t->bytes; record < t->bytes + t->len; record += RECORD)
        if (record[0] == PEDRALUME_COMMAND_WRITE && (record[2] == 0xAE || record[2] == 0xA5) && !one_in(g, 16))
            record[2] = record[2] == 0xAE ? 0xAF : 0xA4;
}

/*
 * Gives each read that is answered the answered byte half of the time, and a random byte else, from this byte of
 * the trace on. Chips and RAM go on to what they are after the last accepted record.
 */
static inline void settle_from(struct trace *t, size_t from, struct rng *g, uint8_t *chips, uint8_t *ram)
{
    static uint8_t answers[2 * RECORDS_MAX];
    uint8_t *records = t->bytes + from;
    size_t whole = (t->len - from) / RECORD * RECORD;
    uint64_t answer = plain_replay(chips, CHIPS, ram, RAM, records, whole, answers, sizeof answers);
    for (size_t i = 0; i < pedralume_place(answer); i++)
        if (answers[2 * i] != PEDRALUME_KIND_WRITE)
            records[RECORD * i + 2] = one_in(g, 2) ? answers[2 * i + 1] : random_byte(g);
}

/* The same in the whole trace; chips and RAM stay. */
static inline void settle_reads(struct trace *t, struct rng *g, const uint8_t *chips, const uint8_t *ram)
{
    uint8_t chips_then[CHIPS], ram_then[RAM];
    memcpy(chips_then, chips, CHIPS);
    memcpy(ram_then, ram, RAM);
    settle_from(t, 0, g, chips_then, ram_then);
}

/* ---- random repaints ---- */

enum { LONGEST_PICTURE = 600, LONGEST_OUTPUT = REPAINT + 200 };

/* A chip that a repaint takes; page, column, read latch and ADC are any. */
static inline void draw_ready_chip(struct rng *g, uint8_t *chip)
{
    draw_chip(g, chip);
    chip[PEDRALUME_DISPLAY] = 1;
    chip[PEDRALUME_STATIC] = chip[PEDRALUME_DUTY] = chip[PEDRALUME_RMW] = chip[PEDRALUME_SAVED_COLUMN] = 0;
    chip[PEDRALUME_START_LINE] = one_in(g, 2) ? 0 : 16;
}

/* Appends a repaint of these chips, which are ready, and turns their start lines as it does. */
static inline void put_repaint(struct trace *t, uint8_t *chips, const uint8_t *picture)
{
    plain_repaint(chips, CHIPS, picture, PICTURE, t->bytes + t->len, REPAINT);
    t->len += REPAINT;
    chips[PEDRALUME_START_LINE] ^= 16;
    chips[CHIP + PEDRALUME_START_LINE] ^= 16;
}

/* Where byte i of a picture goes: its place in RAM, in the pages that these ready chips hide. */
static inline unsigned hidden_place(const uint8_t *chips, unsigned i)
{
    unsigned chip = i % WIDTH / HALF_WIDTH, segment = i % HALF_WIDTH;
    const uint8_t *c = chips + CHIP * chip;
    unsigned page = (c[PEDRALUME_START_LINE] == 0 ? 2 : 0) + i / WIDTH;
    return HALF_RAM * chip + COLUMN_STOP * page + (c[PEDRALUME_ADC] ? COLUMN_STOP - 1 - segment : segment);
}

/* Makes the hidden pages hold the picture but for these differences, 0 for a byte that is the same. */
static inline void hide_picture(const uint8_t *chips, uint8_t *ram, const uint8_t *picture, const uint8_t *differences)
{
    for (unsigned i = 0; i < PICTURE; i++)
        ram[hidden_place(chips, i)] = picture[i] ^ differences[i];
}

/* At most four single bytes, half of them at either end of a page; or runs, which end one time in so many bytes, in 0 never. */
static inline void draw_differences(struct rng *g, uint8_t *differences)
{
    static const uint8_t ends[] = { 0, 1, 2, 4, 16, 64 };
    unsigned end = ends[below(g, sizeof ends)];
    bool differs = one_in(g, 2);
    memset(differences, 0, PICTURE);
    if (one_in(g, 4)) {
        for (unsigned bytes = below(g, 5); bytes > 0; bytes--) {
            unsigned at_end = HALF_WIDTH * below(g, 4) + (one_in(g, 2) ? 0 : HALF_WIDTH - 1);
            differences[one_in(g, 2) ? at_end : below(g, PICTURE)] = (uint8_t)between(g, 1, 255);
        }
        return;
    }
    for (unsigned i = 0; i < PICTURE; i++) {
        differs ^= end > 0 && one_in(g, end);
        differences[i] = differs ? (uint8_t)between(g, 1, 255) : 0;
    }
}

/* Any length from 0 to most but the right one, often next to it. */
static inline size_t wrong_length(struct rng *g, unsigned right, unsigned most)
{
    unsigned len = one_in(g, 3) ? right + 1 : one_in(g, 2) ? right - 1 : below(g, most + 1);
    return len == right ? 0 : len;
}

/* Mostly exact or longer, sometimes too short. */
static inline size_t draw_output_length(struct rng *g)
{
    if (one_in(g, 20))
        return one_in(g, 2) ? REPAINT - 1 : below(g, REPAINT);
    return one_in(g, 2) ? REPAINT : between(g, REPAINT, LONGEST_OUTPUT);
}

/* Mostly exact, sometimes too short or too long. */
static inline size_t draw_picture_length(struct rng *g)
{
    return one_in(g, 20) ? wrong_length(g, PICTURE, LONGEST_PICTURE) : PICTURE;
}

#endif

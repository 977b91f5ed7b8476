/*
 * Random traces of runs, for compare.c, feeds.c and orders.c. A run is data writes or data reads of one chip,
 * one after the other. It is cut by a refused record, after which it seems to go on, by accepted records of the
 * other chip or of another kind, or by the end of the trace. What is drawn is counted.
 */
#ifndef RUN_TRACES_H
#define RUN_TRACES_H

#include "contest.h"

enum { LONG_RUN = 200, LONGEST_RUN = 1000, MOST_RUNS = 4, NEAR_STOP = 60 };

enum { WRITES, READS, RUN_KINDS };

static const uint8_t lines_of[RUN_KINDS] = { PEDRALUME_DATA_WRITE, PEDRALUME_DATA_READ };

struct run {
    unsigned kind, chip;
    size_t length;
};

/*
 * What cuts a run. First a record with one of the faults. Then accepted ones: the same cycle of the other chip;
 * of the same chip the other data cycle, a status read or a command; one of these three of the other chip; runs
 * of length 1.
 */
enum { OTHER_CHIP = FAULTS, OTHER_DATA, STATUS, COMMAND, OTHER_BOTH, SINGLES, TRACE_END, CUTS };

static const char *const cut_name[CUTS] = {
    "spare line", "fourth byte", "chip over 1", "RD and WR equal", "no command", "no such column", "column in read-modify-write",
    "other chip", "other data cycle", "status read", "command", "other cycle of the other chip", "single records", "end of the trace",
};
static const uint8_t fault_number[FAULTS] = { 4, 4, 5, 6, 7, 14, 8 };

/* Where one bit of a record can be wrong, so that it has one of the first three faults: in this byte, from this bit on. */
static const struct { unsigned byte, bit; } odd_bits[HIGH_CHIP + 1] = { { 0, 3 }, { 3, 0 }, { 1, 1 } };

/* Which records of a run find column 80, where counting stops: none, those after some others, all. */
enum { NONE_STOPPED, SOME_STOPPED, ALL_STOPPED, SPANS };

/*
 * Runs as they were drawn: by length, where one past the last is any longer one; by column, of those that find
 * column 80; by mode, latch mark and span; by what cut them, which may be a command or a single odd bit.
 */
static struct {
    unsigned long length[RUN_KINDS][LONG_RUN + 2], column[RUN_KINDS][COLUMN_STOP + 1], state[RUN_KINDS][2][2][SPANS];
    unsigned long cut[RUN_KINDS][CUTS], command[RUN_KINDS][COMMAND_KINDS], bit[RUN_KINDS][RECORD][8], singles[RUN_KINDS + 1];
} drawn;

/* ---- the trace so far ---- */

/* A trace that grows, and chips and RAM as its records leave them. */
struct course {
    struct trace *trace;
    uint8_t chips[CHIPS], ram[RAM];
    size_t accepted;                /* bytes of the trace */
    unsigned number;                /* the one that refuses the record after these, or 0 where there is none */
    size_t ends[MOST_RUNS], runs;   /* the bytes where the runs end */
};

static inline void begin_course(struct course *c, struct trace *t, const uint8_t *chips, const uint8_t *ram)
{
    *c = (struct course){ .trace = t };
    memcpy(c->chips, chips, CHIPS);
    memcpy(c->ram, ram, RAM);
    t->len = 0;
}

/* Takes the records put since, which are all accepted. */
static inline void advance(struct course *c, struct rng *g)
{
    settle_from(c->trace, c->accepted, g, c->chips, c->ram);
    c->accepted = c->trace->len;
}

static inline bool in_rmw(const struct course *c, unsigned chip)
{
    return c->chips[CHIP * chip + PEDRALUME_RMW] != 0;
}

/* ---- runs ---- */

static inline unsigned span_of(const uint8_t *chip, const struct run *r)
{
    bool stands = r->kind == READS && chip[PEDRALUME_RMW] != 0;
    if (chip[PEDRALUME_COLUMN] == COLUMN_STOP)
        return ALL_STOPPED;
    return stands || chip[PEDRALUME_COLUMN] + r->length <= COLUMN_STOP ? NONE_STOPPED : SOME_STOPPED;
}

static inline void note_run(const uint8_t *chip, const struct run *r)
{
    unsigned span = span_of(chip, r);
    drawn.length[r->kind][r->length <= LONG_RUN ? r->length : LONG_RUN + 1]++;
    drawn.column[r->kind][chip[PEDRALUME_COLUMN]] += span != NONE_STOPPED;
    drawn.state[r->kind][chip[PEDRALUME_RMW]][chip[PEDRALUME_LATCH_MARK]][span]++;
}

static inline void put_data(struct trace *t, struct rng *g, unsigned kind, unsigned chip, size_t records)
{
    for (; records > 0; records--)
        put_record(t, lines_of[kind], chip, random_byte(g), 0);
}

static inline void put_run(struct course *c, struct rng *g, const struct run *r)
{
    note_run(c->chips + CHIP * r->chip, r);
    put_data(c->trace, g, r->kind, r->chip, r->length);
    advance(c, g);
    c->ends[c->runs++] = c->accepted;
}

static inline void put_mode(struct course *c, struct rng *g, unsigned chip, bool on)
{
    if (in_rmw(c, chip) != on)
        put_command(c->trace, chip, on ? 0xE0 : 0xEE);
    advance(c, g);
}

/* ---- what cuts them ---- */

/* Puts the run's next record with the fault, and more records of the run. Some faults are a single bit. */
static inline void put_fault(struct course *c, struct rng *g, const struct run *r, unsigned fault)
{
    uint8_t *record = c->trace->bytes + c->trace->len;
    c->number = fault_number[fault];
    put_data(c->trace, g, r->kind, r->chip, between(g, 1, 20));
    if (fault <= HIGH_CHIP && one_in(g, 2)) {
        unsigned byte = odd_bits[fault].byte, bit = between(g, odd_bits[fault].bit, 7);
        record[byte] = (uint8_t)(record[byte] ^ 1u << bit);
        drawn.bit[r->kind][byte][bit]++;
    } else {
        spoil_record(record, g, fault);
    }
}

/* Puts any command that is accepted. */
static inline void put_any_command(struct course *c, struct rng *g, const struct run *r, unsigned chip)
{
    bool rmw = in_rmw(c, chip);
    unsigned way = below(g, 4);
    if (way == 0)
        put_column_or_end(c->trace, g, chip, &rmw);
    else if (way == 1)
        put_command(c->trace, chip, one_in(g, 2) ? 0xE0 : 0xEE);
    else
        put_command(c->trace, chip, draw_plain_command(g));
    drawn.command[r->kind][command_kind(c->trace->bytes[c->trace->len - RECORD + 2])]++;
}

/* Puts runs of length 1: data writes, data reads or both, each of another chip than the one before. */
static inline void put_singles(struct course *c, struct rng *g, unsigned chip)
{
    unsigned way = below(g, RUN_KINDS + 1);
    for (unsigned records = between(g, 2, 40); records > 0; records--, chip = 1 - chip)
        put_data(c->trace, g, way < RUN_KINDS ? way : below(g, RUN_KINDS), chip, 1);
    drawn.singles[way]++;
}

static inline void put_cut(struct course *c, struct rng *g, const struct run *r, unsigned cut)
{
    unsigned chip = cut == OTHER_DATA || cut == STATUS || cut == COMMAND ? r->chip : 1 - r->chip;
    if (cut == OTHER_BOTH)
        cut = between(g, OTHER_DATA, COMMAND);
    if (cut == OTHER_CHIP)
        put_data(c->trace, g, r->kind, chip, 1);
    else if (cut == OTHER_DATA)
        put_data(c->trace, g, 1 - r->kind, chip, 1);
    else if (cut == STATUS)
        put_status(c->trace, chip, 0);
    else if (cut == COMMAND)
        put_any_command(c, g, r, chip);
    else
        put_singles(c, g, chip);
    advance(c, g);
}

/* ---- whole traces ---- */

/* Draws chips of which many are near column 80 and in read-modify-write. */
static inline void draw_run_chips(struct rng *g, uint8_t *chips)
{
    draw_chips(g, chips);
    for (uint8_t *chip = chips; chip < chips + CHIPS; chip += CHIP) {
        if (one_in(g, 2))
            chip[PEDRALUME_COLUMN] = (uint8_t)between(g, NEAR_STOP, COLUMN_STOP);
        if (one_in(g, 3)) {
            chip[PEDRALUME_RMW] = 1;
            chip[PEDRALUME_SAVED_COLUMN] = (uint8_t)between(g, 0, COLUMN_STOP);
        }
    }
}

/* Half of the time the run goes on as it was; else it is another one, often near column 80. */
static inline void draw_next_run(struct course *c, struct rng *g, struct run *r)
{
    r->length = one_in(g, 3) ? between(g, 1, 4) : between(g, 1, one_in(g, 20) ? LONGEST_RUN : LONG_RUN);
    if (one_in(g, 2))
        return;
    r->kind = below(g, RUN_KINDS);
    r->chip = below(g, 2);
    if (!in_rmw(c, r->chip) && one_in(g, 2))
        put_command(c->trace, r->chip, between(g, NEAR_STOP, COLUMN_STOP - 1));
    if (one_in(g, 4))
        put_command(c->trace, r->chip, one_in(g, 2) ? 0xE0 : 0xEE);
    advance(c, g);
}

/*
 * Puts runs up to the first that a refused record cuts, or a few. From case to case the first run is of either kind
 * in turn, and has each length from 1 to 200 in turn, in steps of 77.
 */
static inline void put_runs(struct course *c, struct rng *g, unsigned long at)
{
    struct run r = { (unsigned)(at % RUN_KINDS), below(g, 2), 1 + 77 * (at / RUN_KINDS) % LONG_RUN };
    for (unsigned left = between(g, 1, MOST_RUNS); left > 0 && c->number == PEDRALUME_DONE; left--) {
        unsigned cut = left == 1 ? TRACE_END : one_in(g, 2) ? below(g, FAULTS) : between(g, FAULTS, TRACE_END - 1);
        if (cut == COLUMN_IN_RMW || cut == MISSING_COLUMN)
            put_mode(c, g, r.chip, cut == COLUMN_IN_RMW);
        put_run(c, g, &r);
        drawn.cut[r.kind][cut]++;
        if (cut < FAULTS) {
            put_fault(c, g, &r, cut);
        } else if (cut < TRACE_END) {
            put_cut(c, g, &r, cut);
            draw_next_run(c, g, &r);
        }
    }
}

/* ---- what was drawn ---- */

static inline unsigned long sum(const unsigned long *counts, size_t len)
{
    unsigned long all = 0;
    for (size_t i = 0; i < len; i++)
        all += counts[i];
    return all;
}

/* Data reads in read-modify-write stand at their column, so they find column 80 from the first on or never. */
static inline void check_states(void)
{
    for (unsigned i = 0; i < RUN_KINDS * 2 * 2 * SPANS; i++) {
        unsigned kind = i / (4 * SPANS), rmw = i / (2 * SPANS) % 2, mark = i / SPANS % 2, span = i % SPANS;
        if (kind == WRITES || !rmw || span != SOME_STOPPED)
            must_occur(drawn.state[kind][rmw][mark][span], "runs, state", i);
    }
}

static inline void report_runs(void)
{
    static const char *const name[RUN_KINDS] = { "data writes", "data reads" };
    for (unsigned kind = 0; kind < RUN_KINDS; kind++) {
        printf(PROGRAM ": runs of %s: %lu, %lu of them across column 80 and %lu from there, cut by", name[kind],
               sum(drawn.length[kind], LONG_RUN + 2), sum(drawn.column[kind], COLUMN_STOP), drawn.column[kind][COLUMN_STOP]);
        for (unsigned cut = 0; cut < CUTS; cut++)
            printf("%s %s %lu", cut == 0 ? "" : ",", cut_name[cut], drawn.cut[kind][cut]);
        printf("\n");
        for (unsigned cut = 0; cut < CUTS; cut++)
            must_occur(drawn.cut[kind][cut], "runs, cut", cut);
    }
    for (unsigned way = 0; way <= RUN_KINDS; way++)
        must_occur(drawn.singles[way], "runs, single records", way);
    check_states();
}

/* What only many cases come to: each length, each column from 60 on, each command, each single bit. */
static inline void check_run_details(void)
{
    for (unsigned kind = 0; kind < RUN_KINDS; kind++) {
        for (unsigned length = 1; length <= LONG_RUN + 1; length++)
            must_occur(drawn.length[kind][length], "runs, length", length);
        for (unsigned column = NEAR_STOP; column <= COLUMN_STOP; column++)
            must_occur(drawn.column[kind][column], "runs, column", column);
        for (unsigned command = 0; command < COMMAND_KINDS; command++)
            must_occur(drawn.command[kind][command], "runs, command", command);
        for (unsigned fault = 0; fault <= HIGH_CHIP; fault++)
            for (unsigned bit = odd_bits[fault].bit; bit < 8; bit++)
                must_occur(drawn.bit[kind][odd_bits[fault].byte][bit], "runs, bit", 8 * odd_bits[fault].byte + bit);
    }
}

#endif

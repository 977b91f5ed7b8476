/*
 * Request C-18, tried through the C calls: random traces that replay accepts, each in several other orders that keep
 * each chip's own, all replayed from the same chips and RAM. Every reordering must be accepted, give each chip's
 * records the same answers, and end with the same chips, RAM, frame and counts. So that this can fail, two other
 * sorts of reordering must be seen to come to something else now and then: those that break one chip's order, and
 * those of a trace that is refused.
 *
 *   orders [seed [cases]]
 *   orders --write FOLDER [seed [cases]]
 *
 * Case i of a seed is the same whatever the number of cases. With --write other traces are drawn, for fresh chips and
 * RAM all 0; each goes into a file of FOLDER, and so do its reorderings and one that breaks a chip's order: orders.sh
 * gives them to the programs.
 */
#define PROGRAM "orders"
#include "run_traces.h"

enum { MOST_TAIL = 40, SPARE = 400, BROKEN_EACH = 2, BROKEN_FILE = 4, LONG = 100 };

/* Where the program is, for messages. */
static uint64_t seed = 1520;
static unsigned long at;

/* The first failure ends it. */
static void expect(bool good, const char *which, const char *what)
{
    if (good)
        return;
    printf("orders: seed %llu, case %lu, %s: %s\n", (unsigned long long)seed, at, which, what);
    exit(EXIT_FAILURE);
}

/* ---- reorderings ---- */

/* How a trace is reordered. In bursts, the merge of the two chips' lists turns from one to the other less often. */
enum { MERGE, BURSTS, LEFT_FIRST, RIGHT_FIRST, BY_TURNS, EXCHANGES, MANNERS };

static const char *const manner_name[MANNERS] = {
    "any merge", "a merge in bursts", "the left chip first", "the right chip first", "the chips by turns", "neighbours exchanged",
};

/* Each chip's own records. One that names no chip, which only a refused trace has, goes with the right chip's. */
struct own {
    struct trace list[2];
};

static unsigned chip_of(const uint8_t *record)
{
    return record[1] != 0;
}

static void split(const struct trace *t, struct own *o)
{
    o->list[0].len = o->list[1].len = 0;
    for (const uint8_t *record = t->bytes; record < t->bytes + t->len; record += RECORD) {
        struct trace *list = &o->list[chip_of(record)];
        memcpy(list->bytes + list->len, record, RECORD);
        list->len += RECORD;
    }
}

static void copy_trace(struct trace *to, const struct trace *from)
{
    to->len = from->len;
    memcpy(to->bytes, from->bytes, from->len);
}

static bool same_trace(const struct trace *a, const struct trace *b)
{
    return a->len == b->len && memcmp(a->bytes, b->bytes, a->len) == 0;
}

/* Whether each chip's own records in the trace are this list of it. */
static bool keeps_orders(const struct own *o, const struct trace *t)
{
    static struct own others;
    split(t, &others);
    return same_trace(&o->list[0], &others.list[0]) && same_trace(&o->list[1], &others.list[1]);
}

/* The chip whose record comes next, after one of the chip before, where so many bytes of either list lie ahead. */
static unsigned next_chip(struct rng *g, unsigned manner, unsigned before, unsigned burst, const size_t ahead[2])
{
    if (ahead[0] == 0 || ahead[1] == 0)
        return ahead[0] == 0;
    switch (manner) {
    case MERGE:
        return below(g, (unsigned)(ahead[0] + ahead[1])) >= ahead[0];
    case BURSTS:
        return one_in(g, burst) ? 1 - before : before;
    case LEFT_FIRST:
        return 0;
    case RIGHT_FIRST:
        return 1;
    default:
        return 1 - before;
    }
}

static void merge(struct rng *g, unsigned manner, const struct own *o, struct trace *to)
{
    size_t ahead[2] = { o->list[0].len, o->list[1].len };
    unsigned chip = below(g, 2), burst = 1u << between(g, 1, 7);
    to->len = 0;
    while (ahead[0] + ahead[1] > 0) {
        chip = next_chip(g, manner, chip, burst, ahead);
        memcpy(to->bytes + to->len, o->list[chip].bytes + o->list[chip].len - ahead[chip], RECORD);
        to->len += RECORD;
        ahead[chip] -= RECORD;
    }
}

static void exchange(uint8_t *one, uint8_t *other)
{
    uint8_t kept[RECORD];
    memcpy(kept, one, RECORD);
    memcpy(one, other, RECORD);
    memcpy(other, kept, RECORD);
}

/* As a recorder does with cycles that fall close together: seldom or often, and some of them again. */
static void exchange_neighbours(struct rng *g, struct trace *t)
{
    unsigned seldom = 1u << below(g, 7);
    for (unsigned rounds = between(g, 1, 8); rounds > 0; rounds--)
        for (size_t i = RECORD; i < t->len; i += RECORD)
            if (chip_of(t->bytes + i - RECORD) != chip_of(t->bytes + i) && one_in(g, seldom))
                exchange(t->bytes + i - RECORD, t->bytes + i);
}

static void reorder(struct rng *g, unsigned manner, const struct trace *t, const struct own *o, struct trace *to)
{
    if (manner == EXCHANGES) {
        copy_trace(to, t);
        exchange_neighbours(g, to);
    } else {
        merge(g, manner, o, to);
    }
}

/*
 * Exchanges two records of one chip that are not alike, half of the time such that none of its records stands between
 * them. Gives false where none were found.
 */
static bool break_order(struct rng *g, struct trace *t)
{
    unsigned records = (unsigned)(t->len / RECORD);
    bool next = one_in(g, 2);
    for (unsigned tries = records < 2 ? 0 : 20; tries > 0; tries--) {
        unsigned i = below(g, records - 1), j = next ? i + 1 : between(g, i + 1, records - 1);
        uint8_t *one = t->bytes + RECORD * i, *other = t->bytes + RECORD * j, *stop = t->bytes + t->len;
        while (other < stop && chip_of(other) != chip_of(one))
            other += RECORD;
        if (other < stop && memcmp(one, other, RECORD) != 0) {
            exchange(one, other);
            return true;
        }
    }
    return false;
}

/* ---- random accepted traces ---- */

/* What all orders of a case begin with. The room for answers is often longer than due; it and the frame hold any bytes. */
struct start {
    uint8_t chips[CHIPS], ram[RAM], frame[FRAME], answers[2 * RECORDS_MAX + MOST_TAIL];
    size_t answers_len;
};

/*
 * Records of every kind, or long runs; runs as run_traces.h draws them, before its refused record, and then long
 * runs; long runs alone; of random records those that the archive accepts; records of one chip; of both by turns;
 * repaints.
 */
enum { MIXED, CUT_RUNS, LONG_RUNS, KEPT_NOISE, ONE_CHIP, ALTERNATING, REPAINTS, SORTS };

static size_t draw_length(struct rng *g)
{
    unsigned roll = below(g, 400);
    if (roll < 8)
        return 0;
    if (roll < 60)
        return between(g, 1, 4);
    if (roll < 180)
        return between(g, 5, 40);
    if (roll < 385)
        return between(g, 41, 600);
    return roll < 397 ? between(g, 601, RECORDS_MAX) : RECORDS_MAX;
}

/* Appends runs up to so many records. Each run's chip then gets a command, so that not all runs end up at column 80. */
static void put_long_runs(struct trace *t, struct rng *g, const uint8_t *chips, size_t records)
{
    bool rmw[2] = { chips[PEDRALUME_RMW] != 0, chips[CHIP + PEDRALUME_RMW] != 0 };
    while (t->len < RECORD * records) {
        unsigned chip = below(g, 2);
        put_data(t, g, below(g, RUN_KINDS), chip, between(g, 1, one_in(g, 10) ? LONGEST_RUN : LONG_RUN));
        if (one_in(g, 8)) {
            put_command(t, chip, 0xE0);
            rmw[chip] = true;
        } else if (one_in(g, 3)) {
            put_command(t, chip, draw_plain_command(g));
        } else {
            put_column_or_end(t, g, chip, &rmw[chip]);
        }
        if (t->len > RECORD * records)
            t->len = RECORD * records;
    }
}

static void put_cut_runs(struct trace *t, struct rng *g, const struct start *s, size_t records)
{
    struct course c;
    begin_course(&c, t, s->chips, s->ram);
    put_runs(&c, g, at / SORTS);
    t->len = c.accepted;
    put_long_runs(t, g, c.chips, records);
}

/* Each record is tried by itself, on chips and RAM as those kept before it left them. Most are accepted. */
static void put_kept_noise(struct trace *t, struct rng *g, const struct start *s, size_t records)
{
    uint8_t chips[CHIPS], ram[RAM], answer[2];
    memcpy(chips, s->chips, CHIPS);
    memcpy(ram, s->ram, RAM);
    for (size_t tries = 8 * records; tries > 0 && t->len < RECORD * records; tries--) {
        put_noise(t, g, 1);
        uint64_t got = pedralume_replay(chips, CHIPS, ram, RAM, t->bytes + t->len - RECORD, RECORD, answer, sizeof answer);
        if (pedralume_number(got) != PEDRALUME_DONE)
            t->len -= RECORD;
    }
}

/* Makes both chips ready by commands and repaints the panel, once or as often as the records allow. */
static void put_repaints(struct trace *t, struct rng *g, const struct start *s, size_t records)
{
    static const uint8_t commands[] = { 0xEE, 0xAF, 0xA4, 0xA8, 0xC0 };
    uint8_t picture[PICTURE], chips[CHIPS] = { 0 };
    for (unsigned chip = 0; chip < 2; chip++) {
        for (size_t i = 0; i < sizeof commands; i++)
            put_command(t, chip, commands[i]);
        chips[CHIP * chip + PEDRALUME_DISPLAY] = 1;
        chips[CHIP * chip + PEDRALUME_ADC] = s->chips[CHIP * chip + PEDRALUME_ADC];
    }
    do {
        random_bytes(g, picture, PICTURE);
        put_repaint(t, chips, picture);
    } while (t->len + REPAINT <= RECORD * records);
}

/* Leaves the records of the chip that has more of them, or as many of both as can stand by turns; at most so many. */
static void thin_out(struct trace *t, struct rng *g, bool by_turns, size_t records)
{
    static struct own o;
    split(t, &o);
    size_t left = o.list[0].len, right = o.list[1].len;
    if (by_turns) {
        merge(g, BY_TURNS, &o, t);
        t->len = 2 * (left < right ? left : right);
    } else {
        copy_trace(t, &o.list[left < right]);
    }
    if (t->len > RECORD * records)
        t->len = RECORD * records;
}

/* Of every kind, or long runs. */
static void put_either(struct trace *t, struct rng *g, const struct start *s, size_t records)
{
    unsigned way = below(g, 3);
    if (way == 0)
        put_valid(t, g, s->chips, records);
    else if (way == 1)
        put_shown(t, g, s->chips, records);
    else
        put_long_runs(t, g, s->chips, records);
}

/* Draws a trace of about so many records, all of them accepted from this start. */
static void draw_accepted(struct trace *t, struct rng *g, unsigned sort, const struct start *s, size_t records)
{
    t->len = 0;
    if (sort == CUT_RUNS) {
        put_cut_runs(t, g, s, records);
    } else if (sort == LONG_RUNS) {
        put_long_runs(t, g, s->chips, records);
    } else if (sort == KEPT_NOISE) {
        put_kept_noise(t, g, s, records);
    } else if (sort == REPAINTS) {
        put_repaints(t, g, s, records);
    } else if (sort == MIXED) {
        put_either(t, g, s, records);
    } else {
        put_either(t, g, s, records + SPARE < RECORDS_MAX ? records + SPARE : RECORDS_MAX);
        thin_out(t, g, sort == ALTERNATING, records);
    }
    settle_reads(t, g, s->chips, s->ram);
}

/* Each in turn, but one chip alone, which has no other order, less often. */
static unsigned sort_of_case(void)
{
    unsigned sort = (unsigned)(at % SORTS);
    return sort == ONE_CHIP && at / SORTS % 8 > 0 ? MIXED : sort;
}

static void draw_start(struct rng *g, unsigned sort, struct start *s)
{
    if (sort == CUT_RUNS || sort == LONG_RUNS)
        draw_run_chips(g, s->chips);
    else
        draw_showing_chips(g, s->chips);
    random_bytes(g, s->ram, RAM);
    random_bytes(g, s->frame, FRAME);
}

/* ---- one replay ---- */

struct end {
    uint64_t replayed, framed;
    uint8_t chips[CHIPS], ram[RAM], frame[FRAME], answers[2 * RECORDS_MAX + MOST_TAIL], by_chip[2 * RECORDS_MAX];
};

/* In what two ends can differ. */
enum { ANSWERS, CHIP_BYTES, RAM_BYTES, PANEL, COMPARED, DIFFERING, RESPECTS };

static const char *const respect_name[RESPECTS] = {
    "other answers by chip", "other chips", "other RAM", "another frame", "another count of reads compared",
    "another count of reads that differ",
};

static void replay_from(const struct start *s, const struct trace *t, struct end *e)
{
    memcpy(e->chips, s->chips, CHIPS);
    memcpy(e->ram, s->ram, RAM);
    memcpy(e->frame, s->frame, FRAME);
    memcpy(e->answers, s->answers, s->answers_len);
    e->replayed = pedralume_replay(e->chips, CHIPS, e->ram, RAM, t->bytes, t->len, e->answers, s->answers_len);
    e->framed = pedralume_frame(e->chips, CHIPS, e->ram, RAM, e->frame, FRAME);
}

/* The answers to the left chip's records, then those to the right chip's. */
static void part_answers(const struct trace *t, struct end *e)
{
    uint8_t *to = e->by_chip;
    for (unsigned chip = 0; chip < 2; chip++)
        for (size_t i = 0; i < t->len / RECORD; i++)
            if (chip_of(t->bytes + RECORD * i) == chip) {
                memcpy(to, e->answers + 2 * i, 2);
                to += 2;
            }
}

/* What every accepted trace comes to, in any order. */
static void expect_done(const char *which, const struct start *s, const struct trace *t, struct end *e)
{
    size_t records = t->len / RECORD, used = 2 * records;
    expect(pedralume_number(e->replayed) == PEDRALUME_DONE, which, "refused");
    expect(pedralume_place(e->replayed) == records && e->replayed >> 56 == 0, which, "another place than the number of records");
    expect(memcmp(e->answers + used, s->answers + used, s->answers_len - used) == 0, which, "bytes changed past the last answer");
    expect(e->framed == answer_of(0, FRAME, 0, 0), which, "no frame");
    part_answers(t, e);
}

static bool differs(unsigned respect, const struct end *a, const struct end *b)
{
    switch (respect) {
    case ANSWERS:
        return memcmp(a->by_chip, b->by_chip, 2 * pedralume_place(a->replayed)) != 0;
    case CHIP_BYTES:
        return memcmp(a->chips, b->chips, CHIPS) != 0;
    case RAM_BYTES:
        return memcmp(a->ram, b->ram, RAM) != 0;
    case PANEL:
        return memcmp(a->frame, b->frame, FRAME) != 0;
    case COMPARED:
        return pedralume_compared(a->replayed) != pedralume_compared(b->replayed);
    default:
        return pedralume_differing(a->replayed) != pedralume_differing(b->replayed);
    }
}

/* ---- one case ---- */

/*
 * Traces by sort and by both chips' mode and latch mark; reorderings that are not the trace again, those whose answers
 * stand in another order, those that cut a long run or join one. What broken reorderings and those of refused traces
 * came to.
 */
static struct {
    unsigned long sort[SORTS], state[16], empty, single, full, records, compared, differing;
    unsigned long reorderings, moved[MANNERS], answers_moved, cut, joined;
    unsigned long broken, broken_refused, broken_differ, broken_in[RESPECTS];
    unsigned long refused, refused_number, refused_place, refused_in[RESPECTS];
} tally;

static void note_trace(unsigned sort, const struct start *s, const struct trace *t, uint64_t answer)
{
    unsigned state = 0;
    for (unsigned chip = 0; chip < 2; chip++)
        state = 4 * state + 2u * s->chips[CHIP * chip + PEDRALUME_RMW] + s->chips[CHIP * chip + PEDRALUME_LATCH_MARK];
    tally.sort[sort]++;
    tally.state[state]++;
    tally.empty += t->len == 0;
    tally.single += t->len == RECORD;
    tally.full += t->len == TRACE_MAX;
    tally.records += t->len / RECORD;
    tally.compared += pedralume_compared(answer);
    tally.differing += pedralume_differing(answer);
}

/* The records of the longest run of data of one chip. */
static size_t longest_run(const struct trace *t)
{
    size_t longest = 0, run = 0;
    for (size_t i = 0; i < t->len; i += RECORD) {
        const uint8_t *record = t->bytes + i;
        bool goes_on = i > 0 && memcmp(record, record - RECORD, 2) == 0;
        run = (record[0] & 1u) == 0 ? 0 : goes_on ? run + 1 : 1;
        longest = run > longest ? run : longest;
    }
    return longest;
}

static void note_reordering(unsigned manner, const struct trace *t, const struct end *e, const struct trace *other, const struct end *end)
{
    size_t run = longest_run(t), other_run = longest_run(other);
    tally.reorderings++;
    tally.moved[manner] += !same_trace(t, other);
    tally.answers_moved += memcmp(e->answers, end->answers, t->len / RECORD * 2) != 0;
    tally.cut += run >= LONG && other_run < run / 2;
    tally.joined += other_run >= LONG && run < other_run / 2;
}

static void try_manner(struct rng *g, unsigned manner, const struct start *s, const struct trace *t, const struct own *o, const struct end *e)
{
    static struct trace other;
    static struct end end;
    reorder(g, manner, t, o, &other);
    expect(keeps_orders(o, &other), manner_name[manner], "no reordering that keeps each chip's order");
    replay_from(s, &other, &end);
    expect_done(manner_name[manner], s, &other, &end);
    for (unsigned respect = 0; respect < RESPECTS; respect++)
        expect(!differs(respect, e, &end), manner_name[manner], respect_name[respect]);
    note_reordering(manner, t, e, &other, &end);
}

/* A broken order can bring a column set into read-modify-write; nothing else of it can be refused. */
static void try_broken(struct rng *g, const struct start *s, const struct trace *t, const struct own *o, const struct end *e)
{
    static struct trace other;
    static struct end end;
    bool any = false;
    reorder(g, below(g, MANNERS), t, o, &other);
    if (!break_order(g, &other))
        return;
    expect(!keeps_orders(o, &other), "a broken order", "each chip's order is kept");
    replay_from(s, &other, &end);
    tally.broken++;
    if (pedralume_number(end.replayed) == PEDRALUME_COLUMN_IN_RMW) {
        tally.broken_refused++;
        return;
    }
    expect_done("a broken order", s, &other, &end);
    for (unsigned respect = 0; respect < RESPECTS; respect++) {
        bool in_this = differs(respect, e, &end);
        tally.broken_in[respect] += in_this;
        any |= in_this;
    }
    tally.broken_differ += any;
}

/* With one record spoilt, or two. By the request a reordering is refused too: were it accepted, so would this one be. */
static void try_refused(struct rng *g, const struct start *s, const struct trace *t)
{
    static struct trace spoilt, other;
    static struct own o;
    static struct end end, other_end;
    copy_trace(&spoilt, t);
    for (unsigned records = between(g, 1, 2); t->len > 0 && records > 0; records--)
        damage_trace(&spoilt, g);
    replay_from(s, &spoilt, &end);
    if (!refuses_record(pedralume_number(end.replayed)))
        return;
    split(&spoilt, &o);
    reorder(g, below(g, MANNERS), &spoilt, &o, &other);
    replay_from(s, &other, &other_end);
    expect(refuses_record(pedralume_number(other_end.replayed)), "a reordering of a refused trace", "not refused at a record");
    tally.refused++;
    tally.refused_number += pedralume_number(end.replayed) != pedralume_number(other_end.replayed);
    tally.refused_place += pedralume_place(end.replayed) != pedralume_place(other_end.replayed);
    for (unsigned respect = CHIP_BYTES; respect < RESPECTS; respect++)
        tally.refused_in[respect] += differs(respect, &end, &other_end);
}

static void try_case(void)
{
    static struct trace t;
    static struct own o;
    static struct start s;
    static struct end e;
    struct rng g = rng_for(seed, 15, at);
    unsigned sort = sort_of_case();
    draw_start(&g, sort, &s);
    draw_accepted(&t, &g, sort, &s, draw_length(&g));
    s.answers_len = t.len / RECORD * 2 + below(&g, MOST_TAIL + 1);
    random_bytes(&g, s.answers, s.answers_len);
    replay_from(&s, &t, &e);
    expect_done("the trace as drawn", &s, &t, &e);
    note_trace(sort, &s, &t, e.replayed);
    split(&t, &o);
    for (unsigned manner = 0; manner < MANNERS; manner++)
        try_manner(&g, manner, &s, &t, &o, &e);
    for (unsigned i = 0; i < BROKEN_EACH; i++)
        try_broken(&g, &s, &t, &o, &e);
    try_refused(&g, &s, &t);
}

/* ---- the report: what never occurred is a failure too ---- */

static void report_traces(void)
{
    printf("orders: %lu traces, %lu of them empty and %lu of 65,536 bytes, with %lu records, %lu reads compared, %lu differing\n", at,
           tally.empty, tally.full, tally.records, tally.compared, tally.differing);
    for (unsigned sort = 0; sort < SORTS; sort++)
        must_occur(tally.sort[sort], "traces, sort", sort);
    for (unsigned state = 0; state < 16; state++)
        must_occur(tally.state[state], "traces, modes and latch marks", state);
    must_occur(tally.empty, "traces, records", 0);
    must_occur(tally.single, "traces, records", 1);
    must_occur(tally.full, "traces, records", RECORDS_MAX);
    must_occur(tally.compared - tally.differing, "reads that agree with the trace, case", at);
    must_occur(tally.differing, "reads that differ from the trace, case", at);
}

static void report_broken(void)
{
    printf("orders: %lu reorderings that break a chip's order: %lu refused; of the others %lu differ:", tally.broken, tally.broken_refused,
           tally.broken_differ);
    for (unsigned respect = 0; respect < RESPECTS; respect++)
        printf("%s %s %lu", respect == 0 ? "" : ",", respect_name[respect], tally.broken_in[respect]);
    printf("\n");
    must_occur(tally.broken_refused, "broken orders, refused by number", PEDRALUME_COLUMN_IN_RMW);
    for (unsigned respect = 0; respect < RESPECTS; respect++)
        must_occur(tally.broken_in[respect], "broken orders, respect", respect);
}

static void report_refused(void)
{
    printf("orders: %lu refused traces, refused too when reordered: another number %lu, another place %lu", tally.refused,
           tally.refused_number, tally.refused_place);
    for (unsigned respect = CHIP_BYTES; respect < RESPECTS; respect++)
        printf(", %s %lu", respect_name[respect], tally.refused_in[respect]);
    printf("\n");
    must_occur(tally.refused_number, "refused traces, another number, case", at);
    must_occur(tally.refused_place, "refused traces, another place, case", at);
    for (unsigned respect = CHIP_BYTES; respect < RESPECTS; respect++)
        must_occur(tally.refused_in[respect], "refused traces, respect", respect);
}

static void report_reorderings(void)
{
    printf("orders: reorderings that cut a run of %d or more: %lu, that join one: %lu, with the answers in another order: %lu\n", LONG,
           tally.cut, tally.joined, tally.answers_moved);
    must_occur(tally.cut, "reorderings that cut a run of", LONG);
    must_occur(tally.joined, "reorderings that join a run of", LONG);
    must_occur(tally.answers_moved, "answers in another order, case", at);
    for (unsigned manner = 0; manner < MANNERS; manner++)
        must_occur(tally.moved[manner], "reorderings that move records, manner", manner);
}

/* ---- files ---- */

static void write_trace(const char *folder, const char *order, const struct trace *t)
{
    char path[4096];
    snprintf(path, sizeof path, "%s/%lu%s.trace", folder, at, order);
    FILE *file = fopen(path, "wb");
    bool written = file != NULL && fwrite(t->bytes, 1, t->len, file) == t->len;
    expect(file != NULL && fclose(file) == 0 && written, path, "not written");
}

/* Case 7's trace is 7.trace, its reorderings 7-merge.trace and so on, and that which breaks a chip's order is 7-broken.trace. */
static void write_case(const char *folder)
{
    static const char *const name[MANNERS] = { "-merge", "-bursts", "-left", "-right", "-turns", "-exchanges" };
    static struct trace t, other;
    static struct own o;
    static const struct start fresh = { .chips = { PEDRALUME_FRESH_CHIP, PEDRALUME_FRESH_CHIP } };
    struct rng g = rng_for(seed, 16, at);
    draw_accepted(&t, &g, sort_of_case(), &fresh, at == 0 ? RECORDS_MAX : draw_length(&g));
    split(&t, &o);
    write_trace(folder, "", &t);
    for (unsigned manner = 0; manner < MANNERS; manner++) {
        reorder(&g, manner, &t, &o, &other);
        write_trace(folder, name[manner], &other);
    }
    for (unsigned i = 0; i < BROKEN_FILE; i++)
        break_order(&g, &t);
    if (!keeps_orders(&o, &t))
        write_trace(folder, "-broken", &t);
}

int main(int argc, char **argv)
{
    const char *folder = argc > 2 && strcmp(argv[1], "--write") == 0 ? argv[2] : NULL;
    char **given = folder != NULL ? argv + 3 : argv + 1;
    unsigned long cases = folder != NULL ? 4 * SORTS : 8000;
    if (given < argv + argc)
        seed = strtoull(*given++, NULL, 0);
    if (given < argv + argc)
        cases = strtoul(*given, NULL, 0);
    for (at = 0; at < cases; at++)
        if (folder != NULL)
            write_case(folder);
        else
            try_case();
    if (folder != NULL)
        return EXIT_SUCCESS;
    report_traces();
    report_reorderings();
    report_broken();
    report_refused();
    printf("orders: seed %llu, %lu traces, %lu reorderings, %lu of them other than the trace: %s\n", (unsigned long long)seed, cases,
           tally.reorderings, sum(tally.moved, MANNERS), failures == 0 ? "all as promised" : "all as promised, but not all was tried");
    return failures == 0 ? EXIT_SUCCESS : EXIT_FAILURE;
}

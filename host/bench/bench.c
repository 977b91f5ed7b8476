/*
 * Times the archive against the plain implementation: each record of a full trace (16,384 records), replayed
 * or fed in parts of several lengths; each frame, each repaint; each record of a full trace whose changes are
 * listed, where the plain one draws the whole frame at every record. The archive's feed is also timed against
 * its own replay of the same trace, and its sparing repaint against its own repaint of the same picture. Both sides
 * get the same bytes.
 * Another archive may stand in the plain implementation's place, under its names; OTHER_SIDE is what its times are
 * printed under. Where it is older than the sparing repaint, that is timed against the repaint alone.
 * The jobs are gone through in rounds, and within a job the two take turns, so that all see the same
 * machine; the best turn of each counts.
 *
 * Usage: bench [LIMIT [FEED_LIMIT [CHANGES_LIMIT [SPARING_LIMIT]]]]: fails where a ratio of a replay or a frame is
 * over LIMIT, that of a feed in parts of 512 bytes or more to its replay over FEED_LIMIT, one of changes over
 * CHANGES_LIMIT, or that of the sparing repaint of a wholly different picture to the repaint over SPARING_LIMIT; - is
 * no limit.
 *
 * bench once takes one turn of each job that has the plain implementation on its other side, and prints a
 * line for each: how much is done in a turn, of what, and the job's name. instructions.sh reads these lines.
 */
#define _POSIX_C_SOURCE 199309L
#include "../test/support.h"

#include <time.h>

enum { ROUNDS = 200, TURNS_A_ROUND = 5, CALLS_A_TURN = 128, MOST_JOBS = 64 };

/* The two sides of a job. Where the archive is timed against its own replay or repaint, that takes the plain side. */
enum { ARCHIVE, PLAIN };

/* Which limit a job's ratio is held to. */
enum { LIMIT, FEED_LIMIT, CHANGES_LIMIT, SPARING_LIMIT, LIMITS, NO_LIMIT = LIMITS };

/* Null where another archive has not the call. */
#pragma weak plain_sparing_repaint

static double now_ns(void)
{
    struct timespec t;
    clock_gettime(CLOCK_MONOTONIC, &t);
    return (double)t.tv_sec * 1e9 + (double)t.tv_nsec;
}

/* Something that both sides do, and the best time of each. */
struct job {
    char name[48];
    const char *unit;
    const char *side[2];
    unsigned units;     /* done in a turn */
    unsigned limit;
    size_t place;       /* the answer's, done */
    size_t other_place; /* the other side's where it writes other bytes, else 0 */
    size_t entries;     /* bytes lent for entries, 0 but for changes */
    void (*prepare)(const struct job *, unsigned side);
    uint64_t (*work)(const struct job *, unsigned side);
    const void *input;  /* struct load, struct painting, struct sparing or struct feeding, as prepare and work take it */
    bool own;           /* the other side is the archive's own replay or repaint */
    double best[2];
};

static struct job jobs[MOST_JOBS];
static size_t job_count;

/* The job's name says in which way it is done, and what is done so; the latter may be empty. */
static void add(struct job job, const char *way, const char *what)
{
    snprintf(job.name, sizeof job.name, "%s%s%s", way, *what == '\0' ? "" : ", ", what);
    jobs[job_count++] = job;
}

/* What a turn of either has written, as the turn lays it out; entries have a place of their own. */
static uint8_t written[2][CHIPS + RAM + 2 * RECORDS_MAX];
static uint8_t listed[2][ENTRIES_MAX];

static bool same_work(const struct job *job, const uint64_t answer[2])
{
    return answer[ARCHIVE] == answer[PLAIN] && memcmp(written[ARCHIVE], written[PLAIN], sizeof written[PLAIN]) == 0
        && memcmp(listed[ARCHIVE], listed[PLAIN], job->entries) == 0;
}

/* A timing of different work would say nothing, but where the sides are meant to write different bytes. */
static void must_agree(const struct job *job, const uint64_t answer[2])
{
    bool whole = (answer[ARCHIVE] & 0xFFFFFFu) == answer_of(0, job->place, 0, 0);
    if (whole && (job->other_place > 0 ? answer[PLAIN] == answer_of(0, job->other_place, 0, 0) : same_work(job, answer)))
        return;
    printf("bench: %s: the two do not do the same whole work\n", job->name);
    exit(EXIT_FAILURE);
}

/* Does the timed part of a turn. valgrind finds by this name where it counts, so the function must not be inlined. */
__attribute__((noinline, noclone)) static void measured(const struct job *job, unsigned side, uint64_t *answer)
{
    *answer = job->work(job, side);
}

/* Takes one turn of each side. */
static void take_turns(struct job *job)
{
    uint64_t answer[2];
    for (unsigned side = ARCHIVE; side <= PLAIN; side++) {
        job->prepare(job, side);
        double start = now_ns();
        measured(job, side, &answer[side]);
        double took = (now_ns() - start) / job->units;
        if (job->best[side] == 0 || took < job->best[side])
            job->best[side] = took;
    }
    must_agree(job, answer);
}

static double ratio(const struct job *job)
{
    return job->best[ARCHIVE] / job->best[PLAIN];
}

/* A chip's bytes by its switches; page, column and read latch are as in a fresh chip. */
#define SWITCHES(display, static_drive, duty, adc, start_line) display, static_drive, duty, adc, 0, 0, start_line, 0, 0, 0, 0, 0

/* Chips that are ready for a repaint: the left one forward at start line 0, the right one reverse at 16. */
#define READY_CHIPS { SWITCHES(1, 0, 0, 0, 0), SWITCHES(1, 0, 0, 1, 16) }

/* ---- replays ---- */

struct load {
    const char *name;
    uint8_t chips[CHIPS], ram[RAM];
    struct trace trace;
};

/* Restores chips and RAM and clears the answers. */
static void restore(const struct load *load, uint8_t *out)
{
    memcpy(out, load->chips, CHIPS);
    memcpy(out + CHIPS, load->ram, RAM);
    memset(out + CHIPS + RAM, 0, 2 * RECORDS_MAX);
}

static uint64_t replay_load(replay_call *replay, const struct load *load, uint8_t *out)
{
    uint8_t *ram = out + CHIPS, *answers = ram + RAM;
    return replay(out, CHIPS, ram, RAM, load->trace.bytes, load->trace.len, answers, 2 * RECORDS_MAX);
}

static void prepare_replay(const struct job *job, unsigned side)
{
    restore(job->input, written[side]);
}

static uint64_t work_replay(const struct job *job, unsigned side)
{
    return replay_load(side == ARCHIVE ? pedralume_replay : plain_replay, job->input, written[side]);
}

/* Pages one after the other, of both chips in turn: page, column 0, then so many data cycles. */
static void fill_pages(struct load *load, struct rng *g, unsigned lines, unsigned cycles)
{
    unsigned each = 2 + cycles;
    for (unsigned i = 0; i < RECORDS_MAX; i++) {
        unsigned chip = i / each % 2;
        if (i % each == 0)
            put_command(&load->trace, chip, 0xB8 + i / (2 * each) % 4);
        else if (i % each == 1)
            put_command(&load->trace, chip, 0);
        else
            put_record(&load->trace, lines, chip, lines == PEDRALUME_DATA_WRITE ? random_byte(g) : 0, 0);
    }
}

/* Pages painted one after the other, as firmware does. */
static void fill_writes(struct load *load, struct rng *g)
{
    fill_pages(load, g, PEDRALUME_DATA_WRITE, HALF_WIDTH);
}

/* Whole repaints one after the other, each with another picture; the end of the trace cuts the last one. */
static void fill_repaints(struct load *load, struct rng *g)
{
    static const uint8_t ready[CHIPS] = READY_CHIPS;
    uint8_t chips[CHIPS], picture[PICTURE];
    memcpy(load->chips, ready, CHIPS);
    memcpy(chips, ready, CHIPS);
    while (load->trace.len < TRACE_MAX) {
        random_bytes(g, picture, PICTURE);
        put_repaint(&load->trace, chips, picture);
    }
    load->trace.len = TRACE_MAX;
}

/* Pages read one after the other, each whole. The first read of each is stale, the others are compared. */
static void fill_reads(struct load *load, struct rng *g)
{
    fill_pages(load, g, PEDRALUME_DATA_READ, COLUMN_STOP);
}

/* Data reads in read-modify-write, where the column stands still and every read is compared. */
static void fill_rmw_reads(struct load *load, struct rng *g)
{
    (void)g;
    load->chips[PEDRALUME_RMW] = load->chips[CHIP + PEDRALUME_RMW] = 1;
    for (unsigned i = 0; i < RECORDS_MAX; i++)
        put_read(&load->trace, i / 61 % 2, 0);
}

/*
 * A blinking cursor of six columns, each time at another place: page, column, read-modify-write on, for each
 * column a stale read, a compared one and a write, then read-modify-write off. The end of the trace cuts the
 * last one.
 */
static void fill_cursors(struct load *load, struct rng *g)
{
    enum { COLUMNS = 6 };
    struct trace *t = &load->trace;
    while (t->len < TRACE_MAX) {
        unsigned chip = below(g, 2);
        put_command(t, chip, 0xB8 + below(g, 4));
        put_command(t, chip, between(g, 0, COLUMN_STOP - COLUMNS));
        put_command(t, chip, 0xE0);
        for (unsigned i = 0; i < COLUMNS; i++) {
            put_read(t, chip, 0);
            put_read(t, chip, 0);
            put_write(t, chip, random_byte(g));
        }
        put_command(t, chip, 0xEE);
    }
    t->len = TRACE_MAX;
}

/* The random valid trace of the comparison. */
static void fill_mixed(struct load *load, struct rng *g)
{
    put_valid(&load->trace, g, load->chips, RECORDS_MAX);
}

/*
 * Chip and kind are drawn for each record: data write, data read, status read and the ten commands, each as
 * likely as the others, but no column set in read-modify-write. The mixed trace stays with a chip for some six
 * records, and two thirds of its records are data writes and data reads.
 */
static void fill_random(struct load *load, struct rng *g)
{
    enum { KINDS = 13 };
    struct trace *t = &load->trace;
    bool rmw[2] = { false, false };
    while (t->len < TRACE_MAX) {
        unsigned chip = below(g, 2), kind = below(g, KINDS);
        if (kind == 0) {
            put_write(t, chip, random_byte(g));
        } else if (kind == 1) {
            put_read(t, chip, 0);
        } else if (kind == 2) {
            put_status(t, chip, 0);
        } else if (kind == 3) {
            if (!rmw[chip])
                put_command(t, chip, below(g, COLUMN_STOP));
        } else if (kind < 6) {
            rmw[chip] = kind == 4;
            put_command(t, chip, rmw[chip] ? 0xE0 : 0xEE);
        } else {
            put_command(t, chip, draw_plain_command(g));    /* seven kinds */
        }
    }
}

static void add_replay(const char *name, struct load *load, void (*fill)(struct load *, struct rng *))
{
    static const uint8_t fresh[CHIPS] = { PEDRALUME_FRESH_CHIP, PEDRALUME_FRESH_CHIP };
    struct rng g = { 1520 };
    load->name = name;
    memcpy(load->chips, fresh, CHIPS);
    random_bytes(&g, load->ram, RAM);
    fill(load, &g);
    settle_reads(&load->trace, &g, load->chips, load->ram);
    add((struct job){ .unit = "record", .side = { "archive", OTHER_SIDE }, .units = RECORDS_MAX, .limit = LIMIT, .place = RECORDS_MAX,
                      .prepare = prepare_replay, .work = work_replay, .input = load }, "replay", name);
}

/* ---- feeds ---- */

/* A side that has no calls replays the whole trace. */
struct feeding {
    const struct load *load;
    size_t part;
    struct { open_call *open; replay_call *part; } call[2];
};

static uint8_t fed[2][FEED];

static void prepare_feed(const struct job *job, unsigned side)
{
    const struct feeding *f = job->input;
    restore(f->load, written[side]);
    if (f->call[side].open != NULL)
        f->call[side].open(fed[side], FEED, written[side], CHIPS);
}

/* Gives the parts, from the first to the last, and the last answer back. */
static uint64_t give_parts(const struct feeding *f, replay_call *take, uint8_t *feed, uint8_t *ram, uint8_t *answers)
{
    const struct trace *t = &f->load->trace;
    size_t given = 0;
    uint64_t answer = 0;
    for (size_t at = 0; at < t->len; at += f->part) {
        size_t len = t->len - at < f->part ? t->len - at : f->part;
        answer = take(feed, FEED, ram, RAM, t->bytes + at, len, answers + 2 * given, 2 * (RECORDS_MAX - given));
        given = pedralume_feed_place(answer);
    }
    return answer;
}

/* The feed's answer as replay packs it, and its chips where replay has them, so that the two can be compared. */
static uint64_t work_feed(const struct job *job, unsigned side)
{
    const struct feeding *f = job->input;
    uint8_t *feed = fed[side], *chips = written[side], *ram = chips + CHIPS, *answers = ram + RAM;
    if (f->call[side].part == NULL)
        return replay_load(pedralume_replay, f->load, chips);
    uint64_t answer = give_parts(f, f->call[side].part, feed, ram, answers);
    memcpy(chips, feed, CHIPS);
    return answer_of(pedralume_number(answer), pedralume_feed_place(answer), (unsigned)pedralume_feed_compared(feed),
                     (unsigned)pedralume_feed_differing(feed));
}

/* The trace is fed in parts of each length against the archive's own replay and against the plain implementation's feed. */
static void add_feeds(const struct load *load)
{
    static const struct { size_t bytes; const char *way; } parts[] = {
        { 4, "feed by 4" }, { 7, "feed by 7" }, { 64, "feed by 64" }, { 512, "feed by 512" }, { TRACE_MAX, "feed by 65536" },
    };
    static struct feeding feedings[MOST_JOBS];
    for (unsigned i = 0; i < 2 * sizeof parts / sizeof parts[0]; i++) {
        size_t part = parts[i / 2].bytes;
        bool own = i % 2 == 0;
        struct feeding *f = &feedings[job_count];
        *f = (struct feeding){ load, part, { { pedralume_feed_open, pedralume_feed_part }, { NULL, NULL } } };
        if (!own) {
            f->call[PLAIN].open = plain_feed_open;
            f->call[PLAIN].part = plain_feed_part;
        }
        add((struct job){ .unit = "record", .side = { "feed", own ? "replay" : OTHER_SIDE }, .units = RECORDS_MAX,
                          .limit = own && part >= 512 ? FEED_LIMIT : NO_LIMIT, .place = RECORDS_MAX,
                          .prepare = prepare_feed, .work = work_feed, .input = f, .own = own }, parts[i / 2].way, load->name);
    }
}

/* ---- frames and repaints ---- */

/* Chips, source and output, with the length of each but the chips'. */
struct painting {
    paint_call *call[2];
    uint8_t chips[CHIPS];
    uint8_t source[RAM];
    size_t source_len, output_len;
};

static void prepare_painting(const struct job *job, unsigned side)
{
    (void)job;
    memset(written[side], 0xA5, sizeof written[side]);
}

static uint64_t work_painting(const struct job *job, unsigned side)
{
    const struct painting *p = job->input;
    paint_call *const paint = p->call[side];
    uint64_t answer = 0;
    for (unsigned i = 0; i < CALLS_A_TURN; i++)
        answer = paint(p->chips, CHIPS, p->source, p->source_len, written[side], p->output_len);
    return answer;
}

static void fill_source(struct painting *p)
{
    struct rng g = { 1520 };
    random_bytes(&g, p->source, p->source_len);
}

/* Start lines 5 and 18 cross pages. */
static struct painting frames[] = {
    { .chips = { SWITCHES(1, 0, 1, 0, 5), SWITCHES(1, 0, 1, 0, 18) } },
    { .chips = { SWITCHES(1, 0, 1, 1, 5), SWITCHES(1, 0, 1, 1, 18) } },
    { .chips = { SWITCHES(1, 0, 1, 0, 5), SWITCHES(1, 0, 1, 1, 18) } },
    { .chips = { SWITCHES(1, 0, 0, 0, 5), SWITCHES(1, 0, 0, 1, 18) } },
    { .chips = { SWITCHES(1, 1, 1, 0, 5), SWITCHES(1, 1, 1, 1, 18) } },
    { .chips = { SWITCHES(0, 0, 1, 0, 5), SWITCHES(0, 0, 1, 1, 18) } },
};

static void add_frame(const char *name, struct painting *p)
{
    p->call[ARCHIVE] = pedralume_frame;
    p->call[PLAIN] = plain_frame;
    p->source_len = RAM;
    p->output_len = FRAME;
    fill_source(p);
    add((struct job){ .unit = "frame", .side = { "archive", OTHER_SIDE }, .units = CALLS_A_TURN, .limit = LIMIT, .place = FRAME,
                      .prepare = prepare_painting, .work = work_painting, .input = p }, "frame", name);
}

static void add_repaint(void)
{
    static struct painting p = {
        .call = { pedralume_repaint, plain_repaint },
        .chips = READY_CHIPS,
        .source_len = PICTURE,
        .output_len = REPAINT,
    };
    fill_source(&p);
    add((struct job){ .unit = "repaint", .side = { "archive", OTHER_SIDE }, .units = CALLS_A_TURN, .limit = NO_LIMIT,
                      .place = REPAINT_RECORDS, .prepare = prepare_painting, .work = work_painting, .input = &p }, "repaint", "");
}

/* ---- sparing repaints ---- */

/* Ready chips, and a picture that the hidden pages hold but for so many bytes of each band, from a place on. */
struct sparing {
    const char *name;
    unsigned first, count;
    size_t cycles;
    unsigned limit;             /* beside the repaint */
    changes_call *call[2];      /* a side without one repaints */
    uint8_t chips[CHIPS], ram[RAM], picture[PICTURE];
};

static uint64_t work_sparing(const struct job *job, unsigned side)
{
    const struct sparing *s = job->input;
    changes_call *const spare = s->call[side];
    uint64_t answer = 0;
    for (unsigned i = 0; i < CALLS_A_TURN; i++)
        answer = spare != NULL ? spare(s->chips, CHIPS, s->ram, RAM, s->picture, PICTURE, written[side], REPAINT)
                               : pedralume_repaint(s->chips, CHIPS, s->picture, PICTURE, written[side], REPAINT);
    return answer;
}

static void fill_sparing(struct sparing *s)
{
    struct rng g = { 1520 };
    uint8_t differences[PICTURE] = { 0 };
    random_bytes(&g, s->ram, RAM);
    random_bytes(&g, s->picture, PICTURE);
    for (unsigned i = 0; i < PICTURE; i++)
        differences[i] = i % WIDTH >= s->first && i % WIDTH < s->first + s->count ? 0x55 : 0;
    hide_picture(s->chips, s->ram, s->picture, differences);
}

/* Against the archive's own repaint or against the plain implementation. A letter is ten columns of one half, in both bands. */
static void add_sparing(bool own)
{
    static const struct sparing kinds[] = {
        { .name = "one letter", .first = 20, .count = 10, .cycles = 26, .limit = NO_LIMIT, .chips = READY_CHIPS },
        { .name = "an equal picture", .count = 0, .cycles = 2, .limit = NO_LIMIT, .chips = READY_CHIPS },
        { .name = "a wholly different one", .count = WIDTH, .cycles = REPAINT_RECORDS, .limit = SPARING_LIMIT, .chips = READY_CHIPS },
    };
    static struct sparing all[2][sizeof kinds / sizeof kinds[0]];
    for (size_t i = 0; i < sizeof kinds / sizeof kinds[0]; i++) {
        struct sparing *s = &all[own][i];
        *s = kinds[i];
        s->call[ARCHIVE] = pedralume_sparing_repaint;
        s->call[PLAIN] = own ? NULL : plain_sparing_repaint;
        fill_sparing(s);
        add((struct job){ .unit = "repaint", .side = { own ? "sparing" : "archive", own ? "repaint" : OTHER_SIDE }, .units = CALLS_A_TURN,
                          .limit = own ? s->limit : NO_LIMIT, .place = s->cycles, .other_place = own ? REPAINT_RECORDS : 0,
                          .prepare = prepare_painting, .work = work_sparing, .input = s, .own = own }, "sparing repaint", s->name);
    }
}

/* ---- changes ---- */

/* Clears the entries; chips and RAM are only read. */
static void prepare_changes(const struct job *job, unsigned side)
{
    memset(listed[side], 0, job->entries);
}

static uint64_t work_changes(const struct job *job, unsigned side)
{
    const struct load *load = job->input;
    changes_call *const changes = side == ARCHIVE ? pedralume_changes : plain_changes;
    return changes(load->chips, CHIPS, load->ram, RAM, load->trace.bytes, load->trace.len, listed[side], job->entries);
}

/* The mixed trace with the displays mostly on, so that commands are seen too. */
static void fill_shown(struct load *load, struct rng *g)
{
    put_shown(&load->trace, g, load->chips, RECORDS_MAX);
}

/* Both chips show RAM at first, all 32 rows of it. */
static void add_changes(const char *name, struct load *load, void (*fill)(struct load *, struct rng *))
{
    static const uint8_t showing[CHIPS] = { SWITCHES(1, 0, 1, 0, 0), SWITCHES(1, 0, 1, 0, 0) };
    struct rng g = { 1520 };
    uint8_t no_room[1];
    memcpy(load->chips, showing, CHIPS);
    random_bytes(&g, load->ram, RAM);
    fill(load, &g);
    uint64_t need = plain_changes(load->chips, CHIPS, load->ram, RAM, load->trace.bytes, load->trace.len, no_room, 0);
    add((struct job){ .unit = "record", .side = { "archive", OTHER_SIDE }, .units = RECORDS_MAX, .limit = CHANGES_LIMIT,
                      .place = pedralume_place(need), .entries = ENTRIES_MAX,
                      .prepare = prepare_changes, .work = work_changes, .input = load }, "changes", name);
}

/* ---- all ---- */

static void add_jobs(void)
{
    static struct load writes, repaints, reads, rmw_reads, cursors, mixed, at_random, seen_writes, seen_mixed, seen_shown;
    add_replay("all writes", &writes, fill_writes);
    add_replay("repaints", &repaints, fill_repaints);
    add_replay("reads over pages", &reads, fill_reads);
    add_replay("reads in read-modify-write", &rmw_reads, fill_rmw_reads);
    add_replay("a blinking cursor", &cursors, fill_cursors);
    add_replay("mixed", &mixed, fill_mixed);
    add_replay("chip and kind at random", &at_random, fill_random);
    add_frame("both forward", &frames[0]);
    add_frame("both reverse", &frames[1]);
    add_frame("forward and reverse", &frames[2]);
    add_frame("the same at duty 1/16", &frames[3]);
    add_frame("static drive on", &frames[4]);
    add_frame("display off", &frames[5]);
    add_repaint();
    add_sparing(true);
    if (plain_sparing_repaint != NULL)
        add_sparing(false);
    add_feeds(&writes);
    add_feeds(&rmw_reads);
    add_feeds(&mixed);
    add_changes("all writes", &seen_writes, fill_writes);
    add_changes("mixed", &seen_mixed, fill_mixed);
    add_changes("mixed, mostly shown", &seen_shown, fill_shown);
}

static void run_jobs(void)
{
    for (const struct job *job = jobs; job < jobs + job_count; job++) {
        if (job->entries > 0)
            printf("bench: %s: %zu of the records are listed\n", job->name, job->place);
        if (job->other_place > 0)
            printf("bench: %s: %zu of %zu cycles\n", job->name, job->place, job->other_place);
    }
    printf("bench: best of %u turns in %u rounds; a turn is a trace of %u records, chips and RAM restored and the\n"
           "       answers cleared before, untimed, or %u frames or repaints; a feed is opened before, untimed,\n"
           "       and given the trace in parts of so many bytes; of changes the entries are cleared before, untimed\n",
           (unsigned)(ROUNDS * TURNS_A_ROUND), (unsigned)ROUNDS, (unsigned)RECORDS_MAX, (unsigned)CALLS_A_TURN);
    for (unsigned round = 0; round < ROUNDS; round++)
        for (size_t i = 0; i < job_count; i++)
            for (unsigned turn = 0; turn < TURNS_A_ROUND; turn++)
                take_turns(&jobs[i]);
    for (const struct job *job = jobs; job < jobs + job_count; job++)
        printf("  %-41s %-7s %8.2f ns, %-7s %8.2f ns for each %-8s ratio %6.2f\n", job->name, job->side[ARCHIVE],
               job->best[ARCHIVE], job->side[PLAIN], job->best[PLAIN], job->unit, ratio(job));
}

static void run_once(void)
{
    for (struct job *job = jobs; job < jobs + job_count; job++) {
        if (job->own)
            continue;
        take_turns(job);
        printf("%u %s %s\n", job->units, job->unit, job->name);
    }
}

/* Whether no job that this limit is for has a ratio over it. */
static bool holds(unsigned which, double limit)
{
    static const char *const whose[LIMITS] = {
        "a replay or a frame", "a feed in parts of 512 bytes or more", "changes", "a sparing repaint of a wholly different picture"
    };
    unsigned held = 0, over = 0;
    for (const struct job *job = jobs; job < jobs + job_count; job++) {
        if (job->limit != which)
            continue;
        held++;
        if (ratio(job) > limit) {
            printf("bench: %s: ratio %.2f is over the limit %.2f\n", job->name, ratio(job), limit);
            over++;
        }
    }
    if (held == 0)
        printf("bench: there is no ratio of %s to hold to %.2f\n", whose[which], limit);
    else if (over == 0)
        printf("bench: no ratio of %s is over %.2f\n", whose[which], limit);
    return held > 0 && over == 0;
}

/* 0 is no limit. */
static bool read_limit(const char *text, double *limit)
{
    char *rest;
    *limit = 0;
    if (strcmp(text, "-") == 0)
        return true;
    *limit = strtod(text, &rest);
    return *rest == '\0' && *limit > 0;
}

int main(int argc, char **argv)
{
    double limit[LIMITS] = { 0 };
    bool once = argc == 2 && strcmp(argv[1], "once") == 0, good = argc <= 1 + LIMITS;
    for (int i = 1; good && !once && i < argc; i++)
        good = read_limit(argv[i], &limit[i - 1]);
    if (!good) {
        fprintf(stderr, "Usage: bench [LIMIT [FEED_LIMIT [CHANGES_LIMIT [SPARING_LIMIT]]]], each a ratio over 0, or - for none, or bench once\n");
        return 2;
    }
    add_jobs();
    if (once)
        run_once();
    else
        run_jobs();
    for (unsigned which = 0; which < LIMITS; which++)
        if (limit[which] > 0)
            good = holds(which, limit[which]) && good;
    return good ? EXIT_SUCCESS : EXIT_FAILURE;
}

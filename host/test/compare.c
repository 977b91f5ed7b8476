/*
 * Drives the archive and the plain implementation side by side on random calls, and compares every
 * byte lent, guard bytes around it, and the 64-bit answers; replay, and now and then changes, also over
 * traces of runs. Then the archive's replay against itself, begun with other latch marks.
 *
 *   compare [seed [cases]]
 *
 * Case i of a seed is the same whatever the number of cases.
 */
#define PROGRAM "compare"
#include "run_traces.h"

enum { NUMBERS = 16 };

/* ---- one call on both sides ---- */

/*
 * What one call is lent. Replay: chips, RAM, trace, answers. Frame and repaint: chips, source, output.
 * Changes: chips, RAM, trace, entries. Sparing repaint: chips, RAM, picture, records.
 */
enum { PARTS = 4, PART_TRACE = 2, PART_ANSWERS = 3, PART_OUTPUT = 2, PART_ENTRIES = 3, PART_PICTURE = 2, PART_RECORDS = 3 };

struct bundle {
    struct lent part[PARTS];
};

static struct bundle copy_bundle(const struct bundle *from, size_t parts, uint8_t guard)
{
    struct bundle b;
    for (size_t i = 0; i < parts; i++)
        b.part[i] = lend(from->part[i].bytes, from->part[i].len, guard);
    return b;
}

static void free_bundle(struct bundle *b, size_t parts)
{
    for (size_t i = 0; i < parts; i++)
        free(b->part[i].block);
}

struct contest {
    const char *name;
    size_t parts;
    size_t each;                            /* bytes of the last part for each of the place */
    bool constant[PARTS];
    replay_call *replay[2];                 /* archive, plain; either these two */
    paint_call *paint[2];                   /* or these */
    changes_call *changes[2];               /* or these, also of the sparing repaint */
    const char *part_name[PARTS];
};

static uint64_t call(const struct contest *c, int side, struct bundle *b)
{
    struct lent *p = b->part;
    if (c->replay[side] != NULL)
        return c->replay[side](p[0].bytes, p[0].len, p[1].bytes, p[1].len, p[2].bytes, p[2].len, p[3].bytes, p[3].len);
    if (c->changes[side] != NULL)
        return c->changes[side](p[0].bytes, p[0].len, p[1].bytes, p[1].len, p[2].bytes, p[2].len, p[3].bytes, p[3].len);
    return c->paint[side](p[0].bytes, p[0].len, p[1].bytes, p[1].len, p[2].bytes, p[2].len);
}

struct tally {
    unsigned long calls, number[NUMBERS], records, compared, differing;
};

static void count(struct tally *t, uint64_t answer)
{
    unsigned number = pedralume_number(answer);
    t->calls++;
    if (number < NUMBERS)
        t->number[number]++;
    if (number == 0 || refuses_record(number))
        t->records += pedralume_place(answer);
    t->compared += pedralume_compared(answer);
    t->differing += pedralume_differing(answer);
}

static bool same_part(const struct bundle *a, const struct bundle *b, size_t i)
{
    return memcmp(a->part[i].bytes, b->part[i].bytes, a->part[i].len) == 0;
}

/* Fails with the part's name in front. */
static void fail_part(const struct contest *c, unsigned long at, size_t part, const char *what)
{
    char text[80];
    snprintf(text, sizeof text, "%s bytes %s", c->part_name[part], what);
    fail(c->name, at, text);
}

/* Numbers 1 to 3, 9 to 12 and 15 leave everything as it came. */
static bool leaves_all(uint64_t answer)
{
    unsigned number = pedralume_number(answer);
    return number != PEDRALUME_DONE && !refuses_record(number);
}

/* Of changes and the sparing repaint all that refuse do. */
static bool all_stays(const struct contest *c, uint64_t answer)
{
    return leaves_all(answer) || (c->changes[0] != NULL && pedralume_number(answer) != PEDRALUME_DONE);
}

static void check_parts(const struct contest *c, unsigned long at, const struct bundle *given,
                        const struct bundle *archive, const struct bundle *plain, bool all_stay)
{
    for (size_t i = 0; i < c->parts; i++) {
        if (!same_part(archive, plain, i))
            fail_part(c, at, i, "differ from the plain implementation's");
        if ((c->constant[i] || all_stay) && !same_part(archive, given, i))
            fail_part(c, at, i, "changed but must stay");
        if (!guards_stand(&archive->part[i]))
            fail_part(c, at, i, "written out of bounds by the archive");
        if (!guards_stand(&plain->part[i]))
            fail_part(c, at, i, "written out of bounds by the plain implementation");
    }
}

/* Bytes past the answers given, past the records written or past the entries stay. */
static void check_tail(const struct contest *c, unsigned long at, const struct bundle *given,
                       const struct bundle *archive, uint64_t answer)
{
    size_t part = c->parts - 1, used = pedralume_place(answer) * c->each;
    const struct lent *a = &archive->part[part], *g = &given->part[part];
    if (all_stays(c, answer) || used >= a->len)
        return;
    if (memcmp(a->bytes + used, g->bytes + used, a->len - used) != 0)
        fail_part(c, at, part, "changed past the last that is due");
}

/*
 * Gives the answer. The two sides get different guard bytes, so that reading out of bounds tends to
 * show as well.
 */
static uint64_t contend(const struct contest *c, unsigned long at, const struct bundle *given, struct tally *t)
{
    struct bundle archive = copy_bundle(given, c->parts, 0xA5), plain = copy_bundle(given, c->parts, 0x03);
    uint64_t got = call(c, 0, &archive), want = call(c, 1, &plain);
    if (got != want) {
        fail(c->name, at, "answers differ");
        print_answer("archive", got);
        print_answer("plain", want);
        printf("\n");
    }
    check_parts(c, at, given, &archive, &plain, all_stays(c, want));
    check_tail(c, at, given, &archive, want);
    count(t, want);
    free_bundle(&archive, c->parts);
    free_bundle(&plain, c->parts);
    return want;
}

/* A draw that never reaches a number of the call would prove little: that is a failure too. */
static void report(const struct contest *c, const struct tally *t, const bool *due)
{
    printf("compare: %s: %lu calls, by number", c->name, t->calls);
    for (unsigned number = 0; number < NUMBERS; number++)
        if (due[number])
            printf(" %u:%lu", number, t->number[number]);
    if (c->replay[0] != NULL)
        printf("; %lu records accepted, %lu reads compared, %lu differing", t->records, t->compared, t->differing);
    printf("\n");
    for (unsigned number = 0; number < NUMBERS; number++)
        if (due[number] && t->number[number] == 0)
            fail(c->name, number, "number never given, draw more cases");
}

/* ---- random replays ---- */

static size_t draw_record_count(struct rng *g)
{
    unsigned roll = below(g, 200);
    if (roll < 8)
        return 0;
    if (roll < 50)
        return between(g, 1, 12);
    if (roll < 190)
        return between(g, 13, 400);
    if (roll < 197)
        return between(g, 401, RECORDS_MAX);
    if (roll < 199)
        return RECORDS_MAX;
    return between(g, RECORDS_MAX + 1, RECORDS_MAX + 1000);
}

static void draw_replay(struct rng *g, struct bundle *b)
{
    static struct trace t;
    static uint8_t answers[2 * RECORDS_MAX + 4096];
    uint8_t chips[CHIPS], ram[RAM];
    draw_chips(g, chips);
    random_bytes(g, ram, RAM);
    draw_trace(&t, g, chips, ram, draw_record_count(g));
    size_t answers_len = draw_answers_length(g, t.len / RECORD * 2);
    random_bytes(g, answers, answers_len);
    if (one_in(g, 12))
        spoil_chips(g, chips);
    b->part[0] = lend_padded(g, chips, CHIPS, one_in(g, 50) ? wrong_length(g, CHIPS, 64) : CHIPS);
    b->part[1] = lend_padded(g, ram, RAM, one_in(g, 50) ? wrong_length(g, RAM, 1300) : RAM);
    b->part[PART_TRACE] = lend(t.bytes, t.len, 0);
    b->part[PART_ANSWERS] = lend(answers, answers_len, 0);
}

/*
 * Column sets that were refused: 8 in read-modify-write, else 14. One from 50 to 7F that was never tried in both
 * would prove little: that is a failure too.
 */
static void note_refused_column(bool tried[COLUMN_SETS][2], const struct bundle *given, uint64_t answer)
{
    unsigned number = pedralume_number(answer);
    const uint8_t *record = given->part[PART_TRACE].bytes + RECORD * pedralume_place(answer);
    if (number == PEDRALUME_COLUMN_IN_RMW || number == PEDRALUME_NO_SUCH_COLUMN)
        tried[record[2]][number == PEDRALUME_COLUMN_IN_RMW] = true;
}

static void check_refused_columns(bool tried[COLUMN_SETS][2])
{
    for (unsigned byte = COLUMN_STOP; byte < COLUMN_SETS; byte++)
        if (!tried[byte][false] || !tried[byte][true])
            fail("replay, column set", byte, "not tried in both modes, draw more cases");
}

static const struct contest replay_contest = {
    "replay", 4, 2, { false, false, true, false }, { pedralume_replay, plain_replay }, { NULL, NULL }, { NULL, NULL },
    { "chips", "RAM", "trace", "answers" }
};

static void compare_replays(uint64_t seed, unsigned long cases)
{
    static const bool due[NUMBERS] = { 1, 1, 1, 1, 1, 1, 1, 1, 1, 0, 0, 0, 0, 0, 1 };
    static bool tried[COLUMN_SETS][2];
    struct tally tally = { 0 };
    for (unsigned long at = 0; at < cases; at++) {
        struct rng g = rng_for(seed, 1, at);
        struct bundle given;
        draw_replay(&g, &given);
        note_refused_column(tried, &given, contend(&replay_contest, at, &given, &tally));
        free_bundle(&given, replay_contest.parts);
    }
    report(&replay_contest, &tally, due);
    check_refused_columns(tried);
}

/* ---- the same replay from other latch marks: kinds 1 and 2 and the counts may differ, no byte may ---- */

enum { MARKED_RECORDS = 60 };

struct marked {
    uint8_t chips[CHIPS], ram[RAM], answers[2 * MARKED_RECORDS];
};

/* The other one has the left mark turned over, the right one or both. */
static void draw_marked(struct rng *g, struct trace *t, struct marked *one, struct marked *other)
{
    unsigned which = between(g, 1, 3);
    draw_chips(g, one->chips);
    random_bytes(g, one->ram, RAM);
    random_bytes(g, one->answers, sizeof one->answers);
    draw_trace(t, g, one->chips, one->ram, between(g, 0, MARKED_RECORDS));
    *other = *one;
    for (unsigned chip = 0; chip < 2; chip++)
        if (which >> chip & 1)
            other->chips[CHIP * chip + PEDRALUME_LATCH_MARK] ^= 1;
}

static uint64_t replay_marked(struct marked *m, const struct trace *t)
{
    return pedralume_replay(m->chips, CHIPS, m->ram, RAM, t->bytes, t->len, m->answers, sizeof m->answers);
}

/* Makes both latches and all answers of kind 1 stale. */
static void forget_marks(struct marked *m, uint64_t answer)
{
    m->chips[PEDRALUME_LATCH_MARK] = m->chips[CHIP + PEDRALUME_LATCH_MARK] = 0;
    for (size_t i = 0; !leaves_all(answer) && i < pedralume_place(answer); i++)
        if (m->answers[2 * i] == PEDRALUME_KIND_FRESH)
            m->answers[2 * i] = PEDRALUME_KIND_STALE;
}

static void compare_marks(uint64_t seed, unsigned long cases)
{
    static struct trace t;
    static struct marked one, other;
    unsigned long kinds = 0, counts = 0;
    for (unsigned long at = 0; at < cases; at++) {
        struct rng g = rng_for(seed, 7, at);
        draw_marked(&g, &t, &one, &other);
        uint64_t got = replay_marked(&one, &t), got_other = replay_marked(&other, &t);
        kinds += memcmp(one.answers, other.answers, sizeof one.answers) != 0;
        counts += got >> 24 != got_other >> 24;
        if ((got & 0xFFFFFF) != (got_other & 0xFFFFFF))
            fail("marks", at, "number or place differs");
        forget_marks(&one, got);
        forget_marks(&other, got_other);
        if (memcmp(&one, &other, sizeof one) != 0)
            fail("marks", at, "more than the marks and kinds 1 and 2 differs");
    }
    printf("compare: marks: %lu traces replayed from other latch marks too; kinds differ in %lu, counts in %lu\n",
           cases, kinds, counts);
    if (kinds == 0 || counts == 0)
        fail("marks", 0, "kinds or counts never differ, draw more cases");
}

/* ---- random frames ---- */

/*
 * The left chip walks through every start line with every setting of display, static drive, duty and
 * ADC, over and over; the right chip walks too, at another pace.
 */
static void walk_chip(uint8_t *chip, unsigned long step)
{
    for (unsigned field = 0; field < 4; field++)
        chip[field] = step >> (5 + field) & 1;
    chip[PEDRALUME_START_LINE] = step % 32;
}

static void draw_frame(struct rng *g, unsigned long at, struct bundle *b)
{
    uint8_t chips[CHIPS], ram[RAM], frame[FRAME];
    draw_chips(g, chips);
    walk_chip(chips, at);
    walk_chip(chips + CHIP, at * 37 + at / 512);
    random_bytes(g, ram, RAM);
    random_bytes(g, frame, FRAME);
    if (one_in(g, 12))
        spoil_chips(g, chips);
    b->part[0] = lend_padded(g, chips, CHIPS, one_in(g, 40) ? wrong_length(g, CHIPS, 64) : CHIPS);
    b->part[1] = lend_padded(g, ram, RAM, one_in(g, 40) ? wrong_length(g, RAM, 1300) : RAM);
    b->part[PART_OUTPUT] = lend_padded(g, frame, FRAME, one_in(g, 40) ? wrong_length(g, FRAME, 1000) : FRAME);
}

/* Both chips' settings in a frame that was done. One never tried would prove little: that is a failure too. */
enum { SETTINGS = 16 * 32 };

static void note_settings(bool tried[2][SETTINGS], const uint8_t *chips)
{
    for (unsigned chip = 0; chip < 2; chip++) {
        const uint8_t *c = chips + CHIP * chip;
        unsigned setting = c[PEDRALUME_START_LINE];
        for (unsigned field = 0; field < 4; field++)
            setting += (unsigned)c[field] << (5 + field);
        tried[chip][setting] = true;
    }
}

static void check_settings(bool tried[2][SETTINGS])
{
    for (unsigned chip = 0; chip < 2; chip++)
        for (unsigned setting = 0; setting < SETTINGS; setting++)
            if (!tried[chip][setting])
                fail("frame, setting", setting, "never tried, draw more cases");
}

static void compare_frames(uint64_t seed, unsigned long cases)
{
    static const struct contest contest = {
        "frame", 3, 1, { true, true, false }, { NULL, NULL }, { pedralume_frame, plain_frame }, { NULL, NULL },
        { "chips", "RAM", "frame", "" }
    };
    static const bool due[NUMBERS] = { 1, 1, 1 };
    static bool tried[2][SETTINGS];
    struct tally tally = { 0 };
    for (unsigned long at = 0; at < cases; at++) {
        struct rng g = rng_for(seed, 2, at);
        struct bundle given;
        draw_frame(&g, at, &given);
        if (pedralume_number(contend(&contest, at, &given, &tally)) == PEDRALUME_DONE)
            note_settings(tried, given.part[0].bytes);
        free_bundle(&given, contest.parts);
    }
    report(&contest, &tally, due);
    check_settings(tried);
}

/* ---- random repaints ---- */

/* Takes one to three things away that a ready chip has. */
static void unready_chip(struct rng *g, uint8_t *chip)
{
    for (unsigned faults = between(g, 1, 3); faults > 0; faults--)
        switch (below(g, 5)) {
        case 0:
            chip[PEDRALUME_DISPLAY] = 0;
            break;
        case 1:
            chip[PEDRALUME_STATIC] = 1;
            break;
        case 2:
            chip[PEDRALUME_DUTY] = 1;
            break;
        case 3:
            chip[PEDRALUME_START_LINE] = (uint8_t)below(g, 32);
            break;
        default:
            chip[PEDRALUME_RMW] = 1;
            chip[PEDRALUME_SAVED_COLUMN] = (uint8_t)below(g, COLUMN_STOP + 1);
        }
}

/* Mostly ready. */
static void draw_repaint_chips(struct rng *g, uint8_t *chips)
{
    for (unsigned chip = 0; chip < 2; chip++) {
        draw_ready_chip(g, chips + CHIP * chip);
        if (one_in(g, 4))
            unready_chip(g, chips + CHIP * chip);
    }
}

static void draw_repaint(struct rng *g, struct bundle *b)
{
    uint8_t chips[CHIPS], picture[PICTURE], output[REPAINT];
    draw_repaint_chips(g, chips);
    random_bytes(g, picture, PICTURE);
    random_bytes(g, output, REPAINT);
    if (one_in(g, 12))
        spoil_chips(g, chips);
    b->part[0] = lend_padded(g, chips, CHIPS, one_in(g, 40) ? wrong_length(g, CHIPS, 64) : CHIPS);
    b->part[1] = lend_padded(g, picture, PICTURE, draw_picture_length(g));
    b->part[PART_OUTPUT] = lend_padded(g, output, REPAINT, draw_output_length(g));
}

static void compare_repaints(uint64_t seed, unsigned long cases)
{
    static const struct contest contest = {
        "repaint", 3, RECORD, { true, true, false }, { NULL, NULL }, { pedralume_repaint, plain_repaint }, { NULL, NULL },
        { "chips", "picture", "output", "" }
    };
    static const bool due[NUMBERS] = { 1, 1, 1, 0, 0, 0, 0, 0, 0, 1, 1, 1, 1 };
    struct tally tally = { 0 };
    for (unsigned long at = 0; at < cases; at++) {
        struct rng g = rng_for(seed, 3, at);
        struct bundle given;
        draw_repaint(&g, &given);
        contend(&contest, at, &given, &tally);
        free_bundle(&given, contest.parts);
    }
    report(&contest, &tally, due);
}

/* ---- random sparing repaints ---- */

/* The hidden pages are mostly near the picture. */
static void draw_sparing(struct rng *g, struct bundle *b)
{
    uint8_t chips[CHIPS], ram[RAM], picture[PICTURE], output[REPAINT], differences[PICTURE];
    draw_repaint_chips(g, chips);
    random_bytes(g, ram, RAM);
    random_bytes(g, picture, PICTURE);
    random_bytes(g, output, REPAINT);
    draw_differences(g, differences);
    if (!one_in(g, 8))
        hide_picture(chips, ram, picture, differences);
    if (one_in(g, 12))
        spoil_chips(g, chips);
    b->part[0] = lend_padded(g, chips, CHIPS, one_in(g, 40) ? wrong_length(g, CHIPS, 64) : CHIPS);
    b->part[1] = lend_padded(g, ram, RAM, one_in(g, 40) ? wrong_length(g, RAM, 1300) : RAM);
    b->part[PART_PICTURE] = lend_padded(g, picture, PICTURE, draw_picture_length(g));
    b->part[PART_RECORDS] = lend_padded(g, output, REPAINT, draw_output_length(g));
}

/* By how many records those that were done have: nothing, one byte or all to write, and what lies between. */
static void report_sparing(const unsigned long with[REPAINT_RECORDS + 1])
{
    unsigned long others = 0;
    for (unsigned n = 6; n < REPAINT_RECORDS; n++)
        others += with[n];
    printf("compare: sparing repaint: with 2 records %lu, with 5 %lu, with 254 %lu, with others %lu\n", with[2], with[5],
           with[REPAINT_RECORDS], others);
    must_occur(with[2], "sparing repaint, records", 2);
    must_occur(with[5], "sparing repaint, records", 5);
    must_occur(with[REPAINT_RECORDS], "sparing repaint, records", REPAINT_RECORDS);
    must_occur(others, "sparing repaint, records over", 5);
}

static void compare_sparing(uint64_t seed, unsigned long cases)
{
    static const struct contest contest = {
        "sparing repaint", 4, RECORD, { true, true, true, false }, { NULL, NULL }, { NULL, NULL },
        { pedralume_sparing_repaint, plain_sparing_repaint }, { "chips", "RAM", "picture", "records" }
    };
    static const bool due[NUMBERS] = { 1, 1, 1, 0, 0, 0, 0, 0, 0, 1, 1, 1, 1 };
    unsigned long with[REPAINT_RECORDS + 1] = { 0 };
    struct tally tally = { 0 };
    for (unsigned long at = 0; at < cases; at++) {
        struct rng g = rng_for(seed, 13, at);
        struct bundle given;
        draw_sparing(&g, &given);
        uint64_t answer = contend(&contest, at, &given, &tally);
        if (pedralume_number(answer) == PEDRALUME_DONE && pedralume_place(answer) <= REPAINT_RECORDS)
            with[pedralume_place(answer)]++;
        free_bundle(&given, contest.parts);
    }
    report(&contest, &tally, due);
    report_sparing(with);
}

/* ---- random changes ---- */

/* Any, or such that turns of it show little: all dark or all lit, pages alike, columns alike from the middle. */
static void draw_shown_ram(struct rng *g, uint8_t *ram)
{
    unsigned way = below(g, 6);
    random_bytes(g, ram, RAM);
    if (way == 0)
        memset(ram, one_in(g, 2) ? 0 : 0xFF, RAM);
    for (unsigned i = 0; i < RAM; i++) {
        unsigned row = i / 80 * 80, column = i % 80;
        if (way == 1)
            ram[i] = ram[i / HALF_RAM * HALF_RAM + column];
        else if (way == 2 && column >= 40)
            ram[i] = ram[row + 79 - column];
    }
}

/* RAM is all one byte and mostly written with that, so that few records are seen. */
static void put_quiet(struct trace *t, struct rng *g, const uint8_t *chips, uint8_t *ram, size_t records)
{
    uint8_t fill = random_byte(g);
    memset(ram, fill, RAM);
    put_shown(t, g, chips, records);
    for (uint8_t *record = t->bytes; record < t->bytes + t->len; record += RECORD)
        if (record[0] == PEDRALUME_DATA_WRITE && !one_in(g, 30))
            record[2] = fill;
}

/* Repaints one after the other, some with the picture that is shown: at most two records of each are seen. */
static void put_repaints(struct trace *t, struct rng *g, uint8_t *chips, size_t count)
{
    uint8_t picture[PICTURE], then[CHIPS];
    random_bytes(g, picture, PICTURE);
    draw_ready_chip(g, chips);
    draw_ready_chip(g, chips + CHIP);
    memcpy(then, chips, CHIPS);
    for (; count > 0 && t->len + REPAINT <= TRACE_MAX; count--) {
        if (!one_in(g, 3))
            random_bytes(g, picture, PICTURE);
        put_repaint(t, then, picture);
    }
}

static void draw_seen(struct trace *t, struct rng *g, uint8_t *chips, uint8_t *ram)
{
    unsigned way = below(g, 6);
    t->len = 0;
    draw_showing_chips(g, chips);
    draw_shown_ram(g, ram);
    if (way < 2) {
        draw_trace(t, g, chips, ram, draw_record_count(g));
        return;
    }
    if (way < 4)
        put_shown(t, g, chips, draw_record_count(g));
    else if (way == 4)
        put_quiet(t, g, chips, ram, draw_record_count(g));
    else
        put_repaints(t, g, chips, one_in(g, 40) ? 64 : between(g, 1, 4));
    if (t->len > 0 && one_in(g, 6))
        damage_trace(t, g);
}

/* How the room stands to what the entries need. */
enum { EXACT, LONGER, BYTE_SHORT, ENTRY_SHORT, NONE, SHORTER, ROOMS };

static size_t draw_room(struct rng *g, size_t exact)
{
    static const uint8_t kind[] = { EXACT, EXACT, EXACT, LONGER, LONGER, LONGER, LONGER, BYTE_SHORT, ENTRY_SHORT, NONE, SHORTER };
    switch (kind[below(g, sizeof kind)]) {
    case LONGER:
        return exact + (one_in(g, 2) ? between(g, 1, 9) : between(g, 10, 300));
    case BYTE_SHORT:
        return exact > 0 ? exact - 1 : 0;
    case ENTRY_SHORT:
        return exact > 0 ? exact - ENTRY : 0;
    case NONE:
        return 0;
    case SHORTER:
        return below(g, (unsigned)exact + 1);
    default:
        return exact;
    }
}

static unsigned room_kind(size_t room, size_t exact)
{
    if (room >= exact)
        return room == exact ? EXACT : LONGER;
    if (room == 0)
        return NONE;
    return exact - room == 1 ? BYTE_SHORT : exact - room == ENTRY ? ENTRY_SHORT : SHORTER;
}

/* Lends room as the entries need it, or any where the call is refused before that. */
static void draw_changes(struct rng *g, struct bundle *b)
{
    static struct trace t;
    static uint8_t entries[ENTRIES_MAX + 300];
    uint8_t chips[CHIPS], ram[RAM], no_room[1];
    draw_seen(&t, g, chips, ram);
    uint64_t need = plain_changes(chips, CHIPS, ram, RAM, t.bytes, t.len, no_room, 0);
    size_t exact = pedralume_number(need) == PEDRALUME_SHORT_ENTRIES ? ENTRY * pedralume_place(need) : 0;
    size_t room = draw_room(g, exact > 0 ? exact : ENTRY * below(g, 20));
    random_bytes(g, entries, room);
    if (one_in(g, 12))
        spoil_chips(g, chips);
    b->part[0] = lend_padded(g, chips, CHIPS, one_in(g, 50) ? wrong_length(g, CHIPS, 64) : CHIPS);
    b->part[1] = lend_padded(g, ram, RAM, one_in(g, 50) ? wrong_length(g, RAM, 1300) : RAM);
    b->part[PART_TRACE] = lend(t.bytes, t.len, 0);
    b->part[PART_ENTRIES] = lend(entries, room, 0);
}

/* What was tried where there was something to list. */
struct listing {
    unsigned long records, listed, rooms[ROOMS];
};

static void note_changes(struct listing *l, const struct bundle *given, uint64_t answer)
{
    unsigned number = pedralume_number(answer);
    size_t listed = pedralume_place(answer);
    if (number != PEDRALUME_DONE && number != PEDRALUME_SHORT_ENTRIES)
        return;
    l->records += given->part[PART_TRACE].len / RECORD;
    l->listed += listed;
    if (listed > 1)
        l->rooms[room_kind(given->part[PART_ENTRIES].len, ENTRY * listed)]++;
}

static const struct contest changes_contest = {
    "changes", 4, ENTRY, { true, true, true, false }, { NULL, NULL }, { NULL, NULL }, { pedralume_changes, plain_changes },
    { "chips", "RAM", "trace", "entries" }
};

static void compare_changes(uint64_t seed, unsigned long cases)
{
    static const bool due[NUMBERS] = { 1, 1, 1, 1, 1, 1, 1, 1, 1, 0, 0, 0, 0, 0, 1, 1 };
    struct tally tally = { 0 };
    struct listing listing = { 0 };
    for (unsigned long at = 0; at < cases; at++) {
        struct rng g = rng_for(seed, 9, at);
        struct bundle given;
        draw_changes(&g, &given);
        note_changes(&listing, &given, contend(&changes_contest, at, &given, &tally));
        free_bundle(&given, changes_contest.parts);
    }
    report(&changes_contest, &tally, due);
    printf("compare: changes: %lu of %lu records listed; room exact %lu, longer %lu, a byte short %lu, an entry short %lu,"
           " none %lu, shorter %lu\n",
           listing.listed, listing.records, listing.rooms[EXACT], listing.rooms[LONGER], listing.rooms[BYTE_SHORT],
           listing.rooms[ENTRY_SHORT], listing.rooms[NONE], listing.rooms[SHORTER]);
    for (unsigned kind = 0; kind < ROOMS; kind++)
        if (listing.rooms[kind] == 0)
            fail("changes, kind of room", kind, "never tried, draw more cases");
}

/* ---- random runs ---- */

/* Draws chips, RAM and a trace of runs, and room of so many bytes for each record; the course says how far the trace is accepted. */
static void draw_runs(struct rng *g, unsigned long at, size_t each, struct bundle *b, struct course *c)
{
    static struct trace t;
    static uint8_t room[ENTRIES_MAX];
    uint8_t chips[CHIPS], ram[RAM];
    draw_run_chips(g, chips);
    random_bytes(g, ram, RAM);
    begin_course(c, &t, chips, ram);
    put_runs(c, g, at);
    size_t len = each * (t.len / RECORD + below(g, 20));
    random_bytes(g, room, len);
    b->part[0] = lend(chips, CHIPS, 0);
    b->part[1] = lend(ram, RAM, 0);
    b->part[PART_TRACE] = lend(t.bytes, t.len, 0);
    b->part[PART_ANSWERS] = lend(room, len, 0);
}

/* The trace must be refused where the draw means it to be, and there only. */
static void contend_runs(const struct contest *c, uint64_t seed, unsigned long cases, size_t each)
{
    static const bool due[NUMBERS] = { 1, 0, 0, 0, 1, 1, 1, 1, 1, 0, 0, 0, 0, 0, 1 };
    struct tally tally = { 0 };
    for (unsigned long at = 0; at < cases; at++) {
        struct rng g = rng_for(seed, 10, at);
        struct bundle given;
        struct course course;
        draw_runs(&g, at, each, &given, &course);
        uint64_t answer = contend(c, at, &given, &tally);
        if (pedralume_number(answer) != course.number)
            fail(c->name, at, "the trace has another number than it was drawn for");
        if (refuses_record(course.number) && pedralume_place(answer) != course.accepted / RECORD)
            fail(c->name, at, "the trace is refused at another record than it was drawn for");
        free_bundle(&given, c->parts);
    }
    report(c, &tally, due);
}

static void compare_runs(uint64_t seed, unsigned long cases)
{
    struct contest contest = replay_contest;
    contest.name = "replay over runs";
    contend_runs(&contest, seed, cases, 2);
    report_runs();
    check_run_details();
    contest = changes_contest;
    contest.name = "changes over runs";
    contend_runs(&contest, seed, cases / 8, ENTRY);
}

int main(int argc, char **argv)
{
    uint64_t seed = argc > 1 ? strtoull(argv[1], NULL, 0) : 1520;
    unsigned long cases = argc > 2 ? strtoul(argv[2], NULL, 0) : 24000;
    printf("compare: seed %llu, %lu cases\n", (unsigned long long)seed, cases);
    compare_replays(seed, cases);
    compare_marks(seed, cases);
    compare_frames(seed, cases);
    compare_repaints(seed, cases);
    compare_sparing(seed, cases);
    compare_changes(seed, cases);
    compare_runs(seed, cases);
    printf("compare: %u failed\n", failures);
    return failures == 0 ? EXIT_SUCCESS : EXIT_FAILURE;
}

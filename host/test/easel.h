/*
 * The tests of both repaints share this: what these are lent, what the panel shows once their records are sent, and
 * all that they refuse. The program says first in LENDS_RAM whether its call takes RAM. All is static, as in support.h.
 */
#ifndef EASEL_H
#define EASEL_H

#include "rig.h"

struct easel {
    uint8_t chips[CHIPS + SLACK];
    uint8_t ram[RAM + SLACK];
    uint8_t picture[PICTURE + SLACK];
    uint8_t output[REPAINT + SLACK];
};

/* The lengths that a call is given. */
struct lengths {
    size_t chips, ram, picture, output;
};

/* The program's own: its call; and that this output length is enough, with all that the call must do then. */
static uint64_t paint(struct easel *e, struct lengths lent);
static void test_done(const struct easel *given, size_t output);

static inline void ready_easel(struct easel *e)
{
    static const uint8_t ready[CHIP] = { 1, 0, 0, 0, 0, 0, 0, 0, 0, 0, 0, 0 };
    struct rng g = { 11 };
    memset(e, 0xEE, sizeof *e);
    memcpy(e->chips, ready, CHIP);
    memcpy(e->chips + CHIP, ready, CHIP);
    random_bytes(&g, e->ram, RAM);
    random_bytes(&g, e->picture, PICTURE);
}

/* Way 0 to WAYS - 1: each start line and direction of each chip. */
enum { WAYS = 16 };

static inline void ready_easel_by(struct easel *e, unsigned way)
{
    ready_easel(e);
    for (unsigned chip = 0; chip < 2; chip++) {
        uint8_t *c = e->chips + CHIP * chip;
        c[PEDRALUME_ADC] = way >> chip & 1;
        c[PEDRALUME_START_LINE] = (way >> (2 + chip) & 1) ? 16 : 0;
    }
}

/* ---- done ---- */

static inline void test_rooms(const struct easel *given)
{
    static const size_t output[] = { REPAINT, REPAINT + 1, REPAINT + 3, REPAINT + 4, REPAINT + SLACK };
    for (unsigned i = 0; i < 5; i++)
        test_done(given, output[i]);
}

/* Sends these records to the easel's chips and RAM: the panel shows the picture above 16 dark rows. */
static inline void send_whole(struct rig *r, const struct easel *e, const uint8_t *records, size_t count)
{
    uint8_t frame[FRAME], wanted[FRAME] = { 0 };
    fresh_rig(r);
    memcpy(r->chips, e->chips, CHIPS);
    memcpy(r->ram, e->ram, RAM);
    CHECK_ANSWER(replay_bytes(r, records, RECORD * count), 0, count, 0, 0);
    CHECK_ANSWER(pedralume_frame(r->chips, CHIPS, r->ram, RAM, frame, FRAME), 0, 488, 0, 0);
    memcpy(wanted, e->picture, PICTURE);
    CHECK(memcmp(frame, wanted, FRAME) == 0);
}

/* Page, column and read latch play no part. */
static inline void test_idle_fields(void)
{
    static struct easel e;
    for (unsigned column = 0; column <= COLUMN_STOP; column++) {
        ready_easel_by(&e, column % WAYS);
        for (unsigned chip = 0; chip < 2; chip++) {
            uint8_t *c = e.chips + CHIP * chip;
            c[PEDRALUME_PAGE] = (uint8_t)((column / WAYS + chip) % 4);
            c[PEDRALUME_COLUMN] = (uint8_t)(chip == 0 ? column : COLUMN_STOP - column);
            c[PEDRALUME_LATCH_MARK] = (column + chip) % 2;
            c[PEDRALUME_LATCH_BYTE] = (uint8_t)(column * 2 + 1 - chip);
        }
        test_done(&e, REPAINT);
    }
}

/* ---- numbers 1, 2 and 9 to 12 ---- */

static inline void test_stays(const struct easel *given, struct lengths lent, unsigned number, size_t place)
{
    struct easel e = *given;
    CHECK_ANSWER(paint(&e, lent), number, place, 0, 0);
    CHECK(memcmp(&e, given, sizeof e) == 0);
}

/* Refused for its chips: with one length wrong as well, number 1 comes first. */
static inline void test_unready(const struct easel *given, unsigned number, unsigned place)
{
    test_stays(given, (struct lengths){ CHIPS, RAM, PICTURE, REPAINT }, number, place);
    test_stays(given, (struct lengths){ CHIPS, RAM, PICTURE, sizeof given->output }, number, place);
    test_stays(given, (struct lengths){ CHIPS, RAM, PICTURE, REPAINT - 1 }, 1, 0);
    test_stays(given, (struct lengths){ CHIPS, RAM, PICTURE - 1, REPAINT }, 1, 0);
    test_stays(given, (struct lengths){ CHIPS - 1, RAM, PICTURE, REPAINT }, 1, 0);
    if (LENDS_RAM)
        test_stays(given, (struct lengths){ CHIPS, RAM - 1, PICTURE, REPAINT }, 1, 0);
}

static inline void test_lengths(void)
{
    static const size_t chips[] = { 0, 12, 23, 25, 36 }, ram[] = { 0, 320, 639, 641, 656 }, picture[] = { 0, 122, 243, 245, 260 };
    static const size_t output[] = { 0, 4, 254, 1012, 1015 };
    static struct easel e;
    ready_easel(&e);
    for (unsigned i = 0; i < 5; i++) {
        test_stays(&e, (struct lengths){ chips[i], RAM, PICTURE, REPAINT }, 1, 0);
        test_stays(&e, (struct lengths){ CHIPS, RAM, picture[i], REPAINT }, 1, 0);
        test_stays(&e, (struct lengths){ CHIPS, RAM, PICTURE, output[i] }, 1, 0);
        test_stays(&e, (struct lengths){ chips[i], ram[i], picture[i], output[i] }, 1, 0);
        if (LENDS_RAM)
            test_stays(&e, (struct lengths){ CHIPS, ram[i], PICTURE, REPAINT }, 1, 0);
    }
}

/* Number 2 for each field of each chip. */
static inline void test_bad_fields(void)
{
    static struct easel e;
    for (unsigned chip = 0; chip < 2; chip++)
        for (unsigned field = 0; field < CHIP; field++) {
            if (field == PEDRALUME_LATCH_BYTE)
                continue;
            ready_easel(&e);
            e.chips[CHIP * chip + field] = (uint8_t)(field_limit[field] + 1u);
            test_unready(&e, 2, chip);
            e.chips[CHIP * chip + field] = 255;
            test_unready(&e, 2, chip);
        }
}

struct unready {
    uint8_t field, value, number;
};

/* In the order of their numbers. */
static const struct unready unready[] = {
    { PEDRALUME_PAGE, 4, 2 },        { PEDRALUME_ZERO, 1, 2 },
    { PEDRALUME_COLUMN, COLUMN_STOP + 1, 2 },          { PEDRALUME_SAVED_COLUMN, COLUMN_STOP + 1, 2 },
    { PEDRALUME_DISPLAY, 0, 9 },     { PEDRALUME_STATIC, 1, 9 },
    { PEDRALUME_DUTY, 1, 10 },
    { PEDRALUME_START_LINE, 1, 11 }, { PEDRALUME_START_LINE, 31, 11 },
    { PEDRALUME_RMW, 1, 12 },
};

enum { UNREADY = sizeof unready / sizeof unready[0] };

static inline void spoil(struct easel *e, unsigned chip, const struct unready *cause)
{
    e->chips[CHIP * chip + cause->field] = cause->value;
}

/* Each cause on each chip alone, and each pair of causes, on the two chips and on the same one. */
static inline void test_unready_chips(void)
{
    static struct easel e, both;
    for (unsigned i = 0; i < UNREADY; i++)
        for (unsigned chip = 0; chip < 2; chip++) {
            ready_easel(&e);
            spoil(&e, chip, &unready[i]);
            test_unready(&e, unready[i].number, chip);
            for (unsigned j = 0; j < UNREADY; j++) {
                unsigned here = unready[i].number, there = unready[j].number;
                bool this_one = here < there || (here == there && chip == 0);
                both = e;
                spoil(&both, 1 - chip, &unready[j]);
                test_unready(&both, this_one ? here : there, this_one ? chip : 1 - chip);
                if (unready[i].field == unready[j].field)
                    continue;
                both = e;
                spoil(&both, chip, &unready[j]);
                test_unready(&both, here < there ? here : there, chip);
            }
        }
}

/* A saved column that passes is refused for the mode. */
static inline void test_columns(void)
{
    static struct easel e;
    for (unsigned way = 0; way < COLUMN_WAYS; way++) {
        ready_easel(&e);
        struct given_column c = put_column(e.chips, way);
        if (c.number != 0)
            test_unready(&e, c.number, c.place);
        else if (c.field == PEDRALUME_SAVED_COLUMN)
            test_unready(&e, 12, c.chip);
        else
            test_done(&e, REPAINT);
    }
}

/* A saved column is number 2 with the mode off and number 12 with it on. */
static inline void test_saved_column(void)
{
    static struct easel e;
    for (unsigned chip = 0; chip < 2; chip++) {
        ready_easel(&e);
        e.chips[CHIP * chip + PEDRALUME_SAVED_COLUMN] = 1;
        test_unready(&e, 2, chip);
        e.chips[CHIP * chip + PEDRALUME_RMW] = 1;
        test_unready(&e, 12, chip);
    }
}

static inline void test_start_lines(void)
{
    static struct easel e;
    for (unsigned line = 0; line < 32; line++)
        for (unsigned chip = 0; chip < 2; chip++) {
            ready_easel(&e);
            e.chips[CHIP * chip + PEDRALUME_START_LINE] = (uint8_t)line;
            if (line == 0 || line == 16)
                test_done(&e, REPAINT);
            else
                test_unready(&e, 11, chip);
        }
}

static inline void test_refusals(void)
{
    test_lengths();
    test_bad_fields();
    test_columns();
    test_saved_column();
    test_unready_chips();
    test_start_lines();
}

#endif

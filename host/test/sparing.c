/*
 * This test holds the archive's sparing repaint to document 02, C-17: examples written out by hand, the records by
 * the request's own words, what plays no part, what the panel shows and RAM holds once they are sent, and the
 * numbers in their order. The archive's replay, frame and repaint are used to look at that.
 */
#define PROGRAM "sparing"
#define LENDS_RAM true
#include "easel.h"

static uint64_t paint(struct easel *e, struct lengths lent)
{
    return pedralume_sparing_repaint(e->chips, lent.chips, e->ram, lent.ram, e->picture, lent.picture, e->output, lent.output);
}

/* ---- examples ---- */

enum { MOST_LIT = 4, MOST_RECORDS = 14 };

/* RAM and the picture are 0 but for these bytes of the picture. */
struct example {
    unsigned way;                                   /* as ready_easel_by takes it */
    struct { uint8_t at, byte; } lit[MOST_LIT];     /* byte 0: there are no more */
    size_t count;
    struct { uint8_t lines, chip, data; } records[MOST_RECORDS];
};

/* Bytes 0 to 60 of the picture are the left half's upper ones, 61 to 121 the right half's; from 122 on the lower ones. */
static const struct example examples[] = {
    /* nothing differs; start lines 0, 16, one of each */
    { 0, { { 0, 0 } }, 2, { { 2, 0, 0xD0 }, { 2, 1, 0xD0 } } },
    { 12, { { 0, 0 } }, 2, { { 2, 0, 0xC0 }, { 2, 1, 0xC0 } } },
    { 4, { { 0, 0 } }, 2, { { 2, 0, 0xC0 }, { 2, 1, 0xD0 } } },
    /* one byte differs */
    { 0, { { 5, 0xA5 } }, 5, { { 2, 0, 0xBA }, { 2, 0, 5 }, { 3, 0, 0xA5 }, { 2, 0, 0xD0 }, { 2, 1, 0xD0 } } },
    { 12, { { 183, 0x01 } }, 5, { { 2, 1, 0xB9 }, { 2, 1, 0 }, { 3, 1, 0x01 }, { 2, 0, 0xC0 }, { 2, 1, 0xC0 } } },
    /* one run */
    { 0, { { 130, 0x11 }, { 131, 0x22 }, { 132, 0x33 } }, 7,
      { { 2, 0, 0xBB }, { 2, 0, 8 }, { 3, 0, 0x11 }, { 3, 0, 0x22 }, { 3, 0, 0x33 }, { 2, 0, 0xD0 }, { 2, 1, 0xD0 } } },
    /* two runs with one equal byte between them */
    { 0, { { 64, 0x11 }, { 66, 0x22 } }, 7,
      { { 2, 1, 0xBA }, { 2, 1, 3 }, { 3, 1, 0x11 }, { 2, 1, 5 }, { 3, 1, 0x22 }, { 2, 0, 0xD0 }, { 2, 1, 0xD0 } } },
    /* the last column alone, forward and reverse; then the first */
    { 0, { { 60, 0x80 } }, 5, { { 2, 0, 0xBA }, { 2, 0, 0x3C }, { 3, 0, 0x80 }, { 2, 0, 0xD0 }, { 2, 1, 0xD0 } } },
    { 0, { { 243, 0x80 } }, 5, { { 2, 1, 0xBB }, { 2, 1, 0x3C }, { 3, 1, 0x80 }, { 2, 0, 0xD0 }, { 2, 1, 0xD0 } } },
    { 1, { { 0, 0x80 } }, 5, { { 2, 0, 0xBA }, { 2, 0, 0x4F }, { 3, 0, 0x80 }, { 2, 0, 0xD0 }, { 2, 1, 0xD0 } } },
    { 2, { { 183, 0x80 } }, 5, { { 2, 1, 0xBB }, { 2, 1, 0x4F }, { 3, 1, 0x80 }, { 2, 0, 0xD0 }, { 2, 1, 0xD0 } } },
    { 1, { { 60, 0x80 } }, 5, { { 2, 0, 0xBA }, { 2, 0, 0x13 }, { 3, 0, 0x80 }, { 2, 0, 0xD0 }, { 2, 1, 0xD0 } } },
    /* a run in reverse: the picture's bytes come from right to left */
    { 2, { { 61, 0x11 }, { 62, 0x22 }, { 64, 0x33 } }, 8,
      { { 2, 1, 0xBA }, { 2, 1, 0x4C }, { 3, 1, 0x33 }, { 2, 1, 0x4E }, { 3, 1, 0x22 }, { 3, 1, 0x11 }, { 2, 0, 0xD0 }, { 2, 1, 0xD0 } } },
    /* no run goes on in the next page or the other chip */
    { 0, { { 60, 0x11 }, { 61, 0x22 }, { 121, 0x33 }, { 122, 0x44 } }, 13,
      { { 2, 0, 0xBA }, { 2, 0, 0x3C }, { 3, 0, 0x11 }, { 2, 0, 0xBB }, { 2, 0, 0 }, { 3, 0, 0x44 },
        { 2, 1, 0xBA }, { 2, 1, 0 }, { 3, 1, 0x22 }, { 2, 1, 0x3C }, { 3, 1, 0x33 }, { 2, 0, 0xD0 }, { 2, 1, 0xD0 } } },
    /* all four pages */
    { 8, { { 1, 0x11 }, { 71, 0x22 }, { 123, 0x33 }, { 193, 0x44 } }, 14,
      { { 2, 0, 0xBA }, { 2, 0, 1 }, { 3, 0, 0x11 }, { 2, 0, 0xBB }, { 2, 0, 1 }, { 3, 0, 0x33 }, { 2, 1, 0xB8 }, { 2, 1, 10 },
        { 3, 1, 0x22 }, { 2, 1, 0xB9 }, { 2, 1, 10 }, { 3, 1, 0x44 }, { 2, 0, 0xD0 }, { 2, 1, 0xC0 } } },
};

enum { EXAMPLES = sizeof examples / sizeof examples[0] };

/* These records are written, and nothing else of what is lent. */
static void check_records(const struct easel *given, const struct trace *t, size_t output)
{
    struct easel e = *given, want = *given;
    CHECK_ANSWER(paint(&e, (struct lengths){ CHIPS, RAM, PICTURE, output }), 0, t->len / RECORD, 0, 0);
    memcpy(want.output, t->bytes, t->len);
    CHECK(memcmp(&e, &want, sizeof e) == 0);
}

static void test_examples(void)
{
    static struct trace t;
    static struct easel e;
    for (const struct example *x = examples; x < examples + EXAMPLES; x++) {
        ready_easel_by(&e, x->way);
        memset(e.ram, 0, RAM);
        memset(e.picture, 0, PICTURE);
        for (unsigned i = 0; i < MOST_LIT && x->lit[i].byte != 0; i++)
            e.picture[x->lit[i].at] = x->lit[i].byte;
        t.len = 0;
        for (size_t i = 0; i < x->count; i++)
            put_record(&t, x->records[i].lines, x->records[i].chip, x->records[i].data, 0);
        check_records(&e, &t, REPAINT);
    }
}

/* ---- the records as document 02 says them ---- */

/* A hidden page: a chip's upper or lower one. */
struct page {
    const struct easel *e;
    unsigned chip, r;
};

/* Which byte of the picture goes to the k-th of the shown columns, and whether another one is there. */
static unsigned byte_for(const struct page *p, unsigned k)
{
    return 122 * p->r + 61 * p->chip + (p->e->chips[CHIP * p->chip + PEDRALUME_ADC] ? 60 - k : k);
}

static bool differs(const struct page *p, unsigned k)
{
    unsigned i = byte_for(p, k);
    return p->e->ram[hidden_place(p->e->chips, i)] != p->e->picture[i];
}

/* A longest run: all of it differs, and neither the byte before it nor the one behind it, where there is one. */
static bool is_run(const struct page *p, unsigned first, unsigned last)
{
    if ((first > 0 && differs(p, first - 1)) || (last < 60 && differs(p, last + 1)))
        return false;
    for (unsigned k = first; k <= last; k++)
        if (!differs(p, k))
            return false;
    return true;
}

static void expect_page(struct trace *t, const struct page *p)
{
    const uint8_t *c = p->e->chips + CHIP * p->chip;
    bool passed_over = true;
    for (unsigned first = 0; first < 61; first++)
        for (unsigned last = first; last < 61; last++) {
            if (!is_run(p, first, last))
                continue;
            if (passed_over)
                put_command(t, p->chip, (c[PEDRALUME_START_LINE] == 0 ? 0xBA : 0xB8) + p->r);
            passed_over = false;
            put_command(t, p->chip, (c[PEDRALUME_ADC] ? 19 : 0) + first);
            for (unsigned k = first; k <= last; k++)
                put_write(t, p->chip, p->e->picture[byte_for(p, k)]);
        }
}

static void expect_sparing(struct trace *t, const struct easel *e)
{
    t->len = 0;
    for (unsigned i = 0; i < 4; i++)
        expect_page(t, &(struct page){ e, i / 2, i % 2 });
    for (unsigned chip = 0; chip < 2; chip++)
        put_command(t, chip, e->chips[CHIP * chip + PEDRALUME_START_LINE] == 0 ? 0xD0 : 0xC0);
}

/* Sent whole, it leaves the RAM that the repaint leaves. */
static void test_done(const struct easel *given, size_t output)
{
    static struct trace t;
    static struct rig spared, painted;
    struct easel e = *given;
    expect_sparing(&t, given);
    CHECK(t.len <= REPAINT);
    check_records(given, &t, output);
    send_whole(&spared, given, t.bytes, t.len / RECORD);
    pedralume_repaint(e.chips, CHIPS, e.picture, PICTURE, e.output, REPAINT);
    send_whole(&painted, given, e.output, REPAINT_RECORDS);
    CHECK(memcmp(spared.ram, painted.ram, RAM) == 0);
}

/* ---- the hidden pages, from all equal to all different ---- */

/* The hidden pages hold the picture but where this says that a byte differs. */
static void easel_with(struct easel *e, unsigned way, const uint8_t *differences)
{
    ready_easel_by(e, way);
    hide_picture(e->chips, e->ram, e->picture, differences);
}

/* So many records, which are those that the rule asks for. */
static void test_count(const struct easel *e, size_t count)
{
    struct easel then = *e;
    CHECK_ANSWER(paint(&then, (struct lengths){ CHIPS, RAM, PICTURE, REPAINT }), 0, count, 0, 0);
    test_done(e, REPAINT);
}

static void test_equal(unsigned way)
{
    static const uint8_t none[PICTURE];
    static struct easel e;
    easel_with(&e, way, none);
    test_count(&e, 2);
    test_rooms(&e);
}

/* The records are then those of the repaint. */
static void test_all_different(unsigned way)
{
    static struct easel e, painted;
    uint8_t all[PICTURE];
    memset(all, 0x18, PICTURE);
    easel_with(&e, way, all);
    test_count(&e, 254);
    test_rooms(&e);
    painted = e;
    pedralume_repaint(painted.chips, CHIPS, painted.picture, PICTURE, painted.output, REPAINT);
    paint(&e, (struct lengths){ CHIPS, RAM, PICTURE, REPAINT });
    CHECK(memcmp(&e, &painted, sizeof e) == 0);
}

/* Every second column: 31 runs a page and as many bytes, no fewer records than a page of the repaint has; or 30. */
static void test_alternating(unsigned way)
{
    static struct easel e;
    uint8_t every_second[PICTURE];
    for (unsigned from = 0; from < 2; from++) {
        for (unsigned i = 0; i < PICTURE; i++)
            every_second[i] = i % HALF_WIDTH % 2 == from;
        easel_with(&e, way, every_second);
        test_count(&e, from == 0 ? 254 : 246);
        test_rooms(&e);
    }
}

/* Each byte alone, by each of its bits in turn. */
static void test_one_byte(unsigned way)
{
    static struct easel e;
    for (unsigned i = 0; i < PICTURE; i++) {
        uint8_t one[PICTURE] = { 0 };
        one[i] = (uint8_t)(1u << i % 8);
        easel_with(&e, way, one);
        test_count(&e, 5);
    }
}

/* Each run of a page alone. */
static void test_runs(void)
{
    static struct easel e;
    for (unsigned first = 0; first < HALF_WIDTH; first++)
        for (unsigned last = first; last < HALF_WIDTH; last++) {
            uint8_t run[PICTURE] = { 0 };
            unsigned page = (first + last) % 4;
            memset(run + HALF_WIDTH * page + first, 1, last - first + 1);
            easel_with(&e, (first + last) / 4 % WAYS, run);
            test_count(&e, 4 + last - first + 1);
        }
}

static void test_random(void)
{
    static struct easel e;
    for (unsigned i = 0; i < 100 * WAYS; i++) {
        struct rng g = { i };
        uint8_t differences[PICTURE];
        draw_differences(&g, differences);
        easel_with(&e, i % WAYS, differences);
        test_done(&e, REPAINT);
    }
}

/* Neither the shown pages nor the columns that are not shown play a part. */
static void test_other_bytes(unsigned way)
{
    static struct trace t;
    static struct easel e;
    struct rng g = { way };
    bool hidden[RAM] = { false };
    uint8_t differences[PICTURE];
    draw_differences(&g, differences);
    easel_with(&e, way, differences);
    expect_sparing(&t, &e);
    for (unsigned i = 0; i < PICTURE; i++)
        hidden[hidden_place(e.chips, i)] = true;
    for (unsigned i = 0; i < RAM; i++)
        if (!hidden[i]) {
            e.ram[i] ^= 0xFF;
            check_records(&e, &t, REPAINT);
        }
}

/* Given up before its last two records and called again, it has only these left. */
static void test_again(unsigned way)
{
    static struct rig r;
    static struct easel e;
    ready_easel_by(&e, way);
    uint64_t answer = paint(&e, (struct lengths){ CHIPS, RAM, PICTURE, REPAINT });
    size_t quiet = pedralume_place(answer) - 2;
    fresh_rig(&r);
    memcpy(r.chips, e.chips, CHIPS);
    memcpy(r.ram, e.ram, RAM);
    CHECK_ANSWER(replay_bytes(&r, e.output, RECORD * quiet), 0, quiet, 0, 0);
    memcpy(e.chips, r.chips, CHIPS);
    memcpy(e.ram, r.ram, RAM);
    test_count(&e, 2);
}

int main(void)
{
    test_examples();
    for (unsigned way = 0; way < WAYS; way++) {
        test_equal(way);
        test_all_different(way);
        test_alternating(way);
        test_one_byte(way);
        test_other_bytes(way);
        test_again(way);
    }
    test_runs();
    test_random();
    test_idle_fields();
    test_refusals();
    return end_of_checks();
}

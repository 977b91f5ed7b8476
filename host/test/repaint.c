/*
 * This test holds the archive's repaint to document 01: the records, what the panel shows once they are sent,
 * and the numbers in their order. What is expected is written out here from the documents, not taken from any
 * implementation; what the panel shows is found by the archive's replay and frame.
 */
#define PROGRAM "repaint"
#define LENDS_RAM false
#include "easel.h"

static uint64_t paint(struct easel *e, struct lengths lent)
{
    return pedralume_repaint(e->chips, lent.chips, e->picture, lent.picture, e->output, lent.output);
}

/* The 254 records as document 01 lists them. */
static void expect_repaint(struct trace *t, const struct easel *e)
{
    t->len = 0;
    for (unsigned chip = 0; chip < 2; chip++) {
        const uint8_t *c = e->chips + CHIP * chip;
        for (unsigned r = 0; r < 2; r++) {
            put_command(t, chip, (c[PEDRALUME_START_LINE] == 0 ? 0xBA : 0xB8) + r);
            put_command(t, chip, c[PEDRALUME_ADC] ? 19 : 0);
            for (unsigned k = 0; k < 61; k++)
                put_write(t, chip, e->picture[61 * chip + (c[PEDRALUME_ADC] ? 60 - k : k) + 122 * r]);
        }
    }
    for (unsigned chip = 0; chip < 2; chip++)
        put_command(t, chip, e->chips[CHIP * chip + PEDRALUME_START_LINE] == 0 ? 0xD0 : 0xC0);
}

/* The 254 records are written, and nothing else of what is lent. */
static void test_done(const struct easel *given, size_t output)
{
    static struct trace t;
    static struct rig r;
    struct easel e = *given, want = *given;
    CHECK_ANSWER(paint(&e, (struct lengths){ CHIPS, RAM, PICTURE, output }), 0, 254, 0, 0);
    expect_repaint(&t, given);
    CHECK(t.len == REPAINT);
    memcpy(want.output, t.bytes, REPAINT);
    CHECK(memcmp(&e, &want, sizeof e) == 0);
    send_whole(&r, &e, e.output, REPAINT_RECORDS);
}

static void test_repaints(void)
{
    static struct easel e;
    for (unsigned way = 0; way < WAYS; way++) {
        ready_easel_by(&e, way);
        test_rooms(&e);
    }
}

static void test_example(void)
{
    static struct easel e;
    ready_easel(&e);                                                /* P12 */
    e.chips[PEDRALUME_ADC] = 1;
    CHECK_ANSWER(pedralume_repaint(e.chips, CHIPS, e.picture, PICTURE, e.output, REPAINT), 0, 254, 0, 0);
    CHECK(memcmp(e.output, (const uint8_t[]){ 2, 0, 0xBA, 0, 2, 0, 0x13, 0 }, 8) == 0);
    CHECK(memcmp(e.output + REPAINT - 8, (const uint8_t[]){ 2, 0, 0xD0, 0, 2, 1, 0xD0, 0 }, 8) == 0);
}

int main(void)
{
    test_repaints();
    test_idle_fields();
    test_example();
    test_refusals();
    return end_of_checks();
}

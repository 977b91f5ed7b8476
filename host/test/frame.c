/*
 * This test holds the archive's frame to document 01: each pixel at each setting of the chips, the checked
 * examples, and the numbers. What is expected is written out here and in check.h from the documents, not taken
 * from any implementation.
 */
#define PROGRAM "frame"
#include "rig.h"

/* ---- what a frame is lent ---- */

/* A state and a frame with bytes to spare. */
struct panel {
    uint8_t chips[CHIPS + SLACK];
    uint8_t ram[RAM + SLACK];
    uint8_t frame[FRAME + SLACK];
};

static void lit_panel(struct panel *p)
{
    struct rng g = { 7 };
    memset(p, 0xEE, sizeof *p);
    shown_chips(p->chips);
    random_bytes(&g, p->ram, RAM);
}

static uint64_t frame_of(struct panel *p)
{
    return pedralume_frame(p->chips, CHIPS, p->ram, RAM, p->frame, FRAME);
}

static unsigned pixel(const uint8_t *frame, unsigned x, unsigned row)
{
    return bit(frame[x + WIDTH * (row / 8)], row % 8);
}

static void panel_command(struct panel *p, unsigned chip, unsigned byte)
{
    const uint8_t record[RECORD] = { PEDRALUME_COMMAND_WRITE, (uint8_t)chip, (uint8_t)byte, 0 };
    uint8_t answer[2];
    CHECK_ANSWER(pedralume_replay(p->chips, CHIPS, p->ram, RAM, record, RECORD, answer, 2), 0, 1, 0, 0);
}

/* ---- every pixel ---- */

static void test_frame_of(struct panel *p)
{
    struct panel before = *p;
    unsigned wrong = 0;
    CHECK_ANSWER(frame_of(p), 0, 488, 0, 0);
    for (unsigned x = 0; x < WIDTH; x++)
        for (unsigned row = 0; row < 32; row++)
            wrong += pixel(p->frame, x, row) != expect_pixel(p->chips, p->ram, x, row);
    CHECK(wrong == 0);
    memcpy(before.frame, p->frame, FRAME);
    CHECK(memcmp(&before, p, sizeof before) == 0);
}

/* Each switch of each chip at each start line, the other chip elsewhere. */
static void test_all_frames(void)
{
    static struct panel p;
    lit_panel(&p);
    for (unsigned way = 0; way < 16 * 32; way++) {
        for (unsigned chip = 0; chip < 2; chip++) {
            uint8_t *c = p.chips + CHIP * chip;
            unsigned turned = chip == 0 ? way : (way * 5 + 77) % 512;
            for (unsigned field = 0; field < 4; field++)
                c[field] = (uint8_t)(turned >> (5 + field) & 1);
            c[PEDRALUME_START_LINE] = (uint8_t)(turned % 32);
        }
        test_frame_of(&p);
    }
}

/* ---- checked examples that need a frame ---- */

static bool half_is(const struct panel *p, unsigned chip, unsigned byte)
{
    for (unsigned i = 0; i < 4 * HALF_WIDTH; i++)
        if (p->frame[i % HALF_WIDTH + HALF_WIDTH * chip + WIDTH * (i / HALF_WIDTH)] != byte)
            return false;
    return true;
}

static void test_switch_examples(unsigned chip)                     /* P5 */
{
    static struct panel p;
    lit_panel(&p);
    panel_command(&p, chip, 0xAE);
    panel_command(&p, chip, 0xA5);
    CHECK_ANSWER(frame_of(&p), 0, 488, 0, 0);
    CHECK(half_is(&p, chip, 0) && !half_is(&p, 1 - chip, 0));
    panel_command(&p, chip, 0xAF);
    panel_command(&p, chip, 0xA5);
    CHECK_ANSWER(frame_of(&p), 0, 488, 0, 0);
    CHECK(half_is(&p, chip, 0xFF) && !half_is(&p, 1 - chip, 0xFF));
}

static void test_row_example(unsigned chip)                         /* P8 */
{
    static struct panel p;
    uint8_t *ram = p.ram + HALF_RAM * chip;
    unsigned first = HALF_WIDTH * chip;
    lit_panel(&p);
    memset(p.ram, 0, RAM);
    ram[240] = 0x80;
    ram[1] = 0x01;
    panel_command(&p, chip, 0xDF);
    frame_of(&p);
    CHECK(pixel(p.frame, first, 0) == 1 && pixel(p.frame, first, 1) == 0);
    CHECK(pixel(p.frame, first + 1, 0) == 0 && pixel(p.frame, first + 1, 1) == 1);
}

static void test_segment_examples(unsigned chip)                    /* P9 */
{
    static struct panel p;
    const uint8_t *ram = p.ram + HALF_RAM * chip;
    unsigned first = HALF_WIDTH * chip;
    lit_panel(&p);
    frame_of(&p);
    CHECK(p.frame[first + 60] == ram[60]);
    panel_command(&p, chip, 0xA1);
    frame_of(&p);
    CHECK(p.frame[first + 60] == ram[19] && p.frame[first] == ram[79]);
}

static void test_frame_examples(void)
{
    for (unsigned chip = 0; chip < 2; chip++) {
        test_switch_examples(chip);
        test_row_example(chip);
        test_segment_examples(chip);
    }
}

/* ---- numbers 1 and 2 ---- */

static void test_frame_stays(const struct panel *given, size_t chips, size_t ram, size_t frame, unsigned number, size_t place)
{
    struct panel p = *given;
    CHECK_ANSWER(pedralume_frame(p.chips, chips, p.ram, ram, p.frame, frame), number, place, 0, 0);
    CHECK(memcmp(&p, given, sizeof p) == 0);
}

static void test_frame_columns(void)
{
    static struct panel p;
    for (unsigned way = 0; way < COLUMN_WAYS; way++) {
        lit_panel(&p);
        struct given_column c = put_column(p.chips, way);
        if (c.number == 0)
            test_frame_of(&p);
        else
            test_frame_stays(&p, CHIPS, RAM, FRAME, c.number, c.place);
    }
}

static void test_frame_refusals(void)
{
    static const size_t chips[] = { 0, 12, 23, 25 }, ram[] = { 0, 320, 639, 641 }, frame[] = { 0, 244, 487, 489 };
    static struct panel p;
    lit_panel(&p);
    for (unsigned i = 0; i < 4; i++) {
        test_frame_stays(&p, chips[i], RAM, FRAME, 1, 0);
        test_frame_stays(&p, CHIPS, ram[i], FRAME, 1, 0);
        test_frame_stays(&p, CHIPS, RAM, frame[i], 1, 0);
    }
    for (unsigned chip = 0; chip < 2; chip++)
        for (unsigned field = 0; field < CHIP; field++) {
            lit_panel(&p);
            if (field == PEDRALUME_LATCH_BYTE)
                continue;
            p.chips[CHIP * chip + field] = (uint8_t)(field_limit[field] + 1u);
            test_frame_stays(&p, CHIPS, RAM, FRAME, 2, chip);
            test_frame_stays(&p, CHIPS, RAM, FRAME - 1, 1, 0);      /* 1 before 2 */
        }
    lit_panel(&p);
    p.chips[CHIP + PEDRALUME_SAVED_COLUMN] = 1;
    test_frame_stays(&p, CHIPS, RAM, FRAME, 2, 1);
    p.chips[PEDRALUME_SAVED_COLUMN] = 1;                            /* left before right */
    test_frame_stays(&p, CHIPS, RAM, FRAME, 2, 0);
}

int main(void)
{
    test_all_frames();
    test_frame_examples();
    test_frame_refusals();
    test_frame_columns();
    return end_of_checks();
}

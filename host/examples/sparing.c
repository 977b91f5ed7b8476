/*
 * A bar that moves to the right by a column, painted with as few records as its pixels ask for: a sparing repaint
 * compares the picture with the two pages of either chip that are hidden, and these hold what was painted before the
 * last picture. So the third picture has two columns to change: the bar of the first, and its own. Painted again, it
 * has the bar of the second to clear and its own to draw; after that only the two start lines are left.
 *
 * It prints:
 *
 *   bar at 0: 5 of 254 records
 *   bar at 1: 5 of 254 records
 *   bar at 2: 7 of 254 records
 *   bar at 2: 6 of 254 records
 *   bar at 2: 2 of 254 records
 */
#include <pedralume.h>

#include <stdio.h>
#include <string.h>

/* Ready for a repaint: fresh but for the display, which is on, and duty 1/16. */
#define READY_CHIP 1, 0, 0, 0, 0, 0, 0, 0, 0, 0, 0, 0

static uint8_t chips[PEDRALUME_CHIPS_BYTES] = { READY_CHIP, READY_CHIP };
static uint8_t ram[PEDRALUME_RAM_BYTES];

/* Gives the number of records, or 0 where the repaint or one of its records is refused. */
static unsigned paint(const uint8_t *picture)
{
    uint8_t records[PEDRALUME_REPAINT_BYTES], answers[PEDRALUME_REPAINT_RECORDS * PEDRALUME_ANSWER_BYTES];
    uint64_t answer = pedralume_sparing_repaint(chips, sizeof chips, ram, sizeof ram, picture, PEDRALUME_PICTURE_BYTES,
                                                records, sizeof records);
    unsigned count = pedralume_place(answer);
    if (pedralume_number(answer) != PEDRALUME_DONE)
        return 0;
    answer = pedralume_replay(chips, sizeof chips, ram, sizeof ram, records, count * PEDRALUME_RECORD_BYTES,
                              answers, sizeof answers);
    return pedralume_number(answer) == PEDRALUME_DONE ? count : 0;
}

int main(void)
{
    static const unsigned places[] = { 0, 1, 2, 2, 2 };
    for (size_t i = 0; i < sizeof places / sizeof places[0]; i++) {
        uint8_t picture[PEDRALUME_PICTURE_BYTES];
        memset(picture, 0, sizeof picture);
        picture[places[i]] = 0xFF;
        unsigned count = paint(picture);
        if (count == 0)
            return 1;
        printf("bar at %u: %u of %u records\n", places[i], count, PEDRALUME_REPAINT_RECORDS);
    }
    return 0;
}

/*
 * What the panel shows after three records: the left display on, then two bytes at page 0, columns 0 and 1.
 * Bit 0 of a byte is its topmost pixel. The first four columns of the first eight rows are printed.
 *
 * It prints:
 *
 *   #...
 *   .#..
 *   #...
 *   .#..
 *   #...
 *   .#..
 *   #...
 *   .#..
 */
#include <pedralume.h>

#include <stdio.h>

static const uint8_t trace[3 * PEDRALUME_RECORD_BYTES] = {
    PEDRALUME_COMMAND_WRITE, 0, 0xAF, 0,
    PEDRALUME_DATA_WRITE,    0, 0x55, 0,
    PEDRALUME_DATA_WRITE,    0, 0xAA, 0
};

int main(void)
{
    uint8_t chips[PEDRALUME_CHIPS_BYTES] = { PEDRALUME_FRESH_CHIP, PEDRALUME_FRESH_CHIP };
    uint8_t ram[PEDRALUME_RAM_BYTES] = { 0 };
    uint8_t answers[3 * PEDRALUME_ANSWER_BYTES], frame[PEDRALUME_FRAME_BYTES];
    uint64_t answer = pedralume_replay(chips, sizeof chips, ram, sizeof ram,
                                       trace, sizeof trace, answers, sizeof answers);
    if (pedralume_number(answer) == PEDRALUME_DONE)
        answer = pedralume_frame(chips, sizeof chips, ram, sizeof ram, frame, sizeof frame);
    if (pedralume_number(answer) != PEDRALUME_DONE)
        return 1;
    for (unsigned y = 0; y < 8; y++) {
        for (unsigned x = 0; x < 4; x++)
            putchar(pedralume_pixel(frame, x, y) ? '#' : '.');
        putchar('\n');
    }
    return 0;
}

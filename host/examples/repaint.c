/*
 * A repaint, sent to the model as it would be to the panel. Fresh chips are not ready for one, so the first call
 * is refused; four commands make them ready. Of the 254 records only the last two change what is shown. The
 * picture is lit in its first row alone, 61 pixels in either half.
 *
 * It prints:
 *
 *   left chip: display off or static drive on
 *   record 252: left 61, right 0
 *   record 253: left 0, right 61
 */
#include <pedralume.h>

#include <stdio.h>
#include <string.h>

/* The display on and duty 1/16, of both chips. */
static const uint8_t make_ready[4 * PEDRALUME_RECORD_BYTES] = {
    PEDRALUME_COMMAND_WRITE, 0, 0xAF, 0,
    PEDRALUME_COMMAND_WRITE, 0, 0xA8, 0,
    PEDRALUME_COMMAND_WRITE, 1, 0xAF, 0,
    PEDRALUME_COMMAND_WRITE, 1, 0xA8, 0
};

static uint8_t chips[PEDRALUME_CHIPS_BYTES] = { PEDRALUME_FRESH_CHIP, PEDRALUME_FRESH_CHIP };
static uint8_t ram[PEDRALUME_RAM_BYTES];
static uint8_t picture[PEDRALUME_PICTURE_BYTES];
static uint8_t records[PEDRALUME_REPAINT_BYTES];

/* The records of a repaint from the chips as they are now; where there are none, it says why. */
static int paint(void)
{
    uint64_t answer = pedralume_repaint(chips, sizeof chips, picture, sizeof picture, records, sizeof records);
    if (pedralume_number(answer) == PEDRALUME_DONE)
        return 1;
    printf("%s chip: %s\n", pedralume_place(answer) == 0 ? "left" : "right",
           pedralume_words(pedralume_number(answer)));
    return 0;
}

/* To a panel these would go over the bus, one after the other. */
static void send(const uint8_t *trace, size_t length)
{
    uint8_t answers[PEDRALUME_REPAINT_RECORDS * PEDRALUME_ANSWER_BYTES];
    pedralume_replay(chips, sizeof chips, ram, sizeof ram, trace, length, answers, sizeof answers);
}

int main(void)
{
    uint8_t entries[PEDRALUME_REPAINT_RECORDS * PEDRALUME_ENTRY_BYTES];
    memset(picture, 0x01, PEDRALUME_WIDTH);
    if (paint())
        return 1;
    send(make_ready, sizeof make_ready);
    if (!paint())
        return 1;
    uint64_t listed = pedralume_changes(chips, sizeof chips, ram, sizeof ram, records, sizeof records,
                                        entries, sizeof entries);
    for (unsigned i = 0; i < pedralume_place(listed); i++) {
        const uint8_t *entry = entries + PEDRALUME_ENTRY_BYTES * i;
        printf("record %u: left %u, right %u\n", (unsigned)pedralume_entry_record(entry),
               pedralume_entry_left(entry), pedralume_entry_right(entry));
    }
    send(records, sizeof records);
    return 0;
}

/*
 * The records that changed what the panel shows, from fresh chips and RAM all 0: record, pixels changed in the
 * left half, pixels changed in the right half.
 *
 * It prints:
 *
 *   1 4 0
 *   4 0 8
 *   5 1948 0
 */
#include <pedralume.h>

#include <stdio.h>

static const uint8_t trace[6 * PEDRALUME_RECORD_BYTES] = {
    PEDRALUME_COMMAND_WRITE, 0, 0xAF, 0,    /* 0: left display on, over empty RAM: not listed */
    PEDRALUME_DATA_WRITE,    0, 0xA5, 0,    /* 1: lights 4 pixels of the left half */
    PEDRALUME_STATUS_READ,   0, 0x40, 0,    /* 2: not listed */
    PEDRALUME_DATA_WRITE,    1, 0xFF, 0,    /* 3: the right display is off: not listed */
    PEDRALUME_COMMAND_WRITE, 1, 0xAF, 0,    /* 4: right display on: 8 pixels light */
    PEDRALUME_COMMAND_WRITE, 0, 0xA5, 0     /* 5: left static drive on: the other 1,948 light */
};

int main(void)
{
    static const uint8_t chips[PEDRALUME_CHIPS_BYTES] = { PEDRALUME_FRESH_CHIP, PEDRALUME_FRESH_CHIP };
    static const uint8_t ram[PEDRALUME_RAM_BYTES] = { 0 };
    uint8_t entries[6 * PEDRALUME_ENTRY_BYTES];
    uint64_t answer = pedralume_changes(chips, sizeof chips, ram, sizeof ram, trace, sizeof trace,
                                        entries, sizeof entries);
    if (pedralume_number(answer) != PEDRALUME_DONE)
        return 1;
    for (unsigned i = 0; i < pedralume_place(answer); i++) {
        const uint8_t *entry = entries + PEDRALUME_ENTRY_BYTES * i;
        printf("%u %u %u\n", (unsigned)pedralume_entry_record(entry),
               pedralume_entry_left(entry), pedralume_entry_right(entry));
    }
    return 0;
}

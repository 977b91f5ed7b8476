/*
 * A recorder's loop: the trace comes in parts that are cut anywhere, here 7 bytes at a time, and goes into a feed.
 * Each answer is printed when its record is whole: record, kind and byte. At the end come number, place, reads
 * compared and reads that differ. Number 3 there means that the recording ends inside a record.
 *
 * It prints:
 *
 *   0 0 00
 *   1 0 00
 *   2 0 00
 *   3 2 00
 *   4 1 A5
 *   end 0 5 1 0: done
 */
#include <pedralume.h>

#include <stdio.h>
#include <string.h>

static const uint8_t trace[5 * PEDRALUME_RECORD_BYTES] = {
    PEDRALUME_COMMAND_WRITE, 0, 0x0A, 0,
    PEDRALUME_DATA_WRITE,    0, 0xA5, 0,
    PEDRALUME_COMMAND_WRITE, 0, 0x0A, 0,
    PEDRALUME_DATA_READ,     0, 0x00, 0,
    PEDRALUME_DATA_READ,     0, 0xA5, 0
};

/* How many bytes the recorder has put into part; 0 at the end of the recording. */
static size_t take_bytes(uint8_t *part, size_t room)
{
    static size_t taken = 0;
    size_t length = sizeof trace - taken < 7 ? sizeof trace - taken : 7;
    if (length > room)
        length = room;
    memcpy(part, trace + taken, length);
    taken += length;
    return length;
}

int main(void)
{
    uint8_t chips[PEDRALUME_CHIPS_BYTES] = { PEDRALUME_FRESH_CHIP, PEDRALUME_FRESH_CHIP };
    uint8_t ram[PEDRALUME_RAM_BYTES] = { 0 };
    uint8_t feed[PEDRALUME_FEED_BYTES], part[512];
    uint8_t answers[(sizeof part + 3) / PEDRALUME_RECORD_BYTES * PEDRALUME_ANSWER_BYTES];
    size_t length;
    uint64_t answer = pedralume_feed_open(feed, sizeof feed, chips, sizeof chips);
    while (pedralume_number(answer) == PEDRALUME_DONE && (length = take_bytes(part, sizeof part)) > 0) {
        uint32_t before = pedralume_feed_records(feed);
        answer = pedralume_feed_part(feed, sizeof feed, ram, sizeof ram, part, length, answers, sizeof answers);
        for (uint32_t i = before; i < pedralume_feed_records(feed); i++)
            printf("%u %u %02X\n", (unsigned)i, answers[2 * (i - before)], answers[2 * (i - before) + 1]);
    }
    if (pedralume_number(answer) == PEDRALUME_DONE)
        answer = pedralume_feed_close(feed, sizeof feed);
    printf("end %u %u %u %u: %s\n", pedralume_number(answer), (unsigned)pedralume_feed_place(answer),
           (unsigned)pedralume_feed_compared(feed), (unsigned)pedralume_feed_differing(feed),
           pedralume_words(pedralume_number(answer)));
    return pedralume_number(answer) != PEDRALUME_DONE;
}

/*
 * A trace over 65,536 bytes, whole in memory: it goes through a feed in parts of at most 65,536 bytes. Here it is
 * five records 20,000 times over, 400,000 bytes. Other than in a replay, a last record that is cut is found by the
 * close, when all before it are replayed.
 *
 * It prints:
 *
 *   number 0, place 100000, compared 20000, differing 0
 *   without its last byte: number 3, place 99999
 */
#include <pedralume.h>

#include <stdio.h>
#include <string.h>

/*
 * Replays the trace from these chips. Afterwards the first 24 bytes of the feed are the chips, and the counts are
 * in the rest. After each part answers has that part's. It is static, so one thread at a time may call this.
 */
static uint64_t replay_long(uint8_t *feed, uint8_t *ram, const uint8_t *chips, const uint8_t *trace, size_t length)
{
    static uint8_t answers[PEDRALUME_PART_MAX_BYTES / PEDRALUME_RECORD_BYTES * PEDRALUME_ANSWER_BYTES];
    size_t at, part;
    uint64_t answer = pedralume_feed_open(feed, PEDRALUME_FEED_BYTES, chips, PEDRALUME_CHIPS_BYTES);
    for (at = 0; pedralume_number(answer) == PEDRALUME_DONE && at < length; at += part) {
        part = length - at < PEDRALUME_PART_MAX_BYTES ? length - at : PEDRALUME_PART_MAX_BYTES;
        answer = pedralume_feed_part(feed, PEDRALUME_FEED_BYTES, ram, PEDRALUME_RAM_BYTES,
                                     trace + at, part, answers, sizeof answers);
    }
    return pedralume_number(answer) == PEDRALUME_DONE ? pedralume_feed_close(feed, PEDRALUME_FEED_BYTES) : answer;
}

int main(void)
{
    static const uint8_t once[5 * PEDRALUME_RECORD_BYTES] = {
        PEDRALUME_COMMAND_WRITE, 0, 0x0A, 0,
        PEDRALUME_DATA_WRITE,    0, 0xA5, 0,
        PEDRALUME_COMMAND_WRITE, 0, 0x0A, 0,
        PEDRALUME_DATA_READ,     0, 0x00, 0,
        PEDRALUME_DATA_READ,     0, 0xA5, 0
    };
    static const uint8_t chips[PEDRALUME_CHIPS_BYTES] = { PEDRALUME_FRESH_CHIP, PEDRALUME_FRESH_CHIP };
    static uint8_t trace[20000 * sizeof once], ram[PEDRALUME_RAM_BYTES];
    uint8_t feed[PEDRALUME_FEED_BYTES];
    for (size_t at = 0; at < sizeof trace; at += sizeof once)
        memcpy(trace + at, once, sizeof once);
    uint64_t answer = replay_long(feed, ram, chips, trace, sizeof trace);
    printf("number %u, place %u, compared %u, differing %u\n", pedralume_number(answer),
           (unsigned)pedralume_feed_place(answer), (unsigned)pedralume_feed_compared(feed),
           (unsigned)pedralume_feed_differing(feed));
    memset(ram, 0, sizeof ram);
    answer = replay_long(feed, ram, chips, trace, sizeof trace - 1);
    printf("without its last byte: number %u, place %u\n", pedralume_number(answer),
           (unsigned)pedralume_feed_place(answer));
    return 0;
}

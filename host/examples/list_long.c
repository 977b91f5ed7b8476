/*
 * The changes of a trace over 65,536 bytes: it is listed in blocks of whole records. A block is listed, then
 * replayed, so that chips and RAM are those before the next. The call counts from the block's first record, so
 * that is added. Here the trace is 20,000 status reads but for four commands, two of them where one block ends and
 * the next begins.
 *
 * It prints:
 *
 *   1 1952 0
 *   16383 1952 0
 *   16384 1952 0
 *   number 0
 */
#include <pedralume.h>

#include <stdio.h>

/*
 * Prints an entry a line. A block that is refused is refused whole, with the place counted from its first record,
 * which is *first; its first 4 * place bytes can be listed alone, though after number 3 there may be a record to
 * refuse among them. The buffers are static, so one thread at a time may call this.
 */
static uint64_t list_long(uint8_t *chips, uint8_t *ram, const uint8_t *trace, size_t length, size_t *first)
{
    static uint8_t entries[PEDRALUME_ENTRIES_MAX_BYTES];
    static uint8_t answers[PEDRALUME_TRACE_MAX_BYTES / PEDRALUME_RECORD_BYTES * PEDRALUME_ANSWER_BYTES];
    size_t at, block;
    uint64_t answer = PEDRALUME_DONE;
    for (at = 0; at < length; at += block) {
        block = length - at < PEDRALUME_TRACE_MAX_BYTES ? length - at : PEDRALUME_TRACE_MAX_BYTES;
        *first = at / PEDRALUME_RECORD_BYTES;
        answer = pedralume_changes(chips, PEDRALUME_CHIPS_BYTES, ram, PEDRALUME_RAM_BYTES,
                                   trace + at, block, entries, sizeof entries);
        if (pedralume_number(answer) != PEDRALUME_DONE)
            break;
        for (unsigned i = 0; i < pedralume_place(answer); i++) {
            const uint8_t *entry = entries + PEDRALUME_ENTRY_BYTES * i;
            printf("%lu %u %u\n", (unsigned long)(*first + pedralume_entry_record(entry)),
                   pedralume_entry_left(entry), pedralume_entry_right(entry));
        }
        pedralume_replay(chips, PEDRALUME_CHIPS_BYTES, ram, PEDRALUME_RAM_BYTES,
                         trace + at, block, answers, sizeof answers);
    }
    return answer;
}

static uint8_t recorded[20000 * PEDRALUME_RECORD_BYTES];

static void put(size_t record, unsigned lines, unsigned byte)
{
    recorded[PEDRALUME_RECORD_BYTES * record] = (uint8_t)lines;
    recorded[PEDRALUME_RECORD_BYTES * record + 2] = (uint8_t)byte;
}

int main(void)
{
    uint8_t chips[PEDRALUME_CHIPS_BYTES] = { PEDRALUME_FRESH_CHIP, PEDRALUME_FRESH_CHIP };
    uint8_t ram[PEDRALUME_RAM_BYTES] = { 0 };
    size_t first = 0;
    for (size_t record = 0; record < sizeof recorded / PEDRALUME_RECORD_BYTES; record++)
        put(record, PEDRALUME_STATUS_READ, 0x40);
    put(0, PEDRALUME_COMMAND_WRITE, 0xAF);          /* display on, over empty RAM: not listed */
    put(1, PEDRALUME_COMMAND_WRITE, 0xA5);          /* static drive on: all of the left half lights */
    put(16383, PEDRALUME_COMMAND_WRITE, 0xA4);      /* off: it goes dark */
    put(16384, PEDRALUME_COMMAND_WRITE, 0xA5);      /* on again */
    uint64_t answer = list_long(chips, ram, recorded, sizeof recorded, &first);
    printf("number %u\n", pedralume_number(answer));
    return 0;
}

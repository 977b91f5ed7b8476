/* The listing of document 01 for the trace on standard input, by the plain implementation and printf: what the program is compared with. */
#include <stdio.h>
#include <stdint.h>
#include <string.h>
#include "pedralume.h"

uint64_t plain_replay(uint8_t *chips, size_t chips_len, uint8_t *ram, size_t ram_len, const uint8_t *trace, size_t trace_len,
                      uint8_t *answers, size_t answers_len);

static uint8_t trace[1 << 18];
static uint8_t answers[1 << 17];

int main(void)
{
    static const uint8_t fresh[12] = { 0, 0, 1 };
    uint8_t chips[24];
    uint8_t ram[640] = { 0 };
    size_t size = fread(trace, 1, sizeof trace, stdin);
    memcpy(chips, fresh, 12);
    memcpy(chips + 12, fresh, 12);
    uint64_t done = plain_replay(chips, sizeof chips, ram, sizeof ram, trace, size, answers, sizeof answers);
    unsigned number = (unsigned)(done & 0xFF);
    unsigned place = (unsigned)(done >> 8 & 0xFFFF);
    unsigned given = number >= 1 && number <= 3 ? 0 : place;
    for (unsigned i = 0; i < given; i++)
        printf("%u %u %02X\n", i, answers[2 * i], answers[2 * i + 1]);
    printf("end %u %u %u %u\n", number, place, (unsigned)(done >> 24 & 0xFFFF), (unsigned)(done >> 40 & 0xFFFF));
    return 0;
}

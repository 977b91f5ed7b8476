/*
 * A client of the installed library, built by install.sh outside the tree, as C and as C++. It takes the name of
 * what to run. The files *.inc are the example of the installed header, as it stands in its comment: first, refused
 * (with its last record spoilt) and trace (its records). The installed examples replay_long and list_long lend their
 * functions, which are tried here on more traces than their own.
 */
#include <pedralume.h>

#include <stdio.h>
#include <string.h>

#define main replay_long_main
#include "replay_long.c"
#undef main
#define main list_long_main
#include "list_long.c"
#undef main

#include "trace.inc"

enum {
    TIMES_REPLAYED = 20000,
    TIMES_LISTED = 10000
};

static const uint8_t fresh_chips[PEDRALUME_CHIPS_BYTES] = { PEDRALUME_FRESH_CHIP, PEDRALUME_FRESH_CHIP };

static void run_first(void)
{
#include "first.inc"
}

static void run_refused(void)
{
#include "refused.inc"
}

static void run_replay_long(void)
{
    static uint8_t many[TIMES_REPLAYED * sizeof trace];
    uint8_t feed[PEDRALUME_FEED_BYTES], ram[PEDRALUME_RAM_BYTES] = { 0 };
    for (size_t i = 0; i < TIMES_REPLAYED; i++)
        memcpy(many + i * sizeof trace, trace, sizeof trace);
    uint64_t answer = replay_long(feed, ram, fresh_chips, many, sizeof many);
    printf("%u %u %u %u\n", pedralume_number(answer), pedralume_feed_place(answer), pedralume_feed_compared(feed),
           pedralume_feed_differing(feed));
    answer = replay_long(feed, ram, fresh_chips, many, sizeof many - 1);
    printf("cut: %u %u\n", pedralume_number(answer), pedralume_feed_place(answer));
    many[4 * 70000 + 1] = 2;
    answer = replay_long(feed, ram, fresh_chips, many, sizeof many);
    printf("spoilt: %u %u\n", pedralume_number(answer), pedralume_feed_place(answer));
}

static void run_list_long(void)
{
    static const uint8_t blink[3 * PEDRALUME_RECORD_BYTES] = {
        PEDRALUME_COMMAND_WRITE, 0, 0xAF, 0, PEDRALUME_COMMAND_WRITE, 0, 0xA5, 0, PEDRALUME_COMMAND_WRITE, 0, 0xA4, 0
    };
    static uint8_t many[TIMES_LISTED * sizeof blink];
    uint8_t chips[PEDRALUME_CHIPS_BYTES], ram[PEDRALUME_RAM_BYTES] = { 0 };
    memcpy(chips, fresh_chips, sizeof chips);
    for (size_t i = 0; i < TIMES_LISTED; i++)
        memcpy(many + i * sizeof blink, blink, sizeof blink);
    size_t first;
    uint64_t answer = list_long(chips, ram, many, sizeof many, &first);
    printf("number %u\n", pedralume_number(answer));
    many[4 * 16390 + 1] = 2;
    memcpy(chips, fresh_chips, sizeof chips);
    answer = list_long(chips, ram, many, sizeof many, &first);
    printf("spoilt: number %u at %lu\n", pedralume_number(answer), (unsigned long)(first + pedralume_place(answer)));
}

/* Both displays and both static drives on: every pixel is lit. */
static void run_frame(void)
{
    uint8_t chips[PEDRALUME_CHIPS_BYTES], ram[PEDRALUME_RAM_BYTES] = { 0 }, frame[PEDRALUME_FRAME_BYTES];
    unsigned lit = 0;
    memcpy(chips, fresh_chips, sizeof chips);
    for (unsigned chip = 0; chip < 2; chip++)
        chips[PEDRALUME_CHIP_BYTES * chip + PEDRALUME_DISPLAY] = chips[PEDRALUME_CHIP_BYTES * chip + PEDRALUME_STATIC] = 1;
    uint64_t answer = pedralume_frame(chips, sizeof chips, ram, sizeof ram, frame, sizeof frame);
    for (unsigned pixel = 0; pixel < 8 * sizeof frame; pixel++)
        lit += (unsigned)frame[pixel / 8] >> pixel % 8 & 1u;
    printf("%u %u %u\n", pedralume_number(answer), pedralume_place(answer), lit);
}

static void run_words(void)
{
    for (unsigned number = 0; number <= 20; number++)
        printf("%u %s\n", number, pedralume_words(number));
}

static void run_version(void)
{
    printf("%d.%d.%d %s %d %lu\n", PEDRALUME_VERSION_MAJOR, PEDRALUME_VERSION_MINOR, PEDRALUME_VERSION_PATCH, PEDRALUME_VERSION,
           PEDRALUME_VERSION_NUMBER, (unsigned long)pedralume_version());
}

static const struct {
    const char *name;
    void (*run)(void);
} runs[] = {
    { "first", run_first }, { "refused", run_refused }, { "replay_long", run_replay_long }, { "list_long", run_list_long },
    { "frame", run_frame }, { "words", run_words }, { "version", run_version }
};

int main(int argc, char **argv)
{
    for (size_t i = 0; argc == 2 && i < sizeof runs / sizeof runs[0]; i++)
        if (strcmp(argv[1], runs[i].name) == 0) {
            runs[i].run();
            return ferror(stdout) != 0 || fflush(stdout) != 0;
        }
    return 2;
}

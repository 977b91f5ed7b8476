/*
 * The stack that a call takes. Each call runs on a painted stack of its own, on random chips, RAM and traces
 * whose records are accepted. For each call the most bytes that it used are printed: those from the stack's
 * beginning to the last that lost its paint. Usage: stack SEED CASES LIMIT; it fails where a call used more
 * than LIMIT.
 */
#define _XOPEN_SOURCE 700
#include "support.h"

#include <ucontext.h>

enum { STACK = 1 << 16, PAINT = 0xA7, RECORDS = 400 };

static uint8_t stack[STACK], chips[CHIPS], ready[CHIPS], ram[RAM], feed[FEED], picture[PICTURE], answers[2 * RECORDS];
static uint8_t frame[FRAME], output[REPAINT], entries[ENTRY * RECORDS];
static struct trace trace;
static ucontext_t here, there;

static void nothing(void) {}
static void replay(void) { pedralume_replay(chips, CHIPS, ram, RAM, trace.bytes, trace.len, answers, sizeof answers); }
static void show(void) { pedralume_frame(chips, CHIPS, ram, RAM, frame, FRAME); }
static void repaint(void) { pedralume_repaint(ready, CHIPS, picture, PICTURE, output, REPAINT); }
static void sparing(void) { pedralume_sparing_repaint(ready, CHIPS, ram, RAM, picture, PICTURE, output, REPAINT); }
static void feed_open(void) { pedralume_feed_open(feed, FEED, chips, CHIPS); }
static void feed_first(void) { pedralume_feed_part(feed, FEED, ram, RAM, trace.bytes, 5, answers, sizeof answers); }
static void feed_rest(void) { pedralume_feed_part(feed, FEED, ram, RAM, trace.bytes + 5, trace.len - 5, answers, sizeof answers); }
static void feed_close(void) { pedralume_feed_close(feed, FEED); }
static void version(void) { pedralume_version(); }
static void changes(void) { pedralume_changes(chips, CHIPS, ram, RAM, trace.bytes, trace.len, entries, sizeof entries); }

/* In this order: the replay moves chips and RAM on, so it is the last. The first shows what the measuring takes. */
static const struct { const char *name; void (*run)(void); } calls[] = {
    { "(no call)", nothing }, { "frame", show }, { "repaint", repaint }, { "sparing_repaint", sparing }, { "changes", changes },
    { "feed_open", feed_open },
    { "feed_part, the first", feed_first }, { "feed_part, another", feed_rest }, { "feed_close", feed_close },
    { "version", version }, { "replay", replay },
};
enum { COUNT = sizeof calls / sizeof calls[0] };

static size_t used_by(void (*run)(void))
{
    size_t left = 0;
    memset(stack, PAINT, STACK);
    getcontext(&there);
    there.uc_stack.ss_sp = stack;
    there.uc_stack.ss_size = STACK;
    there.uc_link = &here;
    makecontext(&there, run, 0);
    swapcontext(&here, &there);
    while (left < STACK && stack[left] == PAINT)
        left++;
    return STACK - left;
}

int main(int argc, char **argv)
{
    if (argc != 4)
        return 2;
    size_t most[COUNT] = { 0 }, limit = strtoul(argv[3], NULL, 10);
    uint64_t seed = strtoull(argv[1], NULL, 10), cases = strtoull(argv[2], NULL, 10);
    int status = 0;
    for (uint64_t at = 0; at < cases; at++) {
        struct rng g = rng_for(seed, 9, at);
        draw_chips(&g, chips);
        draw_ready_chip(&g, ready);
        draw_ready_chip(&g, ready + CHIP);
        random_bytes(&g, ram, RAM);
        random_bytes(&g, picture, PICTURE);
        trace.len = 0;
        put_shown(&trace, &g, chips, RECORDS);
        for (size_t i = 0; i < COUNT; i++) {
            size_t used = used_by(calls[i].run);
            most[i] = used > most[i] ? used : most[i];
        }
    }
    for (size_t i = 0; i < COUNT; i++) {
        printf("stack: %-22s %5zu bytes%s\n", calls[i].name, most[i], most[i] > limit ? ", over the limit" : "");
        status |= most[i] > limit;
    }
    return status;
}

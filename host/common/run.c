/* Records to the chips, through a feed. */
#include "common.h"

#include <errno.h>
#include <string.h>

/* A state file: chips, then RAM. One byte more is read, so that a longer file is seen. */
enum { STATE_BYTES = PEDRALUME_CHIPS_BYTES + PEDRALUME_RAM_BYTES };

/* ---- messages ---- */

/* Whether its place is a record. */
static bool refuses_record(unsigned number)
{
    return (number >= PEDRALUME_SPARE_BITS && number <= PEDRALUME_COLUMN_IN_RMW) || number == PEDRALUME_NO_SUCH_COLUMN;
}

/* The place is how many records were taken for 3, a chip for 2 and 0 for the others that refuse no record. */
static bool refused(const struct run *run)
{
    unsigned number = pedralume_number(run->answer);
    unsigned long place = pedralume_feed_place(run->answer);
    const char *words = pedralume_words(number);
    if (refuses_record(number))
        fprintf(stderr, "%s: record %lu refused: number %u, %s\n", run->name, place, number, words);
    else if (number == PEDRALUME_CUT_TRACE)
        fprintf(stderr, "%s: refused: number %u, %s (records taken: %lu)\n", run->name, number, words, place);
    else if (number == PEDRALUME_BAD_CHIP)
        fprintf(stderr, "%s: refused: number %u, %s chip: %s\n", run->name, number, chip_words((unsigned)place), words);
    else
        fprintf(stderr, "%s: refused: number %u, %s\n", run->name, number, words);
    return false;
}

/* ---- the beginning, and what is kept for another day ---- */

static bool open_run(struct run *run, const char *name, const uint8_t *chips)
{
    run->name = name;
    run->answer = pedralume_feed_open(run->feed, sizeof run->feed, chips, PEDRALUME_CHIPS_BYTES);
    return is_open(run) || refused(run);
}

static bool read_state(const char *path, uint8_t state[STATE_BYTES])
{
    uint8_t bytes[STATE_BYTES + 1];
    size_t length;
    if (!read_file(path, bytes, sizeof bytes, &length))
        return false;
    memcpy(state, bytes, STATE_BYTES);
    if (length == STATE_BYTES)
        return true;
    fprintf(stderr, "%s: no chips and RAM: it has %s %d bytes\n", path, length < STATE_BYTES ? "under" : "over", STATE_BYTES);
    return false;
}

bool begin_run(struct run *run, const char *name, const char *start)
{
    uint8_t state[STATE_BYTES] = { PEDRALUME_FRESH_CHIP, PEDRALUME_FRESH_CHIP };
    if (start != NULL && !read_state(start, state))
        return false;
    memcpy(run->ram, state + PEDRALUME_CHIPS_BYTES, sizeof run->ram);
    if (!open_run(run, start != NULL ? start : name, state))
        return false;
    run->name = name;
    return true;
}

bool go_on_from(struct run *run, const char *name, const struct run *before)
{
    uint8_t chips[PEDRALUME_CHIPS_BYTES];
    memcpy(chips, before->feed, sizeof chips);
    memcpy(run->ram, before->ram, sizeof run->ram);
    return open_run(run, name, chips);
}

bool save_run(const struct run *run, const char *path)
{
    FILE *file = open_output(path);
    if (file == NULL)
        return false;
    errno = 0;
    bool good = fwrite(run->feed, 1, PEDRALUME_CHIPS_BYTES, file) == PEDRALUME_CHIPS_BYTES
             && fwrite(run->ram, 1, sizeof run->ram, file) == sizeof run->ram;
    return close_output(file, path, good || file_failed(path, "cannot be written"));
}

/* ---- records ---- */

bool is_open(const struct run *run)
{
    return pedralume_number(run->answer) == PEDRALUME_DONE;
}

bool send_bytes(struct run *run, const uint8_t *bytes, size_t length)
{
    static uint8_t answers[(PEDRALUME_PART_MAX_BYTES + 3) / RECORD * PEDRALUME_ANSWER_BYTES];
    size_t given;
    for (size_t at = 0; at < length; at += given) {
        given = length - at < PEDRALUME_PART_MAX_BYTES ? length - at : PEDRALUME_PART_MAX_BYTES;
        run->answer = pedralume_feed_part(run->feed, sizeof run->feed, run->ram, sizeof run->ram,
                                          bytes + at, given, answers, sizeof answers);
        if (!is_open(run))
            return refused(run);
    }
    return true;
}

size_t send_one(struct run *run, const uint8_t *bytes, size_t length, uint8_t answer[PEDRALUME_ANSWER_BYTES])
{
    size_t missing = RECORD - run->feed[PEDRALUME_FEED_KEPT_COUNT];
    size_t given = length < missing ? length : missing;
    run->answer = pedralume_feed_part(run->feed, sizeof run->feed, run->ram, sizeof run->ram,
                                      bytes, given, answer, PEDRALUME_ANSWER_BYTES);
    return given;
}

static void close_run(struct run *run)
{
    run->answer = pedralume_feed_close(run->feed, sizeof run->feed);
}

bool end_run(struct run *run)
{
    if (is_open(run))
        close_run(run);
    return is_open(run) || refused(run);
}

/* The line is on standard output; what a refusal means is said on standard error. */
bool tell_end(struct run *run, const char *before)
{
    if (is_open(run))
        close_run(run);
    errno = 0;
    printf("%send: number %u, %s, place %lu; records taken: %lu, reads compared: %lu, differing: %lu\n", before,
           pedralume_number(run->answer), is_open(run) ? "done" : "refused", (unsigned long)pedralume_feed_place(run->answer),
           (unsigned long)pedralume_feed_records(run->feed), (unsigned long)pedralume_feed_compared(run->feed),
           (unsigned long)pedralume_feed_differing(run->feed));
    return all_printed() && (is_open(run) || refused(run));
}

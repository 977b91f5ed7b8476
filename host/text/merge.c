/*
 * text --merge: two traces, recorded on one chip each, as one.
 *
 * The order of the merged trace does not matter, since a chip answers by its own records alone. As long as
 * each chip's own records keep their order, each gets the same answer, and chips, RAM, counts and panel end the
 * same; that is proved (request C-18), for traces in which no record is refused. What the panel shows in between
 * does depend on the order.
 */
#include "text.h"

#include <errno.h>
#include <stdlib.h>

/* One of the two, read whole. */
struct side {
    const char *role;       /* what the usage calls it */
    uint8_t chip;           /* whose records it must have */
    struct input input;
    struct bytes trace;
};

/* ---- faults ---- */

/* What the fault is and what is expected, so that files given in the wrong order are seen at once. */
static bool wrong_chip(const struct side *side, size_t record, uint8_t chip)
{
    bool known = chip <= 1;
    fprintf(stderr, "%s: %s: record %zu %s chip %u%s; every record of %s must be chip %u's\n", program, side->input.name, record,
            known ? "is" : "names", chip, known ? "'s" : "", side->role, side->chip);
    return false;
}

/* Looks at the whole records from this one on. */
static bool is_its_own(const struct side *side, size_t record)
{
    for (; record < side->trace.length / RECORD; record++)
        if (side->trace.at[record * RECORD + 1] != side->chip)
            return wrong_chip(side, record, side->trace.at[record * RECORD + 1]);
    return true;
}

static bool is_whole(const struct side *side)
{
    if (side->trace.length % RECORD == 0)
        return true;
    fprintf(stderr, "%s: %s (whole records: %zu)\n", side->input.name, pedralume_words(PEDRALUME_CUT_TRACE),
            side->trace.length / RECORD);
    return false;
}

/* ---- the two traces ---- */

/* Gives the status. Each part is looked at as it comes, so that an endless file of the other chip ends too. */
static int read_side(struct side *side)
{
    static uint8_t part[65536];
    ssize_t got;
    while ((got = read_some(&side->input, part, sizeof part)) > 0) {
        size_t seen = side->trace.length / RECORD;
        if (!append(&side->trace, part, (size_t)got))
            return EXIT_FAILURE;
        if (!is_its_own(side, seen))
            return STATUS_ARGUMENTS;
    }
    close_input(&side->input);
    return got == 0 ? EXIT_SUCCESS : EXIT_FAILURE;
}

/* The record at this byte, where the trace is that long. */
static void write_record(const struct bytes *trace, size_t at)
{
    if (at < trace->length)
        fwrite(trace->at + at, 1, RECORD, stdout);
}

static bool write_both(const struct bytes *left, const struct bytes *right)
{
    size_t longer = left->length > right->length ? left->length : right->length;
    errno = 0;
    for (size_t at = 0; at < longer && !ferror(stdout); at += RECORD) {
        write_record(left, at);
        write_record(right, at);
    }
    return all_printed();
}

/* Both files are opened before one is read: a wrong name is said while nothing of a pipe is lost. */
int merge_traces(const char *left_path, const char *right_path)
{
    static struct side left = { .role = "LEFT", .chip = 0 }, right = { .role = "RIGHT", .chip = 1 };
    if (!open_input(&left.input, left_path) || !open_input(&right.input, right_path))
        return EXIT_FAILURE;
    int status = read_side(&left);
    if (status == EXIT_SUCCESS)
        status = read_side(&right);
    if (status != EXIT_SUCCESS)
        return status;
    return is_whole(&left) && is_whole(&right) && write_both(&left.trace, &right.trace) ? EXIT_SUCCESS : EXIT_FAILURE;
}

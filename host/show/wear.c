/*
 * show --wear: how often each RAM cell was stored to, as text and as PGM.
 *
 * No C call counts this. A data write stores where it is accepted and its chip's column is below 80: to that
 * chip's page and column, as the feed has them before the record. So the records are sent one by one.
 */
#include "show.h"

#include <errno.h>
#include <stdlib.h>
#include <string.h>

enum {
    CELLS = PEDRALUME_RAM_BYTES,
    COLUMNS = PEDRALUME_COLUMN_STOP,
    LINES = CELLS / COLUMNS,    /* one for each page of each chip */
    CHIP_LINES = LINES / 2,
    NO_CELL = CELLS,
    SHADES = 4,                 /* of a cell that was stored to */
    TOLD = 10                   /* of the most written cells */
};

/* ---- counting ---- */

/* Where a data write of the chip would store. */
static size_t addressed_cell(const struct run *run, unsigned chip)
{
    const uint8_t *bytes = run->feed + chip * PEDRALUME_CHIP_BYTES;
    size_t column = bytes[PEDRALUME_COLUMN];
    return column < COLUMNS ? COLUMNS * (CHIP_LINES * chip + (size_t)bytes[PEDRALUME_PAGE]) + column : NO_CELL;
}

/* Where the record that these bytes end will store if it is accepted; the feed may have kept its first bytes. */
static size_t cell_of(const struct run *run, const uint8_t *bytes, size_t length)
{
    uint8_t record[RECORD];
    size_t kept = run->feed[PEDRALUME_FEED_KEPT_COUNT];
    if (kept + length < RECORD)
        return NO_CELL;
    memcpy(record, run->feed + PEDRALUME_FEED_KEPT, kept);
    memcpy(record + kept, bytes, RECORD - kept);
    return record[0] == PEDRALUME_DATA_WRITE && record[1] <= 1 ? addressed_cell(run, record[1]) : NO_CELL;
}

bool send_counted(struct run *run, const uint8_t *bytes, size_t length, struct wear *wear)
{
    uint8_t answer[PEDRALUME_ANSWER_BYTES];
    for (size_t at = 0; at < length && is_open(run);) {
        size_t cell = cell_of(run, bytes + at, length - at);
        at += send_one(run, bytes + at, length - at, answer);
        if (cell != NO_CELL && is_open(run))
            wear->counts[cell]++;
    }
    return is_open(run);
}

static uint64_t highest_count(const struct wear *wear)
{
    uint64_t highest = 0;
    for (size_t i = 0; i < CELLS; i++)
        highest = wear->counts[i] > highest ? wear->counts[i] : highest;
    return highest;
}

static uint64_t sum_of(const struct wear *wear)
{
    uint64_t sum = 0;
    for (size_t i = 0; i < CELLS; i++)
        sum += wear->counts[i];
    return sum;
}

/* ---- the drawing ---- */

/* A shade for each quarter of the highest count; 0 is no store. */
static unsigned shade_of(uint64_t count, uint64_t highest)
{
    return count == 0 ? 0 : (unsigned)((SHADES * count + highest - 1) / highest);
}

/* The highest count that has the shade. */
static uint64_t shade_limit(unsigned shade, uint64_t highest)
{
    return shade * highest / SHADES;
}

static const char *shade_text(unsigned shade)
{
    static const char *const blocks[SHADES + 1] = { "·", "░", "▒", "▓", "█" };
    static const char *const ascii[SHADES + 1] = { ".", "-", "+", "*", "#" };
    return (in_ascii() ? ascii : blocks)[shade];
}

/* Above its pages a chip's name is at column 0, and each tenth column has its number. */
static void print_half(const struct wear *wear, unsigned chip, uint64_t highest)
{
    const uint64_t *count = &wear->counts[chip * (CELLS / 2)];
    printf("%-10s", chip_words(chip));
    for (unsigned column = 10; column < COLUMNS; column += 10)
        printf(column + 10 < COLUMNS ? "%-10u" : "%u\n", column);
    for (unsigned page = 0; page < CHIP_LINES; page++) {
        for (unsigned column = 0; column < COLUMNS; column++)
            fputs(shade_text(shade_of(*count++, highest)), stdout);
        putchar('\n');
    }
}

/* A shade that no count can have is left out. */
static void print_legend(uint64_t highest)
{
    printf("stores: %s 0", shade_text(0));
    for (unsigned shade = 1; shade <= SHADES; shade++) {
        uint64_t limit = shade_limit(shade, highest);
        if (limit > shade_limit(shade - 1, highest))
            printf(", %s up to %llu", shade_text(shade), (unsigned long long)limit);
    }
    putchar('\n');
}

/* ---- the most written cells ---- */

struct cell {
    uint64_t count;
    unsigned place;
};

/* The most written first; at equal counts, in the order of RAM. */
static int in_order(const void *one, const void *other)
{
    const struct cell *a = one, *b = other;
    return a->count != b->count ? (a->count < b->count) - (a->count > b->count) : (a->place > b->place) - (a->place < b->place);
}

/* Gives how many cells were stored to. */
static size_t sort_cells(const struct wear *wear, struct cell cells[CELLS])
{
    size_t written = 0;
    for (unsigned i = 0; i < CELLS; i++)
        if (wear->counts[i] > 0)
            cells[written++] = (struct cell){ wear->counts[i], i };
    qsort(cells, written, sizeof cells[0], in_order);
    return written;
}

static void print_cell(const struct cell *cell)
{
    unsigned line = cell->place / COLUMNS;
    printf("%s chip, page %u, column %u: %llu\n", chip_words(line / CHIP_LINES), line % CHIP_LINES, cell->place % COLUMNS,
           (unsigned long long)cell->count);
}

bool print_wear(const struct wear *wear, const struct run *run)
{
    struct cell cells[CELLS];
    size_t written = sort_cells(wear, cells);
    uint64_t highest = highest_count(wear);
    errno = 0;
    print_half(wear, 0, highest);
    print_half(wear, 1, highest);
    print_legend(highest);
    if (written > 0)
        puts("most written cells:");
    for (size_t i = 0; i < written && i < TOLD; i++)
        print_cell(&cells[i]);
    printf("sum %llu; records taken: %lu, cells stored to: %zu of %d\n", (unsigned long long)sum_of(wear),
           (unsigned long)pedralume_feed_records(run->feed), written, CELLS);
    return all_printed();
}

/* ---- the grey map ---- */

enum { MAXVAL_LIMIT = 65535 };

/* The count where the highest is no more than a sample can be; else by that measure, rounded up, so that 0 is still no store. */
static unsigned sample_of(uint64_t count, uint64_t highest)
{
    return (unsigned)(highest <= MAXVAL_LIMIT ? count : (count * MAXVAL_LIMIT + highest - 1) / highest);
}

/* A byte where the maxval is one, else two, of which PGM has the higher first. */
static bool write_sample(FILE *file, unsigned sample, unsigned maxval)
{
    return (maxval < 256 || putc((int)(sample >> 8), file) != EOF) && putc((int)(sample & 0xFF), file) != EOF;
}

static bool add_map(FILE *file, const char *path, const struct wear *wear)
{
    uint64_t highest = highest_count(wear);
    unsigned maxval = highest == 0 ? 1 : sample_of(highest, highest);
    errno = 0;
    bool good = fprintf(file, "P5\n# sum %llu, highest %llu\n%d %d\n%u\n", (unsigned long long)sum_of(wear),
                        (unsigned long long)highest, COLUMNS, LINES, maxval) > 0;
    for (size_t i = 0; good && i < CELLS; i++)
        good = write_sample(file, sample_of(wear->counts[i], highest), maxval);
    return good || file_failed(path, "cannot be written");
}

bool write_wear(const char *path, const struct wear *wear)
{
    FILE *file = open_output(path);
    return file != NULL && close_output(file, path, add_map(file, path, wear));
}

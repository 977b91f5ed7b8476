/*
 * The tests of each call judge with this: checks that are counted and reported by the file and line they stand
 * in, columns to be given, and document 01's pixels. The program names itself in PROGRAM first, by the name of its
 * file. All is static, as in support.h.
 */
#ifndef CHECK_H
#define CHECK_H

#include "support.h"

static unsigned checks, failures;

static inline void check(bool good, const char *file, int line, const char *what)
{
    checks++;
    if (good)
        return;
    failures++;
    printf("%s:%d: failed: %s\n", file, line, what);
}

static inline void check_answer(uint64_t got, uint64_t want, const char *file, int line)
{
    checks++;
    if (got == want)
        return;
    failures++;
    printf("%s:%d: failed:", file, line);
    print_answer("want", want);
    print_answer("got", got);
    printf("\n");
}

#define CHECK(condition) check((condition), __FILE__, __LINE__, #condition)
#define CHECK_ANSWER(got, number, place, compared, differing) \
    check_answer((got), answer_of((number), (place), (compared), (differing)), __FILE__, __LINE__)

/* ---- given columns ---- */

/* Way 0 to COLUMN_WAYS - 1: column and saved column of either chip, at every value. */
enum { COLUMN_WAYS = 2 * 2 * 256 };

/* Where a column was put, and what number 2 makes of it. */
struct given_column {
    unsigned chip, field, number, place;
};

/* Number 2 lets the column stop pass, and no column over it (C-15). A saved column goes with read-modify-write on. */
static inline struct given_column put_column(uint8_t *chips, unsigned way)
{
    unsigned chip = way & 1, field = way & 2 ? PEDRALUME_SAVED_COLUMN : PEDRALUME_COLUMN, value = way >> 2;
    uint8_t *c = chips + CHIP * chip;
    c[PEDRALUME_RMW] = field == PEDRALUME_SAVED_COLUMN;
    c[PEDRALUME_SAVED_COLUMN] = 0;
    c[field] = (uint8_t)value;
    return value <= COLUMN_STOP ? (struct given_column){ chip, field, 0, 0 } : (struct given_column){ chip, field, 2, chip };
}

/* ---- pixels ---- */

static inline unsigned bit(unsigned byte, unsigned n)
{
    return byte >> n & 1;
}

/* The pixel as document 01 says it, one at a time. */
static inline unsigned expect_pixel(const uint8_t *chips, const uint8_t *ram, unsigned x, unsigned row)
{
    const uint8_t *c = chips + CHIP * (x / 61);
    unsigned n = x % 61, column = c[PEDRALUME_ADC] ? 79 - n : n;
    unsigned line = (c[PEDRALUME_START_LINE] + row) % 32;
    if (c[PEDRALUME_DISPLAY] == 0)
        return 0;
    if (c[PEDRALUME_STATIC] == 1)
        return 1;
    if (c[PEDRALUME_DUTY] == 0 && row >= 16)
        return 0;
    return bit(ram[HALF_RAM * (x / 61) + 80 * (line / 8) + column], line % 8);
}

/* The last line that a program prints, and its status. */
static inline int end_of_checks(void)
{
    printf(PROGRAM ": %u checks, %u failed\n", checks, failures);
    return failures == 0 ? EXIT_SUCCESS : EXIT_FAILURE;
}

#endif

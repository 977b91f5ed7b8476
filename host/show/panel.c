/* What the panel shows, as text and as PBM. */
#define _POSIX_C_SOURCE 200809L
#include "show.h"

#include <errno.h>
#include <stdlib.h>
#include <string.h>
#include <sys/ioctl.h>
#include <unistd.h>

bool take_frame(const struct run *run, uint8_t frame[PEDRALUME_FRAME_BYTES])
{
    uint64_t answer = pedralume_frame(run->feed, PEDRALUME_CHIPS_BYTES, run->ram, sizeof run->ram,
                                      frame, PEDRALUME_FRAME_BYTES);
    if (pedralume_number(answer) == PEDRALUME_DONE)
        return true;
    fprintf(stderr, "%s: the frame is refused: number %u, %s\n", program, pedralume_number(answer),
            pedralume_words(pedralume_number(answer)));
    return false;
}

static bool lit(const uint8_t *frame, unsigned x, unsigned y)
{
    return pedralume_pixel(frame, x, y) != 0;
}

/* ---- the form ---- */

enum {
    BLOCKS,     /* two pixels above each other a character */
    BRAILLE,    /* two by four a character */
    ASCII,      /* as blocks */
    HALVES      /* as ASCII, the right half below the left one */
};

static int form = BLOCKS;

/* Whether standard output is a terminal that has not the columns for the panel with its edges, or not the rows for that and
 * two lines below; one that does not know its size is taken for one of 80 columns. */
static void look_at_terminal(bool *narrow, bool *low)
{
    struct winsize size;
    bool terminal = isatty(STDOUT_FILENO), known = terminal && ioctl(STDOUT_FILENO, TIOCGWINSZ, &size) == 0 && size.ws_col > 0;
    *narrow = terminal && (!known || size.ws_col < WIDTH + 2);
    *low = known && size.ws_row > 0 && size.ws_row < HEIGHT / 2 + 4;
}

/* By its name: a locale may be set that is not installed, on a terminal that shows UTF-8 all the same. */
static bool locale_is_utf8(void)
{
    static const char *const variables[] = { "LC_ALL", "LC_CTYPE", "LANG" };
    for (size_t i = 0; i < sizeof variables / sizeof variables[0]; i++) {
        const char *name = getenv(variables[i]);
        if (name != NULL && name[0] != '\0')
            return strstr(name, "UTF-8") != NULL || strstr(name, "utf8") != NULL || strstr(name, "utf-8") != NULL
                || strstr(name, "UTF8") != NULL;
    }
    return false;
}

/* The frame with its edges is 124 characters wide, in braille 63. */
bool choose_form(const char *name)
{
    bool narrow, low;
    look_at_terminal(&narrow, &low);
    if (name == NULL)
        name = !locale_is_utf8() ? "ascii" : narrow || low ? "braille" : "blocks";
    if (strcmp(name, "blocks") == 0)
        form = BLOCKS;
    else if (strcmp(name, "braille") == 0)
        form = BRAILLE;
    else if (strcmp(name, "ascii") == 0)
        form = narrow ? HALVES : ASCII;
    else
        return wrong_argument("--form takes blocks, braille or ascii, not", name);
    return true;
}

bool in_ascii(void)
{
    return form == ASCII || form == HALVES;
}

/* ---- the frame as text ---- */

static void print_edge(const char *left, const char *right, unsigned width)
{
    fputs(in_ascii() ? "+" : left, stdout);
    for (unsigned x = 0; x < width; x++)
        fputs(in_ascii() ? "-" : "─", stdout);
    puts(in_ascii() ? "+" : right);
}

static void print_pair(const uint8_t *frame, unsigned x, unsigned y)
{
    static const char *const blocks[2][2] = { { " ", "▄" }, { "▀", "█" } };
    static const char *const ascii[2][2] = { { " ", "." }, { "'", "#" } };
    fputs((in_ascii() ? ascii : blocks)[lit(frame, x, y)][lit(frame, x, y + 1)], stdout);
}

/* The character U+2800 and, in Unicode's order, a bit for each of its eight dots. */
static void print_dots(const uint8_t *frame, unsigned x, unsigned y)
{
    static const unsigned dots[4][2] = { { 0x01, 0x08 }, { 0x02, 0x10 }, { 0x04, 0x20 }, { 0x40, 0x80 } };
    unsigned code = 0;
    for (unsigned row = 0; row < 4; row++)
        for (unsigned column = 0; column < 2; column++)
            if (lit(frame, x + column, y + row))
                code |= dots[row][column];
    putchar(0xE2);
    putchar((int)(0xA0 | code >> 6));
    putchar((int)(0x80 | (code & 0x3F)));
}

/* The columns from the first to before the last, with edges. */
static void print_columns(const uint8_t *frame, unsigned first, unsigned last)
{
    unsigned wide = form == BRAILLE ? 2 : 1, high = form == BRAILLE ? 4 : 2;
    print_edge("┌", "┐", (last - first) / wide);
    for (unsigned y = 0; y < HEIGHT; y += high) {
        fputs(in_ascii() ? "|" : "│", stdout);
        for (unsigned x = first; x < last; x += wide)
            (form == BRAILLE ? print_dots : print_pair)(frame, x, y);
        puts(in_ascii() ? "|" : "│");
    }
    print_edge("└", "┘", (last - first) / wide);
}

void print_frame(const uint8_t *frame)
{
    unsigned step = form == HALVES ? WIDTH / 2 : WIDTH;
    for (unsigned x = 0; x < WIDTH; x += step)
        print_columns(frame, x, x + step);
}

void go_home(bool first)
{
    if (isatty(STDOUT_FILENO))
        fputs(first ? "\033[H\033[J" : "\033[H", stdout);
}

/* ---- the frame as PBM ---- */

/* The leftmost pixel is the highest bit; the bits past the last pixel are 0. */
static bool write_row(FILE *file, const uint8_t *frame, unsigned y)
{
    uint8_t row[(WIDTH + 7) / 8] = { 0 };
    for (unsigned x = 0; x < WIDTH; x++)
        if (lit(frame, x, y))
            row[x / 8] = (uint8_t)(row[x / 8] | 0x80u >> x % 8);
    return fwrite(row, 1, sizeof row, file) == sizeof row;
}

bool add_picture(FILE *file, const char *path, const char *comment, const uint8_t *frame)
{
    errno = 0;
    bool good = fprintf(file, "P4\n%s%d %d\n", comment, WIDTH, HEIGHT) > 0;
    for (unsigned y = 0; good && y < HEIGHT; y++)
        good = write_row(file, frame, y);
    return good || file_failed(path, "cannot be written");
}

bool write_frame(const char *path, const uint8_t *frame)
{
    FILE *file = open_output(path);
    return file != NULL && close_output(file, path, add_picture(file, path, "", frame));
}

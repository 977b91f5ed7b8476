/* A picture from a PBM file, as a repaint takes it. */
#include "show.h"

#include <string.h>

enum {
    PICTURE_HEIGHT = PEDRALUME_PICTURE_HEIGHT,
    /* More than a picture takes, with room for comments. */
    PBM_KEPT = 65536
};

/* A PBM file in memory, and the next byte to be read. */
struct reader {
    size_t length;
    size_t next;
    uint8_t bytes[PBM_KEPT];
};

static bool damaged(const char *path, const char *what)
{
    fprintf(stderr, "%s: no PBM picture, or a damaged one: %s\n", path, what);
    return false;
}

static bool is_space(int byte)
{
    return byte == ' ' || (byte >= '\t' && byte <= '\r');
}

static bool is_digit(int byte)
{
    return byte >= '0' && byte <= '9';
}

/* The next byte, or EOF. */
static int peek(const struct reader *reader)
{
    return reader->next < reader->length ? reader->bytes[reader->next] : EOF;
}

static int take(struct reader *reader)
{
    int byte = peek(reader);
    if (byte != EOF)
        reader->next++;
    return byte;
}

/* A comment goes from # to the end of its line. */
static void skip_comments(struct reader *reader)
{
    while (peek(reader) == '#') {
        int byte;
        do
            byte = take(reader);
        while (byte != '\n' && byte != '\r' && byte != EOF);
    }
}

static void skip_space(struct reader *reader)
{
    skip_comments(reader);
    while (is_space(peek(reader))) {
        take(reader);
        skip_comments(reader);
    }
}

/* At most nine digits, so that it cannot overflow. */
static bool take_number(struct reader *reader, unsigned *number)
{
    unsigned digits = 0;
    skip_space(reader);
    for (*number = 0; is_digit(peek(reader)) && digits < 9; digits++)
        *number = 10 * *number + (unsigned)(take(reader) - '0');
    return digits > 0 && !is_digit(peek(reader));
}

/* One white space ends the header: of a P4, the byte after it has pixels. */
static bool take_size(struct reader *reader, unsigned *width, unsigned *height)
{
    bool apart = is_space(peek(reader)) || peek(reader) == '#';
    if (!apart || !take_number(reader, width) || !take_number(reader, height))
        return false;
    skip_comments(reader);
    return is_space(take(reader));
}

/* The format is '1' or '4'. */
static bool take_header(struct reader *reader, const char *path, int *format, unsigned *height)
{
    unsigned width;
    int letter = take(reader);
    *format = take(reader);
    if (letter != 'P' || (*format != '1' && *format != '4'))
        return damaged(path, "it begins with neither P1 nor P4");
    if (!take_size(reader, &width, height))
        return damaged(path, "its header gives no width and height");
    if (width == WIDTH && (*height == PICTURE_HEIGHT || *height == HEIGHT))
        return true;
    fprintf(stderr, "%s: is %u by %u, a repaint takes %d by %d, or by %d with a blank lower half\n", path, width, *height,
            WIDTH, PICTURE_HEIGHT, HEIGHT);
    return false;
}

static void light(uint8_t *frame, unsigned x, unsigned y)
{
    uint8_t *byte = &frame[x + WIDTH * (y / 8)];
    *byte = (uint8_t)(*byte | 1u << y % 8);
}

/* P1: a digit for each pixel, with or without white space between them. */
static bool take_plain_row(struct reader *reader, uint8_t *frame, unsigned y)
{
    for (unsigned x = 0; x < WIDTH; x++) {
        skip_space(reader);
        if (peek(reader) != '0' && peek(reader) != '1')
            return false;
        if (take(reader) == '1')
            light(frame, x, y);
    }
    return true;
}

/* P4: a bit for each pixel, the leftmost the highest. A row is whole bytes; its last bits may be any. */
static bool take_packed_row(struct reader *reader, uint8_t *frame, unsigned y)
{
    int byte = 0;
    for (unsigned x = 0; x < WIDTH; x++) {
        if (x % 8 == 0)
            byte = take(reader);
        if (byte == EOF)
            return false;
        if ((byte >> (7 - x % 8) & 1) != 0)
            light(frame, x, y);
    }
    return true;
}

static bool take_row(struct reader *reader, int format, uint8_t *frame, unsigned y)
{
    return format == '1' ? take_plain_row(reader, frame, y) : take_packed_row(reader, frame, y);
}

static bool take_rows(struct reader *reader, const char *path, int format, unsigned height, uint8_t *frame)
{
    for (unsigned y = 0; y < height; y++)
        if (!take_row(reader, format, frame, y))
            return damaged(path, peek(reader) == EOF ? "it ends before its last pixel" : "a pixel is neither 0 nor 1");
    if (format == '1')
        skip_space(reader);
    return peek(reader) == EOF || damaged(path, "it goes on after its last pixel");
}

/* The rows that a repaint leaves dark. */
static bool lower_half_blank(const uint8_t *frame, const char *path)
{
    for (size_t i = PEDRALUME_PICTURE_BYTES; i < PEDRALUME_FRAME_BYTES; i++)
        if (frame[i] != 0) {
            fprintf(stderr, "%s: its lower half is not blank, and a repaint shows %d rows\n", path, PICTURE_HEIGHT);
            return false;
        }
    return true;
}

/* A picture of 32 rows is taken as what --pbm writes: its upper half is the picture. */
bool read_picture(const char *path, uint8_t picture[PEDRALUME_PICTURE_BYTES])
{
    static struct reader reader;
    uint8_t frame[PEDRALUME_FRAME_BYTES] = { 0 };
    int format;
    unsigned height;
    if (!read_file(path, reader.bytes, sizeof reader.bytes, &reader.length)
        || !take_header(&reader, path, &format, &height)
        || !take_rows(&reader, path, format, height, frame)
        || !lower_half_blank(frame, path))
        return false;
    memcpy(picture, frame, PEDRALUME_PICTURE_BYTES);
    return true;
}

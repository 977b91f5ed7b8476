/*
 * What the files of show share. Functions that give a bool say on standard error why it is false, but
 * where their comment says that they only answer a question.
 */
#ifndef SHOW_H
#define SHOW_H

#include "common.h"

enum {
    WIDTH = PEDRALUME_WIDTH,
    HEIGHT = PEDRALUME_HEIGHT
};

/* Records that were all accepted, to be gone through again from the chips and RAM before the first of them. */
struct batch {
    const struct run *before;
    const uint8_t *bytes;
    size_t count;
};

/* ---- picture.c ---- */

/* A PBM of 122 by 16, or by 32 with its lower half blank. */
bool read_picture(const char *path, uint8_t picture[PEDRALUME_PICTURE_BYTES]);

/* ---- panel.c: the frame, as text and as PBM ---- */

/* Not refused for any chips that a feed has left; checked all the same. */
bool take_frame(const struct run *run, uint8_t frame[PEDRALUME_FRAME_BYTES]);

/* The form in which print_frame draws: as named, or where that is NULL the one that fits locale and terminal. */
bool choose_form(const char *name);

/* Only answers: whether that form has ASCII characters alone. */
bool in_ascii(void);

/* Standard output may hold more before and after it: this does not look whether all has gone out. */
void print_frame(const uint8_t *frame);

/* Goes back to the upper left corner where standard output is a terminal, at first of a cleared screen. */
void go_home(bool first);

/* A comment is a whole line of the header, or empty. */
bool add_picture(FILE *file, const char *path, const char *comment, const uint8_t *frame);

/* A PBM file with this one picture. */
bool write_frame(const char *path, const uint8_t *frame);

/* ---- changes.c ---- */

struct change {
    uint32_t record;
    unsigned left, right;   /* pixels changed in either half */
};

struct changes {
    const struct change *list;
    size_t count;
};

/* The records of the batch that change what the panel shows. */
bool list_changes(const struct batch *batch, struct changes *changes);

/* The change in words, as a line. */
void print_change(const struct change *change, const struct batch *batch);

/* The last line of a list. */
void print_count(const struct changes *changes, const struct batch *batch);

bool print_changes(const struct changes *changes, const struct batch *batch);

/* Begins to go through the batch; then brings the run to where so many records of it are sent, which are not fewer than before. */
bool begin_again(struct run *run, const struct batch *batch);
bool send_up_to(struct run *run, const struct batch *batch, size_t count);

/* What the panel shows after each change, one PBM after the other, or where there are none what it shows. */
bool write_changes(const char *path, const struct changes *changes, const struct batch *batch);

/* ---- pages.c ---- */

/* What the panel shows after each change, a page each on the terminal, to be leafed through. */
bool page_changes(const struct changes *changes, const struct batch *batch);

/* ---- every.c ---- */

/* The panel before the first record and after each, or where changes is not NULL after each of those: as text, in turn on a
 * terminal; or where pbm is not NULL as numbered PBM files. */
bool show_every(const struct batch *batch, const struct changes *changes, const char *pbm, unsigned delay);

/* ---- wear.c ---- */

/* How often each cell was stored to, in the order of RAM: 320 x chip + 80 x page + column. */
struct wear {
    uint64_t counts[PEDRALUME_RAM_BYTES];
};

/* Sends the bytes and counts their stores. False where a record is refused, of which it says nothing. */
bool send_counted(struct run *run, const uint8_t *bytes, size_t length, struct wear *wear);

/* The counts as shades, the most written cells, and the sum. */
bool print_wear(const struct wear *wear, const struct run *run);

/* A PGM file with the counts. */
bool write_wear(const char *path, const struct wear *wear);

/* ---- live.c ---- */

/* Shows the panel while records come on standard input; false where one is refused, too. */
bool show_live(const char *start, const char *save);

#endif

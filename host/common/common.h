/*
 * What the programs share. Functions that give a bool say on standard error why it is false, but where
 * their comment says that they only answer a question.
 */
#ifndef COMMON_H
#define COMMON_H

#include "pedralume.h"

#include <stdbool.h>
#include <stdio.h>
#include <sys/types.h>

enum {
    RECORD = PEDRALUME_RECORD_BYTES,
    STATUS_ARGUMENTS = 2
};

/* Each program's own name, and its usage in parts, since C99 promises no string over 4,095 characters: in the first, up to three %s
 * stand for what it is called by, and NULL ends them. */
extern const char own_name[];
extern const char *const usage[];

/* What the program calls itself in messages: its own name, or pedralume-... where it was installed so. */
extern const char *program;

/* ---- options.c: the arguments ---- */

/* An option and where its value goes: what was typed, or the option itself where it takes none. */
struct option {
    const char *name;
    bool takes_value;
    const char **value;
};

/* Gives false, as do those that say why something failed, so that a caller can give its message back. */
bool wrong_argument(const char *what, const char *argument);

/* Before all else, with how the program was called. */
void name_program(const char *called);

/* Only answers: whether this option is among the arguments, which need not be read yet. */
bool asked(int argc, char **argv, const char *option);

/* Reads the arguments, values as "--at 3" or "--at=3". What is no option is a file, which may be "-"; most, 1 or 2, is how many
 * there may be. */
bool read_options(int argc, char **argv, const struct option *options, size_t count, const char **files, size_t most);

/* Prints usage or version where an argument asks for it; then the status is what the program ends with. */
bool only_told(int argc, char **argv, int *status);

/* ---- files.c: input, output, and bytes that are kept ---- */

/* Call it with errno as the failed call left it, and 0 before that call. */
bool file_failed(const char *path, const char *what);

struct input {
    int descriptor;
    const char *name;
};

/* "-" is standard input. What is opened here is never written over, and refused where standard output goes to it. */
bool open_input(struct input *input, const char *path);

/* From now on an interrupt (Ctrl-C) ends the input that is being read; a second one ends the program. */
void end_input_on_interrupt(void);

/* Takes what is there, as soon as there is something; gives 0 at the end of the input and -1 where it cannot be read. */
ssize_t read_some(struct input *input, uint8_t *bytes, size_t room);

void close_input(struct input *input);

/* Reads a small file, but no more than there is room for, so an endless file ends too. */
bool read_file(const char *path, uint8_t *bytes, size_t room, size_t *length);

/* "-" is standard output. Gives NULL where it fails, also for a file that is read. */
FILE *open_output(const char *path);

/* Whether open_output will have the file, as far as can be seen before; makes it where it is missing, and leaves it else. */
bool can_be_written(const char *path);

/* Whether all that was written has really gone out; also called where some was not (all_written false). */
bool close_output(FILE *file, const char *path, bool all_written);

/* The same for what was printed on standard output. */
bool all_printed(void);

/* Bytes that grow as they come. */
struct bytes {
    uint8_t *at;
    size_t length;
    size_t room;
};
bool append(struct bytes *bytes, const uint8_t *more, size_t length);

/* ---- run.c: records to the chips, through a feed, and so of any length; chips and RAM as a file ---- */

/* Chips and RAM as the records so far have left them; the feed's bytes begin with the chips. */
struct run {
    const char *name;   /* of what is sent, for messages */
    uint8_t feed[PEDRALUME_FEED_BYTES];
    uint8_t ram[PEDRALUME_RAM_BYTES];
    uint64_t answer;    /* the feed's last */
};

/* Begins with the chips and RAM of a file, or where that is NULL with fresh chips and RAM all 0. */
bool begin_run(struct run *run, const char *name, const char *start);

/* Begins anew with the chips and RAM that another has come to. */
bool go_on_from(struct run *run, const char *name, const struct run *before);

/* Writes the chips and RAM to a file that begin_run takes. */
bool save_run(const struct run *run, const char *path);

/* Only answers: whether nothing was refused, so that more is taken. */
bool is_open(const struct run *run);

/* Sends any number of bytes; false where a record is refused. */
bool send_bytes(struct run *run, const uint8_t *bytes, size_t length);

/* Ends it where it is open; false where it was refused, or ends inside a record. */
bool end_run(struct run *run);

/* Ends it where it is open, and prints number, place and counts as a line; false where it was refused, too. */
bool tell_end(struct run *run, const char *before);

/* Sends no more than ends the record that it is at, and says nothing of a refusal; gives how many bytes these were.
 * Where they end one that is accepted, the answer is that record's. */
size_t send_one(struct run *run, const uint8_t *bytes, size_t length, uint8_t answer[PEDRALUME_ANSWER_BYTES]);

/* ---- words.c: a record in words, and back ---- */

/* Only answers: whether there are words for it. Those without are written as their four bytes. */
bool has_words(const uint8_t record[RECORD]);

/* "left" or "right". */
const char *chip_words(unsigned chip);

/* What a record that has words does, without its chip: "start line 16", "data write A5". 32 bytes are room enough. */
void cycle_words(const uint8_t record[RECORD], char *words, size_t room);

/* Only answers: whether the words, in lower case and a space between two, begin with these; then goes past them. */
bool take_words(const char **words, const char *wanted);

/* The same for those of a cycle that is said with its byte; then gives its lines. */
bool take_cycle_words(const char **words, uint8_t *lines);

/* Only answers: whether these are the words of a command, so written; then gives its byte. */
bool command_of(const char *words, uint8_t *byte);

/* Only answers: whether these begin with the words of a command that takes a number; then gives the highest. */
bool takes_number(const char *words, unsigned *highest);

#endif

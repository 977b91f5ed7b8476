/* What the files of text share. */
#ifndef TEXT_H
#define TEXT_H

#include "common.h"

/* How a trace is printed. */
struct manner {
    const char *start;  /* the file of chips and RAM to begin with, or NULL */
    bool skip;          /* a refused record is left out, and the next one sent */
    bool check;         /* a read that differs is a fault */
};

/* Prints the records of a trace in words, with the chips' answers; false where it is refused, too. */
bool tell_trace(const char *path, const struct manner *manner);

/* Writes the trace of such a text to standard output; nothing where a line is at fault. */
bool write_trace(const char *path);

/* Writes two traces to standard output as one, a record of each in turn and then the rest of the longer one; nothing where one of them
 * is at fault. Gives the program's status: for a record of the other chip that of wrong arguments. */
int merge_traces(const char *left_path, const char *right_path);

#endif

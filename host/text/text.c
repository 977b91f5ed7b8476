/*
 * text: a trace as text, a line for each record, with what the chips answer; and such a text, or one
 * written by hand, as a trace (back.c); and two traces, recorded on one chip each, as one (merge.c).
 */
#define _POSIX_C_SOURCE 200809L
#include "text.h"

#include <stdlib.h>
#include <string.h>
#include <unistd.h>

const char own_name[] = "text";

const char *const usage[] = {
    "Usage: %s [TRACE] [--start FILE] [--skip] [--check]\n"
    "       %s --back [TEXT]\n"
    "       %s --merge LEFT RIGHT\n"
    "\n"
    "Sends the bus records of the file TRACE to two fresh chips with RAM all 0, and\n"
    "prints a line for each: its number, its chip, what it does, its byte, and what\n"
    "the chip answers; where a read that is compared differs, what was recorded and\n"
    "what the chip gives. Then number, place and counts. With no file, or with -, it\n"
    "reads standard input.\n"
    "\n"
    "  --start FILE  begin with the chips and RAM of FILE, as --save of show or\n"
    "                pedralume-show writes it\n"
    "  --skip        leave a refused record out and go on; else those after it are\n"
    "                printed without an answer\n"
    "  --check       status 1 where a compared read differs, too\n"
    "  --back        the other way: make a text a trace, on standard output\n"
    "  --merge       make two traces one, on standard output: LEFT, recorded on the\n"
    "                left chip alone (0), and RIGHT, on the right one alone (1). It\n"
    "                has a record of each in turn, then the rest of the longer one.\n"
    "                One of the two files may be -\n"
    "  -h, --help    print this\n"
    "  --version     print the version\n"
    "\n"
    "A text has one record a line, of at most 1,000 bytes. What follows # is a\n"
    "comment, and a number with a colon before a record is skipped, so what this\n"
    "program prints is such a text. A record is left or right, then one of these; N\n"
    "is decimal, HH a byte in one or two hex digits, for a read the byte recorded\n"
    "(00 if not given):\n"
    "\n"
    "  column N (0 to 127)     page N (0 to 3)        start line N (0 to 31)\n"
    "  display on|off          static drive on|off    duty 1/16|1/32\n"
    "  ADC forward|reverse     reset                  read-modify-write on|off\n"
    "  data write HH           data read [HH]         status read [HH]\n"
    "  write HH                read [HH]              status [HH]\n"
    "  command HH\n"
    "\n"
    "or, without left or right, raw HH HH HH HH, the bytes of a record as they are.\n"
    "\n"
    "The order of a merged trace does not matter, since a chip answers by its own\n"
    "records alone. As long as each chip's own records keep their order, each gets\n"
    "the same answer, and chips, RAM, counts and panel end the same; that is proved\n"
    "(request C-18), for traces in which no record is refused. What the panel shows\n"
    "in between, and so show --changes, does depend on the order.\n"
    "\n"
    "Status: 0 done, 1 the file, the trace or the text is at fault, 2 the arguments\n"
    "are, or a record of LEFT is not chip 0's, or one of RIGHT not chip 1's.\n",
    NULL
};

enum {
    PART = 65536,
    /* As much as cycle_words takes. */
    WORDS = 32,
    /* Of chip and words: the longest are those of read-modify-write. */
    CYCLE_WIDTH = 29
};

/* ---- a line ---- */

/* What the chip gave, or why it gave nothing. The counts before show whether this read was compared, and differs; a data
 * write that stores nothing leaves the column. */
static void print_answer(const struct run *run, const struct run *before, const uint8_t record[RECORD],
                         const uint8_t answer[PEDRALUME_ANSWER_BYTES])
{
    size_t at = record[1] == 0 ? 0 : PEDRALUME_CHIP_BYTES;
    const uint8_t *chip = before->feed + at, *chip_after = run->feed + at;
    if (!is_open(before))
        printf("not replayed\n");
    else if (!is_open(run))
        printf("refused: number %u, %s\n", pedralume_number(run->answer), pedralume_words(pedralume_number(run->answer)));
    else if (pedralume_feed_differing(run->feed) > pedralume_feed_differing(before->feed))
        printf("differs: recorded %02X, the chip gives %02X\n", record[2], answer[1]);
    else if (pedralume_feed_compared(run->feed) > pedralume_feed_compared(before->feed))
        printf("the chip gives %02X, as recorded\n", answer[1]);
    else if (answer[0] == PEDRALUME_KIND_STALE)
        printf("empty read: the chip gives %02X, not compared\n", answer[1]);
    else if (record[0] == PEDRALUME_DATA_WRITE)
        printf("accepted at page %u, column %u%s\n", chip[PEDRALUME_PAGE], chip[PEDRALUME_COLUMN],
               chip_after[PEDRALUME_COLUMN] == chip[PEDRALUME_COLUMN] ? ", nothing stored" : "");
    else
        printf("accepted\n");
}

/* Any bytes as they are; the last of a trace may be fewer than a record. */
static void raw_words(const uint8_t *bytes, size_t length, char words[WORDS])
{
    int at = snprintf(words, WORDS, "raw");
    for (size_t i = 0; i < length; i++)
        at += snprintf(words + at, (size_t)(WORDS - at), " %02X", bytes[i]);
}

static void print_record(unsigned long number, const uint8_t record[RECORD])
{
    char words[WORDS];
    printf("%6lu: ", number);
    if (has_words(record)) {
        cycle_words(record, words, sizeof words);
        printf("%-5s %-*s", chip_words(record[1]), CYCLE_WIDTH - 6, words);
    } else {
        raw_words(record, RECORD, words);
        printf("%-*s", CYCLE_WIDTH, words);
    }
    printf(" # %02X  ", record[2]);
}

/* ---- a trace ---- */

struct telling {
    struct run run;
    bool skip;
    unsigned long skipped;  /* refused records left out so far */
    unsigned long number;   /* of the next record */
    size_t length;          /* of what is read and not printed yet */
    uint8_t bytes[RECORD + PART];
};

/* A copy of the run shows what the record changed, and where to go on from where it is refused and to be left out. */
static void tell_record(struct telling *telling, const uint8_t record[RECORD])
{
    struct run before = telling->run;
    uint8_t answer[PEDRALUME_ANSWER_BYTES] = { 0 };
    if (is_open(&telling->run))
        send_one(&telling->run, record, RECORD, answer);
    print_record(telling->number, record);
    print_answer(&telling->run, &before, record, answer);
    telling->number++;
    if (telling->skip && !is_open(&telling->run)) {
        telling->run = before;
        telling->skipped++;
    }
}

/* Prints the whole records, and moves the rest to the front. */
static bool tell_records(struct telling *telling)
{
    size_t at = 0;
    for (; telling->length - at >= RECORD; at += RECORD)
        tell_record(telling, telling->bytes + at);
    telling->length -= at;
    memmove(telling->bytes, telling->bytes + at, telling->length);
    return all_printed();
}

/* The bytes of a record that the trace ends in. */
static void tell_rest(struct telling *telling)
{
    uint8_t answer[PEDRALUME_ANSWER_BYTES];
    char words[WORDS];
    if (telling->length == 0)
        return;
    if (is_open(&telling->run))
        send_one(&telling->run, telling->bytes, telling->length, answer);
    raw_words(telling->bytes, telling->length, words);
    printf("%6lu: %-*s # the trace ends inside this record\n", telling->number, CYCLE_WIDTH, words);
}

static bool tell_input(struct telling *telling, struct input *input)
{
    ssize_t got;
    while ((got = read_some(input, telling->bytes + telling->length, PART)) > 0) {
        telling->length += (size_t)got;
        if (!tell_records(telling))
            return false;
    }
    return got == 0;
}

static bool all_as_recorded(const struct run *run)
{
    if (pedralume_feed_differing(run->feed) == 0)
        return true;
    fprintf(stderr, "%s: compared reads that differ: %lu of %lu\n", run->name,
            (unsigned long)pedralume_feed_differing(run->feed), (unsigned long)pedralume_feed_compared(run->feed));
    return false;
}

bool tell_trace(const char *path, const struct manner *manner)
{
    static struct telling telling;
    struct input input;
    telling.skip = manner->skip;
    if (!open_input(&input, path))
        return false;
    if (!begin_run(&telling.run, input.name, manner->start) || !tell_input(&telling, &input))
        return false;
    close_input(&input);
    tell_rest(&telling);
    if (manner->skip)
        printf("# refused and left out: %lu\n", telling.skipped);
    return tell_end(&telling.run, "# ") && (!manner->check || all_as_recorded(&telling.run));
}

/* ---- the arguments ---- */

/* Two files that are read; the second may be NULL. */
static bool may_read(const char *file, const char *other)
{
    bool twice = other != NULL && strcmp(file, "-") == 0 && strcmp(other, "-") == 0;
    return !twice || wrong_argument("only one of the files that are read can be", "-");
}

/* Nothing of the manner of printing goes with --back or --merge, which the words say. */
static bool may_write_trace(const char *words, const struct manner *manner)
{
    if (manner->start != NULL || manner->skip || manner->check)
        return wrong_argument(words, manner->start != NULL ? "--start" : manner->skip ? "--skip" : "--check");
    return !isatty(STDOUT_FILENO) || wrong_argument("bytes are no text: send them to a file or a pipe, not to", "a terminal");
}

static bool may_merge(const char *left, const char *right, const char *back, const struct manner *manner)
{
    if (back != NULL)
        return wrong_argument("--merge goes without", "--back");
    if (left == NULL || right == NULL)
        return wrong_argument("no file for", left == NULL ? "LEFT" : "RIGHT");
    return may_read(left, right) && may_write_trace("--merge goes without", manner);
}

int main(int argc, char **argv)
{
    const char *files[2] = { NULL, NULL }, *start = NULL, *skip = NULL, *check = NULL, *back = NULL, *merge = NULL;
    const struct option options[] = {
        { "--start", true, &start }, { "--skip", false, &skip }, { "--check", false, &check }, { "--back", false, &back },
        { "--merge", false, &merge },
    };
    int status;
    name_program(argv[0]);
    if (only_told(argc, argv, &status))
        return status;
    if (!read_options(argc, argv, options, sizeof options / sizeof options[0], files, asked(argc, argv, "--merge") ? 2 : 1))
        return STATUS_ARGUMENTS;
    struct manner manner = { start, skip != NULL, check != NULL };
    if (merge != NULL)
        return may_merge(files[0], files[1], back, &manner) ? merge_traces(files[0], files[1]) : STATUS_ARGUMENTS;
    const char *file = files[0] != NULL ? files[0] : "-";
    if (!(back != NULL ? may_write_trace("--back goes without", &manner) : may_read(file, start)))
        return STATUS_ARGUMENTS;
    return (back != NULL ? write_trace(file) : tell_trace(file, &manner)) ? EXIT_SUCCESS : EXIT_FAILURE;
}

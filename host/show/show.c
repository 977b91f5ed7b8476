/*
 * show: what the panel shows after a trace, or within a repaint that follows it, as text and as PBM; or
 * when that changed (changes.c, pages.c), or after every record (every.c), or while records come (live.c);
 * or which cells of RAM wear (wear.c).
 *
 * The trace is sent first, or as much of it as --at says; with --repaint, then the repaint. Nothing is
 * shown or written unless all of that is accepted, but with --wear the counts before a refused record.
 * What is to be gone through again is kept meanwhile.
 */
#include "show.h"

#include <errno.h>
#include <stdlib.h>
#include <string.h>
#include <unistd.h>

const char own_name[] = "show";

const char *const usage[] = {
    "Usage: %s [TRACE] [OPTION]...\n"
    "       %s --live [--start FILE] [--save FILE] [--form FORM]\n"
    "\n"
    "Sends the bus records of the file TRACE to two fresh chips with RAM all 0, and\n"
    "shows the 122 by 32 panel as it is then. A trace may have any length.\n"
    "\n"
    "What is sent; - for a file that is read is standard input:\n"
    "  --start FILE       begin with the chips and RAM of FILE, which --save wrote;\n"
    "                     TRACE may then be left out\n"
    "  --repaint PICTURE  after the whole trace, send the 254 records that repaint\n"
    "                     the panel with PICTURE, a PBM (P1 or P4) of 122 by 16, or\n"
    "                     by 32 with a blank lower half; 1 = lit\n"
    "  --sparing          with --repaint: send the sparing repaint, of 2 to 254\n"
    "                     records, which leaves out what RAM holds already, and say\n"
    "                     how many of 254 cycles it takes\n"
    "  --at N             send only the first N records of the trace; with\n"
    "                     --repaint, only the first N of the repaint; N may be 0\n"
    "  --live             instead of a file, take records from standard input as\n"
    "                     they come, cut anywhere: shows the panel at first and\n"
    "                     after each record that changed it, on a terminal in place\n"
    "                     of the last; ends with the input, at Ctrl-C or at a\n"
    "                     refused record, and counts the records taken and the\n"
    "                     reads compared\n"
    "\n",
    "What is shown:\n"
    "  --changes          each record that changed what the panel shows, with the\n"
    "                     pixels changed in the left and in the right half; with\n"
    "                     --repaint, only those of the repaint. A line each; where\n"
    "                     standard input and output are a terminal, a page each\n"
    "                     with the panel. The first record is record 0\n"
    "  --list             with --changes: lines on a terminal too\n"
    "  --every            the panel before the first record and after each, one\n"
    "                     after the other, on a terminal each over the last; with\n"
    "                     --changes, after those that changed it; with --repaint,\n"
    "                     within the repaint\n"
    "  --delay MS         with --every: milliseconds between two on a terminal (40)\n"
    "  --wear             how often each RAM cell was stored to: for each chip four\n"
    "                     pages of 80 columns, shaded; the ten most written cells;\n"
    "                     the sum. With --repaint, by the repaint alone\n"
    "  --form FORM        blocks or ascii (124 columns; a character is two pixels,\n"
    "                     in ascii # for both, ' for the upper, . for the lower) or\n"
    "                     braille (63 columns; two by four pixels); if not given,\n"
    "                     ascii unless the locale is UTF-8, braille on a terminal\n"
    "                     under 124 columns or 20 rows, else blocks. On a terminal\n"
    "                     under 124 columns ascii has the right half below\n"
    "\n"
    "What is written; - is standard output, and nothing else is then printed:\n"
    "  --pbm FILE         the panel, as a binary PBM (P4) of 122 by 32, 1 = lit;\n"
    "                     with --changes, a picture after each listed record, one\n"
    "                     after the other, a comment naming the record, or where\n"
    "                     none is listed one of the panel as it is; with --every,\n"
    "                     instead of the text, a file for each: name.pbm becomes\n"
    "                     name-000000.pbm and so on, the number as --at takes it\n"
    "  --pgm FILE         with --wear: the counts as a binary PGM (P5) of 80 by 8, a\n"
    "                     row for each page; the highest is white\n"
    "  --save FILE        the chips and RAM as they are at the end\n"
    "  --records FILE     with --repaint: the records of it that are sent, a trace\n"
    "A file that is read is not written over. Nothing is shown or written of a trace\n"
    "that is refused, but with --live or --wear what came before it. --at N shows\n"
    "the panel before record N; the program text, or pedralume-text, prints each\n"
    "record, and can go on past a refused one.\n"
    "\n"
    "  -h, --help         print this\n"
    "  --version          print the version\n"
    "\n"
    "Until the last two records of a repaint, the 253rd and the 254th if it is not\n"
    "sparing, the panel shows what it showed before; after the first of the two the\n"
    "left half is new, after the second both are.\n"
    "\n"
    "Status: 0 shown, 1 a file, the trace, the input or the repaint is at fault,\n"
    "2 the arguments are.\n",
    NULL
};

/* As typed; NULL where not given. */
struct options {
    const char *trace;
    const char *start;
    const char *save;
    const char *repaint;
    const char *sparing;
    const char *records;
    const char *at;
    const char *changes;
    const char *list;
    const char *every;
    const char *delay;
    const char *wear;
    const char *pbm;
    const char *pgm;
    const char *form;
    const char *live;
};

static const unsigned usual_delay = 40;

/* ---- arguments ---- */

static bool is_count(const char *text)
{
    return text[0] != '\0' && text[strspn(text, "0123456789")] == '\0';
}

static bool is_dash(const char *path)
{
    return path != NULL && strcmp(path, "-") == 0;
}

/* How many of the files that are written are standard output: where one is, no text goes there. */
static int to_standard_output(const struct options *options)
{
    return is_dash(options->pbm) + is_dash(options->pgm) + is_dash(options->save) + is_dash(options->records);
}

struct other {
    const char *name, *value;
};

/* False where one is given that the option does not go with, which the words say. */
static bool goes_without(const char *words, const struct other *others, size_t count)
{
    for (size_t i = 0; i < count; i++)
        if (others[i].value != NULL)
            return wrong_argument(words, others[i].name);
    return true;
}

static bool check_live(const struct options *options)
{
    const struct other others[] = {
        { "--repaint", options->repaint }, { "--sparing", options->sparing }, { "--records", options->records },
        { "--at", options->at }, { "--changes", options->changes }, { "--list", options->list }, { "--every", options->every },
        { "--delay", options->delay }, { "--wear", options->wear }, { "--pbm", options->pbm }, { "--pgm", options->pgm },
    };
    if (options->trace != NULL)
        return wrong_argument("--live takes standard input and no file:", options->trace);
    if (!goes_without("--live goes without", others, sizeof others / sizeof others[0]))
        return false;
    if (is_dash(options->start))
        return wrong_argument("--live reads standard input, and so cannot --start from", "-");
    return !is_dash(options->save) || wrong_argument("--live goes without --save to", "-");
}

/* The counts are shown instead of the panel. */
static bool check_wear(const struct options *options)
{
    const struct other others[] = {
        { "--changes", options->changes }, { "--list", options->list }, { "--every", options->every },
        { "--delay", options->delay }, { "--pbm", options->pbm },
    };
    return options->wear == NULL || goes_without("--wear goes without", others, sizeof others / sizeof others[0]);
}

/* Options that need another one. */
static bool check_companions(const struct options *options)
{
    if (options->pgm != NULL && options->wear == NULL)
        return wrong_argument("--pgm goes with", "--wear");
    if (options->list != NULL && options->changes == NULL)
        return wrong_argument("--list goes with", "--changes");
    if (options->delay != NULL && options->every == NULL)
        return wrong_argument("--delay goes with", "--every");
    if (options->sparing != NULL && options->repaint == NULL)
        return wrong_argument("--sparing goes with", "--repaint");
    return options->records == NULL || options->repaint != NULL || wrong_argument("--records goes with", "--repaint");
}

/* What goes to standard output goes there alone, and not to a terminal. */
static bool check_streams(const struct options *options)
{
    if (is_dash(options->trace) + is_dash(options->start) + is_dash(options->repaint) > 1)
        return wrong_argument("only one of the files that are read can be", "-");
    if (to_standard_output(options) > 1)
        return wrong_argument("only one of --pbm, --pgm, --save and --records can be", "-");
    if (options->every != NULL && (is_dash(options->save) || is_dash(options->records)))
        return wrong_argument("--every goes without --save or --records to", "-");
    return to_standard_output(options) == 0 || !isatty(STDOUT_FILENO)
        || wrong_argument("bytes are no text: send them to a file or a pipe, not to", "a terminal");
}

static bool check_options(const struct options *options)
{
    if (options->live != NULL)
        return check_live(options);
    if (options->trace == NULL && options->start == NULL)
        return wrong_argument("no file for", "TRACE");
    if (options->at != NULL && !is_count(options->at))
        return wrong_argument("--at takes a number of records, 0 or more, not", options->at);
    if (options->delay != NULL && (!is_count(options->delay) || strlen(options->delay) > 6))
        return wrong_argument("--delay takes milliseconds, 0 to 999999, not", options->delay);
    return check_wear(options) && check_companions(options) && check_streams(options);
}

static bool take_options(int argc, char **argv, struct options *options)
{
    const struct option all[] = {
        { "--start", true, &options->start }, { "--save", true, &options->save },
        { "--repaint", true, &options->repaint }, { "--sparing", false, &options->sparing },
        { "--records", true, &options->records }, { "--at", true, &options->at },
        { "--changes", false, &options->changes }, { "--list", false, &options->list },
        { "--every", false, &options->every }, { "--delay", true, &options->delay },
        { "--wear", false, &options->wear },
        { "--pbm", true, &options->pbm }, { "--pgm", true, &options->pgm }, { "--form", true, &options->form },
        { "--live", false, &options->live },
    };
    *options = (struct options){ 0 };
    return read_options(argc, argv, all, sizeof all / sizeof all[0], &options->trace, 1)
        && check_options(options) && choose_form(options->form);
}

/* ---- the trace ---- */

static bool too_few(const char *name, unsigned long has, const char *at)
{
    fprintf(stderr, "%s: has only %lu record%s, --at asks for %s\n", name, has, has == 1 ? "" : "s", at);
    return false;
}

/* More than any trace has where the number is too big. */
static size_t records_of(const char *at)
{
    unsigned long count = strtoul(at, NULL, 10);
    return count > SIZE_MAX / RECORD ? SIZE_MAX / RECORD : count;
}

/* What is kept of what is sent, for what is shown of it; NULL is not kept. */
struct kept {
    struct bytes *records;
    struct wear *wear;
};

/* Where stores are counted, nothing is said yet of a refused record. */
static bool send_part(struct run *run, const uint8_t *part, size_t length, const struct kept *kept)
{
    if (kept->records != NULL && !append(kept->records, part, length))
        return false;
    return kept->wear != NULL ? send_counted(run, part, length, kept->wear) : send_bytes(run, part, length);
}

/* Sends the input, whole where at is NULL, else its first records: what follows them is not looked at. It may end inside a
 * record. */
static bool send_input(struct run *run, struct input *input, const char *at, const struct kept *kept)
{
    static uint8_t part[PEDRALUME_PART_MAX_BYTES];
    size_t wanted = at != NULL ? records_of(at) * RECORD : SIZE_MAX, taken = 0;
    ssize_t got = 0;
    while (taken < wanted
           && (got = read_some(input, part, wanted - taken < sizeof part ? wanted - taken : sizeof part)) > 0) {
        taken += (size_t)got;
        if (!send_part(run, part, (size_t)got, kept))
            return false;
    }
    if (got < 0)
        return false;
    return at == NULL || taken == wanted || too_few(input->name, pedralume_feed_records(run->feed), at);
}

/* With no trace, only the start. */
static bool send_trace(struct run *run, const char *path, const char *at, const struct kept *kept)
{
    struct input input;
    if (path == NULL)
        return at == NULL || records_of(at) == 0 || too_few(run->name, 0, at);
    if (!open_input(&input, path))
        return false;
    run->name = input.name;
    bool sent = send_input(run, &input, at, kept);
    close_input(&input);
    return sent;
}

/* ---- the repaint ---- */

/* The place is a chip, but for number 1, which no picture and buffer of this program can cause. */
static bool repaint_refused(const char *trace, uint64_t answer)
{
    unsigned number = pedralume_number(answer);
    fprintf(stderr, "%s: repaint after it refused: number %u, %s chip: %s\n", trace, number,
            chip_words(pedralume_place(answer)), pedralume_words(number));
    return false;
}

/* A repaint's records, and how many they are. */
struct repaint {
    size_t count;
    uint8_t records[PEDRALUME_REPAINT_BYTES];
};

/* Made for the chips and RAM as the run left them. */
static bool make_repaint(const struct run *run, const struct options *options, struct repaint *made)
{
    uint8_t picture[PEDRALUME_PICTURE_BYTES];
    if (!read_picture(options->repaint, picture))
        return false;
    uint64_t answer = options->sparing != NULL
        ? pedralume_sparing_repaint(run->feed, PEDRALUME_CHIPS_BYTES, run->ram, sizeof run->ram, picture, sizeof picture,
                                    made->records, sizeof made->records)
        : pedralume_repaint(run->feed, PEDRALUME_CHIPS_BYTES, picture, sizeof picture, made->records, sizeof made->records);
    made->count = pedralume_place(answer);
    return pedralume_number(answer) == PEDRALUME_DONE || repaint_refused(run->name, answer);
}

/* Sends the repaint, whole or its first records. */
static bool send_repaint(struct run *run, const struct options *options, const struct kept *kept, struct repaint *made)
{
    if (!make_repaint(run, options, made))
        return false;
    size_t count = options->at != NULL ? records_of(options->at) : made->count;
    struct run before = *run;
    if (!go_on_from(run, "the repaint", &before))
        return false;
    if (count > made->count)
        return too_few(run->name, made->count, options->at);
    return send_part(run, made->records, count * RECORD, kept);
}

/* How many of 254 cycles a sparing repaint takes, as a last line; nothing where it is not sparing. */
static bool print_cycles(const struct options *options, const struct repaint *made)
{
    if (options->sparing == NULL || to_standard_output(options) > 0)
        return true;
    errno = 0;
    printf("the sparing repaint takes %zu of %u cycles", made->count, PEDRALUME_REPAINT_RECORDS);
    if (options->at != NULL)
        printf(", %zu of them sent", records_of(options->at));
    putchar('\n');
    return all_printed();
}

static bool write_records(const char *path, const struct bytes *records)
{
    FILE *file = open_output(path);
    if (file == NULL)
        return false;
    errno = 0;
    bool good = records->length == 0 || fwrite(records->at, 1, records->length, file) == records->length;
    return close_output(file, path, good || file_failed(path, "cannot be written"));
}

/* ---- what is shown ---- */

static bool show_changes(const struct options *options, const struct changes *changes, const struct batch *batch)
{
    if (options->pbm != NULL && !write_changes(options->pbm, changes, batch))
        return false;
    if (to_standard_output(options) > 0)
        return true;
    bool pages = options->list == NULL && changes->count > 0 && isatty(STDIN_FILENO) && isatty(STDOUT_FILENO);
    return pages ? page_changes(changes, batch) : print_changes(changes, batch);
}

/* Goes through the batch again, for --changes or --every. */
static bool show_again(const struct options *options, const struct batch *batch)
{
    struct changes changes;
    bool listed = options->changes != NULL;
    unsigned delay = options->delay != NULL ? (unsigned)strtoul(options->delay, NULL, 10) : usual_delay;
    if (listed && !list_changes(batch, &changes))
        return false;
    return options->every != NULL ? show_every(batch, listed ? &changes : NULL, options->pbm, delay)
                                  : show_changes(options, &changes, batch);
}

static bool show_panel(const struct options *options, const struct run *run)
{
    uint8_t frame[PEDRALUME_FRAME_BYTES];
    if (!take_frame(run, frame) || (options->pbm != NULL && !write_frame(options->pbm, frame)))
        return false;
    if (to_standard_output(options) > 0)
        return true;
    print_frame(frame);
    return all_printed();
}

static bool begin_trace(struct run *run, const struct options *options)
{
    return begin_run(run, options->start != NULL ? options->start : options->trace, options->start);
}

/* The files that are not what is shown. */
static bool write_files(const struct options *options, const struct run *run, const struct bytes *repaint)
{
    return (options->save == NULL || save_run(run, options->save))
        && (options->records == NULL || write_records(options->records, repaint));
}

/* With --changes or --every, what is sent last is gone through again: the trace, or with --repaint the repaint. */
static bool show_trace(const struct options *options)
{
    static struct bytes records;
    struct repaint made;
    struct run run, before;
    bool again = options->changes != NULL || options->every != NULL, repaints = options->repaint != NULL;
    const struct kept of_trace = { again && !repaints ? &records : NULL, NULL }, of_repaint = { &records, NULL };
    if (!begin_trace(&run, options))
        return false;
    before = run;
    if (!send_trace(&run, options->trace, repaints ? NULL : options->at, &of_trace) || !end_run(&run))
        return false;
    before.name = run.name;
    if (repaints) {
        before = run;
        if (!send_repaint(&run, options, &of_repaint, &made))
            return false;
    }
    if (!write_files(options, &run, &records))
        return false;
    struct batch batch = { &before, records.at, records.length / RECORD };
    return (again ? show_again(options, &batch) : show_panel(options, &run)) && print_cycles(options, &made);
}

/* ---- wear ---- */

/* Of the trace, or with --repaint of the repaint: whether there is something to show. Where a record was refused there is what
 * came before it, and the run is no longer open. */
static bool count_stores(struct run *run, const struct options *options, struct bytes *records, struct wear *wear, struct repaint *made)
{
    const struct kept nothing = { NULL, NULL }, of_trace = { NULL, wear }, of_repaint = { records, wear };
    if (!begin_trace(run, options))
        return false;
    if (options->repaint == NULL)
        return send_trace(run, options->trace, options->at, &of_trace) || !is_open(run);
    return send_trace(run, options->trace, NULL, &nothing) && end_run(run) && send_repaint(run, options, &of_repaint, made);
}

/* A refusal is said last. */
static bool show_wear(const struct options *options)
{
    static struct bytes records;
    static struct wear wear;
    struct repaint made;
    struct run run;
    if (!count_stores(&run, options, &records, &wear, &made))
        return false;
    bool shown = write_files(options, &run, &records) && (options->pgm == NULL || write_wear(options->pgm, &wear))
              && (to_standard_output(options) > 0 || print_wear(&wear, &run)) && print_cycles(options, &made);
    return end_run(&run) && shown;
}

int main(int argc, char **argv)
{
    struct options options;
    int status;
    name_program(argv[0]);
    if (only_told(argc, argv, &status))
        return status;
    if (!take_options(argc, argv, &options))
        return STATUS_ARGUMENTS;
    bool shown = options.live != NULL ? show_live(options.start, options.save)
               : options.wear != NULL ? show_wear(&options) : show_trace(&options);
    return shown ? EXIT_SUCCESS : EXIT_FAILURE;
}

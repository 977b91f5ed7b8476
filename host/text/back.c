/* text --back: a text, one record a line, as a trace. */
#include "text.h"

#include <ctype.h>
#include <errno.h>
#include <string.h>

/* More than any record in words takes, with a long comment. */
enum { LINE_MAX_BYTES = 1000 };

struct text {
    const char *name;
    unsigned long line;         /* the number of the line at hand, from 1 */
    size_t length;              /* its length so far */
    char words[LINE_MAX_BYTES + 1];
    struct bytes trace;
};

static bool wrong_line(const struct text *text, const char *what)
{
    fprintf(stderr, "%s: line %lu: %s\n", text->name, text->line, what);
    return false;
}

/* The line's words as they were understood; what no terminal shows is a question mark. */
static bool wrong_words(const struct text *text, const char *what)
{
    fprintf(stderr, "%s: line %lu: \"", text->name, text->line);
    for (const char *at = text->words; *at != '\0'; at++)
        fputc(isprint((unsigned char)*at) ? *at : '?', stderr);
    fprintf(stderr, "\": %s; see %s --help\n", what, program);
    return false;
}

/* ---- words ---- */

/* Puts the line in lower case, without its comment, one space between two words and none at the ends. */
static void tidy(char *words)
{
    size_t length = 0;
    words[strcspn(words, "#")] = '\0';
    for (const char *at = words; *at != '\0'; at++)
        if (!isspace((unsigned char)*at))
            words[length++] = (char)tolower((unsigned char)*at);
        else if (length > 0 && words[length - 1] != ' ')
            words[length++] = ' ';
    if (length > 0 && words[length - 1] == ' ')
        length--;
    words[length] = '\0';
}

/* The number before a record, with its colon. */
static void skip_number(const char **words)
{
    size_t digits = strspn(*words, "0123456789");
    if (digits > 0 && (*words)[digits] == ':')
        *words += digits + 1 + ((*words)[digits + 1] == ' ');
}

/* One or two digits. */
static bool take_byte(const char **words, uint8_t *byte)
{
    static const char digits[] = "0123456789abcdef";
    size_t length = strspn(*words, digits);
    if (length < 1 || length > 2 || ((*words)[length] != ' ' && (*words)[length] != '\0'))
        return false;
    for (*byte = 0; length > 0; length--, ++*words)
        *byte = (uint8_t)(16 * *byte + (strchr(digits, **words) - digits));
    if (**words == ' ')
        ++*words;
    return true;
}

/* ---- a record ---- */

/* What comes after left or right; lines and byte go into the record. A read may go without its byte. */
static bool take_cycle(const char *words, uint8_t record[RECORD])
{
    record[0] = PEDRALUME_COMMAND_WRITE;
    if (command_of(words, &record[2]))
        return true;
    record[2] = 0;
    if (!take_cycle_words(&words, &record[0]))
        return false;
    bool reads = record[0] == PEDRALUME_STATUS_READ || record[0] == PEDRALUME_DATA_READ;
    return (take_byte(&words, &record[2]) || reads) && *words == '\0';
}

static bool wrong_cycle(const struct text *text, const char *words)
{
    char what[sizeof "it takes a number from 0 to 4294967295"];
    unsigned highest;
    if (!takes_number(words, &highest))
        return wrong_words(text, "no such record");
    snprintf(what, sizeof what, "it takes a number from 0 to %u", highest);
    return wrong_words(text, what);
}

static bool take_record(struct text *text, const char *words)
{
    uint8_t record[RECORD] = { 0 };
    if (take_words(&words, "right"))
        record[1] = 1;
    else if (!take_words(&words, "left"))
        return wrong_words(text, "a record begins with left, right or raw");
    if (!take_cycle(words, record))
        return wrong_cycle(text, words);
    return append(&text->trace, record, RECORD);
}

/* Fewer than four bytes are a record that the trace ends in. */
static bool take_raw(struct text *text, const char *words)
{
    uint8_t bytes[RECORD];
    size_t length = 0;
    while (length < RECORD && take_byte(&words, &bytes[length]))
        length++;
    if (length == 0 || *words != '\0')
        return wrong_words(text, "raw takes one to four bytes, each of two hex digits");
    return append(&text->trace, bytes, length);
}

static bool take_line(struct text *text)
{
    const char *words = text->words;
    text->words[text->length] = '\0';
    text->length = 0;
    tidy(text->words);
    skip_number(&words);
    if (*words == '\0')
        return true;
    if (text->trace.length % RECORD != 0)
        return wrong_line(text, "a record after one that is cut short");
    return take_words(&words, "raw") ? take_raw(text, words) : take_record(text, words);
}

/* ---- the text ---- */

static bool take_characters(struct text *text, const uint8_t *bytes, size_t length)
{
    for (size_t i = 0; i < length; i++) {
        if (bytes[i] == '\n') {
            if (!take_line(text))
                return false;
            text->line++;
        } else if (bytes[i] == '\0') {
            return wrong_line(text, "no text: it has a byte 0");
        } else if (text->length == LINE_MAX_BYTES) {
            return wrong_line(text, "longer than 1,000 bytes");
        } else {
            text->words[text->length++] = (char)bytes[i];
        }
    }
    return true;
}

static bool take_text(struct text *text, struct input *input)
{
    static uint8_t part[65536];
    ssize_t got;
    while ((got = read_some(input, part, sizeof part)) > 0)
        if (!take_characters(text, part, (size_t)got))
            return false;
    return got == 0 && take_line(text);
}

bool write_trace(const char *path)
{
    static struct text text = { .line = 1 };
    struct input input;
    if (!open_input(&input, path))
        return false;
    text.name = input.name;
    if (!take_text(&text, &input))
        return false;
    close_input(&input);
    errno = 0;
    if (text.trace.length > 0)
        fwrite(text.trace.at, 1, text.trace.length, stdout);
    return all_printed();
}

/* show --every: the panel after each record, or after each that changed it: played, printed, or as numbered PBM files. */
#define _POSIX_C_SOURCE 200809L
#include "show.h"

#include <errno.h>
#include <stdlib.h>
#include <string.h>
#include <time.h>
#include <unistd.h>

/* How many records are sent where the panel is looked at for the nth time; at first none are. */
static size_t records_at(const struct changes *changes, size_t n)
{
    return n == 0 || changes == NULL ? n : changes->list[n - 1].record + (size_t)1;
}

/* How often it is looked at. */
static size_t looks(const struct batch *batch, const struct changes *changes)
{
    return 1 + (changes != NULL ? changes->count : batch->count);
}

/* ---- numbered files ---- */

/* The number goes before the ending of the file's name, or at its end where it has none. */
static bool write_numbered(const char *path, size_t number, const uint8_t *frame)
{
    const char *slash = strrchr(path, '/'), *name = slash != NULL ? slash + 1 : path;
    const char *ending = strrchr(name, '.');
    size_t room = strlen(path) + sizeof "-18446744073709551615";
    char *numbered = malloc(room);
    if (numbered == NULL)
        return file_failed(path, "cannot be written");
    if (ending == NULL || ending == name)
        ending = path + strlen(path);
    snprintf(numbered, room, "%.*s-%06zu%s", (int)(ending - path), path, number, ending);
    bool written = write_frame(numbered, frame);
    free(numbered);
    return written;
}

static bool write_picture(const char *pbm, size_t number, const uint8_t *frame)
{
    char comment[sizeof "# after 18446744073709551615 records\n"];
    if (strcmp(pbm, "-") != 0)
        return write_numbered(pbm, number, frame);
    snprintf(comment, sizeof comment, "# after %zu records\n", number);
    return add_picture(stdout, "standard output", comment, frame);
}

/* ---- on the terminal ---- */

static void wait_a_little(unsigned milliseconds)
{
    struct timespec left = { milliseconds / 1000, milliseconds % 1000 * 1000000L };
    while (nanosleep(&left, &left) != 0 && errno == EINTR)
        continue;
}

/* On a terminal each picture goes over the last one. */
static bool draw(size_t number, const struct batch *batch, const uint8_t *frame, unsigned delay)
{
    errno = 0;
    go_home(number == 0);
    print_frame(frame);
    printf("after %zu of %zu records\n", number, batch->count);
    if (!all_printed())
        return false;
    if (isatty(STDOUT_FILENO))
        wait_a_little(delay);
    return true;
}

bool show_every(const struct batch *batch, const struct changes *changes, const char *pbm, unsigned delay)
{
    struct run run;
    uint8_t frame[PEDRALUME_FRAME_BYTES];
    size_t count = looks(batch, changes);
    if (!begin_again(&run, batch))
        return false;
    for (size_t n = 0; n < count; n++) {
        size_t number = records_at(changes, n);
        if (!send_up_to(&run, batch, number) || !take_frame(&run, frame)
            || !(pbm != NULL ? write_picture(pbm, number, frame) : draw(number, batch, frame, delay)))
            return false;
    }
    if (pbm != NULL && strcmp(pbm, "-") != 0)
        printf("%zu pictures, numbered by the records before them\n", count);
    return all_printed();
}

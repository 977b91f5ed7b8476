/* Files that are read and written. */
#define _POSIX_C_SOURCE 200809L
#include "common.h"

#include <errno.h>
#include <fcntl.h>
#include <signal.h>
#include <stdlib.h>
#include <string.h>
#include <sys/stat.h>
#include <unistd.h>

/* Every input and the first outputs; those of which there are more have names that differ. */
enum { USED_MAX = 8 };

/* Which files are read or written: none of them is written over. */
static struct {
    dev_t device;
    ino_t number;
} used[USED_MAX];
static size_t used_count;

/* What is still "-" here was to be written: an input has a name of its own. */
bool file_failed(const char *path, const char *what)
{
    const char *name = strcmp(path, "-") == 0 ? "standard output" : path;
    fprintf(stderr, "%s: %s: %s\n", name, what, errno != 0 ? strerror(errno) : "reason unknown");
    return false;
}

/* Appending to what it reads, a program would never end. Where standard output is closed, an input may have its descriptor. */
static bool is_standard_output(int descriptor)
{
    struct stat file, output;
    return descriptor != STDOUT_FILENO && fstat(descriptor, &file) == 0 && fstat(STDOUT_FILENO, &output) == 0 && S_ISREG(file.st_mode)
        && file.st_dev == output.st_dev && file.st_ino == output.st_ino;
}

/* Only regular files: a terminal or /dev/null may be both read and written. */
static void remember(int descriptor)
{
    struct stat file;
    if (used_count == USED_MAX || fstat(descriptor, &file) != 0 || !S_ISREG(file.st_mode))
        return;
    used[used_count].device = file.st_dev;
    used[used_count].number = file.st_ino;
    used_count++;
}

static bool is_used(const char *path)
{
    struct stat file;
    if (stat(path, &file) != 0)
        return false;
    for (size_t i = 0; i < used_count; i++)
        if (used[i].device == file.st_dev && used[i].number == file.st_ino)
            return true;
    return false;
}

/* ---- input ---- */

/* Where standard input is closed, a file would get its descriptor, and "-" would then read that file. */
static int open_file(const char *path)
{
    int descriptor = open(path, O_RDONLY);
    if (descriptor != STDIN_FILENO)
        return descriptor;
    int moved = fcntl(descriptor, F_DUPFD, STDERR_FILENO + 1);
    close(descriptor);
    return moved;
}

bool open_input(struct input *input, const char *path)
{
    bool standard = strcmp(path, "-") == 0;
    errno = 0;
    input->name = standard ? "standard input" : path;
    input->descriptor = standard ? STDIN_FILENO : open_file(path);
    if (input->descriptor < 0)
        return file_failed(path, "cannot be opened");
    if (is_standard_output(input->descriptor)) {
        fprintf(stderr, "%s: is standard output too\n", input->name);
        return false;
    }
    remember(input->descriptor);
    return true;
}

static volatile sig_atomic_t interrupted;

static void note_interrupt(int signal)
{
    (void)signal;
    interrupted = 1;
}

/* Without a restart: a read that waits comes back. */
void end_input_on_interrupt(void)
{
    struct sigaction action = { .sa_handler = note_interrupt, .sa_flags = (int)SA_RESETHAND };
    sigaction(SIGINT, &action, NULL);
}

ssize_t read_some(struct input *input, uint8_t *bytes, size_t room)
{
    ssize_t length = 0;
    while (!interrupted && (length = read(input->descriptor, bytes, room)) < 0 && errno == EINTR)
        continue;
    if (interrupted)
        return 0;
    if (length < 0)
        file_failed(input->name, "cannot be read");
    return length;
}

void close_input(struct input *input)
{
    if (input->descriptor != STDIN_FILENO)
        close(input->descriptor);
}

bool read_file(const char *path, uint8_t *bytes, size_t room, size_t *length)
{
    struct input input;
    ssize_t got = 0;
    if (!open_input(&input, path))
        return false;
    for (*length = 0; *length < room && (got = read_some(&input, bytes + *length, room - *length)) > 0;)
        *length += (size_t)got;
    close_input(&input);
    return got >= 0;
}

bool append(struct bytes *bytes, const uint8_t *more, size_t length)
{
    if (bytes->room - bytes->length < length) {
        size_t room = 2 * bytes->room + length;
        uint8_t *moved = realloc(bytes->at, room);
        errno = ENOMEM;
        if (moved == NULL)
            return file_failed(program, "the input cannot be kept");
        bytes->at = moved;
        bytes->room = room;
    }
    if (length > 0)
        memcpy(bytes->at + bytes->length, more, length);
    bytes->length += length;
    return true;
}

/* ---- output ---- */

static FILE *open_unused(const char *path, const char *mode)
{
    if (is_used(path)) {
        fprintf(stderr, "%s: is read or written already, and not written over\n", path);
        return NULL;
    }
    errno = 0;
    FILE *file = fopen(path, mode);
    if (file == NULL)
        file_failed(path, "cannot be written");
    return file;
}

FILE *open_output(const char *path)
{
    if (strcmp(path, "-") == 0)
        return stdout;
    FILE *file = open_unused(path, "wb");
    if (file != NULL)
        remember(fileno(file));
    return file;
}

bool can_be_written(const char *path)
{
    FILE *file = open_unused(path, "ab");
    return file != NULL && fclose(file) == 0;
}

bool all_printed(void)
{
    bool good = fflush(stdout) == 0 && !ferror(stdout);
    return good || file_failed("standard output", "cannot be written");
}

bool close_output(FILE *file, const char *path, bool all_written)
{
    errno = 0;
    if (file == stdout)
        return all_printed() && all_written;
    bool closed = fclose(file) == 0;
    return all_written && (closed || file_failed(path, "cannot be written"));
}

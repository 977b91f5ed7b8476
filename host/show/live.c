/*
 * show --live: the records of standard input as they come. The panel is drawn at first, and again after
 * each record that changed what it shows.
 *
 * The feed is given no more at once than ends one record, and the frame is looked at after each time.
 * So the same pictures are drawn however the input is cut.
 */
#define _POSIX_C_SOURCE 200809L
#include "show.h"

#include <errno.h>
#include <signal.h>
#include <string.h>

struct live {
    struct run run;
    uint8_t frame[PEDRALUME_FRAME_BYTES];   /* as drawn last */
};

/* On a terminal each picture goes over the last one. */
static bool draw(struct live *live, bool first)
{
    errno = 0;
    go_home(first);
    print_frame(live->frame);
    return all_printed();
}

static bool draw_if_changed(struct live *live)
{
    uint8_t now[PEDRALUME_FRAME_BYTES];
    if (!take_frame(&live->run, now))
        return false;
    if (memcmp(now, live->frame, sizeof now) == 0)
        return true;
    memcpy(live->frame, now, sizeof now);
    return draw(live, false);
}

/* A refused record ends it; what comes after is not looked at. */
static bool take_bytes(struct live *live, const uint8_t *bytes, size_t length)
{
    uint8_t answer[PEDRALUME_ANSWER_BYTES];
    for (size_t at = 0; at < length && is_open(&live->run);) {
        at += send_one(&live->run, bytes + at, length - at, answer);
        if (!draw_if_changed(live))
            return false;
    }
    return true;
}

static bool take_input(struct live *live, struct input *input)
{
    uint8_t bytes[4096];
    ssize_t length = 0;
    while (is_open(&live->run) && (length = read_some(input, bytes, sizeof bytes)) > 0)
        if (!take_bytes(live, bytes, (size_t)length))
            return false;
    return length >= 0;
}

/* What is saved is what the accepted records have left, also where one is refused or an interrupt ends it. */
bool show_live(const char *start, const char *save)
{
    struct live live;
    struct input input;
    signal(SIGPIPE, SIG_IGN);   /* a closed output is then a write that fails, and is said */
    end_input_on_interrupt();
    if (!open_input(&input, "-") || !begin_run(&live.run, input.name, start) || (save != NULL && !can_be_written(save))
        || !take_frame(&live.run, live.frame) || !draw(&live, true) || !take_input(&live, &input))
        return false;
    bool saved = save == NULL || save_run(&live.run, save);
    return tell_end(&live.run, "") && saved;
}

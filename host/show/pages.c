/* show --changes on a terminal: what the panel shows after each change, a page each. */
#define _POSIX_C_SOURCE 200809L
#include "show.h"

#include <errno.h>
#include <termios.h>
#include <unistd.h>

/* What a key asks for. */
enum { NEXT, BACK, FIRST, LAST, QUIT, NOTHING };

/* ---- keys ---- */

/* Keys come one by one, unseen; also Ctrl-C, so that the terminal is left as it was. */
static bool take_keys(struct termios *before)
{
    errno = 0;
    if (tcgetattr(STDIN_FILENO, before) != 0)
        return file_failed("the terminal", "its keys cannot be read");
    struct termios keys = *before;
    keys.c_lflag &= (tcflag_t)~(ICANON | ECHO | ISIG);
    keys.c_cc[VMIN] = 1;
    keys.c_cc[VTIME] = 0;
    return tcsetattr(STDIN_FILENO, TCSADRAIN, &keys) == 0 || file_failed("the terminal", "its keys cannot be read");
}

/* The end of the input is taken for a q. */
static char read_key(void)
{
    char key;
    ssize_t length;
    do
        length = read(STDIN_FILENO, &key, 1);
    while (length < 0 && errno == EINTR);
    return length == 1 ? key : 'q';
}

static int wish_of(char key)
{
    switch (key) {
    case ' ': case '\n': case '\r': case 'n': case 'j': return NEXT;
    case 'b': case 'p': case 'k': return BACK;
    case 'g': return FIRST;
    case 'G': return LAST;
    case 'q': case 'Q': case '\003': case '\004': return QUIT;
    default: return NOTHING;
    }
}

/* After escape: an arrow key or its like goes on with [ and a letter, or [, a digit and ~; else escape was typed alone. */
static int read_arrow(void)
{
    char key = read_key();
    if (key != '[')
        return wish_of(key);
    key = read_key();
    if (key >= '0' && key <= '9')
        read_key();
    switch (key) {
    case 'A': case 'D': case '5': return BACK;
    case 'B': case 'C': case '6': return NEXT;
    case 'H': case '1': case '7': return FIRST;
    case 'F': case '4': case '8': return LAST;
    default: return NOTHING;
    }
}

static int read_wish(void)
{
    char key = read_key();
    return key == '\033' ? read_arrow() : wish_of(key);
}

/* ---- pages ---- */

/* Page 0 is the panel before the first record, page n after the nth change. */
static bool draw_page(const struct changes *changes, const struct batch *batch, size_t page)
{
    struct run run;
    uint8_t frame[PEDRALUME_FRAME_BYTES];
    size_t sent = page == 0 ? 0 : changes->list[page - 1].record + (size_t)1;
    if (!begin_again(&run, batch) || !send_up_to(&run, batch, sent) || !take_frame(&run, frame))
        return false;
    errno = 0;
    go_home(true);
    print_frame(frame);
    if (page == 0)
        puts("before the first record");
    else
        print_change(&changes->list[page - 1], batch);
    printf("change %zu of %zu; space: next, b: back, g: first, G: last, q: quit\n", page, changes->count);
    return all_printed();
}

/* The page that comes after this one; after the last there is none. */
static size_t turn(int wish, size_t page, size_t last)
{
    switch (wish) {
    case NEXT: return page < last ? page + 1 : page;
    case BACK: return page > 0 ? page - 1 : page;
    case FIRST: return 0;
    case LAST: return last;
    default: return page;
    }
}

static bool leaf_through(const struct changes *changes, const struct batch *batch)
{
    size_t page = 0;
    int wish;
    if (!draw_page(changes, batch, page))
        return false;
    while ((wish = read_wish()) != QUIT) {
        size_t wanted = turn(wish, page, changes->count);
        if (wanted != page && !draw_page(changes, batch, wanted))
            return false;
        page = wanted;
    }
    print_count(changes, batch);
    return all_printed();
}

bool page_changes(const struct changes *changes, const struct batch *batch)
{
    struct termios before;
    if (!take_keys(&before))
        return false;
    bool good = leaf_through(changes, batch);
    tcsetattr(STDIN_FILENO, TCSADRAIN, &before);
    return good;
}

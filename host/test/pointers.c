/*
 * What the header says of pointers, of every call: a buffer of length 0 may have a null pointer, and no alignment
 * is asked. Each call is made twice over the same bytes, once as any test does it and once so, and must give back
 * and leave the same. And the version that the archive gives is the header's.
 */
#define PROGRAM "pointers"
#include "check.h"

enum { BUFFERS = 4, LONGEST = 2048, OFFSETS = 16, RECORDS = 40 };

/* The calls; each is a job. */
enum { REPLAY, DRAW, REPAINTED, SPARED, OPEN, PART, CLOSE, LIST, JOBS };

/* The bit of a buffer among those that are chosen. */
#define BUFFER(i) (1u << (i))

/* Buffers as a call is lent them; those that it has not are of length 0. */
struct lent {
    uint8_t bytes[BUFFERS][LONGEST + OFFSETS];
    size_t length[BUFFERS];
};

/* The pointers to const of some come as the others do. */
static uint64_t call(unsigned job, uint8_t *const at[BUFFERS], const size_t length[BUFFERS])
{
    switch (job) {
    case REPLAY: return pedralume_replay(at[0], length[0], at[1], length[1], at[2], length[2], at[3], length[3]);
    case DRAW: return pedralume_frame(at[0], length[0], at[1], length[1], at[2], length[2]);
    case REPAINTED: return pedralume_repaint(at[0], length[0], at[1], length[1], at[2], length[2]);
    case SPARED: return pedralume_sparing_repaint(at[0], length[0], at[1], length[1], at[2], length[2], at[3], length[3]);
    case OPEN: return pedralume_feed_open(at[0], length[0], at[1], length[1]);
    case PART: return pedralume_feed_part(at[0], length[0], at[1], length[1], at[2], length[2], at[3], length[3]);
    case CLOSE: return pedralume_feed_close(at[0], length[0]);
    default: return pedralume_changes(at[0], length[0], at[1], length[1], at[2], length[2], at[3], length[3]);
    }
}

/* How many buffers each call has, and their lengths where it is done. */
static const unsigned buffers[JOBS] = { 4, 3, 3, 4, 2, 4, 1, 4 };
static const size_t lengths[JOBS][BUFFERS] = {
    { CHIPS, RAM, RECORDS * RECORD, 2 * RECORDS }, { CHIPS, RAM, FRAME }, { CHIPS, PICTURE, REPAINT },
    { CHIPS, RAM, PICTURE, REPAINT }, { FEED, CHIPS },
    { FEED, RAM, RECORDS * RECORD, 2 * RECORDS }, { FEED }, { CHIPS, RAM, RECORDS * RECORD, RECORDS * ENTRY },
};

/* What each call is lent so that it is done, at this offset from an aligned address. */
static void lend(struct lent *l, unsigned job, size_t offset)
{
    static struct trace t;
    struct rng g = { job + 1 };
    uint8_t ready[CHIPS];
    draw_ready_chip(&g, ready);
    draw_ready_chip(&g, ready + CHIP);
    memset(l, 0xEE, sizeof *l);
    memcpy(l->length, lengths[job], sizeof l->length);
    t.len = 0;
    put_valid(&t, &g, ready, RECORDS);
    memcpy(l->bytes[job == OPEN ? 1 : 0] + offset, ready, CHIPS);
    if (job == PART || job == CLOSE)
        pedralume_feed_open(l->bytes[0] + offset, FEED, ready, CHIPS);
    if (job != OPEN && job != CLOSE)
        random_bytes(&g, l->bytes[1] + offset, l->length[1]);
    if (job == REPLAY || job == PART || job == LIST)
        memcpy(l->bytes[2] + offset, t.bytes, t.len);
    if (job == SPARED)
        random_bytes(&g, l->bytes[2] + offset, PICTURE);
}

static uint64_t call_at(unsigned job, struct lent *l, size_t offset, unsigned null)
{
    uint8_t *at[BUFFERS];
    for (unsigned i = 0; i < BUFFERS; i++)
        at[i] = null & BUFFER(i) ? NULL : l->bytes[i] + offset;
    return call(job, at, l->length);
}

/* Each choice of the call's buffers with length 0: null or not makes no difference. */
static void test_null(unsigned job)
{
    static struct lent plain, null;
    for (unsigned chosen = 0; chosen < BUFFER(buffers[job]); chosen++) {
        lend(&plain, job, 0);
        for (unsigned i = 0; i < BUFFERS; i++)
            if (chosen & BUFFER(i))
                plain.length[i] = 0;
        null = plain;
        uint64_t want = call_at(job, &plain, 0, 0);
        CHECK(chosen != 0 || pedralume_number(want) == PEDRALUME_DONE);
        CHECK(call_at(job, &null, 0, chosen) == want);
        CHECK(memcmp(&null, &plain, sizeof plain) == 0);
    }
}

/* An empty trace and an empty part with nothing lent for their answers are taken; a list asks how many entries there are. */
static void test_empty(void)
{
    static struct lent l;
    lend(&l, REPLAY, 0);
    l.length[2] = l.length[3] = 0;
    CHECK_ANSWER(call_at(REPLAY, &l, 0, BUFFER(2) | BUFFER(3)), 0, 0, 0, 0);
    lend(&l, PART, 0);
    l.length[2] = l.length[3] = 0;
    CHECK_ANSWER(call_at(PART, &l, 0, BUFFER(2) | BUFFER(3)), 0, 0, 0, 0);
    lend(&l, LIST, 0);
    uint64_t listed = call_at(LIST, &l, 0, 0);
    l.length[3] = 0;
    CHECK(pedralume_place(listed) > 0);
    CHECK_ANSWER(call_at(LIST, &l, 0, BUFFER(3)), PEDRALUME_SHORT_ENTRIES, pedralume_place(listed), 0, 0);
}

/* At each offset from an aligned address. */
static void test_offset(unsigned job, size_t offset)
{
    static struct lent plain, moved;
    lend(&plain, job, 0);
    lend(&moved, job, offset);
    CHECK(call_at(job, &moved, offset, 0) == call_at(job, &plain, 0, 0));
    for (unsigned i = 0; i < buffers[job]; i++)
        CHECK(memcmp(moved.bytes[i] + offset, plain.bytes[i], plain.length[i]) == 0);
}

int main(void)
{
    for (unsigned job = 0; job < JOBS; job++) {
        test_null(job);
        for (size_t offset = 1; offset < OFFSETS; offset++)
            test_offset(job, offset);
    }
    test_empty();
    CHECK(pedralume_version() == PEDRALUME_VERSION_NUMBER);
    return end_of_checks();
}

/*
 * This test holds the archive's feed, its open, part and close, to document 02: the numbers in their order, and
 * what each call leaves. What is expected is written out here and in rig.h from the documents, not taken from
 * any implementation; what a feed leaves is checked by the archive's replays of whole records.
 */
#define PROGRAM "feed"
#include "rig.h"

/* ---- what the calls are lent ---- */

/* What a part is lent, with bytes to spare. */
struct intake {
    uint8_t feed[FEED + SLACK];
    uint8_t ram[RAM + SLACK];
    uint8_t answers[ANSWERS + SLACK];
};

static void check_feed_answer(uint64_t got, unsigned number, uint64_t place, int line)
{
    uint64_t want = number + (place << 8);
    checks++;
    if (got == want)
        return;
    failures++;
    printf(PROGRAM ".c:%d: failed:", line);
    print_feed_answer("want", want);
    print_feed_answer("got", got);
    printf("\n");
}

#define CHECK_FEED(got, number, place) check_feed_answer((got), (number), (place), __LINE__)

static bool same_intake(const struct intake *a, const struct intake *b)
{
    return memcmp(a, b, sizeof *a) == 0;
}

static void open_intake(struct intake *n)
{
    uint8_t chips[CHIPS];
    memset(n, 0xEE, sizeof *n);
    memset(n->ram, 0, RAM);
    fresh_chips(chips);
    CHECK_FEED(pedralume_feed_open(n->feed, FEED, chips, CHIPS), 0, 0);
}

struct lengths {
    size_t feed, ram, part, answers;
};

static uint64_t take_by(struct intake *n, const uint8_t *bytes, struct lengths len)
{
    return pedralume_feed_part(n->feed, len.feed, n->ram, len.ram, bytes, len.part, n->answers, len.answers);
}

static uint64_t take(struct intake *n, const uint8_t *bytes, size_t len)
{
    return take_by(n, bytes, (struct lengths){ FEED, RAM, len, ANSWERS });
}

static uint64_t end(struct intake *n)
{
    return pedralume_feed_close(n->feed, FEED);
}

/* ---- what stays ---- */

/* This answer, and nothing changes. */
static void check_part_stays(const struct intake *given, const uint8_t *bytes, struct lengths len, unsigned number, uint64_t place, int line)
{
    static struct intake n;
    n = *given;
    check_feed_answer(take_by(&n, bytes, len), number, place, line);
    check(same_intake(&n, given), __FILE__, line, "the part changes nothing");
}

static void check_close_stays(const struct intake *given, size_t len, unsigned number, uint64_t place, int line)
{
    static struct intake n;
    n = *given;
    check_feed_answer(pedralume_feed_close(n.feed, len), number, place, line);
    check(same_intake(&n, given), __FILE__, line, "the close changes nothing");
}

#define PART_STAYS(given, bytes, len, number, place) check_part_stays((given), (bytes), (len), (number), (place), __LINE__)
#define CLOSE_STAYS(given, len, number, place) check_close_stays((given), (len), (number), (place), __LINE__)

/* A stopped feed repeats this for whatever it is lent, and changes nothing. */
static void check_stopped(const struct intake *n, unsigned number, uint64_t place)
{
    static const uint8_t bytes[TRACE_MAX + 1] = { 0xFF, 0xFF, 0xFF, 0xFF, 0xFF };
    static const struct lengths lent[] = {
        { FEED, RAM, 0, 0 },       { FEED, RAM, 4, 2 },             { FEED, RAM, 5, ANSWERS },
        { FEED, 0, 0, 0 },         { FEED, RAM - 1, 4, ANSWERS },   { FEED, RAM, 4, 0 },
        { FEED, RAM + 1, 4, 1 },   { FEED, RAM, TRACE_MAX + 1, ANSWERS }, { FEED, RAM, TRACE_MAX, 1 },
    };
    for (size_t i = 0; i < sizeof lent / sizeof lent[0]; i++)
        PART_STAYS(n, bytes, lent[i], number, place);
    CLOSE_STAYS(n, FEED, number, place);
    PART_STAYS(n, bytes, ((struct lengths){ FEED - 1, RAM, 4, 2 }), 1, 0);     /* the 48 come before */
    PART_STAYS(n, bytes, ((struct lengths){ FEED + 1, RAM, 4, 2 }), 1, 0);
    CLOSE_STAYS(n, FEED - 1, 1, 0);
    CLOSE_STAYS(n, FEED + 1, 1, 0);
}

/* ---- what a replay of whole records leaves ---- */

/* An intake that has taken so many bytes of a trace that is accepted, as a replay of whole records leaves it. */
static void expect_intake(struct intake *n, const struct trace *t, size_t taken)
{
    static struct rig r;
    size_t whole = taken / RECORD * RECORD;
    fresh_rig(&r);
    uint64_t answer = replay_bytes(&r, t->bytes, whole);
    CHECK(pedralume_number(answer) == PEDRALUME_DONE);
    memset(n, 0xEE, sizeof *n);
    memset(n->feed, 0, FEED);
    memcpy(n->feed, r.chips, CHIPS);
    n->feed[PEDRALUME_FEED_KEPT_COUNT] = (uint8_t)(taken - whole);
    memcpy(n->feed + PEDRALUME_FEED_KEPT, t->bytes + whole, taken - whole);
    set_feed_counts(n->feed, pedralume_place(answer), pedralume_compared(answer), pedralume_differing(answer));
    memcpy(n->ram, r.ram, RAM);
    memcpy(n->answers, r.answers, ANSWERS);
}

/* The answers of the last part are at the start of its buffer; those before have gone with theirs. */
static void expect_last_part(struct intake *n, const struct trace *t, size_t before, size_t taken)
{
    expect_intake(n, t, taken);
    size_t gone = 2 * (before / RECORD), given = 2 * (taken / RECORD) - gone;
    memmove(n->answers, n->answers + gone, given);
    memset(n->answers + given, 0xEE, sizeof n->answers - given);
}

/* Gives bytes `from` to `to` with fresh answer bytes, and holds all that is lent to the expected. */
static void take_and_check(struct intake *n, const struct trace *t, size_t from, size_t to)
{
    static struct intake want;
    memset(n->answers, 0xEE, sizeof n->answers);
    size_t room = 2 * (to / RECORD - from / RECORD);
    CHECK_FEED(take_by(n, t->bytes + from, (struct lengths){ FEED, RAM, to - from, room }), 0, to / RECORD);
    expect_last_part(&want, t, from, to);
    CHECK(same_intake(n, &want));
}

/* ---- answers and counts taken apart ---- */

static void test_feed_readers(void)
{
    uint8_t feed[FEED];
    memset(feed, 0xEE, FEED);
    set_feed_counts(feed, 0x01020304, 0xFFFEFDFC, 0x80000000);
    CHECK(pedralume_feed_records(feed) == 0x01020304u && feed[PEDRALUME_FEED_RECORDS] == 4);
    CHECK(pedralume_feed_compared(feed) == 0xFFFEFDFCu && pedralume_feed_differing(feed) == 0x80000000u);
    CHECK(pedralume_feed_place(13 + 256 * (uint64_t)4294967295u) == PEDRALUME_FEED_MAX_RECORDS);
    CHECK(pedralume_number(13 + 256 * (uint64_t)4294967295u) == PEDRALUME_TOO_MANY);
}

/* ---- the open ---- */

/* Opened over whatever the buffer held: number 2 where this chip is bad, else 0. */
static void test_open(const uint8_t *chips, unsigned number, unsigned place)
{
    static const uint8_t held[] = { 0x00, 0x01, 0xEE, 0xFF };
    for (size_t i = 0; i < sizeof held; i++) {
        uint8_t feed[FEED + SLACK], want[FEED + SLACK], given[CHIPS];
        memset(feed, held[i], sizeof feed);
        memset(want, held[i], sizeof want);
        memset(want, 0, FEED);
        memcpy(want, chips, CHIPS);
        memcpy(given, chips, CHIPS);
        if (number != 0)
            set_feed_stop(want, 1, number, place);
        CHECK_FEED(pedralume_feed_open(feed, FEED, given, CHIPS), number, place);
        CHECK(memcmp(feed, want, sizeof feed) == 0 && memcmp(given, chips, CHIPS) == 0);
    }
}

static void test_opens(void)
{
    static struct rig r;
    fresh_rig(&r);
    test_open(r.chips, 0, 0);
    busy_rig(&r, true);
    test_open(r.chips, 0, 0);
    for (unsigned chip = 0; chip < 2; chip++)
        for (unsigned field = 0; field < CHIP; field++) {
            busy_rig(&r, true);
            r.chips[CHIP * chip + field] = field_limit[field];
            test_open(r.chips, 0, 0);
            if (field == PEDRALUME_LATCH_BYTE)
                continue;
            r.chips[CHIP * chip + field]++;
            test_open(r.chips, 2, chip);
            r.chips[CHIP + PEDRALUME_ZERO] = 9;                     /* left before right */
            test_open(r.chips, 2, chip);
        }
    fresh_rig(&r);
    r.chips[CHIP + PEDRALUME_SAVED_COLUMN] = 1;
    test_open(r.chips, 2, 1);
}

static void test_open_columns(void)
{
    uint8_t chips[CHIPS];
    for (unsigned way = 0; way < COLUMN_WAYS; way++) {
        fresh_chips(chips);
        struct given_column c = put_column(chips, way);
        test_open(chips, c.number, c.place);
    }
}

static void test_open_lengths(void)
{
    static const struct { size_t feed, chips; } len[] = {
        { 0, CHIPS }, { 24, CHIPS }, { 47, CHIPS }, { 49, CHIPS }, { FEED, 0 }, { FEED, 12 }, { FEED, 23 }, { FEED, 25 },
        { 47, 23 },
    };
    uint8_t feed[FEED + SLACK], chips[CHIPS + SLACK], was[FEED + SLACK];
    memset(chips, 0xFF, sizeof chips);                              /* 1 before 2 */
    memset(feed, 0xEE, sizeof feed);
    memset(was, 0xEE, sizeof was);
    for (size_t i = 0; i < sizeof len / sizeof len[0]; i++) {
        CHECK_FEED(pedralume_feed_open(feed, len[i].feed, chips, len[i].chips), 1, 0);
        CHECK(memcmp(feed, was, sizeof feed) == 0);
    }
}

/* A feed whose opening was refused stays stopped with that. */
static void test_open_refused(void)
{
    static const struct { uint8_t field, value; } bad[] = { { PEDRALUME_PAGE, 4 }, { PEDRALUME_COLUMN, COLUMN_STOP + 1 } };
    static struct intake n;
    uint8_t chips[CHIPS];
    for (unsigned way = 0; way < 4; way++) {
        unsigned chip = way & 1;
        open_intake(&n);
        fresh_chips(chips);
        chips[CHIP * chip + bad[way >> 1].field] = bad[way >> 1].value;
        CHECK_FEED(pedralume_feed_open(n.feed, FEED, chips, CHIPS), 2, chip);
        check_stopped(&n, 2, chip);
    }
}

/* ---- traces cut anywhere ---- */

/* The prelude in two parts and in three, cut everywhere, with parts of length 0 between. */
static void test_feed_cuts(void)
{
    const struct trace *t = prelude();
    static struct intake n;
    for (size_t first = 0; first <= t->len; first++)
        for (size_t second = first; second <= t->len; second += first % 4 + 1) {
            open_intake(&n);
            take_and_check(&n, t, 0, 0);
            take_and_check(&n, t, 0, first);
            take_and_check(&n, t, first, second);
            take_and_check(&n, t, second, second);
            take_and_check(&n, t, second, t->len);
        }
    CHECK(pedralume_feed_records(n.feed) == 10 && pedralume_feed_compared(n.feed) == 4 && pedralume_feed_differing(n.feed) == 2);
}

/* In steps of 1, 2, 3, 5 and 7 bytes. */
static void test_feed_steps(void)
{
    static const size_t steps[] = { 1, 2, 3, 5, 7 };
    const struct trace *t = prelude();
    static struct intake n;
    for (size_t i = 0; i < sizeof steps / sizeof steps[0]; i++) {
        open_intake(&n);
        for (size_t at = 0; at < t->len; at += steps[i])
            take_and_check(&n, t, at, at + steps[i] < t->len ? at + steps[i] : t->len);
        CHECK_FEED(end(&n), 0, 10);
    }
}

/* The cursor's trace in two parts, cut everywhere. */
static void test_feed_cursor(void)
{
    const struct trace *t = cursor_trace();
    static struct intake n;
    for (size_t cut = 0; cut <= t->len; cut++) {
        open_intake(&n);
        take_and_check(&n, t, 0, cut);
        take_and_check(&n, t, cut, t->len);
        CHECK(pedralume_feed_compared(n.feed) == 3 && pedralume_feed_differing(n.feed) == 0);
        CHECK_FEED(end(&n), 0, CURSOR);
    }
}

/* ---- numbers 4 to 8 and 14 ---- */

/* The prelude, a bad record and two more, in two parts: stopped at the bad one, what comes after it not looked at. */
static void test_feed_refused_at(const struct trace *t, size_t cut, unsigned number)
{
    static struct intake n, want;
    size_t good = t->len - 3 * RECORD, first = cut < good ? cut : good;
    open_intake(&n);
    CHECK_FEED(take(&n, t->bytes, cut), cut < good + RECORD ? 0 : number, cut < good + RECORD ? cut / RECORD : 10);
    memset(n.answers, 0xEE, sizeof n.answers);
    CHECK_FEED(take(&n, t->bytes + cut, t->len - cut), number, 10);
    expect_last_part(&want, t, first, good);
    set_feed_stop(want.feed, 1, number, 10);
    CHECK(same_intake(&n, &want));
    check_stopped(&n, number, 10);
}

static void test_feed_refused(void)
{
    static struct trace t;
    for (size_t i = 0; i < BAD_RECORDS; i++) {
        t.len = 0;
        put_prelude(&t);
        size_t good = t.len;
        put_bad(&t, &bad_records[i]);
        put_write(&t, 0, 0xDD);
        put_record(&t, 0xFF, 0xFF, 0xFF, 0xFF);
        for (size_t cut = good - 5; cut <= good + 5; cut++)
            test_feed_refused_at(&t, cut, bad_records[i].number);
        test_feed_refused_at(&t, 0, bad_records[i].number);
    }
}

/*
 * A column that RAM has not, in two parts, cut anywhere up to its end: the latch stays fresh, as a feed shows that is
 * opened with the chips of the one that is stopped.
 */
static void test_feed_missing_column(unsigned chip)
{
    static struct trace t;
    static struct intake n;
    uint8_t chips[CHIPS];
    t.len = 0;
    put_command(&t, chip, COLUMN_STOP - 1);
    put_read(&t, chip, 0);                                          /* loads 5A and comes to the column stop */
    put_command(&t, chip, COLUMN_STOP);
    put_read(&t, chip, 0x5A);
    for (size_t cut = 0; cut <= 3 * RECORD; cut++) {
        open_intake(&n);
        n.ram[HALF_RAM * chip + COLUMN_STOP - 1] = 0x5A;
        take(&n, t.bytes, cut);
        CHECK_FEED(take(&n, t.bytes + cut, t.len - cut), 14, 2);
        check_stopped(&n, 14, 2);
        CHECK(pedralume_feed_records(n.feed) == 2 && pedralume_feed_field(n.feed, PEDRALUME_FEED_PLACE) == 2);
        CHECK(n.feed[PEDRALUME_FEED_STOPPED] == 1 && n.feed[PEDRALUME_FEED_NUMBER] == PEDRALUME_NO_SUCH_COLUMN);
        memcpy(chips, n.feed, CHIPS);
        CHECK_FEED(pedralume_feed_open(n.feed, FEED, chips, CHIPS), 0, 0);
        CHECK_FEED(take(&n, t.bytes + 3 * RECORD, RECORD), 0, 1);
        CHECK(n.answers[0] == PEDRALUME_KIND_FRESH && n.answers[1] == 0x5A && pedralume_feed_differing(n.feed) == 0);
    }
}

/* ---- numbers 1, 13 and 2, in this order, and what a refused call leaves ---- */

/* An intake that has taken ten records and three bytes of the eleventh, a data write of A5. */
static void busy_intake(struct intake *n, struct trace *t)
{
    *t = *prelude();
    put_write(t, 0, 0xA5);
    open_intake(n);
    CHECK_FEED(take(n, t->bytes, t->len - 1), 0, 10);
}

/* The right part after a refused one: as if that had not been. */
static void check_goes_on(const struct intake *given, const struct trace *t)
{
    static struct intake n;
    n = *given;
    take_and_check(&n, t, t->len - 1, t->len);
}

static void test_part_lengths(void)
{
    static const size_t feed[] = { 0, 24, 47, 49 }, ram[] = { 0, 320, 639, 641 };
    static struct intake n;
    static struct trace t;
    busy_intake(&n, &t);
    const uint8_t *last = t.bytes + t.len - 1;
    for (unsigned i = 0; i < 4; i++) {
        PART_STAYS(&n, last, ((struct lengths){ feed[i], RAM, 1, 2 }), 1, 0);
        PART_STAYS(&n, last, ((struct lengths){ FEED, ram[i], 1, 2 }), 1, 0);
        PART_STAYS(&n, last, ((struct lengths){ FEED, ram[i], 0, 0 }), 1, 0);
        CLOSE_STAYS(&n, feed[i], 1, 0);
    }
    for (size_t len = 0; len < 40; len++)                           /* room for what the part completes */
        if ((len + 3) / 4 > 0)
            PART_STAYS(&n, last, ((struct lengths){ FEED, RAM, len, (len + 3) / 4 * 2 - 1 }), 1, 0);
    PART_STAYS(&n, t.bytes, ((struct lengths){ FEED, RAM, TRACE_MAX + 1, sizeof n.answers }), 1, 0);
    PART_STAYS(&n, t.bytes, ((struct lengths){ FEED, RAM, TRACE_MAX + 4, sizeof n.answers }), 1, 0);
    PART_STAYS(&n, t.bytes, ((struct lengths){ FEED, RAM, TRACE_MAX, ANSWERS - 1 }), 1, 0);
    PART_STAYS(&n, t.bytes, ((struct lengths){ FEED, RAM, 0, 0 }), 0, 10);     /* of length 0: taken */
    check_goes_on(&n, &t);
}

/* One of the feed's bytes with a value that is not allowed there; place as number 2 gives it. */
static const struct bad_byte {
    uint8_t at, value, place;
} bad_bytes[] = {
    { 0, 2, 0 },   { 5, 4, 0 },    { 6, 32, 0 },  { 11, 1, 0 },  { 12, 2, 1 },  { 19, 128, 1 },  { 23, 1, 1 },
    { 7, 81, 0 },  { 7, 127, 0 },  { 8, 81, 0 },  { 8, 127, 0 },  { 8, 128, 0 }, { 19, 81, 1 },  { 19, 127, 1 },
    { 24, 4, 3 },  { 24, 255, 3 }, { 28, 2, 3 },  { 28, 255, 3 }, { 29, 1, 3 }, { 29, 255, 3 },
    { 30, 1, 3 },  { 30, 255, 3 }, { 31, 1, 3 },  { 31, 128, 3 }, { 32, 1, 3 }, { 33, 1, 3 },    { 34, 1, 3 },
    { 35, 128, 3 }, { 40, 11, 3 }, { 41, 1, 3 },  { 43, 1, 3 },   { 44, 5, 3 }, { 45, 1, 3 },    { 47, 1, 3 },
    { 36, 3, 3 },  { 36, 0, 3 },   { 40, 1, 3 },
};

enum { BAD_BYTES = sizeof bad_bytes / sizeof bad_bytes[0] };

/* Number 2 with this place, in part and close; number 1 and 13 come before it, and stopped before all. */
static void check_bad_feed(const struct intake *bad, const struct trace *t, unsigned place)
{
    static struct intake n;
    const uint8_t *last = t->bytes + t->len - 1;
    const struct lengths zero = { FEED, RAM, 0, ANSWERS }, one = { FEED, RAM, 1, ANSWERS };
    PART_STAYS(bad, last, zero, 2, place);
    PART_STAYS(bad, last, one, 2, place);
    CLOSE_STAYS(bad, FEED, 2, place);
    PART_STAYS(bad, last, ((struct lengths){ FEED, RAM - 1, 1, ANSWERS }), 1, 0);
    PART_STAYS(bad, last, ((struct lengths){ FEED, RAM, 4, 1 }), 1, 0);
    n = *bad;
    set_feed_field(n.feed, PEDRALUME_FEED_RECORDS, PEDRALUME_FEED_MAX_RECORDS);
    PART_STAYS(&n, last, ((struct lengths){ FEED, RAM, 4, ANSWERS }), 13, 0);
    PART_STAYS(&n, last, ((struct lengths){ FEED, RAM, 4, 1 }), 1, 0);         /* 1 before 13 */
    set_feed_stop(n.feed, 1, 7, 99);
    check_stopped(&n, 7, 99);
}

static void test_bad_feeds(void)
{
    static struct intake good, bad;
    static struct trace t;
    busy_intake(&good, &t);
    for (size_t i = 0; i < BAD_BYTES; i++) {
        bad = good;
        bad.feed[bad_bytes[i].at] = bad_bytes[i].value;
        check_bad_feed(&bad, &t, bad_bytes[i].place);
        for (size_t j = 0; j < BAD_BYTES; j++) {                    /* left before right before the rest */
            unsigned here = bad_bytes[i].place, there = bad_bytes[j].place;
            if (here == there || bad_bytes[i].at == 36 || bad_bytes[j].at == 36)
                continue;
            bad = good;
            bad.feed[bad_bytes[i].at] = bad_bytes[i].value;
            bad.feed[bad_bytes[j].at] = bad_bytes[j].value;
            PART_STAYS(&bad, t.bytes, ((struct lengths){ FEED, RAM, 0, ANSWERS }), 2, here < there ? here : there);
            CLOSE_STAYS(&bad, FEED, 2, here < there ? here : there);
        }
    }
    check_goes_on(&good, &t);
}

/* A saved column with the mode off. */
static void test_bad_feed_chips(void)
{
    static struct intake n;
    static struct trace t;
    busy_intake(&n, &t);
    n.feed[CHIP + PEDRALUME_SAVED_COLUMN] = 1;
    check_bad_feed(&n, &t, 1);
    n.feed[PEDRALUME_RMW] = 0;
    n.feed[PEDRALUME_SAVED_COLUMN] = 1;
    check_bad_feed(&n, &t, 0);
}

/* In the feed's bytes, each of its columns; where they pass, a part of length 0 is taken, and the close finds three bytes kept over. */
static void test_feed_columns(void)
{
    static struct intake good, n;
    static struct trace t;
    busy_intake(&good, &t);
    for (unsigned way = 0; way < COLUMN_WAYS; way++) {
        n = good;
        struct given_column c = put_column(n.feed, way);
        PART_STAYS(&n, t.bytes, ((struct lengths){ FEED, RAM, 0, ANSWERS }), c.number, c.number == 0 ? 10 : c.place);
        if (c.number != 0)
            CLOSE_STAYS(&n, FEED, c.number, c.place);
        else
            CHECK_FEED(pedralume_feed_close(n.feed, FEED), 3, 10);
    }
}

/* A kept count over 3 counts as it stands for room and for number 13, before number 2. */
static void test_kept_count_over(void)
{
    static struct intake n;
    static struct trace t;
    busy_intake(&n, &t);
    for (unsigned kept = 4; kept < 256; kept++)
        for (size_t len = 0; len < 6; len++) {
            size_t completed = (kept + len) / 4;
            n.feed[PEDRALUME_FEED_KEPT_COUNT] = (uint8_t)kept;
            set_feed_counts(n.feed, 10, 4, 2);
            PART_STAYS(&n, t.bytes, ((struct lengths){ FEED, RAM, len, 2 * completed - 1 }), 1, 0);
            PART_STAYS(&n, t.bytes, ((struct lengths){ FEED, RAM, len, 2 * completed }), 2, 3);
            set_feed_counts(n.feed, (uint32_t)(PEDRALUME_FEED_MAX_RECORDS - completed), 4, 2);
            PART_STAYS(&n, t.bytes, ((struct lengths){ FEED, RAM, len, 2 * completed }), 2, 3);
            set_feed_counts(n.feed, (uint32_t)(PEDRALUME_FEED_MAX_RECORDS - completed + 1), 4, 2);
            PART_STAYS(&n, t.bytes, ((struct lengths){ FEED, RAM, len, 2 * completed }), 13, 0);
            PART_STAYS(&n, t.bytes, ((struct lengths){ FEED, RAM, len, 2 * completed - 1 }), 1, 0);
        }
}

/* ---- counts near their highest ---- */

/* An open intake that has come to these counts. */
static void late_intake(struct intake *n, uint32_t records, uint32_t compared, uint32_t differing)
{
    open_intake(n);
    set_feed_counts(n->feed, records, compared, differing);
}

static void check_counts(const struct intake *n, uint32_t records, uint32_t compared, uint32_t differing)
{
    CHECK(pedralume_feed_records(n->feed) == records && pedralume_feed_compared(n->feed) == compared &&
          pedralume_feed_differing(n->feed) == differing);
}

static void test_most_records(void)
{
    static const uint8_t reads[3 * RECORD] = { 4, 0, 0x61, 0, 4, 1, 0x60, 0, 4, 0, 0x62, 0 };
    const uint32_t most = PEDRALUME_FEED_MAX_RECORDS;
    const struct lengths three = { FEED, RAM, sizeof reads, ANSWERS };
    static struct intake n;
    for (uint32_t room = 0; room < 3; room++) {                     /* one record too many: not one is taken */
        late_intake(&n, most - room, most - room, most - room);
        PART_STAYS(&n, reads, three, 13, 0);
        CHECK_FEED(take(&n, reads, RECORD * room), 0, most);
        check_counts(&n, most, most, most - room + (room > 0));
        PART_STAYS(&n, reads, ((struct lengths){ FEED, RAM, 4, ANSWERS }), 13, 0);
        CHECK_FEED(take(&n, reads, 3), 0, most);                    /* what completes none is taken */
        PART_STAYS(&n, reads + 3, ((struct lengths){ FEED, RAM, 1, ANSWERS }), 13, 0);
        PART_STAYS(&n, reads + 3, ((struct lengths){ FEED, RAM, 0, ANSWERS }), 0, most);
        CHECK_FEED(end(&n), 3, most);
        check_stopped(&n, 3, most);
    }
    late_intake(&n, most - 3, 0, 0);
    CHECK_FEED(take(&n, reads, sizeof reads), 0, most);
    check_counts(&n, most, 3, 2);
    CHECK_FEED(end(&n), 0, most);
    check_stopped(&n, 0, most);
}

/* A refused record counts toward number 13 too, since that is tested before any is looked at. */
static void test_late_refusal(void)
{
    static const uint8_t bytes[2 * RECORD] = { 4, 0, 0x60, 0, 2, 0, 0x80, 0 };
    static struct intake n;
    late_intake(&n, PEDRALUME_FEED_MAX_RECORDS - 1, 7, 7);
    PART_STAYS(&n, bytes, ((struct lengths){ FEED, RAM, sizeof bytes, ANSWERS }), 13, 0);
    CHECK_FEED(take(&n, bytes + RECORD, RECORD), 7, PEDRALUME_FEED_MAX_RECORDS - 1);
    check_stopped(&n, 7, PEDRALUME_FEED_MAX_RECORDS - 1);
    late_intake(&n, PEDRALUME_FEED_MAX_RECORDS - 2, 7, 7);
    CHECK_FEED(take(&n, bytes, sizeof bytes), 7, PEDRALUME_FEED_MAX_RECORDS - 1);
    check_counts(&n, PEDRALUME_FEED_MAX_RECORDS - 1, 8, 7);
}

/* ---- long traces, stopped feeds, the close ---- */

/* Parts of the full 65,536 bytes with bytes kept over; counts over 16 bits; bytes past the answers stay. */
static void test_longest_parts(void)
{
    static struct trace t;
    static struct intake n;
    t.len = 0;
    put_longest(&t);
    open_intake(&n);
    CHECK_FEED(take(&n, t.bytes, 3), 0, 0);
    memcpy(t.bytes + TRACE_MAX, t.bytes, RECORD);
    for (unsigned parts = 1; parts <= 6; parts++) {
        memset(n.answers, 0xEE, sizeof n.answers);
        CHECK_FEED(take(&n, t.bytes + 3, TRACE_MAX), 0, parts * RECORDS_MAX);
        check_counts(&n, parts * RECORDS_MAX, parts * RECORDS_MAX, parts * 16000);
        CHECK(n.answers[0] == 3 && n.answers[ANSWERS - 1] == 0x60 && n.answers[ANSWERS] == 0xEE);
    }
    CHECK(n.feed[PEDRALUME_FEED_KEPT_COUNT] == 3);
    CHECK_FEED(end(&n), 3, 6 * RECORDS_MAX);
}

/* Everything but the stopped byte may be anything. */
static void test_stopped_junk(void)
{
    static struct intake n;
    struct rng g = { 13 };
    for (unsigned i = 0; i < 200; i++) {
        open_intake(&n);
        random_bytes(&g, n.feed, FEED);
        n.feed[PEDRALUME_FEED_STOPPED] = 1;
        check_stopped(&n, n.feed[PEDRALUME_FEED_NUMBER], pedralume_feed_field(n.feed, PEDRALUME_FEED_PLACE));
    }
}

/* The close changes three fields only; a second one, and a part after it, nothing. */
static void test_close(void)
{
    const struct trace *t = prelude();
    static struct intake n, want;
    for (size_t taken = 0; taken <= t->len; taken++) {
        unsigned number = taken % RECORD == 0 ? 0 : 3;
        open_intake(&n);
        CHECK_FEED(take(&n, t->bytes, taken), 0, taken / RECORD);
        want = n;
        set_feed_stop(want.feed, 1, number, (uint32_t)(taken / RECORD));
        CHECK_FEED(end(&n), number, taken / RECORD);
        CHECK(same_intake(&n, &want));
        check_stopped(&n, number, taken / RECORD);
    }
}

/* Kept bytes past the count are not looked at; a part leaves them 0, a close as they are. */
static void test_idle_kept_bytes(void)
{
    const struct trace *t = prelude();
    static struct intake n, closed, want;
    for (size_t kept = 0; kept < 4; kept++) {
        unsigned number = kept == 0 ? 0 : 3;
        open_intake(&n);
        CHECK_FEED(take(&n, t->bytes, 20 + kept), 0, 5);
        memset(n.feed + PEDRALUME_FEED_KEPT + kept, 0xDD, 3 - kept);
        want = closed = n;
        set_feed_stop(want.feed, 1, number, 5);
        CHECK_FEED(end(&closed), number, 5);
        CHECK(same_intake(&closed, &want));
        take_and_check(&n, t, 20 + kept, 20 + kept);
        memset(n.feed + PEDRALUME_FEED_KEPT + kept, 0xDD, 3 - kept);
        take_and_check(&n, t, 20 + kept, t->len);
    }
}

/* A copy of the feed's bytes and RAM goes on as the first does. */
static void test_feed_copy(void)
{
    const struct trace *t = prelude();
    static struct intake n, copy;
    open_intake(&n);
    take_and_check(&n, t, 0, 17);
    copy = n;
    take_and_check(&n, t, 17, t->len);
    take_and_check(&copy, t, 17, 30);
    take_and_check(&copy, t, 30, t->len);
    CHECK(memcmp(copy.feed, n.feed, FEED) == 0 && memcmp(copy.ram, n.ram, RAM) == 0);
}

/* A recorder's loop, as in host/examples/recorder.c, on the printed listing's trace, in parts of this length. */
static size_t loop_listing(char *text, size_t room, struct intake *n, size_t length)
{
    size_t used = 0;
    uint64_t answer = 0;
    for (size_t at = 0; at < sizeof listing_trace && pedralume_number(answer) == PEDRALUME_DONE; at += length) {
        size_t left = sizeof listing_trace - at;
        uint32_t before = pedralume_feed_records(n->feed);
        answer = take(n, listing_trace + at, length < left ? length : left);
        for (uint32_t i = before; i < pedralume_feed_records(n->feed); i++)
            used += (size_t)snprintf(text + used, room - used, "%u %u %02X\n", (unsigned)i, n->answers[2 * (i - before)],
                                     n->answers[2 * (i - before) + 1]);
    }
    answer = end(n);
    return used + (size_t)snprintf(text + used, room - used, "end %u %u %u %u\n", pedralume_number(answer),
                                   (unsigned)pedralume_feed_place(answer), (unsigned)pedralume_feed_compared(n->feed),
                                   (unsigned)pedralume_feed_differing(n->feed));
}

static void test_feed_listing(void)
{
    static struct intake n;
    char text[256];
    for (size_t length = 1; length <= sizeof listing_trace; length++) {
        open_intake(&n);
        CHECK(loop_listing(text, sizeof text, &n, length) < sizeof text);
        CHECK(strcmp(text, listing_text) == 0);
    }
}

int main(void)
{
    test_feed_readers();
    test_opens();
    test_open_columns();
    test_open_lengths();
    test_open_refused();
    test_feed_cuts();
    test_feed_steps();
    test_feed_cursor();
    test_feed_refused();
    test_feed_missing_column(0);
    test_feed_missing_column(1);
    test_part_lengths();
    test_bad_feeds();
    test_bad_feed_chips();
    test_feed_columns();
    test_kept_count_over();
    test_most_records();
    test_late_refusal();
    test_longest_parts();
    test_stopped_junk();
    test_close();
    test_idle_kept_bytes();
    test_feed_copy();
    test_feed_listing();
    return end_of_checks();
}

/*
 * Feeds in two ways. Random feeds: the archive and the plain implementation side by side, every byte
 * lent, guard bytes around it and the answers compared after every call. Any cut: the archive's feed
 * against its own replay on random traces, each cut in several ways. Both are tried over traces of runs too;
 * there the cuts are at every byte around the end of a run, and after every byte.
 *
 *   feeds [seed [count]]
 *
 * Feed or trace i of a seed is the same whatever the count.
 */
#define PROGRAM "feeds"
#include "run_traces.h"

enum { NUMBERS = 15, LONGEST_RAM = 1300, LONGEST_FEED = 100, MOST_RECORDS = 300 };

/* ---- one call on both sides ---- */

enum { OPEN, PART, CLOSE, KINDS };

static const char *const kind_name[KINDS] = { "open", "part", "close" };

/* What is lent: to open the feed's bytes and chips, to part the feed's bytes, RAM, part and answers, to close the feed's bytes. */
enum { LOAN_FEED, LOAN_CHIPS = 1, LOAN_RAM = 1, LOAN_PART = 2, LOAN_ANSWERS = 3, LOANS };

static const size_t loans_of[KINDS] = { 2, 4, 1 };
static const bool constant[KINDS][LOANS] = { { false, true }, { false, false, true, false }, { false } };

/* Answers by call and number; repeats by a stopped feed; number 2 at place 3; bytes of an open feed tried damaged. */
static struct {
    unsigned long given[KINDS][NUMBERS], repeated, place_3, damaged[FEED], records, straddling;
} tally;

/* A call with its buffers, which get what the archive leaves. */
struct call {
    unsigned kind;
    uint8_t *bytes[LOANS];
    size_t len[LOANS];
};

static uint64_t make(unsigned kind, bool plain, struct lent *l)
{
    switch (kind) {
    case OPEN:
        return (plain ? plain_feed_open : pedralume_feed_open)(l[0].bytes, l[0].len, l[1].bytes, l[1].len);
    case PART:
        return (plain ? plain_feed_part : pedralume_feed_part)(l[0].bytes, l[0].len, l[1].bytes, l[1].len,
                                                               l[2].bytes, l[2].len, l[3].bytes, l[3].len);
    default:
        return (plain ? plain_feed_close : pedralume_feed_close)(l[0].bytes, l[0].len);
    }
}

static bool was_stopped(const struct call *c)
{
    return c->kind != OPEN && c->len[LOAN_FEED] == FEED && c->bytes[LOAN_FEED][PEDRALUME_FEED_STOPPED] == 1;
}

/* Stopped, or refused with 1, 13 or a later 2. */
static bool leaves_all(const struct call *c, uint64_t answer)
{
    unsigned number = pedralume_number(answer);
    return was_stopped(c) || number == 1 || number == 13 || (number == 2 && c->kind != OPEN);
}

static void note(const struct call *c, uint64_t answer)
{
    unsigned number = pedralume_number(answer);
    tally.repeated += was_stopped(c);
    if (was_stopped(c))
        return;
    if (number < NUMBERS)
        tally.given[c->kind][number]++;
    tally.place_3 += number == 2 && pedralume_feed_place(answer) == 3;
}

static void check_loan(const struct call *c, unsigned long at, size_t i, const struct lent *archive, const struct lent *plain, bool stays)
{
    const char *name = kind_name[c->kind];
    if (memcmp(archive->bytes, plain->bytes, archive->len) != 0)
        fail(name, at, "bytes differ from the plain implementation's");
    if ((stays || constant[c->kind][i]) && memcmp(archive->bytes, c->bytes[i], archive->len) != 0)
        fail(name, at, "bytes changed but must stay");
    if (!guards_stand(archive) || !guards_stand(plain))
        fail(name, at, "bytes written out of bounds");
}

/* A part: the bytes past the answers to its accepted records stay, and the feed's bytes count what was taken. */
static void check_part(const struct call *c, unsigned long at, const struct lent *l, uint64_t answer)
{
    const uint8_t *before = c->bytes[LOAN_FEED], *after = l[LOAN_FEED].bytes;
    uint32_t records = pedralume_feed_records(after) - pedralume_feed_records(before);
    size_t used = 2 * (size_t)records, bytes = before[PEDRALUME_FEED_KEPT_COUNT] + c->len[LOAN_PART];
    bool done = pedralume_number(answer) == PEDRALUME_DONE;
    if (used > c->len[LOAN_ANSWERS] ||
        memcmp(l[LOAN_ANSWERS].bytes + used, c->bytes[LOAN_ANSWERS] + used, c->len[LOAN_ANSWERS] - used) != 0)
        fail("part", at, "answer bytes changed past the last that is due");
    if (pedralume_feed_place(answer) != pedralume_feed_records(after))
        fail("part", at, "the place is not the records since the opening");
    if (after[PEDRALUME_FEED_KEPT_COUNT] != (done ? bytes % RECORD : 0) || (done && records != bytes / RECORD))
        fail("part", at, "taken and kept bytes are not the part's");
    if (after[PEDRALUME_FEED_STOPPED] != !done)
        fail("part", at, "stopped where it must not be, or not where it must");
    tally.records += records;
    tally.straddling += records > 0 && before[PEDRALUME_FEED_KEPT_COUNT] > 0;
}

static void check_answers(const struct call *c, unsigned long at, uint64_t got, uint64_t want)
{
    const uint8_t *feed = c->bytes[LOAN_FEED];
    uint64_t repeat = feed[PEDRALUME_FEED_NUMBER] + ((uint64_t)pedralume_feed_field(feed, PEDRALUME_FEED_PLACE) << 8);
    if (was_stopped(c) && got != repeat)
        fail(kind_name[c->kind], at, "a stopped feed does not repeat its number and place");
    if (got == want)
        return;
    fail(kind_name[c->kind], at, "answers differ");
    print_feed_answer("archive", got);
    print_feed_answer("plain", want);
    printf("\n");
}

/* The two sides get different guard bytes, so that reading out of bounds tends to show as well. */
static uint64_t contend(const struct call *c, unsigned long at)
{
    struct lent archive[LOANS], plain[LOANS];
    size_t loans = loans_of[c->kind];
    for (size_t i = 0; i < loans; i++) {
        archive[i] = lend(c->bytes[i], c->len[i], 0xA5);
        plain[i] = lend(c->bytes[i], c->len[i], 0x03);
    }
    uint64_t got = make(c->kind, false, archive), want = make(c->kind, true, plain);
    check_answers(c, at, got, want);
    for (size_t i = 0; i < loans; i++)
        check_loan(c, at, i, &archive[i], &plain[i], leaves_all(c, want));
    if (c->kind == PART && !leaves_all(c, want))
        check_part(c, at, archive, got);
    note(c, want);
    for (size_t i = 0; i < loans; i++) {
        if (!constant[c->kind][i] && c->len[i] > 0)
            memcpy(c->bytes[i], archive[i].bytes, c->len[i]);
        free(archive[i].block);
        free(plain[i].block);
    }
    return got;
}

/* ---- random feeds ---- */

/* A feed on its way through a trace. Longer than a call takes, so that wrong lengths can be lent. */
struct session {
    struct rng *g;
    unsigned long at;
    uint8_t feed[LONGEST_FEED], ram[LONGEST_RAM], chips[LONGEST_FEED];
    struct trace *trace;
    size_t next;
};

static uint8_t answers[2 * RECORDS_MAX + 4096];

/* The right length, or a wrong one where it is one of so many. */
static size_t draw_length(struct rng *g, unsigned right, unsigned most, unsigned rarity)
{
    return rarity > 0 && one_in(g, rarity) ? wrong_length(g, right, most) : right;
}

static void open_session(struct session *s, unsigned rarity)
{
    struct call c = { OPEN, { s->feed, s->chips }, { 0 } };
    c.len[LOAN_FEED] = draw_length(s->g, FEED, LONGEST_FEED, rarity);
    c.len[LOAN_CHIPS] = draw_length(s->g, CHIPS, LONGEST_FEED, rarity);
    contend(&c, s->at);
}

static uint64_t close_session(struct session *s, unsigned rarity)
{
    struct call c = { CLOSE, { s->feed }, { draw_length(s->g, FEED, LONGEST_FEED, rarity) } };
    return contend(&c, s->at);
}

/* Gives the next bytes of the trace; of a too long part, any. Where lengths may be wrong, the room may be too short as well. */
static uint64_t give_part(struct session *s, size_t len, unsigned rarity)
{
    size_t exact = 2 * ((s->feed[PEDRALUME_FEED_KEPT_COUNT] + len) / RECORD);
    struct call c = { PART, { s->feed, s->ram, s->trace->bytes + (len > TRACE_MAX ? 0 : s->next), answers }, { 0 } };
    c.len[LOAN_FEED] = draw_length(s->g, FEED, LONGEST_FEED, rarity);
    c.len[LOAN_RAM] = draw_length(s->g, RAM, LONGEST_RAM, rarity);
    c.len[LOAN_PART] = len;
    c.len[LOAN_ANSWERS] = rarity > 0 ? draw_answers_length(s->g, exact) : exact + below(s->g, 3);
    random_bytes(s->g, answers, c.len[LOAN_ANSWERS] < 64 ? c.len[LOAN_ANSWERS] : 64);
    return contend(&c, s->at);
}

/* From none to all of what is left, mostly a few bytes. */
static size_t draw_part(struct rng *g, size_t left)
{
    unsigned roll = below(g, 16);
    size_t len = roll < 3 ? 0 : roll < 10 ? between(g, 1, 9) : roll < 15 ? between(g, 10, 200) : left;
    return len < left ? len : left;
}

/* Puts one byte somewhere in the 48, mostly just over what a field may hold. */
static void damage_byte(struct session *s)
{
    static const uint8_t value[] = { 0, 1, 2, 3, 4, 32, COLUMN_STOP, COLUMN_STOP + 1, 128, 255 };
    unsigned i = below(s->g, FEED);
    if (s->feed[PEDRALUME_FEED_STOPPED] != 1)
        tally.damaged[i]++;
    s->feed[i] = one_in(s->g, 3) ? random_byte(s->g) : one_in(s->g, 3) ? (uint8_t)(s->feed[i] + 1) : value[below(s->g, sizeof value)];
}

/* Counts next to the limit, in order or not. */
static void push_counts(struct session *s)
{
    uint32_t records = (uint32_t)PEDRALUME_FEED_MAX_RECORDS - below(s->g, 10);
    uint32_t compared = one_in(s->g, 2) ? below(s->g, 10) : records - below(s->g, 3) + one_in(s->g, 4);
    uint32_t differing = one_in(s->g, 2) ? 0 : compared - below(s->g, 3) + one_in(s->g, 4);
    set_feed_counts(s->feed, records, compared, differing);
}

/* A feed's bytes to try a call with: damaged in one to three bytes, late, stopped over junk, or junk throughout. */
static void spoil_feed(struct session *s)
{
    switch (below(s->g, 6)) {
    case 0:
        push_counts(s);
        break;
    case 1:
        random_bytes(s->g, s->feed, FEED);
        s->feed[PEDRALUME_FEED_STOPPED] = 1;
        break;
    case 2:
        random_bytes(s->g, s->feed, FEED);
        break;
    case 3:
        break;
    default:
        for (unsigned bytes = one_in(s->g, 2) ? 1 : between(s->g, 2, 3); bytes > 0; bytes--)
            damage_byte(s);
    }
}

/* A call that may be wrong in every way, on a copy: the feed goes on as if it had not been. */
static void try_odd_call(const struct session *s)
{
    struct session odd = *s;
    spoil_feed(&odd);
    if (one_in(odd.g, 3))
        close_session(&odd, 12);
    else if (one_in(odd.g, 60))
        give_part(&odd, TRACE_MAX + (one_in(odd.g, 2) ? between(odd.g, 1, 4) : between(odd.g, 5, 4000)), 0);
    else
        give_part(&odd, draw_part(odd.g, odd.trace->len - odd.next), 12);
    if (one_in(odd.g, 4))
        give_part(&odd, 0, 0);
}

static void draw_session(struct session *s)
{
    random_bytes(s->g, s->feed, sizeof s->feed);
    random_bytes(s->g, s->ram, sizeof s->ram);
    random_bytes(s->g, s->chips, sizeof s->chips);
    draw_chips(s->g, s->chips);
    draw_trace(s->trace, s->g, s->chips, s->ram, one_in(s->g, 100) ? RECORDS_MAX : between(s->g, 0, MOST_RECORDS));
    if (one_in(s->g, 20))
        spoil_chips(s->g, s->chips);
    s->next = 0;
}

static void draw_session_of_runs(struct session *s)
{
    struct course course;
    random_bytes(s->g, s->ram, sizeof s->ram);
    draw_run_chips(s->g, s->chips);
    begin_course(&course, s->trace, s->chips, s->ram);
    put_runs(&course, s->g, s->at);
    s->next = 0;
}

/* Opens, gives the trace in random parts with odd calls between, closes; a stopped feed is given a few parts more. */
static void run_session(struct session *s)
{
    if (one_in(s->g, 4))
        open_session(s, 2);
    open_session(s, 0);
    for (unsigned patience = 3; s->next < s->trace->len && patience > 0;) {
        size_t len = draw_part(s->g, s->trace->len - s->next);
        if (one_in(s->g, 4))
            try_odd_call(s);
        if (pedralume_number(give_part(s, len, 0)) == PEDRALUME_DONE)
            s->next += len;
        else
            patience--;
    }
    try_odd_call(s);
    for (unsigned i = 0; i < 2; i++) {
        close_session(s, 0);
        give_part(s, i, 0);
    }
}

static void report_feeds(unsigned long count)
{
    static const bool due[KINDS][NUMBERS] = {
        { 1, 1, 1 }, { 1, 1, 1, 0, 1, 1, 1, 1, 1, 0, 0, 0, 0, 1, 1 }, { 1, 1, 1, 1 }
    };
    printf("feeds: %lu feeds, %lu records accepted, %lu parts ended a record begun before; calls by number:\n", count,
           tally.records, tally.straddling);
    for (unsigned kind = 0; kind < KINDS; kind++) {
        printf("feeds: %s", kind_name[kind]);
        for (unsigned number = 0; number < NUMBERS; number++)
            if (due[kind][number]) {
                printf(" %u:%lu", number, tally.given[kind][number]);
                must_occur(tally.given[kind][number], kind_name[kind], number);
            }
        printf("\n");
    }
    printf("feeds: %lu repeated by a stopped feed, %lu with number 2 at place 3\n", tally.repeated, tally.place_3);
    must_occur(tally.repeated, "a stopped feed", 0);
    must_occur(tally.place_3, "number 2, place", 3);
    for (unsigned i = 0; i < FEED; i++)
        must_occur(tally.damaged[i], "damage of byte", i);
}

static void compare_feeds(uint64_t seed, unsigned long count)
{
    static struct trace trace;
    for (unsigned long at = 0; at < count; at++) {
        struct rng g = rng_for(seed, 5, at);
        struct session s = { .g = &g, .at = at, .trace = &trace };
        draw_session(&s);
        run_session(&s);
    }
    report_feeds(count);
}

static void compare_feeds_of_runs(uint64_t seed, unsigned long count)
{
    static struct trace trace;
    unsigned long before = tally.records;
    for (unsigned long at = 0; at < count; at++) {
        struct rng g = rng_for(seed, 11, at);
        struct session s = { .g = &g, .at = at, .trace = &trace };
        draw_session_of_runs(&s);
        run_session(&s);
    }
    printf("feeds: %lu feeds of runs, %lu records accepted\n", count, tally.records - before);
}

/* ---- any cut ---- */

enum { BLOCKS = 5, LONGEST = BLOCKS * TRACE_MAX, PAST = 64 };

/* Chips, RAM, answers and counts before or after a trace; number and place after it. */
struct outcome {
    uint8_t chips[CHIPS], ram[RAM];
    uint64_t number, place, compared, differing;
    uint8_t answers[2 * (LONGEST / RECORD) + PAST];
};

static struct {
    unsigned long traces, refused, cuts, parts, empty, longer;
} cuts;

static uint8_t whole[LONGEST];
static struct outcome start, wanted, got;

/* Replays whole records, at most 65,536 bytes at a time, until one is refused or there are no more. */
static void replay_whole(struct outcome *o, size_t len)
{
    for (size_t at = 0; at < len && o->number == PEDRALUME_DONE; at += TRACE_MAX) {
        size_t piece = len - at < TRACE_MAX ? len - at : TRACE_MAX;
        uint64_t answer = pedralume_replay(o->chips, CHIPS, o->ram, RAM, whole + at, piece,
                                           o->answers + at / RECORD * 2, piece / RECORD * 2);
        o->number = pedralume_number(answer);
        o->place += pedralume_place(answer);
        o->compared += pedralume_compared(answer);
        o->differing += pedralume_differing(answer);
    }
}

/* Fills `whole` with blocks of records, each accepted after the ones before; the last may have a bad record. */
static size_t draw_whole(struct rng *g, size_t records, unsigned blocks)
{
    static struct trace t;
    static struct outcome state;
    state = start;
    size_t len = 0;
    for (unsigned block = 0; block < blocks; block++) {
        t.len = 0;
        put_valid(&t, g, state.chips, records);
        if (block + 1 == blocks && records > 0 && one_in(g, 3))
            damage_trace(&t, g);
        settle_reads(&t, g, state.chips, state.ram);
        memcpy(whole + len, t.bytes, t.len);
        len += t.len;
        plain_replay(state.chips, CHIPS, state.ram, RAM, t.bytes, t.len, answers, sizeof answers);
    }
    return len;
}

/* Ways to cut: byte by byte, around the length of a record, by small pieces, by large ones, not at all. */
static size_t draw_cut(struct rng *g, unsigned way, size_t left)
{
    static const unsigned most[] = { 1, 3, 5, 9, 300, 9000, TRACE_MAX };
    unsigned longest = most[way % (sizeof most / sizeof most[0])];
    size_t len = one_in(g, 8) ? 0 : way == 0 || one_in(g, 8) ? longest : between(g, 0, longest);
    return len < left ? len : left;
}

/* The length of the first part, and that of the others. Where the latter is 0, all lengths are drawn in this way. */
struct cutting {
    size_t first, others;
    unsigned way;
};

static size_t cut_at(struct rng *g, const struct cutting *c, size_t next, size_t left)
{
    size_t len = next == 0 ? c->first : c->others;
    if (c->others == 0)
        return draw_cut(g, c->way, left);
    return len < left ? len : left;
}

/* One part, lent exact room or more behind the answers so far, at another place than the part before. */
static uint64_t feed_cut(struct rng *g, uint8_t **feed, struct outcome *o, const uint8_t *part, size_t len)
{
    static uint8_t homes[2][FEED];
    uint8_t *home = *feed == homes[0] ? homes[1] : homes[0];
    memcpy(home, *feed, FEED);
    memset(*feed, 0xDD, FEED);
    *feed = home;
    size_t used = 2 * (size_t)pedralume_feed_records(home);
    size_t room = 2 * ((home[PEDRALUME_FEED_KEPT_COUNT] + len) / RECORD);
    cuts.parts++;
    cuts.empty += len == 0;
    return pedralume_feed_part(home, FEED, o->ram, RAM, part, len, o->answers + used, room + (one_in(g, 3) ? below(g, 60) : 0));
}

/* The whole trace through a feed: parts after a refused record are given too, and must all say the same. */
static void feed_whole(struct rng *g, struct outcome *o, size_t len, const struct cutting *cutting, unsigned long at)
{
    uint8_t opened[FEED], *feed = opened;
    uint64_t answer = pedralume_feed_open(opened, FEED, o->chips, CHIPS), refusal = 0;
    if (answer != 0)
        fail("cut", at, "the feed is not opened");
    for (size_t next = 0, part; next < len; next += part) {
        part = cut_at(g, cutting, next, len - next);
        answer = feed_cut(g, &feed, o, whole + next, part);
        if (refusal != 0 && answer != refusal)
            fail("cut", at, "a stopped feed does not repeat its number and place");
        if (pedralume_number(answer) != PEDRALUME_DONE)
            refusal = answer;
    }
    if (pedralume_feed_close(feed, FEED) != (len == 0 ? 0 : answer))
        fail("cut", at, "the close does not give the last number and place");
    memcpy(o->chips, feed, CHIPS);
    o->number = pedralume_number(answer);
    o->place = pedralume_feed_place(answer);
    o->compared = pedralume_feed_compared(feed);
    o->differing = pedralume_feed_differing(feed);
}

/* The feed must end where replay does, with the same answers and no other of the outcome's first bytes written. */
static void try_cut(struct rng *g, size_t len, const struct cutting *cutting, size_t bytes, unsigned long at)
{
    memcpy(&got, &start, bytes);
    feed_whole(g, &got, len, cutting, at);
    cuts.cuts++;
    if (memcmp(&got, &wanted, bytes) != 0)
        fail("cut", at, "the feed ends elsewhere than the replay");
}

static void replay_start(size_t len, size_t bytes)
{
    memcpy(&wanted, &start, bytes);
    replay_whole(&wanted, len);
    cuts.traces++;
    cuts.refused += wanted.number != PEDRALUME_DONE;
    cuts.longer += len > TRACE_MAX;
}

/* One trace, cut in so many ways. */
static void try_cuts(struct rng *g, size_t records, unsigned blocks, unsigned ways, unsigned long at)
{
    draw_chips(g, start.chips);
    random_bytes(g, start.ram, RAM);
    size_t len = draw_whole(g, records, blocks);
    replay_start(len, sizeof start);
    for (unsigned way = 0; way < ways; way++)
        try_cut(g, len, &(struct cutting){ .way = blocks > 1 ? way + 4 : way }, sizeof start, at);
}

static void compare_cuts(uint64_t seed, unsigned long count)
{
    for (unsigned long at = 0; at < count; at++) {
        struct rng g = rng_for(seed, 6, at);
        if (at % 100 == 50)
            try_cuts(&g, RECORDS_MAX - below(&g, 3), between(&g, 1, BLOCKS), 3, at);
        else
            try_cuts(&g, between(&g, 0, MOST_RECORDS), 1, 5, at);
    }
    printf("feeds: %lu traces (%lu refused at a record, %lu over 65,536 bytes), each as its replay at every one of %lu cuts"
           " into %lu parts, %lu of them empty\n",
           cuts.traces, cuts.refused, cuts.longer, cuts.cuts, cuts.parts, cuts.empty);
    must_occur(cuts.refused, "a trace refused at a record", 0);
    must_occur(cuts.longer, "a trace over 65,536 bytes", 0);
}

/* ---- runs, cut at every byte ---- */

/* Cuts within a run, by its kind and by how many bytes of a record stand before the cut. */
static unsigned long within[RUN_KINDS][RECORD];

static void note_cut(size_t byte)
{
    size_t i = byte / RECORD;
    if (i == 0 || i >= wanted.place || memcmp(whole + RECORD * (i - 1), whole + RECORD * i, 2) != 0)
        return;
    for (unsigned kind = 0; kind < RUN_KINDS; kind++)
        within[kind][byte % RECORD] += whole[RECORD * i] == lines_of[kind];
}

/* Feeds a trace of runs in parts of one byte, and in two parts, cut at each byte from six records before a run's end to six after it. */
static void try_run_cuts(struct rng *g, unsigned long at)
{
    static struct trace t;
    struct course c;
    draw_run_chips(g, start.chips);
    random_bytes(g, start.ram, RAM);
    begin_course(&c, &t, start.chips, start.ram);
    put_runs(&c, g, at);
    memcpy(whole, t.bytes, t.len);
    size_t end = c.ends[below(g, (unsigned)c.runs)], around = 6 * RECORD;
    size_t bytes = offsetof(struct outcome, answers) + 2 * (t.len / RECORD) + PAST;
    replay_start(t.len, bytes);
    try_cut(g, t.len, &(struct cutting){ .first = 1, .others = 1 }, bytes, at);
    for (size_t first = end > around ? end - around : 1; first < t.len && first <= end + around; first++) {
        try_cut(g, t.len, &(struct cutting){ .first = first, .others = TRACE_MAX }, bytes, at);
        note_cut(first);
    }
}

static void compare_run_cuts(uint64_t seed, unsigned long count)
{
    memset(&cuts, 0, sizeof cuts);
    for (unsigned long at = 0; at < count; at++) {
        struct rng g = rng_for(seed, 12, at);
        try_run_cuts(&g, at);
    }
    printf("feeds: %lu traces of runs (%lu refused at a record), each as its replay at every one of %lu cuts into %lu parts\n",
           cuts.traces, cuts.refused, cuts.cuts, cuts.parts);
    must_occur(cuts.refused, "a trace of runs refused at a record", 0);
    for (unsigned i = 0; i < RUN_KINDS * RECORD; i++)
        must_occur(within[i / RECORD][i % RECORD], "a cut within a run", i);
}

int main(int argc, char **argv)
{
    uint64_t seed = argc > 1 ? strtoull(argv[1], NULL, 0) : 1520;
    unsigned long count = argc > 2 ? strtoul(argv[2], NULL, 0) : 8000;
    printf("feeds: seed %llu\n", (unsigned long long)seed);
    memset(start.answers, 0xEE, sizeof start.answers);
    compare_feeds(seed, count);
    compare_cuts(seed, count);
    compare_feeds_of_runs(seed, count / 10);
    compare_run_cuts(seed, count / 16);
    report_runs();
    printf("feeds: %u failed\n", failures);
    return failures == 0 ? EXIT_SUCCESS : EXIT_FAILURE;
}

/*
 * Demand 3, tried through the C calls alone: random lists of repaints, plain and sparing, refused ones among them,
 * each stopped after any whole cycle, and the panel looked at after every cycle. From the same state the two kinds
 * are also held to each other, and the number of cycles to document 02's rule.
 *
 *   lists [seed [count]]
 *
 * List i of a seed is the same whatever the count.
 */
#include "support.h"

enum { MOST_REQUESTS = 8, MOST_FAILURES = 20, SETTINGS = 16 };

struct panel {
    uint8_t chips[CHIPS], ram[RAM];
};

/* Where a repaint of n cycles is stopped: at 0, 1, n - 2, n - 1, n, with more asked for than there are, or at a share of them. */
enum { AT_0, AT_1, TWO_LEFT, ONE_LEFT, WHOLE, BEYOND, SHARE, STOPS };

/* One repaint of a list: what it is lent, and how many of its cycles are sent. */
struct request {
    bool sparing;
    size_t picture_len, output_len;
    unsigned stop, share;                   /* the share in cycles of 254 */
    uint8_t picture[LONGEST_PICTURE], output[LONGEST_OUTPUT];
};

/* What has been tried of either kind. A setting is both chips' start line and direction when a repaint begins. */
struct tally {
    unsigned long repaints, refused, short_picture, long_picture, short_output;
    unsigned long stop[STOPS], setting[SETTINGS], cycles[REPAINT_RECORDS + 1];
};

static struct tally tallies[2];
static unsigned long repaints, cycles;

/* Where the run is, for messages. */
static unsigned long list;
static size_t sent;

static unsigned failures;

static void expect(bool good, const char *what)
{
    if (good)
        return;
    printf("lists: list %lu, repaint %lu of all, after %zu cycles: %s\n", list, repaints, sent, what);
    if (++failures < MOST_FAILURES)
        return;
    printf("lists: too many failures, stopped\n");
    exit(EXIT_FAILURE);
}

/* ---- the panel ---- */

static bool is_ready(const uint8_t *chip)
{
    return chip[PEDRALUME_DISPLAY] == 1 && chip[PEDRALUME_STATIC] == 0 && chip[PEDRALUME_DUTY] == 0 &&
           (chip[PEDRALUME_START_LINE] == 0 || chip[PEDRALUME_START_LINE] == 16) && chip[PEDRALUME_RMW] == 0;
}

static void take_frame(const struct panel *p, uint8_t *frame)
{
    uint64_t answer = pedralume_frame(p->chips, CHIPS, p->ram, RAM, frame, FRAME);
    expect(answer == answer_of(0, FRAME, 0, 0), "frame refused");
}

/* Gives one record to the chips, as a replay of one. A data write of a sparing repaint changes the byte that it goes to. */
static void send_record(struct panel *p, const uint8_t *record, bool sparing)
{
    const struct panel before = *p;
    uint8_t answer[2] = { 0xEE, 0xEE };
    uint64_t got = pedralume_replay(p->chips, CHIPS, p->ram, RAM, record, RECORD, answer, sizeof answer);
    sent++;
    cycles++;
    expect(got == answer_of(0, 1, 0, 0), "cycle not accepted");
    expect(answer[0] == PEDRALUME_KIND_WRITE && answer[1] == 0, "cycle is no write");
    expect(!sparing || record[0] != PEDRALUME_DATA_WRITE || memcmp(p->ram, before.ram, RAM) != 0, "a byte is written that was there");
}

static bool same_half(const uint8_t *a, const uint8_t *b, unsigned chip)
{
    for (unsigned r = 0; r < 4; r++) {
        size_t at = WIDTH * r + HALF_WIDTH * chip;
        if (memcmp(a + at, b + at, HALF_WIDTH) != 0)
            return false;
    }
    return true;
}

/* The left half turns with the last record but one of n, the right one with the last. Refused, it has none and both stay. */
static void check_panel(const struct panel *p, size_t n, const uint8_t *before, const uint8_t *wanted)
{
    uint8_t now[FRAME];
    take_frame(p, now);
    expect(same_half(now, sent + 1 < n || n == 0 ? before : wanted, 0), "the left half shows what it must not");
    expect(same_half(now, sent < n || n == 0 ? before : wanted, 1), "the right half shows what it must not");
    expect(is_ready(p->chips) && is_ready(p->chips + CHIP), "a chip is not ready");
}

/* ---- one repaint ---- */

static bool right_sizes(const struct request *r)
{
    return r->picture_len == PICTURE && r->output_len >= REPAINT;
}

static uint64_t paint(const struct panel *p, struct request *r)
{
    return r->sparing ? pedralume_sparing_repaint(p->chips, CHIPS, p->ram, RAM, r->picture, r->picture_len, r->output, r->output_len)
                      : pedralume_repaint(p->chips, CHIPS, r->picture, r->picture_len, r->output, r->output_len);
}

/* The cycles of a sparing repaint: for each page with a difference one, for each run one, for each differing byte one; and two. */
static size_t count_by_rule(const struct panel *p, const uint8_t *picture)
{
    size_t count = 2;
    for (unsigned page = 0; page < 4; page++) {
        size_t runs = 0, bytes = 0;
        bool before = false;
        for (unsigned i = HALF_WIDTH * page; i < HALF_WIDTH * (page + 1); i++) {
            bool differs = p->ram[hidden_place(p->chips, i)] != picture[i];
            runs += differs && !before;
            bytes += differs;
            before = differs;
        }
        count += (runs > 0) + runs + bytes;
    }
    return count;
}

static size_t cycles_due(const struct panel *p, const struct request *r)
{
    return r->sparing ? count_by_rule(p, r->picture) : REPAINT_RECORDS;
}

/* Gives the number of its cycles, 0 where it is refused. Sizes alone decide that; it writes its records and nothing else. */
static size_t call_repaint(const struct panel *p, struct request *r)
{
    const struct panel panel = *p;
    const struct request given = *r;
    bool right = right_sizes(r);
    size_t n = right ? cycles_due(p, r) : 0, written = RECORD * n;
    uint64_t answer = paint(p, r);
    expect(n <= REPAINT_RECORDS, "the rule asks for more than 254 cycles");
    expect(answer == answer_of(right ? 0 : 1, n, 0, 0), right ? "repaint not accepted with the cycles due" : "repaint not refused with number 1");
    expect(memcmp(p, &panel, sizeof panel) == 0, "the repaint changed chips or RAM");
    expect(memcmp(r->picture, given.picture, sizeof given.picture) == 0, "the repaint changed the picture");
    expect(memcmp(r->output + written, given.output + written, sizeof given.output - written) == 0,
           "the repaint wrote where it must not");
    return pedralume_number(answer) == PEDRALUME_DONE ? n : 0;
}

static size_t stop_of(const struct request *r, size_t n)
{
    const size_t at[STOPS] = { 0, 1, n - 2, n - 1, n, n + 1 + r->share, n * r->share / REPAINT_RECORDS };
    return at[r->stop] < n ? at[r->stop] : n;
}

/* A stop beyond the last cycle is one after it. */
static void run_request(struct panel *p, struct request *r)
{
    uint8_t before[FRAME], wanted[FRAME] = { 0 };
    memcpy(wanted, r->picture, PICTURE);
    sent = 0;
    repaints++;
    take_frame(p, before);
    size_t n = call_repaint(p, r), stop = n > 0 ? stop_of(r, n) : 0;
    check_panel(p, n, before, wanted);
    while (sent < stop) {
        send_record(p, r->output + RECORD * sent, r->sparing);
        check_panel(p, n, before, wanted);
    }
    tallies[r->sparing].cycles[n]++;
}

/* ---- the two kinds, from one state and with one picture ---- */

/* Sends so many cycles of the kind's repaint, made for this panel, in one replay. */
static void send_kind(struct panel *p, bool sparing, const struct request *r, size_t left_out)
{
    static uint8_t answers[2 * REPAINT_RECORDS];
    struct request own = *r;
    own.sparing = sparing;
    size_t count = pedralume_place(paint(p, &own)) - left_out;
    uint64_t got = pedralume_replay(p->chips, CHIPS, p->ram, RAM, own.output, RECORD * count, answers, sizeof answers);
    expect(got == answer_of(0, count, 0, 0), "a repaint is not accepted whole");
}

/* Sent whole they end in the same RAM and show the same. Where all but the last two cycles of either are sent, two are left. */
static void hold_to_each_other(const struct panel *p, const struct request *r)
{
    struct panel end[2];
    uint8_t shown[2][FRAME];
    for (unsigned sparing = 0; sparing < 2; sparing++) {
        struct panel quiet = *p;
        struct request again = *r;
        again.sparing = true;
        send_kind(&quiet, sparing, r, 2);
        expect(paint(&quiet, &again) == answer_of(0, 2, 0, 0), "a sparing repaint of what the hidden pages hold has not two cycles");
        end[sparing] = *p;
        send_kind(&end[sparing], sparing, r, 0);
        take_frame(&end[sparing], shown[sparing]);
    }
    expect(memcmp(end[0].ram, end[1].ram, RAM) == 0, "the two repaints end in different RAM");
    expect(memcmp(shown[0], shown[1], FRAME) == 0, "the two repaints show different frames");
}

/* ---- lists ---- */

/* Makes the picture what the hidden pages hold, but for some bytes. */
static void draw_near(struct rng *g, const struct panel *p, uint8_t *picture)
{
    uint8_t differences[PICTURE];
    draw_differences(g, differences);
    for (unsigned i = 0; i < PICTURE; i++)
        picture[i] = p->ram[hidden_place(p->chips, i)] ^ differences[i];
}

/* Half of the stops are where something begins, turns or ends. */
static void draw_request(struct rng *g, const struct panel *p, struct request *r)
{
    r->sparing = one_in(g, 2);
    r->picture_len = draw_picture_length(g);
    r->output_len = draw_output_length(g);
    r->stop = one_in(g, 2) ? below(g, SHARE) : SHARE;
    r->share = between(g, 0, REPAINT_RECORDS);
    random_bytes(g, r->picture, sizeof r->picture);
    random_bytes(g, r->output, sizeof r->output);
    if (!one_in(g, 4))
        draw_near(g, p, r->picture);
}

static void count_request(const struct panel *p, const struct request *r)
{
    struct tally *t = &tallies[r->sparing];
    unsigned setting = 0;
    for (unsigned chip = 0; chip < 2; chip++) {
        const uint8_t *c = p->chips + CHIP * chip;
        setting = 4 * setting + (c[PEDRALUME_START_LINE] == 16 ? 2u : 0u) + c[PEDRALUME_ADC];
    }
    t->repaints++;
    t->short_picture += r->picture_len < PICTURE;
    t->long_picture += r->picture_len > PICTURE;
    t->short_output += r->output_len < REPAINT;
    t->refused += !right_sizes(r);
    if (right_sizes(r)) {
        t->stop[r->stop]++;
        t->setting[setting]++;
    }
}

/* From wherever the list has come, one more repaint that is sent whole must show its picture. */
static void run_list(struct rng *g)
{
    struct panel p;
    struct request r;
    draw_ready_chip(g, p.chips);
    draw_ready_chip(g, p.chips + CHIP);
    random_bytes(g, p.ram, RAM);
    for (unsigned left = between(g, 1, MOST_REQUESTS); left > 0; left--) {
        draw_request(g, &p, &r);
        count_request(&p, &r);
        if (right_sizes(&r))
            hold_to_each_other(&p, &r);
        run_request(&p, &r);
    }
    draw_request(g, &p, &r);
    r.picture_len = PICTURE;
    r.output_len = REPAINT;
    r.stop = WHOLE;
    run_request(&p, &r);
}

/* Lists that never come to a case would show little: that is a failure too. */
static void must_occur(unsigned long times, const char *kind, const char *what)
{
    if (times > 0)
        return;
    printf("lists: %s, %s: never tried, draw more lists\n", kind, what);
    failures++;
}

static void check_tally(const char *kind, const struct tally *t)
{
    static const char *const stops[STOPS] = {
        "a stop at 0", "a stop at 1", "a stop two before the end", "a stop one before the end", "a stop at the end", "a stop beyond the end",
        "a stop anywhere"
    };
    unsigned settings = 0;
    for (unsigned stop = 0; stop < STOPS; stop++)
        must_occur(t->stop[stop], kind, stops[stop]);
    must_occur(t->short_picture, kind, "a picture too short");
    must_occur(t->long_picture, kind, "a picture too long");
    must_occur(t->short_output, kind, "an output buffer too short");
    for (unsigned setting = 0; setting < SETTINGS; setting++)
        settings += t->setting[setting] > 0;
    must_occur(settings == SETTINGS, kind, "one of the start lines and directions of both chips");
}

/* How many of the sparing repaints had 2 cycles, 254, and numbers between. */
static void report_cycles(const unsigned long count[REPAINT_RECORDS + 1])
{
    unsigned long others = 0;
    for (unsigned n = 3; n < REPAINT_RECORDS; n++)
        others += count[n];
    must_occur(count[2], "sparing", "2 cycles");
    must_occur(count[REPAINT_RECORDS], "sparing", "254 cycles");
    must_occur(others, "sparing", "3 to 253 cycles");
    printf("lists: sparing repaints with 2 cycles: %lu, with 254: %lu, with 3 to 253: %lu\n", count[2], count[REPAINT_RECORDS], others);
}

static void report_stops(const char *kind, const struct tally *t)
{
    printf("lists: %s: %lu in the lists, %lu refused, stops at 0: %lu, n - 2: %lu, n - 1: %lu, n: %lu, beyond n: %lu, anywhere: %lu\n", kind,
           t->repaints, t->refused, t->stop[AT_0], t->stop[TWO_LEFT], t->stop[ONE_LEFT], t->stop[WHOLE], t->stop[BEYOND], t->stop[SHARE]);
}

int main(int argc, char **argv)
{
    static const char *const kinds[2] = { "repaint", "sparing repaint" };
    uint64_t seed = argc > 1 ? strtoull(argv[1], NULL, 0) : 1520;
    unsigned long count = argc > 2 ? strtoul(argv[2], NULL, 0) : 1000;
    for (list = 0; list < count; list++) {
        struct rng g = rng_for(seed, 4, list);
        run_list(&g);
    }
    for (unsigned kind = 0; kind < 2; kind++) {
        check_tally(kinds[kind], &tallies[kind]);
        report_stops(kinds[kind], &tallies[kind]);
    }
    report_cycles(tallies[true].cycles);
    printf("lists: seed %llu, %lu lists, %lu repaints, %lu cycles; %u failed\n", (unsigned long long)seed, count, repaints, cycles, failures);
    return failures == 0 ? EXIT_SUCCESS : EXIT_FAILURE;
}

/*
 * This test holds the archive's replay to the table of numbers, the checked examples and the cycles of document
 * 01, and to the stale latch and the refused columns of document 02. What is expected is written out here and in
 * rig.h from the documents, not taken from any implementation.
 */
#define PROGRAM "replay"
#include "rig.h"

/* ---- one replay ---- */

static bool same_rig(const struct rig *a, const struct rig *b)
{
    return memcmp(a, b, sizeof *a) == 0;
}

static uint64_t replay(struct rig *r, const struct trace *t)
{
    return replay_bytes(r, t->bytes, t->len);
}

static uint64_t replay_record(struct rig *r, unsigned lines, unsigned chip, unsigned data, unsigned last)
{
    static struct trace t;
    t.len = 0;
    put_record(&t, lines, chip, data, last);
    return replay(r, &t);
}

static uint64_t command(struct rig *r, unsigned chip, unsigned byte)
{
    return replay_record(r, PEDRALUME_COMMAND_WRITE, chip, byte, 0);
}

static uint64_t write_data(struct rig *r, unsigned chip, unsigned byte)
{
    return replay_record(r, PEDRALUME_DATA_WRITE, chip, byte, 0);
}

/* Kind * 256 + byte of one read. */
static unsigned read_by(struct rig *r, unsigned lines, unsigned chip)
{
    CHECK(pedralume_number(replay_record(r, lines, chip, 0, 0)) == 0);
    return r->answers[0] * 256u + r->answers[1];
}

static unsigned read_data(struct rig *r, unsigned chip)
{
    return read_by(r, PEDRALUME_DATA_READ, chip);
}

static unsigned read_status(struct rig *r, unsigned chip)
{
    return read_by(r, PEDRALUME_STATUS_READ, chip);
}

/* ---- answers taken apart ---- */

static void test_apart(void)
{
    uint64_t answer = 8u + 256u * 16384u + (((uint64_t)16383u) << 24) + (((uint64_t)16382u) << 40);
    CHECK(pedralume_number(answer) == PEDRALUME_COLUMN_IN_RMW);
    CHECK(pedralume_place(answer) == 16384);
    CHECK(pedralume_compared(answer) == 16383);
    CHECK(pedralume_differing(answer) == 16382);
}

/* ---- the printed listing ---- */

static void print_listing(char *text, size_t room, const uint8_t *answers, uint64_t end)
{
    size_t used = 0;
    for (unsigned i = 0; i < pedralume_place(end); i++)
        used += (size_t)snprintf(text + used, room - used, "%u %u %02X\n", i, answers[2 * i], answers[2 * i + 1]);
    snprintf(text + used, room - used, "end %u %u %u %u\n", pedralume_number(end), pedralume_place(end),
             pedralume_compared(end), pedralume_differing(end));
}

static void test_listing(void)
{
    static const uint8_t left[CHIP] = { 0, 0, 1, 0, 0, 1, 0, 80, 0, 0, 0xA5, 0 };
    static struct rig r, want;
    char text[256];
    fresh_rig(&r);
    want = r;
    uint64_t answer = replay_bytes(&r, listing_trace, sizeof listing_trace);
    CHECK_ANSWER(answer, 0, 9, 2, 1);
    print_listing(text, sizeof text, r.answers, answer);
    CHECK(strcmp(text, listing_text) == 0);

    memcpy(want.chips, left, CHIP);
    want.ram[80 + 79] = 0xA5;
    memcpy(want.answers, (const uint8_t[18]){ 0, 0, 0, 0, 0, 0, 0, 0, 0, 0, 2, 0, 1, 0xA5, 2, 0xA5, 3, 0x60 }, 18);
    CHECK(same_rig(&r, &want));
}

/* ---- checked examples that replay alone can show ---- */

static void test_column_examples(void)
{
    static struct rig r, before;
    fresh_rig(&r);                                                  /* P1 */
    CHECK_ANSWER(command(&r, 0, 79), 0, 1, 0, 0);
    CHECK_ANSWER(write_data(&r, 0, 0xA5), 0, 1, 0, 0);
    CHECK(r.ram[79] == 0xA5 && r.chips[PEDRALUME_COLUMN] == 80);
    before = r;                                                     /* P2 */
    CHECK_ANSWER(write_data(&r, 0, 0x3C), 0, 1, 0, 0);
    CHECK(same_rig(&r, &before));
    fresh_rig(&r);                                                  /* P3, by C-15 */
    before = r;
    CHECK_ANSWER(command(&r, 0, 100), 14, 0, 0, 0);
    CHECK(same_rig(&r, &before));
}

static void test_mode_examples(void)
{
    static struct rig r, before;
    fresh_rig(&r);                                                  /* P4 */
    CHECK(read_status(&r, 0) == 0x360);
    command(&r, 0, 0xAF);
    command(&r, 0, 0xA1);
    CHECK(read_status(&r, 0) == 0x300);
    CHECK(read_status(&r, 1) == 0x360);

    fresh_rig(&r);                                                  /* P6 */
    r.ram[10] = 0x41;
    command(&r, 0, 10);
    command(&r, 0, 0xE0);
    CHECK(read_data(&r, 0) == 0x200);
    CHECK(read_data(&r, 0) == 0x141);
    CHECK(r.chips[PEDRALUME_COLUMN] == 10 && r.chips[PEDRALUME_LATCH_MARK] == 1);
    write_data(&r, 0, 0x42);
    CHECK(r.ram[10] == 0x42 && r.chips[PEDRALUME_COLUMN] == 11);
    CHECK(r.chips[PEDRALUME_LATCH_MARK] == 0 && r.chips[PEDRALUME_LATCH_BYTE] == 0x41);
    command(&r, 0, 0xEE);
    CHECK(r.chips[PEDRALUME_COLUMN] == 10 && r.chips[PEDRALUME_SAVED_COLUMN] == 0);
    CHECK(r.chips[PEDRALUME_RMW] == 0 && r.chips[PEDRALUME_LATCH_MARK] == 0);

    fresh_rig(&r);                                                  /* P7 */
    command(&r, 0, 0xE0);
    before = r;
    CHECK_ANSWER(command(&r, 0, 0x05), 8, 0, 0, 0);
    CHECK(same_rig(&r, &before));
}

static void test_byte_examples(void)
{
    static const uint8_t none[] = { 0x80, 0xAC, 0xBC, 0xE3 };
    static struct rig r;
    fresh_rig(&r);                                                  /* P10 */
    for (size_t i = 0; i < sizeof none; i++)
        CHECK_ANSWER(command(&r, 0, none[i]), 7, 0, 0, 0);
    CHECK_ANSWER(command(&r, 0, 0xDF), 0, 1, 0, 0);
    CHECK(r.chips[PEDRALUME_START_LINE] == 31);
    CHECK_ANSWER(replay_record(&r, 0, 0, 0, 0), 6, 0, 0, 0);        /* P11 */
    CHECK_ANSWER(replay_record(&r, 6, 0, 0, 0), 6, 0, 0, 0);
    CHECK_ANSWER(replay_record(&r, 8, 2, 0, 0), 4, 0, 0, 0);
}

/* ---- every cycle ---- */

/* Does the command to the chip's bytes as the table of commands, C-12 and C-15 say; gives the number. */
static unsigned expect_command(uint8_t *chip, unsigned byte)
{
    static const struct { uint8_t first, last, field; } set[] = {
        { 0xA0, 0xA1, PEDRALUME_ADC },     { 0xA4, 0xA5, PEDRALUME_STATIC }, { 0xA8, 0xA9, PEDRALUME_DUTY },
        { 0xAE, 0xAF, PEDRALUME_DISPLAY }, { 0xB8, 0xBB, PEDRALUME_PAGE },   { 0xC0, 0xDF, PEDRALUME_START_LINE },
    };
    bool rmw = chip[PEDRALUME_RMW] == 1;
    for (size_t i = 0; i < sizeof set / sizeof set[0]; i++)
        if (byte >= set[i].first && byte <= set[i].last)
            chip[set[i].field] = (uint8_t)(byte - set[i].first);
    if (byte <= 0x7F && rmw)
        return 8;
    if (byte >= 0x50 && byte <= 0x7F)
        return 14;
    if (byte <= 0x4F) {
        chip[PEDRALUME_COLUMN] = (uint8_t)byte;
        chip[PEDRALUME_LATCH_MARK] = 0;
    } else if (byte >= 0xB8 && byte <= 0xBB) {
        chip[PEDRALUME_LATCH_MARK] = 0;
    } else if (byte == 0xE0 && !rmw) {
        chip[PEDRALUME_RMW] = 1;
        chip[PEDRALUME_SAVED_COLUMN] = chip[PEDRALUME_COLUMN];
    } else if (byte == 0xE2) {
        chip[PEDRALUME_START_LINE] = chip[PEDRALUME_COLUMN] = chip[PEDRALUME_PAGE] = chip[PEDRALUME_LATCH_MARK] = 0;
    } else if (byte == 0xEE && rmw) {
        chip[PEDRALUME_COLUMN] = chip[PEDRALUME_SAVED_COLUMN];
        chip[PEDRALUME_SAVED_COLUMN] = chip[PEDRALUME_RMW] = chip[PEDRALUME_LATCH_MARK] = 0;
    }
    return is_command(byte) ? 0 : 7;
}

/* Of the 175 commands either chip takes 127, in read-modify-write 47. */
static void test_all_commands(void)
{
    static struct rig r, want;
    unsigned commands = 0, taken[2] = { 0, 0 };
    for (unsigned byte = 0; byte < 256; byte++) {
        commands += is_command(byte);
        for (unsigned way = 0; way < 4; way++) {
            unsigned chip = way % 2;
            busy_rig(&r, way / 2 == 1);
            want = r;
            unsigned number = expect_command(want.chips + CHIP * chip, byte);
            if (number == 0)
                want.answers[0] = want.answers[1] = 0;
            CHECK_ANSWER(command(&r, chip, byte), number, number == 0, 0, 0);
            CHECK(same_rig(&r, &want));
            taken[way / 2] += number == 0;
        }
    }
    CHECK(commands == 175 && taken[0] == 2 * 127 && taken[1] == 2 * 47);
}

/* A busy rig with this cell addressed, latch fresh or stale. */
static uint8_t *address(struct rig *r, unsigned chip, unsigned page, unsigned column, bool rmw, bool fresh)
{
    busy_rig(r, rmw);
    uint8_t *c = r->chips + CHIP * chip;
    c[PEDRALUME_PAGE] = (uint8_t)page;
    c[PEDRALUME_COLUMN] = (uint8_t)column;
    c[PEDRALUME_LATCH_MARK] = fresh;
    return c;
}

/* Every data write leaves the latch stale with its byte (C-12). Counting reaches the column stop and stays there. */
static void test_write_at(unsigned chip, unsigned page, unsigned column, bool rmw, bool fresh)
{
    static struct rig r, want;
    address(&r, chip, page, column, rmw, fresh);
    uint8_t *c = address(&want, chip, page, column, rmw, false);
    want.answers[0] = want.answers[1] = 0;
    if (column < COLUMN_STOP) {
        want.ram[HALF_RAM * chip + 80 * page + column] = 0x96;
        c[PEDRALUME_COLUMN] = (uint8_t)(column + 1);
    }
    CHECK_ANSWER(write_data(&r, chip, 0x96), 0, 1, 0, 0);
    CHECK(same_rig(&r, &want));
}

static void test_read_at(unsigned chip, unsigned page, unsigned column, bool rmw, bool fresh)
{
    static struct rig r, want;
    address(&r, chip, page, column, rmw, fresh);
    uint8_t *c = address(&want, chip, page, column, rmw, fresh);
    want.answers[0] = fresh ? 1 : 2;
    want.answers[1] = 0x5C;
    c[PEDRALUME_LATCH_MARK] = column < COLUMN_STOP;
    if (column < COLUMN_STOP) {
        c[PEDRALUME_LATCH_BYTE] = want.ram[HALF_RAM * chip + 80 * page + column];
        c[PEDRALUME_COLUMN] = (uint8_t)(column + !rmw);
    }
    CHECK_ANSWER(replay_record(&r, PEDRALUME_DATA_READ, chip, 0x5D, 0), 0, 1, fresh, fresh);
    CHECK(same_rig(&r, &want));
}

static void test_all_cells(void)
{
    for (unsigned way = 0; way < 8; way++)
        for (unsigned page = 0; page < 4; page++)
            for (unsigned column = 0; column <= COLUMN_STOP; column += way == 0 || column >= 75 ? 1 : 5) {
                test_write_at(way & 1, page, column, way & 2, way & 4);
                test_read_at(way & 1, page, column, way & 2, way & 4);
            }
}

static void test_all_status(void)
{
    static struct rig r, want;
    for (unsigned way = 0; way < 8; way++) {
        unsigned chip = way & 1, display = way >> 1 & 1, reverse = way >> 2 & 1;
        busy_rig(&r, true);
        r.chips[CHIP * chip + PEDRALUME_DISPLAY] = (uint8_t)display;
        r.chips[CHIP * chip + PEDRALUME_ADC] = (uint8_t)reverse;
        want = r;
        want.answers[0] = 3;
        want.answers[1] = (uint8_t)((reverse ? 0 : 0x40) + (display ? 0 : 0x20));
        CHECK_ANSWER(replay_record(&r, PEDRALUME_STATUS_READ, chip, want.answers[1], 0), 0, 1, 1, 0);
        CHECK(same_rig(&r, &want));
    }
}

/* ---- columns that RAM has not (C-15) ---- */

/* Refused, and nothing changes: the latch, which was fresh, still is, as the next data read shows. */
static void test_missing_column(unsigned chip, unsigned byte, bool rmw)
{
    static struct rig r, before;
    busy_rig(&r, rmw);
    before = r;
    CHECK_ANSWER(command(&r, chip, byte), rmw ? 8 : 14, 0, 0, 0);
    CHECK(same_rig(&r, &before));
    CHECK(read_data(&r, chip) == 0x15C);
}

static void test_missing_columns(void)
{
    for (unsigned way = 0; way < 4; way++)
        for (unsigned byte = 0x50; byte <= 0x7F; byte++)
            test_missing_column(way & 1, byte, way & 2);
}

/* To one chip, each with the column and the saved column after it: counting reaches 80 and stays, and E0 and EE keep it. */
static const struct { uint8_t lines, data, column, saved; } counting[] = {
    { 2, 79, 79, 0 },    { 3, 0x11, 80, 0 },  { 3, 0x22, 80, 0 },  { 5, 0x00, 80, 0 },
    { 2, 79, 79, 0 },    { 5, 0x00, 80, 0 },  { 5, 0x11, 80, 0 },  { 3, 0x33, 80, 0 },
    { 2, 0xE0, 80, 80 }, { 3, 0x44, 80, 80 }, { 5, 0x00, 80, 80 }, { 2, 0xE0, 80, 80 }, { 2, 0xEE, 80, 0 }, { 2, 0xEE, 80, 0 },
    { 2, 78, 78, 0 },    { 2, 0xE0, 78, 78 }, { 3, 0x55, 79, 78 }, { 3, 0x66, 80, 78 }, { 3, 0x77, 80, 78 }, { 2, 0xEE, 78, 0 },
};

static void test_column_stop(unsigned chip)
{
    static struct rig r;
    const uint8_t *c = r.chips + CHIP * chip, *ram = r.ram + HALF_RAM * chip;
    fresh_rig(&r);
    for (size_t i = 0; i < sizeof counting / sizeof counting[0]; i++) {
        CHECK(pedralume_number(replay_record(&r, counting[i].lines, chip, counting[i].data, 0)) == 0);
        CHECK(c[PEDRALUME_COLUMN] == counting[i].column && c[PEDRALUME_SAVED_COLUMN] == counting[i].saved);
    }
    CHECK(ram[78] == 0x55 && ram[79] == 0x66 && ram[80] == 0);
}

/* ---- a cursor's cell read back (C-12) ---- */

static void test_cursor(void)
{
    static const uint8_t left[CHIP] = { 0, 0, 1, 0, 0, 1, 0, 80, 0, 0, 0x43, 0 };
    static struct rig r, want;
    fresh_rig(&r);
    want = r;
    CHECK_ANSWER(replay(&r, cursor_trace()), 0, CURSOR, 3, 0);
    memcpy(want.chips, left, CHIP);
    want.ram[80 + 9] = 0xBE;
    want.ram[80 + 10] = 0x42;
    want.ram[80 + 79] = 0x43;
    for (size_t i = 0; i < CURSOR; i++) {
        want.answers[2 * i] = cursor[i].kind;
        want.answers[2 * i + 1] = cursor[i].byte;
    }
    CHECK(same_rig(&r, &want));
}

/* ---- numbers 4 to 8 and 14 ---- */

/* The prelude leaves the left latch fresh. */
static void test_refused_after_prelude(const struct bad_record *bad)
{
    static struct trace t;
    static struct rig r, want;
    t.len = 0;
    put_prelude(&t);
    fresh_rig(&want);
    CHECK_ANSWER(replay(&want, &t), 0, 10, 4, 2);
    put_bad(&t, bad);
    put_write(&t, 0, 0xDD);
    put_status(&t, 0, 0);
    fresh_rig(&r);
    CHECK_ANSWER(replay(&r, &t), bad->number, 10, 4, 2);
    CHECK(same_rig(&r, &want));
}

/* In a busy rig both latches are fresh. */
static void test_refused_at_once(const struct bad_record *bad)
{
    static struct rig r, want;
    busy_rig(&r, true);
    r.chips[CHIP + PEDRALUME_RMW] = r.chips[CHIP + PEDRALUME_SAVED_COLUMN] = 0;
    want = r;
    CHECK_ANSWER(replay_record(&r, bad->lines, bad->chip, bad->data, bad->last), bad->number, 0, 0, 0);
    CHECK(same_rig(&r, &want));
}

static void test_refused_records(void)
{
    for (size_t i = 0; i < BAD_RECORDS; i++) {
        test_refused_after_prelude(&bad_records[i]);
        test_refused_at_once(&bad_records[i]);
    }
}

/* The first refused record ends the replay, whatever the numbers of later ones. */
static void test_first_refusal_wins(void)
{
    static struct trace t;
    static struct rig r;
    t.len = 0;
    put_command(&t, 0, 0xE0);
    put_command(&t, 0, 0x05);
    put_record(&t, 8, 0, 0, 0);
    fresh_rig(&r);
    CHECK_ANSWER(replay(&r, &t), 8, 1, 0, 0);
    t.bytes[RECORD + 1] = 1;
    t.bytes[RECORD + 2] = 100;
    fresh_rig(&r);
    CHECK_ANSWER(replay(&r, &t), 14, 1, 0, 0);
}

/* ---- numbers 1 to 3 ---- */

struct lengths {
    size_t chips, ram, trace, answers;
};

static uint64_t replay_lengths(struct rig *r, const struct trace *t, struct lengths len)
{
    return pedralume_replay(r->chips, len.chips, r->ram, len.ram, t->bytes, len.trace, r->answers, len.answers);
}

/* Refused with this number and place, and nothing changes. */
static void test_stays(const struct rig *given, const struct trace *t, struct lengths len, unsigned number, size_t place)
{
    static struct rig r;
    r = *given;
    CHECK_ANSWER(replay_lengths(&r, t, len), number, place, 0, 0);
    CHECK(same_rig(&r, given));
}

static void test_bad_lengths(void)
{
    static const size_t chips[] = { 0, 12, 23, 25, 36 }, ram[] = { 0, 320, 639, 641 }, answers[] = { 0, 1, 18, 19 };
    static const size_t trace[] = { TRACE_MAX + 1, TRACE_MAX + 2, TRACE_MAX + 4, TRACE_MAX + 400 };
    const struct trace *t = prelude();
    static struct rig r;
    fresh_rig(&r);
    for (size_t i = 0; i < sizeof chips / sizeof chips[0]; i++)
        test_stays(&r, t, (struct lengths){ chips[i], RAM, t->len, ANSWERS }, 1, 0);
    for (size_t i = 0; i < sizeof ram / sizeof ram[0]; i++)
        test_stays(&r, t, (struct lengths){ CHIPS, ram[i], t->len, ANSWERS }, 1, 0);
    for (size_t i = 0; i < sizeof answers / sizeof answers[0]; i++)
        test_stays(&r, t, (struct lengths){ CHIPS, RAM, t->len, answers[i] }, 1, 0);
    for (size_t i = 0; i < sizeof trace / sizeof trace[0]; i++)
        test_stays(&r, t, (struct lengths){ CHIPS, RAM, trace[i], ANSWERS + SLACK }, 1, 0);
    r.chips[CHIP + PEDRALUME_ZERO] = 1;                             /* 1 before 2 and 3 */
    test_stays(&r, t, (struct lengths){ CHIPS, RAM - 1, t->len - 1, ANSWERS }, 1, 0);
    test_stays(&r, t, (struct lengths){ CHIPS, RAM, t->len + 3, 19 }, 1, 0);
}

/* The bytes of one chip with one field out of range: number 2 with the chip as place. */
static void test_bad_field(unsigned chip, unsigned field, unsigned value)
{
    const struct trace *t = prelude();
    static struct rig r;
    const struct lengths len = { CHIPS, RAM, t->len, ANSWERS };
    busy_rig(&r, true);
    r.chips[CHIP * chip + field] = (uint8_t)value;
    test_stays(&r, t, len, 2, chip);
    test_stays(&r, t, (struct lengths){ CHIPS, RAM, t->len - 1, ANSWERS }, 2, chip);    /* 2 before 3 */
    test_stays(&r, t, (struct lengths){ CHIPS, RAM, 0, 0 }, 2, chip);
}

/* The field's highest value passes. */
static void test_field_limit(unsigned chip, unsigned field)
{
    static const struct trace empty = { 0, { 0 } };
    static struct rig r;
    busy_rig(&r, true);
    r.chips[CHIP * chip + field] = field_limit[field];
    test_stays(&r, &empty, (struct lengths){ CHIPS, RAM, 0, 0 }, 0, 0);
}

static void test_bad_chips(void)
{
    for (unsigned chip = 0; chip < 2; chip++)
        for (unsigned field = 0; field < CHIP; field++) {
            test_field_limit(chip, field);
            if (field == PEDRALUME_LATCH_BYTE)
                continue;
            test_bad_field(chip, field, field_limit[field] + 1u);
            test_bad_field(chip, field, 255);
        }
    static struct rig r;
    const struct trace *t = prelude();
    const struct lengths len = { CHIPS, RAM, t->len, ANSWERS };
    for (unsigned chip = 0; chip < 2; chip++) {                     /* saved column with the mode off */
        fresh_rig(&r);
        r.chips[CHIP * chip + PEDRALUME_SAVED_COLUMN] = 1;
        test_stays(&r, t, len, 2, chip);
    }
    r.chips[PEDRALUME_COLUMN] = COLUMN_STOP + 1;                    /* both: left before right */
    test_stays(&r, t, len, 2, 0);
}

static void test_given_columns(void)
{
    static const struct trace empty = { 0, { 0 } };
    static struct rig r;
    for (unsigned way = 0; way < COLUMN_WAYS; way++) {
        fresh_rig(&r);
        struct given_column c = put_column(r.chips, way);
        test_stays(&r, &empty, (struct lengths){ CHIPS, RAM, 0, 0 }, c.number, c.place);
    }
}

static void test_cut_traces(void)
{
    static struct trace t;
    static struct rig r;
    t = *prelude();
    fresh_rig(&r);
    for (size_t len = 0; len <= t.len; len++)
        if (len % RECORD != 0)
            test_stays(&r, &t, (struct lengths){ CHIPS, RAM, len, len / RECORD * 2 }, 3, len / RECORD);
    test_stays(&r, &t, (struct lengths){ CHIPS, RAM, TRACE_MAX - 1, ANSWERS }, 3, RECORDS_MAX - 1);
    t.bytes[0] = 0xFF;                                              /* 3 before 4 */
    test_stays(&r, &t, (struct lengths){ CHIPS, RAM, 7, ANSWERS }, 3, 1);
}

/* ---- number 0 ---- */

static void test_empty_trace(void)
{
    static const struct trace t = { 0, { 0 } };
    static struct rig r;
    for (unsigned rmw = 0; rmw < 2; rmw++) {
        busy_rig(&r, rmw == 1);
        test_stays(&r, &t, (struct lengths){ CHIPS, RAM, 0, 0 }, 0, 0);
        test_stays(&r, &t, (struct lengths){ CHIPS, RAM, 0, ANSWERS }, 0, 0);
    }
}

/* Two bytes a record are enough; a longer buffer keeps its tail. */
static void test_exact_answers(void)
{
    const struct trace *t = prelude();
    static struct rig r, want;
    fresh_rig(&r);
    fresh_rig(&want);
    CHECK_ANSWER(replay_lengths(&r, t, (struct lengths){ CHIPS, RAM, t->len, 20 }), 0, 10, 4, 2);
    CHECK_ANSWER(replay_lengths(&want, t, (struct lengths){ CHIPS, RAM, t->len, ANSWERS }), 0, 10, 4, 2);
    CHECK(same_rig(&r, &want));
    fresh_rig(&want);
    CHECK(memcmp(r.answers + 20, want.answers + 20, sizeof r.answers - 20) == 0);
}

static void test_longest_trace(void)
{
    static struct trace t;
    static struct rig r;
    t.len = 0;
    put_longest(&t);
    fresh_rig(&r);
    CHECK_ANSWER(replay_lengths(&r, &t, (struct lengths){ CHIPS, RAM, TRACE_MAX, ANSWERS }), 0, RECORDS_MAX, RECORDS_MAX, 16000);
    CHECK(r.answers[ANSWERS - 2] == 3 && r.answers[ANSWERS - 1] == 0x60 && r.answers[ANSWERS] == 0xEE);
    t.bytes[TRACE_MAX - 1] = 1;
    CHECK_ANSWER(replay(&r, &t), 4, RECORDS_MAX - 1, RECORDS_MAX - 1, 16000);
}

/* One chip's cycles leave the other chip and its RAM alone. */
static void test_chips_apart(void)
{
    static struct trace both, one;
    static struct rig r, alone;
    for (unsigned chip = 0; chip < 2; chip++) {
        both.len = one.len = 0;
        for (unsigned i = 0; i < 200; i++) {
            unsigned lines = i % 3 == 0 ? PEDRALUME_DATA_READ : PEDRALUME_DATA_WRITE;
            put_record(&both, lines, chip, i, 0);
            put_record(&one, lines, chip, i, 0);
            put_command(&both, 1 - chip, 0xC0 + i % 32);
        }
        fresh_rig(&r);
        fresh_rig(&alone);
        replay(&r, &both);
        replay(&alone, &one);
        CHECK(memcmp(r.chips + CHIP * chip, alone.chips + CHIP * chip, CHIP) == 0);
        CHECK(memcmp(r.ram, alone.ram, RAM) == 0);
        CHECK(r.chips[CHIP * (1 - chip) + PEDRALUME_START_LINE] == 199 % 32);
    }
}

int main(void)
{
    test_apart();
    test_listing();
    test_column_examples();
    test_mode_examples();
    test_byte_examples();
    test_all_commands();
    test_all_cells();
    test_all_status();
    test_missing_columns();
    test_column_stop(0);
    test_column_stop(1);
    test_cursor();
    test_refused_records();
    test_first_refusal_wins();
    test_bad_lengths();
    test_bad_chips();
    test_given_columns();
    test_cut_traces();
    test_empty_trace();
    test_exact_answers();
    test_longest_trace();
    test_chips_apart();
    return end_of_checks();
}

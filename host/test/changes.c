/*
 * This test holds the archive's changes to C-14 of document 02: which records are listed, every number of the
 * call, and what stays at each. What is expected is written out here and in rig.h from the documents, or found by
 * the archive's replay of one record at a time and document 01's pixels.
 */
#define PROGRAM "changes"
#include "rig.h"

enum { MOST_LISTED = 64, ROOM = MOST_LISTED * ENTRY };

/* ---- what the call is lent ---- */

struct view {
    uint8_t chips[CHIPS + SLACK];
    uint8_t ram[RAM + SLACK];
    uint8_t entries[ROOM + SLACK];
};

static bool same_view(const struct view *a, const struct view *b)
{
    return memcmp(a, b, sizeof *a) == 0;
}

static void fresh_view(struct view *v)
{
    memset(v, 0xEE, sizeof *v);
    fresh_chips(v->chips);
    memset(v->ram, 0, RAM);
}

/* Both displays on, over RAM that is dark. */
static void dark_view(struct view *v)
{
    fresh_view(v);
    shown_chips(v->chips);
}

/* The same over random RAM. */
static void lit_view(struct view *v)
{
    struct rng g = { 14 };
    dark_view(v);
    random_bytes(&g, v->ram, RAM);
}

struct lengths {
    size_t chips, ram, trace, entries;
};

static uint64_t list_lengths(struct view *v, const struct trace *t, struct lengths len)
{
    return pedralume_changes(v->chips, len.chips, v->ram, len.ram, t->bytes, len.trace, v->entries, len.entries);
}

static uint64_t list(struct view *v, const struct trace *t, size_t room)
{
    return list_lengths(v, t, (struct lengths){ CHIPS, RAM, t->len, room });
}

/* Refused with this number and place, and nothing changes. */
static void stays_by(const struct view *given, const struct trace *t, struct lengths len, unsigned number, size_t place, int line)
{
    struct view v = *given;
    check_answer(list_lengths(&v, t, len), answer_of(number, place, 0, 0), __FILE__, line);
    check(same_view(&v, given), __FILE__, line, "every buffer is as it came");
}

#define STAYS(given, t, chips, ram, trace, entries, number, place) \
    stays_by((given), (t), (struct lengths){ (chips), (ram), (trace), (entries) }, (number), (place), __LINE__)

/* ---- what is due ---- */

struct change {
    unsigned record, left, right;
};

static void put_entry(uint8_t *at, struct change c)
{
    const uint8_t bytes[ENTRY] = {
        (uint8_t)c.record, (uint8_t)(c.record >> 8), (uint8_t)(c.record >> 16), (uint8_t)(c.record >> 24),
        (uint8_t)c.left,   (uint8_t)(c.left >> 8),   (uint8_t)c.right,          (uint8_t)(c.right >> 8),
    };
    memcpy(at, bytes, ENTRY);
}

/* Done with room enough: the entries due, and nothing else of what is lent is changed. */
static void done_by(const struct view *given, const struct trace *t, const struct change *due, size_t count, size_t room,
                    int line)
{
    struct view v = *given, want = *given;
    for (size_t i = 0; i < count; i++)
        put_entry(want.entries + ENTRY * i, due[i]);
    check_answer(list(&v, t, room), answer_of(0, count, 0, 0), __FILE__, line);
    check(same_view(&v, &want), __FILE__, line, "the entries are those due, and all else is as it came");
}

/* At exact room and more; then 15 with less, down to none. */
static void listed_by(const struct view *given, const struct trace *t, const struct change *due, size_t count, int line)
{
    size_t exact = ENTRY * count;
    const size_t more[] = { 0, 1, ENTRY - 1, ENTRY, 2 * ENTRY + 3 }, less[] = { 1, ENTRY - 1, ENTRY, ENTRY + 1 };
    for (size_t i = 0; i < sizeof more / sizeof more[0]; i++)
        done_by(given, t, due, count, exact + more[i], line);
    for (size_t i = 0; i < sizeof less / sizeof less[0]; i++)
        if (less[i] <= exact)
            stays_by(given, t, (struct lengths){ CHIPS, RAM, t->len, exact - less[i] }, 15, count, line);
    if (count > 0)
        stays_by(given, t, (struct lengths){ CHIPS, RAM, t->len, 0 }, 15, count, line);
}

#define LISTED(given, t, due, count) listed_by((given), (t), (due), (count), __LINE__)

/* One record to a chip: listed with so many pixels of that chip's half, or at 0 not at all. */
static void record_by(const struct view *given, unsigned lines, unsigned chip, unsigned data, unsigned pixels, int line)
{
    static struct trace t;
    const struct change due = { 0, chip == 0 ? pixels : 0, chip == 0 ? 0 : pixels };
    t.len = 0;
    put_record(&t, lines, chip, data, 0);
    listed_by(given, &t, &due, pixels > 0, line);
}

#define COMMAND(given, chip, byte, pixels) record_by((given), PEDRALUME_COMMAND_WRITE, (chip), (byte), (pixels), __LINE__)
#define WRITE(given, chip, byte, pixels) record_by((given), PEDRALUME_DATA_WRITE, (chip), (byte), (pixels), __LINE__)

/* Pixels of a half that differ between two states. */
static unsigned differing_pixels(const struct view *a, const struct view *b, unsigned chip)
{
    unsigned count = 0;
    for (unsigned x = HALF_WIDTH * chip; x < HALF_WIDTH * (chip + 1); x++)
        for (unsigned row = 0; row < 32; row++)
            count += expect_pixel(a->chips, a->ram, x, row) != expect_pixel(b->chips, b->ram, x, row);
    return count;
}

/* What is due for a trace that is accepted, found by replays of one record. */
static size_t expect_changes(const struct view *given, const struct trace *t, struct change *due)
{
    struct view before = *given, after = *given;
    size_t count = 0;
    for (size_t at = 0; at < t->len; at += RECORD) {
        uint8_t answer[2];
        CHECK(pedralume_number(pedralume_replay(after.chips, CHIPS, after.ram, RAM, t->bytes + at, RECORD, answer, 2)) == 0);
        struct change c = { (unsigned)(at / RECORD), differing_pixels(&before, &after, 0), differing_pixels(&before, &after, 1) };
        if (c.left + c.right > 0)
            due[count++] = c;
        before = after;
    }
    return count;
}

/* ---- the example of FORMATS.md and of host/examples/changes.c ---- */

static const uint8_t seen[6 * PEDRALUME_RECORD_BYTES] = {
    PEDRALUME_COMMAND_WRITE, 0, 0xAF, 0,
    PEDRALUME_DATA_WRITE,    0, 0xA5, 0,
    PEDRALUME_STATUS_READ,   0, 0x40, 0,
    PEDRALUME_DATA_WRITE,    1, 0xFF, 0,
    PEDRALUME_COMMAND_WRITE, 1, 0xAF, 0,
    PEDRALUME_COMMAND_WRITE, 0, 0xA5, 0
};

static const uint8_t seen_entries[3 * PEDRALUME_ENTRY_BYTES] = {
    0x01, 0x00, 0x00, 0x00, 0x04, 0x00, 0x00, 0x00,
    0x04, 0x00, 0x00, 0x00, 0x00, 0x00, 0x08, 0x00,
    0x05, 0x00, 0x00, 0x00, 0x9C, 0x07, 0x00, 0x00
};

static void test_written_example(void)
{
    static const uint8_t fresh[PEDRALUME_CHIPS_BYTES] = { PEDRALUME_FRESH_CHIP, PEDRALUME_FRESH_CHIP };
    static const uint8_t empty[PEDRALUME_RAM_BYTES] = { 0 };
    uint8_t entries[6 * PEDRALUME_ENTRY_BYTES], stay[sizeof entries - sizeof seen_entries];
    char text[64];
    size_t used = 0;
    memset(entries, 0xEE, sizeof entries);
    memset(stay, 0xEE, sizeof stay);
    uint64_t answer = pedralume_changes(fresh, sizeof fresh, empty, sizeof empty, seen, sizeof seen, entries, sizeof entries);
    CHECK(answer == 768);
    CHECK_ANSWER(answer, PEDRALUME_DONE, 3, 0, 0);
    CHECK(memcmp(entries, seen_entries, sizeof seen_entries) == 0);
    CHECK(memcmp(entries + sizeof seen_entries, stay, sizeof stay) == 0);
    for (unsigned i = 0; i < pedralume_place(answer); i++) {
        const uint8_t *entry = entries + PEDRALUME_ENTRY_BYTES * i;
        used += (size_t)snprintf(text + used, sizeof text - used, "%u %u %u\n", (unsigned)pedralume_entry_record(entry),
                                 pedralume_entry_left(entry), pedralume_entry_right(entry));
    }
    CHECK(strcmp(text, "1 4 0\n4 0 8\n5 1948 0\n") == 0);
}

/* Each of the readers takes its own bytes, lowest first. */
static void test_entry_readers(void)
{
    static const uint8_t entry[ENTRY] = { 0x01, 0x23, 0x45, 0x67, 0x89, 0xAB, 0xCD, 0xEF };
    CHECK(pedralume_entry_record(entry) == 0x67452301u);
    CHECK(pedralume_entry_left(entry) == 0xAB89u);
    CHECK(pedralume_entry_right(entry) == 0xEFCDu);
}

/* ---- which records are listed ---- */

/* To one chip whose display is on over RAM with four bytes FF, each with the pixels that change. */
static const struct { uint8_t lines, data; uint16_t pixels; } switches[] = {
    { 2, 0xAE, 16 },                        /* dark: page 0 column 0, page 3 column 60; columns 61 and 79 are not shown */
    { 2, 0xAE, 0 },
    { 3, 0x0F, 0 },                         /* to page 0 column 0, unseen */
    { 2, 0xAF, 12 },
    { 2, 0xAF, 0 },
    { 2, 0xA5, HALF_PIXELS - 12 },
    { 2, 0xA5, 0 },
    { 3, 0xFF, 0 },                         /* to column 1, unseen under static drive */
    { 2, 0xA1, 0 }, { 2, 0xA0, 0 }, { 2, 0xC9, 0 }, { 2, 0xC0, 0 },
    { 2, 0xA8, 0 },                         /* static drive lights rows 16 to 31 at duty 1/16 too */
    { 2, 0xA4, HALF_PIXELS - 12 },
    { 2, 0xA4, 0 },
    { 2, 0xA9, 8 },                         /* page 3 column 60 comes back */
    { 2, 0xA9, 0 },
    { 2, 0xA8, 8 }, { 2, 0xA9, 8 },
    { 2, 0xA1, 20 + 24 },                   /* columns 0, 1 and 60 turn over for 60, 61 and 79, all at other segments */
    { 2, 0xA1, 0 },
    { 2, 0xC8, 24 + 24 },                   /* up by 8 rows */
    { 2, 0xC8, 0 },
    { 5, 0x00, 0 }, { 4, 0x00, 0 }, { 2, 0xE0, 0 }, { 2, 0xE0, 0 }, { 2, 0xEE, 0 }, { 2, 0xEE, 0 }, { 2, 0xBB, 0 }, { 2, 79, 0 },
    { 3, 0x81, 2 },                         /* page 3 column 79, segment 0 in reverse */
    { 3, 0x7E, 0 },                         /* column 80: nothing stored */
    { 2, 0xE2, 26 + 26 },                   /* start line 0 */
    { 2, 0xE2, 0 },
    { 3, 0xAA, 0 },                         /* page 0 column 0, not shown in reverse */
};

enum { SWITCHED = sizeof switches / sizeof switches[0] };

/* The other chip shows its half meanwhile, and reads of it stand between. */
static void test_switches(unsigned chip)
{
    static struct trace t;
    static struct view v;
    struct change due[SWITCHED];
    size_t count = 0;
    t.len = 0;
    lit_view(&v);
    uint8_t *ram = v.ram + HALF_RAM * chip;
    memset(ram, 0, HALF_RAM);
    ram[0] = ram[240 + 60] = ram[160 + 61] = ram[80 + 79] = 0xFF;
    for (unsigned i = 0; i < SWITCHED; i++) {
        unsigned pixels = switches[i].pixels;
        put_record(&t, switches[i].lines, chip, switches[i].data, 0);
        put_record(&t, i % 2 == 0 ? PEDRALUME_DATA_READ : PEDRALUME_STATUS_READ, 1 - chip, 0, 0);
        if (pixels > 0)
            due[count++] = (struct change){ 2 * i, chip == 0 ? pixels : 0, chip == 0 ? 0 : pixels };
    }
    LISTED(&v, &t, due, count);
}

/* Both halves change in one trace, each by its own chip's records. */
static void test_both_halves(void)
{
    static const struct change due[] = {
        { 0, 1, 0 }, { 1, 0, 8 }, { 3, 4, 0 }, { 5, 0, 4 }, { 6, 5, 0 }, { 7, 0, HALF_PIXELS - 4 }
    };
    static struct trace t;
    static struct view v;
    t.len = 0;
    dark_view(&v);
    put_write(&t, 0, 0x80);
    put_write(&t, 1, 0xFF);
    put_write(&t, 1, 0x00);
    put_write(&t, 0, 0xF0);
    put_command(&t, 1, 0);
    put_write(&t, 1, 0xF0);                                         /* 4 of the 8 go dark */
    put_command(&t, 0, 0xAE);
    put_command(&t, 1, 0xA5);
    LISTED(&v, &t, due, sizeof due / sizeof due[0]);
}

/* Pixels that a data write of this byte changes: the bits that differ, where the cell's column and line are shown. */
static unsigned pixels_of_write(const uint8_t *chip, unsigned old, unsigned byte)
{
    unsigned page = chip[PEDRALUME_PAGE], column = chip[PEDRALUME_COLUMN], count = 0;
    bool shown = chip[PEDRALUME_ADC] ? column >= 19 && column < COLUMN_STOP : column < 61;
    for (unsigned b = 0; shown && b < 8; b++) {
        unsigned row = (8 * page + b + 32 - chip[PEDRALUME_START_LINE]) % 32;
        count += bit(old ^ byte, b) && (chip[PEDRALUME_DUTY] == 1 || row < 16);
    }
    return count;
}

/* A data write of another byte and of the same one, at this page and column. */
static void test_write_at(struct view *v, unsigned chip, unsigned page, unsigned column)
{
    uint8_t *c = v->chips + CHIP * chip;
    unsigned old = column < COLUMN_STOP ? v->ram[HALF_RAM * chip + 80 * page + column] : 0;
    c[PEDRALUME_PAGE] = (uint8_t)page;
    c[PEDRALUME_COLUMN] = (uint8_t)column;
    WRITE(v, chip, old ^ 0xFF, pixels_of_write(c, old, old ^ 0xFF));
    WRITE(v, chip, old ^ 0x21, pixels_of_write(c, old, old ^ 0x21));
    WRITE(v, chip, old, 0);
}

/* Every page and column, forward and reverse, at both duties and at start lines within pages and at their edges. */
static void test_writes(void)
{
    static const uint8_t start_line[] = { 0, 5, 16, 31 };
    static struct view v;
    for (unsigned way = 0; way < 32; way++) {
        unsigned chip = way & 1;
        lit_view(&v);
        uint8_t *c = v.chips + CHIP * chip;
        c[PEDRALUME_ADC] = way >> 1 & 1;
        c[PEDRALUME_DUTY] = way >> 2 & 1;
        c[PEDRALUME_START_LINE] = start_line[way >> 3];
        for (unsigned page = 0; page < 4; page++)
            for (unsigned column = 0; column <= COLUMN_STOP; column++)
                test_write_at(&v, chip, page, column);
    }
}

/* A data write that display off or static drive hides. */
static void test_hidden_writes(void)
{
    static struct view v;
    for (unsigned chip = 0; chip < 2; chip++) {
        lit_view(&v);
        v.chips[CHIP * chip + PEDRALUME_DISPLAY] = 0;
        WRITE(&v, chip, 0x55, 0);
        v.chips[CHIP * chip + PEDRALUME_STATIC] = 1;
        WRITE(&v, chip, 0x55, 0);
        v.chips[CHIP * chip + PEDRALUME_DISPLAY] = 1;
        WRITE(&v, chip, 0x55, 0);
    }
}

/* Way 0 to 15: each setting of one chip's switches. */
static void lit_view_by(struct view *v, unsigned chip, unsigned way, unsigned start_line)
{
    lit_view(v);
    uint8_t *c = v->chips + CHIP * chip;
    for (unsigned field = 0; field < 4; field++)
        c[field] = way >> field & 1;
    c[PEDRALUME_START_LINE] = (uint8_t)start_line;
    c[PEDRALUME_COLUMN] = 40;
}

/*
 * Every command and each other cycle, from each setting of the switches, as the replay and the pixels show it; a column
 * set from 50 to 7F is refused.
 */
static void test_all_cycles(void)
{
    static const uint8_t start_line[] = { 0, 3, 16, 31 };
    static struct trace t;
    static struct view v;
    struct change due[1];
    for (unsigned way = 0; way < 32; way++)
        for (unsigned lines = PEDRALUME_COMMAND_WRITE; lines <= PEDRALUME_DATA_READ; lines++)
            for (unsigned byte = 0; byte < 256; byte++) {
                if (lines == PEDRALUME_COMMAND_WRITE ? !is_command(byte) : byte % 51 != 0)
                    continue;
                lit_view_by(&v, way & 1, way >> 1, start_line[(way + byte) % 4]);
                t.len = 0;
                put_record(&t, lines, way & 1, byte, 0);
                if (lines == PEDRALUME_COMMAND_WRITE && is_missing_column(byte))
                    STAYS(&v, &t, CHIPS, RAM, t.len, ROOM, 14, 0);
                else
                    LISTED(&v, &t, due, expect_changes(&v, &t, due));
            }
}

/* RAM with every line alike, both ways round: turning it shows the same, and all lit is all lit. */
static void test_turns_of_the_same(void)
{
    static struct view v;
    for (unsigned chip = 0; chip < 2; chip++) {
        dark_view(&v);
        memset(v.ram, 0xFF, RAM);
        for (unsigned line = 0; line < 32; line++)
            COMMAND(&v, chip, 0xC0 + line, 0);
        COMMAND(&v, chip, 0xA1, 0);
        COMMAND(&v, chip, 0xA5, 0);
        COMMAND(&v, chip, 0xA8, HALF_PIXELS / 2);
        COMMAND(&v, chip, 0xAE, HALF_PIXELS);
        v.chips[CHIP * chip + PEDRALUME_DUTY] = 0;
        COMMAND(&v, chip, 0xA5, HALF_PIXELS / 2);
        for (unsigned column = 0; column < 80; column++)            /* pages alike, and columns too from the middle */
            for (unsigned page = 0; page < 4; page++)
                v.ram[HALF_RAM * chip + 80 * page + column] = (uint8_t)(column < 40 ? column + 1 : 80 - column);
        COMMAND(&v, chip, 0xC8, 0);
        COMMAND(&v, chip, 0xD8, 0);
        COMMAND(&v, chip, 0xA1, 0);
    }
}

/* Random records from random states: all kinds, in both modes, seen and unseen. */
static void test_random_traces(void)
{
    static struct trace t;
    static struct view v;
    struct change due[MOST_LISTED];
    size_t listed = 0, records = 0;
    for (unsigned long at = 0; at < 150; at++) {
        struct rng g = rng_for(14, 8, at);
        fresh_view(&v);
        draw_chips(&g, v.chips);
        random_bytes(&g, v.ram, RAM);
        if (one_in(&g, 2)) {
            v.chips[PEDRALUME_DISPLAY] = v.chips[CHIP + PEDRALUME_DISPLAY] = 1;
            v.chips[PEDRALUME_STATIC] = v.chips[CHIP + PEDRALUME_STATIC] = 0;
        }
        t.len = 0;
        put_valid(&t, &g, v.chips, between(&g, 0, MOST_LISTED - 3));
        size_t count = expect_changes(&v, &t, due);
        LISTED(&v, &t, due, count);
        listed += count;
        records += t.len / RECORD;
    }
    CHECK(listed > records / 10 && listed < records / 2);
}

/* A trace listed in two blocks, the first replayed between: the entries are those of the whole, with the records counted anew. */
static void test_blocks(void)
{
    static struct trace t, block;
    static struct view v, then;
    struct change due[MOST_LISTED], late[MOST_LISTED];
    struct rng g = { 41 };
    lit_view(&v);
    t.len = 0;
    put_shown(&t, &g, v.chips, MOST_LISTED - 3);
    size_t count = expect_changes(&v, &t, due), before = 0;
    CHECK(count > 8);
    for (size_t at = 0; at <= t.len; at += RECORD) {
        uint8_t answers[2 * MOST_LISTED];
        then = v;
        CHECK(pedralume_number(pedralume_replay(then.chips, CHIPS, then.ram, RAM, t.bytes, at, answers, sizeof answers)) == 0);
        while (before < count && RECORD * due[before].record < at)
            before++;
        for (size_t i = before; i < count; i++) {
            late[i - before] = due[i];
            late[i - before].record -= (unsigned)(at / RECORD);
        }
        block = t;
        block.len = at;
        LISTED(&v, &block, due, before);
        block.len = t.len - at;
        memcpy(block.bytes, t.bytes + at, block.len);
        LISTED(&then, &block, late, count - before);
    }
}

/* ---- the longest trace ---- */

static uint8_t all_entries[ENTRIES_MAX + SLACK];

/* How many bytes of the long buffer are not as they came. */
static size_t touched(size_t from)
{
    size_t count = 0;
    for (size_t i = from; i < sizeof all_entries; i++)
        count += all_entries[i] != 0xEE;
    return count;
}

static uint64_t list_all(const struct view *v, const struct trace *t, size_t room)
{
    memset(all_entries, 0xEE, sizeof all_entries);
    return pedralume_changes(v->chips, CHIPS, v->ram, RAM, t->bytes, t->len, all_entries, room);
}

/* Lit and dark in turn, left and right: every record is listed, with all pixels of a half. */
static void test_longest_trace(void)
{
    static struct trace t;
    static struct view v, before;
    unsigned wrong = 0;
    t.len = 0;
    dark_view(&v);
    for (unsigned i = 0; i < RECORDS_MAX; i++)
        put_command(&t, i % 2, i % 4 < 2 ? 0xA5 : 0xA4);
    before = v;
    CHECK(t.len == TRACE_MAX && ENTRIES_MAX == ENTRY * RECORDS_MAX);
    CHECK_ANSWER(list_all(&v, &t, ENTRIES_MAX), 0, RECORDS_MAX, 0, 0);
    for (unsigned i = 0; i < RECORDS_MAX; i++) {
        uint8_t want[ENTRY];
        put_entry(want, (struct change){ i, i % 2 == 0 ? HALF_PIXELS : 0, i % 2 == 0 ? 0 : HALF_PIXELS });
        wrong += memcmp(all_entries + ENTRY * i, want, ENTRY) != 0;
    }
    CHECK(wrong == 0 && touched(ENTRIES_MAX) == 0);
    CHECK(memcmp(all_entries + ENTRIES_MAX - ENTRY, (const uint8_t[]){ 0xFF, 0x3F, 0, 0, 0, 0, 0xA0, 0x07 }, ENTRY) == 0);
    CHECK_ANSWER(list_all(&v, &t, ENTRIES_MAX - 1), 15, RECORDS_MAX, 0, 0);
    CHECK(touched(0) == 0);
    CHECK_ANSWER(list_all(&v, &t, 0), 15, RECORDS_MAX, 0, 0);
    CHECK(touched(0) == 0);
    t.bytes[TRACE_MAX - 1] = 1;                                     /* refused at the last, the others are all seen */
    CHECK_ANSWER(list_all(&v, &t, ENTRIES_MAX), 4, RECORDS_MAX - 1, 0, 0);
    CHECK(touched(0) == 0);
    CHECK_ANSWER(list_all(&v, &t, 0), 4, RECORDS_MAX - 1, 0, 0);
    CHECK(same_view(&v, &before));
}

/* No record is seen: nothing is written, and no room is needed. */
static void test_nothing_listed(void)
{
    static struct trace t;
    static struct view v;
    for (unsigned rounds = 0; rounds < 3; rounds++) {
        t.len = 0;
        lit_view(&v);
        for (unsigned i = 0; i < 100 * rounds; i++)
            put_record(&t, i % 3 == 0 ? PEDRALUME_DATA_READ : PEDRALUME_STATUS_READ, i % 2, i, 0);
        STAYS(&v, &t, CHIPS, RAM, t.len, 0, 0, 0);
        STAYS(&v, &t, CHIPS, RAM, t.len, ROOM, 0, 0);
    }
}

/* ---- refusals ---- */

/* Ten records from fresh chips, four of them listed; leaves the left chip in read-modify-write. */
static void put_story(struct trace *t)
{
    put_command(t, 0, 0xAF);
    put_command(t, 1, 0xAF);
    put_write(t, 0, 0x77);                                          /* 2: 6 left */
    put_write(t, 1, 0x01);                                          /* 3: 1 right */
    put_command(t, 0, 0x04);
    put_command(t, 0, 0xE0);
    put_read(t, 0, 0x00);
    put_write(t, 0, 0x18);                                          /* 7: 2 left */
    put_status(t, 1, 0x40);
    put_command(t, 1, 0xA5);                                        /* 9: 1,951 right */
}

enum { STORY = 10, TOLD = 4 };

static const struct change told[TOLD] = { { 2, 6, 0 }, { 3, 0, 1 }, { 7, 2, 0 }, { 9, 0, HALF_PIXELS - 1 } };

static const struct trace *story(void)
{
    static struct trace t;
    memset(&t, 0, sizeof t);
    put_story(&t);
    return &t;
}

static void test_story(void)
{
    static struct view v;
    fresh_view(&v);
    LISTED(&v, story(), told, TOLD);
}

/* 1, also before a bad chip, a cut trace, a bad record and too little room. */
static void test_bad_lengths(void)
{
    static const size_t chips[] = { 0, 12, 23, 25, 36 }, ram[] = { 0, 320, 639, 641 };
    static const size_t trace[] = { TRACE_MAX + 1, TRACE_MAX + 2, TRACE_MAX + 4, TRACE_MAX + 400 };
    static struct trace t;
    static struct view v;
    t = *story();
    fresh_view(&v);
    for (unsigned spoiled = 0; spoiled < 3; spoiled++) {
        size_t len = t.len - (spoiled == 2), room = spoiled == 0 ? ROOM : 0;
        for (size_t i = 0; i < sizeof chips / sizeof chips[0]; i++)
            STAYS(&v, &t, chips[i], RAM, len, room, 1, 0);
        for (size_t i = 0; i < sizeof ram / sizeof ram[0]; i++)
            STAYS(&v, &t, CHIPS, ram[i], len, room, 1, 0);
        for (size_t i = 0; i < sizeof trace / sizeof trace[0]; i++)
            STAYS(&v, &t, CHIPS, RAM, trace[i], room, 1, 0);
        STAYS(&v, &t, CHIPS + 1, RAM - 1, TRACE_MAX + 1, room, 1, 0);
        t.bytes[0] = 0xFF;
        if (spoiled == 1)
            v.chips[CHIP + PEDRALUME_ZERO] = 1;
    }
}

/* 2 with this chip as place, also before a cut trace, a bad record and too little room. */
static void bad_chip_by(const struct view *v, unsigned chip, int line)
{
    static struct trace t;
    t = *story();
    for (unsigned spoiled = 0; spoiled < 2; spoiled++) {
        stays_by(v, &t, (struct lengths){ CHIPS, RAM, t.len, ROOM }, 2, chip, line);
        stays_by(v, &t, (struct lengths){ CHIPS, RAM, t.len - 1, ROOM }, 2, chip, line);
        stays_by(v, &t, (struct lengths){ CHIPS, RAM, t.len, 0 }, 2, chip, line);
        stays_by(v, &t, (struct lengths){ CHIPS, RAM, 0, 0 }, 2, chip, line);
        t.bytes[0] = 0xFF;
    }
}

#define BAD_CHIP(v, chip) bad_chip_by((v), (chip), __LINE__)

static void test_bad_chips(void)
{
    static const struct trace empty = { 0, { 0 } };
    static struct view v;
    for (unsigned chip = 0; chip < 2; chip++)
        for (unsigned field = 0; field < CHIP; field++) {
            fresh_view(&v);
            v.chips[PEDRALUME_RMW] = v.chips[CHIP + PEDRALUME_RMW] = 1;
            v.chips[CHIP * chip + field] = field_limit[field];
            STAYS(&v, &empty, CHIPS, RAM, 0, 0, 0, 0);
            if (field == PEDRALUME_LATCH_BYTE)
                continue;
            v.chips[CHIP * chip + field] = (uint8_t)(field_limit[field] + 1u);
            BAD_CHIP(&v, chip);
            v.chips[CHIP * chip + field] = 255;
            BAD_CHIP(&v, chip);
        }
    for (unsigned chip = 0; chip < 2; chip++) {                     /* saved column with the mode off */
        fresh_view(&v);
        v.chips[CHIP * chip + PEDRALUME_SAVED_COLUMN] = 1;
        BAD_CHIP(&v, chip);
    }
    v.chips[PEDRALUME_PAGE] = 4;                                    /* both: left before right */
    BAD_CHIP(&v, 0);
    for (unsigned way = 0; way < COLUMN_WAYS; way++) {
        fresh_view(&v);
        struct given_column c = put_column(v.chips, way);
        STAYS(&v, &empty, CHIPS, RAM, 0, 0, c.number, c.place);
    }
}

/* 3, also before a bad record and too little room. */
static void test_cut_traces(void)
{
    static struct trace t;
    static struct view v;
    t = *story();
    fresh_view(&v);
    for (unsigned spoiled = 0; spoiled < 2; spoiled++) {
        for (size_t len = 0; len <= t.len; len++) {
            if (len % RECORD == 0)
                continue;
            STAYS(&v, &t, CHIPS, RAM, len, ROOM, 3, len / RECORD);
            STAYS(&v, &t, CHIPS, RAM, len, 0, 3, len / RECORD);
        }
        STAYS(&v, &t, CHIPS, RAM, TRACE_MAX - 1, ROOM, 3, RECORDS_MAX - 1);
        t.bytes[0] = 0xFF;
    }
}

/*
 * 4 to 8 and 14 with the record as place, at a late record and at the first, whatever the room: nothing is
 * listed of the records before either. What follows is not looked at, be it a lower number.
 */
static void test_refused_records(void)
{
    static const size_t room[] = { ROOM, ENTRY * TOLD, ENTRY * TOLD - 1, 1, 0 };
    static struct trace late, first;
    static struct view v, busy;
    for (size_t i = 0; i < BAD_RECORDS; i++) {
        late = *story();
        put_bad(&late, &bad_records[i]);
        put_write(&late, 0, 0xDD);
        put_record(&late, 0xFF, 0xFF, 0xFF, 0xFF);
        first.len = 0;
        put_bad(&first, &bad_records[i]);
        put_story(&first);
        fresh_view(&v);
        busy = v;
        busy.chips[PEDRALUME_RMW] = 1;
        for (size_t j = 0; j < sizeof room / sizeof room[0]; j++) {
            STAYS(&v, &late, CHIPS, RAM, late.len, room[j], bad_records[i].number, STORY);
            STAYS(&busy, &first, CHIPS, RAM, first.len, room[j], bad_records[i].number, 0);
        }
    }
}

/* Each place at which the story may break off: the record is the place, however many were listed before it. */
static void test_every_place(void)
{
    static struct trace t;
    static struct view v;
    fresh_view(&v);
    for (unsigned place = 0; place < STORY; place++) {
        t = *story();
        t.bytes[RECORD * place + 3] = 1;
        STAYS(&v, &t, CHIPS, RAM, t.len, ROOM, 4, place);
        STAYS(&v, &t, CHIPS, RAM, t.len, 0, 4, place);
        memcpy(t.bytes + RECORD * place, (const uint8_t[]){ PEDRALUME_COMMAND_WRITE, 1, 100, 0 }, RECORD);
        STAYS(&v, &t, CHIPS, RAM, t.len, ROOM, 14, place);
        STAYS(&v, &t, CHIPS, RAM, t.len, 0, 14, place);
        t.bytes[RECORD * place + 2] = 0xE3;
        STAYS(&v, &t, CHIPS, RAM, t.len, ROOM, 7, place);
        STAYS(&v, &t, CHIPS, RAM, t.len, 0, 7, place);
    }
}

/* Every length of room: 15 below what the entries need, with their full number as place, and done from there on. */
static void test_rooms(void)
{
    static struct view v;
    fresh_view(&v);
    for (size_t room = 0; room <= ENTRY * TOLD + 20; room++)
        if (room < ENTRY * TOLD)
            STAYS(&v, story(), CHIPS, RAM, story()->len, room, 15, TOLD);
        else
            done_by(&v, story(), told, TOLD, room, __LINE__);
}

int main(void)
{
    test_written_example();
    test_entry_readers();
    test_switches(0);
    test_switches(1);
    test_both_halves();
    test_writes();
    test_hidden_writes();
    test_all_cycles();
    test_turns_of_the_same();
    test_random_traces();
    test_blocks();
    test_longest_trace();
    test_nothing_listed();
    test_story();
    test_bad_lengths();
    test_bad_chips();
    test_cut_traces();
    test_refused_records();
    test_every_place();
    test_rooms();
    return end_of_checks();
}

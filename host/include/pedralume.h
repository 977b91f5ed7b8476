/*
 * pedralume.h: a proved model of two SED1520 LCD chips behind one 122 by 32 panel.
 *
 *   pedralume_replay           replays a recorded bus trace on both chips
 *   pedralume_frame            gives the pixels that the panel shows
 *   pedralume_repaint          writes the bus records that bring a picture to the panel
 *   pedralume_sparing_repaint  the same, without the bytes that RAM holds already
 *   pedralume_feed_open        begins a replay of a trace that comes in parts
 *   pedralume_feed_part        takes the next part of it, cut anywhere
 *   pedralume_feed_close       ends it
 *   pedralume_changes          lists the records of a trace that changed what the panel shows
 *   pedralume_version          gives the version of the library
 *
 * Chip 0 is the left one, chip 1 the right one. The bytes of each buffer are described in docs/FORMATS.md, and
 * host/examples has programs that use the calls; both are installed under share/doc/pedralume. This header is for
 * C99 or later, and for C++.
 *
 *
 * WHO OWNS WHAT
 *
 * Every buffer is the caller's, before, during and after a call. The library keeps no pointer, allocates nothing
 * and has no global state: any number of threads may call it at once, each on its own buffers. Every call ends.
 * No call was seen to take 2 KB of stack on x86-64 ("make -C host stack" in the project measures it); where a
 * program binds memcpy lazily, the loader takes some 3 KB more once.
 *
 * The caller promises, for each buffer, that as many bytes as its length says really are there (writable, where
 * the pointer is not to const), and that it overlaps no other buffer of the same call. No alignment is asked. A
 * buffer of length 0 is neither read nor written, so its pointer may be anything, null included: the data() of
 * an empty C++ vector will do. All else is checked: what is wrong with a length, a chip, a feed or a record is
 * refused by number. The one exception is a stopped feed, which repeats its number whatever else it holds.
 *
 *
 * WHAT A CALL GIVES BACK
 *
 * Replay, frame, both repaints and changes give number + 256 * place + 2^24 * compared + 2^40 * differing. Take it
 * apart with pedralume_number, pedralume_place, pedralume_compared and pedralume_differing; the last two are 0 for
 * all but the replay. The three calls of a feed give number + 256 * place, with a place of 32 bits: take it apart
 * with pedralume_number and pedralume_feed_place alone, and read the counts in the feed's bytes. Number 0 is done.
 * The others, with their places, are in the table of numbers (PEDRALUME_DONE and after), and pedralume_words has
 * words for each.
 *
 *
 * EXAMPLE
 *
 *   uint8_t chips[PEDRALUME_CHIPS_BYTES] = { PEDRALUME_FRESH_CHIP, PEDRALUME_FRESH_CHIP };
 *   uint8_t ram[PEDRALUME_RAM_BYTES] = { 0 };
 *   uint8_t answers[5 * PEDRALUME_ANSWER_BYTES];
 *   static const uint8_t trace[5 * PEDRALUME_RECORD_BYTES] = {
 *       PEDRALUME_COMMAND_WRITE, 0, 0x0A, 0,    // left chip: column 10
 *       PEDRALUME_DATA_WRITE,    0, 0xA5, 0,    // stored, column 11
 *       PEDRALUME_COMMAND_WRITE, 0, 0x0A, 0,    // column 10 again, read latch stale
 *       PEDRALUME_DATA_READ,     0, 0x00, 0,    // empty read: kind 2
 *       PEDRALUME_DATA_READ,     0, 0xA5, 0     // kind 1, A5, as recorded
 *   };
 *   uint64_t answer = pedralume_replay(chips, sizeof chips, ram, sizeof ram,
 *                                      trace, sizeof trace, answers, sizeof answers);
 *   if (pedralume_number(answer) != PEDRALUME_DONE)
 *       printf("number %u at %u: %s\n", pedralume_number(answer), pedralume_place(answer),
 *              pedralume_words(pedralume_number(answer)));
 *   else
 *       printf("%u of %u compared reads differ\n",
 *              pedralume_differing(answer), pedralume_compared(answer));
 *
 * It prints 0 of 1 compared reads differ. With 06 for the first byte of the last record it prints
 * number 6 at 4: RD and WR equal.
 */
#ifndef PEDRALUME_H
#define PEDRALUME_H

#include <stddef.h>
#include <stdint.h>

#ifdef __cplusplus
extern "C" {
#endif

/*
 * The version of this header; pedralume_version gives the library's. The first number rises with a change of
 * what a call gives back or of a format, the second with what is added beside that, the third with any other
 * change. The number is for #if: 1.2.3 is 10203.
 */
#define PEDRALUME_VERSION_MAJOR 1
#define PEDRALUME_VERSION_MINOR 3
#define PEDRALUME_VERSION_PATCH 0

#define PEDRALUME_VERSION_NUMBER \
    (10000 * PEDRALUME_VERSION_MAJOR + 100 * PEDRALUME_VERSION_MINOR + PEDRALUME_VERSION_PATCH)

/* The three as one text with dots between them; the two before it only help to make it. */
#define PEDRALUME_TEXT_OF(tokens) #tokens
#define PEDRALUME_VERSION_OF(major, minor, patch) \
    PEDRALUME_TEXT_OF(major) "." PEDRALUME_TEXT_OF(minor) "." PEDRALUME_TEXT_OF(patch)
#define PEDRALUME_VERSION \
    PEDRALUME_VERSION_OF(PEDRALUME_VERSION_MAJOR, PEDRALUME_VERSION_MINOR, PEDRALUME_VERSION_PATCH)

/* Pixels: the panel, the half of one chip, a picture for a repaint. */
#define PEDRALUME_WIDTH 122u
#define PEDRALUME_HEIGHT 32u
#define PEDRALUME_HALF_WIDTH 61u
#define PEDRALUME_PICTURE_HEIGHT 16u

/* Sizes in bytes; the repaint's also in records. A sparing repaint has at most as many. */
#define PEDRALUME_CHIP_BYTES 12u
#define PEDRALUME_CHIPS_BYTES 24u
#define PEDRALUME_RAM_BYTES 640u
#define PEDRALUME_RECORD_BYTES 4u
#define PEDRALUME_ANSWER_BYTES 2u
#define PEDRALUME_TRACE_MAX_BYTES 65536u
#define PEDRALUME_FRAME_BYTES 488u
#define PEDRALUME_PICTURE_BYTES 244u
#define PEDRALUME_REPAINT_RECORDS 254u
#define PEDRALUME_REPAINT_BYTES 1016u
#define PEDRALUME_FEED_BYTES 48u
#define PEDRALUME_PART_MAX_BYTES 65536u
#define PEDRALUME_ENTRY_BYTES 8u
#define PEDRALUME_ENTRIES_MAX_BYTES 131072u

/* The most records that a feed takes from its opening to its close. */
#define PEDRALUME_FEED_MAX_RECORDS 4294967295u

/*
 * The column where counting stops, one past the last that RAM has; the highest in chip bytes. A column
 * set is any of the 128 bytes 00 to 7F all the same: those from this one on are refused (14, or 8 in
 * read-modify-write, as all are).
 */
#define PEDRALUME_COLUMN_STOP 80u

/* Initialiser of the bytes of one fresh chip. */
#define PEDRALUME_FRESH_CHIP 0, 0, 1, 0, 0, 0, 0, 0, 0, 0, 0, 0

/* Places of the fields in the bytes of a chip. */
enum {
    PEDRALUME_DISPLAY = 0,
    PEDRALUME_STATIC = 1,
    PEDRALUME_DUTY = 2,
    PEDRALUME_ADC = 3,
    PEDRALUME_RMW = 4,
    PEDRALUME_PAGE = 5,
    PEDRALUME_START_LINE = 6,
    PEDRALUME_COLUMN = 7,
    PEDRALUME_SAVED_COLUMN = 8,
    PEDRALUME_LATCH_MARK = 9,
    PEDRALUME_LATCH_BYTE = 10,
    PEDRALUME_ZERO = 11
};

/* Places of the fields in the bytes of a feed. */
enum {
    PEDRALUME_FEED_CHIPS = 0,
    PEDRALUME_FEED_KEPT_COUNT = 24,
    PEDRALUME_FEED_KEPT = 25,
    PEDRALUME_FEED_STOPPED = 28,
    PEDRALUME_FEED_NUMBER = 29,
    PEDRALUME_FEED_ZEROS = 30,
    PEDRALUME_FEED_PLACE = 32,
    PEDRALUME_FEED_RECORDS = 36,
    PEDRALUME_FEED_COMPARED = 40,
    PEDRALUME_FEED_DIFFERING = 44
};

/* The place of number 2 where not a chip but the rest of a feed's bytes is at fault. */
enum { PEDRALUME_PLACE_OF_FEED = 3 };

/* Lines of the four bus cycles. */
enum {
    PEDRALUME_COMMAND_WRITE = 2,
    PEDRALUME_DATA_WRITE = 3,
    PEDRALUME_STATUS_READ = 4,
    PEDRALUME_DATA_READ = 5
};

/* Kinds of answer. */
enum {
    PEDRALUME_KIND_WRITE = 0,
    PEDRALUME_KIND_FRESH = 1,
    PEDRALUME_KIND_STALE = 2,
    PEDRALUME_KIND_STATUS = 3
};

/*
 * Numbers given back. Records are taken in order, and the first that is refused decides. Of the causes that hold
 * before any record, or else for that record, the lowest number is given, but 13 comes right after 1 and 14 right
 * after 8; at equal number the left chip comes before the right one, and both before place 3. Records count from
 * 0, for a feed from its opening.
 */
enum {
    PEDRALUME_DONE = 0,              /* done; what the place is, each call says */
    PEDRALUME_BAD_LENGTH = 1,        /* a length that the call does not take; place 0 */
    PEDRALUME_BAD_CHIP = 2,          /* chip bytes, or the rest of a feed's, out of their range; place: the chip, or 3 */
    PEDRALUME_CUT_TRACE = 3,         /* the trace ends inside a record; place: the whole records before that */
    PEDRALUME_SPARE_BITS = 4,        /* spare line bits or the fourth byte not 0; place: the record */
    PEDRALUME_NO_SUCH_CHIP = 5,      /* a chip over 1; place: the record */
    PEDRALUME_EQUAL_STROBES = 6,     /* RD and WR equal; place: the record */
    PEDRALUME_NO_COMMAND = 7,        /* a command write with a byte that is no command; place: the record */
    PEDRALUME_COLUMN_IN_RMW = 8,     /* a column set (00 to 7F) in read-modify-write; place: the record */
    PEDRALUME_NOT_SHOWING = 9,       /* display off, or static drive on; place: the chip */
    PEDRALUME_WRONG_DUTY = 10,       /* duty 1/32; place: the chip */
    PEDRALUME_WRONG_START_LINE = 11, /* a start line neither 0 nor 16; place: the chip */
    PEDRALUME_RMW_ON = 12,           /* read-modify-write on; place: the chip */
    PEDRALUME_TOO_MANY = 13,         /* with those that the part completes, over 4,294,967,295 records; place 0 */
    PEDRALUME_NO_SUCH_COLUMN = 14,   /* a column set from 50 to 7F; place: the record */
    PEDRALUME_SHORT_ENTRIES = 15     /* an entries buffer too short for the list; place: the entries due */
};

/*
 * Replays a trace.
 *
 * It takes chips (24 bytes), RAM (640 bytes), a trace of at most 65,536 bytes, which are 16,384 records, and
 * answers with 2 bytes or more for each whole record of the trace. Longer traces go through a feed (replay_long in
 * the examples).
 * It gives the records replayed as place, how many reads were compared with the trace, and how many of these
 * differ.
 * It refuses by 1, 2 and 3 before any record, by 4 to 8 and 14 at a record.
 * It leaves chips and RAM as they are after the last record, and 2 bytes of answers for each; the rest of answers
 * stays. Refused at a record, it leaves what the records before that one came to, with their answers and counts.
 * Refused by 1 to 3, it leaves every buffer as it came.
 * The order between the two chips does not matter: the records of a trace that is done, in any order that keeps
 * each chip's own, are done too, with the same answer for each record, the same chips, RAM and counts.
 */
uint64_t pedralume_replay(uint8_t *chips, size_t chips_len,
                          uint8_t *ram, size_t ram_len,
                          const uint8_t *trace, size_t trace_len,
                          uint8_t *answers, size_t answers_len);

/*
 * Draws what the panel shows with these chips and this RAM.
 *
 * It takes chips (24 bytes), RAM (640 bytes) and frame (488 bytes).
 * It gives 488 as place.
 * It refuses by 1 and 2.
 * It leaves all 488 bytes of frame written; refused, it leaves them as they came.
 */
uint64_t pedralume_frame(const uint8_t *chips, size_t chips_len,
                         const uint8_t *ram, size_t ram_len,
                         uint8_t *frame, size_t frame_len);

/*
 * Writes the 254 bus records that bring a picture of 122 by 16 pixels to the panel. It sends nothing.
 *
 * It takes chips (24 bytes) as they are when the first record is sent, picture (244 bytes) and output (1,016 bytes
 * or more).
 * It gives 254 as place.
 * It refuses by 1 and 2, and chips that are not ready by 9 to 12.
 * It leaves 1,016 bytes of output written and the rest as it was; refused, it leaves all of output as it came.
 *
 * Sent in order with nobody else on the bus, each record is accepted and leaves both chips ready. The first 252
 * change nothing that is shown; the 253rd brings the left half to the picture, the 254th the right half, with rows
 * 16 to 31 dark. So a repaint may be given up after any record, and a new one begun with the chips as they are
 * then. Given up just after the 253rd, the panel stays half new until the last two records of a later one.
 */
uint64_t pedralume_repaint(const uint8_t *chips, size_t chips_len,
                           const uint8_t *picture, size_t picture_len,
                           uint8_t *output, size_t output_len);

/*
 * Writes the bus records of a sparing repaint, which leaves out what the hidden pages hold already: a page that is
 * as the picture has it is passed over, and in another one only the bytes that differ are written, run by run. It
 * sends nothing.
 *
 * It takes chips (24 bytes) and RAM (640 bytes) as they are when the first record is sent, picture (244 bytes) and
 * output (1,016 bytes or more, whatever is left out).
 * It gives the number of records as place, from 2 to 254.
 * It refuses by 1 and 2, and chips that are not ready by 9 to 12.
 * It leaves 4 bytes of output written for each record and the rest as it was; refused, it leaves all of output as
 * it came.
 *
 * Sent in order with nobody else on the bus, each record is accepted and leaves both chips ready. All but the last
 * two change nothing that is shown; the last but one brings the left half to the picture, the last the right half,
 * with rows 16 to 31 dark. Sent whole, it leaves the RAM that a repaint leaves. It may be given up after any record
 * as a repaint may, and either of them may follow, the sparing one made with the RAM as it is then.
 */
uint64_t pedralume_sparing_repaint(const uint8_t *chips, size_t chips_len,
                                   const uint8_t *ram, size_t ram_len,
                                   const uint8_t *picture, size_t picture_len,
                                   uint8_t *output, size_t output_len);

/*
 * Begins a replay of a trace that comes in parts.
 *
 * It takes feed (48 bytes, whatever they hold) and chips (24 bytes), which is not a part of feed.
 * It gives 0 as place.
 * It refuses by 1 and 2.
 * It leaves in feed the chips as given, nothing kept over, all counts 0. Refused by 2, it leaves the feed stopped
 * with that number and place; refused by 1, it leaves feed as it came.
 */
uint64_t pedralume_feed_open(uint8_t *feed, size_t feed_len,
                             const uint8_t *chips, size_t chips_len);

/*
 * Goes on with the next part of the trace, cut anywhere: replays the records that the bytes kept over and then the
 * part make whole, and keeps over what is left of a last one. Where the trace is cut makes no difference.
 *
 * It takes feed (48 bytes), RAM (640 bytes, as the part before left them), a part of 0 to 65,536 bytes, and answers
 * with 2 bytes or more for each record that the part completes; for a feed that these calls wrote,
 * 2 * ((part_len + 3) / 4) bytes are always enough.
 * It gives the records since the opening as place; the counts are in feed.
 * It refuses by 1, 13 and 2 before any record, also where the part has length 0, and by 4 to 8 and 14 at a record.
 * But a stopped feed repeats its number and place and changes nothing, before every test but that of the 48 bytes.
 * It leaves feed and RAM as they are after the last record, and 2 bytes for each record replayed from the start of
 * answers; the rest of answers stays. Refused at a record, it leaves what the records before that one came to, and
 * the feed stopped with nothing kept over. Refused by 1, 13 or 2, it leaves every buffer as it came: the next call
 * is as if this one had not been.
 */
uint64_t pedralume_feed_part(uint8_t *feed, size_t feed_len,
                             uint8_t *ram, size_t ram_len,
                             const uint8_t *part, size_t part_len,
                             uint8_t *answers, size_t answers_len);

/*
 * Ends a feed.
 *
 * It takes feed (48 bytes).
 * It gives number 0, or 3 where bytes are kept over, since the trace then ended inside a record; the place is the
 * records since the opening.
 * It refuses by 1 and 2. But a stopped feed repeats its number and place, as at a part.
 * It leaves the feed stopped with the number and place given, and changes nothing else of it: chips, counts and
 * bytes kept over can still be read. Refused by 1 or 2, it leaves feed as it came.
 */
uint64_t pedralume_feed_close(uint8_t *feed, size_t feed_len);

/*
 * Lists the records of a trace that changed what the panel shows.
 *
 * It takes chips (24 bytes) and RAM (640 bytes) as they are before the trace, a trace of at most 65,536 bytes, and
 * entries of any length: 8 bytes for each record of the trace are always enough, for any trace
 * PEDRALUME_ENTRIES_MAX_BYTES. With length 0 it asks how many entries there are: 15 has their number as place, and 0
 * is given where there are none. Longer traces are listed in blocks (list_long in the examples).
 * It gives the number of entries as place.
 * It refuses by 1 to 8 and 14 as a replay with answers enough, then by 15.
 * It leaves 8 bytes for each entry from the start of entries, and the rest as it was. Refused, also at a late
 * record, it leaves entries as they came.
 */
uint64_t pedralume_changes(const uint8_t *chips, size_t chips_len,
                           const uint8_t *ram, size_t ram_len,
                           const uint8_t *trace, size_t trace_len,
                           uint8_t *entries, size_t entries_len);

/*
 * Gives the version of the library that the program runs with, as PEDRALUME_VERSION_NUMBER has that of the header:
 * 10203 for 1.2.3. It takes nothing and refuses nothing, and what it gives has no number and no place.
 */
uint64_t pedralume_version(void);

/* The number that a call gives back: 0 is done. */
static inline unsigned pedralume_number(uint64_t answer) { return (unsigned)(answer & 0xFFu); }

/* The place that any call but a feed's gives back. */
static inline unsigned pedralume_place(uint64_t answer) { return (unsigned)(answer >> 8 & 0xFFFFu); }

/* Of a replay: the reads that were compared with the trace. */
static inline unsigned pedralume_compared(uint64_t answer) { return (unsigned)(answer >> 24 & 0xFFFFu); }

/* Of a replay: the compared reads that differ. */
static inline unsigned pedralume_differing(uint64_t answer) { return (unsigned)(answer >> 40 & 0xFFFFu); }

/* The place that a call of a feed gives back. */
static inline uint32_t pedralume_feed_place(uint64_t answer) { return (uint32_t)(answer >> 8 & 0xFFFFFFFFu); }

/* What a number means, in words. It is never null, for any number, and never freed. */
static inline const char *pedralume_words(unsigned number)
{
    switch (number) {
    case PEDRALUME_DONE: return "done";
    case PEDRALUME_BAD_LENGTH: return "a buffer of a wrong length";
    case PEDRALUME_BAD_CHIP:
        return "a chip record, or the rest of a feed record, with a field out of its range";
    case PEDRALUME_CUT_TRACE: return "a trace that ends inside a record";
    case PEDRALUME_SPARE_BITS: return "spare line bits or the fourth byte not 0";
    case PEDRALUME_NO_SUCH_CHIP: return "a chip over 1";
    case PEDRALUME_EQUAL_STROBES: return "RD and WR equal";
    case PEDRALUME_NO_COMMAND: return "a byte that is no command";
    case PEDRALUME_COLUMN_IN_RMW: return "a column set while read-modify-write is on";
    case PEDRALUME_NOT_SHOWING: return "display off or static drive on";
    case PEDRALUME_WRONG_DUTY: return "duty 1/32";
    case PEDRALUME_WRONG_START_LINE: return "a start line neither 0 nor 16";
    case PEDRALUME_RMW_ON: return "read-modify-write on";
    case PEDRALUME_TOO_MANY: return "over 4,294,967,295 records";
    case PEDRALUME_NO_SUCH_COLUMN: return "a column set over 79 (4F hex), the last column of RAM";
    case PEDRALUME_SHORT_ENTRIES: return "an entries buffer too short for the list";
    default: return "a number that this version does not know";
    }
}

/* The number of 4 bytes that begins at this one of a feed's 48 bytes. */
static inline uint32_t pedralume_feed_field(const uint8_t *feed, unsigned at)
{
    return feed[at] | (uint32_t)feed[at + 1] << 8 | (uint32_t)feed[at + 2] << 16 | (uint32_t)feed[at + 3] << 24;
}

/* The records that a feed has accepted since its opening. */
static inline uint32_t pedralume_feed_records(const uint8_t *feed)
{
    return pedralume_feed_field(feed, PEDRALUME_FEED_RECORDS);
}

/* The reads that a feed has compared since its opening. */
static inline uint32_t pedralume_feed_compared(const uint8_t *feed)
{
    return pedralume_feed_field(feed, PEDRALUME_FEED_COMPARED);
}

/* The compared reads that differ, since a feed's opening. */
static inline uint32_t pedralume_feed_differing(const uint8_t *feed)
{
    return pedralume_feed_field(feed, PEDRALUME_FEED_DIFFERING);
}

/* The record of an entry. */
static inline uint32_t pedralume_entry_record(const uint8_t *entry)
{
    return entry[0] | (uint32_t)entry[1] << 8 | (uint32_t)entry[2] << 16 | (uint32_t)entry[3] << 24;
}

/* The pixels that an entry's record changed in the left half. */
static inline unsigned pedralume_entry_left(const uint8_t *entry) { return entry[4] | (unsigned)entry[5] << 8; }
/* The pixels that an entry's record changed in the right half. */
static inline unsigned pedralume_entry_right(const uint8_t *entry) { return entry[6] | (unsigned)entry[7] << 8; }

/* The pixel at column x, row y of a frame, or of a picture: 1 is lit. The pixel must be one that it has. */
static inline unsigned pedralume_pixel(const uint8_t *frame, unsigned x, unsigned y)
{
    return (unsigned)frame[x + PEDRALUME_WIDTH * (y / 8)] >> (y % 8) & 1u;
}

#ifdef __cplusplus
}
#endif

#endif

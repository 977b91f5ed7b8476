/* show --changes: the records that changed what the panel shows, a line each, or a picture after each of them. */
#include "show.h"

#include <errno.h>

/* ---- the batch, from its first record on ---- */

bool begin_again(struct run *run, const struct batch *batch)
{
    return go_on_from(run, batch->before->name, batch->before);
}

/* Not refused, since all of the batch was accepted. */
bool send_up_to(struct run *run, const struct batch *batch, size_t count)
{
    size_t sent = pedralume_feed_records(run->feed);
    return send_bytes(run, batch->bytes + sent * RECORD, (count - sent) * RECORD);
}

/* ---- the list ---- */

static const size_t block_records = PEDRALUME_TRACE_MAX_BYTES / PEDRALUME_RECORD_BYTES;

/* The call counts records from the block's first. */
static bool add_entries(struct bytes *list, const uint8_t *entries, size_t count, size_t first_record)
{
    for (size_t i = 0; i < count; i++) {
        const uint8_t *entry = entries + i * PEDRALUME_ENTRY_BYTES;
        struct change change = { (uint32_t)first_record + pedralume_entry_record(entry),
                                 pedralume_entry_left(entry), pedralume_entry_right(entry) };
        if (!append(list, (const uint8_t *)&change, sizeof change))
            return false;
    }
    return true;
}

/* Lists a block of records from where the run is, and goes past it. */
static bool list_block(struct run *run, const struct batch *batch, size_t count, struct bytes *list)
{
    static uint8_t entries[PEDRALUME_ENTRIES_MAX_BYTES];
    size_t first = pedralume_feed_records(run->feed);
    uint64_t answer = pedralume_changes(run->feed, PEDRALUME_CHIPS_BYTES, run->ram, sizeof run->ram,
                                        batch->bytes + first * RECORD, count * RECORD, entries, sizeof entries);
    if (pedralume_number(answer) != PEDRALUME_DONE) {
        fprintf(stderr, "%s: the list of changes is refused: number %u\n", run->name, pedralume_number(answer));
        return false;
    }
    return add_entries(list, entries, pedralume_place(answer), first) && send_up_to(run, batch, first + count);
}

bool list_changes(const struct batch *batch, struct changes *changes)
{
    static struct bytes list;
    struct run run;
    if (!begin_again(&run, batch))
        return false;
    for (size_t at = 0; at < batch->count; at += block_records) {
        size_t count = batch->count - at < block_records ? batch->count - at : block_records;
        if (!list_block(&run, batch, count, &list))
            return false;
    }
    changes->list = (const struct change *)list.at;
    changes->count = list.length / sizeof(struct change);
    return true;
}

/* ---- in words ---- */

void print_change(const struct change *change, const struct batch *batch)
{
    char words[32];
    const uint8_t *record = &batch->bytes[change->record * (size_t)RECORD];
    cycle_words(record, words, sizeof words);
    printf("record %lu: %s chip, %s; changed pixels: left %u, right %u\n", (unsigned long)change->record,
           chip_words(record[1]), words, change->left, change->right);
}

void print_count(const struct changes *changes, const struct batch *batch)
{
    printf("%zu of %zu records changed what the panel shows\n", changes->count, batch->count);
}

bool print_changes(const struct changes *changes, const struct batch *batch)
{
    errno = 0;
    for (size_t i = 0; i < changes->count; i++)
        print_change(&changes->list[i], batch);
    print_count(changes, batch);
    return all_printed();
}

/* ---- in pictures ---- */

static bool add_frame(FILE *file, const char *path, const char *comment, const struct run *run)
{
    uint8_t frame[PEDRALUME_FRAME_BYTES];
    return take_frame(run, frame) && add_picture(file, path, comment, frame);
}

static bool add_pictures(FILE *file, const char *path, const struct changes *changes, const struct batch *batch)
{
    struct run run;
    char comment[sizeof "# record 4294967295\n"];
    if (!begin_again(&run, batch))
        return false;
    if (changes->count == 0)
        return add_frame(file, path, "# no record changed it\n", &run);
    for (size_t i = 0; i < changes->count; i++) {
        unsigned long record = changes->list[i].record;
        snprintf(comment, sizeof comment, "# record %lu\n", record);
        if (!send_up_to(&run, batch, record + 1) || !add_frame(file, path, comment, &run))
            return false;
    }
    return true;
}

bool write_changes(const char *path, const struct changes *changes, const struct batch *batch)
{
    FILE *file = open_output(path);
    return file != NULL && close_output(file, path, add_pictures(file, path, changes, batch));
}

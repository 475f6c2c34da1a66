/* Target: the same input to the library and to the second program; every answer and every whole buffer has to be the same. The input is a
 * byte that says what is compared and by which edition, then a file, an opening and calls, a record's numbers, an address, a text or a
 * history. An opening has its own edition. */
#include "blocks.h"
#include "edition.h"
#include "valid_file.h"
#include "guarded.h"
#include "must.h"
#include "plan.h"
#include "record.h"
#include "same.h"
#include "second.h"

enum { OTHER_SIZE = GUARDED_MOST, HISTORY_MOST = 1 << 15 };

static bool at_start;
static uint32_t edition;
static uint8_t other[OTHER_SIZE], other_history[HISTORY_MOST]; /* the second program's buffers */

/* Lends a buffer to the library, and the same bytes to the second program. */
static uint8_t *both(size_t size)
{
    memset(other, 0xEE, size);
    return guarded(SLOT_TEXT, at_start, NULL, size);
}

static void buffers_agree(const uint8_t *ours, size_t size)
{
    must(memcmp(ours, other, size) == 0);
    guarded_check(SLOT_TEXT);
}

static void record_n(const uint8_t *file, size_t length, size_t n, size_t size)
{
    uint8_t *texts = both(size);
    must(same_contact(codeplug_contact(file, length, n, texts, size, edition), second_contact(file, length, n, other, size, edition)));
    buffers_agree(texts, size);
    must(same_channel(codeplug_channel(file, length, n, texts, size, edition), second_channel(file, length, n, other, size, edition)));
    buffers_agree(texts, size);
    must(same_bank(codeplug_bank(file, length, n, texts, size, edition), second_bank(file, length, n, other, size, edition)));
    buffers_agree(texts, size);
    for (size_t i = 0; i < 3; i++)
        must(same_bank_entry(codeplug_bank_entry(file, length, n, i, edition), second_bank_entry(file, length, n, i, edition)));
}

/* The same by the readers that do not validate the file. */
static void prevalidated_n(const uint8_t *file, size_t length, size_t n, size_t size)
{
    uint8_t *texts = both(size);
    must(same_contact(codeplug_contact_prevalidated(file, length, n, texts, size, edition),
        second_contact_prevalidated(file, length, n, other, size, edition)));
    buffers_agree(texts, size);
    must(same_channel(codeplug_channel_prevalidated(file, length, n, texts, size),
        second_channel_prevalidated(file, length, n, other, size)));
    buffers_agree(texts, size);
    must(same_bank(codeplug_bank_prevalidated(file, length, n, texts, size), second_bank_prevalidated(file, length, n, other, size)));
    buffers_agree(texts, size);
    for (size_t i = 0; i < 3; i++)
        must(same_bank_entry(codeplug_bank_entry_prevalidated(file, length, n, i), second_bank_entry_prevalidated(file, length, n, i)));
    must(same_bank_entry(codeplug_bank_entry_prevalidated(file, length, n, SIZE_MAX),
        second_bank_entry_prevalidated(file, length, n, SIZE_MAX)));
}

/* By the legacy reading, and the whole file after migrating it. */
static void migrated(const uint8_t *bytes, size_t length)
{
    uint8_t *file = guarded(SLOT_FILE, at_start, bytes, length);
    memcpy(other, file, length);
    must(same_validate(codeplug_validate_legacy(file, length, edition), second_validate_legacy(file, length, edition)));
    must(same_validate(codeplug_migrate(file, length, edition), second_migrate(other, length, edition)));
    must(memcmp(file, other, length) == 0);
    guarded_check(SLOT_FILE);
}

static void a_file(const uint8_t *bytes, size_t length, size_t size, size_t n)
{
    const uint8_t *file = guarded(SLOT_FILE, at_start, bytes, length);
    must(same_validate(codeplug_validate(file, length, edition), second_validate(file, length, edition)));
    uint8_t *texts = both(size);
    must(same_header(codeplug_header(file, length, texts, size, edition), second_header(file, length, other, size, edition)));
    buffers_agree(texts, size);
    for (size_t i = 0; i < 3; i++) {
        record_n(file, length, i, size);
        prevalidated_n(file, length, i, size);
    }
    record_n(file, length, n, size);
    prevalidated_n(file, length, n, size);
    must(length == 0 || memcmp(file, bytes, length) == 0);
    migrated(bytes, length);
}

static void files(struct input in)
{
    size_t size = take_byte(&in) % (CODEPLUG_TEXTS_SIZE + 4u), n = take_place(&in);
    a_file(in.at, in.left, size, n);
}

/* A few bytes of a file changed. */
static void change(struct input *in, uint8_t *file, size_t length)
{
    for (int i = 0; i < 4 && in->left > 0; i++) {
        size_t at = take_number(in, 2) % length;
        file[at] = take_byte(in);
    }
}

/* A valid file of chosen counts, with a few bytes changed. */
static void made_files(struct input in)
{
    static uint8_t made[VALID_FILE_MOST];
    size_t n = take_place(&in), length = take_valid_file(&in, made);
    change(&in, made, length);
    a_file(made, length, CODEPLUG_TEXTS_SIZE, n);
}

/* The same of a legacy file. */
static void made_legacy_files(struct input in)
{
    static uint8_t made[VALID_FILE_MOST];
    size_t length = take_legacy_file(&in, made);
    change(&in, made, length);
    migrated(made, length);
}

static struct codeplug_edit_answer call(const struct opening *o, const struct call *c, uint8_t *room, uint8_t *history)
{
    if (c->undo)
        return codeplug_undo(room, o->room_size, c->length, history, o->history_size, c->used, c->edition);
    const uint8_t *record = guarded(SLOT_RECORD, at_start, c->record, c->record_length);
    return codeplug_edit(room, o->room_size, c->length, history, o->history_size, c->used, c->kind, c->first, c->second, record,
        c->record_length, c->edition);
}

static struct codeplug_edit_answer second_call(const struct opening *o, const struct call *c)
{
    if (c->undo)
        return second_undo(other, o->room_size, c->length, other_history, o->history_size, c->used, c->edition);
    return second_edit(other, o->room_size, c->length, other_history, o->history_size, c->used, c->kind, c->first, c->second, c->record,
        c->record_length, c->edition);
}

static void calls(struct input in)
{
    struct opening o = plan_opening(&in);
    must(o.room_size <= OTHER_SIZE && o.history_size <= HISTORY_MOST);
    uint8_t *room = guarded(SLOT_FILE, at_start, NULL, o.room_size), *history = guarded(SLOT_HISTORY, at_start, NULL, o.history_size);
    memcpy(room, o.file, o.file_length);
    memcpy(history, o.entries, o.entries_length);
    memcpy(other, room, o.room_size);
    memcpy(other_history, history, o.history_size);
    struct list list = {.in = in, .newer = o.newer, .changes = o.changes};
    size_t length = o.file_length, used = o.entries_length;
    while (plan_next(&list, room, length, used)) {
        struct codeplug_edit_answer a = call(&o, &list.call, room, history);
        must(same_edit(a, second_call(&o, &list.call)));
        must(memcmp(room, other, o.room_size) == 0 && memcmp(history, other_history, o.history_size) == 0);
        guarded_check(SLOT_FILE);
        guarded_check(SLOT_HISTORY);
        if (a.number == CODEPLUG_OK) {
            length = a.length;
            used = a.used;
        }
    }
    must(same_history(codeplug_history_entries(history, used), second_history_entries(history, used)));
}

/* Any bytes as a history. */
static void history(struct input in)
{
    const uint8_t *bytes = guarded(SLOT_HISTORY, at_start, in.at, in.left);
    must(same_history(codeplug_history_entries(bytes, in.left), second_history_entries(bytes, in.left)));
}

static void text(struct input in)
{
    size_t size = take_byte(&in) % 40u;
    const uint8_t *from = guarded(SLOT_OTHER, at_start, in.at, in.left);
    uint8_t *out = both(size);
    must(same_refusal(codeplug_write_text(out, size, from, in.left), second_write_text(other, size, from, in.left)));
    buffers_agree(out, size);
    size = take_byte(&in) % 100u;
    out = both(size);
    must(same_refusal(codeplug_write_empty(out, size), second_write_empty(other, size)));
    buffers_agree(out, size);
}

static void contact(struct input in)
{
    size_t size = take_byte(&in) % 48u, length;
    struct codeplug_contact_values values = take_contact(&in, true);
    const uint8_t *from = take_some(&in, 48, &length), *name = guarded(SLOT_OTHER, at_start, from, length);
    uint8_t *out = both(size);
    must(same_refusal(codeplug_write_contact(out, size, name, length, values, edition),
        second_write_contact(other, size, name, length, values, edition)));
    buffers_agree(out, size);
}

static void channel(struct input in)
{
    size_t size = take_byte(&in) % 100u, name_length = take_byte(&in) % 40u, length;
    bool wild = take_byte(&in) & 1;
    struct codeplug_channel_common common = take_common(&in, wild);
    struct codeplug_channel_info info = take_info(&in, !wild);
    const uint8_t *from = take_some(&in, name_length, &name_length), *name = guarded(SLOT_OTHER, at_start, from, name_length);
    from = take_some(&in, 40, &length);
    const uint8_t *description = guarded(SLOT_RECORD, at_start, from, length);
    uint8_t *out = both(size);
    must(same_refusal(codeplug_write_channel(out, size, name, name_length, description, length, common, info),
        second_write_channel(other, size, name, name_length, description, length, common, info)));
    buffers_agree(out, size);
}

static void address(struct input in)
{
    size_t size = take_byte(&in) % 16u;
    uint64_t number = take_number(&in, 8);
    const uint8_t *text = guarded(SLOT_OTHER, at_start, in.at, in.left);
    uint8_t *out = both(size);
    must(same_decode(codeplug_decode_address(number, out, size, edition), second_decode_address(number, other, size, edition)));
    buffers_agree(out, size);
    must(same_encode(codeplug_encode_callsign(text, in.left, edition), second_encode_callsign(text, in.left, edition)));
    must(codeplug_tone_frequency((uint8_t)size) == second_tone_frequency((uint8_t)size));
    must(codeplug_tone_frequency((uint8_t)number) == second_tone_frequency((uint8_t)number));
    must(codeplug_tone_index((uint16_t)number) == second_tone_index((uint16_t)number));
}

int LLVMFuzzerInitialize(int *argc, char ***argv)
{
    (void)argc, (void)argv;
    blocks_watch();
    return 0;
}

int LLVMFuzzerTestOneInput(const uint8_t *data, size_t size)
{
    enum { MADE = 120, LEGACY = 124, TEXT = 126 };
    static void (*const what[])(struct input) = {files, calls, contact, channel, address}, (*const more[])(struct input) = {text, history};
    struct input in = {data, size};
    uint8_t how = take_byte(&in);
    if (size > GUARDED_MOST)
        return 0;
    blocks_again();
    at_start = how >= 128;
    how %= 128;
    edition = edition_number(how < MADE ? how / 5 % 2 : how % 2, how / 10);
    if (how < MADE)
        what[how % 5](in);
    else if (how < TEXT)
        how < LEGACY ? made_files(in) : made_legacy_files(in);
    else
        more[how - TEXT](in);
    return 0;
}

/* Valid codeplugs of chosen counts, with records that are alike or differ: what an edit has in common with its neighbours matters. */
#include "valid_file.h"

#include "codeplug.h"
#include "edition.h"
#include "legacy.h"
#include "must.h"

enum { CONTACTS = 16, CHANNELS = 32, BANKS = 12, ENTRIES = 40, HASH_STEP = 0xF0 };

/* What the records are made of: how much they differ, and the banks' names. */
struct style {
    size_t step;
    uint8_t letter, letters;
};

/* A count below `most`, or past 255 where the byte is one of the last: then counts take two bytes. */
static size_t take_count(struct input *in, size_t most)
{
    uint8_t b = take_byte(in);
    return b < 0xF8 ? b % most : 0x100 + b - 0xF8u;
}

static void put(uint8_t *at, size_t n, size_t size)
{
    for (size_t i = 0; i < size; i++)
        at[i] = (uint8_t)(n >> (8 * i));
}

/* DMR where n is even, M17 where it is odd. Where the step is one of the largest, every other M17 contact has a hash address. */
static uint8_t *put_contact(uint8_t *at, size_t n, size_t step)
{
    struct codeplug_contact_values v = {.mode = 1 + n % 2, .id = (uint32_t)(n * step), .address = 1 + n * step};
    if (step >= HASH_STEP && n % 4 == 1)
        v.address += FIRST_HASH - 1;
    must(codeplug_write_contact(at, CODEPLUG_CONTACT_SIZE, (const uint8_t *)"contact", 7, v, CODEPLUG_EDITION_NEWER).number
        == CODEPLUG_OK);
    return at + CODEPLUG_CONTACT_SIZE;
}

static uint8_t *put_channel(uint8_t *at, size_t n, size_t step, size_t contacts)
{
    struct codeplug_channel_common common = {.receive_hz = (uint32_t)(n * step)};
    struct codeplug_channel_info info = {.contact = CODEPLUG_NOBODY, .slot = 1, .operation = 1};
    if (n % 3 != 0 && contacts > 0) {
        info.contact = (uint16_t)(n * 7 % contacts);
        info.mode = 1 + info.contact % 2;
    }
    must(codeplug_write_channel(at, CODEPLUG_CHANNEL_SIZE, (const uint8_t *)"channel", 7, NULL, 0, common, info).number == CODEPLUG_OK);
    return at + CODEPLUG_CHANNEL_SIZE;
}

static uint8_t *put_bank(uint8_t *at, size_t n, struct style style, size_t entries, size_t channels)
{
    uint8_t name[CODEPLUG_TEXT_SIZE];
    memset(name, style.letter, style.letters);
    must(codeplug_write_text(at, CODEPLUG_TEXT_SIZE, name, style.letters).number == CODEPLUG_OK);
    put(at + CODEPLUG_TEXT_SIZE, entries, 2);
    at += CODEPLUG_TEXT_SIZE + 2;
    for (size_t i = 0; i < entries; i++, at += CODEPLUG_BANK_ENTRY_SIZE)
        put(at, (n + i * style.step) % channels, CODEPLUG_BANK_ENTRY_SIZE);
    return at;
}

size_t take_valid_file(struct input *in, uint8_t file[VALID_FILE_MOST])
{
    size_t contacts = take_count(in, CONTACTS), channels = take_count(in, CHANNELS), banks = take_count(in, BANKS);
    size_t entries = take_count(in, ENTRIES);
    struct style style = {.step = take_byte(in), .letter = ' ' + take_byte(in) % 95, .letters = take_byte(in) % (CODEPLUG_TEXT_SIZE + 1)};
    if (channels == 0 || banks > BANKS)
        entries = channels == 0 ? 0 : entries % 8;
    must(codeplug_write_empty(file, VALID_FILE_MOST).number == CODEPLUG_OK);
    put(file + 82, contacts, 2);
    put(file + 84, channels, 2);
    put(file + 86, banks, 2);
    uint8_t *at = file + CODEPLUG_HEADER_SIZE;
    for (size_t n = 0; n < contacts; n++)
        at = put_contact(at, n, style.step);
    for (size_t n = 0; n < channels; n++)
        at = put_channel(at, n, style.step, contacts);
    uint8_t *offsets = at, *first = at += 4 * banks;
    for (size_t n = 0; n < banks; n++) {
        put(offsets + 4 * n, (size_t)(at - first), 4);
        at = put_bank(at, n, style, entries, channels);
    }
    must(codeplug_validate(file, (size_t)(at - file), CODEPLUG_EDITION_NEWER).number == CODEPLUG_OK);
    return (size_t)(at - file);
}

size_t take_legacy_file(struct input *in, uint8_t file[VALID_FILE_MOST])
{
    size_t length = take_valid_file(in, file), pick = take_byte(in);
    struct codeplug_validate_answer counts = codeplug_validate(file, length, CODEPLUG_EDITION_NEWER);
    for (size_t n = 0; n < settings_records(counts); n++) {
        size_t at = settings_place(file, counts, n);
        if (at > 0)
            file[at] = legacy_settings[(pick + n) % SETTINGS];
    }
    must(codeplug_validate_legacy(file, length, CODEPLUG_EDITION_NEWER).number == CODEPLUG_OK);
    return length;
}

/* Target: the input is a file, and the top bit of its first byte the edition. Validation and every reader have to agree with each other, by
 * both ways of reading, wherever it is lent; validation by the one edition and by the other, too. */
#include <string.h>

#include "blocks.h"
#include "codeplug.h"
#include "edition.h"
#include "guarded.h"
#include "must.h"
#include "same.h"
#include "text.h"

enum { FRESH = 0xEE, SPARE = 3 }; /* what a guarded buffer is filled with; bytes after what a reader writes */

/* Which refusals arose, and about where: for the fuzzer. */
__attribute__((section("__libfuzzer_extra_counters"))) static uint8_t seen[13][12];

static const uint8_t *file;
static size_t length;
static uint32_t edition;
static bool at_start;

static uint8_t *texts_of(size_t size)
{
    return guarded(SLOT_TEXT, at_start, NULL, size);
}

static void untouched(const uint8_t *texts, size_t from, size_t to)
{
    must(all_are(texts, from, to, FRESH));
    guarded_check(SLOT_TEXT);
}

/* A text that was read, written again. */
static void written_again(const uint8_t *field)
{
    uint8_t *out = guarded(SLOT_RECORD, at_start, NULL, CODEPLUG_TEXT_SIZE);
    const uint8_t *text = guarded(SLOT_OTHER, at_start, field, codeplug_text_length(field));
    must(codeplug_write_text(out, CODEPLUG_TEXT_SIZE, text, codeplug_text_length(field)).number == CODEPLUG_OK);
    must(memcmp(out, field, CODEPLUG_TEXT_SIZE) == 0);
    guarded_check(SLOT_RECORD);
}

static void valid_contact(size_t n)
{
    const uint8_t *there = file + CODEPLUG_HEADER_SIZE + CODEPLUG_CONTACT_SIZE * n;
    uint8_t *name = texts_of(CODEPLUG_TEXT_SIZE + SPARE);
    struct codeplug_contact_answer a = codeplug_contact(file, length, n, name, CODEPLUG_TEXT_SIZE + SPARE, edition);
    must(a.number == CODEPLUG_OK && memcmp(name, there, CODEPLUG_TEXT_SIZE) == 0);
    untouched(name, CODEPLUG_TEXT_SIZE, CODEPLUG_TEXT_SIZE + SPARE);
    name = texts_of(CODEPLUG_TEXT_SIZE);
    must(same_contact(a, codeplug_contact_prevalidated(file, length, n, name, CODEPLUG_TEXT_SIZE, edition)));
    uint8_t *out = guarded(SLOT_RECORD, at_start, NULL, CODEPLUG_CONTACT_SIZE);
    struct codeplug_refusal w = codeplug_write_contact(out, CODEPLUG_CONTACT_SIZE, name, codeplug_text_length(name), a.values, edition);
    must(w.number == CODEPLUG_OK && memcmp(out, there, CODEPLUG_CONTACT_SIZE) == 0);
    guarded_check(SLOT_TEXT);
    guarded_check(SLOT_RECORD);
}

static void valid_channel(size_t n, size_t contacts)
{
    const uint8_t *there = file + CODEPLUG_HEADER_SIZE + CODEPLUG_CONTACT_SIZE * contacts + CODEPLUG_CHANNEL_SIZE * n;
    uint8_t *texts = texts_of(CODEPLUG_TEXTS_SIZE + SPARE);
    struct codeplug_channel_answer a = codeplug_channel(file, length, n, texts, CODEPLUG_TEXTS_SIZE + SPARE, edition);
    must(a.number == CODEPLUG_OK && memcmp(texts, there + 13, CODEPLUG_TEXTS_SIZE) == 0);
    must(a.info.contact == CODEPLUG_NOBODY || a.info.contact < contacts);
    untouched(texts, CODEPLUG_TEXTS_SIZE, CODEPLUG_TEXTS_SIZE + SPARE);
    texts = texts_of(CODEPLUG_TEXTS_SIZE);
    must(same_channel(a, codeplug_channel_prevalidated(file, length, n, texts, CODEPLUG_TEXTS_SIZE)));
    uint8_t *out = guarded(SLOT_RECORD, at_start, NULL, CODEPLUG_CHANNEL_SIZE), *description = texts + CODEPLUG_TEXT_SIZE;
    struct codeplug_refusal w = codeplug_write_channel(out, CODEPLUG_CHANNEL_SIZE, texts, codeplug_text_length(texts), description,
        codeplug_text_length(description), a.common, a.info);
    must(w.number == CODEPLUG_OK && memcmp(out, there, CODEPLUG_CHANNEL_SIZE) == 0);
    guarded_check(SLOT_TEXT);
    guarded_check(SLOT_RECORD);
}

/* Bank n, which begins at `at`; answers where it ends. */
static size_t valid_bank(size_t n, size_t at, size_t channels)
{
    uint8_t *name = texts_of(CODEPLUG_TEXT_SIZE);
    struct codeplug_bank_answer a = codeplug_bank(file, length, n, name, CODEPLUG_TEXT_SIZE, edition);
    must(a.number == CODEPLUG_OK && memcmp(name, file + at, CODEPLUG_TEXT_SIZE) == 0);
    must(same_bank(a, codeplug_bank_prevalidated(file, length, n, name, CODEPLUG_TEXT_SIZE)));
    written_again(name);
    guarded_check(SLOT_TEXT);
    at += CODEPLUG_TEXT_SIZE + 2;
    for (size_t i = 0; i < a.entries; i++, at += CODEPLUG_BANK_ENTRY_SIZE) {
        struct codeplug_bank_entry_answer e = codeplug_bank_entry_prevalidated(file, length, n, i);
        must(e.number == CODEPLUG_OK && e.next == i + 1 && e.channel < channels);
        must(e.channel == file[at] + 256 * file[at + 1]);
        if (i < 4)
            must(same_bank_entry(e, codeplug_bank_entry(file, length, n, i, edition)));
    }
    struct codeplug_bank_entry_answer past = codeplug_bank_entry(file, length, n, a.entries, edition);
    must(past.number == CODEPLUG_REFUSED_NO_PLACE && past.place == 0 && past.channel == 0 && past.next == 0);
    must(same_bank_entry(past, codeplug_bank_entry_prevalidated(file, length, n, a.entries)));
    return at;
}

/* Every reader's refusal of record n is the one given, and writes nothing. */
static void refused(size_t contact, size_t channel, size_t bank, uint8_t number, size_t place)
{
    uint8_t *texts = texts_of(CODEPLUG_TEXTS_SIZE);
    must(same_contact(blank_contact(number, place), codeplug_contact(file, length, contact, texts, CODEPLUG_TEXT_SIZE, edition)));
    must(same_channel(blank_channel(number, place), codeplug_channel(file, length, channel, texts, CODEPLUG_TEXTS_SIZE, edition)));
    must(same_bank((struct codeplug_bank_answer){number, place, 0}, codeplug_bank(file, length, bank, texts, CODEPLUG_TEXT_SIZE, edition)));
    must(same_bank_entry((struct codeplug_bank_entry_answer){number, place, 0, 0}, codeplug_bank_entry(file, length, bank, 0, edition)));
    untouched(texts, 0, CODEPLUG_TEXTS_SIZE);
}

/* A buffer that is too short is refused before anything else. */
static void short_buffers(size_t size)
{
    uint8_t *texts = texts_of(size);
    if (size < CODEPLUG_TEXT_SIZE) {
        must(same_contact(blank_contact(CODEPLUG_REFUSED_SHORT_BUFFER, 0), codeplug_contact(file, length, 0, texts, size, edition)));
        must(same_contact(blank_contact(CODEPLUG_REFUSED_SHORT_BUFFER, 0),
            codeplug_contact_prevalidated(file, length, 0, texts, size, edition)));
        must(codeplug_bank(file, length, 0, texts, size, edition).number == CODEPLUG_REFUSED_SHORT_BUFFER);
        must(codeplug_bank_prevalidated(file, length, 0, texts, size).number == CODEPLUG_REFUSED_SHORT_BUFFER);
    }
    must(codeplug_header(file, length, texts, size, edition).number == CODEPLUG_REFUSED_SHORT_BUFFER);
    must(same_channel(blank_channel(CODEPLUG_REFUSED_SHORT_BUFFER, 0), codeplug_channel(file, length, 0, texts, size, edition)));
    must(same_channel(blank_channel(CODEPLUG_REFUSED_SHORT_BUFFER, 0), codeplug_channel_prevalidated(file, length, 0, texts, size)));
    untouched(texts, 0, size);
}

/* The readers of a validated file answer for any other bytes too. */
static void prevalidated(size_t n)
{
    uint8_t *texts = texts_of(CODEPLUG_TEXTS_SIZE);
    struct codeplug_contact_answer a = codeplug_contact_prevalidated(file, length, n, texts, CODEPLUG_TEXT_SIZE, edition);
    untouched(texts, a.number ? 0 : CODEPLUG_TEXT_SIZE, CODEPLUG_TEXTS_SIZE);
    must(a.number == 0 || same_contact(a, blank_contact(a.number, a.place)));
    texts = texts_of(CODEPLUG_TEXTS_SIZE);
    struct codeplug_channel_answer c = codeplug_channel_prevalidated(file, length, n, texts, CODEPLUG_TEXTS_SIZE);
    untouched(texts, c.number ? 0 : CODEPLUG_TEXTS_SIZE, CODEPLUG_TEXTS_SIZE);
    must(c.number == 0 || same_channel(c, blank_channel(c.number, c.place)));
    texts = texts_of(CODEPLUG_TEXTS_SIZE);
    struct codeplug_bank_answer b = codeplug_bank_prevalidated(file, length, n, texts, CODEPLUG_TEXT_SIZE);
    untouched(texts, b.number ? 0 : CODEPLUG_TEXT_SIZE, CODEPLUG_TEXTS_SIZE);
    struct codeplug_bank_entry_answer e = codeplug_bank_entry_prevalidated(file, length, n, n);
    must(e.number == CODEPLUG_OK ? e.next == n + 1 : e.number == CODEPLUG_REFUSED_NO_PLACE && e.place == 0);
}

static void valid(struct codeplug_validate_answer v)
{
    uint8_t *texts = texts_of(CODEPLUG_TEXTS_SIZE + SPARE);
    struct codeplug_header_answer h = codeplug_header(file, length, texts, CODEPLUG_TEXTS_SIZE + SPARE, edition);
    must(h.number == CODEPLUG_OK && h.contacts == v.contacts && h.channels == v.channels && h.banks == v.banks);
    must(memcmp(texts, file + 10, CODEPLUG_TEXTS_SIZE) == 0);
    written_again(texts);
    written_again(texts + CODEPLUG_TEXT_SIZE);
    untouched(texts, CODEPLUG_TEXTS_SIZE, CODEPLUG_TEXTS_SIZE + SPARE);
    for (size_t n = 0; n < v.contacts; n++)
        valid_contact(n);
    for (size_t n = 0; n < v.channels; n++)
        valid_channel(n, v.contacts);
    size_t at = CODEPLUG_HEADER_SIZE + CODEPLUG_CONTACT_SIZE * v.contacts + CODEPLUG_CHANNEL_SIZE * v.channels + 4 * v.banks;
    for (size_t n = 0; n < v.banks; n++)
        at = valid_bank(n, at, v.channels);
    must(at == length);
    refused(v.contacts, v.channels, v.banks, CODEPLUG_REFUSED_NO_PLACE, 0);
    refused(SIZE_MAX, SIZE_MAX, SIZE_MAX, CODEPLUG_REFUSED_NO_PLACE, 0);
}

static void invalid(struct codeplug_validate_answer v)
{
    must(v.number <= CODEPLUG_REFUSED_TRAILING && v.place <= length && v.contacts == 0 && v.channels == 0 && v.banks == 0);
    uint8_t *texts = texts_of(CODEPLUG_TEXTS_SIZE);
    must(same_header((struct codeplug_header_answer){v.number, v.place, 0, 0, 0, 0},
        codeplug_header(file, length, texts, CODEPLUG_TEXTS_SIZE, edition)));
    untouched(texts, 0, CODEPLUG_TEXTS_SIZE);
    refused(0, 0, 0, v.number, v.place);
    refused(1, 65535, SIZE_MAX, v.number, v.place);
    seen[v.number][v.place < CODEPLUG_HEADER_SIZE ? v.place / 8 : 11] = 1;
}

int LLVMFuzzerInitialize(int *argc, char ***argv)
{
    (void)argc, (void)argv;
    blocks_watch();
    return 0;
}

/* Every reader, of the file as it is lent now. */
static void all_readers(struct codeplug_validate_answer v)
{
    v.number == CODEPLUG_OK ? valid(v) : invalid(v);
    for (size_t n = 0; n < 3; n++)
        prevalidated(n);
    prevalidated(SIZE_MAX / 39);
    short_buffers(length % CODEPLUG_TEXTS_SIZE);
    guarded_check(SLOT_FILE);
}

int LLVMFuzzerTestOneInput(const uint8_t *data, size_t size)
{
    static uint8_t bytes[GUARDED_MOST];
    if (size > GUARDED_MOST)
        return 0;
    blocks_again();
    if (size > 0)
        memcpy(bytes, data, size);
    edition = edition_of_file(bytes, size);
    length = size;
    file = guarded(SLOT_FILE, false, bytes, size);
    struct codeplug_validate_answer first = codeplug_validate(file, length, edition);
    must(editions_agree(file, codeplug_validate(file, length, CODEPLUG_EDITION_OLDER),
        codeplug_validate(file, length, CODEPLUG_EDITION_NEWER)));
    for (int round = 0; round < 2; round++) {
        at_start = round == 0;
        file = guarded(SLOT_FILE, at_start, bytes, size);
        must(same_validate(first, codeplug_validate(file, length, edition)));
        all_readers(first);
        must(size == 0 || memcmp(file, bytes, size) == 0);
    }
    return 0;
}

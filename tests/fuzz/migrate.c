/* Target: the input is a file, and the top bit of its first byte the edition. It is validated by both readings and migrated, wherever it is
 * lent. A file that the new reading accepts is also put in the legacy order, and has to come back. What one edition answers has to fit what
 * the other does. */
#include <string.h>

#include "blocks.h"
#include "codeplug.h"
#include "edition.h"
#include "guarded.h"
#include "legacy.h"
#include "must.h"
#include "same.h"

/* Which refusals arose, and about where: for the fuzzer. */
__attribute__((section("__libfuzzer_extra_counters"))) static uint8_t seen[13][12];

static size_t length;
static uint32_t edition;
static bool at_start;

/* The answers differ only where one reading refuses a settings byte before the other comes to its answer. */
static void readings(struct codeplug_validate_answer by_legacy, struct codeplug_validate_answer by_new)
{
    bool sooner = by_legacy.number != CODEPLUG_OK && (by_new.number == CODEPLUG_OK || by_legacy.place < by_new.place);
    must(same_validate(by_legacy, by_new) || (sooner ? by_legacy : by_new).number == CODEPLUG_REFUSED_VALUE);
}

static void refused(const uint8_t *file, const uint8_t *old, struct codeplug_validate_answer a)
{
    must(a.number <= CODEPLUG_REFUSED_TRAILING && a.place <= length && a.contacts == 0 && a.channels == 0 && a.banks == 0);
    must(length == 0 || memcmp(file, old, length) == 0);
    seen[a.number][a.place < CODEPLUG_HEADER_SIZE ? a.place / 8 : 11] = 1;
}

/* What an accepted file becomes. Answers where its first settings stand that are not 0, or 0. */
static size_t expect(const uint8_t *old, struct codeplug_validate_answer counts, uint8_t *expected)
{
    size_t first = 0;
    memcpy(expected, old, length);
    for (size_t n = 0; n < settings_records(counts); n++) {
        size_t at = settings_place(old, counts, n), i = at == 0 ? 0 : settings_index(legacy_settings, old[at]);
        must(i < SETTINGS);
        if (i > 0)
            expected[at] = new_settings[i];
        if (first == 0 && i > 0)
            first = at;
    }
    return first;
}

/* Migrating once more is refused at the first settings that are not 0, or answers the same; either way it changes nothing. */
static void accepted(uint8_t *file, const uint8_t *old, struct codeplug_validate_answer a)
{
    static uint8_t expected[GUARDED_MOST];
    size_t first = expect(old, a, expected);
    must(memcmp(file, expected, length) == 0 && same_validate(a, codeplug_validate(file, length, edition)));
    struct codeplug_validate_answer twice = first == 0 ? a : (struct codeplug_validate_answer){CODEPLUG_REFUSED_VALUE, first, 0, 0, 0};
    must(same_validate(twice, codeplug_validate_legacy(file, length, edition)));
    must(same_validate(twice, codeplug_migrate(file, length, edition)));
    must(memcmp(file, expected, length) == 0);
    guarded_check(SLOT_FILE);
}

/* Migrates a copy; answers where it stands. */
static const uint8_t *migrated(const uint8_t *old)
{
    uint8_t *file = guarded(SLOT_FILE, at_start, old, length);
    struct codeplug_validate_answer a = codeplug_validate_legacy(file, length, edition);
    readings(a, codeplug_validate(file, length, edition));
    must(length == 0 || memcmp(file, old, length) == 0);
    must(same_validate(a, codeplug_migrate(file, length, edition)));
    guarded_check(SLOT_FILE);
    if (a.number == CODEPLUG_OK)
        accepted(file, old, a);
    else
        refused(file, old, a);
    return file;
}

/* A file that the new reading accepts. */
static void comes_back(const uint8_t *file, struct codeplug_validate_answer counts)
{
    static uint8_t legacy[GUARDED_MOST];
    memcpy(legacy, file, length);
    for (size_t n = 0; n < settings_records(counts); n++) {
        size_t at = settings_place(file, counts, n), i = at == 0 ? 0 : settings_index(new_settings, file[at]);
        must(i < SETTINGS);
        if (i > 0)
            legacy[at] = legacy_settings[i];
    }
    must(memcmp(migrated(legacy), file, length) == 0);
}

int LLVMFuzzerInitialize(int *argc, char ***argv)
{
    (void)argc, (void)argv;
    blocks_watch();
    return 0;
}

int LLVMFuzzerTestOneInput(const uint8_t *data, size_t size)
{
    static uint8_t bytes[GUARDED_MOST];
    if (size > GUARDED_MOST)
        return 0;
    blocks_again();
    if (size > 0)
        memcpy(bytes, data, size);
    edition = edition_of_file(bytes, size);
    length = size;
    if (size == 0)
        must(same_validate(codeplug_validate_legacy(NULL, 0, edition), codeplug_migrate(NULL, 0, edition)));
    must(editions_agree(bytes, codeplug_validate_legacy(bytes, size, CODEPLUG_EDITION_OLDER),
        codeplug_validate_legacy(bytes, size, CODEPLUG_EDITION_NEWER)));
    for (int round = 0; round < 2; round++) {
        at_start = round == 0;
        migrated(bytes);
        struct codeplug_validate_answer by_new = codeplug_validate(bytes, size, edition);
        if (by_new.number == CODEPLUG_OK)
            comes_back(bytes, by_new);
    }
    return 0;
}

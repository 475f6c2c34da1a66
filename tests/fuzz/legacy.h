/* The bytes that the legacy reading and the new one read otherwise: the traits of channels and the settings of DMR contacts. */
#ifndef FUZZ_LEGACY_H
#define FUZZ_LEGACY_H

#include "codeplug.h"

enum { SETTINGS = 6 };

/* The good bytes of each reading: those at one index mean the same. */
static const uint8_t legacy_settings[SETTINGS] = {0x00, 0x20, 0x40, 0x60, 0x80, 0xA0}, new_settings[SETTINGS] = {0, 4, 1, 5, 2, 6};

/* The index of a byte among the good ones; SETTINGS where it is none of them. */
static inline size_t settings_index(const uint8_t good[SETTINGS], uint8_t byte)
{
    size_t i = 0;
    while (i < SETTINGS && good[i] != byte)
        i++;
    return i;
}

static inline size_t settings_records(struct codeplug_validate_answer counts)
{
    return (size_t)counts.contacts + counts.channels;
}

/* Where record n of an accepted file, contacts before channels, has its settings or traits; 0 where it has none. */
static inline size_t settings_place(const uint8_t *file, struct codeplug_validate_answer counts, size_t n)
{
    size_t contact = CODEPLUG_HEADER_SIZE + CODEPLUG_CONTACT_SIZE * n;
    if (n < counts.contacts)
        return file[contact + 32] == CODEPLUG_DMR ? contact + 37 : 0;
    return CODEPLUG_HEADER_SIZE + CODEPLUG_CONTACT_SIZE * counts.contacts + CODEPLUG_CHANNEL_SIZE * (n - counts.contacts) + 1;
}

#endif

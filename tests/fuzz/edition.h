/* Editions of addresses: the numbers in which they differ, and how an input chooses one. */
#ifndef FUZZ_EDITION_H
#define FUZZ_EDITION_H

#include "codeplug.h"
#include "same.h"

static const uint64_t FIRST_HASH = 262144000000000, LAST_HASH = 268697599999999, BROADCAST = 0xFFFFFFFFFFFF;

static inline bool is_hash(uint64_t n)
{
    return n >= FIRST_HASH && n <= LAST_HASH;
}

/* What the library is given: 1 for the newer edition, and for the older one of the other numbers, which `pick` picks. */
static inline uint32_t edition_number(bool newer, size_t pick)
{
    static const uint32_t older[] = {CODEPLUG_EDITION_OLDER, 2, 257, UINT32_MAX};
    return newer ? CODEPLUG_EDITION_NEWER : older[pick % 4];
}

/* Where an input is a file, the top bit of its first byte says the edition, 1 the newer: in a codeplug it is 0. It is cleared. */
static inline uint32_t edition_of_file(uint8_t *file, size_t size)
{
    bool newer = size > 0 && file[0] >= 0x80;
    if (newer)
        file[0] &= 0x7F;
    return edition_number(newer, size);
}

/* Whether the editions may answer so for a file: alike, but where the older refuses a hash address. Then the newer accepts the file, or
 * refuses something later. */
static inline bool editions_agree(const uint8_t *file, struct codeplug_validate_answer older, struct codeplug_validate_answer newer)
{
    uint64_t address = 0;
    for (size_t i = 0; older.number == CODEPLUG_REFUSED_ADDRESS && i < 6; i++)
        address = address << 8 | file[older.place + i];
    if (!is_hash(address))
        return same_validate(older, newer);
    return newer.number == CODEPLUG_OK || newer.place > older.place;
}

#endif

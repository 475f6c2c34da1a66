/* A history's entries, counted by document 01's rules. */
#ifndef FUZZ_HISTORY_H
#define FUZZ_HISTORY_H

#include <stddef.h>
#include <stdint.h>

/* A number in groups of seven bits at *at; -1 where it is cut off, too large or not in its shortest form. */
static inline long history_number(const uint8_t *bytes, size_t used, size_t *at)
{
    long n = 0;
    for (int shift = 0; *at < used && shift < 28; shift += 7) {
        uint8_t b = bytes[(*at)++];
        n |= (long)(b & 127) << shift;
        if (b < 128)
            return n > 1048576 || (b == 0 && shift > 0) ? -1 : n;
    }
    return -1;
}

/* How many entries the history has; -1 where it is not whole entries. */
static inline long history_entries(const uint8_t *bytes, size_t used)
{
    long entries = 0;
    for (size_t at = 0; at < used; entries++) {
        long p = history_number(bytes, used, &at), k = history_number(bytes, used, &at), m = history_number(bytes, used, &at);
        if (p < 0 || k < 0 || m < 0 || (size_t)m > used - at)
            return -1;
        at += (size_t)m;
    }
    return entries;
}

#endif

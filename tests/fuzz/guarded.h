/* Buffers for the library, with nothing of the program beside them. */
#ifndef FUZZ_GUARDED_H
#define FUZZ_GUARDED_H

#include <stdbool.h>
#include <stddef.h>
#include <stdint.h>

enum guarded_slot { SLOT_FILE, SLOT_HISTORY, SLOT_TEXT, SLOT_RECORD, SLOT_OTHER, SLOTS };

enum { GUARDED_MOST = 1 << 16 };

/* A buffer of that size in a slot. One side of it touches a page that cannot be read or written: the end, or where `at_start` is set, the
 * start. On the other side stand canary bytes, which the address sanitizer holds to be out of bounds. Its bytes are `from`'s, or where that
 * is null, 0xEE. */
uint8_t *guarded(enum guarded_slot slot, bool at_start, const uint8_t *from, size_t size);

/* Stops the program where a canary byte of the slot has changed. */
void guarded_check(enum guarded_slot slot);

#endif

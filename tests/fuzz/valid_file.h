/* A codeplug that is valid by the newer edition, and unless it has hash addresses by the older, out of a few bytes of an input. */
#ifndef FUZZ_VALID_FILE_H
#define FUZZ_VALID_FILE_H

#include "take.h"

enum { VALID_FILE_MOST = 1 << 16 };

/* Writes the codeplug and answers its length. */
size_t take_valid_file(struct input *in, uint8_t file[VALID_FILE_MOST]);

/* The same with traits and settings of the legacy order, which one more byte of the input picks. */
size_t take_legacy_file(struct input *in, uint8_t file[VALID_FILE_MOST]);

#endif

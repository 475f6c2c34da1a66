/* An input, read from its front. Past its end everything is 0. */
#ifndef FUZZ_TAKE_H
#define FUZZ_TAKE_H

#include <stddef.h>
#include <stdint.h>
#include <string.h>

struct input {
    const uint8_t *at;
    size_t left;
};

static inline uint8_t take_byte(struct input *in)
{
    if (in->left == 0)
        return 0;
    in->left--;
    return *in->at++;
}

/* A number of `size` bytes, low byte first. */
static inline uint64_t take_number(struct input *in, size_t size)
{
    uint64_t n = 0;
    for (size_t i = 0; i < size; i++)
        n |= (uint64_t)take_byte(in) << (8 * i);
    return n;
}

/* At most `size` bytes: where they stand, with how many there are. */
static inline const uint8_t *take_some(struct input *in, size_t size, size_t *got)
{
    static const uint8_t none[1];
    const uint8_t *from = in->left > 0 ? in->at : none;
    *got = size < in->left ? size : in->left;
    if (*got > 0)
        in->at += *got;
    in->left -= *got;
    return from;
}

/* A place in a list: most are small, some take a second byte, a few are near the largest number there is. */
static inline size_t take_place(struct input *in)
{
    uint8_t b = take_byte(in);
    if (b < 0xF0)
        return b;
    return b < 0xF8 ? 256u * (b - 0xF0u) + take_byte(in) : SIZE_MAX - (0xFFu - b);
}

#endif

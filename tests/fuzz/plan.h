/* An input as an opening (a room and a history) and a list of calls. */
#ifndef FUZZ_PLAN_H
#define FUZZ_PLAN_H

#include <stdbool.h>

#include "take.h"

enum { PLAN_CALLS = 96, PLAN_BYTES = 1 << 18, PLAN_RECORD = 128 };

/* Sizes and stated lengths. `file` and `entries` are what stands at the front of the room and of the history; spare bytes are as lent. */
struct opening {
    const uint8_t *file, *entries;
    size_t file_length, entries_length;
    size_t room_size, history_size;
    bool at_start;
    bool newer;     /* the edition of the first call */
    size_t changes; /* it changes after every so many calls; never where 0 */
};

/* A call, with the lengths that it states. */
struct call {
    bool undo;
    uint32_t edition;
    size_t length, used;
    size_t kind, first, second;
    uint8_t record[PLAN_RECORD];
    size_t record_length;
};

/* The calls of an input, as far as they are made: at most PLAN_CALLS, and fewer of long codeplugs, by PLAN_BYTES. */
struct list {
    struct input in;
    struct call call; /* the last one */
    size_t made;
    size_t bytes; /* the codeplug's lengths before each call, together */
    size_t again; /* how often it is still to be repeated */
    bool newer;   /* of the opening */
    size_t changes;
};

struct opening plan_opening(struct input *in);

/* Puts the next call on a codeplug and a history of those lengths into list->call; false where there is none. */
bool plan_next(struct list *list, const uint8_t *room, size_t length, size_t used);

#endif

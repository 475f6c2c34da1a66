/* Buffers between guard pages and canaries. */
#define _GNU_SOURCE
#include "guarded.h"

#include <sanitizer/asan_interface.h>
#include <string.h>
#include <sys/mman.h>

#include "must.h"

enum { PAGE = 4096, CANARIES = 256, CANARY = 0xA5 };

static struct {
    uint8_t *start; /* of GUARDED_MOST + PAGE bytes between two guard pages */
    uint8_t *canaries;
} slots[SLOTS];

static const size_t inside = GUARDED_MOST + PAGE;

static void make(enum guarded_slot slot)
{
    uint8_t *all = mmap(NULL, inside + 2 * PAGE, PROT_NONE, MAP_PRIVATE | MAP_ANONYMOUS, -1, 0);
    must(all != MAP_FAILED);
    slots[slot].start = all + PAGE;
    must(mprotect(slots[slot].start, inside, PROT_READ | PROT_WRITE) == 0);
}

uint8_t *guarded(enum guarded_slot slot, bool at_start, const uint8_t *from, size_t size)
{
    must(size <= GUARDED_MOST);
    if (slots[slot].start == NULL)
        make(slot);
    else
        ASAN_UNPOISON_MEMORY_REGION(slots[slot].canaries, CANARIES);
    uint8_t *start = slots[slot].start;
    uint8_t *buffer = at_start ? start : start + inside - size;
    slots[slot].canaries = at_start ? buffer + size : buffer - CANARIES;
    if (from != NULL)
        memcpy(buffer, from, size);
    else
        memset(buffer, 0xEE, size);
    memset(slots[slot].canaries, CANARY, CANARIES);
    ASAN_POISON_MEMORY_REGION(slots[slot].canaries, CANARIES);
    return buffer;
}

void guarded_check(enum guarded_slot slot)
{
    ASAN_UNPOISON_MEMORY_REGION(slots[slot].canaries, CANARIES);
    for (size_t i = 0; i < CANARIES; i++)
        must(slots[slot].canaries[i] == CANARY);
    ASAN_POISON_MEMORY_REGION(slots[slot].canaries, CANARIES);
}

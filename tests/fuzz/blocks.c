/* Breakpoints on the basic blocks of the loaded libcodeplug.so. At the end the number of blocks hit is printed, and their offsets are
 * written to the file in FUZZ_HIT, if it is set. */
#define _GNU_SOURCE
#include "blocks.h"

#include <dlfcn.h>
#include <signal.h>
#include <stdbool.h>
#include <stdint.h>
#include <stdio.h>
#include <stdlib.h>
#include <string.h>
#include <sys/mman.h>
#include <ucontext.h>

#include "codeplug.h"

enum { MOST = 1 << 14, REACH = 1 << 20, PAGE = 4096, BREAKPOINT = 0xCC };

/* What the fuzzer's coverage interface takes: a counter for each block, and its place with whether a function begins there. */
extern void __sanitizer_cov_8bit_counters_init(uint8_t *start, uint8_t *stop);
extern void __sanitizer_cov_pcs_init(const uintptr_t *start, const uintptr_t *stop);

static uint8_t counters[MOST];
static uintptr_t places[2 * MOST];
static uint8_t first_byte[MOST];
static bool hit[MOST];
static uint16_t number_at[REACH]; /* of the block at an offset, plus 1 */
static uint32_t offsets[MOST];
static size_t count;
static uint8_t *base;
static bool again;

static void on_trap(int signal_number, siginfo_t *info, void *context)
{
    (void)info;
    ucontext_t *c = context;
    uintptr_t offset = (uintptr_t)c->uc_mcontext.gregs[REG_RIP] - 1 - (uintptr_t)base;
    size_t n = offset < REACH ? number_at[offset] : 0;
    if (n-- == 0) {
        signal(signal_number, SIG_DFL);
        return;
    }
    base[offset] = first_byte[n];
    counters[n] = 1;
    hit[n] = true;
    c->uc_mcontext.gregs[REG_RIP]--;
}

static void at_end(void)
{
    size_t reached = 0;
    const char *path = getenv("FUZZ_HIT");
    FILE *out = path ? fopen(path, "w") : NULL;
    for (size_t n = 0; n < count; n++) {
        reached += hit[n];
        if (out && hit[n])
            fprintf(out, "%x\n", offsets[n]);
    }
    if (out)
        fclose(out);
    fprintf(stderr, "blocks of the proved code: %zu of %zu\n", reached, count);
}

static void read_list(const char *path)
{
    char function[256], before[256] = "";
    FILE *in = fopen(path, "r");
    if (in == NULL)
        abort();
    while (count < MOST && fscanf(in, "%x %255s", &offsets[count], function) == 2) {
        if (offsets[count] >= REACH)
            abort();
        number_at[offsets[count]] = (uint16_t)(count + 1);
        places[2 * count] = (uintptr_t)base + offsets[count];
        places[2 * count + 1] = strcmp(function, before) != 0;
        first_byte[count] = base[offsets[count]];
        strcpy(before, function);
        count++;
    }
    fclose(in);
}

static void set_all(void)
{
    for (size_t n = 0; n < count; n++)
        base[offsets[n]] = BREAKPOINT;
}

void blocks_watch(void)
{
    const char *path = getenv("FUZZ_BLOCKS");
    Dl_info where;
    if (path == NULL)
        return;
    if (dladdr((void *)(uintptr_t)codeplug_validate, &where) == 0)
        abort();
    base = where.dli_fbase;
    again = getenv("FUZZ_AGAIN") != NULL;
    read_list(path);
    uintptr_t from = ((uintptr_t)base + offsets[0]) / PAGE * PAGE, to = (uintptr_t)base + offsets[count - 1] + 1;
    struct sigaction action = {.sa_sigaction = on_trap, .sa_flags = SA_SIGINFO};
    if (mprotect((void *)from, to - from, PROT_READ | PROT_WRITE | PROT_EXEC) != 0 || sigaction(SIGTRAP, &action, NULL) != 0)
        abort();
    __sanitizer_cov_8bit_counters_init(counters, counters + count);
    __sanitizer_cov_pcs_init(places, places + 2 * count);
    set_all();
    atexit(at_end);
}

void blocks_again(void)
{
    if (again)
        set_all();
}

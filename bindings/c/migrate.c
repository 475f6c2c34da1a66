/* Migrates a legacy file: validates IN by both readings, since nothing in a file says how it was written, and where it is a legacy file
 * writes OUT, migrated: migrate IN OUT. Where there is nothing to migrate, or both readings refuse IN, it says so and writes nothing. Exits
 * with 0; with 1 where IN is refused; with 2 where it is asked wrongly or a file cannot be read or written.
 *
 * Where the history of a legacy file was stored beside it, throw it away: it is not the migrated file's. */
#include <stdio.h>

#include "codeplug.h"

static uint8_t file[CODEPLUG_FILE_MAX + 1]; /* one byte more, so that a file that is too long is refused */
static size_t length;

static bool accepted(const char *what, struct codeplug_validate_answer a)
{
    if (a.number == CODEPLUG_OK)
        printf("%s: ok %u %u %u\n", what, a.contacts, a.channels, a.banks);
    else
        printf("%s: refused %u at %zu: %s\n", what, a.number, a.place, codeplug_refusal_text(a.number));
    return a.number == CODEPLUG_OK;
}

static bool opened(const char *path)
{
    FILE *in = fopen(path, "rb");
    if (in == NULL)
        return false;
    length = fread(file, 1, sizeof file, in);
    bool whole = !ferror(in);
    fclose(in);
    return whole;
}

static bool saved(const char *path)
{
    FILE *out = fopen(path, "wb");
    if (out == NULL)
        return false;
    size_t n = fwrite(file, 1, length, out);
    return fclose(out) == 0 && n == length;
}

static int failed(const char *path)
{
    perror(path);
    return 2;
}

int main(int argc, char **argv)
{
    if (argc != 3) {
        fprintf(stderr, "usage: migrate IN OUT\n");
        return 2;
    }
    if (!opened(argv[1]))
        return failed(argv[1]);
    bool by_new = accepted("new reading", codeplug_validate(file, length, CODEPLUG_EDITION_OLDER));
    bool by_legacy = accepted("legacy reading", codeplug_validate_legacy(file, length, CODEPLUG_EDITION_OLDER));
    if (by_new) {
        printf("%s: nothing to migrate\n", by_legacy ? "the same by both readings" : "not a legacy file");
        return 0;
    }
    if (!by_legacy) {
        printf("refused by both readings\n");
        return 1;
    }
    accepted("a legacy file, migrated", codeplug_migrate(file, length, CODEPLUG_EDITION_OLDER));
    if (!saved(argv[2]) || !opened(argv[2]))
        return failed(argv[2]);
    return accepted("new reading", codeplug_validate(file, length, CODEPLUG_EDITION_OLDER)) ? 0 : 1;
}

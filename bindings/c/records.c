/* Reads every contact and channel of a codeplug and writes it again, by both readers and by each edition that accepts the file: the bytes
 * have to be the file's own. It shows that the header's structures are laid out as the library's: records FILE. */
#include <stdio.h>
#include <string.h>

#include "codeplug.h"

_Static_assert(sizeof(struct codeplug_contact_answer) == 32, "contact answer");
_Static_assert(sizeof(struct codeplug_channel_answer) == 56, "channel answer");
_Static_assert(sizeof(struct codeplug_header_answer) == 32, "header answer");
_Static_assert(sizeof(struct codeplug_edit_answer) == 40, "edit answer");

static uint8_t file[CODEPLUG_FILE_MAX];
static size_t length;
static uint32_t edition;

static int contact(size_t n, const uint8_t *there)
{
    uint8_t name[CODEPLUG_TEXT_SIZE], again[CODEPLUG_TEXT_SIZE], out[CODEPLUG_CONTACT_SIZE];
    struct codeplug_contact_answer a = codeplug_contact(file, length, n, name, sizeof name, edition);
    struct codeplug_contact_answer b = codeplug_contact_prevalidated(file, length, n, again, sizeof again, edition);
    struct codeplug_refusal w = codeplug_write_contact(out, sizeof out, name, codeplug_text_length(name), b.values, edition);
    return a.number || b.number || w.number || memcmp(name, again, sizeof name) || memcmp(out, there, sizeof out);
}

static int channel(size_t n, const uint8_t *there)
{
    uint8_t texts[CODEPLUG_TEXTS_SIZE], again[CODEPLUG_TEXTS_SIZE], out[CODEPLUG_CHANNEL_SIZE];
    struct codeplug_channel_answer a = codeplug_channel(file, length, n, texts, sizeof texts, edition);
    struct codeplug_channel_answer b = codeplug_channel_prevalidated(file, length, n, again, sizeof again);
    struct codeplug_refusal w = codeplug_write_channel(out, sizeof out, texts, codeplug_text_length(texts), again + CODEPLUG_TEXT_SIZE,
        codeplug_text_length(again + CODEPLUG_TEXT_SIZE), a.common, b.info);
    return a.number || b.number || w.number || memcmp(texts, again, sizeof texts) || memcmp(out, there, sizeof out);
}

/* A buffer that is too short is refused before the file is validated, and stays. */
static int short_buffers(void)
{
    uint8_t texts[CODEPLUG_TEXTS_SIZE - 1], kept[sizeof texts];
    memset(texts, 7, sizeof texts);
    memcpy(kept, texts, sizeof texts);
    struct codeplug_header_answer h = codeplug_header(file, 0, texts, sizeof texts, edition);
    struct codeplug_channel_answer c = codeplug_channel(file, 0, 0, texts, sizeof texts, edition);
    struct codeplug_refusal w = codeplug_write_channel(texts, sizeof texts, file, 0, file, 0, c.common, c.info);
    if (h.number != CODEPLUG_REFUSED_SHORT_BUFFER || c.number != CODEPLUG_REFUSED_SHORT_BUFFER
        || w.number != CODEPLUG_REFUSED_SHORT_BUFFER || c.info.contact != CODEPLUG_NOBODY || !c.common.receive_only
        || memcmp(texts, kept, sizeof texts))
        return printf("a short buffer was taken\n"), 1;
    return 0;
}

/* Whether a record of an accepted file is not the same; of a refused one there is none. */
static int others(struct codeplug_validate_answer a)
{
    const uint8_t *at = file + CODEPLUG_HEADER_SIZE;
    for (size_t n = 0; n < a.contacts; n++, at += CODEPLUG_CONTACT_SIZE)
        if (contact(n, at))
            return printf("contact %zu is not the same\n", n), 1;
    for (size_t n = 0; n < a.channels; n++, at += CODEPLUG_CHANNEL_SIZE)
        if (channel(n, at))
            return printf("channel %zu is not the same\n", n), 1;
    return 0;
}

int main(int argc, char **argv)
{
    FILE *in = argc == 2 ? fopen(argv[1], "rb") : NULL;
    if (in == NULL) {
        fprintf(stderr, "usage: records FILE\n");
        return 2;
    }
    length = fread(file, 1, sizeof file, in);
    fclose(in);
    edition = CODEPLUG_EDITION_OLDER;
    struct codeplug_validate_answer older = codeplug_validate(file, length, edition);
    if (others(older) || short_buffers())
        return 1;
    edition = CODEPLUG_EDITION_NEWER;
    struct codeplug_validate_answer newer = codeplug_validate(file, length, edition);
    if (others(newer) || short_buffers())
        return 1;
    printf("%u contacts and %u channels, each the same%s\n", newer.contacts, newer.channels, older.number ? ", by the newer edition" : "");
    return 0;
}

/* Both editions of M17 addresses: validates IN by both, has the older one refuse a hash address, inserts a contact that has it by the newer
 * one, removes it, tries to undo that by both, and writes OUT, with the contact: editions IN OUT. Exits with 0; with 1 where the newer
 * edition refuses IN; with 2 where it is asked wrongly or a file cannot be read or written.
 *
 * A program goes by one edition throughout with a codeplug and its history; this one shows what happens otherwise. */
#include <inttypes.h>
#include <stdio.h>
#include <string.h>

#include "codeplug.h"

static const uint32_t OLDER = CODEPLUG_EDITION_OLDER, NEWER = CODEPLUG_EDITION_NEWER;

static uint8_t room[CODEPLUG_FILE_MAX + 1]; /* one byte more, so that a file that is too long is refused */
static size_t length;
static uint8_t history[2 * (CODEPLUG_FILE_MAX + 9)]; /* enough for any two edits */
static size_t used;

static bool refused(unsigned number, size_t place)
{
    if (number != CODEPLUG_OK)
        printf("refused %u at %zu: %s\n", number, place, codeplug_refusal_text(number));
    return number != CODEPLUG_OK;
}

static struct codeplug_validate_answer validated(const char *name, uint32_t edition)
{
    struct codeplug_validate_answer a = codeplug_validate(room, length, edition);
    printf("%s edition: ", name);
    if (!refused(a.number, a.place))
        printf("ok %u %u %u\n", a.contacts, a.channels, a.banks);
    return a;
}

static uint64_t address_of(const char *callsign, const char *name, uint32_t edition)
{
    struct codeplug_encode_answer e = codeplug_encode_callsign((const uint8_t *)callsign, strlen(callsign), edition);
    printf("%s by the %s edition: ", callsign, name);
    if (!refused(e.number, e.place))
        printf("%" PRIu64 "\n", e.address);
    return e.address;
}

/* Takes a call's answer over; a refused call changes neither buffer nor length. */
static bool taken(const char *what, struct codeplug_edit_answer a)
{
    printf("%s: ", what);
    length = a.length;
    used = a.used;
    if (refused(a.number, a.place))
        return false;
    printf("%zu bytes, %zu to undo\n", length, a.entries);
    return true;
}

static bool edited(const char *what, size_t kind, size_t place, const uint8_t *record, size_t record_length)
{
    return taken(what,
        codeplug_edit(room, sizeof room, length, history, sizeof history, used, kind, place, 0, record, record_length, NEWER));
}

static struct codeplug_edit_answer undo(uint32_t edition)
{
    return codeplug_undo(room, sizeof room, length, history, sizeof history, used, edition);
}

static bool inserted(size_t place, uint64_t address)
{
    uint8_t record[CODEPLUG_CONTACT_SIZE];
    struct codeplug_contact_values values = {.mode = CODEPLUG_M17, .address = address};
    struct codeplug_refusal w = codeplug_write_contact(record, sizeof record, (const uint8_t *)"Crew", 4, values, NEWER);
    return !refused(w.number, w.place) && edited("contact inserted", CODEPLUG_INSERT_CONTACT, place, record, sizeof record);
}

static bool print_contact(size_t n)
{
    uint8_t name[CODEPLUG_TEXT_SIZE], callsign[CODEPLUG_CALLSIGN_SIZE];
    struct codeplug_contact_answer a = codeplug_contact(room, length, n, name, sizeof name, NEWER);
    if (refused(a.number, a.place))
        return false;
    struct codeplug_decode_answer d = codeplug_decode_address(a.values.address, callsign, sizeof callsign, NEWER);
    printf("contact %zu: \"%.*s\" M17 %.*s\n", n, (int)codeplug_text_length(name), (const char *)name, (int)d.length,
        (const char *)callsign);
    return !refused(d.number, d.place);
}

static bool tried(size_t place)
{
    address_of("#CREW", "older", OLDER);
    if (!inserted(place, address_of("#CREW", "newer", NEWER)) || !print_contact(place))
        return false;
    validated("older", OLDER);
    validated("newer", NEWER);
    if (!edited("contact removed", CODEPLUG_REMOVE_CONTACT, place, NULL, 0))
        return false;
    validated("older", OLDER);
    taken("undo by the older edition", undo(OLDER));
    return taken("undo by the newer edition", undo(NEWER));
}

static bool opened(const char *path)
{
    FILE *in = fopen(path, "rb");
    if (in == NULL)
        return false;
    length = fread(room, 1, sizeof room, in);
    bool whole = !ferror(in);
    fclose(in);
    return whole;
}

static bool saved(const char *path)
{
    FILE *out = fopen(path, "wb");
    if (out == NULL)
        return false;
    size_t n = fwrite(room, 1, length, out);
    return fclose(out) == 0 && n == length;
}

int main(int argc, char **argv)
{
    if (argc != 3) {
        fprintf(stderr, "usage: editions IN OUT\n");
        return 2;
    }
    if (!opened(argv[1])) {
        perror(argv[1]);
        return 2;
    }
    validated("older", OLDER);
    struct codeplug_validate_answer a = validated("newer", NEWER);
    if (a.number != CODEPLUG_OK || !tried(a.contacts))
        return 1;
    if (!saved(argv[2])) {
        perror(argv[2]);
        return 2;
    }
    return 0;
}

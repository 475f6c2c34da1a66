/* Document 01's examples that are run, and its two edits with their entries. */
#include "codeplug.h"
#include <stdio.h>
#include <string.h>

static const uint8_t EMPTY[88] = {0x52, 0x54, 0x58, 0x43, 0, 0, 0, 0, 1};

static void print_call(const char *what, struct codeplug_edit_answer a, const uint8_t *history)
{
    if (a.number != CODEPLUG_OK) {
        printf("%s: refused %u at %zu\n", what, a.number, a.place);
        return;
    }
    printf("%s: %zu bytes, %zu to undo, entry", what, a.length, a.entries);
    for (size_t i = 0; i < a.used; i++)
        printf(" %02X", history[i]);
    printf("\n");
}

static void validate(const char *what, const uint8_t *file, size_t length)
{
    struct codeplug_validate_answer a = codeplug_validate(file, length, CODEPLUG_EDITION_OLDER);
    if (a.number == CODEPLUG_OK)
        printf("%s: ok\n", what);
    else
        printf("%s: refused %u at %zu\n", what, a.number, a.place);
}

/* Edit 12 on an empty file: the timestamp from 0 to 1, with a history buffer of so many bytes. */
static void timestamp(const char *what, size_t history_size)
{
    uint8_t room[88], history[16] = {0}, header[CODEPLUG_SET_HEADER_SIZE] = {0};
    memcpy(room, EMPTY, sizeof room);
    header[64] = 1;
    print_call(what, codeplug_edit(room, sizeof room, 88, history, history_size, 0, CODEPLUG_SET_HEADER, 0, 0, header,
        sizeof header, CODEPLUG_EDITION_OLDER), history);
}

/* Edit 7 on an empty file: a bank without a name. */
static void nameless_bank(void)
{
    uint8_t room[126] = {0}, history[16] = {0}, name[CODEPLUG_TEXT_SIZE] = {0};
    memcpy(room, EMPTY, sizeof EMPTY);
    print_call("nameless bank", codeplug_edit(room, sizeof room, 88, history, sizeof history, 0, CODEPLUG_INSERT_BANK, 0, 0, name,
        sizeof name, CODEPLUG_EDITION_OLDER), history);
}

int main(void)
{
    uint8_t longer[89] = {0};
    memcpy(longer, EMPTY, sizeof EMPTY);
    validate("no bytes", EMPTY, 0);
    validate("a header cut to 87", EMPTY, 87);
    validate("88 bytes", EMPTY, 88);
    validate("one more", longer, 89);
    timestamp("timestamp 0 to 1", 16);
    timestamp("timestamp, history of 4 bytes", 4);
    timestamp("timestamp, history of 3 bytes", 3);
    nameless_bank();
    return 0;
}

/* M17 addresses by both editions (document 02, [10]): numbers at the borders and texts, each way, then a contact with a hash address. Any
 * number but CODEPLUG_EDITION_NEWER, given as the edition, has to answer as the older one does. */
#include <inttypes.h>
#include <stdio.h>
#include <string.h>

#include "codeplug.h"

#define HASH UINT64_C(262144000000000)         /* the hash sign alone: 40 to the 9th */
#define LAST_HASH UINT64_C(268697599999999)    /* and 40 to the 8th more, less one */
#define BROADCAST UINT64_C(281474976710655)    /* 2 to the 48th, less one */

static const uint32_t OLDER = CODEPLUG_EDITION_OLDER, NEWER = CODEPLUG_EDITION_NEWER;
static const uint32_t NEITHER[] = {2, 3, 256, 257, 65537, UINT32_MAX};
enum { NEITHERS = sizeof NEITHER / sizeof *NEITHER };

/* Whether something went wrong that a printed line does not tell. */
static int failed;

static void fail(const char *what)
{
    printf("%s\n", what);
    failed = 1;
}

/* A number's text by an edition; it has to be that text's number. */
static void print_decoded(const char *name, uint64_t number, uint32_t edition)
{
    uint8_t text[CODEPLUG_CALLSIGN_SIZE + 1], kept[sizeof text];
    memset(text, 7, sizeof text);
    memcpy(kept, text, sizeof text);
    struct codeplug_decode_answer d = codeplug_decode_address(number, text, sizeof text, edition);
    if (d.number != CODEPLUG_OK)
        printf("%s refused %u at %zu", name, d.number, d.place);
    else if (d.broadcast)
        printf("%s broadcast", name);
    else
        printf("%s \"%.*s\"", name, (int)d.length, (const char *)text);
    if (d.length == 0) {
        if (memcmp(text, kept, sizeof text))
            fail(": the buffer was written to");
        return;
    }
    struct codeplug_encode_answer e = codeplug_encode_callsign(text, d.length, edition);
    if (e.number != CODEPLUG_OK || e.address != number || text[CODEPLUG_CALLSIGN_SIZE] != 7)
        fail(": another number's text");
}

static void print_number(uint64_t number)
{
    uint8_t text[CODEPLUG_CALLSIGN_SIZE], again[CODEPLUG_CALLSIGN_SIZE];
    printf("%" PRIu64 ": ", number);
    print_decoded("older", number, OLDER);
    print_decoded("; newer", number, NEWER);
    printf("\n");
    for (int n = 0; n < NEITHERS; n++) {
        memset(text, 7, sizeof text);
        memset(again, 7, sizeof again);
        struct codeplug_decode_answer a = codeplug_decode_address(number, text, sizeof text, OLDER);
        struct codeplug_decode_answer b = codeplug_decode_address(number, again, sizeof again, NEITHER[n]);
        if (a.number != b.number || a.place != b.place || a.length != b.length || a.broadcast != b.broadcast
            || memcmp(text, again, sizeof text))
            fail("a number that is no edition's does not answer as the older");
    }
}

static void print_encoded(const char *name, const char *text, uint32_t edition)
{
    struct codeplug_encode_answer e = codeplug_encode_callsign((const uint8_t *)text, strlen(text), edition);
    if (e.number != CODEPLUG_OK)
        printf("%s refused %u at %zu", name, e.number, e.place);
    else
        printf("%s %" PRIu64, name, e.address);
}

static void print_text(const char *text)
{
    printf("\"%s\": ", text);
    print_encoded("older", text, OLDER);
    print_encoded("; newer", text, NEWER);
    printf("\n");
    for (int n = 0; n < NEITHERS; n++) {
        struct codeplug_encode_answer a = codeplug_encode_callsign((const uint8_t *)text, strlen(text), OLDER);
        struct codeplug_encode_answer b = codeplug_encode_callsign((const uint8_t *)text, strlen(text), NEITHER[n]);
        if (a.number != b.number || a.place != b.place || a.address != b.address)
            fail("a number that is no edition's does not answer as the older");
    }
}

static uint8_t room[200], history[200];
static size_t length, used;

#define PRINT_ANSWER(function, call) print_answer(function, (call).number, (call).place)

static void print_answer(const char *function, unsigned number, size_t place)
{
    printf(" %s %u at %zu;", function, number, place);
}

/* Each function that takes an edition, on the codeplug; none of them changes anything. */
static void print_answers(const char *name, uint32_t edition)
{
    uint8_t texts[CODEPLUG_TEXTS_SIZE], file[sizeof room];
    memcpy(file, room, sizeof file);
    printf("%s:", name);
    PRINT_ANSWER("validate", codeplug_validate(room, length, edition));
    PRINT_ANSWER("header", codeplug_header(room, length, texts, sizeof texts, edition));
    PRINT_ANSWER("contact", codeplug_contact(room, length, 0, texts, sizeof texts, edition));
    PRINT_ANSWER("channel", codeplug_channel(room, length, 0, texts, sizeof texts, edition));
    PRINT_ANSWER("bank", codeplug_bank(room, length, 0, texts, sizeof texts, edition));
    PRINT_ANSWER("bank_entry", codeplug_bank_entry(room, length, 0, 0, edition));
    PRINT_ANSWER("contact_prevalidated", codeplug_contact_prevalidated(room, length, 0, texts, sizeof texts, edition));
    PRINT_ANSWER("validate_legacy", codeplug_validate_legacy(room, length, edition));
    PRINT_ANSWER("migrate", codeplug_migrate(file, length, edition));
    PRINT_ANSWER("remove_bank", codeplug_edit(room, sizeof room, length, history, sizeof history, used, CODEPLUG_REMOVE_BANK, 0, 0, NULL, 0,
        edition));
    printf("\n");
    if (memcmp(file, room, sizeof file))
        fail("the codeplug was changed");
}

static void taken(const char *what, struct codeplug_edit_answer a)
{
    if (a.number != CODEPLUG_OK)
        printf("%s: refused %u at %zu\n", what, a.number, a.place);
    else
        printf("%s: %zu bytes, %zu to undo\n", what, a.length, a.entries);
    length = a.length;
    used = a.used;
}

static void insert(const char *what, const uint8_t *record, uint32_t edition)
{
    taken(what, codeplug_edit(room, sizeof room, length, history, sizeof history, used, CODEPLUG_INSERT_CONTACT, 0, 0, record,
        CODEPLUG_CONTACT_SIZE, edition));
}

static void undo(const char *what, uint32_t edition)
{
    taken(what, codeplug_undo(room, sizeof room, length, history, sizeof history, used, edition));
}

/* A contact that is "#AB1", written by the newer edition alone. */
static void write_contact(uint8_t *record)
{
    const uint8_t name[] = {'C', 'r', 'e', 'w'};
    struct codeplug_encode_answer e = codeplug_encode_callsign((const uint8_t *)"#AB1", 4, NEWER);
    struct codeplug_contact_values values = {.mode = CODEPLUG_M17, .address = e.address};
    printf("written:");
    PRINT_ANSWER("older", codeplug_write_contact(record, CODEPLUG_CONTACT_SIZE, name, sizeof name, values, OLDER));
    PRINT_ANSWER("as the older", codeplug_write_contact(record, CODEPLUG_CONTACT_SIZE, name, sizeof name, values, 2));
    PRINT_ANSWER("newer", codeplug_write_contact(record, CODEPLUG_CONTACT_SIZE, name, sizeof name, values, NEWER));
    printf(" bytes");
    for (int i = 33; i < CODEPLUG_CONTACT_SIZE; i++)
        printf(" %02X", record[i]);
    printf("\n");
}

static void contact(void)
{
    uint8_t record[CODEPLUG_CONTACT_SIZE], name[CODEPLUG_TEXT_SIZE];
    write_contact(record);
    codeplug_write_empty(room, sizeof room);
    length = CODEPLUG_HEADER_SIZE;
    insert("inserted by the older", record, OLDER);
    insert("inserted as by the older", record, UINT32_MAX);
    insert("inserted by the newer", record, NEWER);
    struct codeplug_contact_answer c = codeplug_contact(room, length, 0, name, sizeof name, NEWER);
    printf("contact 0: mode %u, ", c.values.mode);
    print_decoded(c.values.broadcast ? "broadcast" : "callsign", c.values.address, NEWER);
    printf("\n");
    print_answers("older", OLDER);
    print_answers("as the older", 2);
    print_answers("newer", NEWER);
    undo("undone by the older", OLDER);
    undo("undone as by the older", 2);
    taken("removed by the newer", codeplug_edit(room, sizeof room, length, history, sizeof history, used, CODEPLUG_REMOVE_CONTACT, 0, 0,
        NULL, 0, NEWER));
    /* The older edition accepts the codeplug as it is, but not what undo would bring back. */
    undo("undone by the older", OLDER);
    undo("undone by the newer", NEWER);
    undo("undone by the newer", NEWER);
    undo("undone by the newer", NEWER);
}

int main(void)
{
    const uint64_t numbers[] = {0, 1, HASH - 1, HASH, HASH + 1, HASH + 40, LAST_HASH - 1, LAST_HASH, LAST_HASH + 1, BROADCAST - 1,
        BROADCAST, BROADCAST + 1, UINT64_MAX};
    const char *const texts[] = {"", "A", ".........", "..........", "#", "# ", "#  ", "# A", "#A", "#A ", "A#", "##", "#A#", "#........",
        "#.......#", "#.........", "#a", " #", "#AB1CD"};
    for (size_t n = 0; n < sizeof numbers / sizeof *numbers; n++)
        print_number(numbers[n]);
    for (size_t n = 0; n < sizeof texts / sizeof *texts; n++)
        print_text(texts[n]);
    contact();
    return failed;
}

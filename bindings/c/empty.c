/* Makes a codeplug from nothing: writes the empty one, gives it a bank and a header, counts its history, has calls refused and undoes
 * all. */
#include <stdio.h>
#include <string.h>

#include "codeplug.h"

static uint8_t room[200];
static size_t length;
static uint8_t history[200];
static size_t used;

/* One edition of M17 addresses throughout: here the older one. */
static const uint32_t edition = CODEPLUG_EDITION_OLDER;

static void print_refused(const char *what, unsigned number, size_t place)
{
    printf("%s: refused %u at %zu: %s\n", what, number, place, codeplug_refusal_text(number));
}

static void print_call(const char *what, struct codeplug_edit_answer a)
{
    if (a.number != CODEPLUG_OK)
        print_refused(what, a.number, a.place);
    else
        printf("%s: %zu bytes, %zu to undo\n", what, a.length, a.entries);
    length = a.length;
    used = a.used;
}

static void edit(const char *what, size_t kind, size_t first, const uint8_t *record, size_t record_length)
{
    print_call(what,
        codeplug_edit(room, sizeof room, length, history, sizeof history, used, kind, first, 0, record, record_length, edition));
}

static void write_text(uint8_t *out, size_t out_length, const char *text)
{
    struct codeplug_refusal w = codeplug_write_text(out, out_length, (const uint8_t *)text, strlen(text));
    if (w.number != CODEPLUG_OK)
        print_refused("text", w.number, w.place);
}

/* The empty codeplug leaves the bytes after it, and a shorter buffer is refused. */
static int write_empty(void)
{
    memset(room, 7, sizeof room);
    struct codeplug_refusal w = codeplug_write_empty(room, CODEPLUG_HEADER_SIZE - 1);
    print_refused("empty, 87 bytes", w.number, w.place);
    if (room[0] != 7 || codeplug_write_empty(room, sizeof room).number != CODEPLUG_OK || room[CODEPLUG_HEADER_SIZE] != 7)
        return 1;
    length = CODEPLUG_HEADER_SIZE;
    struct codeplug_validate_answer a = codeplug_validate(room, length, edition);
    printf("empty: %u, %zu bytes, %u contacts, %u channels, %u banks\n", a.number, length, a.contacts, a.channels, a.banks);
    return 0;
}

static void texts(void)
{
    uint8_t name[CODEPLUG_TEXT_SIZE];
    write_text(name, sizeof name, "two\nlines");
    write_text(name, sizeof name, "a text of thirty-three characters");
    write_text(name, sizeof name - 1, "Field day");
    write_text(name, sizeof name, "Field day");
    edit("bank", CODEPLUG_INSERT_BANK, 0, name, sizeof name);
    memset(name, 7, sizeof name);
    struct codeplug_bank_answer b = codeplug_bank(room, length, 0, name, sizeof name, edition);
    printf("bank 0: %u, \"%.*s\", %u entries\n", b.number, (int)codeplug_text_length(name), (const char *)name, b.entries);
}

/* A field has room for 32 characters, and then no zero. */
static int text_lengths(void)
{
    uint8_t field[CODEPLUG_TEXT_SIZE] = {0};
    size_t empty = codeplug_text_length(field);
    memset(field, 'x', sizeof field);
    return empty != 0 || codeplug_text_length(field) != sizeof field;
}

static void set_header(void)
{
    uint8_t record[CODEPLUG_SET_HEADER_SIZE] = {0}, fields[CODEPLUG_TEXTS_SIZE];
    write_text(record, CODEPLUG_TEXT_SIZE, "Hilltop Radio Club");
    write_text(record + CODEPLUG_TEXT_SIZE, CODEPLUG_TEXT_SIZE, "");
    record[CODEPLUG_TEXTS_SIZE] = 1;
    edit("header", CODEPLUG_SET_HEADER, 0, record, sizeof record);
    struct codeplug_header_answer h = codeplug_header(room, length, fields, sizeof fields, edition);
    const uint8_t *author = fields, *description = fields + CODEPLUG_TEXT_SIZE;
    printf("header: %u, \"%.*s\", \"%.*s\", timestamp %u, %u banks\n", h.number, (int)codeplug_text_length(author), (const char *)author,
        (int)codeplug_text_length(description), (const char *)description, (unsigned)h.timestamp, h.banks);
}

/* A refused call answers the lengths that it was given, and no entries. */
static int refused(void)
{
    struct codeplug_edit_answer a = codeplug_edit(room, sizeof room, length, history, sizeof history, used, CODEPLUG_REMOVE_BANK, 9, 0,
        NULL, 0, edition);
    print_refused("bank 9", a.number, a.place);
    struct codeplug_edit_answer b = codeplug_undo(room, sizeof room, length, history, 2, used, edition);
    print_refused("history of 2 bytes", b.number, b.place);
    return a.length != length || a.used != used || a.entries != 0 || b.length != length || b.used != used || b.entries != 0;
}

static void history_entries(void)
{
    const uint8_t bad[] = {0x80, 0};
    struct codeplug_history_answer a = codeplug_history_entries(history, used);
    printf("history: %u, %zu bytes, %zu entries\n", a.number, used, a.entries);
    a = codeplug_history_entries(bad, sizeof bad);
    print_refused("history of 80 00", a.number, a.place);
}

int main(void)
{
    printf("the library has %s version\n", codeplug_version() == CODEPLUG_VERSION_NUMBER ? "the header's" : "another");
    if (write_empty())
        return printf("the empty codeplug is written elsewhere\n"), 1;
    texts();
    if (text_lengths())
        return printf("a text has another length\n"), 1;
    set_header();
    history_entries();
    if (refused())
        return printf("a refused call answers other lengths\n"), 1;
    for (int n = 0; n < 3; n++)
        print_call("undo", codeplug_undo(room, sizeof room, length, history, sizeof history, used, edition));
    return 0;
}

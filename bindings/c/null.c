/* Gives every function that takes a pointer a null one with the length 0: a line for each kind of buffer, with each function's refusal and
 * its place, 0 where it is not refused. */
#include <stdio.h>

#include "codeplug.h"

static uint8_t file[CODEPLUG_HEADER_SIZE], texts[CODEPLUG_TEXTS_SIZE];
static const uint32_t edition = CODEPLUG_EDITION_OLDER;

#define PRINT_ANSWER(function, call) print_answer(function, (call).number, (call).place)

static void print_answer(const char *function, unsigned number, size_t place)
{
    printf(" %s %u at %zu;", function, number, place);
}

static void no_file(void)
{
    printf("no file:");
    PRINT_ANSWER("validate", codeplug_validate(NULL, 0, edition));
    PRINT_ANSWER("validate_legacy", codeplug_validate_legacy(NULL, 0, edition));
    PRINT_ANSWER("migrate", codeplug_migrate(NULL, 0, edition));
    PRINT_ANSWER("header", codeplug_header(NULL, 0, texts, sizeof texts, edition));
    PRINT_ANSWER("contact", codeplug_contact(NULL, 0, 0, texts, sizeof texts, edition));
    PRINT_ANSWER("channel", codeplug_channel(NULL, 0, 0, texts, sizeof texts, edition));
    PRINT_ANSWER("bank", codeplug_bank(NULL, 0, 0, texts, sizeof texts, edition));
    PRINT_ANSWER("bank_entry", codeplug_bank_entry(NULL, 0, 0, 0, edition));
    printf("\nno file, prevalidated:");
    PRINT_ANSWER("contact", codeplug_contact_prevalidated(NULL, 0, 0, texts, sizeof texts, edition));
    PRINT_ANSWER("channel", codeplug_channel_prevalidated(NULL, 0, 0, texts, sizeof texts));
    PRINT_ANSWER("bank", codeplug_bank_prevalidated(NULL, 0, 0, texts, sizeof texts));
    PRINT_ANSWER("bank_entry", codeplug_bank_entry_prevalidated(NULL, 0, 0, 0));
    printf("\n");
}

static void no_output(void)
{
    struct codeplug_contact_values contact = {.mode = CODEPLUG_DMR};
    struct codeplug_channel_common common = {0};
    struct codeplug_channel_info info = {0};
    printf("no output:");
    PRINT_ANSWER("header", codeplug_header(file, sizeof file, NULL, 0, edition));
    PRINT_ANSWER("contact", codeplug_contact(file, sizeof file, 0, NULL, 0, edition));
    PRINT_ANSWER("channel", codeplug_channel(file, sizeof file, 0, NULL, 0, edition));
    PRINT_ANSWER("bank", codeplug_bank(file, sizeof file, 0, NULL, 0, edition));
    PRINT_ANSWER("write_contact", codeplug_write_contact(NULL, 0, NULL, 0, contact, edition));
    PRINT_ANSWER("write_channel", codeplug_write_channel(NULL, 0, NULL, 0, NULL, 0, common, info));
    PRINT_ANSWER("write_text", codeplug_write_text(NULL, 0, NULL, 0));
    PRINT_ANSWER("write_empty", codeplug_write_empty(NULL, 0));
    PRINT_ANSWER("decode_address", codeplug_decode_address(1, NULL, 0, edition));
    printf("\nno output, prevalidated:");
    PRINT_ANSWER("contact", codeplug_contact_prevalidated(file, sizeof file, 0, NULL, 0, edition));
    PRINT_ANSWER("channel", codeplug_channel_prevalidated(file, sizeof file, 0, NULL, 0));
    PRINT_ANSWER("bank", codeplug_bank_prevalidated(file, sizeof file, 0, NULL, 0));
    printf("\n");
}

static void no_text(void)
{
    uint8_t contact[CODEPLUG_CONTACT_SIZE], channel[CODEPLUG_CHANNEL_SIZE], text[CODEPLUG_TEXT_SIZE];
    struct codeplug_contact_values values = {.mode = CODEPLUG_DMR};
    struct codeplug_channel_common common = {0};
    struct codeplug_channel_info info = {0};
    printf("no text:");
    PRINT_ANSWER("write_contact", codeplug_write_contact(contact, sizeof contact, NULL, 0, values, edition));
    PRINT_ANSWER("write_channel", codeplug_write_channel(channel, sizeof channel, NULL, 0, NULL, 0, common, info));
    PRINT_ANSWER("write_text", codeplug_write_text(text, sizeof text, NULL, 0));
    PRINT_ANSWER("encode_callsign", codeplug_encode_callsign(NULL, 0, edition));
    printf("\n");
}

static void no_room_or_history(void)
{
    const uint8_t name[CODEPLUG_TEXT_SIZE] = {0};
    uint8_t room[CODEPLUG_HEADER_SIZE + 38], history[8];
    codeplug_write_empty(room, sizeof room);
    printf("no room:");
    PRINT_ANSWER("edit", codeplug_edit(NULL, 0, 0, history, sizeof history, 0, CODEPLUG_REMOVE_BANK, 0, 0, NULL, 0, edition));
    PRINT_ANSWER("undo", codeplug_undo(NULL, 0, 0, history, sizeof history, 0, edition));
    printf("\nno history:");
    PRINT_ANSWER("edit", codeplug_edit(room, sizeof room, sizeof file, NULL, 0, 0, CODEPLUG_INSERT_BANK, 0, 0, name, sizeof name, edition));
    PRINT_ANSWER("undo", codeplug_undo(room, sizeof room, sizeof file, NULL, 0, 0, edition));
    PRINT_ANSWER("history_entries", codeplug_history_entries(NULL, 0));
    printf("\nneither:");
    PRINT_ANSWER("edit", codeplug_edit(NULL, 0, 0, NULL, 0, 0, CODEPLUG_REMOVE_BANK, 0, 0, NULL, 0, edition));
    PRINT_ANSWER("undo", codeplug_undo(NULL, 0, 0, NULL, 0, 0, edition));
    printf("\n");
}

static uint8_t room[400], history[2000];
static size_t length, used;

static void edit(const char *what, size_t kind, const uint8_t *record, size_t record_length)
{
    struct codeplug_edit_answer a = codeplug_edit(room, sizeof room, length, history, sizeof history, used, kind, 0, 0, record,
        record_length, edition);
    print_answer(what, a.number, a.place);
    length = a.length;
    used = a.used;
}

/* One of each is inserted, then removed, which takes no record. */
static void no_record(void)
{
    const uint8_t contact[CODEPLUG_CONTACT_SIZE] = {[32] = CODEPLUG_DMR}, channel[CODEPLUG_CHANNEL_SIZE] = {CODEPLUG_FM};
    const uint8_t name[CODEPLUG_TEXT_SIZE] = {0}, entry[CODEPLUG_BANK_ENTRY_SIZE] = {0};
    codeplug_write_empty(room, sizeof room);
    length = CODEPLUG_HEADER_SIZE;
    printf("a record:");
    edit("insert_contact", CODEPLUG_INSERT_CONTACT, contact, sizeof contact);
    edit("insert_channel", CODEPLUG_INSERT_CHANNEL, channel, sizeof channel);
    edit("insert_bank", CODEPLUG_INSERT_BANK, name, sizeof name);
    edit("insert_entry", CODEPLUG_INSERT_ENTRY, entry, sizeof entry);
    printf(" %zu bytes\nno record:", length);
    edit("remove_entry", CODEPLUG_REMOVE_ENTRY, NULL, 0);
    edit("remove_bank", CODEPLUG_REMOVE_BANK, NULL, 0);
    edit("remove_channel", CODEPLUG_REMOVE_CHANNEL, NULL, 0);
    edit("remove_contact", CODEPLUG_REMOVE_CONTACT, NULL, 0);
    edit("set_header", CODEPLUG_SET_HEADER, NULL, 0);
    printf(" %zu bytes\n", length);
}

int main(void)
{
    codeplug_write_empty(file, sizeof file);
    no_file();
    no_output();
    no_text();
    no_room_or_history();
    no_record();
    return 0;
}

/* Opens a codeplug, prints its counts, its last M17 contact and first channel, changes the channel's tone and the contact, undoes the last,
 * writes the file and validates it again: example IN OUT. */
#include <stdio.h>
#include <string.h>

#include "codeplug.h"

/* The library returns these by value: their layout is that of crates/capi. */
_Static_assert(sizeof(struct codeplug_contact_values) == 16, "contact values");
_Static_assert(sizeof(struct codeplug_channel_common) == 24, "channel common");
_Static_assert(sizeof(struct codeplug_channel_info) == 16, "channel info");

static uint8_t room[CODEPLUG_FILE_MAX + 1];
static size_t length;
static uint8_t history[CODEPLUG_FILE_MAX + 9]; /* enough for any one edit */
static size_t used;

/* One edition of M17 addresses throughout: here the older one. */
static const uint32_t edition = CODEPLUG_EDITION_OLDER;

static int refused(const char *what, unsigned number, size_t place)
{
    if (number != CODEPLUG_OK)
        printf("%s: refused %u at %zu: %s\n", what, number, place, codeplug_refusal_text(number));
    return number != CODEPLUG_OK;
}

static void print_text(const char *label, const uint8_t *field)
{
    printf("%s \"%.*s\"", label, (int)codeplug_text_length(field), (const char *)field);
}

static int print_counts(void)
{
    struct codeplug_validate_answer a = codeplug_validate(room, length, edition);
    if (refused("validate", a.number, a.place))
        return 1;
    printf("%zu bytes: %u contacts, %u channels, %u banks\n", length, a.contacts, a.channels, a.banks);
    return 0;
}

static int print_contact(size_t n)
{
    uint8_t name[CODEPLUG_TEXT_SIZE], callsign[CODEPLUG_CALLSIGN_SIZE];
    struct codeplug_contact_answer a = codeplug_contact(room, length, n, name, sizeof name, edition);
    if (refused("contact", a.number, a.place))
        return 1;
    printf("contact %zu:", n);
    print_text("", name);
    if (a.values.mode == CODEPLUG_DMR) {
        printf(" DMR id %u\n", (unsigned)a.values.id);
        return 0;
    }
    struct codeplug_decode_answer d = codeplug_decode_address(a.values.address, callsign, sizeof callsign, edition);
    if (refused("address", d.number, d.place))
        return 1;
    printf(" M17 %.*s\n", d.broadcast ? 9 : (int)d.length, d.broadcast ? "broadcast" : (const char *)callsign);
    return 0;
}

static int print_channel(size_t n)
{
    uint8_t texts[CODEPLUG_TEXTS_SIZE];
    struct codeplug_channel_answer a = codeplug_channel(room, length, n, texts, sizeof texts, edition);
    if (refused("channel", a.number, a.place))
        return 1;
    printf("channel %zu:", n);
    print_text("", texts);
    print_text(",", texts + CODEPLUG_TEXT_SIZE);
    unsigned tenths = codeplug_tone_frequency(a.info.transmit_tone);
    printf(", mode %u, receive %u Hz, transmit %u Hz, transmit tone %u.%u %s, latitude %d + 0.%04u\n", a.info.mode,
        (unsigned)a.common.receive_hz, (unsigned)a.common.transmit_hz, tenths / 10, tenths % 10,
        a.info.transmit_tone_on ? "on" : "off", a.common.latitude, (unsigned)a.common.latitude_e4);
    return 0;
}

/* Takes a call's answer over; a refused call changes neither buffer nor length. */
static int taken(const char *what, struct codeplug_edit_answer a)
{
    if (refused(what, a.number, a.place))
        return 1;
    length = a.length;
    used = a.used;
    printf("%s: %zu bytes, history %zu, %zu to undo\n", what, length, used, a.entries);
    return 0;
}

static int set_tone(size_t n, uint16_t tenths)
{
    uint8_t texts[CODEPLUG_TEXTS_SIZE], record[CODEPLUG_CHANNEL_SIZE];
    struct codeplug_channel_answer a = codeplug_channel(room, length, n, texts, sizeof texts, edition);
    if (refused("channel", a.number, a.place))
        return 1;
    a.info.transmit_tone = codeplug_tone_index(tenths);
    a.info.transmit_tone_on = true;
    const uint8_t *description = texts + CODEPLUG_TEXT_SIZE;
    struct codeplug_refusal w = codeplug_write_channel(record, sizeof record, texts, codeplug_text_length(texts), description,
        codeplug_text_length(description), a.common, a.info);
    if (refused("write channel", w.number, w.place))
        return 1;
    return taken("tone changed", codeplug_edit(room, sizeof room, length, history, sizeof history, used, CODEPLUG_REPLACE_CHANNEL, n, 0,
        record, sizeof record, edition));
}

static int set_callsign(size_t n, const char *callsign)
{
    uint8_t name[CODEPLUG_TEXT_SIZE], record[CODEPLUG_CONTACT_SIZE];
    struct codeplug_contact_answer a = codeplug_contact(room, length, n, name, sizeof name, edition);
    if (refused("contact", a.number, a.place))
        return 1;
    struct codeplug_encode_answer e = codeplug_encode_callsign((const uint8_t *)callsign, strlen(callsign), edition);
    if (refused("callsign", e.number, e.place))
        return 1;
    a.values.mode = CODEPLUG_M17;
    a.values.broadcast = false;
    a.values.address = e.address;
    struct codeplug_refusal w = codeplug_write_contact(record, sizeof record, name, codeplug_text_length(name), a.values, edition);
    if (refused("write contact", w.number, w.place))
        return 1;
    return taken("contact changed", codeplug_edit(room, sizeof room, length, history, sizeof history, used, CODEPLUG_REPLACE_CONTACT, n, 0,
        record, sizeof record, edition));
}

static int print_bank(size_t n)
{
    uint8_t name[CODEPLUG_TEXT_SIZE];
    struct codeplug_bank_answer a = codeplug_bank_prevalidated(room, length, n, name, sizeof name);
    if (refused("bank", a.number, a.place))
        return 1;
    printf("bank %zu:", n);
    print_text("", name);
    struct codeplug_bank_entry_answer e = codeplug_bank_entry_prevalidated(room, length, n, 0);
    for (; e.number == CODEPLUG_OK; e = codeplug_bank_entry_prevalidated(room, length, n, e.next))
        printf(" %u", e.channel);
    printf("\n");
    return e.number != CODEPLUG_REFUSED_NO_PLACE;
}

/* The last M17 contact; where there is none, the number of contacts, which is no contact's place. */
static size_t last_m17_contact(void)
{
    uint8_t name[CODEPLUG_TEXT_SIZE];
    size_t contacts = codeplug_validate(room, length, edition).contacts;
    for (size_t n = contacts; n-- > 0;)
        if (codeplug_contact_prevalidated(room, length, n, name, sizeof name, edition).values.mode == CODEPLUG_M17)
            return n;
    return contacts;
}

static int edited(void)
{
    size_t contact = last_m17_contact();
    struct codeplug_edit_answer none = codeplug_undo(room, sizeof room, length, history, sizeof history, used, edition);
    if (!refused("undo", none.number, none.place))
        return 1;
    if (print_contact(contact) || print_channel(0) || print_bank(0))
        return 1;
    if (set_tone(0, 1000) || set_callsign(contact, "AB2CD") || print_contact(contact))
        return 1;
    if (taken("undone", codeplug_undo(room, sizeof room, length, history, sizeof history, used, edition)))
        return 1;
    return print_contact(contact) || print_channel(0) || print_counts();
}

static int opened(const char *path)
{
    FILE *in = fopen(path, "rb");
    if (in == NULL)
        return 1;
    length = fread(room, 1, sizeof room, in);
    fclose(in);
    return print_counts();
}

static int saved(const char *path)
{
    FILE *out = fopen(path, "wb");
    if (out == NULL)
        return 1;
    size_t n = fwrite(room, 1, length, out);
    return fclose(out) != 0 || n != length;
}

int main(int argc, char **argv)
{
    if (argc != 3) {
        fprintf(stderr, "usage: example IN OUT\n");
        return 2;
    }
    if (opened(argv[1]) || edited() || saved(argv[2]))
        return 1;
    return opened(argv[2]) || print_channel(0);
}

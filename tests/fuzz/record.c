/* Records for the edits: valid ones from few bytes, any bytes, and the ones that are there with a byte changed. */
#include "record.h"

#include "edition.h"
#include "must.h"

static const size_t size_of[] = {0, 39, 0, 39, 90, 0, 90, 32, 0, 32, 2, 0, 72};

enum { KINDS = sizeof size_of / sizeof *size_of };

/* A number below `most`, or any where `wild` is set. */
static uint8_t below(struct input *in, uint8_t most, bool wild)
{
    uint8_t b = take_byte(in);
    return wild ? b : b % most;
}

/* Form 0: an address near the first callsign, or any number where `wild` is set; 1 and 2: near the first and the last hash address; 3: near
 * the last callsign. */
static uint64_t take_address(struct input *in, unsigned form, bool wild)
{
    uint64_t n = take_number(in, wild ? 8 : 5);
    switch (form) {
    case 1:
        return FIRST_HASH + n;
    case 2:
        return LAST_HASH - n;
    case 3:
        return FIRST_HASH - 1 - n;
    default:
        return n + !wild;
    }
}

struct codeplug_contact_values take_contact(struct input *in, bool wild)
{
    struct codeplug_contact_values v = {.mode = below(in, 2, wild)};
    uint8_t flags = take_byte(in);
    v.mode += !wild;
    v.rx_tone = flags & 1;
    v.broadcast = flags & 2;
    v.contact_type = below(in, 3, wild);
    v.id = (uint32_t)take_number(in, 4);
    v.address = take_address(in, flags >> 2 & 3, wild);
    return v;
}

struct codeplug_channel_common take_common(struct input *in, bool wild)
{
    struct codeplug_channel_common c = {.bandwidth = below(in, 3, wild)};
    c.receive_only = take_byte(in) & 1;
    c.power = take_byte(in);
    c.receive_hz = (uint32_t)take_number(in, 4);
    c.transmit_hz = c.receive_hz + take_byte(in);
    c.scan_list = below(in, 251, wild);
    c.group_list = below(in, 129, wild);
    c.latitude = (int8_t)below(in, 90, wild);
    c.latitude_e4 = (uint16_t)take_number(in, 2);
    c.longitude = (int8_t)take_byte(in);
    c.longitude_e4 = (uint16_t)take_number(in, 2);
    c.altitude_plus_500 = (uint16_t)take_number(in, 2);
    if (!wild) {
        c.latitude_e4 %= 10000;
        c.longitude_e4 %= 10000;
    }
    return c;
}

struct codeplug_channel_info take_info(struct input *in, bool wild)
{
    struct codeplug_channel_info i = {.mode = below(in, 3, wild)};
    uint8_t flags = take_byte(in), contact = take_byte(in);
    i.contact = contact == 255 ? CODEPLUG_NOBODY : contact;
    i.receive_tone_on = flags & 1;
    i.transmit_tone_on = flags & 2;
    i.position = flags & 4;
    i.receive_tone = below(in, 50, wild);
    i.transmit_tone = below(in, 50, wild);
    i.receive_colour = i.receive_access = below(in, 16, wild);
    i.transmit_colour = i.transmit_access = below(in, 16, wild);
    i.slot = below(in, 2, wild) + !wild;
    i.operation = below(in, 3, wild) + !wild;
    i.encryption = below(in, 3, wild);
    return i;
}

/* A text of at most 32 letters, which are all the same. */
static size_t take_text(struct input *in, uint8_t text[CODEPLUG_TEXT_SIZE])
{
    size_t n = take_byte(in) % (CODEPLUG_TEXT_SIZE + 1u);
    memset(text, 0, CODEPLUG_TEXT_SIZE);
    memset(text, 'a' + (int)n % 26, n);
    return n;
}

static size_t word(const uint8_t *room, size_t at)
{
    return room[at] + 256u * room[at + 1];
}

/* A channel's info that names a contact which is there, in its mode. */
static struct codeplug_channel_info named(struct codeplug_channel_info i, const uint8_t *room, size_t length)
{
    uint8_t name[CODEPLUG_TEXT_SIZE];
    if (i.mode == CODEPLUG_FM || i.contact == CODEPLUG_NOBODY || length < CODEPLUG_HEADER_SIZE || word(room, 82) == 0)
        return i;
    i.contact %= word(room, 82);
    i.mode = codeplug_contact_prevalidated(room, length, i.contact, name, sizeof name, CODEPLUG_EDITION_NEWER).values.mode;
    return i;
}

/* A channel that is there, but for the last few bytes. */
static uint8_t entry(uint8_t b, const uint8_t *room, size_t length)
{
    size_t channels = length < CODEPLUG_HEADER_SIZE ? 0 : word(room, 84);
    return b >= 0xF8 || channels == 0 ? b : b % channels;
}

static void valid(struct input *in, const uint8_t *room, size_t length, struct call *c)
{
    uint8_t name[CODEPLUG_TEXT_SIZE];
    size_t n = take_text(in, name);
    struct codeplug_refusal w = {0, 0};
    if (c->record_length == CODEPLUG_CONTACT_SIZE) {
        w = codeplug_write_contact(c->record, PLAN_RECORD, name, n, take_contact(in, false), CODEPLUG_EDITION_NEWER);
    } else if (c->record_length == CODEPLUG_CHANNEL_SIZE) {
        struct codeplug_channel_common common = take_common(in, false);
        w = codeplug_write_channel(c->record, PLAN_RECORD, name, n, name, n / 2, common,
            named(take_info(in, false), room, length));
    } else if (c->record_length == CODEPLUG_BANK_ENTRY_SIZE) {
        c->record[0] = entry(take_byte(in), room, length);
    } else if (c->record_length >= CODEPLUG_TEXT_SIZE) {
        w = codeplug_write_text(c->record, PLAN_RECORD, name, n);
    }
    must(w.number == CODEPLUG_OK);
}

/* Where what an edit replaces stands in a valid file; past the file where it is not there. */
static size_t place_of(const uint8_t *room, size_t length, const struct call *c)
{
    if (length < CODEPLUG_HEADER_SIZE || c->first > length)
        return length;
    size_t channels = CODEPLUG_HEADER_SIZE + CODEPLUG_CONTACT_SIZE * word(room, 82);
    size_t offsets = channels + CODEPLUG_CHANNEL_SIZE * word(room, 84), banks = offsets + 4 * word(room, 86);
    size_t offset = offsets + 4 * c->first;
    if (c->kind <= CODEPLUG_REPLACE_CONTACT)
        return CODEPLUG_HEADER_SIZE + CODEPLUG_CONTACT_SIZE * c->first;
    if (c->kind <= CODEPLUG_REPLACE_CHANNEL)
        return channels + CODEPLUG_CHANNEL_SIZE * c->first;
    if (c->kind == CODEPLUG_SET_HEADER)
        return 10;
    return offset + 4 <= length ? banks + word(room, offset) : length;
}

static void changed(struct input *in, const uint8_t *room, size_t length, struct call *c)
{
    size_t at = place_of(room, length, c), size = c->record_length;
    if (size == 0 || size > length || at > length - size)
        return;
    memcpy(c->record, room + at, size);
    uint8_t place = take_byte(in) % size;
    c->record[place] = take_byte(in);
}

void take_record(struct input *in, unsigned form, const uint8_t *room, size_t length, struct call *c)
{
    size_t got = 0;
    c->record_length = form == 2 ? take_byte(in) % PLAN_RECORD : c->kind < KINDS ? size_of[c->kind] : 0;
    if (form == 0) {
        valid(in, room, length, c);
    } else if (form == 3) {
        changed(in, room, length, c);
    } else {
        const uint8_t *bytes = take_some(in, c->record_length, &got);
        memcpy(c->record, bytes, got);
    }
}

/* Whether two answers are the same, number by number. */
#ifndef FUZZ_SAME_H
#define FUZZ_SAME_H

#include "codeplug.h"

#define same(f) (a.f == b.f)
#define same_number_and_place (same(number) && same(place))

static inline bool same_validate(struct codeplug_validate_answer a, struct codeplug_validate_answer b)
{
    return same_number_and_place && same(contacts) && same(channels) && same(banks);
}

static inline bool same_header(struct codeplug_header_answer a, struct codeplug_header_answer b)
{
    return same_number_and_place && same(timestamp) && same(contacts) && same(channels) && same(banks);
}

static inline bool same_contact(struct codeplug_contact_answer a, struct codeplug_contact_answer b)
{
    return same_number_and_place && same(values.address) && same(values.id) && same(values.mode) && same(values.contact_type)
        && same(values.rx_tone) && same(values.broadcast);
}

static inline bool same_common(struct codeplug_channel_common a, struct codeplug_channel_common b)
{
    return same(receive_hz) && same(transmit_hz) && same(latitude_e4) && same(longitude_e4) && same(altitude_plus_500) && same(latitude)
        && same(longitude) && same(bandwidth) && same(receive_only) && same(power) && same(scan_list) && same(group_list);
}

static inline bool same_info(struct codeplug_channel_info a, struct codeplug_channel_info b)
{
    return same(contact) && same(mode) && same(receive_tone) && same(receive_tone_on) && same(transmit_tone) && same(transmit_tone_on)
        && same(receive_colour) && same(transmit_colour) && same(slot) && same(receive_access) && same(transmit_access) && same(operation)
        && same(encryption) && same(position);
}

static inline bool same_channel(struct codeplug_channel_answer a, struct codeplug_channel_answer b)
{
    return same_number_and_place && same_common(a.common, b.common) && same_info(a.info, b.info);
}

static inline bool same_bank(struct codeplug_bank_answer a, struct codeplug_bank_answer b)
{
    return same_number_and_place && same(entries);
}

static inline bool same_bank_entry(struct codeplug_bank_entry_answer a, struct codeplug_bank_entry_answer b)
{
    return same_number_and_place && same(channel) && same(next);
}

static inline bool same_refusal(struct codeplug_refusal a, struct codeplug_refusal b)
{
    return same_number_and_place;
}

static inline bool same_encode(struct codeplug_encode_answer a, struct codeplug_encode_answer b)
{
    return same_number_and_place && same(address);
}

static inline bool same_decode(struct codeplug_decode_answer a, struct codeplug_decode_answer b)
{
    return same_number_and_place && same(length) && same(broadcast);
}

static inline bool same_edit(struct codeplug_edit_answer a, struct codeplug_edit_answer b)
{
    return same_number_and_place && same(length) && same(used) && same(entries);
}

static inline bool same_history(struct codeplug_history_answer a, struct codeplug_history_answer b)
{
    return same_number_and_place && same(entries);
}

/* What a reader answers beside a refusal. */
static inline struct codeplug_contact_answer blank_contact(uint8_t number, size_t place)
{
    return (struct codeplug_contact_answer){.number = number, .place = place, .values = {.mode = CODEPLUG_DMR}};
}

static inline struct codeplug_channel_answer blank_channel(uint8_t number, size_t place)
{
    return (struct codeplug_channel_answer){
        .number = number, .place = place, .common = {.receive_only = true}, .info = {.contact = CODEPLUG_NOBODY}};
}

#undef same
#undef same_number_and_place
#endif

/* Prints how C lays out each structure of codeplug.h: its name, size and alignment, then each field's offset and size. The Rust and Python
 * tests compare it with their own declarations. */
#include <stdio.h>

#include "codeplug.h"

#define STRUCTURE(s) printf("%s %zu %zu\n", #s, sizeof(struct codeplug_##s), _Alignof(struct codeplug_##s))
#define FIELD(s, f) printf("%s.%s %zu %zu\n", #s, #f, offsetof(struct codeplug_##s, f), sizeof(((struct codeplug_##s *)0)->f))
#define ANSWER(s) STRUCTURE(s), FIELD(s, number), FIELD(s, place)

static void values(void)
{
    STRUCTURE(contact_values), FIELD(contact_values, address), FIELD(contact_values, id), FIELD(contact_values, mode);
    FIELD(contact_values, contact_type), FIELD(contact_values, rx_tone), FIELD(contact_values, broadcast);
    STRUCTURE(channel_common), FIELD(channel_common, receive_hz), FIELD(channel_common, transmit_hz);
    FIELD(channel_common, latitude_e4), FIELD(channel_common, longitude_e4), FIELD(channel_common, altitude_plus_500);
    FIELD(channel_common, latitude), FIELD(channel_common, longitude), FIELD(channel_common, bandwidth);
    FIELD(channel_common, receive_only), FIELD(channel_common, power), FIELD(channel_common, scan_list), FIELD(channel_common, group_list);
    STRUCTURE(channel_info), FIELD(channel_info, contact), FIELD(channel_info, mode), FIELD(channel_info, receive_tone);
    FIELD(channel_info, receive_tone_on), FIELD(channel_info, transmit_tone), FIELD(channel_info, transmit_tone_on);
    FIELD(channel_info, receive_colour), FIELD(channel_info, transmit_colour), FIELD(channel_info, slot);
    FIELD(channel_info, receive_access), FIELD(channel_info, transmit_access), FIELD(channel_info, operation);
    FIELD(channel_info, encryption), FIELD(channel_info, position);
}

static void answers(void)
{
    ANSWER(refusal);
    ANSWER(validate_answer), FIELD(validate_answer, contacts), FIELD(validate_answer, channels), FIELD(validate_answer, banks);
    ANSWER(header_answer), FIELD(header_answer, timestamp), FIELD(header_answer, contacts), FIELD(header_answer, channels);
    FIELD(header_answer, banks);
    ANSWER(contact_answer), FIELD(contact_answer, values);
    ANSWER(channel_answer), FIELD(channel_answer, common), FIELD(channel_answer, info);
    ANSWER(bank_answer), FIELD(bank_answer, entries);
    ANSWER(bank_entry_answer), FIELD(bank_entry_answer, channel), FIELD(bank_entry_answer, next);
    ANSWER(encode_answer), FIELD(encode_answer, address);
    ANSWER(decode_answer), FIELD(decode_answer, length), FIELD(decode_answer, broadcast);
    ANSWER(edit_answer), FIELD(edit_answer, length), FIELD(edit_answer, used), FIELD(edit_answer, entries);
    ANSWER(history_answer), FIELD(history_answer, entries);
}

int main(void)
{
    values();
    answers();
    return 0;
}

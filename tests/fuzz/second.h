/* The second program under C names: each as the function of codeplug.h with the other prefix. */
#ifndef FUZZ_SECOND_H
#define FUZZ_SECOND_H

#include "codeplug.h"

struct codeplug_validate_answer second_validate(const uint8_t *file, size_t length, uint32_t edition);
struct codeplug_validate_answer second_validate_legacy(const uint8_t *file, size_t length, uint32_t edition);
struct codeplug_validate_answer second_migrate(uint8_t *file, size_t length, uint32_t edition);
struct codeplug_header_answer second_header(const uint8_t *file, size_t length, uint8_t *texts, size_t size, uint32_t edition);
struct codeplug_contact_answer second_contact(const uint8_t *file, size_t length, size_t n, uint8_t *name, size_t size, uint32_t edition);
struct codeplug_channel_answer second_channel(const uint8_t *file, size_t length, size_t n, uint8_t *texts, size_t size, uint32_t edition);
struct codeplug_bank_answer second_bank(const uint8_t *file, size_t length, size_t n, uint8_t *name, size_t size, uint32_t edition);
struct codeplug_bank_entry_answer second_bank_entry(const uint8_t *file, size_t length, size_t bank, size_t i, uint32_t edition);
struct codeplug_contact_answer second_contact_prevalidated(const uint8_t *file, size_t length, size_t n, uint8_t *name, size_t size,
    uint32_t edition);
struct codeplug_channel_answer second_channel_prevalidated(const uint8_t *file, size_t length, size_t n, uint8_t *texts, size_t size);
struct codeplug_bank_answer second_bank_prevalidated(const uint8_t *file, size_t length, size_t n, uint8_t *name, size_t size);
struct codeplug_bank_entry_answer second_bank_entry_prevalidated(const uint8_t *file, size_t length, size_t bank, size_t i);
struct codeplug_refusal second_write_contact(uint8_t *out, size_t size, const uint8_t *name, size_t name_length,
    struct codeplug_contact_values values, uint32_t edition);
struct codeplug_refusal second_write_channel(uint8_t *out, size_t size, const uint8_t *name, size_t name_length,
    const uint8_t *description, size_t description_length, struct codeplug_channel_common common, struct codeplug_channel_info info);
struct codeplug_refusal second_write_text(uint8_t *out, size_t size, const uint8_t *text, size_t length);
struct codeplug_refusal second_write_empty(uint8_t *out, size_t size);
struct codeplug_encode_answer second_encode_callsign(const uint8_t *text, size_t length, uint32_t edition);
struct codeplug_decode_answer second_decode_address(uint64_t address, uint8_t *out, size_t size, uint32_t edition);
uint16_t second_tone_frequency(uint8_t index);
uint8_t second_tone_index(uint16_t tenths);
struct codeplug_edit_answer second_edit(uint8_t *room, size_t room_size, size_t length, uint8_t *history, size_t history_size, size_t used,
    size_t kind, size_t first, size_t second, const uint8_t *record, size_t record_length, uint32_t edition);
struct codeplug_edit_answer second_undo(uint8_t *room, size_t room_size, size_t length, uint8_t *history, size_t history_size, size_t used,
    uint32_t edition);
struct codeplug_history_answer second_history_entries(const uint8_t *history, size_t used);

#endif

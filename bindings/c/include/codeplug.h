/* The codeplug library for C: validates, reads, writes and edits OBCF 0.1.0 codeplug files in lent buffers.
 *
 * Every function is proved to answer what its definition says, for any bytes, lengths and numbers; docs/API.md, "C interface", names the
 * definitions. It allocates nothing, keeps nothing between calls and touches only the buffers that a call lends it.
 *
 * What the caller must ensure, since C does not check it:
 * - a pointer with its length names that many readable bytes (writable ones, where it is not const); it may be null where the length is 0;
 * - two buffers of one call do not overlap where either may be written;
 * - a bool holds true or false.
 *
 * An answer's `number` is CODEPLUG_OK, which is 0, or a refusal (enum codeplug_refusal_number), with its `place`. On a refusal no buffer
 * changes, and the answer's other numbers are 0, unless its structure says otherwise.
 *
 * A text field is 32 bytes: the text, bytes 0x20 to 0x7E, then zeros. All 32 may be used, so there may be no zero at the end: measure it by
 * codeplug_text_length. Texts that are given to a writer come with their length and without padding.
 *
 * codeplug_refusal_text and codeplug_text_length are the header's own: they are compiled with the program and are not proved.
 *
 * Words of the format's papers: the room is the buffer that a codeplug is edited in, the history what undo needs, a refusal a call that was
 * not made, with its reason. */
#ifndef CODEPLUG_H
#define CODEPLUG_H

#include <stdbool.h>
#include <stddef.h>
#include <stdint.h>

#ifdef __cplusplus
extern "C" {
#endif

/* The version of this header. A library of the same major version, and of this minor version or a later, has every function of it:
 * codeplug_version() tells which one is linked. Before version 3 no function took an edition: CODEPLUG_EDITION_OLDER answers as they did.
 * Files that this library wrote before version 2 are migrated first, see "legacy files". */
#define CODEPLUG_VERSION_MAJOR 3
#define CODEPLUG_VERSION_MINOR 0
#define CODEPLUG_VERSION_PATCH 0
#define CODEPLUG_VERSION_NUMBER (CODEPLUG_VERSION_MAJOR << 16 | CODEPLUG_VERSION_MINOR << 8 | CODEPLUG_VERSION_PATCH)

/* The library's version, in the form of CODEPLUG_VERSION_NUMBER. */
uint32_t codeplug_version(void);

/* Sizes, in bytes. */
enum codeplug_size {
    CODEPLUG_FILE_MAX = 1048576,  /* the longest file */
    CODEPLUG_HEADER_SIZE = 88,    /* a file's header, and the empty codeplug */
    CODEPLUG_CONTACT_SIZE = 39,   /* a contact's record */
    CODEPLUG_CHANNEL_SIZE = 90,   /* a channel's record */
    CODEPLUG_TEXT_SIZE = 32,      /* a text field */
    CODEPLUG_TEXTS_SIZE = 64,     /* two text fields, one after the other */
    CODEPLUG_CALLSIGN_SIZE = 9,   /* a callsign's text, a hash sign included, padded with zeros */
    CODEPLUG_BANK_ENTRY_SIZE = 2, /* a channel index, low byte first, as edit 10 carries it */
    CODEPLUG_SET_HEADER_SIZE = 72 /* author, description and timestamp, as edit 12 carries them */
};

/* Refusals: the name, the number and words for a person. A row makes the number's name: row TOO_LONG makes CODEPLUG_REFUSED_TOO_LONG, in
 * enum codeplug_refusal_number below. The table is there for programs too: CODEPLUG_REFUSALS(M) is M(name, number, words) for each row, so
 * that a program can list the refusals or put them into words of its own.
 *
 * The place of 1 to 12 is the offset of the first byte of the bad field: in the file; from a writer, in the record; where an edit's result
 * is refused, in that result. The place of 21 is the character's position. Any other place is 0.
 *
 * 8, 21 and 23 follow the edition (enum codeplug_edition): by the newer one a hash address is a callsign's, and a hash sign may be a
 * callsign's first character. */
#define CODEPLUG_REFUSALS(REFUSAL) \
    REFUSAL(TOO_LONG, 1, "the file is longer than 1,048,576 bytes") \
    REFUSAL(CUT, 2, "the file ends inside a field") \
    REFUSAL(MAGIC, 3, "the file does not begin as a codeplug") \
    REFUSAL(VERSION, 4, "the file's version is not 1") \
    REFUSAL(TEXT, 5, "a text holds a byte that no text may hold, or is too long") \
    REFUSAL(MODE, 6, "there is no such mode") \
    REFUSAL(VALUE, 7, "a value, a reserved bit or a pad byte is outside its rule") \
    REFUSAL(ADDRESS, 8, "an M17 address is neither a callsign's nor broadcast") \
    REFUSAL(CONTACT_INDEX, 9, "a channel names a contact that is not there or has another mode") \
    REFUSAL(BANK_OFFSET, 10, "a bank does not start where its offset says") \
    REFUSAL(BANK_ENTRY, 11, "a bank names a channel that is not there") \
    REFUSAL(TRAILING, 12, "there are bytes after the last bank") \
    REFUSAL(CALLSIGN_LENGTH, 20, "a callsign has no character, or more than nine") \
    REFUSAL(CALLSIGN_FOREIGN, 21, "a callsign holds a character that may not stand there") \
    REFUSAL(CALLSIGN_SPACE, 22, "a callsign ends in a space") \
    REFUSAL(ADDRESS_NUMBER, 23, "a number is neither a callsign's nor broadcast") \
    REFUSAL(CALLSIGN_BUFFER, 24, "a callsign's buffer is shorter than nine bytes") \
    REFUSAL(SHORT_BUFFER, 25, "an output buffer is too short") \
    REFUSAL(BAD_LENGTH, 30, "a stated length is more than its buffer") \
    REFUSAL(BAD_HISTORY, 31, "the history is not whole entries") \
    REFUSAL(NO_EDIT, 32, "there is no such edit, or its record has the wrong length") \
    REFUSAL(NO_PLACE, 33, "there is no such place") \
    REFUSAL(FULL, 34, "there are 65,535 already") \
    REFUSAL(IN_USE, 35, "the contact is called by a channel, or the channel is in a bank") \
    REFUSAL(NO_ROOM, 36, "the result does not fit the codeplug's buffer") \
    REFUSAL(HISTORY_TOO_SMALL, 37, "the edit's entry alone does not fit the history's buffer") \
    REFUSAL(NO_UNDO, 38, "there is nothing to undo") \
    REFUSAL(HISTORY_ENTRY, 39, "the last entry does not fit the codeplug or its room")

/* The names that the table makes: CODEPLUG_REFUSED_TOO_LONG, CODEPLUG_REFUSED_CUT, CODEPLUG_REFUSED_MAGIC, CODEPLUG_REFUSED_VERSION,
 * CODEPLUG_REFUSED_TEXT, CODEPLUG_REFUSED_MODE, CODEPLUG_REFUSED_VALUE, CODEPLUG_REFUSED_ADDRESS, CODEPLUG_REFUSED_CONTACT_INDEX,
 * CODEPLUG_REFUSED_BANK_OFFSET, CODEPLUG_REFUSED_BANK_ENTRY, CODEPLUG_REFUSED_TRAILING, CODEPLUG_REFUSED_CALLSIGN_LENGTH,
 * CODEPLUG_REFUSED_CALLSIGN_FOREIGN, CODEPLUG_REFUSED_CALLSIGN_SPACE, CODEPLUG_REFUSED_ADDRESS_NUMBER, CODEPLUG_REFUSED_CALLSIGN_BUFFER,
 * CODEPLUG_REFUSED_SHORT_BUFFER, CODEPLUG_REFUSED_BAD_LENGTH, CODEPLUG_REFUSED_BAD_HISTORY, CODEPLUG_REFUSED_NO_EDIT,
 * CODEPLUG_REFUSED_NO_PLACE, CODEPLUG_REFUSED_FULL, CODEPLUG_REFUSED_IN_USE, CODEPLUG_REFUSED_NO_ROOM, CODEPLUG_REFUSED_HISTORY_TOO_SMALL,
 * CODEPLUG_REFUSED_NO_UNDO, CODEPLUG_REFUSED_HISTORY_ENTRY. */
enum codeplug_refusal_number {
#define CODEPLUG_REFUSAL(name, number, words) CODEPLUG_REFUSED_##name = number,
    CODEPLUG_REFUSALS(CODEPLUG_REFUSAL)
#undef CODEPLUG_REFUSAL
    CODEPLUG_OK = 0
};

/* What a refusal's number means, in the words of the table above. The header's own: not proved. */
static inline const char *codeplug_refusal_text(unsigned refusal)
{
    switch (refusal) {
#define CODEPLUG_REFUSAL(name, number, words) case number: return words;
    CODEPLUG_REFUSALS(CODEPLUG_REFUSAL)
#undef CODEPLUG_REFUSAL
    case CODEPLUG_OK: return "not refused";
    default: return "there is no such refusal";
    }
}

/* How long the text in a field of 32 bytes is: 32 where there is no zero. The header's own: not proved. */
static inline size_t codeplug_text_length(const uint8_t *field)
{
    size_t length = 0;
    while (length < CODEPLUG_TEXT_SIZE && field[length] != 0)
        length++;
    return length;
}

/* Kinds of edits, with the two places and the record that each takes. An unused place is 0, else 33; an unused record has length 0, else
 * 32. */
enum codeplug_edit_kind {
    /* A contact's 39 bytes, at a place up to the count. Contacts from there on move up by one; every channel goes on naming the same
     * contact, by its new number. */
    CODEPLUG_INSERT_CONTACT = 1,
    /* The contact's place: 35 where a channel names it. Contacts past it move down by one; every channel goes on naming the same
     * contact. */
    CODEPLUG_REMOVE_CONTACT = 2,
    /* The contact's place, and 39 bytes. */
    CODEPLUG_REPLACE_CONTACT = 3,
    /* A channel's 90 bytes, at a place up to the count. Channels from there on move up by one; every bank goes on naming the same channels,
     * by their new numbers. */
    CODEPLUG_INSERT_CHANNEL = 4,
    /* The channel's place: 35 where a bank names it. Channels past it move down by one; every bank goes on naming the same channels. */
    CODEPLUG_REMOVE_CHANNEL = 5,
    /* The channel's place, and 90 bytes. */
    CODEPLUG_REPLACE_CHANNEL = 6,
    /* An empty bank's name of 32 bytes, at a place up to the count. */
    CODEPLUG_INSERT_BANK = 7,
    /* The bank's place. Its entries go with it. */
    CODEPLUG_REMOVE_BANK = 8,
    /* The bank's place, and a name of 32 bytes. */
    CODEPLUG_RENAME_BANK = 9,
    /* The bank's place, the entry's place up to the entry count, and a channel index of two bytes, low byte first. */
    CODEPLUG_INSERT_ENTRY = 10,
    /* The bank's place and the entry's. */
    CODEPLUG_REMOVE_ENTRY = 11,
    /* Author and description, 32 bytes each, then the timestamp, 8 bytes, low byte first: 72 bytes. By the format the timestamp is a Unix
     * timestamp, of the last edit; any value is accepted, and no other edit sets it. */
    CODEPLUG_SET_HEADER = 12
};

/* Editions of M17 addresses. By both of them the numbers 1 to 262,143,999,999,999 are callsigns of 1 to 9 characters, and
 * 0xFFFFFFFFFFFF is broadcast. The newer one has hash addresses besides: 262,144,000,000,000 to 268,697,599,999,999 are a hash sign and
 * then the text, of at most eight characters, of the number less 262,144,000,000,000; 262,144,000,000,000 itself is the hash sign alone.
 * Where this header says callsign, that is by the newer edition a hash address too. By either edition texts and numbers map one to one, and
 * what is good by both is the same by both: a number has one text, a text one number.
 *
 * The edition is the last parameter of every function that sees an address: codeplug_validate, codeplug_header, codeplug_contact,
 * codeplug_channel, codeplug_bank, codeplug_bank_entry, codeplug_contact_prevalidated, codeplug_validate_legacy, codeplug_migrate,
 * codeplug_write_contact, codeplug_encode_callsign, codeplug_decode_address, codeplug_edit and codeplug_undo. All others answer alike by
 * both.
 *
 * Use one edition throughout with a codeplug and its history. Nothing in a file says which. Every file that the older edition accepts the
 * newer accepts too, and reads alike; they answer a file otherwise only where the older refuses it, 8. So a program may go over to the
 * newer edition with all its files and histories. A file that the newer accepts is accepted by the older exactly where it holds no hash
 * address; and a history that was written under the newer may hold some, so that undo by the older may be refused, 8 for the file as it is
 * or 39 for what undo would bring back.
 *
 * Every number has an answer: CODEPLUG_EDITION_NEWER is the newer edition, any other number the older. */
enum codeplug_edition {
    CODEPLUG_EDITION_OLDER = 0,
    CODEPLUG_EDITION_NEWER = 1
};

/* Modes of channels and contacts; a contact is never FM. */
enum codeplug_mode { CODEPLUG_FM = 0, CODEPLUG_DMR = 1, CODEPLUG_M17 = 2 };

/* Numbers that stand for nothing. */
enum codeplug_nothing {
    CODEPLUG_NOBODY = 65535,   /* a channel calls no contact */
    CODEPLUG_NO_TONE = 255,    /* no tone has this frequency */
    CODEPLUG_NO_FREQUENCY = 0  /* no tone has this index */
};

struct codeplug_refusal {
    uint8_t number;
    size_t place;
};

struct codeplug_validate_answer {
    uint8_t number;
    size_t place;
    uint16_t contacts;
    uint16_t channels;
    uint16_t banks;
};

struct codeplug_header_answer {
    uint8_t number;
    size_t place;
    uint64_t timestamp; /* any; by the format a Unix timestamp */
    uint16_t contacts;
    uint16_t channels;
    uint16_t banks;
};

/* A contact but for its name. Mode 1, DMR: id, contact_type and rx_tone. Mode 2, M17: address and broadcast; beside broadcast a reader
 * answers address 0xFFFFFFFFFFFF, and a writer ignores it. A reader answers 0 for the other mode's numbers, a writer ignores them. */
struct codeplug_contact_values {
    uint64_t address;     /* 1 to 262,143,999,999,999; by the newer edition to 268,697,599,999,999 */
    uint32_t id;          /* any */
    uint8_t mode;         /* 1 or 2 */
    uint8_t contact_type; /* 0 group, 1 private, 2 all call */
    bool rx_tone;
    bool broadcast;
};

/* Beside a refusal: mode 1, everything else 0. */
struct codeplug_contact_answer {
    uint8_t number;
    size_t place;
    struct codeplug_contact_values values;
};

/* What a channel has whatever its mode, but for its texts. A latitude is its floor in whole degrees and ten-thousandths above it: -33.8675
 * is -34 and 1325. So is a longitude. */
struct codeplug_channel_common {
    uint32_t receive_hz;        /* any */
    uint32_t transmit_hz;       /* any */
    uint16_t latitude_e4;       /* 0 to 9,999, and 0 where latitude is 90 */
    uint16_t longitude_e4;      /* 0 to 9,999 */
    uint16_t altitude_plus_500; /* metres, plus 500: any */
    int8_t latitude;            /* -90 to 90 */
    int8_t longitude;           /* any */
    uint8_t bandwidth;          /* 0, 1, 2: 12.5, 20 and 25 kHz */
    bool receive_only;
    uint8_t power;              /* any; by the format, fifths of a dBm above 10 dBm: 5 is 11 dBm */
    uint8_t scan_list;          /* 0 to 250 */
    uint8_t group_list;         /* 0 to 128 */
};

/* What a channel has by its mode. Mode 0, FM: the tones. Mode 1, DMR: colours, slot and contact. Mode 2, M17: access, operation,
 * encryption, position and contact. A reader answers 0 for the other modes' numbers, and 65,535 for an FM channel's contact; a writer
 * ignores them. */
struct codeplug_channel_info {
    uint16_t contact;      /* a contact's place, or CODEPLUG_NOBODY */
    uint8_t mode;          /* 0, 1 or 2 */
    uint8_t receive_tone;  /* 0 to 49, in the table of tones; kept where the tone is off */
    bool receive_tone_on;
    uint8_t transmit_tone;
    bool transmit_tone_on;
    uint8_t receive_colour; /* 0 to 15 */
    uint8_t transmit_colour;
    uint8_t slot;           /* 1 or 2 */
    uint8_t receive_access; /* 0 to 15 */
    uint8_t transmit_access;
    uint8_t operation;      /* 1 voice, 2 data, 3 both */
    uint8_t encryption;     /* 0 plain, 1 AES-256, 2 scrambler */
    bool position;
};

/* Beside a refusal: mode 0, both tones off, receive only, contact 65,535, everything else 0. */
struct codeplug_channel_answer {
    uint8_t number;
    size_t place;
    struct codeplug_channel_common common;
    struct codeplug_channel_info info;
};

struct codeplug_bank_answer {
    uint8_t number;
    size_t place;
    uint16_t entries;
};

struct codeplug_bank_entry_answer {
    uint8_t number;
    size_t place;
    uint16_t channel; /* the entry's channel */
    size_t next;      /* the place of the next entry */
};

struct codeplug_encode_answer {
    uint8_t number;
    size_t place;
    uint64_t address;
};

struct codeplug_decode_answer {
    uint8_t number;
    size_t place;
    size_t length;  /* of the callsign */
    bool broadcast; /* then the length is 0, and no text is written */
};

/* Both new lengths, and how many edits can still be undone. Beside a refusal the lengths are those given, so that they may be stored
 * whatever the answer, and `entries` is 0, which says nothing: codeplug_history_entries counts them. */
struct codeplug_edit_answer {
    uint8_t number;
    size_t place;
    size_t length;
    size_t used;
    size_t entries;
};

struct codeplug_history_answer {
    uint8_t number;
    size_t place;
    size_t entries; /* how many edits can be undone */
};

/* ---- reading a file. Refusals: those of the file, 1 to 12; then 33 where there is no such record. Where a text buffer is lent, 25 comes
 * before all others, if it is too short. */

/* Whether a file is accepted, and its counts. */
struct codeplug_validate_answer codeplug_validate(const uint8_t *file, size_t file_length, uint32_t edition);

/* The header. The author goes into the first 32 bytes of texts, the description into the next 32; later bytes stay. 25 where texts_length
 * is under 64. Each call validates the whole file: where only the counts are wanted, codeplug_validate has answered them. */
struct codeplug_header_answer codeplug_header(const uint8_t *file, size_t file_length, uint8_t *texts, size_t texts_length,
    uint32_t edition);

/* Contact n. Its name goes into the first 32 bytes of name; later bytes stay. 25 where name_length is under 32. */
struct codeplug_contact_answer codeplug_contact(const uint8_t *file, size_t file_length, size_t n, uint8_t *name, size_t name_length,
    uint32_t edition);

/* Channel n. The name goes into the first 32 bytes of texts, the description into the next 32; later bytes stay. 25 where texts_length is
 * under 64. */
struct codeplug_channel_answer codeplug_channel(const uint8_t *file, size_t file_length, size_t n, uint8_t *texts, size_t texts_length,
    uint32_t edition);

/* Bank n: how many entries it has. Its name goes into the first 32 bytes of name; later bytes stay. 25 where name_length is under 32. */
struct codeplug_bank_answer codeplug_bank(const uint8_t *file, size_t file_length, size_t n, uint8_t *name, size_t name_length,
    uint32_t edition);

/* Entry i of a bank. Begin with 0 and go on with `next` while it is not refused: 33 at the end. Each call validates the whole file: in a
 * loop, validate it once and call codeplug_bank_entry_prevalidated. */
struct codeplug_bank_entry_answer codeplug_bank_entry(const uint8_t *file, size_t file_length, size_t bank, size_t i, uint32_t edition);

/* The same, of a file that codeplug_validate accepted, without validating it again: quicker, where many records are read. Of any other
 * bytes they answer too: 25, 33 by the header's count, then the record's own first bad field (a bank: its offset, name and entry count; an
 * entry: 33 alone). Whether a channel's contact is there and of its mode is looked up in the file's contacts here too: 9. A bank is read
 * where its offset says, which is not compared with where it should be, and an entry's channel is not looked up: never 10, nor 11. So the
 * place of a refusal may lie past the end of the file. Of the four only a contact's reader sees an address, and so only it takes an
 * edition: the one that the file was validated by. */
struct codeplug_contact_answer codeplug_contact_prevalidated(const uint8_t *file, size_t file_length, size_t n, uint8_t *name,
    size_t name_length, uint32_t edition);
struct codeplug_channel_answer codeplug_channel_prevalidated(const uint8_t *file, size_t file_length, size_t n, uint8_t *texts,
    size_t texts_length);
struct codeplug_bank_answer codeplug_bank_prevalidated(const uint8_t *file, size_t file_length, size_t n, uint8_t *name,
    size_t name_length);
struct codeplug_bank_entry_answer codeplug_bank_entry_prevalidated(const uint8_t *file, size_t file_length, size_t bank, size_t i);

/* ---- legacy files. A channel's traits (offset 1 of its record) hold the bandwidth in bits 0 and 1 and receive-only in bit 2; a DMR
 * contact's settings (offset 37) hold the contact type in bits 0 and 1 and rx tone in bit 2: as radios read them. Before version 2 this
 * library had the numbers in bits 7 and 6 and the flags in bit 5. A file that was written so is a legacy file, and reading it so is the
 * legacy reading. The two functions here go by it, all others by the new reading alone.
 *
 * A legacy file is migrated once, before anything else is done with it. Throw its history away (`used` 0), also where the file needs no
 * migrating: its entries hold legacy bytes, so undo may be refused, 39, or bring back a wrong file. Files alone are migrated, not records
 * that were stored by themselves.
 *
 * Nothing in a file says how it was written. To find out, validate it by both readings, with one edition; bindings/c/migrate.c is an
 * example. Accepted
 * - by codeplug_validate_legacy alone: a legacy file, to be migrated;
 * - by codeplug_validate alone: not a legacy file, and nothing is to be done;
 * - by both: all traits and settings are 0 and read the same either way, so nothing is to be done, and migrating changes no byte;
 * - by neither: the file is damaged, is no codeplug, or holds a hash address and the edition is the older.
 * So migrating twice is refused, 7, or changes nothing. */

/* Whether a file is accepted by the legacy reading, and its counts. Refusals: those of the file, 1 to 12, by that reading. */
struct codeplug_validate_answer codeplug_validate_legacy(const uint8_t *file, size_t file_length, uint32_t edition);

/* The same answer, and an accepted file is migrated in place: traits and settings change, so that every field reads by the new reading as
 * it did by the legacy one; every other byte stays. A refused file is not touched. Of a codeplug in a room, file_length is the codeplug's
 * own length, without the spare bytes. */
struct codeplug_validate_answer codeplug_migrate(uint8_t *file, size_t file_length, uint32_t edition);

/* ---- writing what the edits carry: 25 first, then the fields in the record's order */

/* A contact's record into the first 39 bytes of out; later bytes stay. Refusals: 25, 5 at 0, 6 at 32, 8 at 33 or 7 at 37. */
struct codeplug_refusal codeplug_write_contact(uint8_t *out, size_t out_length, const uint8_t *name, size_t name_length,
    struct codeplug_contact_values values, uint32_t edition);

/* A channel's record into the first 90 bytes of out; later bytes stay. Refusals: 25, 6 at 0, then 7 and 5 by field. Whether the contact is
 * there, only the file can say. */
struct codeplug_refusal codeplug_write_channel(uint8_t *out, size_t out_length, const uint8_t *name, size_t name_length,
    const uint8_t *description, size_t description_length, struct codeplug_channel_common common, struct codeplug_channel_info info);

/* A text field into the first 32 bytes of out, as edits 7, 9 and 12 carry them: the text, then zeros; later bytes stay. Refusals: 25, 5. */
struct codeplug_refusal codeplug_write_text(uint8_t *out, size_t out_length, const uint8_t *text, size_t text_length);

/* The empty codeplug into the first 88 bytes of out: no author, description, contact, channel or bank, timestamp 0; later bytes stay.
 * Refusal: 25. */
struct codeplug_refusal codeplug_write_empty(uint8_t *out, size_t out_length);

/* ---- M17 addresses and tones */

/* A callsign's number. Refusals: 20, 21, 22. A hash sign counts as a character; by the newer edition it is refused, 21, where it does not
 * stand first, by the older one wherever it stands. */
struct codeplug_encode_answer codeplug_encode_callsign(const uint8_t *text, size_t text_length, uint32_t edition);

/* A number's callsign, padded with zeros, into the first 9 bytes of out; later bytes stay, and all where it is broadcast. Refusals: 24,
 * 23. */
struct codeplug_decode_answer codeplug_decode_address(uint64_t address, uint8_t *out, size_t out_length, uint32_t edition);

/* The frequency of tone 0 to 49, in tenths of a hertz; CODEPLUG_NO_FREQUENCY past the table. */
uint16_t codeplug_tone_frequency(uint8_t index);

/* The tone of a frequency in tenths of a hertz; CODEPLUG_NO_TONE where no tone has it. */
uint8_t codeplug_tone_index(uint16_t tenths);

/* ---- editing a codeplug in place. `room` holds the codeplug in its first `length` bytes and spare bytes after it; `history` holds what
 * undo needs in its first `used` bytes, at the start none. After an accepted call the bytes from the new length up to the old are zero, and
 * those past both stay; so in the history.
 *
 * Where the history is full, the oldest entries are dropped. An edit whose own entry is longer than the history is refused, 37: an
 * insertion or removal may need as much as the file's length and 9 bytes, since it may move and change nearly all of it. A history of the
 * room's size and 9 bytes is always enough for one edit. */

/* Makes an edit: its kind, two places and a record. Refusals: 30, the codeplug's own, 31, 32, 33, 34, 35, the result's own, 36, 37. */
struct codeplug_edit_answer codeplug_edit(uint8_t *room, size_t room_size, size_t length, uint8_t *history, size_t history_size,
    size_t used, size_t kind, size_t first, size_t second, const uint8_t *record, size_t record_length, uint32_t edition);

/* Takes the last edit back. Refusals: 30, the codeplug's own, 31, 38, 39. 39 also where the edition refuses what undo would bring back, or
 * the result does not fit the room: for whoever loads codeplug and history from a disk, a room of `length` + `used` bytes is enough. */
struct codeplug_edit_answer codeplug_undo(uint8_t *room, size_t room_size, size_t length, uint8_t *history, size_t history_size,
    size_t used, uint32_t edition);

/* How many entries a history of `used` bytes holds: for whoever loads it from a disk. Refusal: 31. */
struct codeplug_history_answer codeplug_history_entries(const uint8_t *history, size_t used);

#ifdef __cplusplus
}
#endif

#endif

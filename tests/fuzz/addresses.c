/* Target: callsigns to addresses and back, one to one by each edition; and the tones. The input is a byte that says how, its top bit the
 * edition, then a text or a number. */
#include "blocks.h"
#include "codeplug.h"
#include "edition.h"
#include "guarded.h"
#include "must.h"
#include "take.h"
#include "text.h"

enum { FRESH = 0xEE, MOST_OUT = 32 };

static bool at_start, newer;
static uint32_t edition, other_edition;

static bool is_character(uint8_t c)
{
    return (c >= 'A' && c <= 'Z') || (c >= '0' && c <= '9') || c == ' ' || c == '-' || c == '/' || c == '.';
}

/* The refusal of a text, by document 01 and request [10] of document 02. */
static struct codeplug_refusal text_refusal(const uint8_t *text, size_t size)
{
    if (size < 1 || size > CODEPLUG_CALLSIGN_SIZE)
        return (struct codeplug_refusal){CODEPLUG_REFUSED_CALLSIGN_LENGTH, 0};
    for (size_t i = newer && text[0] == '#'; i < size; i++)
        if (!is_character(text[i]))
            return (struct codeplug_refusal){CODEPLUG_REFUSED_CALLSIGN_FOREIGN, i};
    return (struct codeplug_refusal){text[size - 1] == ' ' ? CODEPLUG_REFUSED_CALLSIGN_SPACE : CODEPLUG_OK, 0};
}

/* A number into a buffer of any size. */
static struct codeplug_decode_answer decoded(uint64_t number, size_t size, uint32_t by, uint8_t **out)
{
    *out = guarded(SLOT_TEXT, at_start, NULL, size);
    struct codeplug_decode_answer a = codeplug_decode_address(number, *out, size, by);
    guarded_check(SLOT_TEXT);
    bool written = a.number == CODEPLUG_OK && !a.broadcast;
    must(all_are(*out, written ? CODEPLUG_CALLSIGN_SIZE : 0, size, FRESH));
    must(written || a.length == 0);
    return a;
}

static uint64_t text(const uint8_t *bytes, size_t size)
{
    const uint8_t *lent = guarded(SLOT_OTHER, at_start, bytes, size);
    struct codeplug_encode_answer a = codeplug_encode_callsign(lent, size, edition);
    struct codeplug_refusal r = text_refusal(bytes, size);
    bool hash = size > 0 && bytes[0] == '#';
    must(a.number == r.number && a.place == r.place);
    must(hash || same_encode(a, codeplug_encode_callsign(lent, size, other_edition)));
    if (a.number != CODEPLUG_OK) {
        must(a.address == 0);
        return 0;
    }
    must(hash ? is_hash(a.address) : a.address >= 1 && a.address < FIRST_HASH);
    uint8_t *out;
    struct codeplug_decode_answer d = decoded(a.address, CODEPLUG_CALLSIGN_SIZE + size, edition, &out);
    must(d.number == CODEPLUG_OK && !d.broadcast && d.length == size && memcmp(out, bytes, size) == 0);
    must(all_are(out, size, CODEPLUG_CALLSIGN_SIZE, 0));
    return a.address;
}

static void number(uint64_t n, size_t size)
{
    uint8_t *out, by_other[MOST_OUT];
    struct codeplug_decode_answer o = decoded(n, size, other_edition, &out);
    memcpy(by_other, out, size);
    struct codeplug_decode_answer d = decoded(n, size, edition, &out);
    bool is_callsign = (n >= 1 && n < FIRST_HASH) || (newer && is_hash(n));
    must(is_hash(n) || (same_decode(d, o) && memcmp(out, by_other, size) == 0));
    must(d.place == 0 && d.broadcast == (n == BROADCAST && size >= CODEPLUG_CALLSIGN_SIZE));
    if (size < CODEPLUG_CALLSIGN_SIZE)
        must(d.number == CODEPLUG_REFUSED_CALLSIGN_BUFFER);
    else if (!is_callsign)
        must(d.number == (n == BROADCAST ? CODEPLUG_OK : CODEPLUG_REFUSED_ADDRESS_NUMBER));
    else
        must(d.number == CODEPLUG_OK && codeplug_encode_callsign(out, d.length, edition).address == n);
}

/* Two texts have one address only where they are the same. */
static void two_texts(const uint8_t *bytes, size_t size)
{
    size_t half = size / 2;
    uint64_t a = text(bytes, half), b = text(bytes + half, size - half);
    must(a == 0 || b == 0 || (a == b) == (half == size - half && memcmp(bytes, bytes + half, half) == 0));
}

static void tones(uint8_t index, uint16_t tenths)
{
    uint16_t frequency = codeplug_tone_frequency(index);
    uint8_t found = codeplug_tone_index(tenths);
    must((frequency == CODEPLUG_NO_FREQUENCY) == (index > 49));
    must(index > 49 || codeplug_tone_index(frequency) == index);
    must(found == CODEPLUG_NO_TONE || (found <= 49 && codeplug_tone_frequency(found) == tenths));
}

int LLVMFuzzerInitialize(int *argc, char ***argv)
{
    (void)argc, (void)argv;
    blocks_watch();
    return 0;
}

int LLVMFuzzerTestOneInput(const uint8_t *data, size_t size)
{
    struct input in = {data, size};
    uint8_t how = take_byte(&in);
    if (size > GUARDED_MOST)
        return 0;
    blocks_again();
    at_start = how & 4;
    newer = how >= 128;
    edition = edition_number(newer, how >> 5);
    other_edition = edition_number(!newer, how >> 5);
    switch (how & 3) {
    case 0:
        text(in.at, in.left);
        break;
    case 1:
        number(take_number(&in, 8), take_byte(&in) % MOST_OUT);
        break;
    case 2:
        two_texts(in.at, in.left);
        break;
    default:
        tones(take_byte(&in), (uint16_t)take_number(&in, 2));
    }
    return 0;
}

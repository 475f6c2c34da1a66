/* Openings and calls out of an input's bytes. */
#include "plan.h"

#include "edition.h"
#include "valid_file.h"
#include "guarded.h"
#include "record.h"

enum { AGAIN = 15, MOST_AGAIN = 64 };
enum { HISTORY_GIVEN = 1, FILE_GIVEN = 2, AT_START = 4, FILE_MADE = 8, NEWER = 16, CHANGES = 32 };

/* The empty codeplug. */
static const uint8_t empty[CODEPLUG_HEADER_SIZE] = {'R', 'T', 'X', 'C', [8] = 1};

static uint8_t made[VALID_FILE_MOST];

static size_t at_most(size_t n, size_t most)
{
    return n < most ? n : most;
}

struct opening plan_opening(struct input *in)
{
    uint8_t flags = take_byte(in), spare = take_byte(in), history = take_byte(in);
    struct opening o = {.file = empty, .file_length = sizeof empty, .entries = empty, .at_start = flags & AT_START};
    o.newer = flags & NEWER;
    o.changes = flags & CHANGES ? 1 + flags / 64 : 0;
    if (flags & FILE_MADE) {
        o.file = made;
        o.file_length = take_valid_file(in, made);
    } else if (flags & FILE_GIVEN) {
        o.file = take_some(in, take_number(in, 2), &o.file_length);
    }
    if (flags & HISTORY_GIVEN)
        o.entries = take_some(in, take_byte(in), &o.entries_length);
    o.room_size = at_most(o.file_length + (spare < 128 ? 4u * spare : 512u * (spare - 128u)), GUARDED_MOST);
    o.history_size = o.entries_length + (history < 128 ? history : 256u * (history - 128u));
    return o;
}

/* How many there are of what a kind of edit edits. */
static size_t count_of(const uint8_t *room, size_t length, size_t kind)
{
    size_t at = kind <= 3 ? 82 : kind <= 6 ? 84 : 86;
    return length < CODEPLUG_HEADER_SIZE || kind == CODEPLUG_SET_HEADER ? 0 : room[at] + 256u * room[at + 1];
}

static size_t entries_of(const uint8_t *room, size_t length, size_t bank)
{
    uint8_t name[CODEPLUG_TEXT_SIZE];
    return codeplug_bank_prevalidated(room, length, bank, name, sizeof name).entries;
}

/* Form 0: two places; 1: the unused one is 0; 2: and they are at most the counts; 3: and below them, where there are any. */
static void take_places(struct input *in, unsigned form, const uint8_t *room, size_t length, struct call *c)
{
    bool entry = c->kind == CODEPLUG_INSERT_ENTRY || c->kind == CODEPLUG_REMOVE_ENTRY;
    size_t count = count_of(room, length, c->kind);
    c->first = take_place(in);
    if (form > 1)
        c->first %= count + (form == 2 || count == 0);
    if (form == 0 || entry)
        c->second = take_place(in);
    if (form < 2 || !entry)
        return;
    count = entries_of(room, length, c->first);
    c->second %= count + (form == 2 || count == 0);
}

/* An edit that is not there, or a call that states other lengths. */
static void take_odd(struct input *in, struct call *c)
{
    uint8_t b = take_byte(in);
    c->kind = b < 0xE0 ? b : SIZE_MAX - b;
    if (b < 0xF0)
        return;
    c->undo = b & 1;
    c->kind = CODEPLUG_SET_HEADER;
    c->length += (size_t)(int8_t)take_byte(in);
    c->used += (size_t)(int8_t)take_byte(in);
}

static struct call new_call(struct input *in, const uint8_t *room, size_t length, size_t used)
{
    uint8_t op = take_byte(in);
    struct call c = {.kind = op & 15, .length = length, .used = used};
    c.undo = c.kind == 0 || c.kind == 13;
    if (c.kind == 14)
        take_odd(in, &c);
    if (c.undo)
        return c;
    take_places(in, op >> 6, room, length, &c);
    take_record(in, (op >> 4) & 3, room, length, &c);
    return c;
}

/* The edition of the call after those that were made. */
static uint32_t next_edition(const struct list *list)
{
    bool changed = list->changes > 0 && list->made / list->changes % 2 == 1;
    return edition_number(list->newer != changed, list->made);
}

bool plan_next(struct list *list, const uint8_t *room, size_t length, size_t used)
{
    uint32_t edition = next_edition(list);
    list->bytes += length;
    if (list->made == PLAN_CALLS || list->bytes > PLAN_BYTES || (list->again == 0 && list->in.left == 0))
        return false;
    list->made++;
    if (list->again == 0 && (*list->in.at & 15) == AGAIN) {
        take_byte(&list->in);
        list->again = 1 + take_byte(&list->in) % MOST_AGAIN;
    }
    if (list->again == 0) {
        list->call = new_call(&list->in, room, length, used);
    } else {
        list->again--;
        list->call.length = length;
        list->call.used = used;
    }
    list->call.edition = edition;
    return true;
}

/* Target: the input is an opening and a list of calls, by one edition or by both in turn. After each call the answer and both whole buffers
 * have to be consistent. */
#include "blocks.h"
#include "codeplug.h"
#include "history.h"
#include "guarded.h"
#include "must.h"
#include "plan.h"
#include "text.h"

/* Which answer each kind of call had, and which answer came after which: for the fuzzer. */
__attribute__((section("__libfuzzer_extra_counters"))) static uint8_t seen[14][40], after[40][40];

/* Two buffers and their lengths. */
struct state {
    uint8_t *room, *history;
    size_t length, used;
};

static size_t room_size, history_size;

/* The files before the edits that were made and not undone, oldest first, and how many. */
static struct {
    uint8_t *bytes;
    size_t length;
} before[PLAN_CALLS];
static size_t edits_made;

/* The history's length before the call, which the call may state otherwise. */
static size_t actual_used;

static struct state copied(const struct state *s)
{
    struct state c = {malloc(room_size + 1), malloc(history_size + 1), s->length, s->used};
    memcpy(c.room, s->room, room_size);
    memcpy(c.history, s->history, history_size);
    return c;
}

static void dropped(struct state *s)
{
    free(s->room);
    free(s->history);
}

static struct codeplug_edit_answer make(struct state *s, const struct call *c)
{
    if (c->undo)
        return codeplug_undo(s->room, room_size, c->length, s->history, history_size, c->used, c->edition);
    const uint8_t *record = c->record_length > 0 ? guarded(SLOT_RECORD, false, c->record, c->record_length) : NULL;
    return codeplug_edit(s->room, room_size, c->length, s->history, history_size, c->used, c->kind, c->first, c->second, record,
        c->record_length, c->edition);
}

/* What an accepted call leaves after the new length: zeros up to the old, and later bytes as they were. */
static void spare(const uint8_t *now, const uint8_t *old, size_t size, size_t new_length, size_t old_length)
{
    size_t longest = new_length > old_length ? new_length : old_length;
    must(longest <= size && all_are(now, new_length, old_length, 0));
    must(memcmp(now + longest, old + longest, size - longest) == 0);
}

/* A history's entries by the library, which have to be those of history.h; -1 where it is not whole entries. */
static long counted(const uint8_t *history, size_t used)
{
    struct codeplug_history_answer a = codeplug_history_entries(guarded(SLOT_OTHER, used % 2 == 0, history, used), used);
    must(a.number == CODEPLUG_OK || (a.number == CODEPLUG_REFUSED_BAD_HISTORY && a.entries == 0));
    long entries = a.number == CODEPLUG_OK ? (long)a.entries : -1;
    must(a.place == 0 && entries == history_entries(history, used));
    return entries;
}

/* Whether the file before the last edit has an address that the edition refuses: it was made by the newer one. */
static bool refuses_before(uint32_t edition)
{
    return edits_made > 0
        && codeplug_validate(before[edits_made - 1].bytes, before[edits_made - 1].length, edition).number == CODEPLUG_REFUSED_ADDRESS;
}

static void refused(const struct state *s, const struct state *old, struct codeplug_edit_answer a, const struct call *c)
{
    must(memcmp(s->room, old->room, room_size) == 0 && memcmp(s->history, old->history, history_size) == 0);
    must(a.length == c->length && a.used == c->used && a.entries == 0);
    must((a.number == CODEPLUG_REFUSED_BAD_LENGTH) == (c->length > room_size || c->used > history_size));
    if (a.number == CODEPLUG_REFUSED_NO_UNDO)
        must(c->undo && c->used == 0);
    if (a.number == CODEPLUG_REFUSED_HISTORY_ENTRY)
        must(c->undo && (edits_made == 0 || c->used != actual_used || refuses_before(c->edition)));
}

static void accepted(const struct state *s, const struct state *old, struct codeplug_edit_answer a, uint32_t edition)
{
    must(a.length <= room_size && a.used <= history_size);
    must(codeplug_validate(s->room, a.length, edition).number == CODEPLUG_OK);
    must(counted(s->history, a.used) == (long)a.entries);
    spare(s->room, old->room, room_size, a.length, old->length);
    spare(s->history, old->history, history_size, a.used, old->used);
}

static bool is_file(const struct state *s, const uint8_t *bytes, size_t length)
{
    return s->length == length && memcmp(s->room, bytes, length) == 0;
}

/* An undo by the same edition, made on a copy, gives back the file before the edit. */
static void taken_back(const struct state *s, const struct state *old, size_t entries, uint32_t edition)
{
    struct state copy = copied(s);
    struct codeplug_edit_answer a = codeplug_undo(copy.room, room_size, s->length, copy.history, history_size, s->used, edition);
    must(a.number == CODEPLUG_OK && a.entries == entries - 1);
    copy.length = a.length;
    must(is_file(&copy, old->room, old->length));
    dropped(&copy);
}

static void remember(struct state *old, bool undo, const struct state *s)
{
    if (!undo) {
        before[edits_made].bytes = old->room;
        before[edits_made++].length = old->length;
        old->room = NULL;
    } else if (edits_made > 0) {
        edits_made--;
        must(is_file(s, before[edits_made].bytes, before[edits_made].length));
        free(before[edits_made].bytes);
    }
}

/* Makes a call and checks what it did; answers the refusal. */
static uint8_t step(struct state *s, const struct call *c)
{
    struct state old = copied(s);
    struct codeplug_edit_answer a = make(s, c);
    old.length = c->length;
    old.used = c->used;
    if (a.number != CODEPLUG_OK) {
        refused(s, &old, a, c);
    } else {
        accepted(s, &old, a, c->edition);
        s->length = a.length;
        s->used = a.used;
        if (!c->undo)
            taken_back(s, &old, a.entries, c->edition);
        if (c->used == actual_used)
            remember(&old, c->undo, s);
    }
    for (int slot = SLOT_FILE; slot <= SLOT_HISTORY; slot++)
        guarded_check(slot);
    dropped(&old);
    seen[c->undo ? 0 : c->kind < 13 ? c->kind : 13][a.number] = 1;
    return a.number;
}

static void all_calls(struct state *s, struct list list)
{
    uint8_t last = 0;
    while (plan_next(&list, s->room, s->length, s->used)) {
        actual_used = s->used;
        uint8_t number = step(s, &list.call);
        after[last][number] = 1;
        last = number;
        /* A history of another length was taken: what it holds is no longer known here. */
        if (number == CODEPLUG_OK && list.call.used != actual_used)
            return;
    }
}

int LLVMFuzzerInitialize(int *argc, char ***argv)
{
    (void)argc, (void)argv;
    blocks_watch();
    return 0;
}

int LLVMFuzzerTestOneInput(const uint8_t *data, size_t size)
{
    struct input in = {data, size};
    struct opening o = plan_opening(&in);
    blocks_again();
    room_size = o.room_size;
    history_size = o.history_size;
    struct state s = {guarded(SLOT_FILE, o.at_start, NULL, room_size), guarded(SLOT_HISTORY, o.at_start, NULL, history_size), o.file_length,
        o.entries_length};
    memcpy(s.room, o.file, o.file_length);
    memcpy(s.history, o.entries, o.entries_length);
    counted(s.history, s.used);
    all_calls(&s, (struct list){.in = in, .newer = o.newer, .changes = o.changes});
    while (edits_made > 0)
        free(before[--edits_made].bytes);
    return 0;
}

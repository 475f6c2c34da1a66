/* Shows that the guards around the buffers notice the library's own reads and writes: each case states a longer length than is lent, and
 * has to end the program. Prints how many did. */
#include <signal.h>
#include <stdio.h>
#include <string.h>
#include <sys/wait.h>
#include <unistd.h>

#include "codeplug.h"
#include "guarded.h"
#include "must.h"

static const uint8_t empty[CODEPLUG_HEADER_SIZE] = {'R', 'T', 'X', 'C', [8] = 1};

/* Plain reads past the end: 88 bytes are stated and 87 are lent. */
static void read_past(bool at_start)
{
    codeplug_validate(guarded(SLOT_FILE, at_start, empty, sizeof empty - 1), sizeof empty, CODEPLUG_EDITION_OLDER);
}

/* Stores past the end of nine bytes' room. */
static void store_past(bool at_start)
{
    codeplug_decode_address(262143999999999, guarded(SLOT_TEXT, at_start, NULL, 8), 9, CODEPLUG_EDITION_OLDER);
    guarded_check(SLOT_TEXT);
}

/* A record of 39 bytes into 38. */
static void record_past(bool at_start)
{
    struct codeplug_contact_values v = {.mode = CODEPLUG_DMR};
    codeplug_write_contact(guarded(SLOT_RECORD, at_start, NULL, 38), 39, empty, 4, v, CODEPLUG_EDITION_OLDER);
    guarded_check(SLOT_RECORD);
}

/* An edit that moves bytes up, in a room that is a byte shorter than stated. */
static void edit_past(bool at_start)
{
    uint8_t record[CODEPLUG_TEXT_SIZE] = "bank", history[16];
    uint8_t *room = guarded(SLOT_FILE, at_start, NULL, 125);
    memcpy(room, empty, sizeof empty);
    codeplug_edit(room, 126, sizeof empty, history, sizeof history, 0, CODEPLUG_INSERT_BANK, 0, 0, record, sizeof record,
        CODEPLUG_EDITION_OLDER);
    guarded_check(SLOT_FILE);
}

static int noticed(void (*run)(bool), bool at_start)
{
    int status = 0;
    pid_t child = fork();
    if (child == 0) {
        must(freopen("/dev/null", "w", stderr) != NULL);
        run(at_start);
        _exit(0);
    }
    must(waitpid(child, &status, 0) == child);
    return status != 0;
}

int main(void)
{
    /* A read past the end of a buffer that begins at the start of its page meets canaries, which only the compiled checks would see. */
    int ended = noticed(read_past, false) + noticed(store_past, false) + noticed(store_past, true) + noticed(record_past, false)
        + noticed(record_past, true) + noticed(edit_past, false) + noticed(edit_past, true);
    printf("guards: %d of 7 noticed\n", ended);
    return ended != 7;
}

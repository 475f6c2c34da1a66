/* The record that an edit carries, out of an input's bytes. */
#ifndef FUZZ_RECORD_H
#define FUZZ_RECORD_H

#include "codeplug.h"
#include "plan.h"

/* Form 0: one that is valid by the newer edition; 1: any bytes of the right length; 2: any bytes; 3: the one that is there, with one byte
 * changed. */
void take_record(struct input *in, unsigned form, const uint8_t *room, size_t length, struct call *c);

/* The numbers of a contact, within its rules by the newer edition, and of a channel, mostly within its rules; any where `wild` is set. */
struct codeplug_contact_values take_contact(struct input *in, bool wild);
struct codeplug_channel_common take_common(struct input *in, bool wild);
struct codeplug_channel_info take_info(struct input *in, bool wild);

#endif

#!/usr/bin/env python3
"""Does what bindings/c/example.c does: opens a codeplug, prints its counts, its last M17 contact and first channel, changes the channel's
tone and the contact, undoes the last, writes the file and validates it again: example.py IN OUT."""
import pathlib
import sys

from codeplug import (FILE_MAX, Codeplug, DmrContact, FmInfo, M17Contact, Refused, decode_address, encode_callsign, tone_frequency,
                      tone_index)


def print_counts(codeplug):
    counts = codeplug.counts()
    print(f"{len(codeplug.bytes())} bytes: {counts.contacts} contacts, {counts.channels} channels, {counts.banks} banks")


def print_contact(codeplug, n):
    contact = codeplug.contact(n)
    if isinstance(contact.info, DmrContact):
        print(f'contact {n}: "{contact.name}" DMR id {contact.info.id}')
    else:
        print(f'contact {n}: "{contact.name}" M17 {decode_address(contact.info.address) or "broadcast"}')


def print_channel(codeplug, n):
    c = codeplug.channel(n)
    print(f'channel {n}: "{c.name}", "{c.description}", mode {c.mode}, ', end="")
    print(f"receive {c.receive_hz} Hz, transmit {c.transmit_hz} Hz, ", end="")
    if isinstance(c.info, FmInfo):
        on = c.info.transmit_tone is not None
        tenths = tone_frequency(c.info.transmit_tone if on else c.info.transmit_kept)
        print(f"transmit tone {tenths // 10}.{tenths % 10} {'on' if on else 'off'}, ", end="")
    print(f"latitude {c.latitude} + 0.{c.latitude_e4:04}")


def print_bank(codeplug, n):
    print(f'bank {n}: "{codeplug.bank(n).name}"', *codeplug.entries(n))


def print_edited(what, answer):
    print(f"{what}: {answer.length} bytes, history {answer.used}, {answer.entries} to undo")


def set_tone(codeplug, n, tenths):
    channel = codeplug.channel(n)
    channel.info.transmit_tone = tone_index(tenths)
    print_edited("tone changed", codeplug.replace_channel(n, channel))


def set_callsign(codeplug, n, callsign):
    contact = codeplug.contact(n)
    contact.info = M17Contact(encode_callsign(callsign))
    print_edited("contact changed", codeplug.replace_contact(n, contact))


def last_m17_contact(codeplug):
    """Where there is none, the number of contacts, which is no contact's place."""
    contacts = codeplug.counts().contacts
    return next((n for n in reversed(range(contacts)) if isinstance(codeplug.contact(n).info, M17Contact)), contacts)


def main(source, target):
    codeplug = Codeplug(pathlib.Path(source).read_bytes(), 65536, FILE_MAX + 9)
    print_counts(codeplug)
    try:
        codeplug.undo()
    except Refused as refused:
        print(f"undo: {refused}")
    contact = last_m17_contact(codeplug)
    print_contact(codeplug, contact)
    print_channel(codeplug, 0)
    print_bank(codeplug, 0)
    set_tone(codeplug, 0, 1000)
    set_callsign(codeplug, contact, "AB2CD")
    print_contact(codeplug, contact)
    print_edited("undone", codeplug.undo())
    print_contact(codeplug, contact)
    print_channel(codeplug, 0)
    print_counts(codeplug)
    pathlib.Path(target).write_bytes(codeplug.bytes())
    again = Codeplug(pathlib.Path(target).read_bytes())
    print_counts(again)
    print_channel(again, 0)


if __name__ == "__main__":
    if len(sys.argv) != 3:
        sys.exit("usage: example.py IN OUT")
    try:
        main(*sys.argv[1:])
    except Refused as refused:
        sys.exit(str(refused))

#!/usr/bin/env python3
"""Does what bindings/c/editions.c does: validates IN by both editions of M17 addresses, has the older one refuse a hash address, inserts a
contact that has it by the newer one, removes it, tries to undo that by both, and writes OUT, with the contact: editions.py IN OUT. Exits
with 0; with 1 where the newer edition refuses IN; with 2 where it is asked wrongly or a file cannot be read or written.

A program goes by one edition throughout with a codeplug and its history; this one shows what happens otherwise."""
import pathlib
import sys

from codeplug import FILE_MAX, Codeplug, Contact, Edition, M17Contact, Refused, decode_address, encode_callsign, validate

CREW = "#CREW"


def print_answer(what, call, words):
    """Prints the answer; whether it is accepted."""
    try:
        answer = call()
    except Refused as refused:
        print(f"{what}: {refused}")
        return False
    print(f"{what}: {words(answer)}")
    return True


def print_counts(name, file, edition):
    return print_answer(f"{name} edition", lambda: validate(file, edition=edition), lambda c: f"ok {c.contacts} {c.channels} {c.banks}")


def print_address(name, edition):
    print_answer(f"{CREW} by the {name} edition", lambda: encode_callsign(CREW, edition=edition), str)


def print_edited(what, call):
    print_answer(what, call, lambda answer: f"{answer.length} bytes, {answer.entries} to undo")


def print_contact(codeplug, n):
    contact = codeplug.contact(n)
    print(f'contact {n}: "{contact.name}" M17 {decode_address(contact.info.address, edition=codeplug.edition())}')


def undo_by_older(codeplug):
    """The newer edition's codeplug and history, opened by the older one."""
    return Codeplug.restore(codeplug.bytes(), codeplug.history(), edition=Edition.OLDER).undo()


def tried(codeplug):
    place = codeplug.counts().contacts
    print_address("older", Edition.OLDER)
    print_address("newer", Edition.NEWER)
    crew = Contact("Crew", M17Contact(encode_callsign(CREW, edition=codeplug.edition())))
    print_edited("contact inserted", lambda: codeplug.insert_contact(place, crew))
    print_contact(codeplug, place)
    print_counts("older", codeplug.bytes(), Edition.OLDER)
    print_counts("newer", codeplug.bytes(), Edition.NEWER)
    print_edited("contact removed", lambda: codeplug.remove_contact(place))
    print_counts("older", codeplug.bytes(), Edition.OLDER)
    print_edited("undo by the older edition", lambda: undo_by_older(codeplug))
    print_edited("undo by the newer edition", codeplug.undo)


def main(source, target):
    """Whether the newer edition accepts IN."""
    file = pathlib.Path(source).read_bytes()
    print_counts("older", file, Edition.OLDER)
    if not print_counts("newer", file, Edition.NEWER):
        return False
    codeplug = Codeplug(file, 65536, 2 * (FILE_MAX + 9), edition=Edition.NEWER)
    tried(codeplug)
    pathlib.Path(target).write_bytes(codeplug.bytes())
    return True


if __name__ == "__main__":
    if len(sys.argv) != 3:
        print("usage: editions.py IN OUT", file=sys.stderr)
        sys.exit(2)
    try:
        sys.exit(0 if main(*sys.argv[1:]) else 1)
    except (OSError, Refused) as error:
        print(error, file=sys.stderr)
        sys.exit(2)

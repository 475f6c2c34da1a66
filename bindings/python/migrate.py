#!/usr/bin/env python3
"""Does what bindings/c/migrate.c does: validates IN by both readings, since nothing in a file says how it was written, and where it is a
legacy file writes OUT, migrated: migrate.py IN OUT. Where there is nothing to migrate, or both readings refuse IN, it says so and writes
nothing. Exits with 0; with 1 where IN is refused; with 2 where it is asked wrongly or a file cannot be read or written.

Where the history of a legacy file was stored beside it, throw it away: it is not the migrated file's."""
import pathlib
import sys

from codeplug import Refused, migrate, validate, validate_legacy


def accepted(what, call, file):
    """Prints the answer."""
    try:
        counts = call(file)
    except Refused as refused:
        print(f"{what}: {refused}")
        return False
    print(f"{what}: ok {counts.contacts} {counts.channels} {counts.banks}")
    return True


def main(source, target):
    """Whether IN is accepted, by either reading."""
    file = pathlib.Path(source).read_bytes()
    by_new = accepted("new reading", validate, file)
    by_legacy = accepted("legacy reading", validate_legacy, file)
    if by_new:
        print(f"{'the same by both readings' if by_legacy else 'not a legacy file'}: nothing to migrate")
        return True
    if not by_legacy:
        print("refused by both readings")
        return False
    migrated = migrate(file)
    accepted("a legacy file, migrated", validate, migrated)
    pathlib.Path(target).write_bytes(migrated)
    return accepted("new reading", validate, pathlib.Path(target).read_bytes())


if __name__ == "__main__":
    if len(sys.argv) != 3:
        print("usage: migrate.py IN OUT", file=sys.stderr)
        sys.exit(2)
    try:
        sys.exit(0 if main(*sys.argv[1:]) else 1)
    except OSError as error:
        print(error, file=sys.stderr)
        sys.exit(2)

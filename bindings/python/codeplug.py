"""Reads, validates, writes and edits OBCF 0.1.0 codeplug files, by the proved library of bindings/c/include/codeplug.h.

A refused call raises Refused and changes nothing. A number that its field cannot hold at all raises ValueError. Blanks are None. A file
from before version 2 is migrated first: `validate_legacy` says how to find out.

M17 addresses have two editions (document 02, [10]); `Edition` says what they are. Whatever sees an address takes the keyword `edition`,
which is Edition.OLDER where it is not given, and a `Codeplug` keeps it. Where this module says callsign, that is by the newer edition a
hash address too. Use one edition throughout with a codeplug and its history; nothing in a file says which. Every file that the older
edition accepts the newer accepts too, and reads alike: the two differ in refusal 8 of a file alone. A file that holds a hash address is
refused by the older, 8; and a history that was written under the newer may hold some, so that undo by the older may be refused, 8 for the
file as it is or 39 for what undo would bring back. editions.py is an example."""
import ctypes
from dataclasses import dataclass

from codeplug_c import (FILE_MAX, HEADER_SIZE, TEXT_SIZE, TEXTS_SIZE, EditKind, Edition, __version__, buffer, c_uint8, c_uint16, c_uint64,
                        fit, library, size)
from codeplug_records import (BROADCAST, Channel, Contact, DmrContact, DmrInfo, FmInfo, M17Contact, M17Info, channel_of, contact_of,
                              decode_address, encode_callsign, text_of, write_channel, write_contact, write_text)
from codeplug_refused import Refused, accepted

__all__ = ["BROADCAST", "FILE_MAX", "HEADER_SIZE", "TEXT_SIZE", "Bank", "Channel", "Codeplug", "Contact", "Counts", "DmrContact", "DmrInfo",
           "EditAnswer", "EditKind", "Edition", "FmInfo", "Header", "M17Contact", "M17Info", "Refused", "decode_address", "encode_callsign",
           "history_entries", "migrate", "tone_frequency", "tone_index", "validate", "validate_legacy", "version", "write_channel",
           "write_contact", "write_empty", "write_text"]


@dataclass(frozen=True)
class Counts:
    contacts: int
    channels: int
    banks: int


@dataclass(frozen=True)
class Header:
    author: str
    description: str
    timestamp: int  # any; by the format a Unix timestamp
    counts: Counts


@dataclass(frozen=True)
class Bank:
    name: str
    entries: int


@dataclass(frozen=True)
class EditAnswer:
    """What an edit or undo answers: both new lengths, and how many edits can still be undone."""
    length: int
    used: int
    entries: int


def _counts(validate_by, file, edition):
    file = bytes(memoryview(file))
    answer = accepted(validate_by(file, len(file), Edition(edition)))
    return Counts(answer.contacts, answer.channels, answer.banks)


def validate(file, *, edition=Edition.OLDER):
    """A file's counts. Refusals: the file's, 1 to 12."""
    return _counts(library.codeplug_validate, file, edition)


def validate_legacy(file, *, edition=Edition.OLDER):
    """A file's counts by the legacy reading. Refusals: the file's, 1 to 12, by that reading.

    A channel's bandwidth and a DMR contact's type stand in bits 0 and 1 of their byte, receive-only and rx tone in bit 2, as radios read
    them. Before version 2 they stood in bits 7 and 6, and in bit 5. A file that was written so is a legacy file; everything else in this
    module goes by the new reading alone.

    Nothing in a file says how it was written. To find out, validate it by both readings, with one edition. Accepted by `validate_legacy`
    alone it is a legacy file, to be migrated. Where `validate` accepts it, nothing is to be done; where both do, each of those bytes is 0
    and reads the same either way. migrate.py is an example."""
    return _counts(library.codeplug_validate_legacy, file, edition)


def migrate(file, *, edition=Edition.OLDER):
    """The bytes that a legacy file becomes; what is given stays as it is. Traits of channels and settings of DMR contacts change, so that
    every field reads by the new reading as it did by the legacy one; every other byte is the same. Refusals: those of `validate_legacy`.

    A legacy file is migrated once, before anything else is done with it, and its history is thrown away, since the entries are of the
    legacy bytes. Migrating twice is refused, 7, or changes nothing."""
    file = bytes(memoryview(file))
    out = buffer(len(file))
    out.raw = file
    accepted(library.codeplug_migrate(out, len(out), Edition(edition)))
    return out.raw


def write_empty():
    """The empty codeplug's file: no author, description, contact, channel or bank, timestamp 0."""
    out = buffer(HEADER_SIZE)
    accepted(library.codeplug_write_empty(out, len(out)))
    return out.raw


def history_entries(history):
    """How many entries a stored history holds: how many edits can be undone. Refusal: 31."""
    history = bytes(memoryview(history))
    return accepted(library.codeplug_history_entries(history, len(history))).entries


def version():
    """The version of the library that is loaded: major, minor and patch."""
    return tuple(library.codeplug_version().to_bytes(4, "big")[1:])


def tone_frequency(index):
    """The frequency of tone 0 to 49, in tenths of a hertz. ValueError past the table."""
    tenths = library.codeplug_tone_frequency(fit(c_uint8, index, "a tone"))
    if tenths == 0:
        raise ValueError(f"there is no tone {index}")
    return tenths


def tone_index(tenths):
    """The tone of a frequency in tenths of a hertz. ValueError where no tone has it: None would turn a tone off."""
    index = library.codeplug_tone_index(fit(c_uint16, tenths, "a frequency"))
    if index == 255:
        raise ValueError(f"no tone has {tenths} tenths of a hertz")
    return index


class Codeplug:
    """A codeplug that is open for reading and editing, with what undo needs. What it holds is always an accepted file, so `contact`,
    `channel`, `bank` and `entries` read it without validating it. Opening it, `header`, `counts`, each edit and `undo` validate the whole
    file. It is read and edited by the edition that it was opened with. It is for one thread at a time."""

    def __init__(self, file, spare=0, history_size=0, *, edition=Edition.OLDER):
        """Opens a file's bytes, with as many spare bytes for edits (never past the longest file) and a history of the size given. Where the
        history is full, the oldest edits can no longer be undone. An edit whose own entry is longer than the history is refused, 37: an
        insertion or removal may need as much as the file's length and 9 bytes. Refusals: the file's, 1 to 12. A legacy file is migrated
        first."""
        self._open(file, b"", spare, history_size, edition)

    @classmethod
    def empty(cls, spare=0, history_size=0, *, edition=Edition.OLDER):
        """The empty codeplug, opened in the same way."""
        return cls(write_empty(), spare, history_size, edition=edition)

    @classmethod
    def restore(cls, file, history, spare=0, history_size=0, *, edition=Edition.OLDER):
        """Opens a file with the history that was stored beside it, so that its edits can be undone. There are at least as many spare bytes
        as undo may need, and the history is at least as long as the one stored. Refusals: the file's, 31. Whether an entry fits the
        codeplug, only `undo` finds out, 39: so it is where the history was written under the newer edition and holds a hash address, and
        the codeplug is restored by the older. The history of a legacy file is not that of the file it is migrated to."""
        codeplug = cls.__new__(cls)
        codeplug._open(file, history, spare, history_size, edition)
        return codeplug

    def _open(self, file, history, spare, history_size, edition):
        file, history = bytes(memoryview(file)), bytes(memoryview(history))
        self._edition = Edition(edition)
        validate(file, edition=edition)
        self._entries = history_entries(history)
        self._length, self._used = len(file), len(history)
        # Undo brings back bytes of the history, so never more than those.
        self._room = buffer(min(len(file) + max(size(spare, "spare"), len(history)), FILE_MAX))
        self._history = buffer(max(size(history_size, "a history's size"), len(history)))
        ctypes.memmove(self._room, file, len(file))
        ctypes.memmove(self._history, history, len(history))

    def bytes(self):
        """The codeplug as a file."""
        return ctypes.string_at(self._room, self._length)

    def history(self):
        """What undo needs, to be stored beside the file: `restore` takes both."""
        return ctypes.string_at(self._history, self._used)

    def edition(self):
        """The edition that it was opened with."""
        return self._edition

    def undoable(self):
        """How many edits can be undone."""
        return self._entries

    def counts(self):
        """Validates the whole file, as `header` does."""
        return self.header().counts

    def header(self):
        """Validates the whole file."""
        texts = buffer(TEXTS_SIZE)
        answer = accepted(library.codeplug_header(self._room, self._length, texts, len(texts), self._edition))
        counts = Counts(answer.contacts, answer.channels, answer.banks)
        return Header(text_of(texts.raw[:TEXT_SIZE]), text_of(texts.raw[TEXT_SIZE:]), answer.timestamp, counts)

    def contact(self, n):
        """Contact n. Refusal: 33."""
        name = buffer(TEXT_SIZE)
        contact = library.codeplug_contact_prevalidated(self._room, self._length, size(n), name, len(name), self._edition)
        answer = accepted(contact)
        return contact_of(name.raw, answer.values)

    def channel(self, n):
        """Channel n. Refusal: 33."""
        texts = buffer(TEXTS_SIZE)
        answer = accepted(library.codeplug_channel_prevalidated(self._room, self._length, size(n), texts, len(texts)))
        return channel_of(texts.raw, answer.common, answer.info)

    def bank(self, n):
        """Bank n. Refusal: 33."""
        name = buffer(TEXT_SIZE)
        answer = accepted(library.codeplug_bank_prevalidated(self._room, self._length, size(n), name, len(name)))
        return Bank(text_of(name.raw), answer.entries)

    def entries(self, n):
        """The channels that bank n names, in its order. Refusal: 33."""
        channels, place = [], 0
        for _ in range(self.bank(n).entries):
            answer = accepted(library.codeplug_bank_entry_prevalidated(self._room, self._length, n, place))
            channels.append(answer.channel)
            place = answer.next
        return channels

    # The edits. What is given for a record is validated first, by its writer: places in the record. Then the edit: 33, 34, 35, what reading
    # the result gives, with places in the result, 36, 37.

    def insert_contact(self, place, contact):
        """At a place up to the count. Channels go on naming the same contacts, whose numbers move."""
        return self._edit(EditKind.INSERT_CONTACT, place, 0, write_contact(contact, edition=self._edition))

    def remove_contact(self, n):
        """35 where a channel names it. Channels go on naming the same contacts, whose numbers move."""
        return self._edit(EditKind.REMOVE_CONTACT, n)

    def replace_contact(self, n, contact):
        return self._edit(EditKind.REPLACE_CONTACT, n, 0, write_contact(contact, edition=self._edition))

    def insert_channel(self, place, channel):
        """At a place up to the count. Banks go on naming the same channels, whose numbers move."""
        return self._edit(EditKind.INSERT_CHANNEL, place, 0, write_channel(channel))

    def remove_channel(self, n):
        """35 where a bank names it. Banks go on naming the same channels, whose numbers move."""
        return self._edit(EditKind.REMOVE_CHANNEL, n)

    def replace_channel(self, n, channel):
        return self._edit(EditKind.REPLACE_CHANNEL, n, 0, write_channel(channel))

    def insert_bank(self, place, name):
        """An empty bank, at a place up to the count."""
        return self._edit(EditKind.INSERT_BANK, place, 0, write_text(name))

    def remove_bank(self, n):
        """The bank and its entries."""
        return self._edit(EditKind.REMOVE_BANK, n)

    def rename_bank(self, n, name):
        return self._edit(EditKind.RENAME_BANK, n, 0, write_text(name))

    def insert_entry(self, bank, place, channel):
        """A channel into a bank, at a place up to its entry count. 11 where there is no such channel."""
        return self._edit(EditKind.INSERT_ENTRY, bank, place, fit(c_uint16, channel, "a channel").to_bytes(2, "little"))

    def remove_entry(self, bank, place):
        return self._edit(EditKind.REMOVE_ENTRY, bank, place)

    def set_header(self, author, description, timestamp):
        """5 at 0 for the author, at 32 for the description. The timestamp is any; by the format a Unix timestamp. No other edit sets it."""
        author = write_text(author)
        try:
            description = write_text(description)
        except Refused as refused:
            raise Refused(refused.number, TEXT_SIZE) from None
        return self._edit(EditKind.SET_HEADER, 0, 0, author + description + fit(c_uint64, timestamp, "a timestamp").to_bytes(8, "little"))

    def undo(self):
        """Takes the last edit back. Refusals: 38, and 39 where a history was restored that is not the codeplug's, or not the edition's."""
        return self._take(library.codeplug_undo(*self._buffers(), self._edition))

    def _buffers(self):
        return self._room, len(self._room), self._length, self._history, len(self._history), self._used

    def _edit(self, kind, first, second=0, record=b""):
        edit = kind, size(first), size(second), record, len(record)
        return self._take(library.codeplug_edit(*self._buffers(), *edit, self._edition))

    def _take(self, answer):
        accepted(answer)
        self._length, self._used, self._entries = answer.length, answer.used, answer.entries
        return EditAnswer(answer.length, answer.used, answer.entries)

"""The sizes, kinds of edits, editions, structures and functions of bindings/c/include/codeplug.h, under its names; the functions are those
of build/libcodeplug.so.MAJOR, by the major version."""
import ctypes
import enum
import pathlib
from ctypes import c_bool, c_char_p, c_int8, c_size_t, c_uint8, c_uint16, c_uint32, c_uint64

# The header's version. A library of another major version is not loaded.
__version__ = "3.0.0"

FILE_MAX = 1048576
HEADER_SIZE = 88
CONTACT_SIZE = 39
CHANNEL_SIZE = 90
TEXT_SIZE = 32
TEXTS_SIZE = 64
CALLSIGN_SIZE = 9
BANK_ENTRY_SIZE = 2
SET_HEADER_SIZE = 72


class EditKind(enum.IntEnum):
    INSERT_CONTACT = 1
    REMOVE_CONTACT = 2
    REPLACE_CONTACT = 3
    INSERT_CHANNEL = 4
    REMOVE_CHANNEL = 5
    REPLACE_CHANNEL = 6
    INSERT_BANK = 7
    REMOVE_BANK = 8
    RENAME_BANK = 9
    INSERT_ENTRY = 10
    REMOVE_ENTRY = 11
    SET_HEADER = 12


class Edition(enum.IntEnum):
    """An edition of M17 addresses (document 02, [10]). By both of them 1 to 262,143,999,999,999 are callsigns of 1 to 9 characters. By the
    newer one 262,144,000,000,000 to 268,697,599,999,999 are hash addresses: a hash sign and then the text, of at most eight characters, of
    the number less 262,144,000,000,000. One edition is used throughout with a codeplug and its history."""
    OLDER = 0
    NEWER = 1


class ContactValues(ctypes.Structure):
    _fields_ = [("address", c_uint64), ("id", c_uint32), ("mode", c_uint8), ("contact_type", c_uint8), ("rx_tone", c_bool),
                ("broadcast", c_bool)]


class ChannelCommon(ctypes.Structure):
    _fields_ = [("receive_hz", c_uint32), ("transmit_hz", c_uint32), ("latitude_e4", c_uint16), ("longitude_e4", c_uint16),
                ("altitude_plus_500", c_uint16), ("latitude", c_int8), ("longitude", c_int8), ("bandwidth", c_uint8),
                ("receive_only", c_bool), ("power", c_uint8), ("scan_list", c_uint8), ("group_list", c_uint8)]


class ChannelInfo(ctypes.Structure):
    _fields_ = [("contact", c_uint16), ("mode", c_uint8), ("receive_tone", c_uint8), ("receive_tone_on", c_bool),
                ("transmit_tone", c_uint8), ("transmit_tone_on", c_bool), ("receive_colour", c_uint8), ("transmit_colour", c_uint8),
                ("slot", c_uint8), ("receive_access", c_uint8), ("transmit_access", c_uint8), ("operation", c_uint8),
                ("encryption", c_uint8), ("position", c_bool)]


REFUSED = [("number", c_uint8), ("place", c_size_t)]
COUNTS = [("contacts", c_uint16), ("channels", c_uint16), ("banks", c_uint16)]


class Refusal(ctypes.Structure):
    _fields_ = REFUSED


class ValidateAnswer(ctypes.Structure):
    _fields_ = REFUSED + COUNTS


class HeaderAnswer(ctypes.Structure):
    _fields_ = REFUSED + [("timestamp", c_uint64)] + COUNTS


class ContactAnswer(ctypes.Structure):
    _fields_ = REFUSED + [("values", ContactValues)]


class ChannelAnswer(ctypes.Structure):
    _fields_ = REFUSED + [("common", ChannelCommon), ("info", ChannelInfo)]


class BankAnswer(ctypes.Structure):
    _fields_ = REFUSED + [("entries", c_uint16)]


class BankEntryAnswer(ctypes.Structure):
    _fields_ = REFUSED + [("channel", c_uint16), ("next", c_size_t)]


class EncodeAnswer(ctypes.Structure):
    _fields_ = REFUSED + [("address", c_uint64)]


class DecodeAnswer(ctypes.Structure):
    _fields_ = REFUSED + [("length", c_size_t), ("broadcast", c_bool)]


class EditAnswer(ctypes.Structure):
    _fields_ = REFUSED + [("length", c_size_t), ("used", c_size_t), ("entries", c_size_t)]


class HistoryAnswer(ctypes.Structure):
    _fields_ = REFUSED + [("entries", c_size_t)]


# By the header's names, in the order of bindings/c/layout.c.
STRUCTURES = {
    "contact_values": ContactValues, "channel_common": ChannelCommon, "channel_info": ChannelInfo, "refusal": Refusal,
    "validate_answer": ValidateAnswer, "header_answer": HeaderAnswer, "contact_answer": ContactAnswer, "channel_answer": ChannelAnswer,
    "bank_answer": BankAnswer, "bank_entry_answer": BankEntryAnswer, "encode_answer": EncodeAnswer, "decode_answer": DecodeAnswer,
    "edit_answer": EditAnswer, "history_answer": HistoryAnswer,
}

BYTES = [c_char_p, c_size_t]
RECORD = BYTES + [c_size_t] + BYTES
BUFFERS = 2 * (BYTES + [c_size_t])
EDITION = [c_uint32]

# Each function's answer and arguments.
FUNCTIONS = {
    "codeplug_version": (c_uint32, []),
    "codeplug_validate": (ValidateAnswer, BYTES + EDITION),
    "codeplug_header": (HeaderAnswer, BYTES + BYTES + EDITION),
    "codeplug_contact": (ContactAnswer, RECORD + EDITION),
    "codeplug_channel": (ChannelAnswer, RECORD + EDITION),
    "codeplug_bank": (BankAnswer, RECORD + EDITION),
    "codeplug_bank_entry": (BankEntryAnswer, BYTES + [c_size_t, c_size_t] + EDITION),
    "codeplug_contact_prevalidated": (ContactAnswer, RECORD + EDITION),
    "codeplug_channel_prevalidated": (ChannelAnswer, RECORD),
    "codeplug_bank_prevalidated": (BankAnswer, RECORD),
    "codeplug_bank_entry_prevalidated": (BankEntryAnswer, BYTES + [c_size_t, c_size_t]),
    "codeplug_validate_legacy": (ValidateAnswer, BYTES + EDITION),
    "codeplug_migrate": (ValidateAnswer, BYTES + EDITION),
    "codeplug_write_contact": (Refusal, BYTES + BYTES + [ContactValues] + EDITION),
    "codeplug_write_channel": (Refusal, BYTES + BYTES + BYTES + [ChannelCommon, ChannelInfo]),
    "codeplug_write_text": (Refusal, BYTES + BYTES),
    "codeplug_write_empty": (Refusal, BYTES),
    "codeplug_encode_callsign": (EncodeAnswer, BYTES + EDITION),
    "codeplug_decode_address": (DecodeAnswer, [c_uint64] + BYTES + EDITION),
    "codeplug_tone_frequency": (c_uint16, [c_uint8]),
    "codeplug_tone_index": (c_uint8, [c_uint16]),
    "codeplug_edit": (EditAnswer, BUFFERS + [c_size_t, c_size_t, c_size_t] + BYTES + EDITION),
    "codeplug_undo": (EditAnswer, BUFFERS + EDITION),
    "codeplug_history_entries": (HistoryAnswer, BYTES),
}


def loaded(directory, version):
    """The library of the version's major number, from the directory. ImportError where it is not there or says that it is another's."""
    major = int(version.split(".")[0])
    path = directory / f"libcodeplug.so.{major}"
    if not path.exists():
        raise ImportError(f"{directory.name}/{path.name} is not there: run bindings/c/build in the repository first, which proves the "
                          "library and makes it")
    library = ctypes.CDLL(str(path))
    library.codeplug_version.restype = c_uint32
    there = library.codeplug_version() >> 16
    if there != major:
        raise ImportError(f"{directory.name}/{path.name} has the major version {there}, not {major}")
    for name, (answer, arguments) in FUNCTIONS.items():
        function = getattr(library, name)
        function.restype, function.argtypes = answer, arguments
    return library


library = loaded(pathlib.Path(__file__).resolve().parents[2] / "build", __version__)


def buffer(size):
    """Bytes to lend, all zero."""
    return (ctypes.c_char * size)()


def fit(kind, value, name):
    """The value, unless C's type cannot hold it: ctypes would cut it down, and make contact 65,536 contact 0."""
    if kind(value).value != value:
        raise ValueError(f"{name} cannot be {value!r}")
    return value


def size(value, name="a place"):
    return fit(c_size_t, value, name)


def filled(structure, **values):
    """A structure of the values, the others 0."""
    kinds = dict(structure._fields_)
    return structure(**{name: fit(kinds[name], value, name) for name, value in values.items()})

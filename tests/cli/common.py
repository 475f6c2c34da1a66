"""What the tests of the command line share: a call of the program, a folder with the samples, and a reader and a writer of codeplugs by
document 01 that are not the program's own.

The program is the file that the environment's CODEPLUG names, by default cli/target/release/codeplug; CODEPLUG_HELP is the folder of its help
texts."""
import contextlib
import os
import pathlib
import re
import shutil
import struct
import subprocess
import tempfile
import typing
import unittest

ROOT = pathlib.Path(__file__).resolve().parents[2]
PROGRAM = os.path.abspath(os.environ.get("CODEPLUG", ROOT / "cli/target/release/codeplug"))
SAMPLES = ROOT / "samples"
HELP = pathlib.Path(os.environ.get("CODEPLUG_HELP", ROOT / ("cli/help" if (ROOT / "cli/help").is_dir() else "help")))  # the help texts
GOOD = ["club", "dealer", "hire", "empty"]
LIMIT = 1_048_576
os.environ.pop("CODEPLUG_EDITION", None)  # a test says itself by which edition it goes
HEADER, CONTACT, CHANNEL = 88, 39, 90  # the records' sizes

# ---- the program ----


class Answer(typing.NamedTuple):
    status: int
    out: bytes
    err: str

    @property
    def text(self):
        return self.out.decode()


def run(*args, stdin=b"", env=None, program=PROGRAM, **more):
    """One run of the program. Whatever it is asked, it does not panic."""
    command = [program] + [a if isinstance(a, bytes) else str(a) for a in args]
    around = {k: v for k, v in os.environ.items() if k != "NO_COLOR"} | (env or {})
    done = subprocess.run(command, input=stdin, capture_output=True, env=around, timeout=60, **more)
    answer = Answer(done.returncode, done.stdout, done.stderr.decode(errors="replace"))
    assert "panicked" not in answer.err and answer.status != 101, (args, answer)
    return answer


class Case(unittest.TestCase):
    """A test in a folder of its own, with a copy of the samples."""

    def setUp(self):
        self.folder = pathlib.Path(self.enterContext(tempfile.TemporaryDirectory(prefix="codeplug-")))
        for sample in SAMPLES.glob("*.rtxc"):
            shutil.copy(sample, self.folder)
        self.club = self.folder / "club.rtxc"

    def write(self, name, plug):
        path = self.folder / name
        path.write_bytes(plug)
        return path

    def ok(self, *args, **more):
        """Done, with nothing on standard error; gives standard output."""
        answer = run(*args, **more)
        self.assertEqual((answer.status, answer.err), (0, ""), args)
        return answer.text

    def refused(self, number, place, *args, **more):
        """Refused by the library with this number and place (None: any), in one line on standard error; gives that line."""
        answer = run(*args, **more)
        self.assertEqual((answer.status, answer.out, answer.err.count("\n")), (1, b"", 1), (args, answer.err))
        found = re.search(r"\brefused (\d+) at (\d+)\b", answer.err)
        self.assertTrue(found, (args, answer.err))
        self.assertEqual((int(found[1]), int(found[2])), (number, int(found[2]) if place is None else place), (args, answer.err))
        return answer.err

    def usage(self, *args, **more):
        """Wrong usage, or a file that cannot be read or written: one line on standard error, which is given."""
        answer = run(*args, **more)
        self.assertEqual((answer.status, answer.out, answer.err.count("\n")), (2, b"", 1), (args, answer.err))
        return answer.err

    @contextlib.contextmanager
    def untouched(self):
        """Nothing in the folder changes meanwhile: no file comes or goes, and none gets other bytes, another time or another inode."""
        before = look(self.folder)
        yield
        self.assertEqual(look(self.folder), before)


def look(folder):
    paths = sorted(folder.rglob("*"))
    return {str(p): (p.lstat().st_mtime_ns, p.lstat().st_ino, p.lstat().st_mode, p.read_bytes() if p.is_file() else None) for p in paths}


# ---- codeplugs ----

TENTHS = """670 693 719 744 770 797 825 854 885 915 948 974 1000 1034 1072 1109 1148 1188 1230 1273 1318 1365 1413 1462 1514 1567 1598 1622 1655
1679 1713 1738 1773 1799 1835 1862 1899 1928 1966 1995 2035 2065 2107 2181 2257 2291 2336 2418 2503 2541"""
TONES = [f"{int(t) // 10}.{int(t) % 10}" for t in TENTHS.split()]  # in hertz, as they are written
MODES = ["fm", "dmr", "m17"]
TYPES = ["group", "private", "all-call"]
BANDWIDTHS = ["12.5", "20", "25"]
OPERATIONS = [None, "voice", "data", "both"]
ENCRYPTIONS = ["plain", "aes-256", "scrambler"]
DIGITS = " ABCDEFGHIJKLMNOPQRSTUVWXYZ0123456789-/."
BROADCAST = 0xFFFFFFFFFFFF
NOBODY = 0xFFFF
HASH, LAST_HASH = 40**9, 40**9 + 40**8 - 1  # the first and the last hash address, of the newer edition (document 02, [10])


def address(callsign):
    if callsign.startswith("#"):
        return HASH + address(callsign[1:])
    return sum(DIGITS.index(c) * 40**i for i, c in enumerate(callsign))


def callsign(number):
    if number >= HASH:
        return "#" + callsign(number - HASH)
    return "" if number == 0 else DIGITS[number % 40] + callsign(number // 40)


def packed(number, flag, legacy):
    """Traits or settings: two bits and one, from the bottom of the byte or, in a legacy codeplug, from the top."""
    return number << 6 | flag << 5 if legacy else flag << 2 | number


def unpacked(byte, legacy):
    """The other direction."""
    return (byte >> 6, bool(byte & 0x20)) if legacy else (byte & 3, bool(byte & 4))


def parse(plug, legacy=False):
    """A valid codeplug's header, contacts, channels and banks. A tone is (on, index), a latitude or longitude a number of ten-thousandths
    of a degree, a power its byte, a frequency in Hz; a blank scan or group list is 0, a blank contact None. legacy: by the legacy reading."""
    author, description, timestamp, *counts = struct.unpack_from("<32s32sQHHH", plug, 10)
    at, lists = HEADER, []
    for size, count, read in ((CONTACT, counts[0], parse_contact), (CHANNEL, counts[1], parse_channel)):
        lists.append([read(plug[at + size * n : at + size * (n + 1)], legacy) for n in range(count)])
        at += size * count
    at, banks = at + 4 * counts[2], []
    for _ in range(counts[2]):
        name, count = struct.unpack_from("<32sH", plug, at)
        banks.append({"name": parse_text(name), "entries": list(struct.unpack_from(f"<{count}H", plug, at + 34))})
        at += 34 + 2 * count
    assert plug[:10] == b"RTXC\0\0\0\0\1\0" and at == len(plug), "not a codeplug"
    header = {"author": parse_text(author), "description": parse_text(description), "timestamp": timestamp}
    return {"header": header, "contacts": lists[0], "channels": lists[1], "banks": banks}


def parse_text(raw):
    return raw.rstrip(b"\0").decode("ascii")


def parse_contact(raw, legacy):
    contact = {"name": parse_text(raw[:32]), "mode": MODES[raw[32]]}
    if contact["mode"] == "m17":
        return contact | {"address": int.from_bytes(raw[33:], "big")}
    number, settings = struct.unpack_from("<IB", raw, 33)
    contact_type, rx_tone = unpacked(settings, legacy)
    return contact | {"id": number, "contact_type": TYPES[contact_type], "rx_tone": rx_tone}


def parse_channel(raw, legacy):
    mode, traits, power, receive, transmit, scan, group, name, description = struct.unpack_from("<BBBIIBB32s32s", raw)
    north, north_part, east, east_part, height = struct.unpack_from("<bHbHH", raw, 77)
    bandwidth, receive_only = unpacked(traits, legacy)
    channel = {"name": parse_text(name), "description": parse_text(description), "mode": MODES[mode]}
    channel |= {"receive_hz": receive, "transmit_hz": transmit, "bandwidth": BANDWIDTHS[bandwidth], "receive_only": receive_only}
    channel |= {"power": power, "scan_list": scan, "group_list": group}
    channel |= {"latitude": north * 10000 + north_part, "longitude": east * 10000 + east_part, "altitude": height - 500}
    info = raw[85:]
    if mode == 0:
        return channel | {f"{way}_tone": (bool(t & 0x80), t & 0x7F) for way, t in zip(("receive", "transmit"), info)}
    contact = struct.unpack_from("<H", info, mode + 1)[0]
    halves = {1: "colour", 2: "access"}[mode]
    channel |= {f"receive_{halves}": info[0] >> 4, f"transmit_{halves}": info[0] & 15, "contact": None if contact == NOBODY else contact}
    if mode == 1:
        return channel | {"slot": info[1]}
    return channel | {"operation": OPERATIONS[info[1] >> 4], "encryption": ENCRYPTIONS[info[1] & 15], "position": bool(info[2])}


def build(plug, legacy=False):
    """The codeplug's bytes: the other direction of parse."""
    h, banks = plug["header"], [build_bank(b) for b in plug["banks"]]
    counts = (len(plug["contacts"]), len(plug["channels"]), len(banks))
    out = b"RTXC\0\0\0\0\1\0" + struct.pack("<32s32sQHHH", h["author"].encode(), h["description"].encode(), h["timestamp"], *counts)
    out += b"".join(build_contact(c, legacy) for c in plug["contacts"]) + b"".join(build_channel(c, legacy) for c in plug["channels"])
    out += b"".join(struct.pack("<I", sum(map(len, banks[:n]))) for n in range(len(banks)))
    return out + b"".join(banks)


def build_bank(b):
    return struct.pack(f"<32sH{len(b['entries'])}H", b["name"].encode(), len(b["entries"]), *b["entries"])


def build_contact(c, legacy):
    head = struct.pack("<32sB", c["name"].encode(), MODES.index(c["mode"]))
    if c["mode"] == "m17":
        return head + c["address"].to_bytes(6, "big")
    return head + struct.pack("<IBB", c["id"], packed(TYPES.index(c["contact_type"]), c["rx_tone"], legacy), 0)


def build_channel(c, legacy):
    traits = packed(BANDWIDTHS.index(c["bandwidth"]), c["receive_only"], legacy)
    head = (MODES.index(c["mode"]), traits, c["power"], c["receive_hz"], c["transmit_hz"], c["scan_list"], c["group_list"])
    place = (*divmod(c["latitude"], 10000), *divmod(c["longitude"], 10000), c["altitude"] + 500)
    raw = struct.pack("<BBBIIBB32s32sbHbHH", *head, c["name"].encode(), c["description"].encode(), *place)
    if c["mode"] == "fm":
        return raw + bytes(on << 7 | index for on, index in (c["receive_tone"], c["transmit_tone"])) + bytes(3)
    contact = struct.pack("<H", NOBODY if c["contact"] is None else c["contact"])
    if c["mode"] == "dmr":
        return raw + bytes([c["receive_colour"] << 4 | c["transmit_colour"], c["slot"]]) + contact + bytes(1)
    digital = OPERATIONS.index(c["operation"]) << 4 | ENCRYPTIONS.index(c["encryption"])
    return raw + bytes([c["receive_access"] << 4 | c["transmit_access"], digital, c["position"]]) + contact


def reorder(plug, kind, order, new=None):
    """Puts a codeplug's contacts, channels or banks into this order of their old places (None: the new one), every reference followed."""
    where = {old: place for place, old in enumerate(order)}
    plug[kind] = [new if old is None else plug[kind][old] for old in order]
    for channel in plug["channels"] if kind == "contacts" else []:
        if channel.get("contact") is not None:
            channel["contact"] = where[channel["contact"]]
    for bank in plug["banks"] if kind == "channels" else []:
        bank["entries"] = [where[e] for e in bank["entries"]]


def example():
    """The club's codeplug, parsed."""
    return parse((SAMPLES / "club.rtxc").read_bytes())


def longest():
    """A valid codeplug of just the limit: one channel, and eight banks of it that fill the rest."""
    plug = example()
    entries = (LIMIT - HEADER - CHANNEL - 8 * 38) // 2
    plug |= {"contacts": [], "channels": plug["channels"][:1]}
    plug["banks"] = [{"name": f"Bank {b}", "entries": [0] * ((entries + b) // 8)} for b in range(8)]
    return build(plug)

"""codeplug check: document 01's line for each file, and words that name the right record and field.

The answers come from a reader of this file's own, which goes through the fields in document 01's order."""
import os
import random
import re
import struct
import unittest

from common import BROADCAST, CHANNEL, CONTACT, HASH, HEADER, LAST_HASH, LIMIT, SAMPLES, Case, longest, run

CLUB, LEGACY = ((SAMPLES / f"{name}.rtxc").read_bytes() for name in ("club", "club-legacy"))  # the same codeplug in either order
CHANNELS = HEADER + 6 * CONTACT  # where the club's channels begin
TABLE = CHANNELS + 10 * CHANNEL  # where its offset table begins

# ---- document 01's answers ----


class Bad(Exception):
    def __init__(self, number, place, kind, n, field):
        super().__init__(number, place, kind, n, field)
        self.number, self.place, self.kind, self.n, self.field = number, place, kind, n, field


class Reader:
    """Goes through the fields in order and raises Bad for the first bad one; keeps a list of those that it met."""

    def __init__(self, plug, legacy, newer):
        self.plug, self.legacy, self.newer = plug, legacy, newer
        self.at, self.fields, self.record = 0, [], ("header", None)

    def take(self, size, field, number=7, good=lambda raw: True):
        self.fields.append((self.at, size, *self.record, field))
        raw = self.plug[self.at : self.at + size]
        if len(raw) < size or not good(raw):
            raise Bad(2 if len(raw) < size else number, self.at, *self.record, field)
        self.at += size
        return int.from_bytes(raw, "little")

    def byte(self, field, good, number=7):
        return self.take(1, field, number, lambda raw: good(raw[0]))

    def text(self, field):
        self.take(32, field, 5, is_text)

    def packed(self, field):
        """A number of 0 to 2 and a flag, and five reserved bits."""
        self.byte(field, lambda b: b >> 6 < 3 and b & 0x1F == 0 if self.legacy else b & 3 < 3 and b < 8)


def is_text(raw):
    return re.fullmatch(rb"[ -~]*\0*", raw) is not None


def is_address(raw, newer):
    number = int.from_bytes(raw, "big")
    return 0 < number < HASH or newer and HASH <= number <= LAST_HASH or number == BROADCAST


def judge(plug, legacy=False, newer=False):
    """The reader after a valid codeplug; Bad for another. legacy: by the legacy reading; newer: by the newer edition of addresses."""
    if len(plug) > LIMIT:
        raise Bad(1, 0, "file", None, "length")
    r = Reader(plug, legacy, newer)
    r.take(8, "magic", 3, lambda raw: raw == b"RTXC\0\0\0\0")
    r.take(2, "version", 4, lambda raw: raw == b"\1\0")
    r.text("author")
    r.text("description")
    r.take(8, "timestamp")
    counts = [r.take(2, f"{kind} count") for kind in ("contact", "channel", "bank")]
    modes = [judge_contact(r, n) for n in range(counts[0])]
    for n in range(counts[1]):
        judge_channel(r, n, modes)
    judge_banks(r, counts[1], counts[2])
    if r.at < len(plug):
        raise Bad(12, r.at, "file", None, "end")
    return r


def judge_contact(r, n):
    r.record = ("contact", n)
    r.text("name")
    mode = r.byte("mode", lambda b: b in (1, 2), 6)
    if mode == 2:
        r.take(6, "address", 8, lambda raw: is_address(raw, r.newer))
    else:
        r.take(4, "id")
        r.packed("settings")
        r.byte("pad", lambda b: b == 0)
    return mode


def judge_channel(r, n, modes):
    r.record = ("channel", n)
    mode = r.byte("mode", lambda b: b < 3, 6)
    r.packed("traits")
    r.take(1, "power")
    r.take(4, "receive frequency")
    r.take(4, "transmit frequency")
    r.byte("scan list", lambda b: b <= 250)
    r.byte("group list", lambda b: b <= 128)
    r.text("name")
    r.text("description")
    degrees = r.byte("latitude", lambda b: b <= 90 or b >= 256 - 90)
    r.take(2, "latitude part", 7, lambda raw: int.from_bytes(raw, "little") < (1 if degrees == 90 else 10000))
    r.take(1, "longitude")
    r.take(2, "longitude part", 7, lambda raw: int.from_bytes(raw, "little") < 10000)
    r.take(2, "altitude")
    judge_info(r, mode, lambda raw: raw == b"\xff\xff" or modes[int.from_bytes(raw, "little") :][:1] == [mode])


def judge_info(r, mode, is_contact):
    if mode == 0:
        r.byte("receive tone", lambda b: b & 0x7F < 50)
        r.byte("transmit tone", lambda b: b & 0x7F < 50)
        for _ in range(3):
            r.byte("pad", lambda b: b == 0)
    elif mode == 1:
        r.take(1, "colours")
        r.byte("slot", lambda b: b in (1, 2))
        r.take(2, "contact", 9, is_contact)
        r.byte("pad", lambda b: b == 0)
    else:
        r.take(1, "access")
        r.byte("operation", lambda b: b >> 4 in (1, 2, 3) and b & 15 < 3)
        r.byte("position", lambda b: b < 2)
        r.take(2, "contact", 9, is_contact)


def judge_banks(r, channels, banks):
    table, offsets = r.at, []
    for b in range(banks):
        r.record = ("bank", b)
        offsets.append(r.take(4, "offset"))
    base = r.at
    for b in range(banks):
        r.record = ("bank", b)
        if offsets[b] != r.at - base:
            raise Bad(10, table + 4 * b, "bank", b, "offset")
        r.text("name")
        for j in range(r.take(2, "entry count")):
            r.take(2, f"entry {j}", 11, lambda raw: int.from_bytes(raw, "little") < channels)


def verdict(plug, legacy=False, newer=False):
    """The first line, and what was found bad."""
    try:
        met = judge(plug, legacy, newer)
    except Bad as bad:
        return f"refused {bad.number} at {bad.place}", bad
    return "ok " + " ".join(str(int.from_bytes(met.plug[at : at + 2], "little")) for at in (82, 84, 86)), None


# ---- the words ----

# What a field may be called where its own name is not the only sensible one.
WORDS = {
    "timestamp": r"time ?stamp",
    "settings": r"(contact )?settings",
    "pad": r"pad|padding",
    "address": r"(M17 )?address",
    "latitude part": r"latitude",
    "longitude part": r"longitude",
    "colours": r"colours?",
    "access": r"access",
    "operation": r"operation",
    "slot": r"(time ?)?slot",
    "contact count": r"contact count|(number|count) of contacts",
    "channel count": r"channel count|(number|count) of channels",
    "bank count": r"bank count|(number|count) of banks",
    "entry count": r"entry count|(number|count) of entries",
}


def record(plug, bad):
    """The bad record as the words name it: 'channel 3 (Weather)', without a name where none can be read."""
    if bad.n is None:
        return bad.kind
    starts = {"contact": HEADER + CONTACT * bad.n, "channel": channels_at(plug) + CHANNEL * bad.n + 13, "bank": bank_at(plug, bad)}
    at = starts[bad.kind]
    name = b"" if at is None else plug[at : at + 32]
    known = len(name) == 32 and is_text(name) and name.strip(b"\0")
    return f"{bad.kind} {bad.n}" + (f" ({name.rstrip(bytes(1)).decode()})" if known else "")


def channels_at(plug):
    return HEADER + CONTACT * int.from_bytes(plug[82:84], "little")


def bank_at(plug, bad):
    """Where the bank's name is, or None where no bank can be found (the table is not whole, or its own offset is the bad one)."""
    table = channels_at(plug) + CHANNEL * int.from_bytes(plug[84:86], "little")
    base = table + 4 * int.from_bytes(plug[86:88], "little")
    if bad.kind != "bank" or base > len(plug) or bad.field == "offset":
        return None
    return base + struct.unpack_from("<I", plug, table + 4 * bad.n)[0]


class Check(Case):
    def words(self, line, plug, bad):
        """Holds a line of words to the record and the field: '.. channel 3 (Weather), transmit tone: ..'."""
        if bad.kind == "file":
            self.assertRegex(line, {1: r"long|limit|1,?048,?576", 12: r"(after|follows?|past|behind) the last bank"}[bad.number])
            return
        field = WORDS.get(bad.field, re.escape(bad.field))
        named = re.escape(record(plug, bad)) + (r"( \([^)]*\))?" if "(" not in record(plug, bad) and bad.n is not None else "")
        self.assertRegex(line, rf"\b{named}[,:] ((the|first|second|third) )?({field})\b", bad.args)

    def check_all(self, plugs, legacy=False, newer=False):
        """Checks all these, and the club's own, in one call: a line each on standard output, and for each refused one a line of words."""
        plugs = [*plugs, LEGACY if legacy else CLUB]
        names = [f"{n}.x" for n in range(len(plugs))]
        for name, plug in zip(names, plugs):
            self.write(name, plug)
        options = ["--legacy"] * legacy + ["--edition", "newer"] * newer
        answer = run("check", *names, *options, cwd=self.folder)
        verdicts = [verdict(plug, legacy, newer) for plug in plugs]
        self.assertEqual(answer.text.splitlines(), [f"{name}: {line}" for name, (line, _) in zip(names, verdicts)])
        spoilt = [(name, plug, bad) for name, plug, (_, bad) in zip(names, plugs, verdicts) if bad]
        lines = answer.err.splitlines()
        self.assertEqual((len(lines), answer.status), (len(spoilt), 1 if spoilt else 0))
        for line, (name, plug, bad) in zip(lines, spoilt):
            with self.subTest(bad.args):
                self.assertIn(name + ":", line)
                self.assertTrue(line.isprintable(), line)
                self.words(line, plug, bad)
        return [bad for _, _, bad in spoilt]


def changed(at, new, plug=CLUB):
    return plug[:at] + new + plug[at + len(new) :]


# Every field that can be bad, with what is not allowed in it: number, where, bad values.
CONTROL, DELETE, LATE = b"a\nb", b"\x7f", b"a\0b"
TEXTS = [CONTROL, DELETE, LATE, b"\x80", b"\x1f", b"\0" * 31 + b"!"]
FM, DMR, M17 = (CHANNELS + n * CHANNEL for n in (3, 4, 7))
BANK = TABLE + 16
RESERVED = [bytes([1 << bit]) for bit in range(3, 8)] + [b"\x03", b"\x07", b"\xff"]
LEGACY_RESERVED = [bytes([1 << bit]) for bit in range(5)] + [b"\xc0", b"\xe0", b"\xff"]
SPOILT = {
    "magic": (3, 0, [b"X", b"RTXD", b"RTXC\1", b"RTXC\0\0\0\1"]),
    "version": (4, 8, [b"\0", b"\2", b"\1\1"]),
    "author": (5, 10, TEXTS),
    "description": (5, 42, TEXTS),
    "contact name": (5, HEADER + CONTACT, TEXTS),
    "contact mode": (6, HEADER + CONTACT + 32, [b"\0", b"\3", b"\xff"]),
    "contact settings": (7, HEADER + 37, RESERVED),
    "contact pad": (7, HEADER + 38, [b"\1", b"\xff"]),
    "contact address": (8, HEADER + 5 * CONTACT + 33, [n.to_bytes(6, "big") for n in (0, 40**9, BROADCAST - 1)]),
    "channel mode": (6, FM, [b"\3", b"\xff"]),
    "traits": (7, FM + 1, RESERVED),
    "scan list": (7, FM + 11, [b"\xfb", b"\xff"]),
    "group list": (7, FM + 12, [b"\x81", b"\xff"]),
    "channel name": (5, FM + 13, TEXTS),
    "channel description": (5, FM + 45, TEXTS),
    "latitude": (7, FM + 77, [b"\x5b", b"\x7f", b"\x80", b"\xa5"]),
    "latitude part": (7, FM + 78, [b"\x10\x27", b"\xff\xff"]),
    "longitude part": (7, FM + 81, [b"\x10\x27", b"\xff\xff"]),
    "receive tone": (7, FM + 85, [b"\x32", b"\x7f", b"\xb2", b"\xff"]),
    "transmit tone": (7, FM + 86, [b"\x32", b"\x7f", b"\xb2", b"\xff"]),
    "FM pad 0": (7, FM + 87, [b"\1"]),
    "FM pad 1": (7, FM + 88, [b"\1"]),
    "FM pad 2": (7, FM + 89, [b"\1"]),
    "slot": (7, DMR + 86, [b"\0", b"\3", b"\xff"]),
    "DMR contact": (9, DMR + 87, [b"\3\0", b"\6\0", b"\xfe\xff"]),
    "DMR pad": (7, DMR + 89, [b"\1"]),
    "operation": (7, M17 + 86, [b"\0", b"\x40", b"\xf0"]),
    "encryption": (7, M17 + 86, [b"\x13", b"\x1f"]),
    "position": (7, M17 + 87, [b"\2", b"\xff"]),
    "M17 contact": (9, M17 + 88, [b"\0\0", b"\6\0", b"\xfe\xff"]),
    "first offset": (10, TABLE, [b"\1\0\0\0", b"\xff\xff\xff\xff"]),
    "second offset": (10, TABLE + 4, [b"\0\0\0\0", b"\x2d\0\0\0"]),
    "last offset": (10, TABLE + 12, [b"\0\0\0\0"]),
    "bank name": (5, BANK, TEXTS),
    "entry": (11, BANK + 36, [b"\x0a\0", b"\xff\xff"]),
    "last entry": (11, len(CLUB) - 2, [b"\x0a\0", b"\xff\xff"]),
}
# Values at the edges of the rules that are allowed.
GOOD_EDGES = [(74, b"\xff" * 8), (HEADER + 33, b"\xff" * 4), (HEADER + 37, b"\6"), (HEADER, b"x" * 32), (HEADER + 3 * CONTACT + 33, b"\0" * 5 + b"\1")]
GOOD_EDGES += [(FM + 1, b"\6"), (FM + 2, b"\xff"), (FM + 3, b"\xff" * 8), (FM + 11, b"\xfa"), (FM + 12, b"\x80"), (FM + 77, b"\x5a\0\0")]
GOOD_EDGES += [(FM + 77, b"\xa6\x0f\x27"), (FM + 80, b"\x80\x0f\x27"), (FM + 83, b"\xff\xff"), (FM + 85, b"\x31\xb1"), (DMR + 85, b"\xff\2")]
GOOD_EDGES += [(DMR + 87, b"\xff\xff"), (M17 + 85, b"\xff\x32\1"), (M17 + 88, b"\xff\xff"), (BANK + 34, b"\x09\0")]


class Samples(Check):
    def test_every_sample_has_its_answer(self):
        for line in (SAMPLES / "answers.txt").read_text().splitlines():
            name, answer = line.split(": ")
            with self.subTest(name):
                got = run("check", self.folder / name)
                good = answer.startswith("ok")
                self.assertEqual((got.text, got.status, got.err.count("\n")), (answer + "\n", 0 if good else 1, 0 if good else 1))

    def test_the_words_on_every_sample(self):
        refused = [path.read_bytes() for path in sorted(SAMPLES.glob("*.rtxc"))]
        self.assertEqual(len(self.check_all(refused)), 11)

    def test_the_issues_own_example(self):
        words = run("check", self.folder / "club-tone-50.rtxc").err
        self.assertRegex(words, r"channel 0 \(Hill\), transmit tone: .*50")

    def test_one_file_has_no_name_before_its_line(self):
        self.assertEqual(self.ok("check", self.club), "ok 6 10 4\n")

    def test_a_file_named_twice_has_two_lines(self):
        self.assertEqual(self.ok("check", self.club, self.club), f"{self.club}: ok 6 10 4\n" * 2)

    def test_good_ones_among_bad_ones(self):
        answer = run("check", "club.rtxc", "club-cut.rtxc", "empty.rtxc", cwd=self.folder)
        self.assertEqual(answer.text, "club.rtxc: ok 6 10 4\nclub-cut.rtxc: refused 2 at 997\nempty.rtxc: ok 0 0 0\n")
        self.assertEqual(answer.status, 1)


class Spoilt(Check):
    def test_every_field_spoilt_once(self):
        for name, (number, place, values) in SPOILT.items():
            with self.subTest(name):
                found = self.check_all([changed(place, value) for value in values])
                self.assertEqual([(bad.number, bad.place) for bad in found], [(number, place)] * len(values))

    def test_the_place_is_the_first_byte_of_the_field(self):
        late = [(5, 10, 41), (5, HEADER, 119), (8, HEADER + 3 * CONTACT + 33, HEADER + 3 * CONTACT + 38), (5, FM + 45, FM + 76), (5, BANK, BANK + 31)]
        found = self.check_all([changed(at, b"\xfe") for _, _, at in late])
        self.assertEqual([(bad.number, bad.place) for bad in found], [(number, place) for number, place, _ in late])

    def test_the_pole_has_no_ten_thousandths(self):
        found = self.check_all([changed(FM + 77, b"\x5a\1\0")])
        self.assertEqual((found[0].number, found[0].place), (7, FM + 78))

    def test_what_is_allowed_at_the_edges(self):
        self.assertEqual(self.check_all([changed(at, value) for at, value in GOOD_EDGES]), [])

    def test_every_byte_of_traits_and_settings(self):
        for place in (FM + 1, HEADER + 37):
            found = self.check_all([changed(place, bytes([byte])) for byte in range(256)])
            self.assertEqual([(bad.number, bad.place) for bad in found], [(7, place)] * 250)

    def test_a_tone_that_is_off_has_the_same_rule(self):
        self.assertEqual(run("check", "-", stdin=changed(FM + 85, b"\x32")).text, f"refused 7 at {FM + 85}\n")

    def test_the_first_bad_field_answers(self):
        both = changed(BANK, b"\n", changed(FM + 85, b"\xff"))
        self.assertEqual(run("check", "-", stdin=both).text, f"refused 7 at {FM + 85}\n")

    def test_bytes_after_the_last_bank(self):
        for more in (b"\0", b"x" * 1000):
            found = self.check_all([CLUB + more])
            self.assertEqual((found[0].number, found[0].place), (12, len(CLUB)))

    def test_counts_that_are_too_high_or_too_low(self):
        self.check_all([changed(at, struct.pack("<H", n)) for at in (82, 84, 86) for n in (0, 1, 3, 11, 65535)])

    def test_a_spoilt_name_does_not_reach_the_terminal(self):
        for raw in (b"\x1b[31m", b"a\rb", b"\xff\xfe", b"\xc2\x9b"):
            words = run("check", "-", stdin=changed(FM + 13, raw)).err
            self.assertTrue(words.endswith("\n") and words[:-1].isprintable(), words)

    def test_random_damage(self):
        draw = random.Random(22)
        plugs = [changed(draw.randrange(len(CLUB)), draw.randbytes(draw.choice((1, 1, 2)))) for _ in range(600)]
        for _ in range(200):
            a, b = sorted(draw.randrange(len(CLUB)) for _ in range(2))
            plugs.append(draw.choice((CLUB[:a] + CLUB[b:], CLUB[:b] + CLUB[a:])))
        self.check_all(plugs)


class Cut(Check):
    def test_cut_at_every_length(self):
        found = self.check_all([CLUB[:n] for n in range(len(CLUB))])
        self.assertEqual({bad.number for bad in found}, {2})
        self.assertEqual(len({bad.place for bad in found}), len(judge(CLUB).fields))

    def test_cut_before_any_name_is_known(self):
        words = run("check", "-", stdin=CLUB[: M17 + 1]).err
        self.assertRegex(words, r"channel 7[,:] traits")


class Files(Check):
    def test_standard_input(self):
        self.assertEqual(self.ok("check", "-", stdin=CLUB), "ok 6 10 4\n")
        answer = run("check", "-", stdin=CLUB[:87])
        self.assertEqual((answer.text, answer.status), ("refused 2 at 86\n", 1))

    def test_the_longest_file(self):
        self.assertEqual(len(longest()), LIMIT)
        self.assertEqual(self.ok("check", self.write("limit", longest())), "ok 0 1 8\n")

    def test_a_longer_file(self):
        for plug in (longest() + b"\0", CLUB + bytes(LIMIT), bytes(LIMIT + 1)):
            answer = run("check", self.write("long", plug))
            self.assertEqual((answer.text, answer.status), ("refused 1 at 0\n", 1))
            self.words(answer.err, plug, verdict(plug)[1])
            self.assertEqual(run("check", "-", stdin=plug)[:2], (1, b"refused 1 at 0\n"))

    def test_a_very_long_file_is_not_read_to_its_end(self):
        path = self.write("huge", b"")
        os.truncate(path, 1 << 40)
        self.assertEqual(run("check", path)[:2], (1, b"refused 1 at 0\n"))

    def test_a_file_that_cannot_be_read_among_others(self):
        answer = run("check", "club.rtxc", "nowhere", "club-cut.rtxc", cwd=self.folder)
        self.assertEqual((answer.status, answer.text), (2, "club.rtxc: ok 6 10 4\nclub-cut.rtxc: refused 2 at 997\n"))
        self.assertEqual([line.count("nowhere") for line in answer.err.splitlines()], [1, 0])

    def test_check_changes_nothing(self):
        with self.untouched():
            run("check", *sorted(self.folder.iterdir()))

    def test_no_file(self):
        self.usage("check")

    def test_an_unknown_option(self):
        self.usage("check", "--strict", self.club)


if __name__ == "__main__":
    unittest.main()

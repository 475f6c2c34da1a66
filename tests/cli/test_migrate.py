"""codeplug migrate and check --legacy, and what every other verb says of a legacy codeplug.

What migrating makes is held to this folder's own reader and writer, which know both orders, and to the second program (tests/second)."""
import contextlib
import errno
import fcntl
import itertools
import os
import random
import re
import signal
import stat
import subprocess
import unittest

import saving
import tracer
from common import BANDWIDTHS, BROADCAST, CHANNEL, CONTACT, GOOD, HEADER, LIMIT, MODES, PROGRAM, SAMPLES, TYPES, Case, build, example, longest, parse, run
from saving import sha, with_author
from test_afternoon import SECOND
from test_check import CHANNELS, CLUB, FM, LEGACY, LEGACY_RESERVED, SPOILT, Check, changed, verdict

ROOT = os.geteuid() == 0
HINT = r"\. It is a legacy codeplug, from before version 2 of the library: 'codeplug migrate FILE' migrates it\n\Z"
PERHAPS = r"\. If it is a legacy codeplug, 'codeplug check --legacy FILE' says what is wrong with it\n\Z"
IN_NEW_ORDER = r"\. It is in the new order already: there is nothing to migrate\n\Z"
SETTINGS = HEADER + 2 * CONTACT + 37  # the first byte that differs between the two orders of the club's codeplug
CHANGES = """~ contact 2 (Net control): settings: 0x60 -> 0x05 (contact type private, rx tone on)
~ channel 2 (Calling): traits: 0x80 -> 0x02 (bandwidth 25, receive only no)
~ channel 3 (Weather): traits: 0x20 -> 0x04 (bandwidth 12.5, receive only yes)
"""


def small():
    """A codeplug of few bytes: a DMR and an M17 contact, two channels and a bank."""
    plug = example()
    contacts = [plug["contacts"][2], plug["contacts"][4]]
    channels = [plug["channels"][3], plug["channels"][4] | {"bandwidth": "20", "receive_only": True, "contact": 0}]
    return plug | {"contacts": contacts, "channels": channels, "banks": [{"name": "B", "entries": [1]}]}


def plain(plug):
    """The codeplug with 0 in all traits and settings, which both readings accept."""
    contacts = [contact | ({"contact_type": "group", "rx_tone": False} if contact["mode"] == "dmr" else {}) for contact in plug["contacts"]]
    return plug | {"contacts": contacts, "channels": [channel | {"bandwidth": "12.5", "receive_only": False} for channel in plug["channels"]]}


def drawn(draw):
    """Any codeplug."""
    plug, banks = example(), [{"name": "", "entries": []}]
    contacts = [drawn_contact(draw, plug["contacts"]) for _ in range(draw.randrange(9))]
    channels = [drawn_channel(draw, draw.choice(plug["channels"]), contacts) for _ in range(draw.randrange(20))]
    if channels:
        banks[0]["entries"] = [draw.randrange(len(channels)) for _ in range(draw.randrange(5))]
    return plug | {"contacts": contacts, "channels": channels, "banks": banks[: draw.randrange(2)]}


def drawn_contact(draw, models):
    contact = draw.choice(models) | {"name": draw.choice(["", "Name", "x" * 32])}
    if contact["mode"] == "m17":
        return contact | {"address": draw.choice([draw.randrange(1, 40**9), BROADCAST])}
    return contact | {"id": draw.randrange(2**32), "contact_type": draw.choice(TYPES), "rx_tone": draw.choice([False, True])}


def drawn_channel(draw, model, contacts):
    channel = model | {"bandwidth": draw.choice(BANDWIDTHS), "receive_only": draw.choice([False, True]), "power": draw.randrange(256)}
    called = [n for n, contact in enumerate(contacts) if contact["mode"] == channel["mode"]]
    return channel | ({} if channel["mode"] == "fm" else {"contact": draw.choice([None, *called])})


# ---- a history as a program from before version 2 left it ----


def number(n):
    return bytes([n]) if n < 128 else bytes([n % 128 | 128]) + number(n // 128)


def common_start(a, b):
    return next((n for n, (x, y) in enumerate(zip(a, b)) if x != y), min(len(a), len(b)))


def entry(old, new):
    p = common_start(old, new)
    s = common_start(old[p:][::-1], new[p:][::-1])
    return number(p) + number(len(new) - p - s) + number(len(old) - p - s) + old[p : len(old) - s]


def history_of(*states):
    """FILE.history of a file that went through these states, a command each."""
    steps = [(new, entry(old, new)) for old, new in zip(states, states[1:])][::-1]
    lines = ["codeplug history 1", "size 65536", f"before {sha(states[0])}"]
    lines += [f"command {sha(new)} 1:{len(made)}" for new, made in steps]
    return "\n".join(lines).encode() + b"\n\n" + b"".join(made for _, made in steps)


class Migrate(Case):
    def setUp(self):
        super().setUp()
        self.legacy = self.folder / "club-legacy.rtxc"
        self.history = self.folder / "club-legacy.rtxc.history"
        self.aside = self.folder / "club-legacy.rtxc.history.aside"

    def migrated(self, plug):
        """What migrating makes of a file; it prints nothing, and leaves nothing beside it."""
        before = {path.name for path in self.folder.iterdir()}
        path = self.write("plug.rtxc", plug)
        self.assertEqual(self.ok("migrate", path), "")
        self.assertEqual({path.name for path in self.folder.iterdir()}, before | {"plug.rtxc"})
        return path.read_bytes()


class Bytes(Migrate):
    def test_the_sample(self):
        self.assertEqual(self.ok("migrate", self.legacy), "")
        self.assertEqual(self.legacy.read_bytes(), CLUB)
        self.assertEqual([n for n in range(len(CLUB)) if CLUB[n] != LEGACY[n]], [SETTINGS, CHANNELS + 2 * CHANNEL + 1, FM + 1])

    def test_every_field_is_what_it_was(self):
        draw = random.Random(5)
        for n in range(40):
            legacy = build(drawn(draw), legacy=True)
            migrated = self.migrated(legacy)
            self.assertEqual(parse(migrated), parse(legacy, legacy=True), n)
            self.assertEqual(build(parse(migrated)), migrated, n)

    def test_every_value(self):
        plug = example()
        values = [(n, flag) for n in range(3) for flag in (False, True)]
        plug["contacts"] = [plug["contacts"][0] | {"contact_type": TYPES[n], "rx_tone": flag} for n, flag in values] + plug["contacts"][3:]
        models = [next(channel for channel in plug["channels"] if channel["mode"] == mode) | {"contact": None} for mode in MODES]
        plug["channels"] = [model | {"bandwidth": BANDWIDTHS[n], "receive_only": flag} for model in models for n, flag in values]
        plug["banks"] = []
        legacy = build(plug, legacy=True)
        self.assertEqual(self.migrated(legacy), build(plug))
        self.assertEqual({legacy[HEADER + CONTACT * n + 37] for n in range(6)}, {0, 0x20, 0x40, 0x60, 0x80, 0xA0})

    def test_m17_contacts_stay(self):
        """Byte 37 of theirs belongs to the address."""
        plug = example()
        addresses = [0x0102_0304_0005 | byte << 8 for byte in range(256)] + [BROADCAST]
        plug["contacts"] = [{"name": f"Contact {n}", "mode": "m17", "address": a} for n, a in enumerate(addresses)]
        plug["channels"], plug["banks"] = [plug["channels"][3]], []
        legacy, end = build(plug, legacy=True), HEADER + len(addresses) * CONTACT
        self.assertEqual({byte for byte in legacy[HEADER + 37 : end : CONTACT]}, set(range(256)))
        self.assertEqual(self.migrated(legacy), changed(end + 1, b"\4", legacy))

    def test_the_longest_codeplug(self):
        plug = parse(longest())
        plug["channels"][0] |= {"bandwidth": "25", "receive_only": True}
        self.assertEqual(self.migrated(build(plug, legacy=True)), build(plug))
        many = example() | {"contacts": [], "banks": []}
        many["channels"] = [many["channels"][n % 2 + 2] for n in range((LIMIT - HEADER) // CHANNEL)]
        self.assertEqual(self.migrated(build(many, legacy=True)), build(many))

    def test_as_the_second_program_does(self):
        draw = random.Random(6)
        for n in range(60):
            plug = build(drawn(draw), legacy=draw.random() < 0.9)
            plug = draw.choice([plug, plug, changed(draw.randrange(len(plug)), draw.randbytes(1), plug), plug[: draw.randrange(len(plug))]])
            other = subprocess.run([SECOND, "migrate"], input=plug, capture_output=True, timeout=60)
            answer = run("migrate", "-", stdin=plug)
            self.assertEqual((answer.status, answer.out), (other.returncode, other.stdout), n)
            self.assertIn(other.stderr.decode().strip(), answer.err)


class AlreadyDone(Migrate):
    """Files in the new order, and files that both readings accept."""

    def both(self):
        return [build(plain(example())), *((SAMPLES / f"{name}.rtxc").read_bytes() for name in GOOD[1:])]

    def test_new_order(self):
        with self.untouched():
            for more in ([], ["--dry-run"], ["--verbose"]):
                words = self.refused(7, SETTINGS, "migrate", self.club, *more)
                self.assertRegex(words, r"contact 2 \(Net control\), settings: 0x05 .*" + IN_NEW_ORDER)

    def test_twice(self):
        draw = random.Random(7)
        for plug in [drawn(draw) for _ in range(20)] + [small(), plain(small())]:
            path = self.write("plug.rtxc", build(plug, legacy=True))
            self.ok("migrate", path)
            with self.untouched():
                if plug == plain(plug):
                    self.assertEqual(self.ok("migrate", path), "")
                else:
                    self.assertRegex(self.refused(7, None, "migrate", path), IN_NEW_ORDER)

    def test_both_readings_accept(self):
        for plug in self.both():
            path = self.write("plug.rtxc", plug)
            with self.untouched():
                for more in ([], ["--verbose"], ["--dry-run"]):
                    self.assertEqual(self.ok("migrate", path, *more), "")
                self.assertEqual(run("migrate", "-", stdin=plug), (0, plug, ""))
                self.assertEqual(run("migrate", "-", "--dry-run", stdin=plug), (0, b"", ""))
            self.assertEqual([self.ok("check", path), self.ok("check", "--legacy", path)], [self.ok("check", path)] * 2)

    def test_both_readings_accept_and_the_history_stays(self):
        plug = self.both()[0]
        path = self.write("plug.rtxc", plug)
        self.ok("set", path, "header", "--author", "X")
        with self.untouched():
            self.assertEqual(self.ok("migrate", path), "")
        self.ok("undo", path)
        self.assertEqual(path.read_bytes(), plug)

    def test_a_file_of_both_orders(self):
        """Neither reading accepts it: it is not called migrated, nor a legacy codeplug, only perhaps one."""
        mixed = changed(FM + 1, b"\4", LEGACY)
        path = self.write("plug.rtxc", mixed)
        with self.untouched():
            self.assertNotIn("already", self.refused(7, FM + 1, "migrate", path))
            self.assertRegex(self.refused(7, SETTINGS, "show", path), PERHAPS)


class Refused(Migrate, Check):
    """By the legacy reading: its number, its place and the words, and every byte, time and name stays."""

    def refusal(self, plug):
        path = self.write("plug.rtxc", plug)
        bad = verdict(plug, legacy=True)[1]
        with self.untouched():
            words = self.refused(bad.number, bad.place, "migrate", path)
        self.words(words, plug, bad)
        return bad

    def test_every_field_spoilt_once(self):
        for name, (number, place, values) in SPOILT.items():
            for value in LEGACY_RESERVED if name in ("traits", "contact settings") else values:
                with self.subTest(name, value=value):
                    bad = self.refusal(changed(place, value, LEGACY))
                    self.assertEqual((bad.number, bad.place), (number, place))

    def test_cut_at_every_length(self):
        plug = build(small(), legacy=True)
        self.assertEqual(self.migrated(plug), build(small()))
        for length in range(len(plug)):
            with self.subTest(length=length):
                self.assertEqual(self.refusal(plug[:length]).number, 2)

    def test_too_long(self):
        self.assertEqual(self.refusal(LEGACY + b"\0").number, 12)
        for more in (1, 1000):
            plug = LEGACY + bytes(LIMIT + more - len(LEGACY))
            self.assertEqual(self.refusal(plug).number, 1)

    def test_every_byte_of_traits_and_settings(self):
        """Six are migrated, one to one; the others are refused there."""
        for place in (FM + 1, HEADER + 37):
            found = {}
            for byte in range(256):
                plug = changed(place, bytes([byte]), LEGACY)
                answer = run("migrate", "-", stdin=plug)
                if answer.status == 0:
                    self.assertEqual(answer.out, changed(place, answer.out[place : place + 1], CLUB))
                    found[byte] = answer.out[place]
                else:
                    self.refused(7, place, "migrate", "-", stdin=plug)
            self.assertEqual(found, {0: 0, 0x20: 4, 0x40: 1, 0x60: 5, 0x80: 2, 0xA0: 6})

    def test_the_history_stays(self):
        path = self.write("plug.rtxc", LEGACY[:-1])
        for history in (history_of(LEGACY, LEGACY[:-1]), history_of(CLUB, LEGACY), b"no history"):
            self.write("plug.rtxc.history", history)
            for more in ([], ["--dry-run"]):
                with self.untouched():
                    self.refused(2, len(LEGACY) - 2, "migrate", path, *more)


class Histories(Migrate):
    """The migrated file has no history: the one that is there is set aside, and that is said."""

    def setUp(self):
        super().setUp()
        self.states = [LEGACY, with_author(LEGACY, "One"), with_author(LEGACY, "Two")]
        self.legacy.write_bytes(self.states[-1])
        self.migrated_two = with_author(CLUB, "Two")

    def migrate(self, why, aside="club-legacy.rtxc.history.aside"):
        answer = run("migrate", self.legacy)
        self.assertEqual((answer.status, answer.out, answer.err.count("\n")), (0, b"", 1))
        self.assertEqual(answer.err, f"codeplug: {self.history}: {why}; set aside as {self.folder / aside}\n")
        self.assertEqual((self.legacy.read_bytes(), self.history.exists()), (self.migrated_two, False))

    def test_these_are_histories_that_the_program_takes(self):
        states = [CLUB, with_author(CLUB, "One"), with_author(CLUB, "Two")]
        self.legacy.write_bytes(states[-1])
        self.history.write_bytes(history_of(*states))
        self.ok("undo", self.legacy, "--count", "2")
        self.assertEqual(self.legacy.read_bytes(), CLUB)

    def test_its_own(self):
        self.history.write_bytes(history_of(*self.states))
        self.migrate("does not belong to the file any more, which was migrated")
        self.assertEqual(self.aside.read_bytes(), history_of(*self.states))

    def test_another_ones(self):
        self.history.write_bytes(history_of(CLUB, LEGACY))
        self.migrate("does not belong to the file any more, which something else changed")
        self.assertEqual(self.aside.read_bytes(), history_of(CLUB, LEGACY))

    def test_a_damaged_one(self):
        for history in (b"", b"no history", history_of(*self.states)[:-1]):
            self.legacy.write_bytes(self.states[-1])
            self.history.write_bytes(history)
            self.migrate("is damaged, goes back to a legacy codeplug, or is no history that this program knows")
            self.assertEqual(self.aside.read_bytes(), history)
            self.aside.unlink()

    def test_what_was_set_aside_before_stays(self):
        self.history.write_bytes(history_of(*self.states))
        self.aside.write_bytes(b"before")
        self.migrate("does not belong to the file any more, which was migrated", "club-legacy.rtxc.history.aside-2")
        self.assertEqual(self.aside.read_bytes(), b"before")

    def test_undo_does_not_take_it_back(self):
        self.history.write_bytes(history_of(*self.states))
        run("migrate", self.legacy)
        with self.untouched():
            self.assertEqual(self.ok("history", self.legacy), "")
            self.refused(38, 0, "undo", self.legacy)
        self.ok("set", self.legacy, "header", "--author", "Three")
        self.assertEqual(self.legacy.read_bytes(), with_author(CLUB, "Three"))
        self.refused(38, 0, "undo", self.legacy, "--count", "2")
        self.ok("undo", self.legacy)
        self.assertEqual(self.legacy.read_bytes(), self.migrated_two)

    def test_its_history_put_back_is_not_used(self):
        """Nor is it by an interrupted migration."""
        self.ok("migrate", self.legacy)
        self.history.write_bytes(history_of(*self.states))
        answer = run("undo", self.legacy)
        self.assertEqual((answer.status, self.legacy.read_bytes()), (1, self.migrated_two))
        self.assertIn("set aside", answer.err)

    def test_undo_never_brings_a_legacy_codeplug_back(self):
        """A file that both readings accept was a legacy one before, by its history."""
        states = [build(small(), legacy=True), build(plain(small()))]
        path, history = self.write("plug.rtxc", states[1]), self.write("plug.rtxc.history", history_of(*states))
        self.assertEqual([self.ok("check", *more, path) for more in ([], ["--legacy"])], ["ok 2 2 1\n"] * 2)
        with self.untouched():
            self.assertEqual(self.ok("migrate", path), "")
        answer = run("undo", path)
        self.assertEqual((answer.status, answer.out, path.read_bytes()), (1, b"", states[1]))
        self.assertRegex(answer.err, r"set aside as .*\n.*refused 38 at 0")
        self.assertFalse(history.exists())

    def test_dry_run(self):
        self.history.write_bytes(history_of(*self.states))
        with self.untouched():
            answer = run("migrate", self.legacy, "--dry-run")
        self.assertEqual((answer.status, answer.text), (0, CHANGES))
        self.assertEqual(answer.err, f"codeplug: {self.history}: would be set aside, since a migrated file has no history\n")


class Manners(Migrate):
    def test_dry_run(self):
        with self.untouched():
            self.assertEqual(self.ok("migrate", self.legacy, "--dry-run"), CHANGES)
            self.assertEqual(self.ok("migrate", "-", "--dry-run", stdin=LEGACY), CHANGES)
            self.refused(12, len(LEGACY), "migrate", "-", "--dry-run", stdin=LEGACY + b"\0")

    def test_verbose(self):
        answer = run("migrate", self.legacy, "--verbose")
        self.assertEqual((answer.status, answer.out, answer.err), (0, b"", CHANGES))
        self.assertEqual(self.legacy.read_bytes(), CLUB)
        self.assertEqual(run("migrate", "-", "--verbose", stdin=LEGACY), (0, CLUB, CHANGES))

    def test_standard_input_to_standard_output(self):
        with self.untouched():
            self.assertEqual(run("migrate", "-", stdin=LEGACY, cwd=self.folder), (0, CLUB, ""))
            words = self.refused(7, SETTINGS, "migrate", "-", stdin=CLUB, cwd=self.folder)
        self.assertRegex(words, r"\Acodeplug: standard input: refused .*" + IN_NEW_ORDER)

    def test_a_chain(self):
        step = run("migrate", "-", stdin=LEGACY).out
        step = run("set", "-", "channel", "Weather", "--bandwidth", "25", stdin=step).out
        self.assertEqual(parse(step)["channels"][3], example()["channels"][3] | {"bandwidth": "25"})

    def test_permissions_stay(self):
        for mode, umask in itertools.product((0o600, 0o640, 0o664), (0o000, 0o077)):
            self.legacy.write_bytes(LEGACY)
            self.legacy.chmod(mode)
            self.ok("migrate", self.legacy, umask=umask)
            self.assertEqual((self.legacy.read_bytes(), stat.S_IMODE(self.legacy.stat().st_mode)), (CLUB, mode))

    @unittest.skipUnless(ROOT, "only root can give a file away")
    def test_the_owner_stays(self):
        os.chown(self.legacy, 1234, 2345)
        self.ok("migrate", self.legacy)
        self.assertEqual((self.legacy.stat().st_uid, self.legacy.stat().st_gid), (1234, 2345))

    def test_links(self):
        """A symbolic link is followed; another name of the file keeps the legacy codeplug."""
        link, other = self.folder / "link", self.folder / "other.rtxc"
        link.symlink_to(self.legacy.name)
        os.link(self.legacy, other)
        self.ok("migrate", link)
        self.assertEqual((self.legacy.read_bytes(), other.read_bytes(), link.is_symlink()), (CLUB, LEGACY, True))

    def test_left_overs_are_replaced(self):
        new = self.write("club-legacy.rtxc.codeplug-new", b"half")
        self.ok("migrate", self.legacy)
        self.assertEqual((self.legacy.read_bytes(), new.exists()), (CLUB, False))

    def test_a_history_that_is_no_file(self):
        self.history.mkdir()
        with self.untouched():
            self.assertIn("no regular file", self.usage("migrate", self.legacy))

    def test_wrong_usage(self):
        legacy = self.legacy
        cases = [[], [legacy, self.club], [""], [legacy, "--history-size", "9"], [legacy, "--legacy"], [legacy, "--count", "1"], [legacy, "--wait"]]
        cases += [[legacy, "--dry-run", "--dry-run"], [legacy, "--wait", "soon"], [legacy, "--dry-run=yes"], ["-", "-"]]
        with self.untouched():
            for args in cases:
                with self.subTest(args):
                    self.usage("migrate", *args)
            self.usage("show", "--legacy", self.club)
            self.usage("check", "--legacy")
            self.usage("check", "--legacy", "--legacy", self.club)


class Hint(Migrate):
    """A file that only the legacy reading accepts: every verb says so at the end of its words."""
    VERBS = [["show"], ["show", "--json"], ["show", "channel", "0"], ["history"], ["undo"], ["set", "header", "--author", "X"], ["remove", "bank", "0"]]
    VERBS += [["rename", "bank", "0", "X"], ["add", "bank", "--name", "X"], ["move", "bank", "0", "1"], ["set", "header", "--author", "X", "--dry-run"]]

    def test_every_verb(self):
        with self.untouched():
            for verb, *rest in self.VERBS:
                with self.subTest((verb, *rest)):
                    words = self.refused(7, SETTINGS, verb, self.legacy, *rest)
                    self.assertRegex(words, r": contact 2 \(Net control\), settings: 0x60 is a [^.]*" + HINT)

    def test_check(self):
        answer = run("check", self.legacy)
        self.assertEqual((answer.status, answer.text, answer.err.count("\n")), (1, f"refused 7 at {SETTINGS}\n", 1))
        self.assertRegex(answer.err, HINT)
        answer = run("check", "club.rtxc", "club-legacy.rtxc", "club-tone-50.rtxc", cwd=self.folder)
        self.assertEqual([bool(re.search(HINT, line + "\n")) for line in answer.err.splitlines()], [True, False])

    def test_diff_of_either(self):
        for pair in ((self.legacy, self.club), (self.club, self.legacy)):
            self.assertRegex(self.refused(7, SETTINGS, "diff", *pair), r"club-legacy.*" + HINT)

    def test_standard_input(self):
        for args in (["show", "-"], ["set", "-", "header", "--author", "X"]):
            self.assertRegex(self.refused(7, SETTINGS, *args, stdin=LEGACY), r"\Acodeplug: standard input: .*" + HINT)

    def test_only_there(self):
        """Where both readings refuse a file it may be a legacy one, if settings or traits are what is refused first; else nothing is said."""
        spoilt = [changed(place, values[0], LEGACY) for name, (_, place, values) in SPOILT.items() if name not in ("traits", "contact settings")]
        for plug in spoilt + [path.read_bytes() for path in SAMPLES.glob("*-*.rtxc") if path.name != "club-legacy.rtxc"]:
            answer = run("check", "-", stdin=plug)
            perhaps = answer.out == b"refused 7 at %d\n" % SETTINGS
            self.assertEqual((answer.status, bool(re.search(PERHAPS, answer.err)), "legacy" in answer.err), (1, perhaps, perhaps), answer.err)

    def test_perhaps(self):
        """What a damaged legacy codeplug is told, and what it is told by the verb that it is sent to."""
        cut = LEGACY[:-1]
        self.assertRegex(self.refused(7, SETTINGS, "show", "-", stdin=cut), PERHAPS)
        answer = run("check", "--legacy", "-", stdin=cut)
        self.assertEqual((answer.status, answer.out.startswith(b"refused 2 at ")), (1, True), answer)

    def test_what_it_says_is_so(self):
        """Whoever does what the hint says has a codeplug that the verb takes."""
        self.ok("migrate", self.legacy)
        self.assertEqual(self.ok("check", self.legacy), "ok 6 10 4\n")
        self.assertEqual(self.ok("show", self.legacy), self.ok("show", self.club))


class CheckLegacy(Check):
    def test_every_sample(self):
        found = self.check_all([path.read_bytes() for path in sorted(SAMPLES.glob("*.rtxc"))], legacy=True)
        self.assertEqual(len(found), 11)

    def test_the_pair(self):
        self.assertEqual(self.ok("check", "--legacy", self.folder / "club-legacy.rtxc"), "ok 6 10 4\n")
        answer = run("check", self.club, "--legacy")
        self.assertEqual((answer.status, answer.text), (1, f"refused 7 at {SETTINGS}\n"))
        self.assertRegex(answer.err, r": contact 2 \(Net control\), settings: 0x05 is a [^.]*" + IN_NEW_ORDER)

    def test_every_field_spoilt_once(self):
        for name, (number, place, values) in SPOILT.items():
            values = LEGACY_RESERVED if name in ("traits", "contact settings") else values
            with self.subTest(name):
                found = self.check_all([changed(place, value, LEGACY) for value in values], legacy=True)
                self.assertEqual([(bad.number, bad.place) for bad in found], [(number, place)] * len(values))

    def test_every_byte_of_traits_and_settings(self):
        for place in (FM + 1, HEADER + 37):
            found = self.check_all([changed(place, bytes([byte]), LEGACY) for byte in range(256)], legacy=True)
            self.assertEqual([(bad.number, bad.place) for bad in found], [(7, place)] * 250)

    def test_cut_at_every_length(self):
        found = self.check_all([LEGACY[:n] for n in range(len(LEGACY))], legacy=True)
        self.assertEqual({bad.number for bad in found}, {2})

    def test_random_damage(self):
        draw = random.Random(23)
        self.check_all([changed(draw.randrange(len(LEGACY)), draw.randbytes(1), LEGACY) for _ in range(500)], legacy=True)

    def test_statuses(self):
        answer = run("check", "--legacy", "club-legacy.rtxc", "empty.rtxc", "nowhere", "club.rtxc", cwd=self.folder)
        self.assertEqual((answer.status, answer.text), (2, f"club-legacy.rtxc: ok 6 10 4\nempty.rtxc: ok 0 0 0\nclub.rtxc: refused 7 at {SETTINGS}\n"))

    def test_standard_input(self):
        self.assertEqual(self.ok("check", "--legacy", "-", stdin=LEGACY), "ok 6 10 4\n")

    def test_nothing_is_changed(self):
        with self.untouched():
            run("check", "--legacy", *sorted(self.folder.iterdir()))


class Together(saving.Case):
    """Others who have the file."""
    content = LEGACY

    @contextlib.contextmanager
    def held(self):
        with open(self.file, "rb") as file:
            fcntl.flock(file, fcntl.LOCK_EX)
            yield lambda: fcntl.flock(file, fcntl.LOCK_UN)

    def test_told(self):
        with self.held(), self.unchanged():
            self.assertIn("another codeplug", self.told("migrate", self.file, "--wait", "0"))

    def test_waits(self):
        with self.held() as let_go:
            process = saving.start("migrate", self.file)
            with self.assertRaises(subprocess.TimeoutExpired):
                process.wait(0.2)
            let_go()
            self.assertEqual((saving.end(process), self.file.read_bytes()), ((0, b"", b""), CLUB))

    def test_many_at_once(self):
        """One migrates it; the others find it done."""
        processes = [saving.start("migrate", self.file, "--wait", "60") for _ in range(8)]
        answers = [saving.end(process) for process in processes]
        self.assertEqual(sorted(answer.status for answer in answers), [0] + [1] * 7)
        self.assertEqual({bool(re.search(IN_NEW_ORDER, answer.err.decode())) for answer in answers if answer.status}, {True})
        self.assertEqual((self.file.read_bytes(), self.names()), (CLUB, ["plug.rtxc"]))

    def test_a_folder_that_may_not_be_written(self):
        if not ROOT:
            self.skipTest("only root can be somebody else")
        self.folder.chmod(0o755)
        self.file.chmod(0o666)
        somebody = saving.unprivileged(self.folder)
        with self.unchanged():
            self.assertIn("permission", self.told("migrate", self.file, **somebody))
            self.assertEqual(run("migrate", self.file, "--dry-run", program=somebody["program"]).text, CHANGES)


@unittest.skipIf(tracer.why_not(), tracer.why_not())
class Interrupted(saving.Case):
    """Killed before each of its system calls, or one of them failing: the legacy or the migrated codeplug is there, and the history lies
    beside the one or the other, never lost and never used."""
    content = LEGACY
    ENDINGS = ("", ".codeplug-new", ".history", ".history.aside")

    OLD = history_of(with_author(LEGACY, "One"), LEGACY)

    def put_back(self):
        for path in self.folder.iterdir():
            path.unlink()
        self.place(LEGACY).chmod(0o600)
        self.place(self.OLD, self.history.name).chmod(0o600)

    def trace(self, **how):
        self.put_back()
        return tracer.trace([PROGRAM, "migrate", self.file], watched=os.fsencode(self.folder), prepare=lambda: os.umask(0), **how)

    def judge(self):
        """Whether it is migrated; a second migration and an edit go on from here."""
        now, files = self.file.read_bytes(), {path.name: path.read_bytes() for path in self.folder.iterdir()}
        self.assertIn(now, (LEGACY, CLUB))
        self.assertLessEqual(set(files), {self.file.name + ending for ending in self.ENDINGS})
        self.assertEqual([path.name for path in self.folder.iterdir() if path.stat().st_mode & 0o077], [])
        self.assertIn(self.OLD, [files.get(self.history.name), files.get(self.history.name + ".aside") if now == CLUB else None])
        self.assertEqual(run("migrate", self.file).status, 0 if now == LEGACY else 1)
        self.assertEqual(run("set", self.file, "header", "--author", "Next").status, 0)
        self.assertEqual(self.undo_all([CLUB, with_author(CLUB, "Next")]), 1)
        self.assertEqual([name for name in self.names() if name.endswith("-new")], [])
        return now == CLUB

    def test_killed(self):
        found = set()
        for place in itertools.count():
            ended = self.trace(kill_before=place)
            with self.subTest(killed_before=place, files=self.names()):
                found.add(self.judge())
            if ended.status != -signal.SIGKILL:
                break
        self.assertEqual((ended.status, found), (0, {False, True}))

    def test_failed(self):
        self.said = b""
        for error in (errno.ENOSPC, errno.EIO):
            for place in itertools.count():
                ended = self.trace(fail=(place, error))
                if not ended.failed:
                    break
                with self.subTest(failed=ended.failed.name, paths=ended.failed.paths, error=os.strerror(error), place=place):
                    self.judge_failed(ended)
            self.assertEqual(ended.status, 0)
        self.assertIn(b"is saved, but its history could not be set aside: the disk is full", self.said)

    def judge_failed(self, ended):
        """What is said fits what was done."""
        done = self.file.read_bytes() == CLUB
        self.assertIn(ended.status, (0, 2), ended.err)
        self.assertTrue(done or ended.status == 2, ended.err)
        if done and ended.status == 2:
            self.assertIn(b"is saved, but", ended.err)
        self.said += ended.err
        self.judge()

    def test_changed_by_something_else_meanwhile(self):
        """What another program writes before the rename is not lost."""
        other, statuses = with_author(LEGACY, "Somebody else"), set()
        for place in itertools.count():
            ended = self.trace(meanwhile=(place, lambda: self.file.read_bytes() == LEGACY and self.file.write_bytes(other)))
            if not ended.failed:
                break
            now = self.file.read_bytes()
            self.assertIn((ended.status, now), [(0, CLUB), (0, with_author(CLUB, "Somebody else")), (2, other)], place)
            self.assertEqual({b"nothing is saved" in ended.err, self.history.exists()}, {now == other}, place)
            statuses.add(ended.status)
        self.assertEqual(statuses, {0, 2})

    def test_an_edit_meanwhile(self):
        """It is refused, told or done, and what it did can be undone: nobody gets in between the codeplug and its history."""
        answers, found = [], set()
        edit = lambda: answers.append(run("set", self.file, "header", "--author", "Meanwhile", "--wait", "0"))
        for place in itertools.count():
            ended = self.trace(meanwhile=(place, edit))
            if not ended.failed:
                break
            found.add(answers[-1].status)
            with self.subTest(held_before=ended.failed.name, paths=ended.failed.paths, place=place):
                self.assertEqual(ended.status, 0, ended.err)
                self.assertEqual(self.beside(".history.aside").read_bytes(), self.OLD)
                done = answers[-1].status == 0
                self.assertEqual(self.undo_all([CLUB, with_author(CLUB, "Meanwhile")] if done else [CLUB]), 1 if done else 0)
        self.assertLessEqual({1, 2}, found)

    def test_synced(self):
        """The codeplug is synced and renamed, then the history; the folder is synced after each."""
        self.put_back()
        calls = list(tracer.opened(tracer.trace([PROGRAM, "migrate", self.file]).calls))
        named = [(call.paths[1], path) for call, path in calls if call.name in tracer.RENAMES]
        self.assertEqual([os.fsdecode(to) for to, _ in named], [str(self.file), f"{self.history}.aside"])
        order = [call.name if call.name in tracer.RENAMES else path for call, path in calls if call.name in tracer.RENAMES + tracer.SYNCS]
        new, folder = os.fsencode(self.file) + b".codeplug-new", os.fsencode(self.folder)
        self.assertEqual(order, [new, "rename", folder, "rename", folder])


if __name__ == "__main__":
    unittest.main()

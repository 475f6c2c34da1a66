"""--edition and CODEPLUG_EDITION: every verb by both editions of M17 addresses (document 02, [10]), and what is said where the newer one is
needed. Answers are held to this folder's own reader and writer of codeplugs."""
import csv
import io
import json
import random
import re
import unittest

import saving
from common import BROADCAST, CONTACT, DIGITS, GOOD, HASH, HEADER, LAST_HASH, SAMPLES, Case, address, build, callsign, parse, reorder, run
from test_check import CLUB, LEGACY, SPOILT, Check, changed, verdict

PLUG = (SAMPLES / "hash.rtxc").read_bytes()
PLACE = HEADER + 2 * CONTACT + 33  # its first hash address
NEWER, OLDER = ("--edition", "newer"), ("--edition", "older")
NEEDED = r"\. It is a hash address, which needs --edition newer\n\Z"
SIGN_NEEDED = r"\. A hash sign at the beginning needs --edition newer\n\Z"
BEFORE_NEEDED = r": refused 39 at 0: the codeplug before that has a hash address, which needs --edition newer\n\Z"

# Every verb that takes an edition, with what follows FILE.
READING = [["check"], ["show"], ["show", "--json"], ["show", "contacts", "--csv"], ["show", "contact", "0"], ["history"]]
EDITING = [["set", "header", "--author", "X"], ["set", "contact", "Control", "--callsign", "#X"], ["set", "channel", "0", "--power", "20"]]
EDITING += [["add", "contact", "--name", "N", "--mode", "m17", "--callsign", "#N"], ["add", "contact", "--like", "Crew", "--name", "N"]]
EDITING += [["add", "channel", "--like", "1", "--name", "N"], ["add", "bank", "--name", "N"], ["add", "entry", "0", "5"], ["remove", "bank", "0"]]
EDITING += [["remove", "contact", "Last of all"], ["rename", "contact", "Crew", "N"], ["move", "contact", "Crew", "0"], ["move", "channel", "0", "3"]]
EDITING += [["remove", "entry", "0", "1"], ["move", "entry", "0", "0", "1"], ["rename", "bank", "0", "N"], ["move", "bank", "0", "1"]]
VERBS = "check show new set add remove rename move undo history migrate diff callsign address".split()


def with_address(number, n=5, plug=CLUB):
    """The club's codeplug with another address of contact n."""
    return changed(HEADER + n * CONTACT + 33, number.to_bytes(6, "big"), plug)


class Editions(Case):
    def setUp(self):
        super().setUp()
        self.file = self.folder / "hash.rtxc"
        self.history = self.folder / "hash.rtxc.history"


class Option(Editions):
    def words(self, verb):
        """A command of this verb, without its edition."""
        rest = {"new": [self.folder / "n"], "diff": [self.club, self.club], "callsign": ["A"], "address": ["1"], "undo": [self.club]}
        parts = {"set": ["header", "--author", "X"], "add": ["bank", "--name", "X"], "remove": ["bank", "0"], "rename": ["bank", "0", "X"]}
        return [verb, *rest.get(verb, [self.club]), *(parts | {"move": ["bank", "0", "1"]}).get(verb, [])]

    def test_any_letters(self):
        for word in ("newer", "NEWER", "Newer", "nEwEr"):
            self.assertEqual(self.ok("check", self.file, "--edition", word), "ok 7 6 2\n")
            self.assertEqual(self.ok("check", f"--edition={word}", self.file), "ok 7 6 2\n")
            self.assertEqual(self.ok("check", self.file, env={"CODEPLUG_EDITION": word}), "ok 7 6 2\n")
        for word in ("older", "OLDER"):
            self.assertEqual(run("check", self.file, "--edition", word)[:2], (1, b"refused 8 at %d\n" % PLACE))

    def test_a_wrong_word_is_wrong_usage(self):
        with self.untouched():
            for verb in VERBS:
                for word in ("new", "newest", "1", "both", "older,newer", " newer"):
                    line = self.usage(*self.words(verb), "--edition", word)
                    self.assertIn(f"--edition: '{word}' is none of: older, newer", line)
                for args in (["--edition"], ["--edition", ""], ["--edition="], [*NEWER, *NEWER], ["--editon", "newer"]):
                    self.usage(*self.words(verb), *args)

    def test_every_verb_takes_both(self):
        self.ok("set", self.club, "header", "--author", "To be undone")
        for verb in VERBS:
            for edition in ("older", "newer"):
                if verb in ("new", "undo", "remove", "migrate"):  # what can be done once
                    continue
                self.ok(*self.words(verb), "--edition", edition)
        for verb, edition in (("remove", "older"), ("undo", "newer"), ("remove", "newer"), ("undo", "older"), ("new", "newer")):
            self.assertEqual(self.ok(*self.words(verb), "--edition", edition), "")
        self.assertEqual((self.folder / "n").read_bytes(), (SAMPLES / "empty.rtxc").read_bytes())
        for edition in (OLDER, NEWER):
            self.refused(7, None, "migrate", self.club, *edition)

    def test_verbs_without_addresses_take_none(self):
        for args in (["tone", "67"], ["tone"], ["help"], ["help", "check"]):
            self.usage(*args, *NEWER)
            answer = run(*args, env={"CODEPLUG_EDITION": "wrong"})
            self.assertEqual((answer.status, answer.err), (0, ""))

    def test_the_environment_gives_another_default(self):
        newer, older, empty = ({"CODEPLUG_EDITION": word} for word in ("newer", "older", ""))
        self.assertEqual(self.ok("check", self.file, env=newer), "ok 7 6 2\n")
        for around in (older, empty):
            self.assertEqual(run("check", self.file, env=around).out, b"refused 8 at %d\n" % PLACE)
        self.assertEqual(self.ok("callsign", "#", env=newer), f"{HASH}\n")
        self.ok("add", self.file, "contact", "--name", "N", "--mode", "m17", "--callsign", "#N", env=newer)
        self.assertIn("#N", self.ok("history", self.file, env=newer))
        self.ok("undo", self.file, env=newer)
        self.assertEqual(self.file.read_bytes(), PLUG)

    def test_the_option_wins_over_the_environment(self):
        for word in ("older", "wrong", ""):
            self.assertEqual(self.ok("check", self.file, *NEWER, env={"CODEPLUG_EDITION": word}), "ok 7 6 2\n")
        for word in ("newer", "wrong"):
            answer = run("check", self.file, *OLDER, env={"CODEPLUG_EDITION": word})
            self.assertEqual((answer.status, answer.out), (1, b"refused 8 at %d\n" % PLACE))

    def test_a_wrong_word_in_the_environment(self):
        with self.untouched():
            for verb in VERBS:
                for word in ("new", "2", "older newer", "x\ny"):
                    line = self.usage(*self.words(verb), env={"CODEPLUG_EDITION": word})
                    self.assertRegex(line, r"CODEPLUG_EDITION: '.*' is none of: older, newer")
                self.assertRegex(self.ok(verb, "--help", env={"CODEPLUG_EDITION": "wrong"}), rf"\Acodeplug {verb}: ")
                self.ok(verb, "--version", env={"CODEPLUG_EDITION": "wrong"})
            self.usage("check", self.club, env={b"CODEPLUG_EDITION": b"\xff"})


class Addresses(Editions):
    NUMBERS = [0, 1, 40, HASH - 1, HASH, HASH + 1, HASH + 40, HASH + 10_476_881, LAST_HASH - 1, LAST_HASH, LAST_HASH + 1, BROADCAST - 1]

    def test_numbers_at_the_borders(self):
        for number in self.NUMBERS:
            for edition, most in ((OLDER, HASH - 1), (NEWER, LAST_HASH)):
                with self.subTest(number, edition=edition):
                    if 0 < number <= most:
                        self.assertEqual(self.ok("address", number, *edition), callsign(number) + "\n")
                        self.assertEqual(self.ok("callsign", callsign(number), *edition), f"{number}\n")
                        self.assertEqual(self.ok("address", hex(number), *edition), callsign(number) + "\n")
                    else:
                        self.refused(23, 0, "address", number, *edition)

    def test_broadcast_is_the_same_in_both(self):
        for edition in (OLDER, NEWER):
            self.assertEqual(self.ok("address", BROADCAST, *edition), "broadcast\n")

    def test_texts(self):
        answers = {"#": HASH, "#A": HASH + 1, "# A": HASH + 40, "#........": LAST_HASH, "#AB1CD": HASH + 10_476_881}
        for text, number in answers.items():
            self.assertEqual(self.ok("callsign", text, *NEWER), f"{number}\n")
            self.assertEqual(self.ok("callsign", text, "--hex", *NEWER).replace(" ", ""), f"{number:012X}\n")
            self.assertRegex(self.refused(21, 0, "callsign", text), SIGN_NEEDED)
        refusals = {"# ": (22, 0), "#A ": (22, 0), "##": (21, 1), "#A#": (21, 2), "#a": (21, 1), "#é": (21, 1)}
        for text, (number, place) in refusals.items():
            self.assertNotIn("--edition", self.refused(number, place, "callsign", text, *NEWER))
            self.assertRegex(self.refused(21, 0, "callsign", text), SIGN_NEEDED)
        alike = {"A#": (21, 1), " #": (21, 1), "#.........": (20, 0), "##########": (20, 0), "": (20, 0), "A ": (22, 0), "ab": (21, 0)}
        for text, (number, place) in alike.items():
            for edition in (OLDER, NEWER):
                self.assertNotIn("--edition", self.refused(number, place, "callsign", text, *edition))

    def test_an_address_that_needs_the_newer(self):
        for number in (HASH, HASH + 1, LAST_HASH):
            self.assertRegex(self.refused(23, 0, "address", number), NEEDED)
        for number in (0, LAST_HASH + 1, BROADCAST - 1, BROADCAST + 1):
            for edition in (OLDER, NEWER):
                self.assertNotIn("--edition", self.refused(23, 0, "address", number, *edition))

    def test_both_ways(self):
        draw = random.Random(10)
        for _ in range(40):
            text = "#" + "".join(draw.choice(DIGITS) for _ in range(draw.randrange(8))) + draw.choice(DIGITS[1:])
            self.assertEqual(self.ok("callsign", text, *NEWER), f"{address(text)}\n")
            self.assertEqual(self.ok("address", address(text), *NEWER), f"{text}\n")


class Checked(Editions, Check):
    def test_the_sample(self):
        self.assertEqual(self.ok("check", self.file, *NEWER), "ok 7 6 2\n")
        self.assertEqual((verdict(PLUG)[0], verdict(PLUG, newer=True)[0]), (f"refused 8 at {PLACE}", "ok 7 6 2"))

    def test_every_sample(self):
        plugs = [path.read_bytes() for path in sorted(SAMPLES.glob("*.rtxc"))]
        self.assertEqual(len(self.check_all(plugs, newer=True)), 10)
        self.assertEqual(len(self.check_all(plugs, newer=True, legacy=True)), 11)

    def test_addresses_at_the_borders(self):
        numbers = [0, 1, HASH - 1, HASH, HASH + 1, LAST_HASH, LAST_HASH + 1, BROADCAST - 1, BROADCAST]
        for legacy, plug in ((False, CLUB), (True, LEGACY)):
            for newer, bad in ((False, [0, HASH, HASH + 1, LAST_HASH, LAST_HASH + 1, BROADCAST - 1]), (True, [0, LAST_HASH + 1, BROADCAST - 1])):
                found = self.check_all([with_address(number, plug=plug) for number in numbers], legacy=legacy, newer=newer)
                self.assertEqual([(b.number, b.place) for b in found], [(8, HEADER + 5 * CONTACT + 33)] * len(bad))

    def test_every_field_spoilt_once(self):
        """The newer edition refuses all else as the older does."""
        for name, (number, place, values) in SPOILT.items():
            plugs = [changed(place, value) for value in values]
            found = self.check_all(plugs, newer=True)
            values = [v for v in values if not (number == 8 and HASH <= int.from_bytes(v, "big") <= LAST_HASH)]
            self.assertEqual([(bad.number, bad.place) for bad in found], [(number, place)] * len(values), name)

    def test_cut_at_every_length(self):
        found = self.check_all([PLUG[:n] for n in range(len(PLUG))], newer=True)
        self.assertEqual({bad.number for bad in found}, {2})
        self.check_all([PLUG[:n] for n in range(len(PLUG))])

    def test_random_damage(self):
        draw = random.Random(24)
        plugs = [changed(draw.randrange(len(PLUG)), draw.randbytes(draw.choice((1, 1, 2))), PLUG) for _ in range(400)]
        for newer in (False, True):
            self.check_all(plugs, newer=newer)

    def test_many_files_by_one_edition(self):
        answer = run("check", "club.rtxc", "hash.rtxc", *NEWER, cwd=self.folder)
        self.assertEqual((answer.status, answer.text, answer.err), (0, "club.rtxc: ok 6 10 4\nhash.rtxc: ok 7 6 2\n", ""))


class Hint(Editions):
    """A file that the older edition refuses, and the newer accepts or gets further with: every verb says so, and leaves every byte."""

    def test_every_verb(self):
        words = r": contact 2 \(Crew\), address: 262144001480723 is neither a callsign nor broadcast" + NEEDED
        with self.untouched():
            for verb, *rest in READING[1:] + EDITING + [["undo"], ["migrate"], ["migrate", "--dry-run"], ["set", "header", "--author", "X", "--dry-run"]]:
                for edition in ((), OLDER):
                    with self.subTest((verb, *rest)):
                        self.assertRegex(self.refused(8, PLACE, verb, self.file, *rest, *edition), words)
            for more in ([], ["--legacy"]):
                answer = run("check", self.file, *more)
                self.assertEqual((answer.status, answer.text), (1, f"refused 8 at {PLACE}\n"))
                self.assertRegex(answer.err, words)

    def test_diff_of_either(self):
        for pair in ((self.file, self.club), (self.club, self.file)):
            self.assertRegex(self.refused(8, PLACE, "diff", *pair), r"hash\.rtxc.*" + NEEDED)

    def test_standard_input(self):
        for args in (["show", "-"], ["set", "-", "header", "--author", "X"], ["migrate", "-"]):
            self.assertRegex(self.refused(8, PLACE, *args, stdin=PLUG), r"\Acodeplug: standard input: .*" + NEEDED)

    def test_what_it_says_is_so(self):
        for verb, *rest in READING + EDITING:
            self.file.write_bytes(PLUG)
            self.history.unlink(missing_ok=True)
            answer = run(verb, self.file, *rest, *NEWER)
            self.assertEqual((answer.status, answer.err), (0, ""), (verb, *rest))

    def test_gets_further(self):
        """What else is wrong is said once the newer edition is given."""
        for spoilt, number in ((PLUG[:-1], 2), (PLUG + b"\0", 12), (changed(len(PLUG) - 2, b"\xff", PLUG), 11)):
            self.assertRegex(self.refused(8, PLACE, "show", "-", stdin=spoilt), NEEDED)
            self.assertNotIn("--edition", self.refused(number, None, "show", "-", *NEWER, stdin=spoilt))

    def test_only_there(self):
        spoilt = [changed(place, values[0]) for _, (_, place, values) in SPOILT.items()]
        spoilt += [with_address(number) for number in (0, LAST_HASH + 1, BROADCAST - 1)]
        for plug in spoilt:
            answer = run("check", "-", stdin=plug)
            self.assertEqual((answer.status, "--edition" in answer.err), (1, False), answer.err)
        for number in (HASH, HASH + 1, LAST_HASH):
            self.assertRegex(run("check", "-", stdin=with_address(number)).err, NEEDED)
            answer = run("check", "-", *NEWER, stdin=with_address(LAST_HASH + 1, 4, with_address(number)))
            self.assertEqual((answer.status, "--edition" in answer.err), (1, False))

    def test_legacy_codeplugs_with_hash_addresses(self):
        """One hint after the other, each of what comes first; the last one leads to a migrated codeplug."""
        path = self.write("plug.rtxc", with_address(HASH + 1, plug=LEGACY))
        with self.untouched():
            self.assertRegex(self.refused(7, None, "show", path), r"'codeplug check --legacy FILE' says what is wrong with it\n\Z")
            self.assertRegex(run("check", "--legacy", path).err, NEEDED)
            self.assertRegex(self.refused(8, None, "migrate", path), NEEDED)
            self.assertRegex(self.refused(7, None, "show", path, *NEWER), r"'codeplug migrate FILE' migrates it\n\Z")
        self.ok("migrate", path, *NEWER)
        self.assertEqual(path.read_bytes(), with_address(HASH + 1))

    def test_nothing_to_migrate(self):
        """A codeplug in the new order is told so by either edition, where it is its settings or traits that the legacy reading refuses."""
        path = self.write("plug.rtxc", with_address(HASH + 1))
        with self.untouched():
            for edition in (OLDER, NEWER):
                words = self.refused(7, HEADER + 2 * CONTACT + 37, "migrate", path, *edition)
                self.assertRegex(words, r"\. It is in the new order already: there is nothing to migrate\n\Z")


class Shown(Editions):
    CALLSIGNS = ["broadcast", "AB1CD", "#CREW", "# 2", "#", "#........", "-"]

    def test_table(self):
        lines = self.ok("show", self.file, "contacts", *NEWER).splitlines()
        at = lines[0].index("callsign")
        self.assertEqual([line[at:] for line in lines[1:]], self.CALLSIGNS)

    def test_programs(self):
        shown = json.loads(self.ok("show", self.file, "--json", *NEWER))["contacts"]
        self.assertEqual([c.get("callsign") for c in shown], [None, *self.CALLSIGNS[1:-1], None])
        self.assertEqual([c.get("address") for c in shown], [c.get("address") for c in parse(PLUG)["contacts"]])
        self.assertEqual([c.get("broadcast") for c in shown], [True] + [False] * 5 + [None])
        rows = list(csv.DictReader(io.StringIO(self.ok("show", self.file, "contacts", "--csv", *NEWER))))
        self.assertEqual([row["callsign"] for row in rows], [*self.CALLSIGNS[:-1], ""])

    def test_one(self):
        self.assertRegex(self.ok("show", self.file, "contact", "Crew", *NEWER), r"(?m)^callsign +#CREW$")
        self.assertRegex(self.ok("show", self.file, "contact", "Crew", *NEWER), rf"(?m)^address +{address('#CREW')}$")
        self.refused(33, 0, "show", self.file, "contact", "9", *NEWER)

    def test_alike_by_both(self):
        """What the older edition accepts the newer shows alike."""
        for name in GOOD:
            for rest in ([], ["--json"], ["contacts", "--csv"], ["channels"], ["banks"]):
                path = self.folder / f"{name}.rtxc"
                self.assertEqual(self.ok("show", path, *rest, *OLDER), self.ok("show", path, *rest, *NEWER))

    def test_diff(self):
        other = parse(PLUG)
        other["contacts"][2]["address"], other["contacts"][3]["address"] = address("#CREW 2"), address("AB1CD")
        path = self.write("other.rtxc", build(other))
        said = '~ contact 2 (Crew): callsign: "#CREW" -> "#CREW 2"\n~ contact 3 (Gate): callsign: "# 2" -> "AB1CD"\n'
        self.assertEqual(self.ok("diff", self.file, path, *NEWER), said)
        self.assertEqual(self.ok("diff", self.file, self.file, *NEWER), "")

    def test_diff_follows_hash_addresses(self):
        """Contacts without a name are told apart by their addresses."""
        plug = parse(PLUG)
        for contact in plug["contacts"][2:6]:
            contact["name"] = ""
        a = self.write("a.rtxc", build(plug))
        reorder(plug, "contacts", [0, 1, 4, 2, 3, 5, 6])
        self.assertEqual(self.ok("diff", a, self.write("b.rtxc", build(plug)), *NEWER), "> contact 4: to 2\n")


class Edited(Editions):
    def edited(self, plug, *args):
        """What a command makes of the sample, by the newer edition; undo brings it back."""
        self.assertEqual(self.ok(args[0], self.file, *args[1:], *NEWER), "")
        self.assertEqual(parse(self.file.read_bytes()), plug)
        self.ok("undo", self.file, *NEWER)
        self.assertEqual(self.file.read_bytes(), PLUG)

    def test_callsign(self):
        for text in ("#AB1", "#", "# A", "#........", "#-/.", "AB1"):
            plug = parse(PLUG)
            plug["contacts"][2]["address"] = address(text)
            self.edited(plug, "set", "contact", "Crew", "--callsign", text)
            self.edited(plug, "set", "contact", "Crew", "--address", address(text))
            self.edited(plug, "set", "contact", "Crew", "--address", hex(address(text)))

    def test_add(self):
        plug = parse(PLUG)
        plug["contacts"].append({"name": "N", "mode": "m17", "address": address("#AB1")})
        self.edited(plug, "add", "contact", "--name", "N", "--mode", "m17", "--callsign", "#AB1")
        self.edited(plug, "add", "contact", "--name", "N", "--like", "Gate", "--callsign", "#AB1")
        plug["contacts"][-1]["address"] = address("# 2")
        self.edited(plug, "add", "contact", "--name", "N", "--like", "Gate")

    def test_other_records_of_such_a_codeplug(self):
        plug = parse(PLUG)
        plug["channels"][1]["contact"] = 5
        self.edited(plug, "set", "channel", "Field crew", "--contact", "Last of all")
        plug = parse(PLUG)
        plug["header"]["author"] = "X"
        self.edited(plug, "set", "header", "--author", "X")
        plug = parse(PLUG)
        plug["contacts"][2] = {"name": "Crew", "mode": "m17", "address": BROADCAST}
        self.edited(plug, "set", "contact", "Crew", "--broadcast")

    def test_refused_by_the_older(self):
        """Of a codeplug that it accepts: the callsign, or the address, is what is refused, and every byte stays."""
        place = HEADER + 5 * CONTACT + 33
        with self.untouched():
            for args in (["set", self.club, "contact", "5"], ["add", self.club, "contact", "--name", "N", "--mode", "m17"]):
                words = self.refused(21, 0, *args, "--callsign", "#AB1")
                self.assertRegex(words, r": '#' is no character of a callsign \(.*\)" + SIGN_NEEDED)
                at = place if args[0] == "set" else place + CONTACT
                for number in (HASH, LAST_HASH):
                    self.assertRegex(self.refused(8, at, *args, "--address", number), NEEDED)
                for number, edition in ((LAST_HASH + 1, OLDER), (0, OLDER), (LAST_HASH + 1, NEWER), (0, NEWER), (BROADCAST - 1, NEWER)):
                    self.assertNotIn("--edition", self.refused(8, at, *args, "--address", number, *edition))
            self.assertRegex(self.refused(8, place, "set", self.club, "contact", "5", "--address", "0", *NEWER), r"1 to 268697599999999, and is 0\n")
            self.assertRegex(self.refused(8, place, "set", self.club, "contact", "5", "--address", "0", *OLDER), r"1 to 262143999999999, and is 0\n")

    def test_refused_by_both(self):
        with self.untouched():
            for text, number, place in (("# ", 22, 0), ("##", 21, 1), ("A#", 21, 1), ("#.........", 20, 0)):
                words = self.refused(number, place, "set", self.club, "contact", "5", "--callsign", text, *NEWER)
                self.assertNotIn("--edition", words)

    def test_broadcast_by_its_number(self):
        for edition in (OLDER, NEWER):
            self.ok("set", self.club, "contact", "5", "--address", BROADCAST, *edition)
            self.assertEqual(parse(self.club.read_bytes())["contacts"][5]["address"], BROADCAST)
            self.ok("undo", self.club, *edition)

    def test_alike_by_both(self):
        """A command that has nothing to do with hash addresses makes the same bytes, and the same history, by both."""
        for verb, *rest in [["set", "contact", "5", "--callsign", "AB2CD"], ["remove", "contact", "2"], ["move", "contact", "5", "0"], ["add", "entry", "0", "3"]]:
            made = []
            for edition in (OLDER, NEWER):
                path = self.write("plug.rtxc", CLUB)
                self.ok(verb, path, *rest, *edition)
                made.append((path.read_bytes(), (self.folder / "plug.rtxc.history").read_bytes()))
                (self.folder / "plug.rtxc.history").unlink()
            self.assertEqual(made[0], made[1])

    def test_a_chain(self):
        step = run("new", "-", *NEWER).out
        step = run("add", "-", "contact", "--name", "All", "--mode", "m17", "--callsign", "#", *NEWER, stdin=step).out
        self.assertEqual(parse(step)["contacts"], [{"name": "All", "mode": "m17", "address": HASH}])
        self.assertEqual(self.ok("check", "-", *NEWER, stdin=step), "ok 1 0 0\n")

    def test_dry_run_and_verbose(self):
        said = '~ contact 5 (Secretary): callsign: "AB1CD" -> "#AB1"\n'
        with self.untouched():
            self.assertEqual(self.ok("set", self.club, "contact", "5", "--callsign", "#AB1", "--dry-run", *NEWER), said)
        answer = run("set", self.club, "contact", "5", "--callsign", "#AB1", "--verbose", *NEWER)
        self.assertEqual((answer.status, answer.out, answer.err), (0, b"", said))


class Undone(Editions):
    """A history of the newer edition: where it goes back to a hash address, the older one is refused and leaves both files."""

    def commands(self):
        """The club's, with one renaming; then a hash address comes, and goes again, and another renaming: all states."""
        states = [CLUB]
        for args, edition in ((["rename", self.club, "bank", "0", "One"], OLDER), (["set", self.club, "contact", "5", "--callsign", "#AB1"], NEWER),
                              (["set", self.club, "contact", "5", "--callsign", "AB1CD"], NEWER), (["rename", self.club, "bank", "0", "Two"], OLDER)):
            self.ok(*args, *edition)
            states.append(self.club.read_bytes())
        return states

    def test_undo(self):
        states = self.commands()
        with self.untouched():
            for count in ("2", "3", "4", "9"):
                for more in ([], ["--dry-run"]):
                    self.assertRegex(self.refused(39, 0, "undo", self.club, "--count", count, *more), BEFORE_NEEDED)
        self.ok("undo", self.club)
        self.assertEqual(self.club.read_bytes(), states[3])
        with self.untouched():
            self.assertRegex(self.refused(39, 0, "undo", self.club), r"\Acodeplug: .*club\.rtxc" + BEFORE_NEEDED)
        self.ok("undo", self.club, *NEWER)
        self.assertEqual(self.club.read_bytes(), states[2])
        with self.untouched():
            self.assertRegex(self.refused(8, HEADER + 5 * CONTACT + 33, "undo", self.club), NEEDED)
        self.ok("undo", self.club, "--count", "2", *NEWER)
        self.assertEqual(self.club.read_bytes(), CLUB)
        self.refused(38, 0, "undo", self.club, *NEWER)

    def test_all_by_the_newer(self):
        self.commands()
        self.ok("undo", self.club, "--count", "4", *NEWER)
        self.assertEqual(self.club.read_bytes(), CLUB)

    def test_history(self):
        self.commands()
        whole = self.ok("history", self.club, *NEWER)
        self.assertEqual(re.findall(r"(?m)^\d+$", whole), ["1", "2", "3", "4"])
        self.assertIn('callsign: "AB1CD" -> "#AB1"', whole)
        with self.untouched():
            answer = run("history", self.club)
            self.assertEqual((answer.status, answer.text), (1, '1\n  ~ bank 0 (One): name: "One" -> "Two"\n'))
            self.assertRegex(answer.err, r"\Acodeplug: .*club\.rtxc" + BEFORE_NEEDED)
            self.assertEqual(self.ok("history", self.club, "--count", "1"), answer.text)

    def test_edits_of_the_older_on_top(self):
        """They keep the newer one's history below them."""
        states = self.commands()
        self.ok("set", self.club, "header", "--author", "X")
        self.ok("undo", self.club, "--count", "5", *NEWER)
        self.assertEqual(self.club.read_bytes(), states[0])

    def test_a_history_of_the_older(self):
        self.ok("rename", self.club, "bank", "0", "One")
        self.ok("rename", self.club, "bank", "0", "Two")
        self.assertEqual(self.ok("history", self.club, *OLDER), self.ok("history", self.club, *NEWER))
        self.ok("undo", self.club, "--count", "2", *NEWER)
        self.assertEqual(self.club.read_bytes(), CLUB)

    def test_a_damaged_history_is_set_aside_by_both(self):
        for edition in (OLDER, NEWER):
            self.club.write_bytes(CLUB)
            self.ok("rename", self.club, "bank", "0", "One", *edition)
            history = self.folder / "club.rtxc.history"
            head, raw = history.read_bytes().split(b"\n\n", 1)
            history.write_bytes(head + b"\n\n" + raw[:-1] + b"?")
            answer = run("undo", self.club, *edition)
            self.assertEqual((answer.status, history.exists()), (1, False))
            self.assertRegex(answer.err, r"set aside as .*\n.*refused 38 at 0")
            (self.folder / "club.rtxc.history.aside").unlink()


class Migrated(Editions):
    def test_by_both(self):
        for number in (HASH, HASH + 1, LAST_HASH):
            legacy = with_address(number, plug=LEGACY)
            path = self.write("plug.rtxc", legacy)
            with self.untouched():
                for more in ([], ["--dry-run"], ["--verbose"]):
                    self.refused(8, HEADER + 5 * CONTACT + 33, "migrate", path, *more)
                said = self.ok("migrate", path, "--dry-run", *NEWER)
            self.assertEqual(said, self.ok("migrate", "-", "--dry-run", stdin=LEGACY))
            self.assertEqual(self.ok("migrate", path, *NEWER), "")
            self.assertEqual(path.read_bytes(), with_address(number))
            self.assertEqual(run("migrate", "-", *NEWER, stdin=legacy), (0, with_address(number), ""))

    def test_alike_by_both(self):
        for edition in (OLDER, NEWER):
            self.assertEqual(run("migrate", "-", *edition, stdin=LEGACY), (0, CLUB, ""))


class Saved(saving.Case):
    """A refusal by the edition leaves codeplug and history as they are, however often it is tried."""
    content = PLUG

    def test_refused(self):
        self.edit("set", self.file, "contact", "Crew", "--callsign", "#X", *NEWER)
        with self.unchanged():
            for verb, *rest in EDITING + [["undo"], ["history"]]:
                answer = saving.run(verb, self.file, *rest)
                self.assertEqual((answer.status, answer.out), (1, b""), (verb, *rest))
                self.plain(answer.err)
        self.edit("undo", self.file, *NEWER)
        self.assertEqual(self.file.read_bytes(), PLUG)

    def test_states(self):
        """The history's own entries lead back, by the format's rule."""
        self.edit("set", self.file, "contact", "Crew", "--callsign", "#X", *NEWER)
        self.edit("remove", self.file, "contact", "Last of all", *NEWER)
        states = saving.states_of(self.file.read_bytes(), self.head())
        self.assertEqual((len(states), states[-1]), (2, PLUG))


if __name__ == "__main__":
    unittest.main()

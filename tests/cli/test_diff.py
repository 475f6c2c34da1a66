"""codeplug diff: a line for each difference between two codeplugs, with records followed where only their numbers moved."""
import re
import unittest

from common import SAMPLES, Case, build, example, parse, reorder, run

NEW_CONTACT = {"name": "Newcomer", "mode": "dmr", "id": 77, "contact_type": "group", "rx_tone": False}


def without(plug, kind, which):
    reorder(plug, kind, [n for n in range(len(plug[kind])) if n != which])


def with_new(plug, kind, place, record):
    order = list(range(len(plug[kind])))
    reorder(plug, kind, order[:place] + [None] + order[place:], record)


class Diff(Case):
    def diff(self, change, opening=None):
        """The lines of the difference between the club and the club with this change."""
        a, b = opening or example(), opening and parse(build(opening)) or example()
        change(b)
        return self.ok("diff", self.write("a", build(a)), self.write("b", build(b))).splitlines()

    def changed(self, kind, which, fields):
        def change(plug):
            record = plug["header"] if kind == "header" else plug[kind][which]
            record |= fields

        return self.diff(change)


class Same(Diff):
    def test_the_same_file(self):
        for path in sorted(self.folder.glob("[dhe]*[a-z].rtxc")):
            if run("check", path).status == 0:
                self.assertEqual(self.ok("diff", path, path), "")

    def test_equal_files(self):
        self.assertEqual(self.diff(lambda plug: None), [])

    def test_any_single_byte_is_told(self):
        """Prints nothing only where they are the same: each byte that may change in a valid codeplug makes a line."""
        club = (SAMPLES / "club.rtxc").read_bytes()
        for at in [10, 42, 74, 81, 88, 121, 125, 323, 324, 325, 328, 332, 333, 334, 335, 367, 399, 400, 402, 403, 405, 406, 407, 408, 1290]:
            for value in (club[at] ^ 1, 1 if club[at] != 1 else 2):
                spoilt = self.write("b", club[:at] + bytes([value]) + club[at + 1 :])
                if run("check", spoilt).status == 0:
                    self.assertNotEqual(self.ok("diff", self.club, spoilt), "", at)


class SameNames(Diff):
    """Contacts of one name: whom a channel calls is told all the same."""

    def opening(self):
        plug = example()
        plug["contacts"][1]["name"] = "Local"
        return plug

    def calls_of(self, change):
        return [line for line in self.diff(change, self.opening()) if line.startswith("~ channel")]

    def test_contacts_exchanged_and_channels_left(self):
        def change(plug):
            plug["contacts"][:2] = reversed(plug["contacts"][:2])

        self.assertEqual(self.calls_of(change), ["~ channel 4 (Hill local): contact: 0 (Local), now 1 -> 0 (Local)",
                                                 "~ channel 5 (Hill region): contact: 1 (Local), now 0 -> 1 (Local)"])

    def test_contacts_exchanged_and_channels_followed(self):
        self.assertEqual(self.calls_of(lambda plug: reorder(plug, "contacts", [1, 0, 2, 3, 4, 5])), [])

    def test_another_of_the_same_name(self):
        def change(plug):
            plug["channels"][4]["contact"] = 1

        self.assertEqual(self.calls_of(change), ["~ channel 4 (Hill local): contact: 0 (Local), now 0 -> 1 (Local)"])

    def test_the_one_that_was_called_is_gone(self):
        def change(plug):
            plug["channels"][4]["contact"] = None
            without(plug, "contacts", 0)
            plug["channels"][4]["contact"] = 0

        self.assertEqual(self.calls_of(change), ["~ channel 4 (Hill local): contact: 0 (Local), gone -> 0 (Local)"])


class ModesAndContacts(Diff):
    """A channel of another mode: its contact is told once."""

    def contacts_told(self, *options):
        self.ok("set", self.club, *options)
        return [line for line in self.ok("diff", self.write("a", build(example())), self.club).splitlines() if ": contact: " in line]

    def test_to_fm(self):
        self.assertEqual(self.contacts_told("channel", "4", "--mode", "fm"), ["~ channel 4 (Hill local): contact: Local -> -"])

    def test_to_m17(self):
        self.assertEqual(self.contacts_told("channel", "4", "--mode", "m17"), ["~ channel 4 (Hill local): contact: Local -> none"])

    def test_from_fm(self):
        self.assertEqual(self.contacts_told("channel", "0", "--mode", "dmr", "--contact", "1"), ["~ channel 0 (Hill): contact: - -> Regional"])

    def test_from_fm_to_nobody(self):
        self.assertEqual(self.contacts_told("channel", "0", "--mode", "dmr"), ["~ channel 0 (Hill): contact: - -> none"])

    def test_a_contact_named_as_nothing(self):
        self.ok("rename", self.club, "contact", "0", "None")
        self.assertEqual(self.contacts_told("channel", "4", "--contact", "NONE"), ["~ channel 4 (Hill local): contact: Local -> none"])
        self.ok("undo", self.club)
        self.assertIn("contact 0", self.ok("show", self.club, "channels"))


class Fields(Diff):
    def test_a_channels_field(self):
        self.assertEqual(self.changed("channels", 0, {"transmit_tone": (True, 8)}), ["~ channel 0 (Hill): transmit tone: 71.9 -> 88.5"])

    def test_every_field_has_one_line(self):
        cases = [
            ("header", None, {"author": "X"}, "header", "author", "Hilltop Radio Club", "X"),
            ("header", None, {"description": "X"}, "header", "description", "Members' set, autumn", "X"),
            ("header", None, {"timestamp": 5}, "header", "timestamp", "1762000000", "5"),
            ("contacts", 0, {"id": 10}, "contact 0 (Local)", "id", "9", "10"),
            ("contacts", 0, {"contact_type": "private"}, "contact 0 (Local)", "contact type", "group", "private"),
            ("contacts", 0, {"rx_tone": True}, "contact 0 (Local)", "rx tone", "off", "on"),
            ("contacts", 5, {"address": 1}, "contact 5 (Secretary)", "callsign|address", "AB1CD|10476881", "A|1"),
            ("channels", 3, {"description": "X"}, "channel 3 (Weather)", "description", "Listen only", "X"),
            ("channels", 3, {"receive_hz": 162_400_000}, "channel 3 (Weather)", "receive frequency", r"162\.55.*", r"162\.4.*"),
            ("channels", 3, {"transmit_hz": 162_400_000}, "channel 3 (Weather)", "transmit frequency", r"162\.55.*", r"162\.4.*"),
            ("channels", 3, {"bandwidth": "25"}, "channel 3 (Weather)", "bandwidth", "12.5.*", "25.*"),
            ("channels", 3, {"receive_only": False}, "channel 3 (Weather)", "receive only", "yes", "no"),
            ("channels", 3, {"power": 0}, "channel 3 (Weather)", "power", "37.*", "10.*"),
            ("channels", 3, {"scan_list": 1}, "channel 3 (Weather)", "scan list", "none", "1"),
            ("channels", 3, {"group_list": 1}, "channel 3 (Weather)", "group list", "none", "1"),
            ("channels", 3, {"latitude": -1}, "channel 3 (Weather)", "latitude", "0.*", r"-0\.0001"),
            ("channels", 3, {"longitude": 1}, "channel 3 (Weather)", "longitude", "0.*", r"0\.0001"),
            ("channels", 3, {"altitude": 1}, "channel 3 (Weather)", "altitude", "0", "1"),
            ("channels", 0, {"receive_tone": (True, 8)}, "channel 0 (Hill)", "receive tone", "off", "88.5"),
            ("channels", 0, {"transmit_tone": (False, 0)}, "channel 0 (Hill)", "transmit tone", "71.9", "off(:67.0)?"),
            ("channels", 0, {"transmit_tone": (False, 2)}, "channel 0 (Hill)", "transmit tone", "71.9", "off(:71.9)?"),
            ("channels", 4, {"receive_colour": 2}, "channel 4 (Hill local)", "receive colour", "1", "2"),
            ("channels", 4, {"transmit_colour": 2}, "channel 4 (Hill local)", "transmit colour", "1", "2"),
            ("channels", 4, {"slot": 2}, "channel 4 (Hill local)", "slot", "1", "2"),
            ("channels", 4, {"contact": 1}, "channel 4 (Hill local)", "contact", ".*Local.*", ".*Regional.*"),
            ("channels", 4, {"contact": None}, "channel 4 (Hill local)", "contact", ".*Local.*", "none"),
            ("channels", 7, {"receive_access": 2}, "channel 7 (M17 calling)", "receive access", "0", "2"),
            ("channels", 7, {"transmit_access": 2}, "channel 7 (M17 calling)", "transmit access", "0", "2"),
            ("channels", 7, {"operation": "data"}, "channel 7 (M17 calling)", "operation", "voice", "data"),
            ("channels", 7, {"encryption": "scrambler"}, "channel 7 (M17 calling)", "encryption", "plain", "scrambler"),
            ("channels", 7, {"position": False}, "channel 7 (M17 calling)", "position", "on", "off"),
        ]
        for kind, which, fields, record, field, old, new in cases:
            with self.subTest((record, field)):
                lines = self.changed(kind, which, fields)
                self.assertEqual(len(lines), 1, lines)
                self.assertRegex(lines[0], rf'^~ {re.escape(record)}: ({field}): "?({old})"? -> "?({new})"?$')

    def test_a_tone_that_is_off_and_keeps_another_place(self):
        lines = self.changed("channels", 3, {"receive_tone": (False, 8)})
        self.assertEqual(len(lines), 1)
        self.assertRegex(lines[0], r"^~ channel 3 \(Weather\): receive tone.*88\.5|index.*8")

    def test_several_fields(self):
        lines = self.changed("channels", 0, {"power": 0, "slot": 0, "altitude": 5})
        self.assertEqual(sorted(line.split(": ")[1] for line in lines), ["altitude", "power"])

    def test_a_name(self):
        for kind, which in (("contacts", 2), ("channels", 3), ("banks", 1)):
            lines = self.changed(kind, which, {"name": "Other"})
            self.assertEqual(len(lines), 1, lines)
            self.assertRegex(lines[0], rf"^~ {kind[:-1]} {which} \(.*\): name: .* -> .*Other")

    def test_another_mode(self):
        def change(plug):
            plug["channels"][3] = {k: v for k, v in plug["channels"][3].items() if not k.endswith("tone")} | {"mode": "dmr"}
            plug["channels"][3] |= {"receive_colour": 1, "transmit_colour": 1, "slot": 1, "contact": None}

        lines = self.diff(change)
        self.assertTrue(any(re.match(r'~ channel 3 \(Weather\): mode: "?fm"? -> "?dmr"?$', line, re.I) for line in lines), lines)


class Records(Diff):
    def test_a_contact_put_in_shifts_only_numbers(self):
        for place in range(7):
            lines = self.diff(lambda plug: with_new(plug, "contacts", place, NEW_CONTACT))
            self.assertEqual(len(lines), 1, lines)
            self.assertRegex(lines[0], rf"^\+ contact {place} \(Newcomer\)")

    def test_a_channel_put_in_shifts_only_numbers(self):
        new = example()["channels"][3] | {"name": "Newcomer", "receive_hz": 1}
        for place in range(0, 11, 2):
            lines = self.diff(lambda plug: with_new(plug, "channels", place, new))
            self.assertEqual(len(lines), 1, lines)
            self.assertRegex(lines[0], rf"^\+ channel {place} \(Newcomer\)")

    def test_a_bank_put_in(self):
        for place in range(5):
            lines = self.diff(lambda plug: with_new(plug, "banks", place, {"name": "Newcomer", "entries": []}))
            self.assertEqual(len(lines), 1, lines)
            self.assertRegex(lines[0], rf"^\+ bank {place} \(Newcomer\)")

    def test_a_contact_taken_out_shifts_only_numbers(self):
        for which, name in ((2, "Net control"), (5, "Secretary")):
            lines = self.diff(lambda plug: without(plug, "contacts", which))
            self.assertEqual(len(lines), 1, lines)
            self.assertRegex(lines[0], rf"^- contact {which} \({name}\)")

    def test_a_channel_taken_out_shifts_only_numbers(self):
        for which, name in ((3, "Weather"), (9, "South")):
            lines = self.diff(lambda plug: without(plug, "channels", which))
            self.assertEqual(len(lines), 1, lines)
            self.assertRegex(lines[0], rf"^- channel {which} \({name}\)")

    def test_a_bank_taken_out(self):
        for which, name in enumerate(("Everyday", "Digital", "Empty for now", "Favourites")):
            lines = self.diff(lambda plug: without(plug, "banks", which))
            self.assertEqual(len(lines), 1, lines)
            self.assertRegex(lines[0], rf"^- bank {which} \({name}\)")

    def test_all_of_it(self):
        lines = self.ok("diff", self.folder / "empty.rtxc", self.club).splitlines()
        added = [line for line in lines if line.startswith("+ ")]
        self.assertEqual(len(added), 6 + 10 + 4)
        self.assertEqual([line.split(":")[0] for line in lines if not line.startswith("+ ")], ["~ header"] * 3)

    def test_the_other_way_round(self):
        lines = self.ok("diff", self.club, self.folder / "empty.rtxc").splitlines()
        self.assertEqual(len([line for line in lines if line.startswith("- ")]), 6 + 10 + 4)

    def test_put_in_taken_out_and_changed_at_once(self):
        def change(plug):
            plug["channels"][5]["slot"] = 1
            without(plug, "channels", 3)
            with_new(plug, "contacts", 0, NEW_CONTACT)

        lines = self.diff(change)
        self.assertEqual(len(lines), 3, lines)
        self.assertRegex("\n".join(sorted(lines)), r"\+ contact 0 \(Newcomer\).*\n- channel 3 \(Weather\).*\n~ channel [45] \(Hill region\): slot: 2 -> 1")


class Order(Diff):
    def moved(self, kind, start, to):
        def change(plug):
            order = list(range(len(plug[kind])))
            order.insert(to, order.pop(start))
            reorder(plug, kind, order)

        return self.diff(change)

    def test_a_channel_that_moved(self):
        self.assertEqual(self.moved("channels", 3, 7), ["> channel 3 (Weather): to 7"])

    def test_one_of_each_kind(self):
        self.assertEqual(self.moved("contacts", 0, 5), ["> contact 0 (Local): to 5"])
        self.assertEqual(self.moved("channels", 9, 0), ["> channel 9 (South): to 0"])
        self.assertEqual(self.moved("banks", 3, 0), ["> bank 3 (Favourites): to 0"])

    def test_a_neighbour_is_one_line(self):
        self.assertEqual(len(self.moved("channels", 4, 5)), 1)

    def test_equal_names_are_followed_by_what_they_hold(self):
        plug = example()
        for channel in plug["channels"]:
            channel["name"] = "Same"

        def change(b):
            without(b, "channels", 3)

        lines = self.diff(change, plug)
        self.assertEqual(len(lines), 1, lines)
        self.assertRegex(lines[0], r"^- channel 3 \(Same\)")


class Entries(Diff):
    def test_an_entry_taken_out(self):
        lines = self.diff(lambda plug: plug["banks"][0]["entries"].pop(1))
        self.assertEqual(lines, ["~ bank 0 (Everyday): - entry 1, channel 1 (Hill guarded)"])

    def test_an_entry_put_in(self):
        lines = self.diff(lambda plug: plug["banks"][0]["entries"].insert(2, 9))
        self.assertEqual(lines, ["~ bank 0 (Everyday): + entry 2, channel 9 (South)"])

    def test_into_an_empty_bank(self):
        lines = self.diff(lambda plug: plug["banks"][2]["entries"].append(3))
        self.assertEqual(lines, ["~ bank 2 (Empty for now): + entry 0, channel 3 (Weather)"])

    def test_one_of_two_equal_entries(self):
        lines = self.diff(lambda plug: plug["banks"][3]["entries"].pop(0))
        self.assertEqual(len(lines), 1, lines)
        self.assertRegex(lines[0], r"^~ bank 3 \(Favourites\): - entry [01], channel 0 \(Hill\)$")

    def test_an_entry_that_names_another_channel(self):
        lines = self.diff(lambda plug: plug["banks"][1]["entries"].__setitem__(0, 3))
        self.assertEqual(sorted(line.split(": ", 1)[1] for line in lines), ["+ entry 0, channel 3 (Weather)", "- entry 0, channel 4 (Hill local)"])


class Input(Diff):
    def test_standard_input_on_either_side(self):
        club = self.club.read_bytes()
        self.assertEqual(self.ok("diff", "-", self.club, stdin=club), "")
        self.assertEqual(self.ok("diff", self.club, "-", stdin=club), "")

    def test_a_refused_file_is_named(self):
        for args in ((self.club, self.folder / "club-cut.rtxc"), (self.folder / "club-cut.rtxc", self.club)):
            self.assertIn("club-cut.rtxc", self.refused(2, 997, "diff", *args))

    def test_a_file_that_is_not_there(self):
        for args in ((self.club, "nowhere"), ("nowhere", self.club)):
            self.assertIn("nowhere", self.usage("diff", *args))

    def test_wrong_usage(self):
        for args in ([], [self.club], [self.club] * 3, [self.club, self.club, "--json"], [self.club, ""]):
            self.usage("diff", *args)

    def test_nothing_is_changed(self):
        with self.untouched():
            self.ok("diff", self.club, self.folder / "hire.rtxc")


if __name__ == "__main__":
    unittest.main()

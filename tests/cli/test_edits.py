"""codeplug new, set, add, remove, rename, move and undo: what each makes of a codeplug, byte for byte by this folder's own writer, and every
refusal and wrong usage, which leave the folder as it was."""
import copy
import itertools
import time
import unittest

from common import BROADCAST, CHANNEL, CONTACT, HEADER, SAMPLES, TONES, Case, address, build, example, longest, parse, reorder, run

CLUB = (SAMPLES / "club.rtxc").read_bytes()
EMPTY = (SAMPLES / "empty.rtxc").read_bytes()


def contact_at(n):
    return HEADER + CONTACT * n


def channel_at(n, contacts=6):
    return HEADER + CONTACT * contacts + CHANNEL * n


def bank_at(n):
    """The place of bank n of the club."""
    return channel_at(10) + 4 * 4 + sum(34 + 2 * entries for entries in (5, 5, 0, 3)[:n])


FM = {"description": "", "mode": "fm", "bandwidth": "12.5", "receive_only": False, "power": 0, "scan_list": 0, "group_list": 0}
FM |= {"latitude": 0, "longitude": 0, "altitude": 0, "receive_tone": (False, 0), "transmit_tone": (False, 0)}
COMMON = {k: v for k, v in FM.items() if not k.endswith("tone")}
DMR_INFO = {"receive_colour": 1, "transmit_colour": 1, "slot": 1, "contact": None}
M17_INFO = {"receive_access": 0, "transmit_access": 0, "operation": "voice", "encryption": "plain", "position": False, "contact": None}
DMR, M17 = COMMON | {"mode": "dmr"} | DMR_INFO, COMMON | {"mode": "m17"} | M17_INFO


class Edits(Case):
    def becomes(self, plug, *args, opening=CLUB):
        """The command, from standard input to standard output, makes this codeplug of the opening one."""
        verb, *rest = args
        answer = run(verb, "-", *rest, stdin=opening)
        self.assertEqual((answer.status, answer.err), (0, ""), args)
        self.assertEqual(parse(answer.out), plug, args)
        self.assertEqual(answer.out, build(plug), args)

    def changes(self, kind, which, fields, *args):
        """'set' changes just these fields of that record."""
        plug = example()
        record = plug["header"] if kind == "header" else plug[kind + "s"][which]
        record |= fields
        self.becomes(plug, "set", kind, *([] if which is None else [which]), *args)

    def adds(self, kind, place, record, *args):
        """'add' puts this record at the place, and the others make room."""
        plug = example()
        order = list(range(len(plug[kind + "s"])))
        reorder(plug, kind + "s", order[:place] + [None] + order[place:], record)
        self.becomes(plug, "add", kind, *args)


# ---- set: every option ----

HEADERS = [
    (["--author", "A. Author"], {"author": "A. Author"}),
    (["--author", "x" * 32], {"author": "x" * 32}),
    (["--author", "~ !"], {"author": "~ !"}),
    (["--no-author"], {"author": ""}),
    (["--description", "New"], {"description": "New"}),
    (["--no-description"], {"description": ""}),
    (["--timestamp", "7"], {"timestamp": 7}),
    (["--timestamp", "0"], {"timestamp": 0}),
    (["--timestamp", str(2**64 - 1)], {"timestamp": 2**64 - 1}),
    (["--author", "A", "--no-description", "--timestamp", "1"], {"author": "A", "description": "", "timestamp": 1}),
]
CONTACTS = [
    (0, ["--name", "Here"], {"name": "Here"}),
    (0, ["--no-name"], {"name": ""}),
    (0, ["--id", "4294967295"], {"id": 4294967295}),
    (0, ["--id", "0"], {"id": 0}),
    (0, ["--contact-type", "group"], {"contact_type": "group"}),
    (0, ["--contact-type", "private"], {"contact_type": "private"}),
    (0, ["--contact-type", "all-call"], {"contact_type": "all-call"}),
    (0, ["--rx-tone", "on"], {"rx_tone": True}),
    (2, ["--rx-tone", "off"], {"rx_tone": False}),
    (0, ["--mode", "dmr"], {}),
    (5, ["--mode", "m17"], {}),
    (5, ["--callsign", "DL0AB/P"], {"address": address("DL0AB/P")}),
    (5, ["--callsign", " A.-/ 9Z0"], {"address": address(" A.-/ 9Z0")}),
    (5, ["--broadcast"], {"address": BROADCAST}),
    (3, ["--callsign", "A"], {"address": 1}),
    (5, ["--address", "10476882"], {"address": 10476882}),
    (5, ["--address", "0x9FDD11"], {"address": 0x9FDD11}),
    (5, ["--address", str(40**9 - 1)], {"address": 40**9 - 1}),
]
CHANNELS = [
    (3, ["--name", "Storms"], {"name": "Storms"}),
    (3, ["--no-name"], {"name": ""}),
    (3, ["--description", "x" * 32], {"description": "x" * 32}),
    (3, ["--no-description"], {"description": ""}),
    (3, ["--receive-frequency", "145.6"], {"receive_hz": 145_600_000}),
    (3, ["--receive-frequency", "145.600001"], {"receive_hz": 145_600_001}),
    (3, ["--receive-frequency", "145600.5kHz"], {"receive_hz": 145_600_500}),
    (3, ["--receive-frequency", "145600001Hz"], {"receive_hz": 145_600_001}),
    (3, ["--receive-frequency", "4294.967295"], {"receive_hz": 2**32 - 1}),
    (3, ["--transmit-frequency", "433.475"], {"transmit_hz": 433_475_000}),
    (3, ["--transmit-frequency", "433475kHz"], {"transmit_hz": 433_475_000}),
    (3, ["--bandwidth", "12.5"], {"bandwidth": "12.5"}),
    (3, ["--bandwidth", "20"], {"bandwidth": "20"}),
    (3, ["--bandwidth", "25"], {"bandwidth": "25"}),
    (3, ["--receive-only", "no"], {"receive_only": False}),
    (0, ["--receive-only", "yes"], {"receive_only": True}),
    (3, ["--power", "10"], {"power": 0}),
    (3, ["--power", "10.2"], {"power": 1}),
    (3, ["--power", "61"], {"power": 255}),
    (3, ["--power", "37.4"], {"power": 137}),
    (3, ["--scan-list", "1"], {"scan_list": 1}),
    (3, ["--scan-list", "250"], {"scan_list": 250}),
    (3, ["--scan-list", "none"], {"scan_list": 0}),
    (3, ["--group-list", "128"], {"group_list": 128}),
    (3, ["--group-list", "none"], {"group_list": 0}),
    (3, ["--latitude", "90"], {"latitude": 900_000}),
    (3, ["--latitude", "-90"], {"latitude": -900_000}),
    (3, ["--latitude", "-0.0001"], {"latitude": -1}),
    (3, ["--latitude", "44.4939"], {"latitude": 444_939}),
    (3, ["--latitude", "-89.9999"], {"latitude": -899_999}),
    (3, ["--longitude", "-128"], {"longitude": -1_280_000}),
    (3, ["--longitude", "127.9999"], {"longitude": 1_279_999}),
    (3, ["--longitude", "-11.5"], {"longitude": -115_000}),
    (3, ["--altitude", "-500"], {"altitude": -500}),
    (3, ["--altitude", "65035"], {"altitude": 65035}),
    (0, ["--receive-tone", "88.5"], {"receive_tone": (True, 8)}),
    (0, ["--transmit-tone", "100"], {"transmit_tone": (True, 12)}),
    (0, ["--transmit-tone", "off"], {"transmit_tone": (False, 2)}),
    (0, ["--transmit-tone", "off:88.5"], {"transmit_tone": (False, 8)}),
    (3, ["--receive-tone", "off"], {"receive_tone": (False, 0)}),
    (4, ["--receive-colour", "15"], {"receive_colour": 15}),
    (4, ["--receive-colour", "0"], {"receive_colour": 0}),
    (4, ["--transmit-colour", "7"], {"transmit_colour": 7}),
    (4, ["--slot", "2"], {"slot": 2}),
    (4, ["--contact", "none"], {"contact": None}),
    (4, ["--contact", "2"], {"contact": 2}),
    (4, ["--contact", "Regional"], {"contact": 1}),
    (4, ["--contact", "=Net control"], {"contact": 2}),
    (7, ["--receive-access", "15"], {"receive_access": 15}),
    (7, ["--transmit-access", "9"], {"transmit_access": 9}),
    (7, ["--operation", "voice"], {"operation": "voice"}),
    (7, ["--operation", "data"], {"operation": "data"}),
    (7, ["--operation", "both"], {"operation": "both"}),
    (7, ["--encryption", "aes-256"], {"encryption": "aes-256"}),
    (7, ["--encryption", "scrambler"], {"encryption": "scrambler"}),
    (7, ["--encryption", "plain"], {"encryption": "plain"}),
    (7, ["--position", "off"], {"position": False}),
    (8, ["--position", "on"], {"position": True}),
    (7, ["--contact", "none"], {"contact": None}),
    (9, ["--contact", "Secretary"], {"contact": 5}),
    (3, ["--transmit-tone", "88.5", "--contact", "none"], {"transmit_tone": (True, 8)}),
    (7, ["--transmit-tone", "off", "--receive-tone", "off", "--contact", "none"], {"contact": None}),
    (7, ["--transmit-tone", "Off", "--contact", "NONE"], {"contact": None}),
    (0, ["--transmit-tone", "OFF:88.5", "--scan-list", "None", "--receive-only", "YES"], {"transmit_tone": (False, 8), "receive_only": True}),
    (0, ["--transmit-tone", "100.0Hz", "--bandwidth", "25kHz", "--power", "37.4 dbm"], {"transmit_tone": (True, 12), "bandwidth": "25", "power": 137}),
]


class Set(Edits):
    def test_header(self):
        for args, fields in HEADERS:
            with self.subTest(args):
                self.changes("header", None, fields, *args)

    def test_contact(self):
        for which, args, fields in CONTACTS:
            with self.subTest(args):
                self.changes("contact", which, fields, *args)

    def test_channel(self):
        for which, args, fields in CHANNELS:
            with self.subTest(args):
                self.changes("channel", which, fields, *args)

    def test_every_tone(self):
        for index in (0, 1, 25, 30, 49):
            self.changes("channel", 0, {"receive_tone": (True, index)}, "--receive-tone", TONES[index])

    def test_bank_name(self):
        self.changes("bank", 1, {"name": "Data"}, "--name", "Data")

    def test_nothing_changed(self):
        """Done, and nothing is written."""
        for args in (["set", "channel", "3", "--receive-only", "yes"], ["rename", "bank", "0", "Everyday"], ["move", "bank", "0", "0"]):
            with self.untouched():
                self.assertEqual(self.ok(args[0], self.club, *args[1:]), "")

    def test_the_number_of_broadcast(self):
        self.changes("contact", 5, {"address": BROADCAST}, "--address", "0xFFFFFFFFFFFF")

    def test_several_fields_at_once(self):
        fields = {"name": "R2", "receive_hz": 145_650_000, "transmit_hz": 145_050_000, "transmit_tone": (True, 8), "power": 60}
        args = ["--name", "R2", "--receive-frequency", "145.65", "--transmit-frequency", "145.05", "--transmit-tone", "88.5", "--power", "22"]
        self.changes("channel", 0, fields, *args)

    def test_the_record_by_name(self):
        self.becomes(parse(CLUB), "set", "channel", "Weather", "--name", "Weather")
        for which in ("Weather", "=Weather", "3"):
            plug = example()
            plug["channels"][3]["power"] = 5
            self.becomes(plug, "set", "channel", which, "--power", "11")

    def test_the_receive_frequency_leaves_the_transmit_frequency(self):
        self.changes("channel", 0, {"receive_hz": 145_700_000}, "--receive-frequency", "145.7")

    def test_timestamp_now(self):
        answer = run("set", "-", "header", "--timestamp", "now", stdin=CLUB)
        self.assertLess(abs(parse(answer.out)["header"]["timestamp"] - time.time()), 60)

    def test_no_other_edit_touches_the_timestamp(self):
        self.ok("rename", self.club, "channel", "0", "X")
        self.assertEqual(parse(self.club.read_bytes())["header"], example()["header"])


class Modes(Edits):
    def becomes_of_mode(self, which, info, *args):
        """The channel keeps what every mode has, and has these fields of the new mode."""
        plug = example()
        record = plug["channels"][which]
        plug["channels"][which] = {k: record[k] for k in COMMON | {"name": 0, "receive_hz": 0, "transmit_hz": 0}} | info
        self.becomes(plug, "set", "channel", which, *args)

    def test_a_channel_of_another_mode_begins_as_add_begins_it(self):
        tones = {"receive_tone": (False, 0), "transmit_tone": (False, 0)}
        for which, mode, info in ((0, "dmr", DMR_INFO), (0, "m17", M17_INFO), (4, "fm", tones), (4, "m17", M17_INFO), (7, "fm", tones), (7, "dmr", DMR_INFO)):
            with self.subTest((which, mode)):
                self.becomes_of_mode(which, {"mode": mode} | info, "--mode", mode)

    def test_with_fields_of_the_new_mode(self):
        dmr, fm = DMR_INFO | {"mode": "dmr", "slot": 2, "contact": 1}, {"mode": "fm", "receive_tone": (True, 8), "transmit_tone": (False, 0)}
        self.becomes_of_mode(0, dmr, "--mode", "dmr", "--slot", "2", "--contact", "Regional")
        self.becomes_of_mode(4, fm, "--receive-tone", "88.5", "--mode", "fm")

    def test_the_mode_that_it_has(self):
        for which, mode in ((0, "fm"), (4, "dmr"), (7, "m17")):
            self.changes("channel", which, {}, "--mode", mode)

    def test_a_contact_to_m17(self):
        plug = example()
        plug["contacts"][2] = {"name": "Net control", "mode": "m17", "address": 1}
        self.becomes(plug, "set", "contact", "2", "--mode", "m17", "--callsign", "A")

    def test_a_contact_to_dmr(self):
        plug = example()
        plug["contacts"][5] = {"name": "Secretary", "mode": "dmr", "id": 5, "contact_type": "group", "rx_tone": False}
        self.becomes(plug, "set", "contact", "5", "--mode", "dmr", "--id", "5")

    def test_a_contact_needs_its_new_modes_number(self):
        self.usage("set", "-", "contact", "2", "--mode", "m17", stdin=CLUB)
        self.usage("set", "-", "contact", "5", "--mode", "dmr", stdin=CLUB)

    def test_a_contact_that_channels_call_keeps_its_mode(self):
        self.refused(9, channel_at(4) + 87, "set", "-", "contact", "0", "--mode", "m17", "--callsign", "A", stdin=CLUB)


# ---- add ----

EVERY = ["--name", "N", "--description", "D", "--receive-frequency", "145.6", "--transmit-frequency", "145", "--bandwidth", "25"]
EVERY += ["--receive-only", "yes", "--power", "20", "--scan-list", "3", "--group-list", "4", "--latitude", "-1.5", "--longitude", "2.25", "--altitude", "9"]
EVERY_FIELD = {"name": "N", "description": "D", "receive_hz": 145_600_000, "transmit_hz": 145_000_000, "bandwidth": "25", "receive_only": True}
EVERY_FIELD |= {"power": 50, "scan_list": 3, "group_list": 4, "latitude": -15_000, "longitude": 22_500, "altitude": 9}
EVERY_FM = {"receive_tone": (True, 1), "transmit_tone": (False, 2)}
EVERY_DMR = {"receive_colour": 2, "transmit_colour": 3, "slot": 2, "contact": 1}
EVERY_M17 = {"receive_access": 2, "transmit_access": 3, "operation": "both", "encryption": "scrambler", "position": True, "contact": 4}


class Add(Edits):
    def test_a_channel_with_only_what_is_needed(self):
        needed = ["--name", "New", "--receive-frequency", "145.6"]
        fields = {"name": "New", "receive_hz": 145_600_000, "transmit_hz": 145_600_000}
        for mode, begins in (("fm", FM), ("dmr", DMR), ("m17", M17)):
            with self.subTest(mode):
                self.adds("channel", 10, begins | fields, "--mode", mode, *needed)

    def test_a_channel_with_every_field(self):
        fm = ["--mode", "fm", "--receive-tone", "69.3", "--transmit-tone", "off:71.9"]
        dmr = ["--mode", "dmr", "--receive-colour", "2", "--transmit-colour", "3", "--slot", "2", "--contact", "Regional"]
        m17 = ["--mode", "m17", "--receive-access", "2", "--transmit-access", "3", "--operation", "both", "--encryption", "scrambler"]
        m17 += ["--position", "on", "--contact", "Reflector"]
        for mode, args, info in (("fm", fm, EVERY_FM), ("dmr", dmr, EVERY_DMR), ("m17", m17, EVERY_M17)):
            with self.subTest(mode):
                self.adds("channel", 10, EVERY_FIELD | info | {"mode": mode}, *args, *EVERY)

    def test_contacts(self):
        dmr = {"name": "N", "mode": "dmr", "id": 7, "contact_type": "group", "rx_tone": False}
        m17 = {"name": "N", "mode": "m17", "address": 1}
        named = ["--name", "N", "--mode"]
        cases = [(dmr, [*named, "dmr", "--id", "7"]), (m17, [*named, "m17", "--callsign", "A"]), (m17, [*named, "m17", "--address", "1"])]
        cases += [(dmr | {"contact_type": "private", "rx_tone": True}, [*named, "dmr", "--id", "7", "--contact-type", "private", "--rx-tone", "on"])]
        cases += [(m17 | {"address": BROADCAST}, [*named, "m17", "--broadcast"]), (dmr | {"name": ""}, ["--no-name", "--mode", "dmr", "--id", "7"])]
        for record, args in cases:
            with self.subTest(args):
                self.adds("contact", 6, record, *args)

    def test_at_every_place_references_are_followed(self):
        contact = {"name": "N", "mode": "m17", "address": 1}
        for place in range(7):
            self.adds("contact", place, contact, "--at", place, "--name", "N", "--mode", "m17", "--callsign", "A")
        for place in range(11):
            fields = {"name": "N", "receive_hz": 1_000_000, "transmit_hz": 1_000_000}
            self.adds("channel", place, FM | fields, "--at", place, "--name", "N", "--mode", "fm", "--receive-frequency", "1")

    def test_a_new_channels_contact_is_meant_as_it_was(self):
        fields = {"name": "N", "receive_hz": 1_000_000, "transmit_hz": 1_000_000, "contact": 2}
        args = ["--at", "0", "--name", "N", "--mode", "dmr", "--receive-frequency", "1", "--contact", "Net control"]
        self.adds("channel", 0, DMR | fields, *args)

    def test_banks(self):
        for place in range(5):
            self.adds("bank", place, {"name": "New", "entries": []}, "--name", "New", "--at", place)
        self.adds("bank", 4, {"name": "New", "entries": []}, "--name", "New")
        self.adds("bank", 4, {"name": "", "entries": []}, "--no-name")

    def test_entries(self):
        cases = [(["0", "3"], 0, 5, 3), (["Everyday", "Weather"], 0, 5, 3), (["=Everyday", "=Weather", "--at", "0"], 0, 0, 3)]
        cases += [(["2", "9"], 2, 0, 9), (["3", "0", "--at", "2"], 3, 2, 0), (["3", "0", "--at", "3"], 3, 3, 0), (["0", "0", "--at", "1"], 0, 1, 0)]
        for args, bank, place, channel in cases:
            with self.subTest(args):
                plug = example()
                plug["banks"][bank]["entries"].insert(place, channel)
                self.becomes(plug, "add", "entry", *args)

    def test_like_gives_every_field(self):
        for kind, count in (("contact", 6), ("channel", 10)):
            for which in range(count):
                record = copy.deepcopy(example()[kind + "s"][which])
                self.adds(kind, count, record | {"name": "Copy"}, "--like", which, "--name", "Copy")

    def test_like_with_nothing_else_is_a_copy(self):
        self.adds("channel", 10, example()["channels"][0], "--like", "Hill")
        self.adds("contact", 0, example()["contacts"][4], "--like", "Reflector", "--at", "0")

    def test_like_and_fields(self):
        record = example()["channels"][5] | {"name": "N", "slot": 1, "contact": None}
        self.adds("channel", 0, record, "--like", "Hill region", "--at", "0", "--slot", "1", "--contact", "none", "--name", "N")

    def test_like_and_another_mode(self):
        like = {k: v for k, v in example()["channels"][0].items() if not k.endswith("tone")}
        self.adds("channel", 10, like | {"mode": "dmr"} | DMR_INFO, "--like", "0", "--mode", "dmr")

    def test_the_mode_is_asked_for_first(self):
        for args in (["contact", "--name", "x", "--callsign", "AB"], ["contact", "--name", "x"], ["channel", "--no-name", "--slot", "1"]):
            self.assertIn(f"a new {args[0]} needs --mode", self.usage("add", self.club, *args))

    def test_into_an_empty_codeplug(self):
        plug = parse(EMPTY)
        plug["banks"] = [{"name": "First", "entries": []}]
        self.becomes(plug, "add", "bank", "--name", "First", opening=EMPTY)

    def test_what_is_needed(self):
        contact, channel = ["--name", "N", "--mode"], ["--name", "N", "--mode", "fm", "--receive-frequency", "1"]
        cases = [["contact", *contact, "dmr"], ["contact", *contact, "m17"], ["contact", "--name", "N", "--id", "1"], ["contact", "--mode", "dmr", "--id", "1"]]
        cases += [["channel", *channel[:4]], ["channel", *channel[:2], *channel[4:]], ["channel", *channel[2:]], ["bank"], ["entry"], ["entry", "0"], []]
        for args in cases:
            with self.subTest(args):
                self.usage("add", "-", *args, stdin=CLUB)


# ---- remove and rename ----


class Remove(Edits):
    def removes(self, kind, which, *args, opening=None):
        plug = opening or example()
        before = build(plug)
        reorder(plug, kind + "s", [n for n in range(len(plug[kind + "s"])) if n != which])
        self.becomes(plug, "remove", kind, *args, opening=before)

    def test_contacts_that_nobody_calls(self):
        self.removes("contact", 2, "2")
        self.removes("contact", 5, "Secretary")

    def test_channels_that_no_bank_names(self):
        self.removes("channel", 3, "Weather")
        self.removes("channel", 9, "=South")

    def test_the_references_are_followed(self):
        for which in range(6):
            plug = example()
            for channel in plug["channels"]:
                if channel.get("contact") == which:
                    channel["contact"] = None
            self.removes("contact", which, which, opening=plug)
        for which in range(10):
            plug = example()
            for bank in plug["banks"]:
                bank["entries"] = [e for e in bank["entries"] if e != which]
            self.removes("channel", which, which, opening=plug)

    def test_banks_and_their_entries(self):
        for which, name in enumerate(("Everyday", "Digital", "Empty for now", "Favourites")):
            self.removes("bank", which, which)
            self.removes("bank", which, name)

    def test_entries(self):
        for bank, place in [(0, 0), (0, 4), (1, 2), (3, 0), (3, 1), (3, 2)]:
            plug = example()
            del plug["banks"][bank]["entries"][place]
            self.becomes(plug, "remove", "entry", bank, place)

    def test_in_use_and_who_uses_it(self):
        cases = [("contact", "Local", "channel 4 (Hill local)"), ("contact", "1", "channel 5 (Hill region)"), ("contact", "3", "channel 7 (M17 calling)")]
        cases += [("channel", "1", "bank 0 (Everyday)"), ("channel", "Simplex DMR", "bank 1 (Digital)"), ("channel", "0", "bank 0 (Everyday)")]
        for kind, which, user in cases:
            with self.subTest((kind, which)):
                self.assertIn(user, self.refused(35, 0, "remove", "-", kind, which, stdin=CLUB))

    def test_all_who_use_it_are_named_or_counted(self):
        words = self.refused(35, 0, "remove", "-", "channel", "0", stdin=CLUB)
        self.assertRegex(words, r"bank 3 \(Favourites\)|\b2 banks|\b3 entries|\b1 other|\b1 more|and others")


class Rename(Edits):
    def test_each_kind(self):
        for kind, which, old in (("contact", 2, "Net control"), ("channel", 3, "Weather"), ("bank", 1, "Digital")):
            for by in (which, old, "=" + old):
                plug = example()
                plug[kind + "s"][which]["name"] = "New name"
                self.becomes(plug, "rename", kind, by, "New name")

    def test_no_name(self):
        for kind, which in (("contact", 2), ("channel", 3), ("bank", 1)):
            plug = example()
            plug[kind + "s"][which]["name"] = ""
            self.becomes(plug, "rename", kind, which, "--no-name")

    def test_all_32_characters(self):
        plug = example()
        plug["banks"][0]["name"] = "x" * 32
        self.becomes(plug, "rename", "bank", "0", "x" * 32)

    def test_a_name_that_looks_like_something_else(self):
        for name in ("3", "=x", "none", "off", " ", "a=b", '"', "\\", "0x1"):
            with self.subTest(name):
                plug = example()
                plug["channels"][3]["name"] = name
                self.becomes(plug, "rename", "channel", "3", name)


# ---- names ----


class Which(Edits):
    def opening(self):
        """The club with names that look like something else, or that two have, or that are empty."""
        plug = example()
        for place, name in ((3, "7"), (5, "Calling"), (6, "none")):
            plug["channels"][place]["name"] = name
        plug["contacts"][0]["name"] = plug["contacts"][1]["name"] = "Twin"
        plug["contacts"][2]["name"] = "none"
        plug["contacts"][5]["name"] = ""
        return plug

    def sets(self, which, place):
        plug = self.opening()
        opening = build(plug)
        plug["channels"][place]["power"] = 5
        self.becomes(plug, "set", "channel", which, "--power", "11", opening=opening)

    def test_a_number_is_a_place(self):
        self.sets("7", 7)

    def test_a_number_after_an_equals_sign_is_a_name(self):
        self.sets("=7", 3)

    def test_a_name_that_two_have(self):
        for which in ("Calling", "=Calling"):
            words = self.usage("set", "-", "channel", which, "--power", "11", stdin=build(self.opening()))
            self.assertRegex(words, r"\b2\b.*\b5\b")

    def test_a_name_that_nobody_has(self):
        for kind, which in itertools.product(("contact", "channel", "bank"), ("Nobody", "=Nobody", "weather", "Weathe", "=")):
            with self.subTest((kind, which)):
                self.usage("set", "-", kind, which, "--name", "x", stdin=CLUB)

    def test_a_contact_by_a_name_that_two_have(self):
        self.usage("set", "-", "channel", "4", "--contact", "Twin", stdin=build(self.opening()))

    def test_a_contact_that_is_called_none(self):
        for word, contact in (("none", None), ("=none", 2)):
            plug = self.opening()
            opening = build(plug)
            plug["channels"][4]["contact"] = contact
            self.becomes(plug, "set", "channel", "4", "--contact", word, opening=opening)

    def test_names_are_looked_for_in_their_own_kind(self):
        self.usage("set", "-", "contact", "Weather", "--name", "x", stdin=CLUB)


# ---- refusals ----

LONG, FOREIGN = "x" * 33, ["a\nb", "\x7f", "caf\u00e9", "\t"]
TEXTS = {
    ("set", "header", "--author"): 10,
    ("set", "header", "--description"): 42,
    ("set", "contact", "1", "--name"): contact_at(1),
    ("rename", "contact", "1"): contact_at(1),
    ("add", "contact", "--like", "0", "--name"): contact_at(6),
    ("set", "channel", "1", "--name"): channel_at(1) + 13,
    ("set", "channel", "1", "--description"): channel_at(1) + 45,
    ("rename", "channel", "1"): channel_at(1) + 13,
    ("add", "channel", "--at", "2", "--like", "0", "--description"): channel_at(2) + 45,
    ("set", "bank", "1", "--name"): bank_at(1),
    ("rename", "bank", "1"): bank_at(1),
    ("add", "bank", "--at", "1", "--name"): bank_at(1) + 4,
    ("add", "bank", "--name"): len(CLUB) + 4,
}
SEVEN = [
    (["set", "channel", "3", "--scan-list", "251"], channel_at(3) + 11),
    (["set", "channel", "3", "--scan-list", "255"], channel_at(3) + 11),
    (["set", "channel", "3", "--group-list", "129"], channel_at(3) + 12),
    (["set", "channel", "3", "--latitude", "91"], channel_at(3) + 77),
    (["set", "channel", "3", "--latitude", "-90.0001"], channel_at(3) + 77),
    (["set", "channel", "3", "--latitude", "90.0001"], channel_at(3) + 78),
    (["set", "channel", "4", "--slot", "3"], channel_at(4) + 86),
    (["set", "channel", "4", "--slot", "0"], channel_at(4) + 86),
    (["set", "channel", "4", "--receive-colour", "16"], channel_at(4) + 85),
    (["set", "channel", "7", "--transmit-access", "16"], channel_at(7) + 85),
    (["add", "channel", "--like", "0", "--at", "3", "--group-list", "129"], channel_at(3) + 12),
    (["add", "channel", "--like", "4", "--slot", "3"], channel_at(10) + 86),
]
NINE = [
    (["set", "channel", "4", "--contact", "Everyone"], channel_at(4) + 87),
    (["set", "channel", "4", "--contact", "3"], channel_at(4) + 87),
    (["set", "channel", "4", "--contact", "6"], channel_at(4) + 87),
    (["set", "channel", "7", "--contact", "Local"], channel_at(7) + 88),
    (["set", "channel", "7", "--contact", "65534"], channel_at(7) + 88),
    (["add", "channel", "--like", "7", "--contact", "0"], channel_at(10) + 88),
]
EIGHT = [
    (["set", "contact", "5", "--address", "0"], contact_at(5) + 33),
    (["add", "contact", "--name", "x", "--mode", "m17", "--address", "0"], contact_at(6) + 33),
]
ELEVEN = [
    (["add", "entry", "0", None], bank_at(0) + 34 + 10),
    (["add", "entry", "1", None, "--at", "0"], bank_at(1) + 34),
]
NO_PLACE = [
    ["set", "contact", "6", "--name", "x"], ["set", "channel", "10", "--name", "x"], ["set", "bank", "4", "--name", "x"],
    ["rename", "contact", "6", "x"], ["rename", "channel", "99", "x"], ["rename", "bank", "65535", "x"],
    ["remove", "contact", "6"], ["remove", "channel", "10"], ["remove", "bank", "4"], ["remove", "entry", "0", "5"], ["remove", "entry", "4", "0"],
    ["remove", "entry", "2", "0"], ["add", "entry", "4", "0"], ["add", "entry", "0", "0", "--at", "6"],
    ["add", "contact", "--like", "0", "--at", "7"], ["add", "channel", "--like", "0", "--at", "11"], ["add", "bank", "--name", "x", "--at", "5"],
    ["add", "contact", "--like", "6"], ["add", "channel", "--like", "10"],
    ["move", "contact", "6", "0"], ["move", "contact", "0", "6"], ["move", "channel", "10", "0"], ["move", "channel", "0", "10"],
    ["move", "bank", "4", "0"], ["move", "bank", "0", "4"], ["move", "entry", "0", "5", "0"], ["move", "entry", "0", "0", "5"], ["move", "entry", "4", "0", "0"],
]


class Refusals(Edits):
    def refuses(self, number, place, args, words=""):
        """The command on the club's file is refused, in these words among others, and leaves the folder as it was."""
        verb, *rest = args
        with self.subTest(args), self.untouched():
            self.assertIn(words, self.refused(number, place, verb, self.club, *rest))

    def test_5_text(self):
        for args in TEXTS:
            for text in FOREIGN + [LONG]:
                self.refuses(5, None, [*args, text])

    def test_7_and_9_with_the_field_in_words(self):
        for number, cases in ((7, SEVEN), (9, NINE)):
            for args, _ in cases:
                self.refuses(number, None, args, args[-2][2:].replace("-", " "))

    def test_numbers_that_no_field_holds(self):
        for option in ("--scan-list", "--group-list", "--slot", "--receive-colour", "--transmit-colour"):
            for number in ("16", "256", "1000", str(2**64))["colour" not in option :]:
                with self.untouched():
                    answer = run("set", self.club, "channel", "4", option, number)
                    self.assertIn((answer.status, answer.err.count("\n")), [(1, 1), (2, 1)], (option, number))
                    self.assertNotIn("is no number (", answer.err)

    def test_no_number_is_nobody(self):
        for number in ("65535", "65536", "131071", str(2**64 - 1)):
            with self.untouched():
                answer = run("set", self.club, "channel", "4", "--contact", number)
                self.assertIn((answer.status, answer.err.count("\n")), [(1, 1), (2, 1)], number)

    def test_8_address(self):
        for number in ("0", str(40**9), str(BROADCAST - 1), "0x0"):
            self.refuses(8, None, ["set", "contact", "5", "--address", number])
        self.refuses(8, None, ["add", "contact", "--name", "x", "--mode", "m17", "--address", "0"])

    def test_11_entry(self):
        for which in ("10", "65535"):
            for args, _ in ELEVEN:
                self.refuses(11, None, [arg or which for arg in args])

    def test_20_21_22_callsign(self):
        for text, number, place in (("ABCDEFGHIJ", 20, 0), ("ab1cd", 21, 0), ("AB_", 21, 2), ("A\u00e9", 21, 1), ("A ", 22, 0), (" ", 22, 0)):
            self.refuses(number, place, ["set", "contact", "5", "--callsign", text])
        self.refuses(21, 0, ["add", "contact", "--name", "x", "--mode", "m17", "--callsign", "!"])

    def test_33_no_such_place(self):
        for args in NO_PLACE:
            self.refuses(33, 0, args)

    def test_34_a_bank_of_65535_entries(self):
        plug = example()
        plug["banks"][0]["entries"] = [0] * 65535
        path = self.write("full", build(plug))
        with self.untouched():
            self.refused(34, 0, "add", path, "entry", "0", "1")
            self.refused(34, 0, "add", path, "entry", "0", "1", "--at", "0")

    def test_35_in_use(self):
        self.refuses(35, 0, ["remove", "contact", "0"], "channel 4 (Hill local)")
        self.refuses(35, 0, ["remove", "channel", "0"], "bank 0 (Everyday)")

    def test_1_longer_than_the_limit(self):
        path = self.write("limit", longest())
        with self.untouched():
            self.refused(1, 0, "add", path, "contact", "--name", "x", "--mode", "dmr", "--id", "1")
            self.refused(1, 0, "add", path, "channel", "--like", "0")
            self.refused(1, 0, "add", path, "bank", "--name", "x")
            self.refused(1, 0, "add", path, "entry", "0", "0")

    def test_37_a_history_that_is_too_small(self):
        self.refuses(37, 0, ["set", "header", "--author", "Another", "--history-size", "3"])
        self.refuses(37, 0, ["set", "header", "--timestamp", "1", "--history-size", "0"])
        self.refuses(37, 0, ["move", "channel", "0", "9", "--history-size", "20"])

    def test_38_nothing_to_undo(self):
        self.refuses(38, 0, ["undo"])

    def test_38_fewer_to_undo_than_asked_for(self):
        self.ok("rename", self.club, "channel", "0", "X")
        self.refuses(38, 0, ["undo", "--count", "2"])
        self.ok("undo", self.club)
        self.assertEqual(self.club.read_bytes(), CLUB)

    def test_a_refusal_with_a_history(self):
        self.ok("rename", self.club, "channel", "0", "X")
        for number, args in ((33, ["remove", "bank", "4"]), (35, ["remove", "channel", "0"]), (21, ["set", "contact", "5", "--callsign", "a"])):
            self.refuses(number, None, args)

    def test_a_file_that_is_no_codeplug(self):
        for name, number, place in (("club-cut", 2, 997), ("club-tone-50", 7, 408), ("nothing", 2, 0), ("club-trailing", 12, 1400)):
            for args in (["set", "header", "--author", "x"], ["remove", "contact", "0"], ["move", "bank", "0", "1"], ["add", "bank", "--name", "x"]):
                with self.untouched():
                    verb, *rest = args
                    self.refused(number, place, verb, self.folder / f"{name}.rtxc", *rest)

    def test_refused_on_standard_input_writes_nothing(self):
        self.refused(35, 0, "remove", "-", "channel", "0", stdin=CLUB)
        self.refused(2, 86, "remove", "-", "channel", "0", stdin=CLUB[:87])


class Places(Edits):
    """A refusal's place is that in the codeplug as it would be; 33 comes before what is refused of a record."""

    def places(self, number, cases):
        for (verb, *rest), place in cases:
            with self.subTest((verb, *rest)):
                self.refused(number, place, verb, "-", *rest, stdin=CLUB)

    def test_5_foreign_text(self):
        self.places(5, [([*args, "a\nb"], place) for args, place in TEXTS.items()])

    def test_5_long_text(self):
        self.places(5, [([*args, LONG], place) for args, place in TEXTS.items()])

    def test_7(self):
        self.places(7, SEVEN)

    def test_8(self):
        self.places(8, EIGHT)

    def test_9(self):
        self.places(9, NINE)

    def test_11(self):
        self.places(11, [([arg or "10" for arg in args], place) for args, place in ELEVEN])

    def test_33_comes_first(self):
        self.places(33, [([*args, "a\nb"], 0) for args in (["add", "bank", "--at", "5", "--name"], ["rename", "bank", "4"])])
        self.places(33, [(["add", "channel", "--like", "4", "--at", "11", "--slot", "3"], 0)])

    def test_a_new_file(self):
        for option, place in (("--author", 10), ("--description", 42)):
            self.refused(5, place, "new", self.folder / "a", option, "a\nb")


# ---- wrong usage ----

CHANNEL_3, CONTACT_0, CONTACT_5 = ["set", "channel", "3"], ["set", "contact", "0"], ["set", "contact", "5"]
EMPTY_STRINGS = [
    ["set", "header", "--author", ""], ["set", "header", "--description", ""], ["set", "header", "--timestamp", ""], ["set", "contact", "", "--name", "x"],
    [*CONTACT_0, "--name", ""], [*CONTACT_0, "--mode", ""], [*CONTACT_0, "--id", ""], [*CONTACT_0, "--contact-type", ""], [*CONTACT_0, "--rx-tone", ""],
    [*CONTACT_5, "--callsign", ""], [*CONTACT_5, "--address", ""],
    *([*CHANNEL_3, option, ""] for option in ("--name", "--description", "--mode", "--receive-frequency", "--bandwidth", "--receive-only", "--power")),
    *([*CHANNEL_3, option, ""] for option in ("--scan-list", "--group-list", "--latitude", "--longitude", "--altitude", "--receive-tone", "--transmit-tone")),
    *(["set", "channel", "4", option, ""] for option in ("--receive-colour", "--transmit-colour", "--slot", "--contact")),
    *(["set", "channel", "7", option, ""] for option in ("--receive-access", "--operation", "--encryption", "--position", "--contact")),
    ["rename", "channel", "3", ""], ["rename", "channel", "", "x"], ["add", "bank", "--name", ""], ["add", "bank", "--name", "x", "--at", ""],
    ["add", "entry", "", "0"], ["add", "entry", "0", ""], ["remove", "bank", ""], ["move", "bank", "0", ""], ["set", "bank", "0", "--name", ""],
    ["set", "", "0"], ["add", "channel", "--like", ""], ["set", "header", "--author", "x", "--history-size", ""], ["set", "header", "--author", "x", "--wait", ""],
]
ZERO_IS_NO_BLANK = [[*CHANNEL_3, option, zero] for option in ("--receive-tone", "--transmit-tone", "--scan-list", "--group-list") for zero in ("0", "00")]
UNKNOWN = [
    ["set", "header", "--colour", "x"], ["set", "header", "--name", "x"], [*CONTACT_0, "--power", "10"], [*CONTACT_0, "--description", "x"],
    [*CHANNEL_3, "--tone", "88.5"], [*CHANNEL_3, "-p", "10"], ["set", "bank", "0", "--description", "x"], ["set", "bank", "0", "--power", "10"],
    ["add", "bank", "--name", "x", "--like", "0"], ["add", "entry", "0", "0", "--name", "x"], ["remove", "contact", "2", "--force"],
    ["remove", "contact", "2", "--at", "0"], ["move", "bank", "0", "1", "--at", "1"], ["rename", "bank", "0", "x", "--name", "y"], [*CHANNEL_3, "--at", "1"],
    [*CHANNEL_3, "--like", "0"], ["set", "header", "--author", "x", "--json"], [*CHANNEL_3, "--Power", "10"], [*CHANNEL_3, "--pow", "10"],
]
OTHER_MODE = [
    [*CHANNEL_3, "--slot", "1"], [*CHANNEL_3, "--contact", "0"], [*CHANNEL_3, "--receive-colour", "1"], [*CHANNEL_3, "--operation", "voice"],
    ["set", "channel", "4", "--transmit-tone", "88.5"], ["set", "channel", "4", "--position", "on"], ["set", "channel", "4", "--receive-access", "1"],
    ["set", "channel", "7", "--receive-tone", "67.0"], ["set", "channel", "7", "--transmit-colour", "1"], ["set", "channel", "7", "--slot", "1"],
    ["set", "channel", "4", "--mode", "fm", "--slot", "1"], [*CHANNEL_3, "--mode", "m17", "--transmit-tone", "88.5"],
    [*CONTACT_0, "--callsign", "A"], [*CONTACT_0, "--broadcast"], [*CONTACT_0, "--address", "1"], [*CONTACT_5, "--id", "1"],
    [*CONTACT_5, "--contact-type", "group"], [*CONTACT_5, "--rx-tone", "on"], [*CONTACT_0, "--mode", "fm"],
]
TWICE = [
    ["set", "header", "--author", "x", "--author", "x"], [*CHANNEL_3, "--power", "10", "--power", "11"], [*CONTACT_5, "--broadcast", "--broadcast"],
    ["set", "header", "--no-author", "--no-author"], ["set", "header", "--author", "x", "--no-author"], [*CONTACT_0, "--name", "x", "--no-name"],
    [*CONTACT_5, "--callsign", "A", "--broadcast"], [*CONTACT_5, "--callsign", "A", "--address", "1"], ["add", "bank", "--name", "x", "--at", "0", "--at", "1"],
    ["set", "header", "--author", "x", "--dry-run", "--dry-run"], ["rename", "bank", "0", "x", "--no-name"], [*CHANNEL_3, "--description", "x", "--no-description"],
]
MISSING = [
    ["set"], ["set", "channel"], ["set", "channel", "3", "--power"], ["set", "header", "--author"], ["set", "bank", "0"], ["rename", "channel", "3"],
    ["rename", "channel"], ["remove"], ["remove", "channel"], ["remove", "entry", "0"], ["move", "channel", "3"], ["move", "entry", "0", "1"], ["add", "entry", "0"],
    ["add", "channel", "--like"], ["set", "header", "--author", "x", "--history-size"], ["undo", "--count"],
]
NO_NUMBERS = [
    *([*CHANNEL_3, "--power", p] for p in ("x", "10.1", "9.8", "61.2", "-10", "1e1", "10,2", "nan", "inf", "10.", "10dBm x")),
    *([*CHANNEL_3, "--latitude", p] for p in ("1.23456", "x", "1e1", "45N", "nan", "300", "--1", "-")),
    *([*CHANNEL_3, "--longitude", p] for p in ("128", "-128.0001", "1.00001", "180", "x")),
    *([*CHANNEL_3, "--altitude", p] for p in ("65036", "-501", "1.5", "x")),
    *([*CHANNEL_3, "--receive-frequency", p] for p in ("x", "-1", "145.6000001", "4294.967296", "145.6GHz", "145,6", "1.5Hz", "MHz", "nan")),
    *([*CHANNEL_3, "--receive-tone", p] for p in ("x", "on", "88.5Hz?", "off:", "off:x", "none")),
    *([*CHANNEL_3, "--bandwidth", p] for p in ("15", "x", "6.25")),
    *([*CHANNEL_3, "--scan-list", p] for p in ("x", "-1", "1.5", "off")),
    *([*CHANNEL_3, "--receive-only", p] for p in ("x", "1", "true")),
    *(["set", "channel", "4", "--receive-colour", p] for p in ("x", "-1", "none")),
    *(["set", "channel", "4", "--slot", p] for p in ("x", "-1", "1.5", "none")),
    *(["set", "channel", "7", "--transmit-access", p] for p in ("x", "-1", "1.5")),
    *(["set", "channel", "7", option, "x"] for option in ("--operation", "--encryption", "--position")),
    *([*CONTACT_0, "--id", p] for p in ("4294967296", "-1", "x", "1.0")),
    [*CONTACT_0, "--contact-type", "x"], [*CONTACT_0, "--rx-tone", "x"], [*CONTACT_0, "--mode", "x"], [*CHANNEL_3, "--mode", "x"],
    *([*CONTACT_5, "--address", p] for p in ("x", "-1", "0x", "0xg", "1.5")),
    *(["set", "header", "--timestamp", p] for p in ("x", "-1", "1.5", "18446744073709551616", "yesterday")),
    *(["move", "channel", "0", p] for p in ("x", "-1", "1.5")), *(["remove", "entry", "0", p] for p in ("x", "-1")), ["add", "bank", "--name", "x", "--at", "x"],
    *(["undo", "--count", p] for p in ("x", "-1", "1.5")), *(["set", "header", "--author", "x", "--history-size", p] for p in ("x", "-1", "1k")),
    *(["set", "header", "--author", "x", "--wait", p] for p in ("x", "-1")),
]
TOO_MANY = [
    ["set", "header", "x", "--author", "y"], ["set", "channel", "3", "4", "--power", "10"], ["rename", "bank", "0", "x", "y"], ["remove", "bank", "0", "1"],
    ["move", "bank", "0", "1", "2"], ["add", "channel", "x", "--like", "0"], ["undo", "1"], ["add", "entry", "0", "0", "0"],
]
NO_PART = [["set", "channels", "3", "--power", "10"], ["add", "header"], ["remove", "header"], ["rename", "entry", "0", "x"], ["move", "header", "0", "1"], ["set", "entry", "0", "1"]]


class Usage(Edits):
    def wrong(self, cases):
        """Each is wrong usage: status 2, one line, and the folder as it was."""
        with self.untouched():
            for verb, *rest in cases:
                with self.subTest((verb, *rest)):
                    self.usage(verb, self.club, *rest)

    def test_empty_strings(self):
        self.wrong(EMPTY_STRINGS)

    def test_zero_is_no_blank(self):
        self.wrong(ZERO_IS_NO_BLANK)

    def test_unknown_options(self):
        self.wrong(UNKNOWN)

    def test_options_of_another_mode(self):
        self.wrong(OTHER_MODE)

    def test_options_given_twice(self):
        self.wrong(TWICE)

    def test_missing_values(self):
        self.wrong(MISSING)

    def test_numbers_and_words_that_are_none(self):
        self.wrong(NO_NUMBERS)

    def test_too_many_arguments(self):
        self.wrong(TOO_MANY)

    def test_no_such_part(self):
        self.wrong(NO_PART)

    def test_the_words_name_the_option(self):
        for args in ([*CHANNEL_3, "--power", "x"], [*CHANNEL_3, "--latitude", "1.23456"], [*CHANNEL_3, "--slot", "1"], [*CHANNEL_3, "--nothing", "1"]):
            self.assertIn(args[3], self.usage(args[0], self.club, *args[1:]))

    def test_a_tone_that_is_not_in_the_table(self):
        for hertz in ("88.6", "off:88.6", "1", "88.55"):
            with self.untouched():
                answer = run("set", self.club, "channel", "3", "--transmit-tone", hertz)
                self.assertIn((answer.status, answer.err.count("\n")), [(1, 1), (2, 1)], hertz)


# ---- new ----


class New(Edits):
    def test_an_empty_codeplug(self):
        self.assertEqual(self.ok("new", self.folder / "a"), "")
        self.assertEqual((self.folder / "a").read_bytes(), EMPTY)

    def test_with_a_header(self):
        self.ok("new", self.folder / "a", "--author", "Me", "--description", "First", "--timestamp", "5")
        self.assertEqual(parse((self.folder / "a").read_bytes())["header"], {"author": "Me", "description": "First", "timestamp": 5})

    def test_now(self):
        self.ok("new", self.folder / "a", "--timestamp", "now")
        self.assertLess(abs(parse((self.folder / "a").read_bytes())["header"]["timestamp"] - time.time()), 60)

    def test_no_file_is_written_over(self):
        with self.untouched():
            self.assertIn("club.rtxc", self.usage("new", self.club))

    def test_nothing_else_is_left(self):
        before = set(self.folder.iterdir())
        self.ok("new", self.folder / "a")
        self.assertLessEqual(set(self.folder.iterdir()) - before, {self.folder / "a", self.folder / "a.history"})

    def test_to_standard_output(self):
        self.assertEqual(run("new", "-").out, EMPTY)

    def test_refusals(self):
        for option, text in itertools.product(("--author", "--description"), ("x" * 33, "a\nb", "\u00e9")):
            with self.untouched():
                self.refused(5, None, "new", self.folder / "a", option, text)

    def test_wrong_usage(self):
        with self.untouched():
            for args in ([], ["a", "b"], ["a", "--author"], ["a", "--author", ""], ["a", "--timestamp", "x"], ["a", "--name", "x"], [""]):
                self.usage("new", *args, cwd=self.folder)

    def test_no_such_folder(self):
        self.usage("new", self.folder / "nowhere" / "a")


# ---- the files ----

TWELVE = [
    ["add", "contact", "--name", "N", "--mode", "dmr", "--id", "1", "--at", "0"], ["remove", "contact", "2"], ["set", "contact", "0", "--id", "5"],
    ["add", "channel", "--like", "3", "--at", "0"], ["remove", "channel", "3"], ["set", "channel", "3", "--power", "20"],
    ["add", "bank", "--name", "N", "--at", "0"], ["remove", "bank", "0"], ["rename", "bank", "0", "N"],
    ["add", "entry", "0", "3", "--at", "0"], ["remove", "entry", "0", "1"], ["set", "header", "--author", "N"],
]


class Files(Edits):
    def test_each_of_the_twelve_in_a_file_and_taken_back(self):
        for args in TWELVE:
            with self.subTest(args):
                verb, *rest = args
                wanted = run(verb, "-", *rest, stdin=CLUB).out
                self.assertEqual(self.ok(verb, self.club, *rest), "")
                self.assertEqual(self.club.read_bytes(), wanted)
                self.assertNotEqual(wanted, CLUB)
                self.assertEqual(self.ok("undo", self.club), "")
                self.assertEqual(self.club.read_bytes(), CLUB)

    def test_only_the_file_and_its_history_are_there(self):
        before = set(self.folder.iterdir())
        self.ok("rename", self.club, "channel", "0", "X")
        self.assertEqual(set(self.folder.iterdir()) - before, {self.folder / "club.rtxc.history"})

    def test_many_commands_undone_one_by_one_and_together(self):
        states = [CLUB]
        for verb, *rest in reversed(TWELVE):
            self.ok(verb, self.club, *rest)
            states.append(self.club.read_bytes())
        for back in (1, 2, 3, 6):
            self.ok("undo", self.club, "--count", back)
            del states[-back:]
            self.assertEqual(self.club.read_bytes(), states[-1])
        self.assertEqual(states, [CLUB])

    def test_history_lists_the_newest_first(self):
        self.ok("rename", self.club, "channel", "0", "Newest name")
        self.ok("rename", self.club, "channel", "0", "Newer name")
        listed = self.ok("history", self.club)
        self.assertLess(listed.index("Newer name"), listed.index("Hill"))
        self.assertNotIn("Hill", self.ok("history", self.club, "--count", "1"))

    def test_history_of_a_file_without_one(self):
        self.assertEqual(self.ok("history", self.club), "")

    def test_dry_run_prints_and_changes_nothing(self):
        with self.untouched():
            for verb, *rest in TWELVE:
                self.assertNotEqual(self.ok(verb, self.club, *rest, "--dry-run"), "", rest)

    def test_dry_run_says_what_would_be_changed(self):
        said = self.ok("set", self.club, "channel", "0", "--transmit-tone", "88.5", "--dry-run")
        self.assertRegex(said, r"channel 0 \(Hill\): transmit tone: 71\.9 -> 88\.5")

    def test_dry_run_is_what_diff_says(self):
        for verb, *rest in TWELVE:
            after = self.write("after", run(verb, "-", *rest, stdin=CLUB).out)
            self.assertEqual(self.ok(verb, self.club, *rest, "--dry-run"), self.ok("diff", self.club, after), rest)

    def test_a_dry_run_is_refused_where_the_command_is(self):
        with self.untouched():
            self.refused(35, 0, "remove", self.club, "contact", "0", "--dry-run")
            self.refused(38, 0, "undo", self.club, "--dry-run")

    def test_a_dry_run_of_undo(self):
        self.ok("rename", self.club, "channel", "0", "X")
        with self.untouched():
            self.assertRegex(self.ok("undo", self.club, "--dry-run"), r"\bX\b.*\bHill\b")

    def test_verbose_says_on_standard_error_what_was_changed(self):
        answer = run("set", self.club, "channel", "0", "--transmit-tone", "88.5", "--verbose")
        self.assertEqual((answer.status, answer.out), (0, b""))
        self.assertRegex(answer.err, r"transmit tone: 71\.9 -> 88\.5")

    def test_verbose_keeps_standard_output_for_the_codeplug(self):
        answer = run("rename", "-", "channel", "0", "X", "--verbose", stdin=CLUB)
        self.assertEqual(parse(answer.out)["channels"][0]["name"], "X")
        self.assertIn("Hill", answer.err)

    def test_standard_input_has_no_history(self):
        for verb in ("undo", "history"):
            answer = run(verb, "-", stdin=CLUB)
            self.assertEqual(answer.out if answer.status else b"", b"", verb)

    def test_a_link_is_followed(self):
        link = self.folder / "link"
        link.symlink_to(self.club)
        self.ok("rename", link, "channel", "0", "X")
        self.assertTrue(link.is_symlink())
        self.assertEqual(parse(self.club.read_bytes())["channels"][0]["name"], "X")

    def test_the_options_may_stand_anywhere(self):
        plug = example()
        plug["channels"][3]["power"] = 5
        for args in (["--power", "11", "-", "channel", "3"], ["-", "--power", "11", "channel", "3"], ["-", "channel", "3", "--power=11"]):
            answer = run("set", *args, stdin=CLUB)
            self.assertIn((answer.status, answer.out), [(0, build(plug)), (2, b"")], args)


# ---- move ----


def moved(plug, kind, start, to):
    order = list(range(len(plug[kind + "s"])))
    order.insert(to, order.pop(start))
    reorder(plug, kind + "s", order)
    return plug


class Move(Edits):
    def test_every_contact_to_every_place(self):
        for start, to in itertools.product(range(6), repeat=2):
            self.becomes(moved(example(), "contact", start, to), "move", "contact", start, to)

    def test_every_channel_to_every_third_place(self):
        for start, to in itertools.product(range(10), range(0, 10, 3)):
            self.becomes(moved(example(), "channel", start, to), "move", "channel", start, to)

    def test_every_bank_to_every_place(self):
        for start, to in itertools.product(range(4), repeat=2):
            self.becomes(moved(example(), "bank", start, to), "move", "bank", start, to)

    def test_entries(self):
        for bank, start, to in [(0, a, b) for a in range(5) for b in range(5)] + [(3, a, b) for a in range(3) for b in range(3)]:
            plug = example()
            plug["banks"][bank]["entries"].insert(to, plug["banks"][bank]["entries"].pop(start))
            self.becomes(plug, "move", "entry", bank, start, to)

    def test_by_name(self):
        self.becomes(moved(example(), "channel", 3, 0), "move", "channel", "Weather", "0")
        self.becomes(moved(example(), "contact", 5, 1), "move", "contact", "=Secretary", "1")
        self.becomes(moved(example(), "bank", 3, 0), "move", "bank", "Favourites", "0")

    def test_one_undo_takes_it_back(self):
        cases = [("contact", "0", "5"), ("contact", "3", "0"), ("channel", "0", "9"), ("channel", "7", "0"), ("bank", "0", "3"), ("bank", "3", "1")]
        for args in cases + [("entry", "0", "0", "4"), ("entry", "3", "2", "0")]:
            with self.subTest(args):
                self.ok("move", self.club, *args)
                self.assertNotEqual(self.club.read_bytes(), CLUB)
                self.assertNotEqual(self.ok("history", self.club), "")
                self.ok("undo", self.club)
                self.assertEqual(self.club.read_bytes(), CLUB)
                self.refused(38, 0, "undo", self.club)

    def test_a_move_counts_once_among_others(self):
        self.ok("rename", self.club, "channel", "0", "X")
        first = self.club.read_bytes()
        self.ok("move", self.club, "channel", "X", "9")
        self.ok("rename", self.club, "channel", "0", "Y")
        self.ok("undo", self.club, "--count", "2")
        self.assertEqual(self.club.read_bytes(), first)
        self.ok("undo", self.club)
        self.assertEqual(self.club.read_bytes(), CLUB)

    def test_to_where_it_is(self):
        self.becomes(example(), "move", "channel", "3", "3")

    def long(self, entries):
        """A codeplug whose first bank has so many entries, and its file."""
        plug = example()
        plug["banks"][0]["entries"] = [n * 7 % 10 for n in range(entries)]
        return plug, self.write("long", build(plug))

    def test_a_bank_of_a_thousand_entries(self):
        plug, path = self.long(1000)
        opening = path.read_bytes()
        self.ok("move", path, "bank", "0", "3")
        self.assertEqual(path.read_bytes(), build(moved(plug, "bank", 0, 3)))
        self.ok("undo", path)
        self.assertEqual(path.read_bytes(), opening)

    def test_a_channel_that_a_thousand_entries_name(self):
        plug, path = self.long(10000)
        opening = path.read_bytes()
        self.ok("move", path, "channel", "0", "9", "--history-size", 64 * 1024 * 1024)
        self.assertEqual(path.read_bytes(), build(moved(plug, "channel", 0, 9)))
        self.ok("undo", path)
        self.assertEqual(path.read_bytes(), opening)

    def test_dry_run_tells_only_the_move(self):
        with self.untouched():
            said = self.ok("move", self.club, "channel", "3", "7", "--dry-run")
        self.assertEqual(said, "> channel 3 (Weather): to 7\n")


if __name__ == "__main__":
    unittest.main()

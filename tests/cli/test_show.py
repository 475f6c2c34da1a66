"""codeplug show: tables for people, JSON and CSV for programs, held to this folder's own reader."""
import csv
import io
import json
import re
import unittest

from common import BROADCAST, GOOD, HELP, TONES, Case, build, callsign, example, parse, run


# ---- what JSON should say ----


def json_contact(place, contact):
    wanted = {"place": place} | contact | {"mode": contact["mode"].upper()}
    if contact["mode"] == "dmr":
        return wanted
    everyone = contact["address"] == BROADCAST
    return wanted | {"callsign": None if everyone else callsign(contact["address"]), "broadcast": everyone}


def json_channel(place, channel, contacts):
    wanted = {"place": place} | channel | {"mode": channel["mode"].upper()}
    wanted |= {k: channel[k] or None for k in ("scan_list", "group_list")} | {k: channel[k] / 10000 for k in ("latitude", "longitude")}
    wanted |= {"bandwidth_khz": float(wanted.pop("bandwidth")), "power_dbm": (50 + wanted.pop("power")) / 5, "altitude_m": wanted.pop("altitude")}
    if channel["mode"] == "fm":
        for tone in ("receive_tone", "transmit_tone"):
            on, index = channel[tone]
            wanted |= {tone: float(TONES[index]) if on else None, tone + "_index": index}
    else:
        wanted["contact_name"] = None if channel["contact"] is None else contacts[channel["contact"]]["name"]
    return wanted


def json_all(plug):
    return {
        "header": plug["header"],
        "contacts": [json_contact(n, c) for n, c in enumerate(plug["contacts"])],
        "channels": [json_channel(n, c, plug["contacts"]) for n, c in enumerate(plug["channels"])],
        "banks": [{"place": n} | b for n, b in enumerate(plug["banks"])],
    }


def uncounted(value):
    """A JSON value without the numbers of records in a header or entries in a bank, which may be there and may not."""
    if isinstance(value, list):
        return [uncounted(v) for v in value]
    if isinstance(value, dict):
        return {k: uncounted(v) for k, v in value.items() if not (k in ("contacts", "channels", "banks", "count") and isinstance(v, int))}
    return value


class Show(Case):
    def json(self, *args, **more):
        return uncounted(json.loads(self.ok("show", *args, "--json", **more)))

    def csv(self, *args, **more):
        return list(csv.DictReader(io.StringIO(self.ok("show", *args, "--csv", **more), newline="")))

    def row(self, out, *words):
        """The one line of a table that begins with these columns."""
        rows = [line for line in out.splitlines() if re.match(r"\s*" + r"\s\s+".join(map(re.escape, map(str, words))) + r"\s\s", line, re.I)]
        self.assertEqual(len(rows), 1, (words, out))
        return rows[0]


class Tables(Show):
    def test_names_that_look_like_nothing(self):
        plug = example()
        for kind in ("contacts", "channels", "banks"):
            for record in plug[kind]:
                record["name"] = "-"
            head = self.ok("show", self.write("a", build(plug)), kind).splitlines()[0]
            self.assertIn("name", head.split())

    def test_header(self):
        out = self.ok("show", self.club, "header")
        for text in ("Hilltop Radio Club", "Members' set, autumn", "1762000000"):
            self.assertIn(text, out)

    def test_contacts(self):
        out = self.ok("show", self.club, "contacts")
        for row, words in (((0, "Local", "dmr"), ["9"]), ((2, "Net control"), ["2221337", "private", "on"]), ((4, "Reflector", "m17"), ["M17-XYZ A"])):
            for text in words:
                self.assertIn(text, self.row(out, *row))
        self.assertIn("broadcast", self.row(out, 3, "Everyone"))

    def test_channels(self):
        out = self.ok("show", self.club, "channels")
        hill = self.row(out, 0, "Hill", "fm")
        for text in ("145.6", "145", "off", "71.9", "44.4939", "11.3428"):
            self.assertRegex(hill, rf"(?<![\d.]){re.escape(text)}")
        self.assertIn("Local", self.row(out, 4, "Hill local"))
        self.assertIn("none", self.row(out, 6, "Simplex DMR"))
        self.assertIn("Everyone", self.row(out, 7, "M17 calling"))
        self.assertIn("-33.8675", self.row(out, 9, "South"))

    def test_a_field_that_a_mode_has_not(self):
        out = self.ok("show", self.club, "channels")
        self.assertRegex(self.row(out, 0, "Hill", "fm"), r" -( |$)")

    def test_banks(self):
        out = self.ok("show", self.club, "banks")
        for name in ("Everyday", "Digital", "Empty for now", "Favourites", "Hill guarded", "M17 reflector"):
            self.assertIn(name, out)

    def test_everything(self):
        out = self.ok("show", self.club)
        for part in ("header", "contacts", "channels", "banks"):
            for line in self.ok("show", self.club, part).splitlines():
                self.assertIn(line, out)

    def test_an_empty_codeplug(self):
        self.ok("show", self.folder / "empty.rtxc")

    def test_every_sample(self):
        for name in GOOD:
            path = self.folder / f"{name}.rtxc"
            out = self.ok("show", path)
            for kind in ("contacts", "channels", "banks"):
                for record in parse(path.read_bytes())[kind]:
                    self.assertIn(record["name"], out)

    def test_frequencies_have_every_digit(self):
        plug = example()
        plug["channels"][0] |= {"receive_hz": 145_600_001, "transmit_hz": 4_294_967_295}
        out = self.ok("show", self.write("a", build(plug)), "channels")
        self.assertIn("145.600001", out)
        self.assertIn("4294.967295", out)

    def test_any_timestamp(self):
        for timestamp in (0, 1, 951_782_400, 253_402_300_800, 2**63, 2**64 - 1):
            plug = example()
            plug["header"]["timestamp"] = timestamp
            self.assertRegex(self.ok("show", self.write("a", build(plug)), "header"), rf"timestamp +{timestamp}\b")

    def test_positions_below_zero(self):
        plug = example()
        plug["channels"][0] |= {"latitude": -1, "longitude": -1_279_999}
        row = self.row(self.ok("show", self.write("a", build(plug)), "channels"), 0, "Hill", "fm")
        self.assertIn("-0.0001", row)
        self.assertIn("-127.9999", row)


class One(Show):
    def test_a_channel_with_every_field(self):
        out = self.ok("show", self.club, "channel", "0")
        for text in ("Hill", "Repeater, tone on transmit", "FM", "145.6", "145", "12.5", "no", "37", "none", "44.4939", "11.3428", "290", "off", "71.9"):
            self.assertIn(text, out)

    def test_by_place_and_by_name(self):
        for kind, place, name in (("contact", 2, "Net control"), ("channel", 3, "Weather"), ("bank", 1, "Digital")):
            shown = self.ok("show", self.club, kind, place)
            self.assertEqual(self.ok("show", self.club, kind, name), shown)
            self.assertEqual(self.ok("show", self.club, kind, "=" + name), shown)
            self.assertIn(name, shown)

    def test_a_contact(self):
        self.assertIn("M17-XYZ A", self.ok("show", self.club, "contact", "Reflector"))
        self.assertIn("broadcast", self.ok("show", self.club, "contact", "Everyone"))
        self.assertRegex(self.ok("show", self.club, "contact", "Local"), r"(?m)group$")

    def test_a_bank_with_its_channels(self):
        out = self.ok("show", self.club, "bank", "Everyday")
        for name in ("Hill", "Hill guarded", "Hill local", "Hill region", "Calling"):
            self.assertIn(name, out)

    def test_no_such_place(self):
        for kind, place in (("contact", 6), ("channel", 10), ("bank", 4)):
            self.refused(33, 0, "show", self.club, kind, place)

    def test_no_such_name(self):
        for kind in ("contact", "channel", "bank"):
            self.assertIn("Nobody", self.usage("show", self.club, kind, "Nobody"))

    def test_a_name_that_two_have(self):
        plug = example()
        plug["channels"][7]["name"] = "Weather"
        path = self.write("a", build(plug))
        self.assertRegex(self.usage("show", path, "channel", "Weather"), r"\b3\b.*\b7\b")
        self.ok("show", path, "channel", "7")

    def test_a_name_that_looks_like_a_place(self):
        plug = example()
        plug["channels"][3]["name"] = "7"
        path = self.write("a", build(plug))
        self.assertEqual(self.json(path, "channel", "=7")["place"], 3)
        self.assertEqual(self.json(path, "channel", "7")["place"], 7)


class Json(Show):
    def test_every_sample_in_full(self):
        for name in GOOD:
            with self.subTest(name):
                path = self.folder / f"{name}.rtxc"
                self.assertEqual(self.json(path), json_all(parse(path.read_bytes())))

    def test_every_part(self):
        everything = json_all(example())
        for part, wanted in everything.items():
            with self.subTest(part):
                self.assertEqual(self.json(self.club, part), wanted)

    def test_every_record(self):
        everything = json_all(example())
        for kind in ("contacts", "channels", "banks"):
            for place, wanted in enumerate(everything[kind]):
                self.assertEqual(self.json(self.club, kind[:-1], place), wanted)

    def test_texts_that_need_quotes(self):
        plug = example()
        plug["header"]["author"] = '"\\/'
        plug["channels"][0]["name"] = 'a"b\\c'
        plug["banks"][0]["name"] = "\\u0041</script>"
        self.assertEqual(self.json(self.write("a", build(plug))), json_all(plug))

    def test_numbers_at_their_edges(self):
        plug = example()
        plug["header"]["timestamp"] = 2**64 - 1
        plug["contacts"][0]["id"] = 2**32 - 1
        plug["channels"][0] |= {"receive_hz": 2**32 - 1, "transmit_hz": 0, "power": 255, "latitude": -1, "longitude": -1_280_000, "altitude": -500}
        plug["channels"][1] |= {"power": 1, "latitude": 900_000, "longitude": 1_279_999, "altitude": 65035, "scan_list": 250, "group_list": 128}
        self.assertEqual(self.json(self.write("a", build(plug))), json_all(plug))

    def test_every_tone_on_and_off(self):
        plug = example()
        model = plug["channels"][0]
        plug["channels"] = [model | {"receive_tone": (True, index), "transmit_tone": (False, index)} for index in range(50)]
        plug["banks"] = []
        self.assertEqual(self.json(self.write("a", build(plug)), "channels"), json_all(plug)["channels"])

    def test_every_power(self):
        plug = example()
        plug["channels"] = [plug["channels"][0] | {"power": power} for power in range(256)]
        plug["banks"] = []
        shown = self.json(self.write("a", build(plug)), "channels")
        self.assertEqual([channel["power_dbm"] for channel in shown], [(50 + power) / 5 for power in range(256)])


class Csv(Show):
    def test_channels(self):
        rows = self.csv(self.club, "channels")
        wanted = example()["channels"]
        self.assertEqual([row["name"] for row in rows], [c["name"] for c in wanted])
        for row, channel in zip(rows, wanted):
            for field in ("receive_hz", "transmit_hz", "bandwidth_khz", "altitude_m", "description", "slot", "operation"):
                self.assertEqual(row[field], str(channel.get(re.sub("_khz|_m$", "", field), "")), field)
            self.assertEqual((row["mode"], float(row["power_dbm"])), (channel["mode"].upper(), (50 + channel["power"]) / 5))

    def test_blanks_have_their_words(self):
        rows = self.csv(self.club, "channels")
        self.assertEqual((rows[0]["receive_tone"], rows[0]["transmit_tone"], rows[0]["scan_list"], rows[0]["group_list"]), ("off", "71.9", "none", "none"))
        self.assertEqual((rows[6]["contact"], rows[6]["receive_tone"], rows[0]["contact"]), ("none", "", ""))

    def test_contacts(self):
        rows = self.csv(self.club, "contacts")
        self.assertEqual([row["name"] for row in rows], [c["name"] for c in example()["contacts"]])
        self.assertEqual([row["id"] for row in rows], ["9", "2227", "2221337", "", "", ""])
        self.assertEqual([row["callsign"] for row in rows][4:], ["M17-XYZ A", "AB1CD"])
        self.assertEqual([row["contact_type"] for row in rows][:3], ["group", "group", "private"])

    def test_header(self):
        (row,) = self.csv(self.club, "header")
        self.assertEqual((row["author"], row["description"], row["timestamp"]), ("Hilltop Radio Club", "Members' set, autumn", "1762000000"))

    def test_banks(self):
        out = self.ok("show", self.club, "banks", "--csv")
        for name in ("Everyday", "Digital", "Empty for now", "Favourites"):
            self.assertIn(name, out)

    def test_one_record(self):
        for kind in ("contact", "channel"):
            self.assertEqual(self.csv(self.club, kind, "3"), [self.csv(self.club, kind + "s")[3]])

    def test_texts_that_need_quotes(self):
        plug = example()
        names = ['a"b', "a,b", '"', "=1+1", " a ", "'"]
        for place, name in enumerate(names):
            plug["channels"][place]["name"] = name
        rows = self.csv(self.write("a", build(plug)), "channels")
        self.assertEqual([row["name"] for row in rows][: len(names)], names)

    def test_without_records_there_is_the_line_of_names(self):
        out = self.ok("show", self.folder / "empty.rtxc", "channels", "--csv")
        self.assertEqual(len(out.splitlines()), 1)
        self.assertIn("receive_hz", out)

    def test_every_row_has_every_column(self):
        for name in GOOD:
            for part in ("header", "contacts", "channels", "banks"):
                rows = list(csv.reader(io.StringIO(self.ok("show", self.folder / f"{name}.rtxc", part, "--csv"), newline="")))
                self.assertEqual(len({len(row) for row in rows}), 1, (name, part))


UNITS = {"receive_frequency": "receive_hz", "transmit_frequency": "transmit_hz", "bandwidth": "bandwidth_khz", "power": "power_dbm", "altitude": "altitude_m"}


class Names(Show):
    """For programs fields are named as the options of set and add, with _ for -, and with their unit where people see another or none."""

    def options(self, kind):
        text = (HELP / "set.txt").read_text()
        text = text[text.index(f"\n{kind}:\n") :]
        names = {o.replace("-", "_") for o in re.findall(r"^  --([a-z-]+)", text.split("\n\n")[0], re.M)}
        return {UNITS.get(name, name) for name in names}

    def test_csv(self):
        for part, kind in (("header", "Header"), ("contacts", "Contact"), ("channels", "Channel")):
            names = self.ok("show", self.club, part, "--csv").splitlines()[0].split(",")
            self.assertEqual(self.options(kind) - set(names), set())

    def test_json(self):
        for record in ("header", "contact 0", "contact 4", "channel 0", "channel 4", "channel 7"):
            names = json.loads(self.ok("show", self.club, *record.split(), "--json")).keys()
            extra = {"place", "contacts", "channels", "banks", "contact_name", "receive_tone_index", "transmit_tone_index"}
            self.assertEqual(names - self.options(record.split()[0].capitalize()) - extra, set(), record)


class GivenBack(Show):
    """What CSV shows of a record, set takes, and nothing changes."""

    def given_back(self, kind, place, row):
        args = []
        for name, value in row.items():
            if value and name not in ("place", "contact_name", "broadcast", "receive_tone_index", "transmit_tone_index"):
                option = re.sub("_khz|_dbm|_m$", "", name.replace("_hz", "_frequency")).replace("_", "-")
                args += ["--" + option, value + ("Hz" if name.endswith("_hz") else "")]
        answer = run("set", "-", kind, place, *args, stdin=self.club.read_bytes())
        self.assertEqual((answer.status, answer.err, answer.out), (0, "", self.club.read_bytes()), args)

    def test_channels(self):
        for place, row in enumerate(self.csv(self.club, "channels")):
            with self.subTest(place):
                self.given_back("channel", place, row)

    def test_contacts(self):
        for place, row in enumerate(self.csv(self.club, "contacts")):
            with self.subTest(place):
                for one_of in ("callsign", "address"):
                    if row[one_of] and row["broadcast"] != "yes":
                        self.given_back("contact", place, {k: v for k, v in row.items() if k != one_of})
                if row["id"]:
                    self.given_back("contact", place, row)


class Input(Show):
    def test_standard_input(self):
        self.assertEqual(self.json("-", stdin=self.club.read_bytes()), self.json(self.club))

    def test_a_file_that_is_refused(self):
        words = self.refused(7, 408, "show", self.folder / "club-tone-50.rtxc")
        self.assertRegex(words, r"channel 0 \(Hill\), transmit tone")
        self.refused(2, 997, "show", self.folder / "club-cut.rtxc", "--json")

    def test_wrong_usage(self):
        club = self.club
        cases = [[], [club, "tones"], [club, "channel"], [club, "channels", "3"], [club, "--csv"], [club, "channels", "--csv", "--json"], [club, "header", "0"]]
        cases += [[club, "channel", ""], [club, "--xml"], [club, "channel", "3", "4"], [club, "channels", "--json", "--json"], [club, "channel", "3", "--power", "5"]]
        for args in cases:
            with self.subTest(args):
                self.usage("show", *args)

    def test_nothing_is_changed(self):
        with self.untouched():
            self.ok("show", self.club)
            self.ok("show", self.club, "channel", "0", "--json")


if __name__ == "__main__":
    unittest.main()

"""A buyer's afternoon, from a new file to the one that is mailed, with mistakes and undos. After each command the codeplug is held to the
one that the second program (tests/second) makes of the same edits, given to it as a script."""
import os
import pathlib
import subprocess
import unittest

from common import ROOT, Case, run

SECOND = os.path.abspath(os.environ.get("SECOND", ROOT / "tests/second/target/release/second"))


def line(call, *places, **fields):
    """One call of a script."""
    return "\t".join([call, *map(str, places), *(f"{key}={value}" for key, value in fields.items())]) + "\n"


def dmr_contact(name, number, **other):
    return dict(dict(mode="dmr", name=name, id=number, type=0, rxtone=0), **other)


def channel(name, hertz, **other):
    common = dict(mode="fm", name=name, desc="", rx=hertz, tx=hertz, bandwidth=0, rxonly=0, power=0, scan=0, group=0, lat=0, latfrac=0,
                  lon=0, lonfrac=0, alt=500)
    return dict(common, **other)


HILL = channel("Hill", 145_600_000, tx=145_000_000, desc="Repeater", power=135, lat=44, latfrac=4939, lon=11, lonfrac=3428, alt=790,
               rxtone="0:0", txtone="1:8")
HILL_DMR = channel("Hill DMR", 430_862_500, tx=432_462_500, mode="dmr", rxcolour=3, txcolour=3, slot=2, contact=0)
M17 = channel("M17 calling", 433_475_000, mode="m17", bandwidth=2, rxcan=0, txcan=5, operation=3, encryption=0, position=1, contact=2)
HILL_2 = dict(HILL, name="Hill 2", rx=145_612_500, tx=145_012_500, txtone="1:8")

# A command but for its file, and what it is for the second program. None: the command is refused.
AFTERNOON = [
    ("set header --author Hilltop --description 'Field day' --timestamp 1763000000",
     [line("set-header", author="Hilltop", description="Field day", timestamp=1_763_000_000)]),
    ("add contact --mode dmr --name Local --id 9", [line("insert-contact", 0, **dmr_contact("Local", 9))]),
    ("add contact --mode dmr --name Region --id 2227 --contact-type private --rx-tone on",
     [line("insert-contact", 1, **dmr_contact("Region", 2227, type=1, rxtone=1))]),
    ("add contact --mode m17 --name Everyone --broadcast", [line("insert-contact", 2, mode="m17", name="Everyone", broadcast=1)]),
    ("add contact --mode m17 --name Small --callsign ab1cd", None),
    ("add contact --mode m17 --name Secretary --callsign AB1CD --at 0",
     [line("insert-contact", 0, mode="m17", name="Secretary", callsign="AB1CD")]),
    ("undo", [line("undo")]),
    ("add channel --mode fm --name Hill --description Repeater --receive-frequency 145.6 --transmit-frequency 145.0 --power 37 "
     "--latitude 44.4939 --longitude 11.3428 --altitude 290 --transmit-tone 88.5", [line("insert-channel", 0, **HILL)]),
    ("add channel --mode dmr --name 'Hill DMR' --receive-frequency 430.8625 --transmit-frequency 432.4625 --receive-colour 3 "
     "--transmit-colour 3 --slot 2 --contact Local", [line("insert-channel", 1, **HILL_DMR)]),
    ("add channel --mode m17 --name 'M17 calling' --receive-frequency 433475kHz --bandwidth 25 --transmit-access 5 --operation both "
     "--position on --contact Everyone --at 0", [line("insert-channel", 0, **M17)]),
    ("add channel --like Hill --name 'Hill 2' --receive-frequency 145.6125 --transmit-frequency 145.0125",
     [line("insert-channel", 3, **HILL_2)]),
    ("add bank --name Everyday", [line("insert-bank", 0, name="Everyday")]),
    ("add bank --no-name --at 0", [line("insert-bank", 0, name="")]),
    ("rename bank 0 Digital", [line("rename-bank", 0, name="Digital")]),
    ("add entry Everyday Hill", [line("insert-entry", 1, 0, 1)]),
    ("add entry Everyday 'Hill 2'", [line("insert-entry", 1, 1, 3)]),
    ("add entry Everyday Hill --at 0", [line("insert-entry", 1, 0, 1)]),
    ("add entry Digital 'M17 calling'", [line("insert-entry", 0, 0, 0)]),
    ("add entry Digital 9", None),
    ("remove contact Local", None),
    ("remove channel Hill", None),
    ("set channel 'Hill DMR' --contact none --scan-list 250 --group-list 128",
     [line("replace-channel", 2, **dict(HILL_DMR, contact="none", scan=250, group=128))]),
    ("set channel 'Hill DMR' --contact Everyone", None),
    ("remove contact Local", [line("remove-contact", 0)]),
    ("set channel Hill --transmit-tone off", [line("replace-channel", 1, **dict(HILL, txtone="0:8"))]),
    ("set channel Hill --receive-only yes --receive-tone off:67.0 --no-description",
     [line("replace-channel", 1, **dict(HILL, txtone="0:8", rxonly=1, desc=""))]),
    ("undo --count 2", [line("undo"), line("undo")]),
    ("move channel Hill 3", [line("remove-entry", 1, 1), line("remove-entry", 1, 0), line("remove-channel", 1),
                             line("insert-channel", 3, **HILL), line("insert-entry", 1, 0, 3), line("insert-entry", 1, 1, 3)]),
    ("move contact Everyone 0", [line("replace-channel", 0, **dict(M17, contact="none")), line("remove-contact", 1),
                                 line("insert-contact", 0, mode="m17", name="Everyone", broadcast=1),
                                 line("replace-channel", 0, **dict(M17, contact=0))]),
    ("move bank Everyday 0", [line("remove-bank", 1), line("insert-bank", 0, name="Everyday"), line("insert-entry", 0, 0, 3),
                              line("insert-entry", 0, 1, 3), line("insert-entry", 0, 2, 2)]),
    ("undo", [line("undo")] * 5),
    ("move entry Everyday 2 0", [line("remove-entry", 1, 2), line("insert-entry", 1, 0, 2)]),
    ("remove entry Everyday 2", [line("remove-entry", 1, 2)]),
    ("set contact Region --mode m17 --callsign M17-XYZ", [line("replace-contact", 1, mode="m17", name="Region", callsign="M17-XYZ")]),
    ("set channel 1 --mode fm --receive-tone 71.9",
     [line("replace-channel", 1, **channel("Hill DMR", 430_862_500, tx=432_462_500, scan=250, group=128, rxtone="1:2", txtone="0:0"))]),
    ("remove bank Digital", [line("remove-bank", 0)]),
    ("undo --count 9", [line("undo")] * (1 + 1 + 1 + 1 + 2 + 4 + 6 + 1 + 1)),
    ("undo --count 99", None),
    ("set header --no-description --timestamp 0", [line("set-header", author="Hilltop", description="", timestamp=0)]),
]


def words(command):
    """A command's words, with its file to come behind the verb; '..' holds spaces together."""
    parts = command.split("'")
    return [word for n, part in enumerate(parts) for word in ([part] if n % 2 else part.split())]


class Afternoon(Case):
    def setUp(self):
        super().setUp()
        self.file, self.script = self.folder / "club-new.rtxc", ""

    def second_file(self):
        """What the second program makes of the script; it compares its editor with its book at each call."""
        out = self.folder / "second.rtxc"
        done = subprocess.run([SECOND, "play", "empty", out], input=self.script.encode(), capture_output=True, timeout=60)
        self.assertEqual((done.returncode, done.stderr), (0, b""))
        self.assertNotIn(b"refused", done.stdout)
        return out.read_bytes()

    def step(self, command, calls):
        verb, *rest = words(command)
        answer = run(verb, self.file, *rest)
        self.script += "".join(calls or [])
        self.assertEqual(answer.status, 0 if calls else 1, (command, answer.err))
        self.assertEqual(answer.out, b"", command)
        self.assertEqual(self.file.read_bytes(), self.second_file(), command)

    def test_afternoon(self):
        self.ok("new", self.file)
        for command, calls in AFTERNOON:
            self.step(command, calls)
        self.assertEqual(self.ok("check", self.file), "ok 3 4 2\n")


if __name__ == "__main__":
    unittest.main()

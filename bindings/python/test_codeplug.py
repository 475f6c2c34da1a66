#!/usr/bin/env python3
"""Tests of codeplug.py: python3 bindings/python/test_codeplug.py."""
import array
import ctypes
import os
import pathlib
import re
import shutil
import subprocess
import tempfile
import unittest
from dataclasses import replace

import codeplug_c
from codeplug import (BROADCAST, FILE_MAX, HEADER_SIZE, TEXT_SIZE, Bank, Channel, Codeplug, Contact, Counts, DmrContact, DmrInfo,
                      EditAnswer, EditKind, Edition, FmInfo, Header, M17Contact, M17Info, Refused, __version__, decode_address,
                      encode_callsign, history_entries, migrate, tone_frequency, tone_index, validate, validate_legacy, version,
                      write_channel, write_contact, write_empty, write_text)
from codeplug_refused import TEXTS, accepted

ROOT = pathlib.Path(__file__).resolve().parents[2]
HEADER = (ROOT / "bindings/c/include/codeplug.h").read_text()


def sample(name):
    return (ROOT / "samples" / f"{name}.rtxc").read_bytes()


def club():
    """The club's codeplug: 6 contacts, 10 channels, 4 banks."""
    return Codeplug(sample("club"), 1000, 10000)


def dmr(name="", number=1):
    return Contact(name, DmrContact(number))


def fm(name="", **rest):
    return Channel(name, "", 145500000, 145500000, rest.pop("info", FmInfo()), **rest)


def dmr_channel(contact):
    return fm(info=DmrInfo(1, 15, 2, contact))


def m17_channel(contact):
    return fm(info=M17Info(15, 1, 3, 2, True, contact))


class Case(unittest.TestCase):
    def refused(self, number, place, call, *arguments, **keywords):
        with self.assertRaises(Refused) as caught:
            call(*arguments, **keywords)
        self.assertEqual((caught.exception.number, caught.exception.place), (number, place))


class AsInC(Case):
    def layout(self):
        for name, structure in codeplug_c.STRUCTURES.items():
            yield f"{name} {ctypes.sizeof(structure)} {ctypes.alignment(structure)}"
            for field, _ in structure._fields_:
                place = getattr(structure, field)
                yield f"{name}.{field} {place.offset} {place.size}"

    def test_structures(self):
        with tempfile.TemporaryDirectory() as place:
            program = os.path.join(place, "layout")
            command = [os.environ.get("CC", "cc"), "-std=c11", "-Ibindings/c/include", "bindings/c/layout.c", "-o", program]
            subprocess.run(command, cwd=ROOT, check=True)
            printed = subprocess.run([program], capture_output=True, text=True, check=True).stdout
        self.assertEqual(list(self.layout()), printed.splitlines())

    def test_every_structure_and_field_of_the_header_is_there(self):
        bodies = re.findall(r"struct codeplug_(\w+) \{(.*?)\n\};", HEADER, re.S)
        there = {name: re.findall(r"^ +[\w ]+ (\w+);", body, re.M) for name, body in bodies}
        self.assertEqual({name: [f for f, _ in s._fields_] for name, s in codeplug_c.STRUCTURES.items()}, there)

    def test_every_function_of_the_header_is_there(self):
        types = {"size_t": "c_ulong", "uint64_t": "c_ulong", "uint32_t": "c_uint", "uint16_t": "c_ushort", "uint8_t": "c_ubyte"}
        names = {f"struct codeplug_{name}": s.__name__ for name, s in codeplug_c.STRUCTURES.items()} | types
        names |= {"uint8_t *": "c_char_p", "const uint8_t *": "c_char_p"}
        there = {}
        for answer, name, arguments in re.findall(r"^(\w[\w ]*) (codeplug_\w+)\(([^;{]*)\);", HEADER, re.M):
            arguments = [] if arguments == "void" else arguments.split(",")
            there[name] = names[answer], [names[re.match(r"(.*?) ?\b\w+$", a.strip())[1]] for a in arguments]
        ours = {name: (answer.__name__, [a.__name__ for a in arguments]) for name, (answer, arguments) in codeplug_c.FUNCTIONS.items()}
        self.assertEqual(ours, there)
        self.assertEqual(len(there), 24)

    def test_refusals_say_what_the_header_says(self):
        table = re.findall(r'^ +REFUSAL\(\w+, (\d+), "(.*)"\)', HEADER, re.M)
        there = {int(number): text for number, text in table}
        self.assertEqual((len(table), len(there)), (28, 28))
        self.assertEqual(TEXTS, there | {0: "not refused"})
        self.assertEqual((Refused(0).text, Refused(13).text), ("not refused", "there is no such refusal"))
        self.assertEqual(str(Refused(33, 0)), "refused 33 at 0: there is no such place")
        self.assertEqual(Refused(33, 0).text, "there is no such place")

    def enum(self, name):
        """An enum of the header: its names, without what they begin with, and numbers."""
        body = re.search(rf"enum codeplug_{name} \{{(.*?)\n\}};", HEADER, re.S)[1]
        found = re.findall(r"^ +CODEPLUG_(\w+) = (\d+)", body, re.M)
        self.assertEqual(len(found), body.count(" = "))
        return {name: int(number) for name, number in found}

    def test_sizes_are_those_of_the_header(self):
        there = self.enum("size")
        self.assertEqual({name: getattr(codeplug_c, name) for name in there}, there)
        self.assertEqual(len(there), 9)
        self.assertEqual((FILE_MAX, HEADER_SIZE, TEXT_SIZE), (there["FILE_MAX"], there["HEADER_SIZE"], there["TEXT_SIZE"]))

    def test_kinds_of_edits_are_those_of_the_header(self):
        self.assertEqual({kind.name: kind.value for kind in EditKind}, self.enum("edit_kind"))
        self.assertEqual(len(EditKind), 12)

    def test_editions_are_those_of_the_header(self):
        self.assertEqual({f"EDITION_{edition.name}": edition.value for edition in Edition}, self.enum("edition"))

    def test_a_library_of_another_major_version_is_not_loaded(self):
        major = int(__version__.split(".")[0])
        build = ROOT / "build"
        self.assertRaisesRegex(ImportError, "is not there", codeplug_c.loaded, build, f"{major + 1}.0.0")
        with tempfile.TemporaryDirectory() as place:
            shutil.copy(build / f"libcodeplug.so.{major}", f"{place}/libcodeplug.so.{major + 1}")
            words = f"has the major version {major}, not {major + 1}"
            self.assertRaisesRegex(ImportError, words, codeplug_c.loaded, pathlib.Path(place), f"{major + 1}.0.0")

    def test_versions_agree(self):
        there = tuple(int(re.search(rf"^#define CODEPLUG_VERSION_{part} (\d+)$", HEADER, re.M)[1]) for part in ("MAJOR", "MINOR", "PATCH"))
        self.assertEqual(version(), there)
        self.assertEqual(__version__, ".".join(map(str, there)))


class Reading(Case):
    def test_opens_or_refuses_each_sample(self):
        for line in (ROOT / "samples" / "answers.txt").read_text().splitlines():
            name, answer = line.split(".rtxc: ")
            try:
                counts = Codeplug(sample(name)).counts()
                found = f"ok {counts.contacts} {counts.channels} {counts.banks}"
                self.assertEqual(validate(sample(name)), counts)
            except Refused as refused:
                found = f"refused {refused.number} at {refused.place}"
                self.refused(refused.number, refused.place, validate, sample(name))
            self.assertEqual(found, answer, name)

    def test_opens_nothing_and_too_much(self):
        self.refused(2, 0, Codeplug, b"")
        self.refused(1, 0, Codeplug, bytes(FILE_MAX + 1))
        self.assertEqual(Codeplug(bytearray(sample("club")), 2**63).bytes(), sample("club"))
        self.assertRaises(ValueError, Codeplug, sample("club"), -1)
        self.assertRaises(ValueError, Codeplug, sample("club"), 0, -1)
        self.assertRaises(TypeError, Codeplug, 88)

    def test_counts_and_header(self):
        codeplug = club()
        self.assertEqual(codeplug.counts(), Counts(6, 10, 4))
        self.assertEqual(codeplug.header(), Header("Hilltop Radio Club", "Members' set, autumn", 1762000000, Counts(6, 10, 4)))
        self.assertEqual((codeplug.bytes(), codeplug.undoable()), (sample("club"), 0))

    def test_contacts(self):
        codeplug = club()
        self.assertEqual(codeplug.contact(2), Contact("Net control", DmrContact(2221337, 1, True)))
        self.assertEqual(codeplug.contact(3), Contact("Everyone", M17Contact(BROADCAST)))
        self.assertEqual(codeplug.contact(5), Contact("Secretary", M17Contact(10476881)))
        self.refused(33, 0, codeplug.contact, 6)
        self.refused(33, 0, codeplug.contact, 2**64 - 1)
        self.assertRaises(ValueError, codeplug.contact, -1)
        self.assertRaises(ValueError, codeplug.contact, 2**64)

    def test_channels(self):
        codeplug = club()
        hill = Channel("Hill", "Repeater, tone on transmit", 145600000, 145000000, FmInfo(None, 2, 0, 2), power=135, latitude=44,
                       latitude_e4=4939, longitude=11, longitude_e4=3428, altitude_plus_500=790)
        self.assertEqual((codeplug.channel(0), hill.mode), (hill, 0))
        self.assertEqual((codeplug.channel(2).bandwidth, codeplug.channel(3).receive_only), (2, True))
        self.assertEqual(codeplug.channel(4).info, DmrInfo(1, 1, 1, 0))
        self.assertIsNone(codeplug.channel(6).info.contact)
        self.assertEqual(codeplug.channel(7).info, M17Info(0, 0, 1, 0, True, 3))
        south = codeplug.channel(9)
        self.assertEqual((south.latitude, south.latitude_e4, south.info.contact), (-34, 1325, None))
        self.refused(33, 0, codeplug.channel, 10)

    def test_a_prevalidated_channel_has_its_contact_looked_up(self):
        def channel(file, n):
            texts = codeplug_c.buffer(codeplug_c.TEXTS_SIZE)
            return accepted(codeplug_c.library.codeplug_channel_prevalidated(bytes(file), len(file), n, texts, len(texts)))

        self.assertEqual(channel(sample("club"), 4).info.contact, 0)
        file = bytearray(sample("club"))
        at = 322 + 90 * 4 + 87
        for bad in 3, 6, 65534:  # an M17 contact, and two that are not there
            file[at:at + 2] = bad.to_bytes(2, "little")
            self.refused(9, at, channel, file, 4)
            self.assertEqual(channel(file, 5).info.mode, 1)

    def test_banks_and_entries(self):
        codeplug = club()
        self.assertEqual((codeplug.bank(0), codeplug.entries(0)), (Bank("Everyday", 5), [0, 1, 4, 5, 2]))
        self.assertEqual((codeplug.entries(2), codeplug.entries(3)), ([], [0, 0, 7]))
        self.refused(33, 0, codeplug.bank, 4)
        self.refused(33, 0, codeplug.entries, 4)


class Records(Case):
    def test_every_sample_record_is_written_as_it_was(self):
        for name in "club", "dealer", "hire":
            file, codeplug, at = sample(name), Codeplug(sample(name)), 88
            for n in range(codeplug.counts().contacts):
                self.assertEqual(write_contact(codeplug.contact(n)), file[at:at + 39])
                at += 39
            for n in range(codeplug.counts().channels):
                self.assertEqual(write_channel(codeplug.channel(n)), file[at:at + 90])
                at += 90

    def test_traits_and_settings(self):
        """The number stands in bits 0 and 1, the flag in bit 2."""
        for number, flag, byte in (0, False, 0), (1, False, 1), (2, False, 2), (0, True, 4), (1, True, 5), (2, True, 6):
            for channel in fm(), dmr_channel(None), m17_channel(None):
                self.assertEqual(write_channel(replace(channel, bandwidth=number, receive_only=flag))[1], byte)
            self.assertEqual(write_contact(Contact("", DmrContact(1, number, flag)))[37], byte)

    def test_contacts_refused(self):
        write_contact(dmr("x" * 32))
        for bad in "x" * 33, "a\nb", "a\0", "\0", "é", "\ud800":
            self.refused(5, 0, write_contact, dmr(bad))
        self.refused(7, 37, write_contact, Contact("", DmrContact(2**32 - 1, 3)))
        for bad in 0, 262144000000000, 2**64 - 1:
            self.refused(8, 33, write_contact, Contact("", M17Contact(bad)))
        self.assertEqual(write_contact(Contact("", M17Contact(BROADCAST)))[33:], b"\xff" * 6)

    def test_channels_refused(self):
        for place, bad in ((1, {"bandwidth": 3}), (11, {"scan_list": 251}), (12, {"group_list": 129}), (77, {"latitude": 91}),
                           (78, {"latitude": 90, "latitude_e4": 1}), (81, {"longitude_e4": 10000}),
                           (85, {"info": FmInfo(receive_kept=50)}), (86, {"info": FmInfo(transmit_tone=50)})):
            self.refused(7, place, write_channel, fm(**bad))
        self.refused(5, 13, write_channel, fm("\t"))
        self.refused(5, 45, write_channel, replace(fm(), description="x" * 33))

    def test_blanks(self):
        self.assertEqual(write_channel(dmr_channel(None))[85:], bytes([0x1F, 2, 255, 255, 0]))
        self.assertEqual(write_channel(dmr_channel(0))[85:], bytes([0x1F, 2, 0, 0, 0]))
        self.assertEqual(write_channel(m17_channel(None))[85:], bytes([0xF1, 0x32, 1, 255, 255]))
        self.assertEqual(write_channel(dmr_channel(65535)), write_channel(dmr_channel(None)))
        self.assertEqual(write_channel(m17_channel(65535)), write_channel(m17_channel(None)))
        self.assertEqual(write_channel(fm(info=FmInfo(None, 0, 31, 9)))[85:], bytes([31, 0x80, 0, 0, 0]))

    def test_numbers_that_do_not_fit(self):
        for bad in (dmr_channel(65536), dmr_channel(-1), fm(bandwidth=256), fm(latitude=200), fm(receive_only=None),
                    fm(info=FmInfo(transmit_tone=256)), fm(info=FmInfo(transmit_kept=-1))):
            self.assertRaises(ValueError, write_channel, bad)
        self.assertRaises(ValueError, write_contact, dmr(number=2**32))
        self.assertRaises(ValueError, write_contact, Contact("", M17Contact(2**64)))
        self.assertRaises(TypeError, write_contact, dmr(number=None))
        with self.assertRaises(AttributeError):
            dmr().nmae = "a name that is not a field"

    def test_texts(self):
        self.assertEqual(write_text("Field day"), b"Field day" + bytes(23))
        self.assertEqual((write_text(""), write_text("~" * 32)), (bytes(32), b"~" * 32))
        for bad in "x" * 33, "a\nb", "a\0", "\x7f", "é", "\ud800":
            self.refused(5, 0, write_text, bad)

    def test_callsigns(self):
        self.assertEqual((encode_callsign("AB1CD"), encode_callsign("." * 9)), (10476881, 262143999999999))
        for number, place, bad in (20, 0, ""), (20, 0, "ABCDEFGHIJ"), (21, 2, "ABc"), (22, 0, "A "):
            self.refused(number, place, encode_callsign, bad)
        self.assertEqual((decode_address(10476881), decode_address(40), decode_address(BROADCAST)), ("AB1CD", " A", None))
        self.refused(23, 0, decode_address, 0)
        self.refused(23, 0, decode_address, 262144000000000)
        self.assertRaises(ValueError, decode_address, -1)

    def test_tones(self):
        self.assertEqual((tone_frequency(0), tone_frequency(49), tone_index(670), tone_index(1000)), (670, 2541, 0, 12))
        for call, bad in (tone_frequency, 50), (tone_frequency, 256), (tone_index, 0), (tone_index, 671), (tone_index, 65536 + 670):
            self.assertRaises(ValueError, call, bad)


class Editing(Case):
    def setUp(self):
        self.codeplug = club()

    def kept(self, number, place, call, *arguments):
        """A refused call leaves the codeplug as it was."""
        codeplug = call.__self__
        before = codeplug.bytes(), codeplug.undoable()
        self.refused(number, place, call, *arguments)
        self.assertEqual((codeplug.bytes(), codeplug.undoable()), before)

    def tearDown(self):
        """Undo brings back the club's file."""
        while self.codeplug.undoable():
            self.codeplug.undo()
        self.assertEqual(self.codeplug.bytes(), sample("club"))
        self.kept(38, 0, self.codeplug.undo)

    def test_insert_contact(self):
        made = self.codeplug.insert_contact(0, dmr("New", 7))
        self.assertEqual((made.length, made.entries, self.codeplug.counts()), (1439, 1, Counts(7, 10, 4)))
        self.assertEqual((self.codeplug.contact(0), self.codeplug.channel(4).info.contact), (dmr("New", 7), 1))
        self.assertIsNone(self.codeplug.channel(6).info.contact)
        self.codeplug.insert_contact(7, dmr("Last"))
        self.kept(33, 0, self.codeplug.insert_contact, 9, dmr())
        self.kept(5, 0, self.codeplug.insert_contact, 0, dmr("\n"))
        self.assertRaises(ValueError, self.codeplug.insert_contact, -1, dmr())

    def test_remove_contact(self):
        self.codeplug.remove_contact(2)
        self.assertEqual((self.codeplug.counts(), self.codeplug.channel(7).info.contact), (Counts(5, 10, 4), 2))
        self.kept(35, 0, self.codeplug.remove_contact, 0)
        self.kept(33, 0, self.codeplug.remove_contact, 5)

    def test_replace_contact(self):
        self.codeplug.replace_contact(1, dmr("Region", 91))
        self.assertEqual(self.codeplug.contact(1), dmr("Region", 91))
        self.kept(9, 769, self.codeplug.replace_contact, 0, self.codeplug.contact(5))
        self.kept(33, 0, self.codeplug.replace_contact, 6, dmr())
        self.kept(7, 37, self.codeplug.replace_contact, 1, Contact("", DmrContact(0, 3)))

    def test_insert_channel(self):
        self.codeplug.insert_channel(0, m17_channel(5))
        self.assertEqual((self.codeplug.counts(), self.codeplug.channel(0)), (Counts(6, 11, 4), m17_channel(5)))
        self.assertEqual(self.codeplug.entries(0), [1, 2, 5, 6, 3])
        self.codeplug.insert_channel(11, dmr_channel(None))
        self.kept(9, 322 + 87, self.codeplug.insert_channel, 0, dmr_channel(6))
        self.kept(33, 0, self.codeplug.insert_channel, 13, fm())

    def test_remove_channel(self):
        self.codeplug.remove_channel(3)
        self.assertEqual((self.codeplug.counts(), self.codeplug.entries(1)), (Counts(6, 9, 4), [3, 4, 5, 6, 7]))
        self.kept(35, 0, self.codeplug.remove_channel, 0)
        self.kept(33, 0, self.codeplug.remove_channel, 9)

    def test_replace_channel(self):
        hill = self.codeplug.channel(0)
        hill.info.transmit_tone = None
        self.codeplug.replace_channel(0, hill)
        self.assertEqual(self.codeplug.channel(0).info, FmInfo(None, None, 0, 2))
        self.kept(33, 0, self.codeplug.replace_channel, 10, hill)
        self.kept(7, 77, self.codeplug.replace_channel, 0, replace(hill, latitude=91))
        self.kept(9, 322 + 88, self.codeplug.replace_channel, 0, m17_channel(0))

    def test_insert_bank(self):
        self.codeplug.insert_bank(4, "x" * 32)
        self.codeplug.insert_bank(0, "")
        counts = self.codeplug.counts()
        self.assertEqual((counts, self.codeplug.bank(5), self.codeplug.entries(0)), (Counts(6, 10, 6), Bank("x" * 32, 0), []))
        self.kept(33, 0, self.codeplug.insert_bank, 7, "")
        for bad in "x" * 33, "a\0", "é":
            self.kept(5, 0, self.codeplug.insert_bank, 0, bad)

    def test_remove_bank(self):
        self.codeplug.remove_bank(0)
        self.assertEqual((self.codeplug.counts(), self.codeplug.entries(0)), (Counts(6, 10, 3), [4, 5, 6, 7, 8]))
        self.kept(33, 0, self.codeplug.remove_bank, 3)

    def test_rename_bank(self):
        self.codeplug.rename_bank(3, "Best")
        self.assertEqual((self.codeplug.bank(3), self.codeplug.entries(3)), (Bank("Best", 3), [0, 0, 7]))
        self.kept(33, 0, self.codeplug.rename_bank, 4, "Best")
        self.kept(5, 0, self.codeplug.rename_bank, 3, "a\nb")

    def test_insert_entry(self):
        self.codeplug.insert_entry(2, 0, 9)
        self.codeplug.insert_entry(2, 1, 0)
        self.assertEqual(self.codeplug.entries(2), [9, 0])
        self.kept(33, 0, self.codeplug.insert_entry, 4, 0, 0)
        self.kept(33, 0, self.codeplug.insert_entry, 2, 3, 0)
        self.kept(11, 1238 + 34, self.codeplug.insert_entry, 0, 0, 10)
        self.assertRaises(ValueError, self.codeplug.insert_entry, 0, 0, 65536)

    def test_insert_entry_into_a_full_bank(self):
        codeplug = Codeplug(sample("empty"), 1000, 1000)
        codeplug.insert_channel(0, fm())
        codeplug.insert_bank(0, "Full")
        codeplug = Codeplug(codeplug.bytes()[:-2] + b"\xff\xff" + bytes(2 * 65535), 1000, 1000)
        self.assertEqual(codeplug.bank(0).entries, 65535)
        self.kept(34, 0, codeplug.insert_entry, 0, 0, 0)

    def test_remove_entry(self):
        self.codeplug.remove_entry(0, 2)
        self.assertEqual(self.codeplug.entries(0), [0, 1, 5, 2])
        self.kept(33, 0, self.codeplug.remove_entry, 0, 4)
        self.kept(33, 0, self.codeplug.remove_entry, 4, 0)

    def test_set_header(self):
        self.codeplug.set_header("Shop", "", 2**64 - 1)
        self.assertEqual(self.codeplug.header(), Header("Shop", "", 2**64 - 1, Counts(6, 10, 4)))
        self.kept(5, 0, self.codeplug.set_header, "\n", "\n", 0)
        self.kept(5, 32, self.codeplug.set_header, "", "\n", 0)
        self.assertRaises(ValueError, self.codeplug.set_header, "", "", 2**64)

    def test_without_room_or_history(self):
        self.kept(36, 0, Codeplug(sample("empty"), 37, 1000).insert_bank, 0, "")
        self.assertEqual(Codeplug(sample("empty"), 38, 3).insert_bank(0, ""), EditAnswer(126, 3, 1))
        self.kept(37, 0, Codeplug(sample("empty"), 38, 2).insert_bank, 0, "")
        self.kept(37, 0, Codeplug(sample("empty")).set_header, "", "", 1)

    def test_history_drops_the_oldest(self):
        codeplug = Codeplug(sample("empty"), 0, 4)
        self.assertEqual(codeplug.set_header("", "", 1), EditAnswer(88, 4, 1))
        self.assertEqual(codeplug.set_header("", "", 2), EditAnswer(88, 4, 1))
        self.assertEqual((codeplug.undo(), codeplug.header().timestamp), (EditAnswer(88, 0, 0), 1))
        self.kept(38, 0, codeplug.undo)


class Storing(Case):
    """A codeplug from nothing, and one that was stored with its history."""

    def edited(self):
        codeplug = club()
        codeplug.rename_bank(0, "Daily")
        codeplug.insert_contact(0, dmr("New", 7))
        return codeplug

    def undo_all(self, codeplug):
        while codeplug.undoable():
            codeplug.undo()
        self.assertEqual((codeplug.bytes(), codeplug.history()), (sample("club"), b""))
        self.refused(38, 0, codeplug.undo)

    def test_empty(self):
        codeplug = Codeplug.empty(1000, 1000)
        self.assertEqual((codeplug.bytes(), write_empty(), codeplug.undoable()), (sample("empty"), sample("empty"), 0))
        codeplug.insert_bank(0, "Field day")
        codeplug.set_header("Shop", "", 1)
        self.assertEqual((codeplug.header(), codeplug.bank(0)), (Header("Shop", "", 1, Counts(0, 0, 1)), Bank("Field day", 0)))
        self.refused(36, 0, Codeplug.empty(0, 1000).insert_bank, 0, "")
        self.refused(37, 0, Codeplug.empty().set_header, "", "", 1)
        self.assertRaises(ValueError, Codeplug.empty, -1)

    def test_history_entries(self):
        codeplug = Codeplug.empty(0, 12)
        for n in 1, 2, 3:
            codeplug.set_header("", "", n)
            self.assertEqual((history_entries(codeplug.history()), len(codeplug.history())), (n, 4 * n))
        self.assertEqual((history_entries(b""), history_entries(bytearray(codeplug.history()))), (0, 3))
        self.refused(31, 0, history_entries, b"\x80\0")
        self.refused(31, 0, history_entries, codeplug.history()[:-1])
        self.assertRaises(TypeError, history_entries, 3)

    def test_restored_and_undone(self):
        stored = self.edited()
        codeplug = Codeplug.restore(stored.bytes(), stored.history())
        self.assertEqual((codeplug.bytes(), codeplug.history(), codeplug.undoable()), (stored.bytes(), stored.history(), 2))
        self.undo_all(codeplug)

    def test_restored_and_edited(self):
        stored = self.edited()
        codeplug = Codeplug.restore(stored.bytes(), stored.history(), 1000, 10000)
        self.assertEqual(codeplug.insert_bank(0, "More").entries, 3)
        self.undo_all(codeplug)

    def test_restored_after_removals(self):
        """There is room for what undo brings back, whatever spare bytes are asked for."""
        stored = club()
        for call, times in (stored.remove_bank, 4), (stored.remove_channel, 10):
            for _ in range(times):
                call(0)
        for spare in 0, 1, 2000, 2**63:
            codeplug = Codeplug.restore(stored.bytes(), stored.history(), spare)
            self.assertEqual(codeplug.undoable(), 14)
            self.undo_all(codeplug)

    def test_restore_refused(self):
        file, history = self.edited().bytes(), self.edited().history()
        self.refused(12, 1400, Codeplug.restore, sample("club-trailing"), history)
        self.refused(12, 1400, Codeplug.restore, sample("club-trailing"), b"\x80\0")
        self.refused(31, 0, Codeplug.restore, file, b"\x80\0")
        self.refused(2, 0, Codeplug.restore, b"", b"")
        self.assertRaises(ValueError, Codeplug.restore, file, history, -1)
        self.assertRaises(ValueError, Codeplug.restore, file, history, 0, -1)
        self.assertRaises(TypeError, Codeplug.restore, file, 0)

    def test_restored_with_the_history_of_another(self):
        """Undo tells, and changes nothing."""
        history = self.edited().history()
        codeplug = Codeplug.restore(sample("empty"), history)
        self.refused(39, 0, codeplug.undo)
        self.assertEqual((codeplug.bytes(), codeplug.history(), codeplug.undoable()), (sample("empty"), history, 2))


def contact_at(n):
    """The first byte of a contact of the club's file."""
    return 88 + 39 * n


def channel_at(n):
    return 322 + 90 * n


class Legacy(Case):
    """Legacy files: validated by the legacy reading, and migrated."""
    COUNTS = Counts(6, 10, 4)
    # Every byte that traits and settings may be by the legacy reading, and by the new one.
    BYTES = {0: 0, 0x20: 4, 0x40: 1, 0x60: 5, 0x80: 2, 0xA0: 6}

    def club_with(self, at, changed):
        """The club's legacy file with other bytes at a place."""
        file = sample("club-legacy")
        return file[:at] + bytes(changed) + file[at + len(changed):]

    def both_refuse(self, number, place, file):
        self.refused(number, place, validate_legacy, file)
        given = bytearray(file)
        self.refused(number, place, migrate, given)
        self.assertEqual(given, file)

    def test_the_legacy_sample_becomes_the_club(self):
        legacy = sample("club-legacy")
        self.refused(7, 203, validate, legacy)
        self.assertEqual((validate_legacy(legacy), migrate(legacy)), (self.COUNTS, sample("club")))
        changed = [n for n, byte in enumerate(legacy) if byte != sample("club")[n]]
        self.assertEqual(changed, [contact_at(2) + 37, channel_at(2) + 1, channel_at(3) + 1])

    def test_migrated_records_are_those_of_the_club(self):
        self.refused(7, 203, Codeplug, sample("club-legacy"))
        ours, there = Codeplug(migrate(sample("club-legacy"))), club()
        self.assertEqual(ours.header(), there.header())
        for read, count in (Codeplug.contact, 6), (Codeplug.channel, 10), (Codeplug.bank, 4), (Codeplug.entries, 4):
            for n in range(count):
                self.assertEqual(read(ours, n), read(there, n))
        self.assertEqual(ours.contact(2).info, DmrContact(2221337, 1, True))
        self.assertEqual([(ours.channel(n).bandwidth, ours.channel(n).receive_only) for n in (2, 3)], [(2, False), (0, True)])

    def test_bytes_like(self):
        """What is given stays, whatever it is; bytes come back."""
        legacy = sample("club-legacy")
        for given in legacy, bytearray(legacy), memoryview(bytearray(legacy)), array.array("Q", legacy):
            before = bytes(given)
            self.assertEqual((validate_legacy(given), migrate(given)), (self.COUNTS, sample("club")))
            self.assertIs(type(migrate(given)), bytes)
            self.assertEqual(bytes(given), before)
        doubled = bytes(byte for byte in legacy for _ in range(2))
        self.assertEqual(migrate(memoryview(doubled)[::2]), sample("club"))
        for call in validate_legacy, migrate:
            self.assertRaises(TypeError, call, 88)
            self.assertRaises(TypeError, call, "RTXC")
            self.assertRaises(TypeError, call, None)

    def test_every_byte(self):
        """As a contact's settings and as the traits of a channel of each mode."""
        for at in contact_at(0) + 37, channel_at(0) + 1, channel_at(4) + 1, channel_at(9) + 1:
            for byte in range(256):
                file = self.club_with(at, [byte])
                if byte in self.BYTES:
                    self.assertEqual(validate_legacy(file), self.COUNTS)
                    self.assertEqual(migrate(file), sample("club")[:at] + bytes([self.BYTES[byte]]) + sample("club")[at + 1:])
                else:
                    self.both_refuse(7, at, file)

    def test_fields_read_as_they_did(self):
        for byte in self.BYTES:
            number, flag = byte >> 6, byte & 0x20 != 0
            ours = Codeplug(migrate(self.club_with(channel_at(7) + 1, [byte]))).channel(7)
            self.assertEqual((ours.bandwidth, ours.receive_only), (number, flag))
            ours = Codeplug(migrate(self.club_with(contact_at(1) + 37, [byte]))).contact(1)
            self.assertEqual(ours.info, DmrContact(2227, number, flag))

    def test_an_m17_address_stays(self):
        """Byte 37 of an M17 contact belongs to its address."""
        for byte in range(256):
            left = migrate(self.club_with(contact_at(5) + 33, [0, 0, 0, 1, byte, 0]))
            self.assertEqual(Codeplug(left).contact(5).info, M17Contact(0x10000 + 0x100 * byte))

    def test_each_refusal(self):
        for number, at, changed in ((3, 0, b"r"), (4, 8, b"\2"), (5, channel_at(9) + 13, b"\n"), (6, channel_at(9), b"\3"),
                                    (7, channel_at(9) + 77, [91]), (8, contact_at(4) + 33, b"\xff\xff"), (9, channel_at(4) + 87, b"\3"),
                                    (10, 1222, b"\1"), (11, 1238 + 34, [10])):
            self.both_refuse(number, at, self.club_with(at, changed))
        self.both_refuse(1, 0, bytes(FILE_MAX + 1))
        self.both_refuse(2, 0, b"")
        self.both_refuse(12, 1400, sample("club-legacy") + b"\0")

    def test_cut_at_every_length(self):
        """A legacy file is refused as the file it becomes is."""
        for length in range(1400):
            with self.assertRaises(Refused) as caught:
                validate(sample("club")[:length])
            self.assertEqual(caught.exception.number, 2)
            self.both_refuse(2, caught.exception.place, sample("club-legacy")[:length])

    def test_migrated_twice_is_refused(self):
        self.both_refuse(7, 203, migrate(sample("club-legacy")))

    def test_valid_by_both_readings_stays(self):
        for name in "dealer", "hire", "empty":
            self.assertEqual((validate_legacy(sample(name)), migrate(sample(name))), (validate(sample(name)), sample(name)))

    def test_edited_and_undone(self):
        """Edits begin at the migrated file, and undo leads back to it."""
        codeplug = Codeplug(migrate(sample("club-legacy")), 1000, 10000)
        codeplug.remove_contact(2)
        codeplug.remove_channel(3)
        while codeplug.undoable():
            codeplug.undo()
        self.assertEqual(codeplug.bytes(), sample("club"))

    def test_the_history_of_a_legacy_file_does_not_fit(self):
        """Why it is thrown away: undo may be refused, or bring back a wrong file."""
        # Settings of contact 2, at 203, were 0x40.
        self.refused(39, 0, Codeplug.restore(sample("club"), bytes([0xCB, 1, 1, 1, 0x40])).undo)
        # Its mode, at 198, was M17: then byte 203 belonged to the address, and should have stayed 0x60.
        codeplug = Codeplug.restore(sample("club"), bytes([0xC6, 1, 1, 1, 2]))
        codeplug.undo()
        right = migrate(self.club_with(198, [2]))
        self.assertEqual((codeplug.bytes()[203], right[203], validate(right)), (5, 0x60, self.COUNTS))


OLDER, NEWER = {"edition": Edition.OLDER}, {"edition": Edition.NEWER}


class Editions(Case):
    """Both editions of M17 addresses (document 02, [10]), of addresses, files, edits and undo."""
    HASH, LAST = 40**9, 40**9 + 40**8 - 1  # the hash sign alone, and the last hash address
    PLACE = 199  # the first hash address of the sample
    COUNTS = Counts(7, 6, 2)

    def m17(self, callsign):
        return Contact("Crew", M17Contact(encode_callsign(callsign, **NEWER)))

    def test_borders_by_number(self):
        for number, text in (self.HASH, "#"), (self.HASH + 1, "#A"), (self.HASH + 40, "# A"), (self.LAST, "#........"):
            self.refused(23, 0, decode_address, number)
            self.assertEqual((decode_address(number, **NEWER), encode_callsign(text, **NEWER)), (text, number))
            self.refused(21, 0, encode_callsign, text)
        for edition in OLDER, NEWER:
            self.assertEqual((decode_address(1, **edition), decode_address(self.HASH - 1, **edition)), ("A", "........."))
            self.assertIsNone(decode_address(BROADCAST, **edition))
            for number in 0, self.LAST + 1, BROADCAST - 1, BROADCAST + 1, 2**64 - 1:
                self.refused(23, 0, decode_address, number, **edition)

    def test_texts(self):
        self.assertEqual(encode_callsign("#AB1CD", **NEWER), self.HASH + 10476881)
        for text, older, newer in (("# ", (21, 0), (22, 0)), ("#A ", (21, 0), (22, 0)), ("##", (21, 0), (21, 1)), ("#A#", (21, 0), (21, 2)),
                                   ("#a", (21, 0), (21, 1)), ("A#", (21, 1), (21, 1)), (" #", (21, 1), (21, 1)), ("", (20, 0), (20, 0)),
                                   ("#" + 9 * ".", (20, 0), (20, 0)), ("A ", (22, 0), (22, 0))):
            self.refused(*older, encode_callsign, text)
            self.refused(*older, encode_callsign, text, **OLDER)
            self.refused(*newer, encode_callsign, text, **NEWER)

    def test_alike_where_both_accept(self):
        """A number that is good by both editions has one text, and that text one number."""
        for number in [1 + 131072000001 * n for n in range(2000)] + list(range(1, 100)) + list(range(self.HASH - 100, self.HASH)):
            text = decode_address(number, **OLDER)
            self.assertEqual(decode_address(number, **NEWER), text)
            self.assertEqual((encode_callsign(text, **OLDER), encode_callsign(text, **NEWER)), (number, number))

    def test_numbers_that_are_no_edition(self):
        """The library takes any for the older edition, this module only those of Edition."""
        file, library = sample("hash"), codeplug_c.library
        answers = {n: library.codeplug_validate(file, len(file), n).number for n in (0, 1, 2, 3, 256, 257, 2**31 + 1, 2**32 - 1)}
        self.assertEqual({n for n, number in answers.items() if number == 0}, {1})
        self.assertEqual({number for n, number in answers.items() if n != 1}, {8})
        for bad in 2, -1, 2**32 + 1, "newer", None:
            for call in ((validate, file), (validate_legacy, file), (migrate, file), (encode_callsign, "A"), (decode_address, 1),
                         (write_contact, dmr()), (Codeplug, file), (Codeplug.empty,), (Codeplug.restore, file, b"")):
                self.assertRaises(ValueError, *call, edition=bad)
        self.assertEqual(validate(file, edition=1), self.COUNTS)
        self.assertRaises(TypeError, validate, file, Edition.NEWER)

    def test_written_contacts(self):
        for number in self.HASH, self.HASH + 1, self.LAST:
            contact = Contact("", M17Contact(number))
            self.refused(8, 33, write_contact, contact)
            self.assertEqual(write_contact(contact, **NEWER)[33:], number.to_bytes(6, "big"))
        for edition in OLDER, NEWER:
            for bad in 0, self.LAST + 1, BROADCAST - 1, 2**64 - 1:
                self.refused(8, 33, write_contact, Contact("", M17Contact(bad)), **edition)
            for good in 1, self.HASH - 1, BROADCAST:
                self.assertEqual(write_contact(Contact("", M17Contact(good)), **edition)[33:], good.to_bytes(6, "big"))

    def test_the_sample_by_both(self):
        file = sample("hash")
        for call in validate, Codeplug, validate_legacy, migrate:
            self.refused(8, self.PLACE, call, file)
        self.refused(8, self.PLACE, Codeplug.restore, file, b"")
        self.assertEqual(validate(file, **NEWER), self.COUNTS)
        codeplug = Codeplug(file, **NEWER)
        self.assertEqual((codeplug.edition(), club().edition()), (Edition.NEWER, Edition.OLDER))
        callsigns = [decode_address(codeplug.contact(n).info.address, **NEWER) for n in range(6)]
        self.assertEqual(callsigns, [None, "AB1CD", "#CREW", "# 2", "#", "#........"])
        self.assertEqual((codeplug.counts(), codeplug.channel(1).info.contact, codeplug.entries(1)), (self.COUNTS, 2, [5, 4]))
        for n in range(7):
            self.assertEqual(write_contact(codeplug.contact(n), **NEWER), file[contact_at(n):contact_at(n + 1)])

    def test_every_sample_by_both(self):
        """A file that the older edition accepts the newer accepts and reads alike."""
        for name in "club", "dealer", "hire", "empty":
            older, newer = Codeplug(sample(name)), Codeplug(sample(name), **NEWER)
            counts = older.counts()
            self.assertEqual(older.header(), newer.header())
            for read, count in (Codeplug.contact, counts.contacts), (Codeplug.channel, counts.channels), (Codeplug.entries, counts.banks):
                self.assertEqual([read(older, n) for n in range(count)], [read(newer, n) for n in range(count)])

    def test_edited(self):
        older = club()
        self.refused(8, 33, older.insert_contact, 0, self.m17("#AB1"))
        self.refused(8, 33, older.replace_contact, 5, self.m17("#AB1"))
        self.assertEqual((older.bytes(), older.undoable()), (sample("club"), 0))
        newer = Codeplug(sample("club"), 1000, 10000, **NEWER)
        newer.insert_contact(0, self.m17("#AB1"))
        newer.replace_contact(6, self.m17("#"))
        self.assertEqual((newer.contact(0), newer.contact(6)), (self.m17("#AB1"), self.m17("#")))
        self.refused(8, 88 + 33, Codeplug.restore, newer.bytes(), newer.history())
        again = Codeplug.restore(newer.bytes(), newer.history(), **NEWER)
        self.assertEqual((again.undo().entries, again.undo().entries, again.bytes()), (1, 0, sample("club")))
        self.refused(38, 0, again.undo)

    def test_undone_by_the_other_edition(self):
        """What undo would bring back the older edition may refuse; the newer takes over whatever the older left."""
        newer = Codeplug.empty(1000, 1000, **NEWER)
        newer.insert_contact(0, self.m17("#AB1"))
        newer.remove_contact(0)
        older = Codeplug.restore(newer.bytes(), newer.history())
        self.refused(39, 0, older.undo)
        self.assertEqual((older.bytes(), older.history(), older.undoable()), (newer.bytes(), newer.history(), 2))
        newer.undo()
        self.assertEqual(newer.contact(0), self.m17("#AB1"))
        older = club()
        older.rename_bank(0, "Daily")
        newer = Codeplug.restore(older.bytes(), older.history(), **NEWER)
        self.assertEqual((newer.undo().entries, newer.bytes()), (0, sample("club")))

    def test_legacy_files(self):
        """A hash address stays, and the edition decides over it."""
        at, raw = contact_at(5) + 33, (self.HASH + 1).to_bytes(6, "big")
        legacy, expected = (file[:at] + raw + file[at + 6:] for file in (sample("club-legacy"), sample("club")))
        self.refused(8, at, validate_legacy, legacy)
        self.refused(8, at, migrate, legacy)
        self.assertEqual((validate_legacy(legacy, **NEWER), migrate(legacy, **NEWER)), (validate(sample("club")), expected))
        self.assertEqual(Codeplug(expected, **NEWER).contact(5), Contact("Secretary", M17Contact(self.HASH + 1)))


if __name__ == "__main__":
    unittest.main()

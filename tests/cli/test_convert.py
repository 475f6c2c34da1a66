"""codeplug tone, callsign and address: the table of tones and both directions of M17 addresses, with the papers' numbers."""
import random
import unittest

from common import BROADCAST, DIGITS, TONES, Case, address, callsign, run

LAST = 262_143_999_999_999  # nine dots
PAPERS = {"A": 1, "AB1CD": 10_476_881, " A": 40, ".........": LAST, "M17-XYZ A": address("M17-XYZ A"), "9": 36, "-": 37, "/": 38, ".": 39}


class Tone(Case):
    def test_the_table_has_all_fifty(self):
        rows = [line.split() for line in self.ok("tone").splitlines()]
        self.assertEqual(rows, [[str(index), hertz] for index, hertz in enumerate(TONES)])

    def test_every_tone_both_ways(self):
        for index, hertz in enumerate(TONES):
            self.assertEqual(self.ok("tone", hertz), f"{index}\n")
            self.assertEqual(self.ok("tone", "--index", index), f"{hertz}\n")

    def test_the_papers_tones(self):
        self.assertEqual((self.ok("tone", "173.8"), self.ok("tone", "107.2")), ("31\n", "14\n"))

    def test_a_whole_number_of_hertz(self):
        self.assertEqual((self.ok("tone", "67"), self.ok("tone", "100")), ("0\n", "12\n"))

    def test_no_such_tone(self):
        for hertz in ("88.6", "0", "1000", "66.9", "254.2", "88"):
            with self.subTest(hertz):
                answer = run("tone", hertz)
                self.assertEqual((answer.status, answer.out, answer.err.count("\n")), (1, b"", 1))

    def test_no_such_index(self):
        for index in ("50", "127", "255"):
            with self.subTest(index):
                answer = run("tone", "--index", index)
                self.assertEqual((answer.status, answer.out, answer.err.count("\n")), (1, b"", 1))

    def test_a_number_that_is_none(self):
        for args in (["x"], ["8,5"], ["--index", "x"], ["--index", "1.5"], [""], ["--index", ""]):
            with self.subTest(args):
                self.usage("tone", *args)

    def test_wrong_usage(self):
        for args in (["88.5", "71.9"], ["--index"], ["--index", "1", "--index", "2"], ["88.5", "--index", "8"], ["--table"]):
            with self.subTest(args):
                self.usage("tone", *args)


class Callsign(Case):
    def test_the_papers_callsigns(self):
        for text, number in PAPERS.items():
            if not text.startswith("-"):
                with self.subTest(text):
                    self.assertEqual(self.ok("callsign", text), f"{number}\n")

    def test_six_bytes_as_a_contact_holds_them(self):
        for text, number in {"A": 1, "AB1CD": 10_476_881, ".........": LAST}.items():
            hexadecimal = self.ok("callsign", text, "--hex").lower().replace(" ", "").replace("0x", "")
            self.assertEqual(hexadecimal, f"{number:012x}\n")

    def test_refusals(self):
        cases = {"": (20, 0), "ABCDEFGHIJ": (20, 0), "A ": (22, 0), " ": (22, 0), "ab": (21, 0), "AbC": (21, 1), "A!B": (21, 1)}
        cases |= {"AB_": (21, 2), "Aé": (21, 1), "A\n": (21, 1), "a ": (21, 0), "abcdefghij": (20, 0), "ABCDEFGH ": (22, 0)}
        for text, (number, place) in cases.items():
            with self.subTest(text):
                self.refused(number, place, "callsign", text)

    def test_small_letters_are_not_made_large(self):
        self.refused(21, 0, "callsign", "ab1cd")

    def test_wrong_usage(self):
        for args in ([], ["A", "B"], ["A", "--hex", "--hex"], ["A", "--octal"]):
            with self.subTest(args):
                self.usage("callsign", *args)


class Address(Case):
    def test_the_papers_addresses(self):
        for text, number in PAPERS.items():
            with self.subTest(text):
                self.assertEqual(self.ok("address", number), f"{text}\n")

    def test_hexadecimal(self):
        self.assertEqual(self.ok("address", "0x9fdd11"), callsign(0x9FDD11) + "\n")
        self.assertEqual(self.ok("address", "0x9FDC51"), callsign(0x9FDC51) + "\n")
        self.assertEqual(self.ok("address", hex(LAST)), ".........\n")

    def test_broadcast(self):
        for number in (BROADCAST, "0xFFFFFFFFFFFF", "0xffffffffffff"):
            self.assertEqual(self.ok("address", number), "broadcast\n")

    def test_no_address(self):
        for number in (0, "0x0", LAST + 1, BROADCAST - 1, BROADCAST + 1):
            with self.subTest(number):
                self.refused(23, 0, "address", number)

    def test_a_number_of_more_than_64_bits(self):
        answer = run("address", 2**64 + 1)
        self.assertIn((answer.status, answer.out, answer.err.count("\n")), [(1, b"", 1), (2, b"", 1)])

    def test_a_number_that_is_none(self):
        for args in ([""], ["x"], ["0x"], ["0xg"], ["1.5"], ["AB1CD"], ["-1"], ["+-1"], ["1_000"]):
            with self.subTest(args):
                self.usage("address", *args)

    def test_wrong_usage(self):
        for args in ([], ["1", "2"], ["1", "--hex"]):
            with self.subTest(args):
                self.usage("address", *args)

    def test_both_ways(self):
        draw = random.Random(40)
        for _ in range(40):
            text = "".join(draw.choice(DIGITS) for _ in range(draw.randrange(9))) + draw.choice(DIGITS[1:])
            if not text.startswith("-"):
                self.assertEqual(self.ok("callsign", text), f"{address(text)}\n")
            self.assertEqual(self.ok("address", address(text)), f"{text}\n")

    def test_a_callsign_that_begins_with_a_hyphen(self):
        answers = [run("callsign", "-A").out, run("callsign", "--", "-A").out]
        self.assertIn(f"{address('-A')}\n".encode(), answers)


if __name__ == "__main__":
    unittest.main()

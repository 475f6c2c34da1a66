"""What can be undone: listed, undone one by one or many at once, and never applied where it does not belong."""
import os
import re
import unittest

from saving import SMALL, Case, commands_in, entries_of, run, sample, sha, states_of, with_author, with_bank, with_timestamp

EDITS = (
    ("set", "header", "--author", "Author"), ("set", "contact", "0", "--id", "77"), ("set", "channel", "2", "--transmit-tone", "88.5"),
    ("add", "bank", "--name", "Extra"), ("add", "entry", "0", "3"), ("add", "contact", "--like", "0", "--name", "Copy", "--at", "0"),
    ("add", "channel", "--like", "4", "--name", "Copy", "--at", "1"), ("rename", "bank", "0", "Renamed"), ("move", "channel", "0", "7"),
    ("move", "contact", "3", "0"), ("move", "bank", "3", "0"), ("move", "entry", "0", "0", "2"), ("remove", "bank", "2"), ("remove", "entry", "0", "1"),
)


def first_size():
    """The size of a history that nobody gave a size, as the help says it."""
    return int(re.search(r"(\d+) at first", run("help", "set").out.decode()).group(1))


class Listed(Case):
    def steps(self, *edits):
        """Does the edits; returns all states."""
        states = [self.content]
        for verb, *rest in edits:
            self.edit(verb, self.file, *rest)
            states.append(self.file.read_bytes())
        return states

    def differences(self, states):
        """The lines of `diff` between each two states, newest first."""
        for old, new in reversed(list(zip(states, states[1:]))):
            yield self.ok("diff", self.place(old, "a.rtxc"), self.place(new, "b.rtxc")).splitlines()

    def test_newest_first_as_diff_tells_it(self):
        states = self.steps(*EDITS)
        self.assertEqual(commands_in(self.ok("history", self.file)), list(self.differences(states)))

    def test_all_undone(self):
        states = self.steps(*EDITS)
        self.assertEqual(self.undo_all(states), len(EDITS))

    def test_file_of_history(self):
        """Its head tells each state, newest first; its bytes bring them back by the format's own rule."""
        states = self.steps(*EDITS)
        head = self.head()
        self.assertEqual([s for _, s in head.commands], [sha(s) for s in states[:0:-1]])
        self.assertEqual((head.size, head.before), (first_size(), sha(states[0])))
        self.assertEqual(states_of(states[-1], head), states[-2::-1])

    def test_count(self):
        self.steps(*EDITS[:5])
        whole = self.ok("history", self.file)
        for count in range(1, 8):
            part = self.ok("history", self.file, "--count", str(count))
            self.assertEqual(len(commands_in(part)), min(count, 5))
            self.assertTrue(whole.startswith(part))

    def test_nothing(self):
        with self.unchanged():
            self.assertEqual(self.ok("history", self.file), "")

    def test_edit_that_changes_nothing(self):
        """It is done, and is no command that could be undone."""
        states = self.authors("Same")
        with self.unchanged():
            self.author("Same")
        self.assertEqual(self.undo_all(states), 1)

    def test_there_and_back(self):
        """The same state more than once: each step back is still the right one."""
        names = ("A", "B", "A", "B", "A")
        states = self.authors(*names)
        self.edit("undo", self.file, "--count", "2")
        self.assertEqual(self.undo_all(states[:-2]), 3)

    def test_history_changes_nothing(self):
        self.authors("One", "Two")
        with self.unchanged():
            self.assertEqual(self.listed(), 2)


class Batches(Case):
    """A command of many edits is stored in batches, and undone as a whole, in little time."""
    content = sample("hire")

    def test_a_bank_of_many_entries(self):
        start = len(self.content) + 38
        entries = 3_000
        plug = with_bank(self.content, "Many")
        plug = plug[:-2] + entries.to_bytes(2, "little") + bytes(n % 40 if m == 0 else 0 for n in range(entries) for m in range(2))
        self.file.write_bytes(plug)
        self.edit("move", self.file, "bank", "4", "0")
        (count, _), = self.head().commands
        self.assertEqual((count, len(plug)), (entries + 2, start + 2 * entries))
        self.assertEqual(states_of(self.file.read_bytes(), self.head()), [plug])
        self.edit("move", self.file, "bank", "0", "4")
        self.assertEqual(self.file.read_bytes(), plug)
        self.edit("undo", self.file, "--count", "2")
        self.assertEqual(self.file.read_bytes(), plug)

    def test_many_commands(self):
        """No more than 10,000 are kept; the oldest go."""
        self.author("First", *SMALL)
        head, raw = self.history.read_bytes().split(b"\n\n", 1)
        lines = head.split(b"\n")
        self.history.write_bytes(b"\n".join(lines[:3] + lines[3:] * 10_000) + b"\n\n" + raw * 10_000)
        self.author("Last", "--history-size", "9999999")
        self.assertEqual(len(self.head().commands), 10_000)
        self.history.write_bytes(b"\n".join(lines[:3] + lines[3:] * 10_001) + b"\n\n" + raw * 10_001)
        self.assertEqual(run("undo", self.file).status, 1)


class Undone(Case):
    def test_count(self):
        states = self.authors("One", "Two", "Three", "Four")
        self.edit("undo", self.file, "--count", "3")
        self.assertEqual((self.file.read_bytes(), self.listed()), (states[1], 1))
        self.edit("undo", self.file, "--count", "1")
        self.assertEqual((self.file.read_bytes(), self.listed()), (states[0], 0))

    def test_beyond_the_beginning(self):
        for count in ((), ("--count", "1"), ("--count", "2"), ("--count", "4294967296")):
            with self.subTest(count=count), self.unchanged():
                self.refused(38, "undo", self.file, *count)
        self.authors("One", "Two")
        for count in ("3", "18446744073709551615"):
            with self.subTest(count=count), self.unchanged():
                self.refused(38, "undo", self.file, "--count", count)

    def test_count_that_is_none(self):
        self.author("One")
        for count in ("x", "-1", "", "1.5", "1 ", "0", "99999999999999999999999"):
            with self.subTest(count=count), self.unchanged():
                self.told("undo", self.file, "--count", count)

    def test_commands_as_a_whole(self):
        """A move is many edits, and one command."""
        for part, which, to in (("channel", "0", "9"), ("contact", "5", "0"), ("bank", "3", "0")):
            with self.subTest(part=part):
                self.edit("move", self.file, part, which, to)
                entries = self.head().commands[0][0]
                self.assertEqual((self.listed(), len(entries_of(self.head().raw))), (1, entries))
                self.edit("undo", self.file)
                self.assertEqual((self.file.read_bytes(), self.listed()), (self.content, 0))

    def test_edits_after_an_undo(self):
        states = self.authors("One", "Two")
        self.edit("undo", self.file)
        states[2:] = [self.author("Instead")]
        self.assertEqual(self.undo_all(states), 2)

    def test_dry_run(self):
        self.authors("One", "Two")
        for verb, *rest in EDITS + (("undo",), ("undo", "--count", "2")):
            with self.subTest(verb=verb, rest=rest), self.unchanged():
                self.assertNotEqual(self.ok(verb, self.file, *rest, "--dry-run"), "")
        with self.unchanged():
            self.refused(38, "undo", self.file, "--count", "3", "--dry-run")
            self.refused(35, "remove", self.file, "contact", "0", "--dry-run")

    def test_dry_run_without_history(self):
        with self.unchanged():
            self.assertIn("Dry", self.ok("set", self.file, "header", "--author", "Dry", "--dry-run"))

    def test_dry_run_says_what_is_done(self):
        for verb, *rest in EDITS[:10]:
            a = self.place(self.file.read_bytes(), "a.rtxc")
            said = self.ok(verb, self.file, *rest, "--dry-run")
            self.edit(verb, self.file, *rest)
            self.assertEqual(said, self.ok("diff", a, self.file), verb)

    def test_verbose(self):
        answer = run("set", self.file, "header", "--author", "Loud", "--verbose")
        self.assertEqual((answer.status, answer.out), (0, b""))
        self.assertIn(b"Loud", answer.err)
        self.assertEqual(self.listed(), 1)


class Elsewhere(Case):
    """The file was changed by something else."""

    def setUp(self):
        super().setUp()
        self.known = self.authors("One", "Two", "Three")
        self.foreign = self.history.read_bytes()
        self.aside = self.beside(".history.aside")

    def change(self, name="Somebody else"):
        self.changed = with_author(self.content, name)
        self.file.write_bytes(self.changed)

    def asides(self):
        """What was set aside, by name."""
        return {path.name: path.read_bytes() for path in self.folder.iterdir() if ".history.aside" in path.name}

    def test_undo(self):
        self.change()
        for count in (1, 2):
            words = self.said("undo", self.file, "--count", str(count))
            self.assertEqual((self.file.read_bytes(), self.asides()), (self.changed, {self.aside.name: self.foreign}))
            self.assertIn("history.aside", words)
            self.assertFalse(self.history.exists())
            self.history.write_bytes(self.aside.read_bytes())
            self.aside.unlink()
        self.refused_afterwards()

    def refused_afterwards(self):
        """Once the history is set aside, there is nothing to undo."""
        self.said("undo", self.file)
        self.refused(38, "undo", self.file)
        self.assertEqual(self.asides(), {self.aside.name: self.foreign})

    def said(self, *arguments):
        answer = run(*arguments)
        self.aside_said(answer)
        return answer.err.decode()

    def test_undo_of_another_codeplug(self):
        for other in (sample("hire"), sample("empty"), with_bank(self.content, "Else")):
            self.history.write_bytes(self.foreign)
            self.file.write_bytes(other)
            self.said("undo", self.file)
            self.assertEqual(self.file.read_bytes(), other)
        self.assertEqual(list(self.asides().values()), [self.foreign] * 3)

    def test_second_time_under_another_name(self):
        kept = {}
        for time in range(4):
            self.change(f"Else {time}")
            expected = list(kept.values()) + [self.history.read_bytes()]
            self.said("undo", self.file)
            self.assertEqual(kept, {name: content for name, content in self.asides().items() if name in kept})
            kept = self.asides()
            self.assertEqual(sorted(kept.values()), sorted(expected))
            self.author(f"Own {time}")

    def test_edit(self):
        self.change()
        answer = run("set", self.file, "header", "--author", "Next")
        self.assertEqual((answer.status, answer.out), (0, b""), answer)
        self.plain(answer.err)
        self.assertIn(b"history.aside", answer.err)
        self.assertEqual(self.asides(), {self.aside.name: self.foreign})
        self.assertEqual(self.undo_all([self.changed, with_author(self.changed, "Next")]), 1)

    def test_refused_edit_leaves_it(self):
        self.change()
        with self.unchanged():
            answer = run("remove", self.file, "contact", "0")
            self.assertEqual((answer.status, answer.out), (1, b""))

    def test_dry_run_leaves_it(self):
        self.change()
        with self.unchanged():
            self.assertEqual(run("set", self.file, "header", "--author", "Dry", "--dry-run").status, 0)
            self.assertIn(run("undo", self.file, "--dry-run").status, (1, 2))

    def test_history_lists_nothing(self):
        self.change()
        with self.unchanged():
            answer = run("history", self.file)
            self.assertEqual((answer.status, answer.out), (0, b""))
            self.plain(answer.err)

    def test_size_is_kept(self):
        """The size that the user gave holds for the history that begins anew, or for the first size."""
        self.author("Four", "--history-size", "5000")
        self.change()
        run("set", self.file, "header", "--author", "Next")
        self.assertIn(self.head().size, (5000, first_size()))

    def test_restored_to_each_earlier_state(self):
        for place, state in enumerate(self.known):
            with self.subTest(place=place):
                self.file.write_bytes(state)
                self.history.write_bytes(self.foreign)
                self.assertEqual(self.listed(), place)
                self.assertEqual(self.undo_all(self.known[: place + 1]), place)

    def test_edited_from_each_earlier_state(self):
        for place, state in enumerate(self.known):
            with self.subTest(place=place):
                self.file.write_bytes(state)
                self.history.write_bytes(self.foreign)
                states = self.known[: place + 1] + [self.author("Instead")]
                self.assertEqual(self.head().commands[0][1], sha(states[-1]))
                self.assertEqual(self.undo_all(states), place + 1)
        self.assertEqual(self.asides(), {})

    def test_changed_and_changed_back(self):
        self.change()
        self.file.write_bytes(self.known[-1])
        self.assertEqual(self.undo_all(self.known), 3)

    def test_file_renamed_with_its_history(self):
        moved = self.folder / "moved.rtxc"
        os.rename(self.file, moved)
        os.rename(self.history, self.folder / "moved.rtxc.history")
        self.file = moved
        self.assertEqual(self.undo_all(self.known), 3)

    def test_new_file_under_the_old_name(self):
        self.file.unlink()
        self.edit("new", self.file)
        self.assertEqual(run("undo", self.file).status in (1, 2), True)
        self.assertEqual(self.file.read_bytes(), sample("empty"))
        self.assertIn(self.foreign, [path.read_bytes() for path in self.folder.iterdir()])


class Damaged(Case):
    """A history that is cut, spoilt or somebody else's is never applied wrongly, and never locks the user out."""
    content = sample("empty")

    def setUp(self):
        super().setUp()
        self.known = self.authors("One", "Two", "Three")
        self.whole = self.history.read_bytes()

    def put(self, history):
        self.history.write_bytes(history)
        self.file.write_bytes(self.known[-1])

    def undo_is_right(self, history):
        """Undo takes the last command back, or nothing and says so: returns which, and what is left of the history lies aside."""
        self.put(history)
        answer = run("undo", self.file)
        self.assertEqual(self.file.read_bytes(), self.known[-2 if answer.status == 0 else -1], answer)
        if answer.status:
            self.aside_said(answer)
            self.assertIn(history, [path.read_bytes() for path in self.folder.iterdir()])
        for path in self.folder.glob("*.aside*"):
            path.unlink()
        return answer.status == 0

    def each_is_right(self, histories):
        """All of them, with one message for those that are not."""
        wrong = {}
        for what, history in histories:
            try:
                self.undo_is_right(history)
            except AssertionError as error:
                wrong[what] = str(error)
        self.assertEqual(len(wrong), 0, f"{len(wrong)} of them, at {list(wrong)[:20]}; the first: {list(wrong.values())[:1]}")

    def test_every_byte_changed(self):
        """The lowest bit of each byte, and the highest one of the entries' bytes."""
        change = lambda place, by: self.whole[:place] + bytes([self.whole[place] ^ by]) + self.whole[place + 1 :]
        self.each_is_right((place, change(place, 0x01)) for place in range(len(self.whole)))
        self.each_is_right((place, change(place, 0x80)) for place in range(self.whole.index(b"\n\n"), len(self.whole)))

    def test_cut(self):
        """At each place of the entries, and at every fifth of the head."""
        entries = self.whole.index(b"\n\n")
        self.each_is_right((length, self.whole[:length]) for length in [*range(0, entries, 5), *range(entries, len(self.whole))])

    def spoilt(self):
        """Histories that are none, by what is wrong with them."""
        head, raw = self.whole[: self.whole.index(b"\n\n") + 2], self.whole[self.whole.index(b"\n\n") + 2 :]
        last = head.index(b"command")
        yield "empty", b""
        yield "a line only", b"codeplug history 1\n"
        yield "no head", raw
        yield "another version", self.whole.replace(b"history 1", b"history 2", 1)
        yield "line ends of another system", head.replace(b"\n", b"\r\n") + raw
        yield "not text", b"\xff" * 200
        yield "zeros", b"\0" * len(self.whole)
        yield "a codeplug", self.content
        yield "no size", re.sub(rb"size \d+", b"size ", self.whole)
        yield "size of many digits", re.sub(rb"size \d+", b"size 99999999999999999999999", self.whole)
        yield "size below 0", re.sub(rb"size \d+", b"size -1", self.whole)
        yield "size of words", re.sub(rb"size \d+", b"size large", self.whole)
        yield "a command of no entries", self.whole.replace(b" 1:", b" 0:", 1)
        yield "a command of no batches", re.sub(rb" 1:\d+", b"", self.whole, count=1)
        yield "a command of an empty batch", self.whole.replace(b" 1:", b" 0:0 1:", 1)
        yield "a command of too many", self.whole.replace(b" 1:", b" 4:", 1)
        yield "a command of far too many", self.whole.replace(b" 1:", b" 18446744073709551615:", 1)
        yield "a batch that is too long", re.sub(rb" 1:\d+", b" 1:18446744073709551615", self.whole, count=1)
        yield "a batch that is too short", re.sub(rb" 1:\d+", b" 1:2", self.whole, count=1)
        yield "fewer commands than entries", head[:last] + head[head.index(b"\n", last) + 1 :] + raw
        yield "commands twice", head[:-1] + head[last:-1] + b"\n" + raw
        yield "bytes after it", self.whole + b"\0"
        yield "entries twice", self.whole + raw
        yield "a number that is too long", head + b"\x80" * 40
        yield "an entry longer than its bytes", head + b"\x0a\x01\xff\xff\x3f"
        yield "no entries", head

    def test_undo(self):
        for what, history in self.spoilt():
            with self.subTest(what=what):
                self.assertFalse(self.undo_is_right(history))

    def test_history(self):
        """Listing says in a line what is wrong, and changes nothing."""
        for what, history in self.spoilt():
            self.put(history)
            with self.subTest(what=what), self.unchanged():
                answer = run("history", self.file)
                self.assertIn(answer.status, (0, 1, 2), answer)
                self.assertEqual(answer.out, b"")
                self.plain(answer.err)

    def test_edit(self):
        """The edit is made, a new history begun, and what was there set aside."""
        for what, history in self.spoilt():
            self.put(history)
            with self.subTest(what=what):
                answer = run("set", self.file, "header", "--author", "Next")
                self.assertEqual((answer.status, answer.out), (0, b""), answer)
                self.plain(answer.err)
                self.assertIn(history, [path.read_bytes() for path in self.folder.glob("*.aside*")])
                self.assertEqual(self.undo_all([self.known[-1], with_author(self.content, "Next")]), 1)
            for path in self.folder.glob("*.aside*"):
                path.unlink()

    def test_largest_size_that_can_be_written(self):
        """A head that asks for more memory than there is."""
        for size in (b"4294967295", b"1099511627776", b"9223372036854775807", b"18446744073709551615"):
            with self.subTest(size=size):
                self.undo_is_right(re.sub(rb"size \d+", b"size " + size, self.whole))

    def test_readers_do_not_care(self):
        for what, history in self.spoilt():
            self.put(history)
            with self.subTest(what=what), self.unchanged():
                self.assertEqual(self.ok("check", self.file), "ok 0 0 0\n")
                self.ok("show", self.file)


class Sizes(Case):
    """How many bytes the history may hold: those of the entries."""
    content = sample("empty")

    def stamp(self, seconds, *more):
        """Sets the timestamp: an entry of four bytes while it is below 256."""
        self.edit("set", self.file, "header", "--timestamp", str(seconds), *more)
        self.assertEqual(self.file.read_bytes(), with_timestamp(self.content, seconds))
        return self.file.read_bytes()

    def test_the_papers_example(self):
        with self.unchanged():
            self.refused(37, "set", self.file, "header", "--timestamp", "1", "--history-size", "3")
        self.stamp(1, "--history-size", "4")
        self.assertEqual((self.head().raw, self.head().size), (bytes.fromhex("4A010100"), 4))

    def test_fits_exactly(self):
        """No entry too many is dropped."""
        for count in range(1, 6):
            self.history.unlink(missing_ok=True)
            self.file.write_bytes(self.content)
            states = [self.content, self.stamp(1, "--history-size", str(4 * count))] + [self.stamp(n) for n in range(2, 8)]
            self.assertEqual((self.listed(), self.undo_all(states)), (count, count))

    def test_kept_for_later_commands(self):
        self.assertEqual(self.sizes(("900",), (), ("--undo",), ("1200",), (), ("700",), ("--undo",), ()), [900, 900, 900, 1200, 1200, 700, 700, 700])

    def sizes(self, *steps):
        """The size in the head after each command; a step is a new size, none, or an undo."""
        found = []
        for number, step in enumerate(steps):
            if step == ("--undo",):
                self.edit("undo", self.file)
            else:
                self.stamp(number + 1, *(("--history-size",) + step if step else ()))
            found.append(self.head().size)
        return found

    def test_first_size(self):
        self.stamp(1)
        self.assertEqual(self.head().size, first_size())

    def test_shrunk(self):
        """The oldest are dropped; a command is never refused for those before it."""
        states = [self.content] + [self.stamp(n) for n in range(1, 10)]
        states.append(self.stamp(10, "--history-size", "13"))
        self.assertEqual((self.head().size, len(self.head().raw), self.listed()), (13, 12, 3))
        self.assertEqual(self.head().before, sha(states[-4]))
        self.assertEqual(self.undo_all(states), 3)

    def test_shrunk_by_undo(self):
        states = [self.content] + [self.stamp(n) for n in range(1, 10)]
        self.edit("undo", self.file, "--history-size", "9")
        self.assertEqual((self.head().size, self.listed()), (9, 2))
        self.assertEqual(self.undo_all(states[:-1]), 2)

    def test_shrunk_by_undo_to_nothing(self):
        """It is the commands that are left that have to fit, not the one that is taken back."""
        states = [self.content] + [self.stamp(n) for n in range(1, 4)]
        self.edit("undo", self.file, "--history-size", "3")
        self.assertEqual((self.file.read_bytes(), self.listed()), (states[-2], 0))

    def test_grown(self):
        states = [self.content, self.stamp(1, "--history-size", "8")] + [self.stamp(n) for n in (2, 3)]
        states += [self.stamp(4, "--history-size", "400")] + [self.stamp(n) for n in range(5, 10)]
        self.assertEqual(self.undo_all(states), 8)

    def test_what_a_size_may_be(self):
        for size in ("x", "-1", "", "1.5", "4M", "99999999999999999999999"):
            with self.subTest(size=size), self.unchanged():
                self.assertEqual(run("set", self.file, "header", "--timestamp", "1", "--history-size", size).status, 2)

    def test_enormous_size(self):
        """More than there is memory for: taken or told, not a crash."""
        for size in ("1099511627776", "9223372036854775807", "18446744073709551615"):
            with self.subTest(size=size):
                answer = run("set", self.file, "header", "--timestamp", "1", "--history-size", size)
                self.assertIn(answer.status, (0, 1, 2), answer)
                self.plain(answer.err) if answer.status else self.assertEqual(answer.err, b"")
                self.assertEqual(self.file.read_bytes(), with_timestamp(self.content, 1) if answer.status == 0 else self.content)
            run("undo", self.file)
            self.file.write_bytes(self.content)

    def test_none(self):
        with self.unchanged():
            self.refused(37, "set", self.file, "header", "--timestamp", "1", "--history-size", "0")


class WholeCommands(Case):
    """A command of many edits fits whole or not at all."""

    def setUp(self):
        super().setUp()
        self.edit("move", self.file, "channel", "0", "7")
        self.moved, self.raw, self.entries = self.file.read_bytes(), self.head().raw, self.head().commands[0][0]

    def test_needs_all_its_bytes(self):
        self.assertGreater(self.entries, 1)
        for size in sorted({1, len(self.raw) // 2, len(self.raw) - 1}):
            self.start_again()
            with self.subTest(size=size), self.unchanged():
                self.refused(37, "move", self.file, "channel", "0", "7", "--history-size", str(size))
        self.edit("move", self.file, "channel", "0", "7", "--history-size", str(len(self.raw)))
        self.assertEqual(self.undo_all([self.content, self.moved]), 1)

    def start_again(self):
        self.file.write_bytes(self.content)
        self.history.unlink(missing_ok=True)

    def test_an_older_one_is_dropped_whole(self):
        """Wherever the history ends, no part of the move is undone alone."""
        whole, later = self.history.read_bytes(), with_author(self.moved, "Later")
        own = len(entries_of(self.raw)[0][2]) and 3 + 32
        for size in range(own, len(self.raw) + own + 40, 37):
            self.file.write_bytes(self.moved)
            self.history.write_bytes(whole)
            with self.subTest(size=size):
                self.edit("set", self.file, "header", "--author", "Later", "--history-size", str(size))
                head = self.head()
                self.assertLessEqual(len(head.raw), size)
                self.assertEqual(sum(n for n, _ in head.commands), len(entries_of(head.raw)))
                listed = self.listed()
                self.assertEqual(self.undo_all([self.content, self.moved, later]), listed)

    def test_undone_in_between(self):
        """After others, undone with them."""
        states = [self.content, self.moved, self.author("Later")]
        self.edit("move", self.file, "contact", "0", "5")
        self.edit("undo", self.file, "--count", "2")
        self.assertEqual(self.undo_all(states[:-1]), 1)


if __name__ == "__main__":
    unittest.main()

"""Two or more at once on one file: the second waits or is told, nothing is lost, and a reader always sees a valid file."""
import contextlib
import fcntl
import itertools
import os
import subprocess
import threading
import time
import unittest

import tracer
from saving import PROGRAM, SMALL, Case, bank_names, end, run, sample, start, states_of, with_author, with_bank

PEOPLE, EACH = 8, 10
WHY_NOT = tracer.why_not()


@contextlib.contextmanager
def held(path, kind=fcntl.LOCK_EX):
    """The file is locked inside; yields what lets go of it earlier."""
    with open(path, "rb") as file:
        fcntl.flock(file, kind)
        yield lambda: fcntl.flock(file, fcntl.LOCK_UN)


def timed(do, *arguments):
    began = time.monotonic()
    return do(*arguments), time.monotonic() - began


class Many(Case):
    content = sample("empty")

    def everybody(self, do):
        """Calls do(person) for each person at once, and returns their answers."""
        answers = []
        people = [threading.Thread(target=lambda p=p: answers.append(do(p))) for p in range(PEOPLE)]
        for person in people:
            person.start()
        for person in people:
            person.join()
        return answers

    def banks_added(self, person):
        return [run("add", self.file, "bank", "--name", f"{person} {n}", "--wait", "60", "--history-size", "999999") for n in range(EACH)]

    def test_every_edit_is_there(self):
        answers = sum(self.everybody(self.banks_added), [])
        self.assertEqual({(a.status, a.out, a.err) for a in answers}, {(0, b"", b"")})
        names = bank_names(self.file.read_bytes())
        self.assertEqual(sorted(names), sorted(f"{p} {n}" for p in range(PEOPLE) for n in range(EACH)))
        self.assertEqual([n for n in names if n.startswith("0 ")], [f"0 {n}" for n in range(EACH)])
        self.assertEqual(self.names(), ["plug.rtxc", "plug.rtxc.history"])
        self.history_has_all()

    def history_has_all(self):
        count = PEOPLE * EACH
        self.assertEqual((self.listed(), len(self.head().commands)), (count, count))
        self.assertEqual(states_of(self.file.read_bytes(), self.head())[-1], self.content)
        self.edit("undo", self.file, "--count", str(count))
        self.assertEqual(self.file.read_bytes(), self.content)

    def test_edits_and_undos(self):
        """Each person adds and undoes as often: whoever's it is, as many as were added are taken back."""
        def do(person):
            return [run(*command, "--wait", "60", *SMALL) for command in (("add", self.file, "bank", "--name", "x"), ("undo", self.file)) * 4]

        self.assertEqual({a.status for a in sum(self.everybody(do), [])}, {0})
        self.assertEqual((self.file.read_bytes(), self.listed()), (self.content, 0))

    def test_through_links(self):
        """Half of them by a link."""
        link = self.folder / "link"
        link.symlink_to(self.file)
        do = lambda p: run("add", link if p % 2 else self.file, "bank", "--name", str(p), "--wait", "60").status
        self.assertEqual(self.everybody(do), [0] * PEOPLE)
        self.assertEqual(sorted(bank_names(self.file.read_bytes())), [str(p) for p in range(PEOPLE)])

    def test_new(self):
        """Only one of many makes the file, and the others are told that it is there."""
        path = self.folder / "made.rtxc"
        for _ in range(20):
            done = dict(self.everybody(lambda p: (p, run("new", path, "--author", f"Person {p}"))))
            winners = [p for p, answer in done.items() if answer.status == 0]
            told = {answer.err for answer in done.values() if answer.status}
            self.assertEqual((len(winners), told), (1, {os.fsencode(f"codeplug: {path}: is there already\n")}))
            self.assertEqual(path.read_bytes(), with_author(self.content, f"Person {winners[0]}"))
            self.assertEqual(self.names(), ["made.rtxc", "plug.rtxc"])
            path.unlink()


class Readers(Case):
    """While one process saves again and again."""
    content = sample("club")
    READS = (("check",), ("show",), ("show", "--json"), ("history",))

    def test_always_valid(self):
        self.author("First", *SMALL)
        saver = threading.Thread(target=self.save)
        saver.start()
        answers = []
        while saver.is_alive():
            answers += [(verb, run(verb, self.file, *rest)) for verb, *rest in self.READS]
        self.assertEqual([a for a in answers if a[1].status or a[1].err], [])
        self.assertEqual({a.out for verb, a in answers if verb == "check"}, {b"ok 6 10 4\n"})
        self.assertEqual(self.failed, [])

    def save(self):
        edits = [("set", self.file, "header", "--author", f"Author {n}" * (1 + n % 3)) for n in range(20)]
        answers = [run(*command) for edit in edits for command in (edit, ("move", self.file, "channel", "0", "9"), ("undo", self.file))]
        self.failed = [answer for answer in answers if answer.status]

    def test_by_plain_reading(self):
        """Whoever reads the file by its name, with no lock, has a whole one."""
        expected = {self.content, with_bank(self.content, "More")}
        commands = (("add", self.file, "bank", "--name", "More"), ("undo", self.file))
        seen, saver = set(), threading.Thread(target=lambda: [run(*command) for command in commands * 15])
        saver.start()
        while saver.is_alive():
            seen.add(self.file.read_bytes())
        self.assertLessEqual(seen, expected)

    def test_not_kept_waiting(self):
        """A reader does not wait for an editor."""
        self.author("First")
        with held(self.file):
            for verb, *rest in self.READS[:3]:
                answer, seconds = timed(run, verb, self.file, *rest)
                self.assertEqual((answer.status, answer.err, seconds < 8), (0, b"", True), verb)


@unittest.skipIf(WHY_NOT, WHY_NOT)
class Between(Case):
    """Something else happens before each call to the file system, one at a time, that the program makes."""
    content = sample("empty")
    OWN = ("add", "bank", "--name", "Own", *SMALL)
    OTHER = ("add", "bank", "--name", "Other", *SMALL)

    def each(self, command, other, judge, prepare=lambda: None):
        """Calls judge(how the command ended, what other() gave) for each place."""
        for place in itertools.count():
            for path in self.folder.iterdir():
                path.unlink()
            self.file.write_bytes(self.content)
            prepare()
            answers = []
            ended = tracer.trace([PROGRAM, *command], watched=os.fsencode(self.folder), meanwhile=(place, lambda: answers.append(other())))
            if not ended.failed:
                break
            with self.subTest(held_before=ended.failed.name, paths=ended.failed.paths, place=place):
                judge(ended, answers[0])

    def on_file(self, verb, *rest):
        return (verb, self.file, *rest)

    def at_once(self):
        return run(*self.on_file(*self.OTHER), "--wait", "0")

    def patient(self, *arguments):
        """Starts another one, which is done at once, or waits: what it answers in the end comes from end()."""
        process = start(*arguments)
        with contextlib.suppress(subprocess.TimeoutExpired):
            process.wait(timeout=0.05)
        return process

    def told_or_done(self, answer):
        """The other one is told at once that it cannot have the file, or is done."""
        self.assertIn(answer.status, (0, 2), answer)
        self.plain(answer.err) if answer.status else self.assertEqual(answer.err, b"")
        return answer.status == 0

    def has_banks(self, *names):
        """These banks are there, each by one command, and nothing else lies in the folder."""
        self.assertEqual(sorted(bank_names(self.file.read_bytes())), sorted(names))
        self.assertEqual((self.listed(), self.names()), (len(names), ["plug.rtxc", "plug.rtxc.history"]))
        self.assertEqual(states_of(self.file.read_bytes(), self.head())[-1], self.content)

    def test_edit_and_edit(self):
        found = set()

        def judge(ended, answer):
            self.assertEqual((ended.status, ended.err), (0, b""))
            found.add(self.told_or_done(answer))
            self.has_banks("Own", *(["Other"] if answer.status == 0 else []))

        self.each(self.on_file(*self.OWN), self.at_once, judge)
        self.assertEqual(found, {True, False})

    def test_edit_and_one_that_waits(self):
        """The other one waits for a file that is not there any more when its turn comes."""
        def judge(ended, waiting):
            self.assertEqual(((ended.status, ended.err), end(waiting)), ((0, b""), (0, b"", b"")))
            self.has_banks("Own", "Other")

        self.each(self.on_file(*self.OWN), lambda: self.patient(*self.on_file(*self.OTHER)), judge)

    def test_undo_and_edit(self):
        """The edit is before the undo, which takes it back then, or after it, or told."""
        def judge(ended, answer):
            self.assertEqual((ended.status, ended.err), (0, b""))
            expected = (with_author(self.content, "Own"), with_bank(self.content, "Other")) if self.told_or_done(answer) else (self.content,)
            self.assertIn(self.file.read_bytes(), expected)
            states = [self.content] if self.file.read_bytes() == self.content else [self.content, self.file.read_bytes()]
            self.assertEqual(self.undo_all(states), len(states) - 1)

        self.each(("undo", self.file), self.at_once, judge, prepare=lambda: self.author("Own", *SMALL))

    def test_new_and_new(self):
        made = self.folder / "made.rtxc"

        def judge(ended, waiting):
            answer = end(waiting)
            self.assertEqual(sorted((ended.status, answer.status)), [0, 2], (ended.err, answer))
            self.assertEqual(made.read_bytes(), with_author(self.content, "Own" if ended.status == 0 else "Other"))
            self.assertEqual(self.names(), ["made.rtxc", "plug.rtxc"])

        self.each(("new", made, "--author", "Own"), lambda: self.patient("new", made, "--author", "Other"), judge)

    def test_reading_and_edit(self):
        """A reader sees the file before or after."""
        for verb, *rest in (("history",), ("show", "--json"), ("check",)):
            self.seen_whole(self.on_file(verb, *rest), self.at_once)

    def test_reading_and_undo_and_edit(self):
        """Also where what it saw first is in no history any more."""
        self.seen_whole(("history", self.file), lambda: [run("undo", self.file, "--wait", "0"), self.at_once()][1])

    def seen_whole(self, command, other):
        self.history.unlink(missing_ok=True)
        self.file.write_bytes(self.content)
        self.author("Own", *SMALL)
        expected = [run(*command).out]
        other()
        expected.append(run(*command).out)

        def judge(ended, answer):
            self.told_or_done(answer)
            self.assertEqual((ended.status, ended.err), (0, b""))
            self.assertIn(ended.out, expected)

        self.each(command, other, judge, prepare=lambda: self.author("Own", *SMALL))

    def test_link_planted_at_the_last_moment(self):
        """By somebody who wants another file to be written."""
        precious = self.place(b"precious", "precious")
        for ending in (".codeplug-new", ".history.codeplug-new"):
            def plant():
                self.beside(ending).unlink(missing_ok=True)
                self.beside(ending).symlink_to("precious")

            def judge(ended, _):
                self.assertEqual(precious.read_bytes(), b"precious")
                self.assertIn(ended.status, (0, 2), ended.err)

            self.each(self.on_file(*self.OWN), plant, judge, prepare=lambda: precious.write_bytes(b"precious"))

    def test_edit_and_somebody_who_knows_no_lock(self):
        """One of the two files is there, and what is undone then is right, or is not undone."""
        first, other = with_author(self.content, "First"), with_author(self.content, "Other")
        before = {with_bank(first, "Own"): first, with_bank(other, "Own"): other, other: other}

        def judge(ended, _):
            now = self.file.read_bytes()
            self.assertIn(ended.status, (0, 2), ended.err)
            self.assertIn(now, before)
            self.assertEqual(run("history", self.file).status, 0)
            run("undo", self.file)
            self.assertEqual(self.file.read_bytes(), before[now])

        self.each(self.on_file(*self.OWN), lambda: os.replace(self.place(other, "swap"), self.file), judge, prepare=lambda: self.author("First", *SMALL))


class Waiting(Case):
    EDITS = (("set", "header", "--author", "Waited"), ("add", "bank", "--name", "Waited"), ("rename", "bank", "0", "Waited"))
    EDITS += (("move", "channel", "0", "7"), ("remove", "bank", "2"), ("undo",))

    def command(self, verb, *rest):
        return (verb, self.file, *rest)

    def test_not_at_all(self):
        self.author("First")
        with held(self.file):
            for verb, *rest in self.EDITS:
                with self.subTest(verb=verb), self.unchanged():
                    words, seconds = timed(self.told, verb, self.file, *rest, "--wait", "0")
                    self.assertLess(seconds, 6)
                    self.assertRegex(words, "(?i)another|other|lock|busy|use")

    def test_one_second(self):
        with held(self.file), self.unchanged():
            _, seconds = timed(self.told, *self.command(*self.EDITS[0]), "--wait", "1")
        self.assertTrue(0.9 <= seconds < 9, seconds)

    def test_shared_lock_counts_too(self):
        with held(self.file, fcntl.LOCK_SH), self.unchanged():
            self.told(*self.command(*self.EDITS[0]), "--wait", "0")

    def test_goes_on(self):
        """Released in time, it goes on at once; as given, and with no --wait."""
        for more in ((), ("--wait", "20")):
            with self.subTest(more=more), held(self.file) as let_go:
                waiting = start(*self.command("set", "header", "--author", "Waited " + "".join(more)), *more)
                time.sleep(0.3)
                self.assertIsNone(waiting.poll())
                let_go()
                answer, seconds = timed(end, waiting)
                self.assertEqual((answer, seconds < 8), ((0, b"", b""), True))
        self.assertEqual(self.listed(), 2)

    def replaced(self, do, *more):
        """The answer to an edit that waits while do() is done to the file."""
        with held(self.file) as let_go:
            waiting = start("add", self.file, "bank", "--name", "Waited", *more)
            time.sleep(0.3)
            do()
            let_go()
            return end(waiting)

    def test_file_replaced_meanwhile(self):
        """What was put in its place is edited, not what was there before."""
        other = self.place(sample("hire"), "other.rtxc")
        self.assertEqual(self.replaced(lambda: os.replace(other, self.file)), (0, b"", b""))
        self.assertEqual(self.file.read_bytes(), with_bank(sample("hire"), "Waited"))

    def test_file_written_meanwhile(self):
        self.assertEqual(self.replaced(lambda: self.file.write_bytes(sample("hire"))), (0, b"", b""))
        self.assertEqual(self.file.read_bytes(), with_bank(sample("hire"), "Waited"))

    def test_file_removed_meanwhile(self):
        """It does not come back."""
        answer = self.replaced(self.file.unlink)
        self.assertEqual((answer.status, answer.out, self.names()), (2, b"", []))
        self.plain(answer.err)

    def test_link_turned_meanwhile(self):
        """The link leads to another file now: one of the two is edited, the other is left alone."""
        other, real = self.place(sample("hire"), "other.rtxc"), self.folder / "real.rtxc"
        os.rename(self.file, real)
        self.file.symlink_to("real.rtxc")
        turn = lambda: (self.file.unlink(), self.file.symlink_to("other.rtxc"))
        self.assertEqual(self.replaced(turn).status, 0)
        found = (real.read_bytes(), other.read_bytes())
        self.assertIn(found, ((self.content, with_bank(sample("hire"), "Waited")), (with_bank(self.content, "Waited"), sample("hire"))))

    def test_file_made_unreadable_meanwhile(self):
        """It is replaced by something that is no codeplug: refused, and left."""
        def spoil():
            self.place(b"spoilt", "other.rtxc")
            os.replace(self.folder / "other.rtxc", self.file)
        self.assertEqual(self.replaced(spoil).status, 1)
        self.assertEqual((self.file.read_bytes(), self.names()), (b"spoilt", ["plug.rtxc"]))

    def test_dry_run_under_a_lock(self):
        """It may wait or not, but it does nothing."""
        with held(self.file), self.unchanged():
            self.assertIn(run(*self.command(*self.EDITS[0]), "--dry-run", "--wait", "0").status, (0, 2))

    def test_a_list_that_nobody_reads_on(self):
        """`history FILE | less` keeps no editor from the file."""
        for n in range(250):
            self.author(f"A long name of number {n}", *SMALL)
        reading, writing = os.pipe()
        fcntl.fcntl(writing, fcntl.F_SETPIPE_SZ, 4096)
        listing = subprocess.Popen([PROGRAM, "history", self.file], stdout=writing)
        os.close(writing)
        try:
            time.sleep(0.3)
            self.assertIsNone(listing.poll(), "it is not held up by the full pipe")
            self.author("Meanwhile", "--wait", "20")
        finally:
            os.close(reading)
            listing.wait()

    def test_what_wait_may_be(self):
        for seconds in ("x", "-1", "", "1s", "nan"):
            with self.subTest(seconds=seconds), self.unchanged():
                self.assertEqual(run(*self.command(*self.EDITS[0]), "--wait", seconds).status, 2)
        with held(self.file):
            waiting = start(*self.command(*self.EDITS[0]), "--wait", "999999999999")
            time.sleep(0.3)
            self.assertIn(waiting.poll(), (None, 2))
        self.assertIn(end(waiting).status, (0, 2))


if __name__ == "__main__":
    unittest.main()

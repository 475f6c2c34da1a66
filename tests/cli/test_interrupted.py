"""The program killed before each of its system calls, and each of its calls to the file system failing: the old or the new codeplug is
there, with a history that fits it.

A folder that looks as after an earlier interruption is judged once only: what comes after depends on nothing else."""
import errno
import itertools
import os
import signal
import unittest

import tracer
from saving import PROGRAM, SMALL, Case, run, sample, with_author

WHY_NOT = tracer.why_not()
ENDINGS = ("", ".codeplug-new", ".history", ".history.codeplug-new", ".history.aside")
ERRORS = (errno.ENOSPC, errno.EIO)
STANDARD_ERROR = 2


class Folder:
    """The files of a folder and their permissions, to be put back."""

    def __init__(self, path):
        self.path = path
        self.files = tuple(sorted((entry.name, entry.read_bytes(), entry.stat().st_mode & 0o7777) for entry in path.iterdir()))
        self.names = [name for name, _, _ in self.files]

    def put_back(self):
        for entry in self.path.iterdir():
            entry.unlink()
        for name, content, mode in self.files:
            (self.path / name).write_bytes(content)
            (self.path / name).chmod(mode)


@unittest.skipIf(WHY_NOT, WHY_NOT)
class Interrupted(Case):
    """A scene is a command, with all states that the file had until then. The file is private: nothing beside it may be less so."""

    foreign = None

    def setUp(self):
        super().setUp()
        self.file.chmod(0o600)

    def scene(self, states, *command):
        """Runs the command once without interruption, for what it makes and how many commands can be undone before and after."""
        self.command, self.states, self.judged = command, states, set()
        self.before, self.old = Folder(self.folder), self.file.read_bytes()
        self.counts = {self.old: {self.count_undone(states)}}
        self.answer = run(*command)
        self.assertEqual((self.answer.status, self.answer.out), (0, b""), self.answer)
        self.new = self.file.read_bytes()
        self.is_undo = self.new in states
        self.chain = states if self.is_undo else states + [self.new]
        count = self.count_undone(self.chain[: self.chain.index(self.new) + 1])
        self.counts[self.new] = {count}
        if not self.is_undo:
            self.counts[self.old].add(count - 1)
        elif "--history-size" in command:
            self.counts[self.new] |= {n - 1 for n in self.counts[self.old]}

    def count_undone(self, states):
        at = Folder(self.folder)
        undone = self.undo_all(states)
        at.put_back()
        return undone

    def nothing_left(self, answer):
        if self.foreign:
            self.assertIn(answer.status, (1, 2))
        else:
            super().nothing_left(answer)

    def trace(self, **how):
        self.before.put_back()
        return tracer.trace([PROGRAM, *self.command], watched=os.fsencode(self.folder), prepare=lambda: os.umask(0), **how)

    def first_call(self):
        """The place of the first call that names the folder; before it, the program is only loaded."""
        calls = self.trace().calls
        return next(place for place, call in enumerate(calls) if any(os.fsencode(self.folder) in path for path in call.paths))

    def kill_everywhere(self, begin=None, **how):
        found = {self.old}
        for place in itertools.count(self.first_call() if begin is None else begin):
            ended = self.trace(kill_before=place, **how)
            found.add(self.file.read_bytes())
            self.judge(killed_before=place)
            if ended.status != -signal.SIGKILL:
                break
        self.assertEqual((ended.status, ended.out, ended.err), self.answer)
        self.assertEqual(found, {self.old, self.new})
        self.assertEqual(self.file.read_bytes(), self.new)

    def fail_everywhere(self):
        for error in ERRORS:
            for place in itertools.count():
                ended = self.trace(fail=(place, error))
                if not ended.failed:
                    break
                with self.subTest(failed=ended.failed.name, paths=ended.failed.paths, error=os.strerror(error), place=place):
                    self.judge_failed(ended)
                self.judge(failed=ended.failed.name, paths=ended.failed.paths, error=os.strerror(error), place=place)
            self.assertEqual((ended.status, ended.err), (self.answer.status, self.answer.err))

    def judge_failed(self, ended):
        """It is said that something failed, or all was done nevertheless."""
        unsaid = ended.failed.name == "write" and ended.failed.arguments[0] == STANDARD_ERROR
        self.assertIn(ended.status, (0, 2), ended.err)
        if ended.status == 0:
            self.assertEqual(self.file.read_bytes(), self.new)
            self.assertTrue(unsaid or ended.err == self.answer.err, ended.err)
        elif not unsaid:
            self.plain(ended.err.removeprefix(self.answer.err))
        self.nothing_behind(ended)

    def judge(self, **when):
        """The folder is as an interruption may leave it."""
        at = Folder(self.folder)
        if at.files in self.judged:
            return
        self.judged.add(at.files)
        for question in (self.judge_names, self.judge_history, self.judge_following):
            with self.subTest(question=question.__name__, files=at.names, **when):
                question(at)
            at.put_back()

    def judge_names(self, at):
        self.assertLessEqual(set(at.names), {self.file.name + ending for ending in ENDINGS})
        self.assertEqual([name for name, _, mode in at.files if mode & ~0o600], [], "others may read it")
        if self.foreign:
            self.assertIn(self.foreign, [content for _, content, _ in at.files])

    def judge_history(self, at):
        now = self.file.read_bytes()
        self.assertIn(now, (self.old, self.new))
        listed = self.listed()
        undone = self.undo_all(self.chain[: self.chain.index(now) + 1])
        self.assertEqual(listed, undone)
        self.assertIn(undone, self.counts[now])

    def nothing_behind(self, ended=None):
        """FILE.codeplug-new and FILE.history.codeplug-new are gone, unless it was their removal that failed; or a failure left an empty one."""
        left = [path.name for path in self.folder.iterdir() if path.name.endswith(".codeplug-new") and (ended is None or path.stat().st_size)]
        self.assertTrue(left == [] or ended and ended.failed.name.startswith("unlink"), left)

    def judge_following(self, at):
        now = self.file.read_bytes()
        answer = run("set", self.file, "header", "--author", "Following", "--history-size", "9999")
        self.assertEqual((answer.status, answer.out), (0, b""), answer)
        self.assertEqual(self.file.read_bytes(), with_author(now, "Following"))
        self.nothing_behind()
        self.edit("undo", self.file)
        self.undo_all(self.chain[: self.chain.index(now) + 1])

    def everywhere(self, begin=None):
        self.kill_everywhere(begin)
        self.fail_everywhere()


class Edits(Interrupted):
    """The small file of 88 bytes: a command's own entry is a few bytes."""

    content = sample("empty")

    def set_author(self, states, *more):
        self.scene(states, "set", self.file, "header", "--author", "New", *more)

    def test_first(self):
        """Killed from the very start, while it is loaded."""
        self.set_author(self.authors(), *SMALL)
        self.everywhere(begin=0)

    def test_later(self):
        self.set_author(self.authors("One", "Two", "Three"))
        self.everywhere()

    def test_halved_writes(self):
        self.set_author(self.authors("One", "Two", "Three"))
        self.kill_everywhere(halve=True)

    def test_history_full(self):
        states = self.authors("One") + [self.author("Two", "--history-size", "30")] + [self.author(name) for name in ("Three", "Four", "Five", "Six")]
        self.set_author(states)
        self.assertLess(max(self.counts[self.new]), len(states))
        self.kill_everywhere()

    def test_history_for_one_command_only(self):
        states = self.authors() + [self.author("A", "--history-size", "8")] + [self.author(name) for name in ("B", "C")]
        self.set_author(states)
        self.assertEqual(self.counts[self.new], {1})
        self.kill_everywhere()

    def test_history_grown_and_shrunk(self):
        for size in ("900000", "9"):
            with self.subTest(size=size):
                states = [self.author(name) for name in ("One", "Two")]
                self.set_author([self.content] + states, "--history-size", size)
                self.kill_everywhere()
                self.before.put_back()
                self.undo_all([self.content] + states)

    def test_foreign_history(self):
        self.authors("One", "Two")
        self.foreign = self.history.read_bytes()
        self.file.write_bytes(with_author(self.content, "Somebody else"))
        self.set_author([self.file.read_bytes()], *SMALL)
        self.assertEqual(self.counts, {self.old: {0}, self.new: {1}})
        self.everywhere()


class Moves(Interrupted):
    """A command of many edits."""

    def test_first(self):
        self.scene([self.content], "move", self.file, "channel", "0", "7", *SMALL)
        self.everywhere()

    def test_later(self):
        states = self.authors("One", "Two")
        self.scene(states, "move", self.file, "contact", "3", "0")
        self.kill_everywhere()


class Undos(Interrupted):
    """Undo renames the codeplug first."""

    def setUp(self):
        super().setUp()
        self.known = self.authors("One", "Two", "Three")

    def test_one(self):
        self.scene(self.known, "undo", self.file)
        self.everywhere()

    def test_all(self):
        self.scene(self.known, "undo", self.file, "--count", "3")
        self.kill_everywhere()

    def test_a_move(self):
        self.edit("move", self.file, "channel", "0", "7")
        self.scene(self.known + [self.file.read_bytes()], "undo", self.file)
        self.kill_everywhere()

    def test_history_shrunk(self):
        self.scene(self.known, "undo", self.file, "--history-size", "9")
        self.kill_everywhere()


@unittest.skipIf(WHY_NOT, WHY_NOT)
class Asides(Case):
    """An undo that sets a foreign history aside changes no codeplug, and the history is always somewhere."""

    content = sample("empty")

    def test_killed(self):
        self.authors("One", "Two")
        foreign, changed = self.history.read_bytes(), with_author(self.content, "Somebody else")
        self.file.write_bytes(changed)
        before = Folder(self.folder)
        for place in itertools.count():
            before.put_back()
            ended = tracer.trace([PROGRAM, "undo", self.file], kill_before=place)
            self.assertEqual(self.file.read_bytes(), changed)
            self.assertIn(foreign, [path.read_bytes() for path in self.folder.iterdir() if path != self.file])
            if ended.status != -signal.SIGKILL:
                break
        self.assertIn(ended.status, (1, 2))


@unittest.skipIf(WHY_NOT, WHY_NOT)
class News(Case):
    """A new file is there whole, or not at all."""

    def test_killed(self):
        self.file.unlink()
        for place in itertools.count():
            ended = tracer.trace([PROGRAM, "new", self.file], kill_before=place)
            with self.subTest(killed_before=place, files=self.names()):
                self.assertIn(self.file.read_bytes() if self.file.exists() else None, (None, sample("empty")))
            for left in self.folder.iterdir():
                left.unlink()
            if ended.status != -signal.SIGKILL:
                break
        self.assertEqual(ended.status, 0)

    def test_failed(self):
        for error in ERRORS:
            for place in itertools.count():
                for left in self.folder.iterdir():
                    left.unlink()
                ended = tracer.trace([PROGRAM, "new", self.file], fail=(place, error), watched=os.fsencode(self.folder))
                if not ended.failed:
                    break
                with self.subTest(failed=ended.failed.name, error=os.strerror(error), place=place):
                    self.assertIn(ended.status, (0, 2), ended.err)
                    self.plain(ended.err) if ended.status else self.assertEqual(ended.err, b"")
                    self.assertIn(self.file.read_bytes() if self.file.exists() else None, (None, sample("empty")))
                    left = [path.name for path in self.folder.iterdir() if path != self.file and path.stat().st_size]
                    self.assertTrue(left == [] or ended.failed.name.startswith("unlink"), left)


@unittest.skipIf(WHY_NOT, WHY_NOT)
class Synced(Case):
    """What a rename brings is on the disk before it, so that a power cut leaves no empty file either."""

    def traced(self, *command):
        ended = tracer.trace([PROGRAM, *command])
        self.assertEqual(ended.status, 0, ended.err)
        return list(tracer.opened(ended.calls))

    def commands(self):
        yield "set", self.file, "header", "--author", "One"
        yield "set", self.file, "header", "--author", "Two"
        yield "move", self.file, "channel", "0", "7"
        yield "undo", self.file
        yield "new", self.folder / "other.rtxc"

    def test_written_then_synced_then_renamed(self):
        for command in self.commands():
            unsynced = set()
            for call, path in self.traced(*command):
                if call.name in tracer.WRITES and path:
                    unsynced.add(path)
                elif call.name in tracer.SYNCS:
                    unsynced.discard(path)
                elif call.name in tracer.RENAMES:
                    self.assertNotIn(call.paths[0], unsynced, command)
            self.assertEqual(unsynced, set(), command)

    def test_which_is_renamed_first(self):
        order = [self.history, self.file]
        for command, expected in zip(self.commands(), (order, order, order, order[::-1])):
            renamed = [os.fsdecode(call.paths[1]) for call, _ in self.traced(*command) if call.name in tracer.RENAMES]
            self.assertEqual(renamed, [str(path) for path in expected], command)

    def test_folder_synced_after_each_rename(self):
        """So that the disk has them in this order, too."""
        synced = [(name, os.fsencode(self.folder)) for name in tracer.SYNCS]
        for command in self.commands():
            calls = [(call.name, path) for call, path in self.traced(*command) if call.name in tracer.NAMINGS + tracer.SYNCS]
            after = [later for (name, _), later in zip(calls, calls[1:] + [None]) if name in tracer.NAMINGS]
            self.assertEqual([later for later in after if later not in synced], [], command)


if __name__ == "__main__":
    unittest.main()

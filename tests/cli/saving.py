"""What the tests of saving share: the program, a folder with a codeplug, what edits make of it, and FILE.history read by another hand."""
import collections
import hashlib
import os
import pathlib
import re
import shutil
import stat
import struct
import subprocess
import tempfile
import unittest

HERE = pathlib.Path(__file__).resolve().parent
PROGRAM = os.path.abspath(os.environ.get("CODEPLUG") or HERE / "../../cli/target/release/codeplug")
SAMPLES = pathlib.Path(os.environ.get("CODEPLUG_SAMPLES") or HERE / "../../samples").resolve()
MEMORY = "/dev/shm" if os.access("/dev/shm", os.W_OK) else None
LIMIT = 1_048_576
os.environ.pop("CODEPLUG_EDITION", None)  # a test says itself by which edition it goes
STRANGER = 54_321
SMALL = ("--history-size", "65536")  # the program is the faster for it, where no test is about the size

Answer = collections.namedtuple("Answer", "status out err")
Head = collections.namedtuple("Head", "size before commands raw")


def run(*arguments, program=PROGRAM, timeout=30, **more):
    done = subprocess.run([program, *arguments], stdin=subprocess.DEVNULL, capture_output=True, timeout=timeout, **more)
    return Answer(done.returncode, done.stdout, done.stderr)


def start(*arguments, **more):
    """The program, started and not waited for."""
    return subprocess.Popen([PROGRAM, *arguments], stdin=subprocess.DEVNULL, stdout=subprocess.PIPE, stderr=subprocess.PIPE, **more)


def end(process, timeout=30):
    out, err = process.communicate(timeout=timeout)
    return Answer(process.returncode, out, err)


def sample(name):
    return (SAMPLES / f"{name}.rtxc").read_bytes()


def with_author(plug, author):
    return plug[:10] + author.encode().ljust(32, b"\0") + plug[42:]


def with_timestamp(plug, seconds):
    return plug[:74] + struct.pack("<Q", seconds) + plug[82:]


def with_bank(plug, name):
    """The codeplug with an empty bank at the end."""
    contacts, channels, banks = struct.unpack_from("<HHH", plug, 82)
    end_of_table = 88 + 39 * contacts + 90 * channels + 4 * banks
    table, bodies = plug[88:end_of_table], plug[end_of_table:]
    return plug[:86] + struct.pack("<H", banks + 1) + table + struct.pack("<I", len(bodies)) + bodies + name.encode().ljust(34, b"\0")


def bank_names(plug):
    contacts, channels, banks = struct.unpack_from("<HHH", plug, 82)
    table = 88 + 39 * contacts + 90 * channels
    offsets = struct.unpack_from(f"<{banks}I", plug, table)
    starts = [table + 4 * banks + offset for offset in offsets]
    return [plug[at : at + 32].rstrip(b"\0").decode() for at in starts]


def sha(plug):
    return hashlib.sha256(plug).hexdigest()


def read_head(data):
    """The size, the first state's SHA-256, (entries, SHA-256) of each command newest first, and the library's bytes. The batches' lengths are
    held to the entries' own."""
    text, blank, raw = data.partition(b"\n\n")
    assert blank, "no empty line ends the head"
    first, size, before, *commands = text.decode("ascii").split("\n")
    assert first == "codeplug history 1", first
    words = [line.split(" ") for line in (size, before, *commands)]
    assert [w[0] for w in words] == ["size", "before"] + ["command"] * len(commands), words
    assert all(len(w) > 2 and len(w[1]) == 64 for w in words[2:]) and len(words[1][1]) == 64, words
    batches = [[tuple(map(int, batch.split(":"))) for batch in w[2:]] for w in words[2:]]
    at = 0
    for entries, length in sum(batches, []):
        assert 0 < entries <= 256 and len(entries_of(raw[at : at + length])) == entries, words
        at += length
    assert at == len(raw), words
    return Head(int(words[0][1]), words[1][1], [(sum(b[0] for b in own), w[1]) for own, w in zip(batches, words[2:])], raw)


def number_at(raw, at):
    value = shift = 0
    while True:
        value |= (raw[at] & 0x7F) << shift
        shift, at = shift + 7, at + 1
        if not raw[at - 1] & 0x80:
            return value, at


def entries_of(raw):
    """The entries of the library's history, newest first: p, k and the old bytes."""
    at, found = 0, []
    while at < len(raw):
        p, at = number_at(raw, at)
        k, at = number_at(raw, at)
        m, at = number_at(raw, at)
        assert at + m <= len(raw), "an entry is cut"
        found.append((p, k, raw[at : at + m]))
        at += m
    return found


def states_of(plug, head):
    """What this history brings back from this codeplug, newest first, by the format's paper."""
    entries, states = entries_of(head.raw), []
    for count, _ in head.commands:
        for p, k, old in entries[:count]:
            plug = plug[:p] + old + plug[p + k :]
        entries = entries[count:]
        states.append(plug)
    assert not entries, "entries of no command"
    return states


def commands_in(text):
    """What `history` printed: the lines of each command, which follow its number."""
    found = []
    for line in text.splitlines():
        if re.fullmatch(r"\d+", line):
            assert int(line) == len(found) + 1, text
            found.append([])
        else:
            found[-1].append(line.strip())
    return found


def unprivileged(command_folder):
    """Options that run a copy of the program, in a folder that everyone may reach, as somebody who is not root."""
    copy = pathlib.Path(command_folder) / "codeplug"
    if not copy.exists():
        shutil.copy(PROGRAM, copy)
        copy.chmod(0o755)
    return {"program": str(copy), "user": STRANGER, "group": STRANGER, "extra_groups": []}


def bytes_of(path):
    with open(path, "rb") as file:
        return file.read()


def seen(folder):
    """Each name in a folder (and below), with all that a reader could see of it."""
    found = {}
    for place, folders, files in os.walk(os.fsencode(folder)):
        for name in folders + files:
            path = os.path.join(place, name)
            at = os.lstat(path)
            content = os.readlink(path) if stat.S_ISLNK(at.st_mode) else bytes_of(path) if stat.S_ISREG(at.st_mode) else None
            found[os.path.relpath(path, os.fsencode(folder))] = (content, at.st_mode, at.st_uid, at.st_gid, at.st_ino, at.st_mtime_ns)
    return found


class Case(unittest.TestCase):
    """A test with a folder of its own, and a codeplug `file` in it."""

    content = sample("club")

    def setUp(self):
        self.folder = pathlib.Path(tempfile.mkdtemp(dir=MEMORY))
        self.addCleanup(shutil.rmtree, self.folder, True)
        self.file = self.place(self.content)
        self.history = self.beside(".history")

    def place(self, content, name="plug.rtxc"):
        path = self.folder / name
        path.write_bytes(content)
        return path

    def beside(self, ending):
        return self.file.with_name(self.file.name + ending)

    def head(self):
        return read_head(self.history.read_bytes())

    def ok(self, *arguments, **more):
        """The command is done, and says nothing on standard error."""
        answer = run(*arguments, **more)
        self.assertEqual((answer.status, answer.err), (0, b""), arguments)
        return answer.out.decode()

    def edit(self, *arguments, **more):
        """The command is done, and prints nothing at all."""
        self.assertEqual(self.ok(*arguments, **more), "", arguments)

    def refused(self, number, *arguments, **more):
        """The command is refused by this number, in one line."""
        answer = run(*arguments, **more)
        self.assertEqual((answer.status, answer.out), (1, b""), (arguments, answer))
        self.plain(answer.err)
        self.assertRegex(answer.err.decode(), rf"\b{number}\b")

    def told(self, *arguments, status=2, **more):
        """The command fails with this status, and one plain line says why."""
        answer = run(*arguments, **more)
        self.assertEqual((answer.status, answer.out), (status, b""), (arguments, answer))
        self.plain(answer.err)
        return answer.err.decode(errors="replace")

    def plain(self, err):
        """One line for people: not a panic, nor the words of a debugger."""
        self.assertRegex(err, rb"\A[^\n]+\n\Z")
        for word in (b"panicked", b"Os {", b"Err(", b"Error {", b"unwrap", b"Custom {", b"RUST_BACKTRACE", b"\x1b"):
            self.assertNotIn(word, err)

    def author(self, name, *more, **options):
        """Sets the author, and returns what the file has to be then."""
        expected = with_author(self.file.read_bytes(), name)
        self.edit("set", self.file, "header", "--author", name, *more, **options)
        self.assertEqual(self.file.read_bytes(), expected)
        return expected

    def authors(self, *names):
        """Sets one author after the other, with a small history; returns all states of the file, the first one included."""
        return [self.file.read_bytes()] + [self.author(name, *SMALL) for name in names]

    def undo_all(self, states):
        """Undoes until nothing is left: every state has to be the one before, and the number of undone commands is returned."""
        place, undone = len(states) - 1, 0
        self.assertEqual(self.file.read_bytes(), states[place])
        while (answer := run("undo", self.file)).status == 0:
            place, undone = place - 1, undone + 1
            self.assertGreaterEqual(place, 0)
            self.assertEqual((answer.out, answer.err, self.file.read_bytes()), (b"", b"", states[place]))
        self.nothing_left(answer)
        self.assertEqual(self.file.read_bytes(), states[place])
        return undone

    def nothing_left(self, answer):
        """This is how an undo ends that has nothing to undo."""
        self.assertEqual((answer.status, answer.out), (1, b""), answer)
        self.assertRegex(answer.err, rb"\b38\b")
        self.plain(answer.err)

    def listed(self):
        """How many commands `history` lists."""
        answer = run("history", self.file)
        self.assertEqual(answer.status, 0, answer)
        return len(commands_in(answer.out.decode()))

    def aside_said(self, answer):
        """An undo that undid nothing because the history does not belong: that is said in a line, before the refusal's own, or alone."""
        self.assertEqual((answer.status, answer.out), (1, b""), answer)
        *notes, last = answer.err.splitlines(True)
        self.plain(last)
        for note in notes:
            self.plain(note)
        self.assertLessEqual(len(notes), 1)

    def names(self):
        return sorted(os.listdir(self.folder))

    def unchanged(self):
        """A context in which nothing that is in the folder may change."""
        return Unchanged(self)


class Unchanged:
    def __init__(self, case):
        self.case, self.before = case, seen(case.folder)

    def __enter__(self):
        return self

    def __exit__(self, kind, *_):
        if kind is None:
            self.case.assertEqual(seen(self.case.folder), self.before)

"""How a file is replaced: permissions, owner, links, names, left-overs, folders and disks that allow nothing, and the longest file there is."""
import itertools
import os
import pathlib
import resource
import shutil
import stat
import struct
import subprocess
import sys
import tempfile
import unittest

from saving import LIMIT, PROGRAM, SAMPLES, STRANGER, Case, run, sample, unprivileged, with_author, with_bank

ROOT = os.geteuid() == 0
NOT_ROOT = "only root can be somebody else"
ACCESS_LIST = "system.posix_acl_access"


def owner_of(path):
    at = os.stat(path)
    return at.st_uid, at.st_gid, stat.S_IMODE(at.st_mode)


class Permissions(Case):
    MODES = (0o600, 0o640, 0o664, 0o644, 0o666, 0o400 if ROOT else 0o600, 0o444 if ROOT else 0o644)

    def test_kept(self):
        for mode in self.MODES:
            for umask in (0o000, 0o022, 0o077):
                with self.subTest(mode=oct(mode), umask=oct(umask)):
                    self.file.chmod(mode)
                    self.author(f"{mode} {umask}", umask=umask)
                    self.assertEqual(owner_of(self.file)[2], mode)

    @unittest.skipIf(ROOT, "root may write what is read-only")
    def test_read_only(self):
        for mode in (0o444, 0o400):
            self.file.chmod(mode)
            with self.unchanged():
                self.told("set", self.file, "header", "--author", "No")

    def test_kept_by_undo(self):
        self.file.chmod(0o640)
        self.author("One", umask=0o077)
        self.edit("undo", self.file, umask=0o077)
        self.assertEqual(owner_of(self.file)[2], 0o640)

    def test_history_as_private_as_the_file(self):
        for mode in (0o600, 0o640, 0o644):
            self.file.chmod(mode)
            self.author(oct(mode), umask=0)
            self.assertEqual(owner_of(self.history)[2] & ~mode, 0, oct(mode))

    def give_list(self, path, name):
        """Gives an access list that lets one more person in, and not the group."""
        whole, nobody = 6, 0xFFFFFFFF
        entries = ((1, whole, nobody), (2, whole, 1234), (4, 0, nobody), (0x10, whole, nobody), (0x20, 0, nobody))
        given = struct.pack("<I", 2) + b"".join(struct.pack("<HHI", *entry) for entry in entries)
        try:
            os.setxattr(path, name, given)
        except OSError as error:
            self.skipTest(f"no access lists here: {error}")
        return given

    def test_access_list_is_kept(self):
        given = self.give_list(self.file, ACCESS_LIST)
        self.author("Listed")
        self.assertEqual([os.getxattr(path, ACCESS_LIST) for path in (self.file, self.history)], [given] * 2)

    def test_access_list_of_the_folder_is_not_taken(self):
        """A file that has none gets none, so that nobody is let in."""
        self.file.chmod(0o640)
        self.give_list(self.folder, "system.posix_acl_default")
        self.author("Not listed")
        self.edit("undo", self.file)
        for path in (self.file, self.history):
            self.assertEqual((ACCESS_LIST in os.listxattr(path), owner_of(path)[2]), (False, 0o640))

    def test_attributes_are_kept(self):
        try:
            os.setxattr(self.file, "user.note", b"mine")
        except OSError as error:
            self.skipTest(f"no attributes here: {error}")
        self.author("Noted")
        self.assertEqual(os.getxattr(self.file, "user.note"), b"mine")

    def test_history_follows_a_file_made_private(self):
        self.author("Open")
        self.file.chmod(0o600)
        self.author("Private")
        self.assertEqual(owner_of(self.history)[2] & 0o077, 0)


@unittest.skipUnless(ROOT, NOT_ROOT)
class Owners(Case):
    def setUp(self):
        super().setUp()
        self.folder.chmod(0o755)
        self.bin = pathlib.Path(tempfile.mkdtemp())
        self.bin.chmod(0o755)
        self.addCleanup(shutil.rmtree, self.bin)
        self.other = unprivileged(self.bin)

    def give(self, path, uid=STRANGER, gid=STRANGER, mode=None):
        os.chown(path, uid, gid)
        if mode is not None:
            os.chmod(path, mode)

    def test_kept_by_root(self):
        for uid, gid, mode in ((1234, 2345, 0o600), (1234, 0, 0o640), (0, 2345, 0o664)):
            self.give(self.file, uid, gid, mode)
            for command in (("set", self.file, "header", "--author", f"{uid} {gid}"), ("undo", self.file)):
                self.edit(*command)
                self.assertEqual(owner_of(self.file), (uid, gid, mode), command)

    def test_the_owner_can_go_on_after_root(self):
        self.give(self.folder)
        self.give(self.file, mode=0o600)
        before = self.authors("Root")
        self.author("Owner", **self.other)
        self.edit("undo", self.file, **self.other)
        self.edit("undo", self.file, **self.other)
        self.assertEqual(self.file.read_bytes(), before[0])

    def test_root_can_go_on_after_the_owner(self):
        self.give(self.folder)
        self.give(self.file, mode=0o640)
        self.author("Owner", **self.other)
        self.author("Root")
        self.edit("undo", self.file, "--count", "2", **self.other)
        self.assertEqual((self.file.read_bytes(), owner_of(self.file)), (self.content, (STRANGER, STRANGER, 0o640)))

    def test_unprivileged(self):
        self.give(self.folder)
        for mode in (0o600, 0o640, 0o664):
            self.give(self.file, mode=mode)
            self.author(oct(mode), **self.other)
            self.assertEqual(owner_of(self.file), (STRANGER, STRANGER, mode))

    def test_group_kept_by_a_member(self):
        self.give(self.folder, 0, 7777, 0o775)
        self.give(self.file, STRANGER, 7777, 0o660)
        self.author("Member", **self.other | {"extra_groups": [7777]})
        self.assertEqual(owner_of(self.file), (STRANGER, 7777, 0o660))

    def test_owner_or_group_that_cannot_be_kept(self):
        """A file of somebody else that the group may write, and one's own of a group one is not in: done, and kept, or told why not."""
        for uid, gid in ((1234, 7777), (STRANGER, 0)):
            self.give(self.folder, 0, 7777, 0o775)
            self.give(self.file, uid, gid, 0o660)
            with self.subTest(uid=uid, gid=gid):
                answer = run("set", self.file, "header", "--author", "Member", **self.other | {"extra_groups": [7777]})
                self.assertEqual(owner_of(self.file), (uid, gid, 0o660))
                self.assertEqual(self.file.read_bytes(), with_author(self.content, "Member") if answer.status == 0 else self.content)
                self.assertEqual([name for name in self.names() if name.endswith(".codeplug-new")], [])
                self.told_why(answer)

    def told_why(self, answer):
        """Where it was not done, the line names the reason: not some file that is not there, which nobody lacks permission for."""
        if answer.status:
            self.assertEqual(answer.status, 2)
            self.plain(answer.err)
            self.assertRegex(answer.err, b"(?i)owner|group")

    def test_not_writable(self):
        self.give(self.folder)
        self.give(self.file, mode=0o444)
        with self.unchanged():
            self.assertRegex(self.told("set", self.file, "header", "--author", "No", **self.other), "(?i)permi|read")

    def test_not_readable(self):
        self.give(self.folder)
        self.give(self.file, 0, 0, 0o600)
        with self.unchanged():
            for command in (("set", self.file, "header", "--author", "No"), ("undo", self.file), ("history", self.file), ("show", self.file)):
                self.assertRegex(self.told(*command, **self.other), "(?i)permi")

    def test_history_not_readable(self):
        self.give(self.folder)
        self.give(self.file, mode=0o644)
        self.author("One", **self.other)
        self.give(self.history, 0, 0, 0o600)
        with self.unchanged():
            for command in (("set", self.file, "header", "--author", "No"), ("undo", self.file), ("history", self.file)):
                self.told(*command, **self.other)

    def test_read_only_folder(self):
        self.give(self.file)
        self.author("One")
        self.give(self.history)
        with self.unchanged():
            for command in (("set", self.file, "header", "--author", "No"), ("undo", self.file)):
                self.assertRegex(self.told(*command, **self.other), "(?i)permi")
            for command in (("check", self.file), ("show", self.file), ("history", self.file)):
                self.ok(*command, **self.other)

    def test_folder_that_may_be_written_and_not_listed(self):
        """A drop box: what is said fits what was done."""
        self.give(self.folder, mode=0o300)
        for verb, *rest in (("set", "header", "--author", "Dropped"), ("undo",)):
            self.file.write_bytes(self.content)
            self.give(self.file)
            before = self.author("Before")
            after = self.content if verb == "undo" else with_author(self.content, "Dropped")
            answer = run(verb, self.file, *rest, **self.other)
            with self.subTest(verb=verb, answer=answer):
                self.assertIn((answer.status, self.file.read_bytes()), ((0, after), (2, before)))
                self.assertEqual([name for name in self.names() if name.endswith(".codeplug-new")], [])
            self.history.unlink()

    def test_read_only_file_and_folder_can_be_read(self):
        self.author("One")
        self.file.chmod(0o444)
        with self.unchanged():
            for command in (("check", self.file), ("show", self.file), ("history", self.file)):
                self.ok(*command, **self.other)


class Links(Case):
    """The link stays a link, what it names is replaced, and everything lies beside that."""

    def setUp(self):
        super().setUp()
        self.away = self.folder / "away"
        self.away.mkdir()

    def through(self, link, *targets):
        """Edits and undoes through a link, with each target that the link may have."""
        for target in targets:
            with self.subTest(target=str(target)):
                link.symlink_to(target)
                self.linked_edit(link, str(target))
                self.assertEqual((link.is_symlink(), os.readlink(link)), (True, str(target)))
                self.edit("undo", link)
                self.assertEqual((self.file.read_bytes(), self.file.is_symlink(), link.is_symlink()), (self.content, False, True))
                link.unlink()

    def linked_edit(self, link, name):
        self.edit("set", link, "header", "--author", name[-32:])
        self.assertEqual(self.file.read_bytes(), with_author(self.content, name[-32:]))
        self.assertEqual(owner_of(self.history)[2] & ~owner_of(self.file)[2], 0)
        self.assertEqual(set(os.listdir(link.parent)) & {link.name + ending for ending in (".codeplug-new", ".history", ".history.codeplug-new")}, set())

    def test_relative_and_absolute(self):
        self.through(self.away / "link", "../plug.rtxc", self.file, "../away/../plug.rtxc", "./../plug.rtxc")

    def test_in_the_same_folder(self):
        self.through(self.folder / "link", "plug.rtxc", "./plug.rtxc")

    def test_chain(self):
        (self.away / "first").symlink_to("second")
        (self.away / "second").symlink_to(self.folder / "third")
        (self.folder / "third").symlink_to("plug.rtxc")
        self.through(self.away / "link", "first", "../third")

    def test_folder_linked(self):
        (self.away / "up").symlink_to("..")
        self.through(self.away / "link", "up/plug.rtxc")
        self.edit("set", self.away / "up" / "plug.rtxc", "header", "--author", "Up")
        self.assertEqual(self.file.read_bytes(), with_author(self.content, "Up"))

    def test_link_without_folder(self):
        (self.away / "link").symlink_to("../plug.rtxc")
        self.edit("set", "link", "header", "--author", "Here", cwd=self.away)
        self.assertEqual((self.file.read_bytes(), os.listdir(self.away)), (with_author(self.content, "Here"), ["link"]))

    def test_same_history_by_both_names(self):
        link = self.away / "link"
        link.symlink_to(self.file)
        self.edit("set", link, "header", "--author", "Linked")
        self.assertEqual(self.ok("history", link), self.ok("history", self.file))
        self.edit("undo", self.file)
        self.assertEqual(self.file.read_bytes(), self.content)

    def test_leading_nowhere(self):
        for target in ("missing.rtxc", "nowhere/missing.rtxc", "link", "away/missing.rtxc"):
            link = self.folder / "link"
            link.symlink_to(target)
            with self.subTest(target=target), self.unchanged():
                for command in (("set", link, "header", "--author", "No"), ("undo", link), ("history", link), ("check", link), ("show", link)):
                    self.told(*command) if command[0] != "check" else self.assertEqual(run(*command).status, 2)
            link.unlink()

    def test_new_through_a_dangling_link(self):
        link = self.folder / "link"
        link.symlink_to("away/made.rtxc")
        answer = run("new", link)
        self.assertTrue(link.is_symlink())
        made = self.away / "made.rtxc"
        self.assertEqual((answer.status, made.exists() and made.read_bytes()), (0, sample("empty")) if answer.status == 0 else (2, False))

    def test_history_is_a_link(self):
        """A history elsewhere by a link of the user's: it goes on being used, or is replaced, but what is undone is right."""
        states = self.authors("One")
        os.rename(self.history, self.away / "kept")
        self.history.symlink_to("away/kept")
        states.append(self.author("Two"))
        self.assertEqual(self.undo_all(states), 2)

    def test_hard_link(self):
        other = self.folder / "other.rtxc"
        os.link(self.file, other)
        self.author("One")
        self.assertIn(other.read_bytes(), (self.content, self.file.read_bytes()))
        self.edit("undo", self.file)
        self.assertEqual((self.file.read_bytes(), other.read_bytes()), (self.content, self.content))


class Names(Case):
    NAMES = (b"with spaces  .rtxc", b"-x", b"--help", b"\xff\xfe\x80.rtxc", "Füße.rtxc".encode(), b"tab\tand\nline.rtxc", b"no-ending", b".hidden")
    NAMES += (b"*?[a].rtxc", b"x" * 234)

    def test_every_name(self):
        for name in self.NAMES:
            with self.subTest(name=name):
                os.rename(self.file, os.path.join(os.fsencode(self.folder), name))
                self.edit_and_undo(b"./" + name)
                self.file.write_bytes(self.content)

    def edit_and_undo(self, path):
        here = {"cwd": self.folder}
        self.edit("set", path, "header", "--author", "Named", **here)
        self.assertEqual(self.bytes_of(path), with_author(self.content, "Named"))
        self.assertIn(os.path.basename(path) + b".history", os.listdir(os.fsencode(self.folder)))
        self.assertIn("Named", self.ok("history", path, **here))
        self.edit("undo", path, **here)
        self.assertEqual(self.bytes_of(path), self.content)

    def bytes_of(self, path):
        with open(os.path.join(os.fsencode(self.folder), path), "rb") as file:
            return file.read()

    def test_told_in_one_line(self):
        """Whatever the name holds, it is one line, and no colour or bell of a terminal comes out of it."""
        for name in (b"missing\nline.rtxc", b"missing\x1b[31m.rtxc", b"\xff\xfe.rtxc", b"tab\t.rtxc", b"cr\r.rtxc"):
            with self.subTest(name=name):
                answer = run("set", name, "header", "--author", "No", cwd=self.folder)
                self.assertEqual(answer.status, 2)
                self.plain(answer.err)

    def test_longest(self):
        """A name that leaves no room for FILE.history: told, or done without harm."""
        for length in (247, 248, 250, 251, 252, 255):
            path = self.place(self.content, "x" * length)
            answer = run("set", path, "header", "--author", "Long")
            with self.subTest(length=length):
                self.assertEqual(path.read_bytes(), with_author(self.content, "Long") if answer.status == 0 else self.content)
                self.plain(answer.err) if answer.status else self.assertEqual(answer.err, b"")
                self.assertIn(answer.status, (0, 2))
            if answer.status:
                self.assertEqual([name for name in self.names() if name.startswith("x") and len(name) > length], [])
            for left in self.folder.glob("x*"):
                left.unlink()

    def test_in_the_working_folder(self):
        self.edit("set", "plug.rtxc", "header", "--author", "Here", cwd=self.folder)
        self.assertEqual(self.file.read_bytes(), with_author(self.content, "Here"))
        self.assertEqual(self.names(), ["plug.rtxc", "plug.rtxc.history"])

    def test_working_folder_without_permission_above(self):
        """A path without a folder needs no folder above it."""
        self.edit("add", "./plug.rtxc", "bank", "--name", "Dot", cwd=self.folder)
        self.assertEqual(self.file.read_bytes(), with_bank(self.content, "Dot"))


class NotFiles(Case):
    EDITS = (("set", "header", "--author", "No"), ("undo",))

    def each(self, path, statuses=(2,)):
        for verb, *rest in self.EDITS:
            answer = run(verb, path, *rest, timeout=60)
            self.assertIn(answer.status, statuses, (verb, answer))
            self.plain(answer.err)

    def test_missing_folder_and_directory(self):
        for path in (self.folder / "missing.rtxc", self.folder / "no" / "missing.rtxc", self.folder, self.file / "below", self.folder / ""):
            with self.subTest(path=str(path)), self.unchanged():
                self.each(path)

    def test_trailing_slash(self):
        with self.unchanged():
            self.each(f"{self.file}/")

    def test_fifo(self):
        fifo = self.folder / "fifo"
        os.mkfifo(fifo)
        with self.unchanged():
            self.each(fifo)

    @unittest.skipUnless(ROOT, NOT_ROOT)
    def test_device(self):
        for name, numbers in (("null", (1, 3)), ("zero", (1, 5))):
            node = self.folder / name
            os.mknod(node, 0o666 | stat.S_IFCHR, os.makedev(*numbers))
            with self.subTest(device=name), self.unchanged():
                self.each(node, statuses=(1, 2))


class LeftOvers(Case):
    """FILE.codeplug-new and FILE.history.codeplug-new, left by somebody killed, are nobody's; but what they are links to is somebody's."""
    ENDINGS = (".codeplug-new", ".history.codeplug-new")

    def test_replaced(self):
        for ending in self.ENDINGS:
            for content, mode in ((b"", 0o644), (b"half a codeplug", 0o600), (self.content * 2000, 0o444), (b"", 0o000)):
                with self.subTest(ending=ending, size=len(content), mode=oct(mode)):
                    self.beside(ending).write_bytes(content)
                    self.beside(ending).chmod(mode)
                    self.file.chmod(0o640)
                    self.author(f"{ending} {mode}")
                    self.assertEqual((self.names(), owner_of(self.file)[2]), (["plug.rtxc", "plug.rtxc.history"], 0o640))

    @unittest.skipUnless(ROOT, NOT_ROOT)
    def test_replaced_by_somebody_who_may_not_open_it(self):
        bin_folder = pathlib.Path(tempfile.mkdtemp())
        bin_folder.chmod(0o755)
        self.addCleanup(shutil.rmtree, bin_folder)
        for path in (self.folder, self.file):
            os.chown(path, STRANGER, STRANGER)
        for ending, mode in itertools.product(self.ENDINGS, (0o400, 0o666)):
            with self.subTest(ending=ending, mode=oct(mode)):
                self.beside(ending).write_bytes(b"root's")
                self.beside(ending).chmod(mode)
                answer = run("set", self.file, "header", "--author", "Mine", **unprivileged(bin_folder))
                self.beside(ending).unlink(missing_ok=True)
                self.assertEqual((owner_of(self.file)[:2], answer), ((STRANGER, STRANGER), (0, b"", b"")))

    def test_links_are_not_written_through(self):
        precious = self.place(b"precious", "precious")
        for ending in self.ENDINGS:
            for make in (os.symlink, os.link):
                with self.subTest(ending=ending, by=make.__name__):
                    make(precious, self.beside(ending))
                    answer = run("set", self.file, "header", "--author", "One")
                    links = [path.name for path in self.folder.iterdir() if path.is_symlink()]
                    self.clear_away(precious)
                    self.assertEqual((answer.status, self.before[precious.name], links), (0, b"precious", []))

    def clear_away(self, precious):
        """Takes what is in the folder now as `before`, and begins again."""
        self.before = {path.name: path.read_bytes() for path in self.folder.iterdir()}
        for path in self.folder.iterdir():
            path.unlink()
        self.file.write_bytes(self.content)
        precious.write_bytes(b"precious")

    def test_folders(self):
        for ending in self.ENDINGS + (".history",):
            with self.subTest(ending=ending):
                self.beside(ending).mkdir()
                (self.beside(ending) / "inside").write_bytes(b"precious")
                with self.unchanged():
                    self.told("set", self.file, "header", "--author", "No")
                shutil.rmtree(self.beside(ending))

    def test_history_is_a_folder_for_readers(self):
        self.history.mkdir()
        with self.unchanged():
            self.told("undo", self.file)
            self.told("history", self.file)
            self.assertEqual(self.ok("check", self.file), "ok 6 10 4\n")

    def test_history_is_a_fifo(self):
        """Nobody waits for what never comes, with the file locked."""
        os.mkfifo(self.history)
        with self.unchanged():
            for command in (("undo", self.file), ("history", self.file), ("set", self.file, "header", "--author", "No")):
                self.told(*command, timeout=60)

    def test_aside_is_a_folder(self):
        self.author("One")
        self.beside(".history.aside").mkdir()
        foreign = self.history.read_bytes()
        self.file.write_bytes(with_author(self.content, "Else"))
        answer = run("set", self.file, "header", "--author", "Two")
        self.assertIn(answer.status, (0, 2))
        self.assertIn(foreign, [path.read_bytes() for path in self.folder.iterdir() if path.is_file()])


class Refused(Case):
    """A refused edit leaves every byte, time and name."""
    CASES = (
        (35, "remove", "contact", "0"), (35, "remove", "channel", "0"), (33, "remove", "bank", "99"), (5, "rename", "bank", "0", "x" * 33),
        (5, "rename", "contact", "0", "new\nline"), (38, "undo"), (38, "undo", "--count", "9"), (37, "set", "header", "--author", "A", "--history-size", "2"),
        (37, "move", "channel", "0", "7", "--history-size", "20"),
    )

    def test_cases(self):
        for number, verb, *rest in self.CASES:
            with self.subTest(verb=verb, rest=rest), self.unchanged():
                self.refused(number, verb, self.file, *rest)

    def test_with_history(self):
        self.authors("One", "Two")
        for number, verb, *rest in self.CASES:
            if number != 38:
                with self.subTest(verb=verb, rest=rest), self.unchanged():
                    self.refused(number, verb, self.file, *rest)
        with self.unchanged():
            self.refused(38, "undo", self.file, "--count", "3")

    def test_left_overs_stay_too(self):
        self.beside(".codeplug-new").write_bytes(b"half")
        with self.unchanged():
            self.refused(35, "remove", self.file, "contact", "0")

    def test_files_that_are_no_codeplugs(self):
        for name, number in (("club-cut", 2), ("club-trailing", 12), ("club-tone-50", 7), ("nothing", 2), ("empty-cut", 2)):
            self.file.write_bytes(sample(name))
            with self.subTest(name=name), self.unchanged():
                self.refused(number, "set", self.file, "header", "--author", "No")
                self.refused(number, "undo", self.file)

    def test_usage(self):
        options = ("--history-size", "many"), ("--history-size", "-1"), ("--wait", "x"), ("--nonsense",)
        for rest in (("--author",), ("--author", ""), ("--nonsense", "x")) + tuple(("--author", "A", *option) for option in options):
            with self.subTest(rest=rest), self.unchanged():
                self.assertEqual(run("set", self.file, "header", *rest).status, 2)


class Large(Case):
    """The longest codeplug there is."""

    @classmethod
    def setUpClass(cls):
        with tempfile.TemporaryDirectory() as folder:
            subprocess.run([sys.executable, SAMPLES / "make", "large", folder], check=True)
            cls.content = (pathlib.Path(folder) / "limit.rtxc").read_bytes()

    def test_edit_and_undo(self):
        self.assertEqual(len(self.content), LIMIT)
        self.assertEqual(self.undo_all(self.authors("One", "Two")), 2)

    def test_nothing_more_goes_in(self):
        with self.unchanged():
            answer = run("add", self.file, "bank", "--name", "One more")
            self.assertEqual(answer.status, 1, answer)
            self.plain(answer.err)

    def test_shorter_and_back(self):
        self.edit("remove", self.file, "bank", "9")
        self.assertLess(self.file.stat().st_size, LIMIT)
        self.edit("undo", self.file)
        self.assertEqual(self.file.read_bytes(), self.content)

    def test_a_byte_longer(self):
        self.file.write_bytes(self.content + b"\0")
        with self.unchanged():
            answer = run("set", self.file, "header", "--author", "No")
            self.assertIn(answer.status, (1, 2))
            self.plain(answer.err)
            self.assertEqual(run("check", self.file)[:2], (1, b"refused 1 at 0\n"))

    def test_enormous(self):
        """A file of 64 GiB with nothing in it is not read to its end."""
        with open(self.file, "r+b") as file:
            file.truncate(1 << 36)
        limits = lambda: resource.setrlimit(resource.RLIMIT_AS, (1 << 28, 1 << 28))
        self.assertEqual(run("check", self.file, preexec_fn=limits, timeout=60)[:2], (1, b"refused 1 at 0\n"))
        answer = run("set", self.file, "header", "--author", "No", preexec_fn=limits, timeout=60)
        self.assertIn(answer.status, (1, 2))
        self.plain(answer.err)

    def test_enormous_history(self):
        """Nor is a history of 64 GiB."""
        self.file.write_bytes(sample("club"))
        self.author("One")
        with open(self.history, "r+b") as file:
            file.truncate(1 << 36)
        limits = lambda: resource.setrlimit(resource.RLIMIT_AS, (1 << 28, 1 << 28))
        before = self.file.read_bytes()
        answer = run("undo", self.file, preexec_fn=limits, timeout=60)
        self.assertIn(answer.status, (1, 2))
        self.plain(answer.err)
        self.assertEqual(self.file.read_bytes(), before)


class FullDisk(Case):
    """A disk of 64 KiB, with so many pages left."""
    content = sample("dealer")

    def setUp(self):
        super().setUp()
        disk = self.folder / "disk"
        disk.mkdir()
        if subprocess.run(["mount", "-t", "tmpfs", "-o", "size=64k", "tmpfs", disk], capture_output=True).returncode:
            self.skipTest("no disk can be mounted here to be filled")
        self.addCleanup(subprocess.run, ["umount", disk], check=True)
        self.folder = disk
        self.file = self.place(self.content)
        self.history = self.beside(".history")

    def fill(self, pages_left):
        """Fills the disk, and takes so many pages away again."""
        filler, page = self.folder / "filler", b"\1" * 4096
        with open(filler, "wb", buffering=0) as file:
            try:
                while file.write(page) == len(page):
                    pass
            except OSError:
                pass
            file.truncate(max(0, file.seek(0, os.SEEK_END) // 4096 - pages_left) * 4096)
        return filler

    def test_every_number_of_pages_left(self):
        done = set()
        for pages in range(9):
            for command in (("set", "header", "--author", f"Page {pages}"), ("add", "bank", "--name", f"Page {pages}"), ("undo",)):
                with self.subTest(pages=pages, command=command[0]):
                    done.add(self.tried(pages, command))
        self.assertEqual(done, {True, False})

    def tried(self, pages, command):
        states = self.prepared()
        filler = self.fill(pages)
        answer = run(command[0], self.file, *command[1:])
        self.assertLessEqual(set(self.names()), {"plug.rtxc", "plug.rtxc.history", "filler"})
        filler.unlink()
        if answer.status == 0:
            states = states[:-1] if command[0] == "undo" else states + [self.file.read_bytes()]
        else:
            self.assertEqual(answer.status, 2, answer)
            self.plain(answer.err)
            self.assertRegex(answer.err.decode(), "(?i)full|space")
        self.assertEqual(self.undo_all(states), len(states) - 1)
        return answer.status == 0

    def prepared(self):
        for path in self.folder.iterdir():
            path.unlink()
        self.file.write_bytes(self.content)
        return self.authors("One", "Two")

    def test_goes_on_when_there_is_space_again(self):
        filler = self.fill(0)
        self.told("set", self.file, "header", "--author", "No")
        filler.unlink()
        self.author("Yes")

    def test_read_only_disk(self):
        self.author("One")
        subprocess.run(["mount", "-o", "remount,ro", self.folder], check=True)
        with self.unchanged():
            for command in (("set", self.file, "header", "--author", "No"), ("undo", self.file)):
                self.assertRegex(self.told(*command), "(?i)read")
            for command in (("check", self.file), ("show", self.file), ("history", self.file)):
                self.ok(*command)


class Limits(Case):
    def test_file_size_limit(self):
        """A limit on files' sizes: the program may be ended by it, the file stays."""
        limits = lambda: resource.setrlimit(resource.RLIMIT_FSIZE, (100, 100))
        answer = run("set", self.file, "header", "--author", "No", preexec_fn=limits)
        self.assertNotEqual(answer.status, 0)
        self.assertEqual(self.file.read_bytes(), self.content)
        self.author("Yes")
        self.assertEqual(self.names(), ["plug.rtxc", "plug.rtxc.history"])

    def test_open_files_limit(self):
        """However few files may be open, what is said fits what was done."""
        self.author("First")
        before = self.file.read_bytes()
        for most in range(3, 12):
            limits = lambda: resource.setrlimit(resource.RLIMIT_NOFILE, (most, most))
            answer = run("set", self.file, "header", "--author", f"Most {most}", preexec_fn=limits)
            with self.subTest(most=most, answer=answer):
                self.assertEqual(self.file.read_bytes(), with_author(before, f"Most {most}") if answer.status == 0 else before)
                self.assertEqual([name for name in self.names() if name.endswith(".codeplug-new")], [])
            before = self.file.read_bytes()

    def little_memory(self):
        resource.setrlimit(resource.RLIMIT_AS, (48 << 20, 48 << 20))

    def test_memory_limit(self):
        """Less memory than the history may hold: done without, or told."""
        self.author("First")
        for size in ("67108864", "1073741824"):
            before = self.file.read_bytes()
            answer = run("set", self.file, "header", "--author", size, "--history-size", size, preexec_fn=self.little_memory)
            with self.subTest(size=size, answer=answer):
                self.assertIn((answer.status, self.file.read_bytes()), ((0, with_author(before, size)), (2, before)))
                self.plain(answer.err) if answer.status else self.assertEqual(answer.err, b"")

    def test_memory_limit_and_a_history_that_says_it_is_large(self):
        self.author("First")
        head, _, rest = self.history.read_bytes().partition(b"\nbefore")
        for size in (b"67108864", b"1073741824"):
            self.history.write_bytes(b"codeplug history 1\nsize " + size + b"\nbefore" + rest)
            answer = run("undo", self.file, preexec_fn=self.little_memory)
            with self.subTest(size=size, answer=answer):
                self.assertIn(answer.status, (0, 1, 2))

    def test_standard_outputs_full(self):
        """An edit is done whether or not its notes can be written."""
        with open("/dev/full", "wb") as full:
            done = subprocess.run([PROGRAM, "set", self.file, "header", "--author", "Full", "--verbose"], stdout=full, stderr=full)
        self.assertIn(done.returncode, (0, 2))
        self.assertEqual(self.file.read_bytes(), with_author(self.content, "Full"))

    def test_descriptors_closed(self):
        """Started without standard input, output and error, nothing is written into the file that takes their numbers."""
        done = subprocess.run(["sh", "-c", '"$0" set "$1" header --author Closed --verbose <&- >&- 2>&-', PROGRAM, self.file])
        self.assertIn(done.returncode, (0, 2))
        self.assertEqual(self.file.read_bytes(), with_author(self.content, "Closed") if done.returncode == 0 else self.content)


if __name__ == "__main__":
    unittest.main()

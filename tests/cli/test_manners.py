"""How the program behaves around its work: help, versions, standard input and output, terminals, colours, files that cannot be had, and
outputs that cannot be written."""
import contextlib
import os
import pty
import re
import shutil
import stat
import subprocess
import unittest

from common import HELP, LIMIT, PROGRAM, Case, build, example, parse, run

EDITING = ["set", "add", "remove", "rename", "move", "undo"]
VERBS = ["check", "show", "new", *EDITING, "history", "migrate", "diff", "tone", "callsign", "address", "help"]
ESCAPE = b"\x1b"


def help_text(verb):
    return (HELP / f"{verb}.txt").read_text() + ((HELP / "editing.txt").read_text() if verb in EDITING else "")


class Help(Case):
    def test_the_program(self):
        for args in (["--help"], ["help"]):
            self.assertEqual(self.ok(*args), help_text("codeplug"))

    def test_every_verb(self):
        for verb in VERBS:
            with self.subTest(verb):
                self.assertEqual(self.ok(verb, "--help"), help_text(verb))
                self.assertEqual(self.ok("help", verb), help_text(verb))

    def test_after_other_arguments_it_does_nothing_else(self):
        with self.untouched():
            self.assertEqual(self.ok("set", self.club, "channel", "3", "--power", "20", "--help"), help_text("set"))
            self.assertEqual(self.ok("check", "nowhere", "--help"), help_text("check"))

    def test_every_verb_is_listed(self):
        listed = re.findall(r"^  ([a-z]+)\b.*   ", help_text("codeplug"), re.M)
        self.assertEqual(listed, VERBS)

    def test_help_for_no_verb(self):
        self.usage("help", "dance")
        self.usage("help", "set", "add")


class Version(Case):
    def test_the_programs_and_the_librarys(self):
        said = self.ok("--version")
        self.assertGreaterEqual(len(re.findall(r"\b\d+\.\d+\.\d+\b", said)), 2, said)
        self.assertIn("codeplug", said)

    def test_with_every_verb(self):
        for verb in VERBS:
            self.assertEqual(self.ok(verb, "--version"), self.ok("--version"), verb)


class Usage(Case):
    def test_no_such_verb(self):
        for verb in ("dance", "", "Check", "--dance", "-x", "chec"):
            with self.subTest(verb):
                self.usage(verb)

    def test_help_and_version_are_no_values(self):
        """A script is not told that something was done where help was printed."""
        for words in (["set", "-", "channel", "0", "--name", "--help"], ["set", "-", "channel", "0", "--name", "--version"], ["rename", "-", "channel", "0", "-h"]):
            self.usage(*words)
        for words in (["set", "-", "channel", "0", "--name", "-h"], ["rename", "-", "channel", "0", "--", "--help"], ["set", "-", "channel", "0", "--name=--help"]):
            answer = run(*words, stdin=self.club.read_bytes())
            self.assertEqual((answer.status, parse(answer.out)["channels"][0]["name"].strip("-")[0]), (0, "h"), words)

    def test_the_verb_is_named(self):
        self.assertIn("dance", self.usage("dance", self.club))

    def test_no_arguments(self):
        answer = run()
        self.assertEqual((answer.status, answer.out), (2, b""))
        self.assertNotEqual(answer.err, "")

    def test_arguments_that_are_no_text(self):
        cases = [[b"\xff"], [b"ch\xffck", "x"], ["show", self.club, b"\xff"], ["tone", b"\xff"], ["address", b"\xff"], ["help", b"\xff"]]
        cases += [["set", self.club, "channel", b"\xff", "--power", "20"], ["set", self.club, "header", b"--\xff", "x"], ["check", b"--\xff"]]
        with self.untouched():
            for args in cases:
                with self.subTest(args):
                    self.usage(*args)

    def test_texts_that_are_no_text(self):
        cases = [["set", self.club, "header", "--author", b"\xff"], ["rename", self.club, "channel", "0", b"a\xffb"], ["callsign", b"A\xff"]]
        with self.untouched():
            for args in cases:
                answer = run(*args)
                self.assertIn((answer.status, answer.out, answer.err.count("\n")), [(1, b"", 1), (2, b"", 1)], args)

    def test_a_file_whose_name_is_no_text(self):
        path = os.fsencode(self.folder) + b"/caf\xe9.rtxc"
        shutil.copy(self.club, path)
        self.assertEqual(self.ok("check", path), "ok 6 10 4\n")
        self.ok("rename", path, "channel", "0", "X")
        with open(path, "rb") as written:
            self.assertEqual(parse(written.read())["channels"][0]["name"], "X")
        self.ok("undo", path)
        self.assertIn(b"caf", run("check", path, self.club).out)

    def test_a_message_is_one_line_whatever_it_quotes(self):
        for odd in ("a\nb", "\x1b[31mred", "a\rb", "x" * 5000):
            for args in ([odd], ["check", odd], ["show", self.club, odd], ["set", self.club, "channel", odd, "--power", "20"], ["tone", odd]):
                answer = run(*args)
                self.assertEqual((answer.status, answer.err.count("\n")), (2, 1), args)
                self.assertTrue(answer.err[:-1].isprintable(), answer.err)

    def test_a_file_that_looks_like_an_option(self):
        shutil.copy(self.club, self.folder / "--odd")
        self.assertEqual(self.ok("check", "./--odd", cwd=self.folder), "ok 6 10 4\n")


class Pipes(Case):
    def test_edits_from_standard_input_to_standard_output(self):
        club, plug = self.club.read_bytes(), example()
        plug["header"]["author"] = "X"
        with self.untouched():
            answer = run("set", "-", "header", "--author", "X", stdin=club, cwd=self.folder)
        self.assertEqual((answer.status, answer.out, answer.err), (0, build(plug), ""))

    def test_a_chain(self):
        step = run("new", "-", "--author", "Me").out
        step = run("add", "-", "channel", "--mode", "fm", "--name", "One", "--receive-frequency", "145.5", stdin=step).out
        step = run("add", "-", "bank", "--name", "B", stdin=step).out
        step = run("add", "-", "entry", "B", "One", stdin=step).out
        self.assertEqual(self.ok("check", "-", stdin=step), "ok 0 1 1\n")
        self.assertEqual(parse(step)["banks"], [{"name": "B", "entries": [0]}])

    def test_show_reads_standard_input(self):
        self.assertEqual(self.ok("show", "-", stdin=self.club.read_bytes()), self.ok("show", self.club))

    def test_a_pipe_by_its_path(self):
        self.assertEqual(self.ok("check", "/dev/stdin", stdin=self.club.read_bytes()), "ok 6 10 4\n")

    def test_a_dry_run_of_standard_input_prints_words(self):
        answer = run("rename", "-", "channel", "0", "X", "--dry-run", stdin=self.club.read_bytes())
        self.assertTrue(answer.text.isascii())
        self.assertIn("Hill", answer.text)

    def test_a_codeplug_is_not_written_to_a_file_called_hyphen(self):
        run("set", "-", "header", "--author", "X", stdin=self.club.read_bytes(), cwd=self.folder)
        self.assertFalse((self.folder / "-").exists())

    def printing(self):
        club, hire = self.club, self.folder / "hire.rtxc"
        return [["show", club], ["show", club, "--json"], ["show", club, "channels", "--csv"], ["check", club], ["diff", club, hire], ["tone"], ["tone", "88.5"],
                ["callsign", "A"], ["address", "1"], ["help"], ["--version"], ["set", "--help"], ["new", "-"], ["set", club, "header", "--author", "X", "--dry-run"]]

    def test_a_closed_pipe(self):
        for args in self.printing():
            with self.subTest(args):
                reader, writer = os.pipe()
                os.close(reader)
                done = subprocess.run([PROGRAM, *map(str, args)], stdin=subprocess.DEVNULL, stdout=writer, stderr=subprocess.PIPE, timeout=60)
                os.close(writer)
                self.assertNotIn(b"panicked", done.stderr)
                self.assertLessEqual(done.stderr.count(b"\n"), 1)
                self.assertNotEqual(done.returncode, 101)

    def test_a_pipe_that_is_closed_halfway(self):
        process = subprocess.Popen([PROGRAM, "show", self.folder / "dealer.rtxc", "--json"], stdout=subprocess.PIPE, stderr=subprocess.PIPE)
        process.stdout.read(10)
        process.stdout.close()
        said = process.stderr.read()
        process.stderr.close()
        self.assertNotEqual(process.wait(20), 101)
        self.assertNotIn(b"panicked", said)

    def test_a_full_device(self):
        for args in self.printing():
            with self.subTest(args), open("/dev/full", "wb") as full:
                done = subprocess.run([PROGRAM, *map(str, args)], stdin=subprocess.DEVNULL, stdout=full, stderr=subprocess.PIPE, timeout=60)
                self.assertEqual((done.returncode, done.stderr.count(b"\n")), (2, 1), done.stderr)
                self.assertRegex(done.stderr, rb"(?i)space|full")

    def test_standard_error_on_a_full_device(self):
        with open("/dev/full", "wb") as full:
            done = subprocess.run([PROGRAM, "check", "nowhere"], stdin=subprocess.DEVNULL, stdout=subprocess.PIPE, stderr=full, timeout=60)
        self.assertEqual((done.returncode, done.stdout), (2, b""))

    def test_nothing_is_printed_by_a_command_that_only_changes_a_file(self):
        for args in (["rename", self.club, "bank", "0", "X"], ["undo", self.club], ["new", self.folder / "n"], ["move", self.club, "bank", "0", "1"]):
            self.assertEqual(self.ok(*args), "")


def on_terminal(*args, stderr_too=False, env=None):
    """The program with a terminal as its standard output: what it wrote there, and what to standard error."""
    mine, its = pty.openpty()
    around = {k: v for k, v in os.environ.items() if k != "NO_COLOR"} | {"TERM": "xterm-256color"} | (env or {})
    process = subprocess.Popen([PROGRAM, *map(str, args)], stdin=its, stdout=its, stderr=its if stderr_too else subprocess.PIPE, env=around)
    os.close(its)
    said = b""
    while True:
        try:
            more = os.read(mine, 65536)
        except OSError:  # the terminal's other side is closed
            break
        if not more:
            break
        said += more
    error = b"" if stderr_too else process.stderr.read()
    if process.stderr:
        process.stderr.close()
    process.wait(20)
    os.close(mine)
    assert b"panicked" not in said + error, args
    return said, error


class Colours(Case):
    def commands(self):
        hire, cut = self.folder / "hire.rtxc", self.folder / "club-cut.rtxc"
        return [["show", self.club], ["diff", self.club, hire], ["check", self.club, cut], ["show", cut], ["dance"], ["help"], ["tone"], ["history", self.club]]

    def test_on_a_terminal(self):
        self.assertTrue(any(ESCAPE in on_terminal(*args, stderr_too=True)[0] for args in self.commands()))

    def test_without_the_colours_it_is_the_same_text(self):
        for args in (["show", self.club], ["diff", self.club, self.folder / "hire.rtxc"]):
            plain = re.sub(rb"\x1b\[[0-9;]*m", b"", on_terminal(*args)[0]).replace(b"\r\n", b"\n")
            self.assertEqual(plain, run(*args).out)

    def test_none_with_no_color(self):
        for args in self.commands():
            self.assertNotIn(ESCAPE, on_terminal(*args, stderr_too=True, env={"NO_COLOR": "1"})[0], args)

    def test_none_in_a_pipe(self):
        for args in self.commands():
            answer = run(*args, env={"TERM": "xterm-256color"})
            self.assertNotIn("\x1b", answer.text + answer.err, args)

    def test_each_output_by_itself(self):
        for args in self.commands():
            self.assertNotIn(ESCAPE, on_terminal(*args)[1], args)

    def test_none_for_programs(self):
        for args in (["show", self.club, "--json"], ["show", self.club, "channels", "--csv"]):
            self.assertNotIn(ESCAPE, on_terminal(*args)[0], args)

    def test_none_on_a_dumb_terminal(self):
        self.assertNotIn(ESCAPE, on_terminal("show", self.club, env={"TERM": "dumb"})[0])


READING = [["check"], ["show"], ["history"]]
WRITING = [["set", "header", "--author", "X"], ["rename", "channel", "0", "X"], ["remove", "bank", "0"], ["move", "bank", "0", "1"], ["add", "bank", "--name", "X"], ["undo"]]
MIGRATING = [["migrate"]]


class BadFiles(Case):
    def every_verb(self, path, words, verbs=READING + WRITING + MIGRATING, **more):
        """Each verb on this file is one line of plain words, status 2, and leaves the folder as it was."""
        before = sorted(os.listdir(self.folder))
        for verb, *rest in verbs:
            with self.subTest((verb, *rest)):
                line = self.usage(verb, path, *rest, **more)
                self.assertRegex(line, words)
                self.assertIn(os.path.basename(path), line)
                self.assertNotIn("os error", line)
        self.assertEqual(sorted(os.listdir(self.folder)), before)

    def test_no_such_file(self):
        self.every_verb(self.folder / "nowhere", r"(?i)no such file")

    def test_no_such_folder(self):
        self.every_verb(self.folder / "nowhere" / "file", r"(?i)no such file")

    def test_a_directory(self):
        (self.folder / "inside").mkdir()
        self.every_verb(self.folder / "inside", r"(?i)director")

    def test_a_link_to_nowhere(self):
        (self.folder / "link").symlink_to("nowhere")
        self.every_verb(self.folder / "link", r"(?i)no such file|nowhere")

    def test_a_link_to_itself(self):
        (self.folder / "loop").symlink_to("loop")
        self.every_verb(self.folder / "loop", r"(?i)link")

    def test_a_file_that_is_longer_than_the_limit(self):
        path = self.folder / "long"
        path.write_bytes(bytes(LIMIT + 1))
        for verb, *rest in [["show"], *WRITING[:-1], *MIGRATING]:
            with self.untouched():
                self.assertRegex(self.refused(1, 0, verb, path, *rest), r"long|limit")

    def test_standard_input_that_is_longer_than_the_limit(self):
        self.refused(1, 0, "show", "-", stdin=bytes(LIMIT + 1))
        self.refused(1, 0, "set", "-", "header", "--author", "X", stdin=bytes(LIMIT + 1))
        self.refused(1, 0, "migrate", "-", stdin=bytes(LIMIT + 1))

    def test_what_is_no_regular_file(self):
        for args in (["set", "/dev/null", "header", "--author", "X"], ["new", "/dev/full"], ["new", self.folder]):
            self.usage(*args)

    def test_no_folder_for_a_new_file(self):
        self.assertRegex(self.usage("new", self.folder / "nowhere" / "a"), r"(?i)no such file")


class Permissions(Case):
    """As somebody who is not root, also where the tests are run by root."""

    def setUp(self):
        super().setUp()
        self.folder.chmod(0o755)
        self.program = PROGRAM
        self.more = {}
        if os.getuid() == 0:
            self.program = shutil.copy(PROGRAM, self.folder / "codeplug")
            os.chmod(self.program, 0o755)
            self.more = {"preexec_fn": self.become_nobody, "cwd": "/"}

    def become_nobody(self):
        os.setgroups([])
        os.setgid(65534)
        os.setuid(65534)

    def denied(self, verb, path, *rest):
        line = self.usage(verb, path, *rest, program=self.program, **self.more)
        self.assertRegex(line, r"(?i)permission")
        self.assertNotIn("os error", line)

    def test_a_file_that_may_not_be_read(self):
        self.club.chmod(0)
        with self.untouched() if os.getuid() == 0 else contextlib.nullcontext():
            for verb, *rest in READING[:2] + WRITING + MIGRATING:
                with self.subTest(verb):
                    self.denied(verb, self.club, *rest)

    def test_a_folder_that_may_not_be_written(self):
        self.club.chmod(0o644)
        if os.getuid():
            self.folder.chmod(0o555)
        with self.untouched():
            for verb, *rest in WRITING[:-1]:
                with self.subTest(verb):
                    self.denied(verb, self.club, *rest)
            self.denied("new", self.folder / "new")
        self.folder.chmod(0o755)

    def test_reading_needs_no_right_to_write(self):
        self.club.chmod(0o444)
        for args in (["check", self.club], ["show", self.club], ["diff", self.club, self.club], ["history", self.club]):
            self.assertEqual(run(*args, program=self.program, **self.more).status, 0, args)

    def test_a_dry_run_needs_no_right_to_write(self):
        self.club.chmod(0o444)
        answer = run("rename", self.club, "channel", "0", "X", "--dry-run", program=self.program, **self.more)
        self.assertEqual((answer.status, answer.err), (0, ""))

    def test_the_permissions_stay(self):
        for mode in (0o600, 0o640, 0o664):
            self.club.chmod(mode)
            self.ok("rename", self.club, "channel", "0", f"X{mode}")
            self.assertEqual(stat.S_IMODE(self.club.stat().st_mode), mode)


if __name__ == "__main__":
    unittest.main()

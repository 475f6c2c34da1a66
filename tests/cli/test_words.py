"""README.md's tour and docs/CLI.md say what the program does: the tour is made and its output compared, the page is made anew."""
import re
import shlex
import shutil
import subprocess
import unittest

from common import PROGRAM, ROOT, SAMPLES, Case, run

VERBS = "check show new set add remove rename move undo history migrate diff tone callsign address".split()


def tours():
    """The commands of README.md and what each prints: blocks of indented lines that begin with '$ ', as does each command."""
    blocks = re.findall(r"(?:^    .*\n)+", (ROOT / "README.md").read_text(), re.MULTILINE)
    lines = [line[4:] for block in blocks if block.startswith("    $ ") for line in block.splitlines()]
    begins = [n for n, line in enumerate(lines) if line.startswith("$ ")]
    return [(lines[n][2:], lines[n + 1 : end]) for n, end in zip(begins, begins[1:] + [len(lines)])]


class Words(Case):
    def made(self, command):
        """What a command of the tour prints, both streams as a terminal shows them."""
        words = [PROGRAM if word == "./codeplug" else word for word in shlex.split(command)]
        done = subprocess.run(words, cwd=self.folder, stdout=subprocess.PIPE, stderr=subprocess.STDOUT, timeout=60)
        return done.stdout.decode().splitlines()

    def test_tour_of_the_readme(self):
        shutil.copytree(SAMPLES, self.folder / "samples")
        found = tours()
        self.assertGreater(len(found), 6)
        for command, printed in found:
            self.assertEqual(self.made(command), printed, command)

    def test_readme_begins_with_the_program(self):
        self.assertEqual(tours()[0][0], "./codeplug check samples/club.rtxc")

    def test_script_runs_the_program(self):
        """From any folder, with the program's own output and status; it is built by then."""
        for sample, status, line in (("club", 0, "ok 6 10 4\n"), ("club-trailing", 1, "refused 12 at 1400\n")):
            done = subprocess.run([ROOT / "codeplug", "check", f"{sample}.rtxc"], cwd=self.folder, capture_output=True, timeout=600)
            self.assertEqual((done.returncode, done.stdout.decode()), (status, line))

    def test_page_is_made_of_the_help(self):
        made = subprocess.run([ROOT / "cli/manual"], capture_output=True, check=True).stdout
        self.assertEqual(made, (ROOT / "docs/CLI.md").read_bytes())

    def test_page_has_what_the_program_prints(self):
        page = (ROOT / "docs/CLI.md").read_text()
        options = page[page.rindex("```text\n") + 8 : page.rindex("```")]
        for verb in VERBS:
            self.assertIn("```text\n" + run("help", verb).text.replace("\n" + options, "") + "```", page, verb)


if __name__ == "__main__":
    unittest.main()

"""Random commands, one after the other: a codeplug stays valid, what is refused changes nothing, `diff` is silent just where nothing
differs, and undo brings every state back."""
import random
import unittest

from common import Case, parse, run

COMMANDS = 60


class Random(Case):
    def command(self, rng):
        """A command that is mostly possible."""
        plug = parse(self.club.read_bytes())
        part = rng.choice(["contact", "channel", "bank"])
        count = len(plug[part + "s"])
        place, other = rng.randrange(count + 2), rng.randrange(count + 1)
        banks, channels = len(plug["banks"]), len(plug["channels"])
        name = rng.choice(["A", "B", "Hill", "none", "-", "x" * 32])
        return rng.choice([
            ["move", part, place, other],
            ["remove", part, place],
            ["rename", part, place, "--", name],
            ["add", "contact", "--mode", "dmr", "--id", rng.randrange(4), "--name", name, "--at", rng.randrange(8)],
            ["add", "channel", "--like", rng.randrange(channels + 1), "--at", rng.randrange(channels + 2)],
            ["add", "bank", "--name", name, "--at", rng.randrange(banks + 2)],
            ["add", "entry", rng.randrange(banks + 1), rng.randrange(channels + 1), "--at", rng.randrange(3)],
            ["remove", "entry", rng.randrange(banks + 1), rng.randrange(4)],
            ["move", "entry", rng.randrange(banks + 1), rng.randrange(4), rng.randrange(4)],
            ["set", "channel", place, "--contact", rng.choice(["none", other]), "--power", rng.choice([10, 37])],
            ["set", "header", "--timestamp", rng.randrange(3)],
        ])

    def afternoon(self, rng):
        states = [self.club.read_bytes()]
        for _ in range(COMMANDS):
            verb, *rest = self.command(rng)
            answer = run(verb, self.club, *rest)
            now = self.club.read_bytes()
            self.assertIn(answer.status, (0, 1, 2), rest)
            self.assertEqual(run("check", self.club).status, 0, rest)
            self.assertTrue(now == states[-1] or answer.status == 0, (verb, rest))
            self.assertEqual(self.ok("diff", self.write("before", states[-1]), self.club) == "", now == states[-1], (verb, rest))
            states += [now] if now != states[-1] else []
        return states

    def test_afternoons(self):
        for seed in range(3):
            states = self.afternoon(random.Random(seed))
            self.assertGreater(len(states), COMMANDS // 4)
            for state in reversed(states[:-1]):
                self.ok("undo", self.club)
                self.assertEqual(self.club.read_bytes(), state)
            self.refused(38, 0, "undo", self.club)


if __name__ == "__main__":
    unittest.main()

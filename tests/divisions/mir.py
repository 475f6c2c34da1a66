"""The MIR of a crate, as `rt mir` prints it: its functions, and what each divides and calls."""

import re
import subprocess

TOKEN = re.compile(r'[()]|"[^"]*"|[^\s()"]+')
DIVISIONS = {"div": "/", "rem": "%"}


def parsed(text):
    """The terms of a text: a list for each pair of brackets, a string for each word."""
    stack = [[]]
    for token in TOKEN.findall(text):
        if token == "(":
            stack.append([])
        elif token == ")":
            term = stack.pop()
            stack[-1].append(term)
        else:
            stack[-1].append(token.strip('"'))
    [terms] = stack
    return terms


def within(term):
    """A term and every term within it. They nest too deeply for recursion."""
    waiting = [term]
    while waiting:
        term = waiting.pop()
        if isinstance(term, list):
            yield term
            waiting.extend(reversed(term))


def elements(term):
    """A, B of `(lcons A (lcons B lnil))`."""
    while term != "lnil":
        [_, element, term] = term
        yield element


class Function:
    """A function of the MIR, `(fn-def NAME (fnItem LIFETIMES .. PARAMETERS LOCALS BODY) ..)`."""

    def __init__(self, term):
        self.name = term[1]
        self.locals, self.body = term[2][4:6]

    def calls(self):
        return {term[1] for term in within(self.body) if term[:1] == ["fnRef"]}

    def divisions(self):
        """Each division and remainder, as its sign and its bits, None where these cannot be told."""
        types = [local[1] for local in elements(self.locals)]
        for term in within(self.body):
            if term[:1] == ["op2"] and term[1][0] in DIVISIONS:
                bits = {width(operand, types) for operand in term[2:]} - {None}
                yield DIVISIONS[term[1][0]], bits.pop() if len(bits) == 1 else None


def width(operand, types):
    """The bits of an operand: a number's own, or those of the local that is copied; None for any other."""
    if operand[0] == "int":
        return int(operand[1])
    if operand[0] == "copy" and operand[1][2] == "lnil":
        of = types[int(operand[1][1])]
        if of[0] == "tyInt":
            return int(of[1])
    return None


def functions(crate, repository):
    """The functions of a crate, without the empty `main` that rt adds to a library."""
    printed = subprocess.run(["rt", "mir", crate], cwd=repository, capture_output=True, text=True)
    programs = [line for line in printed.stdout.split("\n") if line.startswith("program ")]
    if printed.returncode != 0 or len(programs) != 1:
        raise SystemExit(f"rt mir {crate} printed no program:\n{printed.stdout[-2000:]}{printed.stderr[-2000:]}")
    found = [Function(term) for term in within(parsed(programs[0])) if term[:1] == ["fn-def"]]
    return [function for function in found if function.name != "rt_empty::main"]

#!/usr/bin/env python3
"""Runs the built program on every case and on every example, as both compilers built it, and compares bytes.

An example is a script or settings of examples/ beside what it prints, or a load of examples/lab beside the table that the lab makes of it.
A case is a folder of tests/cases:
  args      the arguments, one a line (none: `replay`)
  stdin     the standard input, or make-stdin, a shell script that writes it (none: empty)
  stdout    what the program has to write (none: nothing), or stdout-is-not-fixed where only its being there is wanted
  stderr    what it has to write on standard error (none: nothing)
  status    its exit status (none: 0)
  run       a bash script in place of args and stdin: its first argument is the program, and what it writes and its status are compared
Every other file of the folder lies where the program runs.
What replays a script is explained too: without its comments an explanation is what a replay writes, with the same ending.
"""
import itertools
import re
import shutil
from functools import partial

import rig
from rig import ROOT, outcome, run

CASES = ROOT / "tests/cases"


class Case:
    """A case, as its folder tells it."""

    def __init__(self, folder):
        self.folder, self.name = folder, folder.name
        self.is_shell = (folder / "run").is_file()
        self.args = (folder / "args").read_text().splitlines() if (folder / "args").is_file() else ["replay"]
        self.status = int(self.content("status") or 0)
        self.out = None if (folder / "stdout-is-not-fixed").exists() else self.content("stdout")
        self.err = self.content("stderr")

    def content(self, name):
        return (self.folder / name).read_bytes() if (self.folder / name).is_file() else b""

    def given(self, folder):
        """The standard input; a script that writes it runs in this folder."""
        script = self.folder / "make-stdin"
        return run("bash", script, cwd=folder, text=False, check=True).stdout if script.is_file() else self.content("stdin")

    def is_replay(self):
        """Whether the case replays a script by its arguments (and does not ask for help)."""
        return not self.is_shell and self.args[:1] == ["replay"] and not any(word.startswith("--") for word in self.args)

    def ended(self, program, word):
        """What the program comes to; with another first word in place of its own, where one is given."""
        words = ["bash", "run", program] if self.is_shell else [program, *([word] if word else self.args[:1]), *self.args[1:]]
        with rig.folder() as folder:
            shutil.copytree(self.folder, folder, dirs_exist_ok=True)
            return run(*words, given=self.given(folder), cwd=folder, text=False)


class Example:
    """A script, settings or a load of examples/, and the output that stands beside it."""

    def __init__(self, path):
        self.path, self.name, self.status, self.err = path, path.name, 0, b""
        self.out = path.with_suffix(".output").read_bytes()

    def is_replay(self):
        return self.path.suffix == ".script"

    def ended(self, program, word):
        own = "replay" if self.is_replay() else "lab" if self.path.parent.name == "lab" else "run"
        return run(program, word or own, self.path, text=False)


def difference(what, found, wanted):
    """The first line in which what was written is not the wanted."""
    pairs = itertools.zip_longest(found.split(b"\n"), wanted.split(b"\n"))
    told = ((place, *(repr(line[:200]) if line is not None else "its end" for line in pair)) for place, pair in enumerate(pairs, 1) if pair[0] != pair[1])
    return next(f"{what}, line {place}: {one}, wanted {other}" for place, one, other in told)


def faults_of(case, program, word=""):
    """What differs from the wanted, as a list of texts. Where it is explained, what differs without the comments."""
    status, out, errors = outcome(case.ended(program, word))
    out = re.sub(rb"(?m)^#.*\n", b"", out) if word else out
    faults = [f"status {status}, wanted {case.status}"] if status != case.status else []
    faults += ["nothing on standard output"] if case.out is None and not out else []
    rows = (("standard output", out, out if case.out is None else case.out), ("standard error", errors, case.err))
    return faults + [difference(*row) for row in rows if row[1] != row[2]]


def expect(case):
    """What is written of a case or an example is the wanted."""
    found = faults_of(case, rig.program)
    if case.is_replay():
        found += [f"explained: {fault}" for fault in faults_of(case, rig.program, "explain")]
    assert not found, "\n    ".join(found)


def all_cases():
    cases = [Case(path) for path in sorted(CASES.iterdir()) if path.is_dir()]
    assert cases, "no case in tests/cases"
    examples = sorted(path for path in (ROOT / "examples").iterdir() if path.suffix in (".script", ".toml"))
    loads = sorted(path.with_suffix(".toml") for path in (ROOT / "examples/lab").glob("*.output"))
    return [*cases, *map(Example, [*examples, *loads])]


def counted(line):
    """The counts of a last line `N passed, M failed`, which may go on `, K skipped`. Any other line is one failure: what wrote it
    did not come to its end."""
    counts = re.fullmatch(r"(\d+) passed, (\d+) failed(?:, (\d+) skipped)?", line.strip())
    return (int(counts[1]), int(counts[2]), int(counts[3] or 0)) if counts else (0, 1, 0)


def add_words(add):
    add("--gate-status", type=int, default=0, help="the exit status of the gate, to be counted too")
    add("--gate-line", default="0 passed, 0 failed", help="the gate's last line")
    add("--also", action="append", default=[], help="the last line of further tests, to be counted too")


def counted_before(tally):
    """Counts the gate, and the last lines of further tests."""
    gate = counted(rig.options.gate_line)
    tally.passed, tally.failed, tally.skipped = map(sum, zip(gate, *map(counted, rig.options.also)))
    tally.failed += rig.options.gate_status != 0 and gate[1] == 0
    if tally.skipped:
        print(f"{tally.skipped} skipped")


if __name__ == "__main__":
    tests = lambda: [(f"case {it.name}", partial(expect, it)) for it in all_cases()]
    rig.main(__doc__, tests, add_words, both=True, before=counted_before)

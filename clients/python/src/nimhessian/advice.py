"""What would make a refused command accepted, as `pc-sim` explains it."""
import re
import subprocess
from collections.abc import Sequence
from dataclasses import dataclass

FORMS = re.compile(r"#    (?:Accepted|No agent can make it accepted before the environment acts): (.*)\.")
STEP = re.compile(r"`([^`]+)`(?: (\d+) times)?")
MOST_STEPS = 4_096
"""Advice of more commands than that is none."""


def explained(program: str, lines: Sequence[str]) -> str:
    """The lines of a script with their answers and what `pc-sim` says of each."""
    told = subprocess.run([program, "session", "--explain"], input="\n".join([*lines, ""]), stdout=subprocess.PIPE,
                          stderr=subprocess.DEVNULL, text=True, errors="replace")
    return told.stdout


@dataclass(frozen=True, slots=True)
class Past:
    """The first `count` of the lines that were said to a program."""

    program: str
    said: Sequence[str]
    count: int

    def advice(self, command: str) -> list[str]:
        """What would make the command accepted behind these lines."""
        last = explained(self.program, [*self.said[:self.count], command]).rstrip("\n").rpartition("\n")[2]
        if (told := FORMS.fullmatch(last)) is None:
            return []
        steps = [(line, int(times or 1)) for line, times in STEP.findall(told[1])]
        return [line for line, times in steps for _ in range(times)] if sum(it[1] for it in steps) <= MOST_STEPS else []

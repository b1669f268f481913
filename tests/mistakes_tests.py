#!/usr/bin/env python3
"""What is said of the mistakes of a newcomer, who finds there which word it is and what to do: tests/mistakes.txt has them."""
import shlex

import rig

MISTAKES = {typed: (typed, given, parts) for typed, (given, _, parts) in rig.cases("mistakes.txt").items()}


@rig.each(MISTAKES)
def test_a_mistake(typed: str, given: str, parts: dict[str, list[str]]) -> None:
    [(status, said)] = parts.items()
    with rig.folder() as empty:
        ended = rig.ask(*shlex.split(typed, comments=True), given=given, cwd=empty)
    rig.same((ended.returncode, ended.stderr.splitlines()), (int(status), said))


def test_nothing_that_is_typed_moves_the_cursor() -> None:
    for words in (["fr\x1b[31mob"], ["run", "--x\x1b[2J\ny"], ["draw", "--cpus", "\x1b[H"], ["run", "--policy", "a\rb"], ["replay", "\x1b]0;x\x07"]):
        said = rig.ask(*words).stderr
        assert said.startswith("pc-sim: ") and said.replace("\n", "").isprintable(), (words, said)
        rig.same(said.count("\n"), 2, words)


if __name__ == "__main__":
    rig.main(__doc__, rig.tests_in(globals()))

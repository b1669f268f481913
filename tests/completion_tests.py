#!/usr/bin/env python3
"""Tests that the completions and the man page tell each command and flag that the built program tells, and that shells complete them.

What there is to tell is read from the program's `--help` and from that of each of its commands. Where fish is not installed, bash alone is
asked; where man is not, its test is skipped.
"""
import itertools
import re
import shutil
from typing import Any

import rig
from kernel import ORDERS
from rig import ROOT, good, same

PAGE = ROOT / "docs/pc-sim.1"
BASH, FISH = (ROOT / f"tools/completions/pc-sim.{shell}" for shell in ("bash", "fish"))


def help_of(*words: str) -> Any:
    return good(rig.ask(*words, "--help"))


def flags_of(*words: str) -> set[str]:
    """The flags of a help text: lines of options begin with them."""
    lines = re.findall(r"^ +(-.*)$", help_of(*words), re.M)
    return {flag for line in lines for flag in re.findall(r"(?<![\w-])--?[A-Za-z][\w-]*", re.split(r"  +\w", line)[0])}


def commands() -> list[str]:
    """The commands of the help text, which stand in a section of their own."""
    found = re.findall(r"^  (\w[\w-]*)", re.search(r"^Commands:\n((?:  .*\n)+)", help_of(), re.M)[1], re.M)
    assert {"replay", "run"} <= set(found), found
    return found


def places() -> list[list[str]]:
    """Before a command, and behind each."""
    return [[], *([command] for command in commands())]


def bash(*words: str) -> list[str]:
    """What bash completes the last word to."""
    told = good(rig.run("bash", "--norc", ROOT / "tests/complete.bash", BASH, "pc-sim", *words, cwd=ROOT))
    return [word for word in told.split("\n") if word]


def fish(*words: str) -> list[str]:
    line = f"source {FISH}; complete -C 'pc-sim {' '.join(words)}'"
    return [line.split("\t")[0] for line in good(rig.run("fish", "--no-config", "-c", line, cwd=ROOT)).splitlines()]


SHELLS = [bash, *([fish] if shutil.which("fish") else [])]


def test_the_help_is_understood() -> None:
    assert {"-h", "--help", "-V", "--version"} <= flags_of()
    assert {"-h", "--help", "--per-cpu"} <= flags_of("run")
    assert "--per-cpu" not in flags_of("replay")


def test_each_command_is_completed() -> None:
    for complete in SHELLS:
        assert set(commands()) <= set(complete(""))
        for command in commands():
            assert command in complete(command[:2])
            assert command not in complete("replay", command[:2])


def test_each_flag_is_completed() -> None:
    for words, complete in itertools.product(places(), SHELLS):
        for flag in sorted(flags_of(*words)):
            assert flag in complete(*words, "--" if flag.startswith("--") else "-"), (words, complete)


def test_no_flag_is_completed_that_is_not_there() -> None:
    for words in places():
        assert set(bash(*words, "-")) <= flags_of(*words), words


def test_files_are_completed() -> None:
    for words, wanted in {
        "replay examples/fir": "examples/first-run.script", "run --per-cpu examples/ste": "examples/steals-and-restarts.toml",
        "run --script examples/fir": "examples/first-run.script",
        "lab --csv examples/ste": "examples/steals-and-restarts.toml", "lab --variants examples/lab/v": "examples/lab/variants.toml",
        "lab --script f": "", "replay exam": "examples", "replay CHANGE": "CHANGELOG.md",
    }.items():
        same(bash(*words.split()), wanted.split(), words)
    same(set(bash("run", "--policy", "")), {order + exact for order in ORDERS for exact in ("", "\\ exact")})
    if fish in SHELLS:
        same(fish("replay", "examples/fir")[0], "examples/first-run.script")
        same(fish("run", "examples/ste")[0], "examples/steals-and-restarts.toml")


def test_bash_completes_by_the_function() -> None:
    told = rig.run("bash", "--norc", "-c", f"source {BASH}; complete -p pc-sim ./pc-sim").stdout
    same(told, "complete -F _pc_sim pc-sim\ncomplete -F _pc_sim ./pc-sim\n")


def test_the_man_page_tells_each_command_and_flag() -> None:
    page = PAGE.read_text().replace("\\-", "-").replace("\\fB", "").replace("\\fP", "")
    sections = dict(re.findall(r"^\.SH ([A-Z ]+)\n((?:(?!\.SH ).*\n)*)", page, re.M))
    for command in commands():
        rig.matches(sections["COMMANDS"], rf"(?m)^\.BR {command} ")
        rig.matches(sections["SYNOPSIS"], rf"(?m)^\.B {command}$")
    for flag in {flag for words in places() for flag in flags_of(*words)}:
        rig.matches(sections["OPTIONS"], rf"(?m)^\.BR? (?:.*[ \"])?{flag}(?:[ \"]|$)")
    for status in range(6):
        assert f".TP\n.B {status}\n" in sections["EXIT STATUS"]


def test_the_man_page_is_read_without_a_warning() -> None:
    rig.needs(shutil.which("man"), "man is not installed")
    good(rig.run("man", "--warnings", "-E", "UTF-8", "-l", "-Tutf8", "-Z", PAGE))


def test_the_first_example_of_the_man_page() -> None:
    script, replies = re.search(r"replay <<END\\fP\n(.*?)\\fBEND\\fP\n(.*?)\.EE", PAGE.read_text(), re.S).groups()
    same(good(rig.ask("replay", given=script.replace("\\fB", "").replace("\\fP", ""))), replies)


if __name__ == "__main__":
    rig.main(__doc__, rig.tests_in(globals()))

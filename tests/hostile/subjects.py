"""What the program is run on: the examples, the cases, command lines, and malformed texts, each with what is written with ample memory."""
import dataclasses
import pathlib
import subprocess
import sys

from machine import ROOT, Subject, ending_of
from run_cases import Case, all_cases
from settings import TEXTS, faulty
from worst import write

GENERATED = ["first-run", "kernel-calls", "late", "late-batches", "scattered", "answer-half", "rounds", "steals", "day", "restarts"]
NO_COMMAND = b"pc-sim: bad command line\n"
NO_FILE = b"pc-sim: cannot read\n"
ENDS_THERE = b"pc-sim: a line of the script is no command, and the picture ends there\n"
# Of a script.
MOST_BYTES = 16 * 2**20
OPENING = b"enclave 2 8 100 16 1000\n"
# Malformed texts, and what is answered to each: those of texts.toml, and the longest.
MALFORMED = {name: tuple(it.encode("latin-1") for it in row) for name, row in TEXTS["malformed"].items()} | {
    "a-line-of-100000-bytes": (OPENING + b"x" * 100_000, b"ok\nfault line 2\n"),
    "a-line-of-50000-words": (OPENING + b"1 " * 50_000, b"ok\nfault line 2\n"),
    "a-number-of-100000-digits": (OPENING + b"tick " + b"1" * 100_000 + b"\n", b"ok\nfault line 2\n"),
}


def examples():
    """The scripts of examples/, read from the file that is named."""
    for script in sorted((ROOT / "examples").glob("*.script")):
        yield Subject(f"example {script.stem}", ["replay", str(script)], out=script.with_suffix(".output").read_bytes())


def cases(folder):
    """The cases of tests/cases without those that are shell scripts.

    Runs of agents have another schedule each time, and may also end as threads cannot be started: they are a part of their own (settings.py).
    """
    every = (it for it in all_cases() if isinstance(it, Case) and not it.is_shell)
    for case in (it for it in every if it.args[:1] != ["run"] or it.status not in (0, 3)):
        made = pathlib.Path(folder) / f"{case.name}.stdin"
        if not made.is_file():
            made.write_bytes(case.given(case.folder))
        ends, whole = ending_of(case.err), case.args[:1] == ["lab"]
        yield Subject(f"case {case.name}", case.args, made, case.folder, case.out, ends, case.status, whole=whole)


def malformed(folder):
    """Texts that are no scripts."""
    for name, (text, out) in MALFORMED.items():
        file = pathlib.Path(folder) / f"{name}.malformed"
        file.write_bytes(text)
        yield Subject(f"malformed {name}", ["replay"], file, out=out, status=1 if b"fault" in out else 0)


def generated(folder, lines):
    """Scripts of bench/generate.py, with so many lines each: nothing is written down of what they are answered."""
    for name in GENERATED:
        file = pathlib.Path(folder) / f"{name}.generated"
        with open(file, "wb") as out:
            subprocess.run([sys.executable, str(ROOT / "bench/generate.py"), name, str(lines)], stdout=out, check=True)
        yield Subject(f"generated {name} {lines}", ["replay", str(file)], out=None)


def greatest(folder):
    """Accepted scripts of the greatest length, of the most threads, messages, and rows of one answer."""
    for words in ("posts 1100000", "threads 2", "answers 3", "early 2 500000"):
        file = pathlib.Path(folder) / f"{words}.greatest"
        with open(file, "w") as out:
            write(words.split(), out)
            out.write("show 63\nsame 0 63\n" * 2)
        yield Subject(f"the most {words.split()[0]}", ["replay", str(file)], out=None)
    file = pathlib.Path(folder) / "words.greatest"
    file.write_bytes(OPENING + b"1 " * (MOST_BYTES // 2 - len(OPENING)))
    yield Subject("the most words", ["replay", str(file)], out=b"ok\nfault line 2\n", status=1)


def words_of(head, **more):
    """Lists of words by their names. One that is no ASCII is meant in bytes."""
    return {name: [it if it.isascii() else it.encode("latin-1") for it in words] for name, words in TEXTS[head].items()} | more


TOLD = words_of("told")
WORDS = words_of("words", **{"a word of 100,000 bytes": ["x" * 100_000]})
FILES = words_of("files", **{
    "a name of 100,000 bytes": ["replay", "x" * 100_000], "settings by a name of 100,000 bytes": ["run", "x" * 100_000],
})


def command_lines():
    """Help, words that are no command line, and those that name no file."""
    yield from (Subject(name, words, out=None) for name, words in TOLD.items())
    for every, err, status in ((WORDS, NO_COMMAND, 2), (FILES, NO_FILE, 1)):
        yield from (Subject(f"command line of {name}", words, err=err, status=status) for name, words in every.items())


def as_words(script, front, name, **other):
    """The same script, by other first words."""
    return dataclasses.replace(script, name=f"{name} {script.name}", words=[*front, *script.words[1:]], **other)


def variants(script):
    """The same script with comments between its answers, as a picture, and, where it ends with its fault, asked line by line, with comments too."""
    yield as_words(script, ["explain"], "explained", commented=True)
    # At a fault a picture ends, and says so.
    yield as_words(script, ["draw"], "drawn", out=None, err=ENDS_THERE if script.status == 1 else b"", whole=True)
    if ends_with_its_fault(script):
        yield as_words(script, ["session"], "session of")
        yield as_words(script, ["session", "--explain"], "explained session of", commented=True)


def ends_with_its_fault(script):
    """Whether no line comes behind the first fault: only then a session writes what a replay does."""
    text = (script.input or pathlib.Path(script.words[-1])).read_bytes()
    number = text.removesuffix(b"\n").count(b"\n") + 1
    return script.status == 0 or script.out.splitlines()[-1:] == [b"fault line %d" % number]


def replayed(folder):
    """All of it; the examples and the malformed texts are explained, drawn and asked line by line too."""
    for script in [*examples(), *malformed(folder)]:
        yield script
        yield from variants(script)
    for script in examples():
        # Ticks are kept beside its steps.
        yield as_words(script, ["draw", "--time"], "timed drawn", out=None, whole=True)
    yield from cases(folder)
    yield from faulty(folder)
    yield from command_lines()

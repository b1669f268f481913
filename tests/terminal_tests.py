#!/usr/bin/env python3
"""Tests what the built program tells a person at a terminal while a run or the lab goes on,
as both compilers built it; the terminal is a made-up one."""
import contextlib
import os
import pty
import re
import subprocess
import tempfile
import threading
from collections.abc import Iterator
from typing import Any

import rig
from rig import SECONDS, same
from tables import thread, variant

THREADS, YIELDS = 40, 99
SETTINGS = "cpus = 4\n" + "".join(thread(it % 4, 1 << it % 4, *["yield 1"] * YIELDS, "die 1") for it in range(THREADS))
# Each thread tells one message when it is created, and one for each step.
STEPS = THREADS * (YIELDS + 1)
REPORT = f"threads {THREADS}\nmessages {THREADS + STEPS}\ncommits {STEPS}\nran {STEPS}\n".encode()
FAULTY = "cpus = 0\n"
# Two threads of so many ticks on one CPU. Each commit costs five events: pick, preempt or die, publish, consume and sleep; a first
# sleep and two creations come before.
TICKS, QUANTA = 100_000, (1, 1000, 1)


def load_of(*quanta: int) -> str:
    """The load under fifo, with a variant for each of these quanta."""
    variants = (variant(f"v{place}", order="fifo", quantum=quantum) for place, quantum in enumerate(quanta))
    return "cpus = 1\n" + 2 * thread(0, 1, f"die {TICKS}") + "".join(variants)


LOAD = load_of(*QUANTA)
# A commit for each quantum that the ticks fill.
COMMITS = [2 * TICKS // quantum for quantum in QUANTA]
# A line is due each 1,000,000 events, so the second variant has none.
FIRST, ALL = 5 * COMMITS[0] + 3, sum(5 * commits + 3 for commits in COMMITS)
LAB_LINES = (f"\r1 of 3 variants played, {FIRST} events\x1b[K" f"\r3 of 3 variants played, {ALL} events\x1b[K" "\r\x1b[K").encode()
ERASED = rb"\r\x1b\[K"
LINE = rb"\r(\d+) of 40 threads dead, (\d+) messages\x1b\[K"


class Terminal:
    """A terminal, and all that is written on it. A terminal of its own kind writes a carriage return in front of each line feed."""

    def __init__(self) -> None:
        self.screen, self.line = pty.openpty()
        self.written = b""
        self.reader = threading.Thread(target=self.read)
        self.reader.start()

    def read(self) -> None:
        with contextlib.suppress(OSError):  # nobody has the line any more
            while some := os.read(self.screen, 65536):
                self.written += some

    def close(self) -> None:
        os.close(self.line)
        self.reader.join()
        os.close(self.screen)


@contextlib.contextmanager
def begun(text: str, *words: str, **streams: Any) -> Iterator[subprocess.Popen[bytes]]:
    """A run by the settings, or what the words say of them, whose standard output is a pipe where nothing else is said."""
    with rig.file(text) as file, contextlib.ExitStack() as end:
        command = [str(rig.program), *(words or ["run"]), str(file)]
        run = subprocess.Popen(command, stdin=subprocess.DEVNULL, **{"stdout": subprocess.PIPE, **streams})
        end.callback(run.kill)
        yield run


def come_to(text: str, *words: str, **streams: Any) -> tuple[int, bytes | None]:
    """The status, and standard output where it is a pipe."""
    with begun(text, *words, **streams) as run:
        out, _ = run.communicate(timeout=SECONDS)
        return run.returncode, out


def at_a_terminal(text: str, *words: str, on: tuple[str, ...] = ("stderr",), **streams: Any) -> tuple[int, bytes | None, bytes]:
    """The status, standard output, and what the terminal got, on which these streams are."""
    with contextlib.closing(Terminal()) as terminal:
        status, out = come_to(text, *words, **streams, **dict.fromkeys(on, terminal.line))
    return status, out, terminal.written


def elsewhere(text: str, *words: str, **streams: Any) -> tuple[int, bytes | None, bytes]:
    """The same where standard error is a file."""
    with tempfile.TemporaryFile() as errors:
        status, out = come_to(text, *words, stderr=errors, **streams)
        errors.seek(0)
        return status, out, errors.read()


def shown(text: bytes) -> bytes:
    """A text as a terminal has it."""
    return text.replace(b"\n", b"\r\n")


def expect_lines(written: bytes) -> None:
    """A line at each thousandth message, each written over the one before, and nothing left of the last one."""
    rig.matches(written, b"\\A(%b)+%b\\Z" % (LINE, ERASED))
    lines = re.findall(LINE, written)
    same([int(messages) for _, messages in lines], list(range(1000, STEPS + 1, 1000)))
    dead = [int(dead) for dead, _ in lines]
    same((dead, dead[-1]), (sorted(dead), THREADS))


def test_a_person_at_a_terminal_sees_lines() -> None:
    status, out, written = at_a_terminal(SETTINGS)
    same((status, out), (0, REPORT))
    expect_lines(written)


def test_nobody_else_does() -> None:
    same(elsewhere(SETTINGS), (0, REPORT, b""))
    with begun(SETTINGS, stderr=subprocess.PIPE) as run:
        same((*run.communicate(timeout=SECONDS), run.returncode), (REPORT, b"", 0))


def test_standard_output_at_a_terminal_is_not_asked() -> None:
    with tempfile.TemporaryFile() as errors:
        same(at_a_terminal(SETTINGS, on=("stdout",), stderr=errors), (0, None, shown(REPORT)))
        same(os.fstat(errors.fileno()).st_size, 0)


def test_the_report_stands_on_a_clean_line() -> None:
    status, _, written = at_a_terminal(SETTINGS, on=("stdout", "stderr"))
    assert status == 0 and written.endswith(shown(REPORT)), written
    expect_lines(written.removesuffix(shown(REPORT)))


# What is given, by which command, and what it comes to at a terminal.
TOLD = {
    "a short run tells nothing": (
        "cpus = 1\n" + thread(0, 1, "yield 1", "die 2"), "run", (0, b"threads 1\nmessages 3\ncommits 2\nran 3\n", b"")),
    "what else is said of a run stays": (
        FAULTY, "run", (1, b"", b"pc-sim: settings BadCpus\r\npc-sim: cpus 0: 1 to 64 are wanted\r\n")),
    "what else the lab says stays": (
        FAULTY, "lab", (1, b"", b"pc-sim: lab BadCpus\r\npc-sim: cpus 0: 1 to 64 are wanted\r\n")),
}


@rig.each(TOLD)
def test_told(text: str, command: str, wanted: tuple[int, bytes, bytes]) -> None:
    same(at_a_terminal(text, command), wanted)


def test_who_explains_a_faulty_script() -> None:
    status, out, written = at_a_terminal("tick 0\nwalk\n", "replay")
    same((status, out), (1, b"refused NoEnclave\nfault line 2\n"))
    rig.matches(written, rb'\Apc-sim: pc-sim explain "/.*/text" tells why\r\n\Z')
    same(elsewhere("walk\n", "replay"), (1, b"fault line 1\n", b""))


def test_a_terminal_that_goes_away_is_passed_over() -> None:
    screen, line = pty.openpty()
    with begun(SETTINGS, stderr=line) as run:
        os.close(line)
        told = b""
        while not re.search(LINE, told):
            told += os.read(screen, 65536)
        os.close(screen)
        same((run.communicate(timeout=SECONDS)[0], run.returncode), (REPORT, 0))


def test_a_lab_at_a_terminal_tells_how_many_variants_were_played() -> None:
    for words in (["lab"], ["lab", "--csv"], ["lab", "--picture"]):
        status, out, written = at_a_terminal(LOAD, *words)
        same((status, written), (0, LAB_LINES))
        same(elsewhere(LOAD, *words), (0, out, b""))
    table = re.sub(rb" +", b" ", come_to(LOAD, "lab")[1] or b"").decode()
    assert f"commits {' '.join(map(str, COMMITS))}\n" in table, table


def test_a_table_stands_on_a_clean_line() -> None:
    status, _, written = at_a_terminal(LOAD, "lab", on=("stdout", "stderr"))
    same((status, written), (0, LAB_LINES + shown(come_to(LOAD, "lab")[1] or b"")))


def test_a_short_lab_tells_nothing() -> None:
    load = load_of(1000, 100)
    same(at_a_terminal(load, "lab"), (*come_to(load, "lab"), b""))


def test_a_script_of_the_lab_is_one_run_of_which_nothing_is_told() -> None:
    told = at_a_terminal(load_of(2), "lab", "--script", "v0")
    same((told[0], told[2]), (0, b""))
    same(elsewhere(load_of(2), "lab", "--script", "v0"), told)


def test_what_cannot_be_written_is_told_on_a_clean_line() -> None:
    rig.needs(os.path.exists("/dev/full"), "no /dev/full")
    with open("/dev/full", "wb") as full:
        status, _, written = at_a_terminal(LOAD, "lab", stdout=full)
    said = b"pc-sim: cannot read\r\npc-sim: the standard output: No space left on device (os error 28)\r\n"
    same((status, written), (1, LAB_LINES + said))


if __name__ == "__main__":
    rig.main(__doc__, rig.tests_in(globals()), both=True)

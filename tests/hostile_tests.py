#!/usr/bin/env python3
"""Tests that tests/hostile can fail: programs that answer each line `ok`, in a right way and in wrong ones, stand in for the built one.

A C compiler has to be there. Of PROGRAM its table of commands is asked for.
"""
import contextlib
import functools
import io
import sys
import unittest.mock

import rig
from rig import ROOT, differ, matches, same

# These stand where the rig lets modules be looked for.
import fuzz
import growths
import loads
import settings
import streams
import subjects
import worst
from machine import Machine, NoCompiler, Subject, Tally, build

# Answers each line `ok`, in a right way, and in wrong ones.
STAND_IN = ROOT / "tests/hostile/stand_in.c"
TEXT = b"rouse 0\n" * 5


@functools.cache
def folder():
    return rig.lasting_folder()


def five():
    script = folder() / "five.script"
    script.write_bytes(TEXT)
    return Subject("five", ["replay"], script, out=b"ok\n" * 5)


def machine(fault=None):
    program = folder() / (fault or "right")
    if not program.exists():
        build(STAND_IN, program, "-w", *([f"-D{fault}"] if fault else []))
    return Machine(program, folder())


def tried(part, *arguments):
    """What a part of the harness counts and prints."""
    tally, out = Tally("repeat"), io.StringIO()
    with contextlib.redirect_stdout(out):
        part(*arguments[:1], tally, *arguments[1:])
    return tally, out.getvalue()


def refused(fault):
    return tried(growths.refuse_growths, machine(fault), [five()], 100)


def test_the_right_one_passes():
    tally, said = refused(None)
    same((tally.failed, said), (0, ""))
    # The ample run, five growths refused alone and with the later ones, one run past them, and what was written by then.
    same(tally.passed, 1 + 10 + 1 + 1)


def test_growths_that_are_met_wrongly():
    for fault, said in {
        "HALF_A_LINE": "half a line", "IGNORES": "status 0, 12 bytes", "CRASHES": "signal SIGSEGV", "SAYS_NOTHING": "status 4",
    }.items():
        tally, text = refused(fault)
        same(tally.failed, 10, fault)
        assert said in text and "repeat: repeat --only 'growth 1 of five'" in text


def test_a_hang_is_ended():
    ample, run = machine("HANGS").run(five()), machine("HANGS").run(five(), seconds=0.2, growth="2")
    assert run.status is None
    for fault_of in (growths.fault_of_refused, settings.fault_of_refused, settings.fault_of_limited):
        assert "ended after" in fault_of(ample, run)


def test_another_output_than_is_wanted():
    tally, said = refused("ANSWERS_OTHERWISE")
    same(tally.failed, 2)
    assert "another output than is wanted" in said


def test_a_growth_that_is_not_counted():
    tally, said = tried(growths.refuse_growths, Machine("/bin/true", folder()), [Subject("true", [])], 100)
    same((tally.passed, tally.failed), (0, 1))
    assert "counts no growth" in said


def test_reads_and_writes():
    for fault, failed in [(None, ""), ("LOSES_READS", "read 1 EIO of five"), ("LOSES_WRITES", "write 1 ENOSPC of five")]:
        every = streams.Streams(machine(fault), five(), 5, None)
        tally, said = tried(lambda machine, tally: tally.try_all([*every.reads(), *every.writes()]), None)
        same(tally.failed == 0, fault is None, said)
        assert failed in said
        for how in ("closed", "full"):
            same(every.bad_output(how) is None, fault != "LOSES_WRITES")


def test_drawn_scripts():
    matches(next(filter(None, (fuzz.fault_of_script(machine(), place) for place in range(50)))), "answer|status")
    assert "status 4" in fuzz.fault_of_script(machine("TAKES_MUCH"), 0)
    same(fuzz.drawn_script(7), fuzz.drawn_script(7))
    differ(fuzz.drawn_script(7), fuzz.drawn_script(8))


def test_drawn_loads():
    """A program that answers each line of a load `ok` tells no table of it, and no fault."""
    matches(loads.fault_of_drawn(machine(), 0), "status 0")
    every = [loads.drawn_load(place) for place in range(50)]
    same({is_spoilt for _, is_spoilt in every}, {False, True})
    same(every[7], loads.drawn_load(7))
    differ(every[7], every[8])
    for words in loads.WORST:
        matches(loads.fault_of_worst(machine(), words), "status 0")


def test_each_malformed_text_is_a_subject_of_growths():
    every = {subject.name: subject for subject in subjects.replayed(folder())}
    told = {every[f"settings of {name}"].err.decode() for name in settings.FAULTS}
    same(told, {"pc-sim: cannot read\n", *(f"pc-sim: settings {fault}\n" for fault in settings.NAMES)})
    for name in ("help", "version", *(f"command line of {name}" for name in {**subjects.WORDS, **subjects.FILES})):
        assert name in every
    same(len(every), len(list(subjects.replayed(folder()))))


def test_the_worst_settings_are_no_longer_than_they_may_be():
    for words in worst.TEXTS["measured"]["measure-settings"]:
        out = io.StringIO()
        worst.write(words.split(), out)
        # Lives have at most 1,000 steps each.
        assert words.startswith("lives") or len(out.getvalue()) > 0.98 * worst.MOST_SETTINGS, words
        assert len(out.getvalue()) <= worst.MOST_SETTINGS, words
    memory, _, _, ended = worst.taken(["bash", "-c", "echo pc-sim: run Driver >&2; exit 3"], 5, worst.bound)
    same((memory > 0, ended), (True, "run Driver"))
    same(worst.taken(["sleep", "60"], 0.1, None)[3], "not done")


def test_the_worst_loads_are_no_longer_than_they_may_be():
    for words in worst.TEXTS["measured"]["measure-loads"]:
        length, most = len(worst.load_text(words)), worst.MOST_LOAD
        assert length <= most, words
        assert words.startswith(("quanta", "late", "dotted 4194304")) or length > 0.98 * most, words


def test_what_is_not_there():
    with unittest.mock.patch("machine.shutil.which", return_value=None):
        with rig.raises_text(NoCompiler, "none of cc"):
            build(STAND_IN, folder() / "none")
    for words, said in [
        (["--program", "nowhere/pc_sim", "--part", "scripts"], "pc_sim: "),
        (["--program", str(machine().program), "--part", "scripts", "--only", "no such run"], "no run is named"),
    ]:
        run = rig.run(sys.executable, ROOT / "tests/hostile/hostile.py", "--short", *words)
        same((run.returncode, run.stdout.splitlines()[-1]), (1, "0 passed, 1 failed"))
        assert said in run.stdout


def test_answers_that_are_none():
    opening, answer = b"enclave 2 8 100 16 1000\n", b"ok\n"
    assert fuzz.fault_of_answers(opening + b"create 0 3 ready\n", answer + b"ok t0 n1 q0 a1 wake -\n", 0) is None
    for line, told, status in [
        (b"create 0 3 ready\n", b"ok t0 n1 q1 a1 wake -\n", 0), (b"create 0 3 ready\n", b"ok t0 n1 q0 a1 wake -", 0),
        (b"create 0 3 ready\n", b"refused Stale 1\n", 0), (b"tick 256\n", b"refused BadCpu\n", 0),
        (b"tick 256\n", b"fault line 2\n", 0), (b"show 0\n", b"t0 upto 0 - early -\nend\n", 0), (b"show 0\n", b"end\nend\n", 0),
        (b"show 0\n", b"t0 upto 0 - early 1\nend\n", 0), (b"rouse 0\n", b"refused NoEnclave\n", 0), (b"rouse 0\n", b"ok\n\xff", 0),
    ]:
        assert fuzz.fault_of_answers(opening + line, answer + told, status) is not None, (line, told)


if __name__ == "__main__":
    rig.main(__doc__, rig.tests_in(globals()))

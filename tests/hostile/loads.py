"""Loads of the lab: a worked one whose reads and writes are disturbed, drawn ones, half of them spoilt, and some that take long."""
import random
import re

import rig
import tables
from fuzz import SEED
from machine import ROOT, Subject, told
from settings import MEMORY, spoilt, written
from worst import load_text

WORKED = ROOT / "examples/lab/worked"
TABLE = re.compile(rb"variant( +[a-z0-9.-]+)+\nend( +(done|until|NumbersSpent|stalled))+\n([a-zA-Z0-9 -]+\n)+")
STALL = re.compile(rb"(pc-sim: variant \d+: thread \d+ waits, and no agent will run it\n)?")
FAULT = re.compile(rb"pc-sim: (cannot read|lab UnknownKey [ -~]*|lab [A-Z][A-Za-z]+( [a-z0-9.]+){0,2})\n")
# Loads of worst.py, with which a run ends after some seconds: how it ends, and when.
WORST = {"quanta 2 1": (b"NumbersSpent", b"1999999"), "late 1000 200": (b"until", b"200")}
# What a drawn load may take: its ticks are few, unless a number was spoilt, and so many quanta may pass then.
SECONDS = 60


def streamed():
    """A worked load by its name and on the standard input: as a table, as CSV, as a script; and a faulty one."""
    load, faulty = WORKED / "3-levels.toml", ROOT / "tests/lab_faults/15.toml"
    table = load.with_suffix(".table").read_bytes()
    yield Subject("a load", ["lab", str(load)], out=table)
    yield Subject("a load as standard input", ["lab"], load, out=table)
    yield Subject("a load as CSV", ["lab", "--csv", str(load)], out=load.with_suffix(".csv").read_bytes())
    yield Subject("a load as a script", ["lab", "--script", "fifo", str(load)], out=(WORKED / "3-levels.fifo.script").read_bytes())
    yield Subject("a faulty load", ["lab", str(faulty)], err=b"pc-sim: lab BadCpus\n", status=1)


def drawn_load(place):
    """The load of this number, and whether it was spoilt."""
    chance = random.Random(f"{SEED} load {place}")
    text = tables.drawn_load(chance, 8)
    return (text.encode(), False) if chance.random() < 0.5 else (spoilt(chance, text), True)


def fault_of_drawn(machine, place):
    """What is wrong with the table of a drawn load: a whole one is told, and perhaps a stall, or, where it was spoilt, a fault and nothing else."""
    text, is_spoilt = drawn_load(place)
    with rig.file(text) as file:
        run = machine.run(Subject("", ["lab", str(file)]), seconds=SECONDS, memory=MEMORY)
        is_table = run.status == 0 and STALL.fullmatch(run.err) and TABLE.fullmatch(run.out)
        is_fault = is_spoilt and run.status == 1 and not run.out and FAULT.fullmatch(run.err)
        return None if is_table or is_fault else told(run)


def fault_of_worst(machine, words):
    """What is wrong with the table of a load that takes long: it is told, and tells how the run ended."""
    file = written(machine.folder, words, load_text(words))
    run = machine.run(Subject("", ["lab", str(file)]), seconds=SECONDS, memory=MEMORY)
    rows = dict(line.rsplit(None, 1) for line in run.out.splitlines() if b" " in line)
    is_so = (run.status, run.err, rows.get(b"end"), rows.get(b"makespan")) == (0, b"", *WORST[words])
    return None if is_so else told(run)

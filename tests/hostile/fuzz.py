"""Scripts drawn at random, with a fixed seed: no run ends by a signal, or takes more memory or time than is named, and each answer is the model's."""
import itertools
import random

import rig
from growths import fault_of_refused
from kernel import told_of
from machine import Subject, told
from scripts import random_bytes, script

SEED = "nimhessian"
# What a drawn script may take, all of the program's address space counted.
MEMORY = 64 * 2**20
SECONDS = 10


def drawn_script(place):
    """The script of this number."""
    chance = random.Random(f"{SEED} script {place}")
    return random_bytes(chance) if place % 50 == 49 else script(chance)


def fault_of_answers(text, out, status):
    """What is wrong with what was written of a script, by the model, or None."""
    wanted, ends = told_of(text)
    if out.decode("latin-1") == wanted:
        return None if status == ends else f"status {status}, wanted {ends}"
    pairs = itertools.zip_longest(out.decode("latin-1").split("\n"), wanted.split("\n"))
    return next(f"answer {place}: {found!r}, wanted {want!r}" for place, (found, want) in enumerate(pairs, 1) if found != want)


def fault_of_script(machine, place, peer=None):
    """What is wrong with the run of a drawn script."""
    text = drawn_script(place)
    with rig.file(text) as file:
        subject = Subject("", ["replay", str(file)]) if place % 2 else Subject("", ["replay"], file)
        run = machine.run(subject, seconds=SECONDS, memory=MEMORY)
        if run.status not in (0, 1) or run.err:
            return told(run)
        if fault := fault_of_answers(text, run.out, run.status):
            return fault
        other = peer.run(subject, seconds=SECONDS) if peer else run
        return None if (run.status, run.out) == (other.status, other.out) else f"the other program differs: {told(other)}"


def fault_of_drawn_growth(machine, place):
    """What is wrong with the run of a drawn script of which one of the growths, drawn too, is refused, or that one and all later ones."""
    with rig.file(drawn_script(place)) as file:
        subject, chance = Subject("", ["replay"], file), random.Random(f"{SEED} growth {place}")
        ample = machine.run(subject, seconds=SECONDS)
        refused = chance.randrange(1, ample.growths + 1)
        run = machine.run(subject, seconds=SECONDS, growth=f"{refused}{chance.choice(['', '..'])}")
        return fault_of_refused(ample, run) if run.growths_met else "no growth was refused"

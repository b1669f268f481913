"""Each growth refused in turn: the Nth, and the Nth with all later ones."""
import itertools
from functools import partial

from machine import told

OUT_OF_MEMORY = b"pc-sim: out of memory\n"
# So many of the last growths are tried, whatever the steps.
LAST = 8
# Of a stack: a quarter of it is what the reader of a text takes, and the usual bound is 32 times as much.
STACK = 5 * 2**16
# More than an example needs.
MOST_MEMORY = 12 * 2**20


def fault_of_ample(subject, run):
    """What is wrong with a run that was refused nothing."""
    if run.status != subject.status or run.err != subject.err:
        return f"with ample memory: {told(run)}"
    if subject.out is None:
        return None if run.out else "with ample memory: nothing is written"
    return None if subject.plain(run.out) == subject.out else "with ample memory: another output than is wanted"


def fault_of_refused(ample, run, whole=False):
    """What is wrong where a growth was refused: the run is as the ample one, or says that memory ran out, after whole lines of it, or none."""
    if (run.status, run.out, run.err) == (ample.status, ample.out, ample.err):
        return None
    if run.status != 4 or run.err != OUT_OF_MEMORY:
        return told(run)
    if whole and run.out:
        return f"a part of what is written whole or not at all: {len(run.out)} bytes"
    if run.out and not run.out.endswith(b"\n"):
        return f"half a line: {run.out[-80:]!r}"
    return None if ample.out.startswith(run.out) else "the lines are not those that the full output begins with"


def places(growths, most):
    """The numbers of the growths that are refused: all, or the first half of so many, and the others by steps to the last ones."""
    if growths <= most:
        return list(range(1, growths + 1))
    first, last = most // 2, range(growths - LAST + 1, growths + 1)
    step = max(1, (growths - first) // max(1, most - first - LAST))
    return sorted({*range(1, first + 1), *range(first + 1, growths + 1, step), *last})


class Sweep:
    """The runs of one subject. What the refused ones wrote may not get less as the refused growth gets later."""

    def __init__(self, machine, subject, most):
        self.machine, self.subject, self.most = machine, subject, most
        self.ample = machine.run(subject)
        self.written = {}

    def trial(self, place, later):
        run = self.machine.run(self.subject, growth=f"{place}{later}")
        if run.growths_met == 0:
            return f"no growth was refused, though as many were there before: {told(run)}, {run.growths} growths"
        if later and run.status == 4:
            self.written[place] = len(run.out)
        return fault_of_refused(self.ample, run, self.subject.whole)

    def past_the_last(self):
        run = self.machine.run(self.subject, growth=f"{self.ample.growths + 1}..")
        more = f"there are more growths than in the run before: {told(run)}, {run.growths} growths"
        return more if run.growths_met else fault_of_ample(self.subject, run)

    def falls_short(self):
        rows = sorted(self.written.items())
        shorter = next((later for (_, one), (later, other) in zip(rows, rows[1:]) if other < one), None)
        return None if shorter is None else f"growth {shorter} and later ones refused: less was written than with an earlier one refused"

    def trials(self):
        """(name, function) of each run."""
        name = self.subject.name
        yield f"ample {name}", lambda: fault_of_ample(self.subject, self.ample)
        for place, later in itertools.product(places(self.ample.growths, self.most), ("", "..")):
            yield f"growth {place}{later} of {name}", partial(self.trial, place, later)
        yield f"past the last growth of {name}", self.past_the_last


def refuse_growths(machine, tally, subjects, most):
    """Refuses growths of each subject, some so many of each."""
    sweeps = list(tally.pool.map(lambda subject: Sweep(machine, subject, most), subjects))
    if not any(sweep.ample.growths for sweep in sweeps):
        tally.add("the library", "it counts no growth: the program does not take it (is it linked statically?)")
        return
    tally.try_all(trial for sweep in sweeps for trial in sweep.trials())
    tally.try_all((f"what is written before growths of {sweep.subject.name}", sweep.falls_short) for sweep in sweeps)
    # What was gone through by steps is named.
    if (stepped := [sweep for sweep in sweeps if sweep.ample.growths > most]) and tally.only is None:
        tried = sum(len(places(sweep.ample.growths, most)) for sweep in stepped)
        there = sum(sweep.ample.growths for sweep in stepped)
        most_of_all = max(stepped, key=lambda sweep: sweep.ample.growths)
        print(
            f"skipped: of {len(stepped)} subjects that have more than {most} growths {there - tried} of {there} growths were not refused "
            f"({most_of_all.subject.name} has {most_of_all.ample.growths})", flush=True)


def bound_stack(machine, tally, subjects):
    """Runs each subject with a small stack."""
    fault = lambda subject: fault_of_ample(subject, machine.run(subject, stack=STACK))
    tally.try_all((f"stack of {STACK} bytes for {subject.name}", partial(fault, subject)) for subject in subjects)


def refuse_memory(machine, tally, subjects, step):
    """The address space of each subject grows by such a step, from none to what it needs: here it is the system that refuses."""
    ample = {subject.name: machine.run(subject) for subject in subjects}
    fault = lambda subject, memory: fault_of_refused(ample[subject.name], machine.run(subject, memory=memory))
    every = itertools.product(subjects, range(0, MOST_MEMORY, step))
    tally.try_all((f"address space of {most} bytes for {it.name}", partial(fault, it, most)) for it, most in every)

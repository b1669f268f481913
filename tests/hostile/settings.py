"""Settings of `pc-sim run`: rows with what they print, malformed ones (texts.toml has both), deep ones, and some drawn at random."""
import pathlib
import random
import re
import tomllib
from functools import partial

import rig
from fuzz import SEED
from growths import LAST, OUT_OF_MEMORY, fault_of_ample
from machine import ROOT, Subject, told
from machine import SECONDS as MOST_SECONDS
from tables import drawn_steps, restart, thread

# A run that may wait forever, or that has a limit, is ended after so many seconds. Others have as long as any run.
SECONDS = 5
# The address space of a run of drawn settings, whose threads share a heap and have a stack of 8 MiB each.
MEMORY = 2**30
ONE_HEAP = {"MALLOC_ARENA_MAX": "1"}
CANNOT_START = b"pc-sim: cannot start\n"
GIVEN_UP = b"pc-sim: run GaveUp\n"
# Of a run with a limit these growths are refused, each with all later ones: threads begin, talk and end there.
LIMITED = range(100, 201, 4)
NAMES = ["NotToml", "BadField", "BadStep", "BadCpus", "TooManyThreads", "BadThread", "BadRestart"]
FAULT = re.compile(rf"pc-sim: (cannot read|settings ({'|'.join(NAMES)}))\n".encode())
TOTALS = r"threads (\d+)\nmessages (\d+)\ncommits (\d+)\nran (\d+)\n"
PER_CPU = r"cpu {} taken \d+ commits \d+ steals \d+ stale \d+ pending \d+ other \d+\n"


def totals(threads, messages, commits, ran):
    return f"threads {threads}\nmessages {messages}\ncommits {commits}\nran {ran}\n"


TEXTS = tomllib.loads((pathlib.Path(__file__).parent / "texts.toml").read_text())
# What runs print, whatever the schedule.
ROWS = {name: (row["settings"], totals(*row["totals"])) for name, row in TEXTS["rows"].items()}
# Of these the calls are written as a script, too.
SCRIPTED = ("one thread", "a restart")
# Each fault, alone: what is told of it, or None where the text cannot be read at all.
FAULTS = {name: (text, fault) for fault, rows in TEXTS["faults"].items() for name, text in rows.items()} | {
    "bytes that are no text": (b"cpus = 1\n# \xff\xfe\n", None),
    "a text that is too long": ("#" * (2**20 + 1), None),
    "4,097 threads": ("cpus = 2\n" + thread(0, 3, "die 1") * 4097, "TooManyThreads"),
    "1,001 steps": ("cpus = 2\n" + thread(0, 3, *["yield 1"] * 1000, "die 1"), "BadThread"),
    "65 restarts": ("cpus = 2\n" + restart(0, 1) * 65, "BadRestart"),
}
# What nests: each reader of TOML ends somewhere. None may end by a signal, whatever it answers.
KEYS = ".".join("a" * 80)
DEEP = {
    "arrays in arrays": "thread = " + "[" * 500_000 + "]" * 500_000,
    "arrays that are not closed": "thread = " + "[" * 1_000_000,
    "inline tables in inline tables": "a = " + "{a = " * 170_000 + "1" + "}" * 170_000,
    "a dotted key": ".".join(["a"] * 500_000) + " = 1",
    "a dotted header": "[" + ".".join(["a"] * 500_000) + "]",
    "dotted keys of 80 in inline tables 79 deep": f"{KEYS} = " + f"{{{KEYS} = " * 79 + "1" + "}" * 79,
    "as that, below a header of 80": f"[{'.'.join('h' * 80)}]\n{KEYS} = " + f"{{{KEYS} = " * 79 + "1" + "}" * 79,
    "many tables": "cpus = 1\n" + "".join(f"[a{n}]\n" for n in range(100_000)),
    "many headers of arrays": "cpus = 1\n" + "[[restart.a]]\n" * 70_000,
    "many keys": "cpus = 1\n" + "".join(f"k{n} = 1\n" for n in range(80_000)),
    "a long text": 'cpus = "' + "x" * 1_000_000 + '"',
    "a long number": "cpus = " + "1" * 1_000_000,
}


def written(folder, name, text):
    file = pathlib.Path(folder) / (re.sub(r"\W", "-", name) + ".toml")
    file.write_bytes(text if isinstance(text, bytes) else text.encode())
    return file


def accepted(folder):
    """The settings that are run."""
    for name, (text, out) in ROWS.items():
        yield Subject(f"settings of {name}", ["run", str(written(folder, name, text))], out=out.encode(), environment=ONE_HEAP)
    for name in SCRIPTED:
        text, out = ROWS[name]
        words = ["run", "--script", "/dev/null", str(written(folder, name, text))]
        yield Subject(f"settings of {name} with a script", words, out=out.encode(), environment=ONE_HEAP)


def tallied(folder):
    """The settings that are run once by each of some seeds."""
    for name in SCRIPTED:
        words = ["run", "--seed", "7", "--runs", "3", str(written(folder, name, ROWS[name][0]))]
        yield Subject(f"settings of {name} by three seeds", words, out=b"runs 3\nreported 3\n", environment=ONE_HEAP)


def faulty(folder):
    """The settings that have a fault: none of them begins a thread, so the growths of each are the same in every run."""
    for name, (text, fault) in FAULTS.items():
        err = f"pc-sim: settings {fault}\n" if fault else "pc-sim: cannot read\n"
        yield Subject(f"settings of {name}", ["run", str(written(folder, name, text))], err=err.encode(), status=1)


def fault_of_totals(run, wanted=None):
    """What is wrong with a run of any settings: it prints its totals, or names a fault."""
    if run.status == 0 and not run.err:
        found = re.fullmatch(TOTALS.encode() + b"(cpu .*\n)*", run.out)
        return None if found and (wanted is None or run.out.startswith(wanted)) else f"its answer is none: {run.out[:200]!r}"
    return None if run.status == 1 and not run.out and FAULT.fullmatch(run.err) else told(run)


def fault_of_per_cpu(machine, subject):
    """With --per-cpu the same four lines, and one for each CPU."""
    run = machine.run(Subject("", [*subject.words, "--per-cpu"], environment=ONE_HEAP))
    lines = "".join(PER_CPU.format(cpu) for cpu in range(run.out.count(b"\ncpu ")))
    is_told = lines and re.fullmatch(re.escape(subject.out.decode()) + lines, run.out.decode())
    return None if run.status == 0 and is_told else told(run)


def fault_of_refused(ample, run):
    """What is wrong where a growth was refused. No run waits on: it is as the ample one, or tells that memory ran out."""
    if (run.status, run.out, run.err) == (ample.status, ample.out, ample.err):
        return None
    if run.status == 4 and run.err in (OUT_OF_MEMORY, CANNOT_START) and ample.out.startswith(run.out) and run.out[-1:] in (b"", b"\n"):
        return None
    return told(run)


def fault_of_limited(ample, run):
    """The same of a run with a limit, which may also have been over."""
    return None if (run.status, run.out, run.err) == (3, b"", GIVEN_UP) else fault_of_refused(ample, run)


def trials_of_growths(machine, subject, most):
    """(name, function) of the runs of one row with growths refused. Which growth has which number depends on the schedule."""
    ample = machine.run(subject)
    last, step = ample.growths + 1, max(1, ample.growths // most)
    fault = lambda growth: fault_of_refused(ample, machine.run(subject, growth=growth))
    for place in sorted({*range(1, last, step), *range(max(1, last - 1 - LAST), last)}):
        for growth in (f"{place}", f"{place}.."):
            yield f"growth {growth} of {subject.name}", partial(fault, growth)


def trials_of_limited(machine):
    """(name, function) of runs with a limit of a second, of which all growths are refused from one on: each ends by itself."""
    words = ["run", str(ROOT / "examples/steals-and-restarts.toml")]
    ample = machine.run(Subject("", words, environment=ONE_HEAP))
    subject = Subject("", [*words, "--limit", "1"], environment=ONE_HEAP)
    fault = lambda growth: fault_of_limited(ample, machine.run(subject, seconds=SECONDS, growth=growth))
    for place in LIMITED:
        yield f"growth {place}.. of a run with a limit", partial(fault, f"{place}..")


def use_rows(machine, tally, most):
    """The rows, the deep texts, and the rows with some so many growths refused."""
    every, by_seeds = list(accepted(machine.folder)), list(tallied(machine.folder))
    ample = [*every, *by_seeds, *faulty(machine.folder)]
    tally.try_all((it.name, lambda it=it: fault_of_ample(it, machine.run(it))) for it in ample)
    tally.try_all((f"{it.name} --per-cpu", lambda it=it: fault_of_per_cpu(machine, it)) for it in every)
    for name, text in DEEP.items():
        subject = Subject("", ["run", str(written(machine.folder, name, text))], environment=ONE_HEAP)
        tally.try_all([(f"settings of {name}", lambda it=subject: fault_of_totals(machine.run(it)))])
    tally.try_all(trial for subject in [*every, *by_seeds] for trial in trials_of_growths(machine, subject, most))
    tally.try_all(trials_of_limited(machine))


ODD_VALUES = [0, -1, 1, 64, 65, 1001, 2**32 - 1, 2**32, 2**63 - 1, 2**63, 2**64, 10**40, "nan", "1.5", "true", "1979-05-27"]


def drawn_settings(place):
    """The settings of this number, and what they print, or None where they were spoilt."""
    chance = random.Random(f"{SEED} settings {place}")
    cpus = chance.choice([1, 1, 2, 2, 3, 4, 8])
    text, counted = f"cpus = {cpus}\n", [0, 0, 0, 0]
    for _ in range(chance.choice([0, 1, 2, 3, 8])):
        steps = drawn_steps(chance, [0, 1, 2, 5], [0, 1, 7, 1000], [0, 1, 2**32 - 1])
        text += thread(chance.randrange(cpus), chance.randrange(1, 2**cpus), *steps)
        blocks, ran = sum(it.startswith("block") for it in steps), sum(int(it.split()[1]) for it in steps)
        counted = [it + more for it, more in zip(counted, (1, 1 + len(steps) + blocks, len(steps), ran))]
    for _ in range(chance.choice([0, 0, 1, 2]) if cpus > 1 else 0):
        # Agent 0 stays: where every agent forgets what it knew, a thread may be known to none, and the run waits.
        text += restart(chance.randrange(1, cpus), chance.choice([1, 2, 3, 1000000]))
    return (text.encode(), totals(*counted).encode()) if chance.random() < 0.5 else (spoilt(chance, text), None)


def spoilt(chance, text):
    """The settings with words dropped, doubled or exchanged, numbers at and past bounds, or bytes drawn at random."""
    words = re.findall(r"\w+|\s+|[^\w\s]", text)
    for _ in range(chance.choice([1, 1, 2, 4])):
        place, other = chance.randrange(len(words)), chance.choice(words)
        drawn = bytes(chance.randrange(256) for _ in range(3)).decode("latin-1")
        words[place] = chance.choice(["", 2 * words[place], other, str(chance.choice(ODD_VALUES)), drawn])
    return "".join(words).encode("latin-1" if chance.random() < 0.5 else "utf-8")


def may_wait(text):
    """Whether a run may wait without end, as docs/FORMATS.md says: two agents restart or more, and some thread may run only where they do."""
    try:
        settings = tomllib.loads(text.decode())
        restarting = {row["cpu"] for row in settings["restart"]}
        mask = sum(1 << cpu for cpu in restarting if 0 <= cpu < 64)
        return len(restarting) >= 2 and any(it["mask"] & ~mask == 0 for it in settings.get("thread", []))
    except (ValueError, KeyError, TypeError):
        return False


def fault_of_drawn(machine, place):
    """What is wrong with the run of drawn settings."""
    text, wanted = drawn_settings(place)
    with rig.file(text) as file:
        waits, words = may_wait(text), ["run", str(file), *["--per-cpu"] * (place % 3 == 0)]
        run = machine.run(Subject("", words, environment=ONE_HEAP), seconds=SECONDS if waits else MOST_SECONDS, memory=MEMORY)
        if run.status is None and waits:
            return None
        return told(run) if wanted is not None and run.status != 0 else fault_of_totals(run, wanted)

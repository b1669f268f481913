#!/usr/bin/env python3
"""Tests `pc-sim lab`: worked rows, every fault, and drawn loads against the lab of tests/reference/lab.py.

examples/lab/worked has loads with their tables, CSV, scripts and replies, of which 308 numbers were worked out by hand
before, and tests/lab_faults loads that are faulty. N loads are drawn (60) whose runs the program has to answer as the reference expects, and N
(50) of which it has to write what that writes, to the byte. What holds of every load that was tried, and is not proved, is tested over 1,600
drawn runs of the program alone. tests/lab_pictures.py has the tests of pictures.
"""
import csv
import functools
import itertools
import json
import pathlib
import random
import subprocess
import tomllib
from collections import Counter
from collections.abc import Callable
from dataclasses import dataclass, field
from typing import Any

import lab_pictures
import rig
from kernel import ORDERS, WORD32, answered, ticks_of
from reference.lab import STEALS, TIMES, Run, Variant, csv_of, load_of, replies_of, runs_of, script_of, table_of, unknown_keys
from rig import ROOT, good, outcome, same
from tables import drawn_load, drawn_rank, drawn_threads, thread, variant

ROWS, BAD = ROOT / "examples/lab/worked", ROOT / "tests/lab_faults"
LOADS, WIDE, MISSPELT = 60, 100, 200
# How many worked files end like this, and how many rows tests/lab_faults/expected has.
FILES = {".toml": 8, ".table": 8, ".csv": 8, ".script": 20, ".replies": 20}
FAULTS, MOST_BYTES = 66, 16_777_216


def files(suffix: str) -> list[pathlib.Path]:
    """The worked files that end so. None is missing, and none is there that is not counted."""
    found = sorted(ROWS.glob(f"*{suffix}"))
    same(len(found), FILES[suffix], suffix)
    return found


def faults() -> list[tuple[str, str]]:
    """What is wrong with the loads of tests/lab_faults: the words, and what is told."""
    rows = (BAD / "expected").read_text().splitlines()
    same(len(rows), FAULTS)
    return [(words, wanted) for words, _, wanted in (row.partition(" = ") for row in rows)]


def lab(*words: object, folder: pathlib.Path = ROWS, given: str = "") -> subprocess.CompletedProcess[str]:
    return rig.ask("lab", *words, given=given, cwd=folder, timeout=300)


def told(text: str, *words: object) -> Any:
    """What the lab tells of a load."""
    return good(lab("-", *words, given=text), text)


def worked() -> list[tuple[pathlib.Path, list[Run]]]:
    return [(load, runs_of(load.read_text())) for load in files(".toml")]


# Worked files end so, and this is what has to be as they are, of a load and its runs.
WORKED: dict[str, tuple[str, Callable[[pathlib.Path, list[Run]], str]]] = {
    "tables of the reference": (".table", lambda load, runs: table_of(runs)), "CSV of the reference": (".csv", lambda load, runs: csv_of(runs)),
    "tables": (".table", lambda load, runs: good(lab(load.name))), "CSV": (".csv", lambda load, runs: good(lab(load.name, "--csv"))),
    "tables of standard input": (".table", lambda load, runs: told(load.read_text())),
}


@rig.each(WORKED)
def test_worked(suffix: str, made: Callable[[pathlib.Path, list[Run]], str]) -> None:
    same([it.stem for it in files(suffix)], [it.stem for it in files(".toml")])
    for load, runs in worked():
        same(made(load, runs), load.with_suffix(suffix).read_text(), load.name)


def test_reference_scripts_and_what_they_are_answered() -> None:
    same([it.stem for it in files(".replies")], [it.stem for it in files(".script")])
    scripts = {f"{load.stem}.{run.variant.name}": run for load, runs in worked() for run in runs}
    for script in files(".script"):
        same(script_of(scripts[script.stem]), script.read_text(), script.name)
        same(replies_of(scripts[script.stem]), script.with_suffix(".replies").read_text(), script.name)
        same(rig.replay(script.read_text()), script.with_suffix(".replies").read_text(), script.name)


def test_each_cpu_is_accounted_for() -> None:
    """Two CPUs, eight threads of 10 ticks on the first, and no steals: worked out by hand."""
    rows = {line[:26].strip(): line[26:].split() for line in table_of(runs_of((ROWS / "2-steals.toml").read_text()), True).splitlines()}
    wanted = {"cpu 0 ran": ["80", "40"], "cpu 1 ran": ["0", "40"], "cpu 1 idle": ["80", "0"], "cpu 1 idle while one waits": ["70", "0"]}
    same({name: rows[name] for name in wanted}, wanted)


def test_scripts() -> None:
    for script, more in itertools.product(files(".script"), ([], ["--csv", "--per-cpu"])):
        load, _, name = script.stem.partition(".")
        same(good(lab(f"{load}.toml", "--script", name, *more)), script.read_text(), script.name)


def test_the_time_of_each_cpu() -> None:
    for load, runs in worked():
        same(good(lab(load.name, "--per-cpu")), table_of(runs, True), load.name)
        same(good(lab(load.name, "--per-cpu", "--csv")), csv_of(runs, True), load.name)


@rig.each({"table": ([],), "picture": (["--picture"],)})
def test_faults(more: list[str]) -> None:
    for words, wanted in faults():
        status, out, errors = outcome(lab(*words.split(), *more, folder=BAD))
        if wanted == "no fault":
            same((status, errors), (0, ""), words)
            if more:
                lab_pictures.shows((BAD / words).read_text())
            else:
                same(out, (BAD / words).with_suffix(".table").read_text(), words)
            continue
        first, *others = errors.splitlines()
        same((status, out, first, len(others)), (1, "", wanted, 1), words)
        if wanted.startswith("pc-sim: lab UnknownKey"):
            faulty = next(it for it in words.split()[::-1] if (BAD / it).is_file())
            where = f'pc-sim: "{faulty}": ' if len(words.split()) > 1 else "pc-sim: "
            same((first, *others), told_unknown((BAD / faulty).read_text(), where), words)


def told_unknown(text: str, front: str = "pc-sim: ") -> tuple[str, str]:
    """What is told of the first key of a text that is not known; the front of the second line names the text, if there are two."""
    key, where = next(unknown_keys(text))
    return f"pc-sim: lab UnknownKey {key}", front + where


def misspelt(chance: random.Random, text: str) -> str:
    """A load some of whose keys have bytes that are put in, left out or replaced."""
    lines = text.splitlines()
    for place in chance.sample([place for place, line in enumerate(lines) if " = " in line], 2):
        key, _, value = lines[place].partition(" = ")
        for _ in range(chance.choice([1, 1, 2, 3, 4])):
            at, end = sorted((chance.randint(0, len(key)), chance.randint(0, len(key))))
            key = key[:at] + chance.choice(["", "x", "u", "ü", " ", "\\", "z" * 40]) + key[min(end, at + 1):]
        lines[place] = f"{json.dumps(key, ensure_ascii=False)} = {value}"
    return "\n".join(lines) + "\n"


def test_misspelt_keys() -> None:
    """Of drawn loads with misspelt keys the lab tells the first one, where it stands, and the known key that is nearest."""
    chance, tried = random.Random("misspelt keys"), Counter[bool]()
    while tried[True] < MISSPELT:
        text = misspelt(chance, drawn_load(chance, 4))
        try:
            unknown = [*unknown_keys(text)]
        except tomllib.TOMLDecodeError:  # two keys of one name
            continue
        tried[bool(unknown)] += 1
        if unknown:
            same(outcome(lab("-", given=text)), (1, "", "\n".join((*told_unknown(text), ""))), text)
            others = lab("2-steals.toml", "--variants", "-", given=text)
            same(outcome(others), (1, "", "\n".join((*told_unknown(text, "pc-sim: the standard input: "), ""))), text)


def test_a_script_past_the_greatest_length() -> None:
    """Three threads leave their CPU 300,000 times, and each time takes more than 56 bytes to tell."""
    load = "cpus = 1\n" + 3 * thread(0, 1, *["yield 1"] * 99_999, "die 1")
    for name, fault in (("plain", "ScriptTooLong"), ("none", 'NoVariant\npc-sim: --script "none": the variants are: plain')):
        same(outcome(lab("-", "--script", name, given=load)), (1, "", f"pc-sim: lab {fault}\n"))


def test_numbers_at_their_bounds() -> None:
    """The greatest number of each key is taken, and the next is the fault of the key's table."""
    rows: list[tuple[Callable[[int], str], int, str]] = [
        (lambda it, key=key: thread(0, 1, "die 1") + variant("least", **{key: it}), most, "BadVariant 0")
        for key, most in (("group", 64), ("quantum", WORD32), ("delay", WORD32), ("cost", WORD32))
    ]
    rows += [(lambda it: thread(0, 1, "die 1", start=it), WORD32, "BadLoad 0"), (lambda it: thread(0, 1, "die 1", level=it), 7, "BadLoad 0")]
    rows += [(lambda it: thread(0, 1, "block 1", "die 1", sleeps=[it]), WORD32, "BadLoad 0")]
    for text, most, fault in rows:
        assert "done" in told("cpus = 1\n" + text(most)), text(most)
        status, out, errors = outcome(lab("-", given="cpus = 1\n" + text(most + 1)))
        first, second = errors.splitlines()
        same((status, out, first), (1, "", f"pc-sim: lab {fault}"), text(most + 1))
        rig.matches(second, rf"\Apc-sim: (thread|variant) 0: .* {most + 1}: [01] to {most} is wanted\Z")


def test_steps_at_their_bound() -> None:
    for count, ended in ((100_000, (0, "")), (100_001, (1, "pc-sim: lab BadThread 0\npc-sim: thread 0: 100001 steps: 1 to 100000 are wanted\n"))):
        status, out, errors = outcome(lab("-", given="cpus = 1\n" + thread(0, 1, *["yield 1"] * (count - 1), "die 1")))
        same((status, errors, f"ticks ran{count:25}\n" in out), (*ended, not ended[0]))


# Worked out by hand: threads of one CPU each, and rows of their table under `least-ran` with a quantum of 1.
SHORT_QUANTA = {
    # Two take turns of a tick. Each has 1,000,000 numbers: of its creation, and of 999,999 preempts. So at the ends of
    # 1,999,998 ticks a preempt is told, and at that of the next there is no number.
    "spent numbers end a run": (2 * thread(0, 1, "die 100000000"), {
        "end": "NumbersSpent", "makespan": "1999999", "messages": "2000000", "refused preempt NumbersSpent": "1"}),
    "quanta of which nothing comes cost no time": (thread(0, 1, "die 4294967295") + thread(1, 2, "die 4294967290"), {
        "end": "done", "makespan": "4294967295", "commits": "2", "preempts": "0", "ticks ran": "8589934585"}),
}


@rig.each(SHORT_QUANTA)
def test_short_quanta(threads: str, wanted: dict[str, str]) -> None:
    table = told("cpus = 2\n" + threads + variant("short", order="least-ran", quantum=1))
    rows = dict(line.rsplit(None, 1) for line in table.splitlines())
    same({name: rows.get(name) for name in wanted}, wanted)


def test_one_that_stands_first_no_longer_is_preempted() -> None:
    """Worked out by hand: at the end of its 15th quantum."""
    before = thread(0, 1, "block 100", "die 50", sleeps=[1]) + thread(0, 1, "die 300", start=100)
    lines = told("cpus = 1\n" + before + variant("short", order="least-ran", quantum=7), "--script", "short").splitlines()
    first = next(place for place, line in enumerate(lines) if line.startswith("preempt"))
    same(lines[first - 1:first + 1], ["# at 205", "preempt 0 105"])


def test_variants_of_the_greatest_length() -> None:
    """A comment makes a text as long as one may be, and a byte longer."""
    variants = variant("fifo", order="fifo") + variant("levels", keep=True)
    load = ROWS / "3-levels.toml"
    wanted = table_of(runs_of(load.read_text(), variants))
    same(wanted.split()[:3], ["variant", "fifo", "levels"])
    with rig.file((variants + "#").ljust(MOST_BYTES, "x")) as long:
        same(good(lab(load, "--variants", long)), wanted)
    with rig.file((variants + "#").ljust(MOST_BYTES + 1, "x"), "long.toml") as long:
        fault = 'pc-sim: cannot read\npc-sim: "long.toml": it has more than 16777216 bytes\n'
        same(outcome(lab(load, "--variants", "long.toml", folder=long.parent)), (1, "", fault))


def stall_of(runs: list[Run], variants: pathlib.Path | None = None) -> str:
    """What standard error has of the first run that stalled, whose variant is of this file, if there is one."""
    where = f'"{variants}": ' if variants else ""
    stalls = (f"pc-sim: {where}variant {place}: thread {run.stalled} waits, and no agent will run it\n" for place, run in enumerate(runs) if run.end == "stalled")
    return next(stalls, "")


def test_drawn_loads() -> None:
    """Tables, with the time of each CPU, CSV, and the script of a variant, by the load's variants and by others."""
    chance = random.Random("program")
    for _ in range(rig.options.drawn):
        load, variants = drawn_load(chance), drawn_load(chance) if chance.random() < 0.3 else None
        runs = runs_of(load, variants)
        with rig.file(variants or "") as file:
            words = ["--variants", file] if variants else []
            where = file if variants else None
            stall = stall_of(runs, where)
            for flags, wanted in (((), table_of(runs)), (("--per-cpu",), table_of(runs, True)), (("--per-cpu", "--csv"), csv_of(runs, True))):
                same(outcome(lab("-", *words, *flags, given=load)), (0, wanted, stall), load)
            script = outcome(lab("-", *words, "--script", "v0", given=load))
            same(script, (0, script_of(runs[0]), stall_of(runs[:1], where)), load)


def test_the_program_answers_as_runs_expect() -> None:
    chance = random.Random("lab")
    for _ in range(rig.options.loads):
        text = drawn_load(chance)
        runs = runs_of(text)
        for run in runs:
            same(rig.replay(script_of(run)), replies_of(run), run.variant, text)
        tried = lab("-", "--per-cpu", "--csv", given=text)
        same((tried.returncode, tried.stderr), (0, stall_of(runs)), text)
        for rows in (csv_of(runs, True), tried.stdout):
            balances(rows, text)


def balances(told: str, text: str) -> None:
    """The time of each CPU is that of the run; where it is done, the ticks that were run are those of the steps."""
    load, rows = load_of(text), list(csv.DictReader(told.splitlines()))
    same(len(rows), len(load.variants), text)
    for row in rows:
        spent = [name for name in row if name.startswith("cpu_")]
        same(spent, [f"cpu_{cpu}_{kind.replace(' ', '_')}" for cpu in range(load.cpus) for kind in TIMES], text)
        for cpu in range(load.cpus):
            same(sum(int(row[f"cpu_{cpu}_{what}"]) for what in ("ran", "in_turns", "idle")), int(row["makespan"]), text)
        if row["end"] == "done":
            same(int(row["ticks_ran"]), sum(ticks for plan in load.plans for _, ticks in plan.steps), text)


def wide_load(chance: random.Random) -> str:
    """Up to 60 threads on 1 to 8 CPUs. Each of four orders with each steal is tried twice: where all hear of each other at once
    and a turn takes no time, and where that is drawn."""
    cpus = chance.randint(1, 8)
    text = f"cpus = {cpus}\n" + (f"until = {chance.randint(1, 200)}\n" if chance.random() < 0.2 else "")
    text += drawn_threads(chance, cpus, chance.randint(0, chance.choice([8, 60])))
    orders = chance.sample([*ORDERS, drawn_rank(chance), drawn_rank(chance)], 4)
    for place, (order, steals, late) in enumerate(itertools.product(orders, STEALS, (False, True))):
        times = {"delay": chance.choice([0, 1, 5, 12]), "cost": chance.choice([0, 0, 1, 3])} if late else {}
        text += variant(
            f"v{place}", order=order, steals=steals, quantum=chance.choice([0, 0, 1, 5, 10]), urgent=chance.choice([True, False]),
            keep=chance.choice([True, False]), group=chance.choice([1, 2, 3, 64] if late else [cpus, 64]), **times)
    return text


@dataclass
class Tried:
    """A run of a drawn load: its variant, its line of the CSV, and, of one run of each load, each command with its reply, and its tick."""

    text: str
    cpus: int
    variant: Variant
    row: dict[str, str]
    answered: list[tuple[str, str]]
    ticks: list[int] = field(default_factory=list)

    @property
    def is_at_once(self) -> bool:
        """Whether all hear of each other at once, and a turn takes no time."""
        return self.variant.delay == self.variant.cost == 0 and self.variant.group >= self.cpus

    def count(self, name: str) -> int:
        """A number of the CSV. A column that no variant of the load has counts nothing."""
        return int(self.row.get(name) or 0)

    def refused(self) -> Counter[str]:
        """How often each command was refused so, by the CSV: `steal_Stale`."""
        return Counter({name[8:]: int(cell) for name, cell in self.row.items() if name.startswith("refused_") and cell})


@dataclass
class Life:
    """What became of a thread by the commands of a run and their replies."""

    came: int
    since: int
    death: int | None = None
    waits: list[int] = field(default_factory=list)
    sleeps: list[int] = field(default_factory=list)
    # of each time on a CPU how long it was, and the ticks that the thread had run when it left
    stays: list[tuple[int, int]] = field(default_factory=list)


def lives_of(tried: Tried) -> dict[str, Life]:
    """The life of each thread that came."""
    lives: dict[str, Life] = {}
    for tick, (command, reply) in zip(tried.ticks, tried.answered, strict=True):
        (verb, *words), (ok, *names) = command.split(), reply.split()
        if ok != "ok" or verb not in ("create", "wake", "pick", "yield", "preempt", "block", "die"):
            continue
        life = lives.setdefault(names[0], Life(tick, tick))
        if verb == "pick":
            life.waits.append(tick - life.since)
        elif verb == "wake":
            life.sleeps.append(tick - life.since)
        elif verb != "create":
            life.stays.append((tick - life.since, int(words[1])))
        life.since, life.death = tick, tick if verb == "die" else None
    return lives


@functools.cache
def all_tried() -> list[Tried]:
    """What holds of every load that was tried, though no clause says it: of the CSV and of the replies that the program writes."""
    chance = random.Random("unproved")
    return [tried for _ in range(WIDE) for tried in runs_tried(chance)]


def runs_tried(chance: random.Random) -> list[Tried]:
    text = wide_load(chance)
    read, rows = load_of(text), csv.DictReader(told(text, "--csv").splitlines())
    every = [Tried(text, read.cpus, *it, []) for it in zip(read.variants, rows, strict=True)]
    one = chance.choice(every)
    script = told(text, "--script", one.variant.name)
    one.answered = [(" ".join(words), answer) for _, words, answer in answered(script, rig.replay(script))]
    one.ticks = [*ticks_of(script).values()]
    return every


def refused(runs: list[Tried]) -> Counter[str]:
    """How often each command was refused so in these runs. The replies tell what the CSV tells, and nothing else."""
    for tried in (it for it in runs if it.answered):
        refusals = ((command, reply) for command, reply in tried.answered if reply.startswith("refused "))
        told = Counter(f"{command.split()[0]}_{reply.split()[1]}" for command, reply in refusals)
        same(told, +tried.refused(), f"{tried.variant}\n{tried.text}")
    return sum((tried.refused() for tried in runs), Counter())


def each(is_meant: Callable[[Tried], bool]) -> tuple[list[Tried], list[Tried]]:
    """The runs that are meant, and the others. Of both some were replayed."""
    meant, others = ([tried for tried in all_tried() if is_meant(tried) == wanted] for wanted in (True, False))
    assert min(sum(bool(tried.answered) for tried in runs) for runs in (meant, others)) > 5
    return meant, others


def test_a_thread_runs_waits_and_sleeps_from_its_start_to_its_death():
    counted = Counter()
    for tried in all_tried():
        plans, waits = load_of(tried.text).plans if tried.answered else [], 0
        for name, life in lives_of(tried).items():
            plan, text = plans[int(name[1:])], f"{name}, {tried.variant}\n{tried.text}"
            same(life.came, plan.start, text)
            for stay, ran in life.stays:
                assert stay >= ran, text
                counted["in turns"] += stay - ran
                assert stay == ran or tried.variant.cost, text
            blocks = sum(leaving == "block" for leaving, _ in plan.steps)
            same(life.sleeps, (plan.sleeps + [0] * blocks)[:len(life.sleeps)], text)
            spent = sum(life.waits) + sum(life.sleeps) + sum(stay for stay, _ in life.stays)
            same(spent, life.since - life.came, text)
            if life.death is not None:
                same(sum(ran for _, ran in life.stays), sum(ticks for _, ticks in plan.steps), text)
                same(len(life.sleeps), blocks, text)
            waits += sum(life.waits)
            counted.update(lives=1, deaths=life.death is not None, slept=sum(life.sleeps), waited=sum(life.waits))
        if tried.answered and tried.row["end"] == "done":
            same(waits, tried.count("wait_sum"), f"{tried.variant}\n{tried.text}")
    assert min(counted[it] for it in ("lives", "deaths", "slept", "waited", "in turns")) > 100


def test_no_run_stalls_whose_order_leaves_nobody_out():
    same({tried.row["end"] for tried in all_tried()}, {"done", "until"})


def test_where_turns_take_no_time_only_steals_are_stale():
    meant, others = each(lambda tried: tried.variant.cost == 0)
    for tried in meant:
        stale = {name for name, count in tried.refused().items() if count and name.endswith("_Stale")}
        assert stale <= {"steal_Stale"}, f"{tried.variant}\n{tried.text}"
    assert refused(meant)["steal_Stale"] > 100
    rest = refused(others)
    assert min(rest["pick_Stale"], rest["sleep_Stale"]) > 100


def test_where_all_is_heard_at_once_no_cpu_idles_while_one_waits_for_it():
    meant, others = each(lambda tried: tried.is_at_once)
    for tried in meant:
        same(tried.row["ticks_idle_while_one_waits"], "0", f"{tried.variant}\n{tried.text}")
    for name in ("ticks_idle", "wait_sum", "steals"):
        assert sum(tried.count(name) for tried in meant) > 1000, name
    assert sum(tried.count("ticks_idle_while_one_waits") for tried in others) > 1000


def test_where_news_is_not_late_or_steals_are_exact_a_refused_one_found_nothing():
    # Who steals has heard all of the thread that it asks for.
    meant, others = each(lambda tried: tried.variant.delay == 0 or tried.variant.steals == "exact")
    for tried in meant:
        steals = {name for name, count in tried.refused().items() if count and name.startswith("steal_")}
        assert steals <= {"steal_NothingToSteal"}, f"{tried.variant}\n{tried.text}"
    for is_part in (lambda it: it.is_at_once, lambda it: it.variant.steals == "least", lambda it: it.variant.cost > 0,
                    lambda it: it.variant.delay > 0):
        part = [tried for tried in meant if is_part(tried)]
        found, missed = sum(tried.count("steals") for tried in part), refused(part)["steal_NothingToSteal"]
        assert min(found, missed) > 100
    rest = refused(others)
    assert min(rest["steal_Dead"], rest["steal_Stale"]) > 100


def add_words(add: Callable[..., object]) -> None:
    add("--loads", default=LOADS, type=int, metavar="N")
    add("--drawn", default=lab_pictures.DRAWN, type=int, metavar="N")


if __name__ == "__main__":
    rig.main(__doc__, rig.tests_in(globals(), lab_pictures), add_words, at_once=2)

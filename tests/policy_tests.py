#!/usr/bin/env python3
"""Tests picks and steals under each policy against the model of tools/kernel.py.

Scripts of version 3 are drawn under each policy, with exact steals and without: 300 each, or NUMBER, and 10,000 with --all; of
policies by expressions each script has its own. The model tells each answer of a script, and the program has to agree on each
line. Picks and steals have to be common, and the order has to matter. The numbers of docs/POLICIES.md are those of the lab.
"""
import pathlib
import random
import re
import sys
from collections import Counter
from collections.abc import Callable
from functools import partial

import rig
from drawn_ranks import drawn
from kernel import LEAVES, ORDERS, Talk, World
from ranks import policy_of
from reference.lab import STEALS
from rig import good, same
from tables import variant

EXPRESSIONS = "expressions"
SIZES = (2, 4, 8, 12)
MOST_THREADS = 10
TICKS = [0, 1, 2, 3, 5, 8, 13, 4_294_967_295]
Deed = Callable[[int, int], None]


class Drawn:
    """A script that is drawn, and what the model answers to each of its lines."""

    def __init__(self, place: int, policy: str) -> None:
        self.chance = random.Random(f"policies {place} {policy}")
        if policy.startswith(EXPRESSIONS):
            text, _ = drawn(self.chance, SIZES)
            policy = f"rank {text}{policy.removeprefix(EXPRESSIONS)}"
        self.talk, self.counts, self.lines, self.answers = Talk(), Counter[str](), list[str](), list[str]()
        cpus = self.chance.choice([1, 2, 2, 3])
        self.say("version 3")
        # So many items and posts are never met. The wider limits of version 3 are a world's that a policy opens anew, too.
        threads, numbers = self.chance.choice([(MOST_THREADS, 1_000_000), (65_535, 16_000_000)])
        self.say(f"enclave {cpus} {threads} {numbers} 65536 1000000")
        self.begin(policy)
        for _ in range(self.chance.choice([1, 3, 6])):
            self.say(f"create {self.chance.randrange(cpus)} {2 ** cpus - 1} ready")
        for _ in range(self.chance.choice([40, 80, 120])):
            self.turn()

    @property
    def world(self) -> World:
        assert self.talk.world is not None
        return self.talk.world

    def say(self, line: str) -> bool:
        """Whether it is accepted."""
        self.lines.append(line)
        self.answers.append(self.talk.take(line.encode()) or "")
        is_accepted = self.answers[-1].startswith("ok")
        self.counts[line.split()[0]] += is_accepted
        return is_accepted

    def begin(self, policy: str) -> None:
        """Policies, of which the last one counts, with questions between."""
        for _ in range(self.chance.choice([0, 0, 1, 2])):
            self.say(f"policy {self.chance.choice(ORDERS)}{self.chance.choice(['', ' exact'])}")
            self.say("status t0")
        assert self.say(f"policy {policy}")
        if self.chance.random() < 0.2:
            self.say("same 0 0")

    def turn(self) -> None:
        """A line of one of these sorts, or a few that follow each other; the common ones more often."""
        chance, world = self.chance, self.world
        cpu, other = (chance.randrange(world.cpus) for _ in range(2))
        every = 2 ** world.cpus - 1
        mask = chance.choice([every, every, chance.randint(1, every)])
        some, alive = self.thread("ready", "blocked", "dead"), self.thread("ready", "blocked")
        blocked, phase = self.thread("blocked"), chance.choice(["ready", "ready", "blocked"])
        lines: dict[str | Deed, float] = {
            f"create {cpu} {mask} {phase}": 6 * (len(world.threads) < MOST_THREADS), f"mend {cpu}": 1,
            f"priority t{alive} {chance.choice([0, 3, 3, 7])}": 6 * (alive is not None), f"crash {cpu}": 2,
            f"affinity t{alive} {mask}": 2 * (alive is not None), f"wake t{blocked}": 3 * (blocked is not None),
            f"tick {cpu}": 2, self.leaves: 8, self.takes_in: 10, self.picks: 14, self.steals: 10, self.tells: 8,
            self.answers_other: 3, self.late: 1,
        }
        if some is not None:
            lines[f"associate t{some} {cpu} {world.threads[some].number - (chance.random() < 0.1)}"] = 2
        deed = chance.choices(list(lines), list(lines.values()))[0]
        if callable(deed):
            deed(cpu, other)
        else:
            self.say(deed)

    def thread(self, *phases: str) -> int | None:
        """A thread in one of these phases."""
        names = [name for name, thread in enumerate(self.world.threads) if thread.now.phase in phases]
        return self.chance.choice(names) if names else None

    def leaves(self, cpu: int, other: int) -> None:
        self.say(f"{self.chance.choice([*LEAVES, 'yield'])} {cpu} {self.chance.choice(TICKS)}")

    def publishes(self, cpu: int, more: str = "") -> None:
        """Counts where the order puts another thread in front than levels would."""
        agent, report = self.world.agents[cpu], partial(self.world.reported, cpu)
        names = dict.fromkeys([*agent.names, *(item[0] for item in self.world.queues[cpu].items if item)])
        self.say(f"publish {cpu}{more}")
        by_levels = min((it for it in names if self.world.may_run(cpu, it)), key=lambda it: report(it).rank("levels", it, cpu), default=None)
        self.counts["order"] += agent.names[:1] not in ([], [by_levels])

    def takes_in(self, cpu: int, other: int) -> None:
        self.publishes(cpu, " fail" if self.chance.random() < 0.1 else "")
        if self.chance.random() < 0.7:
            self.say(f"consume {cpu}")

    def idles(self, cpu: int) -> None:
        """Mostly on an idle CPU."""
        if self.world.running[cpu] is not None and self.chance.random() < 0.8:
            self.leaves(cpu, cpu)

    def picks(self, cpu: int, other: int) -> None:
        """Mostly with the count of now."""
        self.idles(cpu)
        self.say(f"pick {cpu} {self.world.queues[cpu].posts + (self.chance.random() < 0.05)}")

    def steals(self, cpu: int, other: int) -> None:
        """Counts where exactness chooses another thread."""
        self.idles(cpu)
        exact, self.world.exact = self.world.exact, False
        least = self.world.target(cpu)
        self.world.exact = exact
        self.counts["other steals"] += self.world.running[cpu] is None and self.world.target(cpu) not in (None, least)
        self.say(f"steal {cpu}")

    def tells(self, cpu: int, other: int) -> None:
        """Another agent publishes, consumes, and is heard."""
        self.publishes(other)
        self.say(f"consume {other}")
        delta = len(self.world.deltas) - (1 if self.chance.random() < 0.8 else self.chance.randint(0, 3))
        self.say(f"deliver {cpu} {max(delta, 0)}")
        if self.chance.random() < 0.6:
            self.steals(cpu, other)

    def answers_other(self, cpu: int, other: int) -> None:
        self.say(f"answer {other} {cpu}")
        self.say(f"deliver {cpu} {len(self.world.deltas) - 1}")

    def late(self, cpu: int, other: int) -> None:
        """A tick, and a policy behind it."""
        self.say(f"tick {cpu}")
        assert not self.say(f"policy {self.chance.choice(ORDERS)}")


def counts_of(policy: str, place: int) -> Counter[str]:
    """How often the model picked, and so on, in a script of which the program answers the same."""
    drawn = Drawn(place, policy)
    run = rig.ask("replay", given="\n".join([*drawn.lines, ""]))
    with rig.about(f"script {place}:\n" + "\n".join(drawn.lines)):
        same((run.returncode, run.stderr, run.stdout.splitlines()), (0, "", drawn.answers))
    return drawn.counts


def recorded_loads(folder: pathlib.Path) -> list[pathlib.Path]:
    """The loads of docs/POLICIES.md, in its order."""
    loads = [rig.ROOT / "examples/lab/database.toml"]
    for name in ("python-pool", "shell-pipelines"):
        loads.append(folder / f"{name}.toml")
        text = rig.ROOT / f"examples/recordings/{name}.txt"
        made = rig.run(sys.executable, rig.ROOT / "tools/from-perf-sched", text, "-o", folder / "script", "--load", loads[-1])
        same(made.returncode, 0, made.stderr)
    return loads


def the_page_tells_what_policies_come_to() -> None:
    """The waits of which nine of ten are no longer, on each load under each policy of docs/POLICIES.md."""
    lines = (rig.ROOT / "docs/POLICIES.md").read_text().splitlines()
    rows = [[cell.strip(" `") for cell in line.strip("|").split("|")] for line in lines if line.startswith("| `rank")]
    texts = ""
    for place, (text, *_) in enumerate(rows):
        policy = policy_of(text.encode())
        texts += variant(f"v{place}", order=policy.order, steals=STEALS[policy.exact], quantum=1000, urgent=True, cost=3)
    with rig.folder() as folder:
        (variants := folder / "variants.toml").write_text(texts)
        tables = [good(rig.ask("lab", load, "--variants", variants)) for load in recorded_loads(folder)]
    found = [re.findall(r"\d+", re.search("^woken p90(.*)", table, re.M)[1]) for table in tables]
    same([row[2:] for row in rows], [[*row] for row in zip(*found, strict=True)])


def answers_are_the_models(policy: str) -> None:
    scripts = rig.options.scripts
    counts = sum(rig.in_threads(partial(counts_of, policy), range(scripts)), Counter())
    wanted = ["pick", "steal", "mend", *["order"] * (not policy.startswith("levels") or "-" in policy)]
    rare = [what for what in [*wanted, *["other steals"] * ("exact" in policy)] if counts[what] * 4 < scripts]
    assert not rare, f"too few of {rare}: {counts}"


if __name__ == "__main__":
    every = [order + exact for order in [*ORDERS, EXPRESSIONS] for exact in ("", " exact")]
    tests = [(policy, partial(answers_are_the_models, policy)) for policy in every]
    tests.append(("page", the_page_tells_what_policies_come_to))
    rig.main(__doc__, tests, rig.add_scripts)

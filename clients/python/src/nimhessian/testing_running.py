"""Runs of an agent by seeds: each is drawn, and the first that breaks a rule is cut down and told."""
from __future__ import annotations

import os
from collections.abc import Collection, Iterable
from dataclasses import dataclass
from random import Random

from .advice import explained
from .errors import Refused
from .program import find_program
from .testing_counts import Counts
from .testing_cutting import Ended, cut
from .testing_drawing import Drawing, Environment
from .testing_play import Maker, Play
from .testing_rules import Broken, Rule
from .testing_steps import Plan, Step


class AgentFailed(AssertionError):
    """An agent broke a rule. Its text tells which, and the shortest run that was found, as `pc-sim` explains it."""

    def __init__(self, seed: int, ended: Ended, explanation: str, counts: Counts) -> None:
        broken = ended.broken
        super().__init__(f"seed {seed}: {broken}\n  {len(ended.script)} lines lead there:\n\n{explanation}\n{counts}")
        self.seed = seed
        self.rule: Rule = broken.rule
        self.told: str = broken.told
        self.script = "".join(f"{line}\n" for line in ended.script)
        """Commands that lead there; what was refused and changed nothing is left out."""
        self.plan: Plan = ended.plan
        """What `replay` takes, to go there with a debugger say."""
        self.counts = counts


@dataclass(frozen=True)
class _Runner:
    make: Maker
    tolerates: Collection[type[Refused]]
    program: str

    def play(self, cpus: int, room: int, counts: Counts | None = None) -> Play:
        return Play(self.make, cpus, room, counts=counts, tolerates=self.tolerates, program=self.program)

    def draw(self, seed: int, environment: Environment, counts: Counts) -> Ended | None:
        """How the run of a seed ended, if a rule was broken."""
        chance = Random(f"nimhessian {seed}")
        cpus, room = chance.choice(environment.cpus), chance.choice(environment.rooms)
        steps: list[Step] = []
        counts.runs += 1
        with self.play(cpus, room, counts) as play:
            try:
                Drawing(environment, chance).run(play, steps)
            except Broken as broken:
                return Ended(Plan(cpus, room, tuple(steps)), broken, play.script(broken))
        return None

    def replay(self, plan: Plan) -> Ended | None:
        """How a plan ends, if a rule is broken."""
        with self.play(plan.cpus, plan.room) as play:
            for place, step in enumerate(plan.steps):
                try:
                    play.take(step)
                except Broken as broken:
                    return Ended(Plan(plan.cpus, plan.room, plan.steps[:place + 1]), broken, play.script(broken))
        return None


def run(
    agent: Maker, seeds: Iterable[int] = range(200), environment: Environment = Environment(), *,
    tolerates: Collection[type[Refused]] = (), program: str | os.PathLike[str] | None = None,
) -> Counts:
    """Runs the agent once for each seed; what was met, or `AgentFailed` by the first seed where a rule is broken.

    `agent` makes the agent of a CPU, of a world and the CPU. Refusals that it `tolerates` are no faults where it
    catches them; those that no law excludes, such as `Stale`, never are.
    """
    runner, counts = _Runner(agent, tolerates, find_program(program)), Counts()
    for seed in seeds:
        if (ended := runner.draw(seed, environment, counts)) is not None:
            ended = cut(ended, runner.replay)
            raise AgentFailed(seed, ended, explained(runner.program, ended.script), counts) from ended.broken
    return counts


def replay(
    agent: Maker, plan: Plan, *,
    tolerates: Collection[type[Refused]] = (), program: str | os.PathLike[str] | None = None,
) -> None:
    """Runs the agent by a plan; what is broken is raised where it is."""
    if (ended := _Runner(agent, tolerates, find_program(program)).replay(plan)) is not None:
        raise ended.broken

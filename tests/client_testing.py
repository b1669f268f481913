"""Tests of nimhessian.testing, which tests/client_tests.py tries: wrong agents are found, and a right one passes.

What an agent breaks is told here by hand, of its bug. The script that is printed is replayed, and ends as it is told.
"""
import os
import re
import sys
from collections.abc import Callable

import client_agents
import rig
from client_agents import Right
from nimhessian import Busy, World, testing
from nimhessian.testing import (
    AgentFailed, Broken, Counts, Environment, Event, Plan, Play, Rest, Rule, State, Turn, Weights,
)
from rig import ROOT, needs, raises, same

SEEDS, MOST_LINES = range(200), 15
ALONE = Environment(cpus=(1,), weights=Weights(crash=0))
# By which rules the bug of an agent may be found: the first that a run meets is told.
FOUND_BY = {
    "ForgetsToConsume": {Rule.EMPTIED, Rule.AT_REST, Rule.PLACED},
    "ConsumesBeforeItSends": {Rule.EMPTIED, Rule.AT_REST, Rule.PLACED},
    "SleepsByTheCountOfThen": {Rule.SLEPT}, "CountsNoTicks": {Rule.AT_REST}, "TakesStaleForNever": {Rule.COUNTED},
    "IgnoresAffinity": {Rule.PLACED, Rule.AT_REST}, "StealsTwice": {Rule.PLACED}, "ForgetsWokenThreads": {Rule.AT_REST},
    "ForgetsYields": {Rule.AT_REST}, "NeverSteals": {Rule.AT_REST}, "IgnoresDeath": {Rule.PLACED},
    "RousesNobody": {Rule.AT_REST}, "ReadsBeforeItSends": {Rule.AT_REST, Rule.PLACED},
    "MissesWhatCameBeforeItSlept": {Rule.AT_REST},
}


def failure_of(agent: testing.Maker, environment: Environment = Environment(), **more: object) -> AgentFailed:
    with raises(AgentFailed) as failed:
        testing.run(agent, SEEDS, environment, **more)
    return failed.exception


def ends_of(script: str) -> tuple[list[str], str]:
    """What the program answers to all lines of a script but the last, and to the last."""
    answers = rig.replay(script).splitlines()
    return answers[:-1], answers[-1]


@rig.each({agent.__name__: (agent,) for agent in client_agents.WRONG})
def test_a_wrong_agent_is_found(agent: type[Right]) -> None:
    failed = failure_of(agent)
    assert failed.rule in FOUND_BY[agent.__name__], failed
    lines = failed.script.splitlines()
    assert len(lines) <= MOST_LINES, failed.script
    accepted, last = ends_of(failed.script)
    same([it for it in accepted if not it.startswith("ok")], [], failed.script)
    if failed.rule is Rule.AT_REST:
        assert re.fullmatch(r"t\d+ n\d+ ready", last), failed.script
    elif failed.rule in (Rule.PLACED, Rule.COUNTED):
        assert last.startswith("refused "), failed.script
    for line in lines:
        assert re.search(rf"^# \d+: {line}$", str(failed), re.M), f"{line} is not explained"
    with raises(Broken) as broken:
        testing.replay(agent, failed.plan)
    same((broken.exception.rule, broken.exception.told), (failed.rule, failed.told))


def test_every_wrong_agent_has_a_row():
    same(FOUND_BY.keys(), {agent.__name__ for agent in client_agents.WRONG})


def test_a_rare_bug_is_shown_by_a_plan():
    """Agent 0 starts again, and has to rouse agent 1 for a thread of which only deltas tell that it may run there."""
    plan = Plan(2, 65_536, (Event("create", (0, 2, 1), 0), Rest(), Event("crash", (0,)), Event("wake", (), 0), Rest()))
    testing.replay(Right, plan)
    with raises(Broken) as broken:
        testing.replay(client_agents.TellsBeforeItKnows, plan)
    same((broken.exception.rule, broken.exception.line), (Rule.AT_REST, "status t0"))


def test_a_right_agent_passes():
    """And everything is met that the environment may do, and every state."""
    counts = testing.run(Right, SEEDS)
    same((counts.runs, counts.never()["events"], counts.never()["states"]), (len(SEEDS), [], []))
    for met in ("commit Stale", "sleep Stale", "associate Pending", "associate Stale", "commit NotYours"):
        assert counts.refusals[met], f"{met} was never met"
    for told in ("runs 200, turns ", "\nevents: ", "\nrefusals never met: BadCpu; "):
        assert told in str(counts), counts


def test_what_was_never_tried_is_told():
    """By hand: on one CPU no thread can wait for another, and where nothing crashes no agent starts again."""
    counts = testing.run(Right, range(20), ALONE)
    same(counts.never()["events"], ["crash"])
    assert {State.ELSEWHERE, State.AWAY, State.BESIDE, State.RESTARTED} <= set(counts.never()["states"])
    assert "events never met: crash" in str(counts)


def test_the_rules_stand_in_the_documents():
    told = "".join((ROOT / "docs" / name).read_text() for name in ("PROMISES.md", "PROTOCOL.md"))
    words = " ".join(told.replace("*", "").split())
    same([rule for rule in Rule if rule not in words], [])


def test_a_seed_gives_the_same_run_again():
    first, second = (failure_of(client_agents.ForgetsYields) for _ in range(2))
    same((first.seed, first.plan, str(first)), (second.seed, second.plan, str(second)))


class Does:
    """An agent whose turn is one deed, behind which it sleeps."""

    deed: Callable[[World, int], object]

    def __init__(self, world: World, cpu: int) -> None:
        self.world, self.cpu = world, cpu

    def turn(self) -> None:
        type(self).deed(self.world, self.cpu)


def loops(world: World, cpu: int) -> None:
    while True:
        world.rouse(cpu)


def commits_by_trial(world: World, cpu: int) -> None:
    """It asks for each thread, whatever it runs."""
    if world.messages(cpu):
        world.publish(cpu), world.consume(cpu)
    for thread in world.show(cpu):
        try:
            world.commit(cpu, thread, world.aseq(cpu))
        except Busy:
            pass


@rig.each({
    "it looks at another queue": (lambda world, cpu: world.publish(1 - cpu), Rule.ALONE, "publish 1"),
    "it creates threads": (lambda world, cpu: world.create(cpu, 1), Rule.ALONE, "create 0 1 ready"),
    "it mends": (lambda world, cpu: world.mend(cpu), Rule.ALONE, "mend 0"),
    "a thread is not there": (lambda world, cpu: world.status(7), Rule.ALONE, "UnknownThread: status t7"),
    "a number is no number": (lambda world, cpu: world.sleep(cpu, -1), Rule.ALONE, "sleep 0 -1"),
    "a count is wrong": (lambda world, cpu: world.sleep(cpu, 99), Rule.SLEPT, "Stale(now=0): sleep 0 99"),
    "it fails": (lambda world, cpu: {}[cpu], Rule.GOES_ON, "KeyError(0)"),
    "it makes calls without end": (loops, Rule.GOES_ON, "1000 calls"),
    "a batch asks as well": (lambda world, cpu: world.batch().__enter__().crash(cpu) and None, None, ""),
})
def test_what_one_deed_breaks(deed: Callable[[World, int], object], rule: Rule | None, told: str) -> None:
    agent = type("Deed", (Does,), {"deed": staticmethod(deed)})
    with Play(agent, 2) as play:
        if rule is None:
            return play.take(Turn(0))
        with raises(Broken) as broken:
            play.take(Turn(0))
    same((broken.exception.rule, told in broken.exception.told), (rule, True), broken.exception.told)


def test_no_agent_hides_what_it_broke():
    def hides(world: World, cpu: int) -> None:
        try:
            world.create(cpu, 1)
        except Exception:
            pass

    with Play(type("Hides", (Does,), {"deed": staticmethod(hides)}), 1) as play, raises(Broken):
        play.take(Turn(0))


def test_a_batch_of_an_agent_is_looked_at():
    def ticks(world: World, cpu: int) -> None:
        with world.batch() as batch:
            batch.rouse(cpu), batch.tick(cpu)

    with Play(type("Ticks", (Does,), {"deed": staticmethod(ticks)}), 1) as play, raises(Broken) as broken:
        play.take(Turn(0))
    same((broken.exception.rule, play.script()[-1]), (Rule.ALONE, "rouse 0"))


def test_a_refusal_may_be_tolerated():
    """One that an agent meets by its own trial: thread 0 runs, and is asked for again."""
    agent = type("Tries", (Does,), {"deed": staticmethod(commits_by_trial)})
    steps = [Event("create", (0, 1, 0)), Event("create", (0, 1, 0)), Turn(0)]
    with Play(agent, 1) as play, raises(Broken) as broken:
        for step in steps:
            play.take(step)
    same((broken.exception.rule, broken.exception.line), (Rule.PLACED, "commit 0 t1 2"))
    with Play(agent, 1, tolerates=[Busy]) as play:
        for step in steps:
            play.take(step)
        same([it.cpu for it in play.statuses()], [0, None])


def test_an_agent_that_sleeps_has_no_turn():
    turns = []

    def sleeps(world: World, cpu: int) -> None:
        turns.append(cpu)
        world.sleep(cpu, world.aseq(cpu)) if not world.messages(cpu) else None

    counts = Counts()
    with Play(type("Sleeps", (Does,), {"deed": staticmethod(sleeps)}), 1, counts=counts) as play:
        for step in (Turn(0), Turn(0), Event("tick", (0,)), Turn(0), Turn(0)):
            play.take(step)
    same((turns, counts.states[State.WOKEN]), ([0, 0, 0], 1))


def test_an_agent_crashes_within_its_turn():
    """Behind its first call: it is made anew, and the rest of its turn does not come."""
    made, ended = [], []

    class Crashes:
        def __init__(self, world: World, cpu: int) -> None:
            made.append(cpu)
            self.world = world

        def turn(self) -> None:
            self.world.rouse(0), self.world.rouse(0)
            ended.append(0)

    with Play(Crashes, 1) as play:
        play.take(Turn(0, (("rouse 1", Event("crash", (0,))),)))
        same((made, ended, play.script()[2:]), ([0, 0], [], ["rouse 0", "crash 0"]))


def test_an_agent_may_look_ahead_in_a_copy():
    """What is tried there happens in no run, and is held against no rule."""
    def looks(world: World, cpu: int) -> None:
        with world.copy() as other:
            other.tick(cpu), other.publish(cpu)

    with Play(type("Looks", (Does,), {"deed": staticmethod(looks)}), 1) as play:
        play.take(Event("create", (0, 1, 0)))
        play.take(Turn(0))
        same((play.script()[2:], play.world.posts(0), play.counts.calls.total()), (["create 0 1 ready"], 1, 0))


def test_a_plan_is_replayed():
    testing.replay(Right, Plan(2, 65_536, (Event("create", (0, 3, 0), 5), Turn(0), Event("wake", (), 9), Rest())))


HYPOTHESIS = """
import sys
from hypothesis import settings
from hypothesis.stateful import run_state_machine_as_test
import client_agents
from nimhessian import testing
agent = getattr(client_agents, sys.argv[1])
how = settings(max_examples=int(sys.argv[2]), deadline=None, derandomize=True, database=None, print_blob=False)
how = settings(how, report_multiple_bugs=False)
try:
    run_state_machine_as_test(testing.state_machine(agent), settings=how)
except testing.Broken as broken:
    print(broken.rule.name, broken.__notes__[0])
else:
    print("passes")
"""


def python_with_hypothesis() -> str | None:
    """This Python, or Debian's."""
    there = [it for it in (sys.executable, "/usr/bin/python3") if os.path.exists(it)]
    return next((it for it in there if rig.run(it, "-c", "import hypothesis").returncode == 0), None)


@rig.each({
    "a right agent": ("Right", 20, "passes"), "one that forgets to consume": ("ForgetsToConsume", 200, "EMPTIED"),
    "one that takes no thread over": ("NeverSteals", 200, "AT_REST"),
})
def test_hypothesis_plays_an_agent(agent: str, examples: int, wanted: str) -> None:
    needs(python := python_with_hypothesis(), "no hypothesis here")
    path = os.pathsep.join([str(ROOT / "clients/python/src"), str(ROOT / "tests")])
    ended = rig.run(python, "-c", HYPOTHESIS, agent, examples, env=os.environ | {"PYTHONPATH": path})
    told = rig.good(ended).splitlines()
    same(told[0].split()[0], wanted)
    if wanted != "passes":
        assert len(told) <= MOST_LINES + 1 and told[1] == "version 3", ended.stdout

"""The play of an agent as a machine of Hypothesis, which draws its steps and shrinks them."""
from __future__ import annotations

from dataclasses import replace
from typing import Any

from hypothesis import strategies as st
from hypothesis.stateful import RuleBasedStateMachine, initialize, rule

from .testing_drawing import TICKS, Environment
from .testing_play import Maker, Play
from .testing_rules import Broken
from .testing_steps import LEAVINGS, Event, Rest, Turn
from .values import Phase

CALLS = (
    "sleep", "commit", "associate", "pick", "steal", "consume", "publish", "messages", "aseq", "deliver", "show",
    "rouse",
)
"""What agents ask, before which something else may happen."""


def _events(environment: Environment, *names: str) -> st.SearchStrategy[Event]:
    """What the environment may do of these, or of all; what is not possible then is refused, and changes nothing."""
    cpus = max(environment.cpus)
    cpu, mask = st.integers(0, cpus - 1), st.integers(1, (1 << cpus) - 1)
    thread = st.integers(0, environment.threads - 1)
    weights = environment.weights
    kinds: dict[str, tuple[st.SearchStrategy[Any], st.SearchStrategy[Any]]] = {
        "create": (st.tuples(cpu, mask, st.integers(0, 1)), st.none()),
        "wake": (st.just(()), thread),
        "affinity": (st.tuples(mask), thread),
        "priority": (st.tuples(st.integers(0, 7)), thread),
        **{name: (st.tuples(cpu, st.sampled_from(TICKS)), st.none()) for name in LEAVINGS},
        **{name: (st.tuples(cpu), st.none()) for name in ("tick", "crash")},
    }
    drawn = [st.builds(Event, st.just(name), *given) for name, given in kinds.items()
             if name in (names or kinds) and getattr(weights, name)]
    return st.one_of(*drawn)


def _fitting(play: Play, step: Event | Turn, threads: int) -> Event | Turn | None:
    """The step for a CPU or a thread that it is possible for, counted among these; none where there is none."""
    statuses = play.statuses()
    if isinstance(step, Turn):
        awake = play.awake()
        return replace(step, cpu=awake[step.cpu % len(awake)]) if awake else None
    if step.name in LEAVINGS:
        running = sorted(it.cpu for it in statuses if it.cpu is not None)
        return replace(step, given=(running[step.given[0] % len(running)], step.given[1])) if running else None
    if step.thread is not None:
        wanted = {Phase.BLOCKED} if step.name == "wake" else {Phase.READY, Phase.BLOCKED}
        fitting = [place for place, it in enumerate(statuses) if it.phase in wanted]
        return replace(step, thread=fitting[step.thread % len(fitting)]) if fitting else None
    return step if step.name != "create" or len(statuses) < threads else None


class _Machine(RuleBasedStateMachine):
    """What all machines have: a play, whose steps are taken."""

    play: Play | None = None
    threads = 0

    def take(self, step: Event | Turn | Rest) -> None:
        assert self.play is not None
        fitting = step if isinstance(step, Rest) else _fitting(self.play, step, self.threads)
        try:
            if fitting is not None:
                self.play.take(fitting)
        except Broken as broken:
            broken.add_note("\n".join(["The script that leads there:", *self.play.script(broken)]))
            raise

    def teardown(self) -> None:
        if self.play is not None:
            self.play.world.close()


def machine_of(agent: Maker, environment: Environment) -> type[RuleBasedStateMachine]:
    """A machine whose rules are the steps of a play."""
    cpus, rooms = sorted(set(environment.cpus)), sorted(set(environment.rooms), reverse=True)
    cpu = st.integers(0, max(cpus) - 1)
    call = st.builds("{} {}".format, st.sampled_from(CALLS), st.integers(0, 1))
    inner = st.tuples(call, st.one_of(_events(environment), st.builds(Turn, cpu)))

    class AgentMachine(_Machine):
        threads = environment.threads

        @initialize(cpus=st.sampled_from(cpus), room=st.sampled_from(rooms))
        def begin(self, cpus: int, room: int) -> None:
            self.play = Play(agent, cpus, room)

        @rule(event=_events(environment, "create"))
        def create(self, event: Event) -> None:
            self.take(event)

        @rule(event=_events(environment, "wake"))
        def wake(self, event: Event) -> None:
            self.take(event)

        @rule(event=_events(environment, *LEAVINGS))
        def leave(self, event: Event) -> None:
            self.take(event)

        @rule(event=_events(environment, "affinity", "priority", "tick", "crash"))
        def change(self, event: Event) -> None:
            self.take(event)

        @rule(cpu=cpu, between=st.lists(inner, max_size=2))
        def turn(self, cpu: int, between: list[tuple[str, Event | Turn]]) -> None:
            self.take(Turn(cpu, tuple(between)))

        @rule()
        def rest(self) -> None:
            self.take(Rest())

    return AgentMachine

"""What the environment does, drawn at random."""
from __future__ import annotations

from collections.abc import Callable, Sequence
from dataclasses import asdict, dataclass, field
from random import Random

from .testing_play import Between, Play
from .testing_steps import LEAVINGS, Event, Rest, Step, Turn
from .values import Phase

FACTORS = (0.2, 1, 1, 3)
"""By one of these each weight is multiplied, in each run by another."""
TICKS = (0, 1, 2, 5, 9)
"""For how many ticks a thread may run."""


@dataclass(frozen=True)
class Weights:
    """How often each step is drawn, beside the others that are possible then."""

    create: float = 3
    wake: float = 6
    block: float = 4
    yield_: float = 3
    preempt: float = 3
    die: float = 1
    affinity: float = 2
    priority: float = 1
    tick: float = 2
    crash: float = 2
    turn: float = 20
    rest: float = 3


@dataclass(frozen=True)
class Environment:
    """What is drawn.

    An agent that never crashes, or that takes no thread of others, is tested with `Weights(crash=0)`, with `cpus=(1,)`.
    """

    cpus: Sequence[int] = (1, 2, 2, 3)
    """How many CPUs: one of these."""
    rooms: Sequence[int] = (65_536, 65_536, 3)
    """How many items a queue holds: one of these."""
    threads: int = 5
    """The most threads of a run."""
    steps: int = 40
    between: float = 0.1
    """How likely it is that something happens before a call of an agent."""
    weights: Weights = field(default_factory=Weights)


class Drawing:
    """The steps of one run, as they are drawn."""

    def __init__(self, environment: Environment, chance: Random) -> None:
        self.environment, self.chance = environment, chance
        self.created = 0
        # Some faults need much of one thing and nothing of another, of which a run by even weights has too little.
        self.weights = {name: weight * chance.choice(FACTORS) for name, weight in asdict(environment.weights).items()}

    def run(self, play: Play, steps: list[Step]) -> None:
        """Draws steps, and takes them: each is added to the list, also the one by which a rule is found broken."""
        for _ in range(self.environment.steps):
            play.look()
            self._take(play, self._step(play), steps)
        self._take(play, Rest(), steps)

    def _take(self, play: Play, step: Step, steps: list[Step]) -> None:
        if not isinstance(step, Turn):
            steps.append(step)
            play.take(step)
            return
        between: list[tuple[str, Event | Turn]] = []
        try:
            play.turn(step.cpu, self._draws(play, step.cpu, between))
        finally:
            steps.append(Turn(step.cpu, tuple(between)))

    def _draws(self, play: Play, cpu: int, drawn: list[tuple[str, Event | Turn]]) -> Between:
        """Draws what happens before each call of an agent, and tells it to the list."""
        def draw(call: str) -> list[Event | Turn]:
            if self.chance.random() >= self.environment.between:
                return []
            step = self._step(play, cpu)
            if isinstance(step, Rest):
                return []
            drawn.append((call, step))
            return [step]

        return draw

    def _step(self, play: Play, acting: int | None = None) -> Step:
        """A step that is possible now."""
        others = [cpu for cpu in play.awake() if cpu != acting]
        makers: dict[str, Callable[[], Step] | None] = {
            **{name: self._thread_event(play, name) for name in ("wake", "affinity", "priority")},
            **{name: self._leaving(play, name) for name in LEAVINGS},
            "create": (lambda: self._create(play)) if len(play.masks) < self.environment.threads else None,
            "tick": lambda: Event("tick", (self._cpu(play),)), "crash": lambda: Event("crash", (self._cpu(play),)),
            "turn": (lambda: Turn(self.chance.choice(others))) if others else None, "rest": lambda: Rest(),
        }
        possible = [(name, make) for name, make in makers.items() if make is not None and self.weights[name]]
        if not possible:
            return Rest()
        chosen = self.chance.choices([make for _, make in possible], [self.weights[name] for name, _ in possible])[0]
        return chosen()

    def _cpu(self, play: Play) -> int:
        return self.chance.choice(play.cpus)

    def _mask(self, play: Play) -> int:
        """Every CPU, or a single one, or any of them."""
        every = (1 << len(play.cpus)) - 1
        return self.chance.choice([every, every, 1 << self._cpu(play), self.chance.randint(1, every)])

    def _create(self, play: Play) -> Event:
        self.created += 1
        is_blocked = self.chance.random() < 0.2
        return Event("create", (self._cpu(play), self._mask(play), int(is_blocked)), self.created - 1)

    def _leaving(self, play: Play, name: str) -> Callable[[], Step] | None:
        running = [it.cpu for it in play.statuses() if it.cpu is not None]
        return (lambda: Event(name, (self.chance.choice(running), self.chance.choice(TICKS)))) if running else None

    def _thread_event(self, play: Play, name: str) -> Callable[[], Step] | None:
        """An event of a thread that it is possible for."""
        phases = {Phase.BLOCKED} if name == "wake" else {Phase.READY, Phase.BLOCKED}
        of_the_run = {thread: own for own, thread in play.threads.items()}
        threads = [of_the_run[it.thread] for it in play.statuses() if it.phase in phases]
        return (lambda: Event(name, self._given(play, name), self.chance.choice(threads))) if threads else None

    def _given(self, play: Play, name: str) -> tuple[int, ...]:
        """What an event of a thread is given behind its name."""
        match name:
            case "affinity":
                return (self._mask(play),)
            case "priority":
                return (self.chance.randint(0, 7),)
        return ()

"""What a run is made of: what the environment does, an agent's turns, and rests."""
from __future__ import annotations

from collections.abc import Callable, Mapping
from dataclasses import dataclass
from typing import cast

from . import commands
from .commands import Command

LEAVINGS = ("block", "yield_", "preempt", "die")
"""The events by which a thread leaves its CPU."""
EVENTS = ("create", "wake", *LEAVINGS, "affinity", "priority", "tick", "crash")
"""What the environment does, as `nimhessian.commands` has it."""


@dataclass(frozen=True, slots=True)
class Event:
    """The environment does something: a command, by its name in `nimhessian.commands`.

    `thread` is a name of the run's own, so that a step stays what it is where others are left out: `create` gives it,
    and what is said of a thread that was not created is passed over.
    """

    name: str
    given: tuple[int, ...] = ()
    """What the command is given behind its thread."""
    thread: int | None = None

    def command(self, threads: Mapping[int, int]) -> Command[object] | None:
        """The command, where its thread is there; the names of threads by those of the run."""
        make = cast(Callable[..., Command[object]], getattr(commands, self.name))
        if self.thread is None or self.name == "create":
            return make(*self.given)
        return make(threads[self.thread], *self.given) if self.thread in threads else None


@dataclass(frozen=True, slots=True)
class Turn:
    """The agent of a CPU has a turn. Before some of its calls something else happens."""

    cpu: int
    between: tuple[tuple[str, Event | Turn], ...] = ()
    """Before which call, as `sleep 0`: the first of the turn that asks to sleep."""


@dataclass(frozen=True, slots=True)
class Rest:
    """The environment does nothing, and agents have turns until they have nothing left to do."""


Step = Event | Turn | Rest


@dataclass(frozen=True, slots=True)
class Plan:
    """A run, all of it but for what agents do."""

    cpus: int
    room: int
    steps: tuple[Step, ...] = ()

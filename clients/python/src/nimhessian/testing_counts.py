"""How often what was met, so that what was never tried is seen."""
from collections import Counter
from collections.abc import Iterable
from dataclasses import dataclass, field
from enum import StrEnum

from .errors import REFUSALS
from .testing_steps import EVENTS


class State(StrEnum):
    """A state that a run may come to, or what an agent meets."""

    RUNS = "a thread runs"
    WAITS = "a thread is ready and runs nowhere"
    BLOCKED = "a thread is blocked"
    DEAD = "a thread is dead"
    AWAY = "a thread may not run on the CPU of its queue"
    ELSEWHERE = "a thread waits, and another CPU idles that it may run on"
    FULL = "every CPU runs a thread"
    UNREAD = "a turn begins with messages in the queue"
    ASLEEP = "an agent sleeps"
    WOKEN = "a post wakes an agent"
    MIDWAY = "an event comes within an agent's turn"
    BESIDE = "an agent has a turn within another one's"
    RESTARTED = "an agent starts again within its turn"
    RESTED = "agents come to rest"


@dataclass
class Counts:
    """What was met in all runs."""

    runs: int = 0
    turns: int = 0
    events: Counter[str] = field(default_factory=Counter)
    """Of each event how often it was accepted."""
    calls: Counter[str] = field(default_factory=Counter)
    """Of each command of agents how often it was accepted."""
    refusals: Counter[str] = field(default_factory=Counter)
    """Of each command and refusal how often it was met."""
    states: Counter[str] = field(default_factory=Counter)

    def never(self) -> dict[str, list[str]]:
        """What was never met: events, refusals, and states."""
        refused = {told.split(" ")[1] for told in self.refusals}
        return {"events": [it for it in EVENTS if not self.events[it]],
                "refusals": [it for it in REFUSALS if it not in refused],
                "states": [it for it in State if not self.states[it]]}

    def __str__(self) -> str:
        lines = [f"runs {self.runs}, turns {self.turns}"]
        for name in ("events", "calls", "refusals", "states"):
            counted: Counter[str] = getattr(self, name)
            lines += _row(name, (f"{it} {count}" for it, count in counted.most_common()))
            lines += _row(f"{name} never met", self.never().get(name, ()))
        return "\n".join(lines)


def _row(head: str, told: Iterable[str]) -> list[str]:
    text = "; ".join(told)
    return [f"{head}: {text}"] if text else []

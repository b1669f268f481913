"""Tests an agent against the model: environments are drawn, and each call of the agent is held against rules.

    class MyAgent:
        def __init__(self, world: World, cpu: int) -> None: ...
        def turn(self) -> None: ...

    print(run(MyAgent, seeds=range(200)))

The agent reads its queue by `world.messages`, and asks the world for what it wants. Meanwhile threads are created,
woken, blocked and moved, agents crash, and other agents act, also within its turn. A run that breaks a rule is cut down
to a short script, which `AgentFailed` tells; otherwise `Counts` says what was met, and what never was.

`state_machine` has the same for Hypothesis, where that is installed.
"""
from __future__ import annotations

from typing import TYPE_CHECKING

from .testing_counts import Counts, State
from .testing_drawing import Environment, Weights
from .testing_play import Agent, Maker, Play
from .testing_rules import Broken, Rule
from .testing_running import AgentFailed, replay, run
from .testing_steps import Event, Plan, Rest, Step, Turn

if TYPE_CHECKING:
    from hypothesis.stateful import RuleBasedStateMachine

__all__ = [
    "Agent", "AgentFailed", "Broken", "Counts", "Environment", "Event", "Maker", "Plan", "Play", "Rest", "Rule",
    "State", "Step", "Turn", "Weights", "replay", "run", "state_machine",
]


def state_machine(agent: Maker, environment: Environment = Environment()) -> type[RuleBasedStateMachine]:
    """A machine of Hypothesis that plays the agent; its `TestCase` is a test."""
    from .testing_machine import machine_of

    return machine_of(agent, environment)

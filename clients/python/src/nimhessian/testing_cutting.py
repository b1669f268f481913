"""A run that breaks a rule, cut down: steps are left out, moved and made simpler as long as it breaks the same one."""
from __future__ import annotations

from collections.abc import Callable, Iterator
from dataclasses import dataclass, replace

from .testing_rules import Broken
from .testing_steps import Event, Plan, Rest, Step, Turn

MOST_TRIES = 2_000
LAST = "sleep 0"
"""The last call of most turns."""


@dataclass(frozen=True)
class Ended:
    """A run that broke a rule: the steps that were taken, and the script that shows it."""

    plan: Plan
    broken: Broken
    script: list[str]

    def size(self) -> tuple[int, ...]:
        """What is to be made small: lines before steps, these before CPUs, these before numbers.

        What happens within a turn is harder to follow than two lines more, and often in the way of what is simpler.
        So is what happens before another call than the last one.
        """
        steps = self.plan.steps
        within = [call for it in steps if isinstance(it, Turn) for call, _ in it.between]
        numbers = sum(sum(it.given) for it in steps if isinstance(it, Event))
        return len(self.script) + 2 * len(within), len(steps), len(within) - within.count(LAST), self.plan.cpus, numbers


def cut(ended: Ended, replay: Callable[[Plan], Ended | None]) -> Ended:
    """The smallest run that was found; `replay` tells how a plan ends, if by a rule that is broken."""
    tries, smaller = 0, True
    while smaller:
        smaller = False
        for plan in _smaller(ended.plan):
            tries += 1
            if tries > MOST_TRIES:
                return ended
            other = replay(plan)
            if other is not None and other.broken.sort == ended.broken.sort and other.size() < ended.size():
                ended, smaller = other, True
                break
    return ended


def _smaller(plan: Plan) -> Iterator[Plan]:
    """Plans that may do as well, those that leave out the most in front."""
    steps = plan.steps
    for gone in range(plan.cpus if plan.cpus > 1 else 0):
        yield _without_cpu(plan, gone, None)
        yield from (_without_cpu(plan, gone, other) for other in range(plan.cpus - 1))
    length = len(steps)
    while length:
        for begin in range(0, len(steps), length):
            yield replace(plan, steps=steps[:begin] + steps[begin + length:])
        length //= 2
    for place, step in enumerate(steps):
        for other in _instead(step, plan.cpus):
            yield replace(plan, steps=steps[:place] + other + steps[place + 1:])
    for place in range(1, len(steps)):
        yield replace(plan, steps=steps[:place - 1] + (steps[place], steps[place - 1]) + steps[place + 1:])
    for first in range(len(steps)):
        for second in range(first + 1, len(steps)):
            kept = (step for place, step in enumerate(steps) if place not in (first, second))
            yield replace(plan, steps=tuple(kept))


_OTHERS: dict[tuple[str, int], Callable[[int], range]] = {
    ("create", 0): range, **dict.fromkeys([("create", 1), ("affinity", 0)], lambda cpus: range(1, 1 << cpus))}
"""What may stand for a number of an event, of so many CPUs: another queue, another mask; else 0 or 1."""


def _instead(step: Step, cpus: int) -> Iterator[tuple[Step, ...]]:
    """What may stand for a step."""
    match step:
        case Rest():
            yield from ((Turn(cpu),) for cpu in range(cpus))
        case Turn(cpu, between) if between:
            yield (Turn(cpu),)
            for place, (call, inner) in enumerate(between):
                if call != LAST:
                    yield (Turn(cpu, between[:place] + ((LAST, inner),) + between[place + 1:]),)
                rest = Turn(cpu, between[:place] + between[place + 1:])
                yield (rest,)
                yield from ((inner,), (inner, rest), (rest, inner))
        case Event(name, given):
            for place, number in enumerate(given):
                others = _OTHERS.get((name, place), lambda cpus: range(2))(cpus)
                yield from ((_with(step, place, it),) for it in others if it != number)


def _with(event: Event, place: int, number: int) -> Event:
    """The event with another number there."""
    return replace(event, given=event.given[:place] + (number,) + event.given[place + 1:])


def _without_cpu(plan: Plan, gone: int, instead: int | None) -> Plan:
    """The plan without a CPU, whose steps another one has instead, or none; those behind it move down."""
    moved = {cpu: instead if cpu == gone else cpu - (cpu > gone) for cpu in range(plan.cpus)}
    steps = [it for step in plan.steps if (it := _moved(step, moved)) is not None]
    return Plan(plan.cpus - 1, plan.room, tuple(steps))


def _moved(step: Step, cpus: dict[int, int | None]) -> Step | None:
    """The step by the new numbers of CPUs; none where its own is gone."""
    if isinstance(step, Rest):
        return step
    if isinstance(step, Turn):
        cpu = cpus.get(step.cpu)
        between = ((call, it) for call, inner in step.between if isinstance(it := _moved(inner, cpus), Event | Turn))
        return None if cpu is None else Turn(cpu, tuple(between))
    if step.name in ("wake", "priority"):
        return step
    if step.name == "affinity":
        return replace(step, given=(_moved_mask(step.given[0], cpus),))
    cpu = cpus.get(step.given[0])
    more = step.given[1:]
    if step.name == "create":
        more = (_moved_mask(more[0], cpus), more[1])
    return None if cpu is None else replace(step, given=(cpu, *more))


def _moved_mask(mask: int, cpus: dict[int, int | None]) -> int:
    """The mask by the new numbers; every CPU where it has none of these."""
    places = {new for old, new in cpus.items() if new is not None and mask >> old & 1}
    return sum(1 << it for it in places) or (1 << len(cpus) - 1) - 1

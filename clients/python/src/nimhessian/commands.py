"""Commands as they are sent, each with the reader of its answer.

`World` and `Batch` have a method for each; here they are values, so that a program can build a list of them, keep them,
or draw them at random: `world.ask(commands.tick(0))`.
"""
from collections.abc import Callable
from typing import Generic, NamedTuple, TypeVar

from . import answers
from .values import Placed, Posted, Published, Status, View

Value = TypeVar("Value")


class Command(NamedTuple, Generic[Value]):
    """A line, and what makes a value of its answer. `rows` says that the answer goes up to a line `end`."""

    line: str
    read: Callable[[str], Value]
    rows: bool = False


def create(queue: int, mask: int, blocked: bool = False) -> Command[Posted]:
    """A new thread, whose messages go to the queue, and that may run on the CPUs of the mask."""
    return Command(f"create {queue} {mask} {'blocked' if blocked else 'ready'}", answers.posted)


def wake(thread: int) -> Command[Posted]:
    """A blocked thread is ready."""
    return Command(f"wake t{thread}", answers.posted)


def block(cpu: int, ran: int) -> Command[Posted]:
    """The thread on the CPU leaves it after so many ticks, and is blocked."""
    return Command(f"block {cpu} {ran}", answers.posted)


def yield_(cpu: int, ran: int) -> Command[Posted]:
    """The thread on the CPU leaves it of its own, and is ready."""
    return Command(f"yield {cpu} {ran}", answers.posted)


def preempt(cpu: int, ran: int) -> Command[Posted]:
    """The thread on the CPU is taken off it, and is ready."""
    return Command(f"preempt {cpu} {ran}", answers.posted)


def die(cpu: int, ran: int) -> Command[Posted]:
    """The thread on the CPU leaves it, and is dead."""
    return Command(f"die {cpu} {ran}", answers.posted)


def affinity(thread: int, mask: int) -> Command[Posted]:
    """The thread may run on the CPUs of the mask."""
    return Command(f"affinity t{thread} {mask}", answers.posted)


def priority(thread: int, level: int) -> Command[Posted]:
    """The thread's level, 0 to 7."""
    return Command(f"priority t{thread} {level}", answers.posted)


def tick(cpu: int) -> Command[Posted]:
    """The timer of the CPU goes off."""
    return Command(f"tick {cpu}", answers.posted)


def policy(name: str, exact: bool = False) -> Command[None]:
    """All agents go by this policy; before any event."""
    return Command(f"policy {name} exact" if exact else f"policy {name}", answers.nothing)


def associate(thread: int, queue: int, number: int) -> Command[Placed]:
    """The thread's messages go to the queue; `number` is that of its last message, as the caller knows it."""
    return Command(f"associate t{thread} {queue} {number}", answers.placed)


def commit(cpu: int, thread: int, aseq: int) -> Command[Placed]:
    """The thread runs on the CPU; `aseq` is how many posts its queue had, as the caller knows it."""
    return Command(f"commit {cpu} t{thread} {aseq}", answers.placed)


def sleep(cpu: int, aseq: int) -> Command[None]:
    """The CPU's agent sleeps until a post wakes it."""
    return Command(f"sleep {cpu} {aseq}", answers.nothing)


def rouse(cpu: int) -> Command[None]:
    """The CPU's agent is awake."""
    return Command(f"rouse {cpu}", answers.nothing)


def config(queue: int, cpu: int | None) -> Command[None]:
    """Posts to the queue wake the agent of this CPU, or nobody."""
    return Command(f"config {queue} {'-' if cpu is None else cpu}", answers.nothing)


def publish(cpu: int) -> Command[Published]:
    """The CPU's agent takes in what its queue holds, and sends it as a delta."""
    return Command(f"publish {cpu}", answers.published)


def publish_fail(cpu: int) -> Command[Published]:
    """The same, but the delta cannot be sent: it is refused with `WireFault`."""
    return Command(f"publish {cpu} fail", answers.published)


def consume(cpu: int) -> Command[int]:
    """The CPU's agent removes the items that it sent from its queue: how many."""
    return Command(f"consume {cpu}", answers.number)


def deliver(cpu: int, delta: int) -> Command[None]:
    """The CPU's agent takes in a delta that was sent."""
    return Command(f"deliver {cpu} {delta}", answers.nothing)


def answer(cpu: int, other: int) -> Command[int]:
    """The CPU's agent sends what it knows and the other one does not, as a delta: its place."""
    return Command(f"answer {cpu} {other}", answers.number)


def pick(cpu: int, aseq: int) -> Command[Placed]:
    """The CPU's agent commits the first thread of its run list that may be committed."""
    return Command(f"pick {cpu} {aseq}", answers.placed)


def steal(cpu: int) -> Command[Placed]:
    """The CPU's agent takes over a thread that it knows to be ready, for its own queue."""
    return Command(f"steal {cpu}", answers.placed)


def crash(cpu: int) -> Command[None]:
    """The CPU's agent starts again, and forgets what it knew."""
    return Command(f"crash {cpu}", answers.nothing)


def mend(cpu: int) -> Command[Placed]:
    """Every queue is cleared; the CPU's agent takes in all that was sent, and runs a thread, stolen if need be."""
    return Command(f"mend {cpu}", answers.placed)


def status(thread: int) -> Command[Status]:
    """What the kernel says of the thread."""
    return Command(f"status t{thread}", answers.status)


def asleep(cpu: int) -> Command[bool]:
    """Whether the CPU's agent sleeps."""
    return Command(f"asleep {cpu}", answers.yes)


def show(cpu: int) -> Command[View]:
    """What the CPU's agent knows."""
    return Command(f"show {cpu}", answers.view, True)


def same(cpu: int, other: int) -> Command[bool]:
    """Whether two agents know the same messages."""
    return Command(f"same {cpu} {other}", answers.equal)


def complete(cpu: int, thread: int) -> Command[bool]:
    """Whether the CPU's agent knows all messages of the thread so far."""
    return Command(f"complete {cpu} t{thread}", answers.yes)

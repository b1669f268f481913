"""What the model answers, as values."""
from enum import StrEnum
from typing import NamedTuple


class Phase(StrEnum):
    """What a thread is. A thread that runs is ready too."""

    READY = "ready"
    BLOCKED = "blocked"
    DEAD = "dead"


class Posted(NamedTuple):
    """A message was posted: the answer to all that the kernel reports."""

    thread: int | None
    """The thread that the message is of; none of a tick."""
    number: int | None
    """The number of the message among those of its thread, counted from 1; none of a tick."""
    queue: int
    """The queue in which the message stands."""
    aseq: int
    """How many posts that queue had, with this one."""
    wakes: int | None
    """The CPU of the agent that the post woke."""


class Placed(NamedTuple):
    """A thread and a CPU: it runs there, or its messages go to the queue of that CPU from now on."""

    thread: int
    cpu: int


class Published(NamedTuple):
    """A delta was sent."""

    delta: int
    """Its place among all deltas that were sent, counted from 0."""
    items: int
    """How many items the queue holds, ticks among them."""


class Status(NamedTuple):
    """What the kernel says of a thread."""

    thread: int
    number: int
    """The number of its last message."""
    phase: Phase
    cpu: int | None
    """The CPU on which it runs."""


class Known(NamedTuple):
    """What an agent knows of a thread. Where `upto` is 0 the state is not known."""

    upto: int
    """The messages 1 to this one are all known, and the next is not."""
    phase: Phase | None
    mask: int | None
    """The CPUs on which the thread may run: bit c stands for CPU c."""
    ran: int | None
    """For how many ticks it ran in all."""
    level: int | None
    """How urgent it is: 7 is the most urgent level."""
    early: tuple[int, ...]
    """The numbers of the other known messages, which are above `upto` + 1."""


View = dict[int, Known]
"""What an agent knows of each thread of which it knows a message, by the thread's name."""


class Limits(NamedTuple):
    """What bounds a world."""

    cpus: int
    threads: int
    numbers: int
    room: int
    posts: int

"""What a queue holds: the messages that an agent reads, each of a class of its own, named as ghOSt names them.

    match message:
        case ThreadCreated(thread=thread, phase=Phase.READY) | ThreadWakeup(thread=thread):
            ready.append(thread)
"""
from dataclasses import dataclass

from .values import Phase, Posted


@dataclass(frozen=True, slots=True)
class Message:
    """What was posted to a queue."""

    aseq: int
    """How many posts the queue had, with this one."""


# A class without fields of its own has all of its parent's, with what makes and compares them.
class TimerTick(Message):
    """The timer of the queue's CPU went off. It belongs to no thread."""


@dataclass(frozen=True, slots=True)
class ThreadMessage(Message):
    """Something happened to a thread."""

    thread: int
    number: int
    """The place of the message among those of its thread, counted from 1."""


@dataclass(frozen=True, slots=True)
class ThreadCreated(ThreadMessage):
    """A new thread, which is ready or blocked."""

    mask: int
    """The CPUs on which it may run: bit c stands for CPU c."""
    phase: Phase


class ThreadWakeup(ThreadMessage):
    """The blocked thread is ready."""


@dataclass(frozen=True, slots=True)
class ThreadLeft(ThreadMessage):
    """The thread left its CPU."""

    ran: int
    """For how many ticks it ran."""


class ThreadBlocked(ThreadLeft):
    """It is blocked."""


class ThreadYield(ThreadLeft):
    """It left of its own, and is ready."""


class ThreadPreempted(ThreadLeft):
    """It was taken off, and is ready."""


class ThreadDead(ThreadLeft):
    """It is dead."""


@dataclass(frozen=True, slots=True)
class ThreadAffinity(ThreadMessage):
    """The thread may run on other CPUs than before."""

    mask: int


@dataclass(frozen=True, slots=True)
class ThreadPriority(ThreadMessage):
    """The thread has another level."""

    level: int


_LEAVINGS = {"block": ThreadBlocked, "yield": ThreadYield, "preempt": ThreadPreempted, "die": ThreadDead}

POSTING = {"create", "wake", "affinity", "priority", "tick", *_LEAVINGS}
"""The commands that post a message where they are accepted."""


def message_of(words: list[str], posted: Posted) -> Message:
    """The message that a command has posted, by its words."""
    if posted.thread is None or posted.number is None:
        return TimerTick(posted.aseq)
    about = posted.aseq, posted.thread, posted.number
    match words[0]:
        case "create":
            return ThreadCreated(*about, int(words[2]), Phase(words[3]))
        case "wake":
            return ThreadWakeup(*about)
        case "affinity":
            return ThreadAffinity(*about, int(words[2]))
        case "priority":
            return ThreadPriority(*about, int(words[2]))
        case leaving:
            return _LEAVINGS[leaving](*about, int(words[2]))

"""What a command may meet: a refusal, each of a class of its own; a fault; the end of the program."""
from collections.abc import Callable
from typing import cast

from .advice import Past


class NimhessianError(Exception):
    """What all errors of this package have in common."""


class Refused(NimhessianError):
    """The model refused a command, and changed nothing that FORMATS.md does not name."""

    def __init__(self, command: str = "") -> None:
        super().__init__(command)
        self.command = command
        """The command, as it was sent."""
        self.past: Past | None = None
        """What was said before it."""

    @property
    def advice(self) -> list[str]:
        """Commands that are accepted behind the refused one. The last of them is that itself, by the numbers of then.

        Where no agent can do it, calls of the environment are among them; none are told where nothing helps. They are
        what `pc-sim explain` says: a program is started, and is told all that the world was told before the refusal.
        """
        return self.past.advice(self.command) if self.past else []

    def __str__(self) -> str:
        arguments = [f"{name}={value!r}" for name, value in vars(self).items() if name not in ("command", "past")]
        told = type(self).__name__ + (f"({', '.join(arguments)})" if arguments else "")
        return f"{told}: {self.command}" if self.command else told


def _refusal(name: str, about: str) -> type[Refused]:
    """The class of a refusal that tells nothing more than its name."""
    return cast(type[Refused], type(name, (Refused,), {"__doc__": about, "__module__": __name__}))


BadCpu = _refusal("BadCpu", "A CPU or a queue is not there.")
UnknownThread = _refusal("UnknownThread", "No thread has this name.")
Dead = _refusal("Dead", "The thread is dead.")
NotBlocked = _refusal("NotBlocked", "The thread is not blocked.")
NotReady = _refusal("NotReady", "The thread is blocked or dead.")
EmptyMask = _refusal("EmptyMask", "The mask has no CPU.")
MaskTooWide = _refusal("MaskTooWide", "The mask has a CPU that is not there.")
OnForbiddenCpu = _refusal("OnForbiddenCpu", "The thread runs on a CPU that the new mask leaves out.")
BadLevel = _refusal("BadLevel", "The level is above 7.")
IdleCpu = _refusal("IdleCpu", "No thread runs on the CPU.")
NamesSpent = _refusal("NamesSpent", "There are as many threads as there may be.")
NumbersSpent = _refusal("NumbersSpent", "The thread has as many messages as it may have.")
QueueFull = _refusal("QueueFull", "The queue holds as many items as it may hold.")
PostsSpent = _refusal("PostsSpent", "The queue had as many posts as it may have.")
Pending = _refusal("Pending", "A message of the thread stands in its queue.")
Forbidden = _refusal("Forbidden", "The thread's mask leaves the CPU out.")
Busy = _refusal("Busy", "A thread runs on the CPU; for `commit` another one.")
NothingReady = _refusal("NothingReady", "No thread of the agent's run list may be committed.")
NothingToSteal = _refusal("NothingToSteal", "There is no thread that the agent may choose.")
WireFault = _refusal("WireFault", "The delta cannot be sent.")
NoDelta = _refusal("NoDelta", "So many deltas were not sent.")
TooMany = _refusal("TooMany", "The queue has fewer items than are to be removed.")
TooLate = _refusal("TooLate", "An event was taken before.")
NoEnclave = _refusal("NoEnclave", "No enclave was accepted yet.")
HaveEnclave = _refusal("HaveEnclave", "An enclave was accepted before.")


class Stale(Refused):
    """The given number is not `now`: the posts of the CPU's queue, or the number of the thread's last message."""

    def __init__(self, command: str = "", now: int = 0) -> None:
        super().__init__(command)
        self.now = now


class Running(Refused):
    """The thread runs on `cpu`."""

    def __init__(self, command: str = "", cpu: int = 0) -> None:
        super().__init__(command)
        self.cpu = cpu


class NotYours(Refused):
    """The thread's messages go to `queue`, not to that of the CPU."""

    def __init__(self, command: str = "", queue: int = 0) -> None:
        super().__init__(command)
        self.queue = queue


class BadLimits(Refused):
    """`limit` is the first that is out of its range: `cpus`, `threads`, `numbers`, `room` or `posts`."""

    def __init__(self, command: str = "", limit: str = "") -> None:
        super().__init__(command)
        self.limit = limit


class Fault(NimhessianError, ValueError):
    """The program takes a line for no command: a number is past its word's range, or a name is none. Nothing changed."""

    def __init__(self, command: str, line: int) -> None:
        super().__init__(f"no command: {command!r} (line {line})")
        self.command = command
        self.line = line


class Died(NimhessianError):
    """The program ended while an answer was awaited, or could not be started."""

    def __init__(self, status: int | None, told: str) -> None:
        ended = "could not be started" if status is None else f"ended with status {status}"
        super().__init__(f"pc-sim {ended}: {told.strip()}" if told.strip() else f"pc-sim {ended}")
        self.status = status
        """Its status; negative where a signal ended it, and None where it did not start."""
        self.told = told
        """What it wrote on standard error."""


class Lost(NimhessianError):
    """Nothing more can be asked: the world is closed, or an answer was not waited for to its end, by an interrupt say, so
    that no later one could be told from it."""


class Misread(NimhessianError):
    """An answer that this package does not know: the program is of another version."""


REFUSALS: dict[str, type[Refused]] = {refusal.__name__: refusal for refusal in Refused.__subclasses__()}


def refusal_of(command: str, words: list[str], past: Past | None) -> Refused:
    """The refusal that the words behind `refused` tell."""
    make = cast(Callable[..., Refused] | None, REFUSALS.get(words[0]))
    try:
        if make is not None:
            refused = make(command, *(int(word) if word.isdigit() else word for word in words[1:]))
            refused.past = past
            return refused
    except TypeError:
        pass  # an argument where none belongs
    raise Misread(f"refused {' '.join(words)}: {command}")

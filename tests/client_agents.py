"""Agents for tests of nimhessian.testing: one that is right, and others, each with a bug as people write them."""
from collections.abc import Iterator
from dataclasses import dataclass, replace

from nimhessian import (
    Busy, Dead, Message, NoDelta, NotReady, NotYours, Pending, Phase, Running, Stale, ThreadAffinity, ThreadBlocked,
    ThreadCreated, ThreadDead, ThreadLeft, ThreadMessage, ThreadPreempted, ThreadWakeup, ThreadYield, World,
)

# What runs on the CPU of an agent that has started again is none that it knows.
UNKNOWN = -1


@dataclass(frozen=True)
class Known:
    """What an agent knows of a thread."""

    number: int
    phase: Phase
    mask: int


class Right:
    """It reads its queue, takes in what others sent, and runs a thread: one of its own, or one that it takes over."""

    def __init__(self, world: World, cpu: int) -> None:
        self.world, self.cpu = world, cpu
        self.known: dict[int, Known] = {}
        self.mine = set[int]()
        self.sent = set[int]()
        self.running: int | None = None
        self.aseq = self.taken = 0
        self.may_sleep = True

    def turn(self) -> None:
        self.may_sleep = True
        messages = self.look()
        self.take_in()
        self.tell(messages)
        self.run_one()
        if self.may_sleep:
            self.sleep()

    def look(self) -> list[Message]:
        """Reads what the queue holds. It is sent first, so that no message is removed that was not read."""
        self.aseq = self.world.aseq(self.cpu)
        if not self.world.messages(self.cpu):
            return []
        sent = self.world.publish(self.cpu)
        self.sent.add(sent.delta)
        messages = self.world.messages(self.cpu)[:sent.items]
        for message in messages:
            self.note(message)
        self.aseq = messages[-1].aseq
        self.world.consume(self.cpu)
        return messages

    def note(self, message: Message) -> None:
        """Keeps what the message says; of a thread that it does not know, the view will tell."""
        if not isinstance(message, ThreadMessage):
            return
        thread = message.thread
        if isinstance(message, ThreadLeft):
            self.running = None
        if isinstance(message, ThreadCreated):
            self.known[thread] = Known(0, message.phase, message.mask)
        if thread in self.known:
            self.mine.add(thread)
            self.known[thread] = replace(self.behind(message, self.known[thread]), number=message.number)

    def behind(self, message: Message, known: Known) -> Known:
        """The thread's state behind a message."""
        match message:
            case ThreadWakeup() | ThreadYield() | ThreadPreempted():
                return replace(known, phase=Phase.READY)
            case ThreadBlocked():
                return replace(known, phase=Phase.BLOCKED)
            case ThreadDead():
                return replace(known, phase=Phase.DEAD)
            case ThreadAffinity(mask=mask):
                return replace(known, mask=mask)
        return known

    def tell(self, messages: list[Message]) -> None:
        """Rouses the agents that may run a thread of the news."""
        news = [self.known[it.thread] for it in messages if isinstance(it, ThreadMessage) and it.thread in self.known]
        for other in range(self.world.limits.cpus):
            if other != self.cpu and any(it.phase is Phase.READY and it.mask >> other & 1 for it in news):
                self.world.rouse(other)

    def take_in(self) -> bool:
        """Takes in what others sent, and what it sent itself before a crash; whether there was any."""
        has_news = False
        while True:
            if self.taken not in self.sent:
                try:
                    self.world.deliver(self.cpu, self.taken)
                except NoDelta:
                    break
                has_news = True
            self.taken += 1
        for thread, told in self.world.show(self.cpu).items() if has_news else ():
            is_newer = thread not in self.known or told.upto > self.known[thread].number
            if is_newer and told.phase is not None and told.mask is not None:
                self.known[thread] = Known(told.upto, told.phase, told.mask)
                self.mine.discard(thread)
        return has_news

    def candidates(self) -> Iterator[int]:
        """The threads that may run here, its own in front."""
        threads = [it for it, known in self.known.items() if known.phase is Phase.READY and self.is_allowed(known)]
        yield from sorted(threads, key=lambda it: it not in self.mine)

    def is_allowed(self, known: Known) -> bool:
        return bool(known.mask >> self.cpu & 1)

    def run_one(self) -> None:
        if self.running is None:
            for thread in self.candidates():
                if (thread in self.mine or self.steal(thread)) and self.commit(thread):
                    return

    def steal(self, thread: int) -> bool:
        try:
            self.world.associate(thread, self.cpu, self.known[thread].number)
        except (Stale, Pending):
            self.may_sleep = False  # its queue's agent has something to tell
            return False
        except (Running, Dead):
            return False
        self.mine.add(thread)
        return True

    def commit(self, thread: int) -> bool:
        """Whether nothing more is to be tried in this turn."""
        try:
            self.world.commit(self.cpu, thread, self.aseq)
            self.running = thread
        except Stale:
            self.may_sleep = False
        except (NotYours, NotReady):
            self.mine.discard(thread)  # another agent took it
            self.may_sleep = False
            return False
        except (Busy, Running):
            self.running = UNKNOWN
        return True

    def sleep(self) -> None:
        try:
            self.world.sleep(self.cpu, self.aseq)
        except Stale:
            return  # another turn follows
        self.look_again()

    def look_again(self) -> None:
        """Whoever sent something just now roused it before it slept."""
        if self.take_in():
            self.world.rouse(self.cpu)


class LooksOtherwise(Right):
    """Its look at the queue is another one."""

    def look(self) -> list[Message]:
        self.aseq = self.world.aseq(self.cpu)
        messages = self.world.messages(self.cpu)
        if messages:
            self.clear()
        for message in messages:
            self.note(message)
        return messages

    def clear(self) -> None:
        self.sent.add(self.world.publish(self.cpu).delta)
        self.world.consume(self.cpu)


class ForgetsToConsume(LooksOtherwise):
    def clear(self) -> None:
        self.sent.add(self.world.publish(self.cpu).delta)


class ConsumesBeforeItSends(LooksOtherwise):
    def clear(self) -> None:
        self.world.consume(self.cpu)
        self.sent.add(self.world.publish(self.cpu).delta)


class ReadsBeforeItSends(LooksOtherwise):
    """What comes between is removed, and was not read."""


class SleepsByTheCountOfThen(Right):
    def sleep(self) -> None:
        self.world.sleep(self.cpu, self.world.aseq(self.cpu))


class CountsNoTicks(Right):
    """Its count of posts is that of the last message of a thread."""

    def look(self) -> list[Message]:
        last, messages = self.aseq, super().look()
        self.aseq = max((it.aseq for it in messages if isinstance(it, ThreadMessage)), default=last)
        return messages


class TakesStaleForNever(Right):
    """Where its commit comes late it does not catch that."""

    def commit(self, thread: int) -> bool:
        self.world.commit(self.cpu, thread, self.aseq)
        self.running = thread
        return True


class IgnoresAffinity(Right):
    def is_allowed(self, known: Known) -> bool:
        return True


class StealsTwice(Right):
    """Behind a thread that it runs it takes the next one, too."""

    def commit(self, thread: int) -> bool:
        super().commit(thread)
        return False


class ForgetsWokenThreads(Right):
    def behind(self, message: Message, known: Known) -> Known:
        return known if isinstance(message, ThreadWakeup) else super().behind(message, known)


class ForgetsYields(Right):
    def note(self, message: Message) -> None:
        if not isinstance(message, ThreadYield):
            super().note(message)


class NeverSteals(Right):
    def steal(self, thread: int) -> bool:
        return False


class IgnoresDeath(Right):
    """What left its CPU and is not blocked is ready."""

    def behind(self, message: Message, known: Known) -> Known:
        return replace(known, phase=Phase.READY) if isinstance(message, ThreadDead) else super().behind(message, known)


class RousesNobody(Right):
    def tell(self, messages: list[Message]) -> None:
        pass


class MissesWhatCameBeforeItSlept(Right):
    """Another agent sends something and rouses it, between its look and its sleep."""

    def look_again(self) -> None:
        pass


class TellsBeforeItKnows(Right):
    """Behind a crash it rouses nobody for a thread that it learns of only then."""

    def look(self) -> list[Message]:
        messages = super().look()
        self.tell(messages)
        return []


WRONG = [
    ForgetsToConsume, ConsumesBeforeItSends, SleepsByTheCountOfThen, CountsNoTicks, TakesStaleForNever, IgnoresAffinity,
    StealsTwice, ForgetsWokenThreads, ForgetsYields, NeverSteals, IgnoresDeath, RousesNobody, ReadsBeforeItSends,
    MissesWhatCameBeforeItSlept,
]

#!/usr/bin/env python3
"""How a test holds an agent against the model: it reads messages, and nimhessian.testing draws what happens around it.

    test_my_agent.py [-v]

`Chooser` stands for the code that is tested: from messages it keeps which threads are ready, and names one to run.
`MyAgent` hands it the messages of a queue, and asks the model for what it chose. It knows of one CPU, and of no crash.
"""
import unittest

from nimhessian import (
    Message, Phase, Stale, ThreadCreated, ThreadLeft, ThreadPreempted, ThreadWakeup, ThreadYield, World,
)
from nimhessian.testing import Environment, Event, Play, Rest, Turn, Weights, run

ALONE = Environment(cpus=(1,), weights=Weights(crash=0))


class Chooser:
    """The thread that has been ready for the longest runs first."""

    def __init__(self) -> None:
        self.ready: list[int] = []

    def take(self, message: Message) -> None:
        match message:
            case (ThreadCreated(thread=thread, phase=Phase.READY) | ThreadWakeup(thread=thread)
                  | ThreadYield(thread=thread) | ThreadPreempted(thread=thread)):
                self.ready.append(thread)

    def choose(self) -> int | None:
        return self.ready[0] if self.ready else None

    def runs(self, thread: int) -> None:
        self.ready.remove(thread)


class MyAgent:
    """The agent of a CPU."""

    def __init__(self, world: World, cpu: int) -> None:
        self.world, self.cpu = world, cpu
        self.chooser = Chooser()
        self.is_busy = False

    def turn(self) -> None:
        aseq = self.look()
        chosen = None if self.is_busy else self.chooser.choose()
        try:
            if chosen is not None:
                self.world.commit(self.cpu, chosen, aseq)
                self.chooser.runs(chosen)
                self.is_busy = True
            self.world.sleep(self.cpu, aseq)
        except Stale:
            pass  # Something was posted since the look. The agent is awake, so another turn follows.

    def look(self) -> int:
        """Takes what the queue holds; the count of posts up to there."""
        aseq = self.world.aseq(self.cpu)
        if self.world.messages(self.cpu):
            sent = self.world.publish(self.cpu)
            # No more than was sent: what has come since is not removed.
            for message in self.world.messages(self.cpu)[:sent.items]:
                self.chooser.take(message)
                self.is_busy &= not isinstance(message, ThreadLeft)
                aseq = message.aseq
            self.world.consume(self.cpu)
        return aseq


class Tests(unittest.TestCase):
    def test_it_breaks_no_rule(self) -> None:
        counts = run(MyAgent, range(30), ALONE)
        self.assertEqual(counts.never()["events"], ["crash"])

    def test_it_runs_what_waited_longest(self) -> None:
        with World(cpus=1) as world:
            agent = MyAgent(world, 0)
            for _ in range(3):
                world.create(queue=0, mask=1)
            agent.turn()
            world.preempt(0, 5)
            agent.turn()
            self.assertEqual([world.status(thread).cpu for thread in range(3)], [None, 0, None])

    def test_a_late_commit_is_tried_again(self) -> None:
        with Play(MyAgent, 1) as play:
            play.take(Event("create", (0, 1, 0)))
            play.take(Turn(0, (("commit 0", Event("tick", (0,))),)))
            self.assertEqual(play.counts.refusals["commit Stale"], 1)
            play.take(Rest())
            self.assertEqual(play.world.status(0).cpu, 0)


if __name__ == "__main__":
    unittest.main()

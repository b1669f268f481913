#!/usr/bin/env python3
"""A scheduler against the model: the agent of each CPU runs the thread first that ran for the fewest ticks so far.

    shortest_first.py [SEED]

Threads run for a while, and leave their CPU, as the seed has it. Where a message comes between an agent's look and its
commit, the model refuses the commit as stale, and the agent looks again.

Two lines tell how it went. The ticks of threads on one CPU are nearly the same: that is what the policy is for. Those
of two CPUs are not, where more threads share the one than the other: no agent here takes a thread from the other. How
many commits came late says how often an agent had to look again, which costs the threads nothing here.
"""
import random
import sys

from nimhessian import Forbidden, NotReady, NotYours, Phase, Refused, Running, Stale, World

CPUS = 2
THREADS = 6
RUNS = 200


class Agent:
    """The agent of one CPU. It knows what its queue told it, and how many posts the queue had when it looked."""

    def __init__(self, world: World, cpu: int) -> None:
        self.world = world
        self.cpu = cpu
        self.seen = 0
        self.stale = 0

    def look(self) -> list[int]:
        """Takes in what the queue holds; gives the threads that may run here, the fewest ticks first."""
        self.world.publish(self.cpu)
        self.seen += self.world.consume(self.cpu)
        known = self.world.show(self.cpu).items()
        ready = [(state.ran or 0, thread) for thread, state in known if state.phase is Phase.READY]
        return [thread for _, thread in sorted(ready)]

    def commit(self, threads: list[int]) -> int | None:
        """Runs the first of these threads that the kernel lets run here, and tells which it is."""
        for thread in threads:
            try:
                self.world.commit(self.cpu, thread, self.seen)
                return thread
            except Stale:
                self.stale += 1
                return self.commit(self.look())
            except (NotReady, NotYours, Running, Forbidden):
                continue
        return None


def main() -> None:
    rng = random.Random(int(sys.argv[1]) if len(sys.argv) > 1 else 0)
    with World(CPUS) as world:
        agents = [Agent(world, cpu) for cpu in range(CPUS)]
        homes = [world.create(queue=rng.randrange(CPUS), mask=(1 << CPUS) - 1).queue for _ in range(THREADS)]
        ran = [0] * THREADS
        for _ in range(RUNS):
            agent = rng.choice(agents)
            threads = agent.look()
            if rng.random() < 0.2:
                world.tick(agent.cpu)  # a post that the agent has not seen
            if (thread := agent.commit(threads)) is not None:
                ticks = rng.randint(1, 9)
                ran[thread] += ticks
                if rng.random() < 0.3:
                    world.block(agent.cpu, ticks)
                    world.wake(thread)
                else:
                    world.preempt(agent.cpu, ticks)
        print("ticks that each thread ran, with its CPU:", *(f"{ticks}@{cpu}" for ticks, cpu in zip(ran, homes)))
        print("commits of each CPU's agent that came late, and were tried again:", *(agent.stale for agent in agents))


if __name__ == "__main__":
    try:
        main()
    except Refused as refused:
        sys.exit(f"the model refused {refused}")

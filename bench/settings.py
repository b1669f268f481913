#!/usr/bin/env python3
"""Writes settings of a run of agents on standard output, the same each time (the seed is fixed).

    settings.py NAME [SIZE]

    pinned-8    8 CPUs, 1,000 threads of 100 steps, each bound to one CPU: 138,000 messages
    pinned-64   64 CPUs, 4,032 threads of 20 steps, each bound to one CPU: 124,992 messages
    free-8      8 CPUs, 200 threads of 30 steps, which may all run anywhere: 8,400 messages
    free-64     64 CPUs, 600 threads of 30 steps, which may all run anywhere: 25,200 messages

SIZE is tenth, third or whole (the last one without it): that part of the threads. Settings cannot bind a thread to CPU 63, so it has none.
With free threads on 64 CPUs a program whose agents leave what they ask and answer in plain queues has no memory that is enough.
"""
import random
import sys
from dataclasses import dataclass

SIZES = {"tenth": 10, "third": 3, "whole": 1}
MOST_BYTES = 1_048_576  # of a settings text
LAST = 62  # the last CPU that a thread can be bound to


@dataclass(frozen=True)
class Shape:
    cpus: int
    threads: int
    steps: int
    blocks: int  # how many of a thread's steps, of which one is a `die` and some preempt it, wait to be woken
    preempts: int
    is_free: bool = False  # whether the threads may run anywhere

    def mask(self, home):
        return (1 << min(self.cpus, LAST + 1)) - 1 if self.is_free else 1 << home


NAMES = {
    "pinned-8": Shape(8, 1000, 100, 37, 2),
    "pinned-64": Shape(64, 4032, 20, 10, 1),
    "free-8": Shape(8, 200, 30, 11, 1, is_free=True),
    "free-64": Shape(64, 600, 30, 11, 1, is_free=True),
}


def settings(name, size="whole"):
    """A settings text, and the report that it asks for."""
    shape, chance = NAMES[name], random.Random(20261123)
    threads, ran, text = shape.threads // SIZES[size], 0, [f"cpus = {shape.cpus}\n"]
    for thread in range(threads):
        home = thread % min(shape.cpus, LAST + 1)
        # What the thread does each time that it runs, and for how long.
        words = ["block"] * shape.blocks + ["preempt"] * shape.preempts
        words += ["yield"] * (shape.steps - 1 - len(words))
        chance.shuffle(words)
        steps = [(word, chance.randrange(10)) for word in [*words, "die"]]
        ran += sum(ticks for _, ticks in steps)
        told = ",".join(f'"{word} {ticks}"' for word, ticks in steps)
        text.append(f"[[thread]]\nqueue = {home}\nmask = {shape.mask(home)}\nsteps = [{told}]\n")
    commits = threads * shape.steps
    messages = threads + commits + threads * shape.blocks
    text = "".join(text)
    if len(text) > MOST_BYTES:
        raise ValueError(f"settings of {len(text)} bytes")
    return text, f"threads {threads}\nmessages {messages}\ncommits {commits}\nran {ran}\n"


def main():
    if not 2 <= len(sys.argv) <= 3 or sys.argv[1] not in NAMES or sys.argv[2:] and sys.argv[2] not in SIZES:
        sys.exit(__doc__)
    sys.stdout.write(settings(*sys.argv[1:])[0])


if __name__ == "__main__":
    main()

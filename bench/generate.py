#!/usr/bin/env python3
"""Writes a script of so many lines on standard output, the same each time (the seed is fixed).

    generate.py NAME LINES
"""
import pathlib
import random
import sys
from functools import partial

sys.path.insert(0, str(pathlib.Path(__file__).resolve().parent.parent / "tools"))
from kernel import World  # noqa: E402

CPUS, THREADS = 64, 4096
EVERYWHERE = 2**CPUS - 1
ENCLAVE = f"enclave {CPUS} {THREADS} 1000000 65536 4294967295"
# Threads of all CPUs in turn.
SPREAD = [f"create {thread % CPUS} {EVERYWHERE} ready" for thread in range(THREADS)]


def look(*cpus):
    """Agents send what their queues hold, and remove it."""
    return [line for cpu in cpus for line in (f"publish {cpu}", f"consume {cpu}")]


def first_run(lines):
    """The commands of a first run on 64 CPUs and up to 4,096 threads."""
    chance = random.Random(20261122)
    yield ENCLAVE
    created, blocked = 0, []
    for line in range(1, lines):
        pick = chance.random()
        if created < THREADS and (pick < 0.3 or created == 0):
            queue, ready = chance.randrange(CPUS), chance.random() < 0.5
            yield f"create {queue} {chance.getrandbits(CPUS) or 1} {'ready' if ready else 'blocked'}"
            if not ready:
                blocked.append(created)
            created += 1
        elif blocked and pick < 0.6:
            yield f"wake t{blocked.pop(chance.randrange(len(blocked)))}"
        elif line % 100 == 0:
            yield f"publish {chance.randrange(CPUS)}"
        elif line % 1000 == 1:
            yield f"show {chance.randrange(CPUS)}"
        else:
            yield f"status t{chance.randrange(created)}"


def said(world, line):
    """The line, once the model was told it: so most lines that come behind it are accepted."""
    world.say(line)
    return line


def thread_call(chance, world, name):
    """The next call in a thread's life."""
    thread = world.threads[name]
    if thread.now.phase == "dead":
        return f"status t{name}"
    if thread.now.phase == "blocked":
        return f"wake t{name}"
    if thread.cpu is not None:
        leave = "die" if chance.random() < 0.001 else chance.choice(["yield", "block", "preempt"])
        return f"{leave} {thread.cpu} {chance.randrange(100)}"
    if world.running[thread.home] is None:
        return f"commit {thread.home} t{name} {world.queues[thread.home].posts}"
    pick = chance.random()
    if pick < 0.3:
        return f"associate t{name} {chance.randrange(CPUS)} {thread.number}"
    if pick < 0.6:
        return f"priority t{name} {chance.randrange(8)}" if pick < 0.45 else f"affinity t{name} {EVERYWHERE}"
    return f"status t{name}"


def cpu_call(chance, world, cpu):
    """A call on a CPU, its queue or its agent."""
    if (pick := chance.randrange(5)) == 0:
        return f"tick {cpu}"
    target = chance.choice([*range(CPUS), "-"])
    return [f"sleep {cpu} {world.queues[cpu].posts}", f"rouse {cpu}", f"config {cpu} {target}", f"asleep {cpu}"][pick - 1]


def kernel_calls(lines, learns=True):
    """All calls of the kernel on 64 CPUs and 4,096 threads. Each queue is published and consumed in its turn; or, where no view is to
    grow, is not: then queues only grow and each move of a thread is refused."""
    chance = random.Random(20261122)
    world = World(CPUS)
    yield ENCLAVE
    for line in range(1, lines):
        if line <= THREADS:
            call = f"create {chance.randrange(CPUS)} {EVERYWHERE} ready"
        elif line % 32 in (1, 2):
            call = f"{'publish' if line % 32 == 1 else 'consume'} {line // 32 % CPUS}" if learns else "status t7"
        elif chance.random() < 0.8:
            running = world.running[chance.randrange(CPUS)]
            call = thread_call(chance, world, chance.randrange(THREADS) if running is None or chance.random() < 0.5 else running)
        else:
            call = cpu_call(chance, world, chance.randrange(CPUS))
        yield said(world, call)


def deliveries(lines, arrange, batch=1):
    """One thread's messages in deltas of so many, delivered to another agent in an order of their own."""
    yield "enclave 2 8 1000000 65536 4294967295"
    count = lines // (batch + 3)
    for number in range(count):
        messages = ["affinity t0 3"] * batch
        yield from (*(messages if number else ["create 0 3 ready", *messages[1:]]), *look(0))
    numbers = list(range(count))
    arrange(numbers)
    yield from (f"deliver 1 {number}" for number in numbers)


def answers(lines, known):
    """Answers of an agent that knows 4,096 threads to one that knows so many of them."""
    half = ["create 0 3 ready"] * (THREADS // 2)
    yield from (f"enclave 2 {THREADS} 1000000 65536 4294967295", *half, "publish 0", *half, "publish 0")
    yield from [f"deliver 1 {known - 1}"] * bool(known)
    yield from ["answer 0 1"] * (lines - THREADS - 4)


def rounds(lines):
    """Each agent in turn picks, its thread yields, and it publishes and consumes that; its run list stays as long."""
    yield from (ENCLAVE, *SPREAD, *look(*range(CPUS)))
    posts = [THREADS // CPUS] * CPUS
    for turn in range((lines - 1 - THREADS - 2 * CPUS) // 4):
        cpu = turn % CPUS
        yield from (f"pick {cpu} {posts[cpu]}", f"yield {cpu} 1", *look(cpu))
        posts[cpu] += 1


def steals(lines):
    """Agent 1 steals the threads of agent 0, whose run list it finds ever longer in its own; then there is none left."""
    threads = min(THREADS, lines // 2)
    yield from (ENCLAVE, *[f"create 0 {EVERYWHERE} ready"] * threads, *look(0))
    yield from ("deliver 1 0", *["steal 1"] * (lines - 4 - threads))


def restarts(lines):
    """In turn an agent crashes, another answers what it lacks, it takes that in, steals two threads and publishes."""
    yield from (ENCLAVE, *SPREAD, *look(*range(CPUS)))
    yield from (f"deliver {cpu} {delta}" for cpu in range(CPUS) for delta in range(CPUS))
    for turn in range((lines - 1 - THREADS - 2 * CPUS - CPUS * CPUS) // 6):
        cpu = turn % CPUS
        yield from (f"crash {cpu}", f"answer {(cpu + 1) % CPUS} {cpu}", f"deliver {cpu} {CPUS + 2 * turn}")
        yield from (f"steal {cpu}", f"steal {cpu}", f"publish {cpu}")


def turn_of(chance, world, cpu, blocked):
    """What the threads of a CPU do before its agent looks."""
    if (running := world.running[cpu]) is not None:
        how = chance.choice(["yield", "yield", "block", "preempt"])
        blocked += [running] * (how == "block")
        yield f"{how} {cpu} {chance.randrange(1000)}"
    while blocked and (len(blocked) > 24 or chance.random() < 0.4):
        yield f"wake t{blocked.pop(chance.randrange(len(blocked)))}"


def day_of(chance, world, cpu, blocked):
    """A turn of an agent, which the others of its group of four hear of; now and then it crashes, is told all by another, and takes threads back."""
    group = [other for other in range(cpu // 4 * 4, cpu // 4 * 4 + 4) if other != cpu]
    yield from turn_of(chance, world, cpu, blocked)
    if chance.random() < 0.0005:
        yield from (f"crash {cpu}", f"answer {group[0]} {cpu}", f"deliver {cpu} {len(world.deltas)}", *[f"steal {cpu}"] * 8)
    sent = len(world.deltas)
    yield from (*look(cpu), *(f"deliver {other} {sent}" for other in group))
    if not world.agents[cpu].names or chance.random() < 0.02:
        yield from [f"steal {cpu}"] * 4
    yield f"pick {cpu} {world.queues[cpu].posts}"


def day(lines):
    """Agents of 64 CPUs in groups of four, over 4,096 threads that they run, wake, steal and tell each other of."""
    chance, world, written = random.Random(20261123), World(CPUS), 1 + THREADS
    blocked = [[] for _ in range(CPUS // 4)]
    yield ENCLAVE
    yield from (said(world, line) for line in SPREAD)
    while written < lines:
        cpu = chance.randrange(CPUS)
        turn = [said(world, line) for line in day_of(chance, world, cpu, blocked[cpu // 4])]
        yield from turn[:lines - written]
        written += len(turn)


def filled(first, last):
    """The first lines, and as often as lines are left the last one."""
    return lambda lines: [*first, *[last] * (lines - len(first))]


def levels(lines):
    """One name of a long run list comes to its front, and stays there while its thread's level changes."""
    changes = 2_000
    threads = max(1, lines - 4 - 3 * changes)
    yield from ("version 2", f"enclave 1 {min(threads, 65_535)} 1000000 65536 4294967295")
    yield from (*["create 0 1 ready"] * threads, *look(0))
    for change in range(changes):
        yield from (f"priority t{threads // 2} {1 + change % 7}", *look(0))


# One queue as full as may be, of four threads; a view that is answered in 20,000 lines; and a queue that is full behind
# the first line, so that a line costs little more than to read it and to answer.
CHANGES = [f"affinity t{number % 4} 3" for number in range(4, 65536)]
BIG_DELTA = filled(["enclave 2 8 1000000 65536 4294967295", *["create 0 3 ready"] * 4, *CHANGES], "publish 0")
WIDE = ["version 2", "enclave 1 20000 1000000 65536 4294967295", *["create 0 1 ready"] * 20_000, *look(0)]
SHOWS, SHORTEST = filled(WIDE, "show 0"), filled(["enclave 1 1 1 1 1"], "tick 0")
# The scripts by their names, and what each is.
SCRIPTS = {
    "first-run": (first_run, "creates, wakes, reads of status words, and now and then a queue published and a view shown"),
    "kernel-calls": (kernel_calls, "all calls of the kernel: threads that are committed, leave their CPU and are woken, and queues consumed"),
    "kernel-only": (partial(kernel_calls, learns=False), "the same without publish and consume, so that no view grows"),
    "late": (partial(deliveries, arrange=list.reverse), "one thread's messages, a delta each, delivered to another agent in descending order: four lines for each"),
    "late-batches": (partial(deliveries, arrange=list.reverse, batch=8), "the same, eight messages to a delta: eleven lines for each delta"),
    "scattered": (partial(deliveries, arrange=random.Random(20261122).shuffle), "as late, in an order drawn at random"),
    "answer-empty": (partial(answers, known=0), "4,096 threads, and then answers to an agent that knows none of them"),
    "answer-half": (partial(answers, known=1), "the same to an agent that knows half of them"),
    "answer-equal": (partial(answers, known=2), "the same to an agent that knows all of them"),
    "big-delta": (BIG_DELTA, "a queue of 65,536 messages, published again and again"),
    "rounds": (rounds, "64 agents that pick, have the thread yield, publish and consume, over 4,096 threads"),
    "steals": (steals, "one agent steals all threads of another (half as many as lines, 4,096 at most), then finds none, again and again"),
    "day": (day, "64 agents in groups of four that exchange all they see: threads picked, blocked, woken, stolen, and now and then a crash"),
    "restarts": (restarts, "agents that crash, learn all of 4,096 threads from an answer, and take threads back"),
    "shortest": (SHORTEST, "the shortest command, `tick 0`, which is refused but the first time"),
    "shows": (SHOWS, "20,000 threads that an agent knows, shown again and again (30 times with 20,034 lines)"),
    "levels": (levels, "2,000 times another level of one thread, published and consumed, in a run list of as many names as "
               "LINES leaves (6,004 lines are for the rest: 7,004 for 1,000 names)"),
}


def main():
    if len(sys.argv) != 3 or sys.argv[1] not in SCRIPTS or not sys.argv[2].isdecimal():
        sys.exit(__doc__ + "".join(f"\n    {name:<12}  {told}" for name, (_, told) in SCRIPTS.items()))
    sys.stdout.writelines(line + "\n" for line in SCRIPTS[sys.argv[1]][0](int(sys.argv[2])))


if __name__ == "__main__":
    main()

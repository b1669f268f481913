"""Texts of settings and of loads: tables of TOML, and threads that are drawn."""
import json
import random
from collections.abc import Sequence

from drawn_ranks import drawn
from kernel import LEAVES, ORDERS

EXACTNESS = ("", " exact")
POLICIES = [order + rest for order in ORDERS for rest in EXACTNESS]
STAYS_ALIVE = [leave for leave in LEAVES if leave != "die"]


def table(kind: str, /, **keys: object) -> str:
    return f"[[{kind}]]\n" + "".join(f"{key} = {json.dumps(value)}\n" for key, value in keys.items())


def thread(queue: object, mask: object, *steps: object, **more: object) -> str:
    return table("thread", queue=queue, mask=mask, steps=steps, **more)


def restart(cpu: object, turn: object) -> str:
    return table("restart", cpu=cpu, turn=turn)


def variant(name: str, **keys: object) -> str:
    return table("variant", name=name, **keys)


def drawn_rank(chance: random.Random, leaves_out: bool = False) -> str:
    """An order by an expression. Only one with a `none` may leave threads out."""
    while True:
        text, _ = drawn(chance, (2, 4, 8, 12))
        if leaves_out or "none" not in text:
            return f"rank {text.strip()}"


def drawn_policy(chance: random.Random) -> str:
    """A policy that leaves nobody out, half of them by an expression."""
    order = drawn_rank(chance) if chance.random() < 0.5 else chance.choice(ORDERS)
    return order + chance.choice(EXACTNESS)


def drawn_steps(chance: random.Random, counts: Sequence[int], ticks: Sequence[int], last: Sequence[int] | None = None) -> list[str]:
    """So many steps of so many ticks, and a `die`."""
    steps = [f"{chance.choice(STAYS_ALIVE)} {chance.choice(ticks)}" for _ in range(chance.choice(counts))]
    return [*steps, f"die {chance.choice(last or ticks)}"]


def drawn_plans(chance: random.Random, cpus: int, count: int, steps: int) -> str:
    """Settings of so many threads, each of which does fewer than so many steps before it dies."""
    text = f"cpus = {cpus}\n"
    for _ in range(count):
        queue, mask = chance.randrange(cpus), chance.randint(1, (1 << cpus) - 1)
        text += thread(queue, mask, *drawn_steps(chance, range(steps), range(10)))
    return text


def drawn_settings(chance: random.Random) -> str:
    """Settings of a run. One agent at most restarts, since a run in threads of more may not end."""
    cpus = chance.randint(1, 6)
    text = drawn_plans(chance, cpus, chance.randint(0, 12), 7)
    return text + (restart(chance.randrange(cpus), chance.randint(1, 4)) if cpus > 1 and chance.random() < 0.3 else "")


def drawn_run(seed: int) -> tuple[str, str]:
    """Settings of a run by a seed, where any agents may restart, and a policy."""
    chance = random.Random(seed)
    cpus = chance.choice([1, 2, 2, 3])
    text = drawn_plans(chance, cpus, chance.randint(1, 4), 4)
    for _ in range(chance.choice([0, 0, 1, 1, 2, 4]) if cpus > 1 else 0):
        text += restart(chance.randrange(cpus), chance.randint(1, 4))
    return text, drawn_policy(chance)


def drawn_threads(chance: random.Random, cpus: int, count: int) -> str:
    """Threads of a load, most of which sleep behind each block."""
    text, start = "", 0
    for _ in range(count):
        queue = chance.randrange(cpus)
        start += chance.choice([0, 0, 1, 7])
        steps = drawn_steps(chance, range(6), range(13), range(31))
        sleeps = [chance.randint(0, 20) for step in steps if step.startswith("block") and chance.random() < 0.9]
        mask, level = chance.randrange(1 << cpus) | 1 << queue, chance.choice([0, 0, 3, 7])
        text += thread(queue, mask, *steps, start=start, level=level, sleeps=sleeps)
    return text


def drawn_load(chance: random.Random, most: int = 14) -> str:
    """A load of at most so many threads, with variants."""
    cpus = chance.choice([1, 2, 2, 3, 5, 8])
    text = f"cpus = {cpus}\n" + (f"until = {chance.randint(1, 200)}\n" if chance.random() < 0.2 else "")
    text += drawn_threads(chance, cpus, chance.randint(0, most))
    every: dict[str, list[object]] = {
        "order": [*ORDERS, drawn_rank(chance), drawn_rank(chance), drawn_rank(chance, True)], "steals": ["least", "exact"], "quantum": [0, 0, 1, 5, 10], "group": [1, 2, 3, 64, 64], "delay": [0, 0, 1, 5, 12],
        "cost": [0, 0, 1, 3], "urgent": [True, False], "keep": [True, False],
    }
    for place in range(chance.randint(1, 4)):
        text += variant(f"v{place}", **{key: chance.choice(values) for key, values in every.items()})
    return text

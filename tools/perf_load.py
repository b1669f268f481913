"""A recording as a load for `lab` and as settings for `run`, and the recorded waits, to compare with the lab's."""
from collections import Counter
from collections.abc import Iterable
from dataclasses import dataclass, field

from perf_text import plain

# So many bytes, steps of a thread and threads has a load at most, and settings (docs/FORMATS.md).
MOST_BYTES, MOST_STEPS, MOST_THREADS = 16_777_216, 100_000, 4_096
SETTINGS_BYTES, SETTINGS_STEPS, SETTINGS_THREADS = 1_048_576, 1_000, 4_096
MASK = (1 << 63) - 1  # TOML has no number for bit 63
PAST = "threads past the greatest count or length"


@dataclass(slots=True)
class Life:
    """What a thread did, and when: ticks are microseconds since the first event."""

    title: str
    pid: int
    queue: int
    start: int = -1
    steps: list[tuple[str, int]] = field(default_factory=list)  # how it left its CPU, and after how many ticks
    cpus: list[int] = field(default_factory=list)  # where that was
    sleeps: list[int] = field(default_factory=list)
    blocked_since: int = -1
    ready_since: int = -1
    is_woken: bool = False


def waits_told(head: str, waits: list[int], percents: tuple[int, ...]) -> dict[str, int | None]:
    """The p-th percentile of n waits is the one of rank ceil(p n / 100)."""
    waits = sorted(waits)
    rows = {f"{head} p{percent}": waits[-(-percent * len(waits) // 100) - 1] if waits else None for percent in percents}
    return rows | {f"{head} max": waits[-1] if waits else None, f"{head} sum": sum(waits)}


def table(title: str, queue: int, mask: int, steps: list[tuple[str, int]], start: str = "", sleeps: str = "") -> str:
    words = ", ".join(f'"{word} {ticks}"' for word, ticks in steps)
    return f"\n# {title}\n[[thread]]\nqueue = {queue}\nmask = {mask}\n{start}steps = [{words}]\n{sleeps}"


class Lives:
    """The lives of all threads."""

    def __init__(self, cpus: int) -> None:
        self.cpus = cpus
        self.lives: dict[int, Life] = {}
        self.waits: list[tuple[int, bool]] = []  # how long each was, and whether a waking began it
        self.left_out: Counter[str] = Counter()  # of the load
        self.left_out_of_settings: Counter[str] = Counter()

    def created(self, name: int, comm: str, pid: int, queue: int, is_ready: bool, tick: int) -> None:
        self.lives[name] = Life(f"t{name} is {plain(comm)}", pid, queue)
        if is_ready:
            self.woke(name, tick)

    def woke(self, name: int, tick: int) -> None:
        """A thread that was created blocked comes when it is first woken."""
        life = self.lives[name]
        if life.start < 0:
            life.start = tick
        else:
            life.sleeps.append(tick - life.blocked_since)
        life.ready_since, life.is_woken = tick, True

    def came(self, name: int, tick: int) -> None:
        life = self.lives[name]
        self.waits.append((tick - life.ready_since, life.is_woken))

    def left(self, name: int, word: str, cpu: int, ticks: int, tick: int) -> None:
        life = self.lives[name]
        life.steps.append((word, ticks))
        life.cpus.append(cpu)
        life.blocked_since = life.ready_since = tick
        life.is_woken = False

    def ran(self) -> list[Life]:
        return [life for life in self.lives.values() if life.steps]

    def text(self, tables: Iterable[str], most: int, most_bytes: int, left_out: Counter[str]) -> str:
        """As many of the tables as there may be; the others are counted."""
        text, count = f"cpus = {self.cpus}\n", 0
        left_out["threads that never ran"] += len(self.lives) - len(self.ran())
        for it in filter(None, tables):
            if count == most or len(text) + len(it) > most_bytes:
                left_out[PAST] += 1
            else:
                text, count = text + it, count + 1
        return text

    def load(self) -> str:
        """Threads in the order in which they came. Each may run on all CPUs; who did not end does in its last run."""
        tables = [self.of_load(life) for life in sorted(self.ran(), key=lambda it: it.start)]
        self.left_out[PAST] += len(tables[MOST_THREADS:])
        return self.text(tables[:MOST_THREADS], MOST_THREADS, MOST_BYTES, self.left_out)

    def of_load(self, life: Life) -> str:
        """Who left while it could run on did so by the recorded scheduler's doing, as far as a recording can tell."""
        steps = [("preempt" if word == "yield" else word, ticks) for word, ticks in life.steps[:MOST_STEPS]]
        self.left_out[f"runs past {MOST_STEPS:,} of a thread"] += len(life.steps) - len(steps)
        steps[-1] = ("die", steps[-1][1])
        sleeps = life.sleeps[: sum(word == "block" for word, _ in steps)]
        mask = (1 << self.cpus) - 1 & MASK
        queue = life.queue if mask >> life.queue & 1 else 0
        return table(life.title, queue, mask, steps, f"start = {life.start}\n", f"sleeps = {sleeps}\n")

    def settings(self) -> str:
        """Threads by their names, on the CPUs on which they ran; who was not seen to die dies in the last run."""
        tables = (self.of_settings(life) for life in self.ran())
        return self.text(tables, SETTINGS_THREADS, SETTINGS_BYTES, self.left_out_of_settings)

    def of_settings(self, life: Life) -> str:
        if not (mask := sum(1 << cpu for cpu in set(life.cpus)) & MASK):
            self.left_out_of_settings["threads that ran on CPU 63 alone"] += 1
            return ""
        steps = life.steps[:SETTINGS_STEPS]
        self.left_out_of_settings[f"runs past {SETTINGS_STEPS:,} of a thread"] += len(life.steps) - len(steps)
        first = life.cpus[0]
        queue = first if mask >> first & 1 else (mask & -mask).bit_length() - 1
        return table(f"{life.title}, {life.pid}", queue, mask, [*steps[:-1], ("die", steps[-1][1])])

    def rows(self, makespan: int) -> str:
        """The recorded numbers, by the names that a lab's table has for them."""
        rows: dict[str, int | None] = {"makespan": makespan, "commits": len(self.waits)}
        for head, kinds in (("wait", (False, True)), ("woken", (True,))):
            rows |= waits_told(head, [ticks for ticks, is_woken in self.waits if is_woken in kinds], (50, 90, 99))
        rows["ticks ran"] = sum(ticks for life in self.lives.values() for _, ticks in life.steps)
        cells = {"variant": "recorded", **{name: "-" if value is None else str(value) for name, value in rows.items()}}
        width = max(map(len, cells.values()))
        return "".join(f"{name:<26}  {cell:>{width}}\n" for name, cell in cells.items())

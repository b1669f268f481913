"""What is asked of a run of agents, and what it tells: the settings, the script and the report of docs/FORMATS.md."""
import re
import tomllib
from typing import NamedTuple

from kernel import WORD32

# The limits of each run, but for its CPUs.
LIMITS = (4_096, 1_000_000, 65_536, WORD32)
COUNTS = ("taken", "commits", "steals", "stale", "pending", "other")
# The refusals of `other`, which a report tells where its flag stands twice.
OTHERS = ("Busy", "NothingReady", "NothingToSteal", "Dead")
ROW = re.compile(r"cpu (\d+)" + "".join(rf" {name} (\d+)" for name in COUNTS + OTHERS))
Leave = tuple[str, int]  # how a thread leaves its CPU, and for how many ticks it ran


def totals(threads: int, messages: int, commits: int, ran: int) -> str:
    """A report without its rows."""
    return f"threads {threads}\nmessages {messages}\ncommits {commits}\nran {ran}\n"


class Plan(NamedTuple):
    """What a thread is to do."""

    queue: int
    mask: int
    steps: list[Leave]


class Settings(NamedTuple):
    """What is asked of a run. A restart is a CPU, and before which turn of its agent."""

    cpus: int
    plans: list[Plan]
    restarts: set[tuple[int, int]]

    def totals(self) -> str:
        """The report of any run, but for its rows."""
        steps = [step for plan in self.plans for step in plan.steps]
        messages = len(self.plans) + len(steps) + [how for how, _ in steps].count("block")
        return totals(len(self.plans), messages, len(steps), sum(ran for _, ran in steps))


class Told(NamedTuple):
    """What a run tells: its script, its report with each refusal by name, and what is said on standard error."""

    script: str
    report: str
    said: str


def read(text: str) -> Settings:
    """The settings that a text without a fault spells."""
    table = tomllib.loads(text)
    plans = []
    for row in table.get("thread", ()):
        steps = [(how, int(ran)) for how, ran in map(str.split, row["steps"])]
        plans.append(Plan(row["queue"], row["mask"], steps))
    return Settings(table["cpus"], plans, {(row["cpu"], row["turn"]) for row in table.get("restart", ())})

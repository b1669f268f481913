"""The protocol of agents, over the model of tools/kernel.py: each step of docs/PROTOCOL.md, and each rule of its table to leave out.

A schedule is a list of steps; what they do to the world is a script. Where agents keep all rules, no schedule comes to rest while a
thread waits for an idle CPU that it may run on. Without one of the rules some do.
"""
import random
from dataclasses import dataclass, field
from enum import Enum
from typing import NamedTuple

from kernel import Agent, Report, World

LATE = ("refused Stale", "refused Pending", "refused Dead")


class Rule(Enum):
    """What an agent does, or is told; its name is that of the script that stalls without it."""

    TELLS_WHO_WOKE = "post-tells-nobody"
    SLEEPS_BY_THE_COUNT = "sleep-without-count"
    PUTS_BEFORE_REMOVAL = "removal-before-puts"
    REMOVES_BEFORE_A_STEAL = "steal-before-removal"
    PICKS_BEFORE_SLEEP = "sleep-before-pick"
    ASKS_WHEN_LATE = "late-steal-asks-nobody"
    SENDS_EMPTY_ANSWERS = "empty-answer-unsent"
    TURNS_BEHIND_NOTES = "note-without-turn"
    TELLS_OF_URGENT_NEWS = "news-untold"


# What is said of an agent's step in a script.
SAID = {"look": "looks", "put": "puts what it read to another one", "act": "acts", "take": "takes a note"}


class Step(NamedTuple):
    """One step: of the environment, whose `what` is a command, or of the agent of a CPU."""

    what: str
    cpu: int = -1
    place: int = 0  # which note is taken, or to which of the agents that are left it is put

    def __str__(self) -> str:
        return self.what if self.cpu < 0 else f"agent {self.cpu} {SAID[self.what]}"


@dataclass
class Note:
    """What an agent is told: of whom, for a question, and what that one knew; of which delta, for an answer."""

    kind: str
    number: int = -1
    known: Agent | None = None


@dataclass
class Seat:
    """What an agent has beside the kernel."""

    stage: str = "look"  # its next step
    aseq: int = 0
    delta: int = 0
    left: list[int] = field(default_factory=list)
    mail: list[int] = field(default_factory=list)
    box: list[Note] = field(default_factory=list)


class Unranked(World):
    """A world whose agents rank no thread, and so have each thread that they take by a steal."""

    def publish(self, cpu: int, fails: str = "") -> str:
        answer, self.agents[cpu].names = super().publish(cpu, fails), []
        return answer


class Machine:
    """A world whose agents keep all rules but one."""

    def __init__(self, cpus: int, without: Rule | None = None, ranks: bool = True) -> None:
        self.world, self.without = (World if ranks else Unranked)(cpus), without
        self.seats = [Seat() for _ in range(cpus)]
        self.script = [f"enclave {cpus} 8 100 16 1000"]
        self.answers = ["ok"]

    def keeps(self, rule: Rule) -> bool:
        return rule is not self.without

    def say(self, line: str) -> str:
        answer = self.world.say(line)
        self.script.append(line)
        self.answers.append(answer)
        return answer

    def do(self, step: Step) -> None:
        """Does a step that there is."""
        if step.cpu < 0:
            self.post(step.what)
        else:
            self.script.append(f"# {step}")
            getattr(self, step.what)(step.cpu, step.place)

    def post(self, line: str) -> str:
        """The environment makes a call, and the agent that this wakes is told."""
        answer = self.say(line)
        woken = answer.rpartition(" wake ")[2]
        if woken.isdigit() and self.keeps(Rule.TELLS_WHO_WOKE):
            self.seats[int(woken)].box.append(Note("wake"))
        return answer

    # The steps of an agent

    def look(self, cpu: int, _: int) -> None:
        seat, queue = self.seats[cpu], self.world.queues[cpu]
        seat.aseq, seat.delta = queue.posts, len(self.world.deltas)
        is_void = not any(queue.items)
        self.say(f"publish {cpu}")
        if not self.keeps(Rule.PUTS_BEFORE_REMOVAL):
            self.say(f"consume {cpu}")
        seat.left = [] if is_void else [other for other in range(self.world.cpus) if other != cpu]
        seat.stage = "put" if seat.left else "act"

    def put(self, cpu: int, place: int) -> None:
        seat = self.seats[cpu]
        to = seat.left.pop(place)
        self.seats[to].mail.append(seat.delta)
        if self.has_urgent(cpu, seat.delta, to) and not self.seats[to].box and self.keeps(Rule.TELLS_OF_URGENT_NEWS):
            self.seats[to].box.append(Note("news"))
        seat.stage = "put" if seat.left else "act"

    def has_urgent(self, cpu: int, delta: int, to: int) -> bool:
        return any(self.is_urgent(self.world.reported(cpu, name), to) for name, _ in self.world.deltas[delta])

    def is_urgent(self, report: Report | None, cpu: int) -> bool:
        return report is None or report.may_run(cpu)

    def act(self, cpu: int, _: int) -> None:
        seat = self.seats[cpu]
        if self.keeps(Rule.REMOVES_BEFORE_A_STEAL):
            self.say(f"consume {cpu}")
        if self.keeps(Rule.PICKS_BEFORE_SLEEP):
            self.choose(cpu, seat.aseq)
        if not self.keeps(Rule.REMOVES_BEFORE_A_STEAL):
            self.say(f"consume {cpu}")
        count = seat.aseq if self.keeps(Rule.SLEEPS_BY_THE_COUNT) else self.world.queues[cpu].posts
        seat.stage = "take" if self.say(f"sleep {cpu} {count}") == "ok" else "look"

    def choose(self, cpu: int, aseq: int) -> None:
        if self.say(f"pick {cpu} {aseq}") != "refused NothingReady":
            return
        answer = self.say(f"steal {cpu}")
        if answer.startswith("ok"):
            self.say(f"pick {cpu} {aseq}")
        elif answer.startswith(LATE) and self.keeps(Rule.ASKS_WHEN_LATE):
            self.ask(cpu)

    def ask(self, cpu: int) -> None:
        for other, seat in enumerate(self.seats):
            if other != cpu:
                seat.box.append(Note("question", cpu))

    def take(self, cpu: int, place: int) -> None:
        seat = self.seats[cpu]
        note = seat.box.pop(place)
        for delta in seat.mail:
            self.say(f"deliver {cpu} {delta}")
        seat.mail = []
        if note.kind == "answer":
            self.say(f"deliver {cpu} {note.number}")
        elif note.kind == "question":
            self.answer(cpu, note)
            if self.world.deltas[-1] or self.keeps(Rule.SENDS_EMPTY_ANSWERS):
                self.seats[note.number].box.append(Note("answer", len(self.world.deltas) - 1))
        seat.stage = "look" if self.keeps(Rule.TURNS_BEHIND_NOTES) else "take"

    def answer(self, cpu: int, note: Note) -> None:
        self.say(f"answer {cpu} {note.number}")

    # What there is to do

    def choices(self, cpu: int) -> int:
        """In how many ways the agent may go on."""
        seat = self.seats[cpu]
        return len(seat.left) if seat.stage == "put" else len(seat.box) if seat.stage == "take" else 1

    def steps(self) -> list[Step]:
        """All steps of agents."""
        return [Step(seat.stage, cpu, place) for cpu, seat in enumerate(self.seats) for place in range(self.choices(cpu))]

    def events(self, most_threads: int) -> list[Step]:
        """What the environment may do, and the kernel accepts."""
        world, cpus = self.world, range(self.world.cpus)
        found = [f"{how} {cpu} 1" for cpu in cpus if world.running[cpu] is not None for how in ("block", "yield", "die")]
        found += [f"wake t{thread.name}" for thread in world.threads if thread.now.phase == "blocked"]
        if len(world.threads) < most_threads:
            found += [f"create {cpu} {mask} ready" for cpu in cpus for mask in range(1, 1 << world.cpus)]
        return [Step(line) for line in found]

    def stalled(self) -> tuple[int, int] | None:
        """A thread that waits, and an idle CPU on which it may run, where no agent has a step."""
        if self.steps():
            return None
        waiting = [thread for thread in self.world.threads if thread.cpu is None]
        idle = [cpu for cpu, name in enumerate(self.world.running) if name is None]
        return next(((thread.name, cpu) for thread in waiting for cpu in idle if thread.now.may_run(cpu)), None)


def drawn(seed: int, without: Rule | None = None, ranks: bool = True, most: int = 400) -> tuple[Machine, list[Step]]:
    """A drawn run: some events of the environment, some agents slow, until no agent has a step; and its schedule."""
    chance = random.Random(seed)
    machine, events = Machine(chance.randint(1, 3), without, ranks), chance.randint(1, 8)
    weights = [chance.choice((1, 4, 16)) for _ in machine.seats]
    schedule: list[Step] = []
    while len(schedule) < most:
        steps, happens = machine.steps(), machine.events(3) if events else []
        if happens and (not steps or chance.random() < 0.2):
            step, events = chance.choice(happens), events - 1
        elif steps:
            step = chance.choices(steps, [weights[it.cpu] for it in steps])[0]
        else:
            break
        machine.do(step)
        schedule.append(step)
    return machine, schedule


def followed(cpus: int, schedule: list[Step], without: Rule | None = None, ranks: bool = True) -> Machine | None:
    """The machine behind a schedule, where it has each of its steps."""
    machine = Machine(cpus, without, ranks)
    for step in schedule:
        if step not in (machine.events(3) if step.cpu < 0 else machine.steps()):
            return None
        machine.do(step)
    return machine


def shortest(cpus: int, schedule: list[Step], without: Rule, ranks: bool = True) -> list[Step]:
    """A schedule that stalls, without each step that it can do without."""
    size = len(schedule) // 2
    while size:
        for start in range(len(schedule) - size, -1, -1):
            fewer = schedule[:start] + schedule[start + size:]
            machine = followed(cpus, fewer, without, ranks)
            if machine and machine.stalled():
                return shortest(cpus, fewer, without, ranks)
        size //= 2
    return schedule


def settled(machine: Machine, most: int = 1_000) -> Machine:
    """The machine once its agents have gone on, one after another, until none has a step."""
    last = 0
    for _ in range(most):
        if not (steps := machine.steps()):
            break
        step = min(steps, key=lambda it: (it.cpu - last - 1) % machine.world.cpus)
        machine.do(step)
        last = step.cpu
    return machine

"""The model of the kernel, its agents and what they tell each other for all tools and tests, by the words of docs/FORMATS.md.

`Kernel` is what the kernel does, and can follow a script by its answers; `World` has what agents know too, and answers each line itself.
It shares nothing with the program but the table of commands that this prints, so a new command is a line there and a method here.
"""
import functools
import itertools
import os
import pathlib
import re
import shutil
import subprocess
from collections import Counter
from collections.abc import Iterable, Iterator
from dataclasses import dataclass, field
from typing import NamedTuple

from ranks import RANKINGS, Facts, Fault, policy_of, ranking_of

BYTE, WORD32, WORD64 = 2**8 - 1, 2**32 - 1, 2**64 - 1
# The greatest number of each word of the table. A thread is `t` and a number.
GREATEST = dict.fromkeys(("C", "Q", "A", "B", "CPUS", "LEVEL"), BYTE) | dict.fromkeys(("MASK", "K"), WORD64)
GREATEST |= dict.fromkeys(("T", "RAN", "ASEQ", "NUMBER", "THREADS", "NUMBERS", "ROOM", "POSTS"), WORD32)
NUMBER = re.compile(r"0|[1-9][0-9]*")
# A word that could be one of a command's.
ANY_WORD = re.compile(r"-|[a-z]+(?:-[a-z]+)*|t?(?:0|[1-9][0-9]{0,19})")
# The orders that have names.
ORDERS = tuple(RANKINGS)
# Behind all ranks: where a thread stands that an order leaves out.
LEFT_OUT = WORD64 + 1
LEAVES = {"block": "blocked", "yield": "ready", "preempt": "ready", "die": "dead"}
# What the environment does, and no agent.
ENVIRONMENT = {"create", "wake", *LEAVES, "affinity", "priority", "tick"}
OWN_OF_VERSION_3 = {"policy", "mend"}
# Commands that are no events: a policy may stand behind them.
BEFORE_EVENTS = {"policy", "status", "asleep", "show", "same", "complete"}
# How many words of a command name CPUs or their queues, first of all; of any other it is one.
CPUS_OF = dict.fromkeys(("policy", "wake", "affinity", "priority", "associate", "status"), 0)
CPUS_OF |= dict.fromkeys(("config", "answer", "same"), 2)
# What the kernel does whatever agents know, and answers by itself.
FOLLOWED = {*ENVIRONMENT, "associate", "commit", "sleep", "rouse", "config", "crash", "status", "asleep"}
# The greatest limits of the first version, and of the later ones.
MOST = {"cpus": (64, 64), "threads": (4_096, 65_535), "numbers": (1_000_000, 16_000_000), "room": (65_536, 65_536), "posts": (WORD32, WORD32)}
# What tells the tick of the commands behind it: no number of more digits is one.
TOLD_TICK = re.compile(r"# at (0|[1-9][0-9]{0,19})")
PLACED = re.compile(r"ok t([0-9]+) [cq][0-9]+")
REMOVED = re.compile(r"ok ([0-9]+)")
# Answers that tell of no thread, and change nothing that the kernel has.
UNHEEDED = re.compile(r"ok(?: d\d+(?: items \d+)?)?|yes|no|equal|differ|end|refused .+")
Item = tuple[int, int]  # a thread, and the number of its message


# Lines and words

def program() -> str | None:
    """The program that PC_SIM names, or the one that is built here, or the one that is installed."""
    built = pathlib.Path(__file__).resolve().parent.parent / "crates/pc_sim/out/pc_sim"
    return os.environ.get("PC_SIM") or (str(built) if built.exists() else shutil.which("pc-sim"))


@functools.cache
def forms() -> list[list[str]]:
    """The words of each command, one list for each way to write it, as the program's own table has them."""
    told = subprocess.run([program() or "pc-sim", "session"], input="?\n", capture_output=True, text=True).stderr.splitlines()
    rows = [line.split() for line in told if re.fullmatch(r"[a-z]+(?: (?:[A-Z]+|[\w|-]*\|[\w|-]*|\[\w+\]))+", line)]
    places = [[["", word[1:-1]] if word.startswith("[") else word.split("|") for word in row] for row in rows]
    return [[word for word in words if word] for row in places for words in itertools.product(*row)]


def is_word(form: str, word: str) -> bool:
    """Whether a word may stand where the table has this one."""
    if form not in GREATEST:
        return word == form
    digits = word.removeprefix("t") if form == "T" else word
    return (form != "T" or word != digits) and bool(NUMBER.fullmatch(digits)) and int(digits) <= GREATEST[form]


def is_policy(words: list[str]) -> bool:
    try:
        return bool(policy_of(" ".join(words).encode("latin-1")))
    except Fault:
        return False


def words_of(line: bytes) -> list[str]:
    """The words of a line, none where it is silent. Bytes that are no text stay apart from all words."""
    return [] if line.startswith(b"#") else [it for it in line.removesuffix(b"\r").decode("latin-1").split(" ") if it]


def fields_of(words: list[str], version: int) -> list[int | str] | None:
    """The words behind the first as numbers, where they are some; nothing, where they ask for no command."""
    if words[0] in OWN_OF_VERSION_3 and version < 3:
        return None
    if words[:2] == ["policy", "rank"]:
        return [*words[1:]] if is_policy(words[1:]) else None
    for form in forms():
        if len(form) == len(words) and all(map(is_word, form, words)):
            return [int(word.removeprefix("t")) if it in GREATEST else word for it, word in zip(form[1:], words[1:])]
    return None


def is_asked(line: str) -> bool:
    """Whether the line is a command, or a fault."""
    return words_of(line.encode())[:1] not in ([], ["version"])


def ticks_of(script: str) -> dict[int, int]:
    """The tick of each command, by the number of its line; none where no line tells one above a command."""
    ticks, tick, is_told, is_any = {}, 0, False, False
    for number, line in enumerate(script.split("\n"), 1):
        if (told := TOLD_TICK.fullmatch(line.removesuffix("\r"))) and int(told[1]) <= WORD64:
            tick, is_told = max(tick, int(told[1])), True
        elif is_asked(line):
            ticks[number], is_any = tick, is_told
    return ticks if is_any else {}


def last_lines(output: str) -> list[str]:
    """The last line of each answer: a view ends with `end`."""
    return [line for line in output.splitlines() if not re.match(r"t\d+ upto ", line)]


# A command of a script: the number of its line, its words, and the last line of its answer.
Answered = NamedTuple("Answered", [("number", int), ("words", list[str]), ("answer", str)])


def answered(script: str, output: str) -> Iterator[Answered]:
    """The commands that a replay answered so. A fault, and a line that names a version, is none."""
    answers = iter(last_lines(output))
    for number, line in enumerate(script.split("\n"), 1):
        words = words_of(line.encode())
        if (answer := next(answers, "fault line") if words else "").startswith("fault line"):
            return
        if words and words[0] != "version":
            yield Answered(number, words, answer)


# The model

class Refused(ValueError):
    """A command is refused: its text stands behind `refused`."""


class Report(NamedTuple):
    """What the messages of a thread say of it, up to one of them."""

    phase: str
    mask: int
    ran: int = 0
    level: int = 0

    def rank(self, order: str, name: int, cpu: int, more: int = 0) -> int:
        """By this order, of the thread of this name on a CPU, if it ran for so many ticks more: the least is first."""
        rank = ranking_of(order).rank(Facts(self.level, self.ran + more, name, cpu, self.mask.bit_count()))
        return LEFT_OUT if rank is None else rank

    def may_run(self, cpu: int) -> bool:
        return self.phase == "ready" and bool(self.mask >> cpu & 1)


@dataclass
class Thread:
    """A thread, as the kernel has it."""

    name: int
    home: int
    reports: list[Report] = field(default_factory=list)  # behind each of its messages
    cpu: int | None = None

    @property
    def now(self) -> Report:
        return self.reports[-1]

    @property
    def number(self) -> int:
        return len(self.reports)


@dataclass
class Queue:
    """A queue: its items, of which a tick is none; the agent that a post wakes; and how many items its own agent has sent."""

    target: int | None
    items: list[Item | None] = field(default_factory=list)
    posts: int = 0
    sent: int = 0


@dataclass
class Agent:
    """An agent: which messages of each thread it knows, up to a number and early ones, and its run list."""

    upto: dict[int, int] = field(default_factory=dict)
    early: dict[int, set[int]] = field(default_factory=dict)
    names: list[int] = field(default_factory=list)

    def learn(self, items: Iterable[Item]) -> None:
        for name, number in items:
            upto, early = self.upto.get(name, 0), self.early.setdefault(name, set())
            if number > upto:
                early.add(number)
            while upto + 1 in early:
                upto += 1
                early.discard(upto)
            self.upto[name] = upto

    def knows(self, name: int, number: int) -> bool:
        return number <= self.upto.get(name, 0) or number in self.early.get(name, ())

    def view(self) -> dict[int, tuple[int, list[int]]]:
        return {name: (upto, sorted(self.early[name])) for name, upto in sorted(self.upto.items())}


@dataclass
class Kernel:
    """Threads, queues, who runs where, and who sleeps. A command is a method; `ask` looks at its CPUs, and answers."""

    cpus: int
    threads_most: int = 65_535
    numbers_most: int = 1_000_000
    room: int = 65_536
    posts_most: int = WORD32

    def __post_init__(self) -> None:
        self.threads: list[Thread] = []
        self.queues = [Queue(cpu) for cpu in range(self.cpus)]
        self.running: list[int | None] = [None] * self.cpus
        self.sleeps = [False] * self.cpus
        self.deltas: list[list[Item]] = []
        self.pending: Counter[int] = Counter()  # messages of each thread that stand in a queue
        self.had_event = False

    def ask(self, verb: str, *fields: int | str) -> str:
        """The answer to a command."""
        self.had_event |= verb not in BEFORE_EVENTS
        try:
            self.need_cpus(*fields[:CPUS_OF.get(verb, 1)])
            return self.leave(verb, *fields) if verb in LEAVES else getattr(self, verb)(*fields)  # type: ignore
        except Refused as refusal:
            return f"refused {refusal}"

    def say(self, line: str) -> str:
        """The answer to a command that is spelled without a fault."""
        verb, *words = line.split()
        if verb == "policy":
            return self.ask(verb, *words)
        return self.ask(verb, *(int(word.removeprefix("t")) if word[-1].isdigit() else word for word in words))

    def need(self, holds: object, refusal: object) -> None:
        if not holds:
            raise Refused(refusal)

    def need_cpus(self, *cpus: int | str) -> None:
        self.need(all(isinstance(cpu, str) or cpu < self.cpus for cpu in cpus), "BadCpu")

    def thread_at(self, name: int) -> Thread:
        self.need(name < len(self.threads), "UnknownThread")
        return self.threads[name]

    def alive(self, name: int) -> Thread:
        thread = self.thread_at(name)
        self.need(thread.now.phase != "dead", "Dead")
        return thread

    def need_mask(self, mask: int) -> None:
        self.need(mask, "EmptyMask")
        self.need(mask < 1 << self.cpus, "MaskTooWide")

    # What the kernel reports

    def need_room(self, queue: int) -> None:
        self.need(len(self.queues[queue].items) < self.room, "QueueFull")
        self.need(self.queues[queue].posts < self.posts_most, "PostsSpent")

    def post(self, queue: int, item: Item | None) -> str:
        self.need_room(queue)
        it = self.queues[queue]
        it.items.append(item)
        it.posts += 1
        if item:
            self.pending[item[0]] += 1
        woken = it.target if it.target is not None and self.sleeps[it.target] else None
        if woken is not None:
            self.sleeps[woken] = False
        subject = f"t{item[0]} n{item[1]}" if item else "-"
        return f"ok {subject} q{queue} a{it.posts} wake {'-' if woken is None else woken}"

    def message(self, name: int, report: Report) -> str:
        thread = self.threads[name]
        self.need(thread.number < self.numbers_most, "NumbersSpent")
        answer = self.post(thread.home, (name, thread.number + 1))
        thread.reports.append(report)
        return answer

    def create(self, queue: int, mask: int, phase: str) -> str:
        self.need_mask(mask)
        self.need(len(self.threads) < self.threads_most, "NamesSpent")
        self.need_room(queue)
        self.threads.append(Thread(len(self.threads), queue))
        return self.message(len(self.threads) - 1, Report(phase, mask))

    def wake(self, name: int) -> str:
        now = self.alive(name).now
        self.need(now.phase == "blocked", "NotBlocked")
        return self.message(name, now._replace(phase="ready"))

    def leave(self, how: str, cpu: int, ran: int) -> str:
        if (name := self.running[cpu]) is None:
            raise Refused("IdleCpu")
        thread = self.threads[name]
        answer = self.message(name, thread.now._replace(phase=LEAVES[how], ran=thread.now.ran + ran))
        self.running[cpu] = thread.cpu = None
        return answer

    def affinity(self, name: int, mask: int) -> str:
        thread = self.alive(name)
        self.need_mask(mask)
        self.need(thread.cpu is None or mask >> thread.cpu & 1, "OnForbiddenCpu")
        return self.message(name, thread.now._replace(mask=mask))

    def priority(self, name: int, level: int) -> str:
        now = self.alive(name).now
        self.need(level <= 7, "BadLevel")
        return self.message(name, now._replace(level=level))

    def tick(self, cpu: int) -> str:
        return self.post(cpu, None)

    # What agents ask of the kernel

    def need_posts(self, cpu: int, aseq: int) -> None:
        self.need(aseq == self.queues[cpu].posts, f"Stale {self.queues[cpu].posts}")

    def associate(self, name: int, queue: int, number: int) -> str:
        self.thread_at(name)
        self.need_cpus(queue)
        thread = self.alive(name)
        self.need(number == thread.number, f"Stale {thread.number}")
        self.need(not self.pending[name], "Pending")
        self.need(thread.cpu is None, f"Running {thread.cpu}")
        thread.home = queue
        return f"ok t{name} q{queue}"

    def commit(self, cpu: int, name: int, aseq: int) -> str:
        thread = self.thread_at(name)
        self.need_posts(cpu, aseq)
        self.need(thread.now.phase == "ready", "NotReady")
        self.need(thread.home == cpu, f"NotYours {thread.home}")
        self.need(thread.cpu is None, f"Running {thread.cpu}")
        self.need(thread.now.may_run(cpu), "Forbidden")
        self.need(self.running[cpu] is None, "Busy")
        self.running[cpu], thread.cpu = name, cpu
        return f"ok t{name} c{cpu}"

    def sleep(self, cpu: int, aseq: int) -> str:
        self.need_posts(cpu, aseq)
        self.sleeps[cpu] = True
        return "ok"

    def rouse(self, cpu: int) -> str:
        self.sleeps[cpu] = False
        return "ok"

    def config(self, queue: int, target: int | str) -> str:
        self.queues[queue].target = target if isinstance(target, int) else None
        return self.rouse(target) if isinstance(target, int) else "ok"

    # What agents send and remove

    def publish(self, cpu: int, fails: str = "") -> str:
        self.need(not fails, "WireFault")
        queue = self.queues[cpu]
        queue.sent = len(queue.items)
        self.deltas.append([item for item in queue.items if item])
        return f"ok d{len(self.deltas) - 1} items {queue.sent}"

    def consume(self, cpu: int) -> str:
        return self.remove(cpu, self.queues[cpu].sent)

    def remove(self, cpu: int, count: int) -> str:
        queue = self.queues[cpu]
        queue.sent = 0
        self.pending.subtract(item[0] for item in queue.items[:count] if item)
        del queue.items[:count]
        return f"ok {count}"

    def crash(self, cpu: int) -> str:
        self.sleeps[cpu], self.queues[cpu].sent = False, 0
        return "ok"

    # Questions

    def status(self, name: int) -> str:
        thread = self.thread_at(name)
        return f"t{name} n{thread.number} {thread.now.phase}" + ("" if thread.cpu is None else f" c{thread.cpu}")

    def asleep(self, cpu: int) -> str:
        return "yes" if self.sleeps[cpu] else "no"

    # A script by its answers

    def follow(self, words: list[str], answer: str) -> None:
        """Does what a command did that was answered so, whatever agents know. Raises ValueError where the kernel would not answer that to a
        call of its own, or to the calls that an agent makes for `pick`, `steal` and `mend`. Which thread an agent chose, that it was
        refused, and how many items it removed is taken as it stands."""
        verb = words[0]
        self.need(all(map(ANY_WORD.fullmatch, words)), words)
        if verb in ("pick", "steal", "mend"):
            self.follow_agent(words, answer)
        elif verb == "consume" and not answer.startswith("refused "):
            removed = REMOVED.fullmatch(answer)
            self.need(removed and int(removed[1]) <= len(self.queues[int(words[1])].items), answer)
            self.remove(int(words[1]), int(answer.split()[1]))
        elif verb in FOLLOWED:
            self.need(self.say(" ".join(words)) == answer, answer)
        else:
            self.need(UNHEEDED.fullmatch(answer), answer)

    def follow_agent(self, words: list[str], answer: str) -> None:
        """The calls behind what an agent was answered, or none where it was refused."""
        verb, cpu, placed = words[0], int(words[1]), PLACED.fullmatch(answer)
        self.need(placed or answer.startswith("refused "), answer)
        if verb == "mend" and (placed or answer == "refused NothingReady"):
            for each in range(self.cpus):
                self.remove(each, len(self.queues[each].items))
        if not placed:
            return
        self.need_cpus(cpu)
        self.need(self.running[cpu] is None, "Busy")
        thread, told = self.thread_at(int(placed[1])), ""
        if verb == "steal" or verb == "mend" and thread.home != cpu:
            told = self.associate(thread.name, cpu, thread.number)
        if verb != "steal":
            told = self.commit(cpu, thread.name, int(words[2]) if verb == "pick" else self.queues[cpu].posts)
        self.need(told == answer, answer)


@dataclass
class World(Kernel):
    """The kernel, its agents, and what they know by the deltas that they sent."""

    order: str = "levels"
    exact: bool = False

    def __post_init__(self) -> None:
        super().__post_init__()
        self.agents = [Agent() for _ in range(self.cpus)]

    def policy(self, *words: str) -> str:
        self.need(not self.had_event, "TooLate")
        self.order, self.exact = policy_of(" ".join(words).encode("latin-1"))
        return "ok"

    # What agents know, and tell each other

    def reported(self, cpu: int, name: int) -> Report | None:
        upto = self.agents[cpu].upto.get(name, 0)
        return self.threads[name].reports[upto - 1] if upto else None

    def may_run(self, cpu: int, name: int) -> bool:
        report = self.reported(cpu, name)
        return report is not None and report.may_run(cpu)

    def read(self, cpu: int, items: list[Item | None]) -> None:
        """The agent takes in what it has read, and makes its run list anew."""
        agent, messages = self.agents[cpu], [item for item in items if item]
        agent.learn(messages)
        told = {name: self.reported(cpu, name) for name in [*agent.names, *(name for name, _ in messages)]}
        able = {name: it.rank(self.order, name, cpu) for name, it in told.items() if it and it.may_run(cpu)}
        agent.names = sorted((name for name in able if able[name] < LEFT_OUT), key=able.__getitem__)

    def publish(self, cpu: int, fails: str = "") -> str:
        self.read(cpu, self.queues[cpu].items)
        return super().publish(cpu, fails)

    def deliver(self, cpu: int, delta: int) -> str:
        self.need(delta < len(self.deltas), "NoDelta")
        self.agents[cpu].learn(self.deltas[delta])
        return "ok"

    def answer(self, cpu: int, asker: int) -> str:
        return self.answer_to(cpu, self.agents[asker])

    def answer_to(self, cpu: int, other: Agent) -> str:
        """Of a thread of which the asker lacks a message that is known without a gap all such messages are told."""
        told = list[Item]()
        for name, (upto, early) in self.agents[cpu].view().items():
            if any(not other.knows(name, number) for number in range(1, upto + 1)):
                told += [(name, number) for number in range(1, upto + 1)]
            told += [(name, number) for number in early if not other.knows(name, number)]
        self.deltas.append(told)
        return f"ok d{len(self.deltas) - 1}"

    # Agents that decide, and that fail

    def would_commit(self, cpu: int, name: int) -> bool:
        """Whether the kernel lets the thread run there, if the CPU is idle."""
        thread = self.threads[name]
        return thread.home == cpu and thread.cpu is None and thread.now.may_run(cpu)

    def first(self, cpu: int) -> int | None:
        """The first of the agent's run list that could run now."""
        return next((name for name in self.agents[cpu].names if self.would_commit(cpu, name)), None)

    def pick(self, cpu: int, aseq: int) -> str:
        self.need_posts(cpu, aseq)
        self.need(self.running[cpu] is None, "Busy")
        names = self.agents[cpu].names
        while names:
            name = names.pop(0)
            if self.would_commit(cpu, name):
                return self.commit(cpu, name, aseq)
        raise Refused("NothingReady")

    def candidates(self, cpu: int) -> Iterator[tuple[int, int]]:
        """The threads that a steal may take, each with what comes first where it counts; those of which all is known, where it is exact."""
        agent = self.agents[cpu]
        for name in agent.upto.keys() - set(agent.names):
            thread = self.threads[name]
            if thread.cpu is None and self.may_run(cpu, name) and (not self.exact or agent.upto[name] == thread.number):
                rank = thread.now.rank(self.order, name, cpu) if self.exact else 0
                if rank < LEFT_OUT:
                    yield rank, name

    def target(self, cpu: int) -> int | None:
        """The thread that a steal tries."""
        return min(self.candidates(cpu), default=(0, None))[1]

    def steal(self, cpu: int) -> str:
        self.need(self.running[cpu] is None, "Busy")
        if (name := self.target(cpu)) is None:
            raise Refused("NothingToSteal")
        answer = self.associate(name, cpu, self.agents[cpu].upto[name])
        self.agents[cpu].names.append(name)
        return answer

    def crash(self, cpu: int) -> str:
        answer = super().crash(cpu)
        self.agents[cpu] = Agent()
        return answer

    def mend(self, cpu: int) -> str:
        """All queues are cleared, the agent takes all in, and picks; where nothing is ready then, it steals and picks."""
        self.need(self.running[cpu] is None, "Busy")
        for each in range(self.cpus):
            self.publish(each)
            self.consume(each)
        for delta in range(len(self.deltas)):
            self.deliver(cpu, delta)
        posts = self.queues[cpu].posts
        if not (answer := self.ask("pick", cpu, posts)).startswith("ok"):
            self.ask("steal", cpu)
            answer = self.pick(cpu, posts)
        return answer

    # Questions

    def show(self, cpu: int) -> str:
        rows = []
        for name, (upto, early) in self.agents[cpu].view().items():
            report = self.reported(cpu, name)
            told = "-" if report is None else f"{report.phase} mask {report.mask} ran {report.ran}"
            told += f" level {report.level}" if report and report.level else ""
            rows.append(f"t{name} upto {upto} {told} early {' '.join(map(str, early)) or '-'}")
        return "\n".join([*rows, "end"])

    def same(self, cpu: int, other: int) -> str:
        return "equal" if self.agents[cpu].view() == self.agents[other].view() else "differ"

    def complete(self, cpu: int, name: int) -> str:
        is_there = name < len(self.threads)
        return "yes" if is_there and self.agents[cpu].upto.get(name) == self.threads[name].number else "no"


def bad_limit(limits: list[int], version: int) -> str | None:
    """The first limit of an enclave that is out of its range, if any is."""
    ranges = zip(MOST.items(), limits, strict=True)
    return next((name for (name, most), limit in ranges if not 1 <= limit <= most[version > 1]), None)


class Talk:
    """A script that is answered line by line, as a session does: behind a fault it goes on."""

    def __init__(self) -> None:
        self.world: World | None = None
        self.version, self.is_first, self.number, self.faults = 1, True, 0, 0

    def take(self, line: bytes) -> str | None:
        """The answer to a line; none where it is silent."""
        self.number += 1
        if not (words := words_of(line)):
            return None
        is_first, self.is_first = self.is_first, False
        if is_first and words in (["version", "2"], ["version", "3"]):
            self.version = int(words[1])
            return "ok"
        if (fields := fields_of(words, self.version)) is None:
            self.faults += 1
            return f"fault line {self.number}"
        if words[0] != "enclave":
            return "refused NoEnclave" if self.world is None else self.world.ask(words[0], *fields)
        if self.world is not None:
            return "refused HaveEnclave"
        limits = [int(it) for it in fields]
        if name := bad_limit(limits, self.version):
            return f"refused BadLimits {name}"
        self.world = World(*limits)
        return "ok"


def told_of(script: bytes, goes_on: bool = False) -> tuple[str, int]:
    """What a replay writes of a script, and its status; or a session, which goes on behind a fault."""
    talk, answers = Talk(), []
    for line in script.split(b"\n"):
        if (answer := talk.take(line)) is not None:
            answers.append(answer + "\n")
        if talk.faults and not goes_on:
            break
    return "".join(answers), 1 if talk.faults else 0

"""A run of agents: the environment's steps are taken, agents have turns, and each call is held against the rules."""
from __future__ import annotations

import contextlib
import os
from collections import Counter
from collections.abc import Callable, Collection, Iterable, Iterator
from typing import Protocol, Self, TextIO

from . import commands
from .advice import Past
from .errors import Fault, NimhessianError, Refused
from .messages import POSTING, Message
from .testing_counts import Counts, State
from .testing_rules import UNCAUGHT, Broken, Rule
from .testing_steps import LEAVINGS, Event, Rest, Step, Turn
from .values import Phase, Posted, Status
from .world import QUESTIONS, World

AT_CPUS = {*LEAVINGS, "tick", "crash"}
"""The events whose first number is a CPU, but for `create`, which is refused where that is not there."""
MOST_CALLS = 1_000
"""So many calls a turn may have."""
PATIENCE, ALIKE = 20, 3
"""So many turns each agent gets to come to rest, and so many of all agents that are alike are rest."""
OF_THE_CPU = {"publish", "consume", "deliver", "answer", "pick", "steal", "commit", "sleep"}
"""What an agent asks for its own CPU alone."""
NOT_OF_AGENTS = POSTING | {"crash", "mend", "policy", "enclave", "version"}


class Agent(Protocol):
    """What is tested: the agent of one CPU, made with the world and the CPU, and made anew where it crashes.

    In a turn it reads its queue, and asks the world for what it wants. An agent that sleeps has none until it is woken.
    """

    def turn(self) -> None: ...


Maker = Callable[[World, int], Agent]
Between = Callable[[str], Iterable[Event | Turn]]
"""What happens before this call of an agent, which is told as in `Turn.between`."""


def nothing(call: str) -> Iterable[Event | Turn]:
    return ()


class _Ends(BaseException):
    """The turn of an agent ends here: it crashed, or broke a rule. No agent takes it for an error of its own."""


class PlayedWorld(World):
    """The world that agents are given: the play is told of each call."""

    def __init__(self, play: Play, cpus: int, room: int, program: str | os.PathLike[str] | None) -> None:
        self._play: Play | None = None
        self.told: list[tuple[str, str]] = []
        """Each line that was said, and its answer; questions aside."""
        super().__init__(cpus, room=room, program=program)
        self._play = play

    def _start(self, lines: list[str], record: TextIO | None) -> None:
        self._play, self.told = None, []  # a copy, or what was begun anew, is nobody's
        super()._start(lines, record)

    def _exchange(self, lines: list[str], rows: list[bool]) -> tuple[list[str], dict[int, Past]]:
        if self._play is None or self._play.is_environment():
            answers, refused = super()._exchange(lines, rows)
            self._keep(lines, answers)
            return answers, refused
        answers, refused = [], {}
        for place, (line, has_rows) in enumerate(zip(lines, rows)):
            self._play.before(line)
            (answer,), past = super()._exchange([line], [has_rows])
            self._keep([line], [answer])
            answers.append(answer)
            refused |= {place: it for it in past.values()}
            self._play.after(line, answer)
        return answers, refused

    def _keep(self, lines: list[str], answers: list[str]) -> None:
        self.told += [row for row in zip(lines, answers) if row[0].split(" ")[0] not in QUESTIONS]

    def messages(self, cpu: int) -> list[Message]:
        if self._play is not None:
            self._play.before(f"messages {cpu}")
            self._play.has_read(cpu)
        return super().messages(cpu)

    def aseq(self, cpu: int) -> int:
        if self._play is not None:
            self._play.before(f"aseq {cpu}")
        return super().aseq(cpu)

    def home(self, thread: int) -> int:
        """The queue to which the thread's messages go."""
        return self._queues.home[thread]

    def holds(self, cpu: int) -> int:
        """How many items the queue holds."""
        return len(self._queues.held[cpu])

    def posts(self, cpu: int) -> int:
        """How many posts the queue had."""
        return self._queues.aseq[cpu]


class Play:
    """A world with an agent for each CPU, and what is known of them."""

    def __init__(
        self, make: Maker, cpus: int, room: int = 65_536, *, counts: Counts | None = None,
        tolerates: Collection[type[Refused]] = (), program: str | os.PathLike[str] | None = None,
    ) -> None:
        self.counts = Counts() if counts is None else counts
        self.cpus = range(cpus)
        self.threads: dict[int, int] = {}
        """The names of threads by those of the run's steps."""
        self.masks: dict[int, int] = {}
        self._make, self._tolerates = make, {refusal.__name__ for refusal in tolerates}
        self._acting: list[int | None] = [None]
        """Who acts: an agent within whose turn others do, and last whose calls these are; the environment is none."""
        self._between: Between = nothing
        self._calls = Counter[str]()
        """What was asked so far in this turn."""
        self._broken: Broken | None = None
        self._read = [0] * cpus
        """How many posts of its queue each agent has looked at."""
        self._placed = [False] * cpus
        """Whether what runs on the CPU was put there by its agent, since that started."""
        self._known: tuple[int, list[Status]] = (-1, [])
        self.world = PlayedWorld(self, cpus, room, program)
        try:
            self.agents = [self._made(cpu) for cpu in self.cpus]
        except BaseException:
            self.world.close()
            raise

    def __enter__(self) -> Self:
        return self

    def __exit__(self, *ended: object) -> None:
        self.world.close()

    @contextlib.contextmanager
    def _as(self, who: int | None) -> Iterator[None]:
        self._acting.append(who)
        try:
            yield
        finally:
            self._acting.pop()

    def is_environment(self) -> bool:
        """Whether what is asked now is asked by no agent."""
        return self._acting[-1] is None

    def statuses(self) -> list[Status]:
        """What the kernel says of each thread."""
        if self._known[0] != len(self.world.told):
            with self._as(None), self.world.batch() as batch:
                asked = [batch.status(thread) for thread in self.masks]
            self._known = (len(self.world.told), [it.get() for it in asked])
        return self._known[1]

    def awake(self) -> list[int]:
        """The CPUs whose agents do not sleep."""
        with self._as(None), self.world.batch() as batch:
            asked = [batch.asleep(cpu) for cpu in self.cpus]
        return [cpu for cpu, it in zip(self.cpus, asked) if not it.get()]

    def take(self, step: Step) -> None:
        """Takes a step; where an agent breaks a rule, that is raised."""
        match step:
            case Event():
                self._happen(step)
            case Turn(cpu, between) if cpu in self.awake():
                self.turn(cpu, lambda call: [it for at, it in between if at == call])
            case Rest():
                self._rest()

    def _happen(self, event: Event) -> None:
        command = event.command(self.threads)
        if command is None or event.name in AT_CPUS and event.given[0] not in self.cpus:
            return
        try:
            with self._as(None):
                posted = self.world.ask(command)
        except Refused as refused:
            self.counts.refusals[f"{event.name} {type(refused).__name__}"] += 1
            return
        self.counts.events[event.name] += 1
        if isinstance(posted, Posted):
            self._note(event, posted)
        if event.name == "crash":
            self._restart(event.given[0])

    def _note(self, event: Event, posted: Posted) -> None:
        """What the environment knows, since it has done it."""
        self.counts.states[State.WOKEN] += posted.wakes is not None
        if posted.thread is not None and event.name in ("create", "affinity"):
            self.masks[posted.thread] = event.given[-1] if event.name == "affinity" else event.given[1]
        if event.name == "create" and posted.thread is not None:
            self.threads[len(self.threads) if event.thread is None else event.thread] = posted.thread
        if event.name in LEAVINGS:
            self._placed[event.given[0]] = False

    def _restart(self, cpu: int) -> None:
        self._read[cpu], self._placed[cpu] = 0, False
        if cpu in self._acting:
            raise _Ends
        self.agents[cpu] = self._made(cpu)

    def _made(self, cpu: int) -> Agent:
        made: list[Agent] = []
        self._act(cpu, lambda: made.append(self._make(self.world, cpu)), nothing)
        return made[0]

    def turn(self, cpu: int, between: Between = nothing) -> None:
        """The agent of the CPU has a turn, unless it is within one."""
        if cpu not in self._acting:
            self.counts.turns += 1
            self.counts.states[State.UNREAD] += self.world.holds(cpu) > 0
            self._act(cpu, self.agents[cpu].turn, between)

    def _act(self, cpu: int, act: Callable[[], None], between: Between) -> None:
        """An agent acts; what it lets pass is its fault."""
        outer = self._between, self._calls
        self._between, self._calls = between, Counter()
        crashed = False
        try:
            with self._as(cpu):
                act()
        except _Ends:
            crashed = self._broken is None
        except (Refused, Fault) as met:
            self._broken = self._broken or _uncaught(cpu, met)
        except (NimhessianError, Broken):
            raise
        except Exception as error:
            raised = Broken(Rule.GOES_ON, f"raises {type(error).__name__}", f"agent {cpu} raises {error!r}")
            self._broken = self._broken or raised
        finally:
            self._between, self._calls = outer
        if self._broken is not None:
            raise self._broken
        if crashed:
            self.counts.states[State.RESTARTED] += 1
            self.agents[cpu] = self._made(cpu)

    def before(self, line: str) -> None:
        """An agent is about to ask for this."""
        if (cpu := self._acting[-1]) is None:
            return
        if self._broken is not None:
            raise _Ends
        verb, *words = line.split(" ")
        call = f"{verb} {self._calls[verb]}"
        self._calls[verb] += 1
        if self._calls.total() > MOST_CALLS:
            self._break(Broken(Rule.GOES_ON, "no end", f"agent {cpu} makes more than {MOST_CALLS} calls in a turn"))
        for step in self._between(call):
            self._meanwhile(step)
        if verb in NOT_OF_AGENTS or verb in OF_THE_CPU and words[0] != str(cpu):
            self._break(Broken(Rule.ALONE, f"asks {verb}", f"agent {cpu} asks `{line}`, which is not its to ask", line))

    def _meanwhile(self, step: Event | Turn) -> None:
        """Something happens within an agent's turn."""
        self.counts.states[State.MIDWAY if isinstance(step, Event) else State.BESIDE] += 1
        try:
            self.take(step)
        except Broken as broken:
            self._break(broken)

    def _break(self, broken: Broken) -> None:
        self._broken = broken
        raise _Ends

    def has_read(self, cpu: int) -> None:
        """The agent has looked at all that its queue holds."""
        if self._acting[-1] == cpu:
            self._read[cpu] = self.world.posts(cpu)

    def after(self, line: str, answer: str) -> None:
        """An agent was answered so."""
        if (cpu := self._acting[-1]) is None:
            return
        verb, told = line.split(" ")[0], answer.split(" ")
        if told[0] == "refused":
            self.counts.refusals[f"{verb} {told[1]}"] += 1
            self._look_at_refusal(cpu, line, verb, told)
        elif told[0] == "ok":
            self.counts.calls[verb] += 1
            if verb == "publish":
                self.has_read(cpu)
            elif verb in ("commit", "pick"):
                self._placed[cpu] = True
            elif verb == "sleep" and self._read[cpu] < self.world.posts(cpu):
                how = f"agent {cpu} sleeps by a count of posts that it has not read: `{line}`"
                self._break(Broken(Rule.SLEPT, "sleeps", how))

    def _look_at_refusal(self, cpu: int, line: str, verb: str, told: list[str]) -> None:
        """What an agent should have known is a fault even where it catches the refusal."""
        name = told[1]
        is_busy = name == "Busy" or verb == "commit" and told[1:] == ["Running", str(cpu)]
        if name in self._tolerates:
            return
        if is_busy and self._placed[cpu]:
            why = "forgot the thread that it runs"
        elif verb == "commit" and name in ("NotReady", "Forbidden") and self._knows_all(cpu, line):
            why = "was told all of the thread"
        else:
            return
        self._break(Broken(Rule.PLACED, f"{verb} {name}", f"agent {cpu} {why}, and asks `{line}`", line))

    def _knows_all(self, cpu: int, line: str) -> bool:
        """Whether the agent was told every message of the thread of a commit."""
        with self._as(None):
            return self.world.ask(commands.complete(cpu, int(line.split(" ")[2][1:])))

    def _rest(self) -> None:
        """Agents have turns until all sleep, or do the same again and again, which may be nothing."""
        rounds: list[list[str]] = []
        while len(rounds) < PATIENCE and (awake := self.awake()):
            if len(rounds) >= ALIKE and rounds[-ALIKE:] == [rounds[-1]] * ALIKE:
                break
            begin = len(self.world.told)
            for cpu in awake:
                self.turn(cpu)
            accepted = (line for line, answer in self.world.told[begin:] if answer.startswith("ok"))
            # Which delta it is that is taken in goes on where nothing else does.
            rounds.append([line.rpartition(" ")[0] if line.startswith("deliver ") else line for line in accepted])
        self._check_rest()

    def _check_rest(self) -> None:
        """At rest no CPU idles beside a thread that waits for it, and every queue is empty."""
        self.counts.states[State.RESTED] += 1
        statuses = self.statuses()
        idle = [cpu for cpu in self.cpus if all(it.cpu != cpu for it in statuses)]
        for it in statuses:
            allowed = [cpu for cpu in idle if self.masks[it.thread] >> cpu & 1]
            if it.phase is Phase.READY and it.cpu is None and allowed:
                told = f"CPU {allowed[0]} idles at rest, and thread t{it.thread} waits that may run there"
                raise Broken(Rule.AT_REST, "waits", told, commands.status(it.thread).line)
        for cpu in self.cpus:
            if left := self.world.holds(cpu):
                raise Broken(Rule.EMPTIED, "leaves", f"agent {cpu} leaves messages in its queue at rest: {left}")

    def look(self) -> None:
        """Counts the states that threads, CPUs and agents are in."""
        statuses, states = self.statuses(), self.counts.states
        busy = {it.cpu for it in statuses if it.cpu is not None}
        for it in statuses:
            mask, home = self.masks[it.thread], self.world.home(it.thread)
            waits = it.phase is Phase.READY and it.cpu is None
            states[State.RUNS] += it.cpu is not None
            states[State.WAITS] += waits
            states[State.BLOCKED] += it.phase is Phase.BLOCKED
            states[State.DEAD] += it.phase is Phase.DEAD
            states[State.AWAY] += not mask >> home & 1
            states[State.ELSEWHERE] += waits and any(mask >> cpu & 1 for cpu in self.cpus if cpu not in {*busy, home})
        states[State.FULL] += len(busy) == len(self.cpus)
        states[State.ASLEEP] += len(self.awake()) < len(self.cpus)

    def script(self, broken: Broken | None = None) -> list[str]:
        """What was said, without what was refused and changed nothing; and the line that shows what is broken."""
        told = self.world.told
        lines = [line for line, answer in told if not answer.startswith("refused ") or answer == "refused NothingReady"]
        if broken is not None and broken.line is not None and told[-1] != (broken.line, "refused NothingReady"):
            lines.append(broken.line)
        return lines


def _uncaught(cpu: int, met: Refused | Fault) -> Broken:
    """An agent does not catch what it meets."""
    sort = f"{met.command.split(' ')[0]} {type(met).__name__}"
    told = f"agent {cpu} asks what is refused, and does not catch that: {met}"
    return Broken(UNCAUGHT.get(sort, Rule.ALONE), sort, told, met.command)

"""Runs of agents by a seed, as `pc-sim run --seed` has them: the machine of protocol.py, a driver, and what they come to.

It draws by the generator that the program has, in the same order, so both have the same run by each seed.
"""
from collections import Counter, deque
from collections.abc import Sequence
from typing import NamedTuple

from kernel import ENVIRONMENT, LEAVES, WORD32, WORD64, Agent, World
from protocol import Machine, Note, Rule, Seat
from ranks import policy_of
from runs import COUNTS, LIMITS, OTHERS, Leave, Settings, Told, totals

WEIGHTS = (1, 4, 16, 64)
# A run goes on for so many turns of each agent by the odds without a thread that comes to run.
TURNS_OF_NONE = 64
# A run that goes on for so many steps more is given up.
MORE_DRAWN = 20_000
AT_REST, ASKING = "no agent will look at it", "agents ask each other without end"


class Chance:
    """The generator PCG XSH RR 64/32, made of a number as Rust does it."""

    MULTIPLIER = 6_364_136_223_846_793_005

    def __init__(self, number: int) -> None:
        self.state, self.increment = number, 0xA176_54E4_6FBE_17F3
        words = [self.turned(self.step()) for _ in range(4)]
        self.increment = words[2] | words[3] << 32 | 1
        self.state = (words[0] | words[1] << 32) + self.increment
        self.step()

    def step(self) -> int:
        self.state = (self.state * self.MULTIPLIER + self.increment) & WORD64
        return self.state

    def turned(self, state: int) -> int:
        word, by = (state >> 18 ^ state) >> 27 & WORD32, state >> 59
        return (word >> by | word << (-by & 31)) & WORD32

    def word(self) -> int:
        state = self.state
        self.step()
        return self.turned(state)

    def below(self, bound: int) -> int:
        return (self.word() | self.word() << 32) % bound


class Fault(Exception):
    """How a run ends that has no report."""


class Call(NamedTuple):
    """A call that the kernel accepted, as a line; of which queue it changes the items, and by how many."""

    line: str
    queue: int | None = None
    more: int = 0


def script_of(cpus: int, calls: Sequence[Call]) -> str:
    """The calls as a script, with a `publish` where an agent must have looked: its queue held what it removes next."""
    lines, held = [f"enclave {cpus} {' '.join(map(str, LIMITS))}"], [0] * cpus
    removed = [deque(-it.more for it in calls if it.queue == cpu and it.more <= 0) for cpu in range(cpus)]
    for call in calls:
        lines.append(call.line)
        if (queue := call.queue) is not None:
            held[queue] += call.more
            if call.more <= 0:
                removed[queue].popleft()
            if held[queue] > 0 and removed[queue] and removed[queue][0] == held[queue]:
                lines.append(f"publish {queue}")
    return "\n".join([*lines, ""])


class Run(Machine):
    """A run by a seed, whose agents keep all rules but one."""

    def __init__(self, asked: Settings, policy: str, seed: int, without: Rule | None = None) -> None:
        super().__init__(asked.cpus, without)
        self.world = World(asked.cpus, *LIMITS, *policy_of(policy.encode()))
        self.asked, self.seed, self.chance = asked, seed, Chance(seed)
        # The driver's, and those of agents.
        self.weights = [WEIGHTS[self.chance.word() % 4] for _ in range(1 + asked.cpus)]
        self.calls: list[Call] = []
        self.counts = [Counter[str]() for _ in self.seats]
        self.turns = [0 for _ in self.seats]
        self.done = [0 for _ in asked.plans]
        self.noticed: list[int] = []  # CPUs on which a thread came to run
        self.blocked: int | None = None  # the thread that the driver wakes next

    # Calls of the kernel

    def say(self, line: str) -> str:
        answer = self.world.say(line)
        verb, cpu = line.split()[:2]
        if verb in ("pick", "steal", "consume"):
            self.count(verb, self.counts[int(cpu)], answer)
        if not answer.startswith("refused"):
            self.enter(line, answer)
        return answer

    def count(self, verb: str, counts: Counter[str], answer: str) -> None:
        outcome, name = answer.split()[:2]
        if outcome == "refused":
            counts[{"Stale": "stale", "Pending": "pending"}.get(name, "other")] += 1
            counts[name] += 1
        elif verb == "consume":
            counts["taken"] += int(name)
        else:
            counts["commits" if verb == "pick" else "steals"] += 1

    def enter(self, line: str, answer: str) -> None:
        if call := self.call_of(line, answer):
            self.calls.append(call)

    def call_of(self, line: str, answer: str) -> Call | None:
        """The call of the kernel behind what was answered so, if there is one."""
        verb, *words = line.split()
        if verb in ENVIRONMENT:
            return self.posted(line, answer)
        if verb == "consume":
            return Call(line, int(words[0]), -int(answer.split()[1]))
        if verb == "pick":
            return Call(self.committed(int(words[0]), answer.split()[1], int(words[1])))
        if verb == "steal":
            name = answer.split()[1]
            return Call(f"associate {name} {words[0]} {self.number_of(int(name[1:]), int(words[0]))}")
        return Call(f"rouse {words[0]}") if verb == "crash" else Call(line) if verb == "sleep" else None

    def posted(self, line: str, answer: str) -> Call:
        return Call(line, int(answer.partition(" q")[2].split()[0]), 1)

    def committed(self, cpu: int, name: str, aseq: int) -> str:
        return f"commit {cpu} {name} {aseq}"

    def number_of(self, name: int, cpu: int) -> int:
        """Up to which message of the thread the agent knows all."""
        return self.world.agents[cpu].upto.get(name, 0)

    # Agents

    def ask(self, cpu: int) -> None:
        agent = self.world.agents[cpu]
        for other, seat in enumerate(self.seats):
            if other != cpu:
                known = Agent(dict(agent.upto), {name: set(early) for name, early in agent.early.items()})
                seat.box.append(Note("question", cpu, known))

    def answer(self, cpu: int, note: Note) -> None:
        """By what the asker knew when it asked: it may have started again since."""
        self.world.answer_to(cpu, note.known or Agent())

    def begins(self, cpu: int) -> bool:
        return self.seats[cpu].stage == "look"

    def restarts_at(self, cpu: int, turn: int) -> bool:
        return (cpu, turn) in self.asked.restarts

    def restart(self, cpu: int) -> None:
        self.say(f"crash {cpu}")
        self.ask(cpu)

    def serve(self, cpu: int, place: int) -> None:
        """The agent's next step; ahead of its turn its restart, where one is asked for."""
        if self.begins(cpu):
            self.turns[cpu] += 1
            if self.restarts_at(cpu, self.turns[cpu]):
                self.restart(cpu)
        ran = self.world.running[cpu]
        getattr(self, self.seats[cpu].stage)(cpu, place)
        if ran is None and self.world.running[cpu] is not None:
            self.notice(cpu)

    # The driver

    def notice(self, cpu: int) -> None:
        self.noticed.append(cpu)

    def post(self, line: str) -> str:
        answer = super().post(line)
        if answer.startswith("refused"):
            raise Fault("Driver")
        return answer

    def next_of(self, name: int) -> Leave:
        """The thread's next step, which then is done."""
        done, steps = self.done[name], self.asked.plans[name].steps
        if done == len(steps):
            raise Fault("Driver")
        self.done[name] += 1
        return steps[done]

    def blocks(self, name: int) -> None:
        self.blocked = name

    def wake(self, name: int) -> None:
        self.post(f"wake t{name}")

    def leave(self, cpu: int, how: str, ran: int) -> None:
        self.post(f"{how} {cpu} {ran}")

    def drive(self, place: int) -> None:
        if self.blocked is not None:
            name, self.blocked = self.blocked, None
            self.wake(name)
            return
        cpu = self.noticed.pop(place)
        if (name := self.world.running[cpu]) is None:
            raise Fault("Driver")
        how, ran = self.next_of(name)
        if how == "block":
            self.blocks(name)
        self.leave(cpu, how, ran)

    # The whole run

    def drivers(self) -> int:
        """How many choices the driver has."""
        return len(self.noticed) if self.blocked is None else 1

    def next(self, driver: int) -> tuple[int, int] | None:
        """Whose step is next, -1 for the driver, and which of its choices."""
        choices = [driver, *map(self.choices, range(self.asked.cpus))]
        able = [place for place, it in enumerate(choices) if it]
        if not able:
            return None
        drawn = self.chance.below(sum(self.weights[place] for place in able))
        last = None
        for place in filter(lambda it: self.may_go(it, choices[it]), able):
            if drawn < self.weights[place]:
                return place - 1, self.chance.below(choices[place])
            drawn -= self.weights[place]
            last = place - 1, 0
        return last

    def may_go(self, place: int, choices: int) -> bool:
        return choices > 0

    def most_of_none(self) -> int:
        return TURNS_OF_NONE * WEIGHTS[-1] * (self.asked.cpus + 1) * (self.asked.cpus + 2)

    def is_over(self, of_none: int) -> bool:
        """Whether for so many steps no thread came to run that none will."""
        return of_none > self.most_of_none()

    def play(self) -> None:
        for plan in self.asked.plans:
            self.post(f"create {plan.queue} {plan.mask} ready")
        of_none = 0
        for _ in range(self.most_of_none() + MORE_DRAWN):
            driver = self.drivers()
            of_none = 0 if driver else of_none + 1
            if self.is_over(of_none) or not (turn := self.next(driver)):
                return
            if turn[0] < 0:
                self.drive(turn[1])
            else:
                self.serve(*turn)
        raise Fault("GaveUp")

    # What it comes to

    def idles_for(self, name: int, cpu: int) -> bool:
        thread = self.world.threads[name]
        return thread.now.may_run(cpu) and thread.cpu is None and self.world.running[cpu] is None

    def held_up(self) -> tuple[int, int] | None:
        """The least thread that waits for a CPU that idles, and the least such CPU."""
        names, cpus = range(len(self.world.threads)), range(self.asked.cpus)
        return next(((name, cpu) for name in names for cpu in cpus if self.idles_for(name, cpu)), None)

    def is_at_rest(self) -> bool:
        return not any(map(self.choices, range(self.asked.cpus)))

    def totals(self) -> str:
        """What the listed calls come to."""
        words = [call.line.split() for call in self.calls]
        posts, verbs = [it for it in words if it[0] in ENVIRONMENT and it[0] != "tick"], Counter(it[0] for it in words)
        ran = sum(int(it[2]) for it in posts if it[0] in LEAVES)
        return totals(verbs["create"], len(posts), verbs["commit"], ran)

    def adds_up(self, rows: Sequence[Counter[str]]) -> bool:
        """Whether the rows come to what the calls do."""
        verbs, taken = Counter(it.line.split()[0] for it in self.calls), -sum(min(it.more, 0) for it in self.calls)
        wanted = {"commits": verbs["commit"], "steals": verbs["associate"], "taken": taken}
        return all(sum(row[name] for row in rows) == count for name, count in wanted.items())

    def is_accounted_for(self) -> bool:
        return self.totals() == self.asked.totals() and self.adds_up(self.counts)

    def views(self) -> list[Agent]:
        """What each agent knows, and has in its mailbox."""
        for agent, seat in zip(self.world.agents, self.seats):
            for delta in self.mail(seat):
                agent.learn(self.world.deltas[delta])
        return self.world.agents

    def mail(self, seat: Seat) -> list[int]:
        return [delta for delta in seat.mail if delta < len(self.world.deltas)]

    def is_complete(self) -> bool:
        views = self.views()
        messages = [(it.name, number) for it in self.world.threads for number in range(1, it.number + 1)]
        return all(any(view.knows(*message) for view in views) for message in messages)

    def report(self) -> str:
        if not self.is_accounted_for():
            raise Fault("Unaccounted")
        if not self.is_complete():
            raise Fault("Incomplete")
        return self.text()

    def text(self) -> str:
        text = self.totals()
        for cpu, row in enumerate(self.counts):
            text += " ".join([f"cpu {cpu}", *(f"{name} {row[name]}" for name in COUNTS + OTHERS)]) + "\n"
        return text

    def stall(self) -> tuple[int, int] | None:
        """The thread and the CPU of which a stall is told, where there is one."""
        held = self.held_up()
        if held and not self.idles_for(*held):
            raise Fault("Unaccounted")
        return held

    def manner(self) -> str:
        return AT_REST if self.is_at_rest() and not self.drivers() else ASKING

    def tell(self) -> Told:
        again = f"--seed {self.seed} has it again"
        try:
            self.play()
            if not (held := self.stall()):
                return Told(script_of(self.asked.cpus, self.calls), self.report(), "")
            told = f"Stalled\npc-sim: t{held[0]} waits for CPU {held[1]}, and {self.manner()}; {again}"
            return Told(script_of(self.asked.cpus, self.calls), "", f"pc-sim: run {told}\n")
        except Fault as fault:
            late = f"it was not done in time; --seed {self.seed} has the same run"
            return Told("", "", f"pc-sim: run {fault}\npc-sim: {late if str(fault) == 'GaveUp' else again}\n")

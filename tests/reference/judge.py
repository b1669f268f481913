"""What is wrong with a run of agents, by its settings, its policy, its script and its report.

It knows nothing of how the run was made. It replays the script by the model of tools/kernel.py, with what each agent
surely knows, counts, and asks what docs/PROTOCOL.md tells of a turn, docs/FORMATS.md of settings, scripts and reports,
and docs/PROMISES.md of totals and of the end.
"""
import re
from collections import Counter
from collections.abc import Iterator
from dataclasses import dataclass, field

from kernel import LEAVES, LEFT_OUT, Agent, Item, Kernel, Thread, World
from ranks import policy_of
from runs import COUNTS, LIMITS, OTHERS, ROW, Settings, Told

# What is said of a run that stalled.
STALLED = re.compile(
    r"pc-sim: run Stalled\n"
    r"pc-sim: t(\d+) waits for CPU (\d+), and (no agent will look at it|agents ask each other without end);"
    r" --seed \d+ has it again\n")
ENDED = re.compile(r"pc-sim: run ([A-Za-z]+)\n")
# The lines of a run's script behind its first, with their numbers.
LINE = re.compile(
    r"create (\d+) (\d+) ready|wake t(\d+)|(?:block|yield|preempt|die) (\d+) (\d+)|associate t(\d+) (\d+) (\d+)"
    r"|commit (\d+) t(\d+) (\d+)|sleep (\d+) (\d+)|(?:publish|consume|rouse) (\d+)")
DRIVERS = ("create", "wake", *LEAVES)
# Behind which calls of a turn each other one stands.
BEHIND = {"associate": ("consume",), "commit": ("consume", "associate"), "sleep": ("consume", "commit")}
# What refuses a steal: of the last the agent asks nobody.
REFUSALS = ("Stale", "Pending", "Dead", "NothingToSteal")
# So many turns behind the driver's last call are more than there are before agents come to rest.
MANY_TURNS = 4_000


@dataclass
class Turn:
    """An agent's section of the lock: its calls, and what stood when it had removed what it read."""

    line: int
    is_read: bool  # whether nothing was posted since it looked
    is_busy: bool
    rouses: int  # how often it was roused since its last turn
    listed: list[int]  # what its run list surely has, and may be committed
    ways: set[str]  # how a steal may be answered: by a refusal, or with a thread
    calls: dict[str, int] = field(default_factory=lambda: {"consume": -1})  # each with its thread

    @property
    def picks_nothing(self) -> bool:
        return self.is_read and not self.is_busy and ("associate" in self.calls or "commit" not in self.calls)

    @property
    def steals_nothing(self) -> bool:
        return self.picks_nothing and "associate" not in self.calls


@dataclass
class Seen(World):
    """The kernel, with what each agent surely knows, what it may know, and its run list as far as that is sure.

    It knows what it read since it last started again, and what stood in its mailbox when it slept, since it takes that
    before it looks again. It may know what any agent had looked at by the first look behind that sleep. Its looks are
    done where what it read is removed.
    """

    def __post_init__(self) -> None:
        super().__post_init__()
        self.mail: list[list[Item]] = [[] for _ in self.agents]
        self.before: list[dict[int, int]] = [{} for _ in self.agents]  # the threads' numbers when each started again
        self.own: list[set[int]] = [set() for _ in self.agents]  # the threads that each read of since
        self.had_restart: set[int] = set()
        self.looked = Counter[int]()  # up to which number of each thread some agent may have looked
        self.heard = [Counter[int]() for _ in self.agents]  # and up to which each agent may have been told
        self.may_hear: set[int] = set()  # those that have slept since they last looked
        self.taken, self.woken = Counter[int](), Counter[int]()
        self.news = Counter[int]()  # how often each agent may have been told of news

    def post(self, queue: int, item: Item | None) -> str:
        answer = super().post(queue, item)
        self.woken[queue] += not answer.endswith("-")
        return answer

    def publish(self, cpu: int, fails: str = "") -> str:
        self.looked |= Counter(dict(item for item in self.queues[cpu].items if item))
        return Kernel.publish(self, cpu, fails)

    def consume(self, cpu: int) -> str:
        queue = self.queues[cpu]
        items = [item for item in queue.items[:queue.sent] if item]
        self.read(cpu, [*items])
        self.taken[cpu] += len(items)
        self.own[cpu] |= dict(items).keys()
        if cpu in self.may_hear:
            self.heard[cpu] = self.looked.copy()
            self.may_hear.remove(cpu)
        self.heard[cpu] |= Counter(dict(items)) if self.heard[cpu] else Counter()
        for other in set(range(self.cpus)) - {cpu}:
            # What was posted before it started again it may have taken, and forgotten.
            self.mail[other] += [item for item in items if item[1] > self.before[other].get(item[0], 0)]
            self.news[other] += any(self.is_urgent(cpu, item, other) for item in dict(items).items())
        return super().consume(cpu)

    def is_urgent(self, cpu: int, item: Item, other: int) -> bool:
        """Whether a thread's last message may be urgent there. An agent that started again may not know the thread."""
        return cpu in self.had_restart or self.threads[item[0]].reports[item[1] - 1].may_run(other)

    def sleep(self, cpu: int, aseq: int) -> str:
        answer = super().sleep(cpu, aseq)
        self.agents[cpu].learn(self.mail[cpu])
        self.mail[cpu] = []
        self.may_hear.add(cpu)
        return answer

    def rouse(self, cpu: int) -> str:
        self.agents[cpu], self.mail[cpu], self.own[cpu], self.heard[cpu] = Agent(), [], set(), Counter()
        self.may_hear.discard(cpu)
        self.before[cpu] = {it.name: it.number for it in self.threads}
        self.had_restart.add(cpu)
        return super().rouse(cpu)

    def associate(self, name: int, queue: int, number: int) -> str:
        answer, agent = super().associate(name, queue, number), self.agents[queue]
        agent.learn((name, it) for it in range(1, number + 1))
        agent.names = [name]
        self.own[queue].add(name)
        return answer

    def commit(self, cpu: int, name: int, aseq: int) -> str:
        answer, agent = super().commit(cpu, name, aseq), self.agents[cpu]
        agent.names = agent.names[agent.names.index(name) + 1:] if name in agent.names else agent.names
        return answer

    def listed(self, cpu: int) -> list[int]:
        return [name for name in self.agents[cpu].names if self.would_commit(cpu, name)]

    def may_pick(self, cpu: int, name: int, listed: list[int]) -> bool:
        """Whether the agent picks this thread. One that started again may know more than is sure once it was told; but
        it has read of the thread."""
        if name in listed:
            return name == listed[0]
        ranks = [self.threads[it].now.rank(self.order, it, cpu) for it in [name, *listed]]
        may_know = cpu in self.had_restart and self.heard[cpu] and name in self.own[cpu]
        return bool(may_know) and ranks[0] == min(ranks) < LEFT_OUT

    # How a steal may be answered

    def ways(self, cpu: int) -> set[str]:
        """Where its run list is empty: as that of each thread that it may try is, up to one that it surely tries."""
        found = set[str]()
        idle = [it for it in self.threads if it.cpu is None]
        for thread in sorted(idle, key=lambda it: (self.rank_of(it, cpu), it.name)):
            least = self.agents[cpu].upto.get(thread.name, 0)
            known = range(least, max(least, self.heard[cpu][thread.name]) + 1)
            tried = [it for it in known if it and thread.reports[it - 1].may_run(cpu)]
            if self.exact:
                tried = [it for it in tried if it == thread.number and self.rank_of(thread, cpu) < LEFT_OUT]
            found |= {self.way(thread.name, it) for it in tried}
            if tried == [*known]:
                return found
        return found | {"NothingToSteal"}

    def rank_of(self, thread: Thread, cpu: int) -> int:
        return thread.now.rank(self.order, thread.name, cpu) if self.exact else 0

    def way(self, name: int, number: int) -> str:
        """How a steal of the thread is answered under this number."""
        now, number_now = self.threads[name].now, self.threads[name].number
        late = "Dead" if now.phase == "dead" else "Stale" if number != number_now else ""
        return late or ("Pending" if self.pending[name] else f"t{name}")


class Judge:
    """Goes over the script of a run, and keeps what it finds wrong."""

    def __init__(self, asked: Settings, policy: str, told: Told, by_seed: bool) -> None:
        self.asked, self.told, self.by_seed = asked, told, by_seed
        self.world = Seen(asked.cpus, *LIMITS, *policy_of(policy.encode()))
        self.found: list[str] = []
        self.turns: list[list[Turn]] = [[] for _ in range(asked.cpus)]
        self.rouses = [0 for _ in self.turns]
        self.open: tuple[int, Turn] | None = None  # whose section of the lock it is
        self.done = Counter[int]()  # how many steps each thread did
        self.blocked: int | None = None  # whom the driver wakes next
        self.quiet = 0  # turns since the driver's last call

    def need(self, holds: object, *told: object) -> bool:
        if not holds:
            self.found.append(" ".join(map(str, told)))
        return bool(holds)

    # The script, line by line

    def replay(self) -> None:
        first, *lines = self.told.script.splitlines() or [""]
        wanted = f"enclave {self.asked.cpus} {' '.join(map(str, LIMITS))}"
        self.need(first == wanted, f"The script begins with `{first}`, and not with `{wanted}`.")
        for number, line in enumerate(lines, 2):
            fields = [int(it) for it in told.groups() if it] if (told := LINE.fullmatch(line)) else []
            verb = line.partition(" ")[0]
            is_there = fields and (verb == "wake" or fields[verb == "associate"] < self.asked.cpus)
            if self.need(is_there, f"Line {number}: no run by these settings has a `{line}`."):
                self.take(number, verb, line, fields)

    def take(self, number: int, verb: str, line: str, fields: list[int]) -> None:
        """Makes a call, and tells what it is in the turn of its agent."""
        if verb in BEHIND:
            self.take_in_turn(number, verb, line, fields)
        elif verb == "publish":
            queue, told = self.world.queues[fields[0]], f"agent {fields[0]} looks at nothing, or once more."
            self.need(queue.items and not queue.sent, f"Line {number}:", told)
        else:
            self.open = None
        if verb in DRIVERS:
            self.take_drivers(number, line, fields)
        elif verb == "rouse":
            self.rouses[fields[0]] += 1
        answer = self.world.say(line)
        if self.need(answer.startswith("ok"), f"Line {number}: `{line}` is {answer}.") and verb == "consume":
            self.begin(number, fields[0])

    def begin(self, number: int, cpu: int) -> None:
        """A section of the agent's lock begins."""
        world, rouses = self.world, self.rouses[cpu]
        is_read, is_busy = not world.queues[cpu].items, world.running[cpu] is not None
        turn = Turn(number, is_read, is_busy, rouses, world.listed(cpu), world.ways(cpu))
        self.open, self.rouses[cpu] = (cpu, turn), 0
        self.turns[cpu].append(turn)
        self.quiet += 1

    def take_in_turn(self, number: int, verb: str, line: str, fields: list[int]) -> None:
        cpu, name = (fields[1], fields[0]) if verb == "associate" else (fields[0], fields[1])
        turn = self.open[1] if self.open and self.open[0] == cpu else None
        is_due, where = turn and [*turn.calls][-1] in BEHIND[verb], f"Line {number}: `{line}`"
        if self.need(is_due, where, f"does not stand in a turn of agent {cpu} where it belongs.") and turn:
            self.judge_call(f"{where},", turn, verb, cpu, name)
            turn.calls[verb] = name

    def take_drivers(self, number: int, line: str, fields: list[int]) -> None:
        """A call of the driver has to be what the settings ask for."""
        wanted, verb = self.wanted(line, fields), line.split()[0]
        self.need(line == wanted, f"Line {number}: the driver does `{line}`, and the settings ask for `{wanted}`.")
        running = self.world.running[fields[0]] if verb in LEAVES else None
        if running is not None:
            self.done[running] += 1
        self.blocked, self.quiet = running if verb == "block" else None, 0

    def wanted(self, line: str, fields: list[int]) -> str:
        """What the driver does here: it creates all threads first, and wakes by its next call whom it blocked."""
        world, plans = self.world, self.asked.plans
        if (place := len(world.threads)) < len(plans):
            return f"create {plans[place].queue} {plans[place].mask} ready"
        if self.blocked is not None:
            return f"wake t{self.blocked}"
        name = world.running[fields[0]] if line.split()[0] in LEAVES else None
        if name is None or self.done[name] >= len(plans[name].steps):
            return "nothing"
        how, ran = plans[name].steps[self.done[name]]
        return f"{how} {fields[0]} {ran}"

    # Turns

    def judge_call(self, where: str, turn: Turn, verb: str, cpu: int, name: int) -> None:
        """What an agent does in its turn, ahead of the call."""
        if not self.need(turn.is_read, where, f"and agent {cpu} has not read all of its queue."):
            return
        if verb == "associate":
            may_be = not turn.is_busy and f"t{name}" in turn.ways
            self.need(may_be, where, f"and agent {cpu}'s steal is answered {' or '.join(sorted(turn.ways))}.")
        elif verb == "commit" and "associate" in turn.calls:
            self.need(turn.calls["associate"] == name, where, "behind a steal of another thread.")
        elif verb == "commit" and name < len(self.world.threads):
            is_first, first = self.world.may_pick(cpu, name, turn.listed), "".join(f"t{it}" for it in turn.listed[:1])
            self.need(is_first, where, f"and first in agent {cpu}'s run list is {first or 'nothing'}.")

    def turns_of(self, cpu: int) -> list[Turn]:
        """An agent's turns: the last look of an agent in a thread, when all is done, is none."""
        turns = self.turns[cpu]
        is_end = not self.by_seed and turns and [*turns[-1].calls] == ["consume"]
        return turns[:-1] if is_end else turns

    def judge_turns(self, cpu: int) -> None:
        for place, turn in enumerate(self.turns_of(cpu), 1):
            where, restarts = f"Line {turn.line}: in turn {place} of agent {cpu}", (cpu, place) in self.asked.restarts
            told = f"there are {turn.rouses} rouses ahead of it, and not {restarts:d}."
            self.need(turn.rouses == restarts, where, told)
            self.need("sleep" in turn.calls or not turn.is_read, where, "all is read, and it does not sleep.")
            if turn.picks_nothing and turn.listed:
                self.need(False, where, f"t{turn.listed[0]} is in its run list, and is not committed.")
            if turn.steals_nothing:
                may_be = not turn.ways.isdisjoint(REFUSALS)
                self.need(may_be, where, f"it takes nothing over, and there is {' or '.join(sorted(turn.ways))}.")

    # The report

    def rows(self) -> Iterator[dict[str, int]]:
        """The counts of each CPU."""
        lines = self.told.report.splitlines()[4:]
        self.need(len(lines) == self.asked.cpus, f"The report has {len(lines)} rows for {self.asked.cpus} CPUs.")
        for place, line in enumerate(lines[:self.asked.cpus]):
            row = ROW.fullmatch(line)
            if self.need(row and int(row[1]) == place, f"The row `{line}` is not that of CPU {place}.") and row:
                yield dict(zip(COUNTS + OTHERS, map(int, row.groups()[1:])))

    def judge_report(self) -> None:
        wanted = self.asked.totals()
        begins = self.told.report.startswith(wanted)
        self.need(begins, "The report does not begin with what the settings come to:", wanted.replace("\n", ", "))
        rows = [*self.rows()]
        for cpu, row in enumerate(rows):
            self.judge_row(cpu, row)
        if len(rows) == self.asked.cpus and self.by_seed:
            asks = [self.asks_of(cpu, row) for cpu, row in enumerate(rows)]
            for cpu in range(self.asked.cpus):
                self.judge_notes(cpu, asks)

    def judge_row(self, cpu: int, row: dict[str, int]) -> None:
        turns = self.turns_of(cpu)
        wanted = {
            "taken": self.world.taken[cpu],
            "commits": sum("commit" in it.calls for it in turns),
            "steals": sum("associate" in it.calls for it in turns),
            "other": sum(row[name] for name in OTHERS),
            "Busy": sum(it.is_read and it.is_busy for it in turns),
            "NothingReady": sum(it.picks_nothing for it in turns),
        }
        for name, count in wanted.items():
            self.need(row[name] == count, f"The row of CPU {cpu} has {name} {row[name]}, and the script {count}.")
        self.judge_steals(cpu, row, [it.ways.intersection(REFUSALS) for it in turns if it.steals_nothing])

    def stale_picks(self, cpu: int) -> int:
        return sum(not it.is_read for it in self.turns_of(cpu))

    def judge_steals(self, cpu: int, row: dict[str, int], ways: list[set[str]]) -> None:
        """Each refused steal of the agent was answered in one of the ways that there were."""
        stale = row["stale"] - self.stale_picks(cpu)
        counts = dict(zip(REFUSALS, (stale, row["pending"], row["Dead"], row["NothingToSteal"])))
        for name, count in counts.items():
            least, most = sum(it == {name} for it in ways), sum(name in it for it in ways)
            told = f"Agent {cpu} had {count} steals refused as {name}, and by the script {least} to {most}."
            self.need(least <= count <= most, told)
        refused = sum(counts.values())
        self.need(refused == len(ways), f"Agent {cpu} had {refused} steals refused, and by the script {len(ways)}.")

    def asks_of(self, cpu: int, row: dict[str, int]) -> int:
        """How often the agent asks the others: where its steal was late, and where it starts again."""
        late = row["stale"] - self.stale_picks(cpu) + row["pending"] + row["Dead"]
        return late + sum(it.rouses for it in self.turns_of(cpu))

    def judge_notes(self, cpu: int, asks: list[int]) -> None:
        """Each turn but the first follows a note, or a sleep that was refused, and each note is taken. An agent is told
        that it woke, asked, and answered by each that it asked; how often it was told of news has only a bound."""
        notes = len(self.turns_of(cpu)) - 1 - self.stale_picks(cpu)
        least = self.world.woken[cpu] + sum(asks) - asks[cpu] + asks[cpu] * (self.asked.cpus - 1)
        most = least + self.world.news[cpu]
        self.need(least <= notes <= most, f"Agent {cpu} took {notes} notes, and {least} to {most} were sent to it.")

    # The end

    def judge_end(self) -> None:
        """Of a run that is done: all threads are dead, all is read, and all agents sleep."""
        for name, plan in enumerate(self.asked.plans):
            is_dead = name < len(self.world.threads) and self.world.threads[name].now.phase == "dead"
            self.need(is_dead and self.done[name] == len(plan.steps), f"t{name} is not dead, behind all its steps.")
        for cpu, queue in enumerate(self.world.queues):
            is_done = not queue.items and self.world.sleeps[cpu] and not self.rouses[cpu]
            self.need(is_done, f"Agent {cpu} does not sleep in the end, or has not read all.")

    def judge_stall(self, name: int, cpu: int, manner: str) -> None:
        """It tells the least thread that waits for a CPU that idles, the least such CPU, and whether no agent looks."""
        world, restarting = self.world, {it for it, _ in self.asked.restarts}
        idle = [it for it in range(world.cpus) if world.running[it] is None]
        waits = [(it.name, at) for it in world.threads if it.cpu is None for at in idle if it.now.may_run(at)]
        if self.need((name, cpu) in waits[:1], f"t{name} and CPU {cpu} are not the first that are held up."):
            others = [it for it in range(world.cpus) if world.threads[name].now.may_run(it) and it not in restarting]
            had_all = len(restarting) > 1 and not others
            self.need(had_all, f"t{name} waits for CPU {cpu}, and not all agents that may have it started again.")
        is_at_rest = self.quiet < MANY_TURNS and all(world.sleeps) and not any(it.items for it in world.queues)
        self.need(is_at_rest == (manner == "no agent will look at it"), f"It is said of the stall: {manner}.")
        self.need(not self.told.report, "A run that stalled has a report.")

    def judge_fault(self) -> None:
        """Only where each agent starts again a run may be incomplete."""
        ended, restarting = ENDED.match(self.told.said), {cpu for cpu, _ in self.asked.restarts}
        may_be = ended and ended[1] == "Incomplete" and len(restarting) == self.asked.cpus
        self.need(may_be, "The run is not done:", self.told.said.replace("\n", "; "))

    def judge(self) -> None:
        stalled = STALLED.fullmatch(self.told.said)
        if self.told.said and not stalled:
            self.judge_fault()
            return
        self.replay()
        for cpu in range(self.asked.cpus):
            self.judge_turns(cpu)
        if stalled:
            self.judge_stall(int(stalled[1]), int(stalled[2]), stalled[3])
        else:
            self.judge_end()
            self.judge_report()


def faults_of(asked: Settings, policy: str, told: Told, by_seed: bool = True) -> list[str]:
    """What is wrong with what a run by these settings and this policy told, each in a sentence."""
    judge = Judge(asked, policy, told, by_seed)
    judge.judge()
    return judge.found

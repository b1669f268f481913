"""Runs by a seed that depart from what is proved, each as a wrong body of crates/*/wrong-bodies does, by its name."""
from collections import Counter
from collections.abc import Sequence
from enum import Enum
from typing import Any

from kernel import Agent
from protocol import Note, Rule, Seat
from runs import Leave, Settings
from seeded import AT_REST, ASKING, Call, Fault, Run


class Deviation(Enum):
    """A wrong body of pc_threads, pc_seeds or pc_protocol, by the name of its edit. Those of a rule are in RULES."""

    NOT_WOKEN = "a-blocked-thread-is-not-woken"
    OTHER_COMMIT_LISTED = "a-commit-is-listed-under-another-count"
    FRESH_BOOK = "a-report-is-of-a-fresh-book"
    ROUSE_UNLISTED = "a-rouse-is-made-and-not-listed"
    SLEEP_UNMADE = "a-sleep-is-listed-and-not-made"
    OTHER_STEAL_LISTED = "a-steal-is-listed-under-another-number"
    TICK_POSTED = "a-tick-is-posted-in-place-of-the-call"
    USUAL_POLICY = "an-agent-goes-by-the-usual-policy"
    COUNT_OF_NOW = "an-agent-picks-under-the-count-of-now"
    OTHER_ANSWER_LISTED = "another-answer-is-listed"
    UNACCOUNTED = "each-run-is-unaccounted"
    OTHER_QUEUE_READ = "peek-reads-another-queue"
    LAST_VIEW_LEFT_OUT = "settle-merges-all-but-the-last"
    LAST_ROW_UNSUMMED = "the-rows-are-summed-but-for-the-last"
    OTHER_TICKS = "the-ticks-of-a-step-are-changed"
    OTHER_CPU_NOTICED = "a-commit-is-not-noticed"
    LAST_ROW_LEFT_OUT = "a-report-lacks-its-last-row"
    ENDS_AT_ONCE = "a-run-ends-while-the-driver-has-a-choice"
    LATER_THREAD_STALLED = "a-stall-tells-a-later-thread"
    OTHER_CPU_STALLED = "a-stall-tells-another-cpu"
    NO_STALL = "a-stalled-run-is-no-stall"
    STEP_DONE_TWICE = "a-step-is-done-twice"
    RESTARTS_UNASKED = "agents-start-again-unasked"
    ALWAYS_AT_REST = "each-stall-is-at-rest"
    ALWAYS_ASKING = "each-stall-is-told-as-asking"
    WAKE_FORGOTTEN = "who-blocked-is-not-woken"
    NO_TURN_BY_ONE_CHOICE = "who-has-one-choice-gets-no-turn"
    ASKS_AS_ANOTHER = "a-late-steal-asks-in-the-name-of-another"
    LOOK_UNSENT = "a-look-sends-nothing"
    ONE_SEAT = "a-machine-has-one-seat"
    RESTS_WITH_A_NOTE = "a-machine-with-one-note-rests"
    MAIL_UNREAD = "a-mailbox-is-read-as-empty"
    NOTHING_FORGOTTEN = "a-restart-forgets-nothing"
    SLEEPS_BY_NO_COUNT = "a-sleep-goes-by-no-count"
    NOTHING_REMOVED = "an-act-consumes-nothing"
    ANSWERS_ITSELF = "an-answer-goes-to-who-gives-it"
    NEVER_ACTS = "who-has-put-all-has-no-choice"
    NEVER_BEGINS = "who-waits-is-at-the-begin"


# Wrong bodies that are a rule of protocol.py left out.
RULES = {
    "a-call-that-wakes-tells-nobody": Rule.TELLS_WHO_WOKE,
    "an-agent-waits-on-behind-a-note": Rule.TURNS_BEHIND_NOTES,
    "news-is-always-quiet": Rule.TELLS_OF_URGENT_NEWS,
}


RUNS: dict[Deviation, type[Run]] = {}


class Deviant(Run):
    """A run with one wrong body, which stands in place of a method."""

    def __init_subclass__(cls, of: Deviation, **more: Any) -> None:
        super().__init_subclass__(**more)
        RUNS[of] = cls


# What the book lists

class OtherCommitListed(Deviant, of=Deviation.OTHER_COMMIT_LISTED):
    def committed(self, cpu: int, name: str, aseq: int) -> str:
        return super().committed(cpu, name, aseq // 2)


class OtherStealListed(Deviant, of=Deviation.OTHER_STEAL_LISTED):
    def number_of(self, name: int, cpu: int) -> int:
        return super().number_of(name // 2, cpu)


class RouseUnlisted(Deviant, of=Deviation.ROUSE_UNLISTED):
    def call_of(self, line: str, answer: str) -> Call | None:
        return None if line.startswith("crash ") else super().call_of(line, answer)


class OtherAnswerListed(Deviant, of=Deviation.OTHER_ANSWER_LISTED):
    def posted(self, line: str, answer: str) -> Call:
        return Call(line)


class SleepUnmade(Deviant, of=Deviation.SLEEP_UNMADE):
    def say(self, line: str) -> str:
        if not line.startswith("sleep "):
            return super().say(line)
        self.enter(line, "ok")
        return "ok"


# What the driver does

class TickPosted(Deviant, of=Deviation.TICK_POSTED):
    def post(self, line: str) -> str:
        return super().post("tick 0")


class OtherTicks(Deviant, of=Deviation.OTHER_TICKS):
    def leave(self, cpu: int, how: str, ran: int) -> None:
        super().leave(cpu, how, ran // 2 if how == "preempt" else ran)

    def is_accounted_for(self) -> bool:
        """Of a run in threads that is proved, and not asked."""
        return True


class NotWoken(Deviant, of=Deviation.NOT_WOKEN):
    def wake(self, name: int) -> None:
        pass


class WakeForgotten(Deviant, of=Deviation.WAKE_FORGOTTEN):
    def blocks(self, name: int) -> None:
        pass


class OtherCpuNoticed(Deviant, of=Deviation.OTHER_CPU_NOTICED):
    def notice(self, cpu: int) -> None:
        super().notice(0)


class StepDoneTwice(Deviant, of=Deviation.STEP_DONE_TWICE):
    def next_of(self, name: int) -> Leave:
        step = super().next_of(name)
        self.done[name] -= 1
        return step


# Whose step is next

class EndsAtOnce(Deviant, of=Deviation.ENDS_AT_ONCE):
    def is_over(self, of_none: int) -> bool:
        return True


class NoTurnByOneChoice(Deviant, of=Deviation.NO_TURN_BY_ONE_CHOICE):
    def may_go(self, place: int, choices: int) -> bool:
        return choices > (1 if place else 0)


class NeverActs(Deviant, of=Deviation.NEVER_ACTS):
    def choices(self, cpu: int) -> int:
        return 0 if self.seats[cpu].stage == "act" else super().choices(cpu)


class OneSeat(Deviant, of=Deviation.ONE_SEAT):
    def choices(self, cpu: int) -> int:
        return 0 if cpu else super().choices(cpu)


# What agents do

class UsualPolicy(Deviant, of=Deviation.USUAL_POLICY):
    def __init__(self, asked: Settings, policy: str, seed: int) -> None:
        super().__init__(asked, "levels", seed)


class NeverBegins(Deviant, of=Deviation.NEVER_BEGINS):
    def begins(self, cpu: int) -> bool:
        return False


class RestartsUnasked(Deviant, of=Deviation.RESTARTS_UNASKED):
    def restarts_at(self, cpu: int, turn: int) -> bool:
        return not super().restarts_at(cpu, turn)


class NothingForgotten(Deviant, of=Deviation.NOTHING_FORGOTTEN):
    def restart(self, cpu: int) -> None:
        self.say(f"consume {cpu}")
        self.ask(cpu)


class OtherQueueRead(Deviant, of=Deviation.OTHER_QUEUE_READ):
    def look(self, cpu: int, place: int) -> None:
        queues, other = self.world.queues, self.world.queues[cpu // 2]
        own, sent = queues[cpu], other.sent
        queues[cpu] = other
        super().look(cpu, place)
        queues[cpu], other.sent = own, sent
        own.sent = len(other.items)

    def act(self, cpu: int, place: int) -> None:
        """An agent that would remove more than there is gives the run up."""
        if self.world.queues[cpu].sent > len(self.world.queues[cpu].items):
            raise Fault("GaveUp")
        super().act(cpu, place)


class LookUnsent(Deviant, of=Deviation.LOOK_UNSENT):
    def say(self, line: str) -> str:
        return super().say(f"{line} fail" if line.startswith("publish ") else line)

    def has_urgent(self, cpu: int, delta: int, to: int) -> bool:
        return delta >= len(self.world.deltas) or super().has_urgent(cpu, delta, to)


class NothingRemoved(Deviant, of=Deviation.NOTHING_REMOVED):
    def say(self, line: str) -> str:
        verb, cpu, *_ = line.split()
        return super().say(f"pick {cpu} {self.seats[int(cpu)].aseq}" if verb == "consume" else line)


class CountOfNow(Deviant, of=Deviation.COUNT_OF_NOW):
    def choose(self, cpu: int, aseq: int) -> None:
        super().choose(cpu, self.world.queues[cpu].posts)


class SleepsByNoCount(Deviant, of=Deviation.SLEEPS_BY_NO_COUNT):
    def say(self, line: str) -> str:
        return super().say(line.rpartition(" ")[0] + " 0" if line.startswith("sleep ") else line)


class AsksAsAnother(Deviant, of=Deviation.ASKS_AS_ANOTHER):
    def ask(self, cpu: int) -> None:
        super().ask(0 if self.seats[cpu].stage == "act" else cpu)


class AnswersItself(Deviant, of=Deviation.ANSWERS_ITSELF):
    def answer(self, cpu: int, note: Note) -> None:
        super().answer(cpu, note)
        note.number = cpu


# What the run comes to

class Unaccounted(Deviant, of=Deviation.UNACCOUNTED):
    def is_accounted_for(self) -> bool:
        return False


class LastRowUnsummed(Deviant, of=Deviation.LAST_ROW_UNSUMMED):
    def adds_up(self, rows: Sequence[Counter[str]]) -> bool:
        return super().adds_up(rows[:-1])


class LastViewLeftOut(Deviant, of=Deviation.LAST_VIEW_LEFT_OUT):
    def views(self) -> list[Agent]:
        return super().views()[:-1]


class MailUnread(Deviant, of=Deviation.MAIL_UNREAD):
    def mail(self, seat: Seat) -> list[int]:
        return []


class LastRowLeftOut(Deviant, of=Deviation.LAST_ROW_LEFT_OUT):
    def text(self) -> str:
        return "".join(super().text().splitlines(keepends=True)[:-1])


class FreshBook(Deviant, of=Deviation.FRESH_BOOK):
    def text(self) -> str:
        self.calls = []
        return super().text()


class LaterThreadStalled(Deviant, of=Deviation.LATER_THREAD_STALLED):
    def idles_for(self, name: int, cpu: int) -> bool:
        return name > 0 and super().idles_for(name, cpu)


class NoStall(Deviant, of=Deviation.NO_STALL):
    def idles_for(self, name: int, cpu: int) -> bool:
        return cpu > 0 and super().idles_for(name, cpu)


class OtherCpuStalled(Deviant, of=Deviation.OTHER_CPU_STALLED):
    def held_up(self) -> tuple[int, int] | None:
        held = super().held_up()
        return (held[0], self.asked.cpus) if held else None


class AlwaysAtRest(Deviant, of=Deviation.ALWAYS_AT_REST):
    def manner(self) -> str:
        return AT_REST


class AlwaysAsking(Deviant, of=Deviation.ALWAYS_ASKING):
    def manner(self) -> str:
        return ASKING


class RestsWithANote(Deviant, of=Deviation.RESTS_WITH_A_NOTE):
    def is_at_rest(self) -> bool:
        return all(self.choices(cpu) <= 1 for cpu in range(self.asked.cpus))

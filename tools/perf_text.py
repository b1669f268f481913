"""Reads the text of `perf sched script` or `perf script` as events of the scheduler, and what only all of it says."""
import re
from collections import Counter
from collections.abc import Iterable
from dataclasses import dataclass, field
from typing import NamedTuple

# The kinds of events. RUNS is no event of the scheduler: it says who is on a CPU, where no switch has told.
RUNS, SWITCH, WAKE, WAKE_NEW, FORK, MOVE, EXIT = range(7)
# What RUNS and WAKE were read from, in place of a state (no state is so written), and how they are told of if dropped.
BY_HEAD, BY_WAKEUP = "(head)", "(wakeup)"
DROPPED = {BY_HEAD: "threads that are told by pids of another namespace", BY_WAKEUP: "wakeups, which repeat wakings"}


class BadLine(Exception):
    """A line that is no event, with its number; or that no line is one."""


class Event(NamedTuple):
    """One event of the scheduler. Of a switch, `pid` is the thread that leaves and `other` the one that comes."""

    kind: int
    time: int  # nanoseconds
    cpu: int  # where the event was recorded
    pid: int
    comm: str
    target: int = 0  # a CPU: where the thread goes
    state: str = ""  # in which a thread leaves a CPU; or what an event was read from
    other: int = 0  # the thread that comes on, or the child
    other_comm: str = ""


# Reading the text

# The pid in front of an event, and its CPU and time. One pattern for all of the head would look at a long line again from
# each of its blanks.
PID = re.compile(r"(?:\d+/)?(-?\d+)")
STAMP = re.compile(r"\[(\d+)\] +(\d+)\.(\d{6,9}): +")
CALL_CHAIN = re.compile(r"\s+[0-9a-f]+ \S")
LOST = re.compile(r"PERF_RECORD_LOST(?:_SAMPLES)?\s+lost (\d+)")

# How the events are written, in full and in short. Their parts have the names of those of Event.
BY = r"comm=(?P<comm>.*) pid=(?P<pid>\d+) "
SWITCHED = re.compile(
    r"prev_comm=(?P<comm>.*) prev_pid=(?P<pid>\d+) prev_prio=-?\d+ prev_state=(?P<state>[A-Za-z|+]+) ==> "
    r"next_comm=(?P<other_comm>.*) next_pid=(?P<other>\d+) next_prio=-?\d+\s*"
)
SWITCHED_SHORT = re.compile(
    r"(?P<comm>.*):(?P<pid>\d+) \[-?\d+\] (?P<state>[A-Za-z|+]+) ==> (?P<other_comm>.*):(?P<other>\d+) \[-?\d+\]\s*"
)
WOKEN = re.compile(BY + r"prio=-?\d+(?: success=\d+)? target_cpu=(?P<target>\d+)\s*")
WOKEN_SHORT = re.compile(r"(?P<comm>.*):(?P<pid>\d+) \[-?\d+\](?: success=\d+)? CPU:(?P<target>\d+)\s*")
FORMS: dict[str, tuple[int, tuple[re.Pattern[str], ...]]] = {
    "sched_switch": (SWITCH, (SWITCHED, SWITCHED_SHORT)),
    "sched_waking": (WAKE, (WOKEN, WOKEN_SHORT)),
    "sched_wakeup": (WAKE, (WOKEN, WOKEN_SHORT)),
    "sched_wakeup_new": (WAKE_NEW, (WOKEN, WOKEN_SHORT)),
    "sched_process_fork": (FORK, (re.compile(BY + r"child_comm=(?P<other_comm>.*) child_pid=(?P<other>\d+)\s*"),)),
    "sched_migrate_task": (MOVE, (re.compile(BY + r"prio=-?\d+ orig_cpu=(?P<cpu>\d+) dest_cpu=(?P<target>\d+)\s*"),)),
    "sched_process_exit": (EXIT, (re.compile(BY + r"prio=-?\d+(?: .*)?"),)),
}


def head_of(line: str) -> tuple[str, int, int, int, str] | None:
    """The command, pid, CPU and time (in nanoseconds) of an event, and what follows; nothing of a line that is none."""
    begin = len(line) - len(line.lstrip(" "))
    for stamp in STAMP.finditer(line):
        front = line[begin : stamp.start()]
        comm, blank, pid = front.rstrip(" ").rpartition(" ")
        found, (cpu, seconds, fraction) = PID.fullmatch(pid), stamp.groups()
        if found and blank and front.endswith(" ") and not comm[0].isspace():
            return comm.rstrip(" "), int(found[1]), int(cpu), int(seconds + fraction.ljust(9, "0")), line[stamp.end() :]
    return None


def is_of_call_chain(line: str) -> bool:
    """Whether the line is an address, a symbol, and in parentheses a file."""
    found = CALL_CHAIN.match(line)
    return found is not None and line.endswith(")") and "(" in line[found.end() : -1]


def event_of(name: str, time: int, cpu: int, text: str) -> Event | None:
    """The event of this name by the first form that fits the whole text; none, where it is of another kind."""
    kind, forms = FORMS.get(name, (RUNS, ()))
    if not forms:
        return None
    for form in forms:
        if found := form.fullmatch(text):
            told = found.groupdict()
            return Event(kind, time, int(told.get("cpu", cpu)), int(told["pid"]), told["comm"], int(told.get("target", cpu)),
                         told.get("state", ""), int(told.get("other", 0)), told.get("other_comm", ""))
    raise ValueError


@dataclass
class Recording:
    """What was read: the events in order, and what was passed over."""

    events: list[Event] = field(default_factory=list)
    passed: Counter[str] = field(default_factory=Counter)
    other_kinds: Counter[str] = field(default_factory=Counter)
    on: dict[int, int] = field(default_factory=dict)  # the pid on each CPU of which there was an event
    read: int = 0
    foreign: bool = False  # the pids in front of events are of another namespace than those in them
    cpus: int = 0  # one more than the greatest CPU that is named

    def take(self, line: str) -> None:
        """Takes in a line that is not empty, or raises ValueError."""
        if not (head := head_of(line)):
            if not is_of_call_chain(line):
                raise ValueError
            self.passed["lines of call chains"] += 1
            return
        if lost := LOST.match(head[-1]):
            self.passed["events lost by perf"] += int(lost[1])
        else:
            self.take_event(*head)
        self.read += 1

    def take_event(self, comm: str, current: int, cpu: int, time: int, text: str) -> None:
        name, colon, rest = text.partition(": ")
        name = name.removeprefix("sched:") if colon else name.removeprefix("sched:").removesuffix(":")
        if not name.strip() or not colon and not text.endswith(":"):
            raise ValueError
        event = event_of(name, time, cpu, rest)
        if event is None:
            self.other_kinds[name] += 1
        if event is None or event.kind != SWITCH:
            self.is_on(time, cpu, current, comm, BY_HEAD)
        else:
            self.foreign |= event.pid != current >= 0
            self.is_on(time, cpu, event.pid, event.comm, "")
            self.on[cpu] = event.other
        if event is not None:
            self.cpus = max(self.cpus, event.target + 1, event.cpu + 1)
            self.events.append(event if name != "sched_wakeup" else event._replace(state=BY_WAKEUP))

    def is_on(self, time: int, cpu: int, pid: int, comm: str, source: str) -> None:
        """An event is recorded by the thread that is on the CPU. (Of a thread that ends perf may say -1.)"""
        if pid >= 0 and self.on.get(cpu) != pid:
            self.on[cpu] = pid
            self.cpus = max(self.cpus, cpu + 1)
            self.events.append(Event(RUNS, time, cpu, pid, comm, cpu, source))


def plain(text: str) -> str:
    """The text with a question mark for each character that is not a plain one: it goes into comments and messages."""
    return text if text.isascii() and text.isprintable() else "".join(c if " " <= c <= "~" else "?" for c in text)


def read_recording(lines: Iterable[str], limit: int | None) -> Recording:
    """Reads at most `limit` events. A last line that has no line feed, or is no event, was cut short: not if it is all."""
    recording, numbered = Recording(), enumerate(lines, 1)
    for number, line in numbered:
        if limit is not None and recording.read >= limit:
            break
        text = line.rstrip("\r\n")
        if not text.strip() or text.startswith("#"):
            continue
        if not line.endswith("\n"):
            recording.passed["a last line that was cut short"] += 1
            continue
        try:
            recording.take(text)
        except ValueError:
            if any(rest.strip() for _, rest in numbered):
                raise BadLine(f"line {number} is no event of perf script: {plain(text.strip()[:100])}") from None
            recording.passed["a last line that was cut short"] += 1
    if recording.passed and not recording.read and limit != 0:
        raise BadLine("this is no recording: no line of it is an event of perf script")
    without_repeats(recording)
    recording.events = from_the_start(recording.events)
    for name, count in recording.other_kinds.items():
        recording.passed[f"events of the kind {plain(name.split()[0])}"] += count
    return recording


def without_repeats(recording: Recording) -> None:
    """Drops wakeups where wakings are told as well, and what the heads of events say where their pids are others."""
    has_wakings = any(event.kind == WAKE and event.state != BY_WAKEUP for event in recording.events)
    dropped = ({BY_WAKEUP} if has_wakings else set()) | ({BY_HEAD} if recording.foreign else set())
    if dropped:
        found = Counter(event.state for event in recording.events)
        for state in dropped & set(found):
            recording.passed[DROPPED[state]] += found[state]
        recording.events = [event for event in recording.events if event.state not in dropped]


def from_the_start(events: list[Event]) -> list[Event]:
    """Who recorded the first event of a CPU was there from the start, but for one seen elsewhere before."""
    first, later, told = list[Event](), list[Event](), set[int]()
    unheard = {event.cpu for event in events if event.kind == RUNS}
    for place, event in enumerate(events):
        if not unheard:
            return first + later + events[place:]
        if event.kind == RUNS and event.cpu in unheard:
            unheard.discard(event.cpu)
            if event.pid not in told:
                first.append(event._replace(time=events[0].time))
                told.add(event.pid)
                continue
        told.update((event.pid, event.other))
        later.append(event)
    return first + later


# What only the whole recording tells

KERNEL_NAMES = re.compile(
    r"(?:kworker|ksoftirqd|migration|cpuhp|idle_inject|irq_work|irq|ktimers|rcuc|rcuo\w|rcuog|rcub)[/_-].*"
    r"|(?:jbd2|watchdog|scsi_eh|scsi_tmf|xfs\w*|btrfs|ext4|ecryptfs|kprobe|pool_workqueue)[/_-].*"
    r"|(?:kswapd|kcompactd|loop|nvme|virtio|hrtimer)\d.*"
    r"|rcu_\w+|kthreadd|kdamond.*|kdevtmpfs|kauditd|khungtaskd|oom_reaper|writeback|ksmd|khugepaged"
    r"|kblockd|ksgxd|hwrng|watchdogd"
    r"|netns|mm_percpu_wq|inet_frag_wq|card\d+-crtc\d+"
)


@dataclass
class Facts:
    """What is known of the recording as a whole. Events are told by their places."""

    kernel: set[int] = field(default_factory=set)  # the pids of the kernel's own threads
    names: dict[int, str] = field(default_factory=dict)  # the last name of each pid
    early: set[int] = field(default_factory=set)  # wakings that were recorded before the switch that they undo
    undone: set[int] = field(default_factory=set)  # and those switches
    deaths: set[int] = field(default_factory=set)  # the last switches of threads that had exited


def leaves_kind(state: str) -> str:
    """The command for a thread that leaves its CPU in this state. All states but running and dead ones are waits."""
    if state.startswith("R"):
        return "preempt" if "+" in state else "yield"
    return "die" if state[0] in "XZx" else "block"


def facts_of(events: list[Event]) -> Facts:
    overlaps = Overlaps(facts := Facts())
    for place, event in enumerate(events):
        note_names(facts, event)
        overlaps.note(place, event)
    note_deaths(facts, events)
    return facts


def note_names(facts: Facts, event: Event) -> None:
    """A kernel thread has such a name, was forked by kthreadd, or left a CPU idle or parked, as no other does."""
    others = [(event.other, event.other_comm)] if event.kind in (SWITCH, FORK) else []
    for pid, comm in [(event.pid, event.comm), *others]:
        if facts.names.get(pid) != comm:
            facts.names[pid] = comm
            if KERNEL_NAMES.fullmatch(comm):
                facts.kernel.add(pid)
    if event.kind == SWITCH and event.state[0] in "IP":
        facts.kernel.add(event.pid)
    elif event.kind == FORK and event.comm == "kthreadd":
        facts.kernel.add(event.other)


class Overlaps:
    """A thread may be woken on its way off the CPU: the waking is recorded first, and it runs again without another."""

    def __init__(self, facts: Facts):
        self.facts = facts
        self.on: dict[int, int] = {}  # who is on each CPU
        self.early: dict[int, int] = {}  # the last waking of a thread while it ran
        self.left: dict[int, tuple[int, int]] = {}  # that waking, and the switch by which the thread left then

    def note(self, place: int, event: Event) -> None:
        if event.kind in (WAKE, WAKE_NEW):
            self.left.pop(event.pid, None)
            if event.pid in self.on.values():
                self.early[event.pid] = place
        elif event.kind == RUNS:
            self.comes(event.cpu, event.pid)
        elif event.kind == SWITCH:
            if (waking := self.early.pop(event.pid, None)) is not None and leaves_kind(event.state) == "block":
                self.left[event.pid] = (waking, place)
            self.comes(event.cpu, event.other)

    def comes(self, cpu: int, pid: int) -> None:
        self.on[cpu] = pid
        self.early.pop(pid, None)
        if overlap := self.left.pop(pid, None):
            self.facts.early.add(overlap[0])
            self.facts.undone.add(overlap[1])


def note_deaths(facts: Facts, events: list[Event]) -> None:
    """The last switch of an exited thread is its death, whatever state it is in. A fork may give the pid anew."""
    last: dict[int, int | None] = {}
    for place, event in enumerate(events):
        if event.kind == EXIT:
            last[event.pid] = None
        elif event.kind == SWITCH and event.pid in last:
            last[event.pid] = place
        elif event.kind == FORK and (death := last.pop(event.other, None)) is not None:
            facts.deaths.add(death)
    facts.deaths.update(place for place in last.values() if place is not None)

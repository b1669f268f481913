"""What `pc-sim replay` will have answered to the commands written so far."""
from collections import Counter

from kernel import MOST, Kernel, Thread
from perf_load import Lives
from perf_text import plain

MOST_CPUS, ROOM, POSTS = (MOST[name][1] for name in ("cpus", "room", "posts"))
(MOST_THREADS_BY_DEFAULT, MOST_THREADS), (NUMBERS_BY_DEFAULT, NUMBERS) = MOST["threads"], MOST["numbers"]
READY, BLOCKED = "ready", "blocked"


class Model:
    """Writes commands, and tells which of them will be refused."""

    def __init__(self, cpus: int, tells_times: bool = False):
        self.kernel = Kernel(cpus, numbers_most=NUMBERS)
        self.mask = (1 << cpus) - 1
        self.pids: list[int] = []  # of the threads, by their names
        self.lines: list[str] = []
        self.length = 0
        self.tick = 0  # of what is written next, in microseconds since the first event
        self.tells_times = tells_times
        self.told_tick = -1
        self.lives = Lives(cpus)
        self.asked: Counter[str] = Counter()  # by command
        self.refused: Counter[tuple[str, str]] = Counter()  # by command and refusal

    def write(self, line: str) -> None:
        told = [f"# at {self.tick}"] if self.tells_times and self.tick != self.told_tick else []
        self.told_tick = self.tick
        self.lines += [*told, line]
        self.length += sum(len(it) + 1 for it in [*told, line])

    def comment(self, text: str) -> None:
        self.write("# " + plain(text))

    def ask(self, line: str) -> bool:
        """Writes a command. True where it will be accepted."""
        self.write(line)
        word, answer = line.partition(" ")[0], self.kernel.say(line)
        self.asked[word] += 1
        if answer.startswith("refused "):
            self.refused[word, answer.split()[1]] += 1
        return answer.startswith("ok")

    def on(self, cpu: int) -> Thread | None:
        """The thread on the CPU."""
        name = self.kernel.running[cpu]
        return None if name is None else self.kernel.threads[name]

    def make_room(self, queue: int) -> None:
        """An agent looks at its queue before it is full, so that nothing is refused for want of room."""
        if len(self.kernel.queues[queue].items) >= ROOM:
            self.look(queue)

    def create(self, pid: int, comm: str, queue: int, phase: str) -> Thread:
        self.make_room(queue)
        name = len(self.pids)
        self.pids.append(pid)
        self.comment(f"t{name} is {comm}, {pid}")
        self.ask(f"create {queue} {self.mask} {phase}")
        self.lives.created(name, comm, pid, queue, phase == READY, self.tick)
        return self.kernel.threads[name]

    def wake(self, thread: Thread) -> None:
        """Of a thread that is blocked."""
        self.make_room(thread.home)
        self.ask(f"wake t{thread.name}")
        self.lives.woke(thread.name, self.tick)

    def leave(self, word: str, cpu: int, ticks: int) -> None:
        """The thread on the CPU, of which there is one, leaves it."""
        name = self.kernel.running[cpu]
        assert name is not None
        self.make_room(cpu)
        self.ask(f"{word} {cpu} {ticks}")
        self.lives.left(name, word, cpu, ticks, self.tick)

    def look(self, cpu: int) -> None:
        """The agent takes in what its queue holds, tells the others, and removes it."""
        if self.kernel.queues[cpu].items:
            self.ask(f"publish {cpu}")
            self.ask(f"consume {cpu}")

    def associate(self, thread: Thread, queue: int) -> None:
        if self.kernel.pending[thread.name]:
            self.look(thread.home)
        self.ask(f"associate t{thread.name} {queue} {thread.number}")

    def commit(self, cpu: int, thread: Thread) -> bool:
        """Whether it will be accepted. The count of posts is that of now, and no mask forbids a CPU."""
        if is_accepted := self.ask(f"commit {cpu} t{thread.name} {self.kernel.queues[cpu].posts}"):
            self.lives.came(thread.name, self.tick)
        return is_accepted

    def text(self) -> str:
        """The whole script. Its limits are those of the first version where the threads are few enough."""
        is_wide = len(self.pids) > MOST_THREADS_BY_DEFAULT
        numbers = NUMBERS if is_wide else NUMBERS_BY_DEFAULT
        enclave = f"enclave {self.kernel.cpus} {max(len(self.pids), 1)} {numbers} {ROOM} {POSTS}"
        return "".join(line + "\n" for line in [*["version 2"] * is_wide, enclave, *self.lines])

"""A world: a kernel, an agent for each of its CPUs, and what the agents sent each other."""
from __future__ import annotations

import copy
import functools
import inspect
import os
from collections.abc import Callable
from typing import Generic, ParamSpec, Protocol, Self, TextIO, TypeVar, cast, overload

from . import commands
from .advice import Past
from .commands import Command
from .errors import BadCpu, Fault, Misread, Refused, refusal_of
from .messages import Message
from .program import Program, find_program
from .queues import CHANGING, Queues
from .values import Limits

Value = TypeVar("Value")
Given = ParamSpec("Given")

MOST_POSTS = 4_294_967_295
QUESTIONS = frozenset(("status", "asleep", "show", "same", "complete"))
"""The commands that change nothing."""


def _read(command: Command[Value], answer: str, past: Past | None) -> Value:
    """The value that is answered behind what was said before; a refusal or a fault is raised."""
    if answer.startswith("refused "):
        raise refusal_of(command.line, answer.split(" ")[1:], past)
    if answer.startswith("fault line "):
        raise Fault(command.line, int(answer.split(" ")[2]))
    try:
        return command.read(answer)
    except (ValueError, IndexError) as error:
        raise Misread(f"{answer}: {command.line}") from error


class _Method(Protocol[Given, Value]):
    """A command as a method: a world has its value at once, and a batch once it was sent."""

    @overload
    def __get__(self, it: World, owner: object, /) -> Callable[Given, Value]: ...

    @overload
    def __get__(self, it: Batch, owner: object, /) -> Callable[Given, Answer[Value]]: ...

    @overload
    def __get__(self, it: None, owner: object, /) -> Callable[..., object]: ...


def _method(make: Callable[Given, Command[Value]]) -> _Method[Given, Value]:
    """The method of a world that asks for the command, and of a batch that adds it: with the name, the words and the
    arguments of the function that makes it."""

    def method(self: World | Batch, /, *given: Given.args, **named: Given.kwargs) -> object:
        command = make(*given, **named)
        return self.ask(command) if isinstance(self, World) else self.add(command)

    functools.update_wrapper(method, make)
    own = inspect.Parameter("self", inspect.Parameter.POSITIONAL_OR_KEYWORD)
    setattr(method, "__signature__", inspect.Signature([own, *inspect.signature(make).parameters.values()]))
    return cast(_Method[Given, Value], method)


class _Commands:
    """What worlds and batches have in common: a method for each command."""

    create = _method(commands.create)
    wake = _method(commands.wake)
    block = _method(commands.block)
    yield_ = _method(commands.yield_)
    preempt = _method(commands.preempt)
    die = _method(commands.die)
    affinity = _method(commands.affinity)
    priority = _method(commands.priority)
    tick = _method(commands.tick)
    policy = _method(commands.policy)
    associate = _method(commands.associate)
    commit = _method(commands.commit)
    sleep = _method(commands.sleep)
    rouse = _method(commands.rouse)
    config = _method(commands.config)
    publish = _method(commands.publish)
    publish_fail = _method(commands.publish_fail)
    consume = _method(commands.consume)
    deliver = _method(commands.deliver)
    answer = _method(commands.answer)
    pick = _method(commands.pick)
    steal = _method(commands.steal)
    crash = _method(commands.crash)
    mend = _method(commands.mend)
    status = _method(commands.status)
    asleep = _method(commands.asleep)
    show = _method(commands.show)
    same = _method(commands.same)
    complete = _method(commands.complete)


class World(_Commands):
    """A world in a program of its own.

    >>> with World(cpus=2, threads=4) as world:
    ...     posted = world.create(queue=0, mask=0b01)
    ...     _ = world.publish(0), world.consume(0)
    ...     world.pick(0, aseq=posted.aseq)
    Placed(thread=0, cpu=0)

    `version` is that of the script: 1 has narrower limits, and 3 alone has policies and `mend`. `program` is the path
    of `pc-sim`; without it PC_SIM names it, or it is looked for on the path. `record` gets each line that is sent: a
    script, which `pc-sim replay`, `explain` and `draw` take.
    """

    def __init__(
        self, cpus: int, threads: int = 4_096, numbers: int = 1_000_000, room: int = 65_536, posts: int = MOST_POSTS, *,
        version: int = 3, policy: str | None = None, exact: bool = False,
        program: str | os.PathLike[str] | None = None, record: TextIO | None = None,
    ) -> None:
        self.limits = Limits(cpus, threads, numbers, room, posts)
        self._name = find_program(program)
        self._begin = [f"version {version}"] * (version != 1) + [f"enclave {cpus} {threads} {numbers} {room} {posts}"]
        if policy is not None:
            self._begin.append(commands.policy(policy, exact).line)
        self._start(self._begin, record)

    def _start(self, lines: list[str], record: TextIO | None) -> None:
        """Has a new program answer these lines, and nothing else so far."""
        self._said: list[str] = []
        """All that was said, but for questions and faults."""
        self._queues = Queues(self.limits.cpus)
        self._program = Program(self._name, record)
        try:
            for line in lines:
                self.ask(Command(line, _ignored))
        except BaseException:
            self.close()
            raise

    def reset(self, *, record: TextIO | None = None) -> None:
        """Begins anew, as the world was made; `record` gets the lines from now on.

        A session has one enclave, so its program is started anew, which takes some milliseconds.
        """
        self.close()
        self._start(self._begin, record)

    def copy(self, *, record: TextIO | None = None) -> Self:
        """Another world in the same state, in a program of its own.

        That is told all that was said so far, questions aside: a start, and some microseconds for each command. So a
        world keeps what it was told, about a hundred bytes a command; `reset` forgets that.
        """
        self._program.check()
        made = copy.copy(self)
        made._start(self._begin, record)
        made._repeat(self._said[len(self._begin):])
        return made

    def _repeat(self, lines: list[str]) -> None:
        """Says lines whose answers are not wanted."""
        try:
            self._exchange(lines, [False] * len(lines))
        except BaseException:
            self.close()
            raise

    def ask(self, command: Command[Value]) -> Value:
        """Sends a command, and waits for its answer. A line that has none, such as a comment, is a ValueError."""
        (answer,), refused = self._exchange([command.line], [command.rows])
        return _read(command, answer, refused.get(0))

    def _exchange(self, lines: list[str], rows: list[bool]) -> tuple[list[str], dict[int, Past]]:
        """The answer to each line, and before those that are refused what was said."""
        answers, said = self._program.exchange(lines, rows), self._said
        refused: dict[int, Past] = {}
        for place, (line, answer) in enumerate(zip(lines, answers)):
            if answer.startswith("refused "):
                refused[place] = Past(self._name, said, len(said))
            word = line.split(None, 1)[0]
            if word not in QUESTIONS and not answer.startswith("fault "):
                said.append(line)
                if word in CHANGING:
                    self._queues.hear(line.split(), answer)
        return answers, refused

    def script(self) -> str:
        """All that was said so far, but for questions and faults: a script that leads here."""
        return "".join(f"{line}\n" for line in self._said)

    def messages(self, cpu: int) -> list[Message]:
        """What the queue of the CPU holds, the oldest in front: what its agent reads. They stay until a `consume`.

        Nothing is asked for that: posts and consumes tell it where they are answered.
        """
        return list(self._queues.held[self._is_there("messages", cpu)])

    def aseq(self, cpu: int) -> int:
        """How many posts the queue of the CPU had. Read before the messages, it counts none that is not among them."""
        return self._queues.aseq[self._is_there("aseq", cpu)]

    def _is_there(self, asked: str, cpu: int) -> int:
        self._program.check()
        if not 0 <= cpu < self.limits.cpus:
            raise BadCpu(f"{asked} {cpu}")
        return cpu

    def batch(self) -> Batch:
        """Many commands in one write: they are sent, and answered, where the `with` ends."""
        return Batch(self)

    def close(self) -> None:
        """Ends the program."""
        self._program.close()

    def __enter__(self) -> Self:
        return self

    def __exit__(self, *ended: object) -> None:
        self.close()


def _ignored(answer: str) -> None:
    """An answer that is not looked at."""


class Answer(Generic[Value]):
    """What a command of a batch was answered, once the batch was sent."""

    __slots__ = ("command", "_answer", "_past")

    def __init__(self, command: Command[Value]) -> None:
        self.command = command
        self._answer: str | None = None
        self._past: Past | None = None

    def get(self) -> Value:
        """The value; a refusal is raised."""
        if self._answer is None:
            raise RuntimeError(f"{self.command.line!r} was not answered: its batch was not sent")
        return _read(self.command, self._answer, self._past)

    def either(self) -> Value | Refused:
        """The value, or the refusal as a value."""
        try:
            return self.get()
        except Refused as refused:
            return refused


class Batch(_Commands):
    """Commands that are sent together.

    >>> with World(cpus=1) as world:
    ...     with world.batch() as batch:
    ...         first, second = batch.create(queue=0, mask=1), batch.create(queue=9, mask=1)
    ...     first.get(), second.either()
    (Posted(thread=0, number=1, queue=0, aseq=1, wakes=None), BadCpu('create 9 1 ready'))

    Where the `with` ends by an exception nothing is sent. A batch that is entered again sends what was added since.
    """

    def __init__(self, world: World) -> None:
        self._world = world
        self.answers: list[Answer[object]] = []
        """What was added, in order."""

    def add(self, command: Command[Value]) -> Answer[Value]:
        """Adds a command at the end."""
        answer = Answer(command)
        self.answers.append(cast(Answer[object], answer))
        return answer

    def __enter__(self) -> Self:
        return self

    def __exit__(self, kind: type[BaseException] | None, *more: object) -> None:
        unsent = [answer for answer in self.answers if answer._answer is None]
        if kind is None and unsent:
            lines = [answer.command.line for answer in unsent]
            answers, refused = self._world._exchange(lines, [answer.command.rows for answer in unsent])
            for place, (answer, told) in enumerate(zip(unsent, answers)):
                answer._answer, answer._past = told, refused.get(place)

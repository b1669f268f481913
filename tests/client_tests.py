#!/usr/bin/env python3
"""Tests the clients of sessions: the Python package with its tests of agents, its documents and examples, and the one in C.

With --fast N, N commands in a batch have to be answered within N / 200,000 seconds.
"""
import doctest
import inspect
import io
import os
import random
import re
import shutil
import signal
import sys
import time
from typing import Any

import rig
from kernel import GREATEST, ORDERS, forms
from kernel import World as Model
from rig import ROOT, good, needs, raises, raises_text, same
from scripts import Rough, lines_of

CLIENT = ROOT / "clients/python"
sys.path.insert(0, str(CLIENT / "src"))
os.environ["PYTHONPATH"] = str(CLIENT / "src")

import client_testing  # noqa: E402
import nimhessian  # noqa: E402
from nimhessian import Refused, World, commands  # noqa: E402


def refusal(world: World, command: commands.Command[object]) -> str:
    """The refusal of a command: its class, its argument, and the command."""
    with raises(Refused, msg=command.line) as raised:
        world.ask(command)
    same(raised.exception.command, command.line)
    return str(raised.exception)


# The parts of tests/client_session.txt, by their first lines.
SESSIONS = re.split(r"^(?=\S.*\.\n\n)", (ROOT / "tests/client_session.txt").read_text(), flags=re.M)


@rig.each({part.partition(".\n")[0]: (part,) for part in SESSIONS if ">>>" in part})
def test_session(text: str) -> None:
    names = {**vars(nimhessian), "commands": commands, "refusal": refusal, "rig": rig}
    told, session = io.StringIO(), doctest.DocTestParser().get_doctest(text, names, "session", "client_session.txt", 0)
    tried = doctest.DocTestRunner().run(session, out=told.write)
    assert tried.attempted and not tried.failed, told.getvalue()


def makers() -> dict[str, Any]:
    """What makes each command."""
    return {name: kind for name, kind in vars(commands).items() if inspect.isfunction(kind) and name[0].islower()}


def test_every_command_is_one():
    """The lines that this package makes are those of the program's table, word for word."""
    made = set()
    for name, make in makers().items():
        fields = inspect.signature(make).parameters
        for flag in (False, True):
            given = ["fifo" if it == "name" else flag if it in ("blocked", "exact") else None if it == "cpu" and name == "config" and flag else 1 for it in fields]
            made.add(make(*given).line)
    numbers = dict.fromkeys(GREATEST, "1") | {"T": "t1"}
    wanted = {" ".join(numbers.get(word, word) for word in form) for form in forms() if form[0] != "enclave"}
    same(made, {line for line in wanted if not line.startswith("policy") or "fifo" in line})


def test_every_refusal_is_a_class():
    told = (ROOT / "docs/FORMATS.md").read_text().split("## Refusals")[1].split("\n## ")[0]
    names = {line.split("`")[1].split(" ")[0] for line in told.splitlines() if line.startswith("- `")}
    same(names, set(nimhessian.errors.REFUSALS))


def test_each_command_is_a_method_of_both():
    """By signature: whatever a method is given goes into the line that the command of its name makes."""
    assert len(makers()) > 28
    for name, command in makers().items():
        given = [place + 1 for place in range(len(inspect.signature(command).parameters))]
        wanted = command(*given)
        for owner in (World, nimhessian.Batch):
            asked = []
            it = owner.__new__(owner)
            it.ask = it.add = asked.append
            getattr(owner, name)(it, *given)
            same((asked[0].line, asked[0].rows), (wanted.line, wanted.rows), f"{owner.__name__}.{name}")
            same(inspect.signature(getattr(owner, name)).parameters.keys() - {"self"}, inspect.signature(command).parameters.keys())


def test_a_line_that_has_no_answer_is_not_sent():
    """It would be waited for without end: an alarm ends that."""
    def waits(number, frame):
        raise AssertionError("an answer is waited for")

    before = signal.signal(signal.SIGALRM, waits)
    script = io.StringIO()
    with World(cpus=1, record=script) as world:
        sent = script.getvalue()
        for line in ("", " ", "\r", "  \r", "#", "# a comment", "#\r", "?", "?\r", "help", "help\r"):
            silent = commands.rouse(0)._replace(line=line)
            batch = world.batch()
            batch.rouse(0), batch.add(silent)
            for ask in (lambda: world.ask(silent), lambda: batch.__exit__(None, None, None)):
                signal.alarm(5)
                with raises_text(ValueError, f"^no command, and nothing would answer: {re.escape(repr(line))}$"):
                    ask()
                signal.alarm(0)
        same((script.getvalue(), world.rouse(0)), (sent, None))
    signal.signal(signal.SIGALRM, before)


def test_many_are_fast():
    count = rig.options.fast or 20_000
    with World(cpus=1) as world:
        begin = time.perf_counter()
        with world.batch() as batch:
            roused = [batch.rouse(0) for _ in range(count)]
        answers = [answer.get() for answer in roused]
        took = time.perf_counter() - begin
    same(answers, [None] * count)
    if rig.options.fast:
        print(f"{count / took:,.0f} commands a second")
        assert took < count / 200_000


def drawn(place: int, cpus: int) -> list[str]:
    """The lines of a script that is drawn, without its enclave."""
    chance = random.Random(f"queues {place}")
    further = [["create Q MASK ready", "publish C", "consume C", "pick C ASEQ"], ["yield C RAN"], ["steal C"], ["mend C"]]
    return [f"policy {chance.choice(ORDERS)}", *lines_of(chance, Rough(cpus), 12, lambda other: further)]


def told_by(model: Model, cpu: int) -> list[tuple[int | None, ...]]:
    """What the model of all tests has in a queue: of each item the thread, its number, and what the thread is then."""
    queue = model.queues[cpu]
    reports = [model.threads[item[0]].reports[item[1] - 1] if item else None for item in queue.items]
    posts = range(queue.posts - len(queue.items) + 1, queue.posts + 1)
    return [(aseq, *(item or (None, None)), *((it.phase, it.mask, it.level) if it else (None, None, None)))
            for aseq, item, it in zip(posts, queue.items, reports)]


def agrees(message: nimhessian.Message, told: tuple[Any, ...]) -> None:
    """A message tells no more and nothing else than the model's report behind it."""
    aseq, thread, number, phase, mask, level = told
    same((message.aseq, getattr(message, "thread", None), getattr(message, "number", None)), (aseq, thread, number))
    phases = {"Blocked": "blocked", "Dead": "dead", "Wakeup": "ready", "Yield": "ready", "Preempted": "ready"}
    same(getattr(message, "phase", phases.get(type(message).__name__.removeprefix("Thread"), phase)), phase)
    same((getattr(message, "mask", mask), getattr(message, "level", level)), (mask, level))


def test_messages_are_what_queues_hold():
    """Scripts are drawn, and the model of all tests tells what each queue holds behind each line."""
    kinds = set()
    for place in range(60):
        cpus, model = 1 + place % 3, Model(1 + place % 3)
        with World(cpus) as world:
            for line in drawn(place, cpus):
                with world.batch() as batch:
                    answer = batch.add(commands.Command(line, str, line.startswith("show")))
                same(answer._answer, model.say(line), line)
                for cpu in range(cpus):
                    held, wanted = world.messages(cpu), told_by(model, cpu)
                    same((len(held), world.aseq(cpu)), (len(wanted), model.queues[cpu].posts), line)
                    for message, told in zip(held, wanted):
                        agrees(message, told)
                        kinds.add(type(message).__name__)
    of_threads = "Created Wakeup Blocked Yield Preempted Dead Affinity Priority"
    same(kinds, {"TimerTick", *(f"Thread{it}" for it in of_threads.split())})


def test_the_program_is_started_and_not_the_launcher():
    """A launcher is asked once, and what it says is seen; its program answers."""
    with rig.folder() as tree:
        (tree / "tools").mkdir()
        (tree / "tools/released").touch()
        place = tree / "crates/pc_sim/out"
        puts = f"mkdir -p {place}\nln -s {rig.program} {place}/pc_sim\n"
        rig.put_command(tree / "pc-sim", f"#!/bin/sh\necho asked >>{tree}/starts\n{puts}")
        for _ in range(3):
            with World(cpus=1, program=tree / "pc-sim") as world:
                same((world.tick(0).aseq, world._program._process.args[0]), (1, str(place / "pc_sim")))
                world.reset()
        same((tree / "starts").read_text(), "asked\n")
        (tree / "tools/released").touch()
        rig.put_command(tree / "other", "#!/bin/sh\nexit 5\n")
        with raises(nimhessian.Died) as died:
            World(cpus=1, program=tree / "other")
        same(died.exception.status, 5)


def test_a_batch_tells_advice_as_well():
    with World(cpus=2) as world:
        with world.batch() as batch:
            batch.create(0, 3), batch.tick(0)
            wrong = batch.commit(0, 0, 1)
            batch.tick(0)
        same(wrong.either().advice, ["commit 0 t0 2"])


def test_an_answer_that_was_not_waited_for_is_no_other_ones():
    signal.signal(signal.SIGALRM, signal.default_int_handler)
    with World(cpus=1) as world:
        process = world._program._process
        process.send_signal(signal.SIGSTOP)
        with raises(KeyboardInterrupt):
            signal.setitimer(signal.ITIMER_REAL, 0.1)
            world.show(0)
        process.send_signal(signal.SIGCONT)
        for ask in (lambda: world.create(0, 1), lambda: world.tick(0)):
            with raises(nimhessian.Lost):
                ask()


def test_what_documents_show():
    world = {"World": World}
    every = [doctest.testmod(module, extraglobs=world) for module in (nimhessian, nimhessian.world, nimhessian.commands)]
    same([it.failed for it in every], [0, 0, 0])
    assert sum(it.attempted for it in every) > 0, "no module shows how it is used"
    shown = doctest.testfile(str(CLIENT / "README.md"), module_relative=False)
    same((shown.failed, shown.attempted >= 8), (0, True))


def test_examples():
    ticks, stale = good(rig.run(sys.executable, CLIENT / "examples/shortest_first.py", 7)).splitlines()
    of_cpus = [[int(it.split("@")[0]) for it in ticks.split(": ")[1].split() if it.endswith(f"@{cpu}")] for cpu in (0, 1)]
    same(sum(map(len, of_cpus)), 6)
    for alike in of_cpus:  # who has run for the fewest ticks runs next, for 9 at the most
        assert max(alike) - min(alike) <= 9, ticks
    assert any(int(word) for word in stale.split(": ")[1].split()), stale
    tested = rig.run(sys.executable, CLIENT / "examples/test_my_agent.py")
    assert tested.returncode == 0 and "Ran 3 tests" in tested.stderr, tested.stderr


def test_types_are_right():
    needs(shutil.which("mypy"), "no mypy here")
    examples = sorted((CLIENT / "examples").glob("*.py"))
    ended = rig.run("mypy", "--strict", "--cache-dir=/dev/null", "src/nimhessian", "wheel_backend.py", *examples, cwd=CLIENT)
    same(ended.returncode, 0, ended.stdout)


def test_it_is_installed_without_a_network():
    needs(rig.run(sys.executable, "-m", "pip", "--version").returncode == 0, "no pip here")
    with rig.folder() as folder:
        source, place = folder / "client", folder / "place"
        shutil.copytree(CLIENT, source, ignore=shutil.ignore_patterns("__pycache__", ".mypy_cache"))
        ended = rig.run(sys.executable, "-m", "pip", "install", "-q", "--no-index", "--target", place, source)
        same(ended.returncode, 0, ended.stderr)
        assert {"__init__.py", "world.py", "py.typed"} <= {path.name for path in (place / "nimhessian").iterdir()}


def test_the_client_in_c():
    with rig.folder() as folder:
        built = rig.run("cc", "-Wall", "-Wextra", "-Werror", "-o", folder / "talk", ROOT / "clients/c/talk.c")
        same(built.returncode, 0, built.stderr)
        answers = [line[20:].strip() for line in good(rig.run(folder / "talk", rig.program)).splitlines()]
    same(answers, ["ok", "ok", "ok t0 n1 q0 a1 wake -", "ok d0 items 1", "refused Stale 1", "ok t0 c0"])


if __name__ == "__main__":
    every = rig.tests_in(globals(), client_testing)
    rig.main(__doc__, every, lambda add: add("--fast", type=int, default=0, metavar="N"))

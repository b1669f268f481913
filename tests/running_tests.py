#!/usr/bin/env python3
"""Tests runs of agents, in threads and by seeds: reports, limits, scripts, policies, and tallies.

Settings are drawn. Each run is judged by what it tells, and one by a seed is that of the tests' own model.
"""
import functools
import itertools
import random
import re
import signal
import subprocess
import sys
import time

import rig
from kernel import answered, told_of
from rig import good, matches, outcome, same
from tables import POLICIES, drawn_policy, drawn_run, drawn_settings, drawn_steps, restart, thread

sys.path.append(str(rig.ROOT / "tests/reference"))
from judge import faults_of  # noqa: E402
from runs import Told, read  # noqa: E402
from seeded import Run  # noqa: E402

DRAWN, SEEDS = 40, 300
# Each agent starts again before its second turn, so by some seeds a thread is forgotten.
FORGETFUL = "cpus = 2\n" + thread(0, 1, "yield 1", "die 1") + thread(1, 2, "die 1") + restart(0, 2) + restart(1, 2)
# In the order of a tally.
UNSETTLED = ["Audit", "Incomplete", "Driver", "GaveUp", "Unaccounted", "Stalled"]


def told_by(text: str, policy: str, *words: object) -> Told:
    """What a run tells, with each refusal by name."""
    with rig.folder() as folder:
        script = folder / "run.script"
        ended = rig.ask("run", "--policy", policy, "--per-cpu", "--per-cpu", "--script", script, *words, given=text)
        same(ended.returncode, 3 if ended.stderr else 0)
        return Told(script.read_text(), ended.stdout, ended.stderr)


@functools.cache
def drawn(seed: int) -> tuple[str, str, Told]:
    """Drawn settings, a policy, and what the run by the seed tells."""
    text, policy = drawn_run(seed)
    return text, policy, told_by(text, policy, "--seed", seed)


def run_with_script(text: str, *words: str) -> tuple[str, str]:
    """What a run reports, and its script."""
    with rig.folder() as folder:
        report = good(rig.ask("run", *words, "--script", folder / "run.script", given=text), text)
        return report, (folder / "run.script").read_text()


def script_of(policy: str, text: str) -> tuple[list[str], list[str]]:
    """The script of a run, and which threads it commits, in order."""
    lines = run_with_script(text, "--policy", policy)[1].splitlines()
    return lines, [line.split()[2] for line in lines if line.startswith("commit ")]


def picked(policy: str, lines: list[str]) -> list[str]:
    """Which threads an agent of one CPU picks by this policy, where the script of a run has it commit one."""
    picks = [re.sub(r"^commit 0 t\d+ ", "pick 0 ", line) for line in lines]
    script = "\n".join(["version 3", picks[0], f"policy {policy}", *picks[1:], ""])
    return [answer.split()[1] for _, words, answer in answered(script, rig.ask("replay", given=script).stdout) if words[0] == "pick"]


def test_nothing_is_wrong_with_runs_by_seeds() -> None:
    for seed in range(SEEDS):
        text, policy, told = drawn(seed)
        same(faults_of(read(text), policy, told), [], seed)


def test_nothing_is_wrong_with_runs_of_many_agents() -> None:
    rng = random.Random(12)
    for seed in range(DRAWN):
        text, policy = drawn_settings(rng), drawn_policy(rng)
        same(faults_of(read(text), policy, told_by(text, policy, "--seed", seed)), [], seed, policy, text)


def test_a_run_by_a_seed_is_that_of_the_model() -> None:
    for seed in range(SEEDS):
        text, policy, told = drawn(seed)
        same(told, Run(read(text), policy, seed).tell(), seed)


def test_nothing_is_wrong_with_runs_in_threads() -> None:
    """And the program answers each line of the script as the model of the kernel does."""
    rng = random.Random(31)
    for policy in [*POLICIES, *(drawn_policy(rng) for _ in range(DRAWN))]:
        text = drawn_settings(rng)
        told = told_by(text, policy)
        same(faults_of(read(text), policy, told, by_seed=False), [], text, policy)
        same(rig.replay(told.script), told_of(told.script.encode())[0], text, policy)


def test_what_is_changed_of_a_run_is_found() -> None:
    """Each number of a report, but for the names of CPUs, and each line that is left out, but for a look: an agent may
    have looked later."""
    for seed in range(6):
        text, policy, told = drawn(seed)
        lines = told.script.splitlines(keepends=True)
        changed = [told._replace(script="".join(lines[:place] + lines[place + 1:]))
                   for place, line in enumerate(lines) if not line.startswith("publish ")]
        for number in re.finditer(r"(?<!cpu )\b\d+", told.report):
            more = f"{told.report[:number.start()]}{int(number[0]) + 1}{told.report[number.end():]}"
            changed.append(told._replace(report=more))
        for it in changed:
            assert faults_of(read(text), policy, it), (seed, it)


def test_a_script_replaces_what_its_file_had() -> None:
    with rig.file("tick 0\n" * 1000, "-") as script:
        ended = rig.ask("run", "--script", "-", given="cpus = 1\n" + thread(0, 1, "die 1"), cwd=script.parent)
        same(outcome(ended)[:2], (0, "threads 1\nmessages 2\ncommits 1\nran 1\n"))
        made = [line for line in script.read_text().splitlines() if line.split()[0] in ("create", "commit", "die")]
    same(made, ["create 0 1 ready", "commit 0 t0 1", "die 0 1"])


BY_NAME, BY_TICKS = "t0 t0 t1", "t0 t1 t0"


@rig.each({
    # One agent, and three threads that are there before it looks: each runs as soon as it has the fewest ticks.
    "come first": ("cpus = 1\n" + thread(0, 1, "yield 5", "die 1") + thread(0, 1, "yield 3", "die 1")
                   + thread(0, 1, "yield 1", "yield 1", "die 1"),
                   {"fifo": "t0 t1 t2 t0 t1 t2 t2", "least-ran": "t0 t1 t2 t2 t2 t1 t0"}),
    # The first agent forgets both threads behind the yield, and is told of both again: it steals the first one, by its
    # name, or the one that did not run yet. `fifo` has both alike, and then the name counts.
    "are stolen exactly": ("cpus = 2\n" + thread(0, 1, "yield 5", "die 1") + thread(0, 1, "die 1") + restart(0, 2),
                           {"least-ran": BY_NAME, "least-ran exact": BY_TICKS, "fifo": BY_NAME, "fifo exact": BY_NAME}),
})
def test_the_fewest_ticks(text: str, wanted: dict[str, str]) -> None:
    same({policy: " ".join(script_of(policy, text)[1]) for policy in wanted}, wanted)


def test_a_run_of_one_agent_commits_what_it_picks() -> None:
    """An agent of a script, which looks where that of the run did, picks by the same policy what that one committed,
    and by another one, for some settings, something else. All threads of a run have level 0, so `fifo` is `levels`."""
    rng = random.Random(83)
    others = dict.fromkeys(("fifo", "fifo exact", "least-ran", "least-ran exact"), 0)
    for _ in range(DRAWN // 4):
        text = "cpus = 1\n" + "".join(thread(0, 1, *drawn_steps(rng, range(1, 7), range(10), range(1, 2))) for _ in range(5))
        for policy in others:
            lines, commits = script_of(policy, text)
            same(picked(policy, lines), commits, (policy, text))
            others[policy] += picked("least-ran" if policy.startswith("fifo") else "levels", lines) != commits
    assert all(others.values()), others


def test_a_long_run_is_given_up() -> None:
    """However fast the machine is: the program is stopped, once its run has begun, until its limit is over."""
    with rig.file("cpus = 1\n" + thread(0, 1, *["yield 1"] * 999, "die 1") * 80) as settings:
        script = settings.with_name("run.script")
        words = [rig.program, "run", "--limit", "1", "--script", script, settings]
        begun = subprocess.Popen(words, stdout=subprocess.PIPE, stderr=subprocess.PIPE, text=True)
        while not script.exists() and begun.poll() is None:
            time.sleep(0.001)
        time.sleep(0.02)
        begun.send_signal(signal.SIGSTOP)
        time.sleep(1.2)
        begun.send_signal(signal.SIGCONT)
        out, told = begun.communicate(timeout=rig.SECONDS)
    same((begun.returncode, out), (3, ""))
    matches(told, r"\Apc-sim: run GaveUp\npc-sim: \d+ of 80 threads dead, \d+ messages\n\Z")


def ended_so(ended: subprocess.CompletedProcess[str]) -> str:
    """How a run ended, by the word that a tally has for it."""
    if ended.returncode == 0:
        return "reported"
    matches(ended.stderr, r"\Apc-sim: run [A-Za-z]+\n")
    return ended.stderr.split()[2]


def test_a_tally_is_of_what_each_seed_comes_to() -> None:
    """Those of a span that begins anywhere: the first seed of each ending is told, and what is said is said of the first that failed."""
    alone = [rig.ask("run", "--seed", seed, given=FORGETFUL) for seed in range(40)]
    for first, count in itertools.product((0, 7, 31), (1, 9)):
        ended = alone[first:first + count]
        names = [ended_so(it) for it in ended]
        wanted = f"runs {count}\nreported {names.count('reported')}\n"
        for name in UNSETTLED:
            wanted += f"{name} {names.count(name)} first {first + names.index(name)}\n" if name in names else ""
        said = next((it.stderr for it in ended if it.returncode), "")
        tried = rig.ask("run", "--seed", first, "--runs", count, given=FORGETFUL)
        same(outcome(tried), (3 if said else 0, wanted, said))
    assert "Stalled" in map(ended_so, alone)


def test_runs_by_seeds_without_restarts_are_all_reported() -> None:
    rng = random.Random(71)
    for policy in [*POLICIES, *(drawn_policy(rng) for _ in POLICIES)]:
        text = drawn_settings(rng).partition("[[restart]]")[0]
        told = good(rig.ask("run", "--seed", rng.randrange(1 << 63), "--runs", 50, "--policy", policy, given=text), text)
        same(told, "runs 50\nreported 50\n", text)


def test_the_script_of_a_stalled_run_makes_its_calls() -> None:
    """Each line is accepted, and behind them the thread that is told of is ready and runs nowhere, while the CPU idles."""
    found = 0
    for seed in range(20):
        with rig.folder() as folder:
            ended = rig.ask("run", "--seed", seed, "--script", folder / "run.script", given=FORGETFUL)
            if ended_so(ended) != "Stalled":
                continue
            script = (folder / "run.script").read_text()
        found += 1
        same(ended.stdout, "")
        thread_and_cpu = re.search(r"\npc-sim: (t\d+) waits for CPU (\d+), and .*; --seed (\d+) has it again\n\Z", ended.stderr)
        assert thread_and_cpu, ended.stderr
        name, cpu, told = thread_and_cpu.groups()
        same(int(told), seed)
        replies = list(answered(script, good(rig.ask("replay", given=script))))
        same((len(replies), [it for it in replies if it.answer.split()[0] != "ok"]), (script.count("\n"), []))
        *_, status, idle = good(rig.ask("replay", given=f"{script}status {name}\nblock {cpu} 1\n")).splitlines()
        matches(status, rf"\A{name} n\d+ ready\Z")
        same(idle, "refused IdleCpu")
    assert found


if __name__ == "__main__":
    rig.main(__doc__, rig.tests_in(globals()))

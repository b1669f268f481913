#!/usr/bin/env python3
"""Drawn schedules of the protocol of agents, over the tests' own model: with all rules none stalls, and without each one some does.

Runs by seeds of this model, from settings to a report, are judged: nothing is wrong, and with each wrong body that a
run can show something is. `--write` writes the scripts of examples/stalls again.
"""
import functools
import sys
from collections.abc import Callable

import rig
from tables import drawn_run

sys.path.append(str(rig.ROOT / "tests/reference"))
from deviations import RULES, RUNS, Deviation  # noqa: E402
from judge import faults_of  # noqa: E402
from protocol import Machine, Rule, Step, drawn, followed, settled, shortest  # noqa: E402
from runs import Settings, Told, read  # noqa: E402
from seeded import Run  # noqa: E402

STALLS = rig.ROOT / "examples/stalls"
# A seed by which a run stalls without the rule.
FOUND = {
    Rule.TELLS_WHO_WOKE: 15,
    Rule.SLEEPS_BY_THE_COUNT: 267,
    Rule.REMOVES_BEFORE_A_STEAL: 140,
    Rule.PICKS_BEFORE_SLEEP: 140,
    Rule.ASKS_WHEN_LATE: 148,
    Rule.SENDS_EMPTY_ANSWERS: 148,
    Rule.TURNS_BEHIND_NOTES: 15,
    Rule.TELLS_OF_URGENT_NEWS: 98,
}
# A steal that is refused for its own queue wants a thread that no pick takes: a policy that leaves threads without a rank.
UNRANKED = {Rule.REMOVES_BEFORE_A_STEAL}
# With these alone a removal ahead of its puts shows nothing: what it costs is told by a crash between them.
HARMLESS = Rule.PUTS_BEFORE_REMOVAL
# For each wrong body that a run can show, by the name of its edit: a seed of such a run, and what is found of it.
SEEDS = {
    "a-blocked-thread-is-not-woken": (1, "run Unaccounted"),
    "a-call-that-wakes-tells-nobody": (0, "Agent 0 took 18 notes, and 24 to 29 were sent to it."),
    "a-commit-is-listed-under-another-count": (2, "`commit 0 t0 0` is refused Stale 1."),
    "a-commit-is-not-noticed": (0, "run Driver"),
    "a-late-steal-asks-in-the-name-of-another": (25, "notes, and 7 to 7 were sent to it."),
    "a-look-sends-nothing": (19, "and agent 0 has not read all of its queue."),
    "a-machine-has-one-seat": (15, "Agent 1 does not sleep in the end, or has not read all."),
    "a-machine-with-one-note-rests": (19973, "It is said of the stall: no agent will look at it."),
    "a-report-is-of-a-fresh-book": (2, "The report does not begin with what the settings come to:"),
    "a-report-lacks-its-last-row": (0, "The report has 2 rows for 3 CPUs."),
    "a-restart-forgets-nothing": (0, "there are 0 rouses ahead of it, and not 1."),
    "a-rouse-is-made-and-not-listed": (0, "there are 0 rouses ahead of it, and not 1."),
    "a-run-ends-while-the-driver-has-a-choice": (0, "and not all agents that may have it started again."),
    "a-sleep-goes-by-no-count": (19, "all is read, and it does not sleep."),
    "a-sleep-is-listed-and-not-made": (20, "`sleep 1 1`, and agent 1 has not read all of its queue."),
    "a-stall-tells-a-later-thread": (87, "t1 and CPU 0 are not the first that are held up."),
    "a-stall-tells-another-cpu": (87, "run Unaccounted"),
    "a-stalled-run-is-no-stall": (129, "t0 and CPU 1 are not the first that are held up."),
    "a-steal-is-listed-under-another-number": (0, "`associate t3 0 2` is refused Stale 1."),
    "a-step-is-done-twice": (28, "run GaveUp"),
    "a-tick-is-posted-in-place-of-the-call": (1, "run Unaccounted"),
    "agents-start-again-unasked": (29, "there are 1 rouses ahead of it, and not 0."),
    "an-act-consumes-nothing": (2, "does not stand in a turn of agent 0 where it belongs."),
    "an-agent-goes-by-the-usual-policy": (6, "and first in agent 0's run list is t3."),
    "an-agent-picks-under-the-count-of-now": (57, "`commit 0 t0 8`, and agent 0 has not read all of its queue."),
    "an-agent-waits-on-behind-a-note": (0, "and not all agents that may have it started again."),
    "an-answer-goes-to-who-gives-it": (7, "notes, and 3 to 4 were sent to it."),
    "another-answer-is-listed": (0, "and agent 0 has not read all of its queue."),
    "each-run-is-unaccounted": (0, "run Unaccounted"),
    "each-stall-is-at-rest": (19973, "It is said of the stall: no agent will look at it."),
    "each-stall-is-told-as-asking": (26, "It is said of the stall: agents ask each other without end."),
    "news-is-always-quiet": (1, "and not all agents that may have it started again."),
    "peek-reads-another-queue": (58, "in turn 1 of agent 1 t1 is in its run list, and is not committed."),
    "settle-merges-all-but-the-last": (2, "run Incomplete"),
    "the-rows-are-summed-but-for-the-last": (0, "run Unaccounted"),
    "the-ticks-of-a-step-are-changed": (1, "and the settings ask for `preempt"),
    "who-blocked-is-not-woken": (1, "run Unaccounted"),
    "who-has-one-choice-gets-no-turn": (0, "and not all agents that may have it started again."),
    "who-has-put-all-has-no-choice": (0, "and not all agents that may have it started again."),
    "who-waits-is-at-the-begin": (0, "there are 0 rouses ahead of it, and not 1."),
}
MAIL_UNREAD = Deviation.MAIL_UNREAD.value
# Wrong bodies that no run can show, each with why.
NO_RUN = {
    "a-bad-thread-is-told-before-too-many": "it concerns faults of settings alone",
    "a-book-takes-the-limits-of-profile-two": "the limits of a run are within those of both profiles",
    "a-consume-is-listed-before-it-is-made": "the list is another one only where a consume is refused, and none is",
    "a-life-goes-on-after-its-die": "it concerns faults of settings alone",
    MAIL_UNREAD: "an agent that forgets asks all others, and these take their mail, so that it is in their views",
    "a-share-does-not-move-with-its-call": "shares are the proof's, and reach no report",
    "an-agent-that-is-not-there-has-mail": "no run asks for the mail of a CPU that is not there",
    "incomplete-names-a-later-thread": "it concerns `settle`, and the program does not tell the thread",
    "settle-audits-nothing": "it concerns `settle`: no view of a run departs from it",
    "the-commits-are-not-held-against-the-steps": "a report that is refused for its commits alone comes of no run",
    "want-of-memory-is-told-as-no-start": "it concerns want of memory",
}
WRONG_BODIES = ("pc_threads", "pc_seeds", "pc_protocol")


@functools.cache
def judged(seed: int, make: Callable[[Settings, str, int], Run] = Run) -> tuple[Told, list[str]]:
    """What a drawn run tells, and what is wrong with it."""
    text, policy = drawn_run(seed)
    told = make(read(text), policy, seed).tell()
    return told, faults_of(read(text), policy, told)


def stall_of(rule: Rule) -> tuple[Machine, list[Step]]:
    """A schedule that the stored seed of a rule leads to, without the steps that it can do without; and the machine behind it."""
    ranks = rule not in UNRANKED
    machine, schedule = drawn(FOUND[rule], rule, ranks)
    assert machine.stalled(), rule
    cpus = machine.world.cpus
    steps = shortest(cpus, schedule, rule, ranks)
    stalled = followed(cpus, steps, rule, ranks)
    assert stalled and stalled.stalled(), rule
    return stalled, steps


def script_of(rule: Rule, machine: Machine) -> tuple[str, str]:
    """The script of a machine that stalls, which asks at its end who waits and who sleeps; and its answers."""
    name, cpu = machine.stalled() or (0, 0)
    machine.script.insert(0, f"# A stall: {rule.value.replace('-', ' ')}.")
    machine.script.append(f"# No agent has a step left, and t{name} waits for CPU {cpu}.")
    for question in (f"status t{name}", *(f"asleep {it}" for it in range(machine.world.cpus))):
        machine.say(question)
    return "\n".join(machine.script) + "\n", "\n".join(machine.answers) + "\n"


def test_no_run_by_all_rules_stalls() -> None:
    for seed in range(1_000):
        for ranks in (True, False):
            machine, _ = drawn(seed, ranks=ranks)
            rig.same(settled(machine).steps(), [], seed)
            rig.same(machine.stalled(), None, seed)


@rig.each({rule.value: (rule,) for rule in FOUND})
def test_without_the_rule_a_stored_seed_stalls(rule: Rule) -> None:
    machine, steps = stall_of(rule)
    thread, cpu = machine.stalled() or (-1, -1)
    rig.same((machine.world.running[cpu], machine.world.threads[thread].cpu), (None, None))
    assert machine.world.threads[thread].now.may_run(cpu)
    # The same schedule, as far as it goes, leads on where the rule is kept.
    kept = Machine(machine.world.cpus, ranks=rule not in UNRANKED)
    for step in steps:
        if step.cpu < 0 or step in kept.steps():
            kept.do(step)
    rig.same(settled(kept).stalled(), None)
    assert kept.world.threads[thread].cpu is not None


@rig.each({rule.value: (rule,) for rule in FOUND if rule not in UNRANKED})
def test_the_stall_is_a_script(rule: Rule) -> None:
    machine, _ = stall_of(rule)
    script, answers = script_of(rule, machine)
    rig.same((STALLS / f"{rule.value}.script").read_text(), script)
    rig.same(rig.replay(script), answers)
    thread = machine.stalled() or (-1, -1)
    told = answers.splitlines()[-1 - machine.world.cpus:]
    assert told[0].startswith(f"t{thread[0]} ") and told[0].endswith(" ready"), told
    rig.same(told[1:], ["yes" if sleeps else "no" for sleeps in machine.world.sleeps])


def test_a_removal_ahead_of_its_puts_stalls_nothing() -> None:
    for seed in range(1_000):
        rig.same(drawn(seed, HARMLESS)[0].stalled(), None, seed)


def test_nothing_is_wrong_with_runs_by_seeds() -> None:
    for seed in range(500):
        rig.same(judged(seed)[1], [], seed)


def wrong_run(name: str) -> Callable[[Settings, str, int], Run]:
    return functools.partial(Run, without=RULES[name]) if name in RULES else RUNS[Deviation(name)]


@rig.each({name: (name, *row) for name, row in SEEDS.items()})
def test_the_wrong_body_is_found(name: str, seed: int, wanted: str) -> None:
    rig.same(judged(seed)[1], [])
    found = judged(seed, wrong_run(name))[1]
    assert any(wanted in it for it in found), found[:5]


def test_mail_that_is_not_read_in_the_end_shows_nothing() -> None:
    for seed in range(200):
        rig.same(judged(seed, wrong_run(MAIL_UNREAD))[0], judged(seed)[0], seed)


def test_each_wrong_body_is_found_or_shows_in_no_run() -> None:
    edits = {it.stem for crate in WRONG_BODIES for it in (rig.ROOT / f"crates/{crate}/wrong-bodies").glob("*.edit")}
    rig.same(edits ^ (SEEDS.keys() | NO_RUN.keys()), set())
    rig.same({it.value for it in RUNS} | RULES.keys(), SEEDS.keys() | {MAIL_UNREAD})
    rig.same(SEEDS.keys() & NO_RUN.keys(), set())


def write() -> None:
    STALLS.mkdir(exist_ok=True)
    for rule in FOUND.keys() - UNRANKED:
        (STALLS / f"{rule.value}.script").write_text(script_of(rule, stall_of(rule)[0])[0])


if __name__ == "__main__":
    if sys.argv[1:] == ["--write"]:
        write()
    else:
        rig.main(__doc__, rig.tests_in(globals()), at_once=4)

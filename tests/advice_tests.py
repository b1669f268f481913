#!/usr/bin/env python3
"""Tests what an explained script says would make a refused line accepted: by doing it.

Scripts are drawn in small worlds, where refusals are common, some with a policy. Behind each refused line the script is gone on with by the
steps that the explanation tells: all are accepted. Where it says that no agent can make the line accepted, or that nothing does, single deeds
of agents are tried, and pairs of them: behind none is the line accepted, with the number of now. Where several deeds are told, a single one
hardly ever does as well.
"""
import itertools
import random
import re
import tomllib
from collections import Counter
from collections.abc import Iterator
from dataclasses import dataclass

import rig
from kernel import ENVIRONMENT, LEAVES, ORDERS, Talk, World, last_lines
from rig import good
from scripts import Rough, lines_of, mended
from tables import EXACTNESS, drawn_rank

DRAWN, SEARCHED, PAIRED = 400, 200, 6
ADVICE = tomllib.loads((rig.ROOT / "tests/advice.toml").read_text())
FORMS = ADVICE["forms"]
STEP = r"`([^`]+)`(?: (\d+) times)?"
# The policies of some of the scripts.
POLICIES = ["fifo", *(f"{order} exact" for order in ORDERS if order != "fifo")]
# What a session refuses for itself, before it looks at the line.
SESSION = ("NoEnclave", "HaveEnclave", "BadLimits")
# The most lines that a single step is repeated for.
MOST_TIMES = 300
# What ends with a number that shows what its agent knows.
BY_POSTS, BY_MESSAGES = ("commit", "sleep", "pick"), ("associate",)
# What is refused in so many drawn scripts at the least, each with its refusal.
COMMON = {f"{command} {refusal}" for command, refusals in ADVICE["common"].items() for refusal in refusals}


@dataclass(frozen=True)
class Told:
    """A refused line of a script, with what is told of it."""

    script: str
    number: int
    line: str
    refusal: str
    form: str
    steps: tuple[tuple[str, int], ...]

    @property
    def sort(self) -> str:
        return f"{self.line.split()[0]} {self.refusal}"

    def begin(self) -> list[str]:
        """The lines of the script up to the refused one, with it."""
        return self.script.splitlines()[:self.number]

    def acted(self) -> list[str]:
        """The lines that the steps come to; none where they are too many."""
        is_short = all(times <= MOST_TIMES for _, times in self.steps)
        return [line for line, times in self.steps for _ in range(times)] if is_short else []


def told_of(script: str, output: str) -> Iterator[Told | str]:
    """Of each refused line what is told, or a text that says that nothing is told of it in one of the forms."""
    for number, line, block in re.findall(r"^# (\d+): (.*)\n((?:(?!# \d+: ).*\n)*)", output, re.M):
        answer = next((it for it in reversed(block.splitlines()) if not it.startswith("#")), "")
        if not answer.startswith("refused ") or answer.split()[1] in SESSION:
            continue
        sentences = re.findall(r"^#    (.*)$", block, re.M)
        found = [(form, match) for form, pattern in FORMS.items() for text in sentences if (match := re.fullmatch(pattern, text))]
        if len(found) != 1:
            yield f"{' '.join(line.split())}: {answer}: {sentences}"
            continue
        form, match = found[0]
        steps = tuple((text, int(times or 1)) for text, times in re.findall(STEP, match[1])) if match.groups() else ()
        yield Told(script, int(number), line, answer.split()[1], form, steps)


def drawn_script(place: int) -> str:
    """A script in a small world. Threads run, are blocked, moved and stolen more often than by chance, and limits are met."""
    chance = random.Random(f"advice {place}")
    cpus = chance.choice([1, 2, 2, 2, 3])
    limits = chance.choice(["4 100 16 1000", "4 100 16 1000", "3 5 3 1000", "5 8 2 1000", "4 100 4 9", "3 6 1 12"])
    rough = Rough(cpus)

    def further(other: int) -> list[list[str]]:
        leave, new = f"{chance.choice([*LEAVES])} C RAN", f"create {other} {chance.randrange(1, 2**cpus)} ready"
        told = [leave, new, f"publish {other}", f"consume {other}", f"deliver C {rough.deltas}", "steal C", "pick C ASEQ"]
        return [
            ["create Q MASK ready", leave, "publish C", "consume C", "pick C ASEQ", leave][:chance.choice([1, 5, 6])],
            told[chance.choice([0, 1, 2]):], ["commit C T ASEQ"], ["associate T Q NUMBER"], ["commit C T ASEQ", "associate T Q NUMBER"],
            ["steal C", "pick C ASEQ"], [leave, "wake T", "affinity T MASK"], ["affinity T MASK", "priority T LEVEL"], ["deliver C K", "steal C"],
            ["crash C", "publish C", "steal C"], ["publish C fail", "tick C"],
        ]

    lines = [f"enclave {cpus} {limits}", *lines_of(chance, rough, chance.choice([2, 4, 8, 12]), further)]
    by_rank = drawn_rank(chance, leaves_out=True) + chance.choice(EXACTNESS)
    given = [None, None, None, by_rank, by_rank, *POLICIES][place % (5 + len(POLICIES))]
    if given:
        lines[:1] = ["version 3", lines[0], f"policy {given}"]
    return "\n".join(lines) + "\n"


def deeds_in(world: World) -> list[str]:
    """What agents may do, each with the number of now."""
    cpus, posts = range(world.cpus), [queue.posts for queue in world.queues]
    deeds = [f"associate t{name} {queue} {thread.number}" for name, thread in enumerate(world.threads) for queue in cpus]
    deeds += [f"commit {cpu} t{name} {posts[cpu]}" for cpu in cpus for name in range(len(world.threads))]
    for cpu in cpus:
        deeds += [f"publish {cpu}", f"consume {cpu}", f"steal {cpu}", f"pick {cpu} {posts[cpu]}"]
        deeds += [f"deliver {cpu} {delta}" for delta in range(len(world.deltas) + 2)]
        deeds += [f"answer {cpu} {other}" for other in cpus if other != cpu]
    return deeds


def calls_in(world: World) -> list[str]:
    """What the environment may do."""
    cpus, every = range(world.cpus), 2**world.cpus - 1
    calls = [f"{leave} {cpu} 0" for leave in ("block", "preempt", "die") for cpu in cpus] + [f"tick {cpu}" for cpu in cpus]
    calls += [f"create {cpu} {every} {state}" for cpu in cpus for state in ("ready", "blocked")]
    more = (("wake", ""), ("affinity", f" {every}"), ("priority", " 1"))
    return calls + [f"{call} t{name}{word}" for name in range(len(world.threads)) for call, word in more]


def numbered(world: World, line: str, more: int) -> str:
    """The line with the number of now, or of so many posts more."""
    verb, *words = line.split()
    if verb in BY_POSTS and int(words[0]) < world.cpus:
        words[-1] = str(world.queues[int(words[0])].posts + more)
    elif verb in BY_MESSAGES and int(words[0][1:]) < len(world.threads):
        words[-1] = str(world.threads[int(words[0][1:])].number + more)
    return " ".join([verb, *words])


def run_all(word: str, scripts: list[str]) -> list[str]:
    """What the program writes of each script."""
    return rig.in_threads(lambda script: good(rig.ask(word, given=script), script), scripts)


def answers_to(scripts: list[list[str]]) -> list[list[str]]:
    """The last line of each answer to each script."""
    return [last_lines(output) for output in run_all("replay", ["\n".join([*lines, ""]) for lines in scripts])]


def hold(what: str, wrong: list[str], count: int) -> None:
    """There are some, and none of them is wrong."""
    assert not wrong, f"{len(wrong)} of {count}: {what}; the first:\n" + "\n".join(wrong[:3])
    assert count > 0, what


def test_what_is_told_is_accepted() -> None:
    """All of it in one test, since what is told is looked for once."""
    scripts, chance = [drawn_script(place) for place in range(DRAWN)], random.Random("mended")
    for _ in range(2):  # most lines have the numbers of now
        scripts = [mended(script, lambda: chance.random() < 0.8) for script in scripts]
    every = [told for script, output in zip(scripts, run_all("explain", scripts)) for told in told_of(script, output)]
    told, chance = [it for it in every if isinstance(it, Told)], random.Random("searched")

    def some(of: list[Told]) -> list[Told]:
        return chance.sample(of, min(SEARCHED, len(of)))

    hold("no advice in its form", [it for it in every if isinstance(it, str)], len(every))
    forms_are_common(told)
    steps_are_accepted([it for it in told if it.acted()])
    hopeless = [it for it in told if it.form in ("environment", "no agent", "never")]
    hold("an agent can", *helped(some(hopeless), 1))
    hold("the environment can", *helped(some([it for it in hopeless if it.form == "never"]), 1, True))
    idle = [it for it in hopeless if it.form != "never" and it.line.split()[0] in ("pick", "steal", "commit", "block")]
    hold("two deeds of agents can", *helped(sorted(idle, key=lambda it: it.number)[:PAIRED], 2))
    longer = some([it for it in told if it.form == "agents" and len(it.acted()) > 2])
    wrong, _ = helped(longer, 1)
    assert len(wrong) * 20 < len(longer), f"a single deed would do; the first: {wrong[:1]}"


def forms_are_common(told: list[Told]) -> None:
    forms, sorts = Counter(it.form for it in told), Counter(it.sort for it in told)
    for has_policy, most in ((False, 80), (True, 100)):
        some = [it for it in told if ("\npolicy " in it.script) == has_policy]
        assert sum(it.form == "unsought" for it in some) * most < len(some), f"unsought, with a policy: {has_policy}"
    assert forms["no agent"] * 10 < len(told), forms
    for form in ("agents", "environment", "no agent", "never"):
        assert forms[form] > 20, forms
    assert not {sort for sort in COMMON if sorts[sort] < 3}, sorts


def steps_are_accepted(told: list[Told]) -> None:
    """Each step is accepted where it stands. Agents alone do what is told to be theirs."""
    wrong = []
    for it, every in zip(told, answers_to([[*it.begin(), *it.acted()] for it in told])):
        answers = every[-len(it.acted()):]
        acting = {line.split()[0] for line, _ in it.steps[:-1]} & ENVIRONMENT
        if any(answer.startswith("refused") for answer in answers) or bool(acting) != (it.form == "environment"):
            wrong.append(f"{it.sort}: {it.steps}: {answers}\n" + "\n".join(it.begin()))
        if it.steps[-1][0].split()[0] != it.line.split()[0]:
            wrong.append(f"{it.sort}: not of the line: {it.steps}")
    hold("a step is refused, or not of its form", wrong, len(told))


def helped(told: list[Told], many: int, is_environments: bool = False) -> tuple[list[str], int]:
    """Which of the lines are accepted behind so many deeds of agents, or calls of the environment, and how many lists of them were tried."""
    tried, wrong = [], []
    for it in told:
        talk = Talk()
        for line in it.begin():
            talk.take(line.encode())
        world = talk.world
        for deeds in itertools.product(calls_in(world) if is_environments else deeds_in(world), repeat=many):
            tried += [(it, [*it.begin(), *deeds, numbered(world, it.line, more)]) for more in range(is_environments + 1)]
    for (it, lines), answers in zip(tried, answers_to([lines for _, lines in tried])):
        if not any(answer.startswith("refused") for answer in answers[-many - 1:]):
            wrong.append(f"{it.sort}, {it.form}: {it.steps}, and {lines[-many - 1:]} is accepted\n" + "\n".join(it.begin()))
    return wrong, len(tried)


if __name__ == "__main__":
    rig.main(__doc__, rig.tests_in(globals()))

"""Pictures of scripts, taken apart, and what they have to show: by what tools/kernel.py tells of the script, and nothing of the picture's own."""
import itertools
import random
import re
import xml.etree.ElementTree as ElementTree
from collections import Counter
from collections.abc import Callable, Iterable, Iterator
from dataclasses import dataclass, field
from typing import NamedTuple

import rig
from kernel import LEAVES, Talk, World, answered, is_asked, told_of
from rig import ROOT, outcome, same
from scripts import Rough, lines_of, mended

SCRIPTS = [*sorted((ROOT / "examples").glob("*.script")), *sorted((ROOT / "examples/recordings").glob("*.script"))]
SETTINGS = [*sorted((ROOT / "examples").glob("*.toml")), *sorted((ROOT / "examples/recordings").glob("*.toml"))]
SVG = "{http://www.w3.org/2000/svg}"
SHAPES = {SVG + name for name in ("rect", "line", "path")}
ENCLAVE = "enclave 2 8 100 16 1000\n"
MENDED = 3
# The most commands of which each has a column of its own, and where the columns begin.
MOST_SINGLE, LEFT = 1000, 72
LINES = r"lines? (\d+)(?: to (\d+))?"
WAITING = r"(\d+) ready threads? waits?"
SINGLE_WORDS = "Lines of the script from left to right, a column for each command. A lane for each CPU."
# What the titles of bars say. What is shown at a CPU is one of these: who runs, how many threads wait there, how many items its queue
# holds, whether its agent sleeps, and, while it idles, how many threads wait anywhere.
ROWS = {
    "runs": rf"t(?P<value>\d+) on CPU (?P<cpu>\d+), {LINES}",
    "ready": rf"{WAITING.replace('(', '(?P<value>', 1)} for CPU (?P<cpu>\d+), {LINES}",
    "queue": rf"(?P<value>\d+) items? in queue (?P<cpu>\d+), {LINES}",
    "asleep": rf"agent (?P<cpu>\d+) asleep, {LINES}",
    "idle": rf"CPU (?P<cpu>\d+) idle while up to {WAITING.replace('(', '(?P<value>', 1)}, {LINES}",
}
# Where an element is, and not how it looks.
PLACES = {"x", "y", "x1", "y1", "x2", "y2", "width", "height", "d"}
Element = ElementTree.Element
Shown = dict[str, list[int | None]]
Steps = list[tuple[int, Shown]]


# A picture

# Visible words of a picture, and where they begin (or, of the names of rows, end).
Words = NamedTuple("Words", [("x", int), ("y", int), ("text", str)])


class Picture:
    """A picture, taken apart. Whatever is drawn, it is ASCII, but for words of a policy, has a size, and every shape says what it is."""

    def __init__(self, text: str) -> None:
        assert {it for it in text if not it.isascii()} <= {*"\u2039\u203a"}
        root = ElementTree.fromstring(text)
        same((root.tag, root[0].tag), (SVG + "svg", SVG + "title"))
        self.width, self.height = int(root.get("width")), int(root.get("height"))
        same(root.get("viewBox"), f"0 0 {self.width} {self.height}")
        self.title, self.elements = root[0].text, list(root)[1:]
        for element in self.elements:
            assert element.tag in SHAPES | {SVG + "text"}
            same([child.tag for child in element], [SVG + "title"] if element.tag in SHAPES else [])
            assert element.tag in SHAPES or element.text
            for name, most in (("x", self.width), ("x1", self.width), ("y", self.height), ("y1", self.height)):
                assert 0 <= float(element.get(name, 0)) <= most, ElementTree.tostring(element)
        self.shapes = [(element[0].text or "", element) for element in self.elements if element.tag in SHAPES]
        self.titles = [title for title, _ in self.shapes]
        self.words = [Words(int(it.get("x")), int(it.get("y")), it.text) for it in self.elements if it.tag == SVG + "text"]
        self.texts = [words.text for words in self.words]

    def found(self, pattern: str) -> Iterator[tuple[re.Match[str], Element]]:
        """The shapes with such titles."""
        return ((match, element) for title, element in self.shapes if (match := re.fullmatch(pattern, title)))

    def told(self, pattern: str) -> Counter[str]:
        return Counter(match[0] for match, _ in self.found(pattern))

    def sum_of(self, pattern: str) -> int:
        """The sum of the numbers that titles begin with."""
        return sum(int(match[0].split()[0]) for match, _ in self.found(pattern))

    def edges(self, pattern: str) -> list[tuple[float, float]]:
        """From where to where the bars with such titles go."""
        return [edges_of(element) for _, element in self.found(pattern)]

    def places(self, pattern: str) -> list[tuple[int, ...]]:
        return [x_of(element) for _, element in self.found(pattern)]


def draw(script: str, status: int = 0, flags: tuple[str, ...] = ()) -> Picture:
    run = rig.ask("draw", *flags, given=script)
    same(run.returncode, status)
    return Picture(run.stdout)


def edges_of(element: Element) -> tuple[float, float]:
    """Where a bar begins and ends, from left to right."""
    if element.tag == SVG + "line":
        return float(element.get("x1")), float(element.get("x2"))
    return float(element.get("x")), float(element.get("x")) + float(element.get("width"))


def x_of(element: Element) -> tuple[int, ...]:
    """Where a line begins and ends, or a path begins, from left to right."""
    if element.tag == SVG + "line":
        return int(element.get("x1")), int(element.get("x2"))
    return (int(re.match(r"M(\d+),", element.get("d"))[1]),)


def look_of(element: Element) -> tuple[object, ...]:
    """How an element looks, wherever it is and however long: its kind, its colours and lines, and of a path the strokes but for their lengths."""
    strokes = re.sub(r"\d+", "", (element.get("d") or "").partition("l")[2]) if element.tag == SVG + "path" else ""
    return (element.tag, frozenset(it for it in element.items() if it[0] not in PLACES), strokes)


# What a script comes to

@dataclass
class Story:
    """What happens in a script, from its lines and their answers."""

    commands: int = 0
    refused: int = 0
    last: int = 0
    on: dict[int, tuple[int, int]] = field(default_factory=dict)
    runs: Counter[str] = field(default_factory=Counter)
    done: Counter[str] = field(default_factory=Counter)  # by its first word, what was accepted
    posted: int = 0
    policy: str = ""

    @property
    def heading(self) -> str:
        return f"commands {self.commands}, refused {self.refused}{self.policy}"

    def take(self, number: int, words: list[str], answer: str) -> None:
        self.commands += 1
        self.last = number
        self.posted += " wake " in answer
        if answer.startswith("refused"):
            self.refused += 1
            return
        self.done[words[0]] += 1
        if words[0] == "policy":
            self.policy = ", " + " ".join(words)
        elif placed := re.fullmatch(r"ok t(\d+) c(\d+)", answer):
            self.on[int(placed[2])] = (int(placed[1]), number)
        elif words[0] in LEAVES:
            self.leave(int(words[1]), number)

    def leave(self, cpu: int, number: int) -> None:
        thread, first = self.on.pop(cpu)
        lines = f"lines {first} to {number}" if first < number else f"line {first}"
        self.runs[f"t{thread} on CPU {cpu}, {lines}"] += 1


def story_of(script: str) -> Story:
    """The story of a script as the program answers it."""
    told = Story()
    for each in answered(script, rig.replay(script)):
        told.take(*each)
    for cpu in list(told.on):
        told.leave(cpu, told.last)
    return told


def drawn_script(place: int) -> str:
    """A short script by the grammar, most of whose commands are accepted. Threads run, agents sleep and homes change more often than by chance."""
    chance = random.Random(f"bars {place}")
    cpus, few = chance.choice([1, 2, 2, 3, 4]), chance.random() < 0.2
    rough = Rough(cpus)

    def further(other: int) -> list[list[str]]:
        leave, new = f"{chance.choice([*LEAVES])} C RAN", f"create {other} {2**cpus - 1} ready"
        return [
            ["create Q MASK ready", leave, "publish C", "consume C", "pick C ASEQ", leave][:chance.choice([5, 6])],
            [leave, new, f"publish {other}", f"consume {other}", f"deliver C {rough.deltas}", "steal C", "pick C ASEQ"],
            ["sleep C ASEQ"], ["associate T Q NUMBER"], [],
        ]

    lines = lines_of(chance, rough, chance.choice([2, 5, 10, 20]), further)
    text = "\n".join(["# drawn", f"enclave {cpus} 3 4 3 1000" if few else f"enclave {cpus} 32 100 32 1000", *lines])
    text = re.sub("\n", lambda end: end[0] * (1 + (chance.random() < 0.03)), text) + "\n" + chance.choice(["", "", "", "walk\n"])
    for _ in range(MENDED):
        text = mended(text)
    return text


def front_of(script: str, most: int) -> str:
    """The script up to so many commands."""
    lines = script.splitlines()
    counts = itertools.accumulate(map(is_asked, lines))
    return "".join(f"{line}\n" for line, count in zip(lines, counts) if count <= most)


def many(cpus: int, least: int) -> str:
    """A script in which each CPU in turn creates, commits and blocks threads of its own, and tells the next CPU."""
    lines = [f"enclave {cpus} 4096 1000 4096 100000"]
    for thread in range(-(-(least - 1) // 6)):
        turn, cpu = divmod(thread, cpus)
        lines += [f"create {cpu} {1 << cpu} ready", f"publish {cpu}", f"consume {cpu}"]
        lines += [f"commit {cpu} t{thread} {2 * turn + 1}", f"deliver {(cpu + 1) % cpus} {thread}", f"block {cpu} 5"]
    return "\n".join(lines) + "\n"


def with_questions(script: str) -> str:
    """The script with questions behind each command: on every thread that there may be by then, and on every agent."""
    lines, threads, cpus = [], 0, 0
    for line in script.splitlines():
        lines.append(line)
        if is_asked(line):
            words = line.split()
            cpus = cpus or int(words[1]) if words[0] == "enclave" else cpus
            threads += words[0] == "create"
            lines += [*(f"status t{thread}" for thread in range(threads)), *(f"asleep {cpu}" for cpu in range(cpus))]
    return "\n".join(lines) + "\n"


def shown_in(world: World | None) -> Shown:
    """What each row shows at each CPU: none where there is nothing to show."""
    if world is None:
        return dict.fromkeys(ROWS, [])
    waits = Counter(it.home for it in world.threads if it.now.phase == "ready" and it.cpu is None)
    cpus = range(world.cpus)
    return {
        "runs": list(world.running),
        "ready": [waits[cpu] or None for cpu in cpus],
        "queue": [len(world.queues[cpu].items) or None for cpu in cpus],
        "asleep": [1 if world.sleeps[cpu] else None for cpu in cpus],
        "idle": [waits.total() or None if world.running[cpu] is None else None for cpu in cpus],
    }


def steps_of(script: str) -> tuple[int, Steps]:
    """How many CPUs there are, and of each command the number of its line, and what the rows show after it: by the model, whose answers to the
    script, and to questions behind each command, are the program's."""
    asked = with_questions(script)
    same(rig.replay(asked), told_of(asked.encode())[0])
    talk, steps = Talk(), []
    for line in script.split("\n"):
        is_told = talk.take(line.encode()) is not None and is_asked(line)
        if talk.faults:
            break
        steps += [(talk.number, shown_in(talk.world))] if is_told else []
    return (talk.world.cpus if talk.world else 0), steps


@dataclass(frozen=True)
class Part:
    """A part of a picture: the CPUs, and the lines, from the first to the last."""

    cpus: tuple[int, int] | None = None
    lines: tuple[int, int] | None = None

    def flags(self) -> list[str]:
        return [word for flag, it in (("--cpus", self.cpus), ("--lines", self.lines)) if it for word in (flag, f"{it[0]}-{it[1]}")]

    def has_cpu(self, cpu: int) -> bool:
        return not self.cpus or self.cpus[0] <= cpu <= self.cpus[1]

    def has_line(self, number: int) -> bool:
        return not self.lines or self.lines[0] <= number <= self.lines[1]


WHOLE = Part()


def drawn_part(place: int, script: str) -> Part:
    """A part by chance of a script's picture, which may go on past its last CPU and line."""
    chance, cpus, lines = random.Random(f"part {place}"), int(re.search(r"(?m)^enclave (\d+)", script)[1]), script.count("\n")
    some, more = ((first, chance.randint(first, most + 2)) for first, most in ((chance.randint(0, cpus - 1), cpus - 1), (chance.randint(1, lines), lines)))
    return Part(*chance.choice([(some, more), (some, more), (some, None), (None, more)]))


# A bar over some columns, from the first to before the end: its row, its CPU, what it shows, and its title's lines.
Bar = NamedTuple("Bar", [
    ("row", str), ("cpu", int), ("value", int), ("columns", tuple[float, float]), ("lines", tuple[int, int])])


def bars_of(steps: Steps, cpus: int) -> Counter[Bar]:
    """The bars by which the steps are to be shown: each as long as a row shows the same, and one while a CPU idles."""
    bars, numbers = Counter(), [number for number, _ in steps]
    for row in ROWS:
        for cpu in range(cpus):
            values = [shown[row][cpu] if shown[row] else None for _, shown in steps]
            kinds = [value if row != "idle" or value is None else "idle" for value in values]
            for kind, places in itertools.groupby(range(len(values)), kinds.__getitem__):
                start, *others = places
                end = start + len(others) + 1
                if kind is not None:
                    lines = (numbers[start], numbers[min(end, len(numbers) - 1)])
                    bars[Bar(row, cpu, max(values[start:end]), (start, end), lines)] += 1
    return bars


def bars_told(picture: Picture, more: str = "") -> Iterator[tuple[Bar, tuple[int, int]]]:
    """The bars that a picture shows, by where they are, and what their titles tell last: their lines, or behind these what `more` finds."""
    for row, pattern in ROWS.items():
        for match, element in picture.found(pattern + more):
            ends = match.groups()[-4 if more else -2:]
            spans = [(int(first), int(last or first)) for first, last in zip(ends[::2], ends[1::2])]
            yield Bar(row, int(match["cpu"]), int(match.groupdict().get("value", 1)), edges_of(element), spans[0]), spans[-1]


def width_of(count: int) -> int:
    """How wide a column is in a picture of so many commands."""
    return max(4, min(24, 1200 // max(1, count)))


def bars_in(picture: Picture, count: int) -> Counter[Bar]:
    """The bars that a picture of so many commands shows, with the columns over which they lie."""
    wide = width_of(count)
    return Counter(bar._replace(columns=tuple((edge - LEFT) / wide for edge in bar.columns)) for bar, _ in bars_told(picture))


def are_one(drawn: Counter[object], wanted: Counter[object]) -> None:
    same(drawn - wanted, Counter(), "drawn, and not so")
    same(wanted - drawn, Counter(), "so, and not drawn")


def shown_often(show: Callable[[str, Part], Counter[str]], make: Callable[[int], str], count: int, least: int, kinds: Iterable[str], parts: bool) -> None:
    """Holds the pictures of so many drawn scripts, or parts of them, against what they have to show. Each kind of what is shown is common."""
    shown: Counter[str] = Counter()
    for place in range(count):
        script = make(place)
        part = drawn_part(place, script) if parts else WHOLE
        with rig.about(place, part):
            shown += show(script, part)
    rare = [kind for kind in kinds if shown[kind] <= least]
    assert not rare, f"hardly any picture shows {rare}: {shown}"


def refused_words(*words: str) -> None:
    """The words are a bad command line."""
    status, out, errors = outcome(rig.ask(*words, given=ENCLAVE))
    first, *second = errors.splitlines()
    same((status, out, first, len(second)), (2, "", "pc-sim: bad command line", 1), words)

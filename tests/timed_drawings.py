"""Tests of pictures whose axis is the tick (`draw --time`), which tests/drawing_tests.py runs with its own.

Where a step stands is worked out here from the lines `# at TICK` of the script, by the words of docs/FORMATS.md, and what is shown from what `replay`
answers. Nothing is taken from the picture but the places that are held against it.
"""
import random
import re
from collections import Counter, defaultdict
from collections.abc import Iterable

import rig
from kernel import WORD64, answered, ticks_of
from pictures import (
    ENCLAVE, LEFT, MOST_SINGLE, ROWS, SCRIPTS, SINGLE_WORDS, SVG, WHOLE, Bar, Part, Picture, Steps, are_one, bars_of,
    bars_told, draw, drawn_script, edges_of, front_of, many, refused_words, shown_often, steps_of, story_of, x_of,
)
from rig import ROOT, good, outcome, same

DRAWN = 100
# A bar, from where to where it goes, and the ticks that its title tells.
Timed = tuple[Bar, tuple[int, int]]
TICKS = r"ticks? (\d+)(?: to (\d+))?"
POSTED = re.compile(r"ok (?:t\d+ n\d+|-) q(\d+) a\d+ wake .*")
# What looks like a line that tells a tick, and tells none.
NO_TICKS = [
    "# at x", "#at 5", "# at 5 6", "# at 05", "# at", "# at ", "#  at 5", "# at  5", "# at 5 ", "# at +5", "# at -5", "# at 5.0", "# at 5us", "# At 5", "## at 5",
    "# at 0x5", "# at 5\r\r", "# at\t5", "# at 18446744073709551616", "# at 99999999999999999999999", "# at 00", "# when 5",
]
GAPS = {"few": [0, 0, 1, 1, 2, 3], "many": [0, 1, 5, 40, 700], "far": [0, 1, 1000, 10**6, 10**12]}
TICK_WORDS = "Axis: ticks, from left to right, a column for each tick. A lane for each CPU."
MARKS = ("crash", "stolen", "moved", "refused", "post", "delta")
# How far left of its column's middle a mark begins.
BEFORE = {"crash": 7, "stolen": 3, "moved": 1, "refused": 1}


class Axis:
    """Where ticks stand in a picture of so many commands and lanes, from the first tick to the last."""

    def __init__(self, ticks: list[int], lanes: int) -> None:
        self.first, self.last = ticks[0], ticks[-1]
        self.count = self.last - self.first + 1
        most = 1200 if len(ticks) <= 12_000 else max(100, min(1200, 8000 // max(1, lanes)))
        self.columns = min(self.count, most)
        self.wide = max(4 if self.count <= 1000 else 1, min(24, 1200 // self.columns))

    def column(self, tick: int) -> int:
        return (tick - self.first) * self.columns // self.count

    def x(self, tick: int) -> int:
        return LEFT + self.wide * self.column(tick)

    def middle(self, tick: int) -> int:
        return self.x(tick) + self.wide // 2

    @property
    def end(self) -> int:
        return LEFT + self.wide * self.columns


def timed_bars(steps: Steps, cpus: int, ticks: list[int], axis: Axis) -> Counter[Timed]:
    """The bars by which the steps, which have these ticks, are to be shown. What lasts no tick is not; what lasts less than a column is as wide as one."""
    timed: Counter[Timed] = Counter()
    for (row, cpu, value, (start, end), lines), times in bars_of(steps, cpus).items():
        is_last = end >= len(ticks)
        begins, ends = ticks[start], axis.last if is_last else ticks[end]
        if is_last or begins != ends:
            left, right = axis.x(begins), axis.end if is_last else axis.x(ends)
            timed[Bar(row, cpu, value, (left, max(right, left + axis.wide)), lines), (begins, ends)] += times
    return timed


def timed_script(script: str, place: int) -> str:
    """The script with lines that tell ticks, drawn at random; a few tell less than those before, or nothing."""
    chance = random.Random(f"ticks {place}")
    gaps, tick, lines = GAPS[chance.choice([*GAPS])], chance.choice([0, 0, 7, 1234, 10**9]), []
    for line in script.splitlines():
        if chance.random() < 0.5:
            tick += chance.choice(gaps)
            untold = chance.choice([line for line in NO_TICKS if "\r" not in line])
            lines.append(chance.choice([f"# at {tick}"] * 12 + [f"# at {chance.randint(0, tick)}", untold, ""]))
        lines.append(line)
    return "\n".join(lines) + "\n"


def timed(script: str, status: int = 0, flags: tuple[str, ...] = ()) -> Picture:
    return draw(script, status, ("--time", *flags))


def labels(picture: Picture) -> list[int]:
    """The ticks that the axis tells. Holds each number's place against that of the thin line that has it in its title."""
    lines = [(int(it.get("x1")), found[0]) for found, it in picture.found(r"tick \d+") if it.tag == SVG + "line"]
    height = next(words.y for words in picture.words if words.text == "tick")
    numbers = [words for words in picture.words if words.y == height and words.text.isdigit()]
    same([(words.x + 3, f"tick {words.text}") for words in numbers], lines)
    assert all(other.x - one.x >= max(50, 7 * len(one.text)) for one, other in zip(numbers, numbers[1:])), numbers
    return [int(words.text) for words in numbers]


def axis_is_told_by_ticks(picture: Picture, axis: Axis) -> None:
    """The axis tells each multiple of the least distance for which there is room, which is 1, 2 or 5 times a power
    of ten, or else the first tick: each at its column. Where columns are of several ticks, one is room too."""
    told = labels(picture)
    for tick in told:
        same([at for at, _ in picture.places(f"tick {tick}")], [axis.middle(tick)])
    room = max(56, 7 * (len(str(axis.last)) + 1)) + (axis.wide if axis.count > axis.columns else 0)
    distances = (factor * 10**power for power in range(20) for factor in (1, 2, 5))
    distance = next(it for it in distances if axis.x(axis.first + it) - LEFT >= room)
    rounds = range(-(-axis.first // distance) * distance, axis.last + 1, distance)
    same(told, list(rounds) or [axis.first])


def test_a_script_without_ticks_is_drawn_by_its_lines() -> None:
    script = ENCLAVE + "create 0 3 ready\npublish 0\nconsume 0\ncommit 0 t0 1\ncrash 0\nblock 0 5\n"
    untold = ["".join(f"{line}\n{it}\n" for it in script.splitlines()) for line in NO_TICKS]
    for text in [script, script + "# at 5\n", *untold, ENCLAVE + "tick 0\n" * 2_000]:
        by_lines, by_ticks = (rig.ask("draw", *flags, given=text).stdout for flags in ([], ["--time"]))
        assert f">{SINGLE_WORDS}</text>" in by_lines or "; a column is of up to 2 commands. " in by_ticks
        same(by_ticks, by_lines.replace("Lines of the script from left", 'No line "# at TICK": lines from left'), text)
    for draws in (draw, timed):
        same(draws("# at 5\n").title, "commands 0, refused 0")


def test_by_lines_a_line_that_tells_a_tick_is_a_comment() -> None:
    for place in range(20):
        script = timed_script(drawn_script(place), place)
        one, other = (rig.ask("draw", given=text) for text in (script, script.replace("# at", "# when")))
        same(outcome(other), outcome(one))
        story, title = story_of(script), Picture(one.stdout).title
        assert story.commands > 0 and f"commands {story.commands}, refused {story.refused}" in title
        same(one.returncode, 1 if ", fault line " in title else 0)


def test_a_carriage_return_at_the_end_is_none_of_the_lines() -> None:
    picture = timed(f"# at 5\r\n{ENCLAVE}tick 0\n")
    same((picture.texts[1], labels(picture)), (TICK_WORDS, [5]))


def shown_by_ticks(script: str, part: Part = WHOLE) -> Counter[str]:
    """Holds bars, marks and axis of a part of a script's picture against what the script answers and when. Counts what was held."""
    (cpus, every), ticks = steps_of(script), ticks_of(script)
    steps = [step for step in every if part.has_line(step[0])]
    picture = Picture(rig.ask("draw", "--time", *part.flags(), given=script).stdout)
    if not (times := [ticks[number] for number, _ in steps]):
        same(picture.places(r"tick \d+"), [])
        return Counter()
    axis = Axis(times, cpus)
    drawn: Counter[Timed] = Counter(bars_told(picture, f", {TICKS}"))
    are_one(drawn, Counter({it: count for it, count in timed_bars(steps, cpus, times, axis).items() if part.has_cpu(it[0].cpu)}))
    axis_is_told_by_ticks(picture, axis)
    each = -(-axis.count // axis.columns)
    scale = "; a column is of up to " + f"{each} ticks" if axis.count > axis.columns else ", a column for each tick"
    same(picture.texts[1], f"Axis: ticks, from left to right{scale}. A lane for each CPU.")
    return Counter(bar.row for bar, _ in drawn.elements()) + marks_by_ticks(picture, script, axis, ticks, steps[0][0])


def marks_by_ticks(picture: Picture, script: str, axis: Axis, ticks: dict[int, int], first: int) -> Counter[str]:
    """Holds the place of each mark of a single step against its tick, and that of each arrow against the tick at which it was sent, or where the part
    begins whose first line this is."""
    answers = answered(script, rig.replay(script))
    told = ((number, re.fullmatch(r"ok d(\d+) items \d+", answer)) for number, _, answer in answers)
    sent, marks = {int(delta[1]): number for number, delta in told if delta}, Counter[str]()
    for text, element in picture.shapes:
        line = re.match(r"(?:t\d+ (stolen|moved) from queue \d+ to queue \d+, )?line (\d+): (.*)", text)
        if crash := re.fullmatch(r"crash \d+, line (\d+)", text):
            marks["crash"] += 1
            same(x_of(element), (axis.middle(ticks[int(crash[1])]) - 7,), text)
        elif line and line[3].startswith("deliver ") and ": refused" not in text:
            sender = sent.get(int(line[3].split()[2]))
            same(x_of(element)[-1], axis.middle(ticks[int(line[2])]))
            if element.tag == SVG + "line" and sender is not None:
                same(x_of(element)[0], axis.middle(ticks[sender]) if sender >= first else LEFT)
            marks["delta"] += 1
        elif line:
            kind = line[1] or ("refused" if ": refused " in text else "post")
            marks[kind] += 1
            same({place + BEFORE.get(kind, 0) for place in x_of(element)}, {axis.middle(ticks[int(line[2])])}, text)
    return marks


def with_ticks(place: int) -> str:
    """A drawn script, most of whose commands are accepted, with lines that tell ticks."""
    return f"# at {place % 3}\n" + timed_script(drawn_script(place), place)


@rig.each({"whole": (15, (*ROWS, *MARKS), False), "parts, from first to last tick": (10, ROWS, True)})
def test_what_drawn_scripts_show_stands_by_its_ticks(least: int, kinds: Iterable[str], parts: bool) -> None:
    shown_often(shown_by_ticks, with_ticks, DRAWN, least, kinds, parts)


def test_examples_and_loads_of_the_lab_stand_by_their_ticks() -> None:
    scripts = {file.name: file.read_text() for file in sorted((ROOT / "examples/lab/worked").glob("*.script"))}
    scripts |= {file.name: timed_script(front_of(file.read_text(), MOST_SINGLE - 100), place) for place, file in enumerate(SCRIPTS)}
    for name in ("shell-pipelines", "python-pool"):
        scripts[name] = rig.run(ROOT / "tools/from-perf-sched", "--times", ROOT / f"examples/recordings/{name}.txt", check=True).stdout
    assert len(scripts) > 15
    for name, script in scripts.items():
        with rig.about(name):
            assert shown_by_ticks(front_of(script, MOST_SINGLE)).total() > 0


def test_a_script_of_the_lab_is_piped() -> None:
    worked = ROOT / "examples/lab/worked"
    made = good(rig.ask("lab", worked / "2-steals.toml", "--script", "steals"))
    same(made, (worked / "2-steals.steals.script").read_text())
    assert shown_by_ticks(front_of(made, MOST_SINGLE)).total() > 0


def test_many_steps_over_many_ticks() -> None:
    """Of 20,000 commands over 10^9 ticks each of 1,200 columns tells who ran in it, and for how much of its ticks."""
    for cpus, gap in ((2, 300_000), (2, 20), (8, 1), (64, 700)):
        with rig.about(cpus, gap):
            script = spread(many(cpus, 20_000), gap)
            picture, ticks, story = timed(script), ticks_of(script), story_of(script)
            axis = Axis(list(ticks.values()), cpus)
            same(picture.title, story.heading)
            same(runs_in(picture, axis), runs_by_column(script, axis, ticks, cpus))
            same(picture.sum_of(r"\d+ posts? to queue .*"), story.posted)
            same(picture.sum_of(r"\d+ deltas? taken in by agent .*"), story.done["deliver"])
            same(counts_in(picture, axis), posts_by_column(script, axis, ticks))
            axis_is_told_by_ticks(picture, axis)
            assert picture.width < 1400


def test_parts_of_many_steps_over_many_ticks() -> None:
    """A part of more than 1,000 commands goes from its first tick to its last; who ran when it began is shown from there on."""
    script = spread(many(4, 12_000), 5_000)
    ticks = ticks_of(script)
    for first, last in ((1, 9_000), (7_001, 14_000), (15_000, 4294967295)):
        with rig.about(first):
            part = {number: tick for number, tick in ticks.items() if first <= number <= last}
            assert len(part) > 1_000
            axis, flags = Axis(list(part.values()), 4), ("--lines", f"{first}-{last}")
            shown, some = (runs_in(timed(script, flags=(*flags, *more)), axis) for more in ([], ["--cpus", "1-2"]))
            same(shown, runs_by_column(script, axis, part, 4))
            same(some, {place: what for place, what in shown.items() if place[0] in (1, 2)})


def spread(script: str, gap: int) -> str:
    """The script with a tick in front of each line but the first, at gaps by chance."""
    chance, tick, lines = random.Random(f"spread {gap}"), 5, []
    for line in script.splitlines():
        tick += chance.choice([0, 0, chance.randint(0, gap)])
        lines += [f"# at {tick}", line]
    return "\n".join(lines) + "\n"


def runs_by_column(script: str, axis: Axis, ticks: dict[int, int], cpus: int) -> dict[tuple[int, int], str]:
    """Who ran at each CPU in each column: a thread that did in each of its ticks, or the share of them in fifths. What came before the commands that
    have a tick was before the first tick, and what comes behind them is left out."""
    spans, on = list[tuple[int, int, int, int]](), dict[int, tuple[int, int]]()
    for number, words, answer in answered(script, rig.replay(script)):
        if number <= max(ticks) and words[0] in ("commit", "block") and answer.startswith("ok"):
            cpu, tick = int(words[1]), ticks.get(number, axis.first)
            if words[0] == "commit":
                on[cpu] = (int(words[2][1:]), tick)
            else:
                spans.append((cpu, *on.pop(cpu), tick))
    spans += [(cpu, *came, axis.last + 1) for cpu, came in on.items()]
    begins = [axis.first - (-column * axis.count // axis.columns) for column in range(axis.columns + 1)]
    busy: defaultdict[tuple[int, int], Counter[int]] = defaultdict(Counter)
    for cpu, thread, begin, end in spans:
        for column in range(axis.column(begin), axis.column(end - 1) + 1):
            busy[cpu, column][thread] += max(0, min(end, begins[column + 1]) - max(begin, begins[column]))
    shown = {}
    for (cpu, column), threads in busy.items():
        length, ran = begins[column + 1] - begins[column], threads.total()
        share = f"{20 * max(1, min(5, (10 * ran + length) // (2 * length)))} %"
        if ran:
            shown[cpu, column] = f"t{next(iter(+threads))}" if len(+threads) == 1 and ran == length else share
    return shown


def runs_in(picture: Picture, axis: Axis) -> dict[tuple[int, int], str]:
    """Who ran at each CPU in each column, as the picture shows it."""
    shown: dict[tuple[int, int], str] = {}
    for text, element in picture.shapes:
        thread, share = re.match(r"(t\d+) on CPU (\d+), ", text), re.match(r"CPU (\d+) busy about (\d+ %), ", text)
        if thread or share:
            cpu, what = (int(thread[2]), thread[1]) if thread else (int(share[1]), share[2])
            left, right = ((int(edge) - LEFT) / axis.wide for edge in edges_of(element))
            assert left.is_integer() and right.is_integer() and left < right
            for column in range(int(left), int(right)):
                assert (cpu, column) not in shown
                shown[cpu, column] = what
    return shown


def posts_by_column(script: str, axis: Axis, ticks: dict[int, int]) -> Counter[tuple[int, int]]:
    """How many posts to each queue there are up to the end of each run of columns: how many in which column."""
    told = ((number, POSTED.fullmatch(answer)) for number, _, answer in answered(script, rig.replay(script)))
    posts = Counter((int(posted[1]), axis.column(ticks[number])) for number, posted in told if posted)
    return in_runs(posts, set(posts))


def in_runs(counts: Counter[tuple[int, int]], there: set[tuple[int, int]]) -> Counter[tuple[int, int]]:
    """Counts of columns that stand side by side, all of which are there, together at the first of them."""
    runs: Counter[tuple[int, int]] = Counter()
    for (queue, column), count in counts.items():
        while (queue, column - 1) in there:
            column -= 1
        runs[queue, column] += count
    return runs


def counts_in(picture: Picture, axis: Axis) -> Counter[tuple[int, int]]:
    """The posts that the picture's strips tell, those of strips side by side together at the first column."""
    counts, there = Counter[tuple[int, int]](), set[tuple[int, int]]()
    for told, element in picture.found(r"(\d+) posts? to queue (\d+), .*"):
        left, right = (round((edge - LEFT) / axis.wide) for edge in edges_of(element))
        counts[int(told[2]), left] = int(told[1])
        there |= {(int(told[2]), column) for column in range(left, right)}
    return in_runs(counts, there)


def test_many_steps_in_one_tick() -> None:
    for tick in (0, 77, WORD64):
        picture = timed(f"# at {tick}\n{many(2, 3_000)}tick 0\n")
        same(len(picture.edges(rf".* in queue 0, .*tick {tick}")), 1)
        same((labels(picture), set(picture.edges(r".*, tick \d+"))), ([tick], {(72, 96)}))


def test_many_moves_are_drawn_over_all_ticks() -> None:
    script = "enclave 2 4096 100000 4096 100000\ncreate 0 3 ready\npublish 0\nconsume 0\n"
    script += "".join(f"# at {place * place}\nassociate t0 {(place + 1) % 2} 1\n" for place in range(1_800))
    picture, ticks = timed(script), ticks_of(script)
    axis = Axis(list(ticks.values()), 2)
    arrows = [(x_of(it)[0], int(found[1])) for found, it in picture.found(r"t0 moved.*, line (\d+).*")]
    same(len(arrows), 500)
    same([x for x, _ in arrows], [axis.middle(ticks[number]) - 1 for _, number in arrows])
    same(picture.sum_of(r"\d+ moves? of threads to queue .*"), 1_800)


def test_time_goes_with_the_other_flags() -> None:
    script = "# at 5\n" + ENCLAVE + "# at 9\ntick 0\n"
    wanted = rig.ask("draw", "--time", "--lines", "4", given=script)
    same(labels(Picture(wanted.stdout)), [9])
    assert "Only a part of it: line 4." in wanted.stdout
    for words in (["--time", "--lines", "4"], ["--lines=4", "--time"], ["--time", "-", "--lines", "4-4"]):
        same(good(rig.ask("draw", *words, given=script)), wanted.stdout, words)
    for line in ("draw --time --time", "draw --time=1", "replay --time", "draw --times"):
        refused_words(*line.split())

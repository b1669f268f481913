"""Tests of the pictures of waits that `pc-sim lab --picture` draws, which tests/lab_tests.py runs with its own.

What a picture has to show is worked out here from the runs of tests/reference/lab.py.
"""
import bisect
import math
import random
import re
import xml.etree.ElementTree as ElementTree
from collections import defaultdict
from typing import Any

import rig
import tables
from pictures import PLACES, SVG, Element
from pictures import Picture as AnyPicture
from reference.lab import Run, runs_of, script_of, waits_told
from rig import ROOT, good, near, same

# The frame of a picture of waits: where waits of 0 and of 1 tick stand, and the other edges.
LEFT, FIRST, RIGHT, TOP, BOTTOM = 56, 92, 780, 56, 456
# The shares that have a line, in hundredths, and those of them that are told at the left edge.
SHARES, TOLD_SHARES = (0, 25, 50, 75, 90, 99, 100), (0, 25, 50, 75, 90, 100)
# The legend: where its first line stands, how high a line is, and where its columns begin or end.
HEAD, LINE = 514, 18
COLUMNS = {132: "start", 430: "end", 550: "end", 670: "end", 780: "end"}
# How an element looks. Nothing else but where it is may be told of one: nothing hides or moves it.
LOOKS = {"fill", "stroke", "stroke-width", "stroke-dasharray", "font-size", "font-weight", "text-anchor"}
WORKED = ROOT / "examples/lab/worked"
PERCENTS = (50, 90, 99)
DRAWN = 50


class Told:
    """What a run tells: the title of its curve, its percentiles, and how long each wait lasted."""

    def __init__(self, run: Run) -> None:
        self.name, self.waits = run.variant.name, sorted(wait.ticks for wait in run.waits)
        cells = {percent: waits_told("", self.waits, PERCENTS)[f" p{percent}"] for percent in PERCENTS}
        told = "".join(f", p{percent} {'-' if it is None else it}" for percent, it in cells.items())
        self.title = f"{self.name}: waits {len(self.waits)}{told}"
        self.percentiles = {percent: it for percent, it in cells.items() if it is not None}


class Picture(AnyPicture):
    """A picture of waits: of curves, marks and lines their places and looks, by their titles."""

    def __init__(self, text: str) -> None:
        super().__init__(text)
        self.curves: dict[str, list[tuple[int, int]]] = {}
        self.marks: defaultdict[str, list[tuple[int, int]]] = defaultdict(list)
        self.looks: defaultdict[str, list[dict[str, str]]] = defaultdict(list)
        self.lines: defaultdict[tuple[int, ...], list[tuple[str, dict[str, str]]]] = defaultdict(list)
        for title, element in self.shapes:
            steps, look = element.get("d"), look_of(element)
            if element.tag == SVG + "line":
                self.lines[tuple(int(element.get(name)) for name in ("x1", "y1", "x2", "y2"))].append((title, look))
            elif element.tag == SVG + "path":
                corners = [(int(x), int(y)) for x, y in re.findall(r"[MH](\d+)[,V](\d+)", steps)]
                if " waits " in title:
                    self.curves[title] = corners
                else:
                    self.marks[title].append(corners[0])
                    look["shape"] = steps[steps.index(" "):]
                self.looks[title].append(look)

    def said(self, x: int | None = None, y: int | None = None) -> list[tuple[int, int, str, str]]:
        """The words in this column, or at this height: where, what, and which end of them is there."""
        words = [(int(it.get("x")), int(it.get("y")), it.text, it.get("text-anchor", "start")) for it in self.elements if it.tag == SVG + "text"]
        return sorted(it for it in words if x in (None, it[0]) and y in (None, it[1]))


def look_of(element: Element) -> dict[str, str]:
    """How an element looks, wherever it is."""
    return {name: value for name, value in element.items() if name not in PLACES}


def light_of(colour: str | None) -> float:
    """How light a colour is: 0 is black, and 1 is white, and what has none."""
    digits = (colour or "").removeprefix("#")
    if not re.fullmatch(r"[0-9A-Fa-f]{3}|[0-9A-Fa-f]{6}", digits):
        return 1
    digits = "".join(2 * digit for digit in digits) if len(digits) == 3 else digits
    red, green, blue = (int(digits[place:place + 2], 16) / 255 for place in (0, 2, 4))
    return 0.2126 * red + 0.7152 * green + 0.0722 * blue


def room_of(element: ElementTree.Element) -> list[tuple[float, float]]:
    """Two corners of what an element takes: of words about their width, of a path five pixels around its beginning."""
    at = [float(element.get(name, 0)) for name in ("x", "y", "x1", "y1", "x2", "y2", "width", "height")]
    if element.tag == SVG + "rect":
        return [(at[0], at[1]), (at[0] + at[6], at[1] + at[7])]
    if element.tag == SVG + "line":
        return [(at[2], at[3]), (at[4], at[5])]
    if element.tag == SVG + "text":
        wide = len(element.text) * int(element.get("font-size")) * 0.55
        left = at[0] - wide * {"start": 0, "middle": 0.5, "end": 1}[element.get("text-anchor", "start")]
        return [(left, at[1] - 8), (left + wide, at[1] + 2)]
    x, y = map(int, re.match(r"M(\d+),(\d+) ", element.get("d")).groups())
    return [(x - 5, y - 5), (x + 5, y + 5)]


def place_of(ticks: int, decades: int) -> float:
    """Where a wait stands: its logarithm, but for 0."""
    return LEFT if ticks == 0 else FIRST + (RIGHT - FIRST) * math.log10(ticks) / decades


def height_at(points: list[tuple[int, int]], x: int) -> int:
    """How high a curve is above the bottom edge behind its step at this column of pixels."""
    return BOTTOM - min((y for at, y in points if at <= x), default=BOTTOM)


def drawn(text: str, *words: object) -> Any:
    return good(rig.ask("lab", "-", "--picture", *words, given=text))


def shows(text: str, variants: str | None = None) -> Picture:
    """A picture shows what is told of the load."""
    with rig.file(variants or "") as file, rig.about(text):
        picture = Picture(drawn(text, *(["--variants", file] if variants else [])))
        every = [Told(run) for run in runs_of(text, variants)]
        same(picture.title, "; ".join(told.title for told in every))
        same((picture.width, picture.height), (820, 526 + 18 * len(every)))
        longest = max([wait for told in every for wait in told.waits], default=0)
        decades = next(count for count in range(1, 21) if 10**count >= longest)
        same(list(picture.curves), [told.title for told in every if told.waits])
        seen(picture)
        shares(picture)
        ticks(picture, decades)
        same(picture.said(y=HEAD), row(HEAD, ["variant", *(f"p{percent}" for percent in PERCENTS), "waits"]))
        for place, told in enumerate(every):
            marks(picture, told, decades)
            legend(picture, told, HEAD + LINE * (place + 1))
            if told.waits:
                curve(picture.curves[told.title], told.waits, decades)
    return picture


def seen(picture: Picture) -> None:
    """Every element is within the picture, and can be seen on its white ground, which lies below all others."""
    (width, height), ground = (picture.width, picture.height), picture.elements[0]
    same((ground.tag, room_of(ground)), (f"{SVG}rect", [(0, 0), (width, height)]))
    same(look_of(ground), {"fill": "#fff"})
    for element in picture.elements[1:]:
        told, look = ElementTree.tostring(element), look_of(element)
        assert element.tag in {SVG + kind for kind in ("rect", "line", "path", "text")}, told
        assert set(look) <= LOOKS, told
        for x, y in room_of(element):
            assert 0 <= x <= width and 0 <= y <= height, told
        assert float(look.get("stroke-width", 1)) > 0, told
        if element.tag == f"{SVG}text":
            assert element.text and int(look["font-size"]) >= 10 and light_of(look["fill"]) < 0.4, told
        else:
            assert min(light_of(look.get("fill", "none")), light_of(look.get("stroke"))) < 0.9, told
        if element.tag == f"{SVG}rect":
            same(look["fill"], "none", "it covers what is below it:", told)


def shares(picture: Picture) -> None:
    """Each share has its line and is told at its height; percentiles are named on the right. All are framed."""
    heights = {share: BOTTOM - 4 * share for share in SHARES}
    for share, y in heights.items():
        same([title for title, _ in picture.lines.get((LEFT, y, RIGHT, y), [])], [f"{share} % of the waits"])
    same(picture.said(x=46), sorted((46, heights[share] + 4, f"{share} %", "end") for share in TOLD_SHARES))
    named = [(RIGHT + 6, heights[percent] + 4, f"p{percent}", "start") for percent in PERCENTS]
    same(picture.said(x=RIGHT + 6), sorted(named))
    frame, = [it for it in picture.elements if it.tag == SVG + "rect"][1:]
    same((frame[0].text, room_of(frame)), ("all waits", [(LEFT, TOP), (RIGHT, BOTTOM)]))
    assert light_of(frame.get("stroke")) < 0.4


def ticks(picture: Picture, decades: int) -> None:
    """Each power of ten has its line and is told below it, and 0 is told too. On an axis of at most eight decades
    twice and five times each of them have lines."""
    told, powers = picture.said(y=BOTTOM + 18), range(decades + 1)
    wanted = ["0", *(str(10**power) if decades <= 8 or power < 5 else f"10^{power}" for power in powers)]
    same([it[2:] for it in told], [(words, "middle") for words in wanted])
    for (x, _, words, _), place in zip(told, [LEFT, *(place_of(10**power, decades) for power in powers)], strict=True):
        near(x, place, delta=1, msg=words)
    upright = sorted((*place, title) for place, lines in picture.lines.items() for title, _ in lines
                     if place[0] == place[2])
    whole = [(x, TOP, x, BOTTOM + 6, f"10^{power}") for power, (x, *_) in enumerate(told[1:])]
    same([it for it in upright if it[1] == TOP], whole)
    between = [factor * 10**power for power in range(decades) for factor in (2, 5)] if decades <= 8 else []
    short = [it for it in upright if it[1] != TOP]
    same([it[1:2] + it[3:] for it in short], [(BOTTOM, BOTTOM + 4, str(it)) for it in between])
    for (x, *_), ticks in zip(short, between, strict=True):
        near(x, place_of(ticks, decades), delta=1)


def row(y: int, cells: list[str]) -> list[tuple[int, int, str, str]]:
    """The words of a line of the legend."""
    return [(x, y, cell, anchor) for (x, anchor), cell in zip(COLUMNS.items(), cells, strict=True)]


def legend(picture: Picture, told: Told, y: int) -> None:
    """A variant's line has its name and its numbers, and a sample and a mark that look like its curve's."""
    cells = [str(told.percentiles.get(percent, "-")) for percent in PERCENTS]
    same(picture.said(y=y), row(y, [told.name, *cells, str(len(told.waits))]))
    (title, sample), = picture.lines[LEFT, y - 4, LEFT + 64, y - 4]
    same((title, picture.marks[told.name]), (told.name, [(LEFT + 32, y - 4)]))
    mark, = picture.looks[told.name]
    same(picture.looks.get(told.title, []), [sample] if told.waits else [])
    for percent, ticks in told.percentiles.items():
        same(picture.looks[f"{told.name}: p{percent} {ticks}"], [mark])
    same(sample["fill"], "none")
    assert light_of(sample["stroke"]) < 0.4
    same({mark["fill"], mark["stroke"]} - {"#fff"}, {sample["stroke"]})


def marks(picture: Picture, told: Told, decades: int) -> None:
    """Each percentile has one mark, at its share, and the name has another in the legend."""
    same(len(picture.marks[told.name]), 1)
    same([title for title in picture.marks if title.startswith(f"{told.name}: p")],
         [f"{told.name}: p{percent} {ticks}" for percent, ticks in told.percentiles.items()])
    for percent, ticks in told.percentiles.items():
        ((x, y),), points = picture.marks[f"{told.name}: p{percent} {ticks}"], picture.curves[told.title]
        near(x, place_of(ticks, decades), delta=1)
        same(y, BOTTOM - (BOTTOM - TOP) * percent // 100)
        assert height_at(points, x - 1) < BOTTOM - y <= height_at(points, x), "a mark beside its curve"


def curve(points: list[tuple[int, int]], waits: list[int], decades: int) -> None:
    """It climbs from the corner to the other one, and is everywhere as high as the share of shorter waits."""
    same((points[0], points[-1]), ((LEFT, BOTTOM), (RIGHT, TOP)))
    assert len(points) <= RIGHT - LEFT + 3
    assert all(x < to and y > up for (x, y), (to, up) in zip(points[1:-1], points[2:-1]))
    assert all(LEFT <= x <= RIGHT and TOP <= y <= BOTTOM for x, y in points)
    places = [place_of(wait, decades) for wait in waits]
    for x in range(LEFT, RIGHT + 1):
        least, most = (bisect.bisect_right(places, x + by) for by in (-1, 1))
        high = height_at(points, x) * len(waits) / (BOTTOM - TOP)
        assert least - len(waits) / (BOTTOM - TOP) <= high <= most, f"at {x}"


def test_worked_loads_are_drawn():
    for load in sorted(WORKED.glob("*.toml")):
        shows(load.read_text())


def test_drawn_loads_are_drawn():
    chance = random.Random("picture")
    for _ in range(DRAWN):
        load, variants = tables.drawn_load(chance), tables.drawn_load(chance)
        shows(load, variants if chance.random() < 0.3 else None)


def thread(*steps: str, level: int = 0) -> str:
    return tables.thread(0, 1, *steps, level=level)


def test_no_waits():
    picture = shows("cpus = 1\n")
    same(picture.title, "plain: waits 0, p50 -, p90 -, p99 -")
    same((picture.curves, list(picture.marks)), ({}, ["plain"]))
    same(picture.texts.count("-"), 3)


def test_one_wait():
    picture = shows("cpus = 1\n" + thread("die 5"))
    same(picture.title, "plain: waits 1, p50 0, p90 0, p99 0")
    same(picture.curves[picture.title], [(LEFT, BOTTOM), (LEFT, TOP), (RIGHT, TOP)])


def test_a_wait_that_had_not_ended_counts():
    """At tick 7 one of two has waited since tick 0."""
    same(shows("cpus = 1\nuntil = 7\n" + 2 * thread("die 10")).title, "plain: waits 2, p50 0, p90 7, p99 7")


def test_waits_of_nothing_and_of_2_to_the_40():
    """A thread of level 7 runs for 2^40 ticks in 257 steps, and six others wait for it."""
    picture = shows("cpus = 1\n" + thread(*["yield 4294967295"] * 256, "die 256", level=7) + 6 * thread("die 0"))
    same(picture.title, f"plain: waits 263, p50 0, p90 0, p99 {2**40}")
    (x, y), = picture.marks[f"plain: p99 {2**40}"]
    near(x, FIRST + (RIGHT - FIRST) * math.log10(2**40) / 13, delta=1)
    assert "10^13" in picture.texts


def test_decades_are_told_in_digits_where_there_is_room():
    picture = shows("cpus = 1\n" + 2 * thread("die 99999999"))
    assert {"0", "1", "10", "100000000"} <= set(picture.texts)
    picture = shows("cpus = 1\n" + 2 * thread("die 100000001"))
    assert {"0", "1", "10", "10000", "10^5", "10^9"} <= set(picture.texts)
    assert "100000" not in picture.texts


def test_sixteen_variants_can_be_told_apart():
    names = [f"{place}.{'x' * place}-y" for place in range(16)]
    variants = (tables.variant(name, quantum=place) for place, name in enumerate(names))
    picture = shows("cpus = 1\n" + 3 * thread("die 20") + "".join(variants))
    same(len(picture.curves), 16)
    dashes = {picture.looks[title][0].get("stroke-dasharray") for title in picture.curves}
    marks = {(look["shape"], look["fill"] == "#fff") for look in (picture.looks[name][0] for name in names)}
    same((len(dashes), len(marks)), (16, 16))


def test_many_waits_make_no_large_picture():
    """20,000 waits: the points of a curve are as few as the columns of pixels."""
    steps = [f"yield {place % 977}" for place in range(9999)] + ["die 3"]
    shows("cpus = 1\n" + 2 * thread(*steps) + tables.variant("fifo", order="fifo"))


def test_what_wins():
    """A script that is named goes before a picture, and a picture before a table."""
    load = (WORKED / "2-steals.toml").read_text()
    picture, script = drawn(load), script_of(next(run for run in runs_of(load) if run.variant.name == "alone"))
    same(drawn(load, "--csv", "--per-cpu"), picture)
    same(good(rig.ask("lab", WORKED / "2-steals.toml", "--picture")), picture)
    same(drawn(load, "--script", "alone"), script)
    same(drawn(load, "--csv", "--script", "alone", "--per-cpu"), script)

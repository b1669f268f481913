#!/usr/bin/env python3
"""Tests the pictures that the built program draws: of scripts written here, of the examples, and of reports.

tests/pictures.py takes a picture apart, and knows what it has to show. The tests of tests/timed_drawings.py are run too.
"""
import itertools
import re
import tomllib
from collections import Counter

import rig
import timed_drawings
from kernel import answered, ticks_of
from pictures import (
    ENCLAVE, LEFT, MOST_SINGLE, ROWS, SCRIPTS, SETTINGS, SHAPES, SINGLE_WORDS, SVG, WHOLE, Element, Part, Picture, Words,
    are_one, bars_in, bars_of, draw, drawn_script, edges_of, front_of, look_of, many, refused_words, shown_often,
    steps_of, story_of, width_of,
)
from rig import ROOT, good, outcome, same

DRAWN = 300
# What spells no numbers, and what does.
NO_NUMBERS = ["", " ", "a", "-", "3-", "-3", "7-3", "+1", "1-+2", "01", "1-02", "1-2-3", "1--2", "1,2", " 1", "1 ", "0x1", "1.5", "4294967296", "1-4294967296"]
NUMBERS = ["0", "3", "3-3", "0-63", "9-10", "4294967295", "0-4294967295"]
# What is said first of words that ask for nothing, and of a script with a fault.
BAD_WORDS = "pc-sim: bad command line\n"
ENDS_THERE = "pc-sim: a line of the script is no command, and the picture ends there\n"
# What the legend says, from top to bottom, and what the titles of such marks say.
LEGEND = list(tomllib.loads((ROOT / "tests/legend.toml").read_text()).items())
LAST_WORDS = "Where the pointer rests on a mark, its lines are told."
REPORT_WORDS = "What each agent counted; all bars have one scale. Where the pointer rests on a bar, its count is told."
COUNTS = {
    "taken": "items consumed", "commits": "threads committed", "steals": "threads taken over", "stale": "picks and steals refused as stale",
    "pending": "steals refused as messages were pending", "other": "picks and steals refused otherwise",
}


def shown_as(picture: Picture, part: str, lines: list[str]) -> list[str]:
    """What a picture has in place of these lines of a part of a case.

    The `title`; of `words` those that stand anywhere in it, or its width; the numbers of `ticks` on its axis; `texts`
    and titles `told` of a pattern; `bars`, from where to where, and `marks`, where, each of the titles of a pattern. So a part of `words`, `bars` or `marks` without a line
    holds of every picture.
    """
    kind, _, pattern = part.partition(" ")
    if kind in ("bars", "marks"):
        places = picture.edges if kind == "bars" else picture.places
        patterns = [re.match(r"\d+ \d+ (.*)" if kind == "bars" else r"(?:\d+ )+(.*)", line)[1] for line in lines]
        return [" ".join([*(f"{at:g}" for at in place), it]) for it in dict.fromkeys(patterns) for place in places(it)]
    return {
        "title": lambda: [picture.title], "words": lambda: [it for it in lines if it in [*picture.texts, f"width {picture.width}"]],
        "texts": lambda: [it for it in picture.texts if re.fullmatch(pattern, it)],
        "ticks": lambda: [" ".join(map(str, timed_drawings.labels(picture)))],
        "told": lambda: lines if picture.told(pattern) == Counter(lines) else sorted(picture.told(pattern).elements()),
    }[kind]()


@rig.each(rig.cases("drawings.txt"))
def test_drawing(script: str, flags: list[str], wanted: dict[str, list[str]]) -> None:
    picture = draw(script, int("fault" in "".join(wanted.get("title", []))), tuple(flags))
    same({part: shown_as(picture, part, lines) for part, lines in wanted.items()}, wanted)
    if flags == ["--time"] and "fault" not in picture.title:
        timed_drawings.axis_is_told_by_ticks(picture, timed_drawings.Axis(list(ticks_of(script).values()), 2))


def test_bytes_of_a_script_cannot_become_markup() -> None:
    for line in ("wake t0\x1b", "\x7f"):
        same(draw(f"{ENCLAVE}wake t0\n{line}\n", 1).title, "commands 2, refused 1, fault line 3")


def test_a_policy_cannot_become_markup() -> None:
    policy = "rank if (cpu < 4) and (level >= 2) then ran else none exact"
    picture = draw(f"version 3\n{ENCLAVE}policy {policy}\n")
    title = f"commands 2, refused 0, policy {policy}"
    same((picture.title, picture.texts[0]), (title, title.translate(str.maketrans("<>", "\u2039\u203a"))))


def test_a_fault_ends_the_picture() -> None:
    status, picture, errors = outcome(rig.ask("draw", given=ENCLAVE + "tick 0\ntick\ntick 0\n"))
    same((status, errors), (1, ENDS_THERE + "pc-sim: line 3 of the standard input is no command\n"))
    same(Picture(picture).title, "commands 2, refused 0, fault line 3")


def test_each_example_is_drawn_as_it_is_answered() -> None:
    for file in SCRIPTS:
        with rig.about(file.name):
            story, picture = story_of(file.read_text()), draw(file.read_text())
            same(picture.title, story.heading)
            if story.commands <= MOST_SINGLE:
                same(picture.told(r"t\d+ on CPU \d+, (?:lines \d+ to \d+|line \d+)"), story.runs)
                same(len(picture.told(r"crash\b.*, line \d+.*")), story.done["crash"])


def shown_bars(script: str, part: Part = WHOLE) -> Counter[str]:
    """Holds the bars of a part of a script's picture against what the rows show by the model. Counts the bars of each row."""
    cpus, every = steps_of(script)
    steps = [step for step in every if part.has_line(step[0])]
    drawn = bars_in(Picture(rig.ask("draw", *part.flags(), given=script).stdout), len(steps))
    are_one(drawn, Counter({bar: times for bar, times in bars_of(steps, cpus).items() if part.has_cpu(bar.cpu)}))
    return Counter(bar.row for bar in drawn.elements())


@rig.each({"whole": (2, False), "parts": (10, True)})
def test_bars_show_what_the_questions_of_drawn_scripts_answer(rare: int, parts: bool) -> None:
    shown_often(shown_bars, drawn_script, DRAWN, DRAWN // rare, ROWS, parts)


def test_bars_show_what_the_questions_of_each_example_answer() -> None:
    for file in SCRIPTS:
        with rig.about(file.name):
            assert shown_bars(front_of(file.read_text(), MOST_SINGLE)).total() > 0


def test_a_part_has_the_lanes_that_are_asked_for() -> None:
    script = "enclave 4 8 100 16 1000\n" + "".join(f"create {cpu} 15 ready\n" for cpu in range(4))
    for word, lanes in (("0-3", [0, 1, 2, 3]), ("1-2", [1, 2]), ("2", [2]), ("3-9", [3]), ("0-4294967295", [0, 1, 2, 3])):
        picture = draw(script, flags=("--cpus", word))
        same(picture.title, "commands 5, refused 0")
        same([words.text for words in picture.words if words.x == 4], [f"CPU {cpu}" for cpu in lanes])
        queues = [f"1 item in queue {cpu}, " + (f"lines {cpu + 2} to 5" if cpu < 3 else "line 5") for cpu in lanes]
        same(sorted(picture.told(r"\d+ items? in queue .*")), queues)
        same(sorted(picture.told(r"line \d+: create .*")), [f"line {cpu + 2}: create {cpu} 15 ready" for cpu in lanes])


def test_a_part_of_which_nothing_is_there_is_a_bad_command_line() -> None:
    """Whatever a script is, such a part of it is no picture; and each part of which anything is there is one."""
    for script, cpus, lines in ((ENCLAVE + "tick 0\n", 2, 2), (ENCLAVE + "tick 0", 2, 2), ("enclave 1 1 1 1 1\n\r", 1, 2), ("\n", 0, 1), ("", 0, 0)):
        for flag, least, most in (("--cpus", 0, cpus - 1), ("--lines", 1, lines)):
            for first, last in itertools.combinations_with_replacement([*range(4), 4294967295], 2):
                with rig.about(script, flag, first, last):
                    status, picture, errors = outcome(rig.ask("draw", flag, f"{first}-{last}", given=script))
                    is_there = max(first, least) <= min(last, most)
                    same((status, bool(picture)), (0, True) if is_there else (2, False))
                    same(errors.startswith(BAD_WORDS + f"pc-sim: {flag} {first}"), not is_there)


def test_what_leads_to_another_lane_ends_at_the_edge_of_a_part() -> None:
    script = "enclave 3 8 100 16 1000\ncreate 0 7 ready\n" + "publish 0\nconsume 0\ndeliver 2 0\nsteal 2\ncrash 0\n"
    stolen, taken_in = "t0 stolen from queue 0 to queue 2, line 6: steal 2", "line 5: deliver 2 0"

    def line_of(*flags: str) -> Element:
        return next(it for _, it in draw(script, flags=flags).found(taken_in) if it.tag == SVG + "line")

    for word, thefts, marks, crashes in (("0", 1, 1, 1), ("1", 0, 0, 0), ("2", 1, 2, 0), ("0-2", 1, 2, 1)):
        titles = Counter(draw(script, flags=("--cpus", word)).titles)
        same((titles[stolen], titles[taken_in], titles["crash 0, line 7"]), (thefts, marks, crashes), word)
    same((int(line_of("--cpus", "0").get("y2")), int(line_of("--cpus", "2").get("y1"))), (144, 80))
    same(edges_of(line_of("--lines", "5-6")), (LEFT, LEFT + 12))


def test_a_part_tells_what_it_is_of() -> None:
    script = "enclave 2 8 100 64 1000\n" + "tick 0\n" * 30 + "walk\n"
    for flags, said in {
        "--cpus 1": "CPU 1", "--cpus 0-1": "CPUs 0 to 1", "--lines 3": "line 3", "--lines 3-22": "lines 3 to 22",
        "--cpus 1-1 --lines 4-99": "CPU 1, lines 4 to 99", "--lines 20-40 --cpus 0-7": "CPUs 0 to 7, lines 20 to 40",
    }.items():
        picture = draw(script, 1, tuple(flags.split()))
        title = "commands 31, refused 0, fault line 32"
        same((picture.title, picture.texts[:3]), (title, [title, SINGLE_WORDS, f"Only a part of it: {said}."]))
        first, last = re.fullmatch(r"(?:CPU.*?(?:, |$))?(?:lines? (\d+)(?: to (\d+))?)?", said).groups()
        lines = range(int(first or 1), min(31, int(last or first or 31)) + 1)
        axis_is_told([words for words in picture.words if words.y == 72 and words.text.isdigit()], list(lines), width_of(len(lines)))
        ends = [text for text in picture.texts[1:] if text.startswith("fault")]
        same(ends, ["fault line 32"] if not first or int(last or first) >= 32 else [])


def test_a_part_that_is_all_shows_all() -> None:
    for file in SCRIPTS:
        with rig.about(file.name):
            whole, part = (draw(file.read_text(), flags=flags) for flags in ((), ("--cpus", "0-63", "--lines", "1-4294967295")))
            same(part.titles, whole.titles)
            same(part.texts.pop(2), "Only a part of it: CPUs 0 to 63, lines 1 to 4294967295.")
            same(part.texts, whole.texts)


def test_words_that_spell_no_numbers_are_a_bad_command_line() -> None:
    both = ("--cpus", "--lines")
    for words in [["--cpus"], ["--lines"], ["--cpus", "-3"], ["--cpus", "1", "--cpus", "1"], *([f"{flag}={it}"] for flag in both for it in NO_NUMBERS)]:
        refused_words("draw", *words)
    refused_words("replay", "--cpus", "1")
    refused_words("run", "--lines", "1")
    for flag in both:
        for word in NUMBERS:
            told = rig.ask("draw", flag, word, given=ENCLAVE)
            assert told.returncode == 0 or told.stderr.startswith(f"{BAD_WORDS}pc-sim: {flag} "), (flag, word, told)
        same(rig.ask("draw", f"{flag}=1", given=ENCLAVE).stdout, rig.ask("draw", flag, "1-1", given=ENCLAVE).stdout)


def legend_in(picture: Picture) -> list[list[Element]]:
    """Holds the legend's words against those that it has to have. The marks in front of each of its lines."""
    begin, meanings = picture.texts.index(LEGEND[0][0]), [meaning for meaning, _ in LEGEND]
    same(picture.texts[begin:], [*meanings, LAST_WORDS])
    heights = [words.y for words in picture.words[begin:]]
    same(heights, sorted(set(heights)))
    marks, front = list[list[Element]](), list[Element]()
    for element in picture.elements:
        if element.tag == SVG + "text" and element.text in meanings:
            marks.append(front)
        front = [*front, element] if element.tag in SHAPES and not element[0].text else []
    return marks


def words_are_told(script: str) -> Counter[str]:
    """Holds every visible word of a script's picture against what replay answers. Counts the looks that were held against the legend."""
    output = rig.replay(script)
    commands, fault = list(answered(script, output)), re.search(r"^fault line (\d+)$", output, re.MULTILINE)
    picture = draw(script, int(bool(fault)))
    cpus = next((int(words[1]) for _, words, answer in commands if words[0] == "enclave" and answer == "ok"), 0)
    same(picture.texts[:2], [story_of(script).heading + (f", {fault[0]}" if fault else ""), SINGLE_WORDS])
    lanes, rows = ([words for words in picture.words if words.x == x] for x in (4, LEFT - 6))
    same([words.text for words in lanes], [f"CPU {cpu}" for cpu in range(cpus)])
    same([words.text for words in rows], ["ready", "queue", "posts"] * cpus)
    for lane, three in zip(lanes, zip(rows[::3], rows[1::3], rows[2::3])):
        assert lane.y < three[0].y < three[1].y < three[2].y < lane.y + 64
    at_axis = [words for words in picture.words if words.y == 56]
    axis_is_told([words for words in at_axis if words.text.isdigit()], [number for number, _, _ in commands], width_of(len(commands)))
    same([words.text for words in at_axis if not words.text.isdigit()], [fault[0]] if fault else [])
    names_are_in_bars(picture)
    looks: Counter[str] = Counter()
    for (meaning, patterns), marks in zip(LEGEND, legend_in(picture), strict=True):
        for pattern, mark in zip(patterns, marks):
            looks[meaning] += sum(element.tag == mark.tag and look_of(element) == look_of(mark) for _, element in picture.found(pattern))
    return looks


def axis_is_told(numbers: list[Words], lines: list[int], wide: int) -> None:
    """Each number on the axis is that of the line whose command stands in the column below; the first is there, and they are far enough apart."""
    columns = [(words.x + 3 - LEFT - wide // 2) // wide for words in numbers]
    same([int(words.text) for words in numbers], [lines[column] for column in columns])
    same(columns[:1], [0] if lines else [])
    assert all(other.x - one.x >= 50 for one, other in zip(numbers, numbers[1:])), numbers


def names_are_in_bars(picture: Picture) -> None:
    """A thread's name stands in a bar of that thread."""
    bars = [(found[1], bar) for found, bar in picture.found(r"(t\d+) on CPU.*") if bar.tag == SVG + "rect"]
    for words in (words for words in picture.words if re.fullmatch(r"t\d+", words.text)):
        inside = [name for name, bar in bars if edges_of(bar)[0] <= words.x <= edges_of(bar)[1]
                  and 0 <= words.y - float(bar.get("y")) <= float(bar.get("height"))]
        same(inside, [words.text])


def test_the_words_of_a_picture_are_those_that_replay_answers() -> None:
    looks: Counter[str] = Counter()
    scripts = {str(place): drawn_script(place) for place in range(DRAWN)}
    for name, script in (scripts | {file.name: front_of(file.read_text(), MOST_SINGLE) for file in SCRIPTS}).items():
        with rig.about(name):
            looks += words_are_told(script)
    for meaning, patterns in LEGEND:
        assert looks[meaning] > 10 or not patterns, f"no mark looks as the legend's: {meaning}"


def totals_of(file: object) -> str:
    """What a run comes to, as the heading of its picture."""
    totals = rig.ask("run", file).stdout.split()
    return ", ".join(f"{name} {number}" for name, number in zip(totals[::2], totals[1::2]))


def test_the_words_of_a_report_are_its_counts() -> None:
    for file in SETTINGS:
        with rig.about(file.name):
            picture = Picture(rig.ask("run", "--draw", file).stdout)
            same(picture.texts[:2], [totals_of(file), REPORT_WORDS])
            counts = [found.groups() for found, _ in picture.found(r"CPU (\d+): (\d+) (.*)")]
            wanted: list[str] = []
            rows = zip(counts, itertools.cycle(COUNTS.items()))
            for place, ((cpu, count, meaning), (name, means)) in enumerate(rows):
                same((int(cpu), meaning), (place // 6, means))
                wanted += [f"CPU {cpu}"] * (place % 6 == 0) + [name, count]
            same((picture.texts[2:], bool(counts)), (wanted, True))


def test_many_threads_and_cpus_stay_small() -> None:
    script = many(64, 10_000)
    story, drawn = story_of(script), good(rig.ask("draw", given=script))
    assert story.commands > 9_999 and len(drawn) < 8_000_000
    same(Picture(drawn).title, story.heading)


def test_counts_of_many_commands_add_up() -> None:
    script = many(8, 3_000).replace("deliver 0 ", "commit 0 t0 0\ncommit 9 t0 0\nstatus t4095\nsame 0 9\ndeliver 0 ")
    story, picture = story_of(script), draw(script)
    same(picture.sum_of(r"\d+ posts? to queue .*"), story.posted)
    same(picture.sum_of(r"\d+ deltas? taken in by agent .*"), story.done["deliver"])
    of_no_cpu = 3 * script.count("commit 9 t0 0\n")
    told, = [text for text in picture.texts if text.startswith("refused commands that are of no CPU")]
    same(told.rsplit(" ", 1)[1], str(of_no_cpu))
    same(picture.sum_of(r"\d+ commands? refused at CPU .*") + of_no_cpu, story.refused)


def test_moves_of_many_commands_are_drawn_to_the_end() -> None:
    """Of many moves and crashes 500 are drawn over the whole width, all are counted, and no arrow lies on a crash."""
    lines, moves = ["enclave 2 4096 100000 4096 100000", "create 0 3 ready", "publish 0", "consume 0"], 1_800
    for place in range(moves):
        lines += [f"associate t0 {(place + 1) % 2} 1"] + ["crash 1"] * (place % 3 == 0)
    picture = draw("\n".join(lines) + "\n")
    same(picture.title, f"commands {len(lines)}, refused 0")
    patterns = (r"t0 moved from queue . to queue ., line (\d+).*", r"crash 1, line (\d+)")
    arrows, crashes = ([(place, int(found[1])) for place, title in enumerate(picture.titles) if (found := re.fullmatch(it, title))] for it in patterns)
    same((len(arrows), len(crashes)), (500, 500))
    assert arrows[-1][0] < crashes[0][0]
    same(picture.sum_of(r"\d+ moves? of threads to queue .*"), moves)
    for marks in (arrows, crashes):
        numbers = [number for _, number in marks]
        assert max(other - one for one, other in zip([0, *numbers], [*numbers, len(lines)])) < 20
    assert f"600 crashes and {moves} moves of threads: of more than 500 so many are drawn, evenly" in [*picture.titles, *picture.texts]


def test_a_file_and_a_dash() -> None:
    with rig.file(ENCLAVE) as file:
        by_name = rig.ask("draw", file).stdout
    same(rig.ask("draw", "-", given=ENCLAVE).stdout, by_name)
    same(Picture(by_name).title, "commands 1, refused 0")
    told = 'pc-sim: cannot read\npc-sim: "no-such-file": No such file or directory (os error 2)\n'
    same(outcome(rig.ask("draw", "no-such-file")), (1, "", told))


def test_a_report_is_drawn() -> None:
    for file in SETTINGS:
        for flags in (["--draw"], ["--draw", "--per-cpu"]):
            same(Picture(rig.ask("run", *flags, file).stdout).title, totals_of(file), file.name)


def test_settings_with_a_fault_are_not_drawn() -> None:
    told = "pc-sim: settings BadCpus\npc-sim: cpus 0: 1 to 64 are wanted\n"
    same(outcome(rig.ask("run", "--draw", given="cpus = 0\n")), (1, "", told))


if __name__ == "__main__":
    rig.main(__doc__, rig.tests_in(globals(), timed_drawings), at_once=2)

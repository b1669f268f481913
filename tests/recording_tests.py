#!/usr/bin/env python3
"""Tests tools/from-perf-sched: on the short texts of tests/recordings.txt, most of whose commands were worked out by hand, on others
that are written here, and on the recordings of examples/recordings. It also tests what of tools/record-loads needs no perf.

Every script that is made is also replayed, and every settings text is run: no line may be a fault, and the refusals have to be those that the
tool told.
"""
import functools
import importlib.machinery
import pathlib
import re
import shutil
import subprocess
import sys
import time
import tomllib
import types
from collections import Counter
from typing import Any, NamedTuple

import rig
from kernel import answered
from reference.lab import FEW, runs_of, rows_of, variants_of
from rig import ROOT, good, near, outcome, run, same
from tables import table, variant

TOOL = ROOT / "tools/from-perf-sched"
RECORD = ROOT / "tools/record-loads"
KEPT = ROOT / "examples/recordings"


def head(us: int, cpu: int, pid: int, event: str) -> str:
    """A line of perf: the thread that is on the CPU, the CPU, the time, and the event."""
    return f"{name(pid):>16} {pid:5d} [{cpu:03d}]  {us // 1_000_000:4d}.{us % 1_000_000:06d}: {event}\n"


def name(pid: int) -> str:
    return f"swapper/{pid}" if pid == 0 else {-1: ":-1", 2: "kthreadd"}.get(pid, f"p{pid}")


# By the name of an event: what is told of it, and how perf writes that.
EVENTS = tomllib.loads((ROOT / "tests/perf_events.toml").read_text())


def event(kind: str, *cells: Any) -> str:
    keys, form = EVENTS[kind]
    told: dict[str, Any] = {"event": "sched_waking"} | dict(zip(keys.split(), cells))
    names = {f"{key}_name": name(told[key]) for key in ("pid", "other") if key in told}
    return head(told["us"], told["cpu"], told.get("by", told["pid"]), "sched:" + form.format(**told, **names))


switch, wake, fork = (functools.partial(event, kind) for kind in ("switch", "wake", "fork"))


def text_of(lines: list[str]) -> str:
    return "".join(line + "\n" for line in lines)


class Made(NamedTuple):
    """What the tool made of a text: the status, and the lines of the script, of what was told, and of the settings."""

    status: int
    script: list[str]
    told: list[str]
    settings: list[str]

    @property
    def commands(self) -> list[str]:
        """Those of the script, without comments."""
        return [line for line in self.script if not line.startswith("#")]

    @property
    def refused(self) -> Counter[str]:
        """How often each refusal is to be answered, as the tool told."""
        found = re.findall(r"^to be refused: (\d+) (\w+ \w+)$", "\n".join(self.told), re.M)
        return Counter({what: int(count) for count, what in found})


def refusals(script: str, replies: str) -> Counter[str]:
    """How often each command was answered by each refusal."""
    asked = answered(script, replies)
    return Counter(f"{words[0]} {answer.split()[1]}" for _, words, answer in asked if answer.startswith("refused "))


def make(text: str | bytes, *words: str, status: int = 0) -> Made:
    """Gives the text to the tool, and what that makes of it to the program."""
    with rig.file("", "settings.toml") as settings:
        data = text if isinstance(text, bytes) else text.encode()
        ended = run(TOOL, "-", "--settings", settings, *words, given=data, text=False)
        told = [it.removeprefix("from-perf-sched: ") for it in ended.stderr.decode().splitlines()]
        script, made_settings = ended.stdout.decode("ascii").splitlines(), settings.read_text().splitlines()
        made = Made(ended.returncode, script, told, made_settings)
    same(ended.returncode, status, told)
    if status == 0:
        replay(made)
        run_settings(made)
    return made


def replay(made: Made) -> str:
    """No line is a fault, and what the model refuses is what the tool told."""
    script = text_of(made.script)
    replies: str = good(rig.ask("replay", given=script))
    assert "fault line" not in replies
    same(refusals(script, replies), made.refused)
    return replies


def run_settings(made: Made) -> None:
    """The run's totals are those that the steps of the settings add up to."""
    settings = text_of(made.settings)
    steps, threads = re.findall(r'"(\w+) (\d+)"', settings), settings.count("[[thread]]")
    messages = threads + len(steps) + sum(word == "block" for word, _ in steps)
    ran = sum(int(ticks) for _, ticks in steps)
    told = f"threads {threads}\nmessages {messages}\ncommits {len(steps)}\nran {ran}\n"
    same(good(rig.ask("run", given=settings)), told)


def line_of(line: str) -> str:
    """A line as perf writes it: what begins with the name of a function above is what that makes of the words behind it."""
    word, *words = line.split() or [""]
    if word == "head":
        us, cpu, pid, told = line.split(" ", 4)[1:]
        return head(int(us), int(cpu), int(pid), told)
    cells = (int(it) if it.lstrip("-").isdigit() else it for it in words)
    return event(word, *cells) if word in EVENTS else line + "\n"


@rig.each(rig.cases("recordings.txt"))
def test_made(given: str, words: list[str], wanted: dict[str, list[str]]) -> None:
    made = make("".join(map(line_of, given.splitlines())), *words, status=int(not wanted["script"]))
    same({name: getattr(made, name) for name in wanted}, wanted)


def test_a_full_queue_is_looked_at_first() -> None:
    made = make("".join(wake(10, 0, 7, pid, 1) for pid in range(100, 100 + 32_769)))
    same(made.commands[-4:], ["publish 1", "consume 1", "create 1 3 blocked", "wake t32769"])


def test_more_threads_than_a_script_has() -> None:
    made = make("".join(fork(10, 0, 7, child) for child in range(100, 100 + 65_536)))
    same(made.commands[:2], ["version 2", "enclave 1 65535 16000000 65536 4294967295"])
    assert "left out: 2 events of threads past 65,535" in made.told


def test_more_threads_than_a_first_version_has() -> None:
    text = "".join(fork(10, 0, 7, child) for child in range(100, 100 + 4_095))
    same(make(text).commands[0], "enclave 1 4096 1000000 65536 4294967295")
    same(make(text + fork(20, 0, 7, 9)).commands[:2], ["version 2", "enclave 1 4097 16000000 65536 4294967295"])


def test_a_script_of_the_greatest_length() -> None:
    tool = load_tool()
    tool.LONGEST_SCRIPT = tool.LONGEST_EVENT + 120
    recording = tool.read_recording(iter([wake(10, 0, 7, pid, 0) for pid in range(100, 110)]), None)
    translator = tool.Translator(recording, tool.facts_of(recording.events), 1, False)
    translator.translate()
    same(translator.left_out, Counter({"events past the greatest length of a script": 8}))
    same(translator.model.lines[-1], "wake t2")


def test_carriage_returns() -> None:
    text = switch(10, 0, 7, "S", 8) + "\n" + wake(15, 0, 8, 7, 0) + switch(20, 0, 8, "R", 7)
    same(make(text.replace("\n", "\r\n")).script, make(text).script)


def test_names_in_bytes_that_are_no_text() -> None:
    assert "# t1 is Web C?ntent, 8" in make(switch(10, 0, 7, "S", 8).replace("p8", "Web Cöntent").encode("latin-1")).script


# Bad input

def test_a_text_that_is_no_recording_and_has_no_end() -> None:
    same(make("hello", status=1).told, ["this is no recording: no line of it is an event of perf script"])


def test_a_long_line_takes_no_long_time() -> None:
    """Each of these took a time that grew with the square of its length, or would if read from each place anew."""
    blanks, stamps, calls = "x" + " " * 200_000, "[1] 1.000000: " * 2_000, " ffff8 f" + "(" * 200_000
    began = time.monotonic()
    for line in (blanks, stamps, calls, blanks + stamps):
        make(line + "\n" + switch(10, 0, 7, "S", 8), status=1)
    assert time.monotonic() - began < 20


def test_a_bad_line_leaves_the_files_as_they_are() -> None:
    with rig.file("mine\n") as script:
        make("hello\nhello\n", "-o", str(script), status=1)
        same(script.read_text(), "mine\n")


def test_a_last_line_that_was_cut_short() -> None:
    good = switch(10, 0, 7, "S", 8)
    for end in (good[:60], good[:60] + "\n", good[:60] + "\n\n", good[:-1], "x"):
        made = make(good + end)
        same((made.script, made.told[-1]), (make(good).script, "left out: 1 a last line that was cut short"))


def test_files_that_are_not_there() -> None:
    fault = "/no/such/file: No such file or directory"
    same(outcome(run(TOOL, "/no/such/file")), (1, "", f"from-perf-sched: {fault}\n"))
    same(make("", "-o", "/no/such/file", status=1).told, [fault])


def test_files_that_cannot_be_read_or_written() -> None:
    text = switch(10, 0, 7, "S", 0)
    same(make(text, "-o", "/dev/full", status=1).told, ["/dev/full: No space left on device"])
    with open("/dev/full", "w") as full:
        ended = run(TOOL, given=text, stdout=full)
    same((ended.returncode, ended.stderr), (1, "from-perf-sched: standard output: No space left on device\n"))
    same(outcome(run("bash", "-c", '"$0" <&-', TOOL)), (1, "", "from-perf-sched: standard input: Bad file descriptor\n"))
    same(outcome(run(TOOL, "/")), (1, "", "from-perf-sched: /: Is a directory\n"))


def test_a_recording_is_not_written_over() -> None:
    text = switch(10, 0, 7, "S", 0)
    for option in ("-o", "--settings", "--load", "--waits"):
        with rig.file(text) as recording, rig.folder() as other:
            (other / "link").symlink_to(recording)
            ended = run(TOOL, recording, option, other / "link")
            same(outcome(ended), (1, "", f"from-perf-sched: {other}/link: it is what is read, and stays as it is\n"))
            with recording.open() as given:
                same(run(TOOL, option, recording, stdin=given).returncode, 1)
            same(recording.read_text(), text)


def test_a_file_is_put_in_place_when_it_is_whole() -> None:
    text = switch(10, 0, 7, "S", 0)
    with rig.folder() as place:
        (place / "script").write_text("old\n")
        (place / "script").chmod(0o640)
        make(text, "-o", str(place / "script"))
        same([it.name for it in place.iterdir()], ["script"])
        same(((place / "script").read_text(), (place / "script").stat().st_mode & 0o777), ("\n".join(make(text).script) + "\n", 0o640))


def test_a_bad_command_line() -> None:
    for line in ("--cpus 0", "--cpus 65", "--cpus x", "--limit -1", "a b", "--unknown"):
        same(outcome(run(TOOL, *line.split(), given=""))[:2], (2, ""), line)


def test_a_file_and_help() -> None:
    with rig.file(switch(10, 0, 7, "S", 0)) as text:
        script = text.with_name("script")
        same(outcome(run(TOOL, text, "-o", script))[:2], (0, ""))
        same(script.read_text().splitlines(), make(text.read_text()).script)
    told = good(run(TOOL, "--help"))
    for flag in ("-o SCRIPT", "--settings FILE", "--cpus N", "--limit N", "--kernel-threads"):
        assert flag in told


# Settings

def test_a_life_of_too_many_runs() -> None:
    text = switch(0, 0, 0, "R", 7)
    for us in range(10, 10 + 2 * 1_002, 2):
        text += switch(us, 0, 7, "R", 8) + switch(us + 1, 0, 8, "R", 7)
    made = make(text)
    first = next(line for line in made.settings if line.startswith("steps"))
    same((first.count("yield"), first.endswith('"yield 1", "die 1"]')), (999, True), first[-60:])
    same(made.told[-1], "left out of the settings: 5 runs past 1,000 of a thread")


def test_settings_of_too_many_threads() -> None:
    made = make("".join(switch(10, 0, pid, "X", pid + 1) for pid in range(100, 100 + 4_097)))
    same(made.settings.count("[[thread]]"), 4_096)
    same(made.told[-1], "left out of the settings: 2 threads past the greatest count or length")


# The recordings that are kept, with what the tool and the program make of them.

def test_the_kept_recordings() -> None:
    texts = sorted(KEPT.glob("*.txt"))
    same(len(texts), 2)
    for path in texts:
        assert path.stat().st_size < 200 * 1024
        made = make(path.read_bytes())
        for suffix, text in {
            ".script": text_of(made.script), ".toml": text_of(made.settings), ".output": replay(made),
        }.items():
            same(text, path.with_suffix(suffix).read_text(), path.name)


def test_the_document_tells_what_is_refused() -> None:
    page = (ROOT / "docs/RECORDINGS.md").read_text()
    for path in sorted(KEPT.glob("*.txt")):
        made = make(path.read_bytes())
        row = next(line for line in page.splitlines() if line.startswith(f"| `{path.stem}` |"))
        same([cell.strip() for cell in row.strip("|").split("|")][1:], row_of(made), path.name)
        same(refusals(text_of(made.script), path.with_suffix(".output").read_text()), made.refused, path.name)


@rig.each({"TUTORIAL": ("TUTORIAL", 10), "LAB": ("LAB", 0), "POLICIES": ("POLICIES", 2)})
def test_a_page_prints_what_it_says(page: str, least: int) -> None:
    """Each command behind a dollar sign is typed, in order."""
    steps = re.findall(r"^    \$ (.*)\n((?:    (?!\$ ).*\n)*)", (ROOT / f"docs/{page}.md").read_text(), re.M)
    assert len(steps) > least
    with rig.folder() as folder:
        for name in ("examples", "tools", "docs"):
            (folder / name).symlink_to(ROOT / name)
        (folder / "pc-sim").symlink_to(rig.program)
        for command, wanted in steps:
            line = f'pc-sim() {{ "{rig.program}" "$@"; }}\n{command} 2>&1'
            same(run("bash", "-c", line, cwd=folder).stdout, re.sub(r"(?m)^    ", "", wanted), command)


def row_of(made: Made) -> list[str]:
    """The numbers of a recording, as the document's table has them."""
    told = "\n".join(made.told)
    events, threads = re.search(r"(\d+) events, \d+ CPUs, (\d+) threads", told).groups()
    commits, accepted = re.search(r"(\d+) commits of recorded switches, (\d+) to be accepted", told).groups()
    moves, moved = re.search(r"(\d+) associates, (\d+) to be accepted", told).groups()
    refused = ", ".join(f"{count} {what}" for what, count in sorted(made.refused.items())) or "none"
    return [f"{int(it):,}" for it in (events, threads, commits, accepted, moves, moved)] + [refused]


# What tools/record-loads does without perf.

def record(*words: object, **more: object) -> subprocess.CompletedProcess[str]:
    return run(sys.executable, RECORD, *words, **more)


def test_a_kept_recording_beside_the_lab() -> None:
    """What was recorded is told as the tool has it, and the nearest variant as the lab of the tests has it."""
    with rig.folder() as name:
        folder = name / "pool"
        folder.mkdir(0o755)
        shutil.copy(KEPT / "python-pool.txt", folder / "recording.txt")
        told = good(record("--to", name, "--keep", "--lab", f"{rig.program} lab", "pool"))
        recorded, load = cells_of((folder / "waits").read_text()), (folder / "load.toml").read_text()
    words = re.search(r"Nearest: `([\w-]+)`, quantum ([\d,]+), (not )?urgent, cost (\d+)\.", told)
    order, quantum, is_not, cost = words.groups()
    nearest = variant("nearest", order=order, quantum=int(quantum.replace(",", "")), urgent=not is_not, cost=int(cost))
    lab = rows_of(runs_of(load, nearest)[0], FEW, False)
    rows = [[cell.strip().replace(",", "") for cell in line.strip("|").split("|")]
            for line in told.replace("**pool** ", "").splitlines() if re.match(r"\| (wait|woken|makespan)", line)]
    same(len(rows), 6)
    for title, *cells in rows:
        wanted = [int(table[title.removesuffix(" ms")]) for table in (recorded, lab)]
        same(cells[:2], [str(round(it / 1_000) if "ms" in title else it) for it in wanted], title)


def test_a_load_and_the_waits_that_were_recorded() -> None:
    """By hand. 7 runs for 10, waits for 20 behind R, runs for 5 and sleeps for 15 from 35; 8 is woken at 50 and waits for 10."""
    text = switch(0, 0, 0, "R", 7) + switch(10, 0, 7, "R", 9) + switch(30, 0, 9, "R+", 7) + switch(35, 0, 7, "S", 9)
    text += wake(50, 0, 9, 7, 0) + wake(50, 0, 9, 8, 0) + switch(60, 0, 9, "X", 8) + switch(64, 0, 8, "Z", 7) + switch(70, 0, 7, "S", 0)
    with rig.folder() as folder:
        ended = run(TOOL, "-", "-o", "/dev/null", "--load", folder / "load", "--waits", folder / "waits", given=text)
        same(ended.returncode, 0, ended.stderr)
        load, waits = (folder / "load").read_text(), (folder / "waits").read_text()
    same(load, "cpus = 1\n\n" + "\n".join(f"# {name}\n" + table("thread", queue=0, mask=1, start=start, steps=steps, sleeps=sleeps) for name, start, steps, sleeps in [
        ("t0 is p7", 0, ["preempt 10", "block 5", "die 6"], [15]), ("t1 is p9", 10, ["preempt 20", "die 25"], []), ("t2 is p8", 50, ["die 4"], []),
    ]))
    wanted = {"variant": "recorded", "makespan": 70, "commits": 6, "wait p50": 5, "wait p90": 20, "wait p99": 20, "wait max": 20,
              "wait sum": 49, "woken p50": 0, "woken p90": 14, "woken p99": 14, "woken max": 14, "woken sum": 24, "ticks ran": 70}
    same(cells_of(waits), {name: str(value) for name, value in wanted.items()})


def test_by_how_much_numbers_are_off() -> None:
    """By hand: 1 is added to all, so the first are 2 and 8, 9 and 3, which are off by 4 and 3."""
    off_by = load_tool(RECORD).off_by
    near(off_by([1, 8], [7, 2]), 12 ** 0.5)
    near(off_by([0, 5], [0, 5]), 1)


def test_variants_are_spelled_as_the_lab_reads_them() -> None:
    tool = load_tool(RECORD)
    variants = tool.tried()[:8] + [tool.replace(change(tool.DEFAULT), name=word) for word, change in tool.CHANGES.items()]
    read = variants_of("".join(map(tool.spelled, variants)))
    same([{key: value for key, value in vars(it).items() if key != "keep"} for it in read], list(map(vars, variants)))


def test_what_is_not_there_is_told() -> None:
    wanting = "no perf (Debian's package linux-perf) and no nginx (Debian's package nginx) and no wrk (Debian's package wrk)"
    with rig.folder() as folder:
        told = f"record-loads: web is passed over: there is {wanting}\n"
        same(outcome(record("--to", folder, "web", env={"PATH": ""})), (1, "", told))
        status, out, errors = outcome(record("--to", folder, "--keep", "nice"))
        same((status, out), (1, ""))
        assert "nice is passed over: from-perf-sched: " in errors


def test_a_kind_that_there_is_not() -> None:
    same(record("--to", "/none", "poetry").returncode, 2)
    assert "compiler, web, pool, nice, database" in record("--help").stdout


def cells_of(table: str) -> dict[str, str]:
    """The rows of a table with one variant, by their names."""
    return {line[:26].strip(): line[26:].strip() for line in table.splitlines()}


def load_tool(path: pathlib.Path = TOOL) -> types.ModuleType:
    """The tool as a module. What stands beside it is found there."""
    sys.dont_write_bytecode = True
    sys.path.insert(0, str(path.parent))
    loader = importlib.machinery.SourceFileLoader(path.name.replace("-", "_"), str(path))
    module = sys.modules[loader.name] = types.ModuleType(loader.name)
    module.__file__ = str(path)
    loader.exec_module(module)
    return module


if __name__ == "__main__":
    rig.main(__doc__, rig.tests_in(globals()))

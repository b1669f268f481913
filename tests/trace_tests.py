#!/usr/bin/env python3
"""Tests `tools/to-trace`, and the times that `tools/from-perf-sched` writes for it."""
import json
import re
import tomllib
from collections import Counter
from typing import Any

import rig
from rig import ROOT, good, outcome, same

TO_TRACE = ROOT / "tools/to-trace"
WORKED = tomllib.loads((ROOT / "tests/traces.toml").read_text())
SCRIPT, DIGITS = WORKED["script"], "9" * 5000
Rows = list[dict[str, Any]]


def traced(script: str, *words: object) -> Rows:
    with rig.file(script) as path:
        rows: Rows = json.loads(good(rig.run(TO_TRACE, path, "--program", rig.program, *words)))["traceEvents"]
    return rows


def told(rows: Rows, kind: str, *names: str) -> list[tuple[Any, ...]]:
    """These columns of the rows of this kind."""
    return [tuple(row[name] for name in names) for row in rows if row["ph"] == kind]


def test_what_happened_stands_at_its_time():
    rows = traced(SCRIPT)
    same([*map(list, told(rows, "X", "tid", "name", "ts", "dur"))], WORKED["runs"])
    same([*map(list, told(rows, "i", "tid", "name", "ts"))], WORKED["marks"])
    counts: dict[str, list[list[int]]] = {}
    for name, time, args in told(rows, "C", "name", "ts", "args"):
        counts.setdefault(name, []).append([time, args["value"]])
    same(counts, WORKED["counts"])
    same({cpu: args["name"] for cpu, args in told(rows, "M", "tid", "args")}, {0: "CPU 0", 1: "CPU 1"})


def test_without_times_a_line_is_a_microsecond():
    same(told(traced(SCRIPT.replace("# at", "# when")), "X", "ts", "dur"), [(9, 3)])


def test_a_steal_is_a_mark_and_who_runs_at_the_end_has_a_slice():
    rows = traced("enclave 2 4 9 9 9\ncreate 0 3 ready\npublish 0\nconsume 0\ndeliver 1 0\nsteal 1\npick 1 0\n")
    assert (1, "steal t0", 6) in told(rows, "i", "tid", "name", "ts")
    same(told(rows, "X", "tid", "ts", "dur"), [(1, 7, 1)])


def test_a_mended_cpu_runs_and_queues_are_empty():
    with rig.file("ok\nok\nok t0 n1 q0 a1 wake -\nok t0 c1\nrefused Busy\n") as replies:
        rows = traced("version 3\nenclave 2 4 9 9 9\ncreate 0 3 ready\nmend 1\nmend 1\n", "--replies", replies)
    same(told(rows, "X", "tid", "name", "ts"), [(1, "t0", 4)])
    same([args["value"] for name, args in told(rows, "C", "name", "args") if name == "queue 0"], [0, 1, 0])


def test_slices_of_examples_are_the_commits_that_ended():
    """Each slice is a commit, no two of a CPU overlap, and waiting threads are never less than none."""
    for path in sorted((ROOT / "examples").glob("*.script")):
        rows = traced(path.read_text())
        slices = sorted(told(rows, "X", "tid", "ts", "dur"))
        assert all(args["value"] >= 0 for args, in told(rows, "C", "args")), path.name
        for (cpu, begin, length), (other, later, _) in zip(slices, slices[1:]):
            assert cpu != other or begin + length <= later, path.name
        same(len(slices), len(re.findall(r"(?m)^ok t\d+ c\d+$", path.with_suffix(".output").read_text())), path.name)


def test_a_blocked_thread_does_not_wait_whatever_is_told_of_it():
    rows = traced("enclave 1 4 9 9 9\ncreate 0 1 blocked\npriority t0 3\naffinity t0 1\nwake t0\n")
    same([(time, args["value"]) for name, time, args in told(rows, "C", "name", "ts", "args") if name == "threads that wait"], [(5, 1)])


def unfit(script: str, answers: str, fault: str) -> None:
    """One line tells the fault, and no trace is made."""
    with rig.file(answers, "replies") as replies, rig.file(script) as path:
        status, out, errors = outcome(rig.run(TO_TRACE, path, "--replies", replies))
    same((status, out, len(errors.splitlines())), (1, "", 1), errors)
    assert errors.startswith("to-trace: ") and fault in errors and len(errors) < 300, errors


def test_answers_of_another_script_are_refused():
    for answers, fault in (("ok\n", "has no answer"), ("ok\n" * 40, "more answers"), ("ok\nrefused BadCpu\n", "no answer of a kernel")):
        unfit("enclave 1 1 1 1 1\nrouse 0\n", answers, fault)


@rig.each({name: (row,) for name, row in WORKED["unfit"].items()})
def test_answers_that_no_kernel_gives(row: dict[str, Any]) -> None:
    line, answer = (row[name].replace("DIGITS", DIGITS) for name in ("line", "answer"))
    runs = row.get("runs", False)
    script = ["version 3", "enclave 2 4 9 9 9", "create 0 3 ready", "create 0 3 ready", "consume 0", *["commit 0 t0 2"] * runs]
    answers = ["ok", "ok", "ok t0 n1 q0 a1 wake -", "ok t1 n1 q0 a2 wake -", "ok 0", *["ok t0 c0"] * runs]
    unfit("\n".join([*script, line, ""]), "\n".join([*answers, answer, ""]), "is no answer of a kernel")


def test_an_enclave_that_no_kernel_has():
    for line in ("crash 0", "enclave 2", "enclave x 1 1 1 1", "enclave 65 1 1 1 1", "enclave 1 1 1 1 1 1"):
        unfit(line + "\n", "ok\n", "is no answer of a kernel")


def test_comments_that_tell_no_tick():
    """A tick that goes back, and a number past the greatest, are none, as docs/FORMATS.md has it."""
    same(traced(SCRIPT.replace("# at 7\n", f"# at 7\n# at 3\n# at {2 ** 64}\n# at {DIGITS}\n")), traced(SCRIPT))


def test_a_file_that_is_not_there():
    status, out, errors = outcome(rig.run(TO_TRACE, "/nowhere/x.script", "--program", rig.program))
    same((status, out, len(errors.splitlines())), (1, "", 1))


def test_what_is_read_is_not_written_over():
    with rig.file(SCRIPT) as path:
        ended = rig.run(TO_TRACE, path, "-o", path, "--program", rig.program)
        same((ended.returncode, ended.stdout, path.read_text()), (1, "", SCRIPT))
        assert "it is what is read" in ended.stderr


def test_times_of_recordings():
    """They ascend, and are all that --times adds."""
    for path in sorted((ROOT / "examples/recordings").glob("*.txt")):
        plain, timed = (rig.run(ROOT / "tools/from-perf-sched", path, *words, check=True).stdout.splitlines() for words in ([], ["--times"]))
        times = [int(line.split()[2]) for line in timed if line.startswith("# at ")]
        same([line for line in timed if not line.startswith("# at ")], plain)
        same((times, times[0]), (sorted(set(times)), 0))
        rows = traced("\n".join(timed) + "\n")
        assert len(times) > 50 and Counter(row["ph"] for row in rows)["X"] > 50, path.name
        assert max(row["ts"] for row in rows if "ts" in row) <= times[-1] + 1


if __name__ == "__main__":
    rig.main(__doc__, rig.tests_in(globals()))

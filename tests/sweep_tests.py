#!/usr/bin/env python3
"""Tests tools/sweep over the worked loads of the lab: what is gathered, and what an interrupted sweep goes on with.

Without GNU parallel all but one are skipped.
"""
import csv
import os
import pathlib
import shutil
import signal
import subprocess
import sys
import time
import tomllib

import rig
from rig import ROOT, outcome, run, same

SWEEP = ROOT / "tools/sweep"
LOADS = [str(ROOT / f"examples/lab/worked/{name}.toml") for name in ("1-convoy", "2-steals", "3-levels", "4-delay")]
VARIANTS = str(ROOT / "examples/lab/variants.toml")
# Labs that stand for the program's.
LABS = tomllib.loads((ROOT / "tests/sweep_labs.toml").read_text())
# Words of `parallel`, and what a shell would run or take apart.
NAMES = ["x\t;touch PWNED;#.toml", "y\nz\tq\t;touch P2;#.toml", "{1}", "{2}", "{#}", "{}", "{= $_=1 =}.toml", "a -- b", "$(touch P3)`touch P4`",
         "'\"\\", " \r", "\n", *map(os.fsdecode, (b"\xff", b"\xaf<1\xaf>", bytes(byte for byte in range(1, 256) if byte != ord("/"))))]


class Sweep:
    def __init__(self, top: pathlib.Path) -> None:
        self.top, self.to = top, top / "a sweep"

    def sweep(self, *words: str, **more: object) -> subprocess.CompletedProcess[str]:
        lab = [] if "--lab" in words else ["--lab", f"'{rig.program}' lab"]
        return run(SWEEP, "--to", self.to, *lab, *words, **more)

    def done(self, *words: str, **more: object) -> None:
        """Sweeps to a good end, where there is what runs the jobs."""
        rig.needs(shutil.which("parallel"), "no GNU parallel")
        ended = self.sweep(*words, **more)
        same(ended.returncode, 0, ended.stderr)

    def rows(self) -> list[dict[str, str]]:
        with (self.to / "sweep.csv").open(newline="", errors="surrogateescape") as text:
            return list(csv.DictReader(text))

    def jobs(self) -> int:
        return len((self.to / "jobs.log").read_text().splitlines())

    def lab(self, text: str, path: pathlib.Path | None = None) -> str:
        """A command of such lines."""
        path = path or self.top / "a lab"
        rig.put_command(path, "#!/bin/sh\n" + text.format(lab=f"'{rig.program}' lab", top=self.top, program=path))
        return f"'{path}'"


FIXTURE = Sweep


def test_each_row_is_that_of_the_lab(sweep: Sweep) -> None:
    sweep.done(*LOADS, "--", "-j", "4")
    rows = sweep.rows()
    for load in LOADS:
        wanted = list(csv.DictReader(pathlib.Path(load).with_suffix(".csv").read_text().splitlines()))
        for row, want in zip((row for row in rows if row["load"] == load), wanted, strict=True):
            same(row, dict.fromkeys(row, "") | want | {"load": load})


def test_the_usual_lab_is_the_program(sweep: Sweep) -> None:
    """That of the tree in which the tool stands, or else the one on the path."""
    rig.needs(shutil.which("parallel"), "no GNU parallel")
    for folder in ("a tree", "bin"):
        tools = sweep.top / folder / "tools"
        tools.mkdir(parents=True)
        tool = shutil.copy(SWEEP, tools / "sweep")
        program = (tools if folder == "bin" else tools.parent) / "pc-sim"
        sweep.lab(LABS["AS_PROGRAM"], program)
        path = {"PATH": f"{tools}:{os.environ['PATH']}"}
        same(run(tool, "--to", sweep.top / f"to {folder}", LOADS[0], env=os.environ | path).returncode, 0)
        same((sweep.top / "ran").read_text().splitlines()[-1], str(program))


def test_no_word_is_given_twice(sweep: Sweep) -> None:
    sweep.done("--lab", sweep.lab(LABS["STRICT"]), *LOADS[:2])
    sweep.done("--lab", sweep.lab(LABS["STRICT"]), *LOADS[:2], "--variants", VARIANTS)


def test_files_of_variants_are_combined_with_loads(sweep: Sweep) -> None:
    other = sweep.top / "two + 'three'.toml"
    other.write_text('[[variant]]\nname = "a"\n[[variant]]\nname = "b"\norder = "fifo"\n')
    sweep.done(*LOADS[:2], "--variants", VARIANTS, "--variants", str(other))
    same([(row["load"], row["variant"]) for row in sweep.rows() if row["variants"] == str(other)],
         [(load, name) for load in LOADS[:2] for name in "ab"])
    same(sweep.jobs(), 4)


def test_names_are_plain_text(sweep: Sweep) -> None:
    loads, files = NAMES[:-1], NAMES[-2:]
    for name in NAMES:
        (sweep.top / name).touch()
    sweep.to = sweep.top / f"to {''.join(NAMES[:8])}"
    lab = sweep.lab(LABS["NOTES"])
    sweep.done("--lab", lab, *loads, *(f"--variants={it}" for it in files), cwd=sweep.top)
    seen = os.fsdecode((sweep.top / "seen").read_bytes()).split("\0")[:-1]
    wanted = [(load, file) for load in loads for file in files]
    same(sorted(zip(seen[::2], seen[1::2])), sorted((load, f"--variants={file}") for load, file in wanted))
    same([(row["load"], row["variants"]) for row in sweep.rows()], wanted)
    same({it.name for it in sweep.top.iterdir()}, {*NAMES, "a lab", "seen", sweep.to.name})


def begun(sweep: Sweep, lab: str, rows: str, count: int) -> subprocess.Popen[bytes]:
    """A sweep of all loads, one by one, that has left so many files of rows."""
    rig.needs(shutil.which("parallel"), "no GNU parallel")
    words = [str(SWEEP), "--to", str(sweep.to), "--lab", lab, *LOADS, "--", "-j", "1"]
    it = subprocess.Popen(words, start_new_session=True, stderr=subprocess.DEVNULL)
    until = time.monotonic() + 60
    while len(list((sweep.to / "rows").glob(rows))) < count and time.monotonic() < until:
        time.sleep(0.02)
    return it


def goes_on(sweep: Sweep, *words: str) -> None:
    """Sweeps to a good end, once no job is left of what was interrupted."""
    until = time.monotonic() + 60
    while "another sweep" in (ended := sweep.sweep(*words)).stderr and time.monotonic() < until:
        time.sleep(0.05)
    same(ended.returncode, 0, ended.stderr)


def test_what_was_interrupted_goes_on_with_what_is_left(sweep: Sweep) -> None:
    with begun(sweep, sweep.lab(LABS["SLOW"]), "*.csv", 2) as first:
        os.killpg(first.pid, signal.SIGKILL)
    done = (sweep.top / "ended").read_text().splitlines()
    assert len(done) in (2, 3)
    goes_on(sweep, "--lab", sweep.lab(LABS["SLOW"]), *LOADS, "--", "-j", "4")
    ended = (sweep.top / "ended").read_text().splitlines()
    # One that ended as it was interrupted may not have left its rows: it is run again, and no other.
    same(sorted(set(ended)), LOADS)
    assert len(ended) <= len(LOADS) + 1
    same({row["load"] for row in sweep.rows()}, set(LOADS))
    variants = [(row["load"], row["variant"]) for row in sweep.rows()]
    same(len(variants), len(set(variants)))


def test_one_sweep_at_a_time_is_at_work_in_a_folder(sweep: Sweep) -> None:
    """What a sweep that was killed left running is at work there, too."""
    held, lab = sweep.top / "held", sweep.lab(LABS["HELD"])
    held.touch()
    refused = (1, "", f"sweep: another sweep is at work in {sweep.to}\n")
    with begun(sweep, lab, "*.part", 1) as first:
        same(outcome(sweep.sweep("--lab", lab, *LOADS)), refused)
        first.kill()
    same(outcome(sweep.sweep("--lab", lab, *LOADS)), refused)
    held.unlink()
    goes_on(sweep, "--lab", lab, *LOADS)
    same(sorted((sweep.top / "ended").read_text().splitlines()), LOADS)


def test_a_changed_load_is_another_job(sweep: Sweep) -> None:
    load = sweep.top / "load.toml"
    load.write_text(pathlib.Path(LOADS[0]).read_text())
    sweep.done(str(load))
    sweep.done(str(load))
    same(sweep.jobs(), 1)
    load.write_text(load.read_text() + "\n")
    sweep.done(str(load))
    same(sweep.jobs(), 2)


def test_a_job_that_fails_is_told_and_the_others_gathered(sweep: Sweep) -> None:
    rig.needs(shutil.which("parallel"), "no GNU parallel")
    bad = sweep.top / "bad.toml"
    bad.write_text("cpus = 0\n")
    ran = sweep.sweep(LOADS[0], str(bad))
    same(ran.returncode, 1)
    assert f"{bad} is not done" in ran.stderr
    same({row["load"] for row in sweep.rows()}, {LOADS[0]})
    same(next((sweep.to / "rows").glob("bad*.err")).read_text(), "pc-sim: lab BadCpus\n")


def test_faults_are_told(sweep: Sweep) -> None:
    same(sweep.sweep().returncode, 2)
    if shutil.which("parallel"):
        same(sweep.sweep(str(sweep.top / "none.toml")).returncode, 1)
    empty = sweep.top / "bin"
    empty.mkdir()
    (empty / "python3").symlink_to(sys.executable)
    told = "sweep: there is no `parallel`: Debian has it as a package\n"
    same(outcome(sweep.sweep(LOADS[0], env={"PATH": str(empty)})), (3, "", told))


if __name__ == "__main__":
    rig.main(__doc__, rig.tests_in(globals()))

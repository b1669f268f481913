#!/usr/bin/env python3
"""Tests the launcher `pc-sim`, and the lock that `test` shares with it, in a scratch tree of four made-up crates.

tests/launcher/rt stands in for the kit's command: it records when it begins and ends, and leaves tests/launcher/program,
which prints what it is given. Nothing is proved here, and the real rt is not on the path.
"""
import contextlib
import fcntl
import functools
import os
import pathlib
import re
import shutil
import signal
import subprocess
import time
from collections.abc import Iterable
from typing import Any, TextIO

import rig
from rig import ROOT, matches, needs, same

# Which stands on which: a diamond. The kit's libraries have no line.
CRATES = """\
# Each crate and what it stands on.
low: thiserror
left: low thiserror
right: low   # beside left
pc_sim: left right clap
"""
TOOLS = "awk bash cat chmod cmp cp date dirname env find flock head mkdir mktemp mv python3 readlink rm seq sha256sum sleep sort tail tee touch uname xargs xz".split()
SECONDS = 60
STAND_IN, PROGRAM = ((ROOT / "tests/launcher" / name).read_text() for name in ("rt", "program"))
IS_RELEASED = "pc-sim: this is the program of release/, whose sources these are; ./test builds it anew and compares\n"
Ended = tuple[int, str, str]


def told(*args: str) -> str:
    """What the stand-in for the program prints."""
    return f"arguments {len(args)}:\n" + "".join(f"<{it}>\n" for it in args or [""])


def wait_until(holds: Any, seconds: float = SECONDS) -> None:
    ends = time.monotonic() + seconds
    while not holds():
        assert time.monotonic() < ends, "waited too long"
        time.sleep(0.01)


class Launcher:
    """The scratch tree, and starts of the launcher there."""

    def __init__(self, top: pathlib.Path) -> None:
        self.top, self.open = top, contextlib.ExitStack()
        self.end = self.open.close
        self.tree, self.bin, self.record, self.temporary = (top / name for name in ("a tree", "bin", "record", "temporary"))
        for it in (self.tree / "tools", self.bin, self.temporary):
            it.mkdir(parents=True)
        for name in ("pc-sim", "test", "tools/released"):
            shutil.copy(ROOT / name, self.tree / name)
        self.put_machine(cores=4, gigabytes=100)
        self.put_crates(CRATES)
        for name in ("low", "left", "right", "pc_sim"):
            self.put_source(f"{name}/src/lib.rt", f"// {name}\n")
            self.put_source(f"{name}/specs/Extra.antt", f"-- {name}\n")
        self.set_dates(-100)
        for tool in TOOLS:
            self.put_tool(tool)
        self.put_command("rt", STAND_IN)

    crates = property(lambda self: self.tree / "crates")
    release = property(lambda self: self.tree / "release")
    program = property(lambda self: self.crates / "pc_sim/out/pc_sim")
    note = property(lambda self: self.program.parent / "sources")
    processes = property(lambda self: pathlib.Path(f"{self.record}.processes"))

    # What the launcher finds

    def put_machine(self, cores: int, gigabytes: int) -> None:
        """Lets the launcher see so many cores, and so much free memory."""
        self.put_command("nproc", f"#!/usr/bin/env bash\necho {cores}\n")
        text, facts = (ROOT / "tools/build").read_text(), self.top / "meminfo"
        facts.write_text(f"MemTotal: 999999999 kB\nMemAvailable: {gigabytes * 1024 * 1024} kB\n")
        same(text.count("/proc/meminfo"), 1)
        rig.put_command(self.tree / "tools/build", text.replace("/proc/meminfo", str(facts)))

    def put_crates(self, text: str) -> None:
        (self.tree / "crates.txt").write_text(text)

    def put_source(self, name: str, text: str = "// another\n") -> None:
        (self.crates / name).parent.mkdir(parents=True, exist_ok=True)
        (self.crates / name).write_text(text)

    def put_crates_above(self, *lines: str) -> None:
        """Further crates, by their lines."""
        self.put_crates(CRATES + "".join(line + "\n" for line in lines))
        for line in lines:
            self.put_source(f"{line.partition(':')[0]}/src/lib.rt", "// a crate\n")
        self.set_dates(-100)

    def put_copy(self) -> None:
        """Puts a copy of the tree in its place, with its dates."""
        self.tree.rename(self.top / "before")
        rig.good(rig.run("cp", "-a", self.top / "before", self.tree))

    def put_tool(self, name: str) -> None:
        """A command of this machine comes onto the path."""
        needs(shutil.which(name), f"no {name} here")
        (self.bin / name).unlink(missing_ok=True)
        (self.bin / name).symlink_to(shutil.which(name))

    def put_command(self, name: str, text: str) -> None:
        (self.bin / name).unlink(missing_ok=True)
        rig.put_command(self.bin / name, text)

    def put_queue(self, *names: str) -> None:
        """Queues in the place of files of the tree, for whose other ends an open would wait."""
        for path in map(self.tree.joinpath, names):
            path.parent.mkdir(exist_ok=True)
            path.unlink(missing_ok=True)
            os.mkfifo(path)

    def put_bounded(self) -> None:
        """A command of the tree that starts the launcher where no file may grow."""
        rig.put_command(self.tree / "bounded", '#!/usr/bin/env bash\nulimit -f 0\nexec "${0%/*}/pc-sim"\n')

    def set_dates(self, seconds: float) -> None:
        """Dates each source this long from now."""
        at = time.time() + seconds
        for it in [*self.tree.rglob("*.rt"), *self.tree.rglob("*.antt"), self.tree / "crates.txt"]:
            os.utime(it, (at, at))

    def put_program(self, text: str = PROGRAM, is_noted: bool = True) -> None:
        """A program as an earlier build left it, or as one that another command built."""
        self.program.parent.mkdir(exist_ok=True)
        rig.put_command(self.program, text)
        if is_noted:
            words = '. "$0/pc-sim" && . "$here/tools/released" && put_note "$(sum_of_sources)" "$(sum_of "$program")" "" "$EPOCHSECONDS"'
            rig.good(rig.run("bash", "-uc", words, self.tree))
            assert self.note.is_file()

    def put_release(self) -> None:
        """Builds, puts the program into release/, and takes it away from where it was built."""
        self.builds()
        same(self.ended(self.begin("--make", command="tools/released")), (0, "", ""))
        shutil.rmtree(self.program.parent)

    def put_stand_ins_of_tests(self) -> str:
        """What `test` runs after the gate: each prints as many passed as its place, the cases what they are given. What that has to be."""
        names = re.search(r"(?s)\nfor tests in (.*?); do", (ROOT / "test").read_text())[1].replace('"', "").replace("\\\n", " ").split()
        names.remove("--short")
        there = {it.name for it in (ROOT / "tests").glob("*_tests.py")} | {"wrong_bodies.py", "check_documents.py", "hostile/hostile.py"}
        same(sorted(names), sorted(there), "what ./test runs")
        (self.tree / "tests/hostile").mkdir(parents=True)
        for place, name in enumerate(names, 1):
            (self.tree / "tests" / name).write_text(f"import sys\nprint('{place} passed, 0 failed', *sys.argv[1:])\n")
        (self.tree / "tests/run_cases.py").write_text("import sys\nprint('cases:', *sys.argv[1:])\n")
        also = " ".join(f"--also {place} passed, 0 failed{' --short' * ('/' in name)}" for place, name in enumerate(names, 1))
        # Before them the program that the gate built is compared with that of release/, of which there is none.
        return f"cases: --gate-status 0 --gate-line 3 passed, 0 failed --also 0 passed, 0 failed {also}"

    def lock(self, how: int = fcntl.LOCK_EX) -> TextIO:
        lock = self.open.enter_context(open(self.tree / ".build.lock", "a"))
        fcntl.flock(lock, how)
        return lock

    # Starts

    def begin(self, *args: str, command: str = "pc-sim", stdin: int = subprocess.DEVNULL, **more: str) -> subprocess.Popen[str]:
        """Starts the launcher, or another command of the tree."""
        environment = {"PATH": str(self.bin), "TMPDIR": str(self.temporary), "RT_RECORD": str(self.record), "PROGRAM": PROGRAM, **more}
        how: dict[str, Any] = {"stdout": subprocess.PIPE, "stderr": subprocess.PIPE, "text": True, "cwd": self.top, "env": environment}
        # A shell has what it starts in the background ignore interrupts, `nohup` hang-ups, and the tests may have been started so.
        how["preexec_fn"] = lambda: [signal.signal(it, signal.SIG_DFL) for it in (signal.SIGINT, signal.SIGHUP)]
        process = subprocess.Popen([str(self.tree / command), *args], stdin=stdin, **how)
        self.open.callback(process.kill)
        return process

    def ended(self, process: subprocess.Popen[str], given: str | None = None) -> Ended:
        """The status, standard output and standard error of what was started."""
        out, errors = process.communicate(given, timeout=SECONDS)
        return process.returncode, out, errors

    def ends(self, process: subprocess.Popen[str], *args: str, status: int = 0) -> str:
        """It ends so, and has printed what the program prints of these arguments; what standard error says."""
        ended, out, errors = self.ended(process)
        same((ended, out), (status, told(*args)), errors)
        return errors

    def run_it(self, *args: str, **more: Any) -> Ended:
        return self.ended(self.begin(*args, **more))

    def called(self) -> list[tuple[str, str]]:
        return self.calls()[0]

    def starts(self, *args: str, **more: Any) -> None:
        """The program starts at once and without a word, and no lock is asked for."""
        lock = self.tree / ".build.lock"
        was_there = lock.exists()
        same(self.run_it(*args, **more), (0, told(*args), ""))
        same((self.called(), lock.exists()), ([], was_there))

    def builds(self, *args: str, **more: Any) -> str:
        """A start builds each crate once, and then starts the program; what standard error says."""
        self.forget_calls()
        errors = self.ends(self.begin(*args, **more), *args)
        self.is_built_once(errors)
        self.forget_calls()
        return errors

    def fails(self, *words: str, lines: int | None = None, says: Iterable[str] = (), **more: Any) -> str:
        """Nothing starts, and the last line, or the only one, says why; what standard error says, this among it."""
        status, out, errors = self.run_it(**more)
        same((status, out), (5, ""), errors)
        said = errors.splitlines()
        assert lines in (None, len(said)), errors
        assert said[-1].startswith("pc-sim: ") and all(it in said[-1] for it in words), errors
        assert all(it in errors for it in says), errors
        return errors

    def is_built_once(self, errors: str) -> None:
        same(sorted(self.called()), [("left", "lib"), ("low", "lib"), ("pc_sim", "run -- --help"), ("right", "lib")])
        matches(errors, r"pc-sim: built in \d+ s\n\Z")
        same(list(self.temporary.iterdir()), [], "temporary files are left")

    def begun(self, wanted: str, *args: str, **more: Any) -> tuple[subprocess.Popen[str], str]:
        """A start of which a line of standard error has the text, and what was read of that so far."""
        process, read = self.begin(*args, **more), ""
        while wanted not in read:
            line = process.stderr.readline()
            assert line, f"ended without {wanted!r}: {read}"
            read += line
        return process, read

    # What the stand-in was called for

    def calls(self) -> tuple[list[tuple[str, str]], dict[str, float], dict[str, float]]:
        """Its arguments by crate, in order, but for how many jobs, and when each began and ended."""
        text = self.record.read_text() if self.record.exists() else ""
        rows = re.findall(r"^(begin|end) (\w+) (\S+) ?(.*?)(?: --jobs \d+)?$", text, re.M)
        began, ended = ({name: float(at) for what, name, at, _ in rows if what == kind} for kind in ("begin", "end"))
        return [(name, words) for what, name, _, words in rows if what == "begin"], began, ended

    def forget_calls(self) -> None:
        self.record.unlink(missing_ok=True)

    def calls_on(self, cores: int, gigabytes: int, seconds: str = "0.25") -> tuple[dict[str, float], dict[str, float], dict[str, str]]:
        """When each call of a build from nothing on such a machine began and ended, each of which takes so long, and its jobs."""
        self.put_machine(cores, gigabytes)
        self.program.unlink(missing_ok=True)
        self.forget_calls()
        same(self.run_it(RT_SECONDS=seconds)[0], 0)
        _, began, ended = self.calls()
        for low, high in (("low", "left"), ("low", "right"), ("left", "pc_sim"), ("right", "pc_sim")):
            assert ended[low] <= began[high], f"{high} began before {low} was built"
        return began, ended, dict(re.findall(r"^begin (\w+) \S+ lib --jobs (\d+)$", self.record.read_text(), re.M))

    def nothing_runs(self) -> None:
        """None of the stand-in's processes runs: what was ended may still wait to be fetched by its parent."""
        for process in self.processes.read_text().split():
            status = pathlib.Path(f"/proc/{process}/status")
            wait_until(lambda: not status.exists() or "State:\tZ" in status.read_text(), 2)


FIXTURE = Launcher


# What starts a build

LOW, EXTRA, OTHER = "low/src/lib.rt", "left/specs/Extra.antt", "left/specs/Other.antt"
OF_TESTS = ("pc_tests", "pc_tests_agents", "pc_example", "pc_replayed")
PUT, BUILDS, STARTS = Launcher.put_program, Launcher.builds, Launcher.starts
UNNOTED = functools.partial(PUT, is_noted=False)
# What is done to a tree whose program is as an earlier build left it, or was built here, and what a start does then.
CHANGES: dict[str, tuple[Any, Any, Any]] = {
    "nothing": (PUT, lambda it: None, STARTS),
    "the lock is held": (PUT, Launcher.lock, STARTS),
    "the kit is gone": (PUT, lambda it: (it.bin / "rt").unlink(), STARTS),
    "sources of another date": (PUT, lambda it: it.set_dates(50), STARTS),
    "a copy of the tree": (BUILDS, Launcher.put_copy, STARTS),
    "a change that is taken back": (BUILDS, lambda it: it.put_source(LOW) or it.put_source(LOW, "// low\n"), STARTS),
    "another source": (PUT, lambda it: it.put_source(LOW), BUILDS),
    "another source of an old date": (BUILDS, lambda it: it.put_source(LOW) or it.set_dates(-1000), BUILDS),
    "another definition of an old date": (BUILDS, lambda it: it.put_source(EXTRA) or it.set_dates(-1000), BUILDS),
    "another list of crates": (BUILDS, lambda it: it.put_crates(CRATES + "\n") or it.set_dates(-1000), BUILDS),
    "another program": (BUILDS, lambda it: it.put_program(PROGRAM + "# other\n", is_noted=False), BUILDS),
    "a program of another command": (UNNOTED, lambda it: None, BUILDS),
    "a note that is a list of names": (UNNOTED, lambda it: it.note.write_text("crates.txt\n"), BUILDS),
    "a folder in the place of the note": (UNNOTED, lambda it: (it.note / "x").mkdir(parents=True), BUILDS),
    "an empty note": (PUT, lambda it: it.note.write_text(""), BUILDS),
    "another edit": (PUT, lambda it: it.put_source("low/must-fail/x.rt"), STARTS),
    "another wrong body": (PUT, lambda it: it.put_source("low/wrong-bodies/x.rt"), STARTS),
    "another file of another kind": (PUT, lambda it: it.put_source("low/src/notes.md"), STARTS),
    "a deleted source": (BUILDS, lambda it: (it.crates / EXTRA).unlink(), BUILDS),
    "an added source of an old date": (BUILDS, lambda it: it.put_source(OTHER) or it.set_dates(-100), BUILDS),
    "a deleted source, and no note": (BUILDS, lambda it: (it.crates / EXTRA).unlink() or it.note.unlink(), BUILDS),
    "crates of the tests": (
        lambda it: it.put_crates_above(*(f"{name}: low left" for name in OF_TESTS)) or it.builds(),
        lambda it: [it.put_source(f"{name}/src/lib.rt") for name in OF_TESTS], STARTS),
    "a crate that the program does not stand on": (PUT, lambda it: it.put_crates_above("beside: low"), BUILDS),
    "a program of another command, that of release/": (
        lambda it: it.put_release() or UNNOTED(it), lambda it: it.starts() or shutil.rmtree(it.release), STARTS),
    "a link to the launcher": (
        PUT, lambda it: (it.top / "link").symlink_to(it.tree / "pc-sim"), functools.partial(STARTS, command="../link")),
}


@rig.each(CHANGES)
def test_change(it: Launcher, begins: Any, change: Any, then: Any) -> None:
    begins(it)
    change(it)
    then(it, "x")
    it.starts("y")


def test_without_a_program_all_is_built(it: Launcher) -> None:
    errors = it.builds("x")
    for line in ("[1/4] low ..", "[1/4] low ", "[2/4] left ..", "[3/4] right ..", "[4/4] pc_sim .."):
        assert f"pc-sim: {line}" in errors
    matches(errors, r"(?m)^pc-sim: \[4/4\] pc_sim \d+ s$")
    same(len(errors.splitlines()), 1 + 2 * 4 + 1, errors)
    it.starts("x")


def test_files_that_stay_as_they_are_need_no_sums(it: Launcher) -> None:
    it.put_program()
    # So long after a change another one cannot have its moment.
    time.sleep(3)
    it.starts()
    (it.bin / "sha256sum").unlink()
    it.starts()
    source = it.crates / LOW
    was = source.stat()
    it.put_source(LOW, "// l0w\n")
    os.utime(source, ns=(was.st_atime_ns, was.st_mtime_ns))
    same((source.stat().st_size, source.stat().st_mtime_ns), (was.st_size, was.st_mtime_ns))
    it.fails("the sources cannot be read")
    it.put_tool("sha256sum")
    it.builds()


def test_a_source_that_changes_during_the_build_rebuilds_at_the_next_start(it: Launcher) -> None:
    first, _ = it.begun("[1/4] low ..", RT_SECONDS="0.4")
    it.put_source(LOW)
    assert "pc-sim: a source changed meanwhile: the next start builds again\n" in it.ends(first)
    it.builds()
    it.starts()


# Without rt

def test_without_rt_an_older_program_starts_with_a_warning(it: Launcher) -> None:
    (it.bin / "rt").unlink()
    it.put_program(is_noted=False)
    errors = it.ends(it.begin("x", PROGRAM_STATUS="3"), "x", status=3)
    matches(errors, r"\Apc-sim: .*not known to be of these sources.*rt is not on the path\n\Z")


# The order of the crates

# How many cores and gigabytes there are, how long each crate takes, and whether two are built at once: the first lasts
# long enough then for a busy machine to begin the second one meanwhile.
@rig.each({
    "four cores": (4, 100, "2", True), "two cores": (2, 8, "2", True),
    "one core": (1, 100, "0.25", False), "7 GB": (4, 7, "0.25", False), "1 GB": (4, 1, "0.25", False),
})
def test_crates_beside_each_other(it: Launcher, cores: int, gigabytes: int, seconds: str, at_once: bool) -> None:
    began, ended, _ = it.calls_on(cores, gigabytes, seconds)
    same((began["left"] < ended["right"], began["right"] < ended["left"]), (True, at_once))


def test_ends_that_bash_has_noted_by_itself_are_found(it: Launcher) -> None:
    build = it.tree / "tools/build"
    text, waits = build.read_text(), "wait -n -p process"
    same(text.count(waits), 1)
    build.write_text(text.replace(waits, "false"))
    it.builds()
    it.program.unlink()
    it.fails("left could not be built", RT_FAILS="left")


# The second is enough where more can begin than there are places.
@rig.each({"four cores": (4, {"low": "4", "left": "2", "right": "2"}), "one core": (1, {"low": "1", "left": "1", "right": "1"})})
def test_crates_that_can_begin_share_the_jobs(it: Launcher, cores: int, wanted: dict[str, str]) -> None:
    same(it.calls_on(cores, 100)[2], wanted)


@rig.each({"one core": (1,), "four cores": (4,)})
def test_lines_in_any_order_are_built_lowest_first_and_the_program_last(it: Launcher, cores: int) -> None:
    it.put_crates("pc_sim: left right\nleft staticlib: low\nright: low\nlow:")
    it.calls_on(cores, 100)


def test_each_crate_is_built_in_a_tree_of_its_own_and_brought_back(it: Launcher) -> None:
    it.builds()
    places = {name: (it.crates / name / "out/place").read_text().strip() for name in ("low", "left", "right")}
    same(len(set(places.values())), 3)
    assert not any(place.startswith(str(it.crates)) for place in places.values())
    below = lambda name: (it.crates / name / "out/below").read_text()
    same(list(map(below, ("low", "left", "right"))), ["*/out/lib\n", "low/out/lib\n", "low/out/lib\n"])
    assert not (it.tree / ".trees").exists()
    it.put_source(LOW)
    it.builds()
    same(below("left"), "left/out/lib low/out/lib\n")


def test_what_most_stand_on_is_built_first(it: Launcher) -> None:
    it.put_crates("right:\nlow:\nleft: low\nmiddle: left\npc_sim: right middle\n")
    it.put_source("middle/src/lib.rt")
    it.put_machine(1, 100)
    same(it.run_it()[0], 0)
    same([name for name, _ in it.called()], ["low", "left", "right", "middle", "pc_sim"])


def test_as_a_command_it_builds_and_prints_nothing(it: Launcher) -> None:
    status, out, errors = it.run_it(command="tools/build")
    same((status, out), (0, ""))
    it.is_built_once(errors)
    same(it.run_it(command="tools/build"), (0, "", ""))


# Failures

def test_a_failed_crate_names_itself_and_nothing_more_begins(it: Launcher) -> None:
    errors = it.fails("low could not be built", RT_FAILS="low")
    same(it.called(), [("low", "lib")])
    matches(errors, r"(?m)^pc-sim: \[1/4\] low failed after \d+ s")
    lines = [f"log line {line}" for line in range(1, 31)]
    same([line for line in errors.splitlines() if line.startswith("log line")], lines[10:])
    same(pathlib.Path(errors.splitlines()[-1].split(" is ")[-1]).read_text().splitlines(), lines)


ALL, ONE = ["left", "low", "pc_sim", "right"], {"lines": 1}
NO_ROOM = "#!/usr/bin/env bash\necho 'cp: no room' >&2\nexit 1\n"
# What is done to a tree, how it is started, what the last line says then, and which crates are called for, where that
# is known. Nothing is left in any.
FAILS: dict[str, tuple[Any, dict[str, Any], list[str], list[str] | None]] = {
    "no rt and no program": (lambda it: (it.bin / "rt").unlink(), ONE, ["not built", "rt is not on the path"], []),
    "a tree that cannot be locked": (lambda it: (it.tree / ".build.lock").mkdir(), ONE, [".build.lock"], []),
    "a queue in place of the lock": (lambda it: it.put_queue(".build.lock"), ONE, [".build.lock is no file"], []),
    "a crate that is killed": (lambda it: None, {"RT_KILLED": "left"}, ["left could not be built"], None),
    "a build that leaves no program": (lambda it: None, {"RT_LEAVES_NONE": "yes"}, ["left no program"], ALL),
    "a tree that cannot be made": (
        lambda it: it.put_command("cp", NO_ROOM), {"says": ["a tree for low cannot be made", "cp: no room"]}, [], []),
    "crates that stand on each other": (
        lambda it: it.put_crates("low: left\nleft: low\nright:\npc_sim: left right\n"), {}, ["crates.txt"], ["right"]),
    "a program that cannot be started": (
        lambda it: it.put_program("#!/no/such/command\n"), {}, ["pc_sim cannot be started"], []),
    "a folder in the place of the program": (
        lambda it: it.put_release() or it.program.mkdir(parents=True), ONE, ["is no file, and has to be removed"], []),
    "a tree that cannot be written takes no released program": (
        lambda it: it.put_release() or it.program.parent.write_text("no folder"),
        {"says": ["pc-sim: release/pc-sim.xz has no place, since this tree cannot be written"]}, [], ALL),
}


@rig.each(FAILS)
def test_fails(it: Launcher, change: Any, how: dict[str, Any], words: list[str], called: list[str] | None) -> None:
    change(it)
    before = [*it.program.parent.rglob("*")]
    same("pc_sim .." in it.fails(*words, **how), "pc_sim" in (called or []))
    if called is not None:
        same(sorted(name for name, _ in it.called()), called)
    same([*it.tree.glob(".trees"), *it.program.parent.rglob("*")], before)


def test_a_failed_crate_ends_those_beside_it(it: Launcher) -> None:
    errors = it.fails("left could not be built", RT_FAILS="left", RT_HANGS="right", RT_SECONDS="0.5")
    same(sorted(it.called()), [("left", "lib"), ("low", "lib"), ("right", "lib")])
    assert "pc-sim: [3/4] right stopped\n" in errors
    it.nothing_runs()


def test_a_failed_program_leaves_the_old_one_unstarted(it: Launcher) -> None:
    it.put_program(is_noted=False)
    it.fails("pc_sim could not be built", RT_FAILS="pc_sim")
    shutil.rmtree(next(it.temporary.iterdir()))
    it.builds()


def test_a_folder_for_temporary_files_that_cannot_be_used(it: Launcher) -> None:
    (it.top / "file").write_text("no folder\n")
    for unusable in (it.top / "missing", it.top / "file"):
        it.fails(str(unusable), "TMPDIR", lines=1, TMPDIR=str(unusable))
        same(it.called(), [])
    it.put_program()
    it.starts(TMPDIR=str(it.top / "missing"))


@rig.each({number.name: (number,) for number in (signal.SIGINT, signal.SIGTERM, signal.SIGHUP)})
def test_an_interrupt_stops_what_was_started(it: Launcher, number: signal.Signals) -> None:
    start, _ = it.begun("[1/4] low ..", RT_HANGS="low")
    wait_until(lambda: it.processes.exists() and len(it.processes.read_text().split()) >= 2)
    start.send_signal(number)
    same(it.ended(start), (-number, "", "pc-sim: [1/4] low stopped\n"))
    it.nothing_runs()
    same(list(it.temporary.iterdir()), [])
    it.builds()


# One build at a time

def test_two_starts_at_once_build_once(it: Launcher) -> None:
    first, read = it.begun("[1/4] low ..", "first", RT_SECONDS="0.3")
    second = it.begin("second")
    it.is_built_once(read + it.ends(first, "first"))
    matches(it.ends(second, "second"), r"\Apc-sim: waiting for another start.*\n\Z")


def test_a_program_is_not_started_before_its_build_has_ended(it: Launcher) -> None:
    first, read = it.begun("pc_sim ..", RT_LINGERS="1")
    wait_until(lambda: os.access(it.program, os.X_OK))
    matches(it.run_it()[2], r"\Apc-sim: waiting for another start.*\n\Z")
    it.is_built_once(read + it.ended(first)[2])


def test_after_a_build_that_was_interrupted_at_its_end_another_is_made(it: Launcher) -> None:
    first, _ = it.begun("pc_sim ..", RT_LINGERS="5")
    wait_until(lambda: os.access(it.program, os.X_OK))
    first.terminate()
    same(it.ended(first)[0], -signal.SIGTERM)
    it.builds()


def test_a_start_waits_while_the_lock_is_held(it: Launcher) -> None:
    lock = it.lock()
    start, read = it.begun("waiting", "x")
    matches(read, r"\Apc-sim: .*\./test.*\n\Z")
    time.sleep(0.4)
    same((start.poll(), it.called()), (None, []))
    lock.close()
    it.is_built_once(it.ends(start, "x"))


def test_a_start_that_is_ended_while_it_waits_leaves_nothing(it: Launcher) -> None:
    it.lock()
    start, _ = it.begun("waiting")
    start.terminate()
    began = time.monotonic()
    same(it.ended(start), (-signal.SIGTERM, "", ""))
    assert time.monotonic() - began < 5


def test_the_program_does_not_hold_the_lock(it: Launcher) -> None:
    start, _ = it.begun("built in", stdin=subprocess.PIPE)
    same("".join(start.stdout.readline() for _ in range(2)), told())
    it.lock(fcntl.LOCK_EX | fcntl.LOCK_NB)
    same(it.ended(start, "told\n")[:2], (0, "told\n"))


def test_no_start_builds_while_the_gate_runs(it: Launcher) -> None:
    wanted = it.put_stand_ins_of_tests().replace("--also 0 passed, 0 failed", "--also 0 passed, 1 failed", 1)
    gate = it.begin(command="test", RT_SECONDS="1", RT_LEAVES_NONE="yes")
    wait_until(lambda: it.called())
    start, _ = it.begun("waiting")
    status, out, errors = it.ended(gate)
    same((status, errors, out.splitlines()[-1]), (0, "", wanted))
    same(it.ended(start)[0], 0)
    words, began, ended = it.calls()
    same(words[0][1], "ci")
    assert ended["gate"] <= began["low"]


def test_the_gate_waits_for_no_queue_in_place_of_the_lock(it: Launcher) -> None:
    it.put_queue(".build.lock")
    same(it.run_it(command="test"), (1, "0 passed, 1 failed\n", "test: .build.lock is no file, and has to be removed\n"))


def test_the_gate_waits_for_a_build(it: Launcher) -> None:
    it.put_stand_ins_of_tests()
    start = it.begin(RT_SECONDS="0.3")
    wait_until(lambda: it.called())
    gate = it.begin(command="test")
    same(it.ended(start)[0], 0)
    status, _, errors = it.ended(gate)
    same(status, 0)
    matches(errors, r"\A.*waiting.*\n\Z")
    words, began, ended = it.calls()
    same(words[-1][1], "ci")
    assert ended["pc_sim"] <= began["gate"]


# The program of release/

# What is done before it is started, and what that is told elsewhere.
@rig.each({
    "of these sources": (lambda it: None, {}),
    "without a kit": (lambda it: (it.bin / "rt").unlink(), {}),
    "whatever xz is told": (lambda it: None, dict.fromkeys(("XZ_DEFAULTS", "XZ_OPT"), "--memlimit=1MiB")),
})
def test_a_released_program_is_started_at_once(it: Launcher, change: Any, environment: dict[str, str]) -> None:
    it.put_release()
    change(it)
    same(it.run_it("a", "b c", **environment), (0, told("a", "b c"), IS_RELEASED))
    it.starts()


def change_release(it: Launcher, name: str, change: Any) -> None:
    before = (it.release / name).read_bytes()
    (it.release / name).write_bytes(change(before))
    rig.differ((it.release / name).read_bytes(), before)


# What keeps the program of release/ from being started, and what is said of it.
NOT_TAKEN: dict[str, tuple[Any, str]] = {
    "who asks for a build": (lambda it: None, ""),
    "a changed source": (lambda it: it.put_source("left/src/lib.rt"), ""),
    "an added source": (lambda it: it.put_source("left/src/more.rt"), ""),
    "a deleted source": (lambda it: (it.crates / EXTRA).unlink(), ""),
    "a renamed source": (lambda it: (it.crates / "left/src/lib.rt").rename(it.crates / "left/src/a.rt"), ""),
    "a program that was cut short": (lambda it: change_release(it, "pc-sim.xz", lambda stored: stored[:-20]), "cannot be unpacked"),
    "a program of another sum": (
        lambda it: change_release(it, "SUMS", lambda sums: re.sub(rb"(?m)^(\w)(\w{63})(?=.*program$)", rb"\2\1", sums)),
        "is not the program of release/SUMS"),
    "a program for another machine": (
        lambda it: change_release(it, "SUMS", lambda sums: sums.replace(os.uname().machine.encode(), b"pdp11")),
        "is for another machine, pdp11"),
    "a queue in place of a file": (lambda it: it.put_queue("release/pc-sim.xz"), "is no file"),
    "a queue in place of sums": (lambda it: it.put_queue("release/SUMS"), ""),
    "no xz": (lambda it: (it.bin / "xz").unlink(), "cannot be unpacked, since there is no xz on the path"),
}


@rig.each({name: (name, *row) for name, row in NOT_TAKEN.items()})
def test_the_program_is_built_in_place_of_the_released_one(it: Launcher, name: str, change: Any, words: str) -> None:
    it.put_release()
    change(it)
    errors = it.builds(**({"PC_SIM_BUILD": "1"} if name.startswith("who asks") else {}))
    said = [line for line in errors.splitlines() if "release/" in line]
    same(said, [f"pc-sim: release/pc-sim.xz {words}: the program is built instead"] if words else [])
    same(list(it.program.parent.glob("*.[0-9]*")), [])


def test_what_a_start_that_was_killed_leaves_is_removed(it: Launcher) -> None:
    it.put_release()
    it.put_command("xz", "#!/usr/bin/env bash\nkill -KILL $PPID\n")
    same(it.run_it()[0], -signal.SIGKILL)
    same(len(list(it.program.parent.iterdir())), 1)
    it.put_tool("xz")
    # That of another start, which goes on.
    other = it.program.parent / f"pc_sim.{os.getpid()}"
    other.write_text("")
    same(it.run_it()[:2], (0, told()))
    same(sorted(it.program.parent.iterdir()), sorted([it.program, it.note, other]))
    it.program.with_name("sources.999999999").write_text("")
    it.starts()
    same(sorted(it.program.parent.iterdir()), sorted([it.program, it.note, other]))


def test_a_tree_in_which_nothing_can_be_started(it: Launcher) -> None:
    """Nothing is built in vain, and nothing left."""
    it.put_release()
    unshare, mount, bash = (str(shutil.which(name)) for name in ("unshare", "mount", "bash"))
    needs("None" not in (unshare, mount, bash), "no unshare, mount or bash here")
    mounts = f'{mount} --bind "$0" "$0" && {mount} -o remount,bind,noexec "$0" || exit 77; {bash} "$0/pc-sim"'
    environment = {"PATH": str(it.bin), "TMPDIR": str(it.temporary), "RT_RECORD": str(it.record)}
    fault = f"pc-sim: no program can be started in {it.tree}: it is mounted with noexec, or is another user's\n"

    def fails() -> None:
        ended = rig.run(unshare, "-rm", bash, "-c", mounts, it.tree, env=environment, stdin=subprocess.DEVNULL)
        needs(ended.returncode not in (1, 77), "no mounts here")
        same((ended.stderr, ended.returncode, ended.stdout, it.called()), (fault, 5, "", []))

    fails()
    same(list(it.program.parent.iterdir()), [])
    it.put_program()
    fails()
    it.starts()
    it.put_source(LOW)
    fails()
    same(sorted(it.program.parent.iterdir()), sorted([it.program, it.note]))


def test_a_file_that_may_not_grow_is_a_write_that_failed(it: Launcher) -> None:
    """No signal ends the program that is started, nor the launcher, which leaves nothing."""
    it.put_program('#!/usr/bin/env bash\nulimit -f 0\necho told >"$TMPDIR/file" 2>&- || echo failed\nrm "$TMPDIR/file"\n')
    same(it.run_it(), (0, "failed\n", ""))
    it.program.unlink()
    it.put_bounded()
    it.fails(str(it.temporary), "TMPDIR", command="bounded")
    same(([*it.temporary.iterdir()], it.called()), ([], []))


def test_the_released_program_is_compared_with_the_one_that_was_built(it: Launcher) -> None:
    it.put_release()
    sources, _, program, *_ = (it.release / "SUMS").read_text().split()
    passed, failed, other = "1 passed, 0 failed", "0 passed, 1 failed", PROGRAM + "# other\n"
    unbuilt, changed = "no program was built in this run", "the sources are not those that this run began with"
    none = "released: release/ has no program of these sources\n0 passed, 0 failed"
    other_kit = "released: release/ has the program that another kit makes, kit-one\n0 passed, 0 failed"

    def begin() -> None:
        same(it.run_it("--before", str(it.top / "before"), command="tools/released"), (0, "", ""))

    # What is done; what is told then first: why nothing is compared, or whether the sources, and the program, are those
    # of release/; and what is told last, with the status and which kit there is.
    for done, first, last, status, kit in [
        (lambda: None, unbuilt, failed, 1, "one"),
        (begin, unbuilt, failed, 1, "one"),
        (lambda: same(it.run_it()[2], IS_RELEASED) or begin(), unbuilt, failed, 1, "one"),
        (lambda: it.put_program(is_noted=False), (True, True), passed, 0, "one"),
        (lambda: change_release(it, "pc-sim.xz", lambda stored: stored[:-20]), (True, True), failed, 1, "one"),
        (lambda: it.put_program(other, is_noted=False), (True, False), failed, 1, "one"),
        (lambda: None, (True, False), other_kit, 0, "two"),
        (lambda: it.put_source("left/src/lib.rt"), changed, failed, 1, "one"),
        (lambda: begin() or it.put_program(other, is_noted=False), (False, False), none, 0, "one"),
        (lambda: shutil.rmtree(it.release), (False, False), none, 0, "one"),
    ]:
        done()
        words = ("--compare", str(it.top / "before"))
        ended, out, _ = it.run_it(*words, command="tools/released", RT_VERSION=f"kit-{kit}")
        told, *others = out.removeprefix("released: ").splitlines()
        sums = re.fullmatch(r"of sources with the sum (\w{64}) a program with the sum (\w{64}) was built", told)
        same((sums[1] == sources, sums[2] == program) if sums else told, first)
        same((ended, others[-1 - last.count("\n"):]), (status, last.split("\n")), out)


def test_the_gate_compares_what_it_built_and_notes_it(it: Launcher) -> None:
    wanted = it.put_stand_ins_of_tests()
    it.put_program()
    lacks = wanted.replace("--also 0 passed, 0 failed", "--also 0 passed, 1 failed", 1)
    for more, last in (({"RT_LEAVES_NONE": "yes"}, lacks), ({}, wanted)):
        status, out, errors = it.run_it(command="test", **more)
        same((status, errors, out.splitlines()[-1]), (0, "", last))
    it.forget_calls()
    it.starts("x")
    same(list(it.temporary.iterdir()), [])


# What is handed through

def test_arguments_input_and_status_are_handed_through(it: Launcher) -> None:
    args = ["replay", "", "two words", "*", "--", "-n", "a\nb", "$HOME"]
    for built in (False, True):
        status, out, errors = it.ended(it.begin(*args, stdin=subprocess.PIPE, PROGRAM_STATUS="4"), "one\ntwo\n")
        same((status, out, bool(errors)), (4, told(*args) + "one\ntwo\n", not built))


# Where the launcher is

def test_nothing_of_the_current_folder_is_taken(it: Launcher) -> None:
    """However the launcher is called, and where the path has no readlink."""
    (it.top / "tools").mkdir()
    for name in ("pc-sim", "tools/released", "tools/build"):
        rig.put_command(it.top / name, "echo TAKEN >&2\n")
    (it.top / "here/-x").mkdir(parents=True)
    (it.top / "here/tools").symlink_to(it.top / "tools")
    shutil.copy(it.tree / "pc-sim", it.top / "here/-x")
    environment = {"PATH": str(it.bin)}

    def ends(status: int, *words: str) -> str:
        ended = rig.run(*words, cwd=it.top / "here", env=environment)
        assert ended.returncode == status and "TAKEN" not in ended.stderr and ended.stderr.strip(), ended
        return ended.stderr.splitlines()[-1]

    matches(ends(5, "bash", "--", "-x/pc-sim"), r"^pc-sim: .*/here/-x/tools/released is not there$")
    (it.bin / "readlink").unlink()
    for words in (("bash", "--", "-x/pc-sim"), (f"{it.tree}/pc-sim",)):
        matches(ends(5, *words), r"^pc-sim: readlink is not on the path, or cannot tell where this script is$")
    for name in ("tools/released", "tools/build"):
        ends(5, f"{it.tree}/{name}")
    matches(ends(1, f"{it.tree}/test"), r"^test: readlink is not on the path")


def test_a_tree_whose_name_ends_in_a_line_feed(it: Launcher) -> None:
    it.put_release()
    (it.top / "tools").mkdir()
    it.tree = it.tree.rename(it.top / "a tree\n")
    same(it.run_it("x")[:2], (0, told("x")))
    it.starts("y")
    it.put_source(LOW)
    it.builds()
    same(it.run_it("--make", command="tools/released"), (0, "", ""))
    same(it.run_it(command="tools/build"), (0, "", ""))


if __name__ == "__main__":
    # They mostly wait, so several run at once: in processes, since a thread that starts a command lends it the files that others write.
    rig.main(__doc__, rig.tests_in(globals()), at_once=8)

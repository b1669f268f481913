"""Runs of a program with the library refuse.c loaded before it, and the count of what passed and failed."""
import mmap
import os
import pathlib
import re
import select
import shutil
import signal
import struct
import subprocess
import tempfile
import threading
import time
from collections import namedtuple
from concurrent.futures import ThreadPoolExecutor
from dataclasses import dataclass, field

import rig

HERE = pathlib.Path(__file__).resolve().parent
ROOT = rig.ROOT
COMPILERS = ["cc", "gcc", "clang"]
COUNTS = struct.Struct("QQQQQQQQ")
# After so many seconds a run is ended.
SECONDS = 60


# How the program ends, and a second line: of what, and why. Where memory is wanting for that one, less of it is said.
ENDING = re.compile(rb"(pc-sim: [^\n]*\n)(?:pc-sim: [^\n]*\n?)?")
# Behind this stands which word it is, or the help where there is none.
MISTAKE = b"pc-sim: bad command line\n"
# What stands before that: a session says of its first fault which line it is.
HINT = re.compile(rb"pc-sim: line ([1-9]\d*)(?:, `[ -~]+`, is no command; \? lists the commands| has more than 65536 bytes)\n")
# What stands behind that: keys of settings that are passed over.
WARNINGS = re.compile(rb"(?:pc-sim: warning: [^\n]*\n)+\Z")


class NoCompiler(Exception):
    """There is no C compiler, or the library does not go with the program."""


# How a run ended: its status, below 0 that of a signal, None where it was ended because its time was over. Of standard
# error the line that names the ending, if there is but one line behind it that says why; else all of it.
Run = namedtuple("Run", "status out err seconds growths growths_met reads reads_met writes writes_met")


@dataclass
class Subject:
    """What a program is run on, and what it has to write with ample memory."""

    name: str
    words: list
    input: pathlib.Path | None = None
    folder: pathlib.Path = ROOT
    out: bytes | None = b""
    err: bytes = b""
    status: int = 0
    environment: dict = field(default_factory=dict)
    # Whether comments stand between what it has to write.
    commented: bool = False
    # Whether nothing is written where memory runs out: a picture is whole, or is not there.
    whole: bool = False

    def plain(self, text):
        """What was written, without the comments: lines whose first byte is `#`."""
        return re.sub(rb"(?m)^#.*\n?", b"", text) if self.commented else text


def compiler():
    """The C compiler of the system, or else that of the kit, beside its `rt`."""
    rt = pathlib.Path(shutil.which("rt") or "/rt").resolve()
    found = next(filter(None, map(shutil.which, [*COMPILERS, rt.parent.parent / "toolchain/bin/clang"])), None)
    if found is None:
        raise NoCompiler(f"none of {', '.join(COMPILERS)} is here, nor the kit's clang: the library that refuses cannot be built")
    return found


def build(source, made, *words):
    """Compiles a C file."""
    done = subprocess.run([compiler(), "-O1", "-o", str(made), str(source), *words], capture_output=True, text=True)
    if done.returncode != 0:
        raise NoCompiler(f"{source.name} does not compile: {done.stderr[:400]}")


class Machine:
    """A folder with the library, and the program that is run under it."""

    def __init__(self, program, folder):
        self.program, self.folder = pathlib.Path(program).resolve(), pathlib.Path(folder)
        self.library = self.folder / "refuse.so"
        if not self.library.exists():
            build(HERE / "refuse.c", self.library, "-shared", "-fPIC")
        self.of_thread = threading.local()

    def files(self):
        """The files of this thread: the mapped counts, and what the program writes."""
        if not hasattr(self.of_thread, "report"):
            descriptor, name = tempfile.mkstemp(dir=self.folder)
            os.truncate(descriptor, COUNTS.size)
            self.of_thread.report = (name, mmap.mmap(descriptor, COUNTS.size))
            os.close(descriptor)
            self.of_thread.out = tempfile.TemporaryFile(dir=self.folder)
            self.of_thread.err = tempfile.TemporaryFile(dir=self.folder)
        return self.of_thread.report, self.of_thread.out, self.of_thread.err

    def run(self, subject, seconds=SECONDS, **hostile):
        """Runs the program on a subject; each further argument is a setting of refuse.c, as growth='5'."""
        (report, counts), out, err = self.files()
        counts[:] = bytes(COUNTS.size)
        for file in (out, err):
            file.seek(0)
            file.truncate()
        settings = {f"HOSTILE_{name.upper()}": str(value) for name, value in hostile.items()}
        environment = {**os.environ, **subject.environment, **settings, "HOSTILE_REPORT": report, "LD_PRELOAD": str(self.library)}
        words = [str(self.program), *subject.words]
        with open(subject.input or os.devnull, "rb") as given:
            began = time.perf_counter()
            child = subprocess.Popen(words, cwd=subject.folder, stdin=given, stdout=out, stderr=err, env=environment)
            status = ended(child, seconds)
            took = time.perf_counter() - began
        for file in (out, err):
            file.seek(0)
        return Run(status, out.read(), ending_of(err.read()), took, *COUNTS.unpack(counts[:])[:6])


def ending_of(text):
    """The line of standard error that names how the program ended, without a session's hint, warnings and the one that says why."""
    text = WARNINGS.sub(b"", text[hint.end() :] if (hint := HINT.match(text)) else text)
    if text.startswith(MISTAKE):
        return MISTAKE
    found = ENDING.fullmatch(text)
    return found[1] if found else text


def ended(child, seconds):
    """The status of a child, or None where it was killed after so many seconds."""
    descriptor = os.pidfd_open(child.pid)
    try:
        poll = select.poll()
        poll.register(descriptor, select.POLLIN)
        if poll.poll(seconds * 1000):
            return child.wait()
        child.kill()
        child.wait()
        return None
    finally:
        os.close(descriptor)


def told(run):
    """What is said of a run in a failure."""
    if run.status is None:
        return f"ended after {run.seconds:.1f} s, {len(run.out)} bytes written"
    name = f"signal {signal.Signals(-run.status).name}" if run.status < 0 else f"status {run.status}"
    return f"{name}, {len(run.out)} bytes written, standard error {run.err[:200]!r}"


class Tally(rig.Tally):
    """What passed and what failed, with how to repeat each failure."""

    def __init__(self, repeat, only=None, jobs=4):
        super().__init__()
        self.repeat, self.only, self.pool = repeat, only, ThreadPoolExecutor(jobs)

    def wants(self, name):
        return self.only is None or name == self.only

    def add(self, name, fault):
        super().add(name, fault and f"{fault}\n    repeat: {self.repeat} --only '{name}'")

    def try_all(self, trials):
        """Tries each (name, function of no argument that answers what is wrong, or None), several at once."""
        wanted = [trial for trial in trials if self.wants(trial[0])]
        for (name, _), fault in zip(wanted, self.pool.map(lambda trial: trial[1](), wanted)):
            self.add(name, fault)

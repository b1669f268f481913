"""Reads and writes that fail, move one byte at a time, or are interrupted, and outputs that are closed, full or broken."""
import dataclasses
import errno
import itertools
import os
import pathlib
import subprocess
from functools import partial

from loads import streamed
from machine import SECONDS, Run, Subject, ended, ending_of, told
from settings import ROWS, written
from subjects import OPENING, examples, variants

CANNOT_READ = b"pc-sim: cannot read\n"
READ_ERRORS = [errno.EIO, errno.EISDIR, errno.EAGAIN, errno.ENOMEM]
WRITE_ERRORS = [errno.ENOSPC, errno.EIO, errno.EPIPE, errno.EBADF, errno.EAGAIN, errno.EFBIG]
LONG = 3000


# A script whose answers fill buffers, one with a fault, and an empty one, with what is answered and the status.
SCRIPTS = {
    "long": (OPENING + b"asleep 0\n" * LONG, b"ok\n" + b"no\n" * LONG, 0),
    "fault": (OPENING + b"asleep 0\nasleep\n", b"ok\nno\nfault line 3\n", 1),
    "empty": (b"", b"", 0),
}
# Settings, some of which take several reads, and some with a fault.
ACCEPTED, TOTALS = ROWS["one thread"]
SETTINGS = {
    "short": (ACCEPTED, TOTALS.encode(), b"", 0),
    "long": ("#" * 20_000 + "\n" + ACCEPTED, TOTALS.encode(), b"", 0),
    "faulty": ("cpus = 0\n", b"", b"pc-sim: settings BadCpus\n", 1),
}


def subjects(folder):
    """Examples and settings by their names and on the standard input, scripts, and loads."""
    for example in examples():
        yield example
        yield from (it for it in variants(example) if not it.name.startswith("explained session"))
        yield Subject(f"{example.name} as standard input", ["replay"], pathlib.Path(example.words[1]), out=example.out)
    for name, (text, out, status) in SCRIPTS.items():
        file = pathlib.Path(folder) / f"{name}.stream"
        file.write_bytes(text)
        script = Subject(f"{name} script", ["replay"], file, out=out, status=status)
        yield script
        yield from variants(script)
    for name, (text, out, err, status) in SETTINGS.items():
        file = written(folder, f"{name} stream", text)
        yield Subject(f"{name} settings", ["run", str(file)], out=out, err=err, status=status)
        yield Subject(f"{name} settings as standard input", ["run"], file, out=out, err=err, status=status)
    yield from streamed()


def fault_of_same(subject, run):
    """What is wrong where all is to be as without a hindrance."""
    return None if (run.status, subject.plain(run.out), run.err) == (subject.status, subject.out, subject.err) else told(run)


def fault_of(run, status=1, out=b"", err=CANNOT_READ):
    """What is wrong with a run that is to end so, as after a read that failed: nothing is answered then."""
    return None if (run.status, run.out, run.err) == (status, out, err) else told(run)


def fault_of_write(subject, run, error=errno.EIO):
    """What is wrong after a write that failed so: a first part of the answers was written. Where nobody reads, nothing is said."""
    if (run.status, run.err) != (1, b"" if error == errno.EPIPE else CANNOT_READ):
        return told(run)
    return None if subject.out.startswith(subject.plain(run.out)) else "what was written is no first part of the answers"


# So few calls are all tried.
FEW = 160


def numbers(count, most):
    """The first, some between, and the last of so many calls; all, where they are few."""
    step = 1 if count <= FEW else max(1, count // most)
    return sorted({*range(1, count + 1, step), *([count] if count else [])})


class Streams:
    """The runs of one subject."""

    def __init__(self, machine, subject, most, broken):
        self.plain = machine.run(subject)
        # Of a picture nothing is written down: here it is only held against itself.
        self.subject = subject if subject.out is not None else dataclasses.replace(subject, out=self.plain.out)
        self.machine, self.most, self.broken = machine, most, broken
        self.by_bytes = machine.run(subject, read_most=1, write_most=1)

    def is_talk(self):
        return self.subject.words[0] == "session"

    def text(self):
        return (self.subject.input or pathlib.Path(self.subject.words[-1])).read_bytes()

    def fault_of_talk(self, run, counts):
        """What is wrong with a session whose read failed behind so many bytes, or so many: they are answered as a whole text is."""
        if (run.status, run.err) != (1, CANNOT_READ):
            return told(run)
        return None if self.subject.plain(run.out) in {self.replayed(count) for count in counts} else told(run)

    def replayed(self, count):
        """What is answered to the first bytes of the text."""
        words = [str(self.machine.program), "replay"]
        return subprocess.run(words, input=self.text()[:count], stdout=subprocess.PIPE, timeout=SECONDS).stdout

    def failed_read(self, count=None, **hostile):
        """A read fails, behind so many bytes; a session answers these, and nothing else answers any."""
        if not (run := self.machine.run(self.subject, **hostile)).reads_met:
            return "no read was met"
        return self.fault_of_talk(run, [count]) if self.is_talk() else fault_of(run)

    def failed_write(self, error=errno.EIO, **hostile):
        run = self.machine.run(self.subject, **hostile)
        return fault_of_write(self.subject, run, error) if run.writes_met else "no write was met"

    def interrupted_reads(self, **hostile):
        """A read that is interrupted may be tried again, or count as one that failed."""
        run, counts = self.machine.run(self.subject, **hostile), [0, 1, len(self.text())]
        fault = fault_of_same(self.subject, run)
        return fault and (self.fault_of_talk(run, counts) if self.is_talk() else fault_of(run))

    def interrupted_writes(self, **hostile):
        return fault_of_same(self.subject, self.machine.run(self.subject, **hostile))

    def reads(self):
        for error, place in itertools.product(READ_ERRORS, range(1, self.plain.reads + 1)):
            fails = partial(self.failed_read, len(self.text()) if place > 1 else 0, read=f"{place} {error}")
            yield f"read {place} {errno.errorcode[error]} of {self.subject.name}", fails
        behind = lambda place: partial(self.failed_read, place - 1)
        yield from self.by_byte("read", self.by_bytes.reads, behind, self.interrupted_reads)

    def writes(self):
        places = range(1, self.plain.writes + 1)
        for error, place, later in itertools.product([*WRITE_ERRORS, 0], places, ("", "..")):
            fails = partial(self.failed_write, error, write=f"{place}{later} {error}")
            yield f"write {place}{later} {errno.errorcode.get(error, 'of nothing')} of {self.subject.name}", fails
        yield from self.by_byte("write", self.by_bytes.writes, lambda place: self.failed_write, self.interrupted_writes)

    def by_byte(self, kind, count, failed, interrupted):
        """Some of so many reads or writes of a byte fail; every other one is interrupted, of a byte or of many."""
        of, one = f"of {self.subject.name}", {f"{kind}_most": 1}
        for place in numbers(count, self.most):
            yield f"byte {kind} {place} EIO {of}", partial(failed(place), **{kind: f"{place} {errno.EIO}"}, **one)
        for words, most in ((f"{kind}s", {}), (f"byte {kind}s", one)):
            yield f"{words} EINTR {of}", partial(interrupted, **{kind: f"1/2 {errno.EINTR}"}, **most)

    def trials(self):
        """(name, function) of each run."""
        name = self.subject.name
        yield f"streams of {name}", lambda: fault_of_same(self.subject, self.plain)
        yield f"bytes of {name}", lambda: fault_of_same(self.subject, self.by_bytes)
        yield from self.reads()
        yield from self.writes()
        for how in OUTPUTS:
            yield f"{how} output of {name}", partial(self.bad_output, how)

    def bad_output(self, how):
        """An output that takes nothing at all."""
        run = run_by_bash(OUTPUTS[how], self.machine, self.subject, self.broken)
        if not self.subject.out:
            return fault_of_same(self.subject, run)
        return fault_of_write(self.subject, run, errno.EPIPE if how == "broken" else errno.EIO)


# By what line of bash the program is started whose standard output takes nothing, or else is a pipe that nobody reads. A file that
# may not grow is one by status where the signal is ignored, as by the launcher.
OUTPUTS = {
    "closed": 'exec "$@" >&-', "full": 'exec "$@" >/dev/full', "broken": 'exec "$@"',
    "bounded": 'trap "" XFSZ; ulimit -f 0; exec "$@" >"$0/bounded"',
}


def run_by_bash(line, machine, subject, out=subprocess.DEVNULL):
    """Runs the program, without the library, by such a line."""
    with open(subject.input or os.devnull, "rb") as given:
        words = ["bash", "-c", line, str(machine.folder), str(machine.program), *subject.words]
        child = subprocess.Popen(words, cwd=subject.folder, stdin=given, stdout=out, stderr=subprocess.PIPE)
        return Run(ended(child, SECONDS), b"", ending_of(child.stderr.read()), *[0] * 7)


def disturb_streams(machine, tally, folder, most):
    """Disturbs the reads and writes of each subject; of those that move one byte some so many."""
    # Made before any run: a child that is begun meanwhile would hold the reader for a moment.
    reader, broken = os.pipe()
    os.close(reader)
    try:
        every = list(tally.pool.map(lambda subject: Streams(machine, subject, most, broken), subjects(folder)))
        tally.try_all(trial for streams in every for trial in streams.trials())
    finally:
        os.close(broken)
    tally.try_all(itertools.chain(of_texts(machine), of_closed(machine)))


def of_texts(machine):
    """Help that cannot be written, and a text on standard error that cannot be."""
    full, broken = {"write": f"1.. {errno.ENOSPC}"}, {"write": f"1.. {errno.EIO}", "descriptor": 2}
    help_text, no_command = Subject("", ["--help"]), Subject("", ["frobnicate"])
    yield "write 1.. ENOSPC of help", lambda: fault_of(machine.run(help_text, **full))
    yield "write 1.. EIO to standard error", lambda: fault_of(machine.run(no_command, **broken), 2, err=b"")


def of_closed(machine):
    """The script of a run has nothing of what goes to streams that are closed, and variants are not read of the load's file."""
    settings = written(machine.folder, "closed streams", ROWS["one thread"][0])
    load = pathlib.Path(next(streamed()).words[-1])

    def fault_of_script(numbers):
        script = machine.folder / f"closed {numbers}.script"
        run = Subject("", ["run", "--script", str(script), str(settings)], status=1 if "1" in numbers else 0)
        line = 'exec "$@"' + "".join(f" {it}>&-" for it in numbers)
        made = run_by_bash(line, machine, run)
        if made.status != run.status or made.err not in (b"", CANNOT_READ):
            return told(made)
        replayed = machine.run(Subject("", ["replay", str(script)]))
        return None if replayed.status == 0 and replayed.out else told(replayed)

    def fault_of_variants():
        run = run_by_bash('exec "$@" <&-', machine, Subject("", ["lab", "--variants", "-", str(load)]))
        return None if (run.status, run.err) == (1, CANNOT_READ) else told(run)

    for count in (1, 2, 3):
        for numbers in map("".join, itertools.combinations("012", count)):
            yield f"script of a run without {numbers}", partial(fault_of_script, numbers)
    yield "variants of a closed standard input", fault_of_variants

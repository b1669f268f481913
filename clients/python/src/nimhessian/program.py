"""The program `pc-sim` as a session: lines go in, and lines come out."""
import functools
import io
import os
import pathlib
import shutil
import subprocess
import tempfile
import threading
from typing import IO, TextIO, cast

from .errors import Died, Lost, NimhessianError

WAIT_AT_CLOSE = 10.0
"""How many seconds a program may take to end after its input has ended."""
MOST_AT_ONCE = 1 << 16
"""So many bytes are read at once."""
SMALL = 4_096
"""So many bytes fit into any pipe, so no thread is needed to write them."""
BUILT, BESIDE_LAUNCHER = "crates/pc_sim/out/pc_sim", "tools/released"
"""Where the launcher of a tree has the program that it starts, and a file that it reads for that."""


def find_program(named: str | os.PathLike[str] | None) -> str:
    """The program that is named, or the one of the variable PC_SIM, or `pc-sim` of the path; never a launcher."""
    for name in (named, os.environ.get("PC_SIM")):
        if name is not None:
            path = os.fspath(name)
            return _program_behind(shutil.which(path) or path)
    if (found := shutil.which("pc-sim")) is None:
        raise Died(None, "no pc-sim on the path, and PC_SIM is not set")
    return _program_behind(found)


@functools.cache
def _program_behind(name: str) -> str:
    """The program that a launcher of the sources' tree starts, or what is named itself.

    A launcher looks at all sources at each start. It is asked once, which has it put the program where it belongs, and
    what it says of that goes to standard error.
    """
    tree = pathlib.Path(name).resolve().parent
    if not (tree / BESIDE_LAUNCHER).is_file() or not _is_script(name):
        return name
    status = subprocess.run([name, "--version"], stdin=subprocess.DEVNULL, stdout=subprocess.DEVNULL).returncode
    if status:
        raise Died(status, f"{name} has no program to start")
    return str(tree / BUILT)


def _is_script(name: str) -> bool:
    try:
        with open(name, "rb") as file:
            return file.read(2) == b"#!"
    except OSError:
        return False  # which its start tells


def is_silent(line: str) -> bool:
    """Whether a session has no answer to the line: it has no words, is a comment, asks for the commands, or ends it."""
    line = line.removesuffix("\r")
    return line.startswith("#") or line.strip(" ") == "" or line in ("?", "help", "quit")


class Program:
    """A running session."""

    def __init__(self, name: str, record: TextIO | None) -> None:
        self._record = record
        self._told: IO[bytes] = tempfile.TemporaryFile()
        try:
            self._process = subprocess.Popen(
                [name, "session"], stdin=subprocess.PIPE, stdout=subprocess.PIPE, stderr=self._told, bufsize=0)
        except OSError as error:
            self._told.close()
            raise Died(None, f"{name}: {error.strerror}") from error
        assert self._process.stdin is not None and self._process.stdout is not None
        self._to = self._process.stdin
        self._from = io.BufferedReader(cast(io.RawIOBase, self._process.stdout), MOST_AT_ONCE)
        self._end: NimhessianError | None = None
        """Why nothing more is sent."""

    def exchange(self, lines: list[str], rows: list[bool]) -> list[str]:
        """Sends lines, and gives the answer to each: one line, or rows up to a line `end`.

        Where that does not come to its end, by an interrupt say, no later answer could be told from those that were not
        taken: nothing more is sent then.
        """
        self.check()
        for line in lines:
            if "\n" in line:
                raise ValueError(f"a command is one line: {line!r}")
            if is_silent(line):
                raise ValueError(f"no command, and nothing would answer: {line!r}")
        text = "\n".join(lines) + "\n"
        if self._record is not None:
            self._record.write(text)
        data = text.encode()
        self._end = Lost("an answer was not waited for")
        # The program reads on only while somebody takes its answers.
        writer = None if len(data) <= SMALL else threading.Thread(target=self._write, args=(data,), daemon=True)
        if writer is None:
            self._write(data)
        else:
            writer.start()
        answers = [self._answer(has_rows) for has_rows in rows]
        if writer is not None:
            writer.join()
        self._end = None
        return answers

    def check(self) -> None:
        """Raises why nothing more can be asked, where that is so."""
        if self._end is not None:
            raise self._end

    def _write(self, data: bytes) -> None:
        try:
            rest = memoryview(data)
            while rest:
                rest = rest[self._to.write(rest):]
        except (BrokenPipeError, ValueError):
            pass  # Its death is told where its answer is awaited.

    def _answer(self, has_rows: bool) -> str:
        first = self._line()
        if not has_rows or not first.startswith("t"):
            return first
        rows = [first]
        while rows[-1] != "end":
            rows.append(self._line())
        return "\n".join(rows)

    def _line(self) -> str:
        if not (line := self._from.readline()).endswith(b"\n"):
            status = self._status()
            self._told.seek(0)
            self._end = Died(status, self._told.read().decode(errors="replace"))
            raise self._end
        return line[:-1].decode()

    def _status(self) -> int:
        """How the program ended, or was ended since it took too long."""
        try:
            return self._process.wait(WAIT_AT_CLOSE)
        except subprocess.TimeoutExpired:
            self._process.kill()
            return self._process.wait()

    def close(self) -> None:
        """Ends the input, and waits for the program's end."""
        self._end = Lost("the world is closed")
        self._to.close()
        self._from.close()
        self._status()
        self._told.close()

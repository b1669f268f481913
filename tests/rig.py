"""What all tests share: the program that is tested, runs of it, comparisons, and the last line, which tells what passed.

A file of tests is a list of functions whose names begin with `test_`. Its end is `rig.main(__doc__, rig.tests_in(globals()))`:
that reads the words of the command line, calls each function in the order in which they stand, prints a line for each that
fails or is skipped, and at last `N passed, M failed`, and `, K skipped` where any were.
"""
import argparse
import concurrent.futures
import contextlib
import lzma
import multiprocessing
import os
import pathlib
import re
import reprlib
import subprocess
import sys
import tempfile
import traceback
import unittest
from collections.abc import Callable, Iterable, Iterator
from dataclasses import dataclass
from functools import partial
from typing import Any, NoReturn

ROOT = pathlib.Path(__file__).resolve().parent.parent
# The program as both compilers leave it.
BUILT = [ROOT / "crates/pc_sim/out/pc_sim", ROOT / "crates/pc_sim/out/pc_sim.by-rattle"]
SECONDS = 120
# The model of the kernel and other modules that tools and tests share.
sys.path += [str(ROOT / "tools"), str(ROOT / "tests/hostile")]
Test = tuple[str, Callable[[], object]]

program = BUILT[0]
options = argparse.Namespace()

# Comparisons that tell what differs. All else is a plain `assert`.
_case = unittest.TestCase()
_case.maxDiff = 4_000
differ, matches, near, raises, raises_text = (
    _case.assertNotEqual, _case.assertRegex, _case.assertAlmostEqual, _case.assertRaises, _case.assertRaisesRegex)


def same(found: object, wanted: object, *told: object) -> None:
    _case.assertEqual(found, wanted, " ".join(map(str, told)) or None)


_lasting: list[tempfile.TemporaryDirectory[str]] = []


class Skip(Exception):
    """Why a test is not tried."""


def needs(is_there: object, why: str) -> None:
    """Skips the test where something is not there."""
    if not is_there:
        raise Skip(why)


@contextlib.contextmanager
def about(*told: object) -> Iterator[None]:
    """A failure within tells what it is about."""
    try:
        yield
    except AssertionError as failure:
        raise AssertionError(f"{' '.join(map(str, told))}: {failure}") from failure


def found() -> pathlib.Path:
    """The built program, or else that of release/, unpacked, which is told."""
    if BUILT[0].is_file():
        return BUILT[0]
    made = lasting_folder() / "pc-sim"
    made.write_bytes(lzma.decompress((ROOT / "release/pc-sim.xz").read_bytes()))
    made.chmod(0o755)
    print("no program is built here: that of release/ is tested, which may be of other sources", file=sys.stderr)
    return made


# Runs

def run(*words: object, given: str | None = None, **more: Any) -> subprocess.CompletedProcess[str]:
    """What a command comes to that is given a text as its standard input; `text=False` has it in bytes."""
    pipes: dict[str, Any] = dict.fromkeys(("stdout", "stderr"), subprocess.PIPE)
    how = pipes | {"text": True, "timeout": SECONDS} | ({} if "stdin" in more else {"input": given}) | more
    return subprocess.run([word if isinstance(word, bytes) else str(word) for word in words], **how)


def ask(*words: object, given: str | None = "", **more: Any) -> subprocess.CompletedProcess[str]:
    """What the program that is tested comes to."""
    return run(program, *words, given=given, **more)


def replay(script: str) -> str:
    """What the program that is tested answers to a script."""
    return ask("replay", given=script).stdout


def outcome(ended: subprocess.CompletedProcess[Any]) -> tuple[int, Any, Any]:
    return ended.returncode, ended.stdout, ended.stderr


def good(ended: subprocess.CompletedProcess[Any], *told: object) -> Any:
    """What a run wrote that ended well and said nothing else."""
    same((ended.returncode, ended.stderr), (0, "" if isinstance(ended.stderr, str) else b""), *told)
    return ended.stdout


@contextlib.contextmanager
def folder() -> Iterator[pathlib.Path]:
    """A folder that is gone afterwards."""
    with tempfile.TemporaryDirectory(ignore_cleanup_errors=True) as name:
        yield pathlib.Path(name)


def lasting_folder() -> pathlib.Path:
    """A folder that is gone when the tests end."""
    made = tempfile.TemporaryDirectory(ignore_cleanup_errors=True)
    _lasting.append(made)
    pathlib.Path(made.name).chmod(0o755)
    return pathlib.Path(made.name)


@contextlib.contextmanager
def file(text: str | bytes, name: str = "text") -> Iterator[pathlib.Path]:
    """A file with a text, in a folder of its own."""
    with folder() as place:
        (place / name).write_bytes(text.encode() if isinstance(text, str) else text)
        yield place / name


def put_command(path: pathlib.Path, text: str) -> None:
    """A file that can be started."""
    path.write_text(text)
    path.chmod(0o755)


def in_threads(do: Callable[[Any], Any], every: Iterable[Any], at_once: int = 4) -> list[Any]:
    """What comes of each, some of them at once."""
    with concurrent.futures.ThreadPoolExecutor(at_once) as pool:
        return list(pool.map(do, every))


# Counting

@dataclass
class Tally:
    """What passed, failed and was skipped."""

    passed: int = 0
    failed: int = 0
    skipped: int = 0

    def add(self, name: str, fault: str | None, skips: bool = False) -> None:
        self.passed += fault is None
        self.failed += fault is not None and not skips
        self.skipped += skips
        if fault is not None:
            print(f"{'skipped' if skips else 'FAILED'}: {name}: {fault}", flush=True)

    def last_line(self) -> int:
        """Prints the line that tells all; the exit status."""
        print(f"{self.passed} passed, {self.failed} failed" + (f", {self.skipped} skipped" if self.skipped else ""))
        return 1 if self.failed else 0


def fault_of(test: Callable[[], object]) -> tuple[str | None, bool]:
    """What is wrong by a test, if anything is; or why it is skipped."""
    try:
        test()
    except Skip as why:
        return str(why), True
    except Exception as failure:
        frames = traceback.extract_tb(failure.__traceback__)
        own = next((it for it in reversed(frames) if "unittest" not in it.filename and it.filename != __file__), frames[-1])
        locals_of: dict[str, Any] = next((frame.f_locals for frame, line in traceback.walk_tb(failure.__traceback__) if line == own.lineno), {})
        at = f"{pathlib.Path(own.filename).name}:{own.lineno}: {own.line}"
        seen = "" if str(failure) else "".join(f"\n    {name} = {reprlib.repr(it)}" for name, it in locals_of.items())
        return f"{type(failure).__name__} at {at}\n    {failure}{seen}", False
    return None, False


def each(rows: dict[str, Any]) -> Callable[[Any], Any]:
    """Makes a test of each row of a table, which is given its cells."""
    def marked(test: Any) -> Any:
        test.rows = rows
        return test

    return marked


def cases(name: str) -> dict[str, tuple[str, list[str], dict[str, list[str]]]]:
    """The cases of a text of tests/: `### NAME | WORDS` stands above what is given, and `=== PART` above the lines that are wanted of a part."""
    found = {}
    for title, text in re.findall(r"^### (.*)\n((?:(?!### ).*\n)*)", (ROOT / "tests" / name).read_text(), re.M):
        case, _, words = title.partition(" | ")
        given, *parts = re.split(r"^=== ", text.rstrip("\n") + "\n", flags=re.M)
        assert case not in found, f"{name} has two cases `{case}`"
        found[case] = given, words.split(), {head: lines for head, *lines in map(str.splitlines, parts)}
    assert found, f"no case in {name}"
    return found


def given(make: Callable[[pathlib.Path], Any], test: Callable[..., object], *cells: object) -> None:
    """Tries the test with what is made in a folder of its own, and with cells of a table."""
    with folder() as top:
        it = make(top)
        try:
            test(it, *cells)
        finally:
            getattr(it, "end", lambda: None)()


def tests_in(names: dict[str, Any], *modules: object) -> list[Test]:
    """The tests of a file, and of further modules. Where the file has a FIXTURE, each test is given what that makes of an empty folder."""
    made, tests = names.get("FIXTURE"), list[Test]()
    for name, it in [row for table in (names, *map(vars, modules)) for row in table.items() if row[0].startswith("test_")]:
        rows = {f"{name}: {row}": cells for row, cells in it.rows.items()} if hasattr(it, "rows") else {name: ()}
        tests += [(name, partial(given, made, it, *cells) if made else partial(it, *cells)) for name, cells in rows.items()]
    return tests


def add_scripts(add: Callable[..., object]) -> None:
    """The words that tell how many scripts are drawn."""
    add("--scripts", type=int, default=300, metavar="NUMBER")
    add("--all", dest="scripts", action="store_const", const=10_000)


_tests: list[Test] = []


def _fault_at(place: int) -> tuple[str | None, bool]:
    return fault_of(_tests[place][1])


def main(
    about_it: str | None, tests: list[Test] | Callable[[], list[Test]],
    add_words: Callable[[Any], object] = lambda add: None, *,
    at_once: int = 1, both: bool = False, before: Callable[[Tally], object] = lambda tally: None,
) -> NoReturn:
    """Tries all, some at once in processes, and ends; `both`: with each program of the gate, where none is named."""
    global program, options
    parser = argparse.ArgumentParser(description=about_it, formatter_class=argparse.RawDescriptionHelpFormatter)
    parser.add_argument("--program", type=pathlib.Path, help="test this program, as `rt run` leaves it")
    parser.add_argument("--test", action="append", help="try the tests of this name alone")
    add_words(parser.add_argument)
    options = parser.parse_args()
    tally = Tally()
    before(tally)
    for program in [options.program.resolve()] if options.program else BUILT if both else [found()]:
        os.environ["PC_SIM"] = str(program)
        every = tests() if callable(tests) else tests
        _tests[:] = [test for test in every if not options.test or test[0] in options.test]
        if at_once > 1:
            with concurrent.futures.ProcessPoolExecutor(at_once, multiprocessing.get_context("fork")) as pool:
                ends = list(pool.map(_fault_at, range(len(_tests))))
        else:
            ends = [_fault_at(place) for place in range(len(_tests))]
        if not _tests:
            tally.add("tests", "none has this name")
        for (name, _), (fault, skips) in zip(_tests, ends):
            tally.add(f"{name} ({program.name})" if both else name, fault, skips)
    sys.exit(tally.last_line())

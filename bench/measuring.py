"""What the measurements share: their command lines and tables, and one run of a program, measured, which needs GNU time (/usr/bin/time)."""
import argparse
import functools
import os
import pathlib
import resource
import signal
import subprocess
import threading
import time
from dataclasses import dataclass

HERE = pathlib.Path(__file__).resolve().parent
BUILT = HERE.parent / "crates/pc_sim/out/pc_sim"


def parser_of(about, program=True):
    """A parser of a command line, with `--program`, unless it is left out."""
    parser = argparse.ArgumentParser(description=about, formatter_class=argparse.RawDescriptionHelpFormatter)
    if program:
        parser.add_argument("--program", type=pathlib.Path, help="the program, as it stands (without it the one that ./pc-sim builds)")
    return parser


def program_of(named=None):
    """The program that is named, or the one that ./pc-sim builds."""
    if not named:
        subprocess.run([HERE.parent / "pc-sim", "--help"], check=True, stdout=subprocess.DEVNULL)
    return pathlib.Path(named or BUILT).resolve()


def print_row(cells):
    print(f"| {' | '.join(cells)} |", flush=True)


def print_head(heads):
    print_row(heads)
    print(f"|{'---|' * len(heads)}")


def add_settings(parser, every, sizes, usual):
    """Words for the names of some settings, and for their sizes."""
    parser.add_argument("--sizes", type=lambda text: text.split(","), default=usual, help="of settings", metavar="SIZE,..")
    parser.add_argument("names", nargs="*", default=list(every), metavar="NAME")
    parser.set_defaults(there={*every, *sizes})


def options_of(parser):
    """The options, with settings that are there."""
    options = parser.parse_args()
    if unknown := [it for it in [*options.names, *options.sizes] if it not in options.there]:
        parser.error(f"there is no {', '.join(unknown)}")
    return options


@dataclass
class Run:
    """Seconds, and KiB at most; and how it ended, where it did not end well: its figures are none then."""

    wall: float
    processor: float
    memory: int
    fault: str = ""


def measured(words, output, seconds=None, address_space=None):
    """Runs a command whose output goes into a file, for so many seconds and in so many bytes of address space at most.

    Standard error goes nowhere, so that no terminal is told how far a run is."""
    bound = functools.partial(resource.setrlimit, resource.RLIMIT_AS, (address_space,) * 2) if address_space else None
    # A child's greatest memory counts what it was before it became the program: GNU time is small, this interpreter is not.
    memory = output.with_suffix(".memory")
    with open(output, "wb") as out:
        timed = ["/usr/bin/time", "-q", "-f", "%M", "-o", str(memory), *map(str, words)]
        began = time.perf_counter()
        none = subprocess.DEVNULL
        child = subprocess.Popen(timed, stdin=none, stdout=out, stderr=none, start_new_session=True, preexec_fn=bound)
        late = threading.Event()

        def end():
            late.set()
            os.killpg(child.pid, signal.SIGKILL)

        watch = threading.Timer(seconds or threading.TIMEOUT_MAX, end)
        try:
            watch.start()
            _, status, usage = os.wait4(child.pid, 0)
        except BaseException:
            os.killpg(child.pid, signal.SIGKILL)
            raise
        finally:
            watch.cancel()
        wall = time.perf_counter() - began
    child.returncode = os.waitstatus_to_exitcode(status)
    if late.is_set():
        return Run(wall, 0, 0, f"no end within {seconds:g} s")
    if child.returncode != 0:
        return Run(wall, 0, 0, f"status {child.returncode}")
    return Run(wall, usage.ru_utime + usage.ru_stime, int(memory.read_text()))


def usual(runs):
    """The first quartile of seconds, and the median of memory, of runs that all ended well.

    Of scripts that take some milliseconds the least run is luck, and the system counts memory in batches of pages."""
    last = len(runs) - 1
    wall, processor, memory = (sorted(getattr(run, name) for run in runs) for name in ("wall", "processor", "memory"))
    return Run(wall[int(0.25 * last)], processor[int(0.25 * last)], memory[int(0.5 * last)])


def best(runs):
    """The least seconds and the most memory of runs, or the first that did not end well."""
    bad = next((run for run in runs if run.fault), None)
    return bad or Run(min(run.wall for run in runs), min(run.processor for run in runs), max(run.memory for run in runs))

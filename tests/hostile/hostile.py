#!/usr/bin/env python3
"""Uses the built program as a hostile machine would: refuses each growth in turn, fails its reads and writes, and feeds it drawn texts.

The short form takes less than a minute for a program; the long one tries every growth and many more texts. What each part does, and what
was found, stands in docs/HOSTILE.md. A C compiler has to be there. The last line is 'N passed, M failed', which the status tells too.
"""
import argparse
import os
import pathlib
import shlex
import sys
import tempfile
import time
from dataclasses import dataclass
from functools import partial

sys.path.insert(0, str(pathlib.Path(__file__).resolve().parent.parent))

import loads
import rig  # noqa: E402
import settings
from calls import refuse_in_calls
from fuzz import fault_of_drawn_growth, fault_of_script
from growths import bound_stack, refuse_growths, refuse_memory
from machine import Machine, NoCompiler, Tally
from started import start_launcher
from streams import disturb_streams
from subjects import examples, generated, greatest, replayed


@dataclass(frozen=True)
class Form:
    """How much is tried."""

    growths: int  # of each subject
    bytes_moved: int  # reads and writes of one byte of each subject
    scripts: int  # drawn ones
    lines: int  # of each generated script; with 0 there is none
    of_generated: int  # growths of each of these
    step: int  # of the address space
    settings: int  # growths of each row of settings; and a tenth of the drawn scripts are as many drawn settings, and drawn loads


SHORT = Form(growths=12, bytes_moved=12, scripts=600, lines=0, of_generated=0, step=2**19, settings=3)
LONG = Form(growths=600, bytes_moved=200, scripts=20000, lines=10000, of_generated=60, step=2**14, settings=100)


def parts_of(machine, tally, options):
    """Each part by its name."""
    form, folder = SHORT if options.short else LONG, machine.folder
    scripts = options.count if options.count is not None else form.scripts
    peer = Machine(options.peer, folder) if options.peer else None

    def subjects():
        return [it for it in replayed(folder) if options.command is None or it.words[:1] == [options.command]]

    def use(name, fault, every):
        """A run on each of these texts, which are named, or drawn by their numbers."""
        tally.try_all((f"{name} {it}", partial(fault, machine, it)) for it in every)

    parts = {
        "growths": lambda: refuse_growths(machine, tally, subjects(), form.growths),
        "growths of long scripts": lambda: refuse_growths(machine, tally, generated(folder, form.lines), form.of_generated),
        "stack": lambda: bound_stack(machine, tally, [*subjects(), *(greatest(folder) if form.lines else [])]),
        "memory": lambda: refuse_memory(machine, tally, list(examples()), form.step),
        "streams": lambda: disturb_streams(machine, tally, folder, form.bytes_moved),
        "scripts": lambda: use("script", partial(fault_of_script, peer=peer), range(scripts)),
        "drawn growths": lambda: use("drawn growth of script", fault_of_drawn_growth, range(scripts // 2)),
        "settings": lambda: settings.use_rows(machine, tally, form.settings),
        "drawn settings": lambda: use("settings", settings.fault_of_drawn, range(scripts // 10)),
        "drawn loads": lambda: use("load", loads.fault_of_drawn, range(scripts // 10)),
        "worst loads": lambda: use("worst load", loads.fault_of_worst, loads.WORST),
        "launcher": lambda: start_launcher(tally),
    }
    left_out = set() if form.lines else {"growths of long scripts"}
    return {name: part for name, part in parts.items() if name in (options.part or parts) and name not in left_out}


def use_program(program, options):
    """Uses one program, and answers what came of it."""
    rig.program = program
    os.environ["PC_SIM"] = str(program)
    form = "--short " if options.short else ""
    repeat = f"python3 tests/hostile/hostile.py {form}--program {shlex.quote(str(program))}"
    tally = Tally(repeat, options.only, options.jobs)
    with tempfile.TemporaryDirectory(prefix="hostile-") as folder:
        for name, part in parts_of(Machine(program, folder), tally, options).items():
            tally.repeat = f"{repeat} --part {shlex.quote(name)}"
            before, began = tally.passed + tally.failed, time.perf_counter()
            part()
            count = tally.passed + tally.failed - before
            print(f"{program.name}, {name}: {count} runs and comparisons in {time.perf_counter() - began:.0f} s", flush=True)
    return tally


def use_calls(options):
    """Makes the single calls of the libraries, which no program is asked for."""
    tally = Tally("python3 tests/hostile/hostile.py --calls", options.only, options.jobs)
    with tempfile.TemporaryDirectory(prefix="hostile-") as folder:
        began = time.perf_counter()
        refuse_in_calls(tally, folder)
        print(f"single calls: {tally.passed + tally.failed} runs in {time.perf_counter() - began:.0f} s", flush=True)
    return tally


def uses_of(options):
    """What is used, by name: each program, and the single calls in the long form."""
    if not options.calls:
        for program in options.program or rig.BUILT:
            yield program.name, lambda program=program: use_program(program.resolve(), options)
    if options.calls or not (options.short or options.part or options.only or options.program):
        yield "single calls", lambda: use_calls(options)


def main():
    parser = argparse.ArgumentParser(description=__doc__, formatter_class=argparse.RawDescriptionHelpFormatter)
    parser.add_argument("--program", type=pathlib.Path, action="append", help="a built program (without one: both that the gate builds)")
    parser.add_argument("--short", action="store_true", help="the form that ./test runs")
    parser.add_argument("--calls", action="store_true", help="single calls of the libraries alone, which the long form makes too (needs rt)")
    parser.add_argument("--part", action="append", help="this part alone")
    parser.add_argument("--command", help="of the growths and the stack this command's subjects alone: replay, run")
    parser.add_argument("--only", help="this run alone, by the name that a failure has")
    parser.add_argument("--count", type=int, help="so many drawn scripts")
    parser.add_argument("--peer", type=pathlib.Path, help="another program of the same formats: its answers to drawn scripts are compared")
    parser.add_argument("--jobs", type=int, default=os.cpu_count() or 1, help="runs at once")
    options = parser.parse_args()
    whole = rig.Tally()
    for name, run in uses_of(options):
        try:
            tally = run()
            whole.passed, whole.failed = whole.passed + tally.passed, whole.failed + tally.failed
        except (NoCompiler, OSError) as error:
            whole.add(name, str(error))
    if options.only and whole.passed + whole.failed == 0:
        whole.add("--only", f"no run is named {options.only!r}")
    return whole.last_line()


if __name__ == "__main__":
    sys.exit(main())

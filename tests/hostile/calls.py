"""Single calls of the libraries, each growth refused in turn: calls/main.rt.in, which `rt try` builds and runs, looks at what they left.

Its sources end in .rt.in, since the gate lets .rt files stand in crates alone. It is built over a heap of the tests' own (calls/heap.c), for which the kit is laid out anew, by links, in a folder of its own.
"""
import collections
import os
import pathlib
import re
import shutil
import subprocess

from machine import HERE, ROOT, NoCompiler, build

NAME = "hostile_calls"
# So long the calls may take, once they are built: some seconds on a machine that does nothing else.
SECONDS = 900
SAID = re.compile(r"(\w+ \d+ (.*)): (\d+) refused of (\d+), (.*)")


def kit_with_own_heap(folder):
    """The command of a kit that is this one, but for its heap."""
    if (rt := shutil.which("rt")) is None:
        raise NoCompiler("rt is not on the path, so the single calls cannot be built")
    of_kit, own = pathlib.Path(rt).resolve().parent.parent, folder / "kit"
    for part in ("", "bin", "c"):
        (own / part).mkdir(parents=True)
        for path in (of_kit / part).iterdir():
            if path.name not in ("bin", "c", "liblibc_c.a"):
                (own / part / path.name).symlink_to(path)
    for name in ("rt", "rtlib.py"):  # They find the kit by the folder that they really stand in.
        (own / "bin" / name).unlink()
        shutil.copy(of_kit / "bin" / name, own / "bin")
    build(HERE / "calls/heap.c", folder / "heap.o", "-c", "-fPIC")
    archived = subprocess.run(["ar", "rc", str(own / "c/liblibc_c.a"), str(folder / "heap.o")], capture_output=True, text=True)
    if archived.returncode != 0:
        raise NoCompiler(f"ar: {archived.stderr[:400]}")
    return own / "bin/rt"


def crate_of_calls(folder):
    """The folder of the crate that makes the calls, in a tree of its own with all crates."""
    shutil.copytree(ROOT / "crates", folder / "crates", ignore=shutil.ignore_patterns("out", "must-fail", "wrong-bodies"))
    source = folder / "crates" / NAME / "src"
    source.mkdir(parents=True)
    for path in (HERE / "calls").glob("*.rt.in"):
        shutil.copy(path, source / path.name.removesuffix(".in"))
    lines = (ROOT / "crates.txt").read_text().splitlines()
    names = [re.match(r"\w+", line)[0] for line in lines if re.match(r"pc_\w+.*:", line)]
    above = {"pc_settings", "pc_explain", "pc_pen", "pc_draw", "pc_program", "pc_sim", "pc_example", "pc_replayed", "pc_tests", "pc_tests_agents", "pc_tests_program", "pc_tests_rank"}
    libraries = [name for name in names if name not in above]
    (folder / "crates.txt").write_text("\n".join([*lines, f"{NAME}: {' '.join(libraries)} thiserror", ""]))
    return folder / "crates" / NAME


def refuse_in_calls(tally, folder):
    """Makes each call with each of its growths refused. Each name has to be met by want of memory somewhere."""
    folder = pathlib.Path(folder) / "calls"
    folder.mkdir()
    rt, crate = kit_with_own_heap(folder), crate_of_calls(folder / "tree")
    # The program calls a C function of heap.c, which rt lets through for the crate that is named.
    environment = {**os.environ, "RT_ALLOW_C": NAME}
    run = subprocess.run([str(rt), "try", "--seconds", str(SECONDS)], cwd=crate, env=environment, stdin=subprocess.DEVNULL, capture_output=True, text=True)
    rows = [SAID.fullmatch(line) for line in run.stdout.splitlines()]
    if run.returncode != 0 or not rows or not all(rows):
        raise NoCompiler(f"`rt try` does not run the single calls to their end: {(run.stdout + run.stderr)[-3000:]}")
    met = collections.Counter()
    for call, name, refused, growth, said in map(re.Match.groups, rows):
        met[name] += int(refused)
        tally.add(f"call {call}", None if said == "right" else f"{said} (growth {growth})")
    for name, refused in met.items():
        tally.add(f"calls of {name}", None if refused or name in TAKE_NO_MEMORY else "no growth was refused in any")
    told = ", ".join(f"{name} {count}" for name, count in met.items())
    print(f"calls that were made again after a refused growth: {told}", flush=True)


# A message that closes a gap takes no memory.
TAKE_NO_MEMORY = ("View::insert a message that closes a gap",)

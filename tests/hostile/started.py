"""Starts of the launcher where it can put, unpack, build or start no program: each ends with status 5 and why, and leaves nothing."""
from functools import partial

import rig
from launcher_tests import Launcher


# What is done to a tree whose release/ has a program of its sources, what is started there, and whether a program could be built.
STARTS = {
    "a folder in the program's place": (lambda it: it.program.mkdir(parents=True), "pc-sim", False),
    "a queue in the program's place": (lambda it: it.put_queue("crates/pc_sim/out/pc_sim"), "pc-sim", True),
    "a file in its folder's place": (lambda it: it.program.parent.write_text(""), "pc-sim", False),
    "a program that is none": (lambda it: it.put_program("#!/no/such/command\n"), "pc-sim", True),
    "a queue in place of what is unpacked": (lambda it: it.put_queue("release/pc-sim.xz"), "pc-sim", False),
    "a queue in place of the lock": (lambda it: it.put_queue("release/SUMS", ".build.lock"), "pc-sim", True),
    "files that may not grow": (Launcher.put_bounded, "bounded", False),
    "a build where files may not grow": (lambda it: it.put_queue("release/SUMS") or it.put_bounded(), "bounded", True),
}


def fails(it, change, command, has_kit):
    it.put_release()
    it.forget_calls()
    change(it)
    if not has_kit:
        (it.bin / "rt").unlink()
    status, out, errors = it.run_it(command=command)
    rig.same((status, out), (5, ""), errors)
    rig.matches(errors, r"(?m)^pc-sim: .*\n\Z")
    left = [*it.temporary.iterdir(), *it.program.parent.glob("*.[0-9]*"), *it.tree.glob(".trees")]
    rig.same((left, it.calls()[0]), ([], []))


def start_launcher(tally):
    """Starts the launcher in each such tree: one by one, since a thread that starts a command lends it the files that others write."""
    for name, row in STARTS.items():
        if tally.wants(f"start with {name}"):
            fault, skips = rig.fault_of(partial(rig.given, Launcher, fails, *row))
            tally.add(f"start with {name}", None if skips else fault)

#!/usr/bin/env python3
"""Tests the packages that `tools/package` makes: their bytes, what they hold, and the program in a root of its own."""
import filecmp
import functools
import gzip
import os
import pathlib
import re
import shutil
import subprocess
import sys
import tempfile
from typing import Any

import rig
from rig import ROOT, good, needs, outcome, run, same

DATE = 1_700_000_000
NOBODY = 65_534
# Of an installed root: the example, what it is told to do, and what it prints.
EXAMPLES = [("replay", "first-run.script", "first-run.output"),
            ("run", "steals-and-restarts.toml", "steals-and-restarts.output")]
# Of both packages, below usr or the archive's folder.
FILES = ["bin/pc-sim-record-loads", "bin/pc-sim-sweep", "share/pc-sim/load_kinds.py",
         "share/doc/pc-sim/docs/pictures/crash-and-steal.png"]
# Pages that are made, and a line of each.
MADE = {"DEFINITIONS.md": "## `pc_kernel`", "CLAUSES.md": "- `World::mend`:",
        "WALK_THROUGH.md": "| `steal 1` | `ok t0 q1` |  |  |"}
IMAGE_OR_PAGE = re.compile(r"\]\(([\w./-]+)\)")
TYPED_TOOL = re.compile(r"^    (?:\$ )?tools/([\w-]+)", re.MULTILINE)


def pack(to: pathlib.Path, program: pathlib.Path | None = None) -> subprocess.CompletedProcess[str]:
    words = [ROOT / "tools/package", "--program", program or rig.program, "--to", to]
    return run(*words, env={**os.environ, "SOURCE_DATE_EPOCH": str(DATE)})


@functools.cache
def made() -> tuple[pathlib.Path, pathlib.Path]:
    """The package, and the archive."""
    package, archive = good(pack(rig.lasting_folder() / "one")).splitlines()
    return pathlib.Path(package), pathlib.Path(archive)


def top() -> pathlib.Path:
    return made()[0].parent.parent


def unpacked(is_package: bool) -> tuple[pathlib.Path, pathlib.Path]:
    """A root with the package, or the archive, and the folder there that has `bin` and `share`."""
    root, (package, archive) = pathlib.Path(tempfile.mkdtemp(dir=top())), made()
    root.chmod(0o755)
    if is_package:
        good(run("dpkg-deb", "-x", package, root))
        return root, root / "usr"
    good(run("tar", "-xJf", archive, "-C", root))
    return root, root / archive.name.removesuffix(".tar.xz")


BOTH = rig.each({"package": (True,), "archive": (False,)})


def test_two_runs_give_the_same_bytes() -> None:
    same(pack(top() / "two").returncode, 0)
    names = [*(it.name for it in made()), "SHA256SUMS"]
    alike, other, missing = filecmp.cmpfiles(top() / "one", top() / "two", names, shallow=False)
    same((sorted(alike), other, missing), (sorted(names), [], []))


def test_the_sums_are_right() -> None:
    ended = run("sha256sum", "--check", "--strict", "SHA256SUMS", cwd=top() / "one")
    same((ended.returncode, len(ended.stdout.splitlines())), (0, 2), ended.stdout)


@BOTH
def test_a_root_with_nothing_but_it_runs_the_examples(is_package: bool) -> None:
    """Runs them as a user, where there is nothing else but bash and the libraries of both."""
    root, installed = unpacked(is_package)
    tried = run(sys.executable, "-c", f"import os; os.chroot({str(root)!r}); os.setuid({NOBODY})")
    needs(tried.returncode == 0, "the root cannot be changed here")
    bash = shutil.which("bash")
    for word in [bash, *re.findall(r"(/\S+)(?<!:)\s", run("ldd", rig.program, bash).stdout)]:
        place = root / word.lstrip("/")
        place.parent.mkdir(parents=True, exist_ok=True)
        shutil.copy(word, place)
    there, here = root / "home", root / "here"
    for place in (there, here):
        place.mkdir()
    os.chown(there, NOBODY, NOBODY)
    (here / "pc-sim").symlink_to(rig.program)
    below = pathlib.Path("/", installed.relative_to(root))
    (there / "examples").symlink_to(below / "share/doc/pc-sim/examples")
    (here / "examples").symlink_to(ROOT / "examples")

    def enter() -> None:
        os.chroot(root)
        os.chdir("/home")
        os.setgid(NOBODY)
        os.setuid(NOBODY)

    def typed(line: str) -> Any:
        return good(run(bash, "-c", line, preexec_fn=enter, env={"PATH": str(below / "bin")}), line)

    for command, given, wanted in EXAMPLES:
        same(typed(f"pc-sim {command} examples/{given}"), (installed / "share/doc/pc-sim/examples" / wanted).read_text(), given)
    # The first three commands of README.md, without the one that folds their lines.
    examples = re.findall(r"^    \./(pc-sim .*)$", (ROOT / "README.md").read_text(), re.MULTILINE)
    lines = [line.partition(" |")[0] for line in examples[:3]]
    same([line.split()[1] for line in lines], ["explain", "draw", "run"])
    for line in lines:
        own = run(bash, "-c", line, cwd=here, env={"PATH": str(here)})
        same((typed(line), own.returncode), (own.stdout, 0), line)
    picture = (there / "picture.svg").read_text()
    same((picture[:4], picture), ("<svg", (here / "picture.svg").read_text()))


@BOTH
def test_what_documents_name_is_there(is_package: bool) -> None:
    """So are pages that no clone keeps, which are made."""
    _, installed = unpacked(is_package)
    for page in (installed / "share/doc/pc-sim").rglob("*.md"):
        text = page.read_text()
        named = [page.parent / it for it in IMAGE_OR_PAGE.findall(text)]
        named += [installed / f"bin/pc-sim-{it}" for it in TYPED_TOOL.findall(text)]
        same([it for it in named if not it.exists()], [], page)
    same([it for it in FILES if not (installed / it).exists()], [])
    for name, line in MADE.items():
        assert f"\n{line}" in (installed / "share/doc/pc-sim/docs" / name).read_text(), name


def test_a_walk_tells_what_each_agent_knows() -> None:
    """The rows were written by hand."""
    told, rows = good(run(sys.executable, ROOT / "tools/walk_through.py", rig.program, ROOT / "tests/walked.script")), ROOT / "tests/walked.rows"
    assert told.endswith("\n\n" + rows.read_text()), told


def test_the_licences_are_there() -> None:
    told = (unpacked(True)[1] / "share/doc/pc-sim/copyright").read_text()
    for words in ("License: Expat or Apache-2.0\n", " Permission is hereby granted, free of charge, "):
        assert words in told, told
    for name in ("LICENSE-APACHE", "LICENSE-MIT"):
        same((unpacked(False)[1] / "share/doc/pc-sim" / name).read_bytes(), (ROOT / name).read_bytes())


def test_the_tools_run_where_they_are_installed() -> None:
    _, installed = unpacked(True)
    environment = {"PATH": str(installed / "bin")}
    for tool in sorted(installed.glob("bin/pc-sim-*")):
        good(run(sys.executable, tool, "--help", env=environment))
    for tool, lab in (("sweep", "pc-sim lab"), ("record-loads", f"{installed}/bin/pc-sim lab")):
        script = f"import runpy; print(runpy.run_path({str(installed / 'share/pc-sim' / tool)!r})['usual_lab']())"
        told = run(sys.executable, "-c", script, env={**environment, "PYTHONPATH": str(installed / "share/pc-sim")})
        same(told.stdout, f"{lab}\n", told.stderr)


def files_of(root: pathlib.Path) -> set[pathlib.Path]:
    return {path for path in root.rglob("*") if "dpkg" not in path.parts}


def test_it_is_installed_and_removed_without_a_trace() -> None:
    needs(os.geteuid() == 0, "who is not root cannot install")
    root = top() / "installed"
    for name in ("var/lib/dpkg/info", "var/lib/dpkg/updates"):
        (root / name).mkdir(parents=True)
    for name in ("status", "available"):
        (root / "var/lib/dpkg" / name).touch()
    before = files_of(root)
    dpkg = ["dpkg", f"--root={root}", "--force-depends", "--force-script-chrootless", "--log=/dev/null"]
    ended = run(*dpkg, "-i", made()[0])
    same(ended.returncode, 0, ended.stderr)
    assert os.access(root / "usr/bin/pc-sim", os.X_OK)
    # A tool and the client, so that Python keeps what it compiled beside them.
    modules = root / "usr/lib/python3/dist-packages"
    for words in ([root / "usr/bin/pc-sim-from-perf-sched", "--help"], ["-c", "import nimhessian"]):
        good(run(sys.executable, *words, env={"PATH": "", "PYTHONPATH": str(modules)}))
    for folder in (root / "usr/share/pc-sim", modules / "nimhessian"):
        assert (folder / "__pycache__").is_dir(), folder
    ended = run(*dpkg, "-r", "pc-sim")
    same(ended.returncode, 0, ended.stderr)
    same(files_of(root), before)


def test_what_it_stands_on() -> None:
    rig.matches(run("dpkg-deb", "-f", made()[0], "Depends").stdout, r"\Alibc6 \(>= 2\.\d+\)(, libgcc-s1)?\n\Z")


def test_lintian_is_content() -> None:
    needs(shutil.which("lintian"), "no lintian here")
    ended = run("lintian", "--allow-root", "--fail-on", "error,warning", made()[0])
    same(ended.returncode, 0, ended.stdout + ended.stderr)


def test_the_archive_has_the_same_program_and_the_client() -> None:
    _, installed = unpacked(False)
    same((installed / "bin/pc-sim").read_bytes(), rig.program.read_bytes())
    told = run(installed / "bin/pc-sim", "--version", env={"PATH": ""}).stdout
    same(told.split()[:2], ["pc-sim", installed.name.split("-")[2]])
    assert b".TH PC-SIM" in gzip.decompress((installed / "share/man/man1/pc-sim.1.gz").read_bytes())
    for tool in (installed / "bin").glob("pc-sim-*"):
        told = good(run(sys.executable, tool, "--help"))
        assert told.startswith(f"usage: {tool.name} ") and "tools/" not in told, told
    if run(sys.executable, "-m", "pip", "--version").returncode == 0:
        words = [sys.executable, "-m", "pip", "install", "-q", "--no-index", "--target", top() / "python"]
        ended = run(*words, installed / "share/pc-sim/clients/python")
        same(ended.returncode, 0, ended.stderr)


def test_a_program_of_another_version_is_refused() -> None:
    other = top() / "other"
    rig.put_command(other, "#!/bin/sh\necho pc-sim 9.9.9\n")
    status, out, errors = outcome(pack(top() / "none", other))
    same((status, out), (1, ""))
    assert "another version than 9.9.9" in errors
    assert not (top() / "none").exists()


def test_a_program_that_is_not_there_is_refused() -> None:
    ended = pack(top() / "none", top() / "nowhere")
    same((ended.returncode, len(ended.stderr.splitlines())), (1, 1), ended.stderr)


if __name__ == "__main__":
    rig.main(__doc__, rig.tests_in(globals()))

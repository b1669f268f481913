#!/usr/bin/env python3
"""Tests that tools/record-loads opens the machine to nobody. Commands that stand in for the servers of its loads tell
who runs them, where, and with what words. Where it writes, others may have put links, or may put them yet."""
import os
import pathlib
import pwd
import re
import subprocess
from collections.abc import Callable
from typing import NamedTuple

import rig
from recording_tests import record, switch
from rig import good, needs, outcome, same

NOBODY = 65_534
RECORDING = switch(0, 0, 0, "R", 7) + switch(10, 0, 7, "R", 9) + switch(30, 0, 9, "S", 7) + switch(35, 0, 7, "S", 0)
WRITTEN = {"told", "load.toml", "waits", "rows.csv"}
STANDS_IN = (rig.ROOT / "tests/load_stand_in.sh").read_text()


# A command of a load.
Started = NamedTuple("Started", [(it, str) for it in ("name", "user", "folder", "mode", "owner", "words", "settings")])


def started(kind: str, *commands: str, umask: int = 0o022) -> list[Started]:
    """What a load starts, in this order."""
    with rig.folder() as top:
        top.chmod(0o755)
        noted = top / "noted"
        noted.touch()
        noted.chmod(0o666)
        for name in ("perf", *commands):
            rig.put_command(top / name, STANDS_IN.replace("NOTED", str(noted)))
        ended = record("--to", top / "to", kind, env={"PATH": f"{top}:/usr/bin:/bin"}, umask=umask)
        same(outcome(ended), (1, "", f"record-loads: {kind} is passed over: perf cannot record: no events\n"))
        rows = [Started(*line.split("|")) for line in noted.read_text().splitlines()]
    return [row for row in rows if row.name != "perf"]


def in_a_folder_of_their_own(rows: list[Started]) -> None:
    """No command is root's, and nobody but its user gets into the folder."""
    same({(row.mode, row.owner) for row in rows}, {("700", rows[0].user)})
    same({row.user for row in rows} - {rows[0].user, "0"}, set())
    assert rows[0].user != "0", rows[0]


def test_a_database_asks_who_calls() -> None:
    needs(os.geteuid() or "postgres" in {it.pw_name for it in pwd.getpwall()}, "there is no user postgres")
    rows = started("database", "initdb", "postgres", "pgbench")
    same(sorted(row.name for row in rows), ["initdb", "pgbench", "pgbench", "postgres"])
    in_a_folder_of_their_own(rows)
    words, folder = {row.name: row.words for row in rows}, rows[0].folder
    assert "trust" not in "".join(words.values()), words
    assert " --auth-local=peer --auth-host=reject " in words["initdb"], words
    for word in (f"unix_socket_directories={folder}", "unix_socket_permissions=0700", "listen_addresses="):
        assert f" -c {word} " in words["postgres"], (word, words)
    assert f"-h {folder} " in words["pgbench"], words


@rig.each({"usual": (0o022,), "files of root are for root alone": (0o077,)})
def test_a_site_is_served_by_no_root(umask: int) -> None:
    rows = started("web", "nginx", "wrk", umask=umask)
    same(sorted(row.name for row in rows), ["nginx", "nginx", "wrk", "wrk"])
    in_a_folder_of_their_own(rows)
    same({listens for row in rows for listens in re.findall(r"listen (.*?):\d+;", row.settings)}, {"127.0.0.1"})
    assert not any(re.search(r"\buser\b", row.settings) for row in rows), rows


def kept(top: pathlib.Path) -> pathlib.Path:
    """Makes a folder with a recording."""
    folder = top / "to/pool"
    for path in (top / "to", folder):
        path.mkdir(0o755)
    (folder / "recording.txt").write_text(RECORDING)
    return folder


def play(to: pathlib.Path, lab: object = None) -> subprocess.CompletedProcess[str]:
    return record("--to", to, "--keep", "--lab", f"{lab or rig.program} lab", "pool")


@rig.each({"symbolic": (os.symlink,), "hard": (os.link,)})
def test_what_a_link_leads_to_stays(link: Callable[[pathlib.Path, pathlib.Path], None]) -> None:
    with rig.folder() as top:
        folder, other = kept(top), top / "other"
        other.write_text("as it was")
        for name in WRITTEN:
            link(other, folder / name)
        good(play(top / "to"))
        same((other.read_text(), other.stat().st_nlink), ("as it was", 1))
        same({path.name for path in folder.iterdir()}, WRITTEN | {"recording.txt"})
        same([path.name for path in folder.iterdir() if path.is_symlink()], [])


def test_links_of_ones_own_are_gone_by() -> None:
    with rig.folder() as top:
        folder = kept(top)
        (folder / "recording.txt").rename(top / "recording")
        (folder / "recording.txt").symlink_to(top / "recording")
        (top / "link").symlink_to("to")
        good(play(top / "link"))
        assert WRITTEN <= {path.name for path in folder.iterdir()}


def test_whoever_moves_its_folder_changes_nothing() -> None:
    """While the lab runs, a link comes in the folder's place."""
    with rig.folder() as top:
        folder, other, lab = kept(top), top / "other", top / "lab"
        other.mkdir()
        move = f"[ -e {top}/moved ] || {{ mv {folder} {top}/moved; ln -s {other} {folder}; }}"
        lab.write_text(f'{move}\nexec {rig.program} "$@"\n')
        good(play(top / "to", f"sh {lab}"))
        same(list(other.iterdir()), [])
        assert (top / "moved/rows.csv").is_file()


def given_away(path: pathlib.Path) -> None:
    """It becomes another user's, or a link of that user's leads to it."""
    os.chown(path, NOBODY, NOBODY, follow_symlinks=False)


def linked_by_another(path: pathlib.Path) -> None:
    path.rename(path.with_name("moved"))
    path.symlink_to("moved")
    given_away(path)


BELONGS, LINK, OTHERS = "{} belongs to another user; ", "`{}` is a link of another user", "others may write in {}; "


@rig.each({
    "all may write": ("to", lambda it: it.chmod(0o777), OTHERS, False),
    "all may write, and remove their own": ("to", lambda it: it.chmod(0o1777), OTHERS, False),
    "a group may write": ("to", lambda it: it.chmod(0o775), OTHERS, False),
    "all may write in a kind's": ("to/pool", lambda it: it.chmod(0o777), OTHERS, False),
    "another's": ("to", given_away, BELONGS, True),
    "a kind's is another's": ("to/pool", given_away, BELONGS, True),
    "another's link": ("to", linked_by_another, LINK, True),
    "a kind's is another's link": ("to/pool", linked_by_another, LINK, True),
    "a recording is another's link": ("to/pool/recording.txt", linked_by_another, LINK, True),
})
def test_a_folder_of_others_is_refused(
        name: str, change: Callable[[pathlib.Path], None], told: str, by_root: bool) -> None:
    needs(not by_root or os.geteuid() == 0, "who is not root cannot give files away")
    with rig.folder() as top:
        kept(top)
        change(top / name)
        before = sorted(top.rglob("*"))
        status, out, errors = outcome(play(top / "to"))
        same((status, out, sorted(top.rglob("*"))), (1, "", before), errors)
        of_it = str(top / "to") if name == "to" and told != LINK else pathlib.Path(name).name
        assert errors.startswith(f"record-loads: pool is passed over: {told.format(of_it)}"), errors


def test_a_link_of_another_on_the_way_is_refused() -> None:
    needs(os.geteuid() == 0, "who is not root cannot give files away")
    with rig.folder() as top:
        kept(top)
        (top / "to").rename(top / "moved")
        (top / "way").symlink_to(top)
        given_away(top / "way")
        told = "record-loads: pool is passed over: `way` is a link of another user\n"
        same(outcome(play(top / "way/new")), (1, "", told))
        assert not (top / "new").exists()


if __name__ == "__main__":
    rig.main(__doc__, rig.tests_in(globals()))

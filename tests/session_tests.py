#!/usr/bin/env python3
"""Tests sessions: scripts that are cut at random through a pipe, and conversations command by command.

Scripts are drawn: 300, or NUMBER, and 10,000 with --all. Each goes through `session` in pieces that are cut at random, and has to be
answered as the model of tools/kernel.py tells. Then come conversations over a pipe, each answer waited for before the next command is
sent; the lines `?` and `help`; what a terminal is told first; and how a session ends whose client dies. Others are cases of tests/cases.
"""
import os
import pty
import random
import re
import select
import subprocess
from collections.abc import Iterator
from functools import partial
from typing import Any

import rig
from kernel import forms, told_of
from machine import HINT
from rig import ROOT, SECONDS, outcome, same

MOST_LINE = 65_536
ENCLAVE = b"enclave 4 16 1000 64 100000"
FAULTS = [b"walk", b"tick", b"tick 0 0", b"version 2", b"policy fifo", b"\xff\xfe", b"wake t\x00", b" #", b"commit 0 t0", b"? ", b"help me", b" help", b"quit now"]
SILENT = [b"", b"   ", b"# a comment", b"#", b"\r"]
# Below which numbers those of a drawn command are: so it is often refused.
BELOW = dict.fromkeys("CQAB", 5) | dict.fromkeys(("RAN", "ASEQ", "NUMBER", "K"), 6) | {"T": 8, "MASK": 16, "LEVEL": 9}


def drawn_lines(chance: random.Random) -> list[bytes]:
    """The lines of a script: its enclave, commands of version 1, silent lines, and in some scripts faults."""
    faulty = chance.random() < 0.5
    lines = [chance.choice(SILENT) for _ in range(chance.randrange(3))]
    lines += [*[b"version 2"] * (chance.random() < 0.3), ENCLAVE]
    every = [form for form in forms() if form[0] not in ("enclave", "policy", "mend")]
    for _ in range(chance.randrange(120)):
        kind, form = chance.random(), chance.choice(every)
        words = (f"{'t' * (word == 'T')}{chance.randrange(BELOW[word])}" if word in BELOW else word for word in form)
        command = [" ".join(words).encode()]
        lines.append(chance.choice(SILENT if kind < 0.1 else FAULTS if kind < 0.2 and faulty else command))
    return lines


def pieces_of(text: bytes, chance: random.Random) -> Iterator[bytes]:
    """The text, cut at random: mostly within lines."""
    most, at = chance.choice([1, 7, 100, 4_000]), 0
    while at < len(text):
        size = chance.randrange(1, most + 1)
        yield text[at : at + size]
        at += size


def session(*words: object, text: bytes) -> tuple[int, bytes, bytes]:
    return outcome(rig.ask("session", *words, given=text, text=False))


def start(*words: str, **streams: Any) -> subprocess.Popen[bytes]:
    given = dict.fromkeys(("stdin", "stdout", "stderr"), subprocess.PIPE) | streams
    return subprocess.Popen([str(rig.program), "session", *words], bufsize=0, **given)


def in_pieces(text: bytes, chance: random.Random, *words: str) -> tuple[int, bytes, bytes]:
    """What a session makes of the text, as it comes in pieces."""
    talk = start(*words)

    def given() -> None:
        for piece in pieces_of(text, chance):
            talk.stdin.write(piece)
        talk.stdin.close()

    _, out, said = rig.in_threads(lambda do: do(), [given, talk.stdout.read, talk.stderr.read])
    return talk.wait(SECONDS), out, said


def plain(text: bytes) -> bytes:
    """What was written, without comments."""
    return b"".join(line for line in text.splitlines(keepends=True) if not line.startswith(b"#"))


def drawn_script_in_pieces(seed: int) -> None:
    chance = random.Random(seed)
    text = b"\n".join(drawn_lines(chance)) + chance.choice([b"", b"\n"])
    wanted, status = told_of(text, goes_on=True)
    *ended, said = in_pieces(text, chance)
    same(ended, [status, wanted.encode()])
    hint, fault = HINT.fullmatch(said), re.search(r"^fault line (\d+)$", wanted, re.M)
    same(hint and int(hint[1]), fault and int(fault[1]), said)
    if seed % 5 == 0:
        ended, explained, _ = in_pieces(text, chance, "--explain")
        same((ended, plain(explained)), (status, wanted.encode()))


def test_conversation() -> None:
    talk = start()
    for command, answer in {
        b"enclave 2 8 100 16 1000": b"ok", b"create 0 3 ready": b"ok t0 n1 q0 a1 wake -", b"walk": b"fault line 3",
        b"wake t7": b"refused UnknownThread", b"commit 0 t0 0": b"refused Stale 1", b"commit 0 t0 1": b"ok t0 c0",
        b"version 2": b"fault line 7",
    }.items():
        talk.stdin.write(command + b"\n")
        assert select.select([talk.stdout], [], [], SECONDS)[0], f"no answer to {command!r}"
        same(talk.stdout.readline(), answer + b"\n", command)
    talk.stdin.write(b"wake t9")
    assert not select.select([talk.stdout], [], [], 0.3)[0], "a line that is not whole was answered"
    talk.stdin.close()
    same(talk.stdout.read(), b"refused UnknownThread\n", "the last line")
    same(talk.wait(SECONDS), 1, "the status of a session with a fault")


def test_help() -> None:
    """The table is told of `?` and `help` alone, and names the commands of docs/FORMATS.md. The first fault names `?`."""
    status, out, said = session(text=b"?\nversion 2\nhelp\nenclave 1 65535 1 16 100\n?\r\n? \nhelp \nHELP\n")
    same((status, out), (1, b"ok\nok\n" + b"".join(b"fault line %d\n" % line for line in (6, 7, 8))))
    hint = b"pc-sim: line 6, `? `, is no command; ? lists the commands\n"
    said, behind = said[: -len(hint)], said[-len(hint) :]
    same((said.count(b"enclave CPUS"), behind), (3, hint))
    same(said[: len(said) // 3] * 3, said)
    told = (ROOT / "docs/FORMATS.md").read_text().split("## Commands")[1].split("A line of `show` is")[0]
    rows = [line.split(":")[0] for line in told.splitlines() if line.startswith("- `")]
    same({form.split(" ")[0] for row in rows for form in row.split("`")[1::2]}, {form[0] for form in forms()})
    begins = {line.split()[0] for line in said.decode().splitlines() if re.match("[a-z]", line)}
    same(begins - {"each", "of", "what"}, {form[0] for form in forms()})


def test_explained() -> None:
    """What an explained session writes between its answers is what an explained script has there."""
    text = b"version 3\n" + ENCLAVE + b"\ncreate 0 1 ready\npick 0 0\npublish 0\nconsume 0\npick 0 1\ncommit 0 t0 1\nmend 0\n"
    explained = rig.ask("explain", given=text, text=False).stdout
    assert explained.count(b"\n#") > 8, f"an explained script has no comments: {explained!r}"
    same(session("--explain", text=text)[1], explained)
    lines = session("--explain", text=ENCLAVE + b"\n" + b"x" * (MOST_LINE + 1) + b"\nwake t1\n")[1].splitlines()
    assert b"65536" in lines[lines.index(b"fault line 2") + 1], lines


def test_terminal() -> None:
    master, slave = pty.openpty()
    talk = start(stdin=slave, stderr=slave)
    os.close(slave)
    said = b""
    while b"script\r\n" not in said and select.select([master], [], [], SECONDS)[0]:
        said += os.read(master, 4_096)
    assert said.startswith(b"pc-sim: ") and b"?" in said and b"quit" in said, said
    os.write(master, b"enclave 1 1 1 1 1\n")
    same(talk.stdout.readline(), b"ok\n")
    os.write(master, b"\x04")
    same(talk.wait(SECONDS), 0)
    os.close(master)


def test_client_dies() -> None:
    """A client that dies within a line ends the input: that line is answered."""
    talk = start()
    client = subprocess.Popen(["bash", "-c", f"printf '{ENCLAVE.decode()}\\nwake t'; kill -9 $$"], stdout=talk.stdin)
    talk.stdin.close()
    same(client.wait(SECONDS), -9)
    same(talk.stdout.read(), b"ok\nfault line 2\n")
    same(talk.wait(SECONDS), 1)


def tests() -> list[rig.Test]:
    seeds = range(rig.options.scripts)
    return rig.tests_in(globals()) + [(f"script {seed}", partial(drawn_script_in_pieces, seed)) for seed in seeds]


if __name__ == "__main__":
    rig.main(__doc__, tests, rig.add_scripts, at_once=os.cpu_count() or 1)

#!/usr/bin/env python3
"""Accepted scripts that want the most memory, of at most 16 MiB, settings of at most 1 MiB, and loads of the lab of at most 16 MiB.

    worst.py NAME NUMBER ..            writes the script, the settings, or the load
    worst.py measure PROGRAM           runs PROGRAM on scripts that texts.toml names, and prints length, greatest
                                       memory, seconds, those of a processor, and how it ended
    worst.py measure-settings PROGRAM  the same of its settings, with 6 GiB of address space and a minute for each
    worst.py measure-loads PROGRAM     the same of its loads, with five minutes for each

    publishes N                  a queue of 65,536 items, published N times: each delta is kept
    answers N                    65,535 threads that one agent knows and another does not, answered N times
    early-answers POSTS N        so many early messages that one agent knows and another does not, answered N times
    threads AGENTS               65,535 threads that so many agents know
    early AGENTS POSTS           so many messages, all of them early, that so many agents know
    early-threads AGENTS EACH    65,535 threads of which so many agents know so many early messages each
    posts N                      so many messages that nobody knows

Settings, each as long as it may be; the first and `keys` and `tables` also of another length, as loads:
    dotted [BYTES]               keys of 80 parts: each part is a table of its own
    nested                       keys of 80 parts in each of 80 inline tables
    keys [BYTES], headers, rows  keys and headers that differ, headers of one list of tables
    arrays, lone-arrays          a list of empty lists, and of lists with a number in each
    tables [BYTES]               a list of tables with a key in each
    numbers, texts               a list of numbers, and of empty texts
    text, key, escapes           one text, one key, one text that is all escapes
    lines, comments              lines without a key
    steps                        one thread whose list of steps is longer than it may be
    lives CPUS THREADS ANYWHERE  so many threads, which share the steps that the text has room for, may run anywhere (1) or at home alone (0), and block
    restarts CPUS THREADS TURN   as that, and 64 restarts from that turn on, in turn of all agents but the first

Loads:
    blocks VARIANTS              blocks behind no tick, as many as there is room for, of threads of one CPU
    quanta THREADS VARIANTS      so many threads of one CPU take turns of a tick for as long as they may
    late NAMES UNTIL             two threads take turns of a tick, and 62 agents ask for them at each, too late. So many names stand before theirs
"""
import io
import itertools
import os
import pathlib
import resource
import select
import subprocess
import sys
import tempfile
import time
import tomllib
from functools import partial

ROOM = 65536
TEXTS = tomllib.loads((pathlib.Path(__file__).parent / "texts.toml").read_text())
WIDE = "version 2\nenclave 64 65535 16000000 65536 4294967295\n"


def posts(count):
    """Messages over as many queues as they need; of each queue one thread."""
    yield WIDE
    for queue in range(-(-count // ROOM)):
        yield f"create {queue} 1 ready\n"
        yield f"priority t{queue} 0\n" * (min(count - queue * ROOM, ROOM) - 1)


def created():
    """Threads, as many as may be, all of queue 0."""
    yield from (WIDE, "create 0 1 ready\n" * 65535, "publish 0\n")


def deliveries(agents, deltas):
    """So many agents, the last ones, take each of the deltas in."""
    yield from (f"deliver {agent} {delta}\n" for agent in range(64 - agents, 64) for delta in deltas)


def early(agents, count, answered=0):
    """The first message of each thread is sent apart, and never delivered."""
    yield WIDE
    queues = -(-count // (ROOM - 1))
    for queue in range(queues):
        yield f"create {queue} 1 ready\npublish {queue}\nconsume {queue}\n"
    for queue in range(queues):
        yield f"priority t{queue} 0\n" * min(count - queue * (ROOM - 1), ROOM - 1)
        yield f"publish {queue}\n"
    yield from deliveries(agents, range(queues, 2 * queues))
    yield "answer 63 62\n" * answered


def early_threads(agents, each):
    yield from created()
    yield "consume 0\n"
    for _ in range(each):
        yield from (f"priority t{thread} 0\n" for thread in range(65535))
        yield "publish 0\nconsume 0\n"
    yield from deliveries(agents, range(1, each + 1))


MOST_SETTINGS = 2**20
MOST_LOAD = 2**24


def filled(head, entry, tail="", most=MOST_SETTINGS):
    """As many entries as there is room for between a head and a tail. In each a number of its own stands for `#n`."""
    room = most - len(head) - len(tail)
    yield head
    for number in itertools.count():
        text = entry.replace("#n", f"{number:x}")
        room -= len(text)
        if room < 0:
            break
        yield text
    yield tail


NESTED = ".".join("a" * 80)


def living(cpus, threads, anywhere, tail=""):
    """Threads that share the steps that there is room for: blocks, and a die."""
    homes, everywhere = min(cpus, 63), min(2**cpus, 2**63) - 1
    heads = [f"{{queue={n % homes},mask={everywhere if anywhere else 2**(n % homes)},steps=[" for n in range(threads)]
    step, ending = '"block 0",', '"die 0"]},\n'
    room = MOST_SETTINGS - len(f"cpus={cpus}\nthread=[\n]\n{tail}") - sum(map(len, heads)) - threads * len(ending)
    each = min(999, room // (threads * len(step)))
    yield from (f"cpus={cpus}\nthread=[\n", *(head + step * each + ending for head in heads), "]\n" + tail)


def restarts(cpus, threads, turn):
    rows = "".join(f"[[restart]]\ncpu={1 + n % (cpus - 1)}\nturn={turn + n // (cpus - 1)}\n" for n in range(64))
    yield from living(cpus, threads, 0, rows)


def thread(queue, mask, steps, more=""):
    return f"{{queue={queue},mask={mask},steps=[{steps}]{more}}},\n"


def load(cpus, threads, variants, until=0):
    yield from (f"cpus={cpus}\nuntil={until}\nthread=[\n", *threads, "]\n" + variants)


def variants_of(count, keys):
    return "".join(f'[[variant]]\nname="{place}"\n{keys}\n' for place in range(count))


def blocks(count):
    """100,000 steps each, and what is left for the last."""
    step, ending, variants = '"block 0",', '"die 0"', variants_of(count, "order='fifo'")
    room = MOST_LOAD - len("".join(load(1, [], variants))) - len(thread(0, 1, ending))
    whole = thread(0, 1, step * 99_999 + ending)
    threads = [whole] * (room // len(whole)) + [thread(0, 1, step * (room % len(whole) // len(step)) + ending)]
    yield from load(1, threads, variants)


LONG = '"die 4294967295"'


def late(names, until):
    """All agents know as many dead threads. At tick 100 each but the first wakes once, and asks for what it heard of."""
    anywhere = 2**63 - 1
    threads = [thread(0, anywhere, '"die 0"')] * names + [thread(0, anywhere, LONG)] * 2
    threads += [thread(cpu, 2**cpu, '"die 0"', ",start=100") for cpu in range(1, 63)]
    yield from load(63, threads, variants_of(1, "quantum=1\ndelay=5"), until)


SCRIPTS = {
    "publishes": lambda count: [*posts(ROOM), "publish 0\n" * count],
    "answers": lambda count: [*created(), "answer 0 1\n" * count], "early-answers": partial(early, 1),
    "threads": lambda agents: [*created(), *deliveries(agents, [0])],
    "early": early, "early-threads": early_threads, "posts": posts,
}
SETTINGS = {
    **{name: partial(filled, *row) for name, row in TEXTS["longest"].items()},
    "dotted": lambda most=MOST_SETTINGS: filled("cpus=1\n", "#n" + ".a" * 79 + "=1\n", most=most),
    "nested": lambda: filled("cpus=1\n", f"#n{NESTED[1:]}=" + f"{{{NESTED}=" * 79 + "1" + "}" * 79 + "\n"),
    "keys": lambda most=MOST_SETTINGS: filled("cpus=1\n", "#n=1\n", most=most),
    "tables": lambda most=MOST_SETTINGS: filled("cpus=1\na=[", "{a=1},", "]\n", most),
    "lives": living,
    "restarts": restarts,
}
QUANTA = lambda threads, count: load(1, [thread(0, 1, LONG)] * threads, variants_of(count, "quantum=1"))
LOADS = {"blocks": blocks, "quanta": QUANTA, "late": late}
# What settings and loads may take, since some runs end only after hours.
MOST_MEMORY = 6 * 2**30
MOST_SECONDS = 60
MOST_SECONDS_OF_LOADS = 300


def write(words, out):
    out.writelines({**SCRIPTS, **SETTINGS, **LOADS}[words[0]](*map(int, words[1:])))


def load_text(words):
    """The text of a load, by its words."""
    write(words.split(), out := io.StringIO())
    return out.getvalue()


def bound():
    resource.setrlimit(resource.RLIMIT_AS, (MOST_MEMORY, MOST_MEMORY))


def taken(words, seconds, limit):
    """The greatest memory of a run in KiB, how long it took, so of a processor, and how it ended. It is ended after so many seconds."""
    began = time.perf_counter()
    with tempfile.TemporaryFile() as said:
        child = subprocess.Popen(words, stdout=subprocess.DEVNULL, stderr=said, preexec_fn=limit)
        descriptor = os.pidfd_open(child.pid)
        is_done, _, _ = select.select([descriptor], [], [], seconds)
        os.close(descriptor)
        took = time.perf_counter() - began
        if not is_done:
            child.kill()
        _, status, used = os.wait4(child.pid, 0)
        child.returncode = os.waitstatus_to_exitcode(status)
        said.seek(0)
        ended = said.read().decode().removeprefix("pc-sim: ").partition("\n")[0] or "done"
    if child.returncode < 0:
        ended = f"signal {-child.returncode}" if is_done else "not done"
    return used.ru_maxrss, took, used.ru_utime + used.ru_stime, ended


# By the first word what runs a text, for how many seconds at most, and what bounds it.
OF_SETTINGS, OF_LOADS = ("run", MOST_SECONDS, bound), ("lab", MOST_SECONDS_OF_LOADS, bound)
MEASURED = {"measure": ("replay",), "measure-settings": OF_SETTINGS, "measure-loads": OF_LOADS}


def measure(program, every, command, seconds=None, limit=None):
    """A line of the table for each script or settings."""
    print("| text | bytes | greatest memory | seconds | of a processor | ended |\n|---|---|---|---|---|---|")
    with tempfile.TemporaryDirectory() as name:
        file = pathlib.Path(name) / "text"
        for words in every:
            with open(file, "w", encoding="ascii") as out:
                write(words.split(), out)
            memory, took, used, ended = taken([program, command, str(file)], seconds, limit)
            print(f"| `{words}` | {file.stat().st_size:,} | {memory / 1024:,.0f} MiB | {took:.2f} | {used:.2f} | {ended} |", flush=True)


def main():
    words = sys.argv[1:]
    how = MEASURED.get(words[0]) if words else None
    if how and len(words) >= 2 and (words[0] != "measure" or len(words) == 2):
        measure(words[1], words[2:] or TEXTS["measured"][words[0]], *how)
    elif words and words[0] in {**SCRIPTS, **SETTINGS, **LOADS}:
        write(words, sys.stdout)
    else:
        sys.exit(__doc__)


if __name__ == "__main__":
    main()

#!/usr/bin/env python3
"""Tests expressions of ranks: the reader of tools/ranks.py, the functions of `tools/policy-to-c`, and crates/pc_rank.

Expressions are drawn, 1,000 or NUMBER, and 10,000 with --all, with spaces and parentheses that they need not. A small
program over pc_rank, tests/ranks.rt.in, is told what Python reads of each by the grammar's rules, and which ranks it
gives by whole numbers, and finds the same. Every fifth is a function in C too, which each compiler that is here makes:
10^6 ranks with --all. The stored texts that are no expressions, tests/malformed_ranks.txt, have their faults from the
grammar, by hand.
"""
import concurrent.futures
import functools
import itertools
import random
import re
import shutil
import subprocess
from collections import Counter
from collections.abc import Iterable, Iterator
from typing import Any, NamedTuple

import rig
from drawn_ranks import drawn, drawn_facts, past_limits, spoiled
from kernel import told_of as replayed
from rank_in_c import function_of, is_name
from ranks import LIMITS, LONGEST, WANTED, Expression, Facts, Fault, policy_of, ranking_of, read
from reference import lab
from rig import ROOT, good, needs, outcome, same
from tables import drawn_threads, thread, variant

TOOL = ROOT / "tools/policy-to-c"
NAME = "drawn_ranks"
# So many expressions rank the same threads; so many are those, and so many where expressions are no functions in C.
BATCH, THREADS, FEW = 100, 500, 4
SECONDS = 600
WARNS = ("-std=c11", "-O2", "-Wall", "-Wextra", "-Wconversion", "-Werror")
HEADERS = "#include <stdbool.h>\n#include <stdint.h>\n"
COMPILERS = [it for it in ("gcc", "clang") if shutil.which(it)]


# What is tried

class Batch(NamedTuple):
    """Texts, and the threads that the expression of each ranks."""

    threads: list[Facts]
    texts: list[str]
    trees: list[Expression]


def malformed() -> list[tuple[str, str, int]]:
    """The stored texts that are no expressions, each with its kind of fault, and the byte: there stands a mark."""
    rows = re.findall(r"^(\w+) (.*)$", (ROOT / "tests/malformed_ranks.txt").read_text(), re.M)
    assert all(text.count("^") == 1 for _, text in rows), rows
    return [(text.replace("^", ""), kind, len(text.partition("^")[0].encode())) for kind, text in rows]


@functools.cache
def whole() -> list[Batch]:
    """Expressions, each with a few threads."""
    batches = []
    for place, count in enumerate(shares(rig.options.expressions)):
        chance = random.Random(f"ranks {place}")
        rows = [drawn(chance) for _ in range(count)]
        threads = [drawn_facts(chance) for _ in range(FEW)]
        batches.append(Batch(threads, [text for text, _ in rows], [tree for _, tree in rows]))
    return batches


@functools.cache
def in_c() -> list[Batch]:
    """Expressions, each with many threads."""
    batches = []
    for place, count in enumerate(shares(rig.options.expressions // 5)):
        chance = random.Random(f"ranks in C {place}")
        trees = [drawn(chance)[1] for _ in range(count)]
        batches.append(Batch([drawn_facts(chance) for _ in range(THREADS)], [str(tree) for tree in trees], trees))
    return batches


@functools.cache
def doubtful() -> list[str]:
    """Texts of which most are no expressions."""
    chance = random.Random("doubtful ranks")
    texts = [spoiled(chance, drawn(chance)[0]) for _ in range(rig.options.expressions // 2)]
    return texts + [past_limits(chance) for _ in range(rig.options.expressions // 20)]


def shares(count: int) -> list[int]:
    return [min(BATCH, count - begin) for begin in range(0, count, BATCH)]


# What is told of it

def line_of(tree: Expression, threads: list[Facts]) -> str:
    """The ranks that it gives of threads; none is a dash."""
    return " ".join("-" if (rank := tree.rank(facts)) is None else str(rank) for facts in threads)


@functools.cache
def ranked() -> list[list[str]]:
    """The ranks of each batch that C has, by Python's integers."""
    return [[line_of(tree, batch.threads) for tree in batch.trees] for batch in in_c()]


def told_of(text: str) -> str:
    """What is read of a text, as the program over pc_rank is told it."""
    try:
        return f"read {read(text.encode())}"
    except Fault as fault:
        return f"fault {fault}"


def claims() -> Iterator[str]:
    """All that the program over pc_rank is asked: threads, texts, what is read of each, and ranks."""
    for batch in whole():
        yield from lines_of(batch.threads)
        for text, tree in zip(batch.texts, batch.trees):
            ranks = f"ranks {line_of(tree, batch.threads)}"
            yield from (f"text {text}", f"read {tree}", ranks, f"text {tree}", f"read {tree}", ranks)
    for batch, rows in zip(in_c(), ranked()):
        yield from lines_of(batch.threads)
        for tree, row in zip(batch.trees, rows):
            yield from (f"text {tree}", f"read {tree}", f"ranks {row}")
    for text in doubtful():
        yield from (f"text {text}", told_of(text))
    for text, kind, at in malformed():
        yield from (f"text {text}", f"fault {Fault(kind, at)}")


def lines_of(threads: list[Facts]) -> list[str]:
    return ["forget", *(f"facts {' '.join(map(str, facts))}" for facts in threads)]


# What is built

def judged() -> str:
    """What the program over pc_rank says of all claims. It is built in a tree of its own, unproved."""
    with rig.folder() as tree:
        unread = shutil.ignore_patterns("out", "wrong-bodies")
        shutil.copytree(ROOT / "crates/pc_rank", tree / "crates/pc_rank", ignore=unread)
        (tree / "crates" / NAME / "src").mkdir(parents=True)
        shutil.copy(ROOT / "tests/ranks.rt.in", tree / "crates" / NAME / "src/main.rt")
        own = re.search(r"^pc_rank:.*$", (ROOT / "crates.txt").read_text(), re.M)
        (tree / "crates.txt").write_text(f"{own[0]}\n{NAME}: pc_rank\n")
        words: list[object] = ["rt", "try", "--seconds", SECONDS]
        ended = rig.run(*words, given="\n".join([*claims(), ""]), cwd=tree / "crates" / NAME, timeout=SECONDS)
    assert ended.returncode == 0, f"`rt try` does not run it to its end: {(ended.stdout + ended.stderr)[-2_000:]}"
    return str(ended.stdout)


def compiled(compiler: str, trees: list[Expression], *words: str) -> str:
    """The program of these expressions, which a compiler made without a warning."""
    made = rig.lasting_folder() / "made"
    with rig.file(source_of(trees), "ranks.c") as path:
        ended = rig.run(compiler, *WARNS, *words, path, "-o", made, timeout=SECONDS)
    same((ended.returncode, ended.stderr[:4_000]), (0, ""), compiler)
    return str(made)


@functools.cache
def under_way() -> dict[str, concurrent.futures.Future[str]]:
    """What is built for all expressions, all at once."""
    pool, trees = concurrent.futures.ThreadPoolExecutor(4), [tree for batch in in_c() for tree in batch.trees]
    jobs = {compiler: pool.submit(compiled, compiler, trees) for compiler in COMPILERS}
    return jobs | ({"rt": pool.submit(judged)} if shutil.which("rt") else {})


def agree(found: Iterable[Any], wanted: Iterable[Any], told: Iterable[Any]) -> None:
    """All are the same; what the first other one is about is told."""
    for it, should, about in zip(found, wanted, told, strict=True):
        same(it, should, about)


# Texts

def test_stored_texts_are_none() -> None:
    rows = malformed()
    assert len(rows) >= 200 and len({text for text, _, _ in rows}) == len(rows), len(rows)
    kinds = Counter(kind for _, kind, _ in rows)
    same(set(kinds), {*WANTED, "TooDeep", "TooManyNodes"} - {"Policy"})
    for text, kind, at in rows:
        with rig.raises(Fault) as caught:
            read(text.encode())
        same((caught.exception.kind, caught.exception.at), (kind, at), text)


def test_spoiled_texts_have_every_fault() -> None:
    lines = map(told_of, doubtful())
    told = Counter(line.partition(": ")[2] if line.startswith("fault byte") else line.split()[0] for line in lines)
    same({*told}, {*WANTED.values(), *LIMITS.values(), "read", "fault"} - {WANTED["Policy"]})
    assert min(told.values()) * 1_000 > sum(told.values()), told


def test_a_written_text_is_read_again() -> None:
    for tree in [tree for batch in whole() for tree in batch.trees]:
        same(read(str(tree).encode()), tree)


def test_long_texts_are_refused() -> None:
    """So are texts of which what is written has more bytes than a text may have."""
    short, long = ("*".join(["(" + "+".join([number] * 8) + ")"] * 4) for number in ("1" * 12, "1" * 14))
    for text in ("1" + " " * (LONGEST - 1), short):
        read(text.encode())
    assert len(long) < LONGEST
    for text in ("1" + " " * LONGEST, long):
        with rig.raises(Fault) as caught:
            read(text.encode())
        same((caught.exception.kind, str(caught.exception)), ("TooLong", f"more than {LONGEST} bytes"))


def test_a_policy_is_told_by_its_text() -> None:
    for text, order, exact in (
            ("levels", "levels", False), (" fifo  exact ", "fifo", True), ("rank ran", "rank ran", False),
            ("  rank   ran/(level+1)  exact ", "rank ran / (level + 1)", True),
            ("rank if cpu<4 then 1 else none", "rank if cpu < 4 then 1 else none", False)):
        policy = policy_of(text.encode())
        same((policy, str(policy)), ((order, exact), order + " exact" * exact))
    for text, kind, at in (
            ("", "Policy", 0), ("  lifo", "Policy", 2), ("fifo exact exact", "Policy", 0), ("exact", "Policy", 0),
            ("fifo ran", "Policy", 0), ("ranks ran", "Policy", 0), ("rank", "Operand", 4), ("rank exact", "Operand", 5),
            ("rank ran exact exact", "End", 9), ("rank (ran)exact", "End", 10), ("rank 1 + 2 * 3", "Parentheses", 11),
            ("rank messages", "Operand", 5), ("rank " + "(" * 17, "TooDeep", 21)):
        with rig.raises(Fault) as caught:
            policy_of(text.encode())
        same((caught.exception.kind, caught.exception.at), (kind, at), text)


def test_the_page_tells_policies_as_they_are_written() -> None:
    texts = re.findall(r"`(rank [^`]+)`", (ROOT / "docs/POLICIES.md").read_text())
    same((len(texts), [str(policy_of(text.encode())) for text in texts]), (10, texts))


def test_orders_that_have_names_rank_as_they_say() -> None:
    """By hand, of a thread of level 5 that ran for 9 ticks, and of one that ran for more than count within a level."""
    facts = Facts(5, 9, 1, 0, 2)
    orders = ("levels", "fifo", "least-ran", "levels-then-least-ran", "rank ran + cpu")
    same([ranking_of(order).rank(facts) for order in orders], [2, 0, 9, 2 * 2**60 + 9, 9])
    same(ranking_of("levels-then-least-ran").rank(facts._replace(ran=2**62)), 3 * 2**60 - 1)


# Ranks

def test_pc_rank_reads_and_ranks_as_python_does() -> None:
    needs("rt" in under_way(), "rt is not on the path")
    drawn_texts, of_c = rig.options.expressions, rig.options.expressions // 5
    texts, ranks = 2 * drawn_texts + of_c + len(doubtful()) + len(malformed()), 2 * drawn_texts * FEW + of_c * THREADS
    same(under_way()["rt"].result(), f"{texts} texts, {ranks} ranks, 0 wrong\n")


def test_drawn_ranks_differ() -> None:
    """Few expressions give all threads one rank, or none."""
    rows = [row.split() for rows in ranked() for row in rows]
    assert sum(len({*row}) > 1 for row in rows) * 2 > len(rows)
    assert 0.02 < sum(row.count("-") for row in rows) / THREADS / len(rows) < 0.5


# Models

@rig.each({policy: (policy, answers) for policy, answers in {
    "rank if cpu == 1 then ran else none": ["refused NothingReady", "ok", "ok t0 q1", "ok t0 c1"],
    "rank none": ["refused NothingReady", "ok", "ok t0 q1", "ok t0 c1"],
    "rank none exact": ["refused NothingReady", "ok", "refused NothingToSteal", "refused NothingReady"],
    "rank if cpu == 0 then ran else none exact": ["ok t0 c0", "ok", "refused NothingToSteal", "refused NothingReady"],
}.items()})
def test_a_thread_is_left_out_where_it_has_no_rank(policy: str, answers: list[str]) -> None:
    """By the model, as it was worked out by hand: a steal that is not exact takes it nevertheless."""
    head = ["version 3", "enclave 2 4 100 100 1000", f"policy {policy}", "create 0 3 ready", "publish 0", "consume 0"]
    script = "\n".join([*head, "pick 0 1", "deliver 1 0", "steal 1", "pick 1 0", ""])
    begin = ["ok", "ok", "ok", "ok t0 n1 q0 a1 wake -", "ok d0 items 1", "ok 1"]
    same(replayed(script.encode()), ("\n".join([*begin, *answers, ""]), 0))


def test_a_line_with_a_faulty_expression_is_a_fault() -> None:
    for policy in ("rank", "rank messages", "rank 1 + 2 * 3 exact"):
        same(replayed(f"version 3\nenclave 1 1 1 1 1\npolicy {policy}\n".encode()), ("ok\nok\nfault line 3\n", 1))


def test_the_lab_of_python_ranks_by_expressions() -> None:
    """Expressions that say what a name says give the same run."""
    alike = {"fifo": "rank 0", "levels": "rank 7-level", "least-ran": "rank ran"}
    alike["levels-then-least-ran"] = "rank ((7-level)*1000000)+ran"
    for place in range(10):
        chance = random.Random(f"alike {place}")
        load = "cpus = 3\n" + drawn_threads(chance, 3, 8)
        for (name, order), steals in itertools.product(alike.items(), ("least", "exact")):
            told = [variant("one", order=it, steals=steals, quantum=5, urgent=True) for it in (name, order)]
            runs = [lab.runs_of(load + it)[0] for it in told]
            same(runs[0].said, runs[1].said, load, *told)
            same(lab.head_of(runs[1])[-1], f"policy {policy_of(order.encode()).order}{' exact' * (steals == 'exact')}")


@rig.each({policy: (policy, *row) for policy, row in {
    "rank ran": (0, None, 8, 0),
    "rank none": (0, 0, 0, 0),
    "rank if thread == 0 then none else 0": (0, 0, 5, 0),
    "rank if thread == 0 then ran / 2 else 1": (1, None, 8, 2),
    "rank if ran < 2 then 0 else none": (1, 0, 7, 3),
    "rank 9 - ran": (1, None, 8, 0),
}.items()})
def test_the_lab_of_python_stalls(order: str, quantum: int, stalled: int | None, makespan: int, preempts: int) -> None:
    """By hand, of threads of 3 and 5 ticks on one CPU: at which thread, when the run ends, and how often who runs is
    preempted. Those of the crate have the same rows."""
    load = "cpus = 1\n" + "".join(thread(0, 1, f"die {ticks}") for ticks in (3, 5))
    run, = lab.runs_of(load + variant("one", order=order, quantum=quantum))
    same((run.end, run.stalled), ("done", None) if stalled is None else ("stalled", stalled))
    same((run.tick, run.counts["preempts"]), (makespan, preempts))


# C

def source_of(trees: list[Expression]) -> str:
    """A program of these expressions, which is told the first of those to rank by, how many, and of which threads."""
    functions = "\n".join(function_of(tree, f"rank_{place}") for place, tree in enumerate(trees))
    names = ",\n".join(f"\trank_{place}" for place in range(len(trees)))
    return f"{HEADERS}#include <inttypes.h>\n#include <stdio.h>\n\n{functions}\n" + HARNESS.replace("NAMES", names)


HARNESS = """
typedef bool Ranking(uint64_t, uint64_t, uint64_t, uint64_t, uint64_t, uint64_t *);
static Ranking *const every[] = {
NAMES
};
static uint64_t facts[512][5];

int main(void)
{
	unsigned first, count, threads;

	while (scanf("%u %u %u", &first, &count, &threads) == 3 && threads <= 512) {
		for (unsigned at = 0; at < threads * 5; at++)
			if (scanf("%" SCNu64, &facts[at / 5][at % 5]) != 1)
				return 1;
		for (unsigned which = first; which < first + count; which++) {
			for (unsigned at = 0; at < threads; at++) {
				uint64_t rank = 0, *it = facts[at];

				if (every[which](it[0], it[1], it[2], it[3], it[4], &rank))
					printf("%" PRIu64, rank);
				else
					putchar('-');
				putchar(at + 1 < threads ? ' ' : '\\n');
			}
		}
	}
	return 0;
}
"""


def numbers_of(first: int, batch: Batch) -> str:
    rows = [" ".join(map(str, facts)) for facts in batch.threads]
    return "\n".join([f"{first} {len(batch.trees)} {len(rows)}", *rows, ""])


CALLER = """
uint64_t tried_{0}(uint64_t *it)
{{
	uint64_t rank;

	return rank_{0}(it[0], it[1], it[2], it[3], it[4], &rank) ? rank : 0;
}}
"""


@rig.each({it: (it,) for it in COMPILERS} or {"a compiler": ("none",)})
def test_ranks_in_c_are_those_of_whole_numbers(compiler: str) -> None:
    needs(compiler in COMPILERS, "no gcc and no clang is here")
    numbers = "".join(numbers_of(place * BATCH, batch) for place, batch in enumerate(in_c()))
    told = good(rig.run(under_way()[compiler].result(), given=numbers))
    agree(told.splitlines(), itertools.chain(*ranked()), (tree for batch in in_c() for tree in batch.trees))


def test_nothing_in_c_is_undefined() -> None:
    needs(COMPILERS, "no gcc and no clang is here")
    batch = in_c()[0]
    made = compiled(COMPILERS[-1], batch.trees, "-fsanitize=undefined", "-fno-sanitize-recover=undefined")
    agree(good(rig.run(made, given=numbers_of(0, batch))).splitlines(), ranked()[0], batch.trees)


def test_c_is_made_for_bpf() -> None:
    """No call is left to what BPF has not, as a product of 128 bits, and no frame is too large."""
    needs("clang" in COMPILERS and "bpf" in rig.run("clang", "--print-targets").stdout, "no clang for BPF is here")
    quotient = read(b"if allowed == 0 then 0 else if 18446744073709551615 / allowed < ran then 1 else 2")
    trees = [quotient, *(tree for batch in in_c()[:2] for tree in batch.trees)]
    parts = [function_of(tree, f"rank_{place}") + CALLER.format(place) for place, tree in enumerate(trees)]
    types = "typedef _Bool bool;\n#define true 1\n#define false 0\ntypedef unsigned long uint64_t;\n"
    with rig.file(types + "".join(parts), "ranks.c") as path:
        ended = rig.run("clang", "-target", "bpf", "-mcpu=v3", *WARNS, "-Wno-missing-prototypes", "-S", path, "-o", "-")
    assert ended.returncode == 0, ended.stderr[:4_000]
    assert "tried_9:" in ended.stdout and not re.search(r"^\s*call\b", ended.stdout, re.M)


# The tool

def tool(*words: object, **more: Any) -> subprocess.CompletedProcess[str]:
    return rig.run(TOOL, *words, **more)


def test_a_policy_is_a_function() -> None:
    told = good(tool("rank  if cpu<4 then 7-level else none  exact", "--name", "big_cpus"))
    head, _, text = told.partition("*/\n")
    assert "`rank if cpu < 4 then 7 - level else none exact`" in head, head
    same(text, function_of(ranking_of("rank if cpu < 4 then 7 - level else none"), "big_cpus"))
    assert text.endswith("""\
	(void)ran;
	(void)thread;
	(void)allowed;
	if (big_cpus_is_below(cpu, 4ULL)) {
		*rank = big_cpus_minus(7ULL, level);
		return true;
	}
	return false;
}
"""), text
    for order in ("levels", "fifo", "least-ran", "levels-then-least-ran"):
        assert good(tool(order)).endswith(function_of(ranking_of(order), "rank_of")), order


def test_two_policies_stand_in_one_file() -> None:
    needs(COMPILERS, "no gcc and no clang is here")
    made = [good(tool("rank ran * level", "--name", "rank_0")), good(tool("rank ran / 2", "--name", "rank_1"))]
    with rig.file(HEADERS + "".join([*made, CALLER.format(0), CALLER.format(1)]), "both.c") as path:
        for compiler in COMPILERS:
            good(rig.run(compiler, *WARNS, "-c", path, "-o", "/dev/null"))
        if shutil.which("g++"):
            good(rig.run("g++", "-x", "c++", *WARNS[1:], "-c", path, "-o", "/dev/null"))


def test_what_is_wrong_is_told_in_one_line() -> None:
    for words, fault in (
            (["rank 1 + 2 * 3"], "byte 11, at `* 3`: parentheses are wanted, since two operators meet"),
            (["rank 1 +"], "byte 8, the end: a number, a name, `none`, `min`, `max` or `(` is wanted"),
            (["rank messages"], "byte 5, at `messages`: a number, a name, `none`, `min`, `max` or `(` is wanted"),
            (["rank 1\n" + "é" * 30], "byte 6, at `\\x0a" + "\\xc3\\xa9" * 19 + "\\xc3`: the end is wanted"),
            (["rank " + " " * LONGEST + "1" + "+1" * 300], f"more than {LONGEST} bytes"),
            (["lifo"], f"byte 0, at `lifo`: {WANTED['Policy']}"), ([""], f"byte 0, the end: {WANTED['Policy']}")):
        same(outcome(tool(*words)), (2, "", f"policy-to-c: {fault}\n"), words)
    names = [["rank ran", "--name", name] for name in ("while", "a-b", "_a")]
    for words in ([], ["rank", "ran"], *names):
        status, out, errors = outcome(tool(*words))
        same((status, out, "policy-to-c: error: " in errors), (2, "", True), words)
    assert is_name("rank_2") and not is_name("") and not is_name("2")
    with open("/dev/full", "w") as full:
        ended = tool("rank ran", stdout=full, stderr=subprocess.PIPE)
    same((ended.returncode, ended.stderr), (1, "policy-to-c: standard output: No space left on device\n"))


def add_words(add: Any) -> None:
    add("--expressions", type=int, default=1_000, metavar="NUMBER", help="how many are drawn")
    add("--all", dest="expressions", action="store_const", const=10_000)


if __name__ == "__main__":
    rig.main(__doc__, rig.tests_in(globals()), add_words)

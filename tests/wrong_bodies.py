#!/usr/bin/env python3
"""Tries wrong bodies, many at once, and holds what each is refused for against tests/wrong_bodies.txt.

    tests/wrong_bodies.py [CRATE ..]           the last line is 'N passed, M failed'
    tests/wrong_bodies.py --told [CRATE ..]    prints what was told of each as lines of the table, with the reasons that stand there
                                               and WHY where one is wanted; compares nothing

A wrong body is a file crates/NAME/wrong-bodies/*.edit, written as an edit of the kit's own command `rt must-fail` is. That command checks a crate
anew for each of them; here those of a crate are tried in one check, which tells of each function whether it is proved, and which goals are
not. Of those that change one function, one stands in the function, and each other in a copy of it. The other functions of the crate have no
body then: only their contracts are looked at. So one costs a twentieth, and it has to be refused by the goal that the table names. A line of
the table is

    crate/name-of-the-file: function goal | why another place than the clause that it breaks

of which the last part is there for each that fails in another function than it changes. Function and goal are those that a check prints, the
function by its modules and its owner; of a goal that is cut off there, `..` stands behind what is printed. The libraries below a crate have to
be built (by rt ci, or by rt lib), and the crate itself as well: they are taken as they stand in their `out` folders.
"""
import argparse
import concurrent.futures
import dataclasses
import importlib
import itertools
import json
import os
import pathlib
import re
import shutil
import subprocess
import sys
import tempfile
import time
from collections import defaultdict
from dataclasses import dataclass, field
from types import ModuleType
from typing import Any, NamedTuple

ROOT = pathlib.Path(__file__).resolve().parent.parent
TABLE = "tests/wrong_bodies.txt"
ROW = re.compile(r"(\w+/[\w.-]+): ([\w:+]+ [\w.-]+)(?: \| (\S.*))?")
FUNCTION = re.compile(r"( *)(?:pub(?:\([\w ]+\))? )?(?:const )?fn (\w+)")
OWNER = re.compile(r"impl(?:<.*?>)? (?:(?:\w+::)*(\w+)(?:<.*?>)? for )?&?(?:\w+::)*(\w+)")
# What a check says of a function, and of a proof that no longer fits its goal.
TOLD = re.compile(r"^fn (\w+)::(\S+): (proved|not proved|no proof|could not tell)(.*)", re.MULTILINE)
GOAL = re.compile(r"`([\w-]+(?:\.[\w-]+)*)`")
UNPROVED = re.compile(r"did not prove ((?:`[^`]+`(?:, | and )?)+)")
PROOF = re.compile(r"(?:\./)?proofs/([\w/+]+?)(?:/Answers|/Invariants)?\.antt:\d+:\d+: error: (?:\d+ declarations? that depends? on )?`([\w-]+)`")
# A goal that no proof was found for; the line of its function comes behind it.
NOTE = re.compile(r"note: src/[\w/]+\.rt:\d+:\d+: it is not proved that .*?\(`([\w-]+)`\)")
ERROR = re.compile(r"src/[\w/]+\.rt:\d+:\d+: error|error\[[\w-]+\]")
# What stands behind the name of a function's copy.
COPY = re.compile(r"_copied_\d+$")
# So much memory a check takes, and so much time.
MEMORY_OF_A_CHECK, SECONDS_OF_A_CHECK = 3_000_000, 6_000


@dataclass(frozen=True)
class Row:
    """What a wrong body is refused for, and why at another place than its own clause, where that is so."""

    goal: str
    why: str = ""


# A text that stands once in a file, on a line of this number, and what stands there in its place.
Change = NamedTuple("Change", [("file", str), ("line", int), ("start", int), ("old", str), ("new", str)])


def changed(text: str, changes: list[Change]) -> str:
    """A file's text with its changes, of which none moves another."""
    for it in sorted(changes, key=lambda it: -it.start):
        text = text[: it.start] + it.new + text[it.start + len(it.old):]
    return text


@dataclass
class WrongBody:
    """A wrong body, the functions that it changes, and in which it has to be refused. Where it stands in a copy of its function, `copy` is what
    stands behind the name there."""

    name: str
    changes: list[Change]
    changed: set[str] = field(default_factory=set)
    refused_in: set[str] = field(default_factory=set)
    can_be_copied: bool = False
    copy: str = ""

    def has(self, function: str) -> bool:
        return any(are_one(function, it) for it in self.changed | self.refused_in)

    def changes_that_of(self, row: Row) -> bool:
        """Whether it is refused in a function that it changes."""
        return any(are_one(row.goal.split()[0], it) for it in self.changed)

    def meets(self, other: "WrongBody") -> bool:
        """Whether one may fail for the other's sake, where both are tried."""
        return not self.copy and not other.copy and any(map(self.has, other.changed | other.refused_in))


class Bad(Exception):
    """Why a wrong body cannot be tried, or a line be read."""


def are_one(function: str, other: str) -> bool:
    """Whether two names are of one function. A check puts the modules of the type in front of a method, and the whole trait behind the
    type; what reads the source has the modules of the file, and the trait without what it is of."""
    (*modules, name), (*others, other_name) = function.split("::"), other.split("::")
    if name != other_name or not modules or not others or not (modules[-1][:1] + others[-1][:1]).isupper():
        return function == other
    return modules[-1].startswith(others[-1]) or others[-1].startswith(modules[-1])


def read_table(text: str) -> dict[str, Row]:
    rows: dict[str, Row] = {}
    for number, line in enumerate(text.splitlines(), 1):
        row, last = ROW.fullmatch(line), next(reversed(rows), "")
        if not row:
            raise Bad(f"{TABLE}, line {number}: it cannot be read: {line}")
        if row[1] <= last:
            raise Bad(f"{TABLE}, line {number}: {row[1]} stands behind {last}")
        rows[row[1]] = Row(row[2], row[3] or "")
    return rows


def lines_at(lines: list[str], number: int) -> tuple[int, int]:
    """The first line, from 0, of the function that has the line of this number, and the last."""
    while number < len(lines) and lines[number - 1].lstrip().startswith("#["):
        number += 1
    for place in range(min(number, len(lines)) - 1, -1, -1):
        if begin := FUNCTION.match(lines[place]):
            end = next((it for it in range(place, len(lines)) if lines[it].startswith(f"{begin[1]}}}")), len(lines))
            if number <= end + 1:
                return place, end
    raise Bad(f"no function has line {number}")


def function_in(file: str, lines: list[str], number: int) -> str:
    """The function that has the line of this number, with its modules and its owner: an impl's type, and its trait."""
    place, _ = lines_at(lines, number)
    module = file.removeprefix("src/").removesuffix(".rt")
    modules = "" if module in ("lib", "main") else module.replace("/", "::") + "::"
    above = itertools.takewhile(lambda line: not line.startswith("}"), reversed(lines[:place]))
    impls = map(OWNER.match, above if lines[place].startswith(" ") else [])
    owner = next((f"{impl[2]}{impl[1] or ''}::" for impl in impls if impl), "")
    return modules + owner + FUNCTION.match(lines[place])[2]


def changes_of(crate: pathlib.Path, edit: pathlib.Path) -> list[Change]:
    told, changes = {"file": "", "old": ""}, []
    for word, rest in re.findall(r"^(file: |old: |new: ?)(.*)$", edit.read_text(), re.M):
        told[word.rstrip(": ")] = rest
        file, old = told["file"].strip(), told["old"]
        if word.startswith("new"):
            text = (crate / file).read_text()
            if not file.startswith("src/") or text.count(old) != 1:
                raise Bad(f"{old!r} stands {text.count(old)} times in {file}, and not once")
            start = text.find(old)
            changes.append(Change(file, text.count("\n", 0, start) + 1, start, old, rest))
    if not changes:
        raise Bad("it changes nothing")
    return changes


def body_of(crate: pathlib.Path, edit: pathlib.Path, row: Row | None) -> WrongBody:
    """A wrong body, which can be copied where it changes one function, of no trait, and has to be refused there."""
    body = WrongBody(f"{crate.name}/{edit.stem}", changes_of(crate, edit), refused_in={row.goal.split()[0]} if row else set())
    begins = set()
    for it in body.changes:
        lines = (crate / it.file).read_text().splitlines()
        try:
            body.changed.add(function_in(it.file, lines, it.line))
            begins.add((it.file, None if is_of_trait(lines, it.line) else lines_at(lines, it.line)[0]))
        except Bad:
            # A row of a table: the function that reads it is named, and why.
            if not row:
                raise
            begins.add((it.file, None))
    in_its_own = all(any(are_one(it, other) for other in body.changed) for it in body.refused_in)
    body.can_be_copied = len(begins) == 1 and all(begin is not None for _, begin in begins) and in_its_own
    return body


def is_of_trait(lines: list[str], number: int) -> bool:
    """Whether the function that has the line of this number is a trait's: a copy of it would be none."""
    begin, _ = lines_at(lines, number)
    outer = next((line for line in reversed(lines[:begin]) if line and not line.startswith((" ", "/"))), "")
    return lines[begin].startswith(" ") and (not outer.startswith("impl") or " for " in outer)


def together(bodies: list[WrongBody]) -> list[list[WrongBody]]:
    """Bundles of wrong bodies of which no two change, or are to be refused in, one function, those in copies of their functions aside."""
    bundles: list[list[WrongBody]] = []
    numbers = itertools.count(1)
    for body in bodies:
        fitting = [bundle for bundle in bundles if not any(map(body.meets, bundle))]
        if not fitting and bundles and body.can_be_copied:
            body.copy, fitting = f"_copied_{next(numbers)}", bundles
        if not fitting:
            bundles.append([])
        (fitting or bundles[-1:])[0].append(body)
    return bundles


def ends_its_head(head: list[str]) -> bool:
    """Whether these lines are all of a function that stands before its body: the last opens it, or says that there is none. What a clause opens
    it closes again, on the same line or on a later one."""
    before = "".join(head[:-1])
    if before.count("{") != before.count("}"):
        return False
    last, is_closed = head[-1], head[-1].count("{") == head[-1].count("}")
    return last.strip() == "{" or last.endswith((" {", "{}")) and (len(head) == 1 or last.lstrip().startswith(")")) or last.endswith(";") and is_closed


def body_at(lines: list[str], place: int) -> tuple[int, int] | None:
    """The lines on which the body of the function that begins there is opened and closed; of one that has to keep its body, none: what is
    computed at compile time, what answers a type that only its body tells, and what is proved with the functions that it calls in a circle."""
    if not (begin := FUNCTION.match(lines[place])) or "const fn" in lines[place]:
        return None
    above = itertools.takewhile(lambda line: line.lstrip().startswith("#["), reversed(lines[:place]))
    if any(line.lstrip().startswith("#[cycle(") for line in above):
        return None
    closes = next((it for it in range(place, len(lines)) if lines[it] == f"{begin[1]}}}"), len(lines))
    opens = next((it for it in range(place, closes) if ends_its_head(lines[place:it + 1])), closes)
    if opens == closes or lines[opens].endswith(("{}", ";")) or "-> impl " in " ".join(lines[place:opens + 1]):
        return None
    return opens, closes


def without_bodies(file: str, text: str, kept: set[str]) -> tuple[str, list[str]]:
    """The text of a file in which only these functions have bodies, and the names of the others."""
    lines, emptied, place, written = text.splitlines(), [], 0, list[str]()
    while place < len(lines):
        body = body_at(lines, place)
        name = function_in(file, lines, place + 1) if body else ""
        if body and not any(are_one(name, it) for it in kept):
            emptied.append(name)
            written += [*lines[place:body[0] + 1], "unreachable!()"]
            place = body[1]
        written.append(lines[place])
        place += 1
    return "\n".join(written) + "\n", emptied


def proofs_made(crate: Any) -> list[str]:
    """The functions of which a build of the crate had a proof, by their paths."""
    made = pathlib.Path(f"{crate.folder}/out/rlib/{crate.name}.rlib/toolchain/made.json")
    lines = made.read_text().splitlines() if made.is_file() else []
    return [it[1] for line in lines if (it := re.fullmatch(r"proofs/([\w/]+)/Proof", json.loads(line)[0]))]


def empty_others(copy: pathlib.Path, made: list[str], kept: set[str]) -> None:
    """Leaves only these functions of a crate their bodies. What the others' contracts say is taken as proved: their proofs are holes."""
    emptied: list[str] = []
    for file in sorted((copy / "src").rglob("*.rt")):
        text, names = without_bodies(str(file.relative_to(copy)), file.read_text(), kept)
        file.write_text(text)
        emptied += names
    for path in made:
        if any(are_one(path.replace("/", "::"), it) for it in emptied):
            folder, last = copy / "proofs" / path, path.rpartition("/")[2]
            folder.mkdir(parents=True, exist_ok=True)
            for file in ("Answers.antt", "Invariants.antt"):
                (folder / file).unlink(missing_ok=True)
            statement = f"use Rattle.{copy.name}.proofs.{path.replace('/', '.')}.Statement.{{statement}}"
            (folder / "Proof.antt").write_text(f"{statement}\n\npub {last}_spec : {{M : Type 1}} → statement M\n{last}_spec = ?\n")


def kit() -> ModuleType:
    """The kit's own module, which knows the words of a check: rt itself would build the libraries below anew, behind rt ci."""
    if (found := shutil.which("rt")) is None:
        raise Bad("the kit's command rt is not on the path")
    sys.dont_write_bytecode = True
    sys.path.insert(0, os.path.dirname(os.path.realpath(found)))
    return importlib.import_module("rtlib")


def copied_function(whole: pathlib.Path, body: WrongBody) -> tuple[str, int, list[str]]:
    """The file of a wrong body's function, the line behind its end, from 0, and the lines of a copy that is changed. A change is within a line."""
    first = body.changes[0]
    text = (whole / first.file).read_text()
    begin, end = lines_at(text.splitlines(), first.line)
    lines = changed(text, body.changes).splitlines()[begin:end + 1]
    lines[0] = re.sub(r"\bfn (\w+)", rf"fn \1{body.copy}", lines[0], count=1)
    return first.file, end + 1, lines


def copy_proofs(copy: pathlib.Path, body: WrongBody) -> None:
    """A function's copy has the function's own proofs."""
    for folder in [it for it in (copy / "proofs").rglob("*") if it.is_dir()]:
        path = folder.relative_to(copy / "proofs").as_posix()
        if body.has(path.replace("/", "::")):
            dotted = f"proofs.{path.replace('/', '.')}"
            shutil.copytree(folder, f"{folder}{body.copy}")
            for file in pathlib.Path(f"{folder}{body.copy}").rglob("*.antt"):
                file.write_text(file.read_text().replace(f"{dotted}.", f"{dotted}{body.copy}."))


def add_copies(whole: pathlib.Path, copy: pathlib.Path, bodies: list[WrongBody]) -> None:
    """Adds the copies of functions in which these wrong bodies stand, from the last on."""
    for file, place, added in sorted((copied_function(whole, body) for body in bodies), key=lambda it: -it[1]):
        lines = (copy / file).read_text().splitlines()
        lines[place:place] = ["", *added]
        (copy / file).write_text("\n".join(lines) + "\n")
    for body in bodies:
        copy_proofs(copy, body)


def check(whole: pathlib.Path, made: list[str], command: list[str], bundle: list[WrongBody]) -> str:
    """What a check says of a copy of the crate with these wrong bodies, of the functions that have to be refused."""
    # The names of the table are those that a check prints. Of one that it does not name yet, all of the crate is asked.
    named = all(body.refused_in for body in bundle)
    asked = sorted({it + body.copy for body in bundle for it in body.refused_in}) if named else []
    words = [*command, *(word for it in asked for word in ("--only", it))]
    with tempfile.TemporaryDirectory(prefix="wrong-bodies-") as room:
        copy = pathlib.Path(shutil.copytree(whole, pathlib.Path(room) / whole.name))
        changes = [it for body in bundle for it in body.changes if not body.copy]
        for file in {copy / it.file for it in changes}:
            file.write_text(changed(file.read_text(), [it for it in changes if copy / it.file == file]))
        add_copies(whole, copy, [body for body in bundle if body.copy])
        if named:
            empty_others(copy, made, {it + body.copy for body in bundle for it in body.changed | body.refused_in})
        ran = subprocess.run(words, cwd=copy, capture_output=True, text=True, errors="replace", timeout=SECONDS_OF_A_CHECK)
    return ran.stdout + ran.stderr


def failures_in(said: str, crate: str) -> dict[str, list[str]]:
    """The goals that are not proved, by function."""
    goals: defaultdict[str, list[str]] = defaultdict(list)
    noted: list[str] = []
    in_circles: list[tuple[str, str]] = []
    for line in said.splitlines():
        told, proof, note = TOLD.match(line), PROOF.match(line), NOTE.match(line)
        if note:
            noted.append(note[1])
        elif told:
            if told[1] == crate and told[3] != "proved":
                found = UNPROVED.search(told[4])
                goals[told[2]] += [*noted, *(GOAL.findall(found[1]) if found else [])]
            noted = []
        elif proof:
            function = proof[1].replace("/", "::")
            goals[function].append(proof[2])
            if "+" in function:
                in_circles.append((function.partition("+")[0], proof[2]))
    # The proofs of a circle stand together, and each goal begins with the name of its function, where there are several.
    for modules, goal in in_circles:
        told_there = [it for it in goals if it.startswith(modules) and "+" not in it]
        named = [it for it in told_there if goal.startswith(it.removeprefix(modules) + "-")]
        for function in named or told_there[:1]:
            goals[function].append(goal)
    return goals


def place_told(row: Row, goals: dict[str, list[str]]) -> str:
    """The function in which the goal of the row is not proved, as the check names it; nothing where it is proved."""
    function, goal = row.goal.split()
    form = re.escape(goal.removesuffix("..")) + ".*" * goal.endswith("..")
    own = (it for it in goals if are_one(it, function))
    return next((it for it in own if any(re.fullmatch(form, told) for told in goals[it])), "")


def told_of(body: WrongBody, goals: dict[str, list[str]]) -> list[str]:
    """The goals of its functions that are not proved."""
    return [f"{function} {goal}" for function in sorted(goals) if body.has(function) for goal in dict.fromkeys(goals[function])]


def fault_of(body: WrongBody, goals: dict[str, list[str]], rows: dict[str, Row]) -> str:
    """What is wrong with what a check told of it: nothing, where the goal of the table is not proved."""
    row, told = rows.get(body.name), ", ".join(told_of(body, goals)) or "nothing"
    if row is None:
        return f"{TABLE} does not name it; refused for `{told}`"
    if not place_told(row, goals):
        return f"refused for `{told}`, wanted `{row.goal}`"
    if not row.why and not body.changes_that_of(row):
        return f"it fails in another function than it changes, and {TABLE} does not say why"
    return ""


def row_told(body: WrongBody, goals: dict[str, list[str]], rows: dict[str, Row]) -> str:
    """What a check told of it, as a line of the table: what stands there, where that is told, or the first that is."""
    row, goal = rows.get(body.name, Row("")), (told_of(body, goals) or ["is proved"])[0]
    if row.goal and (place := place_told(row, goals)):
        goal = f"{place} {row.goal.split()[1]}"
    why = row.why or ("" if body.changes_that_of(Row(goal)) else "WHY")
    return f"{body.name}: {goal}" + (f" | {why}" if why else "")


@dataclass(frozen=True)
class Outcome:
    """What is wrong with a wrong body, its line of the table as a check tells it, and whether it is worth a check of its own."""

    fault: str
    line: str = ""
    is_doubtful: bool = False


def judge(said: str, crate: str, bundle: list[WrongBody], rows: dict[str, Row]) -> dict[str, Outcome]:
    if (unread := next((line for line in said.splitlines() if ERROR.match(line)), "")) or not TOLD.search(said):
        none = Outcome(f"the check came to no verdict: {unread or said.strip()[-300:]}", is_doubtful=True)
        return {body.name: none for body in bundle}
    all_goals, outcomes = failures_in(said, crate), {}
    for body in bundle:
        # A copy's goals stand in place of the function's.
        own = (it for it in all_goals if (COPY.search(it) or [""])[0] == body.copy)
        goals = {it.removesuffix(body.copy): all_goals[it] for it in own}
        fault = fault_of(body, goals, rows)
        is_doubtful = not told_of(body, goals) or body.name in rows and bool(fault)
        outcomes[body.name] = Outcome(fault, row_told(body, goals, rows), is_doubtful)
    return outcomes


def try_crate(tools: ModuleType, crate: Any, bodies: list[WrongBody], rows: dict[str, Row]) -> dict[str, Outcome]:
    """What comes of all wrong bodies of a crate. A check begins with what the one before it made of definitions and contracts. What is not
    told as it should be, since another wrong body stood in its way, is tried once more, alone."""
    outcomes: dict[str, Outcome] = {}
    with tempfile.TemporaryDirectory(prefix="wrong-bodies-") as room:
        copy, kept = pathlib.Path(room) / crate.name, pathlib.Path(room) / "kept"
        for part in tools.PARTS:
            if os.path.isdir(f"{crate.folder}/{part}"):
                shutil.copytree(f"{crate.folder}/{part}", copy / part)
        kept.mkdir()
        made, bundles = proofs_made(crate), together(bodies)
        command = [tools.RATTLE, "check", *crate.words(["--jobs", "1"], keeps=False), "--incremental", str(kept)]
        while bundles:
            bundle, began = bundles.pop(0), time.monotonic()
            try:
                outcomes |= judge(check(copy, made, command, bundle), crate.name, bundle, rows)
            except (OSError, subprocess.SubprocessError) as fault:
                outcomes |= {body.name: Outcome(f"it could not be tried: {fault}") for body in bundle}
            if os.environ.get("WRONG_BODIES_TIMES"):
                print(f"{time.monotonic() - began:.0f} s:", *(it.name for it in bundle), file=sys.stderr, flush=True)
            alone = [body for body in bundle if len(bundle) > 1 and outcomes[body.name].is_doubtful]
            bundles += [[dataclasses.replace(body, copy="")] for body in alone]
    return outcomes


def places() -> int:
    """So many checks at once as there are processors and memory for."""
    free = next((int(line.split()[1]) for line in open("/proc/meminfo") if line.startswith("MemAvailable:")), 0)
    return max(1, min(os.cpu_count() or 1, free // MEMORY_OF_A_CHECK))


def bodies_of(root: pathlib.Path, name: str, folder: str, rows: dict[str, Row]) -> tuple[list[WrongBody], dict[str, str]]:
    """The wrong bodies of a crate, and why some cannot be tried."""
    bodies, wrong = [], {}
    for edit in sorted((root / "crates" / name / folder).glob("*")):
        try:
            bodies.append(body_of(root / "crates" / name, edit, rows.get(f"{name}/{edit.stem}")))
        except (Bad, OSError) as why:
            wrong[f"{name}/{edit.stem}"] = f"it cannot be tried: {why}"
    return bodies, wrong


def main() -> int:
    parser = argparse.ArgumentParser(description=__doc__, formatter_class=argparse.RawDescriptionHelpFormatter)
    parser.add_argument("crates", nargs="*", metavar="CRATE")
    parser.add_argument("--told", action="store_true", help="print what is told as lines of the table")
    parser.add_argument("--root", type=pathlib.Path, default=ROOT, help="another clone")
    parser.add_argument("--folder", default="wrong-bodies", help="another folder of each crate")
    parser.add_argument("--jobs", type=int, default=0, help="so many checks at once")
    options = parser.parse_args()
    root, wrong, tasks, passed = options.root.resolve(), {}, [], 0
    try:
        rows, tools = read_table((root / TABLE).read_text()), kit()
    except Bad as why:
        print(f"{why}\n0 passed, 1 failed")
        return 1
    crates = {crate.name: crate for crate in tools.crates_below(str(root))}
    wrong |= {name: "there is no such crate" for name in options.crates if name not in crates}
    for name in (name for name in options.crates or crates if name in crates):
        bodies, bad = bodies_of(root, name, options.folder, rows)
        tasks += [(name, bodies)] if bodies else []
        there = {body.name for body in bodies} | bad.keys()
        gone = [row for row in rows if row.startswith(f"{name}/") and row not in there]
        wrong |= bad | dict.fromkeys(gone, f"{TABLE} names it, and it is not there")
    tries = lambda task: try_crate(tools, crates[task[0]], task[1], rows)
    with concurrent.futures.ThreadPoolExecutor(options.jobs or places()) as pool:
        for outcomes in pool.map(tries, tasks):
            if options.told:
                print("".join(f"{outcomes[name].line or name + ': ' + outcomes[name].fault}\n" for name in sorted(outcomes)), end="", flush=True)
                continue
            passed += sum(not it.fault for it in outcomes.values())
            wrong |= {name: it.fault for name, it in outcomes.items() if it.fault}
    print("".join(f"{name}: {wrong[name]}\n" for name in sorted(wrong)), end="")
    print(f"{passed} passed, {len(wrong)} failed")
    return 1 if wrong else 0


if __name__ == "__main__":
    sys.exit(main())

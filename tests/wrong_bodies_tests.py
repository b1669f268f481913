#!/usr/bin/env python3
"""Tests that tests/wrong_bodies.py can fail, over a made-up crate and a stand-in for the kit."""
import json
import os
import pathlib
import sys
import tomllib
from collections.abc import Callable

import rig
from rig import ROOT, same
from wrong_bodies import failures_in

# A crate that is made up: its source, its edits, the rows of their table, and what a check says of them.
SOURCE = (ROOT / "tests/wrong_bodies.rt.in").read_text()
MADE_UP = tomllib.loads((ROOT / "tests/wrong_bodies.toml").read_text())
EDITS, TABLE, SAYS, FAILS = (MADE_UP[name] for name in ("edits", "table", "says", "fails"))
UNPROVED = "fn low::{}: no proof: expected answers in ./proofs/x/Answers.antt; `search` did not prove {}"


class WrongBodies:
    def __init__(self, root: pathlib.Path) -> None:
        self.root, self.bodies, self.table = root, root / "crates/low/wrong-bodies", root / "tests/wrong_bodies.txt"
        for it in (self.bodies, root / "crates/low/src", root / "crates/low/out", root / "bin", root / "tests"):
            it.mkdir(parents=True)
        (self.root / "crates/low/src/count.rt").write_text(SOURCE)
        self.put_edits(EDITS)
        self.put_table(TABLE)
        self.put_says(SAYS)
        says = repr(str(self.root / "says"))
        rattle = MADE_UP["rattle"].replace("SAYS)", f"{says})").replace("SAYS +", f"{says} +")
        for name, text in {"rattle": rattle, "rt": "#!/bin/sh\n", "rtlib.py": MADE_UP["rtlib"]}.items():
            rig.put_command(self.root / "bin" / name, text)

    def put_edits(self, edits: dict[str, str]) -> None:
        for name, text in edits.items():
            (self.bodies / f"{name}.edit").write_text(f"file: src/count.rt\n{text}\n")

    def put_table(self, rows: dict[str, str]) -> None:
        self.table.write_text("".join(f"low/{name}: {row}\n" for name, row in rows.items()))

    def put_says(self, says: dict[str, str]) -> None:
        (self.root / "says").write_text(json.dumps(says))

    def run_it(self, *words: str, path: str = "") -> tuple[int, list[str]]:
        path = path or f"{self.root / 'bin'}:{os.environ['PATH']}"
        ran = rig.run(sys.executable, ROOT / "tests/wrong_bodies.py", "--root", self.root, *words, env={**os.environ, "PATH": path})
        return ran.returncode, (ran.stdout + ran.stderr).splitlines()

    def fails_by(self, words: str) -> None:
        status, lines = self.run_it()
        same(status, 1, lines)
        assert any(words in line for line in lines), lines

    def asked(self) -> list[str]:
        """The functions that each check was asked for."""
        return [line.partition(": ")[0] for line in (self.root / "says.asked").read_text().splitlines()]


FIXTURE = WrongBodies


def test_each_that_is_refused_for_its_goal_passes(it: WrongBodies) -> None:
    same(it.run_it(), (0, ["4 passed, 0 failed"]))


def test_those_that_change_one_function_stand_in_copies_of_it(it: WrongBodies) -> None:
    it.run_it()
    same(it.asked(), ["count::Count::none count::CountFrom::from count::more count::more_copied_1"])


def test_those_that_change_one_function_of_a_trait_are_tried_one_after_another(it: WrongBodies) -> None:
    it.put_edits({"from-counts-none": "old: told.len()\nnew: told.none()"})
    it.put_table({"from-counts-none": TABLE["from-counts-twice"]} | TABLE)
    it.put_says(SAYS | {"told.none()": SAYS["told.len() * 2"]})
    same(it.run_it(), (0, ["5 passed, 0 failed"]))
    same(it.asked(), ["count::Count::none count::CountFrom::from count::more", "count::CountFrom::from count::more"])


def test_other_functions_have_no_bodies(it: WrongBodies) -> None:
    it.run_it()
    emptied = SOURCE.replace("    if count > 9 {\n        return 9;\n    }\n    count - 1\n", "unreachable!()\n")
    emptied = emptied.replace("        self.count() == 0\n", "unreachable!()\n")
    changed = emptied.replace("value: 0", "value: 1").replace("told.len()", "told.len() * 2").replace("count + 1", "count")
    copy = "\npub const fn more_copied_1(count: u64) -> u64\n    ensures { result }\n{\n    count + 2\n}\n"
    same((it.root / "says.text").read_text(), changed.replace("    count\n}\n", f"    count\n}}\n{copy}"))


def test_what_other_functions_promise_is_taken_as_proved(it: WrongBodies) -> None:
    made = it.root / "crates/low/out/rlib/low.rlib/toolchain"
    made.mkdir(parents=True)
    paths = ("count/fewer", "count/more", "count/CountFrom/from", "count/gone")
    (made / "made.json").write_text("".join(json.dumps([f"proofs/{path}/Proof", 1]) + "\n" for path in paths))
    for path in ("count/fewer", "count/more"):
        (it.root / "crates/low/proofs" / path).mkdir(parents=True)
        text = f"use Rattle.low.proofs.{path.replace('/', '.')}.Goals as goal\n"
        (it.root / "crates/low/proofs" / path / "Answers.antt").write_text(text)
    it.run_it()
    proofs = json.loads((it.root / "says.proofs").read_text())
    same(sorted(proofs), ["proofs/count/fewer/Proof.antt", "proofs/count/more/Answers.antt",
         "proofs/count/more_copied_1/Answers.antt"])
    same(proofs["proofs/count/more_copied_1/Answers.antt"], "use Rattle.low.proofs.count.more_copied_1.Goals as goal\n")
    same(proofs["proofs/count/fewer/Proof.antt"], "use Rattle.low.proofs.count.fewer.Statement.{statement}\n\n"
         "pub fewer_spec : {M : Type 1} → statement M\nfewer_spec = ?\n")
    same((it.root / "crates/low/proofs/count/fewer/Answers.antt").read_text(),
         "use Rattle.low.proofs.count.fewer.Goals as goal\n")


def test_one_that_a_check_of_many_does_not_tell_is_tried_alone(it: WrongBodies) -> None:
    quiet = {"value: 1": "fn low::count::Count::none: no proof: it calls `low::count::more`, which is not proved"}
    it.put_says({key: said for key, said in SAYS.items() if key != "value: 1"} | quiet | {"value: 1|told.len() * 2": SAYS["value: 1"]})
    same(it.run_it(), (0, ["4 passed, 0 failed"]))
    same(it.asked()[1:], ["count::Count::none"])


def test_a_goal_in_a_note_is_of_the_function_behind_it(it: WrongBodies) -> None:
    note = "note: src/count.rt:12:5: it is not proved that what the function ensures holds when it returns (`{}`); `search` gave up"
    told = "\n".join([note.format("returns-clause-fresh"), "fn low::count::Count::none: not proved", "fn low::count::more: not proved"])
    it.put_says(SAYS | {"value: 1": told})
    same(it.run_it(), (0, ["4 passed, 0 failed"]))
    it.put_table(TABLE | {"none-is-one": "count::more returns-clause-fresh"})
    it.fails_by("low/none-is-one: refused for")


@rig.each({name: (row["says"], row["row"], row["words"]) for name, row in FAILS.items()})
def test_fails(it: WrongBodies, says: dict[str, str], row: str, words: str) -> None:
    it.put_says(SAYS | says)
    it.put_table({name: goal for name, goal in TABLE.items() if name != row})
    it.fails_by(words)


NOT_APPLIED, UNREAD = "low/more-is-two: it cannot be tried", "tests/wrong_bodies.txt, line"
NO_VERDICT = "low/none-is-one: the check came to no verdict"


# What is done, and what is told then.
@rig.each({
    "a row of none": (lambda it: (it.bodies / "more-is-none.edit").unlink(),
                      "low/more-is-none: tests/wrong_bodies.txt names it, and it is not there"),
    "no such old text": (lambda it: it.put_edits({"more-is-two": "old: count + 3\nnew: count"}), NOT_APPLIED),
    "several old texts": (lambda it: it.put_edits({"more-is-two": "old: Count\nnew: Sum"}), NOT_APPLIED),
    "no old text": (lambda it: it.put_edits({"more-is-two": "new: x"}), NOT_APPLIED),
    "an error": (lambda it: it.put_says({"": "src/count.rt:3:1: error: this is no Rattle"}), NO_VERDICT),
    "no verdict": (lambda it: it.put_says({"": "rattle: out of memory"}), NO_VERDICT),
    "a table that cannot be read": (lambda it: it.table.write_text("low/x\n"), UNREAD),
    "a table in another order": (lambda it: it.table.write_text("low/b: f g\nlow/a: f g\n"), UNREAD),
})
def test_change_fails(it: WrongBodies, change: Callable[[WrongBodies], object], words: str) -> None:
    change(it)
    it.fails_by(words)


def test_a_goal_of_a_circle_is_of_its_function(_: WrongBodies) -> None:
    said = "\n".join([
        "./proofs/near/+circle/Answers.antt:5:1: error: `first_of-returns-clause-sum`: it is of another type",
        "fn low::near::first: not proved", "fn low::near::first_of: not proved", "fn low::far::first_of: not proved"])
    goals = failures_in(said, "low")
    same([goals[it] for it in ("near::first", "near::first_of", "far::first_of")], [[], ["first_of-returns-clause-sum"], []])
    said = "./proofs/near/+circle/Answers.antt:5:1: error: `returns-clause-sum`: it is of another type\nfn low::near::first: not proved"
    same(failures_in(said, "low")["near::first"], ["returns-clause-sum"])


def test_one_that_fails_elsewhere_wants_a_reason(it: WrongBodies) -> None:
    elsewhere = "count::Count::none returns-clause-fresh"
    it.put_says(SAYS | {"count + 2|more_copied": UNPROVED.format("count::Count::none", "`returns-clause-fresh`")})
    it.put_table(TABLE | {"more-is-two": elsewhere})
    it.fails_by("low/more-is-two: it fails in another function than it changes")
    it.put_table(TABLE | {"more-is-two": f"{elsewhere} | none counts by it"})
    same(it.run_it(), (0, ["4 passed, 0 failed"]))


def test_what_is_told_is_printed_as_a_table(it: WrongBodies) -> None:
    it.put_table({})
    status, lines = it.run_it("--told")
    same(sorted(lines[:-1]), [f"low/{name}: {row}" for name, row in sorted((TABLE | {
        "none-is-one": "count::Count::none returns-clause-other"}).items())])


def test_without_the_kit_it_fails(it: WrongBodies) -> None:
    same(it.run_it(path="/nowhere"), (1, ["the kit's command rt is not on the path", "0 passed, 1 failed"]))


def test_the_crate_is_left_as_it_was(it: WrongBodies) -> None:
    it.run_it()
    same((it.root / "crates/low/src/count.rt").read_text(), SOURCE)
    same(sorted(it.name for it in it.root.iterdir() if it.name.startswith(".")), [])


if __name__ == "__main__":
    rig.main(__doc__, rig.tests_in(globals()))

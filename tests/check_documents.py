#!/usr/bin/env python3
"""Checks that the documents speak of what is there, and that the repository is tidy. It reads the sources and proves nothing.

  promises     each function, clause, type, definition and file that the lists of docs/PROMISES.md name is there
  memory       each public call that may want memory has a clause that tells what that leaves, where it is lent what it may change; and
               a single call of tests/hostile/calls that it names, or a row of tests/hostile/calls.txt; and none of these names another
  public       each function with a contract that a crate exports has a comment, by which tools/definitions.py --clauses tells it
  definitions  each definition has a comment, by which tools/definitions.py tells it
  names        each `Type::name`, `Module.word` and path of a file in any other document is there
  crates       docs/ARCHITECTURE.md has each crate, and what it stands on, as crates.txt has it
  refusals     docs/FORMATS.md has an item for each refusal
  advice       its items have the words of pc_explain on why each refusal comes, and what would be accepted
  examples     each example's script has its output beside it, and examples/README.md names all of them; the code that
               the root of a crate shows is code of a test, line for line
  versions     the program, its case, CHANGELOG.md and the manual page tell one version, the last two its date, and README.md the kit
               that is on the path
  widths       no line of a document, of .rt or of specs/ is wider than 120 columns
  words        no page has more words than tests/tidy.py allows it, nor have all together
  sentences    no sentence of a document has more than 40 words
  files        each file of docs/, examples/, tools/, tests/ and bench/ is named by some other file
  numbers      nothing is cited by a number: no theorem, request, row or issue
  titles       each commit's title has at most 72 columns, and none of the words that tell of work under way
  twins        two places that share six lines or more, names aside, are told of in tests/twins.txt, with why they stay

A line for each finding, how much was looked at, and then `N passed, M failed`, of these checks. The exit status is 0 only where
none failed. The last seven are those of tests/tidy.py.
"""
import fnmatch
import pathlib
import re
import shutil
import subprocess
import sys
from dataclasses import dataclass, field
from functools import partial

import tidy

sys.path.insert(0, str(pathlib.Path(__file__).resolve().parent.parent / "tools"))
import definitions  # noqa: E402  # it stands beside the tools
from sources import IDENTIFIER, LEFT_BY, ROOT, Sources  # noqa: E402

SPAN = re.compile(r"`([^`]+)`")
FILE_NAME = re.compile(r"[\w./*-]+\.(?:rt|antt|edit|md|py|txt|script|output)|[\w.*-]+/[\w./*-]*")

# The calls that may want memory which no single call of tests/hostile/calls makes, each with what meets it.
CALLS = "tests/hostile/calls.txt"
# The name of a single call, in the files that have some: the public call, and which one of several behind it.
SINGLE_CALL, NO_CALLS = re.compile(r'(?<!b)"(\w+(?:::\w+)?(?: [^"]*)?)"'), {"main.rt.in", "scene.rt.in"}
# The checks of tests/tidy.py.
TIDY = ("widths", "words", "sentences", "files", "numbers", "titles", "twins")
# Names that are std's, and words of the language.
FOREIGN = {"Err", "Ok", "IsStrictlyIncreasing"}

@dataclass
class Item:
    """An item of a list of a document: its place, the heading that it stands under, its text, and the lines below it by their words."""
    where: str
    heading: str
    text: str
    below: dict = field(default_factory=dict)


def items_of(name, labels):
    """The items of a document's lists. A line `  - LABEL ..` or `  - LABEL: ..` below an item is kept under its label."""
    items, heading, told = [], "", None
    for number, line in enumerate((ROOT / name).read_text().splitlines(), 1):
        if line.startswith("- "):
            items.append(Item(f"{name}:{number}", heading, line[2:]))
            told = ""
        elif line.startswith("  - ") and told is not None:
            if (told := next((label for label in labels if line[4:].startswith(label)), None)) is not None:
                items[-1].below[told] = line[4 + len(told):].removeprefix(":").strip()
        elif line.startswith("  ") and told == "":
            items[-1].text += " " + line.strip()
        elif line.startswith("    ") and told:
            items[-1].below[told] += " " + line.strip()
        else:
            heading, told = line if line.startswith("#") else heading, None
    return items


def paragraphs_of(path):
    """The paragraphs and items of a document with the number of their first line; a line in code, or of a table, is one alone."""
    found, is_open = [], False
    for number, line in enumerate(path.read_text().splitlines(), 1):
        is_alone = not line.strip() or line.startswith(("|", "#", "    ")) and not is_open
        if is_open and not is_alone and not re.match(r"\s*(?:[-*]|\d+\.) ", line):
            found[-1][1] += " " + line.strip()
        else:
            found.append([number, line])
        is_open = not is_alone
    return found


def all_below(below, name):
    """All that a crate stands on, through others too."""
    lower = below.get(name, set())
    return lower.union(*(all_below(below, crate) for crate in lower))


class Checker:
    """Its methods `check_..` are the checks."""

    def __init__(self):
        self.checked, self.findings = 0, []
        self.sources = Sources()
        self.crates = self.sources.crates

    def expect(self, holds, where, finding):
        self.checked += 1
        if not holds:
            self.findings.append(f"{where}: {finding}")

    # Names

    def functions_at(self, crates, path):
        """The functions that a path of names stands for: `name`, `Type::name`, `module::name`, `tests::module::name`."""
        *above, name = path
        every = (it for crate in crates for it in (crate.tests if above[:1] == ["tests"] else crate.functions))
        named = (it for it in every if it.name == name)
        return [it for it in named if not above or it.owner == above[-1] or not it.owner and it.module.split("/") == above]

    def is_definition(self, crates, name):
        module, word = name.rsplit(".", 1)
        own, every = ([it.definitions[module] for it in some if module in it.definitions]
                      for some in (crates, self.crates.values()))
        return any(word in words for words in own or every)

    def is_file(self, crates, name):
        places = [ROOT, ROOT / "docs", ROOT / "examples", *(crate.folder for crate in crates), *(crate.folder / "src" for crate in crates)]
        return any(any(place.glob(name.rstrip("/"))) for place in places)

    def is_known(self, word):
        return word in FOREIGN or word in self.crates or any(crate.knows(word) for crate in self.crates.values())

    # PROMISES

    def hold_carriers(self, where, crate, cell):
        """What names what carries a promise."""
        types, group, place = [], [], 0
        for span in SPAN.finditer(cell):
            before, text, place = cell[place:span.start()], span[1].replace("<V>", ""), span.end()
            if ";" in before:
                types, group = [], []
            head, _, tail = text.partition(": ")
            clauses = tail.split(", ") if tail else []
            if FILE_NAME.fullmatch(text):
                self.expect(self.is_file([crate], text), where, f"there is no file `{text}`")
                continue
            if re.fullmatch(r"[A-Z]\w*(?:\.\w+)+", text):
                self.expect(self.is_definition([crate], text), where, f"there is no definition `{text}`")
                continue
            if before.strip() == ":" and group:
                for function in group:
                    self.expect_clauses(where, function, text.split(", "))
                continue
            path = head.split("::")
            if not all(IDENTIFIER.fullmatch(part) for part in path):
                continue
            if len(path) > 1:
                found = self.functions_at([crate], path)
                self.expect(found and any(f.is_pub or path[0] == "tests" for f in found), where, f"there is no public function `{head}`")
                types = [path[-2]]
            else:
                named = [f for f in crate.functions if f.name == head and f.is_pub]
                # Those of the types that were named last, or else the crate's free one.
                found = [f for f in named if f.owner in types] or [f for f in named if not f.owner and not types]
                if not found and head in crate.types:
                    types = types + [head] if before.strip() == "and" else [head]
                    self.expect_of_type(where, crate, head, clauses)
                    continue
                found = found if found or types and clauses else named
                if not found and not clauses:
                    in_tests = "`tests::" in cell and any(f.name == head for f in crate.tests)
                    self.expect(in_tests or self.is_known(head), where, f"nothing is named `{head}`")
                    continue
                self.expect(found, where, f"there is no public function `{head}`")
            group = group + found if not clauses else group
            for function in found if len(found) == 1 or not clauses or types else []:
                self.expect_clauses(where, function, clauses)
            if len(found) > 1 and clauses and not types:
                carried = any(set(clauses) <= self.sources.clauses_of(f) for f in found)
                self.expect(carried, where, f"no `{head}` has the clauses {', '.join(clauses)}")

    def expect_of_type(self, where, crate, name, words):
        own = {clause for f in crate.functions if f.owner == name for clause in self.sources.clauses_of(f)}
        for word in words:
            has = (name, word) in crate.met or word in own
            self.expect(has, where, f"`{name}` has no clause `{word}` and meets no such trait")

    def expect_clauses(self, where, function, clauses):
        for clause in clauses:
            self.expect(clause in self.sources.clauses_of(function), where, f"`{function}` has no clause `{clause}`")

    def check_promises(self):
        for item in items_of("docs/PROMISES.md", ["carried by"]):
            if not (heading := re.match(r"## `(\w+)`", item.heading)):
                continue
            crate = self.crates.get(heading[1])
            self.expect(crate, item.where, f"there is no crate `{heading[1]}`")
            carriers = item.below.get("carried by", "")
            self.expect(carriers, item.where, "no line `carried by` stands below it")
            if crate:
                for path in (text.split("::") for text in SPAN.findall(item.text)):
                    if all(IDENTIFIER.fullmatch(part) for part in path):
                        found = any(f.is_pub for f in self.functions_at([crate], path)) or self.is_known(path[-1])
                        self.expect(found, item.where, f"nothing is named `{'::'.join(path)}`")
                self.hold_carriers(item.where, crate, carriers)

    def check_public(self):
        """The page of clauses tells each public function by its comment."""
        for function in self.sources.public():
            self.expect(function.first_sentence(), function.where(), f"`{function}` has a public contract, and no comment")

    # What want of memory leaves

    def check_memory(self):
        """Each public call that may want memory has clauses that tell what that leaves, and what meets it."""
        wanting = self.sources.wanting()
        for function in wanting:
            if function.is_lent_to_change():
                self.expect(self.sources.left_by(function), function.where(), f"no clause tells what `{function}` leaves where it finds no memory")
        for name, left in LEFT_BY.items():
            found = [function for function in wanting if str(function) == name]
            where = "tools/left_by.toml"
            self.expect(found, where, f"it has `{name}`, which is no public call that may want memory")
            for function in found:
                needs = function.is_lent_to_change() and self.sources.left_by(function) == left
                self.expect(needs, where, f"it has `{name}`, of which clauses tell it by their names")
                self.expect_clauses(where, function, left if isinstance(left, list) else [])
        self.hold_met(wanting)

    def hold_met(self, wanting):
        """Single calls name the public calls that they make; tests/hostile/calls.txt has a row for each other call, and no further ones."""
        single, called = set(), set()
        for path in sorted((ROOT / "tests/hostile/calls").glob("*.rt.in")):
            for name in SINGLE_CALL.findall(path.read_text()) if path.name not in NO_CALLS else []:
                found = [f for it in self.crates.values() for f in it.functions if f.is_pub and f.may_want_memory() and f.path() == name.split(" ")[0]]
                told = f"the single call `{name}` names no public call that may want memory, or several"
                self.expect(len(found) == 1, str(path.relative_to(ROOT)), told)
                single.add(name)
                called |= {str(function) for function in found}
        rows = self.rows_of_calls(single)
        names = {str(function) for function in wanting}
        for name in sorted(names - called):
            self.expect(name in rows, CALLS, f"no single call is named `{name.split(' ')[1]}`, and there is no row for `{name}`")
        for name in rows:
            self.expect(name in names, CALLS, f"`{name}` is no public call that may want memory")
            self.expect(name not in called, CALLS, f"`{name}` has a single call of its own, and needs no row")

    def rows_of_calls(self, single):
        """The calls of tests/hostile/calls.txt, whose rows name single calls of others, parts of the harness in italics, and cases."""
        parts, rows = (ROOT / "tests/hostile/hostile.py").read_text(), set()
        for number, line in enumerate((ROOT / CALLS).read_text().splitlines(), 1):
            if not line or line.startswith("#"):
                continue
            name, _, told = line.partition(": ")
            where = f"{CALLS}:{number}"
            rows.add(name)
            self.expect(told, where, "nothing is named that meets it")
            for what in filter(None, told.split(", ")):
                kind, _, text = what.partition(" ")
                is_there = {"call": text in single, "part": f'"{text}": lambda' in parts, "case": (ROOT / "tests/cases" / text).is_dir()}
                self.expect(text and is_there.get(kind), where, f"there is no `{what}`")
        return rows

    # DEFINITIONS, and the other documents

    def check_definitions(self):
        """Each definition has a comment, and the page of definitions has all of them."""
        self.checked += definitions.document().count("\n- `")
        self.findings += definitions.bare()

    def check_names(self):
        documents = [ROOT / name for name in ("README.md", "CHANGELOG.md", "CONTRIBUTING.md", "examples/README.md")]
        everywhere = list(self.crates.values())
        for path in filter(pathlib.Path.is_file, [*documents, *sorted((ROOT / "docs").glob("*.md"))]):
            for number, paragraph in paragraphs_of(path):
                where = f"{path.relative_to(ROOT)}:{number}"
                if path.name == "PROMISES.md" and paragraph.lstrip().startswith("- "):
                    continue
                for text in SPAN.findall(paragraph):
                    parts = text.split(": ")[0].split("::")
                    if len(parts) > 1 and all(IDENTIFIER.fullmatch(part) for part in parts):
                        # A function, a variant, a field, a constant or a ghost of a type, or an item of a module.
                        owners = [it for it in everywhere if parts[-2] in it.types or parts[-2] in self.crates]
                        is_there = self.functions_at(everywhere, parts) or any(it.knows(parts[-1]) for it in owners)
                        self.expect(is_there, where, f"there is no `{text}`")
                    elif re.fullmatch(r"[A-Z][a-z]\w*\.[A-Za-z_]\w*", text) and not FILE_NAME.fullmatch(text):
                        self.expect(self.is_definition([], text), where, f"there is no definition `{text}`")
                    elif re.fullmatch(r"(?:\w+/)+[\w./-]+\.(?:rt|antt|md|py|script|output)", text):
                        self.expect(self.is_file(everywhere, text), where, f"there is no file `{text}`")

    def check_crates(self):
        # Counts of what may wait may stand behind a name.
        rows = re.findall(r"^(\w+)(?: .*?)?: (.*)$", (ROOT / "crates.txt").read_text(), re.M)
        below = {name: set(libraries.split()) for name, libraries in rows if name in self.crates}
        told = {named[1] for item in items_of("docs/ARCHITECTURE.md", []) if (named := re.match(r"`(pc_\w+)`: ", item.text))}
        self.expect(told == set(self.crates) == set(below), "docs/ARCHITECTURE.md", "its crates are not those of crates.txt")
        arrows = re.findall(r"^    (\w+) --> (\w+)$", (ROOT / "docs/ARCHITECTURE.md").read_text(), re.M)
        drawn = {name: {lower for upper, lower in arrows if upper == name} for name in below}
        for upper, lower in arrows:
            self.expect(lower in below.get(upper, ()), "docs/ARCHITECTURE.md", f"an arrow from `{upper}` to `{lower}`, on which it does not stand")
        for name in below:
            missing = all_below(below, name) & set(self.crates) - all_below(drawn, name)
            self.expect(not missing, "docs/ARCHITECTURE.md", f"no arrows lead from `{name}` to {', '.join(sorted(missing))}")

    def check_refusals(self):
        text = (ROOT / "crates/pc_calls/src/refusal.rt").read_text()
        refusals = set(re.findall(r"^    (\w+)(?:\(\w+\))?,$", re.search(r"enum Refusal \{(.*?)^\}", text, re.M | re.S)[1], re.M))
        told = set(re.findall(r"^- `(\w+)[^`]*`", (ROOT / "docs/FORMATS.md").read_text(), re.M))
        for refusal in sorted(refusals):
            self.expect(refusal in told, "docs/FORMATS.md", f"it has no item for `{refusal}`")

    def check_advice(self):
        """The refusals that an explained script tells of, and those of docs/FORMATS.md: the same names and reasons."""
        source = ROOT / "crates/pc_explain/src/reasons.rt"
        bodies = re.findall(r"fn reason\(.*?\n(?:    )?\}", source.read_text(), re.S)
        reasons = dict(re.findall(r"::(\w+)(?:\(_\))? =>\s*(?:\{\s*)?\"([^\"]*)\"", "".join(bodies)))
        items = [item for item in items_of("docs/FORMATS.md", ["accepted"]) if item.heading == "## Refusals" and "accepted" in item.below]
        told = dict(re.match(r"`(\w+)[^`]*`: (.*)", item.text).groups() for item in items)
        where = "docs/FORMATS.md"
        self.expect(set(told) == set(reasons), where, "its refusals are not those of crates/pc_explain/src/reasons.rt")
        for name, reason in told.items():
            self.expect(reasons.get(name) == reason, where, f"`{name}` has not the words `{reasons.get(name)}` of crates/pc_explain/src/reasons.rt")

    def check_examples(self):
        inputs, folder = {".script", ".toml"}, ROOT / "examples"
        page = folder / "README.md"
        told = set(SPAN.findall(page.read_text()))
        for example in sorted(it for it in folder.glob("**/*.*") if it != page):
            name = str(example.relative_to(folder))
            is_told = any(fnmatch.fnmatchcase(name, it) for it in told)
            self.expect(is_told, "examples/README.md", f"it does not tell of `{name}`")
            if example.suffix in inputs and example.parent == folder:
                self.expect(example.with_suffix(".output").is_file(), f"examples/{name}", "it has no output beside it")
            elif example.suffix == ".output":
                beside = any(example.with_suffix(suffix).is_file() for suffix in inputs)
                self.expect(beside, f"examples/{name}", "it has no script or settings beside it")

    def check_shown_code(self):
        every = ([*map(str.strip, path.read_text().splitlines())] for path in ROOT.glob("crates/pc_*/src/**/*.rt"))
        tests = ["\n".join(lines) for lines in every if "#[test]" in lines]
        for root in sorted(ROOT.glob("crates/*/src/lib.rt")):
            docs = "\n".join(line[3:].strip() for line in root.read_text().splitlines() if line.startswith("//!"))
            for block in docs.split("```")[1::2]:
                stands = any(block.strip() in text for text in tests)
                self.expect(stands, str(root.relative_to(ROOT)), "the code that it shows is in no test")

    def check_versions(self):
        source = (ROOT / "crates/pc_program/src/command_line.rt").read_text()
        version = re.search(r'^const VERSION: &str = "(.*)";$', source, re.M)[1]
        self.expect((ROOT / "tests/cases/the-version/stdout").read_text() == f"pc-sim {version}\n", "tests/cases/the-version", f"not {version}")
        changes = (ROOT / "CHANGELOG.md").read_text()
        told = re.search(r"\bversion ([\d.]+\d)|^## \[([\d.]+)\]", changes, re.M)
        self.expect((told[1] or told[2]) == version, "CHANGELOG.md", f"its first version is not {version}")
        release = re.search(r"^## \[([\d.]+)\] - ([\d-]+)$", changes, re.M)
        page = re.search(r'^\.TH PC-SIM 1 ([\d-]+) "pc-sim ([\d.]+)" ', (ROOT / "docs/pc-sim.1").read_text(), re.M)
        is_dated = release and page and release.groups() == (page[2], page[1])
        self.expect(bool(is_dated), "docs/pc-sim.1", "its version and date are not those of CHANGELOG.md")
        words = re.findall(r"`(rattle-kit-\w+|logic \w+)`", (ROOT / "README.md").read_text())
        if shutil.which("rt"):
            found = subprocess.run(["rt", "version"], capture_output=True, text=True, check=True).stdout.strip()
            kit, _, logic = found.partition(" ")
            self.expect({kit, logic} <= {*words}, "README.md", f"the kit here is {found}, not one of {words}")

    def tidy(self, look):
        """What a function of tests/tidy.py looks at, and finds."""
        checked, findings = look(ROOT)
        self.checked += checked
        self.findings += findings


def main():
    checker, failed = Checker(), 0
    checks = [getattr(checker, name) for name in vars(Checker) if name.startswith("check_")]
    checks += [partial(checker.tidy, getattr(tidy, name)) for name in TIDY]
    for check in checks:
        before = len(checker.findings)
        check()
        failed += len(checker.findings) > before
    print("".join(f"documents, {finding}\n" for finding in checker.findings), end="")
    print(f"documents: {checker.checked} looked at, {len(checker.findings)} findings")
    print(f"{len(checks) - failed} passed, {failed} failed")
    return 1 if failed else 0


if __name__ == "__main__":
    sys.exit(main())

#!/usr/bin/env python3
"""Prints what the contracts say, made from the sources. Nothing of it is kept: it is made for who asks, and by tools/package.

    tools/definitions.py            the definitions of crates/*/specs/*.antt, by their comments: what is proved against
    tools/definitions.py --clauses  each public function, what it does, its clauses, and what tells what want of memory leaves
    tools/definitions.py --bare     each definition that has no comment, a line each, with exit status 1 where there is one

Crates stand in the order of crates.txt, and the files of a crate each behind those of the crate that it uses, else in
the order of specs/Lib.antt. The comment at the head of specs/Lib.antt introduces the crate, that at the head of a file
the file. A comment directly above a public definition is that definition's; one with an empty line behind it stands
where it is, as prose, and one that begins with `----` as a heading. A comment above or behind a field or a constructor
is told below its record or type. specs/Inner is left out.
"""
import collections
import itertools
import re
import sys
import textwrap

from sources import ROOT, Sources

WIDTH = 120
COMMENT = re.compile(r"( *)-- ?(.*)")
DEFINITION = re.compile(r"( *)(?:[a-z]+ )*?pub (?:(record|data|mod) )?([^\s:(){}]+)")
CONSTRUCTOR = re.compile(r" +([^\s:(){}]+) :")
# How the pages begin, and the table at the end of the first.
PAGES = ("definitions.txt", "clauses.txt", "how_much.txt")
HEAD, CLAUSES_HEAD, TABLE_HEAD = ((ROOT / "tools/pages" / name).read_text() for name in PAGES)


def crates():
    """The crates that have definitions, in the order of crates.txt."""
    lines = (ROOT / "crates.txt").read_text().splitlines()
    names = [line.split(":")[0].split(" ")[0] for line in lines if ":" in line and not line.startswith("#")]
    return [name for name in names if (ROOT / "crates" / name / "specs/Lib.antt").is_file()]


def files_of(crate):
    """The files at the top of the crate's specs/, each behind those that it uses."""
    folder = ROOT / "crates" / crate / "specs"
    listed = re.findall(r"^pub mod (\w+)$", (folder / "Lib.antt").read_text(), re.M)
    names = [name for name in listed if name != "Inner" and (folder / f"{name}.antt").is_file()]
    used = re.compile(rf"^use Rattle\.{crate}\.specs\.(\w+)", re.M)
    uses = {name: {*used.findall((folder / f"{name}.antt").read_text())} & {*names} - {name} for name in names}
    ordered = []
    while left := [name for name in names if name not in ordered]:
        ordered.append(next((name for name in left if uses[name] <= set(ordered)), left[0]))
    return [folder / f"{name}.antt" for name in ordered]


Definition = collections.namedtuple("Definition", "name line comment is_field kind")


def read(path):
    """The comment at the file's head, and then, in order, definitions and pieces of prose."""
    found, comment, column, group, depth, lines = [], [], 0, "", 0, path.read_text().splitlines()
    head = [COMMENT.match(line)[2] for line in itertools.takewhile(lambda line: line.startswith("--"), lines)]
    for number, line in enumerate(lines[len(head):], len(head) + 1):
        if told := COMMENT.match(line):
            comment, column = (comment if comment and column == len(told[1]) else []) + [told[2]], len(told[1])
            continue
        defined = DEFINITION.match(line)
        text = " ".join(comment).strip()
        is_inner = group in ("record", "data") and line.startswith(" " * (depth + 1))
        if is_inner and (inner := defined or CONSTRUCTOR.match(line)):
            if text := text or line.partition("  -- ")[2]:
                found.append(Definition(inner[inner.lastindex], number, text, True, ""))
        elif defined and not line.startswith("use "):
            group, depth = defined[2] or "", len(defined[1])
            found.append(Definition(defined[3], number, text, False, group))
        elif not line and comment and column == 0:
            found.append(f"**{sentence(text.strip('- '))[:-1]}**" if text.startswith("---") else sentence(text))
        comment = []
    return " ".join(head), found


def sentence(text):
    """The text with a capital letter in front and a full stop behind it."""
    first = text[:1].upper() + text[1:] if not text.startswith("`") else text
    return first if first.endswith((".", "?", "!", ":")) else first + "."


def wrapped(text, first="", rest=""):
    indents = {"initial_indent": first, "subsequent_indent": rest}
    return textwrap.fill(text, WIDTH, **indents, break_long_words=False, break_on_hyphens=False)


def listed(item):
    told, indent = f"`{item.name}`" + (f": {item.comment}" if item.comment else ""), "  " * item.is_field
    return wrapped(told, indent + "- ", indent + "  ")


def document():
    parts = [HEAD]
    for crate in crates():
        introduction, _ = read(ROOT / "crates" / crate / "specs/Lib.antt")
        if files := files_of(crate):
            parts.append(f"## `{crate}`\n" + (f"\n{wrapped(introduction)}\n" if introduction else ""))
        for path in files:
            head, found = read(path)
            piece, in_list = [f"### `{path.stem}`\n", wrapped(sentence(head)) + "\n"], False
            for item in (it for it in found if isinstance(it, str) or it.kind != "mod"):
                is_text = isinstance(item, str)
                if (is_text or not in_list) and piece[-1][-1:] != "\n":
                    piece.append("")
                piece.append(wrapped(item) + "\n" if is_text else listed(item))
                in_list = not is_text
            parts.append("\n".join(piece).rstrip("\n") + "\n")
    return "\n".join(parts + [table()])


def table():
    """How many lines of specs/ each crate has."""
    def count(crate, pattern):
        paths = (ROOT / "crates" / crate / "specs").glob(pattern)
        return sum(len(path.read_text().splitlines()) for path in paths if path.name not in ("Lib.antt", "Inner.antt"))

    counts = {crate: (count(crate, "*.antt"), count(crate, "Inner/**/*.antt")) for crate in crates()}
    rows = [f"| `{crate}` | {top:,} | {inner or '-'} |\n" for crate, (top, inner) in counts.items() if top]
    top, inner = (sum(column) for column in zip(*(it for it in counts.values() if it[0])))
    return TABLE_HEAD + "".join(rows) + f"| all | {top:,} | {inner:,} |\n"


def bare():
    """The definitions that have no comment."""
    found = []
    for path in (path for crate in crates() for path in files_of(crate)):
        (head, items), name = read(path), path.relative_to(ROOT)
        bare = (it for it in items if not isinstance(it, str) and not it.comment and it.kind != "mod")
        found += [] if head else [f"{name}:1: no comment at its head"]
        found += [f"{name}:{it.line}: `{it.name}` has no comment" for it in bare]
    return found


def clauses():
    """The page of all public functions."""
    sources, parts = Sources(), [CLAUSES_HEAD]
    public, wanting = sources.public(), sources.wanting()
    told = public + [function for function in wanting if function not in public]
    for crate in crates():
        items = [item_of(sources, function, function in wanting) for function in told if function.crate == crate]
        parts += [f"## `{crate}`\n", "\n".join(items) + "\n"] if items else []
    return "\n".join(parts)


def item_of(sources, function, is_wanting):
    """A function with the first sentence of its comment, and its clauses."""
    names = [f"`{name}`" for name in sources.clauses_of(function)]
    module = function.module.split("/")[0]
    path = f"{module}::{function.path()}" if module in sources.crates[function.crate].open_modules else function.path()
    told = [wrapped(f"`{path}`: {function.first_sentence() or 'as its trait has it.'}", "- ", "  ")]
    told.append(wrapped("clauses: " + (", ".join(names) or "one without a name"), "  - ", "    "))
    if is_wanting:
        left = sources.left_by(function)
        by = left if isinstance(left, str) else ", ".join(f"`{name}`" for name in left)
        told.append(wrapped("want of memory leaves: " + (by or "nothing, since nothing is lent to be changed"), "  - ", "    "))
    return "\n".join(told)


def main(words):
    if words == ["--bare"]:
        found = bare()
        print("\n".join(found) or "each definition has a comment")
        return 1 if found else 0
    if words not in ([], ["--clauses"]):
        print(__doc__, file=sys.stderr)
        return 2
    print(clauses() if words else document(), end="")
    return 0


if __name__ == "__main__":
    sys.exit(main(sys.argv[1:]))

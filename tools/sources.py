"""Reads the names of the crates' sources and definitions: functions with their clauses and comments, types, records, tests.

For tools/definitions.py, which prints them, and tests/check_documents.py, which holds documents against them.
"""
import pathlib
import re
import tomllib
from dataclasses import dataclass, field

ROOT = pathlib.Path(__file__).resolve().parent.parent
IDENTIFIER = re.compile(r"[A-Za-z_]\w*")

# A name inside a type or a trait: a ghost, a constant, or a field.
INNER_NAME = re.compile(r"\bghost (\w+)[ :=]|\bconst ([A-Z_]+):|^    (?:pub )?(\w+): ")
# A record of specs/, whose head may take several lines, and its fields.
RECORD = re.compile(r"^pub record (\w+)(?:.*\n)*?.*\bwhere\n((?: +.*\n)*)", re.M)
# A caller's crate, to copy: it promises nothing of the program.
EXAMPLE = "pc_example"

# Errors that may be want of memory.
WANTING = re.compile(
    r"->.*Result<.*\b(?:OutOfMemory|AllocError|(?!(?:Mask|Level|Config|Order|Rank)Fault)\w+Fault)\b", re.S)
# An ending of the program may be one too, where the call may allocate.
ENDING = re.compile(r"\balloc: Global\b.*->.*\b(?:Lab)?Ending\b", re.S)
# What want of memory leaves, clauses of these names tell.
LEAVING = {"between", "err", "list_err", "memory", "memory_last", "no_memory", "out_of_memory", "partly", "unanswered", "untouched", "unwritten"}
# Of some calls clauses of other names tell it; or none does, and why.
LEFT_BY = tomllib.loads((ROOT / "tools/left_by.toml").read_text())


@dataclass
class Function:
    crate: str
    owner: str  # the type or trait, or "" of a free function
    module: str  # the file's path under src, without its suffix
    name: str
    is_pub: bool
    of_trait: str = ""  # the trait that an impl meets, or that declares it
    clauses: dict = field(default_factory=dict)  # their names, in order
    records: dict = field(default_factory=dict)  # what its clauses begin with: where that is a record, its fields are clauses too
    has_contract: bool = False
    head: str = ""  # its parameters and what it answers
    comment: str = ""

    def may_want_memory(self):
        return bool(WANTING.search(self.head) or ENDING.search(self.head)) and "succeeds" not in self.clauses

    def is_lent_to_change(self):
        return "&mut" in self.head

    def where(self):
        return f"crates/{self.crate}/src/{self.module}.rt"

    def path(self):
        return f"{self.owner}::{self.name}" if self.owner else self.name

    def first_sentence(self):
        return re.split(r"(?<=[.!?])\s", self.comment, maxsplit=1)[0]

    def __str__(self):
        return f"{self.crate} {self.path()}"


class Crate:
    """The names of one crate's sources and definitions."""

    def __init__(self, folder):
        self.name, self.folder = folder.name, folder
        self.functions, self.tests, self.types, self.words, self.traits, self.met = [], [], set(), set(), set(), set()
        for path in sorted(folder.glob("src/**/*.rt")):
            module = str(path.relative_to(folder / "src").with_suffix(""))
            is_test = module == "tests" or module.startswith("tests/")
            self.read_source(path.read_text(), module, self.tests if is_test else self.functions)
        root = folder / "src/lib.rt"
        text = (root if root.is_file() else folder / "src/main.rt").read_text()
        self.is_program = not root.is_file()
        self.open_modules = set(re.findall(r"^pub mod (\w+);", text, re.M))
        used = re.findall(r"^pub use [\w:]*::(?:\{([^}]*)\}|(\w+));", text, re.M)
        self.exports = {name for many, one in used for name in IDENTIFIER.findall(many or one)}
        self.definitions, self.fields = {}, {}
        for path in folder.glob("specs/**/*.antt"):
            module = ".".join(path.relative_to(folder / "specs").with_suffix("").parts)
            found = re.findall(r"^\s*(?:[a-z]+ )*?pub (?:record |data |mod )?([^\s:(){}]+)", path.read_text(), re.M)
            self.definitions[module] = {*found, *re.findall(r"^  (\w+) :", path.read_text(), re.M)}
            for name, fields in RECORD.findall(path.read_text()):
                self.fields[name] = dict.fromkeys(re.findall(r"^  pub (\w+) :", fields, re.M))

    def read_source(self, text, module, into):
        owner, of_trait, last, in_enum, in_head, comment = "", "", None, False, False, []
        for line in text.splitlines():
            told = re.match(r"\s*/// ?(.*)", line)
            comment += [told[1]] if told else []
            if line.startswith("}"):
                owner, of_trait, last, in_enum = "", "", None, False
            if header := re.match(r"impl(.*?)\{?$", line):
                of_trait, owner = impl_names(header[1])
                self.met.add((owner, of_trait))
            if declared := re.match(r"(?:pub(?:\(crate\))? )?(struct|enum|trait) (\w+)", line):
                self.types.add(declared[2])
                in_enum = declared[1] == "enum"
                if declared[1] == "trait":
                    self.traits.add(declared[2])
                    owner = of_trait = declared[2]
            if in_enum and (variant := re.match(r"    (\w+)(?:[,({ ]|$)", line)):
                self.words.add(variant[1])
            if inner := INNER_NAME.search(line):
                self.words |= set(filter(None, inner.groups()))
            self.words |= set(re.findall(r'b"(\w+)"', line))  # words of a script
            if function := re.match(r"\s*(pub(?:\(crate\))? )?(?:const )?fn (\w+)", line):
                is_pub = function[1] == "pub " or owner in self.traits or bool(of_trait)
                last = Function(self.name, owner, module, function[2], is_pub, of_trait, comment=" ".join(comment))
                into.append(last)
            in_head = bool(function) or in_head and not re.match(r"\s*(?:ensures|requires|where|\{)", line)
            if in_head:
                last.head += line
                in_head = "{" not in line and not line.endswith(";")
            if (clause := re.match(r"\s*ensures (?:(\w+) )?\{(?: (\w+))?", line)) and last:
                last.has_contract = True
                last.clauses |= {clause[1]: None} if clause[1] else {}
                last.records |= {clause[2]: None} if clause[2] else {}
            comment = comment if told or re.match(r"\s*(?:#\[|//)", line) else []

    def exported(self, function):
        if not function.is_pub or function.of_trait not in ("", function.owner):
            return False
        if self.is_program:
            return function.module == "main" and not function.owner
        is_open = not function.owner and function.module.split("/")[0] in self.open_modules
        return (function.owner or function.name) in self.exports or is_open

    def knows(self, word):
        sets = (self.types, self.words, self.definitions, *self.definitions.values(), {trait for _, trait in self.met})
        return any(word in it for it in sets) or any(f.name == word or word in f.clauses for f in self.functions)


def impl_names(header):
    """The trait (or none) and the type of an impl's header, without what stands in angle brackets."""
    text, count = header.replace("->", ""), 1
    while count:
        text, count = re.subn(r"<[^<>]*>", "", text)
    names = [(re.match(r"(?:\w+::)*(\w+)", part.strip()) or ["", ""])[1] for part in text.strip().split(" for ")]
    return (names[0] if len(names) > 1 else "", names[-1])


class Sources:
    """All crates, and what is known of their functions only where all of them are."""

    def __init__(self):
        folders = [path for path in sorted((ROOT / "crates").iterdir()) if (path / "src").is_dir()]
        self.crates = {folder.name: Crate(folder) for folder in folders}

    def fields_of(self, crate, name):
        """The fields of a record of the crate, or else of another one; none where nothing else is a record of this name."""
        own = self.crates[crate].fields.get(name)
        found = [own] if own is not None else [it.fields[name] for it in self.crates.values() if name in it.fields]
        return [word for fields in found for word in fields]

    def clauses_of(self, function):
        """Its own clauses, those of the trait's method that it meets, and the fields of the records that they are, in order."""
        clauses = [*function.clauses, *(word for name in function.records for word in self.fields_of(function.crate, name))]
        if function.of_trait not in ("", function.owner):
            every = (it for crate in self.crates.values() for it in crate.functions if it.name == function.name)
            clauses += (word for it in every if it.owner == it.of_trait == function.of_trait for word in it.clauses)
        return list(dict.fromkeys(clauses))

    def public(self):
        """The functions with a contract that crates export, but for the crate that is an example."""
        everywhere = (function for crate in self.crates.values() for function in crate.functions)
        return [it for it in everywhere if it.has_contract and self.crates[it.crate].exported(it) and it.crate != EXAMPLE]

    def wanting(self):
        """The public calls that may want memory."""
        return [it for crate in self.crates.values() for it in crate.functions if self.is_wanting(crate, it)]

    def is_wanting(self, crate, function):
        """Whether a call is public and may want memory. The methods of `Join` are told of each type that has them."""
        if function.of_trait == "Join":
            return function.owner != "Join" and function.owner in crate.exports and function.may_want_memory()
        return crate.exported(function) and function.may_want_memory() and function.crate != EXAMPLE

    def left_by(self, function):
        """The clauses that tell what the call leaves where it finds no memory, or why none does."""
        return [it for it in self.clauses_of(function) if it in LEAVING] or LEFT_BY.get(str(function), [])

"""Checks of files and commits, for tests/check_documents.py: each answers how much was looked at, and its findings."""
import collections
import itertools
import pathlib
import re
import subprocess
import tomllib

WIDTH = 120
TITLE_WIDTH = 72
MOST_WORDS = 40
# So many words a page has at most, and all together.
PAGES = tomllib.loads((pathlib.Path(__file__).parent / "pages.toml").read_text())
MOST_OF_PAGE, MOST_OF_ALL = PAGES["page"], PAGES["all"]
# A document's block of code, a table's line, a heading, or what begins an item.
CODE, ITEM = re.compile(r"^(?:    |\t)"), re.compile(r"^ *(?:[-*]|\d+\.) +")
NO_PROSE = re.compile(r"^(?:\||#|<!--)")
# What an item of docs/PROMISES.md is carried by is a list of names.
NAMES_ALONE = re.compile(r"^carried by\b")
SENTENCE_END = re.compile(r"(?<=[.!?])[)\"*_]*\s+(?=[A-Z`*(\"0-9]|ghOSt\b)")
# The titles of commits since this moment are looked at.
TITLES_SINCE = "2026-11-27T00:00:00+00:00"
UNDER_WAY = re.compile(r"\b(?:wip|merge[sd]?)\b", re.I)
# What cites by a number: a theorem or definition, a request, a row of a table, an issue.
NUMBERED = re.compile(r"\bT\d\.\d+|\b[DRW]\d+\b|\brows? \d+\b|\b[Ii]ssue #?\d+|\b(?:paper|theorem|request)s? 0?\d+\b")
SOURCES = {".rt", ".antt", ".edit", ".md", ".txt", ".py", ".sh", ".script", ".output", ".toml", ""}
# A comment, a string, or a character.
STRING = re.compile(r"//[^\n]*|b?r(#*)\".*?\"\1|b?\"(?:[^\"\\]|\\.)*\"|b?'(?:[^'\\\n]|\\[^'\n]*.)'", re.S)
# Folders of what is made.
UNTRACKED = {".git", ".mypy_cache", ".trees", "__pycache__", "dist", "out"}
# So many lines make twins of two places; one that stands in more places than that is what all files have.
TWIN_LINES, TWIN_PLACES = 6, 8
TWINS = "tests/twins.txt"
TWIN_ROW = re.compile(r"(\S+) ~ (\S+): (\S.*)")
# Of each kind of source: what begins a comment, and of how many sorts the lines of a place have to be at least.
TWIN_KINDS = {".rt": ("//", 3), ".antt": ("--", 2), ".py": ("#", 3)}
IMPORTED = re.compile(r"(?:pub(?:\(crate\))? )?(?:ghost use|use|mod|import|from)\b")
TWIN_TOKEN = re.compile(r"\"(?:[^\"\\]|\\.)*\"|'(?:[^'\\\n]|\\.)'|\d[\w.]*|[^\W\d][\w']*|[^\s\w]")
# Words that are no names: two lines are alike only where these are.
TWIN_WORDS = set(
    "fn let mut if else match for in while return ensures requires impl struct enum trait pub ghost where self Self result old now const as "
    "def class with try except assert not and or is None True False lambda yield raise record data case of derive "
    "u8 u16 u32 u64 i64 usize bool str Vec Option Result Some Ok Err Box Drop Clone Copy Debug PartialEq Eq alloc Global true false".split())
# What a tool looks for by itself, and so nobody has to name.
FOUND_BY_NAME = re.compile(r"^(?:tests/(?:cases|lab_faults)/|examples/lab/worked/|README\.md$)")


def all_files(root):
    """The files of the repository, without what is built."""
    paths = (path for path in sorted(root.rglob("*")) if not UNTRACKED & set(path.relative_to(root).parts))
    return filter(pathlib.Path.is_file, paths)


def in_strings(text):
    """The lines of a source that are too wide by a string literal, which no line break may cut."""
    found = set()
    for told in STRING.finditer(text):
        if told[0].startswith(("//", "'")):
            continue
        number, column = text.count("\n", 0, told.start()) + 1, told.start() - text.rfind("\n", 0, told.start()) - 1
        for further, line in enumerate(told[0].split("\n")):
            begin = 0 if further else column
            if begin <= WIDTH < begin + len(line):
                found.add(number + further)
    return found


def widths(root):
    """Lines of documents, sources and definitions that are too wide; proofs aside."""
    kinds = ("*.md", "docs/**/*.md", "examples/*.md", "crates/*/src/**/*.rt", "crates/*/specs/**/*.antt")
    checked, findings = 0, []
    for path in sorted(path for kind in kinds for path in root.glob(kind)):
        text = path.read_text()
        lines, literal = text.splitlines(), in_strings(text) if path.suffix == ".rt" else set()
        checked += len(lines)
        wide = (it for it in enumerate(lines, 1) if len(it[1]) > WIDTH and it[0] not in literal)
        findings += [f"{path.relative_to(root)}:{number}: {len(line)} columns" for number, line in wide]
    return checked, findings


def paragraphs(text):
    """The paragraphs and items of a document, each with the number of its first line."""
    number, lines, fenced = 0, [], False
    for place, line in enumerate([*text.splitlines(), ""], 1):
        fenced ^= line.startswith("```")
        begins = ITEM.match(line)
        ends = fenced or not line.strip() or NO_PROSE.match(line) or CODE.match(line) and not lines and not begins
        if lines and (ends or begins):
            yield number, " ".join(lines)
            lines = []
        if not ends:
            number = number if lines else place
            lines.append(ITEM.sub("", line).strip())


def words(root):
    """Pages that have too many words, or that all together have."""
    counts = {str(path.relative_to(root)): len(path.read_text().split()) for path in all_files(root) if path.suffix == ".md"}
    findings = [f"{name}: {count} words, and {MOST_OF_PAGE[name]} at most" for name, count in counts.items() if count > MOST_OF_PAGE.get(name, count)]
    findings += [f"{name}: there is no such page, and it has a bound" for name in MOST_OF_PAGE if name not in counts]
    if sum(counts.values()) > MOST_OF_ALL:
        findings.append(f"all pages: {sum(counts.values())} words, and {MOST_OF_ALL} at most")
    return len(counts), findings


def sentences(root):
    """Sentences of documents that have too many words; what stands in backquotes is one."""
    checked, findings = 0, []
    for path in sorted({*root.glob("*.md"), *root.glob("docs/*.md"), *root.glob("examples/*.md")}):
        for number, paragraph in paragraphs(path.read_text()):
            for sentence in [] if NAMES_ALONE.match(paragraph) else SENTENCE_END.split(paragraph):
                checked += 1
                if (count := len(re.sub(r"`[^`]*`", "x", sentence).split())) > MOST_WORDS:
                    findings.append(f"{path.relative_to(root)}:{number}: {count} words: {sentence[:60]}")
    return checked, findings


def files(root):
    """Files of docs/, examples/, tools/, tests/ and bench/ whose name stands in no other file. A case of tests/cases is
    found by the tool that runs it. A module is named where it is imported, or by `mod NAME;`."""
    kinds = SOURCES | {".in", ".c", ".1"}
    texts = {path: path.read_text(errors="replace") for path in all_files(root) if path.suffix in kinds}
    checked, findings = 0, []
    for path in all_files(root):
        name = str(path.relative_to(root))
        if name.split("/")[0] not in ("docs", "examples", "tools", "tests", "bench") or FOUND_BY_NAME.match(name):
            continue
        checked += 1
        stem = path.name.split(".")[0]
        module = re.escape(stem)
        imported = {".py": rf"|\bimport [\w, ]*\b{module}\b|\bfrom {module} import\b", ".in": rf"|\bmod {module};"}
        wanted = re.compile(rf"(?<![\w-]){re.escape(path.name)}(?![\w-])" + imported.get(path.suffix, ""))
        if not any(stem in text and wanted.search(text) for other, text in texts.items() if other != path):
            findings.append(f"{name}: no other file names it")
    return checked, findings


def numbers(root):
    """What is cited by a number, in sources, documents and tests; the cases' own texts aside."""
    paths = {str(path.relative_to(root)): path for path in all_files(root) if path.suffix in SOURCES}
    looked_at = [name for name in paths if not name.startswith("tests/cases/") and name != "tests/tidy.py"]
    texts = ((name, paths[name].read_text(errors="replace")) for name in looked_at)
    findings = [f"{name}:{text.count(chr(10), 0, cited.start()) + 1}: it cites `{cited[0]}`"
                for name, text in texts if (cited := NUMBERED.search(text))]
    return len(looked_at), findings


def titles(root):
    """Titles of commits; none where there is no history."""
    if not (root / ".git").exists():
        return 0, []
    log = ["git", "-C", str(root), "log", "--format=%h %s", f"--since={TITLES_SINCE}"]
    told = [line.partition(" ") for line in subprocess.run(log, capture_output=True, text=True).stdout.splitlines()]
    wide = ((commit, len(title)) for commit, _, title in told if len(title) > TITLE_WIDTH)
    findings = [f"commit {commit}: its title has {length} columns" for commit, length in wide]
    words = ((commit, UNDER_WAY.search(title)) for commit, _, title in told)
    findings += [f"commit {commit}: `{word[0]}` is no word of a title" for commit, word in words if word]
    return len(told), findings


def shape(line):
    """A line with its names, strings and numbers aside."""
    def told(token):
        if token[0].isalpha() or token[0] == "_":
            return token if token in TWIN_WORDS else "x"
        return "0" if token[0].isdigit() else "s" if token[0] in "\"'" and len(token) > 2 else token

    return " ".join(map(told, TWIN_TOKEN.findall(line)))


def shapes(path, kind):
    """The shapes of a source's lines, without comments, imports, and lines of nothing but signs."""
    text, mark = path.read_text(), TWIN_KINDS[kind][0]
    if kind == ".py":
        text = re.sub(r'"""(?:.|\n)*?"""', "", text)
    lines = (re.sub(rf"{mark}(?=[^\"]*(?:\"[^\"]*\"[^\"]*)*$).*", "", line).strip() for line in text.splitlines())
    return [shape(line) for line in lines if re.search(r"\w", line) and not IMPORTED.match(line)]


def kind_of(path, name):
    """Which kind of source a file is whose twins are looked for: no tests' crate in Rattle; scripts in Python have no suffix."""
    if path.suffix == ".rt" and name.startswith("crates/pc_tests"):
        return None
    is_script = not path.suffix and path.read_bytes()[:40].startswith(b"#!/usr/bin/env python")
    return ".py" if is_script else path.suffix if path.suffix in TWIN_KINDS else None


def pairs(root):
    """The pairs of files that share six lines or more but for names, strings and numbers, and a file with itself; and how many were read."""
    read, found = 0, set()
    places = {kind: collections.defaultdict(list) for kind in TWIN_KINDS}
    for path in all_files(root):
        name = str(path.relative_to(root))
        kind = kind_of(path, name)
        lines = shapes(path, kind) if kind else []
        read += bool(lines)
        for at in range(len(lines) - TWIN_LINES + 1):
            places[kind][tuple(lines[at:at + TWIN_LINES])].append((name, at))
    for kind, (_, sorts) in TWIN_KINDS.items():
        for lines, stands in places[kind].items():
            if len(stands) <= TWIN_PLACES and len(set(lines)) >= sorts:
                every = itertools.combinations(stands, 2)
                found |= {(min(one, other), max(one, other)) for (one, at), (other, there) in every
                          if one != other or abs(at - there) >= TWIN_LINES}
    return read, found


def twins(root):
    """Pairs of files that share lines, against tests/twins.txt: each stands there with why it stays, and none that is gone."""
    checked, found = pairs(root)
    findings, told = [], set()
    for number, line in enumerate((root / TWINS).read_text().splitlines(), 1):
        if not (row := TWIN_ROW.fullmatch(line)) or (row[1], row[2]) in told:
            findings.append(f"{TWINS}:{number}: it is no row `FILE ~ FILE: why`, or stands twice")
            continue
        told.add((row[1], row[2]))
        if (row[1], row[2]) not in found:
            findings.append(f"{TWINS}:{number}: {row[1]} and {row[2]} share no {TWIN_LINES} lines any more")
    findings += [f"{one} and {other} share {TWIN_LINES} lines or more, and {TWINS} does not say why" for one, other in sorted(found - told)]
    return checked, findings

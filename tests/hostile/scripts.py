"""Scripts drawn at random: by the grammar, with numbers that mostly fit, and then with words and bytes spoilt."""
from collections import Counter
from dataclasses import dataclass, field

from kernel import GREATEST, LEAVES, ORDERS, OWN_OF_VERSION_3, answered, forms, told_of

# The limits of an enclave, by what they are to do: be met soon, be met now and then, be as wide as may be, be past the range.
LIMITS = {
    "CPUS": ([1, 2, 3], [2, 4, 8], [64], [0, 65, 255]),
    "THREADS": ([1, 2], [4, 16], [4096], [0, 4097, 65535, 65536]),
    "NUMBERS": ([2, 4], [20, 100], [1000000], [0, 1000001, 16000000, 16000001]),
    "ROOM": ([2, 4], [16, 100], [65536], [0, 65537]),
    "POSTS": ([4, 16], [100, 1000], [4294967295], [0]),
}
CPUS = ("C", "Q", "A", "B")
ODD_WORDS = [b"", b"-", b"t", b"T0", b"t-1", b"00", b"-1", b"+1", b"1.0", b"0x1", b"ready", b"fail", b"version", b"2"]
ODD_WORDS += [b"\xff", b"\x00", b"#", b"\t", b"1\r"]
LENGTHS = [1, 4, 10, 10, 20, 20, 100]


@dataclass
class Rough:
    """What the kernel may know by now, roughly: so that most commands are accepted, and not all."""

    cpus: int
    threads: int = 0
    deltas: int = 0
    posts: Counter = field(default_factory=Counter)
    running: set = field(default_factory=set)

    def number(self, chance, name, cpu):
        """A number for a word of a command on this CPU: it mostly fits."""
        if name == "ASEQ":
            return max(0, self.posts[cpu] - (chance.random() < 0.1))
        if name in CPUS:
            return chance.randrange(self.cpus + (chance.random() < 0.02))
        if name == "MASK":
            return chance.choice([2**min(self.cpus, 64) - 1] * 3 + [chance.randrange(2**min(self.cpus, 64) + 1)])
        near = {"T": self.threads, "LEVEL": 9, "RAN": 100, "NUMBER": 6, "K": self.deltas}[name]
        if chance.random() < 0.01:
            return chance.choice([near, near + 1, GREATEST[name] - 1, GREATEST[name]])
        return chance.randrange(max(1, near))

    def count(self, words, cpu):
        """Counts what the command does, where it is accepted."""
        self.threads += words[0] == b"create"
        self.deltas += words[0] in (b"publish", b"answer") and words[-1] != b"fail"
        leaves = words[0].decode() in LEAVES
        self.posts[cpu] += words[0] in (b"create", b"tick") or leaves and cpu in self.running
        if words[0] in (b"pick", b"commit"):
            self.running.add(cpu)
        elif leaves:
            self.running.discard(cpu)


def enclave(chance):
    """An enclave, whose limits are now and then out of their range."""
    sorts = (chance.choices(every, [1, 8, 4, 0.05])[0] for every in LIMITS.values())
    return [b"enclave", *(b"%d" % chance.choice(sort) for sort in sorts)]


def command(chance, rough, fields, cpu):
    """A command of the grammar: the first CPU or queue that it names is the given one."""
    words, is_first = [fields[0].encode()], True
    for name in fields[1:]:
        if name not in GREATEST:
            words.append(name.encode())
            continue
        fixed = name in CPUS and is_first and chance.random() < 0.98
        is_first = is_first and name not in CPUS
        words.append((b"t%d" if name == "T" else b"%d") % (cpu if fixed else rough.number(chance, name, cpu)))
    rough.count(words, cpu)
    return words


def policy(chance):
    """A policy of the agents."""
    return [b"policy", chance.choice(ORDERS).encode(), *([b"exact"] * (chance.random() < 0.5))]


def turn(chance, rough):
    """Some commands that follow each other often, on one CPU; or one of any sort."""
    cpu, how = chance.randrange(rough.cpus), chance.random()
    leave = [chance.choice([*LEAVES]), "C", "RAN"]
    if how < 0.2 or rough.threads == 0:
        rows = [["create", "Q", "MASK", chance.choice(["ready", "ready", "blocked"])] for _ in range(chance.choice([1, 2, 4]))]
    elif how < 0.5:
        rows = [["publish", "C"], ["consume", "C"], ["pick", "C", "ASEQ"], ["show", "C"], leave][:chance.choice([2, 3, 3, 5, 5, 5])]
    elif how < 0.65:
        rows = [chance.choice([["publish", "C"], ["answer", "C", "C"]]), ["deliver", "C", "K"], ["steal", "C"], ["same", "C", "C"]]
    else:
        rows = [chance.choice([form for form in forms() if form[0] not in {"enclave", *OWN_OF_VERSION_3}]) for _ in range(3)]
    return [command(chance, rough, row, cpu if row[0] != "deliver" else chance.randrange(rough.cpus)) for row in rows]


def lines_of(chance, rough, turns, further):
    """The lines of so many turns, behind each of which some of the lists of commands that are given for it comes."""
    lines = []
    for _ in range(turns):
        lines += turn(chance, rough)
        cpu, other = chance.randrange(rough.cpus), chance.randrange(rough.cpus)
        lines += [command(chance, rough, line.split(), cpu) for line in chance.choice(further(other))]
    return [b" ".join(line).decode() for line in lines]


def mended(script, does=lambda: True):
    """The script with the numbers of now in the lines that were refused as stale, or in some of them, so that they may be accepted."""
    lines = script.splitlines()
    for number, words, answer in answered(script, told_of(script.encode())[0]):
        if answer.startswith("refused Stale ") and words[0] != "steal" and does():
            lines[number - 1] = " ".join([*words[:-1], answer.split()[2]])
    return "\n".join([*lines, ""])


def spoilt_words(chance, words):
    """The words with one dropped, doubled, cut, exchanged, odd, or a number past its bound."""
    words, place = list(words), chance.randrange(len(words))
    word = words[place]
    past = chance.choice([2**8, 2**32, 2**64, 2**63, 10**30]) + chance.choice([-1, 0, 1])
    here = chance.choice([
        [], [word, word], [word[:chance.randrange(len(word) + 1)]], [chance.choice(words)], [chance.choice(ODD_WORDS)],
        [word[:word.startswith(b"t")] + b"%d" % past], [chance.choice(ODD_WORDS), word],
    ])
    return [*words[:place], *here, *words[place + 1:]]


def spoilt_bytes(chance, text):
    """The text with some bytes drawn at random, dropped, or put in."""
    text = bytearray(text)
    for _ in range(chance.choice([1, 1, 2, 5])):
        place = chance.randrange(len(text) + 1)
        how = chance.randrange(3)
        if how == 0 and place < len(text):
            text[place] = chance.randrange(256)
        elif how == 1 and place < len(text):
            del text[place]
        else:
            text[place:place] = bytes(chance.choice([chance.randrange(256), 10, 13, 32, 35]) for _ in range(chance.choice([1, 1, 3, 40])))
    return bytes(text)


def joined(chance, words):
    """A line of these words: now and then with more spaces, or a carriage return."""
    if chance.random() < 0.95:
        return b" ".join(words)
    line = (b" " * chance.randrange(3)).join([b"", *(word + b" " for word in words)])
    return line + chance.choice([b"", b"\r", b"\r", b"  ", b"\r\r"])


def script(chance):
    """A script: most are by the grammar throughout, the others are spoilt in a line near their end, or in some bytes."""
    version = chance.choice([b"version 2", b"version 3"]) if chance.random() < 0.1 else None
    lines = ([version] if version else []) + [b"# a comment\r", b"", b" "][:chance.choice([0, 0, 0, 3])]
    opening = enclave(chance)
    lines.append(joined(chance, opening))
    if version == b"version 3":
        lines += [joined(chance, policy(chance)) for _ in range(chance.choice([0, 1, 2]))]
    rough = Rough(min(64, int(opening[1])) or 1)
    for _ in range(chance.choice(LENGTHS)):
        lines += [joined(chance, words) for words in turn(chance, rough)]
        if version == b"version 3" and chance.random() < 0.05:
            lines.append(joined(chance, policy(chance)))
    how = chance.random()
    if how < 0.3:
        place = len(lines) - 1 - min(len(lines) - 1, int(chance.expovariate(0.3)))
        lines[place] = joined(chance, spoilt_words(chance, lines[place].split() or [b"#"]))
    text = b"\n".join(lines) + (b"" if chance.random() < 0.1 else b"\n")
    return spoilt_bytes(chance, text) if how > 0.85 else text


def random_bytes(chance):
    """Bytes of no grammar at all."""
    alphabet = chance.choice([bytes(range(256)), b"\n\r #0123456789", b"enclave 0123456789t-\n"])
    return bytes(chance.choice(alphabet) for _ in range(chance.choice([0, 1, 10, 1000])))

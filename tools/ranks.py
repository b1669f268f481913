"""Expressions of ranks, and the policies that they tell: their texts, what is wrong with one, and what they rank.

A text is read by the grammar alone: each rule finds all that it may derive from a place on, and notes what it wants
there. Where nothing derives all of the text, the last place at which something was wanted is its fault.
"""
import functools
import operator
import re
from collections.abc import Callable, Iterator
from dataclasses import dataclass
from typing import NamedTuple

GREATEST = 2**64 - 1
# Bytes of a text, and of what is written of it; nodes of an expression; and how many parts lie in one another.
LONGEST, MOST_NODES, LEVELS = 512, 64, 16
OPERATORS, CHAINS, JOINERS, EXTREMES = "+*-/%", "+*", ("and", "or"), ("min", "max")
COMPARISONS = ("<", "<=", "==", "!=", ">=", ">")
NO_NODE = ("then", "else", "(", ")", ",")
TOKEN = re.compile(rb"[a-z0-9]+|[<>=!]=|[^ ]", re.S)
NUMBER = re.compile(r"0|[1-9][0-9]*")
OF_RANK = re.compile(rb" *rank *(.*?)( +exact)? *", re.S)


class Facts(NamedTuple):
    """A thread on a CPU, as an expression sees it."""

    level: int
    ran: int
    thread: int  # the number of its name
    cpu: int  # where it would run
    allowed: int  # how many CPUs its mask has


WORDS = Facts._fields
# What is wanted at a place. Where several things are, the first of these is told.
WANTED = {
    "Operand": "a number, a name, `none`, `min`, `max` or `(` is wanted",
    "Number": "a number up to 2^64 - 1 is wanted, without zeros in front",
    "Parentheses": "parentheses are wanted, since two operators meet",
    "Close": "`)` is wanted",
    "Comma": "`,` is wanted",
    "Then": "`then` is wanted",
    "Else": "`else` is wanted",
    "Open": "`(` is wanted",
    "Comparison": "a comparison is wanted",
    "Joiner": "`and` or `or` is wanted",
    "End": "the end is wanted",
    "Policy": "levels, fifo, least-ran, levels-then-least-ran, or rank and an expression is wanted",
}
LIMITS = {"TooManyNodes": f"more than {MOST_NODES} parts", "TooDeep": f"more than {LEVELS} deep"}


class Fault(ValueError):
    """Why a text is no expression, or no policy: of what kind, at which byte, and what is wanted there."""

    def __init__(self, kind: str, at: int = 0) -> None:
        super().__init__(kind, at)
        self.kind, self.at = kind, at

    def told(self) -> str:
        """What is wrong, wherever it stands."""
        return WANTED.get(self.kind) or LIMITS.get(self.kind) or f"more than {LONGEST} bytes"

    def __str__(self) -> str:
        return self.told() if self.kind == "TooLong" else f"byte {self.at}: {self.told()}"


# What is made of two numbers by the sign between or before them: a number, or whether it holds.
OF_BOTH: dict[str, Callable[[int, int], int]] = {
    "+": lambda a, b: min(a + b, GREATEST),
    "*": lambda a, b: min(a * b, GREATEST),
    "-": lambda a, b: max(a - b, 0),
    "/": lambda a, b: a // b if b else GREATEST,
    "%": lambda a, b: a % b if b else a,
    "min": min, "max": max,
    "<": operator.lt, "<=": operator.le, "==": operator.eq, "!=": operator.ne, ">=": operator.ge, ">": operator.gt,
}


# Trees. `rank` is none where the thread is left out.

@dataclass(frozen=True)
class Number:
    number: int

    def rank(self, facts: Facts) -> int | None:
        return self.number

    def __str__(self) -> str:
        return str(self.number)


@dataclass(frozen=True)
class Given:
    word: str

    def rank(self, facts: Facts) -> int | None:
        return getattr(facts, self.word)  # type: ignore[no-any-return]

    def __str__(self) -> str:
        return self.word


@dataclass(frozen=True)
class NoRank:
    def rank(self, facts: Facts) -> int | None:
        return None

    def __str__(self) -> str:
        return "none"


@dataclass(frozen=True)
class Both:
    """Two expressions, and a sign; there is no rank where one of them has none."""

    sign: str
    a: "Expression"
    b: "Expression"

    def rank(self, facts: Facts) -> int | None:
        a, b = self.a.rank(facts), self.b.rank(facts)
        return None if a is None or b is None else OF_BOTH[self.sign](a, b)


class Infix(Both):
    def goes_on(self) -> bool:
        """Whether its second operand goes on with a chain, and so needs no parentheses."""
        return self.sign in CHAINS and isinstance(self.b, Infix) and self.b.sign == self.sign

    def __str__(self) -> str:
        is_grouped = isinstance(self.b, Infix | Choice) and not self.goes_on()
        return f"{grouped(self.a, isinstance(self.a, Infix | Choice))} {self.sign} {grouped(self.b, is_grouped)}"


class Call(Both):
    def __str__(self) -> str:
        return f"{self.sign}({self.a}, {self.b})"


@dataclass(frozen=True)
class Choice:
    test: "Test"
    a: "Expression"
    b: "Expression"

    def rank(self, facts: Facts) -> int | None:
        return self.a.rank(facts) if self.test.holds(facts) else self.b.rank(facts)

    def __str__(self) -> str:
        return f"if {self.test} then {self.a} else {self.b}"


class Compare(Both):
    def holds(self, facts: Facts) -> bool:
        """It does not where one of them has no rank."""
        return bool(self.rank(facts))

    def __str__(self) -> str:
        a, b = (grouped(part, isinstance(part, Choice)) for part in (self.a, self.b))
        return f"{a} {self.sign} {b}"


@dataclass(frozen=True)
class Join:
    sign: str
    a: "Test"
    b: "Test"

    def holds(self, facts: Facts) -> bool:
        a, b = self.a.holds(facts), self.b.holds(facts)
        return a and b if self.sign == "and" else a or b

    def goes_on(self) -> bool:
        return isinstance(self.b, Join) and self.b.sign == self.sign

    def __str__(self) -> str:
        return f"({self.a}) {self.sign} {grouped(self.b, not self.goes_on())}"


@dataclass(frozen=True)
class Negate:
    a: "Test"

    def holds(self, facts: Facts) -> bool:
        return not self.a.holds(facts)

    def __str__(self) -> str:
        return f"not ({self.a})"


Expression = Number | Given | NoRank | Infix | Call | Choice
Test = Compare | Join | Negate


def grouped(part: Expression | Test, is_wanted: bool) -> str:
    return f"({part})" if is_wanted else str(part)


# Reading

class Token(NamedTuple):
    text: str
    at: int


def tokens_of(text: bytes) -> list[Token]:
    return [Token(it[0].decode("latin-1"), it.start()) for it in TOKEN.finditer(text)]


class Grammar:
    """What each rule derives of the tokens from one of them on: a tree, and which token is behind it.

    Each is told how many levels may lie in what it derives.
    """

    def __init__(self, tokens: list[Token]) -> None:
        self.texts = [*(it.text for it in tokens), ""]
        self.furthest, self.wanted = 0, set[str]()

    def want(self, place: int, what: str) -> None:
        """Something is wanted at a token. Only what is wanted at the last of them counts."""
        if place > self.furthest:
            self.furthest, self.wanted = place, set()
        if place == self.furthest:
            self.wanted.add(what)

    def skip(self, text: str, what: str, place: int) -> Iterator[int]:
        """The token behind this one, if it stands there."""
        if self.texts[place] == text:
            yield place + 1
        else:
            self.want(place, what)

    def expressions(self, levels: int, place: int) -> Iterator[tuple[Expression, int]]:
        if levels == 0:
            return self.want(place, "TooDeep")
        yield from self.sums(levels - 1, place)
        if self.texts[place] == "if":
            yield from self.choices(levels - 1, place + 1)

    def choices(self, levels: int, place: int) -> Iterator[tuple[Expression, int]]:
        for test, place in self.tests(levels, place):
            for place in self.skip("then", "Then", place):
                for a, place in self.expressions(levels, place):
                    for place in self.skip("else", "Else", place):
                        for b, place in self.expressions(levels, place):
                            yield Choice(test, a, b), place

    def sums(self, levels: int, place: int) -> Iterator[tuple[Expression, int]]:
        for a, place in self.terms(levels, place):
            yield a, place
            if (sign := self.operator_at(place)) and sign in CHAINS:
                yield from ((Infix(sign, a, b), end) for b, end in self.chains(sign, levels, place + 1))
            elif sign:
                for b, end in self.terms(levels, place + 1):
                    self.want(end, "operator")
                    yield Infix(sign, a, b), end

    def operator_at(self, place: int) -> str | None:
        self.want(place, "operator")
        text = self.texts[place]
        return text if text and text in OPERATORS else None

    def chains(self, sign: str, levels: int, place: int) -> Iterator[tuple[Expression, int]]:
        if levels == 0:
            return self.want(place, "TooDeep")
        for a, place in self.terms(levels - 1, place):
            yield a, place
            if self.operator_at(place) == sign:
                yield from ((Infix(sign, a, b), end) for b, end in self.chains(sign, levels - 1, place + 1))

    def terms(self, levels: int, place: int) -> Iterator[tuple[Expression, int]]:
        text = self.texts[place]
        if NUMBER.fullmatch(text) and int(text) <= GREATEST:
            yield Number(int(text)), place + 1
        elif text in WORDS:
            yield Given(text), place + 1
        elif text == "none":
            yield NoRank(), place + 1
        elif text == "(":
            for a, behind in self.expressions(levels, place + 1):
                yield from ((a, end) for end in self.skip(")", "Close", behind))
        elif text in EXTREMES:
            yield from self.calls(text, levels, place + 1)
        else:
            self.want(place, "Number" if "0" <= text[:1] <= "9" else "Operand")

    def calls(self, extreme: str, levels: int, place: int) -> Iterator[tuple[Expression, int]]:
        for place in self.skip("(", "Open", place):
            for a, place in self.expressions(levels, place):
                for place in self.skip(",", "Comma", place):
                    for b, place in self.expressions(levels, place):
                        for place in self.skip(")", "Close", place):
                            yield Call(extreme, a, b), place

    def tests(self, levels: int, place: int) -> Iterator[tuple[Test, int]]:
        if levels == 0:
            return self.want(place, "TooDeep")
        if self.texts[place] == "not":
            yield from ((Negate(a), end) for a, end in self.grouped_tests(levels - 1, place + 1))
        for a, end in self.sums(levels - 1, place):
            if (text := self.texts[end]) in COMPARISONS:
                yield from ((Compare(text, a, b), behind) for b, behind in self.sums(levels - 1, end + 1))
            self.want(end, "Comparison")
        if self.texts[place] == "(":
            yield from self.joins(levels - 1, place)

    def grouped_tests(self, levels: int, place: int) -> Iterator[tuple[Test, int]]:
        for place in self.skip("(", "Open", place):
            for a, place in self.tests(levels, place):
                for place in self.skip(")", "Close", place):
                    yield a, place

    def joins(self, levels: int, place: int) -> Iterator[tuple[Test, int]]:
        for a, place in self.grouped_tests(levels, place):
            self.want(place, "Joiner")
            if (text := self.texts[place]) in JOINERS:
                yield from ((Join(text, a, b), end) for b, end in self.joined(text, levels, place + 1))

    def joined(self, joiner: str, levels: int, place: int) -> Iterator[tuple[Test, int]]:
        if levels == 0:
            return self.want(place, "TooDeep")
        for a, place in self.grouped_tests(levels - 1, place):
            yield a, place
            self.want(place, "joiner")
            if self.texts[place] == joiner:
                yield from ((Join(joiner, a, b), end) for b, end in self.joined(joiner, levels - 1, place + 1))

    def fault(self, at: int) -> Fault:
        """What is told of the token that no derivation has, which stands at this byte."""
        text, wanted = self.texts[self.furthest], self.wanted
        meets = text in [*OPERATORS] and "operator" in wanted or text in JOINERS and "joiner" in wanted
        told = wanted | {"Parentheses"} if meets else wanted
        return Fault(next(it for it in ("TooDeep", *WANTED) if it in told), at)


def read(text: bytes) -> Expression:
    """The expression of a text."""
    if len(text) > LONGEST:
        raise Fault("TooLong")
    tokens = tokens_of(text)
    nodes = [it for it in tokens if it.text not in NO_NODE]
    if len(nodes) > MOST_NODES:
        raise Fault("TooManyNodes", nodes[MOST_NODES].at)
    grammar = Grammar(tokens)
    for found, end in grammar.expressions(LEVELS, 0):
        if end == len(tokens):
            if len(str(found)) > LONGEST:
                raise Fault("TooLong")
            return found
        grammar.want(end, "End")
    raise grammar.fault([*(it.at for it in tokens), len(text)][grammar.furthest])


# Policies

# The orders that have names: the expression by which each ranks.
RANKINGS = {
    "levels": read(b"7 - level"),
    "fifo": read(b"0"),
    "least-ran": read(b"ran"),
    # A level is worth 2^60 ticks, so levels count before what a thread ran.
    "levels-then-least-ran": read(b"((7 - level) * 1152921504606846976) + min(ran, 1152921504606846975)"),
}


class Policy(NamedTuple):
    """By which order agents run threads, the least rank first, and whether their steals are exact."""

    order: str = "levels"
    exact: bool = False

    def __str__(self) -> str:
        return self.order + " exact" * self.exact


def policy_of(text: bytes) -> Policy:
    """The policy that a text tells: the name of an order, or `rank` and an expression; `exact` may stand behind."""
    words = [it.decode("latin-1") for it in text.split(b" ") if it]
    if words[:1] == ["rank"] and (found := OF_RANK.fullmatch(text)):
        try:
            return Policy(f"rank {read(found[1])}", bool(found[2]))
        except Fault as fault:
            raise Fault(fault.kind, fault.at + found.start(1)) from None
    if not words or words[0] not in RANKINGS or words[1:] not in ([], ["exact"]):
        raise Fault("Policy", len(text) - len(text.lstrip(b" ")))
    return Policy(words[0], len(words) > 1)


@functools.cache
def ranking_of(order: str) -> Expression:
    """The expression that an order ranks by."""
    return RANKINGS[order] if order in RANKINGS else read(order.removeprefix("rank ").encode())

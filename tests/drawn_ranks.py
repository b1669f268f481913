"""Expressions of ranks that are drawn, their texts with needless spaces and parentheses, and spoiled texts."""
import random
import re
from collections.abc import Iterator

from ranks import COMPARISONS, EXTREMES, GREATEST, JOINERS, LEVELS, LONGEST, OPERATORS, TOKEN, WORDS, Call, Choice
from ranks import Compare, Expression, Facts, Fault, Given, Infix, Join, Negate, NoRank, Number, Test, read

EDGES = (0, 1, 2, 3, 4, 7, 64, 1_000, 2**32 - 1, 2**32, 2**63, GREATEST - 1, GREATEST)
# What may be put into a text: each token, and bytes and words that are none.
TOKENS = (
    *WORDS, "none", "if", "then", "else", "not", *EXTREMES, *JOINERS, *OPERATORS, *COMPARISONS,
    "(", ")", ",", "0", "1", str(GREATEST))
NO_TOKENS = ("=", "!", "01", "1ran", "Ran", "rank", str(GREATEST + 1), "$", "\t", "é", ".", "exact", "messages")


def drawn_number(chance: random.Random) -> int:
    return chance.choice(EDGES) if chance.random() < 0.6 else chance.getrandbits(chance.randint(1, 64))


def drawn_facts(chance: random.Random) -> Facts:
    """Facts of a thread, or numbers that no thread has."""
    if chance.random() < 0.2:
        return Facts(*(drawn_number(chance) for _ in Facts._fields))
    ran = drawn_number(chance) if chance.random() < 0.3 else chance.randrange(100_000)
    return Facts(chance.randrange(8), ran, chance.randrange(20), chance.randrange(8), chance.randint(1, 8))


class Drawer:
    """Draws expressions."""

    def __init__(self, chance: random.Random) -> None:
        self.chance = chance

    def expression(self, nodes: int) -> Expression:
        """An expression of about so many nodes."""
        sort = self.chance.random()
        if nodes < 3:
            return self.leaf()
        if nodes >= 5 and sort < 0.3:
            parts = self.shares(nodes - 1, 3)
            return Choice(self.test(parts[0]), self.expression(parts[1]), self.expression(parts[2]))
        first, second = self.shares(nodes - 1, 2)
        if sort < 0.45:
            return Call(self.chance.choice(EXTREMES), self.expression(first), self.expression(second))
        return Infix(self.chance.choice(OPERATORS), self.expression(first), self.expression(second))

    def leaf(self) -> Expression:
        sort = self.chance.random()
        if sort < 0.04:
            return NoRank()
        return Given(self.chance.choice(WORDS)) if sort < 0.6 else Number(drawn_number(self.chance))

    def test(self, nodes: int) -> Test:
        sort = self.chance.random()
        if nodes >= 4 and sort < 0.15:
            return Negate(self.test(nodes - 1))
        first, second = self.shares(nodes - 1, 2)
        if nodes >= 7 and sort < 0.5:
            return Join(self.chance.choice(JOINERS), self.test(first), self.test(second))
        return Compare(self.chance.choice(COMPARISONS), self.expression(first), self.expression(second))

    def shares(self, nodes: int, count: int) -> list[int]:
        """So many parts of the nodes, often of very different sizes."""
        weights = [self.chance.random() ** self.chance.choice([0.5, 1, 4]) for _ in range(count)]
        return [max(1, int(nodes * weight / sum(weights))) for weight in weights]


class Writer:
    """Writes a text of an expression: the tokens that it needs, and now and then parentheses that it needs not."""

    def __init__(self, chance: random.Random, needless: float) -> None:
        self.chance, self.needless = chance, needless

    def operand(self, part: Expression, is_wanted: bool) -> Iterator[str]:
        if is_wanted or self.chance.random() < self.needless:
            yield from ("(", *self.operand(part, False), ")")
        else:
            yield from self.tokens(part)

    def tokens(self, tree: Expression) -> Iterator[str]:
        match tree:
            case Infix(sign, a, b):
                yield from self.operand(a, isinstance(a, Infix | Choice))
                yield sign
                yield from self.operand(b, isinstance(b, Infix | Choice) and not tree.goes_on())
            case Call(sign, a, b):
                yield from (sign, "(", *self.operand(a, False), ",", *self.operand(b, False), ")")
            case Choice(test, a, b):
                yield from ("if", *self.test(test), "then", *self.operand(a, False), "else", *self.operand(b, False))
            case _:
                yield str(tree)

    def test(self, tree: Test) -> Iterator[str]:
        match tree:
            case Compare(sign, a, b):
                yield from (*self.operand(a, isinstance(a, Choice)), sign, *self.operand(b, isinstance(b, Choice)))
            case Join(sign, a, b):
                yield from ("(", *self.test(a), ")", sign)
                goes_on = tree.goes_on() and self.chance.random() >= self.needless
                yield from self.test(b) if goes_on else ("(", *self.test(b), ")")
            case Negate(a):
                yield from ("not", "(", *self.test(a), ")")

    def text(self, tree: Expression) -> str:
        return self.spaced([*self.operand(tree, False)])

    def spaced(self, tokens: list[str]) -> str:
        """The tokens with spaces between, and around: one at least between two words."""
        text = " " * self.chance.choice([0, 0, 0, 1, 3])
        for token in tokens:
            is_near = bool(re.search(r"[a-z0-9]\Z", text) and re.match(r"[a-z0-9]", token))
            text += " " * max(self.chance.choice([0, 0, 1, 1, 1, 2]), is_near) + token
        return text + " " * self.chance.choice([0, 0, 0, 1, 2])


def drawn(chance: random.Random, sizes: tuple[int, ...] = (1, 2, 4, 8, 12, 20, 32, 48, 64)) -> tuple[str, Expression]:
    """A text within the limits, and the expression that it is of: of about one of these numbers of nodes."""
    while True:
        tree = Drawer(chance).expression(chance.choice(sizes))
        text = Writer(chance, chance.choice([0, 0, 0.1, 0.3])).text(tree)
        try:
            if read(text.encode()) == tree:
                return text, tree
        except Fault as fault:
            if fault.kind not in ("TooDeep", "TooLong", "TooManyNodes"):
                raise
            continue
        raise AssertionError(f"{text}: it is not read as {tree}")


def spoiled(chance: random.Random, text: str) -> str:
    """The text with a token or two left out, put in, swapped or replaced, or cut."""
    tokens = re.findall(TOKEN.pattern.decode(), text)
    for _ in range(chance.choice([1, 1, 2])):
        place, other = (chance.randrange(len(tokens)) for _ in range(2))
        new = chance.choice(TOKENS if chance.random() < 0.8 else NO_TOKENS)
        match chance.randrange(5):
            case 0:
                tokens[place:place + 1] = []
            case 1:
                tokens.insert(place, new)
            case 2:
                tokens[place], tokens[other] = tokens[other], tokens[place]
            case 3:
                tokens[place] = new
            case 4:
                tokens[place:] = []
        tokens = tokens or [new]
    made = Writer(chance, 0).spaced(tokens)
    return made if chance.random() < 0.8 else made[:chance.randrange(len(made) + 1)]


def past_limits(chance: random.Random) -> str:
    """A text at a limit, or past it: too deep, of too many nodes, or too long."""
    deep, many = chance.randint(LEVELS - 2, LEVELS + 2), chance.randint(60, 68)
    chain = "(1 + 1 + 1 + 1 + 1 + 1 + 1 + 1) * " * 4
    return chance.choice([
        "(" * deep + "ran" + ")" * deep, " + ".join(["ran"] * deep), "min(" * deep + "1" + ", 1)" * deep,
        "if " + "not (" * deep + "1 < 2" + ")" * deep + " then 1 else 2", "if 1 < 2 then 3 else " * deep + "4",
        f"{chain}({' + '.join(['1'] * ((many - 63) // 2))})" if many > 64 else chain + "1",
        " " * chance.randint(LONGEST - 3, LONGEST + 1) + "1",
        # With spaces it may have more bytes than a text may have.
        "*".join(["(" + "+".join(["1" * chance.randint(11, 14)] * 8) + ")"] * 4),
    ])

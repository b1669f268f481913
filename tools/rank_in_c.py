"""An expression of ranks as a function in C, for `policy-to-c`: without loops, and without numbers wider than 64 bits.

What surely has a rank is one expression of C. A choice of which a branch may have none is put into two variables before
what it stands in: whether it has one, and which. Nothing is undefined, so all may be worked out that nothing asks for.
"""
import re

from ranks import GREATEST, WORDS, Call, Choice, Compare, Expression, Given, Infix, Join, Negate, NoRank, Number, Test

# What of C and of its headers is no name of a function.
RESERVED = set(
    "auto bool break case char const continue default do double else enum extern false float for goto if inline int "
    "long register restrict return short signed sizeof static struct switch true typedef uint64_t union unsigned void "
    "volatile while".split())
NAME = re.compile(r"[A-Za-z][A-Za-z0-9_]*")
FUNCTION = "static inline __attribute__((always_inline))"
MOST = f"{GREATEST}ULL"
WORD_OF = {
    "+": "plus", "*": "times", "-": "minus", "/": "over", "%": "modulo", "min": "min", "max": "max",
    "<": "is_below", "<=": "is_at_most", "==": "is_same", "!=": "is_other", ">=": "is_at_least", ">": "is_above",
}
# What each helper returns. Comparisons are helpers as well, since compilers warn of those whose outcome is plain.
RETURNS = {
    "plus": f"a > {MOST} - b ? {MOST} : a + b",
    "minus": "a > b ? a - b : 0",
    "modulo": "b == 0 ? a : a % b",
    "min": "a < b ? a : b",
    "max": "a < b ? b : a",
    "is_below": "a < b", "is_at_most": "a <= b", "is_same": "a == b",
    "is_other": "a != b", "is_at_least": "a >= b", "is_above": "a > b",
}
# A compiler may make a product of 128 bits of a comparison with a quotient, or of a division that looks for what is too
# much, and BPF has none. So an empty line of assembly keeps quotients from it, and products are made of halves.
OVER = f"""\
	uint64_t quotient;

	if (b == 0)
		return {MOST};
	quotient = a / b;
	__asm__("" : "+r"(quotient));
	return quotient;
"""
TIMES = f"""\
	uint64_t a_high = a >> 32, b_high = b >> 32;
	uint64_t a_low = a & 0xffffffff, b_low = b & 0xffffffff;
	uint64_t middle = a_high * b_low + b_high * a_low;

	if ((a_high != 0 && b_high != 0) || middle >> 32 != 0)
		return {MOST};
	return {{name}}_plus(middle << 32, a_low * b_low);
"""


def is_name(text: str) -> bool:
    """Whether a function may have this name."""
    return bool(NAME.fullmatch(text)) and text not in RESERVED


def may_be_none(tree: Expression) -> bool:
    match tree:
        case NoRank():
            return True
        case Infix() | Call() | Choice():
            return may_be_none(tree.a) or may_be_none(tree.b)
    return False


def words_in(tree: Expression | Test) -> set[str]:
    """The names that stand in an expression or a test."""
    parts = [part for part in vars(tree).values() if not isinstance(part, str | int)]
    return set[str]({tree.word} if isinstance(tree, Given) else ()).union(*map(words_in, parts))


def bare(test: str) -> str:
    """A test without the parentheses around all of it."""
    return test[1:-1] if test.startswith("(") else test


class Body:
    """The lines of a function, and the helpers that they call."""

    def __init__(self, name: str) -> None:
        self.name, self.lines, self.depth = name, list[str](), 1
        self.helpers, self.choices = set[str](), 0

    def say(self, line: str) -> None:
        self.lines.append("\t" * self.depth + line)

    def helped(self, sign: str, a: str, b: str) -> str:
        self.helpers |= {WORD_OF[sign], *(["plus"] if sign == "*" else [])}
        return f"{self.name}_{WORD_OF[sign]}({a}, {b})"

    def value(self, tree: Expression) -> tuple[list[str], str]:
        """What has to hold where the expression has a rank, and the rank. Lines that they want are put ahead."""
        match tree:
            case Number(number):
                return [], f"{number}ULL"
            case Given(word):
                return [], word
            case NoRank():
                return ["false"], "0ULL"
            case Infix(sign, left, right) | Call(sign, left, right):
                (a_holds, a), (b_holds, b) = self.value(left), self.value(right)
                return a_holds + b_holds, self.helped(sign, a, b)
        if may_be_none(tree):
            return self.put_ahead(tree)
        test = self.test(tree.test)
        return [], f"({test} ? {self.value(tree.a)[1]} : {self.value(tree.b)[1]})"

    def put_ahead(self, tree: Choice) -> tuple[list[str], str]:
        test = self.test(tree.test)
        self.choices += 1
        has, part = f"has_{self.choices}", f"part_{self.choices}"
        self.say(f"bool {has};")
        self.say(f"uint64_t {part};")
        for head, branch in ((f"if ({bare(test)}) {{", tree.a), ("} else {", tree.b)):
            self.say(head)
            self.depth += 1
            holds, value = self.value(branch)
            self.say(f"{has} = {' && '.join(holds) or 'true'};")
            self.say(f"{part} = {value};")
            self.depth -= 1
        self.say("}")
        return [has], part

    def test(self, tree: Test) -> str:
        match tree:
            case Compare(sign, left, right):
                (a_holds, a), (b_holds, b) = self.value(left), self.value(right)
                every = [*a_holds, *b_holds, self.helped(sign, a, b)]
                return every[0] if len(every) == 1 else f"({' && '.join(every)})"
            case Join(joiner, left, right):
                return f"({self.test(left)} {'&&' if joiner == 'and' else '||'} {self.test(right)})"
            case Negate(within):
                return f"!{self.test(within)}"

    def answer(self, tree: Expression) -> None:
        """Returns whether there is a rank, which is told before."""
        if isinstance(tree, NoRank):
            return self.say("return false;")
        if isinstance(tree, Choice):
            self.say(f"if ({bare(self.test(tree.test))}) {{")
            self.depth += 1
            self.answer(tree.a)
            self.depth -= 1
            self.say("}")
            return self.answer(tree.b)
        holds, value = self.value(tree)
        if holds:
            self.say(f"if (!{holds[0]})" if len(holds) == 1 else f"if (!({' && '.join(holds)}))")
            self.say("\treturn false;")
        self.say(f"*rank = {value};")
        self.say("return true;")


def helper(name: str, word: str) -> str:
    kind = "bool" if word.startswith("is_") else "uint64_t"
    longer = {"over": OVER, "times": TIMES.format(name=name)}
    lines = longer.get(word) or f"\treturn {RETURNS[word]};\n"
    return f"{FUNCTION} {kind} {name}_{word}(uint64_t a, uint64_t b)\n{{\n{lines}}}\n"


def function_of(tree: Expression, name: str) -> str:
    """A function of this name that tells the rank by the expression, with the helpers that it calls."""
    body = Body(name)
    body.answer(tree)
    words = words_in(tree)
    unused = [word for word in WORDS if word not in words] + ["rank"] * ("\t*rank = " not in "\n".join(body.lines))
    lines = [f"\t(void){word};" for word in unused] + body.lines
    head = f"{FUNCTION} bool {name}(\n\t{', '.join(f'uint64_t {word}' for word in WORDS)}, uint64_t *rank)\n{{\n"
    helpers = [helper(name, word) for word in dict.fromkeys(WORD_OF.values()) if word in body.helpers]
    return "\n".join([*helpers, head + "\n".join(lines) + "\n}\n"])

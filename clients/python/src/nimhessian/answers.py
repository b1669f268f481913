"""Answers as they are written, read as values."""
from collections.abc import Callable

from .errors import Misread
from .values import Known, Phase, Placed, Posted, Published, Status, View


def posted(answer: str) -> Posted:
    _, *subject, queue, aseq, _, wakes = answer.split(" ")
    thread, number = (None, None) if subject == ["-"] else (int(word[1:]) for word in subject)
    return Posted(thread, number, int(queue[1:]), int(aseq[1:]), None if wakes == "-" else int(wakes))


def placed(answer: str) -> Placed:
    words = answer.split(" ")
    return Placed(int(words[1][1:]), int(words[2][1:]))


def published(answer: str) -> Published:
    words = answer.split(" ")
    return Published(int(words[1][1:]), int(words[3]))


def number(answer: str) -> int:
    """How many items there are, or which delta it is."""
    return int(answer.split(" ")[1].removeprefix("d"))


def nothing(answer: str) -> None:
    if answer != "ok":
        raise Misread(answer)


def either(is_so: str, is_not: str) -> Callable[[str], bool]:
    def read(answer: str) -> bool:
        if answer not in (is_so, is_not):
            raise Misread(answer)
        return answer == is_so

    return read


yes = either("yes", "no")
equal = either("equal", "differ")


def status(answer: str) -> Status:
    thread, number, phase, *cpu = answer.split(" ")
    return Status(int(thread[1:]), int(number[1:]), Phase(phase), int(cpu[0][1:]) if cpu else None)


def known(words: list[str]) -> Known:
    upto, numbers = int(words[2]), words[words.index("early") + 1:]
    early = () if numbers == ["-"] else tuple(map(int, numbers))
    if upto == 0:
        return Known(0, None, None, None, None, early)
    level = int(words[9]) if words[8] == "level" else 0
    return Known(upto, Phase(words[3]), int(words[5]), int(words[7]), level, early)


def view(answer: str) -> View:
    rows = (row.split(" ") for row in answer.split("\n")[:-1])
    return {int(words[0][1:]): known(words) for words in rows}

"""The rules that an agent is held against: premises and promises of the model, in the words of its documents."""
from enum import StrEnum


class Rule(StrEnum):
    """A rule of docs/PROMISES.md or docs/PROTOCOL.md."""

    AT_REST = "At rest nothing waits"
    EMPTIED = "An agent that waits with no note under way sleeps, and its queue is empty"
    COUNTED = "A commit or pick that succeeds knew of every post to its queue"
    PLACED = "A thread is on at most one CPU, its home's, ready and allowed there"
    EXACT = "A steal that succeeds saw the exact state: all messages, none of them in a queue"
    SLEPT = "a sleep goes by the count that was read"
    GOES_ON = "No agent is stuck in its turn"
    ALONE = "agents do nothing else"


class Broken(AssertionError):
    """An agent broke a rule."""

    def __init__(self, rule: Rule, sort: str, told: str, line: str | None = None) -> None:
        super().__init__(f"{told}\n  the rule: {rule}")
        self.rule = rule
        self.sort = sort
        """By what it was found: two runs with the same one have the same fault, as far as can be told."""
        self.told = told
        self.line = line
        """The command that shows it."""


UNCAUGHT = {
    "commit Stale": Rule.COUNTED, "pick Stale": Rule.COUNTED, "sleep Stale": Rule.SLEPT,
    "associate Stale": Rule.EXACT, "associate Pending": Rule.EXACT, "associate Dead": Rule.EXACT,
    "steal Stale": Rule.EXACT, "steal Pending": Rule.EXACT, "steal Dead": Rule.EXACT,
    "commit NotReady": Rule.PLACED, "commit NotYours": Rule.PLACED, "commit Running": Rule.PLACED,
    "commit Forbidden": Rule.PLACED, "commit Busy": Rule.PLACED, "pick Busy": Rule.PLACED, "steal Busy": Rule.PLACED,
    "associate Running": Rule.PLACED,
}
"""The rule that a refusal keeps; of others an agent asks for what is not there."""

"""What each queue holds, as the answers to commands tell it."""
from collections import deque

from . import answers
from .messages import POSTING, Message, message_of

CHANGING = {*POSTING, "consume", "associate", "steal", "mend"}
"""The commands whose answers tell what queues hold, or which queue is whose."""


class Queues:
    """The queues of a world. A post tells its queue, and a `consume` how many items it removed."""

    def __init__(self, cpus: int) -> None:
        self.held: list[deque[Message]] = [deque() for _ in range(cpus)]
        self.aseq = [0] * cpus
        """How many posts each queue had."""
        self.home: dict[int, int] = {}
        """The queue to which the messages of each thread go."""

    def hear(self, words: list[str], answer: str) -> None:
        """A command of these words was answered so."""
        if words[0] == "mend" and answer not in ("refused BadCpu", "refused Busy"):
            # Each agent has sent and removed what its queue held, also where the mend is refused behind that.
            for queue in self.held:
                queue.clear()
        if not answer.startswith("ok"):
            return
        if words[0] in POSTING:
            posted = answers.posted(answer)
            self.held[posted.queue].append(message_of(words, posted))
            self.aseq[posted.queue] = posted.aseq
            if posted.thread is not None:
                self.home[posted.thread] = posted.queue
        elif words[0] == "consume":
            for _ in range(answers.number(answer)):
                self.held[int(words[1])].popleft()
        elif words[0] in ("associate", "steal", "mend"):
            placed = answers.placed(answer)
            self.home[placed.thread] = placed.cpu

"""How long a message may wait by document 01's demand 3. It goes by the messages that were loaded and by the answers alone.

A message goes out by round 1 + A + L, counted from its loading. A is the number of different messages ahead of it when it was
loaded, L the number of loadings ahead of it that were accepted since.
"""
import dataclasses


def bits(sent):
    """The bits of a message with its check byte, the high bit of each byte first."""
    return [byte >> shift & 1 for byte in sent for shift in range(7, -1, -1)]


def ahead(x, y):
    """X is ahead of Y: where their bits with checks first differ X has 0 and Y has 1, or X still has a bit and Y has none."""
    x, y = bits(x), bits(y)
    for mine, theirs in zip(x, y):
        if mine != theirs:
            return mine == 0
    return len(x) > len(y)


@dataclasses.dataclass
class Waiting:
    """A message that waits, with its check byte; A and L; and how many rounds had been played when it was loaded."""

    sent: bytes
    ahead: int
    loadings: int
    since: int

    @property
    def by(self):
        """The round by which it is promised to be out, counted from the first of the contest."""
        return self.since + 1 + self.ahead + self.loadings


class Book:
    """The messages that wait in a row, by place."""

    def __init__(self):
        self.waiting = {}
        self.rounds = 0

    def loaded(self, place, sent):
        """A loading that was accepted."""
        for other in self.waiting.values():
            other.loadings += ahead(sent, other.sent)
        before = {other.sent for other in self.waiting.values() if ahead(other.sent, sent)}
        self.waiting[place] = Waiting(sent, len(before), 0, self.rounds)

    def withdrawn(self, place):
        """A withdrawal that was accepted."""
        del self.waiting[place]

    def played(self, through):
        """A round that was played, and the places that got through."""
        self.rounds += 1
        for place in through:
            del self.waiting[place]

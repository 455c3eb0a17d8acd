"""The text of a contest, which a person writes: stations by name, loads, withdrawals, clocks and rounds. docs/COMMANDS.md has
its form. It is parted into steps here; whether a step can be done the library says."""
import argparse
import collections

from . import values
from .trouble import Trouble

# A step: the line that it stands on, its verb, the place of its station, and its value: a clock, a message or a number of rounds.
Step = collections.namedtuple("Step", "line verb place value")
NOMINAL = {"short": 64, "long": 128, "sof": 200}
MOST_ROUNDS = 10000  # of one line, so that a slip of the finger ends


class Bad(Exception):
    """What is wrong with a line."""


def clock(words):
    """The widths of a clock from `short 64 long 128 sof 200`; one that is not named is nominal."""
    if len(words) % 2:
        raise Bad("a clock is short, long and sof, each with its width, such as short 64 long 128 sof 200")
    widths = dict(NOMINAL)
    for name, text in zip(words[::2], words[1::2]):
        if name not in NOMINAL:
            raise Bad(f"{name!r} is not short, long or sof")
        widths[name] = values.width(text)
    return tuple(widths.values())


class Reader:
    """Reads a scenario line by line, and keeps the names of its stations."""

    def __init__(self):
        self.names = []
        self.begun = False  # whether something else than a station has come

    def place(self, words):
        """The place of the station that a line names, and the words after the name."""
        if not words:
            raise Bad("the name of a station is missing")
        if words[0] not in self.names:
            raise Bad(f"no station is named {words[0]!r}")
        return self.names.index(words[0]), words[1:]

    def station(self, line, words):
        """`station NAME`, and its clock where it is not nominal."""
        if not words:
            raise Bad("a station has a name")
        if self.begun:
            raise Bad("the stations stand before all else")
        if not words[0].isprintable():
            raise Bad("a name has a sign that cannot be printed")
        if words[0] in self.names:
            raise Bad(f"a station is named {words[0]!r} already")
        self.names.append(words[0])
        return Step(line, "station", len(self.names) - 1, clock(words[1:]))

    def load(self, line, words):
        """`load NAME HEX…`, the bytes without their check byte."""
        place, rest = self.place(words)
        return Step(line, "load", place, values.hex_bytes("".join(rest)))

    def withdraw(self, line, words):
        """`withdraw NAME`."""
        place, rest = self.place(words)
        if rest:
            raise Bad("nothing stands after the station's name")
        return Step(line, "withdraw", place, None)

    def clock(self, line, words):
        """`clock NAME`, and the clock that the station has from here on."""
        place, rest = self.place(words)
        return Step(line, "clock", place, clock(rest))

    def round(self, line, words):
        """`round`, or `round N` for so many."""
        text = words[0] if words else "1"
        if len(words) > 1 or not (text.isascii() and text.isdigit() and 1 <= int(text) <= MOST_ROUNDS):
            raise Bad(f"a round stands alone, or with how many there are, up to {MOST_ROUNDS}")
        return Step(line, "round", None, int(text))

    def step(self, line, words):
        """The step of a line."""
        verbs = {"station": self.station, "load": self.load, "withdraw": self.withdraw, "clock": self.clock, "round": self.round}
        if words[0] not in verbs:
            raise Bad(f"{words[0]!r} is not station, load, withdraw, clock or round")
        step = verbs[words[0]](line, words[1:])
        self.begun = self.begun or step.verb != "station"
        return step


def steps(name, data):
    """The names of the stations and the steps of a scenario. A line that breaks the form is a trouble, with its number."""
    reader, found = Reader(), []
    for number, raw in enumerate(data.split(b"\n"), 1):
        try:
            words = raw.decode("utf-8").split("#")[0].split()
            if words:
                found.append(reader.step(number, words))
        except UnicodeDecodeError:
            raise Trouble(f"{name}: line {number}: it is not text") from None
        except (Bad, argparse.ArgumentTypeError) as error:
            raise Trouble(f"{name}: line {number}: {error}") from None
    return reader.names, found

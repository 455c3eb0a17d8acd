"""A scenario played on the library's row of stations: what each round answered, and what each station sent in it."""
import dataclasses

from . import files, library, scenario, waiting
from .trouble import refused

FARED = {library.IDLE: "idle", library.THROUGH: "through", library.LOST: "lost"}


@dataclasses.dataclass
class Lane:
    """A station in a round: its clock, its message with the check byte (none where it was idle), how it fared, and where it lost,
    at which bit, with its own bit (none where it had sent its check byte) and the line's. A, L and the promised round are as they
    stood when the round began."""

    name: str
    clock: tuple
    sent: bytes
    fared: str
    bit: int
    own: int
    line: int
    waiting: waiting.Waiting


@dataclasses.dataclass
class Round:
    """A round: its number, its line's words and their symbols, the bytes that the library reads in them, the line time, and its
    lanes."""

    number: int
    words: list
    symbols: list
    bytes: bytes
    line_time: int
    lanes: list


# The bits that are symbols.
BITS = {library.BIT_0: 0, library.BIT_1: 1}


class Contest:
    """A row of stations, and the book of what waits in it."""

    def __init__(self, line, names):
        self.line, self.names = line, names
        self.row = library.row_of([])
        self.book = waiting.Book()

    def station(self, step):
        """One more station. Its clock is set by the call, so that a bad one is refused at its line."""
        clocks = [station.clock for station in self.row]
        self.row = library.row_of([*clocks, library.nominal()])
        self.line.set_clock(self.row, step.place, library.Clock(*step.value))

    def load(self, step):
        """A loading. The check byte that will go out with it is the library's."""
        self.line.load(self.row, step.place, step.value)
        self.book.loaded(step.place, step.value + bytes([self.line.check_byte(step.value)]))

    def withdraw(self, step):
        """A withdrawal."""
        self.line.withdraw(self.row, step.place)
        self.book.withdrawn(step.place)

    def clock(self, step):
        """Another clock for a station."""
        self.line.set_clock(self.row, step.place, library.Clock(*step.value))

    def lane(self, place, verdict, symbols):
        """How a station fared. The line's bit is the symbol that the library has for its word; the words of the end and the SOF
        stand before the first bit's."""
        station, waits = self.row[place], self.book.waiting.get(place)
        clock = (station.clock.short_bit, station.clock.long_bit, station.clock.sof)
        lane = Lane(self.names[place], clock, waits.sent if waits else b"", FARED[verdict.fared], verdict.bit, None, None, waits)
        if verdict.fared == library.LOST:
            bits = waiting.bits(waits.sent)
            lane.own = bits[verdict.bit - 1] if verdict.bit <= len(bits) else None
            lane.line = BITS[symbols[verdict.bit + 1]]
        return lane

    def round(self):
        """One round."""
        answer, words = self.line.round(self.row)
        symbols = [self.line.symbol(place % 2 == 1, width) for place, width in enumerate(words)]
        lanes = [self.lane(place, answer.verdicts[place], symbols) for place in range(len(self.row))]
        _, main, _ = self.line.read(words, 0)
        self.book.played([place for place, lane in enumerate(lanes) if lane.fared == "through"])
        return Round(self.book.rounds, words, symbols, main, answer.line_time, lanes)

    def play(self, name, steps):
        """The rounds of a scenario, one by one. A refusal is a trouble, at the scenario's line."""
        others = {"station": self.station, "load": self.load, "withdraw": self.withdraw, "clock": self.clock}
        for step in steps:
            try:
                if step.verb != "round":
                    others[step.verb](step)
                    continue
                for _ in range(step.value):
                    yield self.round()
            except library.Refused as refusal:
                raise refused(f"{name}: line {step.line}", refusal) from None


def rounds(line, path):
    """The contest of a scenario's file, and its rounds."""
    name = files.named(path)
    names, steps = scenario.steps(name, files.read(path))
    contest = Contest(line, names)
    return contest, contest.play(name, steps)

"""A frame or a fault of a recording, as the library reads it, with each interval's symbol and window."""
import dataclasses

from . import files, library, told
from .trouble import Trouble

AFTER = 6  # intervals that are shown after one at fault
ENDS = (library.EOF, library.IFS)
BITS = {library.BIT_0: 0, library.BIT_1: 1}
WIDEST = 2**32 - 1


@dataclasses.dataclass
class Interval:
    """An interval: its place, when it begins, its width, its symbol in words, and the window of that symbol, whose upper end is
    none where it has none."""

    place: int
    begins: int
    active: bool
    width: int
    symbol: str
    window: tuple


@dataclasses.dataclass
class Byte:
    """A byte, or the normalization bit, from the place of its first interval to that of its last."""

    begin: int
    end: int
    said: str


@dataclasses.dataclass
class Excerpt:
    """What is drawn: a title, a sentence, the number of the answer, the last place that was read, the intervals and the bytes."""

    title: str
    said: str
    number: int
    last: int
    intervals: list
    bytes: list


def edge(same, inside, outside):
    """The last place from inside on, towards outside, that is the same; all places between are the same up to there."""
    if same(outside):
        return outside
    while abs(outside - inside) > 1:
        middle = (inside + outside) // 2
        inside, outside = (middle, outside) if same(middle) else (inside, middle)
    return inside


def window(line, active, width):
    """The narrowest and the widest interval that the library gives the same symbol; none where there is no widest."""
    symbol = line.symbol(active, width)
    same = lambda other: line.symbol(active, other) == symbol
    high = edge(same, width, WIDEST)
    return edge(same, width, 0), None if high == WIDEST else high


def parts(symbols, opening, last):
    """The bytes of a frame that opens at a place, as far as it was read: eight bits each, by the library's symbols; and the
    normalization bit, which is the first active interval after the EOD."""
    out, bits, begin, place = [], [], 0, opening + 2
    while place <= last and (symbols[place] in BITS or symbols[place] == library.EOD):
        if symbols[place] == library.EOD:
            place += 1
            if place <= last and symbols[place] in BITS:
                out.append(Byte(place, place, "NB"))
            bits = []
        else:
            begin = begin if bits else place
            bits.append(BITS[symbols[place]])
            if len(bits) == 8:
                out.append(Byte(begin, place, f"{int(''.join(map(str, bits)), 2):02X}"))
                bits = []
        place += 1
    return out


def answer_at(line, path, widths, place):
    """The answer that the desk has at a place, and from where it was read."""
    position = 0
    for answer, main, response in line.frames(widths):
        at, kind, *_ = told.columns_of(answer, main, response)
        if at == place and answer.number != library.QUIET:
            return answer, main, response, position
        position = answer.next
    raise Trouble(f"{files.named(path)}: no frame and no fault stands at {place}; `j1850 desk` lists where they stand")


def first_end(line, widths, position):
    """Where a frame opens that is read from a position: the first end at an even place. A fault's answer does not tell it."""
    place = position + position % 2
    while line.symbol(False, widths[place]) not in ENDS:
        place += 2
    return place


def sentence(answer, main, response):
    """What the library answered, in words."""
    if answer.number != library.FRAME:
        return library.words(answer.number)
    kind = {library.PLAIN: ", a plain response ", library.CHECKED: ", a checked response "}.get(answer.kind, "")
    return f"a good frame: {told.spaced(main)}{kind}{told.spaced(response)}"


def excerpt(line, path, place):
    """What is drawn of a recording at a place of the desk's text."""
    customer, vehicle, widths = files.recording(line, path)
    answer, main, response, position = answer_at(line, path, widths, place)
    faulty = answer.number in library.FAULTS
    opening = first_end(line, widths, position) if faulty else answer.opening
    last = len(widths) - 1 if answer.number == library.UNFINISHED else answer.next
    end = min(len(widths), last + 1 + (AFTER if faulty else 0))
    symbols = {at: line.symbol(at % 2 == 1, widths[at]) for at in range(opening, end)}
    seen, intervals, begins = {}, [], sum(widths[:opening])
    for at in range(opening, end):
        key = (at % 2 == 1, symbols[at])
        if key not in seen:
            seen[key] = window(line, at % 2 == 1, widths[at])
        intervals.append(Interval(at, begins, at % 2 == 1, widths[at], library.SYMBOLS[symbols[at]], seen[key]))
        begins += widths[at]
    _, kind, *_ = told.columns_of(answer, main, response)
    title = f"{customer}, {vehicle}: {kind} at {place}"
    return Excerpt(title, sentence(answer, main, response), answer.number, last, intervals, parts(symbols, opening, last))

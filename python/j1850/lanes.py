"""A round drawn: a lane for each station with what it drove until it stopped, and the line below.

The line's times are those of the words that the library wrote. A station's bits begin with the line's; its active bits last as
long as its own clock has them. It reads `contest.Round`.
"""
from . import library, svg, told
from .waiting import bits

SCALE = 0.25  # points of the picture a microsecond
LEFT, TOP, LANE, FOOT = 250, 74, 48, 120
HIGH, LOW = 14, 36  # of a wave, from the top of its lane
TICK, LABELLED = 100, 500  # microseconds
MOST_NAME = 24  # letters of a name that have room


class Drawing:
    """Where things stand in the picture of a round."""

    def __init__(self, played):
        self.played = played
        starts = [0]
        for width in played.words:
            starts.append(starts[-1] + width)
        self.starts = starts  # of each word, and the end of the last one
        self.floor = TOP + LANE * len(played.lanes)

    def x(self, time):
        """Where a time stands."""
        return LEFT + SCALE * time


def short_name(name):
    """A name as far as there is room for it."""
    return name if len(name) <= MOST_NAME else name[: MOST_NAME - 1] + "…"


def verdict(lane):
    """How a station fared, in words."""
    if lane.fared == "lost":
        own = "had sent all" if lane.own is None else f"sent {lane.own}"
        return f"LOST at bit {lane.bit}: {own}, line had {lane.line}"
    return "GOT THROUGH" if lane.fared == "through" else "idle: no message"


def title(played):
    """The picture's title: who got through, with which bytes, and how long the line was busy."""
    names = " and ".join(lane.name for lane in played.lanes if lane.fared == "through")
    return f"Round {played.number}: {names} got through with {told.spaced(played.bytes)}"


def asked(lane, place):
    """The width that a station asks for at a place of the line's words: for its SOF, or for its bit, long or short by the level."""
    if place == 1:
        return lane.clock[2]
    is_long = bits(lane.sent)[place - 2] == (1 if place % 2 == 0 else 0)
    return lane.clock[1] if is_long else lane.clock[0]


def stop(drawing, lane):
    """When a loser stops: where the line goes on without it, or holds a level that it has let go."""
    begin = drawing.starts[lane.bit + 1]
    if lane.own is None:
        return begin
    if lane.bit % 2 == 1:  # a passive bit: another station ends it
        return drawing.starts[lane.bit + 2]
    return begin + asked(lane, lane.bit + 1)


def driven(drawing, lane, top):
    """The points of what a station drove: active for as long as it asks, and otherwise not at all."""
    last = lane.bit + 1 if lane.fared == "lost" else 8 * len(lane.sent) + 1
    end = stop(drawing, lane) if lane.fared == "lost" else drawing.starts[-2]
    points = [(drawing.x(0), top + LOW)]
    for place in range(1, last + 1, 2):
        if place - 1 > 8 * len(lane.sent):
            break
        begin = drawing.starts[place]
        for time, height in ((begin, LOW), (begin, HIGH), (begin + asked(lane, place), HIGH), (begin + asked(lane, place), LOW)):
            points.append((drawing.x(time), top + height))
    return points + [(drawing.x(end), top + LOW)]


def sent_bytes(drawing, lane, top):
    """The bytes that a station sent whole, above its wave."""
    whole = (lane.bit - 1) // 8 if lane.fared == "lost" else len(lane.sent)
    out = ""
    for place, byte in enumerate(lane.sent[:whole]):
        middle = (drawing.starts[8 * place + 2] + drawing.starts[8 * place + 10]) / 2
        out += svg.text(drawing.x(middle), top + HIGH - 4, f"{byte:02X}", class_="small", text_anchor="middle")
    return out


def lost_mark(drawing, lane, top):
    """The bit where a station lost: framed, with a cross where it stops, and both bits in words."""
    place = lane.bit + 1
    begin, end, at = drawing.x(drawing.starts[place]), drawing.x(drawing.starts[place + 1]), drawing.x(stop(drawing, lane))
    middle = top + LOW
    own = "nothing left" if lane.own is None else f"sent {lane.own}"
    said = f"stops at bit {lane.bit}: {own}, line had {lane.line}"
    out = svg.rect(begin, top + HIGH - 6, end - begin, LOW - HIGH + 12, fill="none", stroke=svg.LOSER, stroke_width=2)
    for slope in (-6, 6):
        out += svg.line(at - 6, middle - slope, at + 6, middle + slope, stroke=svg.LOSER, stroke_width=3)
    out += svg.text(max(at, end) + 12, top + HIGH + 10, said, class_="said clear", font_weight="bold")
    return svg.group(out, class_="lost", data_station=lane.name, data_bit=lane.bit, data_sent="" if lane.own is None else lane.own, data_line=lane.line)


def threads(drawing):
    """A thread for each bit where a station lost, from the first such lane down to the line."""
    out, bits_seen = "", set()
    for place, lane in enumerate(drawing.played.lanes):
        if lane.fared == "lost" and lane.bit not in bits_seen:
            bits_seen.add(lane.bit)
            middle = drawing.x((drawing.starts[lane.bit + 1] + drawing.starts[lane.bit + 2]) / 2)
            out += svg.line(middle, TOP + LANE * place + LOW, middle, drawing.floor + 22, stroke=svg.LOSER, stroke_dasharray="2 4")
    return out


def through_mark(drawing, lane, top):
    """Where a station got through: a filled arrow, and its bytes."""
    at, middle = drawing.x(drawing.starts[-2]), top + (HIGH + LOW) / 2
    out = f'<path d="M{at + 6:.1f},{middle - 9:.1f} l16,9 l-16,9 z" fill="{svg.WINNER}"/>\n'
    out += svg.text(at + 28, middle + 5, "got through", class_="big")
    return svg.group(out, class_="through", data_station=lane.name)


def lane_of(drawing, lane, top):
    """A station's lane."""
    out = svg.text(12, top + 20, short_name(lane.name), class_="name") + svg.text(12, top + 37, verdict(lane), class_="said")
    out += svg.line(8, top + LANE - 2, drawing.x(drawing.starts[-1]), top + LANE - 2, stroke=svg.GRID)
    if lane.fared == "idle":
        return out + svg.line(LEFT, top + LOW, drawing.x(drawing.starts[-1]), top + LOW, stroke=svg.QUIET_INK, stroke_dasharray="1 5")
    won = lane.fared == "through"
    points = driven(drawing, lane, top)
    out += svg.wave(points, stroke=svg.WINNER if won else svg.INK, stroke_width=3 if won else 1.5)
    out += svg.line(points[-1][0], top + LOW, drawing.x(drawing.starts[-1]), top + LOW, stroke=svg.QUIET_INK, stroke_dasharray="1 5")
    return out + sent_bytes(drawing, lane, top) + (through_mark if won else lost_mark)(drawing, lane, top)


def axis(drawing):
    """The time axis, in microseconds from the opening on."""
    out, end = "", drawing.starts[-1]
    for time in range(0, end + 1, TICK):
        at = drawing.x(time)
        if time % LABELLED == 0:
            out += svg.line(at, TOP - 10, at, drawing.floor + 40, stroke=svg.GRID) + svg.text(at, TOP - 14, time, class_="small", text_anchor="middle")
        else:
            out += svg.line(at, TOP - 8, at, TOP - 4, stroke=svg.QUIET_INK)
    return out + svg.text(LEFT - 10, TOP - 14, "µs", class_="small", text_anchor="end")


def line_of(drawing):
    """The line: its wave, the symbol or bit of each word, its bits' numbers at each byte, and its bytes."""
    played, top = drawing.played, drawing.floor + 14
    points, out = [], svg.text(12, top + 24, "the line", class_="name") + svg.text(12, top + 41, f"busy {played.line_time} µs", class_="said")
    for place, width in enumerate(played.words):
        begin, end = drawing.x(drawing.starts[place]), drawing.x(drawing.starts[place + 1])
        height = top + (HIGH if place % 2 else LOW)
        points += [(begin, height), (end, height)]
        symbol = library.SYMBOLS[played.symbols[place]]
        word = svg.text((begin + end) / 2, top + LOW + 18, symbol.removeprefix("bit "), class_="bit", text_anchor="middle")
        level = "active" if place % 2 else "passive"
        out += svg.group(word, class_="word", data_place=place, data_symbol=symbol, data_width=width, data_level=level)
    out += svg.wave(points, stroke_width=3)
    for place, byte in enumerate(played.bytes):
        begin, end = drawing.x(drawing.starts[8 * place + 2]), drawing.x(drawing.starts[8 * place + 10])
        foot = top + LOW + 26
        out += svg.wave([(begin + 1, foot), (begin + 1, foot + 5), (end - 1, foot + 5), (end - 1, foot)])
        check = " check" if place == len(played.bytes) - 1 else ""
        out += svg.text((begin + end) / 2, foot + 21, f"{byte:02X}{check}", class_="big", text_anchor="middle")
        out += svg.text(begin, foot + 36, f"bit {8 * place + 1}", class_="small")
    return svg.group(out, class_="line")


def draw(played):
    """The SVG of a round."""
    drawing = Drawing(played)
    ends = [drawing.x(drawing.starts[-1])]
    ends += [drawing.x(stop(drawing, lane)) + 40 + svg.room("stops at bit 00: nothing left, line had 0", 12) for lane in played.lanes if lane.fared == "lost"]
    ends += [drawing.x(drawing.starts[-2]) + 28 + svg.room("got through", 15), LEFT + svg.room(title(played), 18)]
    inner = svg.text(12, 28, title(played), class_="title") + axis(drawing) + threads(drawing)
    inner += "".join(lane_of(drawing, lane, TOP + LANE * place) for place, lane in enumerate(played.lanes))
    cursor = svg.rect(0, TOP - 6, 0, drawing.floor + 76 - TOP, id="cursor", fill="none", stroke=svg.INK, stroke_width=2, visibility="hidden")
    return svg.picture(max(ends) + 20, drawing.floor + FOOT + 20, title(played), inner + line_of(drawing) + cursor)

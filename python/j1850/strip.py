"""One frame of a recording drawn: each interval with its symbol, and its width against the symbol's window.

The symbols are the library's, and the windows are found by asking it. An interval that is longer than LONGEST is drawn that long,
and broken. It reads `excerpt.Excerpt`.
"""
from . import library, svg

SCALE, LONGEST = 0.42, 400  # points a microsecond, and the most microseconds that are drawn of an interval
LEFT, HIGH, LOW = 20, 96, 132
LEAST = 38  # points for the narrowest interval, which has its width written under it
GAUGE, GAUGE_HIGH = 186, 8
CROSS, TIMES, TALL = 244, 268, 322  # where the cross of a fault and the times stand, and the height of it all


def laid(excerpt):
    """Where each interval begins and how wide it is drawn."""
    at, out = float(LEFT), []
    for interval in excerpt.intervals:
        wide = max(LEAST, SCALE * min(interval.width, LONGEST))
        out.append((at, wide))
        at += wide
    return out


def gauge(at, wide, interval):
    """A width in its symbol's window: a bar for the window, and a tick for the width. A window without an upper end has an arrow."""
    low, high = interval.window
    begin, room = at + 4, wide - 8
    out = svg.rect(begin, GAUGE, room, GAUGE_HIGH, fill="#eee", stroke=svg.QUIET_INK)
    if high is None:
        out += f'<path d="M{begin + room - 5:.1f},{GAUGE} l5,{GAUGE_HIGH / 2} l-5,{GAUGE_HIGH / 2} z" fill="{svg.QUIET_INK}"/>\n'
        tick = begin + min(room - 6, room * (interval.width - low) / (interval.width + 1))
    else:
        tick = begin + room * (interval.width - low) / max(1, high - low)
    out += svg.line(tick, GAUGE - 4, tick, GAUGE + GAUGE_HIGH + 4, stroke_width=3)
    said = f"{low}+" if high is None else f"{low}–{high}"
    return out + svg.text(at + wide / 2, GAUGE + 24, said, class_="tiny", text_anchor="middle")


def one(at, wide, interval):
    """An interval: its symbol, its width, its window; a break in its wave where it is not drawn whole."""
    middle = at + wide / 2
    out = svg.text(middle, 152, interval.symbol.removeprefix("bit "), class_="bit", text_anchor="middle", font_weight="bold")
    out += svg.text(middle, 170, interval.width, class_="small", text_anchor="middle") + gauge(at, wide, interval)
    if interval.width > LONGEST:
        height = HIGH if interval.active else LOW
        out += svg.line(middle - 6, height + 7, middle, height - 7, stroke_width=2) + svg.line(middle, height + 7, middle + 6, height - 7, stroke_width=2)
    return svg.group(out, class_="interval", data_place=interval.place, data_width=interval.width, data_symbol=interval.symbol)


def waves(excerpt, places):
    """The wave, thick as far as it was read and thin after that."""
    read, rest = [], []
    for interval, (at, wide) in zip(excerpt.intervals, places):
        height = HIGH if interval.active else LOW
        (read if interval.place <= excerpt.last else rest).extend([(at, height), (at + wide, height)])
    if rest:
        rest.insert(0, read[-1])
    return svg.wave(read, stroke_width=3) + (svg.wave(rest, stroke=svg.QUIET_INK, stroke_dasharray="4 3") if rest else "")


def bytes_of(excerpt, places):
    """The bytes above the wave, each over its bits."""
    out, first = "", excerpt.intervals[0].place
    for part in excerpt.bytes:
        begin, (last, wide) = places[part.begin - first][0], places[part.end - first]
        out += svg.wave([(begin + 2, HIGH - 10), (begin + 2, HIGH - 16), (last + wide - 2, HIGH - 16), (last + wide - 2, HIGH - 10)])
        out += svg.text((begin + last + wide) / 2, HIGH - 20, part.said, class_="big", text_anchor="middle")
    return out


def fault_words(excerpt):
    """The fault, in words."""
    return f"fault {excerpt.number} at {excerpt.last}: {excerpt.said}"


def fault_mark(excerpt, places):
    """The interval at fault: framed, with a cross and the fault's words."""
    at, wide = places[excerpt.last - excerpt.intervals[0].place]
    out = svg.rect(at, HIGH - 8, wide, GAUGE + 40 - HIGH, fill="none", stroke=svg.LOSER, stroke_width=3)
    for slope in (-7, 7):
        out += svg.line(at + wide / 2 - 7, CROSS - slope, at + wide / 2 + 7, CROSS + slope, stroke=svg.LOSER, stroke_width=3)
    out += svg.text(at + wide / 2 + 14, CROSS + 5, fault_words(excerpt), class_="said", font_weight="bold")
    return svg.group(out, class_="fault", data_place=excerpt.last, data_number=excerpt.number)


def times(excerpt, places):
    """The time at which each interval begins, in microseconds from the recording's start on, as far as there is room."""
    out, free = "", 0.0
    for interval, (at, _) in zip(excerpt.intervals, places):
        if at >= free:
            out += svg.line(at, TIMES, at, TIMES + 6) + svg.text(at, TIMES + 18, interval.begins, class_="small")
            free = at + 14 + svg.room(str(interval.begins), 10)
    return out + svg.text(LEFT, TIMES + 38, "µs from the start of the recording; under each interval its width, and the window of its symbol", class_="small")


def draw(excerpt):
    """The SVG of an excerpt."""
    places = laid(excerpt)
    inner = svg.text(LEFT, 28, excerpt.title, class_="title") + svg.text(LEFT, 48, excerpt.said, class_="said")
    inner += bytes_of(excerpt, places) + waves(excerpt, places)
    inner += "".join(one(at, wide, interval) for interval, (at, wide) in zip(excerpt.intervals, places))
    if excerpt.number in library.FAULTS:
        inner += fault_mark(excerpt, places)
    cursor = svg.rect(0, HIGH - 12, 0, GAUGE + 38 - HIGH, id="cursor", fill="none", stroke=svg.INK, stroke_width=2, visibility="hidden")
    wide = max(sum(places[-1]), LEFT + svg.room(excerpt.title, 18), LEFT + svg.room(excerpt.said, 12))
    if excerpt.number in library.FAULTS:
        at, its = places[excerpt.last - excerpt.intervals[0].place]
        wide = max(wide, at + its / 2 + 14 + svg.room(fault_words(excerpt), 12))
    return svg.picture(wide + 20, TALL, excerpt.title, inner + times(excerpt, places) + cursor)

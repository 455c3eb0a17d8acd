"""Traces that other programs write, as one sample a microsecond, which is what the library takes.

Where a trace has another rate, the sample of each microsecond is the last one that was taken at or before it. Levels of 0 and 1
become 0 and 1 volt.
"""
import array
import fractions
import math
import re

from .trouble import Trouble

MICROSECOND = 1_000_000  # in a second
MOST = 20 * MICROSECOND  # samples of a trace: more than any recording that the desk takes has of bits
UNITS = {"": 1, "k": 1000, "m": 1000**2, "g": 1000**3}
SCALES = {"s": 1, "ms": 1000, "us": 1000**2, "ns": 1000**3, "ps": 1000**4, "fs": 1000**5}
UNUSABLE = math.nan  # for a level that is not known: the library refuses it


def rate(text):
    """A sample rate, such as 1000000, 2M or 500 kHz, as samples a second."""
    found = re.fullmatch(r"\s*(\d+(?:\.\d+)?)\s*([kMGm]?)(?:Hz)?\s*", text, re.I)
    if not found or not fractions.Fraction(found[1]):
        raise ValueError(f"{text!r} is not a sample rate, such as 1000000 or 2 MHz")
    return fractions.Fraction(found[1]) * UNITS[found[2].lower()]


def checked(count):
    """So many microseconds, unless they are too many."""
    if count > MOST:
        raise Trouble(f"the trace has {count} microseconds, and at most {MOST} are read: cut it")
    return count


def held(values, samples_a_second):
    """The sample of each microsecond: the last one at or before it."""
    if samples_a_second == MICROSECOND:
        checked(len(values))
        return array.array("f", values)
    step = fractions.Fraction(samples_a_second) / MICROSECOND
    count = checked(math.floor(len(values) / step))
    up, down = step.numerator, step.denominator
    return array.array("f", (values[place * up // down] for place in range(count)))


def numbers(row):
    """The numbers of a CSV's row; none where a field is not a number."""
    try:
        return [float(field) for field in row]
    except ValueError:
        return None


def column_of(names, wide, wanted):
    """Which column has the samples: the one that is named or numbered from 1 on, or else the last of one or two."""
    if wanted is None:
        if wide > 2:
            raise Trouble(f"the file has {wide} columns: say which one by --column" + (f" ({', '.join(names)})" if names else ""))
        return wide - 1
    if wanted in names:
        return names.index(wanted)
    if wanted.isascii() and wanted.isdigit() and 1 <= int(wanted) <= wide:
        return int(wanted) - 1
    raise Trouble(f"the file has no column {wanted!r}")


def csv(text, wanted, told_rate):
    """The samples of a CSV and their rate: as it is told; by sigrok's comment; by the times in the first of two columns; or else
    one a microsecond."""
    names, rows = [], []
    for number, raw in enumerate(text.splitlines(), 1):
        if raw.startswith((";", "#")) or not raw.strip():
            comment = re.match(r"[;#]\s*Samplerate:\s*(.*)", raw, re.I)
            told_rate = told_rate or (rate(comment[1]) if comment else None)
            continue
        row = [field.strip().strip('"') for field in raw.split(",")]
        values = numbers(row)
        if values is None and not rows:
            names = row
        elif values is None or (rows and len(values) != len(rows[0])):
            raise Trouble(f"line {number}: it is not as many numbers as the lines before it have")
        else:
            rows.append(values)
    if not rows:
        raise Trouble("the file has no samples")
    column = column_of(names, len(rows[0]), wanted)
    if told_rate is None and column > 0 and len(rows) > 1:
        took = fractions.Fraction(rows[-1][0]) - fractions.Fraction(rows[0][0]) if math.isfinite(rows[-1][0] - rows[0][0]) else 0
        if took <= 0:
            raise Trouble("the first column is not times in seconds: say the sample rate by --rate")
        told_rate = fractions.Fraction((len(rows) - 1) / took).limit_denominator(1000)
    return [row[column] for row in rows], told_rate or MICROSECOND


def chosen(wires, wanted):
    """The sign of the wire that is named, or of the only one."""
    if wanted is None and len(wires) == 1:
        return next(iter(wires.values()))
    if wanted in wires:
        return wires[wanted]
    if wanted is None:
        raise Trouble(f"the file has {len(wires)} wires of one bit: say which one by --column ({', '.join(wires)})")
    raise Trouble(f"the file has no wire {wanted!r} of one bit")


def vcd(text, wanted):
    """One sample a microsecond of a wire of a value change dump, from its first time to its last."""
    head, found, body = text.partition("$enddefinitions")
    scale = re.search(r"\$timescale\s+(\d+)\s*(\w+)\s+\$end", head)
    if not found or not scale or scale[2] not in SCALES:
        raise Trouble("it is no value change dump: it has no $enddefinitions, or no $timescale")
    sign = chosen(dict(reversed(one) for one in re.findall(r"\$var\s+\w+\s+1\s+(\S+)\s+(\S+)", head)), wanted)
    times, levels, now = [], [], None
    for token in body.split()[1:]:
        if token.startswith("#") and token[1:].isdigit():
            if now is not None and int(token[1:]) < now:
                raise Trouble(f"its time goes back at #{token[1:]}")
            now = int(token[1:])
        elif token[0] in "01xXzZ" and token[1:] == sign and now is not None:
            times.append(now)
            levels.append(float(token[0]) if token[0] in "01" else UNUSABLE)
    if not times:
        raise Trouble("the wire has no level at any time")
    ticks = fractions.Fraction(int(scale[1]) * MICROSECOND, SCALES[scale[2]])  # microseconds a tick
    count = checked(math.floor((now - times[0]) * ticks))
    samples = array.array("f", [levels[0]]) * count
    for time, after, level in zip(times, times[1:] + [now], levels):
        begin, end = (math.ceil((each - times[0]) * ticks) for each in (time, after))
        samples[begin:end] = array.array("f", [level]) * (min(end, count) - min(begin, count))
    return samples

"""Why the desk refuses an input, written down apart from the proved code: what it says of it on standard error."""

# What the desk reads of any input, and how many lines a good one has at most.
ENOUGH = 229415
MOST_LINES = 1 + 16384


def words(lines, number):
    """The words for a line of an input that is parted at its newlines, so that what stands last has none."""
    if number > len(lines) or (number == len(lines) and not lines[-1]):
        return b"the input has no such line"
    if number == len(lines):
        return b"no newline closes it"
    if lines[number - 1].endswith(b"\r"):
        return b"a carriage return stands before its newline"
    if number == 1:
        return b"it is not own, customer and vehicle, parted by tabs"
    if number > MOST_LINES:
        return b"16384 lines with a width stand before it"
    return b"it is not iv and a width, parted by a tab"


def said(data, text):
    """What stands on standard error beside the text of an input: nothing beside a report."""
    kind, _, rest = text.partition(b"\t")
    if kind != b"refused":
        return b""
    return b"desk: line %d: %s\n" % (int(rest), words(data[:ENOUGH].split(b"\n"), int(rest)))

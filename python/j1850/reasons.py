"""Why the desk refuses an input, in the words of the proved desk program. The library tells the line; this looks at it again."""

# What the desk reads of any input, which is more than any good one has, and how many lines a good one has at most.
ENOUGH = 229415
MOST_LINES = 1 + 16384


def reason(data, number):
    """The words for the first bad line of an input, whose number the library has told."""
    lines = data[:ENOUGH].split(b"\n")
    if number > len(lines) or (number == len(lines) and not lines[-1]):
        return "the input has no such line"
    if number == len(lines):
        return "no newline closes it"
    if lines[number - 1].endswith(b"\r"):
        return "a carriage return stands before its newline"
    if number == 1:
        return "it is not own, customer and vehicle, parted by tabs"
    if number > MOST_LINES:
        return "16384 lines with a width stand before it"
    return "it is not iv and a width, parted by a tab"

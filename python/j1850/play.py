"""A contest from a text: who gets through in each round, and where each other station stops.

The text has a line for each station, then loads, withdrawals, clocks and rounds; docs/COMMANDS.md has its form. For each loser
stand the bit at which it stopped, counted from 1 after the SOF, what it sent there and what the line had. A, L and `by` are
document 01's demand 3: a message goes out by round 1 + A + L, counted from its loading.
"""
from . import contest, files, sheet, told, values
from .find import found
from .trouble import DONE

COLUMNS = ("station", "message", "fared", "bit", "sent", "line", "A", "L", "by")


def add_options(parser):
    """What the command takes."""
    parser.add_argument("scenario", metavar="SCENARIO", help="the contest's text, or - for standard input")
    sheet.add_forms(parser)
    parser.add_argument("--line", metavar="FILE", help="write the line of all rounds as a recording that desk reads")
    values.add_labels(parser)


def row_of(lane):
    """A station's line in the table of a round. A station that has sent its check byte sends nothing more."""
    row = {"station": lane.name, "message": told.spaced(lane.sent) or None, "fared": lane.fared}
    if lane.fared == "lost":
        row.update(bit=lane.bit, sent="nothing" if lane.own is None else lane.own, line=lane.line)
    if lane.waiting:
        row.update(A=lane.waiting.ahead, L=lane.waiting.loadings, by=lane.waiting.by)
    return [row.get(name) for name in COLUMNS]


def table(played):
    """A round for people."""
    names = " and ".join(lane.name for lane in played.lanes if lane.fared == "through")
    heading = f"round {played.number}: {names} got through with {told.spaced(played.bytes)}, {played.line_time} us\n"
    return heading + sheet.aligned(COLUMNS, [row_of(lane) for lane in played.lanes], "  ")


def still_waiting(book):
    """What waits after the last round, and by which round demand 3 promises it."""
    return "".join(
        f"waiting: {name}, {told.spaced(waits.sent)}: demand 3 promises round {waits.by} at the latest (A {waits.ahead}, L {waits.loadings})\n"
        for name, waits in book
    )


def show(options, played):
    """Prints a round."""
    rows = [(played.number, played.line_time, *row_of(lane)) for lane in played.lanes]
    names = ("round", "line_time", *COLUMNS)
    if options.json:
        sheet.put("".join(sheet.json_line(dict(zip(names, row))) for row in rows))
    elif options.tsv:
        heading = sheet.tsv_line(names) if played.number == 1 else ""
        sheet.put(heading + "".join(sheet.tsv_line(row) for row in rows))
    else:
        sheet.put(table(played))


def joined(line, words):
    """The line of one round more: the closing end of the last one opens it."""
    return words if not line else line + words[1:]


def run(options):
    """Plays the contest, and prints each round as it is played."""
    library = found()
    bench, played = contest.rounds(library, options.scenario)
    line = []
    for each in played:
        show(options, each)
        line = joined(line, each.words)
    if not (options.json or options.tsv):
        sheet.put(still_waiting((bench.names[place], waits) for place, waits in sorted(bench.book.waiting.items())))
    if options.line:
        files.write(options.line, files.recording_text(library, options.customer, options.vehicle, line))
    return DONE

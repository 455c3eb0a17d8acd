"""A round of a contest, or a frame of a recording, as a picture: an SVG, or an HTML page that zooms and steps.

Each station has a lane with what it drove until it stopped; where it lost stands what it sent and what the line had. The line
stands below, with its symbols, bits and bytes, and a time axis in microseconds. With --at the file is a recording: what the desk
has at that place is drawn, each interval with its symbol and its width in the symbol's window, and a fault where it stands.
"""
from . import contest, excerpt, files, lanes, page, strip
from .find import found
from .trouble import DONE, Trouble


def positive(text):
    """The number of a round."""
    value = int(text)
    if value < 1:
        raise ValueError
    return value


def place(text):
    """A place of a recording."""
    value = int(text)
    if value < 0:
        raise ValueError
    return value


def add_options(parser):
    """What the command takes."""
    parser.add_argument("file", metavar="FILE", help="the contest's text, or a recording; - for standard input")
    which = parser.add_mutually_exclusive_group()
    which.add_argument("--at", type=place, metavar="PLACE", help="the place of a frame or a fault of a recording, as desk has it")
    which.add_argument("--round", type=positive, default=1, metavar="N", help="which round (the first)")
    parser.add_argument("--html", action="store_true", help="an HTML page instead of an SVG")
    parser.add_argument("-o", "--output", default="-", metavar="FILE", help="where it goes (standard output)")


def the_round(line, options):
    """The round that is asked for."""
    count = 0
    for played in contest.rounds(line, options.file)[1]:
        count = played.number
        if count == options.round:
            return played
    raise Trouble(f"{files.named(options.file)}: it has no round {options.round}, only {count}")


def run(options):
    """Draws the round, or the frame."""
    line = found()
    if options.at is None:
        played = the_round(line, options)
        drawn = lanes.draw(played)
        text = page.of_round(played, drawn) if options.html else drawn
    else:
        cut = excerpt.excerpt(line, options.file, options.at)
        drawn = strip.draw(cut)
        text = page.of_excerpt(cut, drawn) if options.html else drawn
    files.write(options.output, text)
    return DONE

"""A message's frame as it goes onto the line, for a bench generator or a viewer.

Writes a recording that `desk` reads, or with --vcd a value change dump that PulseView and GTKWave show. The check bytes are
added by the library.
"""
from . import files, library, sheet, values
from .find import found
from .trouble import DONE

LEVELS = ("passive", "active")


def add_options(parser):
    """What the command takes."""
    parser.add_argument("message", nargs="+", metavar="MESSAGE", help="the main bytes in hex, without their check byte")
    response = parser.add_mutually_exclusive_group()
    response.add_argument("--plain", type=values.hex_bytes, metavar="HEX", help="a response of bytes alone")
    response.add_argument("--checked", type=values.hex_bytes, metavar="HEX", help="a response that gets a check byte of its own")
    parser.add_argument("--clock", type=values.clock, default="64,128,200", metavar="SHORT,LONG,SOF", help="widths in us (%(default)s)")
    values.add_labels(parser)
    forms = parser.add_mutually_exclusive_group()
    forms.add_argument("--vcd", action="store_true", help="a value change dump, in microseconds, instead of a recording")
    forms.add_argument("--json", action="store_true", help="a JSON record for each interval")
    parser.add_argument("-o", "--output", default="-", metavar="FILE", help="where it goes (standard output)")


def vcd(widths):
    """A value change dump of one wire: 0 where the line is passive, 1 where it is active."""
    text = "$timescale 1 us $end\n$scope module j1850 $end\n$var wire 1 ! line $end\n$upscope $end\n$enddefinitions $end\n"
    time = 0
    for place, width in enumerate(widths):
        text += f"#{time}\n{place % 2}!\n"
        time += width
    return text + f"#{time}\n"


def as_json(line, widths):
    """A record for each interval: its place, its level, its width and its symbol."""
    for place, width in enumerate(widths):
        symbol = library.SYMBOLS[line.symbol(place % 2 == 1, width)]
        yield sheet.json_line({"at": place, "level": LEVELS[place % 2], "width": width, "symbol": symbol})


def run(options):
    """Writes the frame."""
    line = found()
    message = values.typed(values.hex_bytes, "".join(options.message))
    kind = library.PLAIN if options.plain is not None else library.CHECKED if options.checked is not None else library.WITHOUT
    widths = line.write(options.clock, message, kind, options.plain or options.checked or b"")
    if options.vcd:
        text = vcd(widths)
    elif options.json:
        text = "".join(as_json(line, widths))
    else:
        text = files.recording_text(line, options.customer, options.vehicle, widths)
    files.write(options.output, text)
    return DONE

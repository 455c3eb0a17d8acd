"""Samples to intervals: a trace of volts or of levels becomes a recording that `desk` reads.

A trace is a CSV with a sample a line (volts, or levels of 0 and 1; a first column of times in seconds may stand before them), a
value change dump with a wire of one bit, or sigrok's .sr file, which sigrok-cli has to be installed for. The library takes one
sample a microsecond. Of a trace with another rate it is given, for each microsecond, the last sample at or before it.
"""
import argparse
import shutil
import subprocess

from . import files, library, trace, values
from .find import found
from .trouble import DONE, Trouble

MOST_SAMPLES = 16384  # of a call
LEVELS = library.Gate(0, 1, 0)  # the gate for levels of 0 and 1


def gate(text):
    """A gate: ground offset, active level and passive level in volts. Whether it is good the library says."""
    try:
        offset, active, passive = (float(field) for field in text.split(","))
    except ValueError:
        raise argparse.ArgumentTypeError(f"{text!r} is not a gate, such as 0,6.25,1.5") from None
    return library.Gate(offset, active, passive)


def rate(text):
    """A sample rate."""
    try:
        return trace.rate(text)
    except ValueError as error:
        raise argparse.ArgumentTypeError(str(error)) from None


def add_options(parser):
    """What the command takes."""
    parser.add_argument("trace", metavar="TRACE", help="a .csv, .vcd or .sr file; - is a CSV or a dump on standard input")
    parser.add_argument("--rate", type=rate, metavar="HZ", help="samples a second of a CSV that does not tell it (1 MHz)")
    parser.add_argument("--column", metavar="NAME", help="which column, by name or number, or which wire")
    parser.add_argument("--gate", type=gate, metavar="OFFSET,ACTIVE,PASSIVE", help="in volts (0,6.25,1.5; not for levels of 0 and 1)")
    parser.add_argument("--inverted", action="store_true", help="levels of 0 and 1: 0 is active")
    values.add_labels(parser)
    parser.add_argument("-o", "--output", default="-", metavar="FILE", help="where the recording goes (standard output)")


def by_sigrok(path):
    """The dump that sigrok-cli writes of sigrok's own file."""
    tool = shutil.which("sigrok-cli")
    if not tool:
        raise Trouble(f"{path}: sigrok-cli is not installed, which reads this file")
    ended = subprocess.run([tool, "-i", path, "-O", "vcd"], capture_output=True, check=False)
    if ended.returncode or not ended.stdout:
        raise Trouble(f"{path}: sigrok-cli cannot read it: {ended.stderr.decode(errors='replace').strip()}")
    return ended.stdout


def samples_of(options):
    """The samples of a trace, one a microsecond."""
    data = by_sigrok(options.trace) if options.trace.endswith(".sr") else files.read(options.trace)
    text = data.decode("utf-8", "replace")
    try:
        if "$enddefinitions" in text:
            return trace.vcd(text, options.column)
        return trace.held(*trace.csv(text, options.column, options.rate))
    except (Trouble, ValueError, OverflowError) as error:
        raise Trouble(f"{files.named(options.trace)}: {error}") from None


def pieces(line, a_gate, samples):
    """The intervals of a trace of any length, in pieces that the library takes. Each piece begins passive; where the line is active,
    the sample that made it so stands first once more, and its microsecond is taken off again."""
    widths, opener, at = [0], None, 0
    while at < len(samples):
        active = len(widths) % 2 == 0
        head = [opener] if active else []
        piece = [*head, *samples[at : at + MOST_SAMPLES - len(head)]]
        got = line.intervals(a_gate, piece)
        if active:
            got = [got[1] - 1, *got[2:]]
        widths[-1] += got[0]
        widths += got[1:]
        at += len(piece) - len(head)
        if len(got) > 1 and len(widths) % 2 == 0:
            opener = samples[at - got[-1]]
    return widths if len(samples) else []


def run(options):
    """Writes the recording."""
    line, samples = found(), samples_of(options)
    levels = options.gate is None and all(sample in (0, 1) or sample != sample for sample in samples)
    if levels and options.inverted:
        samples = [1 - sample for sample in samples]
    a_gate = LEVELS if levels else options.gate or library.Gate(0, 6.25, 1.5)
    widths = pieces(line, a_gate, samples)
    files.write(options.output, files.recording_text(line, options.customer, options.vehicle, widths))
    return DONE

"""Answers as they are decided, while intervals come on standard input.

Each line is a width in microseconds, alone or after `iv` and a tab; the first interval is passive, the next active, and so on. A
line `own`, customer, vehicle may stand first. Of a recording that `desk` takes, --tsv prints the same text, line by line.
"""
import argparse
import sys

from . import library, sheet, told, values
from .find import found
from .trouble import DONE, Trouble

FORM = "{:>8}  {:<10}  {:<24}  {:<24}  {}"


def add_options(parser):
    """What the command takes."""
    sheet.add_forms(parser)
    parser.add_argument("--customer", default="-", help="the customer, where no line own tells it")
    parser.add_argument("--vehicle", default="-", help="the vehicle, likewise")


def fields(number, raw):
    """The fields of a line of input: `own` with two labels, or `iv` with a width."""
    row = raw.rstrip(b"\n").decode("ascii", "replace").split("\t")
    if row[0] == "own" and number == 1 and len(row) == 3:
        return row
    if len(row) == 1:
        row = ["iv", row[0].strip()]
    if row[0] != "iv" or len(row) != 2:
        raise Trouble(f"line {number}: it is not a width in microseconds")
    try:
        return "iv", values.width(row[1])
    except argparse.ArgumentTypeError as error:
        raise Trouble(f"line {number}: {error}") from None


class Printer:
    """Prints answers one by one, in the form that was asked for."""

    def __init__(self, options):
        self.options = options
        self.owner = (options.customer, options.vehicle)
        self.begun = False

    def begin(self):
        """The heading, before the first answer."""
        if self.options.tsv:
            sheet.put(sheet.tsv_line(told.COLUMNS))
        elif not self.options.json:
            sheet.put(FORM.format(*told.COLUMNS[2:], "").rstrip() + "\n")
        self.begun = True

    def answer(self, at, kind, main, response):
        """One answer."""
        if not self.begun:
            self.begin()
        row = (*self.owner, at, kind, main, response)
        words = told.words_of_kind(kind)
        if self.options.tsv:
            sheet.put(sheet.tsv_line(row))
        elif self.options.json:
            sheet.put(sheet.json_line({**dict(zip(told.COLUMNS, row)), "words": words or None}))
        else:
            sheet.put(FORM.format(at, kind, sheet.cell(main), sheet.cell(response), words).rstrip() + "\n")


def run(options):
    """Hears each interval as it comes, and asks at the end how what was heard ends."""
    line, printer = found(), Printer(options)
    reader = line.live_start()
    for number, raw in enumerate(iter(sys.stdin.buffer.readline, b""), 1):
        kind, *rest = fields(number, raw)
        if kind == "own":
            printer.owner = tuple(rest)
            continue
        answer, main, response = line.hear(reader, rest[0])
        if answer.number != library.UNDECIDED:
            printer.answer(*told.columns_of(answer, main, response))
    printer.answer(*told.columns_of(line.ask(reader)))
    return DONE

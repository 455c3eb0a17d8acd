"""Records as a table for people, as lines parted by tabs, or as a JSON record a line."""
import json
import sys


def add_forms(parser):
    """The options that choose between the three."""
    forms = parser.add_mutually_exclusive_group()
    forms.add_argument("--tsv", action="store_true", help="lines parted by tabs, the desk's own text where it has one")
    forms.add_argument("--json", action="store_true", help="a JSON record a line")


def cell(value):
    """A value as text: `-` where there is none."""
    return "-" if value is None or value == "" else str(value)


def tsv_line(values):
    """A line parted by tabs."""
    return "\t".join(cell(value) for value in values) + "\n"


def json_line(record):
    """A record on a line of its own."""
    return json.dumps(record) + "\n"


def aligned(columns, rows, indent=""):
    """A table with a heading, each column as wide as its longest cell."""
    table = [list(columns)] + [[cell(value) for value in row] for row in rows]
    widths = [max(len(row[i]) for row in table) for i in range(len(columns))]
    return "".join(indent + "  ".join(c.ljust(w) for c, w in zip(row, widths)).rstrip() + "\n" for row in table)


def put(text):
    """Writes to standard output at once, so that whoever waits for it sees it."""
    sys.stdout.write(text)
    sys.stdout.flush()

"""The desk's text for recordings: each frame, fault and end.

A recording is a line `own`, customer, vehicle, and a line `iv`, width, for each interval, the fields parted by tabs. `-` is
standard input. With --tsv the text is byte for byte that of the proved desk program. A recording that is refused gives a
message with the reason, and the next one is read.
"""
from . import files, library, reasons, sheet, told
from .find import found
from .trouble import DONE, REFUSED


def add_options(parser):
    """What the command takes."""
    parser.add_argument("file", nargs="+", metavar="FILE", help="a recording, or - for standard input")
    sheet.add_forms(parser)


def records(text):
    """The lines of the desk's text, each as its fields."""
    return [row.split("\t") for row in text.splitlines()[1:]]


def table(text):
    """The desk's text for people: aligned, and with the words of each fault and end."""
    return sheet.aligned((*told.COLUMNS, ""), [(*row, told.words_of_kind(row[3]) or " ") for row in records(text)])


def as_json(path, text):
    """A record for each line of the desk's text."""
    for row in records(text):
        values = (None if field == "-" else field for field in row)
        record = {"file": path, **dict(zip(told.COLUMNS, values)), "words": told.words_of_kind(row[3]) or None}
        yield sheet.json_line({**record, "at": int(record["at"])})


def refusal(data, answer):
    """What a record has of an input that is refused."""
    return {"kind": "refused", "number": answer.number, "line": answer.line, "words": reasons.reason(data, answer.line)}


def one(line, options, path):
    """Prints what the desk has for one recording. Answers whether it was a good one."""
    data = files.read(path, reasons.ENOUGH)
    answer, text = line.desk(data)
    text = text.decode("ascii")
    good = answer.number == library.DONE
    if options.tsv:
        sheet.put(text)
    elif options.json and good:
        sheet.put("".join(as_json(path, text)))
    elif options.json:
        sheet.put(sheet.json_line({"file": path, **refusal(data, answer)}))
    elif good:
        heading = f"{files.named(path)}:\n" if len(options.file) > 1 else ""
        sheet.put(heading + table(text))
    if not good:
        told.on_error(files.bad_input(path, data, answer))
    return good


def run(options):
    """Reads each recording in turn. One that is refused does not stop the others."""
    line = found()
    good = [one(line, options, path) for path in options.file]
    return DONE if all(good) else REFUSED

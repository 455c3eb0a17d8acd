"""Files by their names, `-` for standard input or output, and the text of a recording, which is the desk's input."""
import sys

from . import library, reasons
from .trouble import REFUSED, Trouble


def read(path, most=-1):
    """The bytes of a file, at most so many where that is said."""
    try:
        if path == "-":
            return sys.stdin.buffer.read(most)
        with open(path, "rb") as file:
            return file.read(most)
    except OSError as error:
        raise Trouble(f"{path}: {error.strerror or error}") from error


def write(path, text):
    """Writes a text, whole."""
    if path == "-":
        sys.stdout.write(text)
        return
    try:
        with open(path, "w", encoding="utf-8", newline="\n") as file:
            file.write(text)
    except OSError as error:
        raise Trouble(f"{path}: {error.strerror or error}") from error


def named(path):
    """A file's name for people."""
    return "standard input" if path == "-" else path


def judged(line, path, data):
    """The desk's text of an input; a bad one is a trouble, with its number, its line and why that line is bad."""
    answer, text = line.desk(data)
    if answer.number == library.BAD_INPUT:
        raise Trouble(bad_input(path, data, answer), REFUSED)
    return text.decode("ascii")


def bad_input(path, data, answer):
    """What is said of an input that the library calls bad."""
    words = library.words(answer.number)
    return f"{named(path)}: refused with {answer.number}: {words}: line {answer.line}: {reasons.reason(data, answer.line)}"


def recording(line, path):
    """The customer, the vehicle and the widths of a recording that the library has found good."""
    data = read(path, reasons.ENOUGH)
    judged(line, path, data)
    own, *rest = data.decode("ascii").splitlines()
    _, customer, vehicle = own.split("\t")
    return customer, vehicle, library.recording(int(row[3:]) for row in rest)


def recording_text(line, customer, vehicle, widths):
    """The text of a recording. The library judges its labels and its length."""
    text = f"own\t{customer}\t{vehicle}\n" + "".join(f"iv\t{width}\n" for width in widths)
    judged(line, "the recording to be written", text.encode("utf-8", "replace"))
    return text

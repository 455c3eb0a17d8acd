"""What is said to people: messages on standard error, and an answer of reading as the desk's columns."""
import sys

from . import library

COLUMNS = ("customer", "vehicle", "at", "kind", "main", "response")
KINDS = {library.FRAME: "frame", library.QUIET: "quiet", library.UNFINISHED: "unfinished"}
MARKS = {library.PLAIN: "p:", library.CHECKED: "c:"}


def on_error(message):
    """A message on standard error."""
    print(f"j1850: {message}", file=sys.stderr)


def spaced(data):
    """Bytes in hex, parted by spaces."""
    return data.hex(" ").upper()


def columns_of(answer, main=b"", response=b""):
    """An answer of reading as the desk has it: at, kind, main and response."""
    at = answer.opening if answer.number in (library.FRAME, library.UNFINISHED) else answer.next
    kind = KINDS.get(answer.number, f"fault-{answer.number}")
    if answer.number != library.FRAME:
        return at, kind, None, None
    return at, kind, main.hex().upper(), MARKS[answer.kind] + response.hex().upper() if answer.kind in MARKS else None


def words_of_kind(kind):
    """The words for a kind of the desk's text: what is wrong, or how the recording ends; nothing for a frame."""
    numbers = {name: number for number, name in KINDS.items() if number != library.FRAME}
    number = int(kind[6:]) if kind.startswith("fault-") else numbers.get(kind)
    return "" if number is None else library.words(number)

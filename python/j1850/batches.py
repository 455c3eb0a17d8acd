"""What is done for each of many recordings, and where: in this process, on several cores, or on a cluster. The pieces of the table
come in the order of the recordings, whoever makes them."""
import collections
import functools
import multiprocessing
import os
import signal

from . import desk, files, library, reasons, sheet, told
from .find import found
from .trouble import Trouble

COLUMNS = ("file", *told.COLUMNS)
GOOD, BAD, UNREADABLE = "read", "refused", "unreadable"
# Recordings of a batch: enough that handing a batch out costs little, few enough that little is lost where the command is stopped.
BATCH = 16

# A piece of the table: its bytes, what became of each recording, and what is to be said of those that are not good.
Piece = collections.namedtuple("Piece", "table outcomes said")


def shown(path):
    """A path in one field of a line: what would part fields or lines is written as Python writes it."""
    text = os.fsencode(path).decode("utf-8", "backslashreplace")
    return "".join(c if c.isprintable() else repr(c)[1:-1] for c in text)


def record(path, text, as_json):
    """The lines of a good recording, each after its file."""
    if as_json:
        return "".join(desk.as_json(path, text)).encode()
    prefix = shown(path) + "\t"
    body = text.partition("\n")[2]
    return (prefix + body[:-1].replace("\n", "\n" + prefix) + "\n").encode()


def without(path, record, as_json):
    """The one line of a recording that has no text: what became of it, and where a line of it is bad, which."""
    if as_json:
        return sheet.json_line({"file": path, **record}).encode()
    return sheet.tsv_line((shown(path), None, None, record.get("line"), record["kind"], None, None)).encode()


def one(line, path, as_json):
    """The lines of a recording, what became of it, and what is to be said of it."""
    try:
        data = files.read(path, reasons.ENOUGH)
    except Trouble as trouble:
        return without(path, {"kind": UNREADABLE, "words": str(trouble)}, as_json), UNREADABLE, str(trouble)
    answer, text = line.desk(data)
    if answer.number == library.DONE:
        return record(path, text.decode("ascii"), as_json), GOOD, None
    return without(path, desk.refusal(data, answer), as_json), BAD, files.bad_input(path, data, answer)


def piece(paths, as_json):
    """The piece of the table for some recordings."""
    line = found()
    lines, outcomes, said = zip(*(one(line, path, as_json) for path in paths))
    return Piece(b"".join(lines), outcomes, [text for text in said if text])


def cut(paths):
    """Paths in batches."""
    return [paths[at : at + BATCH] for at in range(0, len(paths), BATCH)]


def in_turn(batches, as_json):
    """The pieces, made in this process."""
    return (piece(paths, as_json) for paths in batches)


def let_the_first_stop():
    """Control-C is for the process that hands the batches out."""
    signal.signal(signal.SIGINT, signal.SIG_IGN)


def on_cores(batches, as_json, jobs):
    """The pieces, made by so many processes."""
    with multiprocessing.Pool(jobs, let_the_first_stop) as pool:
        yield from pool.imap(functools.partial(piece, as_json=as_json), batches)


def on_cluster(batches, as_json, address):
    """The pieces, made by the workers of a Dask cluster, which have this package, the library and the files."""
    try:
        from distributed import Client
    except ImportError as error:
        raise Trouble("--scheduler needs the Python package distributed (Debian's python3-distributed)") from error
    try:
        client = Client(address, timeout="10s")
    except (OSError, ValueError) as error:
        raise Trouble(f"{address}: no scheduler answers there: {error}") from error
    with client:
        waiting = collections.deque(client.map(functools.partial(piece, as_json=as_json), batches, pure=False))
        while waiting:
            yield waiting.popleft().result()

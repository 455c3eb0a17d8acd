"""Many recordings to one table, on all cores or on a cluster.

Of a folder all files are read, those of its folders too, in the order of their paths. A file is a list: the path of a recording on
each line, from where the command is run. Each line of the table begins with its recording's file, and then has the desk's columns.
A recording that is refused or cannot be read has one line, and does not stop the others. With -o the command can be stopped and begun
again: it goes on after the last recording that the table has.
"""
import hashlib
import os
import sys
import time

from . import batches, files, sheet, told
from .find import found
from .ledger import Ledger
from .trouble import DONE, REFUSED, UNREADABLE, Trouble
from .version import VERSION

WIDTH = 30  # of the progress bar, in characters
PAUSE = 0.1  # seconds between two drawings of it


def add_options(parser):
    """What the command takes."""
    parser.add_argument("source", metavar="DIR|LIST", help="a folder of recordings, or a file with a path on each line; - is standard input")
    parser.add_argument("-o", "--output", metavar="FILE", help="the table; without it, standard output, and no going on")
    parser.add_argument("--jobs", type=int, metavar="N", help="processes (by itself as many as there are cores)")
    parser.add_argument("--scheduler", metavar="ADDRESS", help="a Dask cluster's scheduler, as tcp://host:8786")
    sheet.add_forms(parser)


def recordings(source):
    """The paths of all recordings, in the order of the table."""
    if source != "-" and os.path.isdir(source):
        inside = [os.path.join(folder, name) for folder, _, names in os.walk(source) for name in names]
        return sorted(inside)
    return [path for path in files.read(source).decode("utf-8", "surrogateescape").split("\n") if path]


def plan(paths, options):
    """What a table is of: these recordings, in this form, by this version."""
    text = "\n".join([VERSION, "json" if options.json else "tsv", *paths])
    return hashlib.sha256(text.encode("utf-8", "surrogateescape")).hexdigest()


class Plain:
    """A table on standard output, which cannot be gone on with."""

    def begin(self, heading):
        self.add(heading, 0)
        return 0

    def add(self, piece, recordings):
        sheet.put(piece.decode())

    def close(self):
        pass

    end = close


class Bar:
    """How far the command is, on standard error where that is a terminal."""

    def __init__(self, total, done):
        self.total, self.begun, self.first, self.last = total, time.monotonic(), done, 0.0
        self.drawn = sys.stderr.isatty()

    def draw(self, done):
        now = time.monotonic()
        if not self.drawn or (now - self.last < PAUSE and done < self.total):
            return
        self.last = now
        full = WIDTH * done // max(self.total, 1)
        rate = (done - self.first) / max(now - self.begun, 1e-9)
        print(f"\r[{'#' * full}{'.' * (WIDTH - full)}] {done:,} of {self.total:,} recordings, {rate:,.0f} a second", end="", file=sys.stderr, flush=True)

    def clear(self):
        if self.drawn:
            print("\r\x1b[K", end="", file=sys.stderr, flush=True)


def pieces(paths, options):
    """The pieces of the table, in order."""
    cut = batches.cut(paths)
    if options.scheduler:
        return batches.on_cluster(cut, options.json, options.scheduler)
    jobs = min(options.jobs or len(os.sched_getaffinity(0)), len(cut))
    found()  # where there is no library that is said once, before anything is begun
    return batches.in_turn(cut, options.json) if jobs <= 1 else batches.on_cores(cut, options.json, jobs)


def fill(table, paths, options, begun):
    """Adds the recordings that the table does not have yet. Answers how many came to what."""
    outcomes = dict.fromkeys((batches.GOOD, batches.BAD, batches.UNREADABLE), 0)
    bar = Bar(len(paths), begun)
    try:
        bar.draw(begun)
        for piece in pieces(paths[begun:], options):
            table.add(piece.table, len(piece.outcomes))
            for outcome in piece.outcomes:
                outcomes[outcome] += 1
            if piece.said:
                bar.clear()
                for text in piece.said:
                    told.on_error(text)
            bar.draw(begun + sum(outcomes.values()))
    finally:
        bar.clear()
    return outcomes


def run(options):
    """Makes the table."""
    if options.jobs is not None and options.jobs < 1:
        raise Trouble("--jobs wants a number of 1 or more")
    paths = recordings(options.source)
    table = Ledger(options.output, plan(paths, options)) if options.output else Plain()
    begun = table.begin(b"" if options.json else sheet.tsv_line(batches.COLUMNS).encode())
    try:
        outcomes = fill(table, paths, options, begun)
    except BaseException as stop:
        table.close()
        if options.output and isinstance(stop, KeyboardInterrupt):
            told.on_error(f"stopped; the same command goes on after {table.count:,} of {len(paths):,} recordings")
        raise
    table.end()
    before = f", after {begun:,} from before" if begun else ""
    counts = ", ".join(f"{count:,} {kind}" for kind, count in outcomes.items())
    told.on_error(f"{len(paths):,} recordings: {counts}{before}")
    return UNREADABLE if outcomes[batches.UNREADABLE] else REFUSED if outcomes[batches.BAD] else DONE

"""What the tests share: a command run in this process, and the library, where this machine's Python can load it."""
import contextlib
import io
import pathlib
import sys
import unittest

from j1850 import cli, find
from j1850.trouble import Trouble

ROOT = pathlib.Path(__file__).resolve().parent.parent.parent
TRUCK = str(ROOT / "examples" / "truck.txt")


def why_no_library():
    """Why the library is not there; nothing where it is."""
    try:
        find.found()
    except Trouble as trouble:
        return str(trouble)
    return ""


LACKS_LIBRARY = why_no_library()
needs_library = unittest.skipIf(LACKS_LIBRARY, LACKS_LIBRARY)


def run(*arguments, given=b""):
    """The status of a command, what it printed, and what it said on standard error."""
    out, err = io.StringIO(), io.StringIO()
    before = sys.stdin
    sys.stdin = io.TextIOWrapper(io.BytesIO(given))
    try:
        with contextlib.redirect_stdout(out), contextlib.redirect_stderr(err):
            status = cli.main([str(argument) for argument in arguments])
    finally:
        sys.stdin = before
    return status, out.getvalue(), err.getvalue()

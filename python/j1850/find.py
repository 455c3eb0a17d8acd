"""Where the shared library is: by J1850_LIBRARY, beside the package, in a checkout's target/library, or as it is installed."""
import functools
import os
import pathlib

from .library import Library
from .trouble import Trouble

VARIABLE = "J1850_LIBRARY"
SONAME = "libj1850.so.1"


def candidates():
    """The paths to try, in order; the last one is for the system's loader to find."""
    if os.environ.get(VARIABLE):
        return [os.environ[VARIABLE]]
    package = pathlib.Path(__file__).resolve().parent
    files = [package / SONAME, package / "libj1850.so", package.parent.parent / "target" / "library" / SONAME]
    return [str(path) for path in files if path.exists()] + [SONAME]


@functools.lru_cache(maxsize=None)
def found():
    """The library, from the first path that has one that can be loaded."""
    tried = []
    for path in candidates():
        try:
            return Library(path)
        except (OSError, AttributeError) as error:
            tried.append(str(error))
    raise Trouble(f"the library cannot be loaded: {'; '.join(tried)}. tools/library builds it; {VARIABLE} names another place")

"""SAE J1850 VPW from Python: the calls of the proved library, by `Library`, and the desk's commands, by `python3 -m j1850`.

What a command prints of frames, faults, winners and times is what the library has answered. The commands themselves are tested,
not proved.
"""
from .find import found  # noqa: F401
from .library import *  # noqa: F401,F403
from .version import VERSION  # noqa: F401

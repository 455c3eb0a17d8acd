"""What ends a command early: a message for standard error and a status."""

DONE, REFUSED, UNREADABLE = 0, 1, 2


class Trouble(Exception):
    """A message for whoever typed the command. The status is REFUSED where the library turned something away, and UNREADABLE for
    bad usage, for a file that cannot be read or written, and for a text that breaks its format."""

    def __init__(self, message, status=UNREADABLE):
        super().__init__(message)
        self.status = status


def refused(where, refusal):
    """The trouble of a refusal by the library, with what it was about."""
    return Trouble(f"{where}: {refusal}", REFUSED)

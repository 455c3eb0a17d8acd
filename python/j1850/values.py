"""Values that a person types: bytes in hex, a clock, the labels of a recording."""
import argparse

from . import library
from .trouble import Trouble

U32 = 2**32


def hex_bytes(text):
    """Bytes in hex, with or without spaces between them."""
    try:
        return bytes.fromhex(text)
    except ValueError:
        raise argparse.ArgumentTypeError(f"{text!r} is not bytes in hex, such as 686AF1010C") from None


def width(text):
    """A width in microseconds: a decimal number that fits the library's words."""
    if not (text.isascii() and text.isdigit() and int(text) < U32):
        raise argparse.ArgumentTypeError(f"{text!r} is not a width in microseconds")
    return int(text)


def clock(text):
    """A clock: short bit, long bit and SOF, parted by commas. Whether it is a good one the library says."""
    fields = text.split(",")
    if len(fields) != 3:
        raise argparse.ArgumentTypeError(f"{text!r} is not a clock, such as 64,128,200")
    return library.Clock(*(width(field) for field in fields))


def add_labels(parser):
    """The labels of a recording that is written."""
    parser.add_argument("--customer", default="customer", help="the recording's customer: 1 to 16 letters, digits, - or _")
    parser.add_argument("--vehicle", default="vehicle", help="the recording's vehicle, likewise")


def typed(kind, text):
    """A value that is checked only when the command runs: what is wrong with it ends the command as bad usage does."""
    try:
        return kind(text)
    except argparse.ArgumentTypeError as error:
        raise Trouble(str(error)) from None

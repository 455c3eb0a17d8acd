"""The commands: which there are, their options, and how they end."""
import argparse
import os
import sys

from . import desk, fleet, live, picture, play, send, volts
from .library import Refused
from .told import on_error
from .trouble import DONE, REFUSED, UNREADABLE, Trouble
from .version import VERSION

COMMANDS = {"desk": desk, "play": play, "picture": picture, "send": send, "volts": volts, "live": live, "fleet": fleet}
INTERRUPTED = 130  # what a shell reports of a command that Control-C has ended


def parser():
    """The parser of all commands. Each module has its options and its help."""
    top = argparse.ArgumentParser(
        prog="j1850",
        description="The desk's commands for SAE J1850 VPW. The answers are the proved library's; the commands are tested, not proved.",
        epilog="Exit status: 0 done; 1 refused, with the number and its words; 2 bad usage, or a file that cannot be read.",
    )
    top.add_argument("--version", action="version", version=f"j1850 {VERSION}")
    commands = top.add_subparsers(dest="command", metavar="COMMAND", required=True)
    for name, module in COMMANDS.items():
        first = module.__doc__.strip().splitlines()[0]
        command = commands.add_parser(
            name, help=first, description=module.__doc__, epilog=top.epilog, formatter_class=argparse.RawDescriptionHelpFormatter
        )
        module.add_options(command)
    return top


def main(arguments=None):
    """Runs a command, and answers its exit status. A name that the terminal has no signs for is written with escapes."""
    if hasattr(sys.stdout, "reconfigure"):
        sys.stdout.reconfigure(errors="backslashreplace")
    try:
        options = parser().parse_args(arguments)
        return COMMANDS[options.command].run(options)
    except SystemExit as end:  # argparse has printed its usage or its help
        return UNREADABLE if end.code else DONE
    except Trouble as trouble:
        on_error(trouble)
        return trouble.status
    except Refused as refusal:
        on_error(refusal)
        return REFUSED
    except BrokenPipeError:  # whoever reads has enough
        os.dup2(os.open(os.devnull, os.O_WRONLY), sys.stdout.fileno())
        return REFUSED
    except KeyboardInterrupt:
        return INTERRUPTED

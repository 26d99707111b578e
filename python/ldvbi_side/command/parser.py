"""What reads the words of each command, and the options by which a side is read, which several commands have."""

import argparse
import os
from typing import IO, Any, List, Optional, Sequence

from ldvbi import System, __version__
from ldvbi.library import library_text
from ..outside import NAME, printable
from ..seek import wanted_of
from .statuses import OPEN_END

# The options by which a side is read, those with a value and those without
_WITH_VALUE, _ALONE = ("meta", "system", "black", "white", "last"), ("no_recover", "strict", "open_end")
LEVELS = "the sample of %s, from 0 to 65535, in place of the metadata's; black is below white"


class Parser(argparse.ArgumentParser):
    """One whose help isn't lost without a word if it can't be written."""

    def _print_message(self, message: str, file: Optional[IO[str]] = None) -> None:
        print(message, end="", file=file)


class Version(argparse.Action):
    """Prints the version, and which library is loaded, or why none is."""

    def __init__(self, option_strings: Sequence[str], dest: str, **more: Any) -> None:
        super().__init__(option_strings, argparse.SUPPRESS, nargs=0, **more)

    def __call__(self, parser: argparse.ArgumentParser, namespace: argparse.Namespace, values: Any,
                 option_string: Optional[str] = None) -> None:
        print("%s %s" % (NAME, __version__))
        try:
            print(printable(library_text()))
        except OSError as error:
            print(printable(str(error)))
        parser.exit()


def add_settings(parser: argparse.ArgumentParser, tbc: str = "a TBC file") -> None:
    """Adds the options by which a side is read. `tbc` is what the help calls the files that some of them are of."""
    parser.add_argument("--meta", metavar="FILE", help="take system and levels of %s from this .tbc.json or .tbc.db of "
                        "ld-decode, not from the one beside the file. Levels with decimals are rounded to the nearest "
                        "whole number. Its count of fields is compared with the side's. Its isFirstField shows single "
                        "lost fields, also of a document; columns in its dropOuts count for no recovered word" % tbc)
    parser.add_argument("--system", choices=list(System.__members__), help="the system of %s, in place of the "
                        "metadata's" % tbc)
    parser.add_argument("--black", metavar="N", type=int, help=LEVELS % "black")
    parser.add_argument("--white", metavar="N", type=int, help=LEVELS % "white")
    parser.add_argument("--no-recover", action="store_true", help="leave out the words that are recovered from worn "
                        "lines of %s (pass 3)" % tbc)
    parser.add_argument("--strict", action="store_true", help="say that a side without lead-in or lead-out, or with an "
                        "unread number, isn't whole")
    parser.add_argument("--open-end", action="store_true", help=OPEN_END + ". With --strict, too")
    parser.add_argument("--last", metavar="NUMBER", type=_last, help="the disc ends with this picture, or within this "
                        "time h:mm, h:mm:ss or h:mm:ss.pp: a side that reaches it needs no lead-out, and what one "
                        "doesn't reach is lost")


def _last(text):
    """A number, as a side has it, or the part of a time."""
    try:
        wanted = wanted_of(text)
    except ValueError:
        wanted = None
    if wanted is None or wanted.kind == "chapter":
        raise argparse.ArgumentTypeError("neither a picture number nor a time h:mm, h:mm:ss or h:mm:ss.pp: %r" % text)
    return text


def settings_in(options: argparse.Namespace) -> argparse.Namespace:
    """Those of the options that `add_settings` adds."""
    return argparse.Namespace(**{name: getattr(options, name) for name in _WITH_VALUE + _ALONE})


def words_of(options: argparse.Namespace) -> List[str]:
    """The same as words that ask for them."""
    given = {**vars(options), "meta": os.path.realpath(options.meta) if options.meta else None}
    return [*("--%s=%s" % (name, given[name]) for name in _WITH_VALUE if given[name] is not None),
            *("--" + name.replace("_", "-") for name in _ALONE if given[name])]

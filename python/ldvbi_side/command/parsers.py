"""What reads the command line, with the texts of the help, of which the manual page and the completions are made."""

import argparse
import os
from typing import Dict

from ..seek import wanted_of
from .chapters import LABELS
from .parser import Parser, Version, add_settings
from .sides import COLUMNS as SIDES_COLUMNS
from .statuses import statuses_text
from .summary import MOST_LINES

DESCRIPTION = """Reads a side from a TBC file, or from a document that `ldvbi extract` wrote, and says what its words
mean together: which numbers, times and chapters are believed, and which are lost, unread, shown again or doubtful. A
file is taken for a document if its name ends with .json or its text begins as a document does. `join SIDE SIDE..`
compares and joins captures of one side, `write OUT.tbc SIDE.tbc..` makes one TBC file of them, and `scan PATH..` prints
a table of the sides in folders. """ + statuses_text()
SCAN = """Prints a table with a row for each side in these files, and in these folders and all below them: each .tbc
file, with its metadata beside it, and each .vbi.json document without a .tbc beside it. If a side can't be read, its
row has the fault, and the others go on. The options by which a side is read count for all of them, but a document has
its own system and levels. """ + statuses_text("scan")
AS_READ = "with --into, copy all words as they were read, also those that are set aside"
MOST_JOBS = 4  # sides that are read at a time, if the command line doesn't say


def _wanted(text):
    try:
        return wanted_of(text)
    except ValueError as error:
        raise argparse.ArgumentTypeError(str(error)) from None


def _ordinal(text):
    if not text.isdecimal() or int(text) < 1:
        raise argparse.ArgumentTypeError("no number from 1 on: %r" % text)
    return int(text)


def parser_of_side(program: str) -> argparse.ArgumentParser:
    """What reads the words if there is no command."""
    parser = Parser(prog=program, description=DESCRIPTION)
    parser.add_argument("side", help="the TBC file, or the document; - is standard input, for a document")
    parser.add_argument("--version", action=Version, help="print the version, and which library is loaded")
    add_settings(parser)
    output = parser.add_mutually_exclusive_group()
    output.add_argument("--csv", action="store_true", help="print a row for each field with any word")
    output.add_argument("--json", action="store_true", help="print all that is known of the side, every list in full")
    output.add_argument("--bad-lines", action="store_true", help="print a row for each line that shows no word of "
                        "its own and isn't blank, with its cause, its offset in the TBC file, and the word nearest to "
                        "its samples")
    output.add_argument("--seek", metavar="WANTED", type=_wanted, help="print the first field of a picture (its "
                        "number, or a CLV time h:mm:ss.pp), of a minute h:mm, of a second h:mm:ss, or of a chapter, as "
                        "'chapter 3'")
    output.add_argument("--summary", action="store_true", help="print in at most %d lines whether the side is whole, "
                        "and what to look at first (the default)" % MOST_LINES)
    output.add_argument("--document", action="store_true", help="print the document of the TBC file, byte for byte as "
                        "`ldvbi extract` writes it")
    output.add_argument("--plot-line", nargs=2, metavar=("FIELD", "LINE"), type=_ordinal, help="print a drawing of a "
                        "line of the TBC file as an SVG: its samples, and the cells of its word, or why it shows none "
                        "and which word is nearest; fields and lines are counted from 1")
    parser.add_argument("--recovered", action="store_true", help="with --into, copy the recovered words, too; with "
                        "--document, print the document that has them, of version 3")
    parser.add_argument("-o", "--output", metavar="FILE", help="print into this file, which gets its name only when it "
                        "is complete")
    parser.add_argument("--svg", metavar="FILE", help="draw the side into this file; print only what another option "
                        "asks for")
    parser.add_argument("--html", metavar="FILE", help="write a page with all that is known of the side into this "
                        "file, with drawings of the bad lines of a TBC file; print only what another option asks for")
    parser.add_argument("--map", metavar="FILE", help="write into this file where each number, chapter and picture "
                        "stop is, for a player to seek by, with system, levels and count of fields; print only what "
                        "another option asks for")
    parser.add_argument("--chapters", metavar="FILE", help="write the chapters into this file, as ffmpeg's metadata "
                        "or, if its name ends with %s, as Audacity's labels; print only what another option asks for"
                        % LABELS)
    parser.add_argument("--into", metavar="FILE", help="copy ld-decode's metadata, of --meta or beside the TBC file, "
                        "into this file, with the words of each field as vbi.vbiData (in a .tbc.db as a row of the "
                        "table vbi), and 0 for a word that is set aside; print only what another option asks for")
    parser.add_argument("--as-read", action="store_true", help=AS_READ)
    return parser


def parser_of_scan(program: str) -> argparse.ArgumentParser:
    """What reads the words after `scan`."""
    parser = Parser(prog=program + " scan", description=SCAN)
    parser.add_argument("paths", nargs="+", metavar="PATH", help="a TBC file, a document, or a folder")
    parser.add_argument("-j", "--jobs", metavar="N", type=_ordinal, default=min(os.cpu_count() or 1, MOST_JOBS),
                        help="read N sides at a time (if not given, one for each processor, at most %d; 1 is best for "
                        "one spinning disk)" % MOST_JOBS)
    add_settings(parser, "each TBC file")
    output = parser.add_mutually_exclusive_group()
    output.add_argument("--csv", action="store_true", help="print the table as CSV")
    output.add_argument("--json", action="store_true", help="print the table as JSON, at the end")
    parser.add_argument("--html", metavar="FOLDER", help="write a page for each side into this folder, and index.html, "
                        "which links all pages there. A side whose page is newer than its files, and was written with "
                        "the same options, isn't read again")
    parser.add_argument("--into", metavar="FOLDER", help="copy the metadata beside each TBC file, with the believed "
                        "words, into this folder, whose folders are named as those of the sides; each side is read "
                        "again")
    parser.add_argument("--as-read", action="store_true", help=AS_READ)
    for option, text in (("map", "map"), ("chapters", "chapters, as ffmpeg's metadata,")):
        parser.add_argument("--" + option, metavar="FOLDER", help="write the %s of each side into this folder, likewise"
                            % text)
    parser.add_argument("--sides", metavar="FILE", help="read single sides by options of their own, from this CSV "
                        "table with the columns `side` and any of `%s`; or from --csv of an earlier scan, of which "
                        "`try` has options" % "`, `".join(SIDES_COLUMNS[1:]))
    parser.add_argument("--write", metavar="FOLDER", help="write one TBC file, as the command write does, of those TBC "
                        "files that may be of one disc, into this folder, one after the other")
    parser.add_argument("--again", action="store_true", help="read each side, and write its page again")
    return parser


def parsers(program: str) -> Dict[str, argparse.ArgumentParser]:
    """What reads the words after each command, and after none; the manual page and the completions are made of it."""
    from .join import parser_of_join  # these load much that no other command needs
    from .write import parser_of_write
    return {"": parser_of_side(program), "join": parser_of_join(program), "scan": parser_of_scan(program),
            "write": parser_of_write(program)}

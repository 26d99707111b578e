"""What goes wrong, as a line that begins with the name of the file, and says what was looked for there."""

import argparse
import contextlib
import errno
import os
import shlex
from typing import Iterator

from ldvbi.packed import ENDS, packed_as, refuse_packed

STANDARD_INPUT, STANDARD_OUTPUT = "standard input", "standard output"
SETTINGS = "give --meta, or --system, --black and --white"
OF_TBC = "a document has its system and levels; they are options for a TBC file"


def fault_text(error: Exception) -> str:
    """The text of a fault. If it comes from the system, it begins with the file's name and leaves out the system's
    number for it."""
    if not isinstance(error, OSError) or not error.strerror:
        return str(error)
    if error.errno in (errno.EMFILE, errno.ENFILE):
        return "%s; `ulimit -n` says how many a process may open" % error.strerror
    # What is opened or written elsewhere has its name.
    name = STANDARD_OUTPUT if error.filename is None else error.filename
    return "%s: %s" % (STANDARD_INPUT if name == 0 else os.fsdecode(name) or "a file without a name", error.strerror)


@contextlib.contextmanager
def naming(name: str) -> Iterator[None]:
    """Makes a fault in the block begin with the name of its file, unless it does already."""
    try:
        yield
    except UnicodeDecodeError:
        raise ValueError("%s: no text in UTF-8" % name) from None
    except OSError as error:
        if error.strerror and error.filename is None:
            error.filename = name
        raise
    except ValueError as error:
        text = str(error)
        raise ValueError(text if text.startswith(name) else "%s: %s" % (name, text)) from None


# What unpacks a file to standard output, by the form in which it is packed
_UNPACKS = {"gzip": "zcat", "zstd": "zstdcat", "xz": "xzcat", "bzip2": "bzcat", "lzma": "lzcat", "zip": "unzip -p"}


def refuse_packed_side(options: argparse.Namespace, begin: bytes) -> None:
    """Raises a ValueError if a side begins with these bytes and is compressed. It names the command that reads it, if
    there is one."""
    path, form = options.side, packed_as(begin)
    name = next((path[:-len(end)] for end in ENDS if path.endswith(end)), path)
    extract = "" if name.endswith(".json") else _extract(options, name)
    if form not in _UNPACKS or extract is None:
        refuse_packed(path, begin)
        return
    raise ValueError("%s: it is compressed (%s): %s %s | %sldvbi-side -" % (
        path, form, _UNPACKS[form], shlex.quote(path), extract))


def refuse_no_document(options: argparse.Namespace, begin: bytes) -> None:
    """Raises a ValueError if standard input begins with these bytes and isn't text, as a TBC file isn't."""
    if begin.strip() and not begin.lstrip().startswith(b"{"):
        extract = _extract(options, "side.tbc") or "ldvbi extract --meta side.tbc.json | "
        raise ValueError("%s is no document; make one of a TBC file: %sldvbi-side -" % (STANDARD_INPUT, extract))


def _extract(options, name):
    """What makes a document of the TBC file with this name in a pipe, by the options of the side; None if its metadata
    is a database, which `ldvbi` doesn't read."""
    given = [("--system", options.system), ("--black", options.black), ("--white", options.white)]
    if options.meta or None in dict(given).values():
        meta = options.meta or name + ".json"
        if meta.endswith(".db") or not os.path.exists(meta) and os.path.exists(name + ".db"):
            return None
        given.insert(0, ("--meta", meta))
    return "ldvbi extract %s | " % " ".join(
        "%s %s" % (option, shlex.quote(str(value))) for option, value in given if value is not None)


def refuse_folder(path: str) -> None:
    """Raises a ValueError if a folder is given as a side."""
    if os.path.isdir(path):
        raise ValueError("%s is a folder: ldvbi-side scan %s" % (path, shlex.quote(path)))


def no_metadata(path: str) -> str:
    """The fault that what was looked for beside a TBC file isn't there."""
    name = os.path.basename(path)
    if not name.endswith(".tbc"):
        return "no metadata is looked for beside a name that doesn't end with .tbc"
    return "no %s.json or %s.db beside it" % (name, name)

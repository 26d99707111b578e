"""A folder of its own for a test, in which it runs the command: as a call in this process, in which a scan reads its
sides, too, or as a process that shows more. Why a call is refused, and what a database answers."""

import contextlib
import functools
import io
import json
import os
import pathlib
import pty
import shlex
import sqlite3
import subprocess
import sys
import time
from unittest import mock

from compact import words_of
import ldvbi
from ldvbi_side.__main__ import main
from ldvbi_side.command.processes import Ended
from streams import NTSC, pictures, PROGRAM, write_stream

COMMAND = [sys.executable, "-m", "ldvbi_side"]
LEVELS = ["--system", "NTSC", "--black", "16384", "--white", "51200"]
SIZE = ldvbi.field_bytes("NTSC")
DEADLINE = 300  # seconds: for what hangs, not for what is slow
NO_METADATA = "side.tbc: no side.tbc.json or side.tbc.db beside it; give --meta, or --system, --black and --white"
IN_PLACE = "%s would be written in the place of an input or of another output"


def reason(call, *words, kind=ValueError, **more):
    """Why a call raised a ValueError, or another error."""
    try:
        call(*words, **more)
    except kind as error:
        return str(error)
    return None


def buffered():
    """The environment in which what is printed is held back for a while, as nearly everywhere."""
    return {name: value for name, value in os.environ.items() if name != "PYTHONUNBUFFERED"}


def in_database(path, *statements):
    """What a database, which may be a new one, answers to these statements: texts, or pairs of one and its values."""
    with contextlib.closing(sqlite3.connect(path)) as database:
        answers = [database.execute(*([one] if isinstance(one, str) else one)).fetchall() for one in statements]
        database.commit()
    return answers


def children(process):
    """The processes that this one started, but for the one that watches over them."""
    found = pathlib.Path("/proc/%d/task/%d/children" % (process, process)).read_bytes().split()
    return [one for one in map(int, found) if b"spawn_main" in command_of(one)]


def command_of(process):
    with contextlib.suppress(OSError):
        return pathlib.Path("/proc/%d/cmdline" % process).read_bytes()
    return b""


@contextlib.contextmanager
def here(job, tasks, _, after):
    """What `SideBySide` does, without other processes: one job after the other."""
    def messages():
        for index, task in enumerate(tasks):
            told = []
            job(task, told.append)
            after(task, os.getpid())
            yield from ((index, one) for one in (*told, Ended(0)))

    yield messages()


class Room(contextlib.ExitStack):
    """`path` is that of a TBC file in the folder, which isn't there yet."""

    def __init__(self, folder):
        super().__init__()
        self.folder, self.cleanup, self.path = folder, self, os.path.join(folder, "side.tbc")

    def named(self, name):
        return os.path.join(self.folder, name)

    def names(self, folder=""):
        return sorted(os.listdir(self.named(folder)))

    def write(self, name, data):
        """Makes a file of these bytes, or of this text; the answer is its path."""
        pathlib.Path(self.named(name)).write_bytes(data.encode() if isinstance(data, str) else data)
        return self.named(name)

    def read(self, name):
        return pathlib.Path(self.named(name)).read_bytes()

    def text(self, name):
        return self.read(name).decode()

    def states(self):
        """The length of each file, those of folders with them, and when it was written."""
        paths = [os.path.join(place, name) for place, _, names in os.walk(self.folder) for name in names]
        return {os.path.relpath(path, self.folder): (one.st_size, one.st_mtime_ns)
                for path, one in zip(paths, map(os.lstat, paths))}

    def files(self):
        """What is in each of them."""
        return {name: self.read(name) for name in self.states()}

    def draw_side(self):
        write_stream(self.path, NTSC, pictures(12))
        self.document = self.extracted("side.tbc")
        self.write("side.vbi.json", self.document)

    def metadata(self, name, *, count=None, field=(), **more):
        """Metadata of an NTSC side, with so many fields, the second ones of which begin a frame; each has these members
        besides, and the parameters have the others."""
        known = {"videoParameters": {"system": "NTSC", "black16bIre": 16384, "white16bIre": 51200, **more}}
        if count is not None:
            known["fields"] = [{"isFirstField": place % 2 == 1, **dict(field)} for place in range(count)]
        self.write(name, json.dumps(known))

    @staticmethod
    def words(*given):
        """The words of a run: those that are given, or those of a text, in which LEVELS stands for options."""
        words = shlex.split(given[0]) if len(given) == 1 and " " in given[0] else given
        return [part for word in words for part in (LEVELS if word == "LEVELS" else [word])]

    def run_command(self, *words, **more):
        """The status of a run in the folder, and what it writes to standard output and standard error. One with nothing
        on standard input, and with the streams and the environment that are usual, is a call."""
        if more:
            pipes = {"stdin": subprocess.DEVNULL, "stdout": subprocess.PIPE, "stderr": subprocess.PIPE, **more}
            run = subprocess.run([*pipes.pop("command", COMMAND), *self.words(*words)], cwd=self.folder,
                                 timeout=DEADLINE, check=False, **pipes)
            return run.returncode, run.stdout, (run.stderr or b"").decode()
        out, err = io.TextIOWrapper(io.BytesIO(), "utf-8", "surrogateescape"), io.StringIO()
        with contextlib.chdir(self.folder), contextlib.redirect_stdout(out), contextlib.redirect_stderr(err), \
                mock.patch("ldvbi_side.command.scan.SideBySide", here):
            try:
                status = main(self.words(*words))
            except SystemExit as stop:
                status = stop.code
        out.flush()
        return status, out.buffer.getvalue(), err.getvalue()

    def run_words(self, *words, **more):
        """The same with texts, of names that are none, too."""
        status, text, said = self.run_command(*words, **more)
        return status, text.decode("utf-8", "surrogateescape"), said

    def printed(self, *words, said=""):
        """What a run prints that has the status 0."""
        status, text, errors = self.run_command(*words)
        assert (status, errors) == (0, said)
        return text

    def refused(self, text, *words):
        assert self.run_command(*words) == (2, b"", "ldvbi-side: %s\n" % text)

    def extracted(self, name, options=tuple(LEVELS)):
        """What the program writes of a TBC file."""
        status, document, _ = self.run_command("extract", *options, self.named(name), command=[PROGRAM])
        assert status in (0, 3)
        return document

    def started(self, *words, command=tuple(COMMAND), **more):
        """A run that goes on."""
        process = subprocess.Popen([*command, *self.words(*words)], cwd=self.folder, stdin=subprocess.DEVNULL,
                                   **{"stdout": subprocess.PIPE, "stderr": subprocess.PIPE, "env": buffered(), **more})
        for stream in filter(None, (process.stdout, process.stderr)):
            self.enter_context(stream)
        self.cleanup.callback(process.kill)
        return process

    def opened_by(self, process, name):
        """A pipe to write to, as soon as a run has opened it. A run that ends without that is a failure."""
        while True:
            with contextlib.suppress(OSError):
                pipe = os.open(self.named(name), os.O_WRONLY | os.O_NONBLOCK)
                os.set_blocking(pipe, True)
                return open(pipe, "wb")
            assert process.poll() is None
            time.sleep(0.01)

    def ended(self, process, status, text=b""):
        """Checks how a run ends, what it printed by then, and that it says nothing."""
        assert (*process.communicate(timeout=DEADLINE), process.returncode) == (text, b"", status)

    def stopped(self, process, number, status):
        """Checks how a run ends by this signal, which is sent again where it came right before a run began to wait."""
        for _ in range(DEADLINE):
            process.send_signal(number)
            with contextlib.suppress(subprocess.TimeoutExpired):
                process.wait(1)
                break
        self.ended(process, status)

    def on_terminal(self, status, *words, is_output_on_it=False):
        """What a run writes to the terminal, and what to standard output where that is none."""
        ours, theirs = pty.openpty()
        process = self.started(*words, stderr=theirs, stdout=theirs if is_output_on_it else subprocess.PIPE)
        os.close(theirs)
        text = process.stdout.read() if process.stdout else b""
        shown = b""
        with contextlib.suppress(OSError):  # once nobody writes to it any more
            for part in iter(functools.partial(os.read, ours, 65536), b""):
                shown += part
        os.close(ours)
        assert process.wait(DEADLINE) == status
        return shown.decode(), text

    def add(self, name, fields="1..30 O", rest=0, setup=NTSC):
        """A TBC file of these fields, or lines, with its metadata beside it, in a folder that is made."""
        os.makedirs(os.path.dirname(self.named(name)), exist_ok=True)
        write_stream(self.named(name), setup, words_of(fields) if isinstance(fields, str) else fields, rest)
        self.metadata(name + ".json")

    def scan(self, *words):
        """The status of a scan in the folder, and what it writes to standard output and standard error."""
        return self.run_words("scan", *self.words(*words))

    def row(self, *words):
        """The row of the first side, as CSV."""
        return self.scan("--csv", *self.words(*words))[1].split("\n", 1)[1].rstrip("\n")

"""Runs of the command that a signal stops at a random moment, from the one on in which the command heeds signals: the
status is as documented, nothing is said, and nothing unfinished is left. `STOPPED_RUNS` has how many runs there are.
How scans end whose processes don't: killed, interrupted, or without a reader; and what a terminal shows of a run."""

import contextlib
import io
import itertools
import os
import pathlib
import random
import re
import signal
import time
from multiprocessing import resource_tracker, util
from unittest import mock

from compact import words_of
from ldvbi_side import outside
from ldvbi_side.command.folders import Found, sides_in
from ldvbi_side.command.outputs import _part_by
from ldvbi_side.command.processes import SideBySide
from ldvbi_side.command.progress import heard_by, PAUSE, Progress, SidesProgress
from ldvbi_side.command.scan import scan
import pytest
from room import buffered, children, command_of, DEADLINE, in_database
from streams import line_with, NTSC, worn_line
from test_databases import FORM

RUNS, SEED = int(os.environ.get("STOPPED_RUNS", "12")), 20
COMMANDS = (
    "sides/side.tbc --json --html page.html --svg side.svg --map side.map", "scan --csv -j 2 --html pages sides",
    "sides/side.tbc --into copy.json",
    "sides/side.tbc --meta side.db --into copy.db", "sides/side.tbc --document --recovered -o out",
    "join sides/side.tbc sides/other.tbc --html both.html")
STATUSES = {signal.SIGINT: 130, signal.SIGTERM: 143}
HEEDED = (*STATUSES, signal.SIGHUP)
FIELDS = 80


def heed_all():
    """Has no signal be ignored, as what a shell starts in the background ignores Ctrl-C."""
    for number in HEEDED:
        signal.signal(number, signal.SIG_DFL)


def is_heeded(process):
    """Whether the process has a function for SIGTERM, or has ended."""
    with contextlib.suppress(OSError):
        caught = re.search(r"^SigCgt:\s*(\w+)", pathlib.Path("/proc/%d/status" % process.pid).read_text("ascii"), re.M)
        return process.poll() is not None or bool(int(caught[1], 16) >> (signal.SIGTERM - 1) & 1)
    return True


@pytest.fixture
def stopped(room):
    for name in ("sides/side.tbc", "sides/other.tbc", "sides/third.tbc"):
        fields = words_of("1..%d O" % (FIELDS // 2))
        for place in range(4, FIELDS, 40):
            fields[place][1:] = [worn_line(0xF00000 + place, NTSC, 10, 12)] * 2
        room.add(name, fields)
        room.metadata(name + ".json", count=len(fields), field={"vbi": {"vbiData": [0, 0, 0]}})
    in_database(room.named("side.db"), *FORM.split(";"), *(
        "INSERT INTO field_record VALUES (4, %d, 0.5, %d, 17.25)" % (place, place % 2) for place in range(FIELDS + 1)))
    room.inputs = room.files()
    return room


def new_files(stopped):
    """Those that a run has written, which are taken away; what was there before is as it was."""
    found = stopped.files()
    assert {path: found.pop(path, None) for path in stopped.inputs} == stopped.inputs
    for path in found:
        os.unlink(stopped.named(path))
    return found


@pytest.mark.unrecorded
def test_at_a_random_moment(stopped):
    """All processes of a run get a signal, or the first one alone."""
    chance, whole = random.Random(SEED), {}
    for words in COMMANDS:
        begun = time.monotonic()
        status, printed, said = stopped.run_command(words, env=buffered())
        assert (said, status in (0, 1)) == ("", True)
        whole[words] = status, printed, new_files(stopped), time.monotonic() - begun
    for words in itertools.islice(itertools.cycle(COMMANDS), RUNS):
        number, part, to_all = chance.choice(list(STATUSES)), chance.random(), chance.random() < 0.5
        whole_status, whole_text, whole_files, seconds = whole[words]
        process = stopped.started(words, start_new_session=True, preexec_fn=heed_all)
        while not is_heeded(process):
            time.sleep(0.001)
        time.sleep(part * seconds)
        with contextlib.suppress(ProcessLookupError):  # it has ended
            (os.killpg if to_all else os.kill)(process.pid, number)
        printed, said = process.communicate(timeout=60)
        files = new_files(stopped)
        assert (said, process.returncode in (STATUSES[number], whole_status, -number)) == (b"", True)
        if process.returncode == STATUSES[number]:
            assert whole_text.startswith(printed)
            assert files.items() <= whole_files.items()
        else:
            assert (printed, files) == (whole_text, whole_files)


@pytest.mark.unrecorded
def test_while_a_process_is_started(room):
    """It is started whole, and ended before it has a job: one that is broken off says what it lacks."""
    for number in (*HEEDED, signal.SIGALRM):
        room.cleanup.callback(signal.signal, number, signal.getsignal(number))
    room.enter_context(mock.patch("sys.unraisablehook"))
    heed_all()
    resource_tracker.ensure_running()
    for number in HEEDED:
        ended, starts = [], util.spawnv_passfds

        def stopped(*words, number=number, starts=starts):
            process = starts(*words)
            signal.raise_signal(number)  # of this thread: another one of pytest's wouldn't hold it back
            sum(range(10))
            return process

        outside.end_in_order()
        with mock.patch.object(util, "spawnv_passfds", stopped), pytest.raises(outside.Stopped) as raised, \
                SideBySide(print, [1], 1, lambda task, _, ended=ended: ended.append(task)) as messages:
            next(iter(messages))
        assert (raised.value.status, ended, children(os.getpid())) == (128 + number, [], [])


def fails(*_):
    """Reads no side: what it raises isn't what a file is to blame for."""
    raise KeyError("a fault of the program")


def leaves_a_copy(task):
    """Ends its process with a part of the copy of a database, which is a folder."""
    os.mkdir(_part_by(task.copy, os.getpid()))
    os._exit(3)


@pytest.mark.parametrize("name, sides, read, fault", (
    ("1.tbc", sides_in, fails, "KeyError: 'a fault of the program'"),
    ("1.tbc", sides_in, leaves_a_copy, "its process ended with status 3"),
    ("d", lambda _: [Found("d", "Permission denied")], fails, "Permission denied")))
def test_faults_that_nobody_thought_of(room, capsys, name, sides, read, fault):
    """A scan that reads sides by such a function prints them in rows; nothing is left of a copy."""
    room.add("1.tbc")
    with contextlib.chdir(room.folder), mock.patch("ldvbi_side.command.scan.sides_in", sides):
        assert scan(["--csv", "--into", "copies", "1.tbc"], read) == 2
    assert capsys.readouterr().out.split("\n")[1:] == [name + ",fault" + "," * 11 + fault + ",,", ""]
    assert not [*pathlib.Path(room.folder).rglob("*.part")]


# Has the first process whose file is complete, and hasn't got its name, wait, and say which one it is.
FIRST_WAITS = """
import os, time
synced = os.fsync

def fsync(file):
    try:
        waits = os.open("waits", os.O_CREAT | os.O_EXCL | os.O_WRONLY)
    except FileExistsError:
        return synced(file)
    os.write(waits, b"%d" % os.getpid())
    time.sleep(600)

os.fsync = fsync
"""


def scanning(room, words, **more):
    """A scan that has printed the heads of its table."""
    process = room.started("scan --csv " + words, start_new_session=True, **more)
    assert process.stdout.readline().startswith(b"side,whole,")
    return process


def test_one_side_fails_and_the_others_are_read(room):
    """One that is named, as it is a pipe to which nobody writes, is waited for."""
    for name in ("1.tbc", "3.tbc"):
        room.add(name)
    os.mkfifo(room.named("2.vbi.json"))
    process = scanning(room, "-j 1 --html pages . 2.vbi.json")
    assert process.stdout.readline() == b"./1.tbc,yes,0,0,cav,1,30,30,0,1,61,,,NTSC,\n"
    with room.opened_by(process, "2.vbi.json"):
        os.kill(children(process.pid)[0], signal.SIGKILL)
        room.ended(process, 2, b"./2.vbi.json,fault,,,,,,,,,,,its process was ended by SIGKILL,,\n"
                               b"./3.tbc,yes,0,0,cav,1,30,30,0,1,61,,,NTSC,\n")
    assert room.names("pages") == ["1.html", "3.html", "index.html"]
    process = scanning(room, "--html pages . 2.vbi.json")  # of which two have pages
    assert process.stdout.readline() == b"./1.tbc,yes,0,0,cav,1,30,30,0,1,61,,,NTSC,\n"
    room.opened_by(process, "2.vbi.json").close()
    room.ended(process, 2, b"./2.vbi.json,fault,,,,,,,,,,,not JSON: line 1 is wrong from column 1 on,,\n"
                           b"./3.tbc,yes,0,0,cav,1,30,30,0,1,61,,,NTSC,\n")
    process = scanning(room, "-j 2 . 2.vbi.json")
    process.stdout.close()  # there is no reader any longer
    assert (process.wait(DEADLINE), process.stderr.read()) == (2, b"")


@pytest.mark.parametrize("number, to_all, status, row, left", (
    (signal.SIGINT, True, 130, b"", []), (signal.SIGHUP, False, 129, b"", []),
    (signal.SIGKILL, False, 2, b"1.tbc,fault,,,,,,,,,,,its process was ended by SIGKILL,,\n", ["index.html"])))
def test_while_a_page_is_written(room, number, to_all, status, row, left):
    """By Ctrl-C, which all processes get, by a signal to the first one, or to the one that writes. None is left."""
    worn = line_with(0xF00001, NTSC, [(430, 441, False)])
    room.add("1.tbc", [[worn, worn, worn]] * 20)
    room.write("sitecustomize.py", FIRST_WAITS)
    paths = os.pathsep.join([room.folder, os.environ["PYTHONPATH"]])
    process = scanning(room, "--html pages 1.tbc", env={**buffered(), "PYTHONPATH": paths})
    while not (os.path.exists(room.named("waits")) and room.read("waits")):
        assert process.poll() is None
        time.sleep(0.01)
    one = int(room.read("waits"))
    assert [name[-5:] for name in room.names("pages")] == [".part", ".html"]  # and its name, which is kept
    (os.killpg if to_all else os.kill)(one if row else process.pid, number)
    room.ended(process, status, row)
    assert (command_of(one), room.names("pages")) == (b"", left)


class Terminal(io.StringIO):
    """It shows what is flushed: no message ends with a newline."""
    flushed = ""

    def isatty(self):
        return True

    def flush(self):
        self.flushed = super().getvalue()

    def getvalue(self):
        return self.flushed


def shown(*texts):
    """What a terminal gets of these texts, one in the place of the other."""
    return "".join("\r%s\x1b[K" % text for text in texts)


@pytest.fixture
def clock():
    with mock.patch("time.monotonic", return_value=100.0) as clock:
        yield clock


def run_over(clock, fields, count, step, seconds, is_wanted=True, errors=Terminal):
    """What is written to standard error over so many items, each of which takes so many seconds."""
    def slow():
        for item in range(count):
            clock.return_value += seconds
            yield item

    with mock.patch("sys.stderr", errors()) as said, Progress(fields, is_wanted) as progress:
        assert list(progress.over(slow(), step)) == list(range(count))
    return said.getvalue()


def test_whole_texts(clock):
    long = shown("0 of 200 fields, 0 %", "64 of 200 fields, 32 %, 1:04 left", "128 of 200 fields, 64 %, 0:34 left",
                 "192 of 200 fields, 96 %, 0:04 left", "200 of 200 fields, 100 %", "")
    each = shown("0 of 3 fields, 0 %", "1 of 3 fields, 33 %, 0:00 left", "2 of 3 fields, 66 %, 0:00 left",
                 "3 of 3 fields, 100 %", "")
    for run, wanted in (((200, 4, 64, 30.0), long), ((0, 0, 64, 1.0), shown("0 of 0 fields, 100 %", "")),
                        ((3, 3, 1, PAUSE), each),
                        ((10, 10, 1, 1.0, True, io.StringIO), ""), ((10, 10, 1, 1.0, False), "")):
        assert run_over(clock, *run) == wanted
    assert shown("1 of 1000 fields, 0 %, 166:30 left") in run_over(clock, 1000, 1000, 1, 10.0)
    text = run_over(clock, 1003, 1003, 1, 0.01)
    assert text.count("\r") == 3 + 10 * 5  # the first, the last, the empty line, and five a second
    heard = []
    with heard_by(lambda *_: heard.append("outer")), heard_by(lambda *_: heard.append("inner")), Progress(3):
        assert heard == ["inner"]
    with mock.patch("sys.stderr", None), Progress(3) as progress:
        assert list(progress.over("abc")) == ["a", "b", "c"]
    with mock.patch("sys.stderr", Terminal()) as errors, pytest.raises(KeyboardInterrupt), Progress(10):
        raise KeyboardInterrupt
    assert errors.getvalue() == shown("0 of 10 fields, 0 %", "")


@pytest.mark.parametrize("sizes, seconds, parts, errors, wanted", (
    ([200, 100, 100], 1, [(0, 0.5), (1, 1), None, (0, 0.6), (0, 1), (2, 1)], Terminal, shown(
        "0 of 3 sides, 0 %", "0 of 3 sides, 25 %, 0:03 left", "1 of 3 sides, 50 %, 0:02 left", "",
        "1 of 3 sides, 55 %, 0:02 left", "2 of 3 sides, 75 %, 0:01 left", "3 of 3 sides, 100 %", "")),
    ([1], 0, [*9 * [(0, 0.5)], None, (0, 0.5)], Terminal, shown(
        "0 of 1 sides, 0 %", "", "0 of 1 sides, 50 %, 0:00 left", "")),
    ([0], 1, [(0, 1)], Terminal, shown("0 of 1 sides, 0 %", "1 of 1 sides, 0 %", "")),
    ([], 1, [], Terminal, shown("")), ([1], 1, [(0, 0.5), None, (0, 1)], io.StringIO, "")))
def test_a_line_for_all(clock, sizes, seconds, parts, errors, wanted):
    """What is written while parts of sides are reached, each so many seconds after the other; None empties the line."""
    with mock.patch("sys.stderr", errors()) as said, SidesProgress(sizes) as progress:
        for part in parts:
            if part:
                clock.return_value += seconds
                progress.reached(*part)
            else:
                progress.clear()
    assert said.getvalue() == wanted


def steps(task):
    """Reads ten fields of a side, and no more."""
    with Progress(10) as progress:
        list(progress.over(range(10)))
    raise ValueError("%s has ten fields" % task.path)


def test_sides_of_both_kinds_in_one_scan(room):
    """What part of a scan a side is goes by its fields, of which a document has three times as many here as a TBC
    file. It is done when it has been judged. A side whose page is kept is no part."""
    for name, fields in (("1.tbc", "1..30"), ("2.tbc", "1..90"), ("3.tbc", "1..3")):
        room.add(name, fields)
    room.write("2.vbi.json", room.extracted("2.tbc"))
    room.scan("--html pages 3.tbc")
    with mock.patch("ldvbi_side.command.scan.SidesProgress") as progress, contextlib.chdir(room.folder):
        scan(["-j", "1", "--html", "pages", "1.tbc", "2.vbi.json", "3.tbc", "absent.tbc"], steps)
    (one, other, absent), = progress.call_args.args
    assert 2 < other / one < 4.5
    assert (one, other, absent) == (os.path.getsize(room.named("1.tbc")) / 600000, len(room.read("2.vbi.json")) / 150,
                                    0)
    shown_for_all = progress().__enter__()
    assert [call.args for call in shown_for_all.reached.call_args_list] == [
        (side, part) for side in (0, 1, 2) for part in (0.0, 0.99, 1)]
    assert shown_for_all.clear.call_count == 4  # before each row

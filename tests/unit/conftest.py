"""What pytest reads in before the tests: where the package, its library and the program are, the folders in which tests
run the command (room.py), and the order of the tests."""

import os
import signal
import sys
import tempfile

import coverage
import hypothesis
import pytest

TOP = os.path.abspath(os.path.join(os.path.dirname(__file__), os.pardir, os.pardir))
BUILT = next((place for place in (TOP, os.path.join(TOP, "rust"))
              if os.path.exists(os.path.join(place, "libldvbi.so.3"))), TOP)
os.environ.setdefault("LDVBI_LIBRARY", os.path.join(BUILT, "libldvbi.so.3"))
os.environ.setdefault("LDVBI_PROGRAM", os.path.join(BUILT, "ldvbi"))
FOLDERS = [os.path.join(TOP, name) for name in ("python", "simulated")]
if "COVERAGE_PROCESS_START" not in os.environ:  # else python.sh has set it
    os.environ["PYTHONPATH"] = os.pathsep.join(FOLDERS)  # of the processes that tests start
sys.path[:0] = [*FOLDERS, os.path.join(TOP, "tests", "cli")]
os.environ.setdefault("HYPOTHESIS_STORAGE_DIRECTORY", os.path.join(tempfile.gettempdir(), "ldvbi-hypothesis"))
hypothesis.settings.register_profile("same", derandomize=True, database=None, deadline=None)
hypothesis.settings.load_profile("same")
pytest.register_assert_rewrite("room", "compact")

# A shell has what it starts behind its back ignore Ctrl-C, and nohup SIGHUP: the processes of tests would do so, too.
for number, handler in ((signal.SIGINT, signal.default_int_handler), (signal.SIGHUP, signal.SIG_DFL)):
    if signal.getsignal(number) == signal.SIG_IGN:
        signal.signal(number, handler)

import room as rooms  # noqa: E402

# The files with tests that take longest, which come first
LONGEST = ("test_simulated", "test_stopped", "test_hostile", "test_join", "test_scan")


def pytest_collection_modifyitems(items):
    assert len({item.nodeid for item in items}) == len(items)  # of two with one name one would be lost
    items.sort(key=lambda item: [item.path.stem != name for name in LONGEST])


@pytest.hookimpl(hookwrapper=True)
def pytest_runtest_call(item):
    """No line is recorded in tests that run none alone and take long."""
    recorder = item.get_closest_marker("unrecorded") and coverage.Coverage.current()
    if not recorder:
        yield
        return
    known = os.environ.pop("COVERAGE_PROCESS_START")
    recorder.stop()
    yield
    recorder.start()
    os.environ["COVERAGE_PROCESS_START"] = known


@pytest.fixture
def room(tmp_path):
    """A folder of its own for a test."""
    with rooms.Room(os.path.realpath(tmp_path)) as one:
        yield one


@pytest.fixture
def drawn(room):
    """The same, in which side.tbc has pictures 0 to 11, and side.vbi.json is its document by the program."""
    room.draw_side()
    return room


def pytest_make_parametrize_id(val, argname):
    """What stands for a value in the name of a test: a short text, or the name of the argument."""
    return val[:60] if isinstance(val, str) and val.isprintable() else str(val) if isinstance(val, int) else argname

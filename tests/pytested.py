"""Tries a plant by the tests of Python that run its line: in a copy of the tree, as another user if root asks, and with
bounded memory and time."""

import contextlib
import os
import pathlib
import resource
import shutil
import signal
import subprocess
import sys
import tempfile
import time
import types

import hypothesis  # noqa: F401: once, for all that is tried
import pytest

import scripted
from planted import TOP
from scripted import NOBODY, planted

LEFT_OUT = "__pycache__", ".git", ".venv", "crate", "dist", "ldvbi-mutants-*", "out"  # they aren't copied
FIRST = 40  # tests of a plant, which are run before the others
GRACE = 20  # seconds of a processor, besides four times those of its tests, after which a plant is seen, since it hangs
WAITING = 4  # times as long may pass, for the machine may be busy
DOUBTED = 1  # seconds: a test that takes longer has to fail twice
MEMORY = 3 << 30  # bytes


@contextlib.contextmanager
def room(is_for_python=True):
    """A copy of the tree, and beside it a folder for temporary files, since tests copy the tree. Both are another
    user's if root asks."""
    with tempfile.TemporaryDirectory(prefix="ldvbi-mutants-") as name:
        folder = pathlib.Path(os.path.realpath(name), "tree")
        shutil.copytree(TOP, folder, True, shutil.ignore_patterns(*LEFT_OUT))
        scripted.temporary(folder).mkdir()
        if os.getuid() == 0:
            for place, _, names in os.walk(name):
                for one in (place, *(os.path.join(place, name) for name in names)):
                    os.chown(one, NOBODY, NOBODY, follow_symlinks=False)
        if is_for_python:  # all is compiled
            subprocess.run([sys.executable, "-m", "pytest", "-q", "--collect-only"], cwd=folder / "tests" / "unit",
                           preexec_fn=lambda: confine(folder), stdout=subprocess.DEVNULL, check=False)
        yield folder


def confine(folder, seconds=3600):
    """Has this process be one of its own group, without rights, and with bounded memory and seconds."""
    os.setsid()
    resource.setrlimit(resource.RLIMIT_CPU, (seconds, seconds))
    tempfile.tempdir = str(scripted.temporary(folder))
    os.environ.update(HOME=str(folder), TMPDIR=tempfile.tempdir)
    resource.setrlimit(resource.RLIMIT_DATA, (MEMORY, MEMORY))
    if os.getuid() == 0:
        os.setgroups([])
        os.setgid(NOBODY)
        os.setuid(NOBODY)


class Chosen:
    """A plugin of pytest that runs these tests alone, in this order."""

    def __init__(self, tests, path):
        self._ranks, self._path = {test: rank for rank, test in enumerate(tests)}, path

    @pytest.hookimpl(trylast=True)
    def pytest_collection_modifyitems(self, items):
        items[:] = sorted((one for one in items if one.nodeid in self._ranks), key=lambda one: self._ranks[one.nodeid])

    def pytest_runtest_logreport(self, report):
        if report.failed:
            self._path.write_text(report.nodeid)


def failing(folder, tests, seconds):
    """The first of these tests that fails in the copy, "time" if they hang, "all" if they can't begin; or None."""
    failed, most = folder / "tests" / "unit" / "failed", int(GRACE + 4 * seconds)
    failed.unlink(missing_ok=True)
    process = os.fork()
    if process == 0:
        status = 255
        try:
            confine(folder, most)
            sys.modules["__main__"] = types.ModuleType("__main__")  # processes that tests start would read in this one
            os.chdir(folder / "tests" / "unit")
            for number in (1, 2):
                os.dup2(os.open("said", os.O_WRONLY | os.O_CREAT | os.O_TRUNC), number)
            files = sorted({test.split("::")[0] for test in tests})
            status = pytest.main(["-x", "-q", "--basetemp", str(folder / "out"), *files], [Chosen(tests, failed)])
        finally:
            os._exit(status)
    end = time.monotonic() + WAITING * most
    while not os.waitid(os.P_PID, process, os.WEXITED | os.WNOHANG | os.WNOWAIT) and time.monotonic() < end:
        time.sleep(0.01)
    with contextlib.suppress(ProcessLookupError):
        os.killpg(process, signal.SIGKILL)
    status = os.waitstatus_to_exitcode(os.waitpid(process, 0)[1])
    if status in (pytest.ExitCode.OK, pytest.ExitCode.NO_TESTS_COLLECTED):
        return None
    return failed.read_text() if failed.exists() else "time" if status < 0 else "all"


def tried(folder, plant, tests):
    """The test that sees a plant in the copy, if one does."""
    path, found = folder / plant.file, None
    old, times = path.read_text("utf-8"), path.stat()
    path.write_text(planted(plant), "utf-8")
    os.utime(path, (0, 0))  # so that it isn't taken for what is compiled
    for some in filter(None, (tests[:FIRST], tests[FIRST:])):
        seconds = sum(one for _, one in some)
        found = failing(folder, [test for test, _ in some], seconds)
        slow = [(test, one) for test, one in some if test == found and one > DOUBTED]
        if slow and not failing(folder, [found], slow[0][1]):
            rest = some[some.index(slow[0]) + 1:]
            found = failing(folder, [test for test, _ in rest], seconds) if rest else None
        if found:
            break
    path.write_text(old, "utf-8")
    os.utime(path, ns=(times.st_atime_ns, times.st_mtime_ns))
    return found

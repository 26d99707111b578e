"""Signals that ask for the end: while the command is loaded, where Python drops their exceptions, and a second one."""

import contextlib
import functools
import importlib
import io
import os
import signal
import subprocess
import sys
import time
import weakref
from unittest import mock

import ldvbi_side
from ldvbi_side import outside
from ldvbi_side.__main__ import main
from ldvbi_side.command import main as command
from ldvbi_side.command.outputs import whole_file, whole_path
import pytest

NUMBERS = signal.SIGINT, signal.SIGTERM, signal.SIGHUP, signal.SIGALRM


@pytest.fixture
def signals():
    """What begins to heed signals, as the command does. A shell has what runs behind its back ignore SIGINT."""
    before = {number: signal.signal(number, signal.SIG_DFL) for number in NUMBERS}
    with mock.patch("sys.unraisablehook", sys.__unraisablehook__):  # not that of pytest
        yield outside.end_in_order
    outside.heeded()
    for number in NUMBERS:
        signal.signal(number, before[number])


@pytest.mark.parametrize("words, by, ends", (
    ("/bin/ldvbi-side x", "python /bin/ldvbi-side x", True), ("-m x", "python -m ldvbi_side x", True),
    ("-m ldvbi_side x", "python -m other ldvbi_side x", False), ("x ldvbi_side", "python x ldvbi_side", False)))
def test_while_the_command_is_loaded(signals, words, by, ends):
    """Ctrl-C ends it, by the words that Python began with, and is left as it was in another program. Then all do."""
    signal.signal(signal.SIGINT, signal.default_int_handler)
    with mock.patch.multiple(sys, create=True, argv=words.split(), orig_argv=by.split()), mock.patch("os._exit") as end:
        importlib.reload(ldvbi_side)
        with contextlib.nullcontext() if ends else pytest.raises(KeyboardInterrupt):
            signal.raise_signal(signal.SIGINT)
        outside.end_at_once()
        for number in NUMBERS[:3]:
            signal.raise_signal(number)
    assert end.mock_calls == [mock.call(status) for status in (130, 130, 143, 129)[not ends:]]


def dropped(number):
    """A signal comes in a callback whose exceptions Python drops: of a weak reference to a set that is gone."""
    return weakref.ref(set(), lambda _: (signal.raise_signal(number), sum(range(10))))


def test_one_that_is_dropped(signals):
    """It is noticed where that is asked, and else sent again; no other exception is."""
    signals()
    with contextlib.redirect_stderr(io.StringIO()) as said:
        dropped("no number")
    assert "TypeError" in said.getvalue()
    outside.raise_lost()
    dropped(signal.SIGTERM)
    with pytest.raises(outside.Stopped) as noticed:
        outside.raise_lost()
    assert (noticed.value.status, signal.getitimer(signal.ITIMER_REAL)) == (143, (0, 0))
    outside.raise_lost()
    outside.end_in_order()
    dropped(signal.SIGHUP)
    with pytest.raises(outside.Stopped) as sent:
        time.sleep(10)
    assert sent.value.status == 129


def test_one_that_is_dropped_before_the_command_ends(signals):
    """It isn't sent again while Python ends."""
    def command(_):
        dropped(signal.SIGTERM)
        raise KeyboardInterrupt

    signals()
    with mock.patch("ldvbi_side.command.main.main", command), mock.patch("ldvbi_side.__main__.drop_standard_output"):
        assert (main([]), signal.getitimer(signal.ITIMER_REAL)) == (130, (0, 0))


@pytest.mark.parametrize("number", ("0", "none"))
def test_one_that_is_dropped_within_a_run(signals, number):
    """The run ends by it, whatever its answer or its fault is."""
    signals()
    with mock.patch("ldvbi_side.command.main._run", lambda _: (dropped(signal.SIGTERM), int(number))), \
            pytest.raises(outside.Stopped):
        command.main(["side.tbc"])


@pytest.mark.parametrize("write", (whole_file, functools.partial(whole_path, ends=[])))
def test_nothing_is_written_where_one_was_dropped(signals, room, write):
    signals()
    with pytest.raises(outside.Stopped), write(room.named("page.html")) as part:
        room.write("page.html", "old")
        if isinstance(part, str):
            room.write(part, "new")
        dropped(signal.SIGTERM)
    assert room.files() == {"page.html": b"old"}


def test_one_that_is_ignored(signals):
    """As nohup has it, it stays so."""
    signal.signal(signal.SIGHUP, signal.SIG_IGN)
    signals()
    signal.raise_signal(signal.SIGHUP)


def test_none_that_is_ignored_reaches_the_tests():
    """A shell has them ignored by what it starts behind its back, and nohup."""
    text = "import conftest, signal; print(*map(signal.getsignal, (signal.SIGINT, signal.SIGHUP)))"
    ignored = ["sh", "-c", 'trap "" INT HUP; exec "$@"', "sh", sys.executable, "-c", text]
    assert subprocess.check_output(ignored, cwd=os.path.dirname(__file__), text=True) == "%s %s\n" % (
        signal.default_int_handler, signal.SIG_DFL)


def test_a_second_one(signals):
    """It ends the process at once where the first was dropped, which is sent again after a quarter of a second, or came
    more than a second ago."""
    signals()
    with mock.patch("os._exit") as end, mock.patch("time.monotonic", return_value=100.0) as clock:
        with pytest.raises(outside.Stopped):
            signal.raise_signal(signal.SIGINT)
        clock.return_value = 101.0
        signal.raise_signal(signal.SIGINT)
        end.assert_not_called()
        clock.return_value = 101.5
        signal.raise_signal(signal.SIGTERM)
        signals()
        dropped(signal.SIGTERM)
        assert 0 < signal.getitimer(signal.ITIMER_REAL)[0] <= 0.25
        signal.raise_signal(signal.SIGHUP)
    assert end.mock_calls == [mock.call(143), mock.call(129)]


def test_the_thread_that_watches_has_begun():
    """Python crashes if it comes to its end before a thread of it has begun. Here no thread gets to run unasked."""
    asked = "import sys; sys.setswitchinterval(1000); from ldvbi_side import outside; outside.end_in_order(); " \
            "print(len(sys._current_frames()))"
    assert subprocess.check_output([sys.executable, "-c", asked], text=True) == "2\n"

"""Jobs side by side: processes that stay, that end or have to be ended, and the signals that they heed."""

import atexit
import multiprocessing
import os
import pathlib
import signal
import time
from unittest import mock
from unittest.mock import call

from ldvbi_side.command import processes
from ldvbi_side.command.processes import Ended, SideBySide
import pytest
from room import children, command_of, DEADLINE


def ignores(task, tell):
    """A job that doesn't end by itself, and doesn't let itself be ended."""
    signal.signal(signal.SIGTERM, signal.SIG_IGN)
    tell(task)
    time.sleep(DEADLINE)


def tidies(task, tell):
    """A job that signals reach while its process ends, after a first one, or by itself, as it took much memory."""
    processes._peak = lambda: 1 << 60
    for end in (lambda: tell([]), lambda: os.kill(os.getpid(), signal.SIGHUP),
                lambda: os.kill(os.getpid(), signal.SIGTERM)):  # the last one comes first
        atexit.register(end)
    os.kill(os.getpid(), task)


def tells(_, tell):
    """A job that says in which process it runs."""
    tell(os.getpid())


def lasts(task, _):
    """A job that lasts until a process has ended: a file of this name has its number."""
    while task and (not os.path.exists(task) or command_of(int(pathlib.Path(task).read_bytes() or "1"))):
        time.sleep(0.01)


def removes(task, tell):
    """A job that removes its file when it is asked to end."""
    try:
        tell(task)
        time.sleep(DEADLINE)
    finally:
        os.unlink(task)


def test_processes_that_stay_or_end(room, capfd):
    """One that does several jobs, one that has to be killed, those that get signals while they end, one that ends after
    its job, while another one is at work, and one that is asked to end."""
    ended = []
    with SideBySide(tells, [1, 2], 1, lambda *one: ended.append(one)) as messages:
        first, *others = messages
    assert others == [(0, Ended(0)), (1, first[1]), (1, Ended(0))]
    assert ended == [(1, first[1]), (2, first[1])]
    with mock.patch.object(processes, "GRACE", 0.1), \
            SideBySide(ignores, [3, 4], 1, lambda task, process: ended.append(task)) as messages:
        assert next(iter(messages)) == (0, 3)
        assert all(one.daemon for one in multiprocessing.active_children())  # whatever else happens, they end
    assert (ended[2:], children(os.getpid())) == ([3], [])
    with SideBySide(tidies, [0, signal.SIGHUP], 1, lambda task, process: None) as messages:
        assert list(messages) == [(0, []), (0, Ended(0)), (1, []), (1, Ended(1))]

    def after(task, process):
        if not task:
            os.kill(process, signal.SIGKILL)
            room.write("ended", str(process))
    with SideBySide(lasts, ["", room.named("ended")], 2, after) as messages:
        assert list(messages) == [(0, Ended(0)), (1, Ended(0))]
    with SideBySide(removes, [room.named("ended")], 1, lambda task, process: None) as messages:
        assert next(iter(messages)) == (0, room.named("ended"))
    assert room.names() == []
    assert capfd.readouterr() == ("", "")


def test_one_that_has_to_be_killed():
    """It is asked to end, has a second for that, and its job is over only when it is gone."""
    calls = mock.Mock(pid=7)
    side = SideBySide(print, [5], 1, calls.after)
    worker = processes._Worker(calls)
    worker.index, side._workers = 0, {None: worker}
    with side:
        pass
    assert calls.mock_calls == [call.terminate(), call.join(1), call.is_alive(), call.kill(), call.join(),
                                call.after(5, 7)]


def test_what_is_held_back():
    """Ctrl-C, and what asks for the end, while a process is started; what watches over processes is there before."""
    calls = mock.Mock()
    with mock.patch.object(processes, "resource_tracker", calls), \
            mock.patch.object(signal, "pthread_sigmask", calls.mask), processes._without_signals():
        calls.start()
    assert calls.mock_calls == [
        call.ensure_running(), call.mask(signal.SIG_BLOCK, {signal.SIGINT, signal.SIGTERM, signal.SIGHUP}),
        call.start(), call.mask(signal.SIG_SETMASK, calls.mask.return_value)]


@pytest.mark.parametrize("before, after", ((1000, 262144), (300000, 300000)))
def test_how_much_memory_a_process_may_take(before, after):
    """With 256 MB, or as much as it began with, it goes on to its next job; with more it ends after a job. It heeds
    what asks for the end until then, but not SIGHUP under nohup."""
    connection = mock.Mock(**{"recv.side_effect": [1, 2, EOFError]})
    with mock.patch.object(processes, "signal", mock.Mock()) as known, mock.patch.object(
            processes, "_peak", side_effect=[before, after, after + 1]):
        known.getsignal = lambda number: known.SIG_IGN if number == signal.SIGHUP else known.SIG_DFL
        processes._run(lambda task, tell: tell(task), connection)
    assert [one.args[0] for one in connection.send.call_args_list] == [(False, 1), (True, None), (False, 2)]
    assert known.mock_calls == [call.signal(signal.SIGTERM, mock.ANY), call.pthread_sigmask(
        known.SIG_UNBLOCK, processes._ENDING), call.signal(signal.SIGTERM, known.SIG_IGN)]

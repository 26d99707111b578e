"""Jobs side by side, in processes of their own. If one crashes, or is killed, only the job that it is doing is lost."""

import contextlib
import multiprocessing
import resource
import signal
from multiprocessing import resource_tracker
from multiprocessing.connection import Connection, wait
from types import TracebackType
from typing import Any, Callable, Dict, Iterator, List, NamedTuple, Optional, Sequence, Tuple, Type

GRACE = 1  # second in which a process that is to end may remove what it began to write
# A process that once took more ends with its job, so that the system has the memory again: to start another one takes
# a seventh of a second, which a job of that size has many times.
MOST_MEMORY = 256 << 10  # in KB
_ENDING = (signal.SIGTERM, signal.SIGHUP)  # what ends a process that does jobs

Job = Callable[[Any, Callable[[Any], None]], None]
After = Callable[[Any, int], None]


class Ended(NamedTuple):
    """The last message of a job. `status` is 0, or the status of its process if that ended too: if a signal ended it,
    the signal's number, negative."""
    status: int


class _Worker:
    """A process, and the job that it is at, by its index, or None."""

    def __init__(self, process: Any) -> None:
        self.process = process
        self.index: Optional[int] = None


class SideBySide:
    """Runs a job once for each task, at most `most` at a time, in a `with` block. At the end of the block none runs any
    longer. A process does many jobs, one after the other. The job gets its task and a function that sends a message to
    this process. Job, tasks and messages must be what `pickle` takes. A loop yields each message with its task's index,
    and `Ended` after those of a task. When a job or its process has ended, in whatever way, `after` is called here with
    its task and the number of the process."""

    def __init__(self, job: Job, tasks: Sequence[Any], most: int, after: After) -> None:
        self._job, self._after = job, after
        self._tasks, self._begun = tasks, 0
        self._most = most
        self._workers: Dict[Connection, _Worker] = {}

    def __enter__(self) -> "SideBySide":
        return self

    def __exit__(self, kind: Optional[Type[BaseException]], error: Optional[BaseException],
                 trace: Optional[TracebackType]) -> None:
        left = self._workers.values()
        for worker in left:
            worker.process.terminate()
        for worker in left:
            worker.process.join(GRACE)
            if worker.process.is_alive():
                worker.process.kill()
                worker.process.join()
            self._end(worker)

    def __iter__(self) -> Iterator[Tuple[int, Any]]:
        while self._begun < len(self._tasks) or any(worker.index is not None for worker in self._workers.values()):
            self._hand_out()
            ready: List[Any] = wait(list(self._workers))
            for connection in ready:
                yield from self._heard(connection)

    def _hand_out(self):
        """Gives tasks to processes that have none, of which some may have to be started."""
        while self._begun < len(self._tasks):
            idle = next((one for one, worker in self._workers.items() if worker.index is None), None)
            if idle is None and len(self._workers) >= self._most:
                return
            connection = idle or self._started()
            self._workers[connection].index = self._begun
            with contextlib.suppress(OSError):  # it has ended: that is heard
                connection.send(self._tasks[self._begun])
            self._begun += 1

    def _heard(self, connection):
        """What a process has to say."""
        worker = self._workers[connection]
        try:
            is_end, message = connection.recv()
        except (EOFError, OSError):  # it has ended, perhaps within a message
            worker.process.join()
            del self._workers[connection]
            connection.close()
            index = self._end(worker)
            if index is not None:
                yield index, Ended(worker.process.exitcode)
            return
        yield (self._end(worker), Ended(0)) if is_end else (worker.index, message)

    def _end(self, worker):
        """Takes a process from its job, if it has one. The answer is the index of that."""
        index, worker.index = worker.index, None
        if index is not None:
            self._after(self._tasks[index], worker.process.pid)
        return index

    def _started(self):
        """The connection to a new process. As it is no copy of this one, it has none of its threads and locks."""
        context = multiprocessing.get_context("spawn")
        ours, theirs = context.Pipe()
        with _without_signals():
            process = context.Process(target=_run, args=(self._job, theirs), daemon=True)
            process.start()
            self._workers[ours] = _Worker(process)
        theirs.close()
        return ours


@contextlib.contextmanager
def _without_signals():
    """Holds signals back that ask for the end: a process whose start they broke off would get no job, and say so. One
    that is started meanwhile inherits that. It goes on to hold Ctrl-C back, for good: that reaches all processes of a
    terminal, and this one ends the others."""
    resource_tracker.ensure_running()  # it would let Ctrl-C through when it starts
    before = signal.pthread_sigmask(signal.SIG_BLOCK, {signal.SIGINT, *_ENDING})
    try:
        yield
    finally:
        signal.pthread_sigmask(signal.SIG_SETMASK, before)


def _run(job, connection):
    """Does jobs in their process. One that ends, by itself or by a signal, has no use for signals that ask for that:
    one that came later would break into what has to be done before."""
    stopping = [number for number in _ENDING if signal.getsignal(number) != signal.SIG_IGN]  # as SIGHUP is under nohup

    def heed(handler):
        for number in stopping:
            signal.signal(number, handler)

    def leave(*_):
        heed(signal.SIG_IGN)
        raise SystemExit(1)

    heed(leave)
    signal.pthread_sigmask(signal.SIG_UNBLOCK, _ENDING)
    most = max(MOST_MEMORY, _peak())  # a process begins with what the one that started it took
    with contextlib.suppress(EOFError, ConnectionError):  # nobody listens any longer
        while True:
            job(connection.recv(), lambda message: connection.send((False, message)))
            if _peak() > most:
                break
            connection.send((True, None))
    heed(signal.SIG_IGN)


def _peak():
    """The most memory that this process took, in KB."""
    return resource.getrusage(resource.RUSAGE_SELF).ru_maxrss

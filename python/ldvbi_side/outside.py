"""What is outside of the command, and may be otherwise than it expects: closed standard streams, signals, and names and
texts of others that no terminal and no page can show. It imports little, so that signals are heeded before the rest of
the command is loaded."""

import _thread
import io
import os
import signal
import sys
import time
from types import FrameType
from typing import IO, Any, Callable, List, Optional

NAME = "ldvbi-side"
INTERRUPTED = 130  # the status after Ctrl-C, as a shell has it
MOST_SAID = 600  # characters of a message
MOST_BYTES = 1 << 29  # of a document; the longest that the program writes has a quarter of that
_BEGINS = b'{["-0123456789tfn'  # what a JSON text may begin with
_STOPPING = tuple(getattr(signal, name) for name in ("SIGINT", "SIGTERM", "SIGHUP") if hasattr(signal, name))


# ---- Signals

class Stopped(KeyboardInterrupt):
    """A signal asked for the end. `status` is the status of the process, as a shell has it after a signal."""

    def __init__(self, number: int) -> None:
        super().__init__()
        self.status = 128 + number


def end_at_once() -> None:
    """Has signals that ask for the end do so at once, as long as nothing is written: code that is loaded meanwhile
    could take an exception for its own."""
    _heed(lambda number, _: os._exit(128 + number))


_PATIENCE = 1  # seconds in which what a signal has ended may clear up
_AGAIN = 0.25  # seconds after which one that was lost is sent again, unless what it broke off has ended by then
_HELD = 0.5  # seconds of a processor after which one that isn't heeded ends the process; or, if that takes less,
_UNHEEDED = 10  # seconds
_stopped: List[Stopped] = []  # the signal that asked for the end, if one did
_lost: List[Stopped] = []  # the same, while nobody has heeded it
_last_acts: List[Callable[[], None]] = []  # what is done before a process ends that heeds no signal


def end_in_order() -> None:
    """Has the first signal that asks for the end raise `Stopped`, which leaves nothing unfinished. Signals that come
    within a second after it are ignored, since they could hinder just that. A later one ends the process at once.

    Python may be in a function whose exceptions it drops, such as a callback of SQLite or of its own import. Then the
    signal is sent once more, until it is heeded. It may also be in one that takes hours, as SQLite is with some
    databases that were made to do harm. Then another thread ends the process."""
    _stopped.clear()
    _lost.clear()
    sys.unraisablehook = _dropped
    ours, theirs = os.pipe()
    os.set_blocking(theirs, False)
    before = signal.pthread_sigmask(signal.SIG_BLOCK, _STOPPING)  # for the thread, which is to get none itself
    begun = _thread.allocate_lock()
    begun.acquire()
    _thread.start_new_thread(_watch, (ours, begun))
    begun.acquire()  # Python would crash if it came to its end before a thread comes to its begin
    signal.pthread_sigmask(signal.SIG_SETMASK, before)
    signal.set_wakeup_fd(theirs)
    _heed(_stop)


def before_sudden_end(act: Callable[[], None]) -> None:
    """Has something be done before a process ends that heeds no signal: to remove what isn't finished."""
    _last_acts.append(act)


def _watch(pipe, begun):
    """Ends the process by a signal that isn't heeded for a while. The system writes the numbers of signals to the
    pipe."""
    begun.release()
    while True:
        number, = os.read(pipe, 1)
        end, spent = time.monotonic() + _UNHEEDED, time.process_time() + _HELD
        while signal.getsignal(number) is _stop and time.monotonic() < end and time.process_time() < spent:
            time.sleep(0.02)
        if signal.getsignal(number) is _stop:  # it would be another function
            for act in _last_acts:
                act()
            os._exit(128 + number)


def raise_lost() -> None:
    """Raises `Stopped` if a signal asked for the end and the exception was dropped: a fault may only be what came of
    that."""
    if _lost:
        heeded()
        raise _stopped[0]


def heeded() -> None:
    """Keeps a signal from being sent again."""
    if _lost:
        signal.setitimer(signal.ITIMER_REAL, 0)
        _lost.clear()


def end_by_the_system() -> None:
    """Has signals that ask for the end do so without a function of ours, now that all is written or removed: while
    Python ends, it takes away the names that such a function needs. If a signal has asked for the end, others are
    ignored."""
    _heed(signal.SIG_IGN if _stopped else signal.SIG_DFL)


def _heed(handler):
    for number in _STOPPING:
        if signal.getsignal(number) != signal.SIG_IGN:  # nohup, say, wants it to stay so
            signal.signal(number, handler)


def _stop(number: int, _: Optional[FrameType]) -> None:
    begun = time.monotonic()

    def later(number: int, _: Optional[FrameType]) -> None:
        if _lost or time.monotonic() > begun + _PATIENCE:
            os._exit(128 + number)

    _heed(later)
    _stopped.append(Stopped(number))
    raise _stopped[0]


def _dropped(unraisable: Any) -> None:
    """Takes in an exception that was dropped."""
    if not isinstance(unraisable.exc_value, Stopped):
        sys.__unraisablehook__(unraisable)
        return
    _lost[:] = _stopped
    signal.signal(signal.SIGALRM, _stop_again)
    signal.setitimer(signal.ITIMER_REAL, _AGAIN)


def _stop_again(*_: object) -> None:
    raise _stopped[0]


# ---- Standard streams

def open_streams() -> None:
    """Puts something in place of standard streams that are closed, so that no file that is opened later gets their
    numbers. To read from such an input, or to print to such an output, fails; messages are lost. A name that isn't text
    is printed as it is."""
    for number, mode in enumerate((os.O_WRONLY, os.O_RDONLY, os.O_WRONLY)):
        try:
            os.fstat(number)
        except OSError:
            os.open(os.devnull, mode)  # it gets the least number that is free
            os.set_inheritable(number, True)
    sys.stdout = sys.stdout or open(1, "w", encoding="utf-8", closefd=False)
    sys.stderr = sys.stderr or open(2, "w", encoding="utf-8", errors="backslashreplace", closefd=False)
    if isinstance(sys.stdout, io.TextIOWrapper):
        is_unicode = sys.stdout.encoding.lower() in ("utf-8", "utf8")
        sys.stdout.reconfigure(errors="surrogateescape" if is_unicode else "backslashreplace")


def drop_standard_output() -> None:
    """Drops what was printed and isn't written yet, since nobody takes it. Nothing is written at the end."""
    _drop(sys.stdout)


def _drop(stream):
    os.dup2(os.open(os.devnull, os.O_WRONLY), stream.fileno())


def flush() -> None:
    """Writes what was printed, and messages, so far. An OSError if what was printed can't be written."""
    try:
        sys.stderr.flush()
    except OSError:
        _drop(sys.stderr)
    sys.stdout.flush()


def flush_or_drop() -> None:
    """Writes what was printed before a fault, if that can be written."""
    try:
        flush()
    except OSError:
        drop_standard_output()


def say(text: str) -> None:
    """Writes a message to standard error, in one line. If nobody takes it, the work goes on."""
    try:
        print("%s: %s" % (NAME, legible(text)), file=sys.stderr)
    except OSError:
        pass  # `flush` sees to it


# ---- Names and texts

def bytes_of_document(file: IO[bytes], begin: bytes) -> bytes:
    """All bytes of a document that begins with these. A ValueError if there is no end of them. If it begins as no
    document does, no more is read."""
    if begin.strip() and not begin.lstrip()[0] in _BEGINS:
        return begin
    data = file.read(MOST_BYTES + 1)
    if len(data) > MOST_BYTES:
        raise ValueError("it is longer than any document")
    return data


def legible(text: str) -> str:
    """A text for a message: escaped if it would act on a terminal, and without its middle if it is long."""
    if not text.isprintable():
        text = "".join(one if one.isprintable() else one.encode("unicode_escape").decode() for one in text)
    end = MOST_SAID // 3
    return text if len(text) <= MOST_SAID else text[:MOST_SAID - end - 3] + "..." + text[-end:]


def uncontrolled(text: str) -> str:
    """A text with its control characters escaped. It stays as it is otherwise, even if it is no text."""
    if text.isprintable():
        return text
    return "".join(one.encode("unicode_escape").decode() if ord(one) < 0x20 or 0x7F <= ord(one) < 0xA0 else one
                   for one in text)


def printable(text: str) -> str:
    """A text for a terminal, with a question mark for each character that isn't shown."""
    return text if text.isprintable() else "".join(one if one.isprintable() else "?" for one in text)


def shown(text: str) -> str:
    """A text for a page or a drawing, with a sign in place of each character that these can't have."""
    return text if text.isprintable() else "".join(one if _is_shown(ord(one)) else "\ufffd" for one in text)


def _is_shown(code):
    """Whether this is no control character, no half of a pair (as bytes of a name are that aren't UTF-8), and none of
    those that are set aside at the end of each plane, as U+FFFE."""
    return 0x20 <= code < 0x7F or 0xA0 <= code < 0xD800 or code >= 0xE000 and code & 0xFFFE != 0xFFFE

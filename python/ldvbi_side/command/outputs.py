"""The files that the command writes: they get their names only when they are whole, and never replace an input."""

import contextlib
import errno
import hashlib
import os
import re
import shutil
import stat
import sys
from typing import IO, Iterable, Iterator, List, Sequence, Union

from ..outside import before_sudden_end, raise_lost

STANDARD_OUTPUT = "-"  # in place of a file's name
Place = Union[str, int, None]  # a file: its path, the number of an open one, or none
_LONGEST_NAME = 255  # bytes of a file's name
_PART = ".ldvbi-"  # with what the names of parts begin
_NAME_OF_PART = re.compile(re.escape(_PART) + r".*\.([0-9a-f]{8})-([1-9][0-9]{0,8})\.part", re.DOTALL)
_own: List[str] = []  # the parts that this process began, with what may be beside them


@contextlib.contextmanager
def whole_file(path: str) -> Iterator[IO[str]]:
    """A text file to write to. It gets its name, which may be that of an older file, when the block ends without an
    exception; else nothing is left of it. Something that isn't a file, such as a pipe or a terminal, is written to as
    it is, and `-` is standard output."""
    if path == STANDARD_OUTPUT:
        yield sys.stdout
        return
    if os.path.exists(path) and not os.path.isfile(path):
        with _named_where_written(path), _opened(path, path, "w") as file:
            yield file
        return
    target = _target_of(path)
    part = _part_of(target)
    try:
        with _named_where_written(path), _opened(path, part, "x") as file:
            yield file
            file.flush()
            # Else the name could come through a loss of power, and the text not.
            os.fsync(file.fileno())
        raise_lost()
        _rename(part, target)
    except BaseException:
        with contextlib.suppress(OSError):
            os.unlink(part)
        raise


@contextlib.contextmanager
def whole_path(path: str, ends: Sequence[str]) -> Iterator[str]:
    """The path of a file for code that needs a path, otherwise like `whole_file`. It is in a folder of its own, with
    the files that are written beside it under its name with these ends. None of these may be beside an older file."""
    target = _target_of(path)
    if os.path.exists(target) and not os.path.isfile(target):
        raise ValueError("%s is no file" % path)
    for end in ends:
        if os.path.exists(target + end):
            raise ValueError("%s is there: %s is in use, or was left unfinished" % (path + end, path))
    folder = _part_of(target)
    try:
        try:
            os.mkdir(folder)
        except OSError as error:
            error.filename = path
            raise
        part = os.path.join(folder, "part")
        yield part
        with open(part, "rb") as file:
            os.fsync(file.fileno())
        raise_lost()
        _rename(part, target)
    finally:
        shutil.rmtree(folder, ignore_errors=True)


@contextlib.contextmanager
def whole_files(paths: Sequence[str], ends: Sequence[str] = ()) -> Iterator[List[str]]:
    """The paths of files for code that needs paths, likewise. All get their names together, in this order, as soon as
    each of them is complete. `ends` are those of the names of files that may be written beside one meanwhile."""
    targets = [_target_of(path) for path in paths]
    for path, target in zip(paths, targets):
        if os.path.exists(target) and not os.path.isfile(target):
            raise ValueError("%s is no file" % path)
    parts = [_part_of(target) for target in targets]
    _own.extend(part + end for part in parts for end in ends)
    try:
        yield parts
        for part in parts:
            with open(part, "rb") as file:
                os.fsync(file.fileno())
        raise_lost()
        for part, target in zip(parts, targets):
            _rename(part, target)
    finally:
        for part in parts:
            for end in ("", *ends):
                with contextlib.suppress(FileNotFoundError):
                    os.unlink(part + end)


def _target_of(path):
    """The file that a path leads to, by links or without."""
    target = os.path.realpath(path)
    if os.path.islink(target):
        raise OSError(errno.ELOOP, os.strerror(errno.ELOOP), path)
    return target


def _opened(path, name, mode):
    """The file of this name, in the place of the one that was asked for: what goes wrong is said of that."""
    try:
        return open(name, mode, encoding="utf-8", errors="surrogateescape")  # a name may be no text
    except OSError as error:
        error.filename = path
        raise


@contextlib.contextmanager
def _named_where_written(path):
    """Has an error of the block that has no file's name, as that of a full disk, be one of this file."""
    try:
        yield
    except OSError as error:
        if error.strerror and error.filename is None:
            error.filename = path
        raise


def _part_of(target):
    """What a part of a file is called until it is whole. There may be none yet, of an earlier process with this number:
    so what is there later is ours, from the moment on in which it is made."""
    part = _part_by(target, os.getpid())
    if os.path.lexists(part):
        raise FileExistsError(errno.EEXIST, os.strerror(errno.EEXIST), part)
    _own.append(part)
    return part


def _part_by(target, process):
    """What this process calls the part. Of a long name it has the beginning, and digits that are made of all of it."""
    folder, name = os.path.split(target)
    end = ".%s-%d.part" % (_machine(), process)
    data = os.fsencode(name)
    if len(_PART) + len(data) + len(end) > _LONGEST_NAME:
        end = ".%s%s" % (hashlib.sha256(data).hexdigest()[:8], end)
        name = os.fsdecode(data[:_LONGEST_NAME - len(_PART) - len(end)])
    return os.path.join(folder, _PART + name + end)


def _machine():
    """Digits of this machine, whose processes have their numbers for themselves."""
    return hashlib.sha256(os.fsencode(os.uname().nodename)).hexdigest()[:8]


@contextlib.contextmanager
def locked(folder: str) -> Iterator[None]:
    """A block that no other process of this command is in at the same time, for this folder. Where the system or the
    disk has no locks, it isn't kept from that."""
    number = os.open(folder, os.O_RDONLY | os.O_CLOEXEC)
    try:
        with contextlib.suppress(ImportError, OSError):
            import fcntl  # which not every system has
            fcntl.flock(number, fcntl.LOCK_EX)
        yield
    finally:
        os.close(number)


def drop_parts(folder: str) -> None:
    """Removes from a folder the unfinished files of processes of this machine that have gone without removing them."""
    for name in os.listdir(folder):
        match = _NAME_OF_PART.fullmatch(name)
        if match and match[1] == _machine() and not _is_there(int(match[2])):
            _drop(os.path.join(folder, name))


def make_folder(path: str) -> None:
    """Makes a folder to write to, and removes unfinished files that earlier processes left there."""
    try:
        os.makedirs(path, exist_ok=True)
    except OSError as error:
        error.filename = path  # and not one of those that it is in
        raise
    drop_parts(path)


def _drop(part):
    """Removes a part, which is a folder if something is written beside it."""
    with contextlib.suppress(OSError):
        if os.path.isdir(part):
            shutil.rmtree(part)
        else:
            os.unlink(part)


def _drop_own():
    """Removes all that this process hasn't finished."""
    for part in _own:
        _drop(part)


before_sudden_end(_drop_own)


def _is_there(process):
    try:
        os.getpgid(process)
    except ProcessLookupError:
        return False
    except OSError:
        pass  # it is somebody else's
    return True


def _rename(part, target):
    """Gives a file its name, and the mode of an older one of this name."""
    if os.path.exists(target):
        shutil.copymode(target, part)
    os.replace(part, target)


def drop_part(path: str, process: int) -> None:
    """Removes what a process that has ended left of a file that it was to write to this path. There is nothing if it
    could see to that itself."""
    _drop(_part_by(os.path.realpath(path), process))


def refuse_inputs(outputs: Iterable[Place], inputs: Iterable[Place]) -> None:
    """Raises a ValueError if a file that is to be written is also read, or is written twice, under whatever names. An
    output or an input is a path, the number of an open file, or None."""
    known = {_identity(place) for place in inputs} - {None}
    for place in outputs:
        identity = _identity(place)
        if identity in known:
            raise ValueError("%s would be written in the place of an input or of another output"
                             % ("standard output" if place == 1 else place))
        known |= {identity} - {None}


def _identity(place):
    """What two names of one file have in common, or None for what is no file."""
    if place is None:
        return None
    try:
        status = os.stat(place)
    except OSError:
        # What isn't there yet has a place, in which another output may want to be.
        return None if isinstance(place, int) else os.path.realpath(place)
    return (status.st_dev, status.st_ino) if stat.S_ISREG(status.st_mode) else None

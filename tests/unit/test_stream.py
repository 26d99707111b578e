"""Stream and fields: a TBC file, or a buffer, as a sequence of readings."""

from concurrent import futures
import ctypes
import itertools
import os
import pathlib
import time
from unittest import mock

import ldvbi
from ldvbi.rows import File
import pytest
from room import reason
from streams import line_with, NTSC, PAL, pictures, write_stream

COUNT = 2 * ldvbi.BLOCK + 3  # two blocks and a part of one
SIZE, LINE = ldvbi.field_bytes("NTSC"), ldvbi.line_bytes("NTSC")


def numbers_of(fields):
    """The pictures that drawn fields show, each on each of its lines."""
    found = [{ldvbi.classify(line.word).first for line in field} for field in fields]
    return [number for number, in found]


def stream(room, count=5, setup=NTSC, rest=0):
    write_stream(room.path, setup, pictures(count), rest)
    return ldvbi.Stream(room.path, *setup)


@pytest.mark.parametrize("count, setup, rest", (
    (COUNT, NTSC, 1000), (COUNT, PAL, 0), (1, PAL, 1000), (0, NTSC, 0), (0, NTSC, 1), (0, NTSC, SIZE - 1)))
def test_as_a_list(room, count, setup, rest):
    """Streams of many fields, of one and of none, whole and cut, have what a list of their fields would have."""
    numbers = list(range(count))
    with stream(room, count, setup, rest) as side:
        assert (len(side), side.cut_bytes) == (count, rest)
        assert (side.system.name, side.black, side.white) == setup
        assert numbers_of(side) == numbers
        assert list(side) == list(ldvbi.fields(room.path, *setup))
        for part in (slice(None), slice(1, 3), slice(-2, None), slice(60, 70), slice(3, 1), slice(200, 300),
                     slice(0, 1), slice(None, None, 2), slice(None, None, -1), slice(70, 60, -3)):
            assert numbers_of(side[part]) == numbers[part]
        for index in (0, 1, 63, 64, COUNT - 1, COUNT, -1, -2, -COUNT, -COUNT - 1, 10 ** 30):
            if -count <= index < count:
                assert numbers_of([side[index]]) == [numbers[index]]
            else:
                assert reason(side.__getitem__, index, kind=IndexError) == "field %d of a stream of %d fields" % (
                    index, count)
        for index in ("1", 1.0, None):
            assert reason(side.__getitem__, index, kind=TypeError) is not None


def test_the_samples_of_rows(room):
    with stream(room, 3, PAL) as side:
        lines = [3 * ldvbi.draw_line(0xF00000 + number, *PAL) for number in range(3)]
        assert [side.rows(index) for index in (0, 1, 2, -1)] == [*lines, lines[2]]
        for call, *words in ((side.rows, 3), (side.rows, -4), (side.rows_as, side.system, 3),
                             (side.rows_as, side.system, -1)):
            assert reason(call, *words, kind=IndexError) is not None
        buffer = ldvbi.Stream(memoryview(room.read("side.tbc")), *PAL)
        assert [buffer.rows(index) for index in (0, 1, 2)] == lines


def test_sources(room):
    """Buffers, paths as objects, and a file of which each read brings less."""
    read = os.pread
    with mock.patch.object(os, "pread", lambda file, length, begin: read(file, min(length, 1000), begin)):
        assert numbers_of(stream(room, 3)) == [0, 1, 2]
    data = room.read("side.tbc")
    for source in (pathlib.Path(room.path), data, memoryview(data).cast("H")):
        assert numbers_of(ldvbi.Stream(source, *NTSC)) == [0, 1, 2]
    for source, rest in ((b"", 0), (data[:-1], SIZE - 1), (b"x" * LINE, LINE)):
        assert ldvbi.Stream(source, *NTSC).cut_bytes == rest


def test_refused(room):
    """A buffer that is too short is taken for a path as bytes. The setup is looked at before the file is."""
    absent = room.named("absent.tbc")
    os.mkfifo(room.path)
    assert "absent.tbc" in reason(ldvbi.Stream, absent, *NTSC, kind=FileNotFoundError)
    assert reason(ldvbi.Stream, room.folder, *NTSC, kind=IsADirectoryError) is not None
    assert reason(ldvbi.Stream, absent, "NTSC", 2, 2) == "black is not below white"
    assert reason(ldvbi.Stream, room.path, *NTSC) == room.path + " is no file that can be mapped"
    for count in (1, LINE - 1):
        assert reason(ldvbi.Stream, b"x" * count, *NTSC) == (
            "%d bytes are less than a line; a path is a str or a path object, as os.fsdecode makes of bytes" % count)


def held(path):
    """How often a file is mapped, and how often it is open."""
    opened = [os.path.realpath("/proc/self/fd/" + one) for one in os.listdir("/proc/self/fd")]
    return pathlib.Path("/proc/self/maps").read_text("utf-8").count(path), opened.count(path)


def test_closed(room):
    side = stream(room, COUNT)
    begun = iter(side)
    next(begun)
    assert (held(room.path), ldvbi.next_stop(side), held(room.path)) == ((0, 1), None, (1, 2))  # which maps the file
    side.close()
    side.close()
    for call in (lambda: side[0], lambda: side[1:2], lambda: list(side), lambda: list(begun), lambda: side.rows(0),
                 lambda: side.rows_as(side.system, COUNT), lambda: side.size, lambda: ldvbi.next_stop(side)):
        assert reason(call) == "the stream is closed"
    assert (len(side), held(room.path)) == (COUNT, (0, 0))
    file = File(room.path)  # as another thread may find it between two reads
    file.close()
    for call in (lambda: file.read(1, 2), lambda: file.fetch(0, 1), file.mapped):
        assert reason(call) == "the stream is closed"
    loop = ldvbi.fields(room.path, *NTSC)
    next(loop)
    assert held(room.path) == (0, 1)
    del loop
    assert reason(ldvbi.Stream, room.folder, *NTSC, kind=IsADirectoryError) is not None
    assert (held(room.path), held(room.folder)) == ((0, 0), (0, 0))


def test_closed_meanwhile(room, monkeypatch):
    """By another thread while a call runs: the file or the buffer stays until this ends, and no longer."""
    write_stream(room.path, NTSC, pictures(70))
    data = bytearray(room.read("side.tbc"))

    def closing(works):
        def call(*words):
            side.close()
            ran.append(held(room.path) if is_file else reason(data.append, 0, kind=BufferError) is not None)
            assert reason(list, begun) == "the stream is closed"
            return works(*words)
        return call

    works = ((lambda: next(iter(side))[1].word, 0xF00000, 0), (lambda: side[69][1].word, 0xF00069, 0),
             (lambda: side.rows(3), line_with(0xF00003, NTSC) * 3, 0),
             (lambda: ldvbi.seek(side, 5), None, 1), (lambda: ldvbi.next_stop(side), None, 1),
             (lambda: ldvbi.seek_chapter(side, 5), None, 1))
    for is_file in (True, False):
        for work, wanted, maps in works:
            side, ran = ldvbi.Stream(room.path if is_file else data, *NTSC), []
            begun = side.packed(0, 70)
            next(begun)
            with monkeypatch.context() as patch:
                patch.setattr(side, "_read", closing(side._read))
                patch.setattr(*(os, "pread", closing(os.pread)) if is_file and isinstance(wanted, bytes) else
                              (ldvbi.stream.ctypes, "string_at", closing(ctypes.string_at)))
                patch.setattr(ldvbi.seeking, "later_call", lambda name: closing(ldvbi.library.later_call(name)))
                assert (work(), ran) == (wanted, [(maps, 1 + maps) if is_file else True])
            assert reason(side.rows, 0) == "the stream is closed"
            assert held(room.path) == (0, 0)
            data.append(0)
            del data[-1]


@pytest.mark.parametrize("kept", ((COUNT - 1) * SIZE + 18 * LINE - 1, 70 * SIZE + 15 * LINE))
def test_a_file_that_becomes_shorter(room, kept):
    """Each way to read it says so; up to its new end all is as before."""
    side = stream(room, COUNT)
    os.truncate(room.path, kept)
    left = kept // SIZE
    for call in (lambda: list(side), lambda: side[left], lambda: side.rows(-1), lambda: list(side.records())):
        assert reason(call) == room.path + " became shorter while it was read"
    assert numbers_of(side[:left]) == list(range(left))


@pytest.mark.parametrize("setup", (NTSC, PAL))
def test_lines_are_fetched_ahead(room, monkeypatch, setup):
    """In a loop those of the block that is read now, and of the one after it; of one field its own, and no more. Where
    the system takes no advice all is read as well."""
    notes, size, line = [], ldvbi.field_bytes(setup[0]), ldvbi.line_bytes(setup[0])
    monkeypatch.setattr(ldvbi.rows, "_ADVISE", lambda file, *note: notes.append(note))
    lines = [(field * size + 15 * line, 3 * line, os.POSIX_FADV_WILLNEED) for field in range(COUNT)]
    side = stream(room, COUNT, setup)
    assert numbers_of([side[100]]) == [100]
    assert notes == [(0, 0, os.POSIX_FADV_RANDOM), lines[100]]
    for loop in (iter(side), itertools.chain.from_iterable(side.records())):
        notes.clear()
        for more, count in ((1, 2 * 64), (64, COUNT), (COUNT - 65, COUNT)):
            assert len(list(itertools.islice(loop, more))) == more
            assert notes == lines[:count]
    with mock.patch.object(side, "_read", wraps=side._read) as read:
        assert (len(side[10:80]), len(side[10:80:9]), read.call_count) == (70, 8, 2 + 8)
    monkeypatch.setattr(ldvbi.rows, "_ADVISE", None)
    assert numbers_of(ldvbi.Stream(room.path, *setup)[10:12]) == [10, 11]


def test_closed_by_another_thread(room):
    """While two others read or seek again and again: they end by an error that says so, and nothing else."""
    write_stream(room.path, NTSC, pictures(8))
    sources = room.path, room.read("side.tbc")
    for turn, (source, work) in enumerate(6 * list(itertools.product(sources, (
            list, lambda side: side.rows(1), lambda side: ldvbi.seek(side, 1000))))):
        side = ldvbi.Stream(source, *NTSC, recover=True)
        with futures.ThreadPoolExecutor(2) as threads:
            found = [threads.submit(lambda: [work(side) for _ in itertools.count()]) for _ in range(2)]
            time.sleep(turn % 10 / 10000)
            side.close()
        assert [reason(one.result) for one in found] == 2 * ["the stream is closed"]

#!/usr/bin/env python3
"""Time and peak memory of `ldvbi extract` beside a plain reader of the same stream in reads of one line's bytes, from a
file and from a pipe, of `ldvbi draw` beside `head -c` of zeros and a plain writer of as many lines into the same sink,
of both over as many bytes of PAL beside NTSC, of `extract --recover` beside `extract` where all lines are clean and
where a tenth of those with a word is worn, and of metadata beside `jq`, all in one run. Works in a folder of its own.

usage: stream.py PROGRAM [FIELDS]    (of NTSC)"""

import os
import random
import statistics
import subprocess
import sys
import tempfile
import time
from array import array

LEVELS = ["--black", "16384", "--white", "51200"]
# The bytes of a line and of a field
LINE = {"NTSC": 1820, "PAL": 2270}
FIELD = {"NTSC": 1820 * 263, "PAL": 2270 * 313}
# Many short runs: the more of them, the likelier each has had the machine for itself once
ROUNDS = 41


def succeeded(command, status):
    """Stops the measurement where a command failed."""
    if status != 0:
        sys.exit(f"bench: {command[0]} failed")


def timed(command, source=None):
    """Seconds of a command, whose output goes nowhere."""
    begin = time.perf_counter()
    child = subprocess.Popen(command, stdin=source, stdout=subprocess.DEVNULL)
    status = child.wait()
    spent = time.perf_counter() - begin
    succeeded(command, status)
    return spent


def piped(command, path):
    """The same, fed by `cat` through a pipe."""
    feed = subprocess.Popen(["cat", path], stdout=subprocess.PIPE)
    spent = timed(command, feed.stdout)
    feed.stdout.close()
    feed.wait()
    return spent


def into_pipe(command):
    """Seconds of a command that writes into `cat` through a pipe."""
    sink = subprocess.Popen(["cat"], stdin=subprocess.PIPE, stdout=subprocess.DEVNULL)
    begin = time.perf_counter()
    subprocess.run(command, stdout=sink.stdin, check=True)
    sink.stdin.close()
    sink.wait()
    return time.perf_counter() - begin


def peak_memory(command):
    """Kilobytes of a run at its peak: in all, with its text and the C library's, and of its own, in no file."""
    child = subprocess.Popen(command, stdout=subprocess.DEVNULL)
    peak = {"VmHWM": 0, "RssAnon": 0}
    while child.poll() is None:
        try:
            with open(f"/proc/{child.pid}/status", encoding="ascii") as lines:
                for name, value in (line.split(":", 1) for line in lines):
                    if name in peak:
                        peak[name] = max(peak[name], int(value.split()[0]))
        except OSError:
            pass
        time.sleep(0.01)
    succeeded(command, child.returncode)
    return f"{peak['VmHWM']} kB, of which {peak['RssAnon']} kB are its own"


def compared(name, ours, theirs, size):
    """Runs both in turn, now the one first and now the other, so that both see the same machine, and prints how their
    times compare. What to go by is the ratio of the best: a machine that others share slows any run down by chance, and
    the more the longer it takes."""
    rounds = []
    for number in range(ROUNDS):
        if number % 2 == 0:
            rounds.append((ours(), theirs()))
        else:
            other = theirs()
            rounds.append((ours(), other))
    spent, other = zip(*rounds)
    print(f"{name}: best {min(spent):.3f} s ({size / min(spent) / 1e9:.2f} GB/s) beside {min(other):.3f} s, "
          f"ratio {min(spent) / min(other):.3f}; "
          f"medians {statistics.median(spent):.3f} s beside {statistics.median(other):.3f} s", flush=True)


def write_metadata(path, size):
    """Writes metadata of about this size, as ld-decode has it: what is wanted stands after the records of fields."""
    record = ('{"audioSamples":735,"diskLoc":%d.1,"isFirstField":true,"medianBurstIRE":19.7,"seqNo":%d,"syncConf":100,'
              '"vitsMetrics":{"bPSNR":38.1,"wSNR":36.2}}')
    count = size // len(record)
    with open(path, "w", encoding="ascii") as file:
        file.write('{"fields":[%s],"videoParameters":{"black16bIre":16384,"fieldHeight":263,"fieldWidth":910,'
                   '"system":"NTSC","white16bIre":51200}}' % ",".join(record % (i, i) for i in range(1, count + 1)))
    return os.path.getsize(path)


def built(name, work):
    """The plain program of this name, built in this folder."""
    path = os.path.join(work, name)
    source = os.path.join(os.path.dirname(os.path.abspath(__file__)), name + ".rs")
    subprocess.run(["rustc", "-O", "-o", path, source], check=True)
    return path


class Stream:
    """A drawn stream of a system, in files of a folder: its words, and its samples."""

    def __init__(self, program, system, size, work):
        fields = size // FIELD[system]
        self.size = fields * FIELD[system]
        self.words = os.path.join(work, system + ".words")
        self.samples = os.path.join(work, system + ".tbc")
        options = ["--system", system, *LEVELS]
        with open(self.words, "w", encoding="ascii") as rows:
            for field in range(fields):
                rows.write(f"82CFFF F{field % 80000:05d} -\n")
        self.draw = [program, "draw", *options, self.words]
        self.extract = [program, "extract", *options]
        with open(self.samples, "wb") as sink:
            subprocess.run(self.draw, stdout=sink, check=True)
        if os.path.getsize(self.samples) != self.size:
            sys.exit("bench: draw wrote another number of bytes")
        print(f"a stream of {fields} fields of {system}, {self.size / 1e9:.2f} GB", flush=True)


def write_worn(stream, path):
    """Writes a drawn NTSC stream of which a tenth of the lines with a word have noise of 35 %."""
    chance, width = random.Random(1), LINE["NTSC"] // 2
    with open(stream.samples, "rb") as source, open(path, "wb") as sink:
        for field in iter(lambda: source.read(FIELD["NTSC"]), b""):
            samples = array("H", field)
            for row in (15, 16):
                if chance.random() < 0.1:
                    for column in range(row * width, row * width + width):
                        samples[column] = min(max(samples[column] + int(chance.gauss(0, 12000)), 0), 65535)
            samples.tofile(sink)


def compare_recovery(ntsc, work):
    """Recovered words beside none, over a clean stream and one with worn lines."""
    worn = os.path.join(work, "worn.tbc")
    write_worn(ntsc, worn)
    for name, samples in (("clean lines", ntsc.samples), ("a tenth of worn lines", worn)):
        compared(f"extract --recover beside extract, {name}",
                 lambda path=samples: timed([*ntsc.extract, "--recover", path]),
                 lambda path=samples: timed([*ntsc.extract, path]), ntsc.size)


def compare_streams(ntsc, pal, work):
    """The program over streams, beside plain programs and beside itself."""
    reader = [built("plain_stream", work), str(LINE["NTSC"])]
    lines = [built("plain_writer", work), str(ntsc.size // LINE["NTSC"])]
    zeros = ["head", "-c", str(ntsc.size), "/dev/zero"]
    from_file = [*ntsc.extract, ntsc.samples]
    compared("extract from a file", lambda: timed(from_file), lambda: timed([*reader, ntsc.samples]), ntsc.size)
    compared("extract from a pipe", lambda: piped(ntsc.extract, ntsc.samples), lambda: piped(reader, ntsc.samples),
             ntsc.size)
    held = peak_memory(from_file), peak_memory([*reader, ntsc.samples])
    print(f"peak memory of extract: {held[0]}; of the plain reader: {held[1]}", flush=True)
    for name, other in (("head", zeros), ("lines of zeros", lines)):
        compared(f"draw into a pipe, beside {name}", lambda: into_pipe(ntsc.draw),
                 lambda other=other: into_pipe(other), ntsc.size)
    compared("PAL beside NTSC, extract", lambda: timed([*pal.extract, pal.samples]), lambda: timed(from_file), pal.size)
    compared("PAL beside NTSC, draw into a pipe", lambda: into_pipe(pal.draw), lambda: into_pipe(ntsc.draw), pal.size)


def main():
    program = os.path.abspath(sys.argv[1])
    fields = int(sys.argv[2]) if len(sys.argv) > 2 else 440
    with tempfile.TemporaryDirectory() as work:
        size = fields * FIELD["NTSC"]
        ntsc = Stream(program, "NTSC", size, work)
        compare_streams(ntsc, Stream(program, "PAL", size, work), work)
        compare_recovery(ntsc, work)
        metadata = os.path.join(work, "side.tbc.json")
        size = write_metadata(metadata, 10**7)
        extract = [program, "extract", "--meta", metadata, os.devnull]
        compared("metadata of 10 MB, beside jq", lambda: timed(extract),
                 lambda: timed(["jq", "-c", ".videoParameters", metadata]), size)


if __name__ == "__main__":
    main()

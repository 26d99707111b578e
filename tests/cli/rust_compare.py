"""Runs the proved program and the Rust program, or the two libraries, on the same drawn, damaged and random input, and
compares status, output and what is said, byte for byte. Of words of the command line, a refusal has to be one of both,
whatever clap says, and what is printed has to have the same words.
usage: python3 tests/cli/rust_compare.py WHAT PROVED OTHER COUNT SEED [RUNNER..]

WHAT is words (of the command line), streams (of fields, and lines), rows (of words to be drawn), metadata, or library.
PROVED and OTHER are programs, or libraries that can be loaded; RUNNER is what runs OTHER, as wine or qemu. Ends with
status 1 at the first run that differs, which it prints, or where there were fewer runs than COUNT, or none."""
import ctypes
import pathlib
import random
import re
import struct
import subprocess
import sys
import tempfile
from collections import namedtuple

TOP = pathlib.Path(__file__).resolve().parents[2]

COMMANDS = ["line", "extract", "show", "draw"]
OPTIONS = ["--meta", "--system", "--black", "--white", "--max-fields", "--recover", "--help", "--version", "-h", "-V"]
VALUES = ["", "-", "0", "1", "5", "-1", "+5", "++5", "65535", "65536", "8224", "16448", "1000001", "4294967296", "1e3",
          " 5", "99999999999999999999", "-99999999999999999999", "NTSC", "PAL", "NTS", "PALS", "ntsc", "line.raw",
          "beside.raw", "wrong.raw", "absent", ".", "meta.json", "bad.json", "\u00e4\u20ac\U0001f4bf"]
# Words that are near a command or an option, and others
STRAY = ["--", "-x", "-xh", "-hx", "-5", "--met=meta.json", "--meat", "--blac=5", "--maxfields", "--helq", "lines",
         "lien", "Line", "lineextract", "sho", "help", "helps", "--=5", "-=", "--help=x", "--black=x=y", "\u00fc"]
# Options that make a job
FIT = {"--meta": ["meta.json"], "--system": ["NTSC", "NTSC", "PAL"], "--black": ["5", "+5", "08224", "16448"],
       "--white": ["16448", "51200", "65535"], "--max-fields": ["1", "5", "0", "1000000"]}
# What clap says of its own options, by its version; and how a program was built, which --version says
MAY_DIFFER = re.compile(rb"Print (?:help|version)(?: information)?(?: \((?:see|use) [^()]*\))?"
                        rb"|(?<=^ldvbi \d\.\d\.\d )\((?:proved|plain Rust)\)$")
# Members of metadata, most of them right, some of them otherwise than the program takes them
MEMBERS = {
    "system": ['"NTSC"', '"PAL"', '"ntsc"', "3", "null"],
    "isSourcePal": ["true", "false", "0", '"true"'],
    "black16bIre": ["16384", "0", "65535", "65536", "-1", "1e3", "16384.0", '"5"', "18446744073709551616", "[]"],
    "white16bIre": ["51200", "16384", "16385", "65536", "5.5", "-0", "1e400", "null"],
    "fieldWidth": ["910", "1135", "911", "910.0"],
    "fieldHeight": ["263", "313", "1e2"],
    "other": ['"\\ud800"', '"\\u0000"', '"\\x"', "[[[]]]", '{"a":1,"a":2}', "NaN", "01", "1.", '"a\tb"', '"\x7f"'],
}


def put_files(folder):
    """The files that words of the command line name."""
    # A ramp, of which the answer has the column of the middle of black and white
    ramp = packed(NTSC, list(range(0, 72 * 910, 72)))
    videos = b'{"videoParameters":{"system":"NTSC","black16bIre":8224,"white16bIre":16448}}'
    for name, data in (("line.raw", ramp), ("beside.raw", ramp), ("wrong.raw", ramp), ("meta.json", videos),
                       ("beside.raw.json", videos), ("bad.json", videos[:-1]), ("wrong.raw.json", videos[:-1])):
        (folder / name).write_bytes(data)


def option(name, values):
    value = random.choice(values)
    return [f"{name}={value}"] if random.random() < 0.4 else [name, value]


def any_words():
    """An option with any value, or a word of any kind."""
    if random.random() < 0.5:
        return option(random.choice(OPTIONS[:5]), VALUES)
    return [random.choice(random.choice([OPTIONS, VALUES, STRAY, COMMANDS]))]


def words():
    """Words of a command line: half of them make a job but for one part, if any; the others are of any kind."""
    begun = [random.choice(COMMANDS)]
    if random.random() < 0.5:
        parts = [option(name, values) for name, values in FIT.items() if random.random() < 0.8]
        parts += [[random.choice(["line.raw", "line.raw", "beside.raw", "wrong.raw"])]] * (random.random() < 0.8)
        parts += [["--recover"]] * (random.random() < 0.1) + [any_words()] * (random.random() < 0.6)
        random.shuffle(parts)
    else:
        begun = random.choice([begun, begun, [], [random.choice(STRAY)], ["help", *begun]])
        parts = [any_words() for _ in range(random.randrange(5))]
    yield sum(parts, begun), b""


def compared(what, answer):
    """What is compared of an answer."""
    if what != "words":
        return answer
    status, out, said = answer
    return status, MAY_DIFFER.sub(b"", b" ".join(out.split())), said.startswith(b"error: ") and status == 2 or said


def streams():
    """A stream of fields, and a line."""
    setup = random_setup()
    options = ["--system", setup.system.name, "--black", str(setup.black), "--white", str(setup.white)]
    stream = b"".join(field_of(setup.system, random_rows(setup, 3)) for _ in range(random.randrange(4)))
    stream += bytes(random.random() < 0.3 and random.randrange(500000))
    recover = ["--recover"] * (random.random() < 0.5) + ["--max-fields=2"] * (random.random() < 0.2)
    yield [random.choice(["extract", "show"]), *options, *recover], stream
    yield ["line", *options], random_line(setup)[:rarely([1000, -1], None)]

def rows():
    """Rows of words to be drawn."""
    right, wrong = ["-", "F12345", "82CFFF", "8ae012", "800000", "FFFFFF"], ["7FFFFF", "12345", "G12345", "1234567"]
    texts = [" ".join(rarely(wrong, random.choice(right)) for _ in range(3)) + rarely([" ", "\r", "\t", " -", "\0"], "")
             for _ in range(random.randrange(6))]
    options = ["--system", random.choice(["NTSC", "PAL"]), "--black", "16384", "--white", "51200"]
    yield ["draw", *options], ("\n".join(texts) + random.choice(["\n", "\n", ""])).encode()


def metadata():
    """Metadata, and sometimes an option."""
    names = random.sample(list(MEMBERS)[:-1], random.randrange(2, 7))
    names += ["other"] * (random.random() < 0.15) + [random.choice(names)] * (random.random() < 0.1)
    members = [f'"{name}":{random.choice(MEMBERS[name][:random.choice([2, 2, None])])}' for name in names]
    data = bytearray(f'{{"videoParameters":{{{",".join(members)}}},"fields":[]}}'.encode())
    if random.random() < 0.2:
        data[random.randrange(len(data))] = random.randrange(256)
    deep = [b'{"videoParameters":{},"a":%s%s}' % (b"[" * depth, b"]" * depth) for depth in range(125, 129)]
    options = random.choice(["--system NTSC", "--black 5", "--white 60000", "--max-fields 0", *[""] * 8])
    yield ["extract", "--meta", "given", "/dev/null", *options.split()], rarely(deep, bytes(data))


def compare_programs(kind, commands, count):
    """Runs of one kind, each in a folder with the files of `put_files` and what the run is given, which is on standard
    input as well. What a program answered is its status, output, and what it said."""
    with tempfile.TemporaryDirectory() as name:
        folder = pathlib.Path(name)
        put_files(folder)
        for _ in range(count):
            for arguments, given in kind():
                (folder / "given").write_bytes(given)
                runs = [subprocess.run([*command, *arguments], input=given, capture_output=True, cwd=folder,
                                       timeout=120, check=False) for command in commands]
                yield (arguments, given), [(done.returncode, done.stdout, done.stderr) for done in runs]


# ---- Lines: drawn ones with damage, and samples of any kind

# `first` is the column at which words begin, `half` the columns of half a cell, and `halves` are others of which a word
# may still be read.
System = namedtuple("System", "name number width height first half halves")
NTSC = System("NTSC", 1, 910, 263, 150, 315 / 22, [14, 14, 14, 15, 13, 12])
PAL = System("PAL", 2, 1135, 313, 190, 709379 / 40000, [18, 18, 17, 19, 15, 21])
Setup = namedtuple("Setup", "system black white")


def random_setup():
    """A system and its levels, the wrong way round but seldom."""
    levels = random.sample([0, 1, 8224, 16384, 16448, 51200, 54016, 65534, 65535, random.randrange(65536)], 2)
    return Setup(random.choice([NTSC, PAL]), *sorted(levels, reverse=random.random() < 0.03))


def packed(system, line):
    """The bytes of a line of samples, which is filled up or cut."""
    return struct.pack(f"<{system.width}H", *(line + [0] * system.width)[:system.width])


def drawn_line(word, setup, start, half, moved):
    """The samples of a line that shows a word from this column on, with halves of cells of so many columns, whose edges
    are moved by up to so many."""
    line = [setup.black] * start
    for place in range(48):
        end = start + int((place + 1) * half) + random.randint(-moved, moved)
        is_high = word >> 23 - place // 2 & 1 == place % 2
        line += [setup.white if is_high else setup.black] * (end - len(line))
    return line + [setup.black] * (setup.system.width - len(line))


def random_line(setup):
    """The bytes of a line: drawn, with glitches, held levels or noise, and swinging more or less than from black to
    white; of random runs; or of random samples."""
    system, black, white = setup
    kind, line, middle, swing = random.random(), [], (black + white) // 2, white - black
    if kind > 0.9:
        return packed(system, [random.randrange(65536) for _ in range(system.width)])
    if kind > 0.8:
        while len(line) < system.width:
            line += [random.choice([black, white])] * random.choice([1, 2, 3, 11, 14, 18, 28, 29, 36, 60, 300])
        return packed(system, line)
    start = random.choice([system.first + random.randrange(-3, 4)] * 8 + [40, 0])
    half = random.choice([system.half] * 12 + system.halves)
    line = drawn_line(random.randrange(2 ** 23, 2 ** 24), setup, start, half, random.choice([0, 0, 0, 0, 1, 1, 3, 5]))
    for _ in range(random.choice([0, 0, 1, 1, 2, 5, 20])):
        at, length = random.randrange(system.width), random.choice([1, 1, 2, 3, 3, 4, 7, 20, 40, 60])
        level = random.choice([black, white, middle, middle + 1, 0, 65535])
        line[at:at + length] = [level] * len(line[at:at + length])
    if random.random() < 0.2:
        factor, above = random.choice([1, 2, 5, 8, 13, 15, 17]), random.choice([-3, 0, 2, 4]) * swing // 10
        line = [middle + (sample - middle) * factor // 10 + above for sample in line]
    spread = random.choice([0, 0, 0, 0, 0, 1, 500, abs(swing) // 4, abs(swing)])
    return packed(system, [min(65535, max(0, sample + random.randint(-spread, spread))) for sample in line])


def random_rows(setup, count):
    """The bytes of so many lines, some of which are the same."""
    kinds = [random_line(setup) for _ in range(random.choice([2, count, count]))]
    return b"".join(kinds[:count] + random.choices(kinds, k=count - len(kinds)))


def field_of(system, lines):
    """The bytes of a field with these three lines."""
    return bytes(2 * system.width * 15) + lines + bytes(2 * system.width * (system.height - 18))


# ---- The library, whose calls and their parameters are those of its header: those that look at samples and words. Of
# the calls that judge, the source is the same but for what is ghost (erased.py), and tests/library tries both.

CALLS = {name: (returned, re.findall(r"(const )?(\w+) (\*?)(\w+)", parameters)) for returned, name, parameters in
         re.findall(r"^(?:LDVBI_[^ ]+ )*(uint32_t|size_t) (ldvbi_\w+)\(([^()]*)\);",
                    (TOP / "include/ldvbi.h").read_text(encoding="utf-8"), re.M)}
ITEMS = {"void": 1, "LdvbiErased": 16}
# What there is after each pointer to something that is written
PATTERN = b"\xa5" * 2 ** 13


def arguments_of(name, given):
    """The arguments of a call by the names of its parameters, with ... for what is written. A length is that of the
    array before it, where it isn't given. Numbers and lengths are seldom wrong."""
    count, wrong = 0, (-2, -1)
    for const, kind, star, parameter in CALLS[name][1]:
        if const:
            count = len(given[parameter]) // ITEMS[kind]
            yield given[parameter]
        elif star:
            wrong = (-2, -1, 1)
            yield ...
        elif kind == "size_t":
            yield ctypes.c_size_t(max(0, given.get(parameter, count) + rarely(wrong, 0)))
        else:
            yield ctypes.c_uint32(rarely((0, 3, 4, 257, 65536, 2 ** 32 - 1), given[parameter]))


def answer_of(library, name, arguments):
    """What a library answers, and what it writes over a pattern."""
    function = getattr(library, name)
    function.restype = {"uint32_t": ctypes.c_uint32, "size_t": ctypes.c_size_t}[CALLS[name][0]]
    places = [ctypes.create_string_buffer(PATTERN, len(PATTERN)) if one is ... else one for one in arguments]
    answer = function(*places)
    written = [bytearray(place.raw) for place, one in zip(places, arguments) if one is ...]
    return answer, written


def rarely(wrong, right):
    """What is right, and seldom one of those that are wrong."""
    return random.choice(wrong) if random.random() < 0.05 else right


def random_erased(fields):
    """A list of erased columns, which is sorted but rarely."""
    entries = [(random.randrange(fields), random.randrange(16, 19), *sorted(random.sample(range(1200), 2)))
               for _ in range(random.randrange(6))]
    return b"".join(struct.pack("<4I", *entry) for entry in rarely([entries], sorted(entries)))


def compare_lines(call):
    """Lines of any kind, read alone, as rows and as fields, and drawn; words classified; nearest and recovered ones."""
    setup = random_setup()
    word = random.choice([0, random.randrange(2 ** 24), random.randrange(2 ** 23, 2 ** 24), 2 ** 32 - 1])
    given = {"system": setup.system.number, "black": setup.black, "white": setup.white, "word": word, "line": 17}
    yield call("ldvbi_read_line", given, samples=random_line(setup))
    yield call("ldvbi_read_rows", given, samples=random_rows(setup, 3))
    yield call("ldvbi_draw_line", given, length=2 * setup.system.width)
    words = [random.choice([0, 0x82CFFF, 0x87FFFF, 0xF12345, 0xF0DD09, word]) for _ in range(3)]
    for value in (*words, random.randrange(2 ** 32), random.randrange(2 ** 23, 2 ** 24)):
        yield call("ldvbi_classify", {"word": value})
    yield call("ldvbi_format", dict(zip(("first", "second", "third"), words)))
    if random.random() < 0.2:
        worn = random_rows(setup, random.choice([1, 1, 2, 2, 3, 28, 29]))
        erased = b"".join(struct.pack("<4I", place, 17, 300, 300 + random.randrange(200)) for place in range(2))
        yield call("ldvbi_nearest", given, samples=worn)
        yield call("ldvbi_recover_pile", given, known=random.choice([0, 1, 1, 2]), samples=worn,
                   erased=erased[:random.choice([0, 16, 32])])
        for name in ("ldvbi_recover_rows", "ldvbi_recovered_record"):
            yield call(name, given, samples=random_rows(setup, 3), erased=random_erased(1),
                       number=random.randrange(2 ** random.randrange(33)))
    if random.random() < 0.05:
        field = field_of(setup.system, random_rows(setup, 3))
        yield call("ldvbi_read_field", given, samples=field)
        for name in ("ldvbi_read_fields", "ldvbi_recover_fields"):
            yield call(name, given, samples=2 * field, erased=random_erased(2),
                       count=random.choice([1, 2, 2, 2, 3, 2 ** 40]))


def compare_library(paths, count):
    """Each call, with arguments of which most fit."""
    libraries = [ctypes.CDLL(path) for path in paths]

    def call(name, given, **others):
        arguments = list(arguments_of(name, {**given, **others}))
        return (name, arguments), [answer_of(library, name, arguments) for library in libraries]

    for name, (_, parameters) in CALLS.items():
        if all(parameter == "system" for *_, parameter in parameters):
            for system in (0, 1, 2, 3, 257, 2 ** 32 - 1):
                yield call(name, {"system": system})
    for _ in range(count):
        yield from compare_lines(call)


def main(what, proved, other, count, seed, *runner):
    random.seed(f"{what} {seed}")
    if what == "library":
        pairs = compare_library([proved, other], int(count))
    else:
        kind = {"words": words, "streams": streams, "rows": rows, "metadata": metadata}[what]
        pairs = compare_programs(kind, [[proved], [*runner, other]], int(count))
    runs = 0
    for runs, (given, (one, two)) in enumerate(pairs, 1):
        if compared(what, one) != compared(what, two):
            print(f"{what}, seed {seed}, run {runs}: {str(given)[:500]}")
            print(f"  proved: {str(one)[:500]}\n  other:  {str(two)[:500]}")
            return 1
    print(f"{what}: {runs} runs, all the same")
    return runs < max(1, int(count))


if __name__ == "__main__":
    sys.exit(main(*sys.argv[1:]))
